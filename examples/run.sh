#!/bin/sh
# Installs the lock of examples/sample in a fresh folder: `hello` is built by its commands, which make a program and the
# `.install` file that names it. Prints what the program prints, its status, the files that it leaves but for the build
# folders, and what the installed program prints, the same on each machine: compare it with examples/expected.
set -eu
top=$(cd "$(dirname "$0")/.." && pwd)
program=$(sh "$top/examples/program.sh")

work=$(mktemp -d)
trap 'rm -rf "$work"' EXIT
cp -R "$top/examples/sample/." "$work"
cd "$work"
status=0
"$program" install --lock-file lock 2>&1 || status=$?
echo "status $status"
if [ -d _opam ]; then
    find _opam -path _opam/.opam-switch/build -prune -o -type f -print | LC_ALL=C sort
fi
if [ -x _opam/bin/hello ]; then
    _opam/bin/hello
fi
