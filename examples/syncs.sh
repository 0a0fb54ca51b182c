#!/bin/sh
# Which files and folders a run writes to the device, one after another, and how it ends: prints what a first install
# writes, and what the first sync of a run makes up for where an earlier one was killed. Compare it with
# examples/syncs-expected. It needs a C compiler.
set -eu
top=$(cd "$(dirname "$0")/.." && pwd)
program=$(sh "$top/examples/program.sh")

work=$(mktemp -d)
trap 'rm -rf "$work"' EXIT
cc -shared -fPIC -o "$work/syncs.so" "$top/examples/syncs.c" -ldl

# A fresh folder with a package that places one file.
begin() {
    echo "== $1"
    rm -rf "$work/run"
    mkdir -p "$work/run/packages/hello/hello.1"
    cd "$work/run"
    cat >packages/hello/hello.1/opam <<'FIELDS'
opam-version: "2.0"
build: [["sh" "-c" "echo hello >hello"] ["sh" "-c" "echo 'bin: [\"hello\"]' >hello.install"]]
FIELDS
    printf 'depends: ["hello" {= "1"}]\n' >lock
}

# Runs the program, and prints the paths that it wrote to the device, as they stand below the folder.
run() {
    status=0
    rm -f "$work/syncs"
    SYNCS=$work/syncs LD_PRELOAD=$work/syncs.so "$program" install --lock-file lock 2>&1 || status=$?
    echo "status $status"
    sed "s|^$(pwd -P)|.|" "$work/syncs"
}

begin "a first install"
run

begin "an install where an earlier run was killed before it synced"
mkdir -p _opam/.opam-switch/journal/rec
echo left >_opam/.opam-switch/journal/rec/5
run
