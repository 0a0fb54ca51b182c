#!/bin/sh
# Runs in which something fails, on real folders: prints what each writes to standard output and to standard error, and
# the status that its process ends with. Compare it with examples/failures-expected.
set -eu
top=$(cd "$(dirname "$0")/.." && pwd)
program=$(sh "$top/examples/program.sh")

work=$(mktemp -d)
trap 'chmod -R u+rwx "$work"; rm -rf "$work"' EXIT

# A package NAME.1 whose opam file has the field that is handed in.
package() {
    mkdir -p "packages/$1/$1.1"
    { echo 'opam-version: "2.0"'; cat; } >"packages/$1/$1.1/opam"
}

# A fresh folder with four packages: one that is installed, and three that fail.
begin() {
    echo "== $1"
    rm -rf "$work/run"
    mkdir "$work/run"
    cd "$work/run"
    package good <<'FIELD'
build: [["sh" "-c" "echo good >good"] ["sh" "-c" "echo 'bin: [\"good\"]' >good.install"]]
FIELD
    package exits <<'FIELD'
build: [["true"] ["sh" "-c" "echo to the log; exit 7"]]
FIELD
    package killed <<'FIELD'
build: [["sh" "-c" "kill -9 $$"]]
FIELD
    package nothing <<'FIELD'
build: [["no-such-command"]]
FIELD
    printf 'depends: ["good" {= "1"}]\n' >lock
}

# Runs the program, at most for a minute, and tells how it ends.
run() {
    status=0
    timeout 60 "$program" install --lock-file lock >"$work/out" 2>"$work/err" || status=$?
    sed 's/^/out: /' "$work/out"
    sed 's/^/err: /' "$work/err"
    echo "status $status"
}

begin "packages that fail, and one that does not"
printf 'depends: ["good" {= "1"} "exits" {= "1"} "killed" {= "1"} "nothing" {= "1"}]\n' >lock
run
cat _opam/.opam-switch/build/exits.1/opam.log

begin "standard output is full"
status=0
"$program" install --lock-file lock 2>"$work/err" >/dev/full || status=$?
sed 's/^/err: /' "$work/err"
echo "status $status"
cat _opam/bin/good

begin "the switch is a link"
mkdir elsewhere
ln -s elsewhere _opam
run
ls -A elsewhere

begin "the lock is a pipe"
rm lock
mkfifo lock
run

begin "no standard streams are open"
status=0
"$program" install --lock-file lock <&- >&- 2>&- || status=$?
echo "status $status"
head -c 8 _opam/.opam-switch/journal/rec/1
echo

begin "the process masks each right of others"
(umask 077 && run)
stat -c '%a %n' _opam/bin/good _opam/.opam-switch/journal/rec/1
