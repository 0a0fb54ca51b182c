#!/bin/sh
# Prints the path of the program. It is built first where there is none, or where a source is newer than it; what is
# being done is then said on standard error.
set -eu
top=$(cd "$(dirname "$0")/.." && pwd)
program=$top/crates/opam_main/out/opam_main

is_current() {
    [ -x "$program" ] &&
        [ -z "$(find "$top/crates.txt" "$top"/crates/*/src "$top"/crates/*/specs -newer "$program" | head -n 1)" ]
}

# Says when the next crate begins, and else nothing of what the toolchain prints.
progress() {
    sed -un 's/^rt: chose --jobs .* for \(.*\)$/opam_main: proving \1/p; s/^crate \([a-z_]*\): .*$/opam_main: \1 is checked/p'
}

if ! is_current; then
    crates=$(sed -n 's/^\([a-z_]*\)[ :].*/\1/p' "$top/crates.txt" | tr '\n' ' ')
    {
        echo "opam_main: the program is built only once it is proved, and each crate below it."
        echo "opam_main: this mostly takes about 15 minutes with 4 processors, and some seconds where nothing has changed."
        echo "opam_main: the crates are, from the lowest on: $crates"
    } >&2
    # `rt run` builds the program and then runs it, here with no words, on which it does nothing.
    rm -f "$program"
    (cd "$top/crates/opam_main" && rt run 2>&1 </dev/null || true) | progress >&2
fi
if [ ! -x "$program" ]; then
    echo "opam_main is not built: see what 'rt run' says in crates/opam_main" >&2
    exit 1
fi
echo "$program"
