#!/bin/sh
# How fast opam files are linted, beside how fast they are read: the opam files below FOLDER (the system's OCaml folders, left
# out where they have none), and the made texts of bench/syntax.sh of 256 KiB and 1 MiB, which is the longest that is linted.
# What is measured is processor time, user's and system's, as the best of five runs, less what a run that only loads the texts
# takes. The program is proved and built in a copy, which takes minutes.
# Aim: at least 0.7 of the reader's speed. Measured once, on 4 processors beside a dozen provers, which blurs it: 0.75 (256 KiB) and
# 1.05 (1 MiB) for small fields, which have a finding each, and 0.96 to 1.23 for the others.
# Usage: bench/lint.sh [FOLDER]
set -eu
top=$(cd "$(dirname "$0")/.." && pwd)

for tool in rt python3; do
    if ! command -v "$tool" >/dev/null 2>&1; then
        echo "bench/lint.sh: skipped, since $tool is missing"
        exit 0
    fi
done

work=$(mktemp -d)
trap 'rm -rf "$work"' EXIT
program=$work/crates/linter
mkdir -p "$program/src" "$program/specs" "$program/proofs"
libraries="opam_names syntax_trees syntax_faults syntax_places opam_syntax opam_filter opam_package opam_lint"
for crate in $libraries; do
    cp -R "$top/crates/$crate" "$work/crates/$crate"
    rm -rf "$work/crates/$crate/out"
    grep "^$crate:" "$top/crates.txt" >>"$work/crates.txt"
done
echo "linter: $libraries" >>"$work/crates.txt"
: >"$program/specs/Lib.antt"
: >"$program/proofs/Lib.antt"

cat >"$program/src/main.rt" <<'RATTLE'
//! Reads or lints each text that it is given so many times, and prints how often it was a file, or how many findings it has.
#![tactic(auto)]

use opam_lint::lint;
use opam_package::OPAM_LIMIT;
use opam_syntax::read_file;
use std::alloc::Global;
use std::io::{BufRead, BufReader};
use std::{env, fs, io};
use syntax_trees::FILE_LIMIT;

fn files(alloc: Global, bytes: &[u8]) -> u64 {
    if bytes.len() <= FILE_LIMIT && read_file(alloc, bytes).is_ok() {
        1
    } else {
        0
    }
}

fn findings(alloc: Global, bytes: &[u8]) -> u64 {
    if bytes.len() > OPAM_LIMIT {
        return 0;
    }
    match lint(alloc, bytes) {
        Ok(found) => found.len() as u64,
        Err(_) => 0,
    }
}

fn count(alloc: Global, texts: &[Vec<u8>], linted: bool) -> u64 {
    let mut count = 0u64;
    for text in texts {
        let bytes = text.as_slice();
        let more = if linted {
            findings(alloc, bytes)
        } else {
            files(alloc, bytes)
        };
        count = count.wrapping_add(more);
    }
    count
}

fn number(rt: &HostRuntime, place: usize) -> io::Result<u64> {
    match env::args(rt)?.nth(place) {
        Some(word) => Ok(word.as_str().parse::<u64>().unwrap_or(0)),
        None => Ok(0),
    }
}

fn main(rt: HostRuntime) -> io::Result<()> {
    let alloc = rt.alloc();
    let linted = number(&rt, 1)? == 1;
    let turns = number(&rt, 2)?;
    let mut texts: Vec<Vec<u8>> = Vec::new(alloc);
    for path in BufReader::new(alloc, rt.reader())?.lines(alloc) {
        texts.push(fs::read(&rt, path?.as_str())?)?;
    }
    let mut sum = 0u64;
    for _ in 0..turns {
        sum = sum.wrapping_add(count(alloc, texts.as_slice(), linted));
    }
    println!(rt; "{sum}")
}
RATTLE

folders=${1:-}
if [ -z "$folders" ]; then
    folders=$(ocamlfind printconf destdir 2>/dev/null || true)
    folders="$folders /usr/lib/ocaml /usr/local/lib/ocaml $HOME/.opam"
fi
for folder in $folders; do
    if [ -d "$folder" ]; then
        find "$folder" -type f \( -name opam -o -name '*.opam' \) -size -1025k
    fi
done | sort -u >"$work/found"

(cd "$program" && rt run -- 0 0) >"$work/log" 2>&1 </dev/null || true
if [ ! -x "$program/out/linter" ]; then
    echo "bench/lint.sh: the program is not built:" >&2
    tail -n 20 "$work/log" >&2
    exit 1
fi

# The made texts are those of the other script.
sed -n '/^def filled(/,/^]$/p' "$top/bench/syntax.sh" >"$work/kinds.py"

exec python3 - "$program/out/linter" "$work" <<'PYTHON'
import os
import subprocess
import sys

PROGRAM, WORK = sys.argv[1:3]
SIZES = [("256 KiB", 1 << 18), ("1 MiB", 1 << 20)]
LEAST_TIME = 0.3  # seconds that a run is to take at least
LEAST_SHARE = 0.7  # of the reader's speed
with open(os.path.join(WORK, "kinds.py")) as file:
    exec(file.read())


def run(mode, paths, turns):
    """What it printed, and how many seconds of processor time it took."""
    given = os.path.join(WORK, "paths")
    with open(given, "w") as file:
        file.write("".join(path + "\n" for path in paths))
    with open(given) as file:
        child = subprocess.Popen([PROGRAM, str(mode), str(turns)], stdin=file, stdout=subprocess.PIPE)
        printed = child.stdout.read().decode()
        _, status, usage = os.wait4(child.pid, 0)
    child.returncode = status
    if status != 0:
        sys.exit("bench/lint.sh: the program failed")
    return int(printed), usage.ru_utime + usage.ru_stime


def seconds(mode, paths):
    """How long one turn takes over these paths, and the number that was printed of it."""
    idle = min(run(mode, paths, 0)[1] for _ in range(5))
    printed, once = run(mode, paths, 1)
    turns = max(1, round(LEAST_TIME / max(once - idle, 1e-4)))
    spent = min(run(mode, paths, turns)[1] for _ in range(5)) - idle
    return max(spent, 1e-9) / turns, printed


missed = []


def measure(what, paths, size):
    reading, _ = seconds(0, paths)
    linting, count = seconds(1, paths)
    share = reading / linting
    if share < LEAST_SHARE:
        missed.append(f"{what}: {share:.2f} of the reader's speed, where the aim is {LEAST_SHARE}")
    print(f"{what:28} {size / reading / 1e6:8.1f} {size / linting / 1e6:8.1f} {share:8.2f}   findings: {count}", flush=True)


print(f"{'':28} {'read':>8} {'lint':>8} {'share':>8}   (MB/s)")
with open(os.path.join(WORK, "found")) as file:
    found = file.read().split("\n")[:-1]
if found:
    measure(f"{len(found)} opam files found", found, sum(os.path.getsize(path) for path in found))
else:
    print("opam files found: none, so these are left out")
for kind, make in KINDS:
    for name, size in SIZES:
        path = os.path.join(WORK, "text")
        with open(path, "w") as file:
            file.write(make(size))
        measure(f"{kind}, {name}", [path], size)
print("\n".join(["aims that are missed:"] + missed) if missed else "all aims are met")
PYTHON
