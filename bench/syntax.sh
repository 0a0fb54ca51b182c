#!/bin/sh
# How fast texts of files are read, and with how much memory: the opam files below FOLDER (the system's OCaml folders, left
# out where they have none), and made texts of 256 KiB, 1 MiB and 4 MiB of seven kinds. Beside it, over the same texts, the
# parser of the OCaml library `opam-file-format` (left out where it is missing) and a plain C loop that sums the bytes. What
# is measured is processor time, user's and system's, as the best of five runs, less what a run that only loads the texts
# takes; and the most memory that a process held, less what it held with the texts loaded. The reader is proved and built in
# a copy, which takes minutes.
#
# Aims, and what falls short of them (one whole run, on 4 processors beside several provers; no opam files were found on that
# machine, so these were left out):
# - 50 MB/s. Texts of a few bytes a token have less: 12 to 13 small fields, 15 to 18 a list of texts of one byte, 3 deep nests,
#   17 to 19 small fields with a doubled name at the end. One section of short fields has 58 to 246, long texts 484 and more,
#   comments 509 and more.
# - Five times `opam-file-format`: 4.3 to 5.4 for small fields, 4.0 to 5.4 with a doubled name, 5.4 to 8.7 for the list, 5.8 to
#   7.8 for the section, 11 for long texts, 4.7 to 10 for comments; 1.1 to 1.3 for deep nests.
# - At most 40 times the C loop: 110 to 126 for small fields, 112 to 141 for the list, 560 to 744 for deep nests; 36 and less for
#   the section, 4.3 and less for long texts and comments.
# - At most 100 bytes of memory a byte of text: 213 for deep nests; 42 and less for all others.
# - 4 MiB in at most five times the time of 1 MiB: 4.0 to 4.4 times for each kind, 1.6 for the section.
# Where the time goes (perf): a token takes its 64 bytes of the vector between the two passes, and a node 64 more, so a
# quarter is the system's, which hands out fresh pages; a quarter to a third is `malloc`, `free` and `memmove` of tokens and
# nodes. In deep nests each bracket goes through the eight levels of the grammar, each of which moves the result, and a list of
# one value has the room of four.
# Usage: bench/syntax.sh [FOLDER]
set -eu
top=$(cd "$(dirname "$0")/.." && pwd)

for tool in rt python3 gcc; do
    if ! command -v "$tool" >/dev/null 2>&1; then
        echo "bench/syntax.sh: skipped, since $tool is missing"
        exit 0
    fi
done

work=$(mktemp -d)
trap 'rm -rf "$work"' EXIT
program=$work/crates/syntax_reader
mkdir -p "$program/src"
for crate in opam_names syntax_trees syntax_faults syntax_places opam_syntax; do
    cp -R "$top/crates/$crate" "$work/crates/$crate"
    rm -rf "$work/crates/$crate/out"
done
grep -E '^(opam_names|syntax_trees|syntax_faults|syntax_places|opam_syntax):' "$top/crates.txt" >"$work/crates.txt"
echo 'syntax_reader: opam_names syntax_trees opam_syntax' >>"$work/crates.txt"

cat >"$program/src/main.rt" <<'RATTLE'
//! Reads each text that it is given so many times, and prints how often it was a file, and what the system says of memory.
#![tactic(auto)]

use opam_syntax::read_file;
use std::alloc::Global;
use std::io::{BufRead, BufReader};
use std::{env, fs, io};
use syntax_trees::FILE_LIMIT;

fn count_files(alloc: Global, texts: &[Vec<u8>]) -> u64 {
    let mut count = 0u64;
    for text in texts {
        let bytes = text.as_slice();
        if bytes.len() <= FILE_LIMIT && read_file(alloc, bytes).is_ok() {
            count = count.wrapping_add(1);
        }
    }
    count
}

fn main(rt: HostRuntime) -> io::Result<()> {
    let alloc = rt.alloc();
    let turns = match env::args(&rt)?.nth(1) {
        Some(word) => word.as_str().parse::<u64>().unwrap_or(0),
        None => 0,
    };
    let mut texts: Vec<Vec<u8>> = Vec::new(alloc);
    for path in BufReader::new(alloc, rt.reader())?.lines(alloc) {
        texts.push(fs::read(&rt, path?.as_str())?)?;
    }
    let mut count = 0u64;
    for _ in 0..turns {
        count = count.wrapping_add(count_files(alloc, texts.as_slice()));
    }
    let status = fs::read_to_string(&rt, "/proc/self/status")?;
    println!(rt; "{count}\n{}", status.as_str())
}
RATTLE

cat >"$work/sums.c" <<'C'
#include <inttypes.h>
#include <stdio.h>
#include <stdlib.h>
#include <string.h>

__attribute__((noinline)) static uint64_t sum_of(const unsigned char *bytes, size_t len) {
    uint64_t sum = 0;
    for (size_t i = 0; i < len; i++) sum += bytes[i];
    return sum;
}

int main(int argc, char **argv) {
    static char path[4096];
    unsigned char **texts = NULL;
    size_t *lens = NULL, n = 0, room = 0;
    while (fgets(path, sizeof path, stdin)) {
        path[strcspn(path, "\n")] = 0;
        FILE *file = fopen(path, "rb");
        if (!file) return 1;
        fseek(file, 0, SEEK_END);
        size_t len = ftell(file);
        rewind(file);
        if (n == room) {
            room = room ? 2 * room : 64;
            texts = realloc(texts, room * sizeof *texts);
            lens = realloc(lens, room * sizeof *lens);
        }
        texts[n] = malloc(len + 1);
        lens[n] = fread(texts[n], 1, len, file);
        fclose(file);
        n++;
    }
    long turns = argc > 1 ? atol(argv[1]) : 0;
    uint64_t sum = 0;
    for (long turn = 0; turn < turns; turn++)
        for (size_t i = 0; i < n; i++) sum = sum * 31 + sum_of(texts[i], lens[i]);
    printf("%" PRIu64 "\n", sum);
    return 0;
}
C
gcc -O2 -o "$work/sums" "$work/sums.c"

cat >"$work/parser.ml" <<'ML'
let load path =
  let channel = open_in_bin path in
  let text = really_input_string channel (in_channel_length channel) in
  close_in channel;
  text

let rec paths () = match input_line stdin with path -> path :: paths () | exception End_of_file -> []

let () =
  let turns = int_of_string Sys.argv.(1) in
  let texts = List.map load (paths ()) in
  let count = ref 0 in
  let read text = match OpamParser.FullPos.string text "opam" with _ -> incr count | exception _ -> () in
  for _ = 1 to turns do List.iter read texts done;
  Printf.printf "%d\n" !count
ML
parser=$work/parser
if ! (cd "$work" && ocamlfind ocamlopt -package opam-file-format -linkpkg parser.ml -o parser) >"$work/log" 2>&1; then
    echo "bench/syntax.sh: no figures of opam-file-format, since it or OCaml is missing"
    parser=
fi

folders=${1:-}
if [ -z "$folders" ]; then
    folders=$(ocamlfind printconf destdir 2>/dev/null || true)
    folders="$folders /usr/lib/ocaml /usr/local/lib/ocaml $HOME/.opam"
fi
for folder in $folders; do
    if [ -d "$folder" ]; then
        find "$folder" -type f \( -name opam -o -name '*.opam' \) -size -4097k
    fi
done | sort -u >"$work/found"

(cd "$program" && rt run -- 0) >"$work/log" 2>&1 </dev/null || true
if [ ! -x "$program/out/syntax_reader" ]; then
    echo "bench/syntax.sh: the reader is not built:" >&2
    tail -n 20 "$work/log" >&2
    exit 1
fi

exec python3 - "$program/out/syntax_reader" "$work/sums" "$work" "$parser" <<'PYTHON'
import os
import re
import subprocess
import sys

READER, SUMS, WORK, PARSER = sys.argv[1:5]
SIZES = [("256 KiB", 1 << 18), ("1 MiB", 1 << 20), ("4 MiB", 1 << 22)]
LEAST_TIME = 0.3  # seconds that a run is to take at least


def filled(head, pieces, tail, size):
    """The head, as many of the pieces as fit, blanks, and the tail: so many bytes in all."""
    parts, left = [head], size - len(head) - len(tail)
    for piece in pieces:
        if len(piece) > left:
            break
        parts.append(piece)
        left -= len(piece)
    return "".join(parts) + "\n" * left + tail


def small_fields():
    values = ["true", "42", '"some text"', "name", '[ "a" ]', '"b" {>= "1"}']
    number = 0
    while True:
        yield f"field{number}: {values[number % len(values)]}\n"
        number += 1


def repeated(text):
    while True:
        yield text


def section(size):
    head, tail = 'extra-source "archive" {\n', "}\n"
    width = (size - len(head) - len(tail)) // 10000 - len('  field1234: ""\n')
    lines = "".join(f'  field{n:04}: "{"x" * width}"\n' for n in range(10000))
    return filled(head + lines, [], tail, size)


NEST = "[" * 63 + "]" * 63 + "\n"
LINE = "A line of a long text, with a 'quote', some digits 0123456789 and a stop.\n"
COMMENTS = "# a comment up to the end of its line, with \"quotes\"\n(* and one\n   of two lines *)\n"
KINDS = [
    ("small fields", lambda size: filled("", small_fields(), "", size)),
    ("one list", lambda size: filled("list: [\n", repeated('"a" '), "]\n", size)),
    ("deep nests", lambda size: filled("nests: [\n", repeated(NEST), "]\n", size)),
    ("one long text", lambda size: filled('description: """\n', repeated(LINE), '"""\n', size)),
    ("comments alone", lambda size: filled("", repeated(COMMENTS), "", size)),
    ("one section", section),
    ("doubled at the end", lambda size: filled("", small_fields(), "field0: true\n", size)),
]


def run(program, paths, turns):
    """What it printed, and how many seconds of processor time it took."""
    given = os.path.join(WORK, "paths")
    with open(given, "w") as file:
        file.write("".join(path + "\n" for path in paths))
    with open(given) as file:
        child = subprocess.Popen([program, str(turns)], stdin=file, stdout=subprocess.PIPE)
        printed = child.stdout.read().decode()
        _, status, usage = os.wait4(child.pid, 0)
    child.returncode = status
    if status != 0:
        sys.exit(f"bench/syntax.sh: {os.path.basename(program)} failed")
    return printed, usage.ru_utime + usage.ru_stime


def seconds(program, paths):
    """How long one turn takes over these paths, and the first number that was printed."""
    idle = min(run(program, paths, 0)[1] for _ in range(5))
    printed, once = run(program, paths, 1)
    turns = max(1, round(LEAST_TIME / max(once - idle, 1e-4)))
    spent = min(run(program, paths, turns)[1] for _ in range(5)) - idle
    return max(spent, 1e-9) / turns, int(printed.split()[0])


def memory(paths):
    """How many bytes the reader holds beside the texts."""
    held = []
    for turns in (0, 1):
        printed, _ = run(READER, paths, turns)
        held.append(int(re.search(r"VmHWM:\s+(\d+) kB", printed).group(1)) * 1024)
    return held[1] - held[0]


missed = []


def aim(what, value, bound, met):
    if not met:
        missed.append(f"{what}: {value:.1f}, where the aim is {bound}")


def measure(what, paths, size):
    ours, count = seconds(READER, paths)
    loop, _ = seconds(SUMS, paths)
    rate = size / ours / 1e6
    aim(f"{what}, MB/s", rate, "50", rate >= 50)
    aim(f"{what}, times the C loop", ours / loop, "40", ours <= 40 * loop)
    told, files = f"{what:28} {rate:8.1f} {ours / loop:8.1f}", f"files: {count}"
    if PARSER:
        theirs, accepted = seconds(PARSER, paths)
        aim(f"{what}, times as fast as opam-file-format", theirs / ours, "5", theirs >= 5 * ours)
        told += f" {size / theirs / 1e6:8.1f} {theirs / ours:8.1f}"
        files += f" and {accepted}"
    if len(paths) == 1:
        held = memory(paths) / size
        aim(f"{what}, bytes of memory a byte", held, "100", held <= 100)
        told += f" {held:8.1f}"
    print(f"{told}   {files} of {len(paths)}", flush=True)
    return ours


print(f"{'':28} {'MB/s':>8} {'x C loop':>8}" + (f" {'OCaml':>8} {'faster':>8}" if PARSER else "") + f" {'memory':>8}")
with open(os.path.join(WORK, "found")) as file:
    found = file.read().split("\n")[:-1]
if found:
    measure(f"{len(found)} opam files found", found, sum(os.path.getsize(path) for path in found))
else:
    print("opam files found: none, so these are left out")
for kind, make in KINDS:
    spent = {}
    for name, size in SIZES:
        path = os.path.join(WORK, "text")
        with open(path, "w") as file:
            file.write(make(size))
        spent[name] = measure(f"{kind}, {name}", [path], size)
    growth = spent["4 MiB"] / spent["1 MiB"]
    print(f"{kind}: 4 MiB takes {growth:.2f} times as long as 1 MiB", flush=True)
    aim(f"{kind}, 4 MiB to 1 MiB", growth, "5", growth <= 5)
print("\n".join(["aims that are missed:"] + missed) if missed else "all aims are met")
PYTHON
