#!/bin/sh
# How long it takes to find the packages of a repository: COUNT (2,000) made packages with five dependencies each, with
# filters and versions. It prints milliseconds a package: for `find`, which reads the text, the file and what the file says,
# over a host that has the texts in memory; for `read_file` alone; and beside them for the parser of the OCaml library
# `opam-file-format` over the same texts (Debian package `libopam-file-format-ocaml-dev`; left out where it is missing). What
# is measured is processor time, user's and system's, as the best of ten runs, less what a run takes that only loads the
# texts. The program is proved and built in a copy, which takes minutes.
#
# The aim: to find a package takes no longer than `opam-file-format` takes to parse its text. Measured three times on 4 processors
# of 2.5 GHz beside a dozen provers, which blurs it: 0.035 to 0.039 ms for `find`, 0.014 to 0.019 for `read_file`, and 0.038 to 0.052
# for `opam-file-format` 2.1.5 (OCaml 4.13). In instructions, which no other work blurs (callgrind, 200 packages): 228,000 a package for
# `find`, 105,000 for `read_file`, 251,000 for `opam-file-format`. So the aim is met, with a tenth to spare.
# Where the time of `find` goes: not half to the reading of the file, the rest to what the file says (the variables, the formulas
# under three readings, the commands); over all two fifths are `malloc` and `free`.
# Usage: bench/packages.sh [COUNT]
set -eu
top=$(cd "$(dirname "$0")/.." && pwd)
count=${1:-2000}

for tool in rt python3; do
    if ! command -v "$tool" >/dev/null 2>&1; then
        echo "bench/packages.sh: skipped, since $tool is missing"
        exit 0
    fi
done

work=$(mktemp -d)
trap 'rm -rf "$work"' EXIT
program=$work/crates/finder
mkdir -p "$program/src" "$program/specs" "$program/proofs"
libraries="opam_names syntax_trees syntax_faults syntax_places opam_syntax opam_filter opam_package outside_io folder_repo"
for crate in $libraries; do
    cp -R "$top/crates/$crate" "$work/crates/$crate"
    rm -rf "$work/crates/$crate/out"
    grep "^$crate[: ]" "$top/crates.txt" >>"$work/crates.txt"
done
echo "finder: $libraries" >>"$work/crates.txt"
: >"$program/specs/Lib.antt"
: >"$program/proofs/Lib.antt"

cat >"$program/src/main.rt" <<'RATTLE'
//! Finds each package that it is given in a repository, or reads its file, so many times, and prints how many are sound.
#![tactic(auto)]

use folder_repo::find;
use opam_filter::Vars;
use opam_names::Pkg;
use opam_syntax::read_file;
use outside_io::MemoryHost;
use std::alloc::Global;
use std::io::{BufRead, BufReader};
use std::{env, fs, io};
use syntax_trees::FILE_LIMIT;

/// So many bytes may be read of a repository.
const ROOM: u64 = 268435456;

// A package of the repository, and a host that has its file alone.
#[derive(Drop)]
struct Made {
    pkg: Pkg,
    text: Vec<u8>,
    host: MemoryHost,
}

fn host_of(alloc: Global, path: &str, text: &[u8]) -> io::Result<MemoryHost> {
    let mut files = Vec::new(alloc);
    files.push((
        String::from_str(alloc, path)?,
        Vec::from_slice(alloc, text)?,
    ))?;
    Ok(MemoryHost::new(files, Vec::new(alloc)))
}

fn pkg_of(alloc: Global, text: &str) -> Option<Pkg> {
    let bytes = text.as_bytes();
    if bytes.len() > 1000 {
        return None;
    }
    Pkg::read(alloc, bytes).ok()
}

// Whether the package is found.
fn is_found(alloc: Global, made: &mut Made, vars: &Vars) -> bool {
    matches!(
        find(&mut made.host, alloc, "r", &made.pkg, ROOM, vars),
        Ok(Some(_))
    )
}

fn count_found(alloc: Global, all: &mut Vec<Made>, vars: &Vars) -> u64 {
    let mut count = 0u64;
    for made in all.iter_mut() {
        count = count.wrapping_add(u64::from(is_found(alloc, made, vars)));
    }
    count
}

fn is_file(alloc: Global, text: &[u8]) -> bool {
    text.len() <= FILE_LIMIT && read_file(alloc, text).is_ok()
}

fn count_files(alloc: Global, all: &[Made]) -> u64 {
    let mut count = 0u64;
    for made in all {
        count = count.wrapping_add(u64::from(is_file(alloc, made.text.as_slice())));
    }
    count
}

fn measure(rt: &HostRuntime, all: &mut Vec<Made>) -> io::Result<()> {
    let alloc = rt.alloc();
    let vars = Vars::empty(alloc);
    let only_read = number(rt, 2)? == 1;
    let mut count = 0;
    for _ in 0..number(rt, 3)? {
        count = if only_read {
            count_files(alloc, all.as_slice())
        } else {
            count_found(alloc, all, &vars)
        };
    }
    println!(rt; "{count}")
}

fn number(rt: &HostRuntime, place: usize) -> io::Result<u64> {
    match env::args(rt)?.nth(place) {
        Some(word) => Ok(word.as_str().parse::<u64>().unwrap_or(0)),
        None => Ok(0),
    }
}

fn main(rt: HostRuntime) -> io::Result<()> {
    let alloc = rt.alloc();
    let folder = match env::args(&rt)?.nth(1) {
        Some(word) => word,
        None => return println!(rt; "no folder"),
    };
    let mut all = Vec::new(alloc);
    for line in BufReader::new(alloc, rt.reader())?.lines(alloc) {
        let line = line?;
        let Some(pkg) = pkg_of(alloc, line.as_str()) else {
            return println!(rt; "a line is no package");
        };
        let name = pkg.name.as_str();
        let place = format!(in alloc; "packages/{name}/{line}/opam")?;
        let text = fs::read(&rt, format!(in alloc; "{folder}/{place}")?.as_str())?;
        let path = format!(in alloc; "r/{place}")?;
        let host = host_of(alloc, path.as_str(), text.as_slice())?;
        all.push(Made { pkg, text, host })?;
    }
    measure(&rt, &mut all)
}
RATTLE

cat >"$work/parser.ml" <<'ML'
let load path =
  let channel = open_in_bin path in
  let text = really_input_string channel (in_channel_length channel) in
  close_in channel;
  text

let rec paths () = match input_line stdin with path -> path :: paths () | exception End_of_file -> []

let () =
  let texts = List.map load (paths ()) in
  let count = ref 0 in
  let read text = match OpamParser.FullPos.string text "opam" with _ -> incr count | exception _ -> () in
  for _ = 1 to int_of_string Sys.argv.(1) do
    count := 0;
    List.iter read texts
  done;
  Printf.printf "%d\n" !count
ML
if ! (cd "$work" && ocamlfind ocamlopt -package opam-file-format -linkpkg parser.ml -o parser) >"$work/log" 2>&1; then
    echo "bench/packages.sh: no figures of opam-file-format, since it or OCaml is missing"
fi

python3 - "$work" "$count" <<'PYTHON'
import os
import sys

work, count = sys.argv[1], int(sys.argv[2])
OPAM = """opam-version: "2.0"
name: "{name}"
version: "1.{number}"
synopsis: "Package {number} of a made repository"
maintainer: ["someone@example.org"]
authors: ["Someone" "Someone Else"]
license: "MIT"
homepage: "https://example.org/{name}"
bug-reports: "https://example.org/{name}/issues"
depends: [
  "ocaml" {{>= "4.08" & < "6.0~"}}
  "{one}" {{>= "1.0" & < "3.0~"}}
  "{two}" {{build & >= "0.{number}"}}
  "{three}" {{with-test & >= "1.2" | with-doc}}
  "{four}" {{os = "linux" & version != "2.{number}"}}
]
build: [
  ["dune" "subst"] {{dev}}
  ["dune" "build" "-p" name "-j" jobs "@install" "@runtest" {{with-test}} "@doc" {{with-doc}}]
]
"""
lines = []
for number in range(count):
    name = f"p{number:04}"
    others = [f"p{(number * step + 1) % count:04}" for step in (3, 17, 41, 1009)]
    folder = os.path.join(work, "repo", "packages", name, f"{name}.1.{number}")
    os.makedirs(folder)
    with open(os.path.join(folder, "opam"), "w") as file:
        file.write(OPAM.format(name=name, number=number, one=others[0], two=others[1], three=others[2], four=others[3]))
    lines.append((f"{name}.1.{number}", os.path.join(folder, "opam")))
for what, place in (("names", 0), ("paths", 1)):
    with open(os.path.join(work, what), "w") as file:
        file.writelines(line[place] + "\n" for line in lines)
PYTHON

(cd "$program" && rt run -- "$work/repo" 0 0) >"$work/log" 2>&1 </dev/null || true
if [ ! -x "$program/out/finder" ]; then
    echo "bench/packages.sh: the program is not built:" >&2
    tail -n 20 "$work/log" >&2
    exit 1
fi

exec python3 - "$count" "$work" <<'PYTHON'
import os
import subprocess
import sys

COUNT, WORK = int(sys.argv[1]), sys.argv[2]
FINDER = [os.path.join(WORK, "crates/finder/out/finder"), os.path.join(WORK, "repo")]
PARSER = os.path.join(WORK, "parser")
RUNS = 10
LEAST_TIME = 0.5  # seconds that a run is to take at least


def run(command, given, turns):
    """What it printed, and how many seconds of processor time it took."""
    with open(os.path.join(WORK, given)) as file:
        child = subprocess.Popen(command + [str(turns)], stdin=file, stdout=subprocess.PIPE)
        printed = child.stdout.read().decode()
        _, status, usage = os.wait4(child.pid, 0)
    child.returncode = status
    if status != 0:
        sys.exit("bench/packages.sh: a program failed")
    return int(printed), usage.ru_utime + usage.ru_stime


def told(what, command, given):
    idle = min(run(command, given, 0)[1] for _ in range(RUNS))
    sound, once = run(command, given, 1)
    turns = max(1, round(LEAST_TIME / max(once - idle, 1e-3)))
    spent = max(min(run(command, given, turns)[1] for _ in range(RUNS)) - idle, 0) / turns
    print(f"{what:28} {spent * 1000 / COUNT:8.4f} ms a package, {sound} of {COUNT} sound", flush=True)
    return spent


finding = told("find", FINDER + ["0"], "names")
told("read_file", FINDER + ["1"], "names")
if os.access(PARSER, os.X_OK):
    parsing = told("opam-file-format", [PARSER], "paths")
    print("the aim is met" if finding <= parsing else "the aim is missed: find takes longer")
PYTHON
