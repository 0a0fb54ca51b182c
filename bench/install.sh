#!/bin/sh
# How long an install text of COUNT items (65,536) takes to read, and the job of a package whose view has 2,000 packages:
# once with a hundred packages that export an update each, and once with a hundred updates of its own. What is measured is
# processor time, user's and system's, as the best of ten runs, less what a run takes that only makes the text or the package;
# and beside it the shortest time that a turn took by the clock, which tells more where other work waits for the processors.
# The program is proved and built in a copy, which takes minutes.
#
# Aims: 50 ms for the text, 5 ms for each of the jobs. Measured on 4 processors of 2.5 GHz beside a dozen provers, which blurs it:
# of 42 runs the best had 26 ms for the text (16,384 items: 8.6), 3.9 for the exports and 2.5 for the updates of its own; of twelve
# that were looked at one by one the worst had about double. By the clock the best turns of the jobs had 3.5 and 2.0 ms, and the
# text 56, since it is taken off the processor meanwhile. So all aims are met, that for the exports with little to spare.
# Where the time goes (callgrind): a third and more is `malloc` and `free`, of nodes and paths, or of variables. Each package that
# exports has a map of variables of its own, which is why the exports take longer.
# Usage: bench/install.sh [COUNT]
set -eu
top=$(cd "$(dirname "$0")/.." && pwd)
count=${1:-65536}

for tool in rt python3; do
    if ! command -v "$tool" >/dev/null 2>&1; then
        echo "bench/install.sh: skipped, since $tool is missing"
        exit 0
    fi
done

work=$(mktemp -d)
trap 'rm -rf "$work"' EXIT
mkdir -p "$work/crates/jobs/src" "$work/crates/jobs/specs" "$work/crates/jobs/proofs"
libraries="opam_names syntax_trees syntax_faults syntax_places opam_syntax opam_filter package_vars opam_package install_sections outside_io build_env"
for crate in $libraries; do
    cp -R "$top/crates/$crate" "$work/crates/$crate"
    rm -rf "$work/crates/$crate/out"
    grep "^$crate[: ]" "$top/crates.txt" >>"$work/crates.txt"
done
echo "jobs: $libraries" >>"$work/crates.txt"
: >"$work/crates/jobs/specs/Lib.antt"
: >"$work/crates/jobs/proofs/Lib.antt"

cat >"$work/crates/jobs/src/main.rt" <<'RATTLE'
//! Reads an install text or makes a job so many times, and prints how large the answer is and the fewest microseconds.
#![tactic(auto)]

use build_env::{Export, job_for};
use install_sections::read_install;
use opam_names::{Items, Name, OutOfMemory, Pkg, Text};
use opam_package::{EnvUpdate, Package};
use package_vars::{Facts, View};
use std::alloc::Global;
use std::time::Instant;
use std::{env, io};
use syntax_trees::{EnvOp, FILE_LIMIT};

/// How many packages a view has.
const MEMBERS: u64 = 2000;

/// How many updates there are.
const UPDATES: u64 = 100;

fn pkg_of(alloc: Global, number: u64) -> Result<Pkg, OutOfMemory> {
    let text = format!(in alloc; "p{number:04}.1")?;
    let bytes = text.as_bytes();
    if bytes.len() > 100 {
        return Err(OutOfMemory);
    }
    match Pkg::read(alloc, bytes) {
        Ok(pkg) => Ok(pkg),
        Err(_) => Err(OutOfMemory),
    }
}

fn view_of(alloc: Global, count: u64) -> Result<View, OutOfMemory> {
    let mut members = Items::new(alloc);
    for number in 0..count {
        members.push(pkg_of(alloc, number)?)?;
    }
    Ok(View { members })
}

// A value that looks up the package itself, another one and whether a third is installed.
fn update(alloc: Global, number: u64) -> Result<EnvUpdate, OutOfMemory> {
    let next = number.wrapping_mul(17) % MEMBERS;
    let value = format!(in alloc;
        "%{{_:lib}}%/x:%{{p{next:04}:share}}%:%{{p{number:04}+ocaml:enable}}%"
    )?;
    Ok(EnvUpdate {
        name: Text::from_str(alloc, "X_PATH")?,
        op: EnvOp::Before,
        value: Text::from_string(value),
    })
}

fn updates_of(alloc: Global, from: u64, to: u64) -> Result<Items<EnvUpdate>, OutOfMemory> {
    let mut updates = Items::new(alloc);
    for number in from..to {
        updates.push(update(alloc, number)?)?;
    }
    Ok(updates)
}

fn exports_of(alloc: Global, count: u64) -> Result<Vec<Export>, OutOfMemory> {
    let mut exports = Vec::new(alloc);
    for number in 0..count {
        exports.push(Export {
            pkg: pkg_of(alloc, number)?,
            updates: updates_of(alloc, number, number.wrapping_add(1))?,
        })?;
    }
    Ok(exports)
}

fn facts_of(alloc: Global) -> Result<Facts, OutOfMemory> {
    let mut env = Items::new(alloc);
    env.push((
        Text::from_str(alloc, "PATH")?,
        Text::from_str(alloc, "/usr/bin:/bin")?,
    ))?;
    Ok(Facts {
        prefix: Text::from_str(alloc, "/work/_opam")?,
        globals: Items::new(alloc),
        env,
    })
}

// A package with these updates of its own, and no commands.
fn package_with(alloc: Global, own: Items<EnvUpdate>) -> Result<Package, OutOfMemory> {
    Ok(Package {
        pkg: pkg_of(alloc, 5000)?,
        items: Items::new(alloc),
        depopts: Items::new(alloc),
        conflicts: Items::new(alloc),
        classes: Items::new(alloc),
        available: true,
        refused: Items::new(alloc),
        commands: Items::new(alloc),
        exports: Items::new(alloc),
        build_env: own,
        substs: Items::new(alloc),
        source: None,
        synopsis: None,
    })
}

fn install_text(alloc: Global, count: u64) -> Result<String, OutOfMemory> {
    let mut text = String::from_str(alloc, "bin: [")?;
    for _ in 0..count {
        text.push_str("\"x\" ")?;
    }
    text.push_str("]")?;
    Ok(text)
}

fn read(rt: &HostRuntime, text: &str, name: &Name, turns: u64) -> io::Result<()> {
    let alloc = rt.alloc();
    let bytes = text.as_bytes();
    if bytes.len() > FILE_LIMIT {
        return println!(rt; "the text is too long");
    }
    let mut least = u128::MAX;
    let mut files = 0;
    for _ in 0..turns {
        let start = Instant::now(rt)?;
        let read = read_install(alloc, bytes, name);
        let took = start.elapsed(rt)?.as_micros();
        least = least.min(took);
        files = match read {
            Ok(placements) => placements.len(),
            Err(_) => 0,
        };
    }
    println!(rt; "{files} {least}")
}

fn measure(
    rt: &HostRuntime,
    built: &Package,
    view: &View,
    exports: &[Export],
    turns: u64,
) -> io::Result<()> {
    let alloc = rt.alloc();
    let Ok(facts) = facts_of(alloc) else {
        return println!(rt; "no memory");
    };
    let mut least = u128::MAX;
    let mut size = 0;
    for _ in 0..turns {
        let start = Instant::now(rt)?;
        let made = job_for(alloc, built, view, exports, &facts);
        let took = start.elapsed(rt)?.as_micros();
        least = least.min(took);
        size = match made {
            Ok(job) => job.env.len(),
            Err(_) => 0,
        };
    }
    println!(rt; "{size} {least}")
}

// A job with so many exports, of a package with so many updates of its own.
fn measure_job(rt: &HostRuntime, exported: u64, own: u64, turns: u64) -> io::Result<()> {
    let alloc = rt.alloc();
    let (Ok(view), Ok(exports), Ok(updates)) = (
        view_of(alloc, MEMBERS),
        exports_of(alloc, exported),
        updates_of(alloc, 0, own),
    ) else {
        return println!(rt; "no memory");
    };
    match package_with(alloc, updates) {
        Ok(built) => measure(rt, &built, &view, exports.as_slice(), turns),
        Err(_) => println!(rt; "no memory"),
    }
}

fn measure_text(rt: &HostRuntime, count: u64, turns: u64) -> io::Result<()> {
    let alloc = rt.alloc();
    let (Ok(text), Ok(pkg)) = (install_text(alloc, count), pkg_of(alloc, 1)) else {
        return println!(rt; "no memory");
    };
    read(rt, text.as_str(), &pkg.name, turns)
}

fn number(rt: &HostRuntime, place: usize) -> io::Result<u64> {
    match env::args(rt)?.nth(place) {
        Some(word) => Ok(word.as_str().parse::<u64>().unwrap_or(0)),
        None => Ok(0),
    }
}

fn main(rt: HostRuntime) -> io::Result<()> {
    let turns = number(&rt, 2)?;
    match number(&rt, 1)? {
        0 => measure_text(&rt, number(&rt, 3)?, turns),
        1 => measure_job(&rt, UPDATES, 0, turns),
        _ => measure_job(&rt, 0, UPDATES, turns),
    }
}
RATTLE

(cd "$work/crates/jobs" && rt run -- 0 0 0) >"$work/log" 2>&1 </dev/null || true
if [ ! -x "$work/crates/jobs/out/jobs" ]; then
    echo "bench/install.sh: the program is not built:" >&2
    tail -n 20 "$work/log" >&2
    exit 1
fi

exec python3 - "$work/crates/jobs/out/jobs" "$count" <<'PYTHON'
import os
import subprocess
import sys

PROGRAM, COUNT = sys.argv[1:3]
RUNS = 10
LEAST_TIME = 0.3  # seconds that a run is to take at least


def run(mode, turns):
    """What it printed, and how many seconds of processor time it took."""
    child = subprocess.Popen([PROGRAM, str(mode), str(turns), COUNT], stdout=subprocess.PIPE)
    printed = child.stdout.read().decode().split()
    _, status, usage = os.wait4(child.pid, 0)
    child.returncode = status
    if status != 0:
        sys.exit("bench/install.sh: the program failed")
    return int(printed[0]), int(printed[1]), usage.ru_utime + usage.ru_stime


def told(what, mode, aim):
    idle = min(run(mode, 0)[2] for _ in range(RUNS))
    once = min(run(mode, 10)[2] for _ in range(3))
    turns = max(1, round(10 * LEAST_TIME / max(once - idle, 1e-3)))
    runs = [run(mode, turns) for _ in range(RUNS)]
    spent = max(min(seconds for _, _, seconds in runs) - idle, 0) / turns * 1000
    clock = min(micros for _, micros, _ in runs) / 1000
    verdict = "the aim is met" if spent <= aim else "the aim is missed"
    print(f"{what:30} size {runs[0][0]:6}: {spent:8.3f} ms of the processor ({clock:.3f} by the clock), aim {aim} ms: {verdict}")


told("install text", 0, 50)
told("a hundred exports", 1, 5)
told("a hundred updates of its own", 2, 5)
PYTHON
