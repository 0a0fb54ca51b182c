#!/bin/sh
# How many jobs of `/bin/true` a pool runs in a second through the machine's workshop, beside `xargs -P` and `make -j` with
# the same commands: each in a fresh folder of its own, by `sh`, with its output in a file. The pool is proved and built
# in a copy, which takes minutes.
# Usage: bench/pool.sh [JOBS]
set -eu
top=$(cd "$(dirname "$0")/.." && pwd)
count=${1:-1000}

for tool in rt python3 xargs make; do
    if ! command -v "$tool" >/dev/null 2>&1; then
        echo "bench/pool.sh: skipped, since $tool is missing"
        exit 0
    fi
done

work=$(mktemp -d)
trap 'rm -rf "$work"' EXIT
mkdir -p "$work/crates"
for crate in opam_names outside_io child_pool; do
    cp -R "$top/crates/$crate" "$work/crates/$crate"
    rm -rf "$work/crates/$crate/out"
done
from=$top/crates/opam_main
to=$work/crates/opam_main
mkdir -p "$to/src" "$to/specs" "$to/proofs"
for module in children fault files folders source; do
    cp "$from/src/$module.rt" "$to/src/"
done
cp "$from/specs/Commands.antt" "$from/specs/Folders.antt" "$to/specs/"
printf 'pub mod Commands\npub mod Folders\n' >"$to/specs/Lib.antt"
cp -R "$from/proofs/Slashes.antt" "$from/proofs/Lib.antt" "$to/proofs/"
cp -R "$from/proofs/folders" "$from/proofs/children" "$to/proofs/"
cat >"$work/crates.txt" <<'CRATES'
opam_names:
outside_io: opam_names
child_pool: opam_names outside_io
opam_main may_wait=9: opam_names outside_io child_pool thiserror
CRATES
cp "$top/HANDLES" "$work/HANDLES"

cat >"$to/src/main.rt" <<'RATTLE'
//! Runs jobs of `/bin/true` in a pool, and prints how many nanoseconds that took.
#![tactic(auto)]

ghost use Rattle.std.specs.Prelude.{◌≡◌, ◌<◌, ◌≤◌, ◌-◌, ◌^◌, [], ℕ, IfOk, OnOk, length};
ghost use Rattle.child_pool.specs.Crews.{IsFresh};

mod children;
mod fault;
mod files;
mod folders;
mod source;

use child_pool::{Child, Crew, PoolCrew, PoolParts, drain};
use children::ChildShop;
use opam_names::{Items, Name, OutOfMemory, Pkg, ReadFault, Text, Version};
use outside_io::{Fate, Job, Workshop};
use std::alloc::Global;
use std::sync::{Arc, Wait};
use std::thread::Threads;
use std::time::Instant;
use std::{env, io};

fn make_job(alloc: Global, id: u32) -> Result<Job, ReadFault>
    ensures { IfOk result (λ job. length job.commands ≡ 1) }
{
    let mut words = Items::new(alloc);
    words.push(Text::from_str(alloc, "/bin/true")?)?;
    let mut commands = Items::new(alloc);
    commands.push(words)?;
    Ok(Job {
        pkg: Pkg {
            name: Name::read(alloc, b"job")?,
            version: read_version(alloc, id)?,
        },
        source: None,
        commands,
        env: Items::new(alloc),
    })
}

fn read_version(alloc: Global, id: u32) -> Result<Version, ReadFault> {
    match format!(in alloc; "{id}") {
        Ok(text) if text.len() < 120 => Version::read(alloc, text.as_str().as_bytes()),
        _ => Err(ReadFault::Memory),
    }
}

RATTLE
sed -n '/^\/\/ Takes an end where there is no room/,/^\/\/ Each job is there once/p' "$top/crates/child_pool/src/tests.rt" |
    sed '$d' >>"$to/src/main.rt"
cat >>"$to/src/main.rt" <<'RATTLE'
fn number_at(rt: &HostRuntime, place: usize) -> io::Result<u32> {
    match env::args(rt)?.nth(place) {
        Some(word) => Ok(word.as_str().parse::<u32>().unwrap_or(0)),
        None => Ok(0),
    }
}

fn main(rt: HostRuntime) -> io::Result<()> {
    let alloc = rt.alloc();
    let (workers, count) = (number_at(&rt, 1)?, number_at(&rt, 2)?);
    if workers == 0 || workers > 64 {
        return println!(rt; "workers: 1 to 64");
    }
    let root = String::from_str(alloc, "switch")?;
    let shop = Arc::new(alloc, ChildShop::new(rt.clone()?, root))?;
    let start = Instant::now(&rt)?;
    match work_in_threads(&rt, alloc, &shop, workers, count) {
        Ok(taken) => {
            let built = taken.iter().filter(|(_, fate)| *fate == Fate::Built).count();
            println!(rt; "{} {built}", start.elapsed(&rt)?.as_nanos())
        }
        Err(_) => println!(rt; "0 0"),
    }
}
RATTLE
mkdir -p "$to/proofs/work"
sed 's/child_pool\.proofs\.tests/opam_main.proofs/' "$top/crates/child_pool/proofs/tests/work/Invariants.antt" >"$to/proofs/work/Invariants.antt"

(cd "$to" && rt run) >"$work/log" 2>&1 </dev/null || true
program=$to/out/opam_main
if [ ! -x "$program" ]; then
    echo "bench/pool.sh: the pool is not built:" >&2
    tail -n 20 "$work/log" >&2
    exit 1
fi

exec python3 - "$program" "$count" "$work" <<'PYTHON'
import os
import shutil
import statistics
import subprocess
import sys
import time

program, count, work = sys.argv[1], int(sys.argv[2]), sys.argv[3]
folder = os.path.join(work, "run")
COMMAND = "mkdir -p jobs/$1 && cd jobs/$1 && exec /bin/true >opam.log 2>&1"


def fresh():
    shutil.rmtree(folder, ignore_errors=True)
    os.mkdir(folder)


def pool(workers):
    out = subprocess.run([program, str(workers), str(count)], cwd=folder, capture_output=True, text=True, check=True).stdout
    nanos, built = out.split()
    if int(built) != count:
        sys.exit(f"bench/pool.sh: {built} of {count} jobs were built")
    return int(nanos) / 1e9


def timed(command, text=None):
    start = time.perf_counter()
    subprocess.run(command, cwd=folder, input=text, text=True, stdout=subprocess.DEVNULL, check=True)
    return time.perf_counter() - start


def by_xargs(workers):
    numbers = "".join(f"{n}\n" for n in range(count))
    return timed(["xargs", "-P", str(workers), "-n", "1", "sh", "-c", COMMAND, "sh"], numbers)


def by_make(workers):
    with open(os.path.join(folder, "Makefile"), "w") as rules:
        names = " ".join(f"j{n}" for n in range(count))
        rules.write(f"all: {names}\nj%:\n\t@{COMMAND.replace('$1', '$@')}\n.PHONY: all {names}\n")
        rules.write("".join(f"j{n}:\n\t@{COMMAND.replace('$1', f'j{n}')}\n" for n in range(count)))
    return timed(["make", "-s", "-j", str(workers)])


ways = [("pool", pool), ("xargs", by_xargs), ("make", by_make)]
print(f"medians of 5 runs of {count} jobs of /bin/true, in jobs a second")
for workers in (1, 2, 4):
    spent = {name: [] for name, _ in ways}
    for _ in range(5):
        for name, way in ways:
            fresh()
            spent[name].append(way(workers))
    rates = {name: count / statistics.median(times) for name, times in spent.items()}
    told = "  ".join(f"{name} {rate:8.0f}" for name, rate in rates.items())
    print(f"{workers} workers: {told}  pool to xargs {rates['pool'] / rates['xargs']:.2f}")
PYTHON
