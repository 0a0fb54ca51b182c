#!/bin/sh
# How long owned paths take to add and to look up: COUNT paths (1,048,576) in byte order, and the same paths in the order of
# 2,000 packages whose paths interleave, each after one `reserve`; and `clash` over 65,536 new ones. Each addition is timed
# with the test that the path is free, and the tests alone after that. The program is proved and built in a copy, which
# takes minutes.
# Usage: bench/owners.sh [COUNT]
set -eu
top=$(cd "$(dirname "$0")/.." && pwd)
count=${1:-1048576}

if ! command -v rt >/dev/null 2>&1; then
    echo "bench/owners.sh: skipped, since rt is missing"
    exit 0
fi

work=$(mktemp -d)
trap 'rm -rf "$work"' EXIT
mkdir -p "$work/crates/owners/src" "$work/crates/owners/specs" "$work/crates/owners/proofs"
for crate in opam_names path_order owner_map; do
    cp -R "$top/crates/$crate" "$work/crates/$crate"
    rm -rf "$work/crates/$crate/out"
done
cat >"$work/crates.txt" <<'CRATES'
opam_names:
path_order: opam_names
owner_map: opam_names path_order
owners: opam_names owner_map
CRATES
: >"$work/crates/owners/specs/Lib.antt"
: >"$work/crates/owners/proofs/Lib.antt"

cat >"$work/crates/owners/src/main.rt" <<'RATTLE'
//! Adds numbered paths and looks for clashes, and prints how many milliseconds that took.
#![tactic(auto)]

use opam_names::{OutOfMemory, Pkg, RelPath};
use owner_map::Owners;
use std::alloc::Global;
use std::time::Instant;
use std::{env, io};

fn numbered(alloc: Global, folder: &str, number: u64) -> Result<RelPath, OutOfMemory> {
    let text = format!(in alloc; "lib/{folder}/{number:07}")?;
    let bytes = text.as_bytes();
    if bytes.len() > 100 {
        return Err(OutOfMemory);
    }
    match RelPath::read(alloc, bytes) {
        Ok(path) => Ok(path),
        Err(_) => Err(OutOfMemory),
    }
}

fn push_package(
    paths: &mut Vec<RelPath>,
    alloc: Global,
    package: u64,
    packages: u64,
    each: u64,
) -> Result<(), OutOfMemory> {
    for turn in 0..each {
        let number = turn.wrapping_mul(packages).wrapping_add(package);
        paths.push(numbered(alloc, "p", number)?)?;
    }
    Ok(())
}

// The numbers below the count, package after package, each with every so many-th one.
fn in_packages(alloc: Global, count: u64, packages: u64) -> Result<Vec<RelPath>, OutOfMemory> {
    let mut paths = Vec::new(alloc);
    let each = count / packages.max(1);
    for package in 0..packages {
        push_package(&mut paths, alloc, package, packages, each)?;
    }
    Ok(paths)
}

fn copied(alloc: Global, paths: &[RelPath]) -> Result<Vec<RelPath>, OutOfMemory> {
    let mut copies = Vec::new(alloc);
    for path in paths {
        copies.push(path.copy(alloc)?)?;
    }
    Ok(copies)
}

fn add_all(
    owners: &mut Owners,
    paths: Vec<RelPath>,
    owner: &Pkg,
    alloc: Global,
) -> Result<(), OutOfMemory> {
    for path in paths {
        if owners.spare() == 0 {
            return Err(OutOfMemory);
        }
        let free = owners.is_free(&path)?;
        if free {
            owners.add(path, owner.copy(alloc)?);
        }
    }
    Ok(())
}

fn count_free(owners: &Owners, paths: &[RelPath]) -> Result<u64, OutOfMemory> {
    let mut count = 0u64;
    for path in paths {
        let free = owners.is_free(path)?;
        count = count.wrapping_add(if free { 1 } else { 0 });
    }
    Ok(count)
}

fn others(alloc: Global, count: u64) -> Result<Vec<RelPath>, OutOfMemory> {
    let mut paths = Vec::new(alloc);
    for number in 0..count {
        paths.push(numbered(alloc, "q", number)?)?;
    }
    Ok(paths)
}

fn owner_of(alloc: Global) -> Result<Pkg, OutOfMemory> {
    match Pkg::read(alloc, b"a.1") {
        Ok(pkg) => Ok(pkg),
        Err(_) => Err(OutOfMemory),
    }
}

fn measure(rt: &HostRuntime, what: &str, count: u64, packages: u64) -> io::Result<()> {
    let alloc = rt.alloc();
    let (Ok(paths), Ok(new), Ok(owner)) =
        (in_packages(alloc, count, packages), others(alloc, 65536), owner_of(alloc))
    else {
        return println!(rt; "{what}: no memory");
    };
    let Ok(added) = copied(alloc, paths.as_slice()) else {
        return println!(rt; "{what}: no memory");
    };
    let mut owners = Owners::empty(alloc);
    let start = Instant::now(rt)?;
    let room = owners.reserve(paths.len());
    let reserved = start.elapsed(rt)?.as_millis();
    let all = add_all(&mut owners, added, &owner, alloc);
    let adding = start.elapsed(rt)?.as_millis();
    let free = count_free(&owners, paths.as_slice());
    let testing = start.elapsed(rt)?.as_millis();
    let found = owners.clash(new.as_slice());
    let clashing = start.elapsed(rt)?.as_millis();
    let dropped = owners.drop_owner(&owner);
    let dropping = start.elapsed(rt)?.as_millis();
    let well = room.is_ok() && all.is_ok() && free.is_ok() && found.is_ok();
    println!(rt; "{what}: well {well}, dropped {dropped}; at ms: reserved {reserved}, added {adding}, tested {testing}, no clash {clashing}, dropped {dropping}")
}

fn main(rt: HostRuntime) -> io::Result<()> {
    let count = match env::args(&rt)?.nth(1) {
        Some(word) => word.as_str().parse::<u64>().unwrap_or(0),
        None => 0,
    };
    measure(&rt, "rising", count, 1)?;
    measure(&rt, "of 2000 packages", count, 2000)
}
RATTLE

(cd "$work/crates/owners" && rt run -- "$count")
