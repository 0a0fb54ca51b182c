#!/bin/sh
# How long it takes to find what a change comes to: made sets of 500, 1,000, 2,000 and 4,000 packages, all bound by a lock and none
# installed. It prints milliseconds for the chase (each package is handed in when it is the next one), for the target with all that stands
# against it, for the plan and for the views of all members, and all four together; and beside them `remove` of the
# first package, with all as installed. Each is the least of five runs, in time of the processor, so that other work on the machine
# counts for little. The program is proved and built in a copy, which takes minutes.
#
# The sets: `chains` of 20 packages, each needing the one before; `layers`, a third of the packages in each of three, each needing ten of
# the layer below; `star`, all need the first one, and the last needs all; `wishes`, chains in which each package has 20 depopts, 20
# conflicts that nothing meets, and two classes, one of its own and one that the next has too.
#
# The aims: together below 300 ms at 4,000, and at most 6 times as long as at 1,000. Views are as long as what they show: in one
# chain of all packages they have 8 million packages at 4,000, so that no such set is here.
#
# Measured on four shared processors at 2.5 GHz while 16 to 25 other processes wanted them, in milliseconds at 4,000 packages, and
# as a ratio to 1,000: chains 46 (5.0), layers 170 (5.3), star 46 (5.8), wishes 239 (4.8). Of that the views are 15, 96, 9 and 121,
# the chase 14, 30, 16 and 16, the target with all that stands against it 12, 24, 12 and 78, the plan 6, 21, 8 and 24: the aims are met.
# Beside them `remove` takes 59, 215, 79 and 394. The code was that of the crates, compiled with -O3 before the program around it was
# proved, with the checks left out that a proof leaves out; the script as a whole was not run to its end. At a load of 36 the same code
# took up to 2.2 times as much (chains 80, layers 375, star 71, wishes 441; ratios 5.4, 7.3, 8.9 and 6.2), for the caches are shared: there
# only chains met both aims. Most of the time goes to looking up names by halves and to the allocator.
#
# Usage: bench/plan.sh [COUNT ..]
set -eu
top=$(cd "$(dirname "$0")/.." && pwd)
counts=${*:-500 1000 2000 4000}

for tool in rt python3; do
    if ! command -v "$tool" >/dev/null 2>&1; then
        echo "bench/plan.sh: skipped, since $tool is missing"
        exit 0
    fi
done

work=$(mktemp -d)
trap 'rm -rf "$work"' EXIT
program=$work/crates/planner
mkdir -p "$program/src" "$program/specs" "$program/proofs"
base="opam_names syntax_trees syntax_faults syntax_places opam_syntax opam_filter package_vars opam_package action_graph lock_check"
for crate in $base; do
    cp -R "$top/crates/$crate" "$work/crates/$crate"
    rm -rf "$work/crates/$crate/out"
    grep "^$crate[: ]" "$top/crates.txt" >>"$work/crates.txt"
done
echo "planner: opam_names opam_filter opam_package action_graph lock_check" >>"$work/crates.txt"
: >"$program/specs/Lib.antt"
: >"$program/proofs/Lib.antt"

cat >"$program/src/main.rt" <<'RATTLE'
//! Reads packages with the texts of their opam files, a line each, binds them all, and prints how many microseconds of the processor each
//! part of an install of all of them takes.
#![tactic(auto)]
ghost use Rattle.std.specs.Prelude.{◌≡◌, ◌<◌, ◌^◌, [], length};
ghost use Rattle.std.specs.declared.option.Option.TheVariants.{Some};
ghost use Rattle.opam_filter.specs.Sets.{Rises};
ghost use Rattle.opam_names.specs.ByteOrders.{RisesBy};
ghost use Rattle.lock_check.specs.Chased.{IsAnswer};
ghost use Rattle.action_graph.specs.Leaving.{name_of};

use action_graph::{are_in_order, plan_of, view_of};
use lock_check::{Answer, Chase, Lock, names_differ, remove_target};
use opam_filter::{Vars, rises};
use opam_names::{Items, Name, OutOfMemory, Pkg};
use opam_package::{Member, OPAM_LIMIT, Target, read_package};
use std::alloc::Global;
use std::collections::BTreeMap;
use std::io;
use std::io::{BufRead, BufReader};
use std::time::CpuClock;

// The processor time of this program until now, in microseconds.
fn spent(rt: &HostRuntime) -> io::Result<u128> {
    Ok(rt.process_cpu_time()?.as_micros())
}

fn pkg_of(alloc: Global, text: &str) -> Option<Pkg> {
    let bytes = text.as_bytes();
    if bytes.len() > 1000 {
        return None;
    }
    Pkg::read(alloc, bytes).ok()
}

// The member of a line: the package, a blank and the text of its file.
fn member_of(alloc: Global, line: &str, vars: &Vars) -> Option<Member> {
    let (pkg, text) = line.split_once(' ')?;
    let pkg = pkg_of(alloc, pkg)?;
    let bytes = text.as_bytes();
    if bytes.len() > OPAM_LIMIT {
        return None;
    }
    let package = read_package(alloc, bytes, &pkg, vars).ok()?;
    let opam = Items::from_slice(alloc, bytes).ok()?;
    Some(Member { package, opam })
}

// What the repository has, and the lock that binds all of it.
#[derive(Drop)]
struct World {
    shelf: BTreeMap<Name, Member>,
    lock: Lock,
}

fn add(alloc: Global, world: &mut World, member: Member) -> Result<(), OutOfMemory> {
    let pkg = member.package.pkg.copy(alloc)?;
    let name = pkg.name.copy(alloc)?;
    world.lock.bound.push(pkg)?;
    world.shelf.insert(name, member)?;
    Ok(())
}

fn answer_to(pkg: &Pkg, found: Option<Member>) -> Answer
    ensures { IsAnswer (Some pkg.now) result }
{
    match found {
        Some(member) => {
            if member.package.pkg == *pkg {
                Answer::Known(member)
            } else {
                Answer::Unknown
            }
        }
        None => Answer::Unknown,
    }
}

fn tell_next(
    alloc: Global,
    chase: &mut Chase,
    shelf: &mut BTreeMap<Name, Member>,
) -> Result<(), OutOfMemory>
    ensures { chase.new.installed ≡ chase.old.installed }
{
    let answer = match chase.next() {
        None => return Ok(()),
        Some(pkg) => answer_to(pkg, shelf.remove(&pkg.name)),
    };
    chase.give(alloc, answer)
}

// The target and how many things stand against it, with the microseconds of the chase before.
fn chased(
    rt: &HostRuntime,
    lock: &Lock,
    shelf: &mut BTreeMap<Name, Member>,
) -> io::Result<Option<(Target, usize, u128)>>
    requires { Rises lock.now.bound }
{
    let alloc = rt.alloc();
    let start = spent(rt)?;
    let Ok(mut chase) = Chase::begin(alloc, &[], lock, &[]) else {
        return Ok(None);
    };
    for _i in 0..lock.bound.len() {
        if tell_next(alloc, &mut chase, shelf).is_err() {
            return Ok(None);
        }
    }
    let read = spent(rt)?.saturating_sub(start);
    if chase.next().is_some() {
        return Ok(None);
    }
    match chase.finish(alloc, &[], &[]) {
        Ok((target, told)) => Ok(Some((target, told.len(), read))),
        Err(_) => Ok(None),
    }
}

fn viewed(alloc: Global, target: &Target) -> Result<u64, OutOfMemory>
    requires rises { RisesBy name_of target.now.members }
    requires small { length target.now.members < 2 ^ 32 }
{
    let mut sum = 0u64;
    for at in 0..target.members.len() {
        let view = view_of(alloc, target, at as u32)?;
        sum = sum.wrapping_add(view.members.len() as u64);
    }
    Ok(sum)
}

fn first_name(alloc: Global, members: &[Member]) -> Result<Items<Name>, OutOfMemory> {
    let mut names = Items::new(alloc);
    if let Some(member) = members.first() {
        names.push(member.package.pkg.name.copy(alloc)?)?;
    }
    Ok(names)
}

// Times of the parts behind the chase, and how much each found.
fn measure(rt: &HostRuntime, world: &mut World) -> io::Result<()> {
    let alloc = rt.alloc();
    if !rises(world.lock.bound.as_slice()) {
        return println!(rt; "the lines are not in order");
    }
    let start = spent(rt)?;
    let Some((target, told, read)) = chased(rt, &world.lock, &mut world.shelf)? else {
        return println!(rt; "no target");
    };
    let made = spent(rt)?.saturating_sub(start);
    let members = target.members.as_slice();
    if !are_in_order(members) || members.len() > 100000 {
        return println!(rt; "the members are not in order");
    }
    let start = spent(rt)?;
    let Ok(plan) = plan_of(alloc, &[], &target) else {
        return println!(rt; "no plan");
    };
    let planned = spent(rt)?.saturating_sub(start);
    let Ok(seen) = viewed(alloc, &target) else {
        return println!(rt; "no views");
    };
    let all = spent(rt)?.saturating_sub(start);
    if !matches!(names_differ(alloc, members), Ok(true)) {
        return println!(rt; "names are not different");
    }
    let Ok(named) = first_name(alloc, members) else {
        return println!(rt; "no memory");
    };
    let start = spent(rt)?;
    let Ok((left, _)) = remove_target(alloc, members, named.as_slice(), &[]) else {
        return println!(rt; "no part is left");
    };
    let removed = spent(rt)?.saturating_sub(start);
    let (installs, left) = (plan.installs.len(), left.members.len());
    println!(rt; "{read} {made} {planned} {all} {removed} {told} {installs} {seen} {left}")
}

fn main(rt: HostRuntime) -> io::Result<()> {
    let alloc = rt.alloc();
    let vars = Vars::empty(alloc);
    let mut world = World {
        shelf: BTreeMap::new(alloc),
        lock: Lock {
            bound: Items::new(alloc),
        },
    };
    for line in BufReader::new(alloc, rt.reader())?.lines(alloc) {
        let line = line?;
        let Some(member) = member_of(alloc, line.as_str(), &vars) else {
            return println!(rt; "a line is no package");
        };
        if add(alloc, &mut world, member).is_err() {
            return println!(rt; "no memory");
        }
    }
    measure(&rt, &mut world)
}
RATTLE

# What the loop of the chase keeps.
mkdir -p "$program/proofs/chased"
cat >"$program/proofs/chased/Invariants.antt" <<'ANTT'
use Rattle.std.proofs.Common.{◌≡◌, []}
use Rattle.lock_check.specs.Chased.{held_by_name}
use Rattle.planner.proofs.chased.Given as goal

abbrev pub invariant-loop-i : goal.invariant-loop-i
invariant-loop-i l = l.chase.installed ≡ held_by_name []
ANTT

(cd "$program" && rt run) >"$work/log" 2>&1 </dev/null || true
if [ ! -x "$program/out/planner" ]; then
    echo "bench/plan.sh: the program is not built:" >&2
    tail -n 20 "$work/log" >&2
    exit 1
fi

# shellcheck disable=SC2086
exec python3 - "$program/out/planner" $counts <<'PYTHON'
import subprocess
import sys

PLANNER, COUNTS = sys.argv[1], [int(word) for word in sys.argv[2:]]
RUNS = 5


def name(number):
    return f"p{number:05}"


def needs_of(kind, at, count):
    if kind in ("chains", "wishes"):
        return [at - 1] if at % 20 else []
    if kind == "layers":
        width = count // 3
        layer = min(at // width, 2)
        return [(layer - 1) * width + (at * 7 + more) % width for more in range(10)] if layer else []
    return list(range(count - 1)) if at == count - 1 else [0] if at else []


def text_of(kind, at, count):
    needs = " ".join(f'"{name(need)}" {{>= "0.5"}}' for need in needs_of(kind, at, count))
    text = f'opam-version: "2.0" depends: [{needs}]'
    if kind == "wishes":
        first = at - at % 20
        wishes = " ".join(f'"{name(first + more)}"' if first + more < at else f'"q{more}"' for more in range(20))
        forbidden = " ".join(f'"{name((at * 7 + more * 13) % count)}" {{< "0.{more}"}}' for more in range(20))
        text += f' depopts: [{wishes}] conflicts: [{forbidden}] conflict-class: ["c{at}" "d{at // 2}"]'
    return text


def world(kind, count):
    return "".join(f"{name(at)}.1 {text_of(kind, at, count)}\n" for at in range(count)).encode()


def measured(kind, count):
    """Milliseconds of chase, target, plan, views, all four and remove; and what was found."""
    least, found = None, None
    for _ in range(RUNS):
        words = subprocess.run([PLANNER], input=world(kind, count), stdout=subprocess.PIPE, check=True).stdout.split()
        if len(words) != 9:
            sys.exit("bench/plan.sh: " + b" ".join(words).decode())
        read, made, planned, all_, removed, *found = (int(word) for word in words)
        times = [read, made - read, planned, all_ - planned, made + all_, removed]
        least = times if least is None else [min(pair) for pair in zip(least, times)]
    return [time / 1000 for time in least], found


print(f"{'':8} {'packages':>8} {'chase':>8} {'target':>8} {'plan':>8} {'views':>8} {'together':>9} {'remove':>8}   told, installs, viewed, left")
met = True
for kind in ("chains", "layers", "star", "wishes"):
    together = {}
    for count in COUNTS:
        times, found = measured(kind, count)
        together[count] = times[4]
        row = " ".join(f"{time:8.1f}" for time in times[:4])
        print(f"{kind:8} {count:8} {row} {times[4]:9.1f} {times[5]:8.1f}   {', '.join(str(number) for number in found)}", flush=True)
    if 1000 in together and 4000 in together:
        ratio = together[4000] / together[1000]
        met = met and ratio <= 6 and together[4000] < 300
        print(f"{kind:8} from 1,000 to 4,000: {ratio:.1f} times as long")
print("the aims are met" if met else "an aim is missed")
PYTHON
