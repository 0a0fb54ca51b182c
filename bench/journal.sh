#!/bin/sh
# How long it takes to open a journal of 64 records of 1 MiB in a folder, how often each byte is read, and how much memory
# that takes, beside `cat` of the same files. The program that opens it has the disk of opam_main; it is proved and built
# in a copy, with what is proved here already, which takes minutes.
# Usage: bench/journal.sh [RECORDS [MEBIBYTES]]
set -eu
top=$(cd "$(dirname "$0")/.." && pwd)
records=${1:-64}
size=${2:-1}

for tool in rt python3 cat /usr/bin/time; do
    if ! command -v "$tool" >/dev/null 2>&1; then
        echo "bench/journal.sh: skipped, since $tool is missing"
        exit 0
    fi
done

work=$(mktemp -d)
trap 'rm -rf "$work"' EXIT
mkdir -p "$work/crates/opening/src" "$work/crates/opening/specs" "$work/crates/opening/proofs"
for crate in opam_names path_order owner_map journal_text outside_io crash_disk switch_journal; do
    cp -R "$top/crates/$crate" "$work/crates/$crate"
    grep "^$crate:" "$top/crates.txt" >>"$work/crates.txt"
done
echo "opening: opam_names path_order owner_map journal_text outside_io crash_disk switch_journal thiserror" >>"$work/crates.txt"

# The disk, with its definitions and proofs.
opening=$work/crates/opening
for module in disk fault files folders loose switch; do
    sed 's/Rattle\.opam_main\./Rattle.opening./' "$top/crates/opam_main/src/$module.rt" >"$opening/src/$module.rt"
done
for module in Folders Loose; do
    sed 's/Rattle\.opam_main\./Rattle.opening./' "$top/crates/opam_main/specs/$module.antt" >"$opening/specs/$module.antt"
done
printf 'pub mod Folders\npub mod Loose\n' >"$opening/specs/Lib.antt"
cp -R "$top/crates/opam_main/proofs/folders" "$top/crates/opam_main/proofs/loose" "$top/crates/opam_main/proofs/Slashes.antt" "$opening/proofs"
echo 'pub mod Slashes' >"$opening/proofs/Lib.antt"
find "$opening/proofs" -name '*.antt' -exec sed -i 's/Rattle\.opam_main\./Rattle.opening./' '{}' +

cat >"$opening/src/main.rt" <<'RATTLE'
//! Opens the journal in a folder, and prints how many packages are installed and what the system has counted of the reads.
#![tactic(auto)]

mod disk;
mod fault;
mod files;
mod folders;
mod loose;
mod switch;

use disk::FolderDisk;
use std::{env, fs, io};
use switch_journal::Journal;

fn main(rt: HostRuntime) -> io::Result<()> {
    let alloc = rt.alloc();
    let folder = match env::args(&rt)?.nth(1) {
        Some(word) => word,
        None => return println!(rt; "no folder"),
    };
    let mut disk = FolderDisk::new(alloc, rt.clone()?, folder);
    let packages = match Journal::recover(&mut disk, alloc) {
        Ok((_journal, kept)) => kept.standing().len(),
        Err(_) => return println!(rt; "no journal"),
    };
    let counts = fs::read_to_string(&rt, "/proc/self/io")?;
    println!(rt; "{packages}\n{counts}")
}
RATTLE

(cd "$opening" && rt run) >"$work/first" 2>"$work/log" || {
    echo "bench/journal.sh: the opening is not built:" >&2
    tail -n 5 "$work/log" >&2
    exit 1
}

cd "$work"
python3 - "$opening/out/opening" "$records" "$size" <<'PYTHON'
import os
import struct
import subprocess
import sys

program = sys.argv[1]
records = int(sys.argv[2])
size = int(sys.argv[3]) << 20
RUNS = 9
journal = "switch/.opam-switch/journal"


def short(text):
    return struct.pack(">H", len(text)) + text


def long(text):
    return struct.pack(">I", len(text)) + text


def name(number):
    return b"p%03d" % number


def pkg(number):
    return short(name(number)) + short(b"1")


def write_record(number, body):
    with open(f"{journal}/rec/{number}", "wb") as file:
        file.write(b"OPAMREC2" + body)
    with open(f"{journal}/gate/{number}", "wb") as file:
        file.write(b"ok\n")


# A request of so many members, and the install of each: one file that fills the record.
def write_journal():
    os.makedirs(f"{journal}/rec")
    os.makedirs(f"{journal}/gate")
    opam = b'opam-version: "2.0"\n'
    members = b"".join(pkg(k) + long(opam) for k in range(records))
    write_record(1, b"\x03" + struct.pack(">I", 0) + struct.pack(">I", records) + members + struct.pack(">I", 0))
    for k in range(records):
        head = b"\x01" + pkg(k) + long(opam) + struct.pack(">I", 1) + b"\x00" + short(b"lib/%s/x" % name(k))
        content = bytes(size - len(head) - 12)
        write_record(k + 2, head + long(content))


def run(command):
    """What a command printed, its processor time in milliseconds and its greatest memory in bytes."""
    child = subprocess.Popen(command, stdout=subprocess.PIPE)
    out = child.stdout.read()
    _, status, usage = os.wait4(child.pid, 0)
    if status:
        sys.exit(f"bench/journal.sh: {command[0]} ended with {status}")
    return out, (usage.ru_utime + usage.ru_stime) * 1000


def peak(command):
    """The greatest memory of a command, in bytes. A small parent starts it, since a child's peak counts what its parent held."""
    subprocess.run(["/usr/bin/time", "-f", "%M", "-o", "peak"] + command, stdout=subprocess.DEVNULL, check=True)
    return int(open("peak").read()) * 1024


def read_count(out):
    """The packages, and the bytes that were read."""
    lines = out.decode().split()
    return int(lines[0]), int(lines[lines.index("rchar:") + 1])


os.makedirs("empty")
write_journal()
files = [f"{journal}/{kind}/{k}" for kind in ("gate", "rec") for k in range(1, records + 2)]
total = sum(os.path.getsize(file) for file in files)
openings, plains, nothings = [], [], []
for _ in range(RUNS):
    openings.append(run([program, "switch"]))
    plains.append(run(["sh", "-c", 'exec cat "$@" >/dev/null', "cat"] + files))
    nothings.append(run([program, "empty"]))
packages, count = read_count(openings[0][0])
_, least_count = read_count(nothings[0][0])
if packages != records:
    sys.exit("bench/journal.sh: the journal is not read as it was written")
opening, plain, nothing = (min(time for _, time in runs) for runs in (openings, plains, nothings))
most, least = (max(peak([program, folder]) for _ in range(RUNS)) for folder in ("switch", "empty"))
print(f"least of {RUNS} runs, load {os.getloadavg()[0]:.1f}; {total} bytes in {len(files)} files")
print(f"opening  {opening:8.1f} ms of processor, {count - least_count} bytes read: {(count - least_count) / total:.4f} times each")
print(f"nothing  {nothing:8.1f} ms of processor: an opening where there is no journal")
print(f"cat      {plain:8.1f} ms of processor; ratio {opening / plain:.2f}")
print(f"memory   {(most - least) / size:8.2f} times a record, beside the {least >> 10} KiB of an opening of nothing")
PYTHON
