#!/bin/sh
# How fast a record of 256 MiB is read, and how much memory that takes beside it: a record of one file, and one of many
# files of 4 KiB. The reading is proved and built in a copy, which takes minutes. Usage: bench/journal_text.sh [MEBIBYTES]
set -eu
top=$(cd "$(dirname "$0")/.." && pwd)
size=${1:-256}

for tool in rt python3; do
    if ! command -v "$tool" >/dev/null 2>&1; then
        echo "bench/journal_text.sh: skipped, since $tool is missing"
        exit 0
    fi
done

work=$(mktemp -d)
trap 'rm -rf "$work"' EXIT
mkdir -p "$work/crates/reading/src"
for crate in opam_names path_order journal_text; do
    cp -R "$top/crates/$crate" "$work/crates/$crate"
done
printf 'opam_names:\npath_order: opam_names\njournal_text: opam_names path_order\nreading: journal_text\n' >"$work/crates.txt"

cat >"$work/crates/reading/src/main.rt" <<'RATTLE'
//! Reads the record in the file `record`, and prints whether it is one and the nanoseconds that this took.
#![tactic(auto)]

use journal_text::decode;
use std::fs;
use std::io;
use std::time::Instant;

fn main(rt: HostRuntime) -> io::Result<()> {
    let bytes = fs::read(&rt, "record")?;
    let start = Instant::now(&rt)?;
    let found = decode(rt.alloc(), bytes.as_slice());
    let nanos = start.elapsed(&rt)?.as_nanos();
    let is_record = matches!(found, Ok(Some(_)));
    println!(rt; "{is_record} {nanos}")?;
    Ok(())
}
RATTLE

printf 'OPAMREC2\004' >"$work/crates/reading/record"
(cd "$work/crates/reading" && rt run) >"$work/first" 2>"$work/log" || {
    echo "bench/journal_text.sh: the reading is not built:" >&2
    tail -n 5 "$work/log" >&2
    exit 1
}

cd "$work"
python3 - "$work/crates/reading/out/reading" "$size" <<'PYTHON'
import os
import statistics
import struct
import subprocess
import sys

program = sys.argv[1]
whole = int(sys.argv[2]) << 20


# The record is written piece by piece: what this process has in memory would count for those that it starts.
def write_record(count):
    each = whole // count
    content = bytes(min(each, 1 << 20))
    with open("record", "wb") as file:
        file.write(b"OPAMREC2\x01\x00\x01a\x00\x011" + struct.pack(">II", 0, count))
        for k in range(count):
            path = b"lib/a/%07d" % k
            file.write(b"\x00" + struct.pack(">H", len(path)) + path + struct.pack(">I", each))
            for _ in range(each // len(content)):
                file.write(content)


def run():
    child = subprocess.Popen([program], stdout=subprocess.PIPE, text=True)
    answer, nanos = child.stdout.read().split()
    _, status, usage = os.wait4(child.pid, 0)
    if status or answer != "true":
        sys.exit("bench/journal_text.sh: the record is not read")
    return int(nanos), usage.ru_maxrss * 1024


for count in (1, whole // 4096):
    write_record(count)
    size = os.path.getsize("record")
    runs = [run() for _ in range(5)]
    speed = size / (statistics.median(nanos for nanos, _ in runs) / 1e9)
    beside = (max(most for _, most in runs) - size) / size
    print(f"{size} bytes in {count} files: {speed / 1e6:.0f} MB/s, {beside:.2f} times its size in memory beside it")
PYTHON
