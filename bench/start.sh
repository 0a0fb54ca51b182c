#!/bin/sh
# How long a run takes that has nothing to install, and how much memory, beside /bin/true, run the same way and in turn.
# Usage: bench/start.sh [RUNS]
set -eu
top=$(cd "$(dirname "$0")/.." && pwd)
runs=${1:-100}

for tool in rt python3 /usr/bin/time /bin/true; do
    if ! command -v "$tool" >/dev/null 2>&1; then
        echo "bench/start.sh: skipped, since $tool is missing"
        exit 0
    fi
done

program=$(sh "$top/examples/program.sh")
exec python3 - "$program" "$runs" <<'PYTHON'
import os
import statistics
import sys
import tempfile
import time

WORDS = ["install", "--lock-file", "lock"]
QUIET = [(os.POSIX_SPAWN_OPEN, fd, os.devnull, os.O_RDWR, 0) for fd in (0, 1, 2)]


def run(command):
    """The wall time of a command in milliseconds."""
    start = time.perf_counter()
    pid = os.posix_spawn(command[0], command, os.environ, file_actions=QUIET)
    status = os.waitstatus_to_exitcode(os.waitpid(pid, 0)[1])
    wall = (time.perf_counter() - start) * 1000
    if status != 0:
        sys.exit(f"bench/start.sh: {' '.join(command)} ended with {status}")
    return wall


def in_fresh_folder(command):
    """Runs a command where an empty lock stands, and reads what it leaves in the file `peak`."""
    with tempfile.TemporaryDirectory() as folder:
        os.chdir(folder)
        with open("lock", "w") as lock:
            lock.write("depends: []\n")
        wall = run(command)
        peak = open("peak").read() if os.path.exists("peak") else None
        os.chdir("/")
        return wall, peak


def wall_time(program):
    return in_fresh_folder([program] + WORDS)[0]


def peak_memory(program):
    """In KiB. A small parent starts the program, since a child's peak counts what its parent held at the start."""
    return int(in_fresh_folder(["/usr/bin/time", "-f", "%M", "-o", "peak", program] + WORDS)[1])


programs = [sys.argv[1], "/bin/true"]
for program in programs:
    wall_time(program)
walls = {program: [] for program in programs}
peaks = {program: [] for program in programs}
for _ in range(int(sys.argv[2])):
    for program in programs:
        walls[program].append(wall_time(program))
        peaks[program].append(peak_memory(program))
ours, least = [(statistics.median(walls[p]), statistics.median(peaks[p])) for p in programs]
print(f"medians of {sys.argv[2]} runs of an install of an empty lock")
print(f"opam_main  {ours[0]:8.2f} ms  {ours[1]:8.0f} KiB at the peak")
print(f"/bin/true  {least[0]:8.2f} ms  {least[1]:8.0f} KiB at the peak")
print(f"ratio      {ours[0] / least[0]:8.2f}     {ours[1] / least[1]:8.2f}")
PYTHON
