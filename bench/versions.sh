#!/bin/sh
# How many pairs of versions the built order compares in a second, beside Debian's rule as a plain C loop over the same
# pairs, in one run. The answers of both are compared too. The order is proved and built in a copy, which takes minutes.
# Usage: bench/versions.sh [PAIRS]
set -eu
top=$(cd "$(dirname "$0")/.." && pwd)
count=${1:-20000}

for tool in rt python3 gcc; do
    if ! command -v "$tool" >/dev/null 2>&1; then
        echo "bench/versions.sh: skipped, since $tool is missing"
        exit 0
    fi
done

work=$(mktemp -d)
trap 'rm -rf "$work"' EXIT
mkdir -p "$work/crates/versions/src"
cp -R "$top/crates/opam_names" "$work/crates/opam_names"
printf 'opam_names:\nversions: opam_names\n' >"$work/crates.txt"

cat >"$work/crates/versions/src/main.rt" <<'RATTLE'
//! Orders the pairs of versions that it is given, many times.
#![tactic(auto)]

use opam_names::text_order;
use std::cmp::Ordering;
use std::io::{BufRead, BufReader};
use std::time::Instant;

fn number(order: Ordering) -> u64 {
    match order {
        Ordering::Less => 1,
        Ordering::Equal => 2,
        Ordering::Greater => 3,
    }
}

fn sum_of(pairs: &[(String, String)]) -> u64 {
    let mut sum = 0u64;
    for (at, (a, b)) in pairs.iter().enumerate() {
        let weight = at as u64 % 1009 + 1;
        sum = sum.wrapping_add(weight.wrapping_mul(number(text_order(a.as_str(), b.as_str()))));
    }
    sum
}

fn main(rt: HostRuntime) -> std::io::Result<()> {
    let alloc = rt.alloc();
    let mut pairs: Vec<(String, String)> = Vec::new(alloc);
    for line in BufReader::new(alloc, rt.reader())?.lines(alloc) {
        let line = line?;
        if let Some((a, b)) = line.as_str().split_once(' ') {
            pairs.push((String::from_str(alloc, a)?, String::from_str(alloc, b)?))?;
        }
    }
    let mut sum = 0u64;
    let start = Instant::now(&rt)?;
    for _ in 0..200 {
        sum = sum.wrapping_mul(31).wrapping_add(sum_of(pairs.as_slice()));
    }
    println!(rt; "{} {}", sum, start.elapsed(&rt)?.as_nanos())?;
    Ok(())
}
RATTLE

cat >"$work/plain.c" <<'C'
#include <inttypes.h>
#include <stdio.h>
#include <stdlib.h>
#include <string.h>
#include <time.h>

static int is_digit(int c) { return c >= '0' && c <= '9'; }

static int rank(int c) {
    if (is_digit(c)) return 0;
    if ((c >= 'A' && c <= 'Z') || (c >= 'a' && c <= 'z')) return c;
    if (c == '~') return -1;
    return c ? c + 256 : 0;
}

__attribute__((noinline)) static int order(const char *a, const char *b) {
    while (*a || *b) {
        int first = 0;
        while ((*a && !is_digit(*a)) || (*b && !is_digit(*b))) {
            int x = rank(*a), y = rank(*b);
            if (x != y) return x - y;
            a++;
            b++;
        }
        while (*a == '0') a++;
        while (*b == '0') b++;
        while (is_digit(*a) && is_digit(*b)) {
            if (!first) first = *a - *b;
            a++;
            b++;
        }
        if (is_digit(*a)) return 1;
        if (is_digit(*b)) return -1;
        if (first) return first;
    }
    return 0;
}

int main(void) {
    static char line[4096];
    char **as = NULL, **bs = NULL;
    size_t n = 0, room = 0;
    while (fgets(line, sizeof line, stdin)) {
        char *space = strchr(line, ' ');
        if (!space) continue;
        line[strcspn(line, "\n")] = 0;
        *space = 0;
        if (n == room) {
            room = room ? 2 * room : 1024;
            as = realloc(as, room * sizeof *as);
            bs = realloc(bs, room * sizeof *bs);
        }
        as[n] = strdup(line);
        bs[n] = strdup(space + 1);
        n++;
    }
    struct timespec start, end;
    uint64_t sum = 0;
    clock_gettime(CLOCK_MONOTONIC, &start);
    for (int turn = 0; turn < 200; turn++) {
        uint64_t part = 0;
        for (size_t i = 0; i < n; i++) {
            int o = order(as[i], bs[i]);
            part += (i % 1009 + 1) * (uint64_t)(o < 0 ? 1 : o == 0 ? 2 : 3);
        }
        sum = sum * 31 + part;
    }
    clock_gettime(CLOCK_MONOTONIC, &end);
    int64_t spent = (end.tv_sec - start.tv_sec) * INT64_C(1000000000) + (end.tv_nsec - start.tv_nsec);
    printf("%" PRIu64 " %" PRId64 "\n", sum, spent);
    return 0;
}
C
gcc -O2 -o "$work/plain" "$work/plain.c"

python3 - "$count" >"$work/pairs" <<'PYTHON'
import random
import sys

random.seed(7)
DIGITS = ["0", "1", "2", "7", "10", "42", "2024", "00", "01"]
WORDS = ["rc", "alpha", "beta", "dev", "p", "git", "v", "ocaml"]


def text(length):
    out = ""
    while len(out) < length:
        kind = random.random()
        if kind < 0.45:
            out += random.choice(DIGITS + [str(random.randrange(10**6))])
        elif kind < 0.8:
            out += random.choice(".-+~_")
        else:
            out += random.choice(WORDS)
    return out[:length]


for _ in range(int(sys.argv[1])):
    first = text(random.randrange(5, 41))
    kind = random.random()
    if kind < 0.25:
        second = first
    elif kind < 0.5:
        second = text(random.randrange(5, 41))
    else:
        at = random.randrange(len(first))
        second = first[:at] + random.choice("0123456789.~+-abcxyz") + first[at + 1 :]
    print(first, second)
PYTHON

(cd "$work/crates/versions" && rt run) <"$work/pairs" >"$work/first" 2>"$work/log" || {
    echo "bench/versions.sh: the order is not built:" >&2
    tail -n 5 "$work/log" >&2
    exit 1
}

python3 - "$work/crates/versions/out/versions" "$work/plain" "$work/pairs" "$count" <<'PYTHON'
import statistics
import subprocess
import sys

programs = sys.argv[1:3]
count = int(sys.argv[4])
spent = {program: [] for program in programs}
sums = set()
for _ in range(9):
    for program in programs:
        with open(sys.argv[3]) as pairs:
            total, nanos = subprocess.run([program], stdin=pairs, capture_output=True, text=True, check=True).stdout.split()
        sums.add(total)
        spent[program].append(int(nanos))
if len(sums) != 1:
    sys.exit("bench/versions.sh: the two orders answer differently")
ours, plain = [200 * count / (statistics.median(spent[program]) / 1e9) for program in programs]
print(f"medians of 9 runs over {count} pairs of 5 to 40 bytes, each 200 times; both orders answer alike")
print(f"opam_names  {ours / 1e6:8.2f} million comparisons a second")
print(f"plain loop  {plain / 1e6:8.2f} million comparisons a second")
print(f"ratio       {plain / ours:8.2f} times the plain loop's time")
PYTHON
