#!/usr/bin/env python3
"""How fast `wfe replay` plays a generated trace, under each scheme, and what share of the work prints.

Run it at the top of the repository: bench/measure.py [--turns N] [--seed S] [--repeats R] [--profile]

The trace has the lines of `wfe gen SEED N`, written out as text, with the scheme of each run in its setting.
A run's units are the steps that its End lines count. Speeds are the best of the repeats, and the columns
beside them are ratios to Hazard Eras in the same run of this script. For Wait-Free Eras the counts of the
record are compared with the summary that `wfe gen` prints; where they differ, the script fails.
"""
import argparse
import collections
import os
import re
import shutil
import subprocess
import sys
import tempfile
import time

SCHEMES = ("he", "ibr", "wfe", "hp")
MASK = (1 << 64) - 1
MULTIPLIER = 6364136223846793005
INCREMENT = 1


def words_of(seed):
    """The 32-bit outputs of PCG XSH RR 64/32 on stream 0."""
    state = ((seed + INCREMENT) * MULTIPLIER + INCREMENT) & MASK
    while True:
        rotation = state >> 59
        shifted = (((state >> 18) ^ state) >> 27) & 0xFFFFFFFF
        yield ((shifted >> rotation) | (shifted << (-rotation & 31))) & 0xFFFFFFFF
        state = (state * MULTIPLIER + INCREMENT) & MASK


def call_of(kind, key, value):
    if kind < 2:
        return f"get {key}"
    if kind < 5:
        return f"put {key} {value}"
    return (f"remove {key}", f"enq {value}", "deq")[kind - 5]


def trace_of(scheme, seed, turns):
    """The lines of a generated trace, as text."""
    lines = ["wfe 5", f"scheme {scheme}", "seats 4", "indexes 3", "slots 4096", "buckets 16", "tries 4", "every 8",
             "last_era 4294967295", "last_version 281474976710656", "begin"]
    words = words_of(seed)
    for _ in range(turns):
        a, b = next(words), next(words)
        seat = a % 4
        call = call_of(a // 4 % 8, a // 32 % 64, b)
        lines += [f"{seat} run", f"{seat} {call}", f"{seat} step {1 + b % 40}"]
    return ("\n".join(lines + ["end"]) + "\n").encode()


def counts_of(record):
    """What a summary counts, read off the lines of a record."""
    kinds = collections.Counter()
    units = 0
    for line in record.splitlines():
        parts = line.split()
        if len(parts) > 1:
            kinds[parts[1]] += 1
            if parts[1] == b"end":
                units += int(parts[2])
    names = (("calls", b"begin"), ("puts", b"put"), ("removed", b"removed"), ("gots", b"got"), ("queued", b"queued"),
             ("taken", b"taken"), ("retired", b"retire"), ("back", b"back"))
    return {"units": units, **{name: kinds[kind] for name, kind in names}, "clock": 1 + kinds[b"era"]}


def summary_of(text):
    return {name: int(number) for name, number in re.findall(r"^([a-z]+) (\d+)$", text.decode(), re.M)}


def timed(program, trace):
    """The seconds of one run, and what it printed."""
    with open(trace, "rb") as source, tempfile.TemporaryFile() as sink:
        start = time.perf_counter()
        subprocess.run([program, "replay"], stdin=source, stdout=sink, check=True)
        seconds = time.perf_counter() - start
        sink.seek(0)
        return seconds, sink.read()


def idle_trace(lines):
    """A trace of so many lines that do nothing."""
    setting = "wfe 1\nscheme he\nseats 1\nindexes 3\nslots 8\nbuckets 1\ntries 2\nevery 1\nlast_era 100\nlast_version 100\nbegin\n"
    return (setting + "0 run\n" * lines + "end\n").encode()


def least_space(program, trace):
    """The least limit on address space, in KiB and to 1 percent, within which a run is done."""
    def runs(limit):
        with open(trace, "rb") as source:
            return subprocess.run(["sh", "-c", f'ulimit -v {limit}; exec "$0" replay', program], stdin=source,
                                  stdout=subprocess.DEVNULL, stderr=subprocess.DEVNULL, check=False).returncode == 0
    low, high = 0, 1024
    while not runs(high):
        low, high = high, 2 * high
    while high - low > high // 100:
        middle = (low + high) // 2
        low, high = (low, middle) if runs(middle) else (middle, high)
    return high


# Functions whose names show that they make the text of a line or hand bytes on.
PRINTS = re.compile(r"wfe_text|wfe_trace|wfe_server_out|wfe_outside|write|fmt|itoa|digits|memcpy|memmove")


def shares(program, trace):
    """The share of all instructions that functions of printing take, and the greatest single shares, by callgrind."""
    with tempfile.TemporaryDirectory() as folder, open(trace, "rb") as source:
        out = os.path.join(folder, "profile")
        subprocess.run(["valgrind", "--tool=callgrind", f"--callgrind-out-file={out}", program, "replay"], stdin=source,
                       stdout=subprocess.DEVNULL, stderr=subprocess.DEVNULL, check=True)
        text = subprocess.run(["callgrind_annotate", "--threshold=100", out], capture_output=True, check=True).stdout.decode()
    rows = [(int(count.replace(",", "")), name) for count, name in re.findall(r"^\s*([\d,]+) \([^)]*\)\s+(\S.*)$", text, re.M)
            if "PROGRAM TOTALS" not in name]
    total = sum(count for count, _ in rows)
    printing = sum(count for count, name in rows if PRINTS.search(name))
    return printing / total, [(count / total, name) for count, name in rows[:12]]


def main():
    parser = argparse.ArgumentParser()
    parser.add_argument("--turns", type=int, default=20000)
    parser.add_argument("--seed", type=int, default=7)
    parser.add_argument("--repeats", type=int, default=3)
    parser.add_argument("--profile", action="store_true", help="print where the instructions go (needs valgrind)")
    args = parser.parse_args()
    program = os.path.join(os.path.dirname(os.path.abspath(__file__)), os.pardir, "crates", "wfe", "out", "wfe")
    if not os.path.exists(program):
        subprocess.run([os.path.join(os.path.dirname(os.path.abspath(__file__)), os.pardir, "build")], check=True)
    print(f"seed {args.seed}, {args.turns} turns, best of {args.repeats}")
    print("scheme      units  trace bytes record bytes  units/s  to he  bytes/s (record)  to he")
    base = None
    with tempfile.TemporaryDirectory() as folder:
        for scheme in SCHEMES:
            trace = os.path.join(folder, scheme)
            text = trace_of(scheme, args.seed, args.turns)
            with open(trace, "wb") as sink:
                sink.write(text)
            runs = [timed(program, trace) for _ in range(args.repeats)]
            seconds, record = min(seconds for seconds, _ in runs), runs[0][1]
            if any(other != record for _, other in runs):
                sys.exit("two runs printed different records")
            counts = counts_of(record)
            speed, bytes_speed = counts["units"] / seconds, len(record) / seconds
            base = base or (speed, bytes_speed)
            print(f"{scheme:6} {counts['units']:10} {len(text):12} {len(record):12} {speed:8.0f} {speed / base[0]:6.2f} "
                  f"{bytes_speed:17.0f} {bytes_speed / base[1]:6.2f}")
            if scheme == "wfe":
                generated = subprocess.run([program, "gen", str(args.seed), str(args.turns)], capture_output=True, check=True).stdout
                summary = summary_of(generated)
                if any(summary.get(name) != number for name, number in counts.items()):
                    sys.exit(f"the summary of gen {summary} is not that of the record {counts}")
                print("the summary of gen has the counts of this record")
            if args.profile:
                if shutil.which("valgrind") is None:
                    sys.exit("there is no valgrind")
                printing, greatest = shares(program, trace)
                print(f"printing: {printing:.0%} of the instructions; the greatest shares:")
                for share, name in greatest:
                    print(f"  {share:6.1%} {name}")
        sizes = []
        for lines in (10, 2796184):
            trace = os.path.join(folder, "idle")
            with open(trace, "wb") as sink:
                sink.write(idle_trace(lines))
            sizes.append((os.path.getsize(trace), least_space(program, trace)))
        print("address space: " + ", ".join(f"{space} KiB for a trace of {size} bytes" for size, space in sizes))


if __name__ == "__main__":
    main()
