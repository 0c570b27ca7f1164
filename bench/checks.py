#!/usr/bin/env python3
"""How fast `wfe check` judges the record that `wfe replay` printed, and whether twice the lines take twice as long.

Run it at the top of the repository: bench/checks.py [--turns N] [--seed S] [--repeats R] [--counts | --long]

The traces are those of bench/measure.py, of N and of twice as many turns, under each scheme. It prints for each
the lines of the record, lines per second checked, both ratios, and the greatest memory of `check`, in which the script's counts.
With `--counts` it counts instructions by callgrind in place of the time. With `--long` it hands `check` a record of one byte more than a record may have, through a pipe, instead.
"""
import argparse
import os
import re
import subprocess
import sys
import tempfile
import time

from measure import SCHEMES, trace_of

PROGRAM = "./wfe"
# The proved program, which that script starts.
BUILT = "crates/wfe/out/wfe"
HEADER = b"record 1 he 1 3 8 1 2 1 100 100\n"
LINE = b"watch" + b" 18446744073709551615" * 4 + b"\n"
MOST = 1 << 30


def run(command, source, sink):
    """The seconds of one run, its exit code, and its greatest memory in KiB."""
    start = time.perf_counter()
    child = subprocess.Popen([PROGRAM, command], stdin=source, stdout=sink)
    _, status, used = os.wait4(child.pid, 0)
    return time.perf_counter() - start, os.waitstatus_to_exitcode(status), used.ru_maxrss


def apart(work):
    """Does some work in a process of its own, so that what it takes is not counted as memory of those started later."""
    child = os.fork()
    if child == 0:
        work()
        os._exit(0)
    if os.waitpid(child, 0)[1] != 0:
        sys.exit("no trace could be written")


def lines_of(name):
    with open(name, "rb") as file:
        return sum(block.count(b"\n") for block in iter(lambda: file.read(1 << 16), b""))


def measured(scheme, seed, turns, repeats):
    """The lines of a record, the best seconds of `replay` and of `check`, and the memory of `check`."""
    with tempfile.TemporaryDirectory() as folder:
        trace, record, answer = (os.path.join(folder, name) for name in ("trace", "record", "answer"))
        def write():
            with open(trace, "wb") as file:
                file.write(trace_of(scheme, seed, turns))
        apart(write)
        best = {"replay": None, "check": None}
        for _ in range(repeats):
            for command, source, sink in (("replay", trace, record), ("check", record, answer)):
                with open(source, "rb") as read, open(sink, "wb") as written:
                    seconds, code, memory = run(command, read, written)
                if code != 0:
                    sys.exit(f"{command} ended with {code}")
                best[command] = min(seconds, best[command] or seconds)
        lines = lines_of(record)
        with open(answer, "rb") as file:
            if not file.read().startswith(b"lawful "):
                sys.exit("a record that was replayed is not lawful")
    return lines, best["replay"], best["check"], memory


def counted(command, source, sink):
    """The instructions of one run."""
    with open(source, "rb") as read, open(sink, "wb") as written, tempfile.NamedTemporaryFile() as out:
        ran = subprocess.run(["valgrind", "--tool=callgrind", f"--callgrind-out-file={out.name}", BUILT, command], stdin=read,
                             stdout=written, stderr=subprocess.PIPE, check=True)
    return int(re.search(rb"Collected : (\d+)", ran.stderr).group(1))


def counts(seed, turns):
    print("| scheme | lines | instructions a line, checked | as a ratio to replay's |\n|---|---|---|---|")
    for scheme in SCHEMES:
        for length in (turns, 2 * turns):
            with tempfile.TemporaryDirectory() as folder:
                trace, record, answer = (os.path.join(folder, name) for name in ("trace", "record", "answer"))
                with open(trace, "wb") as file:
                    file.write(trace_of(scheme, seed, length))
                replay, check = counted("replay", trace, record), counted("check", record, answer)
                lines = lines_of(record)
            print(f"| `{scheme}` | {lines:,} | {check / lines:,.0f} | {check / replay:.2f} |")


def long_record():
    """What `check` answers of the first line and one lawful line after another, with a byte too many."""
    start = time.perf_counter()
    child = subprocess.Popen([PROGRAM, "check"], stdin=subprocess.PIPE, stdout=subprocess.PIPE)
    block = LINE * 1024
    left = MOST + 1 - len(HEADER)
    child.stdin.write(HEADER)
    try:
        while left > 0:
            left -= child.stdin.write(block[:left])
        child.stdin.close()
    except BrokenPipeError:
        pass
    answer = child.stdout.read().decode().strip()
    code = child.wait()
    wanted = f"bad {1 + -(-(MOST + 1 - len(HEADER)) // len(LINE))} long-record"
    print(f"{answer}, exit {code}, {time.perf_counter() - start:.0f} s")
    if (answer, code) != (wanted, 7):
        sys.exit(f"wanted {wanted}, exit 7")


def main():
    parser = argparse.ArgumentParser()
    parser.add_argument("--turns", type=int, default=50000)
    parser.add_argument("--seed", type=int, default=7)
    parser.add_argument("--repeats", type=int, default=3)
    parser.add_argument("--counts", action="store_true")
    parser.add_argument("--long", action="store_true")
    parser.add_argument("--program", default=PROGRAM)
    args = parser.parse_args()
    globals()["PROGRAM"] = args.program
    if args.long:
        long_record()
        return
    if args.counts:
        counts(args.seed, args.turns)
        return
    print("| scheme | lines | lines checked per second | of replay's | of the shorter one's | memory, KiB |\n|---|---|---|---|---|---|")
    for scheme in SCHEMES:
        before = None
        for turns in (args.turns, 2 * args.turns):
            lines, replay, check, memory = measured(scheme, args.seed, turns, args.repeats)
            rate = lines / check
            print(f"| `{scheme}` | {lines:,} | {rate:,.0f} | {replay / check:.2f} | {rate / (before or rate):.2f} | {memory:,} |")
            before = rate


if __name__ == "__main__":
    main()
