#!/usr/bin/env python3
"""How many steps gets and holds take, and how many rows wait, on one shared table while a helper is stopped, under each scheme.

Run it at the top of the repository, once `./build wfe_bench` has made the program: bench/stalled.py [--seconds N]

Five threads share a table of one bucket. Two read it, two change it and move the clock without a rest, and one holds a
row that it never lets go, and moves the clock, and so helps readers where they ask for help. That one, the helper, is
stopped wherever it is for a quarter of a second, then let go for a moment, and stopped again. The program prints the
greatest number of steps that a get and a hold took, and of rows on one writer's list after a put; beside them stand the
bounds that contracts promise. The script fails where a number is above its bound.
"""
import argparse
import ctypes
import os
import re
import subprocess
import sys
import time

SCHEMES = ("he", "ibr", "wfe", "hp")

# The setting of the program, in crates/wfe_bench/src/stalled.rt.
SEATS, INDEXES, BUCKETS, EVERY = 5, 3, 1, 1
TOP = os.path.dirname(os.path.dirname(os.path.realpath(__file__)))
PROGRAM = f"{TOP}/crates/wfe_bench/out/wfe_bench"

# Of ptrace, which stops one thread of a process and lets it go, and of waitpid, to wait for a thread.
ATTACH, DETACH, ANY_THREAD = 16, 17, 0x40000000
LIBC = ctypes.CDLL(None, use_errno=True)


def states(process):
    """The threads of the process, each with the letter of its state."""
    found = {}
    for thread in os.listdir(f"/proc/{process.pid}/task"):
        with open(f"/proc/{process.pid}/task/{thread}/stat", encoding="ascii") as text:
            found[int(thread)] = text.read().rpartition(")")[2].split()[0]
    return found


def trace(request, thread):
    if LIBC.ptrace(request, thread, None, None) != 0:
        sys.exit(f"ptrace: {os.strerror(ctypes.get_errno())}")


def helper_of(process):
    """The thread that sleeps first, while all others are at work."""
    time.sleep(0.15)
    asleep = [thread for thread, state in states(process).items() if state == "S"]
    if len(asleep) != 1:
        sys.exit(f"{len(asleep)} threads sleep in place of one")
    time.sleep(0.35)
    return asleep[0]


def stalled(scheme, seconds):
    """What a run prints whose helper is stopped, and how often it was."""
    end = time.monotonic() + seconds
    with subprocess.Popen([PROGRAM, scheme, "stalled", str(seconds)], stdout=subprocess.PIPE, text=True) as process:
        helper = helper_of(process)
        stops = 0
        while time.monotonic() + 0.3 < end:
            trace(ATTACH, helper)
            os.waitpid(helper, ANY_THREAD)
            time.sleep(0.25)
            trace(DETACH, helper)
            stops += 1
            time.sleep(0.003)
        text = process.communicate()[0]
    if process.returncode != 0:
        sys.exit(f"{PROGRAM} {scheme} stalled: status {process.returncode}")
    steps = re.findall(r"^(get|hold) (\d+) (\d+) (\d+|none)$", text, re.M)
    return steps, int(re.search(r"^list (\d+)$", text, re.M).group(1)), stops


def list_bound(scheme):
    """The most rows that a seat's list may have where its call ends, as far as it is proved: under eras so many for each guard."""
    kept = BUCKETS + 1 + SEATS * (EVERY + 2)
    guards = {"he": SEATS * INDEXES, "wfe": SEATS + SEATS * INDEXES, "hp": SEATS * INDEXES}
    if scheme not in guards:
        return None
    return guards[scheme] * (1 if scheme == "hp" else kept) + EVERY - 1


def main():
    parser = argparse.ArgumentParser()
    parser.add_argument("--seconds", type=int, default=60)
    seconds = parser.parse_args().seconds
    if not os.path.exists(PROGRAM):
        sys.exit("make the program first: ./build wfe_bench")
    print("| scheme | call | calls | most steps | bound | stops of the helper |\n|---|---|---|---|---|---|")
    lists = []
    for scheme in SCHEMES:
        rows, longest, stops = stalled(scheme, seconds)
        lists.append((scheme, longest))
        for call, calls, steps, bound in rows:
            print(f"| `{scheme}` | {call} | {int(calls):,} | {steps} | {bound} | {stops} |", flush=True)
            if bound != "none" and int(steps) > int(bound):
                sys.exit(f"{call} took {steps} steps, and the bound is {bound}")
    print("\n| scheme | longest list | bound |\n|---|---|---|")
    for scheme, longest in lists:
        bound = list_bound(scheme)
        print(f"| `{scheme}` | {longest} | {'none' if bound is None else bound} |")
        if bound is not None and longest > bound:
            sys.exit(f"{longest} rows wait at a seat, and the bound is {bound}")


if __name__ == "__main__":
    main()
