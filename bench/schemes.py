#!/usr/bin/env python3
"""What each scheme keeps for a reader that stands still, and what a protection costs in steps: one trace under all four.

Run it at the top of the repository, once `./build` has made the program: bench/schemes.py [--record SCHEME]

The traces are those of `examples/`, with the scheme of each run in their setting. The tables are read off the records:
how many rows wait on retire lists after each put, and which; what the `table` lines of the stalled reader say; in how
many steps a protection and a hold were over, and the calls of the first example; and how many guards a scan read. The
script fails where `wfe check` finds a record not lawful. With `--record` it prints the record of the stalled reader
under that scheme, and nothing else.
"""
import argparse
import os
import re
import subprocess
import sys

SCHEMES = ("he", "ibr", "wfe", "hp")
NAMES = {"he": "Hazard Eras", "ibr": "2GE", "wfe": "Wait-Free Eras", "hp": "hazard pointers"}
TOP = os.path.dirname(os.path.dirname(os.path.realpath(__file__)))


def replayed(trace, scheme):
    """The lines of the record of an example under a scheme."""
    with open(f"{TOP}/examples/{trace}.trace", encoding="ascii") as text:
        lines = re.sub(r"^scheme .*", f"scheme {scheme}", re.sub(r"^wfe .*", "wfe 5", text.read()), flags=re.MULTILINE)
    record = subprocess.run([f"{TOP}/wfe", "replay"], input=lines.encode(), stdout=subprocess.PIPE, check=True).stdout
    judged = subprocess.run([f"{TOP}/wfe", "check"], input=record, stdout=subprocess.PIPE, check=False)
    if judged.returncode != 0:
        sys.exit(f"{trace} under {scheme}: {judged.stdout.decode().strip()}")
    return record.decode().splitlines()


def waiting(record):
    """After each change of the map, the rows that were retired and have not gone back."""
    rows, after, call = [], [], {}
    for seat, kind, *rest in (line.split() for line in record if line[0].isdigit()):
        if kind == "begin":
            call[seat] = rest
        elif kind == "retire":
            rows.append(rest[0])
        elif kind == "back":
            rows.remove(rest[0])
        elif kind == "end" and call[seat][0] in ("put", "scan"):
            after.append((f"{seat} {' '.join(call[seat])}", list(rows)))
    return after


def protections(record):
    """Each protection: the seat, whether a row was held or the link was null, and after how many steps."""
    lines = [line.split() for line in record if line[0].isdigit()]
    return [(seat, kind, rest[-1]) for seat, kind, *rest in lines if kind in ("held", "null")]


def lengths(record):
    """Each call, with the number of its steps."""
    call, found = {}, []
    for seat, kind, *rest in (line.split() for line in record if line[0].isdigit()):
        if kind == "begin":
            call[seat] = " ".join(rest)
        elif kind == "end":
            found.append((call[seat], rest[0]))
    return found


def guards_read(record):
    """How many guards the first scan read."""
    count = 0
    for line in record:
        if re.match(r"\d+ (read|saw) ", line):
            count += 1
        elif count:
            break
    return count


def table(head, rows):
    print("| " + " | ".join(head) + " |\n|" + "---|" * len(head))
    for row in rows:
        print("| " + " | ".join(row) + " |")
    print()


def main():
    parser = argparse.ArgumentParser()
    parser.add_argument("--record", choices=SCHEMES)
    args = parser.parse_args()
    if args.record:
        print("\n".join(replayed("stalled", args.record)))
        return
    names = [NAMES[scheme] for scheme in SCHEMES]
    stalled, intervals, hazards, first = ([replayed(trace, scheme) for scheme in SCHEMES] for trace in ("stalled", "intervals", "hazards", "first"))
    for records in (stalled, intervals):
        rows = []
        for calls in zip(*map(waiting, records)):
            rows.append([f"`{calls[0][0]}`"] + [f"{len(kept)}" + (f": {', '.join(kept)}" if kept else "") for _, kept in calls])
        table(["call", *names], rows)
    totals = [[line.removeprefix("table all ") for line in record if line.startswith("table all")] for record in stalled]
    table(["`table`", *names], [[f"{n + 1}", *[f"`{line}`" for line in lines]] for n, lines in enumerate(zip(*totals))])
    ends = [[next(steps for _, kind, steps in protections(record) if kind == wanted) for record in stalled] for wanted in ("held", "null")]
    table(["the link leads to", *names], [["a row", *ends[0]], ["nothing", *ends[1]]])
    holds = [[next(steps for call, steps in lengths(record) if call.startswith("hold")) for record in records] for records in (stalled, hazards)]
    table(["hold", *names], [["undisturbed", *holds[0]], ["disturbed once", *holds[1]]])
    table(["call", *names], [[f"`{found[0][0]}`", *[steps for _, steps in found]] for found in zip(*map(lengths, first))])
    table(["a scan reads", *names], [["guards", *[str(guards_read(record)) for record in stalled]]])

main()
