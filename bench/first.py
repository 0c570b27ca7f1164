#!/usr/bin/env python3
"""What a new user meets: makes a fresh clone, runs each command line of the README in it, in order, and compares what is shown.

Run it at the top of the repository: bench/first.py [--until COMMAND] [--all]

A command is a line of the README's code that begins with `$ `. What must be shown on standard output is the lines below it, up to the next
command or the end of the code; a line `...` stands for any lines, and `N` in a line for any number. It prints the seconds of each command. The
gate, .ci/run, takes half an hour or more and is left out without --all; --until stops before a command. Beside them, before the
program is built, a pipe is tried whose first byte comes after five seconds, and one from a replay to a check, since `rt try`, which runs what
is not proved yet, waits two seconds for input.
"""
import argparse
import os
import re
import subprocess
import sys
import tempfile
import time

LATE = "(sleep 5; cat examples/first.trace) | ./wfe replay"
PIPED = "./wfe replay < examples/first.trace | ./wfe check"


def commands(readme):
    """Each command of the README with the lines that it must show, and none for one with no lines below it."""
    found, block = [], False
    for line in readme.split("\n"):
        text = line[4:] if line.startswith("    ") else None
        if text is not None and text.startswith("$ "):
            found.append((text[2:], []))
            block = True
        elif text is not None and block and found:
            found[-1][1].append(text)
        else:
            block = False
    return found


def fits(wanted, shown):
    """Whether the text that was shown has the lines that are wanted."""
    lines = ["(?:.*\n)*?" if line == "..." else re.sub(r"\bN\b", "[0-9]+", re.escape(line)) + "\n" for line in wanted]
    return re.fullmatch("".join(lines), shown) is not None


def run(command, folder):
    start = time.monotonic()
    ran = subprocess.run(["bash", "-c", command], cwd=folder, stdin=subprocess.DEVNULL, stdout=subprocess.PIPE, stderr=subprocess.PIPE, text=True, errors="replace")
    return time.monotonic() - start, ran


def main():
    parser = argparse.ArgumentParser(description=__doc__, formatter_class=argparse.RawDescriptionHelpFormatter)
    parser.add_argument("--until", help="stop before this command")
    parser.add_argument("--all", action="store_true", help="run the gate too")
    asked = parser.parse_args()
    top = subprocess.run(["git", "rev-parse", "--show-toplevel"], stdout=subprocess.PIPE, text=True, check=True).stdout.strip()
    with tempfile.TemporaryDirectory(prefix="wfe-first-") as room:
        folder = f"{room}/wfe"
        subprocess.run(["git", "clone", "-q", top, folder], check=True)
        with open(f"{folder}/README.md", encoding="utf-8") as it:
            lines = commands(it.read())
        first = next((shown for command, shown in lines if command == "./wfe replay < examples/first.trace"), [])
        lines[1:1] = [(LATE, first), (PIPED, ["lawful 15"])]
        passed = failed = 0
        for command, wanted in lines:
            if command == asked.until:
                break
            if command == ".ci/run" and not asked.all:
                continue
            seconds, ran = run(command, folder)
            is_well = not wanted or fits(wanted, ran.stdout)
            passed, failed = passed + is_well, failed + (not is_well)
            print(f"{seconds:6.0f} s  status {ran.returncode}  {'as shown' if is_well else 'NOT AS SHOWN'}  {command}", flush=True)
            for line in ran.stderr.rstrip("\n").split("\n")[-3:] if ran.stderr else []:
                print(f"          said: {line}")
            if not is_well:
                print("".join(f"          {line}\n" for line in ran.stdout.split("\n")[-12:]), end="")
        print(f"{passed} passed, {failed} failed")
        sys.exit(1 if failed else 0)


main()
