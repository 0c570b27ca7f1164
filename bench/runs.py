#!/usr/bin/env python3
"""Judges what `wfe run` prints of random traces by the law of runs, and measures how fast runs are.

Run it at the top of the repository, once the program is built: bench/runs.py [--traces N] [--seed S] [--calls N] [--repeats R]

Each trace has a random setting and random calls. Its output is read line by line and judged in plain words, with no
code of the program: each seat has made its script, versions and numbers were told once each and give what is left at
the end, none falls within a seat, rows balance, what went back was on the seat's list, and eras rise. The first trace
that is not lawful makes the script fail. Then it times runs of so many calls over 1, 2 and 4 seats, and prints calls a
second as ratios to one seat.
"""
import argparse
import collections
import os
import random
import subprocess
import sys
import tempfile
import time

PROGRAM = os.path.join(os.path.dirname(os.path.dirname(os.path.abspath(__file__))), "wfe")
FIELDS = ("scheme", "seats", "indexes", "slots", "buckets", "tries", "every", "last_era", "last_version")
ROOMS = {1: 6, 5: 14}


class Unlawful(Exception):
    pass


def want(holds, text):
    if not holds:
        raise Unlawful(text)


def setting_of(rng):
    return {
        "scheme": rng.choice(("he", "ibr", "wfe", "hp")), "seats": rng.choice((1, 2, 3, 4, 8)), "indexes": rng.randint(3, 5),
        "slots": rng.choice((2, 3, 8, 64, 1024)), "buckets": rng.choice((1, 2, 7)), "tries": rng.randint(1, 4),
        "every": rng.choice((1, 2, 8)), "last_era": rng.choice((1, 3, 100, 4294967295)),
        "last_version": rng.choice((1, 5, 100, 281474976710656)),
    }


def call_of(rng, keys):
    key, value = rng.randrange(keys), rng.randrange(1 << 64)
    return rng.choice((f"put {key} {value}", f"put {key} {value}", f"get {key}", f"get {key}", f"remove {key}", f"enq {value}",
                       "deq", f"hold {key}", "release", "advance", "scan"))


def version_of(setting):
    """The version of traces in which the scheme is known."""
    return 5 if setting["scheme"] == "hp" else 1


def trace_of(setting, scripts, order):
    lines = [f"wfe {version_of(setting)}"] + [f"{name} {setting[name]}" for name in FIELDS] + ["begin"]
    left = [iter(script) for script in scripts]
    lines += [f"{seat} {next(left[seat])}" for seat in order]
    return ("\n".join(lines + ["end"]) + "\n").encode()


def random_trace(rng):
    setting = setting_of(rng)
    keys = rng.choice((1, 4, 20))
    scripts = [[call_of(rng, keys) for _ in range(rng.choice((0, 1, 10, 60)))] for _ in range(setting["seats"])]
    order = [seat for seat, script in enumerate(scripts) for _ in script]
    rng.shuffle(order)
    return setting, scripts, trace_of(setting, scripts, order)


def groups_of(lines, seats):
    """By seat, its calls: each the lines from its begin to its end, without the seat. And the lines that are left."""
    logs, place = [[] for _ in range(seats)], 0
    last = 0
    while place < len(lines) and lines[place][0].isdigit():
        seat = int(lines[place][0])
        want(seat >= last, "seats are in order")
        last = seat
        want(lines[place][1] == "begin", "a call begins")
        group = []
        while True:
            want(place < len(lines) and int(lines[place][0]) == seat, "a call has its end")
            group.append(lines[place][1:])
            place += 1
            if group[-1][0] == "end":
                break
        logs[seat].append(group)
    return logs, lines[place:]


class Call:
    """One call: what it asked, what it was answered, and its other events in the form that the text has."""

    def __init__(self, group, setting):
        self.asked, self.answer = group[0][1:], group[-1][2:]
        self.steps = int(group[-1][1])
        self.given = self.unused = self.retired = self.told = None
        self.early, self.late = [], []
        stages = {"back": (0, 5), "give": (1,), "put": (2,), "removed": (2,), "got": (2,), "queued": (2,), "taken": (2,), "unused": (3,), "retire": (4,)}
        stage = 0
        for event in group[1:-1]:
            want(event[0] in stages, f"an event of a call: {event}")
            later = [one for one in stages[event[0]] if one > stage or (event[0] == "back" and one == stage)]
            want(later, f"events are in the order of the text: {group}")
            stage = later[0]
            if event[0] == "back":
                (self.early if stage == 0 else self.late).append(int(event[1]))
            elif event[0] == "give":
                self.given = int(event[1])
            elif event[0] == "unused":
                self.unused = int(event[1])
            elif event[0] == "retire":
                self.retired = int(event[1])
            else:
                self.told = event
        if self.given is None:
            self.early, self.late = [], self.early + self.late
        self.kind, self.result = self.asked[0], self.answer[0]
        self.key = int(self.asked[1]) if self.kind in ("put", "get", "remove", "hold") else None
        self.bucket = self.key % setting["buckets"] if self.key is not None else None

    def version(self):
        """The version of the key's bucket that the answer tells."""
        if self.kind in ("put", "get", "remove") and self.result in ("got", "done", "bucket-full", "absent", "spent"):
            return int(self.answer[1])
        return None

    def clock(self):
        """What the answer says of the clock: still, moved, other, era-spent, with its era."""
        for place, word in enumerate(self.answer):
            if word in ("still", "moved", "other", "era-spent"):
                return word, int(self.answer[place + 1]) if word != "still" else None
        return None, None


SUITS = {"put": ("done", "full", "bucket-full", "spent"), "get": ("got",), "remove": ("done", "full", "absent", "spent"),
         "enq": ("queued", "full", "spent"), "deq": ("taken", "empty"), "hold": ("holding", "nothing"), "release": ("released",),
         "advance": ("still", "moved", "other", "era-spent", "clock"), "scan": ("scanned",)}


def owed(call):
    """What a call with this answer has told of the map or of the queue."""
    bucket, version = str(call.bucket), call.answer[1]
    if call.kind == "put":
        return [bucket, version, *call.asked[1:]]
    if call.kind == "get":
        return [bucket, version, call.asked[1], call.answer[2]]
    if call.kind == "remove":
        return [bucket, version, call.asked[1]]
    return [version, call.asked[1] if call.kind == "enq" else call.answer[2]]


def judge_answers(setting, logs):
    last = setting["last_version"]
    for log in logs:
        retired = 0
        for call in log:
            want(call.result in SUITS[call.kind], f"an answer of its kind: {call.asked} {call.answer}")
            told = {"done": "put" if call.kind == "put" else "removed", "got": "got", "queued": "queued", "taken": "taken"}.get(call.result)
            want((call.told[0] if call.told else None) == told, f"what is answered is told: {call.asked} {call.answer} {call.told}")
            want(call.told is None or call.told[1:] == owed(call), f"as it is answered: {call.asked} {call.answer} {call.told}")
            if call.result in ("done", "queued"):
                want(int(call.answer[1]) <= last, "a version or number in range")
            if call.result == "bucket-full":
                want(int(call.answer[1]) < last, "full before the last version")
            if call.result == "spent":
                want(int(call.answer[1]) == last, "spent at the last")
            if call.result == "full":
                want(call.given is None, "a full table gives no row")
            retires = (call.result == "done" and int(call.answer[1]) > 1) or call.result == "taken"
            want((call.retired is not None) == retires, "a row is retired for each that was replaced")
            retired += call.retired is not None
            moves = setting["scheme"] != "hp" and call.retired is not None
            due = call.kind == "advance" or (moves and retired % setting["every"] == 0)
            word, _ = call.clock()
            if word is not None:
                want((word == "still") == (not due), f"the clock moves where it is due: {call.asked} {call.answer}")
            if call.result == "scanned":
                want(int(call.answer[2]) == len(call.early) + len(call.late), "a scan counts what went back")


def judge_versions(setting, logs, buckets):
    calls = [call for log in logs for call in log]
    room = ROOMS[version_of(setting)]
    for bucket in range(setting["buckets"]):
        changes = {}
        for call in calls:
            if call.bucket == bucket and call.result == "done":
                want(call.version() not in changes, "a version once")
                changes[call.version()] = call
        count, shown = buckets.get(bucket, (0, []))
        want(sorted(changes) == list(range(1, count + 1)), f"versions 1 to {count}")
        pairs = [[]]
        for version in range(1, count + 1):
            now, call = list(pairs[-1]), changes[version]
            if call.kind == "put":
                value = int(call.asked[2])
                places = [place for place, pair in enumerate(now) if pair[0] == call.key]
                want(places or len(now) < room, "a row with room")
                if places:
                    now[places[0]] = (call.key, value)
                else:
                    now.append((call.key, value))
            else:
                want(any(key == call.key for key, _ in now), "a key that is removed was there")
                now = [pair for pair in now if pair[0] != call.key]
            pairs.append(now)
        want(pairs[-1] == shown, "the pairs at the end")
        for call in calls:
            if call.bucket != bucket or call.version() is None:
                continue
            want(call.version() <= count, "a version that there was")
            at = dict(pairs[call.version()])
            if call.result == "got":
                want((str(at[call.key]) if call.key in at else "none") == call.answer[2], f"a get's value: {call.asked} {call.answer} {at}")
            if call.result == "bucket-full":
                want(len(at) == room and call.key not in at, "a bucket that was full")
            if call.result == "absent":
                want(call.key not in at, "a key that was not there")
            if call.result == "spent":
                want(call.version() == count and (call.kind == "put" or call.key in at), "a bucket at its last version")
    for log in logs:
        seen = collections.Counter()
        for call in log:
            if call.version() is not None:
                want(call.version() >= seen[call.bucket] + (call.result == "done"), "versions of a seat do not fall")
                seen[call.bucket] = call.version()


def judge_queue(setting, logs, left):
    queued, taken = {}, {}
    for log in logs:
        high, low = 0, 0
        mine = []
        for call in log:
            if call.result == "queued":
                number = int(call.answer[1])
                want(number not in queued and number > high, "a number once, rising")
                queued[number], high = int(call.asked[1]), number
                mine.append(number)
            if call.result == "taken":
                number = int(call.answer[1])
                want(number not in taken and number > low, "taken once, rising")
                taken[number], low = int(call.answer[2]), number
    want(sorted(queued) == list(range(1, len(queued) + 1)), "numbers from 1 on")
    want(sorted(taken) == list(range(1, len(taken) + 1)) and len(taken) <= len(queued), "numbers taken from 1 on")
    want(all(queued[number] == value for number, value in taken.items()), "the value of its number")
    want(left == [(number, queued[number]) for number in range(len(taken) + 1, len(queued) + 1)], "what is left")
    for log in logs:
        most = 0
        for call in log:
            most = max(most, int(call.answer[1])) if call.result == "queued" else most
            if call.result == "empty":
                want(most <= len(taken), "empty once what the seat queued was taken")
            if call.kind == "enq" and call.result == "spent":
                want(len(queued) == setting["last_version"], "numbers spent")


def judge_rows(setting, logs, used):
    calls = [call for log in logs for call in log]
    for slot in range(setting["slots"] + 1):
        gives = sum(call.given == slot for call in calls) + (slot == setting["slots"])
        ends = sum((call.unused == slot) + (call.early + call.late).count(slot) for call in calls)
        want(gives == ends + (slot in used), f"row {slot} balances")
    want(used == sorted(set(used)), "rows rise")
    for log in logs:
        listed = []

        def leave(backs):
            place = 0
            for slot in backs:
                want(slot in listed[place:], f"row {slot} went back in the order of its list")
                place = listed.index(slot, place)
                del listed[place]

        for call in log:
            leave(call.early)
            if call.retired is not None:
                listed.append(call.retired)
            leave(call.late)
            if call.result == "scanned":
                want(int(call.answer[1]) == len(listed), "a scan keeps what is left")


def judge_eras(setting, logs):
    moved = [era for log in logs for call in log for word, era in [call.clock()] if word == "moved"]
    want(len(moved) == len(set(moved)) and all(2 <= era <= setting["last_era"] for era in moved), "an era once")
    for log in logs:
        last, spent = 1, False
        for call in log:
            word, era = call.clock()
            if word in ("moved", "other"):
                want(era > last and not spent, "eras rise within a seat")
                last = era
            if word == "era-spent":
                want(era == setting["last_era"], "the last era")
                spent = True


def judge(setting, scripts, text):
    lines = [line.split() for line in text.decode().splitlines()]
    header = ["record", str(version_of(setting))] + [str(setting[name]) for name in FIELDS]
    want(lines[0] == header, f"the header {lines[0]}")
    want(lines[-1] == ["done"], "the last line")
    groups, rest = groups_of(lines[1:-1], setting["seats"])
    logs = [[Call(group, setting) for group in log] for log in groups]
    want([[" ".join(call.asked) for call in log] for log in logs] == scripts, "each seat has made its script")
    buckets, left, used = {}, [], []
    order = [("bucket", "queue", "used", "watch").index(line[0]) for line in rest]
    want(order == sorted(order), "the table comes in its order")
    for line in rest:
        numbers = [int(word) for word in line[1:]]
        if line[0] == "bucket":
            buckets[numbers[0]] = (numbers[1], list(zip(numbers[2::2], numbers[3::2])))
        elif line[0] == "queue":
            left.append((numbers[0], numbers[1]))
        elif line[0] == "used":
            used.append(numbers[0])
    judge_answers(setting, logs)
    judge_versions(setting, logs, buckets)
    judge_queue(setting, logs, left)
    judge_rows(setting, logs, used)
    judge_eras(setting, logs)


def run(trace):
    done = subprocess.run([PROGRAM, "run"], input=trace, stdout=subprocess.PIPE, stderr=subprocess.PIPE)
    if done.returncode != 0:
        raise Unlawful(f"status {done.returncode}: {done.stderr.decode()[:200]}")
    return done.stdout


def speed(calls, repeats):
    """Seconds of the best run over each number of seats."""
    print("| scheme | seats | calls/s | to 1 seat |\n|---|---|---|---|")
    for scheme in ("he", "ibr", "wfe", "hp"):
        base = None
        for seats in (1, 2, 4):
            rng = random.Random(1)
            setting = {"scheme": scheme, "seats": seats, "indexes": 3, "slots": 4096, "buckets": 64, "tries": 4, "every": 8,
                       "last_era": 4294967295, "last_version": 281474976710656}
            scripts = [[] for _ in range(seats)]
            for place in range(calls):
                key = rng.randrange(128)
                scripts[place % seats].append(f"put {key} {place}" if place % 10 == 0 else f"get {key}")
            order = [place % seats for place in range(calls)]
            with tempfile.NamedTemporaryFile() as file:
                file.write(trace_of(setting, scripts, order))
                file.flush()
                best = None
                for _ in range(repeats):
                    with open(file.name, "rb") as source, open(os.devnull, "wb") as sink:
                        start = time.perf_counter()
                        subprocess.run([PROGRAM, "run"], stdin=source, stdout=sink, check=True)
                        took = time.perf_counter() - start
                        best = took if best is None else min(best, took)
            rate = calls / best
            base = base or rate
            print(f"| `{scheme}` | {seats} | {rate:,.0f} | {rate / base:.2f} |")


def main():
    parser = argparse.ArgumentParser()
    parser.add_argument("--traces", type=int, default=200)
    parser.add_argument("--seed", type=int, default=1)
    parser.add_argument("--calls", type=int, default=1_000_000)
    parser.add_argument("--repeats", type=int, default=3)
    options = parser.parse_args()
    for number in range(options.traces):
        setting, scripts, trace = random_trace(random.Random(f"{options.seed} {number}"))
        try:
            judge(setting, scripts, run(trace))
        except Unlawful as fault:
            sys.exit(f"trace {number} of seed {options.seed}: {fault}")
    print(f"{options.traces} runs of random traces are lawful")
    if options.calls:
        speed(options.calls, options.repeats)


if __name__ == "__main__":
    main()
