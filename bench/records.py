#!/usr/bin/env python3
"""Reads records by the laws, in plain words and with no code of the program, and holds `wfe check` against it.

Run it at the top of the repository, once the program is built: bench/records.py [--traces N] [--seed S] [FILE..]

A record is good where its calls begin and end in turn and each entry keeps the laws of its version from the one on reuse to
the one on steps. For a file it prints `lawful N`, or the line of the first entry with which the record is not good, and which
law refuses it. With no file it makes random traces, replays them, and reads each record as it is and with one line dropped,
doubled, swapped with the next, or altered. What `wfe check` answers must be the same; the first that is not makes it fail.

Each law is read as it stands: what was so at a position of a call is looked for at each position of the call. So the time
that an entry takes grows with the record, and a record of some thousand lines is the most that this is for.
"""
import argparse
import os
import random
import subprocess
import sys

PROGRAM = os.path.join(os.path.dirname(os.path.dirname(os.path.abspath(__file__))), "wfe")
NUMBERS = ("seats", "indexes", "slots", "buckets", "tries", "every", "last_era", "last_version")
ON_BUCKETS = ("get", "put", "remove", "put_if")


class Record:
    """A record's entries, with what is read off it at each position: `at[n]` is the state after n entries."""

    def __init__(self, version, config):
        self.version, self.config = version, config
        self.entries = []
        self.taken = [{config["slots"]}]
        self.birth, self.retire, self.next = {}, {}, {}
        self.buckets, self.heads, self.tails = [{}], [config["slots"]], [config["slots"]]
        self.nexts = [{}]
        self.clocks = [1]
        self.changes = {}
        self.counts = [{}]
        self.rows = {}
        self.queued, self.taken_count, self.empties = [], 0, [True]
        self.values = {}
        self.standing = {}
        self.lists = {}
        self.seats = {}
        self.rising = {}
        self.due = None
        self.last = None

    def seat(self, i):
        if i not in self.seats:
            self.seats[i] = dict(
                open=False, began=None, begun=0, left=False, adopted=False, given=None, linked=False, unused=False, cuts=[],
                retired=0, gave=False, blocks=0, due=None, since=0, togo=0, moves=0, rooted=False, null=False, backs=0,
                read=[], scans=False, raised=0, spanned=False, withdrawal=False, reserves={}, tried={}, under_way=set(), own_last={},
                own_rising={}, hazards={}, own_hazard={}, cut_at={})
        return self.seats[i]

    # What laws read of the record so far.

    def guards(self):
        c = self.config
        indexes = [("i", i, j) for i in range(c["seats"]) for j in range(c["indexes"])]
        if c["scheme"] in ("he", "hp"):
            return indexes
        if c["scheme"] == "ibr":
            return [("v", i) for i in range(c["seats"])]
        return [("h", i) for i in range(c["seats"])] + indexes

    def value(self, guard):
        return self.values.get(guard)

    def stands(self, i, j):
        return self.standing.get((i, j), set())

    def life(self, s):
        return (s, self.birth.get(s, 1), self.retire.get(s, 0))

    def list_of(self, i):
        return self.lists.get(i, [])

    def count(self, b):
        return len(self.changes.get(b, []))

    def since(self, i):
        """The positions of the call that the seat began last, from right after its Begin on; all where it began none."""
        return range(self.seat(i)["begun"], len(self.entries) + 1)

    def value_at(self, b, version, key):
        value = None
        for kind, changed, new in self.changes.get(b, [])[:version]:
            if changed == key:
                value = new if kind == "put" else None
        return value

    def root_had(self, i, found):
        call = self.seat(i)["began"]
        if call is None:
            return False
        if call[0] in ON_BUCKETS + ("hold",):
            b = call[1] % self.config["buckets"]
            return any(self.buckets[p].get(b) == found for p in self.since(i))
        if call[0] == "enq":
            return any(self.tails[p] == found for p in self.since(i))
        if call[0] == "deq":
            return any(self.heads[p] == found for p in self.since(i))
        return False


def meets(life, value):
    """What a guard publishes keeps the life: eras that meet it, or under hazard pointers its row."""
    if value[0] == "row":
        return life[0] == value[1]
    return life[1] <= value[1] and (life[2] == 0 or value[0] <= life[2])


def keeps(read, life):
    return any(value is not None and meets(life, value) for _, value in read)


def own_guard(r, i, j):
    return ("v", i) if r.config["scheme"] == "ibr" else ("i", i, j)


def seat_of(guard):
    return guard[1]


# The laws. Each is given the record so far, the seat and the event, and answers whether it allows the entry there.

def in_turn(r, i, e):
    s = r.seat(i)
    return (not s["open"] and not s["left"]) if e[0] == "begin" else s["open"]


def no_reuse(r, i, e):
    return e[0] not in ("give", "unused", "back") or all(e[1] not in rows for rows in r.standing.values())


def free(r, i, e):
    if e[0] == "give":
        return e[1] not in r.taken[-1]
    return e[0] not in ("unused", "back") or e[1] in r.taken[-1]


def placing(r, i, e):
    s = r.seat(i)
    if e[0] == "give":
        return s["given"] is None
    if e[0] == "link" and e[1][0] in "bn":
        return s["given"] == e[2] and not s["linked"]
    if e[0] == "end":
        return s["given"] is None or s["linked"] != s["unused"]
    return True


def order(r, i, e):
    if r.due is None:
        return e[0] not in ("cut", "put", "removed", "queued", "taken")
    if i != r.due[1]:
        return False
    if r.due[0] == "cut":
        return e[0] == "cut" and e[1] == r.due[2]
    if r.due[0] == "change":
        return e[0] in ("put", "removed") and e[1] == r.due[2]
    return e[0] == r.due[0]


def nexts(r, i, e):
    if e[0] != "link":
        return True
    if e[1][0] == "n":
        return r.next.get(e[1][1]) is None
    if e[1][0] == "head":
        return r.next.get(r.heads[-1]) == e[2]
    return e[1][0] != "tail" or r.next.get(r.tails[-1]) == e[2]


def retiring(r, i, e):
    cuts = r.seat(i)["cuts"]
    if e[0] == "retire":
        return e[1] in cuts
    return e[0] != "end" or not cuts


def backs(r, i, e):
    return e[0] != "back" or any(life[0] == e[1] for life in r.list_of(i))


def lists(r, i, e):
    call = r.seat(i)["began"]
    if e[0] == "left":
        return call == ("leave",) and e[1] == len(r.list_of(i))
    if e[0] == "adopted":
        other = r.seat(e[1])
        return call == ("adopt", e[1]) and other["left"] and not other["adopted"] and e[2] == len(r.list_of(e[1]))
    return True


def next_back(r, i):
    return next((life for life in r.list_of(i) if not keeps(r.seat(i)["read"], life)), None)


def blocks(r, i, e):
    s, guards = r.seat(i), r.guards()
    whole = len(s["read"]) == len(guards)
    over = whole and next_back(r, i) is None
    if e[0] in ("read", "saw"):
        number = 0 if whole else len(s["read"])
        if number >= len(guards) or e[1] != guards[number]:
            return False
        return s["scans"] if 0 < len(s["read"]) < len(guards) else (not s["scans"] or over)
    if e[0] == "back":
        due = next_back(r, i)
        return s["scans"] and whole and due is not None and due[0] == e[1]
    return not s["scans"] or over


def reads(r, i, e):
    return e[0] not in ("read", "saw") or e[2] == r.value(e[1])


def given_one(call):
    return call is not None and call[0] in ("put", "remove", "put_if", "enq")


def block_due(r, i, e):
    s = r.seat(i)
    call = s["began"]
    scan = call == ("scan",)
    if e[0] in ("read", "saw"):
        if s["togo"] != 0:
            return True
        if s["due"] is None:
            return s["blocks"] == 0 and (scan or (given_one(call) and not s["gave"]))
        return s["due"] == 0 and (not scan or s["blocks"] == 0)
    if e[0] == "end":
        return (s["due"] is None or s["since"] == 1) and (not scan or s["blocks"] == 1)
    return True


def room(r, i, e):
    s = r.seat(i)
    if e[0] not in ("read", "saw") or s["togo"] != 0 or s["due"] is not None or not given_one(s["began"]):
        return True
    return all(any(row in r.taken[p] for p in r.since(i)) for row in range(r.config["slots"] + 1))


def numbers(r, i, e):
    return e[0] != "era" or (e[1] == r.clocks[-1] + 1 and e[1] <= r.config["last_era"])


def moves(r, i, e):
    s = r.seat(i)
    return s["moves"] == 0 if e[0] == "era" else e[0] != "end" or s["began"] == ("advance",) or s["moves"] == 0


def advances(r, i, e):
    s = r.seat(i)
    return r.config["scheme"] != "hp" or e[0] != "era" or (s["began"] == ("advance",) and s["moves"] == 0)


def births(r, i, e):
    return e[0] != "give" or any(r.clocks[p] == e[2] for p in r.since(i))


def retires(r, i, e):
    if e[0] != "retire":
        return True
    cut = r.seat(i)["cut_at"].get(e[1])
    return (e[2] == r.birth.get(e[1], 1) and e[1] in r.taken[-1] and cut is not None
            and any(r.clocks[p] == e[3] for p in range(cut, len(r.entries) + 1)))


def current(r, i, e):
    if e[0] != "reserve" or e[2] is None or any(r.clocks[p] == e[2][1] for p in r.since(i)):
        return True
    call = r.seat(i)["began"]
    return call is not None and call[0] == "copy" and r.value(("i", i, call[1])) == e[2]


def single(r, i, e):
    return e[0] != "reserve" or e[2] is None or r.config["scheme"] == "ibr" or e[2][0] == e[2][1]


def rising(r, i, e):
    if e[0] != "reserve" or e[2] is None or r.config["scheme"] != "ibr":
        return True
    old = r.value(e[1])
    return old is None or (e[2][0] == old[0] and old[1] < e[2][1])


def guards(r, i, e):
    if e[0] == "hazard":
        return e[1][0] == "i" and seat_of(e[1]) == i
    if e[0] != "reserve" or seat_of(e[1]) == i:
        return True
    return r.config["scheme"] == "wfe" and e[1][0] == "i" and e[2] is not None and e[2] == r.value(("h", i))


def kinds(r, i, e):
    if e[0] in ("reserve", "read"):
        return r.config["scheme"] != "hp"
    return e[0] not in ("hazard", "saw") or r.config["scheme"] == "hp"


def sources(r, i, e):
    if e[0] == "held" and e[1] in (0, 2):
        return r.root_had(i, e[2])
    if e[0] == "null" and e[1] in (0, 2):
        return r.root_had(i, None)
    return True


def finds(r, i, e):
    s = r.seat(i)
    rooted = s["began"] is not None and s["began"][0] in ON_BUCKETS + ("enq", "deq")
    return e[0] != "end" or not rooted or s["rooted"]


def gots(r, i, e):
    if e[0] != "got":
        return True
    if e[2] == 0:
        return r.seat(i)["null"]
    row = r.rows.get((e[1], e[2]))
    return row is not None and row in r.stands(i, 0)


def links(r, i, e):
    if e[0] != "link":
        return True
    if e[1][0] == "b":
        had = r.buckets[-1].get(e[1][1])
        return had is None or had in r.stands(i, 0)
    if e[1][0] == "n":
        return e[1][1] in r.stands(i, 0)
    if e[1][0] == "head":
        return r.heads[-1] in r.stands(i, 0) and e[2] in r.stands(i, 1)
    return r.tails[-1] in r.stands(i, 0) and (r.seat(i)["began"] != ("deq",) or e[2] in r.stands(i, 1))


def behind(r, i, e):
    if e[0] == "held" and e[1] == 1:
        head = r.heads[-1]
        return head in r.stands(i, 0) and r.next.get(head) == e[2]
    if e[0] == "null" and e[1] == 1:
        return any(r.heads[p] == row and r.nexts[p].get(row) is None for row in r.stands(i, 0) for p in r.since(i))
    return True


def bare(r, i, e):
    return e[0] != "end" or not (r.stands(i, 0) or r.stands(i, 1))


def rests(r, i, e):
    if e[0] != "end":
        return True
    indexes = 3 if r.version < 2 else r.config["indexes"]
    if r.config["scheme"] == "ibr":
        return (r.value(("v", i)) is not None) == any(r.stands(i, j) for j in range(2, indexes))
    if r.value(("h", i)) is not None:
        return False
    return all((r.value(("i", i, j)) is not None) == (j >= 2 and bool(r.stands(i, j))) for j in range(indexes))


def the_map(r, i, e):
    if e[0] in ("put", "removed"):
        return e[2] == r.count(e[1]) + 1 and e[1] == e[3] % r.config["buckets"]
    if e[0] == "got":
        b, version, key = e[1], e[2], e[3]
        begun = r.counts[r.seat(i)["begun"]].get(b, 0)
        return b == key % r.config["buckets"] and begun <= version <= r.count(b) and e[4] == r.value_at(b, version, key)
    return True


def the_queue(r, i, e):
    if e[0] == "queued":
        return e[1] == len(r.queued) + 1
    if e[0] == "taken":
        return e[1] == r.taken_count + 1 and e[1] <= len(r.queued) and e[2] == r.queued[e[1] - 1]
    return True


def empty(r, i, e):
    if e[0] != "end" or e[2] != ("empty",) or r.seat(i)["began"] != ("deq",):
        return True
    return any(r.empties[p] for p in r.since(i))


def steps(r, i, e):
    tries = r.config["tries"]
    if r.config["scheme"] != "wfe" or e[0] not in ("held", "null"):
        return True
    return e[-1] <= 3 * tries + (15 if e[0] == "held" and e[1] == 1 else 12)


def withdrawals(r, i, e):
    if r.config["scheme"] != "wfe" or not r.seat(i)["withdrawal"]:
        return True
    return e[0] == "reserve" and e[1] == ("h", i) and e[2] is None


def tries(r, i, e):
    if r.config["scheme"] != "he" or e[0] not in ("held", "null"):
        return True
    n = 3 * r.seat(i)["reserves"].get(e[1], 0) + (2 if e[0] == "held" and e[1] == 1 else 1)
    return e[-1] == n and r.rising.get((i, e[1]), True)


def raises(r, i, e):
    if r.config["scheme"] != "ibr" or e[0] not in ("held", "null"):
        return True
    return e[-1] == 3 * r.seat(i)["raised"] + (3 if e[0] == "held" and e[1] == 1 else 2)


def hazards(r, i, e):
    if r.config["scheme"] != "hp":
        return True
    if e[0] in ("held", "null"):
        return e[-1] == 2 * r.seat(i)["hazards"].get(e[1], 0) + (2 if e[0] == "held" and e[1] == 1 else 1)
    if e[0] == "hazard" and e[2] is not None:
        return r.seat(e[1][1])["own_hazard"].get(e[1][2]) != e[2]
    return True


def asks(r, i, e):
    if r.config["scheme"] != "wfe" or e[0] != "reserve" or e[1] != ("h", i) or e[2] is None:
        return True
    s = r.seat(i)
    return all(r.config["tries"] + 1 <= s["tried"][j] and s["own_rising"].get(j, True) for j in s["under_way"])


def ends(r, i, e):
    s, c = r.seat(i), r.config
    if e[0] != "end" or s["began"] is None:
        return True
    kind, steps, answer, wfe = s["began"][0], e[1], e[2], c["scheme"] == "wfe"
    if kind in ("release", "drop"):
        return steps == 1
    if kind == "copy":
        return steps == (2 if c["scheme"] != "ibr" and answer[0] == "copied" else 1)
    if kind == "look":
        return steps == 1 if answer == ("nothing",) else steps <= 3 + c["pairs"]
    if kind == "scan":
        return steps == len(r.guards()) + s["backs"]
    if kind == "advance":
        return steps <= (7 * c["seats"] + 3 if wfe else 2)
    if kind == "hold":
        return not wfe or steps <= 3 * c["tries"] + 16
    if kind == "get":
        return not wfe or steps <= 3 * c["tries"] + 18 + c["pairs"]
    return True


def covered(r):
    """What stands is taken, and its index's guard publishes what keeps its life: of the record with the entry."""
    for (i, j), rows in r.standing.items():
        value = r.value(own_guard(r, i, j))
        for s in rows:
            if s not in r.taken[-1] or value is None or not meets(r.life(s), value):
                return False
    return True


LAWS = (in_turn, no_reuse, free, placing, order, nexts, retiring, backs, lists, blocks, reads, block_due, room, numbers, moves,
        advances, births, retires, current, single, rising, guards, kinds, sources, finds, gots, links, behind, bare, rests, the_map,
        the_queue, empty, steps, withdrawals, tries, raises, hazards, asks, ends)


def tell(r, i, e):
    """The record with one entry more."""
    s, c, kind = r.seat(i), r.config, e[0]
    taken, bucket, head, tail, clock = r.taken[-1], r.buckets[-1], r.heads[-1], r.tails[-1], r.clocks[-1]
    nexts, counts = r.nexts[-1], r.counts[-1]
    due = None
    helper = r.value(("h", i)) is not None
    s["withdrawal"] = kind in ("held", "null") and helper
    s["scans"] = kind in ("read", "saw", "back")
    if kind == "begin":
        s.update(open=True, began=e[1], begun=len(r.entries) + 1, given=None, linked=False, unused=False, cuts=[], gave=False,
                 blocks=0, due=None, since=0, moves=0, rooted=False, null=False, backs=0, raised=0)
    elif kind == "end":
        s["open"] = False
    elif kind == "era":
        clock += 1
        s["moves"] += 1
    elif kind == "reserve":
        guard, span = e[1], e[2]
        old = r.value(guard)
        if guard[0] == "i":
            r.rising[guard[1:]] = span is None or ((old is None or old[1] < span[1]) and r.rising.get(guard[1:], True))
            if guard[1] == i:
                j = guard[2]
                if span is None:
                    s["reserves"][j], s["tried"][j], s["own_rising"][j] = 0, 0, True
                    s["under_way"].discard(j)
                else:
                    if old is None:
                        s["under_way"].add(j)
                    s["reserves"][j] = s["reserves"].get(j, 0) + 1
                    s["tried"][j] = s["tried"].get(j, 0) + 1
                    last = s["own_last"].get(j)
                    s["own_rising"][j] = (last is None or last[1] < span[1]) and s["own_rising"].get(j, True)
                s["own_last"][j] = span
        if guard == ("v", i):
            if s["spanned"] and span is not None:
                s["raised"] += 1
            s["spanned"] = span is not None
        r.values[guard] = span
    elif kind == "hazard":
        if e[1][0] == "i" and e[1][1] == i:
            j = e[1][2]
            s["hazards"][j] = 0 if e[2] is None else s["hazards"].get(j, 0) + 1
            s["own_hazard"][j] = e[2]
        r.values[e[1]] = e[2]
    elif kind in ("read", "saw"):
        s["read"] = ([] if len(s["read"]) == len(r.guards()) else s["read"]) + [(e[1], e[2])]
        if s["togo"] == 0:
            s.update(blocks=s["blocks"] + 1, due=None if s["due"] is None else s["due"] + 1, since=s["since"] + 1,
                     togo=len(r.guards()) - 1, moves=max(s["moves"] - 1, 0))
        else:
            s["togo"] -= 1
    elif kind == "give":
        taken = taken | {e[1]}
        r.birth[e[1]], r.retire[e[1]], r.next[e[1]] = e[2], 0, None
        nexts = {**nexts, e[1]: None}
        s.update(given=e[1], linked=False, unused=False, gave=True)
    elif kind == "unused":
        taken = taken - {e[1]}
        s["unused"] = s["unused"] or s["given"] == e[1]
    elif kind == "link":
        root, slot = e[1], e[2]
        if root[0] == "b":
            due = ("change", i, root[1]) if bucket.get(root[1]) is None else ("cut", i, bucket[root[1]])
            bucket = {**bucket, root[1]: slot}
        elif root[0] == "n":
            due = ("queued", i)
            r.next[root[1]] = slot
            nexts = {**nexts, root[1]: slot}
        elif root[0] == "head":
            due = ("cut", i, head)
            head = slot
        else:
            tail = slot
        if root[0] in "bn" and s["given"] == slot:
            s["linked"] = True
    elif kind == "cut":
        s["cuts"] = [e[1]] + s["cuts"]
        s["cut_at"][e[1]] = len(r.entries) + 1
        if r.last is not None and r.last[0] == "link":
            if r.last[1][0] == "b":
                due = ("change", i, r.last[1][1])
            elif r.last[1][0] == "head":
                due = ("taken", i)
    elif kind == "retire":
        if e[1] in s["cuts"]:
            s["cuts"].remove(e[1])
        r.retire[e[1]] = e[3]
        r.lists[i] = r.list_of(i) + [(e[1], e[2], e[3])]
        s["retired"] += 1
        if s["retired"] % c["every"] == 0:
            s.update(due=0 if s["due"] is None else s["due"], since=0)
    elif kind == "back":
        taken = taken - {e[1]}
        r.lists[i] = [life for life in r.list_of(i) if life[0] != e[1]]
        s["backs"] += 1
    elif kind == "held":
        r.standing[i, e[1]] = r.stands(i, e[1]) | {e[2]}
        s["rooted"] = s["rooted"] or e[1] == 0
        s.update(raised=0)
    elif kind == "null":
        s["rooted"] = s["rooted"] or e[1] == 0
        s["null"] = s["null"] or e[1] == 0
        s.update(raised=0)
    elif kind == "clear":
        r.standing[i, e[1]] = r.stands(i, e[1]) - {e[2]}
        s.update(raised=0)
    elif kind == "copied":
        r.standing[i, e[2]] = r.stands(i, e[2]) | {e[3]}
    elif kind in ("put", "removed"):
        b = e[1]
        r.changes.setdefault(b, []).append((kind, e[3], e[4] if kind == "put" else None))
        counts = {**counts, b: r.count(b)}
        r.rows[b, r.count(b)] = bucket.get(b)
    elif kind == "queued":
        r.queued.append(e[2])
    elif kind == "taken":
        r.taken_count += 1
    elif kind == "left":
        s["left"] = True
    elif kind == "adopted":
        r.lists[i], r.lists[e[1]] = r.list_of(i) + r.list_of(e[1]), []
        r.seat(e[1])["adopted"] = True
    if kind in ("held", "null", "copied"):
        j = e[2] if kind == "copied" else e[1]
        s["tried"][j], s["own_last"][j], s["own_rising"][j], s["own_hazard"][j] = 0, None, True, None
        s["under_way"].discard(j)
    r.due, r.last = due, e
    r.entries.append((i, e))
    for history, value in ((r.taken, taken), (r.buckets, bucket), (r.heads, head), (r.tails, tail), (r.clocks, clock),
                           (r.nexts, nexts), (r.counts, counts), (r.empties, r.taken_count == len(r.queued))):
        history.append(value)


def law_against(r, i, e):
    """Tells the entry, and names the law that does not allow it; None where all do."""
    against = next((law.__name__ for law in LAWS if not law(r, i, e)), None)
    if against is None:
        tell(r, i, e)
        if not covered(r):
            return "covered"
    return against


# The text. A line that is none of a record is None.

class BadLine(Exception):
    pass


def number(word, limit=1 << 64):
    if not word.isascii() or not word.isdigit() or (word[0] == "0" and word != "0") or int(word) >= limit:
        raise BadLine
    return int(word)


def value(word):
    return None if word == "none" else number(word)


class Words:
    def __init__(self, words, version, config):
        self.words, self.version, self.config = words, version, config

    def word(self):
        if not self.words:
            raise BadLine
        return self.words.pop(0)

    def long(self):
        return number(self.word())

    def short(self):
        return number(self.word(), 1 << 32)

    def value(self):
        return value(self.word())

    def below(self, name, more=0):
        return number(self.word(), self.config[name] + more)

    def since(self, version):
        if self.version < version:
            raise BadLine

    def guard(self):
        word = self.word()
        if word[:1] in ("h", "v"):
            return (word[0], number(word[1:] or "x", self.config["seats"]))
        seat, dot, index = word[1:].partition(".")
        if word[:1] != "i" or not dot:
            raise BadLine
        return ("i", number(seat or "x", self.config["seats"]), number(index or "x", self.config["indexes"]))

    def span(self):
        word = self.word()
        return None if word == "none" else (number(word, 1 << 32), self.short())

    def row(self):
        word = self.word()
        return None if word == "none" else ("row", number(word, self.config["slots"] + 1))

    def root(self):
        word = self.word()
        if word in ("head", "tail"):
            return (word,)
        if word[:1] == "b":
            return ("b", number(word[1:] or "x", self.config["buckets"]))
        if word[:1] == "n":
            return ("n", number(word[1:] or "x", self.config["slots"] + 1))
        raise BadLine

    def clock(self):
        kind = self.word()
        if kind == "still":
            return (kind,)
        if kind in ("moved", "other", "era-spent"):
            return (kind, self.short())
        raise BadLine

    def index_of_call(self):
        return self.below("indexes")

    def call(self):
        kind = self.word()
        if kind in ("get", "remove", "hold", "enq"):
            return (kind, self.long())
        if kind == "put":
            return (kind, self.long(), self.long())
        if kind in ("deq", "release", "advance", "scan"):
            return (kind,)
        least = {"copy": 2, "drop": 2, "look": 2, "put_if": 3, "leave": 4, "adopt": 4}
        if kind not in least:
            raise BadLine
        self.since(least[kind])
        if kind == "copy":
            return (kind, self.index_of_call(), self.index_of_call())
        if kind == "drop":
            return (kind, self.index_of_call())
        if kind == "look":
            return (kind, self.index_of_call(), self.long())
        if kind == "put_if":
            return (kind, self.long(), self.long(), self.long())
        return (kind,) if kind == "leave" else (kind, self.below("seats"))

    def answer(self):
        kind = self.word()
        if kind in ("still", "moved", "other", "era-spent"):
            self.words.insert(0, kind)
            return ("clock",) + self.clock()
        if kind == "got":
            return (kind, self.long(), self.value())
        if kind == "done":
            return (kind, self.long()) + self.clock()
        if kind in ("absent", "bucket-full", "spent", "queued"):
            return (kind, self.long())
        if kind in ("full", "empty", "nothing", "released"):
            return (kind,)
        if kind == "taken":
            return (kind, self.long(), self.long()) + self.clock()
        if kind == "holding":
            return (kind, self.below("slots", 1))
        if kind == "scanned":
            return (kind, self.short(), self.short())
        least = {"copied": 2, "dropped": 2, "looked": 2, "stale": 3, "left": 4, "adopted": 4, "not-left": 4, "adopted-before": 4}
        if kind not in least:
            raise BadLine
        self.since(least[kind])
        if kind == "copied":
            return (kind, self.below("slots", 1))
        if kind == "looked":
            return (kind, self.below("slots", 1), self.long(), self.value())
        if kind == "stale":
            return (kind, self.long())
        if kind in ("left", "adopted"):
            return (kind, self.short())
        return (kind,)

    def event(self):
        kind = self.word()
        if kind == "begin":
            return (kind, self.call())
        if kind == "end":
            return (kind, self.long(), self.answer())
        if kind == "era":
            return (kind, self.short())
        if kind in ("reserve", "read"):
            return (kind, self.guard(), self.span())
        if kind in ("hazard", "saw"):
            self.since(5)
            return (kind, self.guard(), self.row())
        slot, index, bucket = ("slots", 1), ("indexes",), ("buckets",)
        forms = {"give": (slot, "short"), "unused": (slot,), "cut": (slot,), "retire": (slot, "short", "short"), "back": (slot,),
                 "held": (index, slot, "long"), "null": (index, "long"), "clear": (index, slot), "copied": (index, index, slot),
                 "put": (bucket, "long", "long", "long"), "removed": (bucket, "long", "long"),
                 "got": (bucket, "long", "long", "value"), "queued": ("long", "long"), "taken": ("long", "long"),
                 "left": ("short",), "adopted": (("seats",), "short")}
        if kind == "link":
            return (kind, self.root(), self.below(*slot))
        if kind not in forms:
            raise BadLine
        self.since({"copied": 2, "left": 4, "adopted": 4}.get(kind, 1))
        return (kind,) + tuple(self.below(*form) if isinstance(form, tuple) else getattr(self, form)() for form in forms[kind])


def header_of(line):
    words = line.split(" ")
    if len(words) != 11 or words[0] != "record" or words[1] not in ("1", "2", "3", "4", "5"):
        return None
    if words[2] not in ("he", "ibr", "wfe", "hp") or (words[2] == "hp" and words[1] != "5"):
        return None
    config = dict(zip(NUMBERS, (int(word) for word in words[3:])), scheme=words[2])
    version = int(words[1])
    config["pairs"] = 6 if version < 3 else 14
    return version, config


def entry_of(line, version, config):
    words = Words(line.split(" "), version, config)
    seat, event = words.below("seats"), words.event()
    if words.words:
        raise BadLine
    return seat, event


def judged(text):
    """The answer to a record: its line, and the law that refuses the entry there."""
    lines = text.split("\n")
    if lines[-1] == "":
        lines.pop()
    header = header_of(lines[0]) if lines else None
    if header is None:
        return "bad 1 header", None
    r = Record(*header)
    over = False
    for place, line in enumerate(lines[1:], 2):
        kind = line.split(" ")[0]
        if over:
            return f"bad {place} form", None
        if kind in ("done", "bad", "table", "watch"):
            over = kind in ("done", "bad")
            continue
        try:
            seat, event = entry_of(line, *header)
        except BadLine:
            return f"bad {place} form", None
        law = law_against(r, seat, event)
        if law is not None:
            return f"unlawful {place}", law
    return f"lawful {len(r.entries)}", None


# Traces, and records that are nearly good.

def call_of(rng, version, config):
    key, index = rng.randrange(rng.choice((1, 3, 9))), rng.randrange(2, config["indexes"])
    kinds = [f"put {key} {rng.randrange(100)}", f"put {key} 1", f"get {key}", f"remove {key}", f"enq {rng.randrange(100)}", "deq",
             f"hold {key}", "release", "advance", "scan"]
    if version >= 2:
        kinds += [f"copy {index} {min(index + 1, config['indexes'] - 1)}", f"drop {index}", f"look {index} {key}"]
    if version >= 3:
        kinds += [f"put_if {key} 5 {rng.randrange(4)}"]
    if version >= 4 and rng.random() < 0.2:
        kinds += ["leave"] + [f"adopt {place}" for place in range(config["seats"])]
    return rng.choice(kinds)


def random_trace(rng):
    """Calls of seats chosen at random, each for some steps; a seat's last call is run to its end before its next one begins."""
    version = rng.randint(1, 5)
    schemes = ("he", "ibr", "wfe") if version < 5 else ("he", "ibr", "wfe", "hp", "hp", "hp")
    config = {
        "scheme": rng.choice(schemes), "seats": rng.randint(1, 4), "indexes": rng.randint(3, 5),
        "slots": rng.choice((2, 3, 8, 20)), "buckets": rng.choice((1, 2, 7)), "tries": rng.randint(1, 3),
        "every": rng.choice((1, 2, 8)), "last_era": rng.choice((1, 3, 100)), "last_version": rng.choice((1, 5, 100)),
    }
    lines = [f"wfe {version}"] + [f"{name} {config[name]}" for name in ("scheme",) + NUMBERS] + ["begin"]
    left = set()
    for _ in range(rng.choice((3, 20, 60))):
        seat = rng.randrange(config["seats"])
        if seat in left:
            continue
        call = call_of(rng, version, config)
        lines += [f"{seat} run", f"{seat} {call}", f"{seat} step {rng.randint(1, 40)}"]
        if call == "leave":
            left.add(seat)
    return ("\n".join(lines + ["end"]) + "\n").encode()


def altered(rng, lines):
    """One line dropped, doubled, swapped with the next, or with another number in it."""
    lines = list(lines)
    place = rng.randrange(1, len(lines))
    kind = rng.choice(("drop", "double", "swap", "alter"))
    if kind == "drop":
        del lines[place]
    elif kind == "double":
        lines.insert(place, lines[place])
    elif kind == "swap" and place + 1 < len(lines):
        lines[place], lines[place + 1] = lines[place + 1], lines[place]
    else:
        words = lines[place].split(" ")
        places = [k for k, word in enumerate(words) if word.isdigit()]
        if places:
            k = rng.choice(places)
            words[k] = str(max(0, int(words[k]) + rng.choice((-1, 1))))
        lines[place] = " ".join(words)
    return lines


def checked(text):
    done = subprocess.run([PROGRAM, "check"], input=text.encode(), stdout=subprocess.PIPE)
    return done.stdout.decode().strip()


def main():
    parser = argparse.ArgumentParser()
    parser.add_argument("files", nargs="*")
    parser.add_argument("--traces", type=int, default=100)
    parser.add_argument("--seed", type=int, default=1)
    args = parser.parse_args()
    for name in args.files:
        with open(name) as file:
            print(name, *judged(file.read()))
    if args.files:
        return
    rng = random.Random(args.seed)
    laws = {}
    for number_of_trace in range(args.traces):
        trace = random_trace(rng)
        text = subprocess.run([PROGRAM, "replay"], input=trace, stdout=subprocess.PIPE).stdout.decode()
        lines = text.split("\n")[:-1]
        for body in (lines, altered(rng, lines)):
            text = "\n".join(body) + "\n"
            wanted, law = judged(text)
            laws[law] = laws.get(law, 0) + 1
            answer = checked(text)
            if answer != wanted:
                sys.exit(f"trace {number_of_trace}: {answer}, and by the laws {wanted} ({law})\n{text}")
    for law, times in sorted(laws.items(), key=lambda item: -item[1]):
        print(f"{times:6} {law or 'none'}")


if __name__ == "__main__":
    main()
