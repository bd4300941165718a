#!/usr/bin/env python3
"""Prints the instructions of each call of `harness EVENTS count`, in lines: event, side, instructions.

count.py emulator NM HARNESS <LOG     LOG is of `qemu-x86_64 -one-insn-per-tb -d exec,nochain`, NM lists the program's functions
count.py callgrind HARNESS FILE       callgrind has written FILE.1, FILE.2 and so on, one for each call

HARNESS lists the functions of harness.o: what they execute themselves is not counted. Both lists are of `nm -S`.
With WHERE=EVENT/SIDE in the environment the first one prints instead which functions that call's instructions are in.
"""

import bisect
import collections
import os
import re
import sys

SIDES = ("wederburh", "plain")


def functions(path):
    """(start, end, name) of each function, by start."""
    found = []
    for line in open(path):
        function = re.match(r"([0-9a-f]+) ([0-9a-f]+) [tTwWi] (.*)", line)
        if function:
            start = int(function[1], 16)
            found.append((start, start + int(function[2], 16), function[3]))
    return sorted(found)


def calls(log, begins, ends, own):
    """The instructions of each call: those between its marks that are not the harness's."""
    places = None
    for line in log:
        place = int(line.split("/", 2)[1], 16)
        if place == begins:
            places = []
        elif place == ends:
            yield places
            places = None
        elif places is not None and not any(start <= place < end for start, end in own):
            places.append(place)


def where(places, table):
    """Each function with how many of the instructions are in it, most first."""
    starts = [start for start, _, _ in table]
    spent = collections.Counter()
    for place in places:
        at = bisect.bisect(starts, place) - 1
        spent[table[at][2] if at >= 0 and place < table[at][1] else "between functions"] += 1
    return spent.most_common()


def emulator(nm, harness):
    table = functions(nm)
    names = {name for _, _, name in functions(harness)}
    own = [(start, end) for start, end, name in table if name in names]
    begins, ends = (next(f[0] for f in table if f[2] == name) for name in ("call_begins", "call_ends"))
    wanted = os.environ.get("WHERE")
    log = (line for line in sys.stdin if line.startswith("Trace"))
    for number, places in enumerate(calls(log, begins, ends, own)):
        event, side = number // 2, SIDES[number % 2]
        if not wanted:
            print(event, side, len(places))
        elif wanted == f"{event}/{side}":
            for name, many in where(places, table):
                print(f"{many:8} {name}")


def callgrind_total(lines, own):
    """What functions other than the harness's executed. The line behind `calls=` repeats what the callee has."""
    total, counts, repeats = 0, False, False
    for line in lines:
        if line.startswith("fn="):
            counts = line[3:].rstrip().split("'")[0] not in own
        elif line.startswith("calls="):
            repeats = True
        elif line[:1].isdigit():
            total += int(line.split()[1]) if counts and not repeats else 0
            repeats = False
    return total


def callgrind(harness, file):
    own = {name for _, _, name in functions(harness)}
    number = 0
    while os.path.exists(f"{file}.{number + 1}"):
        total = callgrind_total(open(f"{file}.{number + 1}"), own)
        print(number // 2, SIDES[number % 2], total)
        number += 1


if __name__ == "__main__":
    if sys.argv[1] == "emulator":
        emulator(*sys.argv[2:])
    else:
        callgrind(*sys.argv[2:])
