#!/usr/bin/env python3
"""table.py FOLDER prints the tables of docs/PERFORMANCE.md from what bench/run has measured into FOLDER."""

import statistics
import sys
from pathlib import Path

SIZES = (4, 7, 16, 31)
OURS, PLAIN = "wederburh", "plain"

# what may grow with the square of n, and then stays within 3 times the plain implementation at n = 31
SQUARE = ("NEWEPOCH, sent on", "NEWEPOCH, moved", "T_grace", "REPORT, ")
MOST, MOST_SQUARE, MOST_MEDIAN, MOST_STACK = 2, 3, 1.2, 32 * 1024


def may_be_square(name):
    return name.startswith(SQUARE)


def read_values(path):
    """{(event, side): value} of a file of lines: event, side, value."""
    lines = (line.split() for line in path.read_text().splitlines())
    return {(int(event), side): int(value) for event, side, value in lines}


class Measured:
    def __init__(self, folder):
        self.numbers = {}
        for line in (folder / "list").read_text().splitlines():
            number, n, name = line.split(" ", 2)
            self.numbers.setdefault(name, {})[int(n)] = int(number)
        self.counts = read_values(folder / "counts")
        self.stack = read_values(folder / "stack")
        times = folder / "times"
        self.times = read_values(times) if times.exists() else None
        self.undefined = (folder / "undefined").read_text().split()
        self.made_by = (folder / "made-by").read_text().splitlines()

    def ratio(self, name, n):
        number = self.numbers[name][n]
        return self.counts[number, OURS] / self.counts[number, PLAIN]

    def ratios(self):
        return [self.ratio(name, n) for name in self.numbers for n in SIZES]

    def limit(self, name, n):
        return MOST_SQUARE if may_be_square(name) and n == SIZES[-1] else MOST

    def over(self):
        """The calls above their limit, worst first."""
        over = [(self.ratio(name, n), name, n) for name in self.numbers for n in SIZES]
        return sorted((x for x in over if x[0] > self.limit(x[1], x[2])), reverse=True)

    def count(self, name, n):
        return self.counts[self.numbers[name][n], OURS]

    def is_linear(self, name):
        """Whether a further member costs about the same from 16 to 31 as from 4 to 16; the square of n costs 2.35 times as much."""
        early = (self.count(name, 16) - self.count(name, 4)) / 12
        late = (self.count(name, 31) - self.count(name, 16)) / 15
        return late <= 1.5 * max(early, 1)

    def deepest(self, side):
        return max((value, name) for name in self.numbers for n in SIZES for value in [self.stack[self.numbers[name][n], side]])


def row(cells):
    return "| " + " | ".join(cells) + " |"


def head(cells):
    return [row(cells), row(["---"] + ["---:"] * (len(cells) - 1))]


def pair(values, number):
    ours, plain = values[number, OURS], values[number, PLAIN]
    return ours, plain


def instructions(m):
    lines = head(["Call"] + [f"n = {n}" for n in SIZES] + ["growth", "", "stack", "plain"])
    for name, numbers in m.numbers.items():
        cells = [name]
        for n in SIZES:
            ours, plain = pair(m.counts, numbers[n])
            cells.append(f"{ours:,} / {plain:,} = {ours / plain:.2f}")
        cells.append(f"{m.count(name, 31) / m.count(name, 4):.1f}")
        cells.append("linear" if m.is_linear(name) else "more")
        cells += [f"{max(m.stack[numbers[n], side] for n in SIZES):,}" for side in (OURS, PLAIN)]
        lines.append(row(cells))
    return lines


def times(m):
    lines = ["", "Nanoseconds, ours / plain, each the median of 2,001 calls:", ""]
    lines += head(["Call"] + [f"n = {n}" for n in SIZES])
    for name, numbers in m.numbers.items():
        lines.append(row([name] + ["{:,} / {:,}".format(*pair(m.times, numbers[n])) for n in SIZES]))
    return lines


def verdict(met):
    return "met" if met else "**missed**"


def targets(m):
    ratios, over = m.ratios(), m.over()
    median = statistics.median(ratios)
    deep, where = m.deepest(OURS)
    steep = [name for name in m.numbers if not m.is_linear(name) and not may_be_square(name)]
    heap = [name for name in m.undefined if name not in ("memcpy", "memmove", "memset", "memcmp", "bcmp")]
    lines = head(["Target", "Measured", ""])
    lines.append(row(["no call above 2 times (those that may be n² above 3 at n = 31)",
                      f"{len(over)} of {len(ratios)} above, the highest {max(ratios):.2f}", verdict(not over)]))
    lines.append(row(["the median of all calls at most 1.2 times", f"{median:.2f}", verdict(median <= MOST_MEDIAN)]))
    lines.append(row(["no heap", f"libhost.a refers to {', '.join(m.undefined) or 'nothing'}", verdict(not heap)]))
    lines.append(row(["at most 32 KiB of stack in any call", f"{deep:,} bytes ({where})", verdict(deep <= MOST_STACK)]))
    lines.append(row(["cost linear in n, but for what may be n²", ", ".join(steep) or "all", verdict(not steep)]))
    return lines


def missed(m):
    """Each call above its limit, with where."""
    found = {}
    for ratio, name, n in m.over():
        found.setdefault(name, []).append((n, ratio))
    lines = ["", "Above their limit:", ""] if found else []
    for name, places in found.items():
        lines.append(f"- {name}: " + ", ".join(f"{ratio:.2f} at n = {n}" for n, ratio in sorted(places)))
    return lines


def main():
    m = Measured(Path(sys.argv[1]))
    lines = [f"- {line}" for line in m.made_by] + [""] + targets(m) + missed(m)
    lines += ["", "Instructions of a call, ours / plain = ratio; `growth` is ours from n = 4 to n = 31; stack in bytes, the most of the four:", ""]
    lines += instructions(m)
    if m.times:
        lines += times(m)
    print("\n".join(lines))


if __name__ == "__main__":
    main()
