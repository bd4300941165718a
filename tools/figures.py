#!/usr/bin/env python3
"""The table by crate of docs/FIGURES.md, from what a run of the gate printed, and from the tree and the logs that it left. It reads what the older
toolchain printed, of which those figures are.

usage: .ci/run > OUTPUT, then tools/figures.py OUTPUT
"""

import re
import sys
from pathlib import Path

sys.dont_write_bytecode = True
from refused import edits, mistakes_of  # noqa: E402

ROOT = Path(__file__).resolve().parent.parent
COLUMNS = ["Code", "Spec", "Proof", "Functions", "Edits", "Mistakes", "Proved in", "Its edits"]


def lines_in(crate, pattern):
    return sum(len(path.read_text().splitlines()) for path in (ROOT / "crates" / crate).glob(pattern))


def functions_in(crate):
    said = (ROOT / "target/log" / f"{crate}.out").read_text()
    return sum(int(n) for n in re.findall(r"functions=(\d+)", said))


def seconds(output, pattern):
    return sum(int(n) for n in re.findall(pattern, output, re.M))


def row_of(crate, output):
    texts = [text for name, _, text in edits(ROOT) if name == crate]
    return [
        lines_in(crate, "src/*.rt"),
        lines_in(crate, "specs/*.antt"),
        lines_in(crate, "proofs/**/*.antt"),
        functions_in(crate),
        len(texts),
        sum(len(mistakes_of(text)[0]) for text in texts),
        seconds(output, rf"^rt: {crate} proved \((\d+) s\)"),
        seconds(output, rf"^rt: must-fail {crate}/\S+: refused, .*?(\d+) s\)$"),
    ]


def printed(name, row):
    cells = [f"{n:,}" for n in row[:-2]] + [f"{n:,} s" for n in row[-2:]]
    print(f"| {name} | " + " | ".join(cells) + " |")


def main(path):
    output = Path(path).read_text()
    listed = [line.split("#")[0] for line in (ROOT / "crates.txt").read_text().splitlines()]
    crates = [line.split(":")[0].strip() for line in listed if ":" in line]
    rows = [row_of(crate, output) for crate in crates]
    print("| Crate | " + " | ".join(COLUMNS) + " |")
    print("|---|" + "---:|" * len(COLUMNS))
    for crate, row in zip(crates, rows):
        printed(crate, row)
    printed("all", [sum(column) for column in zip(*rows)])


if __name__ == "__main__":
    sys.exit(main(*sys.argv[1:]) if len(sys.argv) == 2 else __doc__)
