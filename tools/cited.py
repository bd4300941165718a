#!/usr/bin/env python3
"""Whether the docs name the mistakes of the must-fail edits as they are: each mistake that docs/PROMISES.md or docs/TRACE.md names is in an edit, and
each promise of PROMISES names two or more that break it. Silent where it is so; else a line for each that is not, and status 1.

A mistake is named `crate/name`, or `name` in the last column of a table of PROMISES, whose heading names the crate.
"""

import re
import sys
from pathlib import Path

sys.dont_write_bytecode = True
from refused import edits, mistakes_of  # noqa: E402

ROOT = Path(__file__).resolve().parent.parent


def held():
    """The mistakes of the edits, as crate/name."""
    return {f"{crate}/{m.name}" for crate, _, text in edits(ROOT) for m in mistakes_of(text)[0]}


def with_crate(text, crates):
    """What a text names as crate/name."""
    return {f"{crate}/{name}" for crate, name in re.findall(r"`([a-z]+)/([a-z0-9_]+)`", text) if crate in crates}


def rows(text):
    """Each row of a table of PROMISES: the crates that the heading above names, the first column, the last column."""
    crates = []
    for line in text.splitlines():
        if line.startswith("## "):
            crates = [crate.strip() for crate in line[3:].split(":")[0].split(",")]
        elif line.startswith("| `"):
            cells = line.split("|")
            yield crates, cells[1].strip(), cells[-2]


def amiss_in_promises(text, mistakes):
    for crates, promise, last in rows(text):
        names = re.findall(r"`([a-z0-9_]+)`", last)
        for name in names:
            if not any(f"{crate}/{name}" in mistakes for crate in crates):
                yield f"PROMISES names {name} at {promise}, and no edit of {' or '.join(crates)} holds it"
        if len(re.findall(r"`[a-z0-9_/]+`", last)) < 2:
            yield f"PROMISES names fewer than two mistakes at {promise}"


def main():
    mistakes = held()
    crates = {path.name for path in (ROOT / "crates").iterdir()}
    promises, trace = ((ROOT / "docs" / f"{name}.md").read_text() for name in ("PROMISES", "TRACE"))
    bad = list(amiss_in_promises(promises, mistakes))
    bad += [f"no edit holds {m}, which the docs name" for m in sorted(with_crate(promises + trace, crates) - mistakes)]
    for line in bad:
        print(line)
    return bool(bad)


if __name__ == "__main__":
    sys.exit(main())
