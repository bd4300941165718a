#!/usr/bin/env python3
"""Whether each mistake of the must-fail edits is refused at its own function, for itself.

An edit holds one mistake or more, each in the body of another function:

    # NAME: what goes wrong, in a sentence.
    # in: FUNCTION
    file: src/lib.rt
    old: ..
    new: ..

A function is checked against its own body and the contracts of what it calls, so a mistake in a body disturbs no other function,
and the check's log tells which are refused for themselves: those with an error in their own proof that is not about another
declaration or a name that the edit took away, or with a goal that the check searched for and did not prove. Each function that an
edit names has to be among them and, where an edit holds several mistakes, no other function may be. A claim that is no function's
is named by the file of its proof: `Claims.worked`.

rt keeps no log of an edit, so each crate is proved once more in a copy of the tree, beside which each of its edits is tried. The logs
stand in the folder LOGS afterwards, as CRATE/EDIT.log.

usage: tools/refused.py [ROOT [LOGS]]    says what is amiss, and then ends with status 1; LOGS is target/must-fail below ROOT where it is left out
       tools/refused.py --list [ROOT]    a line for each mistake: crate/name, function, edit
"""

import os
import queue
import re
import shutil
import subprocess
import sys
import tempfile
import threading
from pathlib import Path

NAMED = re.compile(r"# ([a-z0-9_]+): [A-Z].*\.$")
WHERE = re.compile(r"# in: (\S+)$")
# an error in a function's own proof, or in a file of lemmas and claims
ERROR = re.compile(r"(?:\./)?proofs/(\S+?)(?:/(Answers|Invariants|Proof))?\.antt:\d+:\d+: error: (?:`(\S+?)`: )?")
# what an error says that is about another declaration, or about a name that the edit took away
ELSEWHERE = re.compile(r"was not admitted|was rejected|was not checked|has no (field )?`|is not in scope|can be named from here")
SEARCH = re.compile(r"fn \w+::(\S+): no proof: .*`search` did not prove")
# a goal that a function leaves stands above the function's own line
GOAL = re.compile(r"note: \S+:\d+:\d+: it is not proved that ")
FUNCTION = re.compile(r"(?:fn|struct|enum) \w+::(\S+): (?:not proved|no proof)")
# how many crates are tried at a time, each in a copy of its own: one a core, of which a check takes about a gigabyte
COPIES = min(os.cpu_count() or 2, 4)


class Mistake:
    """A mistake of an edit: its name, the function that it is in, and how many changes make it."""

    def __init__(self, name, function):
        self.name = name
        self.function = function
        self.changes = 0


def mistakes_of(text):
    """The mistakes of an edit, and what is amiss with its form."""
    mistakes, amiss, above = [], [], ""
    for line in text.splitlines():
        where = WHERE.match(line)
        if where:
            named = NAMED.match(above)
            if not named:
                amiss.append(f"no line names the mistake in {where[1]}")
            mistakes.append(Mistake(named[1] if named else "", where[1]))
        elif line.startswith("old: "):
            if mistakes:
                mistakes[-1].changes += 1
            else:
                amiss.append("a change stands above the first '# in:'")
        above = line
    functions = [m.function for m in mistakes]
    amiss += [f"{m.name} changes nothing" for m in mistakes if not m.changes]
    amiss += [f"{f} is named twice" for f in sorted(set(functions)) if functions.count(f) > 1]
    if not mistakes:
        amiss.append("it names no function")
    return mistakes, amiss


def refused_in(log):
    """The functions, and the claims, that a log refuses for themselves."""
    functions, claims, goals = set(), set(), False
    for line in log.splitlines():
        error = ERROR.match(line)
        if error and not ELSEWHERE.search(line):
            path = error[1].replace("/", "::")
            if error[2]:
                functions.add(path)
            else:
                claims.add(f"{path}.{error[3]}")
        search = SEARCH.match(line)
        if search:
            functions.add(search[1])
        goals = goals or bool(GOAL.match(line))
        function = FUNCTION.match(line)
        if function and goals:
            functions.add(function[1])
        if line.startswith(("fn ", "struct ", "enum ")):
            goals = False
    return functions, claims


def amiss_in(edit, log):
    """What is amiss with an edit, as lines; its log is None where there is none."""
    mistakes, amiss = mistakes_of(edit)
    if log is None:
        return amiss + ["there is no log of its check"]
    functions, claims = refused_in(log)
    amiss += [f"{m.name}: {m.function} is not refused for itself" for m in mistakes if m.function not in functions | claims]
    if len(mistakes) > 1:
        amiss += [f"{f} is refused, and no mistake is in it" for f in sorted(functions - {m.function for m in mistakes})]
    return amiss


def edits(root):
    """Each edit: its crate, its name, its text."""
    for path in sorted(root.glob("crates/*/must-fail/*.edit")):
        yield path.parts[-3], path.stem, path.read_text()


def changes_of(text):
    """The changes that an edit makes: file, old text, new text."""
    file, old = None, None
    for line in text.splitlines():
        if line.startswith("file: "):
            file = line[len("file: ") :]
        elif line.startswith("old: "):
            old = line[len("old: ") :]
        elif line.startswith("new:"):
            yield file, old, line[len("new: ") :]


def check(folder, *words):
    """What rt says of the crate in a folder."""
    ran = subprocess.run(["rt", "check", *words], cwd=folder, stdin=subprocess.DEVNULL, stdout=subprocess.PIPE, stderr=subprocess.STDOUT, text=True)
    return ran.stdout


def proved(folder):
    """Whether the crate in a folder is proved as it stands."""
    verdicts = [line for line in check(folder).splitlines() if line.startswith("logic=")]
    return bool(verdicts) and verdicts[-1].startswith("logic=proved")


def tried(folder, text):
    """The log of the check of the crate in a folder with an edit, or None where the edit cannot be made."""
    kept = {}
    try:
        for file, old, new in changes_of(text):
            path = folder / file
            held = path.read_text()
            kept.setdefault(path, held)
            if held.count(old) != 1:
                return None
            path.write_text(held.replace(old, new))
        return check(folder, "--jobs", "1")
    finally:
        for path, held in kept.items():
            path.write_text(held)


def copy_of(root, room):
    """A copy of the sources of a tree, without what checks left there."""
    shutil.copytree(root / "crates", room / "crates", ignore=shutil.ignore_patterns("out"))
    for name in ("crates.txt", "HANDLES"):
        if (root / name).exists():
            shutil.copy(root / name, room / name)
    return room


def try_crates(room, waiting, logs, unproved):
    """Tries the edits of the crates that are waiting, one crate after the other, in a copy of the tree."""
    while True:
        try:
            crate, texts = waiting.get_nowait()
        except queue.Empty:
            return
        folder = room / "crates" / crate
        if not proved(folder):
            unproved.append(crate)
            continue
        for label, text in texts:
            log = tried(folder, text)
            if log is not None:
                (logs / crate).mkdir(parents=True, exist_ok=True)
                (logs / crate / f"{label}.log").write_text(log)


def try_all(root, logs):
    """Tries every edit, and leaves the logs. The crates that are not proved as they stand, so that their edits were not tried."""
    shutil.rmtree(logs, ignore_errors=True)
    texts = {}
    for crate, label, text in edits(root):
        texts.setdefault(crate, []).append((label, text))
    waiting, unproved = queue.Queue(), []
    for crate in texts:
        waiting.put((crate, texts[crate]))
    with tempfile.TemporaryDirectory(prefix="refused-") as made:
        rooms = [copy_of(root, Path(made) / str(n)) for n in range(COPIES)]
        # the first copy is proved alone, with all processors; the checks of the others begin with what that one kept
        for crate in texts:
            check(rooms[0] / "crates" / crate)
        workers = [threading.Thread(target=try_crates, args=(room, waiting, logs, unproved)) for room in rooms]
        for worker in workers:
            worker.start()
        for worker in workers:
            worker.join()
    return unproved


def log_of(logs, crate, label):
    path = logs / crate / f"{label}.log"
    return path.read_text() if path.exists() else None


def listed(root):
    for crate, label, text in edits(root):
        for m in mistakes_of(text)[0]:
            print(f"{crate}/{m.name}", m.function, f"{label}.edit")


def checked(root, logs):
    names = set()
    bad = try_all(root, logs)
    for crate in bad:
        print(f"{crate} is not proved as it stands, so its edits were not tried")
    for crate, label, text in edits(root):
        amiss = amiss_in(text, log_of(logs, crate, label))
        for m in mistakes_of(text)[0]:
            if (crate, m.name) in names:
                amiss.append(f"another mistake of {crate} is called {m.name}")
            names.add((crate, m.name))
        for line in amiss:
            print(f"{crate}/{label}: {line}")
        bad = bad or bool(amiss)
    return bool(bad)


def main(words):
    listing = words[:1] == ["--list"]
    words = words[listing:]
    root = Path(words[0]).resolve() if words else Path(__file__).resolve().parent.parent
    logs = Path(words[1]).resolve() if len(words) > 1 else root / "target/must-fail"
    return listed(root) if listing else checked(root, logs)


if __name__ == "__main__":
    sys.exit(main(sys.argv[1:]))
