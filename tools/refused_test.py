#!/usr/bin/env python3
"""Tests of refused.py on stored logs of must-fail checks. Silent where all is well; else says which case comes out otherwise, and ends with status 1.

The logs are without the lines that show terms.
config: three functions are refused for themselves, `good_own`, `leader_of` and `times::paired`; `Config::good` and `Commit::good` only because of
    what they call.
survives: `good_own` is refused, so rt counts the edit as refused; the change in `times::between` makes an equal program, which is proved.
ledger: five mistakes, one of them in a definition, so that claims are refused too.
worked: a row of the table, so that a claim is refused and there is no function.
quorum: answers name branches, and two of the mistakes rename one. In `count_marks` nothing else is refused; in `first_clear` a goal is false besides.
    `count_above` and `first_repeat` are refused in their answers, the others by the search.
"""

import sys
from pathlib import Path

sys.dont_write_bytecode = True
from refused import amiss_in  # noqa: E402

LOGS = Path(__file__).resolve().parent / "refused_logs"


def mistake(name, function, file="src/lib.rt"):
    return f"# {name}: The sentence of {name}.\n# in: {function}\nfile: {file}\nold: a\nnew: b\n\n"


OWN = mistake("own_zero", "good_own")
LEADER = mistake("leader_from_zero", "leader_of")
PAIRED = mistake("commit_half_empty", "times::paired", "src/times.rt")
GOOD = mistake("bad_is_good", "Config::good")
LEDGER = "".join(mistake(f"wrong_{f.lower().replace('::', '_')}", f) for f in ("Ledger::empty", "Ledger::deposit", "covers", "emptied"))

QUORUM = "".join(
    mistake(f"wrong_{f}", f) for f in ("count_above", "count_reaching", "reached", "flags", "first_clear", "first_repeat")
)

# what is tried, the log, the edit, and what has to be said of it
CASES = [
    ("each refused for itself", "config", OWN + LEADER + PAIRED, []),
    (
        "refused because of what it calls",
        "config",
        OWN + LEADER + PAIRED + GOOD,
        ["bad_is_good: Config::good is not refused for itself"],
    ),
    (
        "still proved",
        "config",
        OWN + LEADER + PAIRED + mistake("other_limits", "Config::limits"),
        ["other_limits: Config::limits is not refused for itself"],
    ),
    (
        "another function of the same name",
        "config",
        mistake("bad_is_good", "good"),
        ["bad_is_good: good is not refused for itself"],
    ),
    ("refused without a mistake", "config", OWN + LEADER, ["times::paired is refused, and no mistake is in it"]),
    ("a mistake alone, refused in more than one place", "config", OWN, []),
    ("two mistakes in one function", "config", OWN + LEADER + PAIRED + OWN, ["good_own is named twice"]),
    (
        "an equal program beside a mistake",
        "survives",
        OWN + mistake("clock_at_the_commit", "times::between", "src/times.rt"),
        ["clock_at_the_commit: times::between is not refused for itself"],
    ),
    ("a definition among the bodies", "ledger", LEDGER + mistake("neighbour_credited", "Ledger::earn", "specs/Ledger.antt"), []),
    ("a definition that nobody names", "ledger", LEDGER, ["Ledger::earn is refused, and no mistake is in it"]),
    (
        "no function named",
        "config",
        "# own_zero: A member may have the number 0.\nfile: src/lib.rt\nold: a\nnew: b\n",
        ["a change stands above the first '# in:'", "it names no function"],
    ),
    (
        "a mistake without a name",
        "config",
        "# in: good_own\nfile: src/lib.rt\nold: a\nnew: b\n",
        ["no line names the mistake in good_own"],
    ),
    ("a function named and nothing changed", "config", "# own_zero: A member.\n# in: good_own\n", ["own_zero changes nothing"]),
    ("a name that the edit took away, and a false goal", "quorum", QUORUM, []),
    (
        "nothing but a name that the edit took away",
        "quorum",
        QUORUM + mistake("larger_numbers_are_marks", "count_marks"),
        ["larger_numbers_are_marks: count_marks is not refused for itself"],
    ),
    ("no log", None, OWN, ["there is no log of its check"]),
    ("a claim", "worked", mistake("edge_is_a_deviation", "Claims.worked", "specs/Table.antt"), []),
    (
        "another claim",
        "worked",
        mistake("edge_is_a_deviation", "Claims.other", "specs/Table.antt"),
        ["edge_is_a_deviation: Claims.other is not refused for itself"],
    ),
]


def main():
    bad = False
    for tried, log, edit, wanted in CASES:
        said = amiss_in(edit, (LOGS / f"{log}.log").read_text() if log else None)
        if said != wanted:
            print(f"refused_test: {tried}: says {said}, not {wanted}")
            bad = True
    return bad


if __name__ == "__main__":
    sys.exit(main())
