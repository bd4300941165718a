#!/usr/bin/env python3
"""Spells this repository's own words of specs/ and proofs/ as today's Rattle spells them: in snake case.

usage: python3 tools/respell.py        once, at the top of the repository, after port.py

A word is one that a file of specs/ or of a crate's lemmas declares, binds or names as a field: `countAbove`, `low-in`.
It becomes `count_above`, `low_in`, wherever it stands in specs/, proofs/, clauses, edits and, between backticks, in comments and pages.
Types, modules, the library's words, the names that Rattle makes, and all of src/ outside its clauses keep theirs.
Words that fall together with another one are printed, and nothing is written.
"""

import re
import sys
from collections import defaultdict
from pathlib import Path

PART = r"[A-Za-zℕℤ_][A-Za-z0-9ℕℤ_'₀-₉≡≢≤]*"
WORD = re.compile(rf"(?<![\w'«·◌-]){PART}(?:-{PART}|-\d+)*(?![\w'»◌])")
LIBRARY = re.compile(r"^\s*use (?!Rattle\.(?!std\b))[^\s{]+\.\{(.*)\}")
MADE = re.compile(r"Rattle\.\w+\.proofs\.[\w.+]*\.(?:Goals|Given|Tie|Statement|Lts|Met)\b")


# A lemma that would have its function's name gets `_lem`; these two would read badly so.
OTHERWISE = {"in-room": "with_room", "at-exit": "exit_at", "all_seen": "all_seen_lem"}


def old_spelling(word):
    """A word in camel case or with a dash, that is no type and no module."""
    return word[0].islower() and ("-" in word or re.search(r"[a-z0-9_][A-Z]", word) is not None)


def respelt(word):
    parts = [re.sub(r"(?<=[a-z0-9])([A-Z])", lambda m: "_" + m[1].lower(), p) for p in word.split("-")]
    return "_".join(p[0].lower() + p[1:] if p[0].isupper() and len(p) > 1 and not p.isupper() else p for p in parts)


def lemma_files(root):
    """The files of specs/, and those of proofs/ that belong to no function."""
    for path in sorted(root.glob("crates/*/specs/**/*.antt")) + sorted(root.glob("crates/*/proofs/**/*.antt")):
        of_function = path.name in ("Proof.antt", "Invariants.antt", "Answers.antt") and path.parent.name not in ("specs", "proofs")
        if not of_function and "out" not in path.parts:
            yield path


def code(line):
    return re.sub(r"(^|\s)--( .*|$)", "", line)


def declared(text):
    """The words that a file declares, binds or has as fields."""
    found = set()
    for raw in text.splitlines():
        line = code(raw)
        if re.match(r"\s*use ", line):
            found.update(re.findall(rf" as ({WORD.pattern})", line))
            continue
        for m in re.finditer(r"let \(([^()]*)\) =", line):
            found.update(WORD.findall(m[1]))
        for m in re.finditer(rf"(?:^|[({{,;]|\blet\b|\bλ\b|\bwhere\b)\s*((?:(?:pub|abbrev|unfoldable)\s+)*)((?:{WORD.pattern}\s+)*{WORD.pattern})\s*(?::|=|\.\s|≔)", line):
            for w in WORD.findall(m[2]):
                found.add(w)
        for m in re.finditer(r"λ\s*((?:\([^)]*\)|[^.()])*)\.", line):
            found.update(WORD.findall(m[1]))
    return {w for w in found if old_spelling(w)}


def library_words(text):
    words = set()
    for line in text.splitlines():
        m = LIBRARY.match(line)
        if m:
            words.update(w.strip().split(" as ")[-1] for w in m[1].split(","))
    return words


def main(root):
    texts = {p: p.read_text() for p in lemma_files(root)}
    own = set()
    for text in texts.values():
        own |= declared(text)
    library = set()
    for text in texts.values():
        library |= library_words(text)
    both = {w for w in own if w in library}
    own -= both
    names = {w: respelt(w) for w in own}
    camel = {n for w, n in names.items() if "-" not in w}
    names |= {w: n + "_lem" for w, n in names.items() if "-" in w and n in camel}
    names |= OTHERWISE

    # words that fall together with another word of the same file
    clashes = []
    for path, text in texts.items():
        seen = defaultdict(set)
        for line in text.splitlines():
            for w in WORD.findall(code(line)):
                seen[names.get(w, w)].add(w)
        clashes += [f"{path}: {sorted(v)}" for k, v in seen.items() if len(v) > 1]

    # edits and pages also have words that port.py has turned in the files that they speak of
    spelt = {w for text in texts.values() for line in text.splitlines() for w in WORD.findall(code(line))} | set(names.values())

    def turn(text):
        def one(m):
            new = names.get(m[0], respelt(m[0]) if old_spelling(m[0]) else m[0])
            return new if new in spelt else m[0]

        return WORD.sub(one, text)

    def turn_file(path, text):
        if path.suffix == ".antt":
            own_here = library_words(text)
            out = []
            for line in text.splitlines(keepends=True):
                if MADE.search(line) and not re.search(r"\.\{", line):
                    out.append(line)
                    continue
                out.append(WORD.sub(lambda m: m[0] if m[0] in own_here else names.get(m[0], m[0]), line))
            text = "".join(out)
            if path.name == "Proof.antt":
                text = re.sub(r"(?<![\w-])([a-z]\w*(?:-\w+)*)-spec(?![\w-])", lambda m: m[1].replace("-", "_") + "_spec", text)
            return text
        if path.suffix == ".rt":
            return WORD.sub(lambda m: names.get(m[0], m[0]), text)
        if path.suffix == ".edit":
            return turn(text)
        return re.sub(r"`[^`\n]+`", lambda m: turn(m[0]), text)

    files = dict(texts)
    for pattern in ("crates/*/proofs/**/*.antt", "crates/*/src/**/*.rt", "crates/*/must-fail/*.edit", "docs/*.md", "README.md"):
        for p in root.glob(pattern):
            files.setdefault(p, p.read_text())
    print(f"{len(names)} words; kept, since the library has them: {sorted(both)}")
    for c in clashes:
        print("falls together:", c)
    if clashes and "--anyway" not in sys.argv:
        return 1
    for path, text in files.items():
        new = turn_file(path, text)
        if new != text:
            path.write_text(new)
    if "--list" in sys.argv:
        for w in sorted(names):
            print(w, names[w])
    return 0


if __name__ == "__main__":
    sys.exit(main(Path(".")))
