#!/usr/bin/env python3
"""Each lemma, definition and ruleset of a file of `proofs/` is cited: in its own file outside of
itself, or in a file that names its file. Those for callers are cited by an example or a test.

    .ci/lemmas.py [CRATE..]    tells what nothing cites, and ends with status 1 where there is some"""
import os
import re
import sys
from collections import Counter

sys.dont_write_bytecode = True
from sources import crates, files_below, read  # noqa: E402

# in these the check itself names what it wants
GOALS = ("Answers.antt", "Invariants.antt", "Proof.antt", "Lib.antt")
WORDS = r"(?:(?:pub|abbrev|unfoldable|rec|opaque) )*"
DEFINED = re.compile(WORDS + r"(?:(?:ruleset|record|data) (?P<kind>\S+)|(?P<name>[^\s:(){}]+) (?:\(.*\) )?: )")
IMPORT = re.compile(r"(?:unfoldable )?(?:pub )?(?:ghost )?use |mod |pub mod ")


def words_in(text):
    return Counter(re.split(r"[\s(){}\[\],.;:]+", text))


def definitions(text):
    """The definitions of a file, at the left or in a `module _`: name, line and text of each."""
    found, insides, is_head, is_first = [], [0], False, False
    for number, line in enumerate(text.split("\n"), 1):
        indent, start = len(line) - len(line.lstrip()), line.strip()
        if not start or start.startswith("--") or IMPORT.match(start):
            continue
        if is_head or start.startswith("module _"):
            is_head = not re.search(r"\bwhere$", start)
            is_first = not is_head
            continue
        if is_first:
            insides.append(indent)
        insides, is_first = [it for it in insides if it <= indent], False
        is_own = indent == insides[-1]
        m = DEFINED.match(start) if is_own else None
        if m and not (found and start.split()[0] == found[-1][0]):
            found.append((m["kind"] or m["name"], number, []))
        if found:
            found[-1][2].append(line)
    return [(name, number, "\n".join(lines)) for name, number, lines in found]


def check(names=()):
    """Counts the lemmas, and tells those that nothing cites."""
    texts = {path: read(path) for path in files_below("crates", (".antt", ".rt"))
             if "/out/" not in path}
    counts = {path: words_in(text) for path, text in texts.items()}
    found, lemmas = [], 0
    for crate in names or crates():
        for path in files_below(f"crates/{crate}/proofs", ".antt"):
            if os.path.basename(path) in GOALS:
                continue
            parts = path[len(f"crates/{crate}/"):-len(".antt")].split("/")
            module = re.compile(r"\b(crate|" + crate + r")(\.|::)" + r"(\.|::)".join(parts) + r"\b")
            others = [counts[file] for file, text in texts.items() if file != path and
                      (parts[-1] in counts[file]) and module.search(text)]
            there = words_in("\n".join(line for line in texts[path].split("\n")
                                       if not IMPORT.match(line.strip())
                                       and not line.strip().startswith("--")))
            for name, line, text in definitions(texts[path]):
                lemmas += 1
                own = words_in(text)[name]
                if there[name] <= own and not any(other[name] for other in others):
                    found.append(f"{path}:{line}: nothing cites {name}")
    return f"each of {lemmas} lemmas and rulesets is cited", found


if __name__ == "__main__":
    said, faults = check(sys.argv[1:])
    print("\n".join(faults) or f"lemmas: {said}")
    sys.exit(1 if faults else 0)
