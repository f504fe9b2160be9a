#!/usr/bin/env python3
"""How many must-fail edits and tests each crate has, beside .ci/counts.txt, which has how many it
had at least. A test without a statement isn't counted.

    .ci/counts.py            tells each difference, and ends with status 1 where there is one
    .ci/counts.py --write    raises what is too low in counts.txt, also after a merge that left
                             both sides there; it lowers nothing

Who removes an edit or a test, as another shows the same, lowers its number by hand, and says why in
the commit."""
import os
import re
import sys

sys.dont_write_bytecode = True
from sources import TOP, crates, files_below, read  # noqa: E402

KEPT = ".ci/counts.txt"
KINDS = ("must-fail edits", "tests")
HEAD = "# Each crate with the must-fail edits and the tests that it has at least; see counts.py.\n"


def tests_of(text):
    """The names of the tests of a source that have a statement."""
    found = re.findall(r"#\[test\]\n(?:#\[[^\n]*\n)*fn (\w+)[^\n]*\{$(.*?)^\}$", text, re.S | re.M)
    return [name for name, body in found if "(" in re.sub("//[^\n]*", "", body)]


def there():
    """What each crate has of each kind, if it has any."""
    found = {}
    for crate in crates():
        tests = sum(len(tests_of(read(path))) for path in files_below(f"crates/{crate}", ".rt"))
        counts = (len(files_below(f"crates/{crate}/must-fail", ".edit")), tests)
        if any(counts):
            found[crate] = counts
    return found


def kept():
    """What counts.txt has: of two lines for one crate the greater numbers."""
    found = {}
    for crate, *counts in re.findall(r"^(\w+) (\d+) (\d+)$", read(KEPT), re.M):
        before = found.get(crate, (0, 0))
        found[crate] = tuple(max(int(count), old) for count, old in zip(counts, before))
    return found


def differences():
    """What went, and what came."""
    least, now = kept(), there()
    for crate in sorted({*least, *now}):
        for kind, low, count in zip(KINDS, least.get(crate, (0, 0)), now.get(crate, (0, 0))):
            if count != low:
                yield count < low, f"crates/{crate}:1: {count} {kind}, and {low} in {KEPT}"


def write():
    least = kept()
    for crate, counts in there().items():
        least[crate] = tuple(map(max, counts, least.get(crate, (0, 0))))
    lines = (f"{crate} {edits} {tests}\n" for crate, (edits, tests) in sorted(least.items()))
    with open(os.path.join(TOP, KEPT), "w", encoding="utf8") as file:
        file.write(HEAD + "".join(lines))


def check():
    """What .ci/pages tells: what went. What came it leaves to the gate, for the sake of merges."""
    totals = [sum(counts) for counts in zip(*there().values())]
    said = ", ".join(f"{total} {kind}" for total, kind in zip(totals, KINDS))
    new = [text for is_less, text in differences() if not is_less]
    said += "; some are new: run .ci/counts.py --write" if new else ""
    return said, [text for is_less, text in differences() if is_less]


if __name__ == "__main__":
    if sys.argv[1:] == ["--write"]:
        write()
    faults = [text + ("" if is_less else ": run .ci/counts.py --write")
              for is_less, text in differences()]
    print("\n".join(faults) or f"counts: {check()[0]}, as in {KEPT}")
    sys.exit(1 if faults else 0)
