#!/usr/bin/env python3
"""What docs/HOUSE.md says of each file: the first sentence of its head.

    .ci/files_of_house.py            tells whether the page has it
    .ci/files_of_house.py --write    writes it"""
import os
import re
import sys

sys.dont_write_bytecode = True
from sources import TOP, crates, files_below, read  # noqa: E402

PAGE = "docs/HOUSE.md"
# The crates of examples and measures, whose files have the name of what they show or time.
OTHERS = ("digits", "digit_hello", "digit_uses", "digit_examples",
          "digit_bench", "digit_jobs", "digit_rows", "writer_rows")
BEGIN, END = "<!-- files: the tables that `.ci/files_of_house.py --write` writes -->", "<!-- end of files -->"


def head(path):
    """The first sentence of a file's head."""
    lines = re.match(r"(?://![^\n]*\n)*", read(path))[0].split("\n")
    text = re.sub(r"\[([^][]*)\]\([^)]*\)", r"\1", " ".join(line[3:].strip() for line in lines))
    sentence = re.split(r"(?<=[.:])\s+(?=```|- |\||[A-Z`])|\s+- ", text, maxsplit=1)[0].strip()
    return sentence.rstrip(".:").replace("|", "\\|")


def tables():
    """A table of the files of each crate."""
    rows = []
    for crate in crates():
        if crate in OTHERS:
            continue
        rows += [f"**`{crate}`**", "", "| File | What it has |", "|---|---|"]
        for path in files_below(f"crates/{crate}/src", ".rt"):
            rows.append(f"| `{os.path.relpath(path, f'crates/{crate}/src')}` | {head(path)} |")
        rows.append("")
    return "\n".join(rows)


def page():
    before, _, rest = read(PAGE).partition(BEGIN)
    return f"{before}{BEGIN}\n\n{tables()}\n{END}{rest.partition(END)[2]}"


def check():
    there = read(PAGE)
    if BEGIN not in there or page() != there:
        return "", [f"{PAGE}: the heads of files are others: run .ci/files_of_house.py --write"]
    return f"{tables().count(chr(10) + '| `')} files of docs/HOUSE.md have the heads of the sources", []


if __name__ == "__main__":
    if "--write" in sys.argv:
        text = page()
        with open(os.path.join(TOP, PAGE), "w", encoding="utf8", newline="\n") as file:
            file.write(text)
    said, faults = check()
    print("\n".join(faults) or said)
    sys.exit(1 if faults else 0)
