#!/usr/bin/env python3
"""Writes what pages say of the last runs, by bench/cases.txt, the counts and times in bench/peers, and
c/costs/counts.txt: the tables of docs/SPEED.md and c/README.md, the table and the sentences of
README.md, and the pictures docs/speed.svg and docs/times.svg. `.ci/pages` compares them."""
import os
import re
import sys

sys.dont_write_bytecode = True
TOP = os.path.normpath(os.path.join(os.path.dirname(os.path.abspath(__file__)), ".."))
CASES = "bench/cases.txt"
from cases import UNITS, table  # noqa: E402
from costs import costs  # noqa: E402
from peers import READ, door, peers  # noqa: E402
from picture import of_times, svg  # noqa: E402
from readers import answer, lost_by_time, ratios, readme  # noqa: E402
from written import aims, writers  # noqa: E402

# The rows of SPEED, with the cases that they show.
ROWS = {
    "Digits, no separators allowed": "a: no flags, digits, number",
    "Digits, separators allowed": "b: I, digits, number",
    "Numbers of 1 to 4 digits, each by a `Bytes` of its own": "f: I, 1 to 4 digits",
    "Runs of 16 separators, all dropped": "e: ILTC, runs of 16, number",
    "Letters by `peek` and `next`": "k: I, other bytes, peeked",
    "`u64`, 1 to 4 digits, by `parse_number`": "u: no flags, 1 to 4 digits, u64",
    "`u64`, 8 to 20 digits, grouped": "u: I, grouped, u64",
    "Hexadecimal `u64`, 1 to 4 digits": "y: radix 16, no flags, 1 to 4 digits, parse_number, u64",
    "Binary `u64`, 8 to 60 digits": "y: radix 2, no flags, parse_number, u64",
    "Literals of Rust by `read_literal`": "w: literals of Rust",
    "`f64`, integers of 1 to 4 digits": "x: no flags, integers of 1 to 4 digits",
    "`f64`, 8 to 14 digits, grouped": "x: I, grouped, 8 to 14 digits, a point",
    "`f64`, 18 to 40 digits": "x: no flags, 18 to 40 digits",
    "Coordinates of JSON": "z: JSON, coordinates",
}
# The letters of the cases whose filter is std's `parse` or `from_str_radix`.
BY_STD = "jtuvwxyz"


def read(path):
    with open(os.path.join(TOP, path), encoding="utf8", newline="\n") as file:
        return file.read()


class Cases:
    """The tables of bench/cases.txt: `rows` has for each unit and case its cells by their columns,
    `runs` for each unit, name and length those of a kept run. `machine` and `means` are lines."""

    def __init__(self):
        self.rows, self.runs = ({unit: {} for unit in UNITS} for _ in range(2))
        self.to_one_kind = []
        self.machine, *lines = read(CASES).split("\n")
        self.means, head, unit = [], [], ""
        for line in lines:
            cells = [cell.strip() for cell in line.split("|")[1:-1]]
            if line.startswith(tuple(UNITS)):
                unit = line.split(" ")[0]
            elif line.startswith("Geometric mean"):
                self.means.append(line)
            elif line.startswith("| Case |"):
                head = cells
            elif line.startswith("| JSON |"):
                head = []
            elif not head and line.startswith("| z: "):
                self.to_one_kind.append(float(cells[-1].split(" ")[0]))
            elif line.startswith("| g: "):
                self.runs[unit][cells[0], int(cells[1])] = dict(zip(head, cells))
            elif line.startswith("| ") and head:
                self.rows[unit][cells[0]] = dict(zip(head, cells))

    def row(self, case, unit="Instructions"):
        if case not in self.rows[unit]:
            raise ValueError(f"{CASES}: no case \"{case}\" in {unit}")
        return self.rows[unit][case]

    def fixed_side(self, case):
        """The side that has its word fixed: the original, if it was measured in a case."""
        return "Fixed word" if self.row(case).get("Original", "–") == "–" else "Original"

    def ratio(self, case, side, other):
        """The instructions of a side to those of another, or None."""
        values = [self.row(case).get(it, "–") for it in (side, other)]
        return None if "–" in values else float(values[0]) / float(values[1])

    def to_fixed(self, case, side):
        return self.ratio(case, side, self.fixed_side(case))

    def run(self, name, length, side):
        return self.runs["Instructions"][f"g: {name}, a kept run", length].get(side, "–")


# ---- docs/SPEED.md

def speed_rows(cases):
    for words, case in ROWS.items():
        row = cases.row(case)
        times = cases.rows["Nanoseconds"].get(case, {})
        to_std = cases.ratio(case, "Constant", "Filter") if case[0] in BY_STD else None
        is_beside = row.get("Original", "–") != "–"
        yield [words, row["Constant"], row["Constant / fixed"].split(" ")[0] if is_beside else "–",
               f"{to_std:.2f}" if to_std else "–", row["Library"],
               *(["/".join(times.get(column, "–") for column in ("Constant", "Original"))]
                 if cases.rows["Nanoseconds"] else [])]


def asked(cases, flags):
    """What a byte takes where the looks are asked after each number, and where they aren't."""
    case = f"f: {flags}, 1 to 4 digits"
    return cases.row(f"{case}, looks asked")["Constant"], cases.row(case)["Constant"]


def speed(cases):
    """What docs/SPEED.md has between its comments."""
    is_timed = bool(cases.rows["Nanoseconds"])
    head = ["What is read", "Constant word", "to lexical-util", "to std", "At run time",
            *(["ns"] if is_timed else [])]
    last = "; in the last column nanoseconds, of the constant word and of lexical-util"
    lines = table(f"Instructions for each byte{last if is_timed else ''}:", head, speed_rows(cases))
    mean, most, late, most_late = re.search(
        r"([\d.]+) \(at most ([\d.]+).*? ([\d.]+) \(at most ([\d.]+)", cases.means[0]).groups()
    plain, flagged = (asked(cases, flags) for flags in ("no flags", "I"))
    kept = cases.run("IC", 100, "Library"), cases.run("IC", 100000, "Library")
    return "\n".join(lines) + f"""
Over [all cases](../bench/cases.txt) this library takes {mean} times the instructions of lexical-util with \
a constant word (geometric mean; at most {most} times). With a word that only run time knows it takes \
{late} times those of lexical-util with a constant one (at most {most_late} times). Where lexical-util \
has no such call, the same work in plain Rust stands for it.

If you ask `looks` after each number of 1 to 4 digits, a byte takes {plain[0]} instructions in place of \
{plain[1]} without flags, and {flagged[0]} in place of {flagged[1]} with separators allowed.

A run of separators that no rule drops takes {kept[0]} instructions for each byte if it has 100 of them, \
and {kept[1]} if it has 100,000. lexical-util takes {int(cases.run("IC", 10000, "Original")):,} for each \
byte of a run of 10,000, and that grows with the run.

{cases.machine}"""


# The cases that take more than elsewhere: what is read, how its cases' names begin, beside what, and why.
LEXICAL_UTIL = "lexical-util"
LOST = [
    ("floats in groups, as `1_234.5`", "x: I", "std, which gets them without separators",
     "their digits are read twice"),
    ("short numbers, each by a `Bytes` of its own", "f:", LEXICAL_UTIL,
     "each number makes a `Bytes`, and `looks` adds the counts up"),
    ("digits of a `Bytes` that you lend to a function", "i:", LEXICAL_UTIL,
     "the `Bytes` is in memory, so each byte stores the cursor there"),
    ("runs of 16 separators that are dropped", "e:", LEXICAL_UTIL, "each run calls the decision"),
    ("binary integers", "y: radix 2,", LEXICAL_UTIL, "a digit's value is loaded, not subtracted"),
    ("numbers up to a comma, by `peek` and `next`", "n:", LEXICAL_UTIL,
     "counting a look takes two instructions a digit, and `peek` and `next` each test the end of the text"),
    ("letters by `peek` and `next`", "k:", LEXICAL_UTIL,
     "a letter isn't counted as a digit: each takes an addition that leaves it out, and a jump to it"),
    ("numbers of one `Bytes` with `clear_counts`", "q:", LEXICAL_UTIL,
     "one register has to serve the address, the end and the next start"),
]


def lost(cases):
    """What docs/SPEED.md says of the cases that take more than elsewhere."""
    body = [[what, f"{most_of(cases, form, 'Constant', 'Filter' if form[0] == 'x' else None):.2f}", *rest]
            for what, form, *rest in LOST]
    body.append(["a number of JSON by `read_number_of`", f"{max(cases.to_one_kind):.2f}",
                 "`read_float` or `read_literal`, which read one kind", "it calls what is rare"])
    by_count = table("At most so many times the instructions, with a constant word:",
                     ["What is read", "Ratio", "Beside", "Why"], body)
    return "\n".join([*lost_by_time(), *by_count]).rstrip("\n")


def most_of(cases, form, side, other=None):
    """The greatest ratio of a side to another, by default to the one that has its word fixed, in the
    cases whose names begin with this form."""
    return max(ratio for case in cases.rows["Instructions"] if re.match(form, case)
               if (ratio := cases.ratio(case, side, other or cases.fixed_side(case))))


# ---- all of them

def between(page, name, text):
    """A page with a text between the comment that begins so and the one that ends it."""
    before, start, rest = page.partition(f"<!-- {name}")
    comment, newline, rest = rest.partition("\n")
    end = rest.index(f"<!-- end of {name} -->")
    return f"{before}{start}{comment}{newline}\n{text}\n\n{rest[end:]}"


def pages():
    """The pages by their paths, as bench/cases.txt has them."""
    cases, speeds = Cases(), read("docs/SPEED.md")
    for name, text in (("answer", answer()), ("peers", peers()), ("door", door()),
                       ("writing", writers()), ("table", speed(cases)), ("lost", lost(cases))):
        speeds = between(speeds, name, text)
    return {"docs/SPEED.md": speeds,
            "docs/PERF.md": between(read("docs/PERF.md"), "aims", aims()),
            "README.md": between(read("README.md"), "speed", readme()),
            "c/README.md": between(read("c/README.md"), "costs", costs()),
            "docs/speed.svg": svg(cases),
            "docs/times.svg": of_times({row: (ratio, ratios(side=READ).get(row))
                                        for row, ratio in ratios().items()})}


if __name__ == "__main__":
    for path, text in pages().items():
        with open(os.path.join(TOP, path), "w", encoding="utf8") as file:
            file.write(text)
