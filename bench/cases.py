#!/usr/bin/env python3
"""Prints the tables of all cases from what the benchmark's programs told and bench/count counted,
which it reads from standard input: lines of fields with a tab between them (src/told.rs)."""
import math
import re
import sys

SIDES = ("Library", "Constant", "Floor", "Fixed word", "Original", "Filter")
UNITS = {"Instructions": "Instructions for each byte:",
         "Mispredictions": "Mispredictions for each byte, of branches as valgrind predicts them:",
         "Nanoseconds": "Nanoseconds for each byte, on this machine:"}
# Those whose ratios say something
RATED = {"Instructions": "instructions", "Nanoseconds": "time"}
TO_FLOOR = 1.1  # the greatest wanted ratio of the library to the floor
TO_KIND = 1.15  # the greatest wanted ratio of `read_number_of` to the call that reads one kind
# The greatest wanted ratio of a byte of a kept run to one of a run of so many separators
FLAT, REFERENCE = 1.2, "1000"


def target(case):
    """The greatest wanted ratio of a constant word to the original."""
    return 1.3 if case.startswith("e:") else 1.1


class Told:
    """What was told: `times` by case and side, and then by the pad of the program; `counts` by
    unit, and then by case and side; the looks by case; the programs."""

    def __init__(self, lines):
        self.times, self.looks, self.programs = {}, {}, set()
        self.counts = {"Instructions": {}, "Mispredictions": {}}
        for kind, *fields in (line.rstrip("\n").split("\t") for line in lines):
            if kind == "time":
                case, side, pad, nanoseconds = fields
                pads = self.times.setdefault((case, side), {})
                pads.setdefault(pad, []).append(float(nanoseconds))
            elif kind == "count":
                case, side, *counts = fields
                for count, of_unit in zip(counts, self.counts.values()):
                    of_unit[case, side] = float(count)
            elif kind == "looks":
                self.looks[fields[0]] = float(fields[1])
            elif kind == "program":
                self.programs.add(tuple(fields))
            else:
                sys.exit(f"no line of medians: {kind} {fields}")
        self.keys = list(dict.fromkeys([*self.times, *self.counts["Instructions"]]))
        self.sides = [side for side in SIDES if any(side == other for _, other in self.keys)]
        self.cases = [case for case in dict.fromkeys(case for case, _ in self.keys)
                      if not case.startswith("g:")]

    def check_places(self):
        """Ends unless each pad moved the code of both sides to a place of its own."""
        pads, library, rust, _ = map(set, zip(*self.programs))
        if not len(pads) == len(library) == len(rust):
            sys.exit(f"pads {pads}, offsets of the library {library}, of Rust {rust}")

    def value(self, unit, case, side):
        """What a byte takes; of times the least median of all placements counts."""
        if unit in self.counts:
            return self.counts[unit].get((case, side))
        pads = self.times.get((case, side))
        return pads and min(map(min, pads.values()))

    def fixed_side(self, case):
        """The side that has its word fixed: the original, if it was measured in a case."""
        return "Original" if (case, "Original") in self.keys else "Fixed word"

    def spreads(self, unit, case):
        """How far the library's slowest placement lies above its fastest, and how far any side's
        greatest median lies above the least of its placement."""
        if unit in self.counts:
            return []
        least = [min(medians) for medians in self.times[case, "Library"].values()]
        spread = max(max(medians) / min(medians) for (other, _), pads in self.times.items()
                     if other == case for medians in pads.values())
        return [f"{100 * share - 100:.0f} %" for share in (max(least) / min(least), spread)]


def printed(value):
    if value is None:
        return "–"
    return f"{value:.0f}" if value >= 100 else f"{value:.2f}"


def at_most(value, other, most):
    """A ratio, and whether it is above what is wanted at most, as it is printed."""
    if value is None or other is None:
        return "–"
    ratio = f"{value / other:.2f}"
    return f"{ratio} over" if float(ratio) > most else ratio


def case_rows(told, unit):
    for case in told.cases:
        values = {side: told.value(unit, case, side) for side in SIDES}
        if values["Library"] is None:
            continue
        fixed = told.fixed_side(case)
        ratios = [at_most(values["Library"], values["Floor"], TO_FLOOR),
                  at_most(values["Constant"], values[fixed], target(case)),
                  at_most(values["Library"], values[fixed], math.inf)] if unit in RATED else []
        yield [case, *(printed(values[side]) for side in told.sides), *ratios,
               *told.spreads(unit, case)]


def run_rows(told, unit):
    """The rows of the runs that are kept."""
    for case in dict.fromkeys(case for case, _ in told.keys if case.startswith("g:")):
        name, length = re.fullmatch(r"(.*) of (\d+)", case).groups()
        library = told.value(unit, case, "Library")
        if library is not None:
            yield [name, length, printed(told.looks.get(case)),
                   *(printed(told.value(unit, case, side)) for side in told.sides
                     if side != "Constant"),
                   at_most(library, told.value(unit, f"{name} of {REFERENCE}", "Library"), FLAT),
                   *told.spreads(unit, case)]


def json_rows(told, unit):
    """What numbers of JSON take to the call that reads only their kind, with a constant form."""
    for case in told.cases:
        name, by, call = case.partition(", by read_")
        if by and name.startswith("z: JSON"):
            values = [told.value(unit, it, "Constant") for it in (name, case)]
            if None not in values:
                yield [name, f"`read_{call}`", *map(printed, values), at_most(*values, TO_KIND)]


def means(told):
    """The geometric means of what the library takes to what the original takes, and the cases with
    the greatest ratios."""
    for unit, words in RATED.items():
        ratios = {side: {case: value / other for case in told.cases
                         if (value := told.value(unit, case, side)) and
                         (other := told.value(unit, case, told.fixed_side(case)))}
                  for side in ("Constant", "Library")}
        if all(ratios.values()):
            constant, library = (mean_and_most(of_side) for of_side in ratios.values())
            yield (f"Geometric mean of all rows to the original, by {words}: {constant} with a "
                   f"constant word, {library} with a word at run time.\n")


def mean_and_most(ratios):
    """The geometric mean of ratios by case, and the greatest."""
    most = max(ratios, key=ratios.get)
    mean = math.exp(sum(map(math.log, ratios.values())) / len(ratios))
    return f"{mean:.2f} (at most {ratios[most]:.2f}, \"{most}\")"


def table(words, head, rows):
    """A table with a line above it, if it has rows."""
    lines = [f"| {' | '.join(row)} |" for row in (head, *rows)]
    return [f"{words}\n", lines[0], "|" + "---|" * len(head), *lines[1:], ""] if lines[1:] else []


def main():
    sys.stdout.reconfigure(encoding="utf8")
    told = Told(sys.stdin)
    told.check_places()
    lines, spread = [], dict.fromkeys(UNITS, []) | {"Nanoseconds": ["Apart", "Spread"]}
    for unit, words in UNITS.items():
        ratios = ["Library / floor", "Constant / fixed", "Library / fixed"] if unit in RATED else []
        head = ["Case", *told.sides, *ratios]
        lines += table(words, head + spread[unit], case_rows(told, unit))
    lines += means(told)
    for unit in RATED:
        words = UNITS[unit]
        sides = [side for side in told.sides if side != "Constant"]
        head = ["Case", "Separators", "Looks", *sides, "To a run of 1,000"]
        lines += table(words, head + spread[unit], run_rows(told, unit))
    for unit in RATED:
        head = ["JSON", "Other", "`read_number_of`", "The other", "Ratio"]
        lines += table(f"{UNITS[unit][:-1]}, of numbers of JSON with a constant form to the call "
                       "that reads only their kind:", head, json_rows(told, unit))
    for size in {program[-1] for program in told.programs}:
        lines.append(f"A `Bytes` takes {size} bytes. No export takes an allocator.")
    print("\n".join(lines))


if __name__ == "__main__":
    main()
