"""The answers that are kept in answers.tsv: 216 texts for each language, read by its own tool.

A row has the form, the language and its tool, the text, whether it is one literal, and what it is.
The last column says why the form reads it otherwise, where it does."""
import csv
import re
from collections import defaultdict
from pathlib import Path

from told import is_same, to_bits
from texts import FORMS

FILE = Path(__file__).resolve().parent / "answers.tsv"
# The forms whose tools have one type of numbers.
ONE_TYPE = {"COFFEESCRIPT", "HCL", "JAVASCRIPT_NUMBER", "MYSQL", "OCTAVE", "R", "RUBY_FLOAT"}


def rows():
    with open(FILE, encoding="utf8", newline="") as file:
        return list(csv.DictReader(file, delimiter="\t", quoting=csv.QUOTE_NONE))


def text_of(row):
    """The text of a row; one with blanks is quoted."""
    text = row["text"]
    return text[1:-1] if len(text) > 1 and text[0] == text[-1] == '"' else text


def texts(is_signed):
    """The texts of all rows without a blank."""
    found = dict.fromkeys(map(text_of, rows()))
    return [it for it in found if it and " " not in it and (is_signed or it[0] not in "+-")]


def float_of(text):
    """The float that a text begins with; a suffix may follow it."""
    for end in range(len(text), 0, -1):
        try:
            return float(text[:end])
        except ValueError:
            pass
    return None


def said_of(row):
    """What the tool says, as the tools of tools/ say it."""
    kind, _, value = row["value"].partition(" ")
    x = float_of(value)
    if row["accepted"] == "no" or kind == "string":
        return "-"
    if x is None:
        return "f?"
    if kind == "integer":
        return f"i{int(re.match('-?[0-9]+', value)[0])}"
    return f"{'d' if row['form'] in ONE_TYPE else 'f'}{to_bits(x):016x}"


def agrees(row, ours):
    """Whether the form reads a text as the tool does. `parseFloat` doesn't say where it ends."""
    kind, number, end = ours
    said = said_of(row)
    is_whole = kind in "fi-" and (end == len(text_of(row)) or row["accepted"] == "prefix")
    if not is_whole or said == "-":
        return not is_whole and said == "-"
    if number in (0, 1 << 63):
        # the file has no sign of a zero
        return said[1:] in ("0", "0" * 16, "8" + "0" * 15)
    return is_same(FORMS[row["form"]], kind, number, said)


def compare(ours_of):
    """Prints the rows that differ without a reason, or agree with one; and answers how many."""
    by_form, faults = defaultdict(list), 0
    for row in rows():
        by_form[row["form"]].append(row)
    for name, of_form in by_form.items():
        for row, ours in zip(of_form, ours_of(name, list(map(text_of, of_form)))):
            if agrees(row, ours) == bool(row["reason"]):
                faults += 1
                print(f"{name}, {row['tool']}: `{text_of(row)}` is {ours}; it: {said_of(row)}; "
                      f"{row['reason'] or 'no reason'}")
    print(f"{sum(map(len, by_form.values()))} kept answers, {faults} untold differences")
    return faults
