"""The tables of what a call from C costs, by c/costs/counts.txt, which `c/costs/run --page` writes."""
import os

from cases import table

PATH = os.path.join(os.path.dirname(os.path.abspath(__file__)), "../c/costs/counts.txt")
# Of each program what the page says above its table, the rows that it shows (all, if none is named),
# and its ways with their names on the page.
TABLES = {
    "costs": (
        "Instructions for a number that is read, of 10,000 random numbers with a comma after each "
        "(`c/costs/run`; {}). A list is one call for 256 numbers; a piece has 4 KiB:",
        ["integers, 1 to 4 digits", "15 to 18 digits", "prices, `123.45`", "floats, 16 or 17 digits",
         "with exponents up to 300"],
        {"strtoll, strtod": "`strtoll`, `strtod`", "from_chars": "from_chars",
         "read": "`digits_read_..`", "JSON": "`digits_read_json`", "a list": "a list",
         "in pieces": "in pieces"},
    ),
    "writes": (
        "Instructions for a number that is written:", [],
        {"snprintf": "`snprintf`", "to_chars": "to_chars", "write": "`digits_write_..`"},
    ),
}


def costs():
    """What c/README.md has between its comments on costs."""
    with open(PATH, encoding="utf8") as file:
        head, *lines = file.read().splitlines()
    counts = {program: {} for program in TABLES}
    for program, numbers, way, count in (line.split("\t") for line in lines):
        counts[program].setdefault(numbers, {})[way] = count
    shown = []
    for program, (words, rows, ways) in TABLES.items():
        there = counts[program]
        body = [[name, *(there[name].get(way, "–") for way in ways)] for name in rows or there]
        shown += table(words.format(head.removeprefix("# ")), ["Numbers", *ways.values()], body if there
                       else [])
    return "\n".join(shown).rstrip("\n")
