#!/usr/bin/env python3
"""The tables of docs/RULES.md and docs/reference/forms.md, as the sources and the tests have them.

    .ci/tables.py --write    writes them: the states and the worked rows from rules.rt, the words
                             with names from words.rt, a first 0 from languages.rt, the forms from
                             forms.rt. Of the worked rows the page shows some, each with a last
                             column of its own"""
import os
import re
import sys

sys.dont_write_bytecode = True
from forms import FORMS, forms, names_of, parts_of  # noqa: E402
from sources import TOP, difference, read  # noqa: E402

PAGE = "docs/RULES.md"
FORMS_PAGE = "docs/reference/forms.md"
TESTS = "crates/digit_vectors/src/tests/rules.rt"
LETTERS = {"I": 1 << 32, "L": 1 << 35, "T": 1 << 38, "C": 1 << 41}
FLAGS = {"0": "none", "ALL": "ILTC", "INTERNAL": "I", "LEADING": "L", "TRAILING": "T",
         "CONSECUTIVE": "C"}

WORDS = ("crates/lexical_format/src/lib.rt", "crates/lexical_format/src/words.rt")
# each word with a name is in the law `words_say` and has a row of a test
NAMING = ("crates/lexical_format/src/laws.rt", "crates/number_vectors/src/tests/languages.rt")
# each language with its prefixes and its first 0, and what the languages' own tools read
LANGUAGES = "crates/digit_languages/src/languages.rt"
TOOLS = "crates/number_vectors/src/tests/language_literals.rt"
MEND = "run .ci/tables.py --write"
WHY = "?"  # the last column of a worked row that doesn't say why

# ---- the sources


def rows_of(path, name):
    """The rows of a static array, each in its parts."""
    found = re.search(rf"static {name}: \[[^=]*= \[\n(.*?)\n\];", read(path), re.S)
    rows = parts_of(found[1]) if found else []
    return [parts_of(row[1:-1]) for row in rows]


def text_of(literal):
    return re.fullmatch(r'b?"(.*)"', literal)[1]


def flags_of(expression):
    return "".join(FLAGS[name.strip()] for name in expression.split("|"))


def constants(*paths):
    """The constants of these files, by their names."""
    text = "".join(read(path) for path in paths)
    code = dict(re.findall(r"const (\w+): u128 =\s*([^;]+);", text))

    def value(expression):
        total = 0
        for term in expression.split("|"):
            name, _, bits = term.strip(" \n()").partition(" << ")
            total |= (value(code[name]) if name in code else int(name, 0)) << int(bits or "0")
        return total

    return {name: value(expression) for name, expression in code.items()}


# ---- worked rows


def quoted(text):
    return f"`{text}`" if text else "nothing"


def states():
    """The lines of the table of the sixteen states."""
    rows = [["flags", *(text_of(text) for text, _ in rows_of(TESTS, "TEXTS"))]]
    rows += [[flags_of(flags), *(text_of(kept) or "nothing" for kept in parts_of(texts[1:-1]))]
             for flags, texts in rows_of(TESTS, "STATES")]
    widths = [max(map(len, column)) for column in zip(*rows)]
    return ["  " + "  ".join(map(str.ljust, row, widths)).rstrip() for row in rows]


def examples():
    return [[flags_of(flags), quoted(text_of(text)), quoted(text_of(kept)), count]
            for flags, text, kept, count in rows_of(TESTS, "EXAMPLES")]


def within():
    return [[flags_of(flags), quoted(text_of(text)), f"{cursor}, {count}", quoted(text_of(kept))]
            for flags, text, cursor, count, kept, _ in rows_of(TESTS, "FROM_WITHIN")]


# ---- words with names

# The words of no language.
BARE = ("HEXADECIMAL", "HEXADECIMAL_FLOAT", "OCTAL", "BINARY")
RADIX_OF = {"": 10, "_HEX": 16, "_OCTAL": 8, "_BINARY": 2}


def named_words():
    return re.findall(r"pub const (\w+):", read(WORDS[1]))


def languages():
    """The languages of the words with names, and the words of none."""
    return list(dict.fromkeys(
        name if name in BARE else re.sub(r"(_HEX|_OCTAL|_BINARY)?(_LITERAL)?$", "", name)
        for name in named_words()))


def word_said(word, radix):
    """The flags of a word's components as the table has them, if its parts are as the page says."""
    parts = []
    for component in range(3):
        letters = (letter for letter, bit in LETTERS.items() if word & (bit << component))
        parts.append("".join(letters) or "none")
    exponent_radix = word >> 120 or radix
    separator = chr((word >> 64) & 0xff)
    is_short = radix != 10 and parts[1:] == ["none", "none"]
    if (word >> 104) & 0xff != radix or exponent_radix != (radix if is_short else 10):
        return "of another radix"
    if separator not in "_'":
        return f"of the separator {separator}"
    return parts[0] if is_short else "/".join(parts)


def words(heads):
    """A row for the languages whose words have the same flags; `heads` has the first cells of the
    page."""
    known, rows = constants(*WORDS), {}
    shown = {m[1]: m[0] for head in heads for m in re.finditer(r"`([A-Z]\w*)`(?: \([^)]*\))?", head)}
    for language in [*shown, *(it for it in languages() if it not in (*shown, *BARE))]:
        names = {f"{language}{ending}" + ("" if language == "TOML" else "_LITERAL"): radix
                 for ending, radix in RADIX_OF.items()}
        if set(names) & set(known):
            *cells, octal, binary = (word_said(known[name], radix) if name in known else "-"
                                     for name, radix in names.items())
            last = octal if octal == binary else f"{octal}, {binary}"
            rows.setdefault((*cells, last), []).append(shown.get(language, f"`{language}`"))
    return [[", ".join(of_row), *cells] for cells, of_row in rows.items()]


# ---- prefixes and a first 0

# What each language's own tool reads of these texts; `_` is the separator of the language.
FIRST = ("00", "017", "08", "0_7")
FIRST_ZERO = {"Plain": "nothing", "Octal": "octal", "Alone": "no digit follows",
              "Zeros": "only zeros follow"}


def first_zeros():
    """A row for the languages of languages.rt that say the same."""
    names = {}
    for name, cells, _ in first_zeros_by_language():
        names.setdefault(tuple(cells), []).append(f"`{name}`")
    return [[", ".join(of_row), *cells] for cells, of_row in names.items()]


def first_zeros_by_language():
    """Each language, its cells of the table, and what it reads of `FIRST`."""
    known = constants(*WORDS)
    for name, body in re.findall(r"pub const (\w+): Language = Language \{(.*?)^\};",
                                 read(LANGUAGES), re.S | re.M):
        field = dict(re.findall(r"^    (\w+): ([^;]*?),$", body, re.M))
        kind, octal = re.fullmatch(r"FirstZero::(\w+)(?:\((\w+)\))?", field["first_zero"]).groups()
        word = known[octal or field["decimal"].split("::")[-1]]
        prefixes = [letter for letter, prefix in (("0b", "binary"), ("0o", "octal"),
                                                  ("0x", "hexadecimal")) if field[prefix] != "None"]
        if prefixes and field["upper"] != "true":
            prefixes.append("lower case")
        cells = [re.sub(r"\b0[box]\b", r"`\g<0>`", ", ".join(prefixes)) or "none", FIRST_ZERO[kind]]
        yield name, cells, [first_zero_said(kind, word, text) for text in FIRST]


def first_zero_said(kind, word, text):
    """What a text is that begins with a 0: its value, or the literal that it begins with."""
    radix, separator, end = (word >> 104) & 0xff, chr((word >> 64) & 0xff), 0
    if separator != "\0":
        text = text.replace("_", separator)
    is_inner = word & LETTERS["I"]
    digits = ""
    while end < len(text):
        if text[end].isdigit() and int(text[end]) < radix:
            digits += text[end]
        elif not (is_inner and text[end] == separator and text[end + 1:end + 2].isdigit()
                  and int(text[end + 1]) < radix):
            break
        end += 1
    value = int(digits, radix)
    if kind == "Alone" and end > 1 or kind == "Zeros" and value > 0:
        return "refused"
    return str(value) if end == len(text) else f"{digits}, then {text[end:]}"


def tool_values():
    """(language, text, value) of each literal in the tests that the tools read."""
    named = re.search(r"static LANGUAGES: .*? = \[(.*?)\];", read(TOOLS), re.S)
    for static, names in (("VALUES", parts_of(named[1])), ("VALUES_IN_CXX", ["CXX14"])):
        for text, values in rows_of(TOOLS, static):
            for language, value in zip(names, parts_of(values.strip("[]"))):
                yield language, text_of(text).replace("'", "_"), value


# ---- forms

# The parts of forms.rt, and the first column of their table.
PARTS = {"the source code of languages": "Source code", "data formats": "Data format",
         "functions that take a string": "Function"}
SIGNS = {"Absent": "none", "Minus": "`-`", "Either": "both"}
HEX_FLOATS = {"Absent": [], "Exponent": ["0x1p3"], "PointOrExponent": ["0x1p3", "0x1."],
              "Always": ["0x1p3", "0x1.", "0x1"]}


def form_row(name, comment, form):
    """A form, its signs, which texts are floats beside `0.5`, and the comment of the constant."""
    also = [text for text, is_one in ((".5", not form["needs_integer"]),
                                      ("5.", not form["needs_fraction"]),
                                      ("00.5", form["float_zeros"])) if is_one]
    shown = [f"`{it}`" for it in [*also, *HEX_FLOATS[form["hex_floats"]], *names_of(form)]]
    if form["specials"] and form["specials"]["any_case"]:
        shown.append("in any case")
    return [f"`{name}`", SIGNS[form["signs"]], " ".join(shown), comment]


def of_forms():
    """{columns of a table: its rows}."""
    found = forms()
    return {(head, "Signs", "Also", "What it is"):
            [form_row(name, *said) for name, said in found[part].items()]
            for part, head in PARTS.items()}


# ---- the page

FIRST_ZEROS = ("Language", "Prefixes", "A first 0 says")
WITH_NAMES = ("X", "Radix 10", "16", "8, 2")
WORKED = {
    ("Flags", "Bytes", "Drained", "Count", "Why"): examples,
    ("Flags", "Bytes", "Cursor, count", "Drained", "Why"): within,
}
BITS = ("Component", "I", "L", "T", "C")


class Table:
    """A table of the page, with the places of its rows."""

    def __init__(self, lines, columns):
        head = f"| {' | '.join(columns)} |"
        if head not in lines:
            raise ValueError(f"no table with the columns {', '.join(columns)}")
        self.first = lines.index(head) + 2
        self.last = next(n for n in range(self.first, len(lines) + 1)
                         if not "".join(lines[n:n + 1]).startswith("|"))
        self.rows = [[cell.strip() for cell in line.split("|")[1:-1]]
                     for line in lines[self.first:self.last]]


def is_of_flags(row):
    return row[0] == "none" or re.fullmatch("[ILTC]+", row[0]) is not None


def put(lines, columns, rows):
    """Writes the rows of a table of a page."""
    table = Table(lines, columns)
    rows = rows(table.rows) if callable(rows) else rows
    lines[table.first:table.last] = [" | ".join([f"| {row[0]}", *row[1:], ""]).strip()
                                     for row in rows]


def written():
    """The pages with the tables that the sources have."""
    lines, forms_lines = (read(page).split("\n") for page in (PAGE, FORMS_PAGE))

    def worked(rows):
        """The page shows some of the rows of the tests, and says why."""
        def shown(page):
            return [row for row in page if row[:-1] in rows or not is_of_flags(row)]
        return shown

    start = next(n for n, line in enumerate(lines) if re.match(r"\s+flags  ", line))
    lines[start:next(n for n in range(start, len(lines)) if lines[n] == "```")] = states()
    for columns, rows in WORKED.items():
        put(lines, columns, worked(rows()))
    put(lines, WITH_NAMES, lambda page: words([head for head, *_ in page]))
    put(lines, FIRST_ZEROS, first_zeros())
    for columns, rows in of_forms().items():
        put(forms_lines, columns, rows)
    return {PAGE: "\n".join(lines), FORMS_PAGE: "\n".join(forms_lines)}


def reasons(lines):
    """Each worked row says why, and one whose row isn't written is in a test: a test has the text,
    and beside it what is drained and the count."""
    for columns in WORKED:
        table = Table(lines, columns)
        for line, row in enumerate(table.rows, table.first + 1):
            if row[-1] == WHY:
                yield f"{PAGE}:{line}: this row doesn't say why"
            if not is_of_flags(row):
                text, drained, count = (cell.replace("`", "") for cell in row[-4:-1])
                drains = re.compile(rf'b"{re.escape(drained)}",\s*{count}\b')
                if not any(f'b"{text}"' in test and drains.search(test)
                           for test in read(TESTS).split("#[test]")):
                    yield (f"{PAGE}:{line}: no test of {TESTS} drains `{text}` to `{drained}` with "
                           f"the count {count}")


def bits(lines):
    """The bits of the flags are those of the constants."""
    known, table = constants(*WORDS), Table(lines, BITS)
    for line, (component, *cells) in enumerate(table.rows, table.first + 1):
        for cell, kind in zip(cells, ("INTERNAL", "LEADING", "TRAILING", "CONSECUTIVE")):
            bit = known[f"{component.upper()}_{kind}_DIGIT_SEPARATOR"].bit_length() - 1
            if cell != f"bit {bit}":
                yield f"{PAGE}:{line}: {kind.lower()} of {component} is bit {bit}"


def as_tools_read():
    """What a first 0 of a language says isn't read otherwise by the language's own tool."""
    read_of = {name: values for name, _, values in first_zeros_by_language()}
    for language, text, value in tool_values():
        if language in read_of and text in FIRST:
            here = read_of[language][FIRST.index(text)]
            if (here if here.isdigit() else "NO") != value:
                yield f"{TOOLS}:1: {text} of {language} is {value}, and {here} by {LANGUAGES}"


def named():
    """Each word with a name has its law and its row of a test."""
    for path in NAMING:
        there = set(re.findall(r"\w+", read(path)))
        yield from (f"{path}:1: no {name} of words.rt" for name in named_words()
                    if name not in there)


def served():
    """Each form has its clause in a law, and the page no other form."""
    known = {name for part in forms().values() for name in part}
    laws = set(re.findall(r"IsForm (\w+)", read(FORMS)))
    yield from (f"{FORMS}:1: no law says IsForm {name}" for name in sorted(known - laws))
    for line, text in enumerate(read(FORMS_PAGE).split("\n"), 1):
        yield from (f"{FORMS_PAGE}:{line}: there is no form {name}"
                    for name in re.findall(r"\.\.(?:forms::)?([A-Z]\w+) }", text)
                    if name not in {*known, "LITERAL", "FLOAT"})


def check():
    lines = read(PAGE).split("\n")
    faults = [difference(page, text, MEND.partition(" ")[2]) for page, text in written().items()
              if text != read(page)]
    faults += [*reasons(lines), *bits(lines), *as_tools_read(), *named(), *served()]
    rows = sum(line.startswith("| ") for page in (PAGE, FORMS_PAGE) for line in read(page).split("\n"))
    return (f"{rows + len(states())} rows of {PAGE} and {FORMS_PAGE}, and the names of "
            f"{len(named_words())} words"), faults


if __name__ == "__main__":
    if sys.argv[1:] == ["--write"]:
        for page, text in written().items():
            with open(os.path.join(TOP, page), "w", encoding="utf8") as file:
                file.write(text)
    said, faults = check()
    print("\n".join(faults) if faults else f"tables: {said}")
    sys.exit(1 if faults else 0)
