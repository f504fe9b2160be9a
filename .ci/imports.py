"""What `digits` hands out to a caller's specs/: each import line of the table of PROVING.md is one
of a file that the gate proves, and each constant of Rust and each module of specs/ has its line."""
import re

from sources import DOOR, read

PAGE = "docs/PROVING.md"
TRIED = "crates/digit_uses/specs/Imports.antt"
ROOT = f"crates/{DOOR}/src/lib.rt"
SPECS = f"crates/{DOOR}/specs"
BY_KIND = ("Bytes", "Gaps")  # modules whose constants Constants has too
LINE = re.compile(r"`(use Rattle\.[^`]+)`")


def as_tried(line):
    """A line as digit_uses has it, whose modules are those of the page's code."""
    return line.replace("Rattle.my_parser.", "Rattle.digit_uses.").replace(
        ".declared.TheConstants", ".declared.calling.TheConstants")


def lines_of(page):
    """(number, import line) of each row of a table that has one."""
    return [(number, line) for number, row in enumerate(read(page).split("\n"), 1)
            if row.startswith("|") for line in LINE.findall(row)]


def names_in(line):
    """The names that an import line has in braces."""
    braces = re.search(r"\{(.*)\}", line)
    return {name.split(" as ")[0].strip() for name in braces[1].split(",")} if braces else set()


def tried(faults):
    """Each line of the table is one that the gate tries."""
    there, shown = read(TRIED).split("\n"), lines_of(PAGE)
    for number, line in shown:
        if as_tried(line) not in there:
            faults.append(f"{PAGE}:{number}: {TRIED} doesn't try `{as_tried(line)}`")
    return len(shown)


def handed_out(faults):
    """Each constant, each module of constants, and each module of specs/ can be named, by a row of
    the table, and TRIED imports of each module."""
    passed = re.findall(r"^pub use (\w+)::(?:\w+::)*(\w+);", read(ROOT), re.M)
    constants = {name for _, name in passed if name.isupper()}
    root = set().union(*map(names_in, re.findall(r"^pub use .*", read(f"{SPECS}/Constants.antt"), re.M)))
    for name in sorted(constants - root):
        faults.append(f"{SPECS}/Constants.antt:1: no {name}, which {ROOT} hands out")
    lib = read(f"{SPECS}/Lib.antt")
    for crate, name in passed:
        is_module = f"pub mod {name};" in read(f"crates/{crate}/src/lib.rt")
        if is_module and f"Rattle.{crate}.specs.declared.{name}.TheConstants as " not in lib:
            faults.append(f"{SPECS}/Lib.antt:1: no constants of {name}, which {ROOT} hands out")
    modules = re.findall(r"^pub (?:mod|use .* as) (\w+)$", lib, re.M)
    page, there = read(PAGE), read(TRIED)
    for name in (name for name in modules if name not in BY_KIND):
        if not re.search(rf"^\|.*`(?:[^`]*\.)?{name}\b", page, re.M):
            faults.append(f"{PAGE}:1: no table names `{name}` of {SPECS}/Lib.antt")
        if f"use Rattle.{DOOR}.specs.{name}." not in there:
            faults.append(f"{TRIED}:1: imports nothing of `{name}` of {SPECS}/Lib.antt")
    return len(constants)


def check():
    faults = []
    lines, constants = tried(faults), handed_out(faults)
    return (f"{lines} import lines of {PAGE} are tried, and {constants} constants of {ROOT} have one",
            faults)
