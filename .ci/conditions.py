"""The conditions that a caller proves: PROMISES, "Conditions", has each `requires` of a public
function of the libraries as it is in the source, or the name of the function."""
import re

from sources import Crate, libraries, read

PAGE = "docs/PROMISES.md"


def said(clause):
    """What a clause says, without its name."""
    return " ".join(clause.text.partition("{")[2][:-1].split())


def with_condition(items, all_public=False):
    """(function, condition) of these items, and of their traits and impls."""
    for item in items:
        if not (all_public or item.is_public() or item.kind == "impl"):
            continue
        yield from ((item.name, said(it)) for it in item.clauses if it.kind == "requires")
        yield from with_condition(item.inner, item.kind == "trait" or " for " in item.head)


def type_of(head):
    """The type that has an `impl` of no trait."""
    m = re.match(r"impl(?:<[^{]*?>)?\s+(\w+)", head)
    return m and m[1]


def functions():
    """(library, function, condition) of each."""
    for name in libraries():
        crate = Crate(name)
        shown = [item for module in crate.modules.values() for item in module.shown]
        types = {item.name for item in shown}
        impls = [item for source in crate.sources for item in source.items if item.kind == "impl"
                 and (" for " in item.head or type_of(item.head) in types)]
        yield from ((name, *found) for found in sorted({*with_condition(shown + impls)}))


def check():
    section = re.search(r"^## Conditions\n(?s:.*?)(?=^## )", page := read(PAGE), re.M)
    line = page.count("\n", 0, section.start()) + 1 if section else 1
    quoted = re.findall(r"`([^`]+)`", section[0]) if section else []
    named, found = set(re.findall(r"\w+", " ".join(quoted))), list(functions())
    faults = [f"{PAGE}:{line}: no {function} of {crate}, which requires `{condition}`"
              for crate, function, condition in found
              if condition not in quoted and function not in named]
    return f"{len(found)} of functions, and {PAGE} has them", faults
