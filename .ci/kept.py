#!/usr/bin/env python3
"""The public names of the libraries beside .ci/kept.txt, which has those of version 0.1.0: none may
be missing. What came since then `.ci/reference` writes into CHANGELOG.md. Kept are the names of
`digits` and of the libraries that it was made of first; those of MOVING may go to another crate, as
long as `digits` passes them on.

    .ci/kept.py --write FOLDER    writes kept.txt by a checkout of that version"""
import os
import re
import sys

sys.dont_write_bytecode = True
import sources  # noqa: E402

KEPT = ".ci/kept.txt"
MOVING = ("digit_languages", "digit_floats", "digit_numbers")
HEAD = "# The public names of version 0.1.0, by library; see kept.py. None is taken out.\n"


def members(crate, types):
    """The public functions of traits and of the methods of types, each after its type's name."""
    for source in crate.sources:
        for item in source.items:
            m = re.match(r"impl(?:<[^{]*?>)?\s+(\w+)", item.head)
            if item.kind == "impl" and " for " not in item.head and m and m[1] in types:
                yield from (f"{m[1]}::{it.name}" for it in item.inner
                            if it.kind == "fn" and it.is_public())
            elif item.kind == "trait" and item.name in types:
                yield from (f"{item.name}::{it.name}" for it in item.inner if it.kind == "fn")


def names_of(library):
    """The public names of a library: items by their paths, methods after their type's name."""
    crate = sources.Crate(library)
    public = [module for module in crate.modules.values() if module.is_public]
    shown = [(module.path, item) for module in public for item in module.shown
             if item.kind != "ghost"]
    names = {"::".join((*path, item.name)) for path, item in shown}
    names |= {"::".join((*module.path, here)) for module in public for here, _ in module.aliases}
    # what other crates have, passed on from the root or a module: a type with its methods
    for module in public:
        uses = [item.head for item in module.source.items if item.kind == "use" and item.is_public()]
        for other, one, several in re.findall(r"use (\w+)(?:::\w+)*?::(?:(\w+)|\{([^}]*)\});",
                                              "\n".join(uses)):
            passed = {name.strip() for name in (one or several).split(",") if name.strip()}
            names |= {"::".join((*module.path, name)) for name in passed}
            if other in sources.crates():
                names |= {*members(sources.Crate(other), passed)}
    return names | {*members(crate, {item.name for _, item in shown})}


def all_names():
    """Those of each library, and what DOOR passes on."""
    found = {library: names_of(library) for library in sources.libraries()}
    return found | {sources.DOOR: {*sources.passed_on()[0]}}


def kept():
    lines = (line.partition(": ") for line in sources.read(KEPT).split("\n")[1:] if line)
    return {library: {*names.split()} for library, _, names in lines}


def write(folder):
    own, sources.TOP = sources.TOP, os.path.abspath(folder)
    text = "".join(f"{library}: {' '.join(sorted(names))}\n" for library, names in all_names().items()
                   if library not in MOVING)
    sources.TOP = own
    with open(os.path.join(own, KEPT), "w", encoding="utf8") as file:
        file.write(HEAD + text)


def new_names():
    """{library: names} of what came since 0.1.0, with DOOR. Laws are on PROMISES, and a new library
    is new as a whole."""
    before = kept()
    return {library: sorted(name for name in names - before.get(library, set())
                            if not name.startswith("laws::"))
            for library, names in all_names().items() if library in before}


def new_libraries():
    return [library for library in sources.libraries() if library not in {*kept(), *MOVING}]


def check():
    """What went."""
    before, now = kept(), all_names()
    faults = [f"{KEPT}:1: {library} no longer has {name}, which 0.1.0 had"
              for library, names in before.items()
              for name in sorted(names - now.get(library, set()))]
    return f"{sum(map(len, before.values()))} names of 0.1.0 are kept", faults


if __name__ == "__main__":
    if sys.argv[1:2] == ["--write"]:
        write(sys.argv[2])
    said, faults = check()
    print("\n".join(faults) or f"names: {said}")
    sys.exit(1 if faults else 0)
