#!/usr/bin/env python3
"""What `rt tidy` would mend, and more, told by the texts in seconds: a name that an import has and
nothing uses, and a line above 100 columns that is no import, in sources, specs and proofs.

    .ci/tidy.py [CRATE..]    tells them, and ends with status 1 where there is one

The names of traits in an import are left out, since their methods are called without them."""
import re
import sys

sys.dont_write_bytecode = True
from sources import crates, files_below, read  # noqa: E402

MOST = 100
# an import up to its end: `use`, with `ghost` before it in a .rt file; no `pub use`
IMPORT = re.compile(r"^[ ]*(?:ghost )?use [^;{]*?(?:\{[^}]*\})?(?:;|$)", re.M)
# lists of names, and literals, which no layout breaks
UNBROKEN = re.compile(r"\s*(?:(?:unfoldable )?(?:pub )?(?:ghost )?use |#!?\[tactic|(?:\w+ = codes )?b?\"[^\"]*\"[,;]?$)")
# traits of std that files import for their methods
STD_TRAITS = {"BufRead", "Display", "Error", "FromStr", "Iterator", "Read", "Write"}


def bare(text, is_rust):
    """A text without its comments."""
    return re.sub(r"//[^\n]*" if is_rust else r"(?<!\S)--(?= |-|$)[^\n]*", "", text, flags=re.M)


def names_of(statement):
    """The names that an import makes known in its file."""
    inner = re.search(r"\{([^}]*)\}", statement)
    if inner:
        names = inner[1].split(",")
    else:
        names = [re.sub(r".*?\buse\s+", "", statement.rstrip(";")).strip()]
    for name in filter(None, (name.strip() for name in names)):
        name = name.split(" as ")[-1].strip()
        name = name if "◌" in name else re.split(r"::|\.", name)[-1]
        if name not in ("*", "self"):
            yield name


def is_used(name, text):
    """Whether a text has a name, or all signs of an operator."""
    if "◌" not in name:
        return re.search(rf"(?<![\w◌-]){re.escape(name)}(?![\w◌]|-\w)", text) is not None
    return all(sign in text for sign in filter(None, name.split("◌")))


def traits():
    """The traits of the repository."""
    text = "\n".join(read(path) for path in files_below("crates", ".rt") if "/src/" in path)
    return set(re.findall(r"\btrait (\w+)", text)) | STD_TRAITS


def unused(path, text, known):
    """Each import's line, and its name that nothing uses."""
    is_rust = path.endswith(".rt")
    text = bare(text, is_rust)
    rest = IMPORT.sub("", text)
    for m in IMPORT.finditer(text):
        line = text.count("\n", 0, m.start()) + 1
        is_ghost = not is_rust or "ghost use" in m[0]
        for name in names_of(m[0]):
            if not is_used(name, rest) and (is_ghost or name not in known):
                yield line, name


def wide(text):
    """The number of each line that is too long, and how long it is."""
    for number, line in enumerate(text.split("\n"), 1):
        if len(line) > MOST and not UNBROKEN.match(line):
            yield number, len(line)


def faults_of(crate, known):
    for path in files_below(f"crates/{crate}", (".rt", ".antt")):
        text = read(path)
        yield from (f"{path}:{line}: nothing uses {name}" for line, name in unused(path, text, known))
        yield from (f"{path}:{line}: {width} columns" for line, width in wide(text))


def check(names=()):
    known = traits()
    return (f"no unused import and no line above {MOST} columns",
            [fault for crate in names or crates() for fault in faults_of(crate, known)])


if __name__ == "__main__":
    said, faults = check(sys.argv[1:])
    print("\n".join(faults) or f"tidy: {said}")
    sys.exit(1 if faults else 0)
