"""The must-fail edits, for .ci/examples, .ci/refusals and .ci/pages."""
import os
import re
import sys

from sources import crates, files_below, read


def write(path, text):
    os.makedirs(os.path.dirname(path), exist_ok=True)
    with open(path, "w", encoding="utf8") as file:
        file.write(text)


# Each crate that an example can use, and the crates that it uses. None can use a static library: an
# example of digits_c is a call in C, which is only read.
USES = {name: used for name, used in crates().items() if name not in ("digit_bench", "digits_c")}


class Edit:
    """An edit: its examples, its changes, and the functions that they are in, by file and name."""

    def __init__(self, path):
        self.crate = path.split("/")[-3]
        self.name = f"{self.crate}/{os.path.basename(path)[:-len('.edit')]}"
        self.examples, self.changes, self.functions = [], [], set()
        lines = [line.partition(": ") for line in read(path).split("\n")]
        order = " ".join(word for word, *_ in lines if word in ("file", "old", "new"))
        if not re.fullmatch(r"(file( old new)+ ?)+", order):
            sys.exit(f"{self.name}: not lines `file:`, each with pairs of `old:` and `new:`")
        for word, _, rest in lines:
            if word == "example":
                self.examples.append(rest)
            elif word == "file":
                file = rest
            elif word == "old":
                old = rest
            elif word == "new":
                self.changes.append((file, old, rest))
                before = read(f"crates/{self.crate}/{file}").partition(old)[0]
                names = re.findall(r"\bfn (\w+)", (before + old).split("\n}\n")[-1])
                self.functions.add((file, names[-1] if names else None))


def check():
    """Whether each edit has an example and finds each of its texts once, for .ci/pages."""
    faults = []
    for path in files_below("crates", ".edit"):
        try:
            edit = Edit(path)
            faults += [] if edit.examples else [f"{path}:1: no line `example:` (docs/WORKING.md)"]
            edited([edit])
        except (OSError, SystemExit) as error:
            faults.append(f"{path}:1: {error}")
    return f"each of {len(files_below('crates', '.edit'))} has an example and finds its text once", faults


def edited(edits):
    """The texts of the files that these edits change, which are of one crate."""
    texts = {}
    for edit in edits:
        for file, old, new in edit.changes:
            text = texts.get(file) or read(f"crates/{edit.crate}/{file}")
            if text.count(old) != 1:
                sys.exit(f"{edit.name}: not once in {file}: {old}")
            texts[file] = text.replace(old, new)
    return texts


def chosen(words):
    """The edits with these names or of these crates, or all edits if there are no words."""
    edits = [it for it in map(Edit, files_below("crates", ".edit")) if it.crate in USES]
    found = [it for it in edits if {it.crate, it.name, it.name.split("/")[1]} & {*words}]
    if words and not found:
        sys.exit("no edit and no crate has such a name")
    return found if words else edits
