"""The code of the pages: the blocks of Rust of a page are a file that the gate proves.

    .ci/code_of_pages.py --write    writes the files of the pages whose blocks stand alone; `rt fmt` then
                                    formats them
"""
import os
import re
import sys

from sources import DOOR, TOP, files_below, read

USES = "crates/digit_uses"
# The pages, and the module of digit_uses that the blocks of each are.
PAGES = {"README.md": "readme", "CALLING.md": "calling", "docs/FILES.md": "files",
         "docs/WRITING.md": "writing", "docs/OWN.md": "own", "docs/PROVING.md": "proving"}
# The pages of which each block has all its imports, so that it can be pasted alone. Their file has each
# import once.
ALONE = ("README.md", "CALLING.md", "docs/FILES.md", "docs/WRITING.md", "docs/OWN.md")
# The traits of which a block calls a method, and names nothing else.
BY_METHOD = {"BufRead": ".lines(", "NoNumber": ".fault_at("}
# The crate of whoever pastes them, which here is digit_uses.
CALLER = "my_parser"
# The pages whose blocks of these languages are parts of proved files, and the crate that has these.
SHOWN = {"docs/IMPLEMENTING.md": ("crates/digit_vectors", ("rust", "antt")),
         "docs/PROVING.md": (USES, ("antt",)), "CALLING.md": (USES, ("antt",)),
         "docs/OWN.md": (USES, ("antt",))}
# What pages show of other languages: the mark of its blocks, the file whose examples are run, how a line
# has a call and its answer, and how the file has them.
DOORS = ("README.md", "c/README.md")
OTHERS = {
    "rs": ("c/rust/src/lib.rs", r" *(?:let \w+ = )?(.*?);? // ((?:Ok|Some)\(.*?\))(?:: .*)?", "assert_eq!({}, {})"),
    "python": ("c/python/digits.py", r"(.*?)  # (.*)", ">>> {}\n{}"),
}
# The pages that show a contract, with its file.
CONTRACTS = {"docs/PROMISES.md": "crates/digit_integers/src/number.rt"}
# What begins the blocks that a reader puts in the place of others; `.ci/setup` does so.
CHANGES = ("is_space b =", "    text.iter()")


def blocks_of(page, language):
    """Each block of a language: the number of its first line, and its lines."""
    found, block = [], None
    for number, line in enumerate(read(page).split("\n"), 1):
        if block is None and line == f"```{language}":
            block = (number + 1, [])
        elif block is not None and line.startswith("```"):
            found.append(block)
            block = None
        elif block is not None:
            block[1].append(line)
    return found


def imports_of(rows):
    """The imports of numbered lines, as (path, name), and the other lines."""
    found, others, use = set(), [], ""
    for number, line in rows:
        if not use and not re.match(r"(ghost )?use ", line):
            others.append((number, line))
            continue
        use += line.strip() + " "
        if ";" in line:
            path, _, last = re.match(r"(.*?)(::|\.)?(\{[^}]*\}|\w+);", use).groups()
            found |= {(path, name) for name in re.findall(r"[^\s{},]+", last)}
            use = ""
    return found, others


def has_name(name, rows):
    """Whether lines have a name, or a sign of the logic, apart from their comments."""
    lines = [line.partition("//")[0].replace("..", " ") for _, line in rows]
    if name in BY_METHOD:
        return BY_METHOD[name] in "\n".join(lines)
    sign = name.replace("◌", "")
    if sign != name:
        return any(f" {sign} " in it for it in lines if re.match(r"\s*(requires|ensures)\b", it))
    return re.search(rf"(?<![\w:.]){name}\b", "\n".join(lines))


def alone(page, path, blocks, there, faults):
    """Each block imports what it names of the imports of the file, and no more."""
    imported, _ = imports_of(there)
    for first, block in blocks:
        own, rows = imports_of(code(block, first))
        for use in sorted(imported | own):
            if use in own and use not in imported:
                faults.append(f"{page}:{first}: {path} has no `{use[0]} {use[1]}`")
            elif use in own and not has_name(use[1], rows):
                faults.append(f"{page}:{first}: the block imports `{use[1]}`, and doesn't name it")
            elif use not in own and has_name(use[1], rows):
                faults.append(f"{page}:{first}: the block names `{use[1]}`, and doesn't import it")


def written(page):
    """The file of a page whose blocks stand alone: its blocks in order, with each import once."""
    lines = [f"//! The blocks of the page {os.path.basename(page)}, in its order. `.ci/pages` compares the two.",
             "#![tactic(auto, unfolding(digits::proofs::Literals::lexical_on_literals))]", ""]
    had = set()
    for first, block in blocks_of(page, "rust"):
        own, rows = imports_of(code(block, first))
        lines += use_lines(own - had)
        had |= own
        # blank lines are kept, which `code` leaves out
        kept, before = dict(rows), first
        for number in sorted(kept):
            lines += [""] * (number > before) + [kept[number]]
            before = number + 1
        lines.append("")
    return "\n".join(lines)


def use_lines(uses):
    """The lines of imports, one for each path: the logic's first, and in each its signs first."""
    found = {}
    for path, name in sorted(uses, key=lambda use: ("ghost use Rattle.std." not in use[0], use[0],
                                                    "◌" not in use[1], use[1])):
        found.setdefault(path, []).append(name)
    return [f"{path}{'.' if path.startswith('ghost') else '::'}{{{', '.join(names)}}};"
            for path, names in found.items()]


def code(lines, first):
    """(number, line) without blank lines, the head's comments, and the attribute of a crate."""
    here = f"Rattle.{os.path.basename(USES)}."
    return [(number, line.rstrip().replace(f"Rattle.{CALLER}.", here))
            for number, line in enumerate(lines, first)
            if line.strip() and not line.startswith(("//!", "#!["))]


def fault(page, here, path, there):
    """Where the code of a page and that of a file first differ."""
    for (at, line), (other_at, other) in zip(here, there):
        if line != other:
            return f"{page}:{at}: `{line.strip()}`, and `{other.strip()}` in {path}:{other_at}"
    if len(here) != len(there):
        longer, name = (here, page) if len(here) > len(there) else (there, path)
        at, line = longer[min(len(here), len(there))]
        last = here[-1][0] if here else 1
        return f"{page}:{last}: `{line.strip()}` is only in {name}:{at}"
    return None


def by_the_door(page, faults):
    """The blocks that a caller pastes import from the one crate that he depends on, and from std:
    so they are proved in his repository as they are in digit_uses."""
    for first, block in blocks_of(page, "rust"):
        for number, line in enumerate(block, first):
            m = re.match(r"(?:ghost )?use (?:Rattle\.)?(\w+)|#.*?\b(?:using|unfolding)\((\w+)::", line)
            crate = m and (m[1] or m[2])
            if crate and crate not in (DOOR, CALLER, "std"):
                faults.append(f"{page}:{number}: a caller who has only `{DOOR}` has no `{crate}`")


def answers(faults):
    """Each answer that the first block of README shows is one that a test asserts."""
    path = "crates/number_vectors/src/tests/readme.rt"
    asserted = " ".join(read(path).split())
    first, block = blocks_of("README.md", "rust")[0]
    for number, line in enumerate(block, first):
        m = re.search(r" = (.*); // ((?:Ok|Err)\(.*\))", line)
        if m and f"{m[1]} == {m[2]})" not in asserted:
            faults.append(f"README.md:{number}: no `{m[1]} == {m[2]}` in {path}")


def others(faults):
    """Each answer in another language is one that an example of its file has."""
    for language, (path, form, there) in OTHERS.items():
        text = re.sub(r"\s+# .*", "", read(path)) if language == "python" else read(path)
        for page in DOORS:
            for first, block in blocks_of(page, language):
                for number, line in enumerate(block, first):
                    m = re.fullmatch(form, line)
                    if m and there.format(*m.groups()) not in text:
                        faults.append(f"{page}:{number}: no `{there.format(*m.groups())}` in {path}")


def first_run(faults):
    """What README shows of digit_hello is what `rt ci` finds that it prints."""
    path = "crates/digit_hello/stdout"
    page = read("README.md")
    shown = re.search(r"digit_hello && rt try\)\n```\n.*?^```text\n(.*?)^```", page, re.S | re.M)
    if not shown or shown[1] != read(path):
        faults.append(f"README.md:1: the run of digit_hello doesn't print what {path} has")


def contract(faults):
    """The contracts of these pages are, or begin, as the sources have them."""
    for page, path in CONTRACTS.items():
        shown = [it for it in blocks_of(page, "text") if it[1][0].startswith("pub fn")]
        for first, block in shown:
            if "\n".join(block) + "\n" not in read(path):
                faults.append(f"{page}:{first}: {path} has another `{block[0]}`")
        if not shown:
            faults.append(f"{page}:1: no contract is shown")


def parts(faults):
    """Each paragraph of the blocks of Rust and antt of these pages is in a file of the crate."""
    count = 0
    for page, (crate, languages) in SHOWN.items():
        texts = [flat(read(path)) for path in files_below(crate, (".rt", ".antt"))]
        for language in languages:
            for first, block in blocks_of(page, language):
                if block[0].startswith(CHANGES):
                    continue
                text = "\n".join(block).replace(f"Rattle.{CALLER}.", f"Rattle.{os.path.basename(USES)}.")
                for part in text.split("\n\n"):
                    count += 1
                    if not any(flat(part) in text for text in texts):
                        faults.append(f"{page}:{first}: no file of {crate} has `{part.strip()[:60]}`")
    return count


def flat(text):
    return " ".join(text.split())


def check():
    faults, count = [], 0
    shown = parts(faults)
    answers(faults)
    others(faults)
    first_run(faults)
    contract(faults)
    for page in PAGES:
        by_the_door(page, faults)
    for page, module in PAGES.items():
        path, blocks = f"{USES}/src/{module}.rt", blocks_of(page, "rust")
        here = [line for first, block in blocks for line in code(block, first)]
        there = code(read(path).split("\n"), 1)
        if page in ALONE:
            alone(page, path, blocks, there, faults)
            here, there = imports_of(here)[1], imports_of(there)[1]
        faults.append(fault(page, here, path, there))
        count += len(blocks)
    return (f"{count} blocks of {', '.join(PAGES)} are proved code, and {shown} parts of others",
            [found for found in faults if found])


def main(words):
    if words != ["--write"]:
        sys.exit(__doc__)
    for page in ALONE:
        with open(os.path.join(TOP, f"{USES}/src/{PAGES[page]}.rt"), "w", encoding="utf8") as out:
            out.write(written(page))


if __name__ == "__main__":
    main(sys.argv[1:])
