"""The numbers of the pages that a script can find again: what they count, what the benchmark's last
run measured, the kit and the version."""
import os
import re
import sys

import kept
from forms import forms
from sources import DOOR, TOP, crates, difference, files_below, libraries, read

sys.path.append(os.path.join(TOP, "bench"))
import pages as speed  # noqa: E402

HOUSE = "docs/HOUSE.md"
NAMES = "zero one two three four five six seven eight nine ten eleven twelve".split()


class Numbers:
    def __init__(self):
        self.faults, self.count = [], 0

    def compare(self, page, line, what, here, there):
        self.count += 1
        if here != there:
            self.faults.append(f"{page}:{line}: {what} is {there}, and {here} on the page")

    def lines(self, page):
        return list(enumerate(read(page).split("\n"), 1))

    def matches(self, page, pattern):
        return [(number, m) for number, line in self.lines(page)
                for m in re.finditer(pattern, line)]

    def find(self, page, pattern):
        """(line, match) of each match in a page; a fault if there is none."""
        found = self.matches(page, pattern)
        if not found:
            self.faults.append(f"{page}:1: nothing on it has the form {pattern}")
        return found


def counted(it):
    """How many programs the gate sees refused, and which crates there are, in which order."""
    there = NAMES[len(files_below("crates/digit_vectors/refused", ".txt"))]
    for page, pattern in (("docs/PROMISES.md", r"\b(\w+) programs are refused"),
                          ("docs/DECISIONS.md", r"the gate checks (\w+) texts \(`refused`\)")):
        for line, m in it.find(page, pattern):
            it.compare(page, line, "the number of refused programs", m[1], there)
    listed = re.search(r"## The layers\n(.*?)\n## ", read(HOUSE), re.S)
    first = read(HOUSE).count("\n", 0, listed.start()) + 1 if listed else 1
    names = re.findall(rf"`([a-z]+_[a-z]+|{DOOR})`", listed[1]) if listed else []
    order = list(crates())
    for crate, below in crates().items():
        late = [name for name in below if name not in order[:order.index(crate)]]
        it.compare("crates.txt", 1, f"what {crate} needs and doesn't follow", [], late)
    it.compare(HOUSE, first, "the list of crates.txt", sorted(set(names)), sorted(crates()))


def read_by(it):
    """How many languages, data formats and functions have a form."""
    there = sum(len(it) for it in list(forms().values())[:3])
    for line, m in it.find("README.md", r"a whole grammar; \[(\d+)\]"):
        it.compare("README.md", line, "the number of named forms", int(m[1]), there)


def parsers(it):
    """How many whole parsers have proofs by hand, of how many lines."""
    said = [m for path in files_below(f"{USES}/src", ".rt")
            for m in re.findall(r"^//! Proof by hand: (none|\d+)", read(path), re.M)]
    lines = sorted(int(m) for m in said if m != "none")
    there = (str(len(lines)), str(len(said)), str(lines[0]), str(lines[-1]))
    page = "crates/digit_uses/README.md"
    for line, m in it.find(page, r"(\d+) of the (\d+) examples have (\d+) to (\d+) lines"):
        it.compare(page, line, "the proof by hand of digit_uses", m.groups(), there)


def bound(it):
    """The bound on looks is that of the theorem of calls."""
    source = " ".join(read("crates/digit_script/specs/Script.antt").split())
    m = re.search(r"(\d+) \* reads_of \S+ calls \+ (\d+) \* \(length \S+ \* \(set_backs", source)
    for line, here in it.find("docs/PROMISES.md", r"at most (\d+)k \+ (\d+)n\(s \+ 1\)"):
        it.compare("docs/PROMISES.md", line, "the bound on looks", here.groups(), m and m.groups())


USES = "crates/digit_uses"
CALLS = "crates/lexical_digits/src/ops.rt"
# Where each call is named too; and those that the plain iterators don't have.
CALL_FILES = ("crates/lexical_digits/specs/CallTable.antt", "crates/lexical_plain/specs/Plain.antt",
              "crates/digit_script/src/dispatch.rt", "crates/digit_vectors/src/tests/table.rt",
              "crates/digit_vectors/src/tests/lists.rt")
ROWS = "crates/lexical_plain/src/laws/rows"
NOT_PLAIN = {"IsSign", "IsDigitSeparator"}


def calls(it):
    """Each call of the traits is an `Op`, and each of these is where it has to be."""
    ops = re.search(r"pub enum Op .*?\n}\n", read(CALLS), re.S)
    named = re.findall(r"^    (\w+)[(,]", ops[0], re.M) if ops else []
    for path in ("crates/lexical_digits/src/iterator.rt",
                 "crates/lexical_digits/src/iterator/bodies.rt"):
        for name in sorted(set(re.findall(r"^    fn (\w+)", read(path), re.M))):
            call = name.replace("_unchecked", "").title().replace("_", "")
            it.count += 1
            if not any(other.startswith(call) for other in named):
                it.faults.append(f"{CALLS}:1: no {call}, the call `{name}` of {path}")
    texts = {path: read(path) for path in CALL_FILES}
    texts[ROWS] = "\n".join([*map(read, files_below(ROWS, ".rt")), *NOT_PLAIN])
    for path, text in texts.items():
        words = set(re.findall(r"\w+", re.sub(r"^(pub )?use .*", "", text, flags=re.M)))
        it.faults += [f"{path}:1: no {call}, which {CALLS} has" for call in named
                      if call not in words]


def measured(it):
    """What pages say of the benchmark's last run is what bench/pages.py writes of it."""
    for path, text in speed.pages().items():
        it.count += 1
        if read(path) != text:
            it.faults.append(difference(path, text, "bench/pages.py"))
    cases = speed.Cases()
    for line, m in it.find("docs/SPEED.md", r"decimal `parse_number` and `parse_float` take at most "
                           r"([\d.]+) times .* through a `Bytes`, up to ([\d.]+) times"):
        ratios = [(case, cases.ratio(case, "Library", "Constant")) for case in cases.rows["Instructions"]]
        there = [f"{max(it for case, it in ratios if it and re.match(form, case)):.2f}"
                 for form in ("[ux]: ", "")]
        it.compare("docs/SPEED.md", line, "what a word at run time costs", list(m.groups()), there)
    for line, m in it.find("docs/SPEED.md", r"A `Bytes` takes (\d+) bytes"):
        size = re.search(r"A `Bytes` takes (\d+) bytes", read("bench/cases.txt"))
        it.compare("docs/SPEED.md", line, "the size of a `Bytes`", m[1], size and size[1])


def by_ends(it):
    """What SPEED says of lists is what the rows of PERF say: of those whose numbers change their
    length or have eight digits and more, with one byte between two numbers and with blanks."""
    table = re.search(r"### Its rows\n(.*?)\n### ", read("docs/PERF.md"), re.S)[1]
    ratios = {False: [], True: []}
    for name, *cells in (line.split("|")[1:-1] for line in re.findall(r"^\| `.*", table, re.M)):
        times = [(head.strip("`"), time) for head, time in zip(("d1", "d3", "d1-4"), cells)]
        times += re.findall(r"`([^`]+)` ([\d./]+)", cells[-1])
        for shape, time in times:
            if re.fullmatch(r"d(\d+-\d+|8|16)", shape) and "/" in time:
                old, new = map(float, time.split("/"))
                ratios["blank" in name or "return" in name].append(new / old)
    there = [f"{f(ratios[has]):.1f}" for has in (False, True) for f in (min, max)]
    for line, m in it.find("docs/SPEED.md", r"take ([\d.]+) to ([\d.]+) of the time that they take one by "
                           r"one, and with blanks ([\d.]+) to ([\d.]+)"):
        it.compare("docs/SPEED.md", line, "what a list takes by PERF", list(m.groups()), there)


def names(it):
    """WORKING names a kit, and each crate with a page says the version of CHANGELOG."""
    it.find("docs/WORKING.md", r"rattle-kit-\w+ logic [0-9a-f]+")
    versions = it.find("CHANGELOG.md", r"^## (\d+\.\d+\.\d+)")
    version = versions[0][1][1] if versions else ""
    for line, m in it.find("c/README.md", r"digits-(\d+\.\d+\.\d+)-x86_64"):
        it.compare("c/README.md", line, "the version of CHANGELOG.md", m[1], version)
    line, text = next(((n, text) for n, text in it.lines("CHANGELOG.md")
                       if "`lexical_plain`" in text and "`digit_script`" in text), (1, ""))
    it.compare("CHANGELOG.md", line, "the list of libraries whose names are kept",
               sorted({*re.findall(rf"`([a-z]+_[a-z]+|{DOOR})`", text)}), sorted(kept.kept()))
    listed = {HOUSE: (1, re.findall(r"`\]\(reference/(\w+)\.md\)", read(HOUSE)))}
    for page, (line, names) in listed.items():
        it.compare(page, line, "the list of libraries", sorted(set(names)),
                   sorted(libraries() + [DOOR]))
    for line, text in it.lines("HANDLES"):
        if text:
            it.compare("HANDLES", line, "the promise of no handle", text, "Handles allowed: none.")
    there = files_below("crates", "README.md")
    for crate in crates():
        page = f"crates/{crate}/README.md"
        for line, m in it.find(page, r"[Vv]ersion (\d+\.\d+\.\d+)") if page in there else ():
            it.compare(page, line, "the version of CHANGELOG.md", m[1], version)


def by_hand(it):
    """The head of each example says how many lines of its proof were written by hand: those of its
    own files, without imports, comments and blanks."""
    proofs = files_below(f"{USES}/proofs", ".antt")
    for path in files_below(f"{USES}/src", ".rt"):
        own = [file for file in proofs
               if file.startswith(path.replace("/src/", "/proofs/")[:-3] + "/")]
        lines = [line for file in own for line in read(file).split("\n")
                 if line.strip() and not re.match(r"\s*(--|use )", line)]
        for line, m in it.matches(path, r"^//! Proof by hand: (\d+|none)"):
            it.compare(path, line, "the number of lines by hand", m[1], str(len(lines) or "none"))


def check():
    it = Numbers()
    for part in (counted, read_by, parsers, bound, calls, measured, by_ends, names, by_hand):
        part(it)
    return f"{it.count} numbers and names", it.faults
