"""Reads the sources of a crate: its items with doc comments, signatures and clauses, the paths
that callers write, and the definitions of specs/. What it can't read it adds to `problems`."""
import os
import re

TOP = os.path.normpath(os.path.join(os.path.dirname(os.path.abspath(__file__)), ".."))
problems = []


def read(path):
    with open(os.path.join(TOP, path), encoding="utf8", newline="\n") as file:
        return file.read()


def files_below(folder, ending):
    """The paths of all files below a folder that have an ending, in order."""
    found = []
    for here, inner, names in os.walk(os.path.join(TOP, folder)):
        inner[:] = sorted(name for name in inner if name not in ("out", "target", ".git"))
        found += [os.path.join(here, name) for name in sorted(names) if name.endswith(ending)]
    return [os.path.relpath(path, TOP) for path in found]


def difference(path, text, script):
    """The first line in which a file differs from what a script writes, and both forms of it."""
    old = read(path) if os.path.exists(os.path.join(TOP, path)) else ""
    pairs = zip(old.split("\n") + ["(the end)"], text.split("\n") + ["(the end)"])
    line, (here, there) = next((n, pair) for n, pair in enumerate(pairs, 1) if len({*pair}) > 1)
    start = max(0, len(os.path.commonprefix([here, there])) - 40)
    return (f"{path}:{line}: `{here[start:start + 100].strip()}`, and by the sources "
            f"`{there[start:start + 100].strip()}`: run {script}")


def crates():
    """Each crate of crates.txt, with those that it depends on. The lower ones come first."""
    lines = (line.partition("#")[0].partition(":") for line in read("crates.txt").split("\n"))
    return {head.split()[0]: below.split() for head, _, below in lines if head.strip()}


# The crates that no caller in Rattle uses: examples, the programs, tests, the benchmark, the
# library for C.
INNER = ("digit_words", "digit_hello", "digit_uses", "digit_examples", "digit_requests", "digit_drain", "digit_totals", "digit_sum",
         "digit_vectors", "number_vectors", "list_vectors", "digit_bench", "digits_c", "digit_jobs",
         "digit_rows", "writer_vectors", "writer_rows")

# The crate that only passes on what the others have.
DOOR = "digits"


def libraries():
    """The crates for callers. Each has a page in docs/reference."""
    return [name for name in crates() if name not in INNER and name != DOOR]


def passed_on():
    """What DOOR passes on: {name: (crate, path)} of its items, {name: (module, name there)} of its
    words."""
    items = {name: (crate, path + name) for crate, path, name in names_of(
        re.findall(r"^pub use (\w+)::((?:\w+::)*)(?:(\w+)|\{([^}]*)\});",
                   read(f"crates/{DOOR}/src/lib.rt"), re.M))}
    words = {}
    for module, _, name in names_of((module, "", "", names) for module, names in re.findall(
            r"^(?:unfoldable )?pub use ([\w.]+)\.\{([^}]*)\}$",
            read(f"crates/{DOOR}/specs/Words.antt"), re.M)):
        there, _, here = name.partition(" as ")
        words[here or there] = (module, there)
    return items, words


def names_of(imports):
    """(crate, path, name) of each name of some imports."""
    return [(crate, path, part.strip()) for crate, path, name, names in imports
            for part in (name or names).split(",") if part.strip()]


def slug_of(heading):
    """The anchor that a Markdown page gives to a heading, by its text without links."""
    heading = re.sub(r"\[([^\]]*)\]\([^)]*\)", r"\1", heading)
    return re.sub(r"[^\w\- ]", "", heading.lower()).replace(" ", "-")


def dedent(text):
    """Without the indentation of its least indented line; the first line has none already."""
    first, *lines = text.rstrip().split("\n")
    cut = min((len(line) - len(line.lstrip()) for line in lines if line.strip()), default=0)
    cut = max(0, cut - 4) if lines and not lines[-1].strip().startswith((")", "}", "]")) else cut
    return "\n".join([first.strip()] + [line[cut:] for line in lines])


# ---- items of a .rt file

HIDDEN = re.compile(r'//[^\n]*|/\*.*?\*/|b?"(?:\\.|[^"\\])*"|b?\'(?:\\[^\n\']+|[^\'\\\n])\'', re.S)
HEAD = re.compile(
    r"(?P<vis>pub(?:\([^)]*\))?\s+)?(?:"
    r"(?P<ghost_use>ghost\s+use\b)|(?P<ghost>ghost\s+)(?P<ghost_name>[\w◌]+)|(?P<use>use\b)|"
    r"(?P<mod>mod)\s+(?P<mod_name>\w+)|"
    r"(?P<fn>(?:(?:const|unsafe|final|extern|async|default)\s+)*fn)\s+(?P<fn_name>\w+)|"
    r"(?P<plain>const|static|type)\s+(?:mut\s+)?(?P<plain_name>\w+)|"
    r"(?P<data>struct|enum|union)\s+(?P<data_name>\w+)|"
    r"(?P<trait>(?:unsafe\s+)?trait)\s+(?P<trait_name>\w+)|"
    r"(?P<impl>(?:unsafe\s+)?impl)\b|"
    r"(?P<macro>macro_rules!)\s*(?P<macro_name>\w+))")
NAMED = ("ghost", "mod", "fn", "plain", "data", "trait", "macro")


class Clause:
    def __init__(self, kind, name, text, comments):
        self.kind, self.name, self.text, self.comments = kind, name, text, comments


class Item:
    """kind, name, vis, docs, comments, attrs, head (the text before body and clauses), clauses,
    inner (the items of a trait, impl or module), text (the whole item), file, line."""

    def __init__(self, **fields):
        self.__dict__.update(fields)

    def is_public(self):
        return self.vis == "pub"


class Source:
    """A .rt file: `docs`, and `items`."""

    def __init__(self, path):
        self.path = path
        self.text = read(path)
        self.bare = HIDDEN.sub(lambda m: re.sub(r"[^\n]", " ", m[0]), self.text)
        self.docs = []
        self.items = self.items_between(0, len(self.text))

    def line(self, at):
        return self.text.count("\n", 0, at) + 1

    def closing(self, at):
        """The position after the bracket that closes the one at a position."""
        depth = 0
        for i in range(at, len(self.bare)):
            if self.bare[i] in "([{":
                depth += 1
            elif self.bare[i] in ")]}":
                depth -= 1
                if depth == 0:
                    return i + 1
        return len(self.bare)

    def ahead(self, at, end, stops, words=()):
        """The first position from `at` on, outside of brackets, of one of these characters or
        words."""
        i = at
        while i < end:
            if self.bare[i] in stops:
                return i
            if words:
                m = re.compile(r"\b(?:" + "|".join(words) + r")\b").match(self.bare, i)
                if m and not self.bare[i - 1].isalnum() and self.bare[i - 1] != "_":
                    return i
            i = self.closing(i) if self.bare[i] in "([{" else i + 1
        return end

    def items_between(self, i, end):
        found, docs, comments, attrs = [], [], [], []
        while i < end:
            if self.text[i].isspace():
                if self.text.startswith("\n\n", i):
                    comments = []
                i += 1
                continue
            stop = self.text.find("\n", i)
            stop = end if stop < 0 else stop
            if self.text.startswith("//", i):
                line = self.text[i:stop]
                if line.startswith("//!"):
                    self.docs.append(re.sub("^ ", "", line[3:]))
                elif line.startswith("///"):
                    docs.append(re.sub("^ ", "", line[3:]))
                else:
                    comments.append(line[2:].strip())
                i = stop
                continue
            if self.text[i] == "#":
                close = self.closing(self.text.index("[", i))
                attrs.append(self.text[i:close])
                i = close
                continue
            item, after = self.item(i, end)
            if item is None:
                problems.append(f"{self.path}:{self.line(i)}: {self.text[i:stop].strip()}")
                brace = self.bare.find("{", i, stop)
                after = stop if brace < 0 else self.closing(brace)
            else:
                item.docs, item.comments, item.attrs = docs, comments, attrs
                found.append(item)
            i, docs, comments, attrs = max(after, i + 1), [], [], []
        return found

    def item(self, i, end):
        m = HEAD.match(self.bare, i)
        if not m:
            return None, i
        kind = next((k for k in ("ghost_use", "use", "impl") + NAMED if m[k]), None)
        name = m[kind + "_name"] if kind in NAMED else ""
        item = Item(kind=kind, name=name, vis=(m["vis"] or "").strip(), clauses=[], inner=[],
                    file=self.path, line=self.line(i), head="", text="")
        if kind == "fn":
            after = self.function(item, m.end(), i, end)
        elif kind in ("ghost", "ghost_use", "use", "plain"):
            after = self.ahead(m.end(), end, ";") + 1
            item.head = dedent(self.text[i:after])
        else:
            stop = self.ahead(m.end(), end, "{;")
            item.head = dedent(self.text[i:stop])
            after = stop + 1
            if stop < end and self.bare[stop] == "{":
                after = self.closing(stop)
                if kind in ("trait", "impl", "mod"):
                    item.inner = self.items_between(stop + 1, after - 1)
                item.body = (stop + 1, after - 1)
        if kind == "plain":
            item.kind = m["plain"]
        if kind == "data":
            item.kind = m["data"]
        item.text = self.text[i:after]
        return item, after

    def function(self, item, at, begin, end):
        at = self.ahead(at, end, ";{", ("requires", "ensures"))
        head, *comments = re.split(r"\n\s*// ", self.text[begin:at].rstrip())
        item.head = dedent(head)
        while at < end:
            gap = re.compile(r"\s*").match(self.text, at).end()
            if self.text.startswith("//", gap):
                at = self.text.find("\n", gap)
                comments.append(self.text[gap + 2:at].strip())
                continue
            if self.bare[gap] == "{":
                return self.closing(gap)
            if self.bare[gap] == ";":
                return gap + 1
            m = re.compile(r"(\w+)\s*(\w+)?\s*(?=\{)").match(self.bare, gap)
            if not m:
                problems.append(f"{self.path}:{self.line(gap)}: a clause of {item.name}")
                return self.ahead(gap, end, ";")
            close = self.closing(m.end())
            text = self.text[gap:close]
            item.clauses.append(Clause(m[1], m[2] or "", text, comments))
            comments, at = [], close
        return at


# ---- the modules of a crate

class Module:
    def __init__(self, path, source, is_public):
        self.path, self.source, self.is_public = path, source, is_public
        self.children, self.shown, self.aliases = {}, [], []


class Crate:
    """The modules of a crate by their paths, and in each public one what a caller finds there:
    `shown` are items that have no other path, `aliases` the paths of the others."""

    def __init__(self, name):
        self.name, self.modules, self.sources = name, {}, []
        self.load((), f"crates/{name}/src/lib.rt", True)
        self.place_of = {}
        public = [module for module in self.modules.values() if module.is_public]
        for module in public:
            for item in module.source.items:
                if item.is_public() and item.kind not in ("use", "ghost_use", "mod"):
                    self.place_of[id(item)] = module.path
        # of several re-exports the one nearest to the item is its path
        for nearest in (True, False):
            for module in public:
                self.show(module, nearest)

    def load(self, path, file, is_public):
        source = Source(file)
        self.sources.append(source)
        module = self.modules[path] = Module(path, source, is_public)
        for item in source.items:
            if item.kind != "mod" or "#[cfg(test)]" in item.attrs or item.name == "tests":
                continue
            if item.inner:
                problems.append(f"{file}:{item.line}: module {item.name} inside of a file")
                continue
            folder = os.path.dirname(file) if file.endswith("/lib.rt") else file[:-len(".rt")]
            child = f"{folder}/{item.name}.rt"
            if os.path.exists(os.path.join(TOP, child)):
                self.load(path + (item.name,), child, is_public and item.is_public())
                module.children[item.name] = path + (item.name,)
            else:
                problems.append(f"{file}:{item.line}: no file {child}")

    def items_of_use(self, item, path):
        """The (path, name, name here) of each name of a `use`."""
        body = re.sub(r"^(pub(\([^)]*\))?\s+)?use\s+", "", " ".join(item.head.split())).rstrip(";")
        m = re.fullmatch(r"(.*?)(?:::)?\{(.*)\}", body.strip())
        prefix, names = (m[1], m[2].split(",")) if m else (None, [body])
        for name in filter(None, (name.strip() for name in names)):
            whole = f"{prefix}::{name}" if prefix else name
            target, _, alias = whole.partition(" as ")
            parts = [part.strip() for part in target.split("::")]
            at = list(path)
            if parts[0] == "crate":
                at, parts = [], parts[1:]
            elif parts[0] in ("self", "super"):
                while parts[0] in ("self", "super"):
                    at = at[:-1] if parts[0] == "super" else at
                    parts = parts[1:]
            elif tuple(at + parts[:1]) not in self.modules:
                continue  # of another crate
            yield tuple(at + parts[:-1]), parts[-1], (alias or parts[-1]).strip()

    def find(self, path, name, seen=()):
        module = self.modules.get(path)
        if module is None or path in seen:
            return None
        for item in module.source.items:
            if item.name == name and item.kind not in ("use", "ghost_use", "mod", "ghost"):
                return item
        for item in module.source.items:
            if item.kind == "use":
                for at, original, here in self.items_of_use(item, path):
                    if here == name:
                        return self.find(at, original, seen + (path,))
        return None

    def is_within(self, item, path):
        own = next(m.path for m in self.modules.values() if m.source.path == item.file)
        return own[:len(path)] == path

    def show(self, module, nearest):
        for item in module.source.items:
            if item.kind == "use" and item.is_public():
                listed = [(self.find(at, name), here)
                          for at, name, here in self.items_of_use(item, module.path)]
                listed = [(found, here) for found, here in listed if found is not None]
                for found, here in sorted(listed, key=lambda pair: pair[0].line):
                    if self.is_within(found, module.path) != nearest:
                        continue
                    if id(found) in self.place_of:
                        module.aliases.append((here, self.place_of[id(found)]))
                    elif found.is_public():
                        self.place_of[id(found)] = module.path
                        module.shown.append(found)
            elif not nearest:
                continue
            elif item.kind == "macro" and "#[macro_export]" in item.attrs:
                self.modules[()].shown.append(item)
                self.place_of[id(item)] = ()
            elif self.place_of.get(id(item)) == module.path:
                module.shown.append(item)

    def source_of(self, item):
        return next(source for source in self.sources if source.path == item.file)


# ---- definitions of specs/

DEFINES = re.compile(r"(?:(?:abbrev|unfoldable|rec|opaque)\s+)*pub\s+"
                     r"(?:(?:record|data|abbrev|ruleset)\s+)?([^\s:(]+)")


class Definition:
    """module, name, file, line, comment, text, scope (the parameters of the modules around it),
    section (the title of the part of the file)."""

    def __init__(self, **fields):
        self.__dict__.update(fields)


def definitions_of(crate, folder="specs"):
    """{(module, name): Definition} of a folder; a constructor stands for its type."""
    found = {}
    for path in files_below(f"crates/{crate}/{folder}", ".antt"):
        module = f"Rattle.{crate}." + path[len(f"crates/{crate}/"):-len(".antt")].replace("/", ".")
        lines = read(path).split("\n")
        comment, scopes, section, i = [], [], "", 0
        while i < len(lines):
            line = lines[i]
            bare, indent = line.strip(), len(line) - len(line.lstrip())
            if bare:
                scopes = [scope for scope in scopes if scope[0] < indent]
            m = DEFINES.match(bare)
            if bare.startswith("--"):
                is_title = bare.startswith("-- ----")
                section = bare[len("-- ----"):].strip() if is_title else section
                comment = [] if is_title else comment + [bare[2:].strip()]
            elif bare.startswith("module _"):
                text = bare
                while not text.endswith(" where") and i + 1 < len(lines):
                    i += 1
                    text += " " + lines[i].strip()
                scopes.append((indent, re.sub(r"^module _ | where$", "", text)))
                comment = []
            elif m and not bare.startswith("pub use") and not bare.startswith("pub mod"):
                end = i + 1
                while end < len(lines) and lines[end].strip() and not (
                        DEFINES.match(lines[end].strip())
                        and len(lines[end]) - len(lines[end].lstrip()) <= indent):
                    end += 1
                text = "\n".join(part[indent:] for part in lines[i:end])
                definition = Definition(
                    module=module, name=m[1], file=path, line=i + 1, comment=" ".join(comment),
                    text=text, scope=" ".join(scope[1] for scope in scopes), crate=crate,
                    section=section)
                found[module, m[1]] = definition
                if re.match(r"pub data", bare):
                    for part in lines[i + 1:end]:
                        name = re.match(r"\s*([A-Za-z]\w*) :", part)
                        if name:
                            found.setdefault((module, name[1]), definition)
                comment, i = [], end - 1
            elif not bare:
                comment = []
            i += 1
    return found


def imports_of(heads):
    """What the `ghost use` lines make known: {word: (module, word there)}, {name: module}."""
    words, aliases = {}, {}
    for head in heads:
        body = re.sub(r"^ghost\s+use\s+", "", " ".join(head.split())).rstrip(";").strip()
        m = re.fullmatch(r"([\w.]+)\.\{(.*)\}", body)
        if m:
            for name in filter(None, (name.strip() for name in m[2].split(","))):
                original, _, here = name.partition(" as ")
                words[here or original] = (m[1], original)
        else:
            module, _, here = body.partition(" as ")
            aliases[here or module.split(".")[-1]] = module
    return words, aliases
