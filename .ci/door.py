"""docs/reference/DOOR.md: what DOOR passes on, by what a caller does. Each entry has what the source
says, the declaration of a type or the signature of a call, and an example that a test runs. And
words.md: the words of its contracts."""
import itertools
import re
import textwrap

import forms
import shown
import sources
from clauses import SAID
from door_texts import (ANCHORED, CONDITIONS, DERIVED, ELSEWHERE, FIRST, FIRST_FORMS, FOR_LIBRARY,
                        GROUPS, HALVES, HEAD, HIDDEN, IMPLS, INDEX, LAW, METHODS,
                        MORE, MORE_HEAD, NOTES, ROOM, RULES, TABLED, TABLES, TOLD, UNNAMED, VALUES,
                        WORDS_HEAD)
from layout import (anchor_of, declaration_of, filled, first_sentence, signature_of, text_of,
                    use_of)
from sources import DOOR, dedent, slug_of


def printed(lines, name, display):
    """The lines of an enum, with what its variants are printed as: a sentence, also one that goes on with
    what the variant holds, or none of its own."""
    texts = {}
    for variant, text, value in re.findall(
            rf'{name}::(\w+)(?:\(.*?\))? => (?:\{{\s*)?'
            r'(?:write!\(f, "(.*?)"(?:, ([\w:]+))?\)|fmt::Display::fmt\(\w+, f\))', display):
        text = f"\"{text.replace('{}', VALUES.get(value, '{}'))}\"" if text else "printed as this error"
        before = texts.get(variant, "")[:-1]
        more = f"{before}\", or with \"{text[len(before):]} behind it"
        texts[variant] = more if before and text.startswith(before) else text
    found = (re.match(r"    (\w+)(?:\(.*\))?,$", line) for line in lines)
    return [f"{line} // {texts[m[1]]}" if m and m[1] in texts else line
            for m, line in zip(found, lines)]


def names():
    """The names of the page, in order."""
    return [name for *_, names in GROUPS.values() for name in names.split()] + MORE


def head_of(item):
    """The signature of a function. If a parameter is a closure, the bounds are in a `where`."""
    head = signature_of(item).removeprefix("pub ")
    m = re.match(r"(fn \w+)<(.*?: Fn\(.*?\).*?)>(?=\()(.*)", head, re.S)
    if not m:
        return filled(head, "", "        ")
    bounds = re.split(r", (?=\w+: )", m[2])
    names = ", ".join(it.partition(":")[0] for it in bounds)
    return [*filled(f"{m[1]}<{names}>{m[3]}", "", "        "), *filled("where " + ", ".join(bounds), "    ", "        ")]


class Door:
    """The page, from the libraries with their anchors and doc comments."""

    def __init__(self, libraries, docs):
        self.libraries, self.docs = libraries, docs
        self.items, self.words = sources.passed_on()
        self.tests, self.lost = shown.tests(), []
        self.slugs, self.counts = {}, {}
        for heading in self.headings():
            slug = slug_of(heading)
            count = self.counts[slug] = self.counts.get(slug, -1) + 1
            self.slugs[heading] = f"{slug}-{count}" if count else slug
        self.here = {self.page_of(name): self.slugs[f"`{name}`"] for name in names()
                     if f"`{name}`" in self.slugs and name in self.items}
        self.here |= {self.page_of(name, method): self.slugs[f"`{method}`"] for name in METHODS
                      for method, _ in methods_of(name)}

    @staticmethod
    def headings():
        """The headings of the page, in order, and the names of TABLED."""
        for group, (*_, names_of) in GROUPS.items():
            yield group
            for name in names_of.split():
                yield f"`{name}`"
                yield from (f"`{method}`" for method, _ in methods_of(name))

    def page_of(self, name, method=""):
        """Where the page of its library has an item, or a method of it."""
        crate, path = self.items[name]
        anchors = self.libraries[crate].anchors
        anchor = anchors.get(method) if method else anchors.get(path, anchors.get(name))
        return f"{crate}.md#{anchor}"

    def item(self, crate, name):
        """An item of a crate, or None for a module."""
        return next((item for module in self.libraries[crate].crate.modules.values()
                     for item in module.source.items
                     if item.name == name and item.is_public() and item.kind not in ("mod", "use")), None)

    def conditions(self, item):
        """What a caller of a function proves, as comments."""
        said = []
        for clause in item.clauses:
            if clause.kind == "requires":
                condition = " ".join(clause.text.partition("{")[2][:-1].split())
                if condition not in CONDITIONS:
                    self.lost.append(f"CONDITIONS of .ci/door_texts.py has no `{condition}` of {item.name}")
                said.append(CONDITIONS.get(condition, ""))
        told = ", ".join(it.replace(" ≤ ", "\u00a0≤\u00a0") for it in dict.fromkeys(filter(None, said)))
        told = told.replace("the word is supported, the word is decimal", "the word is supported and decimal")
        lines = [it.replace("\u00a0", " ") for it in textwrap.wrap(told, 84)]
        return [f"// {'   ' if n else 'you prove:'} {it}" for n, it in enumerate(lines)]

    def methods(self, item):
        """The constants and functions of an impl or a trait, each with its first paragraph."""
        lines = []
        for member in item.inner:
            if member.kind == "const" and member.is_public():
                lines += [f"    /// {first_sentence(member.docs)}",
                          f"    {member.head.removeprefix('pub ').partition(' = ')[0]};"]
            if (member.kind == "fn" and (item.kind == "trait" or member.is_public())
                    and member.name not in HIDDEN and (item.name, member.name) != ("Kind", "read_list")):
                said = textwrap.wrap(plain(untold(paragraph(member.docs))), 92)
                lines += [f"    /// {line}" for line in said]
                lines += filled(signature_of(member).removeprefix("pub ") + ";", "    ", "        ")
                lines += [f"    {it}" for it in self.conditions(member)] if item.kind == "impl" else []
        return lines

    def declared(self, library, item):
        """The declaration of an item: of a type with its calls, of a trait with its methods."""
        if item.name in FOR_LIBRARY:
            return [item.head.removeprefix("pub ") + " { /* for the library */ }"]
        if item.kind == "trait":
            types = [line for member in item.inner if member.kind == "type"
                     for line in [*(f"    /// {it}" for it in member.docs),
                                  *filled(member.head, "    ")]]
            rest = "ghost members and laws" if item.name != "Kind" else \
                "for the library: a faster list; ghost members and laws"
            return [item.head.removeprefix("pub ") + " {", *types, *self.methods(item),
                    f"    /* {rest} */", "}"]
        head = declaration_of(library.crate, item)
        head[0] = re.sub(r"^#\[derive\(.*?\)\] |pub ", "", head[0])
        head = [plain(line) if line.strip().startswith("///") else line for line in head]
        impls, blocks = library.impls.get(id(item), []), {}
        own = [it for it in impls if not it.trait and item.name not in METHODS]
        for impl in sorted(own, key=lambda it: " fn new(" not in it.text):
            blocks.setdefault(impl.head, []).extend(self.methods(impl))
        for impl_head, calls in blocks.items():
            head += ["", impl_head + " {", *calls, "}"] if calls else []
        for impl in impls:
            if impl.trait == "From" and re.search(r"From<(\w+)", impl.head)[1] in self.items:
                head += ["", impl.head]
            elif impl.trait == "Display" and item.kind == "enum":
                head = printed(head, item.name, impl.text)
            elif impl.trait == "Display":
                text, field = re.search(r'write!\(f, "(.*?)", self\.(\w+)\)', impl.text).groups()
                head[-1] += f" // \"{text.replace('{}', f'{{{field}}}')}\""
        return head

    def example(self, name):
        """The examples of an item and of its calls, below what they import from modules."""
        if name in IMPLS:
            path, head, words = IMPLS[name]
            found = [it for it in sources.Source(path).items if it.kind == "impl" and it.head == head]
            self.lost += [] if found else [f"IMPLS of .ci/door_texts.py: {path} has no `{head}`"]
            text = "\n".join(it.text for it in found)
            if name == "Kind":
                text = re.sub(r"^    ghost [^;]*;\n+", "", text, flags=re.M).replace("\n\n}", "\n}")
            return [f"// {words}", *text.split("\n")]
        of_type = name.partition("::")[0] in METHODS
        code = "\n\n".join(code for names_of, code in self.tests
                            if name in ([it for it in names_of if "::" in it][:1] if of_type else
                                        (it.split("::")[0] for it in names_of)))
        used = set(re.findall(r"(?<!::)\b\w+", code))
        used -= set(re.findall(r"\bconst (\w+)", code))
        uses = [f"use {module}::{there[0] if len(there) == 1 else braced(there)};"
                for module, have in shown.imports().items() for there in [sorted(have & used)] if there]
        return [*uses, *[""] * bool(uses), *shown.lines_of(code)] if code else []

    def code(self, library, item):
        """The declaration or the signature of an item."""
        if item and item.kind in ("struct", "enum", "trait"):
            head = self.declared(library, item)
        elif item and item.kind == "fn":
            head = head_of(item) + self.conditions(item)
        elif item and item.kind in ("const", "static"):
            head = dedent(item.text.removeprefix("pub ")).split("\n")
        else:
            head = []
        return head

    def text(self, name, item):
        """What the doc comment of an item says, by paragraphs, without its example and without what
        the head of the page tells. Of a call it is the first paragraph, and a table; the page of its
        library has all."""
        page = self.page_of(name)
        crate, anchor = page.split(".md#")
        docs = self.docs[crate].get(anchor, [])
        if item is None:
            path = self.items[name][1]
            docs = [first_sentence(self.libraries[crate].crate.modules[(path,)].source.docs)]
        text = re.sub(r"^```\w*\n.*?^```$", "", "\n".join(docs), flags=re.S | re.M)
        parts = [part if part.startswith("|") else untold(part)
                 for part in re.split(r"\n\s*\n", text.strip())]
        is_short = item and (item.kind == "fn" or name in METHODS)
        parts = [it for n, it in enumerate(filter(None, parts))
                 if n == 0 or not is_short or it.startswith("|")]
        text = "\n\n".join(parts)
        return re.sub(r"\]\(#", f"]({crate}.md#", text)

    def lines_of(self, name):
        """An entry: what it is, its code, and the types of a call. Its heading leads to the page of its
        library."""
        crate, path = self.items[name]
        library, item = self.libraries[crate], self.item(crate, name)
        first, *parts = self.text(name, item).split("\n\n")
        if not item:
            first += TABLES.get(name, "")
        elif item.kind != "fn":
            first += self.derives(library, item)
        blocks = [line for code in (self.code(library, item), self.example(name)) if code
                  for line in ("", "```rust", *code, "```")]
        table = [] if item else self.constants(library.crate.modules[(path,)].source)
        named = ["", self.types(item)] if item and item.kind == "fn" and self.types(item) else []
        more = [self.to_here(it) for it in (*parts, *noted(name))]
        details = [line for it in more for line in ("", *it.split("\n"))]
        has_contract = item and (item.kind in ("fn", "trait") or any(
            it.kind == "fn" and it.is_public() for impl in library.impls.get(id(item), [])
            if not impl.trait for it in impl.inner))
        last = " ".join([*named[1:], *[f"[Details and contract]({self.page_of(name)})."] * bool(has_contract)])
        return [f"### `{name}`", "", self.to_here(first), *table, *blocks, *details, "", *[last, ""] * bool(last),
                *self.lines_of_methods(name, library, item)]

    def lines_of_methods(self, name, library, item):
        """A table of the methods of a type of METHODS, and an entry of each."""
        have = {f"{name}::{it.name}": it for impl in library.impls.get(id(item), []) if not impl.trait
                for it in impl.inner if it.kind == "fn" and it.is_public()}
        told = dict(methods_of(name))
        self.lost += [f"METHODS of .ci/door_texts.py: {it}" for it in have.keys() ^ told.keys()
                      if name in METHODS]
        links = [(f"[`{it.partition('::')[2]}`](#{self.slugs[f'`{it}`']})", said)
                 for it, said in told.items()]
        lines = [*rows_of(("Method", "What it does"), links)[1:], ""] if links else []
        for method in filter(have.get, told):
            page = self.page_of(name, method)
            crate, anchor = page.split(".md#")
            text = re.sub(r"\]\(#", f"]({crate}.md#", untold(paragraph(self.docs[crate].get(anchor, []))))
            code = head_of(have[method])
            blocks = [line for it in (code + self.conditions(have[method]), self.example(method)) if it
                      for line in ("", "```rust", *it, "```")]
            details = [line for it in noted(method) for line in ("", *self.to_here(it).split("\n"))]
            last = " ".join([*filter(None, [self.types(have[method], name)]), f"[Details and contract]({page})."])
            lines += [f"#### `{method}`", "", self.to_here(text), *blocks, *details, "", last, ""]
        return lines

    @staticmethod
    def derives(library, item):
        """What a type derives, where that isn't what the head says, and which error isn't printed;
        `Clone` isn't named beside `Copy`."""
        found = [it for attr in item.attrs if attr.startswith("#[derive")
                 for it in re.findall(r"\w+", attr.partition("(")[2])]
        found = [f"`{it}`" for it in found if not (it == "Clone" and "Copy" in found)]
        said = "" if found == DERIVED or item.kind not in ("struct", "enum") else \
            f" It derives only {found[0]}." if found == ["`Drop`"] else \
            f" Derives {', '.join(found)}." if found else " It derives no trait."
        is_printed = any(impl.trait == "Display" for impl in library.impls.get(id(item), []))
        return said + (" It has no `Display` and no `Error`." if is_error(item.name) and not is_printed
                       else "")

    def types(self, item, own=""):
        """Links to the types of a signature, without that of a method: beside its error there may be
        none."""
        named = [it for it in dict.fromkeys(re.findall(r"(?<!::)\b[A-Z]\w+", item.head))
                 if it not in (*UNNAMED, own)]
        links = [f"[`{it}`](#{self.slugs[f'`{it}`']})" if f"`{it}`" in self.slugs else
                 f"[`{it}`]({self.page_of(it)})" for it in named if it in self.items]
        told = [("See", links[:-1]), ("Error:", links[-1:])] if named and is_error(named[-1]) else \
            [("See", links)]
        return " ".join(f"{head} {', '.join(those)}." for head, those in told if those)

    @staticmethod
    def constants(source):
        """A table of the constants of a module: each with what it is; many by what they are for."""
        said = paragraph if source.path.endswith("/languages.rt") else first_sentence
        consts = {it.name: plain(said(it.docs)).rstrip(".") for it in source.items
                  if it.kind == "const" and it.is_public()}
        heads, rows = ("Name", "What it is"), [(f"`{name}`", told) for name, told in consts.items()]
        if source.path == forms.FORMS:
            parts = zip(("source code", "data", "functions of a library"), forms.forms().values())
            first = [(f"`{name}`", consts[name]) for name in FIRST_FORMS]
            others = [(use, listed(it for it in found if it not in FIRST_FORMS)) for use, found in parts]
            return [*rows_of(("Name", "What it reads"), first), "",
                    "`LITERAL` and `FLOAT` are starting points for your own. The others:",
                    *rows_of(("For", "Names"), others)]
        elif any(it.endswith("_HEX_LITERAL") for it in consts):
            heads, rows = ("Names", "What they read"), list(by_prefix(consts))
        return rows_of(heads, rows)

    def to_here(self, text):
        """A text whose links to items of this page lead to their entries, and whose words of contracts
        and pages are links."""
        text = re.sub(r"\]\((\w+\.md#[^)]*)\)", lambda m: f"](#{self.here[m[1]]})"
                      if m[1] in self.here else m[0], text)
        text = re.sub(r"(?<!\[)`(\w+)`(?!\])", lambda m: self.word(m[1]) or m[0], text)
        return re.sub(r"\bdocs/(\w+\.md)", r"[\1](../\1)", text)

    def word(self, name):
        """A link to the definition of a word of contracts, unless it is an item too."""
        module, there = self.words.get(name, ("", ""))
        crate = module.split(".")[1] if module and name not in self.items else ""
        definition = crate in self.libraries and self.libraries[crate].words.get((module, there))
        return f"[`{name}`]({crate}.md#{anchor_of(definition)})" if definition else ""

    def first(self):
        """The calls of the first block, as an example has them."""
        lines = [line for _, code in self.tests for line in shown.lines_of(code)]
        for call, before in FIRST.items():
            found = [line for line in lines if line.startswith(f"{call} // ")]
            self.lost += [] if found else [f"FIRST of .ci/door_texts.py: no example has {call}"]
            yield from [before] * bool(before)
            yield found[0] if found else call

    def rows(self, names_of):
        """The rows of a table of items that have no entry, each with half a line."""
        for name in names_of:
            text = plain(self.text(name, self.item(self.items[name][0], name))).partition("\n")[0]
            half = HALVES.get(name) or half_of(first_sentence([text]))
            anchor = f"<a id=\"{name.lower()}\"></a>" * (name in ANCHORED)
            yield f"| {anchor}[`{name}`]({self.page_of(name)}) | {half} |"

    def section(self, group):
        """The head of a section: the table of its calls, which has each, and its text, whose code is of
        a test."""
        table, text, names_of = GROUPS[group]
        told = [line.strip().partition(" | ") for line in table.strip().split("\n") if line.strip()]
        rows = [(", ".join(f"[`{it}`](#{self.slugs[f'`{it}`']})" for it in calls.split()), said)
                for calls, _, said in told]
        there = {it for calls, *_ in told for it in calls.split()}
        for name in names_of.split() if told else ():
            item = self.item(self.items[name][0], name)
            if item and item.kind == "fn" and name not in there:
                self.lost.append(f"GROUPS of .ci/door_texts.py: no row of {group} has {name}")
        table = [*rows_of(("Call", "What it does"), rows)[1:], ""] if rows else []
        told = [*self.linked(names_of.split(), flowed(text)), ""] if text else []
        return [f"## {group}", "", *table, *told]

    def linked(self, names_of, text):
        """The lines of a section's text, in which a name of TABLED is a link where it is first. A number
        that it is has to be there, and a test has the code."""
        for name in (it for it in names_of if it in TABLED):
            link = f"<a id=\"{self.slugs[f'`{name}`']}\"></a>[`{name}`]({self.page_of(name)})"
            value = re.search(r" = (\d+);", self.item(self.items[name][0], name).text)
            told = f"`{name}`, {value[1]} |" if value else f"`{name}`"
            self.lost += [] if told in text else [f"GROUPS of .ci/door_texts.py: no text has {told}"]
            text = text.replace(f"`{name}`", link, 1)
        shown_here = ["\n".join(shown.lines_of(code)) for _, code in self.tests]
        self.lost += [f"GROUPS of .ci/door_texts.py: no test has {code}"
                      for code in re.findall(r"^```rust\n(.*?)\n```$", text, re.S | re.M)
                      if not any(code in it for it in shown_here)]
        return text.split("\n")

    def words_page(self):
        """The words of contracts that DOOR passes on, each as it is used and with what it says."""
        lines = {}
        for name, (module, there) in self.words.items():
            crate = module.split(".")[1]
            definition = crate in self.libraries and self.libraries[crate].words.get((module, there))
            if definition:
                use = name + use_of(definition).removeprefix(there)
                said = SAID.get(name, definition.comment)
                self.lost += [] if said else [f"SAID of .ci/clauses.py has no {name}"]
                lines.setdefault(crate, []).append(
                    f"- [`{use}`]({crate}.md#{anchor_of(definition)}): {said}")
        parts = (["", f"## `{crate}`", "", *lines[crate]] for crate in lines)
        return text_of([*WORDS_HEAD.rstrip().split("\n"), *itertools.chain(*parts)])

    def index(self):
        """A table of each name of the page by its letters, with a link to its entry or to the page of its
        library, and half a line."""
        rows = []
        for name in sorted(names(), key=str.lower):
            item = self.item(self.items[name][0], name)
            there = f"#{self.slugs[f'`{name}`']}" if f"`{name}`" in self.slugs else self.page_of(name)
            text = plain(self.text(name, item)).partition("\n")[0]
            half = HALVES.get(name) or half_of(first_sentence([text]))
            rows.append((f"[`{name}`]({there})", half.replace("…", LAW)))
        return ["", f"## {INDEX}", *rows_of(("Name", "What it is"), rows)]

    def write(self):
        have = names()
        self.lost += [f"GROUPS of .ci/door_texts.py has no {it}" for it in self.items if it not in have]
        self.lost += [f"GROUPS of .ci/door_texts.py: {DOOR} has no {it}" for it in have if it not in self.items]
        self.lost += [f"NOTES of .ci/door_texts.py: the page has no entry {it}" for it in NOTES
                      if it not in have and f"`{it}`" not in self.slugs]
        self.lost += [f"HEAD of .ci/door_texts.py doesn't lead to {it}" for it in GROUPS
                      if f"](#{self.slugs[it]})" not in HEAD]
        lines = [HEAD.replace("\nLINES\n", "\n".join(["", *self.first(), ""])), *RULES.split("\n")]
        for group, (*_, names_of) in GROUPS.items():
            entries = [it for it in names_of.split() if it in self.items and it not in TABLED]
            lines += [*self.section(group), *itertools.chain(*map(self.lines_of, entries))]
        laws = [it for it in MORE if HALVES.get(it, "").startswith(("…", LAW))]
        lines += [f"## {ELSEWHERE}", "", MORE_HEAD, "", "| Name | What it is |", "|---|---|",
                  *self.rows(it for it in MORE if it not in laws), ""]
        lines += self.index()
        return text_of("\n".join(lines).split("\n"))


def is_error(name):
    return name.endswith("Error") or name == "NoRoom"


def flowed(text):
    """A text of this file: each paragraph and each point in one line, tables and code as they are."""
    parts = textwrap.dedent(text).strip().split("\n\n")
    return "\n\n".join(it if it.startswith(("|", "```")) else re.sub(r"\n(?!- )", " ", it) for it in parts)


def noted(name):
    """The paragraphs that an entry has beside its doc comment."""
    return [flowed(NOTES[name])] if name in NOTES else []


def methods_of(name):
    """The methods of a type of METHODS, each with its line of the table."""
    for line in METHODS.get(name, "").strip().split("\n") if name in METHODS else ():
        method, _, said = line.strip().partition(" | ")
        yield f"{name}::{method}", said


def paragraph(docs):
    """The first paragraph of a doc comment."""
    return " ".join(itertools.takewhile(lambda it: it.strip() and not it.startswith("```"), docs))


def untold(text):
    """The sentences of a paragraph that the head of the page doesn't tell."""
    sentences = re.split(r"(?<=\.)\s+(?=[A-Z`\[])", " ".join(text.split()))
    return " ".join(it for it in sentences if not it.startswith(TOLD))


def listed(names_of):
    return ", ".join(f"`{it}`" for it in names_of)


def rows_of(heads, rows):
    """A table of two columns."""
    return ["", f"| {' | '.join(heads)} |", "|---|---|", *(f"| {' | '.join(it)} |" for it in rows)]


def by_prefix(words):
    """The words of languages, by the prefixes after which a language has others: what their names are,
    and the languages."""
    kinds, found = ("", "_HEX", "_OCTAL", "_BINARY"), {}
    for name in words:
        m = re.fullmatch(r"([A-Z0-9]+?)(?:_(?:HEX|OCTAL|BINARY))?(_LITERAL)?", name)
        if m and (m[2] or m[1] == "TOML"):
            found.setdefault((m[1], m[2] or ""), []).append(name)
    groups = {}
    for (language, end), names_of in found.items():
        has = tuple(kind for kind in kinds if f"{language}{kind}{end}" in names_of)
        groups.setdefault((has, end), []).append(language)
    bare = [it for it in words if not any(it in group for group in found.values())]
    yield from ((f"`{it}`", words[it]) for it in bare)
    for (has, end), languages in groups.items():
        one = languages[0] if len(languages) == 1 else "X"
        radixes = ", ".join({"": "10", "_HEX": "16", "_OCTAL": "8", "_BINARY": "2"}[kind] for kind in has)
        whose = f"of X, which is one of {listed(languages)}" if one == "X" else f"of {one.capitalize()}" \
            if end else f"of {one}"
        yield (", ".join(f"`{one}{kind}{end}`" for kind in has),
               f"digits of radix {radixes} {whose}, with its separators")


def half_of(sentence):
    """A sentence up to its first colon, and of that as many clauses as a row of a table has room for."""
    head = re.match(r"(?:`[^`]*`|\([^)]*\)|[^`(:;])*", sentence)[0].rstrip(".")
    cuts = [m.start() for m in re.finditer(r"`[^`]*`|\([^)]*\)|(,) ", head) if m[1]]
    ends = [len(head), *reversed(cuts)]
    return head[:next((it for it in ends if it <= ROOM), ends[-1])]


def plain(sentence):
    """A sentence of a doc comment without links."""
    return re.sub(r"\[(`[^`]*`)\](\([^)]*\))?", r"\1", sentence)


def braced(names_of):
    return "{" + ", ".join(names_of) + "}"
