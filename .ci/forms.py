"""The forms by name, read from the sources: each with all its fields, its languages and words.

A form is {field: value}, and so is a language and what has names. A word is an integer, `Some(x)`
is x, and a variant of an enum its name."""
import re
import sys

sys.dont_write_bytecode = True
from sources import read  # noqa: E402

FILES = ("crates/lexical_format/src/lib.rt", "crates/lexical_format/src/words.rt",
         "crates/digit_languages/src/languages.rt", "crates/digit_numbers/src/form.rt",
         "crates/digit_numbers/src/names.rt", "crates/digit_numbers/src/forms.rt")
FORMS = FILES[-1]
FOLDERS = {"words": FILES[1], "languages": FILES[2], "Special": FILES[3]}
# the parts of forms.rs, by the comment that heads each
PART = re.compile(r"^// ---- (.*)$", re.M)


def parts_of(text):
    """What commas part in a text of Rust, outside of brackets and literals."""
    parts, depth = [""], 0
    for token in re.findall(r'"(?:\\.|[^"\\])*"|\'(?:\\.|[^\'\\])\'|.', text, re.S):
        depth += (token in "([{") - (token in ")]}")
        if token == "," and depth == 0:
            parts.append("")
        else:
            parts[-1] += token
    return [part.strip() for part in parts if part.strip()]


class Constants:
    """The constants of these files. A name without a path is one of its own file, or of one before
    it."""

    def __init__(self):
        self.code = {}
        for path in FILES:
            found = re.findall(r"\bconst (\w+): [^=;]*=\s*([^;]*(?:;\s*\d+\][^;]*)*);",
                               re.sub(r"//[^\n]*", "", read(path)))
            self.code.update({(path, name): code for name, code in found})

    def named(self, path, name):
        folder, _, name = name.rpartition("::")
        first = FOLDERS.get(folder, path)
        for file in (first, *reversed(FILES[:FILES.index(path)])):
            if (file, name) in self.code:
                return self.value(file, self.code[file, name])
        return name

    def value(self, path, code):
        code = code.strip()
        if found := re.fullmatch(r"(?:\w+::)*(\w+) \{(.*)\}", code, re.S):
            return self.record(path, parts_of(found[2]))
        if found := re.fullmatch(r"Some\((.*)\)", code, re.S):
            return self.value(path, found[1])
        if found := re.fullmatch(r"\w+::(\w+)\((.*)\)", code, re.S):
            return found[1], self.value(path, found[2])
        if (found := re.fullmatch(r"\[(.*)\]", code, re.S)) and ";" not in code:
            return [self.value(path, part) for part in parts_of(found[1])]
        if found := re.fullmatch(r'\*?b["\'](.*)["\']', code, re.S):
            return found[1].split("\\0")[0]
        if "|" in code or "<<" in code:
            return self.word(path, code)
        if re.fullmatch(r"[\d_]+|0x\w+", code):
            return int(code, 0)
        known = {"[0; 8]": "", "None": None, "true": True, "false": False, "Marks::PLAIN": {"point": ".",
                 "exponent": "e"}}
        return known[code] if code in known else self.named(path, code)

    def word(self, path, code):
        total = 0
        for term in code.split("|"):
            name, _, bits = term.strip(" \n()").partition(" << ")
            total |= self.value(path, name) << int(bits or "0")
        return total

    def record(self, path, parts):
        fields = {}
        for part in parts:
            if part.startswith(".."):
                fields = {**self.value(path, part[2:]), **fields}
            else:
                name, _, code = part.partition(":")
                fields[name.strip()] = self.value(path, code)
        return fields


def forms():
    """{part: {name: (comment, form)}} of the forms of forms.rt."""
    known, found = Constants(), {}
    heads, *rest = PART.split(read(FORMS))
    for part, text in zip(rest[::2], rest[1::2]):
        for comment, name in re.findall(r"((?:^///[^\n]*\n)+)pub const (\w+): Form ", text, re.M):
            comment = re.sub(r"\s*\n?///\s?", " ", comment).strip()
            found.setdefault(part, {})[name] = comment, known.named(FORMS, name)
    return found


def separator(word):
    """The separator of a word, or nothing."""
    byte = (word >> 64) & 0xff
    return chr(byte) if byte else ""


def names_of(form):
    """The names of its special values."""
    return [it["name"] for it in form["specials"]["names"] if it["name"]] if form["specials"] else []
