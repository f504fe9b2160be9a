"""How a page of the reference lays out what it has of the sources."""
import re

from sources import dedent


def first_sentence(docs):
    text = []
    for line in docs:
        if not line.strip() or line.startswith("```"):
            break
        text.append(line.strip())
    text = " ".join(text)
    m = re.match(r"((?:`[^`]*`|[^`])*?[.])(?=\s+[A-Z`\[]|$)", text)
    return m[1] if m else text


def text_of(lines):
    """A page without the blank lines below a heading, above that of a method and around code."""
    text = "\n".join(lines).rstrip() + "\n"
    return re.sub(r"(?m)(^#+ .*\n)\n|\n(?=\n(?:```\w|####))|(^```\n)\n(?=[^#\n])", r"\1\2", text)


def filled(text, indent, deeper="    "):
    """The lines of a signature or a clause, each joined to the one before if 100 columns hold both;
    of an equation in two lines the first one only with the second."""
    lines, rows = [], [line.strip() for line in text.split("\n")]
    for line, after in zip(rows, rows[1:] + [""]):
        whole = f"{line} {after}" if after.startswith("≡") or line.endswith("≡") else line
        if lines and len(lines[-1] + whole) < 100 and "//" not in lines[-1] + line:
            lines[-1] += " " + line
        else:
            lines.append(indent + (deeper if lines else "") + line)
    return lines


def block(head, lines):
    """A declaration with its members: in one line with it, or in one of their own, if they fit."""
    members = " ".join(map(str.strip, lines))
    if all(re.match(r"    (ghost|type|/\*)", line) for line in lines) and len(members) <= 96:
        lines = ["    " + members]
        if len(head + members) <= 95 or not members:
            return [f"{head} {{ {members} }}" if members else head]
    return [head + " {", *lines, "}"]


def declaration_of(crate, item):
    """The declaration of a struct or an enum without its private and ghost fields."""
    derived = "".join(attr + " " for attr in item.attrs if attr.startswith("#[derive"))
    if item.kind == "enum" or not hasattr(item, "body"):
        return (derived + dedent(item.text)).split("\n")
    body = crate.source_of(item).text[item.body[0]:item.body[1]]
    shown = re.findall(r"(?m)^(?: *///.*\n)* *pub .*$", body)
    lines = ["    " + line.strip() for field in shown for line in field.split("\n")]
    bare = re.sub(r"(?ms)^ *ghost .*?,$", "", body)
    lines += ["    /* private fields */"] * bool(re.search(r"(?m)^ *(?!pub |//)\S", bare))
    return block(derived + item.head, lines)


def signature_of(item):
    """The head of a function, with its first and last parameter beside the parentheses."""
    return item.head.replace("(\n    ", "(").replace(",\n) ", ")\n").replace(",\n)", ")")


def import_lines(modules):
    return [f"ghost use {module}.{{{', '.join(sorted(names))}}};"
            for module, names in sorted(modules.items())]


def anchor_of(definition):
    return f"{definition.module.split('.')[-1]}.{definition.name}"


def use_of(definition):
    """How a word is used: its name with its parameters, or with its type where it has cases."""
    scope = " ".join(re.findall(r"\(([\w ]+?)\s+:", definition.scope))
    first, *lines = definition.text.split("\n")
    start = " ".join([definition.name] + scope.split())
    if re.match(r"pub record", first):
        head = re.split(r"\s+where\b", definition.text.partition(definition.name)[2])[0]
        return " ".join([start] + re.findall(r"\(([\w ]+?)\s+:", head))
    sides = [line for line in lines if line.startswith(definition.name + " ") and "=" in line]
    if len(sides) == 1:
        return " ".join([start] + sides[0].partition("=")[0].split()[1:])
    type_of = re.sub(r"\s+where$", "", first.partition(definition.name)[2].strip())
    return f"{start} {type_of}".strip()
