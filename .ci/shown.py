"""The examples of the reference. A test of digit_examples names in its doc comment the calls that it
shows, and the reference has its code beside them. So what a page shows, the gate runs."""
import re

from forms import parts_of
from sources import DOOR, Crate, files_below, passed_on, read

EXAMPLES = "crates/digit_examples/src"
TEST = re.compile(r"((?:^/// [^\n]*\n)+)#\[test\]\nfn \w+\(rt: HostRuntime\) \{\n(.*?)^\}\n", re.S | re.M)
# a constant of a file of tests, with its sentence
CONST = re.compile(r"^/// ([^\n]*)\n(const (\w+): [^\n]*;)$", re.M)
ASSERT = re.compile(r"^( *)assert(_eq)?!\(rt;(?: ([^\n]*)|\n(.*?)\n\1)\);$", re.S | re.M)
# what `out` begins with, after a call that writes
WROTE = re.compile(r'\0\s*out\.starts_with\(b"(.*)"\) // true')
MOST = 100
# an answer in a doc comment: a variant with what it holds
ANSWER = re.compile(r"\b(?:Ok|Err|Some|Over|Full|Fault|More)\((?:[^()]|\((?:[^()]|\([^()]*\))*\))*\)")


def line_of(indent, shown, answer):
    """An expression, and its result as a comment: behind it, or in a line of its own."""
    line = f"{indent}{shown} // {answer}"
    return line if len(line) <= MOST else f"{indent}{shown}\n{indent}// returns {answer}"


def told(match):
    """An assertion as a page has it."""
    indent, is_equation = match[1], match[2]
    code = re.sub(r"\s*\n\s*", " ", (match[3] or match[4]).strip())
    if is_equation:
        return line_of(indent, *parts_of(code))
    return line_of(indent, code.lstrip("!"), "false" if code.startswith("!") else "true")


def code_of(body):
    """The code of a test as a page has it: a caller hands on what a test expects."""
    text = ASSERT.sub(lambda m: "\0" + told(m), re.sub(r"^    ", "", body, flags=re.M))
    return folded(re.sub(r'\.expect\(&rt, ".*?"\)', "?", text.rstrip("\n")))


def folded(code):
    """An example in which the text that a call wrote is behind its length, and not in a line of its own."""
    lines = []
    for line in code.split("\n"):
        wrote = WROTE.fullmatch(line)
        call = next((n for n in reversed(range(len(lines))) if lines[n].strip() != "}"), None)
        if wrote and call is not None and re.match(r"\0\s*write_\w+\(.*, &mut out\) // ", lines[call]):
            lines[call] += f": \"{wrote[1]}\""
        else:
            lines.append(line)
    return "\n".join(lines)


def tests():
    """(names, code) of each test: the calls, methods and types that it shows, and the constants of its file
    that it uses. A line of an assertion begins with a zero byte."""
    found = []
    for path in files_below(EXAMPLES, ".rt"):
        text = read(path)
        consts = CONST.findall(text)
        for docs, body in TEST.findall(text):
            code = code_of(body)
            used = [f"// {said}\n{line}" for said, line, name in consts if re.search(rf"\b{name}\b", code)]
            found.append((re.findall(r"`([\w:]+)`", docs), "\n".join([*used, code])))
    return found


def examples():
    """{name: code} of each call, method or type that a test shows. Of several tests the code is one
    after the other."""
    found = {}
    for names, code in tests():
        for name in names:
            found.setdefault(name, []).append(code)
    return {name: "\n\n".join(codes) for name, codes in found.items()}


def imports():
    """{module: names} of what the tests import from the modules of crates."""
    found = {}
    for path in files_below(EXAMPLES, ".rt"):
        for module, name, names in re.findall(r"^use (\w+(?:::\w+)+)::(?:(\w+)|\{([^}]*)\});",
                                              read(path), re.M):
            found.setdefault(module, set()).update(re.findall(r"\w+", name or names))
    return dict(sorted(found.items()))


def lines_of(code):
    """An example as lines of code."""
    return code.replace("\0", "").split("\n")


def untold(docs, code):
    """What the example in a doc comment has, and the tests that show the call have not."""
    text = " ".join(re.findall(r"^```text\n(.*?)^```", "\n".join([*docs, ""]), re.S | re.M))
    raw = code.replace("\\\\", "\\")
    bare = re.sub(r"\b[A-Z]\w*::", "", raw).replace("f64::INFINITY", "inf")
    lost = [it for it in re.findall(r"`([^`]+)`", text) if it not in raw]
    return lost + [it for it in ANSWER.findall(text) if " ".join(it.split()) not in bare]


def check():
    """Each call of DOOR has an example, each test shows something of DOOR, and the examples of doc
    comments are among the tests."""
    items, shown, faults = passed_on()[0], examples(), []
    crates = {crate: Crate(crate) for crate in sorted({crate for crate, _ in items.values()})}
    functions = 0
    for name, (crate, path) in items.items():
        item = next((it for module in crates[crate].modules.values() for it in module.source.items
                     if it.name == name and it.is_public() and it.kind not in ("mod", "use")), None)
        if item and item.kind == "fn" and not path.startswith("laws::"):
            functions += 1
            if name not in shown:
                faults.append(f"{item.file}:{item.line}: no test of {EXAMPLES} shows {name}")
        if item and name in shown:
            faults += [f"{item.file}:{item.line}: no test that shows {name} has `{it}`"
                       for it in untold(item.docs, shown[name])]
    faults += [f"{EXAMPLES}:1: {name} isn't of {DOOR}" for name in shown
               if name.split("::")[0] not in items]
    return f"{functions} calls of {DOOR} have an example that the gate runs", faults
