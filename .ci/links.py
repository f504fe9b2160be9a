"""The links of the pages: each link and its anchor, each heading that is cited after a link, and
each backquoted path, proof module or name has to exist, and in the file that a page says: `x` of
`file.rt`. So have the paths of commands. Another page links to each page that isn't
a crate's. No page names a host of a package registry."""
import os
import re

from code_of_pages import blocks_of
from sources import TOP, files_below, read, slug_of

# `](target)`, also with a title, and `, "heading"` after it; `[name]: target`; `<a href="target">`
LINKS = re.compile(r'\]\(([^)\s]+)(?: "[^"]*")?\)(?:, "([^"]+)")?|^\[[^\]]+\]:\s+(\S+)|'
                   r'<\w+[^>]*\b(?:href|src)="([^"]+)"')
# a path such as `laws::rows`, or a name with a `_` inside; no part of a name as `parse_`, `_from`
NAMES = r"(?!X_)[A-Za-z](?:\w*_\w*[A-Za-z\d]|\w*(?:::\w+)+)(?:\(\))?"
# names of a file, as in: `x`, `y` and `z` of `file.rt`
QUOTED = r"`[\w:]+(?:\(\))?`"
OF_FILE = re.compile(rf"((?:{QUOTED}(?:, | and | or ))*{QUOTED}) of `([\w/]+\.(?:rt|antt))`")
# what pages say of other libraries
OTHERS = {"parse_partial", "parse_with_options", "from_str_radix", "fast_float", "is_infinite"}
FOREIGN = {"docs/DIFFERENCES.md": NAMES, "docs/RULES.md": r"[A-Z]\w*_(LITERAL|STRING)"}
COMMANDED = (".ci", "bench", "c", "crates", "docs")
HOSTS = r"\b(crates\.io|docs\.rs|lib\.rs/crates|pypi\.org|npmjs\.com|proxy\.golang\.org)\b"


def slugs_of(text):
    """The anchors that a page has: of its headings, and those that it writes."""
    found, counts = set(re.findall(r'<a id="([^"]+)">', text)), {}
    for heading in re.findall(r"^#+ (.*)$", text, re.M):
        slug = slug_of(heading)
        count = counts[slug] = counts.get(slug, -1) + 1
        found.add(f"{slug}-{count}" if count else slug)
    return found


class Tree:
    """The files and folders of the repository, without what a build makes."""

    def __init__(self):
        self.files, self.folders, self.texts, self.slugs = set(), set(), {}, {}
        for folder, inner, names in os.walk(TOP):
            inner[:] = [name for name in inner if name not in (".git", "out", "target")]
            folder = os.path.normpath(os.path.relpath(folder, TOP))
            self.folders.add(folder)
            self.files.update(os.path.normpath(os.path.join(folder, name)) for name in names)
        self.pages = sorted(path for path in self.files if path.endswith(".md"))
        self.endings = {os.path.splitext(path)[1] for path in self.files} - {""}
        self.bases = ["."] + [path for path in self.folders
                              if re.fullmatch(r"crates/\w+(/src)?", path)]

    def text(self, path):
        if path not in self.texts:
            self.texts[path] = read(path)
        return self.texts[path]

    def anchors(self, path):
        if path not in self.slugs:
            self.slugs[path] = slugs_of(self.text(path))
        return self.slugs[path]

    def has(self, path, bases):
        found = (os.path.normpath(os.path.join(base, path)) for base in bases)
        return any(path in self.files or path in self.folders for path in found)

    def is_path(self, text):
        """A `/`, and an ending that files here have or the name of a folder at the top. No pattern,
        no placeholder such as NAME or my_parser, and nothing that a build makes."""
        if not re.fullmatch(r"[\w./-]+", text) or "/" not in text.strip("/"):
            return False
        parts = text.strip("/").split("/")
        if any(re.fullmatch(r"[A-Z]+|my_\w+|\.\.|out|target", part) for part in parts):
            return False
        is_known = os.path.splitext(text)[1] in self.endings or parts[0] in self.folders
        return is_known or text.endswith("/")

    def lost_in_files(self, line):
        """The names that a line says are of a file, and that no such file has."""
        for names, path in OF_FILE.findall(line):
            files = [it for it in self.files if f"/{it}".endswith(f"/{path}") and "/out/" not in it]
            words = set(re.findall(r"\w+", "".join(map(self.text, files))))
            yield from (f"{path} has no {name}" for name in re.findall(r"(\w+)(?:\(\))?`", names)
                        if name not in words)

    def lost_in_commands(self, line):
        """The paths of the repository that a line of commands has, and that are nowhere."""
        for path in re.findall(r"(?<![\w./$\"-])[\w.][\w./-]*", line.partition("  #")[0]):
            if path.split("/")[0] in COMMANDED and self.is_path(path) and not self.has(path, ["."]):
                yield path

    def link_fault(self, page, target, heading):
        path, _, anchor = target.partition("#")
        here = os.path.dirname(page)
        path = os.path.normpath(os.path.join(here, path)) if path else page
        if not self.has(path, ["."]):
            return f"no file {target}"
        if anchor and path.endswith(".md") and anchor not in self.anchors(path):
            return f"no anchor #{anchor} in {path}"
        line = re.fullmatch(r"L(\d+)", anchor)
        if line and int(line[1]) > self.text(path).count("\n"):
            return f"no line {line[1]} in {path}"
        headings = re.findall(r"^#+ (.*)$", self.text(path), re.M) if heading else []
        if heading and heading not in headings:
            return f'no heading "{heading}" in {path}'
        return None


def words_of_sources():
    """Each word of the sources, also of the benchmark and of .ci."""
    paths = [path for ending in (".rt", ".antt", ".rs", ".py", ".h", ".hpp", ".txt", ".edit")
             for path in files_below(".", ending)]
    paths += [f".ci/{name}" for name in os.listdir(f"{TOP}/.ci")
              if "." not in name and name != "selftest"]
    return set(re.findall(r"\w+", "\n".join(map(read, paths)))) | OTHERS


def check():
    tree, faults, links, linked = Tree(), [], 0, {"README.md"}
    known = words_of_sources()
    for page in tree.pages:
        text = re.sub(r"```.*?```", lambda m: "\n" * m[0].count("\n"), tree.text(page), flags=re.S)
        is_reference = page.startswith("docs/reference/")
        for number, line in enumerate(tree.text(page).split("\n"), 1):
            if line.endswith("\r"):
                faults.append(f"{page}:{number}: ends in a carriage return")
            if re.search(HOSTS, line):
                faults.append(f"{page}:{number}: names a host of a package registry")
        for number, line in enumerate(text.split("\n"), 1):
            for inline, heading, defined, html in LINKS.findall(line):
                target = inline or defined or html
                if "://" in target:
                    continue
                links += 1
                linked.add(os.path.normpath(os.path.join(os.path.dirname(page),
                                                         target.partition("#")[0])))
                fault = tree.link_fault(page, target, heading)
                if fault:
                    faults.append(f"{page}:{number}: {fault}")
            faults += [f"{page}:{number}: {fault}" for fault in tree.lost_in_files(line)]
            for quoted in re.findall(r"`([^`]+)`", line):
                is_foreign = page in FOREIGN and re.fullmatch(FOREIGN[page], quoted)
                if not is_reference and not is_foreign and re.fullmatch(NAMES, quoted):
                    lost = [word for word in re.findall(r"\w+", quoted) if word not in known]
                    faults += [f"{page}:{number}: no {word} in the sources" for word in lost]
                module = re.fullmatch(r"Rattle\.(\w+)\.((?:specs|proofs)\.[\w.]+)", quoted)
                if module and not is_reference:
                    path = "crates/" + module[1] + "/" + module[2].replace(".", "/") + ".antt"
                    if f"crates/{module[1]}" in tree.folders and path not in tree.files:
                        faults.append(f"{page}:{number}: no module {quoted}")
                elif tree.is_path(quoted) and not tree.has(
                        quoted, tree.bases + [os.path.dirname(page) or "."]):
                    faults.append(f"{page}:{number}: no path {quoted}")
    for page in tree.pages:
        for first, block in blocks_of(page, "sh"):
            for number, line in enumerate(block, first):
                faults += [f"{page}:{number}: no path {path}" for path in tree.lost_in_commands(line)]
    crates = [path for path in tree.pages if re.match(r"crates/", path)]
    faults += [f"{page}:1: no page links to it" for page in tree.pages
               if page not in linked and page not in crates]
    return f"{links} links of {len(tree.pages)} pages, and their paths", faults
