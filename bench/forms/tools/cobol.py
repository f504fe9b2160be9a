"""COBOL's own reading, by GnuCOBOL: `move TEXT to x`, one a line, and the bits of a double."""
import re
import subprocess
import sys
import tempfile

HEAD = """identification division.
program-id. a.
data division.
working-storage section.
1 x usage comp-2.
1 y redefines x usage comp-5 pic 9(18).
procedure division.
"""
FIRST = HEAD.count("\n") + 1
# `1.` is a number and the end of a sentence
ONE = re.compile(r"[-+]?\.?[0-9](?:[\w+-.]*\w)?")


def answers(folder, texts):
    """The answers of the texts that are literals."""
    while texts:
        with open(f"{folder}/a.cob", "w") as file:
            moves = "".join(f"move {it} to x display y\n" for it in texts)
            file.write(f"{HEAD}{moves}stop run.\n")
        run = subprocess.run(["cobc", "-x", "-free", "-fnotrunc", "-fmax-errors=999999", "-w",
                              "a.cob"], cwd=folder, stderr=subprocess.PIPE, text=True)
        lines = {int(line) for line in re.findall(r"^a\.cob:(\d+): error", run.stderr, re.M)}
        if not lines:
            said = subprocess.run(["./a"], cwd=folder, stdout=subprocess.PIPE, text=True).stdout
            return dict(zip(texts, (f"f{int(it):x}" for it in said.split())))
        texts = [it for n, it in enumerate(texts, FIRST) if n not in lines]
    return {}


asked = sys.stdin.read().split("\n")[:-1]
tried = [it for it in asked if ONE.fullmatch(it)]
found = {}
for start in range(0, len(tried), 1000):
    with tempfile.TemporaryDirectory() as folder:
        found.update(answers(folder, tried[start:start + 1000]))
for text in asked:
    print(found.get(text, "-"))
