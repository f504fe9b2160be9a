"""The readings of C and C++: a definition by each literal, one a line, by gcc or g++ in the
language's mode, and the values by a program of C++17."""
import os
import re
import subprocess
import sys
import tempfile

MODES = {"C89": ["gcc", "-std=c89"], "C99": ["gcc", "-std=c99"], "CXX14": ["g++", "-std=c++14"],
         "CXX17": ["g++", "-std=c++17"]}
CHECK = [*MODES[os.environ["FORM"]], "-pedantic-errors", "-fmax-errors=0",
         "-fno-diagnostics-show-caret", "-fsyntax-only"]
SOURCE, TYPE = ("a.c", "double") if CHECK[0] == "gcc" else ("a.cc", "auto")
# [lex.ppnumber]
ONE = re.compile(r"\.?[0-9](?:[eEpP][+-]|'?[0-9A-Za-z_]|\.)*")
SHOW = r"""
#include <cstdio>
#include <cstring>
void p(float) { puts("-"); }
void p(double x) { unsigned long bits; memcpy(&bits, &x, 8); printf("f%lx\n", bits); }
template <typename T> void p(T x) { printf("i%lu\n", (unsigned long)x); }
"""


def errors(folder, texts):
    """The texts that g++ refuses, and those whose integer is too large for it."""
    refused, large = set(), set()
    for start in range(0, len(texts), 5000):
        part = texts[start:start + 5000]
        with open(f"{folder}/{SOURCE}", "w") as file:
            file.writelines(f"{TYPE} x{i} = {text};\n" for i, text in enumerate(part))
        run = subprocess.run([*CHECK, SOURCE], cwd=folder, stderr=subprocess.PIPE, text=True)
        said = re.findall(r"^a\.cc?:(\d+):\d+: (error|warning): (.*)", run.stderr, re.M)
        for line, kind, what in said:
            if kind == "error":
                refused.add(part[int(line) - 1])
            elif "too large for its type" in what:
                large.add(part[int(line) - 1])
    return refused, large


def values(folder, texts):
    parts = [texts[i:i + 500] for i in range(0, len(texts), 500)]
    with open(f"{folder}/b.cc", "w") as file:
        file.write(SHOW)
        for i, part in enumerate(parts):
            file.write(f"void f{i}() {{\n" + "".join(f"p({text});\n" for text in part) + "}\n")
        file.write("int main() {\n" + "".join(f"f{i}();\n" for i in range(len(parts))) + "}\n")
    subprocess.run(["g++", "-std=c++17", "-w", "b.cc", "-o", "b"], cwd=folder, check=True)
    run = subprocess.run(["./b"], cwd=folder, check=True, stdout=subprocess.PIPE, text=True)
    return run.stdout.split()


texts = sys.stdin.read().split("\n")[:-1]
# a suffix isn't of the form
suffix = re.compile("[uUlL]$|^(?!0[xX]).*[dD]$")
tried = [it for it in texts if ONE.fullmatch(it) and not suffix.search(it)]
said = {}
with tempfile.TemporaryDirectory() as folder:
    refused, large = errors(folder, tried)
    said.update(dict.fromkeys(large - refused, "i?"))
    none = refused | large
    told = [it for it in tried if it not in none]
    said.update(zip(told, values(folder, told)))
for text in texts:
    print(said.get(text, "-"))
