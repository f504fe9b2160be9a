"""Kotlin's own reading: `val x = LITERAL`, one a line, by kotlinc, and the values of constants."""
import os
import re
import subprocess
import sys
import tempfile

PART = 2000
LARGE = re.compile("[0-9_]{9,}|0[xX][0-9A-Fa-f_]{7,}|0[bB][01_]{7,}")


def java(folder, work, lines):
    command = ["java", "-cp", f".:{folder}:{sys.argv[1]}", "Kotlin", work]
    texts = "".join(it + "\n" for it in lines)
    return subprocess.run(command, input=texts, text=True, stdout=subprocess.PIPE,
                          check=True).stdout.split()


def kotlinc(folder, keyword, parts):
    """Compiles the parts, a file each. The errors: file, line and message."""
    for n, part in enumerate(parts):
        with open(f"{folder}/P{n}.kt", "w") as file:
            file.writelines(f"{keyword} x{n}_{i} = {text}\n" for i, text in enumerate(part))
    files = [f"P{n}.kt" for n in range(len(parts))]
    run = subprocess.run(["kotlinc", *files, "-d", "."], cwd=folder, stderr=subprocess.PIPE,
                         text=True, env={**os.environ, "JAVA_OPTS": "-Xmx2g"})
    errors = re.findall(r"^P(\d+)\.kt:(\d+):\d+: error: (.*)", run.stderr, re.M)
    assert errors or run.returncode == 0, run.stderr[-1000:]
    return errors


def answers(folder, texts):
    is_one = java(folder, "token", texts)
    # a suffix isn't of the form
    tried = [text for text, it in zip(texts, is_one)
             if it == "+" and not re.search(r"[LuU]$|^(?!0[xX]).*[fF]$", text)]
    parts = [tried[i:i + PART] for i in range(0, len(tried), PART)]
    said = dict.fromkeys(tried, "+")
    for n, line, what in kotlinc(folder, "val", parts):
        text = parts[int(n)][int(line) - 1]
        is_large = "out of range" in what and LARGE.fullmatch(text) and said[text] != "-"
        said[text] = "i?" if is_large else "-"
    parts = [[it for it in part if said[it] == "+"] for part in parts]
    assert not kotlinc(folder, "const val", parts)
    names = [f"P{n}Kt x{n}_{i}" for n, part in enumerate(parts) for i in range(len(part))]
    said.update(zip(sum(parts, []), java(folder, "value", names)))
    return said


texts = sys.stdin.read().split("\n")[:-1]
with tempfile.TemporaryDirectory() as folder:
    said = answers(folder, texts)
for text in texts:
    print(said.get(text, "-"))
