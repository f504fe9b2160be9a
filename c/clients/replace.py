#!/usr/bin/env python3
"""Replaces functions of a source by an #include: replace.py SOURCE FILE START.. removes each function
whose first line begins with START, up to the line `}`, and includes FILE in place of the first."""
import sys

source, file, *starts = sys.argv[1:]
lines, kept, is_inside = open(source, encoding="utf8").read().split("\n"), [], False
for line in lines:
    if any(line.startswith(start) for start in starts) and not line.endswith(";"):
        is_inside = True
        if not any(file in it for it in kept):
            kept.append(f'#include "{file}"')
    if not is_inside:
        kept.append(line)
    if line == "}":
        is_inside = False
open(source, "w", encoding="utf8").write("\n".join(kept))
