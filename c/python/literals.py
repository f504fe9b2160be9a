#!/usr/bin/env python3
"""Reads each line of standard input as an integer literal of a language, such as RUST or GO:
literals.py LANGUAGE."""
import sys

import digits

language = getattr(digits, f"LANGUAGE_{sys.argv[1]}")
for line in sys.stdin.buffer:
    text = line.rstrip(b"\n")
    try:
        literal, end = digits.read_literal(text, 0, language)
        print(f"{literal.value} in radix {literal.radix}, suffix `{text[end:].decode()}`")
    except digits.Fault as fault:
        print(fault)
