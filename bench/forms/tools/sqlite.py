"""SQLite's own reading: `select TEXT`, of one token."""
import re
import sqlite3
import struct
import sys

# a sign is an operator, but after an exponent's mark
ONE = re.compile(r"0[xX]\w*|(?!0[xX])\.?[0-9](?:[\w.]|(?<=[eE])[+-])*")
database = sqlite3.connect(":memory:")


def answer(text):
    if not ONE.fullmatch(text):
        return "-"
    try:
        value, = database.execute(f"select ({text})").fetchone()
    except sqlite3.Error as error:
        return "i?" if "too big" in str(error) else "-"
    if type(value) is float:
        return "f" + struct.pack(">d", value).hex()
    if type(value) is not int:
        return "-"
    # a hexadecimal integer is that of 64 bits
    return f"i{value % (1 << 64) if text[:2] in ('0x', '0X') else value}"


for line in sys.stdin:
    print(answer(line.rstrip("\n")))
