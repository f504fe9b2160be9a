"""Readings of Python's own: JSON, TOML, PYTHON, PYTHON_FLOAT; and STRTOD, of the C library."""
import ast
import ctypes
import json
import os
import struct
import sys
import tomllib
import warnings

warnings.simplefilter("ignore")
sys.set_int_max_str_digits(0)
strtod = ctypes.CDLL(None).strtod
strtod.restype = ctypes.c_double
strtod.argtypes = [ctypes.c_char_p, ctypes.POINTER(ctypes.c_char_p)]


def refuse(text):
    raise ValueError(text)


def of_python(text):
    literal = ast.parse(text, mode="eval").body
    if not isinstance(literal, ast.Constant) or literal.end_col_offset != len(text):
        refuse(text)
    return literal.value


def of_toml(text):
    # what follows # is a comment
    return refuse(text) if "#" in text else tomllib.loads(f"a={text}")["a"]


def of_strtod(text):
    held = text.encode()
    rest = ctypes.c_char_p()
    value = strtod(held, ctypes.byref(rest))
    return refuse(text) if rest.value else value


READS = {
    "JSON": lambda text: json.loads(text, parse_constant=refuse),
    "TOML": of_toml,
    "PYTHON": of_python,
    "PYTHON_FLOAT": float,
    "STRTOD": of_strtod,
}


def answer(read, text):
    try:
        value = read(text)
    except (ValueError, SyntaxError, AttributeError):
        return "-"
    if type(value) is float:
        return "f" + struct.pack(">d", value).hex()
    return f"i{value}" if type(value) is int else "-"


read = READS[os.environ["FORM"]]
for line in sys.stdin:
    print(answer(read, line.rstrip("\n")))
