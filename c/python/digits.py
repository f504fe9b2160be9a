"""Reading numbers from bytes, also with digit separators, and writing them, by the proved library of
digits.h.

>>> import digits
>>> digits.parse_i64(b"-1000")
-1000
>>> digits.parse_f64(b"1_234.5e-1", digits.WORD_PYTHON_LITERAL)
123.45
>>> digits.read_u32(b"8080/tcp")   # the value, and where it ends
(8080, 4)
>>> digits.parse_number(b"1e2"), digits.parse_number(b"100")
(100.0, 100)
>>> digits.write_f64(1e23), digits.write_price(123450, 2)
(b'1e23', b'1,234.50')
>>> digits.parse_i64(b"10x")
Traceback (most recent call last):
digits.Fault: a byte that is no part of the number, at 2

A text is bytes, a bytearray, a memoryview or whatever else has bytes in one piece; none is copied. A
`read` takes the number that begins at a start, and a `parse` the whole text. Positions count bytes
from the start of the text, from 0. A `write` gives the text of a number, as bytes. digits.h says what
each call reads and writes, and its faults.

The library is libdigits.so of the folder that DIGITS_LIB names, or else of ../out, where `make`
writes it, of ../../lib, where `make install` does, or of the system.
"""
import array
import collections
import ctypes
import errno
import io
import os
from ctypes import POINTER, byref, c_bool, c_double, c_float, c_int, c_int32, c_int64, c_size_t
from ctypes import c_ssize_t, c_uint8, c_uint32, c_uint64, c_void_p

# from the sources, by c/constants
# The version of this file.
VERSION = 100  # The version of this library: 10,000 for each major one, 100 for each minor one

# What an outcome's status is.
OK = 0  # The number was read
EMPTY = 1  # There is no digit, or no number
OVERFLOW = 2  # The number is too large
INVALID = 3  # The byte is no part of the number before it
EMPTY_EXPONENT = 4  # No digit follows the mark of an exponent
FIRST_ZERO = 5  # The language refuses the first 0
TOO_FINE = 6  # A digit after the last place is no zero
BAD_START = 7  # The start is after the end of the text
BAD_WORD = 8  # The word isn't supported, or its floats aren't decimal
BAD_LANGUAGE = 9  # No language has this number
BAD_FORM = 10  # No form has this number
BAD_PLACES = 11  # There are more than 38 places
FULL = 12  # The list goes on, and there is no more room for its numbers
MORE = 13  # More of the text is needed, from this position on
OTHER_BYTE = 14  # Another byte is there, or the text ends
CLOSED = 15  # The list has no number, and ends here
TOO_LONG = 16  # A number is too long for the room of the text
GROUP = 17  # The group of digits at this position isn't of three
PLACES = 18  # The number that ends at this position has fewer or more places

# What a number's kind is.
NONE = 0  # There is no number
INTEGER = 1  # The number is an integer
FLOAT = 2  # The number is a float

# The room for the longest text of a type.
ROOM_I64 = 20  # The room that the longest text of an i64 takes: -9223372036854775808
ROOM_U64 = 20  # That of a u64: 18446744073709551615
ROOM_I32 = 11  # That of an i32: -2147483648
ROOM_U32 = 10  # That of a u32: 4294967295
ROOM_F64 = 24  # The room that the usual text of an f64 takes, and that with an exponent
ROOM_F32 = 24  # The same of an f32

# How a float is laid out.
LAYOUT_USUAL = 0  # As JSON has it: with an exponent below 1e-5 and from 1e16 on, else with one place at least
LAYOUT_PLAIN = 1  # Without an exponent: 0.00012, 1.5, 12000
LAYOUT_EXPONENT = 2  # With an exponent: 1.2e-4, 1.5e0

# How an exponent is written.
EXPONENT_SIGNED = 0  # As C's %e: with a sign and two digits at least, 1.5e+00
EXPONENT_SHORT = 1  # Short: 1.5e0

# Forms: docs/reference/digit_numbers.md.
FORM_LITERAL = 0  # The simplest form of source code: decimal digits without a sign, with a point or an exponent if they are a float
FORM_FLOAT = 1  # The simplest form of data: -1.5e3, +1, 01, .5 and 5., all of them floats
FORM_RUST = 2  # Rust's source code
FORM_C89 = 3  # C's source code before C99, and C++'s before C++14
FORM_C99 = 4  # C's source code from C99 up to C18, and Objective-C's
FORM_CXX14 = 5  # C++14's source code
FORM_CXX17 = 6  # C++17 and C23
FORM_JAVA = 7  # Java's source code
FORM_KOTLIN = 8  # Kotlin's source code
FORM_SCALA = 9  # Scala's source code from 2.13 on
FORM_CSHARP = 10  # C#'s source code, by its standard
FORM_FSHARP = 11  # F#'s source code, by its grammar
FORM_GO = 12  # Go's source code
FORM_D = 13  # D's source code
FORM_SWIFT = 14  # Swift's source code
FORM_NIM = 15  # Nim's source code
FORM_ADA = 16  # Ada's source code, except for a radix and #
FORM_COBOL = 17  # COBOL's source code
FORM_FORTRAN = 18  # Fortran's source code
FORM_PYTHON = 19  # Python's source code
FORM_RUBY = 20  # Ruby's source code, except for the prefix 0d
FORM_PERL = 21  # Perl's source code, except for floats in binary or octal digits
FORM_PHP = 22  # PHP's source code
FORM_LUA = 23  # Lua's source code
FORM_R = 24  # R's source code
FORM_OCTAVE = 25  # Octave's source code
FORM_MATLAB = 26  # MATLAB's source code, by its documentation: as Octave's, without separators
FORM_ERLANG = 27  # Erlang's source code, except for a radix and #
FORM_ELIXIR = 28  # Elixir's source code
FORM_HASKELL = 29  # Haskell's source code with GHC's extensions NumericUnderscores and BinaryLiterals, for 1_0 and 0b1, and without a third, for hexadecimal floats
FORM_SCHEME = 30  # Scheme's source code, as Guile reads it, except for ratios, #x, and the marks s, f, l
FORM_OCAML = 31  # OCaml's source code
FORM_JAVASCRIPT = 32  # JavaScript's source code, in strict mode and in modules
FORM_COFFEESCRIPT = 33  # CoffeeScript's source code
FORM_POSTGRESQL = 34  # PostgreSQL's SQL up to version 15
FORM_SQLITE = 35  # SQLite's SQL before 3.46
FORM_MYSQL = 36  # The SQL of MySQL and MariaDB
FORM_HCL = 37  # HCL, of Terraform
FORM_JSON = 38  # JSON, by RFC 8259
FORM_JSON_FLOATS = 39  # JSON, of which every number is a float
FORM_JSON5 = 40  # JSON5
FORM_YAML = 41  # YAML, by the core schema of 1.2
FORM_TOML = 42  # TOML 1.0
FORM_EDN = 43  # EDN, and Clojure's source code, except for ratios, a radix and r, and M
FORM_CSS = 44  # CSS, and SVG 2
FORM_DECIMAL = 45  # A decimal number without an exponent: XML Schema's decimal, COBOL's NUMVAL, amounts in CSV
FORM_XML_DOUBLE = 46  # XML Schema's double and float, by 1.0; by 1.1 +INF is one too
FORM_PROMETHEUS = 47  # Prometheus, and OpenMetrics
FORM_PROTOBUF_TEXT = 48  # Protobuf's text format
FORM_STRTOD = 49  # What C's strtod takes in the locale C, without blanks before it and what follows nan in parentheses
FORM_FROM_CHARS = 50  # What C++'s std::from_chars takes for a float, without what follows nan in parentheses
FORM_RUST_PARSE = 51  # What Rust's str::parse::<f64> takes
FORM_PYTHON_FLOAT = 52  # What Python's float takes, without blanks around it and digits beyond ASCII
FORM_JAVA_PARSE_DOUBLE = 53  # What Java's Double.parseDouble takes, without blanks around it and a suffix such as d
FORM_GO_PARSE_FLOAT = 54  # What Go's strconv.ParseFloat takes
FORM_CSHARP_PARSE = 55  # What C#'s double.Parse takes, as Mono has it, without blanks around it
FORM_RUBY_FLOAT = 56  # What Ruby's Float takes, without blanks around it
FORM_LUA_TONUMBER = 57  # What Lua's tonumber takes, without blanks around it
FORM_JAVASCRIPT_NUMBER = 58  # What JavaScript's Number takes, without blanks around it
FORM_JAVASCRIPT_PARSE_FLOAT = 59  # What JavaScript's parseFloat takes, without blanks before it
FORM_POSTGRESQL_NUMERIC = 60  # What PostgreSQL's ::numeric takes up to version 15, without blanks around it
FORM_FORTRAN_READ = 61  # What Fortran's read takes by the edit descriptor F, without blanks
FORM_STR2DOUBLE = 62  # What Octave's and MATLAB's str2double take for a real number, without blanks

# Languages of literals: docs/RULES.md.
LANGUAGE_RUST = 0
LANGUAGE_CXX14 = 1
LANGUAGE_PYTHON = 2
LANGUAGE_GO = 3
LANGUAGE_JAVA = 4
LANGUAGE_CSHARP = 5
LANGUAGE_JAVASCRIPT = 6
LANGUAGE_KOTLIN = 7
LANGUAGE_SWIFT = 8
LANGUAGE_RUBY = 9
LANGUAGE_PERL = 10
LANGUAGE_PHP = 11
LANGUAGE_JULIA = 12
LANGUAGE_OCAML = 13
LANGUAGE_FSHARP = 14
LANGUAGE_HASKELL = 15
LANGUAGE_ZIG = 16
LANGUAGE_ELIXIR = 17
LANGUAGE_TOML = 18
LANGUAGE_JSON_NUMBER = 19
LANGUAGE_DIGITS = 20
LANGUAGE_HEX_DIGITS = 21
LANGUAGE_C = 22
LANGUAGE_SCALA = 23
LANGUAGE_ERLANG = 24
LANGUAGE_D = 25

# Flags of a format word: where a component drops separators.
FLAG_INTEGER_INTERNAL = 0x100000000
FLAG_FRACTION_INTERNAL = 0x200000000
FLAG_EXPONENT_INTERNAL = 0x400000000
FLAG_INTEGER_LEADING = 0x800000000
FLAG_FRACTION_LEADING = 0x1000000000
FLAG_EXPONENT_LEADING = 0x2000000000
FLAG_INTEGER_TRAILING = 0x4000000000
FLAG_FRACTION_TRAILING = 0x8000000000
FLAG_EXPONENT_TRAILING = 0x10000000000
FLAG_INTEGER_CONSECUTIVE = 0x20000000000
FLAG_FRACTION_CONSECUTIVE = 0x40000000000
FLAG_EXPONENT_CONSECUTIVE = 0x80000000000
FLAG_SPECIAL = 0x100000000000

# Format words with a name: docs/RULES.md.
WORD_STANDARD = 0xa00000000000000000000000000
WORD_HEXADECIMAL = 0x1000000000000000000000000000
WORD_HEXADECIMAL_FLOAT = 0xa001000000000000000000000000000
WORD_OCTAL = 0x800000000000000000000000000
WORD_BINARY = 0x200000000000000000000000000
WORD_RUST_LITERAL = 0xa000000005f00000fe700000000
WORD_RUST_HEX_LITERAL = 0x10000000005f0000024900000000
WORD_RUST_OCTAL_LITERAL = 0x8000000005f0000024900000000
WORD_RUST_BINARY_LITERAL = 0x2000000005f0000024900000000
WORD_CXX14_LITERAL = 0xa00000000270000000700000000
WORD_CXX14_HEX_LITERAL = 0xa001000000000270000000700000000
WORD_CXX14_OCTAL_LITERAL = 0x800000000270000000100000000
WORD_CXX14_BINARY_LITERAL = 0x200000000270000000100000000
WORD_PYTHON_LITERAL = 0xa000000005f0000000700000000
WORD_PYTHON_HEX_LITERAL = 0x10000000005f0000000900000000
WORD_PYTHON_OCTAL_LITERAL = 0x8000000005f0000000900000000
WORD_PYTHON_BINARY_LITERAL = 0x2000000005f0000000900000000
WORD_TOML = 0xa000000005f0000000700000000
WORD_TOML_HEX = 0x10000000005f0000000100000000
WORD_TOML_OCTAL = 0x8000000005f0000000100000000
WORD_TOML_BINARY = 0x2000000005f0000000100000000
WORD_JAVA_LITERAL = 0xa000000005f00000e0700000000
WORD_JAVA_HEX_LITERAL = 0xa0010000000005f00000e0700000000
WORD_JAVA_OCTAL_LITERAL = 0x8000000005f0000020100000000
WORD_JAVA_BINARY_LITERAL = 0x2000000005f0000020100000000
WORD_CSHARP_LITERAL = 0xa000000005f00000e0700000000
WORD_CSHARP_HEX_LITERAL = 0x10000000005f0000020900000000
WORD_CSHARP_BINARY_LITERAL = 0x2000000005f0000020900000000
WORD_GO_LITERAL = 0xa000000005f0000000700000000
WORD_GO_HEX_LITERAL = 0xa0010000000005f0000000f00000000
WORD_GO_OCTAL_LITERAL = 0x8000000005f0000000900000000
WORD_GO_BINARY_LITERAL = 0x2000000005f0000000900000000
WORD_JAVASCRIPT_LITERAL = 0xa000000005f0000000700000000
WORD_JAVASCRIPT_HEX_LITERAL = 0x10000000005f0000000100000000
WORD_JAVASCRIPT_OCTAL_LITERAL = 0x8000000005f0000000100000000
WORD_JAVASCRIPT_BINARY_LITERAL = 0x2000000005f0000000100000000
WORD_KOTLIN_LITERAL = 0xa000000005f00000e0700000000
WORD_KOTLIN_HEX_LITERAL = 0x10000000005f0000020100000000
WORD_KOTLIN_BINARY_LITERAL = 0x2000000005f0000020100000000
WORD_SWIFT_LITERAL = 0xa000000005f00000fc700000000
WORD_SWIFT_HEX_LITERAL = 0xa0010000000005f00000fc700000000
WORD_SWIFT_OCTAL_LITERAL = 0x8000000005f0000024100000000
WORD_SWIFT_BINARY_LITERAL = 0x2000000005f0000024100000000
WORD_OCTAVE_LITERAL = 0xa000000005f00000fc700000000
WORD_OCTAVE_HEX_LITERAL = 0x10000000005f0000024100000000
WORD_OCTAVE_BINARY_LITERAL = 0x2000000005f0000024100000000
WORD_RUBY_LITERAL = 0xa000000005f0000000700000000
WORD_RUBY_HEX_LITERAL = 0x10000000005f0000000100000000
WORD_RUBY_OCTAL_LITERAL = 0x8000000005f0000000100000000
WORD_RUBY_BINARY_LITERAL = 0x2000000005f0000000100000000
WORD_PERL_LITERAL = 0xa000000005f00000ff700000000
WORD_PERL_HEX_LITERAL = 0xa0010000000005f00000fcf00000000
WORD_PERL_OCTAL_LITERAL = 0xa0008000000005f00000fcf00000000
WORD_PERL_BINARY_LITERAL = 0xa0002000000005f00000fcf00000000
WORD_PHP_LITERAL = 0xa000000005f0000000700000000
WORD_PHP_HEX_LITERAL = 0x10000000005f0000000100000000
WORD_PHP_OCTAL_LITERAL = 0x8000000005f0000000100000000
WORD_PHP_BINARY_LITERAL = 0x2000000005f0000000100000000
WORD_JULIA_LITERAL = 0xa000000005f0000000300000000
WORD_JULIA_HEX_LITERAL = 0xa0010000000005f0000000300000000
WORD_JULIA_OCTAL_LITERAL = 0x8000000005f0000000100000000
WORD_JULIA_BINARY_LITERAL = 0x2000000005f0000000100000000
WORD_D_LITERAL = 0xa000000005f00000fe700000000
WORD_D_HEX_LITERAL = 0xa0010000000005f00000fef00000000
WORD_D_BINARY_LITERAL = 0x2000000005f0000024900000000
WORD_OCAML_LITERAL = 0xa000000005f00000fd700000000
WORD_OCAML_HEX_LITERAL = 0xa0010000000005f00000fd700000000
WORD_OCAML_OCTAL_LITERAL = 0x8000000005f0000024100000000
WORD_OCAML_BINARY_LITERAL = 0x2000000005f0000024100000000
WORD_FSHARP_LITERAL = 0xa000000005f00000e0700000000
WORD_FSHARP_HEX_LITERAL = 0x10000000005f0000020100000000
WORD_FSHARP_OCTAL_LITERAL = 0x8000000005f0000020100000000
WORD_FSHARP_BINARY_LITERAL = 0x2000000005f0000020100000000
WORD_HASKELL_LITERAL = 0xa000000005f00000e0700000000
WORD_HASKELL_HEX_LITERAL = 0xa0010000000005f00000e0f00000000
WORD_HASKELL_OCTAL_LITERAL = 0x8000000005f0000020900000000
WORD_HASKELL_BINARY_LITERAL = 0x2000000005f0000020900000000
WORD_SCALA_LITERAL = 0xa000000005f00000e0700000000
WORD_SCALA_HEX_LITERAL = 0x10000000005f0000020100000000
WORD_ZIG_LITERAL = 0xa000000005f0000000700000000
WORD_ZIG_HEX_LITERAL = 0xa0010000000005f0000000700000000
WORD_ZIG_OCTAL_LITERAL = 0x8000000005f0000000100000000
WORD_ZIG_BINARY_LITERAL = 0x2000000005f0000000100000000
WORD_ADA_LITERAL = 0xa000000005f0000000700000000
WORD_ADA_HEX_LITERAL = 0xa0010000000005f0000000700000000
WORD_ADA_OCTAL_LITERAL = 0xa0008000000005f0000000700000000
WORD_ADA_BINARY_LITERAL = 0xa0002000000005f0000000700000000
WORD_ELIXIR_LITERAL = 0xa000000005f0000000700000000
WORD_ELIXIR_HEX_LITERAL = 0x10000000005f0000000100000000
WORD_ELIXIR_OCTAL_LITERAL = 0x8000000005f0000000100000000
WORD_ELIXIR_BINARY_LITERAL = 0x2000000005f0000000100000000
WORD_ERLANG_LITERAL = 0xa000000005f0000000700000000
WORD_ERLANG_HEX_LITERAL = 0x10000000005f0000000100000000
WORD_ERLANG_OCTAL_LITERAL = 0x8000000005f0000000100000000
WORD_ERLANG_BINARY_LITERAL = 0x2000000005f0000000100000000
# end of what c/constants writes


class Fault(ValueError):
    """There is no number: `status` says why, and `at` is the position of the byte at fault. Of a list
    `numbers` are those before it."""

    def __init__(self, status, at, numbers=()):
        super().__init__(f"{MESSAGES.get(status, f'status {status}')}, at {at}")
        self.status, self.at, self.numbers = status, at, numbers


MESSAGES = {
    EMPTY: "no digit",
    OVERFLOW: "too large",
    INVALID: "a byte that is no part of the number",
    EMPTY_EXPONENT: "an exponent without a digit",
    FIRST_ZERO: "a first 0, which the language refuses",
    TOO_FINE: "more places than were asked for",
    BAD_START: "a start after the end of the text",
    BAD_WORD: "a format word that isn't supported",
    BAD_LANGUAGE: "no such language",
    BAD_FORM: "no such form",
    BAD_PLACES: "more than 38 places",
    FULL: "no room for more numbers",
    MORE: "more of the text is needed",
    OTHER_BYTE: "another byte than the one that has to be there",
    CLOSED: "a list without a number",
    TOO_LONG: "a number that is too long for the room of the text",
    GROUP: "a group of digits that isn't of three",
    PLACES: "fewer or more places than were asked for",
}


# ---- the library and its types ----


def _library():
    """The library, and the words in which a message names it."""
    here = os.path.dirname(os.path.abspath(__file__))
    folders = [os.path.normpath(os.path.join(here, folder)) for folder in ("../out", "../../lib")]
    if "DIGITS_LIB" in os.environ:
        folders = [os.environ["DIGITS_LIB"]]
    for folder in folders:
        path = os.path.join(folder, "libdigits.so")
        if os.path.exists(path):
            return ctypes.CDLL(path), path
    try:
        return ctypes.CDLL("libdigits.so.0"), "the libdigits.so.0 of the system"
    except OSError as error:
        raise OSError(f"no libdigits.so in {' or '.join(folders)}, and none of the system: `make -C c` "
                      "makes it, and DIGITS_LIB may name its folder") from error


_LIBRARY, _LIBRARY_NAME = _library()


def _in_library(name):
    """A call of the library. Each that this file names is in a library that was made with it."""
    try:
        return getattr(_LIBRARY, f"digits_{name}")
    except AttributeError:
        raise OSError(f"{_LIBRARY_NAME} has no digits_{name}: it is older than {__file__}. `make -C c` "
                      "makes it anew, and DIGITS_LIB may name the folder of another") from None


class _Outcome(ctypes.Structure):
    _fields_ = [("at", c_size_t), ("status", c_uint32)]


class _Word(ctypes.Structure):
    _fields_ = [("low", c_uint64), ("high", c_uint64)]


class _Literal(ctypes.Structure):
    _fields_ = [("low", c_uint64), ("high", c_uint64), ("digits", c_size_t), ("radix", c_uint32)]


class _Number(ctypes.Structure):
    _fields_ = [("value", c_double), ("low", c_uint64), ("high", c_uint64), ("kind", c_uint32),
                ("is_negative", c_bool)]


class _Buffer(ctypes.Structure):
    """Py_buffer of Python's C interface."""

    _fields_ = [("buf", c_void_p), ("obj", c_void_p), ("len", c_ssize_t), ("itemsize", c_ssize_t),
                ("readonly", c_int), ("ndim", c_int), ("format", c_void_p), ("shape", c_void_p),
                ("strides", c_void_p), ("suboffsets", c_void_p), ("internal", c_void_p)]


_get_buffer = ctypes.pythonapi.PyObject_GetBuffer
_get_buffer.argtypes = [ctypes.py_object, POINTER(_Buffer), c_int]
_release = ctypes.pythonapi.PyBuffer_Release
_release.argtypes, _release.restype = [POINTER(_Buffer)], None


def _function(name, *types, gives=_Outcome):
    """A call of the library, which takes a text and arguments of these types."""
    function = _in_library(name)
    function.argtypes = [c_void_p, c_size_t, *types]
    function.restype = gives

    def call(text, *rest):
        if isinstance(text, bytes):
            return function(text, len(text), *rest)
        buffer = _Buffer()
        _get_buffer(text, byref(buffer), 0)
        try:
            return function(buffer.buf, buffer.len, *rest)
        finally:
            _release(byref(buffer))

    return call


def _call(name, given, *types):
    """The same of a call that gives a value, and answers where the number ends."""
    function = _function(name, *types, POINTER(given))

    def call(text, *rest):
        value = given()
        outcome = function(text, *rest, byref(value))
        if outcome.status != OK:
            raise Fault(outcome.status, outcome.at)
        return value, outcome.at

    return call


def make_word(radix, separator=0, flags=0):
    """A word of a radix from 2 to 36, a separator byte, or 0 for none, and flags."""
    return flags + (separator + (radix << 40) << 64)


def _halves(word):
    return _Word(word & 2**64 - 1, word >> 64)


# ---- integers and floats ----


def _calls(name, given):
    """The read and the parse of a type."""
    read_standard = _call(f"read_{name}", given, c_size_t)
    read_by = _call(f"read_{name}_by", given, c_size_t, _Word)
    parse_standard = _call(f"parse_{name}", given)
    parse_by = _call(f"parse_{name}_by", given, _Word)

    def read(text, start=0, word=None):
        """The number that begins at a start, and where it ends; maybe by a word."""
        value, end = (read_standard(text, start) if word is None
                      else read_by(text, start, _halves(word)))
        return value.value, end

    def parse(text, word=None):
        """The number that a text is; maybe by a word."""
        value, _ = parse_standard(text) if word is None else parse_by(text, _halves(word))
        return value.value

    read.__name__, parse.__name__ = f"read_{name}", f"parse_{name}"
    return read, parse


read_i64, parse_i64 = _calls("i64", c_int64)
read_u64, parse_u64 = _calls("u64", c_uint64)
read_i32, parse_i32 = _calls("i32", c_int32)
read_u32, parse_u32 = _calls("u32", c_uint32)
read_f64, parse_f64 = _calls("f64", c_double)
read_f32, parse_f32 = _calls("f32", c_float)

# ---- decimal numbers as integers, exactly ----

_read_scaled = _call("read_scaled_i64_by", c_int64, c_size_t, c_size_t, _Word, c_uint8)
_parse_scaled = _call("parse_scaled_i64_by", c_int64, c_size_t, _Word, c_uint8)


def read_scaled(text, start, places, word=WORD_STANDARD, point=b"."):
    """The number at a start times ten to the power `places`, and where it ends."""
    value, end = _read_scaled(text, start, places, _halves(word), ord(point))
    return value.value, end


def parse_scaled(text, places, word=WORD_STANDARD, point=b"."):
    """The number that a text is times ten to the power `places`."""
    return _parse_scaled(text, places, _halves(word), ord(point))[0].value


# ---- prices ----

_read_price = _call("read_price_i64", c_int64, c_size_t, c_size_t, c_uint8, c_uint8)
_read_price_by = _call("read_price_i64_by", c_int64, c_size_t, c_size_t, _Word, c_uint8)
_parse_price = _call("parse_price_i64", c_int64, c_size_t, c_uint8, c_uint8)
_parse_price_by = _call("parse_price_i64_by", c_int64, c_size_t, _Word, c_uint8)


def read_price(text, start, places, separator=b",", point=b".", word=None):
    """The price at a start times ten to the power `places`, and where it ends. It has exactly so many
    places, and groups of three digits, or none by b""; by a word the separators are the word's."""
    if word is None:
        value, end = _read_price(text, start, places, ord(separator or b"\0"), ord(point))
    else:
        value, end = _read_price_by(text, start, places, _halves(word), ord(point))
    return value.value, end


def parse_price(text, places, separator=b",", point=b".", word=None):
    """The price that a text is times ten to the power `places`."""
    if word is None:
        return _parse_price(text, places, ord(separator or b"\0"), ord(point))[0].value
    return _parse_price_by(text, places, _halves(word), ord(point))[0].value


# ---- integer literals of a language ----

Literal = collections.namedtuple("Literal", "value digits radix")
_read_literal = _call("read_literal", _Literal, c_size_t, c_uint32)


def read_literal(text, start, language):
    """The literal of a LANGUAGE_.. at a start, and where it ends. A literal has its value, where its
    digits begin, and their radix."""
    literal, end = _read_literal(text, start, language)
    return Literal(literal.low + (literal.high << 64), literal.digits, literal.radix), end


# ---- numbers of a form ----

_read_number = _call("read_number", _Number, c_size_t, c_uint32)
_parse_number = _call("parse_number", _Number, c_uint32)


def _value(number):
    if number.kind == FLOAT:
        return number.value
    magnitude = number.low + (number.high << 64)
    return -magnitude if number.is_negative else magnitude


def read_number(text, start=0, form=FORM_JSON):
    """The int or float of a FORM_.. at a start, and where it ends."""
    number, end = _read_number(text, start, form)
    return _value(number), end


def parse_number(text, form=FORM_JSON):
    """The int or float of a FORM_.. that a text is."""
    return _value(_parse_number(text, form)[0])


# ---- lists of numbers ----


class _Lists:
    """Lists of a type. `code` is its letter in array; by a form there is none, and numbers are gathered
    in a list."""

    def __init__(self, given, code=None):
        self.given, self.code = given, code

    def function(self, name, *types):
        """A call of the library that fills places with numbers, and takes arguments of these types
        before them."""
        return _function(name, *types, POINTER(self.given), c_size_t, POINTER(c_size_t))

    def fill(self, function, text, room, *told):
        """The numbers that a call gives with so much room, and its outcome."""
        places, count = (self.given * room)(), c_size_t()
        outcome = function(text, *told, places, room, byref(count))
        if self.code:
            numbers = array.array(self.code)
            numbers.frombytes(memoryview(places).cast("B")[: count.value * numbers.itemsize])
        else:
            numbers = list(map(_value, places[: count.value]))
        return numbers, outcome

    def read(self, function, text, start, *told):
        """The numbers from a start on, and why there are no more: OK or MORE."""
        numbers, outcome = self.fill(function, text, min(4096, _most_numbers(text)), start, *told)
        while outcome.status == FULL:
            more, outcome = self.fill(function, text, 4096, outcome.at, *told)
            numbers += more
        if outcome.status not in (OK, MORE):
            raise Fault(outcome.status, outcome.at, numbers)
        return numbers, outcome

    def parse(self, function, text, *told):
        """The numbers of a whole text."""
        numbers, outcome = self.fill(function, text, _most_numbers(text), *told)
        if outcome.status != OK:
            raise Fault(outcome.status, outcome.at, numbers)
        return numbers


def _length(text):
    """How many bytes a text has."""
    return memoryview(text).nbytes


def _most_numbers(text):
    """How many numbers a text may list, which has a byte between two."""
    return _length(text) // 2 + 1


def _list_calls(name, code, given):
    """The calls for lists of a type."""
    lists = _Lists(given, code)
    of_list = lists.function(f"read_{name}_list", c_size_t, c_uint8)
    of_text = lists.function(f"parse_{name}_list", c_uint8)
    of_piece = lists.function(f"read_{name}_piece", c_size_t, c_uint8, c_bool)

    def read_list(text, start=0, between=b","):
        """The numbers of a list at a start, as an array, and where it ends. `between` is the byte
        between two numbers, blanks may be around it; b" " stands for any blanks, b"\\n" for a line
        feed, which may follow the last number too."""
        numbers, outcome = lists.read(of_list, text, start, ord(between))
        return numbers, outcome.at

    def parse_list(text, between=b","):
        """The numbers of a whole text, which has to be one list, as an array. A list that is over
        before the text is a fault, INVALID."""
        return lists.parse(of_text, text, ord(between))

    def read_piece(text, start, between, is_last):
        """The numbers of a list in a piece of a text, as an array, where it ends, and whether more of
        the text is needed: then the bytes from there on have to come again, with what follows.
        `is_last` says that nothing follows, as where a read gave no bytes: one of a socket often
        gives fewer than it may."""
        numbers, outcome = lists.read(of_piece, text, start, ord(between), is_last)
        return numbers, outcome.at, outcome.status == MORE

    for call in (read_list, parse_list, read_piece):
        call.__name__ = call.__name__.replace("_", f"_{name}_")
    return read_list, parse_list, read_piece


read_i64_list, parse_i64_list, read_i64_piece = _list_calls("i64", "q", c_int64)
read_u64_list, parse_u64_list, read_u64_piece = _list_calls("u64", "Q", c_uint64)
read_f64_list, parse_f64_list, read_f64_piece = _list_calls("f64", "d", c_double)

_scaled = _Lists(c_int64, "q")
_read_scaled_piece = _scaled.function("read_scaled_i64_piece", c_size_t, c_size_t, c_uint8, c_bool)


def read_scaled_piece(text, start, between, is_last, places):
    """The decimal numbers of a list in a piece of a text, each times ten to the power `places`, as
    read_i64_piece answers them."""
    numbers, outcome = _scaled.read(_read_scaled_piece, text, start, places, ord(between), is_last)
    return numbers, outcome.at, outcome.status == MORE


_read_price_piece = _scaled.function("read_price_i64_piece", c_size_t, c_size_t, c_uint8, c_uint8, c_uint8,
                                     c_bool)


def read_price_piece(text, start, between, is_last, places, separator=b",", point=b"."):
    """The prices of a list in a piece of a text, as read_price reads them and read_i64_piece answers
    them."""
    numbers, outcome = _scaled.read(_read_price_piece, text, start, places, ord(separator or b"\0"),
                                    ord(point), ord(between), is_last)
    return numbers, outcome.at, outcome.status == MORE


_of_form = _Lists(_Number)
_read_number_list = _of_form.function("read_number_list", c_size_t, c_uint32, c_uint8)
_parse_number_list = _of_form.function("parse_number_list", c_uint32, c_uint8)
_read_number_piece = _of_form.function("read_number_piece", c_size_t, c_uint32, c_uint8, c_bool)


def read_number_list(text, start=0, between=b",", form=FORM_JSON):
    """The ints and floats of a list at a start, each by a FORM_.., and where it ends."""
    numbers, outcome = _of_form.read(_read_number_list, text, start, form, ord(between))
    return numbers, outcome.at


def parse_number_list(text, between=b",", form=FORM_JSON):
    """The ints and floats of a whole text, which has to be one list, each by a FORM_..."""
    return _of_form.parse(_parse_number_list, text, form, ord(between))


def read_number_piece(text, start, between, is_last, form=FORM_JSON):
    """The same of a piece of a text, as read_i64_piece answers it."""
    numbers, outcome = _of_form.read(_read_number_piece, text, start, form, ord(between), is_last)
    return numbers, outcome.at, outcome.status == MORE


# ---- blanks, and bytes around a list ----

_past_blanks = _function("past_blanks", c_size_t, gives=c_size_t)
_expect_byte = _function("expect_byte", c_size_t, c_uint8)
_open_list = _function("open_list", c_size_t, c_uint8, c_uint8)


def past_blanks(text, start=0):
    """The first position from a start on without a blank, or the length."""
    return _past_blanks(text, start)


def expect_byte(text, start, byte):
    """The position after a byte, which blanks may be before."""
    outcome = _expect_byte(text, start, ord(byte))
    if outcome.status != OK:
        raise Fault(outcome.status, outcome.at)
    return outcome.at


def open_list(text, start=0, opening=b"[", closing=b"]"):
    """Where the first number of a list is, after the byte that opens it, and whether it has none:
    then the position is after the byte that closes it."""
    outcome = _open_list(text, start, ord(opening), ord(closing))
    if outcome.status not in (OK, CLOSED):
        raise Fault(outcome.status, outcome.at)
    return outcome.at, outcome.status == CLOSED


# ---- blocks of a text, which are read by themselves ----

_block_start = _function("block_start", c_size_t, c_uint8, gives=c_size_t)


def block_start(text, at, between=b","):
    """The first position from one on where a block of a list may begin that is read by itself: 0, or
    after the byte between two numbers, by b" " after a blank; if there is none, the length."""
    return _block_start(text, at, ord(between))


def blocks(text, size, between=b","):
    """Yields where each block of a list begins and ends: a text is cut wherever a block has `size`
    bytes, and the number that is cut belongs to the block that it begins in. A block is read by itself,
    by a thread, a process or another machine; the one that ends with the text is the last. Their
    numbers in order, up to the first block that asks for no more, are the list.

    >>> text = b"12,345,6"
    >>> for begin, end in blocks(text, 4):
    ...     print(read_i64_piece(text[begin:end], 0, b",", end == len(text)))
    (array('q', [12, 345]), 7, True)
    (array('q', [6]), 1, False)
    """
    if size < 1:
        raise ValueError("a block has at least one byte")
    begin, length = 0, _length(text)
    while begin < length or length == 0:
        end = block_start(text, begin + size, between)
        yield begin, end
        if end == length:
            break
        begin = end


# ---- a text that comes in pieces ----

_sure_end = _function("sure_end", gives=c_size_t)
_sure_end_of = _function("sure_end_of", c_uint32, gives=c_size_t)
_sure_end_by = _function("sure_end_by", _Word, gives=c_size_t)


def sure_end(text, form=None, word=None):
    """Up to where a piece is sure: what a read answers at a start before it stays, whatever follows
    the piece. Maybe of reads by a FORM_.., or by a word."""
    if form is not None:
        return _sure_end_of(text, form)
    return _sure_end(text) if word is None else _sure_end_by(text, _halves(word))


def _block(file, size):
    """The bytes that a file has by now, up to a size. There are none only at its end."""
    if not hasattr(file, "read1"):
        block = file.read(size)
    else:
        # before the end a file that doesn't wait gives b"" here, and None there
        block = file.read1(size) or file.read(1)
    if isinstance(block, str):
        raise TypeError(_TEXT)
    if block is None:
        raise BlockingIOError(errno.EAGAIN, "the file has no bytes yet, and doesn't wait for them")
    return block


_TEXT = "the file gives text, not bytes: open it with mode 'rb', or take its buffer"


def numbers_of(file, between=b" ", read_piece=read_f64_piece, size=1 << 16):
    """Yields the numbers of a file, or of whatever else reads bytes, which is one list. A number comes
    as soon as the bytes are there that end it. Where the list is over and the file is not, there is a
    fault. Only a block of some `size` bytes is in memory, or what one number takes. `read_piece` is
    one of the calls above, of a form other than JSON functools.partial(read_number_piece, form=..), of
    cents functools.partial(read_scaled_piece, places=2). The position of a fault counts from where the
    file was. A file that doesn't wait for its bytes is a BlockingIOError where it has none.

    >>> import io
    >>> sum(numbers_of(io.BytesIO(b"1.5 2\\n-3e1"), size=4))
    -26.5
    """
    if isinstance(file, io.TextIOBase):
        raise TypeError(_TEXT)
    if not hasattr(file, "read"):
        raise TypeError(f"{file!r:.60} is no file: pass one that is open for bytes, as open(name, 'rb') is")
    return _numbers_of(file, between, read_piece, size)


def _numbers_of(file, between, read_piece, size):
    text, before, is_more = b"", 0, True
    while is_more:
        block = _block(file, size)
        text += block
        try:
            numbers, at, is_more = read_piece(text, 0, between, not block)
        except Fault as fault:
            yield from fault.numbers
            raise Fault(fault.status, before + fault.at) from None
        yield from numbers
        text, before = text[at:], before + at
    if text or block and _block(file, 1):
        raise Fault(INVALID, before)


# ---- numbers that are written ----


def _writer(name, *types, most=64):
    """A call that writes into places, and answers how many bytes it wrote: what it gives is these
    bytes, or none where there is no text. `most` places hold each text."""
    function = _in_library(f"write_{name}")
    function.argtypes = [c_void_p, c_size_t, *types]
    function.restype = c_size_t

    def call(*told, room=most):
        places = ctypes.create_string_buffer(room)
        length = function(places, room, *told)
        return places.raw[:length]

    return call


def _integers(name, given, least, most):
    """The write of a type of integers."""
    call = _writer(name, given)

    def write(value):
        """The shortest text of an integer."""
        return call(_within(value, least, most))

    write.__name__ = f"write_{name}"
    return write


def _within(value, least, most):
    """An integer that a type has: ctypes would cut it."""
    if not least <= value <= most:
        raise OverflowError(f"{value} is not from {least} to {most}")
    return value


def _some(text, why):
    """A text that isn't empty."""
    if not text:
        raise ValueError(why)
    return text


write_i64 = _integers("i64", c_int64, -(2**63), 2**63 - 1)
write_u64 = _integers("u64", c_uint64, 0, 2**64 - 1)
write_i32 = _integers("i32", c_int32, -(2**31), 2**31 - 1)
write_u32 = _integers("u32", c_uint32, 0, 2**32 - 1)

_write_i64_grouped = _writer("i64_grouped", c_int64, c_uint8, c_uint8, most=128)
_write_u64_grouped = _writer("u64_grouped", c_uint64, c_uint8, c_uint8, most=128)
_write_scaled = _writer("scaled_i64", c_int64, c_size_t)
_write_price = _writer("price_i64", c_int64, c_size_t, c_uint8, c_uint8)
_write_f64 = _writer("f64_in", c_double, c_uint32, most=400)
_write_f32 = _writer("f32_in", c_float, c_uint32, most=400)
_write_fixed = _writer("f64_fixed", c_double, c_uint32)
_write_scientific = _writer("f64_scientific", c_double, c_uint32, c_uint32)
_write_f64_of = _writer("f64_of", c_double, c_uint32, most=400)
_write_i64_of = _writer("i64_of", c_int64, c_uint32, most=400)


def write_grouped(value, separator=b",", every=3):
    """An integer of 64 bits in groups of so many digits, counted from the last one."""
    call = _write_i64_grouped if value < 0 else _write_u64_grouped
    _within(value, -(2**63), 2**64 - 1)
    return _some(call(value, ord(separator), _within(every, 0, 255)), "a separator that is a digit or 0")


def write_scaled(value, places):
    """An amount in units of its last place: -1250 of 2 places is b"-12.50"."""
    return _some(_write_scaled(_within(value, -(2**63), 2**63 - 1), _within(places, 0, 2**64 - 1)),
                 MESSAGES[BAD_PLACES])


def write_price(value, places, separator=b",", point=b"."):
    """The same in groups of three digits, or in none by b""."""
    text = _write_price(_within(value, -(2**63), 2**63 - 1), _within(places, 0, 2**64 - 1),
                        ord(separator or b"\0"), ord(point))
    return _some(text, MESSAGES[BAD_PLACES])


def write_f64(value, layout=LAYOUT_USUAL):
    """The shortest text of a float that is read as the same float; by a LAYOUT_... A ValueError says
    that it isn't finite."""
    return _some(_write_f64(value, _within(layout, LAYOUT_USUAL, LAYOUT_EXPONENT)),
                 "a float that isn't finite has no text")


def write_f32(value, layout=LAYOUT_USUAL):
    """The same of the f32 nearest to a float."""
    return _some(_write_f32(value, _within(layout, LAYOUT_USUAL, LAYOUT_EXPONENT)),
                 "a float that isn't finite has no text")


def write_fixed(value, places):
    """A float with a fixed number of places, as format(value, ".2f") has it."""
    return _some(_write_fixed(value, _within(places, 0, 2**31), room=311 + places),
                 "a float that isn't finite has no text")


def write_scientific(value, places, exponent=EXPONENT_SIGNED):
    """A float with one digit before the point and an exponent, as format(value, ".2e") has it; by
    EXPONENT_SHORT 1.23e3 in place of 1.23e+03."""
    exponent = _within(exponent, EXPONENT_SIGNED, EXPONENT_SHORT)
    return _some(_write_scientific(value, _within(places, 0, 2**31), exponent, room=8 + places),
                 "a float that isn't finite has no text")


def write_number(value, form=FORM_JSON):
    """A float, or an int of 64 bits, as a FORM_.. has it. A ValueError says that the form has no such
    number, as JSON no NaN and source code none below 0."""
    if isinstance(value, int):
        text = _write_i64_of(_within(value, -(2**63), 2**63 - 1), form)
    else:
        text = _write_f64_of(value, form)
    return _some(text, "the form has no such number")
