"""Whether a form and a tool agree on a text, and if not, the reason that the pages tell.

docs/reference/forms.md tells the reasons of all forms, and the comment of a form those of its
own."""
import re
import struct

from texts import double

# Of all forms.
ABOVE_128 = "an integer above 128 bits"
OUT_OF_RANGE = "a float out of range"
ROUNDING = "a float that the tool doesn't round to the nearest"
WIDE = "an integer too wide for the tool"
# the bits of an integer of a tool; others have 63 and a sign, or more
WIDTH = {"SCALA": 31, "KOTLIN": 63, "OCAML": 62, "R": 53}
# The forms whose tool leaves out the upper bits of an integer that is too wide for it.
WRAPS = {"NIM"}
# The forms whose tool doesn't always round to the nearest float, and from how many digits on.
ROUGH = {"COBOL": 1, "CSHARP": 1, "CSHARP_PARSE": 1, "D": 16, "R": 15, "SQLITE": 1, "PHP": 17,
         "RUBY": 60, "RUBY_FLOAT": 14, "OCAML": 1}
# Of one form: a reason, and what the longer one of the two numbers is in full.
PARENTHESES = ("what follows `nan` in parentheses", r"[-+]?nan\(.*")
OWN = {
    "STRTOD": [PARENTHESES],
    "FROM_CHARS": [PARENTHESES],
    "PYTHON": [("zeros before an integer", r"[0_]+")],
    "RUBY": [("the prefix `0d`", r"0[dD].*")],
    "RUBY_FLOAT": [("a hexadecimal float without an integer digit", r"[-+]?0[xX]\..*"),
                   ("a separator between hexadecimal digits", r"[-+]?0[xX].*_.*"),
                   ("a text of 60 bytes or more", r".{60,}")],
    "R": [("a hexadecimal float without a digit", r"0[xX]\.[pP].*")],
    "CSHARP_PARSE": [("a zero has no sign", r"-[0.,]+(?:[eE].*)?")],
    "EDN": [("a radix mark", r".*[rR].*")],
    "SCHEME": [("a radix mark", r"#.*"), ("a complex number", r"[-+].*[iI]"),
               ("a digit that isn't known", r".*[0-9]#.*"),
               ("another mark", r".*[0-9.][sflSFL].*"),
               ("a large exponent", r".*[eEdD][-+]?[0-9]{3,}")],
    "OCTAVE": [("a separator after a point", r"[0-9_]*\._.*")],
    "FORTRAN_READ": [PARENTHESES, ("two signs", r"[-+]{2,}.*"), ("a kind", r".*[qQ].*"),
                     ("no digit", r"[-+]?\.?(?:[eEdDqQ].*)?"),
                     ("an exponent without a letter", r"[-+]?[0-9.]+[-+].*"),
                     ("a large exponent", r".*[eEdD][-+]?[0-9]{4,}")],
    "STR2DOUBLE": [("a comma", r".*,.*"), ("two signs", r"[-+]{2,}.*"),
                   ("`.nan`", r"[-+]*\.[nN][aA][nN].*"), ("a complex number", r".*[iIjJ]")],
    "POSTGRESQL_NUMERIC": [("a zero has no sign", r"-[0.]+(?:[eE].*)?")],
    "ERLANG": [("a radix mark", r".*#.*")],
    "HCL": [("a point without a fraction before an exponent", r"[0-9]+\.[eE].*")],
    "COBOL": [("a zero has no sign", r"-[0.]+(?:[eE].*)?"),
              ("more than 38 digits", r"[-+]?(?:[0-9.]){39,}.*"),
              ("a point without a fraction before an exponent", r"[-+]?[0-9]*\.[eE].*")],
    "COFFEESCRIPT": [("`E` as a mark", r".*E.*"),
                     ("separators after a first 0 of an infinite number", r"0_[0-9_]*e.*")],
    "NIM": [("`0O`", r"0O.*")],
    "D": [("a first 0", r"0[0-9_]+.*"),
          ("a hexadecimal float without digits", r"0[xX][_.]*[pP].*")],
    "CSHARP": [("a separator, by Mono's compiler", r".*_.*"),
               ("a long binary integer", r"0[bB][01]{64,}")],
    "SCALA": [("separators, before Scala 2.13", r".*_.*")],
    "MYSQL": [("a string of bytes", r"0[xb].*"), ("more than 65 digits", r"[0-9.]{66,}")],
    "ADA": [("an exponent of an integer", r"[0-9_]+[eE].*"), ("a radix mark", r".*#.*")],
    "XML_DOUBLE": [("an exponent without digits, by libxml2", r".*[eE][-+]?")],
    "DECIMAL": [("more than 24 digits", r"[-+]?(?:[0-9.]){25,}")],
    "HASKELL": [("a separator before the mark", r".*\d_+[eE].*"),
                ("a separator before a float", r"_+[0-9].*"),
                ("a hexadecimal float", r"0[xX].*[.pP].*")],
    "PERL": [("a float in radix 16, 8 or 2", r"0.*[pP].*"),
             ("a separator at the start of a fraction", r"_?\._.*"),
             ("a separator before an exponent's sign", r".*[eE]_+[-+].*")],
}

# Where a byte after a point says that it is none. The tool is asked the text up to the point, and
# takes it.
BARRED = "a point before what bars it"
AFTER_POINT = {
    "POSTGRESQL": r"[0-9]+\.\..*",
    "D": r"[0-9a-fA-FxX_]+\.[._a-zA-Z].*",
    "OCTAVE": r"[0-9_]+\.[*/\\^'].*",
}


def to_bits(integer):
    try:
        return int(struct.pack(">d", float(integer)).hex(), 16)
    except OverflowError:
        return 0x7FF << 52


def is_same(form, kind, number, said):
    """Whether our number is what the tool says: `i` and an integer; `f` and the bits of a float, or
    `d` where integers are floats; `?` for what it can't hold; `v` and bits for a value alone."""
    is_large = form["whole"] == "LargeIsFloat"
    if said[1:] == "?":
        return said[0] == ("f" if kind == "f" else "i") or is_large and kind != "f"
    if said[0] == "i" and kind != "f":
        return int(said[1:]) == (-number if kind == "-" else number)
    if said[0] == "i":
        return is_large and number == to_bits(int(said[1:])) and number >= 0x47F << 52
    bits = int(said[1:], 16)
    if kind == "f" and double(number) != double(number):
        return double(bits) != double(bits)
    is_float = kind == "f" or said[0] in "dv" or is_large and number >> 63
    return is_float and bits == (number if kind == "f" else to_bits(number) | (kind == "-") << 63)


def is_out_of_range(text, kind, number):
    """Whether digits that aren't all 0 are an infinity, zero or a subnormal number, or the exponent
    of a zero has four digits."""
    exponent = number >> 52 & 0x7FF
    has_digits = re.search("[1-9a-f]", re.split("[eEpPdD]", text)[0] if "x" not in text.lower()
                           else re.split("[pP]", text.lower().partition("x")[2])[0])
    is_long = re.search(r"[eEdD][-+]?[0-9_]{4,}$", text)
    return kind == "f" and (has_digits or is_long) and exponent in (0, 0x7FF)


def is_rough(name, text, kind, number, said):
    """Whether a tool that isn't always exact answers a float of the nearest four."""
    digits = len(re.sub("[^0-9a-fA-F]", "", text))
    bits = number if kind == "f" else to_bits(number) | (kind == "-") << 63
    is_float = said[0] in "fd" and said[1:] != "?"
    return digits >= ROUGH.get(name, 1000) and is_float and abs(int(said[1:], 16) - bits) <= 4


def difference(name, form, text, ours, longest, said):
    """Nothing, if both agree; or the kind of the difference, and whether it is told."""
    kind, number, end = ours
    if kind == "n":
        found = "it reads what we refuse" if longest else None
    elif kind == "o":
        is_large = said in ("-", "i?", "f?") or said[0] in "fdv" or abs(int(said[1:])) >> 128
        return (ABOVE_128, True) if is_large or name in WRAPS else ("not above 128 bits", False)
    elif longest != end:
        found = "its number is longer" if longest > end else "its number is shorter, or none"
    else:
        found = None if is_same(form, kind, number, said) else "another value"
    if found is None:
        return None
    if (longest <= end or said == "f?") and is_out_of_range(text[:end], kind, number):
        return OUT_OF_RANGE, True
    if longest <= end and kind in "i-" and number >> WIDTH.get(name, 63):
        return WIDE, True
    if text[:longest].endswith(".") and re.fullmatch(AFTER_POINT.get(name, "(?!)"), text):
        return BARRED, True
    if found == "another value" and is_rough(name, text[:end], kind, number, said):
        return ROUNDING, True
    number = text[:max(longest, end)]
    told = [why for why, pattern in OWN.get(name, []) if re.fullmatch(pattern, number)]
    return (told[0], True) if told else (found, False)
