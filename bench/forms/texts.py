"""The texts that a form is asked, made from its separator, marks, prefixes and names."""
import itertools
import random
import struct
import sys
from decimal import Decimal
from pathlib import Path

sys.path.insert(0, str(Path(__file__).resolve().parent.parent.parent / ".ci"))
from forms import forms, names_of, separator  # noqa: E402

FORMS = {name: form for part in forms().values() for name, (_, form) in part.items()}
DIGITS = {"binary": ("b", "01"), "octal": ("o", "01234567"),
          "hexadecimal": ("x", "0123456789abcdef")}


def double(bits):
    return struct.unpack(">d", struct.pack(">Q", bits))[0]


class Shape:
    """What the texts of a form are made of."""

    def __init__(self, name):
        form = FORMS[name]
        words = [form["integers"][it] for it in ("decimal", *DIGITS) if form["integers"][it]]
        self.form, self.name = form, name
        self.is_signed = form["signs"] != "Absent"
        self.separator = next(filter(None, map(separator, words)), "")
        self.mark, self.point = form["marks"]["exponent"], form["marks"]["point"]
        self.marks = self.mark + (form.get("other_mark") or "")
        self.prefixes = [DIGITS[it] for it in DIGITS if form["integers"][it]]
        self.has_hex = form["hex_floats"] != "Absent"
        self.names = names_of(form)

    def alphabet(self):
        """The bytes that mean something in the form, and one that doesn't."""
        letters = "".join(letter for letter, _ in self.prefixes)
        upper = letters[-1:].upper() if self.form["integers"]["upper"] else ""
        hexadecimal = "a" * ("x" in letters) + "p" * self.has_hex
        return "".join(dict.fromkeys("019" + self.point + self.marks + "+-" + self.separator
                                     + letters + upper + hexadecimal + ("" if letters else "x")))

    def short(self, most):
        """All texts of up to so many bytes."""
        for length in range(1, most + 1):
            yield from map("".join, itertools.product(self.alphabet(), repeat=length))

    def skeletons(self, most_separators):
        """A sign, a prefix, a digit of the integer, a point, a digit of the fraction, a mark, its
        sign, a digit of the exponent: each is there or not, and between any two a separator or
        none."""
        signs = ["", "-", "+"] if self.is_signed else [""]
        prefixes = ["", "0", *("0" + letter for letter, _ in self.prefixes)]
        for sign, prefix in itertools.product(signs, prefixes):
            marks = ["", *self.marks, *("p" * (self.has_hex and prefix == "0x"))]
            digit = "7" if prefix in ("0", "0o") else "1"
            slots = [["", digit], ["", self.point], ["", digit], marks, ["", "+", "-"], ["", "2"]]
            for parts in itertools.product(*slots):
                yield from self.separated([sign + prefix, *filter(None, parts)], most_separators)

    def separated(self, parts, most):
        """The parts with at most so many separators between any two."""
        gaps = range(1, len(parts) + 1) if self.separator else []
        for count in range(min(most, len(gaps)) + 1):
            for chosen in itertools.combinations(gaps, count):
                yield "".join(self.separator * (n in chosen) + part for n, part in
                              enumerate([*parts, ""]))

    def two_of_a_kind(self):
        """Two digits in one component, and between them up to two separators; what may follow; and
        upper case."""
        plain = set(self.skeletons(0))
        between = ["", self.separator, self.separator * 2] if self.separator else [""]
        for text in plain:
            for at, byte in enumerate(text):
                if byte.isdigit():
                    yield from (text[:at + 1] + it + byte + text[at + 1:] for it in between)
            yield from (text + it for it in [".", "a", "_", "9", "-", "+", self.mark, "max", ".."])
            yield text.upper()

    def of_names(self):
        """The names with signs, in any case, cut, and with more bytes."""
        for sign in ("", "-", "+", "--"):
            for name in [*self.names, "inf", "nan", "infinity", "Infinity", "NaN", "INF", "null"]:
                cases = (name, name.lower(), name.upper(), name.capitalize())
                yield from (sign + it for case in cases
                            for it in (case, case[:-1], case + "x", case + "1"))

    def texts(self, most, most_separators, longer):
        """All of them, and longer ones by chance. Where few bytes mean something, the short texts
        have one more."""
        most += len(self.alphabet()) <= 8
        made = itertools.chain(self.short(most), self.skeletons(most_separators),
                               self.two_of_a_kind(), self.of_names(),
                               itertools.islice(iter(Longer(self).text, None), longer))
        return list(dict.fromkeys(filter(None, made)))


class Longer:
    """Longer texts by chance, always the same."""

    def __init__(self, shape):
        self.shape, self.chance = shape, random.Random(shape.name)
        self.signs = ["", "", "", "-", "+", "--"] if shape.is_signed else [""]

    def digits(self, digits, *most):
        most = self.chance.choice(most)
        text = "".join(self.chance.choices(digits, k=self.chance.randint(1, most)))
        while self.shape.separator and self.chance.random() < 0.2:
            at = self.chance.randint(0, len(text))
            text = text[:at] + self.shape.separator + text[at:]
        return text

    def exponent(self, marks):
        mark = self.chance.choice(marks) + self.chance.choice(["", "", "+", "-"])
        return mark + self.digits("0123456789", 1, 2, 3, 3, 4)

    def decimal(self):
        whole = self.digits("0123456789", 2, 8, 20, 45)
        whole = self.chance.choice([whole, whole.lstrip("0"), whole.lstrip("0"), ""])
        point = self.chance.choice(["", ".", "." + self.digits("0123456789", 2, 8, 20, 40)])
        marks = self.shape.marks + self.shape.marks.upper()
        return whole + point + self.chance.choice(["", self.exponent(marks)])

    def prefixed(self):
        letter, digits = self.chance.choice([*self.shape.prefixes, ("", "01234567")])
        text = "0" + self.chance.choice([letter, letter, letter.upper()])
        text += self.digits(digits + digits[10:].upper(), 2, 10, 20, 36, 140)
        if self.shape.has_hex:
            text += self.chance.choice(["", "", ".", "." + self.digits(digits, 9)])
        return text + self.chance.choice(["", "", self.exponent("pP" if letter == "x" else "e")])

    def integer(self):
        power = 1 << self.chance.choice([8, 16, 31, 32, 53, 63, 64, 127, 128])
        below = self.chance.randrange(1 << self.chance.randint(1, 140))
        return str(self.chance.choice([below, power + self.chance.randint(-2, 2)]))

    def near_tie(self):
        """17 to 25 digits of the middle between two floats."""
        bits = self.chance.randrange(1 << 52, 0x7FE << 52)
        middle = (Decimal(double(bits)) + Decimal(double(bits + 1))) / 2
        number = f"{middle:.{self.chance.randint(16, 24)}e}"
        return self.chance.choice([number, number.replace("e", "1e"), number.replace("e", "0e")])

    def text(self):
        kinds = [self.decimal, self.decimal, self.prefixed, self.integer, self.near_tie]
        text = self.chance.choice(self.signs) + self.chance.choice(kinds)()
        if self.chance.random() < 0.2:
            at = self.chance.randint(0, len(text))
            more = [*self.shape.alphabet(), "..", ".max", "u8", "L", "n", "0d", "8", "b", "inf"]
            text = text[:at] + self.chance.choice(more) + text[at:]
        return text
