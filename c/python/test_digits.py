#!/usr/bin/env python3
"""Each call with a number or a fault. Their answers are those of test.c."""
import decimal
import doctest
import functools
import io
import math
import mmap
import os
import random
import shutil
import signal
import struct
import subprocess
import sys
import tempfile
import unittest

import digits


class Calls(unittest.TestCase):
    def fails(self, status, at, call, *rest):
        with self.assertRaises(digits.Fault) as caught:
            call(*rest)
        self.assertEqual((caught.exception.status, caught.exception.at), (status, at))

    def test_integers(self):
        self.assertEqual(digits.read_i64(b"-9223372036854775808;"), (-2**63, 20))
        self.assertEqual(digits.read_u64(b"x=18446744073709551615", 2), (2**64 - 1, 22))
        self.fails(digits.OVERFLOW, 19, digits.read_u64, b"18446744073709551616")
        self.fails(digits.BAD_START, 3, digits.read_i64, b"12", 3)
        self.assertEqual(digits.parse_i32(b"-2147483648"), -2**31)
        self.fails(digits.INVALID, 1, digits.parse_u32, b"1_0")
        self.assertEqual(digits.read_i64(b"-1_000 m", 0, digits.WORD_PYTHON_LITERAL), (-1000, 6))
        word = digits.make_word(10, ord("_"), digits.FLAG_INTEGER_INTERNAL)
        self.assertEqual(digits.parse_u32(b"70_000", word), 70000)
        self.fails(digits.BAD_WORD, 0, digits.parse_i64, b"1", digits.make_word(1))

    def test_floats(self):
        self.assertEqual(digits.read_f64(b"-1.5e3,2"), (-1500.0, 6))
        self.assertEqual(digits.parse_f32(b"16777217"), 16777216.0)
        self.assertEqual(digits.parse_f64(b"1_234.5e-1", digits.WORD_PYTHON_LITERAL), 123.45)
        self.fails(digits.EMPTY_EXPONENT, 3, digits.read_f64, b"1e+")

    def test_scaled(self):
        commas = digits.make_word(10, ord(","), digits.FLAG_INTEGER_INTERNAL)
        self.assertEqual(digits.read_scaled(b"$1,234.50", 1, 2, commas), (123450, 9))
        self.assertEqual(digits.parse_scaled(b"3,5", 1, point=b","), 35)
        self.fails(digits.TOO_FINE, 4, digits.parse_scaled, b"0.125", 2)

    def test_prices(self):
        commas = digits.make_word(10, ord(","), digits.FLAG_INTEGER_INTERNAL)
        self.assertEqual(digits.read_price(b"1,234.50 EUR", 0, 2), (123450, 8))
        self.assertEqual(digits.read_price(b"$1,234.50", 1, 2, word=commas), (123450, 9))
        self.assertEqual(digits.parse_price(b"1.234,50", 2, b".", b","), 123450)
        self.assertEqual(digits.parse_price(b"1234,50", 2, b"", b","), 123450)
        self.assertEqual(digits.parse_price(b"1,234.5", 1, word=commas), 12345)
        self.fails(digits.GROUP, 3, digits.parse_price, b"12,34.50", 2)
        self.fails(digits.PLACES, 7, digits.parse_price, b"1,234.5", 2)
        self.fails(digits.BAD_WORD, 0, digits.parse_price, b"1", 2, b"7")
        self.fails(digits.BAD_WORD, 0, digits.parse_price, b"1", 2, b",", b".",
                   digits.WORD_OCTAL)

    def test_literals(self):
        self.assertEqual(digits.read_literal(b"0xff_u8", 0, digits.LANGUAGE_RUST),
                         ((255, 2, 16), 5))
        self.assertEqual(digits.read_literal(b"36893488147419103232", 0, digits.LANGUAGE_GO),
                         ((2**65, 0, 10), 20))
        self.fails(digits.FIRST_ZERO, 0, digits.read_literal, b"01", 0, digits.LANGUAGE_PYTHON)

    def test_numbers(self):
        self.assertEqual(digits.read_number(b"[-1.5e3,-7]", 8), (-7, 10))
        self.assertEqual(digits.parse_number(str(2**128 - 1).encode()), 2**128 - 1)
        self.assertEqual(digits.read_number(b"-inf,", 0, digits.FORM_TOML), (float("-inf"), 4))
        self.assertIsInstance(digits.parse_number(b"1e2"), float)
        self.assertIsInstance(digits.parse_number(b"100"), int)
        self.fails(digits.BAD_FORM, 0, digits.parse_number, b"1", 2**32 - 1)

    def test_lists(self):
        numbers, end = digits.read_i64_list(b"[1, -2 ,3]", 1)
        self.assertEqual((numbers.tolist(), numbers.typecode, end), ([1, -2, 3], "q", 9))
        many = list(range(10000))
        text = "\n".join(map(str, many)).encode()
        self.assertEqual(digits.read_u64_list(text, 0, b"\n")[0].tolist(), many)
        self.assertEqual(digits.read_i64_list(bytearray(b" 1\t2  "), 0, b" ")[1], 6)
        self.assertEqual(digits.read_f64_list(b"1.5;-2e3", 0, b";")[0].tolist(), [1.5, -2000.0])
        self.fails(digits.EMPTY, 2, digits.read_i64_list, b"1,x")
        self.fails(digits.BAD_START, 4, digits.read_i64_list, b"1,x", 4)

    def test_lists_of_a_form(self):
        numbers, end = digits.read_number_list(b"[1, -2.5, 1e2 ,18446744073709551616]", 1)
        self.assertEqual((numbers, end), ([1, -2.5, 100.0, 2**64], 35))
        self.assertEqual([type(it) for it in numbers], [int, float, float, int])
        many = list(range(10000))
        self.assertEqual(digits.read_number_list(repr(many).encode(), 1)[0], many)
        self.assertEqual(digits.read_number_list(b"1_0 -inf", 0, b" ", digits.FORM_TOML)[0],
                         [10, float("-inf")])
        self.fails(digits.EMPTY, 3, digits.read_number_list, b"1, +2")
        self.fails(digits.BAD_FORM, 0, digits.read_number_list, b"1", 0, b",", 1000)
        with self.assertRaises(digits.Fault) as caught:
            digits.read_number_list(b"1,2,x")
        self.assertEqual(caught.exception.numbers, [1, 2])

    def test_whole_lists(self):
        numbers = digits.parse_i64_list(b" 1, -2 ")
        self.assertEqual((numbers.tolist(), numbers.typecode), ([1, -2], "q"))
        many = list(range(10000))
        text = "\n".join(map(str, many)).encode()
        self.assertEqual(digits.parse_u64_list(text, b"\n").tolist(), many)
        self.assertEqual(digits.parse_u64_list(b"1 " * 9 + b"1", b" ").tolist(), [1] * 10)
        self.assertEqual(digits.parse_f64_list(bytearray(b"1.5 -2e3 "), b" ").tolist(), [1.5, -2000.0])
        self.assertEqual(digits.parse_i64_list(b"", b"\n").tolist(), [])
        self.fails(digits.EMPTY, 0, digits.parse_i64_list, b"")
        with self.assertRaises(digits.Fault) as caught:
            digits.parse_i64_list(b"1,2]")
        fault = caught.exception
        self.assertEqual((fault.status, fault.at, fault.numbers.tolist()), (digits.INVALID, 3, [1, 2]))
        self.assertEqual(digits.parse_number_list(b"1, 2.5,1e2"), [1, 2.5, 100.0])
        self.assertEqual(digits.parse_number_list(b"1_0 -inf", b" ", digits.FORM_TOML),
                         [10, float("-inf")])
        self.fails(digits.INVALID, 3, digits.parse_number_list, b"1,01")
        self.assertEqual(digits.parse_i64_list.__name__, "parse_i64_list")

    def test_scaled_pieces(self):
        numbers, at, is_more = digits.read_scaled_piece(b"1.5, -20 ,3.2", 0, b",", False, 2)
        self.assertEqual((numbers.tolist(), at, is_more), ([150, -2000], 10, True))
        self.fails(digits.TOO_FINE, 4, digits.read_scaled_piece, b"0.125", 0, b",", True, 2)
        self.fails(digits.BAD_PLACES, 0, digits.read_scaled_piece, b"1", 0, b",", True, 39)
        cents = functools.partial(digits.read_scaled_piece, places=2)
        text = "\n".join(f"{n // 100}.{n % 100:02}" for n in range(5000)).encode()
        for size in (1, 7, 4096):
            read = digits.numbers_of(io.BytesIO(text), b"\n", cents, size)
            self.assertEqual(list(read), list(range(5000)))

    def test_price_pieces(self):
        numbers, at, is_more = digits.read_price_piece(b"1,000.50; -2.00 ;3.2", 0, b";", False, 2)
        self.assertEqual((numbers.tolist(), at, is_more), ([100050, -200], 17, True))
        self.fails(digits.GROUP, 0, digits.read_price_piece, b"1000.50", 0, b";", True, 2)
        prices = functools.partial(digits.read_price_piece, places=2)
        text = "\n".join(f"{n // 100:,}.{n % 100:02}" for n in range(0, 500000, 77)).encode()
        for size in (1, 7, 4096):
            read = digits.numbers_of(io.BytesIO(text), b"\n", prices, size)
            self.assertEqual(list(read), list(range(0, 500000, 77)))

    def test_blocks(self):
        starts = [digits.block_start(b"12,345,6", at) for at in (0, 1, 3, 4, 8, 9)]
        self.assertEqual(starts, [0, 3, 3, 7, 8, 8])
        self.assertEqual(list(digits.blocks(b"12,345,6", 1)), [(0, 3), (3, 7), (7, 8)])
        self.assertEqual(list(digits.blocks(b"1 2\n3 ", 2, b" ")), [(0, 2), (2, 4), (4, 6)])
        self.assertEqual(list(digits.blocks(b"12,345,6", 99)), [(0, 8)])
        self.assertEqual(list(digits.blocks(b"", 1)), [(0, 0)])
        self.assertRaises(ValueError, next, digits.blocks(b"1", 0))
        many = list(range(5000))
        text = "\n".join(map(str, many)).encode()
        for size in (1, 1000, len(text)):
            numbers = []
            for begin, end in digits.blocks(text, size, b"\n"):
                part, at, is_more = digits.read_i64_piece(text[begin:end], 0, b"\n", end == len(text))
                numbers += part
                self.assertEqual((begin + at, is_more), (end, end < len(text)))
            self.assertEqual(numbers, many)

    def test_bytes(self):
        self.assertEqual(digits.past_blanks(b"\t \n1"), 3)
        self.assertEqual(digits.expect_byte(b"1 :2", 1, b":"), 3)
        self.fails(digits.OTHER_BYTE, 3, digits.expect_byte, b"1 :2", 3, b":")
        self.assertEqual(digits.open_list(b" [ 1]"), (3, False))
        self.assertEqual(digits.open_list(b"x( )", 1, b"(", b")"), (4, True))
        self.fails(digits.OTHER_BYTE, 0, digits.open_list, b"1")

    def test_pieces(self):
        numbers, at, is_more = digits.read_i64_piece(b"1, -2 ,34", 0, b",", False)
        self.assertEqual((numbers.tolist(), at, is_more), ([1, -2], 7, True))
        numbers, at, is_more = digits.read_f64_piece(b"345]", 0, b",", False)
        self.assertEqual((numbers.tolist(), at, is_more), ([345.0], 3, False))
        self.assertEqual(digits.read_number_piece(b"1,1e+", 0, b",", False), ([1], 2, True))
        self.assertEqual(digits.read_number_piece(b"1,1e+", 0, b",", True), ([1, 1], 3, False))
        self.fails(digits.EMPTY, 2, digits.read_u64_piece, b"1;x", 0, b";", False)
        self.assertEqual(digits.sure_end(b"1.5,-2"), 4)
        self.assertEqual(digits.sure_end(b"[1,1e+", form=digits.FORM_JSON), 3)
        self.assertEqual(digits.sure_end(b"x1_000", word=digits.WORD_PYTHON_LITERAL), 1)

    def test_numbers_of_a_file(self):
        many = list(range(-5000, 5000))
        text = "\n".join(map(str, many)).encode()
        of_toml = functools.partial(digits.read_number_piece, form=digits.FORM_TOML)
        for size in (1, 7, 4096, len(text), len(text) + 1):
            read = digits.numbers_of(io.BytesIO(text), b"\n", digits.read_i64_piece, size)
            self.assertEqual(list(read), many)
        self.assertEqual(list(digits.numbers_of(io.BytesIO(b"1_0, -inf"), b",", of_toml, 3)),
                         [10, float("-inf")])
        self.assertEqual(list(digits.numbers_of(io.BytesIO(b""), size=1)), [])
        for text in (b"1.5 2 ] 3", b"1.5 2 ]"):
            read = digits.numbers_of(io.BytesIO(text), size=2)
            self.assertEqual([next(read), next(read)], [1.5, 2.0])
            self.fails(digits.INVALID, 6, next, read)
        read = digits.numbers_of(io.BytesIO(b"1 2 3e ]"), size=3)
        self.assertEqual([next(read), next(read)], [1.0, 2.0])
        self.fails(digits.EMPTY_EXPONENT, 6, next, read)

    def test_numbers_as_they_come(self):
        signal.alarm(20)  # a read that waits for more ends the tests
        for buffering in (-1, 0):
            here, there = os.pipe()
            with open(here, "rb", buffering) as file, open(there, "wb", 0) as pipe:
                numbers = digits.numbers_of(file, b",")
                for text, number in ((b"1.5,", 1.5), (b" -2e3 ,", -2000.0), (b"3,4", 3.0)):
                    pipe.write(text)
                    self.assertEqual(next(numbers), number)
                pipe.write(b"5")
                pipe.close()
                self.assertEqual(list(numbers), [45.0])
        signal.alarm(0)

    def test_a_file_that_does_not_wait(self):
        for buffering in (-1, 0):
            here, there = os.pipe()
            os.set_blocking(here, False)
            with open(here, "rb", buffering) as file, open(there, "wb", 0) as pipe:
                numbers = digits.numbers_of(file, b",")
                pipe.write(b"1,2")
                self.assertEqual(next(numbers), 1.0)
                with self.assertRaisesRegex(BlockingIOError, "the file has no bytes yet"):
                    next(numbers)

    def test_a_file_of_text(self):
        class Text:  # a file of a kind of its own
            def read(self, _size):
                return "1 2"

        words = "the file gives text, not bytes: open it with mode 'rb'"
        with tempfile.NamedTemporaryFile() as there:
            there.write(b"\xff 1")  # no text at all
            there.flush()
            with open(there.name, encoding="utf8") as file, self.assertRaisesRegex(TypeError, words):
                digits.numbers_of(file)
        with self.assertRaisesRegex(TypeError, words):
            digits.numbers_of(io.StringIO("1 2"))
        with self.assertRaisesRegex(TypeError, words):
            next(digits.numbers_of(Text()))
        with self.assertRaisesRegex(TypeError, r"'floats.txt' is no file: pass one that is open for"):
            digits.numbers_of("floats.txt")

    def imports(self, folder):
        """What an import says that takes the library of a folder, and its status."""
        ran = subprocess.run([sys.executable, "-B", "-c", "import digits"], capture_output=True,
                             cwd=os.path.dirname(digits.__file__), encoding="utf8", check=False,
                             env={**os.environ, "DIGITS_LIB": folder})
        return ran.returncode, ran.stderr

    def test_no_library(self):
        with tempfile.TemporaryDirectory() as folder:
            status, said = self.imports(folder)
        if status:  # the system may have one
            self.assertIn(f"OSError: no libdigits.so in {folder}, and none of the system: "
                          "`make -C c` makes it, and DIGITS_LIB may name its folder", said)

    @unittest.skipUnless(shutil.which("cc"), "there is no C compiler")
    def test_an_older_library(self):
        with tempfile.TemporaryDirectory() as folder:
            path = os.path.join(folder, "libdigits.so")
            subprocess.run(["cc", "-shared", "-o", path, "-x", "c", os.devnull], check=True)
            status, said = self.imports(folder)
        self.assertEqual(status, 1)
        self.assertRegex(said, rf"OSError: {path} has no digits_\w+: it is older than .*digits.py. "
                               "`make -C c` makes it anew")

    def test_writes(self):
        self.assertEqual(digits.write_i64(-(2**63)), b"-9223372036854775808")
        self.assertEqual(digits.write_u64(2**64 - 1), b"18446744073709551615")
        self.assertEqual((digits.write_i32(-7), digits.write_u32(7)), (b"-7", b"7"))
        self.assertRaises(OverflowError, digits.write_i64, 2**63)
        self.assertRaises(OverflowError, digits.write_u32, -1)
        self.assertEqual(digits.write_grouped(-1234567), b"-1,234,567")
        self.assertEqual(digits.write_grouped(2**64 - 1, b"_", 1).replace(b"_", b""),
                         b"18446744073709551615")
        self.assertRaises(ValueError, digits.write_grouped, 1, b"7")
        self.assertEqual(digits.write_scaled(-1250, 2), b"-12.50")
        self.assertEqual(digits.write_price(123450, 2), b"1,234.50")
        self.assertEqual(digits.write_price(123450, 2, b"", b","), b"1234,50")
        self.assertRaises(ValueError, digits.write_scaled, 1, 39)
        self.assertRaises(ValueError, digits.write_f64, float("nan"))
        self.assertRaises(ValueError, digits.write_fixed, float("-inf"), 2)
        self.assertRaises(OverflowError, digits.write_f64, 1.5, 3)
        self.assertEqual(digits.write_f32(0.1), b"0.1")
        self.assertEqual(digits.write_f64(1.5, digits.LAYOUT_EXPONENT), b"1.5e0")
        self.assertEqual(digits.write_scientific(1234.5, 2, digits.EXPONENT_SHORT), b"1.23e3")
        self.assertRaises(ValueError, digits.write_scientific, float("inf"), 2)
        self.assertRaises(OverflowError, digits.write_scientific, 1.5, 2, 2)

    def test_writes_by_a_form(self):
        self.assertEqual(digits.write_number(2.0), b"2.0")
        self.assertEqual(digits.write_number(-(2**63)), b"-9223372036854775808")
        self.assertEqual(digits.write_number(float("-inf"), digits.FORM_TOML), b"-inf")
        self.assertEqual(digits.write_number(1e16, digits.FORM_ERLANG), b"1.0e16")
        self.assertRaises(ValueError, digits.write_number, float("nan"))
        self.assertRaises(ValueError, digits.write_number, -3, digits.FORM_RUST)
        self.assertRaises(OverflowError, digits.write_number, 2**63)

    def test_writes_beside_python(self):
        source = random.Random(1)
        for _ in range(20000):
            x = struct.unpack("d", source.randbytes(8))[0]
            if math.isfinite(x):
                text = digits.write_f64(x)
                self.assertEqual(float(text), x)
                self.assertEqual(decimal.Decimal(text.decode()), decimal.Decimal(repr(x)))
                self.assertEqual(digits.write_fixed(x, 3).decode(), format(x, ".3f"))
                self.assertEqual(digits.write_scientific(x, 5).decode(), format(x, ".5e"))
                self.assertEqual(digits.parse_number(digits.write_number(x)), x)
            n = source.getrandbits(source.randrange(1, 64)) * source.choice((-1, 1))
            self.assertEqual(digits.write_i64(n).decode(), str(n))
            self.assertEqual(digits.write_grouped(n).decode(), f"{n:,}")
            self.assertEqual(digits.write_grouped(n, b"_").decode(), f"{n:_}")
            self.assertEqual(digits.write_price(n, 2).decode(),
                             f"{decimal.Decimal(n).scaleb(-2):,.2f}")
            self.assertEqual(digits.parse_price(digits.write_price(n, 2), 2), n)

    def test_texts(self):
        text = b"  1234;"
        with mmap.mmap(-1, len(text)) as pages:
            pages.write(text)
            for whole in (text, bytearray(text), memoryview(text), pages):
                self.assertEqual(digits.read_i64(whole, 2), (1234, 6))
            self.assertEqual(digits.parse_i64(memoryview(text)[2:6]), 1234)
        self.fails(digits.EMPTY, 0, digits.parse_i64, bytearray())
        self.assertRaises(TypeError, digits.parse_i64, "12")
        self.assertRaises(BufferError, digits.parse_i64, memoryview(b"1234")[::2])


def load_tests(loader, tests, pattern):
    tests.addTests(doctest.DocTestSuite(digits))
    return tests


if __name__ == "__main__":
    unittest.main()
