"""docs/reference/clauses.md: how to read a clause, and the words of std that clauses have."""
from layout import import_lines, text_of

PAGE = "clauses"

HOW_TO_READ = """# How to read a clause

`ensures end { IfOk result (λ read. (0 < read.1) × (read.1 ≤ length text.now)) }` says: if the \
answer is `Ok(read)`, its second part, the end, is above 0 and at most the length of the text. \
`end` is the clause's name.

- `result` is the answer. `x.old` and `x.new` are what a `&mut` points to before and after the call, \
`x.now` is what a `&` points to, and `x.entry` is the `&mut` itself.
- Unsigned numbers are ℕ, signed ones ℤ, and none overflows. A byte is a number, a slice a \
`List ℕ`; positions count bytes from 0.
- The line *Words* below a contract links to the meaning of each word in it: first those that the \
libraries define ([those of `digits`](words.md)), then those of std, which are listed below. The *Words* of a page are by module: \
`ghost use Rattle.MODULE.{WORD};` imports one. Each links to its definition. The check unfolds an \
`abbrev` by itself; an `unfoldable` word stays closed until `unfolding(..)` of your attribute names it.
- Signs: `a ≡ b` says that both are equal, `P × Q` that both hold, `P ⊎ Q` that one of them does, \
`P → Q` that Q holds if P does, and `P → ⊥` that P doesn't. `(x : T) → P` is about every x, and \
`(x : T) × P` says that there is one. `λ x. e` is a function of x. `a.0` and `a.1` are the parts of a \
pair. `x ∷ list` has x before the list, and `a ++ b` is a list after another. A difference of two ℕ \
stops at 0.
- Words of std; `×`, `→` and `λ` need no import:
"""

# The words of std in clauses: how each is used, and what it says.
MEANINGS = {
    "IfOk": ("IfOk result P", "if the answer is `Ok v`, then `P v`"),
    "IfErr": ("IfErr result P", "if the answer is `Err e`, then `P e`"),
    "OnOk": ("OnOk result P", "if the answer is `Ok`, then `P`"),
    "MatchResult": ("MatchResult result P Q", "`P v` at `Ok v`, and `Q e` at `Err e`"),
    "IfSome": ("IfSome option P", "if it is `Some v`, then `P v`"),
    "IfNone": ("IfNone option P", "if it is `None`, then `P`"),
    "MatchOption": ("MatchOption option P Q", "`P` at `None`, and `Q v` at `Some v`"),
    "IsTrue": ("IsTrue b", "the `bool` is `true`"),
    "not": ("not b", "the other `bool`"),
    "int_lt": ("int_lt a b", "whether a is less than b, as integers of ℤ"),
    "is_some": ("is_some option", "whether it is `Some`"),
    "unwrap_or": ("unwrap_or option d", "its value, and d at `None`"),
    "option_map": ("option_map f option", "the option with f of the value"),
    "option_map_or": ("option_map_or f option d", "f of the value, and d at `None`"),
    "option_copied": ("option_copied o", "the option of the value, for one of a reference"),
    "length": ("length list", "how many elements it has"),
    "take": ("take n list", "its first n elements, or all of fewer"),
    "drop": ("drop n list", "what follows these"),
    "slice_get": ("slice_get list i", "`Some` of the element at a position, or `None` past the end"),
    "slice_index": ("slice_index list i", "the element at a position that the list has"),
    "slice_range": ("slice_range list from to", "the elements of the positions `from..to`"),
    "filter": ("filter test list", "the elements that pass the test"),
    "count_by": ("count_by test list", "how many pass it"),
    "map": ("map f list", "f of each element"),
    "concat": ("concat lists", "the lists one after the other, as one"),
    "replicate": ("replicate n x", "n times x"),
    "All": ("All P list", "`P` of each element"),
    "AllPass": ("AllPass test list", "each element passes the test"),
    "list_all": ("list_all test list", "the same as a `bool`"),
    "iterate": ("iterate f n x", "`f` applied n times"),
    "min": ("min a b", "the lesser of two numbers"),
    "nat_lt": ("nat_lt a b", "whether a < b, as a `bool`"),
    "pos": ("pos n", "a natural number as one of ℤ"),
    "negsuc": ("negsuc n", "the number -(n + 1) of ℤ"),
    "unsigned_abs": ("unsigned_abs z", "its magnitude"),
    "codes": ('codes ".."', "the bytes of a literal"),
    "is_ascii_digit": ("is_ascii_digit byte", "whether it is `0` to `9`"),
    "eq_ignore_ascii_case": ("eq_ignore_ascii_case a b", "the bytes are the same letter in either "
                             "case, or the same byte"),
    "decimal": ("decimal n", "the bytes of a number in radix 10"),
    "sign_text": ("sign_text negative", "a `-`, or nothing"),
    "signed_decimal": ("signed_decimal z", "the bytes of a number of ℤ in radix 10, after a `-` if it "
                       "is below 0"),
    "digits_value": ("digits_value radix digits", "the value of the digits' bytes"),
    "digits_value_after": ("digits_value_after radix before digits", "the value with digits after "
                           "those of `before`"),
    "IsNumeral": ("IsNumeral radix digits", "there is a digit, and each byte is a digit of the radix"),
    "Width": ("Width", "`w8` to `w128`: how many bits a type has"),
    "w32": ("w32", "32 bits"),
    "w64": ("w64", "64 bits"),
    "hbits": ("hbits w", "one less than its bits"),
    "FitsSigned": ("FitsSigned w z", "a signed type of this width has the number"),
    "Format": ("Format", "`binary32` or `binary64`: the formats of `f32` and `f64`"),
    "binary32": ("binary32", "the format of `f32`"),
    "binary64": ("binary64", "the format of `f64`"),
    "Float": ("Float", "the value of a float: `nan`, `inf negative`, or `fin negative m e`, which is m "
              "times 2 ^ e"),
    "nan": ("nan", "the float that is no number"),
    "inf": ("inf negative", "an infinity"),
    "fin": ("fin negative m e", "the float m times 2 ^ e with this sign"),
    "float_zero": ("float_zero", "the float 0.0"),
    "NotNan": ("NotNan x", "the float is a number or an infinity"),
    "is_nan": ("is_nan x", "whether it is neither"),
    "float_is_finite": ("float_is_finite x", "whether it is a number, and no infinity"),
    "float_is_infinite": ("float_is_infinite x", "whether it is an infinity"),
    "is_sign_negative": ("is_sign_negative x", "whether it has a minus"),
    "float_with_sign": ("float_with_sign negative x", "the float with this sign"),
    "neg": ("neg x", "the float with the other sign"),
    "round": ("round format negative a b", "the float nearest to a / b, with this sign; of two as near "
              "the one whose last bit is 0"),
    "closest": ("closest a b", "the whole number nearest to a / b; of two as near the even one"),
    "up": ("up e", "the numerator of 2 ^ e: 1 if e is below 0"),
    "down": ("down e", "its denominator: 1 if e is not below 0"),
    "low": ("low format", "the least float above 0 is 2 ^ -low: 149, and 1074"),
    "prec": ("prec format", "how many binary digits a float has: 24, and 53"),
    "units": ("units format negative q k", "q times 2 ^ k of the least floats above 0"),
    "Parts": ("Parts", "integer, fraction and exponent of a decimal number, as std's `parse` reads "
              "them"),
    "IsWellFormed": ("IsWellFormed parts", "they are those of a number"),
    "text_of": ("text_of parts", "the text that they are read from"),
    "numeral_digits": ("numeral_digits parts", "the digits of integer and fraction as one number"),
    "nearest_float": ("nearest_float format negative parts", "the float nearest to that number"),
    "at_most": ("at_most n", "an iterator has at most n items"),
    "UpTo": ("UpTo count n", "there is a bound on the items, and it is at most n"),
    "IsWithinCount": ("IsWithinCount n count", "n is at most the bound, if there is one"),
    "parse_float": ("parse_float format text", "what std's `parse` answers of a text"),
    "Bor": ("Bor", "a `&mut`, in a ghost member"),
    "GName": ("GName", "the ghost name of a `&mut`"),
    "Keeps": ("Keeps old new", "if it was known which bytes a reader has left, it still has these"),
}
# What words of the libraries say whose definition shares a comment with others, or has none.
SAID = {
    "fold_fault_at": "the position that an error of a fold holds, if it has one; `fault_at` says it of a number's error",
    "enclosed_fault_at": "the position that an error of a list in brackets holds, if it has one; `fault_at` says it of "
                         "a number's error",
    "exactly_at": "the number of exactly n digits that begin here, and where they end, or why there is none",
    "at_most_at": "the number of at least one and at most n digits that begin here, and where they end, or "
                  "why there is none",
    "counted_at": "the digits that begin here, from `few` to `many` of them: their value, if it is at most "
                  "`most`, and where they end; otherwise the first digit with which it is above that, or "
                  "the byte where one more has to be",
    "IfFull": "if the end is `Full at`, then `P at`",
    "IfOver": "if the end is `Over at`, then `P at`",
    "has_separator": "whether a byte that separates is at a position",
    "list_at": "the numbers of a list, as many as there is room for, and why there are no more. The last two "
               "arguments are the room and the start; `one` is the number at a position, and `none_at` "
               "whether an error says that none begins there",
    "parse_at": "the float that the text is from a position on, or why it is none",
    "form_of": "the form that has this number in `c/digits.h`, if there is one",
    "format_form": "the form of a data format that has this number, if there is one",
    "position": "the position that it holds",
    "piece_at": "the numbers of a piece, as many as there is room for, and why there are no more",
    "whole_at": "the numbers of a whole text that may come in pieces: `list_at`, but that `Full` is after "
                "one blank where blanks alone separate",
    "last_start": "the last of some positions; of none the first argument",
    "float_is_empty": "whether it says that there is no digit",
    "language_is_empty": "whether it says that there is no digit",
    "literal_is_empty": "whether it says that there is no digit",
    "number_is_empty": "whether it says that there is no number",
    "price_is_empty": "whether it says that there is no digit",
    "scaled_is_empty": "whether it says that there is no digit",
    "exact_at": "the number at a position with exactly so many places, or why there is none",
    "grouped_at": "the number at a position with groups of three digits, or why there is none",
    "price_at": "the number at a position with both, or why there is none",
    "scientific_text": "the text of a finite float with one digit before the point, so many places after "
                       "it, and an exponent",
    "laid_out": "the text of a number in a layout",
}
# As in Rust, or told above.
KNOWN = {"Ok", "Err", "Some", "None", "true", "false", "List", "Bool", "Option", "Result", "ℕ", "ℤ"}


def link(name):
    """The link to a word of std, from a page of the reference."""
    return f"[`{name}`]({PAGE}.md#std.{name})"


def write(modules):
    """The page. `modules` has the words of std that clauses use, by their modules."""
    words = [f'  - <a id="std.{name}"></a>`{use}`: {said}' for name, (use, said) in MEANINGS.items()]
    return text_of([*HOW_TO_READ.rstrip().split("\n"), *words, "```rust", *import_lines(modules), "```"])
