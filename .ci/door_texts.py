"""The texts and tables of docs/reference/digits.md: what `.ci/door.py` puts beside what the sources
say. A name of a group is that of an item."""
from clauses import PAGE as CLAUSES
from sources import DOOR

# Each section of the page: the table of its calls, a text, and its names in the order of the page. A name
# of TABLED has no entry: where the text has it first, it is a link.
GROUPS = {
    "Integers": ("""
        parse_number | Reads a whole text: `-1_000`
        parse_number_from | Reads from `start` to the end of the text: `x=-12` at 2
        read_number | Reads the integer at the front: `8080/tcp`
        read_number_from | Reads the integer at `start`: `8080:443` at 5
        read_integer_from | Reads an integer without a sign, up to a limit of yours, as a `u64`
        read_wide_from | Reads the same as a `u128`
        read_exactly | Reads exactly `n` digits: the `2026` of a date
        read_at_most | Reads one to `n` digits: the `7` of `7:05`
        count_digits | Counts the digits of a text""", """
        The types are `u8` to `u128`, `i8` to `i128`, `usize` and `isize`. The first four calls read `[+-]?
        D+` as a signed type, and `D+` as an unsigned one, where `D` is a digit of the word's radix: `+1` is 1
        as an `i32`, and refused as a `u32`. Separators that the word allows may be among the digits. Leading zeros are allowed, and as a signed type `-0` is 0. No prefix is read.

        To refuse leading zeros, as in a version, call [`read_literal_as`](#read_literal_as) with `languages::JSON_NUMBER`: of `01` the error is `Zero(0)`.""", """
        parse_number parse_number_from read_number read_number_from read_integer_from read_wide_from
        read_exactly read_at_most count_digits Integer ParseError LiteralError"""),
    "Floats": ("""
        parse_float parse_float_from | Read a whole text, or from `start` on to its end
        read_float read_float_from | Read the float at the front, or at `start`, and return where it ends
        round_integer | Rounds an integer to the nearest float""", """
        `-1.5e3` is read as -1500.0. The result is the nearest `f64` or `f32`, and the even one at a tie. A
        number that is too large becomes infinite; one that is too small becomes 0, with its sign. This is the grammar, where `D` is a digit and `.` the point:

        ```text
        [+-]? (D+ (. D*)? | . D+) ([eE] [+-]? D+)?
        ```

        Separators that the word allows may be among the digits. `inf` and `nan` are refused; to read
        them, use `forms::RUST_PARSE` ([numbers of a form](#numbers-of-a-form)).""", """
        parse_float parse_float_from read_float read_float_from round_integer Float FloatError"""),
    "Numbers of a form": ("""
        parse_number_of | Reads a whole text: `-1.5e3` of JSON
        read_number_of | Reads the longest number at `start`
        forms | All forms by name
        is_form | Tests a form of your own""", """
        Hexadecimal floats such as `0x1p3` are read by `C99`, `CXX17`, `JAVA`, `GO`, `D`, `SWIFT`, `PERL`, `LUA`, `R`, `OCAML`,
        `STRTOD` and the functions of Java, Go, Ruby and Lua ([all forms](forms.md)).""", """
        parse_number_of read_number_of forms is_form Number NumberError"""),
    "Amounts and prices": ("""
        parse_scaled | Reads a whole text: `12.5` is 1250 cents
        read_scaled_from | Reads the amount at `start`
        read_scaled_up_to | Reads an amount without a sign, up to a limit of yours
        read_exact_from | Reads an amount with exactly `places` decimal places: `12.50`, not `12.5`
        read_grouped_from | Reads an amount in groups of three: `1,234.5`
        read_price_from | Reads an amount with exact places and groups: `1,234.50`
        read_decimal_from read_decimal_of | Read digits and a power of ten, before rounding""", """
        With 2 decimal places `12.5` is 1250: an amount is an exact integer, in units of the last place. No
        float is involved. If the type is signed, a sign is read. Only `parse_scaled` reads a whole text;
        after the other calls compare the end with `text.len()`.

        Four calls read the amount at `start`, and differ in what they accept. With 2 places, and a
        [word](#words) that skips a `,` between two digits, they return

        | Text | `read_scaled_from` | `read_exact_from` | `read_grouped_from` | `read_price_from` |
        |---|---|---|---|---|
        | `1,234.50` | 123450 | 123450 | 123450 | 123450 |
        | `12.5` | 1250 | `Places(4)` | 1250 | `Places(4)` |
        | `12.500` | 1250 | `Places(6)` | 1250 | `Places(6)` |
        | `12,34.50` | 123450 | 123450 | `Group(3)` | `Group(3)` |
        | `1234.50` | 123450 | 123450 | `Group(0)` | `Group(0)` |
        | `1234.5` | 123450 | `Places(6)` | `Group(0)` | `Group(0)` |
        | `12.345` | `TooFine(5)` | `Number(TooFine(5))` | `Number(TooFine(5))` | `Number(TooFine(5))` |""", """
        parse_scaled read_scaled_from read_scaled_up_to read_exact_from read_grouped_from read_price_from
        read_decimal_from read_decimal_of Decimal ScaledError PriceError"""),
    "Literals of a language": ("""
        read_literal_as | Reads a literal as a number of a type: `0xff`
        read_literal | Reads a literal with its word, and with where its digits begin
        prefix_word | Returns the word of the digits after a prefix
        languages | All languages by name
        is_language | Tests a language of your own""", """
        To read a whole text, compare the end with `text.len()`, or call [`parse_number_of`](#parse_number_of)
        by the form of the language, such as `forms::RUST`, and then `as_integer`. `JULIA`, `ZIG`, `DIGITS` and `HEX_DIGITS` have no
        form by name ([how to write those of Julia and Zig](forms.md)); for `C` it is `forms::C89` or `forms::C99`, and for `JSON_NUMBER` `forms::JSON`.""", """
        read_literal_as read_literal prefix_word languages is_language Literal Language FirstZero
        LanguageError"""),
    "Bytes between numbers": ("""
        byte_at has_byte has_bytes | Look at a position
        expect_byte expect_bytes | Return the position after a byte or bytes, or an error
        past_bytes | Skips blanks, or any other set of bytes
        name_end | Returns where a key or a suffix ends: the `px` of `10px`""", "", """
        byte_at has_byte has_bytes expect_byte expect_bytes past_bytes name_end ByteSet"""),
    "Lists": ("""
        read_list read_float_list read_list_of | Read integers, floats, numbers of a form
        read_list_by read_items | Read numbers of any kind, values of your own
        parse_list | Reads a whole text as a list
        read_enclosed | Reads a list in brackets: `[1, 2]`""", """
        ```rust
        let mut ports = [0u16; 4];
        let read = read_list(b"80, 443;", 0, STANDARD, COMMAS, &mut ports);
        (read.count, read.end) // (2, ListEnd::Over(7))
        ports // [80, 443, 0, 0]
        let read = read_list(b"80, 44x", 0, STANDARD, COMMAS, &mut ports);
        (read.count, read.end) // (2, ListEnd::Over(6))
        ```

        The call writes the numbers to the front of your slice. `COMMAS` is a [gap](#gaps): it says what is
        between two numbers. `count` says how many numbers were read, and `end` why reading stopped:

        | `end` | It says | What you do |
        |---|---|---|
        | `Over(at)` | the list ended without a fault. `at` is where its last number, blank or separator ends: in `80, 44x` at the `x` | continue at `at`; if nothing may follow, compare `at` with `text.len()`, or call `parse_list` |
        | `Full(at)` | the slice is full. The next number, or blanks before it, may begin at `at` | call again from `at` |
        | `Fault(error)` | a number is missing where one is required, as after a comma, or one begins and is refused | report it |

        `Full` doesn't promise another number: the next call may return `Over`, with `count` 0. With a slice of
        two elements:

        | Text | Gap | `end` |
        |---|---|---|
        | `80, 443` | `COMMAS` | `Over(7)` |
        | `80, 443, 8` | `COMMAS` | `Full(8)`, after the second comma |
        | `80,443,` | `COMMAS` | `Full(7)`: the call from 7 on returns `Fault(Empty(7))`, and so does one with a longer slice |
        | `80\\n443\\n` | `LINES` | `Full(7)`: the call from 7 on returns no number, and `Over(7)` |

        An empty slice is full at `start`.

        - Blanks of the gap are skipped before the first number, around separators, and after the last number.
        - After a fault the slice has the numbers before it.
        - With `LINES`, `WHITESPACE` and `SPACES_IN_LINE` a separator may come last, and a list may be empty: for
        `x` the `end` is `Over(0)`.
        - If a number begins and is refused, it is a `Fault`, and the list isn't over: `300` as a `u8`, `-` as an
        `i8`. But no number of an unsigned type begins with a sign: of `u32`, `1\\n-2\\n` with `LINES` ends with `Over(2)`.""", """
        read_list read_float_list read_list_of read_list_by read_items parse_list read_enclosed ListRead
        ListEnd ListError EnclosedError"""),
    "Gaps": ("", """
        | Gap | Between two numbers is | A separator may be last | It reads |
        |---|---|---|---|
        | `COMMAS` | one comma, with any blanks around it | no | `1, 2 ,3` |
        | `COMMAS_IN_LINE` | one comma, with spaces and tabs around it | no | a line of CSV |
        | `LINES` | one line feed, with other blanks around it | yes | `1\\n2\\n`, `1\\r\\n2\\r\\n` |
        | `WHITESPACE` | one blank or more | yes | `1 2\\n3\\n` |
        | `SPACES_IN_LINE` | one space or tab, or more | yes | `1 2 3` |

        Each is a constant of the type [`Gap`](#gap). With `LINES` an empty line ends the list: `80\\n\\n443\\n` ends at 3. To skip empty lines, use
        `WHITESPACE`; then a space separates, too. The second example of [`Gap`](#gap) skips them, and refuses `1 2`.

        Two [`ByteSet`](#byteset)s: `BLANKS` are space, tab, line feed and carriage return; Rust's `trim` also drops `\\x0b`, `\\x0c` and blanks beyond ASCII. `SPACES` are space and tab. For another
        separator, such as `;`, write a [`Gap`](#gap).""", """
        COMMAS COMMAS_IN_LINE LINES WHITESPACE SPACES_IN_LINE BLANKS SPACES Gap"""),
    "Kinds of numbers": ("""
        read_optional | Reads one number of a kind, which may be missing""", """
        A kind is a value that says which numbers a list, a piece or a stream has:

        | Kind | It reads | One number is | Its error |
        |---|---|---|---|
        | [`Integers::<i32>::new(word)`](#integers-1) | `-12` | `i32` | [`LiteralError`](#literalerror) |
        | [`Floats::<f64>::new(word)`](#floats-1) | `1.5e3` | `f64` | [`FloatError`](#floaterror) |
        | [`OfForm::<f64>::new(forms::JSON)`](#ofform) | a number of JSON | [`Number<f64>`](#number) | [`NumberError`](#numbererror) |
        | [`OfLanguage::<u32>::new(RUST)`](#oflanguage) | `0xff` | `u32` | [`LanguageError`](#languageerror) |
        | [`Scaled::<i64>::new(word, b'.', 2)`](#scaled) | `12.5`, as cents | `i64` | [`ScaledError`](#scalederror) |
        | [`Prices::<i64>::new(word, b'.', 2)`](#prices) | `1,234.50`, as cents | `i64` | [`PriceError`](#priceerror) |
        | [`Both { first, between: b':', second }`](#both) | `3:4` | a pair | [`BothError`](#botherror) |
        | [`Enclosed { opening: b'"', kind, closing: b'"' }`](#enclosed) | `"1.50"` | one of `kind` | [`BracketError`](#bracketerror) |

        For values of your own write an [`impl Item`](#item), or an
        [`impl Kind`](#kind). A prefix of a literal is `0` and a letter: no kind reads `#ff8800`, so [loop over the
        text](../../CALLING.md#a-loop-of-your-own).""", """
        read_optional Integers Floats OfForm OfLanguage Scaled Prices Both Enclosed Kind Item NoNumber
        BothError BracketError"""),
    "Streams": ("""
        fold_stream | Combines all numbers into one value, such as their sum
        NumberReader | Reads them one by one
        is_apart | Tests whether a kind and a gap go together in a stream""", """
        ```rust
        integers_are_apart::<u64>(STANDARD, LINES);
        let mut buffer = [0; 64];
        let kind = Integers::<u64>::new(STANDARD);
        let stream = b"80\\n443\\n".as_slice();
        let add = |sum: u64, number: u64| sum.checked_add(number);
        let sum = fold_stream(stream, &mut buffer, kind, LINES, 0, add);
        sum // Ok(523)
        ```

        To see one number after the other, and where each is, loop over a `NumberReader`. A number is final once the next one came, or `finish`
        returned `Ok`: so use what you found only after `finish`:

        ```rust
        integers_are_apart::<u64>(STANDARD, LINES);
        let mut buffer = [0; 64];
        let kind = Integers::<u64>::new(STANDARD);
        let stream = b"3\\n 12\\n5\\n".as_slice();
        let mut numbers = NumberReader::new(stream, &mut buffer, kind, LINES);
        let mut greatest = (0u64, 0u64);
        for _ in 0..u64::MAX {
            numbers.pass_blanks()?;
            let at = numbers.position();
            match numbers.next_number() {
                Some(number) => greatest = greatest.max((number?, at)),
                None => break,
            }
        }
        numbers.finish() // Ok(())
        // the number 12, which begins at 3
        greatest // (12, 3)
        ```

        **Begin a function over a stream with a line such as the first one.** `rt check` then refuses a constant
        word and gap that don't go together, such as a word that reads `1,234`, and `COMMAS`. A stream comes in pieces,
        and such a number may be split where a piece ends. Without the line `rt check` passes, too, but then it isn't
        proved that you get the numbers of the whole stream. When the program runs, the line does nothing.

        No byte of the gap may be in a number. `integers_are_apart`, `floats_are_apart` and `scaled_are_apart` are stricter than
        `is_apart`: they refuse every gap with a letter, a digit, a sign or the word's separator, and of floats and amounts also one with the point. If such a line refuses
        a gap whose bytes can't be in your numbers, take `any_are_apart(kind, gap)`, which asks the kind.
        Each kind has its own line:

        | Numbers | The line |
        |---|---|
        | `Integers` | [`integers_are_apart::<T>(word, gap)`](digit_pieces.md#integers_are_apart) |
        | `Floats` | [`floats_are_apart(word, gap)`](digit_pieces.md#floats_are_apart) |
        | `Scaled`, `Prices` | [`scaled_are_apart(word, point, gap)`](digit_pieces.md#scaled_are_apart) |
        | `OfForm` | [`numbers_are_apart(form, gap)`](digit_pieces.md#numbers_are_apart) |
        | `OfLanguage` | [`literals_are_apart(language, gap)`](digit_pieces.md#literals_are_apart) |
        | `Both` | the lines of the two kinds, then [`both_are_apart(first, between, second, gap)`](digit_pieces.md#both_are_apart) |
        | `Enclosed` | the line of its kind, then [`enclosed_are_apart(opening, kind, closing, gap)`](digit_streams.md#enclosed_are_apart) |
        | any kind | [`any_are_apart(kind, gap)`](digit_pieces.md#any_are_apart) |
        | a word or a gap of run time | test [`is_apart(kind, gap)`](#is_apart) |

        - A stream is any `std::io::Read`: `rt.stdin()`, a file that `std::fs::open(&rt, path)` returned, or a
        `&[u8]`. `rt` is the `HostRuntime` of your `main`.
        - A `NumberReader` isn't an `Iterator`. Loop over `0..u64::MAX`: `rt check` wants a bound, and no stream has
        so many numbers.
        - The bound `R: Drop` lets a call drop the reader at its end.
        - With `LINES` an empty line is an error. [Gaps](#gaps) says how to skip empty lines.
        - `position()` of an error of a stream is an `Option<u64>`: `None` if the reader failed, or a position is above `u64::MAX`. Each of these errors
        becomes the next by `?`: `StreamError`, `FoldError`, `EnclosedFoldError`.""", """
        fold_stream NumberReader is_apart StreamRead StreamEnd FoldError EnclosedFoldError StreamError"""),
    "Pieces and blocks": ("""
        read_piece | Reads a list that goes on in the next piece
        sure_end | Returns the position up to which the numbers of a piece are final
        block_start | Moves a cut to where a block may begin
        end_in_text | Turns a position of a block into one of the text""", """
        Pieces come one after the other: [`read_piece`](#read_piece) says which bytes you carry to the front
        of the next one. Blocks are parts of one text that you read independently, as on several threads: cut
        the text by `block_start`, and move positions by `end_in_text`.
        [`blocks.rt`](../../crates/digit_uses/src/blocks.rt) has whole functions.""", """
        read_piece sure_end block_start end_in_text PieceRead PieceEnd"""),
    "Writing": ("""
        write_number | Writes an integer: `-128`
        write_number_by | Writes an integer in groups, in a radix, with zeros: `-1,234,567`
        write_list | Writes integers with a byte between them: `80,-1,443`
        write_scaled write_price | Write cents: `-12.50`; `1,234.50`
        write_float | Writes a float with the fewest digits: `0.1`
        write_fixed write_scientific | Write a float with a given number of decimal places, like `%.2f` and `%.6e`
        write_number_of write_float_of write_integer_of | Write a number of a form
        write_plain write_usual write_exponent | Write digits and a power of ten""", """
        A call writes the text to the front of `out`, and returns its length. The bytes after the text stay as
        they were: to align it at the left, fill `out` with blanks first; at the right, [write it behind blanks](../WRITING.md#into-a-file-an-array-a-column). If `out` is too short, the call writes nothing, and the error has the length that is
        needed. `write_number` can't fail: pass it a `[0; MOST_ROOM]`. `Written` is any integer type;
        `AnyFloat` is `f64` or `f32`.

        | You write | Bytes of `out` that are always enough |
        |---|---|
        | any integer by `write_number` | `MOST_ROOM`, 40 |
        | any finite float by `write_float`, in `Usual` and `Exponent` | `FLOAT_ROOM`, 24 |
        | any finite float by `write_float`, in `Plain` | `PLAIN_ROOM`, 327 |
        | any finite float by `write_fixed` | 311 + `places` |
        | any finite float by `write_scientific` | 8 + `places` |
        | any number by `write_number_of`, `write_float_of` or `write_integer_of` | 328 |
        | an amount by `write_scaled` | 1 more than `write_number` needs, but at least `places` + 3: of an `i64` with 2 places 21 |
        | a price by `write_price` | what `write_scaled` needs, and one for each separator: of an `i64` with 2 places 26, of an `i128` 53 |
        | an integer by `write_number_by`, without groups | the digits, which are at least those of `with_digits`, and 1 for a sign: of an `i64` with 16 hexadecimal digits 17 |
        | anything else | as many as the error says |

        `write_number` of one type needs these bytes:

        | `u8` | `i8` | `u16` | `i16` | `u32` | `i32` | `u64`, `i64`, `usize`, `isize` | `u128` | `i128` |
        |---|---|---|---|---|---|---|---|---|
        | 3 | 4 | 5 | 6 | 10 | 11 | 20 | 39 | 40 |""", """
        write_number write_number_by write_list write_scaled write_price write_float write_fixed
        write_scientific write_number_of write_float_of write_integer_of write_plain write_usual
        write_exponent MOST_ROOM FLOAT_ROOM PLAIN_ROOM Layout FloatLayout ExponentText Written AnyFloat NoRoom
        FloatTextError FormTextError"""),
    "Words": ("", """
        ```rust
        // The radix 10, the byte `,`, and where it may be: between two digits of the integer.
        const COMMA_DIGITS: u128 = (10 << 104) | ((b',' as u128) << 64) | INTEGER_INTERNAL_DIGIT_SEPARATOR;
        parse_number::<u32>(b"ff", words::HEXADECIMAL) // Ok(255)
        parse_number::<u64>(b"1,234", COMMA_DIGITS) // Ok(1234)
        parse_number::<u64>(b"1,2,34", COMMA_DIGITS) // Ok(1234)
        ```

        A word is a `u128` that says how digits are written: their radix, their separator, and where one may
        be. It doesn't say how many digits a group has: [`read_grouped_from`](#read_grouped_from) tests that.
        There are three ways to get a word: take one with a name ([what each
        reads](../RULES.md#words-with-names)), write a constant from its parts, or make one at run time with the
        [builder](#numberformatbuilder).

        | Word | It reads | It stops inside of, or refuses |
        |---|---|---|
        | `STANDARD` | `1000` | |
        | `HEXADECIMAL`, `OCTAL`, `BINARY` | `ff` and `FF`, `17`, `101` | |
        | `PYTHON_LITERAL` | `1_000` | `1__0`, `1_`, `_1` |
        | `RUST_LITERAL` | `1_000`, `1__0`, `1_` | `_1` |
        | `CXX14_LITERAL` | `1'000` | `1''0`, `1'` |
        | `CXX14_HEX_LITERAL`, `RUST_HEX_LITERAL` | `ff'ff`, `ff_ff` | |

        The words of a language X have names such as `X_LITERAL` and `X_HEX_LITERAL` ([which there are](#words-1)). The separator is
        `'` for `CXX14`, and `_` for every other language.

        Where a word allows a separator, it is skipped: `PYTHON_LITERAL` skips the `_` of `1_0`. Any other separator
        ends the number: `1__0` ends at 1. Contracts call the two *dropped* and *kept*.

        A constant is `radix << 104 | separator << 64 | flags`, with `exponent_radix << 120` if that radix is
        another. Test what the builder makes with `is_supported`. A flag of a component is a bit:

        | [Flag](#digitseparatorflags) | Integer | Fraction | Exponent |
        |---|---|---|---|
        | `internal` | `INTEGER_INTERNAL_DIGIT_SEPARATOR`, `1 << 32` | `FRACTION_INTERNAL_DIGIT_SEPARATOR`, \
`1 << 33` | `EXPONENT_INTERNAL_DIGIT_SEPARATOR`, `1 << 34` |
        | `leading` | `1 << 35` | `1 << 36` | `1 << 37` |
        | `trailing` | `1 << 38` | `1 << 39` | `1 << 40` |
        | `consecutive` | `1 << 41` | `1 << 42` | `1 << 43` |

        `1 << 44` skips every separator of a special value, such as `nan`. The names of all
        thirteen flags are [in `lexical_format`](lexical_format.md#integer_leading_digit_separator): to use them, add
        that crate to your line of `crates.txt`.""", """
        STANDARD words is_supported NumberFormatBuilder DigitSeparatorFlags DECIMAL NO_FLAGS ALL_FLAGS
        INTEGER_INTERNAL_DIGIT_SEPARATOR FRACTION_INTERNAL_DIGIT_SEPARATOR
        EXPONENT_INTERNAL_DIGIT_SEPARATOR NumberFormat"""),
    "A form of your own": ("", """
        Write one from a form that is close: `Form { marks, ..forms::FLOAT }` has other marks, and
        `Form { specials: Some(names::LOWER_CASE), ..forms::FLOAT }` also reads `inf` and `nan`.
        `FLOAT` reads `-1.5e3`, `+1`, `01`, `.5` and `5.`, all as floats. `LITERAL` reads no sign, and `1` and `01` as integers.""", """
        Form Signs Whole Marks Exponents AfterPoint HexFloats Specials Special SpecialValue NameSign names"""),
    "Parts of a number": ("""
        read_mantissa read_exponent | Read digits and point; an exponent
        round_parts decimal_of | Make a float or a decimal of the two
        stop_from read_first_digits_from | Return where digits end; read the first of them""", "", """
        read_mantissa read_exponent round_parts decimal_of stop_from read_first_digits_from Mantissa Power
        FirstDigits Component"""),
}
TABLED = """COMMAS COMMAS_IN_LINE LINES WHITESPACE SPACES_IN_LINE BLANKS SPACES MOST_ROOM FLOAT_ROOM
    PLAIN_ROOM INTEGER_INTERNAL_DIGIT_SEPARATOR FRACTION_INTERNAL_DIGIT_SEPARATOR
    EXPONENT_INTERNAL_DIGIT_SEPARATOR""".split()

# The forms that the table of the page tells, beside what all are for.
FIRST_FORMS = ("JSON", "JSON_FLOATS", "RUST_PARSE", "STRTOD", "LITERAL", "FLOAT")

# What only the page of its library has, the laws last, and the heading of the table that leads there.
MORE = """
    read_integer read_list_piece read_float_list_piece read_list_piece_of read_scaled_list_piece
    wrong_group form_of read_hex_mantissa HexMantissa read_hex_float_from round_hex WrittenFloat Rule
    integers_are_apart floats_are_apart scaled_are_apart literals_are_apart numbers_are_apart
    both_are_apart enclosed_are_apart any_are_apart""".split()
ELSEWHERE = "Rarely needed"
# The traits whose methods a caller doesn't need, those that no entry names, and a call that serves the
# library alone.
FOR_LIBRARY = ("Integer", "Float", "Written", "AnyFloat")
UNNAMED = FOR_LIBRARY
# What a type derives, as the head says.
DERIVED = ["`Copy`", "`Debug`", "`PartialEq`", "`Eq`"]
HIDDEN = ("no_number", "is_list_faster")
# The types whose methods have an entry each, below a table of them.
METHODS = {"NumberReader": """
    new | Makes a reader of the numbers of a stream
    new_at | Makes a reader of a stream of which some bytes were read before
    next_number | Reads the next number
    finish | Tests whether the stream is at its end
    read_into | Reads numbers into a slice
    position | Returns the position of the first byte that no call has used
    unread | Returns the bytes from there on that the buffer holds
    pass_byte | Passes a byte, such as a bracket before or after the numbers
    pass_blanks | Passes blanks, such as those after a bracket
    fold_numbers | Combines the numbers into one value
    fold_enclosed | Combines the numbers between two brackets into one value"""}
# What an entry says beside the doc comment.
NOTES = {
    "read_exactly": """
        - `Empty` holds the position of the first byte that should be a digit and isn't, or the end of a text that is
        too short. For a `start` after the end of the text it holds `start`.
        - Any `start`, radix and `n` are allowed. If `n` is 0, the number is 0, for any `start`.
        - Radix 0 has no digit, radix 1 only `0`, and a radix above 36 has the digits of radix 36.""",
    "read_at_most": "Like `read_exactly`, it takes any `start`, radix and `n`. If `n` is 0, it returns `Empty`.",
    "count_digits": "For an empty text it returns `Ok(0)`.",
    "LiteralError": """
        The `read_` calls of integers return it. A whole text has a [`ParseError`](#parseerror), a literal of a
        language a [`LanguageError`](#languageerror).

        `is_none_at` distinguishes a missing number from a bad one. [`read_optional`](#read_optional) does
        that for you.""",
    "read_optional": """
        For an unsigned type no number begins with a sign: a `u32` at `-1` is `None`. To make that an error, look for
        the sign with [`has_byte`](#has_byte), or read a signed type.""",
    "read_grouped_from": "[Words](#words) says how such a word is made.",
    "read_price_from": "[Words](#words) says how such words are made.",
    "write_scaled": """
        [`read_scaled_from`](#read_scaled_from) reads the text back, with the same point and places, for example with
        `STANDARD`.""",
    "write_price": """
        [`read_price_from`](#read_price_from) reads the text back with a word that has this separator, such as its
        `COMMA_DIGITS`.""",
    "fold_stream": """
        For an empty stream it returns `init` if the gap may trail, as `LINES` may. With `COMMAS` an empty stream is
        an error.""",
    "NumberReader": """
        - **The numbers are those of the whole stream**, however the reader cuts it into pieces, if [no byte of
        the gap can be in a number](#streams). `new` and `new_at` don't test that.
        - **A number is final** once the next one came, `pass_byte` found the closing byte, or `finish` returned `Ok`: of a
        line `2x` you get 2, and then `None`.
        - **After `None`** each call of `next_number` returns `None`, until `pass_byte` passes a byte, or
        `fold_enclosed` begins the next list.
        - **An error stays**, except `Trailing`: each later call returns it again. But after [`Read`](#streamerror) of `WouldBlock`
        or `TimedOut` the next call goes on. After `Interrupted` the call itself reads again.
        - **The buffer** needs the longest number, the blanks up to the byte that ends them, and one byte more. With `WHITESPACE` one blank ends a number.
        If the buffer is too small, a call returns [`NoRoom`](#streamerror). 4096 bytes are ample.
        - **To go on with the reader afterwards**, pass `&mut reader` to `new`. The bytes of
        [`unread`](#numberreaderunread) have already been taken from it: use those first.""",
    "NumberReader::next_number": """
        It uses the separator after the number, too, but not the blanks after that: after the 1 of `1, 20` by `COMMAS`,
        [`position`](#numberreaderposition) is 2, and after [`pass_blanks`](#numberreaderpass_blanks) it is 3.

        | Gap | When it returns the 12 of `12`: once it has read |
        |---|---|
        | `LINES` | the line feed |
        | `COMMAS` | the comma; a line feed alone is a blank, and isn't enough |
        | `WHITESPACE` | one blank |
        | any | a byte that no number has and that is no blank of the gap, or the end of the stream |""",
    "NumberReader::finish": """
        After `fold_enclosed` and `pass_byte` the blanks that follow do count:
        [`pass_blanks`](#numberreaderpass_blanks) passes them first.""",
    "NumberReader::fold_numbers": """
        After `Stopped` the value is lost. Its position isn't that of the number at which `step` returned `None`: it is
        after that number and its separator, where the next call continues. To know where the number began, loop over
        [`next_number`](#streams).""",
    "NumberReader::position": """
        After the 1 of `1  2` by [`WHITESPACE`](#whitespace) it is 2. After [`pass_blanks`](#numberreaderpass_blanks) it is 3, where
        the next number begins. After `fold_enclosed` it is right after the closing byte. If the stream is a `&[u8]`, it fits a `usize`.""",
    "PriceError": """
        With `Places` the position is where the number ends: 5 in `1.500`, and not 4. `Group` is told before `Places`, as of `1234.5` in the [table](#amounts-and-prices).""",
    "languages": "With `HEX_DIGITS` `10` is ten, and `0x10` 16. Where `017` is octal, `08` is 0, and ends at 1. `JSON_NUMBER` reads the 1 of `1.5`, and ends at 1: every JSON number has `forms::JSON`.",
    "read_literal_as": """
        A literal of C++, with `CXX14`: `1'000u` is 1000, and ends at 5; `017` is 15; `1''0` is 1, and ends at 1.""",
    "read_decimal_from": """
        An `e` begins an exponent, so `1EB` is `EmptyExponent(2)`. Before a unit call [`read_decimal_of`](#read_decimal_of) with
        `forms::DECIMAL`, which has no exponent.""",
    "parse_list": """
        With a gap that may trail, blanks or a separator may follow the last number, also if the slice is full: `1 2 ` by
        `SPACES_IN_LINE`, into two places, is `Ok(2)`.""",
    "is_form": """
        It returns `false` if

        - a word of the form isn't supported, or its decimal word has a radix other than 10
        - the point is a letter, a digit, a sign or the separator
        - a mark of an exponent isn't a letter, is the separator, or is the letter of a prefix that the form has
        - hexadecimal floats have a radix other than 16, or their exponent a radix other than 10""",
    "read_enclosed": """
        Any `start` is allowed. The gap's blanks may follow the opening byte and precede the closing one. For
        one number in brackets use the kind [`Enclosed`](#enclosed).""",
    "Both": """
        No blanks are read around the byte between the two: of `640 x 480` the error is `Between(3)`. It may be any byte, as the `-` of `0-499`. In a stream it mustn't be of
        the gap, so `both_are_apart` refuses that. Of a slice the pair is read first: `1,2,3,4` by `COMMAS` is two pairs.""",
    "BothError": "`fault_at()` is its position ([`NoNumber`](#nonumber)).",
    "Enclosed": """
        `Enclosed` reads one number, and its error is `BracketError`. For a list in brackets call
        [`read_enclosed`](#read_enclosed), whose error is `EnclosedError`.""",
    "Prices": """
        | The kind | It reads | It refuses |
        |---|---|---|
        | `Prices::exact` | `1234.50` | `12.5` |
        | `Prices::grouped` | `1,234.5` | `1234.5` |
        | `Prices::new` | `1,234.50` | `1234.50`, `1,234.5` |
        | [`Scaled`](#scaled), to compare | `1234.50`, `12.5` | `12.345` |""",
    "read_number_of": """
        An incomplete part isn't read: of `1e` JSON reads the 1, and of `0xg` Rust the 0. A number never begins with a separator.

        By `forms::RUST` a number ends before its suffix: `1.5_f64` at 4. `1f64` is the integer 1, and `1..2` ends at 1
        ([with suffixes](../../CALLING.md#a-literal-of-source-code)).""",
    "name_end": "For a position after the end of the text it returns that position.",
    "write_list": "Room: for each number what [`write_number`](#writing) needs of its type, and one byte between two.",
    "DECIMAL": "It is no word: that of plain decimal numbers is [`STANDARD`](#standard).",
    "NoNumber": "`BothError` and `BracketError` have no `position()`: call `fault_at()`.",
    "Layout": """
        A negative number has a minus in every radix. For its bits write `u64::from_le_bytes(n.to_le_bytes())`. Of a constant radix the prover sees that `of_radix` is `Some`, too.

        `grouped` returns an `Option`. If its arguments are constants, the prover sees that it is `Some`, and you write
        `let Some(layout) = Layout::decimal().grouped(b',', 3) else { unreachable!() };`.

        A `Layout` that you write by its fields has to be valid, and you prove that: a radix from 2 to 36, and no groups, or a separator that is neither 0 nor a digit. These methods do it for you.""",
    "parse_scaled": "It accepts what [`read_scaled_from`](#read_scaled_from) does, also `12.` and `.5`.",
    "read_scaled_up_to": "It reads what [`read_scaled_from`](#read_scaled_from) reads of an unsigned type: `12.` and `.5` too, and of `-1` the error is `Empty(0)`.",
    "FirstZero": "A separator after the first `0` changes nothing: `0_1` is refused as `01` is.",
    "write_fixed": """
        An `f32` is written by its exact `f64`, `f64::from(x)`. [`parse_float`](#parse_float) reads the text back as the float that is nearest to it, which isn't always `x`.""",
    "read_float_from": "A number needs nothing before it: from the 3 of `1.5.2` on the next call reads 0.2.",
    "Language": """
        `decimal` may have any radix. With a hexadecimal word both `ff` and `0xff` are read; then set `binary` to `None`, or `0b1` is 1 ([an
        example](../OWN.md#a-language)).

        Later 0.1.x may add fields: write one with `..`, from a language that is close.""",
    "Special": "Later 0.1.x may add fields: write one with `..`.",
    "DigitSeparatorFlags": """
        | Flag | It skips the `_` of | With `consecutive` also those of |
        |---|---|---|
        | `internal` | `1_0` | `1__0` |
        | `leading` | `_1` | `__1` |
        | `trailing` | `1_` | `1__` |""",
}
# What a printed sentence has of std.
VALUES = {"u64::MAX": str(2 ** 64 - 1)}
# The modules whose constants have a table elsewhere.
TABLES = {"forms": " [A table of all](forms.md).",
          "languages": " Where nothing else is said, `017` is 17. [Their prefixes](../RULES.md#prefixes-and-a-first-0).",
          "words": " `PYTHON_LITERAL` reads `1_000`, `CXX14_LITERAL` `1'000`; none reads `1,000`: "
                   "[write such a word](../OWN.md#a-word). "
                   "[What each reads](../RULES.md#words-with-names)."}

# What a caller proves, in words.
CONDITIONS = {
    "IsTrue (is_supported word)": "the word is supported",
    "IsDecimal word": "the word is decimal",
    "start ≤ length text.now": "start ≤ text.len()",
    "at ≤ length text.now": "at ≤ text.len()",
    "end ≤ length text.now": "end ≤ text.len()",
    "F.IsAlwaysCallable step": "the step may be called on every value and number",
    "(b : ℕ) → b < 256 → F.pre test b": "the closure may be called on every byte",
    "places ≤ 38": "places ≤ 38",
    "K.valid kind": "the kind is valid",
    "IsForm form": "the form is valid",
    "IsLanguage language": "the words of the language are supported",
    "IsTrue (float_is_finite x)": "`x` is finite",
    "IsMantissa text.now mantissa": "the mantissa is one of this text",
    "IsHexMantissa text.now mantissa": "the mantissa is one of this text",
    "IsPower text.now mantissa.end power": "the exponent is the one after it",
    "IsHexadecimal word": "the mantissa's radix is 16",
    "exponent_radix word ≡ 10": "the exponent's radix is 10",
    "before ≤ most": "`before` is at most `most`",
    "T.ROOM ≤ length out.old": "`out` has room for any number of the type",
    "IsTrue (is_supported kind.word)": "the kind's word is supported",
    "IsDecimal kind.word": "the kind's word is decimal",
    "kind.places ≤ 38": "places ≤ 38",
    "IsTrue (are_apart (K.has_byte kind) gap)": "no byte of the gap may be in a number",
    "IsTrue (are_apart (is_pointed_byte word 46) gap)": "no byte of the gap may be in a number",
    "IsTrue (are_apart (is_pointed_byte word point) gap)": "no byte of the gap may be in a number",
    "IsTrue (are_apart (is_word_byte word) gap)": "no byte of the gap may be in a number",
    "IsTrue (are_apart (is_literal_byte language) gap)": "no byte of the gap may be in a literal",
    "IsTrue (are_apart (is_number_byte form) gap)": "no byte of the gap may be in a number",
    "IsApart (A.has_byte first) gap": "no byte of the gap may be in a number of the first kind",
    "is_between gap between ≡ false": "the byte between the two isn't of the gap",
    "IsApart (K.has_byte kind) gap": "no byte of the gap may be in a number of the kind",
    "is_between gap opening ≡ false": "the byte before a number isn't of the gap",
    "is_between gap closing ≡ false": "the byte after a number isn't of the gap",
    "IsApart (B.has_byte second) gap": "no byte of the gap may be in a number of the second kind",
}

# The impls that a trait's entry shows: the file, its head, and where the words are.
IMPLS = {"Kind": ("crates/digit_uses/src/kinds.rt", "impl Kind for UpTo",
                  "`UpTo` has the fields `word` and `most`; the 15 ghost members are left out: copy them from kinds.rt of digit_uses"),
         "Item": ("crates/digit_uses/src/points.rt", "impl Item for Point",
                  "the definitions that its ghost lines name are in specs/Points.antt of digit_uses")}

# The page of the words.
WORDS = "words"

HEAD = f"""# {DOOR}

This page has every public name of `{DOOR}`, [from A to Z](#all-names), or by what you have. An entry says what a call does, what you prove \
before it, and which error it returns, mostly with an example. In an example the comment after a call is what it returns:

```rust
use {DOOR}::words::PYTHON_LITERAL;
use {DOOR}::{{MOST_ROOM, STANDARD, parse_float, parse_number, read_number, write_number}};

LINES
```

| You have, or want | Section |
|---|---|
| `-1_000` | [Integers](#integers) |
| `-1.5e3` | [Floats](#floats) |
| a number of JSON, TOML, Rust, `strtod`, also a hexadecimal float such as `0x1p3` | [Numbers of a form](#numbers-of-a-form) |
| `12.50`, as 1250 cents | [Amounts and prices](#amounts-and-prices) |
| `0xff` | [Literals of a language](#literals-of-a-language) |
| a `:` or blanks beside a number | [Bytes between numbers](#bytes-between-numbers) |
| a number that may be missing | [`read_optional`](#read_optional) |
| `80, 443` | [Lists](#lists), and [gaps](#gaps) between their numbers |
| a list or a stream of prices, pairs, literals | [Kinds of numbers](#kinds-of-numbers) |
| a file, or another `Read` | [Streams](#streams) |
| a text in parts | [Pieces and blocks](#pieces-and-blocks) |
| the text of a number | [Writing](#writing) |
| another separator or radix | [Words](#words) |
| another grammar | [A form of your own](#a-form-of-your-own) |
| digits, point and exponent, one by one | [Parts of a number](#parts-of-a-number) |
| the meaning of an error | [Errors](#errors) |
| a call that `rt check` refuses | [What you prove](#what-you-prove) |

**Terms**

- A **word** says how digits are written: `STANDARD` reads `1000`, `PYTHON_LITERAL` also `1_000`. Where the \
word allows a separator, it is skipped. At any other place the number ends before it.
- A **form** is a whole grammar, such as `forms::JSON`.
- A **language** reads integers with their prefixes: `languages::RUST` reads `255` and `0xff`. Don't confuse \
it with `forms::RUST`, which reads floats, too.
- A **kind** says which numbers a list or a stream has, a **gap** what is between two of them.

**Calls**

- `parse_` reads up to the end of a text. `read_` reads the number at a position, and also returns where it ends. `write_` \
writes a number into your slice, and returns its length ([names and arguments](#names-and-arguments)).
- A text is a `&[u8]`. Positions count its bytes from 0. The error of one number holds the position of its \
fault ([errors](#errors)).
- A call for one number skips no blanks: skip them with [`past_bytes`](#past_bytes). Lists and streams skip \
the blanks of their gap.
- A call with a word or a language also sees the byte before its `start` ([why that matters](../../CALLING.md#surprises)).
- A call never panics if [you prove](#what-you-prove) its conditions, and no call allocates.

**Entries**

- `// you prove` names what has to hold before the call ([what you prove](#what-you-prove)).
- In an example `?` takes a value out of `Ok` or `Some`. Names are in `{DOOR}`, unless the example imports them.
- *Details and contract* leads to the contract, and to rare rules. The [signs]({CLAUSES}.md) of a contract and \
the [names]({WORDS}.md) in it have pages of their own.
- Types derive `Copy`, `Debug`, `PartialEq` and `Eq`, and errors have `Display` and `Error`, unless their \
entry says otherwise.

[CALLING.md](../../CALLING.md), [FILES.md](../FILES.md) and [WRITING.md](../WRITING.md) have whole functions.
"""

# The heading of the list of all names.
INDEX = "All names"

# What every entry relies on, before the first one.
RULES = f"""## Names and arguments

| In the name of a call that reads or writes | It says |
|---|---|
| `_from` | it takes a `start`, the position where it begins |
| neither `_from` nor a position among its arguments | it begins at 0: `parse_` calls, `read_number`, `read_float`, `count_digits`, `sure_end` |
| `_of` | with a form, except `decimal_of` |
| `_as` | with a language, as a number of your type |
| `_by` | with a kind or a layout |

| A call reads | Its arguments | For example |
|---|---|---|
| a number with a word | `(text, word, start, ..)` | `read_number_from(text, STANDARD, 5)` |
| a list with a word or a form | `(text, start, word or form, gap, out)` | `read_list(text, 0, STANDARD, \
COMMAS, &mut out)` |
| a component with a word | `(text, word, component, start, ..)` | `stop_from(text, STANDARD, \
Component::Fraction, 2)` |
| a number of a kind, or several | `(kind, text, start, ..)` | `read_list_by(kind, text, 0, COMMAS, &mut out)` |
| a stream | `(reader, buffer, kind, gap, ..)` | `fold_stream(file, &mut buffer, kind, LINES, 0, add)` |
| anything else at a position | `(text, start, ..)` | `read_number_of(text, 0, forms::JSON)` |

`prefix_word` takes the language before `text`. A call that writes takes the number first. `out` is always last.

## What you prove

`rt check` refuses a call if the prover can't see that the conditions after `// you prove` hold. Nothing tests them \
at run time: `rt try` runs code that isn't proved, and stops at only some of the calls that break a condition. Usually you \
don't have to write anything:

- The prover tests a constant word, form, language or kind by itself, with [one \
attribute](../../CALLING.md#set-up) in your `lib.rt`: \
`#![tactic(auto, unfolding(digits::proofs::Literals::lexical_on_literals))]`.
- A position that a call returned is within its text, if its `start` was.
- A closure may be called on everything if it can't panic: write `sum.checked_add(number)`, not \
`sum + number`, unless these are floats.

What is known only at run time you test first, or you require it of your caller: `requires {{ IsForm form }}`, with `ghost use Rattle.digits.specs.Words.{{IsForm}}`, and so `IsLanguage` and `IsTrue (is_supported word)`:

| You prove | Test |
|---|---|
| the word is supported | `is_supported(word)` |
| the word is decimal: its digits and its exponent have radix 10 | that `mantissa_radix()` and `exponent_radix()` of [`NumberFormat::new(word)`](#numberformat) are 10 |
| the form is valid | `is_form(form)` |
| the words of the language are supported | `is_language(language)` |
| the kind is valid: `Integers` | `is_supported(word)` |
| the kind is valid: `Floats` | the same, and that the word is decimal |
| the kind is valid: `Scaled`, `Prices` | the same as of `Floats`, and `places <= 38` |
| the kind is valid: `OfForm`, `OfLanguage` | `is_form(form)`, `is_language(language)` |
| the kind is valid: `Both`, `Enclosed` | what the kinds of their numbers need |
| start, at, end ≤ text.len() | `start <= text.len()` |
| places ≤ 38 | `places <= 38` |
| `x` is finite | `x.is_finite()`, of a constant too |
| `out` has room for any number of the type | `out.len() >= MOST_ROOM`, or the [bytes of the type](#writing); of an array of that length nothing |
| the mantissa is one of this text | nothing, if `read_mantissa` returned it for the same text |
| `before` is at most `most`, of `read_first_digits_from` | `before <= most` |

[All conditions](../PROMISES.md#conditions).

## Errors

| One number by | Its error |
|---|---|
| `parse_number`, `parse_number_from` | [`ParseError`](#parseerror) |
| `read_number`, and the others that read an integer | [`LiteralError`](#literalerror) |
| `parse_float`, `read_float`, the same with `_from`, and `read_decimal_from` | [`FloatError`](#floaterror) |
| the calls of numbers of a form, and `read_decimal_of` | [`NumberError`](#numbererror) |
| `read_literal`, `read_literal_as` | [`LanguageError`](#languageerror) |
| `parse_scaled`, `read_scaled_from`, `read_scaled_up_to` | [`ScaledError`](#scalederror) |
| `read_exact_from`, `read_grouped_from`, `read_price_from` | [`PriceError`](#priceerror) |
| the kinds `Both`; `Enclosed` | [`BothError`](#botherror); [`BracketError`](#bracketerror) |
| `read_optional` | that of one number of the kind |

| Many numbers by | The error |
|---|---|
| `read_list`, and the others that return a [`ListRead`](#listread) | that of one number, in `ListEnd::Fault` |
| `parse_list` | [`ListError`](#listerror) |
| `read_enclosed` | [`EnclosedError`](#enclosederror) |
| `read_piece` | that of one number, in `PieceEnd::Fault` |
| `next_number`, `finish`, `pass_byte`, `pass_blanks` | [`StreamError`](#streamerror) |
| `read_into` | [`StreamError`](#streamerror), in `StreamEnd::Fault` |
| `fold_stream`, `fold_numbers` | [`FoldError`](#folderror) |
| `fold_enclosed` | [`EnclosedFoldError`](#enclosedfolderror) |

| Anything else | The error |
|---|---|
| `expect_byte`, `expect_bytes`, `count_digits`, `read_exponent`, `Gap::next_after` | the position, a `usize` |
| `write_number` | none |
| `write_float` | [`FloatTextError`](#floattexterror) |
| `write_number_of`, `write_float_of`, `write_integer_of` | [`FormTextError`](#formtexterror) |
| the other calls that write | [`NoRoom`](#noroom) |

Five texts, with `forms::JSON` for `parse_number_of` and `read_number_of`, and `STANDARD` for the others:

| Call \\ text | (empty) | `-` | `x` | `-x` | `1x` |
|---|---|---|---|---|---|
| `parse_number::<i32>` | `Empty(0)` | `Empty(1)` | `Invalid(0)` | `Invalid(1)` | `Invalid(1)` |
| `parse_float`, `parse_number_of`, `parse_scaled::<i64>` | `Empty(0)` | `Empty(1)` | `Empty(0)` | `Empty(1)` \
| `Invalid(1)` |
| `read_number::<i32>`, `read_float`, `read_number_of` | `Empty(0)` | `Empty(1)` | `Empty(0)` | `Empty(1)` \
| `Ok`: the number 1 and the position 1 |

Of `3000000000` `parse_number::<i32>` and `read_number::<i32>` return `Overflow(9)`: without the digit at 9 the value fits, and with it it doesn't.

The position is, by the variant:

| Variant | What is at `position()` |
|---|---|
| `Empty`, `EmptyExponent` | the byte where a digit or a number is required, or the end of the text |
| `Invalid` | the first byte that isn't part of the number or the list |
| `Overflow`, `TooLarge` | the digit with which the value no longer fits |
| `TooFine` | the first digit beyond the places that isn't 0 |
| `Zero` | the first `0`, which the language refuses |
| `Group` | the first digit of a group with a wrong length |
| `Places` | the end of the number |
| `NoRoom` of a list or a stream | the number for which the slice or the buffer has no room |
| `NoOpening`, `NoClosing` | another byte than the bracket, or the end of the text |
| `Between` | another byte than the one between two numbers, or the end of the text |
| `Trailing` | the first byte after the list |
| `Stopped` | the byte after the number that the closure refused, and after its separator |

What `Empty` says differs by the type of the error:

| Type | `Empty(at)` says |
|---|---|
| [`ParseError`](#parseerror) | the text ends at `at`, where a digit is required; if another byte is there, it is `Invalid`. Converted by `?` from a `LiteralError`, it says only that no digit is at `at` |
| [`LiteralError`](#literalerror), [`LanguageError`](#languageerror) | there is no digit at `at` |
| [`FloatError`](#floaterror), [`ScaledError`](#scalederror) | there is no digit before `at`, which is after \
any sign and point: for `.` it is 1 |
| [`NumberError`](#numbererror) | no number of the form begins at `at`, which is after any sign |

A number below \
the least of its type, such as -129 of an `i8`, is `Overflow`, too (of an amount `TooLarge`), although its message says "too large".
"""

# The calls of the first block, and what is before them. Each is a line of an example.
FIRST = {"parse_number::<i32>(b\"-1_000\", PYTHON_LITERAL)": "",
         "read_number::<i32>(b\"-1_000 m\", PYTHON_LITERAL)": "",
         "parse_float::<f64>(b\"-1.5e3\", STANDARD)": "",
         "parse_float::<f64>(b\"1.5x\", STANDARD)": "",
         "write_number(-128i8, &mut out)": "let mut out = [0; MOST_ROOM];"}

WORDS_HEAD = f"""# Words of contracts

`ensures {{ result ≡ to_end text.now (number_at (2 ^ 31) (2 ^ 31 - 1) r text.now 0) }}` is a clause: \
its words say what a call returns. These are those of `{DOOR}`, by the library that defines them. \
A clause of yours imports them as `ghost use Rattle.{DOOR}.specs.Words.{{number_at, to_end}};`. Each \
leads to its definition. [How to read a clause]({CLAUSES}.md) has the signs and the words of std, and \
[PROVING.md](../PROVING.md) whole functions with clauses. The words that only a library's own clauses \
have are at the end of its page.
"""


# The sentences of doc comments that the head of the page tells.
TOLD = ("Requires ", "A position counts", "Takes no memory", "Not in lexical-util", "lexical-util's",
        "lexical-util has", "Its flags in the format word", "It needs at most")
# The half line of a name whose first clause says too little.
HALVES = {
    "Prices": "Amounts with an exact number of places, in groups of three digits, or both",
    "read_integer": "`read_number::<u64>` by another name",
    "read_list_piece": "`read_piece` of integers",
    "read_float_list_piece": "`read_piece` of floats",
    "read_list_piece_of": "`read_piece` of numbers of a form",
    "read_scaled_list_piece": "`read_piece` of amounts",
    "WrittenFloat": "The half of `AnyFloat` for finite floats",
    "integers_are_apart": "No byte of the gap is in a number of `Integers`",
    "floats_are_apart": "… of `Floats`",
    "scaled_are_apart": "… of `Scaled` or `Prices`",
    "literals_are_apart": "… of `OfLanguage`",
    "numbers_are_apart": "… of `OfForm`",
    "both_are_apart": "… of `Both`",
    "enclosed_are_apart": "… of `Enclosed`",
    "any_are_apart": "… of any kind",
}
# The names there that had an entry before: their anchors stay.
ANCHORED = ("Rule",)
# How long the half line of a name may be.
ROOM = 84
MORE_HEAD = """\
These are in `digits` too. Their entries are on the pages of their libraries."""
# What the laws of streams say, where the first row says it.
LAW = "No byte of the gap is in a number"
