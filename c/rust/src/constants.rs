//! From the sources, by `c/constants`.

/// The version of this library: 10,000 for each major one, 100 for each minor one.
pub const VERSION: u32 = 100;

/// What an outcome's status is.
pub mod statuses {
    use crate::Status;

    /// The number was read.
    pub const OK: Status = Status(0);
    /// There is no digit, or no number.
    pub const EMPTY: Status = Status(1);
    /// The number is too large.
    pub const OVERFLOW: Status = Status(2);
    /// The byte is no part of the number before it.
    pub const INVALID: Status = Status(3);
    /// No digit follows the mark of an exponent.
    pub const EMPTY_EXPONENT: Status = Status(4);
    /// The language refuses the first 0.
    pub const FIRST_ZERO: Status = Status(5);
    /// A digit after the last place is no zero.
    pub const TOO_FINE: Status = Status(6);
    /// The start is after the end of the text.
    pub const BAD_START: Status = Status(7);
    /// The word isn't supported, or its floats aren't decimal.
    pub const BAD_WORD: Status = Status(8);
    /// No language has this number.
    pub const BAD_LANGUAGE: Status = Status(9);
    /// No form has this number.
    pub const BAD_FORM: Status = Status(10);
    /// There are more than 38 places.
    pub const BAD_PLACES: Status = Status(11);
    /// The list goes on, and there is no more room for its numbers.
    pub const FULL: Status = Status(12);
    /// More of the text is needed, from this position on.
    pub const MORE: Status = Status(13);
    /// Another byte is there, or the text ends.
    pub const OTHER_BYTE: Status = Status(14);
    /// The list has no number, and ends here.
    pub const CLOSED: Status = Status(15);
    /// A number is too long for the room of the text.
    pub const TOO_LONG: Status = Status(16);
    /// The group of digits at this position isn't of three.
    pub const GROUP: Status = Status(17);
    /// The number that ends at this position has fewer or more places.
    pub const PLACES: Status = Status(18);
}

/// What a number's kind is.
pub mod kinds {
    /// There is no number.
    pub const NONE: u32 = 0;
    /// The number is an integer.
    pub const INTEGER: u32 = 1;
    /// The number is a float.
    pub const FLOAT: u32 = 2;
}

/// The room for the longest text of a type.
pub mod rooms {
    /// The room that the longest text of an i64 takes: -9223372036854775808.
    pub const I64: usize = 20;
    /// That of a u64: 18446744073709551615.
    pub const U64: usize = 20;
    /// That of an i32: -2147483648.
    pub const I32: usize = 11;
    /// That of a u32: 4294967295.
    pub const U32: usize = 10;
    /// The room that the usual text of an f64 takes, and that with an exponent.
    pub const F64: usize = 24;
    /// The same of an f32.
    pub const F32: usize = 24;
}

/// How a float is laid out.
pub mod layouts {
    use crate::Layout;

    /// As JSON has it: with an exponent below 1e-5 and from 1e16 on, else with one place at least.
    pub const USUAL: Layout = Layout(0);
    /// Without an exponent: 0.00012, 1.5, 12000.
    pub const PLAIN: Layout = Layout(1);
    /// With an exponent: 1.2e-4, 1.5e0.
    pub const EXPONENT: Layout = Layout(2);
}

/// How an exponent is written.
pub mod exponents {
    use crate::Exponent;

    /// As C's %e: with a sign and two digits at least, 1.5e+00.
    pub const SIGNED: Exponent = Exponent(0);
    /// Short: 1.5e0.
    pub const SHORT: Exponent = Exponent(1);
}

/// Forms: docs/reference/digit_numbers.md.
pub mod forms {
    use crate::Form;

    /// The simplest form of source code: decimal digits without a sign, with a point or an exponent if they are a float.
    pub const LITERAL: Form = Form(0);
    /// The simplest form of data: -1.5e3, +1, 01, .5 and 5., all of them floats.
    pub const FLOAT: Form = Form(1);
    /// Rust's source code.
    pub const RUST: Form = Form(2);
    /// C's source code before C99, and C++'s before C++14.
    pub const C89: Form = Form(3);
    /// C's source code from C99 up to C18, and Objective-C's.
    pub const C99: Form = Form(4);
    /// C++14's source code.
    pub const CXX14: Form = Form(5);
    /// C++17 and C23.
    pub const CXX17: Form = Form(6);
    /// Java's source code.
    pub const JAVA: Form = Form(7);
    /// Kotlin's source code.
    pub const KOTLIN: Form = Form(8);
    /// Scala's source code from 2.13 on.
    pub const SCALA: Form = Form(9);
    /// C#'s source code, by its standard.
    pub const CSHARP: Form = Form(10);
    /// F#'s source code, by its grammar.
    pub const FSHARP: Form = Form(11);
    /// Go's source code.
    pub const GO: Form = Form(12);
    /// D's source code.
    pub const D: Form = Form(13);
    /// Swift's source code.
    pub const SWIFT: Form = Form(14);
    /// Nim's source code.
    pub const NIM: Form = Form(15);
    /// Ada's source code, except for a radix and #.
    pub const ADA: Form = Form(16);
    /// COBOL's source code.
    pub const COBOL: Form = Form(17);
    /// Fortran's source code.
    pub const FORTRAN: Form = Form(18);
    /// Python's source code.
    pub const PYTHON: Form = Form(19);
    /// Ruby's source code, except for the prefix 0d.
    pub const RUBY: Form = Form(20);
    /// Perl's source code, except for floats in binary or octal digits.
    pub const PERL: Form = Form(21);
    /// PHP's source code.
    pub const PHP: Form = Form(22);
    /// Lua's source code.
    pub const LUA: Form = Form(23);
    /// R's source code.
    pub const R: Form = Form(24);
    /// Octave's source code.
    pub const OCTAVE: Form = Form(25);
    /// MATLAB's source code, by its documentation: as Octave's, without separators.
    pub const MATLAB: Form = Form(26);
    /// Erlang's source code, except for a radix and #.
    pub const ERLANG: Form = Form(27);
    /// Elixir's source code.
    pub const ELIXIR: Form = Form(28);
    /// Haskell's source code with GHC's extensions NumericUnderscores and BinaryLiterals, for 1_0 and 0b1, and without a third, for hexadecimal floats.
    pub const HASKELL: Form = Form(29);
    /// Scheme's source code, as Guile reads it, except for ratios, #x, and the marks s, f, l.
    pub const SCHEME: Form = Form(30);
    /// OCaml's source code.
    pub const OCAML: Form = Form(31);
    /// JavaScript's source code, in strict mode and in modules.
    pub const JAVASCRIPT: Form = Form(32);
    /// CoffeeScript's source code.
    pub const COFFEESCRIPT: Form = Form(33);
    /// PostgreSQL's SQL up to version 15.
    pub const POSTGRESQL: Form = Form(34);
    /// SQLite's SQL before 3.46.
    pub const SQLITE: Form = Form(35);
    /// The SQL of MySQL and MariaDB.
    pub const MYSQL: Form = Form(36);
    /// HCL, of Terraform.
    pub const HCL: Form = Form(37);
    /// JSON, by RFC 8259.
    pub const JSON: Form = Form(38);
    /// JSON, of which every number is a float.
    pub const JSON_FLOATS: Form = Form(39);
    /// JSON5.
    pub const JSON5: Form = Form(40);
    /// YAML, by the core schema of 1.2.
    pub const YAML: Form = Form(41);
    /// TOML 1.0.
    pub const TOML: Form = Form(42);
    /// EDN, and Clojure's source code, except for ratios, a radix and r, and M.
    pub const EDN: Form = Form(43);
    /// CSS, and SVG 2.
    pub const CSS: Form = Form(44);
    /// A decimal number without an exponent: XML Schema's decimal, COBOL's NUMVAL, amounts in CSV.
    pub const DECIMAL: Form = Form(45);
    /// XML Schema's double and float, by 1.0; by 1.1 +INF is one too.
    pub const XML_DOUBLE: Form = Form(46);
    /// Prometheus, and OpenMetrics.
    pub const PROMETHEUS: Form = Form(47);
    /// Protobuf's text format.
    pub const PROTOBUF_TEXT: Form = Form(48);
    /// What C's strtod takes in the locale C, without blanks before it and what follows nan in parentheses.
    pub const STRTOD: Form = Form(49);
    /// What C++'s std::from_chars takes for a float, without what follows nan in parentheses.
    pub const FROM_CHARS: Form = Form(50);
    /// What Rust's str::parse::<f64> takes.
    pub const RUST_PARSE: Form = Form(51);
    /// What Python's float takes, without blanks around it and digits beyond ASCII.
    pub const PYTHON_FLOAT: Form = Form(52);
    /// What Java's Double.parseDouble takes, without blanks around it and a suffix such as d.
    pub const JAVA_PARSE_DOUBLE: Form = Form(53);
    /// What Go's strconv.ParseFloat takes.
    pub const GO_PARSE_FLOAT: Form = Form(54);
    /// What C#'s double.Parse takes, as Mono has it, without blanks around it.
    pub const CSHARP_PARSE: Form = Form(55);
    /// What Ruby's Float takes, without blanks around it.
    pub const RUBY_FLOAT: Form = Form(56);
    /// What Lua's tonumber takes, without blanks around it.
    pub const LUA_TONUMBER: Form = Form(57);
    /// What JavaScript's Number takes, without blanks around it.
    pub const JAVASCRIPT_NUMBER: Form = Form(58);
    /// What JavaScript's parseFloat takes, without blanks before it.
    pub const JAVASCRIPT_PARSE_FLOAT: Form = Form(59);
    /// What PostgreSQL's ::numeric takes up to version 15, without blanks around it.
    pub const POSTGRESQL_NUMERIC: Form = Form(60);
    /// What Fortran's read takes by the edit descriptor F, without blanks.
    pub const FORTRAN_READ: Form = Form(61);
    /// What Octave's and MATLAB's str2double take for a real number, without blanks.
    pub const STR2DOUBLE: Form = Form(62);
}

/// Languages of literals: docs/RULES.md.
pub mod languages {
    use crate::Language;

    pub const RUST: Language = Language(0);
    pub const CXX14: Language = Language(1);
    pub const PYTHON: Language = Language(2);
    pub const GO: Language = Language(3);
    pub const JAVA: Language = Language(4);
    pub const CSHARP: Language = Language(5);
    pub const JAVASCRIPT: Language = Language(6);
    pub const KOTLIN: Language = Language(7);
    pub const SWIFT: Language = Language(8);
    pub const RUBY: Language = Language(9);
    pub const PERL: Language = Language(10);
    pub const PHP: Language = Language(11);
    pub const JULIA: Language = Language(12);
    pub const OCAML: Language = Language(13);
    pub const FSHARP: Language = Language(14);
    pub const HASKELL: Language = Language(15);
    pub const ZIG: Language = Language(16);
    pub const ELIXIR: Language = Language(17);
    pub const TOML: Language = Language(18);
    pub const JSON_NUMBER: Language = Language(19);
    pub const DIGITS: Language = Language(20);
    pub const HEX_DIGITS: Language = Language(21);
    pub const C: Language = Language(22);
    pub const SCALA: Language = Language(23);
    pub const ERLANG: Language = Language(24);
    pub const D: Language = Language(25);
}

/// Flags of a format word: where a component drops separators.
pub mod flags {
    pub const INTEGER_INTERNAL: u64 = 0x100000000;
    pub const FRACTION_INTERNAL: u64 = 0x200000000;
    pub const EXPONENT_INTERNAL: u64 = 0x400000000;
    pub const INTEGER_LEADING: u64 = 0x800000000;
    pub const FRACTION_LEADING: u64 = 0x1000000000;
    pub const EXPONENT_LEADING: u64 = 0x2000000000;
    pub const INTEGER_TRAILING: u64 = 0x4000000000;
    pub const FRACTION_TRAILING: u64 = 0x8000000000;
    pub const EXPONENT_TRAILING: u64 = 0x10000000000;
    pub const INTEGER_CONSECUTIVE: u64 = 0x20000000000;
    pub const FRACTION_CONSECUTIVE: u64 = 0x40000000000;
    pub const EXPONENT_CONSECUTIVE: u64 = 0x80000000000;
    pub const SPECIAL: u64 = 0x100000000000;
}

/// Format words with a name: docs/RULES.md.
pub mod words {
    use crate::Word;

    pub const STANDARD: Word = Word { low: 0x0, high: 0xa0000000000 };
    pub const HEXADECIMAL: Word = Word { low: 0x0, high: 0x100000000000 };
    pub const HEXADECIMAL_FLOAT: Word = Word { low: 0x0, high: 0xa00100000000000 };
    pub const OCTAL: Word = Word { low: 0x0, high: 0x80000000000 };
    pub const BINARY: Word = Word { low: 0x0, high: 0x20000000000 };
    pub const RUST_LITERAL: Word = Word { low: 0xfe700000000, high: 0xa000000005f };
    pub const RUST_HEX_LITERAL: Word = Word { low: 0x24900000000, high: 0x10000000005f };
    pub const RUST_OCTAL_LITERAL: Word = Word { low: 0x24900000000, high: 0x8000000005f };
    pub const RUST_BINARY_LITERAL: Word = Word { low: 0x24900000000, high: 0x2000000005f };
    pub const CXX14_LITERAL: Word = Word { low: 0x700000000, high: 0xa0000000027 };
    pub const CXX14_HEX_LITERAL: Word = Word { low: 0x700000000, high: 0xa00100000000027 };
    pub const CXX14_OCTAL_LITERAL: Word = Word { low: 0x100000000, high: 0x80000000027 };
    pub const CXX14_BINARY_LITERAL: Word = Word { low: 0x100000000, high: 0x20000000027 };
    pub const PYTHON_LITERAL: Word = Word { low: 0x700000000, high: 0xa000000005f };
    pub const PYTHON_HEX_LITERAL: Word = Word { low: 0x900000000, high: 0x10000000005f };
    pub const PYTHON_OCTAL_LITERAL: Word = Word { low: 0x900000000, high: 0x8000000005f };
    pub const PYTHON_BINARY_LITERAL: Word = Word { low: 0x900000000, high: 0x2000000005f };
    pub const TOML: Word = Word { low: 0x700000000, high: 0xa000000005f };
    pub const TOML_HEX: Word = Word { low: 0x100000000, high: 0x10000000005f };
    pub const TOML_OCTAL: Word = Word { low: 0x100000000, high: 0x8000000005f };
    pub const TOML_BINARY: Word = Word { low: 0x100000000, high: 0x2000000005f };
    pub const JAVA_LITERAL: Word = Word { low: 0xe0700000000, high: 0xa000000005f };
    pub const JAVA_HEX_LITERAL: Word = Word { low: 0xe0700000000, high: 0xa0010000000005f };
    pub const JAVA_OCTAL_LITERAL: Word = Word { low: 0x20100000000, high: 0x8000000005f };
    pub const JAVA_BINARY_LITERAL: Word = Word { low: 0x20100000000, high: 0x2000000005f };
    pub const CSHARP_LITERAL: Word = Word { low: 0xe0700000000, high: 0xa000000005f };
    pub const CSHARP_HEX_LITERAL: Word = Word { low: 0x20900000000, high: 0x10000000005f };
    pub const CSHARP_BINARY_LITERAL: Word = Word { low: 0x20900000000, high: 0x2000000005f };
    pub const GO_LITERAL: Word = Word { low: 0x700000000, high: 0xa000000005f };
    pub const GO_HEX_LITERAL: Word = Word { low: 0xf00000000, high: 0xa0010000000005f };
    pub const GO_OCTAL_LITERAL: Word = Word { low: 0x900000000, high: 0x8000000005f };
    pub const GO_BINARY_LITERAL: Word = Word { low: 0x900000000, high: 0x2000000005f };
    pub const JAVASCRIPT_LITERAL: Word = Word { low: 0x700000000, high: 0xa000000005f };
    pub const JAVASCRIPT_HEX_LITERAL: Word = Word { low: 0x100000000, high: 0x10000000005f };
    pub const JAVASCRIPT_OCTAL_LITERAL: Word = Word { low: 0x100000000, high: 0x8000000005f };
    pub const JAVASCRIPT_BINARY_LITERAL: Word = Word { low: 0x100000000, high: 0x2000000005f };
    pub const KOTLIN_LITERAL: Word = Word { low: 0xe0700000000, high: 0xa000000005f };
    pub const KOTLIN_HEX_LITERAL: Word = Word { low: 0x20100000000, high: 0x10000000005f };
    pub const KOTLIN_BINARY_LITERAL: Word = Word { low: 0x20100000000, high: 0x2000000005f };
    pub const SWIFT_LITERAL: Word = Word { low: 0xfc700000000, high: 0xa000000005f };
    pub const SWIFT_HEX_LITERAL: Word = Word { low: 0xfc700000000, high: 0xa0010000000005f };
    pub const SWIFT_OCTAL_LITERAL: Word = Word { low: 0x24100000000, high: 0x8000000005f };
    pub const SWIFT_BINARY_LITERAL: Word = Word { low: 0x24100000000, high: 0x2000000005f };
    pub const OCTAVE_LITERAL: Word = Word { low: 0xfc700000000, high: 0xa000000005f };
    pub const OCTAVE_HEX_LITERAL: Word = Word { low: 0x24100000000, high: 0x10000000005f };
    pub const OCTAVE_BINARY_LITERAL: Word = Word { low: 0x24100000000, high: 0x2000000005f };
    pub const RUBY_LITERAL: Word = Word { low: 0x700000000, high: 0xa000000005f };
    pub const RUBY_HEX_LITERAL: Word = Word { low: 0x100000000, high: 0x10000000005f };
    pub const RUBY_OCTAL_LITERAL: Word = Word { low: 0x100000000, high: 0x8000000005f };
    pub const RUBY_BINARY_LITERAL: Word = Word { low: 0x100000000, high: 0x2000000005f };
    pub const PERL_LITERAL: Word = Word { low: 0xff700000000, high: 0xa000000005f };
    pub const PERL_HEX_LITERAL: Word = Word { low: 0xfcf00000000, high: 0xa0010000000005f };
    pub const PERL_OCTAL_LITERAL: Word = Word { low: 0xfcf00000000, high: 0xa0008000000005f };
    pub const PERL_BINARY_LITERAL: Word = Word { low: 0xfcf00000000, high: 0xa0002000000005f };
    pub const PHP_LITERAL: Word = Word { low: 0x700000000, high: 0xa000000005f };
    pub const PHP_HEX_LITERAL: Word = Word { low: 0x100000000, high: 0x10000000005f };
    pub const PHP_OCTAL_LITERAL: Word = Word { low: 0x100000000, high: 0x8000000005f };
    pub const PHP_BINARY_LITERAL: Word = Word { low: 0x100000000, high: 0x2000000005f };
    pub const JULIA_LITERAL: Word = Word { low: 0x300000000, high: 0xa000000005f };
    pub const JULIA_HEX_LITERAL: Word = Word { low: 0x300000000, high: 0xa0010000000005f };
    pub const JULIA_OCTAL_LITERAL: Word = Word { low: 0x100000000, high: 0x8000000005f };
    pub const JULIA_BINARY_LITERAL: Word = Word { low: 0x100000000, high: 0x2000000005f };
    pub const D_LITERAL: Word = Word { low: 0xfe700000000, high: 0xa000000005f };
    pub const D_HEX_LITERAL: Word = Word { low: 0xfef00000000, high: 0xa0010000000005f };
    pub const D_BINARY_LITERAL: Word = Word { low: 0x24900000000, high: 0x2000000005f };
    pub const OCAML_LITERAL: Word = Word { low: 0xfd700000000, high: 0xa000000005f };
    pub const OCAML_HEX_LITERAL: Word = Word { low: 0xfd700000000, high: 0xa0010000000005f };
    pub const OCAML_OCTAL_LITERAL: Word = Word { low: 0x24100000000, high: 0x8000000005f };
    pub const OCAML_BINARY_LITERAL: Word = Word { low: 0x24100000000, high: 0x2000000005f };
    pub const FSHARP_LITERAL: Word = Word { low: 0xe0700000000, high: 0xa000000005f };
    pub const FSHARP_HEX_LITERAL: Word = Word { low: 0x20100000000, high: 0x10000000005f };
    pub const FSHARP_OCTAL_LITERAL: Word = Word { low: 0x20100000000, high: 0x8000000005f };
    pub const FSHARP_BINARY_LITERAL: Word = Word { low: 0x20100000000, high: 0x2000000005f };
    pub const HASKELL_LITERAL: Word = Word { low: 0xe0700000000, high: 0xa000000005f };
    pub const HASKELL_HEX_LITERAL: Word = Word { low: 0xe0f00000000, high: 0xa0010000000005f };
    pub const HASKELL_OCTAL_LITERAL: Word = Word { low: 0x20900000000, high: 0x8000000005f };
    pub const HASKELL_BINARY_LITERAL: Word = Word { low: 0x20900000000, high: 0x2000000005f };
    pub const SCALA_LITERAL: Word = Word { low: 0xe0700000000, high: 0xa000000005f };
    pub const SCALA_HEX_LITERAL: Word = Word { low: 0x20100000000, high: 0x10000000005f };
    pub const ZIG_LITERAL: Word = Word { low: 0x700000000, high: 0xa000000005f };
    pub const ZIG_HEX_LITERAL: Word = Word { low: 0x700000000, high: 0xa0010000000005f };
    pub const ZIG_OCTAL_LITERAL: Word = Word { low: 0x100000000, high: 0x8000000005f };
    pub const ZIG_BINARY_LITERAL: Word = Word { low: 0x100000000, high: 0x2000000005f };
    pub const ADA_LITERAL: Word = Word { low: 0x700000000, high: 0xa000000005f };
    pub const ADA_HEX_LITERAL: Word = Word { low: 0x700000000, high: 0xa0010000000005f };
    pub const ADA_OCTAL_LITERAL: Word = Word { low: 0x700000000, high: 0xa0008000000005f };
    pub const ADA_BINARY_LITERAL: Word = Word { low: 0x700000000, high: 0xa0002000000005f };
    pub const ELIXIR_LITERAL: Word = Word { low: 0x700000000, high: 0xa000000005f };
    pub const ELIXIR_HEX_LITERAL: Word = Word { low: 0x100000000, high: 0x10000000005f };
    pub const ELIXIR_OCTAL_LITERAL: Word = Word { low: 0x100000000, high: 0x8000000005f };
    pub const ELIXIR_BINARY_LITERAL: Word = Word { low: 0x100000000, high: 0x2000000005f };
    pub const ERLANG_LITERAL: Word = Word { low: 0x700000000, high: 0xa000000005f };
    pub const ERLANG_HEX_LITERAL: Word = Word { low: 0x100000000, high: 0x10000000005f };
    pub const ERLANG_OCTAL_LITERAL: Word = Word { low: 0x100000000, high: 0x8000000005f };
    pub const ERLANG_BINARY_LITERAL: Word = Word { low: 0x100000000, high: 0x2000000005f };
}
// end of what c/constants writes
