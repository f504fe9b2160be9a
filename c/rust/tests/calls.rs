//! Each call with a number or a fault. Their answers are those of test.c.

use digits_sys::*;

fn fault<T>(status: Status, at: usize) -> Result<T, Fault> {
    Err(Fault { status, at })
}

#[test]
fn integers() {
    assert_eq!(read::<i64>(b"-9223372036854775808;", 0), Ok((i64::MIN, 20)));
    assert_eq!(read::<i64>(b"12", 3), fault(statuses::BAD_START, 3));
    assert_eq!(read::<u64>(b"18446744073709551616", 0), fault(statuses::OVERFLOW, 19));
    assert_eq!(parse::<i32>(b"2147483647"), Ok(i32::MAX));
    assert_eq!(parse::<u32>(b"1_0"), fault(statuses::INVALID, 1));
    assert_eq!(parse::<u32>(b""), fault(statuses::EMPTY, 0));
    assert_eq!(read_by::<i64>(b"-1_000 m", 0, words::PYTHON_LITERAL), Ok((-1000, 6)));
    let underscores = Word::new(10, b'_', flags::INTEGER_INTERNAL);
    assert_eq!(parse_by::<u32>(b"70_000", underscores), Ok(70000));
    assert_eq!(parse_by::<i64>(b"1", Word::new(1, 0, 0)), fault(statuses::BAD_WORD, 0));
}

#[test]
fn floats() {
    assert_eq!(read::<f64>(b"-1.5e3,2", 0), Ok((-1500.0, 6)));
    assert_eq!(parse::<f64>(b"5e-324"), Ok(5e-324));
    assert_eq!(parse::<f32>(b"16777217"), Ok(16777216.0));
    assert_eq!(read::<f64>(b"1e+", 0), fault(statuses::EMPTY_EXPONENT, 3));
    assert_eq!(read_by::<f32>(b"x1_0", 1, words::PYTHON_LITERAL), Ok((10.0, 4)));
    assert_eq!(parse_by::<f64>(b"1_234.5e-1", words::PYTHON_LITERAL), Ok(123.45));
}

#[test]
fn scaled() {
    let commas = Word::new(10, b',', flags::INTEGER_INTERNAL);
    assert_eq!(read_scaled(b"-1234.5;", 0, 2), Ok((-123450, 7)));
    assert_eq!(read_scaled_by(b"$1,234.50", 1, 2, commas, b'.'), Ok((123450, 9)));
    assert_eq!(parse_scaled(b"0.125", 2), fault(statuses::TOO_FINE, 4));
    assert_eq!(parse_scaled_by(b"3,5", 1, words::STANDARD, b','), Ok(35));
    assert_eq!(parse_scaled(b"1", 39), fault(statuses::BAD_PLACES, 0));
}

#[test]
fn prices() {
    let commas = Word::new(10, b',', flags::INTEGER_INTERNAL);
    assert_eq!(read_price(b"1,234.50 EUR", 0, 2, b',', b'.'), Ok((123450, 8)));
    assert_eq!(read_price(b"12,34.50", 0, 2, b',', b'.'), fault(statuses::GROUP, 3));
    assert_eq!(read_price_by(b"$1,234.50", 1, 2, commas, b'.'), Ok((123450, 9)));
    assert_eq!(parse_price(b"1234,50", 2, 0, b','), Ok(123450));
    assert_eq!(parse_price(b"1,234.5", 2, b',', b'.'), fault(statuses::PLACES, 7));
    assert_eq!(parse_price(b"1", 2, b'7', b'.'), fault(statuses::BAD_WORD, 0));
    assert_eq!(parse_price_by(b"1,234", 0, words::OCTAL, b'.'), fault(statuses::BAD_WORD, 0));
    let mut places = [0; 26];
    let text = write_price(i64::MIN, 2, b',', b'.', &mut places).unwrap();
    assert_eq!(parse_price(text, 2, b',', b'.'), Ok(i64::MIN));
    let none = Fault { status: statuses::GROUP, at: 3 };
    assert_eq!(none.to_string(), "a group of digits that isn't of three at byte 3");
}

#[test]
fn literals() {
    let mask = Literal { value: 255, digits: 2, radix: 16 };
    assert_eq!(read_literal(b"0xff_u8", 0, languages::RUST), Ok((mask, 5)));
    let large = Literal { value: 2 << 64, digits: 0, radix: 10 };
    assert_eq!(read_literal(b"36893488147419103232", 0, languages::GO), Ok((large, 20)));
    assert_eq!(read_literal(b"01", 0, languages::PYTHON), fault(statuses::FIRST_ZERO, 0));
    assert_eq!(read_literal_u64(b"017", 0, languages::JAVA), Ok((15, 3)));
}

#[test]
fn numbers() {
    let (number, end) = read_json(b"[-1.5e3,-7]", 8).unwrap();
    assert_eq!((number.integer(), number.to_f64(), end), (Some((true, 7)), -7.0, 10));
    assert_eq!((number.as_i64(), number.as_u64()), (Some(-7), None));
    let number = parse_json(b"1.5").unwrap();
    assert_eq!((number.is_integer(), number.to_f64(), number.as_i64()), (false, 1.5, None));
    let most = parse_json(b"340282366920938463463374607431768211455").unwrap();
    assert_eq!((most.integer(), most.as_u64()), (Some((false, u128::MAX)), None));
    let (number, end) = read_number(b"-inf,", 0, forms::TOML).unwrap();
    assert_eq!((number.to_f64(), end), (f64::NEG_INFINITY, 4));
    assert_eq!(parse_number(b"1_000", forms::PYTHON).unwrap().as_u64(), Some(1000));
    assert_eq!(parse_json(b"1.5 "), fault(statuses::INVALID, 3));
}

#[test]
fn lists() {
    let mut numbers = [7; 2];
    assert_eq!(read_list(b"1, -2 ,3]", 0, b',', &mut numbers), List { count: 2, end: End::Full(7) });
    assert_eq!(numbers, [1, -2]);
    assert_eq!(read_list(b"1, -2 ,3]", 7, b',', &mut numbers), List { count: 1, end: End::Over(8) });
    assert_eq!(numbers, [3, -2]);
    let mut column = [7u64; 4];
    assert_eq!(read_list(b"1\r\n2\n", 0, b'\n', &mut column).count, 2);
    assert_eq!(column, [1, 2, 7, 7]);
    let mut floats = [7.0; 3];
    assert_eq!(read_list(b"1.5 -2e3", 0, b' ', &mut floats), List { count: 2, end: End::Over(8) });
    assert_eq!(floats, [1.5, -2000.0, 7.0]);
    let fault = Fault { status: statuses::EMPTY, at: 2 };
    assert_eq!(read_list::<i64>(b"1;x", 0, b';', &mut numbers).end, End::Fault(fault));
    assert_eq!(read_list::<i64>(b"1", 0, b',', &mut []), List { count: 0, end: End::Full(0) });
}

#[test]
fn lists_of_a_form() {
    let text = b"[-1, 2.5, 01]";
    let mut numbers = [Number::default(); 3];
    assert_eq!(open_list(text, 0, b'[', b']'), Ok(Opened::First(1)));
    let list = read_number_list(text, 1, forms::JSON, b',', &mut numbers);
    assert_eq!(list, List { count: 3, end: End::Over(11) });
    assert_eq!(numbers.map(Number::as_i64), [Some(-1), None, Some(0)]);
    assert_eq!(numbers[1].to_f64(), 2.5);
    let other = Fault { status: statuses::OTHER_BYTE, at: 11 };
    assert_eq!(expect_byte(text, 11, b']'), Err(other));
    let list = read_number_list(b"1,2", 0, forms::GO, b',', &mut numbers[..1]);
    assert_eq!(list, List { count: 1, end: End::Full(2) });
}

#[test]
fn bytes() {
    assert_eq!(past_blanks(b"\t \n1", 0), 3);
    assert_eq!(expect_byte(b"1 :2", 1, b':'), Ok(3));
    assert_eq!(open_list(b"x( )", 1, b'(', b')'), Ok(Opened::Closed(4)));
    assert_eq!(open_list(b"1", 0, b'(', b')'), fault(statuses::OTHER_BYTE, 0));
}

#[test]
fn pieces() {
    let mut numbers = [7; 3];
    let piece = read_piece::<i64>(b"1, -2 ,34", 0, b',', false, &mut numbers);
    assert_eq!(piece, Piece { count: 2, end: PieceEnd::More(7) });
    assert_eq!(numbers, [1, -2, 7]);
    let mut floats = [7.0; 1];
    let piece = read_piece(b"1.5 2 ", 0, b' ', false, &mut floats);
    assert_eq!((piece, floats), (Piece { count: 1, end: PieceEnd::Full(4) }, [1.5]));
    let piece = read_piece(b"2e3", 0, b' ', true, &mut floats);
    assert_eq!((piece, floats), (Piece { count: 1, end: PieceEnd::Over(3) }, [2000.0]));
    let fault = Fault { status: statuses::EMPTY, at: 2 };
    assert_eq!(read_piece::<u64>(b"1;x", 0, b';', false, &mut [7]).end, PieceEnd::Full(2));
    assert_eq!(read_piece::<u64>(b"1;x", 0, b';', false, &mut [7, 7]).end, PieceEnd::Fault(fault));
    let mut of_form = [Number::default(); 2];
    let piece = read_number_piece(b"1,1e+", 0, forms::JSON, b',', false, &mut of_form);
    assert_eq!(piece, Piece { count: 1, end: PieceEnd::More(2) });
    assert_eq!(of_form[0].as_u64(), Some(1));
    assert_eq!(sure_end(b"1.5,-2"), 4);
    assert_eq!(sure_end_of(b"[1,1e+", forms::JSON), 3);
    assert_eq!(sure_end_by(b"x1_000", words::PYTHON_LITERAL), 1);
}

#[test]
fn whole_lists() {
    let mut numbers = [7i64; 2];
    assert_eq!(parse_list(b" 1, -2 ", b',', &mut numbers), Ok(2));
    assert_eq!(numbers, [1, -2]);
    assert_eq!(parse_list(b"3 4 x", b' ', &mut numbers), fault(statuses::INVALID, 4));
    assert_eq!(numbers, [3, 4]);
    assert_eq!(parse_list::<u64>(b"1,2, 3", b',', &mut [7, 7]), fault(statuses::FULL, 5));
    assert_eq!(parse_list::<f64>(b"1;", b';', &mut [7.0, 7.0]), fault(statuses::EMPTY, 2));
    let mut of_form = [Number::default(); 2];
    assert_eq!(parse_number_list(b"1,2.5", forms::JSON, b',', &mut of_form), Ok(2));
    assert_eq!((of_form[0].as_u64(), of_form[1].to_f64()), (Some(1), 2.5));
}

#[test]
fn scaled_pieces() {
    let mut cents = [7; 2];
    let piece = read_scaled_piece(b"1.5;-2;3", 0, 2, b';', false, &mut cents);
    assert_eq!((piece, cents), (Piece { count: 2, end: PieceEnd::Full(7) }, [150, -200]));
    let piece = read_scaled_piece(b"1.5;-2;3", 7, 39, b';', false, &mut cents);
    let fault = Fault { status: statuses::BAD_PLACES, at: 7 };
    assert_eq!(piece, Piece { count: 0, end: PieceEnd::Fault(fault) });
}

#[test]
fn price_pieces() {
    let mut cents = [7; 2];
    let piece = read_price_piece(b"1,000.50;-2.00;3", 0, 2, b',', b'.', b';', false, &mut cents);
    assert_eq!((piece, cents), (Piece { count: 2, end: PieceEnd::Full(15) }, [100050, -200]));
    let piece = read_price_piece(b"1.5;", 0, 2, b',', b'.', b';', false, &mut cents);
    let fault = Fault { status: statuses::PLACES, at: 3 };
    assert_eq!(piece, Piece { count: 0, end: PieceEnd::Fault(fault) });
}

#[test]
fn kept() {
    let mut room = *b"1,23";
    assert_eq!(keep(&mut room, 4, 2), Ok(2));
    assert_eq!(&room, b"2323");
    assert_eq!(keep(&mut room[..2], 2, 0), fault(statuses::TOO_LONG, 0));
    assert_eq!(keep(&mut room, 2, 3), fault(statuses::BAD_START, 3));
}

#[test]
fn blocks() {
    let starts = [0, 1, 3, 4, 8, 9].map(|at| block_start(b"12,345,6", at, b','));
    assert_eq!(starts, [0, 3, 3, 7, 8, 8]);
}

#[test]
fn a_fault_is_an_error() {
    let fault: Box<dyn std::error::Error> = parse::<i32>(b"10x").unwrap_err().into();
    assert_eq!(fault.to_string(), "a byte that is no part of the number at byte 2");
}

#[test]
fn writes() {
    let mut places = [b'*'; 32];
    assert_eq!(write(i64::MIN, &mut places), Some(&b"-9223372036854775808"[..]));
    assert_eq!(places[20], b'*');
    assert_eq!(write(u32::MAX, &mut places), Some(&b"4294967295"[..]));
    assert_eq!(write(7i32, &mut []), None);
    assert_eq!(write(0.1f32, &mut places), Some(&b"0.1"[..]));
    assert_eq!(write(f64::NAN, &mut places), None);
    assert_eq!(write_f64_in(12000.0, layouts::PLAIN, &mut places), Some(&b"12000"[..]));
    assert_eq!(write_f32_in(12000.0, layouts::EXPONENT, &mut places), Some(&b"1.2e4"[..]));
    assert_eq!(write_fixed(0.125, 2, &mut places), Some(&b"0.12"[..]));
    let (signed, short) = (exponents::SIGNED, exponents::SHORT);
    assert_eq!(write_scientific(1234.5, 2, signed, &mut places), Some(&b"1.23e+03"[..]));
    assert_eq!(write_scientific(1234.5, 2, short, &mut places), Some(&b"1.23e3"[..]));
    assert_eq!(write_scientific(f64::NAN, 2, signed, &mut places), None);
    assert_eq!(write_f64_of(-2.0, forms::JSON, &mut places), Some(&b"-2.0"[..]));
    assert_eq!(write_f64_of(f64::INFINITY, forms::YAML, &mut places), Some(&b".inf"[..]));
    assert_eq!(write_f64_of(f64::INFINITY, forms::JSON, &mut places), None);
    assert_eq!(write_i64_of(-3, forms::JSON, &mut places), Some(&b"-3"[..]));
    assert_eq!(write_i64_of(-3, forms::RUST, &mut places), None);
    assert_eq!(write_i64_grouped(-1234567, b',', 3, &mut places), Some(&b"-1,234,567"[..]));
    assert_eq!(write_u64_grouped(1234567, b'_', 4, &mut places), Some(&b"123_4567"[..]));
    assert_eq!(write_u64_grouped(1234567, b'7', 4, &mut places), None);
    assert_eq!(write_scaled(-1250, 2, &mut places), Some(&b"-12.50"[..]));
    assert_eq!(write_price(123450, 2, b',', b'.', &mut places), Some(&b"1,234.50"[..]));
}
