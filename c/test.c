/* Each call of digits.h once with a number and once with a fault. Compiled as C99 and as C++. The
 * values are worked out by hand, by the examples of docs/reference. */
#include "digits.h"

#include <math.h>
#include <stdio.h>
#include <string.h>

static const digits_word python = DIGITS_INIT_PYTHON_LITERAL;
static int faults = 0;

#define CHECK(condition)                                                       \
    do {                                                                       \
        if (!(condition)) {                                                    \
            printf("test.c:%d: %s\n", __LINE__, #condition);                   \
            faults++;                                                          \
        }                                                                      \
    } while (0)

/* A text and its length. */
#define TEXT(literal) literal, sizeof(literal) - 1

/* The outcome is a number that ends at a position, or a fault at one. */
#define IS(outcome, wanted_status, wanted_at)                                  \
    do {                                                                       \
        digits_outcome there = (outcome);                                      \
        if (there.status != (wanted_status) || there.at != (wanted_at)) {      \
            printf("test.c:%d: status %u at %zu: %s\n", __LINE__,              \
                   (unsigned)there.status, there.at, #outcome);                \
            faults++;                                                          \
        }                                                                      \
    } while (0)

static void integers(void)
{
    const digits_word unsupported = DIGITS_MAKE_WORD(1, 0, 0);
    int64_t i64 = 7;
    uint64_t u64 = 7;
    int32_t i32 = 7;
    uint32_t u32 = 7;

    IS(digits_read_i64(TEXT("-9223372036854775808;"), 0, &i64), DIGITS_OK, 20);
    CHECK(i64 == INT64_MIN);
    IS(digits_read_i64(TEXT("-9223372036854775809;"), 0, &i64), DIGITS_OVERFLOW, 19);
    CHECK(i64 == 0);
    IS(digits_read_i64(TEXT("x=+12 "), 2, &i64), DIGITS_OK, 5);
    CHECK(i64 == 12);
    IS(digits_read_i64(TEXT("12"), 2, &i64), DIGITS_EMPTY, 2);
    IS(digits_read_i64(TEXT("12"), 3, &i64), DIGITS_BAD_START, 3);
    IS(digits_read_i64(TEXT("12"), SIZE_MAX, &i64), DIGITS_BAD_START, SIZE_MAX);
    IS(digits_read_u64(TEXT("18446744073709551615"), 0, &u64), DIGITS_OK, 20);
    CHECK(u64 == UINT64_MAX);
    IS(digits_read_u64(TEXT("18446744073709551616"), 0, &u64), DIGITS_OVERFLOW, 19);
    CHECK(u64 == 0);
    IS(digits_read_u64(TEXT("+1"), 0, &u64), DIGITS_EMPTY, 0);
    IS(digits_read_i32(TEXT("-2147483648"), 0, &i32), DIGITS_OK, 11);
    CHECK(i32 == INT32_MIN);
    IS(digits_read_i32(TEXT("2147483648"), 0, &i32), DIGITS_OVERFLOW, 9);
    IS(digits_read_u32(TEXT("8080:4294967296"), 0, &u32), DIGITS_OK, 4);
    CHECK(u32 == 8080);
    IS(digits_read_u32(TEXT("8080:4294967296"), 5, &u32), DIGITS_OVERFLOW, 14);

    IS(digits_parse_i64(TEXT("-12"), &i64), DIGITS_OK, 3);
    CHECK(i64 == -12);
    IS(digits_parse_i64(TEXT("12 "), &i64), DIGITS_INVALID, 2);
    CHECK(i64 == 0);
    IS(digits_parse_i64(TEXT("-"), &i64), DIGITS_EMPTY, 1);
    IS(digits_parse_u64(TEXT("007"), &u64), DIGITS_OK, 3);
    CHECK(u64 == 7);
    IS(digits_parse_u64(TEXT("-7"), &u64), DIGITS_INVALID, 0);
    IS(digits_parse_i32(TEXT("2147483647"), &i32), DIGITS_OK, 10);
    CHECK(i32 == INT32_MAX);
    IS(digits_parse_i32(TEXT("-2147483649"), &i32), DIGITS_OVERFLOW, 10);
    IS(digits_parse_u32(TEXT("4294967295"), &u32), DIGITS_OK, 10);
    CHECK(u32 == UINT32_MAX);
    IS(digits_parse_u32(TEXT("1_0"), &u32), DIGITS_INVALID, 1);

    IS(digits_read_i64_by(TEXT("-1_000 m"), 0, python, &i64), DIGITS_OK, 6);
    CHECK(i64 == -1000);
    IS(digits_read_i64_by(TEXT("-1_000 m"), 9, python, &i64), DIGITS_BAD_START, 9);
    IS(digits_read_i64_by(TEXT("1"), 0, unsupported, &i64), DIGITS_BAD_WORD, 0);
    CHECK(i64 == 0);
    IS(digits_read_u64_by(TEXT("0xffff_ffff"), 2, DIGITS_WORD_PYTHON_HEX_LITERAL, &u64), DIGITS_OK, 11);
    CHECK(u64 == UINT32_MAX);
    IS(digits_read_u64_by(TEXT("12"), 1, unsupported, &u64), DIGITS_BAD_WORD, 1);
    IS(digits_read_i32_by(TEXT("1__0"), 0, python, &i32), DIGITS_OK, 1);
    CHECK(i32 == 1);
    IS(digits_read_i32_by(TEXT("1__0"), 0, DIGITS_WORD_JAVA_LITERAL, &i32), DIGITS_OK, 4);
    CHECK(i32 == 10);
    IS(digits_read_u32_by(TEXT("1010"), 0, DIGITS_WORD_BINARY, &u32), DIGITS_OK, 4);
    CHECK(u32 == 10);
    IS(digits_read_u32_by(TEXT("z"), 0, DIGITS_MAKE_WORD(36, 0, 0), &u32), DIGITS_OK, 1);
    CHECK(u32 == 35);

    IS(digits_parse_i64_by(TEXT("1_000"), python, &i64), DIGITS_OK, 5);
    CHECK(i64 == 1000);
    IS(digits_parse_i64_by(TEXT("1__0"), python, &i64), DIGITS_INVALID, 1);
    IS(digits_parse_u64_by(TEXT("1'000"), DIGITS_WORD_CXX14_LITERAL, &u64), DIGITS_OK, 5);
    CHECK(u64 == 1000);
    IS(digits_parse_u64_by(TEXT("1"), unsupported, &u64), DIGITS_BAD_WORD, 0);
    IS(digits_parse_i32_by(TEXT("-ff"), DIGITS_WORD_HEXADECIMAL, &i32), DIGITS_OK, 3);
    CHECK(i32 == -255);
    IS(digits_parse_u32_by(TEXT("70_000"),
                           DIGITS_MAKE_WORD(10, '_', DIGITS_FLAG_INTEGER_INTERNAL), &u32),
       DIGITS_OK, 6);
    CHECK(u32 == 70000);
}

static void floats(void)
{
    double f64 = 7;
    float f32 = 7;

    IS(digits_read_f64(TEXT("-1.5e3,2"), 0, &f64), DIGITS_OK, 6);
    CHECK(f64 == -1500.0);
    IS(digits_read_f64(TEXT("-1.5e3,2"), 7, &f64), DIGITS_OK, 8);
    CHECK(f64 == 2.0);
    IS(digits_read_f64(TEXT("inf"), 0, &f64), DIGITS_EMPTY, 0);
    CHECK(f64 == 0.0);
    IS(digits_read_f64(TEXT("1e+"), 0, &f64), DIGITS_EMPTY_EXPONENT, 3);
    IS(digits_read_f64(TEXT("1"), 2, &f64), DIGITS_BAD_START, 2);
    IS(digits_read_f32(TEXT("0.1 "), 0, &f32), DIGITS_OK, 3);
    CHECK(f32 == 0.1f);
    IS(digits_parse_f64(TEXT("5e-324"), &f64), DIGITS_OK, 6);
    CHECK(f64 == 4.9406564584124654e-324);
    IS(digits_parse_f64(TEXT("-1e999"), &f64), DIGITS_OK, 6);
    CHECK(f64 == -HUGE_VAL);
    IS(digits_parse_f64(TEXT("-0"), &f64), DIGITS_OK, 2);
    CHECK(f64 == 0.0 && signbit(f64));
    IS(digits_parse_f64(TEXT("1.5x"), &f64), DIGITS_INVALID, 3);
    IS(digits_parse_f32(TEXT("16777217"), &f32), DIGITS_OK, 8);
    CHECK(f32 == 16777216.0f);
    IS(digits_parse_f32(TEXT(""), &f32), DIGITS_EMPTY, 0);
    CHECK(f32 == 0.0f);

    IS(digits_read_f64_by(TEXT("1_234.5e-1 "), 0, python, &f64), DIGITS_OK, 10);
    CHECK(f64 == 123.45);
    IS(digits_read_f64_by(TEXT("1"), 0, DIGITS_WORD_HEXADECIMAL, &f64), DIGITS_BAD_WORD, 0);
    CHECK(f64 == 0.0);
    IS(digits_read_f32_by(TEXT("x1_0"), 1, python, &f32), DIGITS_OK, 4);
    CHECK(f32 == 10.0f);
    IS(digits_parse_f64_by(TEXT("1_234.5e-1"), python, &f64), DIGITS_OK, 10);
    CHECK(f64 == 123.45);
    IS(digits_parse_f64_by(TEXT("1_"), python, &f64), DIGITS_INVALID, 1);
    IS(digits_parse_f32_by(TEXT("1__0.5"), DIGITS_WORD_JAVA_LITERAL, &f32), DIGITS_OK, 6);
    CHECK(f32 == 10.5f);
}

static void scaled(void)
{
    static const digits_word comma = DIGITS_MAKE_INIT(10, ',', DIGITS_FLAG_INTEGER_INTERNAL);
    int64_t cents = 7;

    IS(digits_read_scaled_i64(TEXT("-1234.5;"), 0, 2, &cents), DIGITS_OK, 7);
    CHECK(cents == -123450);
    IS(digits_read_scaled_i64(TEXT("0.125"), 0, 2, &cents), DIGITS_TOO_FINE, 4);
    CHECK(cents == 0);
    IS(digits_read_scaled_i64(TEXT("0.1250"), 0, 3, &cents), DIGITS_OK, 6);
    CHECK(cents == 125);
    IS(digits_read_scaled_i64(TEXT("1"), 0, 39, &cents), DIGITS_BAD_PLACES, 0);
    IS(digits_read_scaled_i64(TEXT("1"), 2, 2, &cents), DIGITS_BAD_START, 2);
    IS(digits_parse_scaled_i64(TEXT("-92233720368547758.08"), 2, &cents), DIGITS_OK, 21);
    CHECK(cents == INT64_MIN);
    IS(digits_parse_scaled_i64(TEXT("92233720368547758.08"), 2, &cents), DIGITS_OVERFLOW, 19);
    IS(digits_parse_scaled_i64(TEXT("1.5x"), 2, &cents), DIGITS_INVALID, 3);
    IS(digits_read_scaled_i64_by(TEXT("$1,234.50"), 1, 2, comma, '.', &cents), DIGITS_OK, 9);
    CHECK(cents == 123450);
    IS(digits_read_scaled_i64_by(TEXT("1"), 0, 2, DIGITS_WORD_OCTAL, '.', &cents),
       DIGITS_BAD_WORD, 0);
    IS(digits_parse_scaled_i64_by(TEXT("3,5"), 1, DIGITS_WORD_STANDARD, ',', &cents), DIGITS_OK, 3);
    CHECK(cents == 35);
}

static void prices(void)
{
    static const digits_word comma = DIGITS_MAKE_INIT(10, ',', DIGITS_FLAG_INTEGER_INTERNAL);
    int64_t cents = 7;

    IS(digits_read_price_i64(TEXT("1,234.50 EUR"), 0, 2, ',', '.', &cents), DIGITS_OK, 8);
    CHECK(cents == 123450);
    IS(digits_read_price_i64(TEXT("12,34.50"), 0, 2, ',', '.', &cents), DIGITS_GROUP, 3);
    CHECK(cents == 0);
    IS(digits_read_price_i64(TEXT("-0.99"), 0, 2, ',', '.', &cents), DIGITS_OK, 5);
    CHECK(cents == -99);
    IS(digits_read_price_i64(TEXT("1,234.5"), 0, 2, ',', '.', &cents), DIGITS_PLACES, 7);
    CHECK(cents == 0);
    IS(digits_read_price_i64(TEXT("1,234"), 0, 2, ',', '.', &cents), DIGITS_PLACES, 5);
    IS(digits_read_price_i64(TEXT("1,234.500"), 0, 2, ',', '.', &cents), DIGITS_PLACES, 9);
    IS(digits_read_price_i64(TEXT("1,234.505"), 0, 2, ',', '.', &cents), DIGITS_TOO_FINE, 8);
    IS(digits_read_price_i64(TEXT("1234.50"), 0, 2, ',', '.', &cents), DIGITS_GROUP, 0);
    IS(digits_read_price_i64(TEXT("1,2345.00"), 0, 2, ',', '.', &cents), DIGITS_GROUP, 2);
    IS(digits_read_price_i64(TEXT("12,34"), 0, 2, ',', '.', &cents), DIGITS_GROUP, 3);
    IS(digits_read_price_i64(TEXT(".50"), 0, 2, ',', '.', &cents), DIGITS_GROUP, 0);
    IS(digits_read_price_i64(TEXT("1,,234.50"), 0, 2, ',', '.', &cents), DIGITS_PLACES, 1);
    IS(digits_read_price_i64(TEXT("x=+1.234.567,00;"), 2, 2, '.', ',', &cents), DIGITS_OK, 15);
    CHECK(cents == 123456700);
    IS(digits_read_price_i64(TEXT("1'000"), 0, 0, '\'', '.', &cents), DIGITS_OK, 5);
    CHECK(cents == 1000);
    IS(digits_read_price_i64(TEXT("1234.50"), 0, 2, 0, '.', &cents), DIGITS_OK, 7);
    CHECK(cents == 123450);
    IS(digits_read_price_i64(TEXT(".50"), 0, 2, 0, '.', &cents), DIGITS_OK, 3);
    CHECK(cents == 50);
    IS(digits_read_price_i64(TEXT("1,234.50"), 0, 2, 0, '.', &cents), DIGITS_PLACES, 1);
    IS(digits_read_price_i64(TEXT("92,233,720,368,547,758.07"), 0, 2, ',', '.', &cents), DIGITS_OK, 25);
    CHECK(cents == INT64_MAX);
    IS(digits_read_price_i64(TEXT("92,233,720,368,547,758.08"), 0, 2, ',', '.', &cents),
       DIGITS_OVERFLOW, 24);
    IS(digits_read_price_i64(TEXT("-92,233,720,368,547,758.08"), 0, 2, ',', '.', &cents),
       DIGITS_OK, 26);
    CHECK(cents == INT64_MIN);
    IS(digits_read_price_i64(TEXT("-92,233,720,368,547,758.09"), 0, 2, ',', '.', &cents),
       DIGITS_OVERFLOW, 25);
    IS(digits_read_price_i64(TEXT(""), 0, 2, ',', '.', &cents), DIGITS_EMPTY, 0);
    IS(digits_read_price_i64(TEXT("1.00"), 5, 2, ',', '.', &cents), DIGITS_BAD_START, 5);
    IS(digits_read_price_i64(TEXT("1.00"), 5, 39, ',', '.', &cents), DIGITS_BAD_PLACES, 5);
    IS(digits_read_price_i64(TEXT("1.00"), 5, 39, '7', '.', &cents), DIGITS_BAD_WORD, 5);
    IS(digits_parse_price_i64(TEXT("1,234.50"), 2, ',', '.', &cents), DIGITS_OK, 8);
    CHECK(cents == 123450);
    IS(digits_parse_price_i64(TEXT("1,234.50 "), 2, ',', '.', &cents), DIGITS_INVALID, 8);
    CHECK(cents == 0);
    IS(digits_parse_price_i64(TEXT("1,234.5 "), 2, ',', '.', &cents), DIGITS_PLACES, 7);
    IS(digits_parse_price_i64(TEXT("1,"), 0, ',', '.', &cents), DIGITS_INVALID, 1);
    IS(digits_parse_price_i64(TEXT("1"), 39, ',', '.', &cents), DIGITS_BAD_PLACES, 0);
    IS(digits_parse_price_i64(TEXT("1"), 2, '0', '.', &cents), DIGITS_BAD_WORD, 0);
    IS(digits_read_price_i64_by(TEXT("$1,234.50"), 1, 2, comma, '.', &cents), DIGITS_OK, 9);
    CHECK(cents == 123450);
    IS(digits_read_price_i64_by(TEXT("1234.50"), 0, 2, DIGITS_WORD_STANDARD, '.', &cents),
       DIGITS_GROUP, 0);
    IS(digits_read_price_i64_by(TEXT("1.00"), 0, 2, DIGITS_WORD_OCTAL, '.', &cents),
       DIGITS_BAD_WORD, 0);
    IS(digits_parse_price_i64_by(TEXT("1_234,5"), 1, python, ',', &cents), DIGITS_OK, 7);
    CHECK(cents == 12345);
    IS(digits_parse_price_i64_by(TEXT("1_234,5"), 2, python, ',', &cents), DIGITS_PLACES, 7);
    IS(digits_parse_price_i64_by(TEXT("1"), 0, DIGITS_MAKE_WORD(1, 0, 0), '.', &cents),
       DIGITS_BAD_WORD, 0);
}

/* What is written as a price is read as one. */
static void prices_back(void)
{
    static const int64_t values[] = {0, 1, -1, 99, -100, 99999, 100000, -123456789, INT64_MAX, INT64_MIN};
    static const uint8_t bytes[][2] = {{',', '.'}, {'.', ','}, {' ', ','}, {0, ','}, {0, '.'}, {200, '-'}};
    size_t i, j, places;

    for (i = 0; i < sizeof values / sizeof values[0]; i++)
        for (j = 0; j < sizeof bytes / sizeof bytes[0]; j++)
            for (places = 0; places <= 38; places++) {
                const uint8_t separator = bytes[j][0], point = bytes[j][1];
                char text[64];
                int64_t back = 7;
                size_t end = digits_write_price_i64(text, 63, values[i], places, separator, point);

                CHECK(end > 0);
                IS(digits_parse_price_i64(text, end, places, separator, point, &back), DIGITS_OK, end);
                CHECK(back == values[i]);
                text[end] = ';';
                IS(digits_read_price_i64(text, 64, 0, places, separator, point, &back), DIGITS_OK, end);
                CHECK(back == values[i]);
            }
}

static void literals(void)
{
    digits_literal literal;
    uint64_t number = 7;

    IS(digits_read_literal(TEXT("0xff_u8"), 0, DIGITS_LANGUAGE_RUST, &literal), DIGITS_OK, 5);
    CHECK(literal.low == 255 && literal.high == 0 && literal.digits == 2 && literal.radix == 16);
    IS(digits_read_literal(TEXT("36893488147419103232"), 0, DIGITS_LANGUAGE_GO, &literal),
       DIGITS_OK, 20);
    CHECK(literal.low == 0 && literal.high == 2 && literal.digits == 0 && literal.radix == 10);
    IS(digits_read_literal(TEXT("01"), 0, DIGITS_LANGUAGE_PYTHON, &literal), DIGITS_FIRST_ZERO, 0);
    CHECK(literal.low == 0 && literal.high == 0 && literal.digits == 0 && literal.radix == 0);
    IS(digits_read_literal(TEXT("1"), 0, 1000, &literal), DIGITS_BAD_LANGUAGE, 0);
    IS(digits_read_literal(TEXT("1"), 2, DIGITS_LANGUAGE_RUST, &literal), DIGITS_BAD_START, 2);
    IS(digits_read_literal_u64(TEXT("017"), 0, DIGITS_LANGUAGE_JAVA, &number), DIGITS_OK, 3);
    CHECK(number == 15);
    IS(digits_read_literal_u64(TEXT("0b"), 0, DIGITS_LANGUAGE_JSON_NUMBER, &number), DIGITS_OK, 1);
    CHECK(number == 0);
    IS(digits_read_literal_u64(TEXT("18446744073709551616"), 0, DIGITS_LANGUAGE_RUST, &number),
       DIGITS_OVERFLOW, 19);
    IS(digits_read_literal_u64(TEXT("1"), 0, UINT32_MAX, &number), DIGITS_BAD_LANGUAGE, 0);
}

static void numbers(void)
{
    digits_number number;

    IS(digits_read_json(TEXT("[-1.5e3,-7]"), 1, &number), DIGITS_OK, 7);
    CHECK(number.kind == DIGITS_FLOAT && number.value == -1500.0 && number.low == 0);
    IS(digits_read_json(TEXT("[-1.5e3,-7]"), 8, &number), DIGITS_OK, 10);
    CHECK(number.kind == DIGITS_INTEGER && number.is_negative && number.low == 7);
    CHECK(number.high == 0 && number.value == -7.0);
    IS(digits_read_json(TEXT("01"), 0, &number), DIGITS_OK, 1);
    IS(digits_read_json(TEXT(".5"), 0, &number), DIGITS_EMPTY, 0);
    CHECK(number.kind == DIGITS_NONE && number.value == 0.0 && !number.is_negative);
    IS(digits_read_json(TEXT("1"), 2, &number), DIGITS_BAD_START, 2);
    IS(digits_parse_json(TEXT("340282366920938463463374607431768211455"), &number), DIGITS_OK, 39);
    CHECK(number.low == UINT64_MAX && number.high == UINT64_MAX && !number.is_negative);
    CHECK(number.value == 340282366920938463463374607431768211456.0);
    IS(digits_parse_json(TEXT("340282366920938463463374607431768211456"), &number), DIGITS_OK, 39);
    CHECK(number.kind == DIGITS_FLOAT);
    IS(digits_parse_json(TEXT("1.5 "), &number), DIGITS_INVALID, 3);
    CHECK(number.kind == DIGITS_NONE);
    IS(digits_parse_json(TEXT("-0"), &number), DIGITS_OK, 2);
    CHECK(number.kind == DIGITS_INTEGER && number.is_negative && signbit(number.value));
    IS(digits_read_number(TEXT("-inf,"), 0, DIGITS_FORM_TOML, &number), DIGITS_OK, 4);
    CHECK(number.kind == DIGITS_FLOAT && number.value == -HUGE_VAL);
    IS(digits_read_number(TEXT("0x1.8p3"), 0, DIGITS_FORM_STRTOD, &number), DIGITS_OK, 7);
    CHECK(number.value == 12.0);
    IS(digits_read_number(TEXT("1..2"), 0, DIGITS_FORM_RUST, &number), DIGITS_OK, 1);
    CHECK(number.kind == DIGITS_INTEGER && number.low == 1);
    IS(digits_read_number(TEXT("340282366920938463463374607431768211456"), 0, DIGITS_FORM_GO,
                          &number), DIGITS_OVERFLOW, 38);
    IS(digits_read_number(TEXT("1"), 1, 1000, &number), DIGITS_BAD_FORM, 1);
    CHECK(number.kind == DIGITS_NONE);
    IS(digits_parse_number(TEXT("NaN"), DIGITS_FORM_JSON5, &number), DIGITS_OK, 3);
    CHECK(number.kind == DIGITS_FLOAT && number.value != number.value);
    IS(digits_parse_number(TEXT("1_000"), DIGITS_FORM_PYTHON, &number), DIGITS_OK, 5);
    CHECK(number.low == 1000);
    IS(digits_parse_number(TEXT("1"), UINT32_MAX, &number), DIGITS_BAD_FORM, 0);
}

/* The integer of a number, where a type has it. */
static void values(void)
{
    digits_number number;
    int64_t i64 = 7;
    uint64_t u64 = 7;

    IS(digits_parse_json(TEXT("-9223372036854775808"), &number), DIGITS_OK, 20);
    CHECK(digits_as_i64(&number, &i64) && i64 == INT64_MIN);
    CHECK(!digits_as_u64(&number, &u64) && u64 == 0);
    IS(digits_parse_json(TEXT("9223372036854775808"), &number), DIGITS_OK, 19);
    CHECK(!digits_as_i64(&number, &i64) && i64 == 0);
    CHECK(digits_as_u64(&number, &u64) && u64 == UINT64_C(9223372036854775808));
    IS(digits_parse_json(TEXT("18446744073709551616"), &number), DIGITS_OK, 20);
    CHECK(!digits_as_u64(&number, &u64) && !digits_as_i64(&number, &i64));
    IS(digits_parse_json(TEXT("-0"), &number), DIGITS_OK, 2);
    CHECK(digits_as_u64(&number, &u64) && u64 == 0);
    IS(digits_parse_json(TEXT("1.0"), &number), DIGITS_OK, 3);
    CHECK(!digits_as_i64(&number, &i64));
    IS(digits_parse_json(TEXT("x"), &number), DIGITS_EMPTY, 0);
    CHECK(!digits_as_i64(&number, &i64) && i64 == 0);
}

static void lists(void)
{
    static const char text[] = "[1, -2 ,3]";
    int64_t i64[3] = {7, 7, 7};
    uint64_t u64[3] = {7, 7, 7};
    double f64[3] = {7, 7, 7};
    size_t count = 7;

    IS(digits_read_i64_list(TEXT(text), 1, ',', i64, 3, &count), DIGITS_OK, 9);
    CHECK(count == 3 && i64[0] == 1 && i64[1] == -2 && i64[2] == 3);
    IS(digits_read_i64_list(TEXT(text), 1, ',', i64, 0, &count), DIGITS_FULL, 1);
    CHECK(count == 0);
    IS(digits_read_i64_list(TEXT("4,5,6"), 0, ',', i64, 2, &count), DIGITS_FULL, 4);
    CHECK(count == 2 && i64[0] == 4 && i64[1] == 5 && i64[2] == 3);
    IS(digits_read_i64_list(TEXT("8;\t9;x"), 0, ';', i64, 3, &count), DIGITS_EMPTY, 5);
    CHECK(count == 2 && i64[0] == 8 && i64[1] == 9 && i64[2] == 3);
    IS(digits_read_i64_list(TEXT("1"), 2, ',', i64, 3, &count), DIGITS_BAD_START, 2);
    CHECK(count == 0);
    IS(digits_read_u64_list(TEXT("1\r\n2\n"), 0, '\n', u64, 3, &count), DIGITS_OK, 5);
    CHECK(count == 2 && u64[0] == 1 && u64[1] == 2 && u64[2] == 7);
    IS(digits_read_u64_list(TEXT(" 1  18446744073709551615 "), 0, ' ', u64, 3, &count), DIGITS_OK, 25);
    CHECK(count == 2 && u64[1] == UINT64_MAX);
    IS(digits_read_u64_list(TEXT("1\xff" "2"), 0, 0xff, u64, 3, &count), DIGITS_OK, 3);
    IS(digits_read_u64_list(TEXT("1,-2"), 0, ',', u64, 3, &count), DIGITS_EMPTY, 2);
    IS(digits_read_u64_list(NULL, 0, 0, ',', NULL, 0, &count), DIGITS_FULL, 0);
    IS(digits_read_f64_list(TEXT("1.5, -2e3 ,7"), 0, ',', f64, 2, &count), DIGITS_FULL, 11);
    CHECK(count == 2 && f64[0] == 1.5 && f64[1] == -2000.0 && f64[2] == 7.0);
    IS(digits_read_f64_list(TEXT("48.2\n16.37\n"), 0, '\n', f64, 3, &count), DIGITS_OK, 11);
    CHECK(count == 2 && f64[1] == 16.37 && f64[2] == 7.0);
    IS(digits_read_f64_list(TEXT("1|1e"), 0, '|', f64, 3, &count), DIGITS_EMPTY_EXPONENT, 4);
    CHECK(count == 1 && f64[0] == 1.0);
}

/* Where no number is: by ' ' and '\n' a list is over there, and by another byte it is a fault. And
 * where a list goes on that had no more room. */
static void ends_of_lists(void)
{
    int64_t i64[3];
    size_t count = 7;

    IS(digits_read_i64_list(TEXT("1 x"), 0, ' ', i64, 3, &count), DIGITS_OK, 2);
    CHECK(count == 1);
    IS(digits_read_i64_list(TEXT("x"), 0, ' ', i64, 3, &count), DIGITS_OK, 0);
    CHECK(count == 0);
    IS(digits_read_i64_list(TEXT("1 -"), 0, ' ', i64, 3, &count), DIGITS_EMPTY, 3);
    IS(digits_read_i64_list(TEXT("1\n\n2"), 0, ' ', i64, 3, &count), DIGITS_OK, 4);
    CHECK(count == 2);
    IS(digits_read_i64_list(TEXT("1\n\n2"), 0, '\n', i64, 3, &count), DIGITS_OK, 2);
    CHECK(count == 1);
    IS(digits_read_i64_list(TEXT("x"), 0, '\n', i64, 3, &count), DIGITS_OK, 0);
    IS(digits_read_i64_list(TEXT("1 2"), 0, '\n', i64, 3, &count), DIGITS_OK, 2);
    IS(digits_read_i64_list(TEXT("1,x"), 0, ',', i64, 3, &count), DIGITS_EMPTY, 2);
    IS(digits_read_i64_list(TEXT("x"), 0, ',', i64, 3, &count), DIGITS_EMPTY, 0);

    IS(digits_read_i64_list(TEXT("4 , 5 , 6"), 0, ',', i64, 2, &count), DIGITS_FULL, 7);
    IS(digits_read_i64_list(TEXT("1 2  x"), 0, ' ', i64, 2, &count), DIGITS_FULL, 5);
    IS(digits_read_i64_list(TEXT("1 2  x"), 5, ' ', i64, 2, &count), DIGITS_OK, 5);
    CHECK(count == 0);
    IS(digits_read_i64_list(TEXT("1\n2\n"), 0, '\n', i64, 2, &count), DIGITS_FULL, 4);
    IS(digits_read_i64_list(TEXT("1\n2\n"), 4, '\n', i64, 2, &count), DIGITS_OK, 4);
    CHECK(count == 0);
    IS(digits_read_i64_list(TEXT("4,5,"), 0, ',', i64, 2, &count), DIGITS_FULL, 4);
    IS(digits_read_i64_list(TEXT("4,5,"), 4, ',', i64, 2, &count), DIGITS_EMPTY, 4);
}

/* Numbers of a form in a list, which are fewer than those of a list without one. */
static void lists_of_a_form(void)
{
    digits_number numbers[4] = {{7, 7, 7, 7, true}, {7, 7, 7, 7, true}, {7, 7, 7, 7, true},
                                {7, 7, 7, 7, true}};
    double f64[3];
    int64_t i64 = 7;
    size_t count = 7;

    IS(digits_read_f64_list(TEXT("[01, +2, .5]"), 1, ',', f64, 3, &count), DIGITS_OK, 11);
    CHECK(count == 3 && f64[0] == 1.0 && f64[1] == 2.0 && f64[2] == 0.5);
    IS(digits_read_number_list(TEXT("[01, +2, .5]"), 1, DIGITS_FORM_JSON, ',', numbers, 4, &count),
       DIGITS_OK, 2);
    CHECK(count == 1 && numbers[0].kind == DIGITS_INTEGER && numbers[0].low == 0);
    CHECK(numbers[1].kind == 7 && numbers[1].low == 7);
    IS(digits_read_number_list(TEXT("[1, +2, .5]"), 1, DIGITS_FORM_JSON, ',', numbers, 4, &count),
       DIGITS_EMPTY, 4);
    CHECK(count == 1 && numbers[0].low == 1 && numbers[1].kind == 7);
    IS(digits_read_number_list(TEXT("-7,2.5e1 , 340282366920938463463374607431768211455]"), 0,
                               DIGITS_FORM_JSON, ',', numbers, 3, &count), DIGITS_OK, 50);
    CHECK(count == 3 && digits_as_i64(&numbers[0], &i64) && i64 == -7);
    CHECK(numbers[1].kind == DIGITS_FLOAT && numbers[1].value == 25.0);
    CHECK(numbers[2].kind == DIGITS_INTEGER && numbers[2].high == UINT64_MAX);
    CHECK(numbers[3].kind == 7);
    IS(digits_read_number_list(TEXT("1,2,3"), 0, DIGITS_FORM_JSON, ',', numbers, 2, &count),
       DIGITS_FULL, 4);
    CHECK(count == 2 && numbers[1].low == 2 && numbers[2].high == UINT64_MAX);
    IS(digits_read_number_list(TEXT("1_000\n-inf\n"), 0, DIGITS_FORM_TOML, '\n', numbers, 4, &count),
       DIGITS_OK, 11);
    CHECK(count == 2 && numbers[0].low == 1000 && numbers[1].value == -HUGE_VAL);
    IS(digits_read_number_list(TEXT("0x10 .5"), 0, DIGITS_FORM_JSON5, ' ', numbers, 4, &count),
       DIGITS_OK, 7);
    CHECK(count == 2 && numbers[0].low == 16 && numbers[1].value == 0.5);
    IS(digits_read_number_list(TEXT("1,2"), 0, DIGITS_FORM_STR2DOUBLE, ',', numbers, 4, &count),
       DIGITS_OK, 3);
    CHECK(count == 1 && numbers[0].value == 12.0);
    IS(digits_read_number_list(TEXT("1,2"), 0, DIGITS_FORM_CSHARP_PARSE, ',', numbers, 4, &count),
       DIGITS_OK, 3);
    CHECK(count == 1 && numbers[0].value == 12.0);
    IS(digits_read_number_list(TEXT("1"), 1, 1000, ',', numbers, 4, &count), DIGITS_BAD_FORM, 1);
    CHECK(count == 0);
    IS(digits_read_number_list(TEXT("1"), 2, DIGITS_FORM_JSON, ',', numbers, 4, &count),
       DIGITS_BAD_START, 2);
    IS(digits_read_number_list(TEXT("1"), 2, DIGITS_FORM_GO, ',', numbers, 4, &count),
       DIGITS_BAD_START, 2);
    IS(digits_read_number_list(NULL, 0, 0, DIGITS_FORM_JSON, ',', NULL, 0, &count), DIGITS_FULL, 0);
}

static void bytes(void)
{
    CHECK(digits_past_blanks(TEXT(" \t\r\n1 "), 0) == 4);
    CHECK(digits_past_blanks(TEXT(" \t\r\n1 "), 4) == 4);
    CHECK(digits_past_blanks(TEXT(" \t\r\n1 "), 5) == 6);
    CHECK(digits_past_blanks(TEXT("\v1"), 0) == 0);
    CHECK(digits_past_blanks(TEXT("1"), 7) == 7);
    CHECK(digits_past_blanks(NULL, 0, 0) == 0);
    IS(digits_expect_byte(TEXT("1 :2"), 1, ':'), DIGITS_OK, 3);
    IS(digits_expect_byte(TEXT("1 :2"), 2, ':'), DIGITS_OK, 3);
    IS(digits_expect_byte(TEXT("1 :2"), 3, ':'), DIGITS_OTHER_BYTE, 3);
    IS(digits_expect_byte(TEXT("1 "), 1, ':'), DIGITS_OTHER_BYTE, 2);
    IS(digits_expect_byte(TEXT("1 "), 3, ':'), DIGITS_BAD_START, 3);
    IS(digits_expect_byte(TEXT("\xff"), 0, 0xff), DIGITS_OK, 1);
    IS(digits_expect_byte(TEXT("1 2"), 1, ' '), DIGITS_OTHER_BYTE, 2);
    IS(digits_expect_byte(TEXT("1\n"), 1, '\n'), DIGITS_OTHER_BYTE, 2);
    IS(digits_expect_byte(TEXT("\t"), 0, '\t'), DIGITS_OTHER_BYTE, 1);
    IS(digits_expect_byte(TEXT("\r"), 0, '\r'), DIGITS_OTHER_BYTE, 1);
    IS(digits_open_list(TEXT(" [ 1]"), 0, '[', ']'), DIGITS_OK, 3);
    IS(digits_open_list(TEXT("[x"), 0, '[', ']'), DIGITS_OK, 1);
    IS(digits_open_list(TEXT("["), 0, '[', ']'), DIGITS_OK, 1);
    IS(digits_open_list(TEXT("x [ \n] ,"), 1, '[', ']'), DIGITS_CLOSED, 6);
    IS(digits_open_list(TEXT("()"), 0, '(', ')'), DIGITS_CLOSED, 2);
    IS(digits_open_list(TEXT(" {"), 0, '[', ']'), DIGITS_OTHER_BYTE, 1);
    IS(digits_open_list(TEXT(" "), 0, '[', ']'), DIGITS_OTHER_BYTE, 1);
    IS(digits_open_list(TEXT("[]"), 3, '[', ']'), DIGITS_BAD_START, 3);
    IS(digits_open_list(NULL, 0, 0, '[', ']'), DIGITS_OTHER_BYTE, 0);
}

/* Where a JSON array of numbers ends, and their sum, by three calls. */
static digits_outcome sum_of(const char *text, size_t length, double *sum)
{
    digits_number numbers[2];
    size_t count, i;
    digits_outcome list = digits_open_list(text, length, 0, '[', ']');

    *sum = 0;
    if (list.status != DIGITS_OK)
        return list;
    do {
        list = digits_read_number_list(text, length, list.at, DIGITS_FORM_JSON, ',', numbers, 2,
                                       &count);
        for (i = 0; i < count; i++)
            *sum += numbers[i].value;
    } while (list.status == DIGITS_FULL);
    return list.status == DIGITS_OK ? digits_expect_byte(text, length, list.at, ']') : list;
}

static void arrays(void)
{
    double sum = 7;

    IS(sum_of(TEXT("[1, 2.5 ,-1e1\n,4, 5 ] "), &sum), DIGITS_OK, 21);
    CHECK(sum == 2.5);
    IS(sum_of(TEXT("[1,2]"), &sum), DIGITS_OK, 5);
    IS(sum_of(TEXT(" [ ] "), &sum), DIGITS_CLOSED, 4);
    CHECK(sum == 0);
    IS(sum_of(TEXT("[-]"), &sum), DIGITS_EMPTY, 2);
    IS(sum_of(TEXT("[1,]"), &sum), DIGITS_EMPTY, 3);
    IS(sum_of(TEXT("[,1]"), &sum), DIGITS_EMPTY, 1);
    IS(sum_of(TEXT("[01, +2, .5]"), &sum), DIGITS_OTHER_BYTE, 2);
    IS(sum_of(TEXT("[1 2]"), &sum), DIGITS_OTHER_BYTE, 3);
    IS(sum_of(TEXT("[1"), &sum), DIGITS_OTHER_BYTE, 2);
    IS(sum_of(TEXT("1]"), &sum), DIGITS_OTHER_BYTE, 0);
}

/* The numbers of a piece, which isn't the last one, up to where what follows may change them. */
static void pieces(void)
{
    digits_number numbers[3] = {{7, 7, 7, 7, true}, {7, 7, 7, 7, true}, {7, 7, 7, 7, true}};
    int64_t i64[3] = {7, 7, 7};
    uint64_t u64[3] = {7, 7, 7};
    double f64[3] = {7, 7, 7};
    size_t count = 7;

    IS(digits_read_i64_piece(TEXT("1, -2 ,34"), 0, ',', false, i64, 3, &count), DIGITS_MORE, 7);
    CHECK(count == 2 && i64[0] == 1 && i64[1] == -2 && i64[2] == 7);
    IS(digits_read_i64_piece(TEXT("345]"), 0, ',', false, i64, 3, &count), DIGITS_OK, 3);
    CHECK(count == 1 && i64[0] == 345 && i64[1] == -2);
    IS(digits_read_i64_piece(TEXT("1, -2 ,34"), 0, ',', true, i64, 3, &count), DIGITS_OK, 9);
    CHECK(count == 3 && i64[2] == 34);
    IS(digits_read_i64_piece(TEXT("1,2,3"), 0, ',', false, i64, 2, &count), DIGITS_FULL, 4);
    CHECK(count == 2);
    IS(digits_read_i64_piece(TEXT("1,2,3"), 4, ',', false, i64, 2, &count), DIGITS_MORE, 4);
    CHECK(count == 0);
    IS(digits_read_i64_piece(TEXT("1,2"), 0, ',', false, i64, 0, &count), DIGITS_FULL, 0);
    IS(digits_read_i64_piece(TEXT("-"), 0, ',', false, i64, 3, &count), DIGITS_MORE, 0);
    IS(digits_read_i64_piece(TEXT("-"), 0, ',', true, i64, 3, &count), DIGITS_EMPTY, 1);
    IS(digits_read_i64_piece(TEXT("1;x"), 0, ';', false, i64, 3, &count), DIGITS_EMPTY, 2);
    CHECK(count == 1);
    IS(digits_read_i64_piece(TEXT("1"), 2, ',', false, i64, 3, &count), DIGITS_BAD_START, 2);
    IS(digits_read_u64_piece(TEXT("7\n8 \r\n9 \r"), 0, '\n', false, u64, 3, &count), DIGITS_MORE, 6);
    CHECK(count == 2 && u64[0] == 7 && u64[1] == 8 && u64[2] == 7);
    IS(digits_read_u64_piece(TEXT("18446744073709551616 "), 0, ' ', false, u64, 3, &count),
       DIGITS_OVERFLOW, 19);
    IS(digits_read_u64_piece(TEXT("5\n"), 0, ' ', false, u64, 3, &count), DIGITS_MORE, 2);
    CHECK(count == 1 && u64[0] == 5);
    IS(digits_read_u64_piece(TEXT("6  \n9"), 0, ' ', false, u64, 1, &count), DIGITS_FULL, 2);
    IS(digits_read_u64_piece(TEXT("6  \n9"), 0, ' ', true, u64, 1, &count), DIGITS_FULL, 2);
    CHECK(count == 1 && u64[0] == 6);
    IS(digits_read_u64_piece(NULL, 0, 0, ',', false, NULL, 0, &count), DIGITS_FULL, 0);
    IS(digits_read_u64_piece(NULL, 0, 0, ',', false, u64, 1, &count), DIGITS_MORE, 0);
    IS(digits_read_u64_piece(NULL, 0, 0, ',', true, u64, 1, &count), DIGITS_EMPTY, 0);
    IS(digits_read_f64_piece(TEXT("1.5,-2"), 0, ',', false, f64, 3, &count), DIGITS_MORE, 4);
    CHECK(count == 1 && f64[0] == 1.5 && f64[1] == 7.0);
    IS(digits_read_f64_piece(TEXT("-2e3"), 0, ',', true, f64, 3, &count), DIGITS_OK, 4);
    CHECK(count == 1 && f64[0] == -2000.0);
    IS(digits_read_f64_piece(TEXT(" 1e \n"), 0, ' ', false, f64, 3, &count), DIGITS_EMPTY_EXPONENT, 3);
    IS(digits_read_f64_piece(TEXT(" 1e"), 0, ' ', false, f64, 3, &count), DIGITS_MORE, 1);
    IS(digits_read_number_piece(TEXT("1,1e+"), 0, DIGITS_FORM_JSON, ',', false, numbers, 3, &count),
       DIGITS_MORE, 2);
    CHECK(count == 1 && numbers[0].kind == DIGITS_INTEGER && numbers[0].low == 1);
    CHECK(numbers[1].kind == 7);
    IS(digits_read_number_piece(TEXT("1e+5,01]"), 0, DIGITS_FORM_JSON, ',', false, numbers, 3, &count),
       DIGITS_OK, 6);
    CHECK(count == 2 && numbers[0].value == 1e5 && numbers[1].low == 0);
    IS(digits_read_number_piece(TEXT("1_0 in"), 0, DIGITS_FORM_TOML, ' ', false, numbers, 3, &count),
       DIGITS_MORE, 4);
    CHECK(count == 1 && numbers[0].low == 10);
    IS(digits_read_number_piece(TEXT("1"), 1, 1000, ',', false, numbers, 3, &count), DIGITS_BAD_FORM, 1);
    CHECK(count == 0);
}

/* Lists that are the whole text, and why others aren't. */
static void whole_lists(void)
{
    digits_number numbers[3] = {{7, 7, 7, 7, true}, {7, 7, 7, 7, true}, {7, 7, 7, 7, true}};
    int64_t i64[3] = {7, 7, 7};
    uint64_t u64[3] = {7, 7, 7};
    double f64[3] = {7, 7, 7};
    size_t count = 7;

    IS(digits_parse_i64_list(TEXT(" 1, -2 "), ',', i64, 3, &count), DIGITS_OK, 7);
    CHECK(count == 2 && i64[0] == 1 && i64[1] == -2 && i64[2] == 7);
    IS(digits_parse_i64_list(TEXT("3,4]"), ',', i64, 3, &count), DIGITS_INVALID, 3);
    CHECK(count == 2 && i64[0] == 3 && i64[1] == 4 && i64[2] == 7);
    IS(digits_parse_i64_list(TEXT("1 2"), ',', i64, 3, &count), DIGITS_INVALID, 2);
    CHECK(count == 1);
    IS(digits_parse_i64_list(TEXT("1,"), ',', i64, 3, &count), DIGITS_EMPTY, 2);
    CHECK(count == 1);
    IS(digits_parse_i64_list(TEXT("1;x"), ';', i64, 3, &count), DIGITS_EMPTY, 2);
    IS(digits_parse_i64_list(TEXT(""), ',', i64, 3, &count), DIGITS_EMPTY, 0);
    CHECK(count == 0);
    IS(digits_parse_i64_list(TEXT("1, 2,\t3"), ',', i64, 2, &count), DIGITS_FULL, 6);
    CHECK(count == 2 && i64[0] == 1 && i64[1] == 2 && i64[2] == 7);
    IS(digits_parse_i64_list(TEXT("1, 2,\t3"), ',', i64, 3, &count), DIGITS_OK, 7);
    CHECK(count == 3 && i64[2] == 3);
    IS(digits_parse_i64_list(TEXT("1,2,x"), ',', i64, 2, &count), DIGITS_EMPTY, 4);
    CHECK(count == 2);
    IS(digits_parse_i64_list(TEXT("1,2,9223372036854775808"), ',', i64, 2, &count), DIGITS_OVERFLOW, 22);
    IS(digits_parse_i64_list(NULL, 0, ',', NULL, 0, &count), DIGITS_EMPTY, 0);
    CHECK(count == 0);
    IS(digits_parse_u64_list(TEXT("1\r\n2\n"), '\n', u64, 2, &count), DIGITS_OK, 5);
    CHECK(count == 2 && u64[0] == 1 && u64[1] == 2 && u64[2] == 7);
    IS(digits_parse_u64_list(TEXT("1\n2\n3"), '\n', u64, 2, &count), DIGITS_FULL, 4);
    IS(digits_parse_u64_list(TEXT("1\n\n2"), '\n', u64, 3, &count), DIGITS_INVALID, 2);
    CHECK(count == 1);
    IS(digits_parse_u64_list(TEXT("1,-2"), ',', u64, 3, &count), DIGITS_EMPTY, 2);
    IS(digits_parse_u64_list(TEXT("18446744073709551616"), ',', u64, 3, &count), DIGITS_OVERFLOW, 19);
    IS(digits_parse_u64_list(NULL, 0, '\n', NULL, 0, &count), DIGITS_OK, 0);
    IS(digits_parse_f64_list(TEXT("1.5 -2e3\t"), ' ', f64, 2, &count), DIGITS_OK, 9);
    CHECK(count == 2 && f64[0] == 1.5 && f64[1] == -2000.0 && f64[2] == 7.0);
    IS(digits_parse_f64_list(TEXT("1.5 -2e3 x"), ' ', f64, 2, &count), DIGITS_INVALID, 9);
    IS(digits_parse_f64_list(TEXT(" "), ' ', f64, 0, &count), DIGITS_OK, 1);
    CHECK(count == 0);
    IS(digits_parse_f64_list(TEXT("1|1e"), '|', f64, 3, &count), DIGITS_EMPTY_EXPONENT, 4);
    CHECK(count == 1 && f64[0] == 1.0);
    IS(digits_parse_number_list(TEXT("1, 2.5"), DIGITS_FORM_JSON, ',', numbers, 3, &count), DIGITS_OK, 6);
    CHECK(count == 2 && numbers[0].low == 1 && numbers[1].value == 2.5 && numbers[2].kind == 7);
    IS(digits_parse_number_list(TEXT("1,01"), DIGITS_FORM_JSON, ',', numbers, 3, &count),
       DIGITS_INVALID, 3);
    CHECK(count == 2 && numbers[1].low == 0 && numbers[2].kind == 7);
    IS(digits_parse_number_list(TEXT("1_0 2 -inf"), DIGITS_FORM_TOML, ' ', numbers, 2, &count),
       DIGITS_FULL, 6);
    CHECK(count == 2 && numbers[0].low == 10);
    IS(digits_parse_number_list(TEXT("1"), 1000, ',', numbers, 3, &count), DIGITS_BAD_FORM, 0);
    CHECK(count == 0);
    IS(digits_parse_number_list(NULL, 0, DIGITS_FORM_JSON, ',', NULL, 0, &count), DIGITS_EMPTY, 0);
}

/* Decimal numbers as integers, of a piece. */
static void scaled_pieces(void)
{
    int64_t cents[3] = {7, 7, 7};
    size_t count = 7;

    IS(digits_read_scaled_i64_piece(TEXT("1.5, -20 ,3.2"), 0, 2, ',', false, cents, 3, &count),
       DIGITS_MORE, 10);
    CHECK(count == 2 && cents[0] == 150 && cents[1] == -2000 && cents[2] == 7);
    IS(digits_read_scaled_i64_piece(TEXT("3.25]"), 0, 2, ',', false, cents, 3, &count), DIGITS_OK, 4);
    CHECK(count == 1 && cents[0] == 325 && cents[1] == -2000);
    IS(digits_read_scaled_i64_piece(TEXT("3.2"), 0, 2, ',', true, cents, 3, &count), DIGITS_OK, 3);
    CHECK(count == 1 && cents[0] == 320);
    IS(digits_read_scaled_i64_piece(TEXT("x1\n2\n3\n"), 1, 1, '\n', false, cents, 2, &count),
       DIGITS_FULL, 5);
    CHECK(count == 2 && cents[0] == 10 && cents[1] == 20);
    IS(digits_read_scaled_i64_piece(TEXT("1,0.125,"), 0, 2, ',', false, cents, 3, &count),
       DIGITS_TOO_FINE, 6);
    CHECK(count == 1 && cents[0] == 100);
    IS(digits_read_scaled_i64_piece(TEXT("0.12"), 0, 1, ',', false, cents, 3, &count), DIGITS_MORE, 0);
    IS(digits_read_scaled_i64_piece(TEXT("92233720368547758.08,"), 0, 2, ',', false, cents, 3, &count),
       DIGITS_OVERFLOW, 19);
    IS(digits_read_scaled_i64_piece(TEXT("1;x"), 0, 0, ';', false, cents, 3, &count), DIGITS_EMPTY, 2);
    IS(digits_read_scaled_i64_piece(TEXT("1"), 2, 39, ',', false, cents, 3, &count), DIGITS_BAD_PLACES, 2);
    CHECK(count == 0);
    IS(digits_read_scaled_i64_piece(TEXT("1"), 2, 38, ',', false, cents, 3, &count), DIGITS_BAD_START, 2);
    IS(digits_read_scaled_i64_piece(TEXT("0,"), 0, 38, ',', false, cents, 3, &count), DIGITS_MORE, 2);
    CHECK(count == 1 && cents[0] == 0);
    IS(digits_read_scaled_i64_piece(NULL, 0, 0, 2, ',', false, NULL, 0, &count), DIGITS_FULL, 0);
}

/* Prices, of a piece. */
static void price_pieces(void)
{
    int64_t cents[3] = {7, 7, 7};
    size_t count = 7;

    IS(digits_read_price_i64_piece(TEXT("1,234.50; -0.99 ;2.0"), 0, 2, ',', '.', ';', false, cents, 3,
                                   &count),
       DIGITS_MORE, 17);
    CHECK(count == 2 && cents[0] == 123450 && cents[1] == -99 && cents[2] == 7);
    IS(digits_read_price_i64_piece(TEXT("2.0"), 0, 2, ',', '.', ';', true, cents, 3, &count),
       DIGITS_PLACES, 3);
    CHECK(count == 0);
    IS(digits_read_price_i64_piece(TEXT("2.00"), 0, 2, ',', '.', ';', true, cents, 3, &count),
       DIGITS_OK, 4);
    CHECK(count == 1 && cents[0] == 200);
    IS(digits_read_price_i64_piece(TEXT("1,23"), 0, 0, ',', '.', ';', false, cents, 3, &count),
       DIGITS_MORE, 0);
    IS(digits_read_price_i64_piece(TEXT("1;1,23;"), 0, 0, ',', '.', ';', false, cents, 3, &count),
       DIGITS_GROUP, 4);
    CHECK(count == 1 && cents[0] == 1);
    IS(digits_read_price_i64_piece(TEXT("1.234,50\n2\n"), 0, 2, '.', ',', '\n', false, cents, 1, &count),
       DIGITS_FULL, 9);
    CHECK(count == 1 && cents[0] == 123450);
    IS(digits_read_price_i64_piece(TEXT("1234.50;"), 0, 2, 0, '.', ';', false, cents, 3, &count),
       DIGITS_MORE, 8);
    CHECK(count == 1 && cents[0] == 123450);
    IS(digits_read_price_i64_piece(TEXT("1"), 2, 38, ',', '.', ';', false, cents, 3, &count),
       DIGITS_BAD_START, 2);
    CHECK(count == 0);
    IS(digits_read_price_i64_piece(TEXT("1"), 2, 39, ',', '.', ';', false, cents, 3, &count),
       DIGITS_BAD_PLACES, 2);
    IS(digits_read_price_i64_piece(TEXT("1"), 2, 39, '7', '.', ';', false, cents, 3, &count),
       DIGITS_BAD_WORD, 2);
    IS(digits_read_price_i64_piece(NULL, 0, 0, 2, ',', '.', ';', false, NULL, 0, &count), DIGITS_FULL, 0);
}

/* What is kept of a piece, and where that fills the room. */
static void kept(void)
{
    const digits_outcome more = {2, DIGITS_MORE}, none = {0, DIGITS_MORE};
    const digits_outcome over = {0, DIGITS_OK}, fault = {3, DIGITS_EMPTY};
    char text[8] = {'1', ',', '2', '3', '*', '*', '*', '*'};
    size_t length = 4;

    IS(digits_keep(text, 8, &length, more), DIGITS_MORE, 2);
    CHECK(length == 2 && memcmp(text, "2323****", 8) == 0);
    IS(digits_keep(text, 8, &length, none), DIGITS_MORE, 0);
    CHECK(length == 2 && memcmp(text, "2323****", 8) == 0);
    IS(digits_keep(text, 2, &length, none), DIGITS_TOO_LONG, 0);
    CHECK(length == 2 && memcmp(text, "2323****", 8) == 0);
    IS(digits_keep(text, 2, &length, over), DIGITS_OK, 0);
    IS(digits_keep(text, 8, &length, fault), DIGITS_BAD_START, 3);
    CHECK(length == 2);
    IS(digits_keep(text, 1, &length, none), DIGITS_BAD_START, 0);
    CHECK(length == 2 && memcmp(text, "2323****", 8) == 0);
    length = 8;
    memcpy(text, "1,2,x;34", 8);
    IS(digits_keep(text, 8, &length, fault), DIGITS_EMPTY, 3);
    CHECK(length == 5 && memcmp(text, ",x;34;34", 8) == 0);
    length = 0;
    IS(digits_keep(NULL, 0, &length, none), DIGITS_TOO_LONG, 0);
    IS(digits_keep(NULL, 0, &length, over), DIGITS_OK, 0);
    CHECK(length == 0);
}

/* A read as of a socket: three bytes at most, and none at the end. */
static size_t receive(const char **stream, char *text, size_t room)
{
    size_t size = 0;

    while (size < 3 && size < room && **stream != 0)
        text[size++] = *(*stream)++;
    return size;
}

/* The sum of the floats that a stream has, by the loop of digits.h. `at` is how many bytes are left. */
static digits_outcome sum_of_stream(const char *stream, double *sum)
{
    char text[16];
    double numbers[2];
    size_t length = 0, count, i;
    digits_outcome list;

    *sum = 0;
    do {
        const size_t more = receive(&stream, text + length, sizeof text - length);

        length += more;
        list.at = 0;
        do {
            list = digits_read_f64_piece(text, length, list.at, ',', more == 0, numbers, 2, &count);
            for (i = 0; i < count; i++)
                *sum += numbers[i];
        } while (list.status == DIGITS_FULL);
        list = digits_keep(text, sizeof text, &length, list);
    } while (list.status == DIGITS_MORE);
    list.at = length;
    return list;
}

static void streams(void)
{
    double sum = 7;

    IS(sum_of_stream("12345,-6.5 ,7e2 , 8", &sum), DIGITS_OK, 0);
    CHECK(sum == 13046.5);
    IS(sum_of_stream("1,23]", &sum), DIGITS_OK, 1);
    CHECK(sum == 24.0);
    IS(sum_of_stream("1,12345678901234567890,2", &sum), DIGITS_TOO_LONG, 16);
    CHECK(sum == 1.0);
    IS(sum_of_stream("1,1234567890123456", &sum), DIGITS_TOO_LONG, 16);
    CHECK(sum == 1.0);
    IS(sum_of_stream("1,123456789012345,2", &sum), DIGITS_OK, 0);
    CHECK(sum == 123456789012348.0);
    IS(sum_of_stream("1,123456789012345", &sum), DIGITS_OK, 0);
    CHECK(sum == 123456789012346.0);
}

/* The sum of the integers of a text, which is cut at a position into two blocks; and the end of the
 * list. */
static digits_outcome sum_of_blocks(const char *text, size_t length, size_t cut, char between, int64_t *sum)
{
    const size_t start = digits_block_start(text, length, cut, (uint8_t)between);
    const size_t starts[3] = {0, start, length};
    digits_outcome list = {0, DIGITS_MORE};
    int i;

    *sum = 0;
    for (i = 0; i < 2 && list.status == DIGITS_MORE; i++) {
        const size_t begin = starts[i], end = starts[i + 1];

        list.at = 0;
        do {
            int64_t number = 0;
            size_t count;

            list = digits_read_i64_piece(text + begin, end - begin, list.at, (uint8_t)between,
                                         end == length, &number, 1, &count);
            if (count == 1)
                *sum += number;
        } while (list.status == DIGITS_FULL);
        list.at += begin;
    }
    return list;
}

/* Where a block may begin; and blocks that are cut anywhere. */
static void blocks(void)
{
    static const char text[] = "12, 345 ,6";
    static const char lines[] = "12\n345\r\n-6\n";
    const size_t length = sizeof text - 1;
    int64_t sum = 7;
    size_t cut;

    CHECK(digits_block_start(TEXT("12,345,6"), 0, ',') == 0);
    CHECK(digits_block_start(TEXT("12,345,6"), 1, ',') == 3);
    CHECK(digits_block_start(TEXT("12,345,6"), 3, ',') == 3);
    CHECK(digits_block_start(TEXT("12,345,6"), 4, ',') == 7);
    CHECK(digits_block_start(TEXT("12,345,6"), 7, ',') == 7);
    CHECK(digits_block_start(TEXT("12,345,6"), 8, ',') == 8);
    CHECK(digits_block_start(TEXT("12,345,6"), 9, ',') == 8);
    CHECK(digits_block_start(TEXT("12,345,6"), SIZE_MAX, ',') == 8);
    CHECK(digits_block_start(TEXT("12,345,6"), 1, ';') == 8);
    CHECK(digits_block_start(TEXT("1 \n 2"), 1, '\n') == 3);
    CHECK(digits_block_start(TEXT("1 \n 2"), 1, ' ') == 2);
    CHECK(digits_block_start(TEXT("1 \n 2"), 3, ' ') == 3);
    CHECK(digits_block_start(TEXT("12\t3"), 1, ' ') == 3);
    CHECK(digits_block_start(TEXT("1\xff" "2"), 1, 0xff) == 2);
    CHECK(digits_block_start(NULL, 0, 0, ',') == 0);
    CHECK(digits_block_start(NULL, 0, 1, ',') == 0);
    for (cut = 0; cut <= length; cut++) {
        IS(sum_of_blocks(text, length, cut, ',', &sum), DIGITS_OK, length);
        CHECK(sum == 363);
        IS(sum_of_blocks(TEXT("12,345,x,7"), cut, ',', &sum), DIGITS_EMPTY, 7);
        CHECK(sum == 357);
        IS(sum_of_blocks(TEXT("12 345\n 6"), cut, ' ', &sum), DIGITS_OK, 9);
        CHECK(sum == 363);
    }
    for (cut = 0; cut < sizeof lines; cut++) {
        IS(sum_of_blocks(TEXT(lines), cut, '\n', &sum), DIGITS_OK, 11);
        CHECK(sum == 351);
    }
    IS(sum_of_blocks(TEXT(""), 0, ',', &sum), DIGITS_EMPTY, 0);
}

/* Up to where a piece is sure: after the last byte that no number has. */
static void sure_ends(void)
{
    CHECK(digits_sure_end(TEXT("1.5,-2")) == 4);
    CHECK(digits_sure_end(TEXT("1.5e-3")) == 0);
    CHECK(digits_sure_end(TEXT("1_000")) == 2);
    CHECK(digits_sure_end(TEXT("12 ")) == 3);
    CHECK(digits_sure_end(NULL, 0) == 0);
    CHECK(digits_sure_end_of(TEXT("[1,1e+"), DIGITS_FORM_JSON) == 3);
    CHECK(digits_sure_end_of(TEXT("1, in"), DIGITS_FORM_TOML) == 3);
    CHECK(digits_sure_end_of(TEXT("1_000"), DIGITS_FORM_PYTHON) == 0);
    CHECK(digits_sure_end_of(TEXT("1,2"), 1000) == 0);
    CHECK(digits_sure_end_by(TEXT("x1_000"), python) == 1);
    CHECK(digits_sure_end_by(TEXT("1_000"), DIGITS_WORD_STANDARD) == 2);
    CHECK(digits_sure_end_by(TEXT("1.ff"), DIGITS_WORD_HEXADECIMAL) == 2);
    CHECK(digits_sure_end_by(TEXT("1,2"), DIGITS_MAKE_WORD(1, 0, 0)) == 0);
}

/* Where no digit is: of every kind of call without a digit, at the end, before a byte, and after one. */
static void no_digits(void)
{
    static const char *const texts[] = {"", "-", "x", "-x"};
    size_t i;

    for (i = 0; i < 4; i++) {
        const char *const text = texts[i];
        const size_t length = strlen(text), at = text[0] == '-';
        const uint32_t other = at < length ? DIGITS_INVALID : DIGITS_EMPTY;
        digits_number number;
        int64_t i64;
        double f64;

        IS(digits_read_i64(text, length, 0, &i64), DIGITS_EMPTY, at);
        IS(digits_parse_i64(text, length, &i64), other, at);
        IS(digits_parse_i64_by(text, length, python, &i64), other, at);
        IS(digits_read_f64(text, length, 0, &f64), DIGITS_EMPTY, at);
        IS(digits_parse_f64(text, length, &f64), DIGITS_EMPTY, at);
        IS(digits_read_scaled_i64(text, length, 0, 2, &i64), DIGITS_EMPTY, at);
        IS(digits_parse_scaled_i64(text, length, 2, &i64), DIGITS_EMPTY, at);
        IS(digits_parse_scaled_i64_by(text, length, 2, python, '.', &i64), DIGITS_EMPTY, at);
        IS(digits_read_price_i64(text, length, 0, 2, ',', '.', &i64), DIGITS_EMPTY, at);
        IS(digits_parse_price_i64(text, length, 2, 0, '.', &i64), DIGITS_EMPTY, at);
        IS(digits_parse_price_i64_by(text, length, 2, python, '.', &i64), DIGITS_EMPTY, at);
        IS(digits_read_json(text, length, 0, &number), DIGITS_EMPTY, at);
        IS(digits_parse_json(text, length, &number), DIGITS_EMPTY, at);
        IS(digits_parse_number(text, length, DIGITS_FORM_TOML, &number), DIGITS_EMPTY, at);
    }
}

/* A NaN has one form of bits. */
static void not_a_number(void)
{
    static const struct {
        const char *text;
        uint32_t form;
    } nans[] = {{"NaN", DIGITS_FORM_JSON5}, {"-NaN", DIGITS_FORM_JSON5}, {"nan", DIGITS_FORM_TOML},
                {"-nan", DIGITS_FORM_TOML}, {".nan", DIGITS_FORM_YAML}, {"-nan", DIGITS_FORM_STRTOD},
                {"NaN", DIGITS_FORM_RUST_PARSE}, {"-NAN", DIGITS_FORM_FROM_CHARS}};
    size_t i;

    for (i = 0; i < sizeof nans / sizeof nans[0]; i++) {
        digits_number number;
        uint64_t bits;

        IS(digits_parse_number(nans[i].text, strlen(nans[i].text), nans[i].form, &number), DIGITS_OK,
           strlen(nans[i].text));
        memcpy(&bits, &number.value, sizeof bits);
        CHECK(number.kind == DIGITS_FLOAT && bits == UINT64_C(0x7ff8000000000000));
    }
}

/* NULL is an empty text, and bytes outside of the text aren't read. */
static void edges(void)
{
    digits_number number;
    digits_literal literal;
    int64_t i64;
    double f64;

    IS(digits_read_i64(NULL, 0, 0, &i64), DIGITS_EMPTY, 0);
    IS(digits_parse_i64(NULL, 0, &i64), DIGITS_EMPTY, 0);
    IS(digits_parse_i64_by(NULL, 0, DIGITS_WORD_RUST_LITERAL, &i64), DIGITS_EMPTY, 0);
    IS(digits_read_f64(NULL, 0, 0, &f64), DIGITS_EMPTY, 0);
    IS(digits_parse_f64(NULL, 0, &f64), DIGITS_EMPTY, 0);
    IS(digits_parse_f64_by(NULL, 0, DIGITS_WORD_RUST_LITERAL, &f64), DIGITS_EMPTY, 0);
    IS(digits_read_scaled_i64(NULL, 0, 0, 2, &i64), DIGITS_EMPTY, 0);
    IS(digits_read_price_i64(NULL, 0, 0, 2, ',', '.', &i64), DIGITS_EMPTY, 0);
    IS(digits_read_literal(NULL, 0, 0, DIGITS_LANGUAGE_GO, &literal), DIGITS_EMPTY, 0);
    IS(digits_read_json(NULL, 0, 0, &number), DIGITS_EMPTY, 0);
    IS(digits_read_number(NULL, 0, 0, DIGITS_FORM_YAML, &number), DIGITS_EMPTY, 0);
    IS(digits_read_i64(NULL, 0, 1, &i64), DIGITS_BAD_START, 1);
    IS(digits_read_i64("1234", 2, 0, &i64), DIGITS_OK, 2);
    CHECK(i64 == 12);
    IS(digits_read_f64("1.5e3", 3, 0, &f64), DIGITS_OK, 3);
    CHECK(f64 == 1.5);
}

/* What a call writes into `room` of 64 places, of which each other one has to stay a `*`; and the same
 * call with one place less writes nothing. */
#define WRITES(wanted, call)                                                   \
    do {                                                                       \
        char out[64];                                                          \
        const size_t length = sizeof(wanted) - 1;                              \
        size_t room = sizeof out, answer;                                      \
        memset(out, '*', sizeof out);                                          \
        answer = (call);                                                       \
        if (answer != length || memcmp(out, wanted, length) != 0 || !rest_is(out, length)) { \
            printf("test.c:%d: %.*s: %s\n", __LINE__, (int)answer, out, #call); \
            faults++;                                                          \
        }                                                                      \
        memset(out, '*', sizeof out);                                          \
        room = length;                                                         \
        CHECK((call) == length && memcmp(out, wanted, length) == 0 && rest_is(out, length)); \
        memset(out, '*', sizeof out);                                          \
        if (length > 0) {                                                      \
            room = length - 1;                                                 \
            CHECK((call) == 0 && rest_is(out, 0));                             \
        }                                                                      \
    } while (0)

/* Whether no byte from a position on was written. */
static bool rest_is(const char out[64], size_t from)
{
    while (from < 64 && out[from] == '*')
        from++;
    return from == 64;
}

static void written_integers(void)
{
    WRITES("0", digits_write_i64(out, room, 0));
    WRITES("-1", digits_write_i64(out, room, -1));
    WRITES("9223372036854775807", digits_write_i64(out, room, INT64_MAX));
    WRITES("-9223372036854775808", digits_write_i64(out, room, INT64_MIN));
    WRITES("18446744073709551615", digits_write_u64(out, room, UINT64_MAX));
    WRITES("10000000000", digits_write_u64(out, room, UINT64_C(10000000000)));
    WRITES("2147483647", digits_write_i32(out, room, INT32_MAX));
    WRITES("-2147483648", digits_write_i32(out, room, INT32_MIN));
    WRITES("4294967295", digits_write_u32(out, room, UINT32_MAX));
    WRITES("99", digits_write_u32(out, room, 99));
    WRITES("-1,234,567", digits_write_i64_grouped(out, room, -1234567, ',', 3));
    WRITES("123'4567", digits_write_u64_grouped(out, room, 1234567, '\'', 4));
    WRITES("-9_223_372_036_854_775_808", digits_write_i64_grouped(out, room, INT64_MIN, '_', 3));
    WRITES("18,446,744,073,709,551,615", digits_write_u64_grouped(out, room, UINT64_MAX, ',', 3));
    WRITES("1 2 3", digits_write_u64_grouped(out, room, 123, ' ', 1));
    WRITES("-123", digits_write_i64_grouped(out, room, -123, '-', 3));
    WRITES("1234", digits_write_i64_grouped(out, room, 1234, 0, 0));
    WRITES("", digits_write_i64_grouped(out, room, 1234, 0, 3));
    WRITES("", digits_write_u64_grouped(out, room, 1234, '9', 3));
    CHECK(digits_write_i64(NULL, 0, 7) == 0);
    CHECK(digits_write_u64_grouped(NULL, 0, 7, ',', 3) == 0);
}

static void written_amounts(void)
{
    WRITES("-12.50", digits_write_scaled_i64(out, room, -1250, 2));
    WRITES("0.05", digits_write_scaled_i64(out, room, 5, 2));
    WRITES("-0.05", digits_write_scaled_i64(out, room, -5, 2));
    WRITES("1250", digits_write_scaled_i64(out, room, 1250, 0));
    WRITES("-92233720368547758.08", digits_write_scaled_i64(out, room, INT64_MIN, 2));
    WRITES("0.00000000000000000000000000000000000007", digits_write_scaled_i64(out, room, 7, 38));
    WRITES("", digits_write_scaled_i64(out, room, 7, 39));
    WRITES("1,234.50", digits_write_price_i64(out, room, 123450, 2, ',', '.'));
    WRITES("-1.234.567,00", digits_write_price_i64(out, room, -123456700, 2, '.', ','));
    WRITES("1234,50", digits_write_price_i64(out, room, 123450, 2, 0, ','));
    WRITES("999.99", digits_write_price_i64(out, room, 99999, 2, ',', '.'));
    WRITES("1'000", digits_write_price_i64(out, room, 1000, 0, '\'', '.'));
    WRITES("", digits_write_price_i64(out, room, 7, 39, ',', '.'));
    CHECK(digits_write_scaled_i64(NULL, 0, 7, 2) == 0);
    CHECK(digits_write_price_i64(NULL, 0, 7, SIZE_MAX, ',', '.') == 0);
}

static void written_floats(void)
{
    WRITES("0.1", digits_write_f64(out, room, 0.1));
    WRITES("-12000.0", digits_write_f64(out, room, -12000.0));
    WRITES("1e23", digits_write_f64(out, room, 1e23));
    WRITES("9007199254740992.0", digits_write_f64(out, room, 9007199254740993.0));
    WRITES("1e16", digits_write_f64(out, room, 1e16));
    WRITES("0.00001", digits_write_f64(out, room, 1e-5));
    WRITES("1e-6", digits_write_f64(out, room, 1e-6));
    WRITES("5e-324", digits_write_f64(out, room, 4.9406564584124654e-324));
    WRITES("-1.7976931348623157e308", digits_write_f64(out, room, -1.7976931348623157e308));
    WRITES("-2.2250738585072014e-308", digits_write_f64(out, room, -2.2250738585072014e-308));
    WRITES("0.0", digits_write_f64(out, room, 0.0));
    WRITES("-0.0", digits_write_f64(out, room, -0.0));
    WRITES("", digits_write_f64(out, room, HUGE_VAL));
    WRITES("", digits_write_f64(out, room, -HUGE_VAL));
    WRITES("", digits_write_f64(out, room, HUGE_VAL - HUGE_VAL));
    WRITES("0.1", digits_write_f32(out, room, 0.1f));
    WRITES("16777216.0", digits_write_f32(out, room, 16777217.0f));
    WRITES("1e-45", digits_write_f32(out, room, 1e-45f));
    WRITES("", digits_write_f32(out, room, (float)HUGE_VAL));
    WRITES("0.1", digits_write_f64_in(out, room, 0.1, DIGITS_LAYOUT_USUAL));
    WRITES("1.2e-4", digits_write_f64_in(out, room, 0.00012, DIGITS_LAYOUT_EXPONENT));
    WRITES("-0e0", digits_write_f64_in(out, room, -0.0, DIGITS_LAYOUT_EXPONENT));
    WRITES("12000", digits_write_f64_in(out, room, 12000.0, DIGITS_LAYOUT_PLAIN));
    WRITES("100000000000000000000000", digits_write_f64_in(out, room, 1e23, DIGITS_LAYOUT_PLAIN));
    WRITES("", digits_write_f64_in(out, room, 1.5, 3));
    WRITES("1.5e0", digits_write_f32_in(out, room, 1.5f, DIGITS_LAYOUT_EXPONENT));
    WRITES("", digits_write_f32_in(out, room, 1.5f, UINT32_MAX));
    WRITES("0.12", digits_write_f64_fixed(out, room, 0.125, 2));
    WRITES("-0.38", digits_write_f64_fixed(out, room, -0.375, 2));
    WRITES("2", digits_write_f64_fixed(out, room, 2.5, 0));
    WRITES("-0.00", digits_write_f64_fixed(out, room, -0.001, 2));
    WRITES("0.1000000000000000055511151231257827", digits_write_f64_fixed(out, room, 0.1, 34));
    WRITES("100.00", digits_write_f64_fixed(out, room, 99.999, 2));
    WRITES("", digits_write_f64_fixed(out, room, HUGE_VAL, 2));
    CHECK(digits_write_f64(NULL, 0, 1.5) == 0);
    CHECK(digits_write_f64_fixed(NULL, 0, 1.5, UINT32_MAX) == 0);
}

static void written_scientific(void)
{
    const uint32_t printf_like = DIGITS_EXPONENT_SIGNED, brief = DIGITS_EXPONENT_SHORT;
    WRITES("1.23e+03", digits_write_f64_scientific(out, room, 1234.5, 2, printf_like));
    WRITES("1.23e3", digits_write_f64_scientific(out, room, 1234.5, 2, brief));
    WRITES("1.0e+01", digits_write_f64_scientific(out, room, 9.96, 1, printf_like));
    WRITES("2e+00", digits_write_f64_scientific(out, room, 2.5, 0, printf_like));
    WRITES("-0.00e+00", digits_write_f64_scientific(out, room, -0.0, 2, printf_like));
    WRITES("-0.00e0", digits_write_f64_scientific(out, room, -0.0, 2, brief));
    WRITES("4.941e-324", digits_write_f64_scientific(out, room, 4.9406564584124654e-324, 3, brief));
    WRITES("-1.0e+100", digits_write_f64_scientific(out, room, -1e100, 1, printf_like));
    WRITES("1.00000000000000005551e-01",
           digits_write_f64_scientific(out, room, 0.1, 20, printf_like));
    WRITES("", digits_write_f64_scientific(out, room, 1.5, 2, 2));
    WRITES("", digits_write_f64_scientific(out, room, -HUGE_VAL, 2, printf_like));
    WRITES("", digits_write_f64_scientific(out, room, HUGE_VAL - HUGE_VAL, 2, brief));
    CHECK(digits_write_f64_scientific(NULL, 0, 1.5, 2, printf_like) == 0);
}

static void written_by_a_form(void)
{
    WRITES("0.5", digits_write_f64_of(out, room, 0.5, DIGITS_FORM_JSON));
    WRITES("2.0", digits_write_f64_of(out, room, 2.0, DIGITS_FORM_JSON));
    WRITES("1e16", digits_write_f64_of(out, room, 1e16, DIGITS_FORM_JSON));
    WRITES("1.0e16", digits_write_f64_of(out, room, 1e16, DIGITS_FORM_ERLANG));
    WRITES("-inf", digits_write_f64_of(out, room, -HUGE_VAL, DIGITS_FORM_TOML));
    WRITES(".inf", digits_write_f64_of(out, room, HUGE_VAL, DIGITS_FORM_YAML));
    WRITES("", digits_write_f64_of(out, room, HUGE_VAL, DIGITS_FORM_JSON));
    WRITES("", digits_write_f64_of(out, room, -3.0, DIGITS_FORM_ERLANG));
    WRITES("", digits_write_f64_of(out, room, 0.5, UINT32_MAX));
    WRITES("-3", digits_write_i64_of(out, room, -3, DIGITS_FORM_JSON));
    WRITES("-9223372036854775808", digits_write_i64_of(out, room, INT64_MIN, DIGITS_FORM_TOML));
    WRITES("7", digits_write_i64_of(out, room, 7, DIGITS_FORM_RUST));
    WRITES("", digits_write_i64_of(out, room, -3, DIGITS_FORM_RUST));
    WRITES("", digits_write_i64_of(out, room, 7, UINT32_MAX));
    CHECK(digits_write_f64_of(NULL, 0, 0.5, DIGITS_FORM_JSON) == 0);
    CHECK(digits_write_i64_of(NULL, 0, 7, DIGITS_FORM_JSON) == 0);
}

int main(void)
{
    CHECK(digits_version() == DIGITS_VERSION);
    CHECK(digits_is_supported(DIGITS_WORD_STANDARD));
    CHECK(digits_is_supported(DIGITS_WORD_ERLANG_BINARY_LITERAL));
    CHECK(!digits_is_supported(DIGITS_MAKE_WORD(37, 0, 0)));
    CHECK(!digits_is_supported(DIGITS_MAKE_WORD(16, 'f', 0)));
    CHECK(strcmp(digits_message(DIGITS_EMPTY), "no digit") == 0);
    CHECK(strcmp(digits_message(DIGITS_GROUP), "a group of digits that isn't of three") == 0);
    CHECK(strcmp(digits_message(DIGITS_PLACES), "fewer or more places than were asked for") == 0);
    integers();
    floats();
    scaled();
    prices();
    prices_back();
    literals();
    numbers();
    values();
    lists();
    ends_of_lists();
    lists_of_a_form();
    bytes();
    arrays();
    pieces();
    whole_lists();
    scaled_pieces();
    price_pieces();
    kept();
    streams();
    blocks();
    sure_ends();
    no_digits();
    not_a_number();
    edges();
    written_integers();
    written_amounts();
    written_floats();
    written_scientific();
    written_by_a_form();
    printf("%d faults\n", faults);
    return faults != 0;
}
