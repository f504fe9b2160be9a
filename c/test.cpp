// The calls of digits.hpp, each with a number or a fault. Their answers are those of test.c.
#include "digits.hpp"

#include <array>
#include <cmath>
#include <cstdio>
#include <limits>
#include <string>
#include <vector>

static int faults = 0;

#define CHECK(condition)                                                       \
    do {                                                                       \
        if (!(condition)) {                                                    \
            std::printf("test.cpp:%d: %s\n", __LINE__, #condition);            \
            faults++;                                                          \
        }                                                                      \
    } while (0)

constexpr digits::word underscores = DIGITS_WORD_PYTHON_LITERAL;
static const digits::word commas = DIGITS_MAKE_INIT(10, ',', DIGITS_FLAG_INTEGER_INTERNAL);

template <typename T>
static bool is(const digits::result<T> &result, T value, std::size_t at)
{
    return result && *result == value && result.at == at;
}

template <typename T>
static bool fails(const digits::result<T> &result, std::uint32_t status, std::size_t at)
{
    return !result && result.status == status && result.at == at && !result.optional();
}

// Numbers that are written, into places of several kinds.
static void writes()
{
    char places[digits::room<int64_t>];
    CHECK(digits::write(places, -12) == "-12");
    CHECK(digits::write(places, std::numeric_limits<int64_t>::min()) == "-9223372036854775808");
    CHECK(digits::write(places, std::numeric_limits<unsigned long long>::max()) ==
          "18446744073709551615");
    CHECK(digits::write(places, short{-7}) == "-7" && digits::write(places, 7u) == "7");
    std::array<char, digits::room<double>> room;
    CHECK(digits::write(room, 0.1) == "0.1" && digits::write(room, 0.1f) == "0.1");
    CHECK(digits::write(room, -5e-324) == "-5e-324");
    CHECK(digits::write(room, HUGE_VAL).empty() && digits::write(room, std::nan("")).empty());
    CHECK(digits::write_in(room, 12000.0, DIGITS_LAYOUT_EXPONENT) == "1.2e4");
    CHECK(digits::write_in(room, 12000.0f, DIGITS_LAYOUT_PLAIN) == "12000");
    CHECK(digits::write_in(room, 12000.0, 3).empty());
    CHECK(digits::write_fixed(room, 0.125, 2) == "0.12");
    CHECK(digits::write_scientific(room, 1234.5, 2) == "1.23e+03");
    CHECK(digits::write_scientific(room, 1234.5, 2, DIGITS_EXPONENT_SHORT) == "1.23e3");
    CHECK(digits::write_of(room, 2.0, DIGITS_FORM_JSON) == "2.0");
    CHECK(digits::write_of(room, -3, DIGITS_FORM_JSON) == "-3");
    CHECK(digits::write_of(room, std::nan(""), DIGITS_FORM_JSON).empty());
    std::string text(12, '*');
    CHECK(digits::write_grouped(text, 1234567, ',') == "1,234,567" && text == "1,234,567***");
    CHECK(digits::write_grouped(text, 255u, '_', 1) == "2_5_5");
    CHECK(digits::write_scaled(text, -1250, 2) == "-12.50");
    CHECK(digits::write_price(text, 123450, 2, ',') == "1,234.50");
    CHECK(digits::write_price(text, 123450, 2, '.', ',') == "1.234,50");
    std::vector<unsigned char> few(2, '*');
    CHECK(digits::write(few, 123).empty() && few[0] == '*' && few[1] == '*');
    CHECK(digits::write(few, 42) == "42");
    CHECK(digits::write(std::vector<char>(), 1).empty());
    CHECK(digits::parse<double>(digits::write(room, 1.0 / 3)).value_or(0) == 1.0 / 3);
}

int main()
{
    writes();
    CHECK(is(digits::read<int64_t>("-12;"), int64_t{-12}, 3));
    CHECK(is(digits::read<long long>("x=+12 ", 2), 12LL, 5));
    CHECK(is(digits::read<unsigned long>("18446744073709551615"),
             std::numeric_limits<unsigned long>::max(), 20));
    CHECK(is(digits::parse<int>("-2147483648"), std::numeric_limits<int>::min(), 11));
    CHECK(fails(digits::parse<int>("2147483648"), DIGITS_OVERFLOW, 9));
    CHECK(fails(digits::parse<unsigned>("+1"), DIGITS_INVALID, 0));
    CHECK(is(digits::parse<int64_t>("1_000", underscores), int64_t{1000}, 5));
    CHECK(is(digits::read<uint32_t>("x1_0__0", 1, underscores), uint32_t{10}, 4));
    CHECK(is(digits::read<double>("-1.5e3,2"), -1500.0, 6));
    CHECK(is(digits::parse<float>("0.1"), 0.1f, 3));
    CHECK(is(digits::parse<double>("1_234.5e-1", underscores), 123.45, 10));
    CHECK(digits::parse<double>("x").value_or(7.0) == 7.0);
    CHECK(std::string_view(digits::parse<double>("").message()) == "no digit");
    CHECK(is(digits::read_scaled("-1234.5;", 0, 2), int64_t{-123450}, 7));
    CHECK(is(digits::read_scaled("$1,234.50", 1, 2, commas), int64_t{123450}, 9));
    CHECK(is(digits::parse_scaled("3,5", 1, DIGITS_WORD_STANDARD, ','), int64_t{35}, 3));
    CHECK(fails(digits::parse_scaled("0.125", 2), DIGITS_TOO_FINE, 4));
    CHECK(is(digits::read_price("1,234.50 EUR", 0, 2, ','), int64_t{123450}, 8));
    CHECK(is(digits::read_price("$1.234,50", 1, 2, '.', ','), int64_t{123450}, 9));
    CHECK(is(digits::read_price("$1,234.50", 1, 2, commas), int64_t{123450}, 9));
    CHECK(fails(digits::read_price("12,34.50", 0, 2, commas, '.'), DIGITS_GROUP, 3));
    CHECK(is(digits::parse_price("1234,50", 2, 0, ','), int64_t{123450}, 7));
    CHECK(fails(digits::parse_price("1,234.5", 2, ','), DIGITS_PLACES, 7));
    CHECK(is(digits::parse_price("1_234.5", 1, underscores), int64_t{12345}, 7));
    char room[26];
    CHECK(digits::parse_price(digits::write_price(room, INT64_MIN, 2, ','), 2, ',').value == INT64_MIN);
    const auto literal = digits::read_literal("0xff_u8", 0, DIGITS_LANGUAGE_RUST);
    CHECK(literal && literal->low == 255 && literal->radix == 16 && literal.at == 5);
    CHECK(is(digits::read_literal_u64("017", 0, DIGITS_LANGUAGE_JAVA), uint64_t{15}, 3));
    const auto integer = digits::read_json("[-7]", 1);
    CHECK(integer && integer->is_integer() && integer->as_i64() == -7 && !integer->as_u64());
    const auto price = digits::parse_json("1.5");
    CHECK(price && price->is_float() && price->value == 1.5 && !price->as_i64());
    const auto port = digits::parse_number("0x1F90", DIGITS_FORM_YAML);
    CHECK(port && port->as_u64() == 8080u);
    CHECK(digits::read_number("1em", 0, DIGITS_FORM_STRTOD).at == 1);
    CHECK(!digits::parse_json({}));
    int64_t numbers[2] = {7, 7};
    const auto list = digits::read_list("1, -2 ,3]", 0, ',', numbers, 2);
    CHECK(list.is_full() && list.count == 2 && list.at == 7 && numbers[1] == -2);
    const auto rest = digits::read_list("1, -2 ,3]", list.at, ',', numbers, 2);
    CHECK(rest.is_over() && rest.count == 1 && rest.at == 8 && numbers[0] == 3 && numbers[1] == -2);
    double column[3] = {7, 7, 7};
    CHECK(digits::read_list("1.5\n2e3\n", 0, '\n', column, 3).count == 2 && column[1] == 2000.0);
    digits::number of_form[2] = {};
    const auto strict = digits::read_list("[1, 2.5, 01]", 1, DIGITS_FORM_JSON, ',', of_form, 2);
    CHECK(strict.is_full() && strict.count == 2 && strict.at == 8);
    CHECK(of_form[0].as_i64() == 1 && of_form[1].is_float() && of_form[1].value == 2.5);
    const auto open = digits::open_list(" [ 1, 2 ]", 0, '[', ']');
    CHECK(open && open.at == 3 && !open.is_closed());
    const auto inner = digits::read_list(" [ 1, 2 ]", open.at, DIGITS_FORM_JSON, ',', of_form, 2);
    CHECK(inner.is_over() && digits::expect_byte(" [ 1, 2 ]", inner.at, ']').at == 9);
    CHECK(digits::open_list("[ ]", 0, '[', ']').is_closed());
    const auto other = digits::expect_byte("1 :2", 3, ':');
    CHECK(!other && other.at == 3 && std::string_view(other.message()).size() > 0);
    CHECK(digits::past_blanks("\t \n1", 0) == 3);
    const auto cut = digits::read_piece("1, -2 ,34", 0, ',', false, numbers, 2);
    CHECK(cut.is_full() && cut.count == 2 && cut.at == 7 && numbers[1] == -2);
    const auto left = digits::read_piece("1, -2 ,34", cut.at, ',', false, numbers, 2);
    CHECK(left.is_more() && left.count == 0 && left.at == 7);
    CHECK(digits::read_piece("345]", 0, ',', false, column, 3).is_over() && column[0] == 345.0);
    const auto json = digits::read_piece("1,1e+", 0, DIGITS_FORM_JSON, ',', false, of_form, 2);
    CHECK(json.is_more() && json.count == 1 && json.at == 2 && of_form[0].as_u64() == 1u);
    const auto cents = digits::read_scaled_piece("1.5;-2;3", 0, 2, ';', false, numbers, 2);
    CHECK(cents.is_full() && cents.at == 7 && numbers[0] == 150 && numbers[1] == -200);
    const auto prices = digits::read_price_piece("1,000.50;-2.00;3", 0, 2, ',', '.', ';', false, numbers, 2);
    CHECK(prices.is_full() && prices.at == 15 && numbers[0] == 100050 && numbers[1] == -200);
    CHECK(digits::parse_list("1, 2.5", ',', column, 3).is_over() && column[1] == 2.5);
    const auto too_many = digits::parse_list("1 2 3", ' ', numbers, 2);
    CHECK(too_many.is_full() && too_many.count == 2 && too_many.at == 4);
    const auto rest_of_it = digits::parse_list("7]", DIGITS_FORM_JSON, ',', of_form, 2);
    CHECK(rest_of_it.status == DIGITS_INVALID && rest_of_it.at == 1 && of_form[0].as_u64() == 7u);
    char place[4] = {'1', ',', '2', '3'};
    std::size_t length = 4;
    const auto kept = digits::keep(place, length, digits::read_piece({place, 4}, 0, ',', false, numbers, 2));
    CHECK(kept.is_more() && kept.count == 1 && kept.at == 2 && length == 2 && place[0] == '2');
    std::array<char, 2> full = {'2', '3'};
    CHECK(digits::keep(full, length, digits::list{0, 0, DIGITS_MORE}).is_too_long() && length == 2);
    CHECK(digits::block_start("12,345,6", 4, ',') == 7);
    CHECK(digits::sure_end("1.5,-2") == 4 && digits::sure_end("x1_000", underscores) == 1);
    CHECK(digits::sure_end_of("[1,1e+", DIGITS_FORM_JSON) == 3);
    std::printf("%d faults\n", faults);
    return faults != 0;
}
