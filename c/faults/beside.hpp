// Every call of digits.h over one text, beside strtoll, strtod, from_chars and readers of a few lines:
// number, end and status. The text ends where a page ends, and no page follows; or it begins where a
// page begins, and none is before it.
#ifndef BESIDE_HPP
#define BESIDE_HPP

#include "digits.h"

#include <cerrno>
#include <charconv>
#include <cmath>
#include <cstdio>
#include <cstdlib>
#include <cstring>
#include <initializer_list>
#include <string>
#include <sys/mman.h>
#include <system_error>
#include <vector>

namespace beside {

using std::size_t;
using std::string;

struct answer {
    string number; // as bytes, so that two NaN and two zeros are told apart
    size_t at;
    uint32_t status;
};

template <typename T>
string bytes_of(const T &value)
{
    return string(reinterpret_cast<const char *>(&value), sizeof value);
}

// The same of a structure: bytes between and after its fields are nobody's.
inline string bytes_of(const digits_number &number)
{
    return bytes_of(number.value) + bytes_of(number.low) + bytes_of(number.high) +
           bytes_of(number.kind) + bytes_of(number.is_negative);
}

inline string bytes_of(const digits_literal &literal)
{
    return bytes_of(literal.low) + bytes_of(literal.high) + bytes_of(literal.digits) +
           bytes_of(literal.radix);
}

// What to compare next, for a message.
inline string text_now;
inline size_t start_now;

[[noreturn]] inline void stop(const char *what)
{
    std::printf("%s differs at %zu of %zu bytes: \"", what, start_now, text_now.size());
    for (const unsigned char byte : text_now)
        std::printf(byte >= ' ' && byte < 127 && byte != '"' && byte != '\\' ? "%c" : "\\x%02x", byte);
    std::printf("\"\n");
    std::fflush(stdout);
    std::abort();
}

inline void check(bool is_right, const char *what)
{
    if (!is_right)
        stop(what);
}

// Two pages, with none before and none after them.
struct pages {
    static constexpr size_t room = 8192;
    char *first;

    pages()
    {
        void *all = mmap(nullptr, room + 8192, PROT_NONE, MAP_PRIVATE | MAP_ANONYMOUS, -1, 0);
        if (all == MAP_FAILED)
            std::abort();
        first = static_cast<char *>(all) + 4096;
        if (mprotect(first, room, PROT_READ | PROT_WRITE) != 0)
            std::abort();
    }

    const char *place(const string &text, bool is_at_end) const
    {
        char *to = is_at_end ? first + room - text.size() : first;
        std::memcpy(to, text.data(), text.size());
        return to;
    }
};

// Counts what was seen, for a fuzzer that can't see into the library: by call, status and place.
inline void (*seen)(unsigned call, const answer &) = nullptr;
inline unsigned calls_now;

template <typename T, typename Call, typename... Rest>
answer call(Call function, const char *text, size_t length, Rest... rest)
{
    T number;
    std::memset(&number, 0xa5, sizeof number);
    const digits_outcome outcome = function(text, length, rest..., &number);
    const string bytes = bytes_of(number);
    if (outcome.status != DIGITS_OK)
        check(bytes == string(bytes.size(), '\0'), "a number after a fault");
    const answer given{bytes, outcome.at, outcome.status};
    if (seen)
        seen(calls_now, given);
    calls_now++;
    return given;
}

inline void same(const answer &a, const answer &b, const char *what)
{
    check(a.number == b.number && a.at == b.at && a.status == b.status, what);
}

// What a parse answers, by what the read at 0 does.
inline answer whole(const answer &read, const string &text, bool is_float)
{
    if (read.status == DIGITS_OK && read.at < text.size())
        return {string(read.number.size(), '\0'), read.at, DIGITS_INVALID};
    // an integer that has no digit at a byte is invalid there; a float is empty
    if (!is_float && read.status == DIGITS_EMPTY && read.at < text.size())
        return {read.number, read.at, DIGITS_INVALID};
    return read;
}

// ---- the readers beside ----

inline bool is_digit(char byte) { return byte >= '0' && byte <= '9'; }

inline size_t past_digits(const string &text, size_t at)
{
    while (at < text.size() && is_digit(text[at]))
        at++;
    return at;
}

inline size_t past_sign(const string &text, size_t at)
{
    return at + (at < text.size() && (text[at] == '-' || text[at] == '+'));
}

// An integer by from_chars, which takes no plus.
template <typename T>
answer integer(const string &text, size_t start)
{
    const size_t digits = std::is_signed_v<T> ? past_sign(text, start) : start;
    const bool is_plus = digits > start && text[start] == '+';
    T number = 0;
    if (past_digits(text, digits) == digits)
        return {bytes_of(number), digits, DIGITS_EMPTY};
    const char *const from = text.data() + (is_plus ? digits : start);
    const auto read = std::from_chars(from, text.data() + text.size(), number);
    if (read.ec == std::errc())
        return {bytes_of(number), static_cast<size_t>(read.ptr - text.data()), DIGITS_OK};
    size_t at = digits; // the first digit with which it is too large
    while (std::from_chars(from, text.data() + at + 1, number).ec == std::errc())
        at++;
    return {bytes_of(T{0}), at, DIGITS_OVERFLOW};
}

inline double to_float(const char *text, char **end, double) { return std::strtod(text, end); }
inline float to_float(const char *text, char **end, float) { return std::strtof(text, end); }

// A float by strtod, where digits end by hand.
template <typename T>
answer floating(const string &text, size_t start)
{
    const size_t whole = past_sign(text, start);
    size_t at = past_digits(text, whole), digits = at - whole;
    if (at < text.size() && text[at] == '.') {
        const size_t end = past_digits(text, at + 1);
        digits += end - at - 1;
        at = end;
    }
    if (digits == 0)
        return {bytes_of(T{0}), at, DIGITS_EMPTY};
    if (at < text.size() && (text[at] == 'e' || text[at] == 'E')) {
        const size_t exponent = past_sign(text, at + 1);
        at = past_digits(text, exponent);
        if (at == exponent)
            return {bytes_of(T{0}), at, DIGITS_EMPTY_EXPONENT};
    }
    const string alone = text.substr(start, at - start);
    char *end;
    const T number = to_float(alone.c_str(), &end, T{});
    check(end == alone.c_str() + alone.size(), "the end by strtod");
    return {bytes_of(number), at, DIGITS_OK};
}

// A number of RFC 8259 by its grammar, and by strtod.
inline answer json(const string &text, size_t start)
{
    const bool is_negative = start < text.size() && text[start] == '-';
    const size_t whole = start + is_negative;
    digits_number n{0, 0, 0, DIGITS_NONE, false};
    const auto is = [&](uint32_t status, size_t at) -> answer {
        return {bytes_of(n.value) + bytes_of(n.low) + bytes_of(n.high) + bytes_of(n.kind) +
                    bytes_of(n.is_negative),
                at, status};
    };
    size_t at = past_digits(text, whole);
    if (at == whole)
        return is(DIGITS_EMPTY, whole);
    if (text[whole] == '0')
        at = whole + 1;
    n.kind = DIGITS_INTEGER;
    if (at + 1 < text.size() && text[at] == '.' && is_digit(text[at + 1])) {
        at = past_digits(text, at + 1);
        n.kind = DIGITS_FLOAT;
    }
    if (at < text.size() && (text[at] == 'e' || text[at] == 'E')) {
        const size_t exponent = past_sign(text, at + 1), end = past_digits(text, exponent);
        if (end > exponent) {
            at = end;
            n.kind = DIGITS_FLOAT;
        }
    }
    const string alone = text.substr(start, at - start);
    n.value = std::strtod(alone.c_str(), nullptr);
    if (n.kind == DIGITS_INTEGER) {
        unsigned __int128 value = 0;
        const unsigned __int128 most = ~value;
        for (size_t i = whole; i < at; i++) {
            const unsigned digit = static_cast<unsigned>(text[i] - '0');
            if (value > (most - digit) / 10) {
                n.kind = DIGITS_FLOAT;
                return is(DIGITS_OK, at);
            }
            value = value * 10 + digit;
        }
        n.low = static_cast<uint64_t>(value);
        n.high = static_cast<uint64_t>(value >> 64);
        n.is_negative = is_negative;
    }
    return is(DIGITS_OK, at);
}

// A decimal number of two places as an integer, or the first digit that is too much.
inline answer cents(const string &text, size_t start)
{
    const size_t whole = past_sign(text, start);
    const bool is_negative = whole > start && text[start] == '-';
    const __int128 most = static_cast<__int128>(INT64_MAX) + is_negative;
    const string zero(8, '\0');
    size_t at = whole, digits = 0;
    __int128 value = 0, scale = 100;
    bool is_fraction = false;
    answer fault{zero, 0, DIGITS_OK};
    for (; at < text.size(); at++) {
        if (text[at] == '.' && !is_fraction) {
            is_fraction = true;
            continue;
        }
        if (text[at] < '0' || text[at] > '9')
            break;
        digits++;
        scale /= is_fraction ? 10 : 1;
        if (fault.status != DIGITS_OK)
            continue;
        if (scale == 0 && text[at] != '0')
            fault = {zero, at, DIGITS_TOO_FINE};
        else if (scale > 0)
            value = value * 10 + (text[at] - '0');
        if (value * scale > most)
            fault = {zero, at, DIGITS_OVERFLOW};
    }
    if (digits == 0)
        return {zero, at, DIGITS_EMPTY};
    if (fault.status != DIGITS_OK)
        return fault;
    value *= scale > 0 ? scale : 1;
    return {bytes_of(static_cast<int64_t>(is_negative ? -value : value)), at, DIGITS_OK};
}

// An integer in which each `_` between two digits of the text is dropped, also one at the start: by
// the integer without them.
inline answer grouped(const string &text, size_t start)
{
    string plain = text.substr(0, start);
    std::vector<size_t> positions(start);
    for (size_t at = 0; at < start; at++)
        positions[at] = at;
    for (size_t at = start; at < text.size(); at++) {
        const bool is_between = at > 0 && at + 1 < text.size() && is_digit(text[at - 1]) &&
                                is_digit(text[at + 1]);
        if (text[at] == '_' && is_between)
            continue;
        plain += text[at];
        positions.push_back(at);
    }
    positions.push_back(text.size());
    answer read = integer<int64_t>(plain, start);
    // a number ends after its last digit
    read.at = read.status == DIGITS_OK ? positions[read.at - 1] + 1 : positions[read.at];
    return read;
}

// A price of two places: by the cents without the separators of its integer, and by its groups.
inline answer price(const string &text, size_t start, char separator)
{
    const size_t first = past_sign(text, start);
    string plain = text.substr(0, first);
    std::vector<size_t> positions, groups{first};
    for (size_t at = 0; at < first; at++)
        positions.push_back(at);
    size_t at = first;
    for (; at < text.size(); at++) {
        const bool is_between = at > 0 && at + 1 < text.size() && is_digit(text[at - 1]) &&
                                is_digit(text[at + 1]);
        if (text[at] == separator && is_between) {
            groups.push_back(at + 1);
        } else if (is_digit(text[at])) {
            plain += text[at];
            positions.push_back(at);
        } else
            break;
    }
    groups.push_back(at + 1);
    const size_t point = plain.size();
    answer read = cents(plain + text.substr(at), start);
    const size_t end = read.at;
    read.at = end < point ? positions[end] : end - point + at;
    for (size_t i = 0; i + 1 < groups.size() && read.status == DIGITS_OK; i++) {
        const size_t digits = groups[i + 1] - groups[i] - 1;
        if (digits > 3 || digits < (i == 0 ? 1 : 3))
            return {string(8, '\0'), groups[i], DIGITS_GROUP};
    }
    if (read.status == DIGITS_OK && end != point + 3) // a point and two digits
        return {string(8, '\0'), read.at, DIGITS_PLACES};
    return read;
}

// ---- all calls ----

template <typename T>
void integers(const char *name, const char *text, const string &copy, size_t start,
              digits_outcome (*read)(const void *, size_t, size_t, T *),
              digits_outcome (*parse)(const void *, size_t, T *),
              digits_outcome (*read_by)(const void *, size_t, size_t, digits_word, T *),
              digits_outcome (*parse_by)(const void *, size_t, digits_word, T *))
{
    const size_t length = copy.size();
    const answer at_start = integer<T>(copy, start), at_0 = integer<T>(copy, 0);
    same(call<T>(read, text, length, start), at_start, name);
    same(call<T>(read_by, text, length, start, DIGITS_WORD_STANDARD), at_start, name);
    same(call<T>(parse, text, length), whole(at_0, copy, false), name);
    same(call<T>(parse_by, text, length, DIGITS_WORD_STANDARD), whole(at_0, copy, false), name);
}

template <typename T>
void floats(const char *name, const char *text, const string &copy, size_t start,
            digits_outcome (*read)(const void *, size_t, size_t, T *),
            digits_outcome (*parse)(const void *, size_t, T *),
            digits_outcome (*read_by)(const void *, size_t, size_t, digits_word, T *),
            digits_outcome (*parse_by)(const void *, size_t, digits_word, T *))
{
    const size_t length = copy.size();
    const answer at_start = floating<T>(copy, start), at_0 = floating<T>(copy, 0);
    same(call<T>(read, text, length, start), at_start, name);
    same(call<T>(read_by, text, length, start, DIGITS_WORD_STANDARD), at_start, name);
    same(call<T>(parse, text, length), whole(at_0, copy, true), name);
    same(call<T>(parse_by, text, length, DIGITS_WORD_STANDARD), whole(at_0, copy, true), name);
}

// strtoll and strtoull, which skip blanks and go by a zero after the text.
inline void beside_strtoll(const char *text, const string &copy, size_t start)
{
    const char first = start < copy.size() ? copy[start] : ' ';
    char *end;
    if (first == '-' || first == '+' || is_digit(first)) {
        errno = 0;
        const long long number = std::strtoll(copy.c_str() + start, &end, 10);
        const answer read = call<int64_t>(digits_read_i64, text, copy.size(), start);
        const bool is_read = end != copy.c_str() + start;
        check((read.status == DIGITS_OK) == (is_read && errno == 0), "strtoll");
        if (read.status == DIGITS_OK)
            check(read.number == bytes_of(int64_t{number}) && copy.c_str() + read.at == end, "strtoll");
    }
    if (is_digit(first)) {
        errno = 0;
        const unsigned long long number = std::strtoull(copy.c_str() + start, &end, 10);
        const answer read = call<uint64_t>(digits_read_u64, text, copy.size(), start);
        check((read.status == DIGITS_OK) == (errno == 0), "strtoull");
        if (read.status == DIGITS_OK)
            check(read.number == bytes_of(uint64_t{number}) && copy.c_str() + read.at == end, "strtoull");
        errno = 0;
        const unsigned long long literal = std::strtoull(copy.c_str() + start, &end, 0);
        const answer c = call<uint64_t>(digits_read_literal_u64, text, copy.size(), start,
                                        DIGITS_LANGUAGE_C);
        if (c.status == DIGITS_OK)
            check(c.number == bytes_of(uint64_t{literal}) && copy.c_str() + c.at == end && errno == 0,
                  "strtoull by a prefix");
        else // `0x` without a digit is the 0 of strtoull
            check(errno == ERANGE || end == copy.c_str() + start + 1, "strtoull by a prefix");
    }
}

// strtod, by the form that has inf, nan and hexadecimal floats too.
inline void beside_strtod(const char *text, const string &copy, size_t start)
{
    digits_number number;
    const digits_outcome read = digits_read_number(text, copy.size(), start, DIGITS_FORM_STRTOD, &number);
    if (start < copy.size() && std::strchr(" \t\n\v\f\r", copy[start]) != nullptr)
        return;
    char *end;
    const double wanted = std::strtod(copy.c_str() + start, &end);
    const size_t at = static_cast<size_t>(end - copy.c_str());
    check((read.status == DIGITS_OK) == (at > start), "whether strtod reads");
    if (read.status != DIGITS_OK)
        return;
    if (std::isnan(wanted)) {
        const bool is_named = read.at < copy.size() && copy[read.at] == '('; // nan(..)
        check(std::isnan(number.value) && (at == read.at || is_named), "strtod");
    } else
        check(bytes_of(wanted) == bytes_of(number.value) && at == read.at, "strtod");
}

// from_chars, by the form that has its grammar. What is out of range has no value there.
inline void beside_from_chars(const char *text, const string &copy, size_t start)
{
    digits_number number;
    const digits_outcome read = digits_read_number(text, copy.size(), start, DIGITS_FORM_FROM_CHARS, &number);
    double wanted = 0;
    const auto by = std::from_chars(copy.data() + start, copy.data() + copy.size(), wanted);
    check((read.status == DIGITS_OK) == (by.ec != std::errc::invalid_argument), "whether from_chars reads");
    if (read.status != DIGITS_OK)
        return;
    const bool is_named = read.at < copy.size() && copy[read.at] == '('; // nan(..)
    check(by.ptr == copy.data() + read.at || (std::isnan(number.value) && is_named), "the end by from_chars");
    if (by.ec == std::errc())
        check(std::isnan(wanted) ? std::isnan(number.value) : bytes_of(wanted) == bytes_of(number.value),
              "from_chars");
}

// The calls by words, forms and languages that nothing beside has: they answer a place in the text.
inline void others(const char *text, const string &copy, size_t start, uint64_t choice)
{
    const size_t length = copy.size();
    const digits_word own = {choice << 32, (choice >> 13 & 127) | (choice >> 20 & 63) << 40 |
                                               (choice >> 26 & 7) << 56};
    const digits_word words[] = {own, DIGITS_WORD_RUST_LITERAL, DIGITS_WORD_RUST_HEX_LITERAL,
                                 DIGITS_WORD_JAVA_LITERAL, DIGITS_WORD_CXX14_LITERAL};
    const digits_word word = words[choice % 5];
    const auto language = static_cast<uint32_t>(choice % 30), form = static_cast<uint32_t>(choice % 60);
    const size_t places = choice % 41;
    const auto point = static_cast<uint8_t>(choice & 1 ? '.' : ',');
    const auto is_place = [&](const answer &given) {
        check(given.at >= start && given.at <= length, "a place");
        check(given.status != DIGITS_BAD_START, "a start");
    };
    const bool is_supported = digits_is_supported(word);
    const answer by_word = call<int64_t>(digits_read_i64_by, text, length, start, word);
    is_place(by_word);
    check((by_word.status == DIGITS_BAD_WORD) == !is_supported, "whether a word serves");
    is_place(call<uint64_t>(digits_read_u64_by, text, length, start, word));
    is_place(call<int32_t>(digits_read_i32_by, text, length, start, word));
    is_place(call<uint32_t>(digits_read_u32_by, text, length, start, word));
    is_place(call<double>(digits_read_f64_by, text, length, start, word));
    is_place(call<float>(digits_read_f32_by, text, length, start, word));
    is_place(call<int64_t>(digits_read_scaled_i64_by, text, length, start, places, word, point));
    is_place(call<int64_t>(digits_read_price_i64_by, text, length, start, places, word, point));
    is_place(call<int64_t>(digits_read_price_i64, text, length, start, places, uint8_t{0}, point));
    is_place(call<digits_literal>(digits_read_literal, text, length, start, language));
    is_place(call<uint64_t>(digits_read_literal_u64, text, length, start, language));
    const answer number = call<digits_number>(digits_read_number, text, length, start, form);
    is_place(number);
    const answer by_0 = call<digits_number>(digits_read_number, text, length, size_t{0}, form);
    same(call<digits_number>(digits_parse_number, text, length, form),
         whole(by_0, copy, by_0.status == DIGITS_EMPTY), "a whole number by a form");
    const answer from_0 = call<int64_t>(digits_read_i64_by, text, length, size_t{0}, word);
    same(call<int64_t>(digits_parse_i64_by, text, length, word), whole(from_0, copy, false),
         "a whole integer by a word");
    const answer scaled = call<int64_t>(digits_read_scaled_i64_by, text, length, size_t{0}, places,
                                        word, point);
    same(call<int64_t>(digits_parse_scaled_i64_by, text, length, places, word, point),
         whole(scaled, copy, true), "a whole scaled number by a word");
}

// Lists, beside a loop over the single call: the numbers, the untouched places, and the end.
template <typename T, typename List, typename Read>
void lists(const char *name, List list, Read read, const char *text, const string &copy, size_t start,
           uint64_t choice)
{
    const char *const betweens = ",; \n_-\t";
    const char between = betweens[choice % 8]; // a zero too
    const size_t room = (choice >> 7) % 6, length = copy.size();
    const auto is_blank = [&](size_t at) {
        return at < length && copy[at] != 0 && std::strchr(" \t\r\n", copy[at]) != nullptr &&
               (copy[at] != between || between == ' ');
    };
    const auto past_blanks = [&](size_t at) {
        while (is_blank(at))
            at++;
        return at;
    };
    T numbers[8], wanted[8];
    std::memset(numbers, 0x5a, sizeof numbers);
    std::memset(wanted, 0x5a, sizeof wanted);
    size_t count = 99, at = start, read_count = 0;
    const digits_outcome given = list(text, length, start, static_cast<uint8_t>(between), numbers, room, &count);
    digits_outcome end;
    for (;;) {
        if (read_count == room) {
            end = {at, DIGITS_FULL};
            break;
        }
        const size_t place = past_blanks(at);
        T number;
        end = read(text, length, place, &number);
        if (end.status != DIGITS_OK) {
            if ((between == ' ' || between == '\n') && end.at == place)
                end.status = DIGITS_OK; // nothing has to follow
            break;
        }
        wanted[read_count++] = number;
        const size_t next = past_blanks(end.at);
        if (between != ' ' && next < length && copy[next] == between)
            at = next + 1;
        else if (between == ' ' && next > end.at)
            at = next;
        else {
            end.at = next;
            break;
        }
    }
    check(count == read_count && given.at == end.at && given.status == end.status, name);
    for (size_t i = 0; i < 8; i++)
        check(bytes_of(numbers[i]) == bytes_of(wanted[i]), name);
}

// A whole text as a list, beside the list at its start, and one number more where that was full.
template <typename T, typename Parse, typename List>
void whole_lists(const char *name, Parse parse, List list, const char *text, const string &copy,
                 uint64_t choice)
{
    const auto between = static_cast<uint8_t>(",; \n_-\t"[choice % 8]); // a zero too
    const size_t room = (choice >> 13) % 6, length = copy.size();
    T numbers[8], wanted[8], other;
    std::memset(numbers, 0x5a, sizeof numbers);
    std::memset(wanted, 0x5a, sizeof wanted);
    size_t count = 99, wanted_count = 99, more = 99;
    const digits_outcome given = parse(text, length, between, numbers, room, &count);
    digits_outcome end = list(text, length, 0, between, wanted, room, &wanted_count);
    if (end.status == DIGITS_FULL) {
        const digits_outcome next = list(text, length, end.at, between, &other, 1, &more);
        while (more == 1 && end.at < length && copy[end.at] != 0 &&
               std::strchr(" \t\r\n", copy[end.at]) != nullptr)
            end.at++; // no number begins with a blank
        end = more == 1 ? digits_outcome{end.at, DIGITS_FULL} : next;
    }
    if (end.status == DIGITS_OK && end.at < length)
        end.status = DIGITS_INVALID;
    check(count == wanted_count && given.at == end.at && given.status == end.status, name);
    for (size_t i = 0; i < 8; i++)
        check(bytes_of(numbers[i]) == bytes_of(wanted[i]), name);
}

// The same of numbers by a form.
inline void lists_of_a_form(const char *text, const string &copy, size_t start, uint64_t choice)
{
    const auto form = static_cast<uint32_t>(choice >> 10 & 1 ? DIGITS_FORM_JSON : choice % 63);
    const auto list = [form](const char *text, size_t length, size_t start, uint8_t between,
                             digits_number *numbers, size_t room, size_t *count) {
        return digits_read_number_list(text, length, start, form, between, numbers, room, count);
    };
    const auto read = [form](const char *text, size_t length, size_t start, digits_number *number) {
        return digits_read_number(text, length, start, form, number);
    };
    const auto parse = [form](const char *text, size_t length, uint8_t between,
                              digits_number *numbers, size_t room, size_t *count) {
        return digits_parse_number_list(text, length, form, between, numbers, room, count);
    };
    lists<digits_number>("a list by a form", list, read, text, copy, start, choice);
    whole_lists<digits_number>("a whole list by a form", parse, list, text, copy, choice);
}

// Blanks and single bytes.
inline void bytes(const char *text, const string &copy, size_t start, uint64_t choice)
{
    const size_t length = copy.size();
    const size_t found = copy.find_first_not_of(" \t\r\n", start);
    const size_t at = found == string::npos ? length : found;
    const char open = choice & 1 ? '[' : copy[at < length ? at : 0], close = choice & 2 ? ']' : ' ';
    check(digits_past_blanks(text, length, start) == at, "blanks");
    const bool is_there = at < length && copy[at] == open;
    const digits_outcome byte = digits_expect_byte(text, length, start, static_cast<uint8_t>(open));
    check(byte.at == at + is_there, "the position of a byte");
    check(byte.status == (is_there ? DIGITS_OK : DIGITS_OTHER_BYTE), "whether a byte is there");
    const digits_outcome list = digits_open_list(text, length, start, static_cast<uint8_t>(open),
                                                 static_cast<uint8_t>(close));
    if (!is_there)
        return check(list.at == byte.at && list.status == byte.status, "a list that isn't opened");
    const size_t first = digits_past_blanks(text, length, byte.at);
    const bool is_closed = first < length && copy[first] == close;
    check(list.at == first + is_closed, "the first number of a list");
    check(list.status == (is_closed ? DIGITS_CLOSED : DIGITS_OK), "whether a list is empty");
}

// A start after the end has its own status, and NULL is a text of no bytes.
inline void edges(const char *text, size_t length, size_t beyond)
{
    const size_t start = length + beyond < length ? SIZE_MAX : length + beyond;
    const auto is = [&](const answer &given) {
        check(given.status == DIGITS_BAD_START && given.at == start, "a start after the end");
    };
    is(call<int64_t>(digits_read_i64, text, length, start));
    is(call<double>(digits_read_f64, text, length, start));
    is(call<int64_t>(digits_read_scaled_i64, text, length, start, size_t{2}));
    is(call<int64_t>(digits_read_price_i64, text, length, start, size_t{2}, uint8_t{','}, uint8_t{'.'}));
    is(call<digits_literal>(digits_read_literal, text, length, start, DIGITS_LANGUAGE_GO));
    is(call<digits_number>(digits_read_json, text, length, start));
    is(call<digits_number>(digits_read_number, text, length, start, DIGITS_FORM_YAML));
    check(digits_past_blanks(text, length, start) == start, "blanks after the end");
    for (const digits_outcome late : {digits_expect_byte(text, length, start, ','),
                                      digits_open_list(text, length, start, '[', ']')})
        check(late.status == DIGITS_BAD_START && late.at == start, "a byte after the end");
    for (const char *none : {static_cast<const char *>(nullptr), text}) {
        same(call<int64_t>(digits_read_i64, none, size_t{0}, size_t{0}),
             {string(8, '\0'), 0, DIGITS_EMPTY}, "no bytes");
        same(call<double>(digits_parse_f64, none, size_t{0}), {string(8, '\0'), 0, DIGITS_EMPTY},
             "no bytes");
        check(call<digits_number>(digits_read_json, none, size_t{0}, size_t{0}).status == DIGITS_EMPTY,
              "no bytes");
    }
}

// All calls over a text of at most 8,192 bytes, from a start in it.
inline void all(const string &copy, size_t start, uint64_t choice)
{
    static const pages pages;
    text_now = copy;
    start_now = start;
    calls_now = 0;
    const char *const text = pages.place(copy, choice >> 60 & 1);
    const size_t length = copy.size();
#define CALLS(name) digits_read_##name, digits_parse_##name, digits_read_##name##_by, digits_parse_##name##_by
    integers<int64_t>("an i64", text, copy, start, CALLS(i64));
    integers<uint64_t>("a u64", text, copy, start, CALLS(u64));
    integers<int32_t>("an i32", text, copy, start, CALLS(i32));
    integers<uint32_t>("a u32", text, copy, start, CALLS(u32));
    floats<double>("an f64", text, copy, start, CALLS(f64));
    floats<float>("an f32", text, copy, start, CALLS(f32));
#undef CALLS
    if (std::memchr(copy.data(), 0, length) == nullptr) {
        beside_strtoll(text, copy, start);
        beside_strtod(text, copy, start);
    }
    beside_from_chars(text, copy, start);
    same(call<digits_number>(digits_read_json, text, length, start), json(copy, start), "a JSON number");
    const answer json_0 = json(copy, 0);
    same(call<digits_number>(digits_parse_json, text, length),
         whole(json_0, copy, json_0.status == DIGITS_EMPTY), "a whole JSON number");
    same(call<digits_number>(digits_read_number, text, length, start, DIGITS_FORM_JSON),
         json(copy, start), "a number by the form JSON");
    same(call<int64_t>(digits_read_scaled_i64, text, length, start, size_t{2}), cents(copy, start),
         "cents");
    const answer scaled_0 = call<int64_t>(digits_read_scaled_i64, text, length, size_t{0}, size_t{2});
    same(call<int64_t>(digits_parse_scaled_i64, text, length, size_t{2}),
         whole(scaled_0, copy, true), "whole cents");
    for (const char separator : {',', '_'}) {
        const auto byte = static_cast<uint8_t>(separator);
        const digits_word word = DIGITS_MAKE_WORD(10, byte, DIGITS_FLAG_INTEGER_INTERNAL);
        const uint8_t point = '.';
        const answer at_start = price(copy, start, separator);
        const answer whole_price = whole(price(copy, 0, separator), copy, true);
        same(call<int64_t>(digits_read_price_i64, text, length, start, size_t{2}, byte, point),
             at_start, "a price");
        same(call<int64_t>(digits_read_price_i64_by, text, length, start, size_t{2}, word, point),
             at_start, "a price by a word");
        same(call<int64_t>(digits_parse_price_i64, text, length, size_t{2}, byte, point), whole_price,
             "a whole price");
        same(call<int64_t>(digits_parse_price_i64_by, text, length, size_t{2}, word, point), whole_price,
             "a whole price by a word");
    }
    const digits_word underscores = DIGITS_MAKE_WORD(10, '_', DIGITS_FLAG_INTEGER_INTERNAL);
    same(call<int64_t>(digits_read_i64_by, text, length, start, underscores), grouped(copy, start),
         "an i64 with separators");
    others(text, copy, start, choice);
    lists<int64_t>("a list of i64", digits_read_i64_list, digits_read_i64, text, copy, start, choice);
    lists<uint64_t>("a list of u64", digits_read_u64_list, digits_read_u64, text, copy, start, choice);
    lists<double>("a list of f64", digits_read_f64_list, digits_read_f64, text, copy, start, choice);
    whole_lists<int64_t>("a whole list of i64", digits_parse_i64_list, digits_read_i64_list, text, copy,
                         choice);
    whole_lists<uint64_t>("a whole list of u64", digits_parse_u64_list, digits_read_u64_list, text, copy,
                          choice);
    whole_lists<double>("a whole list of f64", digits_parse_f64_list, digits_read_f64_list, text, copy,
                        choice);
    lists_of_a_form(text, copy, start, choice);
    bytes(text, copy, start, choice);
    edges(text, length, 1 + (choice >> 40) % 9000);
}

} // namespace beside

#endif
