// Every call of digits.h that writes, beside snprintf, to_chars and strtod. The places end where a page
// ends, and no page follows; what is behind the text has to stay.
#ifndef WRITES_HPP
#define WRITES_HPP

#include "beside.hpp"

#include <algorithm>
#include <cinttypes>
#include <type_traits>

namespace beside {

// What a call writes into so many places.
template <typename Call, typename... Rest>
string written(const char *what, size_t room, Call call, Rest... rest)
{
    static const pages pages;
    char *const end = pages.first + pages::room, *const out = end - room, *const before = out - 32;
    std::memset(before, '*', room + 32);
    const size_t length = call(out, room, rest...);
    check(length <= room, what);
    check(std::all_of(before, out, [](char byte) { return byte == '*'; }), what);
    check(std::all_of(out + length, end, [](char byte) { return byte == '*'; }), what);
    return string(out, length);
}

// A call writes this text if there is room, also if there is more, and nothing if there is less.
template <typename Call, typename... Rest>
void writes(const char *what, const string &wanted, size_t more, Call call, Rest... rest)
{
    text_now = wanted;
    start_now = 0;
    const size_t length = wanted.size();
    check(written(what, length, call, rest...) == wanted, what);
    check(written(what, length + more, call, rest...) == wanted, what);
    if (length > 0)
        check(written(what, length - 1 - more % length, call, rest...).empty(), what);
}

// ---- the writers beside ----

template <typename... Values>
string printed(const char *form, Values... values)
{
    char text[5000];
    const int length = std::snprintf(text, sizeof text, form, values...);
    return string(text, static_cast<size_t>(length));
}

// Digits with a byte between groups.
inline string in_groups(const string &digits, char between, size_t every)
{
    string text;
    for (size_t i = 0; i < digits.size(); i++) {
        if (every > 0 && i > 0 && (digits.size() - i) % every == 0)
            text += between;
        text += digits[i];
    }
    return text;
}

// A sign, and digits of which the last so many are places.
inline string amount(const string &number, size_t places, char between, char point)
{
    const bool is_negative = number[0] == '-';
    string digits = number.substr(is_negative);
    if (digits.size() <= places)
        digits.insert(0, places + 1 - digits.size(), '0');
    const size_t whole = digits.size() - places;
    string text = is_negative ? "-" : "";
    text += in_groups(digits.substr(0, whole), between, between == 0 ? 0 : 3);
    if (places > 0)
        text += point + digits.substr(whole);
    return text;
}

// The shortest digits of a float and the power of ten of the first one, by to_chars.
template <typename T>
void shortest(T x, string &sign, string &digits, int &first)
{
    char text[64];
    const auto end = std::to_chars(text, text + sizeof text, x, std::chars_format::scientific).ptr;
    const string all(text, end);
    const size_t from = all[0] == '-', mark = all.find('e');
    sign = all.substr(0, from);
    digits = all.substr(from, 1);
    if (mark > from + 1)
        digits += all.substr(from + 2, mark - from - 2);
    first = std::atoi(all.c_str() + mark + 1);
    while (digits.size() > 1 && digits.back() == '0')
        digits.pop_back();
}

// A text without an exponent.
inline string plain(const string &digits, int first)
{
    const auto count = static_cast<int>(digits.size());
    if (first < 0)
        return "0." + string(static_cast<size_t>(-first - 1), '0') + digits;
    if (count <= first + 1)
        return digits + string(static_cast<size_t>(first + 1 - count), '0');
    return digits.substr(0, static_cast<size_t>(first) + 1) + "." +
           digits.substr(static_cast<size_t>(first) + 1);
}

inline string with_exponent(const string &digits, int first)
{
    return digits.substr(0, 1) + (digits.size() > 1 ? "." + digits.substr(1) : "") + "e" +
           std::to_string(first);
}

inline string usual(const string &digits, int first)
{
    if (first < -5 || first >= 16)
        return with_exponent(digits, first);
    const string text = plain(digits, first);
    return text.find('.') == string::npos ? text + ".0" : text;
}

// ---- the calls ----

inline void written_integers(uint64_t bits, uint64_t choice)
{
    const auto i64 = static_cast<int64_t>(bits);
    const auto i32 = static_cast<int32_t>(bits);
    const auto u32 = static_cast<uint32_t>(bits);
    const size_t more = choice >> 32 & 63;
    const string text = printed("%" PRId64, i64), other = printed("%" PRIu64, bits);
    writes("an i64", text, more, digits_write_i64, i64);
    writes("a u64", other, more, digits_write_u64, bits);
    writes("an i64 of JSON", text, more, digits_write_i64_of, i64, uint32_t{DIGITS_FORM_JSON});
    writes("an i32", printed("%" PRId32, i32), more, digits_write_i32, i32);
    writes("a u32", printed("%" PRIu32, u32), more, digits_write_u32, u32);
    int64_t again;
    const digits_outcome read = digits_parse_i64(text.data(), text.size(), &again);
    check(read.status == DIGITS_OK && again == i64, "an i64 that is read back");
    const auto every = static_cast<uint8_t>(choice & 7);
    const auto byte = static_cast<uint8_t>(choice >> 8);
    const bool is_there = every == 0 || (byte != 0 && !is_digit(static_cast<char>(byte)));
    const string minus = i64 < 0 ? "-" : "";
    const auto grouped = [&](const string &digits) {
        return in_groups(digits, static_cast<char>(byte), every);
    };
    writes("an i64 in groups", is_there ? minus + grouped(text.substr(minus.size())) : "", more,
           digits_write_i64_grouped, i64, byte, every);
    writes("a u64 in groups", is_there ? grouped(other) : "", more, digits_write_u64_grouped, bits,
           byte, every);
    const size_t places = choice >> 16 & 63;
    const auto point = static_cast<uint8_t>(choice >> 24);
    writes("an amount", places > 38 ? "" : amount(text, places, 0, '.'), more,
           digits_write_scaled_i64, i64, places);
    writes("a price",
           places > 38 ? ""
                       : amount(text, places, static_cast<char>(byte), static_cast<char>(point)),
           more, digits_write_price_i64, i64, places, byte, point);
    const auto is_apart = [](uint8_t one) { return !is_digit(static_cast<char>(one)); };
    if (places <= 38 && is_apart(byte) && is_apart(point) && (byte != point || byte == 0)) {
        char price[64];
        const size_t end = digits_write_price_i64(price, sizeof price, i64, places, byte, point);
        const digits_outcome back = digits_parse_price_i64(price, end, places, byte, point, &again);
        check(back.status == DIGITS_OK && again == i64, "a price that is read back");
    }
}

// A float, of which `read` of the C library is the reader.
template <typename T, typename Write, typename WriteIn, typename Read>
void written_floats(T x, size_t more, Write write, WriteIn write_in, Read read)
{
    if (!std::isfinite(x)) {
        writes("no float", "", more, write, x);
        for (uint32_t layout = 0; layout < 4; layout++)
            writes("no float in a layout", "", more, write_in, x, layout);
        return;
    }
    string sign, digits;
    int first;
    shortest(x, sign, digits, first);
    const string texts[] = {sign + usual(digits, first), sign + plain(digits, first),
                            sign + with_exponent(digits, first), ""};
    writes("a float", texts[0], more, write, x);
    for (uint32_t layout = 0; layout < 4; layout++)
        writes("a float in a layout", texts[layout], more, write_in, x, layout);
    check(texts[0].size() <= DIGITS_ROOM_F64 && texts[2].size() <= DIGITS_ROOM_F64, "the room");
    const string text = written("a float", 64, write, x);
    check(bytes_of(read(text.c_str())) == bytes_of(x), "a float that is read back");
    if constexpr (std::is_same_v<T, double>)
        writes("a float of JSON", texts[0], more, digits_write_f64_of, x, uint32_t{DIGITS_FORM_JSON});
}

inline void written_places(double x, size_t more, uint32_t places)
{
    const bool is_there = std::isfinite(x);
    writes("a float with fixed places",
           is_there ? printed("%.*f", static_cast<int>(places), x) : "", more,
           digits_write_f64_fixed, x, places);
    writes("a float with an exponent",
           is_there ? printed("%.*e", static_cast<int>(places), x) : "", more,
           digits_write_f64_scientific, x, places, uint32_t{DIGITS_EXPONENT_SIGNED});
}

// All calls that write, of a number of these bits.
inline void all_writes(uint64_t bits, uint64_t choice)
{
    double f64;
    float f32;
    const auto low = static_cast<uint32_t>(bits);
    const size_t more = choice >> 40 & 63;
    std::memcpy(&f64, &bits, sizeof f64);
    std::memcpy(&f32, &low, sizeof f32);
    written_integers(bits, choice);
    written_floats(f64, more, digits_write_f64, digits_write_f64_in,
                   [](const char *text) { return std::strtod(text, nullptr); });
    written_floats(f32, more, digits_write_f32, digits_write_f32_in,
                   [](const char *text) { return std::strtof(text, nullptr); });
    written_places(f64, more, static_cast<uint32_t>(choice >> 48 & (choice >> 56 & 7 ? 31 : 1023)));
}

} // namespace beside

#endif
