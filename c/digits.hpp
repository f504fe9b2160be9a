// digits.hpp: digits.h for C++17. Texts are std::string_view, and what a call answers is one value.
//
//     if (auto n = digits::read<int64_t>(text, start)) {
//         use(*n);
//         start = n.at; // the position after the number
//     } else {
//         fail(n.message(), n.at); // the position of the byte at fault
//     }
//
// A number is written into places, such as an array of char or a std::span:
//
//     char places[digits::room<int64_t>];
//     std::cout << digits::write(places, number);
//
// digits.h says what each call reads and writes, its faults, and what a caller owes. No call here
// throws or allocates.
#ifndef DIGITS_HPP
#define DIGITS_HPP

#include "digits.h"

#include <iterator>
#include <optional>
#include <string_view>
#include <type_traits>

namespace digits {

using word = digits_word;

/// A number and where it ends, or what is at fault.
template <typename T>
struct [[nodiscard]] result {
    T value;              // 0 after a fault
    std::size_t at;       // the position after the number, or that of the fault
    std::uint32_t status; // DIGITS_OK, or the kind of the fault

    explicit operator bool() const noexcept { return status == DIGITS_OK; }
    const T &operator*() const noexcept { return value; }
    const T *operator->() const noexcept { return &value; }
    T value_or(T other) const noexcept { return *this ? value : other; }
    std::optional<T> optional() const noexcept
    {
        return *this ? std::optional<T>(value) : std::nullopt;
    }
    const char *message() const noexcept { return digits_message(status); }
};

/// A number of a form: an integer of up to 128 bits, or a float.
struct number : digits_number {
    bool is_integer() const noexcept { return kind == DIGITS_INTEGER; }
    bool is_float() const noexcept { return kind == DIGITS_FLOAT; }
    std::optional<std::int64_t> as_i64() const noexcept
    {
        std::int64_t integer;
        return digits_as_i64(this, &integer) ? std::optional<std::int64_t>(integer) : std::nullopt;
    }
    std::optional<std::uint64_t> as_u64() const noexcept
    {
        std::uint64_t integer;
        return digits_as_u64(this, &integer) ? std::optional<std::uint64_t>(integer) : std::nullopt;
    }
};

namespace detail {

// The type of digits.h that has the same values: int64_t for long and for long long.
template <typename T>
using same = std::conditional_t<
    std::is_floating_point_v<T>, T,
    std::conditional_t<sizeof(T) == 8, std::conditional_t<std::is_signed_v<T>, int64_t, uint64_t>,
                       std::conditional_t<std::is_signed_v<T>, int32_t, uint32_t>>>;

// The calls of digits.h by their type.
template <typename T>
struct calls;
#define DIGITS_CALLS(type, name)                                                                    \
    template <>                                                                                     \
    struct calls<type> {                                                                            \
        static constexpr auto read = digits_read_##name;                                            \
        static constexpr auto parse = digits_parse_##name;                                          \
        static constexpr auto read_by = digits_read_##name##_by;                                    \
        static constexpr auto parse_by = digits_parse_##name##_by;                                  \
    };
DIGITS_CALLS(int64_t, i64)
DIGITS_CALLS(uint64_t, u64)
DIGITS_CALLS(int32_t, i32)
DIGITS_CALLS(uint32_t, u32)
DIGITS_CALLS(double, f64)
DIGITS_CALLS(float, f32)
#undef DIGITS_CALLS

// What a call of digits.h answers, with the number as a T. C's type of the number is a Raw.
template <typename T, typename Raw, typename Call, typename... Rest>
result<T> answer(Call call, std::string_view text, Rest... rest) noexcept
{
    Raw number;
    const digits_outcome outcome = call(text.data(), text.size(), rest..., &number);
    return {T{number}, outcome.at, outcome.status};
}

} // namespace detail

// ---- integers and floats: T has 32 or 64 bits ----

template <typename T>
result<T> read(std::string_view text, std::size_t start = 0) noexcept
{
    using raw = detail::same<T>;
    return detail::answer<T, raw>(detail::calls<raw>::read, text, start);
}

template <typename T>
result<T> read(std::string_view text, std::size_t start, word by) noexcept
{
    using raw = detail::same<T>;
    return detail::answer<T, raw>(detail::calls<raw>::read_by, text, start, by);
}

template <typename T>
result<T> parse(std::string_view text) noexcept
{
    using raw = detail::same<T>;
    return detail::answer<T, raw>(detail::calls<raw>::parse, text);
}

template <typename T>
result<T> parse(std::string_view text, word by) noexcept
{
    using raw = detail::same<T>;
    return detail::answer<T, raw>(detail::calls<raw>::parse_by, text, by);
}

// ---- decimal numbers as integers, exactly ----

inline result<std::int64_t> read_scaled(std::string_view text, std::size_t start,
                                        std::size_t places) noexcept
{
    return detail::answer<int64_t, int64_t>(digits_read_scaled_i64, text, start, places);
}

inline result<std::int64_t> read_scaled(std::string_view text, std::size_t start,
                                        std::size_t places, word by, char point = '.') noexcept
{
    return detail::answer<int64_t, int64_t>(digits_read_scaled_i64_by, text, start, places, by,
                                            static_cast<std::uint8_t>(point));
}

inline result<std::int64_t> parse_scaled(std::string_view text, std::size_t places) noexcept
{
    return detail::answer<int64_t, int64_t>(digits_parse_scaled_i64, text, places);
}

inline result<std::int64_t> parse_scaled(std::string_view text, std::size_t places, word by,
                                         char point = '.') noexcept
{
    return detail::answer<int64_t, int64_t>(digits_parse_scaled_i64_by, text, places, by,
                                            static_cast<std::uint8_t>(point));
}

// ---- prices: exactly so many places, and groups of three digits, or by 0 none ----

inline result<std::int64_t> read_price(std::string_view text, std::size_t start, std::size_t places,
                                       char separator, char point = '.') noexcept
{
    return detail::answer<int64_t, int64_t>(digits_read_price_i64, text, start, places,
                                            static_cast<std::uint8_t>(separator),
                                            static_cast<std::uint8_t>(point));
}

inline result<std::int64_t> read_price(std::string_view text, std::size_t start, std::size_t places,
                                       word by, char point = '.') noexcept
{
    return detail::answer<int64_t, int64_t>(digits_read_price_i64_by, text, start, places, by,
                                            static_cast<std::uint8_t>(point));
}

inline result<std::int64_t> parse_price(std::string_view text, std::size_t places, char separator,
                                        char point = '.') noexcept
{
    return detail::answer<int64_t, int64_t>(digits_parse_price_i64, text, places,
                                            static_cast<std::uint8_t>(separator),
                                            static_cast<std::uint8_t>(point));
}

inline result<std::int64_t> parse_price(std::string_view text, std::size_t places, word by,
                                        char point = '.') noexcept
{
    return detail::answer<int64_t, int64_t>(digits_parse_price_i64_by, text, places, by,
                                            static_cast<std::uint8_t>(point));
}

// ---- integer literals of a language: a DIGITS_LANGUAGE_.. ----

inline result<digits_literal> read_literal(std::string_view text, std::size_t start,
                                           std::uint32_t language) noexcept
{
    return detail::answer<digits_literal, digits_literal>(digits_read_literal, text, start, language);
}

inline result<std::uint64_t> read_literal_u64(std::string_view text, std::size_t start,
                                              std::uint32_t language) noexcept
{
    return detail::answer<uint64_t, uint64_t>(digits_read_literal_u64, text, start, language);
}

// ---- numbers of a form: a DIGITS_FORM_.. ----

inline result<number> read_json(std::string_view text, std::size_t start = 0) noexcept
{
    return detail::answer<number, digits_number>(digits_read_json, text, start);
}

inline result<number> parse_json(std::string_view text) noexcept
{
    return detail::answer<number, digits_number>(digits_parse_json, text);
}

inline result<number> read_number(std::string_view text, std::size_t start,
                                  std::uint32_t form) noexcept
{
    return detail::answer<number, digits_number>(digits_read_number, text, start, form);
}

inline result<number> parse_number(std::string_view text, std::uint32_t form) noexcept
{
    return detail::answer<number, digits_number>(digits_parse_number, text, form);
}

// ---- lists of numbers: the byte between two, as in digits.h ----

/// What was read of a list, or of a piece of one.
struct [[nodiscard]] list {
    std::size_t count;    // how many numbers were written
    std::size_t at;       // where the list is over, goes on, or has a fault
    std::uint32_t status; // DIGITS_OK, DIGITS_FULL, DIGITS_MORE, or the kind of the fault

    bool is_over() const noexcept { return status == DIGITS_OK; }
    bool is_full() const noexcept { return status == DIGITS_FULL; }
    bool is_more() const noexcept { return status == DIGITS_MORE; }
    bool is_too_long() const noexcept { return status == DIGITS_TOO_LONG; }
    const char *message() const noexcept { return digits_message(status); }
};

namespace detail {

// The calls of digits.h for lists by their type.
template <typename T>
struct list_calls;
#define DIGITS_CALLS(type, name)                                                                    \
    template <>                                                                                     \
    struct list_calls<type> {                                                                       \
        static constexpr auto list = digits_read_##name##_list;                                     \
        static constexpr auto whole = digits_parse_##name##_list;                                   \
        static constexpr auto piece = digits_read_##name##_piece;                                   \
    };
DIGITS_CALLS(int64_t, i64)
DIGITS_CALLS(uint64_t, u64)
DIGITS_CALLS(double, f64)
#undef DIGITS_CALLS

// What a call of digits.h for a list answers.
template <typename Call, typename... Rest>
list fill(Call call, std::string_view text, Rest... rest) noexcept
{
    std::size_t count;
    const digits_outcome end = call(text.data(), text.size(), rest..., &count);
    return {count, end.at, end.status};
}

} // namespace detail

/// T is int64_t, uint64_t or double.
template <typename T>
list read_list(std::string_view text, std::size_t start, char between, T *numbers,
               std::size_t room) noexcept
{
    return detail::fill(detail::list_calls<T>::list, text, start, static_cast<std::uint8_t>(between),
                        numbers, room);
}

/// By a DIGITS_FORM_..; the places may also be a digits::number each.
inline list read_list(std::string_view text, std::size_t start, std::uint32_t form, char between,
                      digits_number *numbers, std::size_t room) noexcept
{
    static_assert(sizeof(number) == sizeof(digits_number));
    return detail::fill(digits_read_number_list, text, start, form,
                        static_cast<std::uint8_t>(between), numbers, room);
}

/// The numbers of a whole text, which has to be one list. T is int64_t, uint64_t or double.
template <typename T>
list parse_list(std::string_view text, char between, T *numbers, std::size_t room) noexcept
{
    return detail::fill(detail::list_calls<T>::whole, text, static_cast<std::uint8_t>(between),
                        numbers, room);
}

/// By a DIGITS_FORM_..; the places may also be a digits::number each.
inline list parse_list(std::string_view text, std::uint32_t form, char between,
                       digits_number *numbers, std::size_t room) noexcept
{
    return detail::fill(digits_parse_number_list, text, form, static_cast<std::uint8_t>(between),
                        numbers, room);
}

// ---- blanks, and bytes around a list ----

/// Where a byte was read, or what is there instead.
struct [[nodiscard]] step {
    std::size_t at;       // the position after the byte, or that of the fault
    std::uint32_t status; // DIGITS_OK, DIGITS_CLOSED, or the kind of the fault

    explicit operator bool() const noexcept { return status == DIGITS_OK; }
    bool is_closed() const noexcept { return status == DIGITS_CLOSED; }
    const char *message() const noexcept { return digits_message(status); }
};

[[nodiscard]] inline std::size_t past_blanks(std::string_view text, std::size_t start) noexcept
{
    return digits_past_blanks(text.data(), text.size(), start);
}

inline step expect_byte(std::string_view text, std::size_t start, char byte) noexcept
{
    const digits_outcome read = digits_expect_byte(text.data(), text.size(), start,
                                                   static_cast<std::uint8_t>(byte));
    return {read.at, read.status};
}

inline step open_list(std::string_view text, std::size_t start, char opening, char closing) noexcept
{
    const digits_outcome read = digits_open_list(text.data(), text.size(), start,
                                                 static_cast<std::uint8_t>(opening),
                                                 static_cast<std::uint8_t>(closing));
    return {read.at, read.status};
}

// ---- lists in a text that comes in pieces: the last one is where a read gives 0 bytes ----

/// T is int64_t, uint64_t or double.
template <typename T>
list read_piece(std::string_view text, std::size_t start, char between, bool is_last, T *numbers,
                std::size_t room) noexcept
{
    return detail::fill(detail::list_calls<T>::piece, text, start,
                        static_cast<std::uint8_t>(between), is_last, numbers, room);
}

/// By a DIGITS_FORM_..; the places may also be a digits::number each.
inline list read_piece(std::string_view text, std::size_t start, std::uint32_t form, char between,
                       bool is_last, digits_number *numbers, std::size_t room) noexcept
{
    return detail::fill(digits_read_number_piece, text, start, form,
                        static_cast<std::uint8_t>(between), is_last, numbers, room);
}

/// Decimal numbers as integers, exactly: each times ten to the power `places`.
inline list read_scaled_piece(std::string_view text, std::size_t start, std::size_t places,
                              char between, bool is_last, std::int64_t *numbers,
                              std::size_t room) noexcept
{
    return detail::fill(digits_read_scaled_i64_piece, text, start, places,
                        static_cast<std::uint8_t>(between), is_last, numbers, room);
}

/// Prices, with a separator between groups of three digits, or by 0 without groups.
inline list read_price_piece(std::string_view text, std::size_t start, std::size_t places,
                             char separator, char point, char between, bool is_last,
                             std::int64_t *numbers, std::size_t room) noexcept
{
    return detail::fill(digits_read_price_i64_piece, text, start, places,
                        static_cast<std::uint8_t>(separator), static_cast<std::uint8_t>(point),
                        static_cast<std::uint8_t>(between), is_last, numbers, room);
}

/// Moves what has to come again to the front of the room of a piece, and sets the length to what is
/// kept. Where that fills the room, a list that asked for more is too long for it.
template <typename Room>
list keep(Room &&room, std::size_t &length, list read) noexcept
{
    static_assert(sizeof *std::data(room) == 1, "a room is bytes");
    const digits_outcome kept =
        digits_keep(std::data(room), std::size(room), &length, {read.at, read.status});
    return {read.count, kept.at, kept.status};
}

/// The first position from `at` on where a block of a list may begin that is read by itself.
[[nodiscard]] inline std::size_t block_start(std::string_view text, std::size_t at,
                                             char between) noexcept
{
    return digits_block_start(text.data(), text.size(), at, static_cast<std::uint8_t>(between));
}

/// Up to where a piece is sure: for calls without a word.
[[nodiscard]] inline std::size_t sure_end(std::string_view text) noexcept
{
    return digits_sure_end(text.data(), text.size());
}

/// The same for calls by a DIGITS_FORM_...
[[nodiscard]] inline std::size_t sure_end_of(std::string_view text, std::uint32_t form) noexcept
{
    return digits_sure_end_of(text.data(), text.size(), form);
}

/// The same for calls by a word.
[[nodiscard]] inline std::size_t sure_end(std::string_view text, word by) noexcept
{
    return digits_sure_end_by(text.data(), text.size(), by);
}

// ---- numbers that are written, into places with data() and size(): an array, a std::span ----

namespace detail {

// The calls of digits.h that write, by their type, and the room for the longest text.
template <typename T>
struct writes;
#define DIGITS_WRITES(type, name, most)                                                             \
    template <>                                                                                     \
    struct writes<type> {                                                                           \
        static constexpr auto write = digits_write_##name;                                          \
        static constexpr std::size_t room = most;                                                   \
    };
DIGITS_WRITES(int64_t, i64, DIGITS_ROOM_I64)
DIGITS_WRITES(uint64_t, u64, DIGITS_ROOM_U64)
DIGITS_WRITES(int32_t, i32, DIGITS_ROOM_I32)
DIGITS_WRITES(uint32_t, u32, DIGITS_ROOM_U32)
DIGITS_WRITES(double, f64, DIGITS_ROOM_F64)
DIGITS_WRITES(float, f32, DIGITS_ROOM_F32)
#undef DIGITS_WRITES

// The text that a call of digits.h leaves at the front of the places.
template <typename Places, typename Call, typename... Rest>
std::string_view text(Places &places, Call call, Rest... rest) noexcept
{
    static_assert(sizeof *std::data(places) == 1, "places are bytes");
    const std::size_t length = call(std::data(places), std::size(places), rest...);
    return {reinterpret_cast<const char *>(std::data(places)), length};
}

} // namespace detail

/// The room for the longest text of a type.
template <typename T>
inline constexpr std::size_t room = detail::writes<detail::same<T>>::room;

/// The text of an integer or a float, at the front of the places. It is empty, and nothing is
/// written, where it is longer than they are, or where the float isn't finite.
template <typename Places, typename T>
[[nodiscard]] std::string_view write(Places &&places, T value) noexcept
{
    using raw = detail::same<T>;
    return detail::text(places, detail::writes<raw>::write, raw{value});
}

/// The text of a float in a DIGITS_LAYOUT_...
template <typename Places, typename T>
[[nodiscard]] std::string_view write_in(Places &&places, T value, std::uint32_t layout) noexcept
{
    if constexpr (std::is_same_v<T, float>)
        return detail::text(places, digits_write_f32_in, value, layout);
    else
        return detail::text(places, digits_write_f64_in, double{value}, layout);
}

/// The text of a float with a fixed number of places.
template <typename Places>
[[nodiscard]] std::string_view write_fixed(Places &&places, double value,
                                           std::uint32_t decimals) noexcept
{
    return detail::text(places, digits_write_f64_fixed, value, decimals);
}

/// The same with one digit before the point and an exponent, by a DIGITS_EXPONENT_...
template <typename Places>
[[nodiscard]] std::string_view
write_scientific(Places &&places, double value, std::uint32_t decimals,
                 std::uint32_t exponent = DIGITS_EXPONENT_SIGNED) noexcept
{
    return detail::text(places, digits_write_f64_scientific, value, decimals, exponent);
}

/// The text of an integer or a float as a DIGITS_FORM_.. has it. It is empty too where the form has
/// no such number.
template <typename Places, typename T>
[[nodiscard]] std::string_view write_of(Places &&places, T value, std::uint32_t form) noexcept
{
    if constexpr (std::is_integral_v<T>)
        return detail::text(places, digits_write_i64_of, std::int64_t{value}, form);
    else
        return detail::text(places, digits_write_f64_of, double{value}, form);
}

/// The text of an integer in groups of digits.
template <typename Places, typename T>
[[nodiscard]] std::string_view write_grouped(Places &&places, T value, char separator,
                                             std::uint8_t every = 3) noexcept
{
    static_assert(std::is_integral_v<T>);
    const auto between = static_cast<std::uint8_t>(separator);
    if constexpr (std::is_signed_v<T>)
        return detail::text(places, digits_write_i64_grouped, std::int64_t{value}, between, every);
    else
        return detail::text(places, digits_write_u64_grouped, std::uint64_t{value}, between, every);
}

/// The text of an amount in units of its last place.
template <typename Places>
[[nodiscard]] std::string_view write_scaled(Places &&places, std::int64_t value,
                                            std::size_t decimals) noexcept
{
    return detail::text(places, digits_write_scaled_i64, value, decimals);
}

/// The same in groups of three digits, by 0 in none, and with another point: a price.
template <typename Places>
[[nodiscard]] std::string_view write_price(Places &&places, std::int64_t value,
                                           std::size_t decimals, char separator,
                                           char point = '.') noexcept
{
    return detail::text(places, digits_write_price_i64, value, decimals,
                        static_cast<std::uint8_t>(separator), static_cast<std::uint8_t>(point));
}

} // namespace digits

#endif
