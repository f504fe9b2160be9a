// Random lists, cut by chance into pieces of 1 to 40 bytes: read piece by piece they give what they
// give whole, the numbers, the end and the status; so they do in blocks that are read by themselves.
// And what a read answers before the sure end of a piece is what it answers in the whole text:
// pieces NUMBER [SEED].
#include "digits.hpp"

#include <algorithm>
#include <cstdio>
#include <cstdlib>
#include <cstring>
#include <random>
#include <string>
#include <vector>

using std::size_t;
using std::string;

static std::mt19937_64 source;
static string text_now;

static size_t below(size_t most) { return source() % most; }

[[noreturn]] static void stop(const char *what)
{
    std::printf("%s differs: \"", what);
    for (const unsigned char byte : text_now)
        std::printf(byte >= ' ' && byte < 127 && byte != '"' && byte != '\\' ? "%c" : "\\x%02x", byte);
    std::printf("\"\n");
    std::exit(1);
}

static void check(bool is_right, const char *what)
{
    if (!is_right)
        stop(what);
}

// ---- numbers as bytes, so that two NaN and two zeros are told apart ----

template <typename T>
static string bytes_of(const T &value)
{
    return string(reinterpret_cast<const char *>(&value), sizeof value);
}

static string bytes_of(const digits_number &n)
{
    return bytes_of(n.value) + bytes_of(n.low) + bytes_of(n.high) + bytes_of(n.kind) +
           bytes_of(n.is_negative);
}

// What a list gave: its numbers, and where and why it was read no further.
struct list {
    std::vector<string> numbers;
    size_t at;
    uint32_t status;
};

// ---- a list whole, and piece by piece ----

// The calls of digits.h for a type.
template <typename T>
using calls = digits::detail::list_calls<T>;

template <typename T, typename Read>
static void whole(list &to, size_t room, Read read)
{
    std::vector<T> numbers(room);
    do {
        size_t count = 99;
        const digits_outcome end = read(to.at, numbers.data(), room, &count);
        check(count <= room, "a count");
        for (size_t i = 0; i < count; i++)
            to.numbers.push_back(bytes_of(numbers[i]));
        to.at = end.at;
        to.status = end.status;
    } while (to.status == DIGITS_FULL);
}

template <typename T, typename List, typename Piece>
static void both(const char *name, const string &text, List list_call, Piece piece_call)
{
    list one{{}, 0, 0}, cut{{}, 0, 0};
    whole<T>(one, 1 + below(6), [&](size_t at, T *to, size_t room, size_t *count) {
        return list_call(text.data(), text.size(), at, to, room, count);
    });
    string rest;        // what is left of the pieces so far
    size_t before = 0;  // the bytes before it
    size_t pieced = 0;  // the bytes of the text that came in pieces
    do {
        const size_t more = std::min(1 + below(40), text.size() - pieced);
        rest.append(text, pieced, more);
        pieced += more;
        // at times the end of the text is known only after the last byte
        const bool is_last = pieced == text.size() && (more == 0 || below(2));
        cut.at = 0;
        whole<T>(cut, 1 + below(6), [&](size_t at, T *to, size_t room, size_t *count) {
            // no byte after the piece is read
            const std::vector<char> piece(rest.begin(), rest.end());
            return piece_call(piece.data(), piece.size(), at, is_last, to, room, count);
        });
        check(!is_last || cut.status != DIGITS_MORE, "the last piece");
        check(cut.at <= rest.size(), "a position");
        rest.erase(0, cut.at);
        before += cut.at;
    } while (cut.status == DIGITS_MORE);
    check(one.numbers == cut.numbers && one.at == before && one.status == cut.status, name);
}

// The same through a room of few bytes, which what is kept may fill.
static void through_a_room(const string &text, uint8_t between)
{
    list one{{}, 0, 0}, cut{{}, 0, 0};
    whole<int64_t>(one, 1 + below(6), [&](size_t at, int64_t *to, size_t room, size_t *count) {
        return digits_read_i64_list(text.data(), text.size(), at, between, to, room, count);
    });
    std::vector<char> bytes(1 + below(40));
    size_t length = 0, before = 0, read = 0;
    digits_outcome end;
    do {
        // none comes where no room is left: it isn't the end of the text
        const size_t more = std::min({bytes.size() - length, text.size() - read, 1 + below(9)});
        check(more > 0 || read == text.size(), "a room");
        std::copy_n(text.begin() + static_cast<std::ptrdiff_t>(read), more,
                    bytes.begin() + static_cast<std::ptrdiff_t>(length));
        read += more;
        length += more;
        cut.at = 0;
        whole<int64_t>(cut, 1 + below(6), [&](size_t at, int64_t *to, size_t room, size_t *count) {
            return digits_read_i64_piece(bytes.data(), length, at, between, more == 0, to, room, count);
        });
        const string left(bytes.begin() + static_cast<std::ptrdiff_t>(cut.at),
                          bytes.begin() + static_cast<std::ptrdiff_t>(length));
        end = digits_keep(bytes.data(), bytes.size(), &length, {cut.at, cut.status});
        check(length == left.size() && left == string(bytes.data(), length), "what is kept");
        check(end.at == cut.at, "the position of what is kept");
        before += cut.at;
    } while (end.status == DIGITS_MORE);
    if (end.status == DIGITS_TOO_LONG) {
        check(length == bytes.size() && cut.status == DIGITS_MORE, "a full room");
        check(cut.numbers.size() <= one.numbers.size() &&
                  std::equal(cut.numbers.begin(), cut.numbers.end(), one.numbers.begin()),
              "the numbers before a full room");
    } else {
        check(one.numbers == cut.numbers && one.at == before && one.status == end.status,
              "a list through a room");
    }
}

// ---- blocks that are read by themselves ----

static bool may_end(char byte, uint8_t between)
{
    return between == ' ' ? std::strchr(" \t\r\n", byte) != nullptr && byte != 0
                          : static_cast<uint8_t>(byte) == between;
}

static size_t start_of_block(const string &text, size_t at, uint8_t between)
{
    while (at > 0 && at < text.size() && !may_end(text[at - 1], between))
        at++;
    return std::min(at, text.size());
}

template <typename T, typename List, typename Piece>
static void blocks(const char *name, const string &text, uint8_t between, List list_call,
                   Piece piece_call)
{
    list one{{}, 0, 0}, cut{{}, 0, 0};
    whole<T>(one, 1 + below(6), [&](size_t at, T *to, size_t room, size_t *count) {
        return list_call(text.data(), text.size(), at, to, room, count);
    });
    size_t begin = 0;
    do {
        const size_t at = begin + 1 + below(30);
        const size_t end = digits_block_start(text.data(), text.size(), at, between);
        check(end == start_of_block(text, at, between), "the start of a block");
        const std::vector<char> block(text.begin() + static_cast<std::ptrdiff_t>(begin),
                                      text.begin() + static_cast<std::ptrdiff_t>(end));
        cut.at = 0;
        whole<T>(cut, 1 + below(6), [&](size_t at, T *to, size_t room, size_t *count) {
            return piece_call(block.data(), block.size(), at, end == text.size(), to, room, count);
        });
        check(cut.status != DIGITS_MORE || cut.at == block.size(), "the end of a block");
        cut.at += begin;
        begin = end;
    } while (cut.status == DIGITS_MORE);
    check(one.numbers == cut.numbers && one.at == cut.at && one.status == cut.status, name);
}

// ---- lists of each kind ----

template <typename T>
static void lists(const char *name, const string &text, uint8_t between)
{
    const auto list_call = [=](const char *text, size_t length, size_t at, T *to, size_t room,
                               size_t *count) {
        return calls<T>::list(text, length, at, between, to, room, count);
    };
    const auto piece_call = [=](const char *text, size_t length, size_t at, bool is_last, T *to,
                                size_t room, size_t *count) {
        return calls<T>::piece(text, length, at, between, is_last, to, room, count);
    };
    both<T>(name, text, list_call, piece_call);
    blocks<T>(name, text, between, list_call, piece_call);
}

static void lists_of(uint32_t form, const string &text, uint8_t between)
{
    using T = digits_number;
    const auto list_call = [=](const char *text, size_t length, size_t at, T *to, size_t room,
                               size_t *count) {
        return digits_read_number_list(text, length, at, form, between, to, room, count);
    };
    const auto piece_call = [=](const char *text, size_t length, size_t at, bool is_last, T *to,
                                size_t room, size_t *count) {
        return digits_read_number_piece(text, length, at, form, between, is_last, to, room, count);
    };
    both<T>("a list by a form", text, list_call, piece_call);
    // by these two a comma may be in a number
    if (between != ',' || (form != DIGITS_FORM_STR2DOUBLE && form != DIGITS_FORM_CSHARP_PARSE))
        blocks<T>("a list by a form", text, between, list_call, piece_call);
}

static void lists_of_places(size_t places, const string &text, uint8_t between)
{
    const auto piece_call = [=](const char *text, size_t length, size_t at, bool is_last, int64_t *to,
                                size_t room, size_t *count) {
        return digits_read_scaled_i64_piece(text, length, at, places, between, is_last, to, room, count);
    };
    const auto list_call = [=](const char *text, size_t length, size_t at, int64_t *to, size_t room,
                               size_t *count) {
        return piece_call(text, length, at, true, to, room, count);
    };
    both<int64_t>("a list of scaled numbers", text, list_call, piece_call);
    blocks<int64_t>("a list of scaled numbers", text, between, list_call, piece_call);
}

static void lists_of_prices(size_t places, const string &text, uint8_t between, uint8_t separator)
{
    const auto piece_call = [=](const char *text, size_t length, size_t at, bool is_last, int64_t *to,
                                size_t room, size_t *count) {
        return digits_read_price_i64_piece(text, length, at, places, separator, '.', between, is_last,
                                           to, room, count);
    };
    const auto list_call = [=](const char *text, size_t length, size_t at, int64_t *to, size_t room,
                               size_t *count) {
        return piece_call(text, length, at, true, to, room, count);
    };
    both<int64_t>("a list of prices", text, list_call, piece_call);
    blocks<int64_t>("a list of prices", text, between, list_call, piece_call);
}

// ---- up to where a piece is sure ----

template <typename T, typename Call, typename... Rest>
static void stays(const char *name, Call call, const string &text, size_t length, size_t start,
                  Rest... rest)
{
    const std::vector<char> piece(text.begin(), text.begin() + static_cast<std::ptrdiff_t>(length));
    T in_piece, in_text;
    const digits_outcome one = call(piece.data(), length, start, rest..., &in_piece);
    const digits_outcome other = call(text.data(), text.size(), start, rest..., &in_text);
    check(one.at == other.at && one.status == other.status && bytes_of(in_piece) == bytes_of(in_text),
          name);
}

static void sure_ends(const string &text, uint32_t form)
{
    static const digits_word words[] = {DIGITS_WORD_PYTHON_LITERAL, DIGITS_WORD_RUST_HEX_LITERAL,
                                        DIGITS_WORD_JAVA_LITERAL, DIGITS_WORD_CXX14_LITERAL,
                                        DIGITS_WORD_HEXADECIMAL, DIGITS_WORD_RUST_LITERAL};
    const digits_word word = words[below(6)];
    const size_t length = below(text.size() + 1);
    const size_t sure = digits_sure_end(text.data(), length);
    const size_t sure_of = digits_sure_end_of(text.data(), length, form);
    const size_t sure_by = digits_sure_end_by(text.data(), length, word);
    check(sure <= length && sure_of <= length && sure_by <= length, "a sure end");
    if (sure > 0) {
        const size_t start = below(sure);
        stays<int64_t>("an i64", digits_read_i64, text, length, start);
        stays<uint64_t>("a u64", digits_read_u64, text, length, start);
        stays<int32_t>("an i32", digits_read_i32, text, length, start);
        stays<uint32_t>("a u32", digits_read_u32, text, length, start);
        stays<double>("an f64", digits_read_f64, text, length, start);
        stays<float>("an f32", digits_read_f32, text, length, start);
        stays<int64_t>("a scaled number", digits_read_scaled_i64, text, length, start, below(5));
    }
    if (sure_of > 0)
        stays<digits_number>("a number by a form", digits_read_number, text, length, below(sure_of), form);
    if (sure_by > 0) {
        const size_t start = below(sure_by);
        stays<int64_t>("an i64 by a word", digits_read_i64_by, text, length, start, word);
        stays<uint32_t>("a u32 by a word", digits_read_u32_by, text, length, start, word);
        stays<double>("an f64 by a word", digits_read_f64_by, text, length, start, word);
        stays<int64_t>("a scaled number by a word", digits_read_scaled_i64_by, text, length, start,
                       below(5), word, uint8_t{'.'});
        stays<int64_t>("a price by a word", digits_read_price_i64_by, text, length, start, below(5),
                       word, uint8_t{'.'});
    }
}

// ---- texts ----

static string bytes(const string &alphabet, size_t length)
{
    string text;
    while (text.size() < length)
        text += alphabet[below(alphabet.size())];
    return text;
}

static string number()
{
    static const char *const names[] = {"inf", "nan", "Infinity", "NaN", ".inf", "-inf", "true"};
    switch (below(12)) {
    case 0: return bytes("+-", 1) + bytes("0123456789", below(22));
    case 1: return bytes("0123456789", below(4)) + "." + bytes("0123456789", below(8));
    case 2: return bytes("0123456789", 1 + below(3)) + bytes("eE", 1) + bytes("+-", below(2)) +
                   bytes("0123456789", below(3));
    case 3: return bytes("0123456789_", 1 + below(8));
    case 4: return "0" + bytes("xob", 1) + bytes("0123456789abcdefp", below(8));
    case 5: return names[below(7)];
    case 6: return bytes("0123456789+-._eExinfa", below(8));
    case 7: return bytes("0123456789", 60 + below(60));
    case 8: return bytes("0123456789", 1 + below(3)) + bytes("_", 1) + bytes("0123456789", 3) + "." +
                   bytes("0123456789", below(4));
    default: return bytes("123456789", 1) + bytes("0123456789", below(5));
    }
}

static string text(uint8_t between)
{
    const string blanks = "  \t\r\n";
    string text = bytes(blanks, below(2));
    for (size_t n = below(12); n > 0; n--) {
        text += number();
        text += bytes(blanks, below(3));
        if (below(30) > 0)
            text += static_cast<char>(between);
        text += bytes(blanks, below(40) == 0 ? below(90) : below(3));
    }
    return text + (below(3) ? "" : number() + bytes("]x \n", below(2)));
}

int main(int count, char **words)
{
    static const char betweens[] = {',', ';', '|', ' ', '\n', '\t', '\0', '\xff'};
    const long wanted = count > 1 ? std::atol(words[1]) : 100000;
    source.seed(count > 2 ? std::strtoull(words[2], nullptr, 10) : 1);
    for (long i = 0; i < wanted; i++) {
        const auto between = static_cast<uint8_t>(betweens[below(8)]);
        const auto form = static_cast<uint32_t>(below(3) ? below(63) : DIGITS_FORM_JSON);
        text_now = text(between);
        lists<int64_t>("a list of i64", text_now, between);
        lists<uint64_t>("a list of u64", text_now, between);
        lists<double>("a list of f64", text_now, between);
        lists_of_places(below(5), text_now, between);
        lists_of_prices(below(4), text_now, between, static_cast<uint8_t>("_'\0"[below(3)]));
        through_a_room(text_now, between);
        if (between != 0xff) // some forms look for a name after a point, whose bytes may be such
            lists_of(form, text_now, between);
        sure_ends(text_now, form);
    }
    std::printf("%ld texts, none differs\n", wanted);
}
