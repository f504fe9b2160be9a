// Reads the numbers of a file, with a comma after each, by one way: costs FILE WAY TIMES. Prints a sum
// of the bits of all numbers, which every way has.
#include "digits.h"

#include <charconv>
#include <cstdio>
#include <cstdlib>
#include <cstring>

static char text[1 << 20];
static size_t length;
static uint64_t sum;

static void add(int64_t number) { sum += static_cast<uint64_t>(number); }

static void add(double number)
{
    uint64_t bits;
    std::memcpy(&bits, &number, sizeof bits);
    sum += bits;
}

// Goes over the text by a call that reads a number at a position and answers where it ends.
template <typename Read>
static void each(Read read)
{
    for (size_t at = 0; at < length; at++)
        at = read(at);
}

// The same of a number of JSON, as a float or an integer.
static bool is_float;

static void add(const digits_number &number)
{
    int64_t integer;
    if (is_float)
        add(number.value);
    else if (digits_as_i64(&number, &integer))
        add(integer);
}

// Reads a list from a position on, with room for 256 numbers in a call; answers where it stopped.
template <typename T, typename Read>
static digits_outcome goes_on(Read read)
{
    static T numbers[256];
    digits_outcome list = {0, DIGITS_FULL};
    while (list.status == DIGITS_FULL) {
        size_t count;
        list = read(list.at, numbers, 256, &count);
        for (size_t i = 0; i < count; i++)
            add(numbers[i]);
    }
    return list;
}

template <typename T, typename List>
static void whole(List list)
{
    (void)!goes_on<T>([=](size_t at, T *numbers, size_t room, size_t *count) {
        return list(text, length - 1, at, ',', numbers, room, count);
    }).at;
}

// The same in pieces of 4 KiB.
template <typename T, typename Piece>
static void pieces(Piece piece)
{
    digits_outcome list = {0, DIGITS_MORE};
    for (size_t from = 0; list.status == DIGITS_MORE; from += list.at) {
        const bool is_last = length - 1 - from <= 4096;
        const size_t size = is_last ? length - 1 - from : 4096;
        list = goes_on<T>([=](size_t at, T *numbers, size_t room, size_t *count) {
            return piece(text + from, size, at, ',', is_last, numbers, room, count);
        });
    }
}

static digits_outcome list_of_json(const void *t, size_t n, size_t at, uint8_t between,
                                   digits_number *numbers, size_t room, size_t *count)
{
    return digits_read_number_list(t, n, at, DIGITS_FORM_JSON, between, numbers, room, count);
}

static bool way(const char *name)
{
    const auto is = [&](const char *other) { return std::strcmp(name, other) == 0; };
    char *end;
    int64_t i;
    double x;
    digits_number n;
    if (is("none"))
        each([&](size_t at) { return static_cast<size_t>(std::strchr(text + at, ',') - text); });
    else if (is("strtoll"))
        each([&](size_t at) { add(int64_t{std::strtoll(text + at, &end, 10)}); return size_t(end - text); });
    else if (is("strtod"))
        each([&](size_t at) { add(std::strtod(text + at, &end)); return size_t(end - text); });
    else if (is("from_chars-i64"))
        each([&](size_t at) {
            const auto read = std::from_chars(text + at, text + length, i);
            add(i);
            return size_t(read.ptr - text);
        });
    else if (is("from_chars-f64"))
        each([&](size_t at) {
            const auto read = std::from_chars(text + at, text + length, x);
            add(x);
            return size_t(read.ptr - text);
        });
    else if (is("read-i64"))
        each([&](size_t at) { at = digits_read_i64(text, length, at, &i).at; add(i); return at; });
    else if (is("read-f64"))
        each([&](size_t at) { at = digits_read_f64(text, length, at, &x).at; add(x); return at; });
    else if (is("by-i64")) {
        const digits_word word = DIGITS_WORD_STANDARD;
        each([&](size_t at) { at = digits_read_i64_by(text, length, at, word, &i).at; add(i); return at; });
    } else if (is("by-f64")) {
        const digits_word word = DIGITS_WORD_STANDARD;
        each([&](size_t at) { at = digits_read_f64_by(text, length, at, word, &x).at; add(x); return at; });
    } else if (is("json-i64"))
        each([&](size_t at) {
            at = digits_read_json(text, length, at, &n).at;
            (void)!digits_as_i64(&n, &i);
            add(i);
            return at;
        });
    else if (is("json-f64"))
        each([&](size_t at) { at = digits_read_json(text, length, at, &n).at; add(n.value); return at; });
    else if (is("list-i64"))
        whole<int64_t>(digits_read_i64_list);
    else if (is("list-f64"))
        whole<double>(digits_read_f64_list);
    else if (is("list-json-i64") || is("list-json-f64")) {
        is_float = is("list-json-f64");
        whole<digits_number>(list_of_json);
    } else if (is("pieces-i64"))
        pieces<int64_t>(digits_read_i64_piece);
    else if (is("pieces-f64"))
        pieces<double>(digits_read_f64_piece);
    else
        return false;
    return true;
}

int main(int count, char **words)
{
    FILE *file = count == 4 ? std::fopen(words[1], "rb") : nullptr;
    if (file == nullptr)
        return 2;
    length = std::fread(text, 1, sizeof text - 1, file);
    for (int i = std::atoi(words[3]); i > 0; i--)
        if (!way(words[2]))
            return 2;
    std::printf("%llu\n", static_cast<unsigned long long>(sum));
}
