// Writes the numbers of a file, which has one in each line, by one way: writes FILE WAY TIMES.
#include "digits.h"

#include <charconv>
#include <cinttypes>
#include <cstdio>
#include <cstdlib>
#include <cstring>
#include <vector>

static std::vector<int64_t> integers;
static std::vector<double> floats;
static char out[64];
static size_t length;

// Goes over the numbers by a call that writes one, and answers how many bytes it has.
template <typename T, typename Write>
static void each(const std::vector<T> &numbers, Write write)
{
    for (const T number : numbers)
        length += static_cast<size_t>(write(number));
}

static bool way(const char *name)
{
    const auto is = [&](const char *other) { return std::strcmp(name, other) == 0; };
    char *const end = out + sizeof out;
    if (is("snprintf-i64"))
        each(integers, [](int64_t i) { return std::snprintf(out, sizeof out, "%" PRId64, i); });
    else if (is("to_chars-i64"))
        each(integers, [=](int64_t i) { return std::to_chars(out, end, i).ptr - out; });
    else if (is("write-i64"))
        each(integers, [](int64_t i) { return digits_write_i64(out, sizeof out, i); });
    else if (is("snprintf-scaled"))
        each(integers, [](int64_t i) {
            return std::snprintf(out, sizeof out, "%" PRId64 ".%02" PRId64, i / 100, i % 100);
        });
    else if (is("write-scaled"))
        each(integers, [](int64_t i) { return digits_write_scaled_i64(out, sizeof out, i, 2); });
    else if (is("write-price"))
        each(integers, [](int64_t i) { return digits_write_price_i64(out, sizeof out, i, 2, ',', '.'); });
    else if (is("snprintf-f64"))
        each(floats, [](double x) { return std::snprintf(out, sizeof out, "%.17g", x); });
    else if (is("to_chars-f64"))
        each(floats, [=](double x) { return std::to_chars(out, end, x).ptr - out; });
    else if (is("write-f64"))
        each(floats, [](double x) { return digits_write_f64(out, sizeof out, x); });
    else if (is("snprintf-fixed"))
        each(floats, [](double x) { return std::snprintf(out, sizeof out, "%.2f", x); });
    else if (is("to_chars-fixed"))
        each(floats, [=](double x) {
            return std::to_chars(out, end, x, std::chars_format::fixed, 2).ptr - out;
        });
    else if (is("write-fixed"))
        each(floats, [](double x) { return digits_write_f64_fixed(out, sizeof out, x, 2); });
    else
        return false;
    return true;
}

int main(int count, char **words)
{
    FILE *file = count == 4 ? std::fopen(words[1], "rb") : nullptr;
    char line[64];
    if (file == nullptr)
        return 2;
    while (std::fgets(line, sizeof line, file) != nullptr) {
        integers.push_back(std::strtoll(line, nullptr, 10));
        floats.push_back(std::strtod(line, nullptr));
    }
    for (int i = std::atoi(words[3]); i > 0; i--)
        if (!way(words[2]))
            return 2;
    std::printf("%zu\n", length);
}
