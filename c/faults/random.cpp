// Random texts through every call of digits.h, beside other readers: random NUMBER [SEED].
#include "beside.hpp"

#include <random>

static std::mt19937_64 source;

static size_t below(size_t most) { return source() % most; }

// Bytes of an alphabet.
static std::string bytes(const std::string &alphabet, size_t length)
{
    std::string text;
    while (text.size() < length)
        text += alphabet[below(alphabet.size())];
    return text;
}

static std::string number()
{
    char printed[1200];
    const uint64_t bits = source();
    double value;
    std::memcpy(&value, &bits, sizeof value);
    switch (below(10)) {
    case 0: return bytes("0123456789", below(42));
    case 1: return bytes("0123456789", 1 + below(5)) + "." + bytes("0123456789", below(20));
    case 2: return bytes("0123456789", 1 + below(24)) + "e" + bytes("+-0123456789", 1) +
                   bytes("0123456789", below(4));
    case 3: // exactly a double, or just above one, or just below the next
        std::snprintf(printed, sizeof printed, "%.*g", static_cast<int>(1 + below(800)), value);
        return printed + bytes("0123456789", below(3));
    case 4: // close to the middle of two floats
        std::snprintf(printed, sizeof printed, "%.17Lg",
                      (static_cast<long double>(value) + std::nextafter(value, 0.0)) / 2);
        return printed;
    case 5: // close to the ends of the types
        std::snprintf(printed, sizeof printed, "%llu",
                      (below(2) ? 1ULL << (31 + below(33)) : 0ULL) - below(3));
        return printed;
    case 6: return bytes("0123456789_", 1 + below(20));
    case 7: return bytes("0", below(30)) + bytes("0123456789", below(30));
    case 8: { // a price, mostly
        std::string price = bytes("0123456789", 1 + below(3));
        for (size_t groups = below(7); groups > 0; groups--)
            price += bytes(",,,_", 1) + bytes("0123456789", below(9) ? 3 : below(5));
        return price + bytes("...,", below(9) > 0) + bytes("0123456789", below(5) ? 2 : below(4));
    }
    default: return "0" + bytes("xXbBoOuz", 1) + bytes("0123456789abcdefABCDEF_.pP+-", below(20));
    }
}

static std::string text()
{
    switch (below(9)) {
    case 0: return bytes("0123456789+-._eE", below(24));
    case 1: return bytes("0123456789+-._eExXaAfFiInN' ,()\n", below(32));
    case 2: {
        const char *const names[] = {"inf", "nan", "Infinity", "NaN", ".inf", ".NaN", "INF", "nan(1)"};
        return bytes("+-", below(2)) + names[below(8)] + bytes("f1e, ", below(3));
    }
    case 3: {
        std::string any(below(20), '\0');
        for (char &byte : any)
            byte = static_cast<char>(source());
        return any;
    }
    case 4: return bytes("[] \n", below(6)) + number() + bytes(",] \n12", below(12));
    default: return bytes("+-", below(2)) + number() + bytes(",; \nem_.5", below(4));
    }
}

int main(int count, char **words)
{
    const long wanted = count > 1 ? std::atol(words[1]) : 100000;
    source.seed(count > 2 ? std::strtoull(words[2], nullptr, 10) : 1);
    for (long i = 0; i < wanted; i++) {
        const std::string now = text();
        beside::all(now, below(4) ? 0 : below(now.size() + 1), source());
    }
    std::printf("%ld texts, none differs\n", wanted);
}
