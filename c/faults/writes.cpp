// Random numbers through every call of digits.h that writes, beside other writers: writes NUMBER [SEED].
#include "writes.hpp"

#include <random>

static std::mt19937_64 source;

static size_t below(size_t most) { return source() % most; }

template <typename T>
static uint64_t bits_of(T value)
{
    uint64_t bits;
    static_assert(sizeof bits == sizeof value);
    std::memcpy(&bits, &value, sizeof bits);
    return bits;
}

// Of random bits, of few bits, at a power of ten or two, or a float with few digits or in [0, 1).
static uint64_t number()
{
    uint64_t power = 1;
    switch (below(8)) {
    case 0: return source() >> below(64);
    case 1: return ~(source() >> below(64));
    case 2:
        for (size_t n = below(20); n > 0; n--)
            power *= 10;
        return (below(2) ? power : 0 - power) + below(3) - 1;
    case 3: return (uint64_t{1} << below(64)) + below(3) - 1;
    case 4: return bits_of(static_cast<double>(source() % 1000000000) / (below(2) ? 100 : 1000));
    case 5: return bits_of(std::ldexp(1.0, static_cast<int>(below(2098)) - 1074)) + below(3) - 1;
    case 6: return bits_of(static_cast<double>(source() >> 11) / 9007199254740992.0);
    default: return source();
    }
}

int main(int count, char **words)
{
    const long wanted = count > 1 ? std::atol(words[1]) : 100000;
    source.seed(count > 2 ? std::strtoull(words[2], nullptr, 10) : 1);
    for (long i = 0; i < wanted; i++)
        beside::all_writes(number(), source());
    std::printf("%ld numbers, none differs\n", wanted);
}
