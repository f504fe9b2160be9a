// Texts that follow one another, and the sum of their values.
#include <cstddef>
#include <cstdint>
#include <cstring>

using std::size_t;
using std::uint64_t;
using std::uint8_t;

// The bits of a float, the value of an integer.
template <class T>
static inline uint64_t bits(T x) {
    if constexpr (sizeof(T) == 4) {
        uint32_t b;
        memcpy(&b, &x, 4);
        return b;
    } else {
        uint64_t b;
        memcpy(&b, &x, 8);
        return b;
    }
}

// `value` is called with where a text begins and ends. `gap` bytes are after each.
template <class F>
static inline uint64_t each(const char* p, const uint8_t* lengths, size_t count, size_t gap,
                            F value) {
    uint64_t total = 0;
    for (size_t i = 0; i < count; i++) {
        const char* end = p + lengths[i];
        total += value(p, end);
        p = end + gap;
    }
    return total;
}
