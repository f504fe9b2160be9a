// fast_float.
#include "each.h"

#include <fast_float/fast_float.h>

template <class T>
static inline uint64_t floats(const char* p, const uint8_t* lengths, size_t count) {
    return each(p, lengths, count, 0, [](const char* a, const char* b) {
        T x = 0;
        fast_float::from_chars(a, b, x);
        return bits(x);
    });
}

extern "C" {
uint64_t fast_float_f64(const char* p, const uint8_t* l, size_t n) {
    return floats<double>(p, l, n);
}
uint64_t fast_float_f32(const char* p, const uint8_t* l, size_t n) {
    return floats<float>(p, l, n);
}
}
