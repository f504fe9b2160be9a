// The C library. It ends each text with a zero, which the comma then replaces.
#include "each_written.h"

#include <cinttypes>
#include <cstdio>

template <class T>
static inline char* print(char* a, char* b, const char* format, T x) {
    int length = snprintf(a, size_t(b - a), format, x);
    return length < b - a ? a + length : b;
}

extern "C" {
WRITES(snprintf_u64, uint64_t, print(a, b, "%" PRIu64, x))
WRITES(snprintf_i32, int32_t, print(a, b, "%" PRId32, x))
WRITES(snprintf_f64, double, print(a, b, "%.17g", x))
WRITES(snprintf_f32, float, print(a, b, "%.9g", x))
WRITES(snprintf_fixed, double, print(a, b, "%.2f", x))
WRITES(snprintf_scientific, double, print(a, b, "%.6e", x))
}
