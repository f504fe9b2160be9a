// The C library. A comma is after each text.
#include "each.h"

#include <cstdlib>

extern "C" {
uint64_t strtod_f64(const char* p, const uint8_t* l, size_t n) {
    return each(p, l, n, 1, [](const char* a, const char*) {
        char* end;
        return bits(strtod(a, &end));
    });
}
uint64_t strtoull_u64(const char* p, const uint8_t* l, size_t n) {
    return each(p, l, n, 1, [](const char* a, const char*) -> uint64_t {
        char* end;
        return strtoull(a, &end, 10);
    });
}
}
