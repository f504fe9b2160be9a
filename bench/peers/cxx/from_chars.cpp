// std::from_chars of libstdc++.
#include "each.h"

#include <charconv>

template <class T, int base>
static inline uint64_t integers(const char* p, const uint8_t* lengths, size_t count) {
    return each(p, lengths, count, 0, [](const char* a, const char* b) -> uint64_t {
        T x = 0;
        auto r = std::from_chars(a, b, x, base);
        return r.ec == std::errc() && r.ptr == b ? uint64_t(int64_t(x)) : 0;
    });
}

template <class T>
static inline uint64_t floats(const char* p, const uint8_t* lengths, size_t count) {
    return each(p, lengths, count, 0, [](const char* a, const char* b) {
        T x = 0;
        std::from_chars(a, b, x);
        return bits(x);
    });
}

extern "C" {
uint64_t from_chars_u64(const char* p, const uint8_t* l, size_t n) {
    return integers<uint64_t, 10>(p, l, n);
}
uint64_t from_chars_i32(const char* p, const uint8_t* l, size_t n) {
    return integers<int32_t, 10>(p, l, n);
}
uint64_t from_chars_hex(const char* p, const uint8_t* l, size_t n) {
    return integers<uint64_t, 16>(p, l, n);
}
uint64_t from_chars_f64(const char* p, const uint8_t* l, size_t n) {
    return floats<double>(p, l, n);
}
uint64_t from_chars_f32(const char* p, const uint8_t* l, size_t n) {
    return floats<float>(p, l, n);
}
}
