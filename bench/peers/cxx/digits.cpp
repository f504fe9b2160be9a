// The library by digits.h, as C, C++ and others call it: a call that has the word as a constant, one
// that is told it, and one for a list.
#include "each.h"

#include "digits.h"

#include <type_traits>

static const digits_word STANDARD = DIGITS_INIT_STANDARD;
static const digits_word HEXADECIMAL = DIGITS_INIT_HEXADECIMAL;
static const digits_word GROUPED = DIGITS_MAKE_INIT(10, '_', DIGITS_FLAG_INTEGER_INTERNAL);

template <class T>
static inline uint64_t told(T x) {
    if constexpr (std::is_integral_v<T>)
        return uint64_t(int64_t(x));
    else
        return bits(x);
}

static inline uint64_t told(const digits_number& x) {
    if (x.kind == DIGITS_FLOAT)
        return bits(x.value);
    return x.is_negative ? -x.low : x.low;
}

template <class T, class Call, class... Rest>
static inline uint64_t calls(const char* p, const uint8_t* l, size_t n, Call call, Rest... rest) {
    return each(p, l, n, 0, [=](const char* a, const char* b) -> uint64_t {
        T x;
        return call(a, size_t(b - a), rest..., &x).status == DIGITS_OK ? told(x) : 0;
    });
}

// An array of JSON.
template <class T, class Call>
static inline uint64_t lists(const char* p, size_t n, Call call) {
    T numbers[256];
    uint64_t total = 0;
    size_t count, at = 1;
    digits_outcome list;
    do {
        list = call(p, n, at, ',', numbers, 256, &count);
        for (size_t i = 0; i < count; i++)
            total += told(numbers[i]);
        at = list.at;
    } while (list.status == DIGITS_FULL);
    return total;
}

extern "C" {
#define CALLS(name, T, ...)                                                                        \
    uint64_t name(const char* p, const uint8_t* l, size_t n) {                                     \
        return calls<T>(p, l, n, __VA_ARGS__);                                                     \
    }
CALLS(c_parse_u64, uint64_t, digits_parse_u64)
CALLS(c_parse_i32, int32_t, digits_parse_i32)
CALLS(c_parse_f64, double, digits_parse_f64)
CALLS(c_parse_f32, float, digits_parse_f32)
CALLS(c_read_u64, uint64_t, digits_read_u64, size_t(0))
CALLS(c_read_f64, double, digits_read_f64, size_t(0))
CALLS(c_read_json, digits_number, digits_read_json, size_t(0))
CALLS(c_u64_by, uint64_t, digits_parse_u64_by, STANDARD)
CALLS(c_i32_by, int32_t, digits_parse_i32_by, STANDARD)
CALLS(c_f64_by, double, digits_parse_f64_by, STANDARD)
CALLS(c_f32_by, float, digits_parse_f32_by, STANDARD)
CALLS(c_hexadecimal_by, uint64_t, digits_parse_u64_by, HEXADECIMAL)
CALLS(c_grouped_by, uint64_t, digits_parse_u64_by, GROUPED)
CALLS(c_json_by, digits_number, digits_read_number, size_t(0), uint32_t(DIGITS_FORM_JSON))
uint64_t c_list_u64(const char* p, size_t n) { return lists<uint64_t>(p, n, digits_read_u64_list); }
uint64_t c_list_f64(const char* p, size_t n) { return lists<double>(p, n, digits_read_f64_list); }
}
