// std::to_chars of libstdc++.
#include "each_written.h"

#include <charconv>

using std::chars_format;
using std::to_chars;

extern "C" {
WRITES(to_chars_u64, uint64_t, to_chars(a, b, x).ptr)
WRITES(to_chars_i32, int32_t, to_chars(a, b, x).ptr)
WRITES(to_chars_f64, double, to_chars(a, b, x).ptr)
WRITES(to_chars_f32, float, to_chars(a, b, x).ptr)
WRITES(to_chars_plain, double, to_chars(a, b, x, chars_format::fixed).ptr)
WRITES(to_chars_exponent, double, to_chars(a, b, x, chars_format::scientific).ptr)
WRITES(to_chars_fixed, double, to_chars(a, b, x, chars_format::fixed, 2).ptr)
WRITES(to_chars_scientific, double, to_chars(a, b, x, chars_format::scientific, 6).ptr)
}
