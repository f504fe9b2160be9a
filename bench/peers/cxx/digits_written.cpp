// The library by digits.h, as C, C++ and others call it.
#include "each_written.h"

#include "digits.h"

extern "C" {
WRITES(c_write_u64, uint64_t, a + digits_write_u64(a, size_t(b - a), x))
WRITES(c_write_i32, int32_t, a + digits_write_i32(a, size_t(b - a), x))
WRITES(c_write_grouped, uint64_t, a + digits_write_u64_grouped(a, size_t(b - a), x, '_', 3))
WRITES(c_write_f64, double, a + digits_write_f64(a, size_t(b - a), x))
WRITES(c_write_f32, float, a + digits_write_f32(a, size_t(b - a), x))
WRITES(c_write_plain, double, a + digits_write_f64_in(a, size_t(b - a), x, DIGITS_LAYOUT_PLAIN))
WRITES(c_write_exponent, double,
       a + digits_write_f64_in(a, size_t(b - a), x, DIGITS_LAYOUT_EXPONENT))
WRITES(c_write_fixed, double, a + digits_write_f64_fixed(a, size_t(b - a), x, 2))
}
