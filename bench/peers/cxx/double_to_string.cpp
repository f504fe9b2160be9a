// double-conversion. Its builder tests no room, so there is one test for the longest text.
#include "each_written.h"

#include <double-conversion/double-conversion.h>

using double_conversion::DoubleToStringConverter;
using double_conversion::StringBuilder;

static const int ROOM = 128;

// With an exponent below 1e-5 and from 1e16 on, and with one place at least.
static const DoubleToStringConverter& converter() {
    static const DoubleToStringConverter c(
        DoubleToStringConverter::EMIT_TRAILING_DECIMAL_POINT |
            DoubleToStringConverter::EMIT_TRAILING_ZERO_AFTER_POINT,
        nullptr, nullptr, 'e', -5, 16, 0, 0);
    return c;
}

template <class F>
static inline char* print(char* a, char* b, F write) {
    if (b - a < ROOM)
        return b;
    StringBuilder builder(a, ROOM);
    if (!write(builder))
        return a;
    char* end = a + builder.position();
    builder.Finalize();
    return end;
}

extern "C" {
WRITES(double_to_string_f64, double,
       print(a, b, [x](StringBuilder& s) { return converter().ToShortest(x, &s); }))
WRITES(double_to_string_f32, float,
       print(a, b, [x](StringBuilder& s) { return converter().ToShortestSingle(x, &s); }))
WRITES(double_to_string_fixed, double,
       print(a, b, [x](StringBuilder& s) { return converter().ToFixed(x, 2, &s); }))
WRITES(double_to_string_scientific, double,
       print(a, b, [x](StringBuilder& s) { return converter().ToExponential(x, 6, &s); }))
}
