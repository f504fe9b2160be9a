// double-conversion.
#include "each.h"

#include <double-conversion/double-conversion.h>

static const double_conversion::StringToDoubleConverter& converter() {
    static const double_conversion::StringToDoubleConverter c(0, 0.0, 0.0, "inf", "nan");
    return c;
}

extern "C" {
uint64_t double_conversion_f64(const char* p, const uint8_t* l, size_t n) {
    const auto& c = converter();
    return each(p, l, n, 0, [&](const char* a, const char* b) {
        int used;
        return bits(c.StringToDouble(a, int(b - a), &used));
    });
}
uint64_t double_conversion_f32(const char* p, const uint8_t* l, size_t n) {
    const auto& c = converter();
    return each(p, l, n, 0, [&](const char* a, const char* b) {
        int used;
        return bits(c.StringToFloat(a, int(b - a), &used));
    });
}
}
