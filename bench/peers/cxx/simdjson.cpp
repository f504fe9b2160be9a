// simdjson: ondemand over one padded array, and its readers of one number. These are called from
// the first byte of each text, and a comma is after it.
#include "each.h"

#include <simdjson.h>

using namespace simdjson;
namespace one = simdjson::haswell::numberparsing;

static ondemand::parser& parser() {
    static ondemand::parser p;
    return p;
}

struct Writer {
    uint64_t total = 0;
    void append_u64(uint64_t x) { total += x; }
    void append_s64(int64_t x) { total += uint64_t(x); }
    void append_double(double x) { total += bits(x); }
    void skip_double() {}
};

extern "C" {
uint64_t simdjson_array(const char* p, size_t n) {
    uint64_t total = 0;
    ondemand::document doc = parser().iterate(p, n, n + SIMDJSON_PADDING);
    for (auto v : doc.get_array()) {
        ondemand::number x = v.get_number();
        switch (x.get_number_type()) {
            case ondemand::number_type::signed_integer: total += uint64_t(x.get_int64()); break;
            case ondemand::number_type::unsigned_integer: total += x.get_uint64(); break;
            default: total += bits(x.get_double());
        }
    }
    return total;
}
uint64_t simdjson_doubles(const char* p, size_t n) {
    uint64_t total = 0;
    ondemand::document doc = parser().iterate(p, n, n + SIMDJSON_PADDING);
    for (auto v : doc.get_array()) {
        total += bits(double(v.get_double()));
    }
    return total;
}
uint64_t simdjson_f64(const char* p, const uint8_t* l, size_t n) {
    return each(p, l, n, 1, [](const char* a, const char*) {
        return bits(one::parse_double((const uint8_t*)a).value_unsafe());
    });
}
uint64_t simdjson_u64(const char* p, const uint8_t* l, size_t n) {
    return each(p, l, n, 1, [](const char* a, const char*) {
        return one::parse_unsigned((const uint8_t*)a).value_unsafe();
    });
}
uint64_t simdjson_number(const char* p, const uint8_t* l, size_t n) {
    Writer writer;
    each(p, l, n, 1, [&](const char* a, const char*) -> uint64_t {
        (void)one::parse_number((const uint8_t*)a, writer);
        return 0;
    });
    return writer.total;
}
}
