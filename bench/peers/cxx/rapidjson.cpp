// rapidjson's Reader over one array that ends with a zero.
#include "each.h"

#include <rapidjson/memorystream.h>
#include <rapidjson/reader.h>

using namespace rapidjson;

struct Sum : BaseReaderHandler<UTF8<>, Sum> {
    uint64_t total = 0;
    bool Int(int x) { return add(uint64_t(int64_t(x))); }
    bool Uint(unsigned x) { return add(x); }
    bool Int64(int64_t x) { return add(uint64_t(x)); }
    bool Uint64(uint64_t x) { return add(x); }
    bool Double(double x) { return add(bits(x)); }
    bool add(uint64_t x) {
        total += x;
        return true;
    }
};

extern "C" uint64_t rapidjson_array(const char* p, size_t) {
    StringStream s(p);
    Sum sum;
    Reader reader;
    reader.Parse<kParseFullPrecisionFlag>(s, sum);
    return sum.total;
}
