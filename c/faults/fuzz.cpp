// The same for libFuzzer: nine bytes choose the start, the word, the language and the form, and the
// others are the text. Its first eight are a number that is written.
#include "writes.hpp"

// The library isn't instrumented, so what calls answered is what the fuzzer counts.
__attribute__((section("__libfuzzer_extra_counters"))) static uint8_t counters[1 << 15];

static void seen(unsigned call, const beside::answer &given)
{
    const size_t place = given.at < 31 ? given.at : 31;
    counters[(call * 521 + given.status * 37 + place) % sizeof counters]++;
}

extern "C" int LLVMFuzzerTestOneInput(const uint8_t *bytes, size_t length)
{
    if (length < 9)
        return 0;
    uint64_t choice;
    std::memcpy(&choice, bytes + 1, 8);
    const std::string text(reinterpret_cast<const char *>(bytes) + 9, length - 9);
    if (text.size() > beside::pages::room)
        return 0;
    beside::seen = seen;
    beside::all(text, bytes[0] % (text.size() + 1), choice);
    if (text.size() >= 8) {
        uint64_t bits;
        std::memcpy(&bits, text.data(), 8);
        beside::all_writes(bits, choice);
    }
    return 0;
}
