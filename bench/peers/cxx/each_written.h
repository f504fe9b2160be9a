// Numbers that are written one after another, with a comma after each, as long as there is room.
#include <cstddef>
#include <cstdint>

// `write` is called with where a text may begin and where the room ends, and answers where the text
// ends.
template <class T, class F>
static inline size_t each(const T* values, size_t count, char* out, size_t room, F write) {
    char *at = out, *end = out + room;
    for (size_t i = 0; i < count; i++) {
        char* next = write(at, end, values[i]);
        if (next == end)
            break;
        *next = ',';
        at = next + 1;
    }
    return size_t(at - out);
}

// A side: how it writes `x` from `a` on, up to `b` at most.
#define WRITES(name, T, how)                                                                       \
    size_t name(const T* values, size_t count, char* out, size_t room) {                           \
        return each(values, count, out, room, [](char* a, char* b, T x) -> char* { return how; }); \
    }
