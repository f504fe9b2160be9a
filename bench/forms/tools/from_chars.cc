// C++'s own reading: FROM_CHARS, by std::from_chars for a double.
#include <charconv>
#include <cstring>
#include <iostream>
#include <string>

int main() {
    std::ios::sync_with_stdio(false);
    for (std::string text; std::getline(std::cin, text);) {
        double value = 0;
        const char *end = text.data() + text.size();
        auto said = std::from_chars(text.data(), end, value);
        unsigned long bits;
        std::memcpy(&bits, &value, 8);
        if (said.ptr != end || said.ec == std::errc::invalid_argument)
            std::cout << "-\n";
        else if (said.ec != std::errc())
            std::cout << "f?\n";
        else
            std::cout << "f" << std::hex << bits << "\n";
    }
}
