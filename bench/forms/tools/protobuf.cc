// Protobuf's own reading of its text format: a field for integers, and otherwise one for floats.
#include <cstring>
#include <google/protobuf/text_format.h>
#include <google/protobuf/io/tokenizer.h>
#include <google/protobuf/wrappers.pb.h>
#include <iostream>
#include <string>

const char DIGITS[] = "0123456789.";

using google::protobuf::TextFormat;

// says nothing of what is refused
struct Silent : google::protobuf::io::ErrorCollector {
    void AddError(int, int, const std::string &) override {}
};

int main() {
    std::ios::sync_with_stdio(false);
    Silent silent;
    TextFormat::Parser parser;
    parser.RecordErrorsTo(&silent);
    for (std::string text; std::getline(std::cin, text);) {
        google::protobuf::Int64Value integer;
        google::protobuf::UInt64Value natural;
        google::protobuf::DoubleValue real;
        std::string field = "value:" + text;
        // one token and a minus: no name of a field follows, and a suffix isn't of the form
        bool is_one = text.find_first_not_of("0123456789abcdefghijklmnopqrstuvwxyz"
                                             "ABCDEFGHIJKLMNOPQRSTUVWXYZ_.+-") == text.npos;
        size_t last = text.size() - 1;
        bool is_hex = text.find_first_of("xX") != text.npos;
        is_one = is_one && (is_hex || text.find_last_of("fF") != last
                            || text.find_last_of(DIGITS) != last - 1);
        if (is_one && parser.ParseFromString(field, &integer)) {
            std::cout << "i" << std::dec << integer.value() << "\n";
        } else if (is_one && parser.ParseFromString(field, &natural)) {
            std::cout << "i" << std::dec << natural.value() << "\n";
        } else if (is_one && parser.ParseFromString(field, &real)) {
            double value = real.value();
            unsigned long bits;
            std::memcpy(&bits, &value, 8);
            std::cout << "f" << std::hex << bits << "\n";
        } else {
            std::cout << "-\n";
        }
    }
}
