/* Reads a JSON array of numbers from standard input, and prints each number and their sum. */
#include "digits.h"

#include <inttypes.h>
#include <stdio.h>

static void print(const digits_number *number)
{
    int64_t integer;

    if (digits_as_i64(number, &integer))
        printf("integer %" PRId64 "\n", integer);
    else
        printf("float %.17g\n", number->value);
}

int main(void)
{
    static char text[1 << 16];
    const size_t length = fread(text, 1, sizeof text, stdin);
    double sum = 0;
    digits_outcome list = digits_open_list(text, length, 0, '[', ']');

    if (length == sizeof text && getchar() != EOF) {
        fprintf(stderr, "more than %zu bytes\n", sizeof text);
        return 1;
    }
    if (list.status == DIGITS_OK) {
        do {
            digits_number numbers[64];
            size_t count;

            list = digits_read_number_list(text, length, list.at, DIGITS_FORM_JSON, ',', numbers, 64,
                                           &count);
            for (size_t i = 0; i < count; i++) {
                print(&numbers[i]);
                sum += numbers[i].value;
            }
        } while (list.status == DIGITS_FULL);
        if (list.status == DIGITS_OK)
            list = digits_expect_byte(text, length, list.at, ']');
    }
    if (list.status != DIGITS_OK && list.status != DIGITS_CLOSED) {
        fprintf(stderr, "byte %zu: %s\n", list.at, digits_message(list.status));
        return 1;
    }
    printf("sum %.17g\n", sum);
    return 0;
}
