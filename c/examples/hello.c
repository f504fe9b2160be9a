/* Prints two numbers, and why a third text is none. */
#include "digits.h"

#include <stdio.h>
#include <string.h>

int main(void)
{
    const char *const texts[] = {"-1_000", "1_234.5e-1", "1__0"};

    for (int i = 0; i < 3; i++) {
        double number;
        const digits_outcome outcome = digits_parse_f64_by(
            texts[i], strlen(texts[i]), DIGITS_WORD_PYTHON_LITERAL, &number);

        if (outcome.status == DIGITS_OK)
            printf("%g\n", number);
        else
            printf("byte %zu: %s\n", outcome.at, digits_message(outcome.status));
    }
    return 0;
}
