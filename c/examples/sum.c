/* Sums the floats of a file, or of standard input, with blanks or ends of lines between them. At no
 * time more than 4 KiB of the text are in memory, and a number, with the blanks around it, has to be
 * shorter. */
#include "digits.h"

#include <stdio.h>

/* Adds the numbers of a piece of the text, up to where it may be cut: that is the outcome's `at`. */
static digits_outcome add(const char *text, size_t length, bool is_last, double *sum)
{
    double numbers[64];
    size_t count, i;
    digits_outcome list = {0, DIGITS_FULL};

    while (list.status == DIGITS_FULL) {
        list = digits_read_f64_piece(text, length, list.at, ' ', is_last, numbers, 64, &count);
        for (i = 0; i < count; i++)
            *sum += numbers[i];
    }
    return list;
}

int main(int words, char **word)
{
    FILE *const file = words > 1 ? fopen(word[1], "rb") : stdin;
    static char text[4096];
    size_t length = 0, before = 0; /* what is in `text`, and the bytes of the file before it */
    double sum = 0;
    digits_outcome list = {0, DIGITS_MORE};

    if (file == NULL) {
        perror(word[1]);
        return 1;
    }
    while (list.status == DIGITS_MORE) {
        const size_t more = fread(text + length, 1, sizeof text - length, file);

        length += more;
        list = add(text, length, more == 0, &sum);
        before += list.at;
        list = digits_keep(text, sizeof text, &length, list);
    }
    if (ferror(file)) {
        perror("reading");
        return 1;
    }
    if (list.status == DIGITS_OK && length == 0) {
        printf("%.17g\n", sum);
        return 0;
    }
    fprintf(stderr, "byte %zu: %s\n", before,
            digits_message(list.status == DIGITS_OK ? DIGITS_EMPTY : list.status));
    return 1;
}
