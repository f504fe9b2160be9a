/* Sums the integers of a file, one in each line, on four threads, each of which reads a block of it. */
#define _POSIX_C_SOURCE 200809L
#include "digits.h"

#include <fcntl.h>
#include <inttypes.h>
#include <pthread.h>
#include <stdio.h>
#include <stdlib.h>
#include <sys/mman.h>
#include <sys/stat.h>

enum { BLOCKS = 4 };

struct block {
    const char *text;
    size_t begin, end;   /* of the block, in the text */
    bool is_last;        /* whether the text ends with it */
    uint64_t sum;        /* of its numbers, modulo 2^64 */
    digits_outcome list; /* why there are no more, at a position of the text */
};

static void *add(void *argument)
{
    struct block *const block = argument;
    int64_t numbers[256];
    size_t count, i;
    digits_outcome list = {0, DIGITS_FULL};

    while (list.status == DIGITS_FULL) {
        list = digits_read_i64_piece(block->text + block->begin, block->end - block->begin, list.at,
                                     '\n', block->is_last, numbers, 256, &count);
        for (i = 0; i < count; i++)
            block->sum += (uint64_t)numbers[i];
    }
    list.at += block->begin;
    block->list = list;
    return NULL;
}

/* Reads the blocks of a text. Their numbers count up to the first block that asks for no more: there
 * the list ends. */
static digits_outcome add_blocks(const char *text, size_t length, uint64_t *sum)
{
    struct block blocks[BLOCKS];
    pthread_t threads[BLOCKS];
    digits_outcome list = {0, DIGITS_MORE};
    size_t i, begin = 0;

    for (i = 0; i < BLOCKS; i++) {
        const size_t cut = i == BLOCKS - 1 ? length : length / BLOCKS * (i + 1);
        const size_t end = digits_block_start(text, length, cut, '\n');
        const struct block block = {text, begin, end, end == length, 0, {0, DIGITS_MORE}};

        blocks[i] = block;
        if (pthread_create(&threads[i], NULL, add, &blocks[i]) != 0) {
            fputs("no thread\n", stderr);
            exit(1);
        }
        begin = end;
    }
    for (i = 0; i < BLOCKS; i++) {
        pthread_join(threads[i], NULL);
        if (list.status == DIGITS_MORE) {
            *sum += blocks[i].sum;
            list = blocks[i].list;
        }
    }
    return list;
}

int main(int words, char **word)
{
    const int file = words > 1 ? open(word[1], O_RDONLY) : -1;
    struct stat stat;
    const char *text = NULL;
    uint64_t sum = 0;
    size_t length;
    digits_outcome list;

    if (file < 0 || fstat(file, &stat) != 0) {
        perror(words > 1 ? word[1] : "threads FILE");
        return 1;
    }
    length = (size_t)stat.st_size;
    if (length > 0 && (text = mmap(NULL, length, PROT_READ, MAP_PRIVATE, file, 0)) == MAP_FAILED) {
        perror(word[1]);
        return 1;
    }
    list = add_blocks(text, length, &sum);
    if (list.status == DIGITS_OK && list.at == length) {
        printf("%" PRId64 "\n", (int64_t)sum);
        return 0;
    }
    fprintf(stderr, "byte %zu: %s\n", list.at,
            digits_message(list.status == DIGITS_OK ? DIGITS_INVALID : list.status));
    return 1;
}
