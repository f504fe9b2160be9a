/*
 * digits.h: reading numbers from a text, also with digit separators such as 1_000, and writing them.
 *
 * C99, and C++ from C++11 on. Link libdigits.a or libdigits.so, which `make` makes in this folder.
 * Of the C library they call only memcpy and memset. They allocate nothing, keep no state and read
 * no locale, so every call may be made from any thread and from a signal handler.
 *
 * Each call is proved against a contract that says its exact outcome. The contracts are in
 * crates/digits_c/src. What they can't say is what C owes: see "What a caller owes" below.
 *
 *
 * Texts and positions
 *
 * A text is a pointer to its bytes and their number, and needs no zero at its end. A position
 * counts bytes from the start of the text, from 0. It is always of the whole text, also if a call
 * has a start: to go on after a number, pass the position that the call answered as the next start.
 * No call answers a pointer.
 *
 * digits_read_..   reads the number that begins at a start, and answers where it ends
 * digits_parse_..  reads a whole text, of which each byte must be part of the number
 * .._by            the same by a format word: separators, or another radix
 * .._list          reads numbers with a byte between two of them
 * .._piece         the same of a text that comes in pieces
 * digits_keep      keeps of a piece what has to come again
 * digits_write_..  writes the text of a number; .._of as a language or a data format has it
 *
 * A blank is no part of a number, and no call that reads or parses one skips blanks. The calls for
 * lists and for single bytes do.
 *
 *
 * What comes back
 *
 * Each call that reads writes the number through its last argument, and answers a digits_outcome:
 *
 *     int64_t number;
 *     digits_outcome outcome = digits_read_i64(text, length, 0, &number);
 *     if (outcome.status == DIGITS_OK)
 *         next = outcome.at;    // the position after the number
 *     else
 *         fault = outcome.at;   // the position of the byte at fault, or the length: the end
 *
 * After a fault the number is 0. It needn't be set before the call. A compiler warns where an
 * outcome is ignored.
 *
 * Where a number has no digit the status is DIGITS_EMPTY, of every call with one exception: for an
 * integer a digits_parse_.. answers it only if the text ends there, and otherwise DIGITS_INVALID.
 *
 *                                                    ""     "-"    "x"      "-x"     "1x"
 *     digits_read_..                                 EMPTY  EMPTY  EMPTY    EMPTY    1
 *     digits_parse_.. of an integer                  EMPTY  EMPTY  INVALID  INVALID  INVALID
 *     digits_parse_.. of a float, of a scaled
 *     number or a price, of JSON or a form           EMPTY  EMPTY  EMPTY    EMPTY    INVALID
 *
 *
 * A text that comes in pieces
 *
 * A number that ends at `length` may be cut, if the text goes on after it: of `12`, before `34`, a
 * read answers 12. A fault may be none: `1e`, before `5`. And a form's number may go on although it
 * ends before `length`: of `1e+`, before `5`, digits_read_json answers 1. So in every piece but the
 * last
 *
 * - read a list by digits_read_.._piece, which stops in time, and answers DIGITS_MORE, or
 * - call a digits_read_.. only at a start before digits_sure_end(text, length), by a form before
 *   digits_sure_end_of(text, length, form), by a word or of a price before
 *   digits_sure_end_by(text, length, word): what it answers there stays, whatever follows.
 *
 * From there on keep the bytes: move them to the front, as digits_keep does after a piece, and read
 * on with what follows them behind them. A digits_parse_.. needs the whole text.
 *
 *
 * What a caller owes
 *
 * - `text` points to `length` bytes that don't change during the call, of one object. If `length` is
 *   0, `text` may be NULL.
 * - The last argument points to an object of its type, that isn't part of the text. It isn't NULL: a
 *   call by NULL crashes.
 * - `out` points to `room` bytes of one object, which nothing else reads or writes during the call.
 *   They needn't be set. If `room` is 0, `out` may be NULL.
 * - Of digits_keep `text` points to `room` bytes of one object, which nothing else reads or writes
 *   during the call. The first `*length` are set, and `length` isn't part of them.
 * - Floats are rounded to the nearest, and none is flushed to zero, as by default: no fesetround to
 *   another direction, and no program linked with -ffast-math.
 *
 * Everything else has a status: a start after the end, a word that isn't supported, a number that
 * names no form or language.
 */
#ifndef DIGITS_H
#define DIGITS_H

#include <stdbool.h>
#include <stddef.h>
#include <stdint.h>

#ifdef __cplusplus
extern "C" {
#endif

/* A compiler warns where what the call answers is ignored, or where its last argument, which has this
 * number, is NULL. */
#ifdef __GNUC__
#define DIGITS_USED __attribute__((warn_unused_result))
#define DIGITS_CALL(last) __attribute__((warn_unused_result, nonnull(last)))
#else
#define DIGITS_USED
#define DIGITS_CALL(last)
#endif

/* ---- what calls take and answer ---- */

/* Where the number ends, or what is at fault. */
typedef struct digits_outcome {
    size_t at;       /* the position after the number, or that of the fault */
    uint32_t status; /* DIGITS_OK, or the kind of the fault */
} digits_outcome;

/* A format word: radix, separator, and flags that say where separators are dropped. */
typedef struct digits_word {
    uint64_t low;
    uint64_t high;
} digits_word;

/* An integer literal of a language. */
typedef struct digits_literal {
    uint64_t low;   /* the value: low + high * 2^64 */
    uint64_t high;
    size_t digits;  /* the position of its first digit, after a prefix such as 0x */
    uint32_t radix; /* of its digits; 0 if there is no literal */
} digits_literal;

/* A number of a form: an integer of up to 128 bits, or a float. */
typedef struct digits_number {
    double value;     /* the float, or the one nearest to the integer */
    uint64_t low;     /* an integer's magnitude: low + high * 2^64; 0 of a float */
    uint64_t high;
    uint32_t kind;    /* DIGITS_INTEGER, DIGITS_FLOAT, or DIGITS_NONE after a fault */
    bool is_negative; /* whether a minus is before an integer, also of -0; false of a float */
} digits_number;

/* Format words with a name are at the end of this file. Each is a value, DIGITS_WORD_.., and an
 * initializer, DIGITS_INIT_.., for an object that is static too:
 *
 *     digits_read_i64_by(text, length, start, DIGITS_WORD_PYTHON_LITERAL, &number)
 *     static const digits_word UNDERSCORES = DIGITS_INIT_PYTHON_LITERAL;
 *
 * A word of your own has a radix from 2 to 36, a separator, or 0 for none, and flags joined by |.
 * `DIGITS_MAKE_WORD(10, '_', DIGITS_FLAG_INTEGER_INTERNAL)` drops a `_` between two digits. */
#define DIGITS_MAKE_INIT(radix, separator, flags)                                                   \
    {(uint64_t)(flags), (uint64_t)(unsigned char)(separator) | (uint64_t)((radix) & 255) << 40}
#define DIGITS_MAKE_WORD(radix, separator, flags)                                                   \
    (DIGITS_VALUE DIGITS_MAKE_INIT(radix, separator, flags))
#ifdef __cplusplus
#define DIGITS_VALUE digits_word
#else
#define DIGITS_VALUE (digits_word)
#endif

/* what calls answer: from the sources, by c/constants */
/* The version of this file. */
#define DIGITS_VERSION 100 /* The version of this library: 10,000 for each major one, 100 for each minor one */

/* What an outcome's status is. */
#define DIGITS_OK 0 /* The number was read */
#define DIGITS_EMPTY 1 /* There is no digit, or no number */
#define DIGITS_OVERFLOW 2 /* The number is too large */
#define DIGITS_INVALID 3 /* The byte is no part of the number before it */
#define DIGITS_EMPTY_EXPONENT 4 /* No digit follows the mark of an exponent */
#define DIGITS_FIRST_ZERO 5 /* The language refuses the first 0 */
#define DIGITS_TOO_FINE 6 /* A digit after the last place is no zero */
#define DIGITS_BAD_START 7 /* The start is after the end of the text */
#define DIGITS_BAD_WORD 8 /* The word isn't supported, or its floats aren't decimal */
#define DIGITS_BAD_LANGUAGE 9 /* No language has this number */
#define DIGITS_BAD_FORM 10 /* No form has this number */
#define DIGITS_BAD_PLACES 11 /* There are more than 38 places */
#define DIGITS_FULL 12 /* The list goes on, and there is no more room for its numbers */
#define DIGITS_MORE 13 /* More of the text is needed, from this position on */
#define DIGITS_OTHER_BYTE 14 /* Another byte is there, or the text ends */
#define DIGITS_CLOSED 15 /* The list has no number, and ends here */
#define DIGITS_TOO_LONG 16 /* A number is too long for the room of the text */
#define DIGITS_GROUP 17 /* The group of digits at this position isn't of three */
#define DIGITS_PLACES 18 /* The number that ends at this position has fewer or more places */

/* What a number's kind is. */
#define DIGITS_NONE 0 /* There is no number */
#define DIGITS_INTEGER 1 /* The number is an integer */
#define DIGITS_FLOAT 2 /* The number is a float */
/* end of what c/constants writes */

/* What a status says, in English. */
static inline const char *digits_message(uint32_t status)
{
    switch (status) {
    case DIGITS_OK: return "a number";
    case DIGITS_EMPTY: return "no digit";
    case DIGITS_OVERFLOW: return "too large";
    case DIGITS_INVALID: return "a byte that is no part of the number";
    case DIGITS_EMPTY_EXPONENT: return "an exponent without a digit";
    case DIGITS_FIRST_ZERO: return "a first 0, which the language refuses";
    case DIGITS_TOO_FINE: return "more places than were asked for";
    case DIGITS_BAD_START: return "a start after the end of the text";
    case DIGITS_BAD_WORD: return "a format word that isn't supported";
    case DIGITS_BAD_LANGUAGE: return "no such language";
    case DIGITS_BAD_FORM: return "no such form";
    case DIGITS_BAD_PLACES: return "more than 38 places";
    case DIGITS_FULL: return "no room for more numbers";
    case DIGITS_MORE: return "more of the text is needed";
    case DIGITS_OTHER_BYTE: return "another byte than the one that has to be there";
    case DIGITS_CLOSED: return "a list without a number";
    case DIGITS_TOO_LONG: return "a number that is too long for the room of the text";
    case DIGITS_GROUP: return "a group of digits that isn't of three";
    case DIGITS_PLACES: return "fewer or more places than were asked for";
    default: return "no status of this library";
    }
}

/* ---- the library ---- */

/* The version of the library that is linked: DIGITS_VERSION is that of this header. */
uint32_t digits_version(void);

/* Whether a word is supported: each radix is from 2 to 36, and the separator is none of its digits.
 * Calls by another word answer DIGITS_BAD_WORD. */
bool digits_is_supported(digits_word word);

/* ---- integers of a type ----
 *
 * Decimal digits, and before them a `-` or a `+` if the type has a sign: `+1` is no uint32_t. First
 * zeros are digits as any other.
 *
 * DIGITS_EMPTY     no digit; `at` is where one would be. Of digits_parse_..: the text ends there
 * DIGITS_OVERFLOW  the type hasn't the number; `at` is the first digit with which it is too large
 * DIGITS_INVALID   of digits_parse_..: the byte at `at` is no part of the number
 *
 * A number that ends at `length`, or has a fault there, may be cut: "A text that comes in pieces",
 * above.
 */

DIGITS_CALL(4)
digits_outcome digits_read_i64(const void *text, size_t length, size_t start, int64_t *number);
DIGITS_CALL(4)
digits_outcome digits_read_u64(const void *text, size_t length, size_t start, uint64_t *number);
DIGITS_CALL(4)
digits_outcome digits_read_i32(const void *text, size_t length, size_t start, int32_t *number);
DIGITS_CALL(4)
digits_outcome digits_read_u32(const void *text, size_t length, size_t start, uint32_t *number);

DIGITS_CALL(3)
digits_outcome digits_parse_i64(const void *text, size_t length, int64_t *number);
DIGITS_CALL(3)
digits_outcome digits_parse_u64(const void *text, size_t length, uint64_t *number);
DIGITS_CALL(3)
digits_outcome digits_parse_i32(const void *text, size_t length, int32_t *number);
DIGITS_CALL(3)
digits_outcome digits_parse_u32(const void *text, size_t length, uint32_t *number);

/* The same by a word: by DIGITS_WORD_PYTHON_LITERAL `1_000` is 1000. Digits are those of the word's
 * radix, as by DIGITS_WORD_HEXADECIMAL; no prefix is read.
 *
 * DIGITS_BAD_WORD  the word isn't supported; `at` is the start
 *
 * In a piece of a text read before digits_sure_end_by(text, length, word).
 */

DIGITS_CALL(5)
digits_outcome digits_read_i64_by(const void *text, size_t length, size_t start, digits_word word,
                                  int64_t *number);
DIGITS_CALL(5)
digits_outcome digits_read_u64_by(const void *text, size_t length, size_t start, digits_word word,
                                  uint64_t *number);
DIGITS_CALL(5)
digits_outcome digits_read_i32_by(const void *text, size_t length, size_t start, digits_word word,
                                  int32_t *number);
DIGITS_CALL(5)
digits_outcome digits_read_u32_by(const void *text, size_t length, size_t start, digits_word word,
                                  uint32_t *number);

DIGITS_CALL(4)
digits_outcome digits_parse_i64_by(const void *text, size_t length, digits_word word,
                                   int64_t *number);
DIGITS_CALL(4)
digits_outcome digits_parse_u64_by(const void *text, size_t length, digits_word word,
                                   uint64_t *number);
DIGITS_CALL(4)
digits_outcome digits_parse_i32_by(const void *text, size_t length, digits_word word,
                                   int32_t *number);
DIGITS_CALL(4)
digits_outcome digits_parse_u32_by(const void *text, size_t length, digits_word word,
                                   uint32_t *number);

/* ---- floats ----
 *
 * The nearest float, rounded once, of any number of digits: an optional sign, digits with a `.`
 * before, among or after them, and an exponent after `e` or `E`. No float is too large: 1e999 is
 * infinite.
 *
 * By a form a number ends before what is no part of it: of `1em` digits_read_json and, as strtod,
 * digits_read_number by DIGITS_FORM_STRTOD read 1, and here it is a fault. So are `inf` and `nan`,
 * which DIGITS_FORM_STRTOD has.
 *
 * DIGITS_EMPTY           no digit; `at` is where the digits end
 * DIGITS_EMPTY_EXPONENT  no digit follows the mark of the exponent; `at` is where one would be
 * DIGITS_INVALID         of digits_parse_..: the byte at `at` is no part of the number
 *
 * A number that ends at `length`, or has a fault there, may be cut: "A text that comes in pieces".
 */

DIGITS_CALL(4)
digits_outcome digits_read_f64(const void *text, size_t length, size_t start, double *number);
DIGITS_CALL(4)
digits_outcome digits_read_f32(const void *text, size_t length, size_t start, float *number);

DIGITS_CALL(3)
digits_outcome digits_parse_f64(const void *text, size_t length, double *number);
DIGITS_CALL(3)
digits_outcome digits_parse_f32(const void *text, size_t length, float *number);

/* The same by a word, whose mantissa and exponent must be decimal; otherwise DIGITS_BAD_WORD. In a
 * piece of a text read before digits_sure_end_by(text, length, word). */

DIGITS_CALL(5)
digits_outcome digits_read_f64_by(const void *text, size_t length, size_t start, digits_word word,
                                  double *number);
DIGITS_CALL(5)
digits_outcome digits_read_f32_by(const void *text, size_t length, size_t start, digits_word word,
                                  float *number);

DIGITS_CALL(4)
digits_outcome digits_parse_f64_by(const void *text, size_t length, digits_word word,
                                   double *number);
DIGITS_CALL(4)
digits_outcome digits_parse_f32_by(const void *text, size_t length, digits_word word,
                                   float *number);

/* ---- decimal numbers as integers, exactly ----
 *
 * The number times ten to the power `places`: of 2 places `-12.5` is -1250. Any number of digits; an
 * exponent isn't read.
 *
 * DIGITS_EMPTY       no digit; `at` is where the digits end
 * DIGITS_OVERFLOW    the type hasn't the number with the digit at `at`
 * DIGITS_TOO_FINE    the digit at `at` is the first after the last place that is no zero
 * DIGITS_INVALID     of digits_parse_..: the byte at `at` is no part of the number
 * DIGITS_BAD_PLACES  more than 38 places; `at` is the start
 *
 * In the calls by a word, `point` is the byte before the fraction, such as '.' or ','. A word whose
 * separator is a byte such as ',' reads `1,234.50`.
 *
 * A number that ends at `length`, or has a fault there, may be cut: "A text that comes in pieces".
 * With another point than '.' no call says up to where a piece is sure: cut it after a byte that no
 * number has, such as a line feed.
 */

DIGITS_CALL(5)
digits_outcome digits_read_scaled_i64(const void *text, size_t length, size_t start, size_t places,
                                      int64_t *number);
DIGITS_CALL(4)
digits_outcome digits_parse_scaled_i64(const void *text, size_t length, size_t places,
                                       int64_t *number);

DIGITS_CALL(7)
digits_outcome digits_read_scaled_i64_by(const void *text, size_t length, size_t start,
                                         size_t places, digits_word word, uint8_t point,
                                         int64_t *number);
DIGITS_CALL(6)
digits_outcome digits_parse_scaled_i64_by(const void *text, size_t length, size_t places,
                                          digits_word word, uint8_t point, int64_t *number);

/* ---- prices ----
 *
 * The same with exactly `places` places, and with `separator` between groups of three digits of the
 * integer: of 2 places, by ',' and '.', `1,234.50` is 123450, and `999.99` is 99999. By 0 there are no
 * groups: `1234.50`. What digits_write_price_i64 writes is read back by the same `places`, `separator`
 * and `point`, if `separator` is no digit, and `point` neither a digit nor `separator`.
 *
 * DIGITS_EMPTY       no digit; `at` is where the digits end
 * DIGITS_OVERFLOW    the type hasn't the number with the digit at `at`
 * DIGITS_TOO_FINE    the digit at `at` is the first after the last place that is no zero
 * DIGITS_GROUP       the group of digits at `at` hasn't three, or as the first one not one to three:
 *                    `12,34.50` at 3, `1234.50` at 0
 * DIGITS_PLACES      the number that ends at `at` has fewer or more places: `1,234.5` at 7, `1.500` at 5
 * DIGITS_INVALID     of digits_parse_..: the byte at `at` is no part of the number
 * DIGITS_BAD_WORD    `separator` is a digit; `at` is the start
 * DIGITS_BAD_PLACES  more than 38 places; `at` is the start
 *
 * Groups are looked at first: of 2 places `12,34` is DIGITS_GROUP at 3.
 *
 * In a piece of a text read before digits_sure_end_by(text, length, word), if `point` is '.'. The word
 * is DIGITS_MAKE_WORD(10, separator, DIGITS_FLAG_INTEGER_INTERNAL).
 */

DIGITS_CALL(7)
digits_outcome digits_read_price_i64(const void *text, size_t length, size_t start, size_t places,
                                     uint8_t separator, uint8_t point, int64_t *number);
DIGITS_CALL(6)
digits_outcome digits_parse_price_i64(const void *text, size_t length, size_t places,
                                      uint8_t separator, uint8_t point, int64_t *number);

/* The same by a word: groups are between the separators that it drops. DIGITS_BAD_WORD: it isn't
 * supported or not decimal. */

DIGITS_CALL(7)
digits_outcome digits_read_price_i64_by(const void *text, size_t length, size_t start,
                                        size_t places, digits_word word, uint8_t point,
                                        int64_t *number);
DIGITS_CALL(6)
digits_outcome digits_parse_price_i64_by(const void *text, size_t length, size_t places,
                                         digits_word word, uint8_t point, int64_t *number);

/* ---- integer literals of a language ----
 *
 * As the language writes them, by a DIGITS_LANGUAGE_..: a prefix that it has, such as `0x`, and
 * digits with its separators. A sign isn't read, and what follows, such as a suffix, neither.
 *
 * DIGITS_EMPTY         no digit; `at` is where one would be
 * DIGITS_OVERFLOW      more than 128 bits, or 64; `at` is the first digit with which it is too large
 * DIGITS_FIRST_ZERO    the language refuses the first 0, as Python does in `01`; `at` is the start
 * DIGITS_BAD_LANGUAGE  no such language; `at` is the start
 *
 * A literal that ends at `length` may be cut, and no call says up to where a piece is sure: cut it
 * after a byte that no literal has, such as a line feed.
 */

DIGITS_CALL(5)
digits_outcome digits_read_literal(const void *text, size_t length, size_t start, uint32_t language,
                                   digits_literal *literal);
DIGITS_CALL(5)
digits_outcome digits_read_literal_u64(const void *text, size_t length, size_t start,
                                       uint32_t language, uint64_t *number);

/* ---- numbers of a form ----
 *
 * An integer or a float, with its sign, by the grammar of JSON: digits_read_json reads the longest
 * number of RFC 8259 that begins at the start. An integer above 128 bits is a float.
 *
 * DIGITS_EMPTY     no number; `at` is after the sign
 * DIGITS_INVALID   of digits_parse_..: the byte at `at` is no part of the number
 *
 * A number may be cut, also one that ends before `length`: "A text that comes in pieces". In a
 * piece read before digits_sure_end_of(text, length, DIGITS_FORM_JSON).
 */

DIGITS_CALL(4)
digits_outcome digits_read_json(const void *text, size_t length, size_t start,
                                digits_number *number);
DIGITS_CALL(3)
digits_outcome digits_parse_json(const void *text, size_t length, digits_number *number);

/* The same by another grammar, by a DIGITS_FORM_... By most, special values such as `inf` are floats.
 * A NaN is quiet, without a sign or a payload: its bits are 0x7ff8000000000000, also of `-nan`.
 *
 * DIGITS_OVERFLOW  the integer is above 128 bits, and the form has no such float; `at` is the first
 *                  digit with which it is too large
 * DIGITS_BAD_FORM  no such form; `at` is the start
 *
 * In a piece of a text read before digits_sure_end_of(text, length, form).
 */

DIGITS_CALL(5)
digits_outcome digits_read_number(const void *text, size_t length, size_t start, uint32_t form,
                                  digits_number *number);
DIGITS_CALL(4)
digits_outcome digits_parse_number(const void *text, size_t length, uint32_t form,
                                   digits_number *number);

/* The integer that a number is, as a value of a type: whether it is an integer, and the type has it.
 * Otherwise 0 is written. `-0` is the integer 0; `1.0` and `1e2` are floats. */

DIGITS_CALL(2)
bool digits_as_i64(const digits_number *number, int64_t *integer);
DIGITS_CALL(2)
bool digits_as_u64(const digits_number *number, uint64_t *integer);

/* ---- lists of numbers ----
 *
 * The numbers of a list, one call for all of them: as many as there is `room` for are written into
 * `numbers`, and `count` is set to how many there were. The other places aren't touched. With no
 * room `numbers` may be NULL.
 *
 * `between` is the byte between two numbers, such as ',' or ';'. Blanks may be around it: spaces,
 * tabs, line feeds, carriage returns. Two of these bytes stand for more:
 * ' '   any blanks, which may also follow the last number
 * '\n'  a line feed, which may also follow the last number, with other blanks around it
 *
 * By these two a list is over, with DIGITS_OK, where no number begins: `x` at 0, `1 x` at 2, and by
 * '\n' "1\n\n2" at 2. By another byte that is a fault, as in `1,x`.
 *
 * `between` is to be no byte that a number may have: by DIGITS_FORM_STR2DOUBLE and by
 * DIGITS_FORM_CSHARP_PARSE, whose numbers may have a `,` inside, `1,2` is one number, 12.
 *
 *     double numbers[64];
 *     size_t count, at = 0;
 *     digits_outcome list;
 *     do {
 *         list = digits_read_f64_list(text, length, at, ',', numbers, 64, &count);
 *         use(numbers, count);
 *         at = list.at;
 *     } while (list.status == DIGITS_FULL);
 *
 * DIGITS_OK    the list is over; `at` is after it and the blanks that follow, of which by '\n' a
 *              second line feed is none. Compare `at` with `length`, if nothing else may follow
 * DIGITS_FULL  there is no more room, and the list goes on at `at`: after `between`, or by ' '
 *              after the blanks. The next call says whether a number is there: `at` may be `length`
 * Any other    a number is missing where one has to be, or is refused, by this fault at `at`; those
 *              before it were read
 */

DIGITS_CALL(7)
digits_outcome digits_read_i64_list(const void *text, size_t length, size_t start, uint8_t between,
                                    int64_t *numbers, size_t room, size_t *count);
DIGITS_CALL(7)
digits_outcome digits_read_u64_list(const void *text, size_t length, size_t start, uint8_t between,
                                    uint64_t *numbers, size_t room, size_t *count);
DIGITS_CALL(7)
digits_outcome digits_read_f64_list(const void *text, size_t length, size_t start, uint8_t between,
                                    double *numbers, size_t room, size_t *count);

/* The same of numbers by a DIGITS_FORM_.., such as JSON's: by DIGITS_FORM_JSON neither `01` nor
 * `+2` nor `.5` is a number, which the calls above read. DIGITS_BAD_FORM: no such form. */

DIGITS_CALL(8)
digits_outcome digits_read_number_list(const void *text, size_t length, size_t start, uint32_t form,
                                       uint8_t between, digits_number *numbers, size_t room,
                                       size_t *count);

/* The same of a whole text, which has to be one list. Blanks may be before the first number and after
 * the last one. By ' ' and '\n' the list may be empty.
 *
 *     by ','                             by ' '
 *     " 1, 2 "   2 numbers               " 1  2\n"   2 numbers
 *     "1,"       DIGITS_EMPTY at 2       "1 "        1 number
 *     "1,2]"     DIGITS_INVALID at 3     "1 2 ]"     DIGITS_INVALID at 4
 *     ""         DIGITS_EMPTY at 0       ""          no number
 *
 * DIGITS_OK       the text is a list of `count` numbers; `at` is `length`
 * DIGITS_INVALID  the list is over before the text: the byte at `at` is no part of it
 * DIGITS_FULL     there is no more room, and one number more is at `at`
 * Any other       a number is missing where one has to be, or is refused, by this fault at `at`
 *
 * After a fault, too, `count` numbers were written: those before it.
 */

DIGITS_CALL(6)
digits_outcome digits_parse_i64_list(const void *text, size_t length, uint8_t between,
                                     int64_t *numbers, size_t room, size_t *count);
DIGITS_CALL(6)
digits_outcome digits_parse_u64_list(const void *text, size_t length, uint8_t between,
                                     uint64_t *numbers, size_t room, size_t *count);
DIGITS_CALL(6)
digits_outcome digits_parse_f64_list(const void *text, size_t length, uint8_t between,
                                     double *numbers, size_t room, size_t *count);

/* By a DIGITS_FORM_... DIGITS_BAD_FORM: no such form. */

DIGITS_CALL(7)
digits_outcome digits_parse_number_list(const void *text, size_t length, uint32_t form,
                                        uint8_t between, digits_number *numbers, size_t room,
                                        size_t *count);

/* ---- blanks, and bytes around a list ----
 *
 * Blanks are spaces, tabs, line feeds and carriage returns.
 *
 * digits_past_blanks  the first position from `start` on without a blank, or `length`; `start`
 *                     itself if it is after the end
 * digits_expect_byte  reads a byte, such as ']' or ':', which blanks may be before; `at` is after
 *                     the byte. A blank is never that byte, since it is passed: DIGITS_OTHER_BYTE
 * digits_open_list    reads the byte that opens a list, such as '[', which blanks may be before;
 *                     `at` is where the first number has to be, past blanks, or after the byte that
 *                     closes the list
 *
 * A JSON array of numbers in three calls, and one more wherever the room was full:
 *
 *     digits_number numbers[64];
 *     size_t count;
 *     digits_outcome list = digits_open_list(text, length, start, '[', ']');
 *     if (list.status == DIGITS_OK) {
 *         do {
 *             list = digits_read_number_list(text, length, list.at, DIGITS_FORM_JSON, ',', numbers,
 *                                            64, &count);
 *             use(numbers, count);
 *         } while (list.status == DIGITS_FULL);
 *         if (list.status == DIGITS_OK)
 *             list = digits_expect_byte(text, length, list.at, ']');
 *     }
 *     if (list.status == DIGITS_OK || list.status == DIGITS_CLOSED)
 *         next = list.at;   // the position after the array
 *     else
 *         fault = list.at;
 *
 * DIGITS_OK          the byte was read
 * DIGITS_CLOSED      of digits_open_list: the list is empty, and its closing byte was read too
 * DIGITS_OTHER_BYTE  another byte is at `at`, or the text ends there
 */

DIGITS_USED
size_t digits_past_blanks(const void *text, size_t length, size_t start);
DIGITS_USED
digits_outcome digits_expect_byte(const void *text, size_t length, size_t start, uint8_t byte);
DIGITS_USED
digits_outcome digits_open_list(const void *text, size_t length, size_t start, uint8_t opening,
                                uint8_t closing);

/* ---- lists in a text that comes in pieces ----
 *
 * As digits_read_.._list, of a piece of a text. What is read stays, whatever follows the piece, if
 * `between` is no byte that a number may have, such as a digit. Where it isn't sure yet the status is
 * DIGITS_MORE. With `is_last` nothing follows, and the calls answer what those of lists do. Positions
 * count from the start of the piece. With `between` ' ' a number is sure as soon as one blank follows
 * it, and `at` of DIGITS_FULL is after that blank, also with `is_last`.
 *
 * The last piece is the one for which a read gave 0 bytes: a read of a socket or a terminal often
 * gives fewer bytes than there is room for, and more of them come.
 *
 *     char text[4096];
 *     double numbers[64];
 *     size_t length = 0, count;
 *     digits_outcome list;
 *     do {
 *         const size_t more = fread(text + length, 1, sizeof text - length, file);
 *         length += more;
 *         list.at = 0;
 *         do {
 *             list = digits_read_f64_piece(text, length, list.at, ',', more == 0, numbers, 64,
 *                                          &count);
 *             use(numbers, count);
 *         } while (list.status == DIGITS_FULL);
 *         list = digits_keep(text, sizeof text, &length, list);
 *     } while (list.status == DIGITS_MORE);
 *
 * After it DIGITS_OK says that the list is over, and at the front of `text` are `length` bytes that
 * follow it. DIGITS_TOO_LONG is what digits_keep answers, below.
 *
 * DIGITS_MORE  more of the text is needed: the bytes from `at` on have to come again, with what
 *              follows them
 */

DIGITS_CALL(8)
digits_outcome digits_read_i64_piece(const void *text, size_t length, size_t start, uint8_t between,
                                     bool is_last, int64_t *numbers, size_t room, size_t *count);
DIGITS_CALL(8)
digits_outcome digits_read_u64_piece(const void *text, size_t length, size_t start, uint8_t between,
                                     bool is_last, uint64_t *numbers, size_t room, size_t *count);
DIGITS_CALL(8)
digits_outcome digits_read_f64_piece(const void *text, size_t length, size_t start, uint8_t between,
                                     bool is_last, double *numbers, size_t room, size_t *count);

/* The same of decimal numbers as integers, exactly: each times ten to the power `places`, as
 * digits_read_scaled_i64 reads them. DIGITS_BAD_PLACES: more than 38 places. */

DIGITS_CALL(9)
digits_outcome digits_read_scaled_i64_piece(const void *text, size_t length, size_t start,
                                            size_t places, uint8_t between, bool is_last,
                                            int64_t *numbers, size_t room, size_t *count);

/* The same of prices, as digits_read_price_i64 reads them: by ';' `1,234.50; 0.99`. `between` is
 * another byte than `separator`. DIGITS_BAD_WORD: `separator` is a digit. */

DIGITS_CALL(11)
digits_outcome digits_read_price_i64_piece(const void *text, size_t length, size_t start,
                                           size_t places, uint8_t separator, uint8_t point,
                                           uint8_t between, bool is_last, int64_t *numbers,
                                           size_t room, size_t *count);

/* The same by a DIGITS_FORM_... DIGITS_BAD_FORM: no such form. */

DIGITS_CALL(9)
digits_outcome digits_read_number_piece(const void *text, size_t length, size_t start,
                                        uint32_t form, uint8_t between, bool is_last,
                                        digits_number *numbers, size_t room, size_t *count);

/* What is kept of a piece, which is the first `*length` of the `room` bytes of `text`: those from
 * `list.at` on are moved to the front, and `*length` is set to their number. The answer is `list`, but
 * for two cases:
 *
 * DIGITS_TOO_LONG   in place of DIGITS_MORE: the bytes that are kept fill the room, so nothing more can
 *                   be read. A number, with the blanks around it, is as long as the room, or longer
 * DIGITS_BAD_START  `list.at` is after `*length`, or `*length` is above `room`; nothing is moved
 *
 * `at` stays what it was, a position in the piece. */

DIGITS_USED
digits_outcome digits_keep(void *text, size_t room, size_t *length, digits_outcome list);

/* ---- blocks of a text, which are read by themselves ----
 *
 * A text that is a list may be cut into blocks, and each block read by itself, in any order, on any
 * thread or machine. The answer is the first position from `at` on where a block may begin: 0, or
 * after `between`, by ' ' after a blank; if there is none, `length`. So the number in which a text is
 * cut belongs to the block that it begins in. No quotes are known: where `between` is in quotes, as in
 * CSV, a block may begin there.
 *
 *     // of four blocks the one with the number i, from 0
 *     const size_t begin = digits_block_start(text, length, length / 4 * i, '\n');
 *     const size_t end = i == 3 ? length : digits_block_start(text, length, length / 4 * (i + 1), '\n');
 *     const bool is_last = end == length;
 *
 * It is read by digits_read_i64_piece(text + begin, end - begin, 0, '\n', is_last, ..), and on from `at`
 * while that is DIGITS_FULL. Each block but the last one ends with DIGITS_MORE, at its end, unless the
 * list ends in it. So go through the blocks in their order, up to the first that ends otherwise: their
 * numbers are those of the list, which ends there, or has its fault there, at `begin` and the position
 * in the block. What later blocks have doesn't count. This holds if `between` is no byte that a number
 * may have.
 */

DIGITS_USED
size_t digits_block_start(const void *text, size_t length, size_t at, uint8_t between);

/* ---- up to where a piece is sure ----
 *
 * What a digits_read_.. without a word or a separator answers at a start before this position stays,
 * whatever follows the piece. It is after the last byte that no number has, or 0. The second serves
 * calls by a form, and is 0 if there is no such form; the third those by a word, and prices by the word
 * that has their separator, and is 0 if the word isn't supported. The point is '.'.
 */

DIGITS_USED
size_t digits_sure_end(const void *text, size_t length);
DIGITS_USED
size_t digits_sure_end_of(const void *text, size_t length, uint32_t form);
DIGITS_USED
size_t digits_sure_end_by(const void *text, size_t length, digits_word word);

/* ---- numbers that are written ----
 *
 * The text comes to the front of `out`, which has `room` bytes, and the call answers how many bytes
 * it has. No zero byte is written after it, and what is behind the text isn't touched. Where the text
 * is longer than `room`, or where there is none, the answer is 0 and nothing is written.
 *
 *     char text[DIGITS_ROOM_I64];
 *     fwrite(text, 1, digits_write_i64(text, sizeof text, number), file);
 *
 * An integer is written in decimal, with a `-` before one below 0: `-12`. Its text is the shortest
 * that digits_parse_i64 and its kind read as the number. With DIGITS_ROOM_I64 bytes, or those of the
 * other type, the answer is never 0.
 */

DIGITS_USED
size_t digits_write_i64(void *out, size_t room, int64_t value);
DIGITS_USED
size_t digits_write_u64(void *out, size_t room, uint64_t value);
DIGITS_USED
size_t digits_write_i32(void *out, size_t room, int32_t value);
DIGITS_USED
size_t digits_write_u32(void *out, size_t room, uint32_t value);

/* The same in groups of `every` digits, counted from the last one, with `separator` between them:
 * by ',' and 3 `-1,234,567`. Of 0 digits there are no groups; else there is no text where `separator`
 * is 0 or a digit. A word that drops the separator between two digits reads the number back, such as
 * DIGITS_MAKE_WORD(10, ',', DIGITS_FLAG_INTEGER_INTERNAL). */

DIGITS_USED
size_t digits_write_i64_grouped(void *out, size_t room, int64_t value, uint8_t separator,
                                uint8_t every);
DIGITS_USED
size_t digits_write_u64_grouped(void *out, size_t room, uint64_t value, uint8_t separator,
                                uint8_t every);

/* An amount in units of its last place: -1250 of 2 places is `-12.50`, and digits_parse_scaled_i64
 * with as many places reads it as -1250. Of more than 38 places there is no text.
 *
 * A price has `separator` between groups of three digits of its integer, or none by 0, and `point`
 * before its places: 123450 of 2 places by ',' and '.' is `1,234.50`, and by 0 and ',' `1234,50`.
 * digits_read_price_i64 reads it. */

DIGITS_USED
size_t digits_write_scaled_i64(void *out, size_t room, int64_t value, size_t places);
DIGITS_USED
size_t digits_write_price_i64(void *out, size_t room, int64_t value, size_t places,
                              uint8_t separator, uint8_t point);

/* The shortest text of a float: the fewest digits that are read as the float, of these the closest
 * to it, and of two as close the one whose last digit is even. digits_parse_f64 reads it as the same
 * float; a zero keeps its sign. Of an infinity and of a NaN there is no text. DIGITS_ROOM_F64 bytes
 * hold the text of every other float, so with them the answer 0 says that it isn't finite.
 *
 * The layout is the usual one: with an exponent below 1e-5 and from 1e16 on, else without, but with
 * one place at least: `0.1`, `12000.0`, `-0.0`, `1e-7`, `1e23`. It is a number of JSON. */

DIGITS_USED
size_t digits_write_f64(void *out, size_t room, double value);
DIGITS_USED
size_t digits_write_f32(void *out, size_t room, float value);

/* The same in another layout, by a DIGITS_LAYOUT_..; of another number there is no text.
 *
 *                            0.00012    1.5      12000    1e23                        -0.0
 *     DIGITS_LAYOUT_USUAL    0.00012    1.5      12000.0  1e23                        -0.0
 *     DIGITS_LAYOUT_PLAIN    0.00012    1.5      12000    100000000000000000000000    -0
 *     DIGITS_LAYOUT_EXPONENT 1.2e-4     1.5e0    1.2e4    1e23                        -0e0
 *
 * DIGITS_ROOM_F64 bytes hold the text with an exponent, too; that without one has at most 327. */

DIGITS_USED
size_t digits_write_f64_in(void *out, size_t room, double value, uint32_t layout);
DIGITS_USED
size_t digits_write_f32_in(void *out, size_t room, float value, uint32_t layout);

/* A float with a fixed number of places, as printf's `%.2f` in the locale C: rounded once from the
 * exact value, at a tie to the even digit, so that 0.125 of 2 places is `0.12`. The text has at most
 * 311 bytes and the places. Of an infinity and of a NaN there is no text. */

DIGITS_USED
size_t digits_write_f64_fixed(void *out, size_t room, double value, uint32_t places);

/* The same with one digit before the point and an exponent, by a DIGITS_EXPONENT_..: with
 * DIGITS_EXPONENT_SIGNED as printf's `%.2e` in the locale C, so that 1234.5 of 2 places is
 * `1.23e+03`, and with DIGITS_EXPONENT_SHORT `1.23e3`; of another number there is no text. The text
 * has at most 8 bytes and the places. */

DIGITS_USED
size_t digits_write_f64_scientific(void *out, size_t room, double value, uint32_t places,
                                   uint32_t exponent);

/* A number as a language or a data format has it, by a DIGITS_FORM_..: digits_parse_number by the
 * form reads the text as this number. A float has the digits of digits_write_f64, laid out so that
 * the form reads it as a float:
 *
 *                             0.5    2.0    1e16      -3.0    inf     nan
 *     DIGITS_FORM_JSON        0.5    2.0    1e16      -3.0    none    none
 *     DIGITS_FORM_TOML        0.5    2.0    1e16      -3.0    inf     nan
 *     DIGITS_FORM_YAML        0.5    2.0    1e16      -3.0    .inf    .nan
 *     DIGITS_FORM_ERLANG      0.5    2.0    1.0e16    none    none    none
 *
 * There is no text where the form has no such number, as JSON no NaN and source code none below 0,
 * or where no form has this number. 328 bytes hold every text. */

DIGITS_USED
size_t digits_write_f64_of(void *out, size_t room, double value, uint32_t form);
DIGITS_USED
size_t digits_write_i64_of(void *out, size_t room, int64_t value, uint32_t form);

/* ---- what calls are told ---- */

/* names: from the sources, by c/constants */
/* The room for the longest text of a type. */
#define DIGITS_ROOM_I64 20 /* The room that the longest text of an i64 takes: -9223372036854775808 */
#define DIGITS_ROOM_U64 20 /* That of a u64: 18446744073709551615 */
#define DIGITS_ROOM_I32 11 /* That of an i32: -2147483648 */
#define DIGITS_ROOM_U32 10 /* That of a u32: 4294967295 */
#define DIGITS_ROOM_F64 24 /* The room that the usual text of an f64 takes, and that with an exponent */
#define DIGITS_ROOM_F32 24 /* The same of an f32 */

/* How a float is laid out. */
#define DIGITS_LAYOUT_USUAL 0 /* As JSON has it: with an exponent below 1e-5 and from 1e16 on, else with one place at least */
#define DIGITS_LAYOUT_PLAIN 1 /* Without an exponent: 0.00012, 1.5, 12000 */
#define DIGITS_LAYOUT_EXPONENT 2 /* With an exponent: 1.2e-4, 1.5e0 */

/* How an exponent is written. */
#define DIGITS_EXPONENT_SIGNED 0 /* As C's %e: with a sign and two digits at least, 1.5e+00 */
#define DIGITS_EXPONENT_SHORT 1 /* Short: 1.5e0 */

/* Forms: docs/reference/digit_numbers.md. */
#define DIGITS_FORM_LITERAL 0 /* The simplest form of source code: decimal digits without a sign, with a point or an exponent if they are a float */
#define DIGITS_FORM_FLOAT 1 /* The simplest form of data: -1.5e3, +1, 01, .5 and 5., all of them floats */
#define DIGITS_FORM_RUST 2 /* Rust's source code */
#define DIGITS_FORM_C89 3 /* C's source code before C99, and C++'s before C++14 */
#define DIGITS_FORM_C99 4 /* C's source code from C99 up to C18, and Objective-C's */
#define DIGITS_FORM_CXX14 5 /* C++14's source code */
#define DIGITS_FORM_CXX17 6 /* C++17 and C23 */
#define DIGITS_FORM_JAVA 7 /* Java's source code */
#define DIGITS_FORM_KOTLIN 8 /* Kotlin's source code */
#define DIGITS_FORM_SCALA 9 /* Scala's source code from 2.13 on */
#define DIGITS_FORM_CSHARP 10 /* C#'s source code, by its standard */
#define DIGITS_FORM_FSHARP 11 /* F#'s source code, by its grammar */
#define DIGITS_FORM_GO 12 /* Go's source code */
#define DIGITS_FORM_D 13 /* D's source code */
#define DIGITS_FORM_SWIFT 14 /* Swift's source code */
#define DIGITS_FORM_NIM 15 /* Nim's source code */
#define DIGITS_FORM_ADA 16 /* Ada's source code, except for a radix and # */
#define DIGITS_FORM_COBOL 17 /* COBOL's source code */
#define DIGITS_FORM_FORTRAN 18 /* Fortran's source code */
#define DIGITS_FORM_PYTHON 19 /* Python's source code */
#define DIGITS_FORM_RUBY 20 /* Ruby's source code, except for the prefix 0d */
#define DIGITS_FORM_PERL 21 /* Perl's source code, except for floats in binary or octal digits */
#define DIGITS_FORM_PHP 22 /* PHP's source code */
#define DIGITS_FORM_LUA 23 /* Lua's source code */
#define DIGITS_FORM_R 24 /* R's source code */
#define DIGITS_FORM_OCTAVE 25 /* Octave's source code */
#define DIGITS_FORM_MATLAB 26 /* MATLAB's source code, by its documentation: as Octave's, without separators */
#define DIGITS_FORM_ERLANG 27 /* Erlang's source code, except for a radix and # */
#define DIGITS_FORM_ELIXIR 28 /* Elixir's source code */
#define DIGITS_FORM_HASKELL 29 /* Haskell's source code with GHC's extensions NumericUnderscores and BinaryLiterals, for 1_0 and 0b1, and without a third, for hexadecimal floats */
#define DIGITS_FORM_SCHEME 30 /* Scheme's source code, as Guile reads it, except for ratios, #x, and the marks s, f, l */
#define DIGITS_FORM_OCAML 31 /* OCaml's source code */
#define DIGITS_FORM_JAVASCRIPT 32 /* JavaScript's source code, in strict mode and in modules */
#define DIGITS_FORM_COFFEESCRIPT 33 /* CoffeeScript's source code */
#define DIGITS_FORM_POSTGRESQL 34 /* PostgreSQL's SQL up to version 15 */
#define DIGITS_FORM_SQLITE 35 /* SQLite's SQL before 3.46 */
#define DIGITS_FORM_MYSQL 36 /* The SQL of MySQL and MariaDB */
#define DIGITS_FORM_HCL 37 /* HCL, of Terraform */
#define DIGITS_FORM_JSON 38 /* JSON, by RFC 8259 */
#define DIGITS_FORM_JSON_FLOATS 39 /* JSON, of which every number is a float */
#define DIGITS_FORM_JSON5 40 /* JSON5 */
#define DIGITS_FORM_YAML 41 /* YAML, by the core schema of 1.2 */
#define DIGITS_FORM_TOML 42 /* TOML 1.0 */
#define DIGITS_FORM_EDN 43 /* EDN, and Clojure's source code, except for ratios, a radix and r, and M */
#define DIGITS_FORM_CSS 44 /* CSS, and SVG 2 */
#define DIGITS_FORM_DECIMAL 45 /* A decimal number without an exponent: XML Schema's decimal, COBOL's NUMVAL, amounts in CSV */
#define DIGITS_FORM_XML_DOUBLE 46 /* XML Schema's double and float, by 1.0; by 1.1 +INF is one too */
#define DIGITS_FORM_PROMETHEUS 47 /* Prometheus, and OpenMetrics */
#define DIGITS_FORM_PROTOBUF_TEXT 48 /* Protobuf's text format */
#define DIGITS_FORM_STRTOD 49 /* What C's strtod takes in the locale C, without blanks before it and what follows nan in parentheses */
#define DIGITS_FORM_FROM_CHARS 50 /* What C++'s std::from_chars takes for a float, without what follows nan in parentheses */
#define DIGITS_FORM_RUST_PARSE 51 /* What Rust's str::parse::<f64> takes */
#define DIGITS_FORM_PYTHON_FLOAT 52 /* What Python's float takes, without blanks around it and digits beyond ASCII */
#define DIGITS_FORM_JAVA_PARSE_DOUBLE 53 /* What Java's Double.parseDouble takes, without blanks around it and a suffix such as d */
#define DIGITS_FORM_GO_PARSE_FLOAT 54 /* What Go's strconv.ParseFloat takes */
#define DIGITS_FORM_CSHARP_PARSE 55 /* What C#'s double.Parse takes, as Mono has it, without blanks around it */
#define DIGITS_FORM_RUBY_FLOAT 56 /* What Ruby's Float takes, without blanks around it */
#define DIGITS_FORM_LUA_TONUMBER 57 /* What Lua's tonumber takes, without blanks around it */
#define DIGITS_FORM_JAVASCRIPT_NUMBER 58 /* What JavaScript's Number takes, without blanks around it */
#define DIGITS_FORM_JAVASCRIPT_PARSE_FLOAT 59 /* What JavaScript's parseFloat takes, without blanks before it */
#define DIGITS_FORM_POSTGRESQL_NUMERIC 60 /* What PostgreSQL's ::numeric takes up to version 15, without blanks around it */
#define DIGITS_FORM_FORTRAN_READ 61 /* What Fortran's read takes by the edit descriptor F, without blanks */
#define DIGITS_FORM_STR2DOUBLE 62 /* What Octave's and MATLAB's str2double take for a real number, without blanks */

/* Languages of literals: docs/RULES.md. */
#define DIGITS_LANGUAGE_RUST 0
#define DIGITS_LANGUAGE_CXX14 1
#define DIGITS_LANGUAGE_PYTHON 2
#define DIGITS_LANGUAGE_GO 3
#define DIGITS_LANGUAGE_JAVA 4
#define DIGITS_LANGUAGE_CSHARP 5
#define DIGITS_LANGUAGE_JAVASCRIPT 6
#define DIGITS_LANGUAGE_KOTLIN 7
#define DIGITS_LANGUAGE_SWIFT 8
#define DIGITS_LANGUAGE_RUBY 9
#define DIGITS_LANGUAGE_PERL 10
#define DIGITS_LANGUAGE_PHP 11
#define DIGITS_LANGUAGE_JULIA 12
#define DIGITS_LANGUAGE_OCAML 13
#define DIGITS_LANGUAGE_FSHARP 14
#define DIGITS_LANGUAGE_HASKELL 15
#define DIGITS_LANGUAGE_ZIG 16
#define DIGITS_LANGUAGE_ELIXIR 17
#define DIGITS_LANGUAGE_TOML 18
#define DIGITS_LANGUAGE_JSON_NUMBER 19
#define DIGITS_LANGUAGE_DIGITS 20
#define DIGITS_LANGUAGE_HEX_DIGITS 21
#define DIGITS_LANGUAGE_C 22
#define DIGITS_LANGUAGE_SCALA 23
#define DIGITS_LANGUAGE_ERLANG 24
#define DIGITS_LANGUAGE_D 25

/* Flags of a format word: where a component drops separators. */
#define DIGITS_FLAG_INTEGER_INTERNAL UINT64_C(0x100000000)
#define DIGITS_FLAG_FRACTION_INTERNAL UINT64_C(0x200000000)
#define DIGITS_FLAG_EXPONENT_INTERNAL UINT64_C(0x400000000)
#define DIGITS_FLAG_INTEGER_LEADING UINT64_C(0x800000000)
#define DIGITS_FLAG_FRACTION_LEADING UINT64_C(0x1000000000)
#define DIGITS_FLAG_EXPONENT_LEADING UINT64_C(0x2000000000)
#define DIGITS_FLAG_INTEGER_TRAILING UINT64_C(0x4000000000)
#define DIGITS_FLAG_FRACTION_TRAILING UINT64_C(0x8000000000)
#define DIGITS_FLAG_EXPONENT_TRAILING UINT64_C(0x10000000000)
#define DIGITS_FLAG_INTEGER_CONSECUTIVE UINT64_C(0x20000000000)
#define DIGITS_FLAG_FRACTION_CONSECUTIVE UINT64_C(0x40000000000)
#define DIGITS_FLAG_EXPONENT_CONSECUTIVE UINT64_C(0x80000000000)
#define DIGITS_FLAG_SPECIAL UINT64_C(0x100000000000)

/* Format words with a name: docs/RULES.md. */
#define DIGITS_INIT_STANDARD {UINT64_C(0x0), UINT64_C(0xa0000000000)}
#define DIGITS_WORD_STANDARD (DIGITS_VALUE DIGITS_INIT_STANDARD)
#define DIGITS_INIT_HEXADECIMAL {UINT64_C(0x0), UINT64_C(0x100000000000)}
#define DIGITS_WORD_HEXADECIMAL (DIGITS_VALUE DIGITS_INIT_HEXADECIMAL)
#define DIGITS_INIT_HEXADECIMAL_FLOAT {UINT64_C(0x0), UINT64_C(0xa00100000000000)}
#define DIGITS_WORD_HEXADECIMAL_FLOAT (DIGITS_VALUE DIGITS_INIT_HEXADECIMAL_FLOAT)
#define DIGITS_INIT_OCTAL {UINT64_C(0x0), UINT64_C(0x80000000000)}
#define DIGITS_WORD_OCTAL (DIGITS_VALUE DIGITS_INIT_OCTAL)
#define DIGITS_INIT_BINARY {UINT64_C(0x0), UINT64_C(0x20000000000)}
#define DIGITS_WORD_BINARY (DIGITS_VALUE DIGITS_INIT_BINARY)
#define DIGITS_INIT_RUST_LITERAL {UINT64_C(0xfe700000000), UINT64_C(0xa000000005f)}
#define DIGITS_WORD_RUST_LITERAL (DIGITS_VALUE DIGITS_INIT_RUST_LITERAL)
#define DIGITS_INIT_RUST_HEX_LITERAL {UINT64_C(0x24900000000), UINT64_C(0x10000000005f)}
#define DIGITS_WORD_RUST_HEX_LITERAL (DIGITS_VALUE DIGITS_INIT_RUST_HEX_LITERAL)
#define DIGITS_INIT_RUST_OCTAL_LITERAL {UINT64_C(0x24900000000), UINT64_C(0x8000000005f)}
#define DIGITS_WORD_RUST_OCTAL_LITERAL (DIGITS_VALUE DIGITS_INIT_RUST_OCTAL_LITERAL)
#define DIGITS_INIT_RUST_BINARY_LITERAL {UINT64_C(0x24900000000), UINT64_C(0x2000000005f)}
#define DIGITS_WORD_RUST_BINARY_LITERAL (DIGITS_VALUE DIGITS_INIT_RUST_BINARY_LITERAL)
#define DIGITS_INIT_CXX14_LITERAL {UINT64_C(0x700000000), UINT64_C(0xa0000000027)}
#define DIGITS_WORD_CXX14_LITERAL (DIGITS_VALUE DIGITS_INIT_CXX14_LITERAL)
#define DIGITS_INIT_CXX14_HEX_LITERAL {UINT64_C(0x700000000), UINT64_C(0xa00100000000027)}
#define DIGITS_WORD_CXX14_HEX_LITERAL (DIGITS_VALUE DIGITS_INIT_CXX14_HEX_LITERAL)
#define DIGITS_INIT_CXX14_OCTAL_LITERAL {UINT64_C(0x100000000), UINT64_C(0x80000000027)}
#define DIGITS_WORD_CXX14_OCTAL_LITERAL (DIGITS_VALUE DIGITS_INIT_CXX14_OCTAL_LITERAL)
#define DIGITS_INIT_CXX14_BINARY_LITERAL {UINT64_C(0x100000000), UINT64_C(0x20000000027)}
#define DIGITS_WORD_CXX14_BINARY_LITERAL (DIGITS_VALUE DIGITS_INIT_CXX14_BINARY_LITERAL)
#define DIGITS_INIT_PYTHON_LITERAL {UINT64_C(0x700000000), UINT64_C(0xa000000005f)}
#define DIGITS_WORD_PYTHON_LITERAL (DIGITS_VALUE DIGITS_INIT_PYTHON_LITERAL)
#define DIGITS_INIT_PYTHON_HEX_LITERAL {UINT64_C(0x900000000), UINT64_C(0x10000000005f)}
#define DIGITS_WORD_PYTHON_HEX_LITERAL (DIGITS_VALUE DIGITS_INIT_PYTHON_HEX_LITERAL)
#define DIGITS_INIT_PYTHON_OCTAL_LITERAL {UINT64_C(0x900000000), UINT64_C(0x8000000005f)}
#define DIGITS_WORD_PYTHON_OCTAL_LITERAL (DIGITS_VALUE DIGITS_INIT_PYTHON_OCTAL_LITERAL)
#define DIGITS_INIT_PYTHON_BINARY_LITERAL {UINT64_C(0x900000000), UINT64_C(0x2000000005f)}
#define DIGITS_WORD_PYTHON_BINARY_LITERAL (DIGITS_VALUE DIGITS_INIT_PYTHON_BINARY_LITERAL)
#define DIGITS_INIT_TOML {UINT64_C(0x700000000), UINT64_C(0xa000000005f)}
#define DIGITS_WORD_TOML (DIGITS_VALUE DIGITS_INIT_TOML)
#define DIGITS_INIT_TOML_HEX {UINT64_C(0x100000000), UINT64_C(0x10000000005f)}
#define DIGITS_WORD_TOML_HEX (DIGITS_VALUE DIGITS_INIT_TOML_HEX)
#define DIGITS_INIT_TOML_OCTAL {UINT64_C(0x100000000), UINT64_C(0x8000000005f)}
#define DIGITS_WORD_TOML_OCTAL (DIGITS_VALUE DIGITS_INIT_TOML_OCTAL)
#define DIGITS_INIT_TOML_BINARY {UINT64_C(0x100000000), UINT64_C(0x2000000005f)}
#define DIGITS_WORD_TOML_BINARY (DIGITS_VALUE DIGITS_INIT_TOML_BINARY)
#define DIGITS_INIT_JAVA_LITERAL {UINT64_C(0xe0700000000), UINT64_C(0xa000000005f)}
#define DIGITS_WORD_JAVA_LITERAL (DIGITS_VALUE DIGITS_INIT_JAVA_LITERAL)
#define DIGITS_INIT_JAVA_HEX_LITERAL {UINT64_C(0xe0700000000), UINT64_C(0xa0010000000005f)}
#define DIGITS_WORD_JAVA_HEX_LITERAL (DIGITS_VALUE DIGITS_INIT_JAVA_HEX_LITERAL)
#define DIGITS_INIT_JAVA_OCTAL_LITERAL {UINT64_C(0x20100000000), UINT64_C(0x8000000005f)}
#define DIGITS_WORD_JAVA_OCTAL_LITERAL (DIGITS_VALUE DIGITS_INIT_JAVA_OCTAL_LITERAL)
#define DIGITS_INIT_JAVA_BINARY_LITERAL {UINT64_C(0x20100000000), UINT64_C(0x2000000005f)}
#define DIGITS_WORD_JAVA_BINARY_LITERAL (DIGITS_VALUE DIGITS_INIT_JAVA_BINARY_LITERAL)
#define DIGITS_INIT_CSHARP_LITERAL {UINT64_C(0xe0700000000), UINT64_C(0xa000000005f)}
#define DIGITS_WORD_CSHARP_LITERAL (DIGITS_VALUE DIGITS_INIT_CSHARP_LITERAL)
#define DIGITS_INIT_CSHARP_HEX_LITERAL {UINT64_C(0x20900000000), UINT64_C(0x10000000005f)}
#define DIGITS_WORD_CSHARP_HEX_LITERAL (DIGITS_VALUE DIGITS_INIT_CSHARP_HEX_LITERAL)
#define DIGITS_INIT_CSHARP_BINARY_LITERAL {UINT64_C(0x20900000000), UINT64_C(0x2000000005f)}
#define DIGITS_WORD_CSHARP_BINARY_LITERAL (DIGITS_VALUE DIGITS_INIT_CSHARP_BINARY_LITERAL)
#define DIGITS_INIT_GO_LITERAL {UINT64_C(0x700000000), UINT64_C(0xa000000005f)}
#define DIGITS_WORD_GO_LITERAL (DIGITS_VALUE DIGITS_INIT_GO_LITERAL)
#define DIGITS_INIT_GO_HEX_LITERAL {UINT64_C(0xf00000000), UINT64_C(0xa0010000000005f)}
#define DIGITS_WORD_GO_HEX_LITERAL (DIGITS_VALUE DIGITS_INIT_GO_HEX_LITERAL)
#define DIGITS_INIT_GO_OCTAL_LITERAL {UINT64_C(0x900000000), UINT64_C(0x8000000005f)}
#define DIGITS_WORD_GO_OCTAL_LITERAL (DIGITS_VALUE DIGITS_INIT_GO_OCTAL_LITERAL)
#define DIGITS_INIT_GO_BINARY_LITERAL {UINT64_C(0x900000000), UINT64_C(0x2000000005f)}
#define DIGITS_WORD_GO_BINARY_LITERAL (DIGITS_VALUE DIGITS_INIT_GO_BINARY_LITERAL)
#define DIGITS_INIT_JAVASCRIPT_LITERAL {UINT64_C(0x700000000), UINT64_C(0xa000000005f)}
#define DIGITS_WORD_JAVASCRIPT_LITERAL (DIGITS_VALUE DIGITS_INIT_JAVASCRIPT_LITERAL)
#define DIGITS_INIT_JAVASCRIPT_HEX_LITERAL {UINT64_C(0x100000000), UINT64_C(0x10000000005f)}
#define DIGITS_WORD_JAVASCRIPT_HEX_LITERAL (DIGITS_VALUE DIGITS_INIT_JAVASCRIPT_HEX_LITERAL)
#define DIGITS_INIT_JAVASCRIPT_OCTAL_LITERAL {UINT64_C(0x100000000), UINT64_C(0x8000000005f)}
#define DIGITS_WORD_JAVASCRIPT_OCTAL_LITERAL (DIGITS_VALUE DIGITS_INIT_JAVASCRIPT_OCTAL_LITERAL)
#define DIGITS_INIT_JAVASCRIPT_BINARY_LITERAL {UINT64_C(0x100000000), UINT64_C(0x2000000005f)}
#define DIGITS_WORD_JAVASCRIPT_BINARY_LITERAL (DIGITS_VALUE DIGITS_INIT_JAVASCRIPT_BINARY_LITERAL)
#define DIGITS_INIT_KOTLIN_LITERAL {UINT64_C(0xe0700000000), UINT64_C(0xa000000005f)}
#define DIGITS_WORD_KOTLIN_LITERAL (DIGITS_VALUE DIGITS_INIT_KOTLIN_LITERAL)
#define DIGITS_INIT_KOTLIN_HEX_LITERAL {UINT64_C(0x20100000000), UINT64_C(0x10000000005f)}
#define DIGITS_WORD_KOTLIN_HEX_LITERAL (DIGITS_VALUE DIGITS_INIT_KOTLIN_HEX_LITERAL)
#define DIGITS_INIT_KOTLIN_BINARY_LITERAL {UINT64_C(0x20100000000), UINT64_C(0x2000000005f)}
#define DIGITS_WORD_KOTLIN_BINARY_LITERAL (DIGITS_VALUE DIGITS_INIT_KOTLIN_BINARY_LITERAL)
#define DIGITS_INIT_SWIFT_LITERAL {UINT64_C(0xfc700000000), UINT64_C(0xa000000005f)}
#define DIGITS_WORD_SWIFT_LITERAL (DIGITS_VALUE DIGITS_INIT_SWIFT_LITERAL)
#define DIGITS_INIT_SWIFT_HEX_LITERAL {UINT64_C(0xfc700000000), UINT64_C(0xa0010000000005f)}
#define DIGITS_WORD_SWIFT_HEX_LITERAL (DIGITS_VALUE DIGITS_INIT_SWIFT_HEX_LITERAL)
#define DIGITS_INIT_SWIFT_OCTAL_LITERAL {UINT64_C(0x24100000000), UINT64_C(0x8000000005f)}
#define DIGITS_WORD_SWIFT_OCTAL_LITERAL (DIGITS_VALUE DIGITS_INIT_SWIFT_OCTAL_LITERAL)
#define DIGITS_INIT_SWIFT_BINARY_LITERAL {UINT64_C(0x24100000000), UINT64_C(0x2000000005f)}
#define DIGITS_WORD_SWIFT_BINARY_LITERAL (DIGITS_VALUE DIGITS_INIT_SWIFT_BINARY_LITERAL)
#define DIGITS_INIT_OCTAVE_LITERAL {UINT64_C(0xfc700000000), UINT64_C(0xa000000005f)}
#define DIGITS_WORD_OCTAVE_LITERAL (DIGITS_VALUE DIGITS_INIT_OCTAVE_LITERAL)
#define DIGITS_INIT_OCTAVE_HEX_LITERAL {UINT64_C(0x24100000000), UINT64_C(0x10000000005f)}
#define DIGITS_WORD_OCTAVE_HEX_LITERAL (DIGITS_VALUE DIGITS_INIT_OCTAVE_HEX_LITERAL)
#define DIGITS_INIT_OCTAVE_BINARY_LITERAL {UINT64_C(0x24100000000), UINT64_C(0x2000000005f)}
#define DIGITS_WORD_OCTAVE_BINARY_LITERAL (DIGITS_VALUE DIGITS_INIT_OCTAVE_BINARY_LITERAL)
#define DIGITS_INIT_RUBY_LITERAL {UINT64_C(0x700000000), UINT64_C(0xa000000005f)}
#define DIGITS_WORD_RUBY_LITERAL (DIGITS_VALUE DIGITS_INIT_RUBY_LITERAL)
#define DIGITS_INIT_RUBY_HEX_LITERAL {UINT64_C(0x100000000), UINT64_C(0x10000000005f)}
#define DIGITS_WORD_RUBY_HEX_LITERAL (DIGITS_VALUE DIGITS_INIT_RUBY_HEX_LITERAL)
#define DIGITS_INIT_RUBY_OCTAL_LITERAL {UINT64_C(0x100000000), UINT64_C(0x8000000005f)}
#define DIGITS_WORD_RUBY_OCTAL_LITERAL (DIGITS_VALUE DIGITS_INIT_RUBY_OCTAL_LITERAL)
#define DIGITS_INIT_RUBY_BINARY_LITERAL {UINT64_C(0x100000000), UINT64_C(0x2000000005f)}
#define DIGITS_WORD_RUBY_BINARY_LITERAL (DIGITS_VALUE DIGITS_INIT_RUBY_BINARY_LITERAL)
#define DIGITS_INIT_PERL_LITERAL {UINT64_C(0xff700000000), UINT64_C(0xa000000005f)}
#define DIGITS_WORD_PERL_LITERAL (DIGITS_VALUE DIGITS_INIT_PERL_LITERAL)
#define DIGITS_INIT_PERL_HEX_LITERAL {UINT64_C(0xfcf00000000), UINT64_C(0xa0010000000005f)}
#define DIGITS_WORD_PERL_HEX_LITERAL (DIGITS_VALUE DIGITS_INIT_PERL_HEX_LITERAL)
#define DIGITS_INIT_PERL_OCTAL_LITERAL {UINT64_C(0xfcf00000000), UINT64_C(0xa0008000000005f)}
#define DIGITS_WORD_PERL_OCTAL_LITERAL (DIGITS_VALUE DIGITS_INIT_PERL_OCTAL_LITERAL)
#define DIGITS_INIT_PERL_BINARY_LITERAL {UINT64_C(0xfcf00000000), UINT64_C(0xa0002000000005f)}
#define DIGITS_WORD_PERL_BINARY_LITERAL (DIGITS_VALUE DIGITS_INIT_PERL_BINARY_LITERAL)
#define DIGITS_INIT_PHP_LITERAL {UINT64_C(0x700000000), UINT64_C(0xa000000005f)}
#define DIGITS_WORD_PHP_LITERAL (DIGITS_VALUE DIGITS_INIT_PHP_LITERAL)
#define DIGITS_INIT_PHP_HEX_LITERAL {UINT64_C(0x100000000), UINT64_C(0x10000000005f)}
#define DIGITS_WORD_PHP_HEX_LITERAL (DIGITS_VALUE DIGITS_INIT_PHP_HEX_LITERAL)
#define DIGITS_INIT_PHP_OCTAL_LITERAL {UINT64_C(0x100000000), UINT64_C(0x8000000005f)}
#define DIGITS_WORD_PHP_OCTAL_LITERAL (DIGITS_VALUE DIGITS_INIT_PHP_OCTAL_LITERAL)
#define DIGITS_INIT_PHP_BINARY_LITERAL {UINT64_C(0x100000000), UINT64_C(0x2000000005f)}
#define DIGITS_WORD_PHP_BINARY_LITERAL (DIGITS_VALUE DIGITS_INIT_PHP_BINARY_LITERAL)
#define DIGITS_INIT_JULIA_LITERAL {UINT64_C(0x300000000), UINT64_C(0xa000000005f)}
#define DIGITS_WORD_JULIA_LITERAL (DIGITS_VALUE DIGITS_INIT_JULIA_LITERAL)
#define DIGITS_INIT_JULIA_HEX_LITERAL {UINT64_C(0x300000000), UINT64_C(0xa0010000000005f)}
#define DIGITS_WORD_JULIA_HEX_LITERAL (DIGITS_VALUE DIGITS_INIT_JULIA_HEX_LITERAL)
#define DIGITS_INIT_JULIA_OCTAL_LITERAL {UINT64_C(0x100000000), UINT64_C(0x8000000005f)}
#define DIGITS_WORD_JULIA_OCTAL_LITERAL (DIGITS_VALUE DIGITS_INIT_JULIA_OCTAL_LITERAL)
#define DIGITS_INIT_JULIA_BINARY_LITERAL {UINT64_C(0x100000000), UINT64_C(0x2000000005f)}
#define DIGITS_WORD_JULIA_BINARY_LITERAL (DIGITS_VALUE DIGITS_INIT_JULIA_BINARY_LITERAL)
#define DIGITS_INIT_D_LITERAL {UINT64_C(0xfe700000000), UINT64_C(0xa000000005f)}
#define DIGITS_WORD_D_LITERAL (DIGITS_VALUE DIGITS_INIT_D_LITERAL)
#define DIGITS_INIT_D_HEX_LITERAL {UINT64_C(0xfef00000000), UINT64_C(0xa0010000000005f)}
#define DIGITS_WORD_D_HEX_LITERAL (DIGITS_VALUE DIGITS_INIT_D_HEX_LITERAL)
#define DIGITS_INIT_D_BINARY_LITERAL {UINT64_C(0x24900000000), UINT64_C(0x2000000005f)}
#define DIGITS_WORD_D_BINARY_LITERAL (DIGITS_VALUE DIGITS_INIT_D_BINARY_LITERAL)
#define DIGITS_INIT_OCAML_LITERAL {UINT64_C(0xfd700000000), UINT64_C(0xa000000005f)}
#define DIGITS_WORD_OCAML_LITERAL (DIGITS_VALUE DIGITS_INIT_OCAML_LITERAL)
#define DIGITS_INIT_OCAML_HEX_LITERAL {UINT64_C(0xfd700000000), UINT64_C(0xa0010000000005f)}
#define DIGITS_WORD_OCAML_HEX_LITERAL (DIGITS_VALUE DIGITS_INIT_OCAML_HEX_LITERAL)
#define DIGITS_INIT_OCAML_OCTAL_LITERAL {UINT64_C(0x24100000000), UINT64_C(0x8000000005f)}
#define DIGITS_WORD_OCAML_OCTAL_LITERAL (DIGITS_VALUE DIGITS_INIT_OCAML_OCTAL_LITERAL)
#define DIGITS_INIT_OCAML_BINARY_LITERAL {UINT64_C(0x24100000000), UINT64_C(0x2000000005f)}
#define DIGITS_WORD_OCAML_BINARY_LITERAL (DIGITS_VALUE DIGITS_INIT_OCAML_BINARY_LITERAL)
#define DIGITS_INIT_FSHARP_LITERAL {UINT64_C(0xe0700000000), UINT64_C(0xa000000005f)}
#define DIGITS_WORD_FSHARP_LITERAL (DIGITS_VALUE DIGITS_INIT_FSHARP_LITERAL)
#define DIGITS_INIT_FSHARP_HEX_LITERAL {UINT64_C(0x20100000000), UINT64_C(0x10000000005f)}
#define DIGITS_WORD_FSHARP_HEX_LITERAL (DIGITS_VALUE DIGITS_INIT_FSHARP_HEX_LITERAL)
#define DIGITS_INIT_FSHARP_OCTAL_LITERAL {UINT64_C(0x20100000000), UINT64_C(0x8000000005f)}
#define DIGITS_WORD_FSHARP_OCTAL_LITERAL (DIGITS_VALUE DIGITS_INIT_FSHARP_OCTAL_LITERAL)
#define DIGITS_INIT_FSHARP_BINARY_LITERAL {UINT64_C(0x20100000000), UINT64_C(0x2000000005f)}
#define DIGITS_WORD_FSHARP_BINARY_LITERAL (DIGITS_VALUE DIGITS_INIT_FSHARP_BINARY_LITERAL)
#define DIGITS_INIT_HASKELL_LITERAL {UINT64_C(0xe0700000000), UINT64_C(0xa000000005f)}
#define DIGITS_WORD_HASKELL_LITERAL (DIGITS_VALUE DIGITS_INIT_HASKELL_LITERAL)
#define DIGITS_INIT_HASKELL_HEX_LITERAL {UINT64_C(0xe0f00000000), UINT64_C(0xa0010000000005f)}
#define DIGITS_WORD_HASKELL_HEX_LITERAL (DIGITS_VALUE DIGITS_INIT_HASKELL_HEX_LITERAL)
#define DIGITS_INIT_HASKELL_OCTAL_LITERAL {UINT64_C(0x20900000000), UINT64_C(0x8000000005f)}
#define DIGITS_WORD_HASKELL_OCTAL_LITERAL (DIGITS_VALUE DIGITS_INIT_HASKELL_OCTAL_LITERAL)
#define DIGITS_INIT_HASKELL_BINARY_LITERAL {UINT64_C(0x20900000000), UINT64_C(0x2000000005f)}
#define DIGITS_WORD_HASKELL_BINARY_LITERAL (DIGITS_VALUE DIGITS_INIT_HASKELL_BINARY_LITERAL)
#define DIGITS_INIT_SCALA_LITERAL {UINT64_C(0xe0700000000), UINT64_C(0xa000000005f)}
#define DIGITS_WORD_SCALA_LITERAL (DIGITS_VALUE DIGITS_INIT_SCALA_LITERAL)
#define DIGITS_INIT_SCALA_HEX_LITERAL {UINT64_C(0x20100000000), UINT64_C(0x10000000005f)}
#define DIGITS_WORD_SCALA_HEX_LITERAL (DIGITS_VALUE DIGITS_INIT_SCALA_HEX_LITERAL)
#define DIGITS_INIT_ZIG_LITERAL {UINT64_C(0x700000000), UINT64_C(0xa000000005f)}
#define DIGITS_WORD_ZIG_LITERAL (DIGITS_VALUE DIGITS_INIT_ZIG_LITERAL)
#define DIGITS_INIT_ZIG_HEX_LITERAL {UINT64_C(0x700000000), UINT64_C(0xa0010000000005f)}
#define DIGITS_WORD_ZIG_HEX_LITERAL (DIGITS_VALUE DIGITS_INIT_ZIG_HEX_LITERAL)
#define DIGITS_INIT_ZIG_OCTAL_LITERAL {UINT64_C(0x100000000), UINT64_C(0x8000000005f)}
#define DIGITS_WORD_ZIG_OCTAL_LITERAL (DIGITS_VALUE DIGITS_INIT_ZIG_OCTAL_LITERAL)
#define DIGITS_INIT_ZIG_BINARY_LITERAL {UINT64_C(0x100000000), UINT64_C(0x2000000005f)}
#define DIGITS_WORD_ZIG_BINARY_LITERAL (DIGITS_VALUE DIGITS_INIT_ZIG_BINARY_LITERAL)
#define DIGITS_INIT_ADA_LITERAL {UINT64_C(0x700000000), UINT64_C(0xa000000005f)}
#define DIGITS_WORD_ADA_LITERAL (DIGITS_VALUE DIGITS_INIT_ADA_LITERAL)
#define DIGITS_INIT_ADA_HEX_LITERAL {UINT64_C(0x700000000), UINT64_C(0xa0010000000005f)}
#define DIGITS_WORD_ADA_HEX_LITERAL (DIGITS_VALUE DIGITS_INIT_ADA_HEX_LITERAL)
#define DIGITS_INIT_ADA_OCTAL_LITERAL {UINT64_C(0x700000000), UINT64_C(0xa0008000000005f)}
#define DIGITS_WORD_ADA_OCTAL_LITERAL (DIGITS_VALUE DIGITS_INIT_ADA_OCTAL_LITERAL)
#define DIGITS_INIT_ADA_BINARY_LITERAL {UINT64_C(0x700000000), UINT64_C(0xa0002000000005f)}
#define DIGITS_WORD_ADA_BINARY_LITERAL (DIGITS_VALUE DIGITS_INIT_ADA_BINARY_LITERAL)
#define DIGITS_INIT_ELIXIR_LITERAL {UINT64_C(0x700000000), UINT64_C(0xa000000005f)}
#define DIGITS_WORD_ELIXIR_LITERAL (DIGITS_VALUE DIGITS_INIT_ELIXIR_LITERAL)
#define DIGITS_INIT_ELIXIR_HEX_LITERAL {UINT64_C(0x100000000), UINT64_C(0x10000000005f)}
#define DIGITS_WORD_ELIXIR_HEX_LITERAL (DIGITS_VALUE DIGITS_INIT_ELIXIR_HEX_LITERAL)
#define DIGITS_INIT_ELIXIR_OCTAL_LITERAL {UINT64_C(0x100000000), UINT64_C(0x8000000005f)}
#define DIGITS_WORD_ELIXIR_OCTAL_LITERAL (DIGITS_VALUE DIGITS_INIT_ELIXIR_OCTAL_LITERAL)
#define DIGITS_INIT_ELIXIR_BINARY_LITERAL {UINT64_C(0x100000000), UINT64_C(0x2000000005f)}
#define DIGITS_WORD_ELIXIR_BINARY_LITERAL (DIGITS_VALUE DIGITS_INIT_ELIXIR_BINARY_LITERAL)
#define DIGITS_INIT_ERLANG_LITERAL {UINT64_C(0x700000000), UINT64_C(0xa000000005f)}
#define DIGITS_WORD_ERLANG_LITERAL (DIGITS_VALUE DIGITS_INIT_ERLANG_LITERAL)
#define DIGITS_INIT_ERLANG_HEX_LITERAL {UINT64_C(0x100000000), UINT64_C(0x10000000005f)}
#define DIGITS_WORD_ERLANG_HEX_LITERAL (DIGITS_VALUE DIGITS_INIT_ERLANG_HEX_LITERAL)
#define DIGITS_INIT_ERLANG_OCTAL_LITERAL {UINT64_C(0x100000000), UINT64_C(0x8000000005f)}
#define DIGITS_WORD_ERLANG_OCTAL_LITERAL (DIGITS_VALUE DIGITS_INIT_ERLANG_OCTAL_LITERAL)
#define DIGITS_INIT_ERLANG_BINARY_LITERAL {UINT64_C(0x100000000), UINT64_C(0x2000000005f)}
#define DIGITS_WORD_ERLANG_BINARY_LITERAL (DIGITS_VALUE DIGITS_INIT_ERLANG_BINARY_LITERAL)
/* end of what c/constants writes */

#ifdef __cplusplus
}
#endif

#endif
