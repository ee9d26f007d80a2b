/* Books, notices and batches for the benchmarks: the same in every run. */
#ifndef INPUTS_H
#define INPUTS_H

#include <stddef.h>
#include <stdint.h>

enum { MOST = 65535, BOOK_WORDS = 4 + 3 * MOST, MOST_LINE_BYTES = 40, MOST_NOTICE = 32 + MOST * MOST_LINE_BYTES };
enum { FULL = 1, PARTIAL, UPDATE, REPLACEMENT };
enum { TODAY = 20000, PERIOD = 7 };

uint64_t random_below(uint64_t n);

typedef struct { unsigned count; uint64_t value, key; } code;

code code_of(const char *digits);
int by_key(const void *a, const void *b);

typedef struct { code code; unsigned status, decimals, first, next; uint64_t mantissa, listed; } line;

/* Writes a number, a line or a whole notice, and gives the place after it. */
uint8_t *put_number(uint8_t *p, uint64_t n);
uint8_t *put_notice(uint8_t *p, unsigned kind, uint64_t received, code country, const line *lines, size_t count);

/* So many codes of 64 countries, rising by key; `in` gets the place of each code's country in the list of countries. */
void make_codes(code *codes, unsigned *in, size_t count);

/* A sound book of so many entries, one to four a code, a fifth of the codes with a change that is pending today; gives the number of
 * codes. The book is 4 + 3 * entries words long. */
size_t make_book(uint64_t *book, size_t entries, code *codes, unsigned *in);

/* A notice received today over such a book. Codes with no pending change are listed with their status of today, the others with a new
 * rate, so the new book has no more entries. `full` and `partial` leave out some of the codes with a pending change, `partial` and
 * `replacement` list a third of the countries and one; `update` has so many lines. Gives the length. */
size_t make_notice(uint8_t *out, unsigned kind, size_t most_lines, const uint64_t *book, const code *codes, const unsigned *in,
                   size_t count);

/* A full notice of so many lines, all open. */
size_t make_first_notice(uint8_t *out, size_t lines);

/* A number to look up: mostly a code of the book with digits after it. */
size_t make_number(char *digits, const code *codes, size_t count);

size_t make_batch(uint8_t *out, size_t calls, const code *codes, size_t count);

#endif
