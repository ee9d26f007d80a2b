/* The library against the plain implementation: compares the two, then times both. Writes a line for each operation and size:
 * operation, size, library, plain; the costs in nanoseconds. */
#include "check.h"
#include "inputs.h"
#include "plain.h"

#include <stdio.h>
#include <stdlib.h>
#include <string.h>
#include <time.h>

enum { ROUNDS = 25, NUMBERS = 16, CALLS = MOST, MOST_CELL = 1 << 16 };

static const double LEAST_NS = 1e6; /* of one timed run */

static uint64_t book[BOOK_WORDS], new_book[BOOK_WORDS], rows[4 * CALLS];
static size_t book_len, notice_len, batch_len;
static uint8_t notice[MOST_NOTICE], batch[MOST_NOTICE], list[MOST_NOTICE];
static char cell[MOST_CELL];
static size_t cell_len, keys_len;
static char numbers[NUMBERS][16];
static size_t number_len[NUMBERS];
static unsigned turn;
static code codes[MOST];
static unsigned in[MOST];
static volatile uint64_t sink;

static void library_lookup(void)
{
    turn = (turn + 1) % NUMBERS;
    sink = rate_book_lookup(book, book_len, (uint8_t *)numbers[turn], number_len[turn], TODAY).key;
}

static void plain_lookup_one(void)
{
    turn = (turn + 1) % NUMBERS;
    sink = plain_lookup(book, book_len, (uint8_t *)numbers[turn], number_len[turn], TODAY).key;
}

static void library_batch(void)
{
    sink = rate_book_rate_batch(book, book_len, batch, batch_len, rows, 4 * CALLS).total;
}

static void plain_batch_one(void)
{
    sink = plain_rate_batch(book, book_len, batch, batch_len, rows, 4 * CALLS).total;
}

static void library_apply(void)
{
    sink = rate_book_apply(book, book_len, notice, notice_len, new_book, book_len).entries;
}

static void plain_apply_one(void)
{
    sink = plain_apply(book, book_len, notice, notice_len, new_book, book_len).entries;
}

static void library_list(void)
{
    sink = rate_book_list(book, book_len, TODAY, list, sizeof list).length;
}

static void plain_list_one(void)
{
    sink = plain_list(book, book_len, TODAY, list, sizeof list).length;
}

static void library_cell(void)
{
    sink = rate_book_cell((const uint8_t *)"", 0, (const uint8_t *)cell, cell_len, rows, keys_len).count;
}

static void plain_cell_one(void)
{
    sink = plain_cell((const uint8_t *)"", 0, (const uint8_t *)cell, cell_len, rows, keys_len).count;
}

static double run(void (*f)(void), unsigned times)
{
    struct timespec a, b;
    clock_gettime(CLOCK_PROCESS_CPUTIME_ID, &a);
    for (unsigned i = 0; i < times; i++)
        f();
    clock_gettime(CLOCK_PROCESS_CPUTIME_ID, &b);
    return (b.tv_sec - a.tv_sec) * 1e9 + (b.tv_nsec - a.tv_nsec);
}

static int by_size(const void *a, const void *b)
{
    double x = *(const double *)a, y = *(const double *)b;
    return (x > y) - (x < y);
}

typedef struct { double library, plain; } cost;

/* The median cost of one call of each. Both have run before, so their buffers are warm; they are timed in turn. */
static cost measure(void (*library)(void), void (*plain)(void))
{
    double a[ROUNDS], b[ROUNDS];
    library();
    plain();
    double once = run(plain, 1);
    unsigned times = once < LEAST_NS ? LEAST_NS / once + 1 : 1;
    for (int i = 0; i < ROUNDS; i++) {
        a[i] = run(library, times) / times;
        b[i] = run(plain, times) / times;
    }
    qsort(a, ROUNDS, sizeof *a, by_size);
    qsort(b, ROUNDS, sizeof *b, by_size);
    return (cost){a[ROUNDS / 2], b[ROUNDS / 2]};
}

static void report(const char *what, size_t size, cost c)
{
    printf("%s\t%zu\t%.1f\t%.1f\n", what, size, c.library, c.plain);
    fflush(stdout);
}

static void accepted(const char *what, uint64_t refusal)
{
    if (refusal != 0) {
        fprintf(stderr, "bench: %s is refused by %llu\n", what, (unsigned long long)refusal);
        exit(1);
    }
}

static void time_apply(const char *what, size_t size)
{
    accepted(what, same_apply(book, book_len, notice, notice_len, new_book, book_len).refusal);
    report(what, size, measure(library_apply, plain_apply_one));
}

static void time_reading(size_t entries)
{
    size_t count = make_book(book, entries, codes, in);
    book_len = 4 + 3 * entries;
    for (unsigned i = 0; i < NUMBERS; i++) {
        number_len[i] = make_number(numbers[i], codes, count);
        same_lookup(book, book_len, numbers[i], number_len[i], TODAY);
    }
    batch_len = 1;
    batch[0] = 0;
    accepted("an empty batch", rate_book_rate_batch(book, book_len, batch, batch_len, rows, 0).refusal);
    same_batch(book, book_len, batch, batch_len, 0);
    cost pass = measure(library_batch, plain_batch_one);
    batch_len = make_batch(batch, CALLS, codes, count);
    same_batch(book, book_len, batch, batch_len, 4 * CALLS);
    cost all = measure(library_batch, plain_batch_one);
    report("soundness", entries, pass);
    report("lookup", entries, measure(library_lookup, plain_lookup_one));
    report("call", entries, (cost){(all.library - pass.library) / CALLS, (all.plain - pass.plain) / CALLS});
}

static void time_writing(size_t entries)
{
    size_t count = make_book(book, entries, codes, in);
    book_len = 4 + 3 * entries;
    notice_len = make_notice(notice, FULL, count, book, codes, in, count);
    time_apply("full", entries);
    notice_len = make_notice(notice, PARTIAL, count, book, codes, in, count);
    time_apply("partial", entries);
    notice_len = make_notice(notice, UPDATE, count, book, codes, in, count);
    time_apply("update-all", entries);
    notice_len = make_notice(notice, UPDATE, 100, book, codes, in, count);
    time_apply("update-100", entries);
    notice_len = make_notice(notice, REPLACEMENT, count, book, codes, in, count);
    time_apply("replacement", entries);
    same_list(book, book_len, TODAY, sizeof list);
    report("list", entries, measure(library_list, plain_list_one));
    notice_len = make_first_notice(notice, entries);
    accepted("a fresh book", rate_book_fresh(book, book_len, PERIOD));
    time_apply("first", entries);
}

static void add_entry(const char *form, unsigned value)
{
    cell_len += snprintf(cell + cell_len, MOST_CELL - cell_len, form, cell_len == 0 ? "" : ",", value, value);
}

static void time_cell(const char *what, size_t size)
{
    accepted(what, same_cell("", 0, cell, cell_len, keys_len));
    report(what, size, measure(library_cell, plain_cell_one));
    cell_len = 0;
}

/* Cells without a country cell, with exactly the words for their keys. */
static void time_cells(void)
{
    const unsigned ranges[] = {10, 64}, singles[] = {1000, 2000}, repeats[] = {1000, 3001};
    for (int i = 0; i < 2; i++) {
        keys_len = 1000 * ranges[i];
        for (unsigned k = 0; k < ranges[i]; k++)
            add_entry("%s%u000-%u999", 2130 + k);
        time_cell("cell-rising", keys_len);
        for (unsigned k = ranges[i]; k-- > 0;)
            add_entry("%s%u000-%u999", 2130 + k);
        time_cell("cell-falling", keys_len);
        keys_len = singles[i];
        for (unsigned k = singles[i]; k-- > 0;)
            add_entry("%s%u", 213000 + k);
        time_cell("cell-singles", keys_len);
        keys_len = 1;
        for (unsigned k = 0; k < repeats[i]; k++)
            add_entry("%s%u", 1);
        time_cell("cell-repeats", repeats[i]);
    }
}

int main(int argc, char **argv)
{
    const size_t reading[] = {1000, 10000, 60000}, writing[] = {1000, 10000, 65535};
    printf("# %d rounds\n", ROUNDS);
    check_random(2000);
    if (argc > 1 && strcmp(argv[1], "check") == 0)
        return 0;
    for (int i = 0; i < 3; i++)
        time_reading(reading[i]);
    for (int i = 0; i < 3; i++)
        time_writing(writing[i]);
    time_cells();
    return 0;
}
