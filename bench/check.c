#include "check.h"
#include "inputs.h"
#include "plain.h"

#include <stdio.h>
#include <stdlib.h>
#include <string.h>

static uint64_t words_a[4 * MOST + 8], words_b[4 * MOST + 8];
static uint8_t bytes_a[MOST_NOTICE], bytes_b[MOST_NOTICE];
static unsigned long checked, refusals[64];

static void hold(const char *what, uint64_t refusal, int same)
{
    checked++;
    refusals[refusal < 64 ? refusal : 63]++;
    if (!same) {
        fprintf(stderr, "bench: library and plain implementation differ in %s (refusal %llu)\n", what,
                (unsigned long long)refusal);
        exit(1);
    }
}

static void dirty_words(size_t len)
{
    for (size_t i = 0; i < len; i++)
        words_a[i] = words_b[i] = random_below(1000);
}

static int same_words(size_t len)
{
    return memcmp(words_a, words_b, len * sizeof *words_a) == 0;
}

void same_fresh(size_t len, uint64_t period)
{
    dirty_words(len);
    uint64_t a = rate_book_fresh(words_a, len, period), b = plain_fresh(words_b, len, period);
    hold("fresh", a, a == b && same_words(len));
}

rate_book_applied same_apply(const uint64_t *old, size_t old_len, const uint8_t *notice, size_t notice_len, uint64_t *new,
                             size_t new_len)
{
    dirty_words(new_len);
    rate_book_applied a = rate_book_apply(old, old_len, notice, notice_len, words_a, new_len);
    struct plain_applied b = plain_apply(old, old_len, notice, notice_len, words_b, new_len);
    hold("apply", a.refusal, memcmp(&a, &b, sizeof a) == 0 && same_words(new_len));
    if (a.refusal == 0)
        memcpy(new, words_a, new_len * sizeof *new);
    return a;
}

void same_lookup(const uint64_t *book, size_t len, const char *number, size_t number_len, uint64_t day)
{
    rate_book_offer a = rate_book_lookup(book, len, (const uint8_t *)number, number_len, day);
    struct plain_offer b = plain_lookup(book, len, (const uint8_t *)number, number_len, day);
    hold("lookup", a.refusal, memcmp(&a, &b, sizeof a) == 0);
}

void same_call(const uint64_t *book, size_t len, const char *number, size_t number_len, uint64_t moment, uint64_t duration)
{
    rate_book_call a = rate_book_rate_call(book, len, (const uint8_t *)number, number_len, moment, duration);
    struct plain_call b = plain_rate_call(book, len, (const uint8_t *)number, number_len, moment, duration);
    hold("rate_call", a.refusal, memcmp(&a, &b, sizeof a) == 0);
}

void same_batch(const uint64_t *book, size_t len, const uint8_t *batch, size_t batch_len, size_t rows_len)
{
    dirty_words(rows_len);
    rate_book_batch a = rate_book_rate_batch(book, len, batch, batch_len, words_a, rows_len);
    struct plain_batch b = plain_rate_batch(book, len, batch, batch_len, words_b, rows_len);
    hold("rate_batch", a.refusal, memcmp(&a, &b, sizeof a) == 0 && same_words(rows_len));
}

void same_list(const uint64_t *book, size_t len, uint64_t day, size_t out_len)
{
    for (size_t i = 0; i < out_len; i++)
        bytes_a[i] = bytes_b[i] = i;
    rate_book_listed a = rate_book_list(book, len, day, bytes_a, out_len);
    struct plain_list b = plain_list(book, len, day, bytes_b, out_len);
    hold("list", a.refusal, memcmp(&a, &b, sizeof a) == 0 && memcmp(bytes_a, bytes_b, out_len) == 0);
}

uint64_t same_cell(const char *country, size_t country_len, const char *cell, size_t cell_len, size_t keys_len)
{
    const uint8_t *c = (const uint8_t *)country, *s = (const uint8_t *)cell;
    dirty_words(keys_len);
    rate_book_cell_keys a = rate_book_cell(c, country_len, s, cell_len, words_a, keys_len);
    struct plain_cell b = plain_cell(c, country_len, s, cell_len, words_b, keys_len);
    hold("cell", a.refusal, memcmp(&a, &b, sizeof a) == 0 && same_words(keys_len));
    return a.refusal;
}

void same_cell_entry(const char *country, size_t country_len, const char *cell, size_t cell_len, size_t keys_len)
{
    const uint8_t *c = (const uint8_t *)country, *s = (const uint8_t *)cell;
    dirty_words(keys_len);
    rate_book_entry_keys a = rate_book_cell_entry(c, country_len, s, cell_len, words_a, keys_len);
    struct plain_cell_entry b = plain_cell_entry(c, country_len, s, cell_len, words_b, keys_len);
    hold("cell_entry", a.refusal, memcmp(&a, &b, sizeof a) == 0 && same_words(keys_len));
}

/* ---- random cells ---- */

static void check_cells(void)
{
    static const char *const countries[] = {"", "", "1", "213", "2", "44", "99912345678901", "21 "};
    const char *country = countries[random_below(8)];
    char cell[400];
    size_t n = 0, entries = random_below(7);
    uint64_t stem = 400 + random_below(20), most = random_below(4) == 0 ? 1010 : 1 + random_below(30);
    for (size_t i = 0; i < entries; i++) {
        uint64_t first = random_below(3) ? stem * 10 + random_below(10) : stem + random_below(10);
        n += snprintf(cell + n, 40, "%s%s%llu", i == 0 ? "" : ",", random_below(3) ? "" : " ", (unsigned long long)first);
        if (random_below(2))
            n += snprintf(cell + n, 40, "-%llu", (unsigned long long)(first + random_below(most)));
    }
    if (n > 0 && random_below(6) == 0)
        cell[random_below(n)] = " ,-09x"[random_below(6)];
    same_cell(country, strlen(country), cell, n, random_below(3) ? 60 : random_below(1100));
    same_cell(country, strlen(country), cell, n, random_below(30));
    same_cell_entry(country, strlen(country), cell, n, random_below(3) ? 60 : random_below(1100));
}

/* ---- random histories ---- */

static const char *const pool[] = {
    "1",   "12",  "120",    "1204", "7",      "79",    "790",          "7903",   "20",     "201",
    "27",  "33",  "336",    "234",  "2348",   "23480", "234806",       "2348061", "999",   "99912345678901",
    "91",  "919", "919876", "352",  "999123456789012", "44", "447", "4479", "447911123456", "123456789012345",
};

enum { POOL = sizeof pool / sizeof *pool };

/* Codes that are not allowed: too short, or with a leading 0. */
static const char *const odd[] = {"2", "23", "0", "01", "99"};

static size_t random_notice(uint8_t *out, uint64_t received)
{
    line lines[POOL];
    code codes[POOL + 1];
    size_t n = 0;
    unsigned kind = 1 + random_below(4);
    const char *const homes[] = {"1", "7", "234", "44", "999"};
    code home = code_of(homes[random_below(5)]);
    uint64_t odds = 1 + random_below(8), listed = random_below(3) == 0 ? received + random_below(12) : 0;

    for (size_t i = 0; i < POOL; i++) {
        code c = code_of(pool[i]);
        uint64_t p = 1;
        for (unsigned k = home.count; k < c.count; k++)
            p *= 10;
        int inside = c.count >= home.count && c.value / p == home.value;
        if (kind == REPLACEMENT && !inside && random_below(60) != 0)
            continue;
        if (random_below(odds) == 0)
            codes[n++] = c;
    }
    if (n == 0)
        codes[n++] = kind == REPLACEMENT ? home : code_of("1");
    if (random_below(25) == 0)
        codes[random_below(n)] = code_of(odd[random_below(5)]);
    if (random_below(25) != 0)
        qsort(codes, n, sizeof *codes, by_key);
    for (size_t i = 0; i < n; i++) {
        line l = {.code = codes[i], .status = random_below(5), .decimals = random_below(13)};
        if (l.status > 2)
            l.status = 2;
        l.mantissa = random_below(l.decimals > 8 ? UINT64_C(10000000001) : 40);
        if (random_below(3) == 0) {
            l.decimals = 8;
            l.mantissa = random_below(2) ? 13000000 : 9000000;
        }
        l.first = 1 + random_below(random_below(2) ? 2 : 255);
        l.next = 1 + random_below(random_below(2) ? 2 : 255);
        l.listed = listed;
        if (kind != REPLACEMENT || random_below(60) == 0)
            l.listed = random_below(3) == 0 ? received + random_below(30) : 0;
        lines[i] = l;
    }
    return put_notice(out, kind, received, home, lines, n) - out;
}

/* Damages bytes now and then. */
static size_t damaged(uint8_t *bytes, size_t len)
{
    switch (random_below(10)) {
    case 0:
        bytes[random_below(len)] = random_below(256);
        return len;
    case 1:
        bytes[random_below(len)] ^= 128;
        return len;
    case 2:
        return random_below(len);
    case 3:
        bytes[len] = random_below(256);
        return len + 1;
    default:
        return len;
    }
}

static size_t random_number(char *digits)
{
    size_t n = snprintf(digits, 16, "%s", pool[random_below(POOL)]), len = n + random_below(17 - n);
    if (random_below(10) == 0)
        n = random_below(3);
    while (n < len)
        digits[n++] = random_below(40) == 0 ? '/' + random_below(12) : '0' + random_below(10);
    return n;
}

static uint64_t random_day(uint64_t near)
{
    switch (random_below(12)) {
    case 0:
        return random_below(65010);
    case 1:
        return 59998 + random_below(5);
    case 2:
        return 64998 + random_below(5);
    default:
        return near - (near < 20 ? near : 20) + random_below(50);
    }
}

static uint64_t random_duration(void)
{
    return random_below(20) == 0 ? 604799 + random_below(3) : random_below(400);
}

static void check_reads(const uint64_t *book, size_t len, uint64_t near)
{
    char digits[20];
    uint8_t batch[400], *p;
    size_t n = random_number(digits), calls = random_below(8);

    same_lookup(book, len, digits, n, random_day(near));
    n = random_number(digits);
    same_call(book, len, digits, n, random_day(near) * 86400 + random_below(86400), random_duration());
    same_list(book, len, random_day(near), random_below(2) ? 500 : random_below(300));
    p = put_number(batch, calls);
    for (size_t i = 0; i < calls; i++) {
        code c;
        digits[random_number(digits)] = 0;
        c = code_of(digits);
        p = put_number(p, random_below(20) ? c.count : random_below(20));
        p = put_number(p, c.value & INT64_MAX);
        p = put_number(p, random_day(near) * 86400 + random_below(86400));
        p = put_number(p, random_duration());
    }
    same_batch(book, len, batch, damaged(batch, p - batch), calls * 4 + random_below(5) - (calls > 0 ? random_below(3) : 0));
}

/* A word of the book changed a little or for any other. */
static void damage_book(uint64_t *book, size_t len)
{
    uint64_t *w = book + random_below(len);
    switch (random_below(6)) {
    case 0:
        *w += 1;
        break;
    case 1:
        *w -= 1;
        break;
    case 2:
        *w = random_below(300);
        break;
    case 3:
        *w = 65000 + random_below(3);
        break;
    case 4:
        *w ^= UINT64_C(1) << random_below(64);
        break;
    default:
        *w = code_of(random_below(2) ? pool[random_below(POOL)] : odd[random_below(5)]).key;
    }
}

void check_random(unsigned histories)
{
    static uint64_t book[256], next[256], broken[256];
    uint8_t bytes[2048];

    for (unsigned h = 0; h < histories; h++) {
        size_t len = 4 + random_below(200);
        uint64_t near = random_below(random_below(8) == 0 ? 60000 : 300);
        same_fresh(random_below(8), random_below(10) == 0 ? 360 + random_below(10) : random_below(20));
        for (unsigned i = 0; i < 20; i++)
            check_cells();
        if (rate_book_fresh(book, len, random_below(20) == 0 ? 365 : random_below(15)) != RATE_BOOK_NOT_REFUSED) {
            fprintf(stderr, "a fresh book is refused\n");
            exit(1);
        }
        for (unsigned i = 0; i < 8; i++) {
            size_t new_len = random_below(5) == 0 ? random_below(100) : 200 + random_below(50);
            size_t n = random_notice(bytes, near);
            n = damaged(bytes, n);
            if (same_apply(book, len, bytes, n, next, new_len).refusal == 0) {
                len = new_len;
                memcpy(book, next, len * sizeof *book);
            }
            check_reads(book, len, near);
            check_reads(book, random_below(30) == 0 ? random_below(4) : len, near);
            memcpy(broken, book, len * sizeof *book);
            damage_book(broken, len);
            check_reads(broken, len, near);
            same_apply(broken, len, bytes, n, next, new_len);
            near += random_below(random_below(4) == 0 ? 20 : 3);
            if (random_below(20) == 0 && near > 0)
                near -= 1;
        }
    }
    printf("# %lu calls compared; refusals:", checked);
    for (unsigned i = 0; i < 64; i++)
        if (refusals[i] != 0)
            printf(" %u: %lu", i, refusals[i]);
    printf("\n");
}
