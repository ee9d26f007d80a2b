#include "inputs.h"

#include <stdio.h>
#include <stdlib.h>
#include <string.h>

enum { COUNTRIES = 64 };

static const char *const countries[COUNTRIES] = {
    "1",  "7",  "20", "27", "30", "31", "32", "33", "34", "36",  "39",  "40",  "41",  "43",  "44",  "45",
    "46", "47", "48", "49", "51", "52", "53", "54", "55", "56",  "57",  "58",  "60",  "61",  "62",  "63",
    "64", "65", "66", "81", "82", "84", "86", "90", "91", "92",  "93",  "94",  "95",  "98",  "212", "213",
    "234", "254", "351", "353", "358", "372", "380", "420", "852", "855", "880", "961", "966", "971", "972", "994",
};

static const unsigned char increments[4][2] = {{1, 1}, {60, 60}, {30, 6}, {60, 1}};

static uint64_t state = 1;

uint64_t random_below(uint64_t n)
{
    uint64_t z = (state += UINT64_C(0x9e3779b97f4a7c15));
    z = (z ^ z >> 30) * UINT64_C(0xbf58476d1ce4e5b9);
    z = (z ^ z >> 27) * UINT64_C(0x94d049bb133111eb);
    return (z ^ z >> 31) % n;
}

code code_of(const char *digits)
{
    code c = {0};
    uint64_t weight = UINT64_C(379749833583241);
    for (; *digits; digits++, weight /= 11) {
        c.count++;
        c.value = c.value * 10 + (*digits - '0');
        c.key += (*digits - '0' + 1) * weight;
    }
    return c;
}

int by_key(const void *a, const void *b)
{
    uint64_t x = ((const code *)a)->key, y = ((const code *)b)->key;
    return (x > y) - (x < y);
}

uint8_t *put_number(uint8_t *p, uint64_t n)
{
    for (; n >= 128; n /= 128)
        *p++ = n % 128 + 128;
    *p++ = n;
    return p;
}

uint8_t *put_notice(uint8_t *p, unsigned kind, uint64_t received, code country, const line *lines, size_t count)
{
    p = put_number(p, kind);
    p = put_number(p, received);
    if (kind == REPLACEMENT) {
        p = put_number(p, country.count);
        p = put_number(p, country.value);
    }
    p = put_number(p, count);
    for (const line *l = lines; l < lines + count; l++) {
        p = put_number(p, l->code.count);
        p = put_number(p, l->code.value);
        p = put_number(p, l->status);
        if (l->status == 2) {
            p = put_number(p, l->decimals);
            p = put_number(p, l->mantissa);
            p = put_number(p, l->first);
            p = put_number(p, l->next);
        }
        p = put_number(p, l->listed);
    }
    return p;
}

static unsigned country_place(uint64_t key)
{
    unsigned at = 0;
    for (unsigned i = 0; i < COUNTRIES; i++)
        if (code_of(countries[i]).key <= key && code_of(countries[at]).key <= code_of(countries[i]).key)
            at = i;
    return at;
}

void make_codes(code *codes, unsigned *in, size_t count)
{
    size_t n = 0;
    while (n < count) {
        while (n < count) {
            char digits[16];
            int len = snprintf(digits, sizeof digits, "%s", countries[n < COUNTRIES ? n : random_below(COUNTRIES)]);
            if (n >= COUNTRIES)
                for (uint64_t more = 1 + random_below(3) + random_below(4); more > 0; more--)
                    digits[len++] = '0' + random_below(10);
            digits[len] = 0;
            codes[n++] = code_of(digits);
        }
        qsort(codes, n, sizeof *codes, by_key);
        n = 0;
        for (size_t i = 0; i < count; i++)
            if (i == 0 || codes[i].key != codes[i - 1].key)
                codes[n++] = codes[i];
    }
    for (size_t i = 0; i < count; i++)
        in[i] = country_place(codes[i].key);
}

static uint64_t random_offer(uint64_t before)
{
    uint64_t offer;
    do {
        uint64_t kind = random_below(20);
        const unsigned char *step = increments[random_below(4)];
        if (kind == 0)
            offer = 1;
        else if (kind < 3)
            offer = 0;
        else
            offer = 2 + (random_below(20000) * 10000 << 16) + step[0] * 256 + step[1];
    } while (offer == before);
    return offer;
}

size_t make_book(uint64_t *book, size_t entries, code *codes, unsigned *in)
{
    size_t count = entries * 2 / 5, left = entries;
    uint64_t *e = book + 4;
    make_codes(codes, in, count);
    for (size_t i = 0; i < count; i++) {
        size_t others = count - i - 1, n = 1 + random_below(4);
        if (left < n + others)
            n = left - others;
        if (n + 4 * others < left)
            n = left - 4 * others;
        uint64_t offer = 0, day = 0;
        int pending = random_below(5) == 0;
        for (size_t k = 0; k < n; k++, e += 3) {
            e[0] = codes[i].key;
            day += 1 + random_below(TODAY / 4 - 2);
            e[1] = pending && k == n - 1 ? TODAY + 100 + random_below(100) : day;
            e[2] = offer = random_offer(offer);
        }
        left -= n;
    }
    book[0] = entries;
    book[1] = PERIOD;
    book[2] = TODAY - 10;
    book[3] = TODAY - 5;
    return count;
}

static line rate_line(code c, uint64_t offer)
{
    line l = {.code = c, .status = 2, .decimals = 4};
    uint64_t x = offer - 2;
    if (offer < 2)
        l.status = offer;
    l.mantissa = (x >> 16) / 10000;
    l.first = x >> 8 & 255;
    l.next = x & 255;
    return l;
}

size_t make_notice(uint8_t *out, unsigned kind, size_t most_lines, const uint64_t *book, const code *codes, const unsigned *in,
                   size_t count)
{
    static line lines[MOST];
    size_t n = 0, each = count / most_lines ? count / most_lines : 1;
    const uint64_t *e = book + 4, *end = e + 3 * book[0];
    size_t codes_of[COUNTRIES] = {0};
    unsigned largest = 0;

    for (size_t i = 0; i < count; i++)
        if (++codes_of[in[i]] > codes_of[largest])
            largest = in[i];
    for (size_t i = 0; i < count; i++) {
        uint64_t offer = 0;
        int pending = 0;
        for (; e < end && e[0] == codes[i].key; e += 3)
            if (e[1] <= TODAY)
                offer = e[2];
            else
                pending = 1;
        if (kind == PARTIAL && in[i] % 3 != 0)
            continue;
        if (kind == REPLACEMENT && in[i] != largest)
            continue;
        if (kind == UPDATE && (i % each != 0 || n == most_lines))
            continue;
        if (pending && (kind == FULL || kind == PARTIAL) && random_below(2) == 0)
            continue;
        if (pending)
            while (offer < 2)
                offer = random_offer(offer);
        lines[n] = rate_line(codes[i], offer);
        if (pending)
            lines[n].mantissa += 1;
        n++;
    }
    return put_notice(out, kind, TODAY, code_of(countries[largest]), lines, n) - out;
}

size_t make_first_notice(uint8_t *out, size_t count)
{
    static line lines[MOST];
    static code codes[MOST];
    static unsigned in[MOST];
    make_codes(codes, in, count);
    for (size_t i = 0; i < count; i++) {
        uint64_t offer;
        do
            offer = random_offer(0);
        while (offer < 2);
        lines[i] = rate_line(codes[i], offer);
    }
    return put_notice(out, FULL, TODAY, codes[0], lines, count) - out;
}

size_t make_number(char *digits, const code *codes, size_t count)
{
    size_t len = 11 + random_below(2);
    code c = codes[random_below(count)];
    int n = random_below(8) == 0 ? snprintf(digits, 16, "%d", (int)(10 + random_below(90)))
                                 : snprintf(digits, 16, "%llu", (unsigned long long)c.value);
    while ((size_t)n < len)
        digits[n++] = '0' + random_below(10);
    digits[n] = 0;
    return n;
}

size_t make_batch(uint8_t *out, size_t calls, const code *codes, size_t count)
{
    uint8_t *p = put_number(out, calls);
    for (size_t i = 0; i < calls; i++) {
        char digits[16];
        size_t len = make_number(digits, codes, count);
        p = put_number(p, len);
        p = put_number(p, strtoull(digits, NULL, 10));
        p = put_number(p, (TODAY - random_below(5000)) * 86400 + random_below(86400));
        p = put_number(p, random_below(3600));
    }
    return p - out;
}
