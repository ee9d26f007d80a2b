/* A supplier's month as a switch keeps it: a fresh book, three notices, a cell of codes, lookups, a batch of calls and the standing
 * list.
 *
 *   cc -std=c99 -Wall -Wextra -Werror -I include examples/c/month.c target/staticlib/librate_book.a -o target/month
 */
#include <inttypes.h>
#include <stdio.h>
#include <stdlib.h>
#include <string.h>

#include "rate_book.h"

#define ROOM 64 /* entries */
#define WORDS (RATE_BOOK_HEADER_WORDS + ROOM * RATE_BOOK_ENTRY_WORDS)

/* The names that the host gives to codes. */
static const struct {
    const char *code;
    const char *name;
} destinations[] = {
    {"21361", "Algeria mobile 61"},
    {"2137", "Algeria mobile 7"},
    {"2138", "Algeria mobile 8"},
    {"2348", "Nigeria mobile"},
    {"23480", "Nigeria mobile 80"},
    {"234806", "Nigeria mobile 806"},
    {"4420", "United Kingdom, London"},
    {"4470", "United Kingdom, personal"},
};

static const char *name_of(const char *code)
{
    for (size_t i = 0; i < sizeof destinations / sizeof destinations[0]; i++) {
        if (strcmp(destinations[i].code, code) == 0) {
            return destinations[i].name;
        }
    }
    return "unnamed";
}

/* Writing notices and batches: numbers in groups of seven bits. */

typedef struct {
    uint8_t bytes[256];
    size_t length;
} message;

static void put(message *m, uint64_t number)
{
    do {
        if (m->length == sizeof m->bytes) {
            fprintf(stderr, "message too long\n");
            exit(1);
        }
        m->bytes[m->length++] = (uint8_t)(number % 128 + (number < 128 ? 0 : 128));
        number /= 128;
    } while (number != 0);
}

static void put_digits(message *m, const char *digits)
{
    put(m, strlen(digits));
    put(m, strtoull(digits, NULL, 10));
}

static message notice(uint64_t kind, uint64_t received, uint64_t lines)
{
    message m = {{0}, 0};
    put(&m, kind);
    put(&m, received);
    put(&m, lines);
    return m;
}

/* A rate of so many ten-thousandths, with no listed day. */
static void put_rate(message *m, const char *code, uint64_t mantissa, uint64_t first, uint64_t next)
{
    put_digits(m, code);
    put(m, RATE_BOOK_LINE_RATE);
    put(m, 4);
    put(m, mantissa);
    put(m, first);
    put(m, next);
    put(m, 0);
}

static void put_block(message *m, const char *code)
{
    put_digits(m, code);
    put(m, RATE_BOOK_LINE_BLOCK);
    put(m, 0);
}

/* Reading the standing list, which the library wrote: no test for its end is needed. */
static uint64_t take(const uint8_t **at)
{
    uint64_t number = 0;
    for (unsigned shift = 0;; shift += 7) {
        uint8_t byte = *(*at)++;
        number += (uint64_t)(byte % 128) << shift;
        if (byte < 128) {
            return number;
        }
    }
}

/* The digits of a key's code: the place of digit d holds d + 1, and 0 ends it. */
static void code_of(uint64_t key, char code[16])
{
    uint64_t place = UINT64_C(379749833583241); /* 11^14 */
    size_t length = 0;
    while (length < 15 && key / place % 11 != 0) {
        code[length++] = (char)('0' + key / place % 11 - 1);
        if (place == 1) {
            break;
        }
        place /= 11;
    }
    code[length] = '\0';
}

/* An amount of hundred-millionths as a decimal. */
static void print_amount(uint64_t amount)
{
    printf("%" PRIu64 ".%08" PRIu64, amount / 100000000, amount % 100000000);
}

static const char *cause(uint64_t refusal)
{
    switch (refusal) {
    case RATE_BOOK_RECEIVED_EARLIER:
        return "received before the last accepted notice";
    case RATE_BOOK_BOOK_FULL:
        return "more entries than the new book holds";
    case RATE_BOOK_DURATION_TOO_LONG:
        return "duration beyond its end";
    case RATE_BOOK_NO_OFFER:
        return "no offer";
    case RATE_BOOK_OFFER_BLOCKED:
        return "blocked";
    case RATE_BOOK_ENTRY_NOT_ALLOWED:
        return "empty, a stray byte or no code that is allowed";
    case RATE_BOOK_RANGE_NOT_ALLOWED:
        return "ends that differ in length or fall, or over 1,000 codes";
    case RATE_BOOK_KEYS_TOO_MANY:
        return "more keys than words for them";
    default:
        return "see include/rate_book.h";
    }
}

/* The two books that are lent in turn: one is current, the other takes the next apply. */
static uint64_t books[2][WORDS];
static int current;

static void apply(const char *label, const message *m)
{
    rate_book_applied left = rate_book_apply(books[current], WORDS, m->bytes, m->length, books[1 - current], WORDS);
    printf("%s: ", label);
    if (left.refusal != RATE_BOOK_NOT_REFUSED) {
        printf("refused, %" PRIu64 ", %s; the book stays as it was\n", left.refusal, cause(left.refusal));
        return;
    }
    current = 1 - current;
    printf("accepted; %" PRIu64 " entries, last received day %" PRIu64 ", latest effective day %" PRIu64 "\n", left.entries,
           left.last_received, left.latest_effective);
}

/* Tells the first entry of a cell that is refused by itself. */
static void print_refused_entry(const char *country, const char *cell)
{
    uint64_t keys[RATE_BOOK_MOST_CODES];
    for (;;) {
        rate_book_entry_keys read = rate_book_cell_entry((const uint8_t *)country, strlen(country), (const uint8_t *)cell,
                                                         strlen(cell), keys, RATE_BOOK_MOST_CODES);
        if (read.refusal != RATE_BOOK_NOT_REFUSED) {
            printf("  '%.*s': %" PRIu64 ", %s\n", (int)strcspn(cell, ","), cell, read.refusal, cause(read.refusal));
            return;
        }
        cell += read.rest;
        if (*cell == '\0') {
            return;
        }
        cell++; /* the comma */
    }
}

/* Prices the codes of a cell, each by a line of an update. Their keys rise, as lines must. */
static void price_cell(const char *country, const char *cell, uint64_t received, uint64_t mantissa)
{
    uint64_t keys[ROOM];
    rate_book_cell_keys read = rate_book_cell((const uint8_t *)country, strlen(country), (const uint8_t *)cell, strlen(cell), keys,
                                              ROOM);
    printf("Cell '%s' beside %s: ", cell, country);
    if (read.refusal != RATE_BOOK_NOT_REFUSED) {
        printf("refused, %" PRIu64 "\n", read.refusal);
        print_refused_entry(country, cell);
        return;
    }
    message update = notice(RATE_BOOK_KIND_UPDATE, received, read.count);
    for (uint64_t i = 0; i < read.count; i++) {
        char code[16];
        code_of(keys[i], code);
        printf("%s%s", i == 0 ? "" : ", ", code);
        put_rate(&update, code, mantissa, 1, 1);
    }
    printf("\n");
    apply("  their update", &update);
}

static void look_up(const char *number, uint64_t day)
{
    rate_book_offer offer = rate_book_lookup(books[current], WORDS, (const uint8_t *)number, strlen(number), day);
    char code[16];
    code_of(offer.key, code);
    printf("  day %" PRIu64 ": ", day);
    if (offer.refusal != RATE_BOOK_NOT_REFUSED) {
        printf("refused, %" PRIu64 ", %s\n", offer.refusal, cause(offer.refusal));
    } else if (offer.status == RATE_BOOK_CLOSED) {
        printf("no offer\n");
    } else if (offer.status == RATE_BOOK_BLOCKED) {
        printf("blocked by code %s (%s)\n", code, name_of(code));
    } else {
        print_amount(offer.rate);
        printf(" a minute, %" PRIu64 "/%" PRIu64 " s, by code %s (%s)\n", offer.first, offer.next, code, name_of(code));
    }
}

static const struct {
    const char *number;
    uint64_t second; /* of the day */
    uint64_t duration;
} calls[] = {
    {"234806121212", 36000, 61}, {"442079460958", 36060, 61}, {"442079460958", 36120, 0},
    {"447001234567", 36180, 30}, {"99912345", 36240, 30},     {"234806121212", 36300, 604801},
};
enum { CALLS = sizeof calls / sizeof calls[0] };

static int rate_calls(uint64_t day)
{
    uint64_t rows[CALLS * RATE_BOOK_ROW_WORDS];
    message m = {{0}, 0};
    put(&m, CALLS);
    for (size_t i = 0; i < CALLS; i++) {
        put_digits(&m, calls[i].number);
        put(&m, day * RATE_BOOK_DAY_SECONDS + calls[i].second);
        put(&m, calls[i].duration);
    }
    rate_book_batch batch = rate_book_rate_batch(books[current], WORDS, m.bytes, m.length, rows, CALLS * RATE_BOOK_ROW_WORDS);
    if (batch.refusal != RATE_BOOK_NOT_REFUSED) {
        printf("batch refused, %" PRIu64 ", %s\n", batch.refusal, cause(batch.refusal));
        return 1;
    }
    printf("Calls of day %" PRIu64 ":\n", day);
    for (size_t i = 0; i < CALLS; i++) {
        const uint64_t *row = rows + i * RATE_BOOK_ROW_WORDS;
        char code[16];
        code_of(row[1], code);
        printf("  %-12s %6" PRIu64 " s: ", calls[i].number, calls[i].duration);
        if (row[0] == RATE_BOOK_NOT_REFUSED) {
            print_amount(row[3]);
            printf(" for %" PRIu64 " s, by code %s (%s)\n", row[2], code, name_of(code));
        } else {
            printf("refused, %" PRIu64 ", %s", row[0], cause(row[0]));
            if (row[1] != 0) {
                printf(" by code %s (%s)", code, name_of(code));
            }
            printf("\n");
        }
    }
    printf("  %" PRIu64 " rated, %" PRIu64 " refused, total ", batch.rated, batch.refused);
    print_amount(batch.total);
    printf("\n");
    return 0;
}

static int list(uint64_t day)
{
    uint8_t bytes[RATE_BOOK_LONGEST_LIST_HEAD + ROOM * RATE_BOOK_LONGEST_LIST_LINE];
    rate_book_listed listed = rate_book_list(books[current], WORDS, day, bytes, sizeof bytes);
    if (listed.refusal != RATE_BOOK_NOT_REFUSED) {
        printf("list refused, %" PRIu64 ", %s\n", listed.refusal, cause(listed.refusal));
        return 1;
    }
    const uint8_t *at = bytes;
    take(&at); /* kind, full */
    take(&at); /* received day */
    uint64_t lines = take(&at);
    printf("Standing list of day %" PRIu64 ", a full notice of %" PRIu64 " bytes:\n", day, listed.length);
    for (uint64_t i = 0; i < lines; i++) {
        char code[24];
        int digits = (int)take(&at);
        snprintf(code, sizeof code, "%0*" PRIu64, digits, take(&at));
        printf("  %-6s %-25s ", code, name_of(code));
        if (take(&at) == RATE_BOOK_LINE_RATE) {
            take(&at); /* decimals, 8 */
            print_amount(take(&at));
            uint64_t first = take(&at);
            uint64_t next = take(&at);
            printf(" a minute, %" PRIu64 "/%" PRIu64 " s\n", first, next);
        } else {
            printf("blocked\n");
        }
        take(&at); /* listed day, none */
    }
    return 0;
}

int main(void)
{
    uint64_t period = 7;
    uint64_t refusal = rate_book_fresh(books[current], WORDS, period);
    if (refusal != RATE_BOOK_NOT_REFUSED) {
        printf("fresh book refused, %" PRIu64 "\n", refusal);
        return 1;
    }
    printf("A fresh book: notice period %" PRIu64 " days, room for %d entries in %" PRIu64 " words\n\n", period, ROOM,
           rate_book_words(ROOM));

    message first = notice(RATE_BOOK_KIND_FULL, 100, 4);
    put_rate(&first, "23480", 900, 1, 1);
    put_rate(&first, "234806", 1300, 1, 1);
    put_rate(&first, "4420", 65, 60, 60);
    put_block(&first, "4470");
    apply("Full notice of day 100", &first);

    message second = notice(RATE_BOOK_KIND_PARTIAL, 110, 1);
    put_rate(&second, "2348", 800, 1, 1);
    apply("Partial notice of day 110", &second);

    message late = notice(RATE_BOOK_KIND_UPDATE, 109, 1);
    put_rate(&late, "2348", 700, 1, 1);
    apply("Update of day 109", &late);

    printf("\n");
    price_cell("213", "61, 7 - 8", 111, 2100);
    price_cell("213", "61, 7-8", 111, 2100);

    printf("\nWhat 234806121212 costs:\n");
    look_up("234806121212", 99);
    look_up("234806121212", 100);
    look_up("234806121212", 116);
    look_up("234806121212", 117);
    printf("What 447001234567 costs:\n");
    look_up("447001234567", 117);

    printf("\n");
    if (rate_calls(117) != 0) {
        return 1;
    }
    printf("\n");
    return list(117);
}
