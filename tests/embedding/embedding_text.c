/* The code of docs/EMBEDDING.md, which tests/embedding.sh puts into month.h, load.h and cells.h: notices that need longer books, one
 * that no book has room for, a batch, a list, the list loaded, cells that need more words, and entries that are refused. */
#include "fields.h"
#include "month.h"
#include "load.h"
#include "cells.h"

static void put_block(const char *code)
{
    put_code(code);
    put(RATE_BOOK_LINE_BLOCK);
    put(0);
}

/* An update with so many codes of six digits in country 7. */
static void many(uint64_t received, uint64_t count)
{
    begin_notice(RATE_BOOK_KIND_UPDATE, received, count);
    for (uint64_t i = 0; i < count; i++) {
        char code[24];
        snprintf(code, sizeof code, "7%05" PRIu64, i);
        put_rate(code, 5000000);
    }
}

static uint64_t take(supplier *s)
{
    return take_notice(s, made.bytes, made.length);
}

static rate_book_offer offer(const supplier *s, const char *number, uint64_t day)
{
    return rate_book_lookup(s->current.words, s->current.len, (const uint8_t *)number, strlen(number), day);
}

static void end(supplier *s)
{
    free(s->current.words);
    free(s->next.words);
}

/* Books that become longer by doubling, each with its own length. */
static void longer_books(void)
{
    supplier s = {{NULL, 0}, {NULL, 0}};
    CHECK(start(&s, 1, RATE_BOOK_LONGEST_PERIOD + 1), RATE_BOOK_PERIOD_TOO_LONG);
    CHECK(start(&s, 1, 7), 0);
    many(10, 2);
    CHECK(take(&s), 0);
    CHECK(s.current.len, rate_book_words(3));
    CHECK(s.next.len, rate_book_words(1));
    CHECK(offer(&s, "700001", 10).refusal, 0);
    CHECK(offer(&s, "700001", 10).rate, 5000000);

    many(11, 4);
    CHECK(take(&s), 0);
    CHECK(s.current.len, rate_book_words(7));
    CHECK(s.next.len, rate_book_words(3));
    CHECK(offer(&s, "700003", 11).rate, 5000000);

    /* A refusal other than 30 changes no book. */
    many(10, 4);
    CHECK(take(&s), RATE_BOOK_RECEIVED_EARLIER);
    CHECK(s.next.len, rate_book_words(3));
    CHECK(offer(&s, "700003", 11).rate, 5000000);

    /* Two calls, one of them to no code, with a row each. */
    uint64_t rows[2 * RATE_BOOK_ROW_WORDS];
    made.length = 0;
    put(2);
    put_code("7000031");
    put(11 * RATE_BOOK_DAY_SECONDS);
    put(60);
    put_code("91");
    put(11 * RATE_BOOK_DAY_SECONDS);
    put(60);
    CHECK(rate_calls(&s, made.bytes, made.length, rows, 1).refusal, RATE_BOOK_BUFFER_TOO_SHORT);
    rate_book_batch rated = rate_calls(&s, made.bytes, made.length, rows, 2);
    CHECK(rated.refusal, 0);
    CHECK(rated.rated, 1);
    CHECK(rated.refused, 1);
    CHECK(rated.total, 5000000);
    end(&s);
}

/* The most entries, then one more. */
static void the_most(void)
{
    supplier s = {{NULL, 0}, {NULL, 0}};
    CHECK(start(&s, 20000, 0), 0);
    many(10, RATE_BOOK_MOST_ENTRIES);
    CHECK(take(&s), 0);
    CHECK(s.current.words[RATE_BOOK_WORD_ENTRIES], RATE_BOOK_MOST_ENTRIES);
    begin_notice(RATE_BOOK_KIND_UPDATE, 11, 1);
    put_rate("91", 5000000);
    CHECK(take(&s), RATE_BOOK_BOOK_FULL);
    CHECK(s.next.len, rate_book_words(RATE_BOOK_MOST_ENTRIES));
    CHECK(s.current.words[RATE_BOOK_WORD_LAST_RECEIVED], 10);
    CHECK(offer(&s, "765534", 11).rate, 5000000);
    CHECK(offer(&s, "91", 11).status, RATE_BOOK_CLOSED);
    /* A notice that adds no entry is still taken. */
    many(12, 1);
    CHECK(take(&s), 0);
    end(&s);
}

/* 44 open and 4470 blocked, of the list of day 20. */
static void lists(void)
{
    supplier s = {{NULL, 0}, {NULL, 0}}, again = {{NULL, 0}, {NULL, 0}};
    CHECK(start(&s, 100, 7), 0);
    begin_notice(RATE_BOOK_KIND_UPDATE, 10, 2);
    put_rate("44", 5000000);
    put_block("4470");
    CHECK(take(&s), 0);
    CHECK(offer(&s, "4470", 20).status, RATE_BOOK_BLOCKED);

    uint8_t list[1000];
    CHECK(list_room(&s) <= sizeof list, 1);
    CHECK(write_list(&s, 20, list, 5).refusal, RATE_BOOK_BUFFER_TOO_SHORT);
    rate_book_listed written = write_list(&s, 20, list, list_room(&s));
    CHECK(written.refusal, 0);
    size_t list_len = (size_t)written.length;

    /* Into a fresh book of notice period 7, the block waits for day 27. */
    CHECK(start(&again, 100, 7), 0);
    CHECK(take_notice(&again, list, list_len), 0);
    CHECK(offer(&again, "4470", 20).status, RATE_BOOK_OPEN);
    CHECK(offer(&again, "4470", 20).key, offer(&s, "44", 20).key);
    CHECK(offer(&again, "4470", 26).status, RATE_BOOK_OPEN);
    CHECK(offer(&again, "4470", 27).status, RATE_BOOK_BLOCKED);

    /* Into one of notice period 0, and then 7 days for what follows. */
    CHECK(load_list(&again, list, list_len, 1, RATE_BOOK_LONGEST_PERIOD + 1), RATE_BOOK_PERIOD_TOO_LONG);
    CHECK(load_list(&again, list, list_len - 1, 1, 7), RATE_BOOK_BYTES_END);
    CHECK(load_list(&again, list, list_len, 1, 7), 0);
    CHECK(again.current.words[RATE_BOOK_WORD_PERIOD], 7);
    CHECK(again.current.words[RATE_BOOK_WORD_LAST_RECEIVED], 20);
    CHECK(again.current.words[RATE_BOOK_WORD_LATEST_EFFECTIVE], 20);
    CHECK(offer(&again, "44", 19).status, RATE_BOOK_CLOSED);
    CHECK(offer(&again, "44", 20).rate, 5000000);
    CHECK(offer(&again, "4470", 20).status, RATE_BOOK_BLOCKED);
    CHECK(offer(&again, "4470", 20).key, offer(&s, "4470", 20).key);

    /* An increase of day 21 waits for day 28 in both. */
    begin_notice(RATE_BOOK_KIND_UPDATE, 21, 1);
    put_rate("44", 6000000);
    CHECK(take(&s), 0);
    CHECK(take(&again), 0);
    CHECK(offer(&again, "44", 27).rate, 5000000);
    CHECK(offer(&again, "44", 28).rate, 6000000);
    for (uint64_t day = 20; day < 40; day++) {
        CHECK(offer(&again, "44", day).rate, offer(&s, "44", day).rate);
        CHECK(offer(&again, "4470", day).status, offer(&s, "4470", day).status);
    }

    /* That increase is pending on day 21, so it is not in the list of that day. */
    written = write_list(&s, 21, list, list_room(&s));
    CHECK(written.refusal, 0);
    CHECK(load_list(&again, list, (size_t)written.length, 100, 7), 0);
    CHECK(offer(&s, "44", 28).rate, 6000000);
    CHECK(offer(&again, "44", 28).rate, 5000000);
    CHECK(offer(&again, "44", RATE_BOOK_LAST_DAY).rate, 5000000);
    end(&s);
    end(&again);
}

static text text_of(const char *bytes)
{
    text t = {(const uint8_t *)bytes, strlen(bytes)};
    return t;
}

/* The key of a code, by a cell of its own. */
static uint64_t key_of(const char *code)
{
    uint64_t key = 0;
    CHECK(rate_book_cell((const uint8_t *)"", 0, (const uint8_t *)code, strlen(code), &key, 1).count, 1);
    return key;
}

static void cells(void)
{
    key_list k = {NULL, 0, 0};
    text none = text_of(""), algeria = text_of("213");
    CHECK(take_cell(&k, algeria, text_of("61, 7-8")), 0);
    CHECK(k.count, 3);
    CHECK(k.len, 16);
    CHECK(k.words[0], key_of("21361"));
    CHECK(k.words[1], key_of("2137"));
    CHECK(k.words[2], key_of("2138"));
    CHECK(take_cell(&k, none, text_of("21361, 2137-2138")), 0);
    CHECK(k.words[0], key_of("21361"));
    CHECK(take_cell(&k, algeria, text_of("  ")), 0);
    CHECK(k.count, 1);
    CHECK(k.words[0], key_of("213"));

    /* More words, by doubling. */
    CHECK(take_cell(&k, none, text_of("44500-44999,44000-44499,44")), 0);
    CHECK(k.count, 1001);
    CHECK(k.len, 1024);
    CHECK(k.words[0], key_of("44"));
    CHECK(k.words[1], key_of("44000"));
    CHECK(k.words[1000], key_of("44999"));

    /* The entry to be mended. */
    static const struct {
        const char *cell;
        uint64_t refusal;
        size_t at;
    } refused[] = {{"61, 7 - 8, 9", RATE_BOOK_ENTRY_NOT_ALLOWED, 3},
                   {"61,8-7,", RATE_BOOK_RANGE_NOT_ALLOWED, 3},
                   {"61,", RATE_BOOK_ENTRY_NOT_ALLOWED, 3},
                   {"x", RATE_BOOK_ENTRY_NOT_ALLOWED, 0},
                   {"0-9,00000-09999", RATE_BOOK_RANGE_NOT_ALLOWED, 4}};
    for (size_t i = 0; i < sizeof refused / sizeof refused[0]; i++) {
        CHECK(take_cell(&k, algeria, text_of(refused[i].cell)), refused[i].refusal);
        CHECK(k.count, 0);
        CHECK(refused_entry(algeria, text_of(refused[i].cell)), refused[i].at);
    }
    CHECK(refused_entry(algeria, text_of("61, 7-8")), 7);
    CHECK(refused_entry(text_of("213 "), text_of("61")), 0);
    free(k.words);
}

int main(void)
{
    longer_books();
    the_most();
    lists();
    cells();
    return verdict("the code of docs/EMBEDDING.md");
}
