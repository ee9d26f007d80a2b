/* Each constant of the header against the library: what it names is accepted, the next is refused. */
#include "fields.h"

#define MOST_WORDS (RATE_BOOK_HEADER_WORDS + (RATE_BOOK_MOST_ENTRIES + 9) * RATE_BOOK_ENTRY_WORDS)
#define CALLS (RATE_BOOK_MOST_CALLS + 1)
#define LIST_BYTES (RATE_BOOK_LONGEST_LIST_HEAD + (size_t)RATE_BOOK_MOST_ENTRIES * RATE_BOOK_LONGEST_LIST_LINE)

static uint64_t fresh[RATE_BOOK_HEADER_WORDS], book[MOST_WORDS], larger[MOST_WORDS], rows[CALLS * RATE_BOOK_ROW_WORDS];
static uint8_t list[LIST_BYTES + 1];

static void begin(uint64_t period)
{
    CHECK(rate_book_fresh(fresh, RATE_BOOK_HEADER_WORDS, period), 0);
}

/* Applies the message made to the fresh book. */
static rate_book_applied applied(void)
{
    return rate_book_apply(fresh, RATE_BOOK_HEADER_WORDS, made.bytes, made.length, book, MOST_WORDS);
}

static rate_book_offer offer(const char *number, uint64_t day)
{
    return rate_book_lookup(book, MOST_WORDS, (const uint8_t *)number, strlen(number), day);
}

static uint64_t call(const char *number, uint64_t moment, uint64_t duration)
{
    return rate_book_rate_call(book, MOST_WORDS, (const uint8_t *)number, strlen(number), moment, duration).refusal;
}

/* The refusal of an update with one line, of these fields. */
static uint64_t line(uint64_t count, uint64_t value, uint64_t status, uint64_t decimals, uint64_t mantissa, uint64_t first,
                     uint64_t next, uint64_t listed)
{
    begin_notice(RATE_BOOK_KIND_UPDATE, 10, 1);
    put(count);
    put(value);
    put(status);
    if (status == RATE_BOOK_LINE_RATE) {
        put(decimals);
        put(mantissa);
        put(first);
        put(next);
    }
    put(listed);
    return applied().refusal;
}

static uint64_t rate_line(uint64_t decimals, uint64_t mantissa, uint64_t first, uint64_t next, uint64_t listed)
{
    return line(2, 44, RATE_BOOK_LINE_RATE, decimals, mantissa, first, next, listed);
}

/* 44 at 0.05 from day 10 on. */
static void price(void)
{
    begin(0);
    begin_notice(RATE_BOOK_KIND_UPDATE, 10, 1);
    put_rate("44", 5000000);
    CHECK(applied().refusal, 0);
}

static void days_and_moments(void)
{
    price();
    CHECK(offer("44", RATE_BOOK_LAST_DAY).refusal, 0);
    CHECK(offer("44", RATE_BOOK_LAST_DAY + 1).refusal, RATE_BOOK_TIME_OUT_OF_RANGE);
    CHECK(rate_line(8, 1, 1, 1, RATE_BOOK_LAST_DAY + 1), 0); /* the field is the listed day plus one */
    CHECK(rate_line(8, 1, 1, 1, RATE_BOOK_LAST_DAY + 2), RATE_BOOK_OUT_OF_RANGE);

    price();
    CHECK(rate_book_list(book, MOST_WORDS, RATE_BOOK_LAST_RECEIVED_DAY, list, sizeof list).refusal, 0);
    CHECK(rate_book_list(book, MOST_WORDS, RATE_BOOK_LAST_RECEIVED_DAY + 1, list, sizeof list).refusal,
          RATE_BOOK_TIME_OUT_OF_RANGE);
    begin_notice(RATE_BOOK_KIND_UPDATE, RATE_BOOK_LAST_RECEIVED_DAY, 1);
    put_rate("44", 1);
    CHECK(applied().refusal, 0);
    begin_notice(RATE_BOOK_KIND_UPDATE, RATE_BOOK_LAST_RECEIVED_DAY + 1, 1);
    put_rate("44", 1);
    CHECK(applied().refusal, RATE_BOOK_OUT_OF_RANGE);

    price();
    CHECK(call("44", RATE_BOOK_MOMENTS_END - 1, 1), 0);
    CHECK(call("44", RATE_BOOK_MOMENTS_END, 1), RATE_BOOK_TIME_OUT_OF_RANGE);
    CHECK(call("44", 10 * RATE_BOOK_DAY_SECONDS, 1), 0);
    CHECK(call("44", 10 * RATE_BOOK_DAY_SECONDS - 1, 1), RATE_BOOK_NO_OFFER);
    CHECK((RATE_BOOK_LAST_DAY + 1) * RATE_BOOK_DAY_SECONDS, RATE_BOOK_MOMENTS_END);
    CHECK(call("44", 10 * RATE_BOOK_DAY_SECONDS, RATE_BOOK_LONGEST_DURATION), 0);
    CHECK(call("44", 10 * RATE_BOOK_DAY_SECONDS, RATE_BOOK_LONGEST_DURATION + 1), RATE_BOOK_DURATION_TOO_LONG);
}

static void periods(void)
{
    CHECK(rate_book_fresh(book, MOST_WORDS, RATE_BOOK_LONGEST_PERIOD), 0);
    CHECK(rate_book_fresh(book, MOST_WORDS, RATE_BOOK_LONGEST_PERIOD + 1), RATE_BOOK_PERIOD_TOO_LONG);
}

static void lines(void)
{
    static const char number[] = "9999999999999999";
    CHECK(sizeof number - 1, RATE_BOOK_LONGEST_CODE + 1);
    begin(0);
    CHECK(line(RATE_BOOK_LONGEST_CODE, UINT64_C(999999999999999), RATE_BOOK_LINE_BLOCK, 0, 0, 0, 0, 0), 0);
    CHECK(line(RATE_BOOK_LONGEST_CODE + 1, UINT64_C(9999999999999999), RATE_BOOK_LINE_BLOCK, 0, 0, 0, 0, 0),
          RATE_BOOK_OUT_OF_RANGE);
    CHECK(offer(number + 1, 10).refusal, 0);
    CHECK(offer(number, 10).refusal, RATE_BOOK_NOT_A_NUMBER);

    CHECK(rate_line(RATE_BOOK_MOST_DECIMALS, 1, 1, 1, 0), 0);
    CHECK(rate_line(RATE_BOOK_MOST_DECIMALS + 1, 1, 1, 1, 0), RATE_BOOK_OUT_OF_RANGE);
    CHECK(rate_line(8, RATE_BOOK_LARGEST_MANTISSA, 1, 1, 0), 0);
    CHECK(rate_line(8, RATE_BOOK_LARGEST_MANTISSA + 1, 1, 1, 0), RATE_BOOK_OUT_OF_RANGE);
    CHECK(rate_line(8, 1, RATE_BOOK_LONGEST_INCREMENT, 1, 0), 0);
    CHECK(rate_line(8, 1, RATE_BOOK_LONGEST_INCREMENT + 1, 1, 0), RATE_BOOK_OUT_OF_RANGE);
    CHECK(rate_line(8, 1, 1, RATE_BOOK_LONGEST_INCREMENT, 0), 0);
    CHECK(rate_line(8, 1, 1, RATE_BOOK_LONGEST_INCREMENT + 1, 0), RATE_BOOK_OUT_OF_RANGE);

    CHECK(rate_line(8, RATE_BOOK_DEAREST_RATE, 1, 1, 0), 0);
    CHECK(offer("44", 10).status, RATE_BOOK_OPEN);
    CHECK(offer("44", 10).rate, RATE_BOOK_DEAREST_RATE);
    CHECK(rate_line(8, RATE_BOOK_DEAREST_RATE + 1, 1, 1, 0), 0);
    CHECK(offer("44", 10).status, RATE_BOOK_BLOCKED);
    CHECK(offer("44", 9).status, RATE_BOOK_CLOSED);
}

/* An update of day 20 that sets 44, open since day 10, to a status. */
static rate_book_applied set(uint64_t status)
{
    price();
    memcpy(larger, book, sizeof book);
    begin_notice(RATE_BOOK_KIND_UPDATE, 20, 1);
    if (status == RATE_BOOK_LINE_RATE) {
        put_rate("44", 7);
    } else {
        put_code("44");
        put(status);
        put(0);
    }
    return rate_book_apply(larger, MOST_WORDS, made.bytes, made.length, book, MOST_WORDS);
}

static void statuses(void)
{
    CHECK(set(RATE_BOOK_LINE_DELETE).refusal, 0);
    CHECK(offer("44", 20).status, RATE_BOOK_CLOSED);
    CHECK(set(RATE_BOOK_LINE_BLOCK).refusal, 0);
    CHECK(offer("44", 20).status, RATE_BOOK_BLOCKED);
    CHECK(set(RATE_BOOK_LINE_RATE).refusal, 0);
    CHECK(offer("44", 20).status, RATE_BOOK_OPEN);
    CHECK(offer("44", 20).rate, 7);
    CHECK(set(RATE_BOOK_LINE_RATE + 1).refusal, RATE_BOOK_UNKNOWN_KIND);
}

/* What a notice of a kind, received on day 20 with 4420 alone, leaves open on that day of 33, 44, 4420: a bit each. */
static unsigned left_by(uint64_t kind)
{
    static uint64_t before[MOST_WORDS];
    begin(0);
    begin_notice(RATE_BOOK_KIND_UPDATE, 10, 2);
    put_rate("33", 5);
    put_rate("44", 5);
    CHECK(applied().refusal, 0);
    memcpy(before, book, sizeof book);

    made.length = 0;
    put(kind);
    put(20);
    if (kind == RATE_BOOK_KIND_REPLACEMENT) {
        put_code("44");
    }
    put(1);
    put_rate("4420", 5);
    CHECK(rate_book_apply(before, MOST_WORDS, made.bytes, made.length, book, MOST_WORDS).refusal, 0);
    return (offer("33", 20).status == RATE_BOOK_OPEN ? 1 : 0) + (offer("44", 20).status == RATE_BOOK_OPEN ? 2 : 0) +
           (offer("4420", 20).status == RATE_BOOK_OPEN ? 4 : 0);
}

static void kinds(void)
{
    /* A replacement alone has fields of a country, so it is no partial notice. */
    CHECK(left_by(RATE_BOOK_KIND_FULL), 4);
    CHECK(left_by(RATE_BOOK_KIND_PARTIAL), 1 + 4);
    CHECK(left_by(RATE_BOOK_KIND_UPDATE), 1 + 2 + 4);
    CHECK(left_by(RATE_BOOK_KIND_REPLACEMENT), 1 + 4);
    begin_notice(RATE_BOOK_KIND_FULL - 1, 10, 1);
    put_rate("44", 5);
    CHECK(applied().refusal, RATE_BOOK_UNKNOWN_KIND);
    begin_notice(RATE_BOOK_KIND_REPLACEMENT + 1, 10, 1);
    put_rate("44", 5);
    CHECK(applied().refusal, RATE_BOOK_UNKNOWN_KIND);
}

static void words(void)
{
    enum { SMALL = RATE_BOOK_HEADER_WORDS + RATE_BOOK_ENTRY_WORDS };
    uint64_t small[SMALL];
    CHECK(rate_book_fresh(small, RATE_BOOK_HEADER_WORDS, 0), 0);
    CHECK(rate_book_fresh(small, RATE_BOOK_HEADER_WORDS - 1, 0), RATE_BOOK_BOOK_TOO_SHORT);
    CHECK(rate_book_words(0), RATE_BOOK_HEADER_WORDS);
    CHECK(rate_book_words(1), SMALL);
    CHECK(rate_book_words(RATE_BOOK_MOST_ENTRIES), RATE_BOOK_HEADER_WORDS + RATE_BOOK_MOST_ENTRIES * RATE_BOOK_ENTRY_WORDS);
    CHECK(rate_book_words(RATE_BOOK_MOST_ENTRIES + 1), rate_book_words(RATE_BOOK_MOST_ENTRIES));

    /* One entry, received on day 10, effective on day 30, with a notice period of 7. */
    begin(7);
    begin_notice(RATE_BOOK_KIND_UPDATE, 10, 1);
    put_code("44");
    put(RATE_BOOK_LINE_BLOCK);
    put(30 + 1);
    CHECK(rate_book_apply(fresh, RATE_BOOK_HEADER_WORDS, made.bytes, made.length, small, SMALL - 1).refusal, RATE_BOOK_BOOK_FULL);
    CHECK(rate_book_apply(fresh, RATE_BOOK_HEADER_WORDS, made.bytes, made.length, small, SMALL).refusal, 0);
    CHECK(small[RATE_BOOK_WORD_ENTRIES], 1);
    CHECK(small[RATE_BOOK_WORD_PERIOD], 7);
    CHECK(small[RATE_BOOK_WORD_LAST_RECEIVED], 10);
    CHECK(small[RATE_BOOK_WORD_LATEST_EFFECTIVE], 30);

    /* Each header word at its end, and past it. */
    static const struct {
        int word;
        uint64_t end;
    } headers[] = {{RATE_BOOK_WORD_ENTRIES, 1},
                   {RATE_BOOK_WORD_PERIOD, RATE_BOOK_LONGEST_PERIOD},
                   {RATE_BOOK_WORD_LAST_RECEIVED, RATE_BOOK_LAST_RECEIVED_DAY},
                   {RATE_BOOK_WORD_LATEST_EFFECTIVE, RATE_BOOK_LAST_DAY}};
    for (size_t i = 0; i < RATE_BOOK_HEADER_WORDS; i++) {
        uint64_t kept = small[headers[i].word];
        small[headers[i].word] = headers[i].end;
        CHECK(rate_book_lookup(small, SMALL, (const uint8_t *)"44", 2, 30).refusal, 0);
        small[headers[i].word] = headers[i].end + 1;
        CHECK(rate_book_lookup(small, SMALL, (const uint8_t *)"44", 2, 30).refusal, RATE_BOOK_BOOK_NOT_SOUND);
        small[headers[i].word] = kept;
    }
}

/* A full notice of so many lines, each as long as a line of a list can be, received on the last day. */
static void long_lines(uint64_t count)
{
    begin_notice(RATE_BOOK_KIND_FULL, RATE_BOOK_LAST_RECEIVED_DAY, count);
    for (uint64_t i = 0; i < count; i++) {
        put(RATE_BOOK_LONGEST_CODE);
        put(UINT64_C(999999999900000) + i);
        put(RATE_BOOK_LINE_RATE);
        put(8);
        put(RATE_BOOK_DEAREST_RATE);
        put(RATE_BOOK_LONGEST_INCREMENT);
        put(RATE_BOOK_LONGEST_INCREMENT);
        put(0);
    }
}

static void most_lines_and_entries(void)
{
    begin(0);
    long_lines(RATE_BOOK_MOST_LINES + 1);
    CHECK(applied().refusal, RATE_BOOK_OUT_OF_RANGE);
    long_lines(RATE_BOOK_MOST_LINES);
    CHECK(applied().refusal, 0);
    CHECK(book[RATE_BOOK_WORD_ENTRIES], RATE_BOOK_MOST_ENTRIES);

    CHECK(rate_book_list(book, MOST_WORDS, RATE_BOOK_LAST_RECEIVED_DAY, list, LIST_BYTES - 1).refusal, RATE_BOOK_BUFFER_TOO_SHORT);
    CHECK(rate_book_list(book, MOST_WORDS, RATE_BOOK_LAST_RECEIVED_DAY, list, LIST_BYTES).length, LIST_BYTES);
    CHECK(made.length, LIST_BYTES);
    CHECK(memcmp(made.bytes, list, LIST_BYTES), 0);

    /* One more, with words to spare. */
    begin_notice(RATE_BOOK_KIND_UPDATE, RATE_BOOK_LAST_RECEIVED_DAY, 1);
    put_rate("44", 5);
    CHECK(rate_book_apply(book, MOST_WORDS, made.bytes, made.length, larger, MOST_WORDS).refusal, RATE_BOOK_BOOK_FULL);
}

/* A batch of so many calls to 44. */
static void calls(uint64_t count)
{
    made.length = 0;
    put(count);
    for (uint64_t i = 0; i < count; i++) {
        put_code("44");
        put(10 * RATE_BOOK_DAY_SECONDS);
        put(60);
    }
}

static void batches(void)
{
    price();
    calls(2);
    CHECK(rate_book_rate_batch(book, MOST_WORDS, made.bytes, made.length, rows, 2 * RATE_BOOK_ROW_WORDS - 1).refusal,
          RATE_BOOK_BUFFER_TOO_SHORT);
    rows[2 * RATE_BOOK_ROW_WORDS] = 9;
    CHECK(rate_book_rate_batch(book, MOST_WORDS, made.bytes, made.length, rows, 2 * RATE_BOOK_ROW_WORDS).rated, 2);
    CHECK(rows[2 * RATE_BOOK_ROW_WORDS - 1], 5000000);
    CHECK(rows[2 * RATE_BOOK_ROW_WORDS], 9);

    calls(RATE_BOOK_MOST_CALLS);
    CHECK(rate_book_rate_batch(book, MOST_WORDS, made.bytes, made.length, rows, CALLS * RATE_BOOK_ROW_WORDS).rated,
          RATE_BOOK_MOST_CALLS);
    calls(RATE_BOOK_MOST_CALLS + 1);
    CHECK(rate_book_rate_batch(book, MOST_WORDS, made.bytes, made.length, rows, CALLS * RATE_BOOK_ROW_WORDS).refusal,
          RATE_BOOK_OUT_OF_RANGE);
}

static rate_book_cell_keys cell(const char *text, uint64_t *keys, size_t room)
{
    return rate_book_cell((const uint8_t *)"", 0, (const uint8_t *)text, strlen(text), keys, room);
}

static void cells(void)
{
    uint64_t keys[RATE_BOOK_MOST_CODES + 1];
    char text[64];
    snprintf(text, sizeof text, "44000-%d", 44000 + RATE_BOOK_MOST_CODES - 1);
    keys[RATE_BOOK_MOST_CODES] = 9;
    CHECK(cell(text, keys, RATE_BOOK_MOST_CODES).count, RATE_BOOK_MOST_CODES);
    CHECK(keys[RATE_BOOK_MOST_CODES], 9);
    CHECK(cell(text, keys, RATE_BOOK_MOST_CODES - 1).refusal, RATE_BOOK_KEYS_TOO_MANY);
    CHECK(rate_book_cell_entry((const uint8_t *)"", 0, (const uint8_t *)text, strlen(text), keys, RATE_BOOK_MOST_CODES).count,
          RATE_BOOK_MOST_CODES);
    snprintf(text, sizeof text, "44000-%d", 44000 + RATE_BOOK_MOST_CODES);
    CHECK(cell(text, keys, RATE_BOOK_MOST_CODES + 1).refusal, RATE_BOOK_RANGE_NOT_ALLOWED);

    memset(text, '9', RATE_BOOK_LONGEST_CODE + 1);
    text[RATE_BOOK_LONGEST_CODE + 1] = 0;
    CHECK(cell(text, keys, 1).refusal, RATE_BOOK_ENTRY_NOT_ALLOWED);
    CHECK(cell(text + 1, keys, 1).count, 1);

    /* The key of a code is that of a book's entry. */
    price();
    CHECK(cell("44", keys, 1).count, 1);
    CHECK(keys[0], book[RATE_BOOK_HEADER_WORDS]);
}

int main(void)
{
    days_and_moments();
    periods();
    lines();
    statuses();
    kinds();
    words();
    most_lines_and_entries();
    batches();
    cells();
    return verdict("constants");
}
