// The calls of the library, each with a fault after it if one was chosen: so the self-test sees that the harness finds it. A
// fault is of one kind, in one call, in one place: a number of its answer, or one of its slices.
#include <stddef.h>
#include <stdint.h>

enum { NONE, ANSWER, FIRST, LAST, IF_REFUSED, WRITE_BEFORE, WRITE_AFTER, READ_BEFORE, READ_AFTER, WRITE_READ, ENDLESS };
enum { WORDS, FRESH, APPLY, LOOKUP, RATE_CALL, RATE_BATCH, LIST, CELL, CELL_ENTRY };

struct slice {
    const void *start;
    size_t bytes;
};

struct two { uint64_t n[2]; };
struct three { uint64_t n[3]; };
struct four { uint64_t n[4]; };
struct six { uint64_t n[6]; };

uint64_t rate_book_words(uint64_t);
uint64_t rate_book_fresh(uint64_t *, size_t, uint64_t);
struct four rate_book_apply(const uint64_t *, size_t, const uint8_t *, size_t, uint64_t *, size_t);
struct six rate_book_lookup(const uint64_t *, size_t, const uint8_t *, size_t, uint64_t);
struct four rate_book_rate_call(const uint64_t *, size_t, const uint8_t *, size_t, uint64_t, uint64_t);
struct four rate_book_rate_batch(const uint64_t *, size_t, const uint8_t *, size_t, uint64_t *, size_t);
struct two rate_book_list(const uint64_t *, size_t, uint64_t, uint8_t *, size_t);
struct two rate_book_cell(const uint8_t *, size_t, const uint8_t *, size_t, uint64_t *, size_t);
struct three rate_book_cell_entry(const uint8_t *, size_t, const uint8_t *, size_t, uint64_t *, size_t);

static uint64_t chosen_kind, chosen_call, chosen_place;
static volatile uint8_t seen;

void choose_fault(uint64_t kind, uint64_t call, uint64_t place) {
    chosen_kind = kind;
    chosen_call = call;
    chosen_place = place;
}

// The chosen fault, if it is one of this call: `refused` is its refusal, kept from before the answer is altered.
static void fault(uint64_t call, uint64_t *answer, const struct slice *slices) {
    uint64_t refused = answer[0];
    if (chosen_call != call || chosen_kind == NONE)
        return;
    if (chosen_kind == ANSWER) {
        answer[chosen_place] += 1;
        return;
    }
    if (chosen_kind == ENDLESS)
        for (;;)
            seen += 1;
    volatile uint8_t *start = (volatile uint8_t *)slices[chosen_place].start;
    size_t bytes = slices[chosen_place].bytes;
    if (chosen_kind == WRITE_BEFORE)
        start[-1] ^= 1;
    if (chosen_kind == WRITE_AFTER)
        start[bytes] ^= 1;
    if (chosen_kind == READ_BEFORE)
        seen = start[-1];
    if (chosen_kind == READ_AFTER)
        seen = start[bytes];
    if (bytes == 0)
        return;
    if (chosen_kind == FIRST || (chosen_kind == IF_REFUSED && refused != 0))
        start[0] ^= 1;
    if (chosen_kind == LAST)
        start[bytes - 1] ^= 1;
    if (chosen_kind == WRITE_READ)
        start[0] = start[0];
}

uint64_t faulty_rate_book_words(uint64_t entries) {
    uint64_t answer = rate_book_words(entries);
    fault(WORDS, &answer, NULL);
    return answer;
}

uint64_t faulty_rate_book_fresh(uint64_t *book, size_t words, uint64_t period) {
    uint64_t answer = rate_book_fresh(book, words, period);
    fault(FRESH, &answer, (struct slice[]){{book, 8 * words}});
    return answer;
}

struct four faulty_rate_book_apply(const uint64_t *old, size_t words, const uint8_t *notice, size_t bytes, uint64_t *new,
                                   size_t room) {
    struct four answer = rate_book_apply(old, words, notice, bytes, new, room);
    fault(APPLY, answer.n, (struct slice[]){{old, 8 * words}, {notice, bytes}, {new, 8 * room}});
    return answer;
}

struct six faulty_rate_book_lookup(const uint64_t *book, size_t words, const uint8_t *number, size_t digits, uint64_t day) {
    struct six answer = rate_book_lookup(book, words, number, digits, day);
    fault(LOOKUP, answer.n, (struct slice[]){{book, 8 * words}, {number, digits}});
    return answer;
}

struct four faulty_rate_book_rate_call(const uint64_t *book, size_t words, const uint8_t *number, size_t digits, uint64_t moment,
                                       uint64_t duration) {
    struct four answer = rate_book_rate_call(book, words, number, digits, moment, duration);
    fault(RATE_CALL, answer.n, (struct slice[]){{book, 8 * words}, {number, digits}});
    return answer;
}

struct four faulty_rate_book_rate_batch(const uint64_t *book, size_t words, const uint8_t *batch, size_t bytes, uint64_t *rows,
                                        size_t room) {
    struct four answer = rate_book_rate_batch(book, words, batch, bytes, rows, room);
    fault(RATE_BATCH, answer.n, (struct slice[]){{book, 8 * words}, {batch, bytes}, {rows, 8 * room}});
    return answer;
}

struct two faulty_rate_book_list(const uint64_t *book, size_t words, uint64_t day, uint8_t *out, size_t room) {
    struct two answer = rate_book_list(book, words, day, out, room);
    fault(LIST, answer.n, (struct slice[]){{book, 8 * words}, {out, room}});
    return answer;
}

struct two faulty_rate_book_cell(const uint8_t *country, size_t digits, const uint8_t *cell, size_t bytes, uint64_t *keys,
                                 size_t room) {
    struct two answer = rate_book_cell(country, digits, cell, bytes, keys, room);
    fault(CELL, answer.n, (struct slice[]){{country, digits}, {cell, bytes}, {keys, 8 * room}});
    return answer;
}

struct three faulty_rate_book_cell_entry(const uint8_t *country, size_t digits, const uint8_t *cell, size_t bytes, uint64_t *keys,
                                         size_t room) {
    struct three answer = rate_book_cell_entry(country, digits, cell, bytes, keys, room);
    fault(CELL_ENTRY, answer.n, (struct slice[]){{country, digits}, {cell, bytes}, {keys, 8 * room}});
    return answer;
}
