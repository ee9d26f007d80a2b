/* The Rate Book: dated supplier offers by dialling code, and the price of a call. For C99 and C++11.
 *
 * The host lends all memory. The library has no heap, files, threads or clock, keeps nothing between calls, and reads and writes
 * only the slices of the call. Every call returns, whatever the slices hold; its answer and every word that it leaves are proved
 * to be those of the specification's rules.
 *
 * What the host must ensure
 *   - Slices are passed as pointer and length, in elements: words for uint64_t, bytes for uint8_t. A pointer is good for its whole
 *     length and aligned for its type (8 bytes for words).
 *   - NULL is not allowed, not even with length 0, where any other aligned address will do. The data() of an empty std::vector may
 *     be NULL; pass v.empty() ? &none : v.data(), with an object none of the element's type.
 *   - A slice that a call writes overlaps no other slice of that call: the old and the new book of an apply are two.
 *   - Until a call returns, nobody else writes its slices or reads the one that it writes.
 * Calls that keep to this may run at the same time, on different books or on one book that all only read.
 * What the slices hold is tested by the library: a damaged book, notice, batch or cell is refused.
 *
 * Linking: librate_book.a is for x86-64 Linux. It needs memset, which every C runtime and Rust's compiler-builtins have, nothing
 * else, and less than 4 KiB of stack (measured).
 *
 * Units
 *   day      0 to 65,000; a received day is at most 60,000
 *   moment   seconds since day 0 began, below 5,616,086,400; its day is the moment divided by 86,400, rounded down
 *   rate     per minute, in hundred-millionths of the contract currency: 13000000 is 0.13; at most 999,000,000 (9.99)
 *   charge   in hundred-millionths too
 *   code     1 to 15 digits, the first not 0, no shorter than its country code
 *   number   1 to 15 ASCII digits, one a byte, the first not 0; no byte marks its end
 *   key      of a code: the sum over its places i = 1, 2, .. of (digit + 1) * 11^(15 - i); 0 stands for no code
 *
 * A book is a slice of words: entry count, notice period, last received day, latest effective day; then three words an entry (key,
 * day, offer word), rising by key, then by day; then zeros. An offer word is 0 for closed, 1 for blocked, else
 * 2 + rate * 65536 + first * 256 + next. A book holds at most (length - 4) / 3 entries, rounded down, and never more than 65,535.
 * It is sound where all this and the ranges hold and no code starts closed or repeats its status. Books may be stored and copied as
 * plain words.
 *
 * Notices and batches are numbers in groups of seven bits, one a byte, lowest group first, the top bit set where another follows:
 * the shortest form, at most 9 bytes.
 *   notice   kind (enum rate_book_kind); received day; for a replacement only, the country's digit count and value; number of
 *            lines, 1 to 65,535; the lines, in rising key order
 *   line     digit count and value of the code; status (enum rate_book_line); for a rate only, decimals 0 to 12, mantissa 0 to
 *            10^10, first and next increment in seconds, 1 to 255 each; listed day plus one, or 0 for none
 *   batch    number of calls, 0 to 65,535; for each, digit count and value of the number, moment, duration
 *
 * A cell is bytes as a supplier types them: entries split by commas, each a code or a range, two codes joined by a dash; blanks
 * (byte 32) only around an entry. A range names its ends and all codes of their length between. The digits of a country cell beside
 * it go before every code, and a cell that is empty or all blanks then means the country's own code. A country cell has digits and
 * nothing else; an empty one is the same as none.
 *
 * Refusals
 * Each call but rate_book_words answers with a refusal number, 0 for none: the first in the call's order whose cause holds. With a
 * refusal all else in the answer is 0 (but the key of a blocked call), and all lent memory is left as it was. A dropped answer is
 * warned of where the compiler can (RATE_BOOK_MUST_USE).
 */
#ifndef RATE_BOOK_H
#define RATE_BOOK_H

#include <stddef.h>
#include <stdint.h>

#if (defined(__cplusplus) && __cplusplus >= 201703L) || (defined(__STDC_VERSION__) && __STDC_VERSION__ >= 202311L)
#define RATE_BOOK_MUST_USE [[nodiscard]]
#elif defined(__GNUC__)
#define RATE_BOOK_MUST_USE __attribute__((warn_unused_result))
#else
#define RATE_BOOK_MUST_USE
#endif

#ifdef __cplusplus
extern "C" {
#endif

enum rate_book_refusal {
    RATE_BOOK_NOT_REFUSED = 0,

    /* The supplier or the call feed. */
    RATE_BOOK_BYTES_END = 1,          /* bytes end before a due field's end, short of nine bytes */
    RATE_BOOK_NOT_SHORTEST = 2,       /* a number not in its shortest form, or a ninth byte with its top bit set */
    RATE_BOOK_UNKNOWN_KIND = 3,       /* unknown kind of notice, or status of a line */
    RATE_BOOK_OUT_OF_RANGE = 4,       /* a field outside its range */
    RATE_BOOK_CODE_NOT_ALLOWED = 5,   /* a code not allowed, or a replacement country that is not exactly a country code */
    RATE_BOOK_KEYS_NOT_RISING = 6,    /* a line's key not above the one before it */
    RATE_BOOK_OUTSIDE_COUNTRY = 7,    /* a line outside the replacement's country */
    RATE_BOOK_DAYS_DIFFER = 8,        /* replacement lines whose last fields differ */
    RATE_BOOK_BYTES_LEFT = 9,         /* bytes after the end */
    RATE_BOOK_RECEIVED_EARLIER = 10,  /* a notice received before the last accepted notice */

    /* The host. */
    RATE_BOOK_BOOK_TOO_SHORT = 20,    /* a book under four words */
    RATE_BOOK_BOOK_NOT_SOUND = 21,    /* a book that is not sound */
    RATE_BOOK_PERIOD_TOO_LONG = 22,   /* a notice period above 365 */
    RATE_BOOK_BUFFER_TOO_SHORT = 23,  /* rows or list buffer too short */

    /* Supplier and host together. */
    RATE_BOOK_BOOK_FULL = 30,         /* more entries than the new book holds */

    /* The caller. */
    RATE_BOOK_NOT_A_NUMBER = 40,      /* a number empty, over 15 digits, with a non-digit or starting with 0 */
    RATE_BOOK_TIME_OUT_OF_RANGE = 41, /* a day or moment beyond its end; for a list, a day above 60,000 */
    RATE_BOOK_DURATION_TOO_LONG = 42, /* a duration above 604,800 s */
    RATE_BOOK_NO_OFFER = 43,          /* no offer for the number; for a list, nothing standing */
    RATE_BOOK_OFFER_BLOCKED = 44,     /* the offer is blocked; the answer keeps the matched key */

    /* The supplier's cells, and the memory lent for their keys. */
    RATE_BOOK_ENTRY_NOT_ALLOWED = 50, /* an empty entry or range end, a stray byte, a code not allowed */
    RATE_BOOK_RANGE_NOT_ALLOWED = 51, /* a range with ends of unequal length, falling ends or more than 1,000 codes */
    RATE_BOOK_KEYS_TOO_MANY = 52      /* more distinct keys than the lent slice holds */
};

/* The status of an offer. */
enum rate_book_status {
    RATE_BOOK_CLOSED = 0,
    RATE_BOOK_BLOCKED = 1,
    RATE_BOOK_OPEN = 2
};

/* The kind of a notice, its first field. */
enum rate_book_kind {
    RATE_BOOK_KIND_FULL = 1,       /* closes every code that it does not list */
    RATE_BOOK_KIND_PARTIAL = 2,    /* closes the unlisted codes of the countries of its lines */
    RATE_BOOK_KIND_UPDATE = 3,     /* closes none */
    RATE_BOOK_KIND_REPLACEMENT = 4 /* closes the unlisted codes of the country that it names */
};

/* The status of a notice's line, the field after its code. */
enum rate_book_line {
    RATE_BOOK_LINE_DELETE = 0,
    RATE_BOOK_LINE_BLOCK = 1,
    RATE_BOOK_LINE_RATE = 2
};

#define RATE_BOOK_LAST_DAY UINT64_C(65000)
#define RATE_BOOK_LAST_RECEIVED_DAY UINT64_C(60000)
#define RATE_BOOK_MOMENTS_END UINT64_C(5616086400) /* the first moment out of range */
#define RATE_BOOK_DAY_SECONDS UINT64_C(86400)
#define RATE_BOOK_LONGEST_DURATION UINT64_C(604800)
#define RATE_BOOK_LONGEST_PERIOD UINT64_C(365)
#define RATE_BOOK_DEAREST_RATE UINT64_C(999000000)
#define RATE_BOOK_LONGEST_CODE 15 /* digits of a code, and of a number */
#define RATE_BOOK_MOST_DECIMALS 12
#define RATE_BOOK_LARGEST_MANTISSA UINT64_C(10000000000)
#define RATE_BOOK_LONGEST_INCREMENT 255
#define RATE_BOOK_MOST_LINES 65535   /* of a notice */
#define RATE_BOOK_MOST_ENTRIES 65535 /* of a book */
#define RATE_BOOK_MOST_CALLS 65535   /* of a batch */
#define RATE_BOOK_MOST_CODES 1000    /* of a range in a cell, and so keys of one entry */

#define RATE_BOOK_HEADER_WORDS 4 /* of a book: those named by RATE_BOOK_WORD_ .. */
#define RATE_BOOK_WORD_ENTRIES 0
#define RATE_BOOK_WORD_PERIOD 1
#define RATE_BOOK_WORD_LAST_RECEIVED 2
#define RATE_BOOK_WORD_LATEST_EFFECTIVE 3
#define RATE_BOOK_ENTRY_WORDS 3
#define RATE_BOOK_ROW_WORDS 4 /* of a call in a batch's rows */

#define RATE_BOOK_LONGEST_LIST_HEAD 7  /* bytes of a standing list before its lines, at most */
#define RATE_BOOK_LONGEST_LIST_LINE 21 /* bytes of a line of it, at most */

/* The book left by an apply. */
typedef struct {
    uint64_t refusal;
    uint64_t entries;          /* entries of the new book */
    uint64_t last_received;    /* received day of the last accepted notice, this one */
    uint64_t latest_effective; /* the latest effective day of any line accepted so far */
} rate_book_applied;

/* What a number costs on a day. */
typedef struct {
    uint64_t refusal;
    uint64_t key;    /* of the longest beginning that is open or blocked, 0 where there is none */
    uint64_t status; /* enum rate_book_status */
    uint64_t rate;   /* rate, first and next are 0 unless the status is open */
    uint64_t first;  /* first increment, in seconds */
    uint64_t next;   /* next increment, in seconds */
} rate_book_offer;

/* A rated call. */
typedef struct {
    uint64_t refusal;
    uint64_t key; /* of the matched code; kept with refusal 44 */
    uint64_t charged_seconds;
    uint64_t charge;
} rate_book_call;

/* A rated batch: rated + refused is the number of its calls. */
typedef struct {
    uint64_t refusal;
    uint64_t rated;
    uint64_t refused;
    uint64_t total; /* the sum of the charges */
} rate_book_batch;

/* A written list. */
typedef struct {
    uint64_t refusal;
    uint64_t length; /* in bytes */
} rate_book_listed;

/* The keys of a cell. */
typedef struct {
    uint64_t refusal;
    uint64_t count; /* keys written */
} rate_book_cell_keys;

/* The keys of a cell's first entry. */
typedef struct {
    uint64_t refusal;
    uint64_t count; /* keys written */
    uint64_t rest;  /* where the part still to be read begins: at the entry's comma, or cell_len; 0 with a refusal */
} rate_book_entry_keys;

/* The words to lend for a book of so many entries; above 65,535 entries, the words for 65,535. */
RATE_BOOK_MUST_USE
uint64_t rate_book_words(uint64_t entries);

/* Makes a fresh book with a notice period of 0 to 365 days. Answers with the refusal number alone.
 * Writes all len words of the book.
 * Refusals, in this order: 22, 20. */
RATE_BOOK_MUST_USE
uint64_t rate_book_fresh(uint64_t *book, size_t len, uint64_t notice_period);

/* Applies one notice to the old book. The new book may be longer or shorter.
 * Writes all new_len words of the new book, whatever they held. The old book is only read; after a refusal it stays the current
 * one.
 * Refusals, in this order: 20, 21 for the old book; 20 for the new; 1 to 8 at the first field that has a cause, the lowest of that
 * field; 9; 10; 30. */
RATE_BOOK_MUST_USE
rate_book_applied rate_book_apply(const uint64_t *old_book, size_t old_len, const uint8_t *notice, size_t notice_len,
                                  uint64_t *new_book, size_t new_len);

/* What a number costs on a day. A closed or blocked offer is no refusal here. Each lookup tests the whole book.
 * Writes nothing.
 * Refusals, in this order: 20, 21, 40, 41. */
RATE_BOOK_MUST_USE
rate_book_offer rate_book_lookup(const uint64_t *book, size_t len, const uint8_t *number, size_t number_len, uint64_t day);

/* Rates one call that starts at a moment and lasts 0 to 604,800 seconds. The start day prices all of it. A duration of 0 is charged
 * 0 but needs an offer. Each call tests the whole book; a batch tests it once.
 * Writes nothing.
 * Refusals, in this order: 20, 21, 40, 41, 42, 43, 44. */
RATE_BOOK_MUST_USE
rate_book_call rate_book_rate_call(const uint64_t *book, size_t len, const uint8_t *number, size_t number_len, uint64_t moment,
                                   uint64_t duration);

/* Rates a batch of calls, each as rate_book_rate_call rates it alone.
 * Writes four words for each call, in the batch's order from the first word of the rows on: refusal number or 0, key, charged
 * seconds, charge. Later words are untouched.
 * Refusals of the batch, in this order: 20; 21; 1, 2 and, for the number of calls, 4, at the first field that has a cause; 9; 23.
 * 40 to 44 stand in the call's row and do not stop the batch; there a value not below 10^(digit count) is 40 too. */
RATE_BOOK_MUST_USE
rate_book_batch rate_book_rate_batch(const uint64_t *book, size_t len, const uint8_t *batch, size_t batch_len, uint64_t *rows,
                                     size_t rows_len);

/* Writes the standing list of a day of 0 to 60,000: a full notice received that day, with each open or blocked code, rates with 8
 * decimals and no listed days. The notice period, earlier days and pending changes are not in it: to keep a book, store its words.
 * Load a list only into a fresh book of notice period 0. With a notice period N its blocks, which are increases, wait N days, and
 * until then a blocked code is open where a shorter code is. Once loaded, what the list's day gave holds for all days from it on,
 * also where a close or another price was pending. The word RATE_BOOK_WORD_PERIOD of the book left may then be set to the
 * contract's notice period, 0 to 365, for the notices to come.
 * Writes the first length bytes of out. Later bytes are untouched.
 * Refusals, in this order: 20, 21, 41, 43, 23. */
RATE_BOOK_MUST_USE
rate_book_listed rate_book_list(const uint64_t *book, size_t len, uint64_t day, uint8_t *out, size_t out_len);

/* The keys of the codes that a cell names beside a country cell, of length 0 where there is none. It takes no book. Entries that
 * rise or fall take a step for each byte and each key; else about one pass over the bytes, or over the keys so far, for each entry.
 * Writes the first count words of keys: each key once, rising, as the codes stand in a dictionary (20, 211, 27). Later words are
 * untouched.
 * Refusals: the first entry that has a cause decides, within it in this order: 50, 51, 52. 50 is also for a stray byte in the
 * country cell, for an empty entry beside a comma, and for a code inside a range that is not allowed; where the ends of a range
 * differ in length or fall, they alone are asked to be allowed. 52 is for the distinct keys of the entry and all before it. */
RATE_BOOK_MUST_USE
rate_book_cell_keys rate_book_cell(const uint8_t *country, size_t country_len, const uint8_t *cell, size_t cell_len, uint64_t *keys,
                                   size_t keys_len);

/* The same for the first entry of a cell alone, up to its comma or the cell's end. The cell is read where rest is cell_len; else
 * the next entry begins after the comma at rest.
 * Writes the first count words of keys, at most 1,000. Later words are untouched.
 * Refusals, in this order: 50, 51, 52. An empty entry is 50, also beside a country cell. */
RATE_BOOK_MUST_USE
rate_book_entry_keys rate_book_cell_entry(const uint8_t *country, size_t country_len, const uint8_t *cell, size_t cell_len,
                                          uint64_t *keys, size_t keys_len);

#ifdef __cplusplus
}
#endif

#endif
