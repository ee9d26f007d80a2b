/* The library against the plain implementation: each call is made on both, and the program ends where answers or memory differ. */
#ifndef CHECK_H
#define CHECK_H

#include "rate_book.h"

void same_fresh(size_t len, uint64_t period);
rate_book_applied same_apply(const uint64_t *old, size_t old_len, const uint8_t *notice, size_t notice_len, uint64_t *new,
                             size_t new_len);
void same_lookup(const uint64_t *book, size_t len, const char *number, size_t number_len, uint64_t day);
void same_call(const uint64_t *book, size_t len, const char *number, size_t number_len, uint64_t moment, uint64_t duration);
void same_batch(const uint64_t *book, size_t len, const uint8_t *batch, size_t batch_len, size_t rows_len);
void same_list(const uint64_t *book, size_t len, uint64_t day, size_t out_len);
uint64_t same_cell(const char *country, size_t country_len, const char *cell, size_t cell_len, size_t keys_len);
void same_cell_entry(const char *country, size_t country_len, const char *cell, size_t cell_len, size_t keys_len);

/* Random histories of small books, with damaged notices, batches and books among them, and random cells; prints how often each
 * refusal came up. */
void check_random(unsigned histories);

#endif
