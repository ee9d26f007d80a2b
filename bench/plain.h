/* The calls of the Rate Book in plain C: what the library is measured against. The same arguments, answers and refusals. */
#ifndef PLAIN_H
#define PLAIN_H

#include <stddef.h>
#include <stdint.h>

struct plain_applied { uint64_t refusal, entries, received, latest; };
struct plain_offer { uint64_t refusal, key, status, rate, first, next; };
struct plain_call { uint64_t refusal, key, seconds, charge; };
struct plain_batch { uint64_t refusal, rated, refused, total; };
struct plain_list { uint64_t refusal, length; };
struct plain_cell { uint64_t refusal, count; };
struct plain_cell_entry { uint64_t refusal, count, rest; };

uint64_t plain_fresh(uint64_t *book, size_t len, uint64_t period);
struct plain_applied plain_apply(const uint64_t *old, size_t old_len, const uint8_t *notice, size_t notice_len,
                                 uint64_t *new, size_t new_len);
struct plain_offer plain_lookup(const uint64_t *book, size_t len, const uint8_t *number, size_t number_len, uint64_t day);
struct plain_call plain_rate_call(const uint64_t *book, size_t len, const uint8_t *number, size_t number_len,
                                  uint64_t moment, uint64_t duration);
struct plain_batch plain_rate_batch(const uint64_t *book, size_t len, const uint8_t *batch, size_t batch_len,
                                    uint64_t *rows, size_t rows_len);
struct plain_list plain_list(const uint64_t *book, size_t len, uint64_t day, uint8_t *out, size_t out_len);
struct plain_cell plain_cell(const uint8_t *country, size_t country_len, const uint8_t *cell, size_t cell_len, uint64_t *keys,
                             size_t keys_len);
struct plain_cell_entry plain_cell_entry(const uint8_t *country, size_t country_len, const uint8_t *cell, size_t cell_len,
                                         uint64_t *keys, size_t keys_len);

#endif
