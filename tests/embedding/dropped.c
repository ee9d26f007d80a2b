/* Nine dropped answers, for the compiler to warn of: as C and as C++. */
#include "rate_book.h"

void drop(uint64_t *book, uint64_t *other, uint8_t *bytes);

void drop(uint64_t *book, uint64_t *other, uint8_t *bytes)
{
    rate_book_words(1);
    rate_book_fresh(book, 7, 7);
    rate_book_apply(book, 7, bytes, 1, other, 7);
    rate_book_lookup(book, 7, bytes, 1, 0);
    rate_book_rate_call(book, 7, bytes, 1, 0, 0);
    rate_book_rate_batch(book, 7, bytes, 1, other, 7);
    rate_book_list(book, 7, 0, bytes, 1);
    rate_book_cell(bytes, 1, bytes, 1, book, 7);
    rate_book_cell_entry(bytes, 1, bytes, 1, book, 7);
}
