// The C++ of docs/EMBEDDING.md, which tests/embedding.sh puts into lent.hpp: empty vectors as slices of every call.
#include <cstdint>
#include <vector>

#include "fields.h"
#include "lent.hpp"

int main()
{
    std::vector<std::uint64_t> none, book(7), next(7);
    const std::vector<std::uint8_t> no_bytes;
    std::vector<std::uint8_t> no_room;
    CHECK(lent(none) != nullptr, 1);
    CHECK(lent(no_bytes) != nullptr, 1);
    CHECK(lent(no_room) != nullptr, 1);
    CHECK(lent(book) == book.data(), 1);

    CHECK(rate_book_fresh(lent(none), none.size(), 7), RATE_BOOK_BOOK_TOO_SHORT);
    CHECK(rate_book_fresh(lent(book), book.size(), 7), 0);
    CHECK(rate_book_apply(lent(none), none.size(), lent(no_bytes), no_bytes.size(), lent(next), next.size()).refusal,
          RATE_BOOK_BOOK_TOO_SHORT);
    CHECK(rate_book_apply(lent(book), book.size(), lent(no_bytes), no_bytes.size(), lent(next), next.size()).refusal,
          RATE_BOOK_BYTES_END);
    begin_notice(RATE_BOOK_KIND_UPDATE, 10, 1);
    put_rate("44", 5000000);
    CHECK(rate_book_apply(lent(book), book.size(), made.bytes, made.length, lent(none), none.size()).refusal,
          RATE_BOOK_BOOK_TOO_SHORT);
    CHECK(rate_book_apply(lent(book), book.size(), made.bytes, made.length, lent(next), next.size()).refusal, 0);
    CHECK(rate_book_lookup(lent(next), next.size(), lent(no_bytes), no_bytes.size(), 10).refusal, RATE_BOOK_NOT_A_NUMBER);
    CHECK(rate_book_rate_call(lent(next), next.size(), lent(no_bytes), no_bytes.size(), 0, 0).refusal, RATE_BOOK_NOT_A_NUMBER);
    const std::vector<std::uint8_t> no_calls(1, 0);
    CHECK(rate_book_rate_batch(lent(next), next.size(), lent(no_calls), no_calls.size(), lent(none), none.size()).refusal, 0);
    CHECK(rate_book_rate_batch(lent(next), next.size(), lent(no_bytes), no_bytes.size(), lent(none), none.size()).refusal,
          RATE_BOOK_BYTES_END);
    CHECK(rate_book_list(lent(next), next.size(), 10, lent(no_room), no_room.size()).refusal, RATE_BOOK_BUFFER_TOO_SHORT);
    CHECK(rate_book_cell(lent(no_bytes), no_bytes.size(), lent(no_bytes), no_bytes.size(), lent(none), none.size()).refusal,
          RATE_BOOK_ENTRY_NOT_ALLOWED);
    CHECK(rate_book_cell_entry(lent(no_bytes), no_bytes.size(), lent(no_bytes), no_bytes.size(), lent(none), none.size()).refusal,
          RATE_BOOK_ENTRY_NOT_ALLOWED);
    const std::vector<std::uint8_t> one(1, '1');
    CHECK(rate_book_cell(lent(one), one.size(), lent(no_bytes), no_bytes.size(), lent(book), book.size()).count, 1);
    CHECK(rate_book_cell(lent(no_bytes), no_bytes.size(), lent(one), one.size(), lent(none), none.size()).refusal,
          RATE_BOOK_KEYS_TOO_MANY);
    CHECK(rate_book_cell_entry(lent(no_bytes), no_bytes.size(), lent(one), one.size(), lent(book), book.size()).rest, 1);
    return verdict("empty slices");
}
