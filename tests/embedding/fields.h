/* What the tests of this folder share: notices and batches in bytes, books in memory, and checks. */
#ifndef FIELDS_H
#define FIELDS_H

#include <inttypes.h>
#include <stdio.h>
#include <stdlib.h>
#include <string.h>

#include "rate_book.h"

static unsigned long checked, failed;

#define CHECK(found, wanted) check(__FILE__, __LINE__, #found, (uint64_t)(found), (uint64_t)(wanted))

static void check(const char *file, int line, const char *what, uint64_t found, uint64_t wanted)
{
    checked++;
    if (found != wanted) {
        failed++;
        printf("%s:%d: %s is %" PRIu64 ", not %" PRIu64 "\n", file, line, what, found, wanted);
    }
}

/* The line that a test ends with, and its status. */
static int verdict(const char *name)
{
    printf("%s: %lu checks, %lu failed\n", name, checked, failed);
    return failed == 0 && checked > 0 ? 0 : 1;
}

typedef struct {
    uint8_t bytes[2000000];
    size_t length;
} message;

/* One message at a time, begun by the call that empties it. */
static message made;

static void put(uint64_t number)
{
    do {
        if (made.length == sizeof made.bytes) {
            printf("message too long\n");
            exit(1);
        }
        made.bytes[made.length++] = (uint8_t)(number % 128 + (number < 128 ? 0 : 128));
        number /= 128;
    } while (number != 0);
}

static void put_code(const char *digits)
{
    put(strlen(digits));
    put(strtoull(digits, NULL, 10));
}

static void begin_notice(uint64_t kind, uint64_t received, uint64_t lines)
{
    made.length = 0;
    put(kind);
    put(received);
    put(lines);
}

/* A rate of hundred-millionths, increments 1/1, no listed day. */
static void put_rate(const char *code, uint64_t rate)
{
    put_code(code);
    put(RATE_BOOK_LINE_RATE);
    put(8);
    put(rate);
    put(1);
    put(1);
    put(0);
}

#endif
