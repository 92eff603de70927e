/* How libFuzzer changes an input: a field of the head, a whole record, or any bytes behind the head. */
#include "input.h"
#include "repair.h"

#include <string.h>

size_t LLVMFuzzerMutate(uint8_t *bytes, size_t length, size_t room);
size_t LLVMFuzzerCustomMutator(uint8_t *input, size_t length, size_t room, unsigned seed);

/* The first record's end behind `at`. */
static size_t next(const uint8_t *bytes, size_t length, size_t at)
{
    size_t end = at + record_length(bytes[at]);
    return end < length ? end : length;
}

/* The last start of a record that is not behind `at`. */
static size_t record_before(const uint8_t *bytes, size_t length, size_t at)
{
    size_t start = 0;
    while (start < length && next(bytes, length, start) <= at)
        start = next(bytes, length, start);
    return start;
}

/* Puts a record before the one that starts at `to`, where there is room. */
static size_t put_record(uint8_t *bytes, size_t length, size_t room, size_t to, const uint8_t *record, size_t size)
{
    if (length + size > room)
        return length;
    memmove(bytes + to + size, bytes + to, length - to);
    memcpy(bytes + to, record, size);
    return length + size;
}

/* Takes a record out, or puts before another a copy of it or a return at the top level. */
static size_t change_record(uint8_t *bytes, size_t length, size_t room, unsigned seed)
{
    uint8_t record[LONGEST_RECORD];
    const uint8_t top_return[] = {23, 0, (uint8_t)(seed >> 22)};
    size_t start = record_before(bytes, length, (seed >> 2) % length);
    size_t size = next(bytes, length, start) - start;
    size_t to = record_before(bytes, length, (seed >> 14) % length);
    switch (seed & 3) {
    case 0: return put_record(bytes, length, room, seed >> 31 ? length : start, top_return, sizeof top_return);
    case 1:
        memcpy(record, bytes + start, size);
        return put_record(bytes, length, room, to, record, size);
    default:
        memmove(bytes + start, bytes + start + size, length - start - size);
        return length - size;
    }
}

/* Gives one group of the head's bytes random values: mode, table, damage, seed, or one of the changes. */
static void change_head(uint8_t *head, unsigned seed)
{
    static const uint8_t ends[] = {0, 1, 2, 5, 7, 11, 15, HEAD};
    unsigned group = seed % (sizeof ends - 1);
    for (unsigned i = ends[group]; i < ends[group + 1]; i++) {
        seed = seed * 1103515245u + 12345u;
        head[i] = (uint8_t)(seed >> 16);
    }
}

size_t LLVMFuzzerCustomMutator(uint8_t *input, size_t length, size_t room, unsigned seed)
{
    if (length <= HEAD || room <= HEAD)
        return LLVMFuzzerMutate(input, length, room);
    unsigned rest = seed >> 2;
    switch (seed & 3) {
    case 0: change_head(input, rest); return length;
    case 1: return HEAD + change_record(input + HEAD, length - HEAD, room - HEAD, rest);
    default: return HEAD + LLVMFuzzerMutate(input + HEAD, length - HEAD, room - HEAD);
    }
}
