/* An input: a head that says how file and tables are made, then the bytes of the file. */
#ifndef INPUT_H
#define INPUT_H

#include <stdint.h>

enum { HEAD = 19, CHANGES = 3 };

struct head {
    uint8_t mode;
    uint8_t table;              /* its length: from 240 a short table, else a full one with words beyond */
    uint8_t at[2];              /* the byte of the file that is changed; the highest bit: to a value at a border */
    uint8_t byte;               /* what it becomes; from 240: how far the file is filled */
    uint8_t seed[2];            /* of random words */
    uint8_t change[CHANGES][4]; /* of a table: the place in one of its parts, which bit, and what is done there; the part is in the last two bits */
};

/* Bits of the mode. */
enum {
    RAW = 1,     /* the bytes are the file; else records are made of them */
    HALF = 2,    /* function records that are missing are not added */
    DAMAGED = 4, /* one byte of the file is changed */
    BEFORE = 8,  /* memory that cannot be touched lies before the buffers and not behind */
    START = 48,  /* what the lent table holds: one of the four below */
    ZEROS = 0,
    ONES = 16,
    RANDOM = 32,
    FINISHED = 48,
    FILLED = 64, /* with a byte from 240: the file is filled up to about the longest size */
    LARGE = 128  /* the large edition */
};

#endif
