/* Pezvoran for C: the verdict on a statement file and the check of a finished table, for 64 labels and for 256.
   Link with libpezvoran.a for the small edition and libpezvoran_large.a for the large one: `tools/build` writes them to target/staticlib, and
   where ./install put them pkg-config knows them as pezvoran and pezvoran_large. C99 or later, or C++. */
#ifndef PEZVORAN_H
#define PEZVORAN_H

#include <stddef.h>
#include <stdint.h>

/* The version, which packages and command have too. */
#define PEZVORAN_VERSION "0.1.0"
#define PEZVORAN_VERSION_MAJOR 0
#define PEZVORAN_VERSION_MINOR 1
#define PEZVORAN_VERSION_PATCH 0

#ifdef __cplusplus
extern "C" {
#endif

/* ---- the operations */

/* There are two editions. In the small one label bytes are 0 to 63 and a row of the table is one word; in the large one they are 0 to 255 and a row is
   four words. A file that the small edition reads has the same verdict, label and count in the large one. Names with LARGE and large are the large
   edition's; a name without them is the small one's, or both's where there is no other. A table made in one edition is no table of the other.

   All operations take any bytes and any table, empty ones too: nothing has to be tested before a call. Lengths are in bytes and in words. A pointer may
   be NULL where its length is 0; else it points to that many bytes or words, a table's pointer is aligned as a uint64_t is, and file and table do not
   overlap. The answer is one word, to be read with the functions below.

   A call keeps nothing from one call to the next and takes no memory but the stack, so threads may call at the same time, each with a table of its own; what
   it takes of the stack is below, under sizes. */

/* The verdict: confined, leaks or refused. Unless it refuses, the first PEZVORAN_TABLE_WORDS words of the table, or PEZVORAN_LARGE_TABLE_WORDS, become
   the finished table, whatever stood there; words beyond stay as they are. A refusal leaves every word as it is. */
uint64_t verdict(const uint8_t *file, size_t file_length, uint64_t *table, size_t table_length);
uint64_t verdict_large(const uint8_t *file, size_t file_length, uint64_t *table, size_t table_length);

/* The check of a finished table, whoever made it: accepted or refused. It only reads. An accepted table shows that the file is confined. */
uint64_t check(const uint8_t *file, size_t file_length, const uint64_t *table, size_t table_length);
uint64_t check_large(const uint8_t *file, size_t file_length, const uint64_t *table, size_t table_length);

/* ---- sizes */

enum {
    PEZVORAN_FILE_BYTES = 32768, /* the longest statement file */
    PEZVORAN_VARIABLES = 256,
    PEZVORAN_NAMES = 32,
    PEZVORAN_GUEST_ROW = 1, /* what the guest may hold */

    PEZVORAN_LABELS = 64,
    PEZVORAN_ROW_WORDS = 1, /* 64-bit words of a row */
    PEZVORAN_ROWS = 2432,
    PEZVORAN_TABLE_WORDS = 2432, /* a full table */

    PEZVORAN_LARGE_LABELS = 256,
    PEZVORAN_LARGE_ROW_WORDS = 4,
    PEZVORAN_LARGE_ROWS = 8960,
    PEZVORAN_LARGE_TABLE_WORDS = 35840
};

/* The stack, in bytes. A call takes no more than this of it, on any file and table (computed from the archives and measured, in tests/memory); the check has two
   tables of its own there. What verdicts that run side by side take of memory is a table and this for each of them: eight take
   8 * (8 * PEZVORAN_TABLE_WORDS + PEZVORAN_VERDICT_STACK_BYTES), 565,248 bytes, and 2,760,704 in the large edition. A thread takes some of its stack for itself, and
   more where a program has much thread-local data. One with too little dies. */
enum {
    PEZVORAN_VERDICT_STACK_BYTES = 51200,
    PEZVORAN_CHECK_STACK_BYTES = 68608,
    PEZVORAN_LARGE_VERDICT_STACK_BYTES = 58368,
    PEZVORAN_LARGE_CHECK_STACK_BYTES = 603136,

    PEZVORAN_THREAD_STACK_BYTES = 16384, /* beside the call: so much more is enough for a thread that only calls */
    PEZVORAN_STACK_BYTES = 98304,        /* enough for a thread that calls either operation */
    PEZVORAN_LARGE_STACK_BYTES = 786432
};

/* ---- an answer taken apart: a part that the outcome does not have is 0 */

typedef enum {
    PEZVORAN_CONFINED = 0, /* has a count */
    PEZVORAN_LEAKS = 1,    /* has a label, a guest and a count */
    PEZVORAN_ACCEPTED = 2, /* has a count, 0 for the check */
    PEZVORAN_REFUSED = 3,  /* has a number and a position, and for 11 a guest */
    PEZVORAN_CHOICE = 4,   /* has a choice; no operation here answers it, nor the next */
    PEZVORAN_NONE_HELPS = 5
} pezvoran_outcome;

/* The numbers of refusals; others up to 16 have a place in the word. */
typedef enum {
    PEZVORAN_UNKNOWN_KIND = 1,
    PEZVORAN_RECORD_CUT_SHORT = 2,
    PEZVORAN_BAD_VARIABLE = 3,
    PEZVORAN_BAD_LABEL = 4,
    PEZVORAN_BAD_VALUE = 5,
    PEZVORAN_DECLARED_TWICE = 6,
    PEZVORAN_FUNCTION_MISSING = 7,
    PEZVORAN_TABLE_TOO_SHORT = 8,
    PEZVORAN_FILE_TOO_LONG = 9,
    PEZVORAN_TABLE_NOT_CLOSED = 10,
    PEZVORAN_FORBIDDEN_HELD = 11
} pezvoran_refusal;

/* A refusal from 1 to 15 has its number in bits 0 to 3 and its position above them. Any other answer has 0 there and its outcome in bits 4 to 7; a refusal
   with that outcome is 16. */
static inline pezvoran_outcome pezvoran_outcome_of(uint64_t answer)
{
    return (answer & 15) != 0 ? PEZVORAN_REFUSED : (pezvoran_outcome)(answer >> 4 & 15);
}

/* The number of a refusal, 1 to 16. */
static inline unsigned pezvoran_number(uint64_t answer)
{
    if ((answer & 15) != 0)
        return (unsigned)(answer & 15);
    return pezvoran_outcome_of(answer) == PEZVORAN_REFUSED ? 16 : 0;
}

/* The position of a refusal. pezvoran_position_means says what it is. */
static inline uint64_t pezvoran_position(uint64_t answer)
{
    switch (pezvoran_number(answer)) {
    case 0: return 0;
    case PEZVORAN_FORBIDDEN_HELD: return answer >> 4 & 8191;
    case 16: return answer >> 8;
    default: return answer >> 4;
    }
}

/* The lowest forbidden label that the guest may hold, where the outcome is leaks. */
static inline unsigned pezvoran_label(uint64_t answer)
{
    return pezvoran_outcome_of(answer) == PEZVORAN_LEAKS ? (unsigned)(answer >> 8 & 511) : 0;
}

/* The label of the guest that may hold it, where the outcome is leaks or the refusal is 11: 3, the guest of document 01. */
static inline unsigned pezvoran_guest(uint64_t answer)
{
    int named = pezvoran_outcome_of(answer) == PEZVORAN_LEAKS || pezvoran_number(answer) == PEZVORAN_FORBIDDEN_HELD;
    return named ? (unsigned)(answer >> 17 & 255) : 0;
}

/* The number of facts in the finished table, where the outcome is confined or leaks; a count where it is accepted. */
static inline uint32_t pezvoran_count(uint64_t answer)
{
    return pezvoran_outcome_of(answer) < PEZVORAN_REFUSED ? (uint32_t)(answer >> 32 & 0x3fffff) : 0;
}

/* Which grants to withdraw, bit i for the i-th, where the outcome is a choice. */
static inline unsigned pezvoran_choice(uint64_t answer)
{
    return pezvoran_outcome_of(answer) == PEZVORAN_CHOICE ? (unsigned)(answer >> 8 & 4095) : 0;
}

/* ---- refusals */

/* A line of plain words for a refusal's number. */
static inline const char *pezvoran_refusal_text(unsigned number)
{
    switch (number) {
    case PEZVORAN_UNKNOWN_KIND: return "the record's kind is unknown";
    case PEZVORAN_RECORD_CUT_SHORT: return "the file ends inside the record";
    case PEZVORAN_BAD_VARIABLE: return "a variable of the record is not declared or not allowed there";
    case PEZVORAN_BAD_LABEL: return "a label or scope of the record is not declared or not allowed there";
    case PEZVORAN_BAD_VALUE: return "a name, key, mask, class, type or flag of the record is out of range";
    case PEZVORAN_DECLARED_TWICE: return "the record declares a name, label, variable, function or profile a second time";
    case PEZVORAN_FUNCTION_MISSING: return "a function label has no function record";
    case PEZVORAN_TABLE_TOO_SHORT: return "the table is not full: a full one has 2432 words, in the large edition 35840";
    case PEZVORAN_FILE_TOO_LONG: return "the file is longer than 32768 bytes";
    case PEZVORAN_TABLE_NOT_CLOSED: return "the table lacks a fact that the rules give";
    case PEZVORAN_FORBIDDEN_HELD: return "by the table the guest may hold a forbidden label";
    default: return "no refusal has this number";
    }
}

/* What a refusal's position is, in a word or two; empty where it has none. */
static inline const char *pezvoran_position_means(unsigned number)
{
    switch (number) {
    case PEZVORAN_UNKNOWN_KIND:
    case PEZVORAN_RECORD_CUT_SHORT:
    case PEZVORAN_BAD_VARIABLE:
    case PEZVORAN_BAD_LABEL:
    case PEZVORAN_BAD_VALUE:
    case PEZVORAN_DECLARED_TWICE: return "record at byte";
    case PEZVORAN_FUNCTION_MISSING: return "file length";
    case PEZVORAN_TABLE_NOT_CLOSED: return "row";
    case PEZVORAN_FORBIDDEN_HELD: return "label";
    default: return "";
    }
}

/* ---- the rows of a table: row r of the small edition is word r of the table, and bit l of it stands for label l; row r of the large edition is the run
   of four words from word 4r, and label l is bit l of the run */

/* What a variable may hold; in both editions. */
static inline size_t pezvoran_variable_row(uint8_t variable)
{
    return variable;
}

/* What a property of a label's objects may hold; in both editions. In all that follows a label is one of the edition, and a name is below 32. */
static inline size_t pezvoran_property_row(uint8_t label, uint8_t name)
{
    return PEZVORAN_VARIABLES + PEZVORAN_NAMES * (size_t)label + name;
}

/* What may stand on the prototype chain of a label's objects. */
static inline size_t pezvoran_chain_row(uint8_t label)
{
    return PEZVORAN_ROWS - 2 * PEZVORAN_LABELS + (size_t)label;
}

static inline size_t pezvoran_large_chain_row(uint8_t label)
{
    return PEZVORAN_LARGE_ROWS - 2 * PEZVORAN_LARGE_LABELS + (size_t)label;
}

/* What may be thrown in a scope, which is 0 or a label. */
static inline size_t pezvoran_thrown_row(uint8_t scope)
{
    return PEZVORAN_ROWS - PEZVORAN_LABELS + (size_t)scope;
}

static inline size_t pezvoran_large_thrown_row(uint8_t scope)
{
    return PEZVORAN_LARGE_ROWS - PEZVORAN_LARGE_LABELS + (size_t)scope;
}

/* Whether a row, given by its one word, holds a label. */
static inline int pezvoran_holds(uint64_t row, uint8_t label)
{
    return (int)(row >> label & 1);
}

/* Whether a row of a large table, given by its number, holds a label. */
static inline int pezvoran_large_holds(const uint64_t *table, size_t row, uint8_t label)
{
    return pezvoran_holds(table[PEZVORAN_LARGE_ROW_WORDS * row + label / 64], label % 64);
}

#ifdef __cplusplus
}
#endif

#endif
