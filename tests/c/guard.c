/* What the operations of both editions touch. Every case is called with tables of no words, one too few, just enough, and one and three more, in two
   ways: with guard bytes round each buffer, and with buffers of the exact size, the verdict's table not set before, so that valgrind sees any read or
   write outside and any use of what stood in the table. The check gets file and table in memory that cannot be written. */
#define _DEFAULT_SOURCE /* for MAP_ANONYMOUS */
#include "pezvoran.h"

#include <stdio.h>
#include <stdlib.h>
#include <string.h>
#include <sys/mman.h>

enum { GUARD = 64, GUARD_BYTE = 0xa5, PAGE = 65536, GUEST = 3 }; /* PAGE: a multiple of the usual page sizes; GUEST: the guest's label */

static const struct {
    const char *name;
    uint64_t (*verdict)(const uint8_t *file, size_t file_length, uint64_t *table, size_t table_length);
    uint64_t (*check)(const uint8_t *file, size_t file_length, const uint64_t *table, size_t table_length);
    size_t table_words;
    unsigned labels;
} editions[] = {
    {"small", verdict, check, PEZVORAN_TABLE_WORDS, PEZVORAN_LABELS},
    {"large", verdict_large, check_large, PEZVORAN_LARGE_TABLE_WORDS, PEZVORAN_LARGE_LABELS},
}, *edition;

static const uint8_t confined[] = {2, 5, 1, 0, 3, 5, 5, 2, 0, 255, 8, 2, 5};
static const uint8_t leaks[] = {2, 5, 1, 0, 3, 5, 5, 2, 0, 255, 8, 2, 5, 6, 2};
static const uint8_t unknown_kind[] = {3, 3, 0};
static const uint8_t cut_short[] = {3, 3, 2, 5, 1};
static const uint8_t bad_variable[] = {6, 1};
static const uint8_t bad_label[] = {2, 4, 1, 0};
static const uint8_t last_label[] = {2, 255, 1, 0, 3, 255, 5, 2, 0, 255, 8, 2, 255, 6, 2};
static const uint8_t label_64[] = {2, 64, 1, 0};
static const uint8_t bad_value[] = {1, 32, 1};
/* Name 4 is in classes 0 and 1. Label 5 holds label 6 under it; variable 3, which the guest is granted, is loaded from label 5. */
#define LOADED_UNDER(key) {1, 4, 3, 2, 5, 1, 0, 2, 6, 1, 0, 5, 2, 0, 255, 5, 3, 0, 255, 8, 2, 5, 7, 5, 4, 6, 6, 3, 17, 0, 3, 2, key, 5}
static const uint8_t outside_class_0[] = LOADED_UNDER(136);
static const uint8_t outside_class_1[] = LOADED_UNDER(137);
static const uint8_t outside_class_7[] = LOADED_UNDER(143);
static const uint8_t bad_key[] = LOADED_UNDER(144);
static const uint8_t top_return[] = {23, 0, 0};
static const uint8_t top_return_of_undeclared[] = {23, 0, 9};
/* Label 6 holds label 5, the forbidden one, under name 4, and the guest is granted it; then the guest is held to class c, of which name 4 may be. */
#define HELD(...) {2, 5, 1, 0, 3, 5, 2, 6, 1, 0, 5, 2, 0, 255, 8, 2, 6, 7, 6, 4, 5, 6, 2, __VA_ARGS__}
static const uint8_t held_to_every_name[] = HELD(9, 0);
static const uint8_t held_to_class_1[] = HELD(9, 1);
static const uint8_t held_to_class_1_with_name_4[] = HELD(9, 1, 1, 4, 3);
static const uint8_t held_to_no_class[] = HELD(9, 8);
static const uint8_t held_twice[] = HELD(9, 1, 9, 1);
static const uint8_t declared_twice[] = {2, 5, 1, 0, 2, 5, 1, 0};
static const uint8_t function_missing[] = {2, 5, 2, 0};
static uint8_t longest[PEZVORAN_FILE_BYTES];
static uint8_t too_long[PEZVORAN_FILE_BYTES + 1];

/* A file, and what a verdict on it is with a full table: number and position where it is refused, else label and count. Where its first record declares a
   label that the edition does not have, it is refused 4 at 0 instead. */
static const struct {
    const char *name;
    const uint8_t *file;
    size_t length;
    pezvoran_outcome outcome;
    unsigned first;
    uint64_t second;
} cases[] = {
    {"empty", NULL, 0, PEZVORAN_CONFINED, 0, 45},
    {"confined", confined, sizeof confined, PEZVORAN_CONFINED, 0, 48},
    {"leaks", leaks, sizeof leaks, PEZVORAN_LEAKS, 5, 148},
    {"unknown kind", unknown_kind, sizeof unknown_kind, PEZVORAN_REFUSED, PEZVORAN_UNKNOWN_KIND, 2},
    {"cut short", cut_short, sizeof cut_short, PEZVORAN_REFUSED, PEZVORAN_RECORD_CUT_SHORT, 2},
    {"bad variable", bad_variable, sizeof bad_variable, PEZVORAN_REFUSED, PEZVORAN_BAD_VARIABLE, 0},
    {"bad label", bad_label, sizeof bad_label, PEZVORAN_REFUSED, PEZVORAN_BAD_LABEL, 0},
    {"last label", last_label, sizeof last_label, PEZVORAN_LEAKS, 255, 148},
    {"label 64", label_64, sizeof label_64, PEZVORAN_CONFINED, 0, 47},
    {"bad value", bad_value, sizeof bad_value, PEZVORAN_REFUSED, PEZVORAN_BAD_VALUE, 0},
    {"outside class 0", outside_class_0, sizeof outside_class_0, PEZVORAN_CONFINED, 0, 52},
    {"outside class 1", outside_class_1, sizeof outside_class_1, PEZVORAN_CONFINED, 0, 52},
    {"outside class 7", outside_class_7, sizeof outside_class_7, PEZVORAN_CONFINED, 0, 152},
    {"bad key", bad_key, sizeof bad_key, PEZVORAN_REFUSED, PEZVORAN_BAD_VALUE, 28},
    {"return at the top level", top_return, sizeof top_return, PEZVORAN_CONFINED, 0, 45},
    {"the same of an undeclared variable", top_return_of_undeclared, sizeof top_return_of_undeclared, PEZVORAN_REFUSED, PEZVORAN_BAD_VARIABLE, 0},
    {"a guest held to every name", held_to_every_name, sizeof held_to_every_name, PEZVORAN_LEAKS, 5, 314},
    {"held to class 1", held_to_class_1, sizeof held_to_class_1, PEZVORAN_CONFINED, 0, 22},
    {"held to class 1 with name 4", held_to_class_1_with_name_4, sizeof held_to_class_1_with_name_4, PEZVORAN_LEAKS, 5, 33},
    {"held to no class", held_to_no_class, sizeof held_to_no_class, PEZVORAN_REFUSED, PEZVORAN_BAD_VALUE, 23},
    {"held twice", held_twice, sizeof held_twice, PEZVORAN_REFUSED, PEZVORAN_DECLARED_TWICE, 25},
    {"declared twice", declared_twice, sizeof declared_twice, PEZVORAN_REFUSED, PEZVORAN_DECLARED_TWICE, 4},
    {"function missing", function_missing, sizeof function_missing, PEZVORAN_REFUSED, PEZVORAN_FUNCTION_MISSING, 4},
    {"longest", longest, sizeof longest, PEZVORAN_LEAKS, 3, 45},
    {"too long", too_long, sizeof too_long, PEZVORAN_REFUSED, PEZVORAN_FILE_TOO_LONG, 0},
};

/* The lengths of tables, by what they have beyond a full one. */
static const int beyond[] = {-1, 0, 1, 3};

static const char *running = "start";

static void must(int holds, const char *what)
{
    if (!holds) {
        fprintf(stderr, "guard: %s edition: %s: %s\n", edition->name, running, what);
        exit(1);
    }
}

/* Memory that cannot run out in this test, or the test ends. */
static void *some(void *memory)
{
    must(memory != NULL && memory != MAP_FAILED, "no memory");
    return memory;
}

static uint8_t *with_guards(const void *content, size_t bytes)
{
    uint8_t *whole = some(malloc(bytes + 2 * GUARD));
    memset(whole, GUARD_BYTE, bytes + 2 * GUARD);
    if (content != NULL)
        memcpy(whole + GUARD, content, bytes);
    return whole;
}

static int all_guard_bytes(const uint8_t *at, size_t bytes)
{
    for (size_t i = 0; i < bytes; i++)
        if (at[i] != GUARD_BYTE)
            return 0;
    return 1;
}

static int guards_stand(const uint8_t *whole, size_t bytes)
{
    return all_guard_bytes(whole, GUARD) && all_guard_bytes(whole + GUARD + bytes, GUARD);
}

static int same(const void *left, const void *right, size_t bytes)
{
    return bytes == 0 || memcmp(left, right, bytes) == 0;
}

/* Whether the first record declares a label that the edition does not have. */
static int beyond_labels(size_t i)
{
    return cases[i].length >= 2 && cases[i].file[0] == 2 && cases[i].file[1] >= edition->labels;
}

/* The answer that a case must get with a table of this length. */
static void must_answer(size_t i, size_t table_length, uint64_t answer)
{
    if (table_length < edition->table_words) {
        must(pezvoran_number(answer) == PEZVORAN_TABLE_TOO_SHORT && pezvoran_position(answer) == 0, "a short table is refused 8 at 0");
        return;
    }
    if (beyond_labels(i)) {
        must(pezvoran_number(answer) == PEZVORAN_BAD_LABEL && pezvoran_position(answer) == 0, "a label that the edition lacks is refused 4");
        return;
    }
    must(pezvoran_outcome_of(answer) == cases[i].outcome, "outcome");
    if (cases[i].outcome == PEZVORAN_REFUSED) {
        must(pezvoran_number(answer) == cases[i].first && pezvoran_position(answer) == cases[i].second, "number and position");
        must(pezvoran_label(answer) == 0 && pezvoran_guest(answer) == 0 && pezvoran_count(answer) == 0, "a verdict's refusal has no label, guest and count");
    } else {
        must(pezvoran_label(answer) == cases[i].first && pezvoran_count(answer) == cases[i].second, "label and count");
        must(pezvoran_guest(answer) == (cases[i].outcome == PEZVORAN_LEAKS ? GUEST : 0), "leaks has the guest, confined none");
        must(pezvoran_number(answer) == 0 && pezvoran_position(answer) == 0, "a verdict has no number and no position");
    }
}

/* The verdict with guard bytes round file and table; gives the guarded table. */
static uint8_t *guarded_verdict(size_t i, size_t table_length, uint64_t *answer)
{
    size_t table_bytes = table_length * sizeof(uint64_t);
    uint8_t *file = with_guards(cases[i].file, cases[i].length);
    uint8_t *table = with_guards(NULL, table_bytes);
    *answer = edition->verdict(file + GUARD, cases[i].length, (uint64_t *)(void *)(table + GUARD), table_length);
    must_answer(i, table_length, *answer);
    must(guards_stand(file, cases[i].length) && same(file + GUARD, cases[i].file, cases[i].length), "the file is only read");
    must(guards_stand(table, table_bytes), "nothing is written round the table");
    if (pezvoran_outcome_of(*answer) == PEZVORAN_REFUSED)
        must(all_guard_bytes(table + GUARD, table_bytes), "a refusal leaves every word");
    else
        must(all_guard_bytes(table + GUARD + edition->table_words * 8, table_bytes - edition->table_words * 8), "words beyond stay");
    free(file);
    return table;
}

/* The verdict with buffers of the exact size, the table not set before: the same answer and the same finished table. */
static void exact_verdict(size_t i, size_t table_length, uint64_t answer, const uint8_t *finished)
{
    uint8_t *file = cases[i].length == 0 ? NULL : some(malloc(cases[i].length));
    uint64_t *table = table_length == 0 ? NULL : some(malloc(table_length * sizeof *table));
    if (file != NULL)
        memcpy(file, cases[i].file, cases[i].length);
    must(edition->verdict(file, cases[i].length, table, table_length) == answer, "what stood in the table does not matter");
    if (pezvoran_outcome_of(answer) != PEZVORAN_REFUSED)
        must(same(table, finished, edition->table_words * sizeof *table), "the same finished table");
    free(table);
    free(file);
}

/* A copy in memory that can only be read, right before a page that cannot even be read. */
static const void *read_only(const void *content, size_t bytes, void **pages, size_t *mapped)
{
    size_t readable = (bytes / PAGE + 1) * PAGE;
    *mapped = readable + PAGE;
    *pages = some(mmap(NULL, *mapped, PROT_READ | PROT_WRITE, MAP_PRIVATE | MAP_ANONYMOUS, -1, 0));
    uint8_t *end = (uint8_t *)*pages + readable;
    if (bytes > 0)
        memcpy(end - bytes, content, bytes);
    must(mprotect(*pages, readable, PROT_READ) == 0 && mprotect(end, PAGE, PROT_NONE) == 0, "mprotect");
    return end - bytes;
}

/* The check of what the verdict left: a confined file's table is accepted, a leaking one's is refused 11, what is refused stays refused. */
static void must_check(size_t i, size_t table_length, uint64_t answer, const uint8_t *left)
{
    void *file_pages, *table_pages;
    size_t file_mapped, table_mapped;
    const uint8_t *file = read_only(cases[i].file, cases[i].length, &file_pages, &file_mapped);
    const uint64_t *table = read_only(left, table_length * sizeof *table, &table_pages, &table_mapped);
    uint64_t checked = edition->check(file, cases[i].length, table, table_length);
    switch (pezvoran_outcome_of(answer)) {
    case PEZVORAN_CONFINED:
        must(pezvoran_outcome_of(checked) == PEZVORAN_ACCEPTED, "the check accepts the table of a confined file");
        break;
    case PEZVORAN_LEAKS:
        must(pezvoran_number(checked) == PEZVORAN_FORBIDDEN_HELD && pezvoran_position(checked) == pezvoran_label(answer), "refused 11 with the label");
        must(pezvoran_guest(checked) == GUEST, "11 has the guest");
        break;
    default:
        must(checked == answer, "the check refuses a file as the verdict does");
    }
    munmap(file_pages, file_mapped);
    munmap(table_pages, table_mapped);
}

/* An empty table is not closed, for any readable file: its lowest gap is row 1, since the guest holds what it makes. */
static void an_empty_table_is_not_closed(void)
{
    uint64_t *table = some(calloc(edition->table_words, sizeof *table));
    uint64_t answer = edition->check(NULL, 0, table, edition->table_words);
    must(pezvoran_number(answer) == PEZVORAN_TABLE_NOT_CLOSED && pezvoran_position(answer) == PEZVORAN_GUEST_ROW, "refused 10 at row 1");
    free(table);
}

static void a_pointer_to_nothing_may_be_null(void)
{
    must(pezvoran_number(edition->verdict(NULL, 0, NULL, 0)) == PEZVORAN_TABLE_TOO_SHORT, "the verdict refuses 8");
    must(pezvoran_number(edition->check(NULL, 0, NULL, 0)) == PEZVORAN_TABLE_TOO_SHORT, "the check refuses 8");
}

/* All calls of a case with a table of this length. */
static void try_case(size_t i, size_t table_length)
{
    uint64_t answer;
    uint8_t *left = guarded_verdict(i, table_length, &answer);
    exact_verdict(i, table_length, answer, left + GUARD);
    must_check(i, table_length, answer, left + GUARD);
    free(left);
}

static void try_edition(void)
{
    for (size_t i = 0; i < sizeof cases / sizeof *cases; i++) {
        running = cases[i].name;
        try_case(i, 0);
        for (size_t j = 0; j < sizeof beyond / sizeof *beyond; j++)
            try_case(i, edition->table_words + (size_t)beyond[j]);
    }
    running = "no file";
    an_empty_table_is_not_closed();
    a_pointer_to_nothing_may_be_null();
}

int main(void)
{
    memset(longest, 3, sizeof longest);
    memset(too_long, 3, sizeof too_long);
    for (size_t i = 0; i < sizeof editions / sizeof *editions; i++) {
        edition = &editions[i];
        try_edition();
    }
    printf("guard: nothing outside the slices is touched, and the check only reads\n");
    return 0;
}
