/* The fuzz target: an input becomes a statement file and tables, both operations of an edition are called on them, and every answer and every word is
   compared with the second implementation. README.md lists the properties. */
#define _DEFAULT_SOURCE /* for MAP_ANONYMOUS */
#include "input.h"
#include "pezvoran.h"
#include "repair.h"

#include <inttypes.h>
#include <stdio.h>
#include <stdlib.h>
#include <string.h>
#include <sys/mman.h>

typedef uint64_t verdict_function(const uint8_t *file, size_t file_length, uint64_t *table, size_t table_length);
typedef uint64_t check_function(const uint8_t *file, size_t file_length, const uint64_t *table, size_t table_length);

verdict_function second_verdict, second_verdict_large;
check_function second_check, second_check_large;

int LLVMFuzzerTestOneInput(const uint8_t *input, size_t length);

/* ---- what was seen of an operation, printed at the end */

struct tally {
    const char *name;
    uint64_t seen[4], refused[17];
};

static void say_tally(const struct tally *tally)
{
    static const char *const outcomes[] = {"confined", "leaks", "accepted", "refused"};
    printf("%s:", tally->name);
    for (int outcome = 0; outcome < 4; outcome++)
        if (tally->seen[outcome] != 0)
            printf(" %s %" PRIu64, outcomes[outcome], tally->seen[outcome]);
    printf(", by number");
    for (int number = 1; number < 12; number++)
        printf(" %" PRIu64, tally->refused[number]);
    puts("");
}

static uint64_t tallied(struct tally *tally, uint64_t answer)
{
    tally->seen[pezvoran_outcome_of(answer)]++;
    tally->refused[pezvoran_number(answer)]++;
    return answer;
}

/* ---- the editions */

enum { SHORT_TABLES = 16 };

static struct edition {
    verdict_function *verdict, *second_verdict;
    check_function *check, *second_check;
    struct tally verdicts, checks;
    unsigned labels;
    size_t row_words, table_words;
    size_t parts[5]; /* where S, H, P and T begin, and the end, in rows */
    uint16_t short_tables[SHORT_TABLES];
} editions[] = {
    {verdict, second_verdict, check, second_check, {.name = "verdict"}, {.name = "check"}, PEZVORAN_LABELS, PEZVORAN_ROW_WORDS, PEZVORAN_TABLE_WORDS,
     {0, 256, 2304, 2368, PEZVORAN_ROWS}, {0, 1, 2, 63, 64, 255, 256, 257, 1000, 2303, 2304, 2367, 2368, 2400, 2430, 2431}},
    {verdict_large, second_verdict_large, check_large, second_check_large, {.name = "verdict_large"}, {.name = "check_large"}, PEZVORAN_LARGE_LABELS,
     PEZVORAN_LARGE_ROW_WORDS, PEZVORAN_LARGE_TABLE_WORDS, {0, 256, 8448, 8704, PEZVORAN_LARGE_ROWS},
     {0, 1, 4, 255, 256, 1024, 2431, 2432, 8704, 8960, 33792, 34816, 35836, 35837, 35838, 35839}},
};

static void say(void)
{
    for (int i = 0; i < 2; i++) {
        say_tally(&editions[i].verdicts);
        say_tally(&editions[i].checks);
    }
}

/* ---- sizes */

enum { BEYOND = 8, PAGE = 65536 }; /* PAGE: a multiple of the usual page sizes */
enum { FILE_ROOM = PAGE, TABLE_BYTES = 5 * PAGE, TABLE_ROOM = TABLE_BYTES / 8 };

/* Values on both sides of the borders that document 01 and requests 01 and 13 draw. */
static const uint8_t borders[] = {0, 1, 2, 3, 4, 5, 31, 32, 63, 64, 127, 128, 135, 136, 143, 144, 191, 192, 254, 255};

/* ---- the properties */

static void must(int holds, const char *what)
{
    if (!holds) {
        fprintf(stderr, "fuzz: not so: %s\n", what);
        abort();
    }
}

static void must_answer(uint64_t answer, uint64_t expected, const char *what)
{
    if (answer != expected) {
        fprintf(stderr, "fuzz: %s: answer %#" PRIx64 ", expected %#" PRIx64 "\n", what, answer, expected);
        abort();
    }
}

static void must_words(const uint64_t *table, const uint64_t *expected, size_t length, const char *what)
{
    for (size_t i = 0; i < length; i++)
        if (table[i] != expected[i]) {
            fprintf(stderr, "fuzz: %s: word %zu is %#" PRIx64 ", expected %#" PRIx64 "\n", what, i, table[i], expected[i]);
            abort();
        }
}

/* ---- memory: the pages of a buffer have one before them and one behind that cannot be touched */

static uint8_t *file_pages;
static uint8_t *table_pages;

static void protect(uint8_t *pages, size_t bytes, int access)
{
    must(mprotect(pages, bytes, access) == 0, "memory can be protected");
}

static uint8_t *guarded_pages(size_t bytes)
{
    uint8_t *all = mmap(NULL, bytes + 2 * PAGE, PROT_NONE, MAP_PRIVATE | MAP_ANONYMOUS, -1, 0);
    must(all != MAP_FAILED, "there is memory");
    protect(all + PAGE, bytes, PROT_READ | PROT_WRITE);
    return all + PAGE;
}

/* ---- calls, with memory that ends or begins where the buffers do; the file cannot be written, nor the table by the check */

struct call {
    struct edition *edition;
    const uint8_t *file;
    size_t file_length;
    uint64_t *table;
    size_t table_length;
};

static uint64_t call_verdict(const struct call *call)
{
    return tallied(&call->edition->verdicts, call->edition->verdict(call->file, call->file_length, call->table, call->table_length));
}

/* The check of these words, which must answer as the second check does. */
static uint64_t call_check(const struct call *call, const uint64_t *words)
{
    memcpy(call->table, words, call->table_length * sizeof *words);
    protect(table_pages, TABLE_BYTES, PROT_READ);
    uint64_t answer = call->edition->check(call->file, call->file_length, call->table, call->table_length);
    protect(table_pages, TABLE_BYTES, PROT_READ | PROT_WRITE);
    uint64_t expected = call->edition->second_check(call->file, call->file_length, words, call->table_length);
    must_answer(answer, expected, "the check against the second check");
    return tallied(&call->edition->checks, answer);
}

/* ---- files and tables */

static size_t make_file(const struct head *head, const struct edition *edition, const uint8_t *bytes, size_t length, uint8_t *file)
{
    size_t made = length;
    if (head->mode & RAW)
        memcpy(file, bytes, length);
    else
        made = repair(bytes, length, edition->labels, !(head->mode & HALF), file);
    if (head->mode & FILLED && head->byte >= 240) {
        static const uint8_t throw_nothing[3] = {24, 0, 0}; /* a record that adds no fact */
        size_t filled = PEZVORAN_FILE_BYTES - 8 + (head->byte - 240u);
        for (size_t i = made; i < filled; i++)
            file[i] = throw_nothing[(i - made) % sizeof throw_nothing];
        made = filled > made ? filled : made;
    }
    if (head->mode & DAMAGED && made > 0) {
        size_t at = head->at[0] | (size_t)(head->at[1] & 127) << 8;
        file[at % made] = head->at[1] & 128 ? borders[head->byte % sizeof borders] : head->byte;
    }
    return made;
}

static uint64_t random_word(uint64_t *state)
{
    uint64_t z = *state += 0x9e3779b97f4a7c15u;
    z = (z ^ z >> 30) * 0xbf58476d1ce4e5b9u;
    z = (z ^ z >> 27) * 0x94d049bb133111ebu;
    return z ^ z >> 31;
}

/* Words to begin with: zeros, ones, random or the finished table; words beyond the rows are random. */
static void make_words(const struct head *head, const struct edition *edition, const uint64_t *finished, size_t length, uint64_t *words)
{
    uint64_t state = head->seed[0] | (uint64_t)head->seed[1] << 8;
    for (size_t i = 0; i < length; i++) {
        uint64_t random = random_word(&state);
        switch (i < edition->table_words ? head->mode & START : RANDOM) {
        case ZEROS: words[i] = 0; break;
        case ONES: words[i] = UINT64_MAX; break;
        case RANDOM: words[i] = random; break;
        default: words[i] = finished[i];
        }
    }
}

/* Takes a fact out of the first word that has one, searched round from some word on. */
static void take_out(uint64_t *words, size_t length, size_t from, unsigned which)
{
    for (size_t i = 0; i < length; i++) {
        uint64_t *word = &words[(from + i) % length];
        if (*word != 0) {
            uint64_t fact = *word;
            for (which %= (unsigned)__builtin_popcountll(*word); which > 0; which--)
                fact &= fact - 1;
            *word ^= fact & -fact;
            return;
        }
    }
}

/* One change in one of the four parts of a table, S, H, P and T: a fact taken out, a label added, or a word of zeros or ones. */
static void change_words(const struct edition *edition, const uint8_t change[4], uint64_t *words)
{
    size_t place = change[0] | (size_t)change[1] << 8;
    unsigned how = change[2], part = change[3] & 3;
    uint64_t *begin = words + edition->parts[part] * edition->row_words;
    size_t length = (edition->parts[part + 1] - edition->parts[part]) * edition->row_words;
    switch (change[3] >> 6) {
    case 0:
    case 1: take_out(begin, length, place, how); break;
    case 2: begin[place % length] |= UINT64_C(1) << how % 64; break;
    default: begin[place % length] = how % 2 == 0 ? 0 : UINT64_MAX;
    }
}

/* A file that the small edition reads has the same answer in the large one. */
static void must_answer_alike(const uint8_t *file, size_t length, uint64_t answer)
{
    static uint64_t table[PEZVORAN_TABLE_WORDS];
    uint64_t small = verdict(file, length, table, PEZVORAN_TABLE_WORDS);
    if (pezvoran_outcome_of(small) != PEZVORAN_REFUSED)
        must_answer(answer, small, "the large edition against the small one");
}

/* ---- one input */

int LLVMFuzzerTestOneInput(const uint8_t *input, size_t length)
{
    static uint8_t file[FILE_ROOM];
    static uint64_t start[TABLE_ROOM], expected[TABLE_ROOM], changed[TABLE_ROOM];
    struct head head;
    if (length < HEAD || length - HEAD > FILE_ROOM - REPAIR_ADDS)
        return -1;
    if (file_pages == NULL) {
        file_pages = guarded_pages(FILE_ROOM);
        table_pages = guarded_pages(TABLE_BYTES);
        atexit(say);
    }
    memcpy(&head, input, HEAD);
    struct edition *edition = &editions[head.mode & LARGE ? 1 : 0];
    struct call call = {.edition = edition, .file_length = make_file(&head, edition, input + HEAD, length - HEAD, file)};
    call.table_length = head.table < 240 ? edition->table_words + head.table % BEYOND : edition->short_tables[head.table - 240];
    uint8_t *file_at = head.mode & BEFORE ? file_pages : file_pages + FILE_ROOM - call.file_length;
    memcpy(file_at, file, call.file_length);
    protect(file_pages, FILE_ROOM, PROT_READ);
    call.file = file_at;
    call.table = (uint64_t *)(head.mode & BEFORE ? table_pages : table_pages + TABLE_BYTES - call.table_length * sizeof *call.table);

    /* The second implementation's table, from zeros: what the lent table held does not matter to a verdict. */
    memset(expected, 0, sizeof expected);
    uint64_t answer = edition->second_verdict(file, call.file_length, expected, call.table_length);
    make_words(&head, edition, expected, call.table_length, start);
    size_t written = pezvoran_outcome_of(answer) == PEZVORAN_REFUSED ? 0 : edition->table_words;
    memcpy(expected + written, start + written, (call.table_length - written) * sizeof *start);

    memcpy(call.table, start, call.table_length * sizeof *start);
    must_answer(call_verdict(&call), answer, "the verdict against the second solver");
    must_words(call.table, expected, call.table_length, "the table left");
    must_answer(call_verdict(&call), answer, "the verdict called again");
    must_words(call.table, expected, call.table_length, "the table left by the verdict called again");
    if (call.table_length >= edition->table_words && head.mode & LARGE)
        must_answer_alike(call.file, call.file_length, answer);

    uint64_t accepted = (uint64_t)PEZVORAN_ACCEPTED << 4;
    uint64_t held = PEZVORAN_FORBIDDEN_HELD | (uint64_t)pezvoran_label(answer) << 4 | (uint64_t)pezvoran_guest(answer) << 17;
    uint64_t of_left = written == 0 ? answer : pezvoran_outcome_of(answer) == PEZVORAN_CONFINED ? accepted : held;
    must_answer(call_check(&call, expected), of_left, "the check of the table left");
    must_answer(call_check(&call, expected), of_left, "the check of the table left, called again");

    /* Each change alone on the finished table, and all of them on what the table held at the start. */
    for (int i = 0; i < CHANGES && call.table_length >= edition->table_words; i++) {
        memcpy(changed, expected, sizeof changed);
        change_words(edition, head.change[i], changed);
        call_check(&call, changed);
        change_words(edition, head.change[i], start);
    }
    call_check(&call, start);
    protect(file_pages, FILE_ROOM, PROT_READ | PROT_WRITE);
    return 0;
}
