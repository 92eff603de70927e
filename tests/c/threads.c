/* Eight threads at the same time, four of each edition, each with a table of its own. First each has the stack that the header states for a verdict, and judges;
   then that for either operation, and judges and checks. Every answer and every word must be what one thread alone got.

   threads         many calls
   threads few     few, for helgrind, which sees two threads touch the same word
   threads shared  few, and the first two threads have one table: helgrind must see that they do */
#define _POSIX_C_SOURCE 200112L /* for barriers */
#include "pezvoran.h"

#include <pthread.h>
#include <stdio.h>
#include <string.h>

enum { THREADS = 8, MANY = 400, FEW = 2 };

static const struct edition {
    uint64_t (*verdict)(const uint8_t *file, size_t file_length, uint64_t *table, size_t table_length);
    uint64_t (*check)(const uint8_t *file, size_t file_length, const uint64_t *table, size_t table_length);
    size_t table_words, verdict_stack, either_stack;
} editions[] = {
    {verdict, check, PEZVORAN_TABLE_WORDS, PEZVORAN_VERDICT_STACK_BYTES + PEZVORAN_THREAD_STACK_BYTES, PEZVORAN_STACK_BYTES},
    {verdict_large, check_large, PEZVORAN_LARGE_TABLE_WORDS, PEZVORAN_LARGE_VERDICT_STACK_BYTES + PEZVORAN_THREAD_STACK_BYTES, PEZVORAN_LARGE_STACK_BYTES},
};
enum { EDITIONS = sizeof editions / sizeof *editions };

/* A host with a journal, label 5, in variable 2, and a function, label 6, that comes to the guest down a chain of copies against the order of the file. */
static const uint8_t host[] = {2, 5, 1, 0, 3, 5, 5, 2, 0, 255, 8, 2, 5, 2, 6, 2, 0, 4, 6, 0, 0, 0, 0, 0, 0, 0};
enum { FIRST = 3, LAST = 100, CONFINED = 0, LEAKS = 1, REFUSED = 2, FILES = 3 };

static struct {
    uint8_t bytes[sizeof host + 8 * LAST];
    size_t length;
} files[FILES];

/* What one thread alone gets of a file in an edition. */
static struct {
    uint64_t answer, again, table[PEZVORAN_LARGE_TABLE_WORDS];
} alone[EDITIONS][FILES];

static void append(int file, const uint8_t *bytes, size_t count)
{
    memcpy(files[file].bytes + files[file].length, bytes, count);
    files[file].length += count;
}

/* The host and a grant of the function; a grant of the journal as well; a grant of the guest's own bag, which no record may name. */
static void make_files(void)
{
    for (int file = 0; file < FILES; file++) {
        append(file, host, sizeof host);
        for (int v = FIRST; v <= LAST; v++)
            append(file, (uint8_t[]){5, (uint8_t)v, 0, 255}, 4);
        for (int v = FIRST; v < LAST; v++)
            append(file, (uint8_t[]){16, 0, (uint8_t)v, (uint8_t)(v + 1)}, 4);
        append(file, (uint8_t[]){8, LAST, 6, 6, FIRST}, 5);
    }
    append(LEAKS, (uint8_t[]){6, 2}, 2);
    append(REFUSED, (uint8_t[]){6, 1}, 2);
}

/* Says whether the files have the answers that they are made for. */
static int judge_alone(void)
{
    for (int e = 0; e < EDITIONS; e++) {
        for (int file = 0; file < FILES; file++) {
            memset(alone[e][file].table, 0x5a, sizeof alone[e][file].table);
            alone[e][file].answer = editions[e].verdict(files[file].bytes, files[file].length, alone[e][file].table, editions[e].table_words);
            alone[e][file].again = editions[e].check(files[file].bytes, files[file].length, alone[e][file].table, editions[e].table_words);
        }
        if (pezvoran_outcome_of(alone[e][CONFINED].answer) != PEZVORAN_CONFINED || pezvoran_outcome_of(alone[e][CONFINED].again) != PEZVORAN_ACCEPTED ||
            pezvoran_label(alone[e][LEAKS].answer) != 5 || pezvoran_number(alone[e][LEAKS].again) != PEZVORAN_FORBIDDEN_HELD ||
            pezvoran_number(alone[e][REFUSED].answer) != PEZVORAN_BAD_VARIABLE)
            return 0;
    }
    return 1;
}

static uint64_t tables[THREADS][PEZVORAN_LARGE_TABLE_WORDS];
static int calls, checks; /* how often each thread calls; whether it checks */
static pthread_barrier_t start;

struct thread {
    int edition, first; /* the file that it begins with */
    uint64_t *table;
};

/* Answers NULL where every answer and every word is right. */
static void *work(void *of_thread)
{
    struct thread *thread = of_thread;
    const struct edition *edition = &editions[thread->edition];
    size_t words = edition->table_words;
    pthread_barrier_wait(&start);
    for (int i = 0; i < calls * FILES; i++) {
        int file = (thread->first + i) % FILES;
        if (file == REFUSED) /* which leaves the table as it is */
            memcpy(thread->table, alone[thread->edition][file].table, words * sizeof *thread->table);
        uint64_t answer = edition->verdict(files[file].bytes, files[file].length, thread->table, words);
        if (answer != alone[thread->edition][file].answer || memcmp(thread->table, alone[thread->edition][file].table, words * sizeof *thread->table) != 0)
            return of_thread;
        if (checks && edition->check(files[file].bytes, files[file].length, thread->table, words) != alone[thread->edition][file].again)
            return of_thread;
    }
    return NULL;
}

/* Says whether every thread got what one thread alone gets. */
static int side_by_side(int shared)
{
    struct thread threads[THREADS];
    pthread_t running[THREADS];
    int right = pthread_barrier_init(&start, NULL, THREADS) == 0;
    for (int i = 0; i < THREADS; i++) {
        pthread_attr_t attributes;
        threads[i] = (struct thread){shared ? i / 4 : i % EDITIONS, i, tables[shared && i == 1 ? 0 : i]};
        const struct edition *edition = &editions[threads[i].edition];
        size_t stack = checks ? edition->either_stack : edition->verdict_stack;
        if (pthread_attr_init(&attributes) || pthread_attr_setstacksize(&attributes, stack) || pthread_create(&running[i], &attributes, work, &threads[i])) {
            fprintf(stderr, "threads: no thread with a stack of %zu bytes\n", stack);
            return 0;
        }
    }
    for (int i = 0; i < THREADS; i++) {
        void *wrong;
        if (pthread_join(running[i], &wrong) != 0 || wrong != NULL) {
            fprintf(stderr, "threads: thread %d with a table of %zu words got another answer or table than one alone\n", i, editions[threads[i].edition].table_words);
            right = 0;
        }
    }
    pthread_barrier_destroy(&start);
    return right;
}

int main(int argc, char **argv)
{
    int shared = argc > 1 && strcmp(argv[1], "shared") == 0;
    calls = argc > 1 ? FEW : MANY;
    make_files();
    if (!judge_alone()) {
        fprintf(stderr, "threads: one thread alone does not get the answers that the files are made for\n");
        return 1;
    }
    for (checks = 0; checks < 2; checks++)
        if (!side_by_side(shared))
            return 1;
    return 0;
}
