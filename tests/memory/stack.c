/* What a call takes of the stack, held to the header. Each operation of each edition is called in a thread whose stack was painted; what is not painted any
   more below the caller's frame is what the call took. It must be no more than the header states, and at most SLACK bytes less, so that the header is true. */
#define _DEFAULT_SOURCE /* for MAP_ANONYMOUS */
#include "pezvoran.h"

#include <pthread.h>
#include <stdio.h>
#include <string.h>
#include <sys/mman.h>

enum { STACK = 1 << 20, PAINT = 0xa5, SLACK = 1024, FIRST = 2, LAST = 200, LABEL = 5, FUNCTION = 6 };

static const struct operation {
    const char *name;
    uint64_t (*verdict)(const uint8_t *file, size_t file_length, uint64_t *table, size_t table_length);
    uint64_t (*check)(const uint8_t *file, size_t file_length, const uint64_t *table, size_t table_length); /* NULL: the verdict is called */
    size_t table_words, stated;
} operations[] = {
    {"verdict", verdict, NULL, PEZVORAN_TABLE_WORDS, PEZVORAN_VERDICT_STACK_BYTES},
    {"check", verdict, check, PEZVORAN_TABLE_WORDS, PEZVORAN_CHECK_STACK_BYTES},
    {"verdict_large", verdict_large, NULL, PEZVORAN_LARGE_TABLE_WORDS, PEZVORAN_LARGE_VERDICT_STACK_BYTES},
    {"check_large", verdict_large, check_large, PEZVORAN_LARGE_TABLE_WORDS, PEZVORAN_LARGE_CHECK_STACK_BYTES},
};

static uint8_t file[PEZVORAN_FILE_BYTES];
static size_t length;

static void put(const uint8_t *bytes, size_t count)
{
    memcpy(file + length, bytes, count);
    length += count;
}
#define PUT(...) put((const uint8_t[]){__VA_ARGS__}, sizeof(const uint8_t[]){__VA_ARGS__})

static void empty(void)
{
}

static void refused(void)
{
    PUT(2, LABEL, 2, 0);
}

/* Every kind of statement, and a chain of copies against the order of the file: a pass moves what the last variable holds one variable on, so that the verdict
   goes beyond its first passes. */
static void long_chain(void)
{
    PUT(1, 4, 3);
    PUT(2, LABEL, 1, 0);
    PUT(2, FUNCTION, 2, 0);
    PUT(3, LABEL);
    for (int v = FIRST; v <= LAST; v++)
        PUT(5, (uint8_t)v, 0, 255);
    PUT(5, LAST + 1, 0, 4);
    PUT(4, FUNCTION, 2, 3, 4, 5, 6, 7, 8);
    PUT(6, FIRST);
    PUT(7, LABEL, 1, FUNCTION);
    PUT(8, LAST, LABEL);
    PUT(8, LAST, FUNCTION);
    for (int v = FIRST; v < LAST; v++)
        PUT(16, 0, (uint8_t)v, (uint8_t)(v + 1));
    for (int v = FIRST; v < LAST; v += 9) {
        uint8_t x = (uint8_t)v, y = (uint8_t)(v + 1);
        PUT(17, 0, x, y, 128, LABEL);
        PUT(17, 0, x, y, 137, LABEL);
        PUT(18, FUNCTION, x, 4, y);
        PUT(18, FUNCTION, x, 129, y);
        PUT(19, 0, x, LABEL);
        PUT(20, 0, x, FUNCTION, LABEL);
        PUT(21, 0, x, y, x, y, x, y, x, y, x);
        PUT(22, FUNCTION, x, y, x, LABEL, y, x, y, x, y, x);
        PUT(23, FUNCTION, y);
        PUT(24, FUNCTION, y);
        PUT(25, 0, x);
        PUT(26, 0, y);
    }
}

static const struct {
    const char *name;
    void (*make)(void);
    int readable;
} files[] = {{"empty", empty, 1}, {"refused", refused, 0}, {"long chain", long_chain, 1}};

static uint64_t table[PEZVORAN_LARGE_TABLE_WORDS];

struct call {
    const struct operation *operation;
    const uint8_t *mark; /* a byte of the frame from which the call is made */
    uint64_t answer;
};

static void *made(void *of_call)
{
    struct call *call = of_call;
    const struct operation *operation = call->operation;
    uint8_t here = 0;
    const volatile uint8_t *mark = &here;
    call->mark = (const uint8_t *)mark;
    call->answer = operation->check != NULL ? operation->check(file, length, table, operation->table_words)
                                            : operation->verdict(file, length, table, operation->table_words);
    return NULL;
}

/* The bytes of the stack that a call took; 0 where it could not be made. */
static size_t taken(struct call *call)
{
    uint8_t *stack = mmap(NULL, STACK, PROT_READ | PROT_WRITE, MAP_PRIVATE | MAP_ANONYMOUS, -1, 0);
    pthread_attr_t attributes;
    pthread_t thread;
    if (stack == MAP_FAILED)
        return 0;
    memset(stack, PAINT, STACK);
    if (pthread_attr_init(&attributes) || pthread_attr_setstack(&attributes, stack, STACK) || pthread_create(&thread, &attributes, made, call) ||
        pthread_join(thread, NULL))
        return 0;
    size_t lowest = 0;
    while (stack + lowest < call->mark && stack[lowest] == PAINT)
        lowest++;
    size_t bytes = (size_t)(call->mark - (stack + lowest));
    munmap(stack, STACK);
    return bytes;
}

int main(void)
{
    int right = 1;
    for (size_t o = 0; o < sizeof operations / sizeof *operations; o++) {
        const struct operation *operation = &operations[o];
        size_t most = 0;
        for (size_t f = 0; f < sizeof files / sizeof *files; f++) {
            length = 0;
            files[f].make();
            uint64_t answer = operation->verdict(file, length, table, operation->table_words);
            struct call call = {operation, NULL, 0};
            size_t bytes = taken(&call);
            int read = pezvoran_number(call.answer) == 0 || pezvoran_number(call.answer) == PEZVORAN_FORBIDDEN_HELD;
            if ((pezvoran_outcome_of(answer) != PEZVORAN_REFUSED) != files[f].readable || read != files[f].readable || bytes == 0) {
                fprintf(stderr, "stack: %s, %s: the call was not made, or not answered as it should\n", operation->name, files[f].name);
                return 1;
            }
            most = bytes > most ? bytes : most;
        }
        printf("stack: %s takes %zu bytes, the header states %zu\n", operation->name, most, operation->stated);
        if (most > operation->stated || most + SLACK < operation->stated) {
            fprintf(stderr, "stack: %s: the header must state from %zu to %zu bytes\n", operation->name, most, most + SLACK);
            right = 0;
        }
    }
    return right ? 0 : 1;
}
