/* The writer of include/pezvoran_format.h against the operations, in both editions: on every value of every field, on random records one behind the other and
   on buffers of every size, it refuses exactly what the verdict refuses, with the same number, and the file that it leaves is what it was told. */
#include "pezvoran_format.h"

#include <stdio.h>
#include <stdlib.h>

enum { KINDS = 27, NUMBERS = PEZVORAN_NO_ROOM + 1 };

static const struct {
    uint64_t (*verdict)(const uint8_t *file, size_t file_length, uint64_t *table, size_t table_length);
    size_t table_words, labels;
} editions[] = {
    {verdict, PEZVORAN_TABLE_WORDS, PEZVORAN_LABELS},
    {verdict_large, PEZVORAN_LARGE_TABLE_WORDS, PEZVORAN_LARGE_LABELS},
}, *edition;

static uint64_t table[PEZVORAN_LARGE_TABLE_WORDS];
static unsigned long met[NUMBERS]; /* how often the writer gave each answer */

static void fail(const char *what, unsigned kind, const uint8_t *body, size_t length)
{
    fprintf(stderr, "format: %zu labels: %s: %u", edition->labels, what, kind);
    for (size_t i = 0; i < length; i++)
        fprintf(stderr, " %u", body[i]);
    fprintf(stderr, "\n");
    exit(1);
}

/* The verdict's refusal of a file, 0 where there is none. */
static unsigned refusal(const uint8_t *file, size_t length, uint64_t *position)
{
    uint64_t answer = edition->verdict(file, length, table, edition->table_words);
    *position = pezvoran_position(answer);
    return pezvoran_number(answer);
}

/* Writes a record, and holds answer and file to the verdict on the file with the record. */
static unsigned compare(pezvoran_writer *writer, unsigned kind, const uint8_t *body, size_t length)
{
    static uint8_t file[PEZVORAN_FILE_BYTES + 1 + PEZVORAN_BODY_BYTES + 1];
    size_t before = writer->length;
    uint64_t position;
    memcpy(file, writer->file, before);
    file[before] = (uint8_t)kind;
    memcpy(file + before + 1, body, length);
    unsigned expected = refusal(file, before + 1 + length, &position);
    if (expected == PEZVORAN_FUNCTION_MISSING)
        expected = 0;
    unsigned answer = pezvoran_write(writer, kind, body, length);
    if (answer != expected)
        fail("writer and verdict differ", kind, body, length);
    if (answer != 0 && position != (answer == PEZVORAN_FILE_TOO_LONG ? 0 : before))
        fail("the verdict refuses an earlier record", kind, body, length);
    if (writer->length != (answer == 0 ? before + 1 + length : before) || memcmp(writer->file, file, writer->length) != 0)
        fail("another file was written", kind, body, length);
    if (answer >= PEZVORAN_BAD_VARIABLE && answer <= PEZVORAN_DECLARED_TWICE && writer->field >= length)
        fail("no field is named", kind, body, length);
    met[answer]++;
    return answer;
}

/* The end of the file, held to the verdict. */
static void compare_end(const pezvoran_writer *writer)
{
    uint64_t position;
    unsigned answer = pezvoran_writer_finish(writer);
    if (refusal(writer->file, writer->length, &position) != answer || (answer != 0 && position != writer->length))
        fail("writer and verdict differ at the end", 0, writer->file, writer->length);
    met[answer]++;
}

/* Numbers that look random: splitmix64. */
static uint64_t state;

static unsigned below(unsigned limit)
{
    uint64_t mixed = state += 0x9e3779b97f4a7c15;
    mixed = (mixed ^ mixed >> 30) * 0xbf58476d1ce4e5b9;
    mixed = (mixed ^ mixed >> 27) * 0x94d049bb133111eb;
    return (unsigned)((mixed ^ mixed >> 31) % limit);
}

static void must(unsigned answer, const char *what)
{
    if (answer != 0)
        fail(what, answer, NULL, 0);
}

/* Labels of every type, the last one too, built-in ones, variables of the top level and of a function, functions with a record and one without, a mask. */
static void write_host(pezvoran_writer *writer)
{
    uint8_t last = (uint8_t)(edition->labels - 1);
    const unsigned formals[] = {0, 2};
    const uint8_t labels[][3] = {{5, 1, 0}, {6, 2, 0}, {7, 3, 0}, {8, 1, 1}, {9, 2, 1}, {10, 3, 1}, {31, 2, 0}, {last, 1, 0}};
    const uint8_t variables[][3] = {{2, 0, 255}, {3, 6, 255}, {4, 0, 31}, {255, 0, 255}, {128, 9, 255}};
    for (size_t i = 0; i < sizeof labels / sizeof labels[0]; i++)
        must(pezvoran_write_label(writer, labels[i][0], labels[i][1], labels[i][2]), "a good label");
    for (size_t i = 0; i < sizeof variables / sizeof variables[0]; i++)
        must(pezvoran_write_variable(writer, variables[i][0], variables[i][1], variables[i][2]), "a good variable");
    must(pezvoran_write_function(writer, 6, 3, formals, 2), "a good function");
    must(pezvoran_write_function(writer, 9, 0, NULL, 0), "a good function");
    must(pezvoran_write_name(writer, 4, 3), "a good name");
}

/* A good body of each kind behind the host. */
static const uint8_t good[KINDS][PEZVORAN_BODY_BYTES] = {
    [PEZVORAN_KIND_NAME] = {5, 1},
    [PEZVORAN_KIND_LABEL] = {11, 1, 0},
    [PEZVORAN_KIND_FORBID] = {5},
    [PEZVORAN_KIND_FUNCTION] = {31, 2, 3, 0, 0, 0, 0, 4},
    [PEZVORAN_KIND_VARIABLE] = {5, 0, 255},
    [PEZVORAN_KIND_GRANT] = {2},
    [PEZVORAN_KIND_PROPERTY] = {0, 4, 5},
    [PEZVORAN_KIND_HELD] = {2, 5},
    [PEZVORAN_KIND_PROFILE] = {0},
    [PEZVORAN_KIND_COPY] = {0, 2, 3},
    [PEZVORAN_KIND_LOAD] = {6, 2, 3, 4, 5},
    [PEZVORAN_KIND_STORE] = {6, 2, 137, 3},
    [PEZVORAN_KIND_MAKE] = {0, 2, 7},
    [PEZVORAN_KIND_MAKE_FUNCTION] = {0, 2, 6, 5},
    [PEZVORAN_KIND_CALL] = {6, 2, 3, 4, 0, 2, 3, 4, 255, 128},
    [PEZVORAN_KIND_NEW] = {6, 2, 3, 4, 5, 0, 2, 3, 4, 255, 128},
    [PEZVORAN_KIND_RETURN] = {6, 2},
    [PEZVORAN_KIND_THROW] = {0, 2},
    [PEZVORAN_KIND_CATCH] = {6, 2},
    [PEZVORAN_KIND_PRIM] = {0, 2},
};

static uint8_t buffer[PEZVORAN_FILE_BYTES];

static void every_value_of_every_field(void)
{
    pezvoran_writer host;
    pezvoran_writer_init(&host, buffer, sizeof buffer, edition->labels);
    write_host(&host);
    for (unsigned kind = 0; kind < KINDS; kind++)
        for (size_t field = 0; field < pezvoran_body_length(kind); field++)
            for (unsigned value = 0; value < 256; value++) {
                uint8_t body[PEZVORAN_BODY_BYTES];
                pezvoran_writer writer = host;
                memcpy(body, good[kind], sizeof body);
                body[field] = (uint8_t)value;
                unsigned answer = compare(&writer, kind, body, pezvoran_body_length(kind));
                int named = kind == PEZVORAN_KIND_VARIABLE && field == 1; /* a good owner may make the name bad */
                if (answer >= PEZVORAN_BAD_VARIABLE && answer <= PEZVORAN_BAD_VALUE && writer.field != field && !named)
                    fail("another field is named", kind, body, pezvoran_body_length(kind));
                if (answer == 0)
                    compare_end(&writer);
            }
}

/* Every label as a function: without its record and with it. */
static void every_function(void)
{
    for (unsigned label = 5; label < edition->labels; label++) {
        const uint8_t body[] = {(uint8_t)label, PEZVORAN_FUNCTION, 0};
        pezvoran_writer writer;
        pezvoran_writer_init(&writer, buffer, sizeof buffer, edition->labels);
        compare(&writer, PEZVORAN_KIND_LABEL, body, sizeof body);
        compare_end(&writer);
        must(pezvoran_write_function(&writer, (uint8_t)label, 0, NULL, 0), "a good function");
        compare_end(&writer);
    }
}

/* Bytes of every kind, also such as no record has, without a body. */
static void every_kind_without_a_body(void)
{
    for (unsigned kind = 0; kind < 256; kind++) {
        pezvoran_writer writer;
        pezvoran_writer_init(&writer, buffer, sizeof buffer, edition->labels);
        compare(&writer, kind, good[0], 0);
        compare_end(&writer);
    }
}

static uint8_t any_byte(void)
{
    static const uint8_t edges[] = {0, 1, 2, 3, 4, 5, 6, 31, 32, 63, 64, 127, 128, 135, 136, 143, 144, 254, 255};
    return below(8) == 0 ? (uint8_t)below(256) : edges[below(sizeof edges)];
}

/* A body for the kind; most bytes are good where one of a few tries finds a good one. */
static void random_body(const pezvoran_writer *writer, unsigned kind, uint8_t *body)
{
    const char *fields = pezvoran_fields(kind);
    for (size_t i = 0; fields[i] != '\0'; i++)
        for (unsigned tries = 0; tries < 40; tries++) {
            body[i] = any_byte();
            if (pezvoran_is_good(writer, fields[i], body[i]) || below(200) == 0)
                break;
        }
}

static void random_files(unsigned files)
{
    for (unsigned i = 0; i < files; i++) {
        pezvoran_writer writer;
        pezvoran_writer_init(&writer, buffer, sizeof buffer, edition->labels);
        for (unsigned record = 0; record < 60; record++) {
            unsigned kind = record < 20 ? PEZVORAN_KIND_NAME + 4 * below(2) + below(2) : below(KINDS);
            uint8_t body[PEZVORAN_BODY_BYTES + 1] = {0};
            random_body(&writer, kind, body);
            size_t length = pezvoran_body_length(kind);
            if (length > 0 && below(50) == 0)
                length--; /* cut short */
            compare(&writer, kind, body, length);
        }
        for (unsigned label = 5; label < edition->labels; label++)
            if (writer.types[label] == PEZVORAN_FUNCTION && !writer.defined[label] && below(50) != 0)
                must(pezvoran_write_function(&writer, (uint8_t)label, 0, NULL, 0), "a function record");
        compare_end(&writer);
    }
}

/* 10,922 returns of nothing at the top level and a forbid fill a file to the last byte. */
static void the_longest_file(void)
{
    const uint8_t nothing[] = {0, 0};
    pezvoran_writer writer;
    pezvoran_writer_init(&writer, buffer, sizeof buffer, edition->labels);
    for (unsigned i = 0; i < 10922; i++)
        must(pezvoran_write_return(&writer, 0, 0), "there is room");
    if (compare(&writer, PEZVORAN_KIND_RETURN, nothing, 2) != PEZVORAN_FILE_TOO_LONG)
        fail("a file too long was written", 23, nothing, 2);
    must(compare(&writer, PEZVORAN_KIND_FORBID, nothing, 1), "there is room");
    compare_end(&writer);
    if (writer.length != PEZVORAN_FILE_BYTES || compare(&writer, PEZVORAN_KIND_FORBID, nothing, 1) != PEZVORAN_FILE_TOO_LONG)
        fail("a file too long was written", 3, nothing, 1);
}

/* A buffer that is full: the answer says so, and no byte beyond it is touched. */
static void small_buffers(void)
{
    enum { ROOM = 12 };
    for (size_t capacity = 0; capacity <= ROOM; capacity++) {
        uint8_t small[ROOM + 1];
        pezvoran_writer writer;
        memset(small, 0xa5, sizeof small);
        pezvoran_writer_init(&writer, capacity == 0 ? NULL : small, capacity, edition->labels);
        while (writer.length + 4 <= capacity)
            must(pezvoran_write_label(&writer, (uint8_t)(5 + writer.length), PEZVORAN_PLAIN, 0), "there is room");
        if (pezvoran_write_label(&writer, 60, PEZVORAN_PLAIN, 0) != PEZVORAN_NO_ROOM || pezvoran_write_label(&writer, 4, 1, 0) != PEZVORAN_BAD_LABEL)
            fail("a full buffer is not noticed", 2, small, capacity);
        if (writer.types[60] != 0 || writer.length != capacity / 4 * 4 || small[capacity] != 0xa5)
            fail("a full buffer was written to", 2, small, capacity);
        met[PEZVORAN_NO_ROOM]++;
    }
}

/* The calls by name write the records. */
static void calls_by_name(void)
{
    static const uint8_t expected[] = {
        1, 4, 3, 2, 5, 1, 1, 2, 6, 2, 0, 2, 7, 3, 0, 3, 3, 5, 2, 0, 255, 5, 3, 0, 3, 5, 4, 6, 255, 4, 6, 4, 2, 3, 0, 0, 0, 0, 6, 2, 7, 0, 1, 5, 8, 2, 4, 9, 7,
        16, 0, 2, 3, 17, 6, 2, 3, 129, 5, 18, 0, 2, 143, 3, 19, 0, 2, 7, 20, 0, 2, 6, 5, 21, 6, 2, 3, 4, 2, 3, 4, 2, 3, 4, 22, 0, 2, 3, 4, 5, 2, 0, 0, 0, 0, 0,
        23, 6, 2, 24, 0, 2, 25, 0, 3, 26, 6, 2,
    };
    const unsigned seven[] = {2, 3, 4, 2, 3, 4, 2};
    pezvoran_writer writer, *w = &writer;
    pezvoran_writer_init(w, buffer, sizeof buffer, edition->labels);
    must(pezvoran_write_name(w, 4, 3), "name");
    must(pezvoran_write_label(w, 5, PEZVORAN_PLAIN, 1), "label");
    must(pezvoran_write_label(w, 6, PEZVORAN_FUNCTION, 0), "label");
    must(pezvoran_write_label(w, 7, PEZVORAN_ARRAY, 0), "label");
    must(pezvoran_write_forbid(w, 3), "forbid");
    must(pezvoran_write_variable(w, 2, PEZVORAN_TOP_LEVEL, PEZVORAN_NO_NAME), "variable");
    must(pezvoran_write_variable(w, 3, PEZVORAN_TOP_LEVEL, 3), "variable");
    must(pezvoran_write_variable(w, 4, 6, PEZVORAN_NO_NAME), "variable");
    must(pezvoran_write_function(w, 6, 4, seven, 2), "function");
    must(pezvoran_write_grant(w, 2), "grant");
    must(pezvoran_write_property(w, 0, 1, 5), "property");
    must(pezvoran_write_held(w, 2, 4), "held");
    must(pezvoran_write_profile(w, 7), "profile");
    must(pezvoran_write_copy(w, 0, 2, 3), "copy");
    must(pezvoran_write_load(w, 6, 2, 3, pezvoran_class_key(1), 5), "load");
    must(pezvoran_write_store(w, 0, 2, pezvoran_outside_key(7), 3), "store");
    must(pezvoran_write_make(w, 0, 2, 7), "make");
    must(pezvoran_write_make_function(w, 0, 2, 6, 5), "make function");
    must(pezvoran_write_call(w, 6, 2, 3, 4, seven, 6), "call");
    must(pezvoran_write_new(w, 0, 2, 3, 4, 5, seven, 1), "new");
    must(pezvoran_write_return(w, 6, 2), "return");
    must(pezvoran_write_throw(w, 0, 2), "throw");
    must(pezvoran_write_catch(w, 0, 3), "catch");
    must(pezvoran_write_prim(w, 6, 2), "prim");
    must(pezvoran_writer_finish(w), "the end");
    compare_end(w);
    if (w->length != sizeof expected || memcmp(w->file, expected, sizeof expected) != 0)
        fail("the calls by name write other records", 0, w->file, w->length);
    if (pezvoran_write_call(w, 0, 0, 0, 0, seven, 7) != PEZVORAN_RECORD_CUT_SHORT || pezvoran_write_new(w, 0, 0, 2, 2, 5, seven, 7) != PEZVORAN_RECORD_CUT_SHORT)
        fail("seven arguments are written", 21, NULL, 0);
    if (w->length != sizeof expected)
        fail("seven arguments are written", 21, NULL, 0);
}

static unsigned call_by_name(pezvoran_writer *w, unsigned kind, const unsigned *v)
{
    switch (kind) {
    case PEZVORAN_KIND_NAME: return pezvoran_write_name(w, v[0], v[1]);
    case PEZVORAN_KIND_LABEL: return pezvoran_write_label(w, v[0], v[1], v[2]);
    case PEZVORAN_KIND_FORBID: return pezvoran_write_forbid(w, v[0]);
    case PEZVORAN_KIND_FUNCTION: return pezvoran_write_function(w, v[0], v[1], v + 2, 6);
    case PEZVORAN_KIND_VARIABLE: return pezvoran_write_variable(w, v[0], v[1], v[2]);
    case PEZVORAN_KIND_GRANT: return pezvoran_write_grant(w, v[0]);
    case PEZVORAN_KIND_PROPERTY: return pezvoran_write_property(w, v[0], v[1], v[2]);
    case PEZVORAN_KIND_HELD: return pezvoran_write_held(w, v[0], v[1]);
    case PEZVORAN_KIND_PROFILE: return pezvoran_write_profile(w, v[0]);
    case PEZVORAN_KIND_COPY: return pezvoran_write_copy(w, v[0], v[1], v[2]);
    case PEZVORAN_KIND_LOAD: return pezvoran_write_load(w, v[0], v[1], v[2], v[3], v[4]);
    case PEZVORAN_KIND_STORE: return pezvoran_write_store(w, v[0], v[1], v[2], v[3]);
    case PEZVORAN_KIND_MAKE: return pezvoran_write_make(w, v[0], v[1], v[2]);
    case PEZVORAN_KIND_MAKE_FUNCTION: return pezvoran_write_make_function(w, v[0], v[1], v[2], v[3]);
    case PEZVORAN_KIND_CALL: return pezvoran_write_call(w, v[0], v[1], v[2], v[3], v + 4, 6);
    case PEZVORAN_KIND_NEW: return pezvoran_write_new(w, v[0], v[1], v[2], v[3], v[4], v + 5, 6);
    case PEZVORAN_KIND_RETURN: return pezvoran_write_return(w, v[0], v[1]);
    case PEZVORAN_KIND_THROW: return pezvoran_write_throw(w, v[0], v[1]);
    case PEZVORAN_KIND_CATCH: return pezvoran_write_catch(w, v[0], v[1]);
    case PEZVORAN_KIND_PRIM: return pezvoran_write_prim(w, v[0], v[1]);
    default: return PEZVORAN_UNKNOWN_KIND;
    }
}

/* A number above 255 is refused by its field, in every call and field, and not cut down to a byte that would be good there. */
static void numbers_above_255(void)
{
    pezvoran_writer host;
    pezvoran_writer_init(&host, buffer, sizeof buffer, edition->labels);
    write_host(&host);
    for (unsigned kind = 0; kind < KINDS; kind++) {
        const char *fields = pezvoran_fields(kind);
        unsigned values[PEZVORAN_BODY_BYTES];
        for (size_t i = 0; i < PEZVORAN_BODY_BYTES; i++)
            values[i] = good[kind][i];
        for (size_t field = 0; fields[field] != '\0'; field++)
            for (unsigned beyond = 256; beyond != 0; beyond *= 2) {
                pezvoran_writer writer = host;
                values[field] += beyond;
                if (call_by_name(&writer, kind, values) != pezvoran_refusal_of(fields[field]) || writer.field != field)
                    fail("a number above 255 is not refused by its field", kind, good[kind], field + 1);
                if (writer.length != host.length)
                    fail("a number above 255 was written", kind, good[kind], field + 1);
                values[field] -= beyond;
            }
        pezvoran_writer writer = host;
        if (fields[0] != '\0')
            must(call_by_name(&writer, kind, values), "the same numbers without it");
    }
}

static void keys_of_classes(void)
{
    pezvoran_writer writer;
    pezvoran_writer_init(&writer, buffer, sizeof buffer, edition->labels);
    write_host(&writer);
    for (unsigned c = 0; c < 300; c++) {
        const unsigned keys[] = {pezvoran_class_key(c), pezvoran_outside_key(c)};
        const unsigned expected[] = {c < 8 ? 128 + c : 255, c < 8 ? 136 + c : 255};
        for (size_t i = 0; i < 2; i++)
            if (keys[i] != expected[i] || pezvoran_write_load(&writer, 0, 2, 2, keys[i], 5) != (c < 8 ? 0 : PEZVORAN_BAD_VALUE))
                fail("a class has another key", c, NULL, 0);
    }
}

/* Capacity and labels in the wrong order, and other numbers of labels that no edition has: the small edition. */
static void other_numbers_of_labels(void)
{
    const size_t others[] = {0, 1, 5, 63, 65, 128, 255, 257, PEZVORAN_FILE_BYTES, SIZE_MAX};
    for (size_t i = 0; i < sizeof others / sizeof others[0]; i++) {
        pezvoran_writer writer;
        pezvoran_writer_init(&writer, buffer, sizeof buffer, others[i]);
        must(pezvoran_write_label(&writer, 63, PEZVORAN_PLAIN, 0), "the last label of the small edition");
        must(pezvoran_writer_finish(&writer), "the end");
        if (writer.labels != PEZVORAN_LABELS || pezvoran_write_label(&writer, 64, PEZVORAN_PLAIN, 0) != PEZVORAN_BAD_LABEL)
            fail("a number of labels that no edition has is taken", (unsigned)others[i], NULL, 0);
    }
}

int main(void)
{
    for (size_t i = 0; i < sizeof editions / sizeof editions[0]; i++) {
        edition = &editions[i];
        state = i;
        memset(met, 0, sizeof met);
        every_value_of_every_field();
        every_function();
        every_kind_without_a_body();
        random_files(400);
        the_longest_file();
        small_buffers();
        calls_by_name();
        numbers_above_255();
        keys_of_classes();
        other_numbers_of_labels();
        for (unsigned number = 0; number <= PEZVORAN_FILE_TOO_LONG; number++)
            if (met[number] < 2 && number != PEZVORAN_TABLE_TOO_SHORT)
                fail("an answer was not tried", number, NULL, 0);
    }
    return 0;
}
