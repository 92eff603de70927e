/* A statement file written by a program: the host of examples/journal-leaks.txt, record by record, and the verdict on it.

       journal FILE      writes the file and prints the verdict

   The host, in the order of the records:

       var journal = {};
       function watch(listener) { journal.listener = listener; }
       function note(line) { journal[number] = line; journal.listener(line); }

   The guest is granted watch and note, and the journal is forbidden. The lines printed are those of the program `verdict`. Exit codes: 0 confined, 1 leaks,
   3 anything that kept the program from a verdict: a record that was refused, which a translator must mend, or a file that could not be written. */
#include "pezvoran_format.h"

#include <errno.h>
#include <inttypes.h>
#include <stdio.h>
#include <stdlib.h>

enum { EXIT_LEAKS = 1, EXIT_TROUBLE = 3 };

enum { TOP = PEZVORAN_TOP_LEVEL, NONE = PEZVORAN_NO_VARIABLE };
enum { NAME_LISTENER = 4, NAME_NUMBER = 5, NUMBERS = 1 }; /* names, and a class of names */
enum { JOURNAL = 5, WATCH, NOTE, WATCH_PROTOTYPE, NOTE_PROTOTYPE, WRAPPER }; /* labels */
enum { VAR_JOURNAL = 2, VAR_WATCH, VAR_NOTE, VAR_LISTENER, VAR_LINE, VAR_FOUND };

static uint8_t file[PEZVORAN_FILE_BYTES];
static pezvoran_writer writer;

/* Stops where a record was refused: which one, its field, and why. */
static void must(unsigned refusal, const char *said)
{
    if (refusal == 0)
        return;
    fprintf(stderr, "journal: %s: refused %u: %s", said, refusal, pezvoran_writer_text(refusal));
    if (refusal >= PEZVORAN_BAD_VARIABLE && refusal <= PEZVORAN_DECLARED_TWICE)
        fprintf(stderr, " (byte %zu of the body)", writer.field + 1);
    fprintf(stderr, "\n");
    exit(EXIT_TROUBLE);
}

static void declare(void)
{
    static const uint8_t labels[] = {WATCH_PROTOTYPE, NOTE_PROTOTYPE, WRAPPER};
    static const uint8_t global[] = {VAR_JOURNAL, VAR_WATCH, VAR_NOTE};
    const unsigned listener = VAR_LISTENER, line = VAR_LINE;
    must(pezvoran_write_name(&writer, NAME_NUMBER, 1 << 0 | 1 << NUMBERS), "name: a number");
    must(pezvoran_write_label(&writer, JOURNAL, PEZVORAN_PLAIN, 0), "label: the journal");
    must(pezvoran_write_forbid(&writer, JOURNAL), "the journal is forbidden");
    must(pezvoran_write_label(&writer, WATCH, PEZVORAN_FUNCTION, 0), "label: watch");
    must(pezvoran_write_label(&writer, NOTE, PEZVORAN_FUNCTION, 0), "label: note");
    for (size_t i = 0; i < sizeof labels; i++)
        must(pezvoran_write_label(&writer, labels[i], PEZVORAN_PLAIN, 0), "label: a prototype or a wrapper");
    for (size_t i = 0; i < sizeof global; i++)
        must(pezvoran_write_variable(&writer, global[i], TOP, PEZVORAN_NO_NAME), "a variable of the top level");
    must(pezvoran_write_variable(&writer, VAR_LISTENER, WATCH, PEZVORAN_NO_NAME), "variable: listener");
    must(pezvoran_write_variable(&writer, VAR_LINE, NOTE, PEZVORAN_NO_NAME), "variable: line");
    must(pezvoran_write_variable(&writer, VAR_FOUND, NOTE, PEZVORAN_NO_NAME), "variable: what is found in journal.listener");
    must(pezvoran_write_function(&writer, WATCH, NONE, &listener, 1), "watch(listener)");
    must(pezvoran_write_function(&writer, NOTE, NONE, &line, 1), "note(line)");
}

static void state(void)
{
    const unsigned line = VAR_LINE;
    must(pezvoran_write_make(&writer, TOP, VAR_JOURNAL, JOURNAL), "journal = {}");
    must(pezvoran_write_make_function(&writer, TOP, VAR_WATCH, WATCH, WATCH_PROTOTYPE), "function watch");
    must(pezvoran_write_make_function(&writer, TOP, VAR_NOTE, NOTE, NOTE_PROTOTYPE), "function note");
    must(pezvoran_write_store(&writer, WATCH, VAR_JOURNAL, NAME_LISTENER, VAR_LISTENER), "watch: journal.listener = listener");
    must(pezvoran_write_store(&writer, NOTE, VAR_JOURNAL, pezvoran_class_key(NUMBERS), VAR_LINE), "note: journal[number] = line");
    must(pezvoran_write_load(&writer, NOTE, VAR_FOUND, VAR_JOURNAL, NAME_LISTENER, WRAPPER), "note: journal.listener");
    must(pezvoran_write_call(&writer, NOTE, NONE, VAR_FOUND, VAR_JOURNAL, &line, 1), "note: journal.listener(line)");
    must(pezvoran_write_grant(&writer, VAR_WATCH), "the guest is granted watch");
    must(pezvoran_write_grant(&writer, VAR_NOTE), "the guest is granted note");
}

static void keep_file(const char *path)
{
    FILE *stream = fopen(path, "wb");
    size_t kept = stream == NULL ? 0 : fwrite(file, 1, writer.length, stream);
    if (stream == NULL || fclose(stream) != 0 || kept != writer.length) {
        fprintf(stderr, "journal: %s: %s\n", path, strerror(errno));
        exit(EXIT_TROUBLE);
    }
}

int main(int count, char **words)
{
    static uint64_t table[PEZVORAN_TABLE_WORDS];
    if (count != 2) {
        fprintf(stderr, "usage: journal FILE\n");
        return EXIT_TROUBLE;
    }
    pezvoran_writer_init(&writer, file, sizeof file, PEZVORAN_LABELS);
    declare();
    state();
    must(pezvoran_writer_finish(&writer), "the end of the file");
    keep_file(words[1]);

    uint64_t answer = verdict(file, writer.length, table, PEZVORAN_TABLE_WORDS);
    must(pezvoran_number(answer), "the verdict");
    int leaks = pezvoran_outcome_of(answer) == PEZVORAN_LEAKS;
    if (leaks)
        printf("leaks %u %" PRIu32 "\nguest", pezvoran_label(answer), pezvoran_count(answer));
    else
        printf("confined %" PRIu32 "\nguest", pezvoran_count(answer));
    for (uint8_t label = 0; label < PEZVORAN_LABELS; label++)
        if (pezvoran_holds(table[PEZVORAN_GUEST_ROW], label))
            printf(" %u", label);
    printf("\n");
    return leaks ? EXIT_LEAKS : EXIT_SUCCESS;
}
