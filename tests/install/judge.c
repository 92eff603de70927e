/* A program of one edition, the large one if LARGE is defined: writes a small file with its highest label, and judges it. */
#include <pezvoran.h>
#include <pezvoran_format.h>
#include <stdio.h>

#ifdef LARGE
enum { LABELS = PEZVORAN_LARGE_LABELS, TABLE_WORDS = PEZVORAN_LARGE_TABLE_WORDS };
#define JUDGE verdict_large
#else
enum { LABELS = PEZVORAN_LABELS, TABLE_WORDS = PEZVORAN_TABLE_WORDS };
#define JUDGE verdict
#endif

/* The highest label, forbidden; variable 2 holds it; the guest is granted variable 2. */
static unsigned write_file(pezvoran_writer *writer)
{
    unsigned refusal = pezvoran_write_label(writer, LABELS - 1, PEZVORAN_PLAIN, 0);
    if (refusal == 0)
        refusal = pezvoran_write_forbid(writer, LABELS - 1);
    if (refusal == 0)
        refusal = pezvoran_write_variable(writer, 2, 0, PEZVORAN_NO_NAME);
    if (refusal == 0)
        refusal = pezvoran_write_held(writer, 2, LABELS - 1);
    if (refusal == 0)
        refusal = pezvoran_write_grant(writer, 2);
    return refusal == 0 ? pezvoran_writer_finish(writer) : refusal;
}

int main(void)
{
    static uint8_t file[PEZVORAN_FILE_BYTES];
    static uint64_t table[TABLE_WORDS];
    pezvoran_writer writer;
    pezvoran_writer_init(&writer, file, sizeof file, LABELS);
    unsigned refusal = write_file(&writer);
    if (refusal != 0) {
        puts(pezvoran_writer_text(refusal));
        return 2;
    }
    uint64_t answer = JUDGE(file, writer.length, table, TABLE_WORDS);
    if (pezvoran_outcome_of(answer) != PEZVORAN_LEAKS)
        return 1;
    printf("leaks %u %u\n", pezvoran_label(answer), (unsigned)pezvoran_count(answer));
    return 0;
}
