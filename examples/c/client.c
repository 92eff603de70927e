/* A worked client of Pezvoran.

       client [--large] judge FILE TABLE      the verdict on a statement file; the finished table is kept in TABLE
       client [--large] recheck FILE TABLE    the check of a table kept earlier, for the same file

   With --large both are those of the large edition. A table is kept as the edition's words of 64 bits, low byte first. The first lines printed are those
   of the program `verdict`; a refusal has a line more, in words. Exit codes: 0 confined or accepted, 1 leaks, 2 refused, 3 anything that kept the client
   from an answer. */
#include "pezvoran.h"

#include <errno.h>
#include <inttypes.h>
#include <stdio.h>
#include <stdlib.h>
#include <string.h>

enum { WORD_BYTES = 8, EXIT_LEAKS = 1, EXIT_REFUSED = 2, EXIT_TROUBLE = 3 };

/* What differs between the editions. A program for one of them calls its operations by name and needs none of this. */
struct edition {
    uint64_t (*verdict)(const uint8_t *file, size_t file_length, uint64_t *table, size_t table_length);
    uint64_t (*check)(const uint8_t *file, size_t file_length, const uint64_t *table, size_t table_length);
    size_t table_words, row_words;
};

static const struct edition small = {verdict, check, PEZVORAN_TABLE_WORDS, PEZVORAN_ROW_WORDS};
static const struct edition large = {verdict_large, check_large, PEZVORAN_LARGE_TABLE_WORDS, PEZVORAN_LARGE_ROW_WORDS};

/* Room for a table of either edition and a word more. */
enum { TABLE_ROOM = PEZVORAN_LARGE_TABLE_WORDS + 1 };

/* Ends the client with a line on what went wrong. */
static void give_up(const char *path, const char *trouble)
{
    fprintf(stderr, "client: %s: %s\n", path, trouble);
    exit(EXIT_TROUBLE);
}

/* Reads at most `room` bytes and says how many there were. */
static size_t read_bytes(const char *path, uint8_t *bytes, size_t room)
{
    FILE *stream = fopen(path, "rb");
    if (stream == NULL)
        give_up(path, strerror(errno));
    size_t length = fread(bytes, 1, room, stream);
    if (ferror(stream))
        give_up(path, "cannot be read");
    fclose(stream);
    return length;
}

static uint8_t table_bytes[TABLE_ROOM * WORD_BYTES];

static void keep_table(const char *path, const uint64_t *table, size_t words)
{
    size_t length = words * WORD_BYTES;
    for (size_t i = 0; i < length; i++)
        table_bytes[i] = (uint8_t)(table[i / WORD_BYTES] >> 8 * (i % WORD_BYTES));
    FILE *stream = fopen(path, "wb");
    if (stream == NULL)
        give_up(path, strerror(errno));
    size_t written = fwrite(table_bytes, 1, length, stream);
    if (fclose(stream) != 0 || written != length)
        give_up(path, "the table could not be written");
}

/* Reads a kept table, whatever its size up to a word too many: the check refuses one that is too short. */
static size_t fetch_table(const char *path, uint64_t *table, size_t words)
{
    size_t length = read_bytes(path, table_bytes, (words + 1) * WORD_BYTES);
    if (length % WORD_BYTES != 0 || length > words * WORD_BYTES)
        give_up(path, "is no table of the edition: it has too many words, or words that are not of 8 bytes");
    for (size_t i = 0; i < length; i++)
        table[i / WORD_BYTES] |= (uint64_t)table_bytes[i] << 8 * (i % WORD_BYTES);
    return length / WORD_BYTES;
}

/* Prints the labels of the guest's row, 64 in each of its words. */
static void print_guest(const struct edition *edition, const uint64_t *table)
{
    const uint64_t *row = table + PEZVORAN_GUEST_ROW * edition->row_words;
    printf("guest");
    for (unsigned label = 0; label < 64 * edition->row_words; label++)
        if (pezvoran_holds(row[label / 64], label % 64))
            printf(" %u", label);
    printf("\n");
}

static int print_refusal(uint64_t answer)
{
    unsigned number = pezvoran_number(answer);
    const char *place = pezvoran_position_means(number);
    printf("refused %u %" PRIu64 "\n", number, pezvoran_position(answer));
    printf("%s", pezvoran_refusal_text(number));
    if (place[0] != '\0')
        printf(" (%s %" PRIu64 ")", place, pezvoran_position(answer));
    printf("\n");
    return EXIT_REFUSED;
}

static int print_answer(const struct edition *edition, uint64_t answer, const uint64_t *table)
{
    switch (pezvoran_outcome_of(answer)) {
    case PEZVORAN_CONFINED:
        printf("confined %" PRIu32 "\n", pezvoran_count(answer));
        print_guest(edition, table);
        return EXIT_SUCCESS;
    case PEZVORAN_LEAKS:
        printf("leaks %u %" PRIu32 "\n", pezvoran_label(answer), pezvoran_count(answer));
        print_guest(edition, table);
        return EXIT_LEAKS;
    case PEZVORAN_ACCEPTED:
        printf("accepted\n");
        return EXIT_SUCCESS;
    case PEZVORAN_REFUSED:
        return print_refusal(answer);
    default:
        give_up("the archive", "answers what is neither verdict nor check");
    }
    return EXIT_TROUBLE;
}

int main(int count, char **words)
{
    static uint8_t file[PEZVORAN_FILE_BYTES + 1]; /* one byte more than allowed: a longer file is refused, never cut off */
    static uint64_t table[TABLE_ROOM];
    const struct edition *edition = &small;
    if (count > 1 && strcmp(words[1], "--large") == 0) {
        edition = &large;
        count--;
        words++;
    }
    int judge = count == 4 && strcmp(words[1], "judge") == 0;
    int recheck = count == 4 && strcmp(words[1], "recheck") == 0;
    if (!judge && !recheck) {
        fprintf(stderr, "usage: client [--large] judge FILE TABLE | client [--large] recheck FILE TABLE\n");
        return EXIT_TROUBLE;
    }
    size_t file_length = read_bytes(words[2], file, sizeof file);
    if (recheck) {
        size_t table_length = fetch_table(words[3], table, edition->table_words);
        return print_answer(edition, edition->check(file, file_length, table, table_length), table);
    }
    uint64_t answer = edition->verdict(file, file_length, table, edition->table_words);
    if (pezvoran_outcome_of(answer) != PEZVORAN_REFUSED)
        keep_table(words[3], table, edition->table_words);
    return print_answer(edition, answer, table);
}
