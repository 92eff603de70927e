/* The rows of both editions as the papers number them, and where a row's labels stand in the words of a table. */
#include "pezvoran.h"

#include <stdio.h>

static int wrong;

static void must(int holds, const char *what)
{
    if (!holds) {
        fprintf(stderr, "rows: not so: %s\n", what);
        wrong = 1;
    }
}

int main(void)
{
    static uint64_t table[PEZVORAN_LARGE_TABLE_WORDS];
    must(pezvoran_variable_row(0) == 0 && pezvoran_variable_row(255) == 255, "variables are rows 0 to 255");
    must(pezvoran_property_row(0, 0) == 256 && pezvoran_property_row(5, 4) == 256 + 32 * 5 + 4, "properties follow");
    must(pezvoran_property_row(63, 31) == 2303 && pezvoran_chain_row(0) == 2304 && pezvoran_chain_row(63) == 2367, "chains of the small edition");
    must(pezvoran_thrown_row(0) == 2368 && pezvoran_thrown_row(63) == 2431 && PEZVORAN_ROWS == 2432, "throws of the small edition");
    must(pezvoran_property_row(255, 31) == 8447 && pezvoran_large_chain_row(0) == 8448 && pezvoran_large_chain_row(255) == 8703, "chains of the large edition");
    must(pezvoran_large_thrown_row(0) == 8704 && pezvoran_large_thrown_row(255) == 8959 && PEZVORAN_LARGE_ROWS == 8960, "throws of the large edition");
    must(PEZVORAN_TABLE_WORDS == PEZVORAN_ROWS * PEZVORAN_ROW_WORDS, "words of a small table");
    must(PEZVORAN_LARGE_TABLE_WORDS == PEZVORAN_LARGE_ROWS * PEZVORAN_LARGE_ROW_WORDS, "words of a large table");
    must(PEZVORAN_LABELS == 64 * PEZVORAN_ROW_WORDS && PEZVORAN_LARGE_LABELS == 64 * PEZVORAN_LARGE_ROW_WORDS, "labels of a row");
    must(pezvoran_holds(UINT64_C(1) << 63, 63) && !pezvoran_holds(UINT64_C(1) << 63, 62), "bit l of a row is label l");
    for (unsigned label = 0; label < PEZVORAN_LARGE_LABELS; label++) {
        size_t row = pezvoran_large_thrown_row(255);
        uint64_t *word = &table[4 * row + label / 64];
        must(!pezvoran_large_holds(table, row, (uint8_t)label), "a row of zeros holds no label");
        *word |= UINT64_C(1) << label % 64;
        must(pezvoran_large_holds(table, row, (uint8_t)label), "bit l of the run is label l");
        *word = 0;
    }
    return wrong;
}
