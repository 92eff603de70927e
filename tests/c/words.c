/* Takes words apart with the functions of the header: for each word on standard input, the first number of a line, prints the word and the outcome with its
   parts, as crates/answer/proofs/Examples.antt writes them. Ends with code 1 where a part that the outcome does not have is not 0. */
#include "pezvoran.h"

#include <inttypes.h>
#include <stdio.h>

enum { NUMBER = 1, POSITION = 2, LABEL = 4, GUEST = 8, COUNT = 16, CHOICE = 32 };

/* The parts that are not 0. */
static int parts(uint64_t answer)
{
    return (pezvoran_number(answer) ? NUMBER : 0) | (pezvoran_position(answer) ? POSITION : 0) | (pezvoran_label(answer) ? LABEL : 0) |
           (pezvoran_guest(answer) ? GUEST : 0) | (pezvoran_count(answer) ? COUNT : 0) | (pezvoran_choice(answer) ? CHOICE : 0);
}

/* Prints the outcome, and says which parts it has. */
static int print_outcome(uint64_t answer)
{
    switch (pezvoran_outcome_of(answer)) {
    case PEZVORAN_CONFINED: printf("confined %" PRIu32, pezvoran_count(answer)); return COUNT;
    case PEZVORAN_LEAKS:
        printf("leaks %u %u %" PRIu32, pezvoran_label(answer), pezvoran_guest(answer), pezvoran_count(answer));
        return LABEL | GUEST | COUNT;
    case PEZVORAN_ACCEPTED: printf("accepted %" PRIu32, pezvoran_count(answer)); return COUNT;
    case PEZVORAN_CHOICE: printf("choice %u", pezvoran_choice(answer)); return CHOICE;
    case PEZVORAN_NONE_HELPS: printf("none_helps"); return 0;
    case PEZVORAN_REFUSED: break;
    }
    if (pezvoran_number(answer) == PEZVORAN_FORBIDDEN_HELD) {
        printf("holds %" PRIu64 " %u", pezvoran_position(answer), pezvoran_guest(answer));
        return NUMBER | POSITION | GUEST;
    }
    printf("refused %u %" PRIu64, pezvoran_number(answer), pezvoran_position(answer));
    return NUMBER | POSITION;
}

int main(void)
{
    uint64_t answer;
    while (scanf("%" SCNu64 "%*[^\n]", &answer) == 1) {
        printf("%" PRIu64 " ", answer);
        int has = print_outcome(answer);
        printf("\n");
        if ((parts(answer) & ~has) != 0)
            return 1;
    }
    return 0;
}
