/* Searches in slices, as a workstation does between two updates of its screen: each turn goes on from the state of the turn before for so many
 * candidates, and between the turns one line shows how far the walk has come. The two sessions are one recording that was marked good by one reader
 * and bad by another, so no formula tells them apart, and the walk has to go through all sizes up to the bound to say so: 6 million candidates,
 * some seconds. The progress goes to standard error, over itself; the end, and in how many turns it was reached, to standard output. */
#include <stdio.h>

#include "scarfpylon.h"

enum { SESSIONS = 2, NAMES = 2, LENGTH = 10, BOUND = 31, ROOM = 4096, STATE = 16, OUT = 16 };
enum { FOUND = 1, NONE = 2, FULL = 3, MORE = 4 };

static const uint64_t budget = 50000;

/* bit i is snapshot i: painted free, and occupied by the server's log */
static const uint8_t marks[SESSIONS] = {1, 0}, lengths[SESSIONS] = {LENGTH, LENGTH};
static const uint64_t words[SESSIONS * NAMES] = {0x2CB, 0x13A, 0x2CB, 0x13A};
static const uint8_t unary[] = {0, 1, 2, 3, 4}, binary[] = {5, 6, 7, 8, 9, 10};

/* the room of the search: it has to come back as it was left, with the state, until the walk has ended */
static uint8_t codes[ROOM], sizes[ROOM];
static uint16_t lefts[ROOM], rights[ROOM];
static uint64_t matrices[ROOM * SESSIONS], state[STATE], out[OUT];

static void update_screen(void) {
    fprintf(stderr, "\rsize %2llu  tried %8llu  kept %4llu  dropped %8llu", (unsigned long long)state[0], (unsigned long long)out[2],
            (unsigned long long)out[3], (unsigned long long)out[8]);
    fflush(stderr);
}

int main(void) {
    uint64_t refused = scarfpylon_fresh(state, STATE);
    unsigned turns = 0;
    while (refused == 0) {
        refused = scarfpylon_resume(SESSIONS, NAMES, BOUND, ROOM, 0, marks, SESSIONS, lengths, SESSIONS, words, SESSIONS * NAMES, unary, sizeof unary, binary,
                                    sizeof binary, codes, ROOM, lefts, ROOM, rights, ROOM, sizes, ROOM, matrices, ROOM * SESSIONS, budget, state, STATE, out, OUT);
        if (refused != 0) break;
        turns++;
        update_screen();
        if (out[0] != MORE) break;
    }
    fprintf(stderr, "\n");
    if (refused != 0) {
        printf("refused %llu\n", (unsigned long long)refused);
        return 1;
    }
    const char *end = out[0] == FOUND ? "found" : out[0] == NONE ? "none" : "full";
    printf("%s tried %llu kept %llu dropped %llu\n", end, (unsigned long long)out[2], (unsigned long long)out[3], (unsigned long long)out[8]);
    printf("in %u turns of at most %llu candidates\n", turns, (unsigned long long)budget);
    return 0;
}
