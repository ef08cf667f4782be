/* Reads a session file, searches it with a room of 200, prints the formula that is found and checks it; then applies an operator of each kind. The
 * file is example S1 of document 01: one proposition p, and two sessions of two snapshots, the good one with p at snapshot 1 and the bad one with p
 * nowhere. The operators are those of its examples P2 and P4: `X` of 6, and 3 `U` 4, at length 4. */
#include <stdio.h>

#include "scarfpylon.h"

enum { SESSIONS = 32, NAMES = 16, ROOM = 200, TEXT = 391, REPORT = 15562, NODES = 31, OUT = 8, LONG_OUT = 16 };

static const uint8_t file[] = {
    0x01, 0x01, 0x70,                                                             /* one name: p */
    0x02, 0x01, 0x02, 0x02, 0x00, 0x00, 0x00, 0x00, 0x00, 0x00, 0x00,             /* two sessions: good, 2 snapshots, word 2; */
    0x00, 0x02, 0x00, 0x00, 0x00, 0x00, 0x00, 0x00, 0x00, 0x00,                   /* bad, 2 snapshots, word 0 */
    0x05, 0x00, 0x01, 0x02, 0x03, 0x04,                                           /* all unary operators */
    0x06, 0x05, 0x06, 0x07, 0x08, 0x09, 0x0A,                                     /* all binary ones */
    0x02, 0x00, 0x04,                                                             /* no constants, sizes up to 4 */
};

static uint8_t marks[SESSIONS], lengths[SESSIONS], unary[5], binary[6];
static uint64_t words[SESSIONS * NAMES];
static uint8_t codes[ROOM], sizes[ROOM], text[TEXT], report[REPORT];
static uint16_t lefts[ROOM], rights[ROOM];
static uint64_t matrices[ROOM * SESSIONS];

static int refused(const char *by, uint64_t result) {
    if (result == 0) return 0;
    int number = (int)(result & 255);
    printf("%s: refused %d", by, number);
    if (number == 8 || number == 11 || number == 13) printf(" at %llu", (unsigned long long)(result >> 8));
    printf("\n");
    return 1;
}

int main(void) {
    uint64_t parts[OUT], answer[LONG_OUT], written[OUT], verdict[OUT];

    if (refused("read", scarfpylon_read(file, sizeof file, marks, SESSIONS, lengths, SESSIONS, words, SESSIONS * NAMES, unary, 5, binary, 6, parts, OUT)))
        return 1;
    size_t r = parts[0], m = parts[1];

    if (refused("search", scarfpylon_search(r, m, parts[6], ROOM, (uint8_t)parts[5], marks, r, lengths, r, words, m * r, unary, parts[3], binary, parts[4],
                                            codes, ROOM, lefts, ROOM, rights, ROOM, sizes, ROOM, matrices, ROOM * SESSIONS, answer, LONG_OUT)))
        return 1;
    unsigned long long tried = answer[2], kept = answer[3], dropped = answer[8];
    if (answer[0] != 1) {
        if (answer[0] == 2)
            printf("none tried %llu kept %llu dropped %llu\n", tried, kept, dropped);
        else
            printf("full size %llu tried %llu kept %llu dropped %llu\n", (unsigned long long)answer[1], tried, kept, dropped);
        return 0;
    }
    printf("found size %llu tried %llu kept %llu dropped %llu\n", (unsigned long long)answer[1], tried, kept, dropped);

    uint8_t code = (uint8_t)answer[4], size = (uint8_t)answer[7];
    uint16_t left = (uint16_t)answer[5], right = (uint16_t)answer[6];

    /* the names section is the file's first bytes; the nodes are those that the search kept */
    if (refused("print", scarfpylon_print(file, parts[2], codes, kept, lefts, kept, rights, kept, sizes, kept, code, left, right, size, text, TEXT, written, OUT)))
        return 1;
    printf("%.*s\n", (int)written[0], (const char *)text);

    if (refused("check", scarfpylon_check(r, m, marks, r, lengths, r, words, m * r, codes, kept, lefts, kept, rights, kept, sizes, kept,
                                          code, left, right, size, verdict, OUT)))
        return 1;
    if (verdict[0] == 1)
        printf("check: separates\n");
    else
        printf("check: session %llu disagrees\n", (unsigned long long)verdict[1]);

    /* the same formula on each session: where p and the whole hold and fail */
    if (refused("report", scarfpylon_report(r, m, marks, r, lengths, r, words, m * r, codes, kept, lefts, kept, rights, kept, sizes, kept,
                                            code, left, right, size, report, REPORT, written, OUT)))
        return 1;
    printf("%.*s", (int)written[0], (const char *)report);

    /* a suspicion that is typed, and a byte that can't continue a formula */
    static const char typed[] = "X p U p", wrong[] = "X p )";
    uint8_t typed_codes[NODES], typed_sizes[NODES];
    uint16_t typed_lefts[NODES], typed_rights[NODES];
    if (refused("parse", scarfpylon_parse(file, parts[2], (const uint8_t *)typed, sizeof typed - 1, typed_codes, NODES, typed_lefts, NODES,
                                          typed_rights, NODES, typed_sizes, NODES, written, OUT)))
        return 1;
    printf("%s: %llu nodes, root of code %d\n", typed, (unsigned long long)written[0], typed_codes[written[0] - 1]);
    refused(wrong, scarfpylon_parse(file, parts[2], (const uint8_t *)wrong, sizeof wrong - 1, typed_codes, NODES, typed_lefts, NODES,
                                    typed_rights, NODES, typed_sizes, NODES, written, OUT));

    uint64_t next[OUT], until[OUT];
    if (refused("unary", scarfpylon_unary(1, 4, 6, next, OUT)) || refused("binary", scarfpylon_binary(7, 4, 3, 4, 4, until, OUT))) return 1;
    printf("X 6 = %llu\n", (unsigned long long)next[0]);
    printf("3 U 4 = %llu\n", (unsigned long long)until[0]);

    /* p itself, the first kept formula, against the second: where they first differ */
    uint64_t compared[OUT];
    if (refused("compare", scarfpylon_compare(r, 1, matrices, ROOM * SESSIONS, matrices, r, compared, OUT))) return 1;
    printf("places 0 and 1: %s %llu\n", compared[0] == 1 ? "equal at" : "differ in session", (unsigned long long)compared[1]);
    return 0;
}
