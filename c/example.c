/* Cuts a small figure, has the sheet checked, and prints it. c/run builds and runs it, and compares what it prints with c/example.out. */
#include <stdio.h>

#include "dergulam.h"

/* The base (0,0), (8,0), (0,8), the corners of a square in it, and one diagonal of the square, which has to be an edge. */
static const int32_t points[] = {0, 0, 8, 0, 0, 8, 1, 1, 3, 1, 3, 3, 1, 3};
static const uint32_t pairs[] = {4, 6};

enum { POINTS = sizeof points / sizeof *points, PAIRS = sizeof pairs / sizeof *pairs, N = POINTS / 2 };

static uint32_t out[DERGULAM_OUT_LEN(N)], work[DERGULAM_WORK_LEN(N)];

int main(void) {
    uint64_t answer = dergulam_cut(points, POINTS, pairs, PAIRS, out, DERGULAM_OUT_LEN(N), work, DERGULAM_WORK_LEN(N));
    if (DERGULAM_NUMBER(answer) != DERGULAM_OK) {
        printf("refusal %u, place %u\n", DERGULAM_NUMBER(answer), DERGULAM_VALUE(answer));
        return 1;
    }
    size_t count = DERGULAM_VALUE(answer);
    for (size_t t = 0; t < count; t++)
        printf("(%u,%u,%u)\n", out[3 * t], out[3 * t + 1], out[3 * t + 2]);

    uint64_t verdict = dergulam_check(points, POINTS, pairs, PAIRS, out, 3 * count, work, DERGULAM_WORK_LEN(N));
    if (verdict != DERGULAM_YES) {
        printf("the checker does not say yes\n");
        return 1;
    }
    printf("%zu triples, and the checker says yes\n", count);

    /* a list that leaves its last triple out breaks a rule */
    verdict = dergulam_check(points, POINTS, pairs, PAIRS, out, 3 * (count - 1), work, DERGULAM_WORK_LEN(N));
    printf("without the last triple: rule %u\n", DERGULAM_VALUE(verdict));

    /* the other diagonal as well: it crosses the first, and is refused with its place */
    static const uint32_t both[] = {4, 6, 3, 5};
    answer = dergulam_cut(points, POINTS, both, 4, out, DERGULAM_OUT_LEN(N), work, DERGULAM_WORK_LEN(N));
    printf("both diagonals: refusal %u, place %u\n", DERGULAM_NUMBER(answer), DERGULAM_VALUE(answer));

    printf("signs: %d %d %d\n", dergulam_orient_sign(0, 0, 4, 0, 0, 4), dergulam_circle_sign(0, 0, 4, 0, 0, 4, 4, 4),
           dergulam_orient_sign(0, 0, 8193, 0, 0, 4));
    return 0;
}
