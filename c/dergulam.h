/* Dergulam: cuts a figure of points and lines into a sheet of triangles, and judges such a sheet.
 *
 * The library is crates/exports/out/libexports.a, which `rt lib` in crates/exports proves and writes. It is for x86-64 Linux. Of the C library it needs no
 * more than memset, memcpy and memmove. It takes no memory, keeps nothing between calls, and reads and writes nothing but the lists that it is lent, so
 * calls on different lists may run at once.
 *
 * A FIGURE is n points and m pairs. The points are a list of 2n numbers x0, y0, x1, y1, ..; points 0, 1 and 2 are the base, which every other point
 * lies in or on. The pairs are a list of 2m point numbers, two for each line that has to be an edge of the sheet. A SHEET is T triples of point
 * numbers, each counterclockwise with its least number first, in rising order; always T = 2n - 2 - h, where h points lie on the boundary of the base.
 *
 * Every call may be asked with any numbers in lists of any length, and answers. What it asks of the caller is only what C asks of a list: so many
 * numbers can be read there, and written where the list is not const, and no list that is written overlaps another. A list of length 0 may be a null
 * pointer.
 */
#ifndef DERGULAM_H
#define DERGULAM_H

#include <stddef.h>
#include <stdint.h>

#ifdef __cplusplus
extern "C" {
#endif

/* ---- limits: what passes refusals 2 and 4 */
#define DERGULAM_MIN_POINTS 3
#define DERGULAM_MAX_POINTS 4096
#define DERGULAM_MAX_PAIRS 12288
/* a coordinate is from -8192 to 8192 */
#define DERGULAM_MAX_COORDINATE 8192

/* ---- rooms: how many numbers the output and the working area need for n points. Longer ones do as well. The working area may hold anything. */
#define DERGULAM_OUT_LEN(n) ((n) < 3 ? (size_t)0 : 3 * (2 * (size_t)(n) - 5))
#define DERGULAM_WORK_LEN(n) (64 * (size_t)(n))

/* ---- the halves of an answer of 64 bits: (number << 32) | value */
#define DERGULAM_NUMBER(answer) ((uint32_t)((uint64_t)(answer) >> 32))
#define DERGULAM_VALUE(answer) ((uint32_t)(uint64_t)(answer))

/* ---- the number: 0, or a refusal. The refusals are tested in this order, each over the whole figure, and the value is the place: the lowest point or
 * pair that offends, or 0 where none is named here. */
enum {
    DERGULAM_OK = 0,
    DERGULAM_ODD_LENGTH = 1,     /* a list of points or of pairs of odd length; for the checker, also a list whose length is no multiple of 3 */
    DERGULAM_COUNTS = 2,         /* n < 3, n > 4096 or m > 12288 */
    DERGULAM_ROOM = 3,           /* the output (for the cutter) or the working area is too short */
    DERGULAM_FAR_POINT = 4,      /* a coordinate below -8192 or above 8192; the point */
    DERGULAM_NO_AREA = 5,        /* the base has no area */
    DERGULAM_OUTSIDE_POINT = 6,  /* a point outside the closed base; the point */
    DERGULAM_EQUAL_POINT = 7,    /* a point equal to one with a lower number; the point */
    DERGULAM_BAD_PAIR = 8,       /* an end of a pair is not below n, or its ends are equal; the pair */
    DERGULAM_BLOCKED_PAIR = 9,   /* some point lies strictly inside the pair's segment; the pair */
    DERGULAM_CROSSING_PAIR = 10, /* the pair properly crosses one with a lower index; the pair */
    DERGULAM_STUCK_PAIR = 11     /* the recovery of the pair sticks; the pair. No figure is known that does it. The checker never says it. */
};

/* ---- the checker's value where the number is 0: yes, or the lowest broken rule */
enum {
    DERGULAM_YES = 0,
    DERGULAM_RULE_TRIPLES = 1, /* 1 to 2n - 5 triples of distinct point numbers below n, each strictly counterclockwise */
    DERGULAM_RULE_ONCE = 2,    /* no directed edge stands in two triples */
    DERGULAM_RULE_REVERSE = 3, /* the reverse of each directed edge is in a triple, or the edge lies along a side of the base */
    DERGULAM_RULE_POINTS = 4,  /* every point is a corner of some triple */
    DERGULAM_RULE_AREA = 5,    /* the areas of the triples sum to the base's */
    DERGULAM_RULE_PAIRS = 6,   /* each pair is an edge */
    DERGULAM_RULE_FLIPS = 7,   /* each inner edge that is no pair would not be flipped: the sheet is Delaunay but for its pairs */
    DERGULAM_RULE_ORDER = 8    /* each triple has its least number first, and the triples rise, none twice */
};

/* ---- the answer of a sign where a coordinate is beyond the limit */
#define DERGULAM_OUT_OF_RANGE 2

/* Cuts a figure.
 *
 * points, points_len: the points, 2n numbers. pairs, pairs_len: the pairs, 2m numbers. out, out_len: the output, at least DERGULAM_OUT_LEN(n) numbers.
 * work, work_len: the working area, at least DERGULAM_WORK_LEN(n) numbers.
 *
 * The answer is (number << 32) | value. Number 0: the first 3 * value numbers of the output are the sheet, and the rest of the output is unchanged.
 * Otherwise number is a refusal, 1 to 11, and value its place; the whole output is unchanged.
 *
 * Refusals 1 to 3 leave the working area unchanged. Every other answer leaves its first 64n numbers zero, and the rest unchanged. */
uint64_t dergulam_cut(const int32_t *points, size_t points_len, const uint32_t *pairs, size_t pairs_len, uint32_t *out, size_t out_len, uint32_t *work,
                      size_t work_len);

/* Judges a list of triples for a figure, by the eight rules. A sheet of dergulam_cut always gets a yes.
 *
 * points, pairs: as for dergulam_cut. list, list_len: the triples, three numbers for each. work, work_len: as for dergulam_cut.
 *
 * The answer is 0 for yes, 1 to 8 for the lowest broken rule, or (number << 32) | place for a refusal, 1 to 10, which is tested before the rules.
 *
 * The working area is left as dergulam_cut leaves it. */
uint64_t dergulam_check(const int32_t *points, size_t points_len, const uint32_t *pairs, size_t pairs_len, const uint32_t *list, size_t list_len,
                        uint32_t *work, size_t work_len);

/* The orientation of a, b, c: 1 for counterclockwise, -1 for clockwise, 0 for three points on a line, exactly. DERGULAM_OUT_OF_RANGE where a coordinate
 * is below -8192 or above 8192. */
int32_t dergulam_orient_sign(int32_t ax, int32_t ay, int32_t bx, int32_t by, int32_t cx, int32_t cy);

/* The sign of the circle determinant of a, b, c and d, exactly: for counterclockwise a, b, c it is 1 for d strictly inside their circle, -1 for d
 * outside, 0 for d on it. DERGULAM_OUT_OF_RANGE where a coordinate is below -8192 or above 8192. */
int32_t dergulam_circle_sign(int32_t ax, int32_t ay, int32_t bx, int32_t by, int32_t cx, int32_t cy, int32_t dx, int32_t dy);

#ifdef __cplusplus
}
#endif

#endif
