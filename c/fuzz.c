/* Calls the library with random lists of random lengths and random rooms, and sees that each call answers and leaves what c/dergulam.h says.
 *
 *   fuzz ROUNDS SEED
 *
 * Every list has words around it that no call may change, or else its block of memory ends where it ends, so that valgrind sees a word beyond it. The
 * status is 0, or 1 with a line that names the round in which something is not as it should be. */
#include <stdio.h>
#include <stdlib.h>
#include <string.h>

#include "dergulam.h"

/* ---- random numbers: splitmix64 */
static uint64_t state;

static uint64_t bits(void) {
    uint64_t z = state += 0x9e3779b97f4a7c15u;
    z = (z ^ (z >> 30)) * 0xbf58476d1ce4e5b9u;
    z = (z ^ (z >> 27)) * 0x94d049bb133111ebu;
    return z ^ (z >> 31);
}

static size_t below(size_t n) { return n == 0 ? 0 : (size_t)(bits() % n); }

/* ---- what is seen */
static unsigned long round_number;

static void see(int holds, const char *what) {
    if (holds)
        return;
    printf("fuzz: round %lu: this does not hold: %s\n", round_number, what);
    exit(1);
}

/* ---- lists with words around them */
enum { GUARD = 16 };

typedef struct {
    uint32_t *block, *kept, *at;
    size_t guard, len;
} list;

static size_t block_len(const list *l) { return l->guard + l->len + l->guard; }

static list make(size_t len) {
    list l = {.guard = bits() & 1 ? GUARD : 0, .len = len};
    size_t size = block_len(&l) * sizeof(uint32_t);
    /* a list of no numbers and no guard is sometimes a null pointer */
    if (size == 0 && bits() & 1)
        return l;
    l.block = malloc(size);
    l.kept = malloc(size);
    if (size > 0 && (l.block == NULL || l.kept == NULL)) {
        printf("fuzz: no memory\n");
        exit(2);
    }
    l.at = l.block + l.guard;
    for (size_t i = 0; i < block_len(&l); i++)
        l.block[i] = (uint32_t)bits();
    return l;
}

static void keep(list *l) {
    if (block_len(l) > 0)
        memcpy(l->kept, l->block, block_len(l) * sizeof(uint32_t));
}

static void drop(list *l) {
    free(l->block);
    free(l->kept);
}

/* the words before the list, and those from `from` on, with the words after the list, are as they were kept */
static int rest_kept(const list *l, size_t from) {
    if (block_len(l) == 0)
        return 1;
    return memcmp(l->block, l->kept, l->guard * sizeof(uint32_t)) == 0 &&
           memcmp(l->at + from, l->kept + l->guard + from, (l->len - from + l->guard) * sizeof(uint32_t)) == 0;
}

/* the working area as an answer with this number leaves it */
static void see_work(const list *work, uint32_t number, size_t n) {
    if (number >= 1 && number <= 3) {
        see(rest_kept(work, 0), "refusals 1 to 3 leave the working area unchanged");
        return;
    }
    see(rest_kept(work, 64 * n), "the working area beyond 64n is unchanged");
    for (size_t i = 0; i < 64 * n; i++)
        see(work->at[i] == 0, "the first 64n numbers of the working area are zero");
}

/* refusals 1 to 3, which the lengths alone decide, or 0 */
static uint32_t early(size_t points, size_t pairs, int odd, int short_room) {
    size_t n = points / 2, m = pairs / 2;
    if (points % 2 != 0 || pairs % 2 != 0 || odd)
        return 1;
    if (n < 3 || n > 4096 || m > 12288)
        return 2;
    return short_room ? 3 : 0;
}

/* the place of a refusal is a point, a pair, or 0 */
static int place_fits(uint32_t number, uint32_t place, size_t n, size_t m) {
    if (number == 4 || number == 6 || number == 7)
        return place < n;
    if (number >= 8)
        return place < m;
    return place == 0;
}

/* a length: what is asked for, one less, none, some more, or any up to it */
static size_t some_len(size_t asked) {
    switch (below(16)) {
    case 0:
        return asked == 0 ? 0 : asked - 1;
    case 1:
        return 0;
    case 2:
        return asked + below(100);
    case 3:
        return below(asked + 1);
    default:
        return asked;
    }
}

/* ---- figures */

/* a point in the base (-s,-s), (s,-s), (-s,s), mostly */
static void some_point(int32_t *p, int32_t s) {
    p[0] = (int32_t)below((size_t)(2 * s + 1)) - s;
    p[1] = (int32_t)below((size_t)(2 * s + 1)) - s;
    if ((int64_t)p[0] + p[1] > 0 && below(50) != 0) {
        p[0] = -p[0];
        p[1] = -p[1];
    }
}

/* a figure that mostly passes the table: points of a base in any turn, and pairs of any points, few of which cross */
static void figure(list *points, list *pairs) {
    size_t n = points->len / 2;
    int32_t *p = (int32_t *)points->at;
    int32_t s = (int32_t)(1 + below(bits() & 1 ? 8192 : 60));
    int32_t base[6] = {-s, -s, s, -s, -s, s};
    for (size_t i = 0; i < 6 && i < points->len; i++)
        p[i] = base[i];
    if (n >= 3 && bits() & 1) {
        p[2] = base[4], p[3] = base[5];
        p[4] = base[2], p[5] = base[3];
    }
    /* sometimes a base with no area */
    if (n >= 3 && below(60) == 0)
        p[4] = p[2], p[5] = p[3];
    for (size_t i = 3; i < n; i++) {
        some_point(p + 2 * i, s);
        /* mostly no point twice */
        for (size_t j = 0; j < i && n <= 400 && below(200) != 0; j++)
            if (p[2 * j] == p[2 * i] && p[2 * j + 1] == p[2 * i + 1]) {
                some_point(p + 2 * i, s);
                j = 0;
            }
    }
    for (size_t i = 0; i < pairs->len; i++)
        pairs->at[i] = (uint32_t)below(n + (below(500) == 0));
    /* sometimes a repeated pair, turned around */
    if (pairs->len >= 4 && bits() & 1) {
        pairs->at[2] = pairs->at[1];
        pairs->at[3] = pairs->at[0];
    }
    /* sometimes one word of any bits */
    if (points->len > 0 && below(40) == 0)
        points->at[below(points->len)] = (uint32_t)bits();
    if (pairs->len > 0 && below(40) == 0)
        pairs->at[below(pairs->len)] = (uint32_t)bits();
}

/* ---- one figure, cut twice, and its list checked */
static unsigned long sheets, demanded, refusals[12], rules[9];

static void check(list *points, list *pairs, list *triples, int is_sheet, int is_changed) {
    size_t n = points->len / 2, m = pairs->len / 2;
    list work = make(some_len(64 * n));
    keep(&work), keep(triples);
    uint64_t answer =
        dergulam_check((const int32_t *)points->at, points->len, pairs->at, pairs->len, triples->at, triples->len, work.at, work.len);
    uint32_t number = DERGULAM_NUMBER(answer), value = DERGULAM_VALUE(answer);
    see(rest_kept(points, 0) && rest_kept(pairs, 0) && rest_kept(triples, 0), "the checker leaves its lists unchanged");
    uint32_t first = early(points->len, pairs->len, triples->len % 3 != 0, work.len < 64 * n);
    if (first != 0)
        see(number == first && value == 0, "the checker's refusals 1 to 3");
    else if (number != 0)
        see(number >= 4 && number <= 10 && place_fits(number, value, n, m), "the checker's refusals 4 to 10");
    else {
        see(value <= 8, "the checker's rules");
        rules[value]++;
        if (is_sheet)
            see(value == 0, "the checker says yes to the cutter's sheet");
        if (is_changed)
            see(value != 0, "the checker does not say yes to a changed sheet");
    }
    see_work(&work, number, n);
    drop(&work);
}

static uint64_t cut(list *points, list *pairs, list *out, size_t work_len) {
    size_t n = points->len / 2, m = pairs->len / 2;
    list work = make(work_len);
    keep(&work), keep(out);
    uint64_t answer = dergulam_cut((const int32_t *)points->at, points->len, pairs->at, pairs->len, out->at, out->len, work.at, work.len);
    uint32_t number = DERGULAM_NUMBER(answer), value = DERGULAM_VALUE(answer);
    see(rest_kept(points, 0) && rest_kept(pairs, 0), "the cutter leaves points and pairs unchanged");
    uint32_t first = early(points->len, pairs->len, 0, out->len < DERGULAM_OUT_LEN(n) || work.len < 64 * n);
    if (first != 0)
        see(number == first && value == 0, "the cutter's refusals 1 to 3");
    else if (number != 0)
        see(number >= 4 && number <= 11 && place_fits(number, value, n, m), "the cutter's refusals 4 to 11");
    else
        see(value >= 1 && value + 5 <= 2 * n, "a sheet has 1 to 2n - 5 triples");
    see(rest_kept(out, number == 0 ? 3 * (size_t)value : 0), "the output beyond the sheet is unchanged");
    see_work(&work, number, n);
    drop(&work);
    return answer;
}

/* All edges of a sheet are demanded: they are as many as a sheet of these points can have, and the sheet stays the same. */
static void demand_all(list *points, const list *triples) {
    size_t n = points->len / 2, m = triples->len;
    if (m > DERGULAM_MAX_PAIRS)
        return;
    list pairs = make(2 * m), out = make(DERGULAM_OUT_LEN(n) + below(3));
    /* the triples' edges from the last to the first, so that pairs go in another order than triangles */
    for (size_t h = 0; h < m; h++) {
        pairs.at[2 * h] = triples->at[m - 1 - h];
        pairs.at[2 * h + 1] = triples->at[(m - 1 - h) % 3 == 2 ? m - 3 - h : m - h];
    }
    keep(&pairs);
    uint64_t answer = cut(points, &pairs, &out, 64 * n + below(3));
    see(answer == m / 3 && memcmp(out.at, triples->at, m * sizeof(uint32_t)) == 0, "a sheet whose edges are all demanded stays the same");
    demanded++;
    drop(&pairs), drop(&out);
}

/* makes a sheet into a list that is none */
static void change(list *triples, size_t n) {
    size_t count = triples->len / 3, t = below(count), u = below(count);
    uint32_t *a = triples->at + 3 * t, *b = triples->at + 3 * u;
    switch (below(4)) {
    case 0:
        /* two triples exchanged */
        for (int i = 0; i < 3 && t != u; i++) {
            uint32_t x = a[i];
            a[i] = b[i];
            b[i] = x;
        }
        if (t != u)
            return;
        break;
    case 1: {
        /* a triple turned */
        uint32_t x = a[0];
        a[0] = a[1];
        a[1] = a[2];
        a[2] = x;
        return;
    }
    case 2:
        /* a triple in place of another */
        if (t != u) {
            memcpy(a, b, 3 * sizeof(uint32_t));
            return;
        }
        break;
    default:
        break;
    }
    /* a number changed */
    triples->at[below(triples->len)] += (uint32_t)(1 + below(n));
}

static void one_round(void) {
    int wild = below(10) == 0;
    size_t n = below(20) != 0 ? below(40) : below(60) != 0 ? below(400) : 4080 + below(30);
    size_t m = below(3) != 0 ? below(4) : below(20) != 0 ? below(n + 1) : n > 4000 ? 12280 + below(20) : below(3 * n + 1);
    list points = make(2 * n + (below(30) == 0)), pairs = make(2 * m + (below(30) == 0));
    if (!wild)
        figure(&points, &pairs);
    keep(&points), keep(&pairs);
    n = points.len / 2;

    size_t out_len = some_len(DERGULAM_OUT_LEN(n)), work_len = some_len(64 * n);
    list out = make(out_len), again = make(out_len);
    uint64_t answer = cut(&points, &pairs, &out, work_len);
    see(answer == cut(&points, &pairs, &again, work_len), "what the working area held does not matter");
    refusals[DERGULAM_NUMBER(answer)]++;
    if (DERGULAM_NUMBER(answer) == 0) {
        size_t len = 3 * (size_t)DERGULAM_VALUE(answer);
        see(memcmp(out.at, again.at, len * sizeof(uint32_t)) == 0, "the same figure gets the same sheet");
        sheets++;
        list triples = make(len);
        memcpy(triples.at, out.at, len * sizeof(uint32_t));
        check(&points, &pairs, &triples, 1, 0);
        if (below(4) == 0)
            demand_all(&points, &triples);
        change(&triples, n);
        check(&points, &pairs, &triples, 0, 1);
        drop(&triples);
    }
    /* a list of any numbers, below n or of any bits */
    list any = make(below(4) == 0 ? below(7 * n + 1) : 3 * below(2 * n + 1));
    if (bits() & 1)
        for (size_t i = 0; i < any.len; i++)
            any.at[i] = (uint32_t)below(n);
    check(&points, &pairs, &any, 0, 0);
    drop(&any), drop(&out), drop(&again), drop(&points), drop(&pairs);

    /* the signs: any numbers, and small ones */
    int32_t c[8];
    int far_orient = 0, far_circle = 0, small = bits() & 1;
    for (int i = 0; i < 8; i++) {
        c[i] = small ? (int32_t)below(16390) - 8195 : (int32_t)(uint32_t)bits();
        int far = c[i] < -8192 || c[i] > 8192;
        far_circle |= far;
        if (i < 6)
            far_orient |= far;
    }
    int32_t o = dergulam_orient_sign(c[0], c[1], c[2], c[3], c[4], c[5]);
    int32_t r = dergulam_circle_sign(c[0], c[1], c[2], c[3], c[4], c[5], c[6], c[7]);
    see(far_orient ? o == 2 : o >= -1 && o <= 1, "the orientation's answer");
    see(far_circle ? r == 2 : r >= -1 && r <= 1, "the circle's answer");
    if (!far_orient) {
        int64_t d = ((int64_t)c[0] - c[4]) * ((int64_t)c[3] - c[5]) - ((int64_t)c[1] - c[5]) * ((int64_t)c[2] - c[4]);
        see(o == (d > 0) - (d < 0), "the orientation's sign");
    }
}

int main(int argc, char **argv) {
    if (argc != 3) {
        printf("usage: fuzz ROUNDS SEED\n");
        return 2;
    }
    unsigned long rounds = strtoul(argv[1], NULL, 10);
    state = strtoull(argv[2], NULL, 10);
    for (round_number = 0; round_number < rounds; round_number++)
        one_round();
    printf("fuzz: %lu rounds, %lu sheets, %lu with all edges demanded; refusals", rounds, sheets, demanded);
    for (int k = 1; k < 12; k++)
        printf(" %lu", refusals[k]);
    printf("; lists by rule");
    for (int k = 0; k < 9; k++)
        printf(" %lu", rules[k]);
    printf("; all as promised\n");
    return 0;
}
