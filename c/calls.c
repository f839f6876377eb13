/*
 * Calls every exported function from C and holds what it answers, refuses, tells
 * as the place and leaves alone to known values, most of them docs/SCOPE.md's.
 * Prints a line per function with the checks it passed; the first wrong one ends
 * the program with status 1.
 */
#include "byrlygent.h"

#include <math.h>
#include <stdio.h>
#include <stdlib.h>
#include <string.h>

static const double S[8] = {0, 0, 4, 0, 4, 4, 0, 4};
static const double Q[8] = {0, 0, 2, 0, 2, 2, 0, 2};
static const double TRIANGLE[6] = {0, 0, 4, 0, 0, 3};
static const double CLOSED[8] = {0, 0, 4, 0, 0, 3, 0, 0};
static const double Q_AT_START[8] = {0, -2, 2, -2, 2, 0, 0, 0};
static const double Q_BESIDE[8] = {-5, 1, -3, 1, -3, 3, -5, 3};
static const double TOLERANCE = 1e-6;

/* Points at the origin, and the same with the first out of bounds. */
static const double GOOD[20004] = {0};
static const double WRONG[20004] = {NAN};

/* What every room, answer and place holds before a call. */
#define HELD 7.5
enum { HELD_COUNT = 0xfeed, HELD_WORD = 0xbeef };

/* ---- Checks ---- */

static const char *function = "";
static int checks = 0;
static int functions = 0;

/* The row of a table that is tried, from 1 on; 0 outside tables. */
static size_t row = 0;

static void told(void) {
    if (checks > 0) {
        printf("%s: %d checks\n", function, checks);
        functions += 1;
    }
}

static void begin(const char *name) {
    told();
    function = name;
    checks = 0;
}

static void check(int holds, int line) {
    if (!holds) {
        printf("%s: the check in line %d of calls.c does not hold", function, line);
        if (row > 0) {
            printf(", row %d of its table", (int)row);
        }
        printf("\n");
        exit(1);
    }
    checks += 1;
}

#define CHECK(holds) check((holds), __LINE__)

/* Whether two floats are the same, bit for bit. */
static int same(double a, double b) {
    return memcmp(&a, &b, sizeof a) == 0;
}

/* Whether all of the first n floats are the same. */
static int same_list(const double *a, const double *b, size_t n) {
    return memcmp(a, b, n * sizeof *a) == 0;
}

static void hold(double *room, size_t n) {
    size_t i;
    for (i = 0; i < n; i++) {
        room[i] = HELD;
    }
}

/* Whether the floats of a room from one place to another are as they were. */
static int held(const double *room, size_t from, size_t to) {
    size_t i;
    for (i = from; i < to; i++) {
        if (!same(room[i], HELD)) {
            return 0;
        }
    }
    return 1;
}

/* The float after 1000000. */
static double past_million(void) {
    return nextafter(1e6, 2e6);
}

/* ---- Lists of a wrong length ---- */

/* A call with one list, or with two, whose settings and rooms, if it has any, would
 * be refused after the lists. It checks that all but the place is as it was. */
typedef uint32_t (*one_list)(const double *list, size_t n, uint64_t *place);
typedef uint32_t (*two_lists)(const double *a, size_t an, const double *b, size_t bn, uint64_t *place);

/* Two lists, the number with which they are refused, and the place afterwards. */
struct lists {
    const double *a;
    size_t an;
    const double *b;
    size_t bn;
    uint32_t number;
    uint64_t place;
};

/* Two polygons of 3 to 256 vertices. */
static const struct lists POLYGONS[] = {
    {GOOD, 7, GOOD, 8, BYR_REFUSED_LENGTH, 0},
    {GOOD, 5, GOOD, 8, BYR_REFUSED_LENGTH, 0},
    {GOOD, 513, GOOD, 8, BYR_REFUSED_LENGTH, 0},
    {NULL, 0, GOOD, 8, BYR_REFUSED_FEW, 0},
    {GOOD, 4, GOOD, 8, BYR_REFUSED_FEW, 0},
    {GOOD, 514, GOOD, 8, BYR_REFUSED_MANY, 0},
    {GOOD, 8, GOOD, 7, BYR_REFUSED_LENGTH, 1},
    {GOOD, 8, GOOD, 5, BYR_REFUSED_LENGTH, 1},
    {GOOD, 8, GOOD, 513, BYR_REFUSED_LENGTH, 1},
    {GOOD, 8, NULL, 0, BYR_REFUSED_FEW, 1},
    {GOOD, 8, GOOD, 4, BYR_REFUSED_FEW, 1},
    {GOOD, 8, GOOD, 514, BYR_REFUSED_MANY, 1},
    /* Both: the first speaks. */
    {GOOD, 7, GOOD, 4, BYR_REFUSED_LENGTH, 0},
    {GOOD, 4, GOOD, 7, BYR_REFUSED_FEW, 0},
    {GOOD, 514, GOOD, 7, BYR_REFUSED_MANY, 0},
    {GOOD, 514, GOOD, 4, BYR_REFUSED_MANY, 0},
    /* A number out of bounds speaks after both. */
    {WRONG, 8, GOOD, 7, BYR_REFUSED_LENGTH, 1},
    {WRONG, 8, GOOD, 4, BYR_REFUSED_FEW, 1},
    {WRONG, 8, GOOD, 514, BYR_REFUSED_MANY, 1},
    {WRONG, 6, GOOD, 512, BYR_REFUSED_NUMBER, HELD_COUNT},
    {GOOD, 512, WRONG, 6, BYR_REFUSED_NUMBER, HELD_COUNT},
};

/* Two rings of 0 to 256 vertices. */
static const struct lists RINGS[] = {
    {GOOD, 1, GOOD, 8, BYR_REFUSED_LENGTH, 0},
    {GOOD, 513, GOOD, 8, BYR_REFUSED_LENGTH, 0},
    {GOOD, 514, GOOD, 8, BYR_REFUSED_MANY, 0},
    {GOOD, 8, GOOD, 1, BYR_REFUSED_LENGTH, 1},
    {GOOD, 8, GOOD, 513, BYR_REFUSED_LENGTH, 1},
    {NULL, 0, GOOD, 514, BYR_REFUSED_MANY, 1},
    {GOOD, 514, GOOD, 1, BYR_REFUSED_MANY, 0},
    {GOOD, 1, GOOD, 514, BYR_REFUSED_LENGTH, 0},
    {WRONG, 2, GOOD, 1, BYR_REFUSED_LENGTH, 1},
    {WRONG, 2, GOOD, 514, BYR_REFUSED_MANY, 1},
    {WRONG, 2, NULL, 0, BYR_REFUSED_NUMBER, HELD_COUNT},
    {NULL, 0, WRONG, 512, BYR_REFUSED_NUMBER, HELD_COUNT},
};

static void try_rows(two_lists call, const struct lists *rows, size_t n) {
    size_t i;
    for (i = 0; i < n; i++) {
        uint64_t place = HELD_COUNT;
        row = i + 1;
        CHECK(call(rows[i].a, rows[i].an, rows[i].b, rows[i].bn, &place) == rows[i].number);
        CHECK(place == rows[i].place);
    }
    row = 0;
}

static void try_polygons(two_lists call) {
    try_rows(call, POLYGONS, sizeof POLYGONS / sizeof *POLYGONS);
}

/* Tries a call with a list of 0 entries to so many, which it counts as this one. */
static void try_list(one_list call, size_t most, uint64_t list) {
    uint64_t place = HELD_COUNT;

    CHECK(call(WRONG, 2, &place) == BYR_REFUSED_NUMBER && place == HELD_COUNT);
    CHECK(call(WRONG, 2 * most, &place) == BYR_REFUSED_NUMBER && place == HELD_COUNT);
    CHECK(call(WRONG, 1, &place) == BYR_REFUSED_LENGTH && place == list);
    place = HELD_COUNT;
    CHECK(call(WRONG, 2 * most + 1, &place) == BYR_REFUSED_LENGTH && place == list);
    place = HELD_COUNT;
    CHECK(call(WRONG, 2 * most + 2, &place) == BYR_REFUSED_MANY && place == list);
}

/* ---- The interface ---- */

static void interface(void) {
    begin("byr_abi_version");
    CHECK(byr_abi_version() == BYR_ABI_VERSION);
}

/* ---- Scalars ---- */

static void scalars(void) {
    begin("byr_abs");
    CHECK(same(byr_abs(-3.5), 3.5));
    CHECK(same(byr_abs(-0.0), 0.0));
    CHECK(isnan(byr_abs(NAN)));
    begin("byr_smaller");
    CHECK(same(byr_smaller(1, 2), 1));
    CHECK(same(byr_smaller(0.0, -0.0), -0.0));
    CHECK(same(byr_smaller(NAN, 2), 2));
    begin("byr_larger");
    CHECK(same(byr_larger(1, 2), 2));
    CHECK(same(byr_larger(-0.0, 0.0), 0.0));
    CHECK(same(byr_larger(2, NAN), 2));
    begin("byr_clamp");
    CHECK(same(byr_clamp(-0.0, 0, 1), -0.0));
    CHECK(same(byr_clamp(7, 0, 1), 1));
    CHECK(same(byr_clamp(-7, 0, 1), 0));
    CHECK(isnan(byr_clamp(NAN, 0, 1)));
    begin("byr_sqrt");
    CHECK(same(byr_sqrt(4), 2));
    CHECK(same(byr_sqrt(0.25), 0.5));
    CHECK(same(byr_sqrt(-0.0), -0.0));
    CHECK(same(byr_sqrt(ldexp(1, -1074)), ldexp(1, -537)));
    CHECK(same(byr_sqrt(2), sqrt(2)));
    CHECK(same(byr_sqrt(INFINITY), INFINITY));
    CHECK(isnan(byr_sqrt(-1)));
}

/* ---- Points and segments ---- */

static void predicates(void) {
    int32_t turn = 77;
    uint32_t answer = HELD_WORD;

    begin("byr_orientation");
    CHECK(byr_orientation(0, 0, 4, 0, 4, past_million(), &turn) == BYR_REFUSED_NUMBER && turn == 77);
    CHECK(byr_orientation(0, 0, 4, 0, 4, 1e6, &turn) == 0 && turn == 1);
    CHECK(byr_orientation(0, 0, 4, 0, 4, -1, &turn) == 0 && turn == -1);
    CHECK(byr_orientation(0, 0, 4, 0, 7, 0, &turn) == 0 && turn == 0);
    begin("byr_on_segment");
    CHECK(byr_on_segment(0, 0, NAN, 0, 2, 0, &answer) == BYR_REFUSED_NUMBER && answer == HELD_WORD);
    CHECK(byr_on_segment(0, 0, 4, 0, 2, 0, &answer) == 0 && answer == 1);
    CHECK(byr_on_segment(0, 0, 4, 0, 5, 0, &answer) == 0 && answer == 0);
    begin("byr_segments_intersect");
    answer = HELD_WORD;
    CHECK(byr_segments_intersect(0, 0, 4, 4, 0, 4, INFINITY, 0, &answer) == BYR_REFUSED_NUMBER);
    CHECK(answer == HELD_WORD);
    CHECK(byr_segments_intersect(0, 0, 4, 4, 0, 4, 4, 0, &answer) == 0 && answer == 1);
    CHECK(byr_segments_intersect(0, 0, 1, 1, 0, 4, 4, 0, &answer) == 0 && answer == 0);
    CHECK(byr_segments_intersect(0, 0, 1, 0, 1.0000000005, 0, 2, 0, &answer) == 0 && answer == 1);
    CHECK(byr_segments_intersect(0, 0, 1, 0, 1.000000002, 0, 2, 0, &answer) == 0 && answer == 0);
    CHECK(byr_segments_intersect(-1e-5, 0, 1e-5, 0, 0, -1e-5, 0, 1e-5, &answer) == 0 && answer == 0);
    CHECK(byr_segments_intersect(-1e-4, 0, 1e-4, 0, 0, -1e-4, 0, 1e-4, &answer) == 0 && answer == 1);
    begin("byr_point_on_segment");
    answer = HELD_WORD;
    CHECK(byr_point_on_segment(2, NAN, 0, 0, 4, 0, 0, &answer) == BYR_REFUSED_NUMBER);
    CHECK(byr_point_on_segment(2, 0, 0, 0, 4, 0, -0.0, &answer) == BYR_REFUSED_SETTING);
    CHECK(byr_point_on_segment(2, 0, 0, 0, 4, 0, nextafter(1, 2), &answer) == BYR_REFUSED_SETTING);
    CHECK(answer == HELD_WORD);
    CHECK(byr_point_on_segment(2, 0.5, 0, 0, 4, 0, 1, &answer) == 0 && answer == 1);
    CHECK(byr_point_on_segment(2, 1, 0, 0, 4, 0, 1, &answer) == 0 && answer == 0);
}

static void distances(void) {
    double answer = HELD;
    uint32_t foot = HELD_WORD;

    begin("byr_point_segment_distance");
    CHECK(byr_point_segment_distance(7, 4, 0, 0, 4, -INFINITY, &answer) == BYR_REFUSED_NUMBER);
    CHECK(same(answer, HELD));
    CHECK(byr_point_segment_distance(7, 4, 0, 0, 4, 0, &answer) == 0 && same(answer, 5));
    begin("byr_project_point_to_segment");
    answer = HELD;
    CHECK(byr_project_point_to_segment(NAN, 4, 0, 0, 4, 0, &answer, &foot) == BYR_REFUSED_NUMBER);
    CHECK(same(answer, HELD) && foot == HELD_WORD);
    CHECK(byr_project_point_to_segment(7, 4, 0, 0, 4, 0, &answer, &foot) == 0 && same(answer, 1));
    CHECK(foot == BYR_FOOT_END);
    CHECK(byr_project_point_to_segment(1, 4, 0, 0, 4, 0, &answer, &foot) == 0 && same(answer, 0.25));
    CHECK(foot == BYR_FOOT_BETWEEN);
    CHECK(byr_project_point_to_segment(0, 0, 0, 0, -4, -3, &answer, &foot) == 0 && same(answer, -0.0));
    CHECK(foot == BYR_FOOT_START);
    begin("byr_point_to_segment_distance");
    answer = HELD;
    CHECK(byr_point_to_segment_distance(7, 4, 0, -past_million(), 4, 0, &answer) == BYR_REFUSED_NUMBER);
    CHECK(same(answer, HELD));
    CHECK(byr_point_to_segment_distance(7, 4, 0, 0, 4, 0, &answer) == 0 && same(answer, 5));
}

/* ---- Rings ---- */

static uint32_t lend_mirror(const double *list, size_t n, uint64_t *place) {
    double room[1] = {HELD};
    uint64_t vertices = HELD_COUNT;
    uint32_t number = byr_mirror_polygon(list, n, room, 1, &vertices, place);

    CHECK(held(room, 0, 1) && vertices == HELD_COUNT);
    return number;
}

static uint32_t lend_open(const double *list, size_t n, uint64_t *place) {
    double room[1] = {HELD};
    uint64_t vertices = HELD_COUNT;
    uint32_t number = byr_open_ring(list, n, room, 1, &vertices, place);

    CHECK(held(room, 0, 1) && vertices == HELD_COUNT);
    return number;
}

static void copies(void) {
    static const double mirrored[6] = {-0.0, 3, -4, 0, -0.0, 0};
    static const double closed[8] = {0, 0, 4, 0, 0, 3, -0.0, 0};
    double room[9];
    uint64_t vertices = HELD_COUNT;
    uint64_t place = HELD_COUNT;

    begin("byr_mirror_polygon");
    try_list(lend_mirror, 256, 0);
    hold(room, 9);
    CHECK(byr_mirror_polygon(GOOD, 512, room, 9, &vertices, &place) == BYR_REFUSED_FIT);
    CHECK(byr_mirror_polygon(TRIANGLE, 6, room, 5, &vertices, &place) == BYR_REFUSED_FIT);
    CHECK(vertices == HELD_COUNT && held(room, 0, 9));
    CHECK(byr_mirror_polygon(TRIANGLE, 6, room, 9, &vertices, &place) == 0 && vertices == 3);
    CHECK(same_list(room, mirrored, 6) && held(room, 6, 9));
    CHECK(byr_mirror_polygon(NULL, 0, NULL, 0, &vertices, &place) == 0 && vertices == 0);
    CHECK(place == HELD_COUNT);
    begin("byr_open_ring");
    try_list(lend_open, 256, 0);
    hold(room, 9);
    vertices = HELD_COUNT;
    CHECK(byr_open_ring(closed, 8, room, 5, &vertices, &place) == BYR_REFUSED_FIT);
    CHECK(vertices == HELD_COUNT && held(room, 0, 9));
    CHECK(byr_open_ring(closed, 8, room, 7, &vertices, &place) == 0 && vertices == 3);
    CHECK(same_list(room, closed, 6) && held(room, 6, 9));
    CHECK(byr_open_ring(TRIANGLE, 6, room, 9, &vertices, &place) == 0 && vertices == 3);
    CHECK(byr_open_ring(NULL, 0, NULL, 0, &vertices, &place) == 0 && vertices == 0);
    CHECK(place == HELD_COUNT);
}

/* What mending is lent beside a ring, and what it told. */
struct mended {
    double room[7];
    uint64_t dropped[7];
    double points[7];
    uint64_t vertices;
    uint64_t count;
    uint64_t place;
};

/* A ring, with rooms of these lengths that hold nothing of it yet. */
static uint32_t mend(struct mended *m, const double *ring, size_t n, size_t room_n, size_t dropped_n,
                     size_t points_n) {
    size_t i;
    for (i = 0; i < 7; i++) {
        m->room[i] = m->points[i] = HELD;
        m->dropped[i] = HELD_COUNT;
    }
    m->vertices = m->count = m->place = HELD_COUNT;
    return byr_mend_ring(ring, n, m->room, room_n, m->dropped, dropped_n, m->points, points_n, &m->vertices,
                         &m->count, &m->place);
}

/* Whether all but the place is as it was. */
static int unmended(const struct mended *m) {
    size_t i;
    for (i = 0; i < 7; i++) {
        if (m->dropped[i] != HELD_COUNT) {
            return 0;
        }
    }
    return held(m->room, 0, 7) && held(m->points, 0, 7) && m->vertices == HELD_COUNT && m->count == HELD_COUNT;
}

/* A ring, the number with which it is refused though no room holds anything, and the
 * place afterwards. */
struct unmendable {
    const double *ring;
    size_t n;
    uint32_t number;
    uint64_t place;
};

static const struct unmendable UNMENDABLE[] = {
    {GOOD, 1, BYR_REFUSED_LENGTH, 0},
    {WRONG, 7, BYR_REFUSED_LENGTH, 0},
    {WRONG, 513, BYR_REFUSED_LENGTH, 0},
    {GOOD, 515, BYR_REFUSED_LENGTH, 0},
    {NULL, 0, BYR_REFUSED_FEW, 0},
    {WRONG, 514, BYR_REFUSED_MANY, 0},
    {GOOD, 514, BYR_REFUSED_MANY, 0},
    {WRONG, 2, BYR_REFUSED_NUMBER, HELD_COUNT},
    {WRONG, 512, BYR_REFUSED_NUMBER, HELD_COUNT},
    {GOOD, 2, BYR_REFUSED_REMAINING, HELD_COUNT},
    {GOOD, 512, BYR_REFUSED_REMAINING, HELD_COUNT},
    {TRIANGLE, 4, BYR_REFUSED_REMAINING, HELD_COUNT},
    {TRIANGLE, 6, BYR_REFUSED_FIT, HELD_COUNT},
};

static void mending(void) {
    /* The third repeats the second; the last two equal the first, and the last of all the one before it. */
    static const double drawn[12] = {0, 0, 4, 0, 4, -0.0, 0, 3, -0.0, 0, 0, -0.0};
    static const double gone[6] = {4, -0.0, -0.0, 0, 0, -0.0};
    static const uint64_t whys[6] = {2, BYR_WHY_RUN, 4, BYR_WHY_TRAILING, 5, BYR_WHY_RUN};
    struct mended m;
    size_t i;

    begin("byr_mend_ring");
    for (i = 0; i < sizeof UNMENDABLE / sizeof *UNMENDABLE; i++) {
        row = i + 1;
        CHECK(mend(&m, UNMENDABLE[i].ring, UNMENDABLE[i].n, 0, 0, 0) == UNMENDABLE[i].number);
        CHECK(m.place == UNMENDABLE[i].place && unmended(&m));
    }
    row = 0;
    CHECK(mend(&m, drawn, 12, 5, 6, 6) == BYR_REFUSED_FIT && unmended(&m));
    CHECK(mend(&m, drawn, 12, 6, 5, 6) == BYR_REFUSED_FIT && unmended(&m));
    CHECK(mend(&m, drawn, 12, 6, 6, 5) == BYR_REFUSED_FIT && unmended(&m));
    CHECK(mend(&m, drawn, 12, 7, 7, 7) == 0 && m.vertices == 3 && m.count == 3 && m.place == HELD_COUNT);
    CHECK(same_list(m.room, TRIANGLE, 6) && same_list(m.points, gone, 6));
    CHECK(memcmp(m.dropped, whys, sizeof whys) == 0);
    CHECK(held(m.room, 6, 7) && held(m.points, 6, 7) && m.dropped[6] == HELD_COUNT);
    CHECK(mend(&m, TRIANGLE, 6, 6, 0, 0) == 0 && m.vertices == 3 && m.count == 0);
    CHECK(same_list(m.room, TRIANGLE, 6) && held(m.points, 0, 7) && m.dropped[0] == HELD_COUNT);
}

static uint32_t lend_simple(const double *list, size_t n, uint64_t *place) {
    uint32_t simple = HELD_WORD;
    uint32_t number = byr_is_simple_polygon(list, n, &simple, place);

    CHECK(simple == HELD_WORD);
    return number;
}

static uint32_t lend_distance(const double *a, size_t an, const double *b, size_t bn, uint64_t *place) {
    double distance = HELD;
    uint32_t number = byr_ring_distance(a, an, b, bn, &distance, place);

    CHECK(same(distance, HELD));
    return number;
}

static uint32_t lend_area2(const double *list, size_t n, uint64_t *place) {
    double area2 = HELD;
    uint32_t number = byr_signed_area2(list, n, &area2, place);

    CHECK(same(area2, HELD));
    return number;
}

static uint32_t lend_robust(const double *list, size_t n, uint64_t *place) {
    double area = HELD;
    uint32_t number = byr_signed_area_robust(list, n, &area, place);

    CHECK(same(area, HELD));
    return number;
}

static void rings(void) {
    static const double bow[8] = {0, 0, 2, 2, 2, 0, 0, 2};
    static const double apart[6] = {7, 0, 9, 0, 9, 2};
    uint32_t simple = HELD_WORD;
    double answer = HELD;
    uint64_t place = HELD_COUNT;

    begin("byr_is_simple_polygon");
    try_list(lend_simple, 256, 0);
    CHECK(byr_is_simple_polygon(bow, 8, &simple, &place) == 0 && simple == 0);
    CHECK(byr_is_simple_polygon(S, 8, &simple, &place) == 0 && simple == 1);
    CHECK(byr_is_simple_polygon(CLOSED, 8, &simple, &place) == 0 && simple == 0);
    CHECK(byr_is_simple_polygon(NULL, 0, &simple, &place) == 0 && simple == 0);
    CHECK(place == HELD_COUNT);
    begin("byr_ring_distance");
    try_rows(lend_distance, RINGS, sizeof RINGS / sizeof *RINGS);
    CHECK(byr_ring_distance(S, 8, apart, 6, &answer, &place) == 0 && same(answer, 3));
    CHECK(byr_ring_distance(S, 8, NULL, 0, &answer, &place) == 0 && same(answer, INFINITY));
    CHECK(place == HELD_COUNT);
    begin("byr_signed_area2");
    try_list(lend_area2, 256, 0);
    CHECK(byr_signed_area2(TRIANGLE, 6, &answer, &place) == 0 && same(answer, 12));
    CHECK(byr_signed_area2(bow, 8, &answer, &place) == 0 && same(answer, 0));
    CHECK(byr_signed_area2(NULL, 0, &answer, &place) == 0 && same(answer, 0));
    CHECK(place == HELD_COUNT);
    begin("byr_signed_area_robust");
    try_list(lend_robust, 256, 0);
    CHECK(byr_signed_area_robust(TRIANGLE, 6, &answer, &place) == 0 && same(answer, 6));
    CHECK(byr_signed_area_robust(TRIANGLE, 4, &answer, &place) == 0 && same(answer, 0));
    CHECK(byr_signed_area_robust(NULL, 0, &answer, &place) == 0 && same(answer, 0));
    CHECK(place == HELD_COUNT);
}

/* ---- Whole numbers ---- */

enum { M = 1000000 };

/* A ring of 257 vertices at the origin, and a longer list whose first number is out of bounds. */
static const int32_t WHOLE[515] = {0};
static const int32_t WHOLE_WRONG[20004] = {M + 1};

/* Numbers that are no coordinate. */
static const int32_t PAST[4] = {M + 1, -M - 1, INT32_MAX, INT32_MIN};

static void whole_points(void) {
    int32_t turn = 77;
    uint32_t answer = HELD_WORD;
    size_t i;

    begin("byr_whole_turn");
    for (i = 0; i < 4; i++) {
        CHECK(byr_whole_turn(PAST[i], 0, 4, 0, 4, 1, &turn) == BYR_REFUSED_NUMBER);
        CHECK(byr_whole_turn(0, 0, 4, 0, 4, PAST[i], &turn) == BYR_REFUSED_NUMBER);
    }
    CHECK(turn == 77);
    CHECK(byr_whole_turn(-M, -M, M, M, M - 1, M, &turn) == 0 && turn == 1);
    CHECK(byr_whole_turn(-M, -M, M, M, M, M - 1, &turn) == 0 && turn == -1);
    CHECK(byr_whole_turn(-M, -M, M, M, 7, 7, &turn) == 0 && turn == 0);
    CHECK(byr_whole_turn(0, 0, 1, 0, 0, 1, &turn) == 0 && turn == 1);
    CHECK(byr_whole_turn(0, 0, M, 0, 0, M, &turn) == 0 && turn == 1);
    CHECK(byr_whole_turn(0, 0, M, 0, 0, -M, &turn) == 0 && turn == -1);
    begin("byr_whole_orientation");
    turn = 77;
    for (i = 0; i < 4; i++) {
        CHECK(byr_whole_orientation(0, PAST[i], 4, 0, 4, 1, &turn) == BYR_REFUSED_NUMBER);
    }
    CHECK(turn == 77);
    CHECK(byr_whole_orientation(-M, M, M, -M, 1, 0, &turn) == 0 && turn == 1);
    CHECK(byr_whole_orientation(-M, M, M, -M, -1, 0, &turn) == 0 && turn == -1);
    CHECK(byr_whole_orientation(4, 4, 4, 4, 0, 0, &turn) == 0 && turn == 0);
    begin("byr_whole_on_segment");
    for (i = 0; i < 4; i++) {
        CHECK(byr_whole_on_segment(0, 0, PAST[i], 0, 2, 0, &answer) == BYR_REFUSED_NUMBER);
    }
    CHECK(answer == HELD_WORD);
    CHECK(byr_whole_on_segment(4, 0, 0, 0, 4, 0, &answer) == 0 && answer == 1);
    CHECK(byr_whole_on_segment(4, 0, 0, 0, 5, 0, &answer) == 0 && answer == 0);
    CHECK(byr_whole_on_segment(4, 0, 0, 0, 4, -1, &answer) == 0 && answer == 0);
    begin("byr_whole_segments_intersect");
    answer = HELD_WORD;
    for (i = 0; i < 4; i++) {
        CHECK(byr_whole_segments_intersect(0, 0, 4, 4, 0, 4, 4, PAST[i], &answer) == BYR_REFUSED_NUMBER);
    }
    CHECK(answer == HELD_WORD);
    CHECK(byr_whole_segments_intersect(-M, -M, M, M, -M, M, M, -M, &answer) == 0 && answer == 1);
    CHECK(byr_whole_segments_intersect(0, 0, 4, 0, 4, 0, 9, 9, &answer) == 0 && answer == 1);
    CHECK(byr_whole_segments_intersect(0, 0, 4, 0, 5, 0, 9, 0, &answer) == 0 && answer == 0);
    CHECK(byr_whole_segments_intersect(-M, -M, M, M, 1, 0, M, -M, &answer) == 0 && answer == 0);
    CHECK(byr_whole_segments_intersect(3, 3, 3, 3, 3, 3, 3, 3, &answer) == 0 && answer == 1);
}

static void whole_rings(void) {
    static const int32_t square[8] = {-M, -M, M, -M, M, M, -M, M};
    static const int32_t bow[8] = {0, 0, 2, 2, 2, 0, 0, 2};
    static const int32_t closing[8] = {0, 0, 4, 0, 1, 3, 4, 2};
    uint32_t simple = HELD_WORD;
    int64_t area2 = HELD_COUNT;
    uint64_t place = HELD_COUNT;

    begin("byr_whole_is_simple_polygon");
    CHECK(byr_whole_is_simple_polygon(WHOLE_WRONG, 2, &simple, &place) == BYR_REFUSED_NUMBER);
    CHECK(byr_whole_is_simple_polygon(WHOLE_WRONG, 512, &simple, &place) == BYR_REFUSED_NUMBER);
    CHECK(place == HELD_COUNT);
    CHECK(byr_whole_is_simple_polygon(WHOLE_WRONG, 513, &simple, &place) == BYR_REFUSED_LENGTH && place == 0);
    place = HELD_COUNT;
    CHECK(byr_whole_is_simple_polygon(WHOLE_WRONG, 514, &simple, &place) == BYR_REFUSED_MANY && place == 0);
    CHECK(simple == HELD_WORD);
    place = HELD_COUNT;
    CHECK(byr_whole_is_simple_polygon(WHOLE, 512, &simple, &place) == 0 && simple == 0);
    CHECK(byr_whole_is_simple_polygon(square, 8, &simple, &place) == 0 && simple == 1);
    CHECK(byr_whole_is_simple_polygon(bow, 8, &simple, &place) == 0 && simple == 0);
    CHECK(byr_whole_is_simple_polygon(square, 4, &simple, &place) == 0 && simple == 0);
    CHECK(byr_whole_is_simple_polygon(square, 6, &simple, &place) == 0 && simple == 1);
    CHECK(byr_whole_is_simple_polygon(closing, 8, &simple, &place) == 0 && simple == 0);
    CHECK(byr_whole_is_simple_polygon(NULL, 0, &simple, &place) == 0 && simple == 0);
    CHECK(place == HELD_COUNT);
    begin("byr_whole_signed_area2");
    CHECK(byr_whole_signed_area2(WHOLE_WRONG, 512, &area2, &place) == BYR_REFUSED_NUMBER);
    CHECK(place == HELD_COUNT);
    CHECK(byr_whole_signed_area2(WHOLE_WRONG, 1, &area2, &place) == BYR_REFUSED_LENGTH && place == 0);
    place = HELD_COUNT;
    CHECK(byr_whole_signed_area2(WHOLE_WRONG, 514, &area2, &place) == BYR_REFUSED_MANY && place == 0);
    CHECK(area2 == HELD_COUNT);
    place = HELD_COUNT;
    CHECK(byr_whole_signed_area2(square, 8, &area2, &place) == 0 && area2 == 8 * (int64_t)M * M);
    CHECK(byr_whole_signed_area2(bow, 6, &area2, &place) == 0 && area2 == -4);
    CHECK(byr_whole_signed_area2(bow, 8, &area2, &place) == 0 && area2 == 0);
    CHECK(byr_whole_signed_area2(NULL, 0, &area2, &place) == 0 && area2 == 0);
    CHECK(place == HELD_COUNT);
}

/* ---- Whole moves ---- */

static const int32_t BLOCK[8] = {0, 0, 4, 0, 4, 4, 0, 4};
static const int32_t BESIDE[8] = {4, 0, 8, 0, 8, 4, 4, 4};
static const int32_t TOOL[8] = {0, 0, 2, 0, 2, 2, 0, 2};

/* Which call is tried. */
enum which { CLEAR_MOVE, CHECK_REASON, CLEAR_PATH };

/* What a call on whole moves is lent beside its lists, and what it told. */
struct moved {
    int32_t room[20];
    uint32_t ground;
    uint64_t leg;
    uint64_t edge;
    uint64_t place;
};

static void hold_move(struct moved *m) {
    size_t i;
    for (i = 0; i < 20; i++) {
        m->room[i] = HELD_WORD;
    }
    m->ground = HELD_WORD;
    m->leg = m->edge = m->place = HELD_COUNT;
}

/* The search of a move, with the front of the room; the check of a reason; the legs of a path. */
static uint32_t searched(struct moved *m, const int32_t *s, size_t sn, const int32_t *o, size_t on, int32_t dx,
                         int32_t dy, size_t room_n) {
    hold_move(m);
    return byr_whole_clear_move(s, sn, o, on, dx, dy, m->room, room_n, &m->ground, &m->edge, &m->place);
}

static uint32_t reasoned(struct moved *m, const int32_t *s, size_t sn, const int32_t *o, size_t on, int32_t dx,
                         int32_t dy, const int32_t *reason, size_t reason_n) {
    hold_move(m);
    return byr_whole_check_reason(s, sn, o, on, dx, dy, reason, reason_n, &m->ground, &m->edge, &m->place);
}

static uint32_t gone(struct moved *m, const int32_t *s, size_t sn, const int32_t *o, size_t on, const int32_t *path,
                     size_t path_n) {
    hold_move(m);
    return byr_whole_clear_path(s, sn, o, on, path, path_n, &m->ground, &m->leg, &m->edge, &m->place);
}

/* Whether the cells hold this, and the room from a place on what it held. */
static int moved_as(const struct moved *m, uint32_t ground, uint64_t leg, uint64_t edge, uint64_t place,
                    size_t from) {
    for (; from < 20; from++) {
        if (m->room[from] != HELD_WORD) {
            return 0;
        }
    }
    return m->ground == ground && m->leg == leg && m->edge == edge && m->place == place;
}

/* Whether nothing was written but the place. */
static int unmoved(const struct moved *m, uint64_t place) {
    return moved_as(m, HELD_WORD, HELD_COUNT, HELD_COUNT, place, 0);
}

/* The call with these lists, the third being its room, its reason or its path. */
static uint32_t lend_moved(enum which which, struct moved *m, const int32_t *s, size_t sn, const int32_t *o,
                           size_t on, const int32_t *third, size_t n) {
    switch (which) {
    case CLEAR_MOVE:
        return searched(m, s, sn, o, on, 0, 0, 0);
    case CHECK_REASON:
        return reasoned(m, s, sn, o, on, 0, 0, third, n);
    default:
        return gone(m, s, sn, o, on, third, n);
    }
}

/* Lengths of two polygons and of the third list, the number with which a call refuses them, and the place
 * afterwards. */
struct lent_move {
    size_t sn;
    size_t on;
    size_t n;
    uint32_t number;
    uint64_t place;
};

/* Of all three calls: the third list is wrong besides. */
static const struct lent_move POLYGONS_MOVED[] = {
    {7, 8, 5, BYR_REFUSED_LENGTH, 0}, {513, 8, 5, BYR_REFUSED_LENGTH, 0}, {0, 8, 5, BYR_REFUSED_FEW, 0},
    {4, 7, 5, BYR_REFUSED_FEW, 0},    {514, 4, 5, BYR_REFUSED_MANY, 0},   {8, 7, 5, BYR_REFUSED_LENGTH, 1},
    {8, 0, 5, BYR_REFUSED_FEW, 1},    {8, 4, 5, BYR_REFUSED_FEW, 1},      {512, 514, 5, BYR_REFUSED_MANY, 1},
};

static const struct lent_move REASONS[] = {
    {8, 8, 15, BYR_REFUSED_LENGTH, 2}, {8, 8, 17, BYR_REFUSED_LENGTH, 2}, {8, 8, 1, BYR_REFUSED_LENGTH, 2},
    {8, 8, 0, BYR_REFUSED_FEW, 2},     {8, 8, 12, BYR_REFUSED_FEW, 2},    {8, 8, 20, BYR_REFUSED_MANY, 2},
    {6, 8, 16, BYR_REFUSED_MANY, 2},   {8, 6, 16, BYR_REFUSED_NUMBER, HELD_COUNT},
};

static const struct lent_move WHOLE_PATHS[] = {
    {8, 8, 5, BYR_REFUSED_LENGTH, 2},   {8, 8, 20003, BYR_REFUSED_LENGTH, 2},
    {8, 8, 0, BYR_REFUSED_FEW, 2},      {8, 8, 4, BYR_REFUSED_FEW, 2},
    {8, 8, 20004, BYR_REFUSED_MANY, 2}, {8, 8, 6, BYR_REFUSED_NUMBER, HELD_COUNT},
    {8, 8, 20002, BYR_REFUSED_NUMBER, HELD_COUNT},
};

/* Tries these lengths with lists whose first number is out of bounds, so that it speaks after them. */
static void try_moved(enum which which, const struct lent_move *rows, size_t n) {
    struct moved m;
    size_t i;
    for (i = 0; i < n; i++) {
        const struct lent_move *r = &rows[i];
        const int32_t *s = r->sn == 0 ? NULL : WHOLE_WRONG;
        const int32_t *o = r->on == 0 ? NULL : WHOLE_WRONG;
        row = i + 1;
        CHECK(lend_moved(which, &m, s, r->sn, o, r->on, r->n == 0 ? NULL : WHOLE_WRONG, r->n) == r->number);
        CHECK(unmoved(&m, r->place));
    }
    row = 0;
}

static void clear_moves(void) {
    struct moved m;
    size_t i;

    begin("byr_whole_clear_move");
    try_moved(CLEAR_MOVE, POLYGONS_MOVED, sizeof POLYGONS_MOVED / sizeof *POLYGONS_MOVED);
    for (i = 0; i < 4; i++) {
        const int32_t wrong[6] = {0, 0, 4, 0, 0, PAST[i]};
        CHECK(searched(&m, wrong, 6, BESIDE, 8, 0, 9, 20) == BYR_REFUSED_NUMBER && unmoved(&m, HELD_COUNT));
        CHECK(searched(&m, BLOCK, 8, wrong, 6, 0, 9, 20) == BYR_REFUSED_NUMBER && unmoved(&m, HELD_COUNT));
        CHECK(searched(&m, BLOCK, 8, BLOCK, 8, PAST[i], 0, 20) == BYR_REFUSED_NUMBER && unmoved(&m, HELD_COUNT));
        CHECK(searched(&m, BLOCK, 8, BLOCK, 8, 0, PAST[i], 20) == BYR_REFUSED_NUMBER && unmoved(&m, HELD_COUNT));
    }
    CHECK(searched(&m, BLOCK, 8, BESIDE, 8, M - 7, 0, 20) == BYR_REFUSED_NUMBER);
    CHECK(searched(&m, BLOCK, 8, BESIDE, 8, M - 8, 0, 20) == 0 && m.ground == BYR_MOVE_CLEAR);
    CHECK(searched(&m, BLOCK, 8, BESIDE, 8, 0, 9, 15) == BYR_REFUSED_FIT && unmoved(&m, HELD_COUNT));
    CHECK(searched(&m, BLOCK, 8, BESIDE, 8, 0, 9, 16) == 0);
    CHECK(moved_as(&m, BYR_MOVE_CLEAR, HELD_COUNT, HELD_COUNT, HELD_COUNT, 16));
    CHECK(searched(&m, BLOCK, 8, BESIDE, 8, 0, 9, 20) == 0);
    CHECK(moved_as(&m, BYR_MOVE_CLEAR, HELD_COUNT, HELD_COUNT, HELD_COUNT, 16));
    /* One line for all, the left side of the way's box, down. */
    for (i = 0; i < 16; i += 4) {
        CHECK(m.room[i] == 4 && m.room[i + 1] == 1 && m.room[i + 2] == 4 && m.room[i + 3] == 0);
    }
    CHECK(searched(&m, BLOCK, 8, BESIDE, 8, -1, 9, 0) == 0);
    CHECK(moved_as(&m, BYR_MOVE_EDGE, HELD_COUNT, 1, HELD_COUNT, 0));
    CHECK(searched(&m, BLOCK, 8, BLOCK, 8, 0, 0, 20) == 0);
    CHECK(moved_as(&m, BYR_MOVE_ENCLOSED, HELD_COUNT, HELD_COUNT, HELD_COUNT, 0));
}

static void reasons(void) {
    static const int32_t own[16] = {0, 0, 4, 0, 4, 0, 4, 4, 4, 4, 0, 4, 0, 4, 0, 0};
    static const int32_t upright[16] = {4, M, 4, -M, 4, M, 4, -M, 4, M, 4, -M, 4, M, 4, -M};
    struct moved m;
    int32_t reason[16];
    size_t i;

    begin("byr_whole_check_reason");
    try_moved(CHECK_REASON, POLYGONS_MOVED, sizeof POLYGONS_MOVED / sizeof *POLYGONS_MOVED);
    try_moved(CHECK_REASON, REASONS, sizeof REASONS / sizeof *REASONS);
    for (i = 0; i < 4; i++) {
        memcpy(reason, upright, sizeof reason);
        reason[15] = PAST[i];
        CHECK(reasoned(&m, BLOCK, 8, BESIDE, 8, 0, 9, reason, 16) == BYR_REFUSED_NUMBER && unmoved(&m, HELD_COUNT));
        CHECK(reasoned(&m, BLOCK, 8, BLOCK, 8, 0, PAST[i], upright, 16) == BYR_REFUSED_NUMBER);
    }
    CHECK(searched(&m, BLOCK, 8, BESIDE, 8, 0, 9, 16) == 0);
    memcpy(reason, m.room, sizeof reason);
    CHECK(reasoned(&m, BLOCK, 8, BESIDE, 8, 0, 9, reason, 16) == 0);
    CHECK(moved_as(&m, BYR_MOVE_CLEAR, HELD_COUNT, HELD_COUNT, HELD_COUNT, 0));
    CHECK(reasoned(&m, BLOCK, 8, BESIDE, 8, 0, 9, upright, 16) == 0 && m.ground == BYR_MOVE_CLEAR);
    /* Two points that are one. */
    reason[14] = reason[12];
    reason[15] = reason[13];
    CHECK(reasoned(&m, BLOCK, 8, BESIDE, 8, 0, 9, reason, 16) == 0);
    CHECK(moved_as(&m, BYR_MOVE_EDGE, HELD_COUNT, 3, HELD_COUNT, 0));
    CHECK(reasoned(&m, BLOCK, 8, BESIDE, 8, -1, 9, upright, 16) == 0 && m.ground == BYR_MOVE_EDGE && m.edge == 0);
    CHECK(reasoned(&m, BLOCK, 8, BLOCK, 8, 0, 0, own, 16) == 0);
    CHECK(moved_as(&m, BYR_MOVE_ENCLOSED, HELD_COUNT, HELD_COUNT, HELD_COUNT, 0));
}

static void whole_paths(void) {
    static const int32_t round[8] = {-2, -2, 4, -2, 4, 4, -2, 4};
    static const int32_t within[6] = {1, 1, 2, 1, 1, 2};
    /* As drawn in the far corner of the bounds, with points that bring it back past their number. */
    static const int32_t far[8] = {M - 2, M - 2, M, M - 2, M, M, M - 2, M};
    static const int32_t back[6] = {2 - 2 * M, 2 - 2 * M, -M - 100, 2 - 2 * M, -M - 100, -M};
    struct moved m;
    int32_t path[6];
    size_t i;

    begin("byr_whole_clear_path");
    try_moved(CLEAR_PATH, POLYGONS_MOVED, sizeof POLYGONS_MOVED / sizeof *POLYGONS_MOVED);
    try_moved(CLEAR_PATH, WHOLE_PATHS, sizeof WHOLE_PATHS / sizeof *WHOLE_PATHS);
    for (i = 0; i < 4; i++) {
        memcpy(path, within, sizeof path);
        path[5] = PAST[i];
        CHECK(gone(&m, BLOCK, 8, TOOL, 8, path, 6) == BYR_REFUSED_NUMBER && unmoved(&m, HELD_COUNT));
    }
    CHECK(gone(&m, BLOCK, 8, TOOL, 8, round, 8) == 0);
    CHECK(moved_as(&m, BYR_MOVE_CLEAR, HELD_COUNT, HELD_COUNT, HELD_COUNT, 0));
    CHECK(gone(&m, BLOCK, 8, TOOL, 8, round, 6) == 0);
    CHECK(moved_as(&m, BYR_MOVE_EDGE, 2, 0, HELD_COUNT, 0));
    CHECK(gone(&m, BLOCK, 8, TOOL, 8, within, 6) == 0);
    CHECK(moved_as(&m, BYR_MOVE_ENCLOSED, 0, HELD_COUNT, HELD_COUNT, 0));
    CHECK(gone(&m, BLOCK, 8, far, 8, back, 6) == 0 && m.ground == BYR_MOVE_CLEAR);
    memcpy(path, back, sizeof path);
    path[0] -= 1;
    CHECK(gone(&m, BLOCK, 8, far, 8, path, 6) == BYR_REFUSED_NUMBER && unmoved(&m, HELD_COUNT));
}

/* ---- Contacts and vectors ---- */

static uint32_t lend_contacts(const double *a, size_t an, const double *b, size_t bn, uint64_t *place) {
    uint64_t which[1] = {HELD_COUNT};
    double points[1] = {HELD};
    uint64_t count = HELD_COUNT;
    uint32_t number = byr_find_contacts(a, an, b, bn, 0, which, 1, points, 1, &count, place);

    CHECK(which[0] == HELD_COUNT && held(points, 0, 1) && count == HELD_COUNT);
    return number;
}

static void contacts(void) {
    static const uint64_t expected[24] = {0, 0, 2, BYR_FOOT_BETWEEN, 0, 0, 3, BYR_FOOT_START,
                                          0, 3, 3, BYR_FOOT_END,     1, 0, 2, BYR_FOOT_END,
                                          1, 0, 3, BYR_FOOT_START,   2, 0, 2, BYR_FOOT_BETWEEN};
    uint64_t which[26];
    double points[13];
    uint64_t count = HELD_COUNT;
    uint64_t place = HELD_COUNT;
    size_t i;

    begin("byr_find_contacts");
    try_polygons(lend_contacts);
    hold(points, 13);
    for (i = 0; i < 26; i++) {
        which[i] = HELD_COUNT;
    }
    CHECK(byr_find_contacts(S, 8, Q_AT_START, 8, 0, which, 26, points, 13, &count, &place) == BYR_REFUSED_SETTING);
    CHECK(byr_find_contacts(S, 8, Q_AT_START, 8, TOLERANCE, which, 23, points, 13, &count, &place) ==
          BYR_REFUSED_FIT);
    CHECK(byr_find_contacts(S, 8, Q_AT_START, 8, TOLERANCE, which, 24, points, 11, &count, &place) ==
          BYR_REFUSED_FIT);
    CHECK(count == HELD_COUNT && which[0] == HELD_COUNT && held(points, 0, 13));
    CHECK(byr_find_contacts(S, 8, Q_AT_START, 8, TOLERANCE, which, 26, points, 13, &count, &place) == 0);
    CHECK(count == 6 && memcmp(which, expected, sizeof expected) == 0);
    CHECK(which[24] == HELD_COUNT && which[25] == HELD_COUNT);
    CHECK(same(points[10], 1) && same(points[11], 0) && held(points, 12, 13));
    CHECK(byr_find_contacts(S, 8, Q_BESIDE, 8, TOLERANCE, NULL, 0, NULL, 0, &count, &place) == 0 && count == 0);
    CHECK(place == HELD_COUNT);
}

/* The rooms and answers of vectors. */
struct ways {
    double vectors[37];
    uint64_t sources[13];
    uint64_t count;
    uint64_t place;
};

static void hold_ways(struct ways *w) {
    hold(w->vectors, 37);
    w->sources[0] = w->sources[12] = w->count = w->place = HELD_COUNT;
}

/* Whether refused vectors left rooms and answers as they were. */
static int held_ways(const struct ways *w) {
    return held(w->vectors, 0, 37) && w->sources[0] == HELD_COUNT && w->count == HELD_COUNT;
}

static uint32_t vectors_in(struct ways *w, const double *a, size_t an, const double *b, size_t bn, double tolerance,
                           size_t vectors_n, size_t sources_n) {
    return byr_compute_translation_vectors(a, an, b, bn, tolerance, w->vectors, vectors_n, w->sources, sources_n,
                                           &w->count, &w->place);
}

/* The number of refused vectors, which left all but the place as it was. */
static uint32_t refused_ways(const struct ways *w, uint32_t number, uint64_t *place) {
    CHECK(held_ways(w));
    *place = w->place;
    return number;
}

static uint32_t lend_vectors(const double *a, size_t an, const double *b, size_t bn, uint64_t *place) {
    struct ways w;

    hold_ways(&w);
    return refused_ways(&w, vectors_in(&w, a, an, b, bn, 0, 1, 1), place);
}

static void vectors(void) {
    static const double first[6] = {1, 0, 2, -1, -0.0, 2};
    struct ways w;

    begin("byr_compute_translation_vectors");
    try_polygons(lend_vectors);
    hold_ways(&w);
    CHECK(vectors_in(&w, S, 8, Q_AT_START, 8, 2, 37, 13) == BYR_REFUSED_SETTING);
    CHECK(vectors_in(&w, S, 8, Q_AT_START, 8, TOLERANCE, 35, 13) == BYR_REFUSED_FIT);
    CHECK(vectors_in(&w, S, 8, Q_AT_START, 8, TOLERANCE, 37, 11) == BYR_REFUSED_FIT);
    CHECK(held_ways(&w));
    CHECK(vectors_in(&w, S, 8, Q_AT_START, 8, TOLERANCE, 37, 13) == 0);
    CHECK(w.count == 12 && same_list(w.vectors, first, 6) && held(w.vectors, 36, 37));
    CHECK(w.sources[0] == 0 && w.sources[1] == 0 && w.sources[11] == 5 && w.sources[12] == HELD_COUNT);
    CHECK(w.place == HELD_COUNT);
}

static uint32_t fit_in(struct ways *w, const double *a, size_t an, const double *b, size_t bn, const double *visited,
                       size_t visited_n, double tolerance, size_t vectors_n) {
    return byr_handle_perfect_fit(a, an, b, bn, 0, -2, visited, visited_n, tolerance, w->vectors, vectors_n,
                                  w->sources, 13, &w->count, &w->place);
}

static uint32_t lend_fit(const double *a, size_t an, const double *b, size_t bn, uint64_t *place) {
    struct ways w;

    hold_ways(&w);
    return refused_ways(&w, fit_in(&w, a, an, b, bn, GOOD, 2, 0, 1), place);
}

static uint32_t lend_visited(const double *list, size_t n, uint64_t *place) {
    struct ways w;

    hold_ways(&w);
    return refused_ways(&w, fit_in(&w, GOOD, 8, GOOD, 8, list, n, 0, 1), place);
}

static void perfect_fit(void) {
    static const double visited[2] = {1, -2};
    struct ways w;

    begin("byr_handle_perfect_fit");
    try_polygons(lend_fit);
    try_list(lend_visited, 10001, 2);
    hold_ways(&w);
    CHECK(fit_in(&w, GOOD, 8, GOOD, 4, GOOD, 1, 0, 1) == BYR_REFUSED_FEW && w.place == 1);
    CHECK(fit_in(&w, WRONG, 8, WRONG, 8, GOOD, 1, 0, 1) == BYR_REFUSED_LENGTH && w.place == 2);
    hold_ways(&w);
    CHECK(fit_in(&w, S, 8, Q_AT_START, 8, GOOD, 20002, 0, 37) == BYR_REFUSED_SETTING);
    CHECK(fit_in(&w, S, 8, Q_AT_START, 8, NULL, 0, TOLERANCE, 35) == BYR_REFUSED_FIT);
    CHECK(held_ways(&w));
    CHECK(fit_in(&w, S, 8, Q_AT_START, 8, NULL, 0, TOLERANCE, 37) == 0 && w.count == 12);
    CHECK(fit_in(&w, S, 8, Q_AT_START, 8, visited, 2, TOLERANCE, 37) == 0);
    CHECK(w.count > 0 && w.count < 12 && same(w.vectors[0], -1) && w.sources[0] == 0);
    CHECK(w.place == HELD_COUNT);
}

static void selection(void) {
    static const double ways[9] = {-1, 0, 2, 1, 0, 2, 1, 0, 2};
    uint32_t found = HELD_WORD;
    uint64_t index = HELD_COUNT;
    uint64_t place = HELD_COUNT;

    begin("byr_select_translation_vector");
    CHECK(byr_select_translation_vector(WRONG, 8, 0, 0, 0, 2, 2, 0, -2, &found, &index, &place) ==
          BYR_REFUSED_LENGTH);
    CHECK(found == HELD_WORD && index == HELD_COUNT && place == 0);
    place = HELD_COUNT;
    CHECK(byr_select_translation_vector(GOOD, 10, 0, 0, 0, 2, 2, 0, -2, &found, &index, &place) ==
          BYR_REFUSED_LENGTH);
    CHECK(found == HELD_WORD && index == HELD_COUNT && place == 0);
    place = HELD_COUNT;
    CHECK(byr_select_translation_vector(NULL, 0, 0, 0, 0, 2, 2, 0, -2, &found, &index, &place) == 0);
    CHECK(found == 0 && index == HELD_COUNT);
    CHECK(byr_select_translation_vector(ways, 9, 0, 0, 0, 2, 2, 0, -2, &found, &index, &place) == 0);
    CHECK(found == 1 && index == 1);
    CHECK(byr_select_translation_vector(ways, 9, 1, -9, 0, 2, 2, 0, -2, &found, &index, &place) == 0);
    CHECK(found == 1 && index == 0);
    CHECK(byr_select_translation_vector(ways, 9, 0, 0, 0, NAN, 2, 0, -2, &found, &index, &place) == 0);
    CHECK(found == 1 && index == 0);
    CHECK(byr_select_translation_vector(GOOD, 20001, 0, 0, 0, 2, 2, 0, -2, &found, &index, &place) == 0);
    CHECK(found == 1 && index == 0 && place == HELD_COUNT);
}

/* ---- Moves and positions ---- */

/* The answers of a collision. */
struct hit {
    uint32_t found;
    double distance;
    uint32_t kind;
    uint64_t stationary;
    uint64_t orbiting;
    uint64_t place;
};

static const struct hit HELD_HIT = {HELD_WORD, HELD, HELD_WORD, HELD_COUNT, HELD_COUNT, HELD_COUNT};

static uint32_t hit_by(struct hit *h, const double *a, size_t an, const double *b, size_t bn, double dx,
                       double tolerance) {
    return byr_check_translation_collision(a, an, b, bn, dx, 0, tolerance, &h->found, &h->distance, &h->kind,
                                           &h->stationary, &h->orbiting, &h->place);
}

/* Whether a hit holds what it held, but for found and the place. */
static int held_hit(const struct hit *h) {
    return same(h->distance, HELD) && h->kind == HELD_WORD && h->stationary == HELD_COUNT &&
           h->orbiting == HELD_COUNT;
}

static uint32_t lend_collision(const double *a, size_t an, const double *b, size_t bn, uint64_t *place) {
    struct hit h = HELD_HIT;
    uint32_t number = hit_by(&h, a, an, b, bn, 1, 0);

    CHECK(h.found == HELD_WORD && held_hit(&h));
    *place = h.place;
    return number;
}

static void collision(void) {
    struct hit h = HELD_HIT;

    begin("byr_check_translation_collision");
    try_polygons(lend_collision);
    CHECK(hit_by(&h, S, 8, Q_BESIDE, 8, INFINITY, TOLERANCE) == BYR_REFUSED_NUMBER);
    CHECK(hit_by(&h, S, 8, Q_BESIDE, 8, 10, 0) == BYR_REFUSED_SETTING);
    CHECK(h.found == HELD_WORD && held_hit(&h));
    CHECK(hit_by(&h, S, 8, Q_BESIDE, 8, 3, TOLERANCE) == 0);
    CHECK(h.found == 0 && held_hit(&h));
    CHECK(hit_by(&h, S, 8, Q_BESIDE, 8, 10, TOLERANCE) == 0);
    CHECK(h.found == 1 && h.kind == BYR_KIND_VERTEX_EDGE && same(h.distance, 3));
    CHECK(h.stationary == 3 && h.orbiting == 1);
    CHECK(hit_by(&h, S, 8, Q_BESIDE, 8, 0, TOLERANCE) == 0);
    CHECK(h.found == 0 && h.place == HELD_COUNT);
}

/* The answers of a collision and its ground. */
struct account {
    uint32_t ground;
    double distance;
    uint32_t kind;
    uint64_t stationary;
    uint64_t orbiting;
    uint64_t others;
    uint64_t near;
    uint64_t between;
    uint64_t far;
    uint64_t place;
};

/* What the five cells that a hit alone writes hold where there is none. */
#define NO_HIT HELD, HELD_WORD, HELD_COUNT, HELD_COUNT, HELD_COUNT

static const struct account HELD_ACCOUNT = {HELD_WORD,  NO_HIT,     HELD_COUNT,
                                            HELD_COUNT, HELD_COUNT, HELD_COUNT};

static uint32_t explained(struct account *x, const double *a, size_t an, const double *b, size_t bn, double dx,
                          double dy, double tolerance) {
    *x = HELD_ACCOUNT;
    return byr_explain_collision(a, an, b, bn, dx, dy, tolerance, &x->ground, &x->distance, &x->kind,
                                 &x->stationary, &x->orbiting, &x->others, &x->near, &x->between, &x->far,
                                 &x->place);
}

/* Whether two accounts are the same. */
static int same_account(const struct account *x, const struct account *y) {
    return x->ground == y->ground && same(x->distance, y->distance) && x->kind == y->kind &&
           x->stationary == y->stationary && x->orbiting == y->orbiting && x->others == y->others &&
           x->near == y->near && x->between == y->between && x->far == y->far && x->place == y->place;
}

static uint32_t lend_explanation(const double *a, size_t an, const double *b, size_t bn, uint64_t *place) {
    struct account x;
    uint32_t number = explained(&x, a, an, b, bn, 1, 0, 0);

    *place = x.place;
    x.place = HELD_COUNT;
    CHECK(same_account(&x, &HELD_ACCOUNT));
    return number;
}

/* On the right of S a square that touches it and two that stand 2 and 0.75 off it; on
 * the left of Q one that is taller. */
static const double Q_TOUCHING[8] = {4, 0, 6, 0, 6, 2, 4, 2};
static const double S_BESIDE[8] = {6, 0, 10, 0, 10, 4, 6, 4};
static const double Q_CLOSE[8] = {4.75, 1, 6.75, 1, 6.75, 3, 4.75, 3};
static const double S_BEFORE_Q[8] = {-6, -1, -2, -1, -2, 3, -6, 3};

/* Two squares, a move, and its account. */
static const struct explained_move {
    const double *a;
    const double *b;
    double dx;
    double dy;
    double tolerance;
    struct account account;
} EXPLAINED[] = {
    /* Each ground of nothing. */
    {S, Q_BESIDE, 0, 0, 1e-6, {BYR_GROUND_SHORT, NO_HIT, 0, 0, 0, HELD_COUNT}},
    {S, Q_BESIDE, 0.75, 0, 1, {BYR_GROUND_SHORT, NO_HIT, 0, 0, 0, HELD_COUNT}},
    {S, Q_BESIDE, -10, 0, 1e-6, {BYR_GROUND_NEVER, NO_HIT, 0, 0, 0, HELD_COUNT}},
    {S, Q_BESIDE, 0, 10, 1e-6, {BYR_GROUND_NEVER, NO_HIT, 0, 0, 0, HELD_COUNT}},
    {S, Q_TOUCHING, 10, 0, 1e-6, {BYR_GROUND_NEAR, NO_HIT, 3, 0, 0, HELD_COUNT}},
    {S, Q_BESIDE, 3, 0, 1e-6, {BYR_GROUND_FAR, NO_HIT, 0, 0, 8, HELD_COUNT}},
    {S, Q_TOUCHING, -1, 0, 1e-6, {BYR_GROUND_BOTH_SIDES, NO_HIT, 3, 0, 9, HELD_COUNT}},
    /* The limit is 0.5 and the tolerance 1: at 0.75 a hit is too near and too far, and counts as too near. */
    {S, Q_CLOSE, -1.5, 0, 1, {BYR_GROUND_BOTH_SIDES, NO_HIT, 4, 0, 12, HELD_COUNT}},
    /* At the limit of 0.75 a hit is too far, and at the tolerance of 0.75, which is the limit too, too near. */
    {S, Q_CLOSE, -1, 0, 0.25, {BYR_GROUND_FAR, NO_HIT, 0, 0, 8, HELD_COUNT}},
    {S, Q_CLOSE, -1.5, 0, 0.75, {BYR_GROUND_BOTH_SIDES, NO_HIT, 4, 0, 12, HELD_COUNT}},
    /* A hit of each kind, with another pair of its kind at its distance; and with pairs of both kinds. */
    {S, Q_BESIDE, 10, 0, 1e-6, {BYR_GROUND_HIT, 3, BYR_KIND_VERTEX_EDGE, 3, 1, 1, 0, 8, 0, HELD_COUNT}},
    {Q, S_BEFORE_Q, 10, 0, 1e-6, {BYR_GROUND_HIT, 2, BYR_KIND_EDGE_VERTEX, 0, 1, 1, 0, 8, 0, HELD_COUNT}},
    {S, S_BESIDE, -10, 0, 1e-6, {BYR_GROUND_HIT, 2, BYR_KIND_VERTEX_EDGE, 1, 0, 3, 0, 12, 4, HELD_COUNT}},
};

static void explanation(void) {
    struct account x;
    struct hit h;
    size_t i;

    begin("byr_explain_collision");
    try_polygons(lend_explanation);
    CHECK(explained(&x, S, 8, Q_BESIDE, 8, INFINITY, 0, 0) == BYR_REFUSED_NUMBER);
    CHECK(same_account(&x, &HELD_ACCOUNT));
    CHECK(explained(&x, S, 8, Q_BESIDE, 8, 10, NAN, 0) == BYR_REFUSED_NUMBER);
    CHECK(same_account(&x, &HELD_ACCOUNT));
    CHECK(explained(&x, S, 8, Q_BESIDE, 8, 10, 0, 0) == BYR_REFUSED_SETTING);
    CHECK(same_account(&x, &HELD_ACCOUNT));
    for (i = 0; i < sizeof EXPLAINED / sizeof *EXPLAINED; i++) {
        const struct explained_move *move = &EXPLAINED[i];
        row = i + 1;
        CHECK(explained(&x, move->a, 8, move->b, 8, move->dx, move->dy, move->tolerance) == 0);
        CHECK(same_account(&x, &move->account));
        h = HELD_HIT;
        CHECK(byr_check_translation_collision(move->a, 8, move->b, 8, move->dx, move->dy, move->tolerance, &h.found,
                                              &h.distance, &h.kind, &h.stationary, &h.orbiting, &h.place) == 0);
        CHECK(h.found == (x.ground == BYR_GROUND_HIT) && same(h.distance, x.distance) && h.kind == x.kind);
        CHECK(h.stationary == x.stationary && h.orbiting == x.orbiting);
    }
    row = 0;
}

static uint32_t lend_interlocking(const double *a, size_t an, const double *b, size_t bn, uint64_t *place) {
    uint32_t found = HELD_WORD;
    double x = HELD;
    double y = HELD;
    uint32_t number = byr_detect_interlocking_opportunity(a, an, b, bn, 2, 11, 0, &found, &x, &y, place);

    CHECK(found == HELD_WORD && same(x, HELD) && same(y, HELD));
    return number;
}

static void interlocking(void) {
    static const double arrow[10] = {0, 0, 4, 0, 4, 4, 2, 1, 0, 4};
    uint32_t found = HELD_WORD;
    double x = HELD;
    double y = HELD;
    uint64_t place = HELD_COUNT;

    begin("byr_detect_interlocking_opportunity");
    try_polygons(lend_interlocking);
    CHECK(byr_detect_interlocking_opportunity(arrow, 10, Q, 8, NAN, 11, 0.5, &found, &x, &y, &place) ==
          BYR_REFUSED_NUMBER);
    CHECK(byr_detect_interlocking_opportunity(arrow, 10, Q, 8, 2, 11, 0, &found, &x, &y, &place) ==
          BYR_REFUSED_SETTING);
    CHECK(found == HELD_WORD);
    CHECK(byr_detect_interlocking_opportunity(S, 8, Q, 8, 2, 11, 0.5, &found, &x, &y, &place) == 0 && found == 0);
    CHECK(same(x, HELD) && same(y, HELD));
    CHECK(byr_detect_interlocking_opportunity(arrow, 10, Q, 8, 2, 11, 0.5, &found, &x, &y, &place) == 0);
    CHECK(found == 1 && same(x, 2) && same(y, 10.5) && place == HELD_COUNT);
}

static uint32_t lend_recovery(const double *a, size_t an, const double *b, size_t bn, uint64_t *place) {
    uint32_t found = HELD_WORD;
    double x = HELD;
    double y = HELD;
    uint32_t number = byr_recover_contact(a, an, b, bn, -5, 1, 0, &found, &x, &y, place);

    CHECK(found == HELD_WORD && same(x, HELD) && same(y, HELD));
    return number;
}

static void recovery(void) {
    uint32_t found = HELD_WORD;
    double x = HELD;
    double y = HELD;
    uint64_t place = HELD_COUNT;

    begin("byr_recover_contact");
    try_polygons(lend_recovery);
    CHECK(byr_recover_contact(S, 8, Q_BESIDE, 8, INFINITY, 1, 0, &found, &x, &y, &place) == BYR_REFUSED_NUMBER);
    CHECK(byr_recover_contact(S, 8, Q_BESIDE, 8, -5, 1, 0, &found, &x, &y, &place) == BYR_REFUSED_SETTING);
    CHECK(found == HELD_WORD);
    CHECK(byr_recover_contact(S, 8, S, 8, 0, 0, TOLERANCE, &found, &x, &y, &place) == 0 && found == 0);
    CHECK(same(x, HELD) && same(y, HELD));
    CHECK(byr_recover_contact(S, 8, Q_BESIDE, 8, -5, 1, TOLERANCE, &found, &x, &y, &place) == 0 && found == 1);
    CHECK(x > -5 && x < -2 && place == HELD_COUNT);
}

static uint32_t lend_start(const double *a, size_t an, const double *b, size_t bn, uint64_t *place) {
    double x = HELD;
    double y = HELD;
    uint32_t number = byr_find_start_position(a, an, b, bn, &x, &y, place);

    CHECK(same(x, HELD) && same(y, HELD));
    return number;
}

static uint32_t lend_overlap(const double *a, size_t an, const double *b, size_t bn, uint64_t *place) {
    uint32_t overlap = HELD_WORD;
    uint32_t number = byr_polygons_overlap(a, an, b, bn, &overlap, place);

    CHECK(overlap == HELD_WORD);
    return number;
}

static uint32_t lend_overlap_within(const double *a, size_t an, const double *b, size_t bn, uint64_t *place) {
    uint32_t overlap = HELD_WORD;
    uint32_t number = byr_polygons_overlap_with_tolerance(a, an, b, bn, 0, &overlap, place);

    CHECK(overlap == HELD_WORD);
    return number;
}

static void start_and_overlaps(void) {
    static const double near[8] = {4.5, 0, 6.5, 0, 6.5, 2, 4.5, 2};
    uint32_t overlap = HELD_WORD;
    double x = HELD;
    double y = HELD;
    uint64_t place = HELD_COUNT;

    begin("byr_find_start_position");
    try_polygons(lend_start);
    CHECK(byr_find_start_position(S, 8, Q, 8, &x, &y, &place) == 0 && same(x, 0) && same(y, -2));
    CHECK(place == HELD_COUNT);
    begin("byr_polygons_overlap_with_tolerance");
    try_polygons(lend_overlap_within);
    CHECK(byr_polygons_overlap_with_tolerance(S, 8, near, 8, NAN, &overlap, &place) == BYR_REFUSED_SETTING);
    CHECK(overlap == HELD_WORD);
    CHECK(byr_polygons_overlap_with_tolerance(S, 8, near, 8, 1, &overlap, &place) == 0 && overlap == 1);
    CHECK(byr_polygons_overlap_with_tolerance(S, 8, near, 8, 0.25, &overlap, &place) == 0 && overlap == 0);
    CHECK(place == HELD_COUNT);
    begin("byr_polygons_overlap");
    try_polygons(lend_overlap);
    CHECK(byr_polygons_overlap(S, 8, Q, 8, &overlap, &place) == 0 && overlap == 1);
    CHECK(byr_polygons_overlap(S, 8, near, 8, &overlap, &place) == 0 && overlap == 0);
    CHECK(place == HELD_COUNT);
}

/* ---- The trace ---- */

static uint32_t lend_simplify(const double *list, size_t n, uint64_t *place) {
    double room[1] = {HELD};
    uint64_t points = HELD_COUNT;
    uint32_t number = byr_simplify_polygon(list, n, 0, room, 1, &points, place);

    CHECK(held(room, 0, 1) && points == HELD_COUNT);
    return number;
}

static void simplification(void) {
    static const double line[6] = {0, 0, 1, 0, 2, 0};
    static const double bent[10] = {0, 0, 1, 0, 2, 0, 2, 2, 0, 2};
    static const double nearly[10] = {0, 0, 1, 1e-12, 2, 0, 2, 2, 0, 2};
    static const double twice[10] = {0, 0, 2, 0, 2, 0, 2, 2, 0, 2};
    static const double spike[12] = {0, 0, 2, 0, 9, 0, 2, 0, 2, 2, 0, 2};
    double room[12];
    uint64_t points = HELD_COUNT;
    uint64_t place = HELD_COUNT;

    begin("byr_simplify_polygon");
    try_list(lend_simplify, 10001, 0);
    hold(room, 11);
    CHECK(byr_simplify_polygon(bent, 10, 0, room, 11, &points, &place) == BYR_REFUSED_SETTING);
    CHECK(byr_simplify_polygon(bent, 10, TOLERANCE, room, 7, &points, &place) == BYR_REFUSED_FIT);
    CHECK(points == HELD_COUNT && held(room, 0, 11));
    CHECK(byr_simplify_polygon(line, 6, TOLERANCE, room, 11, &points, &place) == 0 && points == 3);
    CHECK(same_list(room, line, 6) && held(room, 6, 11));
    CHECK(byr_simplify_polygon(bent, 10, TOLERANCE, room, 11, &points, &place) == 0 && points == 4);
    CHECK(same_list(room + 2, bent + 4, 6) && held(room, 8, 11));
    CHECK(byr_simplify_polygon(nearly, 10, TOLERANCE, room, 12, &points, &place) == 0 && points == 5);
    CHECK(byr_simplify_polygon(twice, 10, TOLERANCE, room, 12, &points, &place) == 0 && points == 3);
    CHECK(same_list(room, twice, 2) && same_list(room + 2, twice + 6, 4));
    CHECK(byr_simplify_polygon(spike, 12, TOLERANCE, room, 12, &points, &place) == 0 && points == 5);
    CHECK(same_list(room, spike, 2) && same_list(room + 2, spike + 4, 8));
    CHECK(byr_simplify_polygon(NULL, 0, TOLERANCE, NULL, 0, &points, &place) == 0 && points == 0);
    CHECK(place == HELD_COUNT);
}

/* The answers and rooms of a trace. */
struct trace {
    double work[32];
    double result[33];
    uint64_t points;
    uint64_t stored;
    uint64_t passes;
    uint32_t stop;
    uint64_t place;
};

/* The number of a trace; its place is told with 1, 8 and 9 only. */
static uint32_t traced(struct trace *t, const double *a, size_t an, const double *b, size_t bn, double tolerance,
                       double smallest, uint64_t limit, size_t work, size_t result) {
    uint32_t number;

    hold(t->work, 32);
    hold(t->result, 33);
    t->points = t->stored = t->passes = t->place = HELD_COUNT;
    t->stop = HELD_WORD;
    number = byr_compute_nfp_sliding(a, an, b, bn, tolerance, smallest, limit, t->work, work, t->result, result,
                                     &t->points, &t->stored, &t->passes, &t->stop, &t->place);
    CHECK(number == BYR_REFUSED_LENGTH || number == BYR_REFUSED_FEW || number == BYR_REFUSED_MANY ||
          t->place == HELD_COUNT);
    return number;
}

/* Whether a refused trace left all but the place as it was. */
static int untouched(const struct trace *t) {
    return held(t->work, 0, 32) && held(t->result, 0, 33) && t->points == HELD_COUNT && t->stored == HELD_COUNT &&
           t->passes == HELD_COUNT && t->stop == HELD_WORD;
}

static uint32_t lend_trace(const double *a, size_t an, const double *b, size_t bn, uint64_t *place) {
    struct trace t;
    uint32_t number = traced(&t, a, an, b, bn, 0, -1, 10001, 1, 0);

    CHECK(untouched(&t));
    *place = t.place;
    return number;
}

static void trace_refusals(void) {
    double wrong[8];
    struct trace t;

    begin("byr_compute_nfp_sliding");
    try_polygons(lend_trace);
    memcpy(wrong, Q, sizeof wrong);
    wrong[5] = past_million();
    CHECK(traced(&t, S, 8, wrong, 8, 0, 0, 10001, 0, 0) == BYR_REFUSED_NUMBER && untouched(&t));
    CHECK(traced(&t, S, 8, Q, 8, 0, 1e-8, 10000, 0, 0) == BYR_REFUSED_SETTING && untouched(&t));
    CHECK(traced(&t, S, 8, Q, 8, 1, -1e-9, 10000, 0, 0) == BYR_REFUSED_SETTING && untouched(&t));
    CHECK(traced(&t, S, 8, Q, 8, 1, 1e-8, 10001, 0, 0) == BYR_REFUSED_SETTING && untouched(&t));
    CHECK(traced(&t, S, 8, Q, 8, TOLERANCE, 1e-8, 10000, 0, 9) == BYR_REFUSED_ROOM && untouched(&t));
    CHECK(traced(&t, S, 8, Q, 8, TOLERANCE, 1e-8, 10000, 9, 9) == BYR_REFUSED_ROOM && untouched(&t));
    CHECK(traced(&t, S, 8, Q, 8, TOLERANCE, 1e-8, 10000, 16, 15) == BYR_REFUSED_ROOM && untouched(&t));
}

static void traces(void) {
    static const double path[6] = {0, -2, 2, -2, 4, -2};
    static const double result[8] = {0, -2, 4, -2, 4, 4, 2.000001, 4};
    struct trace t;

    CHECK(traced(&t, S, 8, Q, 8, TOLERANCE, 1e-8, 10000, 6, 7) == BYR_REFUSED_FIT);
    CHECK(same_list(t.work, path, 6) && held(t.work, 6, 32) && held(t.result, 0, 33));
    CHECK(t.passes == 3 && t.stop == HELD_WORD && t.points == HELD_COUNT && t.stored == HELD_COUNT);
    CHECK(traced(&t, S, 8, Q, 8, TOLERANCE, 1e-8, 0, 8, 8) == BYR_REFUSED_SHORT_PATH);
    CHECK(same_list(t.work, path, 2) && held(t.work, 2, 32) && held(t.result, 0, 33));
    CHECK(t.passes == 0 && t.stop == BYR_STOP_PASSES && t.points == HELD_COUNT && t.stored == HELD_COUNT);
    CHECK(traced(&t, S, 8, Q, 8, TOLERANCE, 1e300, 9, 8, 8) == BYR_REFUSED_SHORT_PATH);
    CHECK(t.passes == 1 && t.stop == BYR_STOP_SHORT_MOVE);
    CHECK(traced(&t, S, 8, Q, 8, TOLERANCE, 1e-8, 10000, 16, 17) == 0);
    CHECK(t.points == 4 && t.stored == 7 && t.passes == 10000 && t.stop == BYR_STOP_PASSES);
    CHECK(same_list(t.work, path, 6) && same(t.work[12], 2.000001) && held(t.work, 14, 32));
    CHECK(same_list(t.result, result, 8) && held(t.result, 8, 33));
    CHECK(traced(&t, Q, 8, S, 8, TOLERANCE, 1e-8, 10000, 20, 20) == 0);
    CHECK(t.stored == 10 && t.passes == 11 && t.stop == BYR_STOP_CLOSED);
    /* A part round itself: one list lent twice. */
    CHECK(traced(&t, S, 8, S, 8, TOLERANCE, 1e-8, 10000, 16, 16) == 0);
    CHECK(t.points == 4 && t.stored == 8 && t.passes == 8 && t.stop == BYR_STOP_CLOSED);
}

/* The cells of a checked path. */
struct verdict {
    uint32_t fault;
    uint64_t index;
    uint64_t place;
};

/* The path's first fault, or why it is refused, of a polygon round another. */
static uint32_t checked(struct verdict *v, const double *a, size_t an, const double *b, size_t bn,
                        double tolerance, double smallest, uint64_t limit, const double *path, size_t n) {
    v->fault = HELD_WORD;
    v->index = v->place = HELD_COUNT;
    return byr_check_path(a, an, b, bn, tolerance, smallest, limit, path, n, &v->fault, &v->index, &v->place);
}

/* Whether the cells are these. */
static int told_as(const struct verdict *v, uint32_t fault, uint64_t index, uint64_t place) {
    return v->fault == fault && v->index == index && v->place == place;
}

static uint32_t lend_checked(const double *a, size_t an, const double *b, size_t bn, uint64_t *place) {
    struct verdict v;
    uint32_t number = checked(&v, a, an, b, bn, 0, -1, 10001, GOOD, 6);

    CHECK(told_as(&v, HELD_WORD, HELD_COUNT, v.place));
    *place = v.place;
    return number;
}

/* Paths of a wrong length, the number with which they are refused, and the place. */
static const struct lent_path {
    size_t n;
    uint32_t number;
    uint64_t place;
} LENT_PATHS[] = {
    {0, BYR_REFUSED_FEW, 2},        {1, BYR_REFUSED_LENGTH, 2},    {2, BYR_REFUSED_FEW, 2},
    {3, BYR_REFUSED_LENGTH, 2},     {4, BYR_REFUSED_FEW, 2},       {5, BYR_REFUSED_LENGTH, 2},
    {7, BYR_REFUSED_LENGTH, 2},     {20001, BYR_REFUSED_LENGTH, 2}, {20003, BYR_REFUSED_LENGTH, 2},
    {20004, BYR_REFUSED_MANY, 2},   {6, BYR_REFUSED_NUMBER, HELD_COUNT},
    {20002, BYR_REFUSED_NUMBER, HELD_COUNT},
};

static void path_refusals(void) {
    static const double path[6] = {0, -2, 2, -2, 0, -2};
    double wrong[8];
    struct verdict v;
    size_t i;

    begin("byr_check_path");
    try_polygons(lend_checked);
    for (i = 0; i < sizeof LENT_PATHS / sizeof *LENT_PATHS; i++) {
        const struct lent_path *p = &LENT_PATHS[i];
        row = i + 1;
        CHECK(checked(&v, S, 8, Q, 8, 0, 0, 0, p->n == 0 ? NULL : WRONG, p->n) == p->number);
        CHECK(told_as(&v, HELD_WORD, HELD_COUNT, p->place));
    }
    row = 0;
    CHECK(checked(&v, S, 8, WRONG, 8, 0, 0, 0, path, 5) == BYR_REFUSED_LENGTH);
    CHECK(told_as(&v, HELD_WORD, HELD_COUNT, 2));
    memcpy(wrong, Q, sizeof wrong);
    wrong[5] = past_million();
    CHECK(checked(&v, S, 8, wrong, 8, 0, 0, 0, path, 6) == BYR_REFUSED_NUMBER);
    CHECK(checked(&v, S, 8, Q, 8, 0, 1e-8, 10000, path, 6) == BYR_REFUSED_SETTING);
    CHECK(checked(&v, S, 8, Q, 8, 1, -1e-9, 10000, path, 6) == BYR_REFUSED_SETTING);
    CHECK(checked(&v, S, 8, Q, 8, 1, 1e-8, 10001, path, 6) == BYR_REFUSED_SETTING);
    CHECK(told_as(&v, HELD_WORD, HELD_COUNT, HELD_COUNT));
    /* A point past a million is no coordinate, and is lent all the same. */
    CHECK(checked(&v, S, 8, Q, 8, TOLERANCE, 0, 0, wrong, 8) == 0 && v.fault != HELD_WORD);
}

/* Q round S: a corner meets a corner at the end of each leg. */
static const double ROUND[24] = {-2, -2, 0, -2, 2, -2, 4, -2, 4, 0, 4, 2, 4, 4, 2, 4, 0, 4, -2, 4, -2, 2, -2, 0};

/* The whole round; a point off the square at every place; a leg across the square at every place but the last;
 * and each part of the round, of which the last leg is blocked. Then a trace's own path. */
static void paths(void) {
    double path[24];
    struct trace t;
    struct verdict v;
    uint64_t i;

    CHECK(checked(&v, S, 8, Q, 8, TOLERANCE, 1e-8, 10000, ROUND, 24) == 0);
    CHECK(told_as(&v, BYR_FAULT_NONE, HELD_COUNT, HELD_COUNT));
    for (i = 0; i < 12; i++) {
        double x = ROUND[2 * i];
        double y = ROUND[2 * i + 1];
        row = i + 1;
        memcpy(path, ROUND, sizeof path);
        path[2 * i] = x < 1 ? x - 0.5 : x + 0.5;
        path[2 * i + 1] = y < 1 ? y - 0.5 : y + 0.5;
        CHECK(checked(&v, S, 8, Q, 8, TOLERANCE, 0, 0, path, 24) == 0);
        CHECK(told_as(&v, BYR_FAULT_POINT, i, HELD_COUNT));
        if (i < 11) {
            memcpy(path, ROUND, sizeof path);
            path[2 * i + 2] = 2 - x;
            path[2 * i + 3] = 2 - y;
            CHECK(checked(&v, S, 8, Q, 8, TOLERANCE, 0, 0, path, 24) == 0);
            CHECK(told_as(&v, BYR_FAULT_LEG, i, HELD_COUNT));
        }
        if (i >= 2 && i < 11) {
            CHECK(checked(&v, S, 8, Q, 8, TOLERANCE, 0, 0, ROUND, 2 * i + 2) == 0);
            CHECK(told_as(&v, BYR_FAULT_LEG, i, HELD_COUNT));
        }
    }
    row = 0;
    CHECK(traced(&t, S, 8, Q, 8, TOLERANCE, 1e-8, 10000, 16, 17) == 0 && t.stored == 7);
    CHECK(checked(&v, S, 8, Q, 8, TOLERANCE, 1e-8, 10000, t.work, 14) == 0);
    CHECK(told_as(&v, BYR_FAULT_LEG, 4, HELD_COUNT));
    /* One list lent as both polygons and as the path. */
    CHECK(checked(&v, S, 8, S, 8, TOLERANCE, 1e-8, 10000, S, 8) == 0);
    CHECK(told_as(&v, BYR_FAULT_NONE, HELD_COUNT, HELD_COUNT));
}

/* ---- The outline book ---- */

/* The book of the triangle (4,0), (0,3), (0,0), of part 7, and parts for ten rings. */
static const uint8_t BOOK[68] = {
    0, 0, 0, 0, 0, 0, 0,    0,    0, 0, 0, 0, 0, 0, 0, 0,    /* (0,0) */
    0, 0, 0, 0, 0, 0, 0,    0,    0, 0, 0, 0, 0, 0, 8, 0x40, /* (0,3) */
    0, 0, 0, 0, 0, 0, 0x10, 0x40, 0, 0, 0, 0, 0, 0, 0, 0,    /* (4,0) */
    0, 0, 0, 0, 3, 0, 0,    0,    7, 0, 0, 0,                /* offset, vertices, part */
    1, 0, 0, 0, 48, 0, 0,   0};                              /* rings, entries */

static const uint32_t PARTS[10] = {7, 0, 0xffffffff, 7, 1, 2, 3, 4, 5, 6};

/* What is lent to write a book, the number with which it is refused, and the place
 * afterwards. */
struct book {
    const double *coordinates;
    size_t n;
    uint32_t counts[10];
    size_t rings;
    size_t parts_n;
    uint32_t number;
    uint64_t place;
};

static const struct book BOOKS[] = {
    /* The number of rings, before anything else. */
    {NULL, 0, {0}, 0, 0, BYR_REFUSED_FEW, 0},
    {WRONG, 1, {0}, 0, 0, BYR_REFUSED_FEW, 0},
    {WRONG, 54, {3, 3, 3, 3, 3, 3, 3, 3, 3}, 9, 9, BYR_REFUSED_MANY, 9},
    {WRONG, 1, {2, 257}, 10, 10, BYR_REFUSED_MANY, 10},
    /* Ring by ring its vertices. */
    {WRONG, 4, {2}, 1, 1, BYR_REFUSED_FEW, 0},
    {WRONG, 514, {257}, 1, 1, BYR_REFUSED_MANY, 0},
    {WRONG, 10, {3, 2}, 2, 2, BYR_REFUSED_FEW, 1},
    {WRONG, 518, {257, 2}, 2, 2, BYR_REFUSED_MANY, 0},
    {WRONG, 518, {2, 257}, 2, 2, BYR_REFUSED_FEW, 0},
    {WRONG, 7, {3, 0xffffffff}, 2, 2, BYR_REFUSED_MANY, 1},
    {WRONG, 7, {3, 3, 3, 3, 3, 3, 3, 0}, 8, 8, BYR_REFUSED_FEW, 7},
    /* The sum. */
    {WRONG, 6, {4}, 1, 1, BYR_REFUSED_LENGTH, 1},
    {WRONG, 12, {3, 4}, 2, 2, BYR_REFUSED_LENGTH, 2},
    {WRONG, 16, {3, 4}, 2, 2, BYR_REFUSED_LENGTH, 2},
    {WRONG, 5, {3}, 1, 1, BYR_REFUSED_LENGTH, 1},
    {WRONG, 7, {3}, 1, 1, BYR_REFUSED_LENGTH, 1},
    {NULL, 0, {3, 3, 3, 3, 3, 3, 3, 256}, 8, 8, BYR_REFUSED_LENGTH, 8},
    /* The number of parts. */
    {WRONG, 6, {3}, 1, 0, BYR_REFUSED_LENGTH, 1},
    {WRONG, 6, {3}, 1, 2, BYR_REFUSED_LENGTH, 1},
    {WRONG, 14, {3, 4}, 2, 1, BYR_REFUSED_LENGTH, 2},
    {WRONG, 14, {3, 4}, 2, 10, BYR_REFUSED_LENGTH, 2},
    /* The rest. */
    {WRONG, 6, {3}, 1, 1, BYR_REFUSED_NUMBER, HELD_COUNT},
    {WRONG, 554, {3, 3, 3, 3, 3, 3, 3, 256}, 8, 8, BYR_REFUSED_NUMBER, HELD_COUNT},
    {GOOD, 6, {3}, 1, 1, BYR_REFUSED_ROOM, HELD_COUNT},
};

/* Tries each in a room that is too short for any book. */
static void refused_books(void) {
    uint8_t room[67];
    size_t i;

    memset(room, 0xa5, sizeof room);
    for (i = 0; i < sizeof BOOKS / sizeof *BOOKS; i++) {
        const struct book *b = &BOOKS[i];
        uint64_t length = HELD_COUNT;
        uint64_t place = HELD_COUNT;
        row = i + 1;
        CHECK(byr_write_book(b->coordinates, b->n, b->counts, b->rings, PARTS, b->parts_n, room, 67, &length, &place) ==
              b->number);
        CHECK(place == b->place && length == HELD_COUNT);
        CHECK(room[0] == 0xa5 && memcmp(room, room + 1, 66) == 0);
    }
    row = 0;
}

static void writing(void) {
    static const double ring[6] = {4, 0, 0, 3, 0, 0};
    static const uint32_t three[1] = {3};
    double wrong[6];
    uint8_t room[71];
    uint64_t length = HELD_COUNT;
    uint64_t place = HELD_COUNT;

    begin("byr_write_book");
    refused_books();
    memset(room, 0xa5, sizeof room);
    memcpy(wrong, ring, sizeof wrong);
    wrong[0] = -past_million();
    CHECK(byr_write_book(wrong, 6, three, 1, PARTS, 1, room, 70, &length, &place) == BYR_REFUSED_NUMBER);
    CHECK(length == HELD_COUNT && room[0] == 0xa5 && memcmp(room, room + 1, 70) == 0);
    CHECK(byr_write_book(ring, 6, three, 1, PARTS, 1, room + 1, 70, &length, &place) == 0 && length == 68);
    CHECK(memcmp(room + 1, BOOK, 68) == 0);
    CHECK(room[0] == 0xa5 && room[69] == 0xa5 && room[70] == 0xa5);
    CHECK(byr_write_book(TRIANGLE, 6, three, 1, PARTS, 1, room, 68, &length, &place) == 0);
    CHECK(memcmp(room, BOOK, 68) == 0);
    CHECK(place == HELD_COUNT);
}

/* A closed drawing and the same begun elsewhere: two books, and one once opened. */
static void closed_drawings(void) {
    static const double elsewhere[8] = {4, 0, 0, 3, 0, 0, 4, 0};
    static const uint32_t three[1] = {3};
    static const uint32_t four[1] = {4};
    double opened[8];
    uint8_t room[84];
    uint8_t other[84];
    uint64_t length = HELD_COUNT;
    uint64_t vertices = HELD_COUNT;
    uint64_t place = HELD_COUNT;

    CHECK(byr_write_book(CLOSED, 8, four, 1, PARTS, 1, room, 84, &length, &place) == 0 && length == 84);
    CHECK(byr_write_book(elsewhere, 8, four, 1, PARTS, 1, other, 84, &length, &place) == 0);
    CHECK(memcmp(room, other, 84) != 0);
    CHECK(byr_open_ring(elsewhere, 8, opened, 8, &vertices, &place) == 0 && vertices == 3);
    CHECK(byr_write_book(opened, 6, three, 1, PARTS, 1, other, 84, &length, &place) == 0);
    CHECK(memcmp(other, BOOK, 68) == 0);
    CHECK(place == HELD_COUNT);
}

/* Rings that differ in the signs of zeros alone, one book; a carrier that is symmetric
 * about x = 0 and its mirror likewise. */
static void books_of_zeros(void) {
    static const double zeros[6] = {4, -0.0, -0.0, 3, 0, -0.0};
    static const double chosen[10] = {0, -0.0, 1, 5, 2, 2, 0, 0, 1, 3}; /* by sign, read back from the first */
    static const double least[10] = {0, 0, 1, 3, 0, 0, 1, 5, 2, 2};
    static const double carrier[16] = {0, 9.125, -12.5, 18.75, -42.25, 18.75, -42.25, 0,
                                       0, -6.5,  42.25, 0,     42.25,  18.75, 12.5,   18.75};
    static const uint32_t three[1] = {3};
    static const uint32_t five[1] = {5};
    static const uint32_t eight[1] = {8};
    double mirror[16];
    double stored[10];
    uint32_t counts[1];
    uint32_t parts[1];
    uint8_t room[148];
    uint8_t other[148];
    uint64_t rings = HELD_COUNT;
    uint64_t length = HELD_COUNT;
    uint64_t vertices = HELD_COUNT;
    uint64_t place = HELD_COUNT;

    CHECK(byr_write_book(zeros, 6, three, 1, PARTS, 1, room, 68, &length, &place) == 0 && memcmp(room, BOOK, 68) == 0);
    CHECK(byr_write_book(chosen, 10, five, 1, PARTS, 1, room, 100, &length, &place) == 0 && length == 100);
    CHECK(byr_read_book(room, 100, stored, 10, counts, 1, parts, 1, &rings, &place) == 0);
    CHECK(same_list(stored, least, 10) && parts[0] == 7);
    CHECK(byr_write_book(carrier, 16, eight, 1, PARTS, 1, room, 148, &length, &place) == 0 && length == 148);
    CHECK(byr_mirror_polygon(carrier, 16, mirror, 16, &vertices, &place) == 0 && same(mirror[14], -0.0));
    CHECK(byr_write_book(mirror, 16, eight, 1, PARTS, 1, other, 148, &length, &place) == 0 && length == 148);
    CHECK(memcmp(room, other, 148) == 0 && place == HELD_COUNT);
}

/* A stored -0.0 in each coordinate, alone, and with a wrong one after and before it. */
static void refused_zeros(void) {
    uint8_t wrong[68];
    double coordinates[6];
    uint32_t counts[1] = {HELD_WORD};
    uint32_t parts[1] = {HELD_WORD};
    uint64_t rings = HELD_COUNT;
    size_t at;

    hold(coordinates, 6);
    for (at = 0; at < 48; at += 8) {
        uint64_t place = HELD_COUNT;
        row = at / 8 + 1;
        memcpy(wrong, BOOK, sizeof wrong);
        memset(wrong + at, 0, 7);
        wrong[at + 7] = 0x80;
        CHECK(byr_read_book(wrong, 68, coordinates, 6, counts, 1, parts, 1, &rings, &place) == BYR_REFUSED_BOOK);
        CHECK(place == at);
        if (at < 40) {
            wrong[47] = 0x7f; /* past 1000000 */
        }
        place = HELD_COUNT;
        CHECK(byr_read_book(wrong, 68, NULL, 0, NULL, 0, NULL, 0, &rings, &place) == BYR_REFUSED_BOOK && place == at);
        wrong[7] = 0x7f;
        CHECK(byr_read_book(wrong, 68, NULL, 0, NULL, 0, NULL, 0, &rings, &place) == BYR_REFUSED_BOOK && place == 0);
    }
    row = 0;
    CHECK(held(coordinates, 0, 6) && counts[0] == HELD_WORD && parts[0] == HELD_WORD && rings == HELD_COUNT);
}

static void reading(void) {
    static const double stored[6] = {0, 0, 0, 3, 4, 0};
    uint8_t odd[69];
    double coordinates[7];
    uint32_t counts[2] = {HELD_WORD, HELD_WORD};
    uint32_t parts[2] = {HELD_WORD, HELD_WORD};
    uint64_t rings = HELD_COUNT;
    uint64_t place = HELD_COUNT;

    begin("byr_read_book");
    hold(coordinates, 7);
    memcpy(odd + 1, BOOK, 68);
    CHECK(byr_read_book(NULL, 0, coordinates, 7, counts, 2, parts, 2, &rings, &place) == BYR_REFUSED_BOOK);
    CHECK(place == 0);
    odd[1 + 60] = 9;
    CHECK(byr_read_book(odd + 1, 68, NULL, 0, NULL, 0, NULL, 0, &rings, &place) == BYR_REFUSED_BOOK && place == 60);
    odd[1 + 60] = 1;
    odd[1 + 7] = 0x7f;
    odd[1 + 6] = 0xf0;
    CHECK(byr_read_book(odd + 1, 68, coordinates, 7, counts, 2, parts, 2, &rings, &place) == BYR_REFUSED_BOOK);
    CHECK(place == 0);
    odd[1 + 7] = odd[1 + 6] = 0;
    place = HELD_COUNT;
    CHECK(byr_read_book(odd + 1, 68, coordinates, 5, counts, 2, parts, 2, &rings, &place) == BYR_REFUSED_ROOM);
    CHECK(byr_read_book(odd + 1, 68, coordinates, 7, counts, 0, parts, 2, &rings, &place) == BYR_REFUSED_ROOM);
    CHECK(byr_read_book(odd + 1, 68, coordinates, 7, counts, 2, parts, 0, &rings, &place) == BYR_REFUSED_ROOM);
    CHECK(held(coordinates, 0, 7) && counts[0] == HELD_WORD && parts[0] == HELD_WORD);
    CHECK(rings == HELD_COUNT && place == HELD_COUNT);
    CHECK(byr_read_book(odd + 1, 68, coordinates, 7, counts, 2, parts, 2, &rings, &place) == 0 && rings == 1);
    CHECK(same_list(coordinates, stored, 6) && held(coordinates, 6, 7));
    CHECK(counts[0] == 3 && counts[1] == HELD_WORD && place == HELD_COUNT);
    CHECK(parts[0] == 7 && parts[1] == HELD_WORD);
    refused_zeros();
}

/* ---- Drawings in well-known binary ---- */

/* The triangle (0,0), (4,0), (0,3), little-endian. */
static const uint8_t WKB[77] = {
    1, 3, 0, 0, 0, 1, 0, 0,    0,    4, 0, 0, 0,             /* byte order, type, rings, points */
    0, 0, 0, 0, 0, 0, 0,    0,    0, 0, 0, 0, 0, 0, 0, 0,    /* (0,0), from byte 13 on */
    0, 0, 0, 0, 0, 0, 0x10, 0x40, 0, 0, 0, 0, 0, 0, 0, 0,    /* (4,0), from byte 29 on */
    0, 0, 0, 0, 0, 0, 0,    0,    0, 0, 0, 0, 0, 0, 8, 0x40, /* (0,3), from byte 45 on */
    0, 0, 0, 0, 0, 0, 0,    0,    0, 0, 0, 0, 0, 0, 0, 0};   /* (0,0), from byte 61 on */

/* Bytes of the longest drawing, of 257 points, and of one with a point more. */
enum { LONGEST = 13 + 16 * 257, LONGER = 13 + 16 * 258 };

/* That drawing with two bytes changed and zeros after it, lent at some length; and
 * the place of its fault. */
struct drawing {
    size_t n;
    struct {
        size_t at;
        uint8_t byte;
    } changed[2];
    uint64_t place;
};

static const struct drawing DRAWINGS[] = {
    /* Each field by itself. A change to what stands there already changes nothing. */
    {0, {{1, 3}, {1, 3}}, 0},
    {12, {{1, 3}, {1, 3}}, 0},
    {77, {{0, 2}, {1, 3}}, 0},
    {77, {{0, 0xfe}, {1, 3}}, 0},
    {77, {{1, 1}, {1, 1}}, 1},
    {77, {{2, 1}, {1, 3}}, 1},
    {77, {{1, 0xeb}, {2, 3}}, 1},
    {77, {{4, 0x20}, {1, 3}}, 1},
    {77, {{4, 0x80}, {1, 3}}, 1},
    {77, {{5, 0}, {1, 3}}, 5},
    {77, {{5, 2}, {1, 3}}, 5},
    {77, {{8, 1}, {1, 3}}, 5},
    {61, {{9, 3}, {1, 3}}, 9},
    {13, {{9, 0}, {1, 3}}, 9},
    {LONGER, {{9, 2}, {10, 1}}, 9},
    {77, {{12, 1}, {1, 3}}, 9},
    {76, {{1, 3}, {1, 3}}, 0},
    {78, {{1, 3}, {1, 3}}, 0},
    {93, {{1, 3}, {1, 3}}, 0},
    {13, {{1, 3}, {1, 3}}, 0},
    {77, {{9, 5}, {1, 3}}, 0},
    {77, {{19, 0xf0}, {20, 0x7f}}, 13}, /* infinite */
    {77, {{27, 0xf8}, {28, 0xff}}, 21}, /* NaN */
    {77, {{36, 0x7f}, {1, 3}}, 29},     /* finite, too large */
    {77, {{60, 0xc8}, {1, 3}}, 53},
    {77, {{68, 0x7f}, {67, 0xf0}}, 61},
    {77, {{76, 0x7f}, {1, 3}}, 69},
    {93, {{9, 5}, {76, 0x7f}}, 69},
    {77, {{61, 1}, {1, 3}}, 61}, /* the closing point's x, and then its y */
    {77, {{69, 1}, {1, 3}}, 61},
    {77, {{76, 0xbf}, {1, 3}}, 61},
    /* Two at once: the first in the order of the header speaks. */
    {12, {{1, 4}, {5, 2}}, 0},
    {77, {{0, 2}, {1, 4}}, 0},
    {77, {{1, 4}, {5, 2}}, 1},
    {78, {{1, 4}, {1, 4}}, 1},
    {77, {{5, 2}, {9, 3}}, 5},
    {78, {{5, 2}, {5, 2}}, 5},
    {77, {{9, 3}, {20, 0x7f}}, 9},
    {78, {{9, 3}, {9, 3}}, 9},
    {78, {{20, 0x7f}, {61, 1}}, 0},
    {77, {{52, 0x7f}, {28, 0x7f}}, 21},
    {77, {{36, 0x7f}, {61, 1}}, 29},
    {77, {{61, 1}, {76, 0x7f}}, 69},
};

/* Writes a little-endian drawing big-endian: the 4 or 8 bytes of each field are
 * turned round. */
static void turned(uint8_t *to, const uint8_t *from, size_t n) {
    size_t at;
    size_t i;

    to[0] = from[0] ^ 1;
    for (at = 1; at < n; at += at < 13 ? 4 : 8) {
        size_t width = at < 13 ? 4 : 8;
        for (i = 0; i < width; i++) {
            to[at + i] = from[at + width - 1 - i];
        }
    }
}

/* Whether a drawing is refused with 10 at this place, in rooms of 7 doubles and of
 * none, and all else left as it was. */
static int refused_at(const uint8_t *wkb, size_t n, uint64_t expected) {
    double room[7];
    uint64_t vertices = HELD_COUNT;
    uint64_t place = HELD_COUNT;
    uint64_t again = HELD_COUNT;

    hold(room, 7);
    return byr_read_wkb(wkb, n, room, 7, &vertices, &place) == BYR_REFUSED_WKB && place == expected &&
           byr_read_wkb(wkb, n, NULL, 0, &vertices, &again) == BYR_REFUSED_WKB && again == expected &&
           held(room, 0, 7) && vertices == HELD_COUNT;
}

static void refused_drawings(void) {
    uint8_t little[LONGER];
    uint8_t big[LONGER];
    size_t i;
    int k;

    for (i = 0; i < sizeof DRAWINGS / sizeof *DRAWINGS; i++) {
        const struct drawing *d = &DRAWINGS[i];
        row = i + 1;
        memset(little, 0, sizeof little);
        memcpy(little, WKB, sizeof WKB);
        for (k = 0; k < 2; k++) {
            little[d->changed[k].at] = d->changed[k].byte;
        }
        turned(big, little, sizeof big);
        CHECK(refused_at(little, d->n, d->place));
        CHECK(refused_at(big, d->n, d->place));
    }
    row = 0;
    CHECK(refused_at(NULL, 0, 0));
}

/* Reads a drawing of four points in either order: the room one double short, then
 * just long enough, then odd. */
static void read_triangle(const uint8_t *wkb, const double *expected) {
    double room[7];
    uint64_t vertices = HELD_COUNT;
    uint64_t place = HELD_COUNT;

    hold(room, 7);
    CHECK(byr_read_wkb(wkb, 77, room, 5, &vertices, &place) == BYR_REFUSED_ROOM);
    CHECK(byr_read_wkb(wkb, 77, NULL, 0, &vertices, &place) == BYR_REFUSED_ROOM);
    CHECK(held(room, 0, 7) && vertices == HELD_COUNT);
    CHECK(byr_read_wkb(wkb, 77, room, 6, &vertices, &place) == 0 && vertices == 3);
    CHECK(same_list(room, expected, 6) && held(room, 6, 7));
    hold(room, 7);
    vertices = HELD_COUNT;
    CHECK(byr_read_wkb(wkb, 77, room, 7, &vertices, &place) == 0 && vertices == 3);
    CHECK(same_list(room, expected, 6) && held(room, 6, 7));
    CHECK(place == HELD_COUNT);
}

/* Closing points that are equal to the first, and not the same. */
static void read_zeros(void) {
    static const double minus[6] = {0, -0.0, 4, 0, 0, 3};
    uint8_t little[77];
    uint8_t big[77];

    memcpy(little, WKB, sizeof little);
    little[68] = 0x80;
    turned(big, little, sizeof big);
    read_triangle(little, TRIANGLE);
    read_triangle(big, TRIANGLE);
    little[28] = 0x80;
    turned(big, little, sizeof big);
    read_triangle(little, minus);
    read_triangle(big, minus);
}

/* Rings that are longer, and one that itself ends in its first vertex. */
static void read_longer(void) {
    static double ring[512];
    static double room[513];
    uint8_t little[LONGEST];
    uint8_t big[LONGEST];
    uint64_t n = HELD_COUNT;
    uint64_t vertices = HELD_COUNT;
    uint64_t place = HELD_COUNT;
    size_t i;

    for (i = 0; i < 512; i++) {
        ring[i] = (double)i / 3 - 1e6;
    }
    CHECK(byr_write_wkb(ring, 512, little, LONGEST, &n, &place) == 0 && n == LONGEST);
    turned(big, little, sizeof big);
    hold(room, 513);
    CHECK(byr_read_wkb(big, LONGEST, room, 511, &vertices, &place) == BYR_REFUSED_ROOM && held(room, 0, 513));
    CHECK(byr_read_wkb(big, LONGEST, room, 513, &vertices, &place) == 0 && vertices == 256);
    CHECK(same_list(room, ring, 512) && held(room, 512, 513));
    hold(room, 513);
    CHECK(byr_read_wkb(little, LONGEST, room, 512, &vertices, &place) == 0 && vertices == 256);
    CHECK(same_list(room, ring, 512));
    little[13] = 1; /* past -1000000 */
    CHECK(refused_at(little, LONGEST, 13));
    CHECK(byr_write_wkb(CLOSED, 8, little, LONGEST, &n, &place) == 0 && n == 93);
    CHECK(byr_read_wkb(little, 93, room, 8, &vertices, &place) == 0 && vertices == 4);
    CHECK(same_list(room, CLOSED, 8) && place == HELD_COUNT);
}

static void reading_wkb(void) {
    uint8_t odd[78];
    uint8_t big[77];

    begin("byr_read_wkb");
    refused_drawings();
    memcpy(odd + 1, WKB, sizeof WKB);
    turned(big, WKB, sizeof big);
    read_triangle(odd + 1, TRIANGLE);
    read_triangle(big, TRIANGLE);
    read_zeros();
    read_longer();
}

/* A ring to write, and the number with which it is refused in a room of 76 bytes;
 * the place is 0 with 1, 8 and 9. */
struct ring {
    const double *ring;
    size_t n;
    uint32_t number;
    uint64_t place;
};

static const struct ring WRITTEN[] = {
    {WRONG, 1, BYR_REFUSED_LENGTH, 0},
    {WRONG, 5, BYR_REFUSED_LENGTH, 0},
    {WRONG, 7, BYR_REFUSED_LENGTH, 0},
    {WRONG, 513, BYR_REFUSED_LENGTH, 0},
    {NULL, 0, BYR_REFUSED_FEW, 0},
    {WRONG, 2, BYR_REFUSED_FEW, 0},
    {WRONG, 4, BYR_REFUSED_FEW, 0},
    {WRONG, 514, BYR_REFUSED_MANY, 0},
    {WRONG, 6, BYR_REFUSED_NUMBER, HELD_COUNT},
    {WRONG, 512, BYR_REFUSED_NUMBER, HELD_COUNT},
    {GOOD, 6, BYR_REFUSED_ROOM, HELD_COUNT},
    {GOOD, 512, BYR_REFUSED_ROOM, HELD_COUNT},
};

static void refused_rings(void) {
    uint8_t room[76];
    size_t i;

    memset(room, 0xa5, sizeof room);
    for (i = 0; i < sizeof WRITTEN / sizeof *WRITTEN; i++) {
        const struct ring *r = &WRITTEN[i];
        uint64_t length = HELD_COUNT;
        uint64_t place = HELD_COUNT;
        row = i + 1;
        CHECK(byr_write_wkb(r->ring, r->n, room, 76, &length, &place) == r->number);
        CHECK(place == r->place && length == HELD_COUNT);
        CHECK(room[0] == 0xa5 && memcmp(room, room + 1, 75) == 0);
    }
    row = 0;
}

static void writing_wkb(void) {
    static const double minus[6] = {-0.0, 0, 4, 0, 0, 3};
    double wrong[6];
    uint8_t room[80];
    uint64_t length = HELD_COUNT;
    uint64_t place = HELD_COUNT;

    begin("byr_write_wkb");
    refused_rings();
    memset(room, 0xa5, sizeof room);
    memcpy(wrong, TRIANGLE, sizeof wrong);
    wrong[5] = past_million();
    CHECK(byr_write_wkb(wrong, 6, room, 80, &length, &place) == BYR_REFUSED_NUMBER);
    CHECK(byr_write_wkb(TRIANGLE, 6, NULL, 0, &length, &place) == BYR_REFUSED_ROOM);
    CHECK(length == HELD_COUNT && room[0] == 0xa5 && memcmp(room, room + 1, 79) == 0);
    CHECK(byr_write_wkb(TRIANGLE, 6, room + 1, 77, &length, &place) == 0 && length == 77);
    CHECK(memcmp(room + 1, WKB, 77) == 0 && room[0] == 0xa5 && room[78] == 0xa5 && room[79] == 0xa5);
    memset(room, 0xa5, sizeof room);
    CHECK(byr_write_wkb(minus, 6, room, 80, &length, &place) == 0 && length == 77);
    CHECK(room[20] == 0x80 && room[68] == 0x80 && room[77] == 0xa5 && room[79] == 0xa5);
    room[20] = room[68] = 0;
    CHECK(memcmp(room, WKB, 77) == 0 && place == HELD_COUNT);
}

/* ---- Discs ---- */

/* A disc that is refused with this number, in a room that is long enough, and in none
 * with this other: nothing is written. */
struct disc {
    double x;
    double y;
    double radius;
    uint64_t m;
    uint32_t number;
    uint32_t without_room;
};

static const struct disc REFUSED_DISCS[] = {
    {1, 2, 3, 0, BYR_REFUSED_QUARTER, BYR_REFUSED_QUARTER},
    {1, 2, 3, 3, BYR_REFUSED_QUARTER, BYR_REFUSED_QUARTER},
    {1, 2, 3, 128, BYR_REFUSED_QUARTER, BYR_REFUSED_QUARTER},
    {1, 2, 3, 0x100000001, BYR_REFUSED_QUARTER, BYR_REFUSED_QUARTER},
    {NAN, 2, -3, 3, BYR_REFUSED_QUARTER, BYR_REFUSED_QUARTER},
    {1, 2, 0.0, 1, BYR_REFUSED_NUMBER, BYR_REFUSED_NUMBER},
    {1, 2, -0.0, 1, BYR_REFUSED_NUMBER, BYR_REFUSED_NUMBER},
    {1, 2, -3, 2, BYR_REFUSED_NUMBER, BYR_REFUSED_NUMBER},
    {1, 2, NAN, 2, BYR_REFUSED_NUMBER, BYR_REFUSED_NUMBER},
    {1, 2, INFINITY, 4, BYR_REFUSED_NUMBER, BYR_REFUSED_NUMBER},
    {NAN, 2, 3, 1, BYR_REFUSED_NUMBER, BYR_REFUSED_NUMBER},
    {1, -INFINITY, 3, 1, BYR_REFUSED_NUMBER, BYR_REFUSED_NUMBER},
    {999999, 0, 1.5, 64, BYR_REFUSED_NUMBER, BYR_REFUSED_NUMBER},
    {0, -999999, 1.5, 1, BYR_REFUSED_NUMBER, BYR_REFUSED_NUMBER},
    {1, 2, 3, 1, 0, BYR_REFUSED_ROOM},
};

static void refused_discs(void) {
    double room[520];
    size_t n = sizeof REFUSED_DISCS / sizeof *REFUSED_DISCS;
    for (row = 1; row <= n; row++) {
        const struct disc *d = &REFUSED_DISCS[row - 1];
        uint64_t vertices = HELD_COUNT;
        hold(room, 520);
        CHECK(byr_make_disc(d->x, d->y, d->radius, d->m, NULL, 0, &vertices) == d->without_room);
        CHECK(vertices == HELD_COUNT);
        CHECK(byr_make_disc(d->x, d->y, d->radius, d->m, room, 520, &vertices) == d->number);
        CHECK(d->number == 0 || (vertices == HELD_COUNT && held(room, 0, 520)));
    }
    row = 0;
}

static void discs(void) {
    static const double four[8] = {5, 2, 3, 4, 1, 2, 3, 0};
    static const double unit[8] = {1, 0, 0, 1, -1, 0, 0, -1};
    static const double small = 5e-324;
    const double x = 644245094 / 1073741824.0;
    const double y = 858993459 / 1073741824.0;
    const double eight[16] = {1, 0, x, y, 0, 1, -y, x, -1, 0, -x, -y, 0, -1, y, -x};
    double room[520];
    uint64_t vertices = HELD_COUNT;
    size_t i;

    begin("byr_make_disc");
    refused_discs();
    hold(room, 520);
    CHECK(byr_make_disc(3, 2, 2, 1, room, 7, &vertices) == BYR_REFUSED_ROOM);
    CHECK(vertices == HELD_COUNT && held(room, 0, 520));
    CHECK(byr_make_disc(3, 2, 2, 1, room, 8, &vertices) == 0 && vertices == 4);
    CHECK(same_list(room, four, 8) && held(room, 8, 520));
    /* An entry 0 is +0.0, whatever the quarter and the centre's zero. */
    CHECK(byr_make_disc(-0.0, -0.0, 1, 1, room, 520, &vertices) == 0 && same_list(room, unit, 8));
    CHECK(byr_make_disc(0, 0, 1, 2, room, 17, &vertices) == 0 && vertices == 8);
    CHECK(same_list(room, eight, 16) && held(room, 16, 520));
    CHECK(byr_make_disc(0, 0, 1e6, 64, room, 511, &vertices) == BYR_REFUSED_ROOM && vertices == 8);
    CHECK(byr_make_disc(0, 0, 1e6, 64, room, 512, &vertices) == 0 && vertices == 256);
    CHECK(room[0] == 1e6 && room[129] == 1e6 && held(room, 512, 520));
    /* A radius too small for its centre: all vertices are it. */
    CHECK(byr_make_disc(1e6, -1e6, small, 64, room, 512, &vertices) == 0 && vertices == 256);
    for (i = 0; i < 512; i += 2) {
        CHECK(same(room[i], 1e6) && same(room[i + 1], -1e6));
    }
}

/* ---- Floats on a grid ---- */

/* Lent no units and no room, which are refused after the list. */
static uint32_t lend_to_grid(const double *list, size_t n, uint64_t *place) {
    uint64_t count = HELD_COUNT;
    uint32_t number = byr_to_grid(list, n, 0, NULL, 0, &count, place);

    CHECK(count == HELD_COUNT);
    return number;
}

/* A number, the units, and the whole number that it is on their grid. */
struct on_grid {
    double x;
    uint32_t units;
    int32_t z;
};

static const struct on_grid ON_GRID[] = {
    {0.1234, 1000, 123},
    {0.25, 10, 3},
    {-0.25, 10, -3},
    {0.24999999999999997, 10, 2},
    {0.49999999999999994, 1, 0},
    {-0.5, 1, -1},
    {1e6, 1, 1000000},
    {-1, 1000000, -1000000},
    {5e-324, 1000000, 0},
    {-0.0, 7, 0},
    {90909.0909090909, 11, 1000000},
};

static void grid(void) {
    static const double million[2] = {1e6, 1e6};
    static const double above[2] = {0, 90909.09090909091};
    int32_t room[5] = {77, 77, 77, 77, 77};
    uint64_t count = HELD_COUNT;
    uint64_t place = HELD_COUNT;
    size_t i;

    begin("byr_to_grid");
    try_list(lend_to_grid, 10001, 0);
    CHECK(byr_to_grid(million, 2, 0, room, 5, &count, &place) == BYR_REFUSED_SETTING);
    CHECK(byr_to_grid(million, 2, 1000001, room, 5, &count, &place) == BYR_REFUSED_SETTING);
    CHECK(byr_to_grid(million, 2, 2, room, 1, &count, &place) == BYR_REFUSED_GRID);
    CHECK(above[1] * 11 == 1e6);
    CHECK(byr_to_grid(above, 2, 11, room, 5, &count, &place) == BYR_REFUSED_GRID);
    CHECK(byr_to_grid(million, 2, 1, room, 1, &count, &place) == BYR_REFUSED_FIT);
    CHECK(count == HELD_COUNT && place == HELD_COUNT);
    for (i = 0; i < 5; i++) {
        CHECK(room[i] == 77);
    }
    for (i = 0; i < sizeof ON_GRID / sizeof *ON_GRID; i++) {
        const double point[2] = {ON_GRID[i].x, 0.5};
        row = i + 1;
        CHECK(byr_to_grid(point, 2, ON_GRID[i].units, room, 5, &count, &place) == 0 && count == 1);
        CHECK(room[0] == ON_GRID[i].z && room[1] == (int32_t)((ON_GRID[i].units + 1) / 2));
        CHECK(room[2] == 77 && room[3] == 77 && room[4] == 77);
    }
    row = 0;
    CHECK(byr_to_grid(NULL, 0, 1, NULL, 0, &count, &place) == 0 && count == 0 && place == HELD_COUNT);
}

/* ---- Moves of a drawing ---- */

/* What a call on moves of a drawing told. */
struct drawn {
    int32_t room[20];
    uint32_t ground;
    uint32_t depth;
    uint32_t how;
    uint64_t leg;
    uint64_t edge;
    uint64_t place;
};

static void hold_drawn(struct drawn *d) {
    size_t i;
    for (i = 0; i < 20; i++) {
        d->room[i] = HELD_WORD;
    }
    d->ground = d->depth = d->how = HELD_WORD;
    d->leg = d->edge = d->place = HELD_COUNT;
}

/* The search of the way of Q straight up from (x,0) to (x,y) beside S, with the front of the room; the check of a
 * reason for it; the legs of a path of Q. */
static uint32_t drawn_up(struct drawn *d, double x, double y, uint32_t units, size_t room_n) {
    hold_drawn(d);
    return byr_clear_move(S, 8, Q, 8, x, 0, x, y, units, d->room, room_n, &d->ground, &d->depth, &d->how, &d->edge,
                          &d->place);
}

static uint32_t reasoned_up(struct drawn *d, double x, double y, uint32_t units, uint32_t how, const int32_t *reason,
                            size_t reason_n) {
    hold_drawn(d);
    return byr_check_reason(S, 8, Q, 8, x, 0, x, y, units, how, reason, reason_n, &d->ground, &d->depth, &d->edge,
                            &d->place);
}

static uint32_t drawn_round(struct drawn *d, const double *path, size_t path_n, uint32_t closed, uint32_t units) {
    hold_drawn(d);
    return byr_clear_path(S, 8, Q, 8, path, path_n, closed, units, &d->ground, &d->depth, &d->leg, &d->edge,
                          &d->place);
}

/* Whether the cells hold this, and the room from a place on what it held. */
static int drawn_as(const struct drawn *d, uint32_t ground, uint32_t depth, uint32_t how, uint64_t leg, uint64_t edge,
                    size_t from) {
    for (; from < 20; from++) {
        if (d->room[from] != HELD_WORD) {
            return 0;
        }
    }
    return d->ground == ground && d->depth == depth && d->how == how && d->leg == leg && d->edge == edge;
}

/* Whether nothing was written but the place. */
static int undrawn(const struct drawn *d, uint64_t place) {
    return drawn_as(d, HELD_WORD, HELD_WORD, HELD_WORD, HELD_COUNT, HELD_COUNT, 0) && d->place == place;
}

/* Lent no units, which are refused after the lists. */
static uint32_t lend_drawn(const double *a, size_t an, const double *b, size_t bn, uint64_t *place) {
    struct drawn d;
    uint32_t number;

    hold_drawn(&d);
    number = byr_clear_move(a, an, b, bn, 0, 0, 0, 0, 0, d.room, 20, &d.ground, &d.depth, &d.how, &d.edge, place);
    CHECK(undrawn(&d, HELD_COUNT));
    return number;
}

/* Besides with a reason as long as it must be, and a how that there is not. */
static uint32_t lend_drawn_reason(const double *a, size_t an, const double *b, size_t bn, uint64_t *place) {
    static const int32_t zeros[1024] = {0};
    struct drawn d;
    uint32_t number;

    hold_drawn(&d);
    number = byr_check_reason(a, an, b, bn, 0, 0, 0, 0, 0, 21, zeros, an <= 512 ? 4 * (an / 2) : 0, &d.ground,
                              &d.depth, &d.edge, place);
    CHECK(undrawn(&d, HELD_COUNT));
    return number;
}

/* Besides with a path of two points. */
static uint32_t lend_drawn_path(const double *a, size_t an, const double *b, size_t bn, uint64_t *place) {
    struct drawn d;
    uint32_t number;

    hold_drawn(&d);
    number = byr_clear_path(a, an, b, bn, GOOD, 4, 1, 0, &d.ground, &d.depth, &d.leg, &d.edge, place);
    CHECK(undrawn(&d, HELD_COUNT));
    return number;
}

/* A place from which Q goes up beside S, on a grid of a hundredth, and what is told of it. */
struct up {
    double x;
    uint32_t ground;
    uint32_t depth;
    uint32_t how;
    uint64_t edge;
};

static const struct up UP[] = {
    {4, BYR_MOVE_CLEAR, 3, 0, HELD_COUNT},        {3.996, BYR_MOVE_CLEAR, 3, 0, HELD_COUNT},
    {3.99, BYR_MOVE_CLEAR, 5, 1, HELD_COUNT},     {3.98, BYR_MOVE_CLEAR, 7, 11, HELD_COUNT},
    {3.97, BYR_MOVE_EDGE, HELD_WORD, HELD_WORD, 1}, {-2, BYR_MOVE_CLEAR, 3, 0, HELD_COUNT},
};

static void drawn_moves(void) {
    struct drawn d;
    size_t i;

    begin("byr_clear_move");
    try_polygons(lend_drawn);
    CHECK(drawn_up(&d, NAN, 9, 0, 20) == BYR_REFUSED_NUMBER && undrawn(&d, HELD_COUNT));
    CHECK(drawn_up(&d, 4, INFINITY, 0, 20) == BYR_REFUSED_NUMBER && undrawn(&d, HELD_COUNT));
    CHECK(drawn_up(&d, 1e300, 9, 0, 20) == BYR_REFUSED_SETTING && undrawn(&d, HELD_COUNT));
    CHECK(drawn_up(&d, 1e300, 9, 1000001, 20) == BYR_REFUSED_SETTING && undrawn(&d, HELD_COUNT));
    CHECK(drawn_up(&d, 1e300, 9, 1, 0) == BYR_REFUSED_GRID && undrawn(&d, HELD_COUNT));
    CHECK(drawn_up(&d, past_million(), 9, 1, 0) == BYR_REFUSED_GRID && undrawn(&d, HELD_COUNT));
    CHECK(drawn_up(&d, 999998.5, 9, 1, 0) == BYR_REFUSED_GRID && undrawn(&d, HELD_COUNT));
    CHECK(drawn_up(&d, 999998.25, 9, 1, 20) == 0 && d.ground == BYR_MOVE_CLEAR);
    CHECK(drawn_up(&d, 4, 9, 250001, 20) == BYR_REFUSED_GRID && undrawn(&d, HELD_COUNT));
    CHECK(drawn_up(&d, 4, 9, 100, 15) == BYR_REFUSED_FIT && undrawn(&d, HELD_COUNT));
    for (i = 0; i < sizeof UP / sizeof *UP; i++) {
        const struct up *u = &UP[i];
        row = i + 1;
        CHECK(drawn_up(&d, u->x, 9, 100, 20) == 0 && d.place == HELD_COUNT);
        CHECK(drawn_as(&d, u->ground, u->depth, u->how, HELD_COUNT, u->edge, u->ground == BYR_MOVE_CLEAR ? 16 : 0));
    }
    row = 0;
    /* In units of the grid: one line for all, the left side of the way's box, down. */
    CHECK(drawn_up(&d, 4, 9, 100, 16) == 0);
    for (i = 0; i < 16; i += 4) {
        CHECK(d.room[i] == 400 && d.room[i + 1] == 1 && d.room[i + 2] == 400 && d.room[i + 3] == 0);
    }
    hold_drawn(&d);
    CHECK(byr_clear_move(S, 8, Q, 8, 1, 1, 2, 2, 1000, NULL, 0, &d.ground, &d.depth, &d.how, &d.edge, &d.place) == 0);
    CHECK(drawn_as(&d, BYR_MOVE_ENCLOSED, 3, 0, HELD_COUNT, HELD_COUNT, 0) && d.place == HELD_COUNT);
}

static void drawn_reasons(void) {
    static const int32_t own[16] = {0, 0, 4, 0, 4, 0, 4, 4, 4, 4, 0, 4, 0, 4, 0, 0};
    static const size_t lengths[] = {15, 17, 1, 0, 12, 20};
    static const uint32_t numbers[] = {BYR_REFUSED_LENGTH, BYR_REFUSED_LENGTH, BYR_REFUSED_LENGTH,
                                       BYR_REFUSED_FEW,    BYR_REFUSED_FEW,    BYR_REFUSED_MANY};
    struct drawn d;
    int32_t reason[20] = {0};
    size_t i;

    begin("byr_check_reason");
    try_polygons(lend_drawn_reason);
    for (i = 0; i < 6; i++) {
        row = i + 1;
        CHECK(reasoned_up(&d, NAN, 9, 0, 21, lengths[i] == 0 ? NULL : reason, lengths[i]) == numbers[i]);
        CHECK(undrawn(&d, 2));
    }
    row = 0;
    CHECK(reasoned_up(&d, NAN, 9, 0, 21, reason, 16) == BYR_REFUSED_NUMBER && undrawn(&d, HELD_COUNT));
    for (i = 0; i < 4; i++) {
        reason[15] = PAST[i];
        CHECK(reasoned_up(&d, 1e300, 9, 0, 21, reason, 16) == BYR_REFUSED_NUMBER && undrawn(&d, HELD_COUNT));
    }
    reason[15] = -M;
    CHECK(reasoned_up(&d, 1e300, 9, 0, 0, reason, 16) == BYR_REFUSED_SETTING && undrawn(&d, HELD_COUNT));
    CHECK(reasoned_up(&d, 1e300, 9, 1, 21, reason, 16) == BYR_REFUSED_SETTING && undrawn(&d, HELD_COUNT));
    CHECK(reasoned_up(&d, 1e300, 9, 1, 20, reason, 16) == BYR_REFUSED_GRID && undrawn(&d, HELD_COUNT));
    /* Of what is handed out, as it was put and as it is. */
    CHECK(drawn_up(&d, 3.99, 9, 100, 16) == 0 && d.how == 1);
    memcpy(reason, d.room, 16 * sizeof *reason);
    CHECK(reasoned_up(&d, 3.99, 9, 100, 1, reason, 16) == 0);
    CHECK(drawn_as(&d, BYR_MOVE_CLEAR, 5, HELD_WORD, HELD_COUNT, HELD_COUNT, 0) && d.place == HELD_COUNT);
    CHECK(reasoned_up(&d, 3.99, 9, 100, 0, reason, 16) == 0);
    CHECK(drawn_as(&d, BYR_MOVE_EDGE, HELD_WORD, HELD_WORD, HELD_COUNT, 0, 0));
    CHECK(reasoned_up(&d, 3.99, 9, 100, 13, reason, 16) == 0 && d.ground == BYR_MOVE_CLEAR && d.depth == 7);
    /* Two points that are one. */
    reason[14] = reason[12];
    reason[15] = reason[13];
    CHECK(reasoned_up(&d, 3.99, 9, 100, 1, reason, 16) == 0);
    CHECK(drawn_as(&d, BYR_MOVE_EDGE, HELD_WORD, HELD_WORD, HELD_COUNT, 3, 0));
    /* A corner put aside leaves the grid. */
    CHECK(reasoned_up(&d, 999998, 9, 1, 3, own, 16) == 0 && d.ground == BYR_MOVE_EDGE && d.edge == 0);
    CHECK(reasoned_up(&d, 1, 2, 1, 0, own, 16) == 0);
    CHECK(drawn_as(&d, BYR_MOVE_ENCLOSED, 3, HELD_WORD, HELD_COUNT, HELD_COUNT, 0));
}

static void drawn_paths(void) {
    static const double round[8] = {-2, -2, 4, -2, 4, 4, -2, 4};
    static const double nearer[6] = {-2, -2, 4, -1.99, 3.98, 4};
    static const double within[4] = {1, 1, 2, 2};
    static const double far[4] = {9, 9, 999998.5, 9};
    static const size_t lengths[] = {5, 20003, 0, 2, 20004};
    static const uint32_t numbers[] = {BYR_REFUSED_LENGTH, BYR_REFUSED_LENGTH, BYR_REFUSED_FEW, BYR_REFUSED_FEW,
                                       BYR_REFUSED_MANY};
    struct drawn d;
    size_t i;

    begin("byr_clear_path");
    try_polygons(lend_drawn_path);
    for (i = 0; i < 5; i++) {
        row = i + 1;
        CHECK(drawn_round(&d, lengths[i] == 0 ? NULL : WRONG, lengths[i], 0, 0) == numbers[i] && undrawn(&d, 2));
    }
    row = 0;
    CHECK(drawn_round(&d, WRONG, 4, 0, 0) == BYR_REFUSED_NUMBER && undrawn(&d, HELD_COUNT));
    CHECK(drawn_round(&d, WRONG, 20002, 1, 0) == BYR_REFUSED_NUMBER && undrawn(&d, HELD_COUNT));
    CHECK(drawn_round(&d, far, 4, 0, 0) == BYR_REFUSED_SETTING && undrawn(&d, HELD_COUNT));
    CHECK(drawn_round(&d, far, 4, 0, 1) == BYR_REFUSED_GRID && undrawn(&d, HELD_COUNT));
    CHECK(drawn_round(&d, round, 8, 1, 100) == 0);
    CHECK(drawn_as(&d, BYR_MOVE_CLEAR, 3, HELD_WORD, HELD_COUNT, HELD_COUNT, 0) && d.place == HELD_COUNT);
    CHECK(drawn_round(&d, round, 6, 0, 100) == 0 && d.ground == BYR_MOVE_CLEAR && d.depth == 3);
    CHECK(drawn_round(&d, nearer, 4, 0, 100) == 0 && d.ground == BYR_MOVE_CLEAR && d.depth == 5);
    CHECK(drawn_round(&d, nearer, 6, 0, 100) == 0 && d.ground == BYR_MOVE_CLEAR && d.depth == 7);
    /* Closed by any number but 0, it leads through. */
    CHECK(drawn_round(&d, round, 6, 1, 100) == 0);
    CHECK(drawn_as(&d, BYR_MOVE_EDGE, HELD_WORD, HELD_WORD, 2, 0, 0));
    CHECK(drawn_round(&d, round, 6, UINT32_MAX, 100) == 0 && d.ground == BYR_MOVE_EDGE && d.leg == 2);
    CHECK(drawn_round(&d, within, 4, 1, 100) == 0);
    CHECK(drawn_as(&d, BYR_MOVE_ENCLOSED, HELD_WORD, HELD_WORD, 0, HELD_COUNT, 0));
}

/* ---- Places to inspect ---- */

/* What a shift is lent, and with which number it is refused in a room of 5 words. */
struct shift {
    uint64_t n;
    uint64_t k;
    uint64_t start;
    uint32_t number;
};

static const struct shift SHIFTS[] = {
    {0, 5, 0, BYR_REFUSED_INSPECTION},
    {10002, 5, 0, BYR_REFUSED_INSPECTION},
    {UINT64_MAX, 5, 0, BYR_REFUSED_INSPECTION},
    {24, 0, 0, BYR_REFUSED_INSPECTION},
    {24, 65, 0, BYR_REFUSED_INSPECTION},
    {24, UINT64_MAX, 0, BYR_REFUSED_INSPECTION},
    {24, 5, 24, BYR_REFUSED_INSPECTION},
    {24, 64, UINT64_MAX, BYR_REFUSED_INSPECTION},
    {24, 6, 23, BYR_REFUSED_FIT},
    {6, 64, 0, BYR_REFUSED_FIT},
    {10001, 64, 10000, BYR_REFUSED_FIT},
};

static void refused_shifts(void) {
    uint64_t room[5] = {HELD_COUNT, HELD_COUNT, HELD_COUNT, HELD_COUNT, HELD_COUNT};
    uint64_t count = HELD_COUNT;
    size_t i;
    int k;

    for (i = 0; i < sizeof SHIFTS / sizeof *SHIFTS; i++) {
        const struct shift *s = &SHIFTS[i];
        uint64_t start = s->start;
        row = i + 1;
        CHECK(byr_next_places(s->n, s->k, &start, room, 5, &count) == s->number);
        CHECK(start == s->start && count == HELD_COUNT);
        for (k = 0; k < 5; k++) {
            CHECK(room[k] == HELD_COUNT);
        }
    }
    row = 0;
}

/* A path of 24 places, five a shift, in a room of seven words: five shifts inspect all,
 * and the first place twice. Then a path of three, and the longest one. */
static void places(void) {
    uint64_t room[64];
    uint64_t start = 0;
    uint64_t count = HELD_COUNT;
    uint64_t met = 0;
    int k;

    begin("byr_next_places");
    refused_shifts();
    for (k = 0; k < 64; k++) {
        room[k] = HELD_COUNT;
    }
    while (met < 25) {
        CHECK(byr_next_places(24, 5, &start, room, 7, &count) == 0 && count == 5);
        for (k = 0; k < 5; k++) {
            CHECK(room[k] == met % 24);
            met += 1;
        }
        CHECK(start == met % 24 && room[5] == HELD_COUNT && room[6] == HELD_COUNT);
    }
    CHECK(byr_next_places(24, 5, &start, NULL, 0, &count) == BYR_REFUSED_FIT && start == 1 && count == 5);
    start = 2;
    CHECK(byr_next_places(3, 5, &start, room, 3, &count) == 0 && count == 3 && start == 2);
    CHECK(room[0] == 2 && room[1] == 0 && room[2] == 1 && room[3] == 23);
    start = 10000;
    CHECK(byr_next_places(10001, 64, &start, room, 64, &count) == 0 && count == 64 && start == 63);
    CHECK(room[0] == 10000 && room[1] == 0 && room[63] == 62);
}

int main(void) {
    interface();
    scalars();
    predicates();
    distances();
    copies();
    mending();
    rings();
    discs();
    grid();
    drawn_moves();
    drawn_reasons();
    drawn_paths();
    places();
    whole_points();
    whole_rings();
    clear_moves();
    reasons();
    whole_paths();
    contacts();
    vectors();
    perfect_fit();
    selection();
    collision();
    explanation();
    interlocking();
    recovery();
    start_and_overlaps();
    simplification();
    trace_refusals();
    traces();
    path_refusals();
    paths();
    writing();
    closed_drawings();
    books_of_zeros();
    reading();
    reading_wkb();
    writing_wkb();
    told();
    printf("%d functions called from C, each as it should be\n", functions);
    return 0;
}
