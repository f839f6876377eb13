/*
 * Byrlygent: the sliding no-fit polygon, ring predicates in floats and in whole
 * numbers, whole moves with the reason that nothing lay in between, floats put on a
 * grid of whole numbers, moves of a drawing that are clear to a depth, the outline
 * book, drawings in well-known binary, and places to inspect.
 * Link libbyrlygent.a; of other libraries it needs only C's memcpy and memset.
 *
 * Every function is total: whatever is lent, it answers or refuses, and writes
 * only what its comment says. Nothing is allocated, kept or shared, so calls may
 * run beside each other.
 *
 * Lent lists. A polygon, ring or list of points is x, y alternating. Its length
 * is counted in elements of the pointed type, so a polygon of 4 vertices has
 * length 8. A list of length 0 may be NULL; a longer one may not, and nor may the
 * cell of an answer or of a place. Lent memory must be as long as is said and
 * aligned for its type; the bytes of a book or of a drawing may stand at any
 * address. What is written, a room or a cell, must not overlap anything else that is
 * lent. Lists that are only read may overlap, or be one: to trace a part round
 * itself, lend it twice.
 *
 * Rings are lent open: the last vertex is joined to the first. A closed drawing,
 * whose last vertex repeats the first, goes through byr_open_ring before any other
 * call. Lent as it is, the repeat counts as a vertex with an edge of no length. A
 * drawing in well-known binary is read open, and closed as it is written. One that
 * has corners entered twice besides goes through byr_mend_ring.
 *
 * Answers. All functions but byr_abi_version and the scalars return 0, or the
 * number of a refusal, BYR_REFUSED_. Answers are written to cells, and to rooms, on
 * success only; the exceptions are told where they arise. What is not written is as
 * it was. A room may be longer than its answer, and part of an entry may be left
 * over at its end.
 *
 * Bounds. A polygon has 3 to 256 vertices, a ring 0 to 256. A coordinate, of a
 * single point or segment end too, is finite and at most 1000000 in size. Moves,
 * positions, visited positions and the points of a list to simplify or of a path are
 * finite. A tolerance is above 0 and at most 1.
 *
 * Refusals. First the lists are gone through in the order in which they are lent:
 * of one list 1, then 8, then 9 are tested before the next is looked at. Then 2 is
 * tested of all that is lent, and then 3, 4, 5 and 6 follow in the order of their
 * numbers. A function has those that its comment names. byr_write_book goes through
 * its rings in an order of its own, byr_read_book tests 7, then 4, byr_read_wkb 10,
 * then 4, byr_mend_ring tests 11 before 5, byr_make_disc 12, 2, then 4,
 * byr_next_places 13, then 5, and byr_to_grid, byr_clear_move, byr_check_reason and
 * byr_clear_path test 14 after 3 and before 5.
 *
 * Place. Every function that takes a list has place as its last pointer. It is
 * written with refusals 1, 8 and 9, and is then the number of the list at fault:
 *
 *     0    the stationary polygon; a; the only list
 *     1    the orbiting polygon; b
 *     2    the visited positions; the path to check, or to ask about; the reason to check
 *
 * For byr_write_book it is a ring or the number of rings; byr_read_book writes it
 * with 7 and byr_read_wkb with 10, and it is a byte of what is read. With any other
 * refusal, and on success, place is as it was.
 */
#ifndef BYRLYGENT_H
#define BYRLYGENT_H

#include <stddef.h>
#include <stdint.h>

#ifdef __cplusplus
extern "C" {
#endif

/* The interface that this header declares: each change of a function's parameters
 * or of what it returns raises the number. A program compares it with that of the
 * archive it was linked with, once and before any other call:
 *
 *     if (byr_abi_version() != BYR_ABI_VERSION) { .. header and archive are not of one tree .. }
 *
 * An archive from before there was a number does not link with such a program. */
#define BYR_ABI_VERSION 5

/* The interface of the archive. This function itself stays as it is. */
uint32_t byr_abi_version(void);

/* Why a call was refused. */
enum {
    BYR_REFUSED_LENGTH = 1,      /* a list fits no whole number of entries, or the rings of a book do not add up */
    BYR_REFUSED_NUMBER = 2,      /* a lent number is out of its bounds */
    BYR_REFUSED_SETTING = 3,     /* a tolerance or another setting is out of its bounds */
    BYR_REFUSED_ROOM = 4,        /* a room of a trace, book, drawing or disc is too short, or not of the form asked */
    BYR_REFUSED_FIT = 5,         /* the answer has more entries than its room */
    BYR_REFUSED_SHORT_PATH = 6,  /* the path of a trace has under three points */
    BYR_REFUSED_BOOK = 7,        /* a book is wrong */
    BYR_REFUSED_FEW = 8,         /* a list has too few entries: vertices, points or rings */
    BYR_REFUSED_MANY = 9,        /* a list has too many */
    BYR_REFUSED_WKB = 10,        /* a drawing in well-known binary is wrong, or of another kind */
    BYR_REFUSED_REMAINING = 11,  /* of a mended ring fewer than three vertices remain */
    BYR_REFUSED_QUARTER = 12,    /* a quarter of a disc cannot have so many vertices */
    BYR_REFUSED_INSPECTION = 13, /* the places of a path or of a shift, or the start, are out of their bounds */
    BYR_REFUSED_GRID = 14        /* on a grid a number, exactly, or a moved corner is above 1000000 in size */
};

/* Why a trace stopped. */
enum {
    BYR_STOP_NO_CONTACT = 1, /* no contact, and none recovered */
    BYR_STOP_NO_VECTOR = 2,  /* no vector left */
    BYR_STOP_SHORT_MOVE = 3, /* the move is below the smallest one */
    BYR_STOP_CLOSED = 4,     /* back at the start */
    BYR_STOP_PASSES = 5      /* passes used up */
};

/* The first fault of a path that byr_check_path is lent. */
enum {
    BYR_FAULT_NONE = 0,  /* there is none: the path is accepted */
    BYR_FAULT_POINT = 1, /* at a point there is no contact */
    BYR_FAULT_LEG = 2    /* a leg runs into something */
};

/* What comes of a whole move, of a move of a drawing on its grid, or of a reason that is
 * lent for one. */
enum {
    BYR_MOVE_CLEAR = 0,   /* nothing lies in between, of a drawing to a depth, and there is a reason */
    BYR_MOVE_EDGE = 1,    /* an edge is not parted from the way */
    BYR_MOVE_ENCLOSED = 2 /* every edge is parted, and the way is enclosed */
};

/* Why byr_mend_ring drops a vertex. */
enum {
    BYR_WHY_RUN = 0,     /* it repeats the vertex before it */
    BYR_WHY_TRAILING = 1 /* it begins the run that ends the ring, and equals the first vertex */
};

/* What touches, or is hit: the orbiting polygon's part is named first, and the
 * stationary one's last. */
enum {
    BYR_KIND_VERTEX_EDGE = 0,
    BYR_KIND_EDGE_VERTEX = 1,
    BYR_KIND_EDGE_EDGE = 2
};

/* Where on an edge the foot of a point sits, by its parameter, a zero of either sign
 * being 0. */
enum {
    BYR_FOOT_START = 0,  /* the parameter is 0 */
    BYR_FOOT_END = 1,    /* it is 1 */
    BYR_FOOT_BETWEEN = 2 /* it is between */
};

/* Why byr_explain_collision answers what it does. A pair is a vertex of one polygon
 * and an edge of the other, and is hit at a distance or never. A hit is too near if its
 * distance is at most the tolerance; else too far if it is at least the move's length
 * less the tolerance, as that difference is rounded; else between. */
enum {
    BYR_GROUND_HIT = 0,       /* a hit lies between: the move is not clear */
    BYR_GROUND_SHORT = 1,     /* the move is shorter than the tolerance, and no pair is scanned */
    BYR_GROUND_NEVER = 2,     /* no pair is ever hit */
    BYR_GROUND_NEAR = 3,      /* there are hits, and all are too near */
    BYR_GROUND_FAR = 4,       /* there are hits, and all are too far */
    BYR_GROUND_BOTH_SIDES = 5 /* there are hits too near and too far, and none between */
};

/* ---- Scalars: every bit pattern is taken, and nothing refused. ---- */

/* The same number without its sign. */
double byr_abs(double x);

/* The smaller of two: of a NaN and a number the number; -0.0 is below +0.0. */
double byr_smaller(double a, double b);

/* The larger of two: of a NaN and a number the number; -0.0 is below +0.0. */
double byr_larger(double a, double b);

/* lo if x < lo, else hi if x > hi, else x itself, a -0.0 or NaN too. */
double byr_clamp(double x, double lo, double hi);

/* The square root, correctly rounded; NaN for NaN and negatives, each zero and
 * +infinity give themselves. */
double byr_sqrt(double x);

/* ---- Points and segments. Refusal: 2. ---- */

/* turn: 1 if a, b, c turn counter-clockwise, -1 if clockwise, 0 if the
 * determinant is within 1e-9 of 0. */
uint32_t byr_orientation(double ax, double ay, double bx, double by, double cx, double cy, int32_t *turn);

/* on: 1 if p lies in the box of a and b, widened by 1e-9, else 0. It is meant for
 * a p in line with a and b. */
uint32_t byr_on_segment(double ax, double ay, double bx, double by, double px, double py, uint32_t *on);

/* meet: whether the closed segments (x1,y1)-(x2,y2) and (x3,y3)-(x4,y4) meet, as
 * byr_orientation and byr_on_segment tell it, with their margins: 1 if the ends of
 * each turn opposite ways from the other, or if an end of one has turn 0 from the
 * other and lies in its widened box; else 0. So a gap below the margins counts as
 * meeting. Segments so short that every determinant is within 1e-9 of 0, as two of
 * 2e-5 that cross at a right angle, may cross and give 0. The determinants are
 * rounded, so a close case may change with the ends of a segment exchanged. */
uint32_t byr_segments_intersect(double x1, double y1, double x2, double y2, double x3, double y3, double x4,
                                double y4, uint32_t *meet);

/* distance: of p from the segment a-b, as byr_ring_distance measures it. */
uint32_t byr_point_segment_distance(double px, double py, double ax, double ay, double bx, double by,
                                    double *distance);

/* parameter: where on the segment a-b the point nearest to p lies, 0 at a, 1 at b;
 * 0 for a segment shorter than 1e-10. foot: BYR_FOOT_, whether that is the segment's
 * start, its end or between. */
uint32_t byr_project_point_to_segment(double px, double py, double ax, double ay, double bx, double by,
                                      double *parameter, uint32_t *foot);

/* distance: of p from the segment a-b, as the sliding measures it. */
uint32_t byr_point_to_segment_distance(double px, double py, double ax, double ay, double bx, double by,
                                       double *distance);

/* on: 1 if that distance is below the tolerance, else 0. Refusals: 2, 3. */
uint32_t byr_point_on_segment(double px, double py, double ax, double ay, double bx, double by,
                              double tolerance, uint32_t *on);

/* ---- Rings of 0 to 256 vertices. ----
 * Refusals: 1, 9, 2, and 5 where there is a room. No ring is too short, so there is
 * no 8, but for byr_mend_ring. */

/* Writes the ring mirrored at x = 0, in the other order. vertices: how many. */
uint32_t byr_mirror_polygon(const double *ring, size_t n, double *room, size_t room_n, uint64_t *vertices,
                            uint64_t *place);

/* Writes the ring without its last vertex if there are more than three and the
 * last equals the first, else the ring. vertices: how many are written. */
uint32_t byr_open_ring(const double *ring, size_t n, double *room, size_t room_n, uint64_t *vertices,
                       uint64_t *place);

/* Mends a ring of 1 to 256 vertices: of each run of neighbours that are equal as
 * numbers, -0.0 and 0.0 being equal, the first stays, and then the vertices at the
 * end that equal the first are dropped. Writes what stays, bit for bit; and by rising
 * index of each dropped vertex its old index and why, BYR_WHY_, to dropped, and x and
 * y as they were to points. vertices: how many stay; count: how many are dropped.
 * Put back one after the other, each at its index, the dropped ones make the ring
 * that was lent. No two neighbours of the mended ring are equal, the last and the
 * first included. Refusals: 1, 8 for no vertex at all, 9, 2, then 11 if fewer than
 * three stay, then 5 if one of the rooms is too short; all rooms are as they were. */
uint32_t byr_mend_ring(const double *ring, size_t n, double *room, size_t room_n, uint64_t *dropped,
                       size_t dropped_n, double *points, size_t points_n, uint64_t *vertices, uint64_t *count,
                       uint64_t *place);

/* simple: 1 if there are three vertices or more, and no two edges meet but
 * neighbours, by byr_segments_intersect; else 0. A ring with a closing repeat is
 * not simple. */
uint32_t byr_is_simple_polygon(const double *ring, size_t n, uint32_t *simple, uint64_t *place);

/* distance: the least from a vertex of one ring to an edge of the other; +infinity
 * if a ring has no vertex. It is the rings' distance if they do not cross. */
uint32_t byr_ring_distance(const double *a, size_t an, const double *b, size_t bn, double *distance,
                           uint64_t *place);

/* area2: twice the signed area, above 0 for counter-clockwise order. */
uint32_t byr_signed_area2(const double *ring, size_t n, double *area2, uint64_t *place);

/* area: the signed area by a compensated sum, 0.0 below three vertices. */
uint32_t byr_signed_area_robust(const double *ring, size_t n, double *area, uint64_t *place);

/* ---- Discs ---- */

/* Writes a disc of 4 * m vertices, m being 1, 2, 4, 8, 16, 32 or 64, counter-clockwise
 * from the vertex right of the centre (cx,cy). In the first quarter j from 0 to m - 1
 * gives k = j * 256 / m and the whole numbers
 *     X = 2^30 * (65536 - k*k) / (65536 + k*k),  Y = 2^30 * 512 * k / (65536 + k*k),
 * rounded down; each next quarter turns (X,Y) to (-Y,X). The vertex is
 * cx + radius * (X / 2^30), cy + radius * (Y / 2^30), each step rounded once: the same
 * bits on every machine. vertices: how many. Vertices of a radius too small for its
 * centre may be equal. Refusals: 12 for another m; 2 for a radius or centre that is not
 * finite, a radius not above 0, a vertex that is no coordinate; 4. */
uint32_t byr_make_disc(double cx, double cy, double radius, uint64_t m, double *room, size_t room_n,
                       uint64_t *vertices);

/* ---- Whole numbers ----
 * The same for parts with whole coordinates, each at most 1000000 in size: no float
 * and no margin is in it, and nothing is rounded. Lent the same numbers as doubles,
 * either zero for 0, the functions above answer and refuse alike. For points the
 * refusal is 2; for rings of 0 to 256 vertices 1 and 9 at place 0, then 2. No ring is
 * too short, so there is no 8; whole moves, below, are of polygons. */

/* turn: 1 if a, b, c turn counter-clockwise, -1 if clockwise, 0 if they are in
 * line. */
uint32_t byr_whole_turn(int32_t ax, int32_t ay, int32_t bx, int32_t by, int32_t cx, int32_t cy, int32_t *turn);

/* The same number, as byr_orientation's: without a margin there is one turn. */
uint32_t byr_whole_orientation(int32_t ax, int32_t ay, int32_t bx, int32_t by, int32_t cx, int32_t cy,
                               int32_t *turn);

/* on: 1 if p lies in the box of a and b, else 0. It is meant for a p in line with a
 * and b. */
uint32_t byr_whole_on_segment(int32_t ax, int32_t ay, int32_t bx, int32_t by, int32_t px, int32_t py,
                              uint32_t *on);

/* meet: 1 if the closed segments (x1,y1)-(x2,y2) and (x3,y3)-(x4,y4) meet, which they
 * do also where they touch, else 0. */
uint32_t byr_whole_segments_intersect(int32_t x1, int32_t y1, int32_t x2, int32_t y2, int32_t x3, int32_t y3,
                                      int32_t x4, int32_t y4, uint32_t *meet);

/* simple: 1 if there are three vertices or more, and no two edges meet but
 * neighbours, by byr_whole_segments_intersect; else 0. */
uint32_t byr_whole_is_simple_polygon(const int32_t *ring, size_t n, uint32_t *simple, uint64_t *place);

/* area2: twice the signed area, above 0 for counter-clockwise order. */
uint32_t byr_whole_signed_area2(const int32_t *ring, size_t n, int64_t *area2, uint64_t *place);

/* ---- Whole moves: polygons of 3 to 256 vertices with whole coordinates. ----
 * A true answer, without a tolerance: the orbiting polygon slides straight from where
 * it stands by (dx,dy), and at no time does a point of a stationary edge lie inside it,
 * or a point inside it inside the stationary ring. To touch is to be clear. The way is
 * the orbiting polygon's corners at the start and at the end; all of them are within
 * the bounds of a coordinate.
 *
 * A reason is two points p and q for each stationary edge, vertex j to the next, that
 * are not one: the whole way lies left of the line p to q or on it, and both ends of
 * the edge right of it or on it. And it is balanced: of the edges whose line rises,
 * p.y < q.y, as many come up through the way's lowest height, from it or below to above
 * it, as go down. Where a reason holds, whoever made it, the move is clear; anyone can
 * check one with turns of whole numbers alone.
 *
 * The stationary ring may be any closed one. Of the orbiting polygon the hull is meant:
 * for one that is not convex a reason is more than is needed, and none found proves
 * nothing. Of a flat one, all of whose vertices are in line, a reason proves nothing. */

/* Looks for a reason, the orbiting polygon being lent as it stands at the start.
 * ground, a BYR_MOVE_: with BYR_MOVE_CLEAR the room's front holds the reason, p.x, p.y,
 * q.x and q.y for each stationary edge; with BYR_MOVE_EDGE edge is the first that no
 * line tried parts from the way; with BYR_MOVE_ENCLOSED every edge is parted, and the
 * lines do not balance. The lines tried for an edge are, in this order, that of the edge
 * before; the sides of the way's box, from x, y to X, Y: right X 0 X 1, top 1 Y 0 Y,
 * left x 1 x 0, bottom 0 y 1 y; each orbiting vertex's own way, there and back; each
 * orbiting edge, at the start there and back, then at the end; and the edge's own, there
 * and back. The first that parts is taken, so one line may serve many edges.
 *
 * Refusals: 1, 8, 9; 2, also for a corner out of bounds at the end of the move; 5 where
 * the move is clear and the room holds fewer than 4 numbers an edge. With a refusal the
 * room is as it was. edge is written with BYR_MOVE_EDGE only. */
uint32_t byr_whole_clear_move(const int32_t *stationary, size_t sn, const int32_t *orbiting, size_t on, int32_t dx,
                              int32_t dy, int32_t *reason, size_t reason_n, uint32_t *ground, uint64_t *edge,
                              uint64_t *place);

/* Checks a reason for the same move, whoever made it. ground: BYR_MOVE_CLEAR if it
 * holds; BYR_MOVE_EDGE if a line does not part its edge from the way, or its two points
 * are one, and edge is the first such; BYR_MOVE_ENCLOSED if each line parts, and they do
 * not balance.
 *
 * Refusals: 1, 8, 9, those of the reason at place 2, which has 4 numbers for each
 * stationary edge: 1 for a length that is no multiple of four, 8 for fewer, 9 for more;
 * 2 of all three lists, and for a corner out of bounds at the end of the move. edge is
 * written with BYR_MOVE_EDGE only. */
uint32_t byr_whole_check_reason(const int32_t *stationary, size_t sn, const int32_t *orbiting, size_t on,
                                int32_t dx, int32_t dy, const int32_t *reason, size_t reason_n,
                                uint32_t *ground, uint64_t *edge, uint64_t *place);

/* Looks for a reason for each leg of a path of 3 to 10001 points, the orbiting polygon
 * being lent as drawn and moved to each point; the last leg leads from the last point to
 * the first. ground is BYR_MOVE_CLEAR if every leg is clear, by byr_whole_clear_move, and
 * else that of the first that is not: leg is then the point at which it begins, and edge
 * as there.
 *
 * Refusals: 1, 8, 9, those of the path at place 2; 2, also for a corner out of bounds at
 * a point of the path, whose own numbers may be any. leg is written with BYR_MOVE_EDGE
 * and BYR_MOVE_ENCLOSED only, edge with BYR_MOVE_EDGE only. */
uint32_t byr_whole_clear_path(const int32_t *stationary, size_t sn, const int32_t *orbiting, size_t on,
                              const int32_t *path, size_t path_n, uint32_t *ground, uint64_t *leg,
                              uint64_t *edge, uint64_t *place);

/* ---- Sliding: polygons of 3 to 256 vertices. ----
 * Refusals 1, 8 and 9 are told of the stationary polygon (or a) at place 0, and of
 * the orbiting one (or b) at place 1.
 *
 * The orbiting polygon is lent where it stands, already moved; only
 * byr_detect_interlocking_opportunity, byr_find_start_position,
 * byr_compute_nfp_sliding and byr_check_path take it as drawn, with its position
 * apart. */

/* Every contact of the two polygons, nearer than the tolerance. Per contact,
 * which: kind, stationary index, orbiting index, foot; points: x, y. count: how
 * many. The foot, BYR_FOOT_, is that of the vertex on the edge it touches, and of two
 * edges that of the orbiting one's first end on the stationary one. Refusals: 1, 8, 9,
 * 2, 3, 5 (then both rooms are as they were). */
uint32_t byr_find_contacts(const double *stationary, size_t sn, const double *orbiting, size_t on,
                           double tolerance, uint64_t *which, size_t which_n, double *points, size_t points_n,
                           uint64_t *count, uint64_t *place);

/* The two directions in which each contact lets the orbiting polygon slide. Per
 * vector, vectors: direction x, y and distance; sources: the index of its contact
 * among those of byr_find_contacts. count: how many. Refusals: 1, 8, 9, 2, 3, 5
 * (then both rooms are as they were). */
uint32_t byr_compute_translation_vectors(const double *stationary, size_t sn, const double *orbiting, size_t on,
                                         double tolerance, double *vectors, size_t vectors_n,
                                         uint64_t *sources, size_t sources_n, uint64_t *count,
                                         uint64_t *place);

/* The same without those that lead from (rx,ry) to a visited position, of which
 * there may be 0 to 10001. Refusals: 1, 8, 9, 2, 3, 5 (then both rooms are as they
 * were); of the visited positions, at place 2, only 1 and 9. */
uint32_t byr_handle_perfect_fit(const double *stationary, size_t sn, const double *orbiting, size_t on, double rx,
                                double ry, const double *visited, size_t visited_n, double tolerance,
                                double *vectors, size_t vectors_n, uint64_t *sources, size_t sources_n,
                                uint64_t *count, uint64_t *place);

/* Which of the vectors, three numbers each, the sliding takes: found is 0 for an
 * empty list, else 1, and then index is that of the first with the greatest
 * score. has_previous is 0 for no previous direction. All bit patterns are taken.
 * Refusal: 1, at place 0, if the length is no multiple of three. */
uint32_t byr_select_translation_vector(const double *vectors, size_t n, uint32_t has_previous, double previous_x,
                                       double previous_y, double centroid_x, double centroid_y,
                                       double position_x, double position_y, uint32_t *found, uint64_t *index,
                                       uint64_t *place);

/* What the orbiting polygon runs into when it moves by (dx,dy): found is 0 for
 * nothing, else 1, and then distance, kind (0 or 1) and both indices are those of
 * the nearest hit, the first in scan order. Refusals: 1, 8, 9, 2, 3. */
uint32_t byr_check_translation_collision(const double *stationary, size_t sn, const double *orbiting, size_t on,
                                         double dx, double dy, double tolerance, uint32_t *found,
                                         double *distance, uint32_t *kind, uint64_t *stationary_i,
                                         uint64_t *orbiting_i, uint64_t *place);

/* The same answer and its ground, a BYR_GROUND_. With BYR_GROUND_HIT distance, kind
 * and both indices are written as byr_check_translation_collision writes them, and
 * others: how many other pairs, of either kind, are hit at that very distance. With
 * grounds 1 to 5, which are those of nothing, these five are as they were. too_near,
 * between and too_far, the pairs with such a hit, are written with every ground; all
 * are 0 with BYR_GROUND_SHORT. Refusals: 1, 8, 9, 2, 3. */
uint32_t byr_explain_collision(const double *stationary, size_t sn, const double *orbiting, size_t on, double dx,
                               double dy, double tolerance, uint32_t *ground, double *distance, uint32_t *kind,
                               uint64_t *stationary_i, uint64_t *orbiting_i, uint64_t *others,
                               uint64_t *too_near, uint64_t *between, uint64_t *too_far, uint64_t *place);

/* A position one tolerance nearer to a concave vertex, from (x,y), at which the
 * polygons do not overlap: found is 0 for none, else 1, and then (to_x,to_y).
 * Refusals: 1, 8, 9, 2, 3. */
uint32_t byr_detect_interlocking_opportunity(const double *stationary, size_t sn, const double *orbiting,
                                             size_t on, double x, double y, double tolerance,
                                             uint32_t *found, double *to_x, double *to_y, uint64_t *place);

/* Where to go from (x,y) to bring the orbiting polygon, lent where it stands, back
 * to the stationary one: found is 0 if it is no farther than the tolerance, else
 * 1, and then (to_x,to_y). Refusals: 1, 8, 9, 2, 3. */
uint32_t byr_recover_contact(const double *stationary, size_t sn, const double *orbiting, size_t on, double x,
                             double y, double tolerance, uint32_t *found, double *to_x, double *to_y,
                             uint64_t *place);

/* overlap: 0 if an axis parts the polygons by more than 1e-6, else 1; touching
 * polygons count as overlapping. Refusals: 1, 8, 9, 2. */
uint32_t byr_polygons_overlap(const double *a, size_t an, const double *b, size_t bn, uint32_t *overlap,
                              uint64_t *place);

/* The same by more than the tolerance. Refusals: 1, 8, 9, 2, 3. */
uint32_t byr_polygons_overlap_with_tolerance(const double *a, size_t an, const double *b, size_t bn,
                                             double tolerance, uint32_t *overlap, uint64_t *place);

/* x, y: where the orbiting polygon's highest vertex meets the stationary one's
 * lowest. Refusals: 1, 8, 9, 2. */
uint32_t byr_find_start_position(const double *stationary, size_t sn, const double *orbiting, size_t on, double *x,
                                 double *y, uint64_t *place);

/* Writes those of a list of 0 to 10001 points that stay; all of them if fewer than
 * three would. The last point's neighbour is the first. A point stays if the turn
 * at it, a determinant rounded as it is worked out, is not exactly 0; or if it is
 * farther than the tolerance from the segment between its neighbours, as the tip
 * of a spike is. So the tolerance is for spikes: a point nearly in line stays. The
 * neighbours are those of the list as lent: of two equal points side by side
 * neither stays. points: how many are written. Refusals: 1 and 9 at place 0, 2, 3,
 * 5; no list is too short. */
uint32_t byr_simplify_polygon(const double *list, size_t n, double tolerance, double *room, size_t room_n,
                              uint64_t *points, uint64_t *place);

/* Traces the orbiting polygon round the stationary one. Closed drawings go through
 * byr_open_ring first. min_translation is finite and not negative, max_iterations
 * at most 10000; the Rust's defaults are 1e-6, 1e-8 and 10000. The work room has an
 * even length of 2 or more, the result room is at least as long; 20002 always
 * suffices for both.
 *
 * Success: the work room holds the path, stored points, and the result room the
 * path simplified, points points; passes are those begun, stop is a BYR_STOP_.
 * Refusals 1, 8, 9: place alone is written. Refusals 2, 3, 4: nothing is.
 * Refusal 5, a point was to be stored and the work room is full: it holds the
 * stored points; passes is written.
 * Refusal 6, fewer than three points at the end: the work room holds the path;
 * passes and stop are written.
 * Success and refusal 6 are the same, with the same points, in longer rooms and,
 * unless stop is BYR_STOP_PASSES, with a higher max_iterations. */
uint32_t byr_compute_nfp_sliding(const double *stationary, size_t sn, const double *orbiting, size_t on,
                                 double contact_tolerance, double min_translation, uint64_t max_iterations,
                                 double *work, size_t work_n, double *result, size_t result_n,
                                 uint64_t *points, uint64_t *stored, uint64_t *passes, uint32_t *stop,
                                 uint64_t *place);

/* Checks a path of 3 to 10001 points that another program traced. It is accepted, and
 * fault is BYR_FAULT_NONE, exactly if at each point the orbiting polygon, moved there,
 * has a contact, by byr_find_contacts, and on each leg, that from the last point to the
 * first included, byr_check_translation_collision finds nothing for the polygon at the
 * leg's first point and the difference of the two. Else fault is that of the first in the
 * order point 0, leg 0, point 1 and so on, and index is the point's, or that of the point
 * at which the leg begins. Moved vertices and differences are rounded once, and not held
 * to bounds. Windings stay as lent. Both polygons are tested with contact_tolerance;
 * min_translation and max_iterations keep the bounds of byr_compute_nfp_sliding, and are
 * not used. A path of that function may have a fault.
 *
 * Refusals: 1, 8, 9, those of the path at place 2; 2, 3. index is written with
 * BYR_FAULT_POINT and BYR_FAULT_LEG only. */
uint32_t byr_check_path(const double *stationary, size_t sn, const double *orbiting, size_t on,
                        double contact_tolerance, double min_translation, uint64_t max_iterations,
                        const double *path, size_t path_n, uint32_t *fault, uint64_t *index, uint64_t *place);

/* ---- The outline book ---- */

/* Writes the book of 1 to 8 rings of 3 to 256 vertices: coordinates has them one
 * after the other, counts the vertices of each, parts the number of the part that
 * each belongs to, any at all. Two lists of rings give the same bytes exactly if
 * place by place the parts are the same and the rings are the same vertices, as
 * numbers, begun at any of them and taken either way round: of either zero 0.0 is
 * kept, so that an outline symmetric about
 * x = 0 and its mirror by byr_mirror_polygon have one book. A closing repeat is a
 * vertex like any other: the closed (0,0),(4,0),(0,3),(0,0) and
 * (4,0),(0,3),(0,0),(4,0) have two books, and opened one. length: the book's bytes,
 * 16 a vertex, 12 a ring and 8; 32872 at most.
 *
 * Refusals, in this order, and the place that each tells:
 *
 *     8 for no rings, 9 for more than eight               the number of rings
 *     ring by ring, 8 under three vertices, 9 above 256   the ring, from 0 on
 *     1 unless there are two coordinates for each vertex
 *     counted; so also for an odd list                    the number of rings
 *     1 unless there are as many parts as rings           the number of rings
 *     2, then 4                                           none
 *
 * So 8 at place 0 is a book of no rings if none is lent, and else a short ring 0. */
uint32_t byr_write_book(const double *coordinates, size_t n, const uint32_t *counts, size_t rings,
                        const uint32_t *parts, size_t parts_n, uint8_t *room, size_t room_n, uint64_t *length,
                        uint64_t *place);

/* Hands out the rings of a book as stored: their coordinates one after the other,
 * the vertices of each and its part; rings: how many. 4096 coordinates, 8 counts and 8
 * parts always suffice. Writing what was read gives that book again. Refusals: 7 for what
 * byr_write_book does not write, with place the byte of the first fault, which for a
 * stored -0.0 is that coordinate's first byte; then 4. */
uint32_t byr_read_book(const uint8_t *book, size_t n, double *coordinates, size_t coordinates_n, uint32_t *counts,
                       size_t counts_n, uint32_t *parts, size_t parts_n, uint64_t *rings, uint64_t *place);

/* ---- Drawings in well-known binary ----
 * The well-known binary of OGC Simple Features, of a polygon with one ring:
 *
 *     byte 0     the byte order of all that follows: 0 big-endian, 1 little-endian
 *     byte 1     the type, uint32_t: 3
 *     byte 5     the rings, uint32_t: 1
 *     byte 9     the points, uint32_t: 4 to 257
 *     byte 13    the points, x and y as double; the last equals the first
 *
 * and nothing else, so that there are 13 bytes and 16 a point. */

/* Hands out the ring open: all points but the last, bit for bit. The last must equal
 * the first as numbers, so -0.0 closes what began at 0.0; it alone is left off, and a
 * ring that itself ends in a repeat of its first vertex keeps that. vertices: how
 * many are written, one fewer than the points. 512 coordinates always suffice.
 *
 * Refusal 10, with place the byte of the first fault, in this order:
 *
 *     fewer than 13 bytes                             0
 *     a byte order other than 0 and 1                 0
 *     another type: Z, M or SRID also, or no polygon  1
 *     no ring, or holes                               5
 *     fewer than 4 points, or more than 257           9
 *     a length other than 13 + 16 * points            0
 *     a coordinate out of bounds, in file order       its first byte
 *     a last point that does not equal the first      13 + 16 * (points - 1)
 *
 * Then 4. */
uint32_t byr_read_wkb(const uint8_t *wkb, size_t n, double *room, size_t room_n, uint64_t *vertices,
                      uint64_t *place);

/* Writes a polygon of 3 to 256 vertices, little-endian, and after them the first
 * once more, bit for bit. Reading it gives the same ring, bit for bit. length: the
 * bytes, 16 a vertex and 29; 4125 at most. Refusals: 1, 8 and 9 at place 0, 2, 4. */
uint32_t byr_write_wkb(const double *ring, size_t n, uint8_t *room, size_t room_n, uint64_t *length,
                       uint64_t *place);

/* ---- Floats on a grid ---- */

/* Puts 0 to 10001 points on a grid of units, 1 to 1000000, in 1: on a drawing in
 * millimetres, 1000 is a grid of micrometres. room gets a whole number for each
 * coordinate, the nearest to units times its exact value; a tie goes away from zero. So
 * each is off by at most half a unit, the same coordinate is the same number wherever it
 * stands, and the functions in whole numbers take all of them. room is as long as the
 * list; count: how many points were written. Refusals: 1 and 9 at place 0, 2, 3 for the
 * units, 14 where units times a coordinate, exactly and not as rounded, is above 1000000
 * in size, 5; no list is too short. */
uint32_t byr_to_grid(const double *points, size_t n, uint32_t units, int32_t *room, size_t room_n, uint64_t *count,
                     uint64_t *place);

/* ---- Moves of a drawing: polygons of 3 to 256 vertices in floats, on a grid. ----
 * The orbiting polygon, lent as drawn, is moved to a position and goes straight on to
 * another. On the grid of units, 1 to 1000000, in 1, nearest(x) is the whole number that
 * byr_to_grid gives, and a corner that is drawn at c starts at nearest(c) + nearest(from)
 * and ends at nearest(c) + nearest(to), x and y each by itself: off by at most one unit
 * from where it is drawn. A stationary vertex v is at nearest(v), off by at most half a
 * unit.
 *
 * Put aside. Rounding may push into each other what only touches. So the orbiting
 * polygon may be put aside on the grid by w = 1 or 2 units. how tells it: 0 as it is; 1
 * to 10 the ten ways below with w = 1, and 11 to 20 the same with w = 2. The corners at
 * the start are put aside by themselves, and those at the end by themselves. Halves are
 * rounded down, towards minus infinity.
 *
 *     1, 11     drawn in: with c half of the least x and the greatest x together, x
 *               becomes x - w if x - c > w, x + w if x - c < -w, else c; y likewise
 *     2, 12     drawn in across the move: with dx = nearest(to.x) - nearest(from.x), dy
 *               likewise, k = dx * y - dy * x of a corner, and m half of the least k and
 *               the greatest k together, a corner with k > m goes by w * (sgn dy, -sgn dx),
 *               one with k < m by w * (-sgn dy, sgn dx), one with k = m stays
 *     3, 13     set off by (w, 0)         7, 17     by (w, w)
 *     4, 14     by (0, w)                 8, 18     by (-w, w)
 *     5, 15     by (-w, 0)                9, 19     by (-w, -w)
 *     6, 16     by (0, -w)               10, 20     by (w, -w)
 *
 * The way is these corners at the start and at the end, and a reason is one for the way
 * and the stationary ring on the grid, as of whole moves. Where a corner put aside is
 * above 1000000 in size, there is none with that how.
 *
 * Depth. Where a reason holds with how, whoever made it, then depth = 3 + 2 * w units, w
 * being 0 for how = 0, so 3, 5 or 7, is all that may be wrong with 'clear': of the floats
 * as they are lent, their exact values and exact sums, at no time of the move does a
 * point of a stationary edge lie deeper than that in the moved polygon, and each point
 * that lies deeper in it is outside the stationary ring. A point lies deeper if its four
 * neighbours to the right, to the left, above and below at some distance of more than
 * depth / units lie in the polygon; so to Euclid it is never deeper than told. Where the
 * lines part and do not balance, no point of an edge lies deeper either, and each point
 * that does is not outside the ring.
 *
 * Of the orbiting polygon the hull is meant: for one that is not convex none found proves
 * nothing, and of one that is nowhere deeper than depth a reason proves nothing.
 *
 * Refusals 1, 8 and 9 are told of the stationary polygon at place 0, and of the orbiting
 * one at place 1. Refusal 2: a coordinate that is not finite or above 1000000 in size, a
 * position that is not finite. 3: the units. 14: units times a coordinate or a position,
 * exactly and not as rounded, is above 1000000 in size, or nearest(corner) +
 * nearest(position) is, at any position that is lent. */

/* Looks for a reason with how = 0, then with how = 1, and so on. ground, a BYR_MOVE_: with
 * BYR_MOVE_CLEAR the room's front holds the reason, p.x, p.y, q.x and q.y in units for each
 * stationary edge; with BYR_MOVE_ENCLOSED every edge is parted, and the lines do not
 * balance; and with both how is the first with which byr_whole_clear_move's lines part
 * every edge, and depth is that of how. With BYR_MOVE_EDGE there is none, and edge is the
 * first that is not parted with how = 0.
 *
 * Refusals: 1, 8, 9; 2; 3; 14; 5 where it is clear and the room holds fewer than 4 numbers
 * an edge. With a refusal the room is as it was. depth and how are written with
 * BYR_MOVE_CLEAR and BYR_MOVE_ENCLOSED only, edge with BYR_MOVE_EDGE only. */
uint32_t byr_clear_move(const double *stationary, size_t sn, const double *orbiting, size_t on, double from_x,
                        double from_y, double to_x, double to_y, uint32_t units, int32_t *reason,
                        size_t reason_n, uint32_t *ground, uint32_t *depth, uint32_t *how, uint64_t *edge,
                        uint64_t *place);

/* Checks a reason for the same move, whoever made it, with the orbiting polygon put aside
 * by how, 0 to 20. ground: BYR_MOVE_CLEAR if it holds; BYR_MOVE_EDGE if a line does not
 * part its edge from the way, or its two points are one, and edge is the first such, or 0
 * where a corner put aside is above 1000000 in size; BYR_MOVE_ENCLOSED if each line parts,
 * and they do not balance.
 *
 * Refusals: 1, 8, 9, those of the reason at place 2, which has 4 numbers for each
 * stationary edge: 1 for a length that is no multiple of four, 8 for fewer, 9 for more; 2,
 * also for a number of the reason above 1000000 in size; 3, also for how; 14. depth is
 * written with BYR_MOVE_CLEAR and BYR_MOVE_ENCLOSED only, edge with BYR_MOVE_EDGE only. */
uint32_t byr_check_reason(const double *stationary, size_t sn, const double *orbiting, size_t on, double from_x,
                          double from_y, double to_x, double to_y, uint32_t units, uint32_t how,
                          const int32_t *reason, size_t reason_n, uint32_t *ground, uint32_t *depth,
                          uint64_t *edge, uint64_t *place);

/* Looks for a reason for each leg of a path of 2 to 10001 points, from each point to the
 * next and, if closed is not 0, from the last to the first. ground is BYR_MOVE_CLEAR if
 * every leg is clear, by byr_clear_move, and depth is then the largest of theirs; else
 * ground is that of the first leg that is not clear, leg the point at which it begins, and
 * edge as there. All points are tested before any leg is looked at.
 *
 * Refusals: 1, 8, 9, those of the path at place 2; 2; 3; 14. depth is written with
 * BYR_MOVE_CLEAR only, leg with BYR_MOVE_EDGE and BYR_MOVE_ENCLOSED only, edge with
 * BYR_MOVE_EDGE only. */
uint32_t byr_clear_path(const double *stationary, size_t sn, const double *orbiting, size_t on, const double *path,
                        size_t path_n, uint32_t closed, uint32_t units, uint32_t *ground, uint32_t *depth,
                        uint64_t *leg, uint64_t *edge, uint64_t *place);

/* ---- Places to inspect ---- */

/* The places of a path of n, 1 to 10001, that the next shift inspects: k, 1 to 64, or
 * all n if n is smaller, in path order from start on, the last place on to the first. A
 * place is 0 to n - 1, and so is start; a new path begins at start 0. room gets the
 * places, and count is how many they are. start is read, and on success holds the
 * following start, with which the next shift on the same path goes on; where k is n or
 * above, it stays where it is.
 *
 * Of shifts with one n and one k, each started where the one before left off: the places
 * of one differ; n / k of them, rounded up, inspect every place at least once; and from
 * start 0 no place is inspected more than once oftener than another.
 *
 * Refusals: 13 for n, k or start, then 5. With a refusal start is as it was. */
uint32_t byr_next_places(uint64_t n, uint64_t k, uint64_t *start, uint64_t *room, size_t room_n,
                         uint64_t *count);

#ifdef __cplusplus
}
#endif

#endif
