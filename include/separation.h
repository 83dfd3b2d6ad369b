/* The separation channel, the vote, the cast and the checker of a separating direction, for C11 and C++11 or later.
 * tools/install puts this header, libseparation.a and separation.pc below a prefix.
 *
 * Every call ends, on any numbers and any lengths, and refuses no number for its value, NaN and infinities included. It allocates nothing
 * and keeps nothing: it works on what it is lent, so it may run on any thread, and on several at once that are lent different stores.
 * The contracts are in crates/embedding of the repository.
 *
 * Processor: x86-64 alone, with the calling convention of System V (Linux). The library uses no instruction beyond the baseline.
 *
 * Floating point. Channels agree only if each computes in the environment that System V starts a thread with: rounding to nearest, numbers
 * below the normal ones neither flushed to zero nor read as zero, no exception that traps. A host that sets FTZ or DAZ breaks agreement, and
 * so does a program that gcc links with -ffast-math or -Ofast, which sets both. separation_environment() tells; ask it in each
 * thread before its first call. Nothing in the library is fused, whatever the host is compiled with.
 *
 * Pointers. Each list is a pointer and its length in elements, not in bytes. It is aligned as its elements are, and no two
 * lists that a call is lent overlap. A null pointer may come with length 0.
 *
 * Frame. Everything is in the frame of the first shape: both points, the normal and every direction. The pose places the second shape in it. */
#ifndef SEPARATION_H
#define SEPARATION_H

#if !defined(__x86_64__) || defined(_WIN32)
#error "libseparation.a is for x86-64 with the calling convention of System V: compile for that, as with x86_64-linux-gnu-gcc"
#endif

#include <stdbool.h>
#include <stddef.h>
#include <stdint.h>
#include <xmmintrin.h>

/* The minor number grows with what is added, the major one where a caller has to be altered or compiled anew. */
#define SEPARATION_VERSION_MAJOR 1
#define SEPARATION_VERSION_MINOR 0

#ifdef __cplusplus
#define SEPARATION_ASSERT(test) static_assert(test, #test)
extern "C" {
#else
#define SEPARATION_ASSERT(test) _Static_assert(test, #test)
#endif

/* ---- shapes and poses */

typedef struct {
    float x, y, z;
} separation_vector;

/* A rotation (quaternion x, y, z, w), then a translation. The quaternion is taken as it is and not normalised: one of length l
 * scales the second shape, unless it is a ball, by the square of l. */
typedef struct {
    float x, y, z, w;
    separation_vector translation;
} separation_pose;

enum separation_kind {
    SEPARATION_BALL = 0,     /* radius in p.x */
    SEPARATION_CUBOID = 1,   /* half extents in p */
    SEPARATION_CAPSULE = 2,  /* ends in p and q, radius in r.x */
    SEPARATION_TRIANGLE = 3, /* corners in p, q and r */
};

/* Numbers that the kind has not got are not read. */
typedef struct {
    uint32_t kind;
    separation_vector p, q, r;
} separation_shape;

/* ---- answers */

/* The letter that the program prints. None is 0, so that zeros are no answer. The normal of all four answers points from the first shape to the second. */
enum separation_outcome {
    SEPARATION_CLOSEST_POINTS = 'D',  /* apart: the point of each shape that is nearest to the other, and the direction from the first to the second as normal */
    SEPARATION_PROXIMITY = 'M',       /* apart and near, `exact` not asked: the direction in which the search stood as normal; it need not separate the shapes */
    SEPARATION_NO_INTERSECTION = 'S', /* farther apart than the largest distance, along the normal; or the search did not settle, with normal (1, 0, 0) */
    SEPARATION_PENETRATION = 'P',     /* they meet: the deepest point of each in the other, the normal, and the counts of the run. The second shape comes free when it
                                         is moved along the normal by the depth, which is the product of point1 - point2 with the normal */
    SEPARATION_NO_ANSWER = 'N',       /* refusal 1: they meet, and the run found no answer; with counts */
    SEPARATION_PANIC = 'X',           /* refusal 2: the Rust would panic here */
    SEPARATION_NO_ROOM = 'R',         /* refusal 3: a lent store is too short; with counts */
    SEPARATION_MALFORMED = 'B',       /* refusal 4: a kind of shape above 3 */
};

/* The counts of a run: expansions completed, faces made, faces live at the end, most edges in one pass, and
 * lookups that missed: a face's neighbour that had not got the vertex sought. */
typedef struct {
    size_t expansions, made, live, edges, missed;
} separation_counts;

/* What the outcome has not got is zero. */
typedef struct {
    uint8_t outcome;
    separation_vector point1, point2, normal;
    separation_counts counts;
} separation_answer;

/* The number of an outcome: 0 of D, M, S and P, else the refusal's; 5 of what is no letter, as in an answer of zeros. */
uint32_t separation_number(uint8_t outcome);

/* ---- the stores that a run works on */

/* One record of the silhouette's store. */
typedef struct {
    size_t face, corner;
} separation_edge;

/* How many records each store has room for. With ENOUGH no run is refused for room, whatever it is asked. PROGRAM is what the program
 * `separation` lends; a run that needs more faces or heap entries is answered R. What is lent changes no other answer. */
enum separation_room {
    SEPARATION_ENOUGH_VERTICES = 105,
    SEPARATION_ENOUGH_FACES = 10710,
    SEPARATION_ENOUGH_EDGES = 206,
    SEPARATION_ENOUGH_HEAP = 10710,
    SEPARATION_ENOUGH_PENDING = 206,
    SEPARATION_PROGRAM_VERTICES = 105,
    SEPARATION_PROGRAM_FACES = 1000,
    SEPARATION_PROGRAM_EDGES = 206,
    SEPARATION_PROGRAM_HEAP = 1000,
    SEPARATION_PROGRAM_PENDING = 206,
    /* elements of a record, where they are more than one */
    SEPARATION_VERTEX_FLOATS = 9,
    SEPARATION_FACE_IDS = 6,
    SEPARATION_FACE_FLOATS = 6,
    SEPARATION_PENDING_NUMBERS = 2,
};

/* Five stores: vertices; faces, in three lists; the silhouette's edges; heap entries, in two lists; and the silhouette walk's pending questions.
 * A store of several lists is as long as the fewest whole records that one of them holds. What they held before makes no difference. */
typedef struct {
    float *vertices;
    size_t vertices_length;
    size_t *ids;
    size_t ids_length;
    float *floats;
    size_t floats_length;
    uint8_t *deleted;
    size_t deleted_length;
    separation_edge *edges;
    size_t edges_length;
    size_t *heap_ids;
    size_t heap_ids_length;
    float *heap_keys;
    size_t heap_keys_length;
    size_t *pending;
    size_t pending_length;
} separation_stores;

/* An array, and how many elements it has. */
#define SEPARATION_LENT(array) array, sizeof(array) / sizeof((array)[0])

/* SEPARATION_STATIC_STORES(name, PROGRAM); or ENOUGH: static arrays of that room, and `name`, the separation_stores over them;
 * for one call at a time. */
#define SEPARATION_STATIC_STORES(name, room) \
    static float name##_vertices[SEPARATION_VERTEX_FLOATS * SEPARATION_##room##_VERTICES]; \
    static size_t name##_ids[SEPARATION_FACE_IDS * SEPARATION_##room##_FACES]; \
    static float name##_floats[SEPARATION_FACE_FLOATS * SEPARATION_##room##_FACES]; \
    static uint8_t name##_deleted[SEPARATION_##room##_FACES]; \
    static separation_edge name##_edges[SEPARATION_##room##_EDGES]; \
    static size_t name##_heap_ids[SEPARATION_##room##_HEAP]; \
    static float name##_heap_keys[SEPARATION_##room##_HEAP]; \
    static size_t name##_pending[SEPARATION_PENDING_NUMBERS * SEPARATION_##room##_PENDING]; \
    static const separation_stores name = { \
        SEPARATION_LENT(name##_vertices), SEPARATION_LENT(name##_ids), SEPARATION_LENT(name##_floats), \
        SEPARATION_LENT(name##_deleted), SEPARATION_LENT(name##_edges), SEPARATION_LENT(name##_heap_ids), \
        SEPARATION_LENT(name##_heap_keys), SEPARATION_LENT(name##_pending)}

/* Bytes of the stores of a room: 95,372 of PROGRAM, 920,722 of ENOUGH. */
#define SEPARATION_STORE_BYTES(room) \
    (sizeof(float) * SEPARATION_VERTEX_FLOATS * SEPARATION_##room##_VERTICES \
     + (sizeof(size_t) * SEPARATION_FACE_IDS + sizeof(float) * SEPARATION_FACE_FLOATS + 1) * SEPARATION_##room##_FACES \
     + sizeof(separation_edge) * SEPARATION_##room##_EDGES \
     + (sizeof(size_t) + sizeof(float)) * SEPARATION_##room##_HEAP \
     + sizeof(size_t) * SEPARATION_PENDING_NUMBERS * SEPARATION_##room##_PENDING)

/* No call takes more bytes of the stack than this, beside what memcpy, memmove and memset of the C library take. `bench/stack` reads off the
 * library what each call takes, and fails where it is more. */
#define SEPARATION_STACK_BYTES 16384

/* ---- the channel */

/* How far shape g2, in the pose pos12 in the frame of g1, is from g1, or how deep they meet.
 *   dir       where the search starts: any direction will do, and another may change the last digits. Along one of length 0 a ball has no point,
 *             and NaN is answered
 *   max_dist  the largest distance of interest: shapes that are found to be farther apart are answered S, with no points. Where they meet it does not count
 *   exact     whether the points and the distance are asked for (D); else the search stops as soon as the shapes are known to be apart and near (M) */
separation_answer separation_run(
    separation_pose pos12, separation_shape g1, separation_shape g2,
    separation_vector dir, float max_dist, bool exact,
    float *vertices, size_t vertices_length,
    size_t *ids, size_t ids_length,
    float *floats, size_t floats_length,
    uint8_t *deleted, size_t deleted_length,
    separation_edge *edges, size_t edges_length,
    size_t *heap_ids, size_t heap_ids_length,
    float *heap_keys, size_t heap_keys_length,
    size_t *pending, size_t pending_length);

/* The same, over stores in a struct. */
static inline separation_answer separation_run_on(
    separation_pose pos12, separation_shape g1, separation_shape g2,
    separation_vector dir, float max_dist, bool exact, const separation_stores *s)
{
    return separation_run(
        pos12, g1, g2, dir, max_dist, exact,
        s->vertices, s->vertices_length, s->ids, s->ids_length, s->floats, s->floats_length,
        s->deleted, s->deleted_length, s->edges, s->edges_length, s->heap_ids, s->heap_ids_length,
        s->heap_keys, s->heap_keys_length, s->pending, s->pending_length);
}

/* Whether this thread's floating-point environment is the one that every channel must have. Of MXCSR the bits of exceptions that were met do not
 * count; all exceptions are masked (0x1F80), and rounding (0x6000), FTZ (0x8000) and DAZ (0x0040) are 0. */
static inline bool separation_environment(void)
{
    return (_mm_getcsr() & 0xFFC0u) == 0x1F80u;
}

/* ---- the vote */

enum separation_verdict {
    SEPARATION_AGREED = 0,
    SEPARATION_NO_TWO_AGREE = 5, /* refusal 5, with an answer of zeros, whose outcome is no letter */
};

/* odd: the number of the channel that differs, 1 to 3, or 0. With three equal answers, whatever they hold, both numbers are 0. */
typedef struct {
    uint32_t number;
    size_t odd;
    separation_answer answer;
} separation_voted;

/* Two out of three. Answers agree when outcome and counts are the same and the bits of each float, all NaNs counting
 * as one: a NaN agrees with a NaN, and -0 not with +0. */
separation_voted separation_vote(separation_answer a, separation_answer b, separation_answer c);

/* ---- the cast */

typedef struct {
    separation_vector origin, dir;
} separation_ray;

enum separation_cast_number {
    SEPARATION_IMPACT = 0,
    SEPARATION_CAST_REFUSED = 2,   /* refusal 2 */
    SEPARATION_CAST_MALFORMED = 4, /* refusal 4: a kind of shape above 3 */
    SEPARATION_MISS = 6,
};

/* The time of the impact, in lengths of the ray's direction, and the direction there, from the first shape to the second. What is no impact has zeros. */
typedef struct {
    uint32_t number;
    float time;
    separation_vector dir;
} separation_impact;

/* When shape g2, which stands in the pose pos12 in the frame of g1, meets g1: it is moved by ray.origin and then along
 * ray.dir. No later than max_time, or it is a miss; so is a direction of no length. */
separation_impact separation_cast(
    separation_pose pos12, separation_shape g1, separation_shape g2,
    separation_ray ray, float max_time);

/* ---- the checker of a separating direction, and the proposer */

/* A corner or a direction on the cell's grid: whole numbers from -1,048,576 to 1,048,576. */
typedef struct {
    int32_t x, y, z;
} separation_grid_vector;

enum separation_certificate {
    SEPARATION_ACCEPTED = 0,
    SEPARATION_BAD_LENGTH = 9,     /* a hull does not have 1 to 64 corners */
    SEPARATION_OUT_OF_RANGE = 10,  /* a number of a hull or of the direction is not on the grid */
    SEPARATION_NOT_SEPARATED = 11, /* two corners are not strictly apart along the direction */
};

/* Whether every corner of the first hull has a strictly smaller product with the direction than every corner of the second:
 * then no point is in both hulls. A hull is its corners one after the other, three numbers each; the lengths count numbers.
 * Exact, in whole numbers, so the floating-point environment does not matter; and nothing is written. */
uint32_t separation_certify(
    const int32_t *first, size_t first_length,
    const int32_t *second, size_t second_length,
    separation_grid_vector direction);

/* A direction in floats, such as the normal of an answer, as one to certify: its largest number becomes an end of the grid.
 * Any floats are taken. A bad proposal is merely declined. */
separation_grid_vector separation_propose(separation_vector dir);

/* ---- what the library was compiled with */

SEPARATION_ASSERT(sizeof(float) == 4 && sizeof(size_t) == 8 && sizeof(bool) == 1);
SEPARATION_ASSERT(sizeof(separation_vector) == 12);
SEPARATION_ASSERT(sizeof(separation_pose) == 28 && offsetof(separation_pose, translation) == 16);
SEPARATION_ASSERT(sizeof(separation_shape) == 40 && offsetof(separation_shape, p) == 4 && offsetof(separation_shape, r) == 28);
SEPARATION_ASSERT(sizeof(separation_counts) == 40 && offsetof(separation_counts, missed) == 32);
SEPARATION_ASSERT(sizeof(separation_answer) == 80 && offsetof(separation_answer, point1) == 4);
SEPARATION_ASSERT(offsetof(separation_answer, normal) == 28 && offsetof(separation_answer, counts) == 40);
SEPARATION_ASSERT(sizeof(separation_edge) == 16 && offsetof(separation_edge, corner) == 8);
SEPARATION_ASSERT(sizeof(separation_voted) == 96 && offsetof(separation_voted, odd) == 8 && offsetof(separation_voted, answer) == 16);
SEPARATION_ASSERT(sizeof(separation_ray) == 24 && offsetof(separation_ray, dir) == 12);
SEPARATION_ASSERT(sizeof(separation_impact) == 20 && offsetof(separation_impact, dir) == 8);
SEPARATION_ASSERT(sizeof(separation_grid_vector) == 12);
SEPARATION_ASSERT(SEPARATION_STORE_BYTES(PROGRAM) == 95372 && SEPARATION_STORE_BYTES(ENOUGH) == 920722);

#ifdef __cplusplus
}
#endif
#undef SEPARATION_ASSERT

#endif
