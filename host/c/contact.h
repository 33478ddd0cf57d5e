/* contact.h - the proved contact routine for convex hulls, for hosts in C and C++.

   Two hulls, where B lies in A's frame and a small cache go in; a normal, at most four tagged points and the next cache
   come out. Every function is proved to end without a fault whatever the numbers that it is handed are: input that breaks a
   rule is refused by a number. docs/RULES.md has the rules, the refusals and the layouts.

   What a host must know:
   - Units: a hull says in which unit its lengths are, 1, 10, 100 or 1000 to the metre (contact_size, unit), and both hulls of a
     call have the same. The transform's position and all that comes out is in that unit and in A's frame; separations are
     below zero where the hulls overlap. Limits and tolerances go by the unit: contact_farthest and those beside it.
   - Memory: a pointer with a length points to that many elements, aligned as C aligns them, or is NULL where the length is
     0. `cache` is never NULL. Nothing is kept after a call, nothing is allocated. What is written (`cache`, `answer`; `judged`,
     `caches`, `floats` and `bytes` of a step) overlaps nothing that is lent beside it. Lists that are only read may be the same.
   - Threads: the functions have no state; any number of threads may call them, each with its own cache and answer.
   - Stack: CONTACT_COLLIDE_STACK, CONTACT_STEP_STACK and CONTACT_ANSWER_STACK bytes at the most, beside what the caller needs
     itself, however many hulls and pairs a step has.
   - A yes or a no: contact_apart says whether two hulls are apart, without a cache and without points.
   - Many pairs: contact_step judges each hull once and answers a list of pairs; call by call each hull is judged in each of
     its pairs. Number hulls by place, so that those which meet lie near each other in memory.
   - Floating point: the default environment of C: round to nearest, no flush to zero, no denormals as zero (MXCSR 1f80).
     With another rounding the answers are others.
   - Platform: x86-64 Linux (System V calls). Link libcontactlib.a; beside it only memcpy and memset are needed.
   - Version: compare contact_abi() with CONTACT_ABI before anything else, and stop where they differ: the records would be
     misread in silence. */
#ifndef CONTACT_H
#define CONTACT_H

#include <stddef.h>
#include <stdint.h>
#include <string.h>

#ifdef __cplusplus
extern "C" {
#endif

/* The number of these records and functions. It goes up with every function more, and with every change of a record, of a
   function's parameters, or of what a number in them means. */
#define CONTACT_ABI 7

/* The most points of a contact, and the least capacity with which a call does any work. */
#define CONTACT_MAX_POINTS 4

/* The place of a point that is not used. */
#define CONTACT_UNUSED_PLACE 255

/* The most bytes of an answer to a frame. */
#define CONTACT_LONGEST_ANSWER 108

/* Bytes of stack that a call needs at the most, whatever the hulls are; contact_first_broken_rule and contact_apart need less than
   contact_collide. */
#define CONTACT_COLLIDE_STACK (24 * 1024)
#define CONTACT_STEP_STACK (24 * 1024)
#define CONTACT_ANSWER_STACK (32 * 1024)

/* ---- what a call is handed */

typedef struct {
    float x, y, z;
} contact_vec3;

/* A rotation as a unit quaternion; its squares sum to 0.99 to 1.01. */
typedef struct {
    contact_vec3 v;
    float s; /* the scalar part */
} contact_quat;

/* Where B lies in A's frame: turned by q, then moved by p. */
typedef struct {
    contact_vec3 p; /* in the hulls' unit, within contact_farthest on each axis */
    contact_quat q;
} contact_transform;

/* How many of a hull's length unit make a metre. Any other number breaks H1. */
enum contact_unit {
    CONTACT_METRES = 1,
    CONTACT_DECIMETRES = 10,
    CONTACT_CENTIMETRES = 100,
    CONTACT_MILLIMETRES = 1000
};

/* The length unit of a hull, and how many vertices, half-edges and faces it has. */
typedef struct {
    size_t unit;       /* enum contact_unit */
    size_t vertices;   /* V, 4 to 128 */
    size_t half_edges; /* H, even, 12 to 256 */
    size_t faces;      /* F, 4 to 128 */
} contact_size;

/* Lengths by the unit, a number of enum contact_unit: the limit of coordinates, padding, boxes and positions; that of offsets;
   the least distance on some axis between the ends of an edge; within which difference a cached axis serves again (0.005 m); and
   from which distance on there are no points (0.02 m). The last two are rounded products, the others exact. */
static inline float contact_farthest(size_t unit) { return 4096.0f * (float)unit; }
static inline float contact_farthest_offset(size_t unit) { return 8192.0f * (float)unit; }
static inline float contact_shortest_edge(size_t unit) { return (float)unit / 1024.0f; }
static inline float contact_slop(size_t unit) { return 0.005f * (float)unit; }
static inline float contact_speculative_distance(size_t unit) { return 4.0f * contact_slop(unit); }

/* A hull is two lists, its unit and its sizes.
   numbers: box low x, y, z; box high x, y, z; the x of every vertex, then every y, then every z, each of the three lists
   padded to a multiple of four places (fill the padding with vertex 0); then for each face its outward unit normal x, y, z
   and its offset, the dot of the normal with any corner of the face.
   links: for each vertex a half-edge that starts there; for each half-edge its next, its twin, its origin and its face, a
   byte each; for each face one of its half-edges. A face's ring goes counter-clockwise as seen from outside, and half-edges
   2k and 2k + 1 are twins. All faces are of one closed shell without a hole through it. All numbers but the normals are
   lengths in the hull's unit. */

/* How many numbers and links a hull of these sizes has; of sizes that no hull can have the result means nothing. */
static inline size_t contact_numbers_len(contact_size size) {
    return 6 + 3 * ((size.vertices + 3) / 4 * 4) + 4 * size.faces;
}

static inline size_t contact_links_len(contact_size size) {
    return size.vertices + 4 * size.half_edges + size.faces;
}

/* 1 and 5 to 255 act as CONTACT_NOTHING. Of these 6, 7 and 8 are retired: saved runs still hold them, and an outcome says
   that one was read (contact_outcome, retired). */
enum contact_kind {
    CONTACT_NOTHING = 0,   /* no axis: every axis is searched */
    CONTACT_FACE_OF_A = 2, /* index_a: the face */
    CONTACT_FACE_OF_B = 3, /* index_b: the face */
    CONTACT_EDGES = 4      /* index_a, index_b: the even half-edge of each edge */
};

/* The axis that the last call found. One for each pair of hulls, all zero before the first call; a call that is accepted
   leaves the next one in its place, one that is refused keeps every bit. */
typedef struct {
    uint32_t separation; /* the bits of a float, in the hulls' unit: contact_separation reads it */
    uint8_t kind;        /* enum contact_kind, or any other number */
    uint8_t index_a;
    uint8_t index_b;
    uint8_t hit; /* 1 where the last call was served by the axis of the one before, else 0 */
} contact_cache;

static inline float contact_separation(contact_cache cache) {
    float separation;
    memcpy(&separation, &cache.separation, sizeof separation);
    return separation;
}

/* ---- what comes out */

/* The tag of a point, the same from step to step while the same features meet: two half-edges. */
typedef struct {
    uint8_t owner1; /* 0: a half-edge of hull A, 1: of hull B */
    uint8_t index1; /* its number */
    uint8_t owner2;
    uint8_t index2;
} contact_pair;

typedef struct {
    contact_vec3 position; /* in A's frame and in the hulls' unit */
    float separation;      /* in that unit, below zero where the hulls overlap there */
    contact_pair pair;
    uint8_t place; /* which candidate it was: its place, 0 to 63, in the list of candidates as it stood before any pick. Two
                      points of one contact never have the same, though two candidates may carry one tag. 0 of an edge
                      point, CONTACT_UNUSED_PLACE at and above count */
} contact_point;

typedef struct {
    contact_point points[CONTACT_MAX_POINTS]; /* at and above count zero but for the place */
    contact_vec3 normal;                      /* from A to B, of length 1; zero where count is 0 */
    uint8_t count;                            /* 0 to 4 */
} contact_manifold;

enum contact_status {
    CONTACT_ACCEPTED = 0,
    CONTACT_HULL_A = 1,
    CONTACT_HULL_B = 2,
    CONTACT_TRANSFORM = 3,
    CONTACT_CACHE = 4,
    CONTACT_PADDING_WON = 5,
    CONTACT_CUT_FULL = 6,
    CONTACT_OWNER = 8,   /* of a frame of kind 11 alone; the number before it has ended and is given to nothing */
    CONTACT_UNITS = 17,  /* given after CONTACT_HULL_B and before CONTACT_TRANSFORM */
    CONTACT_NO_ROOM = 21 /* of a whole step alone: nothing was written */
};

/* The bytes between the fields are not set: compare fields, not memory. */
typedef struct {
    uint8_t status;           /* enum contact_status */
    contact_manifold contact; /* empty where the call was refused */
    uint8_t retired;          /* 1: accepted, with a capacity of 4 or more, and the kind that was read is retired; else 0 */
} contact_outcome;

/* The answer to a question. */
typedef struct {
    uint8_t status; /* CONTACT_ACCEPTED; or CONTACT_HULL_A, CONTACT_HULL_B, CONTACT_UNITS, CONTACT_TRANSFORM, the first that applies */
    uint8_t apart;  /* 1 where the hulls are apart; else 0, as with every refusal */
} contact_apart_result;

/* ---- a step: many pairs in one call

   A step is lent lists of plain numbers, so that a host in any language can make them. What stands behind the last whole hull
   or pair of a list is not looked at, and places behind those that are written keep what they held. */

/* How many places of its list each of them takes. */
#define CONTACT_HULL_WORDS 6       /* hulls: where its numbers begin in `numbers`, where its links begin in `links`, unit, V, H, F */
#define CONTACT_PAIR_WORDS 2       /* pairs: the number of hull A and that of hull B, counted from 0 */
#define CONTACT_TRANSFORM_FLOATS 7 /* transforms: B in A's frame, the fields of a contact_transform in their order */
#define CONTACT_CACHE_WORDS 2      /* caches: the bytes of a contact_cache as they lie in memory */
#define CONTACT_PAIR_FLOATS 19     /* floats: normal x, y, z, then four times position x, y, z and separation */
#define CONTACT_PAIR_BYTES 24      /* bytes: enum contact_byte */

/* Where each stands in the CONTACT_PAIR_BYTES of a pair. The one byte that is not named is 0. */
enum contact_byte {
    CONTACT_BYTE_STATUS = 0,  /* enum contact_status of this pair, never CONTACT_NO_ROOM */
    CONTACT_BYTE_COUNT = 1,   /* how many points, 0 to 4 */
    CONTACT_BYTE_RETIRED = 2, /* as contact_outcome has it */
    CONTACT_BYTE_TAGS = 4,    /* four times owner1, index1, owner2, index2 */
    CONTACT_BYTE_PLACES = 20  /* four places; CONTACT_UNUSED_PLACE at and above count */
};

typedef struct {
    uint8_t status; /* CONTACT_ACCEPTED, or CONTACT_NO_ROOM where a list has no room for the hulls and the pairs */
    size_t points;  /* the points of all pairs together; 0 with CONTACT_NO_ROOM */
} contact_step_result;

/* A number as a word. One that no word holds becomes the largest word: in lists of fewer places than that nothing begins there and
   nothing is so long, so the step notes the hull as broken. */
static inline uint32_t contact_word(size_t number) { return number < UINT32_MAX ? (uint32_t)number : UINT32_MAX; }

/* The words of a hull whose numbers and links begin at these places of the step's lists. */
static inline void contact_put_hull(uint32_t *words, size_t numbers_at, size_t links_at, contact_size size) {
    words[0] = contact_word(numbers_at);
    words[1] = contact_word(links_at);
    words[2] = contact_word(size.unit);
    words[3] = contact_word(size.vertices);
    words[4] = contact_word(size.half_edges);
    words[5] = contact_word(size.faces);
}

/* What a step wrote of a pair, as contact_collide would have returned it. `floats` and `bytes` are the step's whole lists. */
static inline contact_outcome contact_pair_outcome(const float *floats, const uint8_t *bytes, size_t pair) {
    contact_outcome outcome;
    int i;
    floats += CONTACT_PAIR_FLOATS * pair;
    bytes += CONTACT_PAIR_BYTES * pair;
    outcome.status = bytes[CONTACT_BYTE_STATUS];
    outcome.contact.count = bytes[CONTACT_BYTE_COUNT];
    outcome.retired = bytes[CONTACT_BYTE_RETIRED];
    outcome.contact.normal.x = floats[0];
    outcome.contact.normal.y = floats[1];
    outcome.contact.normal.z = floats[2];
    for (i = 0; i < CONTACT_MAX_POINTS; i++) {
        contact_point *point = &outcome.contact.points[i];
        const float *numbers = floats + 3 + 4 * i;
        const uint8_t *tag = bytes + CONTACT_BYTE_TAGS + 4 * i;
        point->position.x = numbers[0];
        point->position.y = numbers[1];
        point->position.z = numbers[2];
        point->separation = numbers[3];
        point->pair.owner1 = tag[0];
        point->pair.index1 = tag[1];
        point->pair.owner2 = tag[2];
        point->pair.index2 = tag[3];
        point->place = bytes[CONTACT_BYTE_PLACES + i];
    }
    return outcome;
}

/* ---- the functions */

/* The number of the library that is linked. */
uint32_t contact_abi(void);

/* One call. capacity: room for points, CONTACT_MAX_POINTS; with less the call is accepted, has no points and looks at
   nothing else. b_in_a: where B lies in A's frame, in the unit of both hulls. cache: not NULL; it becomes the next cache, or
   keeps every bit where the call is refused. The two hulls may be the same lists. */
contact_outcome contact_collide(
    int32_t capacity,
    const float *numbers_a, size_t numbers_a_len, const uint8_t *links_a, size_t links_a_len, contact_size size_a,
    const float *numbers_b, size_t numbers_b_len, const uint8_t *links_b, size_t links_b_len, contact_size size_b,
    contact_transform b_in_a, contact_cache *cache);

/* Whether hull A and hull B, B placed in A's frame, are apart: a yes where some axis, a face of A, a face of B or a pair of edges,
   has them strictly farther from each other than contact_speculative_distance of their unit. It is the same yes as that of a call
   with a cache of CONTACT_NOTHING that ends without points and with such an axis in its next cache. A no says that no axis has
   them so far apart; a call may still find no points. Refused for the first four reasons of a call and for no other: padding that
   reaches farther than every vertex is none. There is no cache, nothing is written, and nothing is asked of the caller but memory
   that is there. The two hulls may be the same lists. */
contact_apart_result contact_apart(
    const float *numbers_a, size_t numbers_a_len, const uint8_t *links_a, size_t links_a_len, contact_size size_a,
    const float *numbers_b, size_t numbers_b_len, const uint8_t *links_b, size_t links_b_len, contact_size size_b,
    contact_transform b_in_a);

/* The number of the first rule that a hull breaks, 1 to 9 for H1 to H9, 0 if none. With a capacity of 4 or more
   contact_collide gives CONTACT_HULL_A exactly where this is not 0 of hull A, and CONTACT_HULL_B exactly where it is 0 of A
   and not 0 of B. Of any lists and sizes; nothing is written. */
uint8_t contact_first_broken_rule(
    const float *numbers, size_t numbers_len, const uint8_t *links, size_t links_len, contact_size size);

/* Many pairs of many hulls in one call. Of each pair the answer and the next cache are those of contact_collide with a capacity of
   CONTACT_MAX_POINTS on its two hulls, transform and cache; a hull number that is none is CONTACT_HULL_A or CONTACT_HULL_B, and a
   pair that is refused has an empty contact and keeps every bit of its cache.
   numbers, links: the lists of all hulls, each hull's anywhere in them; two hulls may have the same, or overlap.
   hulls, pairs, transforms: read; CONTACT_HULL_WORDS words a hull, CONTACT_PAIR_WORDS words and CONTACT_TRANSFORM_FLOATS floats a
   pair. An array of contact_transform is such a list: (const float *)transforms.
   judged: written, a byte a hull: the number of the first rule that it breaks, 0 if none; 1 too where its lists do not lie inside
   numbers and links. What stood there is never believed.
   caches: read and written, CONTACT_CACHE_WORDS words a pair. An array of contact_cache is such a list: (uint32_t *)caches.
   floats, bytes: written, CONTACT_PAIR_FLOATS floats and CONTACT_PAIR_BYTES bytes a pair; contact_pair_outcome reads them.
   Where judged, transforms, caches, floats or bytes is shorter than that, the status is CONTACT_NO_ROOM and nothing is written. */
contact_step_result contact_step(
    const float *numbers, size_t numbers_len, const uint8_t *links, size_t links_len,
    const uint32_t *hulls, size_t hulls_len, const uint32_t *pairs, size_t pairs_len,
    const float *transforms, size_t transforms_len, uint8_t *judged, size_t judged_len,
    uint32_t *caches, size_t caches_len, float *floats, size_t floats_len, uint8_t *bytes, size_t bytes_len);

/* The answer to one frame in bytes (docs/RULES.md, "Frames"), as the program gives it: how many bytes it has, which stand
   first in answer; what stands behind them is kept. Where answer_len is below CONTACT_LONGEST_ANSWER, 0, and nothing is
   written. */
size_t contact_answer(const uint8_t *frame, size_t frame_len, uint8_t *answer, size_t answer_len);

/* ---- in words, for people: what a number means, and what to do about it. NULL for a number that has none. */

static inline const char *contact_status_text(uint8_t status) {
    switch (status) {
    case CONTACT_ACCEPTED: return "accepted";
    case CONTACT_HULL_A: return "hull A breaks a rule";
    case CONTACT_HULL_B: return "hull B breaks a rule";
    case CONTACT_UNITS: return "the two hulls have different length units";
    case CONTACT_TRANSFORM: return "the transform is not finite, farther than 4096 * unit on an axis, or no rotation";
    case CONTACT_CACHE: return "the cache names a face or an edge that its hull does not have";
    case CONTACT_PADDING_WON: return "a padding lane reaches farther than every vertex";
    case CONTACT_CUT_FULL: return "a cut would put out a 65th vertex";
    case CONTACT_OWNER: return "the pair to be flipped has an owner above 1";
    case CONTACT_NO_ROOM: return "a list that is lent has too few places for the hulls and pairs";
    default: return NULL;
    }
}

static inline const char *contact_status_remedy(uint8_t status) {
    switch (status) {
    case CONTACT_ACCEPTED: return "nothing";
    case CONTACT_HULL_A:
    case CONTACT_HULL_B: return "ask for the rule that it breaks, and mend the hull";
    case CONTACT_UNITS: return "bring both hulls to one unit: multiply box, coordinates and offsets of one of them, and set its unit";
    case CONTACT_TRANSFORM: return "give B's place in A's frame and unit, and normalize the quaternion every few steps";
    case CONTACT_CACHE: return "start this pair from an empty cache; a cache belongs to one pair of hulls";
    case CONTACT_PADDING_WON: return "fill the padding with vertex 0";
    case CONTACT_CUT_FULL: return "give the two faces fewer sides";
    case CONTACT_OWNER: return "an owner is 0 for hull A or 1 for hull B";
    case CONTACT_NO_ROOM: return "lend for each hull a place of judged, and for each pair 7 of transforms, 2 of caches, 19 of floats, 24 of bytes";
    default: return NULL;
    }
}

static inline const char *contact_rule_text(uint8_t rule) {
    switch (rule) {
    case 0: return "no rule is broken";
    case 1: return "the unit is not 1, 10, 100 or 1000, a size is outside its limits, or a list has not the length that the sizes ask for";
    case 2: return "a stored number of a vertex, a half-edge or a face is out of range";
    case 3: return "half-edges 2k and 2k+1 are not each other's twin";
    case 4: return "a half-edge's next has another face, or does not start where the half-edge ends";
    case 5: return "two half-edges have the same next";
    case 6: return "a face's stored edge is not its own, or its ring is shorter than 3 or misses a half-edge";
    case 7: return "a vertex's stored edge starts elsewhere, or its fan misses a half-edge that starts there";
    case 8: return "a number is not finite or beyond its limit, a normal is not of length 1, or an edge is too short";
    case 9: return "there are two shells or more, or the one has a hole through it: V - H/2 + F is not 2";
    default: return NULL;
    }
}

static inline const char *contact_rule_remedy(uint8_t rule) {
    switch (rule) {
    case 0: return "nothing";
    case 1: return "keep to unit 1, 10, 100 or 1000, V 4 to 128, H even and 12 to 256, F 4 to 128, and look at the lists' lengths";
    case 2: return "look for a stored number at or above V, H or F";
    case 3: return "number the two half-edges of each edge side by side, the first of them even";
    case 4: return "go round every face counter-clockwise as seen from outside, each side from the end of the last";
    case 5: return "give every half-edge a next of its own";
    case 6: return "store for each face a half-edge of its ring, and give a face with two rings two numbers";
    case 7: return "store for each vertex a half-edge that starts there, and give a corner where two fans meet two vertices";
    case 8: return "keep coordinates, padding, box within 4096 * unit, offsets within 8192 * unit, vertices in the box, edges from unit / 1024 on";
    case 9: return "give each closed shell a record of its own, and cut a solid with a hole into pieces without one";
    default: return NULL;
    }
}

#ifdef __cplusplus
}
#endif

#endif
