/* The header held to the library: every size and offset as a number, and the stored frames through the header's records.
   A frame of kind 12 is taken apart into records, called, and its answer put together again from the outcome's fields: a
   field that stood elsewhere in the library would show in some answer. The answers stored beside the frames are the Rust's.
   Each call is made twice: on a thread whose stack is large and painted, so that what the call needs of it is seen, and on
   one that has the stack that the header states, one page more and below that nothing that may be touched.

       frames WHAT FRAMES ANSWERS [WHAT FRAMES ANSWERS]..

   WHAT says in a word or two whose frames these are. It compiles as C and as C++. */
#include "shared.h"

HOLDS(sizeof(contact_vec3) == 12);
LIES(contact_vec3, x, 0, 4);
LIES(contact_vec3, y, 4, 4);
LIES(contact_vec3, z, 8, 4);
HOLDS(sizeof(contact_quat) == 16);
LIES(contact_quat, v, 0, 12);
LIES(contact_quat, s, 12, 4);
HOLDS(sizeof(contact_transform) == 28);
LIES(contact_transform, p, 0, 12);
LIES(contact_transform, q, 12, 16);
HOLDS(sizeof(contact_size) == 32);
LIES(contact_size, unit, 0, 8);
LIES(contact_size, vertices, 8, 8);
LIES(contact_size, half_edges, 16, 8);
LIES(contact_size, faces, 24, 8);
HOLDS(sizeof(contact_cache) == 8);
LIES(contact_cache, separation, 0, 4);
LIES(contact_cache, kind, 4, 1);
LIES(contact_cache, index_a, 5, 1);
LIES(contact_cache, index_b, 6, 1);
LIES(contact_cache, hit, 7, 1);
HOLDS(sizeof(contact_pair) == 4);
LIES(contact_pair, owner1, 0, 1);
LIES(contact_pair, index1, 1, 1);
LIES(contact_pair, owner2, 2, 1);
LIES(contact_pair, index2, 3, 1);
HOLDS(sizeof(contact_point) == 24);
LIES(contact_point, position, 0, 12);
LIES(contact_point, separation, 12, 4);
LIES(contact_point, pair, 16, 4);
LIES(contact_point, place, 20, 1);
HOLDS(sizeof(contact_manifold) == 112);
LIES(contact_manifold, points, 0, 96);
LIES(contact_manifold, normal, 96, 12);
LIES(contact_manifold, count, 108, 1);
HOLDS(sizeof(contact_outcome) == 120);
LIES(contact_outcome, status, 0, 1);
LIES(contact_outcome, contact, 4, 112);
LIES(contact_outcome, retired, 116, 1);
HOLDS(sizeof(contact_step_result) == 16);
LIES(contact_step_result, status, 0, 1);
LIES(contact_step_result, points, 8, 8);
HOLDS(sizeof(contact_apart_result) == 2);
LIES(contact_apart_result, status, 0, 1);
LIES(contact_apart_result, apart, 1, 1);

#ifdef __cplusplus
extern "C" {
#endif
/* The same function as the machine sees it: the outcome comes back through a pointer that is handed over first. */
void *collide_into(
    void *outcome, int32_t capacity,
    const float *numbers_a, size_t numbers_a_len, const uint8_t *links_a, size_t links_a_len, contact_size size_a,
    const float *numbers_b, size_t numbers_b_len, const uint8_t *links_b, size_t links_b_len, contact_size size_b,
    contact_transform b_in_a, contact_cache *cache) __asm__("contact_collide");
#ifdef __cplusplus
}
#endif

/* ---- calls on a painted stack; what is watched lies outside it */

static struct {
    uint8_t outcome[sizeof(contact_outcome) + WATCHED];
    contact_cache cache;
    uint8_t behind_cache[WATCHED];
    uint8_t answer[CONTACT_LONGEST_ANSWER];
    uint8_t behind_answer[WATCHED];
} came;
static size_t answered;
static uint8_t rule_a, rule_b;

static void *collide(void *unused) {
    collide_into(
        came.outcome, capacity, a.numbers, a.numbers_len, a.links, a.links_len, a.size, b.numbers, b.numbers_len, b.links,
        b.links_len, b.size, b_in_a, &came.cache);
    return unused;
}

static void *judge(void *unused) {
    rule_a = contact_first_broken_rule(a.numbers, a.numbers_len, a.links, a.links_len, a.size);
    rule_b = contact_first_broken_rule(b.numbers, b.numbers_len, b.links, b.links_len, b.size);
    return unused;
}

static void *answer_frame(void *unused) {
    answered = contact_answer(frame, frame_len, came.answer, sizeof came.answer);
    return unused;
}

static stack large_stack, collide_stack, answer_stack;

enum { MOST_RULE = 9, UNITS = 4, STATUSES = 8 };

static const size_t units[UNITS] = {CONTACT_METRES, CONTACT_DECIMETRES, CONTACT_CENTIMETRES, CONTACT_MILLIMETRES};

/* Those of a call, in the order in which they are given. */
static const uint8_t statuses[STATUSES] = {
    CONTACT_ACCEPTED, CONTACT_HULL_A, CONTACT_HULL_B, CONTACT_UNITS, CONTACT_TRANSFORM, CONTACT_CACHE, CONTACT_PADDING_WON, CONTACT_CUT_FULL};

static struct {
    long calls, points[CONTACT_MAX_POINTS + 1], statuses[UINT8_MAX + 1], rules[MOST_RULE + 1], others;
    long units[UNITS]; /* accepted calls with a capacity of 4 or more by the unit of both hulls */
    long retired_marked, retired_refused, retired_small; /* by what came of a retired type; small: a capacity below 4 */
    long edge_points, places_in_order, places_not_in_order; /* contacts by their places */
    long next[2][256]; /* accepted calls by the next cache: hit, kind */
    size_t collide_stack, judge_stack, answer_stack;
} met;
static long points_met[CONTACT_MAX_POINTS + 1]; /* contacts of all files */
static size_t thread_itself;

/* Told where it is first seen, on the large stack: the one that is stated would end the program. */
static void deeper(size_t *most, size_t depth, size_t limit, long line) {
    if (depth - thread_itself > *most) *most = depth - thread_itself;
    if (*most > limit) {
        printf("  a call needs %zu bytes of stack, and %zu are stated\n", *most, limit);
        stop("more stack than is stated", line);
    }
}

/* An accepted call with a capacity of 4 or more is marked where it read a retired kind, and no other. */
static void hold_mark(const contact_outcome *outcome, long line) {
    const int retired = cache_given.kind >= 6 && cache_given.kind <= 8;
    const int small = capacity < CONTACT_MAX_POINTS, refused = outcome->status != CONTACT_ACCEPTED;
    if (outcome->retired != (retired && !small && !refused)) stop("the mark that a retired kind was read", line);
    if (!retired) return;
    if (refused) met.retired_refused++;
    else if (small) met.retired_small++;
    else met.retired_marked++;
}

/* Places differ, those at and above the count are unused, and an edge point's is 0. */
static void hold_places(const contact_manifold *contact, uint8_t next_kind, long line) {
    int i, j, in_order = 1;
    for (i = 0; i < CONTACT_MAX_POINTS; i++) {
        const uint8_t place = contact->points[i].place;
        if ((place == CONTACT_UNUSED_PLACE) != (i >= contact->count)) stop("a point without its place, or a place without its point", line);
        if (i >= contact->count) break;
        for (j = 0; j < i; j++) {
            if (contact->points[j].place == place) stop("two points of one place", line);
        }
        in_order &= place == i;
    }
    if (contact->count == 0) return;
    if (next_kind == CONTACT_EDGES && !in_order) stop("the place of an edge point", line);
    if (next_kind == CONTACT_EDGES) met.edge_points++;
    else if (in_order) met.places_in_order++;
    else met.places_not_in_order++;
}

/* Both hulls of an accepted call have one known unit. */
static void hold_unit(long line) {
    int i;
    for (i = 0; i < UNITS; i++) {
        if (a.size.unit == units[i] && b.size.unit == units[i]) {
            met.units[i]++;
            return;
        }
    }
    stop("an accepted call without one known unit", line);
}

/* Both ways to answer the frame, held to its answer, with `untouched` in all that is not to be written; on large stacks or
   on those that the header states. */
static void hold(const uint8_t *wanted, size_t wanted_len, uint8_t untouched, int large, long line) {
    const stack *to_collide = large ? &large_stack : &collide_stack;
    const stack *to_answer = large ? &large_stack : &answer_stack;
    memset(&came, untouched, sizeof came);
    if (contact_answer(frame, frame_len, came.answer, sizeof came.answer - 1) != 0) stop("an answer in too few places", line);
    if (!all_are(came.answer, sizeof came.answer, untouched)) stop("a byte written to too few places", line);
    deeper(&met.answer_stack, touched(to_answer, answer_frame), CONTACT_ANSWER_STACK, line);
    if (answered != wanted_len || memcmp(came.answer, wanted, wanted_len)) stop("contact_answer differs", line);
    if (!all_are(came.answer + answered, sizeof came.answer - answered, untouched)) stop("a byte behind the answer", line);
    if (!all_are(came.behind_answer, WATCHED, untouched)) stop("a byte behind the list", line);
    if (frame_len == 0 || frame[0] != 0x12 || wanted[0] != 0x92) {
        met.others++;
        return;
    }
    if (!call_taken()) return;
    came.cache = cache_given;
    deeper(&met.collide_stack, touched(to_collide, collide), CONTACT_COLLIDE_STACK, line);
    deeper(&met.judge_stack, touched(to_collide, judge), CONTACT_COLLIDE_STACK, line);
    contact_outcome outcome;
    memcpy(&outcome, came.outcome, sizeof outcome);
    put_answer(&outcome, came.cache);
    if (answer_len != wanted_len || memcmp(answer, wanted, wanted_len)) stop("contact_collide differs", line);
    if (!all_are(came.outcome + sizeof outcome, WATCHED, untouched)) stop("a byte behind the outcome", line);
    if (!all_are(came.behind_cache, WATCHED, untouched)) stop("a byte behind the cache", line);
    hold_mark(&outcome, line);
    hold_places(&outcome.contact, came.cache.kind, line);
    if (capacity >= CONTACT_MAX_POINTS) {
        if ((outcome.status == CONTACT_HULL_A) != (rule_a != 0)) stop("refusal 1 and the rule of A", line);
        if ((outcome.status == CONTACT_HULL_B) != (rule_a == 0 && rule_b != 0)) stop("refusal 2 and the rule of B", line);
        const int unlike = rule_a == 0 && rule_b == 0 && a.size.unit != b.size.unit;
        if ((outcome.status == CONTACT_UNITS) != unlike) stop("refusal 17 and the units", line);
    }
    met.calls++;
    met.points[outcome.contact.count]++;
    met.statuses[outcome.status]++;
    if (rule_a > MOST_RULE || rule_b > MOST_RULE) stop("a rule that is none", line);
    met.rules[rule_a]++;
    met.rules[rule_b]++;
    if (outcome.status == CONTACT_ACCEPTED && capacity >= CONTACT_MAX_POINTS) {
        met.next[came.cache.hit & 1][came.cache.kind]++;
        hold_unit(line);
    }
}

/* ---- the files */

static void most_stack(const char *what, size_t most, size_t limit) {
    printf("  stack of %s: %zu bytes of %zu\n", what, most, limit);
}

/* The frames of one file; every refusal, rule and kind of axis is to be met among them. */
static void hold_file(const char *what, const char *frames_name, const char *answers_name) {
    static uint8_t wanted[CONTACT_LONGEST_ANSWER];
    long frame_bytes, wanted_bytes;
    long number = 0;
    int i;
    FILE *frames = fopen(frames_name, "r"), *answers = fopen(answers_name, "r");
    if (!frames || !answers) {
        printf("FAILED: %s or %s cannot be read\n", frames_name, answers_name);
        exit(1);
    }
    memset(&met, 0, sizeof met);
    while (line_taken(frames, frame, sizeof frame, &frame_bytes)) {
        number++;
        if (!line_taken(answers, wanted, sizeof wanted, &wanted_bytes) || wanted_bytes < 0) stop("has no answer", number);
        if (frame_bytes < 0) continue;
        frame_len = (size_t)frame_bytes;
        hold(wanted, (size_t)wanted_bytes, 0x5a, 1, number);
        hold(wanted, (size_t)wanted_bytes, 0xc3, 0, number);
    }
    fclose(frames);
    fclose(answers);
    printf("  %s: %ld calls through the header's records and %ld other frames, twice each;", what, met.calls / 2, met.others / 2);
    printf(" points 0 to 4:");
    for (i = 0; i <= CONTACT_MAX_POINTS; i++) printf(" %ld", met.points[i] / 2);
    printf("; refusals");
    for (i = 0; i < STATUSES; i++) printf("%s %d: %ld", i ? "," : "", statuses[i], met.statuses[statuses[i]] / 2);
    printf("; accepted with units");
    for (i = 0; i < UNITS; i++) printf("%s %zu: %ld", i ? "," : "", units[i], met.units[i] / 2);
    printf("; rules 0 to %d:", MOST_RULE);
    for (i = 0; i <= MOST_RULE; i++) printf(" %ld", met.rules[i] / 2);
    printf("; retired kinds marked %ld, refused %ld, with a capacity below 4 %ld", met.retired_marked / 2, met.retired_refused / 2,
        met.retired_small / 2);
    printf("; places in order %ld, not in order %ld, of edge points %ld\n", met.places_in_order / 2, met.places_not_in_order / 2,
        met.edge_points / 2);
    printf("  next caches of kinds 2, 3 and 4 with hit 1: %ld %ld %ld, with hit 0: %ld %ld %ld\n", met.next[1][2] / 2, met.next[1][3] / 2,
        met.next[1][4] / 2, met.next[0][2] / 2, met.next[0][3] / 2, met.next[0][4] / 2);
    most_stack("contact_collide", met.collide_stack, CONTACT_COLLIDE_STACK);
    most_stack("contact_first_broken_rule", met.judge_stack, CONTACT_COLLIDE_STACK);
    most_stack("contact_answer", met.answer_stack, CONTACT_ANSWER_STACK);
    for (i = 0; i <= CONTACT_MAX_POINTS; i++) points_met[i] += met.points[i];
    for (i = 0; i < STATUSES; i++) {
        if (!met.statuses[statuses[i]]) stop("a refusal was never met", number);
    }
    for (i = 0; i < UNITS; i++) {
        if (!met.units[i]) stop("a unit was never met", number);
    }
    for (i = 0; i <= MOST_RULE; i++) {
        if (!met.rules[i]) stop("a rule was never met", number);
    }
    for (i = 2; i <= 4; i++) {
        if (!met.next[0][i] || !met.next[1][i]) stop("a kind of axis was never found, or never served again", number);
    }
    if (!met.places_in_order || !met.places_not_in_order || !met.edge_points) stop("a way of the places was never met", number);
    if (!met.retired_marked || !met.retired_refused || !met.retired_small) stop("a way of a retired kind was never met", number);
}

/* The header's lengths by the unit have the bits that document 02 asks for. */
static void hold_limits(void) {
    static const uint32_t limits[UNITS][5] = {
        {0x45800000, 0x46000000, 0x3a800000, 0x3ba3d70a, 0x3ca3d70a},
        {0x47200000, 0x47a00000, 0x3c200000, 0x3d4ccccc, 0x3e4ccccc},
        {0x48c80000, 0x49480000, 0x3dc80000, 0x3f000000, 0x40000000},
        {0x4a7a0000, 0x4afa0000, 0x3f7a0000, 0x40a00000, 0x41a00000},
    };
    int i, j;
    for (i = 0; i < UNITS; i++) {
        const float own[5] = {
            contact_farthest(units[i]), contact_farthest_offset(units[i]), contact_shortest_edge(units[i]), contact_slop(units[i]),
            contact_speculative_distance(units[i])};
        for (j = 0; j < 5; j++) {
            if (memcmp(&own[j], &limits[i][j], sizeof own[j])) stop("a limit of a unit", 0);
        }
    }
}

int main(int count, char **words) {
    const size_t page = (size_t)sysconf(_SC_PAGESIZE);
    int i;
    if (count < 4 || count % 3 != 1) {
        printf("usage: frames WHAT FRAMES ANSWERS [WHAT FRAMES ANSWERS]..\n");
        return 2;
    }
    if (contact_abi() != CONTACT_ABI) stop("the library has another ABI than the header", 0);
    for (i = 0; i <= UINT8_MAX; i++) {
        int given = i <= CONTACT_CUT_FULL || i == CONTACT_OWNER || i == CONTACT_UNITS || i == CONTACT_NO_ROOM;
        if ((contact_status_text((uint8_t)i) != NULL) != given) stop("words for a number that is never given, or none for one that is", 0);
        if ((contact_status_remedy((uint8_t)i) != NULL) != given) stop("a remedy for a number that is never given, or none for one that is", 0);
        if ((contact_rule_text((uint8_t)i) != NULL) != (i <= MOST_RULE)) stop("words for a rule that is none, or none for one that is", 0);
        if ((contact_rule_remedy((uint8_t)i) != NULL) != (i <= MOST_RULE)) stop("a remedy for a rule that is none, or none for one that is", 0);
    }
    hold_limits();
    large_stack = stack_of(LARGE_STACK);
    collide_stack = stack_of(CONTACT_COLLIDE_STACK + page);
    answer_stack = stack_of(CONTACT_ANSWER_STACK + page);
    thread_itself = touched(&large_stack, nothing);
    for (i = 1; i < count; i += 3) hold_file(words[i], words[i + 1], words[i + 2]);
    for (i = 0; i <= CONTACT_MAX_POINTS; i++) {
        if (!points_met[i]) stop("a number of points was never met", 0);
    }
    printf("  all of it also on threads of %zu and %zu bytes of stack: what is stated and one page\n", collide_stack.size, answer_stack.size);
    return 0;
}
