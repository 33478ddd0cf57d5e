/* stack.c - drops twelve logs into a cradle of three boards and lets them settle.

       cc stack.c -o stack $(pkg-config --cflags --libs contact) -lm

   Each step all pairs go through one call: contact_step judges every hull once, and answers each pair with its points and its
   next cache. The simulator here is small, but it is one: logs fall, are pushed apart along the normals that the step tells, and
   rub on each other; they move and do not turn. */
#define _POSIX_C_SOURCE 200809L
#include "logs.h"

#include <stdio.h>
#include <stdlib.h>
#include <time.h>

enum { BOARDS = 3, LOGS = 12, BODIES = BOARDS + LOGS, MOST_PAIRS = BODIES * BODIES, ROUNDS = 30, STILL = 12 };

static const float step = 1 / 120.0f, gravity = 9.81f, friction = 0.25f;
/* what may overlap is pushed apart at this share of its depth a step, down to this depth; slower than that is at rest */
static const float pushed = 0.2f, left = 0.0005f, slow = 0.002f;

/* A board of the cradle, which does not move, or a log. */
typedef struct {
    contact_vec3 place;
    contact_quat turn;
    contact_vec3 speed;
    float moves; /* 1 of a log, 0 of a board */
} body;

/* A pair with points: its normal, turned into the world's frame, and how near the two are; what it was pushed and rubbed so far. */
typedef struct {
    int a, b;
    contact_vec3 normal;
    float gap, push;
    contact_vec3 rub;
} touch;

/* ---- the lists of a step */

static float numbers[BODIES * MOST_NUMBERS];
static uint8_t links[BODIES * MOST_LINKS];
static size_t numbers_len, links_len;
static uint32_t hulls[BODIES * CONTACT_HULL_WORDS], pairs[MOST_PAIRS * CONTACT_PAIR_WORDS];
static size_t pair_count;
static contact_transform transforms[MOST_PAIRS];
static contact_cache caches[MOST_PAIRS]; /* empty at first */
static uint8_t judged[BODIES], bytes[MOST_PAIRS * CONTACT_PAIR_BYTES];
static float floats[MOST_PAIRS * CONTACT_PAIR_FLOATS];

static body bodies[BODIES];
static touch touches[MOST_PAIRS];
static int touch_count;

/* The next hull, by a copy of its lists behind the last. */
static void add_hull(int number, const hull *made) {
    const size_t numbers_more = contact_numbers_len(made->size), links_more = contact_links_len(made->size);
    contact_put_hull(hulls + CONTACT_HULL_WORDS * number, numbers_len, links_len, made->size);
    memcpy(numbers + numbers_len, made->numbers, numbers_more * sizeof numbers[0]);
    memcpy(links + links_len, made->links, links_more);
    numbers_len += numbers_more;
    links_len += links_more;
}

/* ---- vectors */

static contact_vec3 vec3(float x, float y, float z) {
    const contact_vec3 v = {x, y, z};
    return v;
}
static contact_vec3 add(contact_vec3 a, contact_vec3 b) { return vec3(a.x + b.x, a.y + b.y, a.z + b.z); }
static contact_vec3 sub(contact_vec3 a, contact_vec3 b) { return vec3(a.x - b.x, a.y - b.y, a.z - b.z); }
static contact_vec3 scaled(contact_vec3 v, float by) { return vec3(v.x * by, v.y * by, v.z * by); }
static float dot(contact_vec3 a, contact_vec3 b) { return a.x * b.x + a.y * b.y + a.z * b.z; }
static contact_vec3 cross(contact_vec3 a, contact_vec3 b) {
    return vec3(a.y * b.z - a.z * b.y, a.z * b.x - a.x * b.z, a.x * b.y - a.y * b.x);
}
static contact_vec3 turned(contact_quat q, contact_vec3 v) {
    const contact_vec3 across = add(cross(q.v, v), scaled(v, q.s));
    return add(v, scaled(cross(q.v, across), 2));
}

/* B's place and turn in A's frame. */
static contact_transform seen_from(const body *a, const body *b) {
    const contact_quat q = {scaled(a->turn.v, -1), a->turn.s}, r = b->turn;
    contact_transform seen;
    seen.p = turned(q, sub(b->place, a->place));
    seen.q.v = add(add(cross(q.v, r.v), scaled(r.v, q.s)), scaled(q.v, r.s));
    seen.q.s = q.s * r.s - dot(q.v, r.v);
    return seen;
}

/* ---- the scene */

static void make_scene(void) {
    static const float boards[BOARDS][5] = {{6, 1.6f, 0.2f, 0, -0.1f}, {6, 0.1f, 1.6f, -0.7f, 0.7f}, {6, 0.1f, 1.6f, 0.7f, 0.7f}};
    static hull made;
    for (int i = 0; i < BOARDS; i++) {
        const float *board = boards[i];
        make_board(&made, board[0], board[1], board[2]);
        add_hull(i, &made);
        bodies[i].place = vec3(0, board[3], board[4]);
        bodies[i].turn.s = 1;
    }
    /* by place, from below: logs that meet stand near each other in the lists */
    for (int i = 0; i < LOGS; i++) {
        body *log = &bodies[BOARDS + i];
        const int row = i / 4, column = i % 4;
        const float roll = 0.07f * (float)i, yaw = 0.004f * (float)(i % 5), size = sqrtf(roll * roll + yaw * yaw + 1);
        make_log(&made, 0.13f + 0.01f * (float)(i % 3), 4);
        add_hull(BOARDS + i, &made);
        log->place = vec3(0.05f * (float)column, -0.45f + 0.3f * (float)column + (row % 2 == 1 ? 0.05f : -0.02f), 0.6f + 0.45f * (float)row);
        log->turn.v = vec3(roll / size, 0, yaw / size);
        log->turn.s = 1 / size;
        log->moves = 1;
    }
    for (uint32_t b = BOARDS; b < BODIES; b++) {
        for (uint32_t a = 0; a < b; a++) {
            pairs[CONTACT_PAIR_WORDS * pair_count] = a;
            pairs[CONTACT_PAIR_WORDS * pair_count + 1] = b;
            pair_count++;
        }
    }
}

/* ---- a step */

static double seconds(void) {
    struct timespec now;
    clock_gettime(CLOCK_MONOTONIC, &now);
    return (double)now.tv_sec + 1e-9 * (double)now.tv_nsec;
}

/* Ends the program where a pair was refused: says why, by which rule, and what to do. */
static void stop_where_refused(size_t pair) {
    const uint8_t status = bytes[CONTACT_PAIR_BYTES * pair + CONTACT_BYTE_STATUS];
    const uint32_t *named = pairs + CONTACT_PAIR_WORDS * pair;
    if (status == CONTACT_ACCEPTED) return;
    fprintf(stderr, "pair %zu, of hulls %u and %u: refusal %d: %s; what to do: %s\n", pair, (unsigned)named[0], (unsigned)named[1], status,
        contact_status_text(status), contact_status_remedy(status));
    if (status == CONTACT_HULL_A || status == CONTACT_HULL_B) {
        const uint8_t rule = judged[named[status - CONTACT_HULL_A]];
        fprintf(stderr, "H%d is broken: %s; what to do: %s\n", rule, contact_rule_text(rule), contact_rule_remedy(rule));
    }
    exit(1);
}

/* All pairs in one call; those with points become touches. Adds to *time what the call took; returns how many points there are. */
static size_t find_touches(double *time) {
    for (size_t k = 0; k < pair_count; k++) {
        transforms[k] = seen_from(&bodies[pairs[CONTACT_PAIR_WORDS * k]], &bodies[pairs[CONTACT_PAIR_WORDS * k + 1]]);
    }
    const double start = seconds();
    const contact_step_result stepped = contact_step(
        numbers, numbers_len, links, links_len, hulls, BODIES * CONTACT_HULL_WORDS, pairs, pair_count * CONTACT_PAIR_WORDS,
        (const float *)transforms, pair_count * CONTACT_TRANSFORM_FLOATS, judged, BODIES,
        (uint32_t *)caches, pair_count * CONTACT_CACHE_WORDS, floats, pair_count * CONTACT_PAIR_FLOATS,
        bytes, pair_count * CONTACT_PAIR_BYTES);
    *time += seconds() - start;
    if (stepped.status != CONTACT_ACCEPTED) {
        fprintf(stderr, "refusal %d: %s\n", stepped.status, contact_status_text(stepped.status));
        exit(1);
    }
    touch_count = 0;
    for (size_t k = 0; k < pair_count; k++) {
        stop_where_refused(k);
        const contact_outcome outcome = contact_pair_outcome(floats, bytes, k);
        if (outcome.contact.count == 0) continue;
        touch *found = &touches[touch_count++];
        found->a = (int)pairs[CONTACT_PAIR_WORDS * k];
        found->b = (int)pairs[CONTACT_PAIR_WORDS * k + 1];
        found->normal = turned(bodies[found->a].turn, outcome.contact.normal);
        found->gap = outcome.contact.points[0].separation;
        for (int i = 1; i < outcome.contact.count; i++) {
            if (outcome.contact.points[i].separation < found->gap) found->gap = outcome.contact.points[i].separation;
        }
        found->push = 0;
        found->rub = vec3(0, 0, 0);
    }
    return stepped.points;
}

/* Falls, is pushed and rubbed by what it touches, and moves for the time of a step. */
static void move_on(void) {
    for (int i = 0; i < BODIES; i++) bodies[i].speed.z -= bodies[i].moves * (gravity * step);
    for (int round = 0; round < ROUNDS; round++) {
        for (int i = 0; i < touch_count; i++) {
            touch *at = &touches[i];
            body *a = &bodies[at->a], *b = &bodies[at->b];
            const float shares = a->moves + b->moves;
            /* as fast as they may come nearer, or should part */
            const float wanted = at->gap > 0 ? -at->gap / step : at->gap < -left ? -pushed * (at->gap + left) / step : 0;
            const contact_vec3 apart = sub(b->speed, a->speed);
            const float parting = dot(at->normal, apart);
            float push = at->push + (wanted - parting) / shares;
            if (!(push > 0)) push = 0;
            const contact_vec3 along = sub(apart, scaled(at->normal, parting));
            contact_vec3 rub = sub(at->rub, scaled(along, 1 / shares));
            const float length = sqrtf(dot(rub, rub)), most = friction * push;
            if (length > most) rub = scaled(rub, most / length);
            const contact_vec3 more = add(scaled(at->normal, push - at->push), sub(rub, at->rub));
            at->push = push;
            at->rub = rub;
            a->speed = sub(a->speed, scaled(more, a->moves));
            b->speed = add(b->speed, scaled(more, b->moves));
        }
    }
    for (int i = 0; i < BODIES; i++) bodies[i].place = add(bodies[i].place, scaled(bodies[i].speed, step));
}

/* ---- in words */

static void print_name(int number) {
    static const char *const boards[BOARDS] = {"the floor", "the left board", "the right board"};
    if (number < BOARDS) printf("%s", boards[number]);
    else printf("log %d", number - BOARDS);
}

/* No zero below zero. */
static double tidy(double x) { return fabs(x) < 0.0005 ? 0 : x; }

static void print_rest(int number) {
    const contact_vec3 at = bodies[number].place;
    const char *before = " ";
    printf("  ");
    print_name(number);
    printf(" at (%.3f, %.3f, %.3f) m touches", tidy(at.x), tidy(at.y), tidy(at.z));
    for (int i = 0; i < touch_count; i++) {
        if (touches[i].a != number && touches[i].b != number) continue;
        printf("%s", before);
        print_name(touches[i].a + touches[i].b - number);
        before = ", ";
    }
    printf("\n");
}

int main(void) {
    if (contact_abi() != CONTACT_ABI) {
        fprintf(stderr, "libcontactlib.a has ABI %u and contact.h has %u: take both from the same release\n",
            (unsigned)contact_abi(), (unsigned)CONTACT_ABI);
        return 1;
    }
    double time = 0;
    int still = 0;
    make_scene();
    printf("%d logs above a cradle of %d boards: %d hulls, %zu pairs\n", LOGS, BOARDS, BODIES, pair_count);
    for (int steps = 1; steps <= 1200; steps++) {
        const size_t points = find_touches(&time);
        if (steps == 1 || steps % 20 == 0) {
            float highest = 0;
            int hits = 0;
            for (int i = BOARDS; i < BODIES; i++) highest = bodies[i].place.z > highest ? bodies[i].place.z : highest;
            for (size_t k = 0; k < pair_count; k++) hits += caches[k].hit != 0;
            printf("step %d: %zu points in %d contacts, %d pairs served by the step before; the highest log at %.3f m\n", steps, points,
                touch_count, hits, highest);
        }
        move_on();
        still++;
        for (int i = 0; i < BODIES; i++) {
            if (dot(bodies[i].speed, bodies[i].speed) > slow * slow) still = 0;
        }
        if (still == STILL) {
            float deepest = 0;
            for (int i = BOARDS; i < BODIES; i++) print_rest(i);
            for (int i = 0; i < touch_count; i++) deepest = touches[i].gap < deepest ? touches[i].gap : deepest;
            printf("time: %.3f ms a step\n", 1e3 * time / steps);
            printf("step %d: the stack rests after %.2f s, on %zu points in %d contacts, none deeper than %.1f mm\n", steps,
                (float)steps * step, points, touch_count, -1000 * deepest);
            return 0;
        }
    }
    fprintf(stderr, "the stack does not rest after ten seconds\n");
    return 1;
}
