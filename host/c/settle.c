/* settle.c - lets one log down on another, step by step, and prints the contact in words.

       cc settle.c -o settle $(pkg-config --cflags --libs contact) -lm

   A log is a prism of 12 sides along x, made from its vertices and faces, in metres (logs.h). Log A lies still; log B, turned by 30
   degrees, falls on it from 5 cm above. The simulator here is as small as can be: B moves straight down, and each step it
   falls as far as the contact leaves room. */
#include "logs.h"

#include <stdio.h>
#include <stdlib.h>

/* ---- in words */

static void print_axis(contact_cache cache) {
    switch (cache.kind) {
    case CONTACT_FACE_OF_A: printf("face %d of A", cache.index_a); break;
    case CONTACT_FACE_OF_B: printf("face %d of B", cache.index_b); break;
    case CONTACT_EDGES: printf("edge %d of A across edge %d of B", cache.index_a, cache.index_b); break;
    default: printf("no axis"); break;
    }
}

static void print_gap(float separation) {
    const double millimetres = 1000 * separation;
    if (fabs(millimetres) < 0.05) printf("touching");
    else if (millimetres > 0) printf("%.1f mm apart", millimetres);
    else printf("%.1f mm deep", -millimetres);
}

/* No zero below zero. */
static double tidy(double x) { return fabs(x) < 0.0005 ? 0 : x; }

static void print_vector(contact_vec3 v) { printf("(%.3f, %.3f, %.3f)", tidy(v.x), tidy(v.y), tidy(v.z)); }

static void print_contact(const contact_manifold *contact, contact_cache cache) {
    printf("the normal is ");
    print_vector(contact->normal);
    printf(", from A to B; the axis is ");
    print_axis(cache);
    printf(", %s\n", cache.hit ? "served by the step before" : "found anew");
    for (int i = 0; i < contact->count; i++) {
        const contact_point point = contact->points[i];
        printf("  point %d at ", i);
        print_vector(point.position);
        printf(" m, ");
        print_gap(point.separation);
        printf(": half-edge %d of %c, half-edge %d of %c, candidate %d\n", point.pair.index1, "AB"[point.pair.owner1],
            point.pair.index2, "AB"[point.pair.owner2], point.place);
    }
}

/* Ends the program where the call was refused: says why, by which rule, and what to do. */
static void stop_where_refused(contact_outcome outcome, const hull *a, const hull *b) {
    if (outcome.status == CONTACT_ACCEPTED) return;
    fprintf(stderr, "refusal %d: %s; what to do: %s\n", outcome.status, contact_status_text(outcome.status),
        contact_status_remedy(outcome.status));
    if (outcome.status == CONTACT_HULL_A || outcome.status == CONTACT_HULL_B) {
        const hull *broken = outcome.status == CONTACT_HULL_A ? a : b;
        const uint8_t rule = contact_first_broken_rule(
            broken->numbers, contact_numbers_len(broken->size), broken->links, contact_links_len(broken->size), broken->size);
        fprintf(stderr, "H%d is broken: %s; what to do: %s\n", rule, contact_rule_text(rule), contact_rule_remedy(rule));
    }
    exit(1);
}

int main(void) {
    if (contact_abi() != CONTACT_ABI) {
        fprintf(stderr, "libcontactlib.a has ABI %u and contact.h has %u: take both from the same release\n",
            (unsigned)contact_abi(), (unsigned)CONTACT_ABI);
        return 1;
    }
    const float radius = 0.15f, gravity = 9.81f, step = 1 / 240.0f;
    const float half_turn = (float)(acos(-1.0) / 12); /* half of 30 degrees */
    static hull a, b;
    make_log(&a, radius, 4);
    make_log(&b, radius, 4);
    contact_transform b_in_a = {{0, 0, 2 * radius * cosf(half_turn) + 0.05f}, {{0, 0, sinf(half_turn)}, cosf(half_turn)}};
    contact_cache cache = {0, CONTACT_NOTHING, 0, 0, 0};
    float speed = 0;
    int touched = 0;

    for (int steps = 1; steps <= 240; steps++) {
        const contact_outcome outcome = contact_collide(
            CONTACT_MAX_POINTS, a.numbers, contact_numbers_len(a.size), a.links, contact_links_len(a.size), a.size,
            b.numbers, contact_numbers_len(b.size), b.links, contact_links_len(b.size), b.size, b_in_a, &cache);
        stop_where_refused(outcome, &a, &b);
        const contact_manifold *contact = &outcome.contact;

        speed += gravity * step;
        float fall = speed * step;
        for (int i = 0; i < contact->count; i++) {
            const float room = contact->points[i].separation > 0 ? contact->points[i].separation : 0;
            if (room < fall) fall = room;
        }
        if (steps == 1 || (contact->count > 0 && !touched)) {
            printf("step %d: ", steps);
            print_gap(contact_separation(cache));
            printf(" along ");
            print_axis(cache);
            printf(", %d points\n", contact->count);
            touched = contact->count > 0;
        }
        if (fall == 0) {
            printf("step %d: log B rests on log A after %.3f s\n", steps, (steps - 1) * step);
            print_contact(contact, cache);
            return 0;
        }
        speed = fall / step;
        b_in_a.p.z -= fall;
    }
    fprintf(stderr, "log B still falls after a second\n");
    return 1;
}
