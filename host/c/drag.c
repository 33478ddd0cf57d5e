/* drag.c - drags a log over three that lie side by side, as an editor of stacks would, and says how far it can be let down and which
   log is then in the way. It takes a yes or a no for each place and no points.

       cc drag.c -o drag $(pkg-config --cflags --libs contact) -lm

   A log is a prism of 12 sides along x, in metres (logs.h). The dragged one stays parallel to the others; at each place it is let down
   by a millimetre at a time while the question says that it is apart from all three. */
#include "logs.h"

#include <stdio.h>
#include <stdlib.h>

enum { LYING = 3 };

/* Whether the two are apart; ends the program where that is refused. */
static int are_apart(const hull *a, const hull *b, contact_transform b_in_a) {
    const contact_apart_result answer = contact_apart(
        a->numbers, contact_numbers_len(a->size), a->links, contact_links_len(a->size), a->size,
        b->numbers, contact_numbers_len(b->size), b->links, contact_links_len(b->size), b->size, b_in_a);
    if (answer.status != CONTACT_ACCEPTED) {
        fprintf(stderr, "refusal %d: %s; what to do: %s\n", answer.status, contact_status_text(answer.status),
            contact_status_remedy(answer.status));
        exit(1);
    }
    return answer.apart;
}

int main(void) {
    if (contact_abi() != CONTACT_ABI) {
        fprintf(stderr, "libcontactlib.a has ABI %u and contact.h has %u: take both from the same release\n",
            (unsigned)contact_abi(), (unsigned)CONTACT_ABI);
        return 1;
    }
    const float radius = 0.15f, beside = 0.35f;
    static hull lying, dragged;
    int questions = 0, yes = 0;
    make_log(&lying, radius, 4);
    make_log(&dragged, radius, 4);

    for (int place = -4; place <= 4; place++) {
        const float y = 0.5f * beside * (float)place;
        int in_the_way = LYING, millimetres = 500;
        while (millimetres > 0 && in_the_way == LYING) {
            for (int number = 0; number < LYING; number++) {
                const float there = beside * (float)(number - 1);
                const contact_transform dragged_in_lying = {{0, y - there, 0.001f * (float)(millimetres - 1)}, {{0, 0, 0}, 1}};
                questions++;
                if (!are_apart(&lying, &dragged, dragged_in_lying)) {
                    in_the_way = number;
                    break;
                }
                yes++;
            }
            if (in_the_way == LYING) millimetres--;
        }
        printf("at y = %.3f m: free down to ", y);
        if (in_the_way == LYING) printf("the ground\n");
        else printf("%d mm, then log %d is in the way\n", millimetres, in_the_way);
    }
    printf("%d questions, %d of them a yes\n", questions, yes);
    return 0;
}
