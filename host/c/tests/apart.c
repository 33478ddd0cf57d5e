/* contact_apart held to a file of questions: of each frame of kind 12 the hulls and the transform, through the header's records. The
   answers, two bytes each, are those of the second writing over the Rust text. Each question is asked by the header's function, which
   returns a record of two bytes by value, and once more as the machine sees it, by the register that the record comes back in. It is
   asked on a thread whose stack is large and painted, and again on one that has the stack that the header states for a call, one page
   more and below that nothing that may be touched.

       apart FRAMES ANSWERS

   It compiles as C and as C++. */
#include "shared.h"

#ifdef __cplusplus
extern "C" {
#endif
/* The same function: a record of two bytes comes back in the low two bytes of a register. */
uint64_t apart_word(
    const float *numbers_a, size_t numbers_a_len, const uint8_t *links_a, size_t links_a_len, contact_size size_a,
    const float *numbers_b, size_t numbers_b_len, const uint8_t *links_b, size_t links_b_len, contact_size size_b,
    contact_transform b_in_a) __asm__("contact_apart");
#ifdef __cplusplus
}
#endif

static contact_apart_result came;
static uint64_t word;

static void *ask(void *unused) {
    came = contact_apart(
        a.numbers, a.numbers_len, a.links, a.links_len, a.size, b.numbers, b.numbers_len, b.links, b.links_len, b.size, b_in_a);
    return unused;
}

static void *ask_for_word(void *unused) {
    word = apart_word(
        a.numbers, a.numbers_len, a.links, a.links_len, a.size, b.numbers, b.numbers_len, b.links, b.links_len, b.size, b_in_a);
    return unused;
}

static stack large_stack, stated_stack;
static size_t thread_itself, most_stack;

static void hold(const stack *on, const uint8_t *wanted, long line) {
    static hull a_before, b_before;
    size_t depth;
    memcpy(&a_before, &a, sizeof a);
    memcpy(&b_before, &b, sizeof b);
    memset(&came, 0x5a, sizeof came);
    word = 0x5a5a5a5a5a5a5a5a;
    depth = touched(on, ask) - thread_itself;
    if (depth > most_stack) most_stack = depth;
    if (depth > CONTACT_COLLIDE_STACK) stop("more stack than is stated", line);
    touched(on, ask_for_word);
    if (came.status != wanted[0] || came.apart != wanted[1]) stop("contact_apart differs", line);
    if ((word & 0xff) != wanted[0] || (word >> 8 & 0xff) != wanted[1]) stop("contact_apart differs as the machine sees it", line);
    if (memcmp(&a_before, &a, sizeof a) || memcmp(&b_before, &b, sizeof b)) stop("a hull was written to", line);
}

/* A yes and a no, in the four units, and each refusal are to be met. */
static long answers_met[2], units_met[4][2], statuses_met[UINT8_MAX + 1];

static void count_met(const uint8_t *wanted) {
    static const size_t units[4] = {CONTACT_METRES, CONTACT_DECIMETRES, CONTACT_CENTIMETRES, CONTACT_MILLIMETRES};
    int i;
    statuses_met[wanted[0]]++;
    if (wanted[0] != CONTACT_ACCEPTED) return;
    answers_met[wanted[1]]++;
    for (i = 0; i < 4; i++) units_met[i][wanted[1]] += a.size.unit == units[i];
}

/* No hull at all, and sizes that no hull has. */
static void hold_nothing(void) {
    const contact_size none = {0, 0, 0, 0}, far = {SIZE_MAX, SIZE_MAX, SIZE_MAX, SIZE_MAX};
    const contact_transform still = {{0, 0, 0}, {{0, 0, 0}, 1}};
    came = contact_apart(NULL, 0, NULL, 0, none, NULL, 0, NULL, 0, none, still);
    if (came.status != CONTACT_HULL_A || came.apart != 0) stop("two hulls that are none", 0);
    came = contact_apart(NULL, 0, NULL, 0, far, NULL, 0, NULL, 0, far, still);
    if (came.status != CONTACT_HULL_A || came.apart != 0) stop("two hulls of sizes that none has", 0);
}

int main(int count, char **words) {
    static const uint8_t refusals[] = {CONTACT_HULL_A, CONTACT_HULL_B, CONTACT_UNITS, CONTACT_TRANSFORM};
    uint8_t wanted[2];
    long frame_bytes, wanted_bytes, number = 0;
    FILE *frames, *answers;
    size_t i;
    if (count != 3) {
        printf("usage: apart FRAMES ANSWERS\n");
        return 2;
    }
    if (contact_abi() != CONTACT_ABI) stop("the library has another ABI than the header", 0);
    frames = fopen(words[1], "r");
    answers = fopen(words[2], "r");
    if (!frames || !answers) {
        printf("FAILED: %s or %s cannot be read\n", words[1], words[2]);
        return 1;
    }
    large_stack = stack_of(LARGE_STACK);
    stated_stack = stack_of(CONTACT_COLLIDE_STACK + (size_t)sysconf(_SC_PAGESIZE));
    thread_itself = touched(&large_stack, nothing);
    hold_nothing();
    while (line_taken(frames, frame, sizeof frame, &frame_bytes)) {
        number++;
        if (!line_taken(answers, wanted, sizeof wanted, &wanted_bytes) || wanted_bytes != 2) stop("has no answer", number);
        if (frame_bytes < 1) stop("is no frame", number);
        frame_len = (size_t)frame_bytes;
        if (!call_taken()) stop("is no call", number);
        hold(&large_stack, wanted, number);
        hold(&stated_stack, wanted, number);
        count_met(wanted);
    }
    fclose(frames);
    fclose(answers);
    printf("  %ld questions through the header's records, twice each: yes %ld, no %ld; refusals", number, answers_met[1], answers_met[0]);
    for (i = 0; i < sizeof refusals; i++) {
        printf("%s %d: %ld", i ? "," : "", refusals[i], statuses_met[refusals[i]]);
        if (!statuses_met[refusals[i]]) stop("a refusal was never met", number);
    }
    printf("; stack %zu bytes of %d\n", most_stack, CONTACT_COLLIDE_STACK);
    for (i = 0; i < 4; i++) {
        if (!units_met[i][0] || !units_met[i][1]) stop("a yes or a no was never met in some unit", number);
    }
    return 0;
}
