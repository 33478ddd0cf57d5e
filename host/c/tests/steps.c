/* contact_step held to the stored frames: all calls of a file with room for four points, their hulls in two lists, as one step.
   Each pair's answer is put together from what the step wrote and its next cache, and compared with the one stored beside its
   frame, which is the Rust's. Nothing outside of what is to be written may change, and nothing at all where a list is too short.
   The step is made on a thread whose stack is large and painted, and again on one that has the stack that the header states, one
   page more and below that nothing that may be touched.

       steps WHAT FRAMES ANSWERS [WHAT FRAMES ANSWERS]..

   It compiles as C and as C++. */
#include "shared.h"

/* An array of records is a list of the step's. */
HOLDS(sizeof(contact_transform) == sizeof(float) * CONTACT_TRANSFORM_FLOATS);
HOLDS(sizeof(contact_cache) == sizeof(uint32_t) * CONTACT_CACHE_WORDS);

/* ---- lists that grow, and lists that are watched behind their end */

typedef struct {
    uint8_t *bytes;
    size_t len, room;
} list;

static void *added(list *to, const void *from, size_t len) {
    uint8_t *at;
    while (to->len + len > to->room) {
        to->room = 2 * to->room + 4096;
        to->bytes = (uint8_t *)realloc(to->bytes, to->room);
        if (!to->bytes) stop("no memory", 0);
    }
    at = to->bytes + to->len;
    if (len) memcpy(at, from, len);
    to->len += len;
    return at;
}

static list numbers, links, hulls, pairs, transforms, given, wanted;

typedef struct {
    uint8_t *bytes;
    size_t len;
} watched;

static watched judged, caches, floats, bytes;

/* So many bytes and WATCHED more, all of them the same. */
static void refill(watched *to, size_t len, uint8_t untouched) {
    free(to->bytes);
    to->len = len;
    to->bytes = (uint8_t *)malloc(len + WATCHED);
    if (!to->bytes) stop("no memory", 0);
    memset(to->bytes, untouched, len + WATCHED);
}

static int kept_behind(const watched *kept, uint8_t untouched) { return all_are(kept->bytes + kept->len, WATCHED, untouched); }

static void add_hull(const hull *from) {
    uint32_t words[CONTACT_HULL_WORDS];
    contact_put_hull(words, numbers.len / sizeof(float), links.len, from->size);
    added(&hulls, words, sizeof words);
    added(&numbers, from->numbers, from->numbers_len * sizeof(float));
    added(&links, from->links, from->links_len);
}

/* ---- the step */

static contact_step_result came;
static size_t short_judged, short_transforms, short_caches, short_floats, short_bytes; /* by how many places each list is shorter */

static void *make_step(void *unused) {
    came = contact_step(
        (const float *)numbers.bytes, numbers.len / sizeof(float), links.bytes, links.len,
        (const uint32_t *)hulls.bytes, hulls.len / sizeof(uint32_t), (const uint32_t *)pairs.bytes, pairs.len / sizeof(uint32_t),
        (const float *)transforms.bytes, transforms.len / sizeof(float) - short_transforms, judged.bytes, judged.len - short_judged,
        (uint32_t *)caches.bytes, caches.len / sizeof(uint32_t) - short_caches, (float *)floats.bytes,
        floats.len / sizeof(float) - short_floats, bytes.bytes, bytes.len - short_bytes);
    return unused;
}

static size_t thread_itself, most_stack;
static stack large_stack, step_stack;

static size_t hull_count(void) { return hulls.len / sizeof(uint32_t) / CONTACT_HULL_WORDS; }
static size_t pair_count(void) { return pairs.len / sizeof(uint32_t) / CONTACT_PAIR_WORDS; }

static void fill_lists(uint8_t untouched) {
    refill(&judged, hull_count(), untouched);
    refill(&caches, given.len, untouched);
    memcpy(caches.bytes, given.bytes, given.len);
    refill(&floats, pair_count() * CONTACT_PAIR_FLOATS * sizeof(float), untouched);
    refill(&bytes, pair_count() * CONTACT_PAIR_BYTES, untouched);
}

static long statuses[UINT8_MAX + 1], broken;

static void hold_pairs(long line) {
    size_t k, points = 0;
    for (k = 0; k < pair_count(); k++) {
        const contact_outcome outcome = contact_pair_outcome((const float *)floats.bytes, bytes.bytes, k);
        contact_cache next;
        memcpy(&next, caches.bytes + sizeof next * k, sizeof next);
        put_answer(&outcome, next);
        if (memcmp(answer, wanted.bytes + CONTACT_LONGEST_ANSWER * k, CONTACT_LONGEST_ANSWER)) stop("a pair of the step differs", line);
        if (bytes.bytes[CONTACT_PAIR_BYTES * k + 3] != 0) stop("the byte before the tags", line);
        if (outcome.status && memcmp(&next, given.bytes + sizeof next * k, sizeof next)) stop("a refused pair's cache", line);
        statuses[outcome.status]++;
        points += outcome.contact.count;
    }
    if (came.status != CONTACT_ACCEPTED || came.points != points) stop("what the step returns", line);
    for (k = 0; k < hull_count(); k++) {
        uint32_t words[CONTACT_HULL_WORDS];
        contact_size size;
        memcpy(words, hulls.bytes + sizeof words * k, sizeof words);
        size.unit = words[2];
        size.vertices = words[3];
        size.half_edges = words[4];
        size.faces = words[5];
        if (judged.bytes[k] != contact_first_broken_rule(
                (const float *)numbers.bytes + words[0], contact_numbers_len(size), links.bytes + words[1],
                contact_links_len(size), size)) {
            stop("the rule that a hull of the step breaks", line);
        }
        broken += judged.bytes[k] != 0;
    }
}

static void hold_step(const stack *on, uint8_t untouched, long line) {
    size_t depth;
    fill_lists(untouched);
    depth = touched(on, make_step) - thread_itself;
    if (depth > most_stack) most_stack = depth;
    if (depth > CONTACT_STEP_STACK) {
        printf("  a step needs %zu bytes of stack, and %d are stated\n", depth, CONTACT_STEP_STACK);
        stop("more stack than is stated", line);
    }
    hold_pairs(line);
    if (!kept_behind(&judged, untouched) || !kept_behind(&caches, untouched) || !kept_behind(&floats, untouched) ||
        !kept_behind(&bytes, untouched)) {
        stop("a byte behind a list of the step", line);
    }
}

/* Each list one place too short: refused, and not a byte is written. */
static void hold_no_room(long line) {
    size_t *const shorter[5] = {&short_judged, &short_transforms, &short_caches, &short_floats, &short_bytes};
    int i;
    for (i = 0; i < 5; i++) {
        fill_lists(0x77);
        *shorter[i] = 1;
        make_step(NULL);
        *shorter[i] = 0;
        if (came.status != CONTACT_NO_ROOM || came.points != 0) stop("a list that is too short is not refused", line);
        if (!all_are(judged.bytes, judged.len + WATCHED, 0x77) || !all_are(floats.bytes, floats.len + WATCHED, 0x77) ||
            !all_are(bytes.bytes, bytes.len + WATCHED, 0x77) || memcmp(caches.bytes, given.bytes, given.len) ||
            !kept_behind(&caches, 0x77)) {
            stop("a byte written where there is no room", line);
        }
    }
}

/* Hull numbers that are none, half a pair at the end, a part of a hull at the end: after all else. */
static void hold_numbers(long line) {
    const uint32_t none[2] = {(uint32_t)hull_count(), UINT32_MAX};
    const uint32_t part[CONTACT_HULL_WORDS - 1] = {0, 0, 1, 8, 24};
    const size_t first = pair_count();
    const contact_cache odd = {0x7fc12345, 2, 255, 255, 7};
    size_t k;
    int i, side;
    for (i = 0; i < 2; i++) {
        for (side = 0; side < 2; side++) {
            const uint32_t pair[2] = {side ? 0 : none[i], side ? none[i] : 0};
            added(&pairs, pair, sizeof pair);
            added(&transforms, transforms.bytes, sizeof(contact_transform));
            added(&given, &odd, sizeof odd);
        }
    }
    added(&pairs, none, sizeof none[0]);
    added(&hulls, part, sizeof part);
    fill_lists(0x11);
    make_step(NULL);
    if (came.status != CONTACT_ACCEPTED || judged.len != none[0]) stop("half a pair or a part of a hull is refused", line);
    for (k = first; k < first + 4; k++) {
        const uint8_t *told = bytes.bytes + CONTACT_PAIR_BYTES * k;
        const uint8_t status = (k - first) % 2 == 1 && judged.bytes[0] == 0 ? CONTACT_HULL_B : CONTACT_HULL_A;
        contact_cache next;
        memcpy(&next, caches.bytes + sizeof next * k, sizeof next);
        if (told[CONTACT_BYTE_STATUS] != status) stop("a hull number that is none", line);
        if (memcmp(&next, &odd, sizeof odd)) stop("the cache of a pair whose hull is none", line);
        if (!all_are(told + 1, CONTACT_BYTE_PLACES - 1, 0) || !all_are(told + CONTACT_BYTE_PLACES, 4, CONTACT_UNUSED_PLACE)) {
            stop("the contact of a pair whose hull is none", line);
        }
    }
    if (!kept_behind(&caches, 0x11) || !kept_behind(&floats, 0x11) || !kept_behind(&bytes, 0x11)) stop("half a pair was answered", line);
}

/* ---- the files */

static void hold_file(const char *what, const char *frames_name, const char *answers_name) {
    static uint8_t told[CONTACT_LONGEST_ANSWER];
    static const uint8_t met[] = {
        CONTACT_ACCEPTED, CONTACT_HULL_A, CONTACT_HULL_B, CONTACT_UNITS, CONTACT_TRANSFORM, CONTACT_CACHE, CONTACT_PADDING_WON,
        CONTACT_CUT_FULL};
    long frame_bytes, told_bytes, number = 0;
    size_t i;
    FILE *frames = fopen(frames_name, "r"), *answers = fopen(answers_name, "r");
    if (!frames || !answers) {
        printf("FAILED: %s or %s cannot be read\n", frames_name, answers_name);
        exit(1);
    }
    numbers.len = links.len = hulls.len = pairs.len = transforms.len = given.len = wanted.len = 0;
    memset(statuses, 0, sizeof statuses);
    most_stack = 0;
    broken = 0;
    while (line_taken(frames, frame, sizeof frame, &frame_bytes)) {
        uint32_t pair[CONTACT_PAIR_WORDS];
        number++;
        if (!line_taken(answers, told, sizeof told, &told_bytes) || told_bytes < 0) stop("has no answer", number);
        if (frame_bytes < 1 || frame[0] != 0x12 || told[0] != 0x92) continue;
        frame_len = (size_t)frame_bytes;
        if (!call_taken() || capacity < CONTACT_MAX_POINTS) continue;
        pair[0] = (uint32_t)hull_count();
        pair[1] = pair[0] + 1;
        add_hull(&a);
        add_hull(&b);
        added(&pairs, pair, sizeof pair);
        added(&transforms, &b_in_a, sizeof b_in_a);
        added(&given, &cache_given, sizeof cache_given);
        added(&wanted, told, sizeof told);
    }
    fclose(frames);
    fclose(answers);
    hold_step(&large_stack, 0x5a, number);
    hold_step(&step_stack, 0, number);
    hold_no_room(number);
    printf("  %s in one step: %zu pairs of %zu hulls, %ld of them broken, twice; refusals", what, pair_count(), hull_count(), broken / 2);
    for (i = 0; i < sizeof met; i++) {
        printf("%s %d: %ld", i ? "," : "", met[i], statuses[met[i]] / 2);
        if (!statuses[met[i]]) stop("a refusal was never met", number);
    }
    printf("; stack %zu bytes of %d\n", most_stack, CONTACT_STEP_STACK);
    hold_numbers(number);
}

int main(int count, char **words) {
    int i;
    if (count < 4 || count % 3 != 1) {
        printf("usage: steps WHAT FRAMES ANSWERS [WHAT FRAMES ANSWERS]..\n");
        return 2;
    }
    if (contact_abi() != CONTACT_ABI) stop("the library has another ABI than the header", 0);
    large_stack = stack_of(LARGE_STACK);
    step_stack = stack_of(CONTACT_STEP_STACK + (size_t)sysconf(_SC_PAGESIZE));
    thread_itself = touched(&large_stack, nothing);
    came = contact_step(NULL, 0, NULL, 0, NULL, 0, NULL, 0, NULL, 0, NULL, 0, NULL, 0, NULL, 0, NULL, 0);
    if (came.status != CONTACT_ACCEPTED || came.points != 0) stop("a step of nothing", 0);
    for (i = 1; i < count; i += 3) hold_file(words[i], words[i + 1], words[i + 2]);
    printf("  each also on a thread of %zu bytes of stack, refused with every list one place too short, and with hulls that are none\n",
        step_stack.size);
    return 0;
}
