/* What the tests of the header share: frames taken apart into the header's records, answers put together from them, threads with
   painted stacks, and files of lines in hexadecimal. Included once by each. */
#define _DEFAULT_SOURCE
#include "../contact.h"

#include <pthread.h>
#include <stdio.h>
#include <stdlib.h>
#include <sys/mman.h>
#include <sys/types.h>
#include <unistd.h>

#ifdef __cplusplus
#define HOLDS(fact) static_assert(fact, #fact)
#define ENDS [[noreturn]]
#else
#define HOLDS(fact) _Static_assert(fact, #fact)
#define ENDS _Noreturn
#endif
#define LIES(record, field, offset, size) \
    HOLDS(offsetof(record, field) == (offset)); \
    HOLDS(sizeof(((record *)0)->field) == (size))

enum { LONGEST_FRAME = 10000, WATCHED = 32, MOST_NUMBERS = 2048, MOST_LINKS = 2048 };

ENDS static inline void stop(const char *what, long line) {
    printf("FAILED: frame %ld: %s\n", line, what);
    exit(1);
}

/* ---- a frame, taken apart */

static uint8_t frame[LONGEST_FRAME];
static size_t frame_len, read_at;

static inline uint32_t taken(int bytes) {
    uint32_t number = 0;
    while (bytes-- > 0) number = number << 8 | frame[read_at++];
    return number;
}

static inline float float_of(uint32_t bits) {
    float number;
    memcpy(&number, &bits, sizeof number);
    return number;
}

static inline float float_taken(void) { return float_of(taken(4)); }

static inline contact_vec3 vec3_taken(void) {
    contact_vec3 v;
    v.x = float_taken();
    v.y = float_taken();
    v.z = float_taken();
    return v;
}

typedef struct {
    contact_size size;
    float numbers[MOST_NUMBERS];
    uint8_t links[MOST_LINKS];
    size_t numbers_len, links_len;
} hull;

/* Not so where the hull has no room here. */
static inline int hull_taken(hull *to) {
    to->size.unit = taken(2);
    to->size.vertices = taken(2);
    to->size.half_edges = taken(2);
    to->size.faces = taken(2);
    to->numbers_len = contact_numbers_len(to->size);
    to->links_len = contact_links_len(to->size);
    if (to->numbers_len > MOST_NUMBERS || to->links_len > MOST_LINKS) return 0;
    size_t planes = to->numbers_len - 4 * to->size.faces, i;
    for (i = 0; i < planes; i++) to->numbers[i] = float_taken();
    for (i = 0; i < to->links_len; i++) to->links[i] = (uint8_t)taken(1);
    for (i = planes; i < to->numbers_len; i++) to->numbers[i] = float_taken();
    return 1;
}

static int32_t capacity;
static contact_transform b_in_a;
static contact_cache cache_given;
static hull a, b;

static inline int call_taken(void) {
    read_at = 1;
    capacity = (int32_t)taken(4);
    cache_given.separation = taken(4);
    cache_given.kind = (uint8_t)taken(1);
    cache_given.index_a = (uint8_t)taken(1);
    cache_given.index_b = (uint8_t)taken(1);
    cache_given.hit = (uint8_t)taken(1);
    b_in_a.p = vec3_taken();
    b_in_a.q.v = vec3_taken();
    b_in_a.q.s = float_taken();
    return hull_taken(&a) && hull_taken(&b) && read_at == frame_len;
}

/* ---- an answer, put together */

static uint8_t answer[CONTACT_LONGEST_ANSWER];
static size_t answer_len;

static inline void put(uint32_t number, int bytes) {
    while (bytes-- > 0) answer[answer_len++] = (uint8_t)(number >> 8 * bytes);
}

static inline void put_float(float number) {
    uint32_t bits;
    memcpy(&bits, &number, sizeof bits);
    put((bits & 0x7fffffff) > 0x7f800000 ? 0x7fc00000 : bits, 4);
}

static inline void put_vec3(contact_vec3 v) {
    put_float(v.x);
    put_float(v.y);
    put_float(v.z);
}

static inline void put_answer(const contact_outcome *outcome, contact_cache next) {
    int i;
    answer_len = 0;
    put(0x92, 1);
    put(outcome->status, 1);
    put(next.separation, 4);
    put(next.kind, 1);
    put(next.index_a, 1);
    put(next.index_b, 1);
    put(next.hit, 1);
    put(outcome->contact.count, 1);
    put_vec3(outcome->contact.normal);
    for (i = 0; i < CONTACT_MAX_POINTS; i++) {
        const contact_point *point = &outcome->contact.points[i];
        put_vec3(point->position);
        put_float(point->separation);
        put(point->pair.owner1, 1);
        put(point->pair.index1, 1);
        put(point->pair.owner2, 1);
        put(point->pair.index2, 1);
    }
    for (i = 0; i < CONTACT_MAX_POINTS; i++) put(outcome->contact.points[i].place, 1);
    put(outcome->retired, 1);
}

/* ---- threads on painted stacks */

static inline void *nothing(void *unused) { return unused; }

enum { PAINT = 0xa5, LARGE_STACK = 1 << 18 };

/* A painted stack of so many bytes, in whole pages, and below it a page that ends the program where it is touched. */
typedef struct {
    uint8_t *low;
    size_t size;
} stack;

static inline stack stack_of(size_t size) {
    const size_t page = (size_t)sysconf(_SC_PAGESIZE);
    stack made;
    uint8_t *all;
    made.size = (size + page - 1) / page * page;
    all = (uint8_t *)mmap(NULL, page + made.size, PROT_READ | PROT_WRITE, MAP_PRIVATE | MAP_ANONYMOUS, -1, 0);
    if (all == MAP_FAILED || mprotect(all, page, PROT_NONE)) stop("no stack could be made", 0);
    made.low = all + page;
    return made;
}

/* How many bytes of the stack were touched, by the thread itself too. */
static inline size_t touched(const stack *on, void *(*work)(void *)) {
    pthread_attr_t attributes;
    pthread_t thread;
    size_t low = 0;
    memset(on->low, PAINT, on->size);
    pthread_attr_init(&attributes);
    if (pthread_attr_setstack(&attributes, on->low, on->size) || pthread_create(&thread, &attributes, work, NULL)) {
        stop("no thread could be made", 0);
    }
    pthread_join(thread, NULL);
    pthread_attr_destroy(&attributes);
    while (low < on->size && on->low[low] == PAINT) low++;
    return on->size - low;
}

static inline int all_are(const uint8_t *bytes, size_t count, uint8_t byte) {
    while (count-- > 0) {
        if (*bytes++ != byte) return 0;
    }
    return 1;
}

/* ---- files */

static inline uint8_t digit(int character) {
    return (uint8_t)(character >= 'a' ? character - 'a' + 10 : character - '0');
}

/* The bytes of the next line; *count is -1 where it is no hexadecimal or too long for a frame. Not so at the end. */
static inline int line_taken(FILE *from, uint8_t *to, size_t room, long *count) {
    static char *line;
    static size_t size;
    ssize_t length = getline(&line, &size, from), i;
    if (length < 0) return 0;
    if (line[length - 1] == '\n') length--;
    line[length] = 0;
    *count = -1;
    if (length % 2 || strspn(line, "0123456789abcdef") != (size_t)length || (size_t)length / 2 > room) return 1;
    for (i = 0; i < length / 2; i++) to[i] = (uint8_t)(digit(line[2 * i]) << 4 | digit(line[2 * i + 1]));
    *count = length / 2;
    return 1;
}
