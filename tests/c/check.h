/* What the tests share: counted checks, states with distinct values, guards around what is lent. */
#ifndef CHECK_H
#define CHECK_H

#include <plokamyr.h>
#include <stdio.h>
#include <string.h>

static unsigned long checks, failures;

static inline void check_at(bool held, const char *file, int line, const char *what) {
    checks++;
    if (held) return;
    failures++;
    fprintf(stderr, "%s:%d: %s\n", file, line, what);
}

#define CHECK(condition) check_at((condition), __FILE__, __LINE__, #condition)

static inline int finish(const char *name) {
    if (failures) {
        printf("%s: %lu of %lu checks failed\n", name, failures, checks);
        return 1;
    }
    printf("%s: %lu checks\n", name, checks);
    return 0;
}

static const uint64_t lengths[5] = {128, 256, 512, 1024, 2048};

/* A different number for each place. */
static inline uint64_t mixed(uint64_t place) {
    uint64_t z = (place + 1) * 0x9E3779B97F4A7C15;
    z = (z ^ (z >> 30)) * 0xBF58476D1CE4E5B9;
    z = (z ^ (z >> 27)) * 0x94D049BB133111EB;
    return z ^ (z >> 31);
}

/* The bits of a predicate's word that a vector length has. */
static inline uint64_t live(uint64_t vl, uint64_t word) {
    uint64_t bits = vl / 8;
    if (bits <= word * 64) return 0;
    bits -= word * 64;
    return bits >= 64 ? UINT64_MAX : (UINT64_C(1) << bits) - 1;
}

/* The true elements of a predicate, one by one: those that a vector of any length has, as far as there are bits. */
static inline uint16_t count_of(const struct plokamyr_predicate *p, uint64_t vl, uint64_t bytes) {
    uint16_t count = 0;
    for (uint64_t e = 0; e < vl / 8 / bytes && e * bytes < 256; e++) {
        uint64_t bit = e * bytes;
        count += p->words[bit / 64] >> (bit % 64) & 1;
    }
    return count;
}

static inline struct plokamyr_counts counts_of(const struct plokamyr_predicate *p, uint64_t vl) {
    return (struct plokamyr_counts){count_of(p, vl, 1), count_of(p, vl, 2), count_of(p, vl, 4), count_of(p, vl, 8)};
}

/* The state with right counts, by these tests' own counting. */
static inline struct plokamyr_state recounted(struct plokamyr_state state) {
    for (int i = 0; i < 16; i++) state.counts[i] = counts_of(&state.p[i], state.vl);
    return state;
}

/* Writes a predicate, with its counts. */
static inline void put_p(struct plokamyr_state *state, int number, struct plokamyr_predicate p) {
    state->p[number] = p;
    state->counts[number] = counts_of(&p, state->vl);
}

/* A legal state with a different number in each register; what lies between the fields is no zero. */
static inline struct plokamyr_state sample(uint64_t vl) {
    struct plokamyr_state state;
    memset(&state, 0xA5, sizeof state);
    state.vl = vl;
    state.level = 3;
    state.access = true;
    state.flags = (struct plokamyr_flags){.n = true, .z = false, .c = true, .v = true};
    for (uint64_t i = 0; i < 31; i++) state.x[i] = mixed(i);
    for (uint64_t i = 0; i < 16; i++) {
        for (uint64_t k = 0; k < 4; k++) state.p[i].words[k] = mixed(100 + 4 * i + k) & live(vl, k);
    }
    for (uint64_t k = 0; k < 4; k++) state.ffr.words[k] = mixed(200 + k) & live(vl, k);
    return recounted(state);
}

/* The same for two kernels; the second has other flags than the first. */
static inline struct plokamyr_shared shared_sample(uint64_t vl) {
    struct plokamyr_shared shared;
    memset(&shared, 0xA5, sizeof shared);
    shared.state = sample(vl);
    shared.second = (struct plokamyr_flags){.n = false, .z = true, .c = false, .v = false};
    return shared;
}

static inline bool same_flags(struct plokamyr_flags a, struct plokamyr_flags b) {
    return a.n == b.n && a.z == b.z && a.c == b.c && a.v == b.v;
}

/* Field by field, since what lies between them is nobody's. */
static inline bool same_state(const struct plokamyr_state *a, const struct plokamyr_state *b) {
    bool settings = a->vl == b->vl && a->level == b->level && a->access == b->access;
    bool registers = memcmp(a->x, b->x, sizeof a->x) == 0 && memcmp(a->p, b->p, sizeof a->p) == 0;
    bool counts = memcmp(a->counts, b->counts, sizeof a->counts) == 0;
    return settings && same_flags(a->flags, b->flags) && registers && counts && memcmp(&a->ffr, &b->ffr, sizeof a->ffr) == 0;
}

static inline bool same_shared(const struct plokamyr_shared *a, const struct plokamyr_shared *b) {
    return same_state(&a->state, &b->state) && same_flags(a->second, b->second);
}

/* Puts the flags of a kernel where an ordinary step or walk has them, or puts them back. */
static inline void exchange_flags(struct plokamyr_shared *shared, bool second) {
    if (!second) return;
    struct plokamyr_flags flags = shared->state.flags;
    shared->state.flags = shared->second;
    shared->second = flags;
}

/* A variable, declared as `value`, with guards on both sides. */
#define GUARD 64
#define GUARDED(declared) struct { uint8_t before[GUARD]; declared; uint8_t after[GUARD]; }

static inline bool is_filled(const void *from, size_t length) {
    const uint8_t *bytes = from;
    for (size_t i = 0; i < length; i++) {
        if (bytes[i] != 0xA5) return false;
    }
    return true;
}

static inline void fill(void *from, size_t length) {
    memset(from, 0xA5, length);
}

#define FILL(box) fill(&(box), sizeof(box))
#define CHECK_GUARDS(box) CHECK(is_filled((box).before, GUARD) && is_filled((box).after, GUARD))

/* Leaves no zeros below on the stack: a place that a call does not write shows. */
static void __attribute__((noinline, unused)) poison_stack(void) {
    volatile uint8_t area[60000];
    for (size_t i = 0; i < sizeof area; i++) area[i] = 0xA5;
}

#endif
