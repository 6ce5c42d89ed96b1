/* What the tests of refusals go through: words of each level, words that are none of ours, illegal states. */
#ifndef CASES_H
#define CASES_H

#include "check.h"

enum {
    PFALSE = 0x2518E400,        /* p0: level 1 */
    WHILEGE = 0x25201000,       /* p0.b, x0, x0: level 2 */
    WHILE_COUNTER = 0x25204010, /* level 3 */
    CNTP_COUNTER = 0x25208700,  /* x0, pn8.b, four vectors: level 3 */
    PNEXT = 0x2519C443,         /* p3.b, p2, p3.b: level 1 */
    AND = 0x25044861,           /* p1.b, p2/z, p3.b, p4.b: level 1 */
    SEL = 0x25034650,           /* p0.b, p1, p2.b, p3.b: level 1 */
    SETS_FLAGS = 0x00400000,    /* S of a word of predicate logic; SEL has no form with it */
    SETFFR = 0x252C9000,        /* level 1, as the four below */
    WRFFR = 0x25289000,         /* p0.b */
    RDFFR = 0x2519F000,         /* p0.b */
    RDFFR_PG = 0x2518F000,      /* p0.b, p0/z */
    RDFFRS_PG = 0x2558F000      /* p0.b, p0/z */
};

/* Another highest byte than ours. The last eight are PFALSE but for one bit of it. */
enum { FOREIGN = 12 };
static const uint32_t foreign[FOREIGN] = {0,          0xFFFFFFFF, 0x24FFFFFF, 0x26000000, 0x2418E400, 0x2718E400,
                                          0x2118E400, 0x2D18E400, 0x3518E400, 0x0518E400, 0x6518E400, 0xA518E400};

/* Our highest byte, but no form of ours. The last but one is BRKA p1.b, p1/z, p2.b. */
enum { UNSUPPORTED = 6 };
static const uint32_t unsupported[UNSUPPORTED] = {0x25000000, 0x25FFFFFF, 0x2518E410, 0x2519C410, 0x25104441, SEL | SETS_FLAGS};

/* Words of every form, one after the other. The four after PFALSE are predicate logic: without flags, and with them all but SEL, in three parts.
 * Each WRFFR takes what the WHILE of bytes before it leaves, in p9. */
enum { KINDS = 23 };

static inline uint32_t word_at(uint64_t at) {
    static const uint32_t fixed[KINDS] = {0x25200000, 0x25205010, 0x25204010, 0x25288800, 0x25288C00, 0x252C8800,
                                          0x252D8800, 0x25208000, 0x25208200, 0x2519C400, 0x2558C000, 0x2550C000,
                                          0x2518E400, 0x25004000, 0x25C04000, 0x25404000, 0x25404200, SETFFR,
                                          0x25200409, WRFFR | 9 << 5, RDFFR, RDFFR_PG, RDFFRS_PG};
    static const uint32_t drawn[KINDS] = {0x00DF1FFF, 0x00DF0FEF, 0x00DF2FEF, 0x00C301FF, 0x00C301FF, 0x00C001FF,
                                          0x00C001FF, 0x00C03DFF, 0x00C005FF, 0x00C001EF, 0x000001EF, 0x00003DE0,
                                          0x0000000F, 0x008F3FFF, 0x000F3FFF, 0x000F3DFF, 0x000F3DEF, 0,
                                          0x001F1BF0, 0,          0x0000000F, 0x000001EF, 0x000001EF};
    return fixed[at % KINDS] | ((uint32_t)mixed(at + 2) & drawn[at % KINDS]);
}

/* ---- illegal states */

enum { ILLEGAL = 44 };

static inline struct plokamyr_state with_length(uint64_t vl) {
    struct plokamyr_state s = sample(128);
    s.vl = vl;
    return recounted(s);
}

static inline struct plokamyr_state with_level(uint8_t level) {
    struct plokamyr_state s = sample(512);
    s.level = level;
    return s;
}

/* A legal state but for one bit of a predicate, at or above vl / 8. */
static inline struct plokamyr_state with_bit(uint64_t vl, int p, uint64_t bit) {
    struct plokamyr_state s = sample(vl);
    s.p[p].words[bit / 64] |= UINT64_C(1) << (bit % 64);
    return s;
}

/* The same for a bit of FFR. */
static inline struct plokamyr_state with_ffr_bit(uint64_t vl, uint64_t bit) {
    struct plokamyr_state s = sample(vl);
    s.ffr.words[bit / 64] |= UINT64_C(1) << (bit % 64);
    return s;
}

/* A count by the number of its size, 0 to 3 for B, H, S, D. */
static inline uint16_t *count_at(struct plokamyr_state *s, int p, int size) {
    struct plokamyr_counts *counts = &s->counts[p];
    uint16_t *const each[4] = {&counts->b, &counts->h, &counts->s, &counts->d};
    return each[size];
}

/* A legal state but for one count, which is one more or one less than it is. */
static inline struct plokamyr_state with_count(uint64_t vl, int p, int size, int change) {
    struct plokamyr_state s = sample(vl);
    *count_at(&s, p, size) += (uint16_t)change;
    return s;
}

static inline struct plokamyr_state illegal(int number) {
    static const uint64_t bad[14] = {0, 1, 16, 127, 129, 192, 384, 640, 1920, 2049, 4096, 0x100000080, UINT64_C(1) << 63, UINT64_MAX};
    if (number < 14) return with_length(bad[number]);
    static const uint8_t levels[6] = {4, 5, 8, 128, 254, 255};
    if (number < 20) return with_level(levels[number - 14]);
    uint64_t vl = lengths[(number - 20) % 4];
    if (number < 28) return number < 24 ? with_bit(vl, number - 20, vl / 8) : with_bit(vl, number - 12, 255);
    if (number < 36) return with_ffr_bit(vl, number < 32 ? vl / 8 : 255);
    return with_count(vl, number < 40 ? 0 : 15, number % 4, number % 2 ? 1 : -1);
}

#endif
