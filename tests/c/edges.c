/* Every refusal of a step and of a run, in its order, and that it leaves all as it was; no words; counters with bits past their count; PNEXT past words
 * without an active element; FFR written and read. */
#include "expect.h"

/* ---- step */

static void step_refusals(void) {
    for (int i = 0; i < ILLEGAL; i++) {
        struct plokamyr_state s = illegal(i);
        s.access = false;
        expect_step(&s, PFALSE, PLOKAMYR_ILLEGAL_STATE);
        expect_step(&s, foreign[i % FOREIGN], PLOKAMYR_ILLEGAL_STATE);
        expect_step(&s, unsupported[i % UNSUPPORTED], PLOKAMYR_ILLEGAL_STATE);
    }
    static const uint32_t words[4] = {0, PFALSE, WHILEGE, WHILE_COUNTER};
    for (uint8_t level = 0; level < 4; level++) {
        struct plokamyr_state s = with_level(level);
        s.access = false;
        for (int i = 0; i < FOREIGN; i++) expect_step(&s, foreign[i], PLOKAMYR_FOREIGN_WORD);
        for (int i = 0; i < UNSUPPORTED; i++) expect_step(&s, unsupported[i], PLOKAMYR_UNSUPPORTED_FORM);
        for (uint8_t asked = 1; asked < 4; asked++) {
            expect_step(&s, words[asked], level < asked ? PLOKAMYR_LEVEL_TOO_LOW : PLOKAMYR_ACCESS_OFF);
        }
        static const uint32_t others[6] = {AND, SETFFR, WRFFR, RDFFR, RDFFR_PG, RDFFRS_PG};
        for (int i = 0; i < 6; i++) expect_step(&s, others[i], level < 1 ? PLOKAMYR_LEVEL_TOO_LOW : PLOKAMYR_ACCESS_OFF);
    }
}

/* Words of every form, one after the other from states of every length. */
static void steps_agree(void) {
    for (int i = 0; i < 5; i++) {
        struct plokamyr_state s = sample(lengths[i]);
        for (uint64_t at = 0; at < KINDS * 40; at++) {
            s.x[at % 31] = mixed(at) % 300; /* small, so that a WHILE may end within the vector */
            if (at % KINDS != 19) s.p[at % 16].words[0] |= mixed(at + 1) & live(lengths[i], 0); /* PFALSE must not leave all empty */
            s = recounted(s);
            s = both_steps(&s, word_at(at), PLOKAMYR_DONE);
        }
    }
}

/* ---- counters */

/* What CNTP of bytes over four vectors answers of a counter; it writes nothing else. */
static uint64_t counted(uint64_t vl, uint64_t counter) {
    struct plokamyr_state s = sample(vl);
    put_p(&s, 8, (struct plokamyr_predicate){{counter}});
    struct plokamyr_state after = both_steps(&s, CNTP_COUNTER, PLOKAMYR_DONE);
    s.x[0] = after.x[0];
    CHECK(same_state(&after, &s));
    return after.x[0];
}

/* The count ends at the highest set bit of 4 PL, which is vl / 2; a group of four vectors has as many bytes. */
static void counters_read(void) {
    CHECK(counted(128, 0x0081) == 0);
    CHECK(counted(256, 0x0081) == 64);
    CHECK(counted(128, 0x8081) == 64);
    for (int i = 0; i < 5; i++) {
        uint64_t vl = lengths[i], last = vl / 2, past = 0x8000 - vl; /* all bits from the one after the last to 14 */
        CHECK(counted(vl, last | 1) == vl / 4);
        CHECK(counted(vl, 2 * last | 1) == 0);
        CHECK(counted(vl, past | last | 1) == vl / 4);
        CHECK(counted(vl, past | 7) == 3);
        CHECK(counted(vl, 0x8000 | past | 7) == vl / 2 - 3);
        CHECK(counted(vl, 0x8000 | past) == 0);
    }
}

/* ---- searches */

/* A PNEXT at 2,048 bits: the cursor and the flags that it leaves. */
struct search {
    uint32_t size;
    struct plokamyr_predicate mask, cursor, found;
    bool n, z, c;
};

/* It writes nothing else. */
static void expect_next(struct search search) {
    struct plokamyr_state s = sample(2048);
    put_p(&s, 2, search.mask);
    put_p(&s, 3, search.cursor);
    struct plokamyr_state after = both_steps(&s, PNEXT + (search.size << 22), PLOKAMYR_DONE);
    put_p(&s, 3, search.found);
    s.flags = (struct plokamyr_flags){.n = search.n, .z = search.z, .c = search.c};
    CHECK(same_state(&after, &s));
}

static void searches(void) {
    enum { SEARCHES = 8 };
    static const uint64_t top = UINT64_C(1) << 63;
    static const uint64_t not_h = 0xAAAAAAAAAAAAAAAA, not_s = 0xEEEEEEEEEEEEEEEE; /* the bits that are ignored at size H, and at S */
    const struct search known[SEARCHES] = {
        {0, {{0, 0, 0, top}}, {{0}}, {{0, 0, 0, top}}, true, false, false},                    /* only the last element */
        {0, {{0, 0, 0, top}}, {{0, 0, 0, top}}, {{0}}, false, true, true},                     /* none left */
        {0, {{7}}, {{2}}, {{4}}, false, false, false},                                         /* in the cursor's word */
        {0, {{1, 32}}, {{1}}, {{0, 32}}, false, false, false},                                 /* in the second word */
        {0, {{1, 0, 0, 6}}, {{1}}, {{0, 0, 0, 2}}, false, false, true},                        /* past two empty words */
        {1, {{not_h, not_h, not_h | 4}}, {{0, 0, 0, not_h}}, {{0, 0, 4}}, true, false, false}, /* past ignored bits */
        {2, {{16, not_s, not_s, not_s}}, {{16}}, {{0}}, false, true, true},                    /* none left but ignored bits */
        {3, {{1, 0, 0, top >> 7}}, {{129}}, {{0, 0, 0, top >> 7}}, false, false, false},       /* the last doubleword */
    };
    for (int i = 0; i < SEARCHES; i++) expect_next(known[i]);
}

/* ---- the first-fault register */

/* The bits from the first up to the end, which is not among them. */
static struct plokamyr_predicate ones(uint64_t first, uint64_t end) {
    struct plokamyr_predicate p = {{0}};
    for (uint64_t bit = first; bit < end; bit++) p.words[bit / 64] |= UINT64_C(1) << (bit % 64);
    return p;
}

/* WRFFR of p3, from an FFR that is no run of ones itself. */
static void expect_write_ffr(uint64_t vl, struct plokamyr_predicate p, bool run) {
    struct plokamyr_state s = sample(vl);
    put_p(&s, 3, p);
    if (!run) {
        expect_step(&s, WRFFR | 3 << 5, PLOKAMYR_NOT_MONOTONIC);
        return;
    }
    struct plokamyr_state after = both_steps(&s, WRFFR | 3 << 5, PLOKAMYR_DONE);
    s.ffr = p;
    CHECK(same_state(&after, &s));
}

/* Each run of ones from bit 0, and each with one bit changed: a run again only at its own end. */
static void ffr_written(uint64_t vl) {
    for (uint64_t end = 0; end <= vl / 8; end++) {
        expect_write_ffr(vl, ones(0, end), true);
        for (uint64_t bit = 0; bit < vl / 8; bit++) {
            struct plokamyr_predicate p = ones(0, end);
            p.words[bit / 64] ^= UINT64_C(1) << (bit % 64);
            expect_write_ffr(vl, p, bit == end || bit + 1 == end);
        }
    }
}

/* A word over FFR and, as its mask, p4: what it leaves in p5, and the flags. */
static void expect_read_ffr(struct plokamyr_state s, uint32_t word, struct plokamyr_predicate result, struct plokamyr_flags flags) {
    struct plokamyr_state after = both_steps(&s, word | 5, PLOKAMYR_DONE);
    put_p(&s, 5, result);
    s.flags = flags;
    CHECK(same_state(&after, &s));
}

static void ffr_read(uint64_t vl) {
    struct plokamyr_state s = sample(vl);
    struct plokamyr_predicate both;
    for (int k = 0; k < 4; k++) both.words[k] = s.p[4].words[k] & s.ffr.words[k];
    expect_read_ffr(s, RDFFR, s.ffr, s.flags);
    expect_read_ffr(s, RDFFR_PG | 4 << 5, both, s.flags);
    uint64_t end = vl / 8, half = end / 2;
    put_p(&s, 4, ones(1, end));
    s.ffr = ones(0, half);
    expect_read_ffr(s, RDFFRS_PG | 4 << 5, ones(1, half), (struct plokamyr_flags){.n = true, .c = true});
    s.ffr = ones(half, end);
    expect_read_ffr(s, RDFFRS_PG | 4 << 5, ones(half, end), (struct plokamyr_flags){.n = false});
    s.ffr = ones(0, 1);
    expect_read_ffr(s, RDFFRS_PG | 4 << 5, ones(0, 0), (struct plokamyr_flags){.z = true, .c = true});
    put_p(&s, 5, ones(2, half));
    s.ffr = ones(0, end);
    expect_read_ffr(s, RDFFRS_PG | 5 << 5, ones(2, half), (struct plokamyr_flags){.n = true}); /* Pd is Pg */
    struct plokamyr_state after = both_steps(&s, SETFFR, PLOKAMYR_DONE);
    CHECK(same_state(&after, &s));
}

/* 14 comes after 4, 2 and 3. */
static void ffr_refusals(void) {
    struct plokamyr_state s = sample(1024);
    struct plokamyr_predicate p = ones(0, 70);
    p.words[1] ^= 1; /* a hole at bit 64: each word is a run of ones but for that */
    put_p(&s, 0, p);
    expect_step(&s, WRFFR, PLOKAMYR_NOT_MONOTONIC);
    s.access = false;
    expect_step(&s, WRFFR, PLOKAMYR_ACCESS_OFF);
    s.level = 0;
    expect_step(&s, WRFFR, PLOKAMYR_LEVEL_TOO_LOW);
    s.ffr.words[2] = 1;
    expect_step(&s, WRFFR, PLOKAMYR_ILLEGAL_STATE);
}

/* ---- run */

static void run_refusals(void) {
    static const uint32_t words[2] = {PFALSE, 0};
    for (int i = 0; i < ILLEGAL; i++) {
        struct plokamyr_state s = illegal(i);
        expect_run(&s, NULL, 0, PLOKAMYR_ILLEGAL_STATE, PLOKAMYR_DONE);
        expect_run(&s, words, 0, PLOKAMYR_ILLEGAL_STATE, PLOKAMYR_DONE);
        expect_run(&s, words, 2, PLOKAMYR_ILLEGAL_STATE, PLOKAMYR_DONE);
        expect_run(&s, foreign + i % FOREIGN, 1, PLOKAMYR_ILLEGAL_STATE, PLOKAMYR_DONE);
        expect_run(&s, unsupported + i % UNSUPPORTED, 1, PLOKAMYR_ILLEGAL_STATE, PLOKAMYR_DONE);
    }
    struct plokamyr_state s = with_level(0);
    s.access = false;
    expect_run(&s, NULL, 0, PLOKAMYR_DONE, PLOKAMYR_DONE);
    expect_run(&s, words, 0, PLOKAMYR_DONE, PLOKAMYR_DONE);
    for (int i = 0; i < FOREIGN; i++) expect_run(&s, foreign + i, 1, PLOKAMYR_DONE, PLOKAMYR_FOREIGN_WORD);
    for (int i = 0; i < UNSUPPORTED; i++) expect_run(&s, unsupported + i, 1, PLOKAMYR_DONE, PLOKAMYR_UNSUPPORTED_FORM);
    expect_run(&s, words, 2, PLOKAMYR_DONE, PLOKAMYR_LEVEL_TOO_LOW);
    s.level = 3;
    expect_run(&s, words, 2, PLOKAMYR_DONE, PLOKAMYR_ACCESS_OFF);
}

/* A refused word keeps what those before it did. */
static void expect_three(const struct plokamyr_state *s, const uint32_t *words, size_t count, enum plokamyr_reply refused) {
    struct plokamyr_state after = *s;
    memset(after.p, 0, 3 * sizeof after.p[0]);
    memset(after.counts, 0, 3 * sizeof after.counts[0]);
    struct plokamyr_ran ran = run_from(s, words, count);
    CHECK(ran.reply == PLOKAMYR_DONE);
    CHECK(ran.refused == refused);
    CHECK(ran.done == 3);
    CHECK(same_state(&runner.value, &after));
}

static void run_stops(void) {
    uint32_t words[5] = {PFALSE, PFALSE + 1, PFALSE + 2, WHILEGE, PFALSE + 3};
    struct plokamyr_state s = with_level(1);
    expect_three(&s, words, 3, PLOKAMYR_DONE);
    expect_three(&s, words, 4, PLOKAMYR_LEVEL_TOO_LOW);
    expect_three(&s, words, 5, PLOKAMYR_LEVEL_TOO_LOW);
    for (int i = 0; i < FOREIGN; i++) {
        words[3] = foreign[i];
        expect_three(&s, words, 5, PLOKAMYR_FOREIGN_WORD);
    }
    for (int i = 0; i < UNSUPPORTED; i++) {
        words[3] = unsupported[i];
        expect_three(&s, words, 5, PLOKAMYR_UNSUPPORTED_FORM);
    }
    put_p(&s, 9, ones(1, 3));
    words[3] = WRFFR | 9 << 5;
    expect_three(&s, words, 5, PLOKAMYR_NOT_MONOTONIC);
}

int main(void) {
    step_refusals();
    steps_agree();
    counters_read();
    searches();
    ffr_refusals();
    for (int i = 0; i < 5; i++) {
        ffr_written(lengths[i]);
        ffr_read(lengths[i]);
    }
    run_refusals();
    run_stops();
    return finish("edges");
}
