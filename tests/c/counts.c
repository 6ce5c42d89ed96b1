/* The counts that a state keeps: each wrong one is refused by every entry, and any state gets its own. */
#include "expect.h"

/* A state that every entry refuses with 4. */
static void expect_illegal(const struct plokamyr_state *s) {
    static const uint32_t words[2] = {PFALSE, 0};
    expect_step(s, PFALSE, PLOKAMYR_ILLEGAL_STATE);
    expect_step(s, 0, PLOKAMYR_ILLEGAL_STATE);
    expect_run(s, NULL, 0, PLOKAMYR_ILLEGAL_STATE, PLOKAMYR_DONE);
    expect_run(s, words, 2, PLOKAMYR_ILLEGAL_STATE, PLOKAMYR_DONE);
    expect_walk(s, good, PLACES, 100, PLOKAMYR_ILLEGAL_STATE);
    expect_write(s, 0, PLOKAMYR_IMAGE_MAX, PLOKAMYR_ILLEGAL_STATE);
}

/* Each count of each register by itself: one more, one less, none, the most, another high byte; and two sizes of it exchanged. */
static void wrong_counts(uint64_t vl) {
    struct plokamyr_state right = sample(vl);
    expect_run(&right, NULL, 0, PLOKAMYR_DONE, PLOKAMYR_DONE);
    for (int i = 0; i < 16 * 4; i++) {
        struct plokamyr_state s = right;
        uint16_t *count = count_at(&s, i / 4, i % 4), *other = count_at(&s, i / 4, (i + 1) % 4), kept = *count, kept_other = *other;
        const uint16_t wrong[5] = {(uint16_t)(kept + 1), (uint16_t)(kept - 1), 0, UINT16_MAX, kept ^ 0x100};
        for (int k = 0; k < 5; k++) {
            *count = wrong[k];
            if (*count != kept) expect_illegal(&s);
        }
        *count = kept_other;
        *other = kept;
        if (*count != kept) expect_illegal(&s);
        s = plokamyr_counted(s);
        CHECK(same_state(&s, &right));
    }
}

static void expect_counted(struct plokamyr_state s) {
    struct plokamyr_state expected = recounted(s);
    fill(s.counts, sizeof s.counts);
    struct plokamyr_state given = s, counted = plokamyr_counted(s);
    CHECK(same_state(&counted, &expected));
    CHECK(same_state(&s, &given));
}

/* Of any length, with bits in all places; and whatever is illegal otherwise. */
static void counted_states(void) {
    struct plokamyr_state s = sample(2048);
    for (int k = 0; k < 4; k++) s.p[15].words[k] = UINT64_MAX;
    for (s.vl = 0; s.vl <= 2100; s.vl++) expect_counted(s);
    static const uint64_t far[5] = {4096, 0x100000080, UINT64_C(1) << 63, (UINT64_C(1) << 63) + 2048, UINT64_MAX};
    for (int i = 0; i < 5; i++) {
        s.vl = far[i];
        expect_counted(s);
    }
    for (int i = 0; i < ILLEGAL; i++) expect_counted(illegal(i));
}

/* INCP x0 by each register at each size adds the count, and DECP takes it away. */
static void counts_added(uint64_t vl) {
    for (uint32_t i = 0; i < 16 * 4; i++) {
        struct plokamyr_state s = sample(vl), after;
        uint64_t x = s.x[0], count = *count_at(&s, (int)i / 4, (int)i % 4);
        after = both_steps(&s, 0x252C8800 + (i % 4 << 22) + (i / 4 << 5), PLOKAMYR_DONE);
        CHECK(after.x[0] == x + count);
        after = both_steps(&s, 0x252D8800 + (i % 4 << 22) + (i / 4 << 5), PLOKAMYR_DONE);
        CHECK(after.x[0] == x - count);
    }
}

int main(void) {
    counted_states();
    for (int i = 0; i < 5; i++) {
        wrong_counts(lengths[i]);
        counts_added(lengths[i]);
    }
    return finish("counts");
}
