/* What several tests expect of a step, a run, a walk and a write. */
#ifndef EXPECT_H
#define EXPECT_H

#include "cases.h"

/* ---- step */

static inline void check_counts(const struct plokamyr_state *s) {
    struct plokamyr_state anew = recounted(*s);
    CHECK(same_state(s, &anew));
}

/* A step in place and one over a lent state give the same reply and leave the same state, which is answered. One that is done leaves right counts. */
static inline struct plokamyr_state both_steps(const struct plokamyr_state *s, uint32_t word, enum plokamyr_reply reply) {
    static GUARDED(struct plokamyr_state value) in_place, lent;
    FILL(in_place);
    FILL(lent);
    in_place.value = lent.value = *s;
    CHECK(plokamyr_step(&in_place.value, word) == reply);
    CHECK(plokamyr_step_lent(&lent.value, word) == reply);
    CHECK(same_state(&in_place.value, &lent.value));
    CHECK_GUARDS(in_place);
    CHECK_GUARDS(lent);
    if (reply == PLOKAMYR_DONE) check_counts(&in_place.value);
    return in_place.value;
}

static inline void expect_step(const struct plokamyr_state *s, uint32_t word, enum plokamyr_reply reply) {
    struct plokamyr_state after = both_steps(s, word, reply);
    CHECK(same_state(&after, s));
}

/* ---- run */

static GUARDED(struct plokamyr_state value) runner;

static inline struct plokamyr_ran run_from(const struct plokamyr_state *s, const uint32_t *words, size_t count) {
    FILL(runner);
    runner.value = *s;
    poison_stack();
    struct plokamyr_ran ran = plokamyr_run(&runner.value, words, count);
    CHECK_GUARDS(runner);
    return ran;
}

/* A run that does nothing. */
static inline void expect_run(const struct plokamyr_state *s, const uint32_t *words, size_t count, enum plokamyr_reply reply, enum plokamyr_reply refused) {
    struct plokamyr_ran ran = run_from(s, words, count);
    CHECK(ran.reply == reply);
    CHECK(ran.refused == refused);
    CHECK(ran.done == 0);
    CHECK(same_state(&runner.value, s));
}

/* ---- walk */

struct route {
    uint32_t size, n, m, d, k;
};

enum { PLACES = 300 };
static GUARDED(uint64_t value[PLACES]) list;

static inline struct plokamyr_walked go(const struct plokamyr_state *s, struct route r, size_t places, uint64_t budget) {
    FILL(list);
    return plokamyr_walk(*s, r.size, r.n, r.m, r.d, r.k, places ? list.value : NULL, places, budget);
}

static inline void expect_walk(const struct plokamyr_state *s, struct route r, size_t places, uint64_t budget, enum plokamyr_reply reply) {
    struct plokamyr_walked walked = go(s, r, places, budget);
    CHECK(walked.reply == reply);
    CHECK(walked.count == 0);
    CHECK(walked.visited == 0);
    CHECK(same_state(&walked.state, s));
    CHECK(is_filled(&list, sizeof list));
}

/* X1 to X2 are three positions. */
static const struct route good = {0, 1, 2, 3, 4};

/* ---- write */

static uint32_t many[PLOKAMYR_WORDS_MAX + 1];
static GUARDED(uint8_t value[PLOKAMYR_IMAGE_MAX]) written_image;

static inline void expect_write(const struct plokamyr_state *s, size_t count, size_t room, enum plokamyr_reply reply) {
    struct plokamyr_state given = *s;
    FILL(written_image);
    poison_stack();
    struct plokamyr_written written = plokamyr_write(given, count ? many : NULL, count, room ? written_image.value : NULL, room);
    CHECK(written.reply == reply);
    CHECK(written.length == 0);
    CHECK(is_filled(&written_image, sizeof written_image));
    CHECK(same_state(&given, s));
}

#endif
