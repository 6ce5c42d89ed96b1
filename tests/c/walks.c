/* Every refusal of a walk, in its order, and that it leaves all as it was; numbers past their range; a walk by each budget against a plain one. */
#include "expect.h"

static struct plokamyr_state walker(uint64_t vl) {
    struct plokamyr_state s = sample(vl);
    s.x[1] = 1000;
    s.x[2] = 1003;
    return s;
}

static void walk_registers(void) {
    struct plokamyr_state s = walker(128);
    s.level = 0;
    s.access = false;
    static const uint32_t past[7] = {32, 33, 64, 255, 256, 0x10000, 0xFFFFFFFF};
    for (int i = 0; i < 7; i++) {
        expect_walk(&s, (struct route){past[i], 1, 2, 3, 4}, 0, 0, PLOKAMYR_BAD_WALK_REGISTERS);
        expect_walk(&s, (struct route){0, past[i], 2, 3, 4}, 0, 0, PLOKAMYR_BAD_WALK_REGISTERS);
        expect_walk(&s, (struct route){0, 1, past[i], 3, 4}, 0, 0, PLOKAMYR_BAD_WALK_REGISTERS);
        expect_walk(&s, (struct route){0, 1, 2, past[i], 4}, 0, 0, PLOKAMYR_BAD_WALK_REGISTERS);
        expect_walk(&s, (struct route){0, 1, 2, 3, past[i]}, 0, 0, PLOKAMYR_BAD_WALK_REGISTERS);
    }
    expect_walk(&s, (struct route){4, 1, 2, 3, 4}, 0, 0, PLOKAMYR_BAD_WALK_REGISTERS);
    expect_walk(&s, (struct route){0, 31, 2, 3, 4}, 0, 0, PLOKAMYR_BAD_WALK_REGISTERS);
    expect_walk(&s, (struct route){0, 1, 2, 16, 4}, 0, 0, PLOKAMYR_BAD_WALK_REGISTERS);
    expect_walk(&s, (struct route){0, 1, 2, 3, 16}, 0, 0, PLOKAMYR_BAD_WALK_REGISTERS);
    expect_walk(&s, (struct route){0, 2, 2, 3, 4}, 0, 0, PLOKAMYR_BAD_WALK_REGISTERS);
    expect_walk(&s, (struct route){0, 1, 2, 4, 4}, 0, 0, PLOKAMYR_BAD_WALK_REGISTERS);
}

static void walk_refusals(void) {
    for (int i = 0; i < ILLEGAL; i++) {
        struct plokamyr_state s = illegal(i);
        s.access = false;
        expect_walk(&s, good, PLACES, 100, PLOKAMYR_ILLEGAL_STATE);
        expect_walk(&s, (struct route){4, 32, 32, 16, 16}, 0, 0, PLOKAMYR_ILLEGAL_STATE);
    }
    struct plokamyr_state s = walker(128);
    s.level = 0;
    s.access = false;
    expect_walk(&s, good, 0, 0, PLOKAMYR_LEVEL_TOO_LOW);
    s.level = 1;
    expect_walk(&s, good, 0, 0, PLOKAMYR_ACCESS_OFF);
    s.access = true;
    expect_walk(&s, good, 0, 100, PLOKAMYR_LIST_TOO_SHORT);
    expect_walk(&s, good, 2, 100, PLOKAMYR_LIST_TOO_SHORT);
    expect_walk(&s, good, 2, 0, PLOKAMYR_LIST_TOO_SHORT);
    s.x[1] = 0;
    s.x[2] = UINT64_MAX;
    expect_walk(&s, good, PLACES, UINT64_MAX, PLOKAMYR_LIST_TOO_SHORT);
    expect_walk(&s, (struct route){3, 1, 2, 3, 4}, PLACES, 0, PLOKAMYR_LIST_TOO_SHORT);
    s.x[2] = 3;
    expect_walk(&s, good, 3, 0, PLOKAMYR_BUDGET_SPENT); /* none executed, so that it changes nothing either */
}

/* The instruction words of a walk, and the walk as the paper goes through it, a word at a time. */
static uint32_t walk_word(struct route r, char which) {
    switch (which) {
        case 'f': return PFALSE + r.k;
        case 'w': return 0x25201C00 + (r.size << 22) + (r.m << 16) + (r.n << 5) + r.d;
        case 'p': return 0x2519C400 + (r.size << 22) + (r.d << 5) + r.k;
        default: return 0x252C8800 + (r.size << 22) + (r.d << 5) + r.n;
    }
}

static uint64_t true_element(const struct plokamyr_predicate *p, uint32_t size) {
    uint64_t bit = 0;
    while (!(p->words[bit / 64] >> (bit % 64) & 1)) bit++;
    return bit >> size;
}

static struct plokamyr_walked plain_walk(struct plokamyr_state s, struct route r, uint64_t *places, uint64_t budget) {
    uint64_t count = 0;
    size_t visited = 0;
    char next = 'f';
    while (next != 'e' && count < budget) {
        CHECK(plokamyr_step(&s, walk_word(r, next)) == PLOKAMYR_DONE);
        count++;
        if (next == 'w') {
            next = s.flags.z ? 'e' : 'p';
        } else if (next == 'p' && !s.flags.z) {
            places[visited++] = s.x[r.n] + true_element(&s.p[r.k], r.size);
        } else {
            next = next == 'p' ? 'i' : 'w';
        }
    }
    return (struct plokamyr_walked){next == 'e' ? PLOKAMYR_DONE : PLOKAMYR_BUDGET_SPENT, count, visited, s};
}

static void check_budget(const struct plokamyr_state *s, struct route r, size_t places, uint64_t budget) {
    static uint64_t plain_list[PLACES];
    FILL(plain_list);
    struct plokamyr_walked plain = plain_walk(*s, r, plain_list, budget);
    struct plokamyr_walked walked = go(s, r, places, budget);
    CHECK(walked.reply == plain.reply);
    CHECK(walked.count == plain.count);
    CHECK(walked.visited == plain.visited);
    CHECK(same_state(&walked.state, &plain.state));
    check_counts(&walked.state);
    CHECK(memcmp(list.value, plain_list, sizeof plain_list) == 0);
    CHECK_GUARDS(list);
}

/* Every budget, for a full vector and part of a second. */
static void walk_budgets(void) {
    for (int i = 0; i < 5; i++) {
        for (uint32_t size = 0; size < 4; size++) {
            struct plokamyr_state s = walker(lengths[i]);
            uint64_t elements = lengths[i] / 8 >> size, positions = elements + 1;
            s.x[2] = s.x[1] + positions;
            struct route r = {size, 1, 2, 15, 0};
            for (uint64_t budget = 0; budget <= positions + 3 * 2 + 3; budget++) check_budget(&s, r, positions, budget);
            check_budget(&s, r, PLACES, UINT64_MAX);
        }
    }
}

/* No position: a null list will do, also with register 31 as the limit. */
static void walk_nowhere(void) {
    struct plokamyr_state s = walker(256);
    for (uint64_t budget = 0; budget < 4; budget++) {
        check_budget(&s, (struct route){0, 2, 1, 3, 4}, 0, budget);
        check_budget(&s, (struct route){0, 1, 31, 3, 4}, 0, budget);
    }
    s.x[1] = UINT64_MAX - 2;
    s.x[2] = UINT64_MAX;
    check_budget(&s, good, 2, 100);
    check_budget(&s, (struct route){3, 1, 2, 3, 4}, 2, 100);
}

int main(void) {
    walk_registers();
    walk_refusals();
    walk_budgets();
    walk_nowhere();
    return finish("walks");
}
