/* Two kernels on one register file: which registers each may name, every refusal in its order, and that it leaves all as it was. What is done is what
 * an ordinary step or walk does on the state with the kernel's flags. The other kernel does not notice. */
#include "cases.h"

/* The first and the last register of each kernel, and 31, which both may name. */
static const uint8_t x_edges[5] = {0, 15, 16, 30, 31}, p_edges[4] = {0, 7, 8, 15};

static bool owns_x(bool second, uint32_t x) {
    return x == 31 || (second ? x >= 16 : x <= 15);
}

static bool owns_p(bool second, uint32_t p) {
    return second ? p >= 8 : p <= 7;
}

static struct plokamyr_shared shared_of(struct plokamyr_state state) {
    struct plokamyr_shared shared = shared_sample(128);
    shared.state = state;
    return shared;
}

/* ---- step */

static void expect_refused(const struct plokamyr_shared *s, bool second, uint32_t word, enum plokamyr_reply reply) {
    poison_stack();
    struct plokamyr_shared_stepped stepped = plokamyr_shared_step(*s, second, word);
    CHECK(stepped.reply == reply);
    CHECK(same_shared(&stepped.shared, s));
}

static void expect_done(const struct plokamyr_shared *s, bool second, uint32_t word) {
    struct plokamyr_shared after = *s;
    exchange_flags(&after, second);
    CHECK(plokamyr_step(&after.state, word) == PLOKAMYR_DONE);
    exchange_flags(&after, second);
    poison_stack();
    struct plokamyr_shared_stepped stepped = plokamyr_shared_step(*s, second, word);
    CHECK(stepped.reply == PLOKAMYR_DONE);
    CHECK(same_shared(&stepped.shared, &after));
}

static void expect_step(const struct plokamyr_shared *s, bool second, uint32_t word, bool owned) {
    if (owned) expect_done(s, second, word);
    else expect_refused(s, second, word, PLOKAMYR_NOT_OWNED);
}

/* What each field of a form names: X, P, the pair P(2 N) and P(2 N + 1), the counter P(8 + N), or nothing. F stands for FFR, which has no field. */
enum { FORMS = 17 };
static const char named[FORMS][PLOKAMYR_ROW] = {
    [PLOKAMYR_WHILE_ONE] = ".X...X.P",
    [PLOKAMYR_WHILE_PAIR] = ".X..X2.",
    [PLOKAMYR_WHILE_COUNTER] = ".X...X.8",
    [PLOKAMYR_SATURATING] = "....PX",
    [PLOKAMYR_INC_DEC] = "..PX",
    [PLOKAMYR_CNTP] = ".PPX",
    [PLOKAMYR_CNTP_COUNTER] = "..PX",
    [PLOKAMYR_PNEXT] = ".PP",
    [PLOKAMYR_PFIRST] = "PP",
    [PLOKAMYR_PTEST] = "PP",
    [PLOKAMYR_PFALSE] = "P",
    [PLOKAMYR_LOGIC] = "..PP.P.P",
    [PLOKAMYR_SETFFR] = "F",
    [PLOKAMYR_WRFFR] = "PF",
    [PLOKAMYR_RDFFR] = "PF",
    [PLOKAMYR_RDFFR_PG] = "PPF",
    [PLOKAMYR_RDFFRS_PG] = "PPF",
};

static bool owns_field(bool second, char kind, uint32_t number) {
    switch (kind) {
        case 'X': return owns_x(second, number);
        case 'P': return owns_p(second, number);
        case '2': return owns_p(second, 2 * number) && owns_p(second, 2 * number + 1);
        case '8': return owns_p(second, 8 + number);
        default: return kind != 'F';
    }
}

/* SEL has no word with S = 1. */
static bool is_sel_with_s(const uint8_t row[PLOKAMYR_ROW]) {
    return row[0] == PLOKAMYR_LOGIC && row[1] == 0 && row[2] == 1 && row[5] == 1 && row[7] == 1;
}

/* Both kernels, with the word of a row. */
static void expect_row(const uint8_t row[PLOKAMYR_ROW]) {
    static unsigned rows;
    if (is_sel_with_s(row)) return;
    uint32_t word = 0;
    CHECK(plokamyr_encode(row, &word) == PLOKAMYR_DONE);
    struct plokamyr_shared s = shared_sample(lengths[rows++ % 5]);
    for (int second = 0; second < 2; second++) {
        bool owned = true;
        for (int i = 0; named[row[0]][i]; i++) owned = owned && owns_field(second, named[row[0]][i], row[i + 1]);
        expect_step(&s, second, word, owned);
    }
}

/* All rows from a field on: with the edges in a field that names a register, 0 and 1 in any other. */
static void expect_rows(uint8_t row[PLOKAMYR_ROW], int field) {
    static const uint8_t low[8] = {0, 1, 2, 3, 4, 5, 6, 7};
    char kind = named[row[0]][field];
    if (kind == 0 || kind == 'F') {
        expect_row(row);
        return;
    }
    const uint8_t *numbers = kind == 'X' ? x_edges : kind == 'P' ? p_edges : low;
    int count = kind == 'X' ? 5 : kind == 'P' ? 4 : kind == '.' ? 2 : 8;
    for (int i = 0; i < count; i++) {
        row[field + 1] = numbers[i];
        expect_rows(row, field + 1);
    }
}

static void owners(void) {
    for (uint8_t form = 0; form < FORMS; form++) {
        uint8_t row[PLOKAMYR_ROW] = {form};
        expect_rows(row, 0);
    }
}

/* Every register, as each operand of WHILELO, INCP and ANDS whose other registers are the kernel's own. */
static void each_register(bool second) {
    struct plokamyr_shared s = shared_sample(256);
    uint32_t x = second ? 16 : 0, p = second ? 8 : 0;
    for (uint32_t i = 0; i < 32; i++) {
        expect_step(&s, second, 0x25201C00 | i << 16 | x << 5 | p, owns_x(second, i));
        expect_step(&s, second, 0x25201C00 | x << 16 | i << 5 | p, owns_x(second, i));
        expect_step(&s, second, 0x252C8800 | p << 5 | i, owns_x(second, i));
    }
    for (uint32_t i = 0; i < 16; i++) {
        expect_step(&s, second, 0x25404000 | i << 16 | p << 10 | p << 5 | p, owns_p(second, i));
        expect_step(&s, second, 0x25404000 | p << 16 | i << 10 | p << 5 | p, owns_p(second, i));
        expect_step(&s, second, 0x25404000 | p << 16 | p << 10 | i << 5 | p, owns_p(second, i));
        expect_step(&s, second, 0x25404000 | p << 16 | p << 10 | p << 5 | i, owns_p(second, i));
    }
}

/* ---- the order of a word's refusals */

/* Words that name a register of the other kernel, or touch FFR, with the level that they ask. */
enum { OTHERS = 8 };
static const struct {
    uint32_t word;
    uint8_t level;
} others[2][OTHERS] = {
    {{PFALSE | 8, 1}, {WHILEGE | 8, 2}, {WHILE_COUNTER, 3}, {SETFFR, 1}, {WRFFR, 1}, {RDFFR, 1}, {RDFFR_PG, 1}, {RDFFRS_PG, 1}},
    {{PFALSE, 1},
     {WHILEGE, 2},
     {CNTP_COUNTER, 3},
     {SETFFR, 1},
     {WRFFR | 8 << 5, 1},
     {RDFFR | 8, 1},
     {RDFFR_PG | 8 << 5 | 8, 1},
     {RDFFRS_PG | 8 << 5 | 8, 1}},
};

static void illegal_states(bool second) {
    for (int i = 0; i < ILLEGAL; i++) {
        struct plokamyr_shared s = shared_of(illegal(i));
        for (int access = 0; access < 2; access++) {
            s.state.access = access;
            expect_refused(&s, second, second ? PFALSE | 8 : PFALSE, PLOKAMYR_ILLEGAL_STATE);
            for (int k = 0; k < OTHERS; k++) expect_refused(&s, second, others[second][k].word, PLOKAMYR_ILLEGAL_STATE);
            expect_refused(&s, second, foreign[i % FOREIGN], PLOKAMYR_ILLEGAL_STATE);
            expect_refused(&s, second, unsupported[i % UNSUPPORTED], PLOKAMYR_ILLEGAL_STATE);
        }
    }
}

static void word_refusals(bool second) {
    for (uint8_t level = 0; level < 4; level++) {
        for (int access = 0; access < 2; access++) {
            struct plokamyr_shared s = shared_of(with_level(level));
            s.state.access = access;
            for (int i = 0; i < FOREIGN; i++) expect_refused(&s, second, foreign[i], PLOKAMYR_FOREIGN_WORD);
            for (int i = 0; i < UNSUPPORTED; i++) expect_refused(&s, second, unsupported[i], PLOKAMYR_UNSUPPORTED_FORM);
            for (int i = 0; i < OTHERS; i++) {
                enum plokamyr_reply reply = access ? PLOKAMYR_NOT_OWNED : PLOKAMYR_ACCESS_OFF;
                if (level < others[second][i].level) reply = PLOKAMYR_LEVEL_TOO_LOW;
                expect_refused(&s, second, others[second][i].word, reply);
            }
        }
    }
}

/* WRFFR of what is no run of ones gets 14 from an ordinary step, and 15 from either kernel's. */
static void no_fourteen(bool second) {
    struct plokamyr_shared s = shared_sample(512);
    put_p(&s.state, second ? 8 : 0, (struct plokamyr_predicate){{2}});
    uint32_t word = WRFFR | (second ? 8 << 5 : 0);
    struct plokamyr_state stepped = s.state;
    CHECK(plokamyr_step(&stepped, word) == PLOKAMYR_NOT_MONOTONIC);
    expect_refused(&s, second, word, PLOKAMYR_NOT_OWNED);
}

/* ---- walk */

struct route {
    uint32_t size, n, m, d, k;
};

enum { PLACES = 300 };
static GUARDED(uint64_t value[PLACES]) list;

static struct plokamyr_shared_walked go(const struct plokamyr_shared *s, bool second, struct route r, size_t places, uint64_t budget) {
    FILL(list);
    poison_stack();
    return plokamyr_shared_walk(*s, second, r.size, r.n, r.m, r.d, r.k, places ? list.value : NULL, places, budget);
}

static void expect_no_walk(const struct plokamyr_shared *s, bool second, struct route r, size_t places, uint64_t budget, enum plokamyr_reply reply) {
    struct plokamyr_shared_walked walked = go(s, second, r, places, budget);
    CHECK(walked.reply == reply);
    CHECK(walked.count == 0);
    CHECK(walked.visited == 0);
    CHECK(same_shared(&walked.shared, s));
    CHECK(is_filled(&list, sizeof list));
}

/* A walk that goes as far as its budget. */
static void expect_walk(const struct plokamyr_shared *s, bool second, struct route r, size_t places, uint64_t budget, enum plokamyr_reply reply) {
    static uint64_t alone[PLACES];
    struct plokamyr_shared after = *s;
    FILL(alone);
    exchange_flags(&after, second);
    struct plokamyr_walked ordinary = plokamyr_walk(after.state, r.size, r.n, r.m, r.d, r.k, places ? alone : NULL, places, budget);
    after.state = ordinary.state;
    exchange_flags(&after, second);
    struct plokamyr_shared_walked walked = go(s, second, r, places, budget);
    CHECK(ordinary.reply == reply);
    CHECK(walked.reply == reply);
    CHECK(walked.count == ordinary.count);
    CHECK(walked.visited == ordinary.visited);
    CHECK(same_shared(&walked.shared, &after));
    CHECK(memcmp(list.value, alone, sizeof alone) == 0);
    CHECK_GUARDS(list);
}

/* A walk of each kernel, of three positions. */
static const struct route good[2] = {{0, 1, 2, 3, 4}, {0, 17, 18, 11, 12}};

static struct plokamyr_shared walker(uint64_t vl) {
    struct plokamyr_shared s = shared_sample(vl);
    s.state.x[1] = s.state.x[17] = 1000;
    s.state.x[2] = s.state.x[18] = 1003;
    return s;
}

/* All edges of all four registers. */
static void walk_owners(void) {
    for (uint32_t i = 0; i < 4 * 5 * 4 * 4; i++) {
        struct route r = {i / 5 % 4, x_edges[i % 4], x_edges[i / 4 % 5], p_edges[i / 20 % 4], p_edges[i / 80 % 4]};
        if (r.n == r.m || r.d == r.k) continue;
        struct plokamyr_shared s = walker(lengths[i % 5]);
        s.state.x[r.n] = 1000;
        if (r.m < 31) s.state.x[r.m] = 1003;
        size_t places = r.m < 31 ? 3 : 0; /* up to 31, which reads as zero, there is no position */
        for (int second = 0; second < 2; second++) {
            bool owned = owns_x(second, r.n) && owns_x(second, r.m) && owns_p(second, r.d) && owns_p(second, r.k);
            if (owned) expect_walk(&s, second, r, places, 100, PLOKAMYR_DONE);
            else expect_no_walk(&s, second, r, places, 100, PLOKAMYR_NOT_OWNED);
        }
    }
}

/* Each refusal with all that come after it in the order. */
static void walk_refusals(bool second) {
    struct route other = good[!second], bad = {4, 32, 32, 16, 16}, mixed_up = good[second];
    mixed_up.k = mixed_up.d;
    for (int i = 0; i < ILLEGAL; i++) {
        struct plokamyr_shared s = shared_of(illegal(i));
        s.state.access = false;
        expect_no_walk(&s, second, bad, 0, 0, PLOKAMYR_ILLEGAL_STATE);
        expect_no_walk(&s, second, other, 0, 0, PLOKAMYR_ILLEGAL_STATE);
        expect_no_walk(&s, second, good[second], PLACES, 100, PLOKAMYR_ILLEGAL_STATE);
    }
    struct plokamyr_shared s = walker(128);
    s.state.level = 0;
    s.state.access = false;
    expect_no_walk(&s, second, bad, 0, 0, PLOKAMYR_BAD_WALK_REGISTERS);
    expect_no_walk(&s, second, mixed_up, 0, 0, PLOKAMYR_BAD_WALK_REGISTERS);
    expect_no_walk(&s, second, other, 0, 0, PLOKAMYR_LEVEL_TOO_LOW);
    s.state.level = 1;
    expect_no_walk(&s, second, other, 0, 0, PLOKAMYR_ACCESS_OFF);
    s.state.access = true;
    expect_no_walk(&s, second, bad, 0, 0, PLOKAMYR_BAD_WALK_REGISTERS);
    expect_no_walk(&s, second, other, 0, 0, PLOKAMYR_NOT_OWNED);
    expect_no_walk(&s, second, other, PLACES, 0, PLOKAMYR_NOT_OWNED);
    expect_no_walk(&s, second, other, PLACES, 100, PLOKAMYR_NOT_OWNED);
    expect_no_walk(&s, second, good[second], 0, 0, PLOKAMYR_LIST_TOO_SHORT);
    expect_no_walk(&s, second, good[second], 2, 100, PLOKAMYR_LIST_TOO_SHORT);
    expect_walk(&s, second, good[second], 3, 0, PLOKAMYR_BUDGET_SPENT);
}

/* A number past its range gets 10, whichever kernel owns the register of its low bits; so does n = 31, which is open to both. */
static void walk_registers(bool second) {
    struct plokamyr_shared s = walker(1024);
    static const uint32_t past[5] = {32, 64, 256, 0x10000, 0xFFFFFFE0};
    for (int i = 0; i < 2 * 5 * 5; i++) {
        struct route r = good[i % 2];
        uint32_t *const numbers[5] = {&r.size, &r.n, &r.m, &r.d, &r.k};
        *numbers[i / 2 % 5] += past[i / 10];
        expect_no_walk(&s, second, r, PLACES, 100, PLOKAMYR_BAD_WALK_REGISTERS);
        r = good[i % 2];
        r.n = 31;
        expect_no_walk(&s, second, r, PLACES, 100, PLOKAMYR_BAD_WALK_REGISTERS);
    }
}

/* Every budget, for a full vector and part of a second. */
static void walk_budgets(bool second) {
    for (int i = 0; i < 5; i++) {
        for (uint32_t size = 0; size < 4; size++) {
            struct plokamyr_shared s = walker(lengths[i]);
            struct route r = good[second];
            uint64_t elements = lengths[i] / 8 >> size, positions = elements + 1, whole = positions + 3 * 2 + 2;
            r.size = size;
            s.state.x[r.m] = s.state.x[r.n] + positions;
            for (uint64_t budget = 0; budget <= whole + 1; budget++) {
                expect_walk(&s, second, r, positions, budget, budget < whole ? PLOKAMYR_BUDGET_SPENT : PLOKAMYR_DONE);
            }
        }
    }
}

/* ---- turns */

/* Words of each kernel. The third names registers of the other, the fifth touches FFR. */
enum { WORDS = 6 };
static const uint32_t words_of[2][WORDS] = {
    {0x25A21C20 /* WHILELO p0.s, x1, x2 */, 0x25AC8800 /* INCP x0, p0.s */, 0x25AC8910, 0x2550C020 /* PTEST p0, p1.b */, WRFFR,
     0x2558C001 /* PFIRST p1.b, p0, p1.b */},
    {0x25B21E28 /* WHILELO p8.s, x17, x18 */, 0x25AC8910 /* INCP x16, p8.s */, 0x25AC8800, 0x2550E120 /* PTEST p8, p9.b */, SETFFR,
     0x2558C109 /* PFIRST p9.b, p8, p9.b */},
};

static struct plokamyr_shared turn(struct plokamyr_shared s, bool second, int number) {
    enum plokamyr_reply reply = number == 2 || number == 4 ? PLOKAMYR_NOT_OWNED : PLOKAMYR_DONE;
    struct plokamyr_shared_stepped stepped = plokamyr_shared_step(s, second, words_of[second][number]);
    CHECK(stepped.reply == reply);
    return stepped.shared;
}

/* The words of both, each kernel's in their order: bit i tells whose turn the i-th is. */
static struct plokamyr_shared take_turns(struct plokamyr_shared s, unsigned turns) {
    int taken[2] = {0, 0};
    for (int i = 0; i < 2 * WORDS; i++) {
        int second = turns >> i & 1;
        s = turn(s, second, taken[second]++);
    }
    return s;
}

static int bits_of(unsigned number) {
    int bits = 0;
    for (; number; number >>= 1) bits += number & 1;
    return bits;
}

/* Wherever the turns fall, both leave the same. */
static void turns(uint64_t vl) {
    struct plokamyr_shared s = walker(vl), expected = take_turns(s, 0xFC0);
    for (unsigned turns = 0; turns < 1u << (2 * WORDS); turns++) {
        if (bits_of(turns) != WORDS) continue;
        struct plokamyr_shared after = take_turns(s, turns);
        CHECK(same_shared(&after, &expected));
    }
}

/* What a kernel owns, put from one shared state into another. */
static void put_own(struct plokamyr_shared *to, const struct plokamyr_shared *from, bool second) {
    for (uint32_t i = 0; i < 31; i++) {
        if (owns_x(second, i)) to->state.x[i] = from->state.x[i];
    }
    for (uint32_t i = 0; i < 16; i++) {
        if (owns_p(second, i)) put_p(&to->state, (int)i, from->state.p[i]);
    }
    if (second) to->second = from->second;
    else to->state.flags = from->state.flags;
}

/* Whatever the other kernel has, and FFR, a kernel leaves the same in its own registers and flags, and nothing else. */
static void unnoticed(uint64_t vl, bool second) {
    struct plokamyr_shared s = walker(vl), t = s;
    for (int i = 0; i < 31; i++) t.state.x[i] = ~s.state.x[i];
    for (int i = 0; i < 16; i++) put_p(&t.state, i, s.state.p[(i + 1) % 16]);
    t.state.ffr = s.state.p[0];
    t.state.flags = (struct plokamyr_flags){.n = false, .z = true, .c = false, .v = false};
    t.second = (struct plokamyr_flags){.n = true, .z = false, .c = true, .v = true};
    put_own(&t, &s, second);
    struct plokamyr_shared expected = t;
    for (int i = 0; i < WORDS; i++) {
        s = turn(s, second, i);
        t = turn(t, second, i);
        put_own(&expected, &s, second);
        CHECK(same_shared(&t, &expected));
    }
}

int main(void) {
    owners();
    for (int second = 0; second < 2; second++) {
        each_register(second);
        illegal_states(second);
        word_refusals(second);
        no_fourteen(second);
        walk_refusals(second);
        walk_registers(second);
        walk_budgets(second);
        for (int i = 0; i < 5; i++) unnoticed(lengths[i], second);
    }
    walk_owners();
    for (int i = 0; i < 5; i++) turns(lengths[i]);
    return finish("shared");
}
