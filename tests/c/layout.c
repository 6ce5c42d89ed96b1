/* The structs lie in memory as the library reads and writes them. */
#include "check.h"

static void number(void) {
    CHECK(PLOKAMYR_LAYOUT == 3);
    CHECK(plokamyr_layout_3() == PLOKAMYR_LAYOUT);
}

static void sizes(void) {
    CHECK(sizeof(enum plokamyr_reply) == 4);
    CHECK(sizeof(struct plokamyr_predicate) == 32);
    CHECK(sizeof(struct plokamyr_flags) == 4);
    CHECK(sizeof(struct plokamyr_counts) == 8);
    CHECK(sizeof(struct plokamyr_state) == 936);
    CHECK(sizeof(struct plokamyr_ran) == 16);
    CHECK(sizeof(struct plokamyr_walked) == 960);
    CHECK(sizeof(struct plokamyr_shared) == 944);
    CHECK(sizeof(struct plokamyr_shared_stepped) == 952);
    CHECK(sizeof(struct plokamyr_shared_walked) == 968);
    CHECK(sizeof(struct plokamyr_reading) == 952);
    CHECK(sizeof(struct plokamyr_written) == 16);
}

static void state_offsets(void) {
    CHECK(offsetof(struct plokamyr_predicate, words) == 0);
    CHECK(offsetof(struct plokamyr_flags, n) == 0);
    CHECK(offsetof(struct plokamyr_flags, z) == 1);
    CHECK(offsetof(struct plokamyr_flags, c) == 2);
    CHECK(offsetof(struct plokamyr_flags, v) == 3);
    CHECK(offsetof(struct plokamyr_counts, b) == 0);
    CHECK(offsetof(struct plokamyr_counts, h) == 2);
    CHECK(offsetof(struct plokamyr_counts, s) == 4);
    CHECK(offsetof(struct plokamyr_counts, d) == 6);
    CHECK(offsetof(struct plokamyr_state, vl) == 0);
    CHECK(offsetof(struct plokamyr_state, level) == 8);
    CHECK(offsetof(struct plokamyr_state, access) == 9);
    CHECK(offsetof(struct plokamyr_state, flags) == 10);
    CHECK(offsetof(struct plokamyr_state, x) == 16);
    CHECK(offsetof(struct plokamyr_state, p) == 264);
    CHECK(offsetof(struct plokamyr_state, ffr) == 776);
    CHECK(offsetof(struct plokamyr_state, counts) == 808);
    CHECK(offsetof(struct plokamyr_shared, state) == 0);
    CHECK(offsetof(struct plokamyr_shared, second) == 936);
}

static void answer_offsets(void) {
    CHECK(offsetof(struct plokamyr_ran, reply) == 0);
    CHECK(offsetof(struct plokamyr_ran, refused) == 4);
    CHECK(offsetof(struct plokamyr_ran, done) == 8);
    CHECK(offsetof(struct plokamyr_walked, reply) == 0);
    CHECK(offsetof(struct plokamyr_walked, count) == 8);
    CHECK(offsetof(struct plokamyr_walked, visited) == 16);
    CHECK(offsetof(struct plokamyr_walked, state) == 24);
    CHECK(offsetof(struct plokamyr_shared_stepped, reply) == 0);
    CHECK(offsetof(struct plokamyr_shared_stepped, shared) == 8);
    CHECK(offsetof(struct plokamyr_shared_walked, reply) == 0);
    CHECK(offsetof(struct plokamyr_shared_walked, count) == 8);
    CHECK(offsetof(struct plokamyr_shared_walked, visited) == 16);
    CHECK(offsetof(struct plokamyr_shared_walked, shared) == 24);
    CHECK(offsetof(struct plokamyr_reading, reply) == 0);
    CHECK(offsetof(struct plokamyr_reading, count) == 8);
    CHECK(offsetof(struct plokamyr_reading, state) == 16);
    CHECK(offsetof(struct plokamyr_written, reply) == 0);
    CHECK(offsetof(struct plokamyr_written, length) == 8);
}

/* ---- the image, from the fields by name */

static size_t put(uint8_t *to, size_t at, uint64_t value, size_t bytes) {
    for (size_t i = 0; i < bytes; i++) to[at + i] = (uint8_t)(value >> (8 * i));
    return at + bytes;
}

static size_t put_predicate(uint8_t *to, size_t at, const struct plokamyr_predicate *p, uint64_t vl) {
    for (size_t k = 0; k < vl / 64; k++) at = put(to, at, p->words[k / 8] >> (8 * (k % 8)), 1);
    return at;
}

static size_t put_predicates(uint8_t *to, size_t at, const struct plokamyr_state *s) {
    at = put(to, at, 16, 4);
    for (size_t i = 0; i < 16; i++) at = put_predicate(to, at, &s->p[i], s->vl);
    at = put(to, at, 1, 4);
    return put_predicate(to, at, &s->ffr, s->vl);
}

static size_t image_of(const struct plokamyr_state *s, const uint32_t *words, size_t count, uint8_t *to) {
    size_t at = put(to, 0, 3, 4);
    at = put(to, at, s->vl / 128, 1);
    at = put(to, at, s->level, 1);
    at = put(to, at, s->access ? 1 : 0, 1);
    at = put(to, at, 31, 4);
    for (size_t i = 0; i < 31; i++) at = put(to, at, s->x[i], 8);
    at = put_predicates(to, at, s);
    at = put(to, at, 4, 4);
    at = put(to, at, s->flags.n ? 1 : 0, 1);
    at = put(to, at, s->flags.z ? 1 : 0, 1);
    at = put(to, at, s->flags.c ? 1 : 0, 1);
    at = put(to, at, s->flags.v ? 1 : 0, 1);
    at = put(to, at, count, 4);
    for (size_t i = 0; i < count; i++) at = put(to, at, words[i], 4);
    return at;
}

/* ---- structs handed back
 *
 * On x86-64 Linux the place for a large one is a hidden first parameter, and the answer is its address. A C compiler names a place of
 * its own there and copies; these types let us name one that has guards. A plokamyr_ran or plokamyr_written is small and comes in registers. */

typedef struct plokamyr_walked *walk_into(struct plokamyr_walked *place, struct plokamyr_state, uint32_t, uint32_t, uint32_t, uint32_t, uint32_t,
                                          uint64_t *, size_t, uint64_t);
typedef struct plokamyr_shared_stepped *shared_step_into(struct plokamyr_shared_stepped *place, struct plokamyr_shared, bool, uint32_t);
typedef struct plokamyr_shared_walked *shared_walk_into(struct plokamyr_shared_walked *place, struct plokamyr_shared, bool, uint32_t, uint32_t,
                                                        uint32_t, uint32_t, uint32_t, uint64_t *, size_t, uint64_t);
typedef struct plokamyr_reading *read_into(struct plokamyr_reading *place, const uint8_t *, size_t, uint32_t *, size_t);
typedef struct plokamyr_state *counted_into(struct plokamyr_state *place, struct plokamyr_state);

/* volatile, so that no compiler sees through it */
static walk_into *volatile walk_in_place = (walk_into *)(void (*)(void))plokamyr_walk;
static shared_step_into *volatile shared_step_in_place = (shared_step_into *)(void (*)(void))plokamyr_shared_step;
static shared_walk_into *volatile shared_walk_in_place = (shared_walk_into *)(void (*)(void))plokamyr_shared_walk;
static read_into *volatile read_in_place = (read_into *)(void (*)(void))plokamyr_read;
static counted_into *volatile counted_in_place = (counted_into *)(void (*)(void))plokamyr_counted;

static void check_fields(const struct plokamyr_state *a, const struct plokamyr_state *b) {
    CHECK(a->vl == b->vl);
    CHECK(a->level == b->level);
    CHECK(a->access == b->access);
    CHECK(a->flags.n == b->flags.n);
    CHECK(a->flags.z == b->flags.z);
    CHECK(a->flags.c == b->flags.c);
    CHECK(a->flags.v == b->flags.v);
    for (int i = 0; i < 31; i++) CHECK(a->x[i] == b->x[i]);
    for (int i = 0; i < 16; i++) {
        for (int k = 0; k < 4; k++) CHECK(a->p[i].words[k] == b->p[i].words[k]);
    }
    for (int k = 0; k < 4; k++) CHECK(a->ffr.words[k] == b->ffr.words[k]);
    for (int i = 0; i < 16; i++) {
        CHECK(a->counts[i].b == b->counts[i].b);
        CHECK(a->counts[i].h == b->counts[i].h);
        CHECK(a->counts[i].s == b->counts[i].s);
        CHECK(a->counts[i].d == b->counts[i].d);
    }
}

/* Each count comes to its own place; all else is as it was. */
static void counted_fields(uint64_t vl) {
    static GUARDED(struct plokamyr_state value) counted;
    struct plokamyr_state s = sample(vl), uncounted = s;
    fill(uncounted.counts, sizeof uncounted.counts);
    FILL(counted);
    poison_stack();
    CHECK(counted_in_place(&counted.value, uncounted) == &counted.value);
    CHECK_GUARDS(counted);
    check_fields(&counted.value, &s);
    counted.value = plokamyr_counted(uncounted);
    check_fields(&counted.value, &s);
}

static void check_walked(const struct plokamyr_walked *walked, const struct plokamyr_state *after) {
    CHECK(walked->reply == PLOKAMYR_DONE);
    CHECK(walked->count == 2 + 3 + 2);
    CHECK(walked->visited == 2);
    check_fields(&walked->state, after);
}

static void walked_fields(uint64_t vl) {
    static GUARDED(struct plokamyr_walked value) walked;
    static GUARDED(uint64_t value[4]) list;
    struct plokamyr_state s = sample(vl);
    s.x[20] = 0x1122334455667788;
    s.x[30] = s.x[20] + 2;
    struct plokamyr_state after = s;
    after.x[20] = s.x[30];
    put_p(&after, 9, (struct plokamyr_predicate){{0}});
    put_p(&after, 14, (struct plokamyr_predicate){{0}});
    after.flags = (struct plokamyr_flags){.n = false, .z = true, .c = true, .v = false};
    FILL(walked);
    FILL(list);
    poison_stack();
    CHECK(walk_in_place(&walked.value, s, 3, 20, 30, 9, 14, list.value, 4, 0x100000007) == &walked.value);
    CHECK_GUARDS(walked);
    check_walked(&walked.value, &after);
    walked.value = plokamyr_walk(s, 3, 20, 30, 9, 14, list.value, 4, 0x100000007);
    check_walked(&walked.value, &after);
    CHECK(list.value[0] == s.x[20] && list.value[1] == s.x[20] + 1);
    CHECK(is_filled(list.value + 2, 16));
    CHECK_GUARDS(list);
}

/* ---- shared states */

static void check_shared_fields(const struct plokamyr_shared *a, const struct plokamyr_shared *b) {
    check_fields(&a->state, &b->state);
    CHECK(a->second.n == b->second.n);
    CHECK(a->second.z == b->second.z);
    CHECK(a->second.c == b->second.c);
    CHECK(a->second.v == b->second.v);
}

static void expect_shared_step(const struct plokamyr_shared *s, bool second, uint32_t word, const struct plokamyr_shared *after) {
    static GUARDED(struct plokamyr_shared_stepped value) stepped;
    FILL(stepped);
    poison_stack();
    CHECK(shared_step_in_place(&stepped.value, *s, second, word) == &stepped.value);
    CHECK_GUARDS(stepped);
    CHECK(stepped.value.reply == PLOKAMYR_DONE);
    check_shared_fields(&stepped.value.shared, after);
    stepped.value = plokamyr_shared_step(*s, second, word);
    CHECK(stepped.value.reply == PLOKAMYR_DONE);
    check_shared_fields(&stepped.value.shared, after);
}

/* A step of each kernel that keeps its flags, and one that sets them: of an empty predicate they are 0110. */
static void shared_stepped_fields(uint64_t vl) {
    for (int second = 0; second < 2; second++) {
        uint32_t p = second ? 15 : 7, mask = second ? 8 : 0;
        struct plokamyr_shared s = shared_sample(vl), after = s;
        put_p(&after.state, (int)p, (struct plokamyr_predicate){{0}});
        expect_shared_step(&s, second, 0x2518E400 | p, &after); /* PFALSE */
        s = after;
        *(second ? &after.second : &after.state.flags) = (struct plokamyr_flags){.z = true, .c = true};
        expect_shared_step(&s, second, 0x2550C000 | mask << 10 | p << 5, &after); /* PTEST */
    }
}

/* Every value of both kernels' flags: none stands in another's place. */
static void shared_flags(void) {
    for (unsigned i = 0; i < 256; i++) {
        struct plokamyr_shared s = shared_sample(128);
        s.state.flags = (struct plokamyr_flags){i & 1, i >> 1 & 1, i >> 2 & 1, i >> 3 & 1};
        s.second = (struct plokamyr_flags){i >> 4 & 1, i >> 5 & 1, i >> 6 & 1, i >> 7 & 1};
        for (int second = 0; second < 2; second++) {
            struct plokamyr_shared after = s;
            put_p(&after.state, second ? 8 : 0, (struct plokamyr_predicate){{0}});
            expect_shared_step(&s, second, second ? 0x2518E408 : 0x2518E400, &after); /* PFALSE */
        }
    }
}

static void check_shared_walked(const struct plokamyr_shared_walked *walked, const struct plokamyr_shared *after) {
    CHECK(walked->reply == PLOKAMYR_DONE);
    CHECK(walked->count == 2 + 3 + 2);
    CHECK(walked->visited == 2);
    check_shared_fields(&walked->shared, after);
}

static void shared_walked_fields(uint64_t vl) {
    static GUARDED(struct plokamyr_shared_walked value) walked;
    static GUARDED(uint64_t value[4]) list;
    struct plokamyr_shared s = shared_sample(vl);
    s.state.x[20] = 0x1122334455667788;
    s.state.x[30] = s.state.x[20] + 2;
    struct plokamyr_shared after = s;
    after.state.x[20] = s.state.x[30];
    put_p(&after.state, 9, (struct plokamyr_predicate){{0}});
    put_p(&after.state, 14, (struct plokamyr_predicate){{0}});
    after.second = (struct plokamyr_flags){.n = false, .z = true, .c = true, .v = false};
    FILL(walked);
    FILL(list);
    poison_stack();
    CHECK(shared_walk_in_place(&walked.value, s, true, 3, 20, 30, 9, 14, list.value, 4, 0x100000007) == &walked.value);
    CHECK_GUARDS(walked);
    check_shared_walked(&walked.value, &after);
    walked.value = plokamyr_shared_walk(s, true, 3, 20, 30, 9, 14, list.value, 4, 0x100000007);
    check_shared_walked(&walked.value, &after);
    CHECK(list.value[0] == s.state.x[20] && list.value[1] == s.state.x[20] + 1);
    CHECK(is_filled(list.value + 2, 16));
    CHECK_GUARDS(list);
}

/* ---- the library writes the image of the fields, and reads it back */

static uint8_t expected[PLOKAMYR_IMAGE_MAX];
static GUARDED(uint8_t value[PLOKAMYR_IMAGE_MAX]) image;
static GUARDED(struct plokamyr_written value) written;
static GUARDED(struct plokamyr_reading value) reading;
static GUARDED(uint32_t value[PLOKAMYR_WORDS_MAX]) back;

static void check_write(struct plokamyr_state s, const uint32_t *words, size_t count) {
    struct plokamyr_state before = s;
    size_t length = image_of(&s, words, count, expected);
    FILL(image);
    FILL(written);
    poison_stack();
    written.value = plokamyr_write(s, words, count, image.value, sizeof image.value);
    CHECK(written.value.reply == PLOKAMYR_DONE);
    CHECK(written.value.length == length);
    for (size_t i = 0; i < length; i++) CHECK(image.value[i] == expected[i]);
    CHECK(is_filled(image.value + length, sizeof image.value - length));
    CHECK(same_state(&s, &before));
    CHECK_GUARDS(image);
    CHECK_GUARDS(written);
}

static void check_reading(const struct plokamyr_state *s, const uint32_t *words, size_t count) {
    CHECK(reading.value.reply == PLOKAMYR_DONE);
    CHECK(reading.value.count == count);
    check_fields(&reading.value.state, s);
    for (size_t i = 0; i < count; i++) CHECK(back.value[i] == words[i]);
    CHECK(is_filled(back.value + count, sizeof back.value - count * sizeof *back.value));
    CHECK_GUARDS(back);
}

static void check_read(const struct plokamyr_state *s, const uint32_t *words, size_t count) {
    size_t length = image_of(s, words, count, expected);
    FILL(reading);
    FILL(back);
    poison_stack();
    CHECK(read_in_place(&reading.value, expected, length, back.value, PLOKAMYR_WORDS_MAX) == &reading.value);
    CHECK_GUARDS(reading);
    check_reading(s, words, count);
    FILL(back);
    reading.value = plokamyr_read(expected, length, back.value, PLOKAMYR_WORDS_MAX);
    check_reading(s, words, count);
}

static uint32_t most[PLOKAMYR_WORDS_MAX];

static void images(void) {
    for (size_t i = 0; i < PLOKAMYR_WORDS_MAX; i++) most[i] = (uint32_t)mixed(1000 + i);
    for (int i = 0; i < 5; i++) {
        struct plokamyr_state s = sample(lengths[i]);
        static const size_t counts[3] = {0, 3, PLOKAMYR_WORDS_MAX};
        for (int k = 0; k < 3; k++) {
            check_write(s, most, counts[k]);
            check_read(&s, most, counts[k]);
        }
    }
    struct plokamyr_state s = sample(2048);
    CHECK(image_of(&s, most, PLOKAMYR_WORDS_MAX, expected) == PLOKAMYR_IMAGE_MAX);
}

/* Every value of the small fields: none stands in another's place. */
static void small_fields(void) {
    for (unsigned i = 0; i < 4 * 2 * 16; i++) {
        struct plokamyr_state s = sample(128);
        s.level = i & 3;
        s.access = i >> 2 & 1;
        s.flags.n = i >> 3 & 1;
        s.flags.z = i >> 4 & 1;
        s.flags.c = i >> 5 & 1;
        s.flags.v = i >> 6 & 1;
        check_write(s, most, 1);
        check_read(&s, most, 1);
    }
}

/* ---- the state that is stepped where it stands */

static GUARDED(struct plokamyr_state value) box;

static struct plokamyr_state cleared(struct plokamyr_state s, int p) {
    put_p(&s, p, (struct plokamyr_predicate){{0}});
    return s;
}

/* All bits of FFR true that the length has. */
static struct plokamyr_state with_full_ffr(struct plokamyr_state s) {
    for (uint64_t k = 0; k < 4; k++) s.ffr.words[k] = live(s.vl, k);
    return s;
}

static void expect_stepped(const struct plokamyr_state *s, uint32_t word, const struct plokamyr_state *after) {
    enum plokamyr_reply (*const volatile steps[2])(struct plokamyr_state *, uint32_t) = {plokamyr_step, plokamyr_step_lent};
    for (int i = 0; i < 2; i++) {
        FILL(box);
        box.value = *s;
        poison_stack();
        CHECK(steps[i](&box.value, word) == PLOKAMYR_DONE);
        check_fields(&box.value, after);
        CHECK_GUARDS(box);
    }
}

static void stepped_fields(uint64_t vl) {
    struct plokamyr_state s = sample(vl), after = cleared(s, 7);
    expect_stepped(&s, 0x2518E407, &after); /* PFALSE p7 */
    after = with_full_ffr(s);
    expect_stepped(&s, 0x252C9000, &after); /* SETFFR */
    after = s;
    put_p(&after, 15, s.ffr);
    expect_stepped(&s, 0x2519F00F, &after); /* RDFFR p15.b */
}

static const uint32_t three_and_none[4] = {0x2518E403, 0x252C9000, 0x2518E40F, 0}; /* PFALSE p3, SETFFR, PFALSE p15 */

static struct plokamyr_state after_three(struct plokamyr_state s) {
    return with_full_ffr(cleared(cleared(s, 3), 15));
}

static void check_ran(struct plokamyr_ran ran) {
    CHECK(ran.reply == PLOKAMYR_DONE);
    CHECK(ran.refused == PLOKAMYR_FOREIGN_WORD);
    CHECK(ran.done == 3);
}

static void ran_fields(uint64_t vl) {
    struct plokamyr_state s = sample(vl), after = after_three(s);
    FILL(box);
    box.value = s;
    poison_stack();
    check_ran(plokamyr_run(&box.value, three_and_none, 4));
    check_fields(&box.value, &after);
    CHECK_GUARDS(box);
}

/* Parts that lie apart from each other. FFR is the seventeenth predicate. */
static GUARDED(struct plokamyr_flags value) flags;
static GUARDED(uint64_t value[31]) x;
static GUARDED(struct plokamyr_predicate value[17]) p;
static GUARDED(struct plokamyr_counts value[16]) counts;

static void lay_out(const struct plokamyr_state *s) {
    FILL(flags);
    FILL(x);
    FILL(p);
    FILL(counts);
    flags.value = s->flags;
    memcpy(x.value, s->x, sizeof x.value);
    memcpy(p.value, s->p, sizeof s->p);
    p.value[16] = s->ffr;
    memcpy(counts.value, s->counts, sizeof counts.value);
}

static void check_parts(const struct plokamyr_state *after) {
    struct plokamyr_state s = *after;
    s.flags = flags.value;
    memcpy(s.x, x.value, sizeof s.x);
    memcpy(s.p, p.value, sizeof s.p);
    s.ffr = p.value[16];
    memcpy(s.counts, counts.value, sizeof s.counts);
    check_fields(&s, after);
    CHECK_GUARDS(flags);
    CHECK_GUARDS(x);
    CHECK_GUARDS(p);
    CHECK_GUARDS(counts);
}

static void parts_apart(uint64_t vl) {
    struct plokamyr_state s = sample(vl), after = s;
    CHECK(plokamyr_step_lent(&after, 0x2550C1E0) == PLOKAMYR_DONE); /* PTEST p0, p15.b writes the flags, */
    CHECK(plokamyr_step_lent(&after, 0x252C89FE) == PLOKAMYR_DONE); /* INCP x30, p15.b the last register, */
    CHECK(plokamyr_step_lent(&after, 0x2558C00F) == PLOKAMYR_DONE); /* PFIRST p15.b, p0, p15.b the last predicate, */
    CHECK(plokamyr_step_lent(&after, 0x25C2422F) == PLOKAMYR_DONE); /* NORS p15.b, p0/z, p1.b, p2.b that and the flags, */
    CHECK(plokamyr_step_lent(&after, 0x2558F00E) == PLOKAMYR_DONE); /* RDFFRS p14.b, p0/z the last but one and the flags, */
    CHECK(plokamyr_step_lent(&after, 0x252C9000) == PLOKAMYR_DONE); /* SETFFR the one after the last predicate */
    struct plokamyr_state anew = recounted(after);
    check_fields(&after, &anew);
    lay_out(&s);
    poison_stack();
    static const uint32_t words[6] = {0x2550C1E0, 0x252C89FE, 0x2558C00F, 0x25C2422F, 0x2558F00E, 0x252C9000};
    for (int i = 0; i < 6; i++) {
        CHECK(plokamyr_step_parts(vl, 3, true, &flags.value, x.value, p.value, counts.value, words[i]) == PLOKAMYR_DONE);
    }
    check_parts(&after);
    lay_out(&s);
    poison_stack();
    check_ran(plokamyr_run_parts(vl, 3, true, &flags.value, x.value, p.value, counts.value, three_and_none, 4));
    after = after_three(s);
    check_parts(&after);
}

int main(void) {
    number();
    sizes();
    state_offsets();
    answer_offsets();
    images();
    small_fields();
    shared_flags();
    for (int i = 0; i < 5; i++) {
        counted_fields(lengths[i]);
        walked_fields(lengths[i]);
        shared_stepped_fields(lengths[i]);
        shared_walked_fields(lengths[i]);
        stepped_fields(lengths[i]);
        ran_fields(lengths[i]);
        parts_apart(lengths[i]);
    }
    return finish("layout");
}
