/* Words and rows: each form, each field at its range and past it; words that are none of ours. */
#include "cases.h"

/* The bits of each field; the places after them have none, so that 0 alone is allowed there. */
enum { FORMS = 17 };
static const uint8_t field_bits[FORMS][PLOKAMYR_ROW - 1] = {
    [PLOKAMYR_WHILE_ONE] = {2, 5, 1, 1, 1, 5, 1, 4},
    [PLOKAMYR_WHILE_PAIR] = {2, 5, 1, 1, 5, 3, 1},
    [PLOKAMYR_WHILE_COUNTER] = {2, 5, 1, 1, 1, 5, 1, 3},
    [PLOKAMYR_SATURATING] = {2, 1, 1, 1, 4, 5},
    [PLOKAMYR_INC_DEC] = {2, 1, 4, 5},
    [PLOKAMYR_CNTP] = {2, 4, 4, 5},
    [PLOKAMYR_CNTP_COUNTER] = {2, 1, 4, 5},
    [PLOKAMYR_PNEXT] = {2, 4, 4},
    [PLOKAMYR_PFIRST] = {4, 4},
    [PLOKAMYR_PTEST] = {4, 4},
    [PLOKAMYR_PFALSE] = {4},
    [PLOKAMYR_LOGIC] = {1, 1, 4, 4, 1, 4, 1, 4},
    [PLOKAMYR_SETFFR] = {0},
    [PLOKAMYR_WRFFR] = {4},
    [PLOKAMYR_RDFFR] = {4},
    [PLOKAMYR_RDFFR_PG] = {4, 4},
    [PLOKAMYR_RDFFRS_PG] = {4, 4},
};

static void expect_encode(const uint8_t row[PLOKAMYR_ROW], enum plokamyr_reply reply) {
    static GUARDED(uint32_t value) word;
    static GUARDED(uint8_t value[PLOKAMYR_ROW]) back;
    uint8_t given[PLOKAMYR_ROW];
    memcpy(given, row, PLOKAMYR_ROW);
    FILL(word);
    FILL(back);
    CHECK(plokamyr_encode(row, &word.value) == reply);
    CHECK(memcmp(given, row, PLOKAMYR_ROW) == 0);
    CHECK_GUARDS(word);
    if (reply != PLOKAMYR_DONE) {
        CHECK(is_filled(&word.value, 4));
        return;
    }
    CHECK(plokamyr_decode(word.value, back.value) == PLOKAMYR_DONE);
    CHECK(memcmp(back.value, row, PLOKAMYR_ROW) == 0);
    CHECK_GUARDS(back);
}

/* Each field of each form at its largest, then past it. */
static void encode_edges(uint8_t form) {
    uint8_t row[PLOKAMYR_ROW] = {form};
    expect_encode(row, PLOKAMYR_DONE);
    for (int i = 0; i < PLOKAMYR_ROW - 1; i++) {
        uint8_t most = (uint8_t)((1u << field_bits[form][i]) - 1);
        row[i + 1] = most;
        expect_encode(row, PLOKAMYR_DONE);
        row[i + 1] = most + 1;
        expect_encode(row, PLOKAMYR_FIELD_PAST_RANGE);
        row[i + 1] = 255;
        expect_encode(row, PLOKAMYR_FIELD_PAST_RANGE);
        row[i + 1] = most;
    }
}

static void expect_decode(uint32_t word, enum plokamyr_reply reply, const uint8_t row[PLOKAMYR_ROW]) {
    static GUARDED(uint8_t value[PLOKAMYR_ROW]) back;
    FILL(back);
    CHECK(plokamyr_decode(word, back.value) == reply);
    CHECK(reply == PLOKAMYR_DONE ? memcmp(back.value, row, PLOKAMYR_ROW) == 0 : is_filled(back.value, PLOKAMYR_ROW));
    CHECK_GUARDS(back);
}

static void each_form(void) {
    enum { KNOWN = 22 };
    static const struct {
        uint32_t word;
        uint8_t row[PLOKAMYR_ROW];
    } known[KNOWN] = {
        {0x25A21C20, {PLOKAMYR_WHILE_ONE, 2, 2, 1, 1, 1, 1, 0, 0}},     /* WHILELO p0.s, x1, x2 */
        {0x25E55893, {PLOKAMYR_WHILE_PAIR, 3, 5, 1, 0, 4, 1, 1}},       /* WHILEHI p2.d and p3.d, x4, x5 */
        {0x25A24438, {PLOKAMYR_WHILE_COUNTER, 2, 2, 0, 0, 1, 1, 1, 0}}, /* WHILELE pn8.s, x1, x2, two vectors */
        {0x252A8C23, {PLOKAMYR_SATURATING, 0, 1, 0, 1, 1, 3}},          /* SQDECP x3, p1.b */
        {0x252C8843, {PLOKAMYR_INC_DEC, 0, 0, 2, 3}},                   /* INCP x3, p2.b */
        {0x252D8843, {PLOKAMYR_INC_DEC, 0, 1, 2, 3}},                   /* DECP x3, p2.b */
        {0x252094C7, {PLOKAMYR_CNTP, 0, 5, 6, 7}},                      /* CNTP x7, p5, p6.b */
        {0x2520872A, {PLOKAMYR_CNTP_COUNTER, 0, 1, 9, 10}},             /* CNTP x10, pn9.b, four vectors */
        {0x2519C401, {PLOKAMYR_PNEXT, 0, 0, 1}},                        /* PNEXT p1.b, p0, p1.b */
        {0x2558C064, {PLOKAMYR_PFIRST, 3, 4}},                          /* PFIRST p4.b, p3, p4.b */
        {0x2550C440, {PLOKAMYR_PTEST, 1, 2}},                           /* PTEST p1, p2.b */
        {0x2518E403, {PLOKAMYR_PFALSE, 3}},                             /* PFALSE p3.b */
        {AND, {PLOKAMYR_LOGIC, 0, 0, 4, 2, 0, 3, 0, 1}},                /* AND p1.b, p2/z, p3.b, p4.b */
        {0x254858F5, {PLOKAMYR_LOGIC, 0, 1, 8, 6, 0, 7, 1, 5}},         /* BICS p5.b, p6/z, p7.b, p8.b */
        {SEL, {PLOKAMYR_LOGIC, 0, 0, 3, 1, 1, 2, 1, 0}},                /* SEL p0.b, p1, p2.b, p3.b */
        {0x25C2422F, {PLOKAMYR_LOGIC, 1, 1, 2, 0, 1, 1, 0, 15}},        /* NORS p15.b, p0/z, p1.b, p2.b */
        {0x25CF7FFF, {PLOKAMYR_LOGIC, 1, 1, 15, 15, 1, 15, 1, 15}},     /* NANDS p15.b, p15/z, p15.b, p15.b */
        {0x252C9000, {PLOKAMYR_SETFFR}},                                /* SETFFR */
        {0x252890E0, {PLOKAMYR_WRFFR, 7}},                              /* WRFFR p7.b */
        {0x2519F007, {PLOKAMYR_RDFFR, 7}},                              /* RDFFR p7.b */
        {0x2518F065, {PLOKAMYR_RDFFR_PG, 3, 5}},                        /* RDFFR p5.b, p3/z */
        {0x2558F1EF, {PLOKAMYR_RDFFRS_PG, 15, 15}},                     /* RDFFRS p15.b, p15/z */
    };
    for (int i = 0; i < KNOWN; i++) {
        uint32_t word = 0;
        expect_decode(known[i].word, PLOKAMYR_DONE, known[i].row);
        CHECK(plokamyr_encode(known[i].row, &word) == PLOKAMYR_DONE);
        CHECK(word == known[i].word);
    }
}

/* SEL has a word without S alone, whatever its registers are. */
static void sel_with_flags(void) {
    for (uint32_t i = 0; i < 256; i++) {
        uint32_t m = i & 15, g = i >> 4, n = 15 - m, d = 15 - g;
        uint32_t word = 0x25004210 + (m << 16) + (g << 10) + (n << 5) + d;
        uint8_t row[PLOKAMYR_ROW] = {PLOKAMYR_LOGIC, 0, 0, (uint8_t)m, (uint8_t)g, 1, (uint8_t)n, 1, (uint8_t)d};
        expect_decode(word, PLOKAMYR_DONE, row);
        expect_encode(row, PLOKAMYR_DONE);
        row[2] = 1;
        expect_decode(word | SETS_FLAGS, PLOKAMYR_UNSUPPORTED_FORM, NULL);
        expect_encode(row, PLOKAMYR_FIELD_PAST_RANGE);
    }
}

static void words_edges(void) {
    each_form();
    sel_with_flags();
    for (uint8_t form = 0; form < FORMS; form++) encode_edges(form);
    for (unsigned form = FORMS; form < 256; form++) expect_encode((uint8_t[PLOKAMYR_ROW]){(uint8_t)form}, PLOKAMYR_FIELD_PAST_RANGE);
    for (int i = 0; i < FOREIGN; i++) expect_decode(foreign[i], PLOKAMYR_FOREIGN_WORD, NULL);
    for (int i = 0; i < UNSUPPORTED; i++) expect_decode(unsupported[i], PLOKAMYR_UNSUPPORTED_FORM, NULL);
}

int main(void) {
    words_edges();
    return finish("words");
}
