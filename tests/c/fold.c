/* Titles folded in place: every unit by the table, at each length; both refusals in their order, and that they leave the title; bytes beside it;
 * no units; a second folding. */
#include "check.h"

enum { MOST = PLOKAMYR_TITLE_MAX };

/* Room for one unit more than is folded, with guards. */
static GUARDED(uint16_t value[MOST + 1]) title;

/* ---- the table, written again from the paper */

struct row {
    uint16_t first, last;
    char letter;
};

enum { ROWS = 17 };
static const struct row rows[ROWS] = {
    {0xC0, 0xC5, 'a'}, {0xE0, 0xE5, 'a'}, {0xC7, 0xC7, 'c'}, {0xE7, 0xE7, 'c'}, {0xC8, 0xCB, 'e'}, {0xE8, 0xEB, 'e'},
    {0xCC, 0xCF, 'i'}, {0xEC, 0xEF, 'i'}, {0xD1, 0xD1, 'n'}, {0xF1, 0xF1, 'n'}, {0xD2, 0xD6, 'o'}, {0xF2, 0xF6, 'o'},
    {0xD9, 0xDC, 'u'}, {0xF9, 0xFC, 'u'}, {0xDD, 0xDD, 'y'}, {0xFD, 0xFD, 'y'}, {0xFF, 0xFF, 'y'},
};

static uint16_t folded(uint16_t unit) {
    if (unit >= 'A' && unit <= 'Z') return unit + 32;
    for (int i = 0; i < ROWS; i++) {
        if (unit >= rows[i].first && unit <= rows[i].last) return (uint16_t)rows[i].letter;
    }
    return unit;
}

/* ---- what is expected of a call */

/* The units that stand at the ends of the table's rows, and beside them; some that have nothing to do with it. */
static uint16_t drawn(uint64_t place) {
    uint64_t number = mixed(place);
    const struct row *row = &rows[number / 8 % ROWS];
    const uint16_t borders[8] = {row->first - 1, row->first, row->last, row->last + 1, '@' + number / 256 % 28, '`' + number / 256 % 28,
                                 (uint16_t)(number >> 32), (uint16_t)(0xC0 + number / 256 % 65)};
    return borders[number % 8];
}

static void draw(size_t units, uint64_t seed) {
    FILL(title);
    for (size_t i = 0; i < units; i++) title.value[i] = drawn(seed + i);
}

static enum plokamyr_reply fold(size_t units, uint64_t vl) {
    poison_stack();
    return plokamyr_fold(title.value, units, vl);
}

/* The units are as the table has them, and nothing beside them is written. */
static void expect_folded(const uint16_t *before, size_t units) {
    bool held = true;
    for (size_t i = 0; i < units; i++) held = held && title.value[i] == folded(before[i]);
    CHECK(held);
    CHECK(is_filled(title.value + units, sizeof title.value - units * sizeof title.value[0]));
    CHECK_GUARDS(title);
}

/* Folded at a length, and once more at another. */
static void expect_title(size_t units, uint64_t vl, uint64_t other) {
    static uint16_t before[MOST];
    draw(units, units + vl);
    memcpy(before, title.value, units * sizeof before[0]);
    CHECK(fold(units, vl) == PLOKAMYR_DONE);
    expect_folded(before, units);
    CHECK(fold(units, other) == PLOKAMYR_DONE);
    expect_folded(before, units);
}

static void expect_refused(size_t units, uint64_t vl, enum plokamyr_reply reply) {
    static uint8_t before[sizeof title];
    draw(units, vl);
    memcpy(before, &title, sizeof title);
    CHECK(fold(units, vl) == reply);
    CHECK(memcmp(before, &title, sizeof title) == 0);
}

/* ---- the cases */

/* Every unit there is, in titles of the most units. */
static void every_unit(uint64_t vl) {
    static uint16_t before[MOST];
    for (uint32_t first = 0; first <= UINT16_MAX; first += MOST) {
        FILL(title);
        for (uint32_t i = 0; i < MOST; i++) title.value[i] = before[i] = (uint16_t)(first + i);
        CHECK(fold(MOST, vl) == PLOKAMYR_DONE);
        expect_folded(before, MOST);
    }
}

/* Units by name: each end of a row, what stands beside it, and all that the paper says is kept. */
static void known_units(uint64_t vl) {
    static const uint16_t from[] = {'@', 'A', 'Z', '[', 'a', 'z', 0xBF, 0xC0, 0xC5, 0xC7, 0xC8, 0xCB, 0xCC, 0xCF, 0xD1, 0xD2, 0xD6, 0xD9, 0xDC, 0xDD,
                                    0xE0, 0xE5, 0xE7, 0xE8, 0xEB, 0xEC, 0xEF, 0xF1, 0xF2, 0xF6, 0xF9, 0xFC, 0xFD, 0xFF, 0xC6, 0xD0, 0xD7, 0xD8,
                                    0xDE, 0xDF, 0xE6, 0xF0, 0xF7, 0xF8, 0xFE, 0x100, 0x141, 0x1C0, 0x4100, 0xFF41, 0xFFFF, 0};
    static const uint16_t to[] = {'@', 'a', 'z', '[', 'a', 'z', 0xBF, 'a', 'a', 'c', 'e', 'e', 'i', 'i', 'n', 'o', 'o', 'u', 'u', 'y',
                                  'a', 'a', 'c', 'e', 'e', 'i', 'i', 'n', 'o', 'o', 'u', 'u', 'y', 'y', 0xC6, 0xD0, 0xD7, 0xD8,
                                  0xDE, 0xDF, 0xE6, 0xF0, 0xF7, 0xF8, 0xFE, 0x100, 0x141, 0x1C0, 0x4100, 0xFF41, 0xFFFF, 0};
    FILL(title);
    memcpy(title.value, from, sizeof from);
    CHECK(sizeof from == sizeof to && fold(sizeof from / 2, vl) == PLOKAMYR_DONE);
    CHECK(memcmp(title.value, to, sizeof to) == 0);
    CHECK(is_filled(title.value + sizeof to / 2, sizeof title.value - sizeof to));
    CHECK_GUARDS(title);
}

/* From none to a unit past two vectors and past the shorter list, and around the most. */
static void every_number_of_units(int i) {
    uint64_t vl = lengths[i], other = lengths[(i + 1) % 5];
    size_t lanes = vl / 16;
    for (size_t units = 0; units <= 2 * lanes + 1 || units <= 66; units++) expect_title(units, vl, other);
    for (size_t units = MOST - lanes - 1; units <= MOST; units++) expect_title(units, vl, other);
}

/* The same title at each length. */
static void lengths_alike(void) {
    static uint16_t first[MOST];
    for (size_t units = 1; units <= MOST; units = 3 * units + 1) {
        for (int i = 0; i < 5; i++) {
            draw(units, 7);
            CHECK(fold(units, lengths[i]) == PLOKAMYR_DONE);
            if (i == 0) memcpy(first, title.value, units * sizeof first[0]);
            CHECK(memcmp(first, title.value, units * sizeof first[0]) == 0);
        }
    }
}

/* No units: null will do, also where it is refused. */
static void no_units(void) {
    for (int i = 0; i < 5; i++) CHECK(plokamyr_fold(NULL, 0, lengths[i]) == PLOKAMYR_DONE);
    CHECK(plokamyr_fold(NULL, 0, 384) == PLOKAMYR_ILLEGAL_STATE);
}

/* 4 comes before 11. */
static void refusals(void) {
    static const uint64_t bad[14] = {0, 1, 16, 127, 129, 192, 384, 640, 1920, 2049, 4096, 0x100000080, UINT64_C(1) << 63, UINT64_MAX};
    static const size_t units[6] = {0, 1, 64, 65, MOST, MOST + 1};
    for (int i = 0; i < 14; i++) {
        for (int k = 0; k < 6; k++) expect_refused(units[k], bad[i], PLOKAMYR_ILLEGAL_STATE);
    }
    for (int i = 0; i < 5; i++) expect_refused(MOST + 1, lengths[i], PLOKAMYR_LIST_TOO_SHORT);
}

int main(void) {
    for (int i = 0; i < 5; i++) {
        every_unit(lengths[i]);
        known_units(lengths[i]);
        every_number_of_units(i);
    }
    lengths_alike();
    no_units();
    refusals();
    return finish("fold");
}
