/* Every refusal of a reading and of a writing, in its order, and that it leaves all as it was; images of the older kind; texts; nulls
 * and rooms of each size. */
#include "expect.h"

/* ---- read */

static uint8_t image[PLOKAMYR_IMAGE_MAX + 1];
static GUARDED(uint32_t value[8]) words_read;
static const uint32_t three[3] = {PFALSE, WHILEGE, 0xFFFFFFFF};

static void expect_read(const uint8_t *bytes, size_t length, size_t places, enum plokamyr_reply reply) {
    static const struct plokamyr_state none = {.vl = 128};
    FILL(words_read);
    poison_stack();
    struct plokamyr_reading reading = plokamyr_read(bytes, length, places ? words_read.value : NULL, places);
    CHECK(reading.reply == reply);
    CHECK(reading.count == 0);
    CHECK(same_state(&reading.state, &none));
    CHECK(is_filled(&words_read, sizeof words_read));
}

static size_t good_image(uint64_t vl) {
    struct plokamyr_written written = plokamyr_write(sample(vl), three, 3, image, sizeof image);
    CHECK(written.reply == PLOKAMYR_DONE);
    return written.length;
}

/* An image with one byte changed is refused with 6; cut right after the section's content, too; cut within it, with 5. */
static void expect_wrong(size_t length, size_t at, uint8_t byte, size_t section_end) {
    uint8_t kept = image[at];
    image[at] = byte;
    expect_read(image, length, 8, PLOKAMYR_NOT_ALLOWED);
    expect_read(image, length + 1, 0, PLOKAMYR_NOT_ALLOWED);
    expect_read(image, section_end, 8, PLOKAMYR_NOT_ALLOWED);
    expect_read(image, section_end - 1, 8, PLOKAMYR_IMAGE_CUT);
    image[at] = kept;
}

static void read_wrong(uint64_t vl) {
    size_t length = good_image(vl);
    size_t x = 4 + 3, p = x + 4 + 31 * 8, ffr = p + 4 + 16 * vl / 64, flags = ffr + 4 + vl / 64, words = flags + 4 + 4;
    const size_t counts[5] = {0, x, p, ffr, flags};
    for (int i = 0; i < 5; i++) {
        for (size_t k = 0; k < 4; k++) expect_wrong(length, counts[i] + k, image[counts[i] + k] ^ 0x80, counts[i] + 4);
    }
    static const uint8_t counts_wrong[7] = {0, 2, 3, 5, 8, 16, 255}; /* neither FFR's count nor that of the flags */
    for (int i = 0; i < 7; i++) expect_wrong(length, ffr, counts_wrong[i], ffr + 4);
    static const uint8_t lengths_wrong[7] = {0, 3, 5, 15, 17, 32, 255};
    for (int i = 0; i < 7; i++) expect_wrong(length, 4, lengths_wrong[i], 7);
    expect_wrong(length, 5, 4, 7);
    expect_wrong(length, 5, 255, 7);
    expect_wrong(length, 6, 2, 7);
    expect_wrong(length, 6, 255, 7);
    for (size_t i = 0; i < 4; i++) {
        expect_wrong(length, flags + 4 + i, 2, flags + 8);
        expect_wrong(length, flags + 4 + i, 255, flags + 8);
    }
    expect_wrong(length, words + 1, 0x10, words + 4); /* 4,099 words */
    expect_wrong(length, words + 2, 1, words + 4);
    expect_wrong(length, words + 3, 0xFF, words + 4);
}

static void read_edges(uint64_t vl) {
    size_t length = good_image(vl);
    expect_read(NULL, 0, 0, PLOKAMYR_IMAGE_CUT);
    expect_read(image, 0, 8, PLOKAMYR_IMAGE_CUT);
    for (size_t i = 0; i < length; i++) expect_read(image, i, 8, PLOKAMYR_IMAGE_CUT);
    expect_read(image, length + 1, 8, PLOKAMYR_TRAILING_BYTES);
    expect_read(image, length + 1, 0, PLOKAMYR_TRAILING_BYTES);
    expect_read(image, sizeof image, 2, PLOKAMYR_TRAILING_BYTES);
    expect_read(image, length, 0, PLOKAMYR_BUFFER_TOO_SMALL);
    expect_read(image, length, 2, PLOKAMYR_BUFFER_TOO_SMALL);
    size_t alone = plokamyr_write(sample(vl), NULL, 0, image, sizeof image).length;
    struct plokamyr_state s = sample(vl);
    struct plokamyr_reading reading = plokamyr_read(image, alone, NULL, 0);
    CHECK(reading.reply == PLOKAMYR_DONE);
    CHECK(reading.count == 0);
    CHECK(same_state(&reading.state, &s));
}

/* An image of the older kind, made of one of ours: it has no section for FFR, so that the count of the flags comes after P. */
static size_t old_image(uint64_t vl, size_t length) {
    size_t ffr = 4 + 3 + 4 + 31 * 8 + 4 + 16 * vl / 64, section = 4 + vl / 64;
    memmove(image + ffr, image + ffr + section, length - ffr - section);
    return length - section;
}

/* It is read with an FFR that is all false, and written back with a section that says so. */
static void read_old(uint64_t vl) {
    static uint8_t back[sizeof image], expected[sizeof image];
    struct plokamyr_state s = sample(vl);
    memset(&s.ffr, 0, sizeof s.ffr);
    size_t whole = plokamyr_write(s, three, 3, expected, sizeof expected).length, length = old_image(vl, good_image(vl));
    for (size_t i = 0; i < length; i++) expect_read(image, i, 8, PLOKAMYR_IMAGE_CUT);
    expect_read(image, length + 1, 8, PLOKAMYR_TRAILING_BYTES);
    expect_read(image, length, 2, PLOKAMYR_BUFFER_TOO_SMALL);
    FILL(words_read);
    struct plokamyr_reading reading = plokamyr_read(image, length, words_read.value, 8);
    CHECK(reading.reply == PLOKAMYR_DONE);
    CHECK(reading.count == 3);
    CHECK(same_state(&reading.state, &s));
    CHECK(memcmp(words_read.value, three, sizeof three) == 0);
    CHECK(plokamyr_write(reading.state, words_read.value, 3, back, sizeof back).length == whole);
    CHECK(memcmp(back, expected, whole) == 0);
    CHECK(whole == length + 4 + vl / 64);
}

/* A section of FFR with another count and as many times its bytes; with none at all, the count alone. */
static void read_ffrs(uint64_t vl) {
    static const uint8_t counts[4] = {0, 2, 3, 16};
    for (int i = 0; i < 4; i++) {
        size_t length = good_image(vl), bytes = vl / 64, ffr = 4 + 3 + 4 + 31 * 8 + 4 + 16 * bytes + 4;
        memmove(image + ffr + counts[i] * bytes, image + ffr + bytes, length - ffr - bytes);
        for (size_t k = 0; k < counts[i] * bytes; k++) image[ffr + k] = 0;
        image[ffr - 4] = counts[i];
        expect_read(image, length + counts[i] * bytes - bytes, 8, PLOKAMYR_NOT_ALLOWED);
    }
}

/* ---- write */

static void write_refusals(void) {
    for (int i = 0; i < ILLEGAL; i++) {
        struct plokamyr_state s = illegal(i);
        expect_write(&s, 0, 0, PLOKAMYR_ILLEGAL_STATE);
        expect_write(&s, 0, PLOKAMYR_IMAGE_MAX, PLOKAMYR_ILLEGAL_STATE);
        expect_write(&s, PLOKAMYR_WORDS_MAX + 1, 0, PLOKAMYR_ILLEGAL_STATE);
    }
    for (int i = 0; i < 5; i++) {
        struct plokamyr_state s = sample(lengths[i]);
        size_t least = 4 + 3 + 4 + 31 * 8 + 4 + 16 * lengths[i] / 64 + 4 + lengths[i] / 64 + 4 + 4 + 4;
        CHECK(i > 0 || least == 313);
        expect_write(&s, PLOKAMYR_WORDS_MAX + 1, 0, PLOKAMYR_NOT_ALLOWED);
        expect_write(&s, PLOKAMYR_WORDS_MAX + 1, PLOKAMYR_IMAGE_MAX, PLOKAMYR_NOT_ALLOWED);
        expect_write(&s, 0, 0, PLOKAMYR_BUFFER_TOO_SMALL);
        expect_write(&s, 0, least - 1, PLOKAMYR_BUFFER_TOO_SMALL);
        expect_write(&s, 5, least + 19, PLOKAMYR_BUFFER_TOO_SMALL);
        expect_write(&s, PLOKAMYR_WORDS_MAX, least + 4 * PLOKAMYR_WORDS_MAX - 1, PLOKAMYR_BUFFER_TOO_SMALL);
        struct plokamyr_written written = plokamyr_write(s, NULL, 0, written_image.value, least);
        CHECK(written.reply == PLOKAMYR_DONE);
        CHECK(written.length == least);
        CHECK(is_filled(written_image.value + least, sizeof written_image.value - least));
    }
}

/* ---- text */

static GUARDED(uint8_t value[PLOKAMYR_TEXT_MAX]) text;

/* The lines that fit, one after the other; a line that has no room is left out. */
static void expect_text(const uint8_t *bytes, size_t length, size_t room, const char *const *lines, size_t count) {
    static uint8_t expected[PLOKAMYR_TEXT_MAX];
    size_t at = 0;
    for (size_t i = 0; i < count; i++) {
        size_t more = strlen(lines[i]);
        if (more > room - at) continue;
        memcpy(expected + at, lines[i], more);
        at += more;
    }
    FILL(text);
    CHECK(plokamyr_text(bytes, length, room ? text.value : NULL, room) == at);
    CHECK(memcmp(text.value, expected, at) == 0);
    CHECK(is_filled(text.value + at, sizeof text.value - at));
    CHECK_GUARDS(text);
}

/* Two words that are done, and one that is none of ours. */
static size_t image_with(uint32_t last) {
    const uint32_t words[3] = {0x25A21C20, 0x2519C401, last};
    struct plokamyr_state s = {.vl = 128, .level = 1, .access = true};
    s.x[1] = 10;
    s.x[2] = 13;
    return plokamyr_write(s, words, 3, image, sizeof image).length;
}

static void text_edges(void) {
    static const char *const refused[4] = {"image 5\n", "image 6\n", "image 7\n", "image 5\n"};
    static const char *const lines[4] = {"0 25a21c20 0 1010\n", "1 2519c401 0 1010\n", "2 00000000 1 1010\n", "end 2\n"};
    size_t length = image_with(0);
    image[length] = 0;
    for (size_t room = 0; room < 70; room++) {
        expect_text(NULL, 0, room, refused, 1);
        expect_text(image + 1, length, room, refused + 1, 1);
        expect_text(image, length + 1, room, refused + 2, 1);
        expect_text(image, length - 1, room, refused + 3, 1);
        expect_text(image, length, room, lines, 4);
    }
    expect_text(image, length, PLOKAMYR_TEXT_MAX, lines, 4);
}

/* The line of a word that is none of ours has its reply, of one digit or two. */
static void expect_last_line(uint32_t word, enum plokamyr_reply reply) {
    char last[32];
    snprintf(last, sizeof last, "2 %08x %d 1010\n", (unsigned)word, (int)reply);
    const char *const lines[4] = {"0 25a21c20 0 1010\n", "1 2519c401 0 1010\n", last, "end 2\n"};
    size_t length = image_with(word);
    for (size_t room = 36; room < 70; room++) expect_text(image, length, room, lines, 4);
    expect_text(image, length, PLOKAMYR_TEXT_MAX, lines, 4);
}

static void last_lines(void) {
    for (int i = 0; i < FOREIGN; i++) expect_last_line(foreign[i], PLOKAMYR_FOREIGN_WORD);
    for (int i = 0; i < UNSUPPORTED; i++) expect_last_line(unsupported[i], PLOKAMYR_UNSUPPORTED_FORM);
    expect_last_line(WRFFR, PLOKAMYR_NOT_MONOTONIC); /* p0 has 0111 */
}

/* The text of 4,096 words, of which the last may be refused. PLOKAMYR_TEXT_MAX is no less, whatever it is. */
static void expect_longest(uint32_t last, size_t longest, const char *end) {
    for (size_t i = 0; i < PLOKAMYR_WORDS_MAX; i++) many[i] = PFALSE;
    many[PLOKAMYR_WORDS_MAX - 1] = last;
    size_t length = plokamyr_write(sample(2048), many, PLOKAMYR_WORDS_MAX, image, sizeof image).length;
    CHECK(length == PLOKAMYR_IMAGE_MAX);
    CHECK(longest <= PLOKAMYR_TEXT_MAX);
    FILL(text);
    CHECK(plokamyr_text(image, length, text.value, PLOKAMYR_TEXT_MAX) == longest);
    CHECK(memcmp(text.value + longest - strlen(end), end, strlen(end)) == 0);
    CHECK(is_filled(text.value + longest, PLOKAMYR_TEXT_MAX - longest));
    CHECK_GUARDS(text);
}

static void longest_texts(void) {
    static const size_t done = 10 * 18 + 90 * 19 + 900 * 20 + 3096 * 21 + 9;
    expect_longest(PFALSE, done, "4095 2518e400 0 1011\nend 4096\n");
    expect_longest(0, done, "4095 00000000 1 1011\nend 4095\n");
    expect_longest(unsupported[0], done + 1, "4095 25000000 13 1011\nend 4095\n"); /* a digit more */
}

int main(void) {
    for (int i = 0; i < 5; i++) {
        read_edges(lengths[i]);
        read_wrong(lengths[i]);
        read_old(lengths[i]);
        read_ffrs(lengths[i]);
    }
    write_refusals();
    text_edges();
    last_lines();
    longest_texts();
    return finish("images");
}
