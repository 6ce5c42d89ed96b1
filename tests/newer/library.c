/* Stands for a library that is newer than its host: it answers with the numbers that it is told, so that a host meets replies and forms that have
 * no name in its header. For tests/newer/run. */
#include <plokamyr.h>
#include <string.h>

static enum plokamyr_reply numbered(uint32_t number) {
    return (enum plokamyr_reply)number;
}

uint32_t plokamyr_layout_3(void) {
    return PLOKAMYR_LAYOUT;
}

/* The counts are as many as the vector length says. */
struct plokamyr_state plokamyr_counted(struct plokamyr_state state) {
    uint16_t number = (uint16_t)state.vl;
    for (int i = 0; i < 16; i++) state.counts[i] = (struct plokamyr_counts){number, number, number, number};
    return state;
}

enum plokamyr_reply plokamyr_step_parts(uint64_t vl, uint8_t level, bool access, struct plokamyr_flags *flags, uint64_t x[31],
                                        struct plokamyr_predicate p[17], struct plokamyr_counts counts[16], uint32_t word) {
    return numbered(word);
}

enum plokamyr_reply plokamyr_step_lent(struct plokamyr_state *state, uint32_t word) {
    return numbered(word);
}

/* The first two words are the two replies. */
struct plokamyr_ran plokamyr_run_parts(uint64_t vl, uint8_t level, bool access, struct plokamyr_flags *flags, uint64_t x[31],
                                       struct plokamyr_predicate p[17], struct plokamyr_counts counts[16], const uint32_t *words, size_t count) {
    return (struct plokamyr_ran){numbered(words[0]), numbered(words[1]), count};
}

struct plokamyr_walked plokamyr_walk(struct plokamyr_state state, uint32_t size, uint32_t n, uint32_t m, uint32_t d, uint32_t k,
                                     uint64_t *list, size_t places, uint64_t budget) {
    return (struct plokamyr_walked){numbered(size), budget, places, state};
}

enum plokamyr_reply plokamyr_fold(uint16_t *title, size_t units, uint64_t vl) {
    return numbered((uint32_t)vl);
}

struct plokamyr_shared_stepped plokamyr_shared_step(struct plokamyr_shared shared, bool second, uint32_t word) {
    return (struct plokamyr_shared_stepped){numbered(word), shared};
}

struct plokamyr_shared_walked plokamyr_shared_walk(struct plokamyr_shared shared, bool second, uint32_t size, uint32_t n, uint32_t m, uint32_t d,
                                                   uint32_t k, uint64_t *list, size_t places, uint64_t budget) {
    return (struct plokamyr_shared_walked){numbered(size), budget, places, shared};
}

/* The first four bytes of the image are the reply. */
struct plokamyr_reading plokamyr_read(const uint8_t *image, size_t length, uint32_t *words, size_t places) {
    uint32_t number;
    memcpy(&number, image, 4);
    return (struct plokamyr_reading){numbered(number), places, {.vl = 128}};
}

struct plokamyr_written plokamyr_write(struct plokamyr_state state, const uint32_t *words, size_t count, uint8_t *image, size_t room) {
    return (struct plokamyr_written){numbered(words[0]), room};
}

/* The text is the image. */
size_t plokamyr_text(const uint8_t *image, size_t length, uint8_t *text, size_t room) {
    memcpy(text, image, length);
    return length;
}

/* The lowest byte of the word is the form, what stands above it the reply. */
enum plokamyr_reply plokamyr_decode(uint32_t word, uint8_t row[PLOKAMYR_ROW]) {
    row[0] = (uint8_t)word;
    for (uint8_t i = 1; i < PLOKAMYR_ROW; i++) row[i] = i;
    return numbered(word >> 8);
}

/* The word is the form, the last field the reply. */
enum plokamyr_reply plokamyr_encode(const uint8_t row[PLOKAMYR_ROW], uint32_t *word) {
    *word = row[0];
    return numbered(row[PLOKAMYR_ROW - 1]);
}
