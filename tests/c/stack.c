/* Each function of the header on a thread that has as much stack as the header asks for, with what takes it deepest. tests/c/run reads the two
 * figures there: FOLD_KB for plokamyr_fold, OTHERS_KB for all others. Some 4 KB of each stack are the thread's own: they are part of the margin. */
#define _DEFAULT_SOURCE
#include "cases.h"
#include <pthread.h>
#include <signal.h>
#include <sys/mman.h>
#include <unistd.h>

/* ---- what is lent and handed in: none of it stands on the small stack */

enum { UNITS = PLOKAMYR_TITLE_MAX, WORDS = PLOKAMYR_WORDS_MAX, STEPS = 4 * KINDS };
static struct plokamyr_state state, stepped;
static struct plokamyr_shared shared;
static uint16_t title[UNITS];
static uint64_t list[UNITS];
static uint32_t words[WORDS], words_read[WORDS];
static uint8_t image[PLOKAMYR_IMAGE_MAX], image_written[PLOKAMYR_IMAGE_MAX], text[PLOKAMYR_TEXT_MAX];
static size_t image_length;

/* Walks over as many positions as a title has units, and an image with as many words as it may have. */
static void prepare(uint64_t vl) {
    shared = shared_sample(vl);
    shared.state.x[1] = shared.state.x[16] = 0;
    shared.state.x[2] = shared.state.x[17] = UNITS;
    state = stepped = shared.state;
    for (size_t i = 0; i < UNITS; i++) title[i] = (uint16_t)i;
    for (size_t i = 0; i < WORDS; i++) words[i] = word_at(i);
    image_length = plokamyr_write(state, words, WORDS, image, sizeof image).length;
}

/* ---- the calls, and whether they answer what they should */

static bool counted(void) {
    return plokamyr_counted(state).vl == state.vl;
}

static bool step_parts(void) {
    struct plokamyr_state *s = &stepped;
    for (size_t i = 0; i < STEPS; i++) {
        if (plokamyr_step_parts(s->vl, 3, true, &s->flags, s->x, plokamyr_predicates(s), s->counts, words[i]) != PLOKAMYR_DONE) return false;
    }
    return true;
}

static bool step(void) {
    for (size_t i = 0; i < STEPS; i++) {
        if (plokamyr_step(&stepped, words[i]) != PLOKAMYR_DONE) return false;
    }
    return true;
}

static bool step_lent(void) {
    for (size_t i = 0; i < STEPS; i++) {
        if (plokamyr_step_lent(&stepped, words[i]) != PLOKAMYR_DONE) return false;
    }
    return true;
}

static bool run_parts(void) {
    struct plokamyr_state *s = &stepped;
    return plokamyr_run_parts(s->vl, 3, true, &s->flags, s->x, plokamyr_predicates(s), s->counts, words, WORDS).done == WORDS;
}

static bool run(void) {
    return plokamyr_run(&stepped, words, WORDS).done == WORDS;
}

static bool walk(void) {
    for (uint32_t size = 0; size < 4; size++) {
        if (plokamyr_walk(state, size, 1, 2, 3, 4, list, UNITS, UINT64_MAX).visited != UNITS) return false;
    }
    return true;
}

static bool fold(void) {
    return plokamyr_fold(title, UNITS, state.vl) == PLOKAMYR_DONE && plokamyr_fold(title, 1, state.vl) == PLOKAMYR_DONE;
}

/* Each word for both kernels. One of them owns what some words name. */
static bool shared_step(void) {
    size_t done = 0;
    for (size_t i = 0; i < 2 * STEPS; i++) done += plokamyr_shared_step(shared, i % 2, words[i / 2]).reply == PLOKAMYR_DONE;
    return done > 0;
}

static bool shared_walk(void) {
    return plokamyr_shared_walk(shared, false, 0, 1, 2, 3, 4, list, UNITS, UINT64_MAX).visited == UNITS &&
           plokamyr_shared_walk(shared, true, 3, 16, 17, 8, 9, list, UNITS, UINT64_MAX).visited == UNITS;
}

static bool read_image(void) {
    return plokamyr_read(image, image_length, words_read, WORDS).count == WORDS;
}

static bool write_image(void) {
    return plokamyr_write(state, words, WORDS, image_written, sizeof image_written).length == image_length;
}

static bool write_text(void) {
    static const char end[] = "end 4096\n";
    size_t length = plokamyr_text(image, image_length, text, sizeof text);
    return length > sizeof end && memcmp(text + length - strlen(end), end, strlen(end)) == 0;
}

static bool decode_and_encode(void) {
    for (size_t i = 0; i < STEPS; i++) {
        uint8_t row[PLOKAMYR_ROW];
        uint32_t word;
        if (plokamyr_decode(words[i], row) != PLOKAMYR_DONE) return false;
        if (plokamyr_encode(row, &word) != PLOKAMYR_DONE || word != words[i]) return false;
    }
    return true;
}

struct call {
    const char *name;
    bool (*made)(void);
    size_t bytes;
};

enum { CALLS = 14, FOLD = FOLD_KB * 1024, OTHERS = OTHERS_KB * 1024 };
static const struct call calls[CALLS] = {
    {"counted", counted, OTHERS},         {"step_parts", step_parts, OTHERS},   {"step", step, OTHERS},
    {"step_lent", step_lent, OTHERS},     {"run_parts", run_parts, OTHERS},     {"run", run, OTHERS},
    {"walk", walk, OTHERS},               {"fold", fold, FOLD},                 {"shared_step", shared_step, OTHERS},
    {"shared_walk", shared_walk, OTHERS}, {"read", read_image, OTHERS},         {"write", write_image, OTHERS},
    {"text", write_text, OTHERS},         {"decode", decode_and_encode, OTHERS}, /* and encode */
};

/* ---- the thread */

enum { BELOW = 1 << 20 }; /* bytes below a stack that none may reach */
static const struct call *volatile current;

/* A fault is a stack that was too small. It is told from a stack of its own. */
static void tell(int number) {
    static const char head[] = "stack: the header's figure is too small for plokamyr_";
    (void)number;
    bool told = write(2, head, sizeof head - 1) > 0 && write(2, current->name, strlen(current->name)) > 0 && write(2, "\n", 1) > 0;
    _exit(told ? 1 : 2);
}

static void *on_thread(void *answer) {
    static uint8_t place[1 << 16];
    stack_t other = {.ss_sp = place, .ss_size = sizeof place};
    *(bool *)answer = sigaltstack(&other, NULL) == 0 && current->made();
    return NULL;
}

/* Makes a call on a stack of its own, and answers how many bytes of it were written. */
static size_t depth(const struct call *call) {
    uint8_t *memory = mmap(NULL, BELOW + call->bytes, PROT_NONE, MAP_PRIVATE | MAP_ANONYMOUS, -1, 0), *stack = memory + BELOW;
    bool lent = memory != MAP_FAILED && mprotect(stack, call->bytes, PROT_READ | PROT_WRITE) == 0, answer = false;
    CHECK(lent);
    if (!lent) return 0;
    pthread_attr_t attributes;
    pthread_t thread;
    size_t untouched = 0;
    fill(stack, call->bytes);
    current = call;
    CHECK(pthread_attr_init(&attributes) == 0 && pthread_attr_setstack(&attributes, stack, call->bytes) == 0);
    CHECK(pthread_create(&thread, &attributes, on_thread, &answer) == 0 && pthread_join(thread, NULL) == 0);
    if (!answer) fprintf(stderr, "plokamyr_%s at %d bits:\n", call->name, (int)state.vl);
    CHECK(answer);
    while (untouched < call->bytes && stack[untouched] == 0xA5) untouched++;
    munmap(memory, BELOW + call->bytes);
    return call->bytes - untouched;
}

int main(void) {
    size_t folding = 0, others = 0;
    struct sigaction action = {.sa_handler = tell, .sa_flags = SA_ONSTACK};
    CHECK(sigaction(SIGSEGV, &action, NULL) == 0);
    for (int i = 0; i < 5; i++) {
        prepare(lengths[i]);
        for (int k = 0; k < CALLS; k++) {
            size_t *most = calls[k].made == fold ? &folding : &others, bytes = depth(&calls[k]);
            if (bytes > *most) *most = bytes;
        }
    }
    printf("stack: with its thread plokamyr_fold takes %d of %d bytes, others take up to %d of %d\n", (int)folding, FOLD, (int)others, OTHERS);
    return finish("stack");
}
