/* Plokamyr: the predicate part of an Arm SVE interpreter, for C and C++.
 * FORMAT.md has images, words, replies and their order in full: docs/FORMAT.md in the repository, share/doc/plokamyr/FORMAT.md where
 * this is installed.
 *
 * Every call is answered: nothing is left to the caller to check but what C cannot say. What the caller owes:
 *   - a pointer with a count is valid for that many elements (null will do where the count is 0), and aligned as its type;
 *   - `state`, `flags`, `x`, `p`, `counts`, `row` and `word` are valid pointers, never null; behind `p` stand seventeen predicates, behind `counts`
 *     the counts of sixteen;
 *   - what is lent to one call does not overlap;
 *   - a bool is 0 or 1;
 *   - there are 48 KB of stack; all functions but plokamyr_fold do with 32 KB.
 * A refusal carries its number and leaves every lent state and buffer as it was; PLOKAMYR_BUDGET_SPENT alone keeps the positions written so far.
 * A run that comes to a refused word is not refused itself: it stops there, and what the words before it did stays.
 * No function keeps a pointer, allocates, or has state of its own: calls from several threads do not meet.
 */
#ifndef PLOKAMYR_H
#define PLOKAMYR_H

#include <stdbool.h>
#include <stddef.h>
#include <stdint.h>

#ifdef __cplusplus
extern "C" {
#endif

/* The version: major * 10000 + minor * 100 + patch, and as text. CHANGELOG.md says what came with each. */
#define PLOKAMYR_VERSION 1000
#define PLOKAMYR_VERSION_TEXT "0.10.0"

/* The number of the layout: of the structs below, and of what each function is handed. It goes up with any change of these. */
#define PLOKAMYR_LAYOUT 3

/* Answers the number of the layout. Only a library of this layout has it. */
uint32_t plokamyr_layout_3(void);

/* What is compiled with this header refers to that function, called or not, so that it does not link with a library of another layout. The reference
 * is a note, since linkers keep notes whatever they leave out. A program that has the types alone and links no library defines PLOKAMYR_UNLINKED. */
#if defined(__GNUC__) && defined(__x86_64__) && defined(__ELF__) && !defined(PLOKAMYR_UNLINKED)
__asm__(".pushsection .note.plokamyr, \"a\", @note\n"
        "\t.balign 4\n"
        "\t.long 9, 4, 3\n" /* bytes of the name, bytes after it, the number of the layout */
        "\t.asciz \"Plokamyr\"\n"
        "\t.balign 4\n"
        "\t.long plokamyr_layout_3@PLT\n"
        "\t.popsection");
#endif

/* Later versions may add replies: keep a default. */
enum plokamyr_reply {
    PLOKAMYR_DONE = 0,
    PLOKAMYR_FOREIGN_WORD = 1,        /* bits 31:24 of the word are not 00100101 */
    PLOKAMYR_LEVEL_TOO_LOW = 2,       /* the state's level is below the form's */
    PLOKAMYR_ACCESS_OFF = 3,
    PLOKAMYR_ILLEGAL_STATE = 4,       /* vl is none of the five, level above 3, a bit of a predicate or of FFR at or above vl / 8, or a wrong count */
    PLOKAMYR_IMAGE_CUT = 5,           /* the image ends before a section does */
    PLOKAMYR_NOT_ALLOWED = 6,         /* a count or a byte of an image that is not allowed */
    PLOKAMYR_TRAILING_BYTES = 7,      /* bytes after the last section */
    PLOKAMYR_BUFFER_TOO_SMALL = 8,
    PLOKAMYR_FIELD_PAST_RANGE = 9,    /* of an instruction to be written; also for SEL with S = 1 */
    PLOKAMYR_BAD_WALK_REGISTERS = 10, /* X past 31, P past 15, size past 3, n = 31, n = m, or d = k */
    PLOKAMYR_LIST_TOO_SHORT = 11,     /* fewer places than positions to visit; also for a title of more than 4,096 units */
    PLOKAMYR_BUDGET_SPENT = 12,       /* the walk has not ended */
    PLOKAMYR_UNSUPPORTED_FORM = 13,   /* bits 31:24 of the word are 00100101, but its form is none of ours; also for SEL with S = 1 */
    PLOKAMYR_NOT_MONOTONIC = 14,      /* WRFFR's Pn is not a run of ones from bit 0 */
    PLOKAMYR_NOT_OWNED = 15           /* a kernel's word or walk names a register of the other kernel, or touches FFR */
};

/* A predicate: bit b is bit b % 64 of words[b / 64]. */
struct plokamyr_predicate {
    uint64_t words[4];
};

struct plokamyr_flags {
    bool n;
    bool z;
    bool c;
    bool v;
};

/* How many elements of a predicate are true, at each size. Element e of n bytes is true if bit e * n is 1; a vector has vl / 8 / n elements. */
struct plokamyr_counts {
    uint16_t b;
    uint16_t h;
    uint16_t s;
    uint16_t d;
};

struct plokamyr_state {
    uint64_t vl;    /* the vector length in bits: 128, 256, 512, 1024 or 2048 */
    uint8_t level;  /* 0 none, 1 SVE, 2 SVE2, 3 SVE2p1 */
    bool access;
    struct plokamyr_flags flags;
    uint64_t x[31];
    struct plokamyr_predicate p[16];
    struct plokamyr_predicate ffr;     /* the first-fault register, right after p: see plokamyr_predicates */
    struct plokamyr_counts counts[16]; /* of p; FFR has none. A state with a wrong one is refused with 4: see plokamyr_counted */
};

/* ---- states made by hand ---- */

/* The state with its counts worked out, and all else as it is. It is for a state that is made by hand: what the library leaves of a legal state has
 * right counts. Any state is taken, legal or not; bits that a predicate has no room for count as false. */
struct plokamyr_state plokamyr_counted(struct plokamyr_state state);

/* ---- steps ---- */

/* Executes one instruction word on a state whose parts stand anywhere: p holds P0 to P15 and then FFR, counts those of P0 to P15. Nothing is copied.
 * Refusals, the first that applies: 4, 1 or 13, 2, 3, 14 (WRFFR alone). */
enum plokamyr_reply plokamyr_step_parts(uint64_t vl, uint8_t level, bool access, struct plokamyr_flags *flags, uint64_t x[31],
                                        struct plokamyr_predicate p[17], struct plokamyr_counts counts[16], uint32_t word);

/* The seventeen predicates of a state: its p and then its ffr. The pointer comes from that to the state, since one to p ends with p. */
static inline struct plokamyr_predicate *plokamyr_predicates(struct plokamyr_state *state) {
    return (struct plokamyr_predicate *)(void *)((char *)state + offsetof(struct plokamyr_state, p));
}

/* The same as plokamyr_step_parts on a state where it stands. */
static inline enum plokamyr_reply plokamyr_step(struct plokamyr_state *state, uint32_t word) {
    return plokamyr_step_parts(state->vl, state->level, state->access, &state->flags, state->x, plokamyr_predicates(state), state->counts, word);
}

/* The same by way of a step that hands the state in and back: slower, since it copies the state. */
enum plokamyr_reply plokamyr_step_lent(struct plokamyr_state *state, uint32_t word);

/* done words were executed; refused is the reply to the word after them, or 0 if there is none. For a refusal of the run: 0 and 0. */
struct plokamyr_ran {
    enum plokamyr_reply reply;
    enum plokamyr_reply refused;
    size_t done;
};

/* Executes words one after the other, until one is refused (1 or 13, 2, 3, 14), on a state whose parts stand anywhere, as for a step: they hold what
 * the words done left. Refusal: 4, even if there are no words. The faster way for more than one word. */
struct plokamyr_ran plokamyr_run_parts(uint64_t vl, uint8_t level, bool access, struct plokamyr_flags *flags, uint64_t x[31],
                                       struct plokamyr_predicate p[17], struct plokamyr_counts counts[16], const uint32_t *words, size_t count);

/* The same on a state where it stands. */
static inline struct plokamyr_ran plokamyr_run(struct plokamyr_state *state, const uint32_t *words, size_t count) {
    return plokamyr_run_parts(state->vl, state->level, state->access, &state->flags, state->x, plokamyr_predicates(state), state->counts, words, count);
}

/* ---- the walk ---- */

/* count instructions were executed, visited positions stand at the front of the list, and state is what they left.
 * For a refusal other than 12: 0, 0 and the given state. */
struct plokamyr_walked {
    enum plokamyr_reply reply;
    uint64_t count;
    size_t visited;
    struct plokamyr_state state;
};

/* PFALSE Pk; then WHILELO Pd from Xn to Xm, PNEXT Pk through Pd, INCP Xn by Pd, repeated until no lane is left.
 * size is 0 to 3 for B, H, S, D. Each position visited goes to the next place of list, from the first on; other places stay.
 * At most budget instructions are executed. With D = Xm - Xn (0 if Xn is at or above Xm), E elements in a vector and R = D / E rounded up,
 * the walk ends exactly if budget is at least D + 3R + 2. Refusals, the first that applies: 4, 10, 2 (level 0), 3, 11, 12. */
struct plokamyr_walked plokamyr_walk(struct plokamyr_state state, uint32_t size, uint32_t n, uint32_t m, uint32_t d, uint32_t k,
                                     uint64_t *list, size_t places, uint64_t budget);

/* ---- titles ---- */

/* The most units that a title has. */
#define PLOKAMYR_TITLE_MAX 4096

/* Folds a title where it stands: a walk of halfwords lists the positions of its units, each of 16 bits, and the unit at each is folded, once.
 * A to Z become small. The letters of Latin-1 that have an accent become the letter without it, small too: in hex, C0 to C5, E0 to E5 a, C7, E7 c,
 * C8 to CB, E8 to EB e, CC to CF, EC to EF i, D1, F1 n, D2 to D6, F2 to F6 o, D9 to DC, F9 to FC u, DD, FD, FF y. All else stays, and so does
 * every unit from 100 on. The title comes out the same at every vector length, vl, and a second folding changes nothing.
 * Refusals: 4 (vl is none of the five), then 11 (more than PLOKAMYR_TITLE_MAX units). */
enum plokamyr_reply plokamyr_fold(uint16_t *title, size_t units, uint64_t vl);

/* ---- two kernels on one register file ---- */

/* The first kernel owns X0 to X15 and P0 to P7, the second X16 to X30 and P8 to P15. Register 31 is open to both, FFR to neither. Vector length,
 * level and access are shared; each kernel has its own flags. A shared state is not put in an image. */
struct plokamyr_shared {
    struct plokamyr_state state;  /* its flags are those of the first kernel */
    struct plokamyr_flags second; /* the flags of the second kernel */
};

/* shared is what the word left; for a refusal the given one. */
struct plokamyr_shared_stepped {
    enum plokamyr_reply reply;
    struct plokamyr_shared shared;
};

/* Executes one instruction word of a kernel, the second if second is true, else the first: what plokamyr_step does on the state with that kernel's
 * flags. Those of the other stay. A word names the registers that it reads, as source or mask, and those that it writes; both of a pair.
 * Refusals, the first that applies: 4, 1 or 13, 2, 3, 15. There is no 14, since WRFFR touches FFR. */
struct plokamyr_shared_stepped plokamyr_shared_step(struct plokamyr_shared shared, bool second, uint32_t word);

/* As plokamyr_walked. For a refusal other than 12: 0, 0 and the given shared state. */
struct plokamyr_shared_walked {
    enum plokamyr_reply reply;
    uint64_t count;
    size_t visited;
    struct plokamyr_shared shared;
};

/* The walk of a kernel: what plokamyr_walk does on the state with that kernel's flags. It names Xn, Xm, Pd and Pk; the limit m may be 31.
 * Refusals, the first that applies: 4, 10, 2 (level 0), 3, 15, 11, 12. */
struct plokamyr_shared_walked plokamyr_shared_walk(struct plokamyr_shared shared, bool second, uint32_t size, uint32_t n, uint32_t m, uint32_t d,
                                                   uint32_t k, uint64_t *list, size_t places, uint64_t budget);

/* ---- images ---- */

/* The most words that an image has, its most bytes, and room for the text of any image. */
#define PLOKAMYR_WORDS_MAX 4096
#define PLOKAMYR_IMAGE_MAX 17207
#define PLOKAMYR_TEXT_MAX 86026

/* count words stand in the lent list. For a refusal: 0, and a state of vl 128 with all else zero. */
struct plokamyr_reading {
    enum plokamyr_reply reply;
    size_t count;
    struct plokamyr_state state;
};

/* Reads an image, and puts its words at the front of words; other places stay. An image has no counts: those of the state are worked out. One of the
 * older kind, without FFR, gives one that is all false.
 * Refusals: 5 and 6 by the first section at fault, then 7, then 8. */
struct plokamyr_reading plokamyr_read(const uint8_t *image, size_t length, uint32_t *words, size_t places);

/* length bytes were written; for a refusal 0. */
struct plokamyr_written {
    enum plokamyr_reply reply;
    size_t length;
};

/* Writes the image of a state, with its FFR and without its counts, and of words at the front of image; other bytes stay.
 * Refusals: 4, then 6 (more than 4,096 words), then 8. */
struct plokamyr_written plokamyr_write(struct plokamyr_state state, const uint32_t *words, size_t count, uint8_t *image, size_t room);

/* Writes what the program prints for an image: a line for each word stepped and `end`, or `image` and the reply alone. Answers how many bytes were written.
 * There is no 0 after them, and other bytes stay. A line that has no room is left out whole, and a later, shorter one may still be written;
 * PLOKAMYR_TEXT_MAX bytes are room for any image. */
size_t plokamyr_text(const uint8_t *image, size_t length, uint8_t *text, size_t room);

/* ---- words ---- */

/* An instruction as numbers: its form, then the fields of the form from the highest bit down, then zeros.
 * The counters and the pair ask level 3, WHILE_ONE asks 1 if lt is 1 and else 2, all others ask 1.
 * LOGIC is, by op, o2, o3: 000 AND, 001 BIC, 010 EOR, 011 SEL, 100 ORR, 101 ORN, 110 NOR, 111 NAND. With S = 1 it sets the flags,
 * which SEL cannot: SEL with S = 1 is no instruction.
 * RDFFR_PG and RDFFRS_PG write FFR and Pg, bit by bit; RDFFRS_PG sets the flags besides.
 * Later versions may add forms: keep a default. */
enum plokamyr_form {
    PLOKAMYR_WHILE_ONE = 0,     /* size, Rm, sf, U, lt, Rn, eq, Pd */
    PLOKAMYR_WHILE_PAIR = 1,    /* size, Rm, U, lt, Rn, Pd, eq: writes P(2 Pd) and P(2 Pd + 1) */
    PLOKAMYR_WHILE_COUNTER = 2, /* size, Rm, vl, U, lt, Rn, eq, PNd: writes P(8 + PNd) */
    PLOKAMYR_SATURATING = 3,    /* SQ/UQ INCP/DECP: size, D, U, sf, Pm, Rdn */
    PLOKAMYR_INC_DEC = 4,       /* INCP/DECP: size, D, Pm, Rdn */
    PLOKAMYR_CNTP = 5,          /* size, Pg, Pn, Rd */
    PLOKAMYR_CNTP_COUNTER = 6,  /* size, vl, PNn, Rd */
    PLOKAMYR_PNEXT = 7,         /* size, Pv, Pdn */
    PLOKAMYR_PFIRST = 8,        /* Pg, Pdn */
    PLOKAMYR_PTEST = 9,         /* Pg, Pn */
    PLOKAMYR_PFALSE = 10,       /* Pd */
    PLOKAMYR_LOGIC = 11,        /* AND, BIC, EOR, SEL, ORR, ORN, NOR, NAND: op, S, Pm, Pg, o2, Pn, o3, Pd */
    PLOKAMYR_SETFFR = 12,       /* no fields: all bits of FFR become true */
    PLOKAMYR_WRFFR = 13,        /* Pn */
    PLOKAMYR_RDFFR = 14,        /* Pd */
    PLOKAMYR_RDFFR_PG = 15,     /* Pg, Pd */
    PLOKAMYR_RDFFRS_PG = 16     /* Pg, Pd */
};

#define PLOKAMYR_ROW 9

/* Reads a word as an instruction. Refusal: 1 or 13, the latter also for SEL with S = 1. */
enum plokamyr_reply plokamyr_decode(uint32_t word, uint8_t row[PLOKAMYR_ROW]);

/* Writes an instruction as a word. Refusal: 9, for a form or a field past its range, a number other than 0 after the form's fields,
 * or SEL with S = 1. */
enum plokamyr_reply plokamyr_encode(const uint8_t row[PLOKAMYR_ROW], uint32_t *word);

/* The library is compiled for these sizes, for an FFR that is the seventeenth predicate, and for counts right after it. */
#if defined(__cplusplus)
static_assert(sizeof(enum plokamyr_reply) == 4 && sizeof(struct plokamyr_state) == 936, "not the library's layout");
static_assert(sizeof(struct plokamyr_shared) == 944, "not the library's layout");
static_assert(offsetof(struct plokamyr_state, ffr) == offsetof(struct plokamyr_state, p) + 16 * sizeof(struct plokamyr_predicate),
              "ffr does not lie right after p");
static_assert(offsetof(struct plokamyr_state, counts) == offsetof(struct plokamyr_state, ffr) + sizeof(struct plokamyr_predicate),
              "counts do not lie right after ffr");
#elif defined(__STDC_VERSION__) && __STDC_VERSION__ >= 201112L
_Static_assert(sizeof(enum plokamyr_reply) == 4 && sizeof(struct plokamyr_state) == 936, "not the library's layout");
_Static_assert(sizeof(struct plokamyr_shared) == 944, "not the library's layout");
_Static_assert(offsetof(struct plokamyr_state, ffr) == offsetof(struct plokamyr_state, p) + 16 * sizeof(struct plokamyr_predicate),
               "ffr does not lie right after p");
_Static_assert(offsetof(struct plokamyr_state, counts) == offsetof(struct plokamyr_state, ffr) + sizeof(struct plokamyr_predicate),
               "counts do not lie right after ffr");
#endif

#ifdef __cplusplus
}
#endif

#endif
