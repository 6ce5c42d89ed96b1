/* Prints a line for each step: its number, the vector length, the word, the flags, and each register that has another value than before.
 * With a number: the registers before that step, and its line. */
#include "steps.h"

#include <stdio.h>
#include <stdlib.h>

enum { TURNS = 1000, FFR = 16 };

static const uint64_t lengths[] = {128, 256, 512, 1024, 2048};
enum { LENGTHS = sizeof lengths / sizeof *lengths };

/* The words of each form that SVE and SVE2 have; a point is a bit that may be either. The times are how often a form comes in a turn. */
static const struct form {
    const char *bits;
    unsigned times;
} forms[] = {
    {"00100101..1.....000.............", 8}, /* WHILE */
    {"00100101..1010..10001.0.........", 4}, /* SQINCP, SQDECP, UQINCP, UQDECP */
    {"00100101..10110.1000100.........", 2}, /* INCP, DECP */
    {"00100101..10000010....0.........", 2}, /* CNTP */
    {"00100101..0110011100010....0....", 4}, /* PNEXT */
    {"00100101010110001100000....0....", 2}, /* PFIRST */
    {"001001010101000011....0....00000", 2}, /* PTEST */
    {"0010010100011000111001000000....", 1}, /* PFALSE */
    {"00100101..00....01..............", 8}, /* AND, BIC, EOR, SEL, ORR, ORN, NOR, NAND */
    {"00100101001011001001000000000000", 1}, /* SETFFR */
    {"00100101001010001001000....00000", 1}, /* WRFFR */
    {"0010010100011001111100000000....", 1}, /* RDFFR */
    {"00100101000110001111000....0....", 2}, /* RDFFR under a predicate */
    {"00100101010110001111000....0....", 2}, /* RDFFRS */
};
enum { FORMS = sizeof forms / sizeof *forms };

/* ---- numbers from a seed (splitmix64) ---- */

static uint64_t seed;

static uint64_t next(void) {
    seed += 0x9E3779B97F4A7C15;
    uint64_t z = (seed ^ (seed >> 30)) * 0xBF58476D1CE4E5B9;
    z = (z ^ (z >> 27)) * 0x94D049BB133111EB;
    return z ^ (z >> 31);
}

static uint64_t below(uint64_t end) {
    return next() % end;
}

/* ---- words ---- */

static const struct form *form_of(unsigned number) {
    const struct form *form = forms;
    for (; number >= form->times; form++) number -= form->times;
    return form;
}

static uint32_t word_of(const char *bits) {
    uint32_t word = 0;
    for (; *bits; bits++) word = word << 1 | (*bits == '.' ? next() & 1 : *bits == '1');
    return word;
}

/* SEL that would set the flags is no instruction. */
static int is_flagged_sel(uint32_t word) {
    return (word & 0xFFF0C210) == 0x25404210;
}

static uint32_t word_for(const struct form *form) {
    uint32_t word;
    do word = word_of(form->bits);
    while (is_flagged_sel(word));
    return word;
}

/* ---- registers ---- */

/* Ones below a bit. */
static uint64_t ones(uint64_t end, unsigned word) {
    if (end <= 64 * word) return 0;
    return end - 64 * word >= 64 ? UINT64_MAX : (UINT64_C(1) << (end - 64 * word)) - 1;
}

static void put_run(uint64_t p[4], uint64_t end) {
    for (unsigned i = 0; i < 4; i++) p[i] = ones(end, i);
}

static void put_one(uint64_t p[4], uint64_t bit) {
    put_run(p, 0);
    p[bit / 64] = UINT64_C(1) << bit % 64;
}

static uint64_t thick(unsigned kind) {
    switch (kind) {
    case 0: return 0;
    case 1: return next() & next() & next() & next();
    case 2: return next() | next() | next();
    case 3: return UINT64_MAX;
    default: return next();
    }
}

/* A run of ones from bit 0, a single one, or bits that are none, few, many, all or mixed. */
static void put_predicate(uint64_t p[4], uint64_t vl) {
    unsigned kind = (unsigned)below(8);
    if (kind == 6) {
        put_run(p, below(vl / 8 + 1));
    } else if (kind == 7) {
        put_one(p, below(vl / 8));
    } else {
        for (unsigned i = 0; i < 4; i++) p[i] = thick(kind) & ones(vl / 8, i);
    }
}

/* Where counting begins, ends or turns. */
static const uint64_t bases[] = {0, 0x7FFFFFFF, 0xFFFFFFFF, 0x7FFFFFFFFFFFFFFF, 0xFFFFFFFFFFFFFFFF};

/* Mostly near one another, so that a WHILE ends within its vector. */
static void put_numbers(uint64_t x[31], uint64_t vl) {
    uint64_t kind = below(6);
    uint64_t base = kind < 5 ? bases[kind] : next();
    uint64_t reach = vl / 8 >> below(4);
    for (unsigned i = 0; i < 31; i++) {
        x[i] = base + below(2 * reach) - reach;
        uint64_t other = below(8);
        if (other == 0) x[i] = next();
        if (other == 1) x[i] = (uint32_t)x[i] | next() << 32;
    }
}

struct step {
    uint64_t vl;
    uint32_t word;
    struct registers before;
};

/* How many steps a turn has. */
static unsigned turn(void) {
    unsigned sum = 0;
    for (unsigned i = 0; i < FORMS; i++) sum += forms[i].times;
    return sum;
}

static struct step step_of(unsigned number) {
    struct step step;
    seed = number;
    step.vl = lengths[number / (turn() * TURNS)];
    const struct form *form = form_of(number % turn());
    step.word = word_for(form);
    put_numbers(step.before.x, step.vl);
    for (unsigned i = 0; i <= FFR; i++) put_predicate(step.before.p[i], step.vl);
    step.before.nzcv = next() & 15;
    /* WRFFR of anything but a run of ones is undefined */
    if (step.word >> 9 == 0x25289000 >> 9) put_run(step.before.p[step.word >> 5 & 15], below(step.vl / 8 + 1));
    return step;
}

/* ---- lines ---- */

static void print_flags(uint32_t nzcv) {
    for (int i = 3; i >= 0; i--) putchar('0' + (int)(nzcv >> i & 1));
}

static void print_predicate(unsigned number, const uint64_t p[4]) {
    if (number == FFR) printf(" ffr=");
    else printf(" p%u=", number);
    for (int i = 3; i >= 0; i--) printf("%016llx", (unsigned long long)p[i]);
}

/* The registers that differ, or all if there is no second. */
static void print_registers(const struct registers *registers, const struct registers *other) {
    for (unsigned i = 0; i < 31; i++) {
        if (!other || registers->x[i] != other->x[i]) printf(" x%u=%llx", i, (unsigned long long)registers->x[i]);
    }
    for (unsigned i = 0; i <= FFR; i++) {
        const uint64_t *p = registers->p[i], *q = other ? other->p[i] : 0;
        if (!q || p[0] != q[0] || p[1] != q[1] || p[2] != q[2] || p[3] != q[3]) print_predicate(i, p);
    }
}

static void print_step(unsigned number, const struct step *step) {
    struct registers after = step->before;
    unsigned reply = execute(&after, step->vl, step->word);
    printf("%u %llu %08x ", number, (unsigned long long)step->vl, step->word);
    if (reply) printf("refused with %u", reply);
    else print_flags(after.nzcv);
    print_registers(&after, &step->before);
    putchar('\n');
}

static void print_before(const struct step *step) {
    print_flags(step->before.nzcv);
    print_registers(&step->before, 0);
    putchar('\n');
}

int main(int count, char **arguments) {
    unsigned steps = LENGTHS * TURNS * turn(), number = 0;
    if (count > 1) {
        number = (unsigned)strtoul(arguments[1], 0, 10) % steps;
        steps = number + 1;
    }
    uint64_t vl = 0;
    for (; number < steps; number++) {
        struct step step = step_of(number);
        if (step.vl != vl) set_length(vl = step.vl);
        if (count > 1) print_before(&step);
        print_step(number, &step);
    }
    return fflush(stdout) != 0;
}
