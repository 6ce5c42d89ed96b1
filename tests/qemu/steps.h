/* Steps from a seed, which two programs make: one by the library, one by a processor. */
#ifndef STEPS_H
#define STEPS_H

#include <stdint.h>

/* What a step reads and writes. The last predicate is FFR; bit b of one is bit b % 64 of word b / 64. */
struct registers {
    uint64_t x[31];
    uint64_t p[17][4];
    uint32_t nzcv; /* N is bit 3 */
};

/* Makes ready for a vector length in bits. */
void set_length(uint64_t vl);

/* Executes the word. Answers 0 if that is done, else the number of the refusal. */
unsigned execute(struct registers *registers, uint64_t vl, uint32_t word);

#endif
