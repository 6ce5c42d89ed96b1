/* Steps by the processor that this is compiled for. It ends with 77 if that has no SVE2 or not the vector length. */
#include "steps.h"

#include <stdio.h>
#include <stdlib.h>
#include <string.h>
#include <sys/auxv.h>
#include <sys/mman.h>
#include <sys/prctl.h>

#ifndef HWCAP2_SVE2
#define HWCAP2_SVE2 (1 << 1)
#endif

/* As arm.S has it: the predicates one after the other, each as long as the vector length has it, from the beginning on. */
struct memory {
    uint8_t p[17 * 32];
    uint64_t x[31];
    uint64_t nzcv; /* at bits 31 to 28 */
} __attribute__((aligned(16)));

_Static_assert(sizeof(struct memory) == 800, "arm.S has other places");

void execute_word(struct memory *memory);
extern uint32_t place[];

static void lack(const char *what) {
    fprintf(stderr, "%s\n", what);
    exit(77);
}

void set_length(uint64_t vl) {
    if (!(getauxval(AT_HWCAP2) & HWCAP2_SVE2)) lack("the processor has no SVE2");
    int length = prctl(PR_SVE_SET_VL, vl / 8);
    if (length < 0 || (uint64_t)(length & PR_SVE_VL_LEN_MASK) != vl / 8) lack("the processor has not the vector length");
    if (mprotect(place, 4096, PROT_READ | PROT_WRITE | PROT_EXEC)) lack("no page can be both written and executed");
}

unsigned execute(struct registers *registers, uint64_t vl, uint32_t word) {
    struct memory memory;
    size_t bytes = vl / 64;
    memset(&memory, 0, sizeof memory);
    memcpy(memory.x, registers->x, sizeof memory.x);
    for (int i = 0; i < 17; i++) memcpy(memory.p + i * bytes, registers->p[i], bytes);
    memory.nzcv = (uint64_t)registers->nzcv << 28;
    place[0] = word;
    __builtin___clear_cache((char *)place, (char *)(place + 1));
    execute_word(&memory);
    memcpy(registers->x, memory.x, sizeof memory.x);
    memset(registers->p, 0, sizeof registers->p);
    for (int i = 0; i < 17; i++) memcpy(registers->p[i], memory.p + i * bytes, bytes);
    registers->nzcv = memory.nzcv >> 28 & 15;
    return 0;
}
