/* Steps by the library. */
#include "steps.h"

#include <plokamyr.h>
#include <string.h>

void set_length(uint64_t vl) {
    (void)vl;
}

unsigned execute(struct registers *registers, uint64_t vl, uint32_t word) {
    struct plokamyr_state state;
    memset(&state, 0, sizeof state);
    state.vl = vl;
    state.level = 2;
    state.access = true;
    uint32_t nzcv = registers->nzcv;
    state.flags = (struct plokamyr_flags){nzcv >> 3 & 1, nzcv >> 2 & 1, nzcv >> 1 & 1, nzcv & 1};
    memcpy(state.x, registers->x, sizeof state.x);
    memcpy(plokamyr_predicates(&state), registers->p, sizeof registers->p);
    state = plokamyr_counted(state);
    unsigned reply = plokamyr_step(&state, word);
    memcpy(registers->x, state.x, sizeof state.x);
    memcpy(registers->p, plokamyr_predicates(&state), sizeof registers->p);
    registers->nzcv = (uint32_t)(state.flags.n << 3 | state.flags.z << 2 | state.flags.c << 1 | state.flags.v);
    return reply;
}
