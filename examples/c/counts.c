#include <plokamyr.h>
#include <stdio.h>

int main(void) {
    struct plokamyr_state state = {.vl = 128, .level = 1, .access = true};
    state.x[1] = 10;
    state.x[2] = 13;
    enum plokamyr_reply reply = plokamyr_step(&state, 0x25A21C20); /* WHILELO p0.s, x1, x2 */
    struct plokamyr_flags f = state.flags;
    printf("reply %d, p0 %04x, NZCV %d%d%d%d\n", (int)reply, (unsigned)state.p[0].words[0], f.n, f.z, f.c, f.v);
    state.p[1].words[0] = 0x0011; /* written by hand: */
    state = plokamyr_counted(state);
    reply = plokamyr_step(&state, 0x25AC8820); /* INCP x0, p1.s */
    printf("reply %d, true words of p0 %d, of p1 %d, x0 %d\n", (int)reply, state.counts[0].s, state.counts[1].s, (int)state.x[0]);
}
