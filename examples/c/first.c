#include <plokamyr.h>
#include <stdio.h>

int main(void) {
    struct plokamyr_state state = {.vl = 128, .level = 1, .access = true};
    state.x[1] = 10;
    state.x[2] = 13;
    enum plokamyr_reply reply = plokamyr_step(&state, 0x25A21C20); /* WHILELO p0.s, x1, x2 */
    printf("reply %d, p0 %04x\n", (int)reply, (unsigned)state.p[0].words[0]);
}
