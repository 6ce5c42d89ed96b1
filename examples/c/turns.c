#include <plokamyr.h>
#include <stdio.h>

static void turn(struct plokamyr_shared *shared, bool second, uint32_t word) {
    struct plokamyr_shared_stepped stepped = plokamyr_shared_step(*shared, second, word);
    *shared = stepped.shared;
    struct plokamyr_flags f = second ? shared->second : shared->state.flags;
    printf("%s: reply %d, NZCV %d%d%d%d\n", second ? "second" : "first", (int)stepped.reply, f.n, f.z, f.c, f.v);
}

int main(void) {
    struct plokamyr_shared shared = {.state = {.vl = 128, .level = 1, .access = true}};
    shared.state.x[1] = 10;
    shared.state.x[2] = 13;
    shared.state.x[18] = 9;
    turn(&shared, false, 0x25A21C20); /* WHILELO p0.s, x1, x2 */
    turn(&shared, true, 0x25B21E28);  /* WHILELO p8.s, x17, x18 */
    turn(&shared, false, 0x25AC8800); /* INCP x0, p0.s */
    turn(&shared, true, 0x25AC8800);  /* x0 and p0 are the first's */
    printf("p0 %04x, p8 %04x, x0 %d\n", (unsigned)shared.state.p[0].words[0], (unsigned)shared.state.p[8].words[0], (int)shared.state.x[0]);
}
