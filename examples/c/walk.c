#include <plokamyr.h>
#include <stdio.h>

int main(void) {
    for (uint64_t vl = 128; vl <= 512; vl *= 4) {
        struct plokamyr_state state = {.vl = vl, .level = 1, .access = true};
        uint64_t list[21];
        state.x[1] = 64;
        state.x[2] = 85;
        /* bytes (size 0), start X1, limit X2, lanes P0, cursor P1; as many instructions as it takes */
        struct plokamyr_walked walked = plokamyr_walk(state, 0, 1, 2, 0, 1, list, 21, UINT64_MAX);
        state = walked.state;
        printf("%d bits: reply %d, %d instructions, %d positions, %d to %d, x1 %d\n", (int)vl, (int)walked.reply, (int)walked.count,
               (int)walked.visited, (int)list[0], (int)list[20], (int)state.x[1]);
    }
}
