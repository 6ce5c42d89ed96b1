/* A straight run of words under QEMU. Arguments: vector length in bits, runs to time together, repetitions.
 * Prints the best time of a run in ns, then the registers after it: X0 to X27, NZCV, and the bytes of P0 to P15. */
#include "common.h"

#include <string.h>

enum { NUMBERS = 28 };

struct registers {
    uint64_t x[NUMBERS];
    uint64_t flags; /* at bits 31 to 28 */
    uint64_t empty;
    uint8_t p[16 * 32];
};

void run_words(struct registers *registers);
extern const uint64_t start[NUMBERS];

static struct registers at_start(void) {
    struct registers registers;
    memset(&registers, 0, sizeof registers);
    memcpy(registers.x, start, sizeof registers.x);
    return registers;
}

static void print(const struct registers *registers, uint64_t bits) {
    for (int i = 0; i < NUMBERS; i++) printf("%llx\n", (unsigned long long)registers->x[i]);
    printf("%llx\n", (unsigned long long)registers->flags >> 28);
    uint64_t bytes = bits / 64;
    for (uint64_t i = 0; i < 16; i++) {
        for (uint64_t k = 0; k < bytes; k++) printf("%02x", registers->p[i * bytes + k]);
        printf("\n");
    }
}

int main(int count, char **arguments) {
    if (count != 4) die("three arguments are needed");
    uint64_t bits = strtoull(arguments[1], 0, 10);
    check_length(bits);
    int runs = atoi(arguments[2]);

    struct registers registers;
    double best = 1e18;
    for (int i = atoi(arguments[3]); i > 0; i--) {
        double start_time = now();
        for (int k = 0; k < runs; k++) {
            registers = at_start();
            run_words(&registers);
        }
        best = smaller(best, (now() - start_time) / runs);
    }
    printf("%.0f\n", best);
    print(&registers, bits);
    return 0;
}
