/* The walk under QEMU. Arguments: vector length in bits, positions, repetitions. Prints the best time in ns with positions, and bare. */
#include "common.h"

#include <stdlib.h>

uint64_t walk_positions(uint64_t start, uint64_t limit, uint64_t *list);
uint64_t walk_bare(uint64_t start, uint64_t limit);

static void check(const uint64_t *list, uint64_t positions) {
    for (uint64_t i = 0; i < positions; i++) {
        if (list[i] != i) die("a position is wrong");
    }
}

int main(int count, char **arguments) {
    if (count != 4) die("three arguments are needed");
    check_length(strtoull(arguments[1], 0, 10));
    uint64_t positions = strtoull(arguments[2], 0, 10);
    uint64_t *list = malloc(positions * sizeof *list);
    if (!list) die("no memory");

    double best[2] = {1e18, 1e18};
    for (int i = atoi(arguments[3]); i > 0; i--) {
        double start = now();
        uint64_t end_of_first = walk_positions(0, positions, list);
        double middle = now();
        uint64_t end_of_second = walk_bare(0, positions);
        double end = now();
        if (end_of_first != positions || end_of_second != positions) die("a walk did not end at its limit");
        best[0] = smaller(best[0], middle - start);
        best[1] = smaller(best[1], end - middle);
    }
    check(list, positions);
    printf("%.0f %.0f\n", best[0], best[1]);
    return 0;
}
