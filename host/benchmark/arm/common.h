#include <stdint.h>
#include <stdio.h>
#include <stdlib.h>
#include <time.h>

static inline void die(const char *why) {
    fprintf(stderr, "%s\n", why);
    exit(1);
}

/* QEMU may round a length that it is asked for: ask the machine itself. */
static inline void check_length(uint64_t bits) {
    uint64_t bytes;
    __asm__ volatile("cntb %0" : "=r"(bytes));
    if (bytes * 8 != bits) die("the vector length is not the one asked for");
}

static inline double now(void) {
    struct timespec time;
    clock_gettime(CLOCK_MONOTONIC, &time);
    return (double)time.tv_sec * 1e9 + (double)time.tv_nsec;
}

static inline double smaller(double a, double b) {
    return a < b ? a : b;
}
