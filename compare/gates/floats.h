/* What remainder.c and roots.c share: numbers at random, floats by their bits, and times. Included before all else. */
#ifndef FLOATS_H
#define FLOATS_H

#define _POSIX_C_SOURCE 199309L
#include <stdint.h>
#include <string.h>
#include <time.h>

/* Exponent fields of finite floats; calls that are timed together, and how often. */
enum { EXPONENTS = 2047, TIMED = 1000, ROUNDS = 200 };

/* xorshift64* */
static inline uint64_t random_bits(void) {
    static uint64_t state = 1;
    state ^= state >> 12;
    state ^= state << 25;
    state ^= state >> 27;
    return state * 0x2545F4914F6CDD1Du;
}

static inline double from_bits(uint64_t bits) {
    double x;
    memcpy(&x, &bits, sizeof x);
    return x;
}

static inline uint64_t to_bits(double x) {
    uint64_t bits;
    memcpy(&bits, &x, sizeof bits);
    return bits;
}

/* The same float, all NaNs alike. */
static inline int same(double x, double y) {
    return to_bits(x) == to_bits(y) || (x != x && y != y);
}

/* A float of either sign with this exponent field. */
static inline double with_exponent(uint64_t field) {
    return from_bits((random_bits() & 0x800FFFFFFFFFFFFFu) | field << 52);
}

/* This thread's time, in ns. */
static inline double now(void) {
    struct timespec time;
    clock_gettime(CLOCK_THREAD_CPUTIME_ID, &time);
    return time.tv_sec * 1e9 + time.tv_nsec;
}

/* Makes `least` the time of `call`, on operand i of TIMED, in the best of ROUNDS rounds, in ns. */
#define BEST(least, call)                                        \
    do {                                                         \
        (least) = 1e9;                                           \
        for (int round = 0; round < ROUNDS; round++) {           \
            double from = now();                                 \
            for (int i = 0; i < TIMED; i++) {                    \
                call;                                            \
            }                                                    \
            double taken = (now() - from) / TIMED;               \
            (least) = taken < (least) ? taken : (least);         \
        }                                                        \
    } while (0)

#endif
