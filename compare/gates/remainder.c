/* Holds mezburiko_remainder to the C library's fmod on more than ten million pairs, and prints how long a call of each
 * takes, in markdown. */
#include "floats.h"
#include <float.h>
#include <math.h>
#include <stdio.h>

double mezburiko_remainder(double x, double y);

typedef double (*Remainder)(double, double);
typedef void (*Pair)(double *x, double *y);

enum { PAIRS = 1500000 };

static unsigned long held, nans, differ;

static void any_bits(double *x, double *y) {
    *x = from_bits(random_bits());
    *y = from_bits(random_bits());
}

static void close_exponents(double *x, double *y) {
    uint64_t field = random_bits() % (EXPONENTS - 80);
    *y = with_exponent(field);
    *x = with_exponent(field + random_bits() % 80);
}

static void subnormal(double *x, double *y) {
    *x = with_exponent(random_bits() % 3 * (random_bits() % EXPONENTS));
    *y = with_exponent(0);
}

static void whole(double *x, double *y) {
    *x = (double)(int64_t)(random_bits() >> random_bits() % 64);
    *y = (double)(int64_t)(random_bits() >> random_bits() % 64);
}

static void neighbours(double *x, double *y) {
    uint64_t bits = random_bits();
    *x = from_bits(bits);
    *y = from_bits(bits + random_bits() % 5 - 2);
}

static void multiples(double *x, double *y) {
    *y = from_bits(random_bits());
    *x = *y * (double)(random_bits() % 1000);
}

static void two_decimals(double *x, double *y) {
    *x = (double)(int64_t)(random_bits() % 200001 - 100000) / 100;
    *y = (double)(int64_t)(random_bits() % 200001 - 100000) / 100;
}

static void steps(double *x, double *y) {
    *x = (double)(random_bits() % 1000000);
    *y = (double)(random_bits() % 1000 + 1);
}

static void largest_by_smallest(double *x, double *y) {
    *x = DBL_MAX;
    *y = from_bits(1);
}

static void largest_by_small(double *x, double *y) {
    *x = DBL_MAX;
    *y = fabs(with_exponent(1));
}

static void hold(double x, double y) {
    double ours = mezburiko_remainder(x, y), theirs = fmod(x, y);
    held++;
    nans += theirs != theirs;
    if (!same(ours, theirs) && differ++ == 0) {
        printf("%a by %a: remainder %a, fmod %a\n", x, y, ours, theirs);
    }
}

static void hold_all(void) {
    static const Pair families[] = {any_bits, close_exponents, subnormal, whole, neighbours, multiples, two_decimals};
    static const uint64_t magnitudes[] = {
        0, 1, 2, 3, 0x000FFFFFFFFFFFFFu, 0x0010000000000000u, 0x0010000000000001u, 0x3FE0000000000000u,
        0x3FF0000000000000u, 0x3FF0000000000001u, 0x4008000000000000u, 0x4340000000000000u, 0x7FE0000000000000u,
        0x7FEFFFFFFFFFFFFFu, 0x7FF0000000000000u, 0x7FF8000000000000u};
    enum { MAGNITUDES = sizeof magnitudes / sizeof *magnitudes };
    double x, y;
    for (size_t family = 0; family < sizeof families / sizeof *families; family++) {
        for (int i = 0; i < PAIRS; i++) {
            families[family](&x, &y);
            hold(x, y);
        }
    }
    for (int i = 0; i < 4 * MAGNITUDES * MAGNITUDES; i++) {
        x = from_bits(magnitudes[i / 4 % MAGNITUDES] | (uint64_t)(i & 1) << 63);
        y = from_bits(magnitudes[i / 4 / MAGNITUDES] | (uint64_t)(i >> 1 & 1) << 63);
        hold(x, y);
    }
    for (uint64_t i = 0; i < EXPONENTS; i++) {
        for (uint64_t k = 0; k < EXPONENTS; k += 7) {
            hold(with_exponent(i), with_exponent(k));
        }
    }
    printf("%lu pairs held to fmod, %lu of them with a NaN: %lu differ\n", held, nans, differ);
}

/* The best time of a call, in ns. */
static double best(Remainder remainder, const double *x, const double *y) {
    volatile double kept;
    double least;
    BEST(least, kept = remainder(x[i], y[i]));
    (void)kept;
    return least;
}

static void time_all(void) {
    static const struct {
        const char *name;
        Pair pair;
    } operands[] = {
        {"up to 1,000 with two decimals", two_decimals},
        {"whole, up to 1,000,000 by up to 1,000", steps},
        {"random bits", any_bits},
        {"the largest by the smallest", largest_by_smallest},
        {"the largest by floats of the smallest exponent", largest_by_small},
    };
    static double x[TIMED], y[TIMED];
    puts("\n| operands | `remainder`, ns | fmod, ns |\n|---|---:|---:|");
    for (size_t k = 0; k < sizeof operands / sizeof *operands; k++) {
        for (int i = 0; i < TIMED; i++) {
            operands[k].pair(&x[i], &y[i]);
        }
        printf("| %s | %.1f | %.1f |\n", operands[k].name, best(mezburiko_remainder, x, y), best(fmod, x, y));
    }
}

int main(void) {
    hold_all();
    time_all();
    return differ != 0;
}
