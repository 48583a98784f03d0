/* Holds mezburiko_whole_root to a second writing, and mezburiko_sqrt to the C library's sqrt, each on more than ten million
 * numbers, and prints how long a call of each takes, in markdown. */
#include "floats.h"
#include <float.h>
#include <inttypes.h>
#include <math.h>
#include <stdio.h>

uint64_t mezburiko_whole_root(uint64_t n, uint64_t *remainder);
/* A NaN where there is no root: of a negative number, a NaN or an infinity. */
double mezburiko_sqrt(double x);

typedef unsigned __int128 Wide;
typedef uint64_t (*WholeRoot)(uint64_t n, uint64_t *remainder);
typedef double (*Root)(double x);
typedef uint64_t (*Number)(void);
typedef double (*Float)(void);

enum { AT_ENDS = 1 << 20, LAST_ROOTS = 1 << 17, DRAWN = 1250000, OF_EACH = 400 };

static unsigned long numbers, floats, no_roots, differ;

/* A number of up to so many bits, each length as likely as another. */
static uint64_t up_to(uint64_t length) {
    return random_bits() >> (63 - random_bits() % length);
}

static uint64_t any_number(void) {
    return random_bits();
}

static uint64_t of_any_length(void) {
    return up_to(64);
}

static uint64_t square(void) {
    uint64_t root = up_to(32);
    return root * root;
}

static uint64_t before_square(void) {
    return square() - 1;
}

static uint64_t after_square(void) {
    return square() + 1;
}

/* The last number before the next square. */
static uint64_t largest_remainder(void) {
    uint64_t root = up_to(32);
    return root * root + 2 * root;
}

static uint64_t near_power(void) {
    return ((uint64_t)1 << random_bits() % 64) + random_bits() % 7 - 3;
}

static uint64_t steps(void) {
    return random_bits() % 1000000;
}

static uint64_t longest(void) {
    return random_bits() | (uint64_t)1 << 63;
}

static double any_float(void) {
    return from_bits(random_bits());
}

static double subnormal(void) {
    return from_bits(up_to(52) | (random_bits() % 8 == 0 ? (uint64_t)1 << 63 : 0));
}

static double whole(void) {
    return (double)of_any_length();
}

/* The float next to n^2 * 4^k, or one of its two neighbours, k at random. */
static double around_square(uint64_t n) {
    double near = ldexp((double)((Wide)n * n), 2 * (int)(random_bits() % 900) - 950);
    return from_bits(to_bits(near) + random_bits() % 3 - 1);
}

static double near_square(void) {
    return around_square(up_to(27) | 1);
}

/* Squares that just fit a float, or just do not. */
static double near_full_square(void) {
    return around_square(random_bits() >> (37 + random_bits() % 2) | 1);
}

/* The root of the square is odd and has 54 bits, so it is half way between two floats. */
static double near_tie(void) {
    return around_square(random_bits() >> 10 | (uint64_t)1 << 53 | 1);
}

/* A float next to a power of two, whose root lies next to one or to its product by the root of 2. */
static double near_power_of_two(void) {
    return from_bits((random_bits() % EXPONENTS << 52) + random_bits() % 9 - 4);
}

static double travel(void) {
    double x = (double)(random_bits() % 200001) / 100 - 1000, y = (double)(random_bits() % 200001) / 100 - 1000;
    return x * x + y * y;
}

static double positive(void) {
    return fabs(with_exponent(random_bits() % EXPONENTS));
}

static double positive_subnormal(void) {
    return fabs(subnormal());
}

static double negative(void) {
    return -positive();
}

/* A second writing: the C library's root of the nearest long double, put right by whole numbers. */
static uint64_t corrected_root(uint64_t n, uint64_t *remainder) {
    uint64_t root = (uint64_t)sqrtl((long double)n);
    while (n < (Wide)root * root) {
        root--;
    }
    while ((Wide)(root + 1) * (root + 1) <= n) {
        root++;
    }
    *remainder = n - root * root;
    return root;
}

static void hold_number(uint64_t n) {
    uint64_t over = ~n, wanted_over, root = mezburiko_whole_root(n, &over), wanted = corrected_root(n, &wanted_over);
    int is_root = (Wide)root * root + over == n && over <= 2 * (Wide)root;
    numbers++;
    if ((!is_root || root != wanted || over != wanted_over) && differ++ == 0) {
        printf("%" PRIu64 ": root %" PRIu64 " and %" PRIu64 " over, by the second writing %" PRIu64 " and %" PRIu64 "\n", n,
               root, over, wanted, wanted_over);
    }
}

static void hold_float(double x) {
    double ours = mezburiko_sqrt(x), theirs = sqrt(x);
    floats++;
    if (theirs > DBL_MAX) {
        theirs = NAN;
    }
    no_roots += theirs != theirs;
    if (!same(ours, theirs) && differ++ == 0) {
        printf("%a: root %a, by the C library %a\n", x, ours, theirs);
    }
}

static void hold_numbers(void) {
    static const Number families[] = {any_number, of_any_length, square, before_square, after_square, largest_remainder,
                                      near_power};
    for (uint64_t n = 0; n < AT_ENDS; n++) {
        hold_number(n);
        hold_number(UINT64_MAX - n);
    }
    for (uint64_t root = UINT32_MAX; root > UINT32_MAX - LAST_ROOTS; root--) {
        hold_number(root * root - 1);
        hold_number(root * root);
        hold_number(root * root + 1);
        hold_number(root * root + 2 * root);
    }
    for (size_t family = 0; family < sizeof families / sizeof *families; family++) {
        for (int i = 0; i < DRAWN; i++) {
            hold_number(families[family]());
        }
    }
    printf("%lu whole numbers held to a second writing: %lu differ\n", numbers, differ);
}

static void hold_floats(void) {
    static const Float families[] = {any_float,        subnormal, whole,  near_square,
                                     near_full_square, near_tie,  travel, near_power_of_two};
    unsigned long before = differ;
    for (size_t family = 0; family < sizeof families / sizeof *families; family++) {
        for (int i = 0; i < DRAWN; i++) {
            hold_float(families[family]());
        }
    }
    for (uint64_t field = 0; field <= EXPONENTS; field++) {
        for (int i = 0; i < OF_EACH; i++) {
            hold_float(with_exponent(field));
        }
        for (uint64_t sign = 0; sign < 2; sign++) {
            uint64_t first = sign << 63 | field << 52;
            hold_float(from_bits(first));
            hold_float(from_bits(first + 1));
            hold_float(from_bits(first + 0x000FFFFFFFFFFFFFu));
        }
    }
    printf("%lu floats held to sqrt, %lu of them without a root: %lu differ\n", floats, no_roots, differ - before);
}

/* The best time of a call, in ns: of calls in a row, and where each waits for the one before. */
typedef struct {
    double in_a_row, waiting;
} Times;

/* Is 0, which the compiler does not know. */
static volatile uint64_t nothing;

static Times number_times(WholeRoot root, const uint64_t *n) {
    volatile uint64_t kept;
    uint64_t last = 0, over, none = nothing;
    Times times;
    BEST(times.in_a_row, kept = root(n[i], &over));
    BEST(times.waiting, last = root(n[i] ^ (last & none), &over));
    kept = last;
    (void)kept;
    return times;
}

static Times float_times(Root root, const double *x) {
    volatile double kept;
    double last = 0;
    uint64_t none = nothing;
    Times times;
    BEST(times.in_a_row, kept = root(x[i]));
    BEST(times.waiting, last = root(from_bits(to_bits(x[i]) ^ (to_bits(last) & none))));
    kept = last;
    (void)kept;
    return times;
}

static void print_heads(const char *operands, const char *ours, const char *theirs) {
    printf("\n| %s | %s, ns | %s, ns | %s, waiting, ns | %s, waiting, ns |\n", operands, ours, theirs, ours, theirs);
    puts("|---|---:|---:|---:|---:|");
}

static void print_times(const char *name, Times ours, Times theirs) {
    printf("| %s | %.1f | %.1f | %.1f | %.1f |\n", name, ours.in_a_row, theirs.in_a_row, ours.waiting, theirs.waiting);
}

static void time_numbers(void) {
    static const struct {
        const char *name;
        Number number;
    } operands[] = {
        {"up to 1,000,000", steps},
        {"of any length", of_any_length},
        {"of 64 bits", longest},
        {"squares", square},
        {"before a square", before_square},
    };
    static uint64_t n[TIMED];
    print_heads("whole numbers", "`whole_root`", "by sqrtl");
    for (size_t k = 0; k < sizeof operands / sizeof *operands; k++) {
        for (int i = 0; i < TIMED; i++) {
            n[i] = operands[k].number();
        }
        print_times(operands[k].name, number_times(mezburiko_whole_root, n), number_times(corrected_root, n));
    }
}

static void time_floats(void) {
    static const struct {
        const char *name;
        Float number;
    } operands[] = {
        {"travel, up to 1,000 with two decimals either way", travel},
        {"whole, of any length", whole},
        {"positive, of any exponent", positive},
        {"subnormal", positive_subnormal},
        {"negative", negative},
    };
    static double x[TIMED];
    print_heads("floats", "`sqrt`", "C's sqrt");
    for (size_t k = 0; k < sizeof operands / sizeof *operands; k++) {
        for (int i = 0; i < TIMED; i++) {
            x[i] = operands[k].number();
        }
        print_times(operands[k].name, float_times(mezburiko_sqrt, x), float_times(sqrt, x));
    }
}

int main(void) {
    hold_numbers();
    hold_floats();
    time_numbers();
    time_floats();
    return differ != 0;
}
