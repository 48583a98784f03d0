/*
 * Folds document 01's worked example, a graph with a text, one with parts that feed nothing, the empty graph and two
 * graphs that are refused, takes two whole roots, and prints what comes of each.
 */
#include <inttypes.h>
#include <stdio.h>

#include "mezburiko.h"

/* A Literal 2, an Add of it and 5, and a node that reads the sum. */
static const uint8_t WORKED[] = {
    0x01, 0x01, 0x00,                         /* node 0: Literal */
    0x01, 0x12, 0x00,                         /* node 1: Add */
    0x01, 0x00, 0x00,                         /* node 2: any other */
    0x02, 0, 0, 0x00, 1, 0, 0x02,             /* wire from 0 to InputA of 1 */
    0x02, 1, 0, 0x00, 2, 0, 0x02,             /* wire from 1 to InputA of 2 */
    0x03, 0, 0, 0x0A, 2, 0, 0, 0, 0, 0, 0, 0, /* Value of 0: Int 2 */
    0x03, 1, 0, 0x03, 5, 0, 0, 0, 0, 0, 0, 0, /* InputB of 1: Int 5 */
    0x0A, 0x12, 1, 1, 0,                      /* row: Add of two Ints */
};

/* A Literal "denim", and whether it equals "denim". */
static const uint8_t CLOTH[] = {
    0x01, 0x01, 0x00,             /* node 0: Literal */
    0x01, 0x06, 0x00,             /* node 1: Equal */
    0x02, 0, 0, 0x00, 1, 0, 0x02, /* wire from 0 to InputA of 1 */
    0x0A, 0x06, 8, 8, 0,          /* row: Equal of two texts */
    0x0C, 0, 0, 0x0A, 5, 'd', 'e', 'n', 'i', 'm', 0, 0, 0, 0, 0, 0, 0, 0, 0, 0, 0, /* Value of 0: "denim" */
    0x0C, 1, 0, 0x03, 5, 'd', 'e', 'n', 'i', 'm', 0, 0, 0, 0, 0, 0, 0, 0, 0, 0, 0, /* InputB of 1: "denim" */
};

/* Literals 7 and 9 and a Negate of the first, which nothing reads; a label names the second Literal. */
static const uint8_t SPARE[] = {
    0x01, 0x01, 0x00,                         /* node 0: Literal */
    0x01, 0x01, 0x02,                         /* node 1: Literal, named by a label */
    0x01, 0x19, 0x00,                         /* node 2: Negate */
    0x02, 0, 0, 0x00, 2, 0, 0x02,             /* wire from 0 to InputA of 2 */
    0x03, 0, 0, 0x0A, 7, 0, 0, 0, 0, 0, 0, 0, /* Value of 0: Int 7 */
    0x03, 1, 0, 0x0A, 9, 0, 0, 0, 0, 0, 0, 0, /* Value of 1: Int 9 */
};

/* A row that would order texts. */
static const uint8_t ORDER[] = {
    0x01, 0x08, 0x00,    /* node 0: Less */
    0x0A, 0x08, 8, 8, 0, /* row: Less of two texts */
};

/* A Branch whose taken side leads back into it. */
static const uint8_t CIRCLE[] = {
    0x01, 0x05, 0x00,             /* node 0: Branch */
    0x02, 0, 0, 0x07, 0, 0, 0x01, /* wire from ExecOutB of 0 to Exec of 0 */
    0x05, 0, 0, 0x05, 0,          /* BCond of 0: false */
    0x0A, 0x05, 3, 0, 0,          /* row: Branch on a Bool */
};

static uint8_t answer[MEZBURIKO_MAX_ANSWER];

/* The length of an answer's record, by its kind. */
static size_t record_length(uint8_t kind) {
    switch (kind) {
    case 0x10: /* kept */
    case 0x11: /* removed */
        return 3;
    case 0x14: /* planned Bool */
        return 4;
    case 0x05: /* Bool */
        return 5;
    case 0x02: /* wire */
        return 7;
    case 0x12: /* planned Int */
    case 0x13: /* planned Float */
        return 11;
    case 0x03: /* Int */
    case 0x04: /* Float */
        return 12;
    case 0x0C: /* text */
        return 21;
    case 0x15: /* planned Vector */
        return 27;
    case 0x06: /* Vector */
    case 0x07: /* Rotator */
        return 28;
    default: /* 0x08 Quat, 0x09 Color */
        return 36;
    }
}

static void print_records(const uint8_t *records, size_t length) {
    size_t start, i;
    for (start = 0; start < length; start += record_length(records[start])) {
        for (i = 0; i < record_length(records[start]); i++) {
            printf(" %02X", records[start + i]);
        }
        putchar('\n');
    }
}

/* mezburiko_fold or mezburiko_fold_swept. */
typedef uint8_t fold_function(const uint8_t *, size_t, uint8_t *, size_t, size_t *, size_t *, size_t *);

static void fold(fold_function *function, const char *name, const uint8_t *input, size_t input_length, uint8_t *out,
                 size_t out_length) {
    size_t place, length, pops;
    uint8_t number = function(input, input_length, out, out_length, &place, &length, &pops);
    if (number == MEZBURIKO_ACCEPTED) {
        printf("%s: accepted, %zu bytes, %zu pops\n", name, length, pops);
        print_records(out, length);
    } else {
        printf("%s: refused %u at %zu\n", name, (unsigned)number, place);
    }
}

static void whole_root(const char *name, uint64_t n) {
    uint64_t remainder;
    uint64_t root = mezburiko_whole_root(n, &remainder);
    printf("%s: the root of %" PRIu64 " is %" PRIu64 ", remainder %" PRIu64 "\n", name, n, root, remainder);
}

int main(void) {
    fold(mezburiko_fold, "worked example", WORKED, sizeof WORKED, answer, sizeof answer);
    fold(mezburiko_fold, "worked example, a byte too little", WORKED, sizeof WORKED, answer, 47);
    fold(mezburiko_fold, "cloth's name", CLOTH, sizeof CLOTH, answer, sizeof answer);
    fold(mezburiko_fold, "spare parts", SPARE, sizeof SPARE, answer, sizeof answer);
    fold(mezburiko_fold_swept, "spare parts, swept", SPARE, sizeof SPARE, answer, sizeof answer);
    fold(mezburiko_fold_swept, "spare parts, swept, a byte too little", SPARE, sizeof SPARE, answer, 32);
    fold(mezburiko_fold, "empty graph", NULL, 0, NULL, 0);
    fold(mezburiko_fold, "circle", CIRCLE, sizeof CIRCLE, answer, sizeof answer);
    fold(mezburiko_fold, "order of texts", ORDER, sizeof ORDER, answer, sizeof answer);
    whole_root("3000 steps by 4001", UINT64_C(3000) * 3000 + UINT64_C(4001) * 4001);
    whole_root("the largest number", UINT64_MAX);
    return 0;
}
