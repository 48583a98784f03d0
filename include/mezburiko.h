/*
 * Mezburiko: folds the constants of a gate graph, and gives whole roots, for C99 and C++.
 *
 * The static library is target/staticlib/libmezburiko.a, which `make library` makes for x86-64 Linux. Of its host it
 * needs memcpy and memset, nothing else. docs/01-scope.md has the records of graphs and answers, and the rules.
 */
#ifndef MEZBURIKO_H
#define MEZBURIKO_H

#include <stddef.h>
#include <stdint.h>

#ifdef __cplusplus
extern "C" {
#endif

/* What an input may hold at most. */
#define MEZBURIKO_MAX_INPUT 65536 /* bytes */
#define MEZBURIKO_MAX_NODES 1024
#define MEZBURIKO_MAX_WIRES 4096 /* also of the answer */
#define MEZBURIKO_MAX_PROPERTIES 2048
#define MEZBURIKO_MAX_ROWS 1024

/*
 * The longest answer in bytes: 4,096 wires of 7 enter a node of at most 39 that is no planned literal, and the other
 * 1,023 nodes are Vectors of 55. A buffer of this length holds every answer: with one, 10 says too many wires.
 */
#define MEZBURIKO_MAX_ANSWER 84976

/* What the folds return: 0, or the number of a refusal. The place is an offset into the input, in bytes. */
enum mezburiko_number {
    MEZBURIKO_ACCEPTED = 0,
    MEZBURIKO_INPUT_TOO_LONG = 1, /* more than 65,536 bytes; place 0 */
    /* 2 to 8, and 12: the place is the offset of the record */
    MEZBURIKO_UNKNOWN_KIND = 2,   /* the kind is not 01 to 0C */
    MEZBURIKO_CUT_OFF = 3,        /* the input ends within the record */
    MEZBURIKO_UNLISTED = 4,       /* a class, flag, port, variant, Bool or text byte that is not listed for the kind */
    MEZBURIKO_OUT_OF_ORDER = 5,   /* the kind is below that of the record before */
    MEZBURIKO_MISSING_NODE = 6,   /* a node that is not there */
    MEZBURIKO_REPEATED = 7,       /* a second property of a node and port, or annihilator of a class */
    MEZBURIKO_TOO_MANY = 8,       /* one node, wire, property or row more than the limit */
    MEZBURIKO_ENDLESS = 9,        /* the rewriting of a wire goes round a circle; place: the first such wire record */
    MEZBURIKO_NO_SPACE = 10,      /* more than 4,096 rewritten wires, or a buffer too short; place 0 */
    /* 11 is no number of a refusal */
    MEZBURIKO_ORDERED_TEXT = 12   /* a row of Less to GreaterOrEqual names text; asked of a record right after 4 */
};

/*
 * Folds the graph in input[0 .. input_length) and writes the answer to the front of out[0 .. out_length). Every node has
 * its fate in the answer, those that feed nothing too: mezburiko_fold_swept takes these.
 *
 * Returns 0 where the graph is accepted: *length is the answer's length, *pops how many nodes were taken from the
 * waiting line, *place is 0, and the bytes of out past the answer are as they were. Returns the number of a refusal
 * otherwise: *place says where, *length and *pops are 0, and all of out is as it was.
 *
 * No run of bytes is ruled out. The caller owes:
 * - input is valid for reading input_length bytes, out for reading and writing out_length bytes; either may be null
 *   where its length is 0;
 * - place, length and pops are not null, are aligned and may be written;
 * - none of the five overlaps another, and no other thread writes input or touches the rest during the call.
 * What *place, *length and *pops hold before the call plays no part.
 *
 * The call takes about 116 KB of stack at its peak (docs/PERFORMANCE.md) and no heap. The library has no writable data,
 * so calls on different memory may run at once in any threads. It always returns, and to its caller.
 */
uint8_t mezburiko_fold(const uint8_t *input, size_t input_length, uint8_t *out, size_t out_length, size_t *place,
                       size_t *length, size_t *pops);

/*
 * Folds as mezburiko_fold does, and then takes the nodes that feed nothing.
 *
 * A Literal or a gate (classes 1 and 6 to 42, made a literal or not, known or not) whose flags are 0 and which no
 * rewritten wire leaves is taken, its incoming wires with it, and so on until none is left. A loop stays, as each of its
 * nodes feeds another or itself; so does a node with flag bit 0 (nofold) or bit 1, which marks one that a label names, and
 * what feeds it. A taken node has the fate 11 (removed); known values and pops are those of mezburiko_fold.
 *
 * Numbers, places, what is written and what the caller owes are as for mezburiko_fold, and MEZBURIKO_MAX_ANSWER holds
 * every answer here too. MEZBURIKO_NO_SPACE counts the rewritten wires before any node is taken, and measures the answer
 * after it. The call takes about 145 KB of stack at its peak and no heap.
 */
uint8_t mezburiko_fold_swept(const uint8_t *input, size_t input_length, uint8_t *out, size_t out_length, size_t *place,
                             size_t *length, size_t *pops);

/*
 * The whole root of n and what is over: returns the root, and writes the remainder to *remainder.
 *
 * For every n, root * root + *remainder is n, and *remainder is at most 2 * root: the root is the largest number whose
 * square is at most n. It is at most 4,294,967,295 and the remainder at most 8,589,934,590, so nothing here overflows.
 *
 * No n is refused, and nothing but *remainder is written. The caller owes that remainder is not null, is aligned and
 * may be written, and that no other thread touches it during the call. What *remainder holds before plays no part.
 *
 * The call takes no stack to speak of and no heap, and needs nothing of the host. Calls on different memory may run at
 * once in any threads. It has no loop, and always returns to its caller.
 */
uint64_t mezburiko_whole_root(uint64_t n, uint64_t *remainder);

#ifdef __cplusplus
}
#endif

#endif
