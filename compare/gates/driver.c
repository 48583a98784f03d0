/* Gate cases of 100 bytes on standard input, answers of 33 bytes on standard output, by mezburiko_gate_case. */
#include <stddef.h>
#include <stdint.h>
#include <stdio.h>

void mezburiko_gate_case(const uint8_t gate_case[100], uint8_t answer[33]);

int main(void) {
    uint8_t gate_case[100], answer[33];
    size_t got;
    while ((got = fread(gate_case, 1, sizeof gate_case, stdin)) == sizeof gate_case) {
        mezburiko_gate_case(gate_case, answer);
        if (fwrite(answer, 1, sizeof answer, stdout) != sizeof answer) {
            fputs("driver: cannot write\n", stderr);
            return 1;
        }
    }
    if (got != 0) {
        fprintf(stderr, "driver: the last case is cut off: %zu of %zu bytes\n", got, sizeof gate_case);
        return 1;
    }
    return 0;
}
