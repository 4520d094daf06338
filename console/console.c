/* An example console: reads a stored sheet from standard input and prints its report. */
#include <stdio.h>

#include "trace.h"

/* A stored sheet has 2,048 bytes at most. One byte more shows an input that is too long; it is handed on, and refused. */
static uint8_t input[2049];
static uint8_t output[TRACE_OUTPUT_MIN];

int main(void)
{
    size_t length = fread(input, 1, sizeof input, stdin);
    if (ferror(stdin)) {
        fputs("console: cannot read standard input\n", stderr);
        return 1;
    }
    size_t written = trace(input, length, output, sizeof output);
    if (written == 0) {
        fputs("console: the output buffer is too short\n", stderr);
        return 1;
    }
    if (written == TRACE_NO_MEMORY) {
        fputs("console: out of memory\n", stderr);
        return 1;
    }
    if (fwrite(output, 1, written, stdout) != written || fflush(stdout) != 0) {
        fputs("console: cannot write the report\n", stderr);
        return 1;
    }
    return 0;
}
