/* Tests of trace's buffers: output of 1,023, 1,024 and more bytes, and bytes after the report. */
#include <stdio.h>
#include <string.h>

#include "trace.h"

static const uint8_t sheet[] = {
    1, 1, 1, 0, 0, 0, 0, 0, 1, 2, 3, 0, 4, 0, 0, 0, 1, 3, 0xE8, 3, 0xDC, 5, 0, 0, 1, 4, 5, 0, 5, 0, 0, 0,
    1, 5, 0x78, 5, 0xB8, 0x0B, 0, 0, 2, 6, 1, 2, 3, 0, 0, 0, 5, 0, 4, 2, 0, 0, 0, 0,
};
static const char report[] = "standing 2\n1 4 4\n2 1400 1499\n3 5 5\n4 1400 1499\n";

static uint8_t output[4096];

/* Whether every byte from a place on is the mark. */
static int marked(size_t from)
{
    for (size_t i = from; i < sizeof output; i++) {
        if (output[i] != 0xA5) {
            return 0;
        }
    }
    return 1;
}

static int check(const char *what, size_t length, size_t expected)
{
    memset(output, 0xA5, sizeof output);
    size_t written = trace(sheet, sizeof sheet, output, length);
    if (written != expected || memcmp(output, report, expected) != 0 || !marked(expected)) {
        fprintf(stderr, "buffers: %s: answered %zu\n", what, written);
        return 1;
    }
    return 0;
}

int main(void)
{
    size_t size = sizeof report - 1;
    int failed = 0;
    failed += check("no output", 0, 0);
    failed += check("output of 1,023 bytes", 1023, 0);
    failed += check("output of 1,024 bytes", 1024, size);
    failed += check("output of 4,096 bytes", 4096, size);
    return failed != 0;
}
