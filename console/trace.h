/* trace: from a stored sheet to its report.
 *
 * Reads a stored sheet of input_length bytes from input, settles it with an allowance of 100,000 narrowings, writes its report
 * at the start of output and answers the report's length. Bytes of output after the report stay as they are. A report is lines
 * of text, each ended by byte 10, and is not ended by a byte 0. It has 1,024 bytes at most.
 *
 * With under 1,024 bytes of output, trace answers 0 and writes nothing, whatever the input.
 * Where memory for the sheet is wanting, it answers TRACE_NO_MEMORY and writes nothing.
 *
 * The two buffers must not overlap, and neither pointer may be null, also where its length is 0.
 */
#ifndef CUETRACE_TRACE_H
#define CUETRACE_TRACE_H

#include <stddef.h>
#include <stdint.h>

#define TRACE_OUTPUT_MIN 1024
#define TRACE_NO_MEMORY SIZE_MAX

size_t trace(const uint8_t *input, size_t input_length, uint8_t *output, size_t output_length);

#endif
