/* The checker for hosts written in C. Link libtenwaqru_c.a.

   check goes over a case and the log that answers it, over the theory of the given number: 1 is switches only, 2 is
   congruence over linear. It writes the report to the front of the buffer and returns how many bytes that took; the bytes
   behind it stay as they were. A buffer of less than LEAST_REPORT bytes stays as it was, and the length is 0.

   What the report says is proved: `impossible` only if no arrangement that the theory of the case admits meets every rule
   of the case, and `possible` only with an arrangement that is admitted and meets every rule. docs/FORMATS.md has the
   files and the lines of a report, docs/CAUSES.md the causes of a refusal.

   check keeps nothing between calls, allocates nothing, and reads and writes nothing but these three ranges of bytes.
   They must be there: each pointer with that many bytes behind it, and the report apart from the two others. A pointer
   may be of a length 0, but must not be null. */

#ifndef TENWAQRU_H
#define TENWAQRU_H

#include <stddef.h>
#include <stdint.h>

#define LEAST_REPORT 2048

size_t check(
    uint8_t theory,
    const uint8_t *case_file, size_t case_length,
    const uint8_t *log_file, size_t log_length,
    uint8_t *report, size_t report_length);

#endif
