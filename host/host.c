/* Checks a case and a log from two files, by the proved checker:

       host THEORY CASE LOG

   The report goes to standard output. The status is 0 where a report was written, and 2 where the arguments or the files
   are wrong. */

#include <errno.h>
#include <stdio.h>
#include <stdlib.h>
#include <string.h>

#include "tenwaqru.h"

/* One byte more than any file may have is enough to be refused as too long. */
#define MOST_BYTES 40001

static uint8_t case_file[MOST_BYTES];
static uint8_t log_file[MOST_BYTES];
static uint8_t report[LEAST_REPORT];

static size_t read_file(const char *name, uint8_t *bytes)
{
    FILE *file = fopen(name, "rb");
    if (file == NULL) {
        fprintf(stderr, "host: %s: %s\n", name, strerror(errno));
        exit(2);
    }
    size_t length = fread(bytes, 1, MOST_BYTES, file);
    if (ferror(file)) {
        fprintf(stderr, "host: %s cannot be read\n", name);
        exit(2);
    }
    fclose(file);
    return length;
}

static uint8_t theory_number(const char *text)
{
    char *end;
    unsigned long number = strtoul(text, &end, 10);
    if (*text == '\0' || *end != '\0' || number > 255) {
        fprintf(stderr, "host: %s is no number of a theory\n", text);
        exit(2);
    }
    return (uint8_t)number;
}

int main(int count, char **arguments)
{
    if (count != 4) {
        fprintf(stderr, "usage: host THEORY CASE LOG\n");
        return 2;
    }
    uint8_t theory = theory_number(arguments[1]);
    size_t case_length = read_file(arguments[2], case_file);
    size_t log_length = read_file(arguments[3], log_file);
    size_t length = check(theory, case_file, case_length, log_file, log_length, report, sizeof report);
    fwrite(report, 1, length, stdout);
    return fflush(stdout) == 0 ? 0 : 2;
}
