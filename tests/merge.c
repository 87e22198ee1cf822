/* What Merge makes of two files, in C99 and in C++: the log, or the refusal, with so many bytes lent as output.

   Usage: merge FIRST SECOND LENT
   Exit codes: 0 merged, 1 refused, 2 a byte of the output has changed that had to stay as lent, 3 a file cannot be read */
#include "moment.h"

#include <stdio.h>
#include <stdlib.h>

enum { LENT = 0xA5 };  /* what the output holds before the call */

/* A log that fills its array is longer than a log may be, and is refused. */
static uint8_t first[MOMENT_LOG + 1], second[MOMENT_LOG + 1], out[MOMENT_LOG];

/* A file's bytes into an array; their number. */
static size_t read_file(const char *name, uint8_t *log) {
    FILE *in = fopen(name, "rb");
    if (in == NULL) exit(3);
    size_t length = fread(log, 1, MOMENT_LOG + 1, in);
    fclose(in);
    return length;
}

int main(int argc, char **argv) {
    if (argc != 4) return 3;
    size_t first_len = read_file(argv[1], first), second_len = read_file(argv[2], second), lent = strtoul(argv[3], NULL, 10);
    if (lent > sizeof out) return 3;
    for (size_t i = 0; i < sizeof out; i++) out[i] = LENT;
    uint64_t reply = moment_merge(first, first_len, second, second_len, out, lent);
    size_t length = moment_refused(reply) ? 0 : moment_length(reply);
    for (size_t i = length; i < sizeof out; i++) {
        if (out[i] != LENT) return 2;
    }
    fwrite(out, 1, length, stdout);
    if (!moment_refused(reply)) return 0;
    printf("refused %u, line %zu\n", moment_number(reply), moment_line(reply));
    return 1;
}
