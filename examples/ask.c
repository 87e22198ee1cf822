/* Asks the questions of a log. For each it prints what the question can cost, the answer line as it is, and the line in words.

   Usage: ask [FILE]      without FILE the log is read from standard input
   Exit codes: 0 answered, 1 the log is refused, 2 wrong use, 3 the log cannot be read or the output not written

   gcc -std=c99 -Wall -Wextra -Werror -I moment/include examples/ask.c target/staticlib/libexports.a -o target/ask */
#include "moment.h"

#include <errno.h>
#include <stdio.h>
#include <string.h>

/* What is lent to the operations. A log that fills its array is longer than a log may be, and is refused. */
static uint8_t log_bytes[MOMENT_LOG + 1], list[MOMENT_LIST], workspace[MOMENT_CELLS], bars[MOMENT_BARS], line[MOMENT_LINE];

/* The answer line in words: whether the question is true at the start, and its greatest moments, each a count of events a station. */
static void print_words(size_t stations) {
    printf("at the start: %s; ", moment_start(line) ? "yes" : "no");
    if (moment_listed(line) == 0) {
        printf("never, in any order that the messages allow\n");
        return;
    }
    printf("greatest moments:");
    for (size_t m = 0; m < moment_listed(line); m++) {
        for (size_t s = 0; s < stations; s++) {
            printf("%s%u", s == 0 ? " (" : ",", moment_events(line, stations, m, s));
        }
        printf(")");
    }
    printf("\n");
}

/* One question, with the workspace that its forecast asks for. Hands back a refusal, or a reply that is none. */
static uint64_t print_question(size_t log_len, size_t question, size_t stations) {
    uint64_t reply = moment_forecast(log_bytes, log_len, question);
    if (moment_refused(reply)) return reply;
    struct moment_forecast_figures f = moment_figures(reply);
    reply = moment_answer(log_bytes, log_len, question, workspace, f.cells, bars, sizeof bars, line, sizeof line);
    if (moment_refused(reply)) return reply;
    printf("question %zu: width %zu, bars %zu, held %zu, cells %zu, ceiling %zu\n", question, f.width, f.bars, f.held, f.cells, f.ceiling);
    fwrite(line, 1, moment_length(reply), stdout);
    print_words(stations);
    return reply;
}

/* All questions of the log, or its refusal; the exit code. */
static int print_all(size_t log_len) {
    uint64_t reply = moment_read(log_bytes, log_len, list, sizeof list);
    struct moment_read_counts counts = moment_counts(reply);
    for (size_t q = 0; !moment_refused(reply) && q < counts.questions; q++) {
        reply = print_question(log_len, q, counts.stations);
    }
    if (!moment_refused(reply)) return 0;
    printf("refused %u, line %zu\n", moment_number(reply), moment_line(reply));
    return 1;
}

/* A file that cannot be read or written. */
static int failed(const char *name) {
    fprintf(stderr, "ask: %s: %s\n", name, strerror(errno));
    return 3;
}

int main(int argc, char **argv) {
    if (argc > 2) {
        fprintf(stderr, "usage: ask [FILE]\n");
        return 2;
    }
    const char *name = argc == 2 ? argv[1] : "standard input";
    FILE *in = argc == 2 ? fopen(name, "rb") : stdin;
    if (in == NULL) return failed(name);
    size_t log_len = fread(log_bytes, 1, sizeof log_bytes, in);
    if (ferror(in)) return failed(name);
    int code = print_all(log_len);
    return fflush(stdout) == 0 && !ferror(stdout) ? code : failed("standard output");
}
