// What examples/ask.c does not call, in C++: the bench log through Read and Write, merged with itself, and Holds at a moment, at the start
// and at what is no cut. Exit code 0 where all is as docs/FORMAT.md says.
#include "moment.h"
#include "moment.h"
#include <cstring>

static uint8_t log_bytes[MOMENT_LOG], list[MOMENT_LIST], written[MOMENT_LOG], ws[MOMENT_CELLS], bs[MOMENT_BARS];

int main() {
    const char *lines = "100200000000EE\n200000050100DA\n200100010001DD\n200100020102DA\n3003010000050005010100010001BE\n";
    size_t n = std::strlen(lines);
    std::memcpy(log_bytes, lines, n);
    moment_read_counts counts = moment_counts(moment_read(log_bytes, n, list, sizeof list));
    bool counted = counts.stations == 2 && counts.events == 3 && counts.questions == 1 && counts.list == 43;
    size_t length = moment_length(moment_write(list, counts.list, written, sizeof written));
    bool same = length == n && std::memcmp(log_bytes, written, n) == 0 && moment_length(MOMENT_LOG) == MOMENT_LOG;
    const char *twice = "10040000000000000000EC\n2000000501000000DA\n2001000100010000DD\n2001000201020000DA\n"
                        "2002000500000100D8\n2003000100000001DB\n2003000200000102D8\n3003010000050005010100010001BE\n";
    size_t both = moment_length(moment_merge(log_bytes, n, log_bytes, n, written, sizeof written));
    bool merged = both == std::strlen(twice) && std::memcmp(twice, written, both) == 0;
    bool small = moment_number(moment_merge(log_bytes, n, log_bytes, n, written, sizeof written - 1)) == 12;
    size_t cells = moment_figures(moment_forecast(log_bytes, n, 0)).cells;
    const uint8_t cuts[3][2] = {{1, 1}, {0, 0}, {2, 0}};
    uint64_t told[3];
    for (int i = 0; i < 3; i++) told[i] = moment_holds(log_bytes, n, 0, cuts[i], 2, ws, cells, bs, sizeof bs);
    bool yes = !moment_refused(told[0]) && moment_yes(told[0]), no = !moment_refused(told[1]) && !moment_yes(told[1]);
    return counted && same && merged && small && yes && no && moment_number(told[2]) == 13 && moment_line(told[2]) == 0 ? 0 : 1;
}
