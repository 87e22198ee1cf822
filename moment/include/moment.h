/* The moment finder's operations for C99 and C++, by the static library target/staticlib/libexports.a, which `tools/build.sh exports` makes.
   docs/FORMAT.md says what a log is, what its questions mean and what is refused.

   A slice is a pointer and its length in bytes. The pointer is valid for that many bytes, and not NULL even where they are none. What is
   not const is written, and overlaps nothing else that is lent. Nothing else touches what is lent until the call returns.

   Sizes, contents and the question's number are free: what does not fit is refused, and a refusal leaves every lent byte as it was. Else
   output bytes past those written stay as they were, and workspace (ws) and bar space (bs) may hold anything. Nothing is kept between
   calls, so several threads may call at once. */
#ifndef MOMENT_H
#define MOMENT_H

#include <stddef.h>
#include <stdint.h>

#ifdef __cplusplus
extern "C" {
#endif

enum {
    MOMENT_STATIONS = 8,     /* the most stations of a log */
    MOMENT_EVENTS = 254,     /* the most events of a log */
    MOMENT_MESSAGES = 64,    /* the most messages of a log */
    MOMENT_QUESTIONS = 16,   /* the most questions of a log */
    MOMENT_LOG = 16384,      /* the most bytes of a log; what Write and Merge are lent as output, or more */
    MOMENT_LIST = 8192,      /* the most bytes of a frame list; what Read is lent as output, or more */
    MOMENT_BARS = 8192,      /* what Answer and Holds are lent as bar space, or more */
    MOMENT_LINE = 273,       /* what Answer is lent as output, or more */
    MOMENT_CELLS = 110160    /* no forecast has more cells: a workspace of so many bytes is enough for every question */
};

/* THE OPERATIONS: each hands back its values or a refusal, packed in one number, which the functions below take apart. */

/* Read: the counts of a log; its frame list goes to the output. */
uint64_t moment_read(const uint8_t *log, size_t log_len, uint8_t *out, size_t out_len);

/* Write: the length of the log of a frame list; the log goes to the output. */
uint64_t moment_write(const uint8_t *list, size_t list_len, uint8_t *out, size_t out_len);

/* Merge: the length of the log that two logs make, the second's stations numbered on behind the first's; the log goes to the output. The
   two may be the same bytes. A refusal's line is that of the log refused: of the first if Read refuses it, else of the second. With 17,
   18 and 12 it is 0. */
uint64_t moment_merge(const uint8_t *log, size_t log_len, const uint8_t *second, size_t second_len, uint8_t *out, size_t out_len);

/* Forecast: what a question, numbered from 0, can cost. */
uint64_t moment_forecast(const uint8_t *log, size_t log_len, size_t question);

/* Answer: the length of a question's answer line, 0A included; the line goes to the output. The workspace has the cells forecast
   or more. */
uint64_t moment_answer(const uint8_t *log, size_t log_len, size_t question, uint8_t *ws, size_t ws_len,
                       uint8_t *bs, size_t bs_len, uint8_t *out, size_t out_len);

/* Holds: is a question true at a cut, a byte for each station? The workspace has the cells forecast or more. */
uint64_t moment_holds(const uint8_t *log, size_t log_len, size_t question, const uint8_t *cut, size_t cut_len,
                      uint8_t *ws, size_t ws_len, uint8_t *bs, size_t bs_len);

/* A REPLY, v, of any of them */

/* A refusal's number, 1 to 18; 0 where nothing is refused. */
static inline unsigned moment_number(uint64_t v) { return (unsigned)(v >> 59); }

/* Whether it is a refusal. */
static inline int moment_refused(uint64_t v) { return moment_number(v) != 0; }

/* The line of a refusal, from 1, or the frame of a frame list; 0 where no one line is at fault. */
static inline size_t moment_line(uint64_t v) { return (size_t)(v & ((UINT64_C(1) << 59) - 1)); }

/* A REPLY, v, that is no refusal */

/* Bits of v: so many, from one on. */
static inline size_t moment_bits(uint64_t v, int from, int many) { return (size_t)((v >> from) & ((UINT64_C(1) << many) - 1)); }

/* What Read hands back. */
struct moment_read_counts {
    size_t stations;   /* how many stations the log has */
    size_t events;     /* how many events */
    size_t questions;  /* how many questions */
    size_t list;       /* the length of the frame list */
};

/* Of Read: its counts. */
static inline struct moment_read_counts moment_counts(uint64_t v) {
    struct moment_read_counts c;
    c.stations = moment_bits(v, 0, 8);
    c.events = moment_bits(v, 8, 8);
    c.questions = moment_bits(v, 16, 8);
    c.list = moment_bits(v, 24, 16);
    return c;
}

/* What Forecast hands back. */
struct moment_forecast_figures {
    size_t width;    /* no answer lists more moments */
    size_t bars;     /* the largest bar count at any token */
    size_t held;     /* the most structures held at a time */
    size_t cells;    /* the bytes of workspace that these take: with one less, Answer and Holds refuse */
    size_t ceiling;  /* the rounds are never above it */
};

/* Of Forecast: its figures. */
static inline struct moment_forecast_figures moment_figures(uint64_t v) {
    struct moment_forecast_figures f;
    f.width = moment_bits(v, 0, 5);
    f.bars = moment_bits(v, 5, 5);
    f.held = moment_bits(v, 10, 6);
    f.cells = moment_bits(v, 16, 17);
    f.ceiling = moment_bits(v, 33, 24);
    return f;
}

/* Of Write, Merge and Answer: the bytes written. */
static inline size_t moment_length(uint64_t v) { return moment_bits(v, 0, 16); }

/* Of Holds: whether the question is true at the cut. No is false or neither. */
static inline int moment_yes(uint64_t v) { return moment_bits(v, 0, 1) == 1; }

/* AN ANSWER LINE, as Answer wrote it for a log of so many stations */

/* The value of a digit, 0 to 9 or A to F. */
static inline unsigned moment_digit(uint8_t d) { return d <= '9' ? d - (unsigned)'0' : d - (unsigned)'A' + 10; }

/* Byte k of the line, from 0. */
static inline unsigned moment_byte(const uint8_t *line, size_t k) { return 16 * moment_digit(line[2 * k]) + moment_digit(line[2 * k + 1]); }

/* Whether the question is true before the first event. */
static inline int moment_start(const uint8_t *line) { return moment_byte(line, 1) == 1; }

/* How many greatest moments are listed; 0 exactly where the question never was true. */
static inline size_t moment_listed(const uint8_t *line) { return moment_byte(line, 2); }

/* How many events of a station lie before listed moment m, from 0. */
static inline unsigned moment_events(const uint8_t *line, size_t stations, size_t m, size_t station) {
    return moment_byte(line, 3 + m * stations + station);
}

#ifdef __cplusplus
}
#endif

#endif
