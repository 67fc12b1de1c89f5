/* Taprio: the transmission side of one Ethernet port with eight traffic classes whose gates are opened and closed by schedules
 * (IEEE Std 802.1Q-2018, 8.6.8.4). One function for each job of the program `taprio_port`, over memory: octets in, octets out.
 *
 * The library is proved, but for `taprio_version`; that these declarations fit it, and that a caller keeps what is said here, is not.
 * (One that is built with --unproved has a check at each step in the place of the proofs: where one fails, it ends the program by SIGILL.)
 *
 * What every call has in common
 * -----------------------------
 * It reads its inputs, writes into the slices that it is given, and reports how it ended in `ran`. Its status is
 *
 *   TAPRIO_DONE       0  the whole output stands at the front of its slice; there is no text of a fault (`fault` of `ran` is 0)
 *   TAPRIO_NO_PLAN    1  of taprio_plan: no schedule is found; why stands at the front of the output, and a text at the front of `fault`
 *   TAPRIO_BAD_VALUE  2  a value is out of its limits: its text stands at the front of `fault`, and there is no output
 *   TAPRIO_BAD_INPUT  3  an input has a fault: its text stands at the front of `fault`, and what the job writes before the
 *                        fault is reported at the front of the output
 *   TAPRIO_NO_MEMORY  4  out of memory: nothing is written, and the lengths in `ran` are 0
 *   TAPRIO_NO_ROOM    5  a slice has too little room: nothing is written, and the lengths in `ran` are those that want room; the
 *                        same call with slices of at least these lengths has room
 *
 * What lies behind the text in a slice stays as it was. The texts of faults are those that the program writes on its standard
 * error: they begin with "taprio_port: " and end with a newline, without a NUL. Formats: docs/reference/script.md, docs/reference/tc.md,
 * docs/reference/frames.md, docs/reference/check.md, docs/reference/streams.md, docs/reference/bounds.md, docs/reference/paths.md,
 * docs/reference/plan.md, docs/reference/draw.md, docs/reference/replay.md.
 *
 * What a caller has to keep
 * -------------------------
 * - No pointer is null, but that of a slice whose length is 0. Each slice lies in one object and is shorter than 2^63 octets. (The
 *   library itself takes no null: this header puts a valid pointer in its place. Who calls the library without the header, as through
 *   dlsym, hands in a valid pointer with each length.)
 * - The slices that are written, and `ran`, overlap nothing else that the call is handed. Inputs may overlap one another.
 * - Inputs and values are initialised, and so are the slices that are written.
 * - `ran` and the values are aligned as their types are, to 8 octets; slices of octets have no alignment.
 * - Nothing that a running call was handed is read or written meanwhile, but inputs and values, which may be read.
 * - malloc, realloc and free are those of one allocator, and align a block to each power of two up to 16 that divides its size.
 *   What a call takes of them it gives back before it returns; it is room for its outputs too.
 * - The stack has 2 MB left. On x86-64 the calls were seen to take up to 640 kB of it, and no proof says how much; a thread's stack
 *   has 8 MB by default under glibc, but 128 kB under musl.
 * - No call is made from a signal handler, or in a child that a program with threads has forked.
 * A call keeps nothing for the next one: calls with different outputs may run in several threads at once.
 *
 * Sizes: `unsigned char` has 8 bits and a pointer 64, as on x86-64 and wasm64. No struct has padding but at its end. */
#ifndef TAPRIO_H
#define TAPRIO_H

#include <stddef.h>
#include <stdint.h>

/* The version of this header, which is that of the library beside it. */
#define TAPRIO_VERSION "0.2.0"

#ifdef __cplusplus
extern "C" {
#endif

/* The version of the library: TAPRIO_VERSION, and behind a blank that it is not proved where it was built so. It ends with a NUL. */
const char *taprio_version(void);

enum taprio_status {
    TAPRIO_DONE = 0,
    TAPRIO_NO_PLAN = 1,
    TAPRIO_BAD_VALUE = 2,
    TAPRIO_BAD_INPUT = 3,
    TAPRIO_NO_MEMORY = 4,
    TAPRIO_NO_ROOM = 5
};

/* What a port runs with; 40 octets. The program's values where no words are given: TAPRIO_PORT_VALUES. */
struct taprio_port_values {
    uint32_t rate;       /* Mb/s: 10, 100, 1000, 2500, 5000, 10000, 25000, 40000, 50000 or 100000 */
    uint32_t mtu;        /* octets, 68 to 9216 */
    uint32_t room;       /* frames a class, 1 to 4096 */
    uint32_t summary;    /* 0: none; else a summary is written at the end */
    uint64_t has_until;  /* 0: no moment to run to after the input, with a capture until no frame can start; else there is one */
    uint64_t until_low;  /* that moment, in picoseconds: until_high * 2^64 + until_low, */
    uint64_t until_high; /* at most 9223372036854775807000; with a capture 4294967296000000000000 */
};

#define TAPRIO_PORT_VALUES {1000, 1500, 128, 0, 0, 0, 0}
#define TAPRIO_FRAMES 1000000

/* What a picture shows; 48 octets. The program's values where no words are given: TAPRIO_PICTURE_VALUES. Where there is neither a moment that it begins
 * at nor one that it ends at, it covers the frames, or without a frame two cycles of the first schedule, as `taprio_port draw` does. */
struct taprio_picture_values {
    uint64_t from_low;  /* the moment that it begins at, in picoseconds: from_high * 2^64 + from_low, */
    uint64_t from_high; /* at most 9223372036854774807000; both UINT64_MAX: no moment */
    uint64_t has_to;    /* 0: no moment that it ends at; else there is one */
    uint64_t to_low;    /* that moment, in picoseconds: to_high * 2^64 + to_low, after the one that it begins at, */
    uint64_t to_high;   /* at most 9223372036854775807000 */
    uint32_t width;     /* pixels, 400 to 2400 */
    uint32_t unused;    /* any */
};

#define TAPRIO_PICTURE_VALUES {UINT64_MAX, UINT64_MAX, 0, 0, 0, 1200, 0}

/* What a plan is made for; 32 octets. The program's values where no words are given: TAPRIO_PLAN_VALUES. */
struct taprio_plan_values {
    uint64_t cycle;          /* nanoseconds, 1 to 4294967295; 0: one that suits the periods */
    uint64_t least_interval; /* nanoseconds that each entry has at the least, 0 to 4294967295 */
    uint64_t base_time;      /* nanoseconds, at most 2^63 - 1 */
    uint32_t entries;        /* how many there are at most, 1 to 256 */
    uint32_t share;          /* 0: no; else classes without deadlines may use what the windows of higher ones leave */
};

#define TAPRIO_PLAN_VALUES {0, 0, 0, 256, 0}

/* How a call ended; 24 octets. */
struct taprio_ran {
    uint64_t output; /* octets of the output: written, or at TAPRIO_NO_ROOM wanted */
    uint64_t fault;  /* the same of the text of the fault */
    uint8_t status;  /* one of enum taprio_status */
};

/* How a replay ended; 32 octets. */
struct taprio_replay_ran {
    uint64_t report;     /* octets of the report: written, or at TAPRIO_NO_ROOM wanted */
    uint64_t departures; /* the same of the capture of the frames that leave */
    uint64_t fault;      /* the same of the text of the fault */
    uint8_t status;      /* one of enum taprio_status */
};

/* Runs a script, as `taprio_port script` does: the answers to its lines. At TAPRIO_BAD_INPUT the output is the answers to the
 * lines before the fault. */
void taprio_run(const struct taprio_port_values *values, const uint8_t *script, size_t script_length, uint8_t *output,
                size_t output_length, uint8_t *fault, size_t fault_length, struct taprio_ran *ran);

/* Runs a script, as `taprio_port frames` does, and writes a table of its frames: comma-separated values with a head, a row a frame.
 * `summary` of the values changes nothing. At TAPRIO_BAD_INPUT the output is the head and the rows of the lines before the fault,
 * without the frames that still wait there. */
void taprio_frames(const struct taprio_port_values *values, const uint8_t *script, size_t script_length, uint8_t *output,
                   size_t output_length, uint8_t *fault, size_t fault_length, struct taprio_ran *ran);

/* The same with a column more, as `--by-stream` writes it: the stream of a table of streams that each frame is of; and, where a stream of
 * the table has a deadline, with a last one: whether the frame is in time. At TAPRIO_BAD_INPUT there is no output where that table has the
 * fault. */
void taprio_frames_by_stream(const struct taprio_port_values *values, const uint8_t *table, size_t table_length,
                             const uint8_t *script, size_t script_length, uint8_t *output, size_t output_length, uint8_t *fault,
                             size_t fault_length, struct taprio_ran *ran);

/* Writes such a table of the frames of a capture (classic pcap), with the lines of a script among them, as `--capture` does: those of
 * taprio_replay, and `until` of the values is as there. At TAPRIO_BAD_INPUT there is no output where the script or the header of the
 * capture has the fault; where a record has it, the table is that of the records before it and of the whole script. */
void taprio_frames_of_capture(const struct taprio_port_values *values, const uint8_t *script, size_t script_length,
                              const uint8_t *capture, size_t capture_length, uint8_t *output, size_t output_length, uint8_t *fault,
                              size_t fault_length, struct taprio_ran *ran);

/* What a word says as a moment; 24 octets. */
struct taprio_moment_value {
    uint64_t low;       /* the moment, in picoseconds: high * 2^64 + low; 0 where the word says none */
    uint64_t high;      /* see low */
    uint64_t is_moment; /* 1: the word says a moment, at most 9223372036854775807000; 0: it says none */
};

/* Reads a word as a moment, as the options of the program are read: whole picoseconds, or a decimal number with its unit, such as
 * 12.5us (docs/reference/units.md). It takes no memory. */
void taprio_moment(const uint8_t *word, size_t word_length, struct taprio_moment_value *moment);

/* Reports what schedule commands promise, as `taprio_port check` does, at a rate in Mb/s; `windows` other than 0 also reports what
 * each class gets. At TAPRIO_BAD_INPUT the output is what is reported of the lines before the fault. */
void taprio_check(uint32_t rate, uint32_t windows, const uint8_t *schedules, size_t schedules_length, uint8_t *output,
                  size_t output_length, uint8_t *fault, size_t fault_length, struct taprio_ran *ran);

/* The same, with a line for each class that shares windows with others, as `--shares` reports them. */
void taprio_check_shares(uint32_t rate, uint32_t windows, const uint8_t *schedules, size_t schedules_length, uint8_t *output,
                         size_t output_length, uint8_t *fault, size_t fault_length, struct taprio_ran *ran);

/* Makes a script of a table of streams, as `taprio_port streams` does, with the lines of a script among the frames, as
 * `--with` does: for none `script_length` is 0. At TAPRIO_BAD_INPUT there is no output where the table has the fault; where the
 * script has it, the output is what comes before it. */
void taprio_streams(const uint8_t *table, size_t table_length, const uint8_t *script, size_t script_length, uint8_t *output,
                    size_t output_length, uint8_t *fault, size_t fault_length, struct taprio_ran *ran);

/* The same, with a moment in picoseconds that is added to each offset, as `--from` does: from_high * 2^64 + from_low, at most
 * 9223372036854775807000. taprio_streams is this call with 0. */
void taprio_streams_from(uint64_t from_low, uint64_t from_high, const uint8_t *table, size_t table_length,
                         const uint8_t *script, size_t script_length, uint8_t *output, size_t output_length, uint8_t *fault,
                         size_t fault_length, struct taprio_ran *ran);

/* The same as taprio_streams_from, with each frame as late as its jitter lets it come, as `--late` does. */
void taprio_streams_late(uint64_t from_low, uint64_t from_high, const uint8_t *table, size_t table_length,
                         const uint8_t *script, size_t script_length, uint8_t *output, size_t output_length, uint8_t *fault,
                         size_t fault_length, struct taprio_ran *ran);

/* The same as taprio_streams_from, with each frame at a moment and of a length that `seed` draws from what the table allows, as
 * `--seed` does: the same for the same seed. */
void taprio_streams_drawn(uint64_t seed, uint64_t from_low, uint64_t from_high, const uint8_t *table, size_t table_length,
                          const uint8_t *script, size_t script_length, uint8_t *output, size_t output_length, uint8_t *fault,
                          size_t fault_length, struct taprio_ran *ran);

/* Reports for each schedule command how long the frames of a table of streams wait, for ever, as `taprio_port bounds` does:
 * which classes the schedule keeps apart, the verdict about each class, and the least and the greatest wait of each stream. The
 * offsets of the table count from the moment at which the schedule comes into force. `frames`, 1 to 1000000000, is how many frames
 * of a class are looked at, at most; TAPRIO_FRAMES is the program's value. `until` and `summary` of the values change nothing,
 * but a moment out of its limits is a bad value. A deadline that is missed is no fault: the lines say so, and the status is
 * TAPRIO_DONE. At TAPRIO_BAD_INPUT there is no output where the table has the fault; where a schedule line has it, the output is
 * what is reported of the lines before. */
void taprio_bounds(const struct taprio_port_values *values, uint64_t frames, const uint8_t *table, size_t table_length,
                   const uint8_t *schedules, size_t schedules_length, uint8_t *output, size_t output_length, uint8_t *fault,
                   size_t fault_length, struct taprio_ran *ran);

/* The same, with a line behind that of each stream with a deadline: the greatest jitter with which it still makes it, as `--slack`
 * reports it. */
void taprio_bounds_slack(const struct taprio_port_values *values, uint64_t frames, const uint8_t *table, size_t table_length,
                         const uint8_t *schedules, size_t schedules_length, uint8_t *output, size_t output_length, uint8_t *fault,
                         size_t fault_length, struct taprio_ran *ran);

/* What is asked of taprio_bounds_asked, with `|` between them; 0: nothing. */
#define TAPRIO_SLACK 1u     /* the line of taprio_bounds_slack behind that of each stream with a deadline */
#define TAPRIO_LEFTOVERS 2u /* frames of other classes may wait from before the schedule, but of silent ones */
#define TAPRIO_WHY 4u       /* a line behind that of each stream with a greatest wait: what that is made of, as `--why` reports it */
#define TAPRIO_SILENT(traffic_class) (256u << (traffic_class)) /* a class, 0 to 7, sends nothing where it has no streams */

/* The same, as `--slack`, `--leftovers`, `--why` and `--silent` ask it; other bits of `asked` change nothing. Where a class is said to be silent,
 * a line behind that of the classes that are kept apart tells which of these have no streams. taprio_bounds is this call with 0, and
 * taprio_bounds_slack with TAPRIO_SLACK. */
void taprio_bounds_asked(const struct taprio_port_values *values, uint64_t frames, uint32_t asked, const uint8_t *table,
                         size_t table_length, const uint8_t *schedules, size_t schedules_length, uint8_t *output,
                         size_t output_length, uint8_t *fault, size_t fault_length, struct taprio_ran *ran);

/* Reports how long the frames of a network's streams take from end to end, for ever, as `taprio_port paths` does, with one schedule
 * command for each port: what holds of each port and its classes, and how long each stream waits there and takes in all. `values` are
 * those of each port, but where the network says otherwise; of `asked` TAPRIO_LEFTOVERS and TAPRIO_SILENT count, for every port. `frames`,
 * and `until` and `summary` of the values, are as for taprio_bounds, and so is a deadline that is missed. At TAPRIO_BAD_INPUT there is no
 * output. */
void taprio_paths(const struct taprio_port_values *values, uint64_t frames, uint32_t asked, const uint8_t *network,
                  size_t network_length, const uint8_t *schedules, size_t schedules_length, uint8_t *output, size_t output_length,
                  uint8_t *fault, size_t fault_length, struct taprio_ran *ran);

/* Finds a schedule by which the streams of a table make their deadlines, or one for each port of a network, as `taprio_port plan` does: its
 * `tc` line, or one line for each port. `device` is the name of the device, 1 to 15 octets such as "eth0", where the table names no port.
 * `until` and `summary` of the values are as for taprio_bounds. At TAPRIO_NO_PLAN the output says why there is none, and at
 * TAPRIO_BAD_INPUT there is none. */
void taprio_plan(const struct taprio_port_values *values, const struct taprio_plan_values *asked, const uint8_t *device,
                 size_t device_length, const uint8_t *table, size_t table_length, uint8_t *output, size_t output_length,
                 uint8_t *fault, size_t fault_length, struct taprio_ran *ran);

/* Draws the run of a script as an SVG picture, as `taprio_port draw` does. The run goes on to `until`, where it is given. There is no output at
 * TAPRIO_BAD_INPUT. */
void taprio_draw(const struct taprio_port_values *values, const struct taprio_picture_values *shown, const uint8_t *script,
                 size_t script_length, uint8_t *output, size_t output_length, uint8_t *fault, size_t fault_length,
                 struct taprio_ran *ran);

/* Replays a script and a capture (classic pcap), as `taprio_port replay` does: the report, and the capture of the frames that
 * leave. At TAPRIO_BAD_INPUT there is no output where the script or the header of the capture has the fault; where a record has
 * it, both outputs are those of the records before it and of the whole script. */
void taprio_replay(const struct taprio_port_values *values, const uint8_t *script, size_t script_length,
                   const uint8_t *capture, size_t capture_length, uint8_t *report, size_t report_length, uint8_t *departures,
                   size_t departures_length, uint8_t *fault, size_t fault_length, struct taprio_replay_ran *ran);

/* The same, with the moment that the records of the frames that leave have, as `--stamp` says: TAPRIO_STAMP_START, when the frame
 * starts, or else when its last octet has been sent. taprio_replay is this call with TAPRIO_STAMP_START. */
enum taprio_stamp { TAPRIO_STAMP_START = 0, TAPRIO_STAMP_END = 1 };

void taprio_replay_stamped(const struct taprio_port_values *values, uint32_t stamp, const uint8_t *script, size_t script_length,
                           const uint8_t *capture, size_t capture_length, uint8_t *report, size_t report_length,
                           uint8_t *departures, size_t departures_length, uint8_t *fault, size_t fault_length,
                           struct taprio_replay_ran *ran);

/* A null pointer with length 0, as an empty std::string_view of C++ has it, is a slice without octets: a valid pointer takes its
 * place. The names of the calls stand for these functions from here on. */
static inline const uint8_t *taprio_octets(const uint8_t *at) {
    static const uint8_t none = 0;
    return at ? at : &none;
}

static inline uint8_t *taprio_lent(uint8_t *at) {
    static uint8_t none;
    return at ? at : &none;
}

static inline void taprio_run_or_null(const struct taprio_port_values *values, const uint8_t *script, size_t script_length,
                                      uint8_t *output, size_t output_length, uint8_t *fault, size_t fault_length,
                                      struct taprio_ran *ran) {
    taprio_run(values, taprio_octets(script), script_length, taprio_lent(output), output_length, taprio_lent(fault), fault_length,
               ran);
}

static inline void taprio_frames_or_null(const struct taprio_port_values *values, const uint8_t *script, size_t script_length,
                                         uint8_t *output, size_t output_length, uint8_t *fault, size_t fault_length,
                                         struct taprio_ran *ran) {
    taprio_frames(values, taprio_octets(script), script_length, taprio_lent(output), output_length, taprio_lent(fault),
                  fault_length, ran);
}

static inline void taprio_frames_by_stream_or_null(const struct taprio_port_values *values, const uint8_t *table,
                                                   size_t table_length, const uint8_t *script, size_t script_length,
                                                   uint8_t *output, size_t output_length, uint8_t *fault, size_t fault_length,
                                                   struct taprio_ran *ran) {
    taprio_frames_by_stream(values, taprio_octets(table), table_length, taprio_octets(script), script_length,
                            taprio_lent(output), output_length, taprio_lent(fault), fault_length, ran);
}

static inline void taprio_frames_of_capture_or_null(const struct taprio_port_values *values, const uint8_t *script,
                                                    size_t script_length, const uint8_t *capture, size_t capture_length,
                                                    uint8_t *output, size_t output_length, uint8_t *fault, size_t fault_length,
                                                    struct taprio_ran *ran) {
    taprio_frames_of_capture(values, taprio_octets(script), script_length, taprio_octets(capture), capture_length,
                             taprio_lent(output), output_length, taprio_lent(fault), fault_length, ran);
}

static inline void taprio_moment_or_null(const uint8_t *word, size_t word_length, struct taprio_moment_value *moment) {
    taprio_moment(taprio_octets(word), word_length, moment);
}

static inline void taprio_check_or_null(uint32_t rate, uint32_t windows, const uint8_t *schedules, size_t schedules_length,
                                        uint8_t *output, size_t output_length, uint8_t *fault, size_t fault_length,
                                        struct taprio_ran *ran) {
    taprio_check(rate, windows, taprio_octets(schedules), schedules_length, taprio_lent(output), output_length,
                 taprio_lent(fault), fault_length, ran);
}

static inline void taprio_check_shares_or_null(uint32_t rate, uint32_t windows, const uint8_t *schedules, size_t schedules_length,
                                               uint8_t *output, size_t output_length, uint8_t *fault, size_t fault_length,
                                               struct taprio_ran *ran) {
    taprio_check_shares(rate, windows, taprio_octets(schedules), schedules_length, taprio_lent(output), output_length,
                        taprio_lent(fault), fault_length, ran);
}

static inline void taprio_streams_or_null(const uint8_t *table, size_t table_length, const uint8_t *script, size_t script_length,
                                          uint8_t *output, size_t output_length, uint8_t *fault, size_t fault_length,
                                          struct taprio_ran *ran) {
    taprio_streams(taprio_octets(table), table_length, taprio_octets(script), script_length, taprio_lent(output), output_length,
                   taprio_lent(fault), fault_length, ran);
}

static inline void taprio_streams_from_or_null(uint64_t from_low, uint64_t from_high, const uint8_t *table, size_t table_length,
                                               const uint8_t *script, size_t script_length, uint8_t *output, size_t output_length,
                                               uint8_t *fault, size_t fault_length, struct taprio_ran *ran) {
    taprio_streams_from(from_low, from_high, taprio_octets(table), table_length, taprio_octets(script), script_length,
                        taprio_lent(output), output_length, taprio_lent(fault), fault_length, ran);
}

static inline void taprio_streams_late_or_null(uint64_t from_low, uint64_t from_high, const uint8_t *table, size_t table_length,
                                               const uint8_t *script, size_t script_length, uint8_t *output, size_t output_length,
                                               uint8_t *fault, size_t fault_length, struct taprio_ran *ran) {
    taprio_streams_late(from_low, from_high, taprio_octets(table), table_length, taprio_octets(script), script_length,
                        taprio_lent(output), output_length, taprio_lent(fault), fault_length, ran);
}

static inline void taprio_streams_drawn_or_null(uint64_t seed, uint64_t from_low, uint64_t from_high, const uint8_t *table,
                                                size_t table_length, const uint8_t *script, size_t script_length, uint8_t *output,
                                                size_t output_length, uint8_t *fault, size_t fault_length,
                                                struct taprio_ran *ran) {
    taprio_streams_drawn(seed, from_low, from_high, taprio_octets(table), table_length, taprio_octets(script), script_length,
                         taprio_lent(output), output_length, taprio_lent(fault), fault_length, ran);
}

static inline void taprio_bounds_or_null(const struct taprio_port_values *values, uint64_t frames, const uint8_t *table,
                                         size_t table_length, const uint8_t *schedules, size_t schedules_length, uint8_t *output,
                                         size_t output_length, uint8_t *fault, size_t fault_length, struct taprio_ran *ran) {
    taprio_bounds(values, frames, taprio_octets(table), table_length, taprio_octets(schedules), schedules_length,
                  taprio_lent(output), output_length, taprio_lent(fault), fault_length, ran);
}

static inline void taprio_bounds_slack_or_null(const struct taprio_port_values *values, uint64_t frames, const uint8_t *table,
                                               size_t table_length, const uint8_t *schedules, size_t schedules_length,
                                               uint8_t *output, size_t output_length, uint8_t *fault, size_t fault_length,
                                               struct taprio_ran *ran) {
    taprio_bounds_slack(values, frames, taprio_octets(table), table_length, taprio_octets(schedules), schedules_length,
                        taprio_lent(output), output_length, taprio_lent(fault), fault_length, ran);
}

static inline void taprio_bounds_asked_or_null(const struct taprio_port_values *values, uint64_t frames, uint32_t asked,
                                               const uint8_t *table, size_t table_length, const uint8_t *schedules,
                                               size_t schedules_length, uint8_t *output, size_t output_length, uint8_t *fault,
                                               size_t fault_length, struct taprio_ran *ran) {
    taprio_bounds_asked(values, frames, asked, taprio_octets(table), table_length, taprio_octets(schedules), schedules_length,
                        taprio_lent(output), output_length, taprio_lent(fault), fault_length, ran);
}

static inline void taprio_paths_or_null(const struct taprio_port_values *values, uint64_t frames, uint32_t asked,
                                        const uint8_t *network, size_t network_length, const uint8_t *schedules,
                                        size_t schedules_length, uint8_t *output, size_t output_length, uint8_t *fault,
                                        size_t fault_length, struct taprio_ran *ran) {
    taprio_paths(values, frames, asked, taprio_octets(network), network_length, taprio_octets(schedules), schedules_length,
                 taprio_lent(output), output_length, taprio_lent(fault), fault_length, ran);
}

static inline void taprio_plan_or_null(const struct taprio_port_values *values, const struct taprio_plan_values *asked,
                                       const uint8_t *device, size_t device_length, const uint8_t *table, size_t table_length,
                                       uint8_t *output, size_t output_length, uint8_t *fault, size_t fault_length,
                                       struct taprio_ran *ran) {
    taprio_plan(values, asked, taprio_octets(device), device_length, taprio_octets(table), table_length, taprio_lent(output),
                output_length, taprio_lent(fault), fault_length, ran);
}

static inline void taprio_draw_or_null(const struct taprio_port_values *values, const struct taprio_picture_values *shown,
                                       const uint8_t *script, size_t script_length, uint8_t *output, size_t output_length,
                                       uint8_t *fault, size_t fault_length, struct taprio_ran *ran) {
    taprio_draw(values, shown, taprio_octets(script), script_length, taprio_lent(output), output_length, taprio_lent(fault),
                fault_length, ran);
}

static inline void taprio_replay_or_null(const struct taprio_port_values *values, const uint8_t *script, size_t script_length,
                                         const uint8_t *capture, size_t capture_length, uint8_t *report, size_t report_length,
                                         uint8_t *departures, size_t departures_length, uint8_t *fault, size_t fault_length,
                                         struct taprio_replay_ran *ran) {
    taprio_replay(values, taprio_octets(script), script_length, taprio_octets(capture), capture_length, taprio_lent(report),
                  report_length, taprio_lent(departures), departures_length, taprio_lent(fault), fault_length, ran);
}

static inline void taprio_replay_stamped_or_null(const struct taprio_port_values *values, uint32_t stamp, const uint8_t *script,
                                                 size_t script_length, const uint8_t *capture, size_t capture_length,
                                                 uint8_t *report, size_t report_length, uint8_t *departures,
                                                 size_t departures_length, uint8_t *fault, size_t fault_length,
                                                 struct taprio_replay_ran *ran) {
    taprio_replay_stamped(values, stamp, taprio_octets(script), script_length, taprio_octets(capture), capture_length,
                          taprio_lent(report), report_length, taprio_lent(departures), departures_length, taprio_lent(fault),
                          fault_length, ran);
}

#define taprio_run taprio_run_or_null
#define taprio_frames taprio_frames_or_null
#define taprio_frames_by_stream taprio_frames_by_stream_or_null
#define taprio_frames_of_capture taprio_frames_of_capture_or_null
#define taprio_moment taprio_moment_or_null
#define taprio_check taprio_check_or_null
#define taprio_check_shares taprio_check_shares_or_null
#define taprio_streams taprio_streams_or_null
#define taprio_streams_from taprio_streams_from_or_null
#define taprio_streams_late taprio_streams_late_or_null
#define taprio_streams_drawn taprio_streams_drawn_or_null
#define taprio_bounds taprio_bounds_or_null
#define taprio_bounds_slack taprio_bounds_slack_or_null
#define taprio_bounds_asked taprio_bounds_asked_or_null
#define taprio_paths taprio_paths_or_null
#define taprio_plan taprio_plan_or_null
#define taprio_draw taprio_draw_or_null
#define taprio_replay taprio_replay_or_null
#define taprio_replay_stamped taprio_replay_stamped_or_null

/* A port that is driven call by call
 * ---------------------------------
 * A simulator that has its own clock drives a port by calls, without text. Its moments are in picoseconds: high * 2^64 + low.
 *
 *   struct taprio_port port;
 *   struct taprio_answer told;
 *   taprio_port_new(&port, 1000, 1500, 128, &told);      a port of 1000 Mb/s, at moment 0; told.kind is TAPRIO_OPENED
 *   taprio_port_arrive(&port, &frame, &told);            a frame arrives now
 *   taprio_port_step(&port, until, 0, &told);            the clock goes on to the next start before `until`, or to `until`
 *   taprio_port_free(&port);
 *
 * What a caller has to keep, beside what is said above:
 * - taprio_port_new writes its place and reads nothing of it. The other calls want a place that taprio_port_new has written. The place
 *   may be copied elsewhere, if only the copy is used from then on.
 * - Between the calls nobody reads or writes a place, and one call at a time is handed it. Another thread may make the next call, where
 *   a lock, or the start or the end of a thread, orders the two. Different ports share nothing.
 * - taprio_port_new takes memory for the port and for all frames that ever wait: 22 kB, and 192 octets for each frame of room (800 kB at
 *   most). The other calls take none, and taprio_port_free gives all of it back. A place that is made anew without taprio_port_free
 *   leaks what it had.
 * - What is written (`told`) overlaps nothing else that the call is handed. */

/* The place of a port, in memory of the caller's; 16 octets, aligned to 8. */
struct taprio_port {
    uint64_t words[2]; /* the library's */
};

/* A frame; 16 octets. */
struct taprio_frame {
    uint64_t id;      /* the caller's name for it, which answers repeat */
    uint32_t length;  /* octets from the destination address to the end of the payload, without the frame check sequence */
    uint8_t priority; /* 0 to 15 */
    uint8_t tagged;   /* 0: no customer VLAN tag; else it has one */
};

/* An entry of a gate control list; 8 octets. */
struct taprio_entry {
    uint32_t interval; /* nanoseconds */
    uint8_t gates;     /* bit c: class c is open */
};

/* The device queues of a class; 4 octets. They have no effect on the port. */
struct taprio_range {
    uint16_t count;  /* how many */
    uint16_t offset; /* the first of them */
};

/* A schedule; 2160 octets. All zeros is one without entries, so an initialiser names what it wants. Times are nanoseconds. */
struct taprio_schedule {
    uint64_t base_time;
    uint64_t cycle_time;  /* 0: the sum of the intervals */
    uint64_t extension;   /* by how much the last cycle before the next change may be longer */
    uint32_t length;      /* how many entries there are, 1 to 256 */
    uint8_t num_tc;       /* how many classes, 1 to 8; 0: the classes as before. The first schedule of a port needs them */
    uint8_t has_queues;   /* 0: `queues` is not looked at */
    uint8_t has_max_sdu;  /* 0: `max_sdu` is not looked at, and the limits stay as they are */
    uint8_t unused;       /* any */
    uint8_t map[16];      /* the class of each priority */
    struct taprio_range queues[8];
    uint32_t max_sdu[8];  /* the longest service data unit of each class, in octets; 0: no limit but the mtu */
    struct taprio_entry entries[256];
};

/* What an answer is. The fields that it names are in brackets; all others are 0. */
enum taprio_kind {
    TAPRIO_NO_PORT = 0,    /* the place has no port: it was not opened, or is freed. Nothing is done */
    TAPRIO_QUEUED = 1,     /* the frame waits [id, traffic_class] */
    TAPRIO_DROPPED = 2,    /* the frame is dropped [id, reason] */
    TAPRIO_INSTALLED = 3,  /* the command is accepted, and in force from a moment on [at] */
    TAPRIO_REFUSED = 4,    /* the command is not accepted, and nothing has changed [reason, and what it names] */
    TAPRIO_MALFORMED = 5,  /* the struct is no schedule, and nothing has changed [reason] */
    TAPRIO_START = 6,      /* a frame starts, and the clock is there [id, traffic_class, at, end: the wire is free again] */
    TAPRIO_REST = 7,       /* nothing starts before `until`, and the clock is there */
    TAPRIO_BACKWARD = 8,   /* `until` is before the clock, or over 9223372036854775807000; nothing has changed */
    TAPRIO_OPENED = 9,     /* there is a port */
    TAPRIO_NOT_OPENED = 10 /* there is none [reason] */
};

/* Why: the names are those of docs/errors.md. */
enum taprio_reason {
    TAPRIO_NO_REASON = 0,
    TAPRIO_NO_CLASS = 1, /* of TAPRIO_DROPPED, the first that applies */
    TAPRIO_RUNT = 2,
    TAPRIO_TOO_LONG = 3,
    TAPRIO_OVER_SDU = 4,
    TAPRIO_FULL = 5,
    TAPRIO_MAP_MISSING = 6, /* of TAPRIO_REFUSED, the first that applies */
    TAPRIO_MAP_CHANGED = 7,
    TAPRIO_SDU_TOO_LARGE = 8,      /* traffic_class: the least such class */
    TAPRIO_INTERVAL_TOO_SHORT = 9, /* entry: the first such entry */
    TAPRIO_CYCLE_TOO_SHORT = 10,
    TAPRIO_CYCLE_TOO_LONG = 11,
    TAPRIO_EXTENSION_TOO_LONG = 12,
    TAPRIO_BASE_TOO_LATE = 13,
    TAPRIO_BUSY = 14,            /* at: the lead moment of the command before, which has not come */
    TAPRIO_BAD_CLASS_COUNT = 15, /* of TAPRIO_MALFORMED, the first that applies. (16 is not used) */
    TAPRIO_CLASS_OUT_OF_RANGE = 17,
    TAPRIO_QUEUE_COUNT = 18,
    TAPRIO_EMPTY_QUEUE = 19,
    TAPRIO_QUEUE_OVERLAP = 20,
    TAPRIO_NO_ENTRIES = 21,
    TAPRIO_TOO_MANY_ENTRIES = 22,
    TAPRIO_ZERO_INTERVAL = 23,
    TAPRIO_BAD_RATE = 24, /* of TAPRIO_NOT_OPENED, the first that applies */
    TAPRIO_BAD_MTU = 25,
    TAPRIO_BAD_ROOM = 26,
    TAPRIO_OUT_OF_MEMORY = 27
};

/* What a call answers; 56 octets. */
struct taprio_answer {
    uint64_t id;
    uint64_t at_low; /* a moment, in picoseconds: at_high * 2^64 + at_low */
    uint64_t at_high;
    uint64_t end_low; /* the same */
    uint64_t end_high;
    uint32_t kind;   /* one of enum taprio_kind */
    uint32_t reason; /* one of enum taprio_reason */
    uint32_t traffic_class;
    uint32_t entry;
};

/* What a port shows; 32 octets. */
struct taprio_report {
    uint64_t now_low; /* the clock, in picoseconds: now_high * 2^64 + now_low */
    uint64_t now_high;
    uint64_t no_class; /* frames that were dropped since their priority has no class */
    uint8_t gates;     /* bit c: class c is open now */
    uint8_t pending;   /* 1 where a command is accepted and not in force yet */
};

/* What a class shows; 64 octets. Frames, but for sent_octets. */
struct taprio_counters {
    uint64_t accepted; /* were queued */
    uint64_t sent;     /* have started */
    uint64_t sent_octets;
    uint64_t waiting;  /* wait now */
    uint64_t runt;     /* were dropped, by reason */
    uint64_t too_long;
    uint64_t over_sdu;
    uint64_t full;
};

/* Makes a port of a rate in Mb/s, an mtu in octets (68 to 9216) and room for so many frames a class (1 to 4096). Its clock is at 0,
 * all gates are open, and nothing waits. The answer is TAPRIO_OPENED or TAPRIO_NOT_OPENED; either way the place is written. */
void taprio_port_new(struct taprio_port *port, uint32_t rate, uint32_t mtu, uint32_t room, struct taprio_answer *told);

/* A frame arrives now: TAPRIO_QUEUED or TAPRIO_DROPPED. */
void taprio_port_arrive(struct taprio_port *port, const struct taprio_frame *frame, struct taprio_answer *told);

/* A schedule is given now: TAPRIO_INSTALLED, TAPRIO_REFUSED or TAPRIO_MALFORMED. */
void taprio_port_install(struct taprio_port *port, const struct taprio_schedule *schedule, struct taprio_answer *told);

/* The schedule is to end, and all gates to open: TAPRIO_INSTALLED, or TAPRIO_REFUSED with TAPRIO_BUSY. */
void taprio_port_delete(struct taprio_port *port, struct taprio_answer *told);

/* The clock goes on: TAPRIO_START at the first start before `until`, TAPRIO_REST at `until` where there is none, or TAPRIO_BACKWARD.
 * Call it again after a start. What arrives meanwhile is handed over at its moment, with the clock there. */
void taprio_port_step(struct taprio_port *port, uint64_t until_low, uint64_t until_high, struct taprio_answer *told);

/* What the port shows now; zeros without a port. */
void taprio_port_report(struct taprio_port *port, struct taprio_report *told);

/* What a class has counted, 0 to 7, and how many of its frames wait; zeros for another class, and without a port. */
void taprio_port_counters(struct taprio_port *port, uint32_t traffic_class, struct taprio_counters *told);

/* Frees what a port has taken. The place has none then: taprio_port_free does nothing there, and other calls answer TAPRIO_NO_PORT. */
void taprio_port_free(struct taprio_port *port);

#ifdef __cplusplus
}
#endif

#endif
