/* Tests of the library from C. `cases FOLDER` runs every example of the folder against its answers, and small cases besides: too
 * little room and then the room that was told, faults, values out of their limits, empty inputs. It tells what is wrong. */
#include "taprio.h"
#include <stdio.h>
#include <stdlib.h>
#include <string.h>

_Static_assert(sizeof(size_t) == 8, "a pointer has 64 bits");
_Static_assert(sizeof(struct taprio_port_values) == 40, "no padding");
_Static_assert(sizeof(struct taprio_picture_values) == 48, "no padding");
_Static_assert(sizeof(struct taprio_plan_values) == 32, "no padding");
_Static_assert(sizeof(struct taprio_ran) == 24 && offsetof(struct taprio_ran, status) == 16, "padding at the end alone");
_Static_assert(sizeof(struct taprio_port) == 16 && _Alignof(struct taprio_port) == 8, "a port's place");
_Static_assert(sizeof(struct taprio_frame) == 16 && offsetof(struct taprio_frame, tagged) == 13, "padding at the end alone");
_Static_assert(sizeof(struct taprio_entry) == 8 && offsetof(struct taprio_entry, gates) == 4, "the same");
_Static_assert(sizeof(struct taprio_schedule) == 2160 && offsetof(struct taprio_schedule, map) == 32 &&
                   offsetof(struct taprio_schedule, queues) == 48 && offsetof(struct taprio_schedule, max_sdu) == 80 &&
                   offsetof(struct taprio_schedule, entries) == 112,
               "no padding");
_Static_assert(sizeof(struct taprio_answer) == 56 && sizeof(struct taprio_counters) == 64, "no padding");
_Static_assert(sizeof(struct taprio_report) == 32 && offsetof(struct taprio_report, pending) == 25, "padding at the end alone");
_Static_assert(sizeof(struct taprio_replay_ran) == 32 && offsetof(struct taprio_replay_ran, status) == 24, "the same");

struct octets {
    uint8_t *at;
    size_t length;
};

static int wrong, cases;
static const char *folder;

static void expect(int holds, const char *what, const char *name) {
    cases++;
    if (!holds) {
        wrong++;
        printf("WRONG: %s: %s\n", name, what);
    }
}

static void *need(void *at) {
    if (!at) {
        fputs("out of memory\n", stderr);
        exit(4);
    }
    return at;
}

/* the octets of a file of the folder; a block of just that length, so that a read past it is seen */
static struct octets file(const char *name) {
    char path[4096];
    snprintf(path, sizeof path, "%s/%s", folder, name);
    FILE *in = fopen(path, "rb");
    if (!in) {
        perror(path);
        exit(4);
    }
    struct octets got = {need(malloc(1)), 0};
    int octet;
    while ((octet = getc(in)) != EOF) {
        if ((got.length & (got.length + 1)) == 0)
            got.at = need(realloc(got.at, 2 * (got.length + 1)));
        got.at[got.length++] = (uint8_t)octet;
    }
    fclose(in);
    got.at = need(realloc(got.at, got.length ? got.length : 1));
    return got;
}

static struct octets text(const char *of) {
    struct octets got = {need(malloc(strlen(of) + 1)), strlen(of)};
    memcpy(got.at, of, got.length);
    return got;
}

static struct octets lent(size_t length) {
    struct octets got = {need(malloc(length ? length : 1)), length};
    memset(got.at, '.', length);
    return got;
}

static int is_untouched(struct octets slice, size_t from) {
    for (; from < slice.length; from++)
        if (slice.at[from] != '.')
            return 0;
    return 1;
}

static int begins(struct octets slice, struct octets with) {
    return slice.length >= with.length && memcmp(slice.at, with.at, with.length) == 0 && is_untouched(slice, with.length);
}

enum job { RUN, FRAMES, FRAMES_BY_STREAM, FRAMES_OF_CAPTURE, CHECK, CHECK_SHARES, STREAMS, STREAMS_FROM, BOUNDS, BOUNDS_SLACK, BOUNDS_ASKED, PATHS, PLAN, DRAW };

struct call {
    enum job job;
    struct taprio_port_values values;
    struct taprio_picture_values shown; /* of STREAMS_FROM its beginning */
    uint32_t windows; /* of BOUNDS_ASKED and PATHS what is asked */
    uint64_t frames;
    struct octets input, second; /* of PLAN the table, and the device */
};

static struct taprio_plan_values plan = TAPRIO_PLAN_VALUES; /* of PLAN what is asked */

static struct taprio_ran call(const struct call *c, struct octets output, struct octets fault) {
    struct taprio_ran ran;
    switch (c->job) {
    case RUN:
        taprio_run(&c->values, c->input.at, c->input.length, output.at, output.length, fault.at, fault.length, &ran);
        break;
    case FRAMES:
        taprio_frames(&c->values, c->input.at, c->input.length, output.at, output.length, fault.at, fault.length, &ran);
        break;
    case FRAMES_BY_STREAM:
        taprio_frames_by_stream(&c->values, c->second.at, c->second.length, c->input.at, c->input.length, output.at, output.length,
                                fault.at, fault.length, &ran);
        break;
    case FRAMES_OF_CAPTURE:
        taprio_frames_of_capture(&c->values, c->input.at, c->input.length, c->second.at, c->second.length, output.at, output.length,
                                 fault.at, fault.length, &ran);
        break;
    case CHECK:
        taprio_check(c->values.rate, c->windows, c->input.at, c->input.length, output.at, output.length, fault.at, fault.length,
                     &ran);
        break;
    case CHECK_SHARES:
        taprio_check_shares(c->values.rate, c->windows, c->input.at, c->input.length, output.at, output.length, fault.at,
                            fault.length, &ran);
        break;
    case STREAMS:
        taprio_streams(c->input.at, c->input.length, c->second.at, c->second.length, output.at, output.length, fault.at,
                       fault.length, &ran);
        break;
    case STREAMS_FROM:
        taprio_streams_from(c->shown.from_low, c->shown.from_high, c->input.at, c->input.length, c->second.at, c->second.length,
                            output.at, output.length, fault.at, fault.length, &ran);
        break;
    case BOUNDS:
        taprio_bounds(&c->values, c->frames, c->input.at, c->input.length, c->second.at, c->second.length, output.at,
                      output.length, fault.at, fault.length, &ran);
        break;
    case BOUNDS_SLACK:
        taprio_bounds_slack(&c->values, c->frames, c->input.at, c->input.length, c->second.at, c->second.length, output.at,
                            output.length, fault.at, fault.length, &ran);
        break;
    case BOUNDS_ASKED:
        taprio_bounds_asked(&c->values, c->frames, c->windows, c->input.at, c->input.length, c->second.at, c->second.length,
                            output.at, output.length, fault.at, fault.length, &ran);
        break;
    case PATHS:
        taprio_paths(&c->values, c->frames, c->windows, c->input.at, c->input.length, c->second.at, c->second.length, output.at,
                     output.length, fault.at, fault.length, &ran);
        break;
    case PLAN:
        taprio_plan(&c->values, &plan, c->second.at, c->second.length, c->input.at, c->input.length, output.at, output.length,
                    fault.at, fault.length, &ran);
        break;
    default:
        taprio_draw(&c->values, &c->shown, c->input.at, c->input.length, output.at, output.length, fault.at, fault.length, &ran);
    }
    return ran;
}

/* with no room, with one octet too few, with the room that was told, and with more */
static void agrees(const char *name, const struct call *c, int status, struct octets answers, struct octets told) {
    for (int more = -2; more <= 1; more++) {
        const size_t wanted = answers.length ? answers.length : told.length;
        const size_t lacking = more == -2 ? wanted : more == -1 && wanted ? 1 : 0;
        const size_t room = answers.length ? answers.length - lacking : 0, place = answers.length ? told.length : told.length - lacking;
        struct octets output = lent(room + (more == 1 ? 7 : 0)), fault = lent(place + (more == 1 ? 7 : 0));
        const struct taprio_ran ran = call(c, output, fault);
        expect(ran.output == answers.length && ran.fault == told.length, "the lengths that are told", name);
        if (lacking) {
            expect(ran.status == TAPRIO_NO_ROOM, "the status where there is no room", name);
            expect(is_untouched(output, 0) && is_untouched(fault, 0), "something is written where there is no room", name);
        } else {
            expect(ran.status == status, "the status", name);
            expect(begins(output, answers), "the output", name);
            expect(begins(fault, told), "the text of the fault", name);
        }
        free(output.at);
        free(fault.at);
    }
}

static const struct taprio_port_values usual = TAPRIO_PORT_VALUES;
static const struct taprio_picture_values whole = TAPRIO_PICTURE_VALUES;

static void small(const char *name, struct call c, const char *input, int status, const char *answers, const char *told) {
    struct octets given = text(input), wanted = text(answers), said = text(told);
    c.input = given;
    if (!c.second.at)
        c.second = given, c.second.length = 0;
    agrees(name, &c, status, wanted, said);
    free(given.at);
    free(wanted.at);
    free(said.at);
}

static void of_files(struct call c, const char *input, const char *second, const char *answers) {
    struct octets given = file(input), more = second ? file(second) : text(""), wanted = file(answers), none = text("");
    c.input = given;
    c.second = more;
    agrees(answers, &c, TAPRIO_DONE, wanted, none);
    free(given.at);
    free(more.at);
    free(wanted.at);
    free(none.at);
}

/* A run goes on to a moment, and its picture to the run's end. */
static void runs_on(void) {
    struct octets script = text("frame 1 0 60\n"), picture = lent(1 << 16), fault = lent(64), none = text("");
    struct call on = {DRAW, usual, whole, 0, 0, {0}, {0}}, up_to = on;
    on.input = up_to.input = script;
    on.values.has_until = 1;
    on.values.until_low = 5000000;
    up_to.shown.from_low = up_to.shown.from_high = 0;
    up_to.shown.has_to = 1;
    up_to.shown.to_low = 5000000;
    struct octets wanted = {picture.at, call(&up_to, picture, fault).output};
    agrees("a picture that runs on", &on, TAPRIO_DONE, wanted, none);
    free(script.at);
    free(picture.at);
    free(fault.at);
    free(none.at);
}

/* worked scripts: a script and its answers are parted by four dashes, one script from the next by four equals signs */
static void worked(void) {
    struct octets all = file("worked.txt");
    char *from = need(malloc(all.length + 1));
    memcpy(from, all.at, all.length);
    from[all.length] = 0;
    struct call c = {RUN, usual, whole, 0, 0, {0}, {0}};
    int scripts = 0;
    for (char *at = from; at;) {
        char *end = strstr(at, "====\n"), *part = strstr(at, "----\n");
        if (end)
            *end = 0;
        expect(part != NULL, "no answers", "worked.txt");
        if (part) {
            *part = 0;
            small("worked.txt", c, at, TAPRIO_DONE, part + 5, "");
        }
        scripts++;
        at = end ? end + 5 : NULL;
    }
    expect(scripts > 5, "few scripts", "worked.txt");
    free(from);
    free(all.at);
}

static void replays(const char *name, struct taprio_port_values values, struct octets script, struct octets capture, int status,
                    struct octets report, struct octets departures, struct octets told) {
    for (int lacking = 0; lacking < 4; lacking++) {
        const size_t short_of[3] = {lacking == 0 && report.length, lacking == 1 && departures.length, lacking == 2 && told.length};
        struct octets first = lent(report.length - short_of[0]), second = lent(departures.length - short_of[1]);
        struct octets fault = lent(told.length - short_of[2]);
        struct taprio_replay_ran ran;
        taprio_replay(&values, script.at, script.length, capture.at, capture.length, first.at, first.length, second.at,
                      second.length, fault.at, fault.length, &ran);
        expect(ran.report == report.length && ran.departures == departures.length && ran.fault == told.length, "the lengths", name);
        if (short_of[0] || short_of[1] || short_of[2]) {
            expect(ran.status == TAPRIO_NO_ROOM, "the status where there is no room", name);
            expect(is_untouched(first, 0) && is_untouched(second, 0) && is_untouched(fault, 0), "something is written", name);
        } else {
            expect(ran.status == status, "the status", name);
            expect(begins(first, report) && begins(second, departures) && begins(fault, told), "what is written", name);
        }
        free(first.at);
        free(second.at);
        free(fault.at);
    }
}

/* How long a record's frame takes to its last octet at 1000 Mb/s, in nanoseconds: preamble, frame and check sequence. */
static uint32_t to_last_octet(const uint8_t *record) {
    uint32_t original;
    memcpy(&original, record + 12, sizeof original);
    return 8 * (8 + (original < 60 ? 60 : original) + 4);
}

/* The departures with the moments of the last octets are those with the moments of the starts, each so much later. */
static void stamped(struct taprio_port_values values, struct octets script, struct octets capture, struct octets departures) {
    struct octets report = lent(1 << 16), left = lent(departures.length), fault = lent(64);
    struct taprio_replay_ran ran;
    taprio_replay_stamped(&values, TAPRIO_STAMP_END, script.at, script.length, capture.at, capture.length, report.at,
                          report.length, left.at, left.length, fault.at, fault.length, &ran);
    expect(ran.status == TAPRIO_DONE && ran.departures == departures.length, "the status", "taprio_replay_stamped");
    for (size_t at = 24; at < departures.length;) {
        uint32_t was, is, captured;
        memcpy(&was, departures.at + at + 4, sizeof was);
        memcpy(&is, left.at + at + 4, sizeof is);
        memcpy(&captured, departures.at + at + 8, sizeof captured);
        expect(is == was + to_last_octet(departures.at + at), "the moment of the last octet", "taprio_replay_stamped");
        at += 16 + captured;
    }
    taprio_replay_stamped(&values, TAPRIO_STAMP_START, script.at, script.length, capture.at, capture.length, report.at,
                          report.length, left.at, left.length, fault.at, fault.length, &ran);
    expect(begins(left, departures), "the moment of the start", "taprio_replay_stamped");
    free(report.at);
    free(left.at);
    free(fault.at);
}

static void machine(void) {
    struct octets script = file("machine.script"), capture = file("machine.pcap"), report = file("machine.report");
    struct octets summary = file("machine.summary"), departures = file("machine.departures.pcap"), none = text("");
    struct taprio_port_values values = usual;
    values.has_until = 1;
    values.until_low = 2000000000;
    replays("machine.report", values, script, capture, TAPRIO_DONE, report, departures, none);
    struct octets both = lent(report.length + summary.length);
    memcpy(both.at, report.at, report.length);
    memcpy(both.at + report.length, summary.at, summary.length);
    values.summary = 1;
    replays("machine.summary", values, script, capture, TAPRIO_DONE, both, departures, none);
    values.has_until = 0;
    values.summary = 0;
    replays("machine.report, without a moment to run to", values, script, capture, TAPRIO_DONE, report, departures, none);
    stamped(values, script, capture, departures);
    values.has_until = 1;
    struct octets short_header = text("taprio_port: capture header: ShortHeader\n");
    struct octets cut = {capture.at, 23};
    replays("a cut header", values, script, cut, TAPRIO_BAD_INPUT, none, none, short_header);
    struct octets late = text("taprio_port: bad value of --until\n");
    values.until_low = (uint64_t)0 - 1;
    values.until_high = 300; /* over 4294967296000000000000, and below the greatest moment of a script */
    replays("a late moment", values, script, capture, TAPRIO_BAD_VALUE, none, none, late);
    struct octets all[] = {script, capture, report, summary, departures, none, both, short_header, late};
    for (size_t at = 0; at < sizeof all / sizeof *all; at++)
        free(all[at].at);
}

#define HEAD "id,class,len,arrival_ps,start_ps,end_ps,wait_ps,fate\n"

static void frames(void) {
    struct call c = {FRAMES, usual, whole, 0, 0, {0}, {0}};
    small("frames of a script", c, "frame 1 0 60\nframe 2 5 60\nframe 3 16 60\nclock 672000\n", TAPRIO_DONE,
          HEAD "3,,60,0,,,,NoClass\n2,5,60,0,0,672000,0,sent\n1,0,60,0,,,,left\n", "");
    small("no frames", c, "", TAPRIO_DONE, HEAD, "");
    small("a line that is none", c, "frame 1 0 60\nframe 2 0 13\nclok 5", TAPRIO_BAD_INPUT, HEAD "2,0,13,0,,,,Runt\n",
          "taprio_port: script line 3: UnknownLine\n");
    struct call on = c;
    on.values.has_until = 1;
    on.values.until_low = 672001;
    small("frames to a moment", on, "frame 1 0 60\nframe 2 0 60\n", TAPRIO_DONE,
          HEAD "1,0,60,0,0,672000,0,sent\n2,0,60,0,672000,1344000,672000,sent\n", "");
    on.values.room = 0;
    small("frames without room", on, "", TAPRIO_BAD_VALUE, "", "taprio_port: bad value of --room\n");
}

#define STREAM_HEAD "id,class,len,arrival_ps,start_ps,end_ps,wait_ps,fate,stream\n"

static void frames_by_stream(void) {
    struct call c = {FRAMES_BY_STREAM, usual, whole, 0, 0, {0}, text("stream 2 0 60 1us 0us 2\n# none\nstream 1 0 60 1us 0us 9\n")};
    small("frames of streams", c, "frame 1 0 60\nframe 3 16 60\nframe 10 0 60\n", TAPRIO_DONE,
          STREAM_HEAD "3,,60,0,,,,NoClass,2\n1,0,60,0,,,,left,1\n10,0,60,0,,,,left,\n", "");
    small("frames of streams, a line that is none", c, "frame 2 0 13\nclok", TAPRIO_BAD_INPUT, STREAM_HEAD "2,0,13,0,,,,Runt,2\n",
          "taprio_port: script line 2: UnknownLine\n");
    struct octets good = c.second, timed = text("stream 2 0 60 1us 0us 2 deadline 1us\n");
    c.second = timed;
    small("frames of streams with a deadline", c, "frame 1 0 60\nframe 3 16 60\n", TAPRIO_DONE,
          "id,class,len,arrival_ps,start_ps,end_ps,wait_ps,fate,stream,deadline\n3,,60,0,,,,NoClass,2,missed\n1,0,60,0,,,,left,,\n", "");
    c.second = text("\nstream 1 0 60 1us 0us\n");
    small("frames of a bad table", c, "frame 1 0 13\n", TAPRIO_BAD_INPUT, "", "taprio_port: table line 2: WordCount\n");
    c.values.rate = 7;
    small("frames of streams at a bad rate", c, "", TAPRIO_BAD_VALUE, "", "taprio_port: bad value of --rate\n");
    free(c.second.at);
    free(timed.at);
    free(good.at);
}

/* The octets of a capture of two frames of 60 octets at moments 0 and 1 us, in host order; only `captured` of each stand there. */
static struct octets two_frames(void) {
    const uint32_t header[] = {0xa1b23c4d, 0x00040002, 0, 0, 262144, 1}, captured = 14;
    struct octets got = lent(sizeof header + 2 * (16 + captured));
    memcpy(got.at, header, sizeof header);
    for (uint32_t at = 0; at < 2; at++) {
        const uint32_t record[] = {0, 1000 * at, captured, 60};
        uint8_t *place = got.at + sizeof header + at * (16 + captured);
        memcpy(place, record, sizeof record);
        memset(place + sizeof record, 0, captured);
    }
    return got;
}

static void frames_of_capture(void) {
    struct octets both = two_frames(), cut = {both.at, both.length - 1}, none = {both.at, 23};
    struct call c = {FRAMES_OF_CAPTURE, usual, whole, 0, 0, {0}, both};
    small("frames of a capture", c, "", TAPRIO_DONE, HEAD "0,0,60,0,0,672000,0,sent\n1,0,60,1000000,1000000,1672000,0,sent\n", "");
    struct call to = c;
    to.values.has_until = 1;
    to.values.until_low = 1000000;
    small("frames of a capture to a moment", to, "clock 5\n", TAPRIO_DONE,
          HEAD "0,0,60,0,0,672000,0,sent\n1,0,60,1000000,,,,left\n", "");
    small("frames of a capture, a frame in the script", c, "frame 1 0 60\n", TAPRIO_BAD_INPUT, "",
          "taprio_port: script line 1: FrameInReplay\n");
    c.second = cut;
    small("frames of a cut capture", c, "", TAPRIO_BAD_INPUT, HEAD "0,0,60,0,0,672000,0,sent\n",
          "taprio_port: capture record 1: ShortRecord\n");
    c.second = none;
    small("frames of a cut header", c, "", TAPRIO_BAD_INPUT, "", "taprio_port: capture header: ShortHeader\n");
    to.values.until_low = (uint64_t)0 - 1;
    to.values.until_high = 300; /* over 4294967296000000000000, and below the greatest moment of a script */
    small("frames of a capture to a late moment", to, "", TAPRIO_BAD_VALUE, "", "taprio_port: bad value of --until\n");
    to.values.mtu = 67;
    small("frames of a capture at a bad mtu", to, "", TAPRIO_BAD_VALUE, "", "taprio_port: bad value of --mtu\n");
    free(both.at);
}

/* a word, and the moment that it says, if it says one */
static void is_said(const char *word, int is_moment, uint64_t low, uint64_t high) {
    struct octets given = text(word);
    struct taprio_moment_value said = {9, 9, 9};
    taprio_moment(given.at, given.length, &said);
    expect(said.is_moment == (uint64_t)is_moment && said.low == low && said.high == high, "a moment", word);
    free(given.at);
}

static void moments(void) {
    is_said("0", 1, 0, 0);
    is_said("20000000", 1, 20000000, 0);
    is_said("12.303us", 1, 12303000, 0);
    is_said("0.5s", 1, 500000000000, 0);
    is_said("18446744073709551616", 1, 0, 1);
    is_said("9223372036854775807000", 1, 18446744073709550616u, 499);
    is_said("9223372036.854775807s", 1, 18446744073709550616u, 499);
    const char *none[] = {"", " ", "-1", ".5s", "5 s", "5S", "1us ", "0.0005ns", "9223372036854775807001", "9223372036.854775808s"};
    for (size_t at = 0; at < sizeof none / sizeof *none; at++)
        is_said(none[at], 0, 0, 0);
}

/* a machine: a drive and a brake in class 7, a camera in class 5, and the rest */
static const char machine_streams[] =
    "# A machine: a drive and a brake in class 7, a camera in class 5, and the rest.\n"
    "stream 1 7 60 250us 20us 1000 deadline 250us\n"
    "stream 100 7 200 1ms 20us 1000 deadline 250us\n"
    "stream 200 5 1514 500us 0us 1000 deadline 1ms\n"
    "stream 300 5 1514 125us 10us 1000\n"
    "stream 400 0 1514 1ms 0us 1000 deadline 5ms\n"
    "stream 500 6 100 1ms 0us 1000 deadline 1ms\n"
    "stream 600 5 1515 1ms 0us 1000 deadline 1ms\n";

/* class 7 has the first 13 us of each 250 us, class 5 the next 60 or 24, class 6 a window that is too short or just long enough */
static const char machine_schedules[] =
    "# class 7 has the first 13 us of each 250 us, class 5 the next 60, class 6 a window that is too short, the rest share\n"
    "tc qdisc replace dev eth0 root taprio num_tc 8 map 0 1 2 3 4 5 6 7 base-time 0 sched-entry S 80 13000 sched-entry S 20 60000 sched-entry S 40 800 sched-entry S 1f 176200\n"
    "# class 5 has 24 us: too little for stream 300\n"
    "tc qdisc replace dev eth0 root taprio num_tc 8 map 0 1 2 3 4 5 6 7 base-time 0 sched-entry S 80 13000 sched-entry S 20 26000 sched-entry S 40 12000 sched-entry S 1f 199000\n";

static const char machine_bounds[] =
    "apart 5 6 7\n"
    "class 0 open to 1 2 3 4\n"
    "class 5 most 3 of 128 frames 5 every 500000000\n"
    "class 6 stuck at 0 stream 500 frame 1 full at 128000000000 stream 500 frame 129\n"
    "class 7 most 2 of 128 frames 5 every 1000000000\n"
    "bound 1 class 7 wait 230000000 to 230000000 end 230672000 to 230672000 deadline 250000000 met\n"
    "bound 100 class 7 wait 230672000 to 230672000 end 232464000 to 232464000 deadline 250000000 met\n"
    "bound 200 class 5 wait 13000000 to 25304000 end 25304000 to 37608000 deadline 1000000000 met\n"
    "bound 300 class 5 wait 15304000 to 128000000 end 27608000 to 140304000\n"
    "bound 400 class 0 unknown deadline 5000000000 unknown\n"
    "bound 500 class 6 none deadline 1000000000 missed\n"
    "bound 600 dropped TooLong deadline 1000000000 missed\n"
    "apart 5 6 7\n"
    "class 0 open to 1 2 3 4\n"
    "class 5 full at 63510000000 stream 300 frame 509\n"
    "class 6 most 1 of 128 frames 1 every 1000000000\n"
    "class 7 most 2 of 128 frames 5 every 1000000000\n"
    "bound 1 class 7 wait 230000000 to 230000000 end 230672000 to 230672000 deadline 250000000 met\n"
    "bound 100 class 7 wait 230672000 to 230672000 end 232464000 to 232464000 deadline 250000000 met\n"
    "bound 200 class 5 none deadline 1000000000 unknown\n"
    "bound 300 class 5 none\n"
    "bound 400 class 0 unknown deadline 5000000000 unknown\n"
    "bound 500 class 6 wait 39000000 to 39000000 end 39992000 to 39992000 deadline 1000000000 met\n"
    "bound 600 dropped TooLong deadline 1000000000 missed\n";

static void bounds(void) {
    struct call c = {BOUNDS, usual, whole, 0, TAPRIO_FRAMES, {0}, {0}};
    struct octets none = text(""), schedules = text(machine_schedules), unknown = text("tc qdisc del dev eth0 root\nclock 5\n");
    struct octets half = text("tc qdisc replace dev eth0 root taprio num_tc 1 map 0 base-time 0 sched-entry S 01 50000 sched-entry S 00 50000\n");
    c.second = schedules;
    small("bounds of a machine", c, machine_streams, TAPRIO_DONE, machine_bounds, "");
    small("no streams", c, "", TAPRIO_DONE, "apart 5 6 7\napart 5 6 7\n", "");
    small("a stream without a period", c, "stream 1 7 60 0us 0us 1", TAPRIO_BAD_INPUT, "", "taprio_port: table line 1: BadNumber\n");
    struct call few = c;
    few.second = half;
    few.frames = 26;
    small("a backlog that grows", few, "stream 1 0 1514 20us 0us 1\n", TAPRIO_DONE, "apart 0\nclass 0 overloaded\nbound 1 class 0 none\n", "");
    struct call bad = c;
    bad.second = unknown;
    small("a fault of schedules", bad, "", TAPRIO_BAD_INPUT, "apart none\n", "taprio_port: script line 2: UnknownLine\n");
    bad.second = none;
    small("no schedules", bad, machine_streams, TAPRIO_DONE, "", "");
    bad.frames = 0;
    small("no frames", bad, "stream", TAPRIO_BAD_VALUE, "", "taprio_port: bad value of --frames\n");
    bad.frames = 1000000001;
    small("many frames", bad, "stream", TAPRIO_BAD_VALUE, "", "taprio_port: bad value of --frames\n");
    bad.values.room = 0;
    small("a room and frames", bad, "stream", TAPRIO_BAD_VALUE, "", "taprio_port: bad value of --room\n");
    free(none.at);
    free(schedules.at);
    free(unknown.at);
    free(half.at);
}

/* two classes share a window, and one has streams: what is asked of it */
static void bounds_asked(void) {
    static const char stream[] = "stream 2 0 60 1ms 0us 1 deadline 1ms\n";
    static const char both[] = "stream 1 1 60 1ms any 1\nstream 2 0 60 1ms 0us 1\n";
    static const char open[] = "apart none\nclass 0 open to 1\nbound 2 class 0 unknown deadline 1000000000 unknown\n";
    static const char silent[] = "apart none\nsilent 1\nclass 0 within most 1 of 128\n"
                                 "bound 2 class 0 within 0 to 50671999 end 672000 to 51343999 deadline 1000000000 met\n";
    static const char bounded[] = "apart none\nclass 0 within most 1 of 128\nclass 1 within most 1 of 128\n"
                                  "bound 1 class 1 within 0 to 63007998 end 672000 to 63679998\n"
                                  "bound 2 class 0 within 0 to 52015998 end 672000 to 52687998\n";
    static const char left[] = "apart none\nclass 0 open to 1\nclass 1 within most 1 of 128\n"
                               "bound 1 class 1 within 0 to 63007998 end 672000 to 63679998\nbound 2 class 0 unknown\n";
    char slack[512];
    struct octets schedule = text("tc qdisc replace dev eth0 root taprio num_tc 2 map 0 1 base-time 0 sched-entry S 03 50000 sched-entry S 00 50000\n");
    struct call c = {BOUNDS_ASKED, usual, whole, 0, TAPRIO_FRAMES, {0}, schedule};
    small("nothing is asked", c, stream, TAPRIO_DONE, open, "");
    c.windows = 0xffff00fc;
    small("other bits are asked", c, stream, TAPRIO_DONE, open, "");
    c.windows = TAPRIO_SILENT(1);
    small("a class is silent", c, stream, TAPRIO_DONE, silent, "");
    c.windows = TAPRIO_SILENT(1) | TAPRIO_LEFTOVERS;
    small("a silent class has no leftovers", c, stream, TAPRIO_DONE, silent, "");
    c.windows = TAPRIO_SILENT(0);
    small("a silent class that has streams", c, stream, TAPRIO_DONE, "apart none\nsilent\nclass 0 open to 1\nbound 2 class 0 unknown deadline 1000000000 unknown\n", "");
    c.windows = TAPRIO_SILENT(1) | TAPRIO_SLACK;
    snprintf(slack, sizeof slack, "%sslack 2 jitter 948656000\n", silent);
    small("a class is silent, with slack", c, stream, TAPRIO_DONE, slack, "");
    c.windows = TAPRIO_SLACK;
    snprintf(slack, sizeof slack, "%sslack 2 none\n", open);
    small("slack is asked", c, stream, TAPRIO_DONE, slack, "");
    c.windows = 0;
    small("both have streams", c, both, TAPRIO_DONE, bounded, "");
    c.windows = TAPRIO_LEFTOVERS;
    small("leftovers of both", c, both, TAPRIO_DONE, left, "");
    c.values.mtu = 67;
    small("a bad mtu, and leftovers", c, both, TAPRIO_BAD_VALUE, "", "taprio_port: bad value of --mtu\n");
    struct call with = {BOUNDS_SLACK, usual, whole, 0, TAPRIO_FRAMES, {0}, schedule};
    small("slack", with, stream, TAPRIO_DONE, slack, "");
    free(schedule.at);
}

/* two ports, a link of two times, and clocks that differ; class 6 has streams at the first port alone */
static const char two_ports[] =
    "link a b 1us 2us\n"
    "clocks 100ns\n"
    "stream 1 7 60 250us 10us 1 deadline 100us via a b\n"
    "stream 2 5 200 1ms any 1 via a b\n"
    "stream 3 6 60 1ms any 1 via a\n";

/* class 7 has the first 50 us of each 250 us, and the others share the rest */
static const char two_schedules[] =
    "tc qdisc replace dev a root taprio num_tc 8 map 0 1 2 3 4 5 6 7 base-time 0 sched-entry S 80 50000 sched-entry S 7f 200000\n"
    "tc qdisc replace dev b root taprio num_tc 8 map 0 1 2 3 4 5 6 7 base-time 0 sched-entry S 80 50000 sched-entry S 7f 200000\n";

#define SETPOINT \
    "hop 1 a class 7 within 0 to 0\nhop 1 b class 7 within 0 to 1200000\n" \
    "path 1 end 2148000 to 3348000 deadline 100000000 met\n"
#define ALARM "hop 3 a class 6 within 0 to 63007998\npath 3 end 672000 to 63679998\n"

/* a network under the schedules of its ports: what is asked, and what is wrong with it */
static void paths(void) {
    static const char open[] =
        "port a\napart 7\nclass 5 within most 1 of 128\nclass 6 within most 1 of 128\nclass 7 within most 1 of 128\n"
        "port b\napart 7\nclass 5 open to 6\nclass 7 within most 1 of 128\n" SETPOINT
        "hop 2 a class 5 within 0 to 64799998\npath 2 unknown at b\n" ALARM;
    static const char silent[] =
        "port a\napart 7\nclass 5 within most 1 of 128\nclass 6 within most 1 of 128\nclass 7 within most 1 of 128\n"
        "port b\napart 7\nsilent 6\nclass 5 within most 1 of 128\nclass 7 within most 1 of 128\n" SETPOINT
        "hop 2 a class 5 within 0 to 64799998\nhop 2 b class 5 within 0 to 64127998\npath 2 end 4388000 to 134515996\n" ALARM;
    static const char left[] =
        "port a\napart 7\nclass 5 open to 6\nclass 6 within most 1 of 128\nclass 7 within most 1 of 128\n"
        "port b\napart 7\nclass 5 unknown\nclass 7 within most 1 of 128\n" SETPOINT "path 2 unknown at a\n" ALARM;
    struct octets schedules = text(two_schedules), none = text(""), deletion = text("\ntc qdisc del dev b root\n");
    struct octets brief = text("tc qdisc replace dev a root taprio num_tc 1 map 0 sched-entry S 01 4\n");
    struct call c = {PATHS, usual, whole, 0, TAPRIO_FRAMES, {0}, schedules};
    small("a network of two ports", c, two_ports, TAPRIO_DONE, open, "");
    c.windows = 0xffff00fc | TAPRIO_SLACK | TAPRIO_WHY;
    small("a network, and other bits are asked", c, two_ports, TAPRIO_DONE, open, "");
    c.windows = TAPRIO_SILENT(6);
    small("a network with a silent class", c, two_ports, TAPRIO_DONE, silent, "");
    c.windows = TAPRIO_LEFTOVERS;
    small("a network with leftovers", c, two_ports, TAPRIO_DONE, left, "");
    small("a bad line of a network", c, "link a b 1us\nlink a b 2us\n", TAPRIO_BAD_INPUT, "",
          "taprio_port: network line 2: SecondLink (line 1)\n");
    struct call bad = c;
    bad.second = deletion;
    small("a bad line of its schedules", bad, two_ports, TAPRIO_BAD_INPUT, "", "taprio_port: schedules line 2: Deletion\n");
    bad.second = brief;
    small("a schedule that its port refuses", bad, two_ports, TAPRIO_BAD_INPUT, "",
          "taprio_port: schedules line 1: refused IntervalTooShort 0\n");
    bad.second = none;
    bad.frames = 0;
    small("a network, and no frames", bad, two_ports, TAPRIO_BAD_VALUE, "", "taprio_port: bad value of --frames\n");
    bad.values.room = 0;
    small("a network, and no room", bad, two_ports, TAPRIO_BAD_VALUE, "", "taprio_port: bad value of --room\n");
    struct call files = {PATHS, usual, whole, 0, TAPRIO_FRAMES, {0}, {0}};
    of_files(files, "line.network", "line.schedules", "line.paths");
    of_files(files, "vehicle.network", "vehicle.schedules", "vehicle.paths");
    free(schedules.at);
    free(none.at);
    free(deletion.at);
    free(brief.at);
}

#define TC "tc qdisc replace dev "
#define ONE_CLASS " parent root handle 100 taprio num_tc 2 map 0 0 0 0 0 0 0 1 0 0 0 0 0 0 0 0 queues 1@0 1@1 base-time "

/* plans for a table and for a network, where there is none, and values that are bad */
static void plans(void) {
    static const char table[] = "stream 1 7 60 250us 20us 1 deadline 20us\n";
    struct octets device = text("swp3"), none = text("");
    struct call c = {PLAN, usual, whole, 0, 0, {0}, device};
    small("a plan", c, table, TAPRIO_DONE,
          TC "swp3" ONE_CLASS "0 cycle-time 250000 sched-entry S 01 20000 sched-entry S 02 672 sched-entry S 01 229328 clockid CLOCK_TAI\n", "");
    plan.cycle = 125000;
    plan.base_time = 250000;
    plan.least_interval = 1000;
    small("a plan with values", c, table, TAPRIO_DONE,
          TC "swp3" ONE_CLASS "250000 cycle-time 125000 sched-entry S 01 20000 sched-entry S 02 1000 sched-entry S 01 104000 clockid CLOCK_TAI\n",
          "");
    plan.entries = 2;
    small("a plan with two entries", c, table, TAPRIO_DONE,
          TC "swp3" ONE_CLASS "250000 cycle-time 125000 sched-entry S 02 21000 sched-entry S 01 104000 clockid CLOCK_TAI\n", "");
    plan = (struct taprio_plan_values)TAPRIO_PLAN_VALUES;
    small("a plan for a port of a network", c, "stream 1 7 60 250us 20us 1 deadline 20us via a\n", TAPRIO_DONE,
          TC "a" ONE_CLASS "0 cycle-time 250000 sched-entry S 01 20000 sched-entry S 02 672 sched-entry S 01 229328 clockid CLOCK_TAI\n", "");
    small("no plan", c, "stream 1 7 60 250us 20us 1 deadline 1ns\n", TAPRIO_NO_PLAN, "none deadline 1\n",
          "taprio_port: plan: no schedule is found\n");
    small("a plan, and a bad line", c, "streams\n", TAPRIO_BAD_INPUT, "", "taprio_port: table line 1: UnknownLine\n");
    small("a plan, and a bad line of a network", c, "link a b\n", TAPRIO_BAD_INPUT, "", "taprio_port: network line 1: WordCount\n");
    plan.cycle = 4294967296;
    small("a plan, and a long cycle", c, table, TAPRIO_BAD_VALUE, "", "taprio_port: bad value of --cycle\n");
    plan = (struct taprio_plan_values)TAPRIO_PLAN_VALUES;
    plan.entries = 257;
    small("a plan, and many entries", c, table, TAPRIO_BAD_VALUE, "", "taprio_port: bad value of --entries\n");
    plan.entries = 0;
    small("a plan, and no entries", c, table, TAPRIO_BAD_VALUE, "", "taprio_port: bad value of --entries\n");
    plan = (struct taprio_plan_values)TAPRIO_PLAN_VALUES;
    plan.least_interval = 4294967296;
    small("a plan, and long entries", c, table, TAPRIO_BAD_VALUE, "", "taprio_port: bad value of --least-interval\n");
    plan = (struct taprio_plan_values)TAPRIO_PLAN_VALUES;
    plan.base_time = 1ull << 63;
    small("a plan, and a late base time", c, table, TAPRIO_BAD_VALUE, "", "taprio_port: bad value of --base-time\n");
    plan = (struct taprio_plan_values)TAPRIO_PLAN_VALUES;
    struct call bad = c;
    bad.second = none;
    small("a plan, and no device", bad, table, TAPRIO_BAD_VALUE, "", "taprio_port: bad value of --device\n");
    bad.values.mtu = 0;
    small("a plan, and no mtu", bad, table, TAPRIO_BAD_VALUE, "", "taprio_port: bad value of --mtu\n");
    free(device.at);
    free(none.at);
}

/* null pointers with length 0, in the place of each slice: the calls ask for room, or do what they do without octets */
static void nulls(void) {
    struct taprio_ran ran;
    taprio_run(&usual, NULL, 0, NULL, 0, NULL, 0, &ran);
    expect(ran.status == TAPRIO_DONE && ran.output == 0 && ran.fault == 0, "null pointers", "taprio_run");
    static const uint8_t bad[] = "clok 5";
    taprio_run(&usual, bad, 6, NULL, 0, NULL, 0, &ran);
    expect(ran.status == TAPRIO_NO_ROOM && ran.output == 0 && ran.fault == 40, "null pointers", "taprio_run, a fault");
    static const uint8_t frame[] = "frame 1 0 60";
    taprio_run(&usual, frame, 12, NULL, 0, NULL, 0, &ran);
    expect(ran.status == TAPRIO_NO_ROOM && ran.output == 39 && ran.fault == 0, "null pointers", "taprio_run, no room");
    taprio_check(1000, 1, NULL, 0, NULL, 0, NULL, 0, &ran);
    expect(ran.status == TAPRIO_DONE && ran.output == 0, "null pointers", "taprio_check");
    taprio_streams(NULL, 0, NULL, 0, NULL, 0, NULL, 0, &ran);
    expect(ran.status == TAPRIO_DONE && ran.output == 0, "null pointers", "taprio_streams");
    taprio_streams_from(5, 0, NULL, 0, frame, 12, NULL, 0, NULL, 0, &ran);
    expect(ran.status == TAPRIO_NO_ROOM && ran.output == 13, "null pointers", "taprio_streams_from");
    taprio_bounds(&usual, 1, NULL, 0, NULL, 0, NULL, 0, NULL, 0, &ran);
    expect(ran.status == TAPRIO_DONE && ran.output == 0, "null pointers", "taprio_bounds");
    taprio_bounds_slack(&usual, 1, NULL, 0, NULL, 0, NULL, 0, NULL, 0, &ran);
    expect(ran.status == TAPRIO_DONE && ran.output == 0, "null pointers", "taprio_bounds_slack");
    taprio_bounds_asked(&usual, 1, TAPRIO_SILENT(7), NULL, 0, NULL, 0, NULL, 0, NULL, 0, &ran);
    expect(ran.status == TAPRIO_DONE && ran.output == 0, "null pointers", "taprio_bounds_asked");
    taprio_paths(&usual, 1, TAPRIO_SILENT(7), NULL, 0, NULL, 0, NULL, 0, NULL, 0, &ran);
    expect(ran.status == TAPRIO_NO_ROOM && ran.output == strlen("apart none\nsilent 7\n"), "null pointers", "taprio_paths");
    taprio_frames(&usual, NULL, 0, NULL, 0, NULL, 0, &ran);
    expect(ran.status == TAPRIO_NO_ROOM && ran.output == strlen(HEAD), "null pointers", "taprio_frames");
    taprio_frames_by_stream(&usual, NULL, 0, NULL, 0, NULL, 0, NULL, 0, &ran);
    expect(ran.status == TAPRIO_NO_ROOM && ran.output == strlen(HEAD) + strlen(",stream"), "null pointers", "taprio_frames_by_stream");
    taprio_frames_of_capture(&usual, NULL, 0, NULL, 0, NULL, 0, NULL, 0, &ran);
    expect(ran.status == TAPRIO_NO_ROOM && ran.output == 0 && ran.fault == 41, "null pointers", "taprio_frames_of_capture");
    struct taprio_moment_value moment;
    taprio_moment(NULL, 0, &moment);
    expect(moment.is_moment == 0 && moment.low == 0 && moment.high == 0, "null pointers", "taprio_moment");
    taprio_draw(&usual, &whole, NULL, 0, NULL, 0, NULL, 0, &ran);
    expect(ran.status == TAPRIO_NO_ROOM && ran.output > 100, "null pointers", "taprio_draw");
    struct taprio_replay_ran replayed;
    taprio_replay(&usual, NULL, 0, NULL, 0, NULL, 0, NULL, 0, NULL, 0, &replayed);
    expect(replayed.status == TAPRIO_NO_ROOM && replayed.report == 0 && replayed.departures == 0 && replayed.fault == 41, "null pointers",
           "taprio_replay");
    uint8_t text[41];
    taprio_replay(&usual, NULL, 0, NULL, 0, NULL, 0, NULL, 0, text, 41, &replayed);
    expect(replayed.status == TAPRIO_BAD_INPUT && memcmp(text, "taprio_port: capture header: ShortHeader\n", 41) == 0, "null pointers",
           "taprio_replay, a fault");
}

/* what a call of a port answers */
static void answered(const char *name, struct taprio_answer told, struct taprio_answer wanted) {
    expect(memcmp(&told, &wanted, sizeof told) == 0, "the answer of a port", name);
}

static const struct taprio_schedule two_classes = {
    .length = 2, .entries = {{100000, 0x02}, {100000, 0x01}}, .num_tc = 2, .map = {0, 1}};

static struct taprio_answer installs(struct taprio_port *port, struct taprio_schedule schedule) {
    struct taprio_answer told;
    memset(&told, '.', sizeof told);
    taprio_port_install(port, &schedule, &told);
    return told;
}

static struct taprio_answer arrives(struct taprio_port *port, struct taprio_frame frame) {
    struct taprio_answer told;
    memset(&told, '.', sizeof told);
    taprio_port_arrive(port, &frame, &told);
    return told;
}

static struct taprio_answer steps(struct taprio_port *port, uint64_t low, uint64_t high) {
    struct taprio_answer told;
    memset(&told, '.', sizeof told);
    taprio_port_step(port, low, high, &told);
    return told;
}

static struct taprio_answer opens(struct taprio_port *port, uint32_t rate, uint32_t mtu, uint32_t room) {
    struct taprio_answer told;
    memset(port, '.', sizeof *port);
    memset(&told, '.', sizeof told);
    taprio_port_new(port, rate, mtu, room, &told);
    return told;
}

static struct taprio_answer says(uint32_t kind, uint32_t reason) {
    struct taprio_answer told = {0};
    told.kind = kind;
    told.reason = reason;
    return told;
}

/* each reason for which a struct is no schedule, and for which one is refused */
static void schedules(void) {
    struct taprio_port port;
    answered("a port", opens(&port, 1000, 1500, 128), says(TAPRIO_OPENED, 0));
    struct taprio_schedule bad = two_classes;
    bad.num_tc = 9;
    bad.has_queues = 1;
    bad.length = 0;
    answered("nine classes", installs(&port, bad), says(TAPRIO_MALFORMED, TAPRIO_BAD_CLASS_COUNT));
    bad.num_tc = 2;
    bad.map[15] = 2;
    answered("a class too many", installs(&port, bad), says(TAPRIO_MALFORMED, TAPRIO_CLASS_OUT_OF_RANGE));
    bad.map[15] = 0;
    answered("no queue", installs(&port, bad), says(TAPRIO_MALFORMED, TAPRIO_EMPTY_QUEUE));
    bad.queues[0] = (struct taprio_range){2, 0};
    bad.queues[1] = (struct taprio_range){1, 1};
    answered("a queue of two classes", installs(&port, bad), says(TAPRIO_MALFORMED, TAPRIO_QUEUE_OVERLAP));
    bad.queues[1].offset = 2;
    answered("no entry", installs(&port, bad), says(TAPRIO_MALFORMED, TAPRIO_NO_ENTRIES));
    bad.length = 257;
    answered("many entries", installs(&port, bad), says(TAPRIO_MALFORMED, TAPRIO_TOO_MANY_ENTRIES));
    bad.length = 4294967295u;
    answered("all entries", installs(&port, bad), says(TAPRIO_MALFORMED, TAPRIO_TOO_MANY_ENTRIES));
    bad.length = 3;
    answered("no interval", installs(&port, bad), says(TAPRIO_MALFORMED, TAPRIO_ZERO_INTERVAL));
    bad.length = 2;
    bad.num_tc = 0;
    answered("queues without classes", installs(&port, bad), says(TAPRIO_MALFORMED, TAPRIO_QUEUE_COUNT));
    bad.has_queues = 0;
    answered("no map", installs(&port, bad), says(TAPRIO_REFUSED, TAPRIO_MAP_MISSING));
    bad.num_tc = 2;
    bad.has_max_sdu = 1;
    bad.max_sdu[3] = 1501;
    struct taprio_answer wanted = says(TAPRIO_REFUSED, TAPRIO_SDU_TOO_LARGE);
    wanted.traffic_class = 3;
    answered("a limit over the mtu", installs(&port, bad), wanted);
    bad.has_max_sdu = 0;
    bad.entries[1].interval = 479;
    wanted = says(TAPRIO_REFUSED, TAPRIO_INTERVAL_TOO_SHORT);
    wanted.entry = 1;
    answered("a short entry", installs(&port, bad), wanted);
    bad.entries[1].interval = 100000;
    bad.cycle_time = 479;
    answered("a short cycle", installs(&port, bad), says(TAPRIO_REFUSED, TAPRIO_CYCLE_TOO_SHORT));
    bad.cycle_time = ((uint64_t)1 << 40) + 1;
    answered("a long cycle", installs(&port, bad), says(TAPRIO_REFUSED, TAPRIO_CYCLE_TOO_LONG));
    bad.cycle_time = 0;
    bad.extension = ((uint64_t)1 << 40) + 1;
    answered("a long extension", installs(&port, bad), says(TAPRIO_REFUSED, TAPRIO_EXTENSION_TOO_LONG));
    bad.extension = 0;
    bad.base_time = (uint64_t)1 << 63;
    answered("a late base", installs(&port, bad), says(TAPRIO_REFUSED, TAPRIO_BASE_TOO_LATE));
    /* a last entry that counts, of all 256 */
    struct taprio_schedule full = two_classes;
    full.length = 256;
    full.base_time = ((uint64_t)1 << 63) - 1;
    for (int at = 0; at < 256; at++)
        full.entries[at] = (struct taprio_entry){1000, (uint8_t)at};
    wanted = says(TAPRIO_INSTALLED, 0);
    wanted.at_low = 18446744073709550616u; /* 499 * 2^64 and so much: 9223372036854775807000 */
    wanted.at_high = 499;
    answered("all entries", installs(&port, full), wanted);
    wanted = says(TAPRIO_REFUSED, TAPRIO_BUSY);
    wanted.at_low = 12336000;
    answered("busy", installs(&port, two_classes), wanted);
    answered("the lead is over", steps(&port, 12336000, 0), says(TAPRIO_REST, 0));
    bad = two_classes;
    bad.map[2] = 1;
    answered("another map", installs(&port, bad), says(TAPRIO_REFUSED, TAPRIO_MAP_CHANGED));
    taprio_port_free(&port);
}

/* the run of schedule.c by calls, what is counted, and what comes after the end */
static void driven(void) {
    struct taprio_port port, copy;
    struct taprio_answer told, wanted;
    answered("a rate", opens(&port, 1001, 67, 0), says(TAPRIO_NOT_OPENED, TAPRIO_BAD_RATE));
    answered("an mtu", opens(&port, 1000, 67, 0), says(TAPRIO_NOT_OPENED, TAPRIO_BAD_MTU));
    answered("a room", opens(&port, 1000, 1500, 0), says(TAPRIO_NOT_OPENED, TAPRIO_BAD_ROOM));
    answered("a room", opens(&port, 1000, 1500, 4097), says(TAPRIO_NOT_OPENED, TAPRIO_BAD_ROOM));
    answered("no port", steps(&port, 5, 0), says(TAPRIO_NO_PORT, 0));
    answered("no port", arrives(&port, (struct taprio_frame){1, 60, 0, 0}), says(TAPRIO_NO_PORT, 0));
    answered("no port", installs(&port, two_classes), says(TAPRIO_NO_PORT, 0));
    taprio_port_free(&port);
    answered("a port", opens(&copy, 1000, 1500, 2), says(TAPRIO_OPENED, 0));
    port = copy; /* a place may be moved */
    wanted = says(TAPRIO_INSTALLED, 0);
    wanted.at_low = 200000000;
    answered("a schedule", installs(&port, two_classes), wanted);
    struct taprio_report shown;
    taprio_port_report(&port, &shown);
    expect(shown.now_low == 0 && shown.now_high == 0 && shown.gates == 0xff && shown.pending == 1, "a report", "before");
    answered("rest", steps(&port, 1000000000, 0), says(TAPRIO_REST, 0));
    taprio_port_report(&port, &shown);
    expect(shown.now_low == 1000000000 && shown.gates == 2 && shown.pending == 0 && shown.no_class == 0, "a report", "after");
    answered("back", steps(&port, 999999999, 0), says(TAPRIO_BACKWARD, 0));
    answered("past the end", steps(&port, 18446744073709550617u, 499), says(TAPRIO_BACKWARD, 0));
    wanted = says(TAPRIO_QUEUED, 0);
    wanted.id = ((uint64_t)1 << 63) + 1;
    answered("a frame", arrives(&port, (struct taprio_frame){wanted.id, 1514, 0, 0}), wanted);
    wanted.traffic_class = 1;
    wanted.id = 2;
    answered("a frame", arrives(&port, (struct taprio_frame){2, 1518, 1, 7}), wanted);
    wanted = says(TAPRIO_DROPPED, TAPRIO_RUNT);
    wanted.id = 3;
    answered("a runt", arrives(&port, (struct taprio_frame){3, 17, 1, 1}), wanted);
    wanted.reason = TAPRIO_TOO_LONG;
    answered("a long frame", arrives(&port, (struct taprio_frame){3, 1515, 1, 0}), wanted);
    wanted.reason = TAPRIO_NO_CLASS;
    answered("no class", arrives(&port, (struct taprio_frame){3, 60, 16, 0}), wanted);
    wanted = says(TAPRIO_START, 0);
    wanted.id = 2;
    wanted.traffic_class = 1;
    wanted.at_low = 1000000000;
    wanted.end_low = 1012336000;
    answered("a start", steps(&port, 1200000000, 0), wanted);
    wanted.id = ((uint64_t)1 << 63) + 1;
    wanted.traffic_class = 0;
    wanted.at_low = 1100000000;
    wanted.end_low = 1112304000;
    answered("a start", steps(&port, 1200000000, 0), wanted);
    answered("rest", steps(&port, 1200000000, 0), says(TAPRIO_REST, 0));
    wanted = says(TAPRIO_INSTALLED, 0);
    wanted.at_low = 1212336000;
    memset(&told, '.', sizeof told);
    taprio_port_delete(&port, &told);
    answered("an end", told, wanted);
    for (uint64_t id = 10; id < 13; id++) {
        wanted = says(id < 12 ? TAPRIO_QUEUED : TAPRIO_DROPPED, id < 12 ? 0 : TAPRIO_FULL);
        wanted.id = id;
        answered("a full queue", arrives(&port, (struct taprio_frame){id, 60, 0, 0}), wanted);
    }
    struct taprio_counters counted;
    taprio_port_counters(&port, 0, &counted);
    expect(counted.accepted == 3 && counted.sent == 1 && counted.sent_octets == 1514 && counted.waiting == 2 && counted.full == 1 &&
               counted.runt == 0 && counted.too_long == 0 && counted.over_sdu == 0,
           "what is counted", "class 0");
    taprio_port_counters(&port, 1, &counted);
    expect(counted.accepted == 1 && counted.sent == 1 && counted.waiting == 0 && counted.runt == 1 && counted.too_long == 1,
           "what is counted", "class 1");
    static const struct taprio_counters none;
    taprio_port_counters(&port, 8, &counted);
    expect(memcmp(&counted, &none, sizeof none) == 0, "what is counted", "class 8");
    taprio_port_report(&port, &shown);
    expect(shown.no_class == 1 && shown.pending == 1, "a report", "at the end");
    taprio_port_free(&port);
    taprio_port_free(&port);
    answered("freed", steps(&port, 5, 0), says(TAPRIO_NO_PORT, 0));
    memset(&told, '.', sizeof told);
    taprio_port_delete(&port, &told);
    answered("freed", told, says(TAPRIO_NO_PORT, 0));
    taprio_port_counters(&port, 0, &counted);
    expect(memcmp(&counted, &none, sizeof none) == 0, "what is counted", "freed");
    static const struct taprio_report nothing;
    memset(&shown, 0, sizeof shown);
    taprio_port_report(&port, &shown);
    expect(memcmp(&shown, &nothing, sizeof nothing) == 0, "a report", "freed");
}

int main(int count, char **words) {
    folder = count > 1 ? words[1] : "examples";
    expect(strncmp(taprio_version(), TAPRIO_VERSION, strlen(TAPRIO_VERSION)) == 0, "the version", "the library");
    struct call c = {RUN, usual, whole, 0, 0, {0}, {0}};
    static const char *const scripts[] = {"first", "priorities", "schedule", "manual", "guard_band", "extension"};
    for (size_t at = 0; at < sizeof scripts / sizeof *scripts; at++) {
        char script[64], answers[64];
        snprintf(script, sizeof script, "%s.script", scripts[at]);
        snprintf(answers, sizeof answers, "%s.answers", scripts[at]);
        of_files(c, script, NULL, answers);
    }
    of_files(c, "planned.script", NULL, "schedule.answers");
    c.values.summary = 7;
    of_files(c, "summary.script", NULL, "summary.answers");
    worked();
    struct call check = {CHECK, usual, whole, 0, 0, {0}, {0}};
    of_files(check, "apart.schedules", NULL, "apart.answers");
    check.windows = 1;
    of_files(check, "windows.schedules", NULL, "windows.answers");
    struct call shares = {CHECK_SHARES, usual, whole, 0, 0, {0}, {0}};
    static const char shared[] = "tc qdisc replace dev eth0 root taprio num_tc 2 map 0 1 sched-entry S 03 1000";
    small("what is shared", shares, shared, TAPRIO_DONE, "apart none\nshares 0 with 1\nshares 1 with 0\n", "");
    shares.windows = 1;
    small("what is shared, and windows", shares, shared, TAPRIO_DONE,
          "apart none\nshares 0 with 1\nshares 1 with 0\n"
          "window class 0 open always closed 0 share 1000000 of 1000000 frame any wait 0\n"
          "window class 1 open always closed 0 share 1000000 of 1000000 frame any wait 0\n",
          "");
    struct call table = {STREAMS, usual, whole, 0, 0, {0}, {0}};
    of_files(table, "planned.streams", "planned.schedule", "planned.script");
    struct call later = {STREAMS_FROM, usual, whole, 0, 0, {0}, {0}};
    later.shown.from_low = later.shown.from_high = 0;
    of_files(later, "planned.streams", "planned.schedule", "planned.script");
    later.shown.from_low = 5;
    later.shown.from_high = 3; /* 3 * 2^64 + 5 */
    small("a moment", later, "stream 1 5 60 250us 1ps 1", TAPRIO_DONE, "clock 55340232221128654854\nframe 1 5 60\n", "");
    later.shown.from_high = 500;
    small("a late moment", later, "stream", TAPRIO_BAD_VALUE, "", "taprio_port: bad value of --from\n");
    bounds();
    bounds_asked();
    paths();
    plans();
    frames();
    frames_by_stream();
    frames_of_capture();
    moments();
    struct call draw = {DRAW, usual, whole, 0, 0, {0}, {0}};
    of_files(draw, "first.script", NULL, "first.svg");
    of_files(draw, "priorities.script", NULL, "priorities.svg");
    of_files(draw, "summary.script", NULL, "summary.svg");
    struct call part = draw;
    part.shown.has_to = 1;
    part.shown.to_low = 60000000;
    of_files(part, "schedule.script", NULL, "schedule.svg");
    part.shown.from_high = 0;
    part.shown.from_low = 100000000;
    part.shown.to_low = 130000000;
    of_files(part, "guard_band.script", NULL, "guard_band.svg");
    part.shown.from_low = 3000000000;
    part.shown.to_low = 6000000000;
    of_files(part, "extension.script", NULL, "extension.svg");
    /* 1528743495910000000000 and 1528743495913000000000: 82 * 2^64 and so much */
    part.shown.from_high = part.shown.to_high = 82;
    part.shown.from_low = 16110481865816767488u;
    part.shown.to_low = 16110481868816767488u;
    of_files(part, "manual.script", NULL, "manual.svg");
    runs_on();
    machine();
    nulls();
    schedules();
    driven();

    struct call run = {RUN, usual, whole, 0, 0, {0}, {0}};
    small("no script", run, "", TAPRIO_DONE, "", "");
    small("a fault", run, "frame 1 0 60\nclock 1000000\nclok 5\n", TAPRIO_BAD_INPUT,
          "queued 1 class 0\nstart 1 class 0 at 0 end 672000\n", "taprio_port: script line 3: UnknownLine\n");
    small("a table's fault", table, "stream", TAPRIO_BAD_INPUT, "", "taprio_port: table line 1: WordCount\n");
    small("a check's fault", check, "clock 5", TAPRIO_BAD_INPUT, "", "taprio_port: script line 1: UnknownLine\n");
    small("a picture's fault", draw, "frame 1 0 60\nclok 5", TAPRIO_BAD_INPUT, "", "taprio_port: script line 2: UnknownLine\n");
    struct call bad = run;
    bad.values.rate = 1001;
    small("a rate", bad, "clock 5", TAPRIO_BAD_VALUE, "", "taprio_port: bad value of --rate\n");
    bad = run;
    bad.values.mtu = 67;
    small("an mtu", bad, "clock 5", TAPRIO_BAD_VALUE, "", "taprio_port: bad value of --mtu\n");
    bad = run;
    bad.values.room = 4097;
    small("a room", bad, "clock 5", TAPRIO_BAD_VALUE, "", "taprio_port: bad value of --room\n");
    bad = run;
    bad.values.has_until = 1;
    bad.values.until_high = 500;
    small("a moment", bad, "clock 5", TAPRIO_BAD_VALUE, "", "taprio_port: bad value of --until\n");
    bad = draw;
    bad.shown.from_high = 500;
    small("a beginning", bad, "clock 5", TAPRIO_BAD_VALUE, "", "taprio_port: bad value of --from\n");
    bad = draw;
    bad.shown.has_to = 1;
    small("an end", bad, "clock 5", TAPRIO_BAD_VALUE, "", "taprio_port: bad value of --to\n");
    bad = draw;
    bad.shown.width = 399;
    small("a width", bad, "clock 5", TAPRIO_BAD_VALUE, "", "taprio_port: bad value of --width\n");
    printf("%d of %d hold\n", cases - wrong, cases);
    return wrong != 0;
}
