/* A port that is driven call by call, as a simulator with a clock of its own does it: the run of schedule.c, without text. */
#include "taprio.h"
#include <inttypes.h>
#include <stdio.h>

/* class 1 has the first 100 us of each 200 us, class 0 the rest */
static const struct taprio_schedule schedule = {
    .length = 2,
    .entries = {{100000, 0x02}, {100000, 0x01}},
    .num_tc = 2,
    .map = {0, 1},
};

/* Runs the clock to a moment, in picoseconds, and prints each start. */
static void run_to(struct taprio_port *port, uint64_t until) {
    struct taprio_answer told;
    do {
        taprio_port_step(port, until, 0, &told);
        if (told.kind == TAPRIO_START)
            printf("start %" PRIu64 " class %" PRIu32 " at %" PRIu64 " end %" PRIu64 "\n", told.id, told.traffic_class, told.at_low,
                   told.end_low);
    } while (told.kind == TAPRIO_START);
}

/* A frame arrives now. */
static void arrive(struct taprio_port *port, uint64_t id, uint8_t priority) {
    const struct taprio_frame frame = {id, 1514, priority, 0};
    struct taprio_answer told;
    taprio_port_arrive(port, &frame, &told);
    if (told.kind == TAPRIO_QUEUED)
        printf("queued %" PRIu64 " class %" PRIu32 "\n", told.id, told.traffic_class);
    else
        printf("dropped %" PRIu64 " reason %" PRIu32 "\n", told.id, told.reason);
}

int main(void) {
    struct taprio_port port;
    struct taprio_answer told;
    taprio_port_new(&port, 1000, 1500, 128, &told);
    if (told.kind != TAPRIO_OPENED) {
        fprintf(stderr, "no port: reason %" PRIu32 "\n", told.reason);
        return 4;
    }
    taprio_port_install(&port, &schedule, &told);
    if (told.kind == TAPRIO_INSTALLED)
        printf("installed change %" PRIu64 "\n", told.at_low);
    run_to(&port, 1000000000);
    arrive(&port, 1, 0);
    arrive(&port, 2, 1);
    run_to(&port, 1200000000);
    taprio_port_free(&port);
    return 0;
}
