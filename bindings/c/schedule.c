/* A program to start from: what a schedule does to two frames. It grows its slices where a call tells that it needs more room. */
#include "taprio.h"
#include <stdio.h>
#include <stdlib.h>
#include <string.h>

static const char script[] =
    "# class 1 has the first 100 us of each 200 us, class 0 the rest\n"
    "tc qdisc replace dev eth0 root taprio num_tc 2 map 0 1 base-time 0 sched-entry S 02 100000 sched-entry S 01 100000\n"
    "clock 1000000000\n"
    "frame 1 0 1514\n"
    "frame 2 1 1514\n"
    "clock 1000200000\n"
    "clock 1200000000\n";

int main(void) {
    const struct taprio_port_values values = TAPRIO_PORT_VALUES;
    struct taprio_ran ran = {16, 16, TAPRIO_NO_ROOM};
    uint8_t *output = NULL, *fault = NULL;
    while (ran.status == TAPRIO_NO_ROOM) {
        const size_t output_length = ran.output, fault_length = ran.fault;
        free(output);
        free(fault);
        output = calloc(output_length, 1);
        fault = calloc(fault_length, 1);
        if ((output_length && !output) || (fault_length && !fault)) {
            ran.status = TAPRIO_NO_MEMORY;
            break;
        }
        taprio_run(&values, (const uint8_t *)script, strlen(script), output, output_length, fault, fault_length, &ran);
    }
    if (ran.status == TAPRIO_NO_MEMORY) {
        fputs("out of memory\n", stderr);
    } else {
        fwrite(output, 1, ran.output, stdout);
        fwrite(fault, 1, ran.fault, stderr);
    }
    free(output);
    free(fault);
    return ran.status;
}
