// Tests the header from C++: an empty std::string_view has a null pointer.
#include "taprio.h"
#include <cstdio>
#include <string_view>

int main() {
    const std::string_view none;
    const struct taprio_port_values values = TAPRIO_PORT_VALUES;
    struct taprio_ran ran;
    taprio_run(&values, reinterpret_cast<const uint8_t *>(none.data()), none.size(), nullptr, 0, nullptr, 0, &ran);
    struct taprio_port port;
    struct taprio_answer told;
    taprio_port_new(&port, 1000, 1500, 128, &told);
    const bool holds = ran.status == TAPRIO_DONE && ran.output == 0 && told.kind == TAPRIO_OPENED;
    taprio_port_free(&port);
    std::puts(holds ? "C++: holds" : "C++: WRONG");
    return !holds;
}
