/* Which library this is: the one function of it that is not of the proved sources. */
#include "taprio.h"

const char *taprio_version(void) {
#ifdef TAPRIO_UNPROVED
    return TAPRIO_VERSION " (not proved: with checks at each step)";
#else
    return TAPRIO_VERSION;
#endif
}
