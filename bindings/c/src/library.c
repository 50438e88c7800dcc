/* What the library has beside the proved archive: `rr_version`, and `rr_hub_drop` of a hub that may be null. This file is not proved. */
#include "rr.h"

uint32_t rr_version(void) {
    return RR_VERSION;
}

/* The export of the proved archive, under another name. Its hub is not null. */
void held_hub_drop(rr_hub_t hub);

void rr_hub_drop(rr_hub_t hub) {
    if (hub.at != NULL) {
        held_hub_drop(hub);
    }
}
