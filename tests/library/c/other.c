/* An archive of another version: nothing but its version may be asked of it. */
#include <stdint.h>
#include <stdlib.h>

uint16_t rack_version(void) {
    return UINT16_MAX;
}

void rack_fresh(void) {
    abort();
}

void rack_step(void) {
    abort();
}

void rack_candidate(void) {
    abort();
}

void rack_window(void) {
    abort();
}
