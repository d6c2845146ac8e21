/* Opens a rack again and again, each time with one more allocation granted before one is refused, until it opens. Writes how
 * many were refused. It is linked with --wrap=malloc and --wrap=realloc. */
#include "rackd.h"
#include <stdio.h>
#include <string.h>

static const char text[] =
    "[[line]]\nnumber = 1\ncapacity = 100\nmasters = [1, 2]\n"
    "[[line.slave]]\naddress = 5\nident = 0x80A1\ncfg = [\"2111\", \"20\"]\nlockers = [1]\n"
    "[[line]]\nnumber = 2\ncapacity = 16\nmasters = [3]\n"
    "[[line.slave]]\naddress = 7\nident = 0x80A2\ncfg = \"2111\"\ndevice = \"mirror\"\n";

void *__real_malloc(size_t octets);
void *__real_realloc(void *block, size_t octets);

/* how many allocations are granted before all are refused; -1 for no end */
static long granted = -1;

static bool grant(void) {
    if (granted < 0) return true;
    if (granted == 0) return false;
    granted--;
    return true;
}

void *__wrap_malloc(size_t octets) {
    return grant() ? __real_malloc(octets) : NULL;
}

void *__wrap_realloc(void *block, size_t octets) {
    return grant() ? __real_realloc(block, octets) : NULL;
}

int main(void) {
    long refused = 0;
    for (;;) {
        rackd_rack rack = RACKD_INITIALIZER;
        granted = refused;
        uint32_t done = rackd_open(&rack, (const uint8_t *)text, strlen(text), false);
        granted = -1;
        if (done == RACKD_OK) {
            rackd_close(&rack);
            if (rackd_is_open(&rack)) return 3;
            break;
        }
        if (done != RACKD_OUT_OF_MEMORY) return 1;
        if (rackd_is_open(&rack)) return 2;
        refused++;
    }
    printf("%ld refused\n", refused);
    return 0;
}
