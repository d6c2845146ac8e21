/* Makes calls of one kind to a rack in process, to count the instructions of one (docs/internals/speed.md).
 *
 *     cc -O2 -I include tests/measure/embedded_calls.c dist/x86_64-linux/librackd.a -o embedded_calls
 *     valgrind --tool=callgrind ./embedded_calls diag 5000
 *
 * The kinds are diag (Slave_Diag), data (Data_Exchange of two octets, FCB in turn) and tick64 (a tick of a line with 64
 * slaves). The difference between 5,000 and 1,000 calls, divided by 4,000, is the cost of one.
 */
#include "rackd.h"
#include <stdio.h>
#include <stdlib.h>
#include <string.h>

static const char line[] = "[[line]]\nnumber = 1\ncapacity = 65536\nmasters = [1, 2]\n";
static const char slave[] = "[[line.slave]]\naddress = %d\nident = 0x80A1\ncfg = \"2111\"\nsync = true\nfreeze = true\n";
static const uint8_t diagnosis[] = {0x68, 5, 5, 0x68, 0x85, 0x81, 0x6D, 60, 62, 0xED, 0x16};
static const uint8_t set_prm[] = {0x68, 12, 12, 0x68, 0x85, 0x81, 0x5D, 61, 62, 0xA8, 2, 5, 11, 0x80, 0xA1, 0x01, 0xBA, 0x16};
static const uint8_t chk_cfg[] = {0x68, 7, 7, 0x68, 0x85, 0x81, 0x7D, 62, 62, 0x21, 0x11, 0x31, 0x16};
static const uint8_t exchanges[2][11] = {{0x68, 5, 5, 0x68, 5, 1, 0x5D, 0x12, 0x34, 0xA9, 0x16},
                                         {0x68, 5, 5, 0x68, 5, 1, 0x7D, 0x12, 0x34, 0xC9, 0x16}};

static size_t ask(rackd_rack *rack, const uint8_t *telegram, size_t octets) {
    uint8_t reply[RACKD_MOST_REPLY], rule;
    size_t count;
    uint32_t place;
    if (rackd_request(rack, 1, 1, telegram, octets, reply, sizeof reply, &count, &rule, &place) != RACKD_OK) abort();
    return count;
}

int main(int argc, char **argv) {
    char text[8192];
    rackd_rack rack = RACKD_INITIALIZER;
    size_t sum = 0;
    if (argc != 3) return 2;
    int slaves = strcmp(argv[1], "tick64") == 0 ? 64 : 1;
    size_t end = (size_t)sprintf(text, "%s", line);
    for (int i = 0; i < slaves; i++) end += (size_t)sprintf(text + end, slave, 5 + i);
    if (rackd_open(&rack, (const uint8_t *)text, end, false) != RACKD_OK) return 1;
    if (strcmp(argv[1], "diag") != 0) sum += ask(&rack, set_prm, sizeof set_prm) + ask(&rack, chk_cfg, sizeof chk_cfg);
    for (long i = 0; i < atol(argv[2]); i++) {
        if (argv[1][0] == 't') {
            if (rackd_tick(&rack, 1, 0) != RACKD_OK) abort();
        } else if (strcmp(argv[1], "data") == 0) {
            sum += ask(&rack, exchanges[i % 2], sizeof exchanges[0]);
        } else {
            sum += ask(&rack, diagnosis, sizeof diagnosis);
        }
    }
    rackd_close(&rack);
    printf("%zu octets\n", sum);
    return 0;
}
