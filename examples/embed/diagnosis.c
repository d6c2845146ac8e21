/* Asks a rack in process: the telegrams of examples/slave-diag.txt, then what an operator sees, and the audit text.
 *
 *     cc -I include examples/embed/diagnosis.c dist/x86_64-linux/librackd.a -o diagnosis && ./diagnosis
 */
#include "rackd.h"
#include <stdio.h>
#include <string.h>

static const char text[] =
    "[[line]]\nnumber = 1\ncapacity = 1000\nmasters = [1, 2]\n"
    "[[line.slave]]\naddress = 5\nident = 0x80A1\ncfg = \"2111\"\nsync = true\nfreeze = true\n";

/* Slave_Diag to slave 5 and to slave 9, from access point 62 of master 1 to access point 60 */
static const uint8_t diagnosis_5[] = {0x68, 5, 5, 0x68, 0x85, 0x81, 0x6D, 0x3C, 0x3E, 0xED, 0x16};
static const uint8_t diagnosis_9[] = {0x68, 5, 5, 0x68, 0x89, 0x81, 0x6D, 0x3C, 0x3E, 0xF1, 0x16};

/* Sends a telegram as a master, and writes what comes back. */
static void ask(rackd_rack *rack, uint8_t master, const uint8_t *telegram, size_t octets) {
    uint8_t reply[RACKD_MOST_REPLY], name[16], rule;
    size_t count, letters;
    uint32_t place;
    uint32_t done = rackd_request(rack, 1, master, telegram, octets, reply, sizeof reply, &count, &rule, &place);
    if (done != RACKD_OK) {
        printf("master %u: fault %u\n", (unsigned)master, (unsigned)done);
        return;
    }
    rackd_rule_name(rule, name, sizeof name, &letters);
    printf("master %u: entry %u, %.*s", (unsigned)master, (unsigned)place, (int)letters, (const char *)name);
    for (size_t i = 0; i < count; i++) printf(i == 0 ? ", %02x" : "%02x", reply[i]);
    printf("\n");
}

/* Writes the answer to a line of an operator. */
static void operate(rackd_rack *rack, const char *command) {
    uint8_t answer[RACKD_MOST_TEXT];
    size_t count;
    if (rackd_operate(rack, 1, (const uint8_t *)command, strlen(command), answer, sizeof answer, &count) == RACKD_OK)
        printf("%s: %.*s", command, (int)count, (const char *)answer);
}

int main(void) {
    rackd_rack rack = RACKD_INITIALIZER;
    uint8_t row[RACKD_MOST_TEXT];
    size_t count;
    if (rackd_open(&rack, (const uint8_t *)text, strlen(text), false) != RACKD_OK) return 1;
    ask(&rack, 1, diagnosis_5, sizeof diagnosis_5);
    ask(&rack, 2, diagnosis_5, sizeof diagnosis_5);
    ask(&rack, 1, diagnosis_9, sizeof diagnosis_9);
    ask(&rack, 1, diagnosis_9, sizeof diagnosis_9 - 1);
    operate(&rack, "in 5 aa55");
    operate(&rack, "show 5");
    rackd_tick(&rack, 1, 10);
    for (uint32_t place = 0; rackd_row(&rack, 1, place, row, sizeof row, &count) == RACKD_OK; place++)
        printf("%.*s", (int)count, (const char *)row);
    rackd_close(&rack);
    return 0;
}
