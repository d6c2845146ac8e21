/* Calls each function with a closed rack, and rackd_open and rackd_close with an open one. Writes the number of a wrong
 * answer, or nothing. */
#include "rackd.h"
#include <stdio.h>
#include <string.h>

static const char text[] =
    "[[line]]\nnumber = 1\ncapacity = 16\nmasters = [1]\n"
    "[[line.slave]]\naddress = 5\nident = 0x80A1\ncfg = \"2111\"\n";
static const uint8_t status[] = {0x10, 5, 1, 0x49, 0x4F, 0x16};

static int wrong(rackd_rack *rack, uint32_t expected) {
    uint8_t room[RACKD_MOST_TEXT], rule, piece;
    size_t count;
    uint32_t number;
    rackd_facts facts;
    if (rackd_request(rack, 1, 1, status, sizeof status, room, sizeof room, &count, &rule, &number) != expected) return 1;
    if (rackd_feed(rack, 1, 1, status, sizeof status, &count) != expected) return 2;
    if (rackd_next(rack, 1, 1, &piece, room, sizeof room, &count, &rule, &number) != expected) return 3;
    if (rackd_tick(rack, 1, 1) != expected) return 4;
    if (rackd_operate(rack, 1, (const uint8_t *)"step", 4, room, sizeof room, &count) != expected) return 5;
    if (rackd_entries(rack, 1, &number) != expected) return 6;
    if (rackd_row(rack, 1, 0, room, sizeof room, &count) != expected) return 7;
    if (rackd_why(rack, 1, 1, room, sizeof room, &count, &facts) != expected) return 8;
    return 0;
}

int main(void) {
    rackd_rack rack = RACKD_INITIALIZER;
    int number = wrong(&rack, RACKD_CLOSED);
    rackd_close(&rack);
    if (number == 0 && rackd_open(&rack, (const uint8_t *)text, strlen(text), false) != RACKD_OK) number = 9;
    if (number == 0) number = wrong(&rack, RACKD_OK);
    if (number == 0 && rackd_open(&rack, (const uint8_t *)text, strlen(text), false) != RACKD_IS_OPEN) number = 10;
    if (number == 0 && !rackd_is_open(&rack)) number = 11;
    rackd_close(&rack);
    if (number == 0 && rackd_is_open(&rack)) number = 12;
    if (number == 0) number = wrong(&rack, RACKD_CLOSED) * 20;
    rackd_close(&rack);
    if (number != 0) printf("%d\n", number);
    return number == 0 ? 0 : 1;
}
