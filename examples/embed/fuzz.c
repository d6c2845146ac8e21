/* Gives random telegrams and operators' lines to a rack in process, as a fuzzer of a master stack would.
 *
 * With clang it is a target of libFuzzer:
 *     clang -g -fsanitize=fuzzer,address -I include examples/embed/fuzz.c dist/x86_64-linux/librackd.a -o fuzz && ./fuzz
 * With another compiler it is a loop over random numbers, and the word is the number of calls:
 *     cc -O2 -D RACKD_LOOP -I include examples/embed/fuzz.c dist/x86_64-linux/librackd.a -o fuzz && ./fuzz 1000000
 */
#include "rackd.h"
#include <stdio.h>
#include <stdlib.h>
#include <string.h>

static const char text[] =
    "[[line]]\nnumber = 1\ncapacity = 64\nmasters = [1, 2, 3]\n"
    "[[line.slave]]\naddress = 5\nident = 0x80A1\ncfg = \"2111\"\nsync = true\nfreeze = true\n"
    "[[line.slave]]\naddress = 6\nident = 0x80A2\ncfg = \"2111\"\ndevice = \"counter\"\n";

/* Stops if a call returns what no call may return. */
static void expect(bool holds, const char *what) {
    if (!holds) {
        fprintf(stderr, "%s\n", what);
        abort();
    }
}

/* Makes a frame of octets: an SD2 with the right head, check sequence and end. Returns its number of octets. */
static size_t frame_of(const uint8_t *body, size_t octets, uint8_t *frame) {
    uint8_t sum = 0;
    frame[0] = frame[3] = 0x68;
    frame[1] = frame[2] = (uint8_t)octets;
    memcpy(frame + 4, body, octets);
    for (size_t i = 0; i < octets; i++) sum = (uint8_t)(sum + body[i]);
    frame[4 + octets] = sum;
    frame[5 + octets] = 0x16;
    return octets + 6;
}

/* Octets behind each room, which no call may change: no compiler sees what the library writes. */
#define GUARD 16

static void guard(uint8_t *room, size_t limit) {
    memset(room + limit, 0xA5, GUARD);
}

static void expect_guard(const uint8_t *room, size_t limit) {
    for (size_t i = 0; i < GUARD; i++) expect(room[limit + i] == 0xA5, "a call has written behind its room");
}

/* Feeds octets to a master's stream, and takes all pieces. */
static void stream(rackd_rack *rack, uint8_t master, const uint8_t *octets, size_t left) {
    uint8_t reply[RACKD_MOST_REPLY + GUARD], piece, rule;
    size_t taken, count;
    uint32_t place;
    guard(reply, RACKD_MOST_REPLY);
    do {
        expect(rackd_feed(rack, 1, master, octets, left, &taken) == RACKD_OK, "rackd_feed is refused");
        expect(taken > 0 || left == 0, "a stream takes nothing");
        octets += taken;
        left -= taken;
        do {
            expect(rackd_next(rack, 1, master, &piece, reply, RACKD_MOST_REPLY, &count, &rule, &place) == RACKD_OK,
                   "rackd_next is refused");
            expect(count <= RACKD_MOST_REPLY, "a reply is too long");
            expect_guard(reply, RACKD_MOST_REPLY);
        } while (piece != RACKD_NO_PIECE);
    } while (left > 0);
}

/* Asks why the newest entry has its outcome. An endless line that has forgotten entries gives no reason. */
static void why(rackd_rack *rack, uint8_t *room, size_t limit) {
    rackd_facts facts;
    uint32_t place;
    size_t count;
    expect(rackd_entries(rack, 1, &place) == RACKD_OK, "entries are refused");
    uint32_t done = rackd_why(rack, 1, place, room, limit, &count, &facts);
    if (done == RACKD_NO_ENTRY) {
        expect(count == 0 && facts.reason == RACKD_WHY_UNKNOWN, "no entry has a reason");
        return;
    }
    expect(done == RACKD_OK && count > 0 && count <= limit, "an entry has no sentence");
    expect(facts.reason > RACKD_WHY_UNKNOWN && facts.reason <= RACKD_WHY_LINE_HALTED, "an entry has no reason");
}

/* One call: the first octet chooses it, the others are its octets. */
static void call(rackd_rack *rack, const uint8_t *data, size_t size) {
    uint8_t room[RACKD_MOST_TEXT + GUARD], frame[256], rule;
    size_t count, limit = data[0] % 6 < 2 ? RACKD_MOST_REPLY : RACKD_MOST_TEXT;
    uint32_t place;
    uint8_t master = size > 1 ? (uint8_t)(1 + data[1] % 3) : 1;
    const uint8_t *octets = size > 2 ? data + 2 : data;
    size_t left = size > 2 ? size - 2 : 0;
    guard(room, limit);
    switch (data[0] % 6) {
    case 0:
        left = left < 249 ? left : 249;
        if (left < 4) return;
        count = frame_of(octets, left, frame);
        expect(rackd_request(rack, 1, master, frame, count, room, limit, &count, &rule, &place) == RACKD_OK,
               "a frame is refused");
        expect(count <= RACKD_MOST_REPLY && rule <= 20, "a reply has a wrong length or rule");
        break;
    case 1:
        rackd_request(rack, 1, master, octets, left, room, limit, &count, &rule, &place);
        break;
    case 2:
        stream(rack, master, octets, left);
        break;
    case 3:
        rackd_operate(rack, 1, octets, left, room, limit, &count);
        expect(count <= limit, "an answer is too long");
        break;
    case 4:
        expect(rackd_tick(rack, 1, left == 0 ? 1 : octets[0]) == RACKD_OK, "a tick is refused");
        break;
    default:
        if (size > 1 && data[1] < 8) {
            why(rack, room, limit);
            break;
        }
        expect(rackd_entries(rack, 1, &place) == RACKD_OK, "entries are refused");
        expect(rackd_row(rack, 1, place, room, limit, &count) == RACKD_OK, "there is no newest row");
    }
    expect_guard(room, limit);
}

int LLVMFuzzerTestOneInput(const uint8_t *data, size_t size);

/* One case: a new rack with endless lines, and calls of 2 to 65 octets each. */
int LLVMFuzzerTestOneInput(const uint8_t *data, size_t size) {
    rackd_rack rack = RACKD_INITIALIZER;
    expect(rackd_open(&rack, (const uint8_t *)text, strlen(text), true) == RACKD_OK, "the rack is refused");
    while (size > 1) {
        size_t octets = 2 + data[0] % 64;
        if (octets > size) octets = size;
        call(&rack, data + 1, octets - 1);
        data += octets;
        size -= octets;
    }
    rackd_close(&rack);
    return 0;
}

#ifdef RACKD_LOOP
/* A generator of random numbers (xorshift64). */
static uint64_t next_random(uint64_t *state) {
    *state ^= *state << 13;
    *state ^= *state >> 7;
    *state ^= *state << 17;
    return *state;
}

/* Octets of a master's request to slave 5 or 6 that many slaves would take, with one octet changed at random. */
static size_t likely(uint64_t *state, uint8_t *data) {
    static const uint8_t bodies[][9] = {
        {7, 0, 0x85, 0x81, 0x6D, 60, 62},                 /* Slave_Diag */
        {4, 0, 0x05, 0x01, 0x5D},                         /* Data_Exchange without data */
        {9, 0, 0x85, 0x81, 0x7D, 62, 62, 0x21, 0x11},     /* Chk_Cfg */
        {9, 0, 0xFF, 0x81, 0x46, 58, 62, 0x20, 0x00},     /* Global_Control */
    };
    const uint8_t *body = bodies[next_random(state) % 4];
    size_t size = 2 + (size_t)(body[0] - 2);
    memcpy(data, body, size);
    data[0] = 0;
    data[1] = (uint8_t)(next_random(state) % 3);
    if (next_random(state) % 4 == 0) data[2 + next_random(state) % (size - 2)] = (uint8_t)next_random(state);
    return size;
}

int main(int argc, char **argv) {
    rackd_rack rack = RACKD_INITIALIZER;
    uint64_t state = 0x9E3779B97F4A7C15;
    uint8_t data[66];
    long calls = argc > 1 ? atol(argv[1]) : 1000000;
    expect(rackd_open(&rack, (const uint8_t *)text, strlen(text), true) == RACKD_OK, "the rack is refused");
    for (long i = 0; i < calls; i++) {
        size_t size;
        if (next_random(&state) % 2 == 0) {
            size = likely(&state, data);
        } else {
            size = 1 + next_random(&state) % 65;
            for (size_t j = 0; j < size; j++) data[j] = (uint8_t)next_random(&state);
        }
        call(&rack, data, size);
    }
    rackd_close(&rack);
    printf("%ld calls\n", calls);
    return 0;
}
#endif
