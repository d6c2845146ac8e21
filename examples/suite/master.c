/*
 * A DP master of class 1 for `python -m rackd suite`: a start for a program of your own. It uses C11 and POSIX sockets.
 *
 *     cc -std=c11 -O2 -o master examples/suite/master.c
 *     PYTHONPATH=python python3 -m rackd suite ./master
 *
 * It reads what README.md of this folder describes from its environment, connects to the bus, and serves each slave
 * once in each cycle, until SIGTERM ends it. To test a stack of your own, keep the part "Environment", connect your
 * stack to the port as `connect_bus` does, and put your stack in the place of the parts between them.
 */
#define _POSIX_C_SOURCE 200809L

#include <arpa/inet.h>
#include <netinet/in.h>
#include <netinet/tcp.h>
#include <poll.h>
#include <stdbool.h>
#include <stdint.h>
#include <stdio.h>
#include <stdlib.h>
#include <string.h>
#include <sys/socket.h>
#include <time.h>
#include <unistd.h>

/* How long a reply may take, how often a request is sent without one, and the pause behind a cycle. */
enum { SLOT_MS = 500, TRIES = 2, CYCLE_MS = 5 };
enum { MOST_SLAVES = 126, MOST_DATA = 244, MOST_OCTETS = 255, NOBODY = 255, ALL = 127 };

/* IEC 61158-4-3: delimiters, and the bits and functions of the frame control octet. */
enum { SD1 = 0x10, SD2 = 0x68, SC = 0xE5, ED = 0x16, EXTENSION = 0x80 };
enum { FCB = 0x20, FCV = 0x10, SRD = 0x4D, SDN = 0x46, UE = 1, RR = 2, RS = 3, DL = 8, DH = 10 };

/* IEC 61158-6-3: service access points, and the bits of a diagnosis, of Set_Prm and of Global_Control. */
enum { DEFAULT = 0, MASTER = 62, GLOBAL_CONTROL = 58, SLAVE_DIAG = 60, SET_PRM = 61, CHK_CFG = 62 };
enum { NOT_READY = 0x02, CFG_FAULT = 0x04, PRM_FAULT = 0x40, PRM_REQ = 0x01 };
enum { LOCK_REQ = 0x80, SYNC_REQ = 0x20, FREEZE_REQ = 0x10, WD_ON = 0x08, MIN_TSDR = 11 };
enum { CLEAR_DATA = 0x02, FREEZE = 0x08, SYNC = 0x20 };

struct octets {
    uint8_t of[MOST_OCTETS];
    size_t count;
};

struct slave {
    /* from the environment */
    uint8_t address, group;
    unsigned ident, watchdog_ms;
    bool sync, freeze, failsafe, mirror;
    struct octets cfg, user, outputs;
    /* whether data are exchanged with it, and how often they were */
    bool ready;
    long exchanges;
    /* whether it has replied since it was there, and the FCB of the next request then */
    bool known, fcb;
};

struct master {
    uint8_t address;
    long clear;
    bool in_clear;
    struct slave slaves[MOST_SLAVES];
    size_t count;
    int bus;
    struct octets input;
};

/* What came of a request: one of these, or data. */
enum answer { LOST, REFUSED, BUSY, DONE, DONE_DIAGNOSIS_DUE };

static void fail(const char *reason)
{
    fprintf(stderr, "master: %s\n", reason);
    exit(1);
}

static int64_t now_ms(void)
{
    struct timespec time;
    clock_gettime(CLOCK_MONOTONIC, &time);
    return (int64_t)time.tv_sec * 1000 + time.tv_nsec / 1000000;
}

static void append(struct octets *to, uint8_t octet)
{
    if (to->count == MOST_OCTETS)
        fail("a telegram is too long");
    to->of[to->count++] = octet;
}

static void append_all(struct octets *to, const struct octets *from)
{
    for (size_t i = 0; i < from->count; i++)
        append(to, from->of[i]);
}

/* ---- The bus: octets over TCP. A session begins with the address of the master, and E5 comes back. */

static void send_octets(struct master *m, const struct octets *octets)
{
    if (send(m->bus, octets->of, octets->count, MSG_NOSIGNAL) != (ssize_t)octets->count)
        fail("the bus has ended");
}

/* Appends what comes within a time to the input, and returns whether something came. */
static bool receive(struct master *m, int64_t ms)
{
    struct pollfd waiting = { .fd = m->bus, .events = POLLIN };
    size_t room = MOST_OCTETS - m->input.count;
    if (poll(&waiting, 1, ms > 0 ? (int)ms : 0) <= 0)
        return false;
    ssize_t came = recv(m->bus, m->input.of + m->input.count, room, 0);
    if (came <= 0)
        fail("the bus has ended");
    m->input.count += (size_t)came;
    return true;
}

static void drop(struct master *m, size_t count)
{
    m->input.count -= count;
    memmove(m->input.of, m->input.of + count, m->input.count);
}

static void connect_bus(struct master *m, uint16_t port)
{
    struct sockaddr_in to = { .sin_family = AF_INET, .sin_port = htons(port) };
    struct octets address = { { m->address }, 1 };
    int on = 1;
    to.sin_addr.s_addr = htonl(INADDR_LOOPBACK);
    m->bus = socket(AF_INET, SOCK_STREAM, 0);
    if (m->bus < 0 || connect(m->bus, (struct sockaddr *)&to, sizeof to) != 0)
        fail("cannot connect");
    setsockopt(m->bus, IPPROTO_TCP, TCP_NODELAY, &on, sizeof on);
    send_octets(m, &address);
    if (!receive(m, 10000) || m->input.of[0] != SC)
        fail("the bus does not accept this address");
    drop(m, 1);
}

/* ---- Telegrams (IEC 61158-4-3) */

static uint8_t check_sequence(const uint8_t *octets, size_t count)
{
    uint8_t sum = 0;
    while (count-- > 0)
        sum = (uint8_t)(sum + octets[count]);
    return sum;
}

/* Makes a request: an SD1 without data to the default point, and an SD2 for all others. */
static struct octets telegram_of(const struct master *m, uint8_t to, uint8_t function, int point,
                                 const struct octets *data)
{
    struct octets body = { .count = 0 }, whole = { .count = 0 };
    uint8_t extension = point == DEFAULT ? 0 : EXTENSION;
    append(&body, to | extension);
    append(&body, m->address | extension);
    append(&body, function);
    if (point != DEFAULT) {
        append(&body, (uint8_t)point);
        append(&body, MASTER);
    }
    append_all(&body, data);
    append(&whole, body.count == 3 ? SD1 : SD2);
    if (body.count > 3) {
        append(&whole, (uint8_t)body.count);
        append(&whole, (uint8_t)body.count);
        append(&whole, SD2);
    }
    append_all(&whole, &body);
    append(&whole, check_sequence(body.of, body.count));
    append(&whole, ED);
    return whole;
}

/* Returns how many octets the telegram has that the input begins with, 0 if more have to come, -1 if none begins. */
static int size_of_input(const struct octets *input)
{
    if (input->count == 0)
        return 0;
    switch (input->of[0]) {
    case SC:
        return 1;
    case SD1:
        return input->count < 6 ? 0 : 6;
    case SD2:
        if (input->count < 4)
            return 0;
        if (input->of[1] != input->of[2] || input->of[3] != SD2 || input->of[1] < 4 || input->of[1] > 249)
            return -1;
        return input->count < input->of[1] + 6u ? 0 : input->of[1] + 6;
    default:
        return -1;
    }
}

/*
 * Reads the telegram of this size as the reply of a slave from a point. Returns its function, and puts its data into
 * `data`; -1 if it is spoilt, or of another slave or point, as a late reply to an earlier request is.
 */
static int read_reply(const struct master *m, size_t size, uint8_t from, int point, struct octets *data)
{
    const uint8_t *octets = m->input.of;
    size_t begin = octets[0] == SD2 ? 4 : 1;
    data->count = 0;
    if (octets[0] == SC)
        return point == SLAVE_DIAG ? -1 : DL; /* no diagnosis is without data */
    if (octets[size - 2] != check_sequence(octets + begin, size - 2 - begin) || octets[size - 1] != ED)
        return -1;
    if ((octets[begin] & ~EXTENSION) != m->address || (octets[begin + 1] & ~EXTENSION) != from)
        return -1;
    bool extended = octets[begin] & octets[begin + 1] & EXTENSION;
    size_t next = begin + 3;
    if (octets[0] == SD2 && extended != (point != DEFAULT))
        return -1;
    if (extended) {
        if (size < next + 4 || octets[next] != MASTER || octets[next + 1] != point)
            return -1;
        next += 2;
    }
    while (next < size - 2)
        append(data, octets[next++]);
    return octets[begin + 2] & 0x0F;
}

/* Waits for the reply of a slave from a point. Returns its function, and -1 if none comes in time. */
static int await_reply(struct master *m, uint8_t from, int point, struct octets *data)
{
    int64_t until = now_ms() + SLOT_MS;
    for (;;) {
        int size = size_of_input(&m->input);
        if (size > 0) {
            int function = read_reply(m, (size_t)size, from, point, data);
            drop(m, (size_t)size);
            if (function >= 0)
                return function;
        } else if (size < 0) {
            drop(m, 1);
        } else if (!receive(m, until - now_ms()) && now_ms() >= until) {
            return -1;
        }
    }
}

/* Drops what is left of earlier replies. */
static void drain(struct master *m)
{
    do
        m->input.count = 0;
    while (receive(m, 0));
}

/* ---- Requests. The first one to a slave has FCV 0 and FCB 1; each new one behind a reply has the other FCB. */

/* Sends an SRD, and again as it was if no reply comes. The data of the reply are in `data`. */
static enum answer request(struct master *m, struct slave *s, int point, const struct octets *sent,
                           struct octets *data)
{
    uint8_t count = s->known ? (uint8_t)(FCV | (s->fcb ? FCB : 0)) : FCB;
    struct octets telegram = telegram_of(m, s->address, SRD | count, point, sent);
    for (int try = 0; try < TRIES; try++) {
        drain(m);
        send_octets(m, &telegram);
        int function = await_reply(m, s->address, point, data);
        if (function < 0)
            continue;
        s->fcb = s->known ? !s->fcb : false;
        s->known = true;
        if (function == RR)
            return BUSY;
        if (function != DL && function != DH)
            return REFUSED;
        return function == DH ? DONE_DIAGNOSIS_DUE : DONE;
    }
    s->known = false;
    return LOST;
}

static void global_control(struct master *m, uint8_t command, uint8_t group)
{
    struct octets data = { { command, group }, 2 };
    struct octets telegram = telegram_of(m, ALL, SDN, GLOBAL_CONTROL, &data);
    send_octets(m, &telegram);
}

/* ---- The master (IEC 61158-6-3) */

/* Finds two factors of the watchdog time in units of 10 ms. */
static void watchdog_factors(unsigned watchdog_ms, uint8_t *first, uint8_t *second)
{
    unsigned units = watchdog_ms / 10;
    for (unsigned factor = 1; factor <= 255; factor++) {
        if (units % factor == 0 && units / factor <= 255) {
            *first = (uint8_t)factor;
            *second = (uint8_t)(units / factor);
            return;
        }
    }
    fail("a watchdog time has no two factors");
}

static struct octets parameters_of(const struct slave *s)
{
    struct octets data = { .count = 0 };
    uint8_t first = 1, second = 1, status = LOCK_REQ;
    if (s->watchdog_ms > 0) {
        status |= WD_ON;
        watchdog_factors(s->watchdog_ms, &first, &second);
    }
    status |= (uint8_t)((s->sync ? SYNC_REQ : 0) | (s->freeze ? FREEZE_REQ : 0));
    append(&data, status);
    append(&data, first);
    append(&data, second);
    append(&data, MIN_TSDR);
    append(&data, (uint8_t)(s->ident >> 8));
    append(&data, (uint8_t)(s->ident & 0xFF));
    append(&data, s->group);
    append_all(&data, &s->user);
    return data;
}

/* Reads the diagnosis of a slave, at least six octets. */
static bool read_diagnosis(struct master *m, struct slave *s, struct octets *diagnosis)
{
    struct octets nothing = { .count = 0 };
    enum answer answer = request(m, s, SLAVE_DIAG, &nothing, diagnosis);
    return (answer == DONE || answer == DONE_DIAGNOSIS_DUE) && diagnosis->count >= 6;
}

/* Whether a slave with this diagnosis is in data exchange with this master. */
static bool is_ready(const struct master *m, const struct octets *diagnosis)
{
    bool faulty = diagnosis->of[0] & (NOT_READY | CFG_FAULT | PRM_FAULT) || diagnosis->of[1] & PRM_REQ;
    return !faulty && diagnosis->of[3] == m->address;
}

/* Brings a slave up if it is the configured one and no other master holds it. Returns whether it is ready. */
static bool bring_up(struct master *m, struct slave *s)
{
    struct octets diagnosis, reply, parameters = parameters_of(s);
    if (!read_diagnosis(m, s, &diagnosis))
        return false;
    bool is_other = diagnosis.of[3] != NOBODY && diagnosis.of[3] != m->address;
    if (is_other || (unsigned)(diagnosis.of[4] << 8 | diagnosis.of[5]) != s->ident)
        return false;
    if (is_ready(m, &diagnosis))
        return true;
    if (request(m, s, SET_PRM, &parameters, &reply) != DONE || request(m, s, CHK_CFG, &s->cfg, &reply) != DONE)
        return false;
    return read_diagnosis(m, s, &diagnosis) && is_ready(m, &diagnosis);
}

/* Returns the next outputs of a slave: in Clear zeros, and for a fail-safe slave no octets. */
static struct octets outputs_of(const struct master *m, const struct slave *s)
{
    struct octets cleared = { .count = s->failsafe ? 0 : s->outputs.count };
    return m->in_clear ? cleared : s->outputs;
}

/* Exchanges data with a slave, and reads its diagnosis if one is due. */
static void exchange(struct master *m, struct slave *s)
{
    struct octets inputs, diagnosis, outputs = outputs_of(m, s);
    enum answer answer = request(m, s, DEFAULT, &outputs, &inputs);
    if (answer == LOST || answer == REFUSED)
        s->ready = false;
    if (answer != DONE && answer != DONE_DIAGNOSIS_DUE)
        return;
    s->exchanges++;
    if (s->mirror && inputs.count == s->outputs.count)
        s->outputs = inputs;
    if (answer == DONE_DIAGNOSIS_DUE)
        s->ready = read_diagnosis(m, s, &diagnosis) && is_ready(m, &diagnosis);
}

/* Sends the mode: Clear, or Operate once each slave has had its exchanges in Clear. */
static void send_mode(struct master *m)
{
    bool any_ready = false, all_cleared = true;
    for (size_t i = 0; i < m->count; i++) {
        any_ready = any_ready || m->slaves[i].ready;
        all_cleared = all_cleared && m->slaves[i].exchanges >= m->clear;
    }
    if (!m->in_clear || !any_ready)
        return;
    m->in_clear = !all_cleared;
    global_control(m, m->in_clear ? CLEAR_DATA : 0, 0);
}

static void cycle(struct master *m)
{
    struct timespec pause = { .tv_nsec = CYCLE_MS * 1000000L };
    send_mode(m);
    for (size_t i = 0; i < m->count; i++) {
        struct slave *s = &m->slaves[i];
        if (s->ready)
            exchange(m, s);
        else
            s->ready = bring_up(m, s);
    }
    for (size_t i = 0; i < m->count; i++) {
        const struct slave *s = &m->slaves[i];
        if (s->ready && (s->sync || s->freeze))
            global_control(m, (uint8_t)((s->sync ? SYNC : 0) | (s->freeze ? FREEZE : 0)), s->group);
    }
    nanosleep(&pause, NULL);
}

/* ---- Environment */

static const char *variable(const char *name)
{
    const char *text = getenv(name);
    if (text == NULL) {
        fprintf(stderr, "master: %s is missing\n", name);
        exit(2);
    }
    return text;
}

/* Returns the variable RACKD_SLAVE_A_NAME of a slave. */
static const char *key(uint8_t address, const char *name)
{
    char full[64];
    snprintf(full, sizeof full, "RACKD_SLAVE_%u_%s", address, name);
    return variable(full);
}

static long number(const char *text)
{
    return strtol(text, NULL, 10);
}

/* Reads pairs of hex digits. */
static struct octets octets_of(const char *text)
{
    struct octets octets = { .count = 0 };
    for (; text[0] != '\0' && text[1] != '\0'; text += 2) {
        char pair[3] = { text[0], text[1], '\0' };
        if (octets.count == MOST_DATA)
            fail("a variable has too many octets");
        append(&octets, (uint8_t)strtoul(pair, NULL, 16));
    }
    return octets;
}

static struct slave slave_of(uint8_t address)
{
    return (struct slave) {
        .address = address,
        .ident = (unsigned)number(key(address, "IDENT")),
        .group = (uint8_t)number(key(address, "GROUP")),
        .watchdog_ms = (unsigned)number(key(address, "WATCHDOG_MS")),
        .sync = number(key(address, "SYNC")) != 0,
        .freeze = number(key(address, "FREEZE")) != 0,
        .failsafe = number(key(address, "FAILSAFE")) != 0,
        .mirror = number(key(address, "MIRROR")) != 0,
        .cfg = octets_of(key(address, "CFG")),
        .user = octets_of(key(address, "USER")),
        .outputs = octets_of(key(address, "OUTPUTS")),
    };
}

int main(void)
{
    static struct master m;
    const char *addresses = variable("RACKD_SLAVE_ADDRESSES");
    char *end;
    m.address = (uint8_t)number(variable("RACKD_ADDRESS"));
    m.clear = number(variable("RACKD_CLEAR"));
    m.in_clear = m.clear > 0;
    for (long address = strtol(addresses, &end, 10); end != addresses; address = strtol(addresses, &end, 10)) {
        if (m.count == MOST_SLAVES)
            fail("too many slaves");
        m.slaves[m.count++] = slave_of((uint8_t)address);
        addresses = end;
    }
    connect_bus(&m, (uint16_t)number(variable("RACKD_PORT")));
    for (;;)
        cycle(&m);
}
