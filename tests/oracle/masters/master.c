/*
 * A PROFIBUS DP master of class 1 in C, for a line of a rack that is served.
 *
 * README.md in this folder gives its words, its environment and what it writes. The code uses C11 and POSIX only, and shares
 * nothing with the rest of the repository. Build it with: cc -O2 -Wall -o master master.c
 */
#define _POSIX_C_SOURCE 200809L

#include <arpa/inet.h>
#include <errno.h>
#include <netinet/in.h>
#include <netinet/tcp.h>
#include <poll.h>
#include <signal.h>
#include <stdbool.h>
#include <stdint.h>
#include <stdio.h>
#include <stdlib.h>
#include <string.h>
#include <sys/socket.h>
#include <time.h>
#include <unistd.h>

enum {
    MAX_SLAVES = 64,
    MAX_WORDS = 128,
    MAX_TELEGRAM = 255,
    MAX_RETRIES = 3,
    PACE_MS = 20,            /* between two requests to a slave that does not exchange data */
    CONTROL_CYCLES = 10,     /* a Global_Control follows once in this number of cycles */
    GAP_CYCLES = 40,         /* one address is polled by FDL status once in this number of cycles */
    GAP_SLOT_MS = 10,
    FOR_EVER = 1000000000,   /* seconds until the end of a master that only SIGTERM ends */
    SHORTEST_PRM = 7         /* octets of Set_Prm without user parameters */
};

/* IEC 61158-4-3: delimiters, bits and functions of the frame control octet. */
enum { SD1 = 0x10, SD2 = 0x68, SD3 = 0xA2, SC = 0xE5, ED = 0x16 };
enum { FC_REQUEST = 0x40, FC_FCB = 0x20, FC_FCV = 0x10, FC_SDN_HIGH = 6, FC_FDL_STATUS = 9, FC_SRD_HIGH = 13 };
enum { EXTENSION = 0x80, GLOBAL_ADDRESS = 127, NO_HOLDER = 255 };

/* IEC 61158-6-3: service access points. */
enum { SAP_DEFAULT = -1, SAP_GLOBAL_CONTROL = 58, SAP_DIAG = 60, SAP_PRM = 61, SAP_CFG = 62, SAP_MASTER = 62 };

/* What a request ended with: the function of the reply, or one of the first three. */
enum result { LINE_ENDED = -3, LOST = -2, ACKNOWLEDGED = -1, REPLY_OK = 0, REPLY_UE = 1, REPLY_RR = 2, REPLY_RS = 3,
              REPLY_DL = 8, REPLY_DH = 10 };

enum state { ASK, PARAMETERS, CONFIGURATION, CONFIRM, EXCHANGE, REPORTED, WRONG_SLAVE };

struct slave {
    /* as configured */
    uint8_t address, groups;
    uint16_t ident;
    uint8_t cfg[244], user[237], outputs[244];
    size_t cfg_length, user_length, output_length;
    unsigned watchdog_ms;
    bool given;              /* the outputs are those of the environment, and do not count */
    bool mirror;             /* the next outputs are the inputs */
    bool failsafe;           /* in Clear the outputs have no octets */
    /* on this connection */
    enum state state;
    bool known;              /* the slave answered a request, and FCV is 1 */
    bool count_bit;
    int64_t not_before;
    /* over all connections */
    unsigned long exchanges, starts, diagnoses, retries, losses;
};

struct master {
    uint16_t port;
    uint8_t address, sync, freeze, min_tsdr;
    bool unlock;
    int64_t deadline, slot, cycle;
    unsigned long exchanges; /* 0: until the deadline */
    unsigned long clear;     /* how many exchanges with each slave are in Clear */
    bool in_clear;
    struct slave slaves[MAX_SLAVES];
    size_t count;
    int socket;
    uint8_t input[4096];
    size_t filled;
    bool disturbed;          /* replies to earlier requests may still come */
    unsigned long strays;
    uint8_t gap;
};

struct reply {
    uint8_t data[246];
    size_t length;
};

static volatile sig_atomic_t stopped;

static void stop(int number)
{
    (void)number;
    stopped = 1;
}

static int64_t now(void)
{
    struct timespec t;
    clock_gettime(CLOCK_MONOTONIC, &t);
    return (int64_t)t.tv_sec * 1000 + t.tv_nsec / 1000000;
}

static void rest(int64_t ms)
{
    struct timespec t = { .tv_sec = ms / 1000, .tv_nsec = ms % 1000 * 1000000 };
    nanosleep(&t, NULL);
}

static uint8_t check_sum(const uint8_t *octets, size_t length)
{
    uint8_t sum = 0;
    while (length--)
        sum += *octets++;
    return sum;
}

/* Octets of the line */

static bool send_all(struct master *m, const uint8_t *octets, size_t length)
{
    while (length > 0) {
        ssize_t n = send(m->socket, octets, length, MSG_NOSIGNAL);
        if (n < 0 && errno == EINTR)
            continue;
        if (n <= 0)
            return false;
        octets += n;
        length -= (size_t)n;
    }
    return true;
}

/* Waits for octets, and appends what came. Returns false if the line has ended. */
static bool receive(struct master *m, int64_t ms, bool *came)
{
    struct pollfd p = { .fd = m->socket, .events = POLLIN };
    *came = false;
    if (poll(&p, 1, ms < 0 ? 0 : (int)ms) <= 0)
        return true;
    ssize_t n = recv(m->socket, m->input + m->filled, sizeof m->input - m->filled, 0);
    if (n < 0 && errno == EINTR)
        return true;
    if (n <= 0)
        return false;
    m->filled += (size_t)n;
    *came = true;
    return true;
}

static void consume(struct master *m, size_t length)
{
    m->filled -= length;
    memmove(m->input, m->input + length, m->filled);
}

/* Drops what came too late. */
static bool drain(struct master *m)
{
    bool came = true;
    bool any = m->filled > 0;
    while (came) {
        m->filled = 0;
        if (!receive(m, 0, &came))
            return false;
        any = any || came;
    }
    if (any)
        m->strays++;
    return true;
}

/* The length of the telegram at the front of the input: 0 if more octets are needed, -1 if none begins here. */
static int telegram_length(const struct master *m, size_t *body)
{
    const uint8_t *in = m->input;
    *body = 1;
    if (m->filled == 0)
        return 0;
    switch (in[0]) {
    case SC:
        return 1;
    case SD1:
        return m->filled < 6 ? 0 : 6;
    case SD3:
        return m->filled < 14 ? 0 : 14;
    case SD2:
        if (m->filled < 4)
            return 0;
        if (in[1] != in[2] || in[3] != SD2 || in[1] < 4 || in[1] > 249)
            return -1;
        *body = 4;
        return m->filled < in[1] + 6u ? 0 : in[1] + 6;
    default:
        return -1;
    }
}

/* The function of the telegram, if it is the reply of this station from this point; LOST if it is another telegram. */
static enum result accept_reply(const struct master *m, const uint8_t *body, size_t length, int station, int sap,
                                struct reply *reply)
{
    if (body[length] != check_sum(body, length) || body[length + 1] != ED)
        return LOST;
    if ((body[0] & 0x7F) != m->address || (body[1] & 0x7F) != station || body[2] > 0x0F)
        return LOST;
    const uint8_t *data = body + 3;
    size_t left = length - 3;
    bool extended = (body[0] & EXTENSION) && (body[1] & EXTENSION);
    if (!extended && ((body[0] | body[1]) & EXTENSION))
        return LOST;
    if (extended) {
        if (sap == SAP_DEFAULT || left < 2 || data[0] != SAP_MASTER || data[1] != sap)
            return LOST;
        data += 2;
        left -= 2;
    } else if (sap != SAP_DEFAULT && left > 0) {
        return LOST;
    }
    memcpy(reply->data, data, left);
    reply->length = left;
    return (enum result)body[2];
}

/* Waits for the reply of the station within the slot time. */
static enum result await_reply(struct master *m, int station, int sap, int64_t slot, struct reply *reply)
{
    int64_t last = now() + slot;
    for (;;) {
        size_t body;
        int length = telegram_length(m, &body);
        if (length < 0) {
            consume(m, 1);
        } else if (length == 1) {
            consume(m, 1);
            reply->length = 0;
            return ACKNOWLEDGED;
        } else if (length > 1) {
            enum result result = accept_reply(m, m->input + body, (size_t)length - body - 2, station, sap, reply);
            consume(m, (size_t)length);
            if (result != LOST)
                return result;
            m->strays++;
        } else {
            bool came;
            if (!receive(m, last - now(), &came))
                return LINE_ENDED;
            if (!came && now() >= last)
                return LOST;
        }
    }
}

static size_t build(const struct master *m, uint8_t *telegram, int station, int function, int sap, const uint8_t *data,
                    size_t length)
{
    uint8_t extension = sap == SAP_DEFAULT ? 0 : EXTENSION;
    bool short_form = sap == SAP_DEFAULT && length == 0;
    uint8_t *body = telegram + (short_form ? 1 : 4);
    uint8_t *end = body;
    *end++ = (uint8_t)(station | extension);
    *end++ = m->address | extension;
    *end++ = (uint8_t)(FC_REQUEST | function);
    if (extension) {
        *end++ = (uint8_t)sap;
        *end++ = SAP_MASTER;
    }
    if (length > 0)
        memcpy(end, data, length);
    end += length;
    size_t whole = (size_t)(end - body);
    telegram[0] = short_form ? SD1 : SD2;
    if (!short_form) {
        telegram[1] = telegram[2] = (uint8_t)whole;
        telegram[3] = SD2;
    }
    *end++ = check_sum(body, whole);
    *end++ = ED;
    return (size_t)(end - telegram);
}

/* Sends a new SRD, and again with the same FCB if no reply comes. LOST: the slave's next request is a first one again. */
static enum result request(struct master *m, struct slave *s, int sap, const uint8_t *data, size_t length,
                           struct reply *reply)
{
    uint8_t telegram[MAX_TELEGRAM];
    int count = s->known ? FC_FCV | (s->count_bit ? FC_FCB : 0) : FC_FCB;
    size_t size = build(m, telegram, s->address, FC_SRD_HIGH | count, sap, data, length);
    int retries = s->known ? MAX_RETRIES : 0;
    if (m->disturbed) {
        rest(m->slot / 4);
        m->disturbed = false;
    }
    for (int sent = 0; sent <= retries; sent++) {
        if (!drain(m))
            return LINE_ENDED;
        if (sent > 0) {
            s->retries++;
            m->disturbed = true;
        }
        if (!send_all(m, telegram, size))
            return LINE_ENDED;
        enum result result = await_reply(m, s->address, sap, m->slot, reply);
        if (result == LOST)
            continue;
        if (result != LINE_ENDED) {
            s->count_bit = s->known ? !s->count_bit : false;
            s->known = true;
        }
        return result;
    }
    if (s->known) {
        s->losses++;
        m->disturbed = true;
    }
    s->known = false;
    return LOST;
}

static bool global_control(struct master *m, uint8_t command, uint8_t groups)
{
    uint8_t telegram[MAX_TELEGRAM];
    uint8_t data[2] = { command, groups };
    size_t size = build(m, telegram, GLOBAL_ADDRESS, FC_SDN_HIGH, SAP_GLOBAL_CONTROL, data, sizeof data);
    return drain(m) && send_all(m, telegram, size);
}

/* The life of a slave */

static void go(struct slave *s, enum state state, int64_t wait)
{
    s->state = state;
    s->not_before = now() + wait;
}

static size_t parameters(const struct master *m, const struct slave *s, uint8_t *octets)
{
    unsigned first = 0, second = 0;
    octets[0] = 0x80;
    if (s->groups & m->sync)
        octets[0] |= 0x20;
    if (s->groups & m->freeze)
        octets[0] |= 0x10;
    if (s->watchdog_ms > 0) {
        unsigned units = (s->watchdog_ms + 9) / 10;
        octets[0] |= 0x08;
        for (first = 1; (units + first - 1) / first > 255; first++)
            ;
        second = (units + first - 1) / first;
    }
    octets[1] = (uint8_t)first;
    octets[2] = (uint8_t)second;
    octets[3] = m->min_tsdr;
    octets[4] = (uint8_t)(s->ident >> 8);
    octets[5] = (uint8_t)(s->ident & 0xFF);
    octets[6] = s->groups;
    memcpy(octets + SHORTEST_PRM, s->user, s->user_length);
    return SHORTEST_PRM + s->user_length;
}

/* The outputs of the next Data_Exchange: those of the environment, or octets that count. In Clear they are zeros. */
static size_t outputs(const struct master *m, const struct slave *s, uint8_t *octets)
{
    if (m->in_clear && s->failsafe)
        return 0;
    if (m->in_clear)
        memset(octets, 0, s->output_length);
    else if (s->given)
        memcpy(octets, s->outputs, s->output_length);
    else
        memset(octets, (int)(s->exchanges & 0xFF), s->output_length);
    return s->output_length;
}

/* What follows a diagnosis; it depends on who holds the slave, and on whether it exchanges data. */
static void diagnosed(const struct master *m, struct slave *s, const struct reply *reply)
{
    const uint8_t *d = reply->data;
    bool mine = d[3] == m->address;
    bool running = !(d[0] & 0x02) && !(d[1] & 0x01);
    bool faulty = (d[0] & 0x54) != 0;
    s->diagnoses++;
    if (s->state == WRONG_SLAVE) {
        go(s, WRONG_SLAVE, PACE_MS);
    } else if (!mine && d[3] != NO_HOLDER) {
        go(s, ASK, PACE_MS);
    } else if (s->state == ASK) {
        go(s, PARAMETERS, 0);
    } else if (mine && running && (s->state == REPORTED || !faulty)) {
        if (s->state == CONFIRM)
            s->starts++;
        go(s, EXCHANGE, 0);
    } else if (mine && !faulty && s->state == CONFIRM) {
        go(s, CONFIRM, PACE_MS);
    } else {
        /* The slave waits for parameters: this diagnosis is the one before Set_Prm. */
        go(s, PARAMETERS, PACE_MS);
    }
}

/* Sends the request of the slave's state. Returns false if the line has ended. */
static bool turn(struct master *m, struct slave *s)
{
    uint8_t octets[244];
    struct reply reply = { .length = 0 };
    enum result result;
    switch (s->state) {
    case PARAMETERS:
        result = request(m, s, SAP_PRM, octets, parameters(m, s, octets), &reply);
        break;
    case CONFIGURATION:
        result = request(m, s, SAP_CFG, s->cfg, s->cfg_length, &reply);
        break;
    case EXCHANGE:
        result = request(m, s, SAP_DEFAULT, octets, outputs(m, s, octets), &reply);
        break;
    case ASK:
    case CONFIRM:
    case REPORTED:
    case WRONG_SLAVE:
    default:
        result = request(m, s, SAP_DIAG, NULL, 0, &reply);
        break;
    }
    if (result == LINE_ENDED)
        return false;
    if (result == LOST) {
        go(s, ASK, PACE_MS);
        return true;
    }
    if (result == REPLY_RR) {
        go(s, s->state, PACE_MS);
        return true;
    }
    switch (s->state) {
    case PARAMETERS:
        go(s, result == ACKNOWLEDGED ? CONFIGURATION : ASK, result == ACKNOWLEDGED ? 0 : PACE_MS);
        return true;
    case CONFIGURATION:
        go(s, result == ACKNOWLEDGED ? CONFIRM : ASK, result == ACKNOWLEDGED ? 0 : PACE_MS);
        return true;
    case EXCHANGE:
        if (result == REPLY_RS) {
            go(s, ASK, 0);
        } else if (result == REPLY_UE) {
            /* The slave does not take this number of octets: the master's configuration is wrong. */
            go(s, WRONG_SLAVE, PACE_MS);
        } else {
            s->exchanges++;
            if (s->mirror && reply.length == s->output_length)
                memcpy(s->outputs, reply.data, reply.length);
            if (result == REPLY_DH) {
                go(s, REPORTED, 0);
                return turn(m, s);
            }
        }
        return true;
    default:
        if ((result == REPLY_DL || result == REPLY_DH) && reply.length >= 6)
            diagnosed(m, s, &reply);
        else
            go(s, s->state, PACE_MS);
        return true;
    }
}

/* The cycle */

static bool finished(const struct master *m)
{
    if (stopped || now() >= m->deadline)
        return true;
    if (m->exchanges == 0)
        return false;
    for (size_t i = 0; i < m->count; i++)
        if (m->slaves[i].exchanges < m->exchanges)
            return false;
    return true;
}

static bool active(const struct slave *s)
{
    return s->state == EXCHANGE || s->state == REPORTED;
}

/* Sends the commands to the groups, if a slave of them exchanges data. */
static bool control(struct master *m, uint8_t sync, uint8_t freeze)
{
    uint8_t groups = 0;
    for (size_t i = 0; i < m->count; i++)
        if (active(&m->slaves[i]))
            groups |= m->slaves[i].groups;
    bool synced = (groups & m->sync) != 0;
    bool frozen = (groups & m->freeze) != 0;
    if (synced && frozen && m->sync == m->freeze)
        return global_control(m, sync | freeze, m->sync);
    return (!synced || global_control(m, sync, m->sync)) && (!frozen || global_control(m, freeze, m->freeze));
}

/* Sends the mode while the master is in Clear: it is Operate once each slave has had its exchanges in Clear. */
static bool send_mode(struct master *m)
{
    bool any_active = false, all_cleared = true;
    for (size_t i = 0; i < m->count; i++) {
        any_active = any_active || active(&m->slaves[i]);
        all_cleared = all_cleared && m->slaves[i].exchanges >= m->clear;
    }
    if (!m->in_clear || !any_active)
        return true;
    m->in_clear = !all_cleared;
    return global_control(m, m->in_clear ? 0x02 : 0x00, 0);
}

/* Looks whether a station answers at the next address that is no slave of this master. */
static bool poll_gap(struct master *m)
{
    bool own = true;
    while (own) {
        m->gap = m->gap >= 126 ? 0 : m->gap + 1;
        own = m->gap == m->address;
        for (size_t i = 0; i < m->count; i++)
            own = own || m->slaves[i].address == m->gap;
    }
    uint8_t telegram[MAX_TELEGRAM];
    struct reply reply;
    size_t size = build(m, telegram, m->gap, FC_FDL_STATUS, SAP_DEFAULT, NULL, 0);
    return drain(m) && send_all(m, telegram, size)
        && await_reply(m, m->gap, SAP_DEFAULT, GAP_SLOT_MS, &reply) != LINE_ENDED;
}

static bool serve(struct master *m)
{
    for (size_t i = 0; i < m->count; i++) {
        m->slaves[i].known = false;
        go(&m->slaves[i], ASK, 0);
    }
    for (unsigned long cycle = 1; !finished(m); cycle++) {
        if (!send_mode(m))
            return false;
        for (size_t i = 0; i < m->count; i++)
            if (now() >= m->slaves[i].not_before && !turn(m, &m->slaves[i]))
                return false;
        if (cycle % CONTROL_CYCLES == 0 && !control(m, 0x20, 0x08))
            return false;
        if (cycle % GAP_CYCLES == 0 && !poll_gap(m))
            return false;
        rest(m->cycle);
    }
    return true;
}

static void leave(struct master *m)
{
    if (!control(m, 0x10, 0x04) || !m->unlock)
        return;
    for (size_t i = 0; i < m->count; i++) {
        struct slave *s = &m->slaves[i];
        struct reply reply;
        uint8_t octets[244];
        if (!active(s))
            continue;
        parameters(m, s, octets);
        octets[0] = 0x40;
        octets[1] = octets[2] = 0;
        if (request(m, s, SAP_PRM, octets, SHORTEST_PRM, &reply) == LINE_ENDED)
            return;
    }
}

/* Connects to the line; returns false if it does not accept the master now. */
static bool connect_line(struct master *m)
{
    struct sockaddr_in to = { .sin_family = AF_INET, .sin_port = htons(m->port) };
    int on = 1;
    bool came;
    to.sin_addr.s_addr = htonl(INADDR_LOOPBACK);
    m->socket = socket(AF_INET, SOCK_STREAM, 0);
    if (m->socket < 0)
        return false;
    setsockopt(m->socket, IPPROTO_TCP, TCP_NODELAY, &on, sizeof on);
    m->filled = 0;
    m->disturbed = false;
    if (connect(m->socket, (struct sockaddr *)&to, sizeof to) == 0 && send_all(m, &m->address, 1)
        && receive(m, 10000, &came) && m->filled == 1 && m->input[0] == SC) {
        m->filled = 0;
        return true;
    }
    close(m->socket);
    return false;
}

static int report(const struct master *m)
{
    int status = 0;
    for (size_t i = 0; i < m->count; i++) {
        const struct slave *s = &m->slaves[i];
        printf("slave %u exchanges %lu starts %lu diagnoses %lu retries %lu losses %lu\n", s->address, s->exchanges,
               s->starts, s->diagnoses, s->retries, s->losses);
        if (s->exchanges < (m->exchanges ? m->exchanges : 1))
            status = 1;
    }
    printf("master %u strays %lu\n", m->address, m->strays);
    return status;
}

/* Words */

static void usage(const char *what)
{
    fprintf(stderr, "master: %s\nmaster PORT ADDRESS SLAVE.. [--seconds S] [--exchanges N] [--sync GROUPS] [--freeze GROUPS]"
            " [--unlock] [--min-tsdr N] [--slot MS] [--cycle MS]\n", what);
    exit(2);
}

static unsigned long number(const char *word, int base, unsigned long most)
{
    char *end;
    errno = 0;
    unsigned long value = strtoul(word, &end, base);
    if (errno != 0 || end == word || *end != '\0' || value > most)
        usage(word);
    return value;
}

static size_t hex_octets(const char *word, uint8_t *octets, size_t most)
{
    size_t length = strlen(word);
    if (strcmp(word, "-") == 0)
        return 0;
    if (length % 2 != 0 || length / 2 > most)
        usage(word);
    for (size_t i = 0; i < length / 2; i++) {
        char pair[3] = { word[2 * i], word[2 * i + 1], '\0' };
        octets[i] = (uint8_t)number(pair, 16, 255);
    }
    return length / 2;
}

static void add_slave(struct master *m, const char *word)
{
    char copy[1024];
    char *parts[6];
    size_t count = 0;
    if (m->count == MAX_SLAVES || strlen(word) >= sizeof copy)
        usage(word);
    strcpy(copy, word);
    for (char *part = strtok(copy, ":"); part != NULL && count < 6; part = strtok(NULL, ":"))
        parts[count++] = part;
    if (count != 6)
        usage(word);
    struct slave *s = &m->slaves[m->count++];
    s->address = (uint8_t)number(parts[0], 10, 126);
    s->ident = (uint16_t)number(parts[1], 16, 0xFFFF);
    s->cfg_length = hex_octets(parts[2], s->cfg, sizeof s->cfg);
    s->output_length = number(parts[3], 10, 244);
    s->watchdog_ms = (unsigned)number(parts[4], 10, 650250);
    s->groups = (uint8_t)number(parts[5], 16, 255);
}

static void add_option(struct master *m, const char *name, const char *value, double *seconds)
{
    if (value == NULL)
        usage(name);
    if (strcmp(name, "--seconds") == 0)
        *seconds = strtod(value, NULL);
    else if (strcmp(name, "--exchanges") == 0)
        m->exchanges = number(value, 10, 1000000000);
    else if (strcmp(name, "--sync") == 0)
        m->sync = (uint8_t)number(value, 16, 255);
    else if (strcmp(name, "--freeze") == 0)
        m->freeze = (uint8_t)number(value, 16, 255);
    else if (strcmp(name, "--min-tsdr") == 0)
        m->min_tsdr = (uint8_t)number(value, 10, 255);
    else if (strcmp(name, "--slot") == 0)
        m->slot = (int64_t)number(value, 10, 60000);
    else if (strcmp(name, "--cycle") == 0)
        m->cycle = (int64_t)number(value, 10, 60000);
    else
        usage(name);
}

static size_t split(char *text, char **words, size_t most)
{
    size_t count = 0;
    for (char *word = strtok(text, " \t\n"); word != NULL && count < most; word = strtok(NULL, " \t\n"))
        words[count++] = word;
    return count;
}

/* The environment: that of a master under test of the suite, and MASTER_OPTIONS. */

static const char *variable(const char *name)
{
    const char *text = getenv(name);
    if (text == NULL)
        usage(name);
    return text;
}

static const char *key(unsigned long address, const char *name)
{
    char full[64];
    snprintf(full, sizeof full, "RACKD_SLAVE_%lu_%s", address, name);
    return variable(full);
}

/* Adds a slave. Its modes are those of its groups. */
static void slave_of_environment(struct master *m, unsigned long address)
{
    struct slave *s = &m->slaves[m->count++];
    s->address = (uint8_t)address;
    s->ident = (uint16_t)number(key(address, "IDENT"), 10, 0xFFFF);
    s->groups = (uint8_t)number(key(address, "GROUP"), 10, 255);
    s->watchdog_ms = (unsigned)number(key(address, "WATCHDOG_MS"), 10, 650250);
    s->cfg_length = hex_octets(key(address, "CFG"), s->cfg, sizeof s->cfg);
    s->user_length = hex_octets(key(address, "USER"), s->user, sizeof s->user);
    s->output_length = hex_octets(key(address, "OUTPUTS"), s->outputs, sizeof s->outputs);
    s->given = true;
    s->mirror = number(key(address, "MIRROR"), 10, 1);
    s->failsafe = number(key(address, "FAILSAFE"), 10, 1);
    if (number(key(address, "SYNC"), 10, 1))
        m->sync |= s->groups;
    if (number(key(address, "FREEZE"), 10, 1))
        m->freeze |= s->groups;
}

/* Reads all that is not an option, and returns how many words the options have. */
static size_t environment(struct master *m, char **words)
{
    char *addresses[MAX_SLAVES], text[1024], *options = getenv("MASTER_OPTIONS");
    m->port = (uint16_t)number(variable("RACKD_PORT"), 10, 65535);
    m->address = (uint8_t)number(variable("RACKD_ADDRESS"), 10, 126);
    m->clear = number(variable("RACKD_CLEAR"), 10, 1000000000);
    m->in_clear = m->clear > 0;
    snprintf(text, sizeof text, "%s", variable("RACKD_SLAVE_ADDRESSES"));
    size_t count = split(text, addresses, MAX_SLAVES);
    for (size_t i = 0; i < count; i++)
        slave_of_environment(m, number(addresses[i], 10, 126));
    return options == NULL ? 0 : split(options, words, MAX_WORDS);
}

int main(int argc, char **argv)
{
    static struct master m = { .min_tsdr = 11, .slot = 100, .cycle = 5 };
    static char *from_environment[MAX_WORDS];
    char **words = argv + 1;
    size_t count = (size_t)argc - 1;
    size_t plain = 0;
    double seconds = -1;
    bool by_environment = argc < 2;
    if (by_environment) {
        words = from_environment;
        count = environment(&m, words);
    }
    for (size_t i = 0; i < count; i++) {
        if (strcmp(words[i], "--unlock") == 0) {
            m.unlock = true;
        } else if (strncmp(words[i], "--", 2) == 0) {
            add_option(&m, words[i], i + 1 < count ? words[i + 1] : NULL, &seconds);
            i++;
        } else {
            if (plain == 0)
                m.port = (uint16_t)number(words[i], 10, 65535);
            else if (plain == 1)
                m.address = (uint8_t)number(words[i], 10, 126);
            else
                add_slave(&m, words[i]);
            plain++;
        }
    }
    if (m.count == 0)
        usage("a port, an address and slaves are needed");
    if (seconds < 0)
        seconds = m.exchanges ? 30 : by_environment ? FOR_EVER : 2;
    m.deadline = now() + (int64_t)(seconds * 1000);
    struct sigaction action = { .sa_handler = stop };
    sigaction(SIGTERM, &action, NULL);
    while (!finished(&m)) {
        if (!connect_line(&m)) {
            rest(100);
            continue;
        }
        if (serve(&m))
            leave(&m);
        close(m.socket);
    }
    return report(&m);
}
