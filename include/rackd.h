/* rackd in process: the simulated PROFIBUS DP slaves of a rack, called by a program in C.
 *
 * No function starts a thread, waits, reads a clock or a file, or writes anything but what its pointers name. The same
 * calls give the same answers, in each process and on each machine. Only rackd_open, rackd_cause and rackd_why take memory
 * (malloc), and the last two have freed it when they return.
 *
 * What a caller owes, since nothing can check it:
 * - Each pointer is valid for the number of octets beside it, and not null, also if that number is 0. What one pointer
 *   of a call names does not overlap with what another names.
 * - A rackd_rack is changed by these functions only, and never copied: a copy is a second owner.
 * - Two calls with one rack never run at the same time. Different racks are independent, and each may have a thread of its
 *   own. A rack may move from one thread to another between two calls, if a lock, the start or the end of a thread, or an
 *   atomic orders the two.
 *
 * The functions at the end of this header also check whether the rack is open: a call with a closed rack returns RACKD_CLOSED
 * and sets nothing, rackd_open of an open rack returns RACKD_IS_OPEN, and rackd_close of a closed one does nothing. A program
 * that calls the functions of the library without this header checks it itself.
 */
#ifndef RACKD_H
#define RACKD_H

#include <stdbool.h>
#include <stddef.h>
#include <stdint.h>

#ifdef __cplusplus
extern "C" {
#endif

#define RACKD_VERSION "0.2.0"

/* What a call returns. After any but RACKD_OK no line of the rack has changed, except after RACKD_SHORT_ROOM of
 * rackd_operate. */
enum {
    RACKD_OK = 0,
    RACKD_OUT_OF_MEMORY = 1,
    RACKD_NOT_TOML = 2,    /* the rack text is not TOML, or not UTF-8 */
    RACKD_BAD_KEY = 3,     /* a key of it is unknown, missing or out of range: rackd_cause gives the place and the cause */
    RACKD_TWICE_LINE = 4,  /* two lines of it have one number */
    RACKD_NO_RACK = 5,     /* a line of it cannot be opened: `rackd check` names the reason */
    RACKD_NO_LINE = 6,     /* the rack has no line of this number */
    RACKD_NO_MASTER = 7,   /* the line has no such master */
    RACKD_NO_FRAME = 8,    /* the octets are not one whole frame: nothing is recorded */
    RACKD_NO_COMMAND = 9,  /* the octets are no line of an operator */
    RACKD_NO_ENTRY = 10,   /* the journal has no entry at this place, or an endless line has forgotten it */
    RACKD_SHORT_ROOM = 11, /* there is no room for the reply, the answer, the row or the sentence */
    RACKD_CLOSED = 12,     /* the rack is closed */
    RACKD_IS_OPEN = 13     /* the rack is open already */
};

/* What rackd_next sets `piece` to. 1 to 3 are octets that are no frame and are dropped. */
enum {
    RACKD_NO_PIECE = 0,  /* the octets of the stream cannot be judged yet */
    RACKD_NO_START = 1,  /* one octet that starts no frame */
    RACKD_BAD_HEAD = 2,  /* the first octet of a wrong SD2 head */
    RACKD_BAD_END = 3,   /* a whole frame with a wrong check sequence or end delimiter */
    RACKD_FRAME = 255
};

/* Room that is enough for each reply, and for each answer or row. */
#define RACKD_MOST_REPLY 255
#define RACKD_MOST_TEXT 1800

/* A rack. It begins closed: `rackd_rack rack = RACKD_INITIALIZER;` */
typedef struct rackd_rack {
    void *inside;
} rackd_rack;
#define RACKD_INITIALIZER { NULL }

/* Why an entry has its outcome: the number of the reason in rackd_facts, with the facts that it has. */
enum {
    RACKD_WHY_UNKNOWN = 0,             /* after a fault of rackd_why */

    /* nobody replies, by a rule of the line */
    RACKD_WHY_HALTED = 1,
    RACKD_WHY_NO_FRAME = 2,
    RACKD_WHY_NO_MASTER = 3,           /* master: the sender, which is no master of the line */
    RACKD_WHY_FOREIGN_SENDER = 4,      /* master: the station that the frame names as its sender */
    RACKD_WHY_TOKEN = 5,
    RACKD_WHY_NOT_REQUEST = 6,
    RACKD_WHY_BAD_FUNCTION = 7,
    RACKD_WHY_BAD_EXTENSION = 8,
    RACKD_WHY_BAD_BROADCAST = 9,
    RACKD_WHY_NO_STATION = 10,
    RACKD_WHY_MASTER_STATION = 11,     /* NoStation. master: the master of the line that has the address */
    RACKD_WHY_LIVE_LIST_POLL = 12,     /* NoStation: an FDL status request looks for new stations */

    /* a rule of the slave */
    RACKD_WHY_STATUS = 13,             /* slave, state */
    RACKD_WHY_NO_SERVICE = 14,         /* point; detail: the service that it takes, 1 SDN, 2 SRD, or RACKD_NONE */
    RACKD_WHY_REPEAT_UNKNOWN = 15,
    RACKD_WHY_RETRY = 16,              /* since: the entry whose octets are repeated */
    RACKD_WHY_OTHER_REPEAT = 17,       /* point; since: the entry whose reply is repeated for other octets */
    RACKD_WHY_NO_POINT = 18,           /* NotActive. slave, point */
    RACKD_WHY_POINT_OFF = 19,          /* NotActive. slave, point, state; since: the entry that released it, or 0; detail: how,
                                        * 1 wrong configuration, 2 wrong parameters, 3 unlocked, 4 halt, 5 watchdog */
    RACKD_WHY_NOT_HOLDER = 20,         /* slave; master: its holder; since: the entry since which it is held */
    RACKD_WHY_NOT_LISTED = 21,         /* master: the sender; detail: the list, 1 lockers, 2 readers */
    RACKD_WHY_BUSY = 22,               /* point */
    RACKD_WHY_LENGTH = 23,             /* value: the octets sent; limit: those that it takes; detail: 0 none, 1 exactly limit,
                                        * 2 limit or none, 3 at most limit */
    RACKD_WHY_NOT_SELECTED = 24,       /* slave; value: Group_Select; limit: the groups of the slave */

    /* the rule Done: what the slave did */
    RACKD_WHY_OUTPUTS_TAKEN = 25,
    RACKD_WHY_OUTPUTS_WAIT = 26,       /* for Sync */
    RACKD_WHY_NO_OUTPUTS = 27,
    RACKD_WHY_DIAGNOSIS = 28,          /* detail: 1 if the holder has read it, else 0 */
    RACKD_WHY_CONTROL = 29,            /* detail: the sum of 1 outputs cleared, 2 sync mode ends, 4 freeze mode ends; value and
                                        * limit: Sync and Freeze, 0 not sent, 1 done, 2 beside its end, 3 not asked for */
    RACKD_WHY_WRONG_PARAMETERS = 30,   /* master: the one that held the slave */
    RACKD_WHY_UNLOCKED = 31,           /* slave; master: the one that held it; detail: 1 with Lock_Req, else 0 */
    RACKD_WHY_LOCKED = 32,             /* slave; master: its holder; value: min TSDR */
    RACKD_WHY_LOCKED_AGAIN = 33,       /* the same; since: the entry since which it is held */
    RACKD_WHY_MIN_TSDR_SET = 34,       /* slave; master: its holder; value: min TSDR */
    RACKD_WHY_MIN_TSDR_STAYS = 35,     /* the same */
    RACKD_WHY_WRONG_CONFIGURATION = 36, /* master: the one that held the slave */
    RACKD_WHY_CONFIGURED = 37,         /* value: the number of the configuration, from 0; limit: that before */
    RACKD_WHY_READ = 38,
    RACKD_WHY_TO_ALL = 39,             /* a Global_Control to all: the row of the entry has the rule of each slave */

    /* a line of the operator */
    RACKD_WHY_OPERATOR_DONE = 40,
    RACKD_WHY_OPERATOR_REFUSED = 41,   /* detail: 1 NoStation, 2 WrongLength, 3 UnknownPoint, 4 Halted */
    RACKD_WHY_TICKED = 42,             /* the row of the entry has the slaves that were released */
    RACKD_WHY_LINE_HALTED = 43         /* detail: 1 if the journal is full, else 0 */
};

/* An address, a point, a state or a detail that a reason has not, or that is not known. */
#define RACKD_NONE 255

/* The facts of a reason. What a reason has not is RACKD_NONE, or 0 for `since`, `value` and `limit`. A station, a holder or
 * a point that there is none of is RACKD_NONE too. */
typedef struct rackd_facts {
    uint64_t since;  /* the place of an entry, from 1 */
    size_t value;    /* a number that the request has */
    size_t limit;    /* a number that the slave has */
    uint8_t reason;  /* RACKD_WHY_.. */
    uint8_t slave;   /* an address */
    uint8_t point;   /* the access point of the request (DSAP) */
    uint8_t master;  /* an address */
    uint8_t state;   /* of the slave before the request: 0 Wait_Prm, 1 Wait_Cfg, 2 Data_Exch */
    uint8_t detail;
} rackd_facts;

/* Whether a rack is open. */
static inline bool rackd_is_open(const rackd_rack *rack) {
    return rack->inside != NULL;
}

/* Opens the rack that a text describes: that of a rack file, whose ports and workers are read and not used. With `endless`
 * its lines forget old entries, else a line halts when its journal is full. After a fault the rack stays closed. */
uint32_t rackd_open(rackd_rack *rack, const uint8_t *text, size_t octets, bool endless);

/* Closes an open rack, and frees its memory. */
void rackd_close(rackd_rack *rack);

/* Sets `count` to the number of octets of the cause for which a rack text is refused with RACKD_BAD_KEY or RACKD_NOT_TOML,
 * as `line 1, key "numbre": ..`, and copies at most `room` of them; 0 if there is none. RACKD_SHORT_ROOM if it was cut. */
uint32_t rackd_cause(const uint8_t *text, size_t octets, uint8_t *cause, size_t room, size_t *count);

/* Takes one whole telegram of a master. Sets `count` to the number of octets of the reply, 0 for silence; `rule` to the
 * number of the rule that decided (docs/reference/policy.md), 0 for a Global_Control to all; `place` to that of the entry in the
 * journal, 0 if the line is halted. `room` is 255 at least, else RACKD_SHORT_ROOM, and nothing is taken. */
uint32_t rackd_request(rackd_rack *rack, uint8_t line, uint8_t master, const uint8_t *telegram, size_t octets,
                       uint8_t *reply, size_t room, size_t *count, uint8_t *rule, uint32_t *place);

/* Takes octets of a master's stream, in any pieces, and sets `taken` to their number: as many as there is room for. Call
 * rackd_next until it has no piece, then rackd_feed with the rest. */
uint32_t rackd_feed(rackd_rack *rack, uint8_t line, uint8_t master, const uint8_t *stream, size_t octets, size_t *taken);

/* Takes the next piece of a master's stream, and sets `piece`. A frame is answered as by rackd_request. For octets that are
 * dropped `count` is their number, and for no piece it is 0; then `rule` and `place` are 0. */
uint32_t rackd_next(rackd_rack *rack, uint8_t line, uint8_t master, uint8_t *piece, uint8_t *reply, size_t room,
                    size_t *count, uint8_t *rule, uint32_t *place);

/* Lets `units` of 10 ms pass on a line. Otherwise time passes only by the command `tick` of rackd_operate. */
uint32_t rackd_tick(rackd_rack *rack, uint8_t line, uint32_t units);

/* Obeys a line of an operator, without its LF, as `in 5 0102` or `show 5`. The answer is that of an operator's port, with
 * its LF. After RACKD_SHORT_ROOM the line is obeyed, and `count` is the room that its answer needs. */
uint32_t rackd_operate(rackd_rack *rack, uint8_t line, const uint8_t *command, size_t octets, uint8_t *answer, size_t room,
                       size_t *count);

/* Sets `entries` to the number of entries of the journal of a line. */
uint32_t rackd_entries(rackd_rack *rack, uint8_t line, uint32_t *entries);

/* Copies the row at a place of the audit text of a line, with its LF: place 0 is the header, 1 the first entry. All rows in
 * order are the text that `rackd check`, `explain`, `judge` and `capture` read. */
uint32_t rackd_row(rackd_rack *rack, uint8_t line, uint32_t place, uint8_t *row, size_t room, size_t *count);

/* Gives the reason for the outcome of the entry at a place of the journal of a line: copies the sentence that `rackd explain`
 * writes of it, and sets `facts`. It takes all entries before it again, so it costs as much as they did. RACKD_NO_ENTRY also
 * if an endless line has forgotten one of them. After RACKD_SHORT_ROOM `facts` is set, and `count` is the room needed; 1800
 * octets are enough but for a wrong configuration of a slave that has many. */
uint32_t rackd_why(rackd_rack *rack, uint8_t line, uint32_t place, uint8_t *sentence, size_t room, size_t *count,
                   rackd_facts *facts);

/* Copies the name of the rule of this number, as `NotHolder`; `count` is 0 if no rule has it. */
uint32_t rackd_rule_name(uint8_t rule, uint8_t *name, size_t room, size_t *count);

/* Copies the version of the library, RACKD_VERSION of its header. */
uint32_t rackd_version(uint8_t *version, size_t room, size_t *count);

/* ---- calls that refuse a rack in the wrong state. Each has the name of the function that it calls. */

static inline uint32_t rackd_checked_open(rackd_rack *rack, const uint8_t *text, size_t octets, bool endless) {
    return rackd_is_open(rack) ? (uint32_t)RACKD_IS_OPEN : rackd_open(rack, text, octets, endless);
}

static inline void rackd_checked_close(rackd_rack *rack) {
    if (rackd_is_open(rack)) rackd_close(rack);
}

static inline uint32_t rackd_checked_request(rackd_rack *rack, uint8_t line, uint8_t master, const uint8_t *telegram,
                                             size_t octets, uint8_t *reply, size_t room, size_t *count, uint8_t *rule,
                                             uint32_t *place) {
    return rackd_is_open(rack) ? rackd_request(rack, line, master, telegram, octets, reply, room, count, rule, place)
                               : (uint32_t)RACKD_CLOSED;
}

static inline uint32_t rackd_checked_feed(rackd_rack *rack, uint8_t line, uint8_t master, const uint8_t *stream,
                                          size_t octets, size_t *taken) {
    return rackd_is_open(rack) ? rackd_feed(rack, line, master, stream, octets, taken) : (uint32_t)RACKD_CLOSED;
}

static inline uint32_t rackd_checked_next(rackd_rack *rack, uint8_t line, uint8_t master, uint8_t *piece, uint8_t *reply,
                                          size_t room, size_t *count, uint8_t *rule, uint32_t *place) {
    return rackd_is_open(rack) ? rackd_next(rack, line, master, piece, reply, room, count, rule, place)
                               : (uint32_t)RACKD_CLOSED;
}

static inline uint32_t rackd_checked_tick(rackd_rack *rack, uint8_t line, uint32_t units) {
    return rackd_is_open(rack) ? rackd_tick(rack, line, units) : (uint32_t)RACKD_CLOSED;
}

static inline uint32_t rackd_checked_operate(rackd_rack *rack, uint8_t line, const uint8_t *command, size_t octets,
                                             uint8_t *answer, size_t room, size_t *count) {
    return rackd_is_open(rack) ? rackd_operate(rack, line, command, octets, answer, room, count) : (uint32_t)RACKD_CLOSED;
}

static inline uint32_t rackd_checked_entries(rackd_rack *rack, uint8_t line, uint32_t *entries) {
    return rackd_is_open(rack) ? rackd_entries(rack, line, entries) : (uint32_t)RACKD_CLOSED;
}

static inline uint32_t rackd_checked_row(rackd_rack *rack, uint8_t line, uint32_t place, uint8_t *row, size_t room,
                                         size_t *count) {
    return rackd_is_open(rack) ? rackd_row(rack, line, place, row, room, count) : (uint32_t)RACKD_CLOSED;
}

static inline uint32_t rackd_checked_why(rackd_rack *rack, uint8_t line, uint32_t place, uint8_t *sentence, size_t room,
                                         size_t *count, rackd_facts *facts) {
    return rackd_is_open(rack) ? rackd_why(rack, line, place, sentence, room, count, facts) : (uint32_t)RACKD_CLOSED;
}

#define rackd_open rackd_checked_open
#define rackd_close rackd_checked_close
#define rackd_request rackd_checked_request
#define rackd_feed rackd_checked_feed
#define rackd_next rackd_checked_next
#define rackd_tick rackd_checked_tick
#define rackd_operate rackd_checked_operate
#define rackd_entries rackd_checked_entries
#define rackd_row rackd_checked_row
#define rackd_why rackd_checked_why

#ifdef __cplusplus
}
#endif
#endif
