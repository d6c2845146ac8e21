"""What the sentence of an entry has, by the facts of its reason: written from the tables of docs/reference/policy.md, not by the library."""

STATES = ("Wait_Prm", "Wait_Cfg", "Data_Exch")
POINTS = {None: "Data_Exchange", 55: "DSAP 55", 56: "RD_Inp", 57: "RD_Outp", 58: "Global_Control", 59: "Get_Cfg",
          60: "Slave_Diag", 61: "Set_Prm", 62: "Chk_Cfg"}
SERVICES = {1: "SDN", 2: "SRD"}
LISTS = {1: "lockers", 2: "readers"}
ENDINGS = {1: "wrong configuration", 2: "wrong parameters", 3: "unlocked", 4: "the line halted", 5: "its watchdog ran out"}
OPERATOR_FAULTS = {1: "NoStation", 2: "WrongLength", 3: "UnknownPoint", 4: "Halted"}


def many(octets):
    """Returns a number of octets in words."""
    return f"{octets} octet{'' if octets == 1 else 's'}"


def lengths(facts):
    """Returns the numbers of octets that a slave takes, in words."""
    return ("none", str(facts.limit), f"{facts.limit} or none", f"up to {facts.limit}")[facts.detail]


def controlled(facts):
    """Returns what a Global_Control did, in words."""
    ends = [word for bit, word in ((1, "outputs cleared"), (2, "sync mode ends"), (4, "freeze mode ends")) if facts.detail & bit]
    return ends or ["done"]


# the words that the sentence has, by the name of the reason
WORDS = {
    "halted": lambda _: ["silence: Halted."],
    "no_frame": lambda _: ["silence: NoFrame."],
    "no_master": lambda facts: [f"silence: NoMaster. Master {facts.master} "],
    "foreign_sender": lambda facts: ["silence: ForeignSender.",
                                     "no station" if facts.master is None else f"from station {facts.master}."],
    "token": lambda _: ["silence: Token."],
    "not_request": lambda _: ["silence: NotRequest."],
    "bad_function": lambda _: ["silence: BadFunction."],
    "bad_extension": lambda _: ["silence: BadExtension."],
    "bad_broadcast": lambda _: ["silence: BadBroadcast."],
    "no_station": lambda _: ["silence: NoStation. No slave has this address."],
    "master_station": lambda facts: [f"silence: NoStation. Station {facts.master} is a master"],
    "live_list_poll": lambda _: ["silence: NoStation. No such station."],
    "status": lambda facts: [f"answered: Status. Slave {facts.slave} is there, in {STATES[facts.state]}."],
    "no_service": lambda facts: [": NoService.", "No slave has this function" if facts.detail is None else
                                 f"{POINTS[facts.point]} takes {SERVICES[facts.detail]} alone"],
    "repeat_unknown": lambda _: ["repeat"],
    "retry": lambda facts: [f"retry of entry {facts.since}:"],
    "other_repeat": lambda facts: [f"repeat: FCB as in entry {facts.since}, but another telegram: {POINTS[facts.point]}"],
    "no_point": lambda facts: [f": NotActive. Slave {facts.slave} has no DSAP {facts.point}"],
    "point_off": lambda facts: [f": NotActive. Slave {facts.slave} is in {STATES[facts.state]}",
                                f"where {POINTS[facts.point]} is off",
                                "" if facts.since is None else f" since entry {facts.since} ({ENDINGS[facts.detail]})"],
    "not_holder": lambda facts: [f": NotHolder. Master {facts.master} holds slave {facts.slave} since entry {facts.since}."
                                 if facts.master is not None else ": NotHolder."],
    "not_listed": lambda facts: [f": NotListed. Master {facts.master} is none of its {LISTS[facts.detail]} ("],
    "busy": lambda facts: [f": Busy. The operator has marked {POINTS[facts.point]} busy."],
    "length": lambda facts: [f": Length. {many(facts.value)}, the slave takes {lengths(facts)}."],
    "not_selected": lambda facts: [": NotSelected.", f"(Group_Select {facts.value:02X})", f"slave {facts.slave} ",
                                   f"(Group_Ident {facts.limit:02X})"],
    "outputs_taken": lambda _: ["done"],
    "outputs_wait": lambda _: ["done: the data wait for Sync."],
    "no_outputs": lambda _: ["the slave stays cleared."],
    "diagnosis": lambda facts: ["done: read by the holder." if facts.detail else "done."],
    "control": controlled,
    "wrong_parameters": lambda facts: ["wrong parameters: ", "Released." if facts.master is not None else ""],
    "unlocked": lambda facts: [f"slave {facts.slave} "],
    "locked": lambda facts: [f"locked: master {facts.master} holds slave {facts.slave}."],
    "locked_again": lambda facts: [f"locked again: master {facts.master} holds slave {facts.slave} since entry {facts.since}."],
    "min_tsdr_set": lambda facts: [f"done: min TSDR {facts.value}."],
    "min_tsdr_stays": lambda facts: [f"done: min TSDR stays {facts.value}."],
    "wrong_configuration": lambda facts: ["wrong configuration: ", "Released." if facts.master is not None else ""],
    "configured": lambda facts: [f"good configuration: number {facts.value}",
                                 "" if facts.value == facts.limit else f" in place of {facts.limit}."],
    "read": lambda _: ["done"],
    "to_all": lambda _: ["spread"],
    "operator_done": lambda _: ["done."],
    "operator_refused": lambda facts: [f"refused: {OPERATOR_FAULTS[facts.detail]}."],
    "ticked": lambda _: [""],
    "line_halted": lambda facts: ["halted, the journal is full;" if facts.detail else "halted;"],
}


def missing(reason):
    """Returns what the sentence of a reason lacks of its facts, or nothing."""
    return [words for words in WORDS[reason.facts.reason](reason.facts) if words not in reason.sentence]
