r"""Racks of simulated PROFIBUS DP slaves for the tests of a master stack.

A rack is the program `rackd serve`, which ends with the `with` statement or with this process. All calls by example:

    with rackd.Rack("rack.toml", tick=100) as rack:     # a path or a text; tick and step in ms of the clock
        line = rack.line(1)                             # its TCP ports are line.listen and line.operator_port

        operator = line.operator()
        operator.input(5, b"\xaa\x55")
        operator.diag(5, b"\x02\x01", ext_diag=True)     # also stat_diag, overflow
        operator.busy(5, 61)                            # without 61 the default point
        operator.busy(5, 61, on=False)
        operator.tick(10)                               # 10 units of 10 ms; the slaves that were released
        operator.step()                                 # how many inputs were updated
        operator.show(5).outputs                        # also state, holder, inputs, watchdog
        operator.owned(1)                               # the slaves that master 1 holds, oldest lock first

        master = line.master(1)                         # its timeout and retries can be set
        master.bring_up(5, 0x80A1, b"\x21\x11", watchdog_ms=9000)   # the next three lines
        master.slave_diag(5).holder                     # also cfg_fault, prm_fault, extended and so on
        master.set_prm(5, 0x80A1, group=1, user=b"")    # also lock, unlock, sync, freeze, min_tsdr
        master.chk_cfg(5, b"\x21\x11")
        master.data_exchange(5, b"\x12\x34")            # the inputs; see also master.diagnosis_due
        master.global_control(sync=True, group=1)       # also unsync, freeze, unfreeze, clear
        master.fdl_status(5)                            # whether a slave is there
        master.get_cfg(5), master.rd_inp(5), master.rd_outp(5)
        master.srd(5, b"", dsap=60)                     # any other request
        master.raw(bytes.fromhex("100501494f16"))       # octets as they are; the next frame, or nothing

        far = line.master(3, cable=rackd.Cable(lose=1.5, seed=7))   # behind a cable; also late=(10, 300) and so on
        far.cable.lose(5, 1)                            # also spoil, cut, late(5, 1, 300), off, on, clear, wait_done
        far.cable.log()                                 # the faults so far
        line.cable(rackd.Cable()).listen                # the port of a cable for a stack of your own

        port = line.port(2)                             # read, write and so on as pyserial's Serial

        journal = line.journal()                        # a sequence of Entry: place, event, reason, sentence and so on
        journal.refused()
        journal[0].reason.kind, journal[0].reason.fields    # the facts of an answer; of NotHolder also reason["holder"]
        journal.explained.holds                         # also counts, stations, polls and verdict
        print(journal.explain(faults=True, slave=5))    # also first, last, master, refused, summary
        journal.judge(master=1)                         # what it did that the standard rules out, or did not try
        journal.time_of(3)                              # when entry 3 was recorded by the clock, as 12:30:01.207
        line.why(3).sentence                            # why entry 3 has its outcome; in process also its facts

        operator.halt()                                 # permanent; the slaves that were released

Exceptions are RackErrors. A slave that refuses raises UE, RR or RS; a line that refuses a command raises NoStation,
WrongLength, UnknownPoint or Halted; silence raises NoReply; a cable that refuses an order raises NotACommand
or TooMany. RackFault is a rack or a cable that cannot start or ends early, NotLegal a journal that `rackd check`
refuses. For pytest there are the fixtures rack, rack_factory, embedded_rack and rack_toml.
"""
from .cable import Cable, RunningCable
from .embedded import EmbeddedLine, EmbeddedRack
from .explained import (Answer, Change, Condition, Decoded, Entry, Event, Explained, Hold, Part, Poll, Release,
                        StationCount, Verdict, WayCount, Why)
from .faults import (UE, RR, RS, BadEnd, BadFrame, BadHead, Halted, Long, NoProgram, NoReply, NoStart, NoStation,
                     NotACommand, NotAccepted, NotLegal, OperatorRefused, RackError, RackFault, Refused, SessionEnded,
                     Short, SlaveRefused, TooLong, TooMany, UnknownPoint, WrongLength)
from .frames import Frame
from .journal import Finding, Journal, Untested
from .master import Diagnosis, Master
from .operator import Operator, Show, State
from .port import Port
from .rack import SAMPLE, Line, Rack
from .reasons import Facts, Reason
from .times import EntryTime, EntryTimes

__all__ = [
    "UE", "RR", "RS", "Answer", "BadEnd", "BadFrame", "BadHead", "Cable", "Change", "Condition", "Decoded",
    "Diagnosis", "EmbeddedLine", "EmbeddedRack", "Entry", "EntryTime", "EntryTimes", "Event", "Explained", "Facts",
    "Finding", "Frame", "Halted", "Hold", "Journal", "Line", "Long", "Master", "NoProgram", "NoReply", "NoStart",
    "NoStation", "NotACommand", "NotAccepted", "NotLegal", "Operator", "OperatorRefused", "Part", "Poll", "Port",
    "Rack", "RackError", "RackFault", "Reason", "Refused", "Release", "RunningCable", "SAMPLE", "SessionEnded",
    "Short", "Show", "SlaveRefused", "State", "StationCount", "TooLong", "TooMany", "UnknownPoint", "Untested",
    "Verdict", "WayCount", "Why", "WrongLength",
]
