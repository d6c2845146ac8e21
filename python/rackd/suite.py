"""What the scenarios of `python -m rackd suite` are written with (examples/suite/README.md).

A scenario is a Python file. Its first line says what it tries; SLAVES are the slaves that the master has; `run` starts
the master, does what the operator, the cable and another master do, and waits for what must be seen:

    \"""The watchdog of a slave runs out: the master brings it up again.\"""
    from rackd.suite import Bus, Slave

    SLAVES = [Slave(5, watchdog_ms=200, outputs="1234")]

    def run(bus: Bus) -> None:
        bus.start()
        bus.exchanges(5)
        bus.operator.tick(20)
        bus.exchanges(5)
        bus.outputs(5, "1234")
"""
from __future__ import annotations

import dataclasses
import itertools
from dataclasses import dataclass
from typing import Callable, Dict, List, Optional, Sequence

from .cable import RunningCable
from .faults import BadFrame, NoReply
from .frames import decode
from .master import CHK_CFG, GET_CFG, GLOBAL_CONTROL, RD_INP, RD_OUTP, SET_PRM, SLAVE_DIAG, Master
from .operator import Operator, State
from .rack import Line, Rack
from .suite_master import MasterProcess
from .suite_patience import Patience
from .suite_plug import Plug
from .suite_retries import reply_of, retries
from .suite_rows import Request, Requests

# The address of the master under test, and that of another master.
ADDRESS, OTHER = 1, 2
# Seconds between two looks at what has come.
LOOK_TIME = 0.01
# How many exchanges show that data are exchanged.
EXCHANGES = 10
# What becomes of a reply by each order to a cable.
FAULTS = {"lose": "lost", "spoil": "spoilt", "cut": "cut"}
SERVICES = {None: "Data_Exchange", RD_INP: "RD_Inp", RD_OUTP: "RD_Outp", GLOBAL_CONTROL: "Global_Control",
            GET_CFG: "Get_Cfg", SLAVE_DIAG: "Slave_Diag", SET_PRM: "Set_Prm", CHK_CFG: "Chk_Cfg"}


@dataclass(frozen=True)
class Slave:
    """A slave as the master under test has it configured. The keys of RACKD_SLAVES are these names.

    `cfg`, `user` and `outputs` are pairs of hex digits. `watchdog_ms` is 0 for none. With `mirror` the outputs are the
    inputs of the reply before, and `outputs` are the first ones.
    """

    address: int
    ident: int = 0x80A1
    cfg: str = "2111"
    user: str = ""
    watchdog_ms: int = 1000
    group: int = 0
    sync: bool = False
    freeze: bool = False
    failsafe: bool = False
    outputs: str = "0000"
    mirror: bool = False

    def keys(self) -> "dict[str, object]":
        """Returns the object of this slave in RACKD_SLAVES."""
        return dataclasses.asdict(self)


def rack_of(slaves: Sequence[Slave]) -> str:
    """Returns the rack file of a scenario without RACK: one line, masters 1 and 2, and these slaves."""
    rows = ["[[line]]", "number = 1", "capacity = 16416", f"masters = [{ADDRESS}, {OTHER}]", "listen = 0",
            "operator = 0"]
    for slave in slaves:
        rows += ["[[line.slave]]", f"address = {slave.address}", f"ident = {slave.ident}", f'cfg = "{slave.cfg}"']
        rows += [f"{name} = true" for name in ("sync", "freeze", "failsafe") if getattr(slave, name)]
    return "\n".join(rows) + "\n"


class Failed(Exception):
    """The master under test does not do what the scenario asks for."""


class Bus:
    """The bus of a scenario: a line of its rack, behind a cable to which the master under test connects.

    `operator` is the operator of the line, `cable` the cable, and `address` is that of the master under test. If the
    scenario has SECOND, `second` is the same bus for the second process of the master under test: all its steps are
    those of that one.
    """

    def __init__(self, rack: Rack, program: MasterProcess, cable: RunningCable, plug: Optional[Plug],
                 patience: Patience, second: "Optional[Bus]" = None) -> None:
        self.address = program.address
        self.cable = cable
        self._rack, self._program, self._plug, self._patience = rack, program, plug, patience
        self._second = second
        self._connected = False
        self._ordered: Dict[int, "tuple[str, List[int]]"] = {}
        self._choose(rack.lines[0])

    def _choose(self, line: Line) -> None:
        self._line, self._requests = line, Requests(line)

    @property
    def operator(self) -> Operator:
        """The operator of the line."""
        return self._line.operator()

    def master(self, address: int = OTHER) -> Master:
        """Returns another master, at the line itself."""
        return self._line.master(address)

    @property
    def second(self) -> Bus:
        """The same bus for the second process of the master under test."""
        if self._second is None:
            raise ValueError("the scenario has no SECOND")
        return self._second

    def start(self) -> None:
        """Starts the master under test."""
        self._program.start(self.cable.listen)

    def put(self, number: int) -> None:
        """Puts the devices of another line of the rack in the place of those of the bus, from now on."""
        if self._plug is None:
            raise ValueError("the rack has one line only")
        self._choose(self._rack.line(number))
        self._plug.put(self._line.listen)

    # ---- what is seen

    def requests(self, slave: Optional[int] = None, first: int = 1) -> List[Request]:
        """Returns the requests of the master under test so far, from a place on, to a slave if one is named."""
        found = itertools.takewhile(lambda request: request.place >= first, reversed(self._requests.read()))
        return [request for request in found
                if request.master == self.address and (slave is None or request.slave == slave)][::-1]

    def place(self) -> int:
        """Returns the place in the journal behind all that has come."""
        requests = self._requests.read()
        return requests[-1].place + 1 if requests else 1

    def exchanged(self, slave: int, first: int = 1) -> List[Request]:
        """Returns the exchanges of data with a slave that were done, from a place on."""
        return [request for request in self.requests(slave, first)
                if request.point is None and request.rules.get(slave) == "Done"]

    # ---- what must be seen

    def fail(self, reason: str) -> None:
        """Ends the scenario with this reason."""
        raise Failed(reason)

    def wait(self, what: str, is_so: Callable[[], object], found: Callable[[], str] = lambda: "") -> None:
        """Waits until something is so. If the time of the scenario is over, `what` was not seen, but `found`."""
        while not is_so():
            end = self._program.end()
            if end:
                raise Failed(f"{end}, before this was seen: {what}")
            self._look_for_connection()
            if self._patience.is_over():
                instead = found()
                raise Failed(f"not seen in {self._patience.seconds:g} s: {what}"
                             + (f"; it is {instead}" if instead else ""))
            self._patience.rest(LOOK_TIME)

    def _look_for_connection(self) -> None:
        """Fails if the master has had its time to connect, and the line has no session of it."""
        if self._connected or self._program.started is None:
            return
        log = self._rack.log()
        self._connected = any(row.endswith(f": master {self.address} connected") for row in log)
        if not self._connected and self._patience.is_late(self._program.started):
            refused = [row.partition(": ")[2] for row in log if " refused: " in row]
            raise Failed(f"the master did not connect to RACKD_PORT as master {self.address} "
                         f"within {self._patience.connect:g} s"
                         + (f"; the line has: {refused[0]}" if refused else self._program.last_words()))

    def exchanges(self, slave: int, count: int = EXCHANGES) -> None:
        """Waits until the master has exchanged data with a slave so often from now on."""
        first = self.place()
        self.wait(f"{count} exchanges with slave {slave}", lambda: len(self.exchanged(slave, first)) >= count,
                  lambda: self._shown(slave))

    def outputs(self, slave: int, octets: str) -> None:
        """Waits until a slave is in data exchange with the master, and has these outputs."""
        wanted = (State.DATA_EXCH, self.address, bytes.fromhex(octets))

        def has() -> bool:
            show = self.operator.show(slave)
            return (show.state, show.holder, show.outputs) == wanted

        self.wait(f"slave {slave} in data exchange with master {self.address}, with outputs {octets}", has,
                  lambda: self._shown(slave))

    def only(self, slave: int, *outputs: str) -> None:
        """Fails if the master has sent other outputs to a slave than these."""
        allowed = {bytes.fromhex(octets) for octets in outputs}
        for request in self.requests(slave):
            if request.point is None and request.data not in allowed:
                self.fail(f"outputs {request.data.hex() or '-'} at place {request.place}, "
                          f"slave {slave} has {' or '.join(outputs)}")

    def diagnosed(self, slave: int, first: Optional[int] = None) -> None:
        """Waits until the master reads the diagnosis of a slave, from a place or from now on."""
        self.request(slave, SLAVE_DIAG, "Done", first=first)

    def request(self, slave: int, point: Optional[int], rule: str, count: int = 1, first: Optional[int] = None) -> None:
        """Waits for requests to an access point, decided by a rule of docs/reference/policy.md, from a place or from now on."""
        first = self.place() if first is None else first
        self.wait(f"{count} {SERVICES.get(point, f'of point {point}')} to slave {slave} with rule {rule}",
                  lambda: sum(request.point == point and request.rules.get(slave) == rule
                              for request in self.requests(None, first)) >= count, lambda: self._shown(slave))

    def off(self, slave: int) -> None:
        """Takes a slave off the bus until `cable.on`, and waits until the master has given it up.

        It has if a request that is lost has FCV 0: the first one of another beginning.
        """
        begin, before = f"master {self.address} request {slave}: lost ", len(self.cable.log())
        self.cable.off(slave)

        def has() -> bool:
            lost = (row for row in self.cable.log()[before:] if row.startswith(begin))
            return any(is_first(bytes.fromhex(row.split(" ")[5])) for row in lost)

        self.wait(f"a request to slave {slave} with FCV 0 while it is off", has)

    def order(self, fault: str, slave: int, every: int = 12, times: int = 3) -> None:
        """Has the cable lose, spoil or cut ("lose", "spoil", "cut") some replies of a slave, before the master starts.

        It is each reply of the number `every`, counted from the first one, `times` times.
        """
        if self._program.started is not None:
            raise ValueError("order comes before start: replies are counted from the first one")
        for _ in range(times):
            # a delay of no time changes nothing, but counts
            self.cable.late(slave, every - 1, 0)
            getattr(self.cable, fault)(slave)
        self._ordered[slave] = FAULTS[fault], [every * number for number in range(1, times + 1)]

    def retried(self, slave: int) -> None:
        """Waits until the replies of a slave have come that were ordered to be lost, spoilt or cut, and one more.

        Fails if the master has not sent each request to which they belong again as it was, so with the same FCB.
        """
        fault, numbers = self._ordered[slave]
        self.wait(f"{numbers[-1] + 1} replies of slave {slave}, of which some were {fault}",
                  lambda: sum(request.is_answered for request in self.requests(slave)) > numbers[-1],
                  lambda: self._shown(slave))
        begin = f"master {self.address} reply {slave}: "
        seen = [reply_of(row) for row in self.cable.log() if row.startswith(begin)]
        decided = retries(self.requests(slave), seen, numbers)
        if not decided:
            self.fail(f"each request to slave {slave} whose reply was {fault} came when others had just been sent again")
        for request, is_retried in decided:
            if not is_retried:
                self.fail(f"the request to slave {slave} at place {request.place} was not sent again with the same FCB "
                          f"after its reply was {fault}")

    def met(self) -> None:
        """Waits until the replies have come that the cable was told to lose, spoil, cut or delay."""
        def has() -> bool:
            try:
                self.cable.wait_done(LOOK_TIME)
            except NoReply:
                return False
            return True

        self.wait("a reply for each fault of the cable", has)

    def _shown(self, slave: int) -> str:
        show = self.operator.show(slave)
        holder = "nobody" if show.holder is None else f"master {show.holder}"
        return f"in {show.state.value}, held by {holder}, with outputs {show.outputs.hex() or '-'}"


def is_first(octets: bytes) -> bool:
    """Whether a telegram has FCV 0. Octets that are none have not."""
    try:
        return not decode(octets).fc & 0x10
    except BadFrame:
        return False
