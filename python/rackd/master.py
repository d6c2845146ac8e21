"""A small FDL master: one session, one request at a time."""
from __future__ import annotations

import time
from dataclasses import dataclass
from typing import Callable, Dict, Optional, Set

from . import frames
from .cable import RunningCable
from .connection import Ended, Session, open_session, still_there
from .faults import RS, SLAVE_REFUSALS, BadFrame, NoReply, RackError, SlaveRefused
from .frames import Frame

# function codes of requests: SRD and SDN with high priority, FDL status; bits FCB and FCV
SRD, SDN, STATUS, FCB, FCV = 0x4D, 0x46, 0x49, 0x20, 0x10
# function codes of replies with data: low, and high (a diagnosis is due)
DATA_LOW, DATA_HIGH = 0x08, 0x0A
# access points: the master's, and those of a slave
MASTER, RD_INP, RD_OUTP, GLOBAL_CONTROL, GET_CFG, SLAVE_DIAG, SET_PRM, CHK_CFG = 62, 56, 57, 58, 59, 60, 61, 62
EVERY_SLAVE = 127
# the services of an SRD, by the access point of the slave
SERVICES = {None: "Data_Exchange", RD_INP: "RD_Inp", RD_OUTP: "RD_Outp", GET_CFG: "Get_Cfg", SLAVE_DIAG: "Slave_Diag",
            SET_PRM: "Set_Prm", CHK_CFG: "Chk_Cfg"}


@dataclass(frozen=True)
class Diagnosis:
    """The data of a Slave_Diag reply (IEC 61158-6-3). `holder` is None if nobody holds the slave."""

    status: bytes
    holder: Optional[int]
    ident: int
    extended: bytes

    def _bit(self, octet: int, bit: int) -> bool:
        return bool(self.status[octet - 1] & 1 << bit)

    @property
    def station_not_ready(self) -> bool:
        """Whether the slave is not in data exchange."""
        return self._bit(1, 1)

    @property
    def cfg_fault(self) -> bool:
        """Whether the last Chk_Cfg had a wrong configuration."""
        return self._bit(1, 2)

    @property
    def ext_diag(self) -> bool:
        """Whether the device reported Ext_Diag."""
        return self._bit(1, 3)

    @property
    def not_supported(self) -> bool:
        """Whether the last Set_Prm asked for a mode that the slave lacks."""
        return self._bit(1, 4)

    @property
    def prm_fault(self) -> bool:
        """Whether the last Set_Prm had wrong parameters."""
        return self._bit(1, 6)

    @property
    def prm_req(self) -> bool:
        """Whether the slave waits for parameters."""
        return self._bit(2, 0)

    @property
    def stat_diag(self) -> bool:
        """Whether the device reported Stat_Diag."""
        return self._bit(2, 1)

    @property
    def wd_on(self) -> bool:
        """Whether a watchdog runs."""
        return self._bit(2, 3)

    @property
    def freeze_mode(self) -> bool:
        """Whether the slave is in freeze mode."""
        return self._bit(2, 4)

    @property
    def sync_mode(self) -> bool:
        """Whether the slave is in sync mode."""
        return self._bit(2, 5)

    @property
    def ext_diag_overflow(self) -> bool:
        """Whether the device reported Ext_Diag_Overflow."""
        return self._bit(3, 7)


def diagnosis_of(data: bytes) -> Diagnosis:
    """Returns the diagnosis that the data of a Slave_Diag reply are, at least six octets."""
    return Diagnosis(data[:3], None if data[3] == 0xFF else data[3], int.from_bytes(data[4:6], "big"), data[6:])


def parameters(ident: int, *, watchdog_ms: int = 0, group: int = 0, min_tsdr: int = 11, lock: bool = True,
               unlock: bool = False, sync: bool = False, freeze: bool = False, user: bytes = b"") -> bytes:
    """Returns the data of a Set_Prm (IEC 61158-6-3).

    `watchdog_ms` is 0 for no watchdog, or 10 times the product of two factors, each 1 to 255; ValueError for another.
    """
    first = second = 1
    if watchdog_ms:
        units = watchdog_ms // 10
        factors = [factor for factor in range(1, 256) if units % factor == 0 and 1 <= units // factor <= 255]
        if watchdog_ms % 10 or not factors:
            raise ValueError(f"a watchdog of {watchdog_ms} ms is not 10 ms times two factors of 1 to 255")
        first, second = factors[0], units // factors[0]
    status = lock << 7 | unlock << 6 | sync << 5 | freeze << 4 | (watchdog_ms > 0) << 3
    return bytes([status, first, second, min_tsdr, ident >> 8, ident & 0xFF, group]) + user


class Master:
    """A session of the master with this address, also as a context manager.

    `timeout` is the time for one reply in seconds; `retries` is how often a request is sent again. `diagnosis_due` has
    the slaves whose last reply to Data_Exchange was of high priority: a diagnosis is due. Not for several threads.
    """

    def __init__(self, port: int, address: int, ended: Ended = still_there,
                 cable: Optional[RunningCable] = None) -> None:
        """Connects to the port `listen` of a line or a cable. Raises NotAccepted if the line does not accept it."""
        name = f"master {address} of port {port}"
        self._begin(open_session(port, address, name, ended), address, name, cable)

    @classmethod
    def over(cls, connection: Session, address: int, name: str) -> Master:
        """Returns a master over a connection that exists. `name` is what messages call it."""
        master = cls.__new__(cls)
        master._begin(connection, address, name, None)
        return master

    def _begin(self, connection: Session, address: int, name: str, cable: Optional[RunningCable]) -> None:
        self.address = address
        self.timeout = 0.5
        self.retries = 1
        self.diagnosis_due: Set[int] = set()
        self.is_open = True
        self._cable = cable
        self._fcb: Dict[int, bool] = {}
        self._buffer = b""
        self._name = name
        self._connection = connection

    def __enter__(self) -> Master:
        return self

    def __exit__(self, *_: object) -> None:
        self.close()

    @property
    def cable(self) -> RunningCable:
        """The cable through which this master is connected. Raises RackError if there is none."""
        if self._cable is None:
            raise RackError(f"{self._name} has no cable")
        return self._cable

    def close(self) -> None:
        """Ends the session. The master keeps the slaves that it holds."""
        self.is_open = False
        self._connection.close()

    # ---- services

    def slave_diag(self, slave: int) -> Diagnosis:
        """Reads the diagnosis of a slave."""
        return diagnosis_of(self.srd(slave, dsap=SLAVE_DIAG))

    def set_prm(self, slave: int, ident: int, *, watchdog_ms: int = 0, group: int = 0, min_tsdr: int = 11,
                lock: bool = True, unlock: bool = False, sync: bool = False, freeze: bool = False,
                user: bytes = b"") -> None:
        """Sends parameters. Whether they are good is in the next diagnosis. See `parameters` for `watchdog_ms`."""
        self.srd(slave, parameters(ident, watchdog_ms=watchdog_ms, group=group, min_tsdr=min_tsdr, lock=lock,
                                   unlock=unlock, sync=sync, freeze=freeze, user=user), SET_PRM)

    def chk_cfg(self, slave: int, cfg: bytes) -> None:
        """Sends a configuration. Whether it is right is in the next diagnosis."""
        self.srd(slave, cfg, CHK_CFG)

    def get_cfg(self, slave: int) -> bytes:
        """Reads the configuration that is in force."""
        return self.srd(slave, dsap=GET_CFG)

    def rd_inp(self, slave: int) -> bytes:
        """Reads the inputs, also of a slave that another master holds."""
        return self.srd(slave, dsap=RD_INP)

    def rd_outp(self, slave: int) -> bytes:
        """Reads the outputs, also of a slave that another master holds."""
        return self.srd(slave, dsap=RD_OUTP)

    def data_exchange(self, slave: int, outputs: bytes = b"") -> bytes:
        """Sends outputs and returns the inputs."""
        return self.srd(slave, outputs)

    def global_control(self, *, clear: bool = False, unfreeze: bool = False, freeze: bool = False,
                       unsync: bool = False, sync: bool = False, group: int = 0, slave: int = EVERY_SLAVE) -> None:
        """Sends a Global_Control to all slaves of a group, or of every group if it is 0. Nothing replies to it.

        What the rack does with it is in the journal once this master has the reply to its next request.
        """
        command = clear << 1 | unfreeze << 2 | freeze << 3 | unsync << 4 | sync << 5
        self._send(frames.request(slave, self.address, SDN, bytes([command, group]), GLOBAL_CONTROL, MASTER))

    def fdl_status(self, address: int) -> bool:
        """Returns whether a slave has this address, by one FDL status. Silence takes the whole `timeout`."""
        self._send(frames.request(address, self.address, STATUS))
        return self._reply(lambda frame: frame.source == address) is not None

    def bring_up(self, slave: int, ident: int, cfg: bytes, *, watchdog_ms: int = 0, group: int = 0) -> None:
        """Brings a slave to data exchange: Slave_Diag, Set_Prm, Chk_Cfg, Slave_Diag.

        Raises SlaveRefused if the last diagnosis has a fault, or another holder. If the slave refuses the Chk_Cfg, it
        raises RS, with what one more Slave_Diag shows of the Set_Prm.
        """
        self.slave_diag(slave)
        self.set_prm(slave, ident, watchdog_ms=watchdog_ms, group=group)
        try:
            self.chk_cfg(slave, cfg)
        except RS as refusal:
            raise RS(f"{refusal}; {self._refused_parameters(slave, ident)}") from None
        diagnosis = self.slave_diag(slave)
        if diagnosis.station_not_ready or diagnosis.holder != self.address:
            raise SlaveRefused(f"slave {slave} is not in data exchange with master {self.address}: {diagnosis}")

    def _refused_parameters(self, slave: int, ident: int) -> str:
        """Returns what a Slave_Diag shows of the Set_Prm before it."""
        diagnosis = self.slave_diag(slave)
        if not diagnosis.prm_fault:
            return f"Slave_Diag shows no Prm_Fault: {diagnosis}"
        idents = f"the ident {diagnosis.ident:04X}, and the Set_Prm had {ident:04X}"
        return f"Slave_Diag shows Prm_Fault, since the slave refused the Set_Prm: it has {idents}"

    # ---- requests

    def srd(self, slave: int, data: bytes = b"", dsap: Optional[int] = None) -> bytes:
        """Sends data to an access point, None for the default one, and returns the data of the reply.

        A request that gets no reply, or a spoilt one, is sent again as it was. Raises NoReply, or UE, RR or RS if the
        slave refuses.
        """
        ssap = None if dsap is None else MASTER
        telegram = frames.request(slave, self.address, self._next_function(slave), data, dsap, ssap)
        reply = self._ask(slave, telegram, lambda frame: self._answers(frame, slave, dsap, ssap))
        if reply.start == frames.SC or reply.fc in (DATA_LOW, DATA_HIGH):
            if dsap is None:
                (self.diagnosis_due.add if reply.fc == DATA_HIGH else self.diagnosis_due.discard)(slave)
            return reply.data
        kind = SLAVE_REFUSALS.get(reply.fc, SlaveRefused)
        service = SERVICES.get(dsap, f"a request to point {dsap}")
        raise kind(f"slave {slave} refuses {service} of master {self.address}: {kind.__name__}, function code {reply.fc:02X}")

    def raw(self, octets: bytes) -> bytes:
        """Sends octets as they are, once, and returns the next frame that comes, or nothing after `timeout`."""
        self._send(octets)
        return self._next(lambda _: True) or b""

    def _next_function(self, slave: int) -> int:
        """Returns the function code of the next SRD to a slave. The first one has FCV 0 and FCB 1."""
        if slave not in self._fcb:
            self._fcb[slave] = True
            return SRD | FCB
        self._fcb[slave] = not self._fcb[slave]
        return SRD | FCV | (FCB if self._fcb[slave] else 0)

    def _answers(self, frame: Frame, slave: int, dsap: Optional[int], ssap: Optional[int]) -> bool:
        """Whether a frame can be the reply to an SRD, and is not a late reply to an earlier one."""
        if frame.start == frames.SC:
            # a diagnosis has six octets at the least: this acknowledges an earlier request, late
            return dsap != SLAVE_DIAG
        is_of_slave = frame.source == slave and frame.destination == self.address
        return is_of_slave and (frame.start == frames.SD1 or (frame.ssap, frame.dsap) == (dsap, ssap))

    def _ask(self, slave: int, telegram: bytes, answers: Callable[[Frame], bool]) -> Frame:
        for _ in range(self.retries + 1):
            self._send(telegram)
            try:
                reply = self._reply(answers)
            except BadFrame:
                # a spoilt reply is none
                continue
            if reply is not None:
                return reply
        # the next request to this slave is a first one again
        self._fcb.pop(slave, None)
        raise NoReply(f"{self._name}: slave {slave} does not reply to {telegram.hex(' ')}")

    def _send(self, octets: bytes) -> None:
        """Reads what is left of earlier replies, then sends."""
        self._buffer = b""
        while self._connection.receive(0):
            pass
        self._connection.send(octets)

    def _reply(self, answers: Callable[[Frame], bool]) -> Optional[Frame]:
        octets = self._next(answers)
        return None if octets is None else frames.decode(octets)

    def _next(self, answers: Callable[[Frame], bool]) -> Optional[bytes]:
        """Returns the next frame that answers, or None after `timeout`."""
        until = time.monotonic() + self.timeout
        while True:
            size = frames.size_of(self._buffer)
            if size is not None and len(self._buffer) >= size:
                octets, self._buffer = self._buffer[:size], self._buffer[size:]
                if answers(frames.decode(octets)):
                    return octets
                continue
            more = self._connection.receive(until - time.monotonic())
            if not more:
                return None
            self._buffer += more
