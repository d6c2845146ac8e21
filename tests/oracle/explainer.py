#!/usr/bin/env python3
"""Explains audit texts of rackd. It is independent of the code of the product.

The expected texts of tests/explain come from here. The program simulates the line again from docs/reference/policy.md and
docs/reference/explain.md: it reads a rack file and an audit text, takes each event of the text, compares facts and outcome with
the text, and prints what `rackd explain` has to print. It needs Python 3.11, for tomllib, and the standard library only.

usage: explainer.py RACK AUDIT.. [--from N] [--to N] [--slave A] [--master M] [--refused] [--faults]
                    [--summary | --json]
       explainer.py --all        compares every stored case, and prints 'N agree, M differ'
"""

import json
import os
import re
import sys
from collections import Counter
from dataclasses import dataclass, field
from itertools import zip_longest
from typing import Any, Dict, List, Optional, Tuple

# ---------------------------------------------------------------------------------------------------------------------
# Numbers of the formats
# ---------------------------------------------------------------------------------------------------------------------

GLOBAL_ADDRESS = 127
NOBODY = 255                       # Master_Add of a slave that nobody holds
LARGEST_OCTET = 255
LARGEST_WORD = 2**32 - 1
ENDLESS_CAPACITY = 2**32 - 1       # places of an endless line, audit version 3
REQUEST_LIMIT, INPUT_LIMIT, REPORT_LIMIT = 255, 244, 238
CONFIGURATION_LIMIT = 244          # octets of inputs, and of outputs
SERVICE_LIMIT = 244                # octets of Set_Prm and Chk_Cfg
MS_PER_UNIT = 10
FIRST_MIN_TSDR = 11

STATUS_LEGAL, STATUS_WRONG_TEXT, STATUS_WRONG_INPUT = 0, 1, 2

# ---------------------------------------------------------------------------------------------------------------------
# Octets and numbers in words
# ---------------------------------------------------------------------------------------------------------------------


def spaced(octets: bytes) -> str:
    """Returns octets as hex pairs with spaces between."""
    return octets.hex(' ')


def spaced_or_none(octets: bytes) -> str:
    """Returns octets as hex pairs, or `none`."""
    return spaced(octets) if octets else 'none'


def counted(number: int, noun: str) -> str:
    """Returns a number with its noun, as `1 octet` and `2 octets`."""
    return f'{number} {noun}' if number == 1 else f'{number} {noun}s'


def listed(numbers) -> str:
    """Returns numbers with commas between, or `none`."""
    return ', '.join(str(number) for number in numbers) or 'none'


def bit(octet: int, number: int) -> bool:
    """Returns whether a bit is set."""
    return bool(octet >> number & 1)


def groups_of(octet: int) -> List[int]:
    """Returns the groups of a Group_Ident or Group_Select, from 1."""
    return [number + 1 for number in range(8) if bit(octet, number)]


def groups_in_words(octet: int) -> str:
    """Returns `group 1`, `groups 1, 4` or `groups none`."""
    groups = groups_of(octet)
    return f'group {groups[0]}' if len(groups) == 1 else f'groups {listed(groups)}'


# ---------------------------------------------------------------------------------------------------------------------
# Frames
# ---------------------------------------------------------------------------------------------------------------------

SD1, SD2, SD3, SD4, SC = 0x10, 0x68, 0xA2, 0xDC, 0xE5
END_DELIMITER = 0x16
FIXED_LENGTHS = {SD1: 6, SD3: 14, SD4: 3, SC: 1}
SD2_HEAD, SD2_AROUND = 4, 6        # octets of the head, and octets that LE does not count
LEAST_LE, MOST_LE = 4, 249
LAYOUTS = {SD1: 'SD1', SD2: 'SD2', SD3: 'SD3'}

SDA_LOW, SDN_LOW, SDA_HIGH, SDN_HIGH = 3, 4, 5, 6
FDL_STATUS, SRD_LOW, SRD_HIGH, IDENT, LSAP_STATUS = 9, 12, 13, 14, 15
FUNCTION_NAMES = {
    SDA_LOW: 'SDA low', SDN_LOW: 'SDN low', SDA_HIGH: 'SDA high', SDN_HIGH: 'SDN high', FDL_STATUS: 'FDL status',
    SRD_LOW: 'SRD low', SRD_HIGH: 'SRD high', IDENT: 'ident', LSAP_STATUS: 'LSAP status',
}
SRD, SDN = (SRD_LOW, SRD_HIGH), (SDN_LOW, SDN_HIGH)
WITH_POINT = (SDA_LOW, SDA_HIGH) + SDN + SRD      # functions that name a service
REPLY_OK, REPLY_UE, REPLY_RR, REPLY_RS, REPLY_DL, REPLY_DH = 0x00, 0x01, 0x02, 0x03, 0x08, 0x0A


class FrameFault(Exception):
    """Octets that are no single frame: the name of the first fault, and what is wrong in words."""

    def __init__(self, name: str, words: str):
        super().__init__(name)
        self.name = name
        self.words = words


def too_short() -> FrameFault:
    return FrameFault('Short', 'the frame is not whole')


def bad_head(head: bytes) -> FrameFault:
    """Returns the fault of a wrong head of SD2, of four octets."""
    if head[1] != head[2]:
        return FrameFault('BadHead', f'the length octets are {head[1]:02x} and {head[2]:02x}')
    if head[3] != SD2:
        return FrameFault('BadHead', f'the second start delimiter is {head[3]:02x}, not {SD2:02x}')
    return FrameFault('BadHead', f'the length is {head[1]}, of {LEAST_LE} to {MOST_LE}')


def bad_end(frame: bytes, right_sequence: int) -> FrameFault:
    """Returns the fault of a frame whose check sequence or end delimiter is wrong."""
    if frame[-2] != right_sequence:
        return FrameFault('BadEnd', f'the check sequence is {frame[-2]:02x}, not {right_sequence:02x}')
    return FrameFault('BadEnd', f'the end delimiter is {frame[-1]:02x}, not {END_DELIMITER:02x}')


@dataclass
class Acknowledgement:
    """SC."""


@dataclass
class Addressed:
    """A frame with addresses, as they stand in the frame: bit 7 is no part of the address."""
    da: int
    sa: int

    @property
    def destination(self) -> int:
        return self.da & 0x7F

    @property
    def source(self) -> int:
        return self.sa & 0x7F


@dataclass
class Token(Addressed):
    """SD4."""


@dataclass
class Parts:
    """The access points and the data of a telegram."""
    dsap: Optional[int]
    ssap: Optional[int]
    payload: bytes


@dataclass
class Telegram(Addressed):
    """SD1, SD2 or SD3, with the octets as they stand in the frame."""
    fc: int
    du: bytes
    layout: str

    @property
    def function(self) -> int:
        return self.fc & 0x0F

    @property
    def is_request(self) -> bool:
        return bit(self.fc, 6)

    @property
    def fcb(self) -> int:
        return int(bit(self.fc, 5))

    @property
    def fcv(self) -> int:
        return int(bit(self.fc, 4))

    @property
    def is_reserved(self) -> bool:
        return self.function not in FUNCTION_NAMES

    def parts(self) -> Optional[Parts]:
        """Returns the access points and the data, or None if an extension octet is missing or not plain."""
        rest = list(self.du)
        points: List[Optional[int]] = []
        for address in (self.da, self.sa):
            if not bit(address, 7):
                points.append(None)
            elif not rest or rest[0] > 63:
                return None
            else:
                points.append(rest.pop(0))
        return Parts(points[0], points[1], bytes(rest))


def frame_length(octets: bytes) -> int:
    """Returns how many octets the frame has by its head."""
    if not octets:
        raise too_short()
    start = octets[0]
    if start in FIXED_LENGTHS:
        return FIXED_LENGTHS[start]
    if start != SD2:
        raise FrameFault('NoStart', 'the first octet is no start delimiter')
    if len(octets) < SD2_HEAD:
        raise too_short()
    if not LEAST_LE <= octets[1] <= MOST_LE or octets[1] != octets[2] or octets[3] != SD2:
        raise bad_head(octets)
    return octets[1] + SD2_AROUND


def check_sequence(octets: bytes) -> int:
    """Returns the sum of octets modulo 256."""
    return sum(octets) % 256


def read_frame(octets: bytes) -> Any:
    """Returns the one frame that the octets are, or raises FrameFault."""
    length = frame_length(octets)
    if len(octets) < length:
        raise too_short()
    start, frame = octets[0], octets[:length]
    if start in LAYOUTS:
        head = SD2_HEAD if start == SD2 else 1
        counted_octets = frame[head:-2]
        if frame[-2:] != bytes([check_sequence(counted_octets), END_DELIMITER]):
            raise bad_end(frame, check_sequence(counted_octets))
    if len(octets) > length:
        raise FrameFault('Long', 'octets follow the frame')
    if start == SC:
        return Acknowledgement()
    if start == SD4:
        return Token(frame[1], frame[2])
    da, sa, fc = counted_octets[:3]
    return Telegram(da, sa, fc, counted_octets[3:], LAYOUTS[start])


def short_reply(request: Telegram, fc: int) -> bytes:
    """Returns a reply SD1: the addresses exchanged, bit 7 zero."""
    content = bytes([request.source, request.destination, fc])
    return bytes([SD1]) + content + bytes([check_sequence(content), END_DELIMITER])


def data_reply(request: Telegram, parts: Parts, data: bytes, due: bool) -> bytes:
    """Returns a positive reply: SD2, SC if there are no data, SD1 if there are none and a diagnosis is due."""
    fc = REPLY_DH if due else REPLY_DL
    if not data:
        return short_reply(request, fc) if due else bytes([SC])
    points = bytes(point for point in (parts.ssap, parts.dsap) if point is not None)
    content = bytes([request.sa, request.da, fc]) + points + data
    head = bytes([SD2, len(content), len(content), SD2])
    return head + content + bytes([check_sequence(content), END_DELIMITER])


# ---------------------------------------------------------------------------------------------------------------------
# Access points
# ---------------------------------------------------------------------------------------------------------------------

DATA_EXCHANGE = None               # the default point
RD_INP, RD_OUTP, GLOBAL_CONTROL, GET_CFG, SLAVE_DIAG, SET_PRM, CHK_CFG = range(56, 63)
POINT_NAMES = {
    DATA_EXCHANGE: 'Data_Exchange', RD_INP: 'RD_Inp', RD_OUTP: 'RD_Outp', GLOBAL_CONTROL: 'Global_Control',
    GET_CFG: 'Get_Cfg', SLAVE_DIAG: 'Slave_Diag', SET_PRM: 'Set_Prm', CHK_CFG: 'Chk_Cfg',
}

NOT_SIMULATED = {                  # points that the table lacks and that have a use in the standard
    49: 'MSAC_C2, DP-V1: not simulated', 50: 'MSAL_C1, DP-V1: not simulated', 51: 'MSAC_C1, DP-V1: not simulated',
    54: 'master to master: not simulated', 55: 'Set_Slave_Add: not simulated',
}

WAIT_PRM, WAIT_CFG, DATA_EXCH = 'WaitPrm', 'WaitCfg', 'DataExch'
STATE_WORDS = {WAIT_PRM: 'Wait_Prm', WAIT_CFG: 'Wait_Cfg', DATA_EXCH: 'Data_Exch'}

OFF, HOLDER, ALL = 'off', 'holder', 'all'
ACCESS = {
    DATA_EXCHANGE: {WAIT_PRM: OFF, WAIT_CFG: OFF, DATA_EXCH: HOLDER},
    RD_INP: {WAIT_PRM: OFF, WAIT_CFG: OFF, DATA_EXCH: ALL},
    RD_OUTP: {WAIT_PRM: OFF, WAIT_CFG: OFF, DATA_EXCH: ALL},
    GLOBAL_CONTROL: {WAIT_PRM: OFF, WAIT_CFG: OFF, DATA_EXCH: HOLDER},
    GET_CFG: {WAIT_PRM: ALL, WAIT_CFG: ALL, DATA_EXCH: ALL},
    SLAVE_DIAG: {WAIT_PRM: ALL, WAIT_CFG: ALL, DATA_EXCH: ALL},
    SET_PRM: {WAIT_PRM: ALL, WAIT_CFG: HOLDER, DATA_EXCH: HOLDER},
    CHK_CFG: {WAIT_PRM: OFF, WAIT_CFG: HOLDER, DATA_EXCH: HOLDER},
}


def use_in_words(point: Optional[int]) -> str:
    """Returns what a point outside the table is for, in parentheses, or an empty text."""
    return f' ({NOT_SIMULATED[point]})' if point in NOT_SIMULATED else ''


def point_name(point: Optional[int]) -> str:
    """Returns a point as sentences name it."""
    return POINT_NAMES[point] if point in POINT_NAMES else f'DSAP {point}{use_in_words(point)}'


def point_with_number(point: Optional[int]) -> str:
    """Returns a point of the table with its number, as `Set_Prm (61)`."""
    return POINT_NAMES[point] if point is DATA_EXCHANGE else f'{POINT_NAMES[point]} ({point})'


def point_in_kind(parts: Parts) -> str:
    """Returns the points of a telegram as its kind shows them."""
    if parts.dsap in POINT_NAMES:
        name = point_with_number(parts.dsap)
        return name if parts.ssap is None else f'{name} from {parts.ssap}'
    sender = '' if parts.ssap is None else f', SSAP {parts.ssap}'
    return f'DSAP {parts.dsap}{sender}{use_in_words(parts.dsap)}'


# ---------------------------------------------------------------------------------------------------------------------
# Configuration identifiers
# ---------------------------------------------------------------------------------------------------------------------

INPUTS, OUTPUTS, BOTH = 'inputs', 'outputs', 'inputs and outputs'
DIRECTIONS = {1: INPUTS, 2: OUTPUTS, 3: BOTH}
LENGTH_OCTETS = {0: (), 1: (INPUTS,), 2: (OUTPUTS,), 3: (OUTPUTS, INPUTS)}
NO_VENDOR_OCTETS = 15


@dataclass
class Identifier:
    """An identifier: its octets, its lengths as (direction, number, words or octets), its octets of the maker."""
    octets: bytes
    lengths: List[Tuple[str, int, bool]]
    vendor: bytes

    def in_words(self) -> str:
        parts = [f'{direction} {counted(number, "word" if is_words else "octet")}'
                 for direction, number, is_words in self.lengths]
        if not parts:
            parts = ['empty slot']
        if self.vendor:
            parts.append(f'vendor {spaced(self.vendor)}')
        return f'{spaced(self.octets)} {", ".join(parts)}'

    def size(self, direction: str) -> int:
        """Returns how many octets of inputs or outputs the identifier has."""
        return sum(number * (2 if is_words else 1)
                   for whose, number, is_words in self.lengths if whose in (direction, BOTH))


def read_identifier(octets: bytes) -> Optional[Identifier]:
    """Returns the identifier at the front of the octets, or None if it is cut off."""
    first = octets[0]
    kind = first >> 4 & 3
    if kind:
        return Identifier(octets[:1], [(DIRECTIONS[kind], (first & 0x0F) + 1, bit(first, 6))], b'')
    directions = LENGTH_OCTETS[first >> 6]
    vendor = 0 if first & 0x0F == NO_VENDOR_OCTETS else first & 0x0F
    whole = 1 + len(directions) + vendor
    if len(octets) < whole:
        return None
    lengths = [(direction, (octet & 0x3F) + 1, bit(octet, 6)) for direction, octet in zip(directions, octets[1:])]
    return Identifier(octets[:whole], lengths, octets[whole - vendor:whole])


def read_configuration(octets: bytes) -> Tuple[List[Identifier], bytes]:
    """Returns the identifiers of a configuration, and the octets that are left if the last one is cut off."""
    identifiers = []
    while octets:
        identifier = read_identifier(octets)
        if identifier is None:
            break
        identifiers.append(identifier)
        octets = octets[len(identifier.octets):]
    return identifiers, octets


def configuration_in_words(octets: bytes) -> str:
    """Returns a configuration, identifier by identifier."""
    identifiers, rest = read_configuration(octets)
    texts = [identifier.in_words() for identifier in identifiers]
    if rest:
        texts.append(f'{spaced(rest)} ends within an identifier')
    return '; '.join(texts)


def slot_faults(sent: List[Identifier], present: List[Identifier]) -> List[str]:
    """Returns in words each slot in which the identifiers of a Chk_Cfg and those of the slave differ."""
    faults = []
    for slot, (theirs, ours) in enumerate(zip_longest(sent, present), 1):
        if ours is None:
            faults.append(f'slot {slot}, {spaced(theirs.octets)}, is not in the slave')
        elif theirs is None:
            faults.append(f'slot {slot}, {spaced(ours.octets)}, is missing')
        elif theirs.octets != ours.octets:
            faults.append(f'slot {slot} is {spaced(theirs.octets)}, the slave has {spaced(ours.octets)}')
    return faults


def configuration_size(octets: bytes, direction: str) -> int:
    """Returns how many octets of inputs or of outputs a whole configuration has."""
    return sum(identifier.size(direction) for identifier in read_configuration(octets)[0])


# ---------------------------------------------------------------------------------------------------------------------
# Rack file
# ---------------------------------------------------------------------------------------------------------------------


class RackFault(Exception):
    """A rack that is refused: the first row of standard error and the cause below it."""


@dataclass
class SlaveSpec:
    """A slave as the rack file has it."""
    address: int
    ident: int
    configurations: List[bytes]
    sync: bool
    freeze: bool
    failsafe: bool
    user_max: int
    lockers: Optional[List[int]]
    readers: Optional[List[int]]

    @property
    def needs_version_2(self) -> bool:
        return (self.lockers is not None or self.readers is not None or len(self.configurations) > 1
                or self.failsafe)


@dataclass
class LineSpec:
    """A line as the rack file has it."""
    number: int
    capacity: int
    masters: List[int]
    slaves: List[SlaveSpec]


def read_slave(table: Dict[str, Any]) -> SlaveSpec:
    """Returns the slave of a table of the rack file."""
    texts = table['cfg']
    if isinstance(texts, str):
        texts = [texts]
    return SlaveSpec(table['address'], table['ident'], [bytes.fromhex(text) for text in texts],
                     table.get('sync', False), table.get('freeze', False), table.get('failsafe', False),
                     table.get('user_max', 237), table.get('lockers'), table.get('readers'))


def check_configurations(position: int, line: LineSpec) -> None:
    """Raises RackFault if a configuration of the line is faulty."""
    for which, slave in enumerate(line.slaves, 1):
        for number, octets in enumerate(slave.configurations, 1):
            rest = read_configuration(octets)[1]
            where = f'  line {position}, slave {which}: configuration {number}'
            if rest:
                cause = f'{where} ends within its identifier at octet {len(octets) - len(rest) + 1}'
                raise RackFault(f'rackd: rack line {position} BadCfg\n{cause}\n')
            for direction in (INPUTS, OUTPUTS):
                if configuration_size(octets, direction) > CONFIGURATION_LIMIT:
                    raise RackFault(f'rackd: rack line {position} BadCfg\n{where} has too many {direction}\n')


def read_rack(text: str) -> List[LineSpec]:
    """Returns the lines of a rack file. Of its faults only those of the stored cases are found in full."""
    import tomllib
    try:
        rack = tomllib.loads(text)
    except tomllib.TOMLDecodeError as fault:
        raise RackFault(f'rackd: rack NotToml\n  {fault}\n')
    try:
        lines = [LineSpec(table['number'], table['capacity'], table['masters'],
                          [read_slave(slave) for slave in table['slave']]) for table in rack['line']]
    except (KeyError, TypeError, ValueError) as fault:
        raise RackFault(f'rackd: rack BadKey\n  {fault}\n')
    for position, line in enumerate(lines, 1):
        check_configurations(position, line)
    return lines


# ---------------------------------------------------------------------------------------------------------------------
# Events
# ---------------------------------------------------------------------------------------------------------------------


@dataclass
class Request:
    master: int
    octets: bytes


@dataclass
class Input:
    address: int
    octets: bytes


@dataclass
class Report:
    address: int
    ext: bool
    stat: bool
    overflow: bool
    octets: bytes


@dataclass
class Mark:
    address: int
    point: Optional[int]
    on: bool


@dataclass
class Tick:
    units: int


@dataclass
class Halt:
    pass


# ---------------------------------------------------------------------------------------------------------------------
# Set_Prm
# ---------------------------------------------------------------------------------------------------------------------

LEAST_PARAMETERS = 7


@dataclass
class Parameters:
    """The octets of a Set_Prm, at least seven."""
    octets: bytes

    @property
    def lock(self) -> bool:
        return bit(self.octets[0], 7) and not self.unlock

    @property
    def unlock(self) -> bool:
        return bit(self.octets[0], 6)

    @property
    def sync(self) -> bool:
        return bit(self.octets[0], 5)

    @property
    def freeze(self) -> bool:
        return bit(self.octets[0], 4)

    @property
    def watchdog_on(self) -> bool:
        return bit(self.octets[0], 3)

    @property
    def watchdog(self) -> int:
        """The watchdog time in units of 10 ms, 0 if the watchdog is off or a factor is 0."""
        return self.octets[1] * self.octets[2] if self.watchdog_on else 0

    @property
    def min_tsdr(self) -> int:
        return self.octets[3]

    @property
    def ident(self) -> int:
        return self.octets[4] << 8 | self.octets[5]

    @property
    def groups(self) -> int:
        return self.octets[6]

    @property
    def user(self) -> bytes:
        return self.octets[7:]


DPV1_LENGTH = 3
DPV1_RESERVED = (0x18, 0x02, 0x60)           # bits of the three octets that are 0 in the form of DP-V1
DPV1_BITS = (
    ((7, 'DPV1_Enable'), (6, 'Fail_Safe'), (5, 'Publisher_Enable'), (2, 'WD_Base_1ms'), (1, 'Dis_Stopbit_Control'),
     (0, 'Dis_Startbit_Control')),
    ((7, 'Enable_Pull_Plug_Alarm'), (6, 'Enable_Process_Alarm'), (5, 'Enable_Diagnostic_Alarm'),
     (4, 'Enable_Manufacturer_Specific_Alarm'), (3, 'Enable_Status_Alarm'), (2, 'Enable_Update_Alarm'),
     (0, 'Chk_Cfg_Mode')),
    ((7, 'Prm_Cmd'), (4, 'IsoM_Req'), (3, 'Prm_Structure')),
)
ALARM_MODE = 0x07                            # bits of the third octet


def is_dpv1(user: bytes) -> bool:
    """Returns whether user parameters have the form of DP-V1."""
    octets = user[:DPV1_LENGTH]
    return (len(octets) == DPV1_LENGTH and any(octets)
            and not any(octet & reserved for octet, reserved in zip(octets, DPV1_RESERVED)))


def user_parameters_in_words(user: bytes) -> str:
    """Returns user parameters in hex, with the names of the bits that are set if they have the form of DP-V1."""
    if not is_dpv1(user):
        return spaced_or_none(user)
    names = [name for octet, bits in zip(user, DPV1_BITS) for number, name in bits if bit(octet, number)]
    if user[2] & ALARM_MODE:
        names.append(f'Alarm_Mode {user[2] & ALARM_MODE}')
    return f'{spaced(user)} ({", ".join(names)})'


def watchdog_in_words(parameters: Parameters) -> str:
    if not parameters.watchdog_on:
        return 'watchdog off'
    if parameters.watchdog == 0:
        return 'watchdog time 0'
    return f'watchdog {parameters.watchdog * MS_PER_UNIT} ms'


def parameters_in_words(octets: bytes) -> str:
    """Returns the text of the row `parameters`."""
    if len(octets) < LEAST_PARAMETERS:
        return f'too short: {len(octets)} of at least {LEAST_PARAMETERS} octets'
    parameters = Parameters(octets)
    if parameters.unlock:
        return 'Unlock_Req'
    if not parameters.lock:
        return f'min TSDR {parameters.min_tsdr} alone' if parameters.min_tsdr else 'nothing is set'
    requests = ['Lock_Req'] + [name for name, is_set in (('Sync_Req', parameters.sync),
                                                         ('Freeze_Req', parameters.freeze)) if is_set]
    return '; '.join([
        ', '.join(requests),
        watchdog_in_words(parameters),
        f'min TSDR {parameters.min_tsdr or "unchanged"}',
        f'ident {parameters.ident:04X}',
        groups_in_words(parameters.groups),
        f'user parameters {user_parameters_in_words(parameters.user)}',
    ])


def parameter_faults(octets: bytes, spec: SlaveSpec) -> List[str]:
    """Returns what is wrong with the octets of a Set_Prm, in words."""
    if len(octets) < LEAST_PARAMETERS:
        return [f'{counted(len(octets), "octet")}, at least {LEAST_PARAMETERS}']
    parameters = Parameters(octets)
    if not parameters.lock:
        return []
    faults = []
    if parameters.ident != spec.ident:
        faults.append(f'ident {parameters.ident:04X}, the slave has {spec.ident:04X}')
    if parameters.watchdog_on and parameters.watchdog == 0:
        faults.append('watchdog time 0')
    if parameters.sync and not spec.sync:
        faults.append('Sync_Req, the slave has no Sync')
    if parameters.freeze and not spec.freeze:
        faults.append('Freeze_Req, the slave has no Freeze')
    if len(parameters.user) > spec.user_max:
        faults.append(f'{counted(len(parameters.user), "user parameter")}, the slave takes {spec.user_max}')
    return faults


LOCK_BESIDE_UNLOCK = 'Lock_Req does nothing beside Unlock_Req.'
WITHOUT_LOCK = 'Lock_Req is missing: nobody holds the slave.'
LOW_TSDR = 'Min TSDR is below 11.'
LEAST_TSDR = 11
SURPRISES = (LOCK_BESIDE_UNLOCK, WITHOUT_LOCK, LOW_TSDR)       # of a Set_Prm that was done; `--faults` chooses them


def low_tsdr(parameters: Parameters) -> str:
    """Returns what is to be said of a min TSDR that is below the least one; 0 leaves it unchanged."""
    return f' {LOW_TSDR}' if 0 < parameters.min_tsdr < LEAST_TSDR else ''


def is_not_supported(octets: bytes, spec: SlaveSpec) -> bool:
    """Returns whether a locking Set_Prm asks for a mode that the slave lacks."""
    if len(octets) < LEAST_PARAMETERS or not Parameters(octets).lock:
        return False
    parameters = Parameters(octets)
    return parameters.sync and not spec.sync or parameters.freeze and not spec.freeze


# ---------------------------------------------------------------------------------------------------------------------
# Diagnosis
# ---------------------------------------------------------------------------------------------------------------------

DIAGNOSIS_HEAD = 6
STATUS_BITS = (
    ((1, 'Station_Not_Ready'), (2, 'Cfg_Fault'), (3, 'Ext_Diag'), (4, 'Not_Supported'), (6, 'Prm_Fault')),
    ((0, 'Prm_Req'), (1, 'Stat_Diag'), (3, 'WD_On'), (4, 'Freeze_Mode'), (5, 'Sync_Mode')),
    ((7, 'Ext_Diag_Overflow'),),
)
ALWAYS_SET = 0x04                  # of Station_status_2


def held_in_words(holder: Optional[int]) -> str:
    return 'held by nobody' if holder is None else f'held by master {holder}'


DEVICE_BLOCK, IDENTIFIER_BLOCK, CHANNEL_BLOCK, REVISION_BLOCK = range(4)     # bits 7 and 6 of the head
CHANNEL_LENGTH, REVISION_LENGTH = 3, 1
CHANNEL_DIRECTIONS = {1: 'input', 2: 'output', 3: 'input and output'}
CHANNEL_TYPES = {1: '1 bit', 2: '2 bits', 3: '4 bits', 4: '1 octet', 5: '1 word', 6: '2 words'}
CHANNEL_ERRORS = {1: 'short circuit', 2: 'undervoltage', 3: 'overvoltage', 4: 'overload', 5: 'overtemperature',
                  6: 'line break', 7: 'upper limit exceeded', 8: 'lower limit exceeded', 9: 'error'}


def block_length(head: int) -> int:
    """Returns how many octets a block has by its head; 0 is no length."""
    fixed = {CHANNEL_BLOCK: CHANNEL_LENGTH, REVISION_BLOCK: REVISION_LENGTH}
    return fixed.get(head >> 6, head & 0x3F)


def cut_blocks(octets: bytes) -> Optional[List[bytes]]:
    """Returns the blocks of an extended diagnosis, or None if the octets do not have this form."""
    blocks = []
    while octets:
        length = block_length(octets[0])
        if length == 0 or len(octets) < length:
            return None
        blocks.append(octets[:length])
        octets = octets[length:]
    return blocks


def identifier_block_in_words(octets: bytes) -> str:
    """Returns the numbers of the identifiers whose bits are set."""
    numbers = [8 * position + number for position, octet in enumerate(octets) for number in range(8)
               if bit(octet, number)]
    if not numbers:
        return 'no identifier'
    return f'{"identifier" if len(numbers) == 1 else "identifiers"} {listed(numbers)}'


def channel_block_in_words(block: bytes) -> str:
    """Returns the channel, its direction and type, and its error."""
    identifier, channel, error = block[0] & 0x3F, block[1] & 0x3F, block[2] & 0x1F
    found = [CHANNEL_DIRECTIONS.get(block[1] >> 6), CHANNEL_TYPES.get(block[2] >> 5)]
    details = ', '.join(detail for detail in found if detail)
    in_parentheses = f' ({details})' if details else ''
    return f'channel {channel} of identifier {identifier}{in_parentheses}: ' \
           f'{CHANNEL_ERRORS.get(error, f"error {error}")}'


def block_in_words(block: bytes) -> str:
    """Returns a block of an extended diagnosis in words."""
    kind = block[0] >> 6
    if kind == DEVICE_BLOCK:
        return f'device {spaced(block[1:])}' if block[1:] else 'device'
    if kind == IDENTIFIER_BLOCK:
        return identifier_block_in_words(block[1:])
    if kind == CHANNEL_BLOCK:
        return channel_block_in_words(block)
    return f'revision {block[0] & 0x3F}'


def extended_in_words(octets: bytes) -> str:
    """Returns an extended diagnosis in hex, with its blocks in words if it has blocks."""
    blocks = cut_blocks(octets)
    words = f' ({"; ".join(block_in_words(block) for block in blocks)})' if blocks else ''
    return f'extended diagnosis {spaced(octets)}{words}'


def diagnosis_in_words(octets: bytes) -> str:
    """Returns the text of a reply to Slave_Diag."""
    texts = [', '.join(name for number, name in bits if bit(octet, number))
             for octet, bits in zip(octets, STATUS_BITS)]
    texts.append(held_in_words(None if octets[3] == NOBODY else octets[3]))
    texts.append(f'ident {octets[4]:02X}{octets[5]:02X}')
    if octets[DIAGNOSIS_HEAD:]:
        texts.append(extended_in_words(octets[DIAGNOSIS_HEAD:]))
    return '; '.join(text for text in texts if text)


# ---------------------------------------------------------------------------------------------------------------------
# Global_Control
# ---------------------------------------------------------------------------------------------------------------------

COMMAND_LENGTH = 2
COMMAND_BITS = ((1, 'Clear_Data'), (2, 'Unfreeze'), (3, 'Freeze'), (4, 'Unsync'), (5, 'Sync'))


def command_in_words(octets: bytes) -> str:
    """Returns the text of the row `command`."""
    names = ', '.join(name for number, name in COMMAND_BITS if bit(octets[0], number)) or 'Operate'
    return f'{names}; {groups_in_words(octets[1]) if octets[1] else "every slave"}'


# ---------------------------------------------------------------------------------------------------------------------
# A slave
# ---------------------------------------------------------------------------------------------------------------------


UNKNOWN_PLACE = 0                  # of a request in an earlier part of a text
NO_OCTETS = '-'                    # no octets in an audit text
ENDINGS = {'wrong configuration': 'wrong_configuration', 'wrong parameters': 'wrong_parameters', 'unlocked': 'unlocked',
           'the line halted': 'halted', 'its watchdog ran out': 'watchdog', 'to the end': 'lasts'}    # words, name in JSON
Facts = Dict[str, Any]


def facts_of(kind: str, **fields: Any) -> Facts:
    """Returns the facts of an answer: their kind, and the fields of that kind."""
    return {'kind': kind, **fields}


@dataclass
class Did:
    """What a slave did by a service: the sentence of its result, and its facts."""
    words: str
    facts: Facts


@dataclass
class Noted:
    """What a slave remembers of a master: the last FCB and reply, and of which request."""
    fcb: int
    reply: bytes
    place: int
    point: Optional[int]
    octets: bytes


def mode_act(is_sent: bool, ends: bool, is_asked: bool) -> str:
    """Returns what a Sync or a Freeze does: beside its end, and by whether the parameters ask for it."""
    if not is_sent:
        return 'not_sent'
    if ends:
        return 'beside_its_end'
    return 'acts' if is_asked else 'not_asked_for'


class Slave:
    """A slave and what its services do, as docs/reference/policy.md says. A service returns what it did."""

    def __init__(self, spec: SlaveSpec):
        self.spec = spec
        self.address = spec.address
        self.shape = 0
        self.state = WAIT_PRM
        self.holder: Optional[int] = None
        self.since = 0
        self.min_tsdr = FIRST_MIN_TSDR
        self.parameters: Optional[Parameters] = None
        self.inputs = self.copy = bytes(self.input_length)
        self.outputs = self.latest = bytes(self.output_length)
        self.sync_mode = self.freeze_mode = self.cleared = False
        self.left: Optional[int] = None
        self.ext = self.stat = self.overflow = self.unread = False
        self.extended = b''
        self.prm_fault = self.cfg_fault = self.not_supported = False
        self.busy: set = set()
        self.memory: Dict[int, Noted] = {}
        self.released_by: Optional[str] = None        # why the last hold ended
        self.released_at: Optional[int] = None        # the entry that ended it

    @property
    def configuration(self) -> bytes:
        return self.spec.configurations[self.shape]

    @property
    def input_length(self) -> int:
        return configuration_size(self.configuration, INPUTS)

    @property
    def output_length(self) -> int:
        return configuration_size(self.configuration, OUTPUTS)

    @property
    def shown_inputs(self) -> bytes:
        return self.copy if self.freeze_mode else self.inputs

    @property
    def is_diagnosis_due(self) -> bool:
        return self.unread or self.stat

    def facts(self) -> str:
        """Returns state and holder as the audit text has them."""
        return f'{self.state} {"none" if self.holder is None else self.holder}'

    def condition(self) -> str:
        """Returns state and holder as the row `change` has them."""
        return f'{STATE_WORDS[self.state]}, {held_in_words(self.holder)}'

    def state_in_words(self) -> str:
        """Returns the state, and in Wait_Prm how the last hold ended, if there was one."""
        if self.state != WAIT_PRM or self.released_at is None:
            return STATE_WORDS[self.state]
        return f'{STATE_WORDS[self.state]} since entry {self.released_at} ({self.released_by})'

    def last_release(self) -> Optional[Facts]:
        """Returns in Wait_Prm which entry ended the last hold, and how, if there was one."""
        if self.state != WAIT_PRM or self.released_at is None:
            return None
        return {'place': self.released_at, 'ending': ENDINGS[self.released_by]}

    def access(self, point: Optional[int]) -> str:
        """Returns who may use a point in this state."""
        return ACCESS[point][self.state] if point in ACCESS else OFF

    def zero_outputs(self) -> None:
        self.outputs = self.latest = bytes(self.output_length)

    def end_modes(self) -> None:
        self.sync_mode = self.freeze_mode = self.cleared = False

    def release(self, cause: str) -> bool:
        """Releases the slave; returns whether a master held it."""
        was_held = self.holder is not None
        if was_held:
            self.released_by = cause
        self.state, self.holder, self.since, self.parameters, self.left = WAIT_PRM, None, 0, None, None
        self.zero_outputs()
        self.end_modes()
        return was_held

    def restart_watchdog(self) -> None:
        """Gives a watchdog that runs its full time again."""
        if self.left is not None:
            self.left = self.parameters.watchdog

    def tick(self, units: int) -> Optional[int]:
        """Advances time; returns the watchdog time in ms if the watchdog ran out."""
        if self.left is None:
            return None
        if units < self.left:
            self.left -= units
            return None
        full = self.parameters.watchdog * MS_PER_UNIT
        self.release('its watchdog ran out')
        return full

    # ---- Services

    def set_prm(self, sender: int, place: int, octets: bytes) -> Did:
        faults = parameter_faults(octets, self.spec)
        if faults:
            return self.refuse_parameters(faults, octets)
        parameters, holder = Parameters(octets), self.holder
        if parameters.unlock:
            return self.unlock(bit(octets[0], 7))
        if parameters.min_tsdr:
            self.min_tsdr = parameters.min_tsdr
        if parameters.lock:
            return self.lock(sender, place, parameters)
        if sender == holder:
            self.restart_watchdog()
        missing = f' {WITHOUT_LOCK}' if holder is None else ''
        verb, kind = ('is', 'MinTsdrSet') if parameters.min_tsdr else ('stays', 'MinTsdrStays')
        return Did(f'done: min TSDR {verb} {self.min_tsdr}.{missing}{low_tsdr(parameters)}',
                   facts_of(kind, holder=holder, min_tsdr=self.min_tsdr))

    def unlock(self, locks: bool) -> Did:
        """Does a Set_Prm with Unlock_Req; `locks` is whether it has Lock_Req too."""
        facts = facts_of('Unlocked', released=self.holder, lock_req=locks)
        held = self.release('unlocked')
        beside = f' {LOCK_BESIDE_UNLOCK}' if locks else ''
        words = f'slave {self.address} is released' if held else f'nobody held slave {self.address}'
        return Did(f'unlocked: {words}.{beside}', facts)

    def refuse_parameters(self, faults: List[str], octets: bytes) -> Did:
        facts = facts_of('WrongParameters', released=self.holder)
        held = self.release('wrong parameters')
        self.prm_fault, self.cfg_fault = True, False
        self.not_supported = is_not_supported(octets, self.spec)
        return Did(f'wrong parameters: {"; ".join(faults)}.{" Released." if held else ""}', facts)

    def lock(self, sender: int, place: int, parameters: Parameters) -> Did:
        again = self.holder == sender
        if not again:
            self.since = place
        self.state, self.holder, self.parameters = WAIT_CFG, sender, parameters
        self.zero_outputs()
        self.end_modes()
        self.left = parameters.watchdog if parameters.watchdog_on else None
        self.prm_fault = self.cfg_fault = self.not_supported = False
        held, low = f'master {sender} holds slave {self.address}', low_tsdr(parameters)
        if again:
            return Did(f'locked again: {held} since entry {self.since}.{low}',
                       facts_of('LockedAgain', since=self.since, min_tsdr=parameters.min_tsdr))
        return Did(f'locked: {held}.{low}', facts_of('Locked', min_tsdr=parameters.min_tsdr))

    def chk_cfg(self, octets: bytes) -> Did:
        if octets not in self.spec.configurations:
            facts = facts_of('WrongConfiguration', released=self.holder)
            held = self.release('wrong configuration')
            self.cfg_fault = True
            return Did(f'wrong configuration: {self.configuration_fault(octets)}.{" Released." if held else ""}', facts)
        number, before = self.spec.configurations.index(octets), self.shape
        self.state, self.cfg_fault = DATA_EXCH, False
        self.restart_watchdog()
        facts = facts_of('Configured', number=number, before=before)
        if number == before:
            return Did(f'good configuration: number {number}.', facts)
        self.change_shape(number)
        return Did(f'good configuration: number {number} in place of {before}.', facts)

    def change_shape(self, number: int) -> None:
        self.shape = number
        length = self.input_length
        self.inputs = self.inputs[:length].ljust(length, b'\0')
        self.copy = self.copy[:length].ljust(length, b'\0')
        self.zero_outputs()
        self.end_modes()

    def configuration_fault(self, octets: bytes) -> str:
        """Returns in words why a configuration is wrong."""
        identifiers, rest = read_configuration(octets)
        if len(self.spec.configurations) == 1 and not rest:
            return '; '.join(slot_faults(identifiers, read_configuration(self.configuration)[0]))
        has = ' or '.join(spaced_or_none(configuration) for configuration in self.spec.configurations)
        return f'the slave has {has}'

    def data_exchange(self, octets: bytes) -> Did:
        stays_cleared = self.cleared and not octets and self.output_length > 0
        self.latest = bytes(self.output_length) if stays_cleared else octets
        if not self.sync_mode:
            self.outputs = self.latest
        self.cleared = stays_cleared
        self.restart_watchdog()
        if stays_cleared:
            return Did('done: no data, for zeros; the slave stays cleared.', facts_of('NoOutputs'))
        if self.sync_mode:
            return Did('done: the data wait for Sync.', facts_of('OutputsWait'))
        return Did('done.', facts_of('OutputsTaken'))

    def slave_diag(self, sender: int) -> Did:
        facts = facts_of('Diagnosis', by_holder=sender == self.holder)
        if sender != self.holder:
            return Did('done.', facts)
        self.unread = False
        self.restart_watchdog()
        return Did('done: read by the holder.', facts)

    def diagnosis(self) -> bytes:
        """Returns the octets of the diagnosis."""
        first = (self.state != DATA_EXCH) << 1 | self.cfg_fault << 2 | self.ext << 3 | self.not_supported << 4 \
            | self.prm_fault << 6
        second = (self.state == WAIT_PRM) << 0 | self.stat << 1 | ALWAYS_SET | (self.left is not None) << 3 \
            | self.freeze_mode << 4 | self.sync_mode << 5
        third = self.overflow << 7
        holder = NOBODY if self.holder is None else self.holder
        return bytes([first, second, third, holder, self.spec.ident >> 8, self.spec.ident & 0xFF]) + self.extended

    def global_control(self, octets: bytes) -> Did:
        clear, unfreeze, freeze, unsync, sync = (bit(octets[0], number) for number, _ in COMMAND_BITS)
        facts = facts_of('Control', clear=clear, unsync=unsync, sync=mode_act(sync, unsync, self.parameters.sync),
                         unfreeze=unfreeze, freeze=mode_act(freeze, unfreeze, self.parameters.freeze))
        done, remarks = [], []
        if clear:
            self.zero_outputs()
            self.cleared = self.spec.failsafe
            done.append('outputs cleared')
        if unsync:
            self.sync_mode, self.outputs = False, self.latest
            done.append('Unsync')
        if sync:
            remarks.append(self.sync(unsync, done))
        if unfreeze:
            self.freeze_mode = False
            done.append('Unfreeze')
        if freeze:
            remarks.append(self.freeze(unfreeze, done))
        self.restart_watchdog()
        words = ' '.join([f'done: {", ".join(done) or "no change"}.'] + [remark for remark in remarks if remark])
        return Did(words, facts)

    def sync(self, unsync: bool, done: List[str]) -> str:
        """Does Sync; returns why it does nothing, or an empty text."""
        if unsync:
            return 'Sync does nothing beside Unsync.'
        if not self.parameters.sync:
            return 'Sync does nothing without Sync_Req.'
        self.sync_mode, self.outputs = True, self.latest
        done.append('Sync')
        return ''

    def freeze(self, unfreeze: bool, done: List[str]) -> str:
        """Does Freeze; returns why it does nothing, or an empty text."""
        if unfreeze:
            return 'Freeze does nothing beside Unfreeze.'
        if not self.parameters.freeze:
            return 'Freeze does nothing without Freeze_Req.'
        self.freeze_mode, self.copy = True, self.inputs
        done.append('Freeze')
        return ''

    def report(self, event: Report) -> None:
        self.ext, self.stat, self.overflow, self.extended = event.ext, event.stat, event.overflow, event.octets
        self.unread = True


# ---------------------------------------------------------------------------------------------------------------------
# The verdict on a request, from the point on
# ---------------------------------------------------------------------------------------------------------------------

REFUSAL_CODES = {'NoService': REPLY_RS, 'NotActive': REPLY_RS, 'NotHolder': REPLY_RS, 'NotListed': REPLY_RS,
                 'Busy': REPLY_RR, 'Length': REPLY_UE}


@dataclass
class Refusal:
    """A rule that refuses a request at a slave, or that does not select the slave, and the reason in a sentence."""
    rule: str
    reason: str
    facts: Facts
    way: Optional[str] = None      # if it is not the rule


def lengths_taken(slave: Slave, point: Optional[int]) -> Tuple[List[int], Optional[int]]:
    """Returns the numbers of octets that a point takes; or no number, and the most that it takes."""
    if point == DATA_EXCHANGE:
        most = slave.output_length
        return ([0, most] if slave.cleared and most else [most]), None
    if point == GLOBAL_CONTROL:
        return [COMMAND_LENGTH], None
    if point in (SET_PRM, CHK_CFG):
        return [], SERVICE_LIMIT
    return [0], None


def refuse_by_length(slave: Slave, point: Optional[int], length: int) -> Optional[Refusal]:
    takes, most = lengths_taken(slave, point)
    if length in takes or most is not None and length <= most:
        return None
    words = f'up to {most}' if takes == [] else f'{takes[1]} or none' if len(takes) > 1 else str(takes[0] or 'none')
    return Refusal('Length', f'{counted(length, "octet")}, the slave takes {words}.',
                   facts_of('Length', sent=length, takes=takes, most=most))


def refuse_by_access(slave: Slave, sender: int, point: Optional[int]) -> Optional[Refusal]:
    """The rows NotActive, NotHolder and NotListed."""
    access, name = slave.access(point), point_name(point)
    if access == OFF and point not in ACCESS:
        return Refusal('NotActive', f'Slave {slave.address} has no {name}.', facts_of('NoPoint', point=point))
    if access == OFF:
        return Refusal('NotActive', f'Slave {slave.address} is in {slave.state_in_words()}, where {name} is off.',
                       facts_of('PointOff', point=point, state=STATE_WORDS[slave.state], release=slave.last_release()))
    if access == HOLDER and sender != slave.holder:
        return Refusal('NotHolder', f'Master {slave.holder} holds slave {slave.address} since entry {slave.since}.',
                       facts_of('NotHolder', holder=slave.holder, since=slave.since))
    return refuse_by_lists(slave, sender, point)


def refuse_by_lists(slave: Slave, sender: int, point: Optional[int]) -> Optional[Refusal]:
    names, which = None, ''
    if point == SET_PRM:
        names, which = slave.spec.lockers, 'lockers'
    elif point in (RD_INP, RD_OUTP) and sender != slave.holder:
        names, which = slave.spec.readers, 'readers'
    if names is None or sender in names:
        return None
    return Refusal('NotListed', f'Master {sender} is none of its {which} ({listed(names)}).',
                   facts_of('NotListed', list=which))


def refuse_by_selection(slave: Slave, payload: bytes) -> Optional[Refusal]:
    select, groups = payload[1], slave.parameters.groups
    if select == 0 or select & groups:
        return None
    member = f'in {groups_in_words(groups)}' if groups else 'in no group'
    return Refusal('NotSelected', f'The command is for {groups_in_words(select)} (Group_Select {select:02x}), '
                                  f'slave {slave.address} is {member} (Group_Ident {groups:02x}).',
                   facts_of('NotSelected', select=select, group=groups))


def refuse(slave: Slave, sender: int, function: int, parts: Parts) -> Optional[Refusal]:
    """The rows of the verdict from NotActive to NotSelected; None if the service is done."""
    point, name = parts.dsap, point_name(parts.dsap)
    refusal = refuse_by_access(slave, sender, point)
    if refusal:
        return refusal
    wanted = 'SDN' if point == GLOBAL_CONTROL else 'SRD'
    if function not in (SDN if wanted == 'SDN' else SRD):
        return Refusal('NoService', f'{name} takes {wanted} alone.', facts_of('NoService', point=point, takes=wanted))
    if point in slave.busy:
        return Refusal('Busy', f'The operator has marked {name} busy.', facts_of('Busy', point=point))
    refusal = refuse_by_length(slave, point, len(parts.payload))
    if refusal:
        return refusal
    return refuse_by_selection(slave, parts.payload) if point == GLOBAL_CONTROL else None


# ---------------------------------------------------------------------------------------------------------------------
# The ways in which a request is answered
# ---------------------------------------------------------------------------------------------------------------------

LIVE_LIST_POLL, TO_NO_SLAVE = 'live-list poll', 'to no slave'
RETRY, OTHER_TELEGRAM = 'Repeat (retry)', 'Repeat (other)'
WRONG_SET_PRM, WRONG_CHK_CFG = 'wrong Set_Prm', 'wrong Chk_Cfg'
NOT_SELECTED, NONE_SELECTED, NOT_ASKED_FOR = 'NotSelected', 'none selected', 'not asked for'
WRONG_WAYS = {'wrong parameters': WRONG_SET_PRM, 'wrong configuration': WRONG_CHK_CFG}     # by the words of a result

WAYS = ('Halted', 'NoFrame', 'NoMaster', 'ForeignSender', 'Token', 'NotRequest', 'BadFunction', 'BadExtension',
        'BadBroadcast', 'NoStation', LIVE_LIST_POLL, 'Status', 'NoService', RETRY, OTHER_TELEGRAM, 'NotActive',
        'NotHolder', 'NotListed', 'Busy', 'Length', NOT_SELECTED, NONE_SELECTED, 'Done', NOT_ASKED_FOR, WRONG_SET_PRM,
        WRONG_CHK_CFG, TO_NO_SLAVE)
NO_FAULTS = ('Token', LIVE_LIST_POLL, 'Status', RETRY, NOT_SELECTED, 'Done', TO_NO_SLAVE)
FAULTS = tuple(way for way in WAYS if way not in NO_FAULTS)
NOT_REFUSED = ('Token', 'NotRequest', LIVE_LIST_POLL, 'Status', RETRY, OTHER_TELEGRAM, 'Done', NOT_ASKED_FOR,
               WRONG_SET_PRM, WRONG_CHK_CFG, TO_NO_SLAVE)


def way_of_done(result: str) -> str:
    """Returns the way of a request of rule Done, by its result."""
    return WRONG_WAYS.get(result.partition(':')[0], 'Done')


def way_of_control(slave: Slave, rule: str, payload: bytes) -> str:
    """Returns the way of a Global_Control at one slave, by its rule."""
    if rule != 'Done':
        return rule
    _, unfreeze, freeze, unsync, sync = (bit(payload[0], number) for number, _ in COMMAND_BITS)
    asks_in_vain = (sync and not unsync and not slave.parameters.sync
                    or freeze and not unfreeze and not slave.parameters.freeze)
    return NOT_ASKED_FOR if asks_in_vain else rule


def ways_of_control(ways: List[str]) -> List[str]:
    """Returns the ways of a Global_Control at all slaves that it reached, by the way at each of them."""
    return [NONE_SELECTED] * len(ways) if set(ways) == {NOT_SELECTED} else ways


def first_fault(addresses: List[int], ways: List[str]) -> str:
    """Returns the first fault among the ways in which slaves answered a Global_Control, with its slave."""
    for address, way in zip(addresses, ways):
        if way in FAULTS:
            return f'; {way}' if way == NONE_SELECTED else f'; {way} at slave {address}'
    return ''


# ---------------------------------------------------------------------------------------------------------------------
# Kinds, rows and replies in words
# ---------------------------------------------------------------------------------------------------------------------


def frame_kind(frame: Any) -> str:
    """Returns the kind of a frame, as the head of an entry shows it."""
    if isinstance(frame, Acknowledgement):
        return 'SC short acknowledgement'
    if isinstance(frame, Token):
        alone = ', alone in the ring' if frame.destination == frame.source else ''
        return f'SD4 token to {frame.destination} from {frame.source}{alone}'
    if not frame.is_request:
        return f'{frame.layout} response'
    function = FUNCTION_NAMES.get(frame.function, f'reserved function {frame.function}')
    has_point, parts = frame.function in WITH_POINT, frame.parts()
    count = f' FCB {frame.fcb} FCV {frame.fcv}' if has_point else ''
    if parts is None:
        service = '  extension missing or not plain'
    else:
        service = f'  {point_in_kind(parts)}' if has_point else ''
    return f'{frame.layout} {function}{count}{service}'


def frame_target(frame: Any) -> str:
    """Returns to whom a frame goes."""
    if isinstance(frame, Acknowledgement):
        return 'nobody'
    if isinstance(frame, Token):
        return f'station {frame.destination}'
    return 'all slaves' if frame.destination == GLOBAL_ADDRESS else f'slave {frame.destination}'


def content_row(frame: Any) -> List[Tuple[str, str]]:
    """Returns the row with the data of a frame, or none if it has no data."""
    if not isinstance(frame, Telegram):
        return []
    parts = frame.parts()
    payload = frame.du if parts is None else parts.payload
    if not payload:
        return []
    if parts is None or not frame.is_request or frame.function not in WITH_POINT:
        return [('data', spaced(payload))]
    if parts.dsap == SET_PRM:
        return [('parameters', parameters_in_words(payload))]
    if parts.dsap == CHK_CFG:
        return [('configured', configuration_in_words(payload))]
    if parts.dsap == GLOBAL_CONTROL and len(payload) == COMMAND_LENGTH:
        return [('command', command_in_words(payload))]
    return [('outputs' if parts.dsap == DATA_EXCHANGE else 'data', spaced(payload))]


SHORT_REPLIES = {REPLY_OK: 'slave station', REPLY_UE: 'UE, user error', REPLY_RR: 'RR, no resource',
                 REPLY_RS: 'RS, not activated'}
ACKNOWLEDGED, JUDGED_AFTERWARDS = 'SC, short acknowledgement', ' (judged afterwards)'


def reply_data_in_words(point: Optional[int], data: bytes) -> str:
    if not data:
        return 'no data'
    if point == SLAVE_DIAG:
        return diagnosis_in_words(data)
    if point == GET_CFG:
        return configuration_in_words(data)
    return f'{"outputs" if point == RD_OUTP else "inputs"} {spaced(data)}'


def repeat_in_words(octets: bytes, parts: Parts, noted: Noted) -> Tuple[str, Did]:
    """Returns the way and the result of a repeat."""
    if noted.place == UNKNOWN_PLACE:
        return RETRY, Did('repeat: the reply to an earlier request is sent again.', facts_of('UnknownRepeat'))
    if octets == noted.octets:
        return RETRY, Did(f'retry of entry {noted.place}: its reply is sent again.', facts_of('Retry', of=noted.place))
    if parts.dsap == DATA_EXCHANGE and parts.payload:
        what = f'outputs {spaced(parts.payload)} not taken'
    else:
        what = f'{point_name(parts.dsap)} not done'
    return OTHER_TELEGRAM, Did(f'repeat: FCB as in entry {noted.place}, but another telegram: {what}.',
                               facts_of('OtherRepeat', of=noted.place, point=parts.dsap))


def reply_in_words(reply: bytes, asked: Optional[int], answered: Optional[int]) -> str:
    """Returns a reply in words; `asked` is the point of the request, `answered` that of the remembered one."""
    frame = read_frame(reply)
    if isinstance(frame, Acknowledgement):
        return ACKNOWLEDGED
    code = frame.fc & 0x0F
    if code in SHORT_REPLIES:
        return SHORT_REPLIES[code]
    due = 'a diagnosis is due; ' if code == REPLY_DH else ''
    earlier = '' if asked == answered else f'to an earlier {point_with_number(answered)}: '
    return f'{due}{earlier}{reply_data_in_words(answered, frame.parts().payload)}'


# ---------------------------------------------------------------------------------------------------------------------
# An entry, and its block
# ---------------------------------------------------------------------------------------------------------------------

PLACE_WIDTH, ROUTE_WIDTH, LABEL_WIDTH, ROW_INDENT = 5, 26, 12, ' ' * 7


@dataclass
class Entry:
    """An entry of the journal with all that its block needs."""
    place: int
    sender: str                    # `master 1`, `operator`
    target: str                    # `slave 5`, `all slaves`, `line`, ..
    kind: str
    facts: str = 'none'
    outcome: str = ''
    rows: List[Tuple[str, str]] = field(default_factory=list)
    ways: List[str] = field(default_factory=list)       # of a request: how it was answered, at each slave
    named: List[int] = field(default_factory=list)      # addresses in the outcome of a broadcast, a tick or a halt
    master: Optional[int] = None   # of a request
    telegram: Optional[Telegram] = None                 # of a request, if its frame is one
    octets: Optional[bytes] = None                      # of a request
    ends: bool = False             # an operator's event that releases slaves by a watchdog, or halts the line
    time: Optional[int] = None     # ms, once a tick has come before
    event: Any = None
    frame: Any = None              # of a request, if its octets are one
    reason: Optional[Facts] = None                      # of an answer, unless it is that of several slaves
    answers: List[Facts] = field(default_factory=list)  # of the slaves of a broadcast
    changes: List[Facts] = field(default_factory=list)
    releases: List[Facts] = field(default_factory=list)

    def block(self) -> str:
        """Returns the rows of the entry."""
        route = f'{self.sender} -> {self.target}'
        time = '' if self.time is None else f'  at {self.time} ms'
        head = f'{self.place:{PLACE_WIDTH}}  {route:<{ROUTE_WIDTH}}{self.kind}{time}\n'
        return head + ''.join(f'{ROW_INDENT}{label:<{LABEL_WIDTH}}{text}\n' for label, text in self.rows)

    def refuses(self, way: str) -> bool:
        """Returns whether a way refuses the request; a slave of a broadcast that is not selected refuses nothing."""
        return way not in NOT_REFUSED + ((NOT_SELECTED, NONE_SELECTED) if self.named else ())

    @property
    def is_refused(self) -> bool:
        """Whether it is a refused request."""
        return any(self.refuses(way) for way in self.ways)

    @property
    def is_fault(self) -> bool:
        """Whether `--faults` chooses it."""
        return (self.ends or any(way in FAULTS for way in self.ways) or self.ways == [TO_NO_SLAVE]
                or self.is_surprising)

    @property
    def is_surprising(self) -> bool:
        """Whether what a slave did surprises."""
        return any(surprise in text for label, text in self.rows if label == 'result' for surprise in SURPRISES)

    def silent(self, refusal: Refusal) -> None:
        """Answers a request with silence, by a row of the line."""
        self.outcome, self.ways = f'silence {refusal.rule}', [refusal.way or refusal.rule]
        self.rows.append(('result', f'silence: {refusal.rule}. {refusal.reason}'))
        self.reason = refusal.facts


# ---------------------------------------------------------------------------------------------------------------------
# A line
# ---------------------------------------------------------------------------------------------------------------------


@dataclass
class Hold:
    """A slave that a master held."""
    slave: int
    master: int
    first: int
    began: int                     # the time after its first entry, in ms
    last: Optional[int] = None
    ended: Optional[int] = None    # the time after its last entry, in ms
    cause: str = 'to the end'


class Line:
    """A line that takes events; docs/reference/policy.md has its rules."""

    def __init__(self, spec: LineSpec, capacity: int):
        self.spec = spec
        self.capacity = capacity
        self.slaves = {slave.address: Slave(slave) for slave in spec.slaves}
        self.count = 0
        self.halted = False
        self.time: Optional[int] = None               # ms of all ticks, None before the first one
        self.holds: List[Hold] = []

    @property
    def passed(self) -> int:
        """The ms of all ticks, 0 before the first one."""
        return self.time or 0

    def take(self, event: Any) -> Optional[Entry]:
        """Takes an event; returns its entry, or None if it is not recorded at this place."""
        if self.halted or not self.fits(event):
            return None
        if self.count + 1 == self.capacity and not isinstance(event, Halt):
            return None                               # the halt is recorded instead
        before = {address: (slave.condition(), slave.state, slave.holder, slave.parameters)
                  for address, slave in self.slaves.items()}
        self.count += 1
        entry = self.take_request(event) if isinstance(event, Request) else self.take_operator(event)
        entry.time, entry.event = self.time, event
        if isinstance(event, Tick):
            self.time = self.passed + event.units * MS_PER_UNIT
        self.note_changes(entry, before)
        return entry

    def fits(self, event: Any) -> bool:
        """Returns whether an event of the operator is not refused."""
        if isinstance(event, (Request, Tick, Halt)):
            return True
        if event.address not in self.slaves:
            return False
        if isinstance(event, Input):
            return len(event.octets) == self.slaves[event.address].input_length
        return isinstance(event, Report) or event.point in POINT_NAMES

    def note_changes(self, entry: Entry, before: Dict[int, Tuple[Any, ...]]) -> None:
        """Adds the rows `change`, the changes and the releases, and updates the holds."""
        for address, slave in sorted(self.slaves.items()):
            condition, state, holder, parameters = before[address]
            if slave.condition() != condition:
                entry.rows.append(('change', f'slave {address}: {condition} -> {slave.condition()}'))
                entry.changes.append({'slave': address, 'before': {'state': STATE_WORDS[state], 'holder': holder},
                                      'after': {'state': STATE_WORDS[slave.state], 'holder': slave.holder}})
            if slave.holder != holder and holder is not None:
                self.end_hold(slave)
                ending = ENDINGS[slave.released_by]
                entry.releases.append({'slave': address, 'master': holder, 'ending': ending,
                                       'watchdog': parameters.watchdog if ending == 'watchdog' else None})
            if slave.holder != holder and slave.holder is not None:
                self.holds.append(Hold(address, slave.holder, self.count, self.passed))

    def end_hold(self, slave: Slave) -> None:
        slave.released_at = self.count
        for hold in self.holds:
            if hold.slave == slave.address and hold.last is None:
                hold.last, hold.ended, hold.cause = self.count, self.passed, slave.released_by

    # ---- Operator

    def take_operator(self, event: Any) -> Entry:
        if isinstance(event, Tick):
            return self.take_tick(event)
        if isinstance(event, Halt):
            return self.take_halt()
        slave = self.slaves[event.address]
        entry = Entry(self.count, 'operator', f'slave {event.address}', operator_kind(event), facts=slave.facts(),
                      outcome='done', rows=[('result', 'done.')], reason=facts_of('OperatorDone'))
        if isinstance(event, Input):
            slave.inputs = event.octets
        elif isinstance(event, Report):
            slave.report(event)
        elif event.on:
            slave.busy.add(event.point)
        else:
            slave.busy.discard(event.point)
        return entry

    def take_tick(self, event: Tick) -> Entry:
        kind = f'{counted(event.units, "unit")} of time, {event.units * MS_PER_UNIT} ms'
        released = []
        for address, slave in sorted(self.slaves.items()):
            holder, full = slave.holder, slave.tick(event.units)
            if full is not None:
                culprit = f'master {holder} sent nothing that restarts it'
                released.append((address, f'{address} (its watchdog of {full} ms ran out: {culprit})'))
        addresses = [address for address, _ in released]
        result = f'released: {", ".join(words for _, words in released)}.' if released else 'no watchdog ran out.'
        return Entry(self.count, 'operator', 'line', kind, outcome=released_in_text(addresses),
                     rows=[('result', result)], named=addresses, ends=bool(addresses), reason=facts_of('Ticked'))

    def take_halt(self) -> Entry:
        self.halted = True
        addresses = [address for address, slave in sorted(self.slaves.items()) if slave.release('the line halted')]
        is_full = self.count == self.capacity
        halted = 'halted, the journal is full' if is_full else 'halted'
        result = f'{halted}; released: {listed(addresses)}.' if addresses else f'{halted}; nobody held a slave.'
        return Entry(self.count, 'operator', 'line', 'halt', outcome=released_in_text(addresses),
                     rows=[('result', result)], named=addresses, ends=True,
                     reason=facts_of('LineHalted', is_full=is_full))

    # ---- Requests

    def take_request(self, event: Request) -> Entry:
        sender = f'master {event.master}'
        try:
            frame = read_frame(event.octets)
        except FrameFault as fault:
            entry = Entry(self.count, sender, 'nobody', f'no telegram: {fault.name}, {fault.words}',
                          master=event.master, octets=event.octets)
            if event.octets:
                entry.rows.append(('octets', spaced(event.octets)))
            entry.silent(Refusal('NoFrame', 'The octets are no single frame.', facts_of('NoFrame')))
            return entry
        entry = Entry(self.count, sender, frame_target(frame), frame_kind(frame), master=event.master,
                      telegram=frame if isinstance(frame, Telegram) else None, rows=content_row(frame),
                      octets=event.octets, frame=frame)
        refusal = self.refuse_on_line(event.master, frame)
        if refusal:
            entry.silent(refusal)
        elif frame.destination == GLOBAL_ADDRESS:
            self.spread(entry, event.master, frame)
        else:
            self.ask(entry, event, frame, self.slaves[frame.destination])
        return entry

    def refuse_on_line(self, master: int, frame: Any) -> Optional[Refusal]:
        """The rows of the verdict that concern no slave, from NoMaster to NoStation."""
        if master not in self.spec.masters:
            return line_refusal('NoMaster', f"Master {master} is none of the line's ({listed(self.spec.masters)}).")
        if isinstance(frame, Acknowledgement):
            return line_refusal('NotRequest', 'A response asks for nothing.')
        if frame.source != master:
            return Refusal('ForeignSender', f'The frame is from station {frame.source}.',
                           facts_of('ForeignSender', station=frame.source))
        if isinstance(frame, Token):
            return line_refusal('Token', 'A token asks for nothing.')
        if not frame.is_request:
            return line_refusal('NotRequest', 'A response asks for nothing.')
        if frame.is_reserved:
            return line_refusal('BadFunction', 'The function is reserved.')
        parts = frame.parts()
        if parts is None:
            return line_refusal('BadExtension', 'An extension octet is missing or not plain.')
        if frame.destination == GLOBAL_ADDRESS:
            if frame.function in SDN and parts.dsap == GLOBAL_CONTROL:
                return None
            return line_refusal('BadBroadcast', 'Only a Global_Control goes to all slaves.')
        return None if frame.destination in self.slaves else self.refuse_address(frame)

    def refuse_address(self, frame: Telegram) -> Refusal:
        """The row NoStation."""
        is_poll = frame.function == FDL_STATUS
        reason = 'No such station.' if is_poll else 'No slave has this address.'
        facts = facts_of('LiveListPoll' if is_poll else 'NoStation')
        if frame.destination in self.spec.masters:
            reason = f'Station {frame.destination} is a master of the line.'
            facts = facts_of('MasterStation', station=frame.destination)
        return Refusal('NoStation', reason, facts, LIVE_LIST_POLL if is_poll else None)

    def held_by(self, master: int) -> List[Slave]:
        """Returns the slaves that a master holds, oldest lock first."""
        return sorted((slave for slave in self.slaves.values() if slave.holder == master),
                      key=lambda slave: slave.since)

    def spread(self, entry: Entry, master: int, frame: Telegram) -> None:
        """Does a Global_Control to all slaves."""
        parts, slaves = frame.parts(), self.held_by(master)
        if not slaves:
            entry.ways = [TO_NO_SLAVE]
            entry.rows.append(('result', f'spread: master {master} holds no slave, so the command reached none.'))
        entry.outcome, answers = 'spread', []
        for slave in slaves:
            rule, did = control(slave, master, frame, parts)
            entry.outcome += f' {slave.address}:{rule}'
            entry.answers.append({'slave': slave.address, 'outcome': outcome_of(rule), 'rule': rule, 'reason': did.facts,
                                  'sentence': did.words})
            entry.ways.append(way_of_control(slave, rule, parts.payload))
            entry.named.append(slave.address)
            answers.append((f'slave {slave.address}', did.words))
        entry.ways = ways_of_control(entry.ways)
        if slaves:
            fault = first_fault(entry.named, entry.ways)
            entry.rows.append(('result', f'spread over the slaves of master {master}{fault}:'))
        entry.rows += answers

    def ask(self, entry: Entry, event: Request, frame: Telegram, slave: Slave) -> None:
        """Answers a request to one slave."""
        entry.facts = slave.facts()
        parts, function = frame.parts(), frame.function
        noted = slave.memory.get(event.master)
        if function == FDL_STATUS:
            state = STATE_WORDS[slave.state]
            did = Did(f'answered: Status. Slave {slave.address} is there, in {state}.', facts_of('Status', state=state))
            reply_with(entry, 'Status', did, short_reply(frame, REPLY_OK), parts.dsap, parts.dsap)
        elif function not in SRD + SDN:
            facts = facts_of('NoService', point=parts.dsap, takes=None)
            refused_with(entry, Refusal('NoService', 'No slave has this function.', facts), frame, parts)
        elif function in SRD and frame.fcv and noted is not None and noted.fcb == frame.fcb:
            way, did = repeat_in_words(event.octets, parts, noted)
            reply_with(entry, 'Repeat', did, noted.reply, parts.dsap, noted.point, way)
        elif function in SDN:
            rule, did = control(slave, event.master, frame, parts)
            entry.ways = ways_of_control([way_of_control(slave, rule, parts.payload)])
            entry.outcome = 'done' if rule == 'Done' else f'silence {rule}'
            entry.rows.append(('result', did.words))
            entry.reason = did.facts
        else:
            reply = self.answer(entry, event, frame, slave)
            remember(slave, event, frame, reply, self.count)

    def answer(self, entry: Entry, event: Request, frame: Telegram, slave: Slave) -> bytes:
        """Refuses or does the service of an SRD; returns the reply."""
        parts = frame.parts()
        refusal = refuse(slave, event.master, frame.function, parts)
        if refusal:
            return refused_with(entry, refusal, frame, parts)
        did, data, due = serve(slave, event.master, self.count, parts)
        reply = data_reply(frame, parts, data, due)
        reply_with(entry, 'Done', did, reply, parts.dsap, parts.dsap, way_of_done(did.words))
        return reply


def operator_kind(event: Any) -> str:
    """Returns an operator's event for one slave in words."""
    if isinstance(event, Input):
        return f'inputs {spaced_or_none(event.octets)}'
    if isinstance(event, Report):
        return (f'diagnosis Ext_Diag {event.ext:d}, Stat_Diag {event.stat:d}, Ext_Diag_Overflow {event.overflow:d}; '
                f'extended {spaced_or_none(event.octets)}')
    return f'{point_name(event.point)} {"busy" if event.on else "no longer busy"}'


def released_in_text(addresses: List[int]) -> str:
    """Returns the outcome of a tick or a halt as the audit text has it."""
    return 'released' + ''.join(f' {address}' for address in addresses)


def line_refusal(rule: str, reason: str) -> Refusal:
    """Returns a refusal by a rule of the line whose facts are its name."""
    return Refusal(rule, reason, facts_of(rule))


def reply_with(entry: Entry, rule: str, did: Did, reply: bytes, asked: Optional[int],
               answered: Optional[int], way: Optional[str] = None) -> None:
    """Adds a reply to an entry; `asked` and `answered` are the points as of `reply_in_words`."""
    entry.outcome, entry.ways, entry.reason = f'reply {reply.hex()} {rule}', [way or rule], did.facts
    judged = JUDGED_AFTERWARDS if way in (WRONG_SET_PRM, WRONG_CHK_CFG) else ''
    entry.rows += [('result', did.words), ('reply', reply_in_words(reply, asked, answered) + judged)]


def refused_with(entry: Entry, refusal: Refusal, frame: Telegram, parts: Parts) -> bytes:
    """Adds the reply of a refusal to an entry; returns the reply."""
    reply = short_reply(frame, REFUSAL_CODES[refusal.rule])
    did = Did(f'refused: {refusal.rule}. {refusal.reason}', refusal.facts)
    reply_with(entry, refusal.rule, did, reply, parts.dsap, parts.dsap)
    return reply


def control(slave: Slave, sender: int, frame: Telegram, parts: Parts) -> Tuple[str, Did]:
    """Judges an SDN at one slave and does it; returns the rule and the result."""
    refusal = refuse(slave, sender, frame.function, parts)
    if refusal is None:
        return 'Done', slave.global_control(parts.payload)
    how = 'silence' if refusal.rule == 'NotSelected' else 'refused in silence'
    return refusal.rule, Did(f'{how}: {refusal.rule}. {refusal.reason}', refusal.facts)


def serve(slave: Slave, sender: int, place: int, parts: Parts) -> Tuple[Did, bytes, bool]:
    """Does the service of an SRD; returns the result, the data of the reply, and whether it is DH."""
    point, payload = parts.dsap, parts.payload
    if point == DATA_EXCHANGE:
        data, due = slave.shown_inputs, slave.is_diagnosis_due
        return slave.data_exchange(payload), data, due
    if point == SLAVE_DIAG:
        data = slave.diagnosis()
        return slave.slave_diag(sender), data, False
    if point == SET_PRM:
        return slave.set_prm(sender, place, payload), b'', False
    if point == CHK_CFG:
        return slave.chk_cfg(payload), b'', False
    data = {RD_INP: slave.shown_inputs, RD_OUTP: slave.outputs, GET_CFG: slave.configuration}[point]
    return Did('done.', facts_of('Read')), data, False


def remember(slave: Slave, event: Request, frame: Telegram, reply: bytes, place: int) -> None:
    """Updates the frame memory of a slave after an SRD that is no repeat."""
    if frame.fcv or frame.fcb:
        slave.memory[event.master] = Noted(frame.fcb, reply, place, frame.parts().dsap, event.octets)
    else:
        slave.memory.pop(event.master, None)


# ---------------------------------------------------------------------------------------------------------------------
# Audit text
# ---------------------------------------------------------------------------------------------------------------------

HEADER = re.compile(r'rack-audit (0|[1-9][0-9]*) line (0|[1-9][0-9]*)')
DECIMAL = re.compile(r'0|[1-9][0-9]*')
HEX_PAIRS = re.compile(r'(?:[0-9a-f]{2})+')
FLAGS = re.compile(r'-|(?=.)e?s?o?')
SEPARATOR = ' | '


class BadRow(Exception):
    """A row that is badly formed."""


def number_in(text: str, most: int) -> int:
    """Returns a plain decimal number, or raises BadRow."""
    if not DECIMAL.fullmatch(text) or int(text) > most:
        raise BadRow
    return int(text)


def octets_in(text: str, most: int) -> bytes:
    """Returns octets in lower case hex, or raises BadRow."""
    if text == '-':
        return b''
    if not HEX_PAIRS.fullmatch(text) or len(text) // 2 > most:
        raise BadRow
    return bytes.fromhex(text)


def point_in(text: str) -> Optional[int]:
    return DATA_EXCHANGE if text == 'default' else number_in(text, LARGEST_OCTET)


def read_event(words: List[str]) -> Any:
    """Returns the event of a row, or raises BadRow."""
    name, count = words[0] if words else '', len(words)
    if name == 'req' and count == 3:
        return Request(number_in(words[1], LARGEST_OCTET), octets_in(words[2], REQUEST_LIMIT))
    if name == 'in' and count == 3:
        return Input(number_in(words[1], LARGEST_OCTET), octets_in(words[2], INPUT_LIMIT))
    if name == 'diag' and count == 4 and FLAGS.fullmatch(words[2]):
        flags = words[2]
        return Report(number_in(words[1], LARGEST_OCTET), 'e' in flags, 's' in flags, 'o' in flags,
                      octets_in(words[3], REPORT_LIMIT))
    if name == 'busy' and count == 4 and words[3] in ('on', 'off'):
        return Mark(number_in(words[1], LARGEST_OCTET), point_in(words[2]), words[3] == 'on')
    if name == 'tick' and count == 2:
        return Tick(number_in(words[1], LARGEST_WORD))
    if name == 'halt' and count == 1:
        return Halt()
    raise BadRow


def open_line(header: str, rack: List[LineSpec]) -> Optional[Line]:
    """Returns the line that a header names, or None if it is no header of a line of the rack."""
    match = HEADER.fullmatch(header)
    if not match:
        return None
    version = int(match[1])
    for spec in rack:
        if spec.number != int(match[2]) or not 1 <= version <= 3:
            continue
        if version == 1 and any(slave.needs_version_2 for slave in spec.slaves):
            return None
        return Line(spec, ENDLESS_CAPACITY if version == 3 else spec.capacity)
    return None


def rows_of(text: str) -> List[Tuple[str, bool]]:
    """Returns the rows of a text, each with whether it has its LF."""
    rows = text.split('\n')
    last = rows.pop()
    return [(row, True) for row in rows] + ([(last, False)] if last else [])


@dataclass
class Explained:
    """The entries of a text up to its first wrong row, and the row of `check`."""
    line: Optional[Line]
    entries: List[Entry]
    verdict: str


def explain_text(text: str, rack: List[LineSpec]) -> Explained:
    """Takes the events of an audit text again."""
    rows = rows_of(text)
    line = open_line(rows[0][0], rack) if rows else None
    if line is None or not rows[0][1]:
        return Explained(line, [], 'bad line 1')
    return explain_rows(line, rows[1:])


def explain_rows(line: Line, rows: List[Tuple[str, bool]]) -> Explained:
    """Takes the events of the rows of entries again. The row of the entry of place P has the number P + 1."""
    entries: List[Entry] = []
    for row, is_whole in rows:
        number = line.count + 2
        try:
            entry = take_row(line, row, is_whole)
        except BadRow:
            return Explained(line, entries, f'bad line {number}')
        if entry is None:
            return Explained(line, entries, f'not the policy {number}')
        entries.append(entry)
    return Explained(line, entries, f'legal {line.count}')


def take_row(line: Line, row: str, is_whole: bool) -> Optional[Entry]:
    """Takes the event of a row; returns its entry, or None if the row is not the policy's."""
    parts = row.split(SEPARATOR)
    if not is_whole or len(parts) != 3:
        raise BadRow
    words = parts[0].split(' ')
    place, event = number_in(words[0], LARGEST_WORD), read_event(words[1:])
    if place != line.count + 1:
        return None
    holds, time = [Hold(**vars(hold)) for hold in line.holds], line.time
    entry = line.take(event)
    if entry is not None and (entry.facts, entry.outcome) == (parts[1], parts[2]):
        return entry
    line.holds, line.time = holds, time          # the holds of the summary end before the wrong row
    return None


# ---------------------------------------------------------------------------------------------------------------------
# Summary
# ---------------------------------------------------------------------------------------------------------------------

SENDER_WIDTH, SPAN_WIDTH, WAY_WIDTH, ITEM_WIDTH, COUNT_WIDTH = 12, 24, 14, 32, 8


def hold_row(hold: Hold) -> str:
    span = f'entry {hold.first} on' if hold.last is None else f'entries {hold.first} to {hold.last}'
    slave, master = f'slave {hold.slave}', f'master {hold.master}'
    return f'  {slave:<{SENDER_WIDTH}}{master:<{SENDER_WIDTH}}{span:<{SPAN_WIDTH}}{hold.cause}\n'


def holds_in_order(line: Line) -> List[Hold]:
    """Returns the holds that ended, in the order of their ends, and then those that last, as the rack file has them."""
    order = [slave.address for slave in line.spec.slaves]
    ended = sorted((hold for hold in line.holds if hold.last is not None), key=lambda hold: (hold.last, hold.slave))
    lasting = sorted((hold for hold in line.holds if hold.last is None), key=lambda hold: order.index(hold.slave))
    return ended + lasting


def count_row(name: str, count: int) -> str:
    return f'{name:<{WAY_WIDTH}}{count:>{COUNT_WIDTH}}\n'


EXCHANGES, DIAGNOSES, RETRIES, HELD = 'exchanges', 'diagnoses', 'retries', 'held'
COUNTED_SERVICES = {DATA_EXCHANGE: EXCHANGES, SLAVE_DIAG: DIAGNOSES}
CAUSES = ('wrong configuration', 'wrong parameters', 'unlocked', 'the line halted', 'its watchdog ran out')


def refused_by(way: str) -> str:
    return f'refused: {way}'


def released_by(cause: str) -> str:
    return f'released: {cause}'


REFUSALS = tuple(refused_by(way) for way in WAYS if way not in NOT_REFUSED + (NONE_SELECTED,))
RELEASES = tuple(released_by(cause) for cause in CAUSES)
ITEMS = (EXCHANGES, DIAGNOSES, RETRIES) + REFUSALS + RELEASES + (HELD,)      # what is counted of a station


def item_of(entry: Entry, way: str) -> Optional[str]:
    """Returns the item in which a request that is answered in this way counts, or None."""
    if way == 'Done':
        return COUNTED_SERVICES.get(entry.telegram.parts().dsap)
    if way == RETRY:
        return RETRIES
    return refused_by(NOT_SELECTED if way == NONE_SELECTED else way) if entry.refuses(way) else None


def receivers_of(entry: Entry) -> List[Optional[int]]:
    """Returns the receiver for each way of a request: for a Global_Control to all, the slaves of its outcome."""
    return entry.named or [entry.telegram.destination if entry.telegram else None]


def count_requests(entries: List[Entry], counts: Counter) -> None:
    """Counts each request for its receiver and for its sender, also if they are no stations of the line."""
    for entry in entries:
        for receiver, way in zip(receivers_of(entry), entry.ways):
            item = item_of(entry, way)
            if item:
                counts[f'slave {receiver}', item] += 1
                counts[f'master {entry.master}', item] += 1


def count_holds(line: Line, counts: Counter) -> None:
    """Counts the releases, and the time in ms, of each hold for its slave and for its master."""
    for hold in line.holds:
        for station in (f'slave {hold.slave}', f'master {hold.master}'):
            if hold.ended is not None:
                counts[station, released_by(hold.cause)] += 1
            counts[station, HELD] += (line.passed if hold.ended is None else hold.ended) - hold.began


def statistics_row(station: str, item: str, count: int) -> str:
    unit = ' ms' if item == HELD else ''
    return f'  {station:<{SENDER_WIDTH}}{item:<{ITEM_WIDTH}}{count:>{COUNT_WIDTH}}{unit}\n'


def statistics_table(title: str, stations: List[str], counts: Counter) -> str:
    """Returns a table of stations. It has rows for these stations only, and no row whose count is 0."""
    return f'{title}\n' + ''.join(statistics_row(station, item, counts[station, item])
                                  for station in stations for item in ITEMS if counts[station, item])


def polls_of(entries: List[Entry]) -> Counter:
    """Returns how often each address was polled by FDL status."""
    return Counter(entry.telegram.destination for entry in entries for way in entry.ways
                   if way in ('Status', LIVE_LIST_POLL))


def live_list_table(line: Line, entries: List[Entry]) -> str:
    """Returns how often each address was polled by FDL status, and what stands there."""
    polls = polls_of(entries)
    stations = {**dict.fromkeys(line.slaves, 'slave'), **dict.fromkeys(line.spec.masters, 'master')}
    return 'live list\n' + ''.join(statistics_row(f'address {address}', stations.get(address, 'nothing'), count)
                                   for address, count in sorted(polls.items()))


def statistics_of(line: Line, entries: List[Entry]) -> Counter:
    """Returns what is counted of each station."""
    counts: Counter = Counter()
    count_requests(entries, counts)
    count_holds(line, counts)
    return counts


def statistics(line: Line, entries: List[Entry]) -> str:
    """Returns the tables `slaves`, `masters` and `live list`."""
    counts = statistics_of(line, entries)
    return (statistics_table('slaves', [f'slave {slave.address}' for slave in line.spec.slaves], counts)
            + statistics_table('masters', [f'master {master}' for master in line.spec.masters], counts)
            + live_list_table(line, entries))


def summary(line: Line, entries: List[Entry]) -> str:
    """Returns the tables at the end."""
    senders = [f'master {master}' for master in line.spec.masters] + ['others']
    counts = {sender: dict.fromkeys(WAYS, 0) for sender in senders}
    for entry in entries:
        sender = entry.sender if entry.sender in counts else 'others'
        for way in entry.ways:
            counts[sender][way] += 1
    text = 'holds\n' + ''.join(hold_row(hold) for hold in holds_in_order(line)) + 'requests by rule\n'
    for sender in senders:
        for way in WAYS:
            if counts[sender][way]:
                text += f'  {sender:<{SENDER_WIDTH}}' + count_row(way, counts[sender][way])
    text += statistics(line, entries) + 'faults\n'
    for way in FAULTS:
        total = sum(counts[sender][way] for sender in senders)
        if total:
            text += '  ' + count_row(way, total)
    return text


# ---------------------------------------------------------------------------------------------------------------------
# Lines of JSON
# ---------------------------------------------------------------------------------------------------------------------

VERSION = 2
RULES_THAT_REFUSE = ('NoService', 'NotActive', 'NotHolder', 'NotListed', 'Busy', 'Length')
OUTCOMES = {'Done': 'done', 'Status': 'answered', 'Repeat': 'repeat', 'NotSelected': 'not_selected',
            **dict.fromkeys(RULES_THAT_REFUSE, 'refused')}
OPERATOR_OUTCOMES = {'OperatorDone': 'done', 'Ticked': 'ticked', 'LineHalted': 'halted'}


def outcome_of(rule: str) -> str:
    """Returns the outcome of a request that was answered by a rule; the rules of the line get no reply."""
    return OUTCOMES.get(rule, 'no_reply')


def line_of_json(kind: str, value: Dict[str, Any]) -> str:
    """Returns an object of a kind as one line, without spaces between its parts."""
    return json.dumps({'version': VERSION, 'kind': kind, **value}, separators=(',', ':')) + '\n'


def target_in_json(entry: Entry) -> Tuple[str, Optional[int]]:
    """Returns to whom an entry goes, and the address if it goes to one station."""
    words = entry.target.split(' ')
    if words[0] in ('slave', 'station'):
        return words[0], int(words[1])
    return entry.target.replace(' ', '_'), None


def text_labelled(entry: Entry, label: str) -> Optional[str]:
    """Returns the text of the row with this label, or None if there is none."""
    return next((text for name, text in entry.rows if name == label), None)


def frame_in_json(frame: Any) -> Facts:
    """Returns the format of a frame and its addresses."""
    if frame is None:
        return {'frame': None, 'da': None, 'sa': None}
    if isinstance(frame, Acknowledgement):
        return {'frame': 'SC', 'da': None, 'sa': None}
    name = 'SD4' if isinstance(frame, Token) else frame.layout
    return {'frame': name, 'da': frame.destination, 'sa': frame.source}


def telegram_in_json(telegram: Optional[Telegram]) -> Facts:
    """Returns the function, the access points and the data of a telegram."""
    facts: Facts = dict.fromkeys(('function', 'fcb', 'fcv', 'dsap', 'ssap', 'service', 'data'))
    if telegram is None:
        return facts
    facts['function'] = telegram.function
    if telegram.is_request:
        facts['fcb'], facts['fcv'] = bool(telegram.fcb), bool(telegram.fcv)
    parts = telegram.parts()
    if parts is not None:
        names_service = telegram.is_request and telegram.function in WITH_POINT
        facts.update(dsap=parts.dsap, ssap=parts.ssap, data=parts.payload.hex(),
                     service=POINT_NAMES.get(parts.dsap) if names_service else None)
    return facts


def decoded_in_json(entry: Entry) -> Optional[Facts]:
    """Returns the row with the data of a telegram: its label and its words."""
    label, text = entry.rows[0]
    return None if entry.telegram is None or label == 'result' else {'as': label, 'words': text}


def event_in_json(entry: Entry) -> Facts:
    """Returns an event: the fields of a request, or of what the operator did."""
    event = entry.event
    if isinstance(event, Request):
        return {'kind': 'request', **frame_in_json(entry.frame), **telegram_in_json(entry.telegram),
                'octets': event.octets.hex(), 'decoded': decoded_in_json(entry), 'words': entry.kind}
    if isinstance(event, Input):
        facts = {'kind': 'in', 'octets': event.octets.hex()}
    elif isinstance(event, Report):
        facts = {'kind': 'diag', 'ext_diag': event.ext, 'stat_diag': event.stat, 'overflow': event.overflow,
                 'octets': event.octets.hex()}
    elif isinstance(event, Mark):
        facts = {'kind': 'busy', 'point': event.point, 'on': event.on}
    else:
        facts = {'kind': 'tick', 'units': event.units} if isinstance(event, Tick) else {'kind': 'halt'}
    return {**facts, 'words': entry.kind}


def answer_in_json(entry: Entry) -> Facts:
    """Returns the outcome, the rule and the reply, by the outcome in the audit text."""
    words = entry.outcome.split(' ')
    if entry.master is None:
        return {'outcome': OPERATOR_OUTCOMES[entry.reason['kind']], 'rule': None, 'octets': None, 'words': None}
    if words[0] == 'spread':
        return {'outcome': 'spread', 'rule': None, 'octets': None, 'words': None}
    rule = 'Done' if words[0] == 'done' else words[-1]
    return {'outcome': outcome_of(rule), 'rule': rule, 'octets': words[1] if words[0] == 'reply' else None,
            'words': text_labelled(entry, 'reply')}


def entry_in_json(entry: Entry) -> str:
    """Returns an entry as a line of JSON."""
    target, address = target_in_json(entry)
    return line_of_json('entry', {
        'place': entry.place,
        'time': None if entry.time is None else entry.time // MS_PER_UNIT,
        'from': 'operator' if entry.master is None else 'master',
        'master': entry.master,
        'to': target,
        'address': address,
        'event': event_in_json(entry),
        'answer': answer_in_json(entry),
        'refused': entry.is_refused,
        'fault': entry.is_fault,
        'surprising': entry.is_surprising,
        'reason': entry.reason,
        'sentence': text_labelled(entry, 'result'),
        'slaves': entry.answers,
        'changes': entry.changes,
        'releases': entry.releases,
    })


def holds_in_json(line: Line) -> str:
    """Returns a line for each hold."""
    return ''.join(line_of_json('hold', {'slave': hold.slave, 'master': hold.master, 'since': hold.first,
                                         'to': hold.last, 'ending': ENDINGS[hold.cause]})
                   for hold in holds_in_order(line))


def ways_in_json(line: Line, entries: List[Entry]) -> str:
    """Returns a line for each sender and each way in which requests of it were answered."""
    counts = Counter((entry.master if entry.master in line.spec.masters else None, way)
                     for entry in entries for way in entry.ways)
    return ''.join(line_of_json('count', {'master': master, 'way': way, 'count': counts[master, way],
                                          'fault': way in FAULTS})
                   for master in line.spec.masters + [None] for way in WAYS if counts[master, way])


def station_in_json(kind: str, address: int, counts: Counter) -> str:
    """Returns the line of a station."""
    def of(item: str) -> int:
        return counts[f'{kind} {address}', item]

    ways = [item.partition(': ')[2] for item in REFUSALS]
    return line_of_json('station', {
        'station': kind, 'address': address, 'exchanges': of(EXCHANGES), 'diagnoses': of(DIAGNOSES),
        'retries': of(RETRIES), 'refused': {way: of(refused_by(way)) for way in ways if of(refused_by(way))},
        'released': {ENDINGS[cause]: of(released_by(cause)) for cause in CAUSES if of(released_by(cause))},
        'held': of(HELD) // MS_PER_UNIT})


def polls_in_json(line: Line, entries: List[Entry]) -> str:
    """Returns a line for each address that was polled by FDL status."""
    stations = {**dict.fromkeys(line.slaves, 'slave'), **dict.fromkeys(line.spec.masters, 'master')}
    return ''.join(line_of_json('poll', {'address': address, 'station': stations.get(address), 'count': count})
                   for address, count in sorted(polls_of(entries).items()))


def summary_in_json(line: Line, entries: List[Entry]) -> str:
    """Returns the lines of the holds and of what was counted."""
    counts = statistics_of(line, entries)
    return (holds_in_json(line) + ways_in_json(line, entries)
            + ''.join(station_in_json('slave', slave.address, counts) for slave in line.spec.slaves)
            + ''.join(station_in_json('master', master, counts) for master in line.spec.masters)
            + polls_in_json(line, entries))


def verdict_in_json(verdict: str) -> str:
    """Returns the row of `check` as a line of JSON."""
    name, _, number = verdict.rpartition(' ')
    return line_of_json('verdict', {'verdict': name, 'entries' if name == 'legal' else 'row': int(number)})


# ---------------------------------------------------------------------------------------------------------------------
# Words
# ---------------------------------------------------------------------------------------------------------------------


class WrongWords(Exception):
    """Words that are no command."""


@dataclass
class Options:
    """The options that choose entries."""
    first: int = 1
    last: int = LARGEST_WORD
    slave: Optional[int] = None
    master: Optional[int] = None
    refused: bool = False
    faults: bool = False
    summary: bool = False
    json: bool = False

    def choose(self, entry: Entry) -> bool:
        """Returns whether an entry is chosen."""
        return (not self.summary
                and self.first <= entry.place <= self.last
                and (self.slave is None or entry.target == f'slave {self.slave}' or self.slave in entry.named)
                and (self.master is None or entry.master == self.master)
                and (not self.refused or entry.is_refused)
                and (not self.faults or entry.is_fault))


NUMBER_OPTIONS = {'--from': ('first', 1, LARGEST_WORD), '--to': ('last', 1, LARGEST_WORD),
                  '--slave': ('slave', 0, LARGEST_OCTET), '--master': ('master', 0, LARGEST_OCTET)}
FLAG_OPTIONS = {'--refused': 'refused', '--faults': 'faults', '--summary': 'summary', '--json': 'json'}


def read_words(words: List[str]) -> Tuple[List[str], Options]:
    """Returns the files and the options."""
    files, options, seen, rest = [], Options(), set(), list(words)
    while rest:
        word = rest.pop(0)
        if word in seen:
            raise WrongWords(word)
        if word in NUMBER_OPTIONS:
            name, least, most = NUMBER_OPTIONS[word]
            if not rest or not DECIMAL.fullmatch(rest[0]) or not least <= int(rest[0]) <= most:
                raise WrongWords(word)
            setattr(options, name, int(rest.pop(0)))
            seen.add(word)
        elif word in FLAG_OPTIONS:
            setattr(options, FLAG_OPTIONS[word], True)
            seen.add(word)
        elif word.startswith('--'):
            raise WrongWords(word)
        else:
            files.append(word)
    if len(files) < 2:
        raise WrongWords('RACK AUDIT..')
    if options.summary and options.json:
        raise WrongWords('--summary --json')
    return files, options


def read_file(path: str) -> str:
    """Returns the text of a file, or raises OSError or UnicodeDecodeError."""
    with open(path, 'rb') as file:
        return file.read().decode('utf-8')


def explain(words: List[str]) -> Tuple[int, str, str]:
    """Does `explain` with these words; returns the status, the output and what is on standard error."""
    try:
        files, options = read_words(words)
    except WrongWords as fault:
        return STATUS_WRONG_INPUT, '', f'explainer: {fault}\n{__doc__}'
    texts = []
    for path in files:
        try:
            texts.append(read_file(path))
        except (OSError, UnicodeDecodeError) as fault:
            return STATUS_WRONG_INPUT, '', f'rackd: cannot read {path}\n  {fault}\n'
    try:
        rack = read_rack(texts[0])
    except RackFault as fault:
        return STATUS_WRONG_INPUT, '', str(fault)
    text = ''.join(texts[1:])
    explained = explain_text(text, rack)
    missing = missing_station(explained, options)
    if missing:
        return STATUS_WRONG_INPUT, '', missing
    output = output_in_json(explained, options) if options.json else output_in_rows(explained, options)
    status = STATUS_LEGAL if explained.verdict.startswith('legal') else STATUS_WRONG_TEXT
    return status, output, cut_row(text, explained, files[1:])


def output_in_rows(explained: Explained, options: Options) -> str:
    """Returns the rows of the chosen entries, the summary and the verdict."""
    output = ''
    if explained.line is not None:
        output = ''.join(entry.block() for entry in explained.entries if options.choose(entry))
        output += summary(explained.line, explained.entries)
    return f'{output}{explained.verdict}\n'


def output_in_json(explained: Explained, options: Options) -> str:
    """Returns the lines of JSON of the chosen entries, the summary and the verdict."""
    output = ''
    if explained.line is not None:
        output = ''.join(entry_in_json(entry) for entry in explained.entries if options.choose(entry))
        output += summary_in_json(explained.line, explained.entries)
    return output + verdict_in_json(explained.verdict)


def missing_station(explained: Explained, options: Options) -> str:
    """Returns the row of standard error for an address of the options that the line does not have."""
    if explained.line is None:
        return ''
    spec = explained.line.spec
    if options.slave is not None and options.slave not in [slave.address for slave in spec.slaves]:
        return f'rackd: the line has no slave {options.slave}\n'
    if options.master is not None and options.master not in spec.masters:
        return f'rackd: the line has no master {options.master}\n'
    return ''


def cut_row(text: str, explained: Explained, files: List[str]) -> str:
    """Returns the row of standard error for a text that ends within the row that is bad."""
    last = len(rows_of(text))
    if not text or text.endswith('\n') or explained.verdict != f'bad line {last}':
        return ''
    of = files[-1] if len(files) == 1 else f'the text, in {files[-1]}'
    return f'  row {last} of {of}: the text ends within this row, as after a kill\n'


# ---------------------------------------------------------------------------------------------------------------------
# Stored cases
# ---------------------------------------------------------------------------------------------------------------------


@dataclass
class Case:
    """A stored case: its name, the words, and the files of what is expected."""
    name: str
    words: List[str]
    expected: str
    error: str


def text_or_empty(path: str) -> str:
    return read_file(path) if os.path.exists(path) else ''


def stored_case(folder: str, name: str) -> Case:
    """Returns the case of NAME.out."""
    base = os.path.join(folder, name)
    audit = base if os.path.exists(base + '.audit') else base.rpartition('-')[0]
    options = text_or_empty(base + '.options').split()
    words = [os.path.join(folder, 'rack.toml'), audit + '.audit'] + options
    return Case(os.path.basename(folder) + '/' + name, words, base + '.out', base + '.err')


def example_case(top: str) -> Case:
    """Returns the case of the day of a line."""
    base = os.path.join(top, 'examples', 'day-of-a-line')
    return Case('examples/day-of-a-line', [base + '-rack.toml', base + '.audit'], base + '.explained', base + '.err')


def stored_cases() -> List[Case]:
    """Returns every stored case of tests/explain, and the day of a line of the examples."""
    tests = os.path.dirname(os.path.dirname(os.path.abspath(__file__)))
    stored, cases = os.path.join(tests, 'explain'), []
    for entry in sorted(os.listdir(stored)):
        folder = os.path.join(stored, entry)
        if os.path.exists(os.path.join(folder, 'rack.toml')):
            cases += [stored_case(folder, file[:-4]) for file in sorted(os.listdir(folder)) if file.endswith('.out')]
    return cases + [example_case(os.path.dirname(tests))]


def status_of(expected: str) -> int:
    """Returns the status that goes with an expected output: its last row decides, and 2 goes with no output."""
    if not expected:
        return STATUS_WRONG_INPUT
    last = expected.splitlines()[-1]
    is_legal = last.startswith('legal ') or last.startswith('{') and json.loads(last)['verdict'] == 'legal'
    return STATUS_LEGAL if is_legal else STATUS_WRONG_TEXT


def agrees(case: Case) -> bool:
    """Returns whether the expected texts of a case are those of this program."""
    expected = read_file(case.expected)
    error = text_or_empty(case.error).replace(' of FILE: ', f' of {case.words[1]}: ')
    return explain(case.words) == (status_of(expected), expected, error)


def compare_all() -> int:
    """Compares every stored case; prints the cases that differ, and the numbers."""
    cases = stored_cases()
    wrong = [case.name for case in cases if not agrees(case)]
    for name in wrong:
        print(f'differs: {name}')
    print(f'{len(cases) - len(wrong)} agree, {len(wrong)} differ')
    return STATUS_WRONG_TEXT if wrong else STATUS_LEGAL


def main(words: List[str]) -> int:
    if words == ['--all']:
        return compare_all()
    status, output, error = explain(words)
    sys.stdout.write(output)
    sys.stdout.flush()
    sys.stderr.write(error)
    return status


if __name__ == '__main__':
    sys.exit(main(sys.argv[1:]))
