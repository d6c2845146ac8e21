"""A model of what a head of an audit text can say, independent of the code of the product.

It reads a head row by row, as docs/reference/audit-texts.md describes heads, and has a test for each rule of docs/reference/policy.md, "What always
holds". `verdict_on` is the verdict on a text that is one head of a line.
"""
from dataclasses import dataclass
from typing import Callable, Dict, List, Optional, Tuple

from oracle.explainer import (DATA_EXCH, DATA_EXCHANGE, DIAGNOSIS_HEAD, ENDLESS_CAPACITY, GET_CFG, INPUTS, LARGEST_OCTET,
                              LARGEST_WORD, NO_OCTETS, OUTPUTS, RD_INP, RD_OUTP, REPLY_DH, REPLY_DL, REPLY_RR, REPLY_RS,
                              REPLY_UE, SLAVE_DIAG, WAIT_CFG, WAIT_PRM, Acknowledgement, FrameFault, LineSpec, SlaveSpec,
                              Telegram, configuration_size, read_frame)
from oracle.heads import BUSY_LETTERS, DIAGNOSIS_LETTERS, MODE_LETTERS, REQUEST_LETTERS

LARGEST_TIME = 2**64 - 1
# The most octets of user parameters, of inputs and of outputs, of an extended diagnosis, and of a remembered reply.
USER_LIMIT, DATA_LIMIT, EXTENDED_LIMIT, REPLY_LIMIT = 237, 244, 238, 255
LARGEST_FACTOR = 255
# The rows of a head: its header, that of the line, and the first one of the first slave, which has six and one for each master.
HEADER_ROW, LINE_ROW, FIRST_SLAVE_ROW, ROWS_OF_SLAVE = 1, 2, 3, 6


# ---- What a head says


@dataclass
class HeadParameters:
    """The row `prm`."""
    watchdog: Optional[int]
    sync: bool
    freeze: bool
    user: bytes


@dataclass
class HeadSlave:
    """What the rows of a slave say; only what a rule is about."""
    spec: SlaveSpec
    state: str
    holder: Optional[int]
    since: int
    left: Optional[int]
    min_tsdr: int
    sent: Optional[int]
    shape: int
    sync_mode: bool
    freeze_mode: bool
    cleared: bool
    parameters: Optional[HeadParameters]
    inputs: bytes
    copy: bytes
    outputs: bytes
    latest: bytes
    prm_fault: bool
    cfg_fault: bool
    not_supported: bool
    replies: Dict[int, bytes]

    @property
    def full_time(self) -> Optional[int]:
        """The watchdog time of its parameters, None if there is none."""
        return self.parameters.watchdog if self.parameters else None

    @property
    def configuration(self) -> bytes:
        """The octets of the configuration in force; none if the shape is the number of no configuration."""
        return self.spec.configurations[self.shape] if self.shape < len(self.spec.configurations) else b''


@dataclass
class Head:
    """What a head says."""
    count: int
    halted: bool
    slaves: List[HeadSlave]


# ---- Reading


class WrongRow(Exception):
    """A row that is no row of a head, by its number."""

    def __init__(self, number: int):
        super().__init__(number)
        self.number = number


def wanted(condition: bool) -> None:
    """Raises ValueError unless the condition holds."""
    if not condition:
        raise ValueError


def number_of(word: str, most: int = LARGEST_OCTET) -> int:
    number = int(word)
    wanted(str(number) == word and 0 <= number <= most)
    return number


def optional_number(word: str, name: str, most: int = LARGEST_OCTET) -> Optional[int]:
    return None if word == name else number_of(word, most)


def octets_of(word: str, most: int) -> bytes:
    octets = b'' if word == NO_OCTETS else bytes.fromhex(word)
    wanted((octets.hex() or NO_OCTETS) == word and len(octets) <= most)
    return octets


def flags_of(word: str, letters: str) -> Tuple[bool, ...]:
    wanted(len(word) == len(letters) and all(given in (letter, '-') for given, letter in zip(word, letters)))
    return tuple(given != '-' for given in word)


def choice(word: str, *words: str) -> str:
    wanted(word in words)
    return word


class Rows:
    """The rows of a text. A row is taken with the words that it has to begin with, and how many there are in all."""

    def __init__(self, text: str):
        *self.rows, self.rest = text.split('\n')
        self.taken = 0

    def take(self, read: Callable[[List[str]], None], key: str) -> None:
        """Reads the words of the next row behind its key, or raises WrongRow."""
        self.taken += 1
        try:
            row = self.rows[self.taken - 1]
            wanted(row.startswith(f'{key} '))
            read(row[len(key) + 1:].split(' '))
        except (IndexError, ValueError):
            raise WrongRow(self.taken)

    def end(self) -> None:
        if self.taken < len(self.rows) or self.rest:
            raise WrongRow(self.taken + 1)


def read_state(said: dict, words: List[str]) -> None:
    state, holder, since, left, busy = words
    said['state'] = choice(state, WAIT_PRM, WAIT_CFG, DATA_EXCH)
    said['holder'] = optional_number(holder, 'none')
    said['since'] = number_of(since, LARGEST_WORD)
    said['left'] = optional_number(left, 'off', LARGEST_WORD)
    flags_of(busy, ''.join(letter for _, letter in BUSY_LETTERS))


def read_settings(said: dict, words: List[str]) -> None:
    min_tsdr, sent, shape, modes = words
    said['min_tsdr'], said['sent'], said['shape'] = number_of(min_tsdr), optional_number(sent, 'none'), number_of(shape)
    said['sync_mode'], said['freeze_mode'], said['cleared'] = flags_of(modes, MODE_LETTERS)


def read_parameters(said: dict, words: List[str]) -> None:
    said['parameters'] = None
    if words != ['none']:
        watchdog, requests, min_tsdr, group, user = words
        for octet in (min_tsdr, group):
            number_of(octet)
        sync, freeze = flags_of(requests, REQUEST_LETTERS)
        time = optional_number(watchdog, 'off', LARGEST_WORD)
        said['parameters'] = HeadParameters(time, sync, freeze, octets_of(user, USER_LIMIT))


def read_inputs(said: dict, words: List[str]) -> None:
    said['inputs'], said['copy'] = (octets_of(word, DATA_LIMIT) for word in words)


def read_outputs(said: dict, words: List[str]) -> None:
    said['outputs'], said['latest'] = (octets_of(word, DATA_LIMIT) for word in words)


def read_diagnosis(said: dict, words: List[str]) -> None:
    flags, extended = words
    said['prm_fault'], said['cfg_fault'], said['not_supported'] = flags_of(flags, DIAGNOSIS_LETTERS)[4:]
    octets_of(extended, EXTENDED_LIMIT)


def read_remembered(said: dict, master: int, words: List[str]) -> None:
    if words != ['none']:
        fcb, reply = words
        choice(fcb, '0', '1')
        said['replies'][master] = octets_of(reply, REPLY_LIMIT)


KEYS_OF_SLAVE = (('slave', read_state), ('set', read_settings), ('prm', read_parameters), ('in', read_inputs),
                 ('out', read_outputs), ('diag', read_diagnosis))


def read_slave(rows: Rows, spec: SlaveSpec, masters: List[int]) -> HeadSlave:
    """Reads the rows of a slave. Data of another length than its shape says make its first row wrong."""
    first, said = rows.taken + 1, {'spec': spec, 'replies': {}}
    for key, read in KEYS_OF_SLAVE:
        rows.take(lambda words, read=read: read(said, words), f'{key} {spec.address}')
    for master in masters:
        rows.take(lambda words, master=master: read_remembered(said, master, words), f'last {spec.address} {master}')
    slave = HeadSlave(**said)
    lengths = [configuration_size(slave.configuration, direction) for direction in (INPUTS, INPUTS, OUTPUTS, OUTPUTS)]
    if [len(data) for data in (slave.inputs, slave.copy, slave.outputs, slave.latest)] != lengths:
        raise WrongRow(first)
    return slave


def read_head(line: LineSpec, text: str) -> Head:
    """Returns what a text says that is one head of a line, or raises WrongRow."""
    rows, said = Rows(text), {}

    def read_header(words: List[str]) -> None:
        place, = words
        said['count'] = number_of(place, LARGEST_WORD)

    def read_line(words: List[str]) -> None:
        halted, time = words
        said['halted'] = choice(halted, 'running', 'halted') == 'halted'
        optional_number(time, 'none', LARGEST_TIME)

    rows.take(read_header, f'rack-audit 3 line {line.number} from')
    rows.take(read_line, 'line')
    specs = sorted(line.slaves, key=lambda spec: spec.address)
    head = Head(slaves=[read_slave(rows, spec, line.masters) for spec in specs], **said)
    rows.end()
    return head


# ---- The rules of a slave: each function returns whether a slave keeps a rule of docs/reference/policy.md, or a part of it.


def is_held_outside_wait_prm(line: LineSpec, head: Head, slave: HeadSlave) -> bool:
    return (slave.holder is None) == (slave.state == WAIT_PRM)


def is_held_by_a_locker(line: LineSpec, head: Head, slave: HeadSlave) -> bool:
    lockers = line.masters if slave.spec.lockers is None else slave.spec.lockers
    return slave.holder is None or slave.holder in line.masters and slave.holder in lockers


def has_parameters_while_it_is_held(line: LineSpec, head: Head, slave: HeadSlave) -> bool:
    return (slave.parameters is None) == (slave.holder is None)


def is_product_of_factors(units: int) -> bool:
    return any(units % factor == 0 and 1 <= units // factor <= LARGEST_FACTOR for factor in range(1, LARGEST_FACTOR + 1))


def has_a_watchdog_time(line: LineSpec, head: Head, slave: HeadSlave) -> bool:
    return slave.full_time is None or is_product_of_factors(slave.full_time)


def was_asked_for_what_it_supports(line: LineSpec, head: Head, slave: HeadSlave) -> bool:
    asked = slave.parameters
    return asked is None or asked.sync <= slave.spec.sync and asked.freeze <= slave.spec.freeze


def takes_the_user_parameters(line: LineSpec, head: Head, slave: HeadSlave) -> bool:
    return slave.parameters is None or len(slave.parameters.user) <= slave.spec.user_max


def has_a_watchdog_by_its_parameters(line: LineSpec, head: Head, slave: HeadSlave) -> bool:
    return (slave.left is None) == (slave.full_time is None)


def has_time_left(line: LineSpec, head: Head, slave: HeadSlave) -> bool:
    return slave.left is None or slave.left >= 1 and (slave.full_time is None or slave.left <= slave.full_time)


def has_min_tsdr(line: LineSpec, head: Head, slave: HeadSlave) -> bool:
    return slave.min_tsdr != 0


def has_a_shape_that_can_be_chosen(line: LineSpec, head: Head, slave: HeadSlave) -> bool:
    configurations = slave.spec.configurations
    return slave.shape < len(configurations) and configurations.index(slave.configuration) == slave.shape


def was_sent_its_shape(line: LineSpec, head: Head, slave: HeadSlave) -> bool:
    return slave.sent == (slave.shape if slave.state == DATA_EXCH else None)


def is_in_no_mode_outside_data_exch(line: LineSpec, head: Head, slave: HeadSlave) -> bool:
    return slave.state == DATA_EXCH or not slave.sync_mode and not slave.freeze_mode


def is_in_modes_that_were_asked_for(line: LineSpec, head: Head, slave: HeadSlave) -> bool:
    asked = slave.parameters
    return slave.sync_mode <= (asked is not None and asked.sync) and slave.freeze_mode <= (asked is not None and asked.freeze)


def has_zeros_outside_data_exch(line: LineSpec, head: Head, slave: HeadSlave) -> bool:
    return slave.state == DATA_EXCH or not any(slave.outputs + slave.latest)


def has_put_its_data_out(line: LineSpec, head: Head, slave: HeadSlave) -> bool:
    return slave.sync_mode or slave.outputs == slave.latest


def has_a_copy_only_by_freeze(line: LineSpec, head: Head, slave: HeadSlave) -> bool:
    return slave.spec.freeze or not any(slave.copy)


def is_cleared_as_a_fail_safe_slave(line: LineSpec, head: Head, slave: HeadSlave) -> bool:
    return not slave.cleared or slave.spec.failsafe and slave.state == DATA_EXCH and not any(slave.outputs + slave.latest)


def has_faults_in_wait_prm(line: LineSpec, head: Head, slave: HeadSlave) -> bool:
    return slave.state == WAIT_PRM or not slave.prm_fault and not slave.cfg_fault


def has_one_fault(line: LineSpec, head: Head, slave: HeadSlave) -> bool:
    return not (slave.prm_fault and slave.cfg_fault)


def lacks_what_is_not_supported(line: LineSpec, head: Head, slave: HeadSlave) -> bool:
    return not slave.not_supported or slave.prm_fault and not (slave.spec.sync and slave.spec.freeze)


def lengths_of(spec: SlaveSpec, direction: str) -> List[int]:
    """Returns how many inputs or outputs the configurations of a slave have."""
    return [configuration_size(configuration, direction) for configuration in spec.configurations]


def is_data_of(point: Optional[int], data: bytes, spec: SlaveSpec) -> bool:
    """Returns whether a point of a slave can answer an SRD with these data."""
    if point in (DATA_EXCHANGE, RD_INP):
        return len(data) in lengths_of(spec, INPUTS)
    if point == RD_OUTP:
        return len(data) in lengths_of(spec, OUTPUTS)
    return data in spec.configurations if point == GET_CFG else point == SLAVE_DIAG and len(data) >= DIAGNOSIS_HEAD


def is_short_reply(frame: Telegram, spec: SlaveSpec) -> bool:
    """Returns whether the function code is that of a reply without data to an SRD."""
    return frame.fc in (REPLY_UE, REPLY_RR, REPLY_RS) or frame.fc == REPLY_DH and 0 in lengths_of(spec, INPUTS)


def is_reply_with_data(frame: Telegram, spec: SlaveSpec) -> bool:
    """Returns whether the function code, the access points and the data are those of a reply with data to an SRD."""
    parts = frame.parts()
    if parts is None or not 1 <= len(parts.payload) <= DATA_LIMIT:
        return False
    codes = (REPLY_DL, REPLY_DH) if parts.ssap == DATA_EXCHANGE else (REPLY_DL,)
    return frame.fc in codes and is_data_of(parts.ssap, parts.payload, spec)


def is_reply(octets: bytes, spec: SlaveSpec, master: int) -> bool:
    """Returns whether octets are a reply that a slave can have sent to an SRD of a master."""
    try:
        frame = read_frame(octets)
    except FrameFault:
        return False
    if not isinstance(frame, Telegram):
        return isinstance(frame, Acknowledgement)
    if frame.layout == 'SD1':
        return (frame.da, frame.sa) == (master, spec.address) and is_short_reply(frame, spec)
    addresses = frame.destination, frame.source
    return frame.layout == 'SD2' and addresses == (master, spec.address) and is_reply_with_data(frame, spec)


def remembers_replies(line: LineSpec, head: Head, slave: HeadSlave) -> bool:
    return all(is_reply(octets, slave.spec, master) for master, octets in slave.replies.items())


def was_locked_at_a_place(line: LineSpec, head: Head, slave: HeadSlave) -> bool:
    return slave.since == 0 if slave.holder is None else 1 <= slave.since <= head.count


def was_configured_behind_its_lock(line: LineSpec, head: Head, slave: HeadSlave) -> bool:
    return slave.state != DATA_EXCH or slave.since < head.count


RULES_OF_SLAVES = (
    is_held_outside_wait_prm, is_held_by_a_locker,
    has_parameters_while_it_is_held, has_a_watchdog_time, was_asked_for_what_it_supports, takes_the_user_parameters,
    has_a_watchdog_by_its_parameters, has_time_left,
    has_min_tsdr,
    has_a_shape_that_can_be_chosen, was_sent_its_shape,
    is_in_no_mode_outside_data_exch, is_in_modes_that_were_asked_for,
    has_zeros_outside_data_exch, has_put_its_data_out,
    has_a_copy_only_by_freeze,
    is_cleared_as_a_fail_safe_slave,
    has_faults_in_wait_prm, has_one_fault, lacks_what_is_not_supported,
    remembers_replies,
    was_locked_at_a_place, was_configured_behind_its_lock)


# ---- The rules of the line


def have_own_places(head: Head) -> bool:
    places = [slave.since for slave in head.slaves if slave.since != 0]
    return len(set(places)) == len(places)


def needed_places(slaves: List[HeadSlave], place: int) -> int:
    """Returns how many places from this one on the locks of slaves need, and the Chk_Cfg behind them."""
    return sum(2 if slave.state == DATA_EXCH else 1 for slave in slaves if slave.holder is not None and slave.since >= place)


def has_places_for_its_locks(head: Head) -> bool:
    return all(needed_places(head.slaves, slave.since) <= head.count - slave.since + 1
               for slave in head.slaves if slave.holder is not None)


def has_released_its_slaves_by_its_halt(head: Head) -> bool:
    return not head.halted or all(slave.holder is None for slave in head.slaves)


def has_an_entry_of_its_halt(head: Head) -> bool:
    return not head.halted or head.count >= 1


def has_a_place_left(head: Head) -> bool:
    return head.halted or head.count < ENDLESS_CAPACITY


# The rules with the row that is reported for them.
RULES_OF_LINES = (
    (HEADER_ROW, have_own_places), (LINE_ROW, has_places_for_its_locks), (LINE_ROW, has_released_its_slaves_by_its_halt),
    (LINE_ROW, has_an_entry_of_its_halt), (LINE_ROW, has_a_place_left))


# ---- The verdict


def broken_rules(line: LineSpec, head: Head) -> List[Tuple[int, str]]:
    """Returns each rule that a head breaks: the row that is reported for it, and its name. The first one decides."""
    size = ROWS_OF_SLAVE + len(line.masters)
    broken = [(FIRST_SLAVE_ROW + place * size, rule.__name__) for place, slave in enumerate(head.slaves)
              for rule in RULES_OF_SLAVES if not rule(line, head, slave)]
    return broken + [(row, rule.__name__) for row, rule in RULES_OF_LINES if not rule(head)]


def head_fault(line: LineSpec, head: Head) -> Optional[int]:
    """Returns the number of the row of a head that says what no line can be, or None."""
    broken = broken_rules(line, head)
    return broken[0][0] if broken else None


def verdict_on(line: LineSpec, text: str) -> str:
    """Returns the verdict on a text that is one head of a line."""
    try:
        head = read_head(line, text)
    except WrongRow as wrong:
        return f'bad line {wrong.number}'
    fault = head_fault(line, head)
    return f'legal {head.count}' if fault is None else f'not the policy {fault}'
