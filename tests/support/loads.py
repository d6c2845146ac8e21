"""Masters and operators that keep a server busy in threads of their own, and remember what they sent and got."""
import itertools
import threading

from rackd import frames
from rackd.faults import SessionEnded
from rackd.master import MASTER, SET_PRM

from support.audit_texts import commands, said_by
from support.clients import exchange, open_master
from support.processes import PATIENCE
from support.telegrams import chk_cfg, data_exchange, slave_diag, token

# The data of a Set_Prm with a watchdog of 10 units.
WATCHDOG_OF_10 = bytes.fromhex("8802050b80a101")


def lock(master, slave, code):
    """Returns a Set_Prm with a watchdog of 10 units."""
    return frames.request(slave, master, code, WATCHDOG_OF_10, SET_PRM, MASTER)


class Load(threading.Thread):
    """Does `work` until it ends, or the server does. `replies` is how many replies it has got."""

    def __init__(self):
        super().__init__(daemon=True)
        self.replies, self.fault = 0, None

    def work(self):
        raise NotImplementedError

    def run(self):
        try:
            self.work()
        except SessionEnded:
            # the server has ended
            pass
        except BaseException as fault:
            self.fault = fault

    def finish(self):
        """Waits for its end, and raises what it raised."""
        self.join(PATIENCE)
        if self.fault is not None:
            raise self.fault
        assert not self.is_alive(), "a load does not end"


def start(loads):
    for load in loads:
        load.start()


def finish(loads):
    for load in loads:
        load.finish()


class ExchangeLoad(Load):
    """A master that locks a slave of its own and exchanges data with it, without end or for a number of rounds.

    No two of its exchanges are the same. Each round ends with a reply; then `look` is called with this load.
    """

    def __init__(self, server, master, slave, other, *, line=1, rounds=None, look=None):
        super().__init__()
        self.master, self.sent, self.received = master, [], b""
        self._slave, self._other, self._rounds, self._look = slave, other, rounds, look
        self._session = open_master(server.ports[line].listen, master)

    def _telegrams(self):
        """Yields what each round sends, in one piece: the last telegram gets a reply."""
        yield [lock(self.master, self._slave, 0x6D)]
        yield [chk_cfg(self.master, self._slave, 0x5D)]
        for number in itertools.count():
            data = data_exchange(self.master, self._slave, 0x5D if number % 2 else 0x7D, number.to_bytes(2, "big"))
            yield [token(self.master), data] if number % 4 == 3 else [data]
            if number % 4 == 1:
                yield [slave_diag(self.master, self._other)]

    def work(self):
        for telegrams in itertools.islice(self._telegrams(), self._rounds):
            self.sent += telegrams
            octets = exchange(self._session, b"".join(telegrams))
            self.received += octets
            if not octets:
                return
            self.replies += 1
            if self._look is not None:
                self._look(self)

    def assert_kept(self, text):
        """Asserts that a text has all telegrams whose replies have come, in their order, and the same replies."""
        telegrams, replies = said_by(text, self.master)
        assert telegrams == self.sent[:len(telegrams)], f"the telegrams of master {self.master}"
        assert replies[:len(self.received)] == self.received, f"the replies to master {self.master}"


class InputLoad(Load):
    """An operator that sets the inputs of slave 5, without end; no two times the same."""

    def __init__(self, server, line=1):
        super().__init__()
        self.sent, self._operator = [], server.operator(line)

    def work(self):
        for number in itertools.count():
            self.sent.append(f"in 5 {number % 0x10000:04x}")
            assert self._operator.ask(self.sent[-1]) == "done"
            self.replies += 1

    def assert_kept(self, text):
        """Asserts that a text has each command that was answered, in their order."""
        found = commands(text)
        assert found == self.sent[:len(found)]
        assert len(found) >= self.replies


class SilentLoad(Load):
    """A master that sends telegrams that get no reply, and asks once behind them, again and again.

    It ends after a number of events, if there is one, or once `until` returns true. `sent` counts its events, and `answered`
    those before its last reply.
    """

    def __init__(self, server, master, telegrams, *, events=None, until=None):
        super().__init__()
        self.master, self.sent, self.answered = master, 0, 0
        self._events, self._until, self._telegrams = events, until, [*telegrams, slave_diag(master, 5)]
        self._session = open_master(server.ports[1].listen, master)

    def work(self):
        batch = b"".join(self._telegrams)
        while not (self._events is not None and self.sent >= self._events or self._until is not None and self._until()):
            self.sent += len(self._telegrams)
            if not exchange(self._session, batch):
                return
            self.answered = self.sent
            self.replies += 1

    def close(self):
        """Ends the session, once the load has ended."""
        self._session.close()
