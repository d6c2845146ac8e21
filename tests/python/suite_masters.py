#!/usr/bin/env python3
"""Masters for test_suite_masters.py: that of examples/suite-master.py, each changed in one way.

usage: suite_masters.py [NAME]

The environment is that of a master under test. Without NAME the names are printed.
"""
import importlib.util
import signal
import sys
from pathlib import Path

sys.dont_write_bytecode = True
CLEAN = Path(__file__).resolve().parents[2] / "examples" / "suite-master.py"
spec = importlib.util.spec_from_file_location("suite_master", CLEAN)
clean = importlib.util.module_from_spec(spec)
spec.loader.exec_module(clean)
from rackd import RR, Master, NoReply, SlaveRefused  # noqa: E402
from rackd.master import FCB  # noqa: E402


# ---- bring-up

class NoFirstDiagnosis(clean.Controller):
    """Sends parameters before it has read a diagnosis."""

    def bring_up(self, slave):
        self.set_prm(slave)
        self.session.chk_cfg(slave.address, slave.cfg)
        return self.is_ready(self.session.slave_diag(slave.address))


class NoSecondDiagnosis(clean.Controller):
    """Exchanges data right after Chk_Cfg."""

    def is_ready(self, diagnosis):
        return True

    def bring_up(self, slave):
        self.session.slave_diag(slave.address)
        self.set_prm(slave)
        self.session.chk_cfg(slave.address, slave.cfg)
        return True


class ShortTsdr(clean.Controller):
    """Sends a min TSDR of 5."""

    def set_prm(self, slave):
        self.session.set_prm(slave.address, slave.ident, watchdog_ms=slave.watchdog_ms, user=slave.user, min_tsdr=5)


class FcbStands(Master):
    """Sends each Data_Exchange to slave 5 with the FCB of the request before."""

    def data_exchange(self, slave, outputs=b""):
        if slave == 5:
            self._fcb[slave] = not self._fcb[slave]
        return super().data_exchange(slave, outputs)


class Deaf(clean.Controller):
    """Does not look at inputs."""

    def exchange(self, slave):
        slave.mirror = False
        super().exchange(slave)


class Ends(clean.Controller):
    """Ends in its third cycle."""

    cycles = 0

    def cycle(self):
        self.cycles += 1
        if self.cycles == 3:
            sys.exit("out of cycles")
        super().cycle()


class Noise(clean.Controller):
    """Sends an octet that is no telegram."""

    def exchange(self, slave):
        if slave.exchanges == 3:
            self.session._send(b"\x00")
        super().exchange(slave)


class Stays(clean.Controller):
    """Does not end by SIGTERM."""

    def cycle(self):
        signal.signal(signal.SIGTERM, signal.SIG_IGN)
        super().cycle()


# ---- faults of slaves

class ExchangesForEver(clean.Controller):
    """Goes on with Data_Exchange after RS."""

    def exchange(self, slave):
        try:
            super().exchange(slave)
        except SlaveRefused:
            pass


class NeverReadsDiagnosis(Master):
    """Does not see that a diagnosis is due."""

    def data_exchange(self, slave, outputs=b""):
        inputs = super().data_exchange(slave, outputs)
        self.diagnosis_due.clear()
        return inputs


class TakesBusyForDone(clean.Controller):
    """Takes RR of Set_Prm for an acknowledgement."""

    def set_prm(self, slave):
        try:
            super().set_prm(slave)
        except RR:
            pass


class GivesUpBusy(clean.Controller):
    """Never asks a slave again that was busy."""

    def exchange(self, slave):
        try:
            super().exchange(slave)
        except RR:
            self.slaves.remove(slave)


class GivesUp(clean.Controller):
    """Never asks a slave again that does not reply."""

    def exchange(self, slave):
        try:
            super().exchange(slave)
        except NoReply:
            self.slaves.remove(slave)


class StopsForOne(clean.Controller):
    """Serves no slave while one is lost."""

    def cycle(self):
        lost = [slave for slave in self.slaves if slave.exchanges and not slave.ready]
        if lost:
            try:
                lost[0].ready = self.bring_up(lost[0])
            except (NoReply, SlaveRefused):
                pass
        else:
            super().cycle()


class TakesWhatIsHeld(clean.Controller):
    """Sends parameters to a slave that another master holds."""

    def bring_up(self, slave):
        diagnosis = self.session.slave_diag(slave.address)
        if not self.is_ready(diagnosis):
            self.set_prm(slave)
            self.session.chk_cfg(slave.address, slave.cfg)
            diagnosis = self.session.slave_diag(slave.address)
        return self.is_ready(diagnosis)


class BelievesAnyIdent(clean.Controller):
    """Does not look at what the diagnosis says of ident, parameters and configuration."""

    def bring_up(self, slave):
        self.session.slave_diag(slave.address)
        self.set_prm(slave)
        try:
            self.session.chk_cfg(slave.address, slave.cfg)
        except SlaveRefused:
            pass
        self.session.slave_diag(slave.address)
        return True


class IgnoresFaults(clean.Controller):
    """Exchanges data though the diagnosis after Chk_Cfg shows a fault of one kind."""

    def is_ready(self, diagnosis):
        return super().is_ready(diagnosis) or self.fault(diagnosis)

    def bring_up(self, slave):
        diagnosis = self.session.slave_diag(slave.address)
        if diagnosis.ident != slave.ident or diagnosis.holder not in (None, self.session.address):
            return False
        if diagnosis.station_not_ready:
            self.set_prm(slave)
            try:
                self.session.chk_cfg(slave.address, slave.cfg)
            except SlaveRefused:
                pass
            diagnosis = self.session.slave_diag(slave.address)
        return self.is_ready(diagnosis)


class IgnoresPrmFault(IgnoresFaults):
    """Exchanges data though the diagnosis shows Prm_Fault."""

    @staticmethod
    def fault(diagnosis):
        return diagnosis.prm_fault


class IgnoresCfgFault(IgnoresFaults):
    """Exchanges data though the diagnosis shows Cfg_Fault."""

    @staticmethod
    def fault(diagnosis):
        return diagnosis.cfg_fault


class GivesUpWrongIdent(clean.Controller):
    """Never asks a slave again whose ident number was wrong."""

    def bring_up(self, slave):
        ready = super().bring_up(slave)
        if not ready:
            self.slaves.remove(slave)
        return ready


# ---- commands, modes and configurations

class NoSync(clean.Controller):
    """Sends no Sync."""

    def commands(self):
        for slave in self.slaves:
            if slave.ready and slave.freeze:
                self.session.global_control(freeze=True, group=slave.group)


class SyncOnce(clean.Controller):
    """Sends Sync once only."""

    def commands(self):
        super().commands()
        for slave in self.slaves:
            slave.sync = slave.sync and not slave.ready


class OtherGroup(clean.Controller):
    """Names a group that no slave is in."""

    def commands(self):
        super().commands()
        if all(slave.ready for slave in self.slaves):
            self.session.global_control(sync=True, group=4)


class BothBits(clean.Controller):
    """Sends Freeze and Unfreeze at once."""

    def commands(self):
        for slave in self.slaves:
            if slave.ready and slave.sync:
                self.session.global_control(sync=True, group=slave.group)
                self.session.global_control(freeze=True, unfreeze=True, group=slave.group)
                self.session.global_control(freeze=True, group=slave.group)


class OutputsInClear(clean.Controller):
    """Sends outputs in Clear."""

    def outputs(self, slave):
        return slave.outputs


class NoClear(clean.Controller):
    """Begins in Operate."""

    def __init__(self, session, slaves, clear):
        super().__init__(session, slaves, 0)


class FirstConfiguration(clean.Controller):
    """Configures each slave with the same octets, and exchanges as many as these say."""

    def bring_up(self, slave):
        slave.cfg, slave.outputs = b"\x21\x11", slave.outputs.ljust(2, b"\0")
        return super().bring_up(slave)


class LongOutputs(clean.Controller):
    """Sends an octet too many."""

    def outputs(self, slave):
        return super().outputs(slave) + b"\0"


# ---- a bus that loses telegrams

def with_other_fcb(telegram):
    """Returns a request with the other FCB."""
    # the function code is at 6 of an SD2 and at 3 of an SD1
    place = 6 if telegram[0] == 0x68 else 3
    changed = telegram[:place] + bytes([telegram[place] ^ FCB, *telegram[place + 1:]])
    body = changed[4:-2] if telegram[0] == 0x68 else changed[1:-2]
    return changed[:-2] + bytes([sum(body) % 256, 0x16])


class ChangesFcbOfARetry(Master):
    """Sends a request again with the other FCB if no reply came, and begins with FCV 0 behind that."""

    spoilt = False

    def _reply(self, answers):
        self.spoilt = True
        reply = super()._reply(answers)
        self.spoilt = False
        return reply

    def _ask(self, slave, telegram, answers):
        self.retries, fcb = 0, self._fcb[slave]
        try:
            return super()._ask(slave, telegram, answers)
        except NoReply:
            if self.spoilt:
                self._fcb[slave] = fcb
                return super()._ask(slave, telegram, answers)
            return self.send_again(slave, with_other_fcb(telegram), answers, fcb)

    def send_again(self, slave, telegram, answers, _):
        return super()._ask(slave, telegram, answers)


class RepeatsTheFcbOfARetry(ChangesFcbOfARetry):
    """Sends a request again with the other FCB, and the next one with this FCB too: it looks like a retry of this one."""

    def send_again(self, slave, telegram, answers, fcb):
        reply = super().send_again(slave, telegram, answers, fcb)
        self._fcb[slave] = fcb
        return reply


class AcceptsAnyCheckSequence(Master):
    """Does not look at the check sequence of a reply."""

    def __init__(self, *words):
        super().__init__(*words)
        receive = self._connection.receive
        self._connection.receive = lambda timeout: self.with_right_end(receive(timeout))

    @staticmethod
    def with_right_end(octets):
        """Returns replies of variable length with the check sequence that is right."""
        if octets[:1] != b"\x68" or len(octets) != octets[1] + 6:
            return octets
        return octets[:-2] + bytes([sum(octets[4:-2]) % 256, 0x16])


class HasOneAddress(Master):
    """Has the address 1, whatever its environment says."""

    def __init__(self, port, _):
        super().__init__(port, 1)


class KeepsFcb(Master):
    """Does not begin with FCV 0 after a slave was lost, but with the FCB of the last reply.

    It notices a loss early, but has patience at the beginning.
    """

    def __init__(self, *words):
        super().__init__(*words)
        self.answered, self.replies = {}, 0

    def _ask(self, slave, telegram, answers):
        self.retries, self.timeout = 0, 0.05 if self.replies > 20 else 10
        fcb = self._fcb[slave]
        try:
            reply = super()._ask(slave, telegram, answers)
        except NoReply:
            self._fcb[slave] = not self.answered.get(slave, True)
            raise
        self.answered[slave] = fcb
        self.replies += 1
        return reply


class TakesAnyReply(Master):
    """Takes each reply to a Data_Exchange for that of the last one."""

    def _answers(self, frame, slave, dsap, ssap):
        return super()._answers(frame, slave, dsap, ssap) or dsap is None and frame.dsap is None


MASTERS = {kind.__name__: kind for kind in (
    NoFirstDiagnosis, NoSecondDiagnosis, ShortTsdr, FcbStands, Deaf, Ends, Noise, Stays, ExchangesForEver,
    NeverReadsDiagnosis, TakesBusyForDone, GivesUpBusy, GivesUp, StopsForOne, TakesWhatIsHeld, BelievesAnyIdent,
    IgnoresPrmFault, IgnoresCfgFault, GivesUpWrongIdent, NoSync, SyncOnce, OtherGroup, BothBits, OutputsInClear, NoClear,
    FirstConfiguration, LongOutputs, ChangesFcbOfARetry, RepeatsTheFcbOfARetry, AcceptsAnyCheckSequence, HasOneAddress,
    KeepsFcb, TakesAnyReply)}


if __name__ == "__main__":
    if len(sys.argv) == 1:
        print(*MASTERS)
        sys.exit()
    kind = MASTERS[sys.argv[1]]
    if issubclass(kind, Master):
        clean.main(session_of=kind)
    else:
        clean.main(controller_of=kind)
