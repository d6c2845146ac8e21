#!/usr/bin/env python3
"""A master for `python -m rackd suite examples/suite-master.py`, with the Python package of this repository.

A program of your own does the same with its stack: it reads address and slaves from its environment, connects, brings
the slaves up, and exchanges data with them until SIGTERM ends it.
"""
import json
import os
import sys
import time
from pathlib import Path

# the package of the checkout, if none is installed
sys.path.append(str(Path(__file__).resolve().parents[1] / "python"))
from rackd import RR, Master, NoReply, SlaveRefused  # noqa: E402

# Seconds between two cycles, and for a reply.
CYCLE_TIME, REPLY_TIME = 0.005, 1.0


class Slave:
    """A slave as it is configured, its next outputs, and whether data are exchanged with it."""

    def __init__(self, keys):
        self.address, self.ident, self.group = keys["address"], keys["ident"], keys["group"]
        self.cfg, self.user, self.outputs = (bytes.fromhex(keys[name]) for name in ("cfg", "user", "outputs"))
        self.watchdog_ms, self.mirror, self.failsafe = keys["watchdog_ms"], keys["mirror"], keys["failsafe"]
        self.sync, self.freeze = keys["sync"], keys["freeze"]
        self.ready = False
        self.exchanges = 0


class Controller:
    """A DP master class 1 over a session. It is in Clear for the first `clear` exchanges with each slave."""

    def __init__(self, session, slaves, clear):
        self.session, self.slaves, self.clear = session, slaves, clear
        self.in_clear = clear > 0

    def cycle(self):
        """Serves each slave once."""
        if self.in_clear and any(slave.ready for slave in self.slaves):
            self.mode()
        for slave in self.slaves:
            try:
                if slave.ready:
                    self.exchange(slave)
                else:
                    slave.ready = self.bring_up(slave)
            except RR:
                # busy: again in the next cycle
                pass
            except (NoReply, SlaveRefused):
                slave.ready = False
        self.commands()

    def mode(self):
        """Sends the mode: Clear, or Operate once each slave has had its exchanges in Clear."""
        self.in_clear = any(slave.exchanges < self.clear for slave in self.slaves)
        self.session.global_control(clear=self.in_clear)

    def bring_up(self, slave):
        """Brings a slave up if it is the configured one and no other master holds it. Returns whether it is ready."""
        diagnosis = self.session.slave_diag(slave.address)
        if diagnosis.ident != slave.ident or diagnosis.holder not in (None, self.session.address):
            return False
        if diagnosis.station_not_ready:
            self.set_prm(slave)
            self.session.chk_cfg(slave.address, slave.cfg)
            diagnosis = self.session.slave_diag(slave.address)
        return self.is_ready(diagnosis)

    def set_prm(self, slave):
        """Sends the parameters of a slave."""
        self.session.set_prm(slave.address, slave.ident, watchdog_ms=slave.watchdog_ms, group=slave.group,
                             sync=slave.sync, freeze=slave.freeze, user=slave.user)

    def is_ready(self, diagnosis):
        """Whether a slave with this diagnosis is in data exchange with this master."""
        return not diagnosis.station_not_ready and diagnosis.holder == self.session.address

    def exchange(self, slave):
        """Exchanges data with a slave, and reads its diagnosis if one is due."""
        inputs = self.session.data_exchange(slave.address, self.outputs(slave))
        slave.exchanges += 1
        # E5 names no slave: one that comes late is a reply without inputs
        if slave.mirror and len(inputs) == len(slave.outputs):
            slave.outputs = inputs
        if slave.address in self.session.diagnosis_due:
            slave.ready = self.is_ready(self.session.slave_diag(slave.address))

    def outputs(self, slave):
        """Returns the outputs of a slave: in Clear zeros, and for a fail-safe slave no octets."""
        if self.in_clear:
            return b"" if slave.failsafe else bytes(len(slave.outputs))
        return slave.outputs

    def commands(self):
        """Sends Sync and Freeze for the slaves that have them."""
        for slave in self.slaves:
            if slave.ready and (slave.sync or slave.freeze):
                self.session.global_control(sync=slave.sync, freeze=slave.freeze, group=slave.group)


def main(session_of=Master, controller_of=Controller):
    """Runs a controller with what the environment says."""
    slaves = [Slave(keys) for keys in json.loads(os.environ["RACKD_SLAVES"])]
    session = session_of(int(os.environ["RACKD_PORT"]), int(os.environ["RACKD_ADDRESS"]))
    session.timeout = REPLY_TIME
    controller = controller_of(session, slaves, int(os.environ["RACKD_CLEAR"]))
    while True:
        controller.cycle()
        time.sleep(CYCLE_TIME)


if __name__ == "__main__":
    main()
