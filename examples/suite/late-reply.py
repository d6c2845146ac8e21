"""A reply is late: the master does not take it for that of its next request."""
from rackd.suite import Bus, Slave

SLAVES = [Slave(5, mirror=True), Slave(6, mirror=True)]
# longer than masters wait for a reply
LATE_MS = 2500


def run(bus: Bus) -> None:
    for slave, octets in ((5, b"\xaa\x55"), (6, b"\x12\x34")):
        bus.operator.input(slave, octets)
    bus.start()
    bus.outputs(5, "aa55")
    bus.outputs(6, "1234")
    for slave in (5, 6):
        bus.cable.late(slave, 1, LATE_MS)
        bus.met()
        bus.exchanges(5)
        bus.exchanges(6)
    bus.only(5, "0000", "aa55")
    bus.only(6, "0000", "1234")
