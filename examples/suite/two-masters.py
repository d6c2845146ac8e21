"""The master runs twice on one bus, with two addresses: each process serves its own slaves."""
from rackd.suite import Bus, Slave

SLAVES = [Slave(5, outputs="1234"), Slave(6, mirror=True)]
# those of the second process, whose address is 2
SECOND = [Slave(7, outputs="5678", watchdog_ms=200), Slave(8, mirror=True)]


def run(bus: Bus) -> None:
    bus.operator.input(6, b"\xaa\x55")
    bus.operator.input(8, b"\x55\xaa")
    bus.start()
    bus.outputs(5, "1234")
    bus.outputs(6, "aa55")
    bus.second.start()
    bus.second.outputs(7, "5678")
    bus.second.outputs(8, "55aa")
    # a slave of the one is lost, and the other goes on
    bus.operator.tick(20)
    bus.second.exchanges(7)
    bus.second.outputs(7, "5678")
    for slave in (5, 6):
        bus.exchanges(slave)
    bus.only(6, "0000", "aa55")
