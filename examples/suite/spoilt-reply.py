"""A reply has a wrong check sequence: the master drops it, and sends the same request again."""
from rackd.suite import Bus, Slave

SLAVES = [Slave(5, mirror=True), Slave(6, outputs="5678")]


def run(bus: Bus) -> None:
    bus.operator.input(5, b"\xaa\x55")
    for slave in (5, 6):
        # one octet of each is another: of the addresses, the function, the inputs or the check sequence
        bus.order("spoil", slave, every=6, times=6)
    bus.start()
    for slave in (5, 6):
        bus.retried(slave)
    bus.outputs(5, "aa55")
    bus.only(5, "0000", "aa55")
