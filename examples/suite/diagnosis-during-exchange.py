"""A slave reports a diagnosis during data exchange: the master reads it, and goes on."""
from rackd.suite import Bus, Slave

SLAVES = [Slave(5, mirror=True), Slave(6, outputs="5678")]


def run(bus: Bus) -> None:
    bus.start()
    for extended in (b"\x04\x07\x01\x02", b""):
        bus.exchanges(5)
        # a fast master reads it before the next line is reached
        before = bus.place()
        bus.operator.diag(5, extended, ext_diag=bool(extended))
        bus.diagnosed(5, before)
    bus.exchanges(5)
    bus.operator.input(5, b"\xaa\x55")
    bus.outputs(5, "aa55")
    bus.exchanges(6)
