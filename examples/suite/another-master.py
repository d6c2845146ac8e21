"""Another master takes a slave: the master leaves it alone, and brings it up once it is released."""
from rackd.master import SLAVE_DIAG
from rackd.suite import Bus, Slave

SLAVES = [Slave(5, watchdog_ms=100, outputs="1234"), Slave(6, watchdog_ms=0, outputs="5678")]


def run(bus: Bus) -> None:
    bus.start()
    bus.exchanges(5)
    bus.off(5)
    bus.operator.tick(10)
    other = bus.master()
    other.bring_up(5, SLAVES[0].ident, bytes.fromhex(SLAVES[0].cfg))
    bus.cable.on(5)
    # its diagnosis shows the other master
    bus.request(5, SLAVE_DIAG, "Done", count=5)
    bus.exchanges(6)
    other.data_exchange(5, b"\xaa\xaa")
    other.set_prm(5, SLAVES[0].ident, unlock=True)
    bus.exchanges(5)
    bus.outputs(5, "1234")
