"""The watchdog of a slave runs out: the master brings it up again."""
from rackd.suite import Bus, Slave

SLAVES = [Slave(5, watchdog_ms=200, outputs="1234"), Slave(6, watchdog_ms=0, outputs="5678")]


def run(bus: Bus) -> None:
    bus.start()
    for _ in range(2):
        bus.exchanges(5)
        bus.outputs(5, "1234")
        if bus.operator.tick(20) != [5]:
            bus.fail("slave 5 was not released by 200 ms, see its watchdog")
    bus.exchanges(5)
    bus.outputs(5, "1234")
    bus.exchanges(6)
