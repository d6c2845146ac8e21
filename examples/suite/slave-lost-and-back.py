"""A slave is lost until its watchdog has run out: the master brings it up once it is back."""
from rackd.suite import Bus, Slave

SLAVES = [Slave(5, watchdog_ms=500, outputs="1234"), Slave(6, watchdog_ms=0, outputs="5678")]


def run(bus: Bus) -> None:
    bus.start()
    bus.exchanges(5)
    bus.off(5)
    bus.operator.tick(50)
    # each request to the lost slave may take as long as the master waits for a reply
    bus.exchanges(6, count=2)
    bus.cable.on(5)
    bus.exchanges(5)
    bus.outputs(5, "1234")
    bus.exchanges(6)
