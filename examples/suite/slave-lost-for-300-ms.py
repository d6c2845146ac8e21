"""A slave is lost for 300 ms, and stays in data exchange: the master finds it again."""
import time

from rackd.suite import Bus, Slave

SLAVES = [Slave(5, mirror=True), Slave(6, outputs="5678")]


def run(bus: Bus) -> None:
    bus.start()
    for octets in ("aa55", "1234", "55aa"):
        bus.exchanges(5)
        bus.exchanges(6)
        bus.cable.off(5)
        time.sleep(0.3)
        bus.operator.input(5, bytes.fromhex(octets))
        bus.cable.on(5)
        bus.exchanges(5)
        bus.outputs(5, octets)
    bus.exchanges(6)
