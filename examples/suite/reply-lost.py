"""A reply is lost: the master sends the same request again, with the same FCB."""
from rackd.suite import Bus, Slave

SLAVES = [Slave(5, outputs="1234"), Slave(6, outputs="5678")]


def run(bus: Bus) -> None:
    for slave in (5, 6):
        bus.order("lose", slave, every=12, times=3)
    bus.start()
    for slave in (5, 6):
        bus.retried(slave)
    bus.outputs(5, "1234")
    bus.outputs(6, "5678")
