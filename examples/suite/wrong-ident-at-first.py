"""A slave has a wrong ident number at first: the master brings up the right one once it is there."""
from rackd.master import SLAVE_DIAG
from rackd.suite import Bus, Slave

SLAVES = [Slave(5, ident=0x80A1, outputs="1234")]

# line 1 is the bus with the wrong device, line 2 that with the right one
RACK = "".join(f"""
[[line]]
number = {number}
capacity = 16416
masters = [1, 2]
listen = 0
operator = 0
[[line.slave]]
address = 5
ident = {ident}
cfg = "2111"
""" for number, ident in ((1, 0x0B3C), (2, 0x80A1)))


def run(bus: Bus) -> None:
    bus.start()
    bus.request(5, SLAVE_DIAG, "Done", count=5)
    bus.off(5)
    bus.put(2)
    bus.cable.on(5)
    bus.exchanges(5)
    bus.outputs(5, "1234")
