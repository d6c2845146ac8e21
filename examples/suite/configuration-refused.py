"""A slave refuses the configuration: the master exchanges no data with it, and brings it up once it accepts it."""
from rackd.master import CHK_CFG, SLAVE_DIAG
from rackd.suite import Bus, Slave

SLAVES = [Slave(5, outputs="1234")]

# line 1 is the bus with a device that has one octet of inputs and of outputs, line 2 that with the right one
RACK = "".join(f"""
[[line]]
number = {number}
capacity = 16416
masters = [1, 2]
listen = 0
operator = 0
[[line.slave]]
address = 5
ident = {SLAVES[0].ident}
cfg = "{cfg}"
""" for number, cfg in ((1, "2010"), (2, SLAVES[0].cfg)))


def run(bus: Bus) -> None:
    bus.start()
    # its diagnosis shows Cfg_Fault from the first Chk_Cfg on
    bus.request(5, CHK_CFG, "Done", first=1)
    bus.request(5, SLAVE_DIAG, "Done", count=5)
    bus.off(5)
    bus.put(2)
    bus.cable.on(5)
    bus.exchanges(5)
    bus.outputs(5, "1234")
