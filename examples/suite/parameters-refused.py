"""A slave refuses the parameters: the master exchanges no data with it, and brings it up once it accepts them."""
from rackd.master import SET_PRM, SLAVE_DIAG
from rackd.suite import Bus, Slave

SLAVES = [Slave(5, user="0102", outputs="1234")]

# line 1 is the bus with a device that has one octet of user parameters, line 2 that with the right one
RACK = "".join(f"""
[[line]]
number = {number}
capacity = 16416
masters = [1, 2]
listen = 0
operator = 0
[[line.slave]]
address = 5
ident = {SLAVES[0].ident}
cfg = "{SLAVES[0].cfg}"
user_max = {number}
""" for number in (1, 2))


def run(bus: Bus) -> None:
    bus.start()
    # its diagnosis shows Prm_Fault from the first Set_Prm on
    bus.request(5, SET_PRM, "Done", first=1)
    bus.request(5, SLAVE_DIAG, "Done", count=5)
    bus.off(5)
    bus.put(2)
    bus.cable.on(5)
    bus.exchanges(5)
    bus.outputs(5, "1234")
