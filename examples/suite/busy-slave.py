"""A slave is busy at Set_Prm, and later at Data_Exchange: the master asks again."""
from rackd.master import SET_PRM
from rackd.suite import Bus, Slave

SLAVES = [Slave(5, outputs="1234"), Slave(6, outputs="5678")]


def run(bus: Bus) -> None:
    bus.operator.busy(5, SET_PRM)
    bus.start()
    bus.request(5, SET_PRM, "Busy", count=3)
    bus.exchanges(6)
    bus.operator.busy(5, SET_PRM, on=False)
    bus.exchanges(5)
    bus.operator.busy(5)
    bus.request(5, None, "Busy", count=3)
    bus.exchanges(6)
    bus.operator.busy(5, on=False)
    bus.exchanges(5)
    bus.outputs(5, "1234")
