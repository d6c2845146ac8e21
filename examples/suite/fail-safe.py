"""A fail-safe slave is exchanged with in Clear, and gets its outputs in Operate."""
from rackd.master import GLOBAL_CONTROL
from rackd.suite import Bus, Slave

SLAVES = [Slave(5, failsafe=True, outputs="1234"), Slave(6, outputs="5678")]
CLEAR = 5
CLEAR_DATA = 0x02


def run(bus: Bus) -> None:
    bus.start()
    for slave, outputs in ((5, "1234"), (6, "5678")):
        bus.exchanges(slave)
        bus.outputs(slave, outputs)
    requests = bus.requests()
    for slave in SLAVES:
        controls = [request for request in requests
                    if request.point == GLOBAL_CONTROL and request.rules.get(slave.address) == "Done"]
        clears = [request.place for request in controls if request.data[0] & CLEAR_DATA]
        if not clears:
            bus.fail(f"no Clear_Data to slave {slave.address}")
        operates = [request.place for request in controls
                    if not request.data[0] & CLEAR_DATA and request.place > clears[0]]
        if not operates:
            bus.fail(f"no Operate to slave {slave.address} behind Clear_Data")
        exchanged = [request for request in bus.exchanged(slave.address) if request.place < operates[0]]
        for request in exchanged:
            if any(request.data):
                bus.fail(f"outputs {request.data.hex()} to slave {slave.address} in Clear, at place {request.place}")
        if len(exchanged) < CLEAR:
            bus.fail(f"{len(exchanged)} exchanges with slave {slave.address} in Clear, of {CLEAR}")
