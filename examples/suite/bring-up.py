"""Three slaves are brought up: their outputs are set, and their inputs are seen."""
from rackd.suite import Bus, Slave

SLAVES = [
    Slave(5, mirror=True),
    Slave(6, ident=0x0B3C, cfg="20", outputs="29", watchdog_ms=0),
    Slave(7, cfg="2111", user="0102", outputs="1234", mirror=True),
]


def run(bus: Bus) -> None:
    bus.operator.input(5, b"\xaa\x55")
    bus.start()
    for slave in SLAVES:
        bus.exchanges(slave.address)
    # the master sends the inputs that it got as outputs
    bus.outputs(5, "aa55")
    bus.outputs(6, "29")
    bus.outputs(7, "0000")
    bus.operator.input(7, b"\x55\xaa")
    bus.outputs(7, "55aa")
