"""Slaves that may be plugged in several ways are configured as the master's environment says."""
from rackd.suite import Bus, Slave

SLAVES = [Slave(5, cfg="2010", outputs="12", mirror=True), Slave(6, cfg="2111", outputs="5678")]

RACK = """
[[line]]
number = 1
capacity = 16416
masters = [1, 2]
listen = 0
operator = 0
""" + "".join(f"""
[[line.slave]]
address = {slave.address}
ident = {slave.ident}
cfg = ["2111", "2010"]
""" for slave in SLAVES)


def run(bus: Bus) -> None:
    bus.start()
    for slave in SLAVES:
        bus.exchanges(slave.address)
        found = bus.master().get_cfg(slave.address)
        if found != bytes.fromhex(slave.cfg):
            bus.fail(f"slave {slave.address} is configured as {found.hex()}, not as {slave.cfg}")
    bus.operator.input(5, b"\xaa")
    bus.outputs(5, "aa")
    bus.outputs(6, "5678")
