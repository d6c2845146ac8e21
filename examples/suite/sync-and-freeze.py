"""Outputs are set by Sync, and inputs are read by Freeze, for the slaves of a group."""
from rackd.suite import Bus, Slave

SLAVES = [Slave(5, group=1, sync=True, freeze=True, mirror=True), Slave(6, group=2, outputs="5678")]
# a master that has these slaves has no reason for either
COUNTED = ["group-not-set", "control-both"]


def run(bus: Bus) -> None:
    bus.start()
    bus.exchanges(5)
    other = bus.master()
    bus.wait("slave 5 in sync mode", lambda: other.slave_diag(5).sync_mode)
    bus.wait("slave 5 in freeze mode", lambda: other.slave_diag(5).freeze_mode)
    # in both modes new inputs come by another Freeze, and new outputs by another Sync
    for octets in ("aa55", "1234"):
        bus.operator.input(5, bytes.fromhex(octets))
        bus.outputs(5, octets)
    bus.exchanges(6)
    bus.outputs(6, "5678")
