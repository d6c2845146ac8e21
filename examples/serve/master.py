#!/usr/bin/env python3
"""Two DP masters at a rack that is served, with the Python package of this repository.

usage: master.py [PORT]     (7101: line 1 of rack.toml)

Master 1 brings slave 5 to data exchange and exchanges data with it; master 2 is refused what master 1 holds.
"""
import sys
from pathlib import Path

# the package of the checkout, if none is installed
sys.path.append(str(Path(__file__).resolve().parents[2] / "python"))
from rackd import RR, RS, UE, Master, SlaveRefused  # noqa: E402

SLAVE, IDENT, CFG = 5, 0x80A1, bytes.fromhex("2111")
REASONS = {UE: "UE: a wrong length", RR: "RR: the point is busy", RS: "RS: not for this master, or not now"}


def main() -> None:
    """Prints what both masters get."""
    port = int(sys.argv[1]) if len(sys.argv) > 1 else 7101
    with Master(port, 1) as one, Master(port, 2) as two:
        one.bring_up(SLAVE, IDENT, CFG)
        print(f"master 1 exchanges data with slave {SLAVE}")
        for outputs in (b"\x12\x34", b"\x56\x78"):
            print(f"outputs {outputs.hex()}, inputs {one.data_exchange(SLAVE, outputs).hex()}")
        print(f"master 2 sees that master {two.slave_diag(SLAVE).holder} holds slave {SLAVE}")
        try:
            two.bring_up(SLAVE, IDENT, CFG)
        except SlaveRefused as refused:
            print(f"master 2 is refused: {REASONS.get(type(refused), refused)}")


if __name__ == "__main__":
    main()
