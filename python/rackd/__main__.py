"""`python -m rackd suite COMMAND..` runs a master under test against scenarios."""
import signal
import sys

from .suite_run import main

if __name__ == "__main__":
    if sys.argv[1:2] != ["suite"]:
        print("usage: python -m rackd suite [OPTION].. COMMAND..", file=sys.stderr)
        sys.exit(0 if sys.argv[1:] in (["-h"], ["--help"]) else 2)
    # the master under test and the rack end with this program
    signal.signal(signal.SIGTERM, lambda *_: sys.exit(128 + signal.SIGTERM))
    try:
        sys.exit(main(sys.argv[2:]))
    except KeyboardInterrupt:
        sys.exit(128 + signal.SIGINT)
