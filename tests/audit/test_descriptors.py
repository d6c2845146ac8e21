"""With too few descriptors the program says so before it is ready. Otherwise a master and an operator are served side by side."""
import re
import resource

import pytest

from support.audit_texts import text_name
from support.racks import usual_rack
from support.servers import Ports
from support.telegrams import fresh_diagnosis, slave_diag

TOO_FEW = re.compile(r"rackd: cannot (make|listen on|read) .+\n  too few file descriptors; 'ulimit -n' shows and raises their number\n")
# Descriptors with which the program serves: the three of each program, the two listeners, and two for each connection that may
# be there at one time (of the worker and of sixteen operators), and three for the line (its two files, and a connection that
# waits).
ENOUGH = 3 + 2 + 2 * (1 + 16) + 3


def is_served(server, path):
    """Asserts that a master and an operator beside it are served."""
    with server.master(1) as master, server.operator() as operator:
        assert master.raw(slave_diag(1, 5)) == fresh_diagnosis(1, 5)
        assert operator.ask("in 5 aa55") == "done"
        assert master.raw(slave_diag(1, 6)) == fresh_diagnosis(1, 6)
        assert path.read_bytes().count(b"\n") == 4


@pytest.mark.parametrize("most", range(4, 60))
def test_number_of_descriptors(start_server, tmp_path, most):
    limits = [(resource.RLIMIT_NOFILE, most)]
    server = start_server(usual_rack(workers=1), "--audit", tmp_path / "audit", limits=limits)
    row = server.row()
    if row == b"ready\n":
        _, _, _, listen, _, operator = (server.folder / "ports").read_text(encoding="ascii").split()
        server.ports[1] = Ports(int(listen), int(operator))
        is_served(server, tmp_path / "audit" / text_name(1))
        return
    done = server.wait()
    assert (row, done.status, done.output) == (b"", 2, "")
    assert TOO_FEW.fullmatch(done.errors)
    assert most < ENOUGH, "it does not serve"
