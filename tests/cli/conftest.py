"""Files that tests of the command line name."""
import pytest

from support.command_lines import AUDIT, ENTRY, FACTS, LINE_2, RACK, SLAVE_DIAG, TICK, with_ports

HALT = "2 halt | none | released\n"
CONTENTS = {
    "rack": RACK,
    # A name that stands for standard input elsewhere.
    "-": RACK,
    "script": SLAVE_DIAG,
    "wrong": f"{SLAVE_DIAG}x\n",
    "both": f"{RACK}%%\n",
    "mark": "%%\n",
    "empty": "",
    "latin": b"\xff\n",
    "audit": AUDIT,
    "served": f"ready\n{AUDIT}",
    "other": AUDIT.replace("line 1", "line 2"),
    "short": AUDIT.rstrip("\n"),
    "facts": f"rack-audit 2 line 1\n{FACTS}",
    "cut": f"rack-audit 2 line 1\n{FACTS}2 ti",
    "crlf": AUDIT.replace("\n", "\r\n"),
    # The files of a text, and files of other texts.
    "line-1-7.000001.audit": "rack-audit 2 line 1\n",
    "line-1-7.000002.audit": ENTRY.rstrip("\n"),
    "line-1-8.000001.audit": "rack-audit 2 line 1\n",
    "line-1-8.audit": "rack-audit 2 line 1\n",
    "line-2-7.000002.audit": "rack-audit 2 line 1\n",
    # Texts of endless lines, whose version is 3, and of a version that there is not.
    "endless": AUDIT.replace("rack-audit 2", "rack-audit 3"),
    "header": "rack-audit 3 line 1\n",
    "later": AUDIT.replace("rack-audit 2", "rack-audit 4"),
    # A rack whose line has two places, and texts of it.
    "two-places": RACK.replace("1000", "2"),
    "endless-beyond": f"rack-audit 3 line 1\n{ENTRY}{TICK}",
    "ordinary-beyond": f"rack-audit 2 line 1\n{ENTRY}{TICK}",
    "ordinary-halted": f"rack-audit 2 line 1\n{ENTRY}{HALT}",
    "endless-halted": f"rack-audit 3 line 1\n{ENTRY}{HALT}{TICK.replace('2', '3')}",
    # Racks with ports that are wrong. The others are chosen by the system, for another program may have any port. One that is
    # there twice is reported as such then too.
    "operator-missing": RACK.replace("masters", "listen = 47601\nmasters"),
    "listen-missing": RACK.replace("masters", "operator = 47601\nmasters"),
    "second-line-without-ports": with_ports(RACK, 47601, 47602) + LINE_2,
    "port-65536": with_ports(RACK, 47601, 65536),
    "two-lines-1": RACK * 2,
    "same": with_ports(RACK, 47601, 47601),
    "port-of-two-lines": with_ports(LINE_2, 47601, 0) + with_ports(RACK, 0, 47601),
    "masters-of-two-lines": with_ports(LINE_2, 47601, 0) + with_ports(RACK, 47601, 0),
    "operators-of-two-lines": with_ports(LINE_2, 0, 47601) + with_ports(RACK, 0, 47601),
    "order-of-lines": with_ports(LINE_2, 47601, 47601) + with_ports(RACK, 47602, 47602),
}


@pytest.fixture
def files(tmp_path):
    """A folder whose folder `f` has these files and an empty folder; `none` and `nothing` are not in it."""
    folder = tmp_path / "f"
    (folder / "folder").mkdir(parents=True)
    for name, content in CONTENTS.items():
        (folder / name).write_bytes(content if isinstance(content, bytes) else content.encode())
    return tmp_path
