"""The start of `rackd watch` and `rackd serve --page`: ports, refused racks, and a rack that is shown while it is used."""
import pytest

from rackd.faults import RS
from support.audit_texts import text_name
from support.clients import free_ports
from support.processes import PATIENCE
from support.racks import usual_rack
from support.watching import DAY_RACK, Watched, port_of, wait_for_line

CFG = b"\x21\x11"


def test_port_that_is_named(watch, run, audit):
    """The port is the one that is named, and if it is in use the status is 2 with the cause."""
    port, = free_ports(1)
    assert watch(DAY_RACK, audit.path, "--port", port).port == port
    status, output, errors = run("watch", DAY_RACK, audit.path, "--port", port)
    assert (status, output, errors.splitlines()[0]) == (2, "", f"rackd: cannot listen on {port}")


@pytest.mark.parametrize("options", [[], ["--port", "0"]], ids=["no port", "port 0"])
def test_port_that_the_system_chooses(watch, audit, options):
    """Two racks are watched at the same time, at ports that the system chooses."""
    first, second = watch(DAY_RACK, audit.path, *options), watch(DAY_RACK, audit.path, *options)
    assert 0 < first.port != second.port > 0
    assert len(first.state()["lines"]) == len(second.state()["lines"]) == 1


def test_refused_rack(run, program, tmp_path):
    """A rack that is not accepted is refused as without a page, and nothing is made."""
    path = tmp_path / "rack.toml"
    path.write_text("[[line]]\nnumber = 1\n", encoding="ascii")
    refused = run("serve", path)
    assert (refused.status, refused.output) == (2, "")
    assert refused.errors.startswith("rackd: rack ")
    assert run("serve", path, "--audit", tmp_path / "audit", "--page", "0") == refused
    watched = Watched(program, path, tmp_path)
    try:
        assert (watched.wait(), watched.output.rest(), watched.errors.rest()) == refused
    finally:
        watched.kill()
    assert [each.name for each in tmp_path.iterdir()] == ["rack.toml"]


def test_rack_that_is_missing(run, tmp_path):
    status, output, errors = run("watch", tmp_path / "none", tmp_path)
    assert (status, output, errors.splitlines()[0]) == (2, "", f"rackd: cannot read {tmp_path / 'none'}")


def test_rack_that_is_served_with_a_page(start_server, tmp_path):
    """A rack that is served with --page is shown while masters use it."""
    server = start_server(usual_rack(), "--audit", tmp_path / "audit", "--page", "0")
    port = port_of(server.row().decode().removesuffix("\n"))
    server.wait_until_ready()

    def shown(line):
        slave = line["slaves"][0]
        return line["count"], slave["state"], slave["holder"], slave["outputs"]

    with server.master(1) as first, server.master(2) as second:
        first.slave_diag(5)
        first.set_prm(5, 0x80A1)
        first.chk_cfg(5, CFG)
        first.data_exchange(5, b"\x12\x34")
        wait_for_line(port, shown, (4, "Data_Exch", 1, "1234"))
        with pytest.raises(RS):
            second.set_prm(5, 0x80A1)
        line = wait_for_line(port, shown, (5, "Data_Exch", 1, "1234"))
    last = line["recent"][-1]["entry"]
    assert (last["refused"], last["master"], last["answer"]["rule"]) == (True, 2, "NotHolder")
    assert line["file"] == text_name()


def test_three_faults_in_a_browser(browser, serve, watch, tmp_path):
    """A browser shows a wrong ident number, a second master and a watchdog that ran out, each without a click."""
    server = serve(usual_rack(), "--audit", tmp_path / "audit")
    watched, tab = watch(server.rack, tmp_path / "audit"), browser.page(1440, 900)
    tab.open(watched.url)
    with server.master(1) as first, server.master(2) as second, server.operator() as operator:
        first.set_prm(6, 0x80A2, watchdog_ms=100)
        first.set_prm(5, 0x80A1, watchdog_ms=100)
        first.chk_cfg(5, CFG)
        with pytest.raises(RS):
            second.set_prm(5, 0x80A1, watchdog_ms=100)
        assert operator.tick(11) == [5]
    for sentence in ("refused: NotHolder. Master 1 holds slave 5 since entry 2.",
                     "wrong parameters: ident 80A2, the slave has 80A1.",
                     "released: 5 (its watchdog of 100 ms ran out: master 1 sent nothing that restarts it)."):
        assert tab.wait(f"document.body.innerText.includes({sentence!r})", PATIENCE), sentence
    assert tab.errors() == []
    tab.close()
