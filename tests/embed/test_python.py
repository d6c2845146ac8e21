"""The same tests of the Python package on a rack that is served and on one in process."""
import pytest
import rackd


@pytest.fixture(params=["served", "embedded"])
def any_rack(request, program, shared_library):
    """A rack of `rackd.SAMPLE`, served or in process."""
    if request.param == "served":
        with rackd.Rack(rackd.SAMPLE, program=program) as rack:
            yield rack
    else:
        with rackd.EmbeddedRack(rackd.SAMPLE, library=shared_library, program=program) as rack:
            yield rack


def test_second_master_is_refused(any_rack):
    line = any_rack.line(1)
    line.operator().input(5, b"\xaa\x55")
    line.master(1).bring_up(5, 0x80A1, b"\x21\x11", watchdog_ms=100)
    assert line.master(1).data_exchange(5, b"\x12\x34") == b"\xaa\x55"
    with pytest.raises(rackd.RS):
        line.master(2).set_prm(5, 0x80A1)
    assert [entry.rule for entry in line.journal().refused()] == ["NotHolder"]
    assert line.operator().tick(10) == [5]
    assert line.operator().show(5).holder is None


def test_devices_and_owned_slaves(any_rack):
    line = any_rack.line(1)
    line.master(1).bring_up(6, 0x80A1, b"\x21\x11")
    line.master(1).bring_up(5, 0x80A1, b"\x21\x11")
    assert line.operator().owned(1) == [6, 5]
    assert line.operator().step() == 2
    assert line.operator().show(6).inputs == b"\x00\x01"


def test_refusals_have_their_names(any_rack):
    line = any_rack.line(1)
    with pytest.raises(rackd.NoStation):
        line.operator().input(9, b"\x00")
    with pytest.raises(rackd.NotACommand):
        line.operator().ask("sing")
    with pytest.raises(rackd.NotAccepted):
        line.master(9)
    with pytest.raises(rackd.RackError):
        any_rack.line(2)
    assert line.operator().halt() == []
    with pytest.raises(rackd.Halted):
        line.operator().halt()


def test_silence_and_octets_that_are_no_telegram(any_rack):
    master = any_rack.line(1).master(1)
    master.timeout, master.retries = 0.2, 0
    assert not master.fdl_status(9)
    assert master.raw(bytes.fromhex("00" * 300 + "100501494f16"))[:1] == b"\x10"
    with pytest.raises(rackd.NoReply):
        master.slave_diag(9)


def test_what_a_master_does_wrong(any_rack):
    line = any_rack.line(1)
    with pytest.raises(rackd.RS):
        line.master(1).data_exchange(5, b"\x12\x34")
    assert "exchange-before-ready" in {finding.rule for finding in line.journal().judge(master=1)}


def test_a_wrong_rack_file_is_refused_with_its_cause(shared_library):
    with pytest.raises(rackd.RackFault) as refused:
        rackd.EmbeddedRack("[[line]]\nnumbre = 1\n", library=shared_library)
    assert refused.value.row == "rack BadKey"
    assert "numbre" in refused.value.cause


def test_closed_racks_and_sessions(shared_library):
    rack = rackd.EmbeddedRack(rackd.SAMPLE, library=shared_library)
    master = rack.line(1).master(1)
    rack.close()
    rack.close()
    with pytest.raises(rackd.SessionEnded):
        master.slave_diag(5)


def test_why_a_request_was_refused(any_rack):
    line = any_rack.line(1)
    line.master(1).bring_up(5, 0x80A1, b"\x21\x11")
    with pytest.raises(rackd.RS):
        line.master(2).set_prm(5, 0x80A1)
    refused, = line.journal().refused()
    reason = line.why(refused.place)
    assert reason.sentence == refused.sentence
    assert "Master 1 holds slave 5 since entry " in reason.sentence
    with pytest.raises(rackd.RackError):
        line.why(refused.place + 1)


def test_facts_of_a_refused_request(shared_library):
    with rackd.EmbeddedRack(rackd.SAMPLE, library=shared_library) as rack:
        line = rack.line(1)
        line.master(1).set_prm(5, 0x80A1)
        with pytest.raises(rackd.RS):
            line.master(2).set_prm(5, 0x80A1)
        assert line.why(2).facts == rackd.Facts(reason="not_holder", slave=5, point=None, master=1, state=None, since=1,
                                                detail=None, value=0, limit=0)


def test_why_on_an_endless_line_that_has_forgotten_entries(shared_library):
    text = rackd.SAMPLE.replace("capacity = 65536", "capacity = 4")
    with rackd.EmbeddedRack(text, endless=True, library=shared_library) as rack:
        line = rack.line(1)
        for place in range(1, 5):
            line.operator().tick(1)
            assert line.why(place).sentence == "no watchdog ran out."
        line.operator().tick(1)
        with pytest.raises(rackd.RackError):
            line.why(5)
