"""Frames. The telegrams are those of docs/guide and README.md, or worked out from docs/reference/policy.md, "Frames"."""
import pytest

from rackd import BadEnd, BadHead, Frame, Long, NoStart, Short, frames


@pytest.mark.parametrize("octets, frame", [
    pytest.param("68 05 05 68 85 81 6d 3c 3e ed 16", frames.request(5, 1, 0x6D, b"", 60, 62), id="access-points"),
    pytest.param("68 0c 0c 68 85 81 5d 3d 3e 88 02 05 0b 80 a1 01 9a 16",
                 frames.request(5, 1, 0x5D, bytes.fromhex("8802050b80a101"), 61, 62), id="access-points-and-data"),
    pytest.param("68 05 05 68 05 01 5d 12 34 a9 16", frames.request(5, 1, 0x5D, b"\x12\x34"), id="data"),
    pytest.param("10 05 01 49 4f 16", frames.request(5, 1, 0x49), id="no-data"),
    pytest.param("68 04 04 68 85 01 6d 3c 2f 16", frames.request(5, 1, 0x6D, b"", 60), id="destination-point-only"),
    pytest.param("68 04 04 68 05 81 6d 3e 31 16", frames.request(5, 1, 0x6D, b"", None, 62), id="source-point-only"),
    # eight octets of data, which the sum 05 + 01 + 5d + 24 follows
    pytest.param("a2 05 01 5d 01 02 03 04 05 06 07 08 87 16", frames.sd3(5, 1, 0x5D, bytes(range(1, 9))), id="fixed-length"),
    pytest.param("dc 05 01", frames.token(5, 1), id="token"),
])
def test_requests(octets, frame):
    assert frame.hex(" ") == octets


def test_check_sequence_is_modulo_256():
    assert frames.fcs(bytes([0xFF, 0x81, 0x46])) == 0xC6


def test_most_data():
    assert len(frames.sd2(5, 1, 0x5D, bytes(246))) == 255


@pytest.mark.parametrize("encoder, count", [(frames.sd2, 0), (frames.sd2, 247), (frames.sd3, 7), (frames.sd3, 9)])
def test_limits_of_data(encoder, count):
    with pytest.raises(ValueError):
        encoder(5, 1, 0x5D, bytes(count))


def test_reply_with_access_points():
    frame = frames.decode(bytes.fromhex("680b0b688185083e3c020500ff80a1af16"))
    assert (frame.start, frame.destination, frame.source, frame.fc) == (0x68, 1, 5, 0x08)
    assert (frame.dsap, frame.ssap, frame.data.hex()) == (62, 60, "020500ff80a1")


def test_access_point_of_the_source_only():
    frame = frames.decode(bytes.fromhex("6804046805816d3e3116"))
    assert (frame.dsap, frame.ssap, frame.data) == (None, 62, b"")


def test_refusal():
    frame = frames.decode(bytes.fromhex("100205030a16"))
    assert (frame.start, frame.da, frame.sa, frame.fc, frame.du) == (0x10, 2, 5, 3, b"")


def test_inputs():
    frame = frames.decode(bytes.fromhex("68050568010508aa550d16"))
    assert (frame.dsap, frame.ssap, frame.data.hex()) == (None, None, "aa55")


def test_fixed_length():
    frame = frames.decode(bytes.fromhex("a205015d01020304050607088716"))
    assert (frame.start, frame.fc, frame.data.hex()) == (0xA2, 0x5D, "0102030405060708")


@pytest.mark.parametrize("octets, frame", [("e5", Frame(0xE5)), ("dc0501", Frame(0xDC, 5, 1))])
def test_frames_without_an_end(octets, frame):
    assert frames.decode(bytes.fromhex(octets)) == frame


@pytest.mark.parametrize("octets, fault", [
    ("", Short), ("00", NoStart), ("10", Short), ("1005014f", Short), ("68", Short), ("680505", Short), ("68030368", BadHead),
    ("68fafa68", BadHead), ("68050668", BadHead), ("68050569", BadHead), ("6805056885816d3c3eed", Short),
    ("6805056885816d3c3eee16", BadEnd), ("6805056885816d3c3eed17", BadEnd), ("100501494e16", BadEnd), ("100501494f17", BadEnd),
    ("100501494e1600", BadEnd), ("100501494f1600", Long), ("dc05", Short), ("e5e5", Long),
])
def test_faults(octets, fault):
    with pytest.raises(fault) as raised:
        frames.decode(bytes.fromhex(octets))
    assert raised.type is fault


@pytest.mark.parametrize("octets, size", [
    ("", None), ("680505", None), ("68050568", 11), ("68f9f968", 255), ("68040468", 10), ("10", 6), ("a2", 14), ("dc", 3),
    ("e5", 1),
])
def test_sizes(octets, size):
    assert frames.size_of(bytes.fromhex(octets)) == size
