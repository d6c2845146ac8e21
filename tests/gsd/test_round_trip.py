"""Each slave of the stored rack files as a GSD file, and back: `rackd gsd`, then `rackd slave` for each configuration."""
from pathlib import Path

import pytest

from oracle.gsd_files import configurations, settings_of, settings_wanted

tomllib = pytest.importorskip("tomllib", reason="tomllib of Python 3.11 is not installed")

TOP = Path(__file__).resolve().parent.parent.parent
# A slave's keys that a GSD file has too, with their values if they are missing.
KEYS = {"ident": None, "sync": False, "freeze": False, "user_max": 237, "failsafe": False}
# The slaves that were written by hand, beside their GSD files.
BY_HAND = ["compact", "modular", "preset", "old", "latin"]


def racks():
    """Yields the rack files of the tests and examples that can be read and are accepted."""
    for path in sorted([*TOP.glob("tests/*/*/rack.toml"), *TOP.glob("examples/**/*rack.toml")]):
        try:
            rack = tomllib.loads(path.read_text(encoding="utf-8"))
        except tomllib.TOMLDecodeError:
            continue
        if path.parent.name != "bad-rack":
            yield path, rack


def stored_slaves():
    """Returns slaves with their rack files and lines. Those that differ by their address or lists only are there once."""
    found = {}
    for path, rack in racks():
        for line in rack["line"]:
            for slave in line["slave"]:
                description = repr([configurations(slave)] + [slave.get(key) for key in KEYS])
                found.setdefault(description, (path, line["number"], slave))
    return list(found.values())


def name_of(path, line, slave):
    return f"{path.parent.name}-{path.stem}-line-{line}-slave-{slave['address']}"


SLAVES = stored_slaves()


def keys_of(slave):
    """Returns the keys of a slave that a GSD file has too."""
    return {key: slave.get(key, default) for key, default in KEYS.items()}


def check_back(read_back, text, slave):
    """Reads each configuration of a slave back from its GSD file."""
    wanted = configurations(slave)
    back = read_back(text, len(wanted))
    assert [list(bytes.fromhex(each["cfg"])) for each in back] == wanted
    assert [keys_of(each) for each in back] == [keys_of(slave)] * len(wanted)


def test_all_stored_slaves_are_found():
    """At least 38 slaves differ, some of them have several configurations, and each flag is set and not set."""
    assert len(SLAVES) >= 38
    assert any(len(configurations(slave)) > 1 for _, _, slave in SLAVES)
    for key in ("sync", "freeze", "failsafe"):
        assert {slave.get(key, False) for _, _, slave in SLAVES} == {False, True}


@pytest.mark.parametrize("path, line, slave", SLAVES, ids=[name_of(*each) for each in SLAVES])
def test_stored_slave(written, read_back, path, line, slave):
    text = written("gsd", path, line, slave["address"])
    found, modules = settings_of(text)
    assert [octets for _, octets in modules] == configurations(slave)
    assert [name for name, _ in modules] == [f"Configuration {number}" for number in range(len(modules))]
    wanted = {**settings_wanted(slave), "Vendor_Name": '"rackd"', "Model_Name": '"simulated slave"'}
    assert {key: found.get(key) for key in wanted} == wanted
    check_back(read_back, text, slave)


@pytest.mark.parametrize("name", BY_HAND)
def test_slave_by_hand(written, read_back, by_hand, file_of, name):
    """The slaves that `rackd slave` has to write are accepted in a rack file, and come back."""
    slave = (by_hand / f"{name}.toml").read_text(encoding="utf-8")
    head = "[[line]]\nnumber = 1\ncapacity = 10\nmasters = [1]\n"
    text = written("gsd", file_of("rack.toml", (head + slave).encode()), "1", "5")
    check_back(read_back, text, tomllib.loads("[[line]]\n" + slave)["line"][0]["slave"][0])
