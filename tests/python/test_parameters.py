"""The data of Set_Prm and of a Slave_Diag reply."""
import pytest

from rackd.master import diagnosis_of, parameters

from support.package_runs import IDENT

NAMES = ("station_not_ready", "cfg_fault", "ext_diag", "not_supported", "prm_fault", "prm_req", "stat_diag", "wd_on",
         "freeze_mode", "sync_mode", "ext_diag_overflow")


@pytest.mark.parametrize("ident, options, octets", [
    pytest.param(IDENT, {}, "8001010b80a100", id="lock-only"),
    pytest.param(0x0B3C, {"watchdog_ms": 2550, "group": 2, "min_tsdr": 36, "sync": True}, "a801ff240b3c02", id="most-options"),
    pytest.param(IDENT, {"lock": False, "unlock": True, "freeze": True, "user": b"\x07"}, "5001010b80a10007", id="unlock"),
])
def test_parameters(ident, options, octets):
    assert parameters(ident, **options).hex() == octets


@pytest.mark.parametrize("milliseconds", [10, 2560, 650_250])
def test_watchdogs(milliseconds):
    octets = parameters(IDENT, watchdog_ms=milliseconds)
    assert (octets[0], 10 * octets[1] * octets[2]) == (0x88, milliseconds)


@pytest.mark.parametrize("milliseconds", [
    pytest.param(5, id="half-a-unit"), pytest.param(15, id="no-whole-units"), pytest.param(2570, id="a-prime-of-units"),
    pytest.param(650_260, id="more-than-255-times-255"),
])
def test_watchdogs_that_there_are_not(milliseconds):
    with pytest.raises(ValueError, match=f"a watchdog of {milliseconds} ms is not 10 ms times two factors"):
        parameters(IDENT, watchdog_ms=milliseconds)


@pytest.mark.parametrize("octets, bits", [
    ("020500ff80a1", ("station_not_ready", "prm_req")), ("0404000180a1", ("cfg_fault",)), ("0804000180a1", ("ext_diag",)),
    ("1004000180a1", ("not_supported",)), ("4004000180a1", ("prm_fault",)), ("0006000180a1", ("stat_diag",)),
    ("000c000180a1", ("wd_on",)), ("0014000180a1", ("freeze_mode",)), ("0024000180a1", ("sync_mode",)),
    ("0004800180a1", ("ext_diag_overflow",)),
])
def test_bits_of_a_diagnosis(octets, bits):
    diagnosis = diagnosis_of(bytes.fromhex(octets))
    assert tuple(name for name in NAMES if getattr(diagnosis, name)) == bits


def test_diagnosis_without_a_holder():
    assert diagnosis_of(bytes.fromhex("020500ff80a1")).holder is None


def test_diagnosis_with_extended_data():
    diagnosis = diagnosis_of(bytes.fromhex("0804000280a1030102"))
    assert (diagnosis.holder, diagnosis.ident, diagnosis.extended.hex()) == (2, IDENT, "030102")
