"""What the octets of a Set_Prm mean to a slave that waits for parameters.

In the tables a meaning is `lock WATCHDOG MODES MIN_TSDR GROUP USER`, as the row `prm` of a head has it; `min MIN_TSDR`;
`unlock`; `fault`, or `fault not_supported`.
"""
import pytest

from support.line_rows import LineOfRows, play


def limits(user_max, has_modes):
    """Returns a line with a slave that takes so many user parameters, with Sync and Freeze or with neither."""
    return LineOfRows(keys=(("user_max", user_max), ("sync", has_modes), ("freeze", has_modes)))


WITH_MODES, WITHOUT_MODES, LONGEST = limits(2, True), limits(2, False), limits(237, True)
USER, LOCK = "00" * 237, "8802050b80a101"
MEANINGS = {
    "seven-octets": (WITH_MODES, {
        "8802050b80a101": "lock 10 -- 11 1 -",
        "8f02050b80a101": "lock 10 -- 11 1 -",
        "a802050b80a101": "lock 10 s- 11 1 -",
        "9802050b80a101": "lock 10 -f 11 1 -",
        "8002050b80a101": "lock off -- 11 1 -",
        "8802050b80a201": "fault",
        "40000000000000": "unlock",
        "c802050b80a101": "unlock",
        "0802053c80a101": "min 60",
    }),
    # Each pair of factors with a watchdog and then without one.
    "watchdog-factors": (WITH_MODES, {
        "8800050b80a101": "fault",
        "8000050b80a101": "lock off -- 11 1 -",
        "8805000b80a101": "fault",
        "8005000b80a101": "lock off -- 11 1 -",
        "8801010b80a101": "lock 1 -- 11 1 -",
        "8001010b80a101": "lock off -- 11 1 -",
        "8801ff0b80a101": "lock 255 -- 11 1 -",
        "8001ff0b80a101": "lock off -- 11 1 -",
        "8810100b80a101": "lock 256 -- 11 1 -",
        "8010100b80a101": "lock off -- 11 1 -",
        "88ffff0b80a101": "lock 65025 -- 11 1 -",
        "80ffff0b80a101": "lock off -- 11 1 -",
    }),
    # Each with seven octets, and then with the first six of them.
    "a-slave-without-sync-and-freeze": (WITHOUT_MODES, {
        "8802050b80a101": "lock 10 -- 11 1 -",
        "8802050b80a1": "fault",
        "a802050b80a101": "fault not_supported",
        "a802050b80a1": "fault",
        "9802050b80a101": "fault not_supported",
        "9802050b80a1": "fault",
        "b802050b80a201": "fault not_supported",
        "b802050b80a2": "fault",
        "8802050b80a201": "fault",
        "8802050b80a2": "fault",
        "7802050b80a101": "unlock",
        "7802050b80a1": "fault",
        "3802050b80a101": "min 11",
        "3802050b80a1": "fault",
    }),
    "user-parameters": (WITH_MODES, {
        "8802050b80a1011122": "lock 10 -- 11 1 1122",
        "8802050b80a101112233": "fault",
    }),
    "the-longest-telegrams": (LONGEST, {
        "00" * 244: "min 0",
        LOCK + USER: f"lock 10 -- 11 1 {USER}",
    }),
    "the-longest-telegrams-to-a-slave-that-takes-two-octets": (WITH_MODES, {
        "00" * 244: "min 0",
        LOCK + USER: "fault",
    }),
}


def rows_of(meanings):
    """Returns the rows of telegrams that come one after another to a slave that is released before each."""
    rows, place = "", 0
    for octets, meaning in meanings.items():
        kind, _, rest = meaning.partition(" ")
        rows += f"ask 1 5 4d 61 {octets} => WaitPrm none | ack\n"
        place += 1
        if kind == "lock":
            watchdog = rest.split(" ")[0]
            held = f"slave 5 WaitCfg 1 {place} {watchdog} --------; prm 5 {rest}"
            rows += f"head => {held}\nask 1 5 4d 61 40000000000000 => WaitCfg 1 | ack\n"
            place += 1
        elif kind == "fault":
            flags = "----p-n" if rest else "----p--"
            # A lock clears the fault.
            rows += f"head => diag 5 {flags} -\n"
            rows += "ask 1 5 4d 61 8000000b80a101 => WaitPrm none | ack\nask 1 5 4d 61 40000000000000 => WaitCfg 1 | ack\n"
            place += 2
        elif kind == "min":
            least = rest if rest != "0" else "11"
            rows += f"head => set 5 {least} none 0 ---\nask 1 5 4d 61 0000000b000000 => WaitPrm none | ack\n"
            place += 1
        rows += "head => slave 5 WaitPrm none 0 off --------\n"
    return rows


@pytest.mark.parametrize(("line", "meanings"), MEANINGS.values(), ids=MEANINGS)
def test_meaning_of_parameters(run, tmp_path, line, meanings):
    play(run, tmp_path, line, rows_of(meanings))
