"""The octets of inputs and outputs that a configuration announces, and the choice of a Chk_Cfg among several."""
import pytest

from support.command_lines import without_row_of_file
from support.line_rows import LineOfRows, play, text_of
from support.racks import line, rack, slave

# Each configuration of one octet, in the order of bits 3 to 0, by bits 7 to 4: inputs and outputs, or none if it is cut.
CUT = [None] * 16
EMPTY_SLOT = [(0, 0), *[None] * 14, (0, 0)]
ONE_OCTET = [
    EMPTY_SLOT,
    [(length, 0) for length in range(1, 17)],
    [(0, length) for length in range(1, 17)],
    [(length, length) for length in range(1, 17)],
    CUT,
    [(length, 0) for length in range(2, 33, 2)],
    [(0, length) for length in range(2, 33, 2)],
    [(length, length) for length in range(2, 33, 2)],
    CUT,
    [(length, 0) for length in range(1, 17)],
    [(0, length) for length in range(1, 17)],
    [(length, length) for length in range(1, 17)],
    CUT,
    [(length, 0) for length in range(2, 33, 2)],
    [(0, length) for length in range(2, 33, 2)],
    [(length, length) for length in range(2, 33, 2)],
]
LENGTHS = {
    "": (0, 0),
    "2111": (2, 2),
    "70": (2, 2),
    "e1": (0, 4),
    "c1010300": (4, 2),
    "40c3": (8, 0),
    "4f00": (1, 0),
    "4240aabb": (2, 0),
    "02111121": (0, 2),
    "00": (0, 0),
    "807f8079": (0, 244),
    "407f4073": (232, 0),
    "407f4079": (244, 0),
}
ENDS_WITHIN = "ends within its identifier at octet 1"
FAULTS = {
    "octets-of-the-maker": ("4240aa", ENDS_WITHIN),
    "length-octets": ("c101", ENDS_WITHIN),
    "outputs": ("807f807f", "has more than 244 octets of inputs or of outputs from octet 3 on"),
    "one-octet-of-outputs-too-many": ("807f803f8034", "has more than 244 octets of inputs or of outputs from octet 5 on"),
    # An end within an identifier is reported before the length of those in front of it.
    "a-cut-behind-too-many-octets": ("807f807fc1", "ends within its identifier at octet 5"),
    "one-octet-of-inputs-too-many": ("407f403f4034", "has more than 244 octets of inputs or of outputs from octet 5 on"),
}


def shown(run, lengths):
    """Returns what `show` has of slaves with these configurations, 64 of them at a line, and what it has to have."""
    lines, commands, expected = [], [], []
    for first in range(0, len(lengths), 64):
        number, slaves = first // 64, []
        commands.append(f"line {number}")
        for address, (cfg, (inputs, outputs)) in enumerate(lengths[first:first + 64]):
            slaves.append(slave(address, cfg=cfg))
            commands.append(f"show {address}")
            expected.append(f"show {address} WaitPrm none in {'00' * inputs or '-'} out {'00' * outputs or '-'} wd off")
        lines.append(line(number, *slaves, masters=[126]))
    return run(input=text_of([rack(*lines) + "%%", *commands])), (0, text_of(expected), "")


def test_each_octet_alone(run):
    """Each configuration of one octet that is not cut is one slave of four lines."""
    lengths = [(f"{16 * head + low:02x}", found)
               for head, row in enumerate(ONE_OCTET) for low, found in enumerate(row) if found]
    assert len(lengths) == 256 - 62
    done, expected = shown(run, lengths)
    assert done == expected


def test_several_octets(run):
    done, expected = shown(run, list(LENGTHS.items()))
    assert done == expected


def refused(run, cfg):
    """Runs a rack with a slave of this configuration, and returns how that ends, without the row of the file."""
    return without_row_of_file(run(input=rack(line(1, slave(5, cfg=cfg)))))


def refusal(cause):
    return 2, "", f"rackd: rack line 1 BadCfg\n  line 1, slave 1: configuration 1 {cause}\n"


@pytest.mark.parametrize("head", range(16), ids=lambda head: f"{head:x}")
def test_each_octet_that_is_cut(run, head):
    cut = [low for low, found in enumerate(ONE_OCTET[head]) if found is None]
    assert [refused(run, f"{16 * head + low:02x}") for low in cut] == [refusal(ENDS_WITHIN)] * len(cut)


@pytest.mark.parametrize(("cfg", "cause"), FAULTS.values(), ids=FAULTS)
def test_fault(run, cfg, cause):
    assert refused(run, cfg) == refusal(cause)


# A slave whose first and last configurations are equal. What it has of a Chk_Cfg: the number of the configuration, and the
# octets of its inputs and of its outputs; or none.
CONFIGURATIONS = LineOfRows(cfg=["21", "2111", "", "21"], inputs="-", outputs="0000")
CHOICES = {
    "the-first-of-equal-ones": ("21", 0, "-", "0000"),
    "the-second": ("2111", 1, "0000", "0000"),
    "no-octets": ("-", 2, "-", "-"),
    "an-identifier-is-missing": ("11", None, "-", "0000"),
    "identifiers-in-another-order": ("1121", None, "-", "0000"),
    "an-identifier-too-many": ("211121", None, "-", "0000"),
}


@pytest.mark.parametrize(("octets", "number", "inputs", "outputs"), CHOICES.values(), ids=CHOICES)
def test_choice(run, tmp_path, octets, number, inputs, outputs):
    configured = f"slave 5 DataExch 1 1 off --------; set 5 11 {number} {number} ---; prm 5 off -- 11 1 -"
    wrong = "diag 5 -----c- -"
    play(run, tmp_path, CONFIGURATIONS, f"""\
ask 1 5 4d 61 8000000b80a101 => WaitPrm none | ack
ask 1 5 4d 62 {octets} => WaitCfg 1 | ack
head => {wrong if number is None else configured}; in 5 {inputs} {inputs}; out 5 {outputs} {outputs}
ask 1 5 4d 59 - => {'WaitPrm none' if number is None else 'DataExch 1'} | {['low 21', 'low 2111', 'ack'][number or 0]}
""")
