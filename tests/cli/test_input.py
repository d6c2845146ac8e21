"""The program without words: it reads a rack, a line %% and a script from standard input."""
import pytest

from support.command_lines import (
    LINE_2, NO_COMMAND, RACK, REPLY, SLAVE_DIAG, TWO_PERCENT_SIGNS, Case, not_utf_8, table, without_row_of_file)

HALTED = "1: silence Halted\n"
TELEGRAM = "68 05 05 68 85 81 6D 3C 3E ED 16".split()
CRLF = RACK.replace("\n", "\r\n")


def script(text, rack=RACK):
    """Returns the input of a rack and a script."""
    return f"{rack}%%\n{text}"


def octet_by_octet(octets):
    """Returns a script in which master 1 sends each octet by itself."""
    return "".join(f"m 1 {octet}\n" for octet in octets)


ANSWERED = {
    "a-request": Case(input=script(SLAVE_DIAG), output=REPLY),
    "no-LF-at-the-end": Case(input=script(SLAVE_DIAG.rstrip()), output=REPLY),
    "comments-a-choice-one-word-of-hex": Case(input=script("\n# a comment\nline 1\nm 1 6805056885816d3c3eed16\n"), output=REPLY),
    "no-script": Case(input=RACK),
    "an-empty-script": Case(input=f"{RACK}%%"),
    "an-empty-line-as-script": Case(input=script("\n")),
    "300-octets-in-one-line": Case(input=script(f"m 1 {'E5' * 300}\n"), output="1: silence NotRequest\n" * 300),
    "ten-octets-of-eleven": Case(input=script(octet_by_octet(TELEGRAM[:10]))),
    "octet-by-octet": Case(input=script(octet_by_octet(TELEGRAM)), output=REPLY),
    "a-bad-head": Case(
        input=script("m 1 68 05 04 68\n"), output="1: dropped BadHead 1\n1: dropped NoStart 1\n1: dropped NoStart 1\n"),
    "the-last-place-is-the-halts": Case(input=script(SLAVE_DIAG * 3, RACK.replace("1000", "2")), output=REPLY + HALTED * 2),
    "each-line-has-its-own-world": Case(
        input=script(f"line 2\n{SLAVE_DIAG * 2}line 1\n{SLAVE_DIAG * 2}", RACK.replace("1000", "2") + LINE_2),
        output=REPLY * 3 + HALTED),
}


@table(ANSWERED)
def test_input_that_is_answered(run, case):
    assert run(input=case.input) == case.ended


# What is wrong in the first row of a script, by what follows `rackd: script line 1`.
OCTETS = "  m M HEX..: M is a master of the line, HEX is octets as pairs of hex digits\n"
WRONG_COMMANDS = {
    "a-second-line-of-two-percent-signs": ("%%\n", NO_COMMAND),
    "a-master-that-is-not-of-the-line": ("m 3 E5\n", OCTETS),
    "a-leading-zero": ("m 01 E5\n", OCTETS),
    "half-a-pair": ("m 1 E\n", OCTETS),
    "two-spaces": ("m 1  E5\n", OCTETS),
    "a-carriage-return": ("m 1 E5\r\n", OCTETS),
    "a-line-that-is-not-in-the-rack": ("line 2\n", "  line N: N is the number of a line of the rack\n"),
}


@pytest.mark.parametrize(("command", "form"), WRONG_COMMANDS.values(), ids=WRONG_COMMANDS)
def test_command_that_is_wrong(run, command, form):
    assert run(input=script(command)) == (2, "", f"rackd: script line 1\n{form}")


def test_answers_before_a_wrong_command(run):
    ended = run(input=script(f"{SLAVE_DIAG}x\n{SLAVE_DIAG}"))
    assert ended == (2, REPLY, f"rackd: script line 2\n{NO_COMMAND}")


def bad_key(where):
    return f"rackd: rack BadKey\n  {where}\n"


REFUSED = {
    "an-empty-rack-text": ("", bad_key('key "line": missing')),
    "a-script-alone": ("%%\n", bad_key('key "line": missing')),
    "an-unknown-key": (f"colour = 1\n{RACK}", bad_key('key "colour": no such key')),
    "a-missing-key": (RACK.replace("number = 1\n", ""), bad_key('line 1, key "number": missing')),
    "broken-TOML": ("[[line", "rackd: rack NotToml\n  row 1: unclosed table, expected `]`\n"),
    "two-lines-with-one-number": (RACK * 2, "rackd: rack TwiceLine\n  line 2: number 1 is used twice, also by line 1\n"),
    "ident-65536": (RACK.replace("0x80A1", "65536"), bad_key('line 1, slave 1, key "ident": expected a number from 0 to 65535')),
    "33-workers": (f"workers = 33\n{RACK}", bad_key('key "workers": expected a number from 1 to 32')),
    "238-octets-of-user-parameters": (
        f"{RACK}user_max = 238\n", "rackd: rack line 1 Limit\n  line 1, slave 1: user_max 238, expected at most 237\n"),
    "no-device": (
        f'{RACK}device = "Still"\n', bad_key('line 1, slave 1, key "device": expected "still", "counter" or "mirror"')),
    "an-address-of-a-master-and-a-slave": (
        RACK.replace("[1, 2]", "[1, 5]"), "rackd: rack line 1 TwiceAddress\n  line 1, slave 1: address 5 is that of a master, too\n"),
    "capacity-1": (RACK.replace("1000", "1"), "rackd: rack line 1 Limit\n  line 1: capacity 1, expected 2 to 65536\n"),
    "the-third-line-is-refused": (
        RACK + LINE_2 + RACK.replace("number = 1\ncapacity = 1000", "number = 3\ncapacity = 0"),
        "rackd: rack line 3 Limit\n  line 3: capacity 0, expected 2 to 65536\n"),
    "input-that-is-not-UTF-8": (b"\xff\n", not_utf_8("-")),
    "a-script-that-is-not-UTF-8": (script("").encode() + b"\xff\n", not_utf_8("-")),
}


@pytest.mark.parametrize(("text", "errors"), REFUSED.values(), ids=REFUSED)
def test_input_that_is_refused(run, text, errors):
    assert without_row_of_file(run(input=text)) == (2, "", errors)


PARTED = {
    "a-rack-with-CR-LF": Case(input=CRLF),
    "a-rack-with-CR-LF-and-a-script": Case(input=script(SLAVE_DIAG, CRLF), output=REPLY),
    "two-percent-signs-and-CR-part-nothing": Case(input=f"{CRLF}%%\r\n", status=2, errors=TWO_PERCENT_SIGNS),
    "a-space-and-two-percent-signs-part-nothing": Case(
        input=f"{RACK} %%\n{SLAVE_DIAG}", status=2, errors=TWO_PERCENT_SIGNS),
    "two-percent-signs-within-a-line-part-nothing": Case(input=script(SLAVE_DIAG, f"{RACK}# %%\n"), output=REPLY),
    "a-rack-without-its-last-LF": Case(input=RACK.rstrip("\n")),
}


@table(PARTED)
def test_line_that_parts_rack_and_script(run, case):
    assert run(input=case.input) == case.ended
