"""What `serve` and `operate` end with before they serve or operate: words within their limits, racks and ports."""
import pytest

from support.command_lines import NOT_TOML, Case, no_file, not_utf_8, table, without_row_of_file
from support.processes import Done

# Words that are accepted: what is reported is that the rack file is missing.
ACCEPTED = [
    "", "--tick 10", "--tick 60000", "--step 1", "--step 86400000 --tick 10", "--sessions 1000000",
    "--audit made --endless --part 1", "--audit made --endless --part 4096", "--audit made --endless --keep 2",
    "--audit made --endless --keep 10000"]


@pytest.mark.parametrize("words", ACCEPTED, ids=[words.replace(" ", "_") or "no-option" for words in ACCEPTED])
def test_words_that_are_accepted(run, files, words):
    """The words are accepted; then the rack file is missing, and no folder is made."""
    assert run("serve", "f/none", *words.split(), cwd=files) == (2, "", no_file("f/none"))
    assert not (files / "made").exists()


def twice(port):
    return f"rackd: cannot listen on {port}\n  the rack file has this port twice\n"


def bad_key(where):
    return f"rackd: rack BadKey\n  {where}\n"


RACKS = {
    "a-rack-that-is-not-UTF-8": Case("latin", errors=not_utf_8("f/latin")),
    "a-folder": Case("folder", errors="rackd: cannot read f/folder\n  it is a folder, not a file\n"),
    "a-file-that-is-no-rack": Case("script", errors=NOT_TOML),
    "a-line-without-ports": Case("rack", errors=bad_key('line 1, key "listen": missing')),
    "a-line-without-a-port-for-its-operator": Case("operator-missing", errors=bad_key('line 1, key "operator": missing')),
    "a-line-without-a-port-for-masters": Case("listen-missing", errors=bad_key('line 1, key "listen": missing')),
    "a-second-line-without-ports": Case("second-line-without-ports", errors=bad_key('line 2, key "listen": missing')),
    "port-65536": Case("port-65536", errors=bad_key('line 1, key "operator": expected a number from 0 to 65535')),
    "the-rack-comes-before-its-ports": Case(
        "two-lines-1", errors="rackd: rack TwiceLine\n  line 2: number 1 is used twice, also by line 1\n"),
    "one-port-twice": Case("same", errors=twice(47601)),
    "the-port-of-two-lines": Case("port-of-two-lines", errors=twice(47601)),
    "one-port-for-the-masters-of-two-lines": Case("masters-of-two-lines", errors=twice(47601)),
    "one-port-for-the-operators-of-two-lines": Case("operators-of-two-lines", errors=twice(47601)),
    "ports-in-the-order-of-line-numbers": Case("order-of-lines", errors=twice(47602)),
}


@table(RACKS)
def test_rack_that_is_not_served(run, files, case):
    assert without_row_of_file(run("serve", f"f/{case.words}", cwd=files)) == without_row_of_file(Done(2, "", case.errors))


def test_operate_at_a_port_that_nobody_listens_at(run):
    assert run("operate", "1") == (2, "", "rackd: cannot connect to 1\n  no program listens on this port\n")
