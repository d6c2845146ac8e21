"""An operator who waits: one for whom no place is left at the line is notified, once, and is served later."""
import time

from support.racks import usual_rack

NOTE = "no answer yet: all places for operators of the line may be taken"
# How many operators of a line are served at one time, and the seconds after which one who waits is notified.
PLACES, NOTED_AFTER = 16, 2


def test_no_place_is_left(operate, serve):
    """An operator for whom no place is left is notified once, not before two seconds, and served when another one leaves."""
    number = serve(usual_rack()).ports[1].operator
    others = [operate(number) for _ in range(PLACES)]
    for other in others:
        assert other.ask("owned 1") == "owned"
    client = operate(number)
    client.wait_until_connected()
    begun = time.monotonic()
    client.write(b"in 5 aa55\nshow 5\n")
    assert NOTE in client.errors.row()
    assert time.monotonic() - begun >= NOTED_AFTER
    time.sleep(NOTED_AFTER + 0.3)
    client.wait_until_asleep()
    assert client.output.so_far() == ""
    others[3].end_input()
    others[3].ends_with(0)
    assert client.output.rows(2) == ["done", "show 5 WaitPrm none in aa55 out 0000 wd off"]
    client.end_input()
    client.ends_with(0)


def test_operator_who_has_sent_nothing(operate, port):
    """One who has sent nothing, or only comments, isn't notified, and the two seconds begin with the first line."""
    client = operate(port.number)
    port.accept()
    client.wait_until_connected()
    client.write(b"# comment\n")
    time.sleep(NOTED_AFTER + 0.3)
    client.wait_until_asleep()
    assert client.errors.so_far() == ""
    begun = time.monotonic()
    client.write(b"owned 1\n")
    assert NOTE in client.errors.row()
    assert time.monotonic() - begun >= NOTED_AFTER
    assert port.command() == b"owned 1"
    port.answer("owned")
    client.end_input()
    client.ends_with(0, output="owned\n")


def test_operator_who_was_answered(operate, port):
    """One who was answered isn't notified, also if the next answer is late."""
    client = operate(port.number)
    port.accept()
    client.write(b"owned 1\nowned 2\n")
    assert port.row() == b"owned 1"
    port.answer("owned")
    assert port.row() == b"owned 2"
    time.sleep(NOTED_AFTER + 0.3)
    client.wait_until_asleep()
    assert client.errors.so_far() == ""
    port.answer("owned 3")
    client.end_input()
    client.ends_with(0, output="owned\nowned 3\n")
