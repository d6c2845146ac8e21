"""What goes through a cable: octets of any kind as they are, telegrams whole, in their order, with their delay."""
import random
import threading
import time

from rackd import frames
from support.cables import open_plain_session, poll, poll_reply, rest, take
from support.clients import connect_socket, exchange, open_master
from support.played_ports import PlayedPort
from support.premises import measured, suppose, tried_again
from support.processes import PATIENCE
from support.telegrams import ACCEPTED, fresh_diagnosis, global_control, slave_diag, token

# How many telegrams are sent before their replies are read.
AT_ONCE = 100


def test_cable_without_faults(served, start_cable):
    """Telegrams through a cable without faults give the replies and the journal that they give without it."""
    telegrams = 100_000
    direct, through = served("--endless"), served("--endless")
    cable = start_cable(through.ports[1].listen)
    replies = replies_to_many(direct.ports[1].listen, telegrams)
    assert len(replies) > 3 * telegrams
    assert replies_to_many(cable.listen, telegrams) == replies
    text = direct.journal.text()
    assert text.count("\n") > telegrams // 2
    assert through.journal.text() == text


def replies_to_many(port, telegrams):
    """Returns all octets that come back for telegrams of all kinds, which have noise between them."""
    master, octets = open_plain_session(port, 1), bytearray()
    for block in range(0, telegrams, AT_ONCE):
        parts = [(poll(5), slave_diag(1, 5 + place % 3), poll(9), token(1, to=1), b"\x00\x68\x04", global_control(1))[place % 6]
                 for place in range(block, block + AT_ONCE)]
        # Zeros end the noise before them, so that it takes no octet of the last telegram.
        master.sendall(b"".join(parts) + b"\x00" * 4 + poll(6))
        octets += up_to(master, poll_reply(6))
    return bytes(octets)


def up_to(connection, end):
    """Returns what comes, up to these octets."""
    octets = b""
    while not octets.endswith(end):
        more = connection.recv(65536)
        assert more, f"the connection ends behind {octets[-50:].hex(' ')}"
        octets += more
    return octets


def test_octets_of_any_kind(start_cable):
    """Octets go through a cable without faults both ways as they are, in parts of any size."""
    chooser = random.Random(3)
    with PlayedPort() as line:
        cable = start_cable(line.number)
        master = connect_socket(cable.listen)
        master.sendall(b"\x01")
        line.accept()
        assert line.take(1) == b"\x01"
        line.send(ACCEPTED)
        assert take(master, 1) == ACCEPTED
        for source, target in ((master, line.take), (line.connection, lambda count: take(master, count))):
            sent = noise_and_telegrams(chooser)
            sending = threading.Thread(target=send_in_parts, args=[source, sent, chooser], daemon=True)
            sending.start()
            assert target(len(sent)) == sent
            sending.join(PATIENCE)


def noise_and_telegrams(chooser):
    """Returns telegrams and octets that are none, in any order, and zeros that end all that came before."""
    parts = [poll(5), slave_diag(1, 5), fresh_diagnosis(1, 5), ACCEPTED, token(1, to=1), global_control(1),
             frames.sd2(0, 1, 2, bytes(range(3, 100))), b"\xa2" + b"\x05" * 13]
    octets = b""
    for _ in range(10_000):
        if chooser.random() < 0.3:
            octets += chooser.randbytes(chooser.randrange(1, 9))
        else:
            octets += chooser.choice(parts)
    return octets + b"\x00" * 255


def send_in_parts(connection, octets, chooser):
    while octets:
        size = chooser.randrange(1, 600)
        connection.sendall(octets[:size])
        octets = octets[size:]


def test_three_masters(served, start_cable):
    """Each of three masters at one cable gets its own replies, also once another one has left."""
    cable = start_cable(served().ports[1].listen)
    masters = {address: open_master(cable.listen, address) for address in (1, 2, 3)}
    for number in range(100):
        slave = 5 + number % 3
        for address, master in masters.items():
            master.send(slave_diag(address, slave))
        for address, master in masters.items():
            assert take_frame(master, address, slave) == fresh_diagnosis(address, slave)
    masters[2].close()
    assert exchange(masters[1], slave_diag(1, 5)) == fresh_diagnosis(1, 5)


def take_frame(master, address, slave):
    """Returns the octets of the next reply, which has as many as a diagnosis."""
    octets = b""
    while len(octets) < len(fresh_diagnosis(address, slave)):
        octets += master.receive(PATIENCE)
    return octets


def test_part_is_dropped(served, start_cable):
    """With --resync a telegram whose end is missing is dropped, not before that time, and the next one is whole."""
    server = served()
    cable = start_cable(server.ports[1].listen, "--resync", "1000", "--log")
    master, part = open_master(cable.listen, 1), slave_diag(1, 5)[:7]
    start = time.monotonic()
    master.send(part)
    assert cable.errors.row() == f"master 1 request -: lost {part.hex()} -> -"
    assert time.monotonic() - start >= 1
    assert exchange(master, slave_diag(1, 6)) == fresh_diagnosis(1, 6)
    assert [row.split(" ")[3] for row in server.journal.entries()] == [slave_diag(1, 6).hex()]


def test_telegram_in_two_parts(served, start_cable):
    """With --resync a telegram passes whose end comes within that time."""
    server = served()
    cable = start_cable(server.ports[1].listen, "--resync", "60000", "--log")
    master = open_master(cable.listen, 1)
    master.send(slave_diag(1, 7)[:7])
    time.sleep(0.02)
    master.send(slave_diag(1, 7)[7:])
    assert exchange(master, b"") == fresh_diagnosis(1, 7)
    assert len(server.journal.entries()) == 1
    assert cable.faults() == []


def test_part_stays_without_resync(served, start_cable):
    """Without --resync a part of a telegram waits for its end: so the next telegram is no telegram, and the one after it is."""
    server = served()
    master = open_master(start_cable(server.ports[1].listen).listen, 1)
    master.send(slave_diag(1, 5)[:7])
    time.sleep(0.25)
    master.send(slave_diag(1, 6))
    assert exchange(master, slave_diag(1, 7)) == fresh_diagnosis(1, 7)
    assert [row.split(" ")[3] for row in server.journal.entries()] == [slave_diag(1, 7).hex()]


def test_own_tokens_are_dropped(served, start_cable):
    """With --drop-tokens the tokens that a master sends to itself are withheld, and others are not. That is no fault."""
    server = served()
    cable = start_cable(server.ports[1].listen, "--drop-tokens", "--log")
    master = open_master(cable.listen, 1)
    master.send(token(1, to=1) * 50 + token(1, to=2))
    assert exchange(master, slave_diag(1, 5)) == fresh_diagnosis(1, 5)
    assert [row.split(" ")[3] for row in server.journal.entries()] == [token(1, to=2).hex(), slave_diag(1, 5).hex()]
    assert cable.faults() == []


def test_own_tokens_pass(served, start_cable):
    server = served()
    master = open_master(start_cable(server.ports[1].listen).listen, 1)
    master.send(token(1, to=1) * 3)
    assert exchange(master, slave_diag(1, 5)) == fresh_diagnosis(1, 5)
    assert [row.split(" ")[3] for row in server.journal.entries()] == [token(1, to=1).hex()] * 3 + [slave_diag(1, 5).hex()]


@tried_again
def test_delay(served, start_cable):
    """Each reply is delayed by the same time, also those that come one after another: together they take one delay, not 20."""
    server = served()
    cable = start_cable(server.ports[1].listen, "--delay", "400")
    master, sent, moments = open_plain_session(cable.listen, 1), [], []
    with measured(cable.pid, server.pid) as found:
        for number in range(20):
            sent.append(time.monotonic())
            master.sendall(poll(5 + number % 3))
            time.sleep(0.01)
        for number in range(20):
            assert take(master, 6) == poll_reply(5 + number % 3)
            moments.append(time.monotonic())
    assert rest(master) == b""
    assert all(came - begun > 0.399 for begun, came in zip(sent, moments))
    suppose(found.held_up < 0.4, f"a process was held up for {found.held_up:.3f} s")
    assert found.seconds < 4
