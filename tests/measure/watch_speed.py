#!/usr/bin/env python3
"""Measures 'rackd watch' and 'rackd serve --page' with the page open in Chromium.

usage: watch_speed.py PROGRAM

The first row: what it takes of a processor while a text grows by 5,000 ticks a second. The second: how long a refused
request takes from its row in the text to the screen, in the middle and at the most of 20. Then, for some numbers of
sessions of masters with lines of their own: how many requests a second are answered, and the ratio with a page that is
open in the browser, which takes processors itself. Two racks are served at the same time, one with a page and one without,
and asked in turn for a moment each, after the page has followed what was asked before. The rate and the ratio are those in
the middle, with the least and the greatest ratio of two moments that follow each other.
"""
import os
import signal
import struct
import sys
import tempfile
import time
from pathlib import Path

sys.dont_write_bytecode = True
TESTS = Path(__file__).resolve().parent.parent
sys.path[:0] = [str(TESTS), str(TESTS.parent / "python")]
from support.audit_texts import part_name
from support.browsers import Browser, find_chromium
from support.clients import connect_socket
from support.racks import usual_rack
from support.servers import Server
from support.telegrams import ACCEPTED, fresh_diagnosis, slave_diag
from support.watching import ENDLESS_HEADER, AuditFolder, Watched, count, polls, port_of, state_of, tick_rack, ticks

# Events and writes a second, for how many seconds; how many requests are waited for, each for how long.
RATE, WRITES, SECONDS, REQUESTS, PATIENCE = 5_000, 50, 20, 20, 10
TEXT = part_name(1)
# Sessions, the moments of each rack and their seconds, and the requests that are sent at once.
SESSIONS, MOMENTS, MOMENT, AT_ONCE = (1, 2, 4), 15, 1, 16
# Seconds that an opened page has until the first moment, so that it has none of the work of opening it.
SETTLED = 3
# A moment or a count, as it is handed over in a pipe.
NUMBER = struct.Struct("d")


def used(pid):
    """Returns the seconds of a processor that a process has used."""
    fields = Path(f"/proc/{pid}/stat").read_text(encoding="ascii").rsplit(")", 1)[1].split()
    return (int(fields[11]) + int(fields[12])) / os.sysconf("SC_CLK_TCK")


def follow(watched, audit):
    """Has a text grow, and writes what following it takes. Returns the next place."""
    start, before, place = time.monotonic(), used(watched.pid), 1
    for turn in range(1, SECONDS * WRITES + 1):
        audit.write(TEXT, ticks(place, RATE // WRITES))
        place += RATE // WRITES
        time.sleep(max(0, start + turn / WRITES - time.monotonic()))
    took = time.monotonic() - start
    part = (used(watched.pid) - before) / took
    behind = place - 1 - watched.line()["count"]
    print(f"{(place - 1) / took:,.0f} events a second with {part:.2f} of a processor; {behind} not yet read at the end")
    return place


def show(tab, audit, place):
    """Writes how long the page takes to show a refused request."""
    times = []
    for place in range(place, place + REQUESTS):
        time.sleep(0.37)
        audit.write(TEXT, polls(place, 1))
        start = time.monotonic()
        if not tab.wait(f"[...document.querySelectorAll('.place')].some(each => each.textContent === '{place}')", PATIENCE):
            sys.exit(f"the page does not show entry {place}")
        times.append(time.monotonic() - start)
    times.sort()
    print(f"on the screen after {times[REQUESTS // 2] * 1000:.0f} ms in the middle, {times[-1] * 1000:.0f} ms at the most")


def ask(port, moments, counts):
    """Asks for diagnoses as master 1 of the line at a port, in a process of its own, until each end of a moment that it
    reads. Writes how many replies came. Returns its number."""
    process = os.fork()
    if process:
        return process
    with connect_socket(port) as line:
        line.sendall(b"\x01")
        accepted = line.recv(1) == ACCEPTED
        requests, replies = slave_diag(1, 5) * AT_ONCE, fresh_diagnosis(1, 5) * AT_ONCE
        while accepted:
            end, replied = NUMBER.unpack(os.read(moments, NUMBER.size))[0], 0
            while accepted and time.monotonic() < end:
                line.sendall(requests)
                got = b""
                while len(got) < len(replies) and (octets := line.recv(65_536)):
                    got += octets
                accepted, replied = got == replies, replied + AT_ONCE
            os.write(counts, NUMBER.pack(replied if accepted else -1))
    os._exit(1)


class Asked:
    """A rack that is served, with its page in a tab if there is one, and masters that ask it."""

    def __init__(self, program, folder, sessions, tab):
        page = ["--page", "0"] if tab else []
        self.server = Server(program, folder, usual_rack(*range(1, 9)), "--audit", Path(folder, "audit"), "--endless", *page)
        self.port = port_of(self.server.row().decode().removesuffix("\n")) if tab else None
        self.server.wait_until_ready()
        self.count = 0
        if tab:
            tab.open(f"http://127.0.0.1:{self.port}/")
            if not tab.wait("document.querySelector('#slaves td') !== null", PATIENCE):
                sys.exit("the page shows no slave")
        moments, self.moments = os.pipe()
        self.counts, counts = os.pipe()
        self.masters = [ask(self.server.ports[line].listen, moments, counts) for line in range(1, sessions + 1)]
        os.close(moments)
        os.close(counts)

    def rate(self):
        """Returns how many requests a second are answered, from now on for a moment."""
        end = NUMBER.pack(time.monotonic() + MOMENT)
        os.write(self.moments, end * len(self.masters))
        counts = [NUMBER.unpack(os.read(self.counts, NUMBER.size))[0] for _ in self.masters]
        if min(counts) <= 0:
            sys.exit("a master did not get its replies")
        self.count += int(sum(counts))
        return sum(counts) / MOMENT

    def settle(self):
        """Waits until the page has followed all requests."""
        while self.port and sum(line["count"] for line in state_of(self.port)["lines"]) < self.count:
            time.sleep(0.2)

    def close(self):
        for master in self.masters:
            os.kill(master, signal.SIGKILL)
            os.waitpid(master, 0)
        os.close(self.moments)
        os.close(self.counts)
        self.server.kill()


def middle(numbers):
    """Returns the number in the middle."""
    return sorted(numbers)[len(numbers) // 2]


def serve(program, folder, tab, sessions):
    """Writes what a page costs the masters."""
    racks = [Asked(program, os.path.join(folder, f"{sessions}-{name}"), sessions, shown)
             for name, shown in (("page", tab), ("alone", None))]
    rates = []
    time.sleep(SETTLED)
    for moment in range(MOMENTS):
        turn = {}
        for rack in racks if moment % 2 == 0 else reversed(racks):
            turn[rack.port is None] = rack.rate()
            rack.settle()
        rates.append((turn[True], turn[False]))
    ratios = [beside / alone for alone, beside in rates]
    print(f"{sessions} sessions: {middle([alone for alone, _ in rates]):,.0f} requests a second; with a page "
          f"{middle(ratios):.2f} ({min(ratios):.2f} to {max(ratios):.2f})", flush=True)
    tab.open("about:blank")
    for rack in racks:
        rack.close()


def main():
    if len(sys.argv) != 2:
        sys.exit(__doc__.split("\n")[2])
    chromium = find_chromium()
    if chromium is None:
        sys.exit("chromium is not installed")
    with tempfile.TemporaryDirectory() as folder, Browser(chromium) as window:
        tab = window.page()
        audit, rack = AuditFolder(Path(folder, "audit")), Path(folder, "rack.toml")
        audit.write(TEXT, ENDLESS_HEADER)
        rack.write_text(tick_rack(), encoding="ascii")
        watched = Watched(sys.argv[1], rack, audit.path).wait_until_ready()
        tab.open(watched.url)
        place = follow(watched, audit)
        watched.wait_for_line(count, place - 1)
        time.sleep(2)
        show(tab, audit, place)
        watched.kill()
        for sessions in SESSIONS:
            serve(sys.argv[1], folder, tab, sessions)


if __name__ == "__main__":
    main()
