#!/usr/bin/env python3
"""Measures how many requests a second a rack answers over sockets, with 1 to 16 masters, beside a thread that only writes a
reply: the best of nine rounds each, in turn, with no options, with --tick 10, and with --audit and --endless. It is no test.

usage: serve_speed.py PROGRAM
"""
import os
import subprocess
import sys
import tempfile
from pathlib import Path

sys.dont_write_bytecode = True
TESTS = Path(__file__).resolve().parent.parent
sys.path[:0] = [str(TESTS), str(TESTS.parent / "python")]

from support.racks import line, rack
from support.servers import Server

SOURCE = Path(__file__).resolve().parent / "asking.c"
# The requests of one round, over all masters; the journal of a line that is not endless has room for them.
REQUESTS = 48000
ROUNDS = 9
LINES = 8
RACK = rack(*(line(number, 5) for number in range(1, LINES + 1)), workers=16)
# The options of the racks that are compared; an audit text has a folder of its own each time.
WAYS = {"no options": [], "--tick 10": ["--tick", "10"], "--audit --endless": ["--audit", "{folder}", "--endless"]}


def build(folder):
    """Returns the program that asks and answers."""
    program = folder / "asking"
    subprocess.run(["cc", "-O2", "-Wall", "-Werror", "-pthread", "-o", program, SOURCE], check=True)
    return program


def rate(asking, ends):
    """Returns the requests a second of masters at these ports."""
    words = [str(word) for end in ends for word in end]
    asked = subprocess.run([asking, "ask", str(REQUESTS // len(ends)), *words], check=True, stdout=subprocess.PIPE, text=True)
    return REQUESTS * 1e9 / int(asked.stdout)


def served_rate(program, asking, folder, options, masters):
    """Returns the requests a second of masters at a new rack."""
    folder.mkdir()
    options = [option.format(folder=folder / "audit") for option in options]
    server = Server(program, folder / "server", RACK, *options).wait_until_ready()
    try:
        return rate(asking, [(server.ports[i % LINES + 1].listen, i // LINES + 1) for i in range(masters)])
    finally:
        server.kill()


def row(program, asking, port, folder, masters):
    """Returns the best rates of this number of masters: without a rack, and in each way."""
    best = [0] * (1 + len(WAYS))
    for turn in range(ROUNDS):
        rates = [rate(asking, [(port, 1)] * masters)]
        for number, options in enumerate(WAYS.values()):
            rates.append(served_rate(program, asking, folder / f"{masters}-{turn}-{number}", options, masters))
        best = [max(pair) for pair in zip(best, rates)]
    return best


def main(words):
    program = os.path.abspath(words[0])
    print("| masters | a thread that only writes, requests a second | " + " | ".join(f"{way} | ratio" for way in WAYS) + " |")
    print("|---" * (2 + 2 * len(WAYS)) + "|")
    with tempfile.TemporaryDirectory() as name:
        folder = Path(name)
        asking = build(folder)
        answerer = subprocess.Popen([asking, "answer"], stdout=subprocess.PIPE, text=True)
        try:
            port = int(answerer.stdout.readline())
            for masters in 1, 2, 4, 8, 16:
                bare, plain, *others = row(program, asking, port, folder, masters)
                ratios = [(plain, plain / bare), *((other, other / plain) for other in others)]
                cells = [f"{found:,.0f} | {ratio:.2f}" for found, ratio in ratios]
                print(f"| {masters} | {bare:,.0f} | " + " | ".join(cells) + " |", flush=True)
        finally:
            answerer.kill()
    return 0


if __name__ == "__main__":
    sys.exit(main(sys.argv[1:]))
