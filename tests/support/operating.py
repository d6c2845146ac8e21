"""The program `rackd operate` as a process of a test: with pipes, or at a terminal."""
import os
import termios

from support.clients import wait_for
from support.running import Running, Stream
from support.sleeping import processes, threads

# At the begin of a line it ends the input that a terminal hands on; within a line it hands on the line so far.
END_OF_INPUT = b"\x04"
# The thread that sends lines, and one for each side from which lines come: it has all of them once it is connected.
THREADS = 3


class Operate(Running):
    """A client of the operator port with this number."""

    def __init__(self, program, port, *words, **streams):
        super().__init__([program, "operate", port, *words], **streams)

    def ask(self, line):
        """Writes a line, and returns the next row of its output."""
        self.write(line.encode() + b"\n")
        return self.output.row()

    def wait_until_connected(self):
        """Waits until it has connected, and waits for lines of both sides."""
        wait_for(lambda: any(len(threads(pid)) == THREADS for pid in processes(self.pid)))
        self.wait_until_asleep()

    def ends_with(self, status, *errors, output=""):
        """Waits for its end, and compares its status, the rows of standard error, and what it wrote that was not read yet.

        `output` is None if its standard output is no matter.
        """
        assert (self.wait(), self.errors.rest().splitlines()) == (status, list(errors))
        if output is not None:
            assert self.output.rest() == output


class OperateAtTerminal(Operate):
    """A client at a terminal, which hands on what is typed line by line, and shows only what the program writes."""

    def __init__(self, program, port, *words):
        terminal, side = os.openpty()
        self.terminal = os.fdopen(terminal, "r+b", buffering=0)
        _, _, control, _, *others = termios.tcgetattr(side)
        termios.tcsetattr(side, termios.TCSANOW, [0, 0, control, termios.ICANON, *others])
        super().__init__(program, port, *words, stdin=side, stdout=side)
        os.close(side)
        self.output = Stream(self.terminal)

    def write(self, octets):
        self.terminal.write(octets)

    def end_input(self):
        self.write(END_OF_INPUT)

    def kill(self):
        super().kill()
        self.terminal.close()


def ended(port):
    """Returns the row about a port that has ended."""
    return f"rackd: port {port} has ended"
