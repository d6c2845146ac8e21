"""`python -m rackd suite`: runs a master under test against scenarios, and prints whether it passes."""
from __future__ import annotations

import argparse
import importlib.util
import os
import queue
import sys
import threading
import traceback
from dataclasses import dataclass
from pathlib import Path
from typing import Callable, List, Optional, Sequence

from .cable import Cable, RunningCable
from .faults import RackError, RackFault
from .rack import Rack
from .suite import ADDRESS, OTHER, Bus, Failed, Slave, rack_of
from .suite_judge import reasons
from .suite_master import CannotRun, MasterProcess, variables_of
from .suite_patience import Patience, Stopped
from .suite_plug import Plug
from .temporary import GuardedFolder

# The scenarios of the checkout, if this package lies in one, and those of an installed package.
CARRIED = Path(__file__).resolve().parents[2] / "examples" / "suite"
INSTALLED = Path(__file__).resolve().parent / "scenarios"
SCENARIOS = INSTALLED if INSTALLED.is_dir() else CARRIED
# Seconds that a scenario may take, and a master until it has connected.
TIMEOUT, CONNECT_TIME = 60.0, 5.0
# Seconds that a scenario may take to end with the suite: until its master is ended for it, and after that.
STOP_TIME, END_TIME = 1.0, 10.0


@dataclass(frozen=True)
class Scenario:
    """A scenario: the names of its file (examples/suite/README.md), and the defaults of those that it lacks."""

    path: Path
    title: str
    slaves: List[Slave]
    second: List[Slave]
    rack: str
    clear: int
    allowed: List[str]
    counted: List[str]
    run: Callable[[Bus], None]

    @property
    def name(self) -> str:
        """The name of the file without its end."""
        return self.path.stem


def read_scenario(path: Path) -> Scenario:
    """Returns the scenario of a file. Raises CannotRun if it is none."""
    spec = importlib.util.spec_from_file_location("scenario_" + path.stem.replace("-", "_"), path)
    assert spec is not None and spec.loader is not None
    module = importlib.util.module_from_spec(spec)
    # no folder beside the scenarios
    sys.dont_write_bytecode = True
    try:
        spec.loader.exec_module(module)
        slaves, second = list(module.SLAVES), list(getattr(module, "SECOND", []))
        return Scenario(path, (module.__doc__ or "").strip().split("\n")[0], slaves, second,
                        getattr(module, "RACK", None) or rack_of([*slaves, *second]), getattr(module, "CLEAR", 0),
                        list(getattr(module, "ALLOWED", [])), list(getattr(module, "COUNTED", [])), module.run)
    except Exception as error:
        raise CannotRun(f"{path.name} is no scenario: {text_of(error, path)}") from None


def text_of(error: Exception, path: Path) -> str:
    """Returns an exception in words, with the line of the scenario in which it came, if it came in its file."""
    rows = [frame for frame in traceback.extract_tb(error.__traceback__) if frame.filename == str(path)]
    text = str(error) or (rows[-1].line or "" if rows else "")
    return f"line {rows[-1].lineno}: {type(error).__name__}: {text}" if rows else text


def read_folder(folder: Path, only: Sequence[str]) -> List[Scenario]:
    """Returns the scenarios of a folder by their names, or those named. Raises CannotRun if there are none."""
    paths = {path.stem: path for path in sorted(folder.absolute().glob("*.py"))}
    if not paths:
        raise CannotRun(f"no scenarios in {folder}")
    for name in only:
        if name not in paths:
            raise CannotRun(f"no scenario {name} in {folder}")
    return [read_scenario(path) for name, path in paths.items() if not only or name in only]


@dataclass(frozen=True)
class Options:
    """What a suite runs: the words of the master, the limits of `Patience`, the folder of all racks, and how many at once."""

    command: Sequence[str]
    seconds: float
    connect: float
    folder: Path
    jobs: int


class Run:
    """One scenario with the master under test. The files of its rack are in a folder of its name afterwards."""

    def __init__(self, scenario: Scenario, options: Options, ended: "queue.Queue[Run]") -> None:
        """`ended` gets this run at its end."""
        self.scenario, self._options, self._ended = scenario, options, ended
        self._patience = Patience(options.seconds, options.connect)
        self._programs: List[MasterProcess] = []
        self._rack: Optional[Rack] = None
        self._failed: List[str] = []
        self._error: Optional[Exception] = None
        self._begun, self._done = threading.Event(), threading.Event()

    def go(self) -> None:
        """Runs the scenario to its end, unless the suite has ended."""
        self._begun.set()
        try:
            if not self._patience.is_stopped():
                self._failed = self._failure()
        except Exception as error:  # pylint: disable=broad-except
            self._error = error
        finally:
            self._done.set()
            self._ended.put(self)

    def is_done(self) -> bool:
        """Whether the scenario has ended."""
        return self._done.is_set()

    def failure(self) -> List[str]:
        """Returns why the master fails a scenario that has ended: nothing if it passes.

        Raises CannotRun, RackFault or NotLegal if it could not run.
        """
        if self._error is not None:
            raise self._error
        return self._failed

    def stop(self) -> None:
        """Ends the scenario at its next wait, for the end of the suite. One that has not begun does not begin."""
        self._patience.stop()

    def end(self) -> None:
        """Ends a scenario that is stopped, with its master and its rack."""
        if not self._begun.is_set() or self._done.wait(STOP_TIME):
            return
        # a step that does not wait by `Bus.wait` ends with the rack, or stays until this process ends
        for program in self._programs:
            program.stop()
        try:
            if self._rack is not None:
                self._rack.close()
        except RackError:
            pass
        self._done.wait(END_TIME)

    def _failure(self) -> List[str]:
        scenario = self.scenario
        with Rack(scenario.rack, options=["--endless"], folder=self._options.folder / scenario.name) as rack:
            self._rack = rack
            first = self._program(rack.folder / "master.output", ADDRESS, scenario.slaves)
            second = self._program(rack.folder / "second-master.output", OTHER, scenario.second)
            self._programs = [first, second]
            if scenario.second and len(rack.lines) > 1:
                raise CannotRun(f"{scenario.path.name} has SECOND, and a rack of several lines")
            plug = Plug(rack.lines[0].listen) if len(rack.lines) > 1 else None
            try:
                failed = seen(scenario, self._bus(rack, plug, first, second if scenario.second else None))
                failed += filter(None, [program.stop() for program in self._programs])
            finally:
                for program in self._programs:
                    program.stop()
                if plug:
                    plug.close()
        masters = [ADDRESS, OTHER] if scenario.second else [ADDRESS]
        return failed + [reason for master in masters
                         for reason in reasons(rack, master, scenario.allowed, scenario.counted)]

    def _program(self, output: Path, address: int, slaves: Sequence[Slave]) -> MasterProcess:
        variables = variables_of([slave.keys() for slave in slaves], self.scenario.clear)
        return MasterProcess(self._options.command, output, address, variables)

    def _bus(self, rack: Rack, plug: Optional[Plug], first: MasterProcess, second: Optional[MasterProcess]) -> Bus:
        line = rack.lines[0]
        # a stack that is alone on its bus may send tokens to itself all the time
        cable = RunningCable(rack.program, plug.listen if plug else line.listen, Cable(drop_tokens=True), rack.folder)
        line.cables.append(cable)
        self._patience.begin()
        return Bus(rack, first, cable, plug, self._patience, second and Bus(rack, second, cable, plug, self._patience))


def seen(scenario: Scenario, bus: Bus) -> List[str]:
    """Runs the steps of a scenario, and returns what was not seen, if there is something."""
    try:
        scenario.run(bus)
    except Failed as failed:
        return [str(failed)]
    except (CannotRun, RackFault, Stopped):
        raise
    except (AssertionError, RackError) as error:
        return [text_of(error, scenario.path)]
    except Exception as error:
        raise CannotRun(f"{scenario.path.name} {text_of(error, scenario.path)}") from error
    return []


def run_beside(runs: Sequence[Run], jobs: int) -> None:
    """Starts to run scenarios in their order, this number at one time, and does not wait for their ends."""
    waiting = iter(runs)
    lock = threading.Lock()

    def work() -> None:
        while True:
            with lock:
                run = next(waiting, None)
            if run is None:
                return
            run.go()

    for _ in range(min(jobs, len(runs))):
        threading.Thread(target=work, daemon=True).start()


def run_all(scenarios: Sequence[Scenario], options: Options) -> int:
    """Runs scenarios, prints the table in their order, and returns the exit status.

    Ends all of them, and raises CannotRun, RackFault or NotLegal, once one could not run.
    """
    width = max(len(scenario.name) for scenario in scenarios)
    ended: "queue.Queue[Run]" = queue.Queue()
    runs = [Run(scenario, options, ended) for scenario in scenarios]
    unprinted = list(runs)
    try:
        run_beside(runs, options.jobs)
        for _ in runs:
            ended.get().failure()
            while unprinted and unprinted[0].is_done():
                print_row(unprinted.pop(0), width)
        failures = sum(bool(run.failure()) for run in runs)
    finally:
        end_all(runs)
    print(f"{len(scenarios) - failures} passed, {failures} failed", flush=True)
    return 1 if failures else 0


def print_row(run: Run, width: int) -> None:
    """Prints the rows of a scenario that has ended, with its name in this width."""
    name, failed = run.scenario.name, run.failure()
    first = f"failed  {name:{width}}  " if failed else f"passed  {name}"
    print(first + ("\n" + " " * len(first)).join(failed), flush=True)


def end_all(runs: Sequence[Run]) -> None:
    """Ends all scenarios that run, side by side. Those that wait do not begin."""
    # the last one first: when one ends, all behind it are stopped, and none of them begins in its place
    for run in reversed(runs):
        run.stop()
    threads = [threading.Thread(target=run.end, daemon=True) for run in runs]
    for thread in threads:
        thread.start()
    for thread in threads:
        thread.join()


def number_of(name: str, most: int, kind: "Callable[[str], float]") -> "Callable[[str], float]":
    """Returns the reader of an option: a number of a kind from 1 to `most`. It raises ArgumentTypeError for another."""
    def read(word: str) -> float:
        try:
            number = kind(word)
        except ValueError:
            number = 0
        if not 1 <= number <= most:
            raise argparse.ArgumentTypeError(f"{name} is no number from 1 to {most}")
        return number

    return read


def parser_of() -> argparse.ArgumentParser:
    """Returns the parser of the words behind `python -m rackd suite`."""
    parser = argparse.ArgumentParser(
        prog="python -m rackd suite", usage="%(prog)s [OPTION].. COMMAND..",
        description="Runs a master under test against scenarios of a rack and its operator, and prints a table. "
                    "COMMAND is started for each scenario, and finds port, address and slaves in variables whose "
                    "names begin with RACKD_. examples/suite/README.md describes them.",
        epilog="Status 0 if all passed, 1 if one failed, 2 for wrong words or a suite that cannot run.")
    parser.add_argument("--only", action="append", default=[], metavar="NAME", help="runs this scenario, or several")
    parser.add_argument("--list", action="store_true", help="prints the scenarios, and runs none")
    parser.add_argument("--folder", default=str(SCENARIOS), help="has the scenarios (%(default)s)")
    seconds = number_of("SECONDS", 3600, float)
    parser.add_argument("--jobs", type=number_of("N", 64, int), default=os.cpu_count() or 1, metavar="N",
                        help="how many scenarios run side by side, 1 to 64 (the number of processors: %(default)d)")
    parser.add_argument("--timeout", type=seconds, default=TIMEOUT, metavar="SECONDS",
                        help="how long a scenario may take, 1 to 3600 (%(default)g)")
    parser.add_argument("--connect", type=seconds, default=CONNECT_TIME, metavar="SECONDS",
                        help="how long the master may take to connect, 1 to 3600 (%(default)g)")
    parser.add_argument("--keep", metavar="FOLDER", help="keeps racks, journals and what the master wrote there")
    parser.add_argument("command", nargs=argparse.REMAINDER, metavar="COMMAND", help="the master under test")
    return parser


def main(words: Sequence[str]) -> int:
    """Runs the words behind `suite`, and returns the exit status."""
    parser = parser_of()
    options = parser.parse_args(words)
    command = options.command[1:] if options.command[:1] == ["--"] else options.command
    if bool(command) == options.list:
        parser.error("--list takes no COMMAND" if command else "COMMAND is missing")
    try:
        scenarios = read_folder(Path(options.folder), options.only)
        if options.list:
            width = max(len(scenario.name) for scenario in scenarios)
            print(*(f"{scenario.name:{width}}  {scenario.title}" for scenario in scenarios), sep="\n")
            return 0
        temporary = GuardedFolder("rackd-suite-")
        try:
            folder = Path(options.keep or temporary.path)
            return run_all(scenarios, Options(command, options.timeout, options.connect, folder, options.jobs))
        finally:
            temporary.remove()
    except (CannotRun, RackError, OSError) as error:
        print(f"rackd suite: {error}", file=sys.stderr)
        return 2
