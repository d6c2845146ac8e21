"""Fixtures of all tests, and the counts of a run."""
import os
import resource
import subprocess
from collections import Counter
from pathlib import Path

import pytest

# asserts of these modules show their values, as those of tests do
pytest.register_assert_rewrite("support")

from rackd import cable, connection, operator, rack as racks
from rackd.pytest_plugin import pytest_runtest_makereport, rack, rack_factory, rack_toml  # noqa: F401,E402
from support.browsers import Browser, find_chromium
from support.processes import PATIENCE, Done, run_program
from support.servers import Server

# The folder of the repository.
TOP = Path(__file__).resolve().parent.parent

# The package waits for answers, and for the start and the end of programs, as long as tests wait for anything.
connection.ANSWER_TIME = operator.ANSWER_TIME = cable.ANSWER_TIME = racks.READY_TIME = racks.END_TIME = PATIENCE


def pytest_addoption(parser):
    parser.addoption("--program", help="the program under test; without it, the variable RACKD, or the program of this tree")
    parser.addoption("--counts", help="a file for the counts of the run, and for the seconds that each folder took")
    parser.addoption("--outcomes", help="a file for the outcome of each test")


def pytest_configure(config):
    """Chooses the program once. Workers of pytest-xdist and the package find it in the variable RACKD."""
    if not hasattr(config, "workerinput"):
        os.environ["RACKD"] = chosen_program(config.getoption("--program") or os.environ.get("RACKD"))
        config.pluginmanager.register(Counts(config.getoption("--counts"), config.getoption("--outcomes")), "counts")


def chosen_program(named):
    """Returns the path of the program under test: the one that is named, or one that is built from the sources as they are."""
    if named is None:
        script = f'top={TOP}; . "$top/dist/built.sh"; built_program'
        named = subprocess.run(["bash", "-c", script], check=False, capture_output=True, text=True).stdout.strip()
    if not named:
        raise pytest.UsageError("there is no program of the sources as they are: ./rackd builds it, --program names another")
    if not os.access(named, os.X_OK):
        raise pytest.UsageError(f"there is no program {named}")
    return os.path.abspath(named)


def pytest_collection_modifyitems(items):
    """Spreads the slow tests evenly over the others, so that each worker of pytest-xdist gets its part of them."""
    slow = [item for item in items if item.get_closest_marker("slow")]
    others = [item for item in items if not item.get_closest_marker("slow")]
    places = {id(item): place / max(len(group), 1) for group in (slow, others) for place, item in enumerate(group)}
    items.sort(key=lambda item: places[id(item)])


class Counts:
    """Counts the tests that passed, failed and were skipped, and the seconds that the tests of each folder took."""

    def __init__(self, counts_path, outcomes_path):
        self.counts_path, self.outcomes_path, self.outcomes, self.seconds = counts_path, outcomes_path, {}, Counter()

    def pytest_runtest_logreport(self, report):
        folder = "/".join(report.nodeid.split("::")[0].split("/")[:-1])
        self.seconds[folder] += report.duration
        worst = self.outcomes.get(report.nodeid)
        if report.failed or worst is None or worst == "passed":
            self.outcomes[report.nodeid] = report.outcome

    def pytest_collectreport(self, report):
        if report.failed:
            self.outcomes[report.nodeid] = "failed"

    def rows(self):
        counts = Counter(self.outcomes.values())
        for folder, seconds in sorted(self.seconds.items()):
            yield f"{folder}: {seconds:.0f} s"
        skipped = f", {counts['skipped']} skipped" if counts["skipped"] else ""
        yield f"{counts['passed']} passed, {counts['failed']} failed{skipped}"

    def pytest_terminal_summary(self, terminalreporter):
        rows = list(self.rows())
        terminalreporter.section("seconds of each folder, over all workers")
        for row in rows:
            terminalreporter.write_line(row)
        if self.counts_path:
            Path(self.counts_path).write_text("".join(f"{row}\n" for row in rows), encoding="utf-8")
        if self.outcomes_path:
            outcomes = "".join(f"{outcome} {test}\n" for test, outcome in self.outcomes.items())
            Path(self.outcomes_path).write_text(outcomes, encoding="utf-8")


@pytest.fixture(scope="session")
def top():
    """The folder of the repository."""
    return TOP


@pytest.fixture(scope="session")
def program():
    """The path of the program under test."""
    return os.environ["RACKD"]


@pytest.fixture
def run(program):
    """A function that runs the program with these words to its end, and returns status, output and errors."""
    def call(*words, **options) -> Done:
        return run_program([program, *words], **options)

    return call


@pytest.fixture
def serve(program, tmp_path):
    """A function that starts `rackd serve` on the text of a rack file, with further words, and waits until it is ready.

    See `support.servers.Server` for its parameters. The servers are killed after the test.
    """
    servers = []

    def start(text, *words, **options):
        server = Server(program, tmp_path / f"server-{len(servers) + 1}", text, *words, **options)
        servers.append(server)
        return server.wait_until_ready()

    yield start
    for server in servers:
        server.kill()


@pytest.fixture
def start_server(program, tmp_path):
    """A function as `serve`, but it does not wait until the server is ready: for servers that never get so far."""
    servers = []

    def start(text, *words, **options):
        server = Server(program, tmp_path / f"started-{len(servers) + 1}", text, *words, **options)
        servers.append(server)
        return server

    yield start
    for server in servers:
        server.kill()


@pytest.fixture
def descriptors():
    """A function that lowers the number of descriptors of this process; it is as before after the test."""
    before = resource.getrlimit(resource.RLIMIT_NOFILE)
    yield lambda most: resource.setrlimit(resource.RLIMIT_NOFILE, (most, before[1]))
    resource.setrlimit(resource.RLIMIT_NOFILE, before)


@pytest.fixture(scope="session")
def browser():
    """A headless Chromium. The tests that need it are skipped where it is not installed."""
    found = find_chromium()
    if found is None:
        pytest.skip("chromium is not installed")
    with Browser(found) as running:
        yield running
