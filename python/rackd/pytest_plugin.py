"""Fixtures for pytest: `rack`, `rack_factory`, `rack_toml`, `embedded_rack`. The report of a failed test has what went wrong."""
from __future__ import annotations

import contextlib
import os
from typing import Any, Callable, Iterator, List, Tuple, Union

import pytest

from .embedded import EmbeddedRack
from .faults import RackError
from .rack import SAMPLE, Rack, open_racks

# how many rows of a log a report has
LOG_ROWS = 20
# the text or the path of a rack file
Toml = Union[str, "os.PathLike[str]"]


@pytest.fixture
def rack_toml() -> Toml:
    """The rack file of the fixture `rack`: its text or its path. Override it; without that it is `rackd.SAMPLE`."""
    return SAMPLE


@pytest.fixture
def rack_factory() -> Iterator[Callable[..., Rack]]:
    """A function that starts racks, with the parameters of `rackd.Rack`. They are closed after the test."""
    with contextlib.ExitStack() as racks:
        def start(toml: Toml, **options: Any) -> Rack:
            return racks.enter_context(Rack(toml, **options))

        yield start


@pytest.fixture
def rack(rack_factory: Callable[..., Rack], rack_toml: Toml) -> Rack:
    """A rack of the rack file `rack_toml`, which is closed after the test."""
    return rack_factory(rack_toml)


@pytest.fixture
def embedded_rack(rack_toml: Toml) -> Iterator[EmbeddedRack]:
    """A rack in this process of the rack file `rack_toml`, which is closed after the test."""
    with EmbeddedRack(rack_toml) as embedded:
        yield embedded


@pytest.hookimpl(hookwrapper=True)
def pytest_runtest_makereport(item: pytest.Item, call: Any) -> Iterator[None]:
    """Adds `explain --faults` of each line, and the log, of each open rack to the report of a test that failed."""
    outcome: Any = yield
    report = outcome.get_result()
    if report.failed:
        report.sections.extend(faults_of_all())


def faults_of_all() -> List[Tuple[str, str]]:
    """Returns titles and texts: the faults of each line of each open rack, and the end of its log."""
    sections = []
    racks = open_racks()
    for number, rack in enumerate(racks, 1):
        which = f", rack {number}" if len(racks) > 1 else ""
        for line in rack.lines:
            try:
                text = line.journal().explain(faults=True)
            except (RackError, OSError) as error:
                text = str(error)
            sections.append((f"explain --faults, line {line.number}{which}", text))
        sections.append((f"log of rackd{which}", "\n".join(rack.log()[-LOG_ROWS:])))
    return sections
