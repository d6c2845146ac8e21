"""The plugin for pytest is registered once, whatever ways lead to it."""
import re

import pytest

from support.package_runs import PACKAGE, run_pytest

# A test that fails, and that says by which names the plugin is registered.
TEST = """
import sys

def test_it(rack, request):
    plugin = sys.modules["rackd.pytest_plugin"]
    print("NAMES", [name for name, each in request.config.pluginmanager.list_name_plugin() if each is plugin])
    assert rack.lines == []
"""
IN_CONFTEST = 'pytest_plugins = ["rackd.pytest_plugin"]\n'


def write_notes(folder):
    """Writes what an installation leaves beside the package, as pyproject.toml has it, and returns the folder."""
    text = (PACKAGE / "pyproject.toml").read_text(encoding="utf-8")
    name, module = re.search(r'\[project\.entry-points\.pytest11\]\n"?([\w.]+)"? = "([\w.]+)"\n', text).groups()
    notes = folder / "rackd-0.1.0.dist-info"
    notes.mkdir(parents=True)
    (notes / "METADATA").write_text("Metadata-Version: 2.1\nName: rackd\nVersion: 0.1.0\n", encoding="utf-8")
    (notes / "entry_points.txt").write_text(f"[pytest11]\n{name} = {module}\n", encoding="utf-8")
    return folder


@pytest.mark.parametrize("installations, by_option, conftest", [
    pytest.param(1, False, "", id="entry-point"),
    pytest.param(0, True, "", id="option"),
    pytest.param(0, False, IN_CONFTEST, id="conftest"),
    pytest.param(1, True, "", id="entry-point-and-option"),
    pytest.param(1, False, IN_CONFTEST, id="entry-point-and-conftest"),
    pytest.param(0, True, IN_CONFTEST, id="option-and-conftest"),
    pytest.param(2, False, "", id="two-entry-points"),
    pytest.param(2, True, IN_CONFTEST, id="all"),
])
def test_plugin_is_registered_once(tmp_path, installations, by_option, conftest):
    (tmp_path / "test_it.py").write_text(TEST, encoding="utf-8")
    (tmp_path / "conftest.py").write_text(conftest, encoding="utf-8")
    folders = [write_notes(tmp_path / f"installed-{number}") for number in range(installations)]
    done = run_pytest(tmp_path, plugin=by_option, PYTHONPATH=":".join(map(str, [PACKAGE, *folders])))
    assert done.status == 1, done
    assert "NAMES ['rackd.pytest_plugin']" in done.output
    assert done.output.count("- explain --faults, line 1 -") == 1
    assert done.output.count("- log of rackd -") == 1
