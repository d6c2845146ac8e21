"""The sources of the package: the oldest Python that reads them, their imports, and docstrings and type hints."""
import ast
import importlib
import inspect
import sys
import textwrap
from pathlib import Path

import pytest

import rackd

SOURCES = sorted(Path(rackd.__file__).parent.glob("*.py"))
FOREIGN = {"pytest_plugin": {"pytest"}}
each_source = pytest.mark.parametrize("path", SOURCES, ids=[path.stem for path in SOURCES])


def test_there_are_sources():
    assert len(SOURCES) > 8


@each_source
def test_python_3_9_reads_them(path):
    ast.parse(path.read_text(encoding="utf-8"), feature_version=(3, 9))


@each_source
def test_they_import_the_standard_library_only(path):
    if sys.version_info < (3, 10):
        pytest.skip("a Python that lists its standard library (3.10) is not installed")
    for node in ast.walk(ast.parse(path.read_text(encoding="utf-8"))):
        names = [name.name for name in node.names] if isinstance(node, ast.Import) else []
        if isinstance(node, ast.ImportFrom) and not node.level:
            names.append(node.module or "")
        assert {name.partition(".")[0] for name in names} - sys.stdlib_module_names <= FOREIGN.get(path.stem, set())


def public_items(module):
    """Returns the classes and functions of a module, and the methods and properties of its classes, by their names."""
    found = {}
    for name, item in vars(module).items():
        if name.startswith("_") or getattr(item, "__module__", None) != module.__name__:
            continue
        found[name] = item
        for member, value in vars(item).items() if inspect.isclass(item) else ():
            value = value.fget if isinstance(value, property) else value
            if inspect.isfunction(value) and not member.startswith("_"):
                found[f"{name}.{member}"] = value
    return found


@pytest.mark.parametrize("name", [path.stem for path in SOURCES if path.stem not in FOREIGN])
def test_public_names_have_docstrings_and_hints(name):
    for item_name, item in public_items(importlib.import_module(f"rackd.{name}")).items():
        assert inspect.getdoc(item), f"{item_name} has no docstring"
        if inspect.isfunction(item):
            parameters = [each for each in inspect.signature(item).parameters if each not in ("self", "_")]
            assert {*parameters, "return"} <= set(item.__annotations__), f"{item_name} lacks a hint"


def test_calls_of_the_docstring(wait_long):
    rows = rackd.__doc__.split("\n")
    code = textwrap.dedent("\n".join(row for row in rows if row.startswith("    ") or not row))
    code = code.replace('"rack.toml"', "rackd.SAMPLE").replace("print(", "str(")
    for call in ("journal.judge(", "journal.explain(", "master.bring_up("):
        assert call in code
    exec(compile(code, "docstring", "exec"), {"rackd": rackd})


def test_all_names_are_there():
    assert [name for name in rackd.__all__ if not hasattr(rackd, name)] == []
    assert len(rackd.__all__) == len(set(rackd.__all__))


@pytest.mark.parametrize("name", ["Finding", "Journal", "Rack", "Master", "Operator", "Port", "Cable"])
def test_names_that_programs_import(name):
    assert name in rackd.__all__
