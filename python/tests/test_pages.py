"""The samples of the package's modules and of its page, and the page's tables."""
import doctest
import importlib
import inspect
import pkgutil
import re
import subprocess
import sys

import deomigal
import pytest
from helpers import TOP, page

PAGE = "python/README.md"
# The modules of the package that need the framework of their name.
FRAMEWORKS = {"aiohttp", "django", "flask", "httpx", "requests", "werkzeug"}
# The classes of tests of others that are in our words, with the modules that have them.
OTHERS = {
    "Flask": ("test_flask", "Flasks"), "Starlette": ("test_middleware", "Starlettes"),
    "Werkzeug": ("test_werkzeug", "Werkzeugs"), "requests": ("test_requests", "RequestsTests"),
}


def blocks(*kinds):
    """The samples of the page, and of the project's first page."""
    text = "".join(path.read_text() for path in (TOP / "README.md", TOP / PAGE) if path.exists())
    for number, (kind, block) in enumerate(re.findall(r"```(py|python)\n(.*?)```", text, re.S), 1):
        if kind in kinds:
            yield pytest.param(block, id=str(number))


def import_all(block):
    """Skips the test if the sample imports a framework that isn't there."""
    for name in re.findall(r"^(?:from|import) (\w+)", block, re.M):
        pytest.importorskip(name)
    for name in re.findall(r"^from deomigal\.(\w+) import", block, re.M):
        if name in FRAMEWORKS:
            pytest.importorskip(name)


@pytest.mark.parametrize("block", blocks("py", "python"))
def test_sample(block):
    """A sample of the page runs."""
    import_all(block)
    done = subprocess.run([sys.executable, "-c", block], capture_output=True, text=True)
    assert done.returncode == 0, done.stderr


# To import the first is to run it, and the second isn't Python.
MODULES = {found.name for found in pkgutil.iter_modules(deomigal.__path__)} - {"__main__", "libcookie_c"}


@pytest.mark.parametrize("name", sorted(MODULES))
def test_doctests(name):
    """The samples of a module print what they say."""
    if name in FRAMEWORKS:
        pytest.importorskip(name)
    if name == "django":
        importlib.import_module("django_site")
    assert doctest.testmod(importlib.import_module(f"deomigal.{name}")).failed == 0


def test_package_doctests():
    """So do those of the package."""
    assert doctest.testmod(deomigal).failed == 0


def public_in(name, found, module):
    """The public classes and functions of a module or of a class that the package defines, by their names."""
    for member, value in vars(found).items():
        if isinstance(value, property):
            value = value.fget
        elif isinstance(value, (classmethod, staticmethod)):
            value = value.__func__
        if not member.startswith("_") and (inspect.isclass(value) or inspect.isfunction(value)) and value.__module__ == module:
            yield f"{name}.{member}", value
            if inspect.isclass(value):
                yield from public_in(f"{name}.{member}", value, module)


@pytest.mark.parametrize("name", sorted(name for name in MODULES if not name.startswith("_")))
def test_docstrings(name):
    """Each public name has a docstring, or one of a class above it."""
    if name in FRAMEWORKS:
        pytest.importorskip(name)
    if name == "django":
        importlib.import_module("django_site")
    module = importlib.import_module(f"deomigal.{name}")
    assert module.__doc__
    assert [name for name, value in public_in(name, module, module.__name__) if not value.__doc__] == []


def reason_of(test):
    """Why the test isn't shared, or None."""
    marks = [mark for mark in getattr(test, "pytestmark", ()) if mark.name == "xfail"]
    return marks[0].kwargs["reason"] if marks else None


@pytest.mark.parametrize("framework", OTHERS)
def test_table(framework):
    """The page says how many of a framework's tests pass, of which version they are, and why the others don't."""
    name, kind = OTHERS[framework]
    pytest.importorskip(framework.lower())
    module = importlib.import_module(name)
    tests = [(name, test) for name, test in vars(getattr(module, kind)).items() if name.startswith("test_")]
    others = [(name, test.__doc__, reason_of(test)) for name, test in tests if reason_of(test)]
    version = re.search(rf"{framework} (\d[\d.]*\d)", module.__doc__)[1]
    row = f"| {framework} {version} | {len(tests)}, in our words | {len(tests) - len(others)} | {len(others)} |"
    text = page(PAGE)
    assert row in text
    for name, says, reason in others:
        shown = f"`{name}`" if framework == "requests" else says.partition(": ")[2].rstrip(".")
        rows = [line for line in text.splitlines() if line.startswith(f"| {framework} | ") and line.endswith(f" | {reason} |")]
        assert any(shown in line for line in rows), (shown, reason)
