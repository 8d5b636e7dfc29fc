"""`mypy --strict` of the package, and of the samples of its page."""
import subprocess
import sys
from pathlib import Path

import deomigal
import pytest
from helpers import TOP
from test_pages import blocks

pytest.importorskip("mypy")
SETTINGS = TOP / "python/pyproject.toml"


@pytest.fixture(scope="module")
def folder(tmp_path_factory):
    """Where mypy keeps what it knows of the frameworks."""
    return tmp_path_factory.mktemp("mypy")


def check(folder, *words):
    """mypy finds nothing."""
    command = [sys.executable, "-m", "mypy", "--cache-dir", folder / "cache", *words]
    done = subprocess.run(command, capture_output=True, text=True, cwd=folder)
    assert done.returncode == 0, done.stdout + done.stderr


def test_package(folder):
    """The package has types."""
    if not SETTINGS.exists():
        pytest.skip("no pyproject.toml here")
    for name in ("flask", "django", "aiohttp", "httpx", "requests", "werkzeug"):
        pytest.importorskip(name)
    check(folder, "--config-file", SETTINGS, Path(deomigal.__file__).parent)


def test_samples(folder):
    """Who uses the package as its page does gets types."""
    for number, block in enumerate(blocks("py")):
        block, = block.values
        (folder / f"sample_{number}.py").write_text(block)
    check(folder, "--strict", *sorted(path.name for path in folder.glob("sample_*.py")))
