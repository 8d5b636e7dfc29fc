"""How the package finds its library, and what its wheel says of it."""
import os
import platform
import re
import shutil
import subprocess
import sys
from importlib import metadata
from pathlib import Path

import pytest
from deomigal import _library
from helpers import TOP


@pytest.mark.parametrize("host", [("Darwin", "arm64"), ("Windows", "AMD64"), ("Linux", "aarch64")])
def test_other_platform(monkeypatch, tmp_path, host):
    """Where the wheel's library can't be loaded, one sentence says for which platforms it is, and what to do."""
    for name, value in zip(("system", "machine"), host):
        monkeypatch.setattr(platform, name, lambda value=value: value)
    with pytest.raises(ImportError) as found:
        _library.library_at(str(tmp_path / "libcookie_c.so"))
    text = str(found.value)
    assert "for Linux on x86-64" in text and host[0] in text and text.count(". ") == 0


def test_no_library(tmp_path):
    """The variable DEOMIGAL_LIBRARY names another library. If there is none, the error says how it is made."""
    words = {**os.environ, "DEOMIGAL_LIBRARY": str(tmp_path / "none.so")}
    done = subprocess.run([sys.executable, "-c", "import deomigal"], env=words, capture_output=True, text=True)
    assert done.returncode == 1 and "tools/install" in done.stderr.splitlines()[-1]


MUSL = """
#include <dlfcn.h>
int main(int count, char **words) {
    void *library = dlopen(words[1], RTLD_NOW);
    return !library || !((unsigned (*)(void))dlsym(library, "cookie_version"))();
}
"""


def test_musl(tmp_path):
    """The library is loaded with musl too, as in Alpine."""
    if not shutil.which("musl-gcc"):
        pytest.skip("no musl-gcc")
    (tmp_path / "load.c").write_text(MUSL)
    subprocess.run(["musl-gcc", "load.c", "-o", "load"], cwd=tmp_path, check=True)
    assert subprocess.run([tmp_path / "load", _library.LIBRARY._name]).returncode == 0


def installed():
    """The wheel's metadata, if the package was installed."""
    try:
        return metadata.distribution("deomigal")
    except metadata.PackageNotFoundError:
        pytest.skip("the package isn't installed")


def test_metadata():
    """The metadata are those of pyproject.toml. Each licence that they name has its text in the wheel."""
    found = installed()
    files = {Path(str(file)).name: file.read_text() for file in found.files if "licenses" in str(file)}
    assert found.metadata["License"] == "(MIT OR Apache-2.0) AND MPL-2.0" and found.metadata["Author"]
    assert sorted(files) == sorted(found.metadata.get_all("License-File"))
    for title in ("Apache License", "Permission is hereby granted", "Mozilla Public License Version 2.0"):
        assert any(title in text for text in files.values()), title
    assert "Typing :: Typed" in found.metadata.get_all("Classifier")
    if (TOP / "python/pyproject.toml").exists():
        project = (TOP / "python/pyproject.toml").read_text()
        assert all(f'"{text}"' in project for text in found.metadata.get_all("Classifier"))


def test_description():
    """Links of the description lead somewhere outside of the project."""
    text = installed().metadata.get_payload()
    links = re.findall(r"\]\(([^)]*)\)", text)
    assert links and all(link.startswith(("https://", "#")) for link in links), links
