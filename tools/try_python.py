"""Plays python/tests, the tests of the Python package, with a wheel, for `tools/try --python`. It installs what they need of
Debian's packages by apt-get, if it may, and makes a virtual environment with the wheel."""
import os
import re
import shutil
import subprocess
import sys
import tempfile
from pathlib import Path

TOP = Path(__file__).resolve().parent.parent
PYTHON = "/usr/bin/python3"
# Debian's packages, by the module that each has.
PACKAGES = {
    "pytest": "python3-pytest", "flask": "python3-flask", "flask_login": "python3-flask-login", "blinker": "python3-blinker",
    "django": "python3-django", "starlette": "python3-starlette", "werkzeug": "python3-werkzeug", "httpx": "python3-httpx",
    "requests": "python3-requests", "aiohttp": "python3-aiohttp", "mechanize": "python3-mechanize", "idna": "python3-idna",
    "redis": "python3-redis", "gevent": "python3-gevent", "mypy": "mypy", "ensurepip": "python3-venv",
}
# And by the program.
PROGRAMS = {"redis-server": "redis-server", "curl": "curl", "openssl": "openssl", "pypy3": "pypy3", "musl-gcc": "musl-tools", "twine": "twine"}
# What is taken of another suite: packages without machine code, and what they need.
NEWER = """python3-flask python3-werkzeug python3-itsdangerous python3-jinja2 python3-markupsafe python3-click python3-blinker
    python3-flask-login python3-django python3-asgiref python3-sqlparse python3-starlette python3-anyio python3-httpx
    python3-httpcore python3-h11 python3-sniffio python3-requests python3-urllib3 python3-typing-extensions
    python3-mypy python3-mypy-extensions""".split()
# Where Debian's packages are, and where apt-get keeps what it reads of them.
SOURCES = """\
Types: {kind}
URIs: http://deb.debian.org/debian
Suites: {suite}
Components: main
Signed-By: /usr/share/keyrings/debian-archive-keyring.gpg
"""


def apt_of(folder, suite, kind):
    """apt-get, with the packages (`deb`) or the sources (`deb-src`) of a suite, which it checks."""
    for name in ("parts", "lists/partial"):
        (folder / name).mkdir(parents=True)
    (folder / "parts/suite.sources").write_text(SOURCES.format(kind=kind, suite=suite))
    options = [
        "Dir::Etc::sourcelist=/dev/null", f"Dir::Etc::sourceparts={folder}/parts", f"Dir::State::lists={folder}/lists",
        "Dir::Cache::srcpkgcache=", "Dir::Cache::pkgcache=", "APT::Sandbox::User=root",
    ]
    apt = ["apt-get", "-qq", *(word for option in options for word in ("-o", option))]
    subprocess.run([*apt, "update"], check=True)
    return apt


def packages_of(suite, folder):
    """Where the modules of a suite's packages are unpacked."""
    folder.mkdir()
    subprocess.run([*apt_of(folder, suite, "deb"), "download", *NEWER], cwd=folder, check=True)
    for package in folder.glob("*.deb"):
        subprocess.run(["dpkg", "-x", package, folder / "unpacked"], check=True)
    return folder / "unpacked/usr/lib/python3/dist-packages"


def missing(modules=PACKAGES, programs=PROGRAMS):
    """The packages of what isn't there."""
    lacks = [
        package for module, package in modules.items()
        if subprocess.run([PYTHON, "-c", f"import {module}"], capture_output=True).returncode
    ]
    path = os.environ.get("PATH", "") + ":/usr/sbin:/usr/bin"
    return lacks + [package for program, package in programs.items() if not shutil.which(program, path=path)]


def install_packages(modules=PACKAGES, programs=PROGRAMS):
    """Installs what is missing of Debian's packages, if that can be, and says so."""
    packages = missing(modules, programs)
    if not packages:
        return
    if not shutil.which("apt-get") or os.geteuid() != 0:
        print(f"there is no {' '.join(packages)}, which only root installs by apt-get", flush=True)
        return
    print(f"installs {' '.join(packages)}", flush=True)
    quiet = {"env": {**os.environ, "DEBIAN_FRONTEND": "noninteractive", "RUNLEVEL": "1"}, "stdout": subprocess.DEVNULL}
    subprocess.run(["apt-get", "-qq", "update"], **quiet)
    done = subprocess.run(["apt-get", "-qq", "install", "-y", "--no-install-recommends", *packages], **quiet)
    if done.returncode:
        print(f"apt-get couldn't install {' '.join(missing(modules, programs))}", flush=True)


def environment_with(prefix, folder):
    """A Python with Debian's packages and the wheel of the prefix. Without a prefix tools/install makes the wheel."""
    if prefix is None:
        prefix = folder / "prefix"
        subprocess.run([TOP / "tools/install", prefix], check=True)
    wheel = wheel_in(prefix.resolve())
    subprocess.run([PYTHON, "-m", "venv", "--system-site-packages", folder / "venv"], check=True)
    python = folder / "venv/bin/python"
    subprocess.run([python, "-m", "pip", "install", "-q", "--no-index", "--no-deps", wheel], check=True)
    return python


def wheel_in(prefix):
    """The wheel of the prefix, or the one that it is."""
    if prefix.suffix == ".whl":
        return prefix
    found = list(prefix.glob("share/deomigal/*.whl"))
    if len(found) != 1:
        sys.exit(f"try: {prefix} isn't a wheel, nor where tools/install put one")
    return found[0]


def is_described(wheel):
    """Whether twine takes what the wheel says of itself. It is played only if it is there."""
    twine = shutil.which("twine")
    return not twine or not subprocess.run([twine, "check", "--strict", wheel]).returncode


def play(python, words, path):
    """Plays the tests, with the modules of the path before others. Returns how many passed, how many failed, and how many
    were skipped."""
    environment = {**os.environ, "PYTHONPATH": str(path or ""), "PYTHONDONTWRITEBYTECODE": "1"}
    environment.pop("DEOMIGAL_LIBRARY", None)
    command = [python, "-m", "pytest", "-p", "no:cacheprovider", "-q", "-rsfE", "--disable-warnings", *words]
    played = subprocess.Popen(command, cwd=TOP, env=environment, stdout=subprocess.PIPE, text=True)
    last = ""
    for line in played.stdout:
        print(line, end="", flush=True)
        last = line
    counts = {word: int(number) for number, word in re.findall(r"(\d+) (passed|failed|skipped|error)", last)}
    # Status 1 is that of failed tests. Any other says that the tests weren't played.
    failed = counts.get("failed", 0) + counts.get("error", 0) + (played.wait() > 1)
    return counts.get("passed", 0), failed, counts.get("skipped", 0)


def tried(prefix, words, suite=None):
    """Plays the tests that the words say, or all, with the frameworks of a suite. Returns whether all passed."""
    wheel = wheel_in(prefix.resolve())
    install_packages()
    with tempfile.TemporaryDirectory(prefix="try-python-") as folder:
        folder = Path(folder)
        path = packages_of(suite, folder / "suite") if suite else None
        passed, failed, skipped = play(environment_with(wheel, folder), words or ["python/tests"], path)
        failed += not is_described(wheel)
    if skipped and os.environ.get("CI") == "true":
        print(f"{skipped} skipped tests fail, since CI is true")
        failed += skipped
    print(f"{passed} passed, {failed} failed", flush=True)
    return bool(passed and not failed)
