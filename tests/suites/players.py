"""Plays others' tests with the package in the place of their code, and prints in JSON what came of each: its name, whether it
passed, what it said, and why it was skipped. Of tests of jars these are those that make one.

    players.py Django|http.cookiejar|httpx|aiohttp [FILE]

Django's and CPython's tests run by unittest, the others' by pytest. Of the client itself the version that is installed runs, whichever
version the tests are of. With HOSTLESS=no the cookie that aiohttp's tests set for all hosts is left out of their text.
"""
import contextlib
import http.cookiejar
import importlib.util
import json
import os
import re
import sys
import tempfile
import time
import unittest
from pathlib import Path

from deomigal import Agent, cookiejar


class Counted:
    """How many jars of ours were made."""

    made = 0


class Played(cookiejar.CookieJar):
    """Our jar with the arguments of `http.cookiejar`'s."""

    def __init__(self, policy=None):
        Counted.made += 1
        super().__init__(Agent())
        self.policy = policy

    def set_policy(self, policy):
        self.policy = policy

    @property
    def _cookies(self):
        """The cookies by domain, path and name, where the tests look for them."""
        found = {}
        for cookie in self:
            found.setdefault(cookie.domain, {}).setdefault(cookie.path, {})[cookie.name] = cookie
        return found

    @_cookies.setter
    def _cookies(self, _):
        """There is nothing to set."""


class Results(unittest.TestResult):
    """The result of each test, or of each that made a jar."""

    def __init__(self, makes_jars):
        super().__init__()
        self.makes_jars, self.rows = makes_jars, []

    def startTest(self, test):
        super().startTest(test)
        self.before = Counted.made

    def stopTest(self, test):
        super().stopTest(test)
        if Counted.made > self.before or not self.makes_jars:
            wrong = [told for case, told in self.failures + self.errors if test in (case, getattr(case, "test_case", None))]
            reason = next((reason for case, reason in self.skipped if case is test), None)
            self.rows.append({"name": test._testMethodName, "is_right": not wrong, "told": "".join(wrong), "reason": reason})


def results_of(tests, makes_jars):
    """What came of each test of a module."""
    results = Results(makes_jars)
    unittest.defaultTestLoader.loadTestsFromModule(tests).run(results)
    return results.rows + [{"name": str(case), "is_right": False, "told": told, "reason": None}
                           for case, told in results.errors if not isinstance(case, unittest.TestCase)]


def play_django():
    """Plays Django's tests of sessions with our engine."""
    import django_suite

    return results_of(django_suite, False)


class Plugin:
    """The same for pytest."""

    def __init__(self):
        self.rows, self.told = [], {}

    def pytest_runtest_setup(self, item):
        self.before = Counted.made

    def pytest_runtest_logreport(self, report):
        if report.failed:
            self.told[report.nodeid] = report.longreprtext

    def pytest_runtest_logfinish(self, nodeid):
        if Counted.made > self.before:
            # aiohttp's plugin runs each test of a coroutine in the loop that the name says.
            name = re.sub(r"\[pyloop\]$", "", nodeid.rpartition("::")[2]).replace("[pyloop-", "[")
            self.rows.append({"name": name, "is_right": nodeid not in self.told, "told": self.told.get(nodeid, "")})


def play_cpython(path):
    """Plays CPython's tests of http.cookiejar."""
    spec = importlib.util.spec_from_file_location("theirs", path)
    theirs = importlib.util.module_from_spec(spec)
    spec.loader.exec_module(theirs)
    theirs.CookieJar = Played
    return results_of(theirs, True)


def play_httpx(path):
    """Plays a file of httpx's tests. httpx makes each jar, also those that a client makes of its own."""
    http.cookiejar.CookieJar = Played
    import httpx

    assert httpx._models.CookieJar is Played
    return play_pytest(path.read_text())


def play_aiohttp(path):
    """Plays aiohttp's tests of its jar."""
    import aiohttp
    import deomigal.aiohttp

    class PlayedAiohttp(deomigal.aiohttp.CookieJar):
        """Our jar with the arguments of aiohttp's, and its calls that write and read a file."""

        def __init__(self, *, unsafe=False, quote_cookie=True, treat_as_secure_origin=None, loop=None):
            Counted.made += 1
            # freezegun has another clock.
            super().__init__(Agent(clock=lambda: time.time()))

        def save(self, file_path):
            self.agent.save(file_path)

        def load(self, file_path):
            self.agent.load(file_path)

    aiohttp.CookieJar = PlayedAiohttp
    text = path.read_text()
    if os.environ.get("HOSTLESS") == "no":
        text = re.sub(r'"shared-cookie",\s*', "", text.replace("shared-cookie=first; ", "").replace('{"shared-cookie"}', "set()"))
    return play_pytest(text, "-p", "aiohttp.pytest_plugin")


def play_pytest(text, *words):
    """Plays the text of a file of tests."""
    import pytest

    plugin = Plugin()
    with tempfile.TemporaryDirectory() as folder, contextlib.redirect_stdout(sys.stderr):
        path = Path(folder) / "test_theirs.py"
        path.write_text(text)
        named = [f"--rootdir={folder}", "-q", "-p", "no:cacheprovider", "-W", "ignore", *words]
        pytest.main([*named, str(path)], plugins=[plugin])
    return plugin.rows


def main():
    kind, *paths = sys.argv[1:]
    players = {"Django": play_django, "http.cookiejar": play_cpython, "httpx": play_httpx, "aiohttp": play_aiohttp}
    print(json.dumps(players[kind](*(Path(path).resolve() for path in paths))))


main()
