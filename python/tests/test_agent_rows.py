"""The rows of crates/cookie_vectors/data/agent.tsv, whose answers are those of RFC 6265bis, played over a local server."""
import tempfile
import unittest
from pathlib import Path
from urllib.parse import urlsplit

import pytest
from clients import CLIENTS
from deomigal import Agent
from deomigal.agents import CROSS_SITE, CROSS_SITE_LINK, SAME_SITE
from rows.agents import Agents, shown
from rows.browser import LIST
from rows.player import faults_of
from rows.rowfile import DATA, rows, unescaped
from server import Servers, resolved

# How a request came about, by its word: the context, and the method.
HOWS = {"get": (SAME_SITE, "GET"), "link": (CROSS_SITE_LINK, "GET"), "post": (CROSS_SITE_LINK, "POST"), "frame": (CROSS_SITE, "GET")}
CALLS = {"on", "by", "at", "set", "header", "retrieve"}
ROWS = rows("agent.tsv") if DATA.exists() else []


def hosts():
    """The hosts of the rows."""
    urls = [step.words for row in ROWS for step in row.steps if step.call == "on"]
    return sorted({urlsplit(url).hostname for url in urls} - {None, ""})


class ByClient(Agents):
    """Plays a row by a client, which makes a request for each step."""

    def __init__(self, kind, servers):
        super().__init__(None)
        self.agent = Agent(LIST, is_localhost_secure=False, clock=lambda: self.now)
        self.client, self.servers = kind(self.agent, servers.certificate[0]), servers

    def ask(self, *texts):
        """The `Cookie` header of a request, which is answered with these texts."""
        self.servers.texts = list(texts)
        context, method = HOWS[self.how]
        self.client.ask(self.url, method, context)
        return shown(self.servers.asked[-1][1])

    def on_set(self, step):
        self.ask(unescaped(step.words))
        # The client doesn't say whether it stores the cookie.
        return unescaped(step.wanted)

    def on_header(self, _):
        return self.ask()

    on_retrieve = on_header


class Rows(unittest.TestCase):
    """The rows, by each client."""

    @classmethod
    def setUpClass(cls):
        cls.folder = tempfile.TemporaryDirectory()
        cls.servers = Servers(Path(cls.folder.name), hosts())

    @classmethod
    def tearDownClass(cls):
        cls.servers.close()
        cls.folder.cleanup()

    def play(self, kind):
        """Plays each row that needs no other call."""
        pytest.importorskip(kind.needs)
        chosen = [row for row in ROWS if {step.call for step in row.steps} <= CALLS]
        assert len(chosen) > 20
        for row in chosen:
            with self.subTest(row=row.title), resolved(self.servers):
                player = ByClient(kind, self.servers)
                try:
                    assert faults_of(row, player) == []
                finally:
                    player.client.close()


def player_of(kind):
    """The test of a client."""
    def test(self):
        self.play(kind)

    test.__doc__ = f"{kind.__doc__} sends what the rows say."
    return test


for kind in CLIENTS:
    setattr(Rows, f"test_{kind.__name__.lower()}", player_of(kind))
