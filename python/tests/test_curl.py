"""Facts about the files of curl and of an agent: both read what both write (cookies.txt)."""
import shutil
import subprocess
import tempfile
import unittest
from pathlib import Path

import pytest
from clients import Urllib
from deomigal import Agent
from deomigal.agents import NETSCAPE
from server import Servers, resolved

HOSTS = "shop.example www.shop.example deep.www.shop.example other.example 127.0.0.1".split()
FAR = "Expires=Wed, 21 Oct 2099 07:28:00 GMT"
# Responses with scopes, removals, expiries and prefixes, on which RFC 6265bis and curl 7.88 agree.
RESPONSES = [
    ("https://shop.example/", "session=abc; Path=/; Secure; HttpOnly"),
    ("https://shop.example/", "lang=en; Max-Age=86400"),
    ("https://shop.example/cart/view", "folder=1"),
    ("https://shop.example/cart/view", "whole=2; Path=/"),
    ("https://shop.example/cart/view", "part=3; Path=/cart/view"),
    ("https://www.shop.example/", "host=4"),
    ("https://www.shop.example/", "wide=5; Domain=shop.example; Path=/"),
    ("https://www.shop.example/", "dotted=6; Domain=.shop.example; Path=/"),
    ("https://www.shop.example/", "up=7; Domain=SHOP.EXAMPLE; Path=/; " + FAR),
    ("https://www.shop.example/", "own=8; Domain=www.shop.example; Path=/"),
    ("https://shop.example/", "foreign=9; Domain=other.example"),
    ("https://shop.example/", "below=10; Domain=www.shop.example"),
    ("https://shop.example/", "tld=11; Domain=example"),
    ("http://shop.example/", "plain=12"),
    ("http://shop.example/", "refused=13; Secure"),
    ("https://shop.example/", "over=14; Secure; Path=/; " + FAR),
    ("http://shop.example/", "over=15; Path=/"),
    ("https://shop.example/", "__Host-a=16; Secure; Path=/"),
    ("https://shop.example/cart/", "__Host-b=17; Secure"),
    ("https://shop.example/", "__Host-c=18; Secure; Path=/; Domain=shop.example"),
    ("https://shop.example/", "__Secure-d=19; Secure; " + FAR),
    ("https://shop.example/", "__Secure-e=20"),
    ("https://shop.example/", "gone=21; Path=/"),
    ("https://shop.example/", "gone=; Path=/; Max-Age=0"),
    ("https://shop.example/", "old=22; Path=/x; " + FAR),
    ("https://shop.example/", "old=; Path=/x; Expires=Thu, 1 Jan 1970 00:00:00 GMT"),
    ("https://shop.example/", "kept=23; Path=/"),
    ("https://shop.example/cart/", "kept=; Max-Age=0"),
    ("https://shop.example/", "quoted=\"2 4\"; Path=/"),
    ("https://shop.example/", "twice=25; Path=/; Max-Age=5; Max-Age=99"),
    ("http://127.0.0.1/", "address=26"),
    ("http://127.0.0.1/", "tail=27; Domain=0.0.1"),
    ("https://other.example/", "empty="),
    ("https://other.example/", "signs=a=b&c/+%20!; Path=/"),
]
# curl writes the default path with a slash after it, though it sends such a cookie to /cart too. So that isn't asked.
URLS = [
    "https://shop.example/", "http://shop.example/", "https://shop.example/cart/", "https://shop.example/cart/view",
    "https://shop.example/cart/view/all", "https://shop.example/cartoon", "https://shop.example/x", "https://www.shop.example/",
    "http://www.shop.example/", "https://deep.www.shop.example/", "https://other.example/", "http://127.0.0.1/",
]


class Curl:
    """curl with a file of cookies."""

    def __init__(self, servers, path):
        self.command = ["curl", "-sS", "--noproxy", "*", "--cacert", servers.certificate[0]]
        for port in (80, 443):
            self.command += ["--connect-to", f":{port}:127.0.0.1:{servers.port(port)}"]
        self.command += ["-b", path]
        self.path = path

    def ask(self, url, writes=True):
        subprocess.run([*self.command, *(["-c", self.path] * writes), url], check=True)


def pairs(header):
    """The cookies of a header, in any order, since curl's is another."""
    return sorted((header or b"").split(b"; "))


@pytest.mark.skipif(not shutil.which("curl"), reason="no curl")
class CurlFacts(unittest.TestCase):
    maxDiff = None

    def setUp(self):
        folder = tempfile.TemporaryDirectory()
        self.addCleanup(folder.cleanup)
        self.folder = Path(folder.name)
        self.servers = Servers(self.folder, HOSTS)
        self.addCleanup(self.servers.close)

    def headers(self, ask):
        """What is sent to each URL."""
        self.servers.texts = []
        found = {}
        for url in URLS:
            ask(url)
            found[url] = pairs(self.servers.asked[-1][1])
        return found

    def play(self, ask):
        for url, text in RESPONSES:
            # An agent saves only cookies with an expiry.
            lasting = text if "Max-Age" in text or "Expires" in text else f"{text}; Max-Age=3600"
            self.servers.texts = [lasting.encode()]
            ask(url)

    def test_both(self):
        """After the same responses curl and an agent send the same, also with the file of the other."""
        theirs, ours = self.folder / "theirs", self.folder / "ours"
        theirs.touch()
        curl = Curl(self.servers, theirs)
        self.play(curl.ask)
        with resolved(self.servers), Agent(is_localhost_secure=False) as agent, Agent(is_localhost_secure=False) as other:
            client = Urllib(agent, self.servers.certificate[0])
            self.play(client.ask)
            agent.save(ours, NETSCAPE)
            other.load(theirs)
            wanted = self.headers(lambda url: curl.ask(url, writes=False))
            assert (sum(map(len, wanted.values())) > 40) == True, wanted
            assert self.headers(client.ask) == wanted
            assert self.headers(Urllib(other, self.servers.certificate[0]).ask) == wanted
            assert self.headers(lambda url: Curl(self.servers, ours).ask(url, writes=False)) == wanted
