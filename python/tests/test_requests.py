"""Facts on cookies and sessions of requests, after its own tests: tests/test_requests.py of requests 2.32.3, in our words.
A session is one of `session_of`, over a local server. The first words of each fact name the test."""
import copy
import tempfile
import unittest
from http.cookiejar import DefaultCookiePolicy
from pathlib import Path

import pytest
from clients import Requests
from deomigal import Agent
from deomigal.cookiejar import CookieJar
from helpers import not_shared

requests = pytest.importorskip("requests")

from deomigal.requests import session_of
from requests.cookies import CookieConflictError, create_cookie
from server import Servers, resolved

SHOP = "http://shop.example/"
NO_CALLER = "only what a response set is sent (RFC 6265bis, Retrieval Algorithm): have the agent read the caller's cookie"
NO_POLICY = "the rules are RFC 6265bis's, and a `CookiePolicy` has none to add"


class RequestsTests(unittest.TestCase):
    """requests' own tests."""

    @classmethod
    def setUpClass(cls):
        cls.folder = tempfile.TemporaryDirectory()
        cls.servers = Servers(Path(cls.folder.name), ["shop.example", "other.example"])

    @classmethod
    def tearDownClass(cls):
        cls.servers.close()
        cls.folder.cleanup()

    def setUp(self):
        self.servers.asked, self.servers.answers, self.servers.texts = [], {}, []
        self.agent = Agent()
        client = Requests(self.agent, self.servers.certificate[0])
        self.session = client.session
        self.addCleanup(client.close)
        names = resolved(self.servers)
        names.__enter__()
        self.addCleanup(names.__exit__, None, None, None)

    def set_by_redirect(self, text):
        """Has the site set a cookie by the response that redirects."""
        self.servers.answers = {SHOP + "set": (302, [(b"Set-Cookie", text), (b"Location", b"/cookies")])}
        self.session.get(SHOP + "set")

    def sent(self):
        """The header of the last request."""
        return self.servers.asked[-1][1]

    def test_set_cookie_on_301(self):
        """test_set_cookie_on_301: what the response that redirects sets is in the session."""
        self.set_by_redirect(b"foo=bar; Path=/")
        assert self.session.cookies["foo"] == "bar"

    def test_cookie_sent_on_redirect(self):
        """test_cookie_sent_on_redirect: the request that a redirect makes sends the session's cookies."""
        self.set_by_redirect(b"foo=bar; Path=/")
        self.servers.answers = {SHOP + "redirect": (302, [(b"Location", b"/get")])}
        self.session.get(SHOP + "redirect")
        assert self.sent() == b"foo=bar"

    def test_cookie_removed_on_expire(self):
        """test_cookie_removed_on_expire: a cookie that is set again with an expiry of 1970 is no longer there."""
        self.set_by_redirect(b"foo=bar; Path=/")
        self.servers.texts = [b"foo=deleted; Path=/; expires=Thu, 01-Jan-1970 00:00:01 GMT"]
        self.session.get(SHOP + "expire")
        assert "foo" not in self.session.cookies

    def test_cookie_quote_wrapped(self):
        """test_cookie_quote_wrapped: quotes around a value stay."""
        self.set_by_redirect(b'foo="bar:baz"; Path=/')
        assert self.session.cookies["foo"] == '"bar:baz"'

    @not_shared(NO_CALLER)
    def test_cookie_persists_via_api(self):
        """test_cookie_persists_via_api: the caller's `cookies=` go to each host of a redirect."""
        self.servers.answers = {SHOP + "redirect": (302, [(b"Location", b"/get")])}
        self.session.get(SHOP + "redirect", cookies={"foo": "bar"})
        assert self.sent() == b"foo=bar"

    @not_shared(NO_CALLER)
    def test_request_cookie_overrides_session_cookie(self):
        """test_request_cookie_overrides_session_cookie: a cookie of `cookies=` takes the place of the session's."""
        self.set_by_redirect(b"foo=bar; Path=/")
        self.session.get(SHOP, cookies={"foo": "baz"})
        assert self.sent() == b"foo=baz"

    def test_request_cookies_not_persisted(self):
        """test_request_cookies_not_persisted: what the caller passes for a request isn't in the session afterwards."""
        self.session.get(SHOP, cookies={"foo": "baz"})
        assert not self.session.cookies

    def test_generic_cookiejar_works(self):
        """test_generic_cookiejar_works: another jar as the session's is sent, and stays. (Here its cookie has a host.)"""
        session, jar = requests.Session(), CookieJar(self.agent)
        session.trust_env, session.cookies = False, jar
        self.agent.read(SHOP, "foo=bar; Path=/")
        session.get(SHOP)
        assert (self.sent(), session.cookies) == (b"foo=bar", jar)
        session.close()

    def test_param_cookiejar_works(self):
        """test_param_cookiejar_works: a jar passed as `cookies=` is sent. (Here its cookie has a host.)"""
        self.agent.read(SHOP, "foo=bar; Path=/")
        with requests.Session() as session:
            session.trust_env = False
            session.get(SHOP, cookies=CookieJar(self.agent))
        assert self.sent() == b"foo=bar"

    def test_cookielib_cookiejar_on_redirect(self):
        """test_cookielib_cookiejar_on_redirect: a prepared request's jar is copied at a redirect, and the copy gets the
        session's cookies. (Here they have a host.)"""
        self.agent.read(SHOP, "foo=bar; Path=/")
        jar = CookieJar(self.agent)
        prepared = requests.Request("GET", SHOP + "go", cookies=jar).prepare()
        self.servers.answers = {SHOP + "go": (302, [(b"Location", b"/get")])}
        with requests.Session() as session:
            session.trust_env = False
            session.cookies.set("cookie", "tasty", domain="shop.example")
            response = session.send(prepared)
        assert prepared._cookies is jar
        assert isinstance(response.request._cookies, CookieJar)
        assert {each.name: each.value for each in response.request._cookies} == {"foo": "bar", "cookie": "tasty"}
        assert [cookie.name for cookie in self.agent] == ["foo"]

    def test_cookie_parameters(self):
        """test_cookie_parameters: a cookie that is set with `secure`, a domain and `HttpOnly` has them."""
        jar = self.session.cookies
        jar.set("some_cookie", "some_value", secure=True, domain="test.com", rest={"HttpOnly": True})
        assert (len(jar), "some_cookie" in jar) == (1, True)
        cookie, = jar
        assert (cookie.name, cookie.value, cookie.secure) == ("some_cookie", "some_value", True)
        assert (cookie.domain, cookie.has_nonstandard_attr("HttpOnly")) == (".test.com", True)

    def filled(self):
        """The session's jar with two cookies."""
        jar = self.session.cookies
        jar.set("some_cookie", "some_value", domain="test.com")
        jar.set("some_cookie1", "some_value1", domain="test.com")
        return jar

    def test_cookie_as_dict_keeps_len(self):
        """test_cookie_as_dict_keeps_len: as a dict a jar has the same cookies."""
        jar = self.filled()
        assert {len(jar), len(dict(jar)), len(dict(jar.iteritems())), len(dict(jar.items()))} == {2}

    def test_cookie_as_dict_keeps_items(self):
        """test_cookie_as_dict_keeps_items: with their values."""
        jar = self.filled()
        for found in (dict(jar), dict(jar.iteritems()), dict(jar.items())):
            assert found == {"some_cookie": "some_value", "some_cookie1": "some_value1"}

    def test_cookie_as_dict_keys(self):
        """test_cookie_as_dict_keys: `keys` can be walked twice."""
        keys = self.filled().keys()
        assert list(keys) == list(keys)

    def test_cookie_as_dict_values(self):
        """test_cookie_as_dict_values: and so can `values`."""
        values = self.filled().values()
        assert list(values) == list(values)

    def test_cookie_as_dict_items(self):
        """test_cookie_as_dict_items: and so can `items`."""
        items = self.filled().items()
        assert list(items) == list(items)

    def test_cookie_duplicate_names_different_domains(self):
        """test_cookie_duplicate_names_different_domains: two hosts have a cookie of one name, found by the domain.
        (It is shown with the dot of `http.cookiejar`.)"""
        jar = self.session.cookies
        jar.set("some_cookie", "one", domain="test1.com")
        jar.set("some_cookie", "two", domain="test2.com")
        assert "some_cookie" in jar
        assert len(list(jar.items())) == 2
        assert jar.get("some_cookie", domain=".test2.com") == "two"
        with pytest.raises(CookieConflictError):
            jar.get("some_cookie")

    def test_cookie_duplicate_names_raises_cookie_conflict_error(self):
        """test_cookie_duplicate_names_raises_cookie_conflict_error: without a domain it is an error."""
        jar = self.session.cookies
        jar.set("some_cookie", "one", path="/one", domain="test.com")
        jar.set("some_cookie", "two", path="/two", domain="test.com")
        with pytest.raises(CookieConflictError):
            jar.get("some_cookie")

    @not_shared(NO_POLICY)
    def test_cookie_policy_copy(self):
        """test_cookie_policy_copy: a copy of a jar has its policy."""
        jar, policy = CookieJar(Agent()), DefaultCookiePolicy()
        jar.set_policy(policy)
        assert jar.copy().get_policy() is policy

    def test_prepared_copy(self):
        """test_prepared_copy: a copy of a prepared request has the same cookies."""
        self.agent.read(SHOP, "foo=bar; Path=/")
        prepared = requests.Request("GET", SHOP, cookies=CookieJar(self.agent)).prepare()
        other = prepared.copy()
        shown = [[(each.name, each.value, each.domain) for each in one._cookies] for one in (prepared, other)]
        assert shown[0] == [("foo", "bar", "shop.example")]
        assert shown[0] == shown[1]

    def test_DIGEST_AUTH_SETS_SESSION_COOKIES(self):
        """test_DIGEST_AUTH_SETS_SESSION_COOKIES: what a 401 sets is in the session, and sent with the answer to it."""
        challenge = b'Digest realm="shop", nonce="abc", qop="auth"'
        fields = [(b"Set-Cookie", b"fake=fake_value"), (b"WWW-Authenticate", challenge)]
        self.servers.answers = {SHOP + "digest": (401, fields)}
        self.session.get(SHOP + "digest", auth=requests.auth.HTTPDigestAuth("user", "pass"))
        assert self.session.cookies["fake"] == "fake_value"
        assert self.sent() == b"fake=fake_value"

    def test_DIGEST_AUTH_RETURNS_COOKIE(self):
        """test_DIGEST_AUTH_RETURNS_COOKIE: a response has the cookies that it sets."""
        self.servers.texts = [b"fake=fake_value"]
        assert self.session.get(SHOP).cookies["fake"] == "fake_value"


class More(unittest.TestCase):
    """Facts on `session.cookies` and on copies of a jar that no test of requests is of."""

    def test_without_a_host(self):
        """A cookie without a host isn't stored."""
        session = session_of(Agent())
        with pytest.raises(ValueError, match="all hosts"):
            session.cookies["foo"] = "bar"
        with pytest.raises(ValueError, match="all hosts"):
            session.cookies.set_cookie(create_cookie("foo", "bar"))
        assert len(session.cookies) == 0
        session.cookies["foo"] = None
        with pytest.raises(KeyError):
            session.cookies["foo"]

    def test_other_adapters(self):
        """What another adapter sends has none of the agent's cookies."""
        session = session_of()
        session.cookies.set("a", "1", domain="shop.example")
        prepared = session.prepare_request(requests.Request("GET", SHOP))
        assert "Cookie" not in prepared.headers

    def test_copy(self):
        """A copy has an agent of its own: to clear it leaves the jar, and each cookie is as it was."""
        agent = Agent(per_domain=7, clock=lambda: 2_000_000_000)
        for text in ("a=1; Domain=shop.example; Secure; Max-Age=60", "b=2\tx; HttpOnly; SameSite=Strict", "=c", "__Host-d=4; Path=/; Secure"):
            assert agent.read("https://shop.example/x/y", text) is None
        agent.read("https://127.0.0.1/", "e=5")
        agent.read("https://localhost/", "f=6")
        jar = CookieJar(agent)
        for other in (jar.copy(), copy.copy(jar)):
            assert list(other.agent) == list(agent)
            assert other.agent.limits == (7, 21, 3000)
            other.clear()
            assert (len(other), len(agent)) == (0, 6)

    def test_policy(self):
        """A policy isn't taken."""
        with pytest.raises(TypeError):
            CookieJar(Agent()).set_policy(DefaultCookiePolicy())
