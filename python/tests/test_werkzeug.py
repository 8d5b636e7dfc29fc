"""Facts about `deomigal.werkzeug`. Those of Werkzeug are in our words, with the test that says them (Werkzeug 3.1.3,
tests/test_http.py). What is drawn is compared with the Werkzeug that is installed."""
import datetime
import random
import unittest
import warnings

import pytest
from deomigal import decoded_pairs, read_decoded_cookie
from deomigal.errors import EmptyName, InvalidValue, NoDate
from helpers import disguised, not_shared

pytest.importorskip("werkzeug")

from deomigal.werkzeug import ALLOWED, dump_cookie, parse_cookie
from werkzeug.datastructures import Headers, MultiDict
from werkzeug.http import dump_cookie as werkzeugs_dump
from werkzeug.http import parse_cookie as werkzeugs_parse

SNOWMAN = "\N{SNOWMAN}"
PLAIN = ALLOWED + "".join(map(chr, (*range(48, 58), *range(65, 91), *range(97, 123))))


class Werkzeugs(unittest.TestCase):
    """Werkzeug's own tests."""

    def test_parse_cookie(self):
        """test_parse_cookie: names and values of a header that has odd ones. The `;` in quotes is the next fact's."""
        header = (
            "dismiss-top=6; CP=null*; PHPSESSID=0a539d42abc001cdc762809248d4beed;a=42; ; fo234{=bar;blub=Blah; "
            '"__Secure-c"=d;==__Host-eq=bad;__Host-eq=good;'
        )
        assert parse_cookie(header).to_dict() == {
            "CP": "null*",
            "PHPSESSID": "0a539d42abc001cdc762809248d4beed",
            "a": "42",
            "dismiss-top": "6",
            "fo234{": "bar",
            "blub": "Blah",
            '"__Secure-c"': "d",
            "__Host-eq": "good",
        }

    @not_shared("`;` ends a value, in quotes too (RFC 6265 4.1.1, 5.2)")
    def test_parse_cookie_semicolon(self):
        r"""test_parse_cookie: `b="\";"` is `";`."""
        assert parse_cookie(r'a=1; b="\";"')["b"] == '";'

    def test_dump_cookie(self):
        """test_dump_cookie: the attributes, and values with `/` and `=` as they are. The blanks are the next fact's."""
        text = dump_cookie("foo", "bar", 360, httponly=True, sync_expires=False)
        assert set(text.split("; ")) == {"HttpOnly", "Max-Age=360", "Path=/", "foo=bar"}
        assert dump_cookie("key", "xxx/") == "key=xxx/; Path=/"
        assert dump_cookie("key", "xxx=", path=None) == "key=xxx="

    @not_shared("a value has no blank, in quotes neither (RFC 6265 4.1.1): it is `foo=bar%20baz%20blub`")
    def test_dump_cookie_blanks(self):
        """test_dump_cookie: `bar baz blub` is printed in quotes."""
        assert dump_cookie("foo", "bar baz blub", path=None) == 'foo="bar baz blub"'

    def test_bad_cookies(self):
        """test_bad_cookies: blanks around names and values are dropped, and the values of a name keep their order. The
        piece without `=` is the next fact's."""
        cookies = parse_cookie("first=IamTheFirst ; a=1; a=2 ;second = andMeTwo;")
        assert cookies.to_dict(flat=False) == {"first": ["IamTheFirst"], "a": ["1", "2"], "second": ["andMeTwo"]}
        assert (cookies["a"], cookies.getlist("a")) == ("1", ["1", "2"])

    @not_shared("a piece without `=` is no cookie (RFC 6265 4.2.1)")
    def test_bad_cookies_nameless(self):
        """test_bad_cookies: `oops` is a cookie without a value."""
        assert parse_cookie("a=1; oops ; b=2")["oops"] == ""

    def test_empty_keys_are_ignored(self):
        """test_empty_keys_are_ignored: empty pieces count for nothing."""
        assert parse_cookie("spam=ham; duck=mallard; ; ").to_dict() == {"spam": "ham", "duck": "mallard"}

    def test_cookie_quoting(self):
        r"""test_cookie_quoting: `?` is printed as it is, and `\054` in quotes is a comma."""
        text = dump_cookie("foo", "?foo")
        assert (text, parse_cookie(text)["foo"]) == ("foo=?foo; Path=/", "?foo")
        assert parse_cookie(r'foo="foo\054bar"')["foo"] == "foo,bar"

    def test_parse_set_cookie_directive(self):
        """test_parse_set_cookie_directive: values in quotes come without them."""
        assert parse_cookie('foo="?foo"; version="0.1";').to_dict() == {"foo": "?foo", "version": "0.1"}

    def test_cookie_domain(self):
        """test_cookie_domain_resolving, test_cookie_domain_encoding: a domain outside ASCII is printed in Punycode."""
        assert dump_cookie("foo", "bar", domain=SNOWMAN + ".com") == "foo=bar; Domain=xn--n3h.com; Path=/"
        assert dump_cookie("foo", "bar", domain="foo.com") == "foo=bar; Domain=foo.com; Path=/"

    def test_cookie_unicode_dumping(self):
        """test_cookie_unicode_dumping: a value outside ASCII is read back, also as Werkzeug prints it."""
        headers = Headers()
        headers.add("Set-Cookie", dump_cookie("foo", SNOWMAN))
        for text in (headers["Set-Cookie"], 'foo="\\342\\230\\203"; Path=/'):
            assert parse_cookie(text)["foo"] == SNOWMAN

    @not_shared(r"a value has no `\` (RFC 6265 4.1.1): it is `foo=%E2%98%83`")
    def test_cookie_unicode_dumping_text(self):
        """test_cookie_unicode_dumping: the value is printed in quotes, with escapes by a backslash."""
        assert dump_cookie("foo", SNOWMAN) == 'foo="\\342\\230\\203"; Path=/'

    def test_cookie_unicode_keys(self):
        """test_cookie_unicode_keys: a name outside ASCII is read back."""
        assert parse_cookie(dump_cookie("f\u00f6", "f\u00f6"))["f\u00f6"] == "f\u00f6"

    @not_shared("a name has ASCII only (RFC 6265 4.1.1): it is `f%C3%B6=f%C3%B6`")
    def test_cookie_unicode_keys_text(self):
        """test_cookie_unicode_keys: the name is printed as it is."""
        assert dump_cookie("f\u00f6", "f\u00f6").startswith("f\u00f6=")

    def test_cookie_unicode_parsing(self):
        """test_cookie_unicode_parsing: bytes of UTF-8 are read, as Firefox sends them."""
        assert parse_cookie("f\u00f6=f\u00f6".encode().decode("latin-1"))["f\u00f6"] == "f\u00f6"

    def test_cookie_maxsize(self):
        """test_cookie_maxsize: past 4,093 bytes, or another limit, there is a warning."""
        with warnings.catch_warnings():
            warnings.simplefilter("error")
            assert len(dump_cookie("foo", "bar" * 1360 + "b")) == 4093
            dump_cookie("foo", "x" * 5000, max_size=0)
        with pytest.warns(UserWarning, match="cookie is too large"):
            dump_cookie("foo", "bar" * 1360 + "ba")
        with pytest.warns(UserWarning, match="the limit is 512 bytes"):
            dump_cookie("foo", "w" * 501, max_size=512)

    def test_cookie_samesite_attribute(self):
        """test_cookie_samesite_attribute: the rules, in any letters."""
        for rule, text in (("strict", "foo=bar; SameSite=Strict"), ("lax", "foo=bar; SameSite=Lax"), (None, "foo=bar")):
            assert dump_cookie("foo", "bar", samesite=rule, path=None) == text
        assert dump_cookie("foo", "bar", samesite="none", secure=True, path=None) == "foo=bar; Secure; SameSite=None"

    @not_shared("a browser drops `SameSite=None` without `Secure` (RFC 6265bis 5.7): `Secure` is printed too")
    def test_cookie_samesite_none(self):
        """test_cookie_samesite_attribute: `SameSite=None` is printed by itself."""
        assert dump_cookie("foo", "bar", samesite="none", path=None) == "foo=bar; SameSite=None"

    def test_cookie_samesite_invalid(self):
        """test_cookie_samesite_invalid: another rule raises `ValueError`."""
        for rule in ("invalid", ""):
            with pytest.raises(ValueError):
                dump_cookie("foo", "bar", samesite=rule)

    def test_cookie_partitioned(self):
        """test_cookie_partitioned, test_cookie_partitioned_sets_secure: a partitioned cookie is secure."""
        for secure in (True, False):
            text = dump_cookie("foo", "bar", partitioned=True, secure=secure)
            assert text == "foo=bar; Secure; Path=/; Partitioned"


class Facts(unittest.TestCase):
    """Facts about `deomigal.werkzeug`."""

    def test_same_text(self):
        """What RFC 6265 allows in a value is printed as Werkzeug prints it, and read as Werkzeug reads it."""
        generator = random.Random(1)
        for _ in range(2000):
            value = "".join(generator.choice(PLAIN) for _ in range(generator.randrange(20)))
            assert parse_cookie(f"a={value}").to_dict() == werkzeugs_parse(f"a={value}").to_dict()
            assert dump_cookie("a", value) == f"a={value}; Path=/"

    def test_same_attributes(self):
        """Attributes are printed as Werkzeug prints them, in its order."""
        date = datetime.datetime(2015, 10, 21, 7, 28, tzinfo=datetime.timezone.utc)
        for words in (
            {"max_age": 60, "sync_expires": False},
            {"max_age": datetime.timedelta(minutes=1), "sync_expires": False},
            {"expires": date},
            {"expires": 1445412480},
            {"expires": 1445412480.5},
            {"max_age": 1, "expires": 0},
            {"expires": "Wed, 21 Oct 2015 07:28:00 GMT"},
            {"domain": "a.example", "secure": True, "httponly": True},
            {"path": "/a b\u00e9%20"},
            {"path": None},
            {"path": "/a/(b)!*'"},
            {"domain": "a.example:8080"},
            {"samesite": "Lax"},
        ):
            assert dump_cookie("a", "b", **words) == werkzeugs_dump("a", "b", **words), words

    def test_read_back(self):
        """Each value is read back, by the library's own calls too."""
        generator = random.Random(2)
        for _ in range(2000):
            name, value = (
                "".join(
                    chr(generator.choice((generator.randrange(1, 128), generator.randrange(1, 0xD800))))
                    for _ in range(generator.randrange(1, 9))
                )
                for _ in range(2)
            )
            text = dump_cookie(name, value)
            assert text.isascii() and text.isprintable() and text.count(";") == 1, text
            assert parse_cookie(text.partition(";")[0]).to_dict() == {name: value}
            assert read_decoded_cookie(text)[:2] == (name, value)

    def test_werkzeugs_text(self):
        """What Werkzeug printed is read, but for escapes by `%`, which Werkzeug leaves."""
        generator = random.Random(3)
        for _ in range(2000):
            value = "".join(generator.choice(PLAIN + ' ",\\\u00e9\t') for _ in range(generator.randrange(20)))
            text = werkzeugs_dump("a", value, path=None)
            if ";" not in text:
                assert parse_cookie(text)["a"] == value

    def test_quotes(self):
        """With `keep_quotes` a value comes as it is (RFC 6265 5.4)."""
        assert parse_cookie(r'a="b\054c"; d=e%20f', keep_quotes=True).to_dict() == {"a": r'"b\054c"', "d": "e f"}

    def test_headers(self):
        """A header is a text, bytes, an environment of WSGI, or none, and the class is any of pairs."""
        for header in ("a=1", b"a=1", {"HTTP_COOKIE": "a=1"}):
            assert parse_cookie(header, dict) == {"a": "1"}
        for header in (None, "", {}, {"HTTP_COOKIE": ""}):
            assert parse_cookie(header) == MultiDict()

    def test_bad_headers(self):
        """What isn't UTF-8 is left out, and nothing raises."""
        for header in (b"\xff=1; a=1", b"a=1; b=\xff", "a=1; b=%ff", "a=1; \u2603", 'a=1; b="\\377"', "a=1; \udcff=1"):
            assert parse_cookie(header).to_dict() == {"a": "1"}, header

    def test_disguised(self):
        """A name that another host of the domain disguised is left out, as the library does."""
        for pair in disguised("__Host-a=1"):
            header = pair.encode().decode("latin-1")
            assert parse_cookie(header).to_dict() == {}, pair
            assert list(decoded_pairs(pair)) == []

    def test_one_header(self):
        """No argument splits the header (RFC 6265 4.1.1)."""
        for words, refusal in (
            ({"domain": "b.example; Path=/"}, InvalidValue),
            ({"domain": "b\r\nSet-Cookie: a=1"}, ValueError),
            ({"expires": "x\r\nSet-Cookie: a=1"}, NoDate),
            ({"samesite": "Lax; Path=/"}, ValueError),
        ):
            with pytest.raises(refusal):
                dump_cookie("a", "b", **words)
        for words in ({"key": "a\r\nb;"}, {"value": "a\r\nb;"}, {"path": "/a\r\nb; c"}):
            text = dump_cookie(**{"key": "a", **words})
            assert text.isprintable() and text.count(";") == 1, text
        with pytest.raises(EmptyName):
            dump_cookie("", "b")
