"""Facts about `deomigal.django`. `tests/play suites` plays Django's own tests."""
import asyncio
import datetime
import json
from unittest import mock

import pytest
from helpers import NOON, OLDER, SECRET, age_of, damaged, disguised, pair_of

pytest.importorskip("django")

import django_site  # noqa: F401
from deomigal import Sessions
from deomigal import django as engine
from deomigal.errors import BadPrefix, InvalidValue, MasterTooShort, RevocationsError, TooLarge
from deomigal.revocations import MemoryRevocations
from deomigal.secrets import derive_key
from django.conf import settings
from django.contrib.auth import login
from django.contrib.auth.models import User
from django.contrib.sessions.middleware import SessionMiddleware as DjangoMiddleware
from django.http import HttpResponse, JsonResponse
from django.test import Client, RequestFactory, SimpleTestCase, override_settings
from django.urls import re_path

urlpatterns = []
PICKLES = "django_site.Pickles"


def change(session, path):
    """What a path does to the session of its request."""
    changes = {
        "/set": lambda: session.update({"user": "ann"}),
        "/bo": lambda: session.update({"user": "bo"}),
        "/large": lambda: session.update({"text": "x" * 5000}),
        "/room": lambda: session.update({"text": "x" * 2800}),
        "/flush": session.flush,
        "/cycle": session.cycle_key,
        "/short": lambda: (session.update({"user": "ann"}), session.set_expiry(60)),
        "/long": lambda: (session.update({"user": "ann"}), session.set_expiry(2 * settings.SESSION_COOKIE_AGE)),
        "/until": lambda: (
            session.update({"user": "ann"}),
            session.set_expiry(datetime.datetime.fromtimestamp(NOON + 60, datetime.timezone.utc)),
        ),
    }
    changes.get(path, lambda: None)()


def page(request):
    """Changes the session, and shows it."""
    change(request.session, request.path)
    return JsonResponse(dict(request.session.items()), json_dumps_params={"default": str})


class Broken(MemoryRevocations):
    """Revocations that can't be looked up, or not be kept."""

    def is_revoked(self, id):
        raise OSError("the store is gone")


class Full(MemoryRevocations):
    def revoke(self, id, until):
        raise OSError("the store is full")


def swallow(request, *_, **__):
    """Takes any error of the session for none."""
    try:
        request.session.get("user")
    except Exception:
        pass
    return JsonResponse({})


def told(request):
    """Says itself that a logout failed."""
    try:
        request.session.flush()
    except RevocationsError:
        return HttpResponse("not logged out", status=500)
    return HttpResponse("logged out")


class Reading:
    """A middleware that uses the session before the view."""

    def __init__(self, get_response):
        self.get_response = get_response

    def __call__(self, request):
        request.session.get("user")
        return self.get_response(request)


class ReadingView(Reading):
    """One that uses it when the view is found."""

    def __call__(self, request):
        return self.get_response(request)

    def process_view(self, request, *_):
        request.session.get("user")


class Flushing(Reading):
    """One that logs out."""

    def __call__(self, request):
        request.session.flush()
        return self.get_response(request)


class EngineFacts(SimpleTestCase):
    """Facts about `deomigal.django`."""

    def ask(self, path, cookie=None, now=NOON):
        """The values of the session, and the text of the cookie that is set, if any."""
        fields = {} if cookie is None else {"HTTP_COOKIE": cookie.encode().decode("latin-1")}
        with mock.patch("time.time", lambda: now):
            response = engine.SessionMiddleware(page)(RequestFactory().get(path, **fields))
        set_cookie = response.cookies.get(settings.SESSION_COOKIE_NAME)
        values = {name: value for name, value in json.loads(response.content).items() if name != "_session_expiry"}
        return values, set_cookie and set_cookie.OutputString()

    def cookie_set_by(self, path="/set", **words):
        return pair_of(self.ask(path, **words)[1])

    def reads(self, cookie, values, now=NOON):
        assert self.ask("/", cookie, now)[0] == values

    def test_values(self):
        """A session has what was put in, and the cookie doesn't show it."""
        text = self.ask("/set")[1]
        assert "ann" not in text
        assert age_of(text) == settings.SESSION_COOKIE_AGE
        self.reads(pair_of(text), {"user": "ann"})
        assert self.ask("/", pair_of(text))[1] is None

    def test_damaged(self):
        """A damaged cookie is an empty session, and no error. Django has it dropped."""
        for pair in damaged(self.cookie_set_by()):
            values, text = self.ask("/", pair)
            assert (values, age_of(text or "; Max-Age=0")) == ({}, 0), pair

    def test_other_name_or_key(self):
        """A session doesn't open under another name or another key, nor does one that `Sessions` or Flask saved."""
        value = self.cookie_set_by().partition("=")[2]
        with override_settings(SESSION_COOKIE_NAME="other"):
            self.reads(f"other={value}", {})
        with override_settings(SECRET_KEY=OLDER):
            self.reads(f"sessionid={value}", {})
        sessions = Sessions([derive_key(SECRET.encode())], "sessionid", 1000, 1000)
        session = sessions.start(NOON)
        session["j"] = '{"user":"mallory"}'
        self.reads(pair_of(sessions.save(session)), {})

    def test_fallbacks(self):
        """An older key opens a session (Django 4.1: SECRET_KEY_FALLBACKS). A saved one is under the newest."""
        with override_settings(SECRET_KEY=OLDER):
            cookie = self.cookie_set_by()
        self.reads(cookie, {})
        with override_settings(SECRET_KEY_FALLBACKS=[OLDER]):
            self.reads(cookie, {"user": "ann"})
            saved = self.cookie_set_by("/bo", cookie=cookie)
        self.reads(saved, {"user": "bo"})

    def test_lifetime(self):
        """A session is over SESSION_COOKIE_AGE after its start. `cycle_key`, which a login calls, starts it anew."""
        age = settings.SESSION_COOKIE_AGE
        cookie = self.cookie_set_by()
        self.reads(cookie, {"user": "ann"}, NOON + age - 1)
        self.reads(cookie, {}, NOON + age)
        changed, cycled = (self.cookie_set_by(path, cookie=cookie, now=NOON + age - 1) for path in ("/bo", "/cycle"))
        self.reads(changed, {}, NOON + age)
        self.reads(cycled, {"user": "ann"}, NOON + age)
        self.reads(cycled, {}, NOON + 2 * age - 1)

    def test_longer_lifetime(self):
        """With a longer DEOMIGAL_LIFETIME the age counts from the last save, as in Django, up to that lifetime."""
        age = settings.SESSION_COOKIE_AGE
        with override_settings(DEOMIGAL_LIFETIME=3 * age):
            cookie = self.cookie_set_by()
            self.reads(cookie, {}, NOON + age)
            changed = self.cookie_set_by("/bo", cookie=cookie, now=NOON + age - 1)
            self.reads(changed, {"user": "bo"}, NOON + 2 * age - 2)
            self.reads(changed, {}, NOON + 2 * age - 1)
            long = self.cookie_set_by("/long")
            self.reads(long, {"user": "ann"}, NOON + 2 * age - 1)
            self.reads(long, {}, NOON + 2 * age)

    def test_own_expiry(self):
        """The server checks what `set_expiry` set. Django's signed cookies don't (its ticket 19201)."""
        short = self.cookie_set_by("/short")
        self.reads(short, {"user": "ann"}, NOON + 59)
        self.reads(short, {}, NOON + 60)
        with override_settings(SESSION_SERIALIZER=PICKLES):
            until = self.cookie_set_by("/until", now=NOON - 60)
            self.reads(until, {"user": "ann"}, NOON + 59)
            self.reads(until, {}, NOON + 60)

    def test_other_serializer(self):
        """A session that another serializer made is empty."""
        with override_settings(SESSION_SERIALIZER=PICKLES):
            cookie = self.cookie_set_by()
            self.reads(cookie, {"user": "ann"})
        self.reads(cookie, {})

    def test_login(self):
        """Django's login starts the session anew, for a visitor who had one just before its end."""
        request, end = RequestFactory().get("/"), NOON + settings.SESSION_COOKIE_AGE
        cookie = self.cookie_set_by()
        with mock.patch("time.time", lambda: end - 1), mock.patch("django.contrib.auth.user_logged_in.send"):
            request.session = engine.SessionStore(cookie.partition("=")[2])
            login(request, User(pk=1, username="ann"), "django.contrib.auth.backends.ModelBackend")
            request.session.save()
        values = self.ask("/", f"sessionid={request.session.session_key}", end)[0]
        assert (values["user"], values["_auth_user_id"]) == ("ann", "1")

    def test_flush(self):
        """A session that was flushed has its cookie dropped."""
        assert age_of(self.ask("/flush", self.cookie_set_by())[1]) == 0

    def test_room(self):
        """2,800 letters have room."""
        self.reads(self.cookie_set_by("/room"), {"text": "x" * 2800})

    def test_too_large(self):
        """A session that no browser would store raises `TooLarge`."""
        with pytest.raises(TooLarge):
            self.ask("/large")

    def test_settings(self):
        """Settings that no session could be saved with are refused when the middleware is made."""
        for refusal, changed in (
            (MasterTooShort, {"SECRET_KEY": "short"}),
            (MasterTooShort, {"SECRET_KEY_FALLBACKS": ["short"]}),
            (BadPrefix, {"SESSION_COOKIE_NAME": "__Host-session"}),
            (InvalidValue, {"SESSION_COOKIE_PATH": "/\r\nSet-Cookie: a=1"}),
        ):
            with override_settings(**changed), pytest.raises(refusal):
                engine.SessionMiddleware(lambda request: None)

    @override_settings(SESSION_COOKIE_NAME="__Host-session", SESSION_COOKIE_SECURE=True)
    def test_djangos_middleware(self):
        """Django's own middleware takes a cookie whose name has other white space around it for the session's."""
        request = RequestFactory().get("/", HTTP_COOKIE=f"\u2003{self.cookie_set_by()}".encode().decode("latin-1"))
        for middleware, key_is_found in ((DjangoMiddleware, True), (engine.SessionMiddleware, False)):
            middleware(lambda request: None).process_request(request)
            assert (request.session.session_key is not None) == key_is_found

    @override_settings(SESSION_COOKIE_NAME="__Host-session", SESSION_COOKIE_SECURE=True)
    def test_disguised(self):
        """A session under a disguised name isn't taken, before or after the user's own (RFC 6265bis 4.1.3)."""
        ann, mallory = self.cookie_set_by(), self.cookie_set_by("/bo")
        for pair in disguised(mallory):
            self.reads(pair, {})
            self.reads(f"{pair}; {ann}", {"user": "ann"})
            self.reads(f"{ann}; {pair}", {"user": "ann"})

    def test_several(self):
        """Of several cookies of the name the first that holds an open session counts."""
        ann, bo = self.cookie_set_by(), self.cookie_set_by("/bo")
        self.reads(f"sessionid=junk; {ann}; {bo}", {"user": "ann"})
        self.reads("sessionid=junk; sessionid=junk", {})

    def test_revoked(self):
        """With DEOMIGAL_REVOCATIONS a session that was flushed opens in no copy of its cookie. `cycle_key` revokes the one
        of before. A revoked cookie that another host planted hides no good one."""
        with override_settings(DEOMIGAL_REVOCATIONS=MemoryRevocations()):
            first, other = self.cookie_set_by(), self.cookie_set_by("/bo")
            later = self.cookie_set_by(cookie=first)
            assert age_of(self.ask("/flush", first)[1]) == 0
            for cookie in (first, later):
                self.reads(cookie, {})
                self.reads(f"{cookie}; {other}", {"user": "bo"})
                self.reads(f"{other}; {cookie}", {"user": "bo"})
            cycled = self.cookie_set_by("/cycle", cookie=other)
            self.reads(cycled, {"user": "bo"})
            self.reads(other, {})
            with mock.patch("time.time", lambda: NOON):
                session = engine.SessionStore(cycled.partition("=")[2])
                assert session["user"] == "bo"
                assert [session.revoke(), session.revoke()] == [True, False]

    def test_asked_once(self):
        """A request with many cookies of the name asks the store once, and one that doesn't use its session not at all."""
        store = MemoryRevocations()
        with override_settings(DEOMIGAL_REVOCATIONS=store):
            cookies = [self.cookie_set_by() for _ in range(20)]
            good = self.cookie_set_by("/bo")
            for cookie in cookies:
                self.ask("/flush", cookie)
            header = "; ".join(["sessionid=junk", *cookies, good, "sessionid=junk"])
            with mock.patch.object(store, "are_revoked", wraps=store.are_revoked) as asked:
                engine.SessionMiddleware(lambda request: HttpResponse())(RequestFactory().get("/", HTTP_COOKIE=header))
                assert asked.call_count == 0
                self.reads(header, {"user": "bo"})
                assert asked.call_count == 1
            assert age_of(self.ask("/flush", header)[1]) == 0
            self.reads(header, {})

    def test_in_flight(self):
        """A request that is under way at the logout doesn't log the user in again."""
        with override_settings(DEOMIGAL_REVOCATIONS=MemoryRevocations()):
            cookie = self.cookie_set_by()

            def slow(request):
                request.session["late"] = len(request.session["user"])
                self.ask("/flush", cookie)
                return JsonResponse({})

            with mock.patch("time.time", lambda: NOON):
                response = engine.SessionMiddleware(slow)(RequestFactory().get("/", HTTP_COOKIE=cookie))
            late = response.cookies["sessionid"]
            assert len(late.value) > 100
            self.reads(f"sessionid={late.value}", {})

    def test_store_that_fails(self):
        """If the revocations fail, the status is 503, and no session is saved. A request without a session is answered."""
        cookie = self.cookie_set_by()
        for kind, found in ((Broken, [503, 503, 503, 200]), (Full, [200, 503, 503, 200])):
            asked = [("/", cookie), ("/flush", cookie), ("/cycle", f"{cookie}; sessionid=junk"), ("/", None)]
            for save in (False, True):
                settings_of = {"DEOMIGAL_REVOCATIONS": kind(), "SESSION_SAVE_EVERY_REQUEST": save}
                with override_settings(ROOT_URLCONF=(re_path("", page),), **settings_of):
                    for (path, text), status in zip(asked, found):
                        with mock.patch("time.time", lambda: NOON):
                            client = Client(raise_request_exception=False)
                            response = client.get(path, **({"HTTP_COOKIE": text} if text else {}))
                        assert response.status_code == status, (kind, path, save)
                        assert not (status == 503 and response.cookies), (kind, path)

    def answers(self, paths, view=page, middleware=(), handler404=None, **words):
        """The statuses and the logged causes of requests with a session, while the store fails."""
        own, handlers = [*settings.MIDDLEWARE, *middleware], {"handler404": staticmethod(handler404)} if handler404 else {}
        urls = type("Urls", (), {"urlpatterns": [re_path("^$|^flush$", view)], **handlers})
        with override_settings(ROOT_URLCONF=urls, MIDDLEWARE=own, **words):
            client = Client(raise_request_exception=False)
            client.cookies["sessionid"] = self.cookie_set_by().partition("=")[2]
            with mock.patch("time.time", lambda: NOON), self.assertLogs("deomigal") as logs:
                found = [client.get(path) for path in paths]
        assert not any(response.status_code == 503 and response.cookies for response in found)
        return [response.status_code for response in found], ["the store is" in line for line in logs.output]

    def test_failures_elsewhere(self):
        """The status is 503 also if a middleware uses the session, or Django's protection of forms, or an error page, and
        it is logged once each time with its cause."""
        for words in (
            {"middleware": ["test_django.Reading"]},
            {"middleware": ["test_django.ReadingView"]},
            {"middleware": ["django.middleware.csrf.CsrfViewMiddleware"], "CSRF_USE_SESSIONS": True},
            {"SESSION_SAVE_EVERY_REQUEST": True},
            {"view": swallow},
        ):
            statuses, causes = self.answers(["/", "/flush"], DEOMIGAL_REVOCATIONS=Broken(), **words)
            assert (statuses, causes) == ([503] * 2, [True] * 2), words

    def test_failures_at_no_page(self):
        """So it is at a path without a page, if something uses the session there."""
        for words in ({"middleware": ["test_django.Reading"]}, {"SESSION_SAVE_EVERY_REQUEST": True}, {"handler404": swallow}):
            assert self.answers(["/none"], DEOMIGAL_REVOCATIONS=Broken(), **words)[0] == [503], words

    def test_logout_in_a_middleware(self):
        """A logout that fails in a middleware is 503 too. A view that answers the failure itself does so."""
        full = {"DEOMIGAL_REVOCATIONS": Full()}
        assert self.answers(["/"], middleware=["test_django.Flushing"], **full)[0] == [503]
        with override_settings(ROOT_URLCONF=(re_path("", told),), **full), mock.patch("time.time", lambda: NOON):
            client = Client()
            client.cookies["sessionid"] = self.cookie_set_by().partition("=")[2]
            response = client.get("/")
            assert (response.status_code, response.content, dict(response.cookies)) == (500, b"not logged out", {})

    def test_coroutine(self):
        """A view that is a coroutine is answered so too."""
        async def view(request):
            return JsonResponse(dict(request.session.items()))

        request = RequestFactory().get("/", HTTP_COOKIE=self.cookie_set_by())
        for store, status in ((Broken(), 503), (MemoryRevocations(), 200)):
            with override_settings(DEOMIGAL_REVOCATIONS=store), mock.patch("time.time", lambda: NOON):
                assert asyncio.run(engine.SessionMiddleware(view)(request)).status_code == status

    def test_login_again(self):
        """A login of the user who is logged in starts the session anew, and no copy of before opens."""
        request, store = RequestFactory().get("/"), MemoryRevocations()
        with override_settings(DEOMIGAL_REVOCATIONS=store), mock.patch("time.time", lambda: NOON):
            keys, ids = [""], []
            for _ in range(2):
                request.session = engine.SessionStore(keys[-1])
                with mock.patch.object(User, "save"):
                    login(request, User(pk=1, username="ann"), "django.contrib.auth.backends.ModelBackend")
                request.session.save()
                keys.append(request.session.session_key)
                ids.append(request.session.source.id)
            assert ids[0] != ids[1]
            users = [self.ask("/", f"sessionid={key}")[0].get("_auth_user_id") for key in keys[1:]]
            assert users == [None, "1"]
