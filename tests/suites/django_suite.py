"""Django's own tests of sessions, with `deomigal.django` as the engine. DJANGO_TESTS is the folder `tests` of Django's sources."""
import os
import sys
import unittest

import django
from django.conf import settings

sys.path.append(os.environ["DJANGO_TESTS"])
settings.configure(
    SECRET_KEY="a secret key of at least 32 bytes",
    SESSION_ENGINE="deomigal.django",
    ALLOWED_HOSTS=["*"],
    INSTALLED_APPS=["django.contrib.auth", "django.contrib.contenttypes", "django.contrib.sessions", "sessions_tests"],
    MIDDLEWARE=["deomigal.django.SessionMiddleware"],
    DEFAULT_AUTO_FIELD="django.db.models.AutoField",
    USE_TZ=True,
    DATABASES={"default": {"ENGINE": "django.db.backends.sqlite3", "NAME": ":memory:"}},
)
django.setup()

from deomigal import django as engine
from django.db import connection
from django.test.utils import setup_test_environment
from sessions_tests import tests

setup_test_environment()
connection.creation.create_test_db(verbosity=0)


class DjangoCookieSessionTests(tests.CookieSessionTests):
    """Django's tests of signed-cookie sessions. Two that these skip, or expect to fail, pass."""

    backend = engine.SessionStore
    test_actual_expiry = tests.SessionTestsMixin.test_actual_expiry
    test_session_load_does_not_create_record = tests.SessionTestsMixin.test_session_load_does_not_create_record

    @unittest.skip("Django skips it for sessions in cookies: there is no store in which a logout could be seen")
    def test_session_save_does_not_resurrect_session_logged_out_in_other_context(self):
        pass


class DjangoMiddlewareTests(tests.SessionMiddlewareTests):
    """Django's tests of its middleware, which makes sessions of the engine."""

    @unittest.skip("it reads the session in the table of Django's database engine")
    def test_empty_session_saved(self):
        pass
