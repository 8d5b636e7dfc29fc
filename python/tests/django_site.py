"""Django's settings, which count for a whole process."""
import pickle

import django
from django.conf import settings
from helpers import SECRET

settings.configure(
    SECRET_KEY=SECRET,
    SESSION_ENGINE="deomigal.django",
    ROOT_URLCONF="test_django",
    ALLOWED_HOSTS=["*"],
    INSTALLED_APPS=["django.contrib.auth", "django.contrib.contenttypes", "django.contrib.sessions"],
    MIDDLEWARE=["deomigal.django.SessionMiddleware"],
    USE_TZ=True,
    DATABASES={"default": {"ENGINE": "django.db.backends.sqlite3", "NAME": ":memory:"}},
)
django.setup()


class Pickles:
    """A serializer whose texts aren't UTF-8. Django 5 has none."""

    def dumps(self, values):
        return pickle.dumps(values)

    def loads(self, text):
        return pickle.loads(text)
