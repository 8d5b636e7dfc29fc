"""Plays the rows of crates/cookie_vectors/data through the library: each file by the player of its subject."""
from .agents import Agents
from .browser import Browser
from .cookies import OneCookie
from .dates import Dates
from .jars import Jars
from .library import Library
from .player import play, rows_of
from .runs import Runs
from .secrets import Secrets
from .sessions import Sessions

SUBJECTS = {
    "agent.tsv": Agents, "browser.tsv": Browser, "cookie_fields.tsv": OneCookie, "cookies.tsv": OneCookie,
    "cut_cookies.tsv": OneCookie, "dates.tsv": Dates, "headers.tsv": Jars, "jars.tsv": Jars, "runs.tsv": Runs,
    "secrets.tsv": Secrets, "sessions.tsv": Sessions,
}


def through_library(name):
    """Plays the rows of a file. Returns how many, and what is wrong."""
    calls = Library()
    return play(name, lambda: SUBJECTS[name](calls), "library")
