"""Sessions of the program `cookiejar`. One without other calls is played on a jar too."""
from deomigal import _library as library
from deomigal.errors import BadLine, CookieError

from .cookies import is_skipped
from .library import MOMENT, Jar
from .player import Player, is_blank, trimmed
from .rowfile import items, unescaped

BAD = "status 2: cookiejar: bad "
FAULTS = {"BadMoment": "moment", "NotUtf8": "input"}


def is_plain(header):
    """Whether a header's originals are the same for the program, which takes the last of a name, and for a jar, which
    takes the first and skips what was disguised."""
    pieces = [piece for piece in header.split(b";") if not is_blank(piece)]
    names = [trimmed(piece.partition(b"=")[0]) for piece in pieces]
    return not any(map(is_skipped, pieces)) and b"%" not in header and len(set(names)) == len(names)


def on_jar(moment, text):
    """The delta of the same calls on a jar, or None if it lacks one."""
    header, *calls = text.removesuffix(b"\n").split(b"\n")
    if not is_plain(header) or any(call.split(b" ")[0] not in (b"add", b"remove") or b"\r" in call for call in calls):
        return None
    jar = Jar()
    jar.add_originals(header)
    for call in calls:
        word, _, words = call.partition(b" ")
        if word == b"add":
            jar.add(words)
        else:
            jar.handle.perform(library.JAR_REMOVE, moment, trimmed(words))
    return sorted(b"Set-Cookie: " + text for text in jar.delta())


def run(moment, text):
    """The lines that the program writes, or why it is refused."""
    try:
        return library.bytes_from(library.RUN, 1, 2, moment, text).split(b"\n")
    except BadLine as error:
        return f"{BAD}line {error.number}"
    except CookieError as error:
        return BAD + FAULTS[type(error).__name__]


class Runs(Player):
    """Plays the rows on the program."""

    def run(self, step, moment, text):
        found, is_bad = run(moment, text), step.wanted.startswith(BAD)
        if is_bad:
            return found, step.wanted
        delta = on_jar(moment, text)
        assert delta is None or delta == sorted(found[:-2]), delta
        return found, [b"" if line == "-" else unescaped(line) for line in items(step.wanted)] or [b""]

    def on_run(self, step):
        return self.run(step, MOMENT, unescaped(step.words))

    def on_run_at(self, step):
        return self.run(step, *map(unescaped, step.words.split(" | ", 1)))
