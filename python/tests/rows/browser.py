"""What a browser makes of a cookie."""
import re

from deomigal import _library as library
from deomigal.addresses import Address
from deomigal.explain import ROOM, STEPS, fields_of, request_of, rules_of

from .player import Lacks, Player
from .rowfile import cookie, unescaped
from .sessions import FIRST

LIST = b"com\nco.uk\ngithub.io\n*.ck\n!www.ck\n"
# How a request came about: whether it is same-site, a top-level navigation, and safe.
HOWS = {"get": (True, True, True), "link": (False, True, True), "frame": (False, False, True), "post": (False, True, False)}


def address_of(url, how):
    """Where a request to the URL goes. Nothing of it is decoded."""
    scheme, _, rest = url.partition("://")
    host, _, path = rest.partition("/")
    is_address = host.startswith("[") or re.fullmatch(r"[\d.]+", host) is not None
    return Address(host, "/" + path, is_address, scheme == "https", *HOWS[how][:2])


def stored_in(words):
    """The fields of a stored cookie."""
    name, value, attributes = cookie(words.replace("; Host=", "; Host; Domain="))
    told = [attributes.get("Max-Age"), attributes.get("SameSite")]
    flags = [word in attributes for word in ("Host", "Secure", "HttpOnly")]
    texts = name, value, attributes["Domain"], attributes["Path"]
    return (*(text.decode(errors="surrogateescape") for text in texts), *told, *flags)


class Browser(Player):
    """Plays the rows on a browser without cookies."""

    def explain(self, how, words):
        """What the browser makes of the text, and the texts of its answer."""
        url, _, text = words.partition(" | ")
        if " | " in text:
            raise Lacks("a browser with cookies")
        request = request_of(address_of(url, how), HOWS[how][2])
        why, texts = library.answer_and_bytes(library.EXPLAIN, rules_of(LIST), request, unescaped(text), FIRST, room=ROOM)
        return library.checked(why), texts

    def on_get(self, step):
        why, _ = self.explain(step.call, step.words)
        return f"refused {STEPS[why.refusal - 1]}".encode() if why.refusal else None

    on_link = on_frame = on_get

    def on_stored(self, step):
        why, texts = self.explain(*step.words.split(" ", 1))
        assert why.refusal == 0
        return fields_of(why.stored, texts, "surrogateescape", why.stored.lifetime), stored_in(step.wanted)

    def on_explain(self, step):
        why, texts = self.explain(*step.words.split(" ", 1))
        said = [library.bytes_at(texts, span) for span in (why.sentence, why.section)]
        calls = (library.REFUSAL_SENTENCE, library.REFUSAL_SECTION) if why.refusal else ()
        assert said[: len(calls)] == [library.bytes_from(call, why.refusal) for call in calls]
        return b" | ".join(said) if why.refusal else b"-"

    def on_sentence(self, step):
        return library.bytes_from(library.REFUSAL_SENTENCE, int(step.words))

    def on_section(self, step):
        return library.bytes_from(library.REFUSAL_SECTION, int(step.words))
