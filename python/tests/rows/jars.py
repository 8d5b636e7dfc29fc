"""A jar and its changes."""
from urllib.parse import quote

from .cookies import KEPT
from .player import PASSED, Player
from .rowfile import cookie, date_text, items, unescaped


def escaped(text):
    return quote(text, safe=KEPT).encode()


def readable(made):
    """The text that is read as this cookie, with its name and its value escaped (RFC 6265 4.1.1)."""
    attributes = made.attributes
    is_partitioned = attributes.get("Partitioned") == ""
    is_secure = attributes.get("Secure", "" if attributes.get("SameSite") == "None" else "false") == ""
    parts = [escaped(made.name) + b"=" + escaped(made.value)]
    parts += [b"HttpOnly"] * (attributes.get("HttpOnly") == "")
    parts += [b"SameSite=" + attributes["SameSite"].encode()] if "SameSite" in attributes else []
    parts += [b"Partitioned"] * is_partitioned + [b"Secure"] * (is_secure or is_partitioned)
    parts += [b"Path=" + attributes["Path"]] if "Path" in attributes else []
    parts += [b"Domain=" + attributes["Domain"]] if "Domain" in attributes else []
    parts += [b"Max-Age=%d" % attributes["Max-Age"]] if "Max-Age" in attributes else []
    if attributes.get("Expires", "session") != "session":
        parts.append(b"Expires=" + date_text(attributes["Expires"]))
    return b"; ".join(parts)


class Jars(Player):
    """Plays the rows on a jar."""

    def __init__(self, calls):
        super().__init__(calls)
        self.jar, self.changed = calls.jar(), set()

    def on_header(self, step):
        self.jar.add_originals(unescaped(step.words))

    on_field = on_header

    def on_original(self, step):
        made = cookie(step.words)
        self.jar.add_originals(escaped(made.name) + b"=" + escaped(made.value))

    def on_add(self, step):
        made = cookie(step.words)
        self.changed.add(made.name)
        self.jar.add(readable(made))

    def on_remove(self, step):
        made = cookie(step.words)
        self.changed.add(made.name)
        self.jar.remove(made.name, *(made.attributes.get(word, b"") for word in ("Path", "Domain")))

    def on_get(self, step):
        return self.jar.get(unescaped(step.words)), cookie(step.wanted).value

    def on_get_original(self, step):
        return PASSED if unescaped(step.words) in self.changed else self.on_get(step)

    def on_texts(self, step):
        return sorted(self.jar.delta()), sorted(map(unescaped, items(step.wanted)))

    def on_delta(self, step):
        return sorted(self.jar.delta()), sorted(map(readable, map(cookie, items(step.wanted))))

    def on_all(self, step):
        return sorted(self.jar.all()), sorted(cookie(item)[:2] for item in items(step.wanted))
