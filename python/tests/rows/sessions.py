"""Sessions and tokens."""
from urllib.parse import urlencode

from deomigal import _library as library
from deomigal.errors import Replaces
from deomigal.sessions import MAX_AGE

from .jars import escaped, readable
from .player import PASSED, Player
from .rowfile import cookie, items, key_of_tests, unescaped

FIRST = 1_445_412_480
SEVENS = bytes([7] * 16)
# The last second of a call. A later one is refused where the session is saved.
LAST = 253_402_207_200


def key_named(name):
    return key_of_tests() if name == "test" else bytes([int(name)] * 64)


class Sessions(Player):
    """Plays the rows on a site, and on a session that was started or opened last."""

    def __init__(self, calls):
        super().__init__(calls)
        self.keys, self.limits, self.now = [key_of_tests()], [1200, 600], FIRST
        self.cookie = readable(cookie("__Host-session=; Path=/; Secure; HttpOnly; SameSite=Lax"))
        self.originals, self.revoked, self.new_id = {}, b"", SEVENS
        self.session, self.saved = library.Session(), None
        self.on_start(None)

    def site(self, cookie):
        """The site's sessions, in the cookie."""
        keys, made = b"".join(self.keys), library.Sessions()
        settings = library.SessionSettings(keys, len(keys), cookie, len(cookie), *self.limits)
        library.perform(library.SESSIONS_NEW, settings, made)
        return made

    def with_site(self, call, *words):
        """A call on the session of a site, which returns no text. The site's cookie doesn't count."""
        library.perform(call, self.site(b"s="), *words)

    # The site, the time, and what is revoked or drawn.

    def on_site(self, step):
        self.cookie = readable(cookie(step.words))

    def on_limits(self, step):
        self.limits = [int(number) for number in step.words.split()]

    def on_ring(self, step):
        self.keys = [key_named(step.words)]

    def on_rotate(self, step):
        self.keys.insert(0, key_named(step.words))

    def on_older(self, step):
        self.keys.append(key_named(step.words))

    def on_retire(self, step):
        self.keys = self.keys[: max(1, len(self.keys) - 1)]
        return PASSED

    def on_at(self, step):
        self.now = FIRST + int(step.words)

    def on_revoked(self, step):
        self.revoked = bytes.fromhex(step.words)

    def on_new_id(self, step):
        self.new_id = bytes.fromhex(step.words)

    def on_original(self, step):
        made = cookie(step.words)
        self.originals[made.name] = made.value

    # The session.

    def on_start(self, _):
        self.with_site(library.SESSION_START, self.new_id, min(self.now, LAST), self.session)

    def on_renew(self, _):
        self.with_site(library.SESSION_RENEW, self.session, self.new_id, self.now)

    def on_set(self, step):
        name, mark, text = step.words.partition("*" if "*" in step.words else "=")
        text = b"y" * int(text) if mark == "*" else unescaped(text)
        self.session.perform(library.SESSION_SET, unescaped(name), text)

    def on_unset(self, step):
        self.session.perform(library.SESSION_REMOVE, unescaped(step.words))

    def on_form(self, step):
        # Without a session the next save is refused, too.
        if self.session.is_open:
            self.session.perform(library.SESSION_SET_TEXTS, unescaped(step.words))

    def on_open(self, _):
        pairs = (escaped(name) + b"=" + escaped(value) for name, value in self.originals.items())
        return self.opened(b"; ".join(pairs))

    def on_open_field(self, step):
        library.SESSION_FREE(self.session)
        return self.opened(unescaped(step.words))

    def opened(self, header):
        """The place of the key that opens the session of the header."""
        site, opened = self.site(self.cookie), library.Opened()
        library.perform(library.OPENED_NEW, site, header, self.now, opened)
        library.perform(library.OPENED_TAKE, opened, self.revoked, self.session)
        if not self.revoked:
            first = library.Session()
            library.perform(library.SESSION_OPEN, site, header, self.now, first)
            assert self.facts("id", "seen") == self.facts("id", "seen", session=first)
        return b"%d" % self.facts("index")[0]

    def facts(self, *names, session=None):
        told = library.SESSION_DESCRIBE(session or self.session)
        return [bytes(told.id) if name == "id" else getattr(told, name) for name in names]

    def on_id(self, step):
        return self.facts("id")[0].hex().encode()

    def on_times(self, step):
        return " ".join(str(second - FIRST) for second in self.facts("started", "seen")).encode()

    def on_own(self, step):
        end, idle = self.facts("end", "idle")
        return f"{end - FIRST} {idle}".encode()

    def on_session(self, step):
        """The texts, as pairs and as a form (URL Standard 5.2)."""
        texts = library.listed(self.session.text(library.SESSION_LIST, room=10000))
        assert self.session.text(library.SESSION_TEXTS, room=10000) == urlencode(texts).encode()
        return [f"{name}={text}".encode() for name, text in texts], list(map(unescaped, items(step.wanted)))

    def on_text(self, step):
        text = self.session.text(library.SESSION_GET, unescaped(step.words), room=10000)
        return text or b"(empty)"

    def on_as_form(self, step):
        return self.session.text(library.SESSION_TEXTS, room=10000) or b"-"

    def on_save(self, step):
        """Saves the session, which may replace another one. What is saved is known by `texts`."""
        if len(self.revoked) % 16:
            # Only the call that opens a session takes the list.
            return self.opened(b"")
        site, words = self.site(self.cookie), (MAX_AGE, SEVENS[:12], self.now)
        try:
            self.saved = site.text(library.SESSION_SAVE, self.session, *words, room=10000)
        except Replaces:
            self.session.perform(library.SESSION_REPLACE, self.now, False)
            self.saved = site.text(library.SESSION_SAVE, self.session, *words, room=10000)

    def on_end(self, step):
        self.saved = self.site(self.cookie).text(library.SESSION_END, self.now)

    def on_texts(self, step):
        return self.saved

    def on_get(self, step):
        return PASSED

    # Tokens.

    def token_call(self, call, step, *drawn):
        """What a call on a token for a purpose returns, and its text."""
        purpose, _, text = map(unescaped, step.words.partition(" | "))
        keys, settings = library.Keys(), library.TokenSettings(purpose, len(purpose), self.limits[0])
        library.perform(library.KEYS_NEW, b"".join(self.keys), keys)
        answer, found = library.answer_and_bytes(call, keys, settings, text, *drawn, self.now)
        library.checked(answer)
        return purpose, found

    def on_make_token(self, step):
        return self.token_call(library.TOKEN_MAKE, step, SEVENS[:12])[1]

    def on_read_token(self, step):
        return b"=".join(self.token_call(library.TOKEN_READ, step))
