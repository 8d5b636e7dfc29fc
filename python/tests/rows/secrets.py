"""Signed and sealed values, and their keys. The library has no child jars: what they store is made by the calls with a
key."""
import base64
import contextlib

from deomigal.errors import NotFound, NotSealed

from .jars import Jars
from .player import PASSED, outcome
from .rowfile import cookie, key_of_tests, unescaped

# What is put into a damaged value: nothing, a letter of base64, a character of none, one of its alphabet for addresses,
# a blank, its padding, a newline, and a character of two bytes.
OTHERS = [b"", b"A", b"!", b"_", b" ", b"=", b"\n", "\u00e9".encode()]


def damaged(value):
    """The value with a text put in at each place, also in place of one byte or of the rest."""
    made = {value[:at] + other + value[at + length :]
            for other in OTHERS for at in range(len(value) + 1) for length in (0, 1, 100)}
    return made - {value}


class Secrets(Jars):
    """Plays the rows with a key, and with a generator that counts. What the child jars stored is beside the jar."""

    def __init__(self, calls):
        super().__init__(calls)
        self.key, self.count, self.stored = key_of_tests(), 0, {}

    def drawn(self, count):
        """The next numbers of the generator, four bytes each."""
        self.count += count
        return b"".join(number.to_bytes(4, "little") for number in range(self.count - count + 1, self.count + 1))

    def on_drawn(self, _):
        return b"%d" % self.count

    def on_key(self, step):
        self.key = bytes([int(step.words)] * 64)

    def on_draw(self, step):
        self.key = self.drawn(16)

    def on_seed(self, step):
        self.count = int(step.words)

    def on_from(self, step):
        self.key = unescaped(step.words)[:64]

    def on_try_from(self, step):
        """A key that is long enough opens no junk."""
        with contextlib.suppress(NotSealed):
            self.calls.open(unescaped(step.words), b"n", b"")
        self.key = unescaped(step.words)[:64]

    def on_derive_from(self, step):
        self.key = self.calls.derive_key(unescaped(step.words))

    on_try_derive_from = on_derive_from

    def on_master(self, step):
        return base64.b64encode(self.key)

    def signs(self, child, name, value):
        """The value as the child jar stores it. It is undone again."""
        if child == "signed":
            stored = self.calls.sign(self.key, name, value)
        else:
            byte = child.removeprefix("private")
            nonce = bytes([int(byte)] * 12) if byte else self.drawn(3)
            stored = self.calls.seal(self.key, nonce, name, value)
        assert self.undone(child, name, stored) == value
        return stored

    def undone(self, child, name, stored):
        """The value of a stored text."""
        return (self.calls.verify if child == "signed" else self.calls.open)(self.key, name, stored)

    def on_child(self, step):
        """A call on a child jar."""
        verb, _, words = step.words.partition(" ")
        return getattr(self, "child_" + verb)(step, cookie(words))

    on_signed = on_private = on_private0 = on_private1 = on_private2 = on_private3 = on_private7 = on_private255 = on_child

    def child_add(self, step, made):
        self.stored[made.name] = self.signs(step.call, made.name, made.value)

    child_original = child_add

    def child_remove(self, _, made):
        self.stored[made.name] = None

    def child_get(self, step, made):
        stored = self.value(made.name)
        if stored is None:
            raise NotFound
        return self.undone(step.call, made.name, stored), cookie(step.wanted).value

    def child_open(self, step, made):
        return self.undone(step.call, made.name, made.value), cookie(step.wanted).value

    def child_encrypt(self, step, made):
        return self.signs(step.call, made.name, made.value), cookie(step.wanted).value

    def child_damaged(self, step, made):
        found = [outcome(self.undone, step.call, made.name, value) for value in damaged(made.value)]
        return next((value for value in found if isinstance(value, bytes)), b"-")

    def on_failing(self, step):
        """A call with a generator that returns so many bytes 7: of twelve they are the nonce."""
        count, _, words = step.words.partition(" ")
        call, _, words = words.partition(" ")
        if count != "12":
            return PASSED
        return self.on_child(step._replace(call=call.replace("private", "private7"), words=words))

    def value(self, name):
        """The text that is stored under the name, or None."""
        if name in self.stored:
            return self.stored[name]
        found = outcome(self.jar.get, name)
        return found if isinstance(found, bytes) else None

    def on_get(self, step):
        found = self.value(unescaped(step.words))
        if found is None:
            raise NotFound
        return found, cookie(step.wanted).value

    def on_original(self, step):
        super().on_original(step)
        self.stored.pop(cookie(step.words).name, None)

    def on_add(self, step):
        super().on_add(step)
        self.stored.pop(cookie(step.words).name, None)

    def on_remove(self, step):
        super().on_remove(step)
        self.stored.pop(cookie(step.words).name, None)

    def on_delta(self, step):
        return PASSED if self.stored else super().on_delta(step)

    def on_texts(self, step):
        return PASSED if self.stored else super().on_texts(step)
