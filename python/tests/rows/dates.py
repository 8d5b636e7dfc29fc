"""Dates. The three last calls edit a text, and list what is still a date."""
from deomigal.errors import CookieError

from .player import PASSED, Player
from .rowfile import date, date_text, items, unescaped


def edits(step):
    """Each edited text with the word that the answer has for it."""
    place, _, words = step.words.rpartition(" | ")
    text = unescaped(words)
    if step.call == "with":
        at = int(place)
        for other in [*map(chr, range(128)), "\u00e9", "\U0001f36a"]:
            edited = text[:at] + other.encode() + text[at + 1 :]
            if edited != text:
                yield other, edited
        return
    for at in range(len(text)):
        yield str(at), text[:at] + (text[at + 1 :] if step.call == "without" else b"")


class Dates(Player):
    """Plays the rows on dates."""

    def is_read(self, text):
        """Whether the player can read such a text."""
        return True

    def read(self, text, wanted):
        if not self.is_read(text):
            return PASSED
        return self.calls.read_date(text), date(wanted) if wanted[-1].isdigit() else wanted

    def on_read(self, step):
        return self.read(unescaped(step.words), step.wanted)

    def on_back(self, step):
        return self.read(date_text(date(step.words)), step.wanted)

    def on_print(self, step):
        return self.calls.print_date(date(step.words))

    def on_with(self, step):
        found, wanted = {}, dict(item.rsplit(": ", 1) for item in items(step.wanted))
        for word, text in edits(step):
            if not self.is_read(text):
                wanted.pop(word, None)
                continue
            try:
                found[word] = self.calls.read_date(text)
            except CookieError:
                continue
        return found, {word: date(text) for word, text in wanted.items()}

    on_without = on_cut = on_with
