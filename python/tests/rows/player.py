"""What the players of all subjects share: how a step is played, and how its answer is compared."""
import re

from deomigal.errors import CookieError, NoDate, NoSession, NotFound, NotSealed, NotSigned

from .rowfile import rows, unescaped

# White space as Rust's `str::trim` takes it (Unicode's White_Space).
WHITE = "\t\n\x0b\x0c\r \x85\xa0\u1680\u2000\u2001\u2002\u2003\u2004\u2005\u2006\u2007\u2008\u2009\u200a"
WHITE += "\u2028\u2029\u202f\u205f\u3000"
# Words that only look. A player without such a call passes over them.
LOOKS = set("""raw split_raw split_raw_encoded trimmed fields equals equals_parsed refusal counts get-original all debug
flags fit fits is-value master signing encryption secure host keys newest""".split())
# What a step comes to that isn't for the player.
PASSED = object()
# The refusals that a row writes as `-`, and the one that it names otherwise.
NOTHING = (NoDate, NoSession, NotFound, NotSealed, NotSigned)
NAMES = {"Utf8Error": "BadEscape"}
# How the sentences of refusals begin.
SENTENCES = {
    "BadPrefix": "the cookie lacks what a browser asks of the prefix of its name",
    "KeyTooShort": "key material is too short",
    "MasterTooShort": "master key is too short",
    "Over": "the session is over",
    "TooLarge": "the cookie is too large: expected <= 4096 bytes, got {} bytes",
}


class Lacks(Exception):
    """The player has no call for the step, or none for the whole row."""


class Player:
    """Plays the steps of a row: those of a word by the method `on_WORD`. It returns what the step comes to: None for
    `done`, bytes as the row has them, or a pair of anything, and of what it should be."""

    def __init__(self, calls):
        self.calls = calls

    def play(self, step):
        """What is wrong with what the step comes to, or None. It may be PASSED."""
        play = getattr(self, "on_" + re.sub(r"\W", "_", step.call), None)
        if play is None and step.call in LOOKS:
            return PASSED
        if play is None:
            raise Lacks(step.call)
        try:
            found = play(step)
        except CookieError as error:
            return None if is_refused(error, step.wanted) else repr(error)
        if found is PASSED:
            return PASSED
        found, wanted = found if isinstance(found, tuple) else (b"done" if found is None else found, unescaped(step.wanted))
        return None if found == wanted else f"{found!r}, and not {wanted!r}"


def refusal_in(wanted):
    """The name of the error that an answer such as `refused Utf8Error at 2` stands for, or None."""
    name = wanted.split()[1] if wanted.startswith("refused ") else None
    return NAMES.get(name, name)


def is_refused(error, wanted):
    """Whether the answer is this error's."""
    name, size = type(error).__name__, getattr(error, "size", "")
    is_said = name in SENTENCES and wanted.startswith(SENTENCES[name].format(size))
    return refusal_in(wanted) == name or is_said or wanted == "-" and isinstance(error, NOTHING)


def outcome(call, *words):
    """What the call returns, or the error that it raises."""
    try:
        return call(*words)
    except CookieError as error:
        return error


def faults_of(row, player):
    """What is wrong with the row."""
    played = [(step, player.play(step)) for step in row.steps]
    if all(fault is PASSED for _, fault in played):
        raise Lacks(f"{row.title}: no step is for the player")
    return [f"{row.path.name}:{step.line} {row.title}: {step.call} comes to {fault}"
            for step, fault in played if fault not in (None, PASSED)]


def rows_of(name, player):
    """The rows of a file that are for the player."""
    return [row for row in rows(name) if player not in row.not_for]


def play(name, subject, player):
    """Plays these rows. Returns how many, and what is wrong."""
    played = [faults_of(row, subject()) for row in rows_of(name, player)]
    return len(played), [fault for faults in played for fault in faults]


def trimmed(text):
    """The text without white space around it."""
    return text.decode().strip(WHITE).encode()


def is_unfit(text):
    return any(byte < 32 or byte in b";\x7f" for byte in text)


def is_blank(piece):
    return not piece.decode(errors="replace").strip(WHITE)
