"""The calls on cookies, dates, jars and keys that rows make, through the library."""
from deomigal import _library as library
from deomigal.cookies import RULES, decoded_pairs
from deomigal.errors import ERRORS, NoDate, NoPair

from .rowfile import Cookie, date_text

MOMENT = date_text([2015, 10, 21, 7, 28, 0])
FLAGS = {"HttpOnly": "http_only", "Secure": "secure", "Partitioned": "partitioned"}
FIELDS = ("year", "month", "day", "hour", "minute", "second")
# A flag's number in cookie.h, by its words.
NUMBERS = {None: 0, "": 1, "true": 1, "false": 2}


def numbers_of(moment):
    return [getattr(moment, name) for name in FIELDS]


def attributes_of(text, reading):
    """The attributes of a cookie that was read from the text."""
    found, made = reading.attributes, {}
    for word, name in FLAGS.items():
        if getattr(found, name):
            made[word] = "" if getattr(found, name) == 1 else "false"
    if found.same_site:
        made["SameSite"] = RULES[found.same_site]
    for word in ("Path", "Domain"):
        if getattr(found, "has_" + word.lower()):
            made[word] = library.bytes_at(text, getattr(reading, word.lower()))
    if found.has_max_age:
        made["Max-Age"] = found.max_age
    if found.has_expires:
        made["Expires"] = numbers_of(found.expires)
    return made


def attributes_for(made):
    """The attributes as cookie.h has them. A session's end is no date."""
    words = {name: NUMBERS[made.get(word)] for word, name in FLAGS.items()}
    expires = made.get("Expires", "session")
    has = {"has_path": "Path" in made, "has_domain": "Domain" in made, "has_max_age": "Max-Age" in made}
    has["has_expires"] = expires != "session"
    moment = library.Moment(NoDate.status, *([0] * 6 if expires == "session" else expires))
    return library.Attributes(
        **words, **has, same_site=RULES.index(made.get("SameSite")), max_age=made.get("Max-Age", 0), expires=moment)


def pair_of(text, pair):
    """A name and a value, or the name of what refuses them."""
    if pair.status:
        return ERRORS[pair.status].__name__
    return library.bytes_at(text, pair.name), library.bytes_at(text, pair.value)


class Jar:
    """A jar of the library."""

    def __init__(self):
        self.handle = library.Jar()
        library.perform(library.JAR_NEW, 1, 2, self.handle)

    def add_originals(self, header):
        self.handle.perform(library.JAR_ADD_ORIGINALS, header)

    def add(self, text):
        self.handle.perform(library.JAR_ADD, text)

    def remove(self, name, path, domain):
        if path or domain:
            self.handle.perform(library.JAR_REMOVE_SCOPED, MOMENT, name, path, domain)
        else:
            self.handle.perform(library.JAR_REMOVE, MOMENT, name)

    def get(self, name):
        return self.handle.text(library.JAR_GET, name)

    def delta(self):
        """The texts of the delta."""
        lines = self.handle.text(library.JAR_DELTA).split(b"\n")[:-1]
        return [line.removeprefix(b"Set-Cookie: ") for line in lines]

    def all(self):
        """The names and values of all cookies."""
        return [(name.encode(), value.encode()) for name, value in library.listed(self.handle.text(library.JAR_COOKIES))]


class Library:
    """The calls that the original crate has too."""

    is_original = False
    jar = Jar

    def read(self, text, is_decoded):
        """The cookie of the text."""
        if is_decoded:
            reading, held = library.answer_and_bytes(library.READ_DECODED, text)
        else:
            reading, held = library.READ(text, len(text)), text
        library.checked(reading)
        name, value = library.bytes_at(held, reading.name), library.bytes_at(held, reading.value)
        return Cookie(name, value, attributes_of(text, reading))

    def pairs(self, header, is_decoded):
        """Each pair of the header, or the name of its refusal. All pairs that are read are the same in one call."""
        found, start = [], 0
        while True:
            if is_decoded:
                pair, held = library.answer_and_bytes(library.NEXT_PAIR_DECODED, header, start)
            else:
                pair, held = library.NEXT_PAIR(header, len(header), start), header
            if pair.status == NoPair.status:
                break
            found.append(pair_of(held, pair))
            start = pair.next
        if is_decoded:
            read = [pair for pair in found if isinstance(pair, tuple)]
            assert read == [(name.encode(), value.encode()) for name, value in decoded_pairs(header)]
        return found

    def print(self, made, is_escaped):
        texts = [made.attributes.get(word, b"") for word in ("Path", "Domain")]
        words = made.name, made.value, *texts, attributes_for(made.attributes), is_escaped
        return library.bytes_from(library.PRINT, *words)

    def read_date(self, text):
        return numbers_of(library.checked(library.READ_DATE(text, len(text))))

    def print_date(self, numbers):
        return library.bytes_from(library.PRINT_DATE, *numbers)

    def derive_key(self, master):
        return library.bytes_from(library.DERIVE_KEY, master)

    def with_key(self, call, key, *words):
        """A call with one key."""
        handle = library.Keys()
        library.perform(library.KEYS_NEW, key[:64], handle)
        return handle.text(call, *words)

    def sign(self, key, name, value):
        return self.with_key(library.SIGN, key, name, value)

    def verify(self, key, name, text):
        return self.with_key(library.VERIFY, key, name, text)

    def seal(self, key, nonce, name, value):
        return self.with_key(library.SEAL, key, nonce, name, value)

    def open(self, key, name, text):
        return self.with_key(library.OPEN, key, name, text)
