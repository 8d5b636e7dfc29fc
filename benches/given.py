"""The lines that works are given, always the same ones."""

LETTERS = "abcdefghijklmnopqrstuvwxyzABCDEFGHIJKLMNOPQRSTUVWXYZ0123456789-_."
ESCAPES = ["%20", "%2F", "%3D", "%3B", "%25", "%C3%A9", "%E2%82%AC"]
WEEKDAYS = ["Fri", "Sat", "Sun", "Mon", "Tue", "Wed", "Thu"]
MONTHS = ["Jan", "Feb", "Mar", "Apr", "May", "Jun", "Jul", "Aug", "Sep", "Oct", "Nov", "Dec"]
# The `Cookie` headers of requests, and the names of their first pairs.
HEADERS, FIRST = 20, ["session", "csrf"]
# A session's texts of 100 bytes with their names.
SESSION = ["user=ann.example.com", "role=reader.of.pages", "since=1795500000.abc", "token=5f1d7a84db6d4", "lang=en.and.so.forth"]


class Numbers:
    """A linear congruential generator, so that no version of Python changes the lines."""

    def __init__(self, seed):
        self.state = seed

    def below(self, limit):
        self.state = (self.state * 6364136223846793005 + 1442695040888963407) % 2**64
        return (self.state >> 33) % limit

    def pick(self, choices):
        return choices[self.below(len(choices))]

    def text(self, least, most):
        return "".join(self.pick(LETTERS) for _ in range(least + self.below(most - least + 1)))

    def escaped(self, least, most):
        pieces = [self.text(1, 4) for _ in range(least + self.below(most - least + 1))]
        return self.pick(ESCAPES).join(pieces) + self.pick(ESCAPES)

    def date(self):
        """A day of the year 2027, whose first is a Friday, in RFC 9110's preferred form."""
        month, day = self.below(12), self.below(28)
        before = sum([31, 28, 31, 30, 31, 30, 31, 31, 30, 31, 30, 31][:month]) + day
        clock = f"{self.below(24):02}:{self.below(60):02}:{self.below(60):02}"
        return f"{WEEKDAYS[before % 7]}, {day + 1:02} {MONTHS[month]} 2027 {clock} GMT"

    def attributes(self):
        site = self.pick(["Strict", "Lax", "None"])
        path, dot = self.text(0, 12), self.pick(["", "."])
        age = self.below(31_536_000)
        return (f"HttpOnly; Secure; SameSite={site}; Path=/{path}; Domain={dot}www.example.com; Max-Age={age}; "
                f"Expires={self.date()}; Partitioned")

    def line(self, index):
        if index % 3 == 0:
            return f"{self.text(3, 12)}={self.text(8, 32)}"
        if index % 3 == 1:
            return f"{self.text(3, 12)}={self.text(8, 32)}; {self.attributes()}"
        return f"{self.escaped(1, 2)}={self.escaped(2, 6)}; Path=/"


def lines(count=100_000):
    """`Set-Cookie` lines: plain, with all attributes, and with escapes, in turn."""
    numbers = Numbers(6265)
    return [numbers.line(index) for index in range(count)]


def named(number):
    """The first of the plain lines, no two of one name."""
    by_name = {}
    for line in lines()[::3]:
        by_name.setdefault(line.split("=")[0], line)
    return list(by_name.values())[:number]


def headers(pairs, kind="plain"):
    """`Cookie` headers of this number of pairs."""
    numbers = Numbers(6265 + pairs)
    text, sizes = {"plain": (numbers.text, ((3, 12), (8, 32))), "escapes": (numbers.escaped, ((1, 2), (2, 6)))}[kind]

    def header():
        values = {}
        while len(values) < pairs:
            name = FIRST[len(values)] if len(values) < len(FIRST) else text(*sizes[0])
            if name not in values:
                values[name] = text(*sizes[1])
        return "; ".join(f"{name}={value}" for name, value in values.items())

    return [header() for _ in range(HEADERS)]


def long_value(size):
    """A cookie whose value has this number of bytes."""
    return "session=" + ("abcdefgh" * size)[:size]


def chosen_front():
    """The first 24 letters of names of 32 that have one hash in a jar of `CookieJar::new`.

    Such a jar hashes with a state that is fixed: it multiplies two words of eight bytes, each joined by xor with one that is
    known, and folds the product. A name here has 16 bytes, then the eight that the state is after them, then any eight: the
    first factor of the last product is zero, and so is the hash. The 16 are the first digits for which the eight are letters
    and digits, found by trying some forty thousand of them."""

    def state_after(front):
        first, second = (int.from_bytes(front[at : at + 8], "little") for at in (0, 8))
        product = (first ^ (0x243F6A8885A308D3 + 32) % 2**64) * (second ^ 0x9E3779B97F4A7C15)
        return (product % 2**64 ^ product // 2**64).to_bytes(8, "little")

    fronts = (b"%016d" % number for number in range(10_000_000))
    made = (front + state_after(front) for front in fronts)
    return next(front.decode() for front in made if front.isascii() and front.isalnum())


def colliding(kind, number):
    """Lines `NAME=value`, of `chosen` names or of `ordinary` ones of the same length, no two of one name."""
    front = chosen_front() if kind == "chosen" else "a-name-of-twenty-four-by"
    return [f"{front}{place:08}=value" for place in range(number)]
