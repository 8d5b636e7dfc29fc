"""Plays the rows through the original crate `cookie` 0.18.2, whose folder the variable ORIGINAL names: its Cargo.toml is
there or in `cookie` below. It has no generator and no clock that can be set, so what it seals is only opened, and the
expiry of a removal isn't looked at."""
import base64
import os
import re
import shutil
import subprocess
from pathlib import Path

from deomigal import errors

from . import cookies, dates, jars, secrets
from .library import MOMENT
from .player import PASSED, WHITE, play
from .rowfile import Cookie, cookie, items, unescaped

MANIFEST = """[package]
name = "original"
version = "0.0.0"
edition = "2024"

[dependencies]
cookie = {{ path = "{}", default-features = false, features = ["percent-encode", "secure"] }}

[workspace]
"""


def built(folder):
    """The program over the crate, which is built in the folder."""
    source = Path(os.environ["ORIGINAL"]).resolve()
    crate = source / "cookie" if (source / "cookie/Cargo.toml").exists() else source
    (folder / "src").mkdir()
    shutil.copy(Path(__file__).with_name("original.rs"), folder / "src/main.rs")
    (folder / "Cargo.toml").write_text(MANIFEST.format(crate))
    if (source / ".cargo").exists():
        shutil.copytree(source / ".cargo", folder / ".cargo")
    if (source / "Cargo.lock").exists():
        shutil.copy(source / "Cargo.lock", folder)
    quiet = {**os.environ, "RUSTFLAGS": "-Awarnings"}
    subprocess.run(["cargo", "build", "-q", "--release", "--offline"], cwd=folder, env=quiet, check=True)
    return folder / "target/release/original"


def shown(made):
    """A cookie's name and value, and its attributes as the program takes them."""
    found = [made.name, made.value]
    for name, meant in made.attributes.items():
        text = " ".join(map(str, meant)) if isinstance(meant, list) else meant
        text = text if isinstance(text, bytes) else str(text).encode()
        found.append(name.encode() + (b"=" + text if text else b""))
    return found


def cookie_in(name, value, *attributes):
    """The cookie of what the program writes of it."""
    meanings = {"Path": bytes, "Domain": bytes, "Max-Age": int, "Expires": lambda text: list(map(int, text.split()))}
    made = {}
    for text in attributes:
        word, _, value_of = text.partition(b"=")
        word = word.decode()
        is_end = value_of == b"session"
        made[word] = "session" if is_end else meanings.get(word, bytes.decode)(value_of)
    return Cookie(name, value, made)


class Jar:
    """The program's jar."""

    def __init__(self, calls):
        self.call = lambda word, *texts: calls.call("jar_" + word, *texts)
        self.call("new")

    def add_originals(self, header):
        self.call("originals", header)

    def add(self, text):
        self.call("add", text)

    def remove(self, name, path, domain):
        scope = [word + text for word, text in ((b"Path=", path), (b"Domain=", domain)) if text]
        self.call("remove", name, b"", *scope)

    def get(self, name):
        return self.call("get", name)[0]

    def delta(self):
        """The texts of the delta. A removal is at the time of most rows."""
        fixed = rb"\1Tue, 21 Oct 2014 07:28:00 GMT"
        return [re.sub(rb"(; Max-Age=0; Expires=).*", fixed, text) for text in self.call("delta")]


class Original:
    """The calls, through the program."""

    is_original = True

    def __init__(self, program):
        self.process = subprocess.Popen([program], stdin=subprocess.PIPE, stdout=subprocess.PIPE, text=True, bufsize=1)

    def call(self, word, *texts):
        """The texts that the call returns, or its refusal as an error."""
        self.process.stdin.write("\t".join([word, *(text.hex() for text in texts)]) + "\n")
        answer, *found = self.process.stdout.readline().rstrip("\n").split("\t")
        if answer == "refused":
            raise getattr(errors, found[0])
        return [bytes.fromhex(text) for text in found]

    def jar(self):
        return Jar(self)

    def read(self, text, is_decoded):
        return cookie_in(*self.call("read_decoded" if is_decoded else "read", text))

    def pairs(self, header, is_decoded):
        found = self.call("pairs_decoded" if is_decoded else "pairs", header)
        return [(item[1:],) if item[:1] == b"=" else item[1:].decode() for item in found]

    def print(self, made, is_escaped):
        return self.call("print_escaped" if is_escaped else "print", *shown(made))[0]

    def read_date(self, text):
        return [int(number) for number in self.call("read_date", text)[0].split()]

    def print_date(self, numbers):
        return self.call("print_date", " ".join(map(str, numbers)).encode())[0]

    def derive_key(self, master):
        return self.call("key_derive_key", master)[0]

    def open(self, key, name, text):
        return self.call("key_open", key, name, text)[0]


class OneCookie(cookies.OneCookie):
    """Plays what the library has no call for, too."""

    def on_raw(self, _):
        return self.calls.call("raw_" + self.read_by.call, unescaped(self.read_by.words))[0] if self.read_by else PASSED

    def on_split_raw(self, step):
        return self.calls.call(step.call, unescaped(step.words)), list(map(unescaped, items(step.wanted)))

    on_split_raw_encoded = on_split_raw

    def on_fields(self, step):
        return cookie_in(*self.calls.call("fields", *shown(self.made))), cookie(step.wanted)

    def on_trimmed(self, _):
        return self.calls.call("trimmed", *shown(self.made))[0]

    def on_print_builder(self, _):
        return self.calls.call("print_builder", *shown(self.made))[0]

    def on_refusal(self, step):
        return self.calls.call("sentence", unescaped(step.words))[0]

    def on_equals(self, step):
        one, other = shown(self.made), shown(cookie(step.words))
        return self.calls.call("equals", b"%d" % len(one), *one, *other)[0]

    def on_equals_parsed(self, step):
        return self.calls.call("equals_parsed", unescaped(step.words), *shown(self.made))[0]


class Dates(dates.Dates):
    """An expiry is cut at a `;`, and trimmed."""

    def is_read(self, text):
        return b";" not in text and text == text.decode().strip(WHITE).encode()


class Jars(jars.Jars):
    """Plays what the library has no call for, too."""

    def on_all(self, step):
        return sorted(self.jar.call("all")), sorted(map(jars.readable, map(cookie, items(step.wanted))))

    def on_counts(self, _):
        return self.jar.call("counts")[0]

    def on_force(self, step):
        self.jar.call(step.call, unescaped(step.words))

    on_reset = on_copy = on_swap = on_force

    def on_host(self, step):
        call, _, words = step.words.partition(" ")
        if call == "get":
            return self.jar.call("host_get", unescaped(words))[0], cookie(step.wanted).value
        self.jar.call("host_add", *shown(cookie(words)))
        return None


class Secrets(secrets.Secrets):
    """What is sealed is told by the row, and opened."""

    def __init__(self, calls):
        super().__init__(calls)
        self.values = {}

    def is_untold(self, name):
        """Whether the row hasn't told yet what is sealed under the name."""
        return name in self.values and self.stored.get(name, b"") is None

    def on_signing(self, step):
        return base64.b64encode(self.calls.call("key_" + step.call, self.key)[0])

    on_encryption = on_signing

    def child_add(self, step, made):
        if step.call == "private":
            self.drawn(3)
        self.stored[made.name], self.values[made.name] = None, made.value

    child_original = child_add

    def child_get(self, step, made):
        return PASSED if self.is_untold(made.name) else super().child_get(step, made)

    def child_remove(self, step, made):
        self.values.pop(made.name, None)
        super().child_remove(step, made)

    def child_encrypt(self, step, made):
        return self.calls.open(self.key, made.name, cookie(step.wanted).value), made.value

    def on_get(self, step):
        name = unescaped(step.words)
        if not self.is_untold(name):
            return super().on_get(step)
        self.stored[name] = cookie(step.wanted).value
        return self.calls.open(self.key, name, self.stored[name]), self.values[name]

    def on_drawn(self, _):
        return PASSED


SUBJECTS = {
    "cookie_fields.tsv": OneCookie, "cookies.tsv": OneCookie, "cut_cookies.tsv": OneCookie, "dates.tsv": Dates,
    "headers.tsv": Jars, "jars.tsv": Jars, "prefixes.tsv": Jars, "secrets.tsv": Secrets,
}


def through_original(name, calls):
    """Plays the rows of a file. Returns how many, and what is wrong."""
    return play(name, lambda: SUBJECTS[name](calls), "original")
