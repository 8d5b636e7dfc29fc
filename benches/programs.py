"""The programs whose works are counted, and how they are."""

import os
import re
import shutil
import subprocess
import sys
from pathlib import Path
from typing import Callable, NamedTuple

HERE = Path(__file__).resolve().parent
sys.path.insert(0, str(HERE.parent / "tools"))
import toolchain

NEEDS = "session_revocations cookie_session cookie_agent cookie_browser cookie_crypt cookie_core cookie jiff rand rand_core anyhow"
# What stands in for the crate `aes-gcm`, which Debian doesn't package, in the original's folder: another folder, or what is
# there. If the original has no such folder, its own cipher is counted. The first is the dearer for the port.
STAND_IN = "aes-gcm-shim"
CIPHERS = {"ring": HERE / "aes_gcm_of_ring", "OpenSSL": None}
# Flags like those of the port, which rt builds by clang at -O3, for x86-64-v2, in one unit.
FLAGS = "-C target-cpu=x86-64-v2"
MANIFEST = """[package]
name = "original"
version = "0.0.0"
edition = "2021"

[dependencies]
cookie = {{ path = "crate/{}", default-features = false, features = ["percent-encode", "secure"] }}

[[bin]]
name = "driver"
path = "driver.rs"

[workspace]
exclude = ["crate"]

[profile.release]
opt-level = 3
lto = "fat"
codegen-units = 1
"""
# Whether the processor has instructions for SHA-256.
HAS_SHA = " sha_ni " in Path("/proc/cpuinfo").read_text()


class Run(NamedTuple):
    """Words and lines of a run, and whether its cost is added (1) or taken off (-1)."""

    sign: int
    words: str
    lines: list = []


class Peer(NamedTuple):
    """A program beside ours, what tells it from others of the same, and how it is counted."""

    name: str
    program: Path
    count: Callable


class Bench:
    """A folder for the programs and what they are given. `KEEP` names another for what is built. One that is there isn't
    built again, unless what it is made from changed."""

    def __init__(self, work):
        self.work = work
        self.kept = Path(os.environ.setdefault("KEEP", str(work))).resolve()
        self.original = Path(os.environ["ORIGINAL"]).resolve() if "ORIGINAL" in os.environ else None
        self.built = {}

    def once(self, what, make, *words):
        """A program that is made once."""
        key = (what, *map(str, words))
        if key not in self.built:
            self.built[key] = make(*words)
        return self.built[key]

    def port(self):
        """The port's driver, proved and built."""
        words = ["text", "lines"]
        return self.once("port", toolchain.program_of, self.work, "benches", NEEDS.split(), words, HERE / "driver")

    def in_c(self):
        """The driver over the library for C."""
        def make():
            prefix, program = self.installed(), self.kept / "driver_c"
            sources = [HERE / "driver.c", prefix / "lib/libcookie_c.a"]
            toolchain.run_in(self.work, "gcc", "-O2", "-I", prefix / "include", *sources, "-o", program)
            return program

        return self.once("c", make)

    def installed(self):
        """Where the library, cookie.h and the wheel are: in PREFIX, or where tools/install puts them once."""
        def make():
            if "PREFIX" not in os.environ:
                is_proved = all(map(toolchain.is_built, set(toolchain.crates_below("cookie_c")) - {"cookie_c"}))
                os.environ["PREFIX"] = str(self.work / "prefix")
                words = ["--proved"] if is_proved else []
                toolchain.run_in(toolchain.ROOT, toolchain.ROOT / "tools/install", *words, os.environ["PREFIX"])
            return Path(os.environ["PREFIX"]).resolve()

        return self.once("prefix", make)

    def ciphers(self):
        """The stand-ins of the original's cipher."""
        return list(CIPHERS) if (self.original / STAND_IN).exists() else ["aes-gcm"]

    def original_with(self, cipher):
        """The original's driver with a cipher, in a copy of its folder. The times of files stay, so that cargo sees what
        changed."""
        package = self.kept / f"original-{cipher}"
        package.mkdir(parents=True, exist_ok=True)
        subprocess.run(["cp", "-r", "-u", "-p", "-T", "--no-preserve=mode", self.original, package / "crate"], check=True)
        for kept in (".cargo", "Cargo.lock"):
            if (self.original / kept).exists():
                subprocess.run(["cp", "-r", "-p", "--no-preserve=mode", self.original / kept, package], check=True)
        if CIPHERS.get(cipher):
            shutil.rmtree(package / "crate" / STAND_IN)
            shutil.copytree(CIPHERS[cipher], package / "crate" / STAND_IN)
        (package / "Cargo.toml").write_text(MANIFEST.format("cookie" if (self.original / "cookie/Cargo.toml").exists() else ""))
        shutil.copy2(HERE / "driver.rs", package)
        toolchain.run_in(package, "env", f"RUSTFLAGS={FLAGS}", "cargo", "build", "--release", "--offline")
        return package / "target/release/driver"

    def peers(self, way):
        """The original in each way that makes a difference for a work: over each cipher, or with each way to hash. The
        first is the dearest for the port."""
        if not self.original or way == "alone":
            return []
        ciphers = self.ciphers() if way == "private" else self.ciphers()[:1]
        programs = [self.once("original", self.original_with, cipher) for cipher in ciphers]
        if way == "signed":
            steps = [Peer("SHA instructions", programs[0], self.steps)] if HAS_SHA else []
            return [*steps, Peer("portable SHA", programs[0], self.count)]
        return [Peer(cipher if way == "private" else "", program, self.count) for cipher, program in zip(ciphers, programs)]

    def run(self, command, lines):
        """What a command prints, and what it writes to the standard error."""
        text = "".join(line + "\n" for line in lines)
        done = subprocess.run(list(map(str, command)), input=text, capture_output=True, text=True, check=True)
        return done.stdout, done.stderr

    def printed(self, program, words, lines):
        return self.run([program, *words], lines)[0]

    def count(self, program, words, lines):
        """The instructions of a run."""
        tool = ["valgrind", "--tool=callgrind", f"--callgrind-out-file={self.work}/callgrind.out"]
        return int(re.search(r"Collected : (\d+)", self.run([*tool, program, *words], lines)[1])[1])

    def steps(self, program, words, lines):
        """The instructions of a run on the processor itself, one after the other. Valgrind has none for SHA-256."""
        counter = self.work / "steps"
        if not counter.exists():
            toolchain.run_in(self.work, "gcc", "-O2", HERE / "steps.c", "-o", counter)
        return int(self.run([counter, program, *words], lines)[1].split()[-1])

    def memory(self, program, words, lines, pattern=r"total heap usage: ([\d,]+) allocs"):
        """How many blocks of memory a run allocates, or another number that memcheck prints."""
        said = self.run(["valgrind", "--tool=memcheck", program, *words], lines)[1]
        return int(re.search(pattern, said)[1].replace(",", ""))

    def held(self, program, words, lines):
        """The bytes of memory that a run holds at its end."""
        return self.memory(program, words, lines, r"in use at exit: ([\d,]+) bytes")

    def seconds(self, program, words, lines):
        """The processor's time of a run."""
        before = os.times()
        self.run([program, *words], lines)
        after = os.times()
        return after.children_user + after.children_system - before.children_user - before.children_system

    def cost(self, measure, program, runs, share=1):
        """What a work costs that the runs do so often."""
        return sum(run.sign * measure(program, run.words.split(), run.lines) for run in runs) / share
