"""Refuses each request for memory in turn, in calls on jars, sessions and user agents.

    tools/limits/run starve [MODULE..]

Each test of tests/ makes one call, with the Nth request refused, for N = 1, 2, .. until a run meets no refusal. It passes
where the answer is the one that is wanted, and ends with the text `refused` where memory was refused and all is as before.
Anything else is a fault: another text, a right answer though a request was refused, and a failure where none was.

A build takes minutes and a run milliseconds, and the toolchain's switch refuses the same request in each run of a build. So
a build has each test many times over: each copy first makes requests of its own, one fewer than the last, so that the
refused one is the copy's Nth. A request after the test tells whether it was met. A test ends at two numbers in a row that
meet no refusal.

It takes the last commit's crates, some ten minutes, and prints for each test the greatest N that was refused.
"""

import re
import shutil
import subprocess
import sys
import tempfile
from pathlib import Path

HERE = Path(__file__).resolve().parent
TOP = HERE.parent.parent
LINE = "memory_vectors: cookie_session cookie_agent cookie_browser cookie jiff rand_core\n"
ROOT = "#![tactic(auto)]\n\n#[cfg(test)]\nmod tests;\n"
TEST = re.compile(r"\npub fn (\w+)\(alloc: Global\) -> Result<bool, Stop>")
RESULT = re.compile(r"test tests::(\S+)_at_(\d+) \.\.\. (ok|FAILED)$")
# As REFUSED of tests.txt, the greatest N.
REFUSED = 200
# How many copies a build has, and of each test at first.
COPIES = 1400
FIRST = 20
COPY = """
#[test]
fn {name}_at_{number}(rt: HostRuntime) -> Result<(), Fail> {{
    let alloc = rt.alloc();
    if !super::spend(alloc, {before}) {{
        return Err(Fail::new("refused before the test"));
    }}
    super::judge(alloc, {name}(alloc))
}}
"""


def sources():
    """The text of each module of tests, by its name."""
    return {file.stem: file.read_text() for file in sorted((HERE / "tests").glob("*.txt"))}


def make_crate(work):
    """A crate beside the last commit's."""
    clone = work / "clone"
    subprocess.run(["git", "clone", "--quiet", TOP, clone], check=True)
    with open(clone / "crates.txt", "a") as crates:
        crates.write(LINE)
    crate = clone / "crates/memory_vectors"
    (crate / "src/tests").mkdir(parents=True)
    (crate / "src/lib.rt").write_text(ROOT)
    shutil.copy(HERE / "tests.txt", crate / "src/tests.rt")
    return crate


def write_copies(crate, left, numbers):
    """The tests that are left, each once for each number."""
    for module, text in sources().items():
        names = [name for name in TEST.findall(text) if f"{module}::{name}" in left]
        text += "\nuse std::test::Fail;\n" if names else ""
        for name in names:
            for number in numbers:
                text += COPY.format(name=name, number=number, before=REFUSED - number)
        (crate / f"src/tests/{module}.rt").write_text(text)


def verdict(lines):
    """`ok` where no request was refused, `refused`, or what a fault said."""
    if not lines:
        return "ok"
    said = [line for line in lines if not line.startswith("the test ")]
    return "refused" if said == ["refused"] else " ".join(said) or "fault"


def outcomes(crate, log):
    """What each copy said, by the test's name and the number."""
    words = ["rt", "try", "--test", "--seconds", "600", "--fail-alloc", str(REFUSED)]
    done = subprocess.run(words, cwd=crate, stdout=subprocess.PIPE, stderr=subprocess.STDOUT, text=True)
    log.write_text(done.stdout)
    found = {}
    lines = None
    for line in done.stdout.splitlines():
        result = RESULT.match(line)
        if result:
            lines = found[result[1], int(result[2])] = [] if result[3] == "ok" else ["the test failed"]
        elif lines and line.startswith("    "):
            lines.append(line.strip())
    return {copy: verdict(lines) for copy, lines in found.items()}


def run(work, modules):
    """What each copy said, over as many builds as it takes."""
    crate = make_crate(work)
    left = {f"{module}::{name}" for module, text in sources().items() if not modules or module in modules for name in TEST.findall(text)}
    said = {}
    first = 1
    while left and first <= REFUSED:
        count = FIRST if first == 1 else COPIES // len(left)
        numbers = range(first, min(first + count, REFUSED + 1))
        write_copies(crate, left, numbers)
        log = work / f"from-{first}.txt"
        found = outcomes(crate, log)
        if len(found) != len(left) * len(numbers):
            sys.exit(f"{len(found)} of {len(left) * len(numbers)} copies ran: see {log}\n{log.read_text()[-2000:]}")
        said.update(found)
        left = {name for name in left if any(said[name, number] != "ok" for number in numbers[-2:])}
        print(f"{numbers[0]} to {numbers[-1]}: {len(left)} tests go on", file=sys.stderr, flush=True)
        first = numbers[-1] + 1
    return said, left


def report(said, left):
    """Prints the greatest N at which each test was refused, and each fault, and answers whether the run failed."""
    names = sorted({name for name, _ in said})
    print("| Test | Greatest N refused |\n|---|---:|")
    for name in names:
        refused = [number for (test, number), word in said.items() if test == name and word == "refused"]
        print(f"| `{name}` | {max(refused, default=0)} |")
    faults = [f"{name} at {number}: {word}" for (name, number), word in sorted(said.items()) if word not in ("ok", "refused")]
    for fault in faults:
        print(fault)
    refused = sum(word == "refused" for word in said.values())
    print(f"{len(names)} tests, {len(said)} runs, {refused} refused, {len(faults)} faults, {len(left)} unfinished")
    return bool(faults or left)


def main(modules):
    with tempfile.TemporaryDirectory() as folder:
        said, left = run(Path(folder).resolve(), modules)
    sys.exit(report(said, left))


main(sys.argv[1:])
