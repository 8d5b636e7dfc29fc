"""Plays the rows of cookie_vectors with the Nth request for memory refused, for a sample of N.

    tools/limits/run rows [COUNT]

Each run has to end with all rows right, or tell that memory ran out: by the program's error, or by what came of one row. A
wrong answer, a second row and a crash are faults. A build takes minutes and a run seconds, and the toolchain's switch
refuses the same request in each run of a build. So the build's `main` first makes as many requests as standard input says:
the refused one is then the rows' Nth. Each N is a case of `rt try --cases`.

It takes the last commit's crates. COUNT is how many N are tried, 25 if it isn't given: the first FIRST, and then at equal
steps up to REFUSED, which is more than the rows make. It prints how the runs ended.
"""

import collections
import re
import subprocess
import sys
import tempfile
from pathlib import Path

TOP = Path(__file__).resolve().parent.parent.parent
# The number of the request that is refused, which is the greatest N.
REFUSED = 1_000_000
FIRST = 5
MAIN = "fn main(rt: HostRuntime) -> Result<ExitCode> {\n"
SPEND = """    let mut digits = [0; 7];
    std::io::Read::read_exact(&mut rt.stdin(), &mut digits)?;
    for _ in 0..str::from_utf8(&digits)?.parse::<u32>()? {
        String::from_str(rt.alloc(), "x")?;
    }
"""
CAME = re.compile(r"^    came:     (.*)$", re.MULTILINE)
OUT_OF_MEMORY = re.compile("memory ran out|memory allocation failed|out of memory|OutOfMemory")
RIGHT, TOLD = "all rows right", "out of memory told"


def make_crate(work):
    """The last commit's crate, whose program first makes requests of its own."""
    subprocess.run(["git", "clone", "--quiet", TOP, work / "clone"], check=True)
    crate = work / "clone/crates/cookie_vectors"
    main = (crate / "src/main.rt").read_text()
    if main.count(MAIN) != 1:
        sys.exit("the program has no main to change")
    (crate / "src/main.rt").write_text(main.replace(MAIN, MAIN + SPEND))
    return crate


def sample(count):
    step = REFUSED // max(1, count - FIRST)
    return sorted({*range(1, FIRST + 1), *range(step, REFUSED + 1, step)})


def play(crate, cases):
    words = ["rt", "try", "--seconds", "600", "--fail-alloc", str(REFUSED), "--cases", cases]
    for path in sorted((crate / "data").iterdir()):
        words += ["--data", f"{path.name}=data/{path.name}"]
    return subprocess.run(words, cwd=crate, stdin=subprocess.DEVNULL, capture_output=True, text=True)


def verdict(ended, output, error, count):
    """How a run ended, or what it said."""
    came, last = CAME.findall(output), output.rstrip().rpartition("\n")[2]
    if ended == "run=ended status=0" and last == f"{count} rows right, 0 wrong" and not came:
        return RIGHT
    is_row = last == f"{count - 1} rows right, 1 wrong" and len(came) == 1
    told = came if is_row else [] if came else [error]
    is_told = ended == "run=ended status=1" and any(OUT_OF_MEMORY.search(text) for text in told)
    return TOLD if is_told else f"{ended}\n{output}{error}"


def outcomes(done, count):
    """How the run of each case ended, by its N."""
    outputs = re.split(r"^== (\d+)\n", done.stdout, flags=re.MULTILINE)[1:]
    outputs = dict(zip(outputs[::2], outputs[1::2]))
    errors = re.split(r"^case=(\d+) (run=\S+ status=\S+).*\n", done.stderr, flags=re.MULTILINE)
    cases = zip(errors[1::3], errors[2::3], errors[::3])
    return {int(number): verdict(ended, outputs[number], error, count) for number, ended, error in cases}


def main():
    numbers = sample(int(sys.argv[1]) if len(sys.argv) > 1 else 25)
    with tempfile.TemporaryDirectory() as work:
        crate, cases = make_crate(Path(work)), Path(work) / "cases"
        count = int((crate / "stdout").read_text().split()[0])
        cases.mkdir()
        for number in numbers:
            (cases / f"{number:07}").write_text(f"{REFUSED - number:07}")
        done = play(crate, cases)
    found = outcomes(done, count)
    if sorted(found) != numbers:
        sys.exit(f"{len(found)} of {len(numbers)} runs ended\n{done.stderr[-2000:]}")
    ends = collections.Counter(word for word in found.values() if word in (RIGHT, TOLD))
    for number, word in sorted(found.items()):
        if word not in ends:
            print(f"{number}: {word}")
    last = max(number for number, word in found.items() if word != RIGHT)
    faults = len(found) - ends.total()
    print(f"{len(found)} runs up to request {last} and past it: {ends[TOLD]} {TOLD}, {ends[RIGHT]} {RIGHT}, {faults} faults")
    return bool(faults)


sys.exit(main())
