"""What the tools share on the toolchain and on crates.txt."""
import hashlib
import importlib.machinery
import importlib.util
import os
import pathlib
import re
import shutil
import subprocess
import sys

ROOT = pathlib.Path(__file__).resolve().parent.parent
# What a proof of a crate reads of its folder.
PARTS = ("src", "specs", "proofs")
# What was proved of a crate, in its out/, by a tool that begins with what `rt ci` has left.
PROVED = "proved"
# No folder of compiled modules in the sources.
sys.dont_write_bytecode = True


def module_of(name):
    """A tool without the ending .py, as a module."""
    path = ROOT / "tools" / name
    loader = importlib.machinery.SourceFileLoader(path.name, str(path))
    module = importlib.util.module_from_spec(importlib.util.spec_from_loader(path.name, loader))
    loader.exec_module(module)
    return module


def help_if_asked():
    """Prints the head of the program that runs, and ends it, if its words have `--help` or `-h`."""
    if {"-h", "--help"} & {*sys.argv[1:]}:
        print(sys.modules["__main__"].__doc__.strip())
        sys.exit()


def kit():
    """The toolchain's folder."""
    page = subprocess.run(["rt", "doc"], check=True, capture_output=True, text=True).stdout.strip()
    return pathlib.Path(page).parent


def crate_lines():
    """What each crate of crates.txt depends on."""
    lines = [line.split("#")[0] for line in (ROOT / "crates.txt").read_text().splitlines() if ":" in line.split("#")[0]]
    return {head.split()[0]: names.split() for head, _, names in (line.partition(":") for line in lines)}


def static_libraries():
    """The crates that are libraries for C."""
    return set(re.findall(r"^(\w+) +staticlib *:", (ROOT / "crates.txt").read_text(), re.M))


def crates_below(name):
    """The crate, and all crates of the repository that it depends on."""
    below, found = crate_lines(), {name}
    while more := {lower for crate in found for lower in below[crate] if lower in below} - found:
        found |= more
    return sorted(found)


def players():
    """The crates that play rows, which are tests and no products: `rows`, and those that stand on it."""
    return {name for name in crate_lines() if "rows" in crates_below(name)}


def words_of(crate):
    """The words of `rattle check` and `rattle build` for a crate, over the libraries in the folders out/ below it."""
    folder, below = kit(), crate_lines()
    built = {name: ROOT / "crates" / name / "out/rlib" for name in below}
    root = "src/main.rt" if (ROOT / "crates" / crate / "src/main.rt").exists() else "src/lib.rt"
    words = ["--crate-name", crate, root, "--links", f"{crate}="]
    words += ["--crate-type", "staticlib"] if crate in static_libraries() else []
    for name in ["std", *below[crate]]:
        words += ["--extern", f"{name}={built.get(name, folder / 'rlibs') / name}.rlib"]
    for place in [folder / "rlibs", *(built[name] for name in crates_below(crate) if name != crate)]:
        words += ["-L", f"dependency={place}"]
    return [*words, "--antt-project", folder / "rattle/logic/antt-project.json", "--logic-built", folder / "logic_built"]


def last_change(crate):
    """When a file was last changed that the crate's library is made from."""
    files = [path for part in PARTS for path in (ROOT / "crates" / crate / part).rglob("*") if path.is_file()]
    return max(path.stat().st_mtime for path in files)


def is_built(crate):
    """Whether the crate's library is in its folder out/, and was put there after the last change of what it is made from.
    `rt ci` links libraries that it made before, which changes the time of their status and no other."""
    rlib = ROOT / "crates" / crate / "out/rlib" / f"{crate}.rlib/format"
    return rlib.exists() and last_change(crate) <= rlib.stat().st_ctime


def sum_of(*paths):
    """A sum of the files' bytes."""
    total = hashlib.sha256()
    for path in paths:
        total.update(path.read_bytes())
    return total.hexdigest()


def run_in(folder, *command):
    """Runs a command that builds, and ends the script with what it wrote if it fails."""
    outputs = {"stdout": subprocess.PIPE, "stderr": subprocess.STDOUT}
    done = subprocess.run(list(map(str, command)), cwd=folder, text=True, errors="replace", **outputs)
    if done.returncode != 0:
        sys.exit(done.stdout)


def files_of(source):
    """The files of a driver, by their names in its crate: one file, or those of a folder that has main.txt."""
    return {path.stem + ".rt": path for path in sorted(source.glob("*.txt"))} if source.is_dir() else {"main.rt": source}


def put_driver(source, folder):
    """Puts the files of a driver into the folder src/ of its crate."""
    (folder / "src").mkdir(parents=True, exist_ok=True)
    for name, path in files_of(source).items():
        shutil.copy(path, folder / "src" / name)


def driver_over(work, name, needs, source):
    """Proves and builds a driver over the libraries in the folders out/, by the commands that `rt run` gives. If it was
    built in this folder before, of the same files over the same libraries, it is taken as it is."""
    tools, at = kit(), work / name
    built = {crate: ROOT / "crates" / crate / "out/rlib" for need in needs if need in crate_lines() for crate in crates_below(need)}
    files = [place / f"{crate}.rlib" / file for crate, place in sorted(built.items()) for file in ("format", "toolchain/mir.json")]
    stamp, kept = sum_of(*files_of(source).values(), tools / "KIT-ID", *files), at / "stamp"
    if kept.exists() and kept.read_text() == stamp:
        return at / name
    put_driver(source, at)
    kept.unlink(missing_ok=True)
    words = ["--crate-name", name, "src/main.rt", "--incremental", "incremental"]
    for crate in ["std", *needs]:
        words += ["--extern", f"{crate}={built.get(crate, tools / 'rlibs') / crate}.rlib"]
    for place in [tools / "rlibs", *built.values()]:
        words += ["-L", f"dependency={place}"]
    words += ["--antt-project", tools / "rattle/logic/antt-project.json", "--logic-built", tools / "logic_built"]
    words += ["--toolchain", tools / "toolchain", "--backend", "llvm", "--jobs", "1", "-o", f"{name}.o"]
    run_in(at, tools / "bin/rattle", "build", *words)
    target = ["--target", "x86_64-unknown-linux-gnu", "--toolchain", tools / "toolchain", "-o", name]
    run_in(at, tools / "bin/rattle-link", *target, f"{name}.o", tools / "c/libos_c.a", tools / "c/liblibc_c.a")
    kept.write_text(stamp)
    return at / name


def program_of(work, name, needs, words, source=None, stdin=subprocess.DEVNULL):
    """Proves and builds a program over the last commit, from what checks of this folder have kept, and runs it once
    with these words. It is the crate of that name, or a driver of `source` over the crates that it needs. A
    driver is built over the libraries of this folder, if all are there, as after `rt ci`: in the folder that the variable
    KEEP names, if it does, where it stays for later."""
    if source and all(is_built(crate) for need in needs if need in crate_lines() for crate in crates_below(need)):
        program = driver_over(pathlib.Path(os.environ.get("KEEP", work)).resolve(), name, needs, source)
        subprocess.run([program, *words], stdin=stdin, stdout=subprocess.DEVNULL, check=True)
        return program
    clone = work / "clone"
    if not clone.exists():
        subprocess.run(["git", "clone", "--quiet", ROOT, clone], check=True)
    for crate in {below for need in needs if need in crate_lines() for below in crates_below(need)}:
        kept, copy = (top / "crates" / crate / "out" for top in (ROOT, clone))
        if kept.exists() and not copy.exists():
            shutil.copytree(kept, copy)
    folder = clone / "crates" / name
    if source:
        put_driver(source, folder)
        (folder / "specs").mkdir()
        (folder / "specs/Lib.antt").touch()
        with open(clone / "crates.txt", "a") as crates:
            crates.write(f"{name}: {' '.join(needs)}\n")
    command = ["rt", "run", "--jobs", "1", "--", *words]
    done = subprocess.run(command, cwd=folder, stdin=stdin, stdout=subprocess.PIPE, stderr=subprocess.STDOUT, errors="replace")
    if not (folder / "out" / name).exists() or done.returncode != 0:
        sys.exit(done.stdout)
    return folder / "out" / name


def instructions(work, command, **options):
    """The instructions of a run, by valgrind."""
    count = ["valgrind", "--tool=callgrind", f"--callgrind-out-file={work}/callgrind.out", *map(str, command)]
    done = subprocess.run(count, stdout=subprocess.PIPE, stderr=subprocess.PIPE, text=True, check=True, **options)
    return int(re.search(r"Collected : (\d+)", done.stderr)[1])
