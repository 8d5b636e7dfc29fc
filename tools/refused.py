"""Shows that the compiler refuses the texts crates/NAME/must-not-compile/*.edit, each with the error that it names, for
tools/quick.

A text has a line `error: CODE` and a line `file: src/FILE`, and then either what a planted bug has (`old:` and `new:`, one
line each, where the old text is once in the file), or `append:` and the lines that come after the file's end. A crate
with tests is compiled by `rt try --test`, which builds no library, and another by `rt check --only=`, which proves
nothing of it.
"""
import pathlib
import re
import shutil
import subprocess
import tempfile

import toolchain

ROOT = toolchain.ROOT


def change(folder, text):
    """Changes a copy of the crate as the text says. Returns the error that it names, and the file."""
    head, _, added = text.partition("append:\n")
    said = dict(line.split(": ", 1) for line in head.splitlines())
    path = folder / said["file"]
    code = path.read_text()
    if "old" in said:
        if code.count(said["old"]) != 1:
            return None
        code = code.replace(said["old"], said["new"])
    path.write_text(code + added)
    return said["error"], said["file"]


def compiled(folder):
    """What the compiler says of the crate."""
    has_tests = any("#[test]" in path.read_text() for path in (folder / "src").rglob("*.rt"))
    command = ["rt", "try", "--test"] if has_tests else ["rt", "check", "--only="]
    return subprocess.run(command, cwd=folder, stdout=subprocess.PIPE, stderr=subprocess.STDOUT, text=True, timeout=900).stdout


def fault_of(room, path):
    """Why the text isn't refused as it must be, or nothing."""
    folder = room / "crates" / path.parent.parent.name
    named = change(folder, path.read_text())
    if named is None:
        return "the old text isn't once in its file"
    said = compiled(folder)
    shutil.copy(ROOT / folder.relative_to(room) / named[1], folder / named[1])
    wanted = rf"{re.escape(named[1])}:\d+:\d+: error\[{re.escape(named[0])}\]"
    errors = [line for line in said.splitlines() if ": error" in line]
    is_refused = errors and all(re.match(wanted, line) for line in errors)
    return "" if is_refused else f"not refused with {named[0]}: {said[-300:]}"


def faults(crates):
    """What is wrong with the texts of these crates, a line for each, or nothing."""
    texts = [path for crate in crates for path in sorted((ROOT / "crates" / crate / "must-not-compile").glob("*.edit"))]
    with tempfile.TemporaryDirectory() as room:
        room = pathlib.Path(room)
        shutil.copy(ROOT / "crates.txt", room)
        shutil.copytree(ROOT / "crates", room / "crates", ignore=shutil.ignore_patterns("out"))
        found = {path: fault_of(room, path) for path in texts}
    return "".join(f"{path.relative_to(ROOT)}: {fault}\n" for path, fault in found.items() if fault)
