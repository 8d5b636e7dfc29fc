"""Names the public calls that nothing runs, for tools/quick.

In the copy of the crates in which `tools/quick` makes its runs, each public function of a library first marks that it was
called, by a function of C. There the programs run as they are stored, the rows of cookie_vectors among them, and the
tests. It needs rt and a C compiler. The libraries that play rows are tests, so their calls aren't counted, nor is a
conversion of an error (`From`): most come only out of memory. `tools/try` sees whether each export of cookie_c is called.

The copy has a public function more, which nothing runs: it has to be named, and no other.
"""
import os, re, shutil

import sources
import toolchain

ROOT = toolchain.ROOT
# What nothing runs: the call, the file that has it in the copy, and its text.
PLANTED = "cookie_date::is_never_run", "crates/cookie_date/src/lib.rt", "pub fn is_never_run() {}"
MARKING = """\
#![tactic(auto)]

unsafe extern "C" {
    safe fn called_mark(place: u32);
}

pub fn mark(place: u32) {
    called_mark(place)
}
"""
# Each process writes a call's number once.
MARKING_IN_C = """\
#include <fcntl.h>
#include <stdint.h>
#include <stdio.h>
#include <unistd.h>

void called_mark(uint32_t place) {
    static char is_marked[%d];
    char line[16];
    if (is_marked[place])
        return;
    is_marked[place] = 1;
    int marks = open("%s", O_WRONLY | O_CREAT | O_APPEND, 0600);
    int length = snprintf(line, sizeof line, "%%u\\n", (unsigned)place);
    if (marks < 0 || write(marks, line, (size_t)length) != length)
        _exit(3);
    close(marks);
}
"""


def copy(room):
    """Puts the crates into the folder, each of which can mark its calls, with what nothing runs."""
    shutil.copytree(ROOT / "crates", room / "crates", ignore=shutil.ignore_patterns("out", "proofs", "planted"))
    below = (ROOT / "crates.txt").read_text()
    (room / "crates.txt").write_text("called:\n" + re.sub(r"^(\w[^:#\n]*):", r"\1: called", below, flags=re.M))
    _, file, text = PLANTED
    with (room / file).open("a") as source:
        source.write(f"\n{text}\n")


def is_counted(function):
    is_conversion = function.trait.startswith("From<") and function.owner.endswith("Error")
    return function.is_public and function.body is not None and not is_conversion


def mark(room):
    """Has each public function of the copy's libraries mark that it is called. Returns the names of the calls."""
    calls = []
    libraries = {path.parent.parent.name for path in room.glob("crates/*/src/lib.rt")}
    for crate in sorted(libraries - toolchain.players() - {"cookie_c"}):
        read = sources.Crate(crate, room)
        for file, functions in read.by_file.items():
            text, parts, at = read.sources[file].text, [], 0
            for function in filter(is_counted, functions):
                parts += [text[at : function.body], f" called::mark({len(calls)});"]
                at = function.body
                calls.append(f"{crate}::{function.trait and function.trait + ' for '}{function.call}")
            (room / "crates" / crate / file).write_text("".join(parts) + text[at:])
    folder = room / "crates/called"
    for file, text in (("src/lib.rt", MARKING), ("c/called.c", MARKING_IN_C % (len(calls), room / "marks"))):
        (folder / file).parent.mkdir(parents=True)
        (folder / file).write_text(text)
    return calls


def marked_copy(room):
    """Makes a copy of the crates in the folder whose calls mark that they are called. Returns their names."""
    os.environ["RT_ALLOW_C"] = "called"
    copy(room)
    return mark(room)


def marks_in(room):
    """The numbers of the calls that runs of the copy have marked."""
    marks = room / "marks"
    return {int(line) for line in marks.read_text().split()} if marks.exists() else set()


def faults_of(uncalled):
    """What nothing runs, and what isn't named though nothing runs it."""
    yield from (f"{name}: nothing runs it" for name in sorted(uncalled - {PLANTED[0]}))
    yield from (f"{name}: it isn't named, though nothing runs it" for name in sorted({PLANTED[0]} - uncalled))


def faults_in(room, calls):
    """What is wrong after all runs of the copy, a line for each, or nothing."""
    marks = marks_in(room)
    uncalled = {name for number, name in enumerate(calls) if number not in marks}
    return "".join(f"{fault}\n" for fault in faults_of(uncalled))
