"""One reader of the sources: a file's items and functions with their clauses, what a crate shows, and its planted bugs."""
import functools
import re
import sys
import typing

import toolchain

ROOT = toolchain.ROOT
# Where an item at the top begins, a function, and a clause.
ITEM = re.compile(r"^(?:pub )?(?:impl|trait|struct|enum|type|fn)\b", re.M)
FUNCTION = re.compile(r"^( {0,4})(pub )?(?:pub\(\w+\) )?(?:const )?(?:extern +)?fn (\w+)", re.M)
CLAUSE = re.compile(r"\s*(requires|ensures)(\*?)\s*(\w*)\s*\{")
SHOWS = re.compile(r"# shows: (\w+)::(\S+?)(?: (\w+)|: (.+))")
# What an `impl` says of how its type is stored, and what only proofs need.
STORED = {"view", "coded", "invariant", "laws", "is_infallible"}


def masked(text):
    """The text with blanks in the place of comments, strings and characters."""
    hide = lambda found: re.sub(r"[^\n]", " ", found[0])
    return re.sub(r'//[^\n]*|b?"(?:\\.|[^"\\])*"|b?\'(?:\\.|[^\'\\\n])\'', hide, text)


def closing(mask, start):
    """Where the bracket that opens at `start` is closed."""
    depth = 0
    for found in re.compile(r"[({\[\]})]").finditer(mask, start):
        depth += 1 if found[0] in "({[" else -1
        if depth == 0:
            return found.start()
    sys.exit(f"a bracket isn't closed: {mask[start:start + 60]}")


def joined(text):
    """The text on one line, without comments and without the comma that ends a list."""
    line = " ".join(re.sub(r"//[^\n]*", "", text).split())
    return re.sub(r",? ([)\]])", r"\1", re.sub(r"([(\[]) ", r"\1", line))


class Item(typing.NamedTuple):
    """An item at the top: its words up to its body, where they begin, and where the body begins and ends."""
    words: str
    at: int
    start: int
    end: int

    def type_and_trait(self):
        """The type that an `impl` is for, or the name of a trait; the trait of the `impl`; and the whole type."""
        if trait := re.match(r"(?:pub )?trait (\w+)", self.words):
            return trait[1], "", ""
        words = re.sub(r"^impl(?:<(?:[^<>]|<[^<>]*>)*>)? ", "", self.words)
        trait, _, kind = words.rpartition(" for ")
        base = re.match(r"(\w+)", kind)
        return base[1] if base else kind, trait, kind


class Said(typing.NamedTuple):
    """What is said of a call by a clause, or of a type by a ghost item: its kind, its name, its text and its place."""
    kind: str
    name: str
    text: str
    at: int
    end: int


class Source:
    """A source file, read item by item."""

    def __init__(self, path):
        self.path, self.text = path, path.read_text()
        self.mask = masked(self.text)
        self.items = list(self.read_items())

    def read_items(self):
        for found in ITEM.finditer(self.mask):
            stop = self.head(found.start())
            end = closing(self.mask, stop) if self.mask[stop : stop + 1] == "{" else stop
            yield Item(joined(self.text[found.start() : stop]), found.start(), stop, end)

    def head(self, start):
        """Where a signature ends: at a clause, a body or a semicolon."""
        depth = 0
        for found in re.compile(r"[()\[\]{;]|\b(?:requires|ensures)\b").finditer(self.mask, start):
            if depth == 0 and found[0] not in ("(", ")", "[", "]"):
                return found.start()
            depth += (found[0] in "([") - (found[0] in ")]")
        return len(self.mask)

    def clauses(self, at):
        """The clauses that begin at `at`."""
        while found := CLAUSE.match(self.mask, at):
            end = closing(self.mask, found.end() - 1)
            yield Said(found[1] + found[2], found[3], joined(self.text[found.end() : end]), found.start(1), end + 1)
            at = end + 1

    def ghosts(self, item):
        """What an item says besides its functions, but how it is stored."""
        for found in re.compile(r"^    ghost (\w+)(: \{| = \{)", re.M).finditer(self.mask, item.start, item.end):
            stop = closing(self.mask, found.end() - 1)
            if found[1] not in STORED:
                yield Said("ghost", found[1], joined(self.text[found.end() : stop]), found.start(), stop + 1)

    def functions(self, item, which):
        """The functions of an item: each signature, where it begins, and its clauses."""
        for found in re.compile(which, re.M).finditer(self.mask, item.start, item.end):
            begin = found.end() - len("fn ")
            stop = self.head(begin)
            call = re.sub(r"(\(|, )mut (?=\w+[:,)])", r"\1", joined(self.text[begin:stop]))
            yield call, found.start(), list(self.clauses(stop))

    def summary(self, at):
        """The first sentence of the comment above the item whose first line has `at`."""
        above = self.text[: self.text.rfind("\n", 0, at) + 1].splitlines()
        while above and re.match(r"\s*(?:#\[|\)\])", above[-1]):
            above.pop()
        comment = []
        while above and (found := re.match(r"\s*/// ?(.*)", above.pop())):
            comment.insert(0, found[1])
        paragraph = " ".join(line or "\n" for line in comment).split("\n")[0].strip()
        return re.split(r"(?<=\.) (?=[A-Z`])", paragraph)[0]

    def line_at(self, at):
        return self.text.count("\n", 0, at) + 1


class Function:
    """A function of a crate: its name with its type's, its place, and the names of the clauses that can refuse a body."""

    def __init__(self, source, found, names):
        self.start, stop = found.start(), source.head(found.end())
        self.said = list(source.clauses(stop))
        after = self.said[-1].end if self.said else stop
        body = re.compile(r"\s*\{").match(source.mask, after)
        self.body = body.end() if body else None
        self.end = closing(source.mask, body.end() - 1) if body else stop
        self.own = {clause.name or clause.kind.rstrip("*") for clause in self.said}
        self.clauses = set(self.own)
        block = next((item for item in source.items if found[1] and item.start <= self.start < item.end), None)
        self.owner = self.trait = ""
        if block:
            self.owner, self.trait, _ = block.type_and_trait()
            self.owner = self.owner.removeprefix("&")
            self.clauses.update(ghost.name for ghost in source.ghosts(block))
        self.call = f"{self.owner}::{found[3]}" if self.owner else found[3]
        is_shown = (self.owner or found[3]) in names
        self.counts = bool(found[2]) and is_shown and not self.trait
        self.is_public = is_shown and bool(found[2] or self.trait or block and block.words.startswith("pub trait"))


class Crate:
    """A crate: its sources but tests, in the order of its modules, what it shows, its functions and its planted bugs."""

    def __init__(self, name, root=ROOT):
        self.name, self.folder = name, root / "crates" / name
        self.is_library = (self.folder / "src/lib.rt").exists()
        top = self.folder / "src" / ("lib.rt" if self.is_library else "main.rt")
        order = re.findall(r"^(?:pub |pub\(crate\) )?mod (\w+);", top.read_text(), re.M)

        def place(path):
            first = path.relative_to(top.parent).parts[0].removesuffix(".rt")
            return order.index(first) if path != top else -1, len(path.parts), path

        paths = [path for path in top.parent.rglob("*.rt") if "tests" not in path.parts and path.stem != "tests"]
        self.sources = {f"src/{path.relative_to(top.parent)}": Source(path) for path in sorted(paths, key=place)}
        self.names = list(dict.fromkeys(self.exported())) if self.is_library else []
        self.invariants = {
            item.type_and_trait()[0] for source, item in self.items()
            if re.search(r"\bModel for\b", item.words) and "ghost invariant" in source.text[item.start : item.end]
        }
        self.by_file = {
            file: [Function(source, found, set(self.names)) for found in FUNCTION.finditer(source.mask)]
            for file, source in self.sources.items()
        }
        self.functions = [function for functions in self.by_file.values() for function in functions]
        self.edits = [Edit(self, path) for path in sorted((self.folder / "planted").glob("*.edit"))]

    def exported(self):
        """The names that a library shows."""
        top = self.sources["src/lib.rt"]
        for source in [top, *(self.sources[f"src/{name}.rt"] for name in re.findall(r"^pub mod (\w+);", top.text, re.M))]:
            for used in re.findall(r"^pub use [\w:]*?(\w+|\{[^}]*\});", source.text, re.M):
                yield from re.findall(r"\w+", used)
            yield from re.findall(r"^pub (?:struct|enum|trait|type|fn|const) (\w+)", source.mask, re.M)
        for source in self.sources.values():
            yield from re.findall(r"^pub extern +fn (\w+)", source.mask, re.M)

    def items(self):
        return [(source, item) for source in self.sources.values() for item in source.items]

    def named(self, call):
        return [function for function in self.functions if function.call == call]

    def clauses(self, call):
        """The clauses of the functions with this name, with those that a trait of the crate gives them."""
        for function in self.named(call):
            yield from function.clauses
            if function.owner in self.invariants:
                yield "invariant"
            trait = re.match(r"\w*", function.trait)[0]
            for other in self.named(f"{trait}::{call.rpartition('::')[2]}") if trait else []:
                yield from other.clauses

    def is_public(self, call):
        return any(function.is_public for function in self.named(call))


class Edit:
    """A planted bug: what it shows, as call, clause and words; the lines that it changes, as file, old and new; and the
    functions that these are in."""

    def __init__(self, crate, path):
        self.crate, self.path, self.name = crate, path, path.stem
        self.shown, self.unread, self.pairs, self.changed, file, old = [], [], [], set(), "", ""
        for line in path.read_text().splitlines():
            head, _, rest = line.partition(":")
            rest = rest.removeprefix(" ")
            if head == "# shows":
                found = SHOWS.fullmatch(line)
                if found and found[1] == crate.name:
                    self.shown.append((found[2], found[3], found[4]))
                else:
                    self.unread.append(line)
            elif head == "file":
                file = rest.strip()
            elif head == "old":
                old = rest
                self.changed |= self.functions_at(file, old) if file in crate.sources else set()
            elif head == "new":
                self.pairs.append((file, old, rest))

    def functions_at(self, file, old):
        at = self.crate.sources[file].text.find(old) + len(old) - len(old.lstrip())
        return {function.call for function in self.crate.by_file[file] if function.start <= at <= function.end}


@functools.cache
def crate_of(name):
    """A crate of this folder, read once."""
    return Crate(name)
