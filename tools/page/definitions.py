"""Shows that docs/DEFINITIONS.md lists the words that public clauses are written with, and no others, by
`tools/pages definitions`.

A word is a definition of crates/CRATE/specs/FILE.antt. A clause is an `ensures` or a `requires` of a public call, or what a
public type says of itself (`ghost output`, `eq`, `next_gives` and their like), but how the type is stored. Each word that a
clause names, and each that those are written with, has to stand on the page: in the section of its crate, in a row that
names its file. A file whose first line begins with `-- Mirrors private code:` is passed over. Each word in the first column
of the page has to be a definition of its row's files.
"""
import collections
import re

from sources import ROOT, crate_of

PAGE = "docs/DEFINITIONS.md"
MARK = "-- Mirrors private code:"
USE = re.compile(r"\buse Rattle\.(\w+)\.specs\.([\w.]+?)(?:\.\{([^}]*)\}| as (\w+))?[ ;]*$", re.M)
PASSED_ON = re.compile(r"^pub use Rattle\.(\w+)\.specs\.(\w+)(?: as (\w+))?$", re.M)
DEFINITION = re.compile(r"\s*(?:abbrev|unfoldable) (?:pub )?([^\s:(]+)|(?:pub )?(?:record|data) ([^\s:({]+)")
TOKEN = re.compile(r"(?<![\w.'◌-])(?:(\w+)\.)?([^\W\d][\w'-]*)")


class File:
    """A file of specs/: its words, each with its line and its text, and the words that it imports."""

    def __init__(self, crate, path):
        self.crate, self.name, self.path = crate, path.stem, path.relative_to(ROOT)
        self.text = path.read_text()
        self.mirrors = self.text.startswith(MARK)
        self.line, self.body, self.of_case = {}, {}, {}
        word = data = None
        for number, line in enumerate(self.text.splitlines(), 1):
            if line.startswith(("use ", "pub use ")) or line.lstrip().startswith("--"):
                continue
            begun = DEFINITION.match(line)
            if begun:
                word = begun[1] or begun[2]
                data = word if " data " in " " + line else None
                self.line[word], self.body[word] = number, ""
            elif not line.strip():
                word = None
            elif data and (case := re.match(r"  (\w+) :", line)):
                self.of_case[case[1]] = data
            if word:
                self.body[word] += line + "\n"


class Specs:
    """The files of specs/ of all libraries, and those that a crate passes on of lower ones."""

    def __init__(self):
        # A program has no public calls.
        folders = sorted(path for path in ROOT.glob("crates/*/specs") if (path.parent / "src/lib.rt").exists())
        self.crates = [folder.parent.name for folder in folders]
        paths = [path for folder in folders for path in sorted(folder.glob("*.antt"))]
        self.files = {(path.parts[-3], path.stem): File(path.parts[-3], path) for path in paths if path.stem != "Lib"}
        self.passed = {
            (crate, other or name): (lower, name)
            for crate in self.crates
            for lower, name, other in PASSED_ON.findall((ROOT / "crates" / crate / "specs/Lib.antt").read_text())
        }

    def imports(self, text):
        """The words that a text imports by name, and the files that it names as a whole."""
        words, files = {}, {}
        for crate, name, names, other in USE.findall(text):
            while (crate, name) not in self.files and (crate, name) in self.passed:
                crate, name = self.passed[crate, name]
            file = self.files.get((crate, name))
            for pair in names.split(",") if file else ():
                word, _, here = pair.strip().partition(" as ")
                words[here or word] = file, word
            if file and other:
                files[other] = file
        return words, files

    def named(self):
        """The words that public clauses name, each with the place of the first one."""
        places = {}
        for name in self.crates:
            crate = crate_of(name)
            for file in sorted(crate.sources, key=lambda file: crate.sources[file].path):
                source = crate.sources[file]
                words, files = self.imports(source.text)
                for call, said in sorted(said_in(crate, file), key=lambda pair: pair[1].at):
                    for word in words_in(said.text, words, files):
                        places.setdefault(word, f"crates/{name}/{file}:{source.line_at(said.at)}: {call} names")
        return places

    def reached(self, places):
        """Those words and the ones that they are written with."""
        left = collections.deque(places)
        while left:
            file, word = left.popleft()
            words, files = self.imports(file.text)
            words.update((own, (file, own)) for own in [*file.line, *file.of_case])
            for other in words_in(file.body[word], words, files):
                if other not in places:
                    places[other] = f"{file.path}:{file.line[word]}: {word} is written with"
                    left.append(other)
        return places

    def listed(self):
        """The words of the page, and the faults of its rows."""
        found, faults, crate = set(), [], None
        for number, line in enumerate((ROOT / PAGE).read_text().splitlines(), 1):
            if line.startswith("## "):
                crate = next(iter(re.findall(r"`(\w+)`", line)), None)
            cells = [cell.strip() for cell in line.split(" | ")]
            if crate not in self.crates or not line.startswith("| ") or len(cells) < 4 or cells[2] == "File":
                continue
            names = [name.strip() for name in cells[2].split(",")]
            files = [self.files[crate, name] for name in names if (crate, name) in self.files]
            absent = [name for name in names if (crate, name) not in self.files]
            faults += [f"{PAGE}:{number}: {crate} has no specs/{name}.antt" for name in absent]
            for word in re.findall(r"`([^\s`]+)[^`]*`", cells[0]):
                of = [(file, word) for file in files if word in file.line]
                found.update(of)
                if files and not of:
                    faults.append(f"{PAGE}:{number}: {word} is no definition of {crate}, specs/{cells[2]}")
        return found, faults


def words_in(text, words, files):
    for before, token in TOKEN.findall(text):
        for found in (files.get(before), token), words.get(before), (None if before else words.get(token)):
            if found and found[0]:
                file, word = found
                word = file.of_case.get(word, word)
                if word in file.line:
                    yield file, word


def said_in(crate, file):
    """What the public calls and types of a file say, each with the name of the call or the type."""
    for function in crate.by_file[file]:
        if function.is_public:
            yield from ((function.call, clause) for clause in function.said)
    for item in crate.sources[file].items:
        owner = item.type_and_trait()[0]
        if re.match(r"(?:pub )?trait\b|impl\b", item.words) and owner in crate.names:
            yield from ((f"{owner}, {ghost.name},", ghost) for ghost in crate.sources[file].ghosts(item))


def faults(is_check):
    """What the page lacks, and what it has too much."""
    specs = Specs()
    places = specs.named()
    on_page, wrong = specs.listed()
    for crate in specs.crates:
        if not any(place.startswith(f"crates/{crate}/src/") for place in places.values()):
            wrong.append(f"crates/{crate}: no public clause was found")
    for (file, word), place in specs.reached(places).items():
        if (file, word) not in on_page and not file.mirrors:
            wrong.append(f"{place} {word}, of specs/{file.name} of {file.crate}, which {PAGE} doesn't list")
    return sorted(wrong)
