"""What pages and comments quote by hand, by `tools/pages quotes`.

README.md, docs/GUIDE.md, CONTRIBUTING.md and each crate's README.md: each block of Rust code must be in a crate, line by
line but for comments and empty lines, and each block of what a program printed in a stored run. crates/CRATE/src: the
function that an "Example:" names must be in that file, and call what the comment is of.
"""
import re

from sources import ROOT, masked

OF_CRATES = sorted(str(path.relative_to(ROOT)) for path in ROOT.glob("crates/*/README.md"))
PAGES = ["README.md", "docs/GUIDE.md", "CONTRIBUTING.md", *OF_CRATES]
EXAMPLE = re.compile(
    r"/// Example: `(\w+)` in (\S+\.rt)\.\n(?:\s*(?:///|#\[)[^\n]*\n)*\s*(?:pub )?(?:const )?(?:fn|struct|enum|trait) (\w+)"
)


def code_lines(text):
    """The lines of code, without their indents, comments and empty lines."""
    lines = (re.sub(r"(^|\s)//.*", "", line).strip() for line in text.splitlines())
    return "\n".join(line for line in lines if line)


def unquoted(page, sources, runs):
    """The first line of each block of Rust code that is in no crate, or of output that is in no stored run."""
    for kind, block in re.findall(r"^```(\w*)\n(.*?)^```", (ROOT / page).read_text(), re.M | re.S):
        known = [code_lines(block) in source for source in sources] if kind == "rust" else [block in run for run in runs]
        if (kind == "rust" or block.startswith("Set-Cookie: ")) and not any(known):
            yield block.strip().splitlines()[0]


def missing_examples(path, text):
    """Each "Example:" of a comment whose file lacks that function, or has no call of what the comment is of."""
    found = list(EXAMPLE.finditer(text))
    if len(found) != text.count("/// Example: "):
        yield f"{path.relative_to(ROOT)}: an example isn't the last line of an item's comment"
    for shown, place, call in map(re.Match.groups, found):
        example = ROOT / place
        code = masked(example.read_text()) if example.exists() else ""
        whole = re.search(rf"\bfn {shown}\b.*?\n\}}", code, re.S)
        if not whole or not re.search(rf"\b{call}\b", whole[0]):
            yield f"{path.relative_to(ROOT)}: {shown} in {place} shows no {call}"


def faults(is_check):
    """What is quoted and isn't there."""
    texts = {path: path.read_text() for path in sorted(ROOT.glob("crates/*/src/**/*.rt"))}
    sources = [code_lines(text) for text in texts.values()]
    runs = [path.read_text() for path in ROOT.glob("crates/*/stdout")]
    for page in PAGES:
        yield from (f"{page}: in no crate and no stored run: {line}" for line in unquoted(page, sources, runs))
    for path, text in texts.items():
        yield from missing_examples(path, text)
