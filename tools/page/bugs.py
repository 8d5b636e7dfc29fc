"""The table of docs/PROVED.md that says what each planted bug shows, by `tools/pages planted`.

A file of crates/CRATE/planted has lines `# shows: CRATE::CALL CLAUSE`. The first one names the function that the bug
changes, and its clause that refuses the bug. If that function isn't public, further lines name public calls, each with the
clause that the bug would break. A clause without a name is `ensures`, and `invariant` is the type's. Where no clause can be
named, the line is `# shows: CRATE::CALL: WORDS`, and the words say what breaks. Each call and clause must be in the sources.
"""
from sources import ROOT, crate_of

PAGE = ROOT / "docs/PROVED.md"
HEADING = "### What each planted bug shows\n"
LEGEND = """\
By `tools/pages`, from the files themselves. Each bug is listed where it breaks a promise of a public call: the clause,
and the files of the crate's planted. A bug in a private function can break several.
"""


def faults_of(edit):
    place, crate = edit.path.relative_to(ROOT), edit.crate
    for line in edit.unread:
        yield f"{place}: not of the form `# shows: {crate.name}::CALL CLAUSE`: {line}"
    if not edit.shown and not edit.unread:
        yield f"{place}: no line `# shows: {crate.name}::CALL CLAUSE`"
    for call, clause, _ in edit.shown:
        if not crate.named(call):
            yield f"{place}: {crate.name} has no function {call}"
        elif clause and clause not in crate.clauses(call):
            yield f"{place}: {call} has no clause {clause}"
    if edit.shown and edit.changed and edit.shown[0][0] not in edit.changed:
        yield f"{place}: the first line doesn't name what the bug changes: {' '.join(sorted(edit.changed))}"
    if edit.shown and crate.is_library and not any(crate.is_public(call) for call, _, _ in edit.shown):
        yield f"{place}: no line names a public call"


def rows(crate):
    """The crate's rows: a call, and its clauses with the bugs that show them."""
    found = {}
    for edit in crate.edits:
        for call, clause, words in edit.shown:
            if crate.is_public(call) or not crate.is_library:
                found.setdefault(call, {}).setdefault(f"`{clause}`" if clause else words, []).append(edit.name)
    for call in sorted(found):
        told = "; ".join(f"{clause}: {', '.join(names)}" for clause, names in sorted(found[call].items()))
        yield f"| `{call}` | {told} |\n"


def section(crates):
    table = "".join(f"| **{crate.name}** | |\n" + "".join(rows(crate)) for crate in crates)
    return f"{HEADING}\n{LEGEND}\n| Call | Clause: planted bugs |\n|---|---|\n{table}"


def without(crate):
    """Says which public functions no planted bug names."""
    named = {call for edit in crate.edits for call, _, _ in edit.shown}
    counted = dict.fromkeys(function.call for function in crate.functions if function.counts)
    lacking = [call for call in counted if call not in named]
    return f"{crate.name}: {len(lacking)} of {len(counted)} public functions have none: {', '.join(lacking)}"


def faults(is_check):
    """Writes the table, or compares it. Yields what is wrong, and prints which public functions have no bug."""
    crates = [crate_of(name) for name in sorted(path.parent.name for path in ROOT.glob("crates/*/planted"))]
    yield from (fault for crate in crates for edit in crate.edits for fault in faults_of(edit))
    text = PAGE.read_text()
    before, _, rest = text.partition(HEADING)
    after = rest[rest.find("\n##") :] if "\n##" in rest else ""
    written = before + section(crates) + after
    if is_check and written != text:
        yield "docs/PROVED.md: not current; run tools/pages"
    elif not is_check:
        PAGE.write_text(written)
        print(*(without(crate) for crate in crates if crate.is_library), sep="\n")
