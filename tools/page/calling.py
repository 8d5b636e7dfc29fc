"""crates/CRATE/CALLING.md, by `tools/pages calling`. What is above "## A caller" is written by hand. Below it are a caller,
with links to its proofs, the contracts of the calls that are used most, and every public call, with the first sentence of
its comment."""
import re
import sys
import textwrap

from sources import ROOT, crate_of

# Each library: the function that shows a call of it, as the file and the name in cookie_examples, or in another crate;
# and what its page quotes: calls, each with its clauses, and types, each with what it is and what its traits say.
QUOTED = {
    "cookie_date": ("dates week_after", "read_date days_after DateText"),
    "cookie_core": (
        "reading name_and_value", "Cookie::parse Cookie::new Cookie::into_owned Cookie::make_removal Cookie::encoded"
    ),
    "cookie_browser": ("refusal refusal_of", "Received::of refused_by Refusal Suffixes::new Suffixes::is_public"),
    "cookie_crypt": (
        "sealing comes_back", "Gcm::new Gcm::seal_in_place PreparedGcm::seal_in_place Mac::code are_equal"
    ),
    "cookie": (
        "session user_of",
        "CookieJar::with_originals CookieJar::get CookieJar::add CookieJar::remove CookieJar::set_cookie_texts",
    ),
    "cookie_session": ("handler handle", "Sessions Sessions::open Sessions::open_unrevoked Sessions::save"),
    "cookie_client": ("following follow", "JarCall JarCall::is_fit Played mirror"),
    "cookie_agent": ("agents next_header", "Site::new Agent::new Agent::verdict Verdict Agent::read Agent::header"),
    "cookie_http": ("headers jar_of", "jar_from_headers with_headers append_delta remove_as_set"),
    "cookie_theorems": ("carrying carry", "Exchanged exchange AgentRequest Visited visits open_for_agent"),
    "session_revocations": (
        "main open login",
        """SqliteRevocations SqliteRevocations::new SqliteRevocations::is_revoked SqliteRevocations::revoke
        SqliteRevocations::forget MemoryRevocations MemoryRevocations::new MemoryRevocations::is_revoked
        MemoryRevocations::revoke MemoryRevocations::forget""",
    ),
}
# The clauses of these calls that their page leaves out: the crate's README has them.
LEFT_OUT = {
    "read_date": "unique printed",
    "Gcm::seal_in_place": "counted uncounted by_steps steps_are_the_sum powers_first bytes",
    "PreparedGcm::seal_in_place": "counted uncounted",
    "Sessions::save": "fits meets cookie lives too_long within undrawn failed too_large",
    "mirror": "held looks_back",
}
PAGE = """\
{written}

## A caller

{caller}

## Contracts

The calls used most ([how to read them](../../docs/PROVED.md#contracts)).

```text
{contracts}
```

## All calls

Each public type and call, with the first sentence of its comment. The whole comments and contracts are in src/.

```text
{calls}
```
"""


def bare(kind):
    """A type without its lifetimes."""
    return re.sub(r"<>", "", re.sub(r"'\w+(?:, )?", "", kind))


def variants(source, item):
    body = re.sub(r"//[^\n]*|#\[[^\]]*\]", "", source.text[item.start + 1 : item.end])
    return ", ".join(part.strip() for part in " ".join(body.split()).strip(" ,").split(", ") if part)


def shown(source, item):
    """What a public item is, with the variants of an enum and the public fields of a struct."""
    words = item.words.removeprefix("pub ")
    fields = re.findall(r"^    pub (\w+: [^\n]*),$", source.mask[item.start : item.end], re.M)
    parts = variants(source, item) if words.startswith("enum ") else ", ".join(fields)
    return f"{words}: {parts}" if parts else words


def said(items):
    """The lines of clauses or of ghost items."""
    for kind, name, text, *_ in items:
        text = re.sub(r"\bself\.(?:now|old)\b", "S", re.sub(r"\bself\.new\b", "S'", text)) if kind != "ghost" else text
        yield f"  {kind}{' ' * bool(name)}{name}: {text}"


def calls_of(source, item, name, which):
    """The contract of each call of a type or a trait: its name, and its lines."""
    for call, _, clauses in source.functions(item, which):
        call = call.replace("fn ", f"fn {name}::", 1)
        yield re.match(r"fn ([\w:]+)", call)[1], [call, *said(clauses)]


def definitions(crate, name):
    """What defines an exported name: a type with its name, or calls."""
    for source, item in crate.items():
        found = re.match(rf"pub (trait|struct|enum|type|fn) {name}\b", item.words)
        if found and found[1] == "fn":
            yield name, [item.words.removeprefix("pub "), *said(source.clauses(item.start))]
        elif found and found[1] == "trait":
            yield name, [item.words.removeprefix("pub "), *said(source.ghosts(item))]
            yield from calls_of(source, item, name, r"^    fn ")
        elif found:
            values = [ghost.text for ghost in model_of(crate, name) if ghost.name == "Value"] * (found[1] == "struct")
            yield name, [shown(source, item) + "".join(f", seen as {value}" for value in values[:1])]


def model_of(crate, name):
    for source, item in implementations(crate, name):
        if item.type_and_trait()[1] == "Model":
            yield from source.ghosts(item)


def implementations(crate, name):
    found = ((source, item) for source, item in crate.items() if item.words.startswith("impl"))
    return [(source, item) for source, item in found if item.type_and_trait()[0] == name]


def contract(crate, name):
    """What the crate says of an exported name: of the type what it is and what its traits say, and of each call."""
    yield from definitions(crate, name)
    aliases = [re.match(r"pub type (\w+)\S* = (.*)", item.words) for _, item in crate.items()]
    # The types that have a name of their own, as `CookieBuilder` for `Builder<Cookie>`.
    alias = {bare(found[2]): found[1] for found in aliases if found}
    for source, item in implementations(crate, name):
        _, trait, kind = item.type_and_trait()
        if not trait:
            yield from calls_of(source, item, alias.get(bare(kind), name), r"^    pub fn ")
        elif trait != "Model" and (ghosts := list(source.ghosts(item))):
            yield name, [f"impl {trait.removeprefix('fmt::')} for {name}", *said(ghosts)]


def main_clauses(call, lines):
    """The lines of a contract without the clauses that its page leaves out."""
    left_out = [f"  ensures {clause}: " for clause in LEFT_OUT.get(call, "").split()]
    for start in left_out:
        if not any(line.startswith(start) for line in lines):
            sys.exit(f"{call} has no {start.strip()}")
    yield from (line for line in lines if not line.startswith(tuple(left_out)))
    yield from ["  .."] * bool(left_out)


def contracts(crate, quoted):
    """What the crate says of the names that are quoted."""
    known = set()
    for name in crate.names:
        found = list(contract(crate, name))
        known.update(call for call, _ in found)
        kept = [each for each in found if each[0] in quoted]
        if kept and kept[0] is not found[0] and not found[0][1][0].startswith("fn "):
            kept.insert(0, found[0])
        yield from [""] * bool(kept)
        for each in kept:
            yield from main_clauses(*each)
    for name in set(quoted) - known:
        sys.exit(f"{crate.name} has no {name} to quote")


def every_call(crate):
    """Each exported type with its public calls, and each exported function, with what their comments say first."""
    for name in crate.names:
        for source, item in crate.items():
            if re.match(rf"pub (?:trait|struct|enum|type|fn) {name}\b", item.words):
                yield from described(shown(source, item), source.summary(item.at))
        for source, item in crate.items():
            is_trait = re.match(rf"pub trait {name}\b", item.words)
            if is_trait or item.words.startswith("impl") and item.type_and_trait()[:2] == (name, ""):
                for call, at, _ in source.functions(item, r"^    fn " if is_trait else r"^    pub (?:const )?fn "):
                    yield from ("  " + line for line in described(call, source.summary(at)))


def described(words, summary):
    return [words, f"    {summary}"] if summary else [words]


def wrapped(lines):
    """The lines, none over 120 columns."""
    text = []
    for line in lines:
        indent = re.match(r" *", line)[0] + "    "
        text += textwrap.wrap(line, 120, subsequent_indent=indent, break_long_words=False, break_on_hyphens=False) or [""]
    return "\n".join(text).strip("\n")


def caller(module, function, user="cookie_examples"):
    """Where the caller of a crate's page is, its file, and links to its proof files. A program's is only named: the guide
    has it."""
    if module == "main":
        return [f"It is `{function}` in `crates/{user}/src/main.rt`."]
    text = (ROOT / f"crates/{user}/src/{module}.rt").read_text()
    code = text.split("\n", 1)[1].strip()
    proofs = sorted((ROOT / "crates" / user / "proofs" / module / function).glob("*.antt"))
    links = [f"Its proof is [{path.name}](../{path.relative_to(ROOT / 'crates')})." for path in proofs]
    return [f"It is in `crates/{user}/src/{module}.rt`.", f"```rust\n{code}\n```", *links]


def faults(is_check):
    """Writes the pages, or yields those that aren't current."""
    for name, (shows, quoted) in QUOTED.items():
        path, crate = ROOT / "crates" / name / "CALLING.md", crate_of(name)
        text = path.read_text()
        written = PAGE.format(
            written=text.split("## A caller")[0].rstrip(), caller="\n\n".join(caller(*shows.split())),
            contracts=wrapped(contracts(crate, quoted.split())), calls=wrapped(every_call(crate)),
        )
        if is_check and text != written:
            yield f"{path.relative_to(ROOT)}: not current; run tools/pages"
        elif text != written:
            path.write_text(written)
