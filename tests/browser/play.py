#!/usr/bin/env python3
"""Plays recorded requests of a browser with the user agent of `cookie_agent`, and public suffixes.

    tests/play browser [CASES]

It prints in how many requests the `Cookie` header is the browser's, and on which of the browser's own behaviours the
others' cases hang. Before, it compares the public suffixes of hosts made of each rule of the list with those of
publicsuffix.org's algorithm, which is written out here. Without CASES it does only that. It needs Debian's publicsuffix.

CASES has a case a line, in JSON, maybe compressed (.xz): its `id`; its `steps`, each one request: `url`, the texts `set` of
its response, `op` and `from`; an answer a step, with the `cookie` header that came, the time `now` and the `path`; and
`tags`, whose last one names behaviours. A character of a text is a byte. `op` is none or `nav` for a request that someone
typed; from a page at `from` `link` is a link that someone followed, and `form` a form that was posted: these three are
top-level navigations. `fetch`, `fetchpost`, `img` and `frame` are requests of that page. The methods of `form` and
`fetchpost` are unsafe. A request is same-site if the page has its scheme and its registrable domain. Cases with scripts
(`js`) or redirects (`via`) aren't played.

It plays them once by the standard, and once with the choices of Chromium, where after each text the cookies of its site are
trimmed, and the caller's part is Chromium's too: its rules of public suffixes have the parents of wildcards, and its http
ends a text at a bare CR. http to this machine (`localhost`, 127.0.0.0/8, ::1) counts as secure in both, which the standard
leaves to the caller.
"""
import collections
import json
import lzma
import subprocess
import sys
import tempfile
import urllib.parse
from pathlib import Path

from shared import check, end
import toolchain

HERE = Path(__file__).resolve().parent
SUFFIXES = Path("/usr/share/publicsuffix/public_suffix_list.dat")
NEEDS = ["cookie_agent", "cookie_browser", "hex", "jiff", "anyhow"]
# The choices that the driver knows.
CHOICES = ["standard", "chromium"]


def public_suffix(rules, domain):
    """The domain's public suffix (publicsuffix.org, Algorithm): the labels of the rule that prevails."""
    labels = domain.split(".")
    longest = 1
    for length in range(1, len(labels) + 1):
        tail = labels[-length:]
        if "!" + ".".join(tail) in rules:
            return ".".join(tail[1:])
        if ".".join(tail) in rules or ".".join(["*", *tail[1:]]) in rules:
            longest = length
    return ".".join(labels[-longest:])


def hosts_of(rules):
    """A host for each rule, the domain above it, and two below it."""
    for rule in rules:
        host = rule.replace("*.", "any.").lstrip("!")
        yield from (host, "a." + host, "b.a." + host, host.partition(".")[2] or host)


def play_suffixes(program):
    words = (line.split()[:1] for line in SUFFIXES.read_text().splitlines() if not line.startswith("//"))
    labels = [rule[0].split(".") for rule in words if rule]
    rules = {".".join(it if it.isascii() else it.encode("idna").decode() for it in rule) for rule in labels}
    hosts = list(hosts_of(sorted(rules)))
    answers = answers_of(program, "suffixes", SUFFIXES.read_text(), hosts)
    right = ["yes" if public_suffix(rules, host) == host else "no" for host in hosts]
    wrong = [host for host, answer, other in zip(hosts, answers, right, strict=True) if answer != other]
    check(f"{len(rules):,} rules, {len(hosts):,} hosts, {right.count('yes'):,} public suffixes", not wrong, wrong[:10])


def answers_of(program, word, rules, lines):
    """A line for each that the driver answers."""
    text = f"{rules}// CASES\n" + "".join(f"{line}\n" for line in lines)
    return subprocess.run([program, word], input=text, capture_output=True, text=True, check=True).stdout.split("\n")[:-1]


def cases_of(path):
    """The cases that a user agent without scripts can play."""
    opened = lzma.open(path, "rt") if path.suffix == ".xz" else open(path)
    with opened as lines:
        cases = [json.loads(line) for line in lines]
    return cases, [case for case in cases if not any(step.get("op") == "js" or "via" in step for step in case["steps"])]


def requests(case):
    """The steps that are requests, with their answers."""
    return [(step, answer) for step, answer in zip(case["steps"], case["answers"]) if "url" in step and "path" in answer]


def host_of(url):
    host = urllib.parse.urlsplit(url).hostname
    return f"[{host}]" if ":" in host else host


def rules_of(choices):
    """The list of public suffixes. Chromium takes the parent of a wildcard rule for a suffix too."""
    rules = SUFFIXES.read_text()
    parents = [line.removeprefix("*.") for line in rules.splitlines() if line.startswith("*.")] if choices == "chromium" else []
    return "".join(f"{rule}\n" for rule in [rules, *parents])


def text_of(text, choices):
    """What the agent is passed of a text. A bare CR ends a line of Chromium's http."""
    return text.partition("\r")[0] if choices == "chromium" else text


def lines_of(case, choices):
    """What the driver reads of a case."""
    yield "case"
    for step, answer in requests(case):
        url, page = urllib.parse.urlsplit(step["url"]), step.get("from")
        path = answer["path"].partition("?")[0]
        whence = f"{urllib.parse.urlsplit(page).scheme} {host_of(page)}" if page else "- -"
        yield f"at {url.scheme} {host_of(step['url'])} {path} {round(answer['now'] * 1e6)}000 {step.get('op') or 'nav'} {whence}"
        for text in step.get("set", []):
            yield f"set {text_of(text, choices).encode('latin-1').hex()}"


def play(program, choices, cases):
    """The headers that the agent sends, of each request of each case."""
    lines = (line for case in cases for line in lines_of(case, choices))
    return [bytes.fromhex(line) for line in answers_of(program, choices, rules_of(choices), lines)]


def compare(cases, headers):
    """How many headers there are, and the case of each that isn't the browser's."""
    wanted = [(case, answer["cookie"] or "") for case in cases for _, answer in requests(case)]
    if len(headers) != len(wanted):
        sys.exit(f"{len(headers)} headers came, and not {len(wanted)}")
    return len(wanted), [case for (case, text), header in zip(wanted, headers) if header != text.encode("latin-1")]


def show(choices, cases, headers):
    """Prints how many headers are the browser's, and of the others the behaviours and the cases."""
    count, wrong = compare(cases, headers)
    right = count - len(wrong)
    print(f"{choices}: {right:,} of {count:,} headers are the browser's ({right / count:.2%})")
    hanging = collections.defaultdict(list)
    for case in wrong:
        hanging[case["tags"][3] or "no behaviour that is known"].append(case["id"])
    for behaviours, ids in sorted(hanging.items(), key=lambda item: -len(item[1])):
        print(f"  {len(ids):4}  {behaviours}: {', '.join(sorted(set(ids)))}")


def main(*paths):
    if paths in (("-h",), ("--help",)):
        sys.exit(print(__doc__.strip()))
    with tempfile.TemporaryDirectory() as folder:
        empty = Path(folder) / "empty"
        empty.write_text("// CASES\n")
        with open(empty) as stdin:
            program = toolchain.program_of(Path(folder), "play_browser", NEEDS, ["standard"], HERE / "driver.txt", stdin)
        play_suffixes(program)
        for path in paths:
            everything, cases = cases_of(Path(path))
            print(f"{len(cases):,} of {len(everything):,} cases have neither scripts nor redirects")
            for choices in CHOICES:
                show(choices, cases, play(program, choices, cases))
    end()


if __name__ == "__main__":
    main(*sys.argv[1:])
