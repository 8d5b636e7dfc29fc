"""Measures the pages, by `tools/pages prose [PAGE..]`: words (of code too, but no bars of tables, and no signatures that
CALLING.md quotes), mean and longest sentence, and words that plain English avoids. With names of pages it also prints each
sentence of more than 35 words and each avoided word, with its line. Without names it also prints the avoided words in the
comments of the crates and of their specs. It changes nothing and never fails."""
import re
import subprocess

from sources import ROOT

LONGEST = 35
# What is avoided, and what to write.
AVOIDED = {
    r"want(?:s|ed)? of memory|for want of|want(?:s|ed)? memory": "out of memory",
    r"takes? no memory": "doesn't allocate",
    r"behind": "after",
    r"as many as|so many": "the number",
    r"handed[- ]in|hands? in": "passed in",
    r"wrong bod(?:y|ies)": "planted bug",
    r"lent|lends": "borrowed",
    r"that of|those of|the same of": "name it",
    r"takes memory": "allocates",
    r"asks? for": "requires, requests",
    r"alone": "only",
}


def tracked(*patterns):
    listed = subprocess.run(["git", "ls-files", *patterns], cwd=ROOT, capture_output=True, text=True, check=True)
    return listed.stdout.split()


def prose(text):
    """The lines of a page that are neither code, table nor heading, with their numbers."""
    is_code = False
    for number, line in enumerate(text.splitlines(), 1):
        if line.startswith("```"):
            is_code = not is_code
        elif not is_code and not line.startswith(("|", "#", "!", "    ")):
            yield number, line


def sentences(lines):
    """The sentences, each with the number of its first line."""
    begun, words = 0, []
    for number, line in lines:
        if not line.strip() or re.match(r"\s*(?:[-*]|\d+\.) ", line):
            if words:
                yield begun, words
            words = []
        for word in re.sub(r"^\s*(?:[-*]|\d+\.) ", "", line).split():
            begun = begun if words else number
            words.append(word)
            if re.search(r"[.!?:]\W*$", word) and not re.search(r"\b(?:e\.g|i\.e)\.$", word):
                yield begun, words
                words = []
    if words:
        yield begun, words


def avoided_in(line):
    """The avoided words of a line, each with what to write."""
    for pattern, better in AVOIDED.items():
        yield from ((found[0], better) for found in re.finditer(rf"\b(?:{pattern})\b", line))


def measure(name, is_whole):
    text = (ROOT / name).read_text()
    if name.endswith("/CALLING.md"):
        text = re.sub(r"^```text\n.*?^```$", lambda block: re.sub(r"[^\n]", "", block[0]), text, flags=re.M | re.S)
    lines = list(prose(text))
    found = list(sentences(lines))
    lengths = [len(words) for _, words in found] or [0]
    avoided = [(number, word, better) for number, line in lines for word, better in avoided_in(line)]
    words = sum(bool(re.search(r"\w", word)) for word in text.split())
    print(f"{words:6} words, mean {sum(lengths) / len(lengths):4.1f}, longest {max(lengths):3}, "
          f"avoided {len(avoided):3}  {name}")
    if is_whole:
        for number, sentence in found:
            if len(sentence) > LONGEST:
                print(f"    {name}:{number}: {len(sentence)} words: {' '.join(sentence)[:80]} ..")
        for number, word, better in avoided:
            print(f"    {name}:{number}: {word}: {better}")
    return words


def comments():
    """The avoided words in comments of the crates, each with its file and line."""
    for name in tracked("crates/*.rt", "crates/*.h", "crates/*/specs/*.antt"):
        for number, line in enumerate((ROOT / name).read_text().splitlines(), 1):
            # What is quoted, as `lends`, is a name.
            for word, better in avoided_in(re.sub(r"`[^`]*`", "", line)) if re.match(r"\s*(?://|/?\*|--)", line) else ():
                print(f"{name}:{number}: {word}: {better}")


def main(chosen):
    total = sum(measure(name, bool(chosen)) for name in chosen or tracked("*.md"))
    print(f"{total:6} words in all")
    if not chosen:
        comments()
