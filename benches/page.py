"""Writes the kept tables into docs/PERFORMANCE.md, the chart, and README's sentence on cost."""

import re
import sys

from programs import toolchain

DOCS = toolchain.ROOT / "docs"
KEPT = DOCS / "performance.tsv"
PAGE = DOCS / "PERFORMANCE.md"
CHART = DOCS / "performance.svg"
README = toolchain.ROOT / "README.md"
# What is wanted: what the page's line about it begins with, the most, and the table with its row and column.
GOALS = [
    *(("A plain request", 0.55, "request", f"plain, {pairs}", "Ratio") for pairs in ("1 pair", "3 pairs", "10 pairs", "30 pairs")),
    ("Escapes", 0.65, "request", "with escapes, 10 pairs", "Ratio"),
    *(("SHA instructions", 0.75, "c", f"`cookie_{call}`, {way}", "Ratio") for way in ("portable SHA", "SHA instructions") for call in ("sign", "verify")),
    ("A private cookie", 1.2, "secret", "private `add` and `get`, 100 bytes, ring", "Ratio"),
    ("Sealing", 45, "secret", "`seal_in_place` of 4,096 bytes, a byte", "Port"),
    ("A session", 1.6, "secret", "`open`, beside a private `get`, ring", "Ratio"),
    ("A session", 1.8, "secret", "`save`, beside a private `add`, ring", "Ratio"),
    ("New cookies of an agent", 2.3, "growth", "`Agent::read` of new cookies, ten a site", "most at a double"),
]
CHART_HEAD = """<svg xmlns="http://www.w3.org/2000/svg" width="{width}" height="{height}" viewBox="0 0 {width} {height}" role="img">
<title>Instructions of a request, against those of the crate cookie</title>
<style>
  text {{ font: 13px system-ui, sans-serif; fill: #1f2328; }}
  .title {{ font-weight: 600; }}
  .bar {{ fill: #2b6cb0; }}
  .one {{ stroke: #57606a; stroke-dasharray: 4 3; }}
  @media (prefers-color-scheme: dark) {{
    text {{ fill: #e6edf3; }}
    .bar {{ fill: #63a4e8; }}
    .one {{ stroke: #9aa4af; }}
  }}
</style>
<text class="title" x="{middle}" y="20">Instructions of a request, against those of the crate cookie</text>
<text x="{middle}" y="38">both built for x86-64-v2 in one unit; shorter is better</text>"""
# README's words on cost, whatever its numbers are.
SENTENCE = r"\*\*A plain request takes [^*]* of the original's\s+instructions\*\*,[^\[]*\["


def kept_tables():
    """The tables that docs/performance.tsv has, by name: a line of heads, and lines of cells."""
    blocks = KEPT.read_text().rstrip("\n").split("\n\n") if KEPT.exists() else []
    return {name: [line.split("\t") for line in lines] for name, *lines in (block.split("\n") for block in blocks)}


def keep(name, rows):
    """Puts a table in place of the one of that name."""
    tables = kept_tables() | {name: rows}
    KEPT.write_text("\n\n".join("\n".join([it, *map("\t".join, rows)]) for it, rows in sorted(tables.items())) + "\n")


def line_of(row):
    return "| " + " | ".join(row) + " |"


def tables_in(text):
    """The tables of a text in Markdown: a line of heads, and lines of cells."""
    blocks = re.findall(r"(?:^\|.*\n?)+", text, re.M)
    return [[[cell.strip() for cell in line.strip("|").split("|")] for line in block.splitlines() if not line.startswith("|---")] for block in blocks]


def goals(tables):
    """The table of goals, each with what was counted last, and which lines of the page are of goals that aren't met."""
    rows, unmet = [["Goal", "At most", "Counted"]], set()
    for line, most, name, title, head in GOALS:
        heads, *kept = tables.get(name, [[head]])
        cell = next((row[heads.index(head)] for row in kept if row[0] == title), "")
        rows.append([title, f"{most}", cell])
        if cell and float(cell) > most:
            unmet.add(line)
    return rows, unmet


def write_page():
    """Puts the kept rows into the tables of the page that have the heads of a kept one."""
    tables = kept_tables()
    tables["goals"], unmet = goals(tables)
    by_heads = {tuple(heads): rows for heads, *rows in tables.values()}

    def written(found):
        (heads, *rows), = tables_in(found[0])
        if tuple(heads) not in by_heads:
            print(f"{PAGE.name}: kept by hand: {line_of(heads)}", file=sys.stderr)
        return "\n".join([*found[0].splitlines()[:2], *map(line_of, by_heads.get(tuple(heads), rows))]) + "\n"

    text = re.sub(r"(?:^\|.*\n)+", written, PAGE.read_text(), flags=re.M)
    PAGE.write_text(text)
    lines = set(re.findall(r"\*\*(.*?)\*\*", text.partition("\n## Goals\n")[2].partition("\n## ")[0]))
    for line in sorted(unmet ^ lines):
        print(f"{PAGE.name}: says what takes the rest though the goal is met, or doesn't say it: {line}", file=sys.stderr)


def bars():
    """The bars of the chart, from top to bottom: a request, and its ratio."""
    heads, *rows = kept_tables()["request"]
    return [(row[0], float(row[heads.index("Ratio")])) for row in rows]


def write_chart():
    """Draws the ratio of each row of requests: the original's instructions are the line at 1."""
    rows, left, width, step, top = bars(), 300, 400, 26, 56
    end = top + step * len(rows)
    right = left + width * max(1, *(ratio for _, ratio in rows)) + 60
    parts = [CHART_HEAD.format(width=round(right), height=end + 34, middle=left)]
    for number, (title, ratio) in enumerate(rows):
        y = top + step * number
        parts.append(f'<text class="label" x="{left - 10}" y="{y + 14}" text-anchor="end">{title}</text>')
        parts.append(f'<rect class="bar" x="{left}" y="{y}" width="{width * ratio:.0f}" height="18" rx="2"/>')
        parts.append(f'<text class="value" x="{left + width * ratio + 6:.0f}" y="{y + 14}">{ratio:.2f}</text>')
    parts.append(f'<line class="one" x1="{left + width}" y1="{top - 8}" x2="{left + width}" y2="{end}"/>')
    parts.append(f'<text class="label" x="{left + width}" y="{end + 18}" text-anchor="middle">1: the crate cookie</text>')
    CHART.write_text("\n".join([*parts, "</svg>"]) + "\n")


def write_readme():
    """Puts the ratios of requests into README's sentence: those of plain ones, and the dearest of each other kind."""
    plain = [ratio for title, ratio in bars() if title.startswith("plain")]
    signed, private = (max(ratio for title, ratio in bars() if kind in title) for kind in ("signed", "private"))
    sentence = (
        f"**A plain request takes {min(plain):.2f} to {max(plain):.2f} of the original's instructions**, one with a signed\n"
        f"  cookie {signed:.2f}, and one with a private cookie {private:.2f}. ["
    )
    text, count = re.subn(SENTENCE, sentence, README.read_text())
    if count != 1:
        sys.exit(f"{README.name} has no sentence on cost")
    README.write_text(text)


def write():
    write_page()
    write_chart()
    write_readme()
