"""Shows that the rows of `cookie_vectors` can fail, for `tools/quick --wrong-rows`: the program plays a copy of data/ in
which one answer of each file has an `x` at its end, or with `--all` one of each row. It has to name exactly those rows, with
file, line and title, the answer that is wrong now as expected and the one that was there as what came, and to count all
other rows as right.
"""
import pathlib, re, subprocess, tempfile

import toolchain

CRATE = toolchain.ROOT / "crates/cookie_vectors"
WRONG = re.compile(r"(\S+\.tsv):(\d+): (.*)\n    step:     .*\n    expected: (.*)\n    came:     (.*)\n")


def is_played(columns):
    return "rattle" not in columns[2].partition(":")[0].split()


def rows_of(lines):
    """Each row that the program plays: its title, and the places of its steps, as a line's and a column's number."""
    rows, is_mine = [], False
    for number, line in enumerate(lines):
        columns = line.split("\t")
        if not line or line.startswith("#"):
            continue
        if columns[0]:
            is_mine = is_played(columns)
            rows += [(columns[0], [])] if is_mine else []
        if is_mine:
            rows[-1][1].extend((number, place) for place in range(3 if columns[0] else 1, len(columns)))
    return rows


def changed(lines, row):
    """Appends `x` to the last answer of the row. Returns what the program has to print of it, without the file."""
    title, places = row
    answered = [(number, place) for number, place in places if " -> " in lines[number].split("\t")[place]]
    number, place = (answered or places)[-1]
    columns = lines[number].split("\t")
    answer = columns[place].rpartition(" -> ")[2] if answered else "done"
    columns[place] += "x" if answered else " -> donex"
    lines[number] = "\t".join(columns)
    return str(number + 1), title, answer + "x", answer


def change(path, is_all):
    """Changes the file. Returns how many rows it has, and what the program has to print."""
    lines = path.read_text().split("\n")
    rows = rows_of(lines)
    chosen = rows if is_all else [rows[len(rows) // 2]]
    named = [(path.name, *changed(lines, row)) for row in chosen]
    path.write_text("\n".join(lines))
    return len(rows), named


def play(folder):
    words = ["rt", "try", "--seconds", "600"]
    for path in sorted(folder.iterdir()):
        words += ["--data", f"{path.name}={path}"]
    return subprocess.run(words, cwd=CRATE, stdin=subprocess.DEVNULL, capture_output=True, text=True)


def are_named(is_all):
    """Whether each answer that was changed is named, and nothing else."""
    with tempfile.TemporaryDirectory() as folder:
        folder, count, wanted = pathlib.Path(folder), 0, []
        for path in sorted((CRATE / "data").iterdir()):
            (folder / path.name).write_bytes(path.read_bytes())
            rows, named = change(folder / path.name, is_all)
            count, wanted = count + rows, wanted + named
        run = play(folder)
    files = len({name for name, *_ in wanted})
    came = WRONG.findall(run.stdout)
    last = f"{count - len(wanted)} rows right, {len(wanted)} wrong"
    faults = [f"not named: {row}" for row in wanted if row not in came]
    faults += [f"named: {row}" for row in came if row not in wanted]
    if run.stdout.splitlines()[-1:] != [last] or run.returncode != 1 or len(came) != len(wanted):
        faults.append(f"ended with status {run.returncode}, and not with {last}\n{run.stdout[-500:]}{run.stderr[-500:]}")
    for fault in faults:
        print(fault)
    print(f"{files} files, {len(wanted)} answers: " + ("not each" if faults else "each") + " changed answer was named")
    return not faults
