"""What cookie.h says, which is beside this file in the wheel: the calls, the structs and the statuses."""
from __future__ import annotations

import pathlib
import re

HERE = pathlib.Path(__file__).resolve().parent
# In the project's tree it is with the library's sources.
PLACES = (HERE / "cookie.h", HERE.parents[1] / "crates/cookie_c/cookie.h")
TEXT = next(path for path in PLACES if path.exists()).read_text()
CODE = re.sub(r"(?s)/\*.*?\*/", "", TEXT)
# The fields of each struct, and the parameters and the result of each call, by their names.
STRUCTS = dict(re.findall(r"typedef struct (\w+) {([^}]*);\s*}", CODE))
CALLS = {name: (words, result) for result, name, words in re.findall(r"(?m)^(\w+) (cookie_\w+)\(([^)]*)\);", CODE)}
ENUM = TEXT.partition("enum cookie_status {")[2].partition("}")[0]
# The number, the name and the meaning of each status, such as `NotUtf8`.
STATUSES = [
    (int(number), name.title().replace("_", ""), meaning)
    for name, number, meaning in re.findall(r"COOKIE_(\w+) = (\d+),? +/\* (.*) \*/", ENUM)
]
VERSION = int(re.findall(r"#define COOKIE_VERSION (\d+)", CODE)[0])
