"""Compares crates/cookie_c/cookie.h with the exports of that crate, by `tools/pages header`: each function with its
parameters, each struct with its fields, each status with its number, and the number of the header. It also looks whether
cookie_random.h draws the bytes of each call that takes a nonce, an id or seeds, with the call's other parameters."""
import re

from sources import ROOT

CRATE = ROOT / "crates/cookie_c"
NUMBERS = {
    "u8": "uint8_t", "u16": "uint16_t", "u32": "uint32_t", "u64": "uint64_t", "usize": "size_t",
    "i8": "int8_t", "i16": "int16_t", "i32": "int32_t", "i64": "int64_t", "isize": "ptrdiff_t", "bool": "bool",
}


def snake(name):
    return re.sub(r"(?<=[a-z0-9])(?=[A-Z])", "_", name)


def c_type(name):
    """The C name of a number, of a pointer that C doesn't follow, or of a struct of the crate."""
    return NUMBERS.get(name) or ("void *" if name == "*mut ()" else "cookie_" + snake(name).lower())


def declaration(kind, name):
    """What declares the name as of that type in C."""
    lent = re.fullmatch(r"&'\w+ \[(\w+)\]", kind)
    if lent:
        return f"const {c_type(lent[1])} *{name}; size_t {name}_length"
    array = re.fullmatch(r"\[(\w+); (\d+)\]", kind)
    if array:
        return f"{c_type(array[1])} {name}[{array[2]}]"
    return c_type(kind) + name if kind == "*mut ()" else f"{c_type(kind)} {name}"


def parameters(text):
    """What a list of Rust's parameters is in C."""
    for name, kind in re.findall(r"(\w+): ([^,]+)", text):
        kind = re.sub(r"(\w+::)+", "", kind)
        if kind == "Global":
            continue
        slice_of = re.fullmatch(r"&(mut )?\[(\w+)\]", kind)
        place_of = re.fullmatch(r"&(mut )?(\w+)(?:<'_>)?", kind)
        if slice_of:
            const = "" if slice_of[1] else "const "
            yield f"{const}{c_type(slice_of[2])} *{name}"
            yield f"size_t {name}_length"
        elif place_of:
            const = "" if place_of[1] else "const "
            yield f"{const}{c_type(place_of[2])} *{name}"
        else:
            yield f"{c_type(kind)} {name}"


def exported(source):
    """The exports of a source file, its structs that cross to C, and its statuses, as C has them."""
    text = re.sub(r"//[^\n]*", "", source)
    for name, inside, result in re.findall(r'extern "C" fn (\w+)\(([^)]*)\)(?: -> (\w+))?', text):
        result = c_type(result) if result else "void"
        yield f"{result} {name}({', '.join(parameters(' '.join(inside.split()))) or 'void'});"
    for name, inside in re.findall(r"#\[repr\(C\)\][^{]*struct (\w+)(?:<'\w+>)? {(.*?)^}", text, re.S | re.M):
        # A ghost field isn't there, and an allocator takes no bytes.
        fields = re.findall(r"^ *(?:pub )?(\w+): ([^,{]+),", inside, re.M)
        fields = " ".join(f"{declaration(kind, field)};" for field, kind in fields if kind != "Global")
        yield f"typedef struct {c_type(name)} {{ {fields} }} {c_type(name)};"
    for inside in re.findall(r"enum Status {([^}]*)}", text):
        for name, number in re.findall(r"(\w+) = (\d+)", inside):
            yield f"COOKIE_{snake(name).upper()} = {number}"
    for number in re.findall(r"^const VERSION: u32 = (\d+);", text, re.M):
        yield f"COOKIE_VERSION {number}"


def declared(header):
    """The same of the header."""
    yield from re.findall(r"^#define (COOKIE_VERSION \d+)", header, re.M)
    text = re.sub(r"/\*.*?\*/|^\s*#[^\n]*", "", header, flags=re.S | re.M)
    text = " ".join(text.split())
    for inside in re.findall(r"enum cookie_status {([^}]*)}", text):
        for name, number in re.findall(r"(\w+) = (\d+)", inside):
            yield f"{name} = {number}"
    yield from re.findall(r"typedef struct \w+ {[^}]*} \w+;", text)
    text = re.sub(r"(typedef struct|enum) \w+ {[^}]*}( \w+)?;|extern \"C\" {|^}| }$", "", text)
    yield from re.findall(r"\w+ \w+\([^)]*\);", text)


def drawing(declarations):
    """The declarations that cookie_random.h has of the calls that take random bytes."""
    for line in declarations:
        fewer = re.sub(r"(const uint8_t \*(nonce|id), size_t \2_length|uint64_t seed, uint64_t other_seed), ", "", line)
        if fewer != line:
            yield fewer.replace("(", "_drawn(")


def drawn(header):
    """The declarations of the calls that cookie_random.h has."""
    for line in re.findall(r"^static inline (\w+ \w+_drawn\([^)]*\)) {", header, re.M):
        yield " ".join(line.split()) + ";"


def faults(is_check):
    """What differs."""
    header = (CRATE / "cookie.h").read_text()
    here = [line for source in sorted((CRATE / "src").rglob("*.rt")) for line in exported(source.read_text())]
    there = list(declared(header))
    yield from (f"not in cookie.h: {line}" for line in here if line not in there)
    yield from (f"only in cookie.h: {line}" for line in there if line not in here)
    yield from (f"twice: {line}" for line in sorted(set(there)) if there.count(line) > 1)
    statuses = sum(line.startswith("COOKIE_") and " = " in line for line in there)
    texts = re.search(r"texts\[\] = {(.*?)};", header, re.S)[1].count('",\n')
    if statuses != texts:
        yield f"{statuses} statuses have {texts} texts"
    needed, made = set(drawing(there)), set(drawn((CRATE / "cookie_random.h").read_text()))
    yield from (f"not in cookie_random.h: {line}" for line in sorted(needed - made))
    yield from (f"only in cookie_random.h: {line}" for line in sorted(made - needed))
