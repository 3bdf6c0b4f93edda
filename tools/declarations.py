#!/usr/bin/env python3
"""Compares the declarations of the calls for other languages: nothing else holds them to the proved source.

  declarations.py [FOLDER]      compares the repository, or a copy of the files named below; status 1 if they differ
  declarations.py --self-test   changes copies, one fault each, and sees that each one is reported; with --loud, how

Compared are, of every call, its name, its parameters' order, names and types, and what it returns; the codes and the
refusals with their numbers; the version; the lengths of the areas; the limits; and of every struct that a call reads through a
pointer its size, and its fields' names, types and offsets. The proved source decides. A refusal's words, as C++, Rust and
Python tell it, are the same in all three, and begin with its name in the header's table:

  crates/exports_c/src/*.rt     the calls
  crates/exports/src/*.rt       the version, and codes; crates/results/src/lib.rt has the other codes
  crates/casts/src/answer.rt    the refusals
  crates/cabinet/src/part.rt    the structs; crates/vectors/src/vec3.rt has the vector in them
  crates/tree/src/lib.rt        the table of areas
  crates/tree_query/src/query.rt, crates/merge/src/testing.rt, crates/record_bytes/src/shape.rt    the limits
  include/probe_rays.h          for C and C++
  bindings/rust/src/sys.rs      for Rust; src/lent.rs has the lengths, src/lib.rs and src/records.rs the limits
  include/probe_rays.hpp, bindings/rust/src/answer.rs, bindings/python/probe_rays/answers.py    a refusal's words
"""
import pathlib
import re
import shutil
import sys
import tempfile

RATTLE = "crates/exports_c/src"
EXPORTS = "crates/exports/src"
CODES = "crates/results/src/lib.rt"
REFUSALS = "crates/casts/src/answer.rt"
STRUCTS = ["crates/cabinet/src/part.rt", "crates/vectors/src/vec3.rt"]
AREAS = "crates/tree/src/lib.rt"
HEADER = "include/probe_rays.h"
RUST = "bindings/rust/src/sys.rs"
LENGTHS = "bindings/rust/src/lent.rs"
# where a refusal is told in words, and how
WORDS = {
    "include/probe_rays.hpp": r'case Refusal::(\w+): words = "([^"]*)"',
    "bindings/rust/src/answer.rs": r'Refusal::(\w+) => (?:\{\s*)?"([^"]*)"',
    "bindings/python/probe_rays/answers.py": r'^    "(\w+)": "([^"]*)",',
}

# the limits of a mesh and of a record, by the header's names: where the source tests each, and what a test's number is
LIMITS = {
    "MAX_VERTICES": ("crates/merge/src/testing.rt", r"if v > (\d+) \{", lambda numbers: numbers // 3),
    "MAX_TRIANGLES": ("crates/tree_query/src/query.rt", r"if count > (\d+) \{", lambda count: count),
    "MAX_RECORD": ("crates/record_bytes/src/shape.rt", r"LONGEST: usize = (\d+);", lambda body: body + 4),
    "HIT_LENGTH": ("crates/results/src/lib.rt", r"if hit\.len\(\) < (\d+) \{", lambda places: places),
    "INDEX_LENGTH": ("crates/exports/src/exact.rt", r"if index\.len\(\) < (\d+) \{", lambda places: places),
    "COUNT_LENGTH": ("crates/exports/src/meshes.rt", r"if (?:nodes|found)\.len\(\) < (\d+) \{", lambda places: places),
}
RUST_LIMITS = {
    "bindings/rust/src/lib.rs": (r"MAX_COUNT: usize = ([\d_]+);", ["MAX_VERTICES", "MAX_TRIANGLES"]),
    "bindings/rust/src/records.rs": (r"MAX_RECORD: usize = ([\d_]+);", ["MAX_RECORD"]),
}
PYTHON = "bindings/python/probe_rays"

# the areas whose lengths have a macro and a function; the table of the source has more rows
SIZED = ["node_boxes", "triangle_boxes", "node_words", "order", "work", "list", "stack", "marks"]

NUMBERS = {"f64": "f64", "u32": "u32", "u8": "u8", "usize": "usize", "Part": "Part"}
C_TYPES = {"double": "f64", "uint32_t": "u32", "uint8_t": "u8", "size_t": "usize", "probe_part": "Part"}

# the structs that calls read, and what stands in them, by the header's names
C_STRUCTS = {"probe_part": "Part", "probe_span": "Span", "probe_vec3": "Vec3"}
SIZES = {"f64": 8, "u32": 4, "usize": 8}


class Unreadable(Exception):
    pass


def split(parameters):
    return [part.strip() for part in parameters.split(",") if part.strip()]


def from_rattle(parameters):
    """Name and type of each parameter as Rust's extern block has them: a slice is a pointer and a length."""
    flat = []
    for part in split(parameters):
        name, kind = (word.strip() for word in part.split(":"))
        slice_of = re.fullmatch(r"&(mut )?\[(\w+)\]", kind)
        if slice_of:
            access = "*mut" if slice_of[1] else "*const"
            flat += [(name, f"{access} {NUMBERS[slice_of[2]]}"), (f"{name}_length", "usize")]
        else:
            flat.append((name, NUMBERS[kind]))
    return flat


def from_rust(parameters):
    flat = []
    for part in split(parameters):
        name, kind = (word.strip() for word in part.split(":"))
        pointer = re.fullmatch(r"\*(const|mut) (\w+)", kind)
        flat.append((name, f"*{pointer[1]} {NUMBERS[pointer[2]]}" if pointer else NUMBERS[kind]))
    return flat


def from_c(parameters):
    if parameters.strip() == "void":
        return []
    flat = []
    for part in split(parameters):
        found = re.fullmatch(r"(const )?(\w+) ?(\*)? ?(\w+)", re.sub(r"\s+", " ", part))
        if not found or (found[1] and not found[3]):
            raise Unreadable(f"{HEADER}: {part}")
        number = C_TYPES[found[2]]
        pointer = "*const " if found[1] else "*mut "
        flat.append((found[4], pointer + number if found[3] else number))
    return flat


def calls(text, pattern, reader, returns, place):
    """The calls that a pattern finds: (parameters, what is returned) by name."""
    found = {}
    for match in re.finditer(pattern, text):
        try:
            declared = (reader(match["parameters"]), returns[match["returns"]])
        except KeyError as unknown:
            raise Unreadable(f"{place}: {match['name']}: no type that the calls use: {unknown}") from None
        if match["name"] in found:
            raise Unreadable(f"{place}: {match['name']} stands twice")
        found[match["name"]] = declared
    return found


def rattle_calls(text):
    pattern = r'pub extern "C" fn (?P<name>\w+)\((?P<parameters>[^)]*)\)\s*->\s*(?P<returns>\w+)'
    found = calls(text, r"#\[unsafe\(no_mangle\)\]\s*" + pattern, from_rattle, NUMBERS, RATTLE)
    if len(found) != len(re.findall(r'extern "C"', text)):
        raise Unreadable(f"{RATTLE}: a call without #[unsafe(no_mangle)], or in a form that is not read here")
    return found


def rust_calls(text):
    block = re.search(r'extern "C" \{(.*?)\n\}', text, re.S)
    if not block:
        raise Unreadable(f'{RUST}: no block extern "C"')
    pattern = r"fn (?P<name>\w+)\((?P<parameters>[^)]*)\)\s*->\s*(?P<returns>\w+);"
    found = calls(block[1], pattern, from_rust, NUMBERS, RUST)
    if len(found) != len(re.findall(r"\bfn\b", block[1])):
        raise Unreadable(f"{RUST}: a declaration in a form that is not read here")
    return found


def c_calls(text):
    body = re.sub(r"^\s*#.*(?:\\\n.*)*$", "", text, flags=re.M)
    body = re.sub(C_STRUCT, "", body)
    body = body.replace('extern "C" {', "").replace("}", "")
    pattern = r"(?P<returns>\w+)\s+(?P<name>\w+)\s*\((?P<parameters>[^)]*)\)\s*;"
    rest = re.sub(pattern, "", body).strip()
    if rest:
        raise Unreadable(f"{HEADER}: in a form that is not read here: {rest.splitlines()[0]}")
    return calls(body, pattern, from_c, C_TYPES, HEADER)


def laid_out(name, structs, place):
    """A struct as C lays it out: its size, its alignment, and (path, type, offset) of each number in it."""
    offset, align, flat = 0, 1, []
    for field, kind in structs[name]:
        if kind in SIZES:
            size, own, inner = SIZES[kind], SIZES[kind], [("", kind, 0)]
        elif kind in structs:
            size, own, inner = laid_out(kind, structs, place)
        else:
            raise Unreadable(f"{place}: struct {name}: no type that is read here: {kind}")
        offset += -offset % own
        align = max(align, own)
        flat += [(f"{field}.{path}".rstrip("."), number, offset + at) for path, number, at in inner]
        offset += size
    return offset + -offset % align, align, flat


def layouts(structs, place):
    """(size, fields) of every struct."""
    missing = sorted(set(C_STRUCTS.values()) - structs.keys())
    if missing:
        raise Unreadable(f"{place}: no struct {', '.join(missing)} that C can read")
    found = {name: laid_out(name, structs, place) for name in structs}
    return {name: (size, fields) for name, (size, _, fields) in found.items()}


def rust_structs(text):
    """Those with #[repr(C)], in Rattle and in Rust."""
    pattern = r"((?:#\[[^\]]*\]\s*)+)pub struct (\w+) \{([^}]*)\}"
    field = r"pub (\w+): (\w+)"
    return {match[2]: re.findall(field, match[3]) for match in re.finditer(pattern, text) if "#[repr(C)]" in match[1]}


C_STRUCT = r"typedef struct (\w+) \{([^}]*)\} (\w+);"


def c_structs(text):
    found = {}
    for tag, body, name in re.findall(C_STRUCT, text):
        if tag != name or name not in C_STRUCTS:
            raise Unreadable(f"{HEADER}: a struct that is not read here: {name}")
        fields = []
        for line in filter(None, (line.strip() for line in body.split(";"))):
            kind, field = line.split()
            fields.append((field, C_STRUCTS.get(kind) or C_TYPES.get(kind, kind)))
        found[C_STRUCTS[name]] = fields
    return found


def constants(text, pattern):
    return {match[1]: int(match[2]) for match in re.finditer(pattern, text, re.M)}


def product(text):
    """A length as the table has it: 12n, n, nodes + 1."""
    plain = re.sub(r"\(size_t\)|[()\s]", "", text).replace("usize", "")
    factor = re.fullmatch(r"(\d+)\*n", plain)
    return f"{factor[1]}n" if factor else plain.replace("nodes+1", "node count + 1")


def table(text):
    rows = re.findall(r"^// \| (\w[\w ]*?) +\| \w+ +\| ([^|]*?) +\|", text, re.M)
    lengths = {name.replace(" ", "_"): length for name, length in rows}
    return {name: lengths.get(name) for name in SIZED}


def read(folder):
    """What each side declares: {side: {what: value}}."""
    text = {
        path: re.sub(r"/\*.*?\*/", "", (folder / path).read_text(), flags=re.S)
        for path in [REFUSALS, AREAS, HEADER, RUST, LENGTHS] + STRUCTS
    }
    declared = "\n".join(path.read_text() for path in sorted((folder / RATTLE).glob("*.rt")))
    source = "\n".join(path.read_text() for path in [*sorted((folder / EXPORTS).glob("*.rt")), folder / CODES])
    plain = re.sub(r"//.*", "", source)
    rust = re.sub(r"//.*", "", text[RUST])

    # the body of the call, past its contract
    version = re.search(r"fn probe_version\(\) -> u32.*?\{\s*(\d+)\s*\}", plain, re.S)
    numbers = r"^pub const (?!VERSION)(\w+): u32 = (\d+);"
    refusals = {snake(name): int(number) for name, number in re.findall(r"Refusal::(\w+) => (\d+),", re.sub(r"//.*", "", text[REFUSALS]))}
    structs = rust_structs(re.sub(r"//.*", "", "\n".join(text[path] for path in STRUCTS)))
    codes = constants(plain, numbers)
    lengths = re.findall(r"fn (\w+)_length\((?:n|nodes): usize\) -> usize \{([^}]*)\}", text[LENGTHS])
    macros = re.findall(r"^#define PROBE_(\w+)_LENGTH\((?:n|nodes)\) (.*)$", text[HEADER], re.M)
    named = {name.lower(): product(length) for name, length in macros}

    return {
        "source": {
            "call": rattle_calls(re.sub(r"//.*", "", declared)),
            "code": {**codes, **{f"REFUSED_{name}": number for name, number in refusals.items()}},
            "version": {"probe_version": int(version[1]) if version else None},
            "length": table(text[AREAS]),
            "struct": layouts(structs, "source"),
        },
        HEADER: {
            "call": c_calls(text[HEADER]),
            "code": constants(text[HEADER], r"^#define PROBE_(?!VERSION)(?!MAX_)(\w+) (\d+)u *$"),
            "version": {"probe_version": constants(text[HEADER], r"^#define PROBE_(VERSION) (\d+)u").get("VERSION")},
            "length": {name: named.get(name) for name in SIZED},
            "struct": layouts(c_structs(text[HEADER]), HEADER),
        },
        RUST: {
            "call": rust_calls(rust),
            "code": constants(rust, numbers),
            "version": {"probe_version": constants(rust, r"^pub const (VERSION): u32 = (\d+);").get("VERSION")},
            "length": {name: dict((k, product(v)) for k, v in lengths).get(name) for name in SIZED},
            "struct": layouts(rust_structs(rust), RUST),
        },
    }


def snake(name):
    return re.sub(r"(?<=[a-z])(?=[A-Z])", "_", name).upper()


def words_differ(folder, refusals):
    """Where a refusal's words differ, or do not begin with its name in the header's table."""
    rows = re.findall(r"^ \*   (\d+) +(\w+(?: \w+)*)  ", (folder / HEADER).read_text(), re.M)
    names = {int(number): name for number, name in rows}
    told = {
        path: {snake(name): words for name, words in re.findall(pattern, (folder / path).read_text(), re.M)}
        for path, pattern in WORDS.items()
    }
    found = []
    for refusal, number in sorted(refusals.items()):
        said = {path: words.get(refusal) for path, words in told.items()}
        if None in said.values() or len(set(said.values())) > 1:
            found.append(f"refusal {number} is worded in more than one way: {said}")
        elif not said[next(iter(WORDS))].startswith(f"{names.get(number)}: "):
            found.append(f"{HEADER}: refusal {number} is {names.get(number)} in the table")
    return found


def limits_differ(folder):
    """Where a limit of the header, of the Rust crate, or one that the Python module reads by its name is not the source's."""
    ours = {}
    for name, (path, pattern, of) in LIMITS.items():
        found = re.findall(pattern, re.sub(r"//.*", "", (folder / path).read_text()))
        if len(set(found)) != 1:
            return [f"{path}: no one number for {name}"], 0
        ours[name] = of(int(found[0]))
    declared = constants((folder / HEADER).read_text(), r"^#define PROBE_(MAX_\w+|\w+_LENGTH) (\d+)u? *$")
    found = [
        f"{HEADER}: limit {name} is {declared.get(name)}, in the source {ours.get(name)}"
        for name in sorted(ours.keys() | declared.keys())
        if declared.get(name) != ours.get(name)
    ]
    for path, (pattern, names) in RUST_LIMITS.items():
        number = re.search(pattern, (folder / path).read_text())
        said = int(number[1].replace("_", "")) if number else None
        found += [f"{path}: limit {name} is {said}, in the source {ours[name]}" for name in names if said != ours[name]]
    for path in sorted((folder / PYTHON).glob("*.py")):
        named = re.findall(r'CODES\["(MAX_\w+)"\]', path.read_text())
        found += [f"{PYTHON}/{path.name}: the source has no limit {name}" for name in named if name not in ours]
    return found, len(ours)


def difference(name, ours, theirs):
    """Where two declarations of a call differ first."""
    if ours[1] != theirs[1]:
        return f"returns {theirs[1]}, in the source {ours[1]}"
    for place, (mine, other) in enumerate(zip(ours[0], theirs[0]), 1):
        if mine != other:
            return f"parameter {place} is {other[0]}: {other[1]}, in the source {mine[0]}: {mine[1]}"
    return f"{len(theirs[0])} parameters, in the source {len(ours[0])}"


def struct_difference(ours, theirs):
    """Where two layouts of a struct differ first."""
    if ours[0] != theirs[0]:
        return f"has {theirs[0]} bytes, in the source {ours[0]}"
    for mine, other in zip(ours[1], theirs[1]):
        if mine != other:
            return f"has {other[0]}: {other[1]} at byte {other[2]}, the source {mine[0]}: {mine[1]} at byte {mine[2]}"
    return f"has {len(theirs[1])} numbers, in the source {len(ours[1])}"


def compare(folder):
    """Every difference from the source, as a line; and how much was compared."""
    try:
        sides = read(folder)
    except (Unreadable, OSError) as why:
        return [str(why)], {}
    source = sides.pop("source")
    found = [f"source: no {what}" for what, values in source.items() if not values or None in values.values()]
    for side, declared in sides.items():
        for what, values in source.items():
            for name in sorted(values.keys() | declared[what].keys()):
                ours, theirs = values.get(name), declared[what].get(name)
                if ours == theirs:
                    continue
                if theirs is None:
                    found.append(f"{side}: {what} {name} is missing")
                elif ours is None:
                    found.append(f"{side}: {what} {name} is not in the source")
                elif what == "call":
                    found.append(f"{side}: {name}: {difference(name, ours, theirs)}")
                elif what == "struct":
                    found.append(f"{side}: {name} {struct_difference(ours, theirs)}")
                else:
                    found.append(f"{side}: {what} {name} is {theirs}, in the source {ours}")
    refusals = {name[8:]: number for name, number in source["code"].items() if name.startswith("REFUSED_")}
    found += words_differ(folder, refusals)
    limits, count = limits_differ(folder)
    counts = {what: len(values) for what, values in source.items()}
    return found + limits, {**counts, "wording": len(refusals), "limit": count}


# one fault each: the file, the text (its first place), and what it becomes
FAULTS = [
    (HEADER, "double origin_x,\n    double origin_y,", "double origin_y,\n    double origin_x,"),
    (HEADER, "size_t rows,\n    size_t columns,", "size_t columns,\n    size_t rows,"),
    (HEADER, "uint32_t side_x,", "size_t side_x,"),
    (HEADER, "double max_distance,", "float max_distance,"),
    (HEADER, "const double *heights,", "double *heights,"),
    (HEADER, "uint32_t *list,", "const uint32_t *list,"),
    (HEADER, "size_t hit_length", "uint32_t hit_length"),
    (HEADER, "const uint32_t *order,\n    size_t order_length,", "size_t order_length,\n    const uint32_t *order,"),
    (HEADER, "double normal_z,", "double normal_w,"),
    (HEADER, "    size_t found_length\n", "    size_t found_length,\n    size_t more\n"),
    (HEADER, "    size_t nodes,\n", ""),
    (HEADER, "uint32_t probe_tree_check(", "uint32_t probe_check("),
    (HEADER, "uint32_t probe_build(", "int probe_build("),
    (HEADER, "uint32_t probe_version(void);", ""),
    (HEADER, "uint32_t probe_version(void);", "uint32_t probe_version(void);\nuint32_t probe_more(void);"),
    (HEADER, "#define PROBE_HIT 256u", "#define PROBE_HIT 257u"),
    (HEADER, "#define PROBE_DONE 260u", "#define PROBE_READY 260u"),
    (HEADER, "#define PROBE_REFUSED_NO_ROOM 3u", "#define PROBE_REFUSED_NO_ROOM 4u"),
    (HEADER, "#define PROBE_REFUSED_OVERFLOW 6u\n", ""),
    (HEADER, "#define PROBE_VERSION 3u", "#define PROBE_VERSION 2u"),
    (HEADER, "PROBE_NODE_BOXES_LENGTH(n) ((size_t)12 * (n))", "PROBE_NODE_BOXES_LENGTH(n) ((size_t)6 * (n))"),
    (HEADER, "((size_t)(nodes) + 1)", "((size_t)(nodes))"),
    (RUST, "a_x: f64,\n        a_y: f64,", "a_y: f64,\n        a_x: f64,"),
    (HEADER, "double max_distance,\n    double near_distance,", "double near_distance,\n    double max_distance,"),
    (RUST, "        near_distance: f64,\n", ""),
    (RUST, "columns: usize,", "columns: u32,"),
    (RUST, "values: *const f64,", "values: *mut f64,"),
    (RUST, "hit: *mut f64,", "hit: *mut u32,"),
    (RUST, "pub fn probe_query(", "pub fn probe_ask("),
    (RUST, "pub fn probe_version() -> u32;", ""),
    (RUST, "pub fn probe_version() -> u32;", "pub fn probe_version() -> usize;"),
    (RUST, "pub const NONE: u32 = 257;", "pub const NONE: u32 = 256;"),
    (RUST, "pub const REFUSED_NO_NORMAL: u32 = 7;", "pub const REFUSED_NO_NORMAL: u32 = 8;"),
    (RUST, "pub const VERSION: u32 = 3;", "pub const VERSION: u32 = 0;"),
    (LENGTHS, "3 * n\n", "2 * n\n"),
    (RATTLE + "/shapes.rt", "    rows: usize,\n    columns: usize,", "    columns: usize,\n    rows: usize,"),
    (RATTLE + "/shapes.rt", "heights: &[f64],", "heights: &mut [f64],"),
    (RATTLE + "/shapes.rt", "side_x: u32,", "side_x: usize,"),
    (EXPORTS + "/shapes.rt", "{\n    3\n}", "{\n    2\n}"),
    (EXPORTS + "/ranges.rt", "pub const CLEAR: u32 = 261;", "pub const CLEAR: u32 = 263;"),
    (RATTLE + "/meshes.rt", "fn probe_query(", "fn probe_list("),
    (RATTLE + "/meshes.rt", "#[unsafe(no_mangle)]\n", ""),
    (CODES, "pub const NO: u32 = 259;", "pub const NO: u32 = 258;"),
    (REFUSALS, "Refusal::WrongPose => 4,", "Refusal::WrongPose => 9,"),
    (AREAS, "| 12n ", "| 10n "),
    (HEADER, "const probe_part *parts,", "probe_part *parts,"),
    (HEADER, "    size_t nodes;\n    probe_span vertices;", "    probe_span vertices;\n    size_t nodes;"),
    (HEADER, "    size_t nodes;\n", "    uint32_t nodes;\n"),
    (HEADER, "    probe_vec3 origin;", "    probe_span origin;"),
    (HEADER, "    size_t start;\n    size_t length;", "    size_t length;\n    size_t start;"),
    (HEADER, "    double y;\n    double z;", "    double z;\n    double y;"),
    (HEADER, "    probe_span order;\n", ""),
    (RUST, "pub nodes: usize,\n    /// Three numbers", "pub nodes: u32,\n    /// Three numbers"),
    (RUST, "#[repr(C)]\n#[derive(Clone, Copy, Debug, Default, PartialEq)]\npub struct Part", "pub struct Part"),
    (STRUCTS[0], "    pub node_boxes: Span,\n    pub triangle_boxes: Span,", "    pub triangle_boxes: Span,\n    pub node_boxes: Span,"),
    (STRUCTS[1], "#[repr(C)]\n", ""),
    (REFUSALS, "Refusal::LimitReached => 10,", "Refusal::LimitReached => 11,"),
    (REFUSALS, "Refusal::OutOfRange => 12,", "Refusal::OutOfRange => 13,"),
    (REFUSALS, "Refusal::NotRepresentable => 11,", "Refusal::NotRepresentable => 10,"),
    (HEADER, "    const uint8_t *bytes,", "    const uint32_t *bytes,"),
    (RUST, "        out: *mut u8,", "        out: *const u8,"),
    (HEADER, "    uint32_t *codes,", "    double *codes,"),
    (HEADER, "    double *hits,\n    size_t hits_length,\n", ""),
    (RUST, "        rays: *const f64,", "        rays: *mut f64,"),
    (RATTLE + "/many.rt", "    codes: &mut [u32],\n    hits: &mut [f64],", "    hits: &mut [f64],\n    codes: &mut [u32],"),
    (HEADER, "    double near_distance,\n    double radius,", "    double radius,\n    double near_distance,"),
    (RUST, "        drills: *const f64,", "        drills: *mut f64,"),
    (RATTLE + "/drills.rt", "    list: &mut [u32],\n    stack: &mut [u32],\n    index: &mut [u32],", "    stack: &mut [u32],\n    list: &mut [u32],\n    index: &mut [u32],"),
    (HEADER, " *   12   out of range  ", " *   12   out of reach  "),
    ("include/probe_rays.hpp", "no room: a buffer", "no room: a slice"),
    ("bindings/rust/src/answer.rs", "out of range: the origin or", "out of range: an origin or"),
    ("bindings/python/probe_rays/answers.py", '    "NOT_REPRESENTABLE"', '    "REPRESENTABLE"'),
    (HEADER, "#define PROBE_MAX_TRIANGLES 65536u", "#define PROBE_MAX_TRIANGLES 65535u"),
    (HEADER, "#define PROBE_MAX_TRIANGLES 65536u", "#define PROBE_MOST_TRIANGLES 65536u"),
    (HEADER, "#define PROBE_MAX_VERTICES 65536u", "#define PROBE_MAX_VERTICES 65537u"),
    (HEADER, "#define PROBE_MAX_RECORD 8196u", "#define PROBE_MAX_RECORD 8195u"),
    (HEADER, "#define PROBE_MAX_RECORD 8196u", "#define PROBE_LONGEST_RECORD 8196u"),
    (HEADER, "#define PROBE_HIT_LENGTH 4", "#define PROBE_HIT_LENGTH 5"),
    (HEADER, "#define PROBE_INDEX_LENGTH 1", "#define PROBE_INDEX_LENGTH 0"),
    (HEADER, "#define PROBE_COUNT_LENGTH 1\n", ""),
    ("bindings/rust/src/lib.rs", "MAX_COUNT: usize = 65_536;", "MAX_COUNT: usize = 65_535;"),
    ("bindings/rust/src/records.rs", "MAX_RECORD: usize = 8_196;", "MAX_RECORD: usize = 8_192;"),
    ("bindings/python/probe_rays/records.py", 'CODES["MAX_RECORD"]', 'CODES["MAX_RECORDS"]'),
    ("crates/record_bytes/src/shape.rt", "LONGEST: usize = 8192;", "LONGEST: usize = 8193;"),
    ("crates/tree_query/src/query.rt", "if count > 65536 {", "if count > 65537 {"),
]


def self_test(folder, loud):
    """Whether each fault, made in a copy, is reported; an unchanged copy has none."""
    missed = 0
    for file, old, new in [(HEADER, "", "")] + FAULTS:
        with tempfile.TemporaryDirectory() as name:
            copy = pathlib.Path(name)
            limits = [path for path, _, _ in LIMITS.values()]
            for path in [RATTLE, EXPORTS, CODES, REFUSALS, AREAS, HEADER, RUST, LENGTHS, PYTHON, *WORDS, *limits, *RUST_LIMITS] + STRUCTS:
                (copy / path).parent.mkdir(parents=True, exist_ok=True)
                if (folder / path).is_dir():
                    shutil.copytree(folder / path, copy / path, dirs_exist_ok=True)
                else:
                    shutil.copy(folder / path, copy / path)
            text = (copy / file).read_text()
            if old not in text:
                sys.exit(f"self-test: {file} has no {old!r}")
            (copy / file).write_text(text.replace(old, new, 1))
            found, _ = compare(copy)
            if bool(found) != bool(old):
                missed += 1
                print(f"self-test: {file}: {old!r} to {new!r}: {found or 'nothing is reported'}", file=sys.stderr)
            elif loud:
                print(*found, sep="\n")
    if missed:
        return False
    print(f"{len(FAULTS)} faults, each one reported")
    return True


def main():
    words = sys.argv[1:]
    home = pathlib.Path(__file__).resolve().parent.parent
    if words in (["--self-test"], ["--self-test", "--loud"]):
        sys.exit(0 if self_test(home, len(words) > 1) else 1)
    if len(words) > 1 or words and words[0].startswith("-"):
        sys.exit(__doc__)
    found, counts = compare(pathlib.Path(words[0]) if words else home)
    for line in found:
        print(line, file=sys.stderr)
    if found:
        sys.exit(1)
    print(", ".join(f"{count} {what}{'s' if count != 1 else ''}" for what, count in counts.items()), "agree")


if __name__ == "__main__":
    main()
