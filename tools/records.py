#!/usr/bin/env python3
"""Records from text, and lines as numbers, for the program `probe`.

  records.py write < TEXT > RECORDS     one record for each line of TEXT
  records.py read < RECORDS > TEXT      one line for each record of a well-formed stream
  records.py short < RECORDS > RECORDS  every record of version 2 as version 3, whose floats have four bytes
  records.py long < RECORDS > RECORDS   every record of version 3 as version 2
  records.py show < LINES               the lines of `probe`, each float as a number
  records.py count RECORDS LINES        how many records of each kind have which answer, and what the meshes are like

A line of TEXT is fields by name; a number is written as Python reads a float (1e160, inf, nan) or as its bits (0x and 16 digits).
An empty line, and what follows a #, is left out.

  plane     RAY normal X Y Z distance D
  triangle  RAY corners X Y Z X Y Z X Y Z
  mesh      RAY counts V T vertices X Y Z .. indices A B C ..
  heights   RAY rows R columns C spacing X Y values ..
  distances RAY sides X Y Z corner X Y Z spacing X Y Z values ..

RAY is 'origin X Y Z direction X Y Z max D', and with 'near D' behind it the record has version 2, else version 1, which means near 0.
With 'short' before the kind the record has version 3: 'near D' stands there too, and each number is an f32, exactly, or 0x and 8 digits. Vertices, indices and values run to the next field or to the end of the line; a record is written as it stands, so that counts may be wrong.
"""
import collections
import math
import struct
import sys

# the fields of each kind: a name, what each number is, and how many there are (0: to the next field or the end of the line)
RAY = [("origin", "float", 3), ("direction", "float", 3), ("max", "float", 1)]
NEAR = [("near", "float", 1)]
# the bytes of a float and its format, by version
SIZES = {1: (8, ">d"), 2: (8, ">d"), 3: (4, ">f")}
LONGEST = 8192
KINDS = {
    "plane": (1, [("normal", "float", 3), ("distance", "float", 1)]),
    "triangle": (2, [("corners", "float", 9)]),
    "mesh": (
        3,
        [("counts", "u32", 2), ("vertices", "float", 0), ("indices", "u32", 0)],
    ),
    "heights": (
        4,
        [("rows", "u32", 1), ("columns", "u32", 1), ("spacing", "float", 2), ("values", "float", 0)],
    ),
    "distances": (
        5,
        [("sides", "u32", 3), ("corner", "float", 3), ("spacing", "float", 3), ("values", "float", 0)],
    ),
}


def fail(number, why):
    sys.exit(f"line {number}: {why}")


def exactly(form, x):
    """A float's bytes in a format that holds it."""
    try:
        out = struct.pack(form, x)
    except OverflowError:
        raise ValueError("no f32 is exactly that number") from None
    if x == x and struct.unpack(form, out)[0] != x:
        raise ValueError("no f32 is exactly that number")
    return out


def pattern(what, word, version):
    """The four bytes of a u32, or those of a float or of its bits."""
    if what == "u32":
        return struct.pack(">I", int(word, 0))
    size, form = SIZES[version]
    if word.startswith("0x"):
        return struct.pack({4: ">I", 8: ">Q"}[size], int(word, 16))
    return exactly(form, float(word))


def run(words, names):
    """How many words stand before the next field."""
    return next((i for i, word in enumerate(words) if word in names), len(words))


def body(number, words):
    short = words[0] == "short"
    words = words[short:]
    if not words or words[0] not in KINDS:
        fail(number, f"no kind of shape: {' '.join(words[:1])}")
    kind, shape = KINDS[words[0]]
    near = NEAR if short or "near" in words else []
    version = 3 if short else 2 if near else 1
    out = bytes([version, kind])
    at = 1
    names = [name for name, _, _ in shape]
    for name, what, count in RAY + near + shape:
        if words[at : at + 1] != [name]:
            fail(number, f"'{name}' is to stand here: {' '.join(words[at:]) or 'the end'}")
        count = count or run(words[at + 1 :], names)
        numbers = words[at + 1 : at + 1 + count]
        if len(numbers) < count:
            fail(number, f"'{name}' takes {count} numbers")
        try:
            out += b"".join(pattern(what, word, version) for word in numbers)
        except (ValueError, struct.error):
            fail(number, f"no number: {' '.join(numbers)}")
        at += 1 + count
    if at < len(words):
        fail(number, f"too much: {' '.join(words[at:])}")
    return out


def write():
    for number, line in enumerate(sys.stdin, 1):
        words = line.split("#")[0].split()
        if words:
            record = body(number, words)
            if len(record) > 8192:
                fail(number, f"a record of {len(record)} bytes; `probe` reads 8,192 at most, a mesh of about 340 triangles")
            sys.stdout.buffer.write(struct.pack(">I", len(record)) + record)


def fields(record):
    """The fields of a record's body: name, what its numbers are, and each number's bytes."""
    kinds = {kind: shape for kind, shape in KINDS.values()}
    version, kind = record[:2]
    at, counts = 2, []
    for name, what, count in RAY + (NEAR if version > 1 else []) + kinds[kind]:
        size = 4 if what == "u32" else SIZES[version][0]
        if not count:
            count = {"vertices": 3 * counts[0], "indices": 3 * counts[-1]}.get(name, math.prod(counts))
        numbers = [record[at + size * k : at + size * (k + 1)] for k in range(count)]
        if what == "u32" and name != "indices":
            counts += [int.from_bytes(number, "big") for number in numbers]
        yield name, what, numbers
        at += size * count


def read():
    names = {kind: name for name, (kind, _) in KINDS.items()}
    for record in bodies(sys.stdin.buffer.read()):
        words = ["short"] * (record[0] == 3) + [names[record[1]]]
        for name, what, numbers in fields(record):
            words += [name, *(str(int.from_bytes(n, "big")) if what == "u32" else "0x" + n.hex() for n in numbers)]
        print(" ".join(words))


def cut(record, version):
    """What a record's body has, field by field, if it is a well-formed one of the version."""
    if len(record) < 2 or record[0] != version or not 1 <= record[1] <= 5:
        raise ValueError(f"no record of version {version}")
    head = 2 + 8 * SIZES[version][0] + 4 * (0, 0, 0, 2, 2, 3)[record[1]]
    if len(record) < head:
        raise ValueError("cut short")
    # the counts say how long it is: no number is cut before that is known
    many = [int.from_bytes(record[k : k + 4], "big") for k in range(2 + 8 * SIZES[version][0], head, 4)]
    floats = [4, 9, 3 * (many + [0])[0], 2 + math.prod(many), 6 + math.prod(many)][record[1] - 1]
    words = 3 * many[1] if record[1] == 3 else 0
    if len(record) != head + SIZES[version][0] * floats + 4 * words:
        raise ValueError("not filled by its fields")
    if 66 + 4 * len(many) + 8 * floats + 4 * words > LONGEST:
        raise ValueError("too long for version 2")
    return fields(record)


def converted(record, source, target):
    """A record's body in another version."""
    out = bytes([target]) + record[1:2]
    for _, what, numbers in cut(record, source):
        for number in numbers:
            if what == "float":
                x = struct.unpack(SIZES[source][1], number)[0]
                if x != x:
                    raise ValueError("a NaN")
                number = exactly(SIZES[target][1], x)
            out += number
    return out


def convert(source, target):
    for number, record in enumerate(bodies(sys.stdin.buffer.read()), 1):
        try:
            out = converted(record, source, target)
        except ValueError as why:
            sys.exit(f"record {number}: {why}")
        sys.stdout.buffer.write(struct.pack(">I", len(out)) + out)


def shown(word):
    if len(word) != 16:
        return word
    return repr(struct.unpack(">d", bytes.fromhex(word))[0])


def show():
    for line in sys.stdin:
        words = line.split()
        if words[1:2] == ["hit"]:
            words[2:6] = map(shown, words[2:6])
        print(" ".join(words))


def bodies(data):
    at = 0
    while at < len(data):
        (length,) = struct.unpack_from(">I", data, at)
        yield data[at + 4 : at + 4 + length]
        at += 4 + length


def count(records, lines):
    names = {kind: name for name, (kind, _) in KINDS.items()}
    answers = collections.Counter()
    meshes = collections.Counter()
    triangles = set()
    with open(records, "rb") as data, open(lines) as text:
        for record, line in zip(bodies(data.read()), text, strict=True):
            words = line.split()[1:]
            answers[names[record[1]], " ".join(words[:2]) if words[0] == "refused" else words[0]] += 1
            if words[0] == "hit" and words[4] == "7ff8000000000000":
                answers[names[record[1]], "hit at NaN"] += 1
            if record[1] == 3:
                numbers = {name: [int.from_bytes(n, "big") for n in found] for name, _, found in fields(record)}
                vertices, many = numbers["counts"]
                indices = numbers["indices"]
                triangles.add(many)
                meshes["with an index that occurs again"] += len(set(indices)) < len(indices)
                meshes["with an index past the vertices"] += any(index >= vertices for index in indices)
    for (name, answer), times in sorted(answers.items()):
        print(f"{name} {answer}: {times}")
    for what, times in sorted(meshes.items()):
        print(f"mesh {what}: {times}")
    print("triangles of a mesh:", *sorted(triangles))


if __name__ == "__main__":
    commands = {
        "write": (write, 2),
        "read": (read, 2),
        "short": (lambda: convert(2, 3), 2),
        "long": (lambda: convert(3, 2), 2),
        "show": (show, 2),
        "count": (count, 4),
    }
    if len(sys.argv) < 2 or sys.argv[1] not in commands or len(sys.argv) != commands[sys.argv[1]][1]:
        sys.exit(__doc__)
    commands[sys.argv[1]][0](*sys.argv[2:])
