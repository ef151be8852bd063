"""Jobs, cells and facets of Rumosaywe: made, read and written, as bytes and as text (docs/FORMATS.md). The standard library alone.

    import rumosaywe_jobs as jobs
    job = jobs.job(jobs.box((0, 0, 0), (3, 3, 3)), jobs.box((1, 1, 1), (2, 2, 2)), "difference")
    open("p10.job", "wb").write(jobs.write(job))

A file is a Job (two solids and an operation), a Cell (one solid) or a Facet (a plane and its corners). Every finite number, and every
other bit pattern of 64 bits, comes back from bytes and from text as it was.
"""
import math
import re
import struct
from collections import namedtuple
from fractions import Fraction

Tolerances = namedtuple("Tolerances", "linear local")
Solid = namedtuple("Solid", "points faces")
Job = namedtuple("Job", "tolerances first second operation")
Cell = namedtuple("Cell", "tolerances solid")
Facet = namedtuple("Facet", "tolerances plane points")

OPERATIONS = ("intersection", "difference", "union")
USUAL = Tolerances(2.0**-20, 2.0**-18)
MOST_BYTES = 32768
MOST_COORDINATE = 2.0**20


class Refused(ValueError):
    """Bytes or text that are none of the three files, and why in words."""


# ---- making


def box(low, high):
    """A box by its lowest and its highest corner; faces low x, low y, low z, high x, high y, high z."""
    points = [tuple(float((high if i >> k & 1 else low)[k]) for k in range(3)) for i in range(8)]
    faces = [[0, 4, 6, 2], [0, 1, 5, 4], [0, 2, 3, 1], [1, 3, 7, 5], [2, 6, 7, 3], [4, 5, 7, 6]]
    return Solid(points, faces)


def column(outline, bottom, top):
    """An upright column over a convex outline of (x, y), counter-clockwise seen from above, between two heights."""
    n = len(outline)
    points = [(float(x), float(y), float(z)) for z in (bottom, top) for x, y in outline]
    sides = [[i, (i + 1) % n, n + (i + 1) % n, n + i] for i in range(n)]
    return Solid(points, [list(reversed(range(n))), list(range(n, 2 * n))] + sides)


def job(first, second, operation, linear=USUAL.linear, local=USUAL.local):
    if operation not in OPERATIONS:
        raise Refused(f"operation {operation!r} is none of {', '.join(OPERATIONS)}")
    return Job(Tolerances(linear, local), first, second, operation)


def cell(solid, linear=USUAL.linear, local=USUAL.local):
    return Cell(Tolerances(linear, local), solid)


def _points(file):
    """Each list of points with a name for it."""
    if isinstance(file, Job):
        return [("first solid", file.first.points), ("second solid", file.second.points)]
    return [("facet", file.points)] if isinstance(file, Facet) else [("solid", file.solid.points)]


def _with_points(file, change):
    """The file with every point changed: change(name of the list, place, point)."""

    def changed(name, points):
        return [change(name, i, q) for i, q in enumerate(points)]

    lists = [changed(name, points) for name, points in _points(file)]
    if isinstance(file, Job):
        return file._replace(first=file.first._replace(points=lists[0]), second=file.second._replace(points=lists[1]))
    if isinstance(file, Facet):
        origin = change("plane", 0, file.plane[:3])
        return file._replace(plane=(*origin, *file.plane[3:]), points=lists[0])
    return file._replace(solid=file.solid._replace(points=lists[0]))


def _less(x, whole):
    """x - whole as a double, or None where that is none."""
    if not math.isfinite(x):
        return None
    exact = Fraction(x) - whole
    try:
        rounded = float(exact)
    except OverflowError:
        return None
    return rounded if Fraction(rounded) == exact else None


def subtract(file, whole):
    """The file with three whole numbers subtracted from the coordinates of every point, exactly: Refused where a difference is no double,
    and it names each. From numbers of the same size it always is one: those of a map far from its origin."""
    if any(w != int(w) for w in whole):
        raise Refused("only whole numbers are subtracted")
    inexact = []

    def less(name, place, q):
        out = tuple(_less(x, int(w)) for x, w in zip(q, whole))
        for k in range(3):
            if out[k] is None:
                inexact.append(f"{name}, point {place}: {'xyz'[k]} {decimal(q[k])} - {int(whole[k])} is no double")
        return out

    moved = _with_points(file, less)
    if inexact:
        raise Refused("\n".join(inexact))
    return moved


# ---- what the library will refuse


def _beyond(x):
    return not abs(x) <= MOST_COORDINATE


def _coordinates(file):
    for name, points in _points(file):
        bad = [(i, k) for i, q in enumerate(points) for k in range(3) if _beyond(q[k])]
        if bad and not isinstance(file, Facet):
            i, k = bad[0]
            yield f"2: {name}, point {i}: {'xyz'[k]} is {decimal(points[i][k])}, {len(bad)} of its coordinates are beyond 2^20 = 1048576"


def _counts(name, solid):
    points, faces = len(solid.points), len(solid.faces)
    if not 4 <= points <= 128:
        yield f"3: {name}: {points} points, not 4 to 128"
    if not 4 <= faces <= 64:
        yield f"3: {name}: {faces} faces, not 4 to 64"
    for i, face in enumerate(solid.faces):
        if not 3 <= len(face) <= 64:
            yield f"3: {name}, face {i}: {len(face)} corners, not 3 to 64"
        elif max(face) >= points:
            yield f"4: {name}, face {i}: corner {max(face)}, of {points} points"


def remarks(file):
    """What the library refuses at a glance, each with its number: bytes (1), tolerances and coordinates (2), counts (3), places (4). An
    empty list is no promise: the program `solid check` makes the whole check."""
    out = []
    size = len(write(file))
    if size > MOST_BYTES:
        out.append(f"1: {size} bytes, a file has {MOST_BYTES} at most")
    linear, local = file.tolerances
    if not 2.0**-40 <= linear <= local <= 2.0**-4:
        out.append(f"2: the tolerances {decimal(linear)} and {decimal(local)}: 2^-40 <= linear <= local <= 2^-4 must hold")
    out.extend(_coordinates(file))
    solids = {"first solid": file.first, "second solid": file.second} if isinstance(file, Job) else {}
    if isinstance(file, Cell):
        solids = {"solid": file.solid}
    for name, solid in solids.items():
        out.extend(_counts(name, solid))
    return out


def whole_to_subtract(file):
    """Three whole numbers that bring every coordinate within 2^20, 0 where it is; None where none do."""
    every = [q for _, points in _points(file) for q in points]
    if not every or not all(math.isfinite(x) for q in every for x in q):
        return None
    out = []
    for k in range(3):
        low, high = min(q[k] for q in every), max(q[k] for q in every)
        out.append(0 if not _beyond(low) and not _beyond(high) else math.floor(low))
        if _beyond(low - out[k]) or _beyond(high - out[k]):
            return None
    return tuple(out)


# ---- records, which bytes and text share: (where it stands, its word, its numbers)

WORDS = {1: "tolerances", 2: "point", 3: "face", 4: "corner", 5: "end", 6: "operation", 9: "plane"}
NUMBERS = {"tolerances": 2, "point": 3, "face": 0, "end": 0, "plane": 12}
FORMATS = {"tolerances": "<2d", "point": "<3d", "face": "<", "corner": "<H", "end": "<", "operation": "<B", "plane": "<12d"}
KINDS = {word: kind for kind, word in WORDS.items()}


class _Reader:
    """Takes records one after another; `end` is where they end."""

    def __init__(self, records, end):
        self.left, self.end = list(reversed(records)), end

    def next(self):
        return self.left[-1][1] if self.left else None

    def take(self, word):
        where, found, numbers = self.left[-1] if self.left else (self.end, "the end", None)
        if found != word:
            raise Refused(f"{where}: {found}, where {word} should stand")
        self.left.pop()
        return numbers

    def while_(self, word):
        while self.next() == word:
            yield self.take(word)

    def solid(self):
        points = list(self.while_("point"))
        faces = [[i for (i,) in self.while_("corner")] for _ in self.while_("face")]
        self.take("end")
        return Solid(points, faces)

    def file(self):
        tolerances = Tolerances(*self.take("tolerances"))
        if self.next() == "plane":
            return self.whole(Facet(tolerances, self.take("plane"), list(self.while_("point"))))
        first = self.solid()
        if not self.left:
            return Cell(tolerances, first)
        second = self.solid()
        (operation,) = self.take("operation")
        return self.whole(Job(tolerances, first, second, operation))

    def whole(self, file):
        if self.left:
            raise Refused(f"{self.left[-1][0]}: {self.left[-1][1]}, where the file should end")
        return file


def _records(file):
    """The records of a file, without where they stand."""

    def solid(s):
        for q in s.points:
            yield "point", tuple(q)
        for face in s.faces:
            yield "face", ()
            for i in face:
                yield "corner", (i,)
        yield "end", ()

    yield "tolerances", tuple(file.tolerances)
    if isinstance(file, Facet):
        yield "plane", tuple(file.plane)
        for q in file.points:
            yield "point", tuple(q)
        return
    for s in (file.first, file.second) if isinstance(file, Job) else (file.solid,):
        yield from solid(s)
    if isinstance(file, Job):
        yield "operation", (file.operation,)


# ---- bytes


def read(data):
    """The file that these bytes are."""
    if len(data) > MOST_BYTES:
        raise Refused(f"{len(data)} bytes, a file has {MOST_BYTES} at most")
    records, at = [], 0
    while at < len(data):
        word = WORDS.get(data[at])
        if word is None:
            raise Refused(f"byte {at}: no record is of kind {data[at]}")
        size = struct.calcsize(FORMATS[word])
        if at + 1 + size > len(data):
            raise Refused(f"byte {at}: {word} is cut short, {len(data) - at - 1} of its {size} bytes are there")
        numbers = struct.unpack_from(FORMATS[word], data, at + 1)
        if word == "operation":
            if not 1 <= numbers[0] <= 3:
                raise Refused(f"byte {at}: no operation is {numbers[0]}")
            numbers = (OPERATIONS[numbers[0] - 1],)
        records.append((f"byte {at}", word, numbers))
        at += 1 + size
    return _Reader(records, f"byte {at}").file()


def write(file):
    """The bytes of a file."""
    out = bytearray()
    for word, numbers in _records(file):
        if word == "operation":
            numbers = (OPERATIONS.index(numbers[0]) + 1,)
        out.append(KINDS[word])
        try:
            out += struct.pack(FORMATS[word], *numbers)
        except struct.error:
            raise Refused(f"{word} {' '.join(map(str, numbers))}: no such record can be written") from None
    return bytes(out)


# ---- text


def _bits(x):
    return struct.unpack("<Q", struct.pack("<d", x))[0]


def decimal(x):
    """The shortest decimal that reads back as the same double."""
    if math.isnan(x):
        return f"nan:{_bits(x):016x}"
    return repr(float(x)).removesuffix(".0")


def hexadecimal(x):
    """The same as a hex float, without the zeros at its end."""
    if not math.isfinite(x):
        return decimal(x)
    return re.sub(r"\.?0*p", "p", float(x).hex())


def to_text(file, hex=False):
    """A file as text, numbers as decimals or as hex floats."""
    number = hexadecimal if hex else decimal
    out = [f"# {type(file).__name__.lower()}; places are counted from 0"]
    place = 0
    for word, numbers in _records(file):
        if word == "corner":
            out[-1] += f" {numbers[0]}"
        elif word == "operation":
            out.append(f"operation {numbers[0]}")
        else:
            out.append(" ".join([word, *map(number, numbers)]))
        if word == "point":
            out[-1] += f" # {place}"
        place = place + 1 if word == "point" else 0
    return "\n".join(out) + "\n"


DECIMAL = re.compile(r"[+-]?(\d+\.?\d*|\.\d+)([eE][+-]?\d+)?", re.ASCII)
HEXADECIMAL = re.compile(r"([+-]?)0[xX]([0-9a-fA-F]*)\.?([0-9a-fA-F]*)(?:[pP]([+-]?\d+))?", re.ASCII)


def _hex_value(sign, whole, part, power, text):
    """A hex float, which must be a double to the last bit."""
    if not whole + part or len(power) > 6:
        raise Refused(f"'{text}' is no number")
    m, e = int(whole + part, 16), int(power) - 4 * len(part)
    zeros = (m & -m).bit_length() - 1 if m else 0
    m, e = m >> zeros, e + zeros
    if m and (m.bit_length() > 53 or e < -1074 or m.bit_length() + e > 1024):
        raise Refused(f"'{text}' is no double")
    return math.copysign(math.ldexp(m, e) if m else 0.0, -1.0 if sign == "-" else 1.0)


def number(text):
    """The double that a word means: a decimal, rounded to the nearest one; a hex float, exactly one; inf, nan, or nan: and its bits."""
    if text in ("inf", "+inf", "-inf", "nan"):
        return float(text)
    if re.fullmatch("nan:[0-9a-f]{16}", text):
        x = struct.unpack("<d", struct.pack("<Q", int(text[4:], 16)))[0]
        if not math.isnan(x):
            raise Refused(f"'{text}' has the bits of a number")
        return x
    parts = HEXADECIMAL.fullmatch(text)
    if parts:
        return _hex_value(parts[1], parts[2], parts[3], parts[4] or "0", text)
    if not DECIMAL.fullmatch(text):
        raise Refused(f"'{text}' is no number")
    x = float(text)
    if math.isinf(x) or (x == 0 and re.search("[1-9]", re.split("[eE]", text)[0])):
        raise Refused(f"'{text}' is beyond every double but {'infinity' if math.isinf(x) else '0'}")
    return x


def place(text):
    """A point's place."""
    if not re.fullmatch(r"\d{1,9}", text, re.ASCII) or int(text) > 0xFFFF:
        raise Refused(f"'{text}' is no place: a whole number from 0 to 65535")
    return int(text)


def _line_records(word, values):
    """The records of a line."""
    if word == "face":
        return [("face", ())] + [("corner", (place(v),)) for v in values]
    if word == "operation":
        if len(values) != 1 or values[0] not in OPERATIONS:
            raise Refused(f"an operation is one of {', '.join(OPERATIONS)}")
        return [("operation", (values[0],))]
    if word not in NUMBERS:
        raise Refused(f"'{word}' is no word of a job, a cell or a facet")
    if len(values) != NUMBERS[word]:
        raise Refused(f"{word} takes {NUMBERS[word]} numbers, not {len(values)}")
    return [(word, tuple(map(number, values)))]


def from_text(text):
    """The file that a text means."""
    records = []
    lines = text.split("\n")
    for i, line in enumerate(lines, 1):
        words = [word for word in re.split("[ \t\r]", line.split("#", 1)[0]) if word]
        if not words:
            continue
        try:
            records += [(f"line {i}", word, numbers) for word, numbers in _line_records(words[0], words[1:])]
        except Refused as why:
            raise Refused(f"line {i}: {why}") from None
    return _Reader(records, f"line {len(lines)}").file()
