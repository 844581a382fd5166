"""Scenes: their records, and what follows from points alone (octree, pieces), by the definitions of docs/formats.md."""

import re
from bisect import bisect_left
from dataclasses import dataclass, field

from nbody_tools.command import Refusal

LEVELS = 21
SIDE = 1 << LEVELS
MOST_BODIES = 65536
MOST_MOVES = 262144
MOST_PASSES = 1024
MOST_BYTES = 1 << 24
MOST_MASS = (1 << 32) - 1
MASSES_BELOW = 1 << 40
PAST_ALL_RANGES = 1 << 64
COORDINATES = tuple((axis, 0, SIDE - 1) for axis in "xyz")
# What each kind of record has behind its word, with the least and the greatest number there.
FORMS = {b"body": (("mass", 1, MOST_MASS), *COORDINATES), b"move": (("body", 0, MOST_BODIES - 1), *COORDINATES), b"pass": ()}
LINE_ENDS = re.compile(rb"[\r\n]*")
# A field in quotes with what joins it behind them, or a field without.
FIELD = re.compile(rb'"([^"]*(?:""[^"]*)*)(?:"|\Z)([^,\r\n]*)|([^,\r\n]*)')


@dataclass
class Scene:
    """Masses and points by the bodies' numbers, and the moves of each pass as pairs of a number and a point."""
    masses: list = field(default_factory=list)
    points: list = field(default_factory=list)
    passes: list = field(default_factory=list)

    def points_after(self, passes):
        """The points of all bodies after so many passes."""
        points = list(self.points)
        for moves in self.passes[:passes]:
            for body, point in moves:
                points[body] = point
        return points


class Fault(Refusal):
    """The first fault of a scene. Its line is the one that the program writes."""

    def __init__(self, text, line):
        super().__init__(text)
        self.line = line


def body_record(mass, point):
    return "body,%d,%d,%d,%d\n" % (mass, *point)


def records_of(data):
    """The records of bytes, each a list of its fields."""
    data = data.removeprefix(b"\xef\xbb\xbf")
    at = LINE_ENDS.match(data).end()
    while at < len(data):
        record = []
        while True:
            found = FIELD.match(data, at)
            quoted, joined, plain = found.groups()
            record.append(plain if quoted is None else quoted.replace(b'""', b'"') + joined)
            at = found.end()
            if data[at:at + 1] != b",":
                break
            at += 1
        yield record
        at = LINE_ENDS.match(data, at).end()


def number_of(text):
    """The number of a field, or None where it is none."""
    if not text.isdigit():
        return None
    text = text.lstrip(b"0")
    return PAST_ALL_RANGES if len(text) > 19 else int(text or b"0")


class Reader:
    """Reads records one after another. The first fault is raised."""

    def __init__(self, name):
        self.name, self.n, self.scene = name, 0, Scene()
        self.at, self.total, self.moved = {}, 0, 0
        # The moves of the pass that is being read, or None where there are none, and where the bodies are before it.
        self.moves, self.now = None, []

    def fault(self, kind, *numbers, why):
        text = "%s: record %d: %s" % (self.name, self.n, why)
        return Fault(text, " ".join(map(str, ("refused", kind, self.n, *numbers))))

    def read(self, record):
        self.n += 1
        numbers = list(map(number_of, record[1:]))
        for fault in self.faults(record, numbers):
            raise fault
        if record[0] == b"body":
            self.add_body(numbers[0], tuple(numbers[1:]))
        elif record[0] == b"move":
            self.add_move(numbers[0], tuple(numbers[1:]))
        else:
            self.end_pass()

    def faults(self, record, numbers):
        """The faults of a record after those before it, in the order in which they are looked for."""
        bad = list(self.faults_of_form(record, numbers))
        if bad:
            yield from bad
        elif record[0] == b"body":
            yield from self.faults_of_body(numbers[0], tuple(numbers[1:]))
        elif record[0] == b"move":
            yield from self.faults_of_move(numbers[0])
        else:
            yield from self.faults_of_pass()

    def faults_of_form(self, record, numbers):
        form = FORMS.get(record[0])
        if form is None or len(numbers) != len(form):
            yield self.fault("bad-record", why="it is neither 'body,MASS,X,Y,Z' nor 'move,BODY,X,Y,Z' nor 'pass'")
            return
        fields = [(f, what, record[f - 1].decode(errors="replace")[:40]) for f, (what, _, _) in enumerate(form, 2)]
        for (f, what, text), number in zip(fields, numbers):
            if number is None:
                yield self.fault("bad-number", f, why="%s is '%s', and no whole number" % (what, text))
                break
        for (f, what, text), number, (_, least, most) in zip(fields, numbers, form):
            if number is not None and not least <= number <= most:
                yield self.fault("out-of-range", f, why="%s is %s, and has to be from %d to %d" % (what, text, least, most))
                break

    def faults_of_body(self, mass, point):
        number = len(self.scene.points)
        if number == MOST_BODIES:
            yield self.fault("too-many", why="a scene has at most %d bodies" % MOST_BODIES)
        if self.total + mass >= MASSES_BELOW:
            yield self.fault("mass-total", why="the masses up to here sum to 2^40 or more")
        if point in self.at:
            yield self.fault("coincident", self.at[point], number, why="body %d has the point of body %d" % (number, self.at[point]))
        if self.moves is not None or self.scene.passes:
            yield self.fault("body-after-move", why="a body stands after a move or a pass")

    def faults_of_move(self, body):
        if self.moved == MOST_MOVES:
            yield self.fault("too-many", why="a scene has at most %d moves" % MOST_MOVES)
        if body >= len(self.scene.points):
            yield self.fault("unknown-body", why="there is no body %d" % body)
        if body in (self.moves or ()):
            yield self.fault("moved-twice", body, why="body %d has been moved in this pass already" % body)

    def faults_of_pass(self):
        if len(self.scene.passes) == MOST_PASSES:
            yield self.fault("too-many", why="a scene has at most %d passes" % MOST_PASSES)
        first = {}
        for body, point in enumerate(self.after_moves() if self.moves else ()):
            if point in first:
                why = "after this pass bodies %d and %d are at one point" % (first[point], body)
                yield self.fault("pass-coincident", first[point], body, why=why)
                return
            first[point] = body

    def add_body(self, mass, point):
        self.total += mass
        self.at[point] = len(self.scene.points)
        self.scene.masses.append(mass)
        self.scene.points.append(point)
        self.now.append(point)

    def add_move(self, body, point):
        self.moved += 1
        self.moves = self.moves or {}
        self.moves[body] = point

    def after_moves(self):
        """Where the bodies are after the moves of the pass that is being read."""
        points = list(self.now)
        for body, point in self.moves.items():
            points[body] = point
        return points

    def end_pass(self):
        self.now = self.after_moves() if self.moves else self.now
        self.scene.passes.append(list((self.moves or {}).items()))
        self.moves = None

    def end(self):
        """The scene. The end of the text ends a pass that has moves."""
        if self.moves is not None:
            self.read([b"pass"])
        return self.scene


def read_scene(text, name):
    """The scene of a text or of its bytes, by the rules of docs/formats.md; moves and passes are read too."""
    data = text if isinstance(text, bytes) else text.encode()
    if len(data) > MOST_BYTES:
        raise Fault("%s: the scene has more than %d bytes" % (name, MOST_BYTES), "refused too-long")
    reader = Reader(name)
    for record in records_of(data):
        reader.read(record)
    return reader.end()


def spread(number):
    """A number of 21 bits with two zeros between each bit and the next."""
    number = (number | number << 32) & 0x1F00000000FFFF
    number = (number | number << 16) & 0x1F0000FF0000FF
    number = (number | number << 8) & 0x100F00F00F00F00F
    number = (number | number << 4) & 0x10C30C30C30C30C3
    return (number | number << 2) & 0x1249249249249249


def code_of(point):
    """The octants of a point at the levels 0 to 20, as the digits of one number."""
    return spread(point[0]) << 2 | spread(point[1]) << 1 | spread(point[2])


def key_of(point, level):
    """The key of the cube at this level that holds the point."""
    return (1 << 3 * LEVELS | code_of(point)) >> 3 * (LEVELS - level)


def cube_of(key):
    """The lowest corner of a key's cube, and its side."""
    level = (key.bit_length() - 1) // 3
    corner = [0, 0, 0]
    for n in range(level):
        octant = key >> 3 * n & 7
        for axis in range(3):
            corner[axis] |= (octant >> 2 - axis & 1) << LEVELS - level + n
    return tuple(corner), SIDE >> level


def divided(points, most):
    """The cubes of the points, divided where more than `most` are in one, in tree order: a key, and the numbers of the
    bodies of an undivided cube (none, for an octant without bodies) or None for a divided one."""
    codes = sorted((code_of(it), n) for n, it in enumerate(points))
    todo = [(1, 3 * LEVELS, 0, len(codes))]
    while todo:
        key, shift, low, high = todo.pop()
        if high - low <= most:
            yield key, [n for _, n in codes[low:high]]
            continue
        yield key, None
        shift -= 3
        first = codes[low][0] >> shift & ~7
        bounds = [low, *(bisect_left(codes, (first + it << shift,), low, high) for it in range(1, 8)), high]
        todo.extend((8 * key + it, shift, bounds[it], bounds[it + 1]) for it in reversed(range(8)))


def tree_text(points):
    """The text of the points' canonical octree."""
    parts = []
    for key, bodies in divided(points, 1):
        if bodies is None:
            parts.append("(")
            continue
        parts.append("b%d" % bodies[0] if bodies else ".")
        while key > 1 and key & 7 == 7:
            parts.append(")")
            key >>= 3
    return "".join(parts)


def pieces(points, workers):
    """SPACE's pieces in tree order: the key, the bodies and the worker of each."""
    before, found = 0, []
    for key, bodies in divided(points, max(1, len(points) // (4 * workers))):
        if bodies:
            found.append((key, bodies, before * workers // len(points)))
            before += len(bodies)
    return found
