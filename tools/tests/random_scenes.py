"""Random scenes, most of them small, with moves and passes, and mostly with faults. A seed fixes each."""

import random
import re

from nbody_tools.scenes import LEVELS, MOST_BODIES, MOST_MASS, MOST_PASSES, SIDE

MIDDLE = 1 << LEVELS - 1
AXIS = (0, 1, MIDDLE - 1, MIDDLE, SIDE - 2, SIDE - 1)
# A field in which such a byte stands needs quotes.
NEEDS_QUOTES = re.compile(rb'^"|[,\r\n]')
WORDS = (b"", b" body", b"Body", b"bodyy", b"bod", b"PASS", b"moves", b"\xef\xbb\xbfbody", b"pass\0", b"1", b'pass"', b"\xff")
NO_NUMBERS = (b"", b"-1", b"+1", b" 1", b"1 ", b"1.0", b"1e3", b"0x1", b"\xd9\xa1", b"1\0", b"\xff", b"x", b'1"', b"0" * 300 + b"x", b"9" * 300 + b"-",
              b"\xc2\xb2", b"1\t", b"body")
# Some of them are within their ranges in words of 32, 64 or 128 bits, or 53 bits of a fraction.
PAST = (1 << 32, (1 << 32) + 1, (1 << 53) + 1, (1 << 63) + 5, 1 << 64, (1 << 64) + 1, (1 << 128) + 1, 10 ** 100 - 1, 10 ** 5000)


class Maker:
    """Makes the records of one scene, each a list of the bytes of its fields."""

    def __init__(self, seed):
        self.random = random.Random(seed)
        self.records = []
        # Where the records put the bodies, where they are before the pass that is being written, and what it has moved.
        self.points, self.now, self.moved = [], [], {}
        self.values = [self.coordinate() for _ in range(self.random.randint(1, 4))]

    def chance(self, part):
        return self.random.random() < part

    def coordinate(self):
        return self.random.choice(AXIS) if self.chance(0.6) else self.random.randrange(SIDE)

    def point(self):
        """A point, of few where it has the scene's few values alone."""
        few = self.chance(0.6)
        return tuple(self.random.choice(self.values) if few else self.coordinate() for _ in range(3))

    def free_point(self):
        """A point where no body is or was put."""
        point = self.point()
        taken = {*self.points, *self.now, *self.moved.values()}
        while point in taken:
            point = tuple(self.random.randrange(SIDE) for _ in range(3))
        return point

    def mass(self):
        return self.random.choice((1, 2, 255, 256, 1 << 31, MOST_MASS, self.random.randint(1, MOST_MASS)))

    def put(self, word, *numbers):
        self.records.append([word, *(b"%d" % it for it in numbers)])

    def body(self, point=None, mass=None):
        point = point or self.free_point()
        self.put(b"body", mass or self.mass(), *point)
        self.points.append(point)
        self.now.append(point)

    def move(self, body, point):
        self.put(b"move", body, *point)
        self.moved.setdefault(body, point)

    def end_pass(self, written=True):
        if written:
            self.put(b"pass")
        for body, point in self.moved.items():
            self.now[body] = point
        self.moved = {}

    def some_bodies(self, least):
        """Numbers of distinct bodies in any order, or none where there are too few."""
        count = len(self.points)
        return self.random.sample(range(count), self.random.randint(least, min(count, least + 5))) if count >= least else []

    def round_of_places(self):
        """Bodies go round: each to the place of the next, two of them change places."""
        bodies = self.some_bodies(2)
        if self.chance(0.5):
            bodies = bodies[:2]
        places = [self.now[it] for it in bodies]
        return list(zip(bodies, places[1:] + places[:1]))

    def to_free_points(self):
        """To points where nobody is, or behind one another, the first to such a point."""
        bodies = self.some_bodies(1)
        if self.chance(0.5):
            return [(it, self.free_point()) for it in bodies]
        places = [self.now[it] for it in bodies]
        return list(zip(bodies, [self.free_point()] + places))

    def back(self):
        """Back to where the records put them; of all bodies that is always a scene."""
        bodies = self.some_bodies(1) if self.chance(0.5) else list(range(len(self.points)))
        return [(it, self.points[it]) for it in bodies]

    def staying(self):
        return [(it, self.now[it]) for it in self.some_bodies(1)]

    def anywhere(self):
        """To points among few, so that bodies meet."""
        known = self.now + self.points
        return [(it, self.random.choice(known) if self.chance(0.5) else self.point()) for it in self.some_bodies(1)]

    def passes(self, count):
        kinds = (self.round_of_places, self.to_free_points, self.back, self.staying, list)
        if self.chance(0.3):
            kinds += (self.anywhere,)
        for number in range(count):
            for body, point in self.random.choice(kinds)():
                self.move(body, point)
            self.end_pass(number + 1 < count or self.chance(0.5))

    def scene(self):
        """A scene that has no fault but bodies that meet after a pass."""
        if self.chance(0.06):
            # The masses come to 2^40 - 256.
            row = self.random.randrange(SIDE - 300)
            for n in range(256):
                self.body((row + n, 5, 7), MOST_MASS)
            for mass in self.random.choice(((), (255,), (255,), (255, 1), (100, 155), (254, 1, 1))):
                self.body(mass=mass)
        else:
            for _ in range(self.random.choice((0, 1, 2, 2, 3, 3, 4, 5, 6, 8, 30))):
                self.body()
        if self.chance(0.06):
            self.many_passes()
        elif self.chance(0.8):
            self.passes(self.random.randint(1, 4))

    def many_passes(self):
        """About as many passes as there may be, the bodies changing places now and then."""
        for _ in range(MOST_PASSES + self.random.choice((-2, -1, 0, 0, 0, 1))):
            if self.chance(0.02):
                for body, point in self.round_of_places():
                    self.move(body, point)
            self.put(b"pass")
            self.end_pass(False)
        if self.chance(0.4):
            self.meeting(len(self.records))
        elif self.chance(0.6):
            self.passes(1)

    def spoil(self):
        """Puts a record with one fault or more somewhere, or spoils one that is there."""
        at = self.random.choice((len(self.records), self.random.randint(0, len(self.records))))
        if len(self.points) > 255 and self.chance(0.8):
            return self.body_again(len(self.records))
        kinds = (self.other_word, self.other_length, self.no_numbers, self.past_ranges, self.both, self.unknown_body, *[self.body_again] * 3,
                 *[self.moved_again] * 2, *[self.meeting] * 2)
        self.random.choice(kinds)(at)

    def some_record(self, at, words=(b"body", b"move")):
        """A record of one of these words near this place: one that is there, or else a new one."""
        there = [it for it in self.records[at:] + self.records[:at] if it[0] in words and (it[0] == b"pass" or it[1:])]
        if there and self.chance(0.7):
            return self.random.choice(there[:3])
        word = self.random.choice(words[1:])
        record = [word] if word == b"pass" else [word, b"%d" % self.random.randint(1, max(len(self.points), 1)), *(b"%d" % it for it in self.point())]
        self.records.insert(at, record)
        return record

    def other_word(self, at):
        self.some_record(at, (b"body", b"move", b"pass"))[0] = self.random.choice(WORDS)

    def other_length(self, at):
        record = self.some_record(at, (b"body", b"move", b"pass"))
        if self.chance(0.5) and len(record) > 1:
            del record[self.random.randint(1, len(record) - 1):]
        else:
            record.extend([self.random.choice((b"", b"0", b"body"))] * self.random.choice((1, 1, 3, 4)))

    def no_numbers(self, at):
        record = self.some_record(at)
        for _ in range(self.random.randint(1, 2)):
            record[self.random.randrange(1, len(record))] = self.random.choice(NO_NUMBERS)

    def past_ranges(self, at):
        record = self.some_record(at)
        for _ in range(self.random.randint(1, 2)):
            f = self.random.randrange(1, len(record))
            past = SIDE if f > 1 else MOST_BODIES if record[0] == b"move" else self.random.choice((0, MOST_MASS + 1))
            # Python writes no more than some thousand digits at once.
            number = past if self.chance(0.5) else self.random.choice(PAST)
            record[f] = b"%d" % number if number < 10 ** 4000 else b"1" + b"0" * 5000

    def both(self, at):
        self.no_numbers(at)
        self.past_ranges(at)

    def body_again(self, at):
        """A body at a point of a record or where a body is by then, wherever its record stands: often behind moves."""
        known = self.points + self.now
        point = self.random.choice(known) if known and self.chance(0.7) else self.free_point()
        mass = MOST_MASS if len(self.points) > 255 else self.mass()
        self.records.insert(at, [b"body", b"%d" % mass, *(b"%d" % it for it in point)])

    def unknown_body(self, at):
        body = self.random.choice((len(self.points), len(self.points) + 1, MOST_BODIES - 1))
        self.records.insert(at, [b"move", b"%d" % body, *(b"%d" % it for it in self.point())])

    def moved_again(self, at):
        moves = [(n, it) for n, it in enumerate(self.records) if it[0] == b"move"]
        if not moves:
            return self.unknown_body(at)
        n, move = self.random.choice(moves)
        later = self.random.choice((n + 1, n + 1, self.random.randint(n + 1, len(self.records)), len(self.records)))
        self.records.insert(later, move if self.chance(0.3) else move[:2] + [b"%d" % it for it in self.point()])

    def meeting(self, at):
        """Two bodies, or three, go to one point, or one to where another stays."""
        bodies = self.some_bodies(2)[:3]
        if not bodies:
            return self.unknown_body(at)
        point = self.random.choice((self.now[bodies[0]], self.free_point()))
        for body in bodies[self.random.randint(0, 1):]:
            self.records.insert(at, [b"move", b"%d" % body, *(b"%d" % it for it in point)])
        if self.chance(0.5):
            self.records.insert(self.random.randint(at, len(self.records)), [b"pass"])


class Writer:
    """Writes records in one of the many ways that are read as the same."""

    def __init__(self, choices):
        self.random = choices
        self.quotes = choices.choice((0, 0, 0, 0.1, 1))
        self.zeros = choices.choice((0, 0, 0, 0.2, 1))
        self.ends = choices.choice(([b"\n"], [b"\n"], [b"\r\n"], [b"\r"], [b"\n", b"\r\n", b"\r", b"\n\n", b"\n\r", b"\r\r\n\n"]))

    def field(self, text, is_number):
        if is_number and text.isdigit() and self.random.random() < self.zeros:
            text = b"0" * self.random.choice((1, 2, 7, 20, 300)) + text
        quoted = b'"' + text.replace(b'"', b'""') + b'"'
        if self.random.random() >= self.quotes:
            return quoted if NEEDS_QUOTES.search(text) else text
        # What follows the closing quote belongs to the field too.
        part = self.random.randint(0, len(text))
        return quoted if b'"' in text else b'"' + text[:part] + b'"' + text[part:]

    def record(self, fields):
        text = b",".join(self.field(it, n > 0) for n, it in enumerate(fields))
        # An empty line is no record.
        return text or b'""'

    def text(self, records):
        choices = self.random
        parts = [b"\xef\xbb\xbf"] if choices.random() < 0.05 else []
        if choices.random() < 0.1:
            parts.append(choices.choice((b"\n", b"\r\n\r\n", b"\n\r\n")))
        for n, record in enumerate(records):
            end = choices.choice(self.ends)
            if n + 1 == len(records) and choices.random() < 0.4:
                end = b""
            parts.append(self.record(record) + end)
        return b"".join(parts)


def damaged(text, choices):
    """A text with some bytes changed, put in or left out."""
    text = bytearray(text)
    for _ in range(choices.randint(1, 4)):
        at = choices.randint(0, len(text))
        text[at:at + choices.randint(0, 1)] = bytes([choices.choice(b'"",,\r\n\r\n0123456789 \xff\0bmp')])
    return bytes(text)


def scene(seed):
    """The bytes of a scene."""
    maker = Maker(seed)
    maker.scene()
    for _ in range(maker.random.choice((0, 0, 0, 1, 1, 1, 2, 5))):
        maker.spoil()
    text = Writer(maker.random).text(maker.records)
    return damaged(text, maker.random) if maker.chance(0.08) else text


# What random bytes are made of, beside bytes of any kind.
PIECES = (b"body", b"move", b"pass", b",", b",", b",", b"\n", b"\n", b"\r", b'"', b"0", b"1", b"2097151", b"2097152", b" ", b"-", b"\xef\xbb\xbf", b"\0",
          b"body,1,0,0,0\n", b"body,1,0,0,1\n", b"move,0,9,9,9\n", b"pass\n", b"9" * 100)


def some_bytes(seed):
    """Random bytes, seldom a scene: of any kind, of the pieces of scenes, or a scene with bytes changed."""
    choices = random.Random(seed)
    kind = choices.random()
    if kind < 0.2:
        return choices.randbytes(choices.randint(0, 80))
    if kind < 0.6:
        return b"".join(choices.choice(PIECES) for _ in range(choices.randint(0, 40)))
    text = scene(seed)
    for _ in range(choices.randint(1, 3)):
        text = damaged(text, choices)
    return text[:choices.randint(0, len(text))] if choices.random() < 0.2 else text
