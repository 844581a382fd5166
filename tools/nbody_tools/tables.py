"""Tables of bodies as people have them, and the units by which they go to the grid of a scene and back."""

import heapq
import itertools
import json
import math
import operator
import re
from dataclasses import dataclass

from nbody_tools.command import Refusal
from nbody_tools.scenes import MASSES_BELOW, MOST_BODIES, MOST_MASS, SIDE

DEFAULT_G = 1 << 32
MOST_G = 1 << 40
MOST_EPS2 = (1 << 44) - 1
NAMES = {"mass": ("mass", "m", "masses"), "x": ("x",), "y": ("y",), "z": ("z",)}


@dataclass
class Units:
    """What a scene's whole numbers are in a table: a grid step is `step` of its lengths, grid point 0 0 0 stands at
    `origin`, and a mass of 1 is `mass` of its masses. `gravity` is the constant of gravitation in the table's units."""
    step: float = 1.0
    origin: tuple = (0.0, 0.0, 0.0)
    mass: float = 1.0
    gravity: float = 1.0

    def place(self, point):
        """A grid point in the table's lengths."""
        return tuple(low + it * self.step for low, it in zip(self.origin, point))

    def acceleration(self, pull, g):
        """A pull in the table's units: the pull over g is mass over the square of a distance, both of the grid."""
        return tuple(it / g * self.gravity * self.mass / self.step / self.step for it in pull)

    def time(self, g):
        """The time of one step of a run."""
        return math.sqrt(g / DEFAULT_G * self.step / self.gravity / self.mass * self.step * self.step)

    def g_for(self, time):
        """The g with which a step of a run takes this time."""
        return DEFAULT_G * (time / self.time(DEFAULT_G)) ** 2

    def text(self):
        return json.dumps({"step": self.step, "origin": list(self.origin), "mass": self.mass, "gravity": self.gravity}) + "\n"


def read_units(text, name):
    try:
        told = json.loads(text)
        units = Units(float(told["step"]), tuple(float(it) for it in told["origin"]), float(told["mass"]), float(told["gravity"]))
        if len(units.origin) != 3 or not all(0 < it < math.inf for it in (units.step, units.mass, units.gravity)):
            raise ValueError
        return units
    except (ValueError, KeyError, TypeError):
        raise Refusal("%s has no units: tools/scene-from-table --units writes such files" % name) from None


def number_of(text):
    """The value of a field, also with the exponents of Fortran; None where it is no finite number."""
    try:
        number = float(re.sub("[dD]", "e", text))
    except ValueError:
        return None
    return number if math.isfinite(number) else None


def fields_of(line):
    line = line.strip()
    return [it.strip().strip('"') for it in line.split(",")] if "," in line else line.split()


def columns_by(wanted, whats, header, name):
    """The positions of the columns that are wanted by number from 1, by name, or (None) by their usual names or places."""
    lower = [it.lower() for it in header or []]
    if wanted is None and header is None:
        return list(range(len(whats)))
    found = []
    for what, it in zip(whats, wanted or whats):
        names = NAMES[what] if wanted is None else (it.lower(),)
        column = int(it) - 1 if it.isdigit() and int(it) > 0 else next((lower.index(it) for it in names if it in lower), None)
        if column is None:
            told = "; the table has %s" % ", ".join(header)[:80] if header else ""
            raise Refusal("%s: no column is named '%s' (choose with --columns%s)" % (name, it, told))
        found.append(column)
    return found


class Columns:
    """What the first lines of a table tell of its columns. A line of '#' is a comment; the last one before the bodies names
    the columns where it has as many words as they have fields, and so does a first line that isn't numbers."""

    def __init__(self, name, wanted, whats):
        self.name, self.wanted, self.whats = name, wanted, whats
        self.header, self.comment, self.found = None, None, None

    def fields(self, line):
        """The fields of a line that has a body, or None for another line."""
        bare, mark, remark = line.partition("#")
        fields = fields_of(bare) if bare.strip() else []
        if not fields:
            self.comment = fields_of(remark) if mark else self.comment
            return None
        if self.found is None:
            if self.header is None and all(number_of(it) is None for it in fields):
                self.header = fields
                return None
            if self.header is None and len(self.comment or []) == len(fields) and self.is_named(self.comment):
                self.header = self.comment
            self.found = columns_by(self.wanted, self.whats, self.header, self.name)
        return fields

    def is_named(self, comment):
        """Whether the words of a comment name columns that are looked for."""
        names = self.wanted if self.wanted is not None else [it for what in self.whats for it in NAMES[what]]
        return bool({it.lower() for it in comment} & {it.lower() for it in names})


def read_table(lines, name, wanted=None, mass=None):
    """The bodies of a table: line number, mass and place of each. A table without masses has the given one."""
    whats = list(NAMES) if mass is None else list(NAMES)[1:]
    columns, bodies = Columns(name, wanted, whats), []
    for n, line in enumerate(lines, 1):
        fields = columns.fields(line.removeprefix("\ufeff"))
        if fields is None:
            continue
        values = [] if mass is None else [mass]
        for what, column in zip(whats, columns.found):
            if column >= len(fields):
                raise Refusal("%s, line %d: it has %d fields, and %s is field %d" % (name, n, len(fields), what, column + 1))
            values.append(number_of(fields[column]))
            if values[-1] is None:
                raise Refusal("%s, line %d: %s is '%s', and no finite number" % (name, n, what, fields[column][:40]))
        if values[0] <= 0:
            raise Refusal("%s, line %d: the mass is %g, and has to be above 0" % (name, n, values[0]))
        bodies.append((n, values[0], tuple(values[1:])))
        if len(bodies) > MOST_BODIES:
            raise Refusal("%s, line %d: a scene has at most %d bodies" % (name, n, MOST_BODIES))
    if not bodies:
        raise Refusal("%s has no bodies" % name)
    return bodies


def found_lengths(bodies, fill):
    """A step and an origin by which the box of the bodies fills this part of the grid, in its middle."""
    lows = [min(place[axis] for _, _, place in bodies) for axis in range(3)]
    highs = [max(place[axis] for _, _, place in bodies) for axis in range(3)]
    widest = max(high - low for low, high in zip(lows, highs))
    step = widest / (fill * (SIDE - 2)) or 1.0
    return step, tuple((low + high) / 2 - step * (SIDE // 2) for low, high in zip(lows, highs))


def found_mass(bodies):
    """The mass that is 1: one of the table's where all are whole numbers within the limits, or else the power of two by
    which they come closest to the limits."""
    masses = [mass for _, mass, _ in bodies]
    if all(it.is_integer() and it <= MOST_MASS for it in masses) and sum(masses) < MASSES_BELOW:
        return 1.0
    # Rounding adds at most a half to each mass.
    least = max(max(masses) / MOST_MASS, math.fsum(masses) / (MASSES_BELOW - 1 - len(masses)))
    fraction, exponent = math.frexp(least)
    return math.ldexp(1.0, exponent if fraction > 0.5 else exponent - 1)


def whole_masses(bodies, unit, name):
    masses = []
    for n, mass, _ in bodies:
        masses.append(math.floor(mass / unit + 0.5))
        if not 1 <= masses[-1] <= MOST_MASS:
            raise Refusal("%s, line %d: the mass %g is %s of the unit %g, and has to be from 1 to %d"
                          % (name, n, mass, "%.3g" % (mass / unit), unit, MOST_MASS))
    if sum(masses) >= MASSES_BELOW:
        raise Refusal("%s: the masses sum to %d of the unit %g, and have to stay below 2^40" % (name, sum(masses), unit))
    return masses


class FreePoints:
    """Grid points that are handed out, each to one body."""
    shells = []

    def __init__(self):
        self.taken, self.full, self.open = set(), {}, {}

    @classmethod
    def shell(cls, k):
        """The offsets whose length is k or more and less than k + 1."""
        while len(cls.shells) <= k:
            r = len(cls.shells) + 1
            inner, outer = (r - 1) ** 2, r * r
            cls.shells.append([(x, y, z) for x in range(-r, r + 1) for y in range(-r, r + 1) for z in range(-r, r + 1)
                               if inner <= x * x + y * y + z * z < outer])
        return cls.shells[k]

    def nearest(self, place):
        """Pairs of a distance and a grid point, by their distance from a place. Points that were taken may be left out."""
        base = tuple(math.floor(it + 0.5) for it in place)
        aside, known = math.dist(base, place), []
        for k in itertools.count(self.full.get(base, 0)):
            before = len(known)
            for offset in self.shell(k):
                point = tuple(map(operator.add, base, offset))
                if point not in self.taken and all(0 <= it < SIDE for it in point):
                    heapq.heappush(known, (math.dist(point, place), point))
            if len(known) == before and k == self.full.get(base, 0):
                self.full[base] = k + 1
            # The points of all further shells are at least as far as this.
            while known and known[0][0] <= k + 1 - aside:
                yield heapq.heappop(known)

    def take(self, place):
        """The free point that is nearest to a place, and how far it is from there."""
        rounded = tuple(math.floor(it + 0.5) for it in place)
        if rounded not in self.taken and all(0 <= it < SIDE for it in rounded):
            self.taken.add(rounded)
            return rounded, math.dist(rounded, place)
        points = self.open.pop(place, None) or self.nearest(place)
        distance, point = next(it for it in points if it[1] not in self.taken)
        self.taken.add(point)
        if distance > 1:
            # Others may be wanted at this very place.
            self.open[place] = points
        return point, distance
