"""Models of clusters: from a generator each draws a mass and a point at a time.

Only whole numbers and single sums, products, quotients and square roots of doubles are used, which are the same on every
machine, and the generator of Python's random module, whose numbers for a seed are the same in every version. So a model,
a count and a seed always give the same bytes. (The built-in sum is not used for doubles: it rounds otherwise from 3.12 on.)
"""

import math
import random

from nbody_tools.command import Refusal
from nbody_tools.scenes import MASSES_BELOW, MOST_MASS, SIDE

MIDDLE = SIDE // 2
GREATEST_RADIUS = MIDDLE - 1
CORNER_SIDE = 1 << 15
MOST_DRAWS = 10000


def direction(generator):
    """A point of the unit ball other than its centre, and its distance from there."""
    while True:
        x, y, z = (2 * generator.random() - 1 for _ in range(3))
        square = x * x + y * y + z * z
        if 0 < square <= 1:
            return (x, y, z), math.sqrt(square)


def around(centre, r, generator):
    """A point at this distance from a centre, in any direction."""
    point, length = direction(generator)
    return tuple(middle + math.floor(r * it / length) for middle, it in zip(centre, point))


def plummer_radius(scale, generator):
    """With scale radius a, the part of the mass within radius r is t^3, where t = r / sqrt(r^2 + a^2). The greatest of
    three uniform numbers has just this distribution."""
    t = max(generator.random() for _ in range(3))
    return scale * t / math.sqrt(1 - t * t)


def hernquist_radius(scale, generator):
    """The part of the mass within radius r is t^2, where t = r / (r + a)."""
    t = max(generator.random() for _ in range(2))
    return scale * t / (1 - t)


def ball_radius(scale, generator):
    """The part of the mass within radius r is (r / a)^3, up to a."""
    return scale * max(generator.random() for _ in range(3))


def drawn_within(radius, scale, bound, generator):
    """A radius of the model that isn't beyond the bound: others are drawn again."""
    while True:
        r = radius(scale, generator)
        if r <= bound:
            return r


def sphere(radius, scale, mass, count):
    def draw(generator, n):
        point = around((MIDDLE,) * 3, drawn_within(radius, scale, GREATEST_RADIUS, generator), generator)
        # Without a mass, masses go from 1,000 to 1,000,000, the number of bodies of mass m as 1 / m^2.
        return mass or math.floor(1000 / (1 - 0.999 * generator.random())), point
    return draw


def plummer(scale, mass, count):
    return sphere(plummer_radius, scale, mass, count)


def hernquist(scale, mass, count):
    return sphere(hernquist_radius, scale, mass, count)


def ball(scale, mass, count):
    return sphere(ball_radius, scale, mass, count)


def uniform(scale, mass, count):
    bits = (min(scale, SIDE)).bit_length() - 1

    def draw(generator, n):
        weight = 1 + generator.getrandbits(10)
        return mass or weight, tuple(generator.getrandbits(bits) for _ in range(3))
    return draw


def pairs(scale, mass, count):
    bits = SIDE.bit_length() - 1
    last = []

    def draw(generator, n):
        weight = mass or 1 + generator.getrandbits(10)
        if last:
            x, y, z = last.pop()
            return weight, (x, y, z ^ 1)
        point = tuple(generator.getrandbits(bits) for _ in range(3))
        last.append(point)
        return weight, point
    return draw


def two_clusters(scale, mass, count):
    """Two Plummer models with their centres four scale radii apart along x and one along y; each is cut off at three."""
    far, aside = 2 * scale, scale // 2

    def draw(generator, n):
        side = 1 if n % 2 else -1
        centre = MIDDLE + side * far, MIDDLE + side * aside, MIDDLE
        r = drawn_within(plummer_radius, scale, 3 * scale, generator)
        return mass, around(centre, r, generator)
    return draw


def disc(scale, mass, count):
    """A heavy body in the middle, and round it Kuzmin's disc: the part of its mass within radius r is 1 - 1 / sqrt(1 +
    (r / a)^2). It is a hundredth of the scale radius thick and cut off at five."""
    heavy = 10 * mass * max(count - 1, 1)

    def draw(generator, n):
        if n == 0:
            return heavy, (MIDDLE,) * 3
        while True:
            u = 1 - generator.random()
            r = scale * math.sqrt(1 / (u * u) - 1)
            x, y = 2 * generator.random() - 1, 2 * generator.random() - 1
            square = x * x + y * y
            if r <= 5 * scale and 0 < square <= 1:
                break
        length = math.sqrt(square)
        height = math.floor(scale / 100 * (generator.random() - 0.5))
        return mass, (MIDDLE + math.floor(r * x / length), MIDDLE + math.floor(r * y / length), MIDDLE + height)
    return draw


# What is known of each model: how it draws, its scale radius and greatest scale radius in steps, the mass of a body where
# the number of bodies leaves room for it (None: drawn), and what it is.
MODELS = {
    "plummer": (plummer, 1 << 16, MIDDLE, None, "Plummer's star cluster; scale radius 65,536"),
    "hernquist": (hernquist, 1 << 15, MIDDLE, None, "Hernquist's sphere, denser in its middle; scale radius 32,768"),
    "ball": (ball, 1 << 19, GREATEST_RADIUS, 1 << 20, "a ball of the same density everywhere, which collapses; radius 524,288"),
    "two-clusters": (two_clusters, 100000, 200000, 1 << 24, "two Plummer clusters on their way to meet; scale radii 100,000"),
    "disc": (disc, 1 << 17, MIDDLE // 5, 1 << 16, "Kuzmin's disc round a body ten times as heavy as the disc; scale radius 131,072"),
    "uniform": (uniform, SIDE, SIDE, None, "anywhere in the cube"),
    "corner": (uniform, CORNER_SIDE, SIDE, None, "anywhere in the cube of side 32,768 at the origin: six cells one inside the other"),
    "pairs": (pairs, SIDE, SIDE, None, "pairs one step apart, the pairs anywhere in the cube: long chains of cells"),
}


def bodies_of(name, count, seed, radius=None, mass=None):
    """The bodies of a model. A point that has been drawn already is drawn again, but not for ever."""
    maker, usual_radius, _, usual_mass, _ = MODELS[name]
    if mass is None and usual_mass is not None:
        # The disc's heavy body is the greatest mass of all.
        mass = min(usual_mass, MOST_MASS // 10 // max(count, 1) if maker is disc else (MASSES_BELOW - 1) // max(count, 1))
    draw = maker(radius or usual_radius, mass, count)
    generator = random.Random(seed)
    points, bodies, again = set(), [], 0
    while len(bodies) < count:
        weight, point = draw(generator, len(bodies))
        if point not in points:
            points.add(point)
            bodies.append((weight, point))
            again = 0
        elif again < MOST_DRAWS:
            again += 1
        else:
            raise Refusal("a --radius of %d leaves no room for %d bodies" % (radius or usual_radius, count))
    return bodies
