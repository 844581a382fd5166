#!/usr/bin/env python3
"""What the program writes for a run of many steps, for passes and for a trial, worked out slowly from the definitions of
docs/formats.md with Python's whole numbers. For tests only: it shares no code with the tools, so that they are tried on a
text they had no hand in.

    tools/tests/reference.py run [--steps N] [--workers N] [--theta T/Q] [--g N] [--eps2 N] [--builder NAME] [--probe NAME] < SCENE
    tools/tests/reference.py passes [--builder NAME] [--workers N] < SCENE
    tools/tests/reference.py tree [--builder NAME] [--workers N] < SCENE
    tools/tests/reference.py trial [--count N] [--seed N] [--shape uniform|corner], and the options of run

It reads scenes without a fault, of plain records alone.
"""

import argparse
import collections
import math
import sys

SIDE = 1 << 21
UNIT = 1 << 32
FASTEST = 1 << 50
# What makes the codes of made bodies differ, and below what they are for each shape.
CODE_STEP = 0x9E3779B97F4A7C15
SHAPES = {"uniform": 1 << 63, "corner": 1 << 45}

# A frame of a run: its points, its tree, the cost of all bodies and of the costliest zone, the zones, and of each body the
# acceleration and the number of terms.
Frame = collections.namedtuple("Frame", "points tree cost greatest zones told")


def octants_of(points, bodies, level):
    """The bodies of a cube by the octants in which they are."""
    octants = [[] for _ in range(8)]
    for n in bodies:
        x, y, z = (it >> 20 - level & 1 for it in points[n])
        octants[4 * x + 2 * y + z].append(n)
    return octants


def tree_of(points, bodies, level):
    """The canonical octree below a cube: None, a body's number, or a list of eight."""
    if len(bodies) < 2:
        return bodies[0] if bodies else None
    return [tree_of(points, it, level + 1) for it in octants_of(points, bodies, level)]


def text_of(tree):
    if tree is None:
        return "."
    return "b%d" % tree if isinstance(tree, int) else "(" + "".join(map(text_of, tree)) + ")"


def order_of(tree):
    if tree is None:
        return []
    return [tree] if isinstance(tree, int) else [n for it in tree for n in order_of(it)]


def size_of(tree, level=0):
    """The cells, and the greatest level of a body's cube."""
    if not isinstance(tree, list):
        return 0, level if tree is not None else 0
    sizes = [size_of(it, level + 1) for it in tree]
    return 1 + sum(it[0] for it in sizes), max(it[1] for it in sizes)


def weighed(tree, masses, points, side=SIDE, low=(0, 0, 0)):
    """The tree with what a walk has to know: side, low corner, mass, centre, first moment, children or a body."""
    if tree is None:
        return None
    if isinstance(tree, int):
        mass = masses[tree]
        return side, low, mass, points[tree], tuple(mass * it for it in points[tree]), tree, None
    half = side // 2
    corners = [tuple(a + half * (k >> s & 1) for a, s in zip(low, (2, 1, 0))) for k in range(8)]
    children = [it for it in (weighed(it, masses, points, half, at) for it, at in zip(tree, corners)) if it]
    mass = sum(it[2] for it in children)
    moment = tuple(sum(it[4][axis] for it in children) for axis in range(3))
    return side, low, mass, tuple(it // mass for it in moment), moment, None, children


def pull_on(n, point, root, law):
    """The acceleration of a body, and the number of its terms."""
    (t, q), g, eps2 = law
    total, met, todo = [0, 0, 0], 0, [root]
    while todo:
        side, low, mass, centre, _, body, children = todo.pop()
        if body == n:
            continue
        d = [a - b for a, b in zip(centre, point)]
        square = d[0] * d[0] + d[1] * d[1] + d[2] * d[2]
        inside = all(a <= b < a + side for a, b in zip(low, point))
        if body is None and (inside or side * side * q * q >= t * t * square):
            todo.extend(children)
            continue
        r2 = square + eps2
        below = r2 * math.isqrt(r2)
        for axis in range(3):
            part = abs(g * mass * d[axis]) // below
            total[axis] += part if d[axis] > 0 else -part
        met += 1
    return tuple(total), met


def moved(exact, speeds, pulls):
    """Moves all bodies by one step, in number order, by the rule of motion."""
    at = {tuple(it // UNIT for it in place): n for n, place in enumerate(exact)}
    for n, pull in enumerate(pulls):
        speed = [max(-FASTEST, min(FASTEST, v + a)) for v, a in zip(speeds[n], pull)]
        target = [x + v for x, v in zip(exact[n], speed)]
        for axis in range(3):
            if not 0 <= target[axis] < SIDE * UNIT:
                target[axis], speed[axis] = exact[n][axis], -speed[axis]
        whole, old = tuple(it // UNIT for it in target), tuple(it // UNIT for it in exact[n])
        if at.get(whole, n) != n:
            speeds[n] = [0, 0, 0]
            continue
        del at[old]
        at[whole] = n
        exact[n], speeds[n] = target, speed


def frames_of(bodies, steps=1, workers=1, theta=(1, 1), g=UNIT, eps2=0):
    """The frames of a run of bodies (pairs of a mass and a point)."""
    masses = [mass for mass, _ in bodies]
    exact = [[it * UNIT for it in point] for _, point in bodies]
    speeds = [[0, 0, 0] for _ in bodies]
    costs = [1] * len(bodies)
    for _ in range(steps):
        points = [tuple(it // UNIT for it in place) for place in exact]
        tree = tree_of(points, list(range(len(points))), 0)
        zones, greatest, before, whole = [[] for _ in range(workers)], [0] * workers, 0, sum(costs)
        for n in order_of(tree):
            zone = before * workers // whole
            zones[zone].append(n)
            greatest[zone] += costs[n]
            before += costs[n]
        root = weighed(tree, masses, points)
        told = [pull_on(n, point, root, (theta, g, eps2)) for n, point in enumerate(points)]
        yield Frame(points, tree, whole, max(greatest), zones, told)
        costs = [1 + met for _, met in told]
        moved(exact, speeds, [pull for pull, _ in told])


def push_of(frame, masses):
    """The sum of mass times acceleration over all bodies."""
    return tuple(sum(mass * pull[axis] for mass, (pull, _) in zip(masses, frame.told)) for axis in range(3))


def cells_of(tree, key=1):
    """The keys of the cells of a tree."""
    if not isinstance(tree, list):
        return set()
    return {key}.union(*(cells_of(it, 8 * key + k) for k, it in enumerate(tree)))


def levels_of(tree, level=0):
    """The level of the cube of each body's leaf."""
    if not isinstance(tree, list):
        return {} if tree is None else {tree: level}
    return {n: it for child in tree for n, it in levels_of(child, level + 1).items()}


def update_counts(before, after):
    """What UPDATE tells of bodies that go from some points to others: how many leave the cubes of their leaves, and how many
    cells are freed and taken besides those that the other bodies keep."""
    old = tree_of(before, list(range(len(before))), 0)
    levels = levels_of(old)
    staying = [n for n, low in levels.items() if all(a >> 21 - low == b >> 21 - low for a, b in zip(before[n], after[n]))]
    kept = cells_of(tree_of(after, staying, 0))
    new = cells_of(tree_of(after, list(range(len(after))), 0))
    return len(before) - len(staying), len(cells_of(old) - kept), len(new - kept)


def pieces_of(points, bodies, most, level=0):
    """How many cubes SPACE doesn't divide."""
    if len(bodies) <= most:
        return 1 if bodies else 0
    return sum(pieces_of(points, it, most, level + 1) for it in octants_of(points, bodies, level))


def builder_lines(builder, workers, before, points):
    """The lines of a builder, by the points of the tree before, or None for the first."""
    if builder == "space":
        return ["pieces %d" % pieces_of(points, list(range(len(points))), max(1, len(points) // (4 * workers)))]
    if builder == "update" and before is not None:
        return ["update left %d freed %d taken %d" % update_counts(before, points)]
    return []


class Probes:
    """The probes that a run is asked for: none, all, or one of them."""

    def __init__(self, asked):
        self.names = [it for it in ("balance", "momentum", "first") if asked in ("all", it)]
        self.frames, self.cost, self.greatest, self.push, self.left, self.cells = 0, 0, 0, (0, 0, 0), 3, 0

    def lines(self):
        told = {"balance": "balance frames %d cost %d greatest %d" % (self.frames, self.cost, self.greatest),
                "momentum": "momentum frames %d push %d %d %d" % (self.frames, *self.push),
                "first": "first left %d cells %d" % (self.left, self.cells)}
        return ["probe " + told[it] for it in self.names]

    def see(self, frame, masses):
        """Sees a frame. The line of a probe that has then seen enough is answered, and it is dropped."""
        self.frames, self.cost, self.greatest = self.frames + 1, self.cost + frame.cost, self.greatest + frame.greatest
        self.push = tuple(map(sum, zip(self.push, push_of(frame, masses))))
        if "first" not in self.names:
            return []
        self.left, self.cells = self.left - 1, size_of(frame.tree)[0]
        if self.left:
            return []
        line = self.lines()[-1:]
        self.names.remove("first")
        return line


def run(bodies, steps=1, workers=1, theta=(1, 1), g=UNIT, eps2=0, builder="orig", probe="none"):
    """The text of a run of bodies (pairs of a mass and a point), frame by frame."""
    masses, before, probes = [mass for mass, _ in bodies], None, Probes(probe)
    for step, frame in enumerate(frames_of(bodies, steps, workers, theta, g, eps2)):
        points = frame.points
        lines = ["frame %d" % step, "tree " + text_of(frame.tree), "cells %d depth %d" % size_of(frame.tree)]
        lines += builder_lines(builder, workers, before, points)
        lines += ["cost %d greatest %d" % (frame.cost, frame.greatest)]
        lines += [" ".join(["zone", *map(str, [w, *zone])]) for w, zone in enumerate(frame.zones)]
        lines += ["acc %d at %d %d %d pull %d %d %d met %d" % (n, *points[n], *pull, met) for n, (pull, met) in enumerate(frame.told)]
        lines += probes.see(frame, masses) + (probes.lines() if step + 1 == steps else [])
        yield "\n".join(lines) + "\n"
        before = points


def passes(points, moves_of_passes, builder="orig", workers=1):
    """The text of bodies at these points and of their passes (lists of pairs of a number and a point), frame by frame."""
    points, before, lines = list(points), None, None
    for number, moves in enumerate([[], *moves_of_passes]):
        for n, point in moves:
            points[n] = point
        if moves or lines is None:
            tree = tree_of(points, list(range(len(points))), 0)
            lines = "tree %s\ncells %d depth %d\n" % (text_of(tree), *size_of(tree))
        told = builder_lines(builder, workers, before, points)
        yield "frame %d\n%s%s" % (number, lines, "".join(it + "\n" for it in told))
        before = list(points)


def made(count, seed, shape):
    """The bodies of a made scene."""
    bodies = []
    for n in range(count):
        code, point = (n * CODE_STEP + seed) % SHAPES[shape], [0, 0, 0]
        for level in range(21):
            digit = code >> 3 * (20 - level) & 7
            point = [2 * it + (digit >> axis & 1) for it, axis in zip(point, (2, 1, 0))]
        bodies.append((1 + n % 16, tuple(point)))
    return bodies


def trial(count, seed, shape, steps, workers, **law):
    """The text of a trial."""
    bodies = made(count, seed, shape)
    *_, frame = frames_of(bodies, steps, workers, **law)
    met = sum(met for _, met in frame.told)
    return ("trial %d seed %d shape %s steps %d\ncells %d depth %d\ncost %d greatest %d met %d\npush %d %d %d\n"
            % (count, seed, shape, steps, *size_of(frame.tree), frame.cost, frame.greatest, met, *push_of(frame, [mass for mass, _ in bodies])))


def tree(points, builder="orig", workers=1):
    """The text of the tree of bodies at these points."""
    lines = ["tree " + text_of(tree_of(points, list(range(len(points))), 0)), *builder_lines(builder, workers, None, points)]
    return "\n".join(lines) + "\n"


def read_scene(text):
    """The bodies, as pairs of a mass and a point, and the moves of each pass."""
    bodies, moves_of_passes, moves = [], [], []
    for word, *numbers in (line.split(",") for line in text.split()):
        numbers = list(map(int, numbers))
        if word == "body":
            bodies.append((numbers[0], tuple(numbers[1:])))
        elif word == "move":
            moves.append((numbers[0], tuple(numbers[1:])))
        else:
            moves_of_passes.append(moves)
            moves = []
    return bodies, moves_of_passes + [moves] if moves else moves_of_passes


def main():
    words = argparse.ArgumentParser()
    words.add_argument("command", choices=("run", "passes", "tree", "trial"))
    for name, usual in (("steps", 1), ("workers", 1), ("g", UNIT), ("eps2", 0), ("count", 1000), ("seed", 0)):
        words.add_argument("--" + name, type=int, default=usual)
    for name, usual in (("theta", "1/1"), ("builder", "orig"), ("probe", "none"), ("shape", "uniform")):
        words.add_argument("--" + name, default=usual)
    given = words.parse_args()
    law = {"theta": tuple(int(it) for it in given.theta.split("/")), "g": given.g, "eps2": given.eps2}
    if given.command == "trial":
        sys.stdout.write(trial(given.count, given.seed, given.shape, given.steps, given.workers, **law))
        return
    bodies, moves_of_passes = read_scene(sys.stdin.read())
    points = [point for _, point in bodies]
    if given.command == "tree":
        sys.stdout.write(tree(points, given.builder, given.workers))
        return
    told = (passes(points, moves_of_passes, given.builder, given.workers) if given.command == "passes"
            else run(bodies, given.steps, given.workers, builder=given.builder, probe=given.probe, **law))
    for frame in told:
        sys.stdout.write(frame)
        sys.stdout.flush()


if __name__ == "__main__":
    main()
