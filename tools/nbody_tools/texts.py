"""The program's texts: trees, and the frames of `run` and `passes` (docs/formats.md)."""

import re
from dataclasses import dataclass, field

from nbody_tools.command import Refusal
from nbody_tools.scenes import LEVELS, SIDE

TOKEN = re.compile(r"b(\d+)|[().]")


@dataclass
class Frame:
    """A frame as it was read. What a text doesn't have stays None or empty: a text of `tree` has a tree alone, one of
    `passes` neither zones nor bodies."""
    tree: str
    number: int = 0
    cells: int | None = None
    depth: int | None = None
    pieces: int | None = None
    update: tuple | None = None
    cost: int | None = None
    greatest: int | None = None
    zones: list = field(default_factory=list)
    points: list = field(default_factory=list)
    pulls: list = field(default_factory=list)
    met: list = field(default_factory=list)


def nodes(tree, name="the tree"):
    """The words of a tree's text in its order: a key, and a body's number, '(' for a cell or '.' for an empty cube."""
    key, at = 1, 0
    while True:
        token = TOKEN.match(tree, at)
        if token is None or token[0] == ")":
            what = "ends too soon" if at == len(tree) else "has %r at character %d" % (tree[at], at + 1)
            raise Refusal("%s is no tree's text: it %s" % (name, what))
        at = token.end()
        if token[0] == "(":
            if key >> 3 * LEVELS:
                raise Refusal("%s is no tree's text: it has more than %d levels" % (name, LEVELS))
            yield key, "("
            key *= 8
            continue
        yield key, token[0] if token[0] == "." else int(token[1])
        while key > 1 and key & 7 == 7:
            if tree[at:at + 1] != ")":
                raise Refusal("%s is no tree's text: a ')' is missing at character %d" % (name, at + 1))
            at += 1
            key >>= 3
        if key == 1:
            break
        key += 1
    if at != len(tree):
        raise Refusal("%s is no tree's text: it goes on at character %d behind its end" % (name, at + 1))


def cells_and_leaves(tree, name="the tree"):
    """The keys of a tree's cells, and the key of each body's cube by the body's number."""
    cells, leaves = [], {}
    for key, word in nodes(tree, name):
        if word == "(":
            cells.append(key)
        elif word != ".":
            if word in leaves:
                raise Refusal("%s has body %d twice" % (name, word))
            leaves[word] = key
    return cells, leaves


class Lines:
    """Lines with a look at the next one, and a refusal that tells where it is."""

    def __init__(self, lines, name):
        self.lines, self.name, self.number, self.now = iter(lines), name, 0, None
        self.go_on()

    def go_on(self):
        text = next(self.lines, None)
        self.number += 1
        if text is not None and not text.endswith("\n") and not text.startswith("tree "):
            raise self.refusal("the text ends in the middle of a line")
        self.now = None if text is None else text.rstrip("\n")

    def refusal(self, what):
        return Refusal("%s, line %d: %s" % (self.name, self.number, what))

    def begins(self, word):
        return self.now is not None and self.now.startswith(word + " ")

    def whole(self, form):
        """The whole numbers of a line of this form, in which each % stands for one."""
        if self.now is None:
            raise self.refusal("the text ends, and '%s' has to follow" % form)
        words, wanted = self.now.split(" "), form.split(" ")
        try:
            if len(words) != len(wanted):
                raise ValueError
            numbers = [int(it) for it, form_word in zip(words, wanted) if form_word == "%"]
            if any(it != form_word for it, form_word in zip(words, wanted) if form_word != "%"):
                raise ValueError
        except ValueError:
            raise self.refusal("'%s' is not of the form '%s'" % (self.now[:60], form)) from None
        self.go_on()
        return numbers


def read_tree(lines):
    if not lines.begins("tree"):
        ends = lines.now is None
        raise lines.refusal("the text ends, and a tree has to follow" if ends else "'%s' is no tree" % lines.now[:60])
    tree = lines.now[5:]
    lines.go_on()
    return tree


def read_zones(lines, frame):
    while lines.begins("zone"):
        _, number, *bodies = lines.now.split(" ")
        if number != str(len(frame.zones)) or not all(it.isdigit() for it in bodies):
            raise lines.refusal("'%s' is not zone %d" % (lines.now[:60], len(frame.zones)))
        frame.zones.append([int(it) for it in bodies])
        lines.go_on()


def read_bodies(lines, frame):
    while lines.begins("acc"):
        n, x, y, z, *pull, met = lines.whole("acc % at % % % pull % % % met %")
        if n != len(frame.points) or not all(0 <= it < SIDE for it in (x, y, z)):
            raise Refusal("%s, line %d: it is not body %d at a point of the grid" % (lines.name, lines.number - 1, len(frame.points)))
        frame.points.append((x, y, z))
        frame.pulls.append(tuple(pull))
        frame.met.append(met)


def read_frame(lines):
    """A frame from its line 'frame S' on."""
    number, = lines.whole("frame %")
    frame = Frame(read_tree(lines), number)
    frame.cells, frame.depth = lines.whole("cells % depth %")
    if lines.begins("pieces"):
        frame.pieces, = lines.whole("pieces %")
    if lines.begins("update"):
        frame.update = tuple(lines.whole("update left % freed % taken %"))
    if lines.begins("cost"):
        frame.cost, frame.greatest = lines.whole("cost % greatest %")
        read_zones(lines, frame)
        read_bodies(lines, frame)
        bodies = frame.tree.count("b")
        if len(frame.points) != bodies or sorted(it for zone in frame.zones for it in zone) != list(range(bodies)):
            raise lines.refusal("frame %d isn't whole: its tree has %d bodies, its zones %d, and %d 'acc' lines stand there"
                                % (number, bodies, sum(map(len, frame.zones)), len(frame.points)))
    while lines.begins("probe"):
        lines.go_on()
    return frame


def frames(source, name):
    """The frames of a text of `run`, `passes` or `tree`, one after another as they come."""
    lines = Lines(source, name)
    if lines.now is None:
        raise Refusal("%s is empty: a text of the program has to come here" % name)
    if lines.begins("refused") or lines.begins("usage:"):
        raise Refusal("%s is no text of a tree or a run: the program wrote '%s'" % (name, lines.now[:60]))
    if lines.begins("tree"):
        frame = Frame(read_tree(lines))
        if lines.begins("pieces"):
            frame.pieces, = lines.whole("pieces %")
        if lines.now is not None:
            raise lines.refusal("'%s' stands behind the text of a tree" % lines.now[:60])
        yield frame
        return
    last = None
    while lines.now is not None:
        frame = read_frame(lines)
        if last and frame.number != last.number + 1:
            raise lines.refusal("frame %d follows frame %d" % (frame.number, last.number))
        if last and ((frame.cost is None) != (last.cost is None) or frame.tree.count("b") != last.tree.count("b")):
            raise lines.refusal("frame %d isn't whole" % frame.number)
        yield frame
        last = frame


def frame_of(source, name, number):
    """The frame with this number, or the first one for None. What stands behind it isn't read."""
    last = None
    for last in frames(source, name):
        if number is None or last.number == number:
            return last
    raise Refusal("%s has no frame %d: its last one is %d" % (name, number, last.number))


def is_scene(line):
    """Whether a text that begins with this line is a scene, and not one of the program's."""
    return line.removeprefix("\ufeff").lstrip('"').startswith(("body", "move", "pass"))
