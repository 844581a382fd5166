"""Scenes at the limits of scenes, each with the text that the program has to write, known by how the scene is made."""

import reference
from nbody_tools.scenes import MOST_BODIES, MOST_BYTES, MOST_MOVES, MOST_PASSES

# Seconds of the processor that reading 65,536 bodies with 1,024 passes may take, with their tree.
QUICK = 3
FOUR = [(5, 6, 7), (5, 6, 8), (9, 9, 9), (2097151, 0, 1)]


def points_of(count):
    """Distinct points, far from one another in their order."""
    return [(n * 40503 % 65536 * 32, n * 30011 % 65536 * 32 + 5, n % 4099 * 511) for n in range(count)]


def body_records(points):
    return b"".join(b"body,1,%d,%d,%d\n" % it for it in points)


def neighbours_change(points, low, high):
    """The moves by which each body with an even number changes places with the next, and the points after them."""
    points = list(points)
    for n in range(low, high, 2):
        points[n], points[n + 1] = points[n + 1], points[n]
    return b"".join(b"move,%d,%d,%d,%d\n" % (n, *points[n]) for n in range(low, high)), points


def refused(kind, *numbers):
    return (" ".join(["refused", kind, *map(str, numbers)]) + "\n").encode()


def frame(points):
    """The lines of a frame of passes, but for the first."""
    tree = reference.tree_of(points, list(range(len(points))), 0)
    return "tree %s\ncells %d depth %d\n" % (reference.text_of(tree), *reference.size_of(tree))


def of_bytes():
    """As many bytes as there may be, and one more."""
    body, move = b"body,1,5,6,7\n", b"move,0,9,9,9\n"
    wrong = b"bodies\n"
    for name, begin, fill, end, text in (
            ("empty lines", body, b"\n", b"", b"tree b0\n"), ("carriage returns", body, b"\r", b"", b"tree b0\n"),
            ("leading zeros", b"body,1,5,6,", b"0", b"7", b"tree b0\n"), ("a mark", b"\xef\xbb\xbf" + body, b"\n", b"", b"tree b0\n"),
            ("a move at the end", body, b"\n", move[:-1], b"tree b0\n"), ("a fault at the end", body, b"\n", wrong, refused("bad-record", 2)),
            ("a fault at the beginning", wrong, b"\n", b"", refused("bad-record", 1)),
            ("nines", b"body,1,5,6,", b"9", b"", refused("out-of-range", 1, 5))):
        for size in (MOST_BYTES, MOST_BYTES + 1):
            data = begin + fill * (size - len(begin) - len(end)) + end
            yield "%s up to %d bytes" % (name, size), ["tree"], data, text if size == MOST_BYTES else refused("too-long"), None


def of_passes():
    """As many passes and moves as there may be over few bodies, whose frames are then two in turn."""
    bodies = 256
    points = points_of(bodies)
    there, changed = neighbours_change(points, 0, bodies)
    back, _ = neighbours_change(changed, 0, bodies)
    data = body_records(points) + (there + b"pass\n" + back + b"pass\n") * (MOST_PASSES // 2)
    frames = frame(points), frame(changed)
    text = "".join("frame %d\n%s" % (n, frames[n % 2]) for n in range(MOST_PASSES + 1)).encode()
    assert data.count(b"move") == MOST_MOVES
    yield "256 bodies that change places 1024 times", ["passes"], data, text, None
    yield "the same with three workers", ["passes", "--builder", "partree", "--workers", "3"], data, text, None
    yield "the same without the last pass record", ["passes", "--builder", "local"], data[:-5], text, None
    last = data.count(b"\n")
    yield "one pass too many", ["passes"], data + b"pass", refused("too-many", last + 1), None
    yield "one move too many", ["passes"], data + b"move,0,1,1,1\n", refused("too-many", last + 1), None
    yield "a move too many in the last pass", ["tree"], data[:-5] + b"move,0,1,1,1\n", refused("too-many", last), None
    empty = body_records(FOUR) + b"pass\r\n" * MOST_PASSES
    tail = 4 + MOST_PASSES
    for name, more, line in (("moves behind 1024 passes", b"move,0,1,1,1", refused("too-many", tail + 2)),
                             ("moves that meet behind 1024 passes", b"move,0,9,9,9\n", refused("too-many", tail + 2)),
                             ("a body moved twice behind 1024 passes", b"move,0,1,1,1\nmove,0,1,1,2\n", refused("moved-twice", tail + 2, 0)),
                             ("a pass behind them", b"move,0,9,9,9\npass\n", refused("too-many", tail + 2)),
                             ("a body behind 1024 passes", b"body,1,9,9,9\n", refused("coincident", tail + 1, 2, 4))):
        yield name, ["run"], empty + more, line, None


def of_bodies():
    """As many bodies as there may be, with as many moves and passes."""
    points = points_of(MOST_BODIES)
    bodies = body_records(points)
    first = frame(points)
    tree = first.split("cells")[0].encode()
    step = MOST_MOVES // MOST_PASSES
    now, moves = points, []
    for number in range(MOST_PASSES):
        low = number * step % MOST_BODIES
        written, now = neighbours_change(now, low, low + step)
        moves.append(written + b"pass\n")
    data = bodies + b"".join(moves)
    last = data.count(b"\n")
    assert len(data) < MOST_BYTES and data.count(b"move") == MOST_MOVES and now == points
    yield "65536 bodies, 262144 moves, 1024 passes", ["tree"], data, tree, QUICK
    yield "the same without the last pass record", ["tree", "--builder", "local", "--workers", "2"], data[:-5], tree, QUICK
    for name, more, line in (("a pass too many", b"pass", refused("too-many", last + 1)), ("a move too many", b"move,0,1,1,1", refused("too-many", last + 1)),
                             ("a move too many of no body", b"move,65536,1,1,1", refused("out-of-range", last + 1, 2)),
                             ("a body too many, too late, where one is", b"body,1,%d,%d,%d" % points[7], refused("too-many", last + 1)),
                             ("a body too many with a mass that is none", b"body,,1,1,1\n", refused("bad-number", last + 1, 2))):
        yield name + ", behind these", ["tree"], data + more, line, QUICK
    for name, more, text in (("the last body is moved", b"move,65535,1,1,1\n", tree),
                             ("no such body", b"move,65536,1,1,1\n", refused("out-of-range", 65537, 2)),
                             ("the first and the last body meet", b"move,65535,%d,%d,%d\n" % points[0], refused("pass-coincident", 65538, 0, 65535)),
                             ("two meet at the last pass", b"pass\n" * 1023 + b"move,9,%d,%d,%d\npass\n" % points[5], refused("pass-coincident", 66561, 5, 9)),
                             ("a body too many", b"body,1,1,1,1", refused("too-many", 65537)),
                             ("a move again", b"move,7,1,1,1\n" * 2, refused("moved-twice", 65538, 7))):
        yield "65536 bodies: " + name, ["tree"], bodies + more, text, QUICK
    there, changed = neighbours_change(points, 0, MOST_BODIES)
    text = "frame 0\n%sframe 1\n%s" % (first, frame(changed))
    yield "65536 bodies change places at once", ["passes", "--builder", "partree"], bodies + there, text.encode(), None


def rows():
    """Rows: a name, the words, the scene, the text, and the most seconds of the processor or None."""
    yield from of_bytes()
    yield from of_passes()
    yield from of_bodies()
