"""Accelerations by the direct sum in doubles, to measure the program's against."""

import numpy

from nbody_tools.command import Progress

AT_ONCE = 1 << 21


def direct_sum(masses, points, eps2=0, some=None):
    """The acceleration of each body, or of some by their numbers: the sum of mass times distance over the third power of
    the softened distance, in masses over squared grid steps. A row for each body."""
    masses, points = numpy.asarray(masses, float), numpy.asarray(points, float).reshape(-1, 3)
    wanted = numpy.arange(len(masses)) if some is None else numpy.asarray(some)
    found = numpy.zeros((len(wanted), 3))
    rows = max(1, AT_ONCE // max(len(masses), 1))
    progress = Progress("direct sum, body", len(wanted))
    for start in range(0, len(wanted), rows):
        here = wanted[start:start + rows]
        apart = [points[None, :, axis] - points[here, None, axis] for axis in range(3)]
        square = apart[0] ** 2 + apart[1] ** 2 + apart[2] ** 2 + eps2
        # A body doesn't pull itself.
        square[numpy.arange(len(here)), here] = numpy.inf
        weight = masses / (square * numpy.sqrt(square))
        for axis in range(3):
            found[start:start + rows, axis] = (weight * apart[axis]).sum(axis=1)
        progress.step(len(here))
    progress.end()
    return found


def relative_errors(pulls, g, wanted):
    """How far pulls are from accelerations, over these: a number for each body whose acceleration isn't 0."""
    told = numpy.asarray([[it / g for it in pull] for pull in pulls], float).reshape(-1, 3)
    size = numpy.sqrt((wanted ** 2).sum(axis=1))
    moved = size > 0
    return numpy.sqrt(((told - wanted) ** 2).sum(axis=1))[moved] / size[moved]
