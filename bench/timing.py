"""What the scripts that time the built program share."""

import os
import subprocess
import sys
import time

TOP = os.path.dirname(os.path.dirname(os.path.realpath(__file__)))

# Programs are timed as the launcher ./nbody runs them, with great blocks in pages of 2 MiB.
os.environ.setdefault("GLIBC_TUNABLES", "glibc.malloc.hugetlb=1")

# The scenes that are timed, by the models of tools/make-scene. The seed is always 1.
SHAPES = {"uniform": "uniform", "corner": "corner", "Plummer": "plummer", "close pairs": "pairs"}


def make_scene(folder, shape, count):
    """Writes a scene to a file in a folder, and gives the file."""
    file = os.path.join(folder, "%s-%d.csv" % (shape.replace(" ", "-"), count))
    maker = [os.path.join(TOP, "tools/make-scene"), SHAPES[shape], "--bodies", str(count), "--seed", "1", "--quiet"]
    with open(file, "wb") as into:
        subprocess.run(maker, stdout=into, check=True)
    return file


def program_of(given):
    """The program to time: the one that was given, or else the repository's, which is built where it has to be."""
    if given is None:
        if subprocess.run([os.path.join(TOP, "tools/build-nbody")]).returncode:
            sys.exit(1)
        given = os.path.join(TOP, "out/nbody")
    program = os.path.realpath(given)
    if not os.access(program, os.X_OK):
        sys.exit("there is no program %s" % program)
    return program


def milliseconds(program, file, wanted=0, words=("tree",)):
    """The time of one whole run with these words on a scene's file. The text goes to /dev/null."""
    ends = [(os.POSIX_SPAWN_OPEN, 0, file, os.O_RDONLY, 0), (os.POSIX_SPAWN_OPEN, 1, os.devnull, os.O_WRONLY, 0)]
    start = time.perf_counter_ns()
    child = os.posix_spawn(program, [program, *words], os.environ, file_actions=ends)
    _, status = os.waitpid(child, 0)
    end = time.perf_counter_ns()
    if os.waitstatus_to_exitcode(status) != wanted:
        sys.exit("%s did not end with status %d on %s" % (program, wanted, os.path.basename(file)))
    return (end - start) / 1e6


def machine():
    """The machine and how busy it is."""
    name = "a processor without a name"
    with open("/proc/cpuinfo", encoding="utf-8") as info:
        name = next((it.split(":", 1)[1].strip() for it in info if it.startswith("model name")), name)
    return "%d cores of %s; load at the end %.1f" % (len(os.sched_getaffinity(0)), name, os.getloadavg()[0])


def print_line(figure, value, unit):
    """One figure as a line that bench/all reads: its name, its value and its unit between tabs."""
    print("%s\t%.2f\t%s" % (figure, value, unit))


def rounds(program, scenes, runs, words=("tree",)):
    """The times of each scene, a file and the status that is wanted, run in rounds: each scene once a round, so that a
    busy moment of the machine hits all alike. A first round is not counted."""
    times = {it: [] for it in scenes}
    for warm in (True, *[False] * runs):
        for it, (file, wanted) in scenes.items():
            taken = milliseconds(program, file, wanted, words)
            if not warm:
                times[it].append(taken)
    return times
