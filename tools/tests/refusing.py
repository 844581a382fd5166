"""Runs of a program whose calls fail one by one: the library that makes them fail, and what it tells of a run."""

import collections
import os
import shutil
import subprocess

from trying import TOP, Program

# How many calls of each kind a run made, and how many threads it started and never joined.
Calls = collections.namedtuple("Calls", "memory read write thread unjoined")


def library_in(room):
    """The library of tools/refuse.c, built in a folder, or None where the machine has no C compiler."""
    compiler = shutil.which("cc") or shutil.which("gcc")
    if compiler is None:
        return None
    library, source = os.path.join(room, "refuse.so"), os.path.join(TOP, "tools", "refuse.c")
    subprocess.run([compiler, "-O1", "-shared", "-fPIC", "-o", library, source, "-ldl"], check=True)
    return library


class Refused(Program):
    """Runs a program below the library. Where there is none, it runs it as it is, and is told nothing of its calls."""

    def __init__(self, path, library, room):
        super().__init__(path)
        self.library, self.told = library, os.path.join(room, "told-%d" % os.getpid())

    def run(self, words, data, what="memory", number=0, **how):
        """Its end, with one call failing where a number is given, and its calls. `how` names further words of refuse.c:
        FAIL_ON, TAKE_NONE, SHORT_IO."""
        place = dict(os.environ, LD_PRELOAD=self.library, TOLD=self.told, FAIL_WHAT=what, **how)
        if number:
            place["FAIL_NTH"] = str(number)
        if os.path.exists(self.told):
            os.unlink(self.told)
        self.start(words, data, env=place)
        ended = self.end()
        if not os.path.exists(self.told):
            return ended, None
        with open(self.told) as told:
            return ended, Calls(*map(int, told.read().split()))
