"""How a program is tried: it is run with words on bytes, and what is wrong with its end is told in words."""

import os
import signal
import subprocess
import sys
import tempfile

TOP = os.path.dirname(os.path.dirname(os.path.dirname(os.path.realpath(__file__))))
# A run that takes longer has failed.
MOST_SECONDS = 120


class Program:
    """Runs a program with words on a scene."""

    def __init__(self, path):
        self.path = path
        self.ends = [tempfile.TemporaryFile() for _ in range(3)]
        signal.signal(signal.SIGALRM, lambda *_: self.child.kill())

    def start(self, words, data, **more):
        """`more` goes to Popen, as an environment or other ends than files."""
        for end in self.ends:
            end.seek(0)
            end.truncate()
        self.ends[0].write(data)
        self.ends[0].seek(0)
        ends = dict(zip(("stdin", "stdout", "stderr"), self.ends), **more)
        self.child = subprocess.Popen([self.path, *words], **ends)

    def end(self):
        """The status, the text, what was written to standard error, and the seconds of the processor."""
        signal.alarm(MOST_SECONDS)
        _, status, usage = os.wait4(self.child.pid, 0)
        signal.alarm(0)
        self.child.returncode = os.waitstatus_to_exitcode(status)
        for end in self.ends[1:]:
            end.seek(0)
        return self.child.returncode, self.ends[1].read(), self.ends[2].read(), usage.ru_utime + usage.ru_stime

    def read_to(self):
        """How many bytes of the scene were read."""
        return os.lseek(self.ends[0].fileno(), 0, os.SEEK_CUR)


def shown(data, most=4000):
    return repr(data) if len(data) <= most else "%r .. %r (%d bytes)" % (data[:most // 2], data[-most // 2:], len(data))


def complaint(ended, status, text):
    """What is wrong with a run that has to end with this status and text."""
    bad = [] if ended[0] == status else ["it ended with %d, and not %d" % (ended[0], status)]
    if ended[1] != text:
        at = next((n for n, pair in enumerate(zip(ended[1], text)) if pair[0] != pair[1]), min(len(ended[1]), len(text)))
        low = max(0, at - 40)
        bad.append("it wrote %d bytes, from byte %d on %s, and not the %d bytes %s"
                   % (len(ended[1]), low, shown(ended[1][low:low + 200]), len(text), shown(text[low:low + 200])))
    if ended[2]:
        bad.append("it wrote to standard error: %s" % shown(ended[2], 200))
    return "; ".join(bad)


def program_of(given, tool):
    """The program to try: the given one, or the repository's, which is built where it has to be."""
    if given is None:
        if subprocess.run([os.path.join(TOP, "tools", "build-nbody")]).returncode:
            print("0 passed, 1 failed")
            sys.exit(1)
        given = os.path.join(TOP, "out", "nbody")
    if not os.access(given, os.X_OK):
        sys.exit("%s: there is no program %s" % (tool, given))
    return os.path.realpath(given)
