"""The command lines of the tools: how they read and write, and how they end.

A tool ends with 0 where all was written, with 2 and one line on standard error where its words or its input can't be
used, and with 1 and one line where something outside fails (a full disk, a library that is missing). Where whoever reads
its text has closed the pipe it ends with 1 and says nothing.
"""

import argparse
import contextlib
import importlib.util
import os
import re
import shutil
import subprocess
import sys
import time

if sys.version_info < (3, 10):
    sys.exit("%s: Python 3.10 or later is wanted, and this is %d.%d" % (sys.argv[0], *sys.version_info[:2]))

TOP = os.path.dirname(os.path.dirname(os.path.dirname(os.path.realpath(__file__))))
NAME = os.path.basename(sys.argv[0])


class Refusal(Exception):
    """Words or an input that can't be used. Its text is told in one line, and the tool ends with 2."""


class Failure(Exception):
    """Something outside that fails. Its text is told in one line, and the tool ends with 1."""


class Words(argparse.ArgumentParser):
    """The words of a tool, from its description; the text after a line 'Example:' or 'Examples:' stands at the end."""

    def __init__(self, text):
        about, mark, examples = text.partition("\nExample")
        super().__init__(prog="tools/" + NAME, description=about.strip(), epilog=(mark + examples).strip() or None,
                         formatter_class=argparse.RawDescriptionHelpFormatter, allow_abbrev=False)
        # Numbers such as -1e-3 are values too, and no options.
        self._negative_number_matcher = re.compile(r"^-(\d+\.?\d*|\.\d+)([eE][-+]?\d+)?$")

    def error(self, message):
        raise Refusal("%s (tools/%s --help tells its words)" % (message, NAME))


def needs(*libraries):
    """Goes on with a Python that has these libraries: this one, or one that is found, from the beginning. Call it before
    standard input is read."""
    if all(importlib.util.find_spec(it) for it in libraries):
        return
    found = ["/usr/bin/python3", "/usr/local/bin/python3"]
    found += [os.path.join(it, "python3") for it in os.environ.get("PATH", "").split(os.pathsep)]
    for python in dict.fromkeys(it for it in found if os.access(it, os.X_OK)):
        look = "import importlib.util as it, sys; sys.exit(not all(map(it.find_spec, sys.argv[1:])))"
        tried = subprocess.run([python, "-c", look, *libraries], stdin=subprocess.DEVNULL, stdout=subprocess.DEVNULL,
                               stderr=subprocess.DEVNULL)
        if tried.returncode == 0:
            sys.stdout.flush()
            os.execv(python, [python, *sys.argv])
    raise Failure("no python3 that was found has %s: on Debian, apt-get install %s (tools/README.md)"
                  % (" and ".join(libraries), " ".join("python3-" + it for it in libraries)))


def tell(text):
    """A line to the user on standard error."""
    with contextlib.suppress(OSError):
        print("%s: %s" % (NAME, text), file=sys.stderr, flush=True)


def run(main):
    """Runs a tool and ends the process with its status."""
    status = 1
    with contextlib.suppress(OSError):
        # Python's own standard output loses what a pipe doesn't take at once where PYTHONUNBUFFERED is set.
        sys.stdout = open(1, "w", encoding="utf-8", newline="\n", closefd=False)
    try:
        try:
            status = main() or 0
        except SystemExit as end:
            # Of --help.
            status = end.code
        sys.stdout.flush()
    except Refusal as fault:
        status = 2
        tell(fault)
    except BrokenPipeError:
        status = 1
    except (Failure, MemoryError) as fault:
        status = 1
        tell(str(fault) or "there is not enough memory")
    except OSError as fault:
        status = 1
        tell("%s%s" % (fault.strerror or fault, ": " + str(fault.filename) if fault.filename else ""))
    except KeyboardInterrupt:
        status = 130
    try:
        sys.stdout.flush()
    except OSError:
        # What can't be written isn't tried again at the end of the process.
        os.dup2(os.open(os.devnull, os.O_WRONLY), 1)
    sys.exit(status)


@contextlib.contextmanager
def reading(name):
    """The lines of a file, or of standard input for '-', with the name that the user knows it by."""
    if name == "-":
        sys.stdin.reconfigure(encoding="utf-8", errors="replace", newline="\n")
        yield sys.stdin, "standard input"
        return
    try:
        source = open(name, encoding="utf-8", errors="replace", newline="\n")
    except OSError as fault:
        raise Refusal("%s can't be read: %s" % (name, fault.strerror)) from None
    with source:
        try:
            yield source, name
        except IsADirectoryError:
            raise Refusal("%s is a folder" % name) from None


@contextlib.contextmanager
def writing(name):
    """A new name to write a file to, which takes its place only when it is whole: an old file is never left half gone."""
    part = "%s.part-%d%s" % (name, os.getpid(), os.path.splitext(name)[1])
    try:
        yield part
        os.replace(part, name)
    except OSError as fault:
        raise Failure("%s can't be written: %s" % (name, fault.strerror or fault)) from None
    finally:
        with contextlib.suppress(OSError):
            os.unlink(part)


class Progress:
    """A line on standard error that tells how far a long work is: from two seconds on, and then once a second on a
    terminal and every ten seconds elsewhere."""

    def __init__(self, work, whole=None):
        self.work, self.whole, self.done, self.told = work, whole, 0, False
        self.terminal = sys.stderr.isatty()
        self.next = time.monotonic() + 2

    def step(self, done=1):
        self.done += done
        if time.monotonic() < self.next:
            return
        self.next = time.monotonic() + (1 if self.terminal else 10)
        text = "%s %d%s" % (self.work, self.done, " of %d" % self.whole if self.whole else "")
        if self.terminal:
            print("\r%s: %s " % (NAME, text), end="", file=sys.stderr, flush=True)
            self.told = True
        else:
            tell(text)

    def end(self):
        if self.told:
            print(file=sys.stderr, flush=True)


def whole_number(least, greatest):
    """A reader of words: a whole number within bounds."""
    def read(word):
        if not (word.isascii() and word.isdigit() and least <= int(word) <= greatest):
            raise argparse.ArgumentTypeError("'%s' is no whole number from %d to %d" % (word, least, greatest))
        return int(word)
    return read


def real_number(least=float("-inf"), above=float("-inf")):
    """A reader of words: a finite number that isn't below the one bound and is above the other."""
    def read(word):
        try:
            number = float(word)
        except ValueError:
            number = float("nan")
        if not (least <= number < float("inf") and number > above):
            more = " above %g" % above if above > float("-inf") else " of %g or more" % least if least > float("-inf") else ""
            raise argparse.ArgumentTypeError("'%s' is no number%s" % (word, more))
        return number
    return read


def program(given):
    """The program to run: the one that was given, or the repository's launcher, which builds it where it has to."""
    name = given or os.path.join(TOP, "nbody")
    found = shutil.which(name) or shutil.which(os.path.join(".", name))
    if found is None:
        raise Refusal("there is no program %s" % name)
    return found
