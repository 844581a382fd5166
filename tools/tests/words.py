"""The words of the command line: a reader of them by docs/formats.md, the text that options ask for, and random words."""

import random
import re

import reference

USAGE = (b"usage: nbody tree|passes|run|trial [--builder orig|local|update|partree|space] [--workers N] [--steps N] [--theta T/Q] [--eps2 N]"
         b" [--g N] [--probe NAME] [--count N] [--seed N] [--shape uniform|corner]\n")
COMMANDS = (b"tree", b"passes", b"run", b"trial")
BUILDERS = (b"orig", b"local", b"update", b"partree", b"space")
PROBES = (b"none", b"all", b"balance", b"momentum", b"first")
SHAPES = (b"uniform", b"corner")
# Of each option what it has without a word, and its values: some names, or the least and the greatest number of each of the
# decimals that a / joins.
OPTIONS = {
    b"--builder": (b"orig", BUILDERS), b"--workers": (1, [(1, 64)]), b"--steps": (1, [(1, 10000)]),
    b"--theta": ((1, 1), [(0, 65535), (1, 65535)]), b"--eps2": (0, [(0, (1 << 44) - 1)]), b"--g": (1 << 32, [(0, 1 << 40)]),
    b"--probe": (b"none", PROBES), b"--count": (1000, [(0, 65536)]), b"--seed": (0, [(0, (1 << 64) - 1)]), b"--shape": (b"uniform", SHAPES)}
DIGITS = re.compile(rb"[0-9]+")
NOT_TEXT = (b"\xff", b"tree\xc3", b"\xed\xa0\x80")


def plain_form(words):
    """The command and the values by their names, or None where the words don't have the plain form."""
    command, values, left = None, {}, list(words)
    while left:
        word = left.pop(0)
        name, joined, value = word.partition(b"=")
        if name in OPTIONS:
            if not joined:
                if not left:
                    return None
                value = left.pop(0)
            if name in values or not value or value.startswith(b"-"):
                return None
            values[name] = value
        elif not word or word.startswith(b"-") or command is not None:
            return None
        else:
            command = word
    return None if command is None else (command, values)


def value_of(text, values):
    """The value that a text stands for, or None where it breaks its rule."""
    if isinstance(values, tuple):
        return text if text in values else None
    parts = text.split(b"/")
    if len(parts) != len(values) or not all(map(DIGITS.fullmatch, parts)):
        return None
    # Python reads no number of thousands of digits.
    numbers = [int(it.lstrip(b"0")[:30] or b"0") for it in parts]
    if not all(least <= it <= most for it, (least, most) in zip(numbers, values)):
        return None
    return numbers[0] if len(numbers) == 1 else tuple(numbers)


def options_of(words):
    """The options by their names without hyphens, with the command, or None where the words give none."""
    read = plain_form(words)
    if read is None or read[0] not in COMMANDS:
        return None
    options = {"command": read[0]}
    for name, (usual, values) in OPTIONS.items():
        value = value_of(read[1][name], values) if name in read[1] else usual
        if value is None:
            return None
        options[name[2:].decode()] = value
    return options


def text_of(options, scene):
    """The text that options ask for over a scene that is accepted."""
    it = {name: value.decode() if isinstance(value, bytes) else value for name, value in options.items()}
    law = {name: it[name] for name in ("theta", "g", "eps2")}
    if it["command"] == "tree":
        return reference.tree(scene.points, it["builder"], it["workers"]).encode()
    if it["command"] == "passes":
        return "".join(reference.passes(scene.points, scene.passes, it["builder"], it["workers"])).encode()
    if it["command"] == "run":
        bodies = list(zip(scene.masses, scene.points))
        return "".join(reference.run(bodies, it["steps"], it["workers"], builder=it["builder"], probe=it["probe"], **law)).encode()
    return reference.trial(it["count"], it["seed"], it["shape"], it["steps"], it["workers"], **law).encode()


class Maker:
    """Makes words, most of which would be served but for a fault or two."""

    def __init__(self, seed):
        self.random = random.Random(seed)

    def chance(self, part):
        return self.random.random() < part

    def number(self, least, most):
        """The text of a number within its range, mostly of a small one."""
        number = self.random.choice((least, least + 1, 2, 3, most if most < 100 or self.chance(0.2) else least))
        return b"0" * self.random.choice((0, 0, 0, 0, 1, 30)) + b"%d" % max(least, min(most, number))

    def value(self, name):
        usual, values = OPTIONS[name]
        if isinstance(values, tuple):
            return self.random.choice(values)
        if name == b"--count":
            return self.number(0, 40)
        if name == b"--steps" and not self.chance(0.01):
            return self.number(1, 4)
        return b"/".join(self.number(*it) for it in values)

    def option(self, name):
        """An option as two words or as one."""
        return [b"%s=%s" % (name, self.value(name))] if self.chance(0.4) else [name, self.value(name)]

    def served(self):
        """A command and some options in any order. A trial of as many bodies as without a word is slow to try."""
        command = self.random.choice(COMMANDS)
        names = set(self.random.sample(sorted(OPTIONS), self.random.choice((0, 0, 1, 1, 2, 3, 4, len(OPTIONS)))))
        if command == b"trial" and not self.chance(0.01):
            names.add(b"--count")
        parts = [self.option(it) for it in sorted(names)] + [[command]]
        self.random.shuffle(parts)
        return [word for part in parts for word in part]

    def odd(self):
        """A word that is seldom right where it stands."""
        choices = self.random
        name, values = choices.choice(sorted(OPTIONS)), (b"", b"-1", b"+1", b" 1", b"1 ", b"1.0", b"0x1", b"1/", b"/1", b"1/1/1", b"1/0", b"0/1", b"=3", b"0",
                                                         b"65", b"65536/1", b"9" * 40, b"\xd9\xa1", b"Orig", b"TREE", b"corner ", b"tre", b"trees", b"all,first")
        return choices.choice((
            b"", b"-", b"--", b"---", b"-h", b"--help", b"--version", b"help", b"-w", b"=", b"--=1", b"--workers=", b"\n", b"tree\n", b"tree run",
            name, name[:-1], name[1:], name + b"s", name.upper(), name + b" ", name + b"==1", b"-" + name, b"%s=%s" % (name, choices.choice(values)),
            choices.choice(values), choices.choice(values), choices.choice(COMMANDS), choices.choice(BUILDERS), b"9" * 5000, choices.choice(NOT_TEXT),
            bytes(choices.randint(1, 127) for _ in range(choices.randint(1, 6)))))

    def spoil(self, words):
        at = self.random.randint(0, len(words))
        way = self.random.choice(("put in", "put in", "change", "change", "leave out", "twice", "cut", "swap"))
        if way == "put in" or not words:
            words.insert(at, self.odd())
            return
        at = min(at, len(words) - 1)
        other = self.random.randrange(len(words))
        if way == "change":
            words[at] = self.odd()
        elif way == "leave out":
            del words[at]
        elif way == "twice":
            words.insert(other, words[at])
        elif way == "cut":
            words[at] = words[at][:self.random.randint(0, len(words[at]))]
        else:
            words[at], words[other] = words[other], words[at]


def random_words(seed):
    """Random words: in one of ten lists any at all, else a command with options, and in most of these a fault or more."""
    maker = Maker(seed)
    if maker.chance(0.1):
        return [maker.odd() for _ in range(maker.random.randint(0, 5))]
    words = maker.served()
    for _ in range(maker.random.choice((0, 0, 1, 1, 2, 3))):
        maker.spoil(words)
    return words


def is_text(word):
    """Whether the program can read a word."""
    try:
        word.decode()
    except UnicodeDecodeError:
        return False
    return True
