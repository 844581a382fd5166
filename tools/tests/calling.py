"""How the tests call the tools."""

import os
import subprocess
import sys
import tempfile
import unittest

TOP = os.path.dirname(os.path.dirname(os.path.dirname(os.path.realpath(__file__))))
PROGRAM = os.path.join(TOP, "out", "nbody")
REFERENCE = os.path.join(TOP, "tools", "tests", "reference.py")
SCENES = os.path.join(TOP, "scenes")
PLUMMER = os.path.join(SCENES, "plummer-4096.csv")
needs_program = unittest.skipUnless(os.access(PROGRAM, os.X_OK), "the program isn't built (out/nbody)")


class Tools(unittest.TestCase):
    """Tests in a folder of their own, which is deleted behind them."""

    def setUp(self):
        room = tempfile.TemporaryDirectory()
        self.addCleanup(room.cleanup)
        self.room = room.name

    def path(self, name):
        return os.path.join(self.room, name)

    def write(self, name, text):
        with open(self.path(name), "w", encoding="utf-8", newline="") as into:
            into.write(text)
        return self.path(name)

    def ends(self, status, tool, *words, text=""):
        """Runs a tool, which has to end with this status: what it wrote, and what it told."""
        ran = subprocess.run([sys.executable, os.path.join(TOP, "tools", tool), *map(str, words)], input=text.encode(),
                             stdout=subprocess.PIPE, stderr=subprocess.PIPE, cwd=self.room)
        told = ran.stderr.decode()
        self.assertEqual(ran.returncode, status, told)
        return ran.stdout.decode(), told

    def writes(self, tool, *words, text=""):
        return self.ends(0, tool, *words, text=text)[0]

    def refuses(self, why, tool, *words, text=""):
        """The tool has to end with 2, to write nothing, and to tell one line that has these words."""
        written, told = self.ends(2, tool, *words, text=text)
        self.assertEqual(written, "")
        self.assertEqual(told.count("\n"), 1, told)
        self.assertIn(why, told)
        self.assertTrue(told.startswith(tool + ": "), told)
