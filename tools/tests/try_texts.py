"""Texts of trees and frames: comparing them, and what is said where they are wrong."""

import os
import subprocess
import sys

import reference
from calling import PLUMMER, PROGRAM, SCENES, TOP, Tools, needs_program
from nbody_tools import command, models, scenes, texts

FIVE = [(1, (0, 0, 0)), (1, (5, 1, 0)), (1, (1 << 20, 3, 9)), (1, (1 << 20, 3, 10)), (1, (2097151, 2097151, 7))]


def scene_text(bodies):
    return "".join(scenes.body_record(*it) for it in bodies)


class CompareTrees(Tools):
    def setUp(self):
        super().setUp()
        self.scene = self.write("scene", scene_text(FIVE))
        self.tree = "tree " + scenes.tree_text([point for _, point in FIVE]) + "\n"

    def test_a_tree_agrees_with_itself_and_with_its_scene(self):
        same = self.write("same", self.tree)
        told = self.writes("compare-trees", "-", same, text=self.tree)
        self.assertRegex(told, r"^the trees agree: \d+ cells and 5 bodies\n$")
        self.assertEqual(self.writes("compare-trees", "-", self.scene, text=self.tree), told)
        self.assertEqual(self.writes("compare-trees", self.scene, "-", text=self.tree.rstrip("\n")), told)
        self.assertEqual(self.writes("compare-trees", "--quiet", self.scene, "-", text=self.tree), "")

    def test_the_reference_has_the_same_trees(self):
        run = next(reference.run(FIVE))
        self.assertEqual(run.splitlines()[1] + "\n", self.tree)

    def test_one_body_moved(self):
        moved = [*FIVE[:4], (1, (2097151, 7, 2097151))]
        written, _ = self.ends(1, "compare-trees", "-", self.scene, text=scene_text(moved))
        # The octants 5 and 6 of the whole cube: the first difference is where the moved body stands now.
        self.assertEqual(written.splitlines()[0], "the trees differ first at key 13: octants 5, level 1, from 1048576 0 1048576 with side 1048576")
        self.assertEqual(written.splitlines()[1:], ["  standard input has body 4 alone", "  %s has nothing" % self.scene])

    def test_bodies_that_are_missing_or_stand_twice(self):
        written, _ = self.ends(1, "compare-trees", "-", self.write("b", "tree (b0b1......)\n"), text="tree (b0b0......)\n")
        self.assertEqual(written.splitlines(), ["the trees differ first at key 9: octants 1, level 1, from 0 0 1048576 with side 1048576",
                                                "  standard input has body 0 alone", "  %s has body 1 alone" % self.path("b"),
                                                "  body 1 is missing in standard input", "  body 0 stands more than once in standard input"])

    def test_a_frame_of_a_run_and_a_pass_of_a_scene(self):
        scene = self.write("passes", "body,1,0,0,0\nbody,1,0,0,1\nmove,1,1048576,0,0\npass\n")
        passes = "frame 0\ntree (b1......b0)\ncells 1 depth 1\nframe 1\ntree (b0...b1...)\ncells 1 depth 1\n"
        self.assertIn("agree", self.writes("compare-trees", "--frame", 1, scene, "-", text=passes))
        self.ends(1, "compare-trees", scene, "-", text=passes)
        self.refuses("no frame 2: its last one is 1", "compare-trees", "--frame", 2, "-", scene, text=passes)

    def test_refusals(self):
        for why, text in (("it ends too soon", "tree (b0..."), ("has ')' at character 5", "tree (b0.)"), ("goes on at character 2", "tree ..\n"),
                          ("a ')' is missing at character 12", "tree (b0......b1"), ("more than 21 levels", "tree " + "(" * 22 + "\n"),
                          ("'leaf 3'", "leaf 3\n"), ("has 'x' at character 1", "tree x\n"), ("stands behind", "tree .\ntree .\n")):
            with self.subTest(text):
                self.refuses(why, "compare-trees", "-", self.scene, text=text)
        self.refuses("only one of the two", "compare-trees", "-", "-")

    @needs_program
    def test_the_programs_trees_are_those_of_the_scenes(self):
        for name in sorted(it for it in os.listdir(SCENES) if it.endswith(".csv")):
            with open(os.path.join(SCENES, name), "rb") as scene:
                tree = subprocess.run([PROGRAM, "tree"], stdin=scene, stdout=subprocess.PIPE, check=True).stdout.decode()
            self.assertIn("agree", self.writes("compare-trees", "-", os.path.join(SCENES, name), text=tree))

    @needs_program
    def test_the_program_counts_as_many_pieces_and_writes_the_references_frame(self):
        with open(PLUMMER, encoding="ascii") as source:
            text = source.read()
        points = scenes.read_scene(text, "scene").points
        for workers in (1, 3, 8):
            words = [PROGRAM, "tree", "--builder", "space", "--workers", str(workers)]
            told = subprocess.run(words, input=text.encode(), stdout=subprocess.PIPE, check=True).stdout.decode()
            self.assertEqual(told.splitlines()[1], "pieces %d" % len(scenes.pieces(points, workers)))
        few = scene_text([(1 + n, point) for n, point in enumerate(points[:200])])
        words = ["run", "--workers", "3", "--theta", "2/3", "--eps2", "1000"]
        run = subprocess.run([PROGRAM, *words], input=few.encode(), stdout=subprocess.PIPE, check=True).stdout
        slow = [sys.executable, os.path.join(TOP, "tools", "tests", "reference.py"), *words]
        self.assertEqual(subprocess.run(slow, input=few.encode(), stdout=subprocess.PIPE, check=True).stdout, run)


    def served(self, words, text):
        """What the program writes; where it doesn't serve the words yet, the test is left out."""
        ran = subprocess.run([PROGRAM, *words], input=text.encode(), stdout=subprocess.PIPE)
        if ran.returncode == 2:
            self.skipTest("the program doesn't serve '%s' yet" % " ".join(words[:2]))
        self.assertEqual(ran.returncode, 0)
        return ran.stdout.decode()

    @needs_program
    def test_the_program_writes_the_references_run_of_many_steps(self):
        words = ["run", "--steps", "6", "--workers", "3", "--g", str(1 << 38), "--eps2", "90000"]
        bodies = models.bodies_of("two-clusters", 60, 2)
        wanted = "".join(reference.run(bodies, steps=6, workers=3, g=1 << 38, eps2=90000))
        self.assertEqual(self.served(words, scene_text(bodies)), wanted)

    @needs_program
    def test_the_programs_passes_are_those_of_the_scene(self):
        scene = "body,1,0,0,0\nbody,1,0,0,1\nbody,2,7,7,7\nmove,1,1048576,0,0\npass\npass\nmove,0,1048576,0,0\nmove,1,0,0,0\n"
        text = self.served(["passes", "--workers", "2"], scene)
        for number in range(4):
            self.assertIn("agree", self.writes("compare-trees", "--frame", number, "-", self.write("moving", scene), text=text))
        self.writes("draw", "--scene", self.path("moving"), "--frame", "0,1,2,3", "-o", "passes.svg", text=text)


class Pieces(Tools):
    def test_four_bodies_in_four_octants(self):
        points = [(0, 0, 0), (0, 0, 1048576), (0, 1048576, 0), (1048576, 0, 0)]
        self.assertEqual(scenes.pieces(points, 3), [(8, [0], 0), (9, [1], 0), (10, [2], 1), (12, [3], 2)])
        self.assertEqual(scenes.pieces(points, 1), [(8, [0], 0), (9, [1], 0), (10, [2], 0), (12, [3], 0)])
        self.assertEqual(scenes.pieces([], 3), [])

    def test_a_key_and_its_cube(self):
        self.assertEqual(scenes.key_of((0, 0, 1), 21), 9223372036854775809)
        self.assertEqual(scenes.cube_of(9223372036854775809), ((0, 0, 1), 1))
        self.assertEqual(scenes.cube_of(scenes.key_of((1048576, 5, 2097151), 1)), ((1048576, 0, 1048576), 1048576))


class TheReference(Tools):
    """The slow program of the tests, on runs whose texts are known."""

    def test_occupied_points(self):
        frames = list(reference.run([(1, (0, 0, 0)), (1, (1, 0, 0))], steps=2))
        for frame, costs in zip(frames, ("cost 2 greatest 2", "cost 4 greatest 4")):
            self.assertIn(costs, frame)
            self.assertIn("acc 0 at 0 0 0 pull 4294967296 0 0 met 1\nacc 1 at 1 0 0 pull -4294967296 0 0 met 1\n", frame)

    def test_two_bodies_that_fall_towards_each_other(self):
        frame = list(reference.run([(64, (0, 0, 0)), (64, (8, 0, 0))], steps=2))[1]
        self.assertTrue(frame.endswith("cells 19 depth 19\ncost 4 greatest 4\nzone 0 0 1\nacc 0 at 1 0 0 pull 7635497415 0 0 met 1\n"
                                       "acc 1 at 7 0 0 pull -7635497415 0 0 met 1\n"))


class CommandLines(Tools):
    TOOLS = ("accuracy", "compare-trees", "draw", "make-scene", "plot-run", "scene-from-table", "table-from-run")

    def test_unknown_words_are_one_line_and_status_2(self):
        for tool in self.TOOLS:
            with self.subTest(tool):
                self.refuses("--help", tool, "--no-such-word")

    def test_the_examples_of_the_help_run_as_written(self):
        program = self.path("nbody")
        if os.access(PROGRAM, os.X_OK):
            os.symlink(PROGRAM, program)
        for name in ("tools", "scenes"):
            os.symlink(os.path.join(TOP, name), self.path(name))
        for tool in self.TOOLS:
            help_text = self.writes(tool, "--help")
            examples = [it.strip() for it in help_text[help_text.index("\nExample"):].splitlines() if it.startswith("  ")]
            self.assertTrue(examples, tool)
            for example in examples:
                if not os.path.exists(program) and ("./nbody" in example or tool == "accuracy"):
                    continue
                if tool == "accuracy":
                    example += " --program ./nbody"
                with self.subTest(example):
                    ran = subprocess.run(["sh", "-c", example], cwd=self.room, stdout=subprocess.DEVNULL, stderr=subprocess.PIPE)
                    self.assertEqual(ran.returncode, 0, ran.stderr.decode())

    def test_a_closed_pipe_and_a_full_disk(self):
        tool = os.path.join(TOP, "tools", "make-scene")
        for unbuffered in ("", "1"):
            around = dict(os.environ, PYTHONUNBUFFERED=unbuffered)
            line = '"$0" "$1" uniform --bodies 60000 --quiet | head -n 1; exit ${PIPESTATUS[0]}'
            ran = subprocess.run(["bash", "-c", line, sys.executable, tool], stdout=subprocess.DEVNULL, stderr=subprocess.PIPE, env=around)
            self.assertEqual((ran.returncode, ran.stderr), (1, b""))
            with open("/dev/full", "w", encoding="ascii") as full:
                ran = subprocess.run([sys.executable, tool, "plummer", "--quiet"], stdout=full, stderr=subprocess.PIPE, env=around)
            self.assertEqual((ran.returncode, ran.stderr), (1, b"make-scene: No space left on device\n"))
        ran = subprocess.run(["bash", "-c", '"$0" "$1" uniform --bodies 60000 --quiet | (sleep 1; wc -l)', sys.executable, tool],
                             stdout=subprocess.PIPE, check=True)
        self.assertEqual(ran.stdout.strip(), b"60000")

    def test_a_missing_library_is_told(self):
        with self.assertRaisesRegex(command.Failure, "apt-get install python3-no_such_library"):
            command.needs("no_such_library")

    def test_a_picture_is_whole_or_not_there(self):
        old = self.write("old.svg", "old")
        with self.assertRaises(ValueError):
            with command.writing(old) as part:
                with open(part, "w", encoding="ascii") as into:
                    into.write("half")
                raise ValueError
        with open(old, encoding="ascii") as source:
            self.assertEqual(source.read(), "old")
        self.assertEqual(os.listdir(self.room), ["old.svg"])

    def test_frames_are_read_as_they_come(self):
        run = "".join(reference.run(FIVE, steps=3, workers=2))
        lines = run.splitlines(keepends=True)
        frames = texts.frames(iter(lines), "the run")
        self.assertEqual([(it.number, len(it.points), len(it.zones)) for it in frames], [(n, 5, 2) for n in range(3)])
        probes = run.replace("frame 1\n", "probe first left 2 cells 3\nframe 1\n").replace("depth 20\n", "depth 20\npieces 4\n")
        self.assertEqual(len(list(texts.frames(iter(probes.splitlines(keepends=True)), "the run"))), 3)
