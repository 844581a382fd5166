"""Pictures, figures of runs, and the direct sum."""

import math
import os
import resource
import stat
import xml.etree.ElementTree

import numpy
import PIL.Image

import reference
from calling import PLUMMER, REFERENCE, Tools
from nbody_tools import gravity, models, scenes

BODIES = [(3, (100, 100, 100)), (1, (104, 100, 100)), (2, (1 << 20, 1 << 20, 1 << 20))]
PASSES = "body,1,0,0,0\nbody,1,0,0,1\nmove,1,1048576,0,0\npass\n"


def run_of(bodies, **options):
    return "".join(reference.run(bodies, **options))


def seconds_of_children():
    used = resource.getrusage(resource.RUSAGE_CHILDREN)
    return used.ru_utime + used.ru_stime


class Draw(Tools):
    def read(self, name):
        with open(self.path(name), "rb") as source:
            return source.read()

    def dots(self, name):
        """How many bodies an SVG has: each is a use of a mark within a collection of points."""
        groups = xml.etree.ElementTree.parse(self.path(name)).iter("{http://www.w3.org/2000/svg}g")
        return sum(len(list(it.iter("{http://www.w3.org/2000/svg}use"))) for it in groups if it.get("id", "").startswith("PathCollection"))

    def test_kinds_of_pictures(self):
        run = run_of(BODIES, workers=2)
        for name, start in (("a.svg", b"<?xml"), ("a.png", b"\x89PNG"), ("a.gif", b"GIF89a")):
            self.ends(0, "draw", "--arrows", "-o", name, text=run)
            first = self.read(name)
            self.assertTrue(first.startswith(start))
            self.ends(0, "draw", "--arrows", "-o", name, text=run)
            self.assertEqual(self.read(name), first)
        self.assertEqual(sorted(os.listdir(self.room)), ["a.gif", "a.png", "a.svg"])

    def test_every_body_has_a_dot(self):
        for count in (1, 3, 50):
            bodies = [(1, point) for _, point in models.bodies_of("plummer", count, 1)]
            self.writes("draw", "-o", "a.svg", text=run_of(bodies, workers=3))
            self.assertEqual(self.dots("a.svg"), count)
        self.writes("draw", "-o", "a.svg", text="tree .\n")

    def test_a_text_without_points(self):
        scene = self.write("scene", PASSES)
        passes = "frame 0\ntree (b0......b1)\ncells 1 depth 1\nframe 1\ntree (b0...b1...)\ncells 1 depth 1\n"
        self.writes("draw", "-o", "alone.svg", text="tree (b0......b1)\n")
        self.writes("draw", "--frame", 1, "-o", "middles.svg", text=passes)
        self.writes("draw", "--frame", 1, "--scene", scene, "-o", "points.svg", text=passes)
        self.writes("draw", "--frame", 1, "-o", "scene.svg", scene)
        self.assertEqual(self.read("points.svg"), self.read("scene.svg"))
        self.assertNotEqual(self.read("points.svg"), self.read("middles.svg"))

    def test_an_animation_has_every_frame(self):
        run = run_of([(1 << 24, (1000, 1000, 1000)), (1 << 24, (900000, 1000, 1000))], steps=7, g=1 << 40)
        for words, frames in (((), 7), (("--every", 3), 3), (("--frame", "2,4,5"), 3)):
            _, told = self.ends(0, "draw", "--zoom", 2, *words, "-o", "a.gif", text=run)
            self.assertIn("%d frames in a.gif" % frames, told)
            with PIL.Image.open(self.path("a.gif")) as picture:
                self.assertEqual(picture.n_frames, frames)

    def test_panels_pieces_and_cuts(self):
        run = run_of(BODIES, steps=4)
        self.writes("draw", "--frame", "0,1,3", "-o", "a.svg", text=run)
        self.assertEqual(self.dots("a.svg"), 9)
        self.writes("draw", "--cut", 1048576, "-o", "a.svg", text=run)
        self.assertEqual(self.dots("a.svg"), 1)
        self.writes("draw", "--pieces", 3, "--cut", 100, "-o", "a.svg", text="".join(scenes.body_record(*it) for it in BODIES))
        self.assertEqual(self.dots("a.svg"), 2)

    def test_refusals(self):
        run = run_of(BODIES)
        for why, words, text in (("has to end with", ["-o", "a.jpg"], run), ("no frame 4: its last one is 0", ["-o", "a.svg", "--frame", 4], run),
                                 ("none of the frames", ["-o", "a.gif", "--frame", 4], run), ("is no coordinate", ["-o", "a.svg", "--cut", "x"], run),
                                 ("required: --out", [], run), ("body 0 twice", ["-o", "a.svg"], "tree (b0b0......)\n"),
                                 ("aren't numbered from 0", ["-o", "a.svg"], "tree (b0b7......)\n"), ("is empty", ["-o", "a.svg"], ""),
                                 ("isn't whole", ["-o", "a.gif"], run.replace("zone 0 0 1 2", "zone 0 0 1"))):
            with self.subTest(why):
                self.refuses(why, "draw", *words, text=text)
        self.assertEqual(os.listdir(self.room), [])
        _, told = self.ends(1, "draw", "-o", "no/folder/a.svg", text=run)
        self.assertIn("no/folder/a.svg can't be written", told)

    def test_a_cluster_is_drawn_within_five_seconds(self):
        before = seconds_of_children()
        self.writes("draw", PLUMMER, "--zoom", 8, "-o", "a.png")
        self.assertLess(seconds_of_children() - before, 5)


class PlotRun(Tools):
    def test_figures_of_a_run(self):
        # Two bodies: body 0 of mass 3 goes two steps along x a frame, body 1 of mass 5 one step back along z.
        frames = ["frame %d\ntree (b0......b1)\ncells 1 depth 1\ncost 2 greatest 2\nzone 0 0 1\nzone 1\n"
                  "acc 0 at %d 0 0 pull 0 0 0 met 1\nacc 1 at 1048576 1048576 %d pull 0 0 0 met 1\n" % (s, 10 + 2 * s, 2000000 - s) for s in range(3)]
        scene = self.write("scene", "body,3,10,0,0\nbody,5,1048576,1048576,2000000\n")
        table = self.writes("plot-run", "--scene", scene, "--table", "-", "--out", "a.svg", text="".join(frames))
        rows = [line.split() for line in table.splitlines()]
        self.assertEqual(rows[0], "# step cells depth cost greatest balance terms kinetic momentum_x momentum_y momentum_z".split())
        self.assertEqual(rows[1], "0 1 1 2 2 2.0 1.0 - - - -".split())
        self.assertEqual(rows[2], "1 1 1 2 2 2.0 1.0 8.5 6 0 -5".split())
        self.assertEqual(rows[3], ["2", *rows[2][1:]])
        self.assertTrue(os.path.getsize(self.path("a.svg")))

    def test_a_body_that_leaves_its_point_backwards_is_not_a_whole_step_ahead(self):
        scene = self.write("scene", "body,1,1000,0,0\nbody,1,9000,0,0\n")
        table = self.writes("plot-run", "--scene", scene, "--table", "-", text=run_of([(1, (1000, 0, 0)), (1, (9000, 0, 0))], steps=2))
        self.assertEqual(table.splitlines()[2].split()[8:], ["0.0", "0", "0"])

    def test_passes_and_one_frame(self):
        table = self.writes("plot-run", "--table", "-", "-o", "a.png", text="frame 0\ntree b0\ncells 0 depth 0\n")
        self.assertEqual(table.splitlines()[1], "0 0 0 - - - - - - - -")
        self.writes("plot-run", "--table", "figures", "-o", "a.png", text=run_of(BODIES, workers=2))
        self.assertEqual(sorted(os.listdir(self.room)), ["a.png", "figures"])

    def test_refusals(self):
        self.refuses("has a tree alone", "plot-run", "-o", "a.svg", text="tree .\n")
        self.refuses("--out or --table", "plot-run")
        two = self.write("two", "body,1,0,0,0\nbody,1,1,0,0\n")
        self.refuses("has 3 bodies, and the scene 2", "plot-run", "--table", "-", "--scene", two, text=run_of(BODIES))


class DirectSum(Tools):
    def test_two_bodies(self):
        found = gravity.direct_sum([8, 1], [(0, 0, 0), (4, 0, 0)])
        numpy.testing.assert_allclose(found, [[1 / 16, 0, 0], [-8 / 16, 0, 0]])
        softened = gravity.direct_sum([8, 1], [(0, 0, 0), (4, 0, 0)], eps2=9)
        numpy.testing.assert_allclose(softened, [[4 / 125, 0, 0], [-8 * 4 / 125, 0, 0]])

    def test_some_bodies_are_those_of_all(self):
        points = [point for _, point in models.bodies_of("plummer", 100, 1)]
        masses = list(range(1, 101))
        numpy.testing.assert_allclose(gravity.direct_sum(masses, points, some=[3, 77]), gravity.direct_sum(masses, points)[[3, 77]])

    def test_errors(self):
        wanted = numpy.array([[3.0, 4.0, 0.0], [0.0, 0.0, 0.0]])
        self.assertEqual(gravity.relative_errors([(30, 40, 5), (0, 0, 0)], 10, wanted).tolist(), [0.1])


class Accuracy(Tools):
    def program(self, text):
        path = self.write("program", "#!/bin/sh\n" + text)
        os.chmod(path, os.stat(path).st_mode | stat.S_IXUSR)
        return path

    def rows(self, *words, text):
        told = self.writes("accuracy", "--program", REFERENCE, *words, text=text)
        self.assertTrue(told.startswith("| --theta | terms a body | median error | 99th percentile | greatest |\n"))
        return [[it.strip() for it in line.split("|")[1:-1]] for line in told.splitlines()[2:]]

    def test_two_bodies_are_exact(self):
        self.assertEqual(self.rows("--theta", "1/1", text="body,8,0,0,0\nbody,1,4,0,0\n"), [["1/1", "1.0", *["0.0e+00"] * 3]])

    def test_a_smaller_angle_is_more_exact_and_dearer(self):
        scene = "".join(scenes.body_record(*it) for it in models.bodies_of("plummer", 150, 3))
        rows = self.rows("--theta", "0/1,1/2,1/1", "--g", 1 << 40, "--plot", "a.svg", text=scene)
        self.assertEqual(rows[0][:2], ["0/1", "149.0"])
        for column in (2, 3):
            errors = [float(it[column]) for it in rows]
            self.assertEqual(errors, sorted(errors))
        self.assertLess(float(rows[0][2]), 1e-4)
        self.assertGreater(float(rows[1][1]), float(rows[2][1]))
        self.assertTrue(os.path.getsize(self.path("a.svg")))

    def test_refusals(self):
        pair = "body,8,0,0,0\nbody,1,4,0,0\n"
        for why, words, text in (("no angle T/Q", ["--theta", "1"], pair), ("fewer than two bodies", [], "body,1,0,0,0\n"),
                                 ("there is no program", ["--program", "none"], pair), ("record 1", [], "star\n")):
            self.refuses(why, "accuracy", *(words if "--program" in words else ["--program", REFERENCE, *words]), text=text)
        _, told = self.ends(1, "accuracy", "--program", self.program("exit 6\n"), text=pair)
        self.assertIn("ended with status 6", told)
        _, told = self.ends(2, "accuracy", "--program", self.program("echo frame 0\n"), text=pair)
        self.assertIn("the text ends", told)

    def test_the_direct_sum_of_a_cluster_takes_seconds(self):
        with open(PLUMMER, encoding="ascii") as source:
            scene = scenes.read_scene(source.read(), "scene")
        before = resource.getrusage(resource.RUSAGE_SELF).ru_utime
        found = gravity.direct_sum(scene.masses, scene.points)
        self.assertLess(resource.getrusage(resource.RUSAGE_SELF).ru_utime - before, 6)
        # The pulls of all bodies together have no weight, as each is the other's.
        weight = (found * numpy.asarray(scene.masses)[:, None]).sum(axis=0)
        size = (numpy.abs(found) * numpy.asarray(scene.masses)[:, None]).sum(axis=0)
        self.assertLess(math.dist(weight / size, (0, 0, 0)), 1e-12)
