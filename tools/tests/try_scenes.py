"""Scenes of models and of tables, and tables of runs."""

import hashlib
import math
import statistics

import reference
from calling import PLUMMER, Tools
from nbody_tools import models, scenes, tables

FOUR = "body,1,0,0,0\nbody,1,0,0,1048576\nbody,1,0,1048576,0\nbody,1,1048576,0,0\n"


def points_of(text):
    return scenes.read_scene(text, "the scene").points


class Models(Tools):
    def test_every_model_writes_a_scene_that_its_seed_fixes(self):
        for model in models.MODELS:
            with self.subTest(model):
                one, two = (self.writes("make-scene", model, "--bodies", 300, "--seed", 5) for _ in range(2))
                self.assertEqual(one, two)
                self.assertEqual(len(points_of(one)), 300)
                self.assertNotEqual(one, self.writes("make-scene", model, "--bodies", 300, "--seed", 6))
                self.assertEqual(self.writes("make-scene", model, "--bodies", 0), "")

    def test_the_scenes_that_are_timed_stay_the_same(self):
        wanted = {"plummer": "0aca0c73d1b0102b", "uniform": "56fb68e55ec6f808", "corner": "7c68f1247035f9ff", "pairs": "515e14e7ab010f1c"}
        for model, digest in wanted.items():
            text = self.writes("make-scene", model, "--bodies", 1024)
            self.assertEqual(hashlib.sha256(text.encode()).hexdigest()[:16], digest, model)

    def middle_radius(self, model):
        points = [point for _, point in models.bodies_of(model, 4001, 2)]
        return statistics.median(math.dist(it, (1 << 20,) * 3) for it in points)

    def test_half_of_the_bodies_are_where_the_models_have_half_of_the_mass(self):
        # Hernquist's sphere is cut off where the cube ends.
        t = math.sqrt(0.5) * 1048575 / (1048575 + 32768)
        wanted = {"plummer": 65536 / math.sqrt(2 ** (2 / 3) - 1), "hernquist": 32768 * t / (1 - t), "ball": 524288 * 0.5 ** (1 / 3),
                  "disc": 131072 * math.sqrt(1 / (1 - 0.5 * (1 - 1 / math.sqrt(26))) ** 2 - 1)}
        for model, radius in wanted.items():
            self.assertAlmostEqual(self.middle_radius(model) / radius, 1, delta=0.06, msg=model)

    def test_two_clusters_are_two(self):
        points = [point for _, point in models.bodies_of("two-clusters", 1000, 1)]
        for some, side in ((points[::2], -1), (points[1::2], 1)):
            self.assertAlmostEqual(statistics.median(it[0] for it in some), (1 << 20) + side * 200000, delta=15000)

    def test_refusals(self):
        self.refuses("invalid choice: 'plumber'", "make-scene", "plumber")
        self.refuses("from 0 to 65536", "make-scene", "plummer", "--bodies", 65537)
        self.refuses("masses are too great", "make-scene", "ball", "--bodies", 4096, "--mass", 4294967295)
        self.refuses("is a power of two", "make-scene", "uniform", "--radius", 1000)
        self.refuses("too great for disc", "make-scene", "disc", "--radius", 1048576)
        self.refuses("leaves no room", "make-scene", "corner", "--radius", 2, "--bodies", 9)
        self.refuses("leaves no room", "make-scene", "ball", "--radius", 3, "--bodies", 400)


class FromTables(Tools):
    def test_to_a_scene_and_back_within_half_a_grid_step(self):
        table = [(0.1 + n % 7, math.sin(n), math.cos(3 * n), n / 100) for n in range(200)]
        text = "# mass x y z\n" + "".join("%r %r %r %r\n" % it for it in table)
        units = self.path("units")
        scene = self.write("scene", self.writes("scene-from-table", "--units", units, text=text))
        with open(scene, encoding="ascii") as source:
            read = scenes.read_scene(source.read(), "scene")
        run = "".join(reference.run(list(zip(read.masses, read.points))))
        back = [line.split() for line in self.writes("table-from-run", "--units", units, "--scene", scene, text=run).splitlines()[1:]]
        with open(units, encoding="ascii") as source:
            told = tables.read_units(source.read(), "units")
        self.assertEqual(len(back), len(table))
        for n, (was, now) in enumerate(zip(table, back)):
            self.assertEqual(now[:2], ["0", str(n)])
            self.assertLessEqual(abs(float(now[2]) - was[0]), 0.5000001 * told.mass)
            for a, b in zip(was[1:], now[3:6]):
                self.assertLessEqual(abs(float(b) - a), 0.5000001 * told.step)

    def test_an_acceleration_comes_back_in_the_tables_units(self):
        units = self.path("units")
        scene = self.writes("scene-from-table", "--units", units, "--gravity", 2, "--mass-unit", 1e-6, text="3 0 0 0\n1 0 4 0\n")
        bodies = [(int(it.split(",")[1]), tuple(map(int, it.split(",")[2:]))) for it in scene.split()]
        for g in (1 << 32, 1 << 40):
            run = "".join(reference.run(bodies, g=g))
            rows = [line.split() for line in self.writes("table-from-run", "--units", units, "--g", g, text=run).splitlines()]
            self.assertEqual(rows[0], ["#", "step", "body", "x", "y", "z", "ax", "ay", "az"])
            self.assertAlmostEqual(float(rows[1][6]), 2 * 1 / 16, delta=1e-3 if g == 1 << 32 else 4e-6)
            self.assertAlmostEqual(float(rows[2][6]), -2 * 3 / 16, delta=1e-3 if g == 1 << 32 else 4e-6)

    def test_the_time_of_a_step(self):
        # Twice the acceleration of one mass at one length: the time in which that makes one step a step is the square root of 2.
        self.assertAlmostEqual(tables.Units(step=2.0, mass=4.0, gravity=1.0).time(1 << 32), math.sqrt(2))
        self.assertAlmostEqual(tables.Units(step=2.0, mass=4.0, gravity=1.0).time(1 << 34), 2 * math.sqrt(2))

    def test_the_words_of_a_run(self):
        words = ["--step", 2, "--mass-unit", 4, "--time-step", 2 * math.sqrt(2), "--softening", 200]
        _, told = self.ends(0, "scene-from-table", *words, text="8 0 0 0\n")
        self.assertIn("the run wants the words --g %d --eps2 10000\n" % (1 << 34), told)
        self.refuses("--g 8.79609e+12", "scene-from-table", "--step", 2, "--mass-unit", 4, "--time-step", 64, text="8 0 0 0\n")

    def test_spaces_tabs_commas_names_and_numbers_of_columns(self):
        wanted = self.writes("scene-from-table", text="3 1 2 3\n5 4 5 6.5\n")
        self.assertEqual(wanted.count("body"), 2)
        for text, columns in (("3\t1\t2\t3\n\n5\t4\t5\t6.5", None), ("3,1, 2 ,3\n# a remark\n5,4,5,6.5 # another\n", None),
                              ("z,id,M,y,x\n3,1,3,2,1\n6.5,2,5,5,4\n", None), ("# id m x y z\n1 3 1 2 3\n2 5 4 5 65d-1\n", None),
                              ("9 3 1 2 3\r\n9 5 4 5 6.5\r\n", "2,3,4,5"), ("weight a b c\n3 1 2 3\n5 4 5 6.5\n", "weight,a,b,c")):
            with self.subTest(text):
                self.assertEqual(self.writes("scene-from-table", *(["--columns", columns] if columns else []), text=text), wanted)

    def test_a_given_box_or_step(self):
        self.assertEqual(self.writes("scene-from-table", "--box", -1, 1, text="1 -1 0 1\n"), "body,1,0,1048576,2097151\n")
        self.assertEqual(self.writes("scene-from-table", "--step", 0.5, "--origin", 0, 0, -1e0, text="7 3 2 1\n"), "body,7,6,4,4\n")
        self.assertEqual(self.writes("scene-from-table", "--step", 2, "--mass", 9, text="3 2 1\n5 2 1\n"),
                         "body,9,1048576,1048576,1048576\nbody,9,1048577,1048576,1048576\n")

    def test_bodies_at_one_place_get_the_nearest_free_points(self):
        scene, told = self.ends(0, "scene-from-table", "--step", 1, "--origin", 0, 0, 0, text="1 9 9 9.25\n" * 27)
        points = points_of(scene)
        near = sorted(math.dist((x, y, z), (9, 9, 9.25)) for x in range(5, 14) for y in range(5, 14) for z in range(5, 14))
        self.assertEqual([round(math.dist(it, (9, 9, 9.25)), 6) for it in points], [round(it, 6) for it in near[:27]])
        self.assertIn("26 not on the nearest grid point", told)
        # Also at a corner, where most of the neighbours are outside.
        corner = self.writes("scene-from-table", "--step", 1, "--origin", 0, 0, 0, text="1 0 0 0\n" * 4)
        self.assertEqual(sorted(points_of(corner)), [(0, 0, 0), (0, 0, 1), (0, 1, 0), (1, 0, 0)])

    def test_masses_stay_or_come_closest_to_the_limits(self):
        self.assertEqual([it.split(",")[1] for it in self.writes("scene-from-table", text="7 0 0 0\n4294967295 1 0 0\n").split()], ["7", "4294967295"])
        scene, told = self.ends(0, "scene-from-table", text="0.25 0 0 0\n0.75 1 0 0\n")
        self.assertEqual([it.split(",")[1] for it in scene.split()], ["1073741824", "3221225472"])
        self.assertIn("no mass was rounded", told)

    def test_refusals(self):
        for why, text, words in (("line 2: z is 'x'", "1 0 0 0\n1 0 0 x\n", []), ("line 1: it has 3 fields", "1 0 0\n", []),
                                 ("line 2: the mass is 0", "1 1 0 0\n0 0 0 0\n", []), ("line 1: x is 'nan'", "1 nan 0 0\n", []),
                                 ("has no bodies", "# nothing\n", []), ("no column is named 'q'", "m x y z\n1 2 3 4\n", ["--columns", "m,x,y,q"]),
                                 ("no column is named 'mass'", "w x y z\n1 2 3 4\n", []), ("outside the grid", "1 5 0 0\n", ["--box", 0, 1]),
                                 ("is 0.1 of the unit 10", "1 0 0 0\n", ["--mass-unit", 10]), ("2.15e-21 of the unit", "1e-30 0 0 0\n1 1 0 0\n", []),
                                 ("too far for --greatest-shift", "1 5 5 5\n" * 200, ["--step", 1, "--greatest-shift", 2]),
                                 ("exclude each other", "1 0 0 0\n", ["--box", 0, 1, "--step", 1]), ("isn't below", "1 0 0 0\n", ["--box", 1, 1]),
                                 ("at most 65536 bodies", "1 0 0 0\n" * 65537, [])):
            with self.subTest(why):
                self.refuses(why, "scene-from-table", *words, text=text)
        self.refuses("No such file", "scene-from-table", "missing.txt")
        self.refuses("has no units", "table-from-run", "--units", self.write("units", "{}"), text="")


class FromRuns(Tools):
    def test_every_body_of_every_frame(self):
        bodies = [(8, (1000, 1000, 1000)), (1, (1004, 1000, 1000))]
        run = "".join(reference.run(bodies, steps=3))
        rows = [line.split() for line in self.writes("table-from-run", text=run).splitlines()[1:]]
        self.assertEqual([it[:2] for it in rows], [["0", "0"], ["0", "1"], ["1", "0"], ["1", "1"], ["2", "0"], ["2", "1"]])
        self.assertEqual(rows[0][2:], ["1000.0", "1000.0", "1000.0", "0.0625", "0.0", "0.0"])
        self.assertEqual(rows[1][5], "-0.5")
        alone = self.writes("table-from-run", "--frame", 2, text=run).splitlines()[1:]
        self.assertEqual([it.split() for it in alone], rows[4:])

    def test_refusals(self):
        run = "".join(reference.run([(8, (0, 0, 0)), (1, (4, 0, 0))], steps=2))
        for why, text in (("in the middle of a line", run[:-1]), ("frame 1 isn't whole", "".join(run.splitlines(True)[:-1])),
                          ("the program wrote 'refused too-long'", "refused too-long\n"), ("the program wrote 'usage:", "usage: nbody\n"),
                          ("is not of the form", run.replace("met 1", "met")), ("'hello' is not of the form 'frame %'", "hello\n"),
                          ("is not body 0", run.replace("acc 0", "acc 3")), ("no accelerations", "frame 0\ntree b0\ncells 0 depth 0\n"),
                          ("is empty", ""), ("frame 3 follows frame 0", run.replace("frame 1", "frame 3"))):
            with self.subTest(why):
                written, told = self.ends(2, "table-from-run", text=text)
                self.assertIn(why, told)
                self.assertEqual(told.count("\n"), 1)

    def test_records_of_odd_bytes(self):
        for data, records in ((b"", []), (b"\r\n\n\r", []), (b'""', [[b""]]), (b'"', [[b""]]), (b"a,", [[b"a", b""]]), (b'"bo"dy,"1"0', [[b"body", b"10"]]),
                              (b'"a""b",c\r\n\n\rd', [[b'a"b', b"c"], [b"d"]]), (b'"a,\nb\r', [[b"a,\nb\r"]]), (b'a"b,"c""', [[b'a"b', b'c"']]),
                              (b"\xef\xbb\xbf\xef\xbb\xbfbody", [[b"\xef\xbb\xbfbody"]]), (b",\n\xff\0", [[b"", b""], [b"\xff\0"]])):
            self.assertEqual(list(scenes.records_of(data)), records, data)

    def test_the_line_of_the_first_fault(self):
        three, far = "body,1,0,0,0\nbody,1,1,0,0\nbody,1,2,0,0\n", "9" * 5000
        for line, text in (("bad-record 4", three + "bodies,1,1\n"), ("bad-number 1 5", "body,0,0,0,x\n"), ("out-of-range 1 2", "body,0,%s,0,0\n" % far),
                           ("out-of-range 4 3", three + "move,9,%s,0,0\n" % far), ("coincident 5 1 3", three + "pass\nbody,1,1,0,0\n"),
                           ("body-after-move 5", three + "move,1,5,5,5\nbody,1,5,5,5\n"), ("unknown-body 4", three + "move,3,5,5,5\n"),
                           ("moved-twice 5 2", three + "move,2,5,5,5\nmove,2,6,6,6"), ("pass-coincident 5 0 2", three + "move,2,0,0,0"),
                           ("pass-coincident 6 1 2", three + "move,1,7,7,7\nmove,2,7,7,7\npass\n"), ("too-many 1028", three + "pass\n" * 1025),
                           ("too-many 1029", three + "pass\n" * 1024 + "move,2,0,0,0"),
                           ("mass-total 257", "".join("body,4294967295,%d,0,0\n" % n for n in range(257)))):
            with self.assertRaises(scenes.Fault) as caught:
                scenes.read_scene(text, "the scene")
            self.assertEqual(caught.exception.line, "refused " + line)

    def test_the_reader_of_scenes_agrees_with_the_rules(self):
        for why, text in (("record 2: it is neither", "body,1,0,0,0\nstar,1,0,0,0\n"), ("y is 'x'", "body,1,0,x,0\n"), ("mass is 0", "body,0,0,0,0\n"),
                          ("after a move or a pass", "body,1,0,0,0\npass\nbody,1,1,0,0\n"), ("no body 1", "body,1,0,0,0\nmove,1,5,5,5\npass\n"),
                          ("moved in this pass already", "body,1,0,0,0\nmove,0,1,0,0\nmove,0,2,0,0\npass\n"),
                          ("body 2 has the point of body 0", "body,1,0,0,0\nbody,1,1,0,0\nbody,1,0,0,0\n"),
                          ("after this pass bodies 0 and 1", "body,1,0,0,0\nbody,1,1,0,0\nmove,0,1,0,0\n"),
                          ("sum to 2^40", "".join("body,4294967295,%d,0,0\n" % n for n in range(257)))):
            with self.subTest(why):
                self.refuses(why, "compare-trees", "-", self.write("other", "tree b0\n"), text=text)
        self.assertEqual(points_of("body,1,0,0,0\nbody,1,1,0,0\nmove,0,1,0,0\nmove,1,0,0,0\n"), [(0, 0, 0), (1, 0, 0)])
        with open(PLUMMER, encoding="ascii") as source:
            self.assertEqual(len(points_of(source.read())), 4096)
