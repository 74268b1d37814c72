"""Tests of python/livemap.py. LIVEMAP_LIBRARY names the shared library, LIVEMAP_BY_PROGRAM the folder of what the program answers."""

import sys
import threading
import unittest

from made import summary
from plain_map import PlainMap, random_lines
from told import BY_PROGRAM, TOP, run

sys.path.insert(0, str(TOP / "python"))
import livemap  # noqa: E402


class Library(unittest.TestCase):
    def setUp(self):
        self.map = livemap.Map()
        self.addCleanup(self.map.close)

    def test_by_program(self):
        """Line by line and at once a map answers as the program does."""
        for script in sorted(BY_PROGRAM.glob("*.livemap")):
            wanted = script.with_suffix(".out").read_text().splitlines()
            with self.subTest(script.name), livemap.Map() as at_once, livemap.Map() as by_line:
                self.assertEqual(at_once.answer(script.read_bytes()), wanted)
                self.assertEqual([said for line in script.read_text().splitlines() if (said := by_line.line(line))], wanted)

    def test_summary(self):
        """The answers to a made script sum up to what the program says of it."""
        lines = (BY_PROGRAM / "made.livemap").read_text().splitlines()
        said = dict(line.split() for line in (BY_PROGRAM / "made.summary").read_text().splitlines())
        for word, number in summary(lines, self.map.answer(lines)).items():
            self.assertEqual(str(number), said[word], word)

    def test_points(self):
        cars = self.map.points("cars", "range", "near", "top")
        self.assertEqual((cars.near(1, 1), cars.top(0, 1), cars.list(0, 0, 9, 9), len(cars)), (None, None, [], 0))
        cars.add(1, 100, 50, 3)
        cars.add(2**64 - 1, 100, 90, 2)
        self.assertEqual(cars.count(0, 0, 400, 70), 1)
        self.assertEqual(cars.sum(0, 0, 400, 90), 5)
        self.assertEqual(cars.list(0, 0, 400, 90), [1, 2**64 - 1])
        self.assertEqual(cars.near(90, 90), livemap.Found(2**64 - 1, 100))
        self.assertEqual(cars.nearest(2, 100, 60), [(1, 100), (2**64 - 1, 900)])
        self.assertEqual(cars.top(0, 100), livemap.Peak(2**64 - 1, 90))
        self.assertEqual(cars.above(0, 400, 91), [])
        self.assertEqual(cars.get(1), livemap.Point(100, 50, 3))
        self.assertEqual(cars.recent(), [2**64 - 1, 1])
        cars.drop(1)
        self.assertEqual((len(cars), 1 in cars, 2**64 - 1 in cars), (1, False, True))

    def test_moves(self):
        cars = self.map.points("cars", "near")
        cars.add(1, 5, 5)
        cars.add(2, 9, 9)
        cars.move(1, 8, 8, 3)
        self.assertEqual((cars.near(7, 7), cars.get(1), cars.recent()), ((1, 2), livemap.Point(8, 8, 3), [1, 2]))
        self.assertRaises(livemap.UnknownId, cars.move, 3, 1, 1)

    def test_version_2(self):
        with livemap.Map(2) as town:
            cars = town.points("cars", "near", "top")
            cars.add(1, -2**31, -2**31)
            self.assertEqual(cars.near(2**31 - 1, 2**31 - 1), (1, 36893488130239234050))
            cars.move(1, -3, -4)
            self.assertEqual((cars.top(-9, 0), cars.get(1)), ((1, -4), (-3, -4, 0)))
            self.assertRaises(livemap.HasLayers, town._ask, "livemap 1")
        self.assertRaises(livemap.BadLine, livemap.Map, 3)

    def test_segments(self):
        roads = self.map.segments("roads")
        roads.add(4, 100, 400, 7)
        self.assertEqual((roads.stab(100), roads.stab_count(99), roads.get(4)), ([4], 0, livemap.Segment(100, 400, 7)))

    def test_refusals(self):
        cars, roads = self.map.points("cars", "range"), self.map.segments("roads")
        cars.add(1, 2, 2)
        nowhere = livemap.Points(self.map, "nowhere")
        for cause, call in [
            (livemap.Duplicate, lambda: cars.add(1, 3, 3)), (livemap.UnknownId, lambda: cars.drop(2)), (livemap.UnknownId, lambda: roads.get(1)),
            (livemap.NoIndex, lambda: cars.near(1, 1)), (livemap.NoLayer, lambda: nowhere.add(1, 1, 1)), (livemap.NoLayer, lambda: len(nowhere)),
            (livemap.WrongKind, lambda: livemap.Segments(self.map, "cars").stab(1)), (livemap.Taken, lambda: self.map.segments("cars")),
            (livemap.NoIndex, lambda: self.map.points("shops", "stab")), (livemap.BadLine, lambda: self.map.points("shops")),
            (livemap.BadLine, lambda: cars.add(5, 2**31, 1)), (livemap.BadLine, lambda: cars.count(2, 1, 1, 1)),
            (livemap.BadLine, lambda: cars.recent(0)), (livemap.BadLine, lambda: self.map.segments("a.b")),
        ]:
            with self.subTest(cause=cause.__name__), self.assertRaises(cause):
                call()
        with self.assertRaisesRegex(livemap.Refused, "^no duplicate 1$"):
            cars.add(1, 3, 3)
        for k in range(6):
            self.map.segments(f"layer{k}")
        self.assertRaises(livemap.NoRoom, self.map.segments, "one_more")

    def test_late_index(self):
        """A further index waits for all items, and is handed four with each update."""
        cars, roads = self.map.points("cars", "range"), self.map.segments("roads")
        for id in range(1, 11):
            cars.add(id, id, id)
        cars.add_index("near")
        for waits, update in [(10, lambda: cars.drop(1)), (6, lambda: cars.add(11, 11, 11)), (3, lambda: cars.add(12, 12, 12))]:
            for ask in (lambda: cars.near(0, 0), lambda: cars.nearest(2, 0, 0)):
                with self.subTest(waits=waits), self.assertRaisesRegex(livemap.Building, f"^no building {waits}$"):
                    ask()
            self.assertEqual(cars.count(0, 0, 99, 99), len(cars))
            update()
        self.assertEqual((cars.near(0, 0), cars.nearest(2, 12, 12)), ((2, 8), [(12, 0), (11, 2)]))
        for cause, layer, index in [
            (livemap.Taken, cars, "near"), (livemap.Taken, cars, "range"), (livemap.NoIndex, cars, "stab"), (livemap.BadLine, cars, ""),
            (livemap.WrongKind, livemap.Points(self.map, roads.name), "near"), (livemap.NoLayer, livemap.Points(self.map, "nowhere"), "near"),
        ]:
            with self.subTest(cause=cause.__name__), self.assertRaises(cause):
                layer.add_index(index)

    def test_full(self):
        cars = self.map.points("cars", "range")
        self.assertEqual(self.map.answer(f"add cars {i} {i} {i} 1" for i in range(65536)), ["ok"] * 65536)
        self.assertRaises(livemap.Full, cars.add, 65536, 1, 1)
        self.assertEqual(cars.list(0, 0, 65535, 65535), list(range(65536)))

    def test_random_lines(self):
        for seed in range(4):
            plain, lines = PlainMap(), list(random_lines(seed, 5000, -100 * (seed % 2)))
            wanted = [plain.answer(line) for line in lines]
            with self.subTest(seed=seed), livemap.Map() as at_once, livemap.Map() as by_line:
                self.assertEqual(at_once.answer(lines), wanted)
                self.assertEqual([by_line.line(line) for line in lines], wanted)

    def test_any_bytes(self):
        self.assertEqual(self.map.line(b"\x00\xff"), "no line")
        self.assertEqual(self.map.line("# größe"), "")
        self.assertEqual(self.map.line("x" * 100000), "no line")
        self.assertEqual(self.map.answer(b"size a\r\n\n\x00\nsize a"), ["no layer", "no line", "no layer"])

    def test_threads(self):
        cars = self.map.points("cars", "near")

        def add(first):
            for id in range(first, first + 1000):
                cars.add(id, id, id)
                assert cars.near(id, id) == (id, 0)

        threads = [threading.Thread(target=add, args=(1000 * k,)) for k in range(4)]
        for thread in threads:
            thread.start()
        for thread in threads:
            thread.join()
        self.assertEqual(len(cars), 4000)

    def test_close(self):
        self.map.close()
        self.map.close()
        self.assertRaises(ValueError, self.map.line, "size a")


if __name__ == "__main__":
    run("python", Library)
