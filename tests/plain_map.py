"""A map that scans plain lists: what the library, and Redis with it, must answer. It takes lines that say a command."""

import random


class PlainMap:
    def __init__(self):
        # Each layer by name: its kind, its indexes, and its live items in order of adds and moves.
        self.layers = {}

    def answer(self, line):
        word, name, *rest = line.split()
        if word == "livemap":
            return "no version" if self.layers else "ok"
        if word == "layer":
            return self.make(name, rest[0], rest[1:])
        if name not in self.layers:
            return "no layer"
        kind, indexes, items = self.layers[name]
        numbers = list(map(int, rest))
        if word in ("add", "seg"):
            return self.add(word, kind, items, *numbers)
        if word == "move":
            return self.move(kind, items, *numbers)
        if word in ("drop", "get"):
            return self.one(word, items, *numbers)
        if word == "size":
            return f"size {len(items)}"
        if word == "recent":
            return told(word, list(items)[: -numbers[0] - 1 : -1])
        return self.ask(word, kind, indexes, items, *numbers)

    def make(self, name, kind, indexes):
        if name in self.layers:
            return "no taken"
        if len(self.layers) == 8:
            return "no room"
        self.layers[name] = (kind, indexes, {})
        return "ok"

    def add(self, word, kind, items, id, *numbers):
        if kind != {"add": "points", "seg": "segments"}[word]:
            return "no kind"
        if id in items:
            return f"no duplicate {id}"
        if len(items) == 65536:
            return "no full"
        items[id] = numbers
        return "ok"

    def move(self, kind, items, id, *numbers):
        if kind != "points":
            return "no kind"
        if id not in items:
            return f"no unknown {id}"
        del items[id]
        items[id] = numbers
        return "ok"

    def one(self, word, items, id):
        if id not in items:
            return f"no unknown {id}"
        numbers = items[id]
        if word == "drop":
            del items[id]
            return "ok"
        return told("get", numbers)

    def ask(self, word, kind, indexes, items, *numbers):
        index = {"count": "range", "sum": "range", "list": "range", "near": "near", "nearest": "near", "top": "top", "above": "top"}
        if kind != ("points" if word in index else "segments"):
            return "no kind"
        if index.get(word, "stab") not in indexes:
            return "no index"
        return told(word, getattr(self, word)(items, *numbers))

    @staticmethod
    def inside(items, x1, y1, x2, y2):
        return sorted(id for id, (x, y, w) in items.items() if x1 <= x <= x2 and y1 <= y <= y2)

    def count(self, items, *rect):
        return [len(self.inside(items, *rect))]

    def sum(self, items, *rect):
        return [sum(items[id][2] for id in self.inside(items, *rect))]

    def list(self, items, *rect):
        return self.inside(items, *rect)

    @staticmethod
    def nearest(items, k, x, y):
        found = sorted(((px - x) ** 2 + (py - y) ** 2, id) for id, (px, py, w) in items.items())
        return [n for distance, id in found[:k] for n in (id, distance)]

    def near(self, items, x, y):
        return self.nearest(items, 1, x, y)

    @staticmethod
    def top(items, x1, x2):
        found = [(-y, id) for id, (x, y, w) in items.items() if x1 <= x <= x2]
        return [min(found)[1], -min(found)[0]] if found else []

    @staticmethod
    def above(items, x1, x2, y1):
        return sorted(id for id, (x, y, w) in items.items() if x1 <= x <= x2 and y1 <= y)

    @staticmethod
    def stab(items, x):
        return sorted(id for id, (lo, hi, y) in items.items() if lo <= x <= hi)

    def stabcount(self, items, x):
        return [len(self.stab(items, x))]


def told(word, numbers):
    return " ".join([word, *(map(str, numbers) if numbers else ["none"])])


def random_lines(seed, count, least=0, most=200):
    """Lines about two layers of points and one of segments: updates and questions, some of them refused. Below 0 they are of version 2."""
    draw = random.Random(seed)
    yield from [f"livemap {1 if least >= 0 else 2}", "layer cars points range near top", "layer shops points near", "layer roads segments stab"]
    for _ in range(count):
        name = draw.choice(["cars", "cars", "cars", "shops", "roads", "roads", "none"])
        id = draw.randrange(300)
        a, b = sorted(draw.choices(range(least, most), k=2))
        c, d = sorted(draw.choices(range(least, most), k=2))
        k, weight = draw.randrange(1, 65), draw.randrange(most)
        update = f"seg {name} {id} {a} {b} {c}" if (name == "roads") == (draw.random() < 0.9) else f"add {name} {id} {a} {c} {weight}"
        yield draw.choice([
            update, update, update, f"move {name} {id} {b} {d} {weight}", f"drop {name} {id}",
            f"count {name} {a} {c} {b} {d}", f"sum {name} {a} {c} {b} {d}",
            f"list {name} {a} {c} {b} {d}", f"near {name} {a} {c}", f"nearest {name} {k} {b} {c}", f"top {name} {a} {b}",
            f"above {name} {a} {b} {c}", f"stab {name} {a}", f"stabcount {name} {b}", f"get {name} {id}", f"size {name}",
            f"recent {name} {k}", f"layer {name} points near", f"livemap {1 + k % 2}",
        ])
