#!/usr/bin/env python3
"""Makes the pictures docs/*.svg and the documents' tables of figures.json, with Python's standard library only.

    python3 benches/plots.py            makes all
    python3 benches/plots.py check      says which of them differ from what it would make; the status is then 1. The gate runs this
"""
import html
import math
import pathlib
import sys

import figures
import tables

ROOT = pathlib.Path(__file__).resolve().parent.parent
DOCUMENTS = ["benches/README.md", "docs/OPERATING.md", "docs/PROVED.md"]
INK, SOFT, LINE, PAGE = "#1c1c1c", "#5c5c5c", "#dcdcdc", "#ffffff"
COLOURS = {
    "TinyLFU": "#0072b2",
    "LRU": "#e69f00",
    "Caffeine": "#009e73",
    "plain LRU": "#8a8a8a",
    "bivrangd": "#0072b2",
    "bivrangd by the memcache protocol": "#cc79a7",
    "cached": "#56b4e9",
    "Redis": "#d55e00",
    "memcached": "#009e73",
    "plain server": "#8a8a8a",
    "the cache of one part": "#0072b2",
    "LruCache": "#8a8a8a",
    "Cache": "#e69f00",
    "ShardedCache": "#0072b2",
    "LruCache in 16 pieces": "#cc79a7",
    **{str(count): colour for count, colour in zip((1, 4, 16, 32, 64), ("#0072b2", "#56b4e9", "#009e73", "#e69f00", "#d55e00"))},
}
FONT = "font-family='Helvetica, Arial, sans-serif'"


# How wide a letter is, and how high a line stands above its foot, in parts of the font's size. Digits are a little wider than letters.
LETTER, HEIGHT = 0.53, 0.72


class Picture:
    """Shapes on a page of so many points. No two of its texts may overlap."""

    def __init__(self, width, height, title):
        self.width, self.height, self.title, self.shapes, self.texts = width, height, title, [], []

    def text(self, x, y, text, size=13, anchor="start", colour=INK, weight="normal"):
        self.shapes.append(
            f"<text x='{x:.1f}' y='{y:.1f}' font-size='{size}' text-anchor='{anchor}' fill='{colour}' "
            f"font-weight='{weight}'>{html.escape(text)}</text>"
        )
        wide = LETTER * size * len(text)
        left = x - {"start": 0, "middle": wide / 2, "end": wide}[anchor]
        box = (left, left + wide, y - HEIGHT * size, y)
        for other, (first, last, top, foot) in self.texts:
            if box[0] < last and first < box[1] and box[2] < foot and top < box[3]:
                sys.exit(f"{self.title}: {text} overlaps {other}")
        self.texts.append((text, box))

    def line(self, x1, y1, x2, y2, colour=LINE, width=1.0):
        self.shapes.append(
            f"<line x1='{x1:.1f}' y1='{y1:.1f}' x2='{x2:.1f}' y2='{y2:.1f}' stroke='{colour}' stroke-width='{width}'/>"
        )

    def bar(self, x, y, width, height, colour):
        self.shapes.append(f"<rect x='{x:.1f}' y='{y:.1f}' width='{width:.1f}' height='{max(height, 0.5):.1f}' fill='{colour}'/>")

    def keys(self, x, y, names):
        """The colours' names, side by side."""
        for name in names:
            self.bar(x, y - 9, 12, 10, COLOURS[name])
            self.text(x + 17, y, name)
            x += 17 + 8 * len(name) + 18

    def made(self, measured):
        """The picture's text, with when it was measured below."""
        self.text(self.width - 24, self.height - 10, measured, 11, "end", SOFT)
        head = f"<svg xmlns='http://www.w3.org/2000/svg' viewBox='0 0 {self.width} {self.height}' width='{self.width}' {FONT}>"
        title = f"<title>{html.escape(self.title)}</title>"
        page = f"<rect width='{self.width}' height='{self.height}' fill='{PAGE}'/>"
        return "\n".join([head, title, page, *self.shapes, "</svg>"]) + "\n"


class Panel:
    """A part of a picture with an axis from 0 up."""

    def __init__(self, picture, left, top, width, height, most, unit=""):
        self.picture, self.left, self.top, self.width, self.height = picture, left, top, width, height
        self.most, self.unit = most, unit

    def y(self, value):
        return self.top + self.height * (1 - min(value, self.most) / self.most)

    def axis(self, steps):
        for step in range(steps + 1):
            value = self.most * step / steps
            self.picture.line(self.left, self.y(value), self.left + self.width, self.y(value))
            self.picture.text(self.left - 7, self.y(value) + 4, f"{value:g}{self.unit}", 12, "end", SOFT)

    def groups(self, rows, series, label):
        """For each row a group of bars, one a series that has a value there, each with its value as `label` says it."""
        room = self.width / len(rows)
        for place, (name, values) in enumerate(rows):
            shown = [(kind, figures.middle(values[kind])) for kind in series if values.get(kind) is not None]
            wide = room * 0.78 / max(1, len(series))
            first = self.left + room * place + (room - wide * len(shown)) / 2
            for number, (kind, value) in enumerate(shown):
                x = first + wide * number
                self.picture.bar(x, self.y(value), wide - 1.5, self.top + self.height - self.y(value), COLOURS[kind])
                self.picture.text(x + wide / 2 - 0.75, self.y(value) - 4, label(value), 11, "middle", SOFT)
            self.picture.text(self.left + room * (place + 0.5), self.top + self.height + 17, name, 12.5, "middle")
        self.picture.line(self.left, self.top + self.height, self.left + self.width, self.top + self.height, SOFT)


def most_of(values, steps=5):
    """A round number above all values that parts into so many round steps."""
    most = max(values)
    power = 10 ** math.floor(math.log10(most / steps))
    step = next(factor * power for factor in (1, 2, 2.5, 4, 5, 10) if factor * power * steps >= most)
    return step * steps


RATIO_NAMES = {"tinylfu": "TinyLFU", "lru": "LRU", "caffeine": "Caffeine", "plain lru": "plain LRU"}


def ratios_at(row, capacity):
    return {shown: row.get(f"{name} {capacity}") for name, shown in RATIO_NAMES.items()}


def draw_ratios(kept, measured):
    """Hit ratios by trace, a panel a capacity."""
    capacities = sorted({int(name.split()[-1]) for row in kept.values() for name in row})
    series = ["TinyLFU", "LRU", "Caffeine"]
    picture = Picture(980, 100 + 262 * len(capacities), "Hit ratios by trace")
    picture.text(24, 34, "Hit ratios by trace", 19, weight="bold")
    picture.keys(24, 62, series)
    for place, capacity in enumerate(capacities):
        top = 112 + 262 * place
        picture.text(24, top - 18, f"capacity {capacity:,}", 14, weight="bold")
        panel = Panel(picture, 62, top, 894, 186, 100, " %")
        panel.axis(4)
        panel.groups([(name, ratios_at(row, capacity)) for name, row in kept.items()], series, lambda value: f"{value:.0f}")
    return picture.made(f"200,000 requests a trace; measured {measured}")


SERVER_NAMES = {
    "bivrangd": "bivrangd",
    "cached": "cached",
    "redis": "Redis",
    "plain": "plain server",
    "memcache": "bivrangd by the memcache protocol",
    "memcached": "memcached",
}


def draw_requests(kept, measured):
    """Processor time a request by connections, a panel a depth."""
    series = [shown for name, shown in SERVER_NAMES.items() if any(name in row for row in kept.values())]
    panels = [(1, "one request at a time"), (32, "32 requests at a time")]
    picture = tall(len(panels), "Processor time per request", "Processor microseconds per request, half SET, half GET", series)
    for place, (depth, about) in enumerate(panels):
        rows = [
            (f"{name.split()[0]} connection{'s' if name.split()[0] != '1' else ''}", {shown: row.get(known) for known, shown in SERVER_NAMES.items()})
            for name, row in kept.items()
            if name.split()[1] == str(depth)
        ]
        panel = below(picture, place, about, most_of([figures.middle(value) for _, row in rows for value in row.values() if value is not None]))
        panel.axis(5)
        panel.groups(rows, series, lambda value: f"{value:.1f}")
    return picture.made(f"medians, the kernel's part included; measured {measured}")


CACHE_NAMES = {"tiny_lfu": "the cache of one part", "caffeine": "Caffeine", "lru_cache": "LruCache"}
CALL_PANELS = [("look-up, ns", "gets zipf"), ("overwrite, ns", "writes zipf"), ("fetch, ns", "fetches zipf")]


def calls_by_size(kept, work):
    """For each number of values what a call takes, where any of the caches has a figure."""
    rows = [(f"{int(size):,}", {shown: kept[size].get(f"{name} {work}") for name, shown in CACHE_NAMES.items()}) for size in sorted(kept, key=int)]
    return [(size, row) for size, row in rows if any(value is not None for value in row.values())]


def draw_calls(kept, measured):
    """Nanoseconds a call by the number of values, a panel a call; then bytes a value."""
    panels = [(about, calls_by_size(kept, work)) for about, work in [*CALL_PANELS, ("bytes per value, in addition to key and value", "bytes")]]
    panels = [(about, rows) for about, rows in panels if rows]
    series = [shown for shown in CACHE_NAMES.values() if any(row[shown] is not None for _, rows in panels for _, row in rows)]
    picture = Picture(980, 112 + 264 * math.ceil(len(panels) / 2), "Time per call and bytes per value")
    picture.text(24, 34, "Time per call and bytes per value, by the number of values", 19, weight="bold")
    picture.keys(24, 62, series)
    for place, (about, rows) in enumerate(panels):
        left, top = 52 + 480 * (place % 2), 122 + 264 * (place // 2)
        picture.text(left - 28, top - 20, about, 14, weight="bold")
        panel = Panel(picture, left, top, 420, 186, most_of([value for _, row in rows for value in row.values() if value is not None]))
        panel.axis(5)
        panel.groups(rows, series, lambda value: f"{value:.0f}")
    return picture.made(f"one thread, keys by Zipf's law, key and value of 8 bytes; measured {measured}")


def tall(panels, title, heading, series):
    """A picture with room for so many panels below one another."""
    picture = Picture(980, 100 + 262 * panels, title)
    picture.text(24, 34, heading, 19, weight="bold")
    picture.keys(24, 62, series)
    return picture


def below(picture, place, about, most, *unit):
    """The panel at a place of a tall picture, with what it is about above it."""
    top = 112 + 262 * place
    picture.text(24, top - 18, about, 14, weight="bold")
    return Panel(picture, 62, top, 894, 186, most, *unit)


SHARED_NAMES = {"moka": "Cache", "shards": "ShardedCache", "caffeine": "Caffeine", "lru": "LruCache", "pieces": "LruCache in 16 pieces"}
WORK_NAMES = {"mix": "nine look-ups and a write, all keys held", "load": "look-ups of twice as many keys as are held, and a write after each miss"}


def draw_threads(kept, measured):
    """Million calls a second by threads, a panel a size and a work."""
    panels = {}
    timed = [(name.split(), row) for name, row in kept.items() if "moka millions" in row]
    for (work, size, count), row in timed:
        values = {shown: row.get(f"{name} millions") for name, shown in SHARED_NAMES.items()}
        panels.setdefault(f"{WORK_NAMES[work]}; {int(size):,} values", []).append((f"{count} thread{'s' * (count != '1')}", values))
    series = [shown for shown in SHARED_NAMES.values() if any(values[shown] is not None for rows in panels.values() for _, values in rows)]
    picture = tall(len(panels), "Throughput by threads", "Million calls a second by threads", series)
    for place, (about, rows) in enumerate(panels.items()):
        panel = below(picture, place, about, most_of([value for _, values in rows for value in values.values() if value]))
        panel.axis(5)
        panel.groups(rows, series, lambda value: f"{value:.1f}")
    return picture.made(f"keys by Zipf's law, key and value of 8 bytes; measured {measured}")


def draw_shards(kept, measured):
    """Hit ratios by number of shards, a panel a policy."""
    counts = sorted({name.split()[1] for row in kept.values() for name in row}, key=int)
    policies = {"tinylfu": "TinyLFU", "lru": "LRU"}
    picture = tall(len(policies), "Hit ratios by number of shards", "Hit ratios by number of shards, 5,000 values", counts)
    for place, (policy, shown) in enumerate(policies.items()):
        panel = below(picture, place, shown, 100, " %")
        panel.axis(4)
        panel.groups([(name, {count: row.get(f"{policy} {count}") for count in counts}) for name, row in kept.items()], counts, lambda value: f"{value:.0f}")
    return picture.made(f"200,000 requests a trace; measured {measured}")


PICTURES = {"hit_ratios": draw_ratios, "requests": draw_requests, "calls": draw_calls, "threads": draw_threads, "shards": draw_shards}


def all_made():
    """By path all that is made of the figures."""
    kept = figures.all_figures()
    for kind, draw in PICTURES.items():
        if any(kind != "threads" or "moka millions" in row for row in kept.get(kind, {}).values()):
            yield ROOT / f"docs/{kind}.svg", draw(kept[kind], kept["measured"][kind])
    for name in DOCUMENTS:
        yield ROOT / name, tables.filled((ROOT / name).read_text(encoding="utf-8"))


def main():
    if sys.argv[1:] not in ([], ["check"]):
        sys.exit(__doc__)
    differ = [(path, text) for path, text in all_made() if not path.exists() or path.read_text(encoding="utf-8") != text]
    for path, text in differ:
        if sys.argv[1:]:
            print(f"{path.relative_to(ROOT)} is not made of benches/figures.json; python3 benches/plots.py makes it", file=sys.stderr)
        else:
            path.write_text(text, encoding="utf-8")
    sys.exit(bool(differ and sys.argv[1:]))


if __name__ == "__main__":
    main()
