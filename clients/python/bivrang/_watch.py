"""Shows what servers hold, and how many values leave them per second, by cause.

    bivrang watch --port 7411
    bivrang watch --server sessions=/run/bivrangd/sessions --server [::1]:7412
    bivrangd --config FILE | bivrang watch
    bivrangd --config FILE >> LOG &  bivrang watch --log LOG

Each interval it sends `SYNC` to each namespace, which runs maintenance: values that were cleared or
have expired leave then, and are reported. To one that speaks memcache it sends `stats`, which tells
what was held at the last maintenance, and there are no notices. From a server's standard output it
takes the namespaces (the lines `listening NAME ADDRESS`) and counts the notices. A server whose
output goes elsewhere is watched by its addresses, without the counts.

    --server [NAME=]ADDRESS
                         watch this namespace of a running server: HOST:PORT, [IPV6]:PORT, or the
                         path of a Unix socket, from / on; may be given several times
    --port [NAME:]PORT   the same of a port of 127.0.0.1
    --log FILE           follow this file, from its beginning, instead of standard input. If it
                         shrinks, it is read from its start again. If its `listening` lines are
                         gone, name the namespaces with --port NAME:PORT or --server NAME=ADDRESS
    --interval SECONDS   the time between two tables, 2 by default
    --seconds N          exit after this time; otherwise at the end of the input, at the key q, or
                         at an interrupt
    --plain              print a table each interval; the default if standard output is no terminal
    --html FILE          write a page with pictures of the last minutes each interval
    --minutes N          how many minutes, 5 by default

After the watcher of a pipe has exited, the server continues and reports no more notices. To keep
them, let the server write to a file and use `--log`.

The status is 1 if no namespace is known (five seconds after the whole log was read, or at the end
of the input), if at first nothing answers at a `--port` or `--server`, or if what answers speaks
neither lines nor memcache: it says which namespace that is.
"""
import argparse
import collections
import curses
import html
import math
import os
import pathlib
import re
import sys
import threading
import time
from typing import (
    Any,
    Callable,
    Deque,
    Dict,
    Iterator,
    List,
    NamedTuple,
    Optional,
    Sequence,
    Tuple,
    Union,
)

from ._blocking import Client, connected
from ._errors import BadReply, BivrangError, place_of
from ._protocol import Held
from ._urls import arguments_of_place

Counts = Dict[str, int]
"""How many notices there were of each cause."""

Rates = Dict[str, float]
"""Notices per second by cause."""

Points = List[Tuple[float, Optional[float]]]
"""Moments, each with a value or a gap."""

CAUSES = ("Expired", "Explicit", "Replaced", "Size")
LISTENING = re.compile(
    rb"listening ([a-z0-9_-]{1,32}) (/.*|\[[0-9a-fA-F:.]+\]:\d{1,5}|[\d.]+:\d{1,5})"
)
STATS = re.compile(rb"STAT (curr_items|bytes) ([0-9]{1,20})\r\n")
LONGEST_STATS = 65536
NOTICE = re.compile(rb"([a-z0-9_-]{1,32}) NOTE (Expired|Explicit|Replaced|Size) ")
NAME = re.compile("[a-z0-9_-]{1,32}")
ASK_SECONDS = 2.0
FOLLOW_SECONDS = 0.2
LISTENING_SECONDS = 5.0
BARS = " ▁▂▃▄▅▆▇█"


class CannotWatch(Exception):
    """There is nothing to show; its text says why, and what helps."""


class Place(NamedTuple):
    """Where a namespace is asked."""

    host: str
    port: int

    @staticmethod
    def of(address: str) -> "Place":
        """That of an address. Raises ValueError."""
        told = arguments_of_place(address)
        return Place(told.get("host", "127.0.0.1"), told.get("port", 7411))

    def reached(self) -> "Place":
        """Where a server that listens at all addresses of its host is asked."""
        local = {"0.0.0.0": "127.0.0.1", "::": "::1"}
        return self._replace(host=local.get(self.host, self.host))

    def shown(self) -> str:
        """The port alone where the host is 127.0.0.1."""
        return str(self.port) if self.host == "127.0.0.1" else place_of(*self)

    def name(self) -> str:
        """What a namespace is called whose name is not known."""
        return f":{self.port}" if self.host == "127.0.0.1" else place_of(*self)


class Space:
    """A namespace: its name, its place, and how many notices of each cause it reported; None if
    nobody reads them."""

    def __init__(self, name: str, place: Place, is_counted: bool = True) -> None:
        self.name = name
        self.place = place
        self.counts: Optional[Counts] = dict.fromkeys(CAUSES, 0) if is_counted else None


class Board:
    """What is known of the namespaces: those named at first, and what the server's lines have
    said. One thread adds lines while another reads."""

    def __init__(self, spaces: Sequence[Space] = ()) -> None:
        self.lock = threading.Lock()
        self.spaces = {space.name: space for space in spaces}
        self.rest = b""

    def begin_anew(self) -> None:
        """The next bytes do not continue the line that was begun."""
        self.rest = b""

    def take(self, piece: bytes) -> None:
        """Adds bytes of the output. A line counts once it is complete."""
        *lines, self.rest = (self.rest + piece).split(b"\n")
        with self.lock:
            for line in lines:
                self.take_line(line)

    def take_line(self, line: bytes) -> None:
        told = NOTICE.match(line)
        if told:
            name, cause = (word.decode() for word in told.groups())
            space = self.spaces.get(name)
            if space and space.counts:
                space.counts[cause] += 1
            return
        told = LISTENING.fullmatch(line)
        if told:
            name, address = (os.fsdecode(word) for word in told.groups())
            self.spaces[name] = Space(name, Place.of(address).reached())

    def look(self) -> List[Tuple[str, Place, Optional[Counts]]]:
        """The namespaces, in the server's order: name, place, and counts by cause."""
        with self.lock:
            return [
                (space.name, space.place, space.counts and dict(space.counts))
                for space in self.spaces.values()
            ]


class Source(threading.Thread):
    """Passes the bytes of a file descriptor to a board, or another with `take` and `begin_anew`; if
    it follows, also later ones. Without a descriptor it passes nothing, and does not end."""

    def __init__(self, board: Any, descriptor: Optional[int], follows: bool) -> None:
        super().__init__(daemon=True)
        self.board, self.descriptor, self.follows = board, descriptor, follows
        self.has_caught_up = threading.Event()
        self.has_ended = threading.Event()

    def run(self) -> None:
        while self.descriptor is not None:
            piece = os.read(self.descriptor, 1 << 16)
            if piece:
                self.board.take(piece)
            elif self.follows:
                self.has_caught_up.set()
                self.begin_anew_if_cut(self.descriptor)
                time.sleep(FOLLOW_SECONDS)
            else:
                self.has_ended.set()
                return

    def begin_anew_if_cut(self, descriptor: int) -> None:
        """A file that is shorter than what was read of it was truncated."""
        if os.fstat(descriptor).st_size < os.lseek(descriptor, 0, os.SEEK_CUR):
            os.lseek(descriptor, 0, os.SEEK_SET)
            self.board.begin_anew()


class Row:
    """One namespace at one moment. None stands for what is not known."""

    def __init__(
        self,
        name: str,
        place: Place,
        held: Optional[Held],
        counts: Optional[Counts],
        rates: Optional[Rates],
    ) -> None:
        self.name, self.place, self.counts, self.rates = name, place, counts, rates
        self.values = held.values if held else None
        self.weight = held.weight if held else None

    def of_cause(self, cause: str) -> Optional[float]:
        """Notices of a cause per second."""
        return self.rates[cause] if self.rates else None

    def rate(self) -> Optional[float]:
        """Notices of all causes per second."""
        return sum(self.rates.values()) if self.rates else None


def rates_of(
    counts: Optional[Counts], before: Optional[Counts], seconds: float
) -> Optional[Rates]:
    """Notices per second by cause; None if there is nothing to compare with."""
    if counts is None or before is None or seconds <= 0:
        return None
    return {cause: max(0, counts[cause] - before[cause]) / seconds for cause in CAUSES}


def stats_at(place: Place) -> bytes:
    """What a server of memcache answers to `stats`, to its end."""
    told = b""
    with connected(place.host, place.port, ASK_SECONDS) as link:
        link.settimeout(ASK_SECONDS)
        link.sendall(b"stats\r\n")
        while told[:5] == b"STAT "[: len(told)] and not told.endswith(b"END\r\n"):
            piece = link.recv(LONGEST_STATS - len(told))
            if not piece:
                break
            told += piece
    return told


class Watcher:
    """Takes a sample of a board on each call, and keeps those of the last minutes."""

    def __init__(self, board: Board, minutes: float, interval: float) -> None:
        self.board, self.minutes, self.shortest = board, minutes, interval / 2
        self.samples: Deque[Tuple[float, List[Row]]] = collections.deque()
        self.clients: Dict[Place, Client[Any, Any]] = {}

    def held(self, name: str, place: Place) -> Optional[Held]:
        """Values and weight of the namespace at a place; None if it cannot be asked."""
        if place not in self.clients:
            self.clients[place] = Client(*place, 1, ASK_SECONDS, ASK_SECONDS)
        try:
            return self.clients[place].sync()
        except BadReply:
            return self.stats(name, place)
        except BivrangError:
            return None

    def stats(self, name: str, place: Place) -> Optional[Held]:
        """Items and bytes of a namespace that does not speak lines."""
        try:
            told = dict(STATS.findall(stats_at(place)))
        except OSError:
            return None
        if len(told) < 2:
            raise CannotWatch(
                f"what answers at {place_of(*place)} ({name}) speaks neither lines nor memcache"
            )
        return Held(int(told[b"curr_items"]), int(told[b"bytes"]))

    def sample(self) -> List[Row]:
        """Asks each namespace, and returns the rows."""
        asked = {place: self.held(name, place) for name, place, _ in self.board.look()}
        now = time.monotonic()
        last, rows = self.earlier(now)
        before = {row.name: row.counts for row in rows}
        told = [
            Row(
                name,
                place,
                asked.get(place),
                counts,
                rates_of(counts, before.get(name), now - last),
            )
            for name, place, counts in self.board.look()
        ]
        self.samples.append((now, told))
        while self.samples[0][0] < now - 60 * self.minutes:
            self.samples.popleft()
        return told

    def earlier(self, now: float) -> Tuple[float, List[Row]]:
        """The last sample that is old enough to compute a rate: its moment and rows."""
        return next(
            (sample for sample in reversed(self.samples) if now - sample[0] >= self.shortest),
            (now, []),
        )

    def history(self, name: str) -> List[Tuple[float, Row]]:
        """A namespace's rows, each with its moment, in seconds from the last sample's."""
        now = self.samples[-1][0]
        return [
            (moment - now, row) for moment, rows in self.samples for row in rows if row.name == name
        ]


# Tables.


def number(value: Optional[int]) -> str:
    """A count, or a dash."""
    return "-" if value is None else f"{value:,}"


def rate(value: Optional[float]) -> str:
    """A rate, with as many digits as are significant."""
    if value is None:
        return "-"
    return f"{value:,.0f}" if value >= 100 or value == 0 else f"{value:.1f}"


def table(rows: Sequence[Row]) -> List[str]:
    """The lines of a table: a head, and a line for each namespace."""
    head = ["NAMESPACE", "PLACE", "VALUES", "WEIGHT"] + [f"{cause.upper()}/s" for cause in CAUSES]
    cells = [
        [row.name, row.place.shown(), number(row.values), number(row.weight)]
        + [rate(row.of_cause(cause)) for cause in CAUSES]
        for row in rows
    ]
    widths = [max(len(line[column]) for line in [head, *cells]) for column in range(len(head))]
    return [
        "  ".join(
            cell.ljust(width) if column == 0 else cell.rjust(width)
            for column, (cell, width) in enumerate(zip(line, widths))
        )
        for line in [head, *cells]
    ]


def sparks(values: Sequence[Optional[float]], width: int) -> str:
    """The last of some values as bars, the highest of them at full height."""
    values = values[-width:]
    most = max((value for value in values if value is not None), default=0.0)
    if most == 0:
        return "".join(" " if value is None else BARS[1] for value in values)
    steps = len(BARS) - 2
    return "".join(
        " " if value is None else BARS[1 + round(steps * value / most)] for value in values
    )


def screen_lines(watcher: Watcher, rows: Sequence[Row], width: int) -> List[str]:
    """The lines of the screen."""
    lines = [f"bivrang  {time.strftime('%H:%M:%S')}   q ends", ""]
    if not rows:
        return [*lines, "no namespace is listening yet"]
    lines += table(rows)
    if all(row.counts is None for row in rows):
        return [*lines, "", "the server's output is not read: notices are not counted"]
    label = max(len(row.name) for row in rows)
    shown = max(1, min(60, width - label - 20))
    lines += ["", f"notices a second, the last {watcher.minutes:g} minutes"]
    for row in rows:
        told = [past.rate() for _, past in watcher.history(row.name)]
        most = max((value for value in told[-shown:] if value is not None), default=None)
        lines.append(f"{row.name.ljust(label)}  {sparks(told, shown)}  up to {rate(most)}")
    return lines


# The page.

COLOURS = {"Expired": "#2b8cd6", "Explicit": "#009e73", "Replaced": "#e69f00", "Size": "#d55e00"}
HELD_COLOUR = "#8a6fd1"
WIDTH, HEIGHT = 520, 190
LEFT, RIGHT, TOP, BOTTOM = 62, 12, 12, 26

STYLE = """
:root { color-scheme: light dark; --ink: #1c1c1c; --soft: #666; --line: #ddd; --page: #fff; }
@media (prefers-color-scheme: dark) {
  :root { --ink: #e8e8e8; --soft: #a0a0a0; --line: #3a3a3a; --page: #161616; }
}
body { font: 15px/1.4 system-ui, sans-serif; color: var(--ink); background: var(--page);
  max-width: 1120px; margin: 2rem auto; padding: 0 1rem; }
h1 { font-size: 1.4rem; margin: 0; }
h2 { font-size: 1.1rem; margin: 2rem 0 .4rem; }
p { color: var(--soft); margin: .2rem 0 1rem; }
table { border-collapse: collapse; width: 100%; font-variant-numeric: tabular-nums; }
th, td { text-align: right; padding: .3rem .6rem; border-bottom: 1px solid var(--line); }
th { font-weight: 600; color: var(--soft); }
th:first-child, td:first-child { text-align: left; }
.wide { overflow-x: auto; }
.pictures { display: flex; flex-wrap: wrap; gap: 1rem; }
figure { flex: 1 1 440px; margin: 0; min-width: 0; }
figcaption { color: var(--soft); display: flex; flex-wrap: wrap; gap: .2rem 1rem; }
figcaption b { color: var(--ink); font-weight: 600; }
.key { display: inline-block; width: .9em; height: .3em; vertical-align: middle;
  margin-right: .35em; }
svg { width: 100%; height: auto; display: block; }
svg text { font: 12px system-ui, sans-serif; fill: var(--soft); }
.grid { stroke: var(--line); }
.series { fill: none; stroke-width: 2; stroke-linejoin: round; stroke-linecap: round; }
"""


def ceiling(most: float) -> int:
    """The smallest of 2, 4, 10, 20, 40, 100 .. that is not below a number. Half of it is whole."""
    if most <= 2:
        return 2
    power: int = 10 ** math.floor(math.log10(most))
    return next(factor * power for factor in (1, 2, 4, 10) if factor * power >= most)


def runs(points: Points) -> Iterator[List[Tuple[float, float]]]:
    """Splits points into runs without a gap; a gap is a point whose value is None."""
    run: List[Tuple[float, float]] = []
    for moment, value in points:
        if value is None:
            if run:
                yield run
            run = []
        else:
            run.append((moment, value))
    if run:
        yield run


def span_label(seconds: float) -> str:
    """A time before now."""
    if seconds == 0:
        return "now"
    return f"{seconds / 60:g} min ago" if seconds >= 60 else f"{seconds:g} s ago"


def picture(title: str, series: Sequence[Tuple[str, Points]], span: float) -> str:
    """An SVG picture of series over the last seconds of a span: pairs of a colour and points."""
    told = [value for _, points in series for _, value in points if value is not None]
    most = ceiling(max(told, default=0))
    wide, high = WIDTH - LEFT - RIGHT, HEIGHT - TOP - BOTTOM

    def place(moment: float, value: float) -> Tuple[float, float]:
        return LEFT + wide * (1 + moment / span), TOP + high * (1 - value / most)

    parts = []
    for step in (0, most / 2, most):
        _, y = place(0, step)
        ends = f'x1="{LEFT}" x2="{WIDTH - RIGHT}" y1="{y:.1f}" y2="{y:.1f}"'
        parts.append(f'<line class="grid" {ends}/>')
        parts.append(f'<text x="{LEFT - 8}" y="{y + 4:.1f}" text-anchor="end">{step:,g}</text>')
    for part, anchor in ((1, "start"), (0.5, "middle"), (0, "end")):
        x, _ = place(-part * span, 0)
        where = f'x="{x:.1f}" y="{HEIGHT - 6}" text-anchor="{anchor}"'
        parts.append(f"<text {where}>{span_label(part * span)}</text>")
    for colour, points in series:
        for run in runs(points):
            # A run of one point is a line of no length, which shows as a dot.
            drawn = run if len(run) > 1 else run * 2
            text = " ".join("{:.1f},{:.1f}".format(*place(*point)) for point in drawn)
            parts.append(f'<polyline class="series" stroke="{colour}" points="{text}"/>')
    shape = f'viewBox="0 0 {WIDTH} {HEIGHT}" role="img" aria-label="{title}"'
    return f"<svg {shape}>{''.join(parts)}</svg>"


def figure(
    title: str,
    keys: Sequence[Tuple[str, str]],
    series: Sequence[Tuple[str, Points]],
    span: float,
) -> str:
    """A picture with its title and the keys of its colours."""
    marks = "".join(
        f'<span><i class="key" style="background:{colour}"></i>{html.escape(text)}</span>'
        for colour, text in keys
    )
    caption = f"<figcaption><b>{title}</b>{marks}</figcaption>"
    return f"<figure>{caption}{picture(title, series, span)}</figure>"


def section(watcher: Watcher, row: Row) -> str:
    """The pictures of a namespace."""
    past, span = watcher.history(row.name), 60 * watcher.minutes
    causes: List[Tuple[str, Points]] = [
        (COLOURS[cause], [(moment, one.of_cause(cause)) for moment, one in past])
        for cause in CAUSES
    ]
    keys = [(COLOURS[cause], cause) for cause in CAUSES]
    held: List[Tuple[str, Points]] = [(HELD_COLOUR, [(moment, one.values) for moment, one in past])]
    return (
        f"<h2>{html.escape(row.name)}</h2><div class='pictures'>"
        + figure("Notices a second", keys, causes, span)
        + figure("Values held", [], held, span)
        + "</div>"
    )


def page(watcher: Watcher, rows: Sequence[Row], refresh: Optional[float]) -> str:
    """The page; if refresh is a number, a browser reloads it after that many seconds."""
    again = f'<meta http-equiv="refresh" content="{refresh:g}">' if refresh else ""
    head = "".join(
        f"<th>{text}</th>" for text in ("Namespace", "Place", "Values", "Weight", *CAUSES)
    )
    body = "".join(
        "<tr>" + "".join(f"<td>{html.escape(cell)}</td>" for cell in cells) + "</tr>"
        for cells in (
            [row.name, row.place.shown(), number(row.values), number(row.weight)]
            + [number(row.counts[cause] if row.counts else None) for cause in CAUSES]
            for row in rows
        )
    )
    return (
        f'<!DOCTYPE html><html lang="en"><head><meta charset="utf-8">{again}'
        f'<meta name="viewport" content="width=device-width"><title>bivrang</title>'
        f"<style>{STYLE}</style></head><body><h1>bivrang</h1>"
        f"<p>{time.strftime('%Y-%m-%d %H:%M:%S')}. The last four columns count notices.</p>"
        f"<div class='wide'><table><tr>{head}</tr>{body}</table></div>"
        + "".join(section(watcher, row) for row in rows)
        + "</body></html>\n"
    )


def write_page(file: pathlib.Path, text: str) -> None:
    """Writes a file so that a reader sees either the old or the new one."""
    beside = file.with_name(file.name + ".new")
    beside.write_text(text, encoding="utf-8")
    beside.replace(file)


# The loop.

NO_LISTENING = (
    "line `listening NAME ADDRESS`; name the namespaces with --port NAME:PORT or"
    " --server NAME=ADDRESS"
)


class Loop:
    """Takes a sample in each interval, until it is time to end."""

    def __init__(self, watcher: Watcher, source: Source, words: argparse.Namespace) -> None:
        self.watcher, self.source, self.words = watcher, source, words
        seconds: Optional[float] = words.seconds
        self.ends = None if seconds is None else time.monotonic() + seconds

    def is_over(self) -> bool:
        is_late = self.ends is not None and time.monotonic() >= self.ends
        return is_late or self.source.has_ended.is_set()

    def samples(self, wait: Callable[[float], bool]) -> Iterator[List[Row]]:
        """Yields rows; `wait` waits some seconds, and returns whether to end."""
        if self.words.log:
            self.source.has_caught_up.wait()
            self.wait_for_a_namespace()
        is_first = True
        while True:
            # What ends in the meantime is sampled once more.
            is_last = self.is_over()
            rows = self.watcher.sample()
            self.look_at(rows, is_first, is_last)
            is_first = False
            if self.words.html:
                refresh = None if is_last else self.words.interval
                write_page(self.words.html, page(self.watcher, rows, refresh))
            yield rows
            if is_last or wait(self.seconds_to_wait()):
                return

    def wait_for_a_namespace(self) -> None:
        """A server that has just started may not have listed its ports yet."""
        until = time.monotonic() + LISTENING_SECONDS
        while not self.watcher.board.look() and time.monotonic() < until:
            if self.is_over():
                break
            time.sleep(FOLLOW_SECONDS)
        if not self.watcher.board.look():
            raise CannotWatch(f"{self.words.log} has no {NO_LISTENING}")

    def look_at(self, rows: Sequence[Row], is_first: bool, is_last: bool) -> None:
        """Refuses rows from which nothing can be seen."""
        if is_last and not rows:
            raise CannotWatch(f"the input had no {NO_LISTENING}")
        silent = [row.place for row in rows if row.values is None]
        if is_first and self.words.server and silent:
            raise CannotWatch(f"nothing answers SYNC at {place_of(*silent[0])}")

    def seconds_to_wait(self) -> float:
        left = math.inf if self.ends is None else self.ends - time.monotonic()
        interval: float = self.words.interval
        return max(0, min(interval, left))


def show_plain(loop: Loop) -> None:
    def wait(seconds: float) -> bool:
        loop.source.has_ended.wait(seconds)
        return False

    for rows in loop.samples(wait):
        print(time.strftime("%H:%M:%S"), *table(rows), "", sep="\n", flush=True)


def show_screen(window: Any, loop: Loop) -> None:
    curses.use_default_colors()
    curses.curs_set(0)

    def wait(seconds: float) -> bool:
        until = time.monotonic() + seconds
        while not loop.source.has_ended.is_set():
            left = until - time.monotonic()
            if left <= 0:
                return False
            window.timeout(math.ceil(1000 * min(left, 0.2)))
            pressed = window.getch()
            if pressed in (ord("q"), ord("Q")):
                return True
            if pressed == curses.KEY_RESIZE:
                return False
        return False

    for rows in loop.samples(wait):
        height, width = window.getmaxyx()
        window.erase()
        for place, line in enumerate(screen_lines(loop.watcher, rows, width)[:height]):
            is_head = place == 0 or line.startswith("NAMESPACE")
            window.addnstr(place, 0, line, width - 1, curses.A_BOLD if is_head else curses.A_NORMAL)
        window.refresh()


def take_terminal() -> int:
    """Moves standard input, which has the server's output, to another descriptor, so that keys
    come from the terminal."""
    piped = os.dup(0)
    terminal = os.open("/dev/tty", os.O_RDONLY)
    os.dup2(terminal, 0)
    os.close(terminal)
    return piped


def open_log(file: Union[str, pathlib.Path]) -> int:
    try:
        return os.open(file, os.O_RDONLY)
    except OSError as error:
        raise CannotWatch(f"{file}: {error.strerror}") from None


def above_zero(text: str) -> float:
    value = float(text)
    if not (value > 0 and math.isfinite(value)):
        raise argparse.ArgumentTypeError("must be a number above 0")
    return value


Named = Tuple[str, Place]
"""A namespace's name, empty if it has none, and its place."""


def space_of_port(text: str) -> Named:
    """A namespace from `PORT` or `NAME:PORT`."""
    name, colon, port = text.rpartition(":")
    is_port = port.isascii() and port.isdigit() and 1 <= int(port) <= 65535
    if not is_port or colon and not NAME.fullmatch(name):
        raise argparse.ArgumentTypeError("must be PORT or NAME:PORT")
    return name, Place("127.0.0.1", int(port))


def space_of_address(text: str) -> Named:
    """A namespace from `ADDRESS` or `NAME=ADDRESS`."""
    name, equals, address = text.partition("=")
    if not equals or name.startswith("/"):
        name, address = "", text
    try:
        if not address or equals and name and not NAME.fullmatch(name):
            raise ValueError
        return name, Place.of(address)
    except ValueError:
        raise argparse.ArgumentTypeError("must be ADDRESS or NAME=ADDRESS") from None


def read_words(words: Optional[Sequence[str]]) -> argparse.Namespace:
    parser = argparse.ArgumentParser(
        prog="bivrang watch",
        description=__doc__,
        formatter_class=argparse.RawDescriptionHelpFormatter,
        add_help=False,
    )

    def add(name: str, **options: Any) -> None:
        parser.add_argument(name, help=argparse.SUPPRESS, **options)

    add("--help", action="help")
    add("-h", action="help")
    add("--port", type=space_of_port, action="append", dest="server", default=[])
    add("--server", type=space_of_address, action="append", default=[])
    add("--log", type=pathlib.Path)
    add("--interval", type=above_zero, default=2.0)
    add("--seconds", type=above_zero)
    add("--plain", action="store_true")
    add("--html", type=pathlib.Path)
    add("--minutes", type=above_zero, default=5.0)
    told = parser.parse_args(words)
    if told.log and not all(name for name, _ in told.server):
        parser.error(
            "with --log a namespace needs its name: --port NAME:PORT or --server NAME=ADDRESS"
        )
    if not told.server and not told.log and sys.stdin.isatty():
        parser.error(
            "name a port with --port or a server with --server, pipe the server's output in, or"
            " name a file that contains it with --log"
        )
    return told


def open_source(words: argparse.Namespace, is_plain: bool) -> Optional[int]:
    """The descriptor of the server's output, or None if only servers are asked."""
    if words.log:
        return open_log(words.log)
    if words.server:
        return None
    return 0 if is_plain else take_terminal()


def show(words: argparse.Namespace) -> None:
    is_plain = words.plain or not sys.stdout.isatty()
    named = [Space(name or place.name(), place, bool(words.log)) for name, place in words.server]
    board = Board(named)
    source = Source(board, open_source(words, is_plain), bool(words.log))
    source.start()
    loop = Loop(Watcher(board, words.minutes, words.interval), source, words)
    if is_plain:
        show_plain(loop)
    else:
        curses.wrapper(show_screen, loop)


def main(words: Optional[Sequence[str]] = None) -> None:
    """Watches as the words say, by default those of the command. Ends the program."""
    try:
        show(read_words(words))
    except CannotWatch as why:
        sys.exit(f"watch: {why}")
    except KeyboardInterrupt:
        sys.exit(130)
    except BrokenPipeError:
        # Nobody reads the tables any more, and Python must not flush again at exit.
        os._exit(1)
