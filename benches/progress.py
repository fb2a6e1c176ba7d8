"""Shows on standard error how far a benchmark is: on a terminal in one line, else in a line each ten seconds."""
import sys
import time

EACH_SECONDS = 10
shown = time.monotonic()


def show(text):
    """Shows what is done now."""
    global shown
    if sys.stderr.isatty():
        print(f"\r\x1b[K{text}", end="", file=sys.stderr, flush=True)
    elif time.monotonic() - shown >= EACH_SECONDS:
        shown = time.monotonic()
        print(text, file=sys.stderr, flush=True)


def clear():
    """Takes the line away, before a figure is printed."""
    if sys.stderr.isatty():
        print("\r\x1b[K", end="", file=sys.stderr, flush=True)
