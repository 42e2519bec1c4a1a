"""What every program here shares: faults in one line, and progress on long work."""
import argparse
import sys
import time

import netCDF4


class Fault(Exception):
    """What is wrong with an input, in words for the one who gave it."""


def parser(text, epilog=None):
    """A parser of words that prints `text`, a program's own documentation, as it stands."""
    return argparse.ArgumentParser(
        description=text, epilog=epilog, formatter_class=argparse.RawDescriptionHelpFormatter
    )


def run(main):
    """Runs `main`, and ends with one line and status 1 where an input is at fault."""
    name = sys.argv[0].rsplit("/", 1)[-1]
    try:
        main()
    except (Fault, OSError, RuntimeError) as fault:  # netCDF4's own faults are of the last kind
        sys.exit(f"{name}: {fault}")
    except MemoryError:
        sys.exit(f"{name}: no memory")
    except KeyboardInterrupt:
        sys.exit(130)


def open_file(path):
    """The netCDF file at `path`, whose values come as they stand in it: no mask, no scaling."""
    try:
        file = netCDF4.Dataset(path)
    except OSError as fault:
        raise Fault(f"{path}: {fault.strerror or fault}") from None
    file.set_auto_maskandscale(False)
    return file


def values(file, name):
    """All values of the variable `name` of an open file."""
    if name not in file.variables:
        raise Fault(f"{file.filepath()}: missing {name}")
    return file.variables[name][...]


class Progress:
    """Says on the error output how far long work is; nothing in the first two seconds."""

    def __init__(self, what, steps):
        self.what, self.steps, self.done = what, max(steps, 1), 0
        self.next = time.monotonic() + 2

    def step(self, count=1):
        self.done += count
        if time.monotonic() >= self.next:
            print(f"  {self.what}: {100 * self.done // self.steps} %", file=sys.stderr, flush=True)
            self.next = time.monotonic() + 2


def blocks(count, size, what):
    """The places from 0 to `count` in slices of `size`, with progress."""
    progress = Progress(what, count)
    for begin in range(0, count, size):
        yield slice(begin, min(begin + size, count))
        progress.step(min(size, count - begin))
