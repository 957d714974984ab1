#!/usr/bin/env python3
"""Writes a long trace to standard output, the same at every call.

    make_trace.py [--shared] [--empty] [--lines N]

60 allocators stand in three levels below the root. Buffers are asked for at all of them and given back again, so that
about 1,000 are live at a time; each has a name of its own.

With --shared each chunk is passed along a chain of up to four allocators: each retains it from the one before, or has it
transferred, and gives its reference back at some time, the owner too. About 10,000 chunks are live at a time (in a short
trace one for each 100 lines), and the lines of different chunks are mixed. The last line is a report.

With --empty the lines are the same, but each buffer has 0 bytes: the same names are read, looked up and printed, and no
account changes.
"""

import argparse
import sys

LARGEST_LIMIT = 9223372036854775807
LIVE = range(900, 1100)
LIVE_SHARED = 10000
LONGEST_CHAIN = 4

# How many allocators stand below each of the level above, and what one of them reserves, in bytes.
LEVELS = [("op", 4, 268435456), ("part", 3, 4194304), ("task", None, 65536)]
ALLOCATORS = 60


class Numbers:
    """A linear congruential generator of 64 bits, of which the upper half is given."""

    def __init__(self):
        self.state = 20260101

    def below(self, bound):
        self.state = (self.state * 6364136223846793005 + 1442695040888963407) % 2**64
        return (self.state >> 32) % bound

    def one_of(self, values):
        return values[self.below(len(values))]

    def take_from(self, values):
        """One of the values, which goes; the last one takes its place."""
        place = self.below(len(values))
        values[place], values[-1] = values[-1], values[place]
        return values.pop()


def allocators():
    """The allocators as pairs of a name and a `child` line, parents first."""
    parents, made = ["ROOT"], []
    for word, count, reservation in LEVELS:
        if count is None:
            left = ALLOCATORS - len(made)
            places = [parents[n % len(parents)] for n in range(left)]
        else:
            places = [parent for parent in parents for _ in range(count)]
        level = []
        for n, parent in enumerate(places):
            name = f"{word}-{n}" if parent == "ROOT" else f"{parent}.{word}-{n}"
            # Two of three reserve; the limits are never reached.
            reserves = 0 if n % 3 == 0 else reservation
            made.append((name, f"child {name} {parent} {reserves} {1 << 50}"))
            level.append(name)
        parents = level
    return made


def buffer_name(number):
    return f"batch-{number // 16}.column-{number % 16}"


def size(numbers):
    """From 1 byte to about 2 MiB, small ones as often as large ones."""
    return (1 << numbers.below(21)) + numbers.below(1 << numbers.below(21))


def lone_lines(numbers, names, empty, count):
    """So many lines, in which each buffer has one reference."""
    live, bound = [], 0
    for _ in range(count):
        asks = len(live) < LIVE.start or (len(live) < LIVE.stop and numbers.below(2) == 0)
        if asks:
            name = buffer_name(bound)
            at, request = numbers.one_of(names), size(numbers)
            bound += 1
            live.append(name)
            yield f"buffer {name} {at} {0 if empty else request}"
        else:
            yield f"release {numbers.take_from(live)}"


def life(numbers, names, empty, name):
    """The lines of one chunk: it is asked for, goes along a chain of allocators, and is given back by all of them."""
    at, request = numbers.one_of(names), size(numbers)
    length = 0 if empty else request
    yield f"buffer {name} {at} {length}"
    # The names by which references are given back, each with the length of its range.
    held = [(name, length)]
    for link in range(numbers.below(LONGEST_CHAIN)):
        if len(held) > 1 and numbers.below(4) == 0:
            yield f"release {held.pop(numbers.below(len(held)))[0]}"
        source, length = held.pop()
        if numbers.below(8) == 0:
            start = numbers.below(length + 1)
            length = numbers.below(length - start + 1)
            part = f"{name}.part-{link}"
            yield f"slice {part} {source} {start} {length}"
            source = part
        taker = f"{name}.at-{link}"
        yield f"{numbers.one_of(['retain', 'transfer'])} {taker} {source} {numbers.one_of(names)}"
        held += [(source, length), (taker, length)]
    while held:
        yield f"release {held.pop(numbers.below(len(held)))[0]}"


def shared_lines(numbers, names, empty, count):
    """So many lines, in which chunks have several references."""
    # What is still to come of each live chunk, the next line last.
    live, bound = [], 0
    for _ in range(count):
        if len(live) < min(LIVE_SHARED, count // 100 + 1):
            lines = list(life(numbers, names, empty, buffer_name(bound)))[::-1]
            bound += 1
        else:
            lines = numbers.take_from(live)
        yield lines.pop()
        if lines:
            live.append(lines)


def trace(count, shared, empty):
    """The lines, one by one."""
    numbers = Numbers()
    made = allocators()
    names = ["ROOT"] + [name for name, _ in made]
    first = [f"root {LARGEST_LIMIT}"] + [line for _, line in made]
    last = ["tree", "report"] if shared else ["tree"]
    yield from first
    kind = shared_lines if shared else lone_lines
    yield from kind(numbers, names, empty, count - len(first) - len(last))
    yield from last


def main():
    parser = argparse.ArgumentParser(description="writes a long trace to standard output")
    parser.add_argument("--shared", action="store_true", help="with chunks that several allocators refer to")
    parser.add_argument("--empty", action="store_true", help="with each size 0")
    parser.add_argument("--lines", type=int, default=1000000, help="how many lines (default 1000000, at least 100)")
    words = parser.parse_args()
    if words.lines < 100:
        parser.error("at least 100 lines")
    for line in trace(words.lines, words.shared, words.empty):
        sys.stdout.write(line + "\n")


if __name__ == "__main__":
    main()
