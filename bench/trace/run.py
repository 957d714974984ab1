#!/usr/bin/env python3
"""Measures a program on the long traces of make_trace.py, with the peer beside it.

    run.py [--times N] [--lines N] [--peer-alone] [PROGRAM WORD..]

PROGRAM is run as `PROGRAM WORD.. trace FILE`; without it that is ./arrowmem at the top of the repository, which is proved
and built first where it isn't yet. The peer of bench/trace/peer is compiled into a temporary folder where there is a
rustc, and else left out. The two take turns, and each figure is the least of N runs (default 5); then what they print is
compared byte by byte.
"""

import argparse
import filecmp
import os
import shutil
import subprocess
import sys
import tempfile

HERE = os.path.dirname(os.path.abspath(__file__))
sys.path.insert(0, os.path.dirname(HERE))
import measuring

# Each input, by the words that make_trace.py is given for it.
INPUTS = [
    ("an empty file", None),
    ("lone buffers: reading, names and text alone", ["--empty"]),
    ("lone buffers: the whole", []),
    ("shared chunks: reading, names and text alone", ["--shared", "--empty"]),
    ("shared chunks: the whole", ["--shared"]),
]


def run_once(command, trace, output):
    """One run over a trace: its processor time in seconds, and its peak of resident memory in MB."""
    with open(output, "wb") as out:
        return measuring.run_once(command + ["trace", trace], out)


def measure(commands, trace, times):
    """For each command the least time and the least peak of its runs; the commands take turns."""
    runs = [[run_once(command, trace, os.devnull) for command in commands] for _ in range(times)]
    return [[min(figures) for figures in zip(*of_one)] for of_one in zip(*runs)]


def cells(figures, digits, is_empty):
    """The cells of one kind of figure, and behind those of two programs their ratio."""
    made = [f"{figure:.{digits}f}" for figure in figures]
    if len(figures) == 2:
        made.append("-" if is_empty or not figures[1] else f"{figures[0] / figures[1]:.2f}")
    return made


def table(names, commands, traces, times):
    ratio = ["ratio"] if len(names) == 2 else []
    heads = ["Input"] + [f"{name}, s" for name in names] + ratio + [f"{name}, MB" for name in names] + ratio
    print("\n| " + " | ".join(heads) + " |\n" + "|---" * len(heads) + "|")
    for (what, words), trace in zip(INPUTS, traces):
        seconds, peaks = zip(*measure(commands, trace, times))
        row = [what] + cells(seconds, 3, words is None) + cells(peaks, 1, words is None)
        print("| " + " | ".join(row) + " |", flush=True)


def built_program():
    """The launcher as a command, after it has built the proved program: what it runs before isn't to be timed."""
    launcher = os.path.join(os.path.dirname(os.path.dirname(HERE)), "arrowmem")
    if subprocess.run([launcher, "--build"]).returncode != 0:
        sys.exit("the program isn't built: nothing to measure")
    return [launcher]


def write_traces(folder, lines):
    traces = []
    for number, (_, words) in enumerate(INPUTS):
        traces.append(os.path.join(folder, f"{number}.trace"))
        with open(traces[-1], "wb") as out:
            if words is not None:
                maker = [sys.executable, os.path.join(HERE, "make_trace.py"), "--lines", str(lines)]
                subprocess.run(maker + words, stdout=out, check=True)
    return traces


def compare(folder, commands, traces):
    """Stops where the two programs print different bytes."""
    outputs = [os.path.join(folder, name) for name in ("program.out", "peer.out")]
    for (what, _), trace in zip(INPUTS, traces):
        for command, output in zip(commands, outputs):
            run_once(command, trace, output)
        if not filecmp.cmp(*outputs, shallow=False):
            sys.exit(f"the two programs print different bytes on: {what}")
    print("\nboth programs print the same bytes on every input")


def main():
    parser = argparse.ArgumentParser(description="measures a program on long traces")
    parser.add_argument("--times", type=int, default=5, help="how many runs of each (default 5)")
    parser.add_argument("--lines", type=int, default=1000000, help="lines of a trace (default 1000000)")
    parser.add_argument("--peer-alone", action="store_true", help="measure the peer alone")
    parser.add_argument("program", nargs="*", help="the program, and words before `trace FILE`")
    words = parser.parse_args()
    with tempfile.TemporaryDirectory() as folder:
        commands = {}
        if not words.peer_alone:
            commands["program"] = words.program or built_program()
        if shutil.which("rustc") is None:
            print("no rustc here: the peer is left out")
        else:
            commands["peer"] = [measuring.compile_peer(os.path.join(HERE, "peer", "main.rs"), folder)]
        if not commands:
            sys.exit("nothing to measure")
        measuring.describe_machine()
        print(f"{words.lines:,} lines, least of {words.times} runs; "
              f"a peak may count the {measuring.own_peak():.1f} MB of this script", flush=True)
        traces = write_traces(folder, words.lines)
        table(list(commands), list(commands.values()), traces, words.times)
        if len(commands) == 2:
            compare(folder, list(commands.values()), traces)


if __name__ == "__main__":
    main()
