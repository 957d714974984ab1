#!/usr/bin/env python3
"""Measures charges and releases on the atomic words of acct_words, with the peer beside it.

    run.py [--times N] [--pairs N] [--folder FOLDER]

The program of bench/accounts/program is proved and built in a copy of the crates that it stands on, in a temporary folder or in
FOLDER, which is kept; a program that FOLDER has already is taken as it is. The peer is compiled beside it. The two take turns, and
each figure is the least of N runs (default 31), which are short, so that some of them run beside no other work.
"""

import argparse
import os
import shutil
import subprocess
import sys
import tempfile

HERE = os.path.dirname(os.path.abspath(__file__))
TOP = os.path.dirname(os.path.dirname(HERE))
sys.path.insert(0, os.path.dirname(HERE))
import measuring

CRATES = ["mem_num", "mem_model", "acct_core", "acct_words"]
NAME = "accounts_rate"
# What is charged, and how the programs are told: whether there are leaves, and how many allocators.
CHAINS = [(f"{levels} level{'s' if levels > 1 else ''}, all shared", 0, levels) for levels in (1, 2, 4, 8)]
LEAVES = [("a covered leaf each", 1, 5)]
THREADS = [1, 2, 4]


def build_program(folder):
    """The program, proved and built over a copy of the crates."""
    crate = os.path.join(folder, "crates", NAME)
    program = os.path.join(crate, "out", NAME)
    if os.path.exists(program):
        return program
    if shutil.which("rt") is None:
        sys.exit("'rt', the command of the Rattle kit, is not on the PATH; it proves and builds the program")
    with open(os.path.join(TOP, "crates.txt")) as lines:
        of_crates = [line for line in lines if line.split(":")[0] in CRATES]
    for name in CRATES:
        source, copy = os.path.join(TOP, "crates", name), os.path.join(folder, "crates", name)
        shutil.copytree(source, copy, ignore=shutil.ignore_patterns("out"), dirs_exist_ok=True)
    shutil.copy(os.path.join(TOP, "HANDLES"), folder)
    with open(os.path.join(folder, "crates.txt"), "w") as out:
        out.writelines(of_crates + [f"{NAME}: mem_num acct_words\n"])
    # The gate takes no source of the language outside a crate, so here these have names of their own.
    for file, place in [("main.rt.txt", "src/main.rt"), ("Invariants.antt.txt", "proofs/pairs/Invariants.antt")]:
        os.makedirs(os.path.dirname(os.path.join(crate, place)), exist_ok=True)
        shutil.copy(os.path.join(HERE, "program", file), os.path.join(crate, place))
    for lib in ("specs", "proofs"):
        os.makedirs(os.path.join(crate, lib), exist_ok=True)
        open(os.path.join(crate, lib, "Lib.antt"), "a").close()
    # (the repository's root is the nearest folder with a crates.txt, and the search ends at a .git)
    subprocess.run(["git", "init", "-q", folder], check=True)
    log = os.path.join(folder, "build.log")
    with open(log, "w") as out:
        built = subprocess.run(["rt", "run", "--jobs", "1"], cwd=crate, stdout=out, stderr=subprocess.STDOUT)
    if built.returncode != 0 or not os.path.exists(program):
        with open(log) as lines:
            sys.exit("the program isn't built:\n" + "".join(lines.readlines()[-20:]))
    return program


def run_once(program, leaves, levels, threads, pairs):
    """One run: its processor time, and the time by its own clock, in nanoseconds. Each charge has to succeed."""
    command = [program] + [str(word) for word in (leaves, levels, threads, pairs)]
    with tempfile.TemporaryFile() as out:
        seconds, _ = measuring.run_once(command, out)
        out.seek(0)
        answer = out.read().split()
    if len(answer) != 2 or int(answer[0]) != threads * pairs:
        sys.exit(f"{' '.join(command)}: answers {answer}")
    return seconds * 1e9, int(answer[1])


def table(programs, rows, times, pairs):
    heads = ["Charged at", "Threads", "program, ns of a processor", "peer, ns", "ratio of times"]
    heads += ["program, million charges a second", "peer, million", "ratio of charges"]
    print("\n| " + " | ".join(heads) + " |\n" + "|---" * len(heads) + "|")
    for what, leaves, levels in rows:
        for threads in THREADS:
            runs = [[run_once(program, leaves, levels, threads, pairs) for program in programs] for _ in range(times)]
            charges = threads * pairs
            used, clock = zip(*[[min(figure) / charges for figure in zip(*of_one)] for of_one in zip(*runs)])
            cells = [what, str(threads), f"{used[0]:.1f}", f"{used[1]:.1f}", f"{used[0] / used[1]:.2f}"]
            cells += [f"{1e3 / clock[0]:.1f}", f"{1e3 / clock[1]:.1f}", f"{clock[1] / clock[0]:.2f}"]
            print("| " + " | ".join(cells) + " |", flush=True)


def main():
    parser = argparse.ArgumentParser(description="measures charges and releases on atomic words")
    parser.add_argument("--times", type=int, default=31, help="how many runs of each (default 31)")
    parser.add_argument("--pairs", type=int, default=200_000, help="charges and releases a thread (default 200000)")
    parser.add_argument("--folder", help="where the program is built, and kept")
    words = parser.parse_args()
    with tempfile.TemporaryDirectory() as temporary:
        folder = os.path.abspath(words.folder) if words.folder else temporary
        os.makedirs(folder, exist_ok=True)
        programs = [build_program(folder), measuring.compile_peer(os.path.join(HERE, "peer", "main.rs"), folder)]
        measuring.describe_machine()
        print(f"{words.pairs:,} charges and releases a thread, least of {words.times} runs", flush=True)
        table(programs, CHAINS + LEAVES, words.times, words.pairs)
        print(f"\nload {os.getloadavg()[0]:.1f} at the end")


if __name__ == "__main__":
    main()
