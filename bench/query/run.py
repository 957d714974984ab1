#!/usr/bin/env python3
"""Measures a program on the tables and plans of make_inputs.py, with the peer beside it, and other tools for scale.

    run.py [--times N] [--rows N] [--stages] [PROGRAM WORD..]

PROGRAM is run as `PROGRAM WORD.. query PLAN DATA`; without it that is ./arrowmem at the top of the repository, which is proved and
built first where it isn't yet. The peer is compiled into a temporary folder; first both have to answer two small queries byte for byte
(`worked/`). The programs take turns, and each figure is the least of N runs (default 5): processor time in user and system mode, and the
peak of resident memory. What program and peer print is compared byte by byte, and the answers of the other tools with theirs.
With --stages the peer alone is measured, stage by stage.
"""

import argparse
import filecmp
import itertools
import os
import shutil
import subprocess
import sys
import tempfile

from make_inputs import PLANS

HERE = os.path.dirname(os.path.abspath(__file__))
sys.path.insert(0, os.path.dirname(HERE))
import measuring

# Each stage does what the one before it does, and something more.
STAGES = [("rows", "read"), ("stored", "and stored"), ("back", "and read back"), ("query", "the query")]

# The queries of the narrow table as other tools have them, without accounts, batches and a report.
GROUP_CSV = """import csv, sys
sums = {}
for key, a, b in list(csv.reader(open(sys.argv[1], newline="")))[1:]:
    if int(a) >= -500:
        sum_of = sums.setdefault(key, [0, 0])
        sum_of[0] += int(a)
        sum_of[1] += int(b or 0)
print("key,sum_a,sum_b")
for key in sorted(sums):
    print(key, *sums[key], sep=",")
"""
SELECT_CSV = """import csv, sys
print("key,b")
for key, a, b in list(csv.reader(open(sys.argv[1], newline="")))[1:]:
    if int(a) >= -500:
        print(key, b, sep=",")
"""
GROUP_AWK = """BEGIN { print "key,sum_a,sum_b" }
NR > 1 && $2 >= -500 { a[$1] += $2; b[$1] += $3 }
END { for (key in a) printf "%s,%d,%d\\n", key, a[key], b[key] | "sort" }"""
SELECT_AWK = 'NR == 1 || $2 >= -500 { print $1 "," $3 }'
TABLE_SQL = ["create table t (key text, a int, b int)", ".import --csv --skip 1 {} t", ".headers on", ".mode csv"]
GROUP_SQL = "select key, sum(a) as sum_a, sum(cast(b as int)) as sum_b from t where a >= -500 group by key order by key"
SELECT_SQL = "select key, b from t where a >= -500 order by rowid"


def others(plan, table):
    """The commands of the other tools that are there, by their names."""
    if not plan.startswith("narrow"):
        return {}
    awk, script, sql = (GROUP_AWK, GROUP_CSV, GROUP_SQL) if plan.endswith("group") else (SELECT_AWK, SELECT_CSV, SELECT_SQL)
    made = {"Python's csv": [sys.executable, "-c", script, table]}
    if shutil.which("mawk"):
        made["mawk"] = ["mawk", "-F,", awk, table]
    if shutil.which("sqlite3"):
        opened = [word for line in TABLE_SQL for word in ("-cmd", line.format(table))]
        made["sqlite3"] = ["sqlite3", ":memory:", *opened, sql]
    return made


def print_to(output, command):
    with open(output, "wb") as out:
        subprocess.run(command, stdin=subprocess.DEVNULL, stdout=out, check=True)


def check(program):
    """Stops where a program answers a small query with other bytes than those that were found by hand."""
    worked = os.path.join(HERE, "worked")
    for plan in sorted(name for name in os.listdir(worked) if name.endswith(".toml")):
        command = [*program, "query", os.path.join(worked, plan), os.path.join(worked, "rain.csv")]
        answer = subprocess.run(command, stdin=subprocess.DEVNULL, capture_output=True, check=False).stdout
        with open(os.path.join(worked, plan.replace(".toml", ".answer")), "rb") as wanted:
            if answer != wanted.read():
                sys.exit(f"{plan}: {program[0]} answers other bytes")


def least(commands, times):
    """For each command the least time and the least peak of its runs; the commands take turns."""
    runs = [[measuring.run_once(command, subprocess.DEVNULL) for command in commands] for _ in range(times)]
    return [[min(figures) for figures in zip(*of_one)] for of_one in zip(*runs)]


def print_row(cells):
    print("| " + " | ".join(cells) + " |", flush=True)


def print_heads(heads):
    print_row(heads)
    print("|---" * len(heads) + "|")


def files_of(folder, plan):
    return [os.path.join(folder, f"{plan}.toml"), os.path.join(folder, f"{plan.split('-')[0]}.csv")]


def is_answer(printed, output):
    """Whether a tool's output is the answer that a query printed, line by line, but for line ends and quotes round an empty field."""
    with open(printed, encoding="utf-8") as one, open(output, encoding="utf-8") as other:
        answer = itertools.takewhile(lambda line: not line.startswith("#0 "), one)
        return all(line == (told or "").replace(',""\n', ",\n") for line, told in itertools.zip_longest(answer, other))


def compare(program, peer, folder):
    """Stops where two programs print different bytes, or another tool prints another answer."""
    outputs = [os.path.join(folder, name) for name in ("program.out", "peer.out")]
    for plan in PLANS:
        files = files_of(folder, plan)
        for one, output in zip((program, peer), outputs):
            print_to(output, [*one, "query", *files])
        if not filecmp.cmp(*outputs, shallow=False):
            sys.exit(f"{plan}: the two programs print different bytes")
        for name, command in others(plan, files[1]).items():
            print_to(outputs[0], command)
            if not is_answer(outputs[1], outputs[0]):
                sys.exit(f"{plan}: {name} prints another answer")
    print("\nboth programs print the same bytes on every plan, and the others the same answers\n")


def measure(program, peer, folder, times):
    print_heads(["Plan", "program, s", "peer, s", "ratio", "program, MB", "peer, MB", "ratio"])
    for plan in PLANS:
        (time, peak), (peer_time, peer_peak) = least([[*one, "query", *files_of(folder, plan)] for one in (program, peer)], times)
        print_row([plan, f"{time:.3f}", f"{peer_time:.3f}", f"{time / peer_time:.2f}", f"{peak:.1f}", f"{peer_peak:.1f}", f"{peak / peer_peak:.2f}"])
    print()
    print_heads(["Plan", "Tool", "s", "MB"])
    for plan in PLANS:
        tools = others(plan, files_of(folder, plan)[1])
        for name, (time, peak) in zip(tools, least(list(tools.values()), times)):
            print_row([plan, name, f"{time:.3f}", f"{peak:.1f}"])


def measure_stages(peer, folder, times):
    print_heads(["Plan"] + [f"{what}, s" for _, what in STAGES] + ["the query, MB"])
    for plan in PLANS:
        figures = least([[*peer, stage, *files_of(folder, plan)] for stage, _ in STAGES], times)
        print_row([plan] + [f"{time:.3f}" for time, _ in figures] + [f"{figures[-1][1]:.1f}"])


def built_program():
    """The launcher as a command, after it has built the proved program: what it runs before isn't to be timed."""
    launcher = os.path.join(os.path.dirname(os.path.dirname(HERE)), "arrowmem")
    if subprocess.run([launcher, "--build"]).returncode != 0:
        sys.exit("the program isn't built: nothing to measure")
    return [launcher]


def main():
    parser = argparse.ArgumentParser(description="measures the command query beside a plain program")
    parser.add_argument("--times", type=int, default=5, help="how many runs of each (default 5)")
    parser.add_argument("--rows", type=int, default=1_000_000, help="rows of a table (default 1000000)")
    parser.add_argument("--stages", action="store_true", help="measure the peer alone, stage by stage")
    parser.add_argument("program", nargs="*", help="the program, and words before `query PLAN DATA`")
    words = parser.parse_args()
    with tempfile.TemporaryDirectory() as folder:
        peer = [measuring.compile_peer(os.path.join(HERE, "peer", "main.rs"), folder)]
        check(peer)
        # (in a process of its own, whose memory a child's peak doesn't count)
        maker = [sys.executable, os.path.join(HERE, "make_inputs.py"), folder, "--rows", str(words.rows)]
        subprocess.run(maker, check=True)
        if words.stages:
            measuring.describe_machine()
            print(f"{words.rows:,} rows, least of {words.times} runs\n")
            measure_stages(peer, folder, words.times)
            return
        program = words.program or built_program()
        check(program)
        measuring.describe_machine()
        print(f"{words.rows:,} rows, least of {words.times} runs; a peak may count the {measuring.own_peak():.1f} MB of this script")
        compare(program, peer, folder)
        measure(program, peer, folder, words.times)


if __name__ == "__main__":
    main()
