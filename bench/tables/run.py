#!/usr/bin/env python3
"""Measures the proved reader of tables, beside the plain one of bench/query.

    run.py [--times N] [--rows N] [--reader PROGRAM]

The reader is a small program over the crates row_text and batch_vec (`reader.txt`, and `answers.txt`, which its proof needs). It is
proved and built in a temporary folder first, which takes some minutes; --reader takes one that was built so before, and --keep PROGRAM
keeps it. The peer is compiled there too. The programs take turns; each figure is the least of N runs (default 9), and in brackets their
median: processor time in user and system mode. For memory it is the least peak of resident memory.
"""

import argparse
import os
import shutil
import statistics
import subprocess
import sys
import tempfile

HERE = os.path.dirname(os.path.abspath(__file__))
TOP = os.path.dirname(os.path.dirname(HERE))
QUERY = os.path.join(os.path.dirname(HERE), "query")
sys.path.insert(0, os.path.dirname(HERE))
import measuring

# The crates that the reader stands on, as in crates.txt.
CRATES = [
    "mem_num:",
    "mem_buf: mem_num",
    "query_model: mem_num",
    "row_text: mem_num query_model csv itoa memchr",
    "batch_vec: mem_num mem_buf query_model row_text csv",
    "table_reader: mem_num mem_buf query_model row_text batch_vec csv",
]
NARROW = ["key:text", "a:int", "b:int"]
WIDE = ["id:int", "city:text", "day:text", "a:int", "b:int", "c:int"]
# Each table: what it is, its file, a plan of its columns for the peer, and its columns for the reader.
TABLES = [
    ("narrow", "narrow.csv", "narrow-group.toml", NARROW),
    ("narrow, with a quote in its last row", "narrow-late.csv", "narrow-group.toml", NARROW),
    ("wide, without quotes", "wide-plain.csv", "wide-1024.toml", WIDE),
    ("wide, with quotes in one row of fifty", "wide.csv", "wide-1024.toml", WIDE),
]


def reading(reader, peer, table, plan, columns):
    """Reads a table as rows, and frees them."""
    return {
        "reader": [reader, "rows", table, *columns],
        "peer": [peer, "rows", plan, table],
        "csv alone": [reader, "csv", table],
    }


def storing(reader, peer, table, plan, columns):
    """The same, and stores the rows in buffers, batch by batch, and gives each batch back."""
    return {"reader": [reader, "stored", table, *columns], "peer": [peer, "stored", plan, table]}


def reading_back(reader, peer, table, plan, columns):
    """The same, and reads each batch back from its buffers in between."""
    return {"reader": [reader, "back", table, *columns], "peer": [peer, "back", plan, table]}


STAGES = [("Reading rows", reading), ("And storing them", storing), ("And reading them back", reading_back)]


def run_once(command):
    """One run: its processor time in seconds, its peak of resident memory in MB, and what it printed."""
    with tempfile.TemporaryFile() as out:
        seconds, peak = measuring.run_once(command, out)
        out.seek(0)
        return seconds, peak, out.read()


def measure(commands, times, before):
    """For each command the least time, the median and the least peak; the commands take turns."""
    runs = [{name: run_once(before + command) for name, command in commands.items()} for _ in range(times)]
    # (how many rows; the peer adds what it read back)
    if len({turn[name][2].split()[0] for turn in runs for name in commands}) != 1:
        sys.exit("the programs print different numbers of rows")
    figures = {}
    for name in commands:
        seconds = [turn[name][0] for turn in runs]
        figures[name] = (min(seconds), statistics.median(seconds), min(turn[name][1] for turn in runs))
    return figures


def seconds(figure):
    return f"{figure[0]:.3f} ({figure[1]:.3f})" if figure else "-"


def ratio(ours, theirs):
    return f"{ours[0] / theirs[0]:.2f} ({ours[1] / theirs[1]:.2f})" if ours else "-"


def print_stage(what, stage, programs, folder, times, before):
    heads = ["Table", "reader, s", "peer, s", "ratio", "csv alone, s", "by the peer's", "reader, MB", "peer, MB"]
    print(f"\n{what}\n\n| " + " | ".join(heads) + " |\n" + "|---" * len(heads) + "|")
    for table, file, plan, columns in TABLES:
        commands = stage(*programs, os.path.join(folder, file), os.path.join(folder, plan), columns)
        figures = measure(commands, times, before)
        reader, peer, csv = (figures.get(name) for name in ("reader", "peer", "csv alone"))
        row = [table, seconds(reader), seconds(peer), ratio(reader, peer), seconds(csv), ratio(csv, peer)]
        row += [f"{reader[2]:.1f}", f"{peer[2]:.1f}"]
        print("| " + " | ".join(row) + " |", flush=True)


def build_reader(folder):
    """Proves and builds the reader in a repository of its own, over copies of the crates."""
    if shutil.which("rt") is None:
        sys.exit("'rt', the command of the Rattle kit, is not on the PATH; it proves and builds the reader")
    top = os.path.join(folder, "reader")
    for line in CRATES[:-1]:
        name = line.split(":")[0]
        without_out = shutil.ignore_patterns("out", "must-fail")
        shutil.copytree(os.path.join(TOP, "crates", name), os.path.join(top, "crates", name), ignore=without_out)
    crate = os.path.join(top, "crates", "table_reader")
    os.makedirs(os.path.join(crate, "src"))
    shutil.copy(os.path.join(HERE, "reader.txt"), os.path.join(crate, "src", "main.rt"))
    answers = os.path.join(crate, "proofs", "store", "Answers.antt")
    os.makedirs(os.path.dirname(answers))
    shutil.copy(os.path.join(HERE, "answers.txt"), answers)
    with open(os.path.join(top, "crates.txt"), "w", encoding="utf-8") as out:
        out.write("\n".join(CRATES) + "\n")
    print("the reader is proved and built, which takes some minutes ..", file=sys.stderr)
    log = os.path.join(folder, "log")
    with open(log, "wb") as out:
        made = subprocess.run(["rt", "run", "--", "csv", os.devnull], cwd=crate, stdout=out, stderr=subprocess.STDOUT)
    if made.returncode != 0:
        with open(log, encoding="utf-8", errors="replace") as lines:
            sys.exit("the reader isn't built:\n" + "".join(lines.readlines()[-20:]))
    return os.path.join(crate, "out", "table_reader")


def write_tables(folder, rows):
    # (in a process of its own, whose memory a child's peak doesn't count)
    maker = [sys.executable, os.path.join(QUERY, "make_inputs.py"), folder, "--rows", str(rows)]
    subprocess.run(maker, check=True)
    with open(os.path.join(folder, "narrow.csv"), "rb") as table, open(os.path.join(folder, "narrow-late.csv"), "wb") as out:
        shutil.copyfileobj(table, out)
        out.write(b'"k0",0,0\n')
    with open(os.path.join(folder, "wide-group.toml")) as plan, open(os.path.join(folder, "wide-1024.toml"), "w") as out:
        out.write(plan.read().replace("batch = 4096", "batch = 1024"))
    with open(os.path.join(folder, "wide.csv"), "rb") as table, open(os.path.join(folder, "wide-plain.csv"), "wb") as out:
        last = b""
        for line in table:
            last = last if b'"' in line else line
            out.write(last)


def first_words():
    """What goes before a command, so that other work doesn't interrupt it, where that is allowed."""
    before = ["chrt", "-f", "10"]
    allowed = shutil.which("chrt") is not None and subprocess.run([*before, "true"], capture_output=True).returncode == 0
    return before if allowed else []


def main():
    parser = argparse.ArgumentParser(description="measures the proved reader of tables")
    parser.add_argument("--times", type=int, default=9, help="how many runs of each (default 9)")
    parser.add_argument("--rows", type=int, default=1_000_000, help="rows of a table (default 1000000)")
    parser.add_argument("--reader", help="a reader that was built before")
    parser.add_argument("--keep", help="where the built reader is kept")
    words = parser.parse_args()
    with tempfile.TemporaryDirectory() as folder:
        peer = measuring.compile_peer(os.path.join(QUERY, "peer", "main.rs"), folder)
        reader = os.path.abspath(words.reader) if words.reader else build_reader(folder)
        if words.keep:
            shutil.copy(reader, words.keep)
        write_tables(folder, words.rows)
        before = first_words()
        measuring.describe_machine()
        print(f"{words.rows:,} rows, least of {words.times} runs (median in brackets){', by `chrt -f 10`' if before else ''}; "
              f"a peak may count the {measuring.own_peak():.1f} MB of this script", flush=True)
        for what, stage in STAGES:
            print_stage(what, stage, (reader, peer), folder, words.times, before)


if __name__ == "__main__":
    main()
