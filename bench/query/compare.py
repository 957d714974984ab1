#!/usr/bin/env python3
"""Runs drawn queries with a program and with the peer, and stops where status or bytes differ.

    compare.py [--queries N] [--seed S] [PROGRAM WORD..]

PROGRAM is as for run.py. Plans have every output, test and key, batches from 1 row to more than all, and in half of the queries a limit or
a reservation that may be too small; tables have nulls, empty texts, quotes, keys that come again, numbers at the ends of 64 bits, and now
and then a bad row.
"""

import argparse
import collections
import os
import random
import subprocess
import sys
import tempfile

HERE = os.path.dirname(os.path.abspath(__file__))
sys.path.insert(0, os.path.dirname(HERE))
import measuring
from run import built_program

TEXTS = ["", "x", "yy", "yyz", "longer than the others", "with, comma", 'with "quotes"', "two\nlines", "é"]
PLAIN = [text for text in TEXTS if '"' not in text and "\n" not in text]
NUMBERS = ["", "", "0", "-0", "007", "-1", "5", "12", "9223372036854775807", "-9223372036854775808"]
VALUES = ["0", "-1", "5", "12", "9223372036854775807", "-9223372036854775808"]
CHILDREN = ["scan", "filter", "project", "sums", "result"]
OPS = ["eq", "ne", "lt", "le", "gt", "ge"]


def field(text):
    return '"' + text.replace('"', '""') + '"' if any(c in text for c in ',"\n') else text


def draw_columns(draws):
    return [(f"c{i}", draws.choice(["text", "int"])) for i in range(draws.randint(1, 5))]


def draw_test(draws, name, kind):
    value = f'"{draws.choice(PLAIN)}"' if kind == "text" else draws.choice(VALUES)
    return f'[[filter]]\ncolumn = "{name}"\nop = "{draws.choice(OPS)}"\nvalue = {value}\n'


def draw_plan(draws, columns):
    lines = ["columns = [" + ", ".join(f'"{name}:{kind}"' for name, kind in columns) + "]"]
    lines.append(f"batch = {draws.choice([1, 2, 3, 5, 8, 100])}")
    ints = [name for name, kind in columns if kind == "int"]
    if ints and draws.random() < 0.5:
        lines.append(f'group = "{draws.choice(columns)[0]}"')
        lines.append(f"sums = {draws.sample(ints, draws.randint(1, len(ints)))}".replace("'", '"'))
    else:
        names = [name for name, _ in columns]
        lines.append(f"select = {draws.sample(names, draws.randint(1, len(names)))}".replace("'", '"'))
    tests = [draw_test(draws, *draws.choice(columns)) for _ in range(draws.choice([0, 0, 1, 2, 3]))]
    limited = draws.choice(["root", *CHILDREN])
    if draws.random() < 0.5:
        tests.append(f"[limits]\n{limited} = {draws.randint(0, 600)}\n")
    reserved = draws.choice(CHILDREN)
    if draws.random() < 0.3 and reserved != limited:
        tests.append(f"[reserve]\n{reserved} = {draws.randint(0, 300)}\n")
    return "\n".join(lines) + "\n" + "".join(tests)


def draw_table(draws, columns):
    rows = [[name for name, _ in columns]]
    for _ in range(draws.randint(0, 20)):
        rows.append([draws.choice(TEXTS if kind == "text" else NUMBERS) for _, kind in columns])
    if draws.random() < 0.05:
        rows.insert(draws.randint(0, len(rows)), ["bad"] * (len(columns) + 1))
    return "".join(",".join(map(field, row)) + "\n" for row in rows)


def main():
    parser = argparse.ArgumentParser(description="compares a program with the peer on drawn queries")
    parser.add_argument("--queries", type=int, default=2000, help="how many queries (default 2000)")
    parser.add_argument("--seed", type=int, default=1, help="what they are drawn from (default 1)")
    parser.add_argument("program", nargs="*", help="the program, and words before `query PLAN DATA`")
    words = parser.parse_args()
    program = words.program or built_program()
    draws = random.Random(words.seed)
    statuses = collections.Counter()
    with tempfile.TemporaryDirectory() as folder:
        peer = measuring.compile_peer(os.path.join(HERE, "peer", "main.rs"), folder)
        files = [os.path.join(folder, name) for name in ("p.toml", "d.csv")]
        for number in range(words.queries):
            columns = draw_columns(draws)
            for file, text in zip(files, (draw_plan(draws, columns), draw_table(draws, columns))):
                with open(file, "w", encoding="utf-8", newline="") as out:
                    out.write(text)
            ended = [subprocess.run([*one, "query", *files], capture_output=True) for one in (program, [peer])]
            if len({(one.returncode, one.stdout) for one in ended}) != 1:
                for file in files:
                    print(open(file, encoding="utf-8").read())
                print(*(f"status {one.returncode}\n{one.stdout.decode()}" for one in ended), sep="\n")
                sys.exit(f"query {number} of seed {words.seed}: program and peer differ")
            statuses[ended[0].returncode] += 1
    print(f"{words.queries} queries: program and peer print the same bytes; " + ", ".join(f"status {s}: {n}" for s, n in sorted(statuses.items())))


if __name__ == "__main__":
    main()
