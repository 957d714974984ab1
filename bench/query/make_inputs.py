#!/usr/bin/env python3
"""Writes tables and plans into a folder, the same bytes at every call.

    make_inputs.py FOLDER [--rows N]

narrow.csv has three columns: a key of 8 values, and two numbers of which the second is null in a tenth of the rows. wide.csv has
six columns, with 20,000 cities of which some are quoted. Each table has a plan that groups and one that selects.
"""

import argparse
import os
import random

CITIES = 20_000


def narrow(rows):
    state, lines = 1, ["key,a,b"]
    for _ in range(rows):
        draws = []
        for _ in range(3):
            state = 48271 * state % 2147483647
            draws.append(state)
        u, v, w = draws
        lines.append(f"k{u % 8},{v % 2001 - 1000},{'' if w % 10 == 0 else w % 1000}")
    return lines


def quoted(field):
    return '"' + field.replace('"', '""') + '"' if '"' in field or "," in field else field


def wide(rows):
    random_numbers = random.Random(4)
    cities = [quoted(f"city {i:05d}" if i % 50 else f'the "old" town, {i}') for i in range(CITIES)]
    lines = ["id,city,day,a,b,c"]
    for i in range(rows):
        city = cities[random_numbers.randrange(CITIES)]
        a = random_numbers.randrange(-(10**6), 10**6)
        b = "" if random_numbers.random() < 0.1 else random_numbers.randrange(-(10**12), 10**12)
        lines.append(f"{i},{city},2024-{i % 12 + 1:02d}-{i % 28 + 1:02d},{a},{b},{i % 1000}")
    return lines


NARROW = """columns = ["key:text", "a:int", "b:int"]
batch = 1024
{output}
[[filter]]
column = "a"
op = "ge"
value = -500
"""
WIDE = """columns = ["id:int", "city:text", "day:text", "a:int", "b:int", "c:int"]
batch = 4096
{output}
[[filter]]
column = "day"
op = "lt"
value = "2024-07"
[[filter]]
column = "c"
op = "ne"
value = 500
"""
PLANS = {
    "narrow-group": NARROW.format(output='group = "key"\nsums = ["a", "b"]'),
    "narrow-select": NARROW.format(output='select = ["key", "b"]'),
    "wide-group": WIDE.format(output='group = "city"\nsums = ["a", "b", "c"]'),
    "wide-select": WIDE.format(output='select = ["city", "a", "b"]'),
}


def write(folder, rows):
    for name, lines in (("narrow.csv", narrow(rows)), ("wide.csv", wide(rows))):
        with open(os.path.join(folder, name), "w", encoding="utf-8", newline="") as out:
            out.write("\n".join(lines) + "\n")
    for name, text in PLANS.items():
        with open(os.path.join(folder, f"{name}.toml"), "w", encoding="utf-8") as out:
            out.write(text)


def main():
    parser = argparse.ArgumentParser(description="writes tables and plans")
    parser.add_argument("folder")
    parser.add_argument("--rows", type=int, default=1_000_000, help="rows of a table (default 1000000)")
    words = parser.parse_args()
    os.makedirs(words.folder, exist_ok=True)
    write(words.folder, words.rows)


if __name__ == "__main__":
    main()
