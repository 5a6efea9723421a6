#!/usr/bin/env python3
"""Prints how many rows of a tree inherit anew in a second, once the first of them has another parent.

    bench/reparent.py [ROWS [TIMES]]      5,000 rows and 6 times, unless they are given

It drives the built program of cascade_cases, which `rt run` in crates/cascade_cases makes, with a
case of its own: a tree of accounts, each with three children or none, twenty owners by turns and a
grant on every tenth, whose first account gets now the one, now the other of two parents. The time of
the same case without that is taken off. Beside it stands, from the same run, how long a closure of these rows takes.
"""
import os
import shutil
import subprocess
import sys
import tempfile
import time

TOP = os.path.dirname(os.path.dirname(os.path.abspath(__file__)))
CASES = os.path.join(TOP, "crates", "cascade_cases")
PROGRAM = os.path.join(CASES, "out", "cascade_cases")
FILES = ["worked", "kinds", "removal", "circles", "reparent", "grants", "large", "generated"]
FIRST = 10


def owner(number):
    return 100 + number % 20


def above(number):
    """The accounts above one, up to the first of the tree."""
    rows = []
    while number:
        number = (number - 1) // 3
        rows.append(number)
    return rows


def tree(rows):
    """The lines that put the tree under the account #1, with grants."""
    yield "over office.json"
    yield "> account#1 ownerid=#11"
    yield "> account#2 ownerid=#12"
    for number in range(rows):
        parent = 1 if number == 0 else FIRST + (number - 1) // 3
        yield f"> account#{FIRST + number} parent=#{parent} ownerid=#{owner(number)}"
    for number in range(0, rows, 10):
        yield f"grant account#{FIRST + number} #{1000 + number} 1"
    yield f"reparent account#{FIRST}"


def moves(times):
    """The lines that give the first account another parent, so many times."""
    for turn in range(times):
        yield f"> account#{FIRST} parent=#{2 - turn % 2} ownerid=#{owner(0)}"
        yield f"reparent account#{FIRST}"


def last_grants(rows, times):
    """The answer that tells how many grants the last account has then."""
    number = rows - 1
    heirs = {11 + times % 2}
    for row in above(number):
        heirs.add(owner(row))
        if row % 10 == 0:
            heirs.add(1000 + row)
    own = {1000 + number} if number % 10 == 0 else set()
    return f"= {len(heirs | own)}"


def seconds(lines, folder):
    """How long the program takes for one case."""
    with open(os.path.join(folder, "reparent"), "w") as file:
        file.write("\n".join(lines) + "\n")
    since = time.monotonic()
    run = subprocess.run([PROGRAM], cwd=folder, stdout=subprocess.PIPE, text=True, check=True)
    taken = time.monotonic() - since
    assert run.stdout == "1 cases, 0 differ\n", run.stdout
    return taken


def main():
    rows = int(sys.argv[1]) if len(sys.argv) > 1 else 5000
    times = int(sys.argv[2]) if len(sys.argv) > 2 else 6
    if not os.path.exists(PROGRAM):
        sys.exit("run `rt run` in crates/cascade_cases first")
    with tempfile.TemporaryDirectory() as folder:
        shutil.copyfile(os.path.join(CASES, "data", "office.json"), os.path.join(folder, "office.json"))
        for name in FILES:
            open(os.path.join(folder, name), "w").close()
        begun, asked = list(tree(rows)), f"? granted account#{FIRST + rows - 1}"
        many = 20 * times
        closures, closed = [f"? count reparent account#{FIRST}"] * many, [f"= {rows}"] * many
        alone = seconds([*begun, asked, last_grants(rows, 0)], folder)
        moved = seconds([*begun, *moves(times), asked, last_grants(rows, times)], folder)
        counted = seconds([*begun, *closures, asked, *closed, last_grants(rows, 0)], folder)
    moving, closing = max(moved - alone, 1e-6) / times, max(counted - alone, 1e-6) / many
    print(f"reparent of {rows:,} rows: {moving * 1000:,.1f} ms, {rows / moving:,.0f} rows a second, as long as "
          f"{moving / closing:.1f} closures of them")


main()
