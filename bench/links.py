#!/usr/bin/env python3
"""Times one assignment and one deletion that reach 2,000 and 20,000 rows, through the built program.

    bench/links.py [PROGRAM]      PROGRAM is crates/orgsvc/out/orgsvc, as `rt run` in crates/orgsvc builds it

Each reaches its rows by one relationship. Told is the processor time of the message, which is that of a run with ten
accounts that each have these contacts, and the message for each account, less that of the same run without the messages.
The time of ten times the rows should be about ten times as long; the goal is less than fifteen.
"""
import json
import os
import resource
import subprocess
import sys

TOP = os.path.dirname(os.path.dirname(os.path.abspath(__file__)))
PROGRAM = sys.argv[1] if len(sys.argv) > 1 else os.path.join(TOP, "crates/orgsvc/out/orgsvc")
ROOT, ADMIN, USER = (f"00000000-0000-0000-0000-{number:012x}" for number in (100, 101, 11))
ROUNDS, GOAL = 5, 15
ACCOUNTS = {2_000: 10, 20_000: 5}


def line(value):
    return json.dumps(value, separators=(",", ":")) + "\n"


DEFINITION = line({"root": ROOT, "admin": ADMIN, "users": [{"id": USER, "unit": ROOT}], "tables": [
    {"name": "account", "owned": "user", "columns": [{"name": "name", "type": "text", "max": 100}]},
    {"name": "contact", "owned": "user", "columns": [{"name": "account", "type": "lookup"}]}],
    "relationships": [{"name": "account_contact", "parent": "account", "child": "contact", "column": "account",
                       "assign": "cascade", "delete": "cascade"}]})


def account(k):
    return f"00000000-0000-0001-0000-{k:012x}"


def ask(message):
    return line({"caller": ADMIN, **message})


def made(rows):
    lines = [DEFINITION]
    for k in range(ACCOUNTS[rows]):
        lines.append(ask({"do": "create", "table": "account", "id": account(k), "values": {}}))
        lines += [ask({"do": "create", "table": "contact", "values": {"account": account(k)}})] * rows
    return lines


KINDS = {
    "assign": lambda k: {"do": "assign", "table": "account", "id": account(k), "owner": USER},
    "delete": lambda k: {"do": "delete", "table": "account", "id": account(k)},
}


def processor_time(lines):
    before = resource.getrusage(resource.RUSAGE_CHILDREN)
    run = subprocess.run([PROGRAM, "run"], input="".join(lines).encode(), stdout=subprocess.PIPE, check=True)
    after = resource.getrusage(resource.RUSAGE_CHILDREN)
    if b"refused" in run.stdout:
        sys.exit(f"a request was refused: {next(it for it in run.stdout.splitlines() if b'refused' in it).decode()}")
    return after.ru_utime + after.ru_stime - before.ru_utime - before.ru_stime


def spent(rows, make):
    lines, messages = made(rows), [ask(make(k)) for k in range(ACCOUNTS[rows])]
    return (processor_time(lines + messages) - processor_time(lines)) / len(messages)


for name, make in KINDS.items():
    rounds = sorted(((spent(2_000, make), spent(20_000, make)) for _ in range(ROUNDS)), key=lambda r: r[1] / r[0])
    few, many = rounds[ROUNDS // 2]
    print(f"{name}: {few * 1e3:.1f} ms for 2,000 rows, {many * 1e3:.1f} ms for 20,000: {many / few:.1f} times as long "
          f"({rounds[0][1] / rounds[0][0]:.1f} to {rounds[-1][1] / rounds[-1][0]:.1f}; the goal is less than {GOAL})")
