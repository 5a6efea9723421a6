#!/usr/bin/env python3
"""Feeds the built program 5,000 creations and 100 queries, and prints requests and bytes a second. Then it prints what one
row message takes in a table of 5,000 rows and in one of 100,000.

    bench/throughput.py [PROGRAM]      PROGRAM is crates/orgsvc/out/orgsvc, as `rt run` in crates/orgsvc builds it

The ratio is against a peer in the same run: Python's own json, which reads every line and prints it again.
"""
import json
import os
import resource
import subprocess
import sys
import time

TOP = os.path.dirname(os.path.dirname(os.path.abspath(__file__)))
PROGRAM = sys.argv[1] if len(sys.argv) > 1 else os.path.join(TOP, "crates/orgsvc/out/orgsvc")
ROOT, ADMIN = "00000000-0000-0000-0000-000000000064", "00000000-0000-0000-0000-000000000065"
CREATIONS, QUERIES = 5_000, 100


def line(value):
    return json.dumps(value, separators=(",", ":")) + "\n"


definition = line({"root": ROOT, "admin": ADMIN, "tables": [
    {"name": "account", "owned": "user", "columns": [{"name": "name", "type": "text", "max": 100}]}]})
creations = [line({"caller": ADMIN, "do": "create", "table": "account", "values": {"name": f"Account {k}"}})
             for k in range(CREATIONS)]
queries = [line({"caller": ADMIN, "do": "query", "table": "account", "columns": ["name"]})] * QUERIES


def timed(lines):
    data = "".join(lines).encode()
    start = time.perf_counter()
    run = subprocess.run([PROGRAM, "run"], input=data, stdout=subprocess.PIPE, check=True)
    return time.perf_counter() - start, len(data), len(run.stdout), run.stdout


def peer(lines, replies):
    start = time.perf_counter()
    for each in lines:
        json.loads(each)
    for each in replies.splitlines():
        json.dumps(json.loads(each))
    return time.perf_counter() - start


for name, lines in (("creations", [definition] + creations), ("creations and queries", [definition] + creations + queries)):
    seconds, taken, given, replies = timed(lines)
    other = peer(lines, replies)
    print(f"{name}: {len(lines) / seconds:,.0f} requests/s, {taken / seconds / 1e6:,.1f} MB/s in, "
          f"{given / seconds / 1e6:,.1f} MB/s out, {seconds:.2f} s, {other / seconds:.2f} times the speed of Python's json")

# One message on a row must not cost more for the rows beside it: the processor time of 100,000 messages behind the
# creations, less that of the creations alone. They name 5,000 rows, spread over the table, each of them twenty times.
# Both sizes are measured one after another in each round, and the round with the median ratio is told.
MESSAGES, NAMED, ROUNDS = 100_000, 5_000, 9
USER = "00000000-0000-0000-0000-00000000000b"
with_user = line({"root": ROOT, "admin": ADMIN, "users": [{"id": USER, "unit": ROOT}], "tables": [
    {"name": "account", "owned": "user", "columns": [{"name": "name", "type": "text", "max": 100}]}]})


def about(row, message):
    return line({"caller": ADMIN, "table": "account", "id": f"00000000-0000-0000-0000-{row:012x}", **message})


def messages(rows, make):
    return [about(1 + k * 7919 % NAMED * (rows // NAMED), make(k)) for k in range(MESSAGES)]


KINDS = {
    "retrieve": lambda k: {"do": "retrieve"},
    "update": lambda k: {"do": "update", "values": {"name": f"Name {k}"}},
    "assign": lambda k: {"do": "assign", "owner": USER if k % 2 else ADMIN},
    "grant": lambda k: {"do": "grant", "principal": USER, "rights": 1 + k % 3},
}


def processor_time(lines):
    before = resource.getrusage(resource.RUSAGE_CHILDREN)
    subprocess.run([PROGRAM, "run"], input="".join(lines).encode(), stdout=subprocess.DEVNULL, check=True)
    after = resource.getrusage(resource.RUSAGE_CHILDREN)
    return after.ru_utime + after.ru_stime - before.ru_utime - before.ru_stime


def spent(rows, make):
    made = [with_user] + [creations[k % CREATIONS] for k in range(rows)]
    return (processor_time(made + messages(rows, make)) - processor_time(made)) / MESSAGES


for name, make in KINDS.items():
    rounds = sorted(((spent(5_000, make), spent(100_000, make)) for _ in range(ROUNDS)), key=lambda r: r[1] / r[0])
    few, many = rounds[ROUNDS // 2]
    print(f"{name}: {1 / few:,.0f} a second among 5,000 rows, {1 / many:,.0f} among 100,000; one takes {many / few:.2f} times "
          f"as long there ({rounds[0][1] / rounds[0][0]:.2f} to {rounds[-1][1] / rounds[-1][0]:.2f})")

# A line above the limit is read to its end and refused.
seconds, taken, given, replies = timed([definition, "x" * 200_000_000 + "\n"])
print(f"one line of {taken / 1e6:,.0f} MB: {taken / seconds / 1e6:,.0f} MB/s, answered {replies.splitlines()[-1].decode()}")
