#!/usr/bin/env python3
"""Reads table definitions by the crate dv_meta, and prints definitions and bytes a second.

    bench/definitions.py      builds a small program over the crate first (built.py), which may take minutes

It reads an office's definition many times, and one of a megabyte at its limits a few times. The ratio is against a
peer in the same run: Python's own json, which reads the same lines into plain values and checks nothing else.
"""
import json
import subprocess
import time

from built import build

MAIN = '''//! Reads each line as a table definition, as often as the line before it says, and writes how many were accepted.
#![tactic(auto)]

use dv_meta::read_definition;
use std::alloc::Global;
use std::io;

fn accepted(alloc: Global, bytes: &[u8], times: u64) -> u64 {
    let mut accepted = 0_u64;
    for _ in 0..times {
        if read_definition(alloc, bytes, 1).is_ok() {
            accepted = accepted.saturating_add(1);
        }
    }
    accepted
}

fn main(rt: HostRuntime) -> io::Result<()> {
    let mut times = 0;
    for line in rt.lines(rt.alloc()) {
        let line = line?;
        match line.as_str().parse::<u64>() {
            Ok(number) => times = number,
            Err(_) => println!(rt; "{}", accepted(rt.alloc(), line.as_bytes(), times))?,
        }
    }
    Ok(())
}
'''


def uuid(number):
    text = f"{number:032x}"
    return "-".join((text[:8], text[8:12], text[12:16], text[16:20], text[20:]))


def line(value):
    return json.dumps(value, separators=(",", ":")) + "\n"


def text(name, most):
    return {"name": name, "type": "text", "max": most}


def lookup(name):
    return {"name": name, "type": "lookup"}


def table(name, *columns, **members):
    return {"name": name, "owned": "user", "columns": list(columns)} | members


def relationship(name, parent, child, column, **cascades):
    return {"name": name, "parent": parent, "child": child, "column": column} | cascades


def privilege(role, inheritance, *entry):
    return {"id": uuid(role), "inheritance": inheritance, "privileges": [list(entry)]}


def user(number, unit, *roles):
    return {"id": uuid(number), "unit": uuid(unit), "roles": [uuid(role) for role in roles]}


def office():
    """Five tables, five relationships, two units, four roles, five users, two teams."""
    down = {"assign": "userowned", "share": "cascade", "unshare": "cascade", "reparent": "cascade", "delete": "cascade"}
    total = {"name": "total", "type": "rollup", "kind": "sum", "over": "account_contact", "of": "due"}
    return {
        "root": uuid(100), "admin": uuid(101),
        "tables": [
            table("account", text("name", 100) | {"required": True}, lookup("parent"), total, tracking=True),
            table("contact", text("name", 100), {"name": "due", "type": "amount", "scale": 2}, lookup("account")),
            table("note", text("body", 500), lookup("contact")),
            table("task", text("name", 100), lookup("twin"), lookup("guard")),
            table("currency", text("code", 3), owned="organization")],
        "relationships": [
            relationship("account_contact", "account", "contact", "account", **down),
            relationship("contact_note", "contact", "note", "contact", **down),
            relationship("account_parent", "account", "account", "parent", reparent="cascade", delete="restrict"),
            relationship("task_twin", "task", "task", "twin", delete="cascade"),
            relationship("task_guard", "task", "task", "guard", delete="restrict")],
        "steps": [],
        "units": [{"id": uuid(unit), "parent": uuid(100)} for unit in (110, 120)],
        "roles": [privilege(201, "team", "*", "*", 0), privilege(202, "team", "Read", "account", 2),
                  privilege(203, "direct", "Read", "account", 0), privilege(204, "team", "Read", "account", 0)],
        "users": [user(11, 110, 201), user(12, 110, 201), user(13, 110), user(21, 120, 201), user(22, 120, 202)],
        "teams": [{"id": uuid(team), "unit": uuid(110), "kind": kind, "members": [uuid(13)]}
                  for team, kind in ((31, "owner"), (32, "access"))]}


def greatest():
    """At the limits of tables, columns, relationships, registrations, units and roles, and filled up with users."""
    value = {
        "root": uuid(1), "admin": uuid(2),
        "tables": [table(f"t{i}", *(lookup(f"c{j}") if i < 5 else {"name": f"c{j}", "type": "flag"} for j in range(60)))
                   for i in range(100)],
        "relationships": [relationship(f"r{k}", "t9", f"t{k // 60}", f"c{k % 60}") for k in range(300)],
        "steps": [{"step": 0, "message": "update", "table": "t0", "stage": 40, "rank": k, "columns": ["c1", "c59"],
                   "post": ["c7"]} for k in range(500)],
        "units": [{"id": uuid(10_000 + k), "parent": uuid(1)} for k in range(999)],
        "roles": [privilege(20_000 + k, "team", "Read", f"t{k % 100}", 1) for k in range(500)]}
    room = 1_048_576 - len(line(value)) - len('"users":[],')
    value["users"] = [user(30_000 + k, 10_000 + k % 999, 20_000 + k % 500)
                      for k in range(room // len(line(user(30_000, 10_000, 20_000))))]
    return value


def timed(program, text, times):
    start = time.perf_counter()
    run = subprocess.run([program], input=f"{times}\n{text}".encode(), stdout=subprocess.PIPE, check=True)
    return time.perf_counter() - start, int(run.stdout)


def peer(text, times):
    start = time.perf_counter()
    for _ in range(times):
        json.loads(text)
    return time.perf_counter() - start


def main():
    program = build("bench_definitions", "dv_meta", MAIN)
    for name, value, times in (("an office", office(), 20_000), ("a megabyte", greatest(), 60)):
        text = line(value)
        seconds, accepted = timed(program, text, times)
        assert accepted == times, f"{accepted} of {times} were accepted"
        other = peer(text, times)
        print(f"{name}, {len(text):,} bytes: {times / seconds:,.0f} definitions/s, "
              f"{len(text) * times / seconds / 1e6:,.1f} MB/s, {seconds:.2f} s, "
              f"{other / seconds:.2f} times the speed of Python's json")


main()
