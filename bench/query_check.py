#!/usr/bin/env python3
"""Prints how many checks of a query the built code does in a second: a query with 10 links and 200 conditions on a table
of 60 columns, and a half of it.

    bench/query_check.py      builds a small program over dv_query_check in a copy of the repository (built.py)

The peer is the reading of the same line in the same run. Half of the query is wanted in about half of the time.
"""
import json
import statistics
import subprocess

from built import build

USED = "dv_query_check dv_wire dv_meta dv_request dv_query dv_value"
CALLER, ROUNDS = "00000000-0000-0000-0000-000000000065", 9

MAIN = r"""//! Times the check of queries against reading them.
#![tactic(auto)]

use dv_meta::{Definition, read_definition};
use dv_query_check::check_query;
use dv_request::Request;
use dv_wire::read_request;
use std::alloc::Global;
use std::io;
use std::time::Instant;

const TIMES: u32 = 200;

fn checks(alloc: Global, definition: &Definition, request: &Request) -> u32 {
    let mut accepted = 0u32;
    if let Request::Query { query } = request {
        for _ in 0..TIMES {
            if check_query(alloc, definition, query.get()).is_ok() {
                accepted = accepted.saturating_add(1);
            }
        }
    }
    accepted
}

fn readings(alloc: Global, line: &str) -> u32 {
    let mut read = 0u32;
    for _ in 0..TIMES {
        if read_request(alloc, line.as_bytes()).is_ok() {
            read = read.saturating_add(1);
        }
    }
    read
}

fn time_line(rt: &HostRuntime, definition: &Definition, line: &str) -> io::Result<()> {
    let start = Instant::now(rt)?;
    let read = readings(rt.alloc(), line);
    let micros = start.elapsed(rt)?.as_micros();
    println!(rt; "read {read} {micros}")?;
    if let Ok((_, request)) = read_request(rt.alloc(), line.as_bytes()) {
        let start = Instant::now(rt)?;
        let accepted = checks(rt.alloc(), definition, &request);
        let micros = start.elapsed(rt)?.as_micros();
        println!(rt; "checked {accepted} {micros}")?;
    }
    Ok(())
}

fn main(rt: HostRuntime) -> io::Result<()> {
    let input = io::read_to_string(rt.alloc(), rt.stdin())?;
    let mut lines = input.as_str().lines();
    let text = lines.next().unwrap_or("");
    if let Ok(definition) = read_definition(rt.alloc(), text.as_bytes(), 0) {
        for line in lines {
            time_line(&rt, &definition, line)?;
        }
    }
    Ok(())
}
"""


def definition():
    columns = [{"name": f"column{i:02}", "type": "text", "max": 100} for i in range(59)] + [{"name": "above", "type": "lookup"}]
    tables = [{"name": f"table{i:02}", "owned": "user", "columns": columns} for i in range(100)]
    relationships = [{"name": f"r{i}", "parent": "table00", "child": f"table{i:02}", "column": "above"} for i in range(100)]
    return {"root": CALLER[:-2] + "64", "admin": CALLER, "tables": tables, "relationships": relationships}


def query(links, conditions):
    said = [{"column": f"column{i % 59:02}", "link": f"l{i % links}", "is": "begins", "values": ["some text"]} for i in range(conditions)]
    joins = [{"table": f"table{99 - i}", "from": "above", "to": "id", "join": "left", "alias": f"l{i}", "columns": ["column58"]} for i in range(links)]
    return {"caller": CALLER, "do": "query", "table": "table99", "filter": {"conditions": said}, "links": joins}


def main():
    program = build("bench_query_check", USED, MAIN)
    lines = [definition()] + [query(10, 200), query(5, 100)] * ROUNDS
    text = "\n".join(json.dumps(line, separators=(",", ":")) for line in lines)
    run = subprocess.run([program], input=text.encode(), stdout=subprocess.PIPE, check=True)
    told = [line.split() for line in run.stdout.decode().splitlines()]
    for place, name in enumerate(["10 links, 200 conditions", "5 links, 100 conditions"]):
        for word, offset in ("read", 0), ("checked", 1):
            rates = sorted(int(count) * 1_000_000 / int(micros) for _, count, micros in told[2 * place + offset::4])
            print(f"{name}: {statistics.median(rates):,.0f} a second {word} ({rates[0]:,.0f} to {rates[-1]:,.0f})")


main()
