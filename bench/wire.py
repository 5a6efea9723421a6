#!/usr/bin/env python3
"""Times the reader of requests against serde_json alone, over lines of a megabyte, and the printer of replies.

    bench/wire.py      builds a small program over dv_wire in a copy of the repository (built.py)

The peer is serde_json in the same run: the same line read as a JSON value, the same rows printed from one. A reading is
wanted at half of the peer's speed at least, and twice the rows in about twice the time. Both readers take turns, and the
median of the rounds is told with the lowest and the highest: the first round also pays for the memory that all use.
"""
import json
import statistics
import subprocess

from built import build

USED = "dv_wire dv_print dv_request dv_schema dv_query dv_form dv_value serde_json sqlite_items"
CALLER, ROW = "00000000-0000-0000-0000-000000000065", "00000000-0000-0000-0000-000000000001"
LIMIT = 1_048_576

MAIN = r"""//! Times the reader of requests and the printer of replies against serde_json alone.
#![tactic(auto)]

use dv_request::Reply;
use dv_value::{Id, Values, add_member};
use dv_print::print_reply;
use dv_wire::read_request;
use serde_json::{Map, Value as Json};
use sqlite_items::Items;
use std::alloc::{AllocError, Global};
use std::io;
use std::time::Instant;

const TIMES: u32 = 20;

const ROUNDS: u32 = 15;

fn requests_read(alloc: Global, line: &str) -> u32 {
    let mut read = 0u32;
    for _ in 0..TIMES {
        if read_request(alloc, line.as_bytes()).is_ok() {
            read = read.saturating_add(1);
        }
    }
    read
}

fn values_read(alloc: Global, line: &str) -> u32 {
    let mut read = 0u32;
    for _ in 0..TIMES {
        if Json::from_str(alloc, line).is_ok() {
            read = read.saturating_add(1);
        }
    }
    read
}

fn members(alloc: Global, row: u32) -> Result<Map<String, Json>, AllocError> {
    let mut members: Map<String, Json> = Map::new(alloc);
    add_member(
        alloc,
        &mut members,
        "id",
        Id(u128::from(row)).to_json(alloc)?,
    )?;
    add_member(
        alloc,
        &mut members,
        "name",
        Json::String(format!(in alloc; "Account {row}")?),
    )?;
    add_member(alloc, &mut members, "number", Json::from(row))?;
    Ok(members)
}

fn page(alloc: Global, rows: u32) -> Result<Reply, AllocError> {
    let mut page = Items::new(alloc);
    for row in 0..rows {
        if let Some(values) = Values::from_json(alloc, members(alloc, row)?)? {
            page.push(values)?;
        }
    }
    Ok(Reply::Page {
        rows: page,
        more: false,
        cookie: None,
        total: None,
        over: None,
    })
}

fn json(alloc: Global, rows: u32) -> Result<Json, AllocError> {
    let mut list: Vec<Json> = Vec::new(alloc);
    for row in 0..rows {
        list.push(Json::Object(members(alloc, row)?))?;
    }
    Ok(Json::Array(list))
}

fn pages_made(alloc: Global, rows: u32) -> Result<usize, AllocError> {
    match page(alloc, rows)? {
        Reply::Page { rows, .. } => Ok(rows.len()),
        _ => Ok(0),
    }
}

// Makes the page once, which is timed alone too, and prints it often.
fn replies_printed(alloc: Global, rows: u32) -> Result<usize, AllocError> {
    let reply = page(alloc, rows)?;
    let mut bytes = 0usize;
    for _ in 0..TIMES {
        bytes = bytes.saturating_add(print_reply(alloc, &reply)?.len());
    }
    Ok(bytes)
}

fn values_printed(alloc: Global, rows: u32) -> Result<usize, AllocError> {
    let value = json(alloc, rows)?;
    let mut bytes = 0usize;
    for _ in 0..TIMES {
        bytes = bytes.saturating_add(value.to_vec(alloc)?.len());
    }
    Ok(bytes)
}

fn time_requests(rt: &HostRuntime, line: &str) -> io::Result<()> {
    let start = Instant::now(rt)?;
    let read = requests_read(rt.alloc(), line);
    let micros = start.elapsed(rt)?.as_micros();
    println!(rt; "requests_read {read} {micros}")
}

fn time_values(rt: &HostRuntime, line: &str) -> io::Result<()> {
    let start = Instant::now(rt)?;
    let read = values_read(rt.alloc(), line);
    let micros = start.elapsed(rt)?.as_micros();
    println!(rt; "values_read {read} {micros}")
}

fn time_making(rt: &HostRuntime, rows: u32) -> io::Result<()> {
    let start = Instant::now(rt)?;
    let made = pages_made(rt.alloc(), rows)?;
    let micros = start.elapsed(rt)?.as_micros();
    println!(rt; "pages_made_{rows} {made} {micros}")
}

fn time_page(rt: &HostRuntime, rows: u32) -> io::Result<()> {
    let start = Instant::now(rt)?;
    let bytes = replies_printed(rt.alloc(), rows)?;
    let micros = start.elapsed(rt)?.as_micros();
    println!(rt; "replies_printed_{rows} {bytes} {micros}")
}

fn time_json(rt: &HostRuntime, rows: u32) -> io::Result<()> {
    let start = Instant::now(rt)?;
    let bytes = values_printed(rt.alloc(), rows)?;
    let micros = start.elapsed(rt)?.as_micros();
    println!(rt; "values_printed_{rows} {bytes} {micros}")
}

fn main(rt: HostRuntime) -> io::Result<()> {
    let line = io::read_to_string(rt.alloc(), rt.stdin())?;
    for _ in 0..ROUNDS {
        time_requests(&rt, line.as_str())?;
        time_values(&rt, line.as_str())?;
    }
    time_making(&rt, 5_000)?;
    time_page(&rt, 2_500)?;
    time_page(&rt, 5_000)?;
    time_page(&rt, 10_000)?;
    time_json(&rt, 5_000)
}
"""


def line(request, item, items):
    """The request with as many items in a list as fit into a line."""
    size, most = len(json.dumps(item, separators=(",", ":"))) + 1, LIMIT - 400
    items.extend([item] * (most // size))
    return json.dumps({"caller": CALLER} | request, separators=(",", ":"))


def lines():
    requests, conditions, privileges = [], [], []
    condition = {"column": "name", "is": "not-between", "values": ["a", "b", 1, True, None]}
    create = {"do": "create", "table": "account", "values": {"name": "Account", "number": 1234567, "on": True}}
    return {
        "a batch of creations": line({"do": "multiple", "requests": requests}, create, requests),
        "a filter of conditions": line({"do": "query", "table": "account", "filter": {"conditions": conditions}}, condition, conditions),
        "a role of privileges": line({"do": "setprivileges", "role": ROW, "privileges": privileges}, ["AppendTo", "account", 2], privileges),
        "one long text": json.dumps({"caller": CALLER, "do": "create", "table": "account", "values": {"name": "x" * (LIMIT - 200)}}),
    }


def timed(program, text):
    """What each part counted and its microseconds, round by round, by its word."""
    run = subprocess.run([program], input=text.encode(), stdout=subprocess.PIPE, check=True)
    parts = {}
    for name, count, micros in (each.split() for each in run.stdout.decode().splitlines()):
        parts.setdefault(name, []).append((int(count), int(micros)))
    return parts


program = build("bench_wire", USED, MAIN)
for name, text in lines().items():
    parts = timed(program, text)
    rounds = list(zip(parts["requests_read"], parts["values_read"]))
    assert all(read == same for (read, _), (same, _) in rounds), f"{name} isn't read"
    speed = statistics.median(len(text) * read / ours for (read, ours), _ in rounds)
    ratios = sorted(peer / ours for (_, ours), (_, peer) in rounds)
    print(f"{name}, {len(text):,} bytes: {speed:,.0f} MB/s, {statistics.median(ratios):.2f} times the speed of serde_json "
          f"({ratios[0]:.2f} to {ratios[-1]:.2f})")
(_, half), (size, whole), (_, double) = (parts[f"replies_printed_{rows}"][0] for rows in (2_500, 5_000, 10_000))
(_, peer) = parts["values_printed_5000"][0]
print(f"a page of 5,000 rows: {size / whole:,.0f} MB/s, {peer / whole:.2f} times the speed of serde_json, "
      f"{whole / half:.2f} times the time of half the rows, {double / whole:.2f} times in twice the rows")
