#!/usr/bin/env python3
"""Fills a store to its limits, 200,000 rows and 500,000 grants, and prints how many of each operation the built code
does in a second, and the bytes of memory that a row and a grant take.

    bench/store.py      builds a small program over the crate first (built.py), which may take minutes

The ratio is against std's BTreeMap in the same run, which gets the same number of keys of the same size, each with a
number: a store does more for each row, since it keeps indexes and what undoing needs.
"""
import json
import subprocess
import sys

from built import build

ROWS, GRANTS = 200_000, 500_000

MAIN = """//! Reads a definition, how many rows and how many grants; fills a store, and prints the microseconds of each phase.
#![tactic(auto)]

use anyhow::Result;
use dv_meta::read_definition;
use dv_store::{Row, RowKey, Store, StoreFault};
use dv_value::{Id, Text, Value};
use sqlite_items::Items;
use std::alloc::{AllocError, Global};
use std::collections::BTreeMap;
use std::time::{Clock, Instant};

// Ids in no order.
fn id_of(number: u64) -> Id {
    Id(u128::from(number.wrapping_mul(7_919) % 1_000_003) + 1)
}

fn owner_of(number: u64) -> Id {
    Id(u128::from(number % 1_000) + 2_000_000)
}

fn row_of(alloc: Global, number: u64) -> Result<Row, AllocError> {
    let mut values = Items::new(alloc);
    values.push(Value::Ref(owner_of(number)))?;
    values.push(Value::Moment(1_700_000_000))?;
    values.push(Value::Ref(owner_of(number)))?;
    values.push(Value::Moment(1_700_000_000))?;
    values.push(Value::Ref(owner_of(number)))?;
    values.push(Value::Choice(0))?;
    values.push(Value::Amount(1))?;
    values.push(Value::Text(Text::from_str(alloc, "Contoso Pharmaceuticals")?))?;
    Ok(Row { values })
}

fn put_rows(alloc: Global, store: &mut Store, rows: u64) -> Result<(), StoreFault> {
    for number in 0..rows {
        let row = row_of(alloc, number)?;
        store.put_row(0, id_of(number), row)?;
    }
    Ok(())
}

fn set_grant(store: &mut Store, id: Id, principal: Id) -> Result<(), StoreFault> {
    if store.row(0, id).is_some() && store.is_owned(0) {
        store.set_grant(0, id, principal, 1, 2)?;
    }
    Ok(())
}

fn set_grants(store: &mut Store, rows: u64, grants: u64) -> Result<(), StoreFault> {
    if rows == 0 {
        return Ok(());
    }
    for number in 0..grants {
        set_grant(store, id_of(number % rows), owner_of(number / rows + number))?;
    }
    Ok(())
}

// How many rows are found.
fn find_rows(store: &Store, rows: u64) -> u64 {
    let mut found = 0_u64;
    for number in 0..rows {
        if store.row(0, id_of(number)).is_some() {
            found = found.saturating_add(1);
        }
    }
    found
}

// How many rows the owners have, up to a number of steps.
fn walk_owned(store: &Store, rows: u64) -> u64 {
    let mut found = 0_u64;
    let mut owner = 0;
    let mut after = None;
    for _ in 0..rows {
        match store.owned_after(0, owner_of(owner), after) {
            Some(id) => {
                found = found.saturating_add(1);
                after = Some(id);
            }
            None => {
                owner = owner.wrapping_add(1);
                after = None;
            }
        }
    }
    found
}

fn undo_to(store: &mut Store, mark: usize) {
    if mark <= store.mark() {
        store.undo_to(mark);
    }
}

fn fill_map(map: &mut BTreeMap<RowKey, u64>, rows: u64) -> Result<(), AllocError> {
    for number in 0..rows {
        map.insert(RowKey { table: 0, id: id_of(number) }, number)?;
    }
    Ok(())
}

// Prints how long a phase took.
fn tell(rt: &(impl Print + Clock), phase: &str, since: Instant) -> Result<()> {
    let spent = since.elapsed(rt)?.as_micros();
    println!(rt; "{phase}={spent}")?;
    Ok(())
}

fn measure(rt: &HostRuntime, store: &mut Store, rows: u64, grants: u64) -> Result<()> {
    let since = Instant::now(rt)?;
    let put = put_rows(rt.alloc(), store, rows).is_ok();
    tell(rt, "put_row", since)?;
    store.forget();
    let since = Instant::now(rt)?;
    let set = set_grants(store, rows, grants).is_ok();
    tell(rt, "set_grant", since)?;
    store.forget();
    let since = Instant::now(rt)?;
    let found = find_rows(store, rows);
    tell(rt, "row", since)?;
    let since = Instant::now(rt)?;
    let owned = walk_owned(store, rows);
    tell(rt, "owned_after", since)?;
    let mark = store.mark();
    let since = Instant::now(rt)?;
    let again = put_rows(rt.alloc(), store, rows / 4).is_ok();
    tell(rt, "put_row over", since)?;
    let since = Instant::now(rt)?;
    undo_to(store, mark);
    tell(rt, "undone", since)?;
    println!(rt; "done={}", u64::from(put && set && again))?;
    println!(rt; "found={found}")?;
    println!(rt; "owned={owned}")?;
    Ok(())
}

fn main(rt: HostRuntime) -> Result<()> {
    let mut numbers = [0_u64; 2];
    let mut next = 0;
    for line in rt.lines(rt.alloc()) {
        let line = line?;
        if let Ok(number) = line.as_str().parse::<u64>() {
            if next < 2 {
                numbers[next] = number;
                next += 1;
            }
            continue;
        }
        let Ok(definition) = read_definition(rt.alloc(), line.as_bytes(), 0) else {
            println!(rt; "done=0")?;
            return Ok(());
        };
        let mut store = Store::new(rt.alloc(), &definition)?;
        measure(&rt, &mut store, numbers[0], numbers[1])?;
        let mut map = BTreeMap::new(rt.alloc());
        let since = Instant::now(&rt)?;
        fill_map(&mut map, numbers[0])?;
        tell(&rt, "map", since)?;
    }
    Ok(())
}
"""


def uuid(number):
    text = f"{number:032x}"
    return "-".join((text[:8], text[8:12], text[12:16], text[16:20], text[20:]))


DEFINITION = json.dumps({"root": uuid(1), "admin": uuid(2), "tables": [
    {"name": "account", "owned": "user", "columns": [{"name": "name", "type": "text", "max": 100}]}]})


def run(program, rows, grants):
    """What the program prints for so many rows and grants."""
    done = subprocess.run([program], input=f"{rows}\n{grants}\n{DEFINITION}\n", stdout=subprocess.PIPE, text=True, check=True)
    told = {line.split("=")[0]: int(line.split("=")[1]) for line in done.stdout.splitlines()}
    assert told["done"] == 1, told
    return told


def peak(program, rows, grants):
    """The most memory that the program takes for so many rows and grants, measured by a process of its own."""
    code = ("import resource, subprocess, sys; subprocess.run([sys.argv[1]], input=sys.argv[2], stdout=subprocess.DEVNULL, text=True);"
            "print(resource.getrusage(resource.RUSAGE_CHILDREN).ru_maxrss * 1024)")
    done = subprocess.run([sys.executable, "-c", code, program, f"{rows}\n{grants}\n{DEFINITION}\n"],
                          stdout=subprocess.PIPE, text=True, check=True)
    return int(done.stdout)


program = build("bench_store", "dv_meta dv_store dv_value sqlite_items anyhow", MAIN)
told = run(program, ROWS, GRANTS)
for what, count in (("put_row", ROWS), ("set_grant", GRANTS), ("row", ROWS), ("owned_after", ROWS),
                    ("put_row over", ROWS // 4), ("undone", ROWS // 4)):
    speed = count * 1_000_000 / max(told[what], 1)
    beside = ROWS * 1_000_000 / max(told["map"], 1)
    print(f"{what}: {speed:,.0f} a second, {speed / beside:.2f} times the insertions of a map")
nothing, rows = peak(program, 0, 0), peak(program, ROWS, 0)
print(f"memory: {(rows - nothing) / ROWS:,.0f} bytes a row, "
      f"{(peak(program, ROWS, GRANTS) - rows) / GRANTS:,.0f} bytes a grant, at the most")
