#!/usr/bin/env python3
"""Fills a shelf with 200,000 entries, looks them up, changes and undoes them, and prints how many of each the built
code does in a second.

    bench/shelf.py

The ratio is against std's BTreeMap in the same run: its insertions, look-ups and removals of the same keys. An undo is
measured against an insertion over a key, which is what a program without a shelf would write to go back.
"""
import subprocess

from built import build

ENTRIES = 200_000

MAIN = """//! Fills a shelf and a map with the same entries, and prints how many microseconds each phase took.
#![tactic(auto)]

use anyhow::Result;
use dv_work::Shelf;
use std::alloc::AllocError;
use std::collections::BTreeMap;
use std::time::{Clock, Instant};

const ENTRIES: u64 = 200_000;

// The keys come in no order.
fn key_of(number: u64) -> u64 {
    number.wrapping_mul(7_919) % 1_000_003
}

fn put_all(shelf: &mut Shelf<u64, u64>, value: u64) -> Result<(), AllocError> {
    for number in 0..ENTRIES {
        if shelf.put(key_of(number), value).is_err() {
            return Err(AllocError);
        }
    }
    Ok(())
}

fn insert_all(map: &mut BTreeMap<u64, u64>, value: u64) -> Result<(), AllocError> {
    for number in 0..ENTRIES {
        map.insert(key_of(number), value)?;
    }
    Ok(())
}

fn take_all(shelf: &mut Shelf<u64, u64>) -> Result<(), AllocError> {
    for number in 0..ENTRIES {
        shelf.take(&key_of(number))?;
    }
    Ok(())
}

fn remove_all(map: &mut BTreeMap<u64, u64>) {
    for number in 0..ENTRIES {
        map.remove(&key_of(number));
    }
}

// The sum of all the shelf's values.
fn get_all(shelf: &Shelf<u64, u64>) -> u64 {
    let mut sum = 0_u64;
    for number in 0..ENTRIES {
        if let Some(value) = shelf.get(&key_of(number)) {
            sum = sum.wrapping_add(*value);
        }
    }
    sum
}

// The sum of all the map's values.
fn look_up_all(map: &BTreeMap<u64, u64>) -> u64 {
    let mut sum = 0_u64;
    for number in 0..ENTRIES {
        if let Some(value) = map.get(&key_of(number)) {
            sum = sum.wrapping_add(*value);
        }
    }
    sum
}

fn undo_to(shelf: &mut Shelf<u64, u64>, mark: usize) {
    if mark <= shelf.mark() {
        shelf.undo_to(mark);
    }
}

// Prints how long a phase took.
fn tell(rt: &(impl Print + Clock), phase: &str, since: Instant) -> Result<()> {
    let spent = since.elapsed(rt)?.as_micros();
    println!(rt; "{phase}={spent}")?;
    Ok(())
}

fn run_shelf(rt: &HostRuntime) -> Result<()> {
    let mut shelf = Shelf::new(rt.alloc());
    let since = Instant::now(rt)?;
    put_all(&mut shelf, 1)?;
    tell(rt, "shelf puts", since)?;
    let since = Instant::now(rt)?;
    shelf.forget();
    tell(rt, "shelf forget", since)?;
    let since = Instant::now(rt)?;
    let sum = get_all(&shelf);
    tell(rt, "shelf gets", since)?;
    let start = shelf.mark();
    let since = Instant::now(rt)?;
    put_all(&mut shelf, 2)?;
    tell(rt, "shelf puts over", since)?;
    let since = Instant::now(rt)?;
    undo_to(&mut shelf, start);
    tell(rt, "shelf undone puts", since)?;
    let since = Instant::now(rt)?;
    take_all(&mut shelf)?;
    tell(rt, "shelf takes", since)?;
    let since = Instant::now(rt)?;
    undo_to(&mut shelf, start);
    tell(rt, "shelf undone takes", since)?;
    println!(rt; "shelf sum={}", sum.wrapping_add(get_all(&shelf)))?;
    Ok(())
}

fn run_map(rt: &HostRuntime) -> Result<()> {
    let mut map = BTreeMap::new(rt.alloc());
    let since = Instant::now(rt)?;
    insert_all(&mut map, 1)?;
    tell(rt, "map puts", since)?;
    let since = Instant::now(rt)?;
    let sum = look_up_all(&map);
    tell(rt, "map gets", since)?;
    let since = Instant::now(rt)?;
    insert_all(&mut map, 1)?;
    tell(rt, "map puts over", since)?;
    println!(rt; "map sum={}", sum.wrapping_add(look_up_all(&map)))?;
    let since = Instant::now(rt)?;
    remove_all(&mut map);
    tell(rt, "map takes", since)?;
    Ok(())
}

fn main(rt: HostRuntime) -> Result<()> {
    run_shelf(&rt)?;
    run_map(&rt)
}
"""

program = build("bench_shelf", "dv_work anyhow", MAIN)
run = subprocess.run([program], stdout=subprocess.PIPE, text=True, check=True)
told = {line.split("=")[0]: int(line.split("=")[1]) for line in run.stdout.splitlines()}
assert told["shelf sum"] == told["map sum"] == 2 * ENTRIES, told
for what, peer in (("puts", "puts"), ("gets", "gets"), ("puts over", "puts over"), ("takes", "takes"),
                   ("undone puts", "puts over"), ("undone takes", "puts over")):
    spent, beside = max(told["shelf " + what], 1), max(told["map " + peer], 1)
    print(f"{what}: {ENTRIES * 1_000_000 / spent:,.0f} a second, {beside / spent:.2f} times the speed of the map's {peer}")
print(f"forget of {ENTRIES:,} changes: {told['shelf forget'] / 1000:.1f} ms")
