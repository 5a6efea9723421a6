#!/usr/bin/env python3
"""Compares and spells values many times over, and prints how many of them the built code does in a second.

    bench/values.py

The ratio is against a peer in the same run: Python's own casefold and comparison, and its struct.
"""
import struct
import subprocess
import time

from built import build

TEXTS, NUMBERS, PEER = 2_000_000, 100_000_000, 1_000_000

MAIN = """//! Compares or spells values many times over, as the first word says, for a clock outside.
#![tactic(auto)]

ghost use Rattle.dv_value.specs.Spelling.{HasSpelling};

use dv_value::{Text, Value, compare, put_value};
use std::alloc::{AllocError, Global};
use std::process::ExitCode;
use std::{env, io};

const TEXTS: u32 = 2_000_000;

const NUMBERS: u32 = 100_000_000;

// How often the first text is below the second.
fn compared(alloc: Global, a: &Value, b: &Value) -> Result<usize, AllocError> {
    let mut less = 0_usize;
    for _ in 0..TEXTS {
        if compare(alloc, a, b)?.is_lt() {
            less = less.saturating_add(1);
        }
    }
    Ok(less)
}

// How many of the amounts lie above the middle one.
fn compared_amounts(alloc: Global) -> Result<usize, AllocError> {
    let middle = Value::Amount(i64::from(NUMBERS / 2));
    let mut above = 0_usize;
    for number in 0..NUMBERS {
        if compare(alloc, &middle, &Value::Amount(i64::from(number)))?.is_lt() {
            above = above.saturating_add(1);
        }
    }
    Ok(above)
}

// The last bytes of all the amounts' spellings, added up.
#[tactic(auto, unfolding(dv_value::specs::Spelling::HasSpelling))]
fn spelled_amounts(alloc: Global) -> Result<usize, AllocError> {
    let mut sum = 0_usize;
    let mut out = Vec::new(alloc);
    for number in 0..NUMBERS {
        out.clear();
        put_value(alloc, &Value::Amount(i64::from(number)), &mut out)?;
        sum = sum.saturating_add(match out.last() {
            Some(byte) => usize::from(*byte),
            None => 0,
        });
    }
    Ok(sum)
}

// How many bytes all the spellings have.
fn spelled(alloc: Global, value: &Value) -> Result<usize, AllocError>
    requires { HasSpelling value.now }
{
    let mut bytes = 0_usize;
    let mut out = Vec::new(alloc);
    for _ in 0..TEXTS {
        out.clear();
        put_value(alloc, value, &mut out)?;
        bytes = bytes.saturating_add(out.len());
    }
    Ok(bytes)
}

#[tactic(auto, unfolding(dv_value::specs::Spelling::HasSpelling))]
fn work(alloc: Global, word: &str) -> Result<usize, AllocError> {
    if word == "texts" {
        let a = Value::Text(Text::from_str(alloc, "Contoso Ltd 0001")?);
        let b = Value::Text(Text::from_str(alloc, "contoso ltd 0002")?);
        return Ok(compared(alloc, &a, &b)?);
    }
    if word == "amounts" {
        return Ok(compared_amounts(alloc)?);
    }
    if word == "spelled amounts" {
        return Ok(spelled_amounts(alloc)?);
    }
    let text = Text::from_str(alloc, "Contoso Ltd 0001")?;
    if word != "spelled texts" || text.as_str().len() > 100 {
        return Ok(0);
    }
    Ok(spelled(alloc, &Value::Text(text))?)
}

// The words after the program's name.
fn words_of(rt: &HostRuntime) -> io::Result<Vec<String>> {
    let mut words = Vec::new(rt.alloc());
    for word in env::args(rt)?.skip(1) {
        words.push(word)?;
    }
    Ok(words)
}

fn main(rt: HostRuntime) -> ExitCode {
    let Ok(words) = words_of(&rt) else {
        return ExitCode::from(2);
    };
    for word in words.as_slice() {
        match work(rt.alloc(), word.as_str()) {
            Ok(count) => match println!(rt; "{count}") {
                Ok(()) => (),
                Err(_) => return ExitCode::from(3),
            },
            Err(_) => return ExitCode::from(9),
        }
    }
    ExitCode::from(0)
}
"""


def timed(words):
    start = time.perf_counter()
    run = subprocess.run([program] + words, stdout=subprocess.PIPE, text=True, check=True)
    return time.perf_counter() - start, run.stdout.split()


def peer(what):
    a, b, number = "Contoso Ltd 0001", "contoso ltd 0002", 150
    start = time.perf_counter()
    if what == "texts":
        for _ in range(PEER):
            a.casefold().encode() < b.casefold().encode()
    elif what == "amounts":
        for _ in range(PEER):
            number < PEER
    elif what == "spelled amounts":
        for _ in range(PEER):
            struct.pack(">Bq", 4, number)
    else:
        for _ in range(PEER):
            data = a.encode()
            struct.pack(">BI", 6, len(data)) + data
    return time.perf_counter() - start


program = build("bench_values", "dv_value", MAIN)
started, _ = timed([])
LAST_BYTES = sum(range(256)) * (NUMBERS // 256) + sum(range(NUMBERS % 256))
for what, times, count in (("texts", TEXTS, TEXTS), ("amounts", NUMBERS, NUMBERS // 2 - 1),
                           ("spelled amounts", NUMBERS, LAST_BYTES), ("spelled texts", TEXTS, 21 * TEXTS)):
    seconds, counted = timed([what])
    assert counted == [str(count)], (what, counted)
    seconds = max(seconds - started, 1e-6)
    ratio = peer(what) / PEER * times / seconds
    print(f"{what}: {times / seconds:,.0f} a second, {ratio:.2f} times the speed of Python")
