#!/usr/bin/env python3
"""Reads HTTP messages many times over, and prints how many of them the built code reads in a second.

    bench/http.py      builds a small program over dv_http in a copy of the repository (built.py)

The peer is httparse alone in the same run, over the head of the same message. A message of a megabyte comes in pieces of
1,000 bytes, and the reader is called after each piece. Each call reads the head alone and the body is copied once, so
twice the body is wanted in about twice the time.
"""
import statistics
import subprocess

from built import build

MAIN = r"""//! Times the reader of messages against the reader of heads alone, and over a long body in pieces.
#![tactic(auto)]

use dv_http::{Heard, next_message};
use httparse::Status;
use httparse::spans::{EMPTY_HEADER_SPAN, parse_request};
use std::alloc::{AllocError, Global};
use std::io;
use std::time::Instant;

const TIMES: u32 = 200_000;

const ROUNDS: u32 = 9;

const MESSAGE: &[u8] = b"POST /org/whoami HTTP/1.1\r\nHost: localhost:8080\r\nUser-Agent: curl/8.5.0\r\nAccept: */*\r\nCaller: 00000000-0000-0000-0000-000000000065\r\nContent-Type: application/json\r\nContent-Length: 2\r\n\r\n{}";

fn messages(alloc: Global) -> u32 {
    let mut whole = 0_u32;
    for _ in 0..TIMES {
        if let Ok(Heard::Whole { .. }) = next_message(alloc, MESSAGE) {
            whole = whole.saturating_add(1);
        }
    }
    whole
}

fn heads() -> u32 {
    let mut whole = 0_u32;
    for _ in 0..TIMES {
        let mut headers = [EMPTY_HEADER_SPAN; 64];
        if let Ok(Status::Complete(_)) = parse_request(MESSAGE, &mut headers) {
            whole = whole.saturating_add(1);
        }
    }
    whole
}

fn long_message(alloc: Global, body: usize) -> Result<Vec<u8>, AllocError> {
    let mut bytes = Vec::new(alloc);
    bytes.extend_from_slice(b"POST /org/create HTTP/1.1\r\nContent-Length: ")?;
    bytes.extend_from_slice(body.to_string(alloc)?.as_bytes())?;
    bytes.extend_from_slice(b"\r\n\r\n")?;
    for _ in 0..body {
        bytes.push(b'x')?;
    }
    Ok(bytes)
}

// How often a message of that body is whole, if the reader is called after each piece of 1,000 bytes.
fn pieces(alloc: Global, bytes: &[u8]) -> u32 {
    let mut whole = 0_u32;
    for piece in 0..bytes.len() / 1_000 + 2 {
        let end = piece.saturating_mul(1_000).min(bytes.len());
        if let Ok(Heard::Whole { .. }) = next_message(alloc, bytes.get(..end).unwrap_or(&[])) {
            whole = whole.saturating_add(1);
        }
    }
    whole
}

fn main(rt: HostRuntime) -> io::Result<()> {
    let half = long_message(rt.alloc(), 524_288)?;
    let full = long_message(rt.alloc(), 1_048_576)?;
    for _ in 0..ROUNDS {
        let start = Instant::now(&rt)?;
        let count = messages(rt.alloc());
        println!(rt; "messages {count} {}", start.elapsed(&rt)?.as_micros())?;
        let start = Instant::now(&rt)?;
        let count = heads();
        println!(rt; "heads {count} {}", start.elapsed(&rt)?.as_micros())?;
        let start = Instant::now(&rt)?;
        let count = pieces(rt.alloc(), &half);
        println!(rt; "half {count} {}", start.elapsed(&rt)?.as_micros())?;
        let start = Instant::now(&rt)?;
        let count = pieces(rt.alloc(), &full);
        println!(rt; "full {count} {}", start.elapsed(&rt)?.as_micros())?;
    }
    Ok(())
}
"""

program = build("bench_http", "dv_http httparse sqlite_items", MAIN)
run = subprocess.run([program], stdout=subprocess.PIPE, check=True)
parts = {}
for name, count, micros in (each.split() for each in run.stdout.decode().splitlines()):
    assert int(count) > 0, f"{name} isn't read"
    parts.setdefault(name, []).append(int(micros))
times = 200_000
per_second = times / statistics.median(parts["messages"]) * 1e6
ratios = sorted(ours / peer for ours, peer in zip(parts["messages"], parts["heads"]))
print(f"a message of 190 bytes: {per_second:,.0f} a second, {statistics.median(ratios):.2f} times the time of its head in httparse "
      f"({ratios[0]:.2f} to {ratios[-1]:.2f})")
half, full = statistics.median(parts["half"]), statistics.median(parts["full"])
print(f"a megabyte in pieces of 1,000 bytes: {full / 1e3:,.2f} ms, {full / half:.2f} times the time of half of it")
