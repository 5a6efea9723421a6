#!/usr/bin/env python3
"""Fills a store to its limit of 200,000 rows, and prints how many closures of 1, 100 and 10,000 rows the built code finds
in a second.

    bench/cascade.py      builds a small program over the crate first (built.py), which may take minutes

Half of the rows stand in trees of 10,000 rows, a quarter in trees of 100, the others alone. A row of a tree has three
children, or none. Beside the closures stands, from the same run, the look-up of as
many rows of the same store, one by one.
"""
import subprocess

from built import build

MAIN = """//! Fills a store with trees of rows, and prints how many microseconds the closures of each size took.
#![tactic(auto)]
ghost use Rattle.std.specs.Prelude.{◌≡◌};

use anyhow::Result;
use dv_cascade::{Cascading, closure};
use dv_meta::read_definition;
use dv_schema::Definition;
use dv_store::{Row, RowKey, Store};
use dv_value::{Id, Value};
use sqlite_items::Items;
use std::alloc::{AllocError, Global};
use std::marker::Model;
use std::time::{Clock, Instant};

const TEXT: &str = "{\\"root\\":\\"00000000-0000-0000-0000-000000000064\\",\\"admin\\":\\"00000000-0000-0000-0000-000000000065\\",\\"tables\\":[{\\"name\\":\\"account\\",\\"owned\\":\\"user\\",\\"columns\\":[{\\"name\\":\\"parent\\",\\"type\\":\\"lookup\\"}]}],\\"relationships\\":[{\\"name\\":\\"account_parent\\",\\"parent\\":\\"account\\",\\"child\\":\\"account\\",\\"column\\":\\"parent\\",\\"delete\\":\\"cascade\\"}],\\"steps\\":[],\\"units\\":[],\\"roles\\":[],\\"users\\":[],\\"teams\\":[]}";

// So many trees of so many rows, with ids from a first one on. Each is closed so many times.
#[derive(Clone, Copy)]
struct Wood {
    first: u64,
    trees: u64,
    rows: u64,
    times: u64,
}

const WOODS: [Wood; 3] = [
    Wood { first: 1_000_000, trees: 50_000, rows: 1, times: 4 },
    Wood { first: 2_000_000, trees: 500, rows: 100, times: 4 },
    Wood { first: 3_000_000, trees: 10, rows: 10_000, times: 2 },
];

// A definition, and a store of it.
#[derive(Drop)]
struct Scene {
    definition: Definition,
    store: Store,
}

impl Model for Scene {
    ghost use Rattle.std.specs.Prelude.{◌≡◌, Bool, true};
    ghost use Rattle.dv_store.specs.Shapes.{shape_of};

    ghost Value = { Bool };

    ghost view = { λ s. true };

    ghost invariant = { λ s. s.store.present.shape ≡ shape_of s.definition };
}

impl Scene {
    fn new(alloc: Global, definition: Definition) -> Result<Scene, AllocError> {
        let store = Store::new(alloc, &definition)?;
        Ok(Scene { definition, store })
    }

    #[tactic(auto, unfolding(dv_store::specs::World::row_put))]
    fn put(&mut self, id: Id, row: Row) -> Result<(), AllocError> {
        match self.store.put_row(0, id, row) {
            Ok(()) => Ok(()),
            Err(_) => Err(AllocError),
        }
    }

    fn settle(&mut self) {
        self.store.forget();
    }

    fn close(&self, alloc: Global, id: Id) -> Result<u64, AllocError> {
        let rows = closure(alloc, &self.store, &self.definition, Cascading::Delete, RowKey { table: 0, id })?;
        Ok(rows.len() as u64)
    }

    fn has(&self, id: Id) -> bool {
        self.store.row(0, id).is_some()
    }
}

fn id_at(first: u64, number: u64) -> Id {
    Id(u128::from(first.wrapping_add(number)))
}

fn row_of(alloc: Global, parent: Value) -> Result<Row, AllocError> {
    let mut values = Items::new(alloc);
    values.push(Value::Ref(Id(101)))?;
    values.push(Value::Moment(1_700_000_000))?;
    values.push(Value::Ref(Id(101)))?;
    values.push(Value::Moment(1_700_000_000))?;
    values.push(Value::Ref(Id(101)))?;
    values.push(Value::Choice(0))?;
    values.push(Value::Amount(1))?;
    values.push(parent)?;
    Ok(Row { values })
}

// The parent of a row of a tree: none for the first one.
fn parent_of(first: u64, number: u64) -> Value {
    if number == 0 {
        Value::Empty
    } else {
        Value::Ref(id_at(first, (number - 1) / 3))
    }
}

fn put_tree(alloc: Global, scene: &mut Scene, first: u64, rows: u64) -> Result<(), AllocError> {
    for number in 0..rows {
        let row = row_of(alloc, parent_of(first, number))?;
        scene.put(id_at(first, number), row)?;
    }
    Ok(())
}

fn put_wood(alloc: Global, scene: &mut Scene, wood: Wood) -> Result<(), AllocError> {
    for tree in 0..wood.trees {
        put_tree(alloc, scene, wood.first.wrapping_add(tree.wrapping_mul(wood.rows)), wood.rows)?;
    }
    Ok(())
}

// How many rows the closures of the trees have together.
fn close_wood(alloc: Global, scene: &Scene, wood: Wood) -> Result<u64, AllocError> {
    let mut rows = 0_u64;
    for tree in 0..wood.trees {
        let closed = scene.close(alloc, id_at(wood.first, tree.wrapping_mul(wood.rows)))?;
        rows = rows.wrapping_add(closed);
    }
    Ok(rows)
}

fn close_times(alloc: Global, scene: &Scene, wood: Wood) -> Result<u64, AllocError> {
    let mut rows = 0_u64;
    for _ in 0..wood.times {
        rows = rows.wrapping_add(close_wood(alloc, scene, wood)?);
    }
    Ok(rows)
}

fn look_up(scene: &Scene, wood: Wood) -> u64 {
    let mut found = 0_u64;
    for number in 0..wood.trees.wrapping_mul(wood.rows) {
        if scene.has(id_at(wood.first, number)) {
            found = found.wrapping_add(1);
        }
    }
    found
}

fn look_up_times(scene: &Scene, wood: Wood) -> u64 {
    let mut found = 0_u64;
    for _ in 0..wood.times {
        found = found.wrapping_add(look_up(scene, wood));
    }
    found
}

// Prints of a size the closures, their rows, and the microseconds that they and as many look-ups took.
fn measure(rt: &HostRuntime, scene: &Scene, wood: Wood) -> Result<()> {
    let since = Instant::now(rt)?;
    let rows = close_times(rt.alloc(), scene, wood)?;
    let closing = since.elapsed(rt)?.as_micros();
    let since = Instant::now(rt)?;
    let found = look_up_times(scene, wood);
    let looking = since.elapsed(rt)?.as_micros();
    let closures = wood.trees.wrapping_mul(wood.times);
    println!(rt; "{} {closures} {rows} {found} {closing} {looking}", wood.rows)?;
    Ok(())
}

fn main(rt: HostRuntime) -> Result<()> {
    let Ok(definition) = read_definition(rt.alloc(), TEXT.as_bytes(), 0) else {
        return Ok(());
    };
    let mut scene = Scene::new(rt.alloc(), definition)?;
    for wood in WOODS {
        put_wood(rt.alloc(), &mut scene, wood)?;
    }
    scene.settle();
    for wood in WOODS {
        measure(&rt, &scene, wood)?;
    }
    Ok(())
}
"""

program = build("bench_cascade", "dv_cascade dv_meta dv_schema dv_store dv_value sqlite_items anyhow", MAIN)
run = subprocess.run([program], stdout=subprocess.PIPE, text=True, check=True)
lines = run.stdout.splitlines()
assert len(lines) == 3, lines
for line in lines:
    size, closures, rows, found, closing, looking = map(int, line.split())
    assert rows == found == closures * size, line
    closing, looking = max(closing, 1), max(looking, 1)
    print(f"closures of {size:,} rows: {closures * 1_000_000 / closing:,.0f} a second, {rows * 1_000_000 / closing:,.0f} rows "
          f"a second, each as long as {closing / looking:.1f} look-ups of a row")
