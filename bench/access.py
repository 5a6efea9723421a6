#!/usr/bin/env python3
"""Makes an organisation of 10,000 users with the administrator, 1,000 units, 5,000 teams, 500 roles and 200,000 rows,
and prints how many checks of a row the built code does in a second, and how long it takes to list the rows that a user
may read.

    bench/access.py

Beside the checks stands, from the same run, the look-up of the same rows in the store; beside a list of permitted rows,
the walk over all rows of the table, which is what a program without indexes would do before it judges any of them.
"""
import subprocess

from built import build

MAIN = """//! Makes a large organisation, and prints how many microseconds each phase took.
#![tactic(auto)]


use anyhow::Result;
use dv_access::{check, permitted};
use dv_meta::read_definition;
use dv_roles::Directory;
use dv_schema::{Action, Definition, Entry, Role};
use dv_store::{Row, Store, Walk};
use dv_units::DirFault;
use dv_value::{Id, Text, Value};
use sqlite_items::Items;
use std::alloc::{AllocError, Global};
use std::time::{Clock, Instant};

const TEXT: &str = "{\\"root\\":\\"00000000-0000-0000-0000-000000000064\\",\\"admin\\":\\"00000000-0000-0000-0000-000000000065\\",\\"tables\\":[{\\"name\\":\\"account\\",\\"owned\\":\\"user\\",\\"columns\\":[{\\"name\\":\\"name\\",\\"type\\":\\"text\\",\\"max\\":100}]}],\\"relationships\\":[],\\"steps\\":[],\\"units\\":[],\\"roles\\":[],\\"users\\":[],\\"teams\\":[]}";

const UNITS: u64 = 1_000;
const USERS: u64 = 9_999;
const TEAMS: u64 = 5_000;
const ROLES: u64 = 500;
const ROWS: u64 = 200_000;
const CHECKS: u64 = 200_000;
const LISTS: u64 = 100;

fn put(store: &mut Store, id: Id, row: Row) -> Result<(), AllocError> {
    match store.put_row(0, id, row) {
        Ok(()) => Ok(()),
        Err(_) => Err(AllocError),
    }
}

fn share(store: &mut Store, id: Id, principal: Id) -> Result<(), AllocError> {
    if !store.is_owned(0) || store.row(0, id).is_none() {
        return Err(AllocError);
    }
    match store.set_grant(0, id, principal, 1, 0) {
        Ok(()) => Ok(()),
        Err(_) => Err(AllocError),
    }
}

fn made(outcome: Result<(), DirFault>) -> Result<(), AllocError> {
    match outcome {
        Ok(()) => Ok(()),
        Err(_) => Err(AllocError),
    }
}

// The id of a number behind a first one. Unit 0 is the root.
fn id_at(first: u64, number: u64) -> Id {
    Id(u128::from(first.wrapping_add(number)))
}

fn unit_at(number: u64) -> Id {
    id_at(100, if number == 0 { 0 } else { number.wrapping_add(1_000) })
}

fn user_at(number: u64) -> Id {
    id_at(100_000, number % USERS)
}

fn team_at(number: u64) -> Id {
    id_at(200_000, number % TEAMS)
}

fn role_at(number: u64) -> Id {
    id_at(300_000, number % ROLES)
}

fn row_at(number: u64) -> Id {
    id_at(1_000_000, number.wrapping_mul(7_919) % ROWS)
}

// Ten units below each.
fn make_units(directory: &mut Directory) -> Result<(), AllocError> {
    for number in 1..UNITS {
        let parent = unit_at(number.wrapping_sub(1) / 10);
        made(directory.units_mut().add_unit(unit_at(number), parent))?;
    }
    Ok(())
}

// Roles of the depths of a user, a business unit and those below it.
fn make_roles(alloc: Global, definition: &Definition, directory: &mut Directory) -> Result<(), AllocError> {
    for number in 0..ROLES {
        let depth = (number % 3) as u8;
        let mut entries = Items::new(alloc);
        entries.push(Entry {
            action: Some(Action::Read),
            table: Some(Text::from_str(alloc, "account")?),
            depth,
        })?;
        let role = Role {
            id: role_at(number),
            direct: false,
            manage: false,
            entries,
        };
        made(directory.add_role(definition, &role))?;
    }
    Ok(())
}

fn make_users(directory: &mut Directory) -> Result<(), AllocError> {
    for number in 0..USERS {
        let user = user_at(number);
        made(directory.units_mut().add_user(user, unit_at(number % UNITS)))?;
        made(directory.give_role(role_at(number), user))?;
    }
    Ok(())
}

// Each user is in four teams, and each tenth team has a role.
fn make_teams(directory: &mut Directory) -> Result<(), AllocError> {
    for number in 0..TEAMS {
        let team = team_at(number);
        made(directory.units_mut().add_team(team, unit_at(number % UNITS), false))?;
        if number % 10 == 0 {
            made(directory.give_role(role_at(number), team))?;
        }
    }
    for number in 0..USERS.wrapping_mul(4) {
        let team = team_at(number.wrapping_mul(31) / 4);
        made(directory.units_mut().add_member(team, user_at(number / 4)))?;
    }
    Ok(())
}

fn row_of(alloc: Global, owner: Id) -> Result<Row, AllocError> {
    let mut values = Items::new(alloc);
    values.push(Value::Ref(owner))?;
    values.push(Value::Moment(0))?;
    values.push(Value::Ref(owner))?;
    values.push(Value::Moment(0))?;
    values.push(Value::Ref(owner))?;
    Ok(Row { values })
}

// Each fifth row is a team's, and each second one is shared with a team.
fn make_rows(alloc: Global, store: &mut Store) -> Result<(), AllocError> {
    for number in 0..ROWS {
        let owner = if number % 5 == 0 { team_at(number / 5) } else { user_at(number) };
        put(store, row_at(number), row_of(alloc, owner)?)?;
        if number % 2 == 0 {
            share(store, row_at(number), team_at(number.wrapping_mul(13)))?;
        }
    }
    store.forget();
    Ok(())
}

fn look_up_all(store: &Store) -> u64 {
    let mut found = 0_u64;
    for number in 0..CHECKS {
        if store.row(0, row_at(number.wrapping_mul(101))).is_some() {
            found = found.wrapping_add(1);
        }
    }
    found
}

fn check_all(directory: &Directory, store: &Store) -> u64 {
    let mut permitted = 0_u64;
    for number in 0..CHECKS {
        let id = row_at(number.wrapping_mul(101));
        if store.row(0, id).is_some() {
            if check(directory, store, user_at(number), Action::Read, 0, id).is_ok() {
                permitted = permitted.wrapping_add(1);
            }
        }
    }
    permitted
}

// The number of rows that users of all depths may read, together.
fn list_all(alloc: Global, directory: &Directory, store: &Store) -> Result<u64, AllocError> {
    let mut rows = 0_u64;
    for number in 0..LISTS {
        let mut walk = Walk::new(store);
        let ids = permitted(alloc, directory, &mut walk, user_at(number.wrapping_mul(37)), 0)?;
        rows = rows.wrapping_add(ids.len() as u64);
    }
    Ok(rows)
}

fn walk_all(store: &Store) -> u64 {
    let mut rows = 0_u64;
    let mut after = None;
    for _ in 0..ROWS {
        if let Some(id) = store.row_after(0, after) {
            rows = rows.wrapping_add(1);
            after = Some(id);
        }
    }
    rows
}

// Prints how long a phase took.
fn tell(rt: &(impl Print + Clock), phase: &str, since: Instant) -> Result<()> {
    let spent = since.elapsed(rt)?.as_micros();
    println!(rt; "{phase}={spent}")?;
    Ok(())
}

fn measure(rt: &HostRuntime, directory: &Directory, store: &Store) -> Result<()> {
    let since = Instant::now(rt)?;
    let found = look_up_all(store);
    tell(rt, "look-ups", since)?;
    let since = Instant::now(rt)?;
    let allowed = check_all(directory, store);
    tell(rt, "checks", since)?;
    let since = Instant::now(rt)?;
    let listed = list_all(rt.alloc(), directory, store)?;
    tell(rt, "lists", since)?;
    let since = Instant::now(rt)?;
    let walked = walk_all(store);
    tell(rt, "walk", since)?;
    println!(rt; "found={found}\\nallowed={allowed}\\nlisted={listed}\\nwalked={walked}")?;
    Ok(())
}

fn make(alloc: Global, definition: &Definition, directory: &mut Directory) -> Result<(), AllocError> {
    make_units(directory)?;
    make_roles(alloc, definition, directory)?;
    make_users(directory)?;
    make_teams(directory)
}

fn main(rt: HostRuntime) -> Result<()> {
    let Ok(definition) = read_definition(rt.alloc(), TEXT.as_bytes(), 0) else {
        return Ok(());
    };
    let Ok(mut directory) = Directory::begin(rt.alloc(), &definition) else {
        return Ok(());
    };
    let since = Instant::now(&rt)?;
    make(rt.alloc(), &definition, &mut directory)?;
    let mut store = Store::new(rt.alloc(), &definition)?;
    make_rows(rt.alloc(), &mut store)?;
    tell(&rt, "making", since)?;
    measure(&rt, &directory, &store)
}
"""

CHECKS, LISTS, ROWS = 200_000, 100, 200_000

program = build("bench_access", "dv_access dv_meta dv_roles dv_units dv_store dv_schema dv_value sqlite_items anyhow", MAIN)
run = subprocess.run([program], stdout=subprocess.PIPE, text=True, check=True)
told = {line.split("=")[0]: int(line.split("=")[1]) for line in run.stdout.splitlines()}
assert told["found"] == CHECKS and told["walked"] == ROWS, told
spent = {phase: max(told[phase], 1) for phase in ("making", "look-ups", "checks", "lists", "walk")}
print(f"making the organisation: {spent['making'] / 1_000_000:.1f} s")
print(f"checks: {CHECKS * 1_000_000 / spent['checks']:,.0f} a second ({told['allowed']:,} of {CHECKS:,} permitted), each as "
      f"long as {spent['checks'] / spent['look-ups']:.1f} look-ups of its row")
print(f"lists of permitted rows: {LISTS * 1_000_000 / spent['lists']:,.0f} a second, of {told['listed'] / LISTS:,.0f} rows each "
      f"on average, {spent['walk'] * LISTS / spent['lists']:.1f} times the speed of a walk over the {ROWS:,} rows")
