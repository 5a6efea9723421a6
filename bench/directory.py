#!/usr/bin/env python3
"""Asks what each user holds in a directory of 10,000 users, 1,000 units, 5,000 teams and 500 roles, and prints how
many such questions the built code answers in a second.

    bench/directory.py      builds a small program over the crates first (built.py), which may take minutes

Each user has two roles of its own and belongs to its unit's default team and to three further teams; each further team
has one role. The ratio is against look-ups in std's BTreeMap of 10,000 users in the same run: a question reads the
user's and its teams' gifts, and the roles that these name.
"""
import json
import subprocess

from built import build

MAIN = """//! Builds a directory, asks what each user holds, and prints the microseconds that each phase took.
#![tactic(auto)]

use anyhow::Result;
use dv_meta::read_definition;
use dv_roles::Directory;
use dv_schema::{Action, Definition, Entry, Role};
use dv_units::DirFault;
use dv_value::{Id, Text};
use sqlite_items::Items;
use std::alloc::{AllocError, Global};
use std::collections::BTreeMap;
use std::time::{Clock, Instant};

const UNITS: u64 = 1_000;
const USERS: u64 = 10_000;
const TEAMS: u64 = 5_000;
const ROLES: u64 = 500;

fn unit_of(number: u64) -> Id {
    Id(u128::from(number % UNITS) + 1)
}

fn user_of(number: u64) -> Id {
    Id(u128::from(number % USERS) + 100_000)
}

fn team_of(number: u64) -> Id {
    Id(u128::from(number % TEAMS) + 200_000)
}

fn role_of(number: u64) -> Id {
    Id(u128::from(number % ROLES) + 300_000)
}

fn role(alloc: Global, number: u64) -> Result<Role, AllocError> {
    let mut entries = Items::new(alloc);
    let table = Text::from_str(alloc, "account")?;
    entries.push(Entry {
        action: Some(Action::Read),
        table: Some(table),
        depth: (number % 4) as u8,
    })?;
    Ok(Role {
        id: role_of(number),
        direct: number % 2 == 0,
        manage: false,
        entries,
    })
}

fn add_chart(directory: &mut Directory) -> Result<(), DirFault> {
    for number in 1..UNITS {
        directory
            .units_mut()
            .add_unit(unit_of(number), unit_of(number / 4))?;
    }
    for number in 1..USERS {
        directory
            .units_mut()
            .add_user(user_of(number), unit_of(number))?;
    }
    for number in 0..TEAMS {
        directory
            .units_mut()
            .add_team(team_of(number), unit_of(number), false)?;
    }
    Ok(())
}

fn add_members(directory: &mut Directory) -> Result<(), DirFault> {
    for number in 0..USERS {
        for team in 0..3 {
            let team = team_of(number * 7 + team * 1_301);
            directory.units_mut().add_member(team, user_of(number))?;
        }
    }
    Ok(())
}

fn add_roles(alloc: Global, directory: &mut Directory, definition: &Definition) -> Result<(), DirFault> {
    for number in 0..ROLES {
        let role = role(alloc, number)?;
        directory.add_role(definition, &role)?;
    }
    for number in 0..USERS {
        directory.give_role(role_of(number), user_of(number))?;
        directory.give_role(role_of(number + 7), user_of(number))?;
    }
    for number in 0..TEAMS {
        directory.give_role(role_of(number), team_of(number))?;
    }
    Ok(())
}

// How many pairs a user holds.
fn count_held(directory: &Directory, user: Id) -> u64 {
    let mut held = directory.holds(user, Action::Read, 0);
    let mut pairs = 0_u64;
    for _ in 0..100 {
        match held.next() {
            Some(_) => pairs = pairs.saturating_add(1),
            None => return pairs,
        }
    }
    pairs
}

fn count_all(directory: &Directory) -> u64 {
    let mut pairs = 0_u64;
    for number in 0..USERS {
        pairs = pairs.saturating_add(count_held(directory, user_of(number)));
    }
    pairs
}

fn users_in_map(alloc: Global) -> Result<BTreeMap<Id, u64>, AllocError> {
    let mut map = BTreeMap::new(alloc);
    for number in 0..USERS {
        map.insert(user_of(number), number)?;
    }
    Ok(map)
}

fn look_up_all(map: &BTreeMap<Id, u64>) -> u64 {
    let mut sum = 0_u64;
    for number in 0..USERS {
        if let Some(value) = map.get(&user_of(number)) {
            sum = sum.wrapping_add(*value);
        }
    }
    sum
}

// Prints how long a phase took.
fn tell(rt: &(impl Print + Clock), phase: &str, since: Instant) -> Result<()> {
    let spent = since.elapsed(rt)?.as_micros();
    println!(rt; "{phase}={spent}")?;
    Ok(())
}

fn measure(rt: &HostRuntime, definition: &Definition) -> Result<()> {
    let since = Instant::now(rt)?;
    let Ok(mut directory) = Directory::begin(rt.alloc(), definition) else {
        return Ok(());
    };
    let made = add_chart(&mut directory).is_ok()
        && add_members(&mut directory).is_ok()
        && add_roles(rt.alloc(), &mut directory, definition).is_ok();
    tell(rt, "made", since)?;
    let since = Instant::now(rt)?;
    let pairs = count_all(&directory);
    tell(rt, "holds", since)?;
    let map = users_in_map(rt.alloc())?;
    let since = Instant::now(rt)?;
    let sum = look_up_all(&map);
    tell(rt, "map", since)?;
    println!(rt; "done={}", u64::from(made))?;
    println!(rt; "pairs={pairs}")?;
    println!(rt; "sum={sum}")?;
    Ok(())
}

fn main(rt: HostRuntime) -> Result<()> {
    for line in rt.lines(rt.alloc()) {
        let line = line?;
        if let Ok(definition) = read_definition(rt.alloc(), line.as_bytes(), 0) {
            measure(&rt, &definition)?;
        }
    }
    Ok(())
}
"""


def uuid(number):
    text = f"{number:032x}"
    return "-".join((text[:8], text[8:12], text[12:16], text[16:20], text[20:]))


DEFINITION = json.dumps({"root": uuid(1), "admin": uuid(100_000), "tables": [
    {"name": "account", "owned": "user", "columns": [{"name": "name", "type": "text", "max": 100}]}]})
USERS = 10_000

program = build("bench_directory", "dv_meta dv_roles dv_schema dv_units dv_value sqlite_items anyhow", MAIN)
done = subprocess.run([program], input=DEFINITION + "\n", stdout=subprocess.PIPE, text=True, check=True)
told = {line.split("=")[0]: int(line.split("=")[1]) for line in done.stdout.splitlines()}
assert told["done"] == 1, told
spent, beside = max(told["holds"], 1), max(told["map"], 1)
print(f"holds: {USERS * 1_000_000 / spent:,.0f} questions and {told['pairs'] * 1_000_000 / spent:,.0f} pairs a second, "
      f"{spent / beside:.0f} times the time of one look-up in a map of the users")
print(f"the whole directory is made in {told['made'] / 1000:,.0f} ms")
