#!/usr/bin/env python3
"""Writes scenarios of random requests over a small office with lookups, with the replies that must come.

    bench/office_worlds.py > crates/scenarios/data/scenarios/generated.txt

The evaluator below keeps plain lists of rows and grants. It walks all relationships over all rows for each closure, and
asks a formula for each right. It shares nothing with the service. Each scenario ends with all rows and all shares.
"""
import random

random.seed(20261202)
SCENARIOS, REQUESTS = 40, 50
ADMIN = 101
TABLES = ["account", "contact", "note", "task"]
TEXT = {"account": "name", "contact": "name", "note": "body", "task": "name"}
LOOKUPS = {"account": {"parent": "account"}, "contact": {"account": "account"}, "note": {"contact": "contact"},
           "task": {"guard": "task", "twin": "task"}}
RIGHTS = {"Read": 1, "Write": 2, "Append": 4, "AppendTo": 16, "Delete": 65536, "Share": 262144, "Assign": 524288}
ALL = sum(RIGHTS.values())


class Relationship:
    def __init__(self, name, parent, child, column, delete, **kinds):
        self.name, self.parent, self.child, self.column = name, parent, child, column
        self.kinds = {"delete": delete, "assign": "none", "share": "none", "unshare": "none", "reparent": "none", **kinds}
        self.is_parental = any(self.kinds[it] != "none" for it in ("assign", "share", "unshare", "reparent"))


PASSED_ON = {"assign": "owned", "share": "all", "unshare": "all", "reparent": "all"}
RELATIONSHIPS = [
    Relationship("account_contact", "account", "contact", "account", "all", **PASSED_ON),
    Relationship("contact_note", "contact", "note", "contact", "all", **PASSED_ON),
    Relationship("account_parent", "account", "account", "parent", "restrict", reparent="all"),
    Relationship("task_twin", "task", "task", "twin", "all"),
    Relationship("task_guard", "task", "task", "guard", "restrict")]

UNIT = {11: 110, 12: 110, 13: 110, 21: 120, 22: 120, 101: 100, 31: 110, 32: 110, 110: 110, 120: 120, 100: 100}
TEAMS = {11: [110], 12: [110], 13: [110, 31, 32], 21: [120], 22: [120], 101: [100]}
OWNERS = {11, 12, 13, 21, 22, 101, 31, 110, 120, 100}


class Refused(Exception):
    pass


def refuse(text):
    raise Refused("{" + f'"refused":{{{text}}}' + "}")


class World:
    def __init__(self):
        self.rows, self.grants, self.version, self.last_id = {}, {}, 0, 0

    # rows are found by (number of the table, id), so that sorted keys are in the order of versions
    def rows_of(self, table):
        return [key for key in sorted(self.rows) if TABLES[key[0]] == table]

    def owner(self, key):
        return self.rows[key]["ownerid"]

    def named(self, relationship, key):
        return self.rows[key][relationship.column]

    def links(self):
        """Each link: its relationship, the parent and the child."""
        for r in RELATIONSHIPS:
            for child in self.rows_of(r.child):
                if self.named(r, child) is not None:
                    yield r, (TABLES.index(r.parent), self.named(r, child)), child

    def closure(self, what, target):
        found, grew = {target}, True
        while grew:
            grew = False
            for r, parent, child in self.links():
                kind = r.kinds[what]
                follows = kind == "all" or kind == "owned" and self.owner(parent) == self.owner(child)
                if parent in found and child not in found and follows:
                    found.add(child)
                    grew = True
        return sorted(found)

    def parent(self, key):
        for r, parent, child in self.links():
            if child == key and r.is_parental:
                return parent
        return None

    def rights(self, key, principal):
        return self.grants.get((key, principal), (0, 0))

    def give(self, key, principal, direct, inherited):
        self.grants.pop((key, principal), None)
        if direct or inherited:
            self.grants[key, principal] = (direct, inherited)


def holds(user, action, table):
    """How far a privilege reaches: nothing, own rows, those of the user's unit and below, all."""
    if user == ADMIN:
        return "all"
    if user in (11, 12, 21):
        return "own"
    if user == 22 and action == "Read" and table == "account":
        return "unit"
    return None


def reaches(user, action, table, owner):
    how = holds(user, action, table)
    return how == "all" or how == "own" and owner in [user, *TEAMS[user]] or how == "unit" and UNIT[owner] == UNIT[user]


def need(user, action, table, is_permitted):
    if not is_permitted:
        why = "OutOfReach" if holds(user, action, table) else "NoPrivilege"
        refuse(f'"nr":20,"privilege":"prv{action}{table}","why":"{why}"')


def is_permitted(w, user, action, key):
    table = TABLES[key[0]]
    if reaches(user, action, table, w.owner(key)):
        return True
    shared = any(sum(w.rights(key, it)) and (w.rights(key, it)[0] | w.rights(key, it)[1]) & RIGHTS[action]
                 for it in [user, *TEAMS[user]])
    return bool(holds(user, action, table) and shared)


def need_on(w, user, action, key):
    need(user, action, TABLES[key[0]], is_permitted(w, user, action, key))


def need_row(w, key):
    if key not in w.rows:
        refuse(f'"id":"#{key[1]}","nr":21,"table":"{TABLES[key[0]]}"')


def check_lookups(w, user, table, values, may_append):
    for column in sorted(LOOKUPS[table]):
        if values.get(column) is not None:
            may_append()
            named = (TABLES.index(LOOKUPS[table][column]), values[column])
            need_row(w, named)
            need_on(w, user, "AppendTo", named)


def settle(w, moved, before):
    """A row has another parent than before: it and the rows under it inherit anew."""
    if w.parent(moved) == before:
        return
    old, top = dict(w.grants), w.parent(moved)
    for key in w.closure("reparent", moved):
        above, at = [], key
        while at != moved:
            at = w.parent(at)
            above.append(at)
        gives = {}
        if top is not None:
            for (row, principal), (direct, inherited) in old.items():
                if row == top:
                    gives[principal] = gives.get(principal, 0) | direct | inherited
            gives[w.owner(top)] = ALL
        for row in above:
            for (other, principal), (direct, inherited) in old.items():
                if other == row:
                    gives[principal] = gives.get(principal, 0) | direct
            gives[w.owner(row)] = ALL
        for principal in {p for row, p in old if row == key} | set(gives):
            w.give(key, principal, old.get((key, principal), (0, 0))[0], gives.get(principal, 0))


def create(w, user, table, values):
    owner = values.get("ownerid", user)
    if owner not in OWNERS:
        refuse('"nr":28')
    need(user, "Create", table, reaches(user, "Create", table, owner))
    check_lookups(w, user, table, values, lambda: need(user, "Append", table, reaches(user, "Append", table, owner)))
    if table == "account" and values.get("name") is None:
        refuse('"column":"name","nr":18')
    w.last_id += 1
    w.version += 1
    key = (TABLES.index(table), w.last_id)
    row = {TEXT[table]: values.get(TEXT[table]), "ownerid": owner, "versionnumber": w.version}
    w.rows[key] = {**row, **{it: values.get(it) for it in LOOKUPS[table]}}
    settle(w, key, None)
    return f'"id":"#{w.last_id}"'


def is_at_or_below(w, key, other):
    while key is not None:
        if key == other:
            return True
        key = w.parent(key)
    return False


def update(w, user, key, values, version):
    table = TABLES[key[0]]
    need_row(w, key)
    need_on(w, user, "Write", key)
    check_lookups(w, user, table, values, lambda: need_on(w, user, "Append", key))
    kept = w.rows[key]["versionnumber"]
    if version is not None and version != kept:
        refuse(f'"kept":"{kept}","nr":23')
    if table == "account" and {**w.rows[key], **values}["name"] is None:
        refuse('"column":"name","nr":18')
    for r in RELATIONSHIPS:
        if r.is_parental and r.child == table and values.get(r.column) is not None:
            if is_at_or_below(w, (TABLES.index(r.parent), values[r.column]), key):
                refuse(f'"nr":26,"relationship":"{r.name}"')
    before = w.parent(key)
    w.version += 1
    w.rows[key].update(values, versionnumber=w.version)
    settle(w, key, before)
    return ""


def delete(w, user, key, version):
    need_row(w, key)
    need_on(w, user, "Delete", key)
    kept = w.rows[key]["versionnumber"]
    if version is not None and version != kept:
        refuse(f'"kept":"{kept}","nr":23')
    going = w.closure("delete", key)
    for row in going:
        need_on(w, user, "Delete", row)
    for r in RELATIONSHIPS:
        if r.kinds["delete"] == "restrict" and any(
                it is r and parent in going and child not in going for it, parent, child in w.links()):
            refuse(f'"nr":25,"relationship":"{r.name}"')
    for row in going:
        w.version += 1
        del w.rows[row]
    w.grants = {at: rights for at, rights in w.grants.items() if at[0] not in going}
    return ""


def assign(w, user, key, owner):
    if owner not in OWNERS:
        refuse('"nr":28')
    need_row(w, key)
    need_on(w, user, "Assign", key)
    reached = w.closure("assign", key)
    for row in reached:
        need_on(w, user, "Assign", row)
    for row in reached:
        w.version += 1
        w.rows[row].update(ownerid=owner, versionnumber=w.version)
    return ""


def share(w, user, key, principal, mask, is_anew):
    if principal not in UNIT:
        refuse('"nr":28')
    need_row(w, key)
    need_on(w, user, "Share", key)
    for action, right in sorted(RIGHTS.items(), key=lambda it: it[1]):
        if mask & right:
            need_on(w, user, action, key)
    shared, unshared = w.closure("share", key), w.closure("unshare", key)
    if is_anew:
        take(w, key, principal, unshared)
    for row in shared:
        direct, inherited = w.rights(row, principal)
        w.give(row, principal, direct | mask if row == key else direct, inherited if row == key else inherited | mask)
    return ""


def take(w, key, principal, rows):
    for row in rows:
        w.give(row, principal, 0 if row == key else w.rights(row, principal)[0], 0)


def revoke(w, user, key, principal):
    if principal not in UNIT:
        refuse('"nr":28')
    need_row(w, key)
    need_on(w, user, "Share", key)
    take(w, key, principal, w.closure("unshare", key))
    return ""


def printed(value):
    return "null" if value is None else f'"#{value}"'


def query(w, user, table):
    if not holds(user, "Read", table):
        refuse(f'"nr":20,"privilege":"prvRead{table}","why":"NoPrivilege"')
    columns = sorted([*LOOKUPS[table], "id", "ownerid", "versionnumber"])
    rows = []
    for key in w.rows_of(table):
        if is_permitted(w, user, "Read", key):
            row = {**w.rows[key], "id": key[1]}
            shown = {it: f'"{row[it]}"' if it == "versionnumber" else printed(row[it]) for it in columns}
            rows.append("{" + ",".join(f'"{it}":{shown[it]}' for it in columns) + "}")
    return f'"cookie":null,"more":false,"over":null,"rows":[{",".join(rows)}],"total":null'


def shares(w, user, key):
    need_row(w, key)
    need_on(w, user, "Read", key)
    given = sorted((principal, rights) for (row, principal), rights in w.grants.items() if row == key)
    told = ",".join(f'{{"direct":{d},"inherited":{i},"principal":"#{p}"}}' for p, (d, i) in given)
    return f'"shares":[{told}]'


def say(w, user, request, effect):
    print(f"#{user}> {{{request}}}")
    try:
        print("= {" + f'"ok":{{{effect(w, user)}}}' + "}")
    except Refused as it:
        print(f"= {it}")


def on_row(do, key, more=""):
    return f'"do":"{do}","table":"{TABLES[key[0]]}","id":"#{key[1]}"{more}'


def values_of(table, values):
    shown = {it: printed(v) if it in LOOKUPS[table] or it == "ownerid" else ("null" if v is None else f'"{v}"')
             for it, v in values.items()}
    return ",".join(f'"{it}":{shown[it]}' for it in sorted(values))


def some_values(w, table, is_new):
    values = {}
    if is_new or random.random() < 0.4:
        values[TEXT[table]] = "x" if random.random() < 0.95 else None
    for column, named in LOOKUPS[table].items():
        if random.random() < 0.6:
            ids = [key[1] for key in w.rows_of(named)]
            values[column] = random.choice([*ids, *ids, *ids, *ids, None, None, w.last_id + 1])
    if is_new and random.random() < 0.6:
        values["ownerid"] = random.choice([11, 11, 11, 12, 12, 21, 13, 31, 110, 32])
    return values


def ask(w):
    user = random.choice([ADMIN] * 6 + [11, 11, 12, 21, 22])
    keys = sorted(w.rows)
    do = random.choice(["create"] * 6 + ["update"] * 6 + ["delete"] * 2 + ["assign", "assign", "grant", "grant", "modify", "revoke", "query"])
    if do == "create" or len(keys) < 6:
        table = random.choice(TABLES)
        values = some_values(w, table, True)
        return say(w, user, f'"do":"create","table":"{table}","values":{{{values_of(table, values)}}}',
                   lambda w, user: create(w, user, table, values))
    key = random.choice(keys) if random.random() < 0.97 else (random.randrange(4), w.last_id + 2)
    version = None
    if do in ("update", "delete") and random.random() < 0.15:
        version = w.rows[key]["versionnumber"] if key in w.rows and random.random() < 0.5 else 1
    at = "" if version is None else f',"version":"{version}"'
    principal, mask = random.choice([11, 11, 12, 12, 13, 21, 22, 31, 32, 110, 120, 99]), random.choice([1, 3, 17, 65537, 524289, ALL])
    if do == "update":
        values = some_values(w, TABLES[key[0]], False)
        return say(w, user, on_row(do, key, f',"values":{{{values_of(TABLES[key[0]], values)}}}{at}'),
                   lambda w, user: update(w, user, key, values, version))
    if do == "delete":
        return say(w, user, on_row(do, key, at), lambda w, user: delete(w, user, key, version))
    if do == "assign":
        return say(w, user, on_row(do, key, f',"owner":"#{principal}"'), lambda w, user: assign(w, user, key, principal))
    if do in ("grant", "modify"):
        return say(w, user, on_row(do, key, f',"principal":"#{principal}","rights":{mask}'),
                   lambda w, user: share(w, user, key, principal, mask, do == "modify"))
    if do == "revoke":
        return say(w, user, on_row(do, key, f',"principal":"#{principal}"'), lambda w, user: revoke(w, user, key, principal))
    return ask_query(w, user, TABLES[key[0]])


def ask_query(w, user, table):
    columns = ",".join(f'"{it}"' for it in sorted([*LOOKUPS[table], "ownerid", "versionnumber"]))
    say(w, user, f'"do":"query","table":"{table}","columns":[{columns}]', lambda w, user: query(w, user, table))


print("# Written by bench/office_worlds.py: random requests over an office, with the replies of a plain evaluator.")
for number in range(SCENARIOS):
    print(f"\nscenario random requests, part {number + 1}\npieces 4096\n> {{linked_office}}\n= {{\"ok\":{{\"tables\":5}}}}")
    world = World()
    for _ in range(REQUESTS):
        ask(world)
    for each in TABLES:
        ask_query(world, ADMIN, each)
    for key in sorted(world.rows):
        say(world, ADMIN, on_row("shares", key), lambda w, user: shares(w, user, key))
    print("status 0")
