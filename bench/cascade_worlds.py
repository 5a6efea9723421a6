#!/usr/bin/env python3
"""Prints crates/cascade_cases/data/generated: small worlds, with what each question must answer.

The answers come from the rules as they are said, over all pairs of rows until nothing is added, and from no part of
the code. The seed is fixed, so the file stays the same. Run it at the top of the repository:

    python3 bench/cascade_worlds.py > crates/cascade_cases/data/generated
"""

import json
import random

WORLDS = 1_000
ACTIONS = ["assign", "share", "unshare", "reparent", "delete"]
DATA = "crates/cascade_cases/data/"


def definition(name):
    """Which tables have owners, the columns of each, and the relationships."""
    with open(DATA + name, encoding="utf-8") as file:
        said = json.load(file)
    owned = {table["name"]: table["owned"] == "user" for table in said["tables"]}
    columns = {table["name"]: [column["name"] for column in table["columns"]] for table in said["tables"]}
    return owned, columns, said["relationships"]


def kind(relationship, action):
    """The cascade of a relationship for an action; what isn't said is none, or for a removal an emptied link."""
    return relationship.get(action, "removelink" if action == "delete" else "nocascade")


def world_of(chance, owned, relationships, descends):
    """Rows by table and id. Lookups name ids that may have no row; where the world descends, smaller ids than the row's
    own only, and rows have no owners."""
    rows = {}
    for table in owned:
        for number in range(1, chance.choice([2, 4, 5]) + 1):
            row = {}
            if owned[table] and not descends and chance.random() < 0.9:
                row["ownerid"] = chance.choice([11, 11, 12])
            if chance.random() < 0.9:
                row["statecode"] = chance.choice([0, 0, 1])
            for relationship in relationships:
                most = number - 1 if descends else 5
                if relationship["child"] == table and most > 0 and chance.random() < 0.7:
                    row[relationship["column"]] = chance.randint(1, most)
            rows[(table, number)] = row
    return rows


def allowed(rows, cascade, parent, child):
    if cascade == "cascade":
        return True
    if cascade == "active":
        return rows[child].get("statecode") == 0
    if cascade == "userowned":
        owner = rows[parent].get("ownerid")
        return owner is not None and owner == rows[child].get("ownerid")
    return False


def refers(rows, relationship, child, parent):
    return (
        child[0] == relationship["child"]
        and parent[0] == relationship["parent"]
        and rows[child].get(relationship["column"]) == parent[1]
    )


def closure(rows, relationships, action, target):
    """Adds rows until no pair of rows adds one."""
    reached = {target} if target in rows else set()
    grows = True
    while grows:
        more = {
            child
            for child in rows
            for parent in reached
            for relationship in relationships
            if refers(rows, relationship, child, parent)
            and allowed(rows, kind(relationship, action), parent, child)
        }
        grows = not more <= reached
        reached |= more
    return reached


def blocking(rows, relationships, target):
    """The first relationship that restricts removals and by which a row outside names one that would go."""
    gone = closure(rows, relationships, "delete", target)
    for relationship in relationships:
        if kind(relationship, "delete") == "restrict" and any(
            refers(rows, relationship, child, parent)
            for child in rows
            if child not in gone
            for parent in gone
        ):
            return relationship["name"]
    return "none"


def emptied(rows, relationships, gone):
    """The lookups of rows outside that name one that would go, by relationships that empty them."""
    return {
        (child, relationship["column"])
        for relationship in relationships
        if kind(relationship, "delete") == "removelink"
        for child in rows
        if child not in gone and any(refers(rows, relationship, child, parent) for parent in gone)
    }


def is_parental(relationship):
    return any(kind(relationship, action) != "nocascade" for action in ACTIONS if action != "delete")


def above(rows, relationships, parent):
    """A parent and the rows above it: adds what is above until nothing is added."""
    reached = {parent}
    grows = True
    while grows:
        more = {
            (relationship["parent"], rows[child][relationship["column"]])
            for relationship in relationships
            if is_parental(relationship)
            for child in reached
            if child in rows and child[0] == relationship["child"] and relationship["column"] in rows[child]
        }
        grows = not more <= reached
        reached |= more
    return reached


def ordered(order, keys):
    return sorted(keys, key=lambda key: (order[key[0]], key[1]))


def words(keys):
    return " ".join(f"{table}#{number}" for table, number in keys) or "none"


def value(name, number):
    return f"{name}={number}" if name == "statecode" else f"{name}=#{number}"


def lookup_words(order, columns, lookups):
    """Lookups by table, id and column."""
    keys = sorted(lookups, key=lambda key: (order[key[0][0]], key[0][1], columns[key[0][0]].index(key[1])))
    return " ".join(f"{table}#{number}.{column}" for (table, number), column in keys) or "none"


def story(chance, name, descends):
    owned, columns, relationships = definition(name)
    order = {table: place for place, table in enumerate(owned)}
    rows = world_of(chance, owned, relationships, descends)
    lines, answers = [f"over {name}"], []
    for (table, number), row in rows.items():
        lines.append(" ".join([f"> {table}#{number}"] + [value(*entry) for entry in row.items()]))
    for action in ACTIONS:
        largest = max(rows, key=lambda row: len(closure(rows, relationships, action, row)))
        for target in [largest, (chance.choice(list(owned)), chance.randint(1, 5))]:
            lines.append(f"? {action} {words([target])}")
            answers.append(words(ordered(order, closure(rows, relationships, action, target))))
    for target in chance.sample(list(rows), 2):
        lines.append(f"? blocks {words([target])}")
        answers.append(blocking(rows, relationships, target))
    for count in [1, 3]:
        gone = chance.sample(list(rows), count)
        lines.append(f"? empties {words(gone)}")
        answers.append(lookup_words(order, columns, emptied(rows, relationships, gone)))
    for place in range(6 if descends else 0):
        parent = chance.choice(list(rows))
        over = above(rows, relationships, parent)
        row = chance.choice(ordered(order, over) if place % 2 == 0 else list(rows))
        lines.append(f"? circles {words([row, parent])}")
        answers.append("yes" if row in over else "no")
    return "\n".join(lines + [f"= {answer}" for answer in answers])


def main():
    chance = random.Random(20261201)
    print("# Small worlds made by chance, and answers of a plain fixpoint over all pairs of rows. bench/cascade_worlds.py")
    print("# prints this file.")
    for number in range(WORLDS):
        print()
        print(story(chance, chance.choice(["kinds.json", "kinds.json", "office.json", "links.json"]), number % 4 == 0))


if __name__ == "__main__":
    main()
