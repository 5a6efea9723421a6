#!/usr/bin/env python3
"""Writes the cases of operators, crates/query_cases/data/operators: each operator on each kind of column, with none, one,
two and three values of the column's kind, and with a value of another kind.

    bench/query_operators.py > crates/query_cases/data/operators

The answers come from the table of operators below, which is written as the guide has it, and from nothing of the service.
"""
import json

# kind of column: its name in the table account, a value of its kind as JSON has it, and one of another kind
COLUMNS = {
    "flag": ("open", True, 1),
    "whole": ("size", 7, "7"),
    "choice": ("level", 2, True),
    "amount": ("worth", "1.5", "x"),
    "moment": ("since", "2026-02-28T00:00:00Z", "2026-02-28"),
    "text": ("name", "x", 7),
    "lookup": ("parent", "#7", "x"),
    "id": ("id", "#7", 7),
    "owner": ("ownerid", "#7", False),
    "creator": ("createdby", "#7", None),
    "modifier": ("modifiedby", "#7", "#"),
}
ALL = list(COLUMNS)
ORDERED = ["whole", "choice", "amount", "moment", "text"]
NEGATED = ["begins", "ends", "contains"]
# operators: the kinds of columns that they suit, and the numbers of values that they take
OPERATORS = {
    **{word: (ALL, [1]) for word in ["eq", "ne"]},
    **{word: (ORDERED, [1]) for word in ["gt", "ge", "lt", "le"]},
    **{word: (ORDERED, [2]) for word in ["between", "not-between"]},
    **{word: (ALL, range(1, 501)) for word in ["in", "not-in"]},
    **{word: (["text"], [1]) for word in ["like", "not-like", *NEGATED, *["not-" + it for it in NEGATED]]},
    **{word: (["moment"], [1]) for word in ["on", "on-or-before", "on-or-after"]},
    **{word: (["moment"], [0]) for word in ["today", "yesterday", "tomorrow"]},
    **{word: (["moment"], [1]) for word in ["last-days", "next-days"]},
    **{word: (["owner", "creator", "modifier"], [0]) for word in ["me", "not-me"]},
    **{word: (["owner"], [0]) for word in ["my-teams", "me-or-my-teams"]},
    **{word: (ALL, [0]) for word in ["null", "not-null"]},
}


def told(operator, kind, values, wrong):
    """The answer for these values, of which the one at the place `wrong`, if any, isn't of its kind."""
    suited, counts = OPERATORS[operator]
    if kind not in suited:
        return "operator filter.conditions[0].is"
    if len(values) not in counts:
        return "count filter.conditions[0].values"
    return "ok" if wrong is None else f"value filter.conditions[0].values[{wrong}]"


def case(operator, kind, values, wrong=None):
    condition = json.dumps({"column": COLUMNS[kind][0], "is": operator, "values": values}, separators=(",", ":"))
    print(f'> "table":"account","filter":{{"conditions":[{condition}]}}')
    print(f"= {told(operator, kind, values, wrong)}")


def main():
    print("# Each operator on each kind of column, with none, one, two and three values, and with one of another kind.")
    print("# Written by bench/query_operators.py.")
    for operator, (suited, counts) in OPERATORS.items():
        print(f"\n# {operator}")
        for kind, (_, right, other) in COLUMNS.items():
            if operator in ("last-days", "next-days"):
                right, other = 7, "7"
            if kind not in suited:
                case(operator, kind, [right] * min(counts))
                continue
            for count in range(4):
                case(operator, kind, [right] * count)
            if max(counts) > 0:
                count = min(max(counts), 3)
                case(operator, kind, [right] * (count - 1) + [other], count - 1)


main()
