"""Catalogues with a mistake drawn in them, for the tests: what `lint` finds has to be what the program refuses."""

import json
import tomllib
from copy import deepcopy

SIGNS = ("=", "<>", "<", "<=", ">", ">=", "+", "-", "*", "all", "any", "not")
OTHERS = (0, -(2**63), 2**63, 1.5, True, False, "", "q", "9x", "x" * 64, "x" * 65, {}, [], ["not"])
OTHERS += ({"text": "t"}, {"text": 1}, {"text": "t", "u": 1})
KEYS = ("name", "columns", "over", "join", "where", "keep", "group", "count", "sum", "whree")
WIDE = tuple([f"c{number}", 1] for number in range(65))


def toml(value):
    if isinstance(value, list):
        return f"[{', '.join(map(toml, value))}]"
    if isinstance(value, dict):
        return "{" + ", ".join(f"{key} = {toml(member)}" for key, member in value.items()) + "}"
    return json.dumps(value)


def text_of(tables):
    return "".join("[[view]]\n" + "".join(f"{key} = {toml(value)}\n" for key, value in table.items()) for table in tables)


def spots(value):
    """Each value within a value, as what holds it and the number or key that it is held by."""
    for at, member in enumerate(value) if isinstance(value, list) else list(value.items()) if isinstance(value, dict) else ():
        yield value, at
        yield from spots(member)


def references(tables):
    """What holds a reference, and where in it."""
    return [(holder, at) for holder, at in spots(tables) if isinstance(holder[at], str) and "." in holder[at]]


def deep(source, formula):
    """A formula within many others."""
    for _ in range(source.choice([3, 62, 63, 64, 79, 90])):
        formula = source.choice([["not", formula], ["all", formula], ["+", 1, formula]])
    return formula


def other(source, tables, value):
    """Something in a value's place."""
    drawn = [lambda: deepcopy(source.choice(OTHERS)), lambda: source.choice(SIGNS), lambda: {"text": "t"}]
    drawn += [lambda: source.choice(SIGNS), lambda: [source.choice(SIGNS), value, deepcopy(value)], lambda: deepcopy(list(WIDE))]
    drawn += [lambda: value + "q" if isinstance(value, str) else [value], lambda: deep(source, value)]
    return source.choice(drawn)()


def change(source, tables):
    """Changes a value, leaves one out, takes one twice, or has one column in another's place."""
    holder, at = source.choice(list(spots(tables)))
    kind = source.random()
    if kind < 0.3 and references(tables):
        (holder, at), (there, place) = source.choices(references(tables), k=2)
        holder[at] = there[place] if source.random() < 0.5 else source.choice([["*", 2, holder[at]], {"text": "t"}, 3])
    elif kind < 0.7:
        holder[at] = other(source, tables, holder[at])
    elif kind < 0.85:
        del holder[at]
    elif isinstance(holder, list):
        holder.insert(source.randrange(len(holder) + 1), deepcopy(holder[at]))
    elif holder in tables:
        holder[source.choice(KEYS)] = holder[at]


def drawn(source, texts):
    """The text of a catalogue with a mistake in it, or two, which may be none."""
    tables = tomllib.loads(source.choice(texts))["view"]
    for _ in range(source.choice([1, 1, 2])):
        if tables:
            change(source, tables)
    return text_of([table for table in tables if isinstance(table, dict)])
