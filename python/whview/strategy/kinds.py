"""Kinds of shapes of which no plan needs a search. A shape has of each view the numbers of the earlier ones that it is over."""

from collections.abc import Sequence
from random import Random
from typing import Protocol, TypeAlias

MOST_VIEWS, MOST_CHILDREN = 64, 6
Shape: TypeAlias = list[list[int]]


class Named(Protocol):
    """A view, which says by name what it is over."""

    name: str
    over: list[str]


def shape_of(views: Sequence[Named]) -> Shape:
    """The shape of views, each of which says by name what it is over."""
    number = {view.name: v for v, view in enumerate(views)}
    return [[number[name] for name in view.over] for view in views]


def levels(over: Shape) -> list[int]:
    """The level of each view: 0 of a base view, and of a derived one one more than the highest of those that it is over."""
    found: list[int] = []
    for children in over:
        found.append(1 + max(found[u] for u in children) if children else 0)
    return found


def is_tree(over: Shape) -> bool:
    """Whether no view has two parents."""
    children = [u for each in over for u in each]
    return len(set(children)) == len(children)


def is_uniform(over: Shape) -> bool:
    """Whether each derived view is over views of the level below its own alone."""
    level = levels(over)
    return all(level[u] == level[v] - 1 for v, children in enumerate(over) for u in children)


def told(over: Shape) -> str:
    """What a shape is, and what that says of its plans."""
    kinds = [kind for kind, is_one in (("a tree", is_tree(over)), ("uniform", is_uniform(over))) if is_one]
    if not kinds:
        return "the shape is neither a tree nor uniform: a plan may need a search"
    return f"the shape is {' and '.join(kinds)}: no plan needs a search"


def why(over: Shape, names: Sequence[str]) -> list[str]:
    """Lines that say of what kind a shape is, in words of its views: what makes it a tree or uniform, or which views keep it from that."""
    lines = []
    if is_tree(over):
        lines.append("a tree: no view is under two others")
    else:
        u = next(u for u in range(len(over)) if sum(u in each for each in over) > 1)
        lines.append(f"no tree: {names[u]} is under {', '.join(names[v] for v, each in enumerate(over) if u in each)}")
    level = levels(over)
    if is_uniform(over):
        lines.append("uniform: each view is over views of the level just below its own; base views are level 0")
    else:
        v = next(v for v, each in enumerate(over) if any(level[u] != level[v] - 1 for u in each))
        of = ", ".join(f"{names[u]} of level {level[u]}" for u in over[v])
        lines.append(f"not uniform: {names[v]} is over {of}; base views are level 0, and each other one is a level above its highest")
    if not is_tree(over) and not is_uniform(over):
        lines.append("that is no fault, and nothing has to be mended: the plan of least work is looked for longer")
    return lines


# ---- what is drawn


def how_many(source: Random) -> int:
    """How many views a shape has: few, and now and then as many as there may be."""
    return source.choice([source.randint(1, 12), source.randint(1, 12), source.randint(1, 12), source.randint(13, MOST_VIEWS)])


def some(source: Random, views: list[int]) -> list[int]:
    """Some of these views, one at least."""
    return source.sample(views, min(len(views), source.choice([1, 1, 2, 2, 3, 4, 5, MOST_CHILDREN])))


def drawn_tree(source: Random) -> Shape:
    """A tree: a view that another is over is no other's."""
    over: Shape = []
    free: list[int] = []
    for v in range(how_many(source)):
        children = some(source, free) if free and source.random() < 0.5 else []
        free = [u for u in free if u not in children] + [v]
        over.append(children)
    return over


def drawn_uniform(source: Random) -> Shape:
    """A uniform shape: each derived view is over some of one level."""
    over: Shape = []
    by_level: Shape = [[]]
    for v in range(how_many(source)):
        level = source.randrange(len(by_level)) if by_level[0] and source.random() < 0.7 else -1
        over.append(some(source, by_level[level]) if level >= 0 else [])
        if level + 1 == len(by_level):
            by_level.append([])
        by_level[level + 1].append(v)
    return over


def drawn_neither(source: Random, couples: int) -> Shape:
    """A shape that is neither, by one edge more than a tree or a uniform shape has, with at most so many couples."""
    while True:
        over = source.choice([drawn_tree, drawn_uniform])(source)[:8]
        view = source.randrange(len(over))
        more = [u for u in range(view) if u not in over[view]]
        if over[view] and more and len(over[view]) < MOST_CHILDREN:
            over[view] = [*over[view], source.choice(more)]
        if not is_tree(over) and not is_uniform(over) and len({(u, w) for each in over for u in each for w in each if u < w}) <= couples:
            return over
