"""What is spoilt in a part or a machine: some of its functions in the place of its own, each given that one, the object, and the words."""

from dataclasses import replace

from whview.sql.carry import Night, carry, parts_of


def other(of, name, instead):
    """A class in which these functions stand in the place of the ones that are named. One without an object takes the words alone."""

    def of_object(method, function):
        return lambda self, *given, **more: function(getattr(super(made, self), method), self, *given, **more)

    made = type(name, (of,), {})
    for method, function in instead.items():
        setattr(made, method, function if isinstance(function, staticmethod) else of_object(method, function))
    return made


def exchanged(parts, spoilt):
    """The parts of a script, of which those that are named have these functions, by their names."""
    return replace(parts, **{name: other(getattr(parts, name), name, instead) for name, instead in spoilt.items()})


def script_of(catalogue, dialect, plain=(), keyed=None, spoilt=None):
    """The script of a night over tables of one's own, of which some parts are spoilt."""
    return carry(Night(catalogue, frozenset(plain), keyed or {}), dialect, exchanged(parts_of(dialect), spoilt or {}))
