"""Limits: inputs of 67,108,864 bytes, or of as many as the words say, one more and without end; nights of 64 columns and of 64 views, and of
one more."""

from trials.program.case_groups import BesideAFile, Case, Endless
from upkeep.words import ROOT
from whview.bundle import pieces

LIMIT = 67108864
TOO_LONG = ("fault toolong\n", 3)


def example(name, last):
    """An example's bundle, with the parts last whose headings begin so, and its answer, with the status."""
    folder = ROOT / "examples"
    parts = sorted(pieces((folder / f"{name}.bundle").read_bytes()), key=lambda part: part.startswith(last))
    text, _, status = (folder / f"{name}.answer").read_text().rpartition("status ")
    return b"".join(parts), (text, int(status))


def lengths():
    """Inputs with line ends after them up to exactly the limit, one more, and inputs that never end."""
    for command, name, last in (
        ("check", "one_way_check", b"@strategy"), ("night", "night_two_tables", b"@"), ("replay", "replay_two_nights", b"@"),
    ):
        bundle, answer = example(name, last)
        for what, size, wanted in (("the limit", LIMIT, answer), ("a byte more", LIMIT + 1, TOO_LONG)):
            yield Case([command], lambda bundle=bundle, size=size: bundle.ljust(size, b"\n"), *wanted, f"an input of {what}")
        if command != "replay":
            yield Endless([command], b"", *TOO_LONG, "an input without end")


class BesideTheNight(BesideAFile):
    """A case beside a file that has the example's night."""

    file, _ = example("night_two_tables", b"@")


def lengths_by_words():
    """Nights and replays whose words say how long the input may be: exactly so long, one byte more and without end, also of a file."""
    for command, name in (("night", "night_two_tables"), ("replay", "replay_two_nights")):
        bundle, answer = example(name, b"@")
        for most in (len(bundle), LIMIT + 1):
            for what, size, wanted in (("as many bytes as the words say", most, answer), ("a byte more", most + 1, TOO_LONG)):
                yield Case([command, "--most", str(most)], lambda bundle=bundle, size=size: bundle.ljust(size, b"\n"), *wanted, f"an input of {what}")
        yield Endless([command, f"--most={len(bundle)}"], b"", *TOO_LONG, "an input without end")
    size, (_, answer) = len(BesideTheNight.file), example("night_two_tables", b"@")
    for most, wanted in ((size, answer), (size - 1, TOO_LONG)):
        yield BesideTheNight(["night", "--input", "{room}/night.txt", "--most", str(most)], b"", *wanted, "a file")


def columns(count, kept, wanted=None):
    """A night over a base view with so many columns and a view that keeps the first of them; a row comes."""
    listed = ", ".join(f'"c{place}"' for place in range(count))
    pairs = ", ".join(f'["k{place}", "a.c{place}"]' for place in range(kept))
    header, row = (",".join(f"{word}{place}" for place in range(count)) for word in ("c", ""))
    bundle = f'@catalogue\n[[view]]\nname = "a"\ncolumns = [{listed}]\n[[view]]\nname = "v"\nover = ["a"]\nkeep = [{pairs}]\n'
    bundle += f"@changes a\n#,{header}\n1,{row}\n@strategy\ncomp v from a\ninst a\ninst v\n"
    shown = f"#,{header.replace('c', 'k')}\n1,{row}\n"
    carried = (f"comp v from a: 1\ninst a: 1\ninst v: 1\nwork 3\nversion 1\nview v\n{shown}", 0)
    return Case(["night"], bundle.encode(), *(wanted or carried), f"a night of {count} columns, of which {kept} are kept")


def views(count, wanted=None):
    """A night over so many views, each of which keeps what the one before it has; a row comes. Each expression reads or installs it."""
    bundle, steps = '@catalogue\n[[view]]\nname = "v0"\ncolumns = ["x"]\n', []
    for v in range(1, count):
        bundle += f'[[view]]\nname = "v{v}"\nover = ["v{v - 1}"]\nkeep = [["x", "v{v - 1}.x"]]\n'
        steps += [f"comp v{v} from v{v - 1}", f"inst v{v - 1}"]
    steps.append(f"inst v{count - 1}")
    bundle += "@data v0\nx\n1\n@changes v0\n#,x\n1,2\n@strategy\n" + "".join(f"{step}\n" for step in steps)
    text = "".join(f"{step}: 1\n" for step in steps) + f"work {len(steps)}\nversion 1\n"
    carried = (text + "".join(f"view v{v}\n#,x\n1,1\n1,2\n" for v in range(1, count)), 0)
    return Case(["night"], bundle.encode(), *(wanted or carried), f"a night of {count} views")


def cases():
    yield from lengths()
    yield from lengths_by_words()
    yield columns(64, 64)
    yield columns(65, 64, ("fault key columns\n", 3))
    yield columns(64, 65, ("fault key keep\n", 3))
    yield views(64)
    yield views(65, ("fault shape toomany v64\n", 3))
