"""Bundles that are changed at random: a byte, a number, a word, a line or a part is changed, doubled, left out or exchanged with another."""

import re

from whview.bundle import pieces

NUMBERS = b"0 1 -1 00 64 65 1000 1001 1099511627776 1099511627777 9223372036854775807 9223372036854775808 -9223372036854775808 1e3".split()
BYTES = b'\x00\t\n\r "#+-.,;@019AaV[]{}=\\\x7f\x80\xff'


def changed_byte(source, text):
    place = source.randrange(len(text) + 1)
    kind = source.randrange(4)
    if kind == 0 and place < len(text):
        return text[:place] + bytes([text[place] ^ 1 << source.randrange(8)]) + text[place + 1 :]
    if kind == 1:
        return text[:place] + text[place + 1 :]
    return text[:place] + bytes([source.choice(BYTES)]) + text[place + (kind == 2) :]


def changed_number(source, text):
    found = list(re.finditer(rb"[-+]?\d+", text))
    if not found:
        return text
    place = source.choice(found)
    near = b"%d" % (int(place.group()) + source.choice([-2, -1, 1, 2, 10]))
    return text[: place.start()] + source.choice([near, near, source.choice(NUMBERS)]) + text[place.end() :]


def changed_line(source, text):
    """One line doubled, left out or moved within its part."""
    parts = [part.splitlines(keepends=True) for part in pieces(text)]
    if not parts:
        return text
    part = source.choice(parts)
    part[1:] = changed_pieces(source, part[1:])
    return b"".join(line for part in parts for line in part)


def changed_pieces(source, listed):
    """One piece doubled, left out, exchanged with another or put elsewhere."""
    if not listed:
        return listed
    one, other = source.randrange(len(listed)), source.randrange(len(listed))
    kind = source.randrange(4)
    if kind == 0:
        listed[one], listed[other] = listed[other], listed[one]
        return listed
    taken = listed[one] if kind == 1 else listed.pop(one)
    return listed if kind == 2 else listed[:other] + [taken] + listed[other:]


def changed(source, text):
    for _ in range(source.choice([1, 1, 1, 2, 4])):
        kind = source.randrange(8)
        if kind < 2:
            text = changed_number(source, text)
        elif kind == 2:
            text = changed_byte(source, text)
        elif kind < 5:
            text = changed_line(source, text)
        elif kind == 5:
            text = b"".join(changed_pieces(source, text.splitlines(keepends=True)))
        elif kind == 6:
            text = b"".join(changed_pieces(source, re.split(rb"(\s+|[\"',;])", text)))
        else:
            text = b"".join(changed_pieces(source, pieces(text)))
    return text


def reordered(source, text):
    """The same parts in another order, or None where the order may matter or the bundle is more than its parts."""
    parts = pieces(text)
    if b"".join(parts) != text or not text.endswith(b"\n") or b"\n@night" in text:
        return None
    return b"".join(source.sample(parts, len(parts)))
