"""A lexer of each engine's own rules, which knows nothing of how scripts are written: it has to read the tokens that were meant."""

import re

from whview.sql.tokens import BODY, LINE, NUMBER, WORD

COMMON = r"""(?P<blank>[ \n]+)|(?P<comment>--[^\n]*)|(?P<name>"(?:[^"]|"")+")|(?P<number>[0-9]+)|(?P<end>;)"""
MARK = r"""(?P<word>[A-Za-z_][A-Za-z0-9_]*|::|:=|\|\||<=|>=|<>|>>|[(),.*=<>+\-/%&\[\]#])"""
OF_POSTGRESQL = r"""|(?P<body>\$(?P<tag>[A-Za-z_]*)\$(?P<inner>.*?)\$(?P=tag)\$)|(?P<escaped>E'(?:[^'\\]|\\.)*')"""
OF_POSTGRESQL += r"""|(?P<text>'(?:[^']|'')*')|"""
OF_SQLITE = r"""|(?P<text>'(?:[^']|'')*')|"""
OF_CLICKHOUSE = r"""(?P<blank>[ \n]+)|(?P<comment>--[^\n]*)|(?P<slashed>"(?:[^"\\]|\\.)+"|'(?:[^'\\]|\\.)*')|(?P<number>[0-9]+)|(?P<end>;)|"""
RULES = {
    "clickhouse": re.compile(OF_CLICKHOUSE + MARK, re.DOTALL), "postgresql": re.compile(COMMON + OF_POSTGRESQL + MARK, re.DOTALL),
    "sqlite": re.compile(COMMON + OF_SQLITE + MARK, re.DOTALL),
}
ESCAPED = {"\\n": "\n", "\\r": "\r", "\\t": "\t", "\\b": "\b", "\\f": "\f", "\\'": "'", '\\"': '"', "\\\\": "\\"}


def said(piece, engine):
    """What a piece of text says, and its kind."""
    kind, text = piece.lastgroup, piece[0]
    if engine == "postgresql" and piece["body"]:
        return BODY, lexed(piece["inner"], engine)
    if kind == "name":
        return kind, text[1:-1].replace('""', '"')
    if kind == "slashed":
        return "name" if text[0] == '"' else "text", re.sub(r"\\.", lambda found: ESCAPED[found[0]], text[1:-1])
    if kind == "escaped":
        return "text", re.sub(r"\\.", lambda found: ESCAPED[found[0]], text[2:-1])
    if kind == "text":
        return kind, text[1:-1].replace("''", "'")
    return kind, text[3:] if kind == "comment" else text


def lexed(text, engine):
    """The tokens of a text, without blanks."""
    found, at = [], 0
    while at < len(text):
        piece = RULES[engine].match(text, at)
        if piece is None:
            raise ValueError(f"{text[at:at + 40]!r} is no token of {engine}")
        at = piece.end()
        if not piece["blank"]:
            found.append(said(piece, engine))
    return found


def meant(made):
    """The tokens of SQL, as a lexer has them."""
    found = []
    for token in made.tokens:
        if token.kind == BODY:
            found.append((BODY, meant(token.said)))
        elif token.kind == NUMBER and token.said.startswith("-"):
            found += [(WORD, "-"), (NUMBER, token.said[1:])]
        elif token.kind != LINE:
            found.append((token.kind, token.said))
    return found


def mistakes(dialect, lines):
    """The lines that an engine reads otherwise than they are meant."""
    wrong = []
    for line, text in zip(lines, dialect.written(lines)):
        if lexed(text, dialect.engine) != meant(line):
            wrong.append(f"{dialect.engine} reads {text[:200]!r} otherwise than it is meant")
    return wrong
