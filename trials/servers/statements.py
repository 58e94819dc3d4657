"""The statements of a text, one by one, as psql parts them: a semicolon within a text, a name, a body or a comment ends none."""

import re

TEXT = r"""\b[eE]'(?:[^'\\]|''|\\.)*'|'(?:[^']|'')*'"""
NAME = r'''"(?:[^"]|"")*"'''
BODY = r"(?<![\w$])\$((?:[^\W\d]\w*)?)\$.*?\$\1\$"
# A comment may have comments in it, which have none here.
COMMENT = r"--[^\n]*|/\*(?:/\*.*?\*/|.)*?\*/"
STATEMENT = re.compile(f"(?:{TEXT}|{NAME}|{BODY}|{COMMENT}|[^;])+;?", re.DOTALL)


def statements(text: str) -> list[str]:
    """All that has more than blanks and semicolons."""
    return [found[0] for found in STATEMENT.finditer(text) if found[0].strip(" \n;")]
