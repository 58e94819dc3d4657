"""How the trials part a text into statements."""

import pytest

from trials.servers.statements import statements

# What a statement may have in it, each with semicolons that end nothing.
WHOLE = {
    "text": "SELECT 'a;b'", "quotes in a text": "SELECT 'it''s; so'", "text of one quote": "SELECT '''', ';'", "empty text": "SELECT '', ';'",
    "text over lines": "SELECT 'a;\nb;\n'", "escapes": r"SELECT E'\'; ', e'\\', ';'", "no escapes": r"SELECT '\', ';'", "no E of a text": r"SELECT value'\', ';'",
    "letters by number": r"SELECT U&'\003B;'", "name": 'SELECT "a;b"', "quotes in a name": 'SELECT "a"";""b;"', "text in a name": """SELECT "it's;" """,
    "name in a text": """SELECT 'a";' """, "body": "DO $$ BEGIN; END; $$", "body with a tag": "DO $f$ BEGIN; RETURN '$$;'; END; $f$",
    "bodies in a body": "DO $a$ EXECUTE $b$ SELECT 1; $b$; $a$", "tags that are others": "SELECT $a$ ; $A$ ; $ab$ ; $a$", "text of dollars": "SELECT '$$;', ';$$'",
    "dollars in a name": "SELECT a$b$, ';', c$b$", "numbers of words": "SELECT $1, ';', $2", "quote in a body": "DO $$ it's; $$", "body in a text": "SELECT '$$', ';'",
    "comment": "SELECT 1 -- one; two", "quote in a comment": "SELECT 1 -- it's;\n + 1", "comment of lines": "SELECT /* one;\ntwo; */ 1", "comment in a text": "SELECT '--', ';'",
    "quote in a comment of lines": "SELECT /* it's; */ 1", "stars": "SELECT /**/ 1 /*** ; ***/", "comment in a comment": "SELECT /* a; /* b; */ c; */ 1",
    "text in no comment": "SELECT '/*', ';', '*/'", "comments in a body": "DO $$ -- ;\n/* ; */ $$", "minus": "SELECT 1 - -1, ';'",
}


@pytest.mark.parametrize("text", WHOLE.values(), ids=WHOLE)
def test_no_semicolon_within_anything_ends_a_statement(text):
    assert statements(text) == [text]
    assert statements(f"{text}\n; SELECT 2;") == [f"{text}\n;", " SELECT 2;"]
    assert statements(f"SELECT 2;{text}\n;") == ["SELECT 2;", f"{text}\n;"]


@pytest.mark.parametrize("one", WHOLE.values(), ids=WHOLE)
def test_what_stands_beside_it_is_another_statement(one):
    for other in WHOLE.values():
        assert statements(f"{one}\n;{other}\n;") == [f"{one}\n;", f"{other}\n;"]


@pytest.mark.parametrize("text", ["", " ", ";", " ; ;\n;", "\n\n"])
def test_blanks_and_semicolons_are_none(text):
    assert statements(text) == []


@pytest.mark.parametrize("text, parts", [
    ("SELECT 1;SELECT 2", ["SELECT 1;", "SELECT 2"]), (";;SELECT 1;;", ["SELECT 1;"]), ("BEGIN; SELECT ';'; COMMIT;", ["BEGIN;", " SELECT ';';", " COMMIT;"]),
    ("SELECT 'a' ; SELECT E'\\\\' ; SELECT 3", ["SELECT 'a' ;", " SELECT E'\\\\' ;", " SELECT 3"]), ("-- no statement;\nSELECT 1;", ["-- no statement;\nSELECT 1;"]),
    ("SELECT $a$;$a$; SELECT $b$;$b$;", ["SELECT $a$;$a$;", " SELECT $b$;$b$;"]),
])
def test_texts_of_several(text, parts):
    assert statements(text) == parts
