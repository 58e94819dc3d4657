"""Records that are written are read back."""

import csv
import io

from whview.folder.packing import merged
from whview.folder.written import lines_of, text_of

CELLS = ("", " a", "a,b", 'a"b', "a\nb", "a\r\nb", "a\rb", "\r")


def test_each_cell_is_read_back():
    records = [["1", cell, cell] for cell in CELLS]
    text = text_of(records)
    assert list(csv.reader(io.StringIO(text, newline=""))) == records
    assert "".join(lines_of(records)) == text


def test_a_line_end_within_a_cell_outlives_the_merging_of_files():
    first, second = b'#,t\n1,"a\rb"\n2,c\n', b'#,t\n1,"a\rb"\n-2,c\n'
    assert merged([first, second]) == b'#,t\n2,"a\rb"\n'
