"""Sums of pieces of files: of a table that was changed they are those of its bytes, those that stay stay, and there are never too many."""

import hashlib
import random
from unittest import mock

import pytest

from whview.folder import piece_sums, seen
from whview.folder.by_lines import spliced
from whview.folder.manifest import FILE, read_manifest
from whview.folder.piece_sums import Piece, is_of, of_file, of_spliced, sizes_of

from .shop import NEXT

SMALL = 64


def summed(content):
    return hashlib.sha256(content).hexdigest()


@pytest.fixture
def file(tmp_path, monkeypatch):
    """A file that is to be written, whose pieces are small."""
    monkeypatch.setattr(piece_sums, "PIECE", SMALL)
    return tmp_path / "table"


def of_bytes(file, content):
    """The pieces of a file with these bytes, cut anew."""
    file.write_bytes(content)
    return of_file(file, sizes_of(len(content)))


def test_a_file_that_is_cut_anew(file):
    assert of_bytes(file, b"") == (Piece(0, summed(b"")),)
    assert of_bytes(file, b"x" * 64) == (Piece(64, summed(b"x" * 64)),)
    assert of_bytes(file, b"x" * 65) == (Piece(64, summed(b"x" * 64)), Piece(1, summed(b"x")))


def test_a_file_has_its_pieces_and_nothing_behind_them(file):
    pieces = of_bytes(file, b"a" * 100)
    assert is_of(file, pieces)
    for content in (b"a" * 99, b"a" * 101, b"a" * 99 + b"b", b"b" + b"a" * 99):
        file.write_bytes(content)
        assert not is_of(file, pieces)


def test_drawn_tables_that_are_changed_again_and_again(file):
    source = random.Random(5)
    for _ in range(30):
        content = source.randbytes(source.randint(0, 40 * SMALL))
        pieces = of_bytes(file, content)
        for _ in range(20):
            places = sorted(source.sample(range(len(content) + 1), min(len(content) + 1, 2 * source.randint(0, 3)) // 2 * 2))
            edits = [(start, end, source.randbytes(source.choice([0, 1, 9]))) for start, end in zip(places[::2], places[1::2])]
            table = spliced(content, edits, [source.randbytes(source.choice([0, 5, 200]))])
            pieces, content = of_spliced(table, pieces), b"".join(table)
            file.write_bytes(content)
            assert is_of(file, pieces)
            sizes = [piece.size for piece in pieces]
            assert max(sizes) < 2 * SMALL
            assert len(sizes) <= 2 * len(content) // SMALL + 3


def test_what_stays_is_not_summed_up_again(file):
    content = random.Random(1).randbytes(1024)
    pieces = of_bytes(file, content)
    table = spliced(content, [(500, 501, b"!")], [b"more"])
    with mock.patch.object(piece_sums.hashlib, "sha256", wraps=hashlib.sha256) as sums:
        found = of_spliced(table, pieces)
    assert [len(call.args[0]) for call in sums.call_args_list] == [64, 4]
    assert len(set(pieces) & set(found)) == 15


def test_a_piece_that_a_disk_has_changed_keeps_the_sum_of_what_was_written(file):
    content = bytes(range(256)) * 4
    pieces = of_bytes(file, content)
    file.write_bytes(b"".join(table := spliced(b"?" + content[1:], [(500, 501, b"!")], [])))
    assert not is_of(file, of_spliced(table, pieces))


def test_a_table_of_several_pieces_is_vouched_for_by_them(kept):
    with mock.patch.object(piece_sums, "PIECE", 16):
        for content in (NEXT, b"#,id,day,region\n1,9,Friday,north\n"):
            kept.put(content)
            assert kept.ran("night", "--commit") == (0, [])
    manifest = read_manifest(kept.folder / "versions/3")
    assert len(manifest.files["data/orders.csv"].pieces) > 2
    assert kept.ran("verify")[0] == 0
    kept.change("data/orders.csv", b"Friday", b"Sunday")
    assert kept.ran("verify", "3")[0] == 1


def test_what_did_not_change_is_not_read_again_after_a_prune(kept):
    for content in (NEXT, b"#,id,day,region\n1,9,Friday,north\n", b"#,id,day,region\n1,10,Friday,north\n"):
        kept.put(content)
        with mock.patch.object(piece_sums, "is_of", wraps=piece_sums.is_of) as read:
            assert kept.ran("night", "--commit", "--keep", "1") == (0, [])
        assert [call.args[0].name for call in read.call_args_list] == []
    file = kept.folder / "current/data/lines.csv"
    look = file.stat()
    kept.change("data/lines.csv", b"jam", b"ham")
    assert (file.stat().st_size, file.stat().st_mtime_ns) == (look.st_size, look.st_mtime_ns)
    assert kept.ran("lint")[0] == 3


def test_a_night_for_whose_note_there_is_no_room_is_done(kept):
    kept.put()
    with mock.patch.object(seen, "write", side_effect=OSError(28, "No space left on device")):
        assert kept.ran("night", "--commit", "--keep", "1") == (0, [])
    assert (kept.current(), kept.ran("lint")) == ("versions/2", (0, []))


def test_what_is_changed_before_a_prune_is_read_after_it(kept):
    kept.more(NEXT, "--keep", "2")
    kept.change("data/lines.csv", b"jam", b"ham")
    assert kept.ran("night", "--commit", "--keep", "1")[0] == 3
    assert kept.ran("lint")[0] == 3


def test_a_manifest_of_before_there_were_pieces(kept):
    file = kept.folder / "versions/1" / FILE
    lines = file.read_text().splitlines(keepends=True)
    above = "manifest 1\n" + "".join(lines[1:-1])
    file.chmod(0o644)
    file.write_text(f"{above}sum {summed(above.encode())}\n")
    assert kept.ran("verify") == (0, [])
    assert kept.more() == []
    assert kept.current() == "versions/2"
