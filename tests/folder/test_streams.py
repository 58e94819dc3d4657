"""Standard input, output and error that are closed or cannot be written: a command ends with the status of what it did."""

import os
import subprocess

from .shop import WHVIEW

FULL = "/dev/full"


def ended(shop, given, closed=(), **files):
    """The status of a command, with what it prints on the files that it has, of which these are closed."""
    command = [WHVIEW, "folder", *given, "--program", shop.program]
    ran = subprocess.run(command, **files, preexec_fn=lambda: [os.close(number) for number in closed])
    return ran.returncode, ran.stdout or b"", ran.stderr or b""


def test_a_night_that_is_kept_is_told_by_its_status_where_nothing_can_be_printed(shop):
    for number, closed in enumerate([(1,), (1, 2), (0, 1, 2)], 1):
        assert ended(shop, ["night", shop.folder, "--commit", "--always"], closed, stderr=subprocess.DEVNULL)[0] == 5
        assert shop.current() == f"versions/{number}"
    with open(FULL, "wb") as full:
        assert ended(shop, ["night", shop.folder, "--commit", "--always"], stdout=full, stderr=full)[0] == 5
    status, _, told = ended(shop, ["night", shop.folder, "--commit", "--always"], [1], stderr=subprocess.PIPE)
    assert (status, told.decode().partition(";")[0]) == (5, "the night is done, and is versions/5")


def test_so_are_a_refused_night_and_findings(shop):
    (shop.folder / "changes/orders.csv").write_text("#,id,day,region\n1,x,Thursday,south\n")
    with open(FULL, "wb") as full:
        for command in (["lint", shop.folder], ["night", shop.folder, "--commit"]):
            assert ended(shop, command, [2], stdout=subprocess.PIPE)[0] == 3
            assert ended(shop, command, stdout=subprocess.PIPE, stderr=full)[0] == 3


def test_what_is_told_on_a_closed_error_stands_in_no_output(shop):
    (shop.folder / "strange.txt").touch()
    wanted = ended(shop, ["pack", shop.folder], stdout=subprocess.PIPE, stderr=subprocess.PIPE)
    assert b"strange.txt" in wanted[2]
    assert ended(shop, ["pack", shop.folder], [2], stdout=subprocess.PIPE)[:2] == wanted[:2]


def test_names_of_the_system_that_are_no_text_are_told(kept):
    kept.answers(b"", 70)
    odd = kept.folder.rename(kept.folder.with_name(os.fsdecode(b"sh\xffop")))
    odd.with_name(os.fsdecode(b"or\xff.csv")).write_bytes(b"id\n1\n")
    environment = os.environ | {"PYTHONIOENCODING": "utf-8"}
    for words in (["report", odd], ["init", odd.with_name("new"), odd.with_name(os.fsdecode(b"or\xff.csv"))]):
        status, said, told = ended(kept, words, stdout=subprocess.PIPE, stderr=subprocess.PIPE, env=environment)
        assert (status, told) == (0, b"")
        assert b"\xff" in said
    assert "sh?op" in (odd / "reports/1.html").read_text()


def test_the_tool_is_found_by_its_own_place(shop):
    given = os.environ | {"PYTHONSAFEPATH": "1"}
    assert ended(shop, ["lint", shop.folder], stdout=subprocess.PIPE, stderr=subprocess.PIPE, env=given)[::2] == (0, b"")


def test_an_answer_that_is_not_there_is_empty(shop):
    status, _, told = ended(shop, ["unpack", shop.folder / "tables"], [0], stderr=subprocess.PIPE)
    assert (status, told) == (3, b"whview folder: this answer is empty\n")
