"""What is judged of a folder before anything is moved: what lies in it, who may move it, keys, how numbers are written, how much is told."""

import os
import socket
import sys

import pytest

from whview.finding import TOLD
from whview.folder import command as words_of

from .shop import contents

NOBODY = 65534
PRODUCTS = "product,price\nbread,300\njam,450\n"


def test_what_is_no_file_is_called_what_it_is_and_never_opened(shop):
    os.mkfifo(shop.folder / "changes/orders.1.csv")
    os.mkfifo(shop.folder / "data/more.csv")
    (shop.folder / "changes/old").mkdir()
    (shop.folder / "changes/lines.1.csv").symlink_to("lost.csv")
    with socket.socket(socket.AF_UNIX) as place:
        place.bind(str(shop.folder / "changes/lines.2.csv"))
    found = {"changes/lines.1.csv": "link", "changes/lines.2.csv": "socket", "changes/old": "folder", "changes/orders.1.csv": "FIFO"}
    for command in ("lint", "night", "plan"):
        status, told = shop.ran(command)
        assert status == 3
        for path, kind in (found | {"data/more.csv": "FIFO"}).items():
            assert any(line.startswith(f"{path}:1:1: this {kind} is not read: ") for line in told)


def test_a_catalogue_that_is_no_file(shop):
    (shop.folder / "catalogue.toml").unlink()
    os.mkfifo(shop.folder / "catalogue.toml")
    assert "catalogue.toml:1:1: this FIFO is no file that can be read" in shop.ran("lint")[1]


@pytest.mark.parametrize(
    "key, place, told",
    (
        ('["nope"]', 8, "key names nope, and there are the columns id, day, region"),
        ('["id", "dya"]', 14, "key names dya, and there are the columns id, day, region; did you mean day?"),
        ('["id", "id"]', 14, "key names id twice"),
        ("[]", 1, 'key is an array of columns, such as ["id"]'),
        ('"id"', 1, 'key is an array of columns, such as ["id"]'),
    ),
)
def test_a_key_names_columns_that_are_there(shop, key, place, told):
    shop.edit("catalogue.toml", '"region:text"]\n', f'"region:text"]\nkey = {key}\n')
    assert shop.ran("lint") == (3, [f"catalogue.toml:6:{place}: orders: {told}"])


@pytest.mark.parametrize("first", ("+08,x,y\n", "08,x,y\n", "8,x,y\n+8,x,y\n", '"8",x,y\n', '8,"x",y\n', "-0,x,y\n"))
def test_a_row_stands_once_however_its_number_is_written(shop, first):
    (shop.folder / "data/orders.csv").write_text(f"id,day,region\n{first}9,x,y\n")
    number = "0" if first.startswith("-0") else "8"
    (shop.folder / "changes/orders.csv").write_text(f"#,id,day,region\n1,{number},x,y\n")
    shop.night()
    count = 1 + first.count("\n")
    assert (shop.folder / "current/data/orders.csv").read_text() == f"#,id,day,region\n{count},{number},x,y\n1,9,x,y\n"


def test_a_table_that_goes_over_lines_is_none_of_lines(shop):
    (shop.folder / "data/orders.csv").write_text('id,day,region\n8,"a,\nb",y\n08,x,y\n')
    (shop.folder / "changes/orders.csv").write_text("#,id,day,region\n1,8,x,y\n")
    shop.night()
    assert (shop.folder / "current/data/orders.csv").read_text() == '#,id,day,region\n1,8,"a,\nb",y\n2,8,x,y\n'


def test_the_first_ones_of_each_file_are_told_and_how_many_more_there_are(shop):
    (shop.folder / "data/products.csv").write_text(PRODUCTS + "tea,x\n" * 2000)
    (shop.folder / "changes/lines.csv").write_text("#,id,product,pieces\n" + "1,2,jam\n" * 30 + "0,1,jam,2\n")
    shop.answers(b"fault number 4\n", 3)
    for command in ("lint", "night"):
        status, told = shop.ran(command)
        assert (status, len(told)) == (3, 2 * (TOLD + 1))
        assert f"data/products.csv:{4 + TOLD}:5: {2000 - TOLD:,} more from here on are not told" in told
        assert f"changes/lines.csv:{2 + TOLD}:1: {31 - TOLD} more from here on are not told" in told


def test_rows_that_are_not_there_are_told_as_far(kept):
    rows = "".join(f"-1,{number},Monday,north\n" for number in range(1000, 1100))
    (kept.folder / "changes/orders.csv").write_text(f"#,id,day,region\n{rows}")
    for command, status in (("lint", 3), ("night", 1)):
        ended, told = kept.ran(command)
        assert (ended, len(told)) == (status, TOLD + 1)
        assert told[-1] == f"changes/orders.csv:{2 + TOLD}:1: {100 - TOLD} more from here on are not told"


def test_files_of_which_the_same_is_said(shop):
    for number in range(50):
        (shop.folder / f"notes{number:02}.txt").touch()
    status, told = shop.ran("lint")
    assert (status, len(told)) == (0, TOLD + 1)
    text = "this file is no part of a warehouse, and is not looked at"
    assert told[-1] == f"notes{TOLD}.txt:1:1: warning: {50 - TOLD} more, from here on: {text}"


def as_nobody(shop, *words):
    """The status of a command that a user without rights begins, and what it says."""
    told = shop.folder.parent / "told"
    for path in [shop.folder, *shop.folder.rglob("*")]:
        os.chown(path, NOBODY, NOBODY, follow_symlinks=False)
    shop.folder.parent.chmod(0o777)
    shop.program.chmod(0o755)
    child = os.fork()
    if child == 0:
        status = 99
        try:
            for handle in (1, 2):
                os.dup2(os.open(told, os.O_WRONLY | os.O_CREAT | os.O_APPEND, 0o666), handle)
            sys.stdout, sys.stderr = (os.fdopen(handle, "w") for handle in (1, 2))
            os.setgroups([])
            os.setresgid(*[NOBODY] * 3)
            os.setresuid(*[NOBODY] * 3)
            status = words_of.main([words[0], str(shop.folder), *words[1:], "--program", str(shop.program)])
        finally:
            sys.stderr.flush()
            os._exit(status)
    return os.waitstatus_to_exitcode(os.waitpid(child, 0)[1]), told.read_text()


@pytest.mark.skipif(os.geteuid() != 0, reason="it takes root to be another user")
@pytest.mark.parametrize("place", ("data", "changes"))
def test_a_folder_that_may_not_be_written_is_told_before_anything_is_moved(shop, place):
    (shop.folder / place).chmod(0o555)
    before = contents(shop.folder)
    status, told = as_nobody(shop, "night", "--commit")
    assert status == 5
    assert "cannot be moved out of its folder by this user" in told
    assert "nothing is moved" in told
    assert contents(shop.folder) == before
    assert not (shop.folder / "versions").exists()
    (shop.folder / place).chmod(0o755)
    (shop.folder.parent / "told").unlink()
    assert as_nobody(shop, "night", "--commit")[0] == 0
