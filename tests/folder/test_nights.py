"""What a night writes, and from where its sizes are."""

import re
from pathlib import Path

import pytest

from whview.bundle import unpack
from whview.catalogue.from_toml import Catalogue
from whview.folder import headlines, sizes
from whview.folder.folder import Folder
from whview.folder.sizes import GivenText, Size

from .shop import ANSWER, SHOP, SIZES, carried_out, contents

PRODUCTS = b'#,product,price\n1,bread,300\n1,"tea, black",800\n1,jam,475\n1,honey,950\n'
ONE_BY_ONE = "strategy: view by view, as the catalogue has them, without a plan: "


def test_a_night_writes_every_view_and_a_report_and_nothing_else(shop):
    before = contents(shop.folder)
    assert shop.ran("night") == (0, [])
    after = contents(shop.folder)
    made = {f"new/{view.name}.csv" for view in Catalogue(SHOP).views} | {"new/report.txt", "new/catalogue.toml"}
    assert set(after) - set(before) == made
    assert {file: after[file] for file in before} == before
    assert after["new/products.csv"] == PRODUCTS
    printed = unpack(ANSWER.read_bytes().removesuffix(b"status 0\n"))
    assert {name: after[f"new/{name}.csv"] for name in printed} == printed


def test_workers_and_readers_go_through_and_what_readers_saw_is_told(shop):
    seen = "reader 0 version 0 rows 13\nreader 1 version 0 rows 13\n"
    shop.answers(ANSWER.read_bytes().removesuffix(b"status 0\n") + seen.encode(), 0)
    shop.program.write_text(shop.program.read_text().replace("cat >", f'echo "$@" >> {shop.program}.words\ncat >'))
    words = ["--workers", "2", "--readers", "2", "--page-keys", "3"]
    assert shop.ran("night", *words) == (0, [])
    assert Path(f"{shop.program}.words").read_text().splitlines()[0].split() == ["night", *words]
    assert f"work 98\n{seen}view,pre,post,change\n" in (shop.folder / "new/report.txt").read_text()
    assert shop.ran("check", "--workers", "2") == (2, ["check has no option --workers"])


def test_sizes_are_given_or_told_from_the_last_report_or_measured(shop):
    measured = (SIZES.splitlines(), ["sizes measured by a night that is not kept"])
    # The program that stands here answers every night alike, so the rows before it are those after it.
    measured[0][4:] = ["sales,9,9,8", "daily_by_product,8,8,8", "daily_by_region,6,6,8"]
    assert told_sizes(shop) == measured
    assert shop.ran("night", "--commit") == (0, [])
    (shop.folder / "changes/orders.csv").write_bytes(b"#,id,day,region\n-1,7,Wednesday,south\n1,7,Wednesday,north\n")
    told = ["view,pre,post,change", "orders,7,7,2", "lines,9,9,0", "products,4,4,0", "sales,9,9,2"]
    told += ["daily_by_product,8,8,2", "daily_by_region,6,6,2"]
    assert told_sizes(shop) == (told, ["sizes from the change files and the last report"])
    (shop.folder / "sizes.csv").write_text(SIZES)
    assert told_sizes(shop) == (SIZES.splitlines(), ["sizes given in sizes.csv"])


def test_a_night_without_sizes_is_carried_out_once_and_the_next_one_is_planned(shop):
    kept = (SHOP / "strategy.txt").read_text()
    (shop.folder / "strategy.txt").unlink()
    shop.program.write_text(
        f"#!/bin/sh\ncat > /dev/null\necho $1 >> {shop.program}.words\ncase $1 in\nplan) printf 'scope all\nwork 98\n{kept}';;\n"
        f"certify) echo certified all work 98;;\n*) cat {shop.program.parent}/answer;; esac\n"
    )
    assert shop.ran("night", "--commit") == (0, [])
    assert Path(f"{shop.program}.words").read_text().split() == ["night"]
    report = (shop.folder / "current/report.txt").read_text()
    first = f"{ONE_BY_ONE}no sizes are known yet; the next night is planned by those that stand below\nwork: 98 rows "
    assert report.startswith(first)
    assert report.endswith("products,3,4,3\nsales,,9,8\ndaily_by_product,,8,8\ndaily_by_region,,6,8\n")
    assert shop.ran("night") == (0, [])
    assert Path(f"{shop.program}.words").read_text().split() == ["night", "plan", "certify", "night"]
    report = (shop.folder / "new/report.txt").read_text()
    by = "by the sizes that were expected (from the change files and the last report)"
    first = f"strategy: a plan of work 98; certified: no correct strategy has less, {by}\nwork: 98 rows "
    assert report.startswith(first)
    assert "\nsales,9,9,8\n" in report


def test_a_report_tells_where_the_time_is_and_which_work_is_idle(shop):
    (shop.folder / "changes/products.csv").unlink()
    assert shop.ran("night") == (0, [])
    lines = (shop.folder / "new/report.txt").read_text().splitlines()
    given = "strategy: that of strategy.txt, whatever its work; without this file a night plans, as `whview folder plan"
    assert lines[0] == f"{given} {shop.folder}` shows"
    idle = "19 of them are those of 1 of 5 Comps without a changed row, where nothing was looked up"
    assert lines[1] == f"work: 98 rows as it was carried out; {idle}"
    assert re.search(r"^time: [0-9]+\.[0-9]{2} s in all but for the end of writing, [0-9]+\.[0-9]{2} s of it in the program$", lines[2])
    (shop.folder / "sizes.csv").write_text(SIZES.replace("products,3,4,3", "products,3,3,0"))
    told = shop.said("explain")[1]
    place = told.index("comp sales from products: 16, 0 changed")
    assert told[0] == "comp sales from orders: 12, 2 changed"
    assert told[-1] == "work 92, 56 changed"
    assert told[place + 1].endswith("; no changed row goes through it, so nothing is looked up")
    assert sum(line.endswith("nothing is looked up") for line in told) == 1
    assert shop.ran("night", "--commit") == (0, [])
    told = shop.said("explain")[1]
    took = r"took [0-9.]+ s in all but for the end of writing, [0-9.]+ s of it in the program"
    assert re.search(f"^the night of version 1 had work 98, and {took}$", told[-1])
    assert shop.ran("graph") == (0, [])
    for name in ("graph.svg", "graph.dot"):
        assert re.search(f"(?i)the night of version 1 had work 98, and {took}", (shop.folder / name).read_text())


def test_what_is_known_of_a_plan_is_told_with_among_which_strategies_and_by_which_sizes():
    rows, weights = SIZES, SIZES.replace("change\n", "change,weight\n").replace("\n", ",2\n")
    given = "given in sizes.csv"
    by = f"by the sizes that were expected ({given})"
    one_way = f"strategy: a plan of work 12; certified: no strategy whose Comps take one view each has less, {by}"
    assert headlines.planned("certified one-way work 12", GivenText(rows, given)) == one_way
    by_weight = f"strategy: a plan of work 12 by weight; certified: no correct strategy has less, {by}"
    assert headlines.planned("certified all work 12", GivenText(weights, given)) == by_weight
    other = f"strategy: a plan, {by}; of it the program says rejected work"
    assert headlines.planned("rejected work", GivenText(rows, given)) == other
    sizes = {"a": Size(1, 1, 1), "b": Size(1, 1, 0)}
    assert headlines.work("comp c from a: 3\ninst a: 1\nwork 4", sizes) == "work: 4 rows as it was carried out; changed rows went through each Comp"
    idle = "work: 9 rows as it was carried out; 5 of them are those of 1 of 2 Comps without a changed row, where nothing was looked up"
    assert headlines.work("comp c from a b: 3\ncomp c from b: 5\ninst a: 1\nwork 9", sizes) == idle


def test_the_sizes_of_a_view_that_was_defined_otherwise_are_told_of_none_over_it(shop):
    def known():
        return sizes.as_before(Folder(shop.folder))

    assert shop.ran("night", "--commit") == (0, [])
    views = {view.name for view in Catalogue(SHOP).views}
    told = ["sizes from the change files and the last report"]
    shop.edit("catalogue.toml", "# A small shop", "# A shop")
    assert (known(), told_sizes(shop)[1]) == (views, told)
    shop.edit("catalogue.toml", 'sum = [["cost", "sales.cost"]]', 'sum = [["cost", "sales.pieces"]]')
    assert known() == views - {"daily_by_region"}
    shop.edit("catalogue.toml", 'join = [["orders.id", "lines.id"]', 'where = ["<", "lines.pieces", 3]\njoin = [["orders.id", "lines.id"]')
    assert known() == {"orders", "lines", "products"}
    (shop.folder / "versions/1/catalogue.toml").unlink()
    assert known() == set()


def test_after_another_definition_sizes_are_measured_and_the_report_leaves_open_what_nobody_counted(kept):
    kept.edit("catalogue.toml", 'join = [["orders.id", "lines.id"]', 'where = ["<", "lines.pieces", 3]\njoin = [["orders.id", "lines.id"]')
    (kept.folder / "changes/orders.csv").write_bytes(b"#,id,day,region\n1,8,Thursday,north\n")
    kept.program.write_text(kept.program.read_text().replace("cat >", f"echo $1 >> {kept.program}.words\ncat >"))
    measured, told = told_sizes(kept)
    assert (measured[1], told) == ("orders,7,8,1", ["sizes measured by a night that is not kept"])
    assert Path(f"{kept.program}.words").read_text().split() == ["night", "night"]
    (kept.folder / "strategy.txt").unlink()
    assert kept.ran("night") == (0, [])
    lines = (kept.folder / "new/report.txt").read_text().splitlines()
    why = "the catalogue has other views than the night before, whose sizes nobody knows; the next night is planned by those that stand below"
    assert lines[0] == ONE_BY_ONE + why
    anew = "views: computed anew, since the catalogue is another one than that of version 1; "
    assert lines[3] == f"{anew}what changed is counted by their definitions of now, over the tables before and after"
    assert lines[-3:] == ["sales,,9,8", "daily_by_product,,8,8", "daily_by_region,,6,8"]


def test_the_first_rows_of_a_warehouse_are_known_to_be_none_before_them(shop):
    for name in ("orders", "lines", "products"):
        header = (shop.folder / f"data/{name}.csv").read_text().partition("\n")[0]
        (shop.folder / f"data/{name}.csv").write_text(f"{header}\n")
        (shop.folder / f"changes/{name}.csv").write_text(f"#,{header}\n")
    assert shop.ran("night") == (0, [])
    assert "\nsales,0,9,8\n" in (shop.folder / "new/report.txt").read_text()


def test_a_view_whose_rows_stay_is_not_looked_at(kept):
    stays = ANSWER.read_bytes().removesuffix(b"status 0\n").replace(b"inst daily_by_region: 8", b"inst daily_by_region: 0")
    kept.answers(stays.partition(b"view daily_by_region")[0] + b"view daily_by_region\nnone\n", 0)
    assert kept.ran("night", "--commit", "--always") == (0, [])
    one, two = (kept.folder / "versions" / number / "views/daily_by_region.csv" for number in "12")
    assert one.samefile(two)
    kept.edit("catalogue.toml", "# A small shop", "# A shop")
    kept.answer_as_the_shop()
    assert kept.ran("night", "--commit") == (0, [])
    assert (kept.folder / "current/views/daily_by_region.csv").samefile(one)


def test_a_view_that_is_not_as_it_was_made_is_told_and_made_anew(kept):
    stays = ANSWER.read_bytes().removesuffix(b"status 0\n").replace(b"inst daily_by_region: 8", b"inst daily_by_region: 0")
    kept.answers(stays, 0)
    file, view = kept.folder / "versions/1/views/daily_by_region.csv", (kept.folder / "current/views/daily_by_region.csv").read_bytes()
    file.chmod(0o644)
    file.write_bytes(view.replace(b"Wednesday,south", b"Wednesday,west"))
    told = "it has 163 bytes, and had 164; all derived views are made anew"
    warned = f"versions/1/views/daily_by_region.csv:1:1: warning: this is not as its night made it: {told}"
    assert kept.ran("night", "--commit") == (0, [warned])
    assert (kept.folder / "current/views/daily_by_region.csv").read_bytes() == view
    why = "\nviews: computed anew, since files of version 1 are not as they were made; "
    assert why in (kept.folder / "current/report.txt").read_text()
    assert kept.ran("night", "--commit") == (0, [])
    assert kept.current() == "versions/2"


def test_a_view_that_a_version_has_lost_is_made_where_nothing_changed(kept):
    (kept.folder / "versions/1/views/sales.csv").unlink()
    told = "this is not as its night made it: it is not there; all derived views are made anew"
    assert kept.ran("night", "--commit") == (0, [f"versions/1/views/sales.csv:1:1: warning: {told}"])
    assert (kept.folder / "versions/2/views/sales.csv").is_file()


def test_how_many_rows_a_view_had_is_left_open_where_it_is_defined_in_another_way(kept):
    kept.edit("catalogue.toml", '["cost", ["*", "lines.pieces", "products.price"]],', '["cost", "products.price"],')
    assert kept.ran("night", "--commit") == (0, [])
    report = (kept.folder / "current/report.txt").read_text()
    assert "\nproducts,4,4,0\nsales,,9,8\ndaily_by_product,,8,8\ndaily_by_region,,6,8\n" in report
    kept.edit("catalogue.toml", 'sum = [["cost", "sales.cost"]]', "sum = []")
    assert kept.ran("night", "--commit") == (0, [])
    report = (kept.folder / "current/report.txt").read_text()
    assert "\nsales,9,9,8\ndaily_by_product,8,8,8\ndaily_by_region,,6,8\n" in report
    kept.edit("catalogue.toml", "# A small shop", "# A shop")
    assert kept.ran("night", "--commit") == (0, [])
    assert "\ndaily_by_region,6,6,8\n" in (kept.folder / "current/report.txt").read_text()


def told_sizes(shop):
    status, printed, told = shop.said("sizes")
    assert status == 0
    return printed, told


def test_several_files_of_changes_of_a_view_add_up(shop):
    (shop.folder / "changes/products.3.csv").write_text("#,product,price\n1,plum,120\n-1,honey,950\n")
    (shop.folder / "changes/products.12.csv").write_text("#,product,price\n2,plum,120\n")
    keep_bundle(shop)
    assert shop.ran("night", "--commit") == (0, [])
    assert b"@changes products\n#,product,price\n-1,jam,450\n1,jam,475\n3,plum,120\n@strategy" in bundle(shop)
    assert b"\n3,plum,120\n" in (shop.folder / "current/data/products.csv").read_bytes()
    assert b"honey" not in (shop.folder / "current/data/products.csv").read_bytes()
    names = ["lines.csv", "orders.csv", "products.12.csv", "products.3.csv", "products.csv"]
    assert sorted(path.name for path in (shop.folder / "current/changes").iterdir()) == names


def test_counts_that_leave_64_bits_over_several_files_are_told_with_the_row_and_the_files(shop):
    for name, count in (("products.csv", 2**62), ("products.1.csv", 1), ("products.2.csv", 2**62), ("products.3.csv", -5)):
        rows = f"1,jam,475\n{count},plum,120\n" if count > 0 else f"{count},plum,1\n5,plum,1\n"
        (shop.folder / "changes" / name).write_text(f"#,product,price\n{rows}")
    before = {file: text for file, text in contents(shop.folder).items() if file.startswith("changes/")}
    told = (
        f"changes/products.2.csv:3:1: the row plum,120 would change {2**63 + 1} times, which leaves 64 bits: {2**62} at changes/products.csv:3:1,"
        f" 1 at changes/products.1.csv:3:1, {2**62} at changes/products.2.csv:3:1; put less of it into one night"
    )
    for words in (["lint"], ["night"], ["night", "--commit"], ["plan"]):
        assert shop.ran(*words) == (3, [told])
    assert {file: text for file, text in contents(shop.folder).items() if file.startswith("changes/")} == before
    assert not (shop.folder / "versions/1").exists()
    (shop.folder / "changes/products.3.csv").write_text("#,product,price\n-2,plum,120\n")
    assert shop.ran("lint") == (0, [])


def test_a_night_in_which_nothing_changed_makes_no_version_unless_it_is_asked_to(kept):
    says = "nothing changed: version 1 stays the current one{}; with --always a version is made all the same\n"
    assert printed_by(kept, "--commit", "--keep", "1") == (0, says.format(""))
    assert kept.versions() == ["1"]
    for name in ("orders.csv", "orders.2.csv"):
        (kept.folder / "changes" / name).write_text("#,id,day,region\n")
    stay = "; changes/orders.2.csv, changes/orders.csv without rows stay"
    assert printed_by(kept, "--commit") == (0, says.format(stay))
    assert kept.ran("night", "--always") == (2, ["--always goes with --commit, which makes no version where nothing changed"])
    (kept.folder / "changes/orders.2.csv").write_text("#,id,dag,region\n")
    assert kept.ran("night", "--commit")[0] == 3
    (kept.folder / "changes/orders.2.csv").unlink()
    kept.edit("strategy.txt", "inst orders\n", "")
    assert kept.ran("night", "--commit")[0] == 1
    (kept.folder / "strategy.txt").write_bytes((SHOP / "strategy.txt").read_bytes())
    assert printed_by(kept, "--commit", "--always")[0] == 0
    assert kept.versions() == ["1", "2"]
    assert not (kept.folder / "changes/orders.csv").exists()
    (kept.folder / "changes/orders.csv").write_text("#,id,day,region\n1,9,Friday,north\n-1,9,Friday,north\n")
    assert printed_by(kept, "--commit")[0] == 0
    kept.edit("catalogue.toml", "# A small shop", "# A shop")
    assert printed_by(kept, "--commit")[0] == 0
    assert kept.versions() == ["1", "2", "3", "4"]


def test_changes_whose_lines_end_by_a_carriage_return_alone_are_rows(kept):
    for content, versions in ((b"#,id,day,region\r\r\n", ["0", "1"]), (b"#,id,day,region\r1,8,Thursday,south\r", ["0", "1", "2"])):
        (kept.folder / "changes/orders.csv").write_bytes(content)
        assert printed_by(kept, "--commit")[0] == 0
        assert kept.versions() == versions
    assert b"\n1,8,Thursday,south\n" in (kept.folder / "current/data/orders.csv").read_bytes()


def printed_by(shop, *words):
    """The status of a night, and what it prints."""
    return carried_out(["night", shop.folder, *words, "--program", shop.program])[:2]


def test_each_of_several_files_of_changes_is_judged_at_its_own_places(shop):
    (shop.folder / "changes/products.1.csv").write_text("#,product,price\n-1,plum,1x\n-1,plum,120\n")
    assert shop.ran("lint") == (3, ['changes/products.1.csv:2:9: "1x" is not a whole number'])
    (shop.folder / "changes/products.1.csv").write_text("#,product,price\n1,jam,475\n-1,plum,120\n")
    (shop.folder / "changes/products.2.csv").write_text("#,product,price\n-2,jam,475\n-1,plum,120\n")
    told = "changes/products.1.csv:3:1: 2 of plum,120 leave, and data/products.csv has 0"
    shop.answers(b"refused absent products\nleft untouched\n", 1)
    assert shop.ran("night", "--commit") == (1, [told])


def keep_bundle(shop):
    """Has the program keep what it was given."""
    shop.program.write_text(shop.program.read_text().replace("cat > /dev/null", f"cat >> {shop.program}.bundle"))


def bundle(shop):
    return Path(f"{shop.program}.bundle").read_bytes()


PROGRAMS = {
    "that is killed": ("kill -9 $$", 70, "was killed by signal 9 (SIGKILL)"),
    "that could not be built": ("cat > /dev/null\nexit 70", 70, "ended with status 70, which is none of the program's"),
    "that says nothing": ("cat > /dev/null\necho", 70, "ended with status 0 and without an answer"),
    "that ends for want of memory and says nothing": ("cat > /dev/null\nexit 4", 4, "ended with status 4 and without an answer"),
}


@pytest.mark.parametrize("script, status, told", PROGRAMS.values(), ids=PROGRAMS)
def test_a_program(shop, script, status, told):
    """Each command that asks the program tells, and changes nothing."""
    shop.program.write_text(f"#!/bin/sh\n{script}\n")
    with shop.unchanged():
        for words in (["night"], ["check"], ["plan"], ["certify"]):
            asked = "check" if words == ["check"] else "night"
            assert shop.ran(*words) == (status, [f"{shop.program} {asked} {told}; nothing was changed"])


def test_a_program_that_there_is_not(shop):
    shop.program.unlink()
    told = f"{shop.program} cannot be run for night: No such file or directory; nothing was changed"
    assert shop.ran("night", "--commit") == (70, [told])


def test_an_answer_that_was_cut(shop):
    shop.answers(ANSWER.read_bytes().partition(b"view daily_by_region")[0], 0)
    assert shop.ran("night") == (70, [f"{shop.program} night gave no table of daily_by_region; nothing was changed"])
