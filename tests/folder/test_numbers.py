"""Numbers of more digits than Python reads, and texts that are none, are told in a line wherever they stand."""

import re

from whview.folder.numbers import is_between, number_of

DIGITS = "9" * 5000
HEADER = "orders has the header #,id,day,region; this is "


def test_a_text_is_a_number_of_64_bits_or_none():
    texts = {"0": 0, "-7": -7, "+7": 7, "0" * 5000 + "7": 7, str(2**63 - 1): 2**63 - 1, str(-(2**63)): -(2**63)}
    assert {text: number_of(text) for text in texts} == texts
    for text in ("", "-", "1.5", " 1", "1_0", "\u0661", DIGITS, "-" + DIGITS, str(2**63), str(-(2**63) - 1)):
        assert number_of(text) is None
    assert [is_between(text, 1, 3) for text in ("0", "1", "3", "4", "x")] == [False, True, True, False, False]


def test_a_cell_of_five_thousand_digits_is_told_with_its_place(shop):
    (shop.folder / "changes/orders.csv").write_text(f"#,id,day,region\n1,{DIGITS},Monday,north\n{DIGITS},7,Monday,north\n")
    told = [f'changes/orders.csv:{place}: "{"9" * 80}" does not fit into 64 bits' for place in ("2:3", "3:1")]
    for words in (["lint"], ["night"], ["night", "--commit"]):
        status, lines = shop.ran(*words)
        assert (status, lines[:2]) == (3, told)


def test_so_is_one_of_a_catalogue_of_sizes_and_of_the_words(shop):
    (shop.folder / "sizes.csv").write_text(f"view,pre,post,change\norders,{DIGITS},1,1\n")
    assert shop.ran("plan")[0] == 3
    (shop.folder / "sizes.csv").unlink()
    for words in (["night", "--commit", "--keep", DIGITS], ["night", "--workers", DIGITS], ["plan", "--budget", DIGITS]):
        status, lines = shop.ran(*words)
        assert (status, len(lines)) == (2, 1)
    shop.edit("catalogue.toml", '["*", "lines.pieces", "products.price"]', f'["*", "lines.pieces", {DIGITS}]')
    status, lines = shop.ran("lint")
    text = (shop.folder / "catalogue.toml").read_text()
    line = text.count("\n", 0, text.index(DIGITS)) + 1
    assert (status, len(lines)) == (3, 1)
    assert re.search(f"^catalogue.toml:{line}:[0-9]+: a number has 64 bits at most$", lines[0])


def test_a_strategy_and_a_plan_that_are_no_text_are_told(shop):
    (shop.folder / "strategy.txt").write_bytes(b"\xff\xfe\n")
    for words in (["lint"], ["check"], ["night"], ["night", "--commit"]):
        status, lines = shop.ran(*words)
        assert (status, lines[0].partition(" is no ")[0]) == (3, 'strategy.txt:1:1: "\ufffd\ufffd"')


def test_counts_that_leave_64_bits_together_are_told(shop):
    most = 2**63 - 1
    (shop.folder / "changes/orders.csv").write_text(f"#,id,day,region\n{most},7,Monday,north\n1,7,Monday,north\n")
    told = f"changes/orders.csv:3:1: with this record the row counts {most + 1} times, which leaves 64 bits"
    for words in (["lint"], ["night"]):
        status, lines = shop.ran(*words)
        assert (status, lines[0]) == (3, told)


def test_so_are_those_of_which_it_takes_thousands(shop):
    count, row = 10**15 - 1, "7,Monday,north"
    record = (2**63 - 1) // count + 1
    (shop.folder / "changes/orders.csv").write_text("#,id,day,region\n" + f"{count},{row}\n" * record)
    told = f"changes/orders.csv:{record + 1}:1: with this record the row counts {count * record} times, which leaves 64 bits"
    assert shop.ran("lint") == (3, [told])


def test_a_header_of_another_form_says_what_to_do(shop):
    cures = {"id,day,region": "; # is how many of a row come, or with - leave", "#;id;day;region": "; part the cells by commas"}
    for header, cure in (cures | {"#,id,region,day": "; put the columns in that order"}).items():
        (shop.folder / "changes/orders.csv").write_text(f"{header}\n")
        status, lines = shop.ran("lint")
        assert (status, lines[0]) == (3, f"changes/orders.csv:1:1: {HEADER}{header}{cure}")


def test_several_files_of_changes_that_do_not_go_together_are_told_by_pack(shop):
    (shop.folder / "changes/orders.1.csv").write_text("#,id\n1,5\n")
    status, lines = shop.ran("pack")
    assert (status, len(lines)) == (3, 1)
    assert "`whview folder lint " in lines[0]


def test_counts_above_what_a_plan_takes_are_planned_all_the_same(shop):
    (shop.folder / "strategy.txt").unlink()
    (shop.folder / "changes/orders.csv").write_text(f"#,id,day,region\n{2**62},9,Monday,north\n")
    shop.answer_as_the_shop()
    shop.program.write_text(f"#!/bin/sh\n[ $1 = plan ] && cat > {shop.program}.plan || cat > /dev/null\ncat {shop.program.parent}/answer\n")
    shop.ran("plan")
    assert f"orders,5,{2**40},{2**40}\n" in (shop.program.parent / "program.plan").read_text()
