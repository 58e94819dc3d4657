"""What is told of each mistake, word for word."""

import os
import re

import pytest

from whview.folder import command as words_of
from whview.folder.command import COMMANDS
from whview.folder.helps import OPTIONS

from .shop import ROOT, SHOP, SIZES, carried_out


def test_the_shop_has_no_finding(shop):
    assert shop.ran("lint") == (0, [])


NULL, DATES = "there is no NULL; see the recipe NULL in docs/WAREHOUSE.md", "see the recipe Dates in docs/WAREHOUSE.md"
CELLS = {"": NULL, "NULL": NULL, "\\N": NULL, "n/a": NULL, "2026-11-27": DATES, "27.11.2026": DATES, "2026/1/2 10:00": DATES}


@pytest.mark.parametrize("cell, cure", CELLS.items())
def test_what_is_meant_by_a_cell_that_is_no_number(shop, cell, cure):
    recipe = re.search("the recipe ([A-Za-z]+)", cure)[1]
    assert f"**{recipe}.**" in (ROOT / "docs/WAREHOUSE.md").read_text()
    (shop.folder / "data/products.csv").write_text(f"product,price\njam,450\nbread,{cell}\n")
    assert shop.ran("lint") == (3, [f'data/products.csv:3:7: "{cell}" is not a whole number ({cure})'])


@pytest.mark.parametrize("cell, cure", {"12,50": "keep cents", "1,250": "write 1250", "-1,250,000": "write -1250000", "1,250.00": "keep cents"}.items())
def test_what_is_meant_by_a_number_with_commas(shop, cell, cure):
    (shop.folder / "data/products.csv").write_text(f'product,price\njam,"{cell}"\n')
    assert shop.ran("lint") == (3, [f'data/products.csv:2:5: "{cell}" is not a whole number ({cure})'])


CLOSED = "closed in line {}, where more stands before the next comma"
QUOTES = [
    ('product,price\nbread,300\n"jam,450\ntea,800\n', "3:1", "never closed"),
    ('product,price\nbread,300\n"jam,450\n"tea",800\n', "3:1", CLOSED.format(4)),
    ('product,price\nbread,300\n"jam, 5" wide",450\n', "3:1", CLOSED.format(3)),
    ('product,price\nbread,300\n"jam,450\ntea,800",1,2\n', "3:1", "closed in a later line, and this record has 3 cells and the header has 2"),
    ('product,price\n"bre\nad",300\njam,"450', "4:5", "never closed"),
    ('"product,price\n', "1:1", "never closed"),
]


@pytest.mark.parametrize("text, place, told", QUOTES)
def test_quotes_that_are_wrong(shop, text, place, told):
    (shop.folder / "data/products.csv").write_text(text)
    cure = "a quote within a cell is written twice, and the cell is put in quotes"
    assert shop.ran("lint") == (3, [f"data/products.csv:{place}: the quote that opens here is {told}; {cure}"])


def test_a_byte_order_mark(shop):
    for file in ("catalogue.toml", "strategy.txt"):
        content = (shop.folder / file).read_bytes()
        (shop.folder / file).write_bytes(b"\xef\xbb\xbf" + content)
        told = f"{file}:1:1: a byte order mark stands before the first line; save the file as UTF-8 without one"
        for command in ("lint", "check"):
            assert shop.ran(command) == (3, [told])
        (shop.folder / file).write_bytes(content)
    (shop.folder / "data/orders.csv").write_bytes(b"\xef\xbb\xbf" + (shop.folder / "data/orders.csv").read_bytes())
    assert shop.ran("lint") == (0, [])


def test_a_text_that_is_written_as_a_column(shop):
    shop.edit("catalogue.toml", 'join = [["orders.id"', 'where = ["=", "orders.day", "Tuesday"]\njoin = [["orders.id"')
    there = "orders.id, orders.day, orders.region, lines.id, lines.product, lines.pieces, products.product, products.price"
    told = f'catalogue.toml:19:29: sales: there is no column "Tuesday"; there are {there}; a text is {{ text = "Tuesday" }}'
    assert shop.ran("lint") == (3, [told])
    shop.edit("catalogue.toml", '"Tuesday"', '{ text = "Tuesday" }')
    assert shop.ran("lint") == (0, [])


def test_a_misspelt_key_is_a_fault_and_a_view_without_a_join_a_warning(shop):
    shop.edit("catalogue.toml", "join = ", "jion = ")
    without = "catalogue.toml:16:1: warning: sales is over 3 views without a join: every row meets every row"
    told = "catalogue.toml:19:1: {}sales: unknown key jion; did you mean join?"
    assert shop.ran("lint") == (3, [without, told.format("")])
    assert shop.ran("lint", "--lenient") == (0, [without, told.format("warning: ")])
    with shop.unchanged():
        assert shop.ran("night", "--commit") == (3, [without, told.format("")])
    assert shop.ran("pack") == (3, [told.format("")])


def test_a_function_that_there_is_not_and_what_stands_beside_the_views(shop):
    shop.edit("catalogue.toml", 'sum = [["pieces"', 'avg = [["mean", "sales.cost"]]\nsum = [["pieces"')
    shop.edit("catalogue.toml", "# A small shop", 'where = ["=", "orders.id", 3]\n\n# A small shop')
    told = ["catalogue.toml:1:1: where is no part of a catalogue, which has [[view]] and max_bytes alone", "catalogue.toml:36:1: daily_by_product: unknown key avg"]
    assert shop.ran("lint") == (3, told)
    assert shop.ran("night") == (3, told)


def test_a_base_view_without_its_table_is_a_fault(shop):
    (shop.folder / "data/orders.csv").unlink()
    told = "catalogue.toml:4:8: there is no data/orders.csv; an empty table is a file with its header: id,day,region"
    with shop.unchanged():
        for words in (["lint"], ["night"], ["night", "--commit"], ["plan"]):
            assert shop.ran(*words) == (3, [told])


def test_files_of_data_and_changes_that_nothing_reads(shop):
    os.rename(shop.folder / "changes/orders.csv", shop.folder / "changes/orders.CSV")
    for name in ("changes/order.csv", "changes/lines.csv.gz", "changes/lines.x.csv", "data/.hidden", "notes.txt"):
        (shop.folder / name).write_text("")
    (shop.folder / "data/old").mkdir()
    read = "changes/ has files NAME.csv, NAME.1.csv, NAME.2.csv and so on alone; move it away; did you mean"
    told = [
        f"changes/lines.csv.gz:1:1: this file is not read: {read} lines.csv?",
        f"changes/lines.x.csv:1:1: this file is not read: {read} lines.csv?",
        "changes/order.csv:1:1: there is no view order; did you mean orders?",
        f"changes/orders.CSV:1:1: this file is not read: {read} orders.csv?",
        "data/old:1:1: this folder is not read: data/ has files NAME.csv alone; move it away",
        "notes.txt:1:1: warning: this file is no part of a warehouse, and is not looked at",
    ]
    assert shop.ran("lint") == (3, told)
    assert sorted(shop.ran("night", "--commit")[1]) == told


def test_a_strategy_and_sizes_that_are_no_files(shop):
    strategy = shop.folder / "strategy.txt"
    strategy.unlink()
    strategy.symlink_to("lost.txt")
    os.mkfifo(shop.folder / "sizes.csv")
    kinds = {"sizes.csv": "FIFO", "strategy.txt": "link"}
    told = [f"{name}:1:1: this {kind} is no file that can be read; put one here, or take it away" for name, kind in kinds.items()]
    for words in (["lint"], ["night"], ["night", "--commit"], ["plan"]):
        status, lines = shop.ran(*words)
        assert (status, sorted(lines)) == (3, told)


JOIN, ID = 'join = [["orders.id"', '["region", "orders.region"]'
# What stands in a file in whose place, and what a command, which ends with 3, tells of that.
MISTAKES = {
    "a number that is none": ("data/products.csv", "bread,300", "bread,12.50", "night", 'data/products.csv:2:7: "12.50" is not a whole number (keep cents)'),
    "a number below a cell of two lines": ("data/lines.csv", '2,"tea, black",3', '2,"tea,\nblack",x', "lint", 'data/lines.csv:5:8: "x" is not a whole number'),
    "a catalogue that is not TOML": ("catalogue.toml", 'name = "lines"', "name = lines", "check", "catalogue.toml:8:8: this is not TOML: Invalid value"),
    "a key of another form": ("catalogue.toml", 'count = "lines"\nsum = [["pieces"', 'sum = [["pieces"', "lint",
                              "catalogue.toml:29:1: daily_by_product: a summary has count, the name of the column that counts"),
    "an unknown column": ("catalogue.toml", ID, ID.replace("region\"]", "regoin\"]"), "plan",
                          'catalogue.toml:22:14: sales: there is no column "orders.regoin"; orders has id, day, region; did you mean orders.region?'),
    "a filter of another form": ("catalogue.toml", JOIN, f'where = ["=", "orders.id"]\n{JOIN}', "lint",
                                 'catalogue.toml:19:1: sales: this is no predicate, which is true, ["=", E, E] with one of = <> < <= > >=, '
                                 '["all", P, ...], ["any", P, ...] or ["not", P]'),
    "a key that is not looked at": ("catalogue.toml", JOIN, f'sum = [["all", "lines.pieces"]]\n{JOIN}', "lint",
                                    "catalogue.toml:19:1: sales is a joined view, whose sum is not looked at; take it out"),
    "a text that is compared with a number": ("catalogue.toml", JOIN, f'where = [">", "orders.region", 3]\n{JOIN}', "lint",
                                              "catalogue.toml:19:1: sales: text is compared with int; both sides are of one kind"),
}


@pytest.mark.parametrize("file, old, new, command, told", MISTAKES.values(), ids=MISTAKES)
def test_what_is_told_of_one_mistake(shop, file, old, new, command, told):
    shop.edit(file, old, new)
    shop.answers(b"fault number 2\n", 3)
    assert shop.ran(command) == (3, [told])


def test_a_file_that_differs_from_a_view_in_case(shop):
    os.rename(shop.folder / "changes/orders.csv", shop.folder / "changes/Orders.csv")
    assert shop.ran("lint") == (3, ["changes/Orders.csv:1:1: there is no view Orders; orders differs in case alone"])


NAME, OVER = 'name = "lines"', 'over = ["orders", "lines", "products"]'
SHAPES = [
    (NAME, 'name = "orders"', "8:8: a view is named orders already, in line 4; give this one another name, or take one of them out"),
    (OVER, OVER.replace("orders", "daily_by_region"),
     "18:9: sales is over daily_by_region, which stands below it; move the [[view]] of daily_by_region above that of sales"),
    (OVER, OVER.replace("orders", "sales"), "18:9: sales is over itself; a view is over views that stand above it: name one of them in its place"),
    (OVER, OVER.replace("orders", "ordes"), "18:9: sales is over ordes, and no view has that name; did you mean orders?"),
    (OVER, OVER.replace("orders", "xyz"), "18:9: sales is over xyz, and no view has that name; above it are orders, lines, products"),
    (OVER, OVER.replace("products", "orders"), "18:28: sales is over orders twice; take one out, or for rows of it beside others write a view over orders and join that one"),
    (OVER, "over = []", '18:1: sales: over names the views above it that it reads, one at least, such as over = ["orders"]; a base view has columns and no over'),
]


@pytest.mark.parametrize("old, new, told", SHAPES)
def test_each_fault_of_a_shape_is_told_with_what_to_write(shop, old, new, told):
    file = shop.folder / "catalogue.toml"
    assert old in file.read_text()
    file.write_text(file.read_text().replace(old, new))
    status, lines = shop.ran("lint")
    assert status == 3
    assert f"catalogue.toml:{told}" in lines


def test_too_many_views(shop):
    views = "".join(f'[[view]]\nname = "v{number}"\ncolumns = ["x"]\n' for number in range(64))
    (shop.folder / "catalogue.toml").write_text(f'{views}[[view]]\nname = "w"\nover = ["v0", "v1", "v2", "v3", "v4", "v5", "v6"]\nkeep = []\n')
    lines = shop.ran("lint")[1]
    most = "this is the 65th view, and a catalogue has 64 at most; take those out that nobody reads, or part it in two"
    assert f"catalogue.toml:193:1: {most}" in lines
    joined = "w is over 7 views, and 6 are the most; join some of them in a view of their own, and have it be over that one"
    assert f"catalogue.toml:195:1: {joined}" in lines


def test_a_broken_strategy(shop):
    shop.edit("strategy.txt", "comp sales from orders\ninst orders\n", "inst orders\ncomp sales from orders\n")
    rule = "rule S3, a Comp from a view stands before that view's Inst"
    told = f'strategy.txt:2:1: {rule}: "comp sales from orders" has to stand before "inst orders" of line 1'
    for command in ("check", "night"):
        assert shop.ran(command) == (1, [told])


def test_rows_that_are_not_there(shop):
    shop.edit("changes/lines.csv", "-1,4,jam,2", "-2,4,jam,2")
    told = "changes/lines.csv:5:1: 2 of 4,jam,2 leave, and data/lines.csv has 1"
    shop.answers(b"refused absent lines\nleft untouched\n", 1)
    assert shop.ran("night") == (1, [told])
    assert shop.ran("lint") == (3, [told])


def test_a_folder_without_sizes_is_checked_all_the_same(shop):
    shop.answers(b"correct\nwork 0\n", 0)
    assert shop.said("check") == (0, ["correct"], [])


def test_sizes_that_are_wrong(shop):
    (shop.folder / "sizes.csv").write_text(SIZES.replace("orders,5,7,2", "order,5,7,1").replace("9,6", "9,-6"))
    told = [
        "sizes.csv:2:1: order: pre and post are further apart than change", "sizes.csv:2:1: there is no view order; did you mean orders?",
        'sizes.csv:3:1: "-6" is not a number of rows, which is 0 to 1099511627776', "sizes.csv:8:1: orders has no record",
    ]
    assert shop.ran("lint") == (3, told)
    status, lines = shop.ran("plan")
    assert (status, sorted(lines)) == (3, told)


def test_words_that_mean_nothing(shop):
    there = "pack, unpack, night, lint, check, plan, certify, sizes, diff, explain, graph, report, read, serve, sql, init, verify, rollback, log, put, backup, restore"
    assert shop.ran("nigth") == (2, [f"there is no command 'nigth'; there are {there}; did you mean night?"])
    assert shop.ran("lint", "--commit") == (2, ["lint has no option --commit"])
    assert shop.ran("night", "--comit") == (2, ["night has no option --comit; did you mean --commit?"])
    assert shop.ran("--unproved", "lint") == (2, [f"there is no command '--unproved'; there are {there}; an option stands behind its command"])
    assert shop.ran("night", "--keep", "2") == (2, ["--keep goes with --commit, which makes the versions"])
    assert shop.ran("lint", "--unproved") == (2, ["--unproved and --program FILE name two programs; give one"])
    assert shop.ran("night", "--keep", "0") == (2, ["--keep is how many versions stay, 1 or more, and not '0'"])


def test_numbers_of_options_are_refused_before_the_program_is_asked(shop):
    shop.answers(b"", 70)
    wrong = [("night", "--workers", "17", "1 to 16"), ("night", "--readers", "-1", "0 to 16"), ("night", "--page-keys", "0", "1 to 256")]
    wrong += [("plan", "--budget", "x", "1 to 9223372036854775807"), ("check", "--comp-cost", "1000001", "1 to 1000000")]
    for command, option, number, between in wrong:
        told = f"{option} is a whole number from {between}, and not '{number}'"
        assert shop.ran(command, option, number) == (2, [told])
    assert shop.ran("night", "--workers", "2", "--workers", "+3") == (2, ["--workers stands twice"])


def test_each_command_has_a_help_of_its_own():
    for command in COMMANDS:
        for words in [[command, "--help"]] + [["night", "some", "words", "-h"], ["help", "night"]] * (command == "night"):
            status, printed, told = carried_out(words)
            assert (status, told) == (0, "")
            assert printed.startswith(f"whview folder {command} ")
            listed = [option for option, commands, _ in OPTIONS if command in commands]
            named, lines = dict.fromkeys(option for option, _, _ in OPTIONS), printed.splitlines()
            assert [option for line in lines for option in named if line.startswith(f"    {option} ")] == listed
            assert "--unproved" in printed and "--program FILE" in printed


def test_each_option_that_a_command_takes_stands_in_its_help():
    taken = {(option, command) for command, options in (words_of.OPTIONS | words_of.GOES_THROUGH).items() for option in options}
    assert taken <= {(option.split()[0], command) for option, commands, _ in OPTIONS for command in commands}


def test_what_the_program_says_comes_to_the_terminal_with_its_status(shop):
    shop.answers(b"refused large sales\nleft given-up\n", 1)
    assert shop.ran("night") == (1, ["refused large sales", "left given-up"])


def told_of(shop, *lines):
    (shop.folder / "strategy.txt").write_text("".join(f"{line}\n" for line in lines))
    return shop.ran("check")


def test_words_are_parted_by_spaces_and_tabs_alone(shop):
    lines = (SHOP / "strategy.txt").read_text().splitlines()
    (shop.folder / "strategy.txt").write_bytes("".join(f"\t{line}\t \r\n" for line in lines).encode())
    assert shop.ran("lint") == (0, [])
    for mark in ("\r", "\xa0", "\x0b", "\f"):
        (shop.folder / "strategy.txt").write_bytes("\n".join([*lines[:2], f"{lines[2]}{mark}{lines[3]}", *lines[4:]]).encode())
        status, told = shop.ran("lint")
        assert (status, told[0].startswith("strategy.txt:3:")) == (3, True)
        (shop.folder / "strategy.txt").write_bytes("\n".join([*lines, mark + mark]).encode())
        assert shop.ran("lint")[0] == 3


# The strategy of the shop, its lines in another order, or some of them, and where which rule is broken.
LINES = (SHOP / "strategy.txt").read_text().splitlines()
BY_REGION, INST = "comp daily_by_region from sales", "inst sales"
MOVED = [line for line in LINES if line != INST and not line.endswith("from sales")]
S1, S2 = "S1, each view's changes are computed into each view over it, once", "S2, each view is installed once"
RULES = {
    "s1, a comp too many": ([LINES[0], *LINES], 2, S1, '"comp sales from orders" computes what an earlier line does, or names a view that sales is not over'),
    "s1, a comp that is missing": (LINES[1:], 11, S1, '"comp sales from orders" is missing'),
    "s2, an inst twice": ([*LINES, LINES[-1]], 12, S2, '"inst daily_by_region" stands a second time'),
    "s2, an inst that is missing": (LINES[:-1], 11, S2, '"inst daily_by_region" is missing'),
    "s4, two comps without the inst between": ([LINES[0], LINES[2], LINES[1], *LINES[3:]], 2, "S4, what one Comp of a view took is installed before the next Comp of it",
                                               '"inst orders" has to stand before "comp sales from lines"'),
    "s5, a comp after the inst": (["comp daily_by_product from sales", BY_REGION, INST, *MOVED], 4, "S5, all Comps of a view stand before its Inst",
                                  '"comp sales from orders" has to stand before "inst sales" of line 3'),
    "s6, a comp from a view before all is computed into it": ([BY_REGION, *(line for line in LINES if line != BY_REGION)], 2,
                                                              "S6, all Comps of a view stand before a Comp from it",
                                                              f'"comp sales from orders" has to stand before "{BY_REGION}" of line 1'),
}


@pytest.mark.parametrize("lines, place, rule, told", RULES.values(), ids=RULES)
def test_a_rule_that_is_broken(shop, lines, place, rule, told):
    assert told_of(shop, *lines) == (1, [f"strategy.txt:{place}:1: rule {rule}: {told}"])


def test_lines_of_no_form_and_names_of_no_view(shop):
    told = [
        'strategy.txt:1:1: "install orders" is no expression; it is "comp V from U .." or "inst V"',
        "strategy.txt:2:17: there is no view order; did you mean orders?",
    ]
    assert told_of(shop, "install orders", "comp sales from order") == (3, told)
