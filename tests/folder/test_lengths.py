"""How many bytes a night may have, where the catalogue says it."""

import pytest

from whview import limits
from whview.finding import Failure
from whview.folder import packing


@pytest.fixture
def says(shop):
    """Has the catalogue say how many bytes a night may have, and the program note its words."""
    views = (shop.folder / "catalogue.toml").read_text()
    shop.program.write_text(f'#!/bin/sh\ncat > /dev/null\necho "$@" > {shop.program.parent}/words\ncat {shop.program.parent}/answer\n')

    def say(most):
        (shop.folder / "catalogue.toml").write_text(f"max_bytes = {most}\n{views}")
        return shop

    return say


def words_of(shop):
    return (shop.program.parent / "words").read_text().split()


def test_the_program_is_told_how_many_bytes_a_night_may_have(shop, says):
    assert shop.ran("night") == (0, [])
    assert "--most" not in words_of(shop)
    assert says(2**40).ran("night", "--workers", "2") == (0, [])
    assert words_of(shop) == ["night", "--workers", "2", "--most", str(2**40)]


def test_a_night_may_have_as_many_bytes_as_the_catalogue_says(shop, says):
    size = len(packing.pack(says(1000).folder))
    assert says(size).ran("pack") == (0, [])
    status, told = says(size - 1).ran("night")
    assert (status, words_of_a_refusal(told)) == (3, f"{size:,} bytes, which is 1 more than the {size - 1:,} that the program takes")


def words_of_a_refusal(told):
    return told[0].partition("the night's bundle has ")[2].partition(";")[0]


@pytest.mark.parametrize("most", ["0", "-1", str(2**40 + 1), "true", "1.5", '"many"'])
def test_what_is_no_such_number_is_told(shop, says, most):
    told = ["catalogue.toml:1:1: max_bytes is a whole number from 1 to 1,099,511,627,776"]
    assert says(most).ran("night") == (3, told)
    assert shop.ran("lint", "--lenient") == (3, told)


def test_pieces_are_judged_by_what_is_said():
    limits.judge([b"abc", b"de"], 5)
    with pytest.raises(Failure):
        limits.judge([b"abc", b"de"], 4)
