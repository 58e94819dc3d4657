"""What `lint` tells of columns in which a number or a text stands for NULL."""

import pytest

BESIDE = 'columns = ["id", "product:text", "pieces"]\nnulls = ["product", "pieces"]'
PRODUCTS = 'columns = ["product:text", "price"]\nnulls = ["product"]'
JOINS = "catalogue.toml:21:36: warning: sales joins by lines.product and products.product, and what stands for NULL joins itself: let where leave it out"
COMPUTES = "catalogue.toml:27:3: warning: sales computes with lines.pieces, where a number stands for NULL: let where leave it out"
SUMS = "catalogue.toml:36:8: warning: daily_by_product sums sales.pieces, where a number stands for NULL: let where leave it out"


@pytest.fixture
def shop(shop):
    shop.edit("catalogue.toml", 'columns = ["id", "product:text", "pieces"]', BESIDE)
    shop.edit("catalogue.toml", 'columns = ["product:text", "price"]', PRODUCTS)
    return shop


def leave_out(shop, where):
    shop.edit("catalogue.toml", 'over = ["orders", "lines", "products"]', f'over = ["orders", "lines", "products"]\nwhere = {where}')


def test_views_that_do_not_leave_them_out(shop):
    assert shop.ran("lint") == (0, [JOINS, COMPUTES, SUMS])


def test_views_that_do(shop):
    leave_out(shop, """["all", ["<>", "lines.pieces", -9223372036854775808], ["<>", { text = '\\N' }, "lines.product"]]""")
    assert shop.ran("lint") == (0, [])


def test_what_is_left_out_in_some_rows_alone(shop):
    leave_out(shop, """["any", ["<>", "lines.pieces", -9223372036854775808], ["=", "lines.id", 3]]""")
    assert len(shop.ran("lint")[1]) == 3


def test_a_column_that_there_is_not(shop):
    shop.edit("catalogue.toml", 'nulls = ["product", "pieces"]', 'nulls = ["produkt"]')
    assert "catalogue.toml:10:10: warning: lines has no column produkt; did you mean product?" in shop.ran("lint")[1]
