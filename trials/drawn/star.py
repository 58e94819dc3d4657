"""A bundle for `whview night`: a star join, with a fact table of any number of rows. The same number gives the same bytes.

`sales` has the rows, each with one of 20 shops and one of 100 products; `sold` joins the three, and `by_kind` sums it up. In
the night every hundredth row leaves, as many come, one shop moves and two prices change.
"""

SHOPS, PRODUCTS = 20, 100
REGIONS = ["north", "east", "south", "west"]
KINDS = ["bread", "fruit", "milk", "paper", "soap"]

CATALOGUE = """\
@catalogue
[[view]]
name = "sales"
columns = ["id", "shop", "product", "pieces"]
[[view]]
name = "shops"
columns = ["shop", "region:text"]
[[view]]
name = "products"
columns = ["product", "kind:text", "price"]
[[view]]
name = "sold"
over = ["sales", "shops", "products"]
join = [["sales.shop", "shops.shop"], ["sales.product", "products.product"]]
keep = [["region", "shops.region"], ["kind", "products.kind"], ["cost", ["*", "sales.pieces", "products.price"]]]
[[view]]
name = "by_kind"
over = ["sold"]
group = [["region", "sold.region"], ["kind", "sold.kind"]]
count = "sales"
sum = [["cost", "sold.cost"]]
"""

STRATEGY = """\
@strategy
comp sold from sales
inst sales
comp sold from shops
inst shops
comp sold from products
inst products
comp by_kind from sold
inst sold
inst by_kind
"""


def scattered(number):
    """A number below 2^32 that looks drawn: equal for equal numbers."""
    number = (number ^ (number >> 15)) * 0x2C1B3C6D & 0xFFFFFFFF
    number = (number ^ (number >> 12)) * 0x297A2D39 & 0xFFFFFFFF
    return number ^ (number >> 15)


def sale(number):
    drawn = scattered(number + 1)
    return f"{number},{drawn % SHOPS},{drawn // SHOPS % PRODUCTS},{drawn // (SHOPS * PRODUCTS) % 5 + 1}"


def region(shop):
    return REGIONS[shop % len(REGIONS)]


def product(number, price):
    return f"{number},{KINDS[number % len(KINDS)]},{price}"


def price(number):
    return scattered(number + 1000003) % 12 + 1


def whole(rows):
    return CATALOGUE + "".join(line + "\n" for line in bundle(rows)) + STRATEGY


def bundle(rows):
    """The lines of the bundle, but for the catalogue and the strategy."""
    yield "@data sales\nid,shop,product,pieces"
    yield from (sale(number) for number in range(rows))
    yield "@data shops\nshop,region"
    yield from (f"{shop},{region(shop)}" for shop in range(SHOPS))
    yield "@data products\nproduct,kind,price"
    yield from (product(number, price(number)) for number in range(PRODUCTS))
    yield "@changes sales\n#,id,shop,product,pieces"
    yield from (f"-1,{sale(number)}" for number in range(0, rows, 100))
    yield from (f"1,{sale(rows + number)}" for number in range(0, rows, 100))
    yield "@changes shops\n#,shop,region"
    yield f"-1,7,{region(7)}\n1,7,{region(8)}"
    yield "@changes products\n#,product,kind,price"
    for number in (3, 41):
        yield f"-1,{product(number, price(number))}\n1,{product(number, price(number) + 1)}"
