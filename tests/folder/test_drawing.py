"""`graph`: what is written, and that nothing in the picture lies upon anything else."""

from itertools import combinations
from types import SimpleNamespace
from xml.etree import ElementTree

from trials.drawn.shrunk import draws
from whview.folder.graph import Corner, Notes, Picture

from .shop import SIZES


def test_the_shop_as_dot_and_as_svg(shop):
    shop.answers(b"", 0)
    (shop.folder / "sizes.csv").write_text(SIZES)
    assert shop.ran("graph") == (0, [])
    drawn = (shop.folder / "graph.dot").read_text()
    assert '  "sales" [shape=box, label="sales\\ninst 9: 8"];\n' in drawn
    assert '  "products" -> "sales" [label="5: 19 (3)"];\n' in drawn
    picture = ElementTree.parse(shop.folder / "graph.svg")
    words = {text.text for text in picture.iter("{http://www.w3.org/2000/svg}text")}
    assert {"orders", "inst 2: 2", "1: 12 (2)", "5: 19 (3)", "8: 8 (8)", "daily_by_region"} <= words


def views_of(source):
    """Views that are drawn, some with long names, and their notes."""
    found = [SimpleNamespace(name=f"b{number}", over=[]) for number in range(source.randint(1, 12))]
    for number in range(source.randint(0, 40)):
        name = f"v{number}" + "x" * source.choice([0, 5, 58])
        over = source.sample([view.name for view in found], source.randint(1, min(6, len(found))))
        found.append(SimpleNamespace(name=name, over=over))
    named = {view.name: f"inst {number}: {10 ** source.randint(0, 12)}" for number, view in enumerate(found)}
    return found, Notes(named, {(child, view.name): f"7: {10 ** source.randint(0, 12)}" for view in found for child in view.over})


@draws(60)
def test_no_box_lies_on_another_and_no_line_goes_through_one(source):
    views, notes = views_of(source)
    picture = Picture(views, notes)
    level = picture.layers.levels
    boxes = {view.name: (picture.left(view), picture.left(view) + picture.width(view), level[view.name]) for view in views}
    for one, other in combinations(boxes.values(), 2):
        assert one[2] != other[2] or one[1] < other[0] or other[1] < one[0]
    for view in views:
        for child, left in picture.cells(view)[1] if view.over else []:
            end = Corner(left, picture.bottom(level[view.name]))
            judge_line(picture, boxes, picture.line(child, view.name, end))


def judge_line(picture, boxes, corners):
    """A line goes up between two rows, or upright past the boxes of one."""
    tops = {picture.top(level) for _, _, level in boxes.values()}
    bottoms = {picture.bottom(level): level for _, _, level in boxes.values()}
    for (left, lower), (right, upper) in zip(corners, corners[1:]):
        assert upper < lower
        if lower in tops:
            assert upper in bottoms
        else:
            assert left == right
            level = bottoms[lower]
            assert not [box for box in boxes.values() if box[2] == level and box[0] <= left <= box[1]]
