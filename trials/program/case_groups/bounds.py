"""The bounds of what a bundle may hold, and one past each: depths of formulas and of TOML, numbers of 64 bits, names, sizes, costs,
budgets, trees, long predicates, a long text and words that are not UTF-8. The answers are worked out here."""

import random

from trials.program.case_groups import Case
from upkeep.words import ROOT
from whview.strategy.sizes import part_of

MOST, LEAST = 2**63 - 1, -(2**63)
ONE_VIEW = "comp v from a\ninst a\ninst v\n"


def night(definition, cells=("1",), columns='"x"', data=True):
    """A night over a(x), whose table has these records, and v; nothing changes."""
    table = "@data a\nx\n" + "".join(f"{cell}\n" for cell in cells) if data else ""
    views = f'[[view]]\nname = "a"\ncolumns = [{columns}]\n[[view]]\nname = "v"\nover = ["a"]\n{definition}\n'
    return f"@catalogue\n{views}{table}@strategy\n{ONE_VIEW}"


def shown(rows, total, header="x"):
    """What that night prints where a has so many rows in all and v these records."""
    return f"comp v from a: 0\ninst a: 0\ninst v: 0\nwork 0\nversion 1\nview v\n#,{header}\n" + "".join(rows), 0


def nots(count):
    return '["not", ' * count + "true" + "]" * count


def sums(count):
    """1 + (1 + .. x), which has this many signs."""
    return '["+", 1, ' * count + '"a.x"' + "]" * count


KEPT = 'keep = [["x", "a.x"]]'


def formulas():
    """Formulas 64 deep and 65, TOML 80 deep and 81, and long predicates."""
    yield "62 nots", "night", night(f"where = {nots(62)}\n{KEPT}"), shown(["1,1\n"], 1)
    yield "63 nots", "night", night(f"where = {nots(63)}\n{KEPT}"), shown([], 1)
    yield "64 nots", "night", night(f"where = {nots(64)}\n{KEPT}"), ("fault key where\n", 3)
    yield "80 nots", "night", night(f"where = {nots(80)}\n{KEPT}"), ("fault key where\n", 3)
    yield "81 nots", "night", night(f"where = {nots(81)}\n{KEPT}"), ("fault toml\n", 3)
    yield "a comparison 64 deep", "night", night(f'where = ["=", {sums(62)}, 63]\n{KEPT}'), shown(["1,1\n"], 1)
    yield "a comparison 65 deep", "night", night(f'where = ["=", {sums(63)}, 64]\n{KEPT}'), ("fault key where\n", 3)
    yield "a kept expression 64 deep", "night", night(f'keep = [["x", {sums(63)}]]'), shown(["1,64\n"], 1)
    yield "a kept expression 65 deep", "night", night(f'keep = [["x", {sums(64)}]]'), ("fault key keep\n", 3)
    summed = 'group = []\ncount = "n"\nsum = [["x", {}]]'
    yield "a summed expression 64 deep", "night", night(summed.format(sums(63))), shown(["1,1,64\n"], 1, "n,x")
    yield "a summed expression 65 deep", "night", night(summed.format(sums(64))), ("fault key sum\n", 3)
    for sign, cell, rows in (("any", 99999, ["1,99999\n"]), ("any", 100000, []), ("all", 100000, ["1,100000\n"]), ("all", 7, [])):
        members = ", ".join(f'["{"=" if sign == "any" else "<>"}", "a.x", {number}]' for number in range(100000))
        yield f"{sign} of 100,000", "night", night(f'where = ["{sign}", {members}]\n{KEPT}', [str(cell)]), shown(rows, 1)


def numbers():
    """Cells, steps and sums at the ends of 64 bits, and counts at 2^56."""
    ranged, number = ("refused range v\n", 1), ("fault number 2\n", 3)
    for cell in (MOST, LEAST):
        yield f"the cell {cell}", "night", night(KEPT, [str(cell)]), shown([f"1,{cell}\n"], 1)
    for cell in (MOST + 1, LEAST - 1):
        yield f"the cell {cell}", "night", night(KEPT, [str(cell)]), number
    steps = [('["+", "a.x", 1]', MOST), ('["-", "a.x", 1]', LEAST), ('["-", 0, "a.x"]', LEAST), ('["*", "a.x", -1]', LEAST)]
    for formula, cell in steps:
        yield f"{formula} of {cell}", "night", night(f'keep = [["x", {formula}]]', [str(cell)]), ranged
        passing = night(f'where = ["<>", {formula}, 0]\n{KEPT}', [str(cell), "5"])
        yield f"{formula} of {cell} compared", "night", passing, shown(["1,5\n"], 2)
        negated = night(f'where = ["not", ["<>", {formula}, 0]]\n{KEPT}', [str(cell), "5"])
        yield f"{formula} of {cell} compared and negated", "night", negated, shown([f"1,{cell}\n"], 2)
    summed = 'group = []\ncount = "n"\nsum = [["x", "a.x"]]'
    yield "a sum of 2^63", "night", night(summed, [str(MOST), "1"]), ranged
    back = [str(MOST), str(MOST), str(-MOST), "-5"]
    yield "a sum that leaves 64 bits and comes back", "night", night(summed, back), shown([f"1,4,{MOST - 5}\n"], 4, "n,x")
    for count in (2**56, 2**56 + 1):
        bundle = night(summed, data=False).replace("@strategy", f"@data a\n#,x\n{count},0\n@strategy")
        expected = shown([f"1,{count},0\n"], count, "n,x") if count == 2**56 else ("refused large v\n", 1)
        yield f"{count} rows", "night", bundle, expected
    yield "a literal past 64 bits", "night", night(f'keep = [["x", {MOST + 1}]]'), ("fault toml\n", 3)


def names():
    """Names of 64 bytes and of 65, and a text of a million bytes."""
    right, long = "n" * 64, "n" * 65
    view = night(KEPT).replace('"v"', f'"{right}"').replace("comp v", f"comp {right}").replace("inst v", f"inst {right}")
    text, status = shown(["1,1\n"], 1)
    answer = text.replace("comp v", f"comp {right}").replace("inst v", f"inst {right}").replace("view v", f"view {right}")
    yield "a view's name of 64 bytes", "night", view, (answer, status)
    yield "a view's name of 65 bytes", "night", night(KEPT).replace('"v"', f'"{long}"'), ("fault key name\n", 3)
    column = night(f'keep = [["{right}", "a.x"]]')
    yield "a column's name of 64 bytes", "night", column, shown(["1,1\n"], 1, right)
    yield "a column's name of 65 bytes", "night", night(f'keep = [["{long}", "a.x"]]'), ("fault key keep\n", 3)
    yield "a count's name of 65 bytes", "night", night(f'group = []\ncount = "{long}"'), ("fault key count\n", 3)
    yield "a base column's name of 65 bytes", "night", night(KEPT, columns=f'"{long}"'), ("fault key columns\n", 3)
    cell = '"' + 'oak ""elm""\n@@ash, ' * 55555 + '"'
    told = cell.replace("@@", "@")
    yield "a text of a million bytes", "night", night(KEPT, [cell], '"x:text"'), shown([f"1,{told}\n"], 1)


def six_children(size, change, *weight):
    """V over six views, all of this size before and after and with this change, and perhaps of this weight, computed at once, without
    its options."""
    views = [f"A{n}" for n in range(1, 7)]
    over = ", ".join(f'"{view}"' for view in views)
    catalogue = "".join(f'[[view]]\nname = "{view}"\n' for view in views) + f'[[view]]\nname = "V"\nover = [{over}]\n'
    steps = f"comp V from {' '.join(views)}\n" + "".join(f"inst {view}\n" for view in [*views, "V"])
    return f"@catalogue\n{catalogue}@strategy\n{steps}" + part_of([*views, "V"], [(size, size, change, *weight)] * 7)


def costs():
    """Sizes of 2^40, weights of 1 and 1,000, costs of a million, budgets of 1 and of 2^63 - 1, workers, readers and rows of a page, and one past each."""
    largest = 2**40
    work = 10**6 * (6 * 32 * largest + 6 * 31 * largest) + 10**6 * 7 * largest
    dear = "check --comp-cost 1000000 --inst-cost 1000000"
    yield "sizes of 2^40", dear, six_children(largest, largest), (f"correct\nwork {work}\n", 0)
    yield "sizes above 2^40", dear, six_children(largest + 1, 1), ("fault sizes A1\n", 3)
    yield "sizes of 2^40 and weights of 1,000", dear, six_children(largest, largest, 1000), (f"correct\nwork {1000 * work}\n", 0)
    yield "weights of 1", dear, six_children(largest, largest, 1), (f"correct\nwork {work}\n", 0)
    for weight in (0, 1001, -1, 2**40, MOST, -MOST - 1):
        yield f"a weight of {weight}", "check", six_children(1, 1, weight), ("fault sizes A1\n", 3)
    yield "a weight of 65 bits", "check", six_children(1, 1, 2**63), ("fault number 2\n", 3)
    yield "sizes above 2^40 and a weight", dear, six_children(largest + 1, 1, 1), ("fault sizes A1\n", 3)
    for budget in (1, MOST):
        heavy = f"scope all\nwork {10**9 * (15 * 2 * largest + 6 * largest) + 7 * 10**9 * largest}\n"
        words, bundle = dear.replace("check", f"plan --budget {budget}"), six_children(largest, largest, 1000)
        yield f"weights of 1,000 and a budget of {budget}", words, bundle, (heavy, 0)
    least = f"scope all\nwork {10**6 * (15 * 2 * largest + 6 * largest) + 7 * 10**6 * largest}\n"
    for budget in (1, MOST):
        yield f"a budget of {budget}", dear.replace("check", f"plan --budget {budget}"), six_children(largest, largest), (least, 0)
    for words in ("--comp-cost 0", "--comp-cost 1000001", "--inst-cost 0", "--inst-cost 1000001", "--comp-cost -1", "--comp-cost 1.0"):
        for command in ("check", "plan", "certify"):
            yield f"{command} {words}", f"{command} {words}", six_children(1, 1), (None, 2)
    for words in ("--budget 0", f"--budget {MOST + 1}", "--budget x", "--budget 1 --budget 1", "--budget"):
        yield f"plan {words}", f"plan {words}", six_children(1, 1), (None, 2)
    wrong = ["--workers 0", "--workers 17", "--readers 17", "--readers -1", "--page-keys 0", "--page-keys 257", f"--readers {2**64}", "--most 0"]
    for words in (*wrong, f"--most {2**40 + 1}"):
        yield f"night {words}", f"night {words}", night(KEPT), (None, 2)
    text, status = shown(["1,1\n"], 1)
    yield "night --print tables", "night --print tables", night(KEPT), (text, status)
    right = {"--workers 16": 0, "--readers 0": 0, "--readers 16": 16, "--page-keys 1": 0, "--page-keys 256": 0, f"--most {2**40}": 0}
    for words, readers in right.items():
        lines = "".join(f"reader {reader} version 0 rows 2\n" for reader in range(readers))
        yield f"night {words}", f"night {words}", night(KEPT), (text + lines, status)


def certified(tree):
    """64 views without rows, 58 of them over six others that are drawn, and a plan of no work with this tree."""
    source = random.Random(64)
    names = [f"v{n}" for n in range(64)]
    over = {n: source.sample(range(n), 6) for n in range(6, 64)}
    views = "".join(
        f'[[view]]\nname = "{names[n]}"\n' + (f"over = [{', '.join(chr(34) + names[u] + chr(34) for u in over[n])}]\n" if n in over else "")
        for n in range(64)
    )
    sizes = "view,pre,post,change\n" + "".join(f"{name},0,0,0\n" for name in names)
    steps = "".join(f"comp {names[n]} from {' '.join(names[u] for u in over[n])}\n" for n in over)
    steps += "".join(f"inst {name}\n" for name in names)
    couples = sorted({(u, w) for us in over.values() for u in us for w in us if u < w})
    branches = [f"branch {names[u]} {names[w]}\n" for u, w in couples]
    plan = f"scope one-way\nwork 0\n{steps}"
    lines = tree(branches)
    return f"@catalogue\n{views}@sizes\n{sizes}@plan\n{plan}{''.join(lines)}", plan.count("\n"), len(branches)


def tree_of(lines):
    """The bundle of `certify_tree` with these lines in place of its tree."""
    bundle = (ROOT / "tests/bundles/certify_tree.bundle").read_text()
    return bundle[: bundle.index("branch")] + lines


def trees():
    """Trees as deep as they may be, leaning either way, and one deeper."""
    right = ("certified one-way work 0\n", 0)
    bundle, _, couples = certified(lambda branches: branches + ["bound\n"] * (len(branches) + 1))
    yield f"a tree {couples + 1} deep", "certify", bundle, right
    bundle, _, _ = certified(lambda branches: [line for branch in branches for line in ("bound\n", branch)][1:] + ["bound\n"] * 2)
    yield "one that leans the other way", "certify", bundle, right
    bundle, _, _ = certified(lambda branches: branches[:1] * 999 + ["bound\n"] * 1000)
    yield "a tree 1,000 deep of one couple", "certify", bundle, ("rejected at 2\n", 1)
    bundle, head, _ = certified(lambda branches: branches[:1] * 1000 + ["bound\n"] * 1001)
    yield "a tree 1,001 deep", "certify", bundle, (f"fault plan {head + 1001}\n", 3)
    yield "a plan of ten lines and a tree 1,001 deep", "certify", tree_of("branch B C\n" * 1001), ("fault plan 1011\n", 3)
    yield "the same without its deepest line", "certify", tree_of("branch B C\n" * 1000), ("fault plan 1011\n", 3)
    for work, answer in ((2**128 - 1, ("rejected work\n", 1)), (2**128, ("fault plan 2\n", 3))):
        yield f"work {work}", "certify", bundle_of_no_work(work), answer


def replay(events, head=(1, 1, 256), rows="", changes="", views="", nights=1):
    """A bundle over a(x), and perhaps other views, with these events; after its first night there may be others without changes."""
    over = "comp v from a\ninst a\ninst v\n" if views else "inst a\n"
    parts = f"{ONE}{views}@data a\n#,x\n{rows}@changes a\n#,x\n{changes}@strategy\n{over}" + (nights - 1) * f"@night\n@strategy\n{over}"
    lines = [f"{word} {number}" for word, number in zip(("desks", "workers", "keys", "versions"), head)]
    return f"{parts}@schedule\n" + "".join(f"{line}\n" for line in (*lines, *events))


ONE = '@catalogue\n[[view]]\nname = "a"\ncolumns = ["x"]\n'
KEEPS = f'[[view]]\nname = "v"\nover = ["a"]\n{KEPT}\n'
SUMS = '[[view]]\nname = "v"\nover = ["a"]\ngroup = []\ncount = "n"\nsum = [["x", "a.x"]]\n'


def counted(count, begun=1):
    return "".join(f"1,{row}\n" for row in range(begun, begun + count))


def read(begun, count, end):
    return "page" + "".join(f" [1 {row}]" for row in range(begun, begun + count)) + f" {end}\n"


def schedules():
    """Desks, workers, keys, limits and numbers at their ends, and one past each."""
    most = (16, 16, 256)
    answer = "session 0\nrefused NoDesk\nrefused NoDesk\n"
    yield "16 desks", "replay", replay(["open 15", "open 16", "open 1000000"], most), (answer, 0)
    yield "16 workers", "replay", replay(["begin", "take 15", "take 16"], most), ("begun\nrefused NoJob\nrefused NoWorker\n", 0)
    for place in range(3):
        for number in (0, most[place] + 1, 10**30):
            head = (*most[:place], number, *most[place + 1 :])
            yield f"{number} in line {place + 1}", "replay", replay([], head), (f"fault schedule {place + 1}\n", 3)
    for event in ("open {}", "close {}", "take {}", "done {}", "read {} a 1", "read 0 a {}"):
        yield f"{event} with 1,000,001", "replay", replay([event.format(10**6), event.format(10**6 + 1)]), ("fault schedule 5\n", 3)
    answer = "begun\npaged 256\npaged 1\nrefused NotReady\n"
    yield "257 keys", "replay", replay(["begin", "page", "page", "page"], changes=counted(257)), (answer, 0)
    yield "256 keys", "replay", replay(["begin", "page", "commit"], changes=counted(256)), ("begun\npaged 256\nversion 1\n", 0)
    reads = ["open 0", "read 0 a 256", "read 0 a 256", "read 0 a 257", "read 0 a 1000000"]
    for rows, pages in ((257, read(1, 256, "more") + read(257, 1, "end")), (256, 2 * read(1, 256, "end"))):
        answer = f"session 0\n{pages}refused Limit\nrefused Limit\n"
        yield f"{rows} rows read", "replay", replay(reads, rows=counted(rows)), (answer, 0)


def versions():
    """A session can be read until as many versions as are kept were made from its own on, and one less in a night."""
    for most in (2, 3, 4):
        events = ["open 0", *(most - 1) * ["begin", "giveup"], "read 0 a 1", "begin", "read 0 a 1", "giveup", "read 0 a 1"]
        made = "".join(f"begun\nversion {number}\n" for number in range(1, most))
        expired = f"begun\nexpired 0 current {most - 1} active\nversion {most}\nexpired 0 current {most} idle\n"
        yield f"{most} versions", "replay", replay(events, (1, 1, 256, most), nights=most), (f"session 0\n{made}page end\n{expired}", 0)
    for number in (0, 1, 5, 10**30):
        yield f"{number} versions", "replay", replay([], (1, 1, 256, number)), ("fault schedule 4\n", 3)


def replayed():
    """Counts, products and sums at their ends as events meet them, and one past each."""
    begin, through = ["begin"], ["begin", "take 0", "done 0", "page", "page", "commit", "open 0", "read 0 v 1"]
    yield "a row that leaves", "replay", replay(begin, rows="5,1\n", changes="-5,1\n"), ("begun\n", 0)
    yield "a row more than there is", "replay", replay(begin, rows="5,1\n", changes="-6,1\n"), ("refused Absent\n", 0)
    yield "a count of 2^63 - 1", "replay", replay(begin, rows="1,1\n", changes=f"{MOST - 1},1\n"), ("begun\n", 0)
    yield "a count of 2^63", "replay", replay(begin, rows="1,1\n", changes=f"{MOST},1\n"), ("refused Large\n", 0)
    told = f"begun\njob 0\ndone\npaged 1\npaged 1\nversion 1\nsession 1\npage [{2**56} 1] end\n"
    yield "2^56 rows", "replay", replay(through, rows=f"{2**56 - 1},1\n", changes="1,1\n", views=KEEPS), (told, 0)
    told = "begun\njob 0\nrefused Large\n" + 3 * "refused NotReady\n" + "session 0\n"
    bundle = replay(through, rows=f"{2**56 - 1},1\n", changes="2,1\n", views=KEEPS)
    yield "2^56 rows and one", "replay", bundle, (f"{told}page [{2**56 - 1} 1] end\n", 0)
    # the first page is the last one before the sum's turn
    told = f"begun\njob 0\ndone\npaged 1\npaged 2\nversion 1\nsession 1\npage [1 2 {MOST}] end\n"
    yield "a sum of 2^63 - 1", "replay", replay(through, rows=f"1,{MOST - 1}\n", changes="1,1\n", views=SUMS), (told, 0)
    told = f"begun\njob 0\ndone\nrefused Range\nrefused Range\nrefused NotReady\nsession 0\npage [1 1 {MOST}] end\n"
    yield "a sum of 2^63 in an event", "replay", replay(through, rows=f"1,{MOST}\n", changes="1,1\n", views=SUMS), (told, 0)


def words():
    """Words of the command line that are not UTF-8: Python hands the byte 255 on for this character."""
    yield "a word that is not UTF-8", "check \udcff", "", ("fault words\n", 2)
    yield "a path that is not UTF-8", "check --input \udcff\udcfe", "", ("fault words\n", 2)


def bundle_of_no_work(work):
    bundle, _, _ = certified(lambda branches: ["bound\n"])
    return bundle.replace("work 0\n", f"work {work}\n")


def cases():
    """All cases; of a plan is known how it begins."""
    for group in (formulas, numbers, names, costs, trees, schedules, versions, replayed, words):
        for what, asked, bundle, (text, status) in group():
            yield Case(asked.split(), bundle.encode(), text, status, what, is_beginning=asked.startswith("plan") and status == 0)
