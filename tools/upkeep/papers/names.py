"""Whether what papers set in marks of code is there: files, commands with their options, calls, clauses and definitions."""

import re

from upkeep.papers.paper import Judged, line_of
from upkeep.papers.tree import OPTION, WORD

PATH = re.compile(r"(?:\.{0,2}/)?[\w.*<>{}~-]+(?:/[\w.*<>{}~-]+)*/?")
OF_CODE = (".rt", ".antt", ".py", ".edit", ".bundle", ".answer", ".md", ".words")
TOPS = ("crates", "docs", "tools", "python", "trials", "tests", "examples", ".ci", "src", "specs", "proofs", "must-fail")
# How papers name clauses of a call: the call, a colon, and the clauses.
CLAUSES = re.compile(r"`(?:\w+::)*(?P<call>\w+)`: (?P<clauses>`\w+`(?:(?:, | and )`\w+`)*)(?!`)")
WITHIN = re.compile(r"\b\w+(?:::\w+)+")
# What is not ours and papers may name: commands of the toolchain and of systems, and words of theirs.
OUTSIDE = set("Lts Tie MIMALLOC_ALLOW_LARGE_OS_PAGES backup plant rayon today untested".split())
# What stands for a number in a form, such as `broken Sk at P`, and names of columns that nobody has.
OUTSIDE |= {"Sk", "vN", "customer_id"}
COMMANDS = (
    "rt rattle git cargo clang psql pg_dump sqlite3 clickhouse-client clickhouse-server curl pip apt apt-get docker systemctl journalctl sudo ssh scp"
    " rsync tar cron crontab taskset prlimit ulimit df du free ps kill mount lsof strace perf"
)
COMMANDS_OUTSIDE = re.compile(rf"(?:{'|'.join(COMMANDS.split())})\b")


def fault_of_path(tree, token, strict):
    """What is wrong with a token that has the form of a path: where it is one of the tree it has to be there."""
    path = token.removeprefix("./").rstrip("/.,;:")
    if "/" not in token and not path.endswith(OF_CODE):
        return None
    if tree.has_path(path):
        return ""
    if path.endswith(OF_CODE) or (strict and path.split("/")[0] in TOPS):
        return f"there is no {token}"
    return None


def fault_of_call(tree, call):
    """What is wrong with `TYPE::CALL`, `CRATE::CALL` or `MODULE::CALL`."""
    owner, name = call.split("::")[-2:]
    if owner in tree.beside and name not in tree.beside[owner]:
        return f"{owner} has no {name}"
    return ""


def is_known(tree, word):
    """Whether a word stands in the tree's code, or is no name."""
    if len(word) < 2 or (word.isupper() and "_" not in word) or word in tree.words or word in OUTSIDE:
        return True
    return word.endswith("_") and any(each.startswith(word) for each in tree.words)


def faults_of_mark(tree, code):
    """All that is wrong with what stands in a mark of code."""
    outside = COMMANDS_OUTSIDE.match(code)
    for token in code.split():
        said = fault_of_path(tree, token, strict=not outside) if PATH.fullmatch(token) else None
        if said:
            yield said
        if said is None and not outside:
            yield from (f"nothing is named {word}" for word in WORD.findall(OPTION.sub("", token)) if not is_known(tree, word))
    if not outside:
        yield from (f"no tool takes {option}" for option in OPTION.findall(code) if option.startswith("--") and option not in tree.options)
    yield from filter(None, (fault_of_call(tree, call) for call in WITHIN.findall(code)))


def faults_of_command(tree, line):
    """What is wrong with a line of a block of code: tools and files of the tree that it names, and the options behind these."""
    ours = re.match(r"\s*(?:\$ )?(\./whview|whview|tools/\w+|trials/run)\b", line)
    for token in re.findall(r"(?<![\w/.-])(?:tools|trials|examples|crates|docs)/[\w./-]+", line if ours else ""):
        if not tree.has_path(token.rstrip("/.,;:")):
            yield f"there is no {token}"
    if ours:
        options = OPTION.findall(re.split(r"[|>;&]", line)[0])
        yield from (f"no tool takes {option}" for option in options if option.startswith("--") and option not in tree.options)


def judged_tools(papers, tree):
    """Each tool and each trial: whether a paper names it."""
    said = {name for paper in papers.values() for name in re.findall(r"\btools/(\w+)\b", paper.by_hand)}
    for path in tree.paths:
        if len(path.parts) == 2 and path.parts[0] == "tools" and not path.suffix:
            yield Judged(path.as_posix(), 1, "" if path.name in said else "no paper names this tool")
    run = {name for paper in papers.values() for name in re.findall(r"\btrials/run ([a-z_/]+)", paper.by_hand)}
    for path in tree.paths:
        if path.parts[0] == "trials" and len(path.parts) == 3 and re.search(r"^def main\(", tree.code.get(path, ""), re.MULTILINE):
            name = path.parts[1] if path.stem == "__main__" else "/".join(path.with_suffix("").parts[1:])
            yield Judged(path.as_posix(), 1, "" if name in run else "no paper names this trial")


def told_in_rows(paper):
    """The line, the calls and the clauses of each row of a table that has a column Clauses."""
    column = None
    for number, line in enumerate(paper.unfenced[: paper.end_by_hand].split("\n"), 1):
        cells = [cell.strip() for cell in line.strip("|").split(" | ")] if line.startswith("|") else []
        column = cells.index("Clauses") if "Clauses" in cells else column if cells else None
        if column and len(cells) > column and "Clauses" not in cells:
            calls = re.findall(r"(?<!\()`(?:\w+::)*(\w+)`", cells[0])
            yield number, calls, re.findall(r"`(\w+)`", re.sub(r"\bof `\w+`", "", cells[column]))


def told_in_words(paper):
    """The line, the call and the clauses of each list of clauses behind the name of a call."""
    for found in CLAUSES.finditer(paper.unfenced, 0, paper.end_by_hand):
        yield line_of(paper.unfenced, found.start()), [found["call"]], re.findall(r"`(\w+)`", found["clauses"])


def judged_clauses(papers, tree):
    """Each list of clauses of calls that are there."""
    for paper in papers.values():
        for line, calls, clauses in (*told_in_rows(paper), *told_in_words(paper)):
            if calls and all(call in tree.clauses for call in calls):
                known = set().union(*(tree.clauses[call] for call in calls))
                gone = ", ".join(clause for clause in clauses if clause not in known)
                yield Judged(paper.name, line, f"{', '.join(calls)}: no clause is named {gone}" if gone else "")


def judged_names(papers, tree):
    """Each mark of code and each command of a block."""
    for paper in papers.values():
        for lines, faults in ((paper.marks, faults_of_mark), (paper.block_lines, faults_of_command)):
            for line, code in lines:
                said = list(dict.fromkeys(faults(tree, code)))
                yield Judged(paper.name, line, f"`{code.strip()}`: {', '.join(said)}" if said else "")
