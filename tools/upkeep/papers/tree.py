"""What the tree names: its files, the words of its code, what is declared beside what, and the options that its commands take."""

import re
from collections import defaultdict
from functools import cached_property
from pathlib import PurePosixPath

from upkeep.papers.paper import files

WORD = re.compile(r"[^\W\d]\w*")
COMMENT = {".rt": re.compile(r"//[^\n]*"), ".antt": re.compile(r"--[^\n]*"), ".py": re.compile(r"(?:^|\s)#[^\n]*")}
DECLARED = re.compile(r"\b(?:struct|enum|trait|type|union)\s+(\w+)|\bimpl\b([^{;]*)")
FUNCTION = re.compile(r"\bfn\s+(\w+)(.*?)(?=\bfn\s+\w|\Z)", re.DOTALL)
CLAUSE = re.compile(r"\b(?:ensures|requires)\s+(\w+)\s*\{")
OPTION = re.compile(r"(?<![\w-])--?[a-zA-Z][\w-]*")
LONG_OPTION = re.compile(r"\.long\(\s*\"([\w-]+)\"|\"([a-z]+(?:-[a-z]+)+)\"")
# Where code stands that papers may name. The tests of tools make up names, and so does what stands in proofs.
CODE = re.compile(r"crates/\w+/(?:src/.*\.rt|specs/.*\.antt)|crates\.txt|whview|\.ci/.*|tools/(?!edits/).*|(?:python|trials)/.*|tests/bundles/.*|examples/.*")
WITHOUT_TEXT = {".png", ".md"}
PLACEHOLDER = re.compile(r"\\\*|(?<![a-zA-Z])(?:NAME|CRATE|FILE|FOLDER|MODULE|TABLE|VIEW|[A-Z])(?![a-zA-Z])")


class Tree:
    """The files of a repository but those of builds, and what their code names."""

    def __init__(self, root):
        self.root = root
        self.paths = files(root)

    @cached_property
    def ends(self):
        """Each path of a file or a folder and each end of one, by whole parts."""
        paths = {parent for path in self.paths for parent in (path, *path.parents)}
        return {"/".join(path.parts[at:]) for path in paths for at in range(len(path.parts))}

    @cached_property
    def code(self):
        """The text of each file of code without its comments."""
        found = {}
        for name in self.paths:
            if CODE.fullmatch(name.as_posix()) and name.suffix not in WITHOUT_TEXT:
                text = (self.root / name).read_bytes().decode(errors="replace")
                found[name] = COMMENT[name.suffix].sub(" ", text) if name.suffix in COMMENT else text
        return found

    @cached_property
    def words(self):
        """The words of code and of the names of files, edits among them."""
        found = {word for text in self.code.values() for word in WORD.findall(text)}
        for path in self.paths:
            found.update([path.stem, *WORD.findall(path.name), *path.parts[:-1]])
        return found

    @cached_property
    def beside(self):
        """The words of the files in which a type is declared or given calls, by the type; those of a crate and of a module, by its name."""
        found = defaultdict(set)
        for name, text in self.code.items():
            if name.suffix == ".rt":
                words = set(WORD.findall(text))
                owners = {name.parts[1], *name.with_suffix("").parts[3:]}
                for kind, implemented in DECLARED.findall(text):
                    owners.update([kind] if kind else WORD.findall(implemented))
                for owner in owners:
                    found[owner] |= words
        return found

    @cached_property
    def clauses(self):
        """The names of the clauses of all functions of a name."""
        found = defaultdict(set)
        for name, text in self.code.items():
            if name.suffix == ".rt":
                for function, head in FUNCTION.findall(text):
                    found[function].update(CLAUSE.findall(head))
        return found

    @cached_property
    def options(self):
        """The options that the tools and the program take."""
        found = set()
        for name, text in self.code.items():
            if name.parts[0] in ("tools", "python", "trials", "whview", ".ci"):
                found.update(OPTION.findall(text))
            elif name.parts[:2] == ("crates", "whview"):
                found.update(f"--{one or other}" for one, other in LONG_OPTION.findall(text))
        return found

    def has_path(self, path):
        """Whether a file or a folder has this path or one that ends so; NAME, N and * stand for any name."""
        path = PurePosixPath(path).as_posix()
        if path in self.ends:
            return True
        form = PLACEHOLDER.sub("[^/]*", re.escape(path))
        return form != re.escape(path) and any(re.fullmatch(form, end) for end in self.ends)
