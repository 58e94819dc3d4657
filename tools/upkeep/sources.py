"""The sources of the crates, for the tools that read them: functions with their clauses, types, what a crate gives out, and edits."""

import re
from dataclasses import dataclass, field
from pathlib import Path

ROOT = Path(__file__).resolve().parents[2]
UNREAD = re.compile(
    r"//[^\n]*|/\*.*?\*/|b?r(#+)\".*?\"\1|b?\"(?:\\.|[^\"\\])*\"|b?'(?:\\(?:x\w\w|u\{\w+\}|.)|[^\\'\n])'", re.DOTALL
)
CLAUSE = re.compile(r"\b(?P<kind>ensures|requires)(?:\s+(?P<name>\w+))?\s*$")
HEAD = re.compile(
    r"(?P<given>\bpub(?:\([^)]*\))?\s+)?(?:(?:const|unsafe|async)\s+)*"
    r"\b(?P<kind>fn|struct|enum|trait|impl|mod|type|const|static)\b\s*(?P<name>\w*)"
)
GIVEN_ON = re.compile(r"^\s*pub use ([^;]+);", re.MULTILINE)
GIVEN_MODULE = re.compile(r"^\s*pub mod (\w+);", re.MULTILINE)
CALLED = re.compile(r"\b([a-z_]\w*)\s*(?:::<[^<>]*>)?\(")
TYPES = ("struct", "enum", "trait", "type")


def uses(root=None):
    """What crates.txt says: the crates, by their order there, and the libraries that each uses."""
    lines = (line.partition("#")[0].partition(":") for line in ((root or ROOT) / "crates.txt").read_text().splitlines())
    return {head.split()[0]: rest.split() for head, colon, rest in lines if colon}


@dataclass
class Item:
    """A function, a type or a constant: its name, its doc comment, and the lines and the file that it stands in."""

    kind: str
    name: str
    file: "File"
    public: bool
    doc: str
    lines: range
    # Of a function: the type and the trait of the impl or the trait that it stands in, its arguments, what else its head says.
    of: str = ""
    by: str = ""
    arguments: list = field(default_factory=list)
    answers: bool = False
    clauses: list = field(default_factory=list)
    head: str = ""

    @property
    def is_law(self):
        """Whether it says something and does nothing: it answers nothing, and is given nothing that it could change."""
        given = self.head.partition("ensures")[0]
        changes = "&mut" in given or "self" in self.arguments
        return self.kind == "fn" and bool(self.clauses) and not self.answers and not changes


class File:
    """A file of a crate's `src/`, with its items."""

    def __init__(self, crate, path):
        self.crate, self.path, self.text = crate, path, path.read_text()
        self.bare = UNREAD.sub(lambda found: re.sub(r"[^\n]", " ", found[0]), self.text)
        self.items = list(items(self, 0, len(self.text)))

    @property
    def place(self):
        return self.path.relative_to(ROOT / "crates" / self.crate).as_posix()

    @property
    def module(self):
        parts = self.path.relative_to(ROOT / "crates" / self.crate / "src").with_suffix("").parts
        return () if parts in (("lib",), ("main",)) else parts

    def line(self, at):
        return self.text.count("\n", 0, at) + 1


def closed(bare, at):
    """The place behind the brace that closes the one at this place."""
    depth = 0
    for found in re.compile(r"[{}]").finditer(bare, at):
        depth += 1 if found[0] == "{" else -1
        if not depth:
            return found.end()
    raise ValueError("a brace that nothing closes")


def items(file, at, end, of="", by=""):
    """The items between two places of a file; of tests none."""
    begun, depth, clauses, mark = at, 0, [], re.compile(r"[{};()\[\]]")
    while found := mark.search(file.bare, at, end):
        at = found.end()
        if found[0] in "([":
            depth += 1
        elif found[0] in ")]":
            depth -= 1
        elif found[0] == "{" and (clause := CLAUSE.search(file.bare, begun, found.start())):
            at = closed(file.bare, found.start())
            clauses.append((clause["kind"], clause["name"]))
        elif found[0] == "{" and file.bare[begun : found.start()].lstrip().startswith(("pub use ", "use ", "ghost ")):
            at = closed(file.bare, found.start())
        elif found[0] == "{" or depth == 0:
            at = closed(file.bare, found.start()) if found[0] == "{" else at
            yield from item(file, begun, found.start(), at, clauses, of, by)
            begun, depth, clauses = at, 0, []


def item(file, begun, opened, end, clauses, of, by):
    """The item whose head stands from one place to a second, and which ends at a third; where it is a block of items, those within it."""
    head = HEAD.search(without_attributes(file.bare[begun:opened]))
    if not head or "cfg(test)" in file.text[begun:opened]:
        return
    kind, name = head["kind"], head["name"]
    if kind == "impl":
        yield from items(file, opened + 1, end - 1, *implemented(file.bare[begun + head.start() : opened]))
        return
    if kind == "mod":
        yield from items(file, opened + 1, end - 1)
        return
    doc = [line.strip()[3:].strip() for line in file.text[begun:opened].split("\n") if line.strip().startswith("///")]
    first = begun + len(file.text[begun:opened]) - len(file.text[begun:opened].lstrip())
    lines = range(file.line(first), file.line(end - 1) + 1)
    found = Item(kind, name, file, (head["given"] or "").strip() == "pub" or (of and of == by), "\n".join(doc), lines, of, by)
    if kind == "fn":
        signature = file.bare[begun + head.end() : opened]
        found.arguments, found.answers = arguments(signature)
        found.clauses, found.head = clauses, signature
    yield found
    if kind == "trait":
        yield from items(file, opened + 1, end - 1, name, name)


def without_attributes(bare):
    """The head of an item, its attributes blank."""
    return re.sub(r"#!?\[[^\]]*\]", lambda found: " " * len(found[0]), bare)


def implemented(head):
    """The type that an impl is of, and the trait that it gives it, or nothing."""
    plain = re.sub(r"\s+", " ", without_angles(head.partition("impl")[2]).split(" where ")[0])
    trait, given, kind = plain.rpartition(" for ")
    return last_word(kind), last_word(trait) if given else ""


def without_angles(text):
    """The text without what stands between angles; the arrow of a closure's type is no angle."""
    kept, depth = [], 0
    for each in text.replace("->", "  "):
        depth += each == "<"
        if not depth:
            kept.append(each)
        depth -= each == ">"
    return "".join(kept)


def last_word(path):
    words = re.findall(r"\w+", path)
    return words[-1] if words else ""


def arguments(signature):
    """The names of the arguments, self as it is taken, and whether the function answers anything."""
    plain = signature.replace("->", "  ")
    opened = opening(plain)
    depth, parts, at = 1, [""], opened
    while depth:
        at += 1
        depth += (plain[at] in "([{<") - (plain[at] in ")]}>")
        if plain[at] == "," and depth == 1:
            parts.append("")
        else:
            parts[-1] += plain[at]
    names = (re.sub(r"\s+", " ", part.partition(":")[0]).strip(" )") for part in parts)
    plain_names = [re.sub(r"&'\w+ ", "&", name) if name.endswith("self") else name.removeprefix("mut ") for name in names if name]
    return plain_names, "->" in re.split(r"\b(?:ensures|requires|where)\b", signature[at:])[0]


def opening(plain):
    """The place of the parenthesis that opens the arguments, behind the parameters between angles."""
    depth = 0
    for at, each in enumerate(plain):
        depth += (each == "<") - (each == ">")
        if each == "(" and not depth:
            return at
    raise ValueError("a function without arguments")


# ---- what a crate gives out


class Crate:
    """A crate's `src/`: its files by their modules, and what it gives out."""

    def __init__(self, name):
        self.name = name
        self.files = [File(name, path) for path in sorted((ROOT / "crates" / name / "src").rglob("*.rt"))]
        self.modules = {file.module: file for file in self.files}
        self.items = [item for file in self.files for item in file.items]

    def given(self):
        """What the crate gives out: the path and the item of each name of its own, and by crate the names of others that it gives on."""
        own, others = [], {}
        self.gather((), "", own, others)
        return own, others

    def gather(self, module, prefix, own, others):
        file = self.modules.get(module)
        if not file:
            return
        for path, name in self.given_on(file):
            if path[0] in uses() and (*module, path[0]) not in self.modules:
                others.setdefault(path[0], []).append(name)
            else:
                own += [(prefix + name, item) for item in self.found(module, (*path, name))]
        if prefix or module == ():
            own += [(prefix + each.name, each) for each in file.items if each.public and not each.of]
        for inner in GIVEN_MODULE.findall(file.bare):
            self.gather((*module, inner), f"{prefix}{inner}::", own, others)

    def given_on(self, file):
        """The path and the name of each `pub use` of a file."""
        for text in GIVEN_ON.findall(file.bare):
            path, _, names = "".join(text.split()).partition("{")
            for name in filter(None, names.rstrip("}").split(",")) if names else [path.split("::")[-1]]:
                yield tuple(filter(None, (path if names else path.rpartition("::")[0]).split("::"))), name

    def found(self, module, path):
        """The items that a path means in a module: one, or none where it is not of this crate."""
        start = () if path[0] == "crate" else module
        *within, name = path[1:] if path[0] in ("crate", "self") else path
        file = self.modules.get((*start, *within))
        if not file:
            return []
        own = [each for each in file.items if each.name == name and not each.of]
        further = (one for there, other in self.given_on(file) if other == name for one in self.found(file.module, (*there, other)))
        return own[:1] or list(further)[:1]

    def called_in(self, call):
        """The functions of the crate whose names are called in a function's text."""
        text = "\n".join(call.file.bare.split("\n")[call.lines.start - 1 : call.lines.stop - 1])
        names = set(CALLED.findall(text)) - {call.name}
        return [each for each in self.items if each.kind == "fn" and each.name in names]

    def calls_of(self, kind):
        """The functions of the impls of a type or of a trait, those of the type's own file first."""
        named = [each for each in self.items if each.kind == "fn" and each.of == kind.name]
        rivals = [each for each in self.items if each.kind in TYPES and each.name == kind.name]
        return [each for each in named if len(rivals) == 1 or each.file is kind.file]


# ---- edits


def edits_of(crate):
    """The edits of a crate: those of its must-fail/, but for lent ones, and those that stand apart."""
    kept = sorted(ROOT.glob(f"crates/{crate}/must-fail/*.edit"))
    return [edit for edit in kept if not edit.name.startswith("lent-")], sorted(ROOT.glob(f"tools/edits/{crate}/*.edit"))


def replacements(edit):
    """What an edit replaces: the file as it is named, the old text, and the new one, each None where the edit does not say it."""
    file, old = None, None
    for line in edit.read_text().split("\n"):
        if line.startswith("file: "):
            file = line[len("file: ") :].strip()
        elif line.startswith("old: "):
            old = line[len("old: ") :]
        elif line.startswith("new:"):
            yield file, old, line.removeprefix("new:").removeprefix(" ")
            old = None


def places(crate, edit):
    """The file and the line of each text that an edit replaces, in its order, as far as they are there."""
    texts = {}
    for file, old, new in replacements(edit):
        path = ROOT / "crates" / crate / (file or "")
        text = texts.get(file) or (path.read_text() if path.is_file() else "")
        if old and old in text:
            yield file, text.count("\n", 0, text.index(old)) + 1
            texts[file] = text.replace(old, new, 1)
