#!/usr/bin/env python3
"""Holds what the documents name against the repository.

documents.py ROOT        checks the documents of a repository
documents.py --selftest  checks a small one with each kind of damage

How INSPECTION, FORMS and EXCEPTIONS are read. Names stand in backticks. A path is relative to the repository or to crates/; a file or
module without its folder is one of the folder, else of the crate, that was last named under the heading, else the only one of its name.
  `a`, `b` in `FILE`         both are defined in that file, folder, module or crate
  `FILE`: .. `a` .. `b`      the same, up to a semicolon or the end of the sentence
  `a` and `b` in `Record`    both occur in that record or definition
  `a` there                  it is defined in the file last named
  `crate`: `a`, `b`          both are defined in that crate's src; so is a in `crate::a`
  contract of `f`            a function of that name
  `label` (in `crate`)       under the head "edits that are refused": an edit of that crate, else of a crate named under the heading
  any other                  a crate, a library of the kit, a file, or defined somewhere in crates/
Of README and every document of docs/ the paths are held (`CRATE, src/FILE` in running text is that crate's file), and the names under the
head "crate"; not of PORT and DESIGN-PASS, which name what was beside what is.
"""
import pathlib
import re
import sys
import tempfile

sys.dont_write_bytecode = True
from repository import Fault, Repository

READ_FOR_NAMES = ("docs/INSPECTION.md", "docs/FORMS.md", "docs/EXCEPTIONS.md")
EDITS = "edits that are refused"
# what stands in backticks and is no name of the repository: words of the language, of the kit and of the C library
NO_NAMES = {"&&", "&mut", "&[f64]", "pub fn", "pub(crate) fn", 'extern "C"', "requires", "LABEL", "read", "write", "positive", "lib.Ieee.Positive"}

QUOTED = re.compile(r"`([^`]+)`")
# a path in backticks, and one in running text
QUOTED_PATH = re.compile(r"`(\.?\w[\w.*-]*/[\w.*/-]*)")
PATH = re.compile(r"(?<![\w/.*-])\.?\w[\w.*-]*(?:/[\w*-][\w.*-]*)+")
# a crate and a file of it, in running text
IN_CRATE = re.compile(r"\b(\w+), (src/\w+\.rt)\b")

# a cell's text has <n3> for its fourth name, <f3> where that is a path and <c3> where it is a crate
LIST = r"<n\d+>(?:(?:,|,? and|,? \.\.,?)(?: of| the [a-z]+)? <n\d+>)*"
IN_PLACES = re.compile(rf"({LIST})(?: \.\.)?(?: and the [a-z ]+)? in (<f\d+>(?:, <f\d+>)*|<[nc]\d+>)")
AFTER_FILE = re.compile(r"(<f\d+>):((?:[^;.]|\.\.|\.(?! ))*)")
AFTER_CRATE = re.compile(rf"(<c\d+>): ({LIST})")
CONTRACTS = re.compile(rf"contracts? of ({LIST})")
THERE = re.compile(r"(<n\d+>) there")
LABEL = re.compile(r"(<n\d+>)(?: \((?:crate|in) (<c\d+>(?: and in <c\d+>)*)\))?")


def numbers(text, kinds="nfc"):
    """The numbers of the names in a marked text."""
    return [int(number) for number in re.findall(rf"<[{kinds}](\d+)>", text)]


class Section:
    """What stands under one heading: the crates that it names, and the file that was named last."""

    def __init__(self, repository, lines):
        self.repository, self.last = repository, None
        self.crates = repository.crates.intersection(re.findall(r"`(?:crates/)?(\w+)", "\n".join(lines)))

    def place(self, name):
        """The file or folder that a name stands for, None where it stands for none."""
        repository = self.repository
        if name in repository.crates:
            return repository.root / "crates" / name / "src"
        if repository.is_whole_path(name):
            found = repository.find(name)
            self.last = found if found in repository.text else self.last
            return found
        found = [path for path in repository.text if name in (path.name, path.stem)]
        if self.last:
            near = [path for path in found if path.parent == self.last.parent]
            found = near or [path for path in found if repository.crate_of(path) == repository.crate_of(self.last)] or found
        if len(found) > 1 or (repository.is_path(name) and not found):
            raise Fault("several files have that name" if found else "no such file")
        return found[0] if found else None

    def hold_in(self, name, places):
        """A name that is given with its place, or with some of which one has it."""
        for place in places:
            where = self.place(place)
            if where and self.repository.has(where, name):
                return
            if not where and re.search(rf"(?<![\w-]){re.escape(name)}(?![\w-])", self.repository.body(place)):
                return
        raise Fault(f"not in {' or '.join(places)}")

    def hold_plain(self, name):
        """A name that is given without a place."""
        repository = self.repository
        if "::" in name:
            owner, own = name.split("::")
            owners = [path for path, names in repository.defined.items() if owner in names]
            if not any(repository.has(place, own) for place in [repository.root / "crates" / owner / "src", *owners]):
                raise Fault(f"not defined in {owner}")
        elif repository.is_path(name):
            self.place(name)
        elif name not in repository.libraries:
            for word in re.findall(r"[A-Za-z_][\w-]+", name) if " " in name else [name]:
                if not repository.has(repository.root, word) and not self.place(word):
                    raise Fault("not defined in crates/")

    def hold_label(self, label, crates):
        """An edit of each crate that is given with it, else of one that is named under the heading."""
        having = self.repository.edits.get(label, set())
        if not (having.issuperset(crates) if crates else having & self.crates):
            raise Fault(f"no edit of {' and '.join(crates) or 'a crate named here'}; crates with such an edit: {', '.join(sorted(having)) or 'none'}")

    def given(self, names, text):
        """The places that names of a cell are given with, by the number of the name."""
        given = {}
        for found in IN_PLACES.finditer(text):
            places = [names[number] for number in numbers(found[2])]
            in_record = "<n" in found[2] and self.place(places[0]) is None
            for number in numbers(found[1].split(", ")[-1] if in_record else found[1]):
                given[number] = places
        for found in [*AFTER_FILE.finditer(text), *AFTER_CRATE.finditer(text)]:
            for number in numbers(found[2], "n"):
                given.setdefault(number, [names[numbers(found[1])[0]]])
        return given

    def hold_names(self, cell, head):
        """Each name of a cell with its fault, None where it has none."""
        repository, names = self.repository, []

        def mark(found):
            if found[1] in NO_NAMES:
                return found[1]
            names.append(found[1])
            kind = "c" if found[1] in repository.crates else "f" if repository.is_path(found[1]) else "n"
            return f"<{kind}{len(names) - 1}>"

        text = QUOTED.sub(mark, cell)
        given = self.given(names, text)
        functions = {number for found in CONTRACTS.finditer(text) for number in numbers(found[1])}
        there = {number for found in THERE.finditer(text) for number in numbers(found[1])}
        labels = {numbers(found[1])[0]: [names[n] for n in numbers(found[2] or "")] for found in LABEL.finditer(text)} if head == EDITS else {}
        for number, name in enumerate(names):
            try:
                if number in labels:
                    self.hold_label(name, labels[number])
                elif number in functions and name.split("::")[-1] not in repository.functions:
                    raise Fault("no function of that name")
                elif number in there and self.last:
                    self.hold_in(name, [str(self.last.relative_to(repository.root))])
                elif number in given:
                    self.hold_in(name.split("::")[-1], given[number])
                else:
                    self.hold_plain(name)
                yield name, None
            except Fault as fault:
                yield name, fault

    def hold_paths(self, cell, head, quoted):
        """Each path of a cell, of those in backticks too where that is asked for, and each crate, with its fault."""
        repository = self.repository
        if head == "crate":
            for name in QUOTED.findall(cell):
                yield name, None if name in repository.crates else Fault("no such crate")
        running = IN_CRATE.sub(r"crates/\1/\2", QUOTED.sub("", cell))
        plain = [path for path in PATH.findall(running) if repository.is_like_ours(path)]
        for path in plain + (QUOTED_PATH.findall(cell) if quoted else []):
            try:
                repository.find(path.rstrip("."))
                yield path, None
            except Fault as fault:
                yield path, fault


def sections(text):
    """The numbered lines under each heading, without blocks of code."""
    under, fenced = [], False
    for number, line in enumerate(text.splitlines(), 1):
        if line.startswith("```"):
            fenced = not fenced
        elif line.startswith("#"):
            yield under
            under = []
        elif not fenced and not line.startswith("    "):
            under.append((number, line))
    yield under


def cells(lines):
    """Each cell of a table with its line and the head of its column, and each other line."""
    heads = []
    for number, line in lines:
        row = [cell.strip() for cell in re.findall(r"((?:[^|`]|`[^`]*`)*)\|", line[1:])] if line.startswith("|") else [line]
        heads = (heads or row) if line.startswith("|") else []
        for place, cell in enumerate(row):
            yield number, heads[place] if place < len(heads) else "", cell


def check(root):
    """How many names are right, and a line for each that is not."""
    repository, right, faults = Repository(root), 0, []
    for path in [root / "README.md", *sorted(path for path in root.glob("docs/*.md") if path.name != "PORT.md")]:
        document = str(path.relative_to(root))
        named = document in READ_FOR_NAMES
        for lines in sections(path.read_text(encoding="utf-8")):
            section = Section(repository, [line for _, line in lines])
            faults += [f"{document}:{number}: a backtick without its other" for number, line in lines if line.count("`") % 2]
            for number, head, cell in cells(lines):
                held = [*section.hold_paths(cell, head, not named), *(section.hold_names(cell, head) if named else [])]
                right += sum(fault is None for _, fault in held)
                faults += [f"{document}:{number}: `{name}`: {fault}" for name, fault in held if fault]
    return right, faults


# a repository that is as its documents say
SOUND = {
    "crates.txt": "a: io\nb: a\n",
    "crates/a/src/lib.rt": "pub struct Point {\n}\n\npub fn move(p: Point) -> Point\n",
    "crates/a/specs/Rules.antt": "pub record Rule : Type 0 where\n  pub first : Type 0\n\nabbrev pub moved : Point\nmoved = origin\n",
    "crates/a/must-fail/wrong.edit": "",
    "crates/b/specs/Laws.antt": "pub law-1 : Rule\n",
    "edits/b/other.edit": "",
    "README.md": "| crate | what |\n|---|---|\n| `a` | one, see docs/FORMS.md and `edits/` |\n",
    "docs/FORMS.md": "`crates/a/src/lib.rt`: `Point`; `io`; no `requires`\n",
    "docs/LOOK-BACK.md": "a, src/lib.rt, move: as it was; b, -, law-1: the same\n",
    "docs/EXCEPTIONS.md": "| function |\n|---|\n| `a`: `move` |\n| `a::move` |\n",
    "docs/INSPECTION.md": "| id | definition | edits that are refused |\n|---|---|---|\n"
    "| 1 | `moved` in `a/specs/Rules.antt`; `first` in `Rule`; contract of `move` | `wrong`, `other` (in `b`) |\n| 2 | `law-1`, `Laws.antt` | |\n",
}
DAMAGE = [
    ("README.md", "`a`", "`c`"),
    ("README.md", "docs/FORMS.md", "docs/NONE.md"),
    ("README.md", "`edits/`", "`edit/`"),
    ("docs/FORMS.md", "`Point`", "`moved`"),
    ("docs/FORMS.md", "`io`", "`oi`"),
    ("docs/FORMS.md", "src/lib.rt`: `Point`", "src/none.rt`"),
    ("docs/LOOK-BACK.md", "a, src/lib.rt", "b, src/lib.rt"),
    ("docs/EXCEPTIONS.md", "`a`: `move`", "`a`: `moved`"),
    ("docs/EXCEPTIONS.md", "`a::move`", "`b::move`"),
    ("docs/INSPECTION.md", "`moved` in", "`law-1` in"),
    ("docs/INSPECTION.md", "`first` in", "`second` in"),
    ("docs/INSPECTION.md", "of `move`", "of `moved`"),
    ("docs/INSPECTION.md", "`law-1`, ", "`law-2`, "),
    ("docs/INSPECTION.md", "`Laws.antt`", "`None.antt`"),
    ("docs/INSPECTION.md", "`wrong`", "`right`"),
    ("docs/INSPECTION.md", "(in `b`)", "(in `a`)"),
    ("docs/INSPECTION.md", "`law-1`,", "`law-1,"),
]


def faults_of(files):
    """The faults of a repository of these files."""
    with tempfile.TemporaryDirectory() as room:
        for name, text in files.items():
            path = pathlib.Path(room, name)
            path.parent.mkdir(parents=True, exist_ok=True)
            path.write_text(text, encoding="utf-8")
        return check(pathlib.Path(room))[1]


def selftest():
    """Lines for what is reported and should not be, and for the damage that is not reported."""
    missed = faults_of(SOUND)
    for file, old, new in DAMAGE:
        damaged = SOUND[file].replace(old, new, 1)
        if damaged == SOUND[file] or not faults_of({**SOUND, file: damaged}):
            missed.append(f"{file} with {new} for {old} is not reported")
    return missed


def main(words):
    if len(words) != 1 or (words[0].startswith("-") and words != ["--selftest"]):
        print("documents.py: give the folder of a repository, or --selftest", file=sys.stderr)
        return 2
    if words == ["--selftest"]:
        faults = selftest()
        print("\n".join(faults) or f"selftest: each of {len(DAMAGE)} kinds of damage is reported")
        return 1 if faults else 0
    right, faults = check(pathlib.Path(words[0]))
    for fault in faults:
        print(fault)
    print(f"{right} passed, {len(faults)} failed")
    return 1 if faults or right == 0 else 0


if __name__ == "__main__":
    sys.exit(main(sys.argv[1:]))
