"""What there is in a repository to be named: its crates, files, definitions, functions and edits."""
import re

PARTS = ("src", "specs", "proofs", "must-fail")
HEAD = r"^[ \t]*(?:pub |abbrev |unfoldable )*"
# a definition in .antt; one in .rt, and a field or a variant of one
LAW = re.compile(HEAD + r"(?:(?:record|data|ruleset) ([^\s({:]+)|([^\s(){}:;,]+) :(?=\s))", re.M)
ITEM = re.compile(r'^ *(?:pub(?:\(crate\))? )?(?:extern "C" )?(fn|struct|enum|const|mod|type) (\w+)', re.M)
MEMBER = re.compile(r"^    (?:pub(?:\(crate\))? (\w+): |([A-Z]\w*)(?:\(.*\))?,$)", re.M)
ENDING = re.compile(r"\.(?:rt|antt|edit|md|txt|sh|py|c|h|script|out)$")


class Fault(Exception):
    """What is wrong with a name."""


class Repository:
    def __init__(self, root):
        self.root = root
        self.top = {path.name for path in root.iterdir()}
        self.crates = {path.name for path in root.glob("crates/*") if path.is_dir()}
        listed = re.sub(r"#.*", "", (root / "crates.txt").read_text(encoding="utf-8"))
        self.libraries = self.crates.union(re.findall(r"\w+", listed))
        self.text, self.defined, self.functions = {}, {}, set()
        # not what rt makes beside them, in out/
        sources = (path for part in PARTS for path in root.glob(f"crates/*/{part}/**/*"))
        for path in sorted(path for path in sources if path.suffix in (".rt", ".antt")):
            text = self.text[path] = path.read_text(encoding="utf-8")
            items = ITEM.findall(text) if path.suffix == ".rt" else []
            named = MEMBER.findall(text) if path.suffix == ".rt" else LAW.findall(text)
            self.defined[path] = {name for _, name in items} | {one or other for one, other in named}
            self.functions.update(name for kind, name in items if kind == "fn")
        self.edits = {}
        for path in [*root.glob("crates/*/must-fail/*.edit"), *root.glob("edits/*/*.edit")]:
            self.edits.setdefault(path.stem, set()).add(path.relative_to(root).parts[1])

    def crate_of(self, path):
        return path.relative_to(self.root).parts[1]

    def is_path(self, name):
        return "/" in name or name in PARTS or bool(ENDING.search(name))

    def is_whole_path(self, name):
        """Whether a path is given with its folder, or needs none."""
        return "/" in name or name in PARTS or (name in self.top and bool(ENDING.search(name)))

    def is_like_ours(self, path):
        """Whether what has a slash in running text looks like a path of the repository."""
        return path.split("/")[0] in self.top | self.crates or bool(ENDING.search(path))

    def has(self, place, name):
        """Whether that file, or a file below that folder, defines the name."""
        return any(name in names for path, names in self.defined.items() if path == place or place in path.parents)

    def body(self, name):
        """The text of what is defined under a name, each time up to the next line that is not indented."""
        block = re.compile(HEAD + r"(?:record |data )?" + re.escape(name) + r"[ :(].*\n(?:(?:[ \t].*)?\n)*", re.M)
        return "".join(found for text in self.text.values() for found in block.findall(text))

    def find(self, path):
        """The first file or folder of that path, from the top or from crates/. CRATE and LABEL stand for any; of what the build makes
        a program has to have its crate."""
        path = path.split()[0].rstrip("/").replace("CRATE", "*").replace("LABEL", "*")
        path = re.sub(r"^crates/(\w+)/out/\1$", r"crates/\1/src/main.rt", path)
        if path.split("/")[0] == "target":
            return self.root / path
        for folder in ("", "crates/", "crates/*/") if path in PARTS else ("", "crates/"):
            for found in sorted(self.root.glob(folder + path)):
                return found
        raise Fault("no such file or folder")
