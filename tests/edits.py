#!/usr/bin/env python3
"""Holds every edit that must be refused against the sources that it changes, without proving.

edits.py ROOT        checks the edits of a repository
edits.py --selftest  checks a small one with each kind of damage
"""
import pathlib
import sys
import tempfile

PARTS = ("src", "specs", "proofs")


def edited(text, crate):
    """What an edit makes of its crate's files: their paths with their new text. Says what is wrong by ValueError."""
    lines = text.splitlines()
    if not lines or not lines[0].startswith("# "):
        raise ValueError("no comment at its head says what it breaks")
    files, path, old, pairs = {}, None, None, 0
    for line in lines:
        if line.startswith("file: "):
            path = line[6:]
            if path.split("/")[0] not in PARTS or not (crate / path).is_file():
                raise ValueError(f"crates/{crate.name} has no file {path}")
            files.setdefault(path, (crate / path).read_text(encoding="utf-8"))
        elif line.startswith("old: "):
            if old is not None:
                raise ValueError("an old: without its new:")
            if path is None:
                raise ValueError("an old: before any file:")
            old = line[5:]
            times = files[path].count(old)
            if times != 1:
                raise ValueError(f"an old: text is {times} times in {path}: {old.strip()}")
        elif line.startswith("new:"):
            new = line[4:].removeprefix(" ")
            if old is None:
                raise ValueError("a new: without its old:")
            if new == old:
                raise ValueError("its new: is its old:")
            files[path] = files[path].replace(old, new)
            old, pairs = None, pairs + 1
        elif line and not line.startswith("#"):
            raise ValueError(f"a line that is no comment, file:, old: or new:, and is passed over: {line.strip()}")
    if old is not None:
        raise ValueError("an old: without its new:")
    if pairs == 0:
        raise ValueError("no pair of old: and new:")
    return tuple(sorted(files.items()))


def check(root):
    """The number of sound edits, and a line for each other."""
    sound, faults, labels, results = 0, [], {}, {}
    edits = sorted(root.glob("crates/*/must-fail/*.edit")) + sorted(root.glob("edits/*/*.edit"))
    for edit in edits:
        where = edit.relative_to(root)
        crate = root / "crates" / where.parts[1]
        try:
            first = labels.setdefault((crate.name, edit.stem), where)
            if first != where:
                raise ValueError(f"its label is that of {first}")
            result = edited(edit.read_text(encoding="utf-8"), crate)
            first = results.setdefault((crate.name, result), where)
            if first != where:
                raise ValueError(f"it is the same edit as {first}")
            sound += 1
        except ValueError as fault:
            faults.append(f"{where}: {fault}")
    return sound, faults


def selftest():
    """Lines for the kinds of damage that are not reported."""
    source = "one\ntwo\ntwo\n"
    good = "# One is one.\nfile: src/lib.rt\nold: one\nnew: 1\n"
    damaged = {
        "no comment": good.replace("# One is one.\n", ""),
        "missing file": good.replace("lib.rt", "none.rt"),
        "a file outside the crate": good.replace("src/lib.rt", "../b/src/lib.rt"),
        "text that is not there": good.replace("old: one", "old: three"),
        "text that is there twice": good.replace("old: one", "old: two"),
        "no change": good.replace("new: 1", "new: one"),
        "no pair": "# One is one.\nfile: src/lib.rt\n",
        "no new text": good.replace("new: 1\n", ""),
        "a second line": good.replace("old: one\n", "old: one\ntwo\n"),
    }
    missed = []

    def expect(what, files, faults):
        with tempfile.TemporaryDirectory() as room:
            for name, text in {"crates/a/src/lib.rt": source, "crates/b/src/lib.rt": source, **files}.items():
                path = pathlib.Path(room, name)
                path.parent.mkdir(parents=True, exist_ok=True)
                path.write_text(text, encoding="utf-8")
            if len(check(pathlib.Path(room))[1]) != faults:
                missed.append(f"selftest: {what} is not reported as it should be")

    expect("a sound edit", {"crates/a/must-fail/x.edit": good, "edits/b/x.edit": good}, 0)
    for what, text in damaged.items():
        expect(what, {"crates/a/must-fail/x.edit": text}, 1)
    expect("the same label", {"crates/a/must-fail/x.edit": good, "edits/a/x.edit": good.replace("new: 1", "new: 2")}, 1)
    expect("the same edit", {"crates/a/must-fail/x.edit": good, "edits/a/y.edit": good}, 1)
    return missed


def main(words):
    if words == ["--selftest"]:
        faults = selftest()
        print("\n".join(faults) or "selftest: each kind of damage is reported")
        return 1 if faults else 0
    if len(words) != 1 or words[0].startswith("-"):
        print("edits.py: give the folder of a repository, or --selftest", file=sys.stderr)
        return 2
    sound, faults = check(pathlib.Path(words[0]))
    for fault in faults:
        print(fault)
    print(f"{sound} passed, {len(faults)} failed")
    return 1 if faults or sound == 0 else 0


if __name__ == "__main__":
    sys.exit(main(sys.argv[1:]))
