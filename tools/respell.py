#!/usr/bin/env python3
"""Brings the repository's own definitions and lemmas to the spelling of Rattle: words in snake case, a fact or a type with its capital.

usage: python3 tools/respell.py        at the top of the repository, once, right after the kit's own port script

Each name of specs/ and proofs/ that is in mixed case, as `exactOf`, is written with an underscore, as `exact_of`: wherever it stands in
crates/ and edits/ (the clauses and comments of src/ too), each part of a name with dashes by itself. Names of src/, strings, and names that
begin with a capital keep their spelling. A lemma that would fall together with a definition it stands beside gets `_lem`.
"""
import os
import re
import sys

# lemmas whose name is now that of a definition beside them: the files that speak of the lemma
LEMMAS = {
    "all_read": ["readable/proofs/Outcomes.antt", "readable/proofs/Readers.antt", "readable/proofs/Stopping.antt", "received/proofs/Judges.antt"],
    "by_last": ["sentences/proofs/Digits.antt"],
    "has_room": ["received/proofs/Answers.antt"],
    "is_any": ["received/proofs/Dispatch.antt", "received/proofs/heads/pass_slot/Proof.antt"],
    "is_digit": ["decimal/specs/Form.antt"],
    "last_digits": ["decimal/specs/Form.antt"],
    "no_byte": ["script/proofs/Pairs.antt", "script/proofs/digits/read_byte/Proof.antt"],
    "no_change": ["steps/proofs/Faithful.antt", "epoch_steps/proofs/Faithful.antt"],
    "read_as": ["reports/specs/Printed.antt"],
    "room_as": ["message/proofs/Answers.antt", "message/proofs/writer/write_edition/Proof.antt"],
    "same_point": ["session/proofs/Values.antt", "session/proofs/Rules.antt"],
}
# definitions that get a word of their own: the old name, and the new one
OWN = {"noneLeft": "no_sample_left"}

# a module of specs/ that Rattle now makes under this name, and its new name
MOVED = ("crates/promised/specs", "Contracts", "Allowed")

WORD = re.compile(r"[^\s(){}\[\];,.λ:·`\"|]+")


def part(text):
    if re.match(r"[a-z]", text) and re.search(r"[A-Z]", text):
        text = re.sub(r"(?<=[a-z0-9])(?=[A-Z])", "_", text)
        text = re.sub(r"(?<=[A-Z])(?=[A-Z][a-z])", "_", text)
        return text.lower()
    return text


def snake(word):
    return "".join(p if p in "-_" else part(p) for p in re.split(r"([-_])", word))


def files(*ends):
    for top in ("crates", "edits"):
        for folder, dirs, names in os.walk(top):
            dirs[:] = sorted(d for d in dirs if d != "out")
            for name in sorted(names):
                if name.endswith(ends):
                    yield os.path.join(folder, name)


def main():
    if not os.path.isfile("crates.txt"):
        sys.exit("respell: run it at the top of the repository")
    folder, name, other = MOVED
    os.rename(os.path.join(folder, name + ".antt"), os.path.join(folder, other + ".antt"))
    for path in files(".antt", ".rt"):
        with open(path, encoding="utf-8") as f:
            text = old = f.read()
        if path == os.path.join(folder, "Lib.antt"):
            text = re.sub(r"(?m)^pub mod " + name + "$", "pub mod " + other, text)
        text = text.replace(".promised.specs." + name + ".", ".promised.specs." + other + ".")
        # a law of mathlib that stood under a dotted name
        text = text.replace("Rattle.std.proofs.Math.Logic.{Iff\u00b7trans, Iff\u00b7and}", "mathlib.Core.Logic.Iff").replace("Iff\u00b7", "Iff.")
        if text != old:
            with open(path, "w", encoding="utf-8") as f:
                f.write(text)
    new = {}
    for path in files(".antt"):
        with open(path, encoding="utf-8") as f:
            for word in WORD.findall(re.sub(r"--.*", "", f.read())):
                if snake(word) != word:
                    new[word] = snake(word)
    new.update(OWN)
    lemmas = {}
    for word, places in LEMMAS.items():
        for place in places:
            lemmas.setdefault(os.path.join("crates", place), []).append(word)
    for path in files(".antt", ".rt", ".edit"):
        with open(path, encoding="utf-8") as f:
            text = old = f.read()
        for word in lemmas.get(path, []):
            # not a field, and not a part of a path
            text = re.sub(r"(?<![\w'.-])" + word + r"(?![\w'-])", word + "_lem", text)
        out = []
        for piece in re.split(r"(\"[^\"\n]*\")", text):
            out.append(piece if piece.startswith('"') else WORD.sub(lambda m: new.get(m.group(), m.group()), piece))
        text = "".join(out)
        if text != old:
            with open(path, "w", encoding="utf-8") as f:
                f.write(text)


main()
