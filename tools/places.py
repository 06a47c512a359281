#!/usr/bin/env python3
"""Places of src/ that docs/DESIGN-PASS.md counts, point by point.  tools/places.py [-l] [POINT ..]  (-l lists each place)"""
import collections
import pathlib
import re
import sys

TOP = pathlib.Path(__file__).resolve().parent.parent
FILES = sorted(TOP.glob("crates/*/src/**/*.rt"))
LINES = [(f.relative_to(TOP), n, line) for f in FILES for n, line in enumerate(f.read_text().split("\n"), 1)]


def matching(pattern):
    return [f"{f}:{n}: {line.strip()}" for f, n, line in LINES if re.search(pattern, line)]


def functions():
    """file, line, name, signature and clauses, body of each function"""
    for f in FILES:
        lines = f.read_text().split("\n")
        for n, line in enumerate(lines):
            m = re.match(r"( *)(?:pub(?:\(crate\))? )?(?:extern \"C\" )?fn (\w+)", line)
            if m:
                end = next(k for k in range(n, len(lines)) if lines[k].startswith(m[1] + "}") or lines[k].endswith("}") and k == n)
                text = lines[n:end + 1]
                opens = next((k for k, t in enumerate(text) if t == m[1] + "{" or t.endswith(" {") and not re.match(r" *(requires|ensures)", t)), 0)
                yield f.relative_to(TOP), n + 1, m[2], "\n".join(text[:opens + 1]), "\n".join(text[opens + 1:])


def types():
    """file, line, name and fields of each struct"""
    for f in FILES:
        for m in re.finditer(r"^(?:pub(?:\(crate\))? )?struct (\w+)[^{;]*\{(.*?)\n\}", f.read_text(), re.S | re.M):
            fields = re.findall(r"^ *(?:pub(?:\(crate\))? )?(\w+): ([^,]*),", m[2], re.M)
            yield f.relative_to(TOP), m[1], fields


def shape(text):
    """a text without its names, numbers and strings"""
    text = re.sub(r'b?"[^"]*"', "S", re.sub(r"//.*", "", text))
    words = {"if", "else", "while", "for", "in", "match", "return", "let", "mut", "true", "false", "break", "as", "self"}
    text = re.sub(r"[A-Za-z_][A-Za-z_0-9]*", lambda m: m[0] if m[0] in words else "n", text)
    return re.sub(r"\s+", " ", re.sub(r"\b\d[\d_]*\b", "0", text)).strip()


def grouped(pairs):
    groups = collections.defaultdict(list)
    for key, place in pairs:
        groups[key].append(place)
    return [place for places in groups.values() if len(places) > 1 for place in places]


def twin_functions():
    return grouped((shape(body), f"{f}:{n}: {name}") for f, n, name, head, body in functions() if body.count("\n") > 1)


def twin_types():
    return grouped((tuple(name for name, kind in fields), f"{f}: {name}") for f, name, fields in types() if len(fields) > 1)


def facts():
    """facts of contracts that stand in three functions or more"""
    count = collections.Counter()
    for f, n, name, head, body in functions():
        for fact in set(re.findall(r"(?:requires|ensures)(?: \w+)? \{ (.*) \}", head)):
            count[fact] += 1
    return [f"{n} functions: {fact}" for fact, n in count.most_common() if n > 2]


POINTS = {
    "1a": ("own enums of the shape of Option or Result", lambda: matching(r"^    (Nothing|Refused\(\w+\)|NoRequest\(u64\)|Ticks\(i64\)),")),
    "1b": ("fields that are a flag beside a value", lambda: matching(r"^    (pub(\(crate\))? )?\w+: bool,")),
    "1c": ("fields and answers that are a number of a refusal or of a kind", lambda: matching(r"^    (pub(\(crate\))? )?(number|kind): u8,|-> u8$")),
    "1d": ("fields that are a place, 0 where there is none", lambda: [f"{f}: {name}" for f, name, fields in types() if any(a == "end" for a, t in fields)]),
    "2a": ("functions of one shape with another", twin_functions),
    "2b": ("structs with the same fields as another", twin_types),
    "3": ("while loops", lambda: matching(r"^ *while ")),
    "4": ("comparisons and conversions written by hand", lambda: matching(r"fn (same\w*|at_most|larger|rank|worse|begins|is_word|bare_name|\w*_word|number_of|state_of|signed_of|wide|digit_of|value|size|has_front|is_version)\(")),
    "5": ("facts that stand in the contracts of three functions or more", facts),
    "6": ("functions that write into a lent buffer at a place, and arrays with a count beside them", lambda: matching(r"\(out: &mut \[u8\], at: usize|^    at: usize,$") + [f"{f}: {name}" for f, name, fields in types() if any(t.startswith("[") for a, t in fields) and any(a in ("count", "length", "end") for a, t in fields)]),
    "7": ("switches on a number or a name", lambda: matching(r"match (p|k|which|value|voice|name|n|number) \{")),
    "8": ("facts spelled in line in answers", lambda: [f"{f.relative_to(TOP)}: {f.read_text().count('(let it :')}" for f in sorted(TOP.glob("crates/*/proofs/**/*.antt")) if "(let it :" in f.read_text()]),
}


def main():
    asked = [a for a in sys.argv[1:] if a != "-l"]
    if any(a not in POINTS for a in asked):
        sys.exit("places: the points are " + " ".join(POINTS))
    for point in asked or POINTS:
        what, places = POINTS[point][0], POINTS[point][1]()
        print(f"{point} {len(places)} {what}")
        if "-l" in sys.argv:
            print("\n".join("    " + place for place in places))


main()
