#!/usr/bin/env python3
"""Lists the places in crates/*/src that docs/DESIGN-PASS.md counts, point by point: tools/places.py [POINT..]"""
import re
import sys
from collections import defaultdict
from pathlib import Path

ROOT = Path(__file__).resolve().parent.parent
FILES = sorted(ROOT.glob("crates/*/src/*.rt"))

# A point's patterns, each with what it finds.
PATTERNS = {
    "1": [
        ("a case of an own enum that stands for None or Err", r"^ {4}(Refused|Nothing)\b.*,$"),
        ("a flag beside values", r"^ {4}pub (ok|refused|answering): "),
        ("a refusal by its number", r"\b[Rr]efused\(\d+\)|^ {8}return (14|20);"),
        ("a kind by its number",
         r"^(?:pub )?const (?!\w*(?:SIZE|MOST|LEAST|START|HELD|DEPTH|PLACES|FILLER))[A-Z_]+: (?:usize|u8) = (?:\d+|b'.*');"),
        ("a kind as a number in a parameter or field",
         r"\b(?:what|op|tag|word|wanted|clause_type|role|kind|sort|class|sign|close): (?:usize|u8)\b"),
    ],
    "3": [("a loop that is no for", r"^\s*(?:'\w+: )?(?:while|loop)\b")],
    "4": [
        ("a number made a value of an own type", r"fn \w+\(\w+: (?:usize|u8|u64)\) -> [A-Z]\w*$"),
        ("a value of an own type made a number", r"fn \w+\(\w+: [A-Z]\w*\) -> (?:usize|u8|u64)$"),
        ("a number made another", r"fn (?:wide|high|low|choose|lesser|greater|in_byte|last)\("),
    ],
    "7": [("a match or test on which step to run", r"^\s*match (?:op|word|what|q|number|clause_type|symbol|comparison) \{$|^\s*if .*answering|answering: bool")],
}


def functions():
    """Each function: file, name, parameters, requires and body."""
    head = re.compile(r"^\s*(?:pub )?(?:extern \"C\" )?fn (\w+)(?:<[^>]*>)?\(", re.M)
    for file in FILES:
        text = "\n".join(line for line in file.read_text().split("\n") if not line.lstrip().startswith("//"))
        starts = list(head.finditer(text))
        for found, after in zip(starts, starts[1:] + [None]):
            piece = text[found.start():after.start() if after else len(text)]
            inside = piece[piece.index("(") + 1:]
            depth, end = 1, 0
            while depth:
                depth += {"(": 1, ")": -1}.get(inside[end], 0)
                end += 1
            params = [" ".join(p.split()) for p in re.split(r",(?![^\[]*\])", inside[:end - 1]) if p.strip()]
            requires = [" ".join(r.split()) for r in re.findall(r"requires(?: \w+)? \{(.*)\}", piece)]
            body = re.search(r"^ *\{\n(.*?)^ *\}$", inside[end:], re.M | re.S)
            yield f"{file.relative_to(ROOT)}", found[1], params, requires, body[1] if body else ""


def shape(body):
    """What is left of a body where names and numbers are left out."""
    return " ".join(re.sub(r"\b(?!(?:if|else|for|while|match|return|let|mut|in|Some|None|Ok|Err)\b)[\w:]+", "_", body).split())


def twins():
    by_shape = defaultdict(list)
    for file, name, _, _, body in functions():
        kept = shape(body)
        if len(kept) > 30:
            by_shape[kept].append(f"{file} {name}")
    return [", ".join(names) for names in by_shape.values() if len(names) > 1]


def together():
    """Sets of three or more parameters, by name and type, in three or more functions; the largest first, none inside another."""
    lists = [(f"{file} {name}", frozenset(params)) for file, name, params, _, _ in functions() if len(params) > 2]
    groups = defaultdict(set)
    for place, params in lists:
        for _, others in lists:
            common = params & others
            if len(common) > 2:
                groups[common].add(place)
    for common in groups:
        groups[common] = {place for place, params in lists if common <= params}
    wide = sorted((g for g in groups if len(groups[g]) > 2), key=lambda g: (-len(g), sorted(g)))
    kept = [g for g in wide if not any(g < h and groups[g] == groups[h] for h in wide)]
    return [f"{'; '.join(sorted(g))}: {len(groups[g])} functions" for g in kept]


def facts():
    count = defaultdict(int)
    for _, _, _, requires, _ in functions():
        for fact in requires:
            count[fact.strip()] += 1
    return [f"{n} times: {fact}" for fact, n in sorted(count.items(), key=lambda x: -x[1]) if n > 2]


def beside():
    """A slice or array with a count of what is in it beside it, in parameters and in structs."""
    pairs = {"nodes": ("n", "count"), "clauses": ("c", "many"), "cycles": ("taken", "n"), "words": ("n",), "bytes": ("length",)}
    out = []
    for file, name, params, _, _ in functions():
        types = dict(p.split(": ", 1) for p in params if ": " in p)
        for buffer, lengths in pairs.items():
            if "[" in types.get(buffer, "") and any(types.get(x) == "usize" for x in lengths):
                out.append(f"{file} {name}: {buffer}")
    for file in FILES:
        for found in re.finditer(r"struct (\w+) \{\n(.*?)\n\}", file.read_text(), re.S):
            if re.search(r": \[\w+; ", found[2]) and re.search(r"(length|taken|count): usize", found[2]):
                out.append(f"{file.relative_to(ROOT)} struct {found[1]}")
    return out


def show(title, places):
    print(f"  {title}: {len(places)}")
    for place in places:
        print(f"    {place}")


def main():
    wanted = sys.argv[1:] or list("1234567")
    for point in wanted:
        print(f"point {point}")
        for title, pattern in PATTERNS.get(point, []):
            found = re.compile(pattern)
            show(title, [f"{file.relative_to(ROOT)}:{k}: {line.strip()}" for file in FILES
                         for k, line in enumerate(file.read_text().split("\n"), 1)
                         if found.search(line) and not line.lstrip().startswith("//")])
        if point == "2":
            show("bodies alike but for names and numbers", twins())
        if point == "5":
            show("parameters that travel together", together())
            show("facts required three times or more", facts())
        if point == "6":
            show("a buffer with a count beside it", beside())


main()
