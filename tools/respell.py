#!/usr/bin/env python3
"""Brings the repository's own definitions and lemmas to snake case; run once, at the top, after the kit's port.py.

A name that specs/ or proofs/ defines is respelled wherever it is cited: clauses, specs/, proofs/, must-fail edits and, in backquotes, pages.
A lemma that would take the name of a definition gets `_lem`, a record's field `_holds`. Names of src/ and of the library stay.
"""
import collections
import glob
import os
import re

WORD = re.compile(r"[^\s(){};,.\"]+")
DEFINED = re.compile(r" *(?:unfoldable |abbrev )?(?:pub )?(?:ruleset )?([^\s(){};,.\"]+) :(?: |$)")
SPECS = sorted(glob.glob("crates/*/specs/*.antt"))
PROOFS = sorted(glob.glob("crates/*/proofs/**/*.antt", recursive=True))


def defined(path):
    """The names that a file defines, each with 'type', 'member' (a field or a constructor) or 'def', and the text of its signature's line."""
    inside = False
    for line in open(path, encoding="utf-8"):
        head = re.match(r"(?:pub )?(?:data|record) ([^\s(){};,.\"]+)", line)
        if head:
            inside = True
            yield head.group(1), "type", line
        elif inside and re.match(r"  (?:pub )?[^\s:]+(?: [^\s:]+)* :", line):
            for name in re.match(r"  (?:pub )?([^:]+) :", line).group(1).split():
                yield name, "member", line
        elif not line.strip():
            inside = False
        elif not line.lstrip().startswith(("--", "use", "pub use", "unfolding", "mod", "pub mod")):
            inside = inside and line.startswith(" ")
            found = DEFINED.match(line)
            if found:
                yield found.group(1), "def", line


def snake(name):
    body, prime = re.match(r"^(.*?)([₀-₉'′]*)$", name.replace("getD", "get_or")).groups()
    body = re.sub(r"([a-z0-9])([A-Z])", r"\1_\2", body)
    body = re.sub(r"([A-Z])([A-Z][a-z])", r"\1_\2", body)
    return body.replace("-", "_").lower() + prime


def odd(name):
    return not name[0].isupper() and ("-" in name or re.search("[A-Z]", name) is not None)


def names():
    """The new name of each name that several files share, and those of one proof's own lemmas, file by file."""
    kinds = collections.defaultdict(set)
    own = collections.defaultdict(set)
    for path in SPECS + PROOFS:
        for name, kind, line in defined(path):
            if path.endswith("/Proof.antt"):
                if odd(name) and "tie." not in line and "statement" not in line and not re.match("invariant-|decreases-", name):
                    own[path].add(name)
            else:
                kinds[name].add(kind)
    odds = {n: snake(n) for n in kinds if odd(n)}
    odds.update((n, n[0].upper() + n[1:]) for n in ("byAnd", "byOr", "byNone") if n in odds)  # facts
    plain = {v for n, v in odds.items() if "-" not in n}
    taken = plain | {n for n in kinds if not odd(n)} | {"bit_and", "bit_or", "bit_xor"}
    for n in list(odds):
        if "-" in n and odds[n] in taken:
            odds[n] += "_holds" if "member" in kinds[n] else "_lem"
    for n in kinds:
        if not odd(n) and n in plain:
            odds[n] = n + "_lem"
    assert len(set(odds.values())) == len(odds), [v for v, k in collections.Counter(odds.values()).items() if k > 1]
    return odds, {p: {n: snake(n) for n in ns if n not in odds} for p, ns in own.items()}, {n for n in kinds if "member" in kinds[n]}


def respelled(text, odds, members):
    def put(m):
        name = m.group(0)
        new = odds.get(name)
        if new is None:
            return name
        if ("-" in name or not odd(name)) and m.start() and text[m.start() - 1] == "." and name not in members:
            path = re.search(r"[^\s(){};,]*$", text[: m.start() - 1]).group(0)
            if not path.startswith("Rattle") and not path[:1].isupper():
                return name
        return new

    return WORD.sub(put, text)


def renamed(text):
    """The role of an assumption: `assumption` is a tactic, which clauses and specs/ may not name."""
    if not re.search(r"specs\.Clause\.\{[^}]*\bassumption\b|^  assumption commitment|^(old|new): .*\bassumption\b", text, re.M):
        return text
    plain = lambda line: line if re.match(r" *(--|#)", line) else re.sub(r"(?<![\w.'-])assumption(?![\w'-])", "assumption_role", line)
    return "\n".join(map(plain, text.split("\n")))


def rewrite(path, change):
    with open(path, encoding="utf-8") as f:
        old = f.read()
    new = change(old)
    if new != old:
        with open(path, "w", encoding="utf-8") as f:
            f.write(new)


def main():
    os.chdir(os.path.join(os.path.dirname(os.path.realpath(__file__)), ".."))
    odds, own, members = names()
    for path in SPECS + PROOFS:
        rewrite(path, lambda t: renamed(respelled(t, odds | own.get(path, {}), members)))
    for path in sorted(glob.glob("crates/*/src/*.rt") + glob.glob("crates/*/must-fail/*.edit")):
        code = {n: v for n, v in odds.items() if re.search("[A-Z]", n) or "-" in n}
        rewrite(path, lambda t: renamed(respelled(t, code, members)) if path.endswith(".edit") else respelled(t, code, members))
    for path in sorted(glob.glob("*.md") + glob.glob("docs/**/*.md", recursive=True)):
        code = {n: v for n, v in odds.items() if re.search("[A-Z]", n)}
        rewrite(path, lambda t: re.sub(r"`[^`\n]+`", lambda m: re.sub(r"[^\s(){};,.\"`]+", lambda w: code.get(w.group(0), w.group(0)), m.group(0)), t))
    print(len(odds), "names respelled,", sum(map(len, own.values())), "of single proofs")


if __name__ == "__main__":
    main()
