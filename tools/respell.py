#!/usr/bin/env python3
"""Brings the names of this repository's definitions and lemmas to the spelling of today's Rattle.

usage: python3 tools/respell.py [--list]     at the top of the repository, once, after port.py; --list only prints the names

Types and modules are in upper camel case and stay; every other name is in snake case: a hump becomes an underscore, and so does a
dash, but for a dash that joins the names of two definitions, as in `arc_rows-cut`. A fact keeps its capital, and a lemma that would
have its definition's name gets `_lem`. Names of functions of src/, strings, inputs and outputs are not touched. A new name that
stands in the tree already is listed: a function of src/ may share it with the definition that says what it returns, and a name
that is private to another file may be the same.
"""
import collections
import glob
import re
import sys

# Words of the library by which a lemma of ours may begin or end.
LIBRARY = {"length", "map", "take", "drop", "set", "reverse", "replicate", "sum", "fold", "get_or"}
# Names that would fall together with another, or say less than they did: chosen by hand.
CHOSEN = {
    "bit-or": "bit-bit_or",
    "lines-of": "lines_of_lem",
    "getD-last": "get_or-last",
    "by-boxes": "by_boxes",
    "by-masks": "by_masks",
    "data-line": "on_data_line",
    "problem-line": "on_problem_line",
    "read-on": "read_on_lem",
    "show-row": "show_row_lem",
    "first-places": "first_places_lem",
}
# The same for a name that stands in one file.
CHOSEN_IN = {
    "crates/worked/proofs/Tests.antt": {"same_place": "same_place_lem"},
    "crates/lending/proofs/LendLaws.antt": {"with_pair": "with_pair_lem"},
    "crates/dimacs/proofs/Fairness.antt": {"none_above": "none_above_lem"},
    "crates/boxwork/proofs/Parts.antt": {"by_both": "by_both_lem"},
    "crates/worked/proofs/ComputedLaws.antt": {"by_both": "by_both_lem"},
    "crates/scan/proofs/FormLaws.antt": {"first_field": "first_field_lem"},
    "crates/scan/proofs/LineLaws.antt": {"first_field": "first_field_lem"},
    "crates/scan/proofs/line/read_line/Proof.antt": {"first_field": "first_field_lem"},
}
# A name: letters, digits, primes, dashes, and what the mathematics needs; a path is names with dots between.
WORD = re.compile(r"[^\W\d][\w'₀-₉]*(?:-[\w'₀-₉]+)*", re.UNICODE)
SIGNATURE = re.compile(r"^(\s*)(?:abbrev |unfoldable )*(?:pub )?(?:data |record |unfoldable |abbrev )*((?:[^\s:(){}.=]+ )*[^\s:(){}.=]+)\s*(?:[({].*)?(?:\s:|:\s)")


def lemma_files():
    return sorted(glob.glob("crates/*/specs/*.antt") + glob.glob("crates/*/specs/**/*.antt", recursive=True) + glob.glob("crates/*/proofs/*.antt"))


def defined():
    """Each name that a definition, a lemma, a field or a constructor of ours has, and whether it is a definition of specs/."""
    names = {}
    for path in dict.fromkeys(lemma_files()):
        for line in open(path, encoding="utf-8"):
            if line.lstrip().startswith(("--", "use ", "mod ", "pub mod ", "pub use ")):
                continue
            m = SIGNATURE.match(line)
            if m:
                for name in m.group(2).split():
                    names[name] = names.get(name, False) or ("/specs/" in path and not m.group(1) and not line.startswith(("data", "pub data", "record", "pub record")))
    return names


def humps(name):
    name = re.sub(r"(?<=[a-z0-9])(?=[A-Z])", "_", name)
    name = re.sub(r"(?<=[A-Z])(?=[A-Z][a-z])", "_", name)
    name = re.sub(r"(?<=[a-z])(?=0)", "_", name)
    return name.lower()


def joined(parts, known):
    """The parts as the fewest known names, of which there are two or more, or None."""
    best = [[]] + [None] * len(parts)
    for to in range(1, len(parts) + 1):
        for at in range(to):
            if best[at] is not None and "_".join(parts[at:to]) in known and (best[to] is None or len(best[at]) + 1 < len(best[to])):
                best[to] = best[at] + ["_".join(parts[at:to])]
    return "-".join(best[-1]) if best[-1] and len(best[-1]) > 1 else None


def spelling(name, known, facts):
    if name in CHOSEN:
        return CHOSEN[name]
    if not name[0].islower() or not ("-" in name or humps(name) != name):
        return name
    said = name.split("-")
    if len(said) > 1:
        said = [p[0].upper() + p[1:] if p[0].islower() and humps(p) != p and p[0].upper() + p[1:] in facts else p for p in said]
    parts = [p if p[0].isupper() else humps(p) for p in said]
    return joined(parts, known) or "_".join(parts)


def texts():
    for pattern in ("crates/*/src/**/*.rt", "crates/*/specs/**/*.antt", "crates/*/proofs/**/*.antt", "crates/*/must-fail/*.edit", "docs/**/*.md", "README.md", "bin/readers-path"):
        yield from sorted(p for p in glob.glob(pattern, recursive=True) if "/out/" not in p)


def main():
    names = defined()
    known = LIBRARY | {humps(n) for n, spec in names.items() if spec and "-" not in n and n[0].islower()}
    facts = {n for n in names if n[0].isupper()}
    turned = {n: spelling(n, known, facts) for n in names}
    definitions = {new for n, new in turned.items() if "-" not in n}
    turned = {n: new + "_lem" if "-" in n and new in definitions and n not in CHOSEN else new for n, new in turned.items()}
    turned = {n: new for n, new in turned.items() if new != n}
    if "--list" in sys.argv:
        for n, new in sorted(turned.items()):
            print(n, new)
        return 0
    used = collections.Counter()
    where = collections.defaultdict(set)
    for path in texts():
        if path.endswith((".rt", ".antt")):
            for w in WORD.findall(open(path, encoding="utf-8").read()):
                used[w] += 1
                where[w].add(path)
    back = collections.defaultdict(set)
    for n, new in turned.items():
        back[new].add(n)
    for new, olds in sorted(back.items()):
        if len(olds) > 1:
            print("two names fall together:", *sorted(olds), "->", new)
        if used[new]:
            print("a name is there already:", *sorted(olds), "->", new, sorted(where[new])[:4])
    for path in texts():
        old = open(path, encoding="utf-8").read()
        prose = path.endswith(".md")

        here = turned | CHOSEN_IN.get(path, {})

        def turn(m):
            word = m.group(0)
            if path.endswith("/Proof.antt") and word.endswith("-spec"):
                return word.replace("-", "_")
            return here.get(word, word)

        if prose:
            text = re.sub(r"`[^`\n]+`", lambda q: WORD.sub(turn, q.group(0)), old)
        else:
            text = WORD.sub(turn, old)
        if text != old:
            open(path, "w", encoding="utf-8").write(text)
    return 0


if __name__ == "__main__":
    raise SystemExit(main())
