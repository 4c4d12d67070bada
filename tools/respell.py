#!/usr/bin/env python3
"""Brings this repository's own definitions and lemmas to the toolchain's spelling: snake case.

usage: python3 tools/respell.py            at the top of the repository, once, after port.py
       python3 tools/respell.py --names    prints the pairs, old and new, and changes nothing

A name that a file of specs/ or proofs/ declares in camel case (`partedEntries-cons`) is written in
snake case (`parted_entries-cons`) wherever it stands as a whole word in crates/. Parts of a name
that begin with a capital are types and stay. Functions of src/, exported C names, strings, inputs
and outputs keep their names: none of them is in camel case. A definition may then have the name of
the function whose result it says, as `word_without`: the one stands in clauses, the other in code.
"""
import os
import re
import sys

DECLARED = re.compile(
    r"^\s*(?:(?:pub|abbrev|unfoldable|private|macro)\s+)*(?:(?:record|data|module)\s+)?"
    r"([^\s(){}:;,.=λ→]+)\s*(?:[({:]|$)"
)
WORD = re.compile(r"[^\s(){}\[\].,;:\"`⌜⌝λ|]+")

# What is not turned letter by letter: a name of the library's own that stands in a lemma's name.
WHOLE = {
    "getD-sets-below": "get_or-sets-below",
}

# Lemmas whose names would fall together with a definition that the same file cites: by the
# toolchain's rule a lemma that would have a function's name gets `_lem`.
LEMMAS = {
    "crates/step_lists/proofs/Turns.antt": {"after_more": "ending_after_more"},
    "crates/run/proofs/Taking.antt": {"by_call": "by_call_lem"},
    "crates/run/proofs/steps/take_step/Proof.antt": {"by_call": "by_call_lem"},
    "crates/dense/specs/Laws/Dense.antt": {"front_of": "front_of_lem"},
    "crates/statevector/specs/Laws/Tests.antt": {"head_rows": "head_rows_lem"},
    "crates/step_lists/specs/Laws.antt": {"no_step": "no_step_lem"},
    "crates/exact/specs/WeighedExamples.antt": {"not_finite": "not_finite_lem"},
}


def files():
    for folder, folders, names in os.walk("crates"):
        folders[:] = sorted(f for f in folders if f != "out")
        for name in sorted(names):
            if name.endswith((".antt", ".rt", ".edit")):
                yield os.path.join(folder, name)


def snake(name):
    def part(p):
        if not p or not p[0].islower():
            return p
        p = re.sub(r"(?<=[a-z0-9])([A-Z])", lambda m: "_" + m.group(1).lower(), p)
        return re.sub(r"[A-Z]", lambda m: m.group(0).lower(), p) if p != p.lower() else p

    return WHOLE.get(name) or "-".join(part(p) for p in name.split("-")).replace("′", "'")


def declared():
    names = {}
    for path in files():
        if not path.endswith(".antt"):
            continue
        for line in open(path, encoding="utf-8"):
            if line.lstrip().startswith(("--", "use ", "pub use ")):
                continue
            found = DECLARED.match(line)
            if found:
                names.setdefault(found.group(1), set()).add(path)
    return names


def is_function(name, path):
    """Whether the crate of this file has a function of this name."""
    src = os.path.join(*path.split(os.sep)[:2], "src")
    return any(
        re.search(rf"\bfn {re.escape(name)}\b", open(os.path.join(src, f), encoding="utf-8").read())
        for f in os.listdir(src)
    )


def main():
    names = declared()
    pairs = {n: snake(n) for n in sorted(names) if n[0].islower() and snake(n) != n}
    if "--names" in sys.argv[1:]:
        for old, new in pairs.items():
            print(old, new)
        return 0
    changed = 0
    for path in files():
        with open(path, encoding="utf-8") as file:
            text = file.read()
        lemmas = LEMMAS.get(path.replace(os.sep, "/"), {})
        here = set(WORD.findall(text))
        for old in here & set(pairs):
            if pairs[old] in here and pairs[old] not in lemmas and not is_function(pairs[old], path):
                print(f"look: {path}: {old} becomes {pairs[old]}, which stands there already")
        new = WORD.sub(lambda m: lemmas.get(m.group(0)) or pairs.get(m.group(0), m.group(0)), text)
        if new != text:
            changed += 1
            with open(path, "w", encoding="utf-8") as file:
                file.write(new)
    print(f"{len(pairs)} names in {changed} files")
    return 0


if __name__ == "__main__":
    sys.exit(main())
