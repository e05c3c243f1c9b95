#!/usr/bin/env python3
"""Brings the names of definitions, fields and lemmas in crates/ to snake case: `chunkedAt` to `chunked_at`, the field `count-is` to `count_is`.

usage: tools/spelling.py, at the top of the repository. It goes by text over src/, specs/ and proofs/, and changes no name of the code in src/, no type and
no module. A dash stays where it joins two names, as in the lemma `walk_in-among`. It stops where two names would fall together.
"""

import collections
import glob
import re
import sys

TOKEN = re.compile(r"(?<![\w'\-])[A-Za-z_][\w'\-]*")
FIELD = re.compile(r"^ +pub ([a-z][\w'\-]*) :", re.M)
# the library's `getD` is `get_or` now, and lemmas on it are named after it
OLD_WORDS = {"getD": "get_or"}
# two lemmas keep their dash, beside the definitions `from_one` and `gap_here`
KEPT = {"from_one": "from-one", "gap_here": "gap-here"}


def snake(word):
    if word in OLD_WORDS:
        return OLD_WORDS[word]
    if not word[:1].islower():
        return word
    return re.sub(r"(?<=[a-z0-9])[A-Z]", lambda m: "_" + m[0].lower(), word)


def files():
    for kind in ("specs", "proofs"):
        yield from sorted(glob.glob(f"crates/*/{kind}/**/*.antt", recursive=True))
    yield from sorted(glob.glob("crates/*/src/**/*.rt", recursive=True))


def main():
    texts = {f: open(f, encoding="utf-8").read() for f in files()}
    fields = set()
    for f, text in texts.items():
        if "/specs/" in f:
            fields |= {m[1] for m in FIELD.finditer(text) if "-" in m[1]}
    seen = collections.defaultdict(set)
    for f, text in texts.items():
        for m in TOKEN.finditer(text):
            seen[m[0]].add(f)
    functions = {m[1] for f, t in texts.items() if f.endswith(".rt") for m in re.finditer(r"\bfn (\w+)", t)}

    def turned(name):
        if name in KEPT:
            return KEPT[name]
        if name in fields:
            return snake(name).replace("-", "_")
        return "-".join(snake(part) for part in name.split("-"))

    new = {name: turned(name) for name in seen if turned(name) != name}
    together = {n: t for n, t in new.items() if t in seen and t not in functions and t not in KEPT}
    together |= {n: t for n, t in new.items() if list(new.values()).count(t) > 1}
    for name, to in sorted(together.items()):
        print(f"{name} and {to} would fall together: {sorted(seen[name])[:3]} {sorted(seen[to])[:3]}", file=sys.stderr)
    if together:
        return 1
    for f, text in texts.items():
        after = TOKEN.sub(lambda m: new.get(m[0], m[0]), text)
        if after != text:
            with open(f, "w", encoding="utf-8") as out:
                out.write(after)
    for name, to in sorted(new.items()):
        print(f"{name} -> {to}")
    return 0


if __name__ == "__main__":
    raise SystemExit(main())
