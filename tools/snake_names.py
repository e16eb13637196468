#!/usr/bin/env python3
"""Turns the repository's own names of definitions and lemmas to snake case, after the kit's port.py.

usage: python3 tools/snake_names.py          at the top of the repository, once, straight after port.py
       python3 tools/snake_names.py --look   writes nothing: lists the names and where a new name meets another

It goes by text, over crates/ (.rt, .antt and .edit), and changes names alone:
- `wellFormed` to `well_formed` in every name that begins with a small letter; types, facts, modules and C names keep theirs. Where that
  name is taken by a field or another definition, OTHER says what it is called.
- The definition `result` of the crate promise to `outcome_of`: `result` is a word of clauses now.
- A clause that port.py left as `ensures* { λ r. ⌜ .. ⌝ }`, since `result` had two meanings in that file, to `ensures { .. }`
  with `result` for r.
"""

import collections
import glob
import re
import sys

WORD = re.compile(r"[^\s(){}.;,@«»\"\[\]:|&<>=+*/'`!?]+")
CAMEL = re.compile(r"(?:^|(?<=-))[a-z][a-z0-9_]*[A-Z][A-Za-z0-9_]*")
# Names that the kit makes of a type's name, and C's.
STAY = {"after_Line", "is_IsWord"}
# A name that would meet another one of its file, and what it is called.
OTHER = {
    "getD": "get_or",
    "hostMask": "host_mask_of",
    "maxLevel": "max_level_of",
    "cr0Mask": "cr0_mask_index",
    "cr4Mask": "cr4_mask_index",
}
# A lemma that would have its definition's name, in the file of its own.
LEMMAS = {"crates/decimal/proofs/Digits.antt": "digits_in", "crates/lockstep/proofs/OneReasonNumber.antt": "read_back"}


def snake(part):
    if part in STAY:
        return part
    if part in OTHER:
        return OTHER[part]
    part = re.sub(r"(?<=[a-z0-9])[A-Z]", lambda m: "_" + m[0].lower(), part)
    return re.sub(r"_[A-Z]", lambda m: m[0].lower(), re.sub(r"(?<=_[a-z])[A-Z]", lambda m: "_" + m[0].lower(), part)).lower()


def turned(word):
    return word if word in STAY else CAMEL.sub(lambda m: snake(m[0]), word)


def files():
    for end in ("src/**/*.rt", "specs/**/*.antt", "proofs/**/*.antt", "must-fail/*.edit"):
        yield from sorted(glob.glob("crates/*/" + end, recursive=True))


CLAUSE = re.compile(r"ensures\* \{ λ (\w+)\. ⌜ ")


def clauses(text):
    """`ensures* { λ r. ⌜ F ⌝ }` to `ensures { F }`, with result for r."""
    out, at = [], 0
    for m in CLAUSE.finditer(text):
        end = text.find(" ⌝ }", m.end())
        body = text[m.end() : end]
        if end < 0 or "⌜" in body or m.start() < at:
            continue
        if m[1] != "_":
            body = re.sub(rf"(?<![\w.'-]){m[1]}(?![\w'-])", "result", body)
        out += [text[at : m.start()], "ensures { ", body, " }"]
        at = end + len(" ⌝ }")
    return "".join(out) + text[at:]


def results(text):
    """`result` of the crate promise, in a file that imports or declares it."""
    if not re.search(r"promise\.specs\.Promise\.\{[^}]*\bresult\b", text) and "abbrev pub result : Answer → State → Outcome" not in text:
        return text
    return re.sub(r"(?<![\w.'-])result(?=[ ,}](?!≡))(?![\w'-])", "outcome_of", text)


def main(look):
    meets = collections.defaultdict(set)
    for path in files():
        with open(path, encoding="utf-8") as f:
            text = f.read()
        words = set(WORD.findall(text))
        for w in words:
            new = turned(w)
            if new != w and new in words:
                meets[(w, new)].add(path)
        if look:
            continue
        new = text
        new = results(new)
        if path in LEMMAS:
            new = re.sub(rf"(?<![\w.'-]){LEMMAS[path]}(?![\w'-])", LEMMAS[path] + "_lem", new)
        new = WORD.sub(lambda m: turned(m[0]), new)
        if path.endswith(".rt"):
            new = clauses(new)
        if new != text:
            with open(path, "w", encoding="utf-8") as f:
                f.write(new)
    for (old, new), paths in sorted(meets.items()):
        print(f"look: {old} and {new} stand together in {', '.join(sorted(paths))}")


if __name__ == "__main__":
    main(sys.argv[1:] == ["--look"])
