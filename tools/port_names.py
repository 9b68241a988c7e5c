#!/usr/bin/env python3
"""Brings the repository's own definitions and lemmas to today's spelling: words in snake case, a dash only between two names.

usage: tools/port_names.py            at the top of the repository, once, right behind the kit's port.py
       tools/port_names.py --table    prints the renamings and changes nothing

A name that is declared in specs/ or in a file of laws in proofs/ is respelled: `isBlank` becomes `is_blank`, and a dash stays
only where it joins two names of definitions (or of std's words), as in `read-write-read`. Where the new spelling is another
name already, a law gets `_lem`. Names of Rust, of std, and those that Rattle makes of a function are left alone.
"""

import collections
import glob
import os
import re
import sys

TOKEN = re.compile(r"[^\s(){}\[\];,.`\"]+")
SIG = re.compile(r"^\s*(?:(?:unfoldable|abbrev|pub)\s+)*([^\s:(){}]+) : ")
KIND = re.compile(r"^\s*(?:(?:pub|abbrev|unfoldable)\s+)*(record|data|module)\s+(?:pub\s+)?([^\s:(){}]+)")
MEANT = re.compile(r"^\s*(?:(?:pub)\s+)*(unfoldable|abbrev)\s+(?:pub\s+)?([^\s:(){}]+) : ")
STD = {
    "length", "take", "drop", "map", "set", "get_or", "append", "cons", "nil", "suc", "zero", "one", "add", "sub", "mul", "div",
    "mod", "le", "lt", "min", "max", "not", "and", "or", "eq", "eqb", "ltb", "leb", "cond", "slice", "slice_set", "slice_index",
    "omega", "some", "none", "true", "false", "++", "+", "*", "≤", "<", "∷", "[]",
}
# Chosen by hand, where a definition should have the plain name: the others of the name are a law, a field and a law elsewhere.
CHOSEN = {"endedAt": "ended_at", "ended_at": "ended_at_lem", "goesOn": "goes_on", "oneMore": "one_more"}


def laws():
    for p in sorted(glob.glob("crates/*/specs/**/*.antt", recursive=True) + glob.glob("crates/*/proofs/**/*.antt", recursive=True)):
        yield p


def texts():
    yield from laws()
    for p in sorted(glob.glob("crates/*/src/**/*.rt", recursive=True)):
        yield p


def snake(word):
    return re.sub(r"(?<=[a-z0-9₀-₉])(?=[A-Z])", "_", word).lower() if word[:1].islower() else word


def joined(name, words):
    """The name with underscores for those of its dashes that do not join two names."""
    parts = name.split("-")
    out = parts[0]
    for left, right in zip(parts, parts[1:]):
        bare = lambda w: re.sub(r"['₀-₉]+$", "", w)
        out += ("-" if bare(left) in words and bare(right) in words else "_") + right
    return out


def table():
    declared, words, bound, stds = collections.OrderedDict(), set(STD), set(), set()
    for p in laws():
        text = open(p, encoding="utf-8").read()
        bound.update(re.findall(r"λ \(?([^\s(){}:.,]+)", text))
        for names in re.findall(r"^\s*(?:pub )?use Rattle\.std\.[^{;\n]*\.\{([^}]*)\}", text, re.M):
            stds.update(n.strip() for n in names.split(","))
        own = not p.endswith("/Proof.antt")
        for line in text.split("\n"):
            if line.lstrip().startswith("--"):
                continue
            sig, kind, meant = SIG.match(line), KIND.match(line), MEANT.match(line)
            if kind:
                declared.setdefault(kind.group(2), p)
            elif sig and own:
                declared.setdefault(sig.group(1), p)
            if meant and "-" not in meant.group(2):
                words.add(snake(meant.group(2)))
            if own:
                for name in re.findall(r"\blet ([^\s(){}:=]+) ", line) + re.findall(r"[({]([^\s(){}:]+) : ", line):
                    declared.setdefault(name, p)
    for p in glob.glob("crates/*/src/**/*.rt", recursive=True):
        words.update(re.findall(r"\bfn (\w+)", open(p, encoding="utf-8").read()))
    new = dict(CHOSEN)
    wanted = collections.defaultdict(list)
    for name in declared:
        if name in stds or name in CHOSEN:
            continue
        to = "-".join(snake(w) for w in name.split("-")) if re.search("[A-Z]", name) else name
        to = joined(to, words) if "-" in to.strip("-") else to
        if to != name:
            wanted[to].append(name)
    for to, names in wanted.items():
        for name in sorted(names, key=lambda n: ("-" in n, n)):
            other = to
            while other in declared or other in bound or other in new.values() or other in stds:
                other += "_lem"
            new[name] = other
    return new


def main():
    new = table()
    if sys.argv[1:] == ["--table"]:
        for name, to in sorted(new.items()):
            print(f"{name}\t{to}")
        return
    for p in texts():
        text = open(p, encoding="utf-8").read()
        turned = TOKEN.sub(lambda m: new.get(m.group(), m.group()), text)
        if turned != text:
            open(p, "w", encoding="utf-8").write(turned)
    print(f"{len(new)} names respelled")


if __name__ == "__main__":
    os.chdir(os.path.join(os.path.dirname(os.path.abspath(__file__)), ".."))
    main()
