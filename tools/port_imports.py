#!/usr/bin/env python3
"""Names of the logic's own libraries are imported by today's paths: from Rattle.std.proofs.Common, or from a module of Rattle.std.proofs.Math.

usage: tools/port_imports.py       at the top of the repository; it may run again, and then changes nothing
"""

import glob
import os
import re

PRELUDE = set(
    "◌≡◌ ℕ zero suc pred ◌+◌ ◌-◌ ◌*◌ ◌/◌ ◌%◌ ◌^◌ ◌<◌ ◌≤◌ min max Bool true false cond not ◌&&◌ ◌||◌ T eqb ltb leb ◌≢◌ ◌⊎◌ ◌↔◌ "
    "List [] ◌∷◌ ◌++◌ map reverse length get_or take drop set replicate".split()
)
OLD = re.compile(r"^use (native\.Mathlib\.\w+|mathlib\.Core\.\w+|Prim\.Native\.Nat|lib\.(?:ListN|Dec|Seq|Pow|Arith)|borrow\.Author\.\w+)\.\{(.*)\}$")
MATH = {
    "native.Mathlib.Nat": "Nat", "native.Mathlib.Numerals": "Numerals", "mathlib.Core.Path": "Path", "mathlib.Core.Logic": "Logic",
    "mathlib.Core.Bool": "Bool", "mathlib.Core.Option": "Option", "lib.Arith": "Arith", "lib.Dec": "Dec", "lib.ListN": "ListN",
    "lib.Pow": "Pow", "lib.Seq": "Seq",
}


def common(kit):
    """What Common passes on, by the module that it takes it from."""
    out = {}
    with open(kit + "/rattle/std/proofs/Common.antt", encoding="utf-8") as f:
        for module, names in re.findall(r"^pub use (\S+)\.\{(.*)\}$", f.read(), re.M):
            out.setdefault(module, set()).update(n.strip() for n in names.split(","))
    return out


def imported(names):
    return f"use Rattle.std.proofs.Common.{{{', '.join(names)}}}"


def turn(text, passed):
    lines, own, at, kept = [], [], None, {}
    for line in text.split("\n"):
        m = OLD.match(line)
        ours = re.match(r"^use Rattle\.std\.proofs\.Common\.\{(.*)\}$", line)
        if not m and not ours:
            lines.append(line)
            continue
        at = len(lines) if at is None else at
        if ours:
            own += [n.strip() for n in ours.group(1).split(",")]
            continue
        module, names = m.group(1), [n.strip() for n in m.group(2).split(",") if n.strip()]
        mine = [n for n in names if " as " not in n and (n in PRELUDE or n in passed.get(module, ()))]
        own += mine
        rest = [n for n in names if n not in mine]
        if rest:
            to = f"Rattle.std.proofs.Math.{MATH[module]}" if module in MATH else module
            kept.setdefault(to, []).extend(rest)
    if at is None:
        return text
    own = list(dict.fromkeys(own))
    # A long import is parted into words and laws.
    parts = [own] if len(imported(own).encode()) <= 240 else [[n for n in own if n in PRELUDE], [n for n in own if n not in PRELUDE]]
    new = [imported(part) for part in parts if part]
    return "\n".join(lines[:at] + new + [f"use {to}.{{{', '.join(names)}}}" for to, names in kept.items()] + lines[at:])


def main():
    os.chdir(os.path.join(os.path.dirname(os.path.abspath(__file__)), ".."))
    kit = os.path.dirname(os.popen("rt doc").read().strip())
    passed, turned = common(kit), 0
    for p in sorted(glob.glob("crates/*/proofs/**/*.antt", recursive=True)):
        with open(p, encoding="utf-8") as f:
            text = f.read()
        new = turn(text, passed)
        if new != text:
            turned += 1
            with open(p, "w", encoding="utf-8") as f:
                f.write(new)
    print(f"{turned} files turned")


if __name__ == "__main__":
    main()
