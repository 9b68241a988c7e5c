"""Makes the inputs: inputs.py FOLDER [PART]. Five of them, each in the sizes 1/8, 1/4, 1/2 and 1, with proofs 1/PART as long.

FOLDER/inputs has NAME.cnf and NAME-8.lrat, NAME-4.lrat, .. (or NAME-8.cnf, .. where each size has a formula of its own), and
list.json, which says what there is. What is there already is not made again."""

import json
import os
import subprocess
import sys
import formulas
import proofs

SIZES = (8, 4, 2, 1)


def made(path, make):
    """Makes a file unless it is there: under another name first, so that a run that was broken off leaves no part of it."""
    if not os.path.exists(path):
        print("making", os.path.basename(path), flush=True)
        make(path + ".part")
        os.rename(path + ".part", path)
    return path


def solved(cadical, formula, proof):
    """The proof that a solver makes. Status 20 says that there is no solution."""
    status = subprocess.run([cadical, "-q", "--lrat", "--no-binary", formula, proof], stdout=subprocess.DEVNULL).returncode
    if status != 20:
        sys.exit(f"cadical has status {status} for {formula}; expected 20")


def cut(whole, path, part):
    """The first steps of a proof: so many whole lines as there are in the part's bytes."""
    left = os.path.getsize(whole) // part
    with open(whole, "rb") as source, open(path, "wb") as out:
        while left > 0:
            piece = source.read(min(left, 1 << 24))
            left -= len(piece)
            out.write(piece)
        out.write(source.readline())


def of_a_solver(folder, name, formula, part):
    """A formula with the solver's proof, and the beginnings of that: they end without the empty clause."""
    cnf = made(f"{folder}/inputs/{name}.cnf", lambda path: formulas.write(path, *formula))
    whole = made(f"{folder}/inputs/{name}-1.lrat", lambda path: solved(f"{folder}/bin/cadical", cnf, path))
    for size in SIZES:
        if size * part == 1:
            yield size, cnf, whole, True
        else:
            path = f"{folder}/inputs/{name}-{size * part}.lrat"
            yield size, cnf, made(path, lambda to: cut(whole, to, size * part)), False


def of_our_own(folder, name, make, full, part):
    """A formula and a proof that `make` writes, given how large they are to be."""
    for size in SIZES:
        cnf, lrat = (f"{folder}/inputs/{name}-{size * part}.{kind}" for kind in ("cnf", "lrat"))

        def both(path):
            make(path, lrat, full // (size * part))

        made(cnf, both)
        yield size, cnf, lrat, True


def main(folder, part=1):
    os.makedirs(f"{folder}/inputs", exist_ok=True)
    kinds = {
        "pigeons": of_a_solver(folder, "pigeons", formulas.pigeons(10), part),
        "random": of_a_solver(folder, "random", formulas.random3(300, 4), part),
        "deletions": of_our_own(folder, "deletions", proofs.deletions, 2400000, part),
        "groups": of_our_own(folder, "groups", proofs.groups, 40000, part),
        "large": of_our_own(folder, "large", proofs.large, 8000000, part),
    }
    rows = [
        {"input": name, "size": size, "formula": cnf, "proof": lrat, "ends": ends}
        for name, files in kinds.items()
        for size, cnf, lrat, ends in files
    ]
    with open(f"{folder}/inputs/list.json", "w", encoding="ascii") as out:
        json.dump(rows, out, indent=1)


if __name__ == "__main__":
    main(sys.argv[1], *map(int, sys.argv[2:]))
