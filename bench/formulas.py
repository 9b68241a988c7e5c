"""Formulas whose proofs a solver makes: pigeons in holes, and random clauses of three literals."""

import random


def pigeons(holes):
    """One pigeon more than there are holes, and no two pigeons in one hole: the variables and the clauses."""
    sits = lambda pigeon, hole: pigeon * holes + hole + 1
    clauses = [[sits(p, h) for h in range(holes)] for p in range(holes + 1)]
    clauses += [[-sits(p, h), -sits(q, h)] for h in range(holes) for p in range(holes + 1) for q in range(p)]
    return holes * (holes + 1), clauses


def random3(variables, seed):
    """4.26 clauses a variable, each of three different variables with random signs."""
    # getrandbits is the same in every version of Python; sample and shuffle are not.
    rng = random.Random(seed)

    def clause():
        chosen = []
        while len(chosen) < 3:
            v = rng.getrandbits(32) % variables + 1
            if v not in chosen:
                chosen.append(v)
        return [v if rng.getrandbits(1) else -v for v in chosen]

    return variables, [clause() for _ in range(variables * 426 // 100)]


def write(path, variables, clauses):
    with open(path, "w", encoding="ascii") as out:
        out.write(f"p cnf {variables} {len(clauses)}\n")
        out.writelines(" ".join(map(str, clause)) + " 0\n" for clause in clauses)
