"""Formulas and proofs that no solver would make at this size; each ends with the empty clause, and all seeds are fixed.

All three have a ring of implications, 1 -> 2 -> .. -> RING -> 1, and at its end the clauses (1) and (-1), so that there is
something to prove and a way to end."""

import random
from array import array

RING = 1000


def ring(first):
    """The ring's clauses, which get ids from `first` on, as text; behind them (1) and (-1)."""
    pairs = "".join(f"-{v} {v % RING + 1} 0\n" for v in range(1, RING + 1))
    return pairs + "1 0\n-1 0\n", first + RING


class Walk:
    """Additions of clauses (-a b), "a implies b", each from an earlier one and some implications of the ring that begins at
    id `first`. They never go round the ring, so that every hint forces a literal."""

    def __init__(self, first, seed):
        self.rng = random.Random(seed)
        self.first = first

    def step(self, number, live):
        """The step that adds the clause `number`; live has (id, a, how far b is from a) for the clauses to begin at."""
        bits = self.rng.getrandbits(32)
        length = bits % 12 + 1
        start = live[(bits >> 8) % len(live)] if live else None
        if start is None or start[2] + length >= RING:
            a, far, hints = (bits >> 16) % RING, 0, []
        else:
            a, far, hints = start[1], start[2], [start[0]]
        hints += [self.first + (a + far + i) % RING for i in range(length)]
        # The last hint is in conflict: b is false from the beginning.
        text = f"{number} -{a + 1} {(a + far + length) % RING + 1} 0 {' '.join(map(str, hints))} 0\n"
        return text, (number, a, far + length)


def deletions(formula, proof, steps):
    """A long proof in which a clause is deleted some 100 steps after it was added."""
    text, last = ring(1)
    with open(formula, "w", encoding="ascii") as out:
        out.write(f"p cnf {RING} {RING + 2}\n{text}")
    walk, live, number = Walk(1, 3), [], RING + 2
    with open(proof, "w", encoding="ascii") as out:
        for _ in range(steps):
            number += 1
            line, clause = walk.step(number, live[-64:])
            out.write(line)
            live.append(clause)
            if len(live) == 128:
                out.write(f"{number} d {' '.join(str(c[0]) for c in live[:32])} 0\n")
                live = live[32:]
        out.write(f"{number + 1} 0 {last} {last + 1} 0\n")


def groups(formula, proof, steps, clauses=20000):
    """Additions with groups: (p a) for pivots p whose opposite is in two clauses at the very beginning of a formula of so many
    clauses, so that a checker has to look at all of them for each step. The last 1000 that were added are alive, and
    of the others each thousandth: lrat-check crashes when it walks over 8,192 ids in a row that are all deleted.

    For each of 100 pivots p there are (-p c) and (-p e), and with f and g, (a c f) (a c -f) (a e g) (a e -g): if p and a are
    false, and c is false, then the third and the fourth are in conflict, and likewise the other two if e is."""
    pivots, names = 100, 6
    var = lambda p, name: RING + p * names + "pacefg".index(name) + 1
    filler_from, filler = RING + pivots * names + 1, 5000
    lines = []
    for p in range(pivots):
        lines += [f"-{var(p, 'p')} {var(p, 'c')} 0\n", f"-{var(p, 'p')} {var(p, 'e')} 0\n"]
    for p in range(pivots):
        for x, y in ("cf", "eg"):
            for sign in ("", "-"):
                lines.append(f"{var(p, 'a')} {var(p, x)} {sign}{var(p, y)} 0\n")
    rng = random.Random(4)
    literal = lambda: (filler_from + rng.getrandbits(32) % filler) * (1 if rng.getrandbits(1) else -1)
    lines += [f"{literal()} {literal()} {literal()} 0\n" for _ in range(clauses - len(lines) - RING - 2)]
    text, last = ring(len(lines) + 1)
    with open(formula, "w", encoding="ascii") as out:
        out.write(f"p cnf {filler_from + filler} {clauses}\n{''.join(lines)}{text}")
    number = clauses
    with open(proof, "w", encoding="ascii") as out:
        for i in range(steps):
            number += 1
            p = i % pivots
            support = 2 * pivots + 4 * p + 1
            out.write(f"{number} {var(p, 'p')} {var(p, 'a')} 0 -{2 * p + 1} {support} {support + 1} ")
            out.write(f"-{2 * p + 2} {support + 2} {support + 3} 0\n")
            if i >= 1000 and number % 1000:
                out.write(f"{number} d {number - 1000} 0\n")
        out.write(f"{number + 1} 0 {last} {last + 1} 0\n")


def large(formula, proof, clauses):
    """A formula of so many clauses, four for each variable, of three literals each but for the ring at its end; and a proof with
    a step for each 80 clauses."""
    filler, variables = clauses - RING - 2, clauses // 4
    rng = random.Random(5)
    with open(formula, "w", encoding="ascii") as out:
        out.write(f"p cnf {variables} {clauses}\n")
        for start in range(0, filler, 100000):
            count = min(100000, filler - start)
            numbers = array("I", rng.randbytes(12 * count))
            span = variables - RING
            it = iter([(n >> 1) % span + RING + 1 if n & 1 else -((n >> 1) % span + RING + 1) for n in numbers])
            out.writelines(f"{x} {y} {z} 0\n" for x, y, z in zip(it, it, it))
        text, last = ring(filler + 1)
        out.write(text)
    walk, live, number = Walk(filler + 1, 6), [], clauses
    with open(proof, "w", encoding="ascii") as out:
        for _ in range(clauses // 80):
            number += 1
            line, clause = walk.step(number, live)
            out.write(line)
            live.append(clause)
        out.write(f"{number + 1} 0 {last} {last + 1} 0\n")
