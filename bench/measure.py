"""Measures: measure.py FOLDER TOOL ROUNDS. In each round, Proofscale and lrat-check run in turn on each size of an input. Writes
FOLDER/runs.json: of each run the wall seconds, from the start of the process to its end, and the peak of its memory.

The files are read once before, so that they are in the system's cache for all.

With ACL2_LRAT set to a command that takes a formula and a proof, as the `run.sh` of ACL2's books in projects/sat/lrat, that one is
measured, too."""

import json
import os
import subprocess
import sys


def spend(folder, command, log):
    """Runs a command by spend.c; its seconds, its peak in KiB, and its exit status."""
    said = subprocess.run([f"{folder}/bin/spend", log, *command], stdout=subprocess.PIPE, text=True, check=True).stdout.split()
    return float(said[0]), int(said[1]), int(said[2])


def expect(checker, row, status, log):
    """The right answers: verified where the proof ends with the empty clause, else that it ended without it."""
    with open(log, encoding="utf-8", errors="replace") as text:
        said = text.read()
    if checker == "proofscale":
        right = status == (0 if row["ends"] else 4)
    elif checker == "ACL2":
        right = ("s VERIFIED" in said.splitlines()) == row["ends"]
    else:
        right = "failed" not in said and "ERROR" not in said and ("c VERIFIED" in said.splitlines()) == row["ends"]
    if not right:
        sys.exit(f"{checker} has status {status} for {row['formula']} {row['proof']} and says\n{said[-2000:]}")


def read_through(path):
    with open(path, "rb", buffering=0) as file:
        while file.read(1 << 24):
            pass


def main(folder, tool, rounds):
    checkers = {
        "proofscale": lambda f, p: [os.path.abspath(tool), "check", "--quiet", f, p],
        "lrat-check": lambda f, p: [f"{folder}/bin/lrat-check", f, p],
    }
    if os.environ.get("ACL2_LRAT"):
        checkers["ACL2"] = lambda f, p: [os.environ["ACL2_LRAT"], f, p]
    with open(f"{folder}/inputs/list.json", encoding="ascii") as file:
        rows = json.load(file)
    log = f"{folder}/run.log"
    for row in rows:
        row["bytes"] = [os.path.getsize(row[kind]) for kind in ("formula", "proof")]
        row["rounds"] = []
    for name in dict.fromkeys(row["input"] for row in rows):
        sizes = [row for row in rows if row["input"] == name]
        for row in sizes:
            for kind in ("formula", "proof"):
                read_through(row[kind])
        for _ in range(rounds):
            for row in sizes:
                row["rounds"].append({checker: turns(folder, checker, command, row, log) for checker, command in checkers.items()})
        for row in sizes:
            print(row["input"], f"1/{row['size']}", " ".join(f"{c} {least(row, c):.3f} s" for c in checkers), flush=True)
    with open(f"{folder}/runs.json", "w", encoding="ascii") as out:
        json.dump(rows, out, indent=1)


def turns(folder, checker, command, row, log):
    """The runs of one checker on one input in one round, as pairs of seconds and peak. Ours has as many as the input goes into the
    largest of its kind, so that equal bytes are read in each size, and a slow moment of the machine meets all sizes."""
    runs = []
    for _ in range(row["size"] if checker == "proofscale" else 1):
        seconds, peak, status = spend(folder, command(row["formula"], row["proof"]), log)
        expect(checker, row, status, log)
        runs.append([seconds, peak])
    return runs


def least(row, checker):
    return min(seconds for turn in row["rounds"] for seconds, _ in turn[checker])


if __name__ == "__main__":
    main(sys.argv[1], sys.argv[2], int(sys.argv[3]))
