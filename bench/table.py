"""The table: table.py FOLDER [DOCUMENT]. Prints it from FOLDER/runs.json and FOLDER/profile.txt; with a document, writes it there
instead, between its lines `<!-- table -->` and `<!-- end -->`, with machine, date and command."""

import datetime
import json
import os
import platform
import re
import statistics
import subprocess
import sys

HEAD = (
    "| input | size | formula MB | proof MB | Proofscale s | lrat-check s | ratio, of rounds | ns a byte, growth | lrat-check's | "
    "Proofscale peak MB | less the files | lrat-check peak MB |"
)


def least(row, checker):
    """The least seconds, and the largest peak in MB."""
    runs = [run for turn in row["rounds"] for run in turn[checker]]
    return min(seconds for seconds, _ in runs), max(peak for _, peak in runs) * 1024 / 1e6


def means(row, checker):
    """The mean of the seconds in each round."""
    return [statistics.mean(seconds for seconds, _ in turn[checker]) for turn in row["rounds"]]


def median_ratio(xs, ys):
    """Of what was measured in the same round."""
    return statistics.median(x / y for x, y in zip(xs, ys))


def work(row, same_formula):
    """The bytes that the time should go by: those of the proof, and of the formula unless that is the same in all sizes."""
    return row["bytes"][1] + (0 if same_formula else row["bytes"][0])


def line(row, small, same):
    """One line; `small` is the row of the same input in size 1/8, and `same` whether that has the same formula in size 1."""
    ours, our_peak = least(row, "proofscale")
    theirs, their_peak = least(row, "lrat-check")
    formula, proof = (n / 1e6 for n in row["bytes"])
    both = formula + proof

    def growth(checker):
        mine = least(row, checker)[0] / work(row, same)
        more = median_ratio(means(row, checker), means(small, checker)) * work(small, same) / work(row, same)
        return f"{1e9 * mine:.1f}, {more:.2f}"

    size = "1" if row["size"] == 1 else f"1/{row['size']}"
    cells = [row["input"], size, f"{formula:.2f}", f"{proof:.1f}", f"{ours:.3f}", f"{theirs:.3f}"]
    cells += [f"{ours / theirs:.2f}, {median_ratio(means(row, 'proofscale'), means(row, 'lrat-check')):.2f}"]
    cells += [growth("proofscale"), growth("lrat-check"), f"{our_peak:.0f}", f"{our_peak - both:.0f}", f"{their_peak:.0f}"]
    if "ACL2" in row["rounds"][0]:
        cells += [f"{least(row, 'ACL2')[0]:.3f}", f"{least(row, 'ACL2')[1]:.0f}"]
    return "| " + " | ".join(cells) + " |"


def machine():
    with open("/proc/cpuinfo", encoding="utf-8") as file:
        names = [text.split(":", 1)[1].strip() for text in file if text.startswith("model name")]
    with open("/proc/meminfo", encoding="ascii") as file:
        memory = int(file.readline().split()[1]) / 1048576
    return f"{names[0] if names else platform.machine()}, {os.cpu_count()} processors, {memory:.0f} GB, Linux {platform.release()}"


def head_commit():
    here = os.path.dirname(os.path.abspath(__file__))
    return subprocess.run(["git", "-C", here, "rev-parse", "--short", "HEAD"], capture_output=True, text=True).stdout.strip()


def table(folder):
    with open(f"{folder}/runs.json", encoding="ascii") as file:
        rows = json.load(file)
    small = {row["input"]: row for row in rows if row["size"] == 8}
    rounds = len(rows[0]["rounds"])
    when = datetime.date.fromtimestamp(os.path.getmtime(f"{folder}/runs.json"))
    facts = f"Machine: {machine()}. Date: {when}. Commit: {head_commit()}. Command: `bench/run`; {rounds} rounds.\n\n"
    lengths = {name: {row["bytes"][0] for row in rows if row["input"] == name} for name in small}
    lines = [line(row, small[row["input"]], len(lengths[row["input"]]) == 1) for row in rows]
    head = HEAD + (" ACL2 s | ACL2 peak MB |" if "ACL2" in rows[0]["rounds"][0] else "")
    rule = "|---|---" + "|---:" * (head.count("|") - 3) + "|"
    return facts + "\n".join([head, rule] + lines) + "\n"


def main(folder, document=None):
    with open(f"{folder}/profile.txt", encoding="utf-8") as file:
        text = table(folder) + "\n" + file.read()
    if document is None:
        print(text)
        return
    with open(document, encoding="utf-8") as file:
        old = file.read()
    new, count = re.subn(r"(<!-- table -->\n).*?(<!-- end -->)", lambda m: m[1] + "\n" + text + "\n" + m[2], old, flags=re.S)
    if count != 1:
        sys.exit(f"{document}: expected the lines <!-- table --> and <!-- end --> once")
    with open(document, "w", encoding="utf-8") as out:
        out.write(new)


if __name__ == "__main__":
    main(*sys.argv[1:])
