"""The table in README.md, between two lines that mark its place."""
import sys

from comparison.room import TOP
from comparison.sides import ratio
from comparison.tables import at_threads, geometric_mean

FIRST = "<!-- speed: written by bench/beside --write -->"
LAST = "<!-- end of speed -->"
README = f"{TOP}/README.md"


def need_marks():
    with open(README, encoding="utf-8") as file:
        lines = file.read().split("\n")
    if FIRST not in lines or LAST not in lines[lines.index(FIRST) :]:
        sys.exit(f"bench/beside: README.md has no place for the table: the lines {FIRST} and {LAST}")


def write(measured, sentence):
    need_marks()
    with open(README, encoding="utf-8") as file:
        before, rest = file.read().split(FIRST + "\n", 1)
    after = rest.split(LAST, 1)[1]
    with open(README, "w", encoding="utf-8") as file:
        file.write(f"{before}{FIRST}\n{table(measured)}\n{sentence}\n{LAST}{after}")


def table(measured):
    lines = [
        "| Problem | gbrun, s | SuiteSparse, s | Ratio | Ratio at 4 threads |",
        "|---|---:|---:|---:|---:|",
    ]
    for problem, (one, four) in measured:
        seconds = f"{one.ours.seconds:.3f} | {one.theirs.seconds:.3f}"
        lines.append(f"| {problem.words} | {seconds} | {ratio(one):.2f} | {ratio(four):.2f} |")
    means = [f"{geometric_mean([ratio(pair) for pair in at_threads(measured, count)]):.2f}" for count in (1, 4)]
    lines.append(f"| **Geometric mean** | | | **{means[0]}** | **{means[1]}** |")
    return "\n".join(lines) + "\n"
