"""Both programs, run in turn on one script."""
import os
import subprocess
import sys
from collections import namedtuple

from comparison.room import TOP

SOURCES = [f"suitesparse/{name}.c" for name in ("main", "text", "names", "operators", "objects", "operations", "files")]

# What a process took, in seconds and in MiB; the lesser one is the faster one.
Taken = namedtuple("Taken", "seconds memory")
# Both sides of a problem at so many threads.
Pair = namedtuple("Pair", "threads ours theirs")


def ratio(pair):
    return pair.ours.seconds / pair.theirs.seconds


def best(pairs):
    """The best run of each side."""
    return Pair(pairs[0].threads, min(pair.ours for pair in pairs), min(pair.theirs for pair in pairs))


class Sides:
    def __init__(self, room):
        self.room = room
        self.gbrun = os.environ.get("GBRUN", f"{TOP}/crates/gbrun/out/gbrun")
        if not os.path.exists(self.gbrun):
            sys.exit("bench/beside: gbrun isn't built; ./gbrun builds it")
        self.gbrun = os.path.abspath(self.gbrun)
        # What was set for OpenMP outside would hold for one side alone.
        self.environment = {name: value for name, value in os.environ.items() if not name.startswith("OMP_")}
        self.measure = room.built("measure", ["comparison/measure.c"])
        self.suitesparse = room.built("suitesparse", SOURCES, ["-lgraphblas"])

    def compare(self, problem, script, threads):
        """A run of each side at each number of threads."""
        return [self.compare_at(problem, script, count) for count in threads]

    def compare_at(self, problem, script, threads):
        """A run of each side; SuiteSparse has to print what gbrun printed before."""
        workers = "0" if threads == 1 else str(threads)
        policies = [{}] if threads == 1 else [{}, {"OMP_WAIT_POLICY": "passive"}]
        ours = self.run(problem, "ours", [self.gbrun, "--workers", workers, script], {})
        theirs = []
        for policy in policies:
            settings = {"OMP_NUM_THREADS": str(threads), **policy}
            theirs.append(self.run(problem, "theirs", [self.suitesparse, script], settings))
            self.need_same_answers(problem, script)
        return Pair(threads, ours, min(theirs))

    def need_same_answers(self, problem, script):
        paths = [self.answers("ours"), self.answers("theirs")]
        answers = []
        for path in paths:
            with open(path, "rb") as file:
                answers.append(file.read())
        if answers[0] != answers[1]:
            where = f"{script} gives {paths[0]} by gbrun and {paths[1]} by SuiteSparse"
            sys.exit(f"bench/beside: both sides of {problem.name} answer differently: {where}")

    def answers(self, side):
        return f"{self.room.path}/answers-{side}"

    def run(self, problem, side, words, settings):
        """Runs a program by measure.c, which tells by a pipe what it took."""
        reading, writing = os.pipe()
        with open(self.answers(side), "wb") as out:
            process = subprocess.Popen(
                [self.measure, str(writing), *words],
                cwd=self.room.path,
                env={**self.environment, **settings},
                stdout=out,
                pass_fds=[writing],
            )
        os.close(writing)
        with open(reading, encoding="ascii") as told:
            numbers = told.read().split()
        process.wait()
        if len(numbers) != 3 or numbers[2] != "0":
            sys.exit(f"bench/beside: {problem.name} ended with a fault: {' '.join(words)}")
        return Taken(int(numbers[0]) / 1e9, int(numbers[1]) / 1024)
