"""The folder outside the repository with drawn matrices, scripts, answers and the programs in C."""
import os
import shlex
import shutil
import subprocess
import sys
import tempfile

BENCH = os.path.dirname(os.path.dirname(os.path.abspath(__file__)))
TOP = os.path.dirname(BENCH)


class Room:
    def __init__(self):
        self.path = os.environ.get("BENCH_ROOM", f"{tempfile.gettempdir()}/dicebalsa-bench-{os.getuid()}") + "/beside"
        os.makedirs(self.path, exist_ok=True)
        self.graphs = self.built("graphs", ["graphs/main.c"])

    def built(self, name, sources, libraries=()):
        """A program in C, built anew: that takes less than a second."""
        compiler = shutil.which("gcc") or shutil.which("clang")
        if not compiler:
            sys.exit("bench/beside: there is neither gcc nor clang")
        to = f"{self.path}/{name}-c"
        paths = [f"{BENCH}/{source}" for source in sources]
        done = subprocess.run(
            [compiler, "-O2", "-o", to, *paths, *libraries], stderr=subprocess.PIPE, text=True, check=False
        )
        if done.returncode == 0:
            return to
        if "GraphBLAS.h" in done.stderr or "-lgraphblas" in done.stderr:
            sys.exit("bench/beside: there is no SuiteSparse:GraphBLAS; `apt-get install libgraphblas-dev` brings it")
        sys.exit(f"{done.stderr}bench/beside: {name} was not built")

    def graph(self, kind, *words):
        """The file of a drawn matrix, which is made if it is missing and named by what it is drawn from."""
        words = [kind, *map(str, words)]
        name = "-".join(words) + ".mtx"
        path = f"{self.path}/{name}"
        if not os.path.exists(path):
            with open(path + ".part", "wb") as out:
                done = subprocess.run([self.graphs, *words], stdout=out, check=False)
            if done.returncode != 0:
                sys.exit(f"bench/beside: {shlex.join(words)} was not drawn")
            os.replace(path + ".part", path)
        return name

    def script(self, problem, part):
        path = f"{self.path}/{problem.name}{'' if part == 1 else '-quick'}.gb"
        with open(path, "w", encoding="ascii") as out:
            out.writelines(line + "\n" for line in problem.lines(self, part))
        return path
