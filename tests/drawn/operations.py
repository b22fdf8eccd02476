#!/usr/bin/env python3
"""Writes the scripts of tests/cases/drawn: calls drawn at random, with a fixed seed, on small objects of all domains.

What they must print is kept beside them as the program printed it. Nothing here works it out anew: the program
`agreement` compares it with the plain evaluator. From the top of the repository, with the program built:

    python3 tests/drawn/operations.py
"""

from random import Random
from subprocess import run

COMBINED = ["ewiseadd", "ewisemult"]
BOUND = ["applyindex", "select"]
MATRICES, VECTORS = ["A", "B", "D", "M"], ["U", "V", "W", "N"]
DOMAINS = dict(zip(MATRICES + VECTORS, ["INT64", "UINT64", "BOOL", "INT64"] * 2))
# No object has this name.
MISSING = "X"
ACCUMULATORS = {
    "INT64": ["PLUS.INT64", "SECOND.INT64", "MIN.INT64"], "UINT64": ["MIN.UINT64", "TIMES.UINT64", "BOR.UINT64"],
    "BOOL": ["LXOR.BOOL", "LAND.BOOL", "FIRST.BOOL"],
}
SEMIRINGS = [
    "PLUS.TIMES.INT64", "MIN.PLUS.UINT64", "LOR.LAND.BOOL", "MAX.MINUS.INT64",
    "LXNOR.GT.UINT64", "BXOR.SECOND.INT64", "PLUS.FIRST.UINT64", "PLUS.EQ.INT64",
]
OPERATORS = [
    "PLUS.INT64", "MIN.INT64", "GT.UINT64", "LAND.BOOL", "MINUS.UINT64", "SECOND.BOOL", "BXNOR.INT64", "MAX.BOOL",
]
UNARY = [
    "IDENTITY.INT64", "AINV.UINT64", "LNOT.BOOL", "ABS.INT64", "BNOT.INT64", "IDENTITY.BOOL", "AINV.BOOL",
]
INDEX_OPERATORS = [
    "TRIL", "TRIU", "DIAGINDEX", "OFFDIAG", "VALUEGT.INT64", "VALUENE.BOOL", "ROWINDEX", "COLLE",
]
MONOIDS = [
    "PLUS.INT64", "MIN.UINT64", "LOR.BOOL", "MAX.INT64", "BAND.UINT64", "LXNOR.BOOL", "TIMES.INT64", "LAND.INT64",
]
VALUES = [0, 0, 1, 1, -1, 2, 3, -(2**63)]
FLAGS = ["-", "R", "S", "C", "R,S", "S,C", "C,R", "R,C,S"]
TRANSPOSED = ["-", "T0", "T1", "T0,T1", "R,T0", "S,T1", "C,T0", "T1,R,S,T0"]
# Most make three rows or columns, as the objects have; the last two don't lie inside these.
LISTS = [":", ":", "0,1,2", "2,0,1", "1,0,2", "2,1,0", "0,0,2", "1", "2,1", "3", "1,1,0,2,5"]
# Some are of matrices, and some of vectors.
BUILDS = [
    "Z - 2,0,-1 0,1,1", "Z PLUS.INT64 0,0,5 1,1,2 0,0,-7", "Z - 1,1,3 1,1,4", "Z MAX.UINT64 0,0,1", "Z - 0,3,1",
    "Y SECOND.INT64 2,4 1,0 2,6", f"Y - 1,{2**63}", "Y - 0,1",
]
SHAPES = ["2 2", "3", "2", "3 4", "3 3", "0", "0 1", "4"]


def objects(draw):
    """Objects of each domain and kind, with some entries."""
    lines = [f"matrix {name} {DOMAINS[name]} 3 3" for name in MATRICES]
    lines += [f"vector {name} {DOMAINS[name]} 3" for name in VECTORS]
    for _ in range(24):
        row, col, value = draw.randrange(3), draw.randrange(3), draw.choice([0, 0, 1, 1, 2, 3, 5, 7])
        lines += [
            f"set A {row} {col} -{value}", f"set B {col} {row} {value}", f"set D {row} {row} 1",
            f"set M {row} {col} {value}", f"remove M {col} {col}", f"set U {row} -{value}", f"set V {col} {value}",
            f"set W {row} 0", f"set N {col} {value}",
        ]
    return lines


def named(draw, kind):
    """An object of a kind, or now and then of the other one."""
    return draw.choice(kind if draw.random() < 0.95 else MATRICES + VECTORS)


def lists(draw, kind):
    """A list for each dimension of a kind, or now and then one for too many or too few."""
    count = 2 if kind is MATRICES else 1
    return " ".join(draw.choice(LISTS) for _ in range(count if draw.random() < 0.95 else 3 - count))


def moved(draw, kind):
    """An operation that moves entries: its command, and the words between accumulator and descriptor."""
    return draw.choice([
        ("transpose", named(draw, MATRICES)),
        ("extract", f"{named(draw, kind)} {lists(draw, kind)}"),
        ("assign", f"{named(draw, kind)} {lists(draw, kind)}"),
        ("fill", f"{draw.choice(VALUES)} {lists(draw, kind)}"),
    ])


def product(draw, kind):
    """A product into an output of a kind."""
    semiring = draw.choice(SEMIRINGS)
    command, first, second = ("mxm", MATRICES, MATRICES) if kind is MATRICES else draw.choice([
        ("mxv", MATRICES, VECTORS), ("vxm", VECTORS, MATRICES),
    ])
    return command, f"{semiring} {named(draw, first)} {named(draw, second)}"


def computed(draw, kind):
    """An operation that computes values, likewise."""
    a, b = named(draw, kind), named(draw, kind)
    operator, value = draw.choice(OPERATORS), draw.choice(VALUES)
    return draw.choice([
        ("apply", f"{draw.choice(UNARY)} {a}"),
        ("applyfirst", f"{operator} {value} {a}"), ("applysecond", f"{operator} {a} {value}"),
        ("reducerows", f"{draw.choice(MONOIDS)} {named(draw, MATRICES)}"),
        (draw.choice(BOUND), f"{draw.choice(INDEX_OPERATORS)} {a} {value}"),
        (draw.choice(COMBINED), f"{operator} {a} {b}"), (draw.choice(COMBINED), f"{operator} {a} {b}"),
        product(draw, kind), product(draw, kind),
    ])


def operation(draw):
    """A line that computes an operation, one that prints its output, and one that sums it."""
    kind = draw.choice([MATRICES, VECTORS])
    output = draw.choice(kind[:3]) if draw.random() < 0.97 else MISSING
    mask = draw.choice(["-", "-", named(draw, kind), named(draw, kind)])
    domain = DOMAINS.get(output, "INT64")
    accumulator = draw.choice(["-", "-", draw.choice(ACCUMULATORS[domain]), draw.choice(OPERATORS)])
    command, words = draw.choice([moved, computed, computed, computed])(draw, kind)
    flags = draw.choice(draw.choice([FLAGS, TRANSPOSED]))
    return [
        f"{command} {output} {mask} {accumulator} {words} {flags}", f"print {output}",
        f"reduce {output} {draw.choice(MONOIDS)}",
    ]


def copies(draw):
    """Lines that copy objects, give the copies other shapes, clear, build and free them, each printed."""
    matrix, vector = draw.choice(MATRICES + VECTORS), draw.choice(MATRICES + VECTORS)
    early, late = draw.choice(BUILDS), draw.choice(BUILDS)
    return [
        f"dup Z {matrix}", f"dup Y {vector}", "dup Z Y", f"resize Z {draw.choice(SHAPES)}",
        f"resize Y {draw.choice(SHAPES)}", "print Z", "print Y", f"build {early}", "clear Z", "clear Y",
        f"build {early}", f"build {late}", "print Z", "print Y", "resize Z 3 3", "resize Y 3", "print Z", "free Z",
        "free Y",
    ]


def write(name, draw, count, lines_of):
    """Writes a script of that many drawn groups of lines, and what the program prints."""
    lines = objects(draw) + [line for _ in range(count) for line in lines_of(draw)]
    base = f"tests/cases/drawn/{name}"
    with open(f"{base}.gb", "w") as script:
        script.write("\n".join(lines) + "\n")
    with open(f"{base}.out", "wb") as answers:
        run(["./gbrun", f"{base}.gb"], stdout=answers, check=True)


if __name__ == "__main__":
    for seed in range(8):
        write(f"operations_{seed}", Random(seed), 150, operation)
    for seed in range(2):
        write(f"copies_{seed}", Random(seed), 60, copies)
