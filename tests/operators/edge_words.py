#!/usr/bin/env python3
"""Writes the scripts of tests/cases/operators and what they must print: every operator, cast and identity on edge words.

The answers are worked out here from the standard (GraphBLAS C API 2.0), on Python's whole numbers, and not by the
program. From the top of the repository:

    python3 tests/operators/edge_words.py
"""

from itertools import product

WORDS = [0, 1, 2, 2**63 - 1, 2**63, 2**64 - 1]
PAIRS = list(product(WORDS, WORDS))
INDICES = [0, 1, 2**31, 2**32 - 1]
PLACES = list(product(INDICES, INDICES))
GREATEST = 2**32

INTEGERS = ["INT64", "UINT64"]
BUILT_IN = ["BOOL"] + INTEGERS


def value(domain, word):
    """The whole number that a word stands for."""
    if domain == "BOOL":
        return int(word != 0)
    word %= 2**64
    return word - 2**64 if domain == "INT64" and word >= 2**63 else word


SAME = None  # the answer is in the operator's domain

UNARY = [
    ("IDENTITY", BUILT_IN, lambda a: a),
    ("AINV", INTEGERS, lambda a: -a),
    ("ABS", INTEGERS, abs),
    ("LNOT", ["BOOL"], lambda a: 1 - a),
    ("BNOT", INTEGERS, lambda a: ~a),
]

BINARY = [
    ("FIRST", BUILT_IN, SAME, lambda a, b: a),
    ("SECOND", BUILT_IN, SAME, lambda a, b: b),
    ("ONEB", BUILT_IN, SAME, lambda a, b: 1),
    ("MIN", INTEGERS, SAME, min),
    ("MAX", INTEGERS, SAME, max),
    ("PLUS", INTEGERS, SAME, lambda a, b: a + b),
    ("MINUS", INTEGERS, SAME, lambda a, b: a - b),
    ("TIMES", INTEGERS, SAME, lambda a, b: a * b),
    ("EQ", BUILT_IN, "BOOL", lambda a, b: a == b),
    ("NE", BUILT_IN, "BOOL", lambda a, b: a != b),
    ("GT", INTEGERS, "BOOL", lambda a, b: a > b),
    ("LT", INTEGERS, "BOOL", lambda a, b: a < b),
    ("GE", INTEGERS, "BOOL", lambda a, b: a >= b),
    ("LE", INTEGERS, "BOOL", lambda a, b: a <= b),
    ("LOR", ["BOOL"], SAME, lambda a, b: a or b),
    ("LAND", ["BOOL"], SAME, lambda a, b: a and b),
    ("LXOR", ["BOOL"], SAME, lambda a, b: a ^ b),
    ("LXNOR", ["BOOL"], SAME, lambda a, b: 1 - (a ^ b)),
    ("BOR", INTEGERS, SAME, lambda a, b: a | b),
    ("BAND", INTEGERS, SAME, lambda a, b: a & b),
    ("BXOR", INTEGERS, SAME, lambda a, b: a ^ b),
    ("BXNOR", INTEGERS, SAME, lambda a, b: ~(a ^ b)),
]

BY_PLACE = [
    ("ROWINDEX", "INT64", lambda i, j, s: i + s),
    ("COLINDEX", "INT64", lambda i, j, s: j + s),
    ("DIAGINDEX", "INT64", lambda i, j, s: j - i + s),
    ("TRIL", "BOOL", lambda i, j, s: j <= i + s),
    ("TRIU", "BOOL", lambda i, j, s: j >= i + s),
    ("DIAG", "BOOL", lambda i, j, s: j == i + s),
    ("OFFDIAG", "BOOL", lambda i, j, s: j != i + s),
    ("COLLE", "BOOL", lambda i, j, s: j <= s),
    ("COLGT", "BOOL", lambda i, j, s: j > s),
    ("ROWLE", "BOOL", lambda i, j, s: i <= s),
    ("ROWGT", "BOOL", lambda i, j, s: i > s),
]

BY_VALUE = [
    ("VALUEEQ", BUILT_IN, lambda a, s: a == s),
    ("VALUENE", BUILT_IN, lambda a, s: a != s),
    ("VALUELT", INTEGERS, lambda a, s: a < s),
    ("VALUELE", INTEGERS, lambda a, s: a <= s),
    ("VALUEGT", INTEGERS, lambda a, s: a > s),
    ("VALUEGE", INTEGERS, lambda a, s: a >= s),
]

MONOIDS = [
    ("PLUS", INTEGERS, lambda d: 0),
    ("TIMES", INTEGERS, lambda d: 1),
    ("MIN", INTEGERS, lambda d: max(value(d, w) for w in WORDS)),
    ("MAX", INTEGERS, lambda d: min(value(d, w) for w in WORDS)),
    ("BOR", INTEGERS, lambda d: 0),
    ("BAND", INTEGERS, lambda d: -1),
    ("BXOR", INTEGERS, lambda d: 0),
    ("LOR", ["BOOL"], lambda d: 0),
    ("LAND", ["BOOL"], lambda d: 1),
    ("LXOR", ["BOOL"], lambda d: 0),
    ("LXNOR", ["BOOL"], lambda d: 1),
]


class Case:
    """A script and its answers."""

    def __init__(self, name):
        self.name, self.lines, self.answers = name, [], []

    def call(self, line, *data):
        """A call that is accepted, and its data lines."""
        self.lines.append(line)
        self.answers += [f"{len(self.lines)} OK", *map(str, data)]

    def vector(self, name, domain, numbers):
        """Makes a vector that has these values at 0, 1 and so on."""
        self.call(f"vector {name} {domain} {len(numbers)}")
        self.call(f"build {name} - " + " ".join(f"{i},{number}" for i, number in enumerate(numbers)))

    def computes(self, line, numbers):
        """A call that leaves these values in C."""
        self.call(line)
        self.prints((len(numbers), 1), [((i, 0), number) for i, number in enumerate(numbers)])

    def prints(self, shape, entries):
        """What C has, in the order of rows."""
        rows = [f"{i + 1} {j + 1} {number}" for (i, j), number in entries]
        banner = "%%MatrixMarket matrix coordinate integer general"
        self.call("print C", banner, f"{shape[0]} {shape[1]} {len(rows)}", *rows)

    def write(self):
        base = f"tests/cases/operators/{self.name}"
        with open(f"{base}.gb", "w") as script, open(f"{base}.out", "w") as answers:
            script.write("\n".join(self.lines) + "\n")
            answers.write("\n".join(self.answers) + "\n")


def each_on(operators):
    """The operators, each on each of its domains."""
    return [(operator[0], domain, *operator[2:]) for operator in operators for domain in operator[1]]


def casts():
    case = Case("casts")
    for source in BUILT_IN:
        numbers = [value(source, word) for word in WORDS]
        case.vector("A", source, numbers)
        for target in BUILT_IN:
            case.call(f"vector C {target} {len(WORDS)}")
            case.computes("extract C - - A : -", [value(target, number) for number in numbers])
            case.call("free C")
        case.call("free A")
    case.write()


def unary():
    case = Case("unary")
    for name, domain, formula in each_on(UNARY):
        numbers = [value(domain, word) for word in WORDS]
        case.vector("A", domain, numbers)
        case.call(f"vector C {domain} {len(WORDS)}")
        case.computes(f"apply C - - {name}.{domain} A -", [value(domain, formula(a)) for a in numbers])
        case.call("free A")
        case.call("free C")
    case.write()


def binary():
    case = Case("binary")
    for name, domain, answer, formula in each_on(BINARY):
        firsts, seconds = ([value(domain, pair[side]) for pair in PAIRS] for side in (0, 1))
        case.vector("A", domain, firsts)
        case.vector("B", domain, seconds)
        case.call(f"vector C {answer or domain} {len(PAIRS)}")
        answers = [value(answer or domain, formula(a, b)) for a, b in zip(firsts, seconds)]
        case.computes(f"ewisemult C - - {name}.{domain} A B -", answers)
        for gone in "ABC":
            case.call(f"free {gone}")
    case.write()


def by_position():
    case = Case("by_position")
    case.call(f"matrix A USER:7 {GREATEST} {GREATEST}")
    case.call("build A - " + " ".join(f"{i},{j},5" for i, j in PLACES))
    for name, answer, formula in BY_PLACE:
        case.call(f"matrix C {answer} {GREATEST} {GREATEST}")
        for word in WORDS:
            scalar = value("INT64", word)
            case.call(f"applyindex C - - {name} A {scalar} -")
            entries = [((i, j), value(answer, formula(i, j, scalar))) for i, j in PLACES]
            case.prints((GREATEST, GREATEST), entries)
        case.call("free C")
    case.write()


def by_value():
    case = Case("by_value")
    for name, domain, formula in each_on(BY_VALUE):
        numbers = [value(domain, word) for word in WORDS]
        case.vector("A", domain, numbers)
        case.call(f"vector C BOOL {len(WORDS)}")
        for scalar in sorted(set(numbers)):
            answers = [int(formula(a, scalar)) for a in numbers]
            case.computes(f"applyindex C - - {name}.{domain} A {scalar} -", answers)
        case.call("free A")
        case.call("free C")
    case.write()


def identities():
    case = Case("identities")
    for name, domain, formula in each_on(MONOIDS):
        case.call(f"vector A {domain} 3")
        case.call(f"reduce A {name}.{domain}", value(domain, formula(domain)))
        case.call("free A")
    case.write()


if __name__ == "__main__":
    for write in (casts, unary, binary, by_position, by_value, identities):
        write()
