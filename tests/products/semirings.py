#!/usr/bin/env python3
"""Writes the scripts of tests/cases/semirings and what they must print.

The answers are worked out here from the standard (GraphBLAS C API 2.0), on Python's whole numbers and
dictionaries, and not by the program. From the top of the repository:

    python3 tests/products/semirings.py
"""

from random import Random

WORDS = 2**64
DOMAINS = ["BOOL", "INT64", "UINT64"]
EVERYWHERE = ["FIRST", "SECOND", "ONEB", "EQ", "NE"]
ON_INTEGERS = ["MIN", "MAX", "PLUS", "MINUS", "TIMES", "GT", "LT", "GE", "LE", "BOR", "BAND", "BXOR", "BXNOR"]
ON_BOOL = ["LOR", "LAND", "LXOR", "LXNOR"]
COMPARISONS = ["EQ", "NE", "GT", "LT", "GE", "LE"]
OPERATORS = EVERYWHERE + ON_INTEGERS + ON_BOOL
MONOIDS = ["PLUS", "TIMES", "MIN", "MAX", "BOR", "BAND", "BXOR"] + ON_BOOL
VALUES = [0, 1, 2, -1, 2**63 - 1, -(2**63), 2**63, 2**64 - 1, 7, -3]


def value(domain, number):
    """A whole number brought into a domain."""
    if domain == "BOOL":
        return int(number != 0)
    number %= WORDS
    return number - WORDS if domain == "INT64" and number >= WORDS // 2 else number


def is_value(domain, number):
    return value(domain, number) == number


def is_offered(operator, domain):
    return operator in EVERYWHERE or operator in (ON_BOOL if domain == "BOOL" else ON_INTEGERS)


def answer_domain(operator, domain):
    return "BOOL" if operator in COMPARISONS else domain


def evaluated(operator, domain, a, b):
    """What an operator gives for two values of its domain."""
    x, y = a % WORDS, b % WORDS
    answers = {
        "FIRST": a, "SECOND": b, "ONEB": 1, "MIN": min(a, b), "MAX": max(a, b),
        "PLUS": a + b, "MINUS": a - b, "TIMES": a * b,
        "EQ": a == b, "NE": a != b, "GT": a > b, "LT": a < b, "GE": a >= b, "LE": a <= b,
        "LOR": a or b, "LAND": a and b, "LXOR": a != b, "LXNOR": a == b,
        "BOR": x | y, "BAND": x & y, "BXOR": x ^ y, "BXNOR": WORDS - 1 - (x ^ y),
    }
    return value(answer_domain(operator, domain), int(answers[operator]))


def product(ring, c, a, b):
    """The status of a product, and the entries that it leaves in C."""
    add, multiply, domain = ring.split(".")
    answer = answer_domain(multiply, domain)
    if not is_offered(multiply, domain) or not is_offered(add, answer):
        return "NOT_IMPLEMENTED", c["entries"]
    if a["cols"] != b["rows"] or c["rows"] != a["rows"] or c["cols"] != b["cols"]:
        return "DIMENSION_MISMATCH", c["entries"]
    sums = {}
    for (i, k), x in sorted(a["entries"].items()):
        for j in range(b["cols"]):
            if (k, j) in b["entries"]:
                term = evaluated(multiply, domain, value(domain, x), value(domain, b["entries"][k, j]))
                sums[i, j] = evaluated(add, answer, sums[i, j], term) if (i, j) in sums else term
    return "OK", {at: value(c["domain"], total) for at, total in sums.items()}


def answered(number, line, objects):
    """The lines that answer a line, which also changes the objects."""
    word, name, *rest = line.split()
    status, data = "OK", []
    if word == "matrix":
        objects[name] = {"domain": rest[0], "rows": int(rest[1]), "cols": int(rest[2]), "entries": {}}
        return [f"{number} OK"]
    o = objects[name]
    at = (int(rest[0]), int(rest[1])) if word in ("set", "get") else None
    if word == "set" and not is_value(o["domain"], int(rest[2])):
        status = "INVALID_VALUE"
    elif word == "set":
        o["entries"][at] = int(rest[2])
    elif word == "get" and at not in o["entries"]:
        status = "NO_VALUE"
    elif word == "get":
        data = [str(o["entries"][at])]
    elif word == "mxm":
        status, o["entries"] = product(rest[2], o, objects[rest[3]], objects[rest[4]])
    elif word == "print":
        size = f"{o['rows']} {o['cols']} {len(o['entries'])}"
        data = ["%%MatrixMarket matrix coordinate integer general", size]
        data += [f"{i + 1} {j + 1} {v}" for (i, j), v in sorted(o["entries"].items())]
    return [f"{number} {status}"] + data


def each_semiring(domain):
    """Every pair of a monoid and an operator on a domain, on inputs of all domains."""
    lines = [f"matrix {name} {d} 2 3" for name, d in zip("ABC", DOMAINS)]
    lines += [f"matrix {name} {d} 3 2" for name, d in zip("DEF", DOMAINS)]
    lines += [f"matrix {name} {d} 2 2" for name, d in zip("XYZ", DOMAINS)]
    random = Random(domain)
    for name, d in zip("ABCDEF", DOMAINS * 2):
        values = [v for v in VALUES if is_value(d, v)]
        places = [(i, j) for i in range(2) for j in range(3)][:5]
        for i, j in places:
            place = f"{i} {j}" if name in "ABC" else f"{j} {i}"
            lines.append(f"set {name} {place} {random.choice(values)}")
    for number, (add, multiply) in enumerate((a, m) for a in MONOIDS for m in OPERATORS):
        c, a, b = "XYZ"[number % 3], "ABC"[number // 3 % 3], "DEF"[number // 9 % 3]
        lines += [f"mxm {c} - - {add}.{multiply}.{domain} {a} {b} -", f"print {c}"]
    return lines


def some_products(seed):
    """Products of small matrices one after another, where outputs are inputs of the next."""
    random = Random(seed)
    shapes = {name: (random.choice(DOMAINS), random.randint(1, 4), random.randint(1, 4)) for name in "ABCDEF"}
    lines = [f"matrix {name} {d} {rows} {cols}" for name, (d, rows, cols) in shapes.items()]
    for _ in range(60):
        name, (d, rows, cols) = random.choice(list(shapes.items()))
        place = f"{random.randrange(rows)} {random.randrange(cols)}"
        kind = random.random()
        if kind < 0.5:
            lines.append(f"set {name} {place} {random.choice(VALUES)}")
        elif kind < 0.6:
            lines.append(f"get {name} {place}")
        else:
            ring = f"{random.choice(MONOIDS)}.{random.choice(OPERATORS)}.{random.choice(DOMAINS)}"
            lines += [f"mxm {name} - - {ring} {random.choice('ABCDEF')} {random.choice('ABCDEF')} -", f"print {name}"]
    return lines


def main():
    scripts = {f"each_on_{domain.lower()}": each_semiring(domain) for domain in DOMAINS}
    scripts |= {f"one_after_another_{seed}": some_products(seed) for seed in range(8)}
    for name, lines in scripts.items():
        objects = {}
        answers = [answer for number, line in enumerate(lines, 1) for answer in answered(number, line, objects)]
        for ending, text in (("gb", lines), ("out", answers)):
            with open(f"tests/cases/semirings/{name}.{ending}", "w", encoding="utf-8") as file:
                file.write("".join(line + "\n" for line in text))


main()
