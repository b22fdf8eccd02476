"""Scripts of single calls, many times or on large objects, as problems.py says."""
import random

LONGEST_LINE = 65536


def entries_sparse(files, part):
    size = 100000 // part
    for seed, name in enumerate("AB", 1):
        yield f"load {name} INT64 {files.graph('uniform', size, 8, 'values=100', f'seed={seed}')}"
    yield from element_by_element(size, 2)


def entries_half(files, part):
    size = 1000 if part == 1 else 316
    for seed, name in enumerate("AB", 1):
        yield f"load {name} INT64 {files.graph('dense', size, 50, 'values=100', f'seed={seed}')}"
    yield from element_by_element(size, 4)


def entries_full(_, part):
    size = 1000 if part == 1 else 316
    for index, name in [("ROWINDEX", "A"), ("COLINDEX", "B")]:
        yield f"matrix {name} INT64 {size} {size}"
        yield f"fill {name} - - 1 : : -"
        yield f"applyindex {name} - - {index} {name} 1 -"
    yield from element_by_element(size, 10)


def element_by_element(size, rounds):
    yield f"matrix C INT64 {size} {size}"
    yield f"matrix D INT64 {size} {size}"
    for number in range(rounds):
        yield "ewiseadd C - - PLUS.INT64 A B -"
        yield "ewisemult D - - TIMES.INT64 A C -"
        yield "nvals D"
        yield "apply D - - AINV.INT64 C -"
        yield f"select C - - VALUEGT.INT64 C {20 + number} -"
        yield "nvals C"
        yield "ewiseadd C - - MAX.INT64 C D -"
        yield "applysecond D - - MINUS.INT64 C 5 -"
        yield "reduce D PLUS.INT64"


def vectors(_, part):
    names = "UVWX"
    for first, name in enumerate(names):
        yield f"vector {name} INT64 4096"
        yield f"fill {name} - - 1 : -"
        yield f"applyindex {name} - - ROWINDEX {name} {first} -"
    for _ in range(10000 // part):
        yield "ewiseadd W - - PLUS.INT64 U V -"
        yield "ewisemult X - - MAX.INT64 W U -"
        yield "apply U - - AINV.INT64 X -"
        yield "ewisemult V - - MINUS.INT64 W U -"
        yield "reduce V PLUS.INT64"
    yield from [f"reduce {name} MAX.INT64" for name in names]


def builds(_, part):
    """Twenty lines as long as a line may be, again and again."""
    draw = random.Random(1)
    yield "matrix A INT64 200000 200000"
    lines = [longest_build(draw) for _ in range(20)]
    for number in range(300 // part):
        yield from [lines[number % len(lines)], "nvals A", "reduce A PLUS.INT64", "clear A"]


def longest_build(draw):
    line = "build A PLUS.INT64"
    while len(line) < LONGEST_LINE - 20:
        line += f" {draw.randrange(200000)},{draw.randrange(200000)},{draw.randrange(9)}"
    return line


def assigns(files, part):
    """A block goes to rows and columns that are drawn, and single rows are filled."""
    draw = random.Random(2)
    size, block = 100000 // part, 2000 // part
    yield f"load A INT64 {files.graph('uniform', size, 8, 'values=100')}"
    yield f"load B INT64 {files.graph('uniform', block, 8, 'values=100')}"
    for number in range(12):
        rows, cols = (join(draw.sample(range(size), block)) for _ in range(2))
        yield f"assign A - - B {rows} {cols} -"
        yield f"fill A - PLUS.INT64 {number} {join(draw.sample(range(size), 30))} {join(range(30))} -"
        yield "nvals A"
    yield "reduce A PLUS.INT64"


def extracts(files, part):
    """Rows in drawn order, columns in drawn order, and both at once."""
    draw = random.Random(3)
    size, block = 100000 // part, 5000 // part
    yield f"load A INT64 {files.graph('uniform', size, 8, 'values=100')}"
    yield f"matrix R INT64 {block} {size}"
    yield f"matrix C INT64 {size} {block}"
    yield f"matrix B INT64 {block} {block}"
    for _ in range(10):
        rows, cols = (join(draw.sample(range(size), block)) for _ in range(2))
        yield from [f"extract R - - A {rows} : -", f"extract C - - A : {cols} -", f"extract B - - A {rows} {cols} -"]
        yield from [f"reduce {name} PLUS.INT64" for name in "RCB"]


def join(indices):
    return ",".join(map(str, indices))


def transposes(files, part):
    size = 100000 // part
    yield f"load A INT64 {files.graph('uniform', size, 8, 'values=100')}"
    yield f"matrix T INT64 {size} {size}"
    for _ in range(2):
        yield from ["transpose T - - A -", "nvals T", "transpose A - - T -", "nvals A"]
    yield "reduce A PLUS.INT64"


def print_ordered(files, part):
    size = 150000 // part
    yield from load_and_print(files.graph("uniform", size, 8, "values=100000"))


def print_shuffled(files, part):
    size = 150000 // part
    yield from load_and_print(files.graph("uniform", size, 8, "values=100000", "shuffled"))


def print_symmetric(files, part):
    size = 150000 // part
    yield from load_and_print(files.graph("uniform", size, 4, "values=100000", "symmetric"))


def load_and_print(file):
    yield from [f"load A INT64 {file}", "nvals A", "print A"]


def tiny(_, part):
    """Ten calls on objects of four rows, again and again."""
    yield from [f"matrix {name} INT64 4 4" for name in "ABCDE"] + [f"vector {name} INT64 4" for name in "UW"]
    yield "build A - 0,1,3 1,2,-4 2,0,5 3,3,2"
    yield "build B - 0,0,1 1,1,2 2,3,-1 3,2,6"
    yield "build U - 0,1 1,2 3,5"
    for _ in range(10000 // part):
        yield "ewiseadd C - - PLUS.INT64 A B -"
        yield "mxm D - - PLUS.TIMES.INT64 A C -"
        yield "apply E - - AINV.INT64 D -"
        yield "ewisemult D - - MINUS.INT64 D C -"
        yield "vxm W - - MIN.PLUS.INT64 U A -"
        yield "select E - - TRIL E 0 -"
        yield "mxv W - PLUS.INT64 PLUS.TIMES.INT64 D W -"
        yield "transpose C D - E -"
        yield "reducerows W - MAX.INT64 PLUS.INT64 C -"
        yield "set C 1 2 7"
    yield from [f"print {name}" for name in "CDEW"]


def sets(_, part):
    """Entries at drawn places, and an answer that needs them after each two thousand."""
    draw = random.Random(5)
    yield "matrix A INT64 100000 100000"
    for number in range(200000 // part):
        yield f"set A {draw.randrange(100000)} {draw.randrange(100000)} {draw.randrange(100)}"
        if number % 2000 == 1999:
            yield "nvals A" if number % 4000 == 1999 else f"get A {draw.randrange(100000)} 0"
    yield "reduce A PLUS.INT64"
