"""Scripts of graph algorithms and of products, as problems.py says."""
import random


def search_random(files, part):
    """From several sources one after another: each reaches nearly the whole graph in eight levels."""
    size = 100000 // part
    yield f"load G BOOL {files.graph('random', size, 8 * size)}"
    yield from search(size, range(1, 2000, 200), 8)


def search_grid(files, part):
    """From the corners: each search has as many levels as two sides have points."""
    side = 300 if part == 1 else 95
    corners = [0, side - 1, side * side - side, side * side - 1]
    yield f"load G BOOL {files.graph('grid', side, side)}"
    yield from search(side * side, 2 * corners, 2 * side - 2)


def search(size, sources, levels):
    yield f"vector F BOOL {size}"
    yield f"vector V BOOL {size}"
    for source in sources:
        yield from ["clear F", "clear V", f"set F {source} 1", f"set V {source} 1"]
        for _ in range(levels):
            yield "vxm F V - LOR.LAND.BOOL F G R,S,C"
            yield "apply V - LOR.BOOL IDENTITY.BOOL F -"
        yield "nvals F"
        yield "nvals V"


def walks(files, part):
    scale = scale_of(16, part)
    yield f"load R INT64 {files.graph('rmat', scale, 8, 'values=1000')}"
    yield f"vector D INT64 {1 << scale}"
    yield "set D 0 0"
    for _ in range(40):
        yield "vxm D - MIN.INT64 MIN.PLUS.INT64 D R -"
    yield from ["nvals D", "reduce D MAX.INT64", "reduce D PLUS.INT64"]


def components(files, part):
    """About one entry a row on each side: long chains and many small parts beside the greatest."""
    size = 100000 // part
    yield f"load G BOOL {files.graph('random', size, size, 'symmetric')}"
    yield from [f"vector P BOOL {size}", "fill P - - 1 : -"]
    yield from [f"vector {name} INT64 {size}" for name in "LBI"]
    yield from [f"vector D BOOL {size}", "applyindex I - - ROWINDEX P 0 -", "apply L - - IDENTITY.INT64 I -"]
    for _ in range(30):
        yield "apply B - - IDENTITY.INT64 L -"
        yield "vxm L - MIN.INT64 MIN.FIRST.INT64 L G -"
        yield "ewisemult D - - NE.INT64 L B -"
        yield "reduce D LOR.BOOL"
    yield from ["ewisemult D - - EQ.INT64 L I -", "reduce D PLUS.INT64", "reduce L PLUS.INT64"]


def ranking(files, part):
    scale = scale_of(16, part)
    yield f"load L INT64 {files.graph('rmat', scale, 8, 'values=3')}"
    yield f"vector R INT64 {1 << scale}"
    yield "fill R - - 1 : -"
    for _ in range(100):
        yield "vxm R - - PLUS.TIMES.INT64 R L -"
        yield "fill R - PLUS.INT64 1 : -"
    yield from ["nvals R", "reduce R MAX.INT64", "reduce R PLUS.INT64"]


def triangles(files, part):
    yield from triangles_by("L L S", files, part)


def triangles_turned(files, part):
    yield from triangles_by("L L S,T1", files, part)


def triangles_by(factors, files, part):
    scale = scale_of(15, part)
    size = 1 << scale
    yield f"load G INT64 {files.graph('rmat', scale, 8, 'symmetric')}"
    yield f"matrix L INT64 {size} {size}"
    yield f"matrix C INT64 {size} {size}"
    yield "select L - - TRIL G -1 -"
    yield f"mxm C L - PLUS.ONEB.INT64 {factors}"
    yield from ["nvals C", "reduce C PLUS.INT64"]


def product_rmat(files, part):
    scale = scale_of(13, part)
    yield from square_of(files.graph("rmat", scale, 8, "values=100"), 1 << scale)


def product_skewed(files, part):
    size = 100000 // part
    yield from square_of(files.graph("zipf", size, 8 * size, "values=100"), size)


def product_grid(files, part):
    side = 500 if part == 1 else 158
    yield from square_of(files.graph("stencil", side, side), side * side)


def product_full(files, part):
    size = 1000 if part == 1 else 464
    yield from square_of(files.graph("dense", size, 30, "values=100"), size)


def product_uniform(files, part):
    size = 100000 // part
    yield from square_of(files.graph("uniform", size, 8, "values=100"), size)


def square_of(file, size):
    yield f"load A INT64 {file}"
    yield f"matrix C INT64 {size} {size}"
    yield "mxm C - - PLUS.TIMES.INT64 A A -"
    yield from ["nvals C", "reduce C PLUS.INT64"]


def products_small(_, part):
    """Of matrices that differ, none of which needs another product's answer."""
    draw = random.Random(4)
    for number in range(64):
        yield f"matrix A{number} INT64 300 300"
        tuples = [f"{draw.randrange(300)},{draw.randrange(300)},{draw.randrange(9)}" for _ in range(3000 // part)]
        yield f"build A{number} PLUS.INT64 {' '.join(tuples)}"
        yield f"matrix C{number} INT64 300 300"
    for number in range(64):
        yield f"mxm C{number} - - PLUS.TIMES.INT64 A{number} A{(number + 1) % 64} -"
    yield from [f"reduce C{number} PLUS.INT64" for number in range(64)]


def products_large(files, part):
    """Each of two neighbours in a ring of eight graphs."""
    scale = scale_of(12, part)
    for number in range(8):
        yield f"load A{number} INT64 {files.graph('rmat', scale, 8, 'values=100', f'seed={number}')}"
        yield f"matrix C{number} INT64 {1 << scale} {1 << scale}"
    for number in range(8):
        yield f"mxm C{number} - - PLUS.TIMES.INT64 A{number} A{(number + 1) % 8} -"
    yield from [f"nvals C{number}" for number in range(8)]
    yield from [f"reduce C{number} PLUS.INT64" for number in range(8)]


def scale_of(scale, part):
    return scale if part == 1 else scale - 3
