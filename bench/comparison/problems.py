"""The problems of bench/beside: what each is in plain words, and who makes the lines of its script.

A maker of lines gets `files`, which has drawn matrices made (bench/graphs/main.c), and `part`, by which sizes are
divided: 1, or 10 for a quick run. R-MAT graphs of a quick run have an eighth of the rows. Each script ends with
calls whose answers need all results.
"""
from collections import namedtuple

from comparison import algorithms, calls

Problem = namedtuple("Problem", "name words lines")

PROBLEMS = [
    Problem("search-random", "search by levels, random graph", algorithms.search_random),
    Problem("search-grid", "search by levels, grid of 300 x 300", algorithms.search_grid),
    Problem("walks", "shortest walks, R-MAT graph", algorithms.walks),
    Problem("components", "connected components, random graph", algorithms.components),
    Problem("ranking", "ranking in 100 rounds, R-MAT graph", algorithms.ranking),
    Problem("triangles", "triangles, R-MAT graph", algorithms.triangles),
    Problem("triangles-turned", "triangles with a transposed factor", algorithms.triangles_turned),
    Problem("product-rmat", "product, R-MAT graph", algorithms.product_rmat),
    Problem("product-skewed", "product, some very heavy rows", algorithms.product_skewed),
    Problem("product-grid", "product, five points of a grid", algorithms.product_grid),
    Problem("product-full", "product, 30 % full", algorithms.product_full),
    Problem("product-uniform", "product, 8 entries a row", algorithms.product_uniform),
    Problem("products-small", "64 small products", algorithms.products_small),
    Problem("products-large", "8 large products", algorithms.products_large),
    Problem("entries-sparse", "element by element, sparse", calls.entries_sparse),
    Problem("entries-half", "element by element, half full", calls.entries_half),
    Problem("entries-full", "element by element, full", calls.entries_full),
    Problem("vectors", "50,000 calls on full vectors of 4,096", calls.vectors),
    Problem("builds", "builds of long lines", calls.builds),
    Problem("assigns", "assign and fill", calls.assigns),
    Problem("extracts", "extract rows and columns", calls.extracts),
    Problem("transposes", "transpose", calls.transposes),
    Problem("print-ordered", "load and print, in order", calls.print_ordered),
    Problem("print-shuffled", "load and print, shuffled", calls.print_shuffled),
    Problem("print-symmetric", "load and print, symmetric", calls.print_symmetric),
    Problem("tiny", "100,000 calls on 4 x 4 objects", calls.tiny),
    Problem("sets", "200,000 sets with reads between", calls.sets),
]
