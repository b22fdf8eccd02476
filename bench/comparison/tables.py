"""The table that is printed, and what it comes to."""
import math

from comparison.sides import ratio


def heading(threads):
    """Two lines; each number stands under the side that it is of."""
    above = "".join(f"   {count_of(count) + ', seconds':>20}{'':7}{'MiB':>20}" for count in threads)
    below = f"   {'gbrun':>8}{'SuiteSparse':>12}{'ratio':>7}{'gbrun':>8}{'SuiteSparse':>12}"
    return f"{'':17}{above}\n{'':17}{below * len(threads)}"


def line(problem, pairs):
    return f"{problem.name:17}" + "".join(
        f"   {pair.ours.seconds:8.3f}{pair.theirs.seconds:12.3f}{ratio(pair):7.2f}"
        f"{pair.ours.memory:8.1f}{pair.theirs.memory:12.1f}"
        for pair in pairs
    )


def count_of(threads):
    return f"{threads} thread{'s' if threads > 1 else ''}"


def geometric_mean(ratios):
    return math.exp(sum(map(math.log, ratios)) / len(ratios))


def at_threads(measured, threads):
    """All pairs at so many threads."""
    return [pair for _, pairs in measured for pair in pairs if pair.threads == threads]


def summary(measured, threads):
    lines = []
    for count in threads:
        pairs = at_threads(measured, count)
        ratios = [ratio(pair) for pair in pairs]
        lighter = sum(pair.ours.memory < pair.theirs.memory for pair in pairs)
        lines.append(
            f"at {count_of(count)}: geometric mean of the ratios {geometric_mean(ratios):.2f}; "
            f"gbrun is faster on {sum(r < 1 for r in ratios)} of {len(ratios)} problems, and smaller on {lighter}"
        )
    return "\n".join(lines)
