"""The limits of an input, in the order in which they are tested."""
from math import comb, lcm

MOST_BYTES = 1048576
MOST_MONOMIALS = 131072
MOST_LINES = 16
MOST_TERMS = 64
LARGEST_COEFFICIENT = 2147483647
LARGEST_EXPONENT = 64
LARGEST_POWER = 255
LARGEST_COORDINATE = 2 ** 40
MOST_VARIABLES = 8
MOST_QUERIES = 1024
LARGEST_ORDER = 24


def is_near(point):
    """Whether x, y and w of a point (x/w, y/w) in lowest terms are at most 2^40 in absolute value."""
    w = lcm(*(c.denominator for c in point))
    return all(abs(n) <= LARGEST_COORDINATE for n in (point[0] * w, point[1] * w, w))


def line_exponents(line):
    """The numbers that the limit of exponents is about."""
    multiples = [1] + [term.multiple for term in line.terms]
    return [j * d for j in multiples for d in line.direction]


def tests(file, order, readers):
    """The limits in order, each by its word with whether it is passed."""
    lines, asks = file.lines, file.asks
    terms = [term for line in lines for term in line.terms]
    yield "vars", file.variables > MOST_VARIABLES
    yield "size", comb(order + file.variables, file.variables) > MOST_MONOMIALS
    yield "lines", len(lines) > MOST_LINES
    yield "terms", any(len(line.terms) > MOST_TERMS for line in lines)
    yield "coefficient", any(abs(t.coefficient) > LARGEST_COEFFICIENT for t in terms)
    yield "exponent", any(abs(n) > LARGEST_EXPONENT for line in lines for n in line_exponents(line))
    yield "power", any(power > LARGEST_POWER for term in terms for power in term.powers)
    yield "point", not all(is_near(o.at) for o in lines + asks)
    yield "queries", len(asks) > MOST_QUERIES
    exponents = [n for ask in asks for pair in ask.exponents for n in pair]
    yield "ask-exponent", any(abs(n) > LARGEST_EXPONENT for n in exponents)
    yield "reader", any(ask.reader > readers for ask in asks)
    yield "least", any(ask.least > LARGEST_ORDER for ask in asks)


def first_limit(file, order, readers):
    """The word of the first limit that is passed, or None."""
    return next((word for word, is_passed in tests(file, order, readers) if is_passed), None)
