"""Truncated series: a dictionary from (powers, exponent) to a whole number that isn't 0."""
from math import comb


def det(a, b):
    """The determinant of two exponents."""
    return a[0] * b[1] - a[1] * b[0]


def plus(a, b):
    """The sum of two tuples of one length."""
    return tuple(x + y for x, y in zip(a, b))


def minus(a, b):
    """The difference of two tuples of one length."""
    return tuple(x - y for x, y in zip(a, b))


def degree(key):
    """The sum of the powers of a key."""
    return sum(key[0])


def monomial(exponent, variables):
    """z to the exponent."""
    return {((0,) * variables, exponent): 1}


def one(variables):
    """The series 1."""
    return monomial((0, 0), variables)


def add_to(series, key, coefficient):
    """Adds a term to the series in place."""
    value = series.get(key, 0) + coefficient
    if value:
        series[key] = value
    else:
        series.pop(key, None)


def cut(series, limit):
    """The terms of degree at most the limit."""
    return {key: c for key, c in series.items() if degree(key) <= limit}


def times(f, g, limit):
    """The product modulo degree limit + 1."""
    product = {}
    for k, c in f.items():
        for l, e in g.items():
            if degree(k) + degree(l) <= limit:
                add_to(product, (plus(k[0], l[0]), plus(k[1], l[1])), c * e)
    return product


def binomial(n, i):
    """n over i, for n of either sign."""
    return comb(n, i) if n >= 0 else (-1) ** i * comb(i - n - 1, i)


def power(f, n, limit):
    """f^n for n of either sign, where f is 1 and terms of degree at least 1."""
    variables = len(next(iter(f))[0])
    rest = {key: c for key, c in f.items() if degree(key)}
    result, rest_power = {}, one(variables)
    for i in range(limit + 1):
        for key, c in rest_power.items():
            add_to(result, key, binomial(n, i) * c)
        rest_power = times(rest_power, rest, limit)
    return result


def absolute(f):
    """The series of the absolute values."""
    return {key: abs(c) for key, c in f.items()}


def least_degree(f):
    """The least degree of a term other than 1, or None where f is 1."""
    return min((degree(key) for key in f if degree(key)), default=None)
