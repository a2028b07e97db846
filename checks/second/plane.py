"""Points (x, y, w) in lowest terms, for (x/w, y/w), walls and where they meet."""
from collections import namedtuple
from fractions import Fraction
from math import gcd, lcm

from second.series import cut, det, least_degree

# is_line: a line through the point at, else an outgoing ray that starts there and goes along -direction
Wall = namedtuple("Wall", "is_line at direction function")

LARGEST_COORDINATE = 2 ** 40


def reduced(x, y, w):
    """The point (x/w, y/w) in lowest terms, for w other than 0."""
    divisor = gcd(x, y, w) * (1 if w > 0 else -1)
    return (x // divisor, y // divisor, w // divisor)


def point_of(x, y):
    """The point of two fractions."""
    w = lcm(x.denominator, y.denominator)
    return reduced(int(x * w), int(y * w), w)


def place(p):
    """What points are sorted by: first x, then y."""
    return (Fraction(p[0], p[2]), Fraction(p[1], p[2]))


def is_near(p):
    """Whether no number of the point is above 2^40."""
    return max(abs(n) for n in p) <= LARGEST_COORDINATE


def from_to(p, q):
    """q - p times a positive number."""
    return (q[0] * p[2] - p[0] * q[2], q[1] * p[2] - p[1] * q[2])


def dot(a, b):
    """The inner product."""
    return a[0] * b[0] + a[1] * b[1]


def is_ahead(p, e, q):
    """Whether q is p + s*e with s above 0."""
    way = from_to(p, q)
    return det(way, e) == 0 and dot(way, e) > 0


def is_on(wall, p):
    """Whether a point is on a wall."""
    way = from_to(wall.at, p)
    if det(way, wall.direction) != 0:
        return False
    return wall.is_line or dot(way, wall.direction) <= 0


def meet(p, d, q, e):
    """Where the line through p along d meets that through q along e, which isn't parallel."""
    # a*d + b*e lies on both, where det(d, .) is that of p and det(e, .) that of q
    along_d, along_e = det(d, p[:2]), det(e, q[:2])
    x = along_d * q[2] * e[0] - along_e * p[2] * d[0]
    y = along_d * q[2] * e[1] - along_e * p[2] * d[1]
    return reduced(x, y, det(d, e) * p[2] * q[2])


def is_live(wall):
    """Whether the function isn't 1."""
    return len(wall.function) > 1


def cut_walls(walls, limit):
    """The walls with functions cut to the limit."""
    return [wall._replace(function=cut(wall.function, limit)) for wall in walls]


def live_walls(walls, limit):
    """The walls with functions cut to the limit, those that are live then."""
    return [wall for wall in cut_walls(walls, limit) if is_live(wall)]


def first_degrees(walls):
    """The least degrees of live walls."""
    return [least_degree(wall.function) for wall in walls]
