"""The completion of lines, order by order, straight from the definitions."""
from functools import cmp_to_key
from math import gcd

from second.plane import Wall, cut_walls, first_degrees, is_near, is_on, live_walls, meet, place, point_of
from second.series import add_to, det, monomial, one, power, times


def lines_of(file):
    """The walls that the lines of an input stand for."""
    walls = []
    for line in file.lines:
        function = one(file.variables)
        for term in line.terms:
            exponent = tuple(term.multiple * d for d in line.direction)
            add_to(function, (term.powers, exponent), term.coefficient)
        walls.append(Wall(True, point_of(*line.at), line.direction, function))
    return walls


def active_points(walls, order):
    """Where two live walls that aren't parallel meet whose least degrees sum to at most the order."""
    live = live_walls(walls, order)
    degrees = first_degrees(live)
    points = set()
    for i, one_wall in enumerate(live):
        for j in range(i):
            other = live[j]
            if degrees[i] + degrees[j] > order or det(one_wall.direction, other.direction) == 0:
                continue
            p = meet(one_wall.at, one_wall.direction, other.at, other.direction)
            if is_on(one_wall, p) and is_on(other, p):
                points.add(p)
    return points


def turn(d, e):
    """Compares two directions by angle, counter-clockwise from (1, 0)."""
    upper_d, upper_e = ((b, a) > (0, 0) for a, b in (d, e))
    if upper_d != upper_e:
        return -1 if upper_d else 1
    return -det(d, e)


def half_walls(walls, p):
    """The half-lines from p in the supports of walls, each as its direction, its wall and its sign."""
    halves = []
    for wall in walls:
        if not is_on(wall, p):
            continue
        along = wall.direction
        against = (-along[0], -along[1])
        if wall.is_line or wall.at != p:
            halves.append((along, wall, -1))
        halves.append((against, wall, 1))
    return sorted(halves, key=cmp_to_key(lambda g, h: turn(g[0], h[0])))


def crossed(series, wall, sign, order):
    """z^m becomes z^m * f^(sign * det(direction, m))."""
    result = {}
    powers = {}
    for (t, m), c in series.items():
        n = sign * det(wall.direction, m)
        if n not in powers:
            powers[n] = power(wall.function, n, order)
        for key, e in times({(t, m): c}, powers[n], order).items():
            add_to(result, key, e)
    return result


def image(halves, m, variables, order):
    """The image of z^m under all half-walls, the first one first."""
    series = monomial(m, variables)
    for _, wall, sign in halves:
        series = crossed(series, wall, sign, order)
    return series


def correction(walls, p, variables, order):
    """The h of this degree where the image of z^m is z^m + {h, z^m}, {z^a, z^b} = det(a, b) * z^(a+b).

    Its coefficients are fractions, each as a pair.
    """
    halves = half_walls(walls, p)
    h = {}
    for m in ((1, 0), (0, 1)):
        for (t, e), c in image(halves, m, variables, order).items():
            a = (e[0] - m[0], e[1] - m[1])
            if sum(t) != order or det(a, m) == 0:
                continue
            h[(t, a)] = (c, det(a, m))
    return h


def next_rays(rays, walls, points, variables, order):
    """The rays with what the corrections at the points add: -g*c at z^m, g = gcd(m), along m/g."""
    rays = {place_of: dict(function) for place_of, function in rays.items()}
    for p in points:
        for (t, m), (c, d) in correction(walls, p, variables, order).items():
            g = gcd(*m)
            value = -g * c
            assert value % d == 0, "a correction isn't whole"
            key = (p, (m[0] // g, m[1] // g))
            add_to(rays.setdefault(key, one(variables)), (t, m), value // d)
    return {key: function for key, function in rays.items() if len(function) > 1}


def walls_of(lines, rays, order):
    """The lines, cut to the order, and the rays by start, then direction."""
    in_order = sorted(rays, key=lambda key: (place(key[0]), key[1]))
    return cut_walls(lines, order) + [Wall(False, p, d, rays[(p, d)]) for p, d in in_order]


def completions(file, order):
    """The completions of orders 0, 1, .. up to the order, and the first stop as (J, CAUSE) or None.

    Only the stop for points is told; the inputs of the scripts stay away from the other two.
    """
    lines, rays = lines_of(file), {}
    walls = walls_of(lines, rays, 0)
    done = [walls]
    for n in range(1, order + 1):
        raised = cut_walls(lines, n) + walls[len(lines):]
        points = active_points(raised, n)
        if not all(is_near(p) for p in points):
            return done, (n, "points")
        rays = next_rays(rays, raised, points, file.variables, n)
        walls = walls_of(lines, rays, n)
        done.append(walls)
    return done, None
