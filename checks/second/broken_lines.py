"""Theta functions as sums over broken lines, which are traced backwards from the point where they end."""
from collections import namedtuple

from second.plane import dot, from_to, is_ahead, is_near, is_on, live_walls, meet, place
from second.series import absolute, add_to, degree, det, minus, one, plus, power, times

MOST_REACHED = 2 ** 18
MOST_TAILS = 2 ** 20
LARGEST_WEIGHT = 2 ** 126

# what is known of the walls cut to a limit: the live ones, and the least degree by which an exponent is reached
Setting = namedtuple("Setting", "variables limit walls reach special")

# where a tail stands: its last point and exponent, the degree used, and the product over its bends of powers,
# coefficients and weights
Tail = namedtuple("Tail", "at exponent used powers coefficient weight")


class AskFault(Exception):
    """There is no answer; its words are those of the text of answers."""


def spell(p):
    """A point as two coordinates of the format."""
    return "%s %s" % place(p)


def reaches(walls, limit):
    """The exponents that are sums of those of terms of walls, each with the least sum of degrees."""
    terms = {(degree(key), key[1]) for wall in walls for key in wall.function if degree(key)}
    least = {(0, 0): 0}
    for total in range(limit + 1):
        for exponent in [e for e, d in least.items() if d == total]:
            for d, step in terms:
                reached = plus(exponent, step)
                if total + d <= limit and least.get(reached, limit + 1) > total + d:
                    least[reached] = total + d
    return least


def special_points(walls):
    """Where two live walls that aren't parallel meet, or a live ray starts."""
    points = {wall.at for wall in walls if not wall.is_line}
    for i, wall in enumerate(walls):
        for other in walls[:i]:
            if det(wall.direction, other.direction):
                p = meet(wall.at, wall.direction, other.at, other.direction)
                if is_on(wall, p) and is_on(other, p):
                    points.add(p)
    return points


def setting_of(walls, variables, limit):
    """The setting of walls at a limit."""
    live = live_walls(walls, limit)
    return Setting(variables, limit, live, reaches(live, limit), special_points(live))


def crossings(setting, p, e):
    """The points where the line from p along e meets live walls that aren't parallel, each with those."""
    found = {}
    for wall in setting.walls:
        if det(wall.direction, e) == 0:
            continue
        at = meet(wall.at, wall.direction, p, e)
        if is_ahead(p, e, at) and is_on(wall, at):
            found.setdefault(at, []).append(wall)
    return found


def bend_powers(setting, walls, e):
    """F^n and |F|^n for the product F of the functions of parallel walls, n = |det|."""
    n = abs(det(walls[0].direction, e))
    series = [one(setting.variables), one(setting.variables)]
    for wall in walls:
        functions = (wall.function, absolute(wall.function))
        series = [times(f, g, setting.limit) for f, g in zip(series, functions)]
    return [power(f, n, setting.limit) for f in series]


def bends(setting, m, tail, at, walls):
    """The tails that go on from this one with a bend at the point, within reach of m."""
    exact, majorant = bend_powers(setting, walls, tail.exponent)
    masses = [sum(c for key, c in majorant.items() if degree(key) <= d) for d in range(setting.limit + 1)]
    for key in majorant:
        before = minus(tail.exponent, key[1])
        used = tail.used + degree(key)
        left = setting.reach.get(minus(before, m))
        if degree(key) and left is not None and used + left <= setting.limit:
            coefficient = tail.coefficient * exact.get(key, 0)
            weight = tail.weight * masses[degree(key)]
            yield Tail(at, before, used, plus(tail.powers, key[0]), coefficient, weight)


class Trace:
    """All tails for m at a point, and what they meet."""

    def __init__(self, setting, m, q):
        self.setting, self.m = setting, m
        self.theta, self.count, self.weight = {}, 0, 0
        self.met, self.is_far = set(), False
        for step in setting.reach:
            root = plus(m, step)
            if root != (0, 0):
                self.root = root
                self.follow(Tail(q, root, 0, (0,) * setting.variables, 1, 1))

    def follow(self, tail):
        """Counts a tail and goes on from it with each bend."""
        self.count += 1
        if self.count > MOST_TAILS:
            raise AskFault("too-many-tails")
        self.weight += tail.weight
        if tail.exponent == self.m:
            add_to(self.theta, (tail.powers, self.root), tail.coefficient)
        self.pass_special(tail)
        for at, walls in crossings(self.setting, tail.at, tail.exponent).items():
            if not is_near(at):
                self.is_far = True
            elif at not in self.setting.special:
                for longer in bends(self.setting, self.m, tail, at, walls):
                    self.follow(longer)

    def pass_special(self, tail):
        """Keeps the special points on the stretch from which the tail goes on."""
        e = tail.exponent
        for p in self.setting.special:
            way = from_to(tail.at, p)
            if det(way, e) == 0 and dot(way, e) > 0:
                self.met.add(p)


class Asked:
    """The thetas at a point among the walls of a completion, each traced once."""

    def __init__(self, walls, variables, q):
        self.walls, self.variables, self.q = walls, variables, q
        self.settings, self.thetas = {}, {}

    def setting(self, limit):
        """The setting at this limit."""
        if limit not in self.settings:
            self.settings[limit] = setting_of(self.walls, self.variables, limit)
        return self.settings[limit]

    def theta(self, m, limit):
        """The theta of m at this limit and its weight, or AskFault."""
        if (m, limit) not in self.thetas:
            try:
                self.thetas[(m, limit)] = self.traced(m, limit)
            except AskFault as fault:
                self.thetas[(m, limit)] = fault
        found = self.thetas[(m, limit)]
        if isinstance(found, AskFault):
            raise found
        return found

    def traced(self, m, limit):
        """The same, with the checks in the order of the definition."""
        setting = self.setting(limit)
        if any(is_on(wall, self.q) for wall in setting.walls):
            raise AskFault("not-generic " + spell(self.q))
        if m == (0, 0):
            return one(self.variables), 1
        if len(setting.reach) > MOST_REACHED:
            raise AskFault("too-many-reach")
        trace = Trace(setting, m, self.q)
        if trace.is_far:
            raise AskFault("point-too-large")
        if trace.weight > LARGEST_WEIGHT:
            raise AskFault("weight-too-large")
        if trace.met:
            raise AskFault("not-generic " + spell(min(trace.met, key=place)))
        return trace.theta, trace.weight

    def product(self, l, r, limit):
        """The family whose sum of a_r * theta_r is the product of two thetas, as a dictionary of r."""
        (left, left_weight), (right, right_weight) = self.theta(l, limit), self.theta(r, limit)
        running = left_weight * right_weight
        if running > LARGEST_WEIGHT:
            raise AskFault("weight-too-large")
        rest = times(left, right, limit)
        family = {}
        begun = {}
        for d in range(limit + 1):
            terms = {key: c for key, c in rest.items() if degree(key) == d}
            for exponent in sorted({key[1] for key in terms}):
                begun.setdefault(exponent, d)
                self.theta(exponent, limit - begun[exponent])
            for (t, exponent), c in terms.items():
                theta, weight = self.theta(exponent, limit - begun[exponent])
                running += abs(c) * weight
                family.setdefault(exponent, {})[(t, (0, 0))] = c
                for key, e in times({(t, (0, 0)): c}, theta, limit).items():
                    add_to(rest, key, -e)
            if running > LARGEST_WEIGHT:
                raise AskFault("weight-too-large")
        return family
