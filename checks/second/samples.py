"""Random small inputs: lines in small position, with asks."""
from math import gcd

DIRECTIONS = [(a, b) for a in range(-2, 3) for b in range(-2, 3) if gcd(a, b) == 1]
LARGE = ["549755813888", "1099511627776", "-1099511627775", "1/1099511627776", "-1/549755813881"]


def fraction(rng, denominators, largest):
    """A coordinate in lowest terms, seldom one near the limits."""
    if rng.random() < 0.004:
        return rng.choice(LARGE)
    below = rng.choice(denominators)
    above = rng.randint(-largest, largest)
    divisor = gcd(above, below)
    above, below = above // divisor, below // divisor
    return str(above) if below == 1 else "%d/%d" % (above, below)


def term_lines(rng, variables):
    """One or two terms of a line, of low degree."""
    seen = set()
    for _ in range(rng.choice([1, 1, 1, 2])):
        powers = [0] * variables
        for _ in range(rng.choice([1, 1, 1, 2, 3])):
            powers[rng.randrange(variables)] += 1
        multiple = rng.choice([1, 1, 1, 2])
        if (multiple, tuple(powers)) not in seen:
            seen.add((multiple, tuple(powers)))
            numbers = [rng.choice([-2, -1, 1, 1, 1, 2, 3]), multiple] + powers
            yield "term " + " ".join(map(str, numbers))


def ask_line(rng, readers):
    """An ask of one of the readers, mostly at a point that no wall is on."""
    pairs = rng.choice([1, 1, 2])
    largest = 3 if pairs == 1 else 2
    numbers = [str(rng.randint(-largest, largest)) for _ in range(2 * pairs)]
    denominators = rng.choice([[1], [1, 2, 3], [5, 7, 11], [13, 17, 19]])
    at = [fraction(rng, denominators, 20) for _ in range(2)]
    kind = "theta" if pairs == 1 else "product"
    least = " order %d" % rng.randint(0, 5) if rng.random() < 0.3 else ""
    reader = rng.randint(1, readers)
    return "ask %d %s %s at %s%s" % (reader, kind, " ".join(numbers), " ".join(at), least)


def diagram_lines(rng):
    """The lines of a text that say lines in the plane."""
    variables = rng.randint(1, 3)
    lines = ["scatter 1", "vars %d" % variables]
    for _ in range(rng.choice([0, 1, 2, 2, 2, 3, 3, 4])):
        at = [fraction(rng, [1, 1, 1, 2, 3], 3) for _ in range(2)]
        lines.append("line %d %d at %s %s" % (*rng.choice(DIRECTIONS), *at))
        lines += term_lines(rng, variables)
    return lines


def ask_lines(rng, readers):
    """Some asks, and mostly the word that settles."""
    asks = [ask_line(rng, readers) for _ in range(rng.randint(0, 8))]
    if rng.random() < 0.7:
        asks.insert(rng.randint(0, len(asks)), "settle")
    return asks


def text_of(lines):
    """The text of these lines and the end."""
    return "".join(line + "\n" for line in lines + ["end"])
