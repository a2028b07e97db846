"""The texts of a diagram and of answers, by the second implementation."""
from second.broken_lines import Asked, AskFault, spell
from second.plane import point_of


def words(numbers):
    """Numbers between spaces."""
    return " ".join(str(n) for n in numbers)


def multiple_of(exponent, direction):
    """The J with exponent = J * direction."""
    place = 0 if direction[0] else 1
    return exponent[place] // direction[place]


def terms_of(wall):
    """The terms of a wall's function other than 1, each as J, powers and coefficient, in order."""
    terms = [(multiple_of(e, wall.direction), t, c) for (t, e), c in wall.function.items()]
    return sorted(term for term in terms if sum(term[1]))


def wall_lines(wall):
    """The lines of a text for a wall."""
    name = "line" if wall.is_line else "ray"
    yield "%s %s at %s" % (name, words(wall.direction), spell(wall.at))
    for j, powers, c in terms_of(wall):
        yield "term %s" % words((c, j) + powers)


def diagram_text(file, walls, order, stop):
    """The text of a completion."""
    lines = ["scatter 1", "vars %d" % file.variables, "order %d" % order]
    lines += [line for wall in walls for line in wall_lines(wall)]
    lines.append("stopped %d %s" % stop if stop else "end")
    return "".join(line + "\n" for line in lines)


def series_lines(series):
    """The terms of a series by exponent, then by powers."""
    for (powers, exponent), c in sorted(series.items(), key=lambda term: (term[0][1], term[0][0])):
        yield "term %s" % words((c,) + exponent + powers)


def family_lines(family):
    """The series of a family, by exponent."""
    for exponent, series in sorted(family.items()):
        yield "theta %s" % words(exponent)
        for (powers, _), c in sorted(series.items()):
            yield "term %s" % words((c,) + powers)


class Answers:
    """The answers to the asks of a file, each at any order."""

    def __init__(self, file, done):
        self.file, self.done, self.asked = file, done, {}

    def lines(self, i, order):
        """What follows on `answer I order E `, and the lines after it, for ask i counted from 1."""
        ask = self.file.asks[i - 1]
        if order < ask.least:
            return ["fault not-yet %d" % order]
        at = (ask.at, order)
        if at not in self.asked:
            self.asked[at] = Asked(self.done[order], self.file.variables, point_of(*ask.at))
        try:
            if len(ask.exponents) == 2:
                family = self.asked[at].product(*ask.exponents, order)
                return ["product"] + list(family_lines(family))
            return ["series"] + list(series_lines(self.asked[at].theta(ask.exponents[0], order)[0]))
        except AskFault as fault:
            return ["fault %s" % fault]


def answers_text(answers, last, stop):
    """The text of answers that are all in the last order."""
    lines = ["answers 1", "published %d" % last]
    if stop:
        lines.append("stopped %d %s" % stop)
    for i in range(1, len(answers.file.asks) + 1):
        first, *rest = answers.lines(i, last)
        lines.append("answer %d order %d %s" % (i, last, first))
        lines += rest
    return "".join(line + "\n" for line in lines + ["end"])


def wall_value(wall):
    """A wall as a value of JSON."""
    return {
        "at": spell(wall.at).split(),
        "dir": list(wall.direction),
        "terms": [[str(c), j, list(powers)] for j, powers, c in terms_of(wall)],
    }


def diagram_value(file, walls, order, stop):
    """A completion as a value of JSON."""
    value = {
        "lines": [wall_value(wall) for wall in walls if wall.is_line],
        "order": order,
        "rays": [wall_value(wall) for wall in walls if not wall.is_line],
        "scatter": 1,
        "stopped": list(stop) if stop else None,
        "vars": file.variables,
    }
    return {key: value for key, value in value.items() if value is not None}
