"""Reads the JSON form: the file that the bytes say, or Fault with `json syntax` or `json shape`.

Python's module json takes a little more than the standard of JSON; what it takes too much is refused here.
"""
import json
import math

from second.text import Fault, File, Line, Term, coordinate, is_primitive, number, term_fault

DEEPEST = 127


class Pairs(list):
    """The keys and values of an object, as they stand."""


class NotJson(ValueError):
    """Something that Python's reader takes and JSON doesn't have."""


def refuse_constant(name):
    """NaN and Infinity are no JSON."""
    raise NotJson(name)


def read_float(digits):
    """A number with a point or an exponent."""
    value = float(digits)
    if math.isinf(value):
        raise NotJson(digits)
    return value


def read_int(digits):
    """A whole number: JSON's -0 is no integer, nor is one that doesn't fit 64 bits."""
    if digits == "-0" or len(digits) > 400:
        return read_float(digits)
    value = int(digits)
    return value if -2 ** 63 <= value < 2 ** 64 else read_float(digits)


def check_value(value, depth):
    """Raises NotJson where a value is nested too deep, or a text of it is no text of Unicode."""
    if isinstance(value, str):
        if any(0xD800 <= ord(c) <= 0xDFFF for c in value):
            raise NotJson(value)
    elif isinstance(value, list):
        if depth > DEEPEST:
            raise NotJson(depth)
        inner = [x for pair in value for x in pair] if isinstance(value, Pairs) else value
        for item in inner:
            check_value(item, depth + 1)


def read_value(data):
    """The value of the bytes, with objects as Pairs."""
    try:
        value = json.loads(
            data.decode("utf-8"),
            object_pairs_hook=Pairs,
            parse_float=read_float,
            parse_int=read_int,
            parse_constant=refuse_constant,
        )
        check_value(value, 1)
        return value
    except (ValueError, RecursionError) as error:
        raise Fault("json syntax") from error


class NotOfForm(Exception):
    """A value isn't of the form."""


def require(holds):
    """Refuses a value where something doesn't hold of it."""
    if not holds:
        raise NotOfForm


def whole(value):
    """A whole number of at most 18 digits."""
    require(isinstance(value, int) and not isinstance(value, bool) and abs(value) < 10 ** 18)
    return value


def array(value, length=None):
    """An array, of so many items where a length is given."""
    require(isinstance(value, list) and not isinstance(value, Pairs))
    require(length is None or len(value) == length)
    return value


def fields(value, keys):
    """The values of exactly these keys."""
    require(isinstance(value, Pairs))
    found = dict(value)
    require(set(found) == set(keys))
    return [found[key] for key in keys]


def spelled(read, value):
    """What a text spells."""
    require(isinstance(value, str))
    found = read(value.encode("utf-8"))
    require(found is not None)
    return found


def term_of(value, variables, earlier):
    """A term, among the earlier ones of its line."""
    coefficient, multiple, powers = array(value, 3)
    read_powers = tuple(whole(power) for power in array(powers, variables))
    term = Term(spelled(number, coefficient), whole(multiple), read_powers)
    require(not term_fault(term, earlier))
    return term


def line_of(value, variables):
    """A line with its terms."""
    at, direction, terms = fields(value, ["at", "dir", "terms"])
    point = tuple(spelled(coordinate, c) for c in array(at, 2))
    line = Line(tuple(whole(d) for d in array(direction, 2)), point, [])
    require(is_primitive(line.direction))
    for term in array(terms):
        line.terms.append(term_of(term, variables, line.terms))
    return line


def read_json(data):
    """The file that the bytes say."""
    value = read_value(data)
    try:
        version, variables, lines = fields(value, ["scatter", "vars", "lines"])
        require(whole(version) == 1 and whole(variables) >= 1)
        return File(variables, [line_of(line, variables) for line in array(lines)], [], None)
    except NotOfForm as error:
        raise Fault("json shape") from error
