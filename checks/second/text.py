"""Reads the text form: the file that a text says, or its first fault. The limits are in limits.py."""
import re
from collections import namedtuple
from fractions import Fraction
from math import gcd

NUMBER = re.compile(rb"(0|-?[1-9][0-9]{0,17})\Z")

# powers is a tuple with one number a variable
Term = namedtuple("Term", "coefficient multiple powers")
# at is a pair of fractions, terms a list
Line = namedtuple("Line", "direction at terms")
# exponents is a list of one pair (theta) or two (product); least is 0 where none is wanted
Ask = namedtuple("Ask", "reader exponents at least")
# settle is the number of asks before the word, or None
File = namedtuple("File", "variables lines asks settle")


class Fault(Exception):
    """A text is bad: its words are `text LINE KIND` or `json KIND`."""


def number(token):
    """The number that a token spells, or None."""
    return int(token) if NUMBER.match(token) else None


def coordinate(token):
    """The fraction that a token spells, or None."""
    parts = token.split(b"/")
    numbers = [number(part) for part in parts]
    if None in numbers or len(parts) > 2:
        return None
    if len(parts) == 1:
        return Fraction(numbers[0])
    above, below = numbers
    return Fraction(above, below) if below >= 2 and gcd(above, below) == 1 else None


def term_fault(term, earlier):
    """Whether a term breaks a rule on values, among the earlier ones of its line."""
    bad_powers = min(term.powers) < 0 or not any(term.powers)
    twice = any((t.multiple, t.powers) == (term.multiple, term.powers) for t in earlier)
    return term.coefficient == 0 or term.multiple < 1 or bad_powers or twice


def is_primitive(direction):
    """Whether two numbers have no common divisor but 1."""
    return gcd(*direction) == 1


class Reader:
    """Reads line after line and keeps what was read."""

    def __init__(self, with_asks):
        self.with_asks = with_asks
        self.place = "start"
        self.variables = None
        self.lines = []
        self.asks = []
        self.settle = None

    def allowed(self):
        """The words that may begin the next line."""
        asks = [b"ask", b"settle"] if self.with_asks else []
        return {
            "start": [b"scatter"],
            "version": [b"vars"],
            "lines": [b"line", b"end"] + asks,
            "terms": [b"term", b"line", b"end"] + asks,
            "asks": [b"end"] + asks,
            "after": [],
        }[self.place]

    def read(self, line):
        """Takes a line whose bytes are good, or answers the kind of its fault."""
        if line == b"" or line[:1] == b" " or line[-1:] == b" " or b"  " in line:
            return "shape"
        tokens = line.split(b" ")
        if tokens[0] not in self.allowed():
            return "word"
        return getattr(self, "read_" + tokens[0].decode())(tokens)

    def read_scatter(self, tokens):
        """The version."""
        if len(tokens) != 2:
            return "count"
        version = number(tokens[1])
        if version is None:
            return "number"
        self.place = "version"
        return None if version == 1 else "value"

    def read_vars(self, tokens):
        """The number of variables."""
        if len(tokens) != 2:
            return "count"
        self.variables = number(tokens[1])
        if self.variables is None:
            return "number"
        self.place = "lines"
        return None if self.variables >= 1 else "value"

    def read_line(self, tokens):
        """A line in the plane, without terms yet."""
        if len(tokens) != 6 or tokens[3] != b"at":
            return "count"
        direction = tuple(number(t) for t in tokens[1:3])
        at = tuple(coordinate(t) for t in tokens[4:6])
        if None in direction + at:
            return "number"
        self.lines.append(Line(direction, at, []))
        self.place = "terms"
        return None if is_primitive(direction) else "value"

    def read_term(self, tokens):
        """A term of the line that stands last."""
        if len(tokens) != 3 + self.variables:
            return "count"
        numbers = [number(t) for t in tokens[1:]]
        if None in numbers:
            return "number"
        term = Term(numbers[0], numbers[1], tuple(numbers[2:]))
        terms = self.lines[-1].terms
        fault = term_fault(term, terms)
        terms.append(term)
        return "value" if fault else None

    def read_ask(self, tokens):
        """An ask: how many exponents it has stands in its third token."""
        pairs = {b"theta": 1, b"product": 2}.get(tokens[2] if len(tokens) > 2 else None)
        if pairs is None:
            return "count"
        at = 3 + 2 * pairs
        with_order = len(tokens) == at + 5 and tokens[at + 3] == b"order"
        if len(tokens) != at + 3 and not with_order or tokens[at] != b"at":
            return "count"
        exponents = [number(t) for t in tokens[3:at]]
        least = number(tokens[-1]) if with_order else 0
        reader = number(tokens[1])
        point = tuple(coordinate(t) for t in tokens[at + 1:at + 3])
        if None in [reader, least, *exponents, *point]:
            return "number"
        self.asks.append(Ask(reader, list(zip(exponents[::2], exponents[1::2])), point, least))
        self.place = "asks"
        return None if reader >= 1 and least >= 0 else "value"

    def read_settle(self, tokens):
        """From here on the asks are answered in the last order."""
        if len(tokens) != 1:
            return "count"
        if self.settle is not None:
            return "value"
        self.settle = len(self.asks)
        self.place = "asks"
        return None

    def read_end(self, tokens):
        """The end."""
        self.place = "after"
        return "count" if len(tokens) != 1 else None


def read_text(data, with_asks):
    """The file that the bytes say, or Fault with the first bad line, counted from 1, and its kind."""
    *lines, last = data.split(b"\n")
    reader = Reader(with_asks)
    for count, line in enumerate(lines, 1):
        is_printable = all(32 <= byte <= 126 for byte in line)
        fault = reader.read(line) if is_printable else "byte"
        if fault:
            raise Fault("text %d %s" % (count, fault))
    if last:
        raise Fault("text %d unfinished" % (len(lines) + 1))
    if reader.place != "after":
        raise Fault("text %d missing" % (len(lines) + 1))
    return File(reader.variables, reader.lines, reader.asks, reader.settle)
