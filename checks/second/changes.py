"""Changes of good inputs."""
import json
import re

from second.text import read_text

NUMBERS = [
    b"0", b"1", b"-1", b"2", b"7", b"8", b"9", b"16", b"17", b"24", b"25", b"64", b"65", b"-64", b"-65", b"255",
    b"256", b"1024", b"1025", b"2147483647", b"-2147483647", b"2147483648", b"1099511627776", b"1099511627777",
    b"-1099511627776", b"999999999999999999", b"-999999999999999999", b"1000000000000000000",
    b"9223372036854775808", b"18446744073709551616", b"340282366920938463463374607431768211456",
    b"-0", b"00", b"04", b"+1", b"1/2", b"-1/3", b"2/4", b"0/3", b"1/1", b"1/0", b"1/-2", b"1/2/3", b"/", b"-",
    b"1099511627776/3", b"1/1099511627776", b"1/1099511627777", b"1e3", b"2.0", b"0x1", b"",
]
VALUES = [
    b"1e400", b"-1e400", b"1e-400", b"1E2", b"1.0", b"-0.0", b"NaN", b"Infinity", b"-Infinity", b"true", b"null",
    b"[]", b"{}", b'"1"', b'"-1"', b'"1/2"', b'"\\u0031"', b'"\\ud800"', b'"\\ud83d\\ude00"', b'"\\/"', b"'1'",
    b"[" * 127 + b"]" * 127, b"[" * 128 + b"]" * 128, b"[" * 124 + b"]" * 124, b"[1,]", b'{"a":1,}', b"1 2", b".5",
]
WORDS = [b"scatter", b"vars", b"line", b"term", b"end", b"ask", b"settle", b"at", b"order", b"theta", b"product"]
BYTES = [b" ", b"\n", b"\r", b"\t", b"\0", b"\x1f", b"~", b"\x7f", b"\x80", b"\xff", b"\xc3\xa9", b"\xef\xbb\xbf"]


def put(data, start, end, piece):
    """The data with another piece in place of that from start to end."""
    return data[:start] + piece + data[end:]


def change_byte(rng, data):
    """Another byte, one bit of it turned, one more or one less."""
    at = rng.randrange(len(data) + 1)
    kind = rng.randrange(4)
    if kind == 0:
        return put(data, at, at + 1, bytes([rng.randrange(256)]))
    if kind == 1 and at < len(data):
        return put(data, at, at + 1, bytes([data[at] ^ 1 << rng.randrange(8)]))
    if kind == 2:
        return put(data, at, at, rng.choice(BYTES))
    return put(data, at, at + 1, b"")


def change_line(rng, data):
    """A line left out, doubled, or put in another's place."""
    lines = data.split(b"\n")
    i, j = rng.randrange(len(lines)), rng.randrange(len(lines))
    kind = rng.randrange(4)
    if kind == 0:
        del lines[i]
    elif kind == 1:
        lines.insert(i, lines[i])
    elif kind == 2:
        lines[i], lines[j] = lines[j], lines[i]
    else:
        lines.insert(j, lines[i])
    return b"\n".join(lines)


def change_number(rng, data):
    """A number replaced by one at a limit, or spelled otherwise."""
    found = list(re.finditer(rb"-?[0-9]+(/[0-9]+)?", data))
    if not found:
        return data
    match = rng.choice(found)
    return put(data, match.start(), match.end(), rng.choice(NUMBERS))


def change_word(rng, data):
    """A word replaced by another, or spelled otherwise."""
    found = list(re.finditer(rb"[a-z]+", data))
    if not found:
        return data
    match = rng.choice(found)
    word = rng.choice(WORDS + [match.group().upper(), match.group() + b"s"])
    return put(data, match.start(), match.end(), word)


def repeat_line(rng, data):
    """A line so often that a limit may be passed."""
    lines = data.split(b"\n")
    i = rng.randrange(len(lines))
    count = rng.choice([2, 8, 15, 16, 17, 63, 64, 65, 400])
    return b"\n".join(lines[:i] + [lines[i]] * count + lines[i + 1:])


def cut_short(rng, data):
    """A prefix."""
    return data[:rng.randrange(len(data) + 1)]


def fill(rng, data):
    """So long that the limit of bytes is met or passed by one."""
    return data + b"\n" * (1048576 + rng.randrange(2) - len(data))


def change_value(rng, data):
    """A value of JSON replaced by another."""
    found = list(re.finditer(rb'-?[0-9]+|"[^"]*"|\[[^\[\]]*\]', data))
    if not found:
        return data
    match = rng.choice(found)
    return put(data, match.start(), match.end(), rng.choice(VALUES))


def double_key(rng, data):
    """A key of an object with a second value before or after it."""
    match = rng.choice(list(re.finditer(rb'"(scatter|vars|lines|at|dir|terms)"', data)) or [None])
    if match is None:
        return data
    return put(data, match.start(), match.start(), match.group() + b": " + rng.choice(VALUES + NUMBERS) + b", ")


TEXT_CHANGES = [change_byte, change_line, change_line, change_number, change_number, change_word, cut_short]
JSON_CHANGES = [change_byte, change_number, change_number, change_value, change_value, double_key, cut_short]


def changed(rng, data, is_json):
    """The data with some changes, seldom with none."""
    changes = JSON_CHANGES if is_json else TEXT_CHANGES
    for _ in range(rng.choice([0, 1, 1, 1, 1, 1, 2, 2, 3, 4])):
        data = rng.choice(changes)(rng, data)
    if rng.random() < 0.02:
        data = repeat_line(rng, data)
    if rng.random() < 0.001:
        data = fill(rng, data)
    return data


def json_of(rng, text):
    """The JSON form of a text without asks, in one of some layouts."""
    file = read_text(text, False)
    lines = [
        {
            "at": [str(c) for c in line.at],
            "dir": line.direction,
            "terms": [[str(t.coefficient), t.multiple, t.powers] for t in line.terms],
        }
        for line in file.lines
    ]
    value = {"scatter": 1, "vars": file.variables, "lines": lines}
    return json.dumps(value, indent=rng.choice([None, 1]), sort_keys=rng.random() < 0.5).encode()


def changed_words(rng, words):
    """The words of a job with a change, or with none."""
    words = list(words)
    kind = rng.randrange(6)
    if kind == 0:
        words.pop(rng.randrange(len(words)))
    elif kind == 1:
        words.insert(rng.randrange(len(words) + 1), rng.choice(words))
    elif kind == 2:
        words = ["generate", rng.choice(["0", "1", "7", "999", "1000000", "1000001", "07", "-1"])]
    elif kind == 3:
        words[rng.randrange(len(words))] = rng.choice(["-h", "--help", "", " ", "é", "COMPLETE", "complete", "--", "1"])
    elif kind == 4:
        words[rng.randrange(1, len(words))] = rng.choice(NUMBERS).decode()
    return words
