#!/usr/bin/env python3
"""Changed inputs of every job, each output compared with a second reader.

    python3 checks/fuzz_texts.py PROGRAM --runs N [--seed S] [--first I] [--session]

PROGRAM is the built program (crates/scatter_cli/out/scatter_cli). Each run makes a small good input of a job
from the seed and its number, changes it (bytes, lines, numbers, cuts), mostly more than once, and gives it to
the program. Then:

- The program ends by itself within 60 seconds, with a status of the README's table, and the text that belongs
  to it.
- Whether the text or the JSON value is bad, at which line and how, and which limit is passed, the readers of
  the folder `second` decide from docs/FORMATS.md alone, and the program says the same.
- Where the input is good and still small, the folder `second` computes the whole text, and it is the same;
  where it is good and large, the text has its form.

In one run of twenty the words are changed, not the input. The job `session` is tried with --session. The last
line has the counts; the status is 1 where a run failed, and then its words, input and output were printed.
"""
import argparse
import json
import random
import re
import subprocess
import sys
from collections import Counter

from second.answers import Answers, answers_text, diagram_text, diagram_value
from second.changes import changed, changed_words, json_of
from second.completion import completions
from second.form import read_json
from second.limits import MOST_BYTES, first_limit
from second.samples import ask_lines, diagram_lines, text_of
from second.text import Fault, read_text
from second.words import is_job

SECONDS = 60
STOP = rb"stopped [1-9]\d* (points|weights|walls)\n"
NUMBER = rb"(0|-?[1-9]\d*)"
COORDINATE = NUMBER + rb"(/[1-9]\d*)?"
TERM = rb"(term( " + NUMBER + rb")+\n)"
WALL = rb"((line|ray) %s %s at %s %s\n" % (NUMBER, NUMBER, COORDINATE, COORDINATE) + TERM + rb"*)"
DIAGRAM = rb"scatter 1\nvars \d\norder \d+\n" + WALL + rb"*"
FAULT = (
    rb"fault (not-yet \d+|not-generic %s %s|too-many-reach|too-many-tails|point-too-large|weight-too-large)\n"
    % (COORDINATE, COORDINATE)
)
FAMILY = rb"product\n(theta %s %s\n" % (NUMBER, NUMBER) + TERM + rb"+)*"
ANSWER = rb"(answer \d+ order \d+ (series\n" + TERM + rb"*|" + FAMILY + rb"|" + FAULT + rb"))"
FORMS = {
    "complete": (DIAGRAM + rb"end\n", DIAGRAM + STOP),
    "theta": (
        rb"answers 1\npublished \d+\n" + ANSWER + rb"*end\n",
        rb"answers 1\npublished \d+\n" + STOP + ANSWER + rb"*end\n",
    ),
    "generate": (
        rb"generated \d+\norder \d\nrays \d+\nterms \d+\nend\n",
        rb"generated \d+\norder \d\nrays \d+\nterms \d+\n" + STOP,
    ),
}


def is_of_form(job, status, output):
    """Whether a text is one that belongs to a job that was done (0) or stopped (4)."""
    if job == "complete-json":
        return ("stopped" in json.loads(output)) == (status == 4) and output.endswith(b"}\n")
    form = FORMS["theta" if job == "session" else job][0 if status == 0 else 1]
    return re.fullmatch(form, output) is not None


def refusal(words, data):
    """The status and the text where the second reader refuses, or None and the file."""
    job, order = words[0], int(words[1])
    if len(data) > MOST_BYTES:
        return (3, b"fault limit bytes\n"), None
    try:
        file = read_json(data) if job == "complete-json" else read_text(data, job in ("theta", "session"))
    except Fault as fault:
        return (2, b"fault %s\n" % str(fault).encode()), None
    limit = first_limit(file, order, int(words[3]) if job == "session" else 1)
    return ((3, b"fault limit %s\n" % limit.encode()), None) if limit else (None, file)


def is_small(file):
    """Whether the second implementation computes all of a file soon, with no stop for weights or walls."""
    terms = [term for line in file.lines for term in line.terms]
    small_lines = len(file.lines) <= 4 and all(max(map(abs, line.direction)) <= 3 for line in file.lines)
    small_terms = len(terms) <= 8 and all(abs(t.coefficient) <= 9 and t.multiple <= 3 for t in terms)
    exponents = [n for ask in file.asks for pair in ask.exponents for n in pair]
    return small_lines and small_terms and len(file.asks) <= 9 and all(abs(n) <= 3 for n in exponents)


def due(job, file, order):
    """The status and text that are due for a small file."""
    done, stop = completions(file, order)
    last = len(done) - 1
    status = 4 if stop else 0
    if job == "complete":
        return status, diagram_text(file, done[last], last, stop).encode()
    if job == "complete-json":
        value = diagram_value(file, done[last], last, stop)
        return status, (json.dumps(value, separators=(",", ":")) + "\n").encode()
    return status, answers_text(Answers(file, done), last, stop).encode()


def verdict(words, data, status, output):
    """What was seen of a run on good words: one word, which begins with `wrong` where it isn't right."""
    refused, file = refusal(words, data)
    if status == 7:
        return "memory" if output == b"" else "wrong: bytes without memory"
    if refused:
        name = " ".join(refused[1].decode().split()[:2])
        return name if (status, output) == refused else "wrong: due is %s" % (refused,)
    job, order = words[0], int(words[1])
    if status not in (0, 4) or not is_of_form(job, status, output):
        return "wrong: the input is good"
    if job != "session" and is_small(file):
        return "good, equal" if due(job, file, order) == (status, output) else "wrong: another text is due"
    return "good"


def word_verdict(words, status, output, with_session):
    """The same where the words were changed and the input is empty."""
    if not is_job(words, with_session):
        return "fault words" if (status, output) == (1, b"fault words\n") else "wrong: no job"
    if words[0] == "generate":
        return "good" if status in (0, 4) and is_of_form("generate", status, output) else "wrong: a job"
    return verdict(words, b"", status, output)


def good_words(rng, with_session):
    """A job with a small order."""
    jobs = ["complete", "theta", "theta", "complete-json"] + ["session"] * with_session
    words = [rng.choice(jobs), str(rng.randint(0, 3)), str(rng.randint(1, 4))]
    return words + [str(rng.randint(1, 4))] if words[0] == "session" else words


def input_of(rng, job):
    """A changed input of a job."""
    lines = diagram_lines(rng)
    if job == "complete-json":
        return changed(rng, json_of(rng, text_of(lines).encode()), True)
    asks = ask_lines(rng, 1 if job == "theta" else 4) if job != "complete" else []
    return changed(rng, text_of(lines + asks).encode(), False)


def run(options, number):
    """One run: what was seen."""
    rng = random.Random("%d %d" % (options.seed, number))
    words, data = good_words(rng, options.session), b""
    with_words = rng.random() < 0.05
    if with_words:
        words = changed_words(rng, words)
    else:
        data = input_of(rng, words[0])
    try:
        command = [options.program] + words
        done = subprocess.run(command, input=data, stdout=subprocess.PIPE, timeout=SECONDS)
        status, output = done.returncode, done.stdout
        if with_words:
            seen = word_verdict(words, status, output, options.session)
        else:
            seen = verdict(words, data, status, output)
    except subprocess.TimeoutExpired:
        seen, status, output = "wrong: more than %d seconds" % SECONDS, None, b""
    if seen.startswith("wrong"):
        print("run %d, %r: %s\n%r\nstatus %s, %r" % (number, words, seen, data, status, output), flush=True)
        return "failed"
    return words[0] + ": " + seen if is_job(words, True) else seen


def main():
    """Does the runs and prints the counts."""
    parser = argparse.ArgumentParser(description=__doc__.split("\n")[0])
    parser.add_argument("program")
    parser.add_argument("--runs", type=int, required=True)
    parser.add_argument("--seed", type=int, default=1)
    parser.add_argument("--first", type=int, default=1)
    parser.add_argument("--session", action="store_true")
    options = parser.parse_args()
    counts = Counter(run(options, options.first + i) for i in range(options.runs))
    print("runs: %d, " % options.runs + ", ".join("%s: %d" % item for item in sorted(counts.items())))
    sys.exit(1 if counts["failed"] else 0)


if __name__ == "__main__":
    main()
