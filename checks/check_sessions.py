#!/usr/bin/env python3
"""Random sessions, each answer compared with a second implementation.

    python3 checks/check_sessions.py PROGRAM --runs N [--seed S] [--first I] [--job session|theta]

PROGRAM is the built program (crates/scatter_cli/out/scatter_cli). Each run makes a few lines and asks from
the seed and its number, runs `PROGRAM session ORDER WORKERS READERS` on them and checks of the output what
docs/FORMATS.md and docs/DEFINITIONS.md allow: each answer names an order that isn't above the published one,
nor below that of the same reader's answer before, and is the published one after `settle`; `not-yet` stands
exactly where the order is below the one that the ask wants; else the answer is exactly that of the folder
`second` at this order. With `--job theta` the words are `theta ORDER WORKERS` and every order is the last one.

Runs that the program ends with a stop for weights or walls are counted and skipped, as the second
implementation doesn't know these; a run of more than 60 seconds is a failure. The last line has the counts;
the status is 1 where a run failed, and then its words, input and output were printed.
"""
import argparse
import random
import subprocess
import sys
from collections import Counter

from second.answers import Answers
from second.completion import completions
from second.limits import first_limit
from second.samples import ask_lines, diagram_lines, text_of
from second.text import read_text

SECONDS = 60


class Unlike(Exception):
    """The output isn't what is allowed."""


def require(holds, why):
    """Refuses the output where something doesn't hold."""
    if not holds:
        raise Unlike(why)


def take(lines, what):
    """The next line, without the word that it has to begin with."""
    require(lines and lines[0].startswith(what), "no line " + what)
    return lines.pop(0)[len(what):]


def answer_blocks(lines):
    """The answers in order, each as its order and its lines without `answer I order E `."""
    blocks = []
    while lines and lines[0] != "end":
        first = take(lines, "answer %d order " % (len(blocks) + 1))
        order, _, rest = first.partition(" ")
        block = [rest]
        while lines and not lines[0].startswith("answer ") and lines[0] != "end":
            block.append(lines.pop(0))
        blocks.append((int(order), block))
    require(lines == ["end"], "the text doesn't end with the line end")
    return blocks


def check_orders(file, orders, last, is_theta):
    """The orders of the answers are among those that a session allows."""
    seen = Counter()
    for i, (ask, order) in enumerate(zip(file.asks, orders)):
        is_settled = is_theta or (file.settle is not None and i >= file.settle)
        require(order <= last, "answer %d is in an order that wasn't published" % (i + 1))
        require(order >= seen[ask.reader], "answer %d falls back" % (i + 1))
        require(order == last or not is_settled, "answer %d isn't in the last order" % (i + 1))
        seen[ask.reader] = order


def check_output(file, order, status, output, is_theta):
    """Compares the text of answers with what is allowed, and gives the last order and the answers."""
    require(output.endswith("\n"), "the text doesn't end with a line feed")
    lines = output[:-1].split("\n")
    done, stop = completions(file, order)
    last = len(done) - 1
    require(take(lines, "answers ") == "1", "another version")
    require(take(lines, "published ") == str(last), "the last order isn't %d" % last)
    if stop:
        require(take(lines, "stopped ") == "%d %s" % stop, "another stop")
    require(status == (4 if stop else 0), "the status is %d" % status)
    blocks = answer_blocks(lines)
    require(len(blocks) == len(file.asks), "another number of answers")
    check_orders(file, [order for order, _ in blocks], last, is_theta)
    answers = Answers(file, done)
    for i, (at, block) in enumerate(blocks, 1):
        require(block == answers.lines(i, at), "answer %d differs" % i)
    return last, blocks


def count(counts, last, blocks):
    """Adds the answers to the counts."""
    for order, block in blocks:
        counts["answers"] += 1
        counts["answers below the last order"] += order < last
        counts[" ".join(block[0].split()[:2])] += 1
    counts["answers that aren't in one order"] += len({order for order, _ in blocks}) > 1


def run(options, number, counts):
    """One session: True where its output is allowed, or was skipped."""
    rng = random.Random("%d %d" % (options.seed, number))
    is_theta = options.job == "theta"
    readers = 1 if is_theta else rng.randint(1, 8)
    order, workers = rng.randint(0, 4), rng.randint(1, 16)
    text = text_of(diagram_lines(rng) + ask_lines(rng, readers))
    words = [options.job, str(order), str(workers)] + ([] if is_theta else [str(readers)])
    command = [options.program] + words
    try:
        done = subprocess.run(command, input=text.encode(), stdout=subprocess.PIPE, timeout=SECONDS)
        output = done.stdout.decode("ascii")
        if done.returncode == 4 and ("weights\n" in output or "walls\n" in output):
            counts["skipped"] += 1
            return True
        file = read_text(text.encode(), True)
        limit = first_limit(file, order, readers)
        if limit:
            require((done.returncode, output) == (3, "fault limit %s\n" % limit), "no limit " + limit)
            counts["refused"] += 1
            return True
        count(counts, *check_output(file, order, done.returncode, output, is_theta))
        counts["stopped"] += done.returncode == 4
        return True
    except subprocess.TimeoutExpired:
        why, output = "more than %d seconds" % SECONDS, ""
    except Unlike as error:
        why = str(error)
    print("run %d, %s: %s\n%s\n%s" % (number, " ".join(words), why, text, output))
    return False


def main():
    """Runs the sessions and prints the counts."""
    parser = argparse.ArgumentParser(description=__doc__.split("\n")[0])
    parser.add_argument("program")
    parser.add_argument("--runs", type=int, required=True)
    parser.add_argument("--seed", type=int, default=1)
    parser.add_argument("--first", type=int, default=1)
    parser.add_argument("--job", choices=["session", "theta"], default="session")
    options = parser.parse_args()
    counts = Counter()
    for number in range(options.first, options.first + options.runs):
        counts["runs"] += 1
        counts["failed"] += not run(options, number, counts)
    print(", ".join("%s: %d" % item for item in sorted(counts.items())))
    sys.exit(1 if counts["failed"] else 0)


if __name__ == "__main__":
    main()
