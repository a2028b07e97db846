#!/usr/bin/env python3
"""Runs whose standard input or output is broken.

    python3 checks/break_streams.py PROGRAM

PROGRAM is the built program (crates/scatter_cli/out/scatter_cli). Standard input is closed, a folder, or a pipe
that gives single bytes; standard output is closed, a full device, or a pipe that nobody reads, with the signal
for it ignored or not. Each run of `complete 2 1`, `theta 2 1` and `complete-json 2 1` must end with the status
and the bytes that are due. The last line has the counts; the status is 1 where a run failed.
"""
import argparse
import os
import subprocess
import sys
from collections import Counter

from refuse_memory import JOBS, ended

SECONDS = 60
READ_FAULT = (5, b"fault read\n")
# nothing can be read of what was printed
WRITE_FAULT = (6, None)


def run(command, standard_in, standard_out, **more):
    """The status and what was printed, where that can be read."""
    done = subprocess.run(command, stdin=standard_in, stdout=standard_out, timeout=SECONDS, **more)
    return done.returncode, done.stdout


def pipe_of(text):
    """What to read from where a text comes byte by byte."""
    feed = "import os, sys\nfor b in sys.argv[1].encode(): os.write(1, bytes([b]))"
    return subprocess.Popen([sys.executable, "-c", feed, text], stdout=subprocess.PIPE).stdout


def unread_pipe():
    """What to write to where nobody reads."""
    reading, writing = os.pipe()
    os.close(reading)
    return writing


def file_of(text):
    """What to read from where a text stands in memory."""
    reading, writing = os.pipe()
    os.write(writing, text.encode())
    os.close(writing)
    return reading


def broken(command, text, due):
    """Each run: what is broken, what came out, and what is due."""
    piped = subprocess.PIPE
    yield "input is a folder", run(command, os.open("/", os.O_RDONLY), piped), READ_FAULT
    full = os.open("/dev/full", os.O_WRONLY)
    yield "input is a folder, output is full", run(command, os.open("/", os.O_RDONLY), full), WRITE_FAULT
    closed_in = {"preexec_fn": lambda: os.close(0)}
    closed_out = {"preexec_fn": lambda: os.close(1)}
    yield "input is closed", run(command, None, piped, **closed_in), READ_FAULT
    yield "input comes byte by byte", run(command, pipe_of(text), piped), due
    yield "output is full", run(command, file_of(text), full), WRITE_FAULT
    yield "output is closed", run(command, file_of(text), None, **closed_out), WRITE_FAULT
    yield "nobody reads", run(command, file_of(text), unread_pipe()), WRITE_FAULT
    ignored = {"restore_signals": False}
    yield "nobody reads, ignored signal", run(command, file_of(text), unread_pipe(), **ignored), WRITE_FAULT


def main():
    """Does the runs and prints the counts."""
    parser = argparse.ArgumentParser(description=__doc__.split("\n")[0])
    parser.add_argument("program")
    options = parser.parse_args()
    counts = Counter()
    for words, text in JOBS[:3]:
        command = [options.program] + words.split()
        due = ended(command, text)[:2]
        for what, seen, wanted in broken(command, text, due):
            counts["runs"] += 1
            if seen != wanted:
                counts["failed"] += 1
                print("%s, %s: %s, and not %s" % (words, what, seen, wanted))
    print("runs: %d, failed: %d" % (counts["runs"], counts["failed"]))
    sys.exit(1 if counts["failed"] else 0)


if __name__ == "__main__":
    main()
