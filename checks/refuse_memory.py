#!/usr/bin/env python3
"""Small runs in which memory is refused, at each place in turn.

    python3 checks/refuse_memory.py PROGRAM [--session] [--limits L]
    python3 checks/refuse_memory.py PROGRAM [--session] --try FROM TO

PROGRAM is the built program (crates/scatter_cli/out/scatter_cli). Every run must end as the run does that has
ample memory, with the same status and the same bytes, or with the status 7 and nothing printed.

- The Nth call of malloc is refused, for N = 1, 2, .. until a run makes fewer calls; and the Nth and all after
  it. For this a small library is built by `cc` and loaded before libc.
- The address space is limited (as by `ulimit -v`), for L limits (1000) between the least one under which the
  program comes to `main` at all and somewhat above the least one under which the run gets through. A run that
  didn't come to `main` is counted apart.
- With --try the Nth allocation is refused by `rt try --fail-alloc N` instead, for N from FROM to TO, until a
  run gets through: that is the program before any proof, built anew for each N, a minute or more each time.

The last line has the counts; the status is 1 where a run failed.
"""
import argparse
import os
import resource
import subprocess
import sys
import tempfile
from collections import Counter

SECONDS = 120
PAGE = 4096

LIBRARY = r"""
#define _GNU_SOURCE
#include <dlfcn.h>
#include <stdatomic.h>
#include <stdlib.h>
#include <unistd.h>

static void *(*granted)(size_t);
static atomic_long calls;
static long first, last;

__attribute__((constructor)) static void begin(void) {
  granted = (void *(*)(size_t))dlsym(RTLD_NEXT, "malloc");
  first = atol(getenv("REFUSED_FROM"));
  last = atol(getenv("REFUSED_TO"));
  atomic_store(&calls, 0);
}

void *malloc(size_t size) {
  if (!granted) granted = (void *(*)(size_t))dlsym(RTLD_NEXT, "malloc");
  long n = atomic_fetch_add(&calls, 1) + 1;
  if (first <= n && n <= last) {
    if (write(2, "refused\n", 8) < 0) _exit(99);
    return NULL;
  }
  return granted(size);
}
"""

LINES = "scatter 1\nvars 2\nline 1 0 at 0 0\nterm 1 1 1 0\nline 0 1 at 0 0\nterm 1 1 0 1\n"
ASKS = "ask 1 theta -1 -1 at 2 1\nask 1 product -1 0 0 -1 at 2 1\n"
CUBES = LINES.replace("term 1 1 1 0\n", "term 3 1 1 0\nterm 3 2 2 0\nterm 1 3 3 0\n")
TWO_CUBES = CUBES.replace("term 1 1 0 1\n", "term 3 1 0 1\nterm 3 2 0 2\nterm 1 3 0 3\n")
JSON = (
    '{"scatter":1,"vars":2,"lines":[{"at":["0","0"],"dir":[1,0],"terms":[["1",1,[1,0]]]},'
    '{"at":["0","0"],"dir":[0,1],"terms":[["1",1,[0,1]]]}]}'
)
JOBS = [
    ("complete 2 1", LINES + "end\n"),
    ("theta 2 1", LINES + ASKS + "settle\nend\n"),
    ("complete-json 2 1", JSON),
    ("complete 4 3", CUBES + "end\n"),
    ("theta 3 3", CUBES + ASKS + "end\n"),
    ("theta 1 1", LINES),
    ("complete 24", ""),
]
# for limits of space alone, as the jobs above need little
LARGE = [
    ("complete 24 1", TWO_CUBES + "end\n"),
    ("complete 20 4", TWO_CUBES + "end\n"),
    ("theta 12 2", TWO_CUBES + ASKS + "end\n"),
    ("generate 7", ""),
]
# how many jobs are tried before the proof
TRIED = 2
SESSION = ("session 2 2 2", LINES + ASKS + "ask 2 theta 1 1 at -3 2\nsettle\n" + ASKS + "end\n")


def ended(command, text, **more):
    """The status, what was printed, and what was said beside it."""
    done = subprocess.run(
        command, input=text.encode(), stdout=subprocess.PIPE, stderr=subprocess.PIPE, timeout=SECONDS, **more
    )
    return done.returncode, done.stdout, done.stderr


def outcome(seen, due):
    """One word for what a run came to."""
    if seen == due:
        return "as due"
    return "memory" if seen == (7, b"") else "failed"


def note(counts, words, name, seen, due, place):
    """Counts a run, and prints it where it failed."""
    word = outcome(seen, due)
    counts["%s, %s: %s" % (words, name, word)] += 1
    if word == "failed":
        counts["failed"] += 1
        print("%s, %s %s: status %s, %r" % (words, name, place, *seen), flush=True)


def refuse_calls(counts, command, text, due, library, to_the_end):
    """Refuses the Nth call of malloc, or all from it on, for N = 1, 2, .. until a run makes fewer."""
    name = "malloc from the Nth on" if to_the_end else "the Nth malloc"
    n, was_refused = 0, True
    while was_refused:
        n += 1
        last = 2 ** 62 if to_the_end else n
        names = {"LD_PRELOAD": library, "REFUSED_FROM": str(n), "REFUSED_TO": str(last)}
        status, printed, said = ended(command, text, env=dict(os.environ, **names))
        was_refused = b"refused" in said
        note(counts, " ".join(command[1:]), name, (status, printed), due, n)


def limit_space(space):
    """What sets the limit in the process that becomes the program."""
    return lambda: resource.setrlimit(resource.RLIMIT_AS, (space, space))


def starts(command, space):
    """Whether the program comes to `main` under this limit: words that name no job need next to nothing."""
    status, printed, _ = ended(command[:1] + ["none"], "", preexec_fn=limit_space(space))
    return (status, printed) in [(1, b"fault words\n"), (7, b"")]


def gets_through(command, text, due):
    """Whether the run ends as due under a limit."""
    return lambda space: ended(command, text, preexec_fn=limit_space(space))[:2] == due


def least_space(is_enough):
    """About the least number of bytes that is enough: within one page, if more is never worse."""
    low, high = 0, PAGE
    while not is_enough(high):
        low, high = high, 2 * high
    while high - low > PAGE:
        middle = (low + high) // 2
        low, high = (low, middle) if is_enough(middle) else (middle, high)
    return high


def limit_spaces(counts, command, text, due, limits):
    """Runs under limits of address space, from where the program starts to somewhat above what it needs."""
    words = " ".join(command[1:])
    least = least_space(lambda space: starts(command, space))
    most = least_space(gets_through(command, text, due)) + 64 * PAGE
    for i in range(limits):
        space = least + (most - least) * i // limits
        status, printed, _ = ended(command, text, preexec_fn=limit_space(space))
        if outcome((status, printed), due) == "failed" and not starts(command, space):
            counts["%s, limited space: not started" % words] += 1
        else:
            note(counts, words, "limited space", (status, printed), due, space)


def try_unproved(counts, words, text, due, first, last):
    """Refuses the Nth allocation of the program before any proof."""
    folder = os.path.join(os.path.dirname(os.path.dirname(os.path.abspath(__file__))), "crates", "scatter_cli")
    for n in range(first, last + 1):
        command = ["rt", "try", "--fail-alloc", str(n), "--"] + words.split()
        done = subprocess.run(command, input=text.encode(), stdout=subprocess.PIPE, stderr=subprocess.STDOUT, cwd=folder)
        lines = done.stdout.decode().split("\n")
        status = next((line.split("status=")[1].split()[0] for line in lines if line.startswith("run=")), "none")
        is_due = all(line in lines for line in due[1].decode().split("\n"))
        word = "as due" if status == str(due[0]) and is_due else "memory" if status == "7" else "failed"
        counts["%s, rt try: %s" % (words, word)] += 1
        if word == "failed":
            counts["failed"] += 1
            print("%s, rt try %d\n%s" % (words, n, done.stdout.decode()), flush=True)
        if word == "as due":
            return


def build_library(folder):
    """The library that refuses calls of malloc."""
    source, library = os.path.join(folder, "refuse.c"), os.path.join(folder, "refuse.so")
    with open(source, "w") as file:
        file.write(LIBRARY)
    subprocess.run(["cc", "-O1", "-shared", "-fPIC", "-o", library, source, "-ldl"], check=True)
    return library


def refuse_all(counts, program, jobs, limits):
    """Refuses calls of malloc, and space, in all these jobs, and space in the large ones."""
    with tempfile.TemporaryDirectory() as folder:
        library = build_library(folder)
        for words, text in jobs + LARGE:
            command = [program] + words.split()
            due = ended(command, text)[:2]
            if (words, text) not in LARGE:
                refuse_calls(counts, command, text, due, library, False)
                refuse_calls(counts, command, text, due, library, True)
            limit_spaces(counts, command, text, due, limits)


def main():
    """Does the runs of each job and prints the counts."""
    parser = argparse.ArgumentParser(description=__doc__.split("\n")[0])
    parser.add_argument("program")
    parser.add_argument("--session", action="store_true")
    parser.add_argument("--limits", type=int, default=1000)
    parser.add_argument("--try", dest="tried", nargs=2, type=int, metavar=("FROM", "TO"))
    options = parser.parse_args()
    counts = Counter()
    jobs = [SESSION] if options.session else JOBS
    if options.tried:
        for words, text in jobs[:TRIED]:
            due = ended([options.program] + words.split(), text)[:2]
            try_unproved(counts, words, text, due, *options.tried)
    else:
        refuse_all(counts, options.program, jobs, options.limits)
    print("\n".join("%s: %d" % item for item in sorted(counts.items())))
    sys.exit(1 if counts["failed"] else 0)


if __name__ == "__main__":
    main()
