"""Which words name a job."""
import re

# the numbers after the first word, each as the least and the largest
JOBS = {
    "complete": [(0, 24), (1, 16)],
    "theta": [(0, 24), (1, 16)],
    "complete-json": [(0, 24), (1, 16)],
    "generate": [(1, 1000000)],
    "session": [(0, 24), (1, 16), (1, 8)],
}


def is_number(word, least, largest):
    """Whether a word spells a number between two."""
    return re.fullmatch("0|[1-9][0-9]{0,8}", word) is not None and least <= int(word) <= largest


def is_job(words, with_session):
    """Whether the words name a job; `session` where it is tried."""
    ranges = JOBS.get(words[0]) if words else None
    if ranges is None or words[0] == "session" and not with_session or len(words) != len(ranges) + 1:
        return False
    return all(is_number(word, *ends) for word, ends in zip(words[1:], ranges))
