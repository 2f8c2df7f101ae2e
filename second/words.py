"""The words that both programs say, out of the house rules' own page: a rule's name, and what to do about it.

docs/RULES.md, "Refusals", has them in two tables. They are read from there, so that the page, the programs and this
program say one thing.
"""

import errno
import os
import re

RULES_PAGE = os.path.join(os.path.dirname(os.path.abspath(__file__)), "..", "docs", "RULES.md")

ERRORS = {
    errno.ENOENT: "no such file or folder",
    errno.EACCES: "no permission",
    errno.ENOTDIR: "a folder of its path is a file",
    errno.EISDIR: "it is a folder",
    errno.ENOSPC: "the disk is full",
    errno.ESPIPE: "it is a pipe, and a file is needed",
}


def tables():
    """({number: name}, {number: what to do})."""
    with open(RULES_PAGE, encoding="utf-8") as file:
        page = file.read()
    refusals = page[page.index("## Refusals"):]
    rows = [re.split(r"\s*\|\s*", line.strip().strip("|").strip())
            for line in refusals.splitlines() if re.match(r"\| \d", line)]
    names = {int(row[0]): row[1] for row in rows if len(row) == 3}
    advice = {int(row[0]): row[1] for row in rows if len(row) == 2}
    assert set(names) == set(advice) == set(range(1, 14))
    return names, advice


NAMES, ADVICE = tables()


def refused(name, number, found, place=None):
    """The one line about a file that is refused."""
    at = "" if place is None else " at byte %d" % place
    return "%s: refused %d (%s)%s: %s; %s" % (name, number, NAMES[number], at, found, ADVICE[number])


def error_words(number):
    return ERRORS.get(number, "error %d" % number)


def unread(name, number):
    return "%s: cannot be read: %s" % (name, error_words(number))


def unwritten(name, number, program="compose"):
    """`program` is who writes the file."""
    if number == errno.EEXIST:
        return ("%s: cannot be written: %s.part is in the way: another %s writes it, or one was stopped; remove it"
                % (name, name, program))
    if number == errno.EINVAL:
        return "%s: cannot be written: it is no regular file" % name
    return "%s: cannot be written: %s" % (name, error_words(number))
