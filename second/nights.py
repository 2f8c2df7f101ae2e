"""Opening a picture and its row jobs, with tickets and marks (house rules).

The output run and the marks are lent: an accepted call changes them in place,
a refused call changes nothing.  No call keeps anything for the next one.

The enhancement may come late: a row pair may be composed without it, and again
with it.  From then on it is full, and a job without enhancement leaves it so.
"""

from collections import namedtuple

import jobs
from composer import compose_chosen, enhancement_used, map_place

WAITING, FULL, BASE_ONLY = 0, 1, 2      # a mark; any other value reads as full


class Counted(namedtuple("Counted", "left base_only")):
    """What an accepted job answers: how many of all marks are 0 after it, and how many are 2."""

    @property
    def complete(self):
        return self.left == 0


def open_picture(plan, ticket, marks):
    """Give (0, the ticket) with every mark cleared, or (7 or 9, None)."""
    number = opening_refusal(plan, marks)
    if number != 0:
        return number, None
    for k in range(len(marks)):
        marks[k] = WAITING
    return 0, ticket


def opening_refusal(plan, marks):
    """Rule 7, then rule 9 on the marks only; 0 if neither is broken."""
    if jobs.breaks_rule_7(plan):
        return 7
    if jobs.marks_misfit(plan, marks):
        return 9
    return 0


# What an accepted job does --------------------------------------------------

def is_full_job(plan, enhancement):
    """With the flag at 1 no residual is to come, so that every job is full."""
    return plan.disable_residual_flag == 1 or enhancement_used(plan, enhancement)


def is_full(mark):
    return mark not in (WAITING, BASE_ONLY)


def composed_by(plan, first, count, enhancement, marks):
    """Of the row pairs that a job names those that it composes: one without enhancement leaves those that are full."""
    named = range(first, first + count)
    if is_full_job(plan, enhancement):
        return list(named)
    return [k for k in named if not is_full(marks[k])]


def compose_and_mark(plan, first, count, base, enhancement, output, marks, mapping):
    """What an accepted job does, whichever call it is; give the two counts.  `mapping` is what map_place is."""
    row_pairs = composed_by(plan, first, count, enhancement, marks)
    output[:] = compose_chosen(plan, row_pairs, base, enhancement, output, mapping)
    for k in row_pairs:
        marks[k] = FULL if is_full_job(plan, enhancement) else BASE_ONLY
    return counted(marks)


def counted(marks):
    """Row pairs that wait and those that are base only, counted anew each time, over all marks."""
    return Counted(sum(1 for mark in marks if mark == WAITING), sum(1 for mark in marks if mark == BASE_ONLY))


def row_job(plan, open_ticket, ticket, first, count, base, enhancement, output, marks,
            rules=jobs.rules, done=compose_and_mark):
    """Give (0, the two counts) with row pairs composed, or (7 to 11, None).

    The right rules and what is done are those given here; wrong_nights.py has others.
    """
    number = jobs.first_met(jobs.ORDER, rules(plan, open_ticket, ticket, first, count, base, enhancement, output,
                                              marks))
    if number != 0:
        return number, None
    return 0, done(plan, first, count, base, enhancement, output, marks, map_place)
