"""Programs with one mistake each about an enhancement that comes late, by name: what night_vectors has to tell from the
right one, and table_vectors of the second job call.

night_cases.py and table_cases.py say which kind of case shows which of them, and selftest.py holds them to that.

Left out, as no call can show it: a full row pair that a job without enhancement leaves and that is then taken as not
named.  Its mark is not 0, so that it counts as named whether this job named it or not.
"""

from collections import namedtuple
from functools import partial

import jobs
import nights
from composer import compose_chosen, enhancement_used, row_pair_samples
from nights import BASE_ONLY, FULL, WAITING, Counted, is_full, is_full_job

# A mistake: what an accepted job does, and a rule by another test (number, test) or None.
Mistake = namedtuple("Mistake", "done rule", defaults=[nights.compose_and_mark, None])

# A program is its job's call; the right one is the module nights.
Nights = namedtuple("Nights", "row_job")


# What an accepted job does, in parts ----------------------------------------

def left_by(full, i, marks):
    """Whether a job, full or not, leaves the samples of its row pair i; `marks` are those of its row pairs before."""
    return not full and is_full(marks[i])


def marked_by(full, i, marks):
    """The mark of its row pair i after it."""
    if full:
        return FULL
    return marks[i] if is_full(marks[i]) else BASE_ONLY


def counted_by(plan, before, after, first, count):
    """The answer, of all marks before the job and after it."""
    return nights.counted(after)


def doing(left=left_by, marked=marked_by, counted=counted_by, full=is_full_job):
    """An accepted job by these parts; with the right ones, given here, it is the right one."""
    def done(plan, first, count, base, enhancement, output, marks, mapping):
        before, is_one = list(marks), full(plan, enhancement)
        own = before[first:first + count]
        row_pairs = [first + i for i in range(count) if not left(is_one, i, own)]
        output[:] = compose_chosen(plan, row_pairs, base, enhancement, output, mapping)
        for i in range(count):
            marks[first + i] = marked(is_one, i, own)
        return counted(plan, before, marks, first, count)
    return done


def mistake(**parts):
    return Mistake(doing(**parts))


def leaving(left):
    """Of the row pairs that it leaves also the marks are left; the others get the job's."""
    def marked(full, i, marks):
        return marks[i] if left(full, i, marks) else FULL if full else BASE_ONLY
    return mistake(left=left, marked=marked)


def reading(full_mark):
    """Another reading of marks: which are full."""
    return leaving(lambda full, i, marks: not full and full_mark(marks[i]))


def from_first_full(full, i, marks):
    return not full and any(is_full(mark) for mark in marks[:i + 1])


def overwriting(components):
    """Of a full row pair these components are written by a job without enhancement."""
    def done(plan, first, count, base, enhancement, output, marks, mapping):
        kept = [] if is_full_job(plan, enhancement) else [
            k for k in range(first, first + count) if is_full(marks[k])]
        written = compose_chosen(plan, kept, base, enhancement, output, mapping)
        for k in kept:
            for cmp, at in row_pair_samples(plan, k):
                if cmp in components:
                    output[at] = written[at]
        return nights.compose_and_mark(plan, first, count, base, enhancement, output, marks, mapping)
    return Mistake(done)


# Counts ---------------------------------------------------------------------

def number_of(marks, *values):
    return sum(1 for mark in marks if mark in values)


def counting(left=None, base_only=None):
    """One of the counts by other numbers: given the marks before and after, and those of the job's row pairs."""
    def counted(plan, before, after, first, count):
        right = nights.counted(after)
        given = before, after, after[first:first + count]
        return Counted(left(*given) if left else right.left, base_only(*given) if base_only else right.base_only)
    return mistake(counted=counted)


def none_with_flag(plan, before, after, first, count):
    return nights.counted(after)._replace(base_only=0) if plan.disable_residual_flag else nights.counted(after)


def exchanged(plan, before, after, first, count):
    return Counted(*reversed(nights.counted(after)))


class CompleteWhereFull(Counted):
    """Says "complete" only where every row pair is full."""

    @property
    def complete(self):
        return self.left == 0 and self.base_only == 0


def complete_where_full(plan, before, after, first, count):
    return CompleteWhereFull(*nights.counted(after))


# Rules ----------------------------------------------------------------------

def kept_by(plan, first, count, enhancement, marks):
    """Those that a job without enhancement leaves."""
    return set(range(first, first + count)) - set(nights.composed_by(plan, first, count, enhancement, marks))


def bad_where_composed(plan, first, count, base, enhancement, marks):
    """Rule 11 for the row pairs that are composed alone."""
    return any(jobs.breaks_rule_11(plan, k, 1, base, enhancement)
               for k in nights.composed_by(plan, first, count, enhancement, marks))


def nothing_composed(plan, first, count, base, enhancement, marks):
    """Rule 10, and a job that would leave all."""
    return jobs.breaks_rule_10(plan, first, count) or len(kept_by(plan, first, count, enhancement, marks)) == count


def something_kept(plan, first, count, base, enhancement, marks):
    return jobs.breaks_rule_10(plan, first, count) or len(kept_by(plan, first, count, enhancement, marks)) > 0


def rule_tested(rules, number, test):
    """These rules of a job or a table job, one of them by another test."""
    def changed(*given):
        plan, first, count, base, enhancement, output, marks = given[0], *given[-6:]
        return {**rules(*given), number: lambda: test(plan, first, count, base, enhancement, marks)}
    return changed


def parts_of(wrong, rules):
    """What nights.row_job or tables.table_job is given instead of the right parts."""
    parts = {"done": wrong.done}
    if wrong.rule is not None:
        parts["rules"] = rule_tested(rules, *wrong.rule)
    return parts


MISTAKES = {
    "base only overwrites full row pairs": leaving(lambda full, i, marks: False),
    "base only overwrites full samples": mistake(left=lambda full, i, marks: False),
    "base only overwrites full luma": overwriting((0,)),
    "base only overwrites full chroma": overwriting((1, 2)),
    "full row pairs kept and marked 2": mistake(marked=lambda full, i, marks: FULL if full else BASE_ONLY),
    "full row pairs kept and marked 0": mistake(
        marked=lambda full, i, marks: WAITING if left_by(full, i, marks) else marked_by(full, i, marks)),
    "1 written over a full mark that is kept": mistake(
        marked=lambda full, i, marks: FULL if full or is_full(marks[i]) else BASE_ONLY),
    "1 alone is full": reading(lambda mark: mark == FULL),
    "odd marks are full": reading(lambda mark: mark % 2 == 1),
    "marks without bit 1 are full": reading(lambda mark: mark != 0 and mark & 2 == 0),
    "marks from 128 are base only": reading(lambda mark: is_full(mark) and mark < 128),
    "base only skips mark 2": mistake(left=lambda full, i, marks: not full and marks[i] != WAITING),
    "the first row pair decides": leaving(lambda full, i, marks: not full and is_full(marks[0])),
    "the last row pair decides": leaving(lambda full, i, marks: not full and is_full(marks[-1])),
    "all kept where one is full": leaving(lambda full, i, marks: not full and any(map(is_full, marks))),
    "kept only where all are full": leaving(lambda full, i, marks: not full and all(map(is_full, marks))),
    "ends at the first full row pair": leaving(from_first_full),
    "base only marked 1": mistake(marked=lambda full, i, marks: marks[i] if left_by(full, i, marks) else FULL),
    "full skips mark 2": leaving(lambda full, i, marks: marks[i] == BASE_ONLY if full else is_full(marks[i])),
    "full skips mark 2 and marks it 1": mistake(
        left=lambda full, i, marks: marks[i] == BASE_ONLY if full else is_full(marks[i])),
    "full skips full marks": leaving(lambda full, i, marks: is_full(marks[i])),
    "full skips mark 1": leaving(lambda full, i, marks: marks[i] == FULL if full else is_full(marks[i])),
    "full leaves mark 2": mistake(
        marked=lambda full, i, marks: BASE_ONLY if marks[i] == BASE_ONLY else marked_by(full, i, marks)),
    "full leaves full marks": mistake(
        marked=lambda full, i, marks: marks[i] if is_full(marks[i]) else marked_by(full, i, marks)),
    "full marked 2": mistake(marked=lambda full, i, marks: BASE_ONLY if full else marked_by(full, i, marks)),
    "flag 1 without a run is base only": mistake(full=lambda plan, enhancement: len(enhancement) > 0),
    "flag 1 is base only": mistake(full=enhancement_used),
    "base only counted as waiting": counting(left=lambda before, after, own: number_of(after, 0, 2)),
    "rows left of the job alone": counting(left=lambda before, after, own: number_of(own, 0)),
    "base only counted in the job alone": counting(base_only=lambda before, after, own: number_of(own, 2)),
    "base only counted before the job": counting(base_only=lambda before, after, own: number_of(before, 2)),
    "all marks but 0 and 1 counted as base only": counting(
        base_only=lambda before, after, own: len(after) - number_of(after, 0, 1)),
    "all marks but 1 counted as base only": counting(
        base_only=lambda before, after, own: len(after) - number_of(after, 1)),
    "no base only counted with flag 1": mistake(counted=none_with_flag),
    "the two counts exchanged": mistake(counted=exchanged),
    "complete only where all is full": mistake(counted=complete_where_full),
    "kept row pairs left out of 11": Mistake(rule=(11, bad_where_composed)),
    "a job that leaves all is refused": Mistake(rule=(10, nothing_composed)),
    "a job that leaves some is refused": Mistake(rule=(10, something_kept)),
}

WRONG = {name: Nights(partial(nights.row_job, **parts_of(wrong, jobs.rules))) for name, wrong in MISTAKES.items()}
