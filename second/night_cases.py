"""Nights for night_vectors: openings, jobs, refusals and their order.

A night is one opening and its jobs, all on one memory.  A job that is to be
refused brings other samples than the accepted ones, and most nights leave row
pairs that no accepted job names: a refused job that writes is then seen in the
output run, and one that marks is seen in the marks and in the rows left.

In late nights the enhancement comes late: jobs that do not bring it stand before,
between and after those that do.  SHOWS says which wrong programs each kind of
them tells from the right one; selftest.py builds them (wrong_nights.py) and holds
the nights to it.
"""

from collections import namedtuple
from itertools import combinations

import limits
from answers import NO_RUN
from composer import row_pair_samples
from generator import Generator
from limits import DEPTHS, HDR_DEPTHS, denominators
from mmr_cases import random_mmr_picture, random_mmr_plan, visible_mmr_piece
from sample_cases import (make_plan, meets_last_piece, plain_sections, plane_size, random_picture, random_plan,
                          random_run, replaced, visible_piece)

Night = namedtuple("Night", "kind plan runs marks output_size ticket opening jobs version", defaults=[1])
Job = namedtuple("Job", "plan open_ticket ticket first count base enhancement")

BLOCK_PLAN, ZERO_PLAN = 0, 1        # which plan an opening or a job is given
LARGEST_RUN = 96
LARGEST_MARKS = 48
TICKETS = 1 << 32

# The places of the runs that every stock has.
BASE, ENHANCEMENT, OTHER, BAD, MISFIT, WILD = range(6)

KEEPING = ("base only overwrites full row pairs", "base only overwrites full samples", "base only overwrites full luma",
           "base only overwrites full chroma", "full row pairs kept and marked 2", "full row pairs kept and marked 0")
IN_PART = ("the first row pair decides", "the last row pair decides", "all kept where one is full",
           "kept only where all are full", "ends at the first full row pair")
FULL_JOBS = ("full skips mark 2", "full skips mark 2 and marks it 1", "full leaves mark 2", "full marked 2")
COUNTS = ("base only counted as waiting", "rows left of the job alone", "base only counted in the job alone",
          "base only counted before the job", "the two counts exchanged", "complete only where all is full")
READINGS = ("1 alone is full", "odd marks are full", "marks without bit 1 are full", "marks from 128 are base only",
            "1 written over a full mark that is kept")
REFUSED = ("a job that leaves all is refused", "a job that leaves some is refused")

SHOWS = {
    "late, then there": KEEPING + FULL_JOBS + COUNTS + REFUSED + (
        "base only marked 1", "all marks but 1 counted as base only"),
    "late, in part": KEEPING + IN_PART + FULL_JOBS + COUNTS + REFUSED + ("base only marked 1",),
    "late, after a standby": KEEPING + IN_PART + FULL_JOBS + COUNTS + REFUSED,
    "late, MMR": KEEPING + IN_PART + FULL_JOBS + COUNTS + REFUSED,
    "late, other samples": KEEPING + ("base only skips mark 2", "full skips mark 1", "full skips full marks"),
    "late, refused between": ("kept row pairs left out of 11",) + KEEPING,
    "late, flag 1": ("flag 1 without a run is base only", "flag 1 is base only"),
    "late, spoiled marks": KEEPING + IN_PART + READINGS + FULL_JOBS + COUNTS + REFUSED + (
        "base only skips mark 2", "full skips full marks", "full skips mark 1", "full leaves full marks",
        "base only marked 1", "all marks but 0 and 1 counted as base only", "all marks but 1 counted as base only",
        "kept row pairs left out of 11"),
    "late, spoiled marks, flag 1": (
        "flag 1 without a run is base only", "flag 1 is base only", "no base only counted with flag 1",
        "full skips mark 2", "full skips full marks", "full leaves full marks", "base only counted before the job",
        "all marks but 0 and 1 counted as base only"),
    "random": KEEPING + IN_PART + FULL_JOBS + COUNTS + REFUSED,
    "random, MMR": KEEPING + FULL_JOBS + COUNTS,
}


class Stock:
    """A plan, a ticket, and the runs that jobs name by their place.

    BASE and ENHANCEMENT are those of the accepted jobs.  The others are for
    jobs that are to be refused: OTHER is good; BAD is OTHER with one bad sample,
    the last one of row pair self.bad; MISFIT has a wrong length; WILD has a
    wrong length and bad samples only.
    """

    def __init__(self, plan, generator, base=None, enhancement=None, version=1):
        size, depth = plan.picture_samples, plan.BL_bit_depth
        self.plan, self.version = plan, version
        self.ticket = generator.below(TICKETS)
        self.rows = plan.half_height
        self.bad = generator.below(self.rows)
        if base is None:
            base, enhancement = (random_run(size, depth, generator) for _ in range(2))
        other = random_run(size, depth, generator)
        last = list(row_pair_samples(plan, self.bad))[-1][1]
        self.runs = [base, enhancement, other, replaced(other, last, 1 << depth),
                     (other + other)[:wrong_length(size, generator)],
                     [65535] * wrong_length(size, generator)]

    def add(self, run):
        """Keep one more run and give its place."""
        self.runs.append(run)
        return len(self.runs) - 1

    def enhancement(self):
        return ENHANCEMENT if self.runs[ENHANCEMENT] else NO_RUN

    def job(self, first, count, **changes):
        """A good job, if the picture has these row pairs, with some changes."""
        good = Job(BLOCK_PLAN, self.ticket, self.ticket, first, count, BASE,
                   self.enhancement())
        return good._replace(**changes)

    def breaking(self, rules, generator):
        """A job that breaks these rules; they may be none."""
        first, count = self._row_pairs(rules, generator)
        base, enhancement = self._lent_runs(rules, generator)
        job = self.job(first, count, base=base, enhancement=enhancement)
        if 7 in rules:
            job = job._replace(plan=ZERO_PLAN)
        if 8 in rules:
            job = job._replace(ticket=other_ticket(self.ticket, generator))
        return job

    def _row_pairs(self, rules, generator):
        if 10 in rules and 11 not in rules:
            return generator.choice(beyond(self.rows))
        least = self.bad if 11 in rules else generator.below(self.rows)
        first = generator.between(0, least)
        if 10 in rules:
            return first, generator.choice((self.rows - first + 1, 65535))
        return first, generator.between(least - first + 1, self.rows - first)

    def _lent_runs(self, rules, generator):
        right = self.enhancement()
        base = {(): OTHER, (9,): MISFIT, (11,): BAD, (9, 11): WILD}
        faults = tuple(rule for rule in (9, 11) if rule in rules)
        if self.plan.disable_residual_flag:
            ignored = generator.choice((right, NO_RUN, OTHER, BAD, MISFIT, WILD))
            return base[faults], ignored
        choices = [(base[faults], right)]
        if faults:
            choices.append((OTHER, base[faults]))
        if faults == (9, 11):
            choices += [(BAD, MISFIT), (MISFIT, BAD)]
        return generator.choice(choices)


def wrong_length(size, generator):
    """Not the size of the picture, not 0, and at most 96."""
    lengths = [1, size // 2, size - 1, size - 1, size + 1, size + 1, size + 3]
    return generator.choice([length for length in lengths if length <= LARGEST_RUN])


def other_ticket(ticket, generator):
    """One bit away, one away, far away."""
    kind = generator.below(4)
    if kind == 0:
        return (ticket + generator.choice((1, TICKETS - 1))) % TICKETS
    if kind == 1:
        return (ticket + generator.between(1, TICKETS - 1)) % TICKETS
    return ticket ^ (1 << generator.below(32))


def beyond(rows):
    """(first, count) that rule 10 refuses; some wrap to good ones in 16 bits."""
    return ((0, 0), (rows - 1, 0), (rows, 0), (65535, 0), (0, rows + 1), (rows - 1, 2),
            (rows, 1), (rows + 1, 1), (65535, 1), (65535, 2), (65535, rows + 1),
            (65536 - rows, rows), (1, 65535), (2, 65535), (0, 65535), (65535, 65535),
            (32768, 32768))


def spoiled(size):
    """Marks with every sort of value."""
    return [(255, 0, 2, 1, 128, 7)[k % 6] for k in range(size)]


def night(kind, stock, jobs):
    """An opening and jobs on a memory that fits the plan."""
    return Night(kind, stock.plan, stock.runs, spoiled(stock.rows),
                 stock.plan.picture_samples, stock.ticket, BLOCK_PLAN, jobs, stock.version)


def plain_stock(depth, d, hdr_bit_depth, width, height, generator, flag=0):
    sections = plain_sections(depth, d, generator)
    return Stock(make_plan(depth, d, hdr_bit_depth, width, height, sections, flag),
                 generator)


# The worked case, replays -----------------------------------------------------

def worked_nights(generator):
    """House rules: H = 4, jobs (0,1), (0,1), (1,1) leave 1, 1, 0; (2,1) is 10."""
    nights = []
    for depth, d, hdr_bit_depth, width, flag in (
            (10, denominators(10)[0], 12, 2, 0), (8, denominators(8)[0], 10, 4, 1),
            (10, denominators(10)[-1], 10, 16, 1), (8, 21, 12, 8, 0)):
        stock = plain_stock(depth, d, hdr_bit_depth, width, 4, generator, flag)
        nights.append(night("worked case", stock, [
            stock.job(0, 1), stock.job(0, 1), stock.job(1, 1), stock.job(2, 1)]))
    return nights


def replay_nights(generator):
    """Jobs sent again after standby, overlapping, in many orders."""
    sequences = (
        (2, 8, ((0, 1), (1, 1), (2, 1), (1, 1), (2, 1), (3, 1), (3, 1), (0, 4))),
        (2, 8, ((0, 3), (0, 3), (0, 3), (1, 2), (2, 1))),
        (4, 8, ((0, 4), (0, 4), (1, 1))),
        (4, 8, ((3, 1), (2, 2), (1, 3), (0, 4), (0, 1))),
        (2, 16, ((0, 4), (0, 4), (2, 4), (2, 4), (0, 4), (5, 3), (5, 3))),
        (4, 16, ((7, 1), (0, 1), (7, 1), (0, 1), (3, 2), (3, 2), (4, 2), (2, 3))),
        (2, 2, ((0, 1), (0, 1), (0, 1))),
        (32, 2, ((0, 1), (0, 1))),
        (2, 32, ((15, 1), (0, 16), (15, 1), (0, 1))),
        (2, 32, ((0, 8), (4, 8), (8, 7), (0, 15), (15, 1))),
        (6, 10, ()),
    )
    nights = []
    for i, (width, height, rows) in enumerate(sequences):
        stock = plain_stock(DEPTHS[i % 2], 22, HDR_DEPTHS[i // 2 % 2], width, height,
                            generator)
        nights.append(night("replayed, overlapping", stock,
                            [stock.job(first, count) for first, count in rows]))
    return nights


# Refusals and their order -----------------------------------------------------

def around(stock, refused):
    """Refused jobs between accepted ones; row pairs 0 and 2 stay as they were."""
    return [stock.job(1, 1)] + refused + [stock.job(1, 1), stock.job(3, 1)]


def alone_7(stock):
    return [stock.job(first, count, plan=ZERO_PLAN, base=OTHER)
            for first, count in ((0, 4), (1, 1), (2, 1), (0, 1))]


def alone_8(stock):
    """The own ticket wrong, the given one wrong, both."""
    ticket = stock.ticket
    pairs = [(ticket, ticket ^ (1 << bit)) for bit in (0, 7, 8, 15, 16, 24, 31)]
    pairs += [(ticket, (ticket + 1) % TICKETS), (ticket, 0), (ticket, TICKETS - 1),
              (ticket ^ (1 << 16), ticket), (0, ticket), (0, TICKETS - 1),
              (1, 1 << 31), (ticket ^ 1, ticket ^ 2)]
    return [stock.job(0, 4, open_ticket=given, ticket=own, base=OTHER)
            for given, own in pairs]


def alone_9(stock):
    """Base and, where it is used, enhancement of wrong lengths."""
    other, size = stock.runs[OTHER], len(stock.runs[OTHER])
    refused = [stock.job(0, 4, base=stock.add([]))]
    for length in (1, stock.rows, size - 1, size + 1, 2 * size):
        place = stock.add((other + other)[:length])
        refused.append(stock.job(0, 4, base=place))
        if not stock.plan.disable_residual_flag:
            refused.append(stock.job(0, 4, base=OTHER, enhancement=place))
    refused.append(stock.job(0, 4, base=MISFIT, enhancement=NO_RUN))
    return refused


def alone_10(stock):
    return [stock.job(first, count, base=OTHER) for first, count in beyond(4)]


def alone_11(stock):
    """One bad sample at each border of row pairs 1 and 2."""
    depth = stock.plan.BL_bit_depth
    inside = [at for k in (1, 2) for _, at in row_pair_samples(stock.plan, k)]
    refused = []
    for i, at in enumerate(sorted(inside)):
        if at - 1 in inside and at + 1 in inside:
            continue
        bad = stock.add(replaced(stock.runs[OTHER], at,
                                 (1 << depth, 65535, 2 << depth)[i % 3]))
        refused.append(stock.job(1, 2, base=bad))
        refused.append(stock.job(1, 2, base=bad, enhancement=NO_RUN))
        if not stock.plan.disable_residual_flag:
            refused.append(stock.job(1, 2, base=OTHER, enhancement=bad))
    return refused


def alone_nights(generator):
    """Each rule broken by itself, in many ways."""
    nights = []
    for rule, make in ((7, alone_7), (8, alone_8), (9, alone_9), (10, alone_10),
                       (11, alone_11)):
        for depth, d, flag in ((8, 20, 0), (10, 26, 0), (10, 17, 1)):
            stock = plain_stock(depth, d, (12, 10)[flag], 2, 8, generator, flag)
            nights.append(night("%d alone" % rule, stock, around(stock, make(stock))))
    return nights


def order_nights(generator):
    """Each rule with every choice of later rules also broken."""
    nights = []
    for depth, d, flag in ((8, 31, 0), (10, 19, 0), (8, 18, 1)):
        for rule, times in ((7, 2), (8, 3), (9, 5), (10, 8)):
            stock = plain_stock(depth, d, 12, 2, 8, generator, flag)
            refused = []
            for others in range(1, 12 - rule):
                for later in combinations(range(rule + 1, 12), others):
                    refused += [stock.breaking((rule,) + later, generator)
                                for _ in range(times)]
            nights.append(night("%d before later rules" % rule, stock,
                                around(stock, refused)))
    return nights


def outside_nights(generator):
    """Bad samples and the largest good ones: outside its row pairs none matters."""
    nights = []
    for depth, d, flag in ((8, 25, 0), (10, denominators(10)[0], 0), (10, 30, 1)):
        stock = plain_stock(depth, d, 10, 4, 8, generator, flag)
        inside = [at for k in (1, 2) for _, at in row_pair_samples(stock.plan, k)]
        base, enhancement = (
            stock.add([value if at in inside else 65535 - at
                       for at, value in enumerate(stock.runs[place])])
            for place in (BASE, ENHANCEMENT))
        largest = stock.add([(1 << depth) - 1] * len(stock.runs[BASE]))
        nights.append(night("bad sample outside", stock, [
            stock.job(1, 1, base=base, enhancement=enhancement),
            stock.job(0, 2, base=base), stock.job(2, 2, enhancement=enhancement),
            stock.job(1, 2, base=base, enhancement=enhancement),
            stock.job(2, 1, base=largest, enhancement=largest)]))
    return nights


def far_nights(generator):
    """First and count at 65,535 and near the end of small and tall pictures."""
    nights = []
    for width, height in ((16, 2), (2, 16), (2, 32)):
        stock = plain_stock(10, 23, 12, width, height, generator)
        rows = stock.rows
        refused = [stock.job(first, count, base=OTHER) for first, count in beyond(rows)]
        nights.append(night("rows at 65,535", stock,
                            refused + [stock.job(rows - 1, 1), stock.job(0, 65535),
                                       stock.job(65535, 65535)]))
    return nights


# Openings ---------------------------------------------------------------------

def opening_nights(generator):
    """Accepted: any ticket is handed back, every mark is cleared."""
    nights = []
    tickets = (0, 1, 65536, 1 << 31, TICKETS - 1, 0x01020304)
    shapes = ((2, 2), (2, 8), (4, 6), (2, 32), (8, 8), (4, 12))
    for i, (ticket, (width, height)) in enumerate(zip(tickets, shapes)):
        stock = plain_stock(DEPTHS[i % 2], 24, 12, width, height, generator)
        stock.ticket = ticket
        jobs = [stock.job(0, 1), stock.job(0, 1, ticket=ticket ^ 1),
                stock.job(stock.rows - 1, 1)]
        opened = night("opening accepted", stock, jobs)
        nights.append(opened)
        nights.append(opened._replace(marks=[1] * stock.rows, jobs=jobs[:1]))
        nights.append(opened._replace(marks=[255 - k for k in range(stock.rows)],
                                      jobs=[]))
    return nights


def refused_opening_nights(generator):
    """Rules 7 and 9 at an opening, and jobs that find the memory as it was."""
    nights = []
    for depth, marks in ((10, [0, 7, 255, 0]), (8, [2, 1, 128, 255]), (10, [0, 0, 0, 0]),
                         (8, [1, 1, 0, 1])):
        stock = plain_stock(depth, 20, 12, 2, 8, generator)
        jobs = [stock.job(1, 1), stock.breaking((11,), generator), stock.job(1, 1),
                stock.job(0, 1, plan=ZERO_PLAN), stock.job(3, 1)]
        spoilt = night("opening refused 7", stock, jobs)
        spoilt = spoilt._replace(marks=marks, opening=ZERO_PLAN)
        nights.append(spoilt)
        nights.append(spoilt._replace(jobs=jobs + [stock.job(0, 2), stock.job(2, 1)]))
        nights.append(spoilt._replace(jobs=[]))
    for size in (0, 1, 3, 5, 8, 24, LARGEST_MARKS):
        stock = plain_stock(10, 20, 12, 2, 8, generator)
        jobs = [stock.job(1, 1)] + misfit_jobs(stock, generator)
        wrong = night("opening refused 9", stock, jobs)._replace(marks=spoiled(size))
        nights.append(wrong)
        nights.append(wrong._replace(kind="opening 7 before 9", opening=ZERO_PLAN))
    return nights


def misfit_jobs(stock, generator):
    """For a memory that does not fit: 9 comes before 10 and 11, after 7 and 8."""
    return [stock.breaking(rules, generator)
            for rules in ((), (), (10,), (10,), (11,), (10, 11), (8,), (7,), (8, 10),
                          (7, 8), (9,), (9, 10, 11), (8, 11), (7, 11))]


def misfit_output_nights(generator):
    """An opening does not look at the output; every job then does."""
    nights = []
    for size in (0, 1, 4, 23, 25, 48, LARGEST_RUN):
        stock = plain_stock(8, 20, 10, 2, 8, generator)
        jobs = [stock.job(0, 1)] + misfit_jobs(stock, generator)
        wrong = night("output misfits", stock, jobs)._replace(output_size=size)
        nights.append(wrong)
    stock = plain_stock(8, 20, 10, 2, 8, generator)
    jobs = misfit_jobs(stock, generator)
    both = night("output misfits", stock, jobs)._replace(output_size=0, marks=[])
    empty = stock.add([])
    nothing = [stock.job(first, count, base=empty, enhancement=NO_RUN, plan=plan)
               for first, count in ((0, 0), (0, 1)) for plan in (ZERO_PLAN, BLOCK_PLAN)]
    nights.append(both._replace(jobs=jobs + nothing))
    nights.append(both._replace(jobs=nothing, opening=ZERO_PLAN))
    return nights


def other_size_nights(generator):
    """A memory that fits a picture of another shape than the plan's."""
    nights = []
    for shape, (width, height) in (((4, 4), (2, 8)), ((2, 8), (4, 4)), ((4, 4), (8, 4)),
                                   ((8, 4), (4, 4)), ((2, 4), (8, 8)), ((8, 8), (2, 2)),
                                   ((2, 6), (2, 4)), ((10, 6), (10, 4)), ((2, 8), (8, 8)),
                                   ((8, 8), (2, 8))):
        stock = plain_stock(10, 21, 12, shape[0], shape[1], generator)
        size, rows = 3 * width * height // 2, height // 2
        theirs = stock.add(random_run(size, 10, generator))
        jobs = [stock.job(0, 1), stock.job(0, 1, base=theirs),
                stock.job(0, 1, base=theirs, enhancement=theirs),
                stock.job(0, 1, enhancement=NO_RUN), stock.job(0, rows),
                stock.job(rows, 1), stock.job(0, 1, plan=ZERO_PLAN),
                stock.job(0, 1, ticket=stock.ticket ^ 4)]
        other = night("other sizes", stock, jobs)
        other = other._replace(output_size=size, marks=spoiled(rows))
        nights.append(other)
        nights.append(other._replace(opening=ZERO_PLAN))
    return nights


# Accepted jobs outside the premises of demand 3 -------------------------------

def flag_nights(generator):
    """Flag 1: the enhancement is ignored, whatever its length and samples."""
    nights = []
    for depth, d in ((8, 28), (10, 16)):
        stock = plain_stock(depth, d, 12, 4, 8, generator, 1)
        one = stock.add([65535])
        empty = stock.add([])
        ignored = (WILD, MISFIT, one, empty, NO_RUN, BAD, OTHER, ENHANCEMENT)
        nights.append(night("flag 1, enhancement ignored", stock, [
            stock.job(i % 3, 1, enhancement=place) for i, place in enumerate(ignored)]))
        nights.append(night("flag 1, enhancement ignored", stock, [
            stock.job(0, 2, enhancement=WILD), stock.job(0, 2, enhancement=NO_RUN),
            stock.job(2, 1, enhancement=MISFIT, base=BAD if stock.bad != 2 else OTHER),
            stock.job(0, 4, enhancement=WILD, base=BAD),
            stock.job(0, 4, enhancement=WILD, base=WILD),
            stock.job(3, 1, enhancement=BAD)]))
    return nights


def later_nights(generator):
    """Other samples: the later job's stand, but for what is full and comes again without enhancement."""
    absent = ((0, 2, BASE, ENHANCEMENT), (1, 2, BASE, NO_RUN), (3, 1, BASE, NO_RUN),
              (2, 1, BASE, ENHANCEMENT))
    early = ((0, 4, BASE, NO_RUN), (0, 1, BASE, ENHANCEMENT), (2, 2, BASE, ENHANCEMENT),
             (3, 1, BASE, NO_RUN))
    others = ((0, 3, BASE, ENHANCEMENT), (1, 1, OTHER, ENHANCEMENT),
              (2, 1, BASE, OTHER), (2, 1, OTHER, BASE), (0, 1, OTHER, NO_RUN))
    refused = ((0, 2, BASE, ENHANCEMENT), (0, 2, BASE, MISFIT), (1, 1, BASE, NO_RUN),
               (0, 2, WILD, ENHANCEMENT), (0, 4, BAD, OTHER), (3, 1, OTHER, NO_RUN))
    nights = []
    for depth, d in ((8, 22), (10, 29)):
        for jobs in (absent, early, others, refused):
            stock = plain_stock(depth, d, 12, 4, 8, generator)
            nights.append(night("later samples stand", stock, [
                stock.job(first, count, base=base, enhancement=enhancement)
                for first, count, base, enhancement in jobs]))
    return nights


# The enhancement comes late ---------------------------------------------------

def with_it(*parts):
    return [(first, count, True) for first, count in parts]


def without_it(*parts):
    return [(first, count, False) for first, count in parts]


def late_jobs(stock, sequence, **changes):
    """Jobs for (first, count, whether it brings the enhancement)."""
    return [stock.job(first, count, **({} if brings else {"enhancement": NO_RUN}), **changes)
            for first, count, brings in sequence]


def in_turn(rows):
    """The same row pairs, one after the other."""
    return [(k, 1) for k in range(rows)]


# Of eight row pairs; a night ends where a mistake would stand in the output.
THEN_THERE = (
    without_it((0, 8)) + with_it((0, 8)),
    with_it((0, 8)) + without_it((0, 8)),
    without_it((0, 8)),
    without_it(*in_turn(8)) + with_it(*reversed(in_turn(8))),
    with_it(*in_turn(8)) + without_it(*in_turn(8)),
    without_it((0, 3), (3, 3)) + with_it((0, 3), (3, 3)) + without_it((6, 2)),
    with_it((0, 4), (4, 3)) + without_it((0, 4), (4, 3)) + with_it((0, 4)) + without_it((0, 7)),
)
IN_PARTS = (
    with_it((1, 1), (3, 1), (5, 1), (7, 1)) + without_it((0, 8)),
    with_it((0, 1), (2, 1), (4, 1), (6, 1)) + without_it((0, 8)),
    with_it((1, 1), (3, 1), (5, 1)) + without_it((0, 4), (2, 5)) + with_it((2, 1)) + without_it((1, 3)),
    without_it((0, 8)) + with_it((0, 1), (2, 1), (4, 1), (6, 1)) + without_it((0, 8)),
    without_it((0, 2), (4, 2)) + with_it((1, 4)) + without_it((0, 6)),
    with_it((0, 4)) + without_it((2, 5)),
    with_it((4, 4)) + without_it((1, 5)) + with_it((3, 1)) + without_it((3, 2)),
    without_it((0, 4)) + with_it((2, 4)) + without_it((5, 2), (3, 1), (0, 1)),
)
AFTER_STANDBY = (
    without_it((0, 2), (2, 2), (4, 2), (6, 2)) + with_it((0, 2), (2, 2)) + without_it((0, 2), (2, 2))
    + with_it((4, 2)),
    without_it((0, 2), (2, 2), (4, 2)) + with_it((0, 2), (2, 2)) + without_it((2, 2), (4, 2)) + with_it((2, 2))
    + without_it((1, 4), (3, 4)) + with_it((3, 3)),
    with_it((0, 3)) + without_it((3, 3)) + with_it((0, 3)) + without_it((3, 3), (0, 3), (1, 5), (6, 1)),
    without_it((0, 3), (3, 3)) + without_it((0, 3), (3, 3)) + with_it((1, 3)) + without_it((0, 3), (2, 4), (3, 5))
    + with_it((1, 3), (6, 1)),
    with_it((0, 2), (2, 2), (4, 2)) + without_it((2, 2), (4, 2), (6, 2)) + with_it((4, 2)) + without_it((0, 7)),
    without_it((0, 5)) + with_it((4, 3)) + without_it((3, 5), (4, 3)) + with_it((7, 1), (3, 1)) + without_it((0, 8)),
)


def late_nights(generator):
    """First without the enhancement, then with it, and the other way round; whole, in part, jobs again."""
    nights = []
    for kind, sequences in (("late, then there", THEN_THERE), ("late, in part", IN_PARTS),
                            ("late, after a standby", AFTER_STANDBY)):
        for at, sequence in enumerate(sequences):
            for depth in DEPTHS:
                stock = plain_stock(depth, 21 + at % 3, HDR_DEPTHS[at % 2], 2, 16, generator)
                nights.append(night(kind, stock, late_jobs(stock, sequence)))
    return nights


def late_mmr_nights(generator):
    """The same with MMR pieces, whose chroma hangs on luma: every second sequence, depths and versions in turn."""
    nights = []
    for at, sequence in enumerate((THEN_THERE + IN_PARTS + AFTER_STANDBY)[::2]):
        stock = mmr_stock(DEPTHS[at % 2], 17 + at, 2, 16, generator, 0, 1 + at // 2 % 2)
        nights.append(night("late, MMR", stock, late_jobs(stock, sequence)))
    return nights


def late_other_nights(generator):
    """Outside the premises: jobs without enhancement have another base, and the enhancement is another one later."""
    nights = []
    for at, (depth, d) in enumerate(((8, 18), (10, 28), (8, 30), (10, 16))):
        stock = mmr_stock(depth, d, 4, 8, generator) if at == 3 else plain_stock(depth, d, 12, 4, 8, generator)
        without, later = {"enhancement": NO_RUN, "base": OTHER}, {"base": OTHER, "enhancement": BASE}
        nights.append(night("late, other samples", stock, [
            stock.job(0, 1), stock.job(2, 1), stock.job(0, 4, **without)]))
        nights.append(night("late, other samples", stock, [
            stock.job(0, 3, enhancement=NO_RUN), stock.job(1, 2, **without), stock.job(2, 1),
            stock.job(2, 2, **without)]))
        nights.append(night("late, other samples", stock, [
            stock.job(0, 3), stock.job(0, 4, **without), stock.job(1, 1, **later), stock.job(1, 3, enhancement=NO_RUN),
            stock.job(3, 1, enhancement=OTHER)]))
    return nights


def bad_in(stock, k, generator):
    """A base like OTHER with one bad sample in row pair k, in luma, Cb or Cr."""
    chosen = generator.below(3)
    places = [at for cmp, at in row_pair_samples(stock.plan, k) if cmp == chosen]
    return stock.add(replaced(stock.runs[OTHER], generator.choice(places), 1 << stock.plan.BL_bit_depth))


def late_refused_nights(generator):
    """Refused jobs without enhancement between others; a bad sample in a row pair that would be kept is refused too."""
    nights = []
    for depth, d, by_mmr in ((8, 23, False), (10, 19, False), (10, 24, True)):
        stock = mmr_stock(depth, d, 2, 8, generator) if by_mmr else plain_stock(depth, d, 12, 2, 8, generator)
        first = stock.job(0, 3)
        refused = [stock.job(0, 4, base=bad_in(stock, k, generator), enhancement=NO_RUN) for k in range(4)]
        refused += [stock.job(k, 1, base=bad_in(stock, k, generator), enhancement=NO_RUN) for k in range(3)]
        refused += [stock.breaking(rules, generator)._replace(enhancement=NO_RUN)
                    for rules in ((7,), (8,), (10,), (8, 10), (7, 8))]
        refused += [stock.job(0, 4, base=MISFIT, enhancement=NO_RUN), stock.job(0, 4, base=WILD, enhancement=NO_RUN),
                    stock.job(3, 2, base=OTHER, enhancement=NO_RUN), stock.job(1, 0, base=OTHER, enhancement=NO_RUN)]
        outside = bad_in(stock, 0, generator)
        nights.append(night("late, refused between", stock, [first] + refused))
        nights.append(night("late, refused between", stock, [
            stock.job(0, 2, enhancement=NO_RUN)] + refused[:7] + [stock.job(1, 1)] + refused + [
            stock.job(1, 1, base=outside, enhancement=NO_RUN), stock.job(1, 2, base=outside, enhancement=NO_RUN)]))
    return nights


def late_flag_nights(generator):
    """Flag 1: every job is full, with a run of any sort and without one."""
    nights = []
    for at, sequence in enumerate((THEN_THERE + IN_PARTS + AFTER_STANDBY)[1::3]):
        stock = plain_stock(DEPTHS[at % 2], 20, HDR_DEPTHS[at // 2 % 2], 2, 16, generator, 1)
        nights.append(night("late, flag 1", stock, late_jobs(stock, sequence)))
    stock = mmr_stock(10, 22, 2, 16, generator, 1)
    nights.append(night("late, flag 1", stock, late_jobs(stock, IN_PARTS[0], base=OTHER)))
    stock = plain_stock(8, 25, 12, 4, 8, generator, 1)
    nights.append(night("late, flag 1", stock, [
        stock.job(0, 2, enhancement=NO_RUN), stock.job(1, 2, enhancement=WILD),
        stock.job(0, 4, enhancement=stock.add([])),
        stock.job(1, 1, base=OTHER, enhancement=NO_RUN), stock.job(2, 1, base=OTHER, enhancement=MISFIT)]))
    return nights


LATE_MARKS = ((0, 1, 2, 3, 77, 255, 2, 0), (2, 255, 0, 128, 1, 2, 4, 77), (77, 2, 3, 0, 255, 0, 1, 2),
              (2, 2, 1, 1, 0, 0, 254, 130))


def unopened(kind, stock, marks, jobs):
    """A night whose opening is refused, so that its jobs find these marks."""
    return night(kind, stock, jobs)._replace(marks=list(marks), opening=ZERO_PLAN)


def late_spoiled_nights(generator):
    """Marks of every sort that no opening cleared: 0 and 2 are composed without enhancement, all others kept."""
    nights = []
    for at, marks in enumerate(LATE_MARKS):
        for flag in (0, 1):
            def late(jobs):
                nights.append(unopened("late, spoiled marks" + ", flag 1" * flag, stock, marks, jobs))
            stock = (mmr_stock(10, 18 + at, 2, 16, generator, flag) if at == 3
                     else plain_stock(DEPTHS[at % 2], 20 + at, 12, 2, 16, generator, flag))
            late(late_jobs(stock, without_it((0, 8))))
            late(late_jobs(stock, without_it((1, 5)) + with_it((3, 2))))
            late(late_jobs(stock, with_it((0, 8))))
            late(late_jobs(stock, with_it((2, 1), (4, 1), (6, 1)) + without_it((5, 3))))
            if flag == 0:
                late(late_jobs(stock, without_it(*in_turn(8)), base=OTHER))
                late(late_jobs(stock, without_it((2, 4), (0, 3)) + with_it((6, 2)) + without_it((4, 4))))
                kept = next(k for k, mark in enumerate(marks) if mark not in (0, 2))
                bad = bad_in(stock, kept, generator)
                late([stock.job(0, 8, base=bad, enhancement=NO_RUN), stock.job(kept, 1, base=bad, enhancement=NO_RUN),
                      stock.job(kept, 1, base=OTHER, enhancement=NO_RUN)])
            else:
                late([stock.job(0, 2, enhancement=WILD), stock.job(7, 1, enhancement=NO_RUN)])
    return nights


def ticket_nights(generator):
    """Only a job's two tickets are compared: no call keeps the opening's."""
    stock = plain_stock(10, 27, 10, 4, 8, generator)
    far = stock.ticket ^ 0x80000001
    jobs = [stock.job(first, 1, open_ticket=given, ticket=own)
            for first, given, own in ((0, far, far), (1, far, stock.ticket),
                                      (1, stock.ticket, far), (2, 0, 0),
                                      (3, 0, stock.ticket),
                                      (2, TICKETS - 1, TICKETS - 1))]
    equal = night("equal tickets of another picture", stock, jobs)
    return [equal, equal._replace(opening=ZERO_PLAN)]


# Random nights ----------------------------------------------------------------

WIDTHS = {1: (2, 8, 16, 32), 2: (2, 6, 8, 16), 3: (2, 4, 10), 4: (2, 4, 8), 5: (2, 4, 6),
          6: (2, 4), 7: (2, 4), 8: (2, 4)}      # by H/2; 3WH/2 is at most 96


# How a random night's plan and picture are made.
POLYNOMIALS, MMR = (random_plan, random_picture), (random_mmr_plan, random_mmr_picture)


def random_stock(rows, generator, version=1, makers=POLYNOMIALS):
    """A random plan and picture; at times there is no enhancement."""
    make_plan_of, make_picture = makers
    shapes = [(width, 2 * rows) for width in WIDTHS[rows]]
    plan = make_plan_of(shapes, generator, version)
    base, enhancement = make_picture(plan, generator)
    if generator.one_in(6):
        enhancement = []
    return Stock(plan, generator, base, enhancement, version)


def random_part(allowed, generator):
    """(first, count) of neighbouring row pairs that are all allowed."""
    first = generator.choice(sorted(allowed))
    count = 1
    while first + count in allowed and not generator.one_in(3):
        count += 1
    return first, count


def cover(allowed, generator):
    """Parts that name every allowed row pair; they may overlap."""
    parts, missing = [], set(allowed)
    while missing:
        first = generator.choice(sorted(missing))
        count = 1
        while first + count in allowed and generator.one_in(3):
            count += 1
        parts.append((first, count))
        missing -= set(range(first, first + count))
    return parts


def random_rules(generator):
    """One rule to break, at times two or three."""
    rules = {generator.between(7, 11)}
    while generator.one_in(3):
        rules.add(generator.between(7, 11))
    return tuple(sorted(rules))


def mixed_jobs(stock, allowed, number, generator):
    """Jobs that cover the allowed row pairs, replays, and refused ones between."""
    parts = cover(allowed, generator)
    jobs = [stock.job(first, count) for first, count in parts]
    while len(jobs) < number:
        kind = generator.below(5)
        if kind < 2 or not allowed:
            jobs.append(stock.breaking(random_rules(generator), generator))
        elif kind < 4:
            jobs.append(stock.job(*generator.choice(parts)))
        else:
            jobs.append(stock.job(*random_part(allowed, generator)))
    return generator.shuffled(jobs)


def ignoring(stock, jobs, generator):
    """With flag 1, or without an enhancement, say so in several ways."""
    if stock.plan.disable_residual_flag:
        places = (ENHANCEMENT, NO_RUN, OTHER, BAD, MISFIT, WILD)
    elif not stock.runs[ENHANCEMENT]:
        places = (ENHANCEMENT, NO_RUN)
    else:
        return jobs
    return [job._replace(enhancement=generator.choice(places))
            if job.enhancement in (ENHANCEMENT, NO_RUN) else job for job in jobs]


def lately(stock, jobs, generator):
    """With flag 0 and an enhancement: in three of four nights some jobs do not bring it.

    It is missing now and then, or at first always and then now and then, or for some row pairs to the end.
    """
    if stock.plan.disable_residual_flag or not stock.runs[ENHANCEMENT]:
        return jobs
    kind, comes, never = generator.below(4), generator.below(len(jobs) + 1), generator.below(stock.rows)

    def is_late(at, job):
        if kind == 3:
            return job.first <= never < job.first + job.count or generator.one_in(4)
        return kind > 0 and (kind == 2 and at < comes or generator.one_in(3))
    return [job._replace(enhancement=NO_RUN) if job.enhancement == ENHANCEMENT and is_late(at, job) else job
            for at, job in enumerate(jobs)]


def random_night(at, generator, version=1, makers=POLYNOMIALS):
    """Within the premises of demand 3; two of three nights end complete.

    In these one row pair is named late only, so that most of the night has rows
    left.  In the others some row pairs are never named, at times because one has
    a bad base sample.
    """
    rows = 1 + at % 8
    stock = random_stock(rows, generator, version, makers)
    allowed = set(range(rows))
    late = set()
    if at // 8 % 3 == 2:
        for _ in range(generator.between(1, max(1, rows // 3))):
            allowed.discard(generator.below(rows))
    elif rows > 1:
        late = {generator.below(rows)}
    if allowed != set(range(rows)) and generator.one_in(2):
        spoil_row_pair(stock, min(set(range(rows)) - allowed), generator)
    number = generator.between(8, 30)
    early = number * 3 // 4 if late else number
    jobs = mixed_jobs(stock, allowed - late, early, generator)
    if late:
        last = mixed_jobs(stock, late, number - early, generator)
        jobs += [job if generator.one_in(3) else widened(job, rows, generator)
                 for job in last]
    kind = "random" + ", MMR" * (makers is MMR) + ", version 2" * (version == 2)
    made = night(kind, stock, lately(stock, ignoring(stock, jobs, generator), generator))
    return made._replace(marks=[generator.below(256) for _ in range(rows)])


def spoil_row_pair(stock, k, generator):
    """A bad base sample in row pair k: no job that names it is accepted."""
    at = generator.choice([at for _, at in row_pair_samples(stock.plan, k)])
    stock.runs[BASE] = replaced(stock.runs[BASE], at,
                                (1 << stock.plan.BL_bit_depth) + generator.below(64))


def widened(job, rows, generator):
    """A job of one row pair made longer within the picture."""
    if job.count != 1 or job.first >= rows:
        return job
    first = generator.between(0, job.first)
    return job._replace(first=first,
                        count=generator.between(job.first - first + 1, rows - first))


def random_nights(generator, number):
    return [random_night(at, generator) for at in range(number)]


def last_pivot_nights(generator):
    """Version 2: jobs again, refused and with other samples, on pictures that meet piece n + 1; then random nights."""
    nights = []
    for depth, d, flag in ((10, 20, 0), (8, 24, 1)):
        sections = [section._replace(pivots=[pivot // 2 for pivot in section.pivots],
                                     pieces=section.pieces + [visible_piece(d, 1 + cmp % 2, generator)])
                    for cmp, section in enumerate(plain_sections(depth, d, generator))]
        stock = Stock(make_plan(depth, d, 12, 4, 8, sections, flag), generator, version=2)
        assert all(meets_last_piece(stock.plan, cmp, plane(stock, cmp)) for cmp in range(3))
        nights.append(night("last pivot, version 2", stock, [
            stock.job(0, 2), stock.job(0, 1), stock.breaking((8,), generator), stock.job(1, 2),
            stock.breaking((11,), generator), stock.job(2, 1, base=OTHER), stock.job(3, 1)]))
    return nights + [random_night(at, generator, 2) for at in range(1, 8, 2)]


# MMR ------------------------------------------------------------------------

def mmr_stock(depth, d, width, height, generator, flag=0, version=1):
    """Chroma of MMR pieces that luma moves much, and of other orders in Cb and Cr."""
    sections = plain_sections(depth, d, generator)
    for cmp, order in ((1, 1 + d % 3), (2, 1 + (d + 1) % 3)):
        coef = visible_mmr_piece(d, order, generator)
        coef[1] = 1 << (d - 1)
        pieces = [coef, visible_mmr_piece(d, 3, generator), visible_piece(d, 1, generator)]
        sections[cmp] = sections[cmp]._replace(pieces=pieces[:limits.carried(1, version)])
    if version == 2:
        sections[0] = sections[0]._replace(pieces=sections[0].pieces + [visible_piece(d, 2, generator)])
    return Stock(make_plan(depth, d, 12, width, height, sections, flag), generator, version=version)


def mmr_nights(generator):
    """The worked case, jobs again and overlapping, other samples between, and luma of other row pairs that is bad."""
    nights = []
    for depth, d, width, flag, version in ((10, 15, 4, 0, 1), (8, 32, 2, 1, 1), (8, 13, 8, 0, 2), (10, 26, 4, 0, 2)):
        stock = mmr_stock(depth, d, width, 4, generator, flag, version)
        nights.append(night("MMR, worked case", stock, [
            stock.job(0, 1), stock.job(0, 1), stock.job(1, 1), stock.job(2, 1)]))
        stock = mmr_stock(depth, d, min(width, 4), 8, generator, flag, version)
        nights.append(night("MMR, replayed", stock, [
            stock.job(0, 2), stock.job(1, 2), stock.breaking((8,), generator), stock.job(3, 1, base=OTHER),
            stock.breaking((9,), generator), stock.job(2, 2), stock.job(3, 1, enhancement=NO_RUN),
            stock.breaking((11,), generator), stock.job(1, 1, base=OTHER), stock.job(0, 4)]))
        nights.append(luma_outside_night(mmr_stock(depth, d + 1 - d // 32, 4, 8, generator, flag, version), generator))
    return nights


def luma_outside_night(stock, generator):
    """Rule 11 looks at the job's row pairs alone, and chroma row k at luma rows 2k and 2k + 1 alone."""
    top, width = 1 << stock.plan.BL_bit_depth, stock.plan.width
    jobs = []
    for k in (1, 2):
        for row in (2 * k - 1, 2 * k, 2 * k + 1, 2 * k + 2):
            bad = stock.add(replaced(stock.runs[BASE], row * width + generator.below(width), top))
            jobs.append(stock.job(k, 1, base=bad))
    return night("MMR, luma outside", stock, jobs + [stock.job(0, 4)])


def random_mmr_nights(generator, number):
    """Both versions in turn."""
    return [random_night(at, generator, 1 + at % 2, MMR) for at in range(number)]


def plane(stock, cmp):
    """The base samples of a component."""
    luma = plane_size(stock.plan, 0)
    begin = (0, luma, luma + luma // 4)[cmp]
    return stock.runs[BASE][begin:begin + plane_size(stock.plan, cmp)]


def free_night(at, generator):
    """Random, outside the premises: any samples and tickets, any opening."""
    rows = 1 + (at * 3 + 2) % 8
    stock = random_stock(rows, generator)
    jobs = []
    for job in mixed_jobs(stock, set(range(rows)), generator.between(8, 20), generator):
        base = generator.choice((BASE, OTHER, BAD))
        enhancement = generator.choice((ENHANCEMENT, OTHER, NO_RUN, NO_RUN))
        if generator.one_in(2) and job.base == BASE:
            job = job._replace(base=base, enhancement=enhancement)
        if generator.one_in(4):
            own = generator.below(TICKETS)
            job = job._replace(open_ticket=own, ticket=own)
        jobs.append(job)
    free = night("random, outside the premises", stock, jobs)
    marks = [generator.choice((0, 0, 1, 2, 255)) for _ in range(rows)]
    opening = ZERO_PLAN if generator.one_in(2) else BLOCK_PLAN
    return free._replace(marks=marks, opening=opening)


def free_nights(generator, number):
    return [free_night(at, generator) for at in range(number)]


def trimmed(night):
    """The same night without the runs that no job names."""
    named = sorted({place for job in night.jobs for place in (job.base, job.enhancement)
                    if place != NO_RUN})
    places = {place: at for at, place in enumerate(named)}
    places[NO_RUN] = NO_RUN
    jobs = [job._replace(base=places[job.base], enhancement=places[job.enhancement])
            for job in night.jobs]
    return night._replace(runs=[night.runs[place] for place in named], jobs=jobs)


def all_nights():
    nights = (
        worked_nights(Generator(301))
        + replay_nights(Generator(302))
        + alone_nights(Generator(303))
        + order_nights(Generator(304))
        + outside_nights(Generator(305))
        + far_nights(Generator(306))
        + opening_nights(Generator(307))
        + refused_opening_nights(Generator(308))
        + misfit_output_nights(Generator(309))
        + other_size_nights(Generator(310))
        + flag_nights(Generator(311))
        + later_nights(Generator(312))
        + ticket_nights(Generator(313))
        + random_nights(Generator(314), 64)
        + free_nights(Generator(315), 16)
        + last_pivot_nights(Generator(316))
        + mmr_nights(Generator(317))
        + random_mmr_nights(Generator(318), 24)
        + late_nights(Generator(319))
        + late_mmr_nights(Generator(320))
        + late_other_nights(Generator(321))
        + late_refused_nights(Generator(322))
        + late_flag_nights(Generator(323))
        + late_spoiled_nights(Generator(324)))
    return [trimmed(one) for one in nights]
