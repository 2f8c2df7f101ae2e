"""Cases for table_vectors: fillings, jobs that look a table up, their refusals and their order.

A case is one table, two pictures and steps on them.  Each step is made with the number that it is to show, 0 where it
is accepted, and make_vectors.py stops where it shows another.  A table holds 50000 and more before the first step, so
that a filling that is refused but writes is seen where the table is shown; jobs that are to be refused bring other
samples than the accepted ones.

SHOWS says which wrong programs each kind of case tells from the right one; selftest.py builds them (wrong_tables.py)
and holds the cases to it.  Where the enhancement comes late a table that is damaged between the jobs gives the row
pairs that are written another value each time.
"""

from collections import namedtuple
from itertools import combinations

import jobs
import limits
import search_cases
import tables
from answers import ANOTHER_BLOCK, DAMAGE, FILL, NO_RUN, OPEN, PLAIN_JOB, SHOW, TABLE_JOB
from composer import Plan, row_pair_samples
from generator import Generator
from limits import DEPTHS, HDR_DEPTHS, denominators
from mmr_cases import visible_mmr_piece
from night_cases import (AFTER_STANDBY, BASE, BLOCK_PLAN, COUNTS, ENHANCEMENT, FULL_JOBS, IN_PART, IN_PARTS, KEEPING,
                         LARGEST_MARKS, LARGEST_RUN, LATE_MARKS, OTHER, READINGS, REFUSED, THEN_THERE, TICKETS,
                         ZERO_PLAN, Stock, bad_in, in_turn, late_jobs, lately, mixed_jobs, other_ticket, plain_stock,
                         random_night, random_stock, spoiled, with_it, without_it)
from places import changed
from sample_cases import (Section, extreme_coefficients, make_plan, plain_sections, random_picture, replaced, vernier,
                          visible_piece)

Case = namedtuple("Case", "kind plan version runs table pictures steps")
Picture = namedtuple("Picture", "marks output_size")
Step = namedtuple("Step", "kind fields number")     # the kind and fields of README.md; of a block: plan and version

LARGEST_TABLE = 3080
LARGEST_RUNS = 16

ORDER_OF_13 = ("13 before 9", "13 before 9 in filling", "the table's length after 13", "13 after 10", "13 after 11",
               "13 not tested", "13 not tested in filling", "7 after 9", "7 after 9 in filling", "9 before 8",
               "the table's length tested last")
PARTS = ("Cb looked up in Cr's part", "Cr looked up in Cb's part", "luma's part for all", "parts luma, Cr, Cb")
CUTS = ("values cut to the output's depth", "values shifted to the output's depth", "values held below 2^out",
        "values without their last bit")


def late(*names):
    """Wrong programs of wrong_nights.py, as wrong_tables.py names them."""
    return tuple("late: " + name for name in names)


SHOWS = {
    "worked case": ("rows left subtracted", "marks not written", "rows left of the marks before"),
    "filled": (
        "filled luma, Cr, Cb", "luma and Cb filled", "luma and Cr filled", "luma filled", "luma's values for all",
        "the last code left", "filled by three values a code", "values of the output's depth filled",
        "the mapping of the code after", "refuses every filling", "parts luma, Cr, Cb in both calls"),
    "filled, equal pivots": ("filled: the last of equal pivots", "filled: the piece before a pivot at it",
                             "filled: a code for each empty piece", "filled: the piece of the clamped sample"),
    "filled, 16 pieces": tuple("filled: " + name for name in search_cases.FILLINGS),
    "filled, wide and narrow": ("filled: piece n + 1 at the sample as it is",
                                "filled: piece n where no pivot exceeds the sample"),
    "filled, cut sums": ("values not cut at 65,535", "negative sums not raised to 0"),
    "table of another length": (
        "a wrong table length not refused", "a wrong table length not refused in filling", "a shorter table taken",
        "a longer table taken", "a shorter table filled", "a longer table filled", "the length compared with 3,072",
        "the length compared with 768", "the length compared with 3,072 in filling",
        "the length compared with 768 in filling",
        "two components are enough", "filling writes before 9", "13 before 9", "13 before 9 in filling",
        "the table's length after 13", "the table's length tested last"),
    "13": (
        "13 looks at Cb only", "13 looks at Cr only", "13 forgets piece n + 1", "13 looks at piece n + 1 only",
        "13 looks at piece 0 only", "13 only for reachable pieces", "13 looks at Cb only in filling",
        "13 looks at Cr only in filling", "13 forgets piece n + 1 in filling",
        "13 only for reachable pieces in filling", "13 not tested", "13 not tested in filling",
        "filling writes before 13", "luma filled before 13", "13 for a plan of profile 4",
        "the table cleared by a refusal"),
    "order of the rules": ORDER_OF_13 + (
        "8 not tested", "0 row pairs taken", "11 not tested", "the base's length not tested",
        "the enhancement's length not tested", "an enhancement tested though it is ignored"),
    "output or marks misfit": ("the output's length not tested", "the marks' length not tested"),
    "bad sample within the table": ("11 by the table's end", "11 not tested"),
    "refused filling": ("filling writes before 7", "filling writes before 13", "the table cleared by a refusal"),
    "as lent": PARTS + CUTS + (
        "the sample clamped to the pivots", "the table not read", "the table filled first", "the residual forgotten"),
    "damaged": CUTS + ("the table not read", "the table filled first", "the residual forgotten",
                       "what was looked up is cleared", "values above the mapped one not taken"),
    "single samples damaged": PARTS + ("the table not read", "the code after looked up", "the table filled first"),
    "parts differ": PARTS,
    "filled from another plan": ("the table not read", "the table filled first"),
    "another depth": ("the length compared with 3,072", "the length compared with 768", "a shorter table taken",
                      "a longer table taken"),
    "mixed night": ("rows left subtracted", "marks not written", "8 not tested", "11 not tested", "0 row pairs taken",
                    "rows left of the marks before", "the residual forgotten", "what was looked up is cleared")
    + late(*KEEPING, *COUNTS, "full skips mark 2", "full leaves mark 2", "full marked 2"),
    "two pictures": ("rows left subtracted", "marks not written", "8 not tested", "what was looked up is cleared"),
    "any steps": ("the table not read", "the table filled first", "rows left of the marks before"),
    "late": late(*KEEPING, *IN_PART, *FULL_JOBS, *COUNTS, *REFUSED, "base only marked 1",
                 "all marks but 1 counted as base only"),
    "late, flag 1": late("flag 1 without a run is base only", "flag 1 is base only"),
    "late, damaged": late(*KEEPING, *IN_PART, *FULL_JOBS, *COUNTS, *REFUSED, "base only skips mark 2",
                          "full skips mark 1", "full skips full marks") + ("the table not read",),
    "late, refused between": late(*KEEPING, "kept row pairs left out of 11") + ("13 not tested", "13 after 11"),
    "late, spoiled marks": late(
        *KEEPING, *IN_PART, *READINGS, *FULL_JOBS, *COUNTS, *REFUSED, "base only skips mark 2", "full skips full marks",
        "full skips mark 1", "full leaves full marks", "base only marked 1",
        "all marks but 0 and 1 counted as base only", "kept row pairs left out of 11"),
    "late, spoiled marks, flag 1": late(
        "flag 1 without a run is base only", "flag 1 is base only", "no base only counted with flag 1",
        "full skips full marks", "full leaves full marks"),
}


class Script:
    """The steps of one case, on a memory that fits the stock's plan."""

    def __init__(self, kind, stock, size=None):
        self.kind, self.stock = kind, stock
        self.size = limits.table_values(stock.plan.BL_bit_depth) if size is None else size
        self.pictures = [Picture(spoiled(stock.rows), stock.plan.picture_samples)] * 2
        self.steps = []

    def add(self, kind, fields, number=0):
        self.steps.append(Step(kind, fields, number))

    def open(self, picture=0, plan=BLOCK_PLAN, ticket=None, number=0):
        self.add(OPEN, (picture, plan, self.stock.ticket if ticket is None else ticket), number)

    def plain(self, job, number=0, picture=0):
        self.add(PLAIN_JOB, (picture, *job), number)

    def table(self, job, number=0, picture=0):
        self.add(TABLE_JOB, (picture, *job), number)

    def both(self, job, number=0):
        """The table job on picture 0, the plain one on picture 1."""
        self.table(job, number)
        self.plain(job, number, 1)

    def fill(self, number=0, plan=BLOCK_PLAN):
        self.add(FILL, (plan,), number)

    def damage(self, begin, end, value):
        self.add(DAMAGE, (begin, end, value))

    def show(self, begin=0, end=None):
        self.add(SHOW, (begin, self.size if end is None else end))

    def show_some(self):
        """Where parts begin and end at both depths; fewer where the table is shorter."""
        for begin in (0, 250, 506, 766, 1018, 2044, 3068):
            if begin < self.size:
                self.show(begin, min(begin + 8, self.size))

    def look(self):
        """All of a table of depth 8, some of a longer one."""
        if self.stock.plan.BL_bit_depth == 8:
            self.show()
        else:
            self.show_some()

    def another(self, plan, version):
        self.add(ANOTHER_BLOCK, (plan, version))

    def case(self):
        """Without the runs that no job names."""
        named = sorted({place for step in self.steps if step.kind in (PLAIN_JOB, TABLE_JOB)
                        for place in step.fields[-2:] if place != NO_RUN})
        places = {place: at for at, place in enumerate(named)}
        places[NO_RUN] = NO_RUN
        steps = [step._replace(fields=(*step.fields[:-2], *(places[place] for place in step.fields[-2:])))
                 if step.kind in (PLAIN_JOB, TABLE_JOB) else step for step in self.steps]
        runs = [self.stock.runs[place] for place in named]
        return Case(self.kind, self.stock.plan, self.stock.version, runs, self.size, self.pictures, steps)


def first_of(order, rules):
    """The rule that is to be shown where these are broken."""
    return next((number for number in order if number in rules), 0)


# The worked case ------------------------------------------------------------

def worked_cases(generator):
    """House rules: H = 4, jobs (0,1), (0,1), (1,1) leave 1, 1, 0; (2,1) is 10; the same by both calls."""
    cases = []
    for depth, d, hdr_bit_depth, width, flag in (
            (10, denominators(10)[0], 12, 2, 0), (8, denominators(8)[0], 10, 4, 1),
            (10, denominators(10)[-1], 10, 16, 1), (8, 21, 12, 8, 0)):
        for enhancement in (ENHANCEMENT, NO_RUN):
            stock = plain_stock(depth, d, hdr_bit_depth, width, 4, generator, flag)
            script = Script("worked case", stock)
            script.fill()
            script.open()
            script.open(1)
            for first, number in ((0, 0), (0, 0), (1, 0), (2, 10)):
                script.both(stock.job(first, 1, enhancement=enhancement), number)
            cases.append(script.case())
    return cases


# Fillings -------------------------------------------------------------------

def filled_case(kind, stock):
    """A filling, all of it shown; then the whole picture by both calls, and some of it with other samples."""
    script = Script(kind, stock)
    script.open()
    script.open(1)
    script.fill()
    script.show()
    script.both(stock.job(0, stock.rows))
    script.both(stock.job(0, 1, base=OTHER))
    return script.case()


def filled_stock(depth, d, sections, generator, version=1, hdr_bit_depth=12, flag=0):
    return Stock(make_plan(depth, d, hdr_bit_depth, 4, 4, sections, flag), generator, version=version)


def pivot_section(depth, d, pivots, generator, version):
    """Pieces whose values are apart at every code."""
    number = limits.carried(len(pivots) - 2, version)
    return Section(pivots, search_cases.apart_pieces(d, number, False, generator), vernier(depth, d))


def plain_filled_cases(generator):
    """One piece, straight; two; and all three sections unlike."""
    cases = []
    for depth in DEPTHS:
        d, top = denominators(depth)[0], (1 << depth) - 1
        sections = [Section([0, top], [[(1 << (d - 4)) * cmp, (1 << d) - (1 << (d - 2)) * cmp]], vernier(depth, d))
                    for cmp in range(3)]
        cases.append(filled_case("filled", filled_stock(depth, d, sections, generator)))
        cases.append(filled_case("filled", filled_stock(
            depth, 24, plain_sections(depth, 24, generator), generator, 1, 10, int(depth == 8))))
    return cases


def pivot_filled_cases(generator):
    """Equal pivots; codes below the first pivot and above the last one, and none of either."""
    cases = []
    for depth in DEPTHS:
        M = 1 << depth
        equal = ([0, M // 4, M // 2, M // 2], [0, 0, M // 3, M // 3, M // 3, M - 1], [M // 3, M // 3])
        narrow = ([M // 10, M // 5], [M - 1, 2 * M - 2], [M // 4, M // 4 + 1, M // 2])
        for kind, sets, d, version in (("filled, equal pivots", equal, 20, 2), ("filled, equal pivots", equal, 32, 1),
                                       ("filled, wide and narrow", narrow, 27, 2)):
            turned = sets[version:] + sets[:version]
            sections = [pivot_section(depth, d, pivots, generator, version) for pivots in turned]
            cases.append(filled_case(kind, filled_stock(depth, d, sections, generator, version)))
    return cases


def curve_filled_cases(generator):
    """As many pieces as there can be, sums that are cut at both ends in the middle of a piece."""
    cases = []
    for depth, d, version in ((8, 13, 1), (8, 32, 2), (10, 32, 1), (10, 15, 2)):
        M = 1 << depth
        spans = ((M // 16, M - M // 16), (0, M + M // 16), (M // 8, M - 1))
        sections = [search_cases.section_of_curves(depth, d, *spans[(cmp + version) % 3], generator, version)
                    for cmp in range(3)]
        stock = filled_stock(depth, d, sections, generator, version, HDR_DEPTHS[version % 2])
        values = tables.mapped_values(stock.plan)
        for cmp in range(3):
            assert {0, 65535} < set(values[cmp * M:(cmp + 1) * M]) and stock.plan.num_pivots_minus2[cmp] == 15
        cases.append(filled_case("filled, 16 pieces", stock))
    return cases


def cut_filled_cases(generator):
    """Coefficients at the ends of their range, and sums one less than 0 and one more than 65,535."""
    cases = []
    for depth, d in ((8, denominators(8)[-1]), (10, denominators(10)[0])):
        top, pieces = (1 << depth) - 1, extreme_coefficients(d)
        chosen = [[-1, 1 << (d - 1)], [(1 << d) - 2, 1], generator.choice(pieces)]
        for turn in range(3 if depth == 8 else 1):
            sections = [Section([0, top], [chosen[(cmp + turn) % 3]], vernier(depth, d)) for cmp in range(3)]
            cases.append(filled_case("filled, cut sums", filled_stock(depth, d, sections, generator)))
    return cases


# Refusals and their order ---------------------------------------------------

def with_mmr(stock, places, generator, pivots=None, version=2):
    """The stock's plan with MMR pieces at these (cmp, piece), of other orders; None is all of Cb and Cr."""
    plan, d = stock.plan, stock.plan.coefficient_log2_denom
    sections = []
    for cmp in range(3):
        own = pivots or [0, (1 << plan.BL_bit_depth) // 2, (1 << plan.BL_bit_depth) - 1]
        pieces = [visible_piece(d, 1 + piece % 2, generator) for piece in range(limits.carried(len(own) - 2, version))]
        for piece in range(len(pieces)):
            if (cmp, piece) in places:
                pieces[piece] = visible_mmr_piece(d, 1 + (cmp + piece) % 3, generator)
        sections.append(Section(own, pieces, vernier(plan.BL_bit_depth, d)))
    return make_plan(plan.BL_bit_depth, d, plan.hdr_bit_depth, plan.width, plan.height, sections,
                     plan.disable_residual_flag)


def mmr_plans(stock, generator):
    """(plan, version): in Cb alone, in Cr alone, in piece n + 1 alone, in pieces that no sample meets, in many."""
    M = 1 << stock.plan.BL_bit_depth
    many = [i * (M - 1) // 16 for i in range(limits.PIVOT_PLACES)]
    plans = []
    for cmp in (1, 2):
        plans += [(with_mmr(stock, [(cmp, piece)], generator), 2) for piece in range(3)]
        plans += [
            (with_mmr(stock, [(cmp, 1)], generator, version=1), 1),                     # so that n + 1 is MMR too
            (with_mmr(stock, [(cmp, 1)], generator, [0, M // 2, M // 2, M - 1]), 2),    # between equal pivots
            (with_mmr(stock, [(cmp, 0)], generator, [0, 0, M - 1]), 2),                 # below a pivot of 0
            (with_mmr(stock, [(cmp, 2)], generator, [0, M // 2, M + 1]), 2),            # above a pivot of no code
            (with_mmr(stock, [(cmp, 2)], generator, [0, M // 2, M]), 2),
            (with_mmr(stock, [(cmp, 16)], generator, many), 2),
            (with_mmr(stock, [(cmp, 15)], generator, many), 2),
            (with_mmr(stock, [(cmp, 8)], generator, many), 2)]
    plans.append((with_mmr(stock, [(1, 0), (1, 1), (2, 0), (2, 1)], generator, version=1), 1))
    return plans


def thirteen_cases(generator):
    """A table is filled, then plans with MMR pieces find it so and leave it so; plain jobs compose with them."""
    cases = []
    for depth, d, flag in ((8, 14, 0), (10, 25, 1), (10, 19, 0), (8, 30, 0)):
        stock = plain_stock(depth, d, 12, 2, 8, generator, flag)
        plain = stock.plan
        script = Script("13", stock)
        script.open()
        script.open(1)
        script.fill()
        script.table(stock.job(1, 1))
        chosen = mmr_plans(stock, generator)
        for turn, (plan, version) in enumerate(chosen[len(cases) % 2::2] if d > 20 else chosen):
            assert tables.breaks_rule_13(plan) and not jobs.breaks_rule_7(plan)
            script.another(plan, version)
            script.fill(13)
            script.table(stock.job(turn % 4, 1, base=OTHER), 13)
            if turn % 4 == 0:
                script.plain(stock.job(turn // 4 % 4, 1), 0, 1)
        script.look()
        script.another(changed(plain, [(("ccm_profile",), 4)]), 1)
        script.table(stock.job(0, 2))
        script.fill()
        script.table(stock.job(3, 1))
        cases.append(script.case())
    return cases


def choices_of(rules):
    """Every choice of these, the empty one too."""
    return [choice for size in range(len(rules) + 1) for choice in combinations(rules, size)]


def order_cases(generator):
    """Every choice of broken rules that can be: the plan has an MMR piece or not, the table a wrong length or not."""
    cases = []
    for depth, d, flag in ((8, 19, 0), (10, 22, 0), (10, 31, 1)):
        for by_mmr, wrong in ((False, 0), (True, 0), (False, 1), (True, 1)):
            stock = plain_stock(depth, d, 12, 2, 8, generator, flag)
            if by_mmr:
                stock.plan, stock.version = with_mmr(stock, [(1, 1), (2, 0)], generator), 2
            fixed = (13,) * by_mmr + (9,) * wrong
            size = limits.table_values(depth) + wrong * (-1) ** len(cases)
            script = Script("order of the rules", stock, size)
            script.open()
            script.table(stock.job(1, 1), first_of(tables.JOB_ORDER, fixed))
            for choice in choices_of((7, 8, 9, 10, 11)):
                rules = choice + (fixed if 7 not in choice else (9,) * wrong)       # the plan of zeros has no MMR piece
                number = first_of(tables.JOB_ORDER, rules)
                for _ in range(2 if number in (9, 13, 10) else 1):
                    script.table(stock.breaking(choice, generator), number)
            # the plan of zeros says a depth of 8: its table would have 768 values
            script.fill(7, ZERO_PLAN)
            script.fill(first_of(tables.FILLING_ORDER, fixed))
            script.show_some()
            script.plain(stock.job(3, 1))
            cases.append(script.case())
    return cases


def wrong_lengths(depth):
    """Just beside both right lengths, the other depth's, one and two components, none."""
    right, other = limits.table_values(depth), limits.table_values(18 - depth)
    lengths = {0, 1, right // 3, 2 * right // 3, other // 3, right - 1, right + 1, other - 1, other, other + 1,
               LARGEST_TABLE}
    return sorted(lengths - {right})


def length_cases(generator):
    """Filling and table jobs with every wrong length: 9, whatever else is broken after it; plain jobs go on."""
    cases = []
    for depth, d in ((8, 23), (10, 18)):
        for at, size in enumerate(wrong_lengths(depth)):
            stock = plain_stock(depth, d, HDR_DEPTHS[at % 2], 2, 8, generator, int(at % 4 == 3))
            script = Script("table of another length", stock, size)
            script.open()
            script.fill(9)
            script.table(stock.job(0, 4, base=OTHER), 9)
            for rules in ((10,), (11,), (10, 11), (9,)):
                script.table(stock.breaking(rules, generator), 9)
            for rules in ((8,), (7,), (7, 8)):
                script.table(stock.breaking(rules, generator), rules[0])
            script.fill(7, ZERO_PLAN)
            script.plain(stock.job(1, 2))
            script.another(with_mmr(stock, [(1 + at % 2, at % 3)], generator), 2)
            script.fill(9)
            script.table(stock.job(0, 1, base=OTHER), 9)
            script.plain(stock.job(3, 1))
            script.show_some()
            cases.append(script.case())
    return cases


def misfit_cases(generator):
    """Output and marks of wrong lengths, each in one of the pictures: 9, after 7 and 8 and before 13, 10 and 11."""
    cases = []
    for depth, output_size, marks in ((8, 23, 3), (10, 25, 5), (8, 0, 0), (10, LARGEST_RUN, LARGEST_MARKS)):
        stock = plain_stock(depth, 20, 12, 2, 8, generator, int(output_size == 25))
        script = Script("output or marks misfit", stock)
        script.pictures = [Picture(spoiled(4), output_size), Picture(spoiled(marks), 24)]
        script.fill()
        script.open()
        script.open(1, number=9)
        for picture in (0, 1):
            script.table(stock.job(0, 1), 9, picture)
            for rules in ((7,), (8,), (9,), (10,), (11,), (10, 11), (7, 8), (8, 10)):
                script.table(stock.breaking(rules, generator), first_of(tables.JOB_ORDER, rules + (9,)), picture)
        script.another(with_mmr(stock, [(1, 0)], generator), 2)
        for picture in (0, 1):
            script.table(stock.job(1, 1), 9, picture)
            script.plain(stock.job(1, 1), 9, picture)
        cases.append(script.case())
    return cases


def bad_sample_cases(generator):
    """Bad samples whose place lies within the table, in the next part or its last place, and some beyond it."""
    cases = []
    for depth, flag in ((8, 0), (10, 1)):
        stock = plain_stock(depth, 22, 12, 2, 8, generator, flag)
        M = 1 << depth
        script = Script("bad sample within the table", stock)
        script.open()
        script.fill()
        script.table(stock.job(0, 1))
        for place, value in ((5, M), (9, 2 * M), (6, 3 * M - 1), (17, M), (18, 2 * M - 1), (21, M), (4, 3 * M),
                             (22, 65535)):
            bad = stock.add(replaced(stock.runs[OTHER], place, value))
            script.table(stock.job(1, 2, base=bad), 11)
        script.table(stock.job(3, 1, base=bad))         # what is bad there lies outside
        if not flag:
            script.table(stock.job(0, 4, base=OTHER, enhancement=bad), 11)
        cases.append(script.case())
    return cases


def refused_filling_cases(generator):
    """A table as it was lent, and one that was filled: 7 and 13 leave both as they are."""
    cases = []
    for depth, d in ((8, 16), (10, 28)):
        stock = plain_stock(depth, d, 10, 2, 8, generator)
        mmr = with_mmr(stock, [(2, 1)], generator)
        script = Script("refused filling", stock)
        script.fill(7, ZERO_PLAN)
        script.another(mmr, 2)
        script.fill(13)
        script.show()
        script.another(stock.plan, 1)
        script.fill()
        script.fill(7, ZERO_PLAN)
        script.another(mmr, 2)
        script.fill(13)
        script.look()
        script.open(number=7, plan=ZERO_PLAN)
        script.another(stock.plan, 1)
        script.open()
        script.table(stock.job(0, 4))
        cases.append(script.case())
    return cases


# Tables that hold anything --------------------------------------------------

def whole_jobs(script, stock):
    """Picture 0 with an enhancement, picture 1 without, both from the table."""
    script.table(stock.job(0, stock.rows))
    script.table(stock.job(0, stock.rows, enhancement=NO_RUN), picture=1)


def narrow_stock(depth, d, hdr_bit_depth, generator, flag=0):
    """Its pivots leave out codes at both ends, and the base has such codes."""
    M = 1 << depth
    sections = [pivot_section(depth, d, [M // 4 + 9 * cmp, M // 2, M - M // 4 - 5 * cmp], generator, 1)
                for cmp in range(3)]
    return Stock(make_plan(depth, d, hdr_bit_depth, 8, 8, sections, flag), generator)


def as_lent_cases(generator):
    """Never filled: each place of the table has another value near 50000."""
    cases = []
    for depth, d, hdr_bit_depth, flag in ((8, 15, 12, 0), (10, 21, 10, 0), (10, 32, 12, 1), (8, 28, 10, 0)):
        stock = narrow_stock(depth, d, hdr_bit_depth, generator, flag)
        script = Script("as lent", stock)
        script.open()
        script.open(1)
        whole_jobs(script, stock)
        script.table(stock.job(1, 2, base=OTHER))
        script.show_some()
        cases.append(script.case())
    return cases


def damaged_cases(generator):
    """All 0, all 65,535, and random content: ranges of any value, then single places of the base's own samples."""
    cases = []
    for depth, d, hdr_bit_depth, flag in ((8, 15, 12, 0), (10, 21, 10, 0), (10, 30, 12, 0), (8, 24, 10, 1)):
        for kind in ("0", "65,535", "any"):
            stock = narrow_stock(depth, d, hdr_bit_depth, generator, flag)
            script = Script("damaged", stock)
            script.fill()
            script.open()
            script.open(1)
            for begin, end, value in damages(kind, stock, script.size, generator):
                script.damage(begin, end, value)
            whole_jobs(script, stock)
            script.show_some()
            script.table(stock.job(1, 2, base=OTHER))
            if kind != "any":
                script.fill()
                script.table(stock.job(2, 2))
            cases.append(script.case())
    return cases


def damages(kind, stock, size, generator):
    if kind != "any":
        return [(0, size, 0 if kind == "0" else 65535)]
    ranges = [(0, size, generator.below(65536))]
    for _ in range(24):
        begin = generator.below(size)
        ranges.append((begin, generator.between(begin, size), generator.below(65536)))
    return ranges + [(place, place + 1, generator.below(65536)) for place in places_met(stock)]


def places_met(stock, base=BASE):
    """The places of the table that the run's samples meet, each once."""
    run, plan = stock.runs[base], stock.plan
    return sorted({tables.place_in_table(plan, cmp, run[at])
                   for k in range(stock.rows) for cmp, at in row_pair_samples(plan, k)})


def single_cases(generator):
    """One place at a time: those that a sample meets, their neighbours, and the same code in the other parts."""
    cases = []
    for depth, d in ((8, 20), (10, 26)):
        for turn in range(2):
            stock = plain_stock(depth, d, 12, 4, 4, generator)
            script = Script("single samples damaged", stock)
            script.open()
            script.open(1)
            script.fill()
            script.both(stock.job(0, 2, enhancement=NO_RUN))
            met, M = places_met(stock), 1 << depth
            chosen = [met[0], met[-1]] + [generator.choice(met) for _ in range(4)]
            for place in chosen:
                for near in (place, place - 1, place + 1, place % M, place % M + M, place % M + 2 * M):
                    if 0 <= near < script.size and (near == place or near not in met or turn):
                        script.damage(near, near + 1, generator.below(65536))
                script.table(stock.job(0, 2, enhancement=NO_RUN if turn else ENHANCEMENT))
            cases.append(script.case())
    return cases


def parts_cases(generator):
    """One value for all of luma, one for Cb, one for Cr; the picture has one code everywhere, and then any."""
    cases = []
    for depth, hdr_bit_depth in ((8, 12), (10, 10)):
        stock = plain_stock(depth, 20, hdr_bit_depth, 4, 4, generator)
        flat = stock.add([generator.below(1 << depth)] * 24)
        script = Script("parts differ", stock)
        script.open()
        script.open(1)
        for cmp, value in enumerate((10000, 20000, 40000)):
            script.damage(cmp << depth, (cmp + 1) << depth, value)
        script.table(stock.job(0, 2, base=flat, enhancement=NO_RUN))
        whole_jobs(script, stock)
        cases.append(script.case())
    return cases


def other_plan_cases(generator):
    """A table that another plan filled: the values are that plan's, residual and depth the job's; then filled anew."""
    cases = []
    for depth, d, flag in ((8, 20, 0), (10, 24, 0), (10, 17, 1)):
        stock = plain_stock(depth, d, 12, 4, 8, generator, flag)
        other = changed(random_like(stock, generator), [(("hdr_bit_depth_minus8",), 2)])
        script = Script("filled from another plan", stock)
        script.open()
        script.open(1)
        script.fill()
        script.both(stock.job(0, 2))
        script.another(other, 1)
        script.table(stock.job(1, 2))
        script.plain(stock.job(1, 2), 0, 1)
        script.fill()
        script.both(stock.job(3, 1))
        script.another(stock.plan, 1)
        script.table(stock.job(0, 1))
        cases.append(script.case())
    return cases


def random_like(stock, generator):
    """Another plan of the same depth and shape."""
    plan = stock.plan
    d = generator.among(denominators(plan.BL_bit_depth))
    return make_plan(plan.BL_bit_depth, d, plan.hdr_bit_depth, plan.width, plan.height,
                     plain_sections(plan.BL_bit_depth, d, generator), plan.disable_residual_flag)


def other_depth_cases(generator):
    """A night, then a block of the other depth: the table has the wrong length for it, and stays as it is."""
    cases = []
    for depth in DEPTHS:
        stock = plain_stock(depth, 21, 12, 4, 8, generator)
        low = stock.add([s % 256 for s in stock.runs[BASE]])
        other = make_plan(18 - depth, 24, 10, 4, 8, plain_sections(18 - depth, 24, generator))
        good = stock.job(0, 2, base=low, enhancement=NO_RUN)
        script = Script("another depth", stock)
        script.open()
        script.open(1)
        script.fill()
        script.both(good)
        script.both(good._replace(first=1))
        script.another(other, 1)
        script.fill(9)
        script.table(good._replace(first=2), 9)
        script.table(stock.breaking((8,), generator), 8)
        script.plain(good._replace(first=2), 0, 1)
        script.show_some()
        script.another(stock.plan, 2)               # read again, and of version 2: an equal plan
        script.table(good._replace(first=2))
        script.both(good._replace(first=0))
        cases.append(script.case())
    return cases


# Nights of both calls -------------------------------------------------------

def expected(stock, job):
    """What a job shows where its table is right and its plan has no MMR piece: what it shows by the plain call."""
    enhancement = [] if job.enhancement == NO_RUN else stock.runs[job.enhancement]
    plan = stock.plan if job.plan == BLOCK_PLAN else Plan()
    output, marks = [0] * stock.plan.picture_samples, [0] * stock.rows
    return jobs.refusal(plan, job.open_ticket, job.ticket, job.first, job.count, stock.runs[job.base], enhancement,
                        output, marks)


def some_refused_step(script, generator):
    """Now and then a filling that is refused, a look at the table, or a plan with an MMR piece: none touches it."""
    stock, kind = script.stock, generator.below(40)
    if kind < 3:
        script.fill(7, ZERO_PLAN)
    elif kind < 6:
        begin = generator.below(script.size)
        script.show(begin, min(begin + generator.below(6), script.size))
    elif kind == 6:
        script.another(with_mmr(stock, [(1 + generator.below(2), generator.below(3))], generator), 2)
        script.fill(13)
        script.table(stock.job(0, stock.rows, base=OTHER), 13)
        script.another(stock.plan, stock.version)


def any_call(script, job, generator, picture=0):
    """One of the two calls; at times both, one after the other."""
    calls = [script.plain, script.table, script.table]
    number = expected(script.stock, job)
    for call in generator.choice(((0,), (1,), (2,), (1, 0), (0, 2))):
        calls[call](job, number, picture)


def mixed_night(at, generator):
    """Within demand 3's premises: the table is filled once, before or after the opening, and not touched."""
    version = 1 + at % 2
    night = random_night(at, generator, version)
    stock = Stock(night.plan, generator, version=version)
    stock.runs, stock.ticket = night.runs, night.ticket
    script = Script("mixed night", stock)
    script.pictures = [Picture(night.marks, night.output_size), Picture([], 0)]
    steps = generator.shuffled((script.open, script.fill))
    for step in steps:
        step()
    for job in night.jobs:
        some_refused_step(script, generator)
        any_call(script, job, generator)
    return script.case()


def second_picture(stock, generator):
    """Another base of the same plan, with an enhancement where the first has one: (their places, another ticket)."""
    base, enhancement = random_picture(stock.plan, generator)
    places = stock.add(base), stock.add(enhancement) if stock.runs[ENHANCEMENT] else NO_RUN
    return places, other_ticket(stock.ticket, generator)


def of_second(job, places, ticket):
    """The same job for the second picture: its runs where the job has the first one's, its tickets, as far apart."""
    base = places[0] if job.base == BASE else job.base
    enhancement = places[1] if job.enhancement == ENHANCEMENT else job.enhancement
    own = ticket ^ job.open_ticket ^ job.ticket
    return job._replace(open_ticket=ticket, ticket=own, base=base, enhancement=enhancement)


def two_pictures_night(at, generator):
    """Two open pictures share one table, jobs in turn; at times one brings the other's ticket (8).

    Now and then the block is read again, so that the plan is another one that is equal.
    """
    rows, version = 1 + at % 8, 1 + at // 8 % 2
    stock = random_stock(rows, generator, version)
    places, ticket = second_picture(stock, generator)
    script = Script("two pictures", stock)
    script.open()
    script.fill()
    script.open(1, ticket=ticket)
    first, second = (lately(stock, mixed_jobs(stock, set(range(rows)), generator.between(6, 14), generator), generator)
                     for _ in range(2))
    second = [of_second(job, places, ticket) for job in second]
    while first or second:
        some_refused_step(script, generator)
        picture = generator.below(2) if first and second else 0 if first else 1
        job = (first, second)[picture].pop()
        any_call(script, job, generator, picture)
        if generator.one_in(8):
            script.table(job._replace(open_ticket=(stock.ticket, ticket)[picture],
                                      ticket=(ticket, stock.ticket)[picture], plan=BLOCK_PLAN), 8, picture)
        if generator.one_in(10):
            script.another(stock.plan, version)
    return script.case()


def free_night(at, generator):
    """Outside the premises: the table is damaged and filled again and again, blocks change, any samples."""
    rows = 1 + (at * 3 + 1) % 8
    stock = random_stock(rows, generator)
    places, ticket = second_picture(stock, generator)
    script = Script("any steps", stock)
    script.pictures = [Picture([generator.choice((0, 0, 1, 2, 255)) for _ in range(rows)],
                               stock.plan.picture_samples) for _ in range(2)]
    plans = [(stock.plan, 1), (random_like(stock, generator), 1), (with_mmr(stock, [(1, 2)], generator), 2)]
    now = 0
    for job in lately(stock, mixed_jobs(stock, set(range(rows)), generator.between(10, 24), generator), generator):
        kind = generator.below(10)
        if kind == 0:
            now = generator.below(3)
            script.another(*plans[now])
        elif kind == 1:
            script.fill(13 if now == 2 else 0)
        elif kind < 4:
            begin = generator.below(script.size)
            script.damage(begin, generator.between(begin, script.size), generator.below(65536))
        elif kind == 4:
            script.open(generator.below(2), ticket=generator.below(TICKETS))
        free_jobs(script, job, plans[now][0], places, ticket, generator)
    return script.case()


def free_jobs(script, job, plan, places, ticket, generator):
    """The job by one call on one of the pictures, for the plan that stands there now."""
    stock, picture = script.stock, generator.below(2)
    if picture == 1:
        job = of_second(job, places, ticket)
    rules = rules_by_plan(stock, job, plan)
    if generator.one_in(3):
        script.plain(job, first_of((7, 8, 9, 10, 11), rules), picture)
    else:
        script.table(job, first_of(tables.JOB_ORDER, rules), picture)


def rules_by_plan(stock, job, plan):
    """The rules that are broken, 13 too: the plain call tells the first of the others."""
    shown = expected(stock, job)
    if job.plan == ZERO_PLAN or not tables.breaks_rule_13(plan):
        return (shown,)
    return (shown, 13)


# The enhancement comes late -------------------------------------------------

def late_script(kind, stock, marks=None):
    """A filled table and two pictures; where marks are given no opening clears them."""
    script = Script(kind, stock)
    script.fill()
    if marks is not None:
        script.pictures = [Picture(list(marks), stock.plan.picture_samples)] * 2
    for picture in (0, 1):
        script.open(picture, *([] if marks is None else [ZERO_PLAN]), number=0 if marks is None else 7)
    return script


def late_cases(generator):
    """The sequences of night_vectors: by the table call on one picture; by both calls in turn on the other."""
    cases = []
    for at, sequence in enumerate(THEN_THERE[:5] + IN_PARTS + AFTER_STANDBY):
        flag = int(at % 6 == 5)
        stock = plain_stock(DEPTHS[at % 2], 19 + at % 5, HDR_DEPTHS[at // 2 % 2], 2, 16, generator, flag)
        script = late_script("late" + ", flag 1" * flag, stock)
        for turn, job in enumerate(late_jobs(stock, sequence)):
            script.table(job)
            (script.table if (turn + at) % 2 else script.plain)(job, 0, 1)
        cases.append(script.case())
    return cases


def late_damaged_cases(generator):
    """The table is damaged between jobs: what is kept has the values of before, what is written has those of now."""
    cases = []
    for at, (depth, d) in enumerate(((8, 17), (10, 22), (8, 26), (10, 29))):
        sequences = (with_it((1, 1), (3, 1)) + without_it((0, 4), (0, 4)),
                     without_it((0, 4)) + with_it((0, 1), (2, 1)) + without_it((0, 3), (1, 3)) + with_it((1, 1)),
                     with_it((0, 4)) + without_it((0, 4), (1, 2)) + with_it((2, 1)) + without_it((2, 2)),
                     with_it((0, 3)) + without_it((2, 2)) + with_it((1, 1)) + without_it((0, 4)))
        stock = plain_stock(depth, d, HDR_DEPTHS[at % 2], 4, 8, generator)
        for turn, sequence in enumerate(sequences):
            script = late_script("late, damaged", stock)
            for job in late_jobs(stock, sequence):
                script.table(job)
                script.table(job, 0, 1) if turn % 2 else script.plain(job, 0, 1)
                begin = generator.below(script.size // 2)
                script.damage(begin // 8 if turn < 2 else 0, script.size, generator.below(65536))
            if turn == 1:
                script.open(1)                          # all wait again: a job without enhancement writes them
                script.table(stock.job(0, 3, enhancement=NO_RUN), 0, 1)
            cases.append(script.case())
    return cases


def late_refused_cases(generator):
    """Refused table jobs without enhancement between others, by every rule; what is kept counts for 11."""
    cases = []
    for depth, d in ((8, 21), (10, 27)):
        stock = plain_stock(depth, d, 12, 2, 8, generator)
        script = late_script("late, refused between", stock)
        bad = [bad_in(stock, k, generator) for k in range(4)]
        for picture, first in ((0, stock.job(0, 3)), (1, stock.job(1, 1))):
            script.table(first, 0, picture)
            for k in range(4):
                script.table(stock.job(0, 4, base=bad[k], enhancement=NO_RUN), 11, picture)
            script.table(stock.job(1, 1, base=bad[1], enhancement=NO_RUN), 11, picture)
            script.plain(stock.job(1, 1, base=bad[1], enhancement=NO_RUN), 11, picture)
            script.table(stock.job(1, 1, base=bad[2], enhancement=NO_RUN), 0, picture)
            for rules in ((7,), (8,), (10,), (8, 10)):
                script.table(stock.breaking(rules, generator)._replace(enhancement=NO_RUN), rules[0], picture)
            script.another(with_mmr(stock, [(2, 1)], generator), 2)
            script.table(stock.job(1, 1, base=OTHER, enhancement=NO_RUN), 13, picture)
            script.table(stock.job(1, 1, base=bad[1], enhancement=NO_RUN), 13, picture)
            script.another(stock.plan, stock.version)
        script.table(stock.job(0, 3, enhancement=NO_RUN), 0, 1)
        cases.append(script.case())
    return cases


def late_spoiled_cases(generator):
    """Marks of every sort that no opening cleared, and tables as they were lent: picture 0 without, picture 1 with."""
    cases = []
    for at, marks in enumerate(LATE_MARKS):
        for flag in (0, 1):
            stock = plain_stock(DEPTHS[at % 2], 20 + at, 12, 2, 16, generator, flag)
            script = late_script("late, spoiled marks" + ", flag 1" * flag, stock, marks)
            for job in late_jobs(stock, without_it((0, 8))):
                script.table(job)
            for job in late_jobs(stock, with_it((2, 3)) + without_it((1, 5)) + with_it((6, 2))):
                script.table(job, 0, 1)
            cases.append(script.case())
            script = late_script("late, spoiled marks" + ", flag 1" * flag, stock, marks)
            for job in late_jobs(stock, without_it(*in_turn(8)[at::2])):
                script.table(job)
            kept = next(k for k, mark in enumerate(marks) if mark not in (0, 2))
            script.table(stock.job(0, 8, base=bad_in(stock, kept, generator), enhancement=NO_RUN), 11)
            script.table(stock.job(kept, 1, enhancement=NO_RUN))
            script.table(stock.job(0, 8), 0, 1)
            cases.append(script.case())
    return cases


# ----------------------------------------------------------------------------

def all_cases():
    return (worked_cases(Generator(801))
            + plain_filled_cases(Generator(802))
            + pivot_filled_cases(Generator(803))
            + curve_filled_cases(Generator(804))
            + cut_filled_cases(Generator(805))
            + length_cases(Generator(806))
            + thirteen_cases(Generator(807))
            + order_cases(Generator(808))
            + misfit_cases(Generator(817))
            + bad_sample_cases(Generator(816))
            + refused_filling_cases(Generator(809))
            + as_lent_cases(Generator(810))
            + damaged_cases(Generator(811))
            + single_cases(Generator(812))
            + parts_cases(Generator(813))
            + other_plan_cases(Generator(814))
            + other_depth_cases(Generator(815))
            + [mixed_night(at, Generator(820 + at)) for at in range(32)]
            + [two_pictures_night(at, Generator(860 + at)) for at in range(16)]
            + [free_night(at, Generator(880 + at)) for at in range(12)]
            + late_cases(Generator(901))
            + late_damaged_cases(Generator(902))
            + late_refused_cases(Generator(903))
            + late_spoiled_cases(Generator(904)))


def lines_of(cases, lines):
    """Of each case its own lines: one a step, and four."""
    at, parts = 0, []
    for case in cases:
        parts.append(lines[at:at + len(case.steps) + 4])
        at += len(parts[-1])
    assert at == len(lines)
    return parts


def checked(cases, lines):
    """Stops where a step shows another number than it was made with."""
    for case, shown in zip(cases, lines_of(cases, lines)):
        for at, (step, line) in enumerate(zip(case.steps, shown)):
            refused = int(line.split()[1]) if line.startswith("refused") else 0
            assert refused == step.number, (case.kind, at, step, line)
