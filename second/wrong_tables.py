"""Programs with one mistake each about tables, by name: what table_vectors has to tell from the right one.

table_cases.py says which kind of case shows which of them, and selftest.py holds it to that.  The mistakes about an
enhancement that comes late (wrong_nights.py) are among them, each in the table job alone.
"""

from collections import namedtuple
from functools import partial

import jobs
import limits
import nights
import search_cases
import tables
import wrong_mappers
import wrong_nights
from composer import (assign_pivot_values, clamped, compose_chosen, derive_pivot_idx, map_place,
                      row_pair_samples)
from limits import table_values

# A program is its two calls; the right one is the module tables.
Tables = namedtuple("Tables", "fill_table table_job")


def filling(call=tables.fill_table, **parts):
    return Tables(partial(call, **parts), tables.table_job)


def job(**parts):
    return Tables(tables.fill_table, partial(tables.table_job, **parts))


# Rules ----------------------------------------------------------------------

def filling_rule(number, test):
    """The rules of a filling, one of them by another test of the plan and the table."""
    return lambda plan, table: {**tables.filling_rules(plan, table), number: lambda: test(plan, table)}


def job_rule(number, test):
    """The rules of a table job, one of them by another test of all that it is given."""
    return lambda *given: {**tables.job_rules(*given), number: lambda: test(*given)}


def never(*given):
    return False


def filled_as_far(plan, table, rules):
    """A filling that may be lent a table of another length: it writes what there is a place for."""
    number = tables.first_met(tables.FILLING_ORDER, rules(plan, table))
    if number == 0:
        write(table, tables.mapped_values(plan))
    return number


def write(table, values):
    """As many values as the table has places; those after them stay."""
    for place, value in enumerate(values[:len(table)]):
        table[place] = value


def guarded(table):
    """A look-up that gives 0 beyond the table."""
    def mapping(plan, pivot_value, base, cmp, at):
        place = tables.place_in_table(plan, cmp, base[at])
        return table[place] if place < len(table) else 0
    return mapping


def job_lengths(misfits):
    """Rule 9 with another test of the table's length."""
    def test(plan, table, open_ticket, ticket, first, count, base, enhancement, output, marks):
        return jobs.breaks_rule_9(plan, base, enhancement, output, marks) or misfits(plan, table)
    return job(rules=job_rule(9, test), look_up=guarded)


def filling_lengths(misfits):
    return filling(filled_as_far, rules=filling_rule(9, misfits))


def shorter_taken(plan, table):
    return len(table) > table_values(plan.BL_bit_depth)


def longer_taken(plan, table):
    return len(table) < table_values(plan.BL_bit_depth)


def length_of(depth):
    return lambda plan, table: len(table) != table_values(depth)


def without_cr(plan, table):
    return len(table) not in (2 << plan.BL_bit_depth, 3 << plan.BL_bit_depth)


def length_after(later):
    """The table's length is tested after these rules of a job."""
    def test(plan, table, *lent):
        rules = tables.job_rules(plan, table, *lent)
        open_ticket, ticket, first, count, *runs = lent
        if jobs.breaks_rule_9(plan, *runs):
            return True
        return tables.table_misfits(plan, table) and not any(rules[number]() for number in later)
    return job(rules=job_rule(9, test))


BASE, ENHANCEMENT, OUTPUT, MARKS = range(4)         # the runs that a job is lent, in their order


def any_length(which):
    """One of the runs is taken as it is: zeros stand for what it does not have, and what is too much is left."""
    def table_job(plan, table, open_ticket, ticket, first, count, *runs):
        runs, lent = list(runs), runs[which]
        size = plan.half_height if which == MARKS else plan.picture_samples
        if len(lent) > 0 or which != ENHANCEMENT:
            runs[which] = (list(lent) + [0] * size)[:size]
        answer = tables.table_job(plan, table, open_ticket, ticket, first, count, *runs)
        if which in (OUTPUT, MARKS):
            write(lent, runs[which])
        return answer
    return Tables(tables.fill_table, table_job)


def ignored_tested(plan, table, open_ticket, ticket, first, count, base, enhancement, output, marks):
    """Rule 9 as if an enhancement were used wherever there is one."""
    return (jobs.breaks_rule_9(plan, base, enhancement, output, marks) or tables.table_misfits(plan, table)
            or len(enhancement) not in (0, plan.picture_samples))


def mmr_among(components, pieces_of):
    """Rule 13 that looks at these components, and of each at the pieces that pieces_of gives."""
    def test(plan, table, *lent):
        return any(plan.mapping_idc[cmp][piece] == limits.MMR for cmp in components for piece in pieces_of(plan, cmp))
    return test


def all_pieces(plan, cmp):
    return range(limits.pieces(plan.num_pivots_minus2[cmp]))


def without_last(plan, cmp):
    return range(plan.num_pivots_minus2[cmp] + 1)


def last_alone(plan, cmp):
    return [plan.num_pivots_minus2[cmp] + 1]


def reachable(plan, cmp):
    """Those that a code meets."""
    pivot_value = assign_pivot_values(plan.pred_pivot_value, plan.num_pivots_minus2)
    return {derive_pivot_idx(s, cmp, plan.num_pivots_minus2, pivot_value) for s in limits.samples(plan.BL_bit_depth)}


def profile_four(plan, table, *lent):
    return tables.breaks_rule_13(plan) or plan.ccm_profile == 4


def some_row_pairs(plan, table, open_ticket, ticket, first, count, *runs):
    """Rule 10 without its first part."""
    return first + count > plan.half_height


def beyond_the_table(plan, table, open_ticket, ticket, first, count, base, enhancement, output, marks):
    """Rule 11 where the base would be looked up beyond the table; an enhancement is tested as it should."""
    far = [s for k in range(first, first + count) for s in row_pair_places(plan, k, base) if s >= len(table)]
    return far != [] or jobs.breaks_rule_11(plan, first, count, [0] * len(base), enhancement)


def row_pair_places(plan, k, base):
    return [tables.place_in_table(plan, cmp, base[at]) for cmp, at in row_pair_samples(plan, k)]


# Looking up -----------------------------------------------------------------

def parts(of):
    """Each component in the part that `of` has for it."""
    def look_up(table):
        return lambda plan, pivot_value, base, cmp, at: table[tables.place_in_table(plan, of[cmp], base[at])]
    return look_up


def values_by(change):
    """What `change` makes of a value, given the value and the bits that the output does not have."""
    def look_up(table):
        right = tables.looking_up(table)
        return lambda plan, *place: change(right(plan, *place), 16 - plan.hdr_bit_depth)
    return job(look_up=look_up)


def clamping(table):
    def mapping(plan, pivot_value, base, cmp, at):
        s = min(clamped(base[at], cmp, plan.num_pivots_minus2, pivot_value), (1 << plan.BL_bit_depth) - 1)
        return table[tables.place_in_table(plan, cmp, s)]
    return mapping


def code_after(table):
    def mapping(plan, pivot_value, base, cmp, at):
        return table[min(tables.place_in_table(plan, cmp, base[at]) + 1, len(table) - 1)]
    return mapping


def clearing(table):
    def mapping(plan, pivot_value, base, cmp, at):
        place = tables.place_in_table(plan, cmp, base[at])
        value, table[place] = table[place], 0
        return value
    return mapping


def not_above(table):
    """No more than what the plan would give."""
    right = tables.looking_up(table)
    return lambda *place: min(right(*place), map_place(*place))


def filled_first(plan, table, *lent):
    """The job fills the table that it looks up."""
    if tables.first_met(tables.JOB_ORDER, tables.job_rules(plan, table, *lent)) == 0:
        tables.fill_table(plan, table)
    return tables.table_job(plan, table, *lent)


# What an accepted job does --------------------------------------------------

def without_residual(plan, first, count, base, enhancement, output, marks, mapping):
    """It takes and marks the right row pairs, and leaves the residual out of their samples."""
    row_pairs = nights.composed_by(plan, first, count, enhancement, marks)
    counted = nights.compose_and_mark(plan, first, count, base, enhancement, output, marks, mapping)
    output[:] = compose_chosen(plan, row_pairs, base, [], output, mapping)
    return counted


def subtracting(plan, first, count, base, enhancement, output, marks, mapping):
    """Rows left by what the job names, not by the marks: a job that comes again counts twice."""
    before = nights.counted(marks).left
    counted = nights.compose_and_mark(plan, first, count, base, enhancement, output, marks, mapping)
    return counted._replace(left=max(before - count, 0))


def counting_before(plan, first, count, base, enhancement, output, marks, mapping):
    before = nights.counted(marks).left
    counted = nights.compose_and_mark(plan, first, count, base, enhancement, output, marks, mapping)
    return counted._replace(left=before)


def not_marking(plan, first, count, base, enhancement, output, marks, mapping):
    before = list(marks)
    counted = nights.compose_and_mark(plan, first, count, base, enhancement, output, marks, mapping)
    marks[:] = bytes(before)
    return counted


# Filling --------------------------------------------------------------------

def values_in(order):
    """The parts in another order."""
    def values(plan):
        right, size = tables.mapped_values(plan), 1 << plan.BL_bit_depth
        return [value for cmp in order for value in right[cmp * size:(cmp + 1) * size]]
    return values


def interleaved(plan):
    right, size = tables.mapped_values(plan), 1 << plan.BL_bit_depth
    return [right[cmp * size + s] for s in range(size) for cmp in range(3)]


def shifted(plan):
    right = tables.mapped_values(plan)
    return right[1:] + right[-1:]


def at_output_depth(plan):
    return [value >> (16 - plan.hdr_bit_depth) for value in tables.mapped_values(plan)]


def places_left(keeps):
    """A filling that leaves the places for which `keeps` holds, given the component, the code and the depth."""
    def fill_table(plan, table):
        number = tables.first_met(tables.FILLING_ORDER, tables.filling_rules(plan, table))
        if number == 0:
            for place, value in enumerate(tables.mapped_values(plan)):
                if not keeps(*divmod(place, 1 << plan.BL_bit_depth), plan.BL_bit_depth):
                    table[place] = value
        return number
    return filling(fill_table)


def writing_before(rule, size=None):
    """A filling that writes so much before this rule refuses it."""
    def fill_table(plan, table):
        number = tables.fill_table(plan, table)
        if number == rule:
            write(table, tables.mapped_values(plan)[:size and 1 << plan.BL_bit_depth])
        return number
    return filling(fill_table)


def clearing_filling(plan, table):
    number = tables.fill_table(plan, table)
    if number != 0:
        write(table, [0] * len(table))
    return number


def by_mapping(mapping):
    """Filled by a mapping of wrong_mappers.py: of pictures that have one code everywhere."""
    def values(plan):
        pivot_value = assign_pivot_values(plan.pred_pivot_value, plan.num_pivots_minus2)
        luma = plan.width * plan.height
        return [mapping(plan, pivot_value, [s] * plan.picture_samples, cmp, (0, luma, luma + luma // 4)[cmp])
                for cmp in range(3) for s in limits.samples(plan.BL_bit_depth)]
    return filling(values=values)


def cut_by(cut):
    """Values as `cut` makes them of the sum's part that counts."""
    def mapping(plan, pivot_value, base, cmp, at):
        piece = derive_pivot_idx(base[at], cmp, plan.num_pivots_minus2, pivot_value)
        s = clamped(base[at], cmp, plan.num_pivots_minus2, pivot_value)
        rr = wrong_mappers.poly_sum(plan.fp_coef[cmp][piece], s, plan.BL_bit_depth)
        return cut(rr >> (4 + plan.coefficient_log2_denom))
    return by_mapping(mapping)


MAPPINGS = search_cases.FILLINGS + ("the piece of the clamped sample", "piece n where no pivot exceeds the sample")

WRONG = {
    "13 before 9": job(order=(7, 8, 13, 9, 10, 11)),
    "13 before 9 in filling": filling(order=(7, 13, 9)),
    "the table's length after 13": length_after((13,)),
    "the table's length tested last": length_after((13, 10, 11)),
    "13 after 10": job(order=(7, 8, 9, 10, 13, 11)),
    "13 after 11": job(order=(7, 8, 9, 10, 11, 13)),
    "7 after 9": job(order=(9, 7, 8, 13, 10, 11)),
    "7 after 9 in filling": filling(order=(9, 7, 13)),
    "9 before 8": job(order=(7, 9, 8, 13, 10, 11)),
    "the base's length not tested": any_length(BASE),
    "the enhancement's length not tested": any_length(ENHANCEMENT),
    "the output's length not tested": any_length(OUTPUT),
    "the marks' length not tested": any_length(MARKS),
    "an enhancement tested though it is ignored": job(rules=job_rule(9, ignored_tested)),
    "8 not tested": job(rules=job_rule(8, never)),
    "0 row pairs taken": job(rules=job_rule(10, some_row_pairs)),
    "11 not tested": job(rules=job_rule(11, never), look_up=guarded),
    "11 by the table's end": job(rules=job_rule(11, beyond_the_table)),
    "13 not tested": job(rules=job_rule(13, never)),
    "13 not tested in filling": filling(rules=filling_rule(13, never)),
    "13 looks at Cb only": job(rules=job_rule(13, mmr_among([1], all_pieces))),
    "13 looks at Cr only": job(rules=job_rule(13, mmr_among([2], all_pieces))),
    "13 looks at Cb only in filling": filling(rules=filling_rule(13, mmr_among([1], all_pieces))),
    "13 looks at Cr only in filling": filling(rules=filling_rule(13, mmr_among([2], all_pieces))),
    "13 forgets piece n + 1": job(rules=job_rule(13, mmr_among([1, 2], without_last))),
    "13 forgets piece n + 1 in filling": filling(rules=filling_rule(13, mmr_among([1, 2], without_last))),
    "13 looks at piece n + 1 only": job(rules=job_rule(13, mmr_among([1, 2], last_alone))),
    "13 looks at piece 0 only": job(rules=job_rule(13, mmr_among([1, 2], lambda plan, cmp: [0]))),
    "13 only for reachable pieces": job(rules=job_rule(13, mmr_among([1, 2], reachable))),
    "13 only for reachable pieces in filling": filling(rules=filling_rule(13, mmr_among([1, 2], reachable))),
    "13 for a plan of profile 4": job(rules=job_rule(13, profile_four)),
    "a wrong table length not refused": job_lengths(never),
    "a wrong table length not refused in filling": filling_lengths(never),
    "a shorter table taken": job_lengths(shorter_taken),
    "a longer table taken": job_lengths(longer_taken),
    "a shorter table filled": filling_lengths(shorter_taken),
    "a longer table filled": filling_lengths(longer_taken),
    "the length compared with 3,072": job_lengths(length_of(10)),
    "the length compared with 768": job_lengths(length_of(8)),
    "the length compared with 3,072 in filling": filling_lengths(length_of(10)),
    "the length compared with 768 in filling": filling_lengths(length_of(8)),
    "two components are enough": job_lengths(without_cr),
    "Cb looked up in Cr's part": job(look_up=parts((0, 2, 2))),
    "Cr looked up in Cb's part": job(look_up=parts((0, 1, 1))),
    "luma's part for all": job(look_up=parts((0, 0, 0))),
    "parts luma, Cr, Cb": job(look_up=parts((0, 2, 1))),
    "parts luma, Cr, Cb in both calls": Tables(partial(tables.fill_table, values=values_in((0, 2, 1))),
                                               partial(tables.table_job, look_up=parts((0, 2, 1)))),
    "the sample clamped to the pivots": job(look_up=clamping),
    "the code after looked up": job(look_up=code_after),
    "values cut to the output's depth": values_by(lambda value, drop: value >> drop << drop),
    "values shifted to the output's depth": values_by(lambda value, drop: value >> drop),
    "values held below 2^out": values_by(lambda value, drop: min(value, (1 << (16 - drop)) - 1)),
    "values without their last bit": values_by(lambda value, drop: value & ~1),
    "values above the mapped one not taken": job(look_up=not_above),
    "what was looked up is cleared": job(look_up=clearing),
    "the table not read": job(look_up=lambda table: map_place),
    "the table filled first": Tables(tables.fill_table, filled_first),
    "the residual forgotten": job(done=without_residual),
    "rows left subtracted": job(done=subtracting),
    "rows left of the marks before": job(done=counting_before),
    "marks not written": job(done=not_marking),
    "filled luma, Cr, Cb": filling(values=values_in((0, 2, 1))),
    "luma's values for all": filling(values=values_in((0, 0, 0))),
    "luma and Cb filled": places_left(lambda cmp, s, depth: cmp == 2),
    "luma and Cr filled": places_left(lambda cmp, s, depth: cmp == 1),
    "luma filled": places_left(lambda cmp, s, depth: cmp > 0),
    "the last code left": places_left(lambda cmp, s, depth: s == (1 << depth) - 1),
    "filled by three values a code": filling(values=interleaved),
    "values of the output's depth filled": filling(values=at_output_depth),
    "the mapping of the code after": filling(values=shifted),
    "refuses every filling": filling(rules=filling_rule(7, lambda plan, table: True)),
    "values not cut at 65,535": cut_by(lambda v: max(v, 0) & 0xffff),
    "negative sums not raised to 0": cut_by(lambda v: min(v, 0xffff) & 0xffff),
    "filling writes before 7": writing_before(7),
    "filling writes before 9": writing_before(9),
    "filling writes before 13": writing_before(13),
    "luma filled before 13": writing_before(13, 1),
    "the table cleared by a refusal": filling(clearing_filling),
    **{"filled: " + name: by_mapping(wrong_mappers.WRONG[name]) for name in MAPPINGS},
    **{"late: " + name: job(**wrong_nights.parts_of(wrong, tables.job_rules))
       for name, wrong in wrong_nights.MISTAKES.items()},
}
