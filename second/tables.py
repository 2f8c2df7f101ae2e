"""A table in place of the sum (the house rules, "Tables that are lent"): filling one, and the job that looks it up.

The table is lent like the output run and the marks: an accepted filling changes
all of it in place, a refused one nothing, and a job only reads it.
"""

import jobs
import limits
import nights
from composer import assign_pivot_values, map_sample
from jobs import first_met

# The order in which the rules are tested, here and nowhere else: 13 stands directly after 9.
FILLING_ORDER = (7, 9, 13)
JOB_ORDER = (7, 8, 9, 13, 10, 11)


def breaks_rule_13(plan):
    """A piece in use is MMR, whether a sample meets it or not: its value would hang on three samples."""
    return any(plan.mapping_idc[cmp][piece] == limits.MMR
               for cmp in range(3) for piece in range(limits.pieces(plan.num_pivots_minus2[cmp])))


def table_misfits(plan, table):
    """The part of rule 9 that a table has."""
    return len(table) != limits.table_values(plan.BL_bit_depth)


# Filling --------------------------------------------------------------------

def filling_rules(plan, table):
    """What each rule of a filling asks."""
    return {7: lambda: jobs.breaks_rule_7(plan),
            9: lambda: table_misfits(plan, table),
            13: lambda: breaks_rule_13(plan)}


def mapped_values(plan):
    """Clause 5.4.2 for every code: luma, then Cb, then Cr; a polynomial looks at the component's own sample alone."""
    pivot_value = assign_pivot_values(plan.pred_pivot_value, plan.num_pivots_minus2)
    return [map_sample(plan, pivot_value, cmp, [s] * 3)
            for cmp in range(3) for s in limits.samples(plan.BL_bit_depth)]


def fill_table(plan, table, order=FILLING_ORDER, rules=filling_rules, values=mapped_values):
    """Give 0 with the table filled, or 7, 9 or 13.

    The right order, rules and values are the ones given here; wrong_tables.py has others.
    """
    number = first_met(order, rules(plan, table))
    if number == 0:
        table[:] = values(plan)
    return number


# The second job call --------------------------------------------------------

def job_rules(plan, table, *lent):
    """What each rule of a table job asks: those of a job, the table's length, and rule 13."""
    of_a_job = jobs.rules(plan, *lent)
    return {**of_a_job,
            9: lambda: of_a_job[9]() or table_misfits(plan, table),
            13: lambda: breaks_rule_13(plan)}


def place_in_table(plan, cmp, s):
    """Where the value of a component's sample stands; the sample is not clamped."""
    return (cmp << plan.BL_bit_depth) + s


def looking_up(table):
    """What stands in the place of clause 5.4.2: whatever the table holds."""
    return lambda plan, pivot_value, base, cmp, at: table[place_in_table(plan, cmp, base[at])]


def table_job(plan, table, open_ticket, ticket, first, count, base, enhancement, output, marks,
              order=JOB_ORDER, rules=job_rules, look_up=looking_up, done=nights.compose_and_mark):
    """Give (0, the two counts) with row pairs composed from the table, or (7 to 11 or 13, None).

    What it composes and marks is what the other call would.  As in fill_table the last four are the right ones.
    """
    number = first_met(order, rules(plan, table, open_ticket, ticket, first, count, base, enhancement, output, marks))
    if number != 0:
        return number, None
    return 0, done(plan, first, count, base, enhancement, output, marks, look_up(table))
