"""Rules 7 to 11 of the house rules, and a job without tickets and marks."""

import limits
from block import header_in_range
from composer import compose_row_pairs, enhancement_used, map_place, row_pair_samples
from limits import PIECE_PLACES


# The order in which the rules of a job are tested, here and nowhere else.
ORDER = (7, 8, 9, 10, 11)


def job(plan, first, count, base, enhancement, output, mapping=map_place):
    """A job with equal tickets and with marks of the right length, all of them 0: it composes all that it names.

    Give (0, the new output run), or (7, 9, 10 or 11, None).
    """
    marks = [0] * plan.half_height
    number = refusal(plan, 0, 0, first, count, base, enhancement, output, marks)
    if number != 0:
        return number, None
    return 0, compose_row_pairs(plan, first, count, base, enhancement, output, mapping)


def refusal(*given):
    """The first rule that is broken, in the order of the house rules, or 0; given is what `rules` is given."""
    return first_met(ORDER, rules(*given))


def first_met(order, rules):
    """The first rule of this order that is met, or 0; those after it are not asked, as they lean on it."""
    return next((number for number in order if rules[number]()), 0)


def rules(plan, open_ticket, ticket, first, count, base, enhancement, output, marks):
    """What each rule of a job asks; of the marks their number alone, so that none asks what a job will keep."""
    return {7: lambda: breaks_rule_7(plan),
            8: lambda: breaks_rule_8(open_ticket, ticket),
            9: lambda: breaks_rule_9(plan, base, enhancement, output, marks),
            10: lambda: breaks_rule_10(plan, first, count),
            11: lambda: breaks_rule_11(plan, first, count, base, enhancement)}


def breaks_rule_7(plan):
    """A range, a mapping_idc that its component does not have, or an unused place that is not 0."""
    if not header_in_range(plan):
        return True
    return not all(_component_in_range(plan, cmp) for cmp in range(3))


def _component_in_range(plan, cmp):
    n = plan.num_pivots_minus2[cmp]
    if n not in limits.N:
        return False
    return (_pivots_in_range(plan, cmp, n)
            and all(_piece_in_range(plan, cmp, piece)
                    for piece in range(limits.pieces(n)))
            and all(_piece_is_zero(plan, cmp, piece)
                    for piece in range(limits.pieces(n), PIECE_PLACES))
            and _quantization_in_range(plan, cmp))


def _pivots_in_range(plan, cmp, n):
    pred_pivot_value = plan.pred_pivot_value[cmp]
    used, allowed = limits.pivots(n), limits.samples(plan.BL_bit_depth)
    return (all(pred_pivot_value[i] in allowed for i in range(used))
            and not any(pred_pivot_value[used:]))


def _piece_in_range(plan, cmp, piece):
    idc, order = plan.mapping_idc[cmp][piece], plan.order_minus1[cmp][piece]
    if idc not in limits.methods(cmp) or order not in limits.orders(idc):
        return False
    coef = plan.fp_coef[cmp][piece]
    allowed, used = limits.coefficients(plan.coefficient_log2_denom, idc), limits.coefs(order, idc)
    return (all(coef[i] in allowed for i in range(used))
            and not any(coef[used:]))


def _piece_is_zero(plan, cmp, piece):
    return (plan.mapping_idc[cmp][piece] == 0
            and plan.order_minus1[cmp][piece] == 0
            and not any(plan.fp_coef[cmp][piece]))


def _quantization_in_range(plan, cmp):
    allowed = limits.nlq_numbers(plan.coefficient_log2_denom)
    return (plan.nlq_offset[cmp] in limits.samples(plan.EL_bit_depth)
            and plan.fp_hdr_in_max[cmp] in allowed
            and plan.fp_linear_deadzone_slope[cmp] in allowed
            and plan.fp_linear_deadzone_threshold[cmp] in allowed)


def breaks_rule_8(open_ticket, ticket):
    """The job's own ticket is not that of the opened picture."""
    return ticket != open_ticket


def breaks_rule_9(plan, base, enhancement, output, marks):
    """A lent run of the wrong length."""
    size = plan.picture_samples
    if len(base) != size or len(output) != size or marks_misfit(plan, marks):
        return True
    return enhancement_used(plan, enhancement) and len(enhancement) != size


def marks_misfit(plan, marks):
    """The part of rule 9 that an opening has too."""
    return len(marks) != plan.half_height


def breaks_rule_10(plan, first, count):
    """No row pair, or one that the picture does not have."""
    return count == 0 or first + count > plan.half_height


def breaks_rule_11(plan, first, count, base, enhancement):
    """A sample of the job's row pairs that its depth does not hold."""
    used = enhancement_used(plan, enhancement)
    for k in range(first, first + count):
        for _, at in row_pair_samples(plan, k):
            if base[at] not in limits.samples(plan.BL_bit_depth):
                return True
            if used and enhancement[at] not in limits.samples(plan.EL_bit_depth):
                return True
    return False
