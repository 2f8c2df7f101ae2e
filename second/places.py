"""The places of a plan in the order in which the vectors number them (README.md)."""

import dataclasses

from limits import COEF_PLACES, PIECE_PLACES, PIVOT_PLACES

HEADER = ("ccm_profile", "ccm_level", "coefficient_log2_denom", "BL_bit_depth_minus8",
          "EL_bit_depth_minus8", "hdr_bit_depth_minus8", "disable_residual_flag",
          "half_width", "half_height", "max_display_mastering_luminance",
          "min_display_mastering_luminance")
PIECE = ("mapping_idc", "order_minus1", "fp_coef")
NLQ = ("nlq_offset", "fp_hdr_in_max", "fp_linear_deadzone_slope",
       "fp_linear_deadzone_threshold")


def _component(cmp):
    yield "num_pivots_minus2", cmp
    for i in range(PIVOT_PLACES):
        yield "pred_pivot_value", cmp, i
    for piece in range(PIECE_PLACES):
        yield "mapping_idc", cmp, piece
        yield "order_minus1", cmp, piece
        for i in range(COEF_PLACES):
            yield "fp_coef", cmp, piece, i
    for name in NLQ:
        yield name, cmp


# A place is the name of a field of Plan and its indices.
PLACES = [(name,) for name in HEADER] + [place for cmp in range(3) for place in _component(cmp)]
NUMBERS = {place: number for number, place in enumerate(PLACES)}
LISTS = ("num_pivots_minus2", "pred_pivot_value", *PIECE, *NLQ)


def get(plan, place):
    value = getattr(plan, place[0])
    for index in place[1:]:
        value = value[index]
    return value


def put(plan, place, value):
    name, *indices = place
    if not indices:
        setattr(plan, name, value)
        return
    holder = getattr(plan, name)
    for index in indices[:-1]:
        holder = holder[index]
    holder[indices[-1]] = value


def changed(plan, edits):
    """A copy of the plan with these edits, (place, value), made in order."""
    out = dataclasses.replace(plan, **{name: copied(getattr(plan, name)) for name in LISTS})
    for place, value in edits:
        put(out, place, value)
    return out


def copied(value):
    """A nested list; many times faster than a deep copy."""
    return [copied(one) for one in value] if isinstance(value[0], list) else value[:]


def values(plan):
    return [get(plan, place) for place in PLACES]


def is_signed(place):
    return place[0] == "fp_coef"
