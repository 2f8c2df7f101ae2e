"""The gate's run of author: its word list, two words a group, and the files that the words name.

What a group is to show stands with it; `checked` stops where it shows another. A text whose form is wrong ends with the
wrong line, as what comes after is not read.
"""

import os
from collections import namedtuple

import block
import block_cases
import limits
import plan_text
from composer import Plan
from generator import Generator
from sample_cases import set_piece

# `shows` stands in the line that says why nothing is written or shown; it is None where all is well.
Group = namedtuple("Group", "first second shows")

TEXT_PAGE = os.path.join(os.path.dirname(os.path.abspath(__file__)), "..", "docs", "TEXT.md")
SHOW = "--text"
OUT = "out.block"
LEFT_OVER = "left_over"                                 # a last word that belongs to no group


def page_lines():
    """The shortest block's text, which docs/TEXT.md has."""
    with open(TEXT_PAGE, encoding="utf-8") as file:
        return [line[4:].rstrip("\n") for line in file if line.startswith("    ")]


LINES = page_lines()


def second_lines():
    """The same in version 2: each component has a piece 1 too, of its own, 36 bytes more in all."""
    out = ["version 2"]
    for line in LINES[1:]:
        if line.startswith("nlq_offset"):
            out += ["piece 1", "mapping_idc 0", "poly_order_minus1 0", "poly_coef 0 %d" % len(out), "poly_coef -1 1"]
        out.append(line)
    return out


SECOND_LINES = second_lines()


def mmr_lines():
    """The same with MMR in chroma: of the first order in Cb, of the second in Cr, each number another one."""
    out, order = [], 0
    for line in LINES:
        chroma = "component 1" in out
        if chroma and line.startswith("mapping_idc"):
            out += ["mapping_idc 1", "mmr_order_minus1 %d" % order, "mmr_constant 0 4194304"]
            out += ["mmr_coef %d %d" % (i % 4 - 2, 1000 * i + order) for i in range(limits.MMR_TERMS * (order + 1))]
            order += 1
        elif not (chroma and line.startswith("poly_")):
            out.append(line)
    return out


MMR_LINES = mmr_lines()


def joined(lines):
    return "".join(line + "\n" for line in lines).encode("ascii")


def changed(lines, *edits):
    """The text with these lines in place of others: (line, counted from 1; new)."""
    out = list(lines)
    for line, new in edits:
        out[line - 1] = new
    return joined(out)


def begun(line, new, lines=LINES):
    """The lines before this one, and another in its place."""
    return joined(lines[:line - 1] + [new])


def find(lines, *begins):
    """The line, counted from 1, that begins with the last of these, after one that begins with each of the others."""
    at = 0
    for begin in begins:
        at = next(i for i in range(at, len(lines)) if (lines[i] + " ").startswith(begin + " ")) + 1
    return at


# Texts that are written -----------------------------------------------------

def end_plan(at):
    """Every field at its least (at 0) or at its greatest (at -1), and so many pivots and coefficients."""
    depth, hdr_depth = limits.DEPTHS[at], limits.HDR_DEPTHS[at]
    plan = Plan(ccm_profile=limits.PROFILES[at], ccm_level=limits.LEVELS[at],
                coefficient_log2_denom=limits.denominators(depth)[at], BL_bit_depth_minus8=depth - 8,
                EL_bit_depth_minus8=depth - 8, hdr_bit_depth_minus8=hdr_depth - 8,
                disable_residual_flag=limits.FLAGS[at], half_width=limits.HALF_WIDTHS[at],
                half_height=limits.HALF_HEIGHTS[at],
                max_display_mastering_luminance=limits.LUMINANCES[1:][at])      # above 0 something is darker
    plan.min_display_mastering_luminance = limits.darkest(plan.max_display_mastering_luminance)[at]
    n, d = limits.N[at], plan.coefficient_log2_denom
    for cmp in range(3):
        plan.num_pivots_minus2[cmp] = n
        plan.pred_pivot_value[cmp][:limits.pivots(n)] = [limits.samples(depth)[at]] * limits.pivots(n)
        idc = limits.methods(cmp)[at]
        count = limits.coefs(limits.orders(idc)[at], idc)
        for piece in range(limits.pieces(n)):
            set_piece(plan, cmp, piece, [limits.coefficients(d, idc)[at]] * count)
        plan.nlq_offset[cmp] = limits.samples(depth)[at]
        for name in plan_text.NLQ_NUMBERS:
            getattr(plan, "fp_" + name)[cmp] = limits.nlq_numbers(d)[at]
    return plan


def longest_plan():
    """The plan with the longest text: as large as can be, but for coefficients, which are below zero."""
    plan = end_plan(-1)
    d = plan.coefficient_log2_denom
    for cmp in range(3):
        for piece, idc in enumerate(plan.mapping_idc[cmp]):
            count = limits.coefs(plan.order_minus1[cmp][piece], idc)
            set_piece(plan, cmp, piece, [limits.coefficients(d, idc)[limits.fractions(d)[-1]]] * count)
    plan.disable_residual_flag = 0
    return plan


def good_texts():
    return {
        "shortest": joined(LINES),
        "least": plan_text.text_of(end_plan(0)),
        "greatest": plan_text.text_of(end_plan(-1)),
        "longest": plan_text.text_of(longest_plan()),
        "middle": middle_text(1),
        "shortest_two": joined(SECOND_LINES),
        "least_two": plan_text.text_of(end_plan(0), 2),             # its last pieces are alike
        "longest_two": plan_text.text_of(longest_plan(), 2),
        "middle_two": middle_text(2),
        "mmr": joined(MMR_LINES),
        "mixed": mixed_text(1),
        "mixed_two": mixed_text(2),
    }


def middle_text(version):
    return plan_text.text_of(block_cases.middle_plan(Generator(501), version), version)


def mixed_text(version):
    """Both methods in one component."""
    return plan_text.text_of(block_cases.mixed_plan(10, 23, Generator(502), version), version)


# Texts of a wrong form ------------------------------------------------------

def name_cases():
    return {
        "capital": (begun(1, "Version 1"), "line 1: version is expected"),
        "line_missing": (joined(LINES[:2] + LINES[3:5]), "line 3: ccm_level is expected"),
        "empty_line": (begun(25, ""), "line 25: component is expected"),
        "longer_name": (begun(16, "pieces 0"), "line 16: one space and a number of piece are expected"),
    }


def number_cases():
    def number_of(name):
        return "one space and a number of %s are expected" % name
    return {
        "no_number": (begun(3, "ccm_level"), "line 3: " + number_of("ccm_level")),
        "two_spaces": (begun(9, "W/2  960"), "line 9: " + number_of("W/2")),
        "plus": (begun(3, "ccm_level +0"), "line 3: " + number_of("ccm_level")),
        "minus": (begun(15, "pred_pivot_value 0 -1"), "line 15: " + number_of("pred_pivot_value")),
        "minus_fraction": (begun(19, "poly_coef 0 -1"), "line 19: " + number_of("poly_coef")),
        "one_pivot": (begun(15, "pred_pivot_value 0"), "line 15: " + number_of("pred_pivot_value")),
        "zeros": (begun(9, "W/2 0960"), "line 9: a number of W/2 begins with 0"),
        "minus_zero": (begun(20, "poly_coef -0 0"), "line 20: a number of poly_coef begins with 0"),
    }


def large_cases():
    def large(number, name, low, high):
        return "%s does not fit %s, which holds %d to %d" % (number, name, low, high)
    digits = "9" * 3000
    return {
        "large_version": (begun(1, "version 65536"), "line 1: " + large("65536", "version", 0, 65535)),
        "large_byte": (begun(2, "ccm_profile 256"), "line 2: " + large("256", "ccm_profile", 0, 255)),
        "large_pair": (begun(15, "pred_pivot_value 0 65536"),
                       "line 15: " + large("65536", "pred_pivot_value", 0, 65535)),
        "large_four": (begun(12, "min_display_mastering_luminance 4294967296"),
                       "line 12: " + large("4294967296", "min_display_mastering_luminance", 0, 4294967295)),
        "large_wraps": (begun(3, "ccm_level 18446744073709551616"),
                        "line 3: " + large("18446744073709551616", "ccm_level", 0, 255)),
        "large_integer": (begun(19, "poly_coef 128 0"), "line 19: " + large("128", "poly_coef", -128, 127)),
        "small_integer": (begun(19, "poly_coef -129 0"), "line 19: " + large("-129", "poly_coef", -128, 127)),
        "digits": (begun(10, "H/2 " + digits), "line 10: " + large(digits, "H/2", 0, 65535)),
    }


def mmr_cases():
    """Of the text with MMR pieces: line 29 has mapping_idc of Cb, 30 the order, 31 the constant, 32 to 38 the rest."""
    long = "9" * 3000

    def at(line, new, *found):
        return begun(line, new, MMR_LINES), "line %d: " % line + found[0] % found[1:]

    def expected(line, new, name):
        return at(line, new, "%s is expected", name)

    def large(line, name, integer):
        return at(line, "%s %s 0" % (name, integer), "%s does not fit %s, which holds -2147483648 to 2147483647",
                  integer, name)
    spaces = "one space and a number of %s are expected"
    return {
        "mmr_poly_order": expected(30, "poly_order_minus1 0", "mmr_order_minus1"),
        "mmr_no_order": expected(30, "mmr_constant 0 0", "mmr_order_minus1"),
        "mmr_poly_coef": expected(31, "poly_coef 0 0", "mmr_constant"),
        "mmr_no_constant": expected(31, "mmr_coef 0 0", "mmr_constant"),
        "mmr_two_constants": expected(32, "mmr_constant 0 0", "mmr_coef"),
        "mmr_coef_missing": expected(38, "nlq_offset 512", "mmr_coef"),
        "mmr_coef_more": expected(39, "mmr_coef 0 0", "nlq_offset"),
        "mmr_order_in_poly": (begun(30, "mmr_order_minus1 0"), "line 30: poly_order_minus1 is expected"),
        "mmr_constant_in_poly": (begun(31, "mmr_constant 0 0"), "line 31: poly_coef is expected"),
        "mmr_one_number": at(31, "mmr_constant 0", spaces, "mmr_constant"),
        "mmr_one_number_later": at(35, "mmr_coef 0", spaces, "mmr_coef"),
        "mmr_minus_fraction": at(31, "mmr_constant 0 -1", spaces, "mmr_constant"),
        "mmr_minus_order": at(30, "mmr_order_minus1 -1", spaces, "mmr_order_minus1"),
        "mmr_zeros": at(31, "mmr_constant 00 0", "a number of mmr_constant begins with 0"),
        "mmr_minus_zero": at(33, "mmr_coef -0 5", "a number of mmr_coef begins with 0"),
        "mmr_third_number": at(33, "mmr_coef 0 0 0", "the end of the line is expected"),
        "mmr_large_constant": large(31, "mmr_constant", "2147483648"),
        "mmr_small_constant": large(31, "mmr_constant", "-2147483649"),
        "mmr_large_coef": large(38, "mmr_coef", "4294967296"),
        "mmr_small_coef": large(32, "mmr_coef", "-4294967296"),
        "mmr_wraps": large(32, "mmr_coef", "-18446744073709551616"),
        "mmr_digits": large(36, "mmr_coef", "-" + long),
        "mmr_large_fraction": at(34, "mmr_coef 0 4294967296",
                                 "4294967296 does not fit mmr_coef, which holds 0 to 4294967295"),
        "mmr_large_method": at(29, "mapping_idc 256", "256 does not fit mapping_idc, which holds 0 to 255"),
        "mmr_large_order": at(30, "mmr_order_minus1 256", "256 does not fit mmr_order_minus1, which holds 0 to 255"),
    }


def end_cases():
    text = joined(LINES)
    longest = plan_text.text_of(longest_plan())
    line_end = "the end of the line is expected"
    return {
        "component": (begun(13, "component 1"), "line 13: component 0 is expected"),
        "piece_wraps": (begun(16, "piece 18446744073709551616"), "line 16: piece 0 is expected"),
        "piece_missing": (joined(["version 2"] + LINES[1:21]), "line 21: piece is expected"),
        "piece_missing_later": (begun(38, "nlq_offset 512", SECOND_LINES), "line 38: piece is expected"),
        "piece_more": (begun(21, "piece 1"), "line 21: nlq_offset is expected"),
        "piece_more_two": (begun(26, "piece 2", SECOND_LINES), "line 26: nlq_offset is expected"),
        "piece_again": (begun(21, "piece 0", SECOND_LINES), "line 21: piece 1 is expected"),
        "version_zeros": (begun(1, "version 02"), "line 1: a number of version begins with 0"),
        "version_return": (begun(1, "version 2\r"), "line 1: " + line_end),
        "return": (begun(1, "version 1\r"), "line 1: " + line_end),
        "third_pivot": (begun(15, "pred_pivot_value 0 1023 0"), "line 15: " + line_end),
        "no_last_line": (joined(LINES[:-1]), "line 48: linear_deadzone_threshold is expected"),
        "no_last_line_end": (text[:-1], "line 48: " + line_end),
        "line_more": (text + b"\n", "line 49: the end of the text is expected"),
        "empty": (b"", "line 1: version is expected"),
        "full": (longest + b"x" * (limits.TEXT_BYTES - len(longest)),
                 "line %d: the end of the text is expected" % (longest.count(b"\n") + 1)),
        "too_long": (longest + b"x" * (limits.TEXT_BYTES + 1 - len(longest)),
                     "too_long.txt: %d bytes, allowed at most %d" % (limits.TEXT_BYTES + 1, limits.TEXT_BYTES)),
    }


# Texts outside a range ------------------------------------------------------

STOP = "num_pivots_minus2 %d" % (limits.N[-1] + 1)      # nothing after it is read, so the text may end there


def header_cases():
    """One field of the header outside its column; the text ends at a number of pivots that is refused later."""
    dark = limits.darkest(1000).stop
    wrong = {
        "profile": (2, "ccm_profile %d" % (limits.PROFILES[-1] + 1)),
        "level": (3, "ccm_level %d" % (limits.LEVELS[-1] + 1)),
        "denominator": (4, "coefficient_log2_denom %d" % (limits.denominators(10)[0] - 1)),
        "base_depth": (5, "BL_bit_depth_minus8 1"),
        "depths_differ": (6, "EL_bit_depth_minus8 0"),
        "hdr_depth": (7, "hdr_bit_depth_minus8 3"),
        "flag": (8, "disable_residual_flag %d" % (limits.FLAGS[-1] + 1)),
        "wide": (9, "W/2 %d" % (limits.HALF_WIDTHS[-1] + 1)),
        "high": (10, "H/2 %d" % (limits.HALF_HEIGHTS[-1] + 1)),
        "bright": (11, "max_display_mastering_luminance %d" % (limits.LUMINANCES[-1] + 1)),
        "dark": (12, "min_display_mastering_luminance %d" % dark),
    }
    return {name: (changed(LINES[:14], edit, (14, STOP)),
                   "line %d: refused 4 (header): %s" % (edit[0], edit[1].replace(" ", " is ") + ", allowed "))
            for name, edit in wrong.items()}


def field_cases():
    """One field of a section of several pieces outside its range."""
    # d is 16 there and both depths are 10
    return wrong_fields(middle_text(1), {
        "pivots": (("component 2", "num_pivots_minus2"), STOP, "num_pivots_minus2[2] is %d" % (limits.N[-1] + 1)),
        "pivot": (("component 2", "pred_pivot_value"), "pred_pivot_value 64 736 1024",
                  "pred_pivot_value[2][2] is 1024"),
        "mapping": (("component 0", "piece 1", "mapping_idc"), "mapping_idc 1", "mapping_idc[0][1] is 1"),
        "method": (("component 1", "piece 4", "mapping_idc"), "mapping_idc 2", "mapping_idc[1][4] is 2"),
        "order": (("component 1", "piece 2", "poly_order_minus1"), "poly_order_minus1 255",
                  "poly_order_minus1[1][2] is 255"),
        "integer": (("component 1", "piece 1", "poly_coef"), "poly_coef 64 0", "poly_coef_int[1][1][0] is 64"),
        "below": (("component 0", "piece 2", "poly_coef", "poly_coef"), "poly_coef -65 0",
                  "poly_coef_int[0][2][1] is -65"),
        "fraction": (("component 0", "piece 0", "poly_coef", "poly_coef", "poly_coef"), "poly_coef 0 65536",
                     "poly_coef[0][0][2] is 65536"),
        "offset": (("component 1", "nlq_offset"), "nlq_offset 1024", "nlq_offset[1] is 1024"),
        "maximum": (("component 0", "hdr_in_max"), "hdr_in_max 2 0", "hdr_in_max_int[0] is 2"),
        "slope": (("component 2", "linear_deadzone_slope"), "linear_deadzone_slope 0 65536",
                  "linear_deadzone_slope[2] is 65536"),
        "threshold": (("component 2", "linear_deadzone_threshold"), "linear_deadzone_threshold 255 0",
                      "linear_deadzone_threshold_int[2] is 255"),
    })


def last_piece_cases():
    """One field of a last piece of version 2."""
    return wrong_fields(middle_text(2), {
        "mapping_above": (("component 0", "piece 3", "mapping_idc"), "mapping_idc 1", "mapping_idc[0][3] is 1"),
        "method_above": (("component 2", "piece 2", "mapping_idc"), "mapping_idc 255", "mapping_idc[2][2] is 255"),
        "order_above": (("component 1", "piece 5", "poly_order_minus1"), "poly_order_minus1 2",
                        "poly_order_minus1[1][5] is 2"),
        "integer_above": (("component 0", "piece 3", "poly_coef"), "poly_coef 64 0", "poly_coef_int[0][3][0] is 64"),
        "fraction_above": (("component 2", "piece 2", "poly_coef", "poly_coef", "poly_coef"), "poly_coef 0 65536",
                           "poly_coef[2][2][2] is 65536"),
    })


def mmr_field_cases():
    """One field of an MMR piece; d is 23 there, and Cb has pieces of 8, 2, 22, 3 and 15 numbers."""
    fraction = limits.fractions(23).stop
    coef = "mmr_coef"
    return wrong_fields(mixed_text(1), {
        "mmr_method": (("component 1", "piece 2", "mapping_idc"), "mapping_idc 3", "mapping_idc[1][2] is 3"),
        "mmr_order": (("component 1", "piece 2", "mmr_order_minus1"), "mmr_order_minus1 3",
                      "mmr_order_minus1[1][2] is 3"),
        "mmr_order_255": (("component 1", "piece 0", "mmr_order_minus1"), "mmr_order_minus1 255",
                          "mmr_order_minus1[1][0] is 255"),
        "mmr_constant": (("component 1", "piece 0", "mmr_constant"), "mmr_constant 65536 0",
                         "mmr_constant_int[1][0] is 65536"),
        "mmr_constant_below": (("component 1", "piece 4", "mmr_constant"), "mmr_constant -65537 1",
                               "mmr_constant_int[1][4] is -65537"),
        "mmr_constant_least": (("component 1", "piece 4", "mmr_constant"), "mmr_constant -2147483648 1",
                               "mmr_constant_int[1][4] is -2147483648"),
        "mmr_constant_part": (("component 1", "piece 2", "mmr_constant"), "mmr_constant -1 %d" % fraction,
                              "mmr_constant[1][2] is %d" % fraction),
        "mmr_coef": (("component 1", "piece 0", coef), "mmr_coef 65536 0", "mmr_coef_int[1][0][1][0] is 65536"),
        "mmr_coef_below": (("component 1", "piece 4", *[coef] * 14), "mmr_coef -65537 0",
                           "mmr_coef_int[1][4][2][6] is -65537"),
        "mmr_coef_most": (("component 1", "piece 2", *[coef] * 21), "mmr_coef 2147483647 0",
                          "mmr_coef_int[1][2][3][6] is 2147483647"),
        "mmr_coef_part": (("component 1", "piece 2", *[coef] * 8), "mmr_coef 0 4294967295",
                          "mmr_coef[1][2][2][0] is 4294967295"),
        "mmr_coef_last": (("component 2", "piece 1", *[coef] * 14), "mmr_coef -65536 %d" % fraction,
                          "mmr_coef[2][1][2][6] is %d" % fraction),
    })


def wrong_fields(text, wrong):
    """{name: (the text with another line, what is shown)}; the line is found by what it and lines before begin with."""
    lines, out = text.decode("ascii").splitlines(), {}
    for name, (begins, new, found) in wrong.items():
        line = find(lines, *begins)
        out[name] = (changed(lines, (line, new)), "line %d: refused 5 (field): %s, allowed " % (line, found))
    return out


def order_cases():
    """Two faults: a wrong form before any range, else the first by the order of reading a block."""
    profile = (2, "ccm_profile 2")

    def no_version(number):
        return ("line 1: refused 2 (trailer): A is 27, D0 is 3, D1 is 2, D2 is 1, version is %d, zero is 0, "
                "allowed A = D0 + 24, D0 > D1 > D2 > 0, version 1 or 2, zero 0" % number)
    return {
        "version": (changed(LINES, (1, "version 3")), no_version(3)),
        "version_0": (changed(SECOND_LINES, (1, "version 0")), no_version(0)),
        "version_258": (begun(1, "version 258"), no_version(258)),
        "version_65535": (b"version 65535", no_version(65535)),
        "version_not_read_on": (b"version 3 and more", no_version(3)),
        "form_first": (changed(LINES[:20], profile, (20, "poly_coef 1")),
                       "line 20: one space and a number of poly_coef are expected"),
        "not_read_on": (changed(LINES[:15], (14, STOP + " and more")),
                        "line 14: refused 5 (field): num_pivots_minus2[0] is "),
        "method_not_read_on": (begun(29, "mapping_idc 2 and more"),
                               "line 29: refused 5 (field): mapping_idc[1][0] is 2, allowed 0 or 1"),
        "luma_mmr": (begun(17, "mapping_idc 1"), "line 17: refused 5 (field): mapping_idc[0][0] is 1, allowed 0"),
        "luma_mmr_read_on": (joined(LINES[:16] + MMR_LINES[28:]),
                             "line 17: refused 5 (field): mapping_idc[0][0] is 1, allowed 0"),
        "mmr_order_not_read_on": (begun(30, "mmr_order_minus1 3 and more", MMR_LINES),
                                  "line 30: refused 5 (field): mmr_order_minus1[1][0] is 3, allowed 0 to 2"),
        "constant_first": (changed(MMR_LINES, (31, "mmr_constant 65536 0"), (35, "mmr_coef -65537 0")),
                           "line 31: refused 5 (field): mmr_constant_int[1][0] is 65536, allowed -65536 to 65535"),
        "integer_first": (changed(MMR_LINES, (36, "mmr_coef 65536 4294967295")),
                          "line 36: refused 5 (field): mmr_coef_int[1][0][1][4] is 65536, allowed -65536 to 65535"),
        "pivot_first": (changed(LINES[:18], (15, "pred_pivot_value 0 1024"), (18, "poly_order_minus1 2")),
                        "line 15: refused 5 (field): pred_pivot_value[0][1] is 1024, allowed less than 1024"),
    }


def bad_texts():
    """{name: (text, what is shown)}."""
    found = [name_cases(), number_cases(), large_cases(), mmr_cases(), end_cases(), header_cases(), field_cases(),
             last_piece_cases(), mmr_field_cases(), order_cases()]
    cases = {name: case for part in found for name, case in part.items()}
    assert len(cases) == sum(len(part) for part in found)               # no name twice
    return cases


# All ------------------------------------------------------------------------

def blocks():
    """Blocks that are only shown, each under its name, with the number of its refusal."""
    good = plan_text.read_text(joined(LINES)).data
    second = plan_text.read_text(joined(SECOND_LINES)).data
    chosen = {"behind_another.block": (good[:50] + good, 0), "behind_version_1.block": (good + second, 0),
              "version.block": (good[:-3] + b"\3\0\0", 2), "method.block": (good[:63] + b"\2" + good[64:], 5),
              "luma_mmr.block": (good[:29] + b"\1" + good[30:], 5),
              "mmr_two.block": (block.write(block_cases.mmr_plan(8, 13, (0, 2), 2), 2), 0),
              "one_as_two.block": (good[:-3] + b"\2\0\0", 5), "two_as_one.block": (second[:-3] + b"\1\0\0", 5)}
    for name, (data, number) in chosen.items():
        assert block.read(data)[0] == number, name
    return chosen


def file_groups():
    """Files that cannot be read or written, and outputs that stand there already."""
    return [
        Group("shortest.txt", "folder/a name with spaces", None),
        Group(SHOW, "folder/a name with spaces", None),
        Group("least.txt", "shortest.block", None),             # takes the place of another
        Group(SHOW, "shortest.block", None),
        Group("in_place", "in_place", None),
        Group(SHOW, "in_place", None),
        Group("in_place", OUT, "line 1: version is expected"),  # it is a block now
        Group("missing.txt", OUT, "missing.txt: cannot be read: no such file or folder"),
        Group(".", OUT, ".: cannot be read: it is a folder"),
        Group("shortest.txt/x", OUT, "cannot be read: a folder of its path is a file"),
        Group("shortest.txt", "missing/out", "missing/out: cannot be written: no such file or folder"),
        Group("shortest.txt", "shortest.txt/x", "cannot be written: a folder of its path is a file"),
        Group("shortest.txt", "taken", "taken: cannot be written: taken.part is in the way: another author writes it"),
        Group("shortest.txt", "folder", "folder: cannot be written: it is a folder"),
        Group("shortest.txt", "", ": cannot be written: no such file or folder"),
        Group(SHOW, "missing.block", "missing.block: cannot be read: no such file or folder"),
        Group(SHOW, ".", ".: cannot be read: it is a folder"),
        Group(SHOW, "empty.txt", "empty.txt: refused 1 (short): 0 bytes"),
        Group(SHOW, "shortest.txt", "shortest.txt: refused "),
        Group("shortest.txt", SHOW, None),
        Group(SHOW, SHOW, None),
    ]


def all_cases():
    """({name: bytes}, the groups)."""
    good, bad, shown = good_texts(), bad_texts(), blocks()
    files = {name + ".txt": text for name, text in good.items()}
    files.update({name + ".txt": text for name, (text, _) in bad.items()})
    files.update({name: data for name, (data, _) in shown.items()})
    files.update({"taken.part": b"another author writes this\n", "in_place": joined(LINES), "folder/x": b""})
    groups = []
    for name in good:
        groups += [Group(name + ".txt", name + ".block", None), Group(SHOW, name + ".block", None)]
    groups += [Group(name + ".txt", OUT, shows) for name, (_, shows) in bad.items()]
    groups += [Group(SHOW, name, "refused %d (" % number if number else None) for name, (_, number) in shown.items()]
    return files, groups + file_groups()


def word_list(groups):
    return [word for group in groups for word in (group.first, group.second)] + [LEFT_OVER]


def answers(lines):
    """The lines of each group, up to its last one."""
    found = [[]]
    for line in lines:
        found[-1].append(line)
        if line in ("written", "not written", "shown", "not shown"):
            found.append([])
    assert found.pop() == []
    return found


def checked(groups, lines):
    """Stops where a group does not show what it was made for; the last answer is about the left-over word."""
    found = answers(lines)
    assert len(found) == len(groups) + 1
    assert found.pop() == ["use: author TEXT BLOCK ... | author --text BLOCK ...", "not written"]
    for group, answer in zip(groups, found):
        last = "shown" if group.first == SHOW else "written"
        if group.shows is None:
            assert answer[-1] == last, (group, answer)
        else:
            assert answer[-1] == "not " + last and group.shows in answer[-2], (group, answer)


def outputs(groups):
    """The files that are written."""
    return {group.second for group in groups if group.shows is None and group.first != SHOW}
