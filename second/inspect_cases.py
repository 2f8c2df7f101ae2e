"""The words that the gate hands to inspect, and the files that they name: blocks that are read, and refused ones."""

import errno
import os
import struct
from collections import namedtuple
from itertools import accumulate

import block
import limits
from block_cases import Base, last_piece, longest_mmr_plan, one_bad_length
from composer import Plan
from generator import Generator
from sample_cases import Nlq, Section, set_section

# `number` is the answer that the block is to show: 0 where it is read.
Shown = namedtuple("Shown", "name data number")


def first_piece(good, section):
    """Where the first piece's mapping_idc is: after the number of pivots and the pivots."""
    return section + 1 + 2 * limits.pivots(good[section])


ONE = 1 << 13                               # 1.0 at the least denominator of depth 8


def plan_of(sections):
    """A plan of depth 8: of each section the steps of its pivots, and its pieces."""
    plan = Plan(ccm_profile=4, coefficient_log2_denom=13, hdr_bit_depth_minus8=2, disable_residual_flag=1,
                half_width=1, half_height=1, max_display_mastering_luminance=1)
    for cmp, (steps, pieces) in enumerate(sections):
        set_section(plan, cmp, Section(list(accumulate(steps)), pieces, Nlq(255, 2 * ONE - 1, 0, 0)))
    return plan


def jumping():
    """As many pieces as version 1 has at most."""
    return [(ONE // 8, ONE * (piece % 3) // 2 - piece) for piece in range(limits.carried(limits.N[-1], 1))]


def clamped():
    """A block whose codes go past the pivots on both sides, whose pivots meet, and whose mappings jump and are cut."""
    return block.write(plan_of([
        ((16, 64, 0, 80, 75), [(-ONE // 4, 3 * ONE), (0, 0), (ONE // 2, ONE // 4), (0, ONE, ONE // 2)]),
        ((40, 160, 100), [(ONE // 8, ONE), (0, 0, 3 * ONE)]),
        ((0,) + (17,) * 16, jumping()),
    ]))


def above_last_plan():
    """Pieces above a last pivot that equals the one before, above one that no code reaches, for the last two codes."""
    return plan_of([
        ((16, 64, 80, 0), [(0, ONE), (ONE // 2, ONE // 4), (0, ONE, ONE // 2), (ONE - 5, -ONE // 4)]),
        ((40, 160, 100), [(ONE // 8, ONE), (0, 0, 3 * ONE), (ONE, -ONE)]),
        ((0,) + (15,) * 15 + (29,), [*jumping(), (63 * ONE, 0, 1)]),
    ])


def second_blocks(good):
    """Version 2: one that is read, faults in its last pieces, and a block of each version that says the other."""
    plan = above_last_plan()
    base = Base(0, block.write(plan, 2), plan)

    def beyond(piece, field, value):
        return bytes(base.changed(base.put_all([(piece + field, value)])))

    y, cb, cr = (last_piece(base, cmp) for cmp in range(3))
    return [
        Shown("version_two", base.data, 0),
        Shown("mapping_above", beyond(y, "idc", limits.MMR), 5),
        Shown("method_above", beyond(cb, "idc", limits.MMR + 1), 5),
        Shown("order_above", beyond(cr, "order", limits.ORDERS[-1] + 1), 5),
        Shown("coefficient_above", beyond(cr, "c2_int", limits.COEF_INTS[-1] + 1), 5),
        Shown("fraction_above", beyond(y, "c1_fraction", limits.fractions(13).stop), 5),
        Shown("offset_two", beyond("s0_", "offset", 256), 5),
        Shown("two_as_one", bytes(base.changed(base.put(version=1))), 5),
        Shown("one_as_two", good[:-3] + bytes([2]) + good[-2:], 5),
        Shown("cut_two", one_bad_length(base, 1, lambda section: section[:-18]), 3),
    ]


def numbers(*given):
    """Of an MMR piece: these, in units of 1/8, and zeros up to as many as the next order has."""
    whole = next(count for count in (8, 15, 22) if len(given) <= count)
    return [z * ONE // 8 for z in given] + [0] * (whole - len(given))


def mmr_shown_plan():
    """Depth 8: MMR of the first order with an end and beside it, and of the highest, all numbers its own."""
    top = limits.coefficients(13, limits.MMR)[-1]
    return plan_of([
        ((0, 255), [(0, ONE)]),
        ((20, 200, 35), [numbers(1, 2, 5, -1, 1), [-ONE // 2, limits.MMR_INTS[0] << 13, top, 5, -3, 1, ONE, -ONE]]),
        ((10, 245), [[(-1) ** i * ONE // (2 + i) + 37 * i for i in range(limits.COEF_PLACES)]]),
    ])


def mmr_two_plan():
    """Version 2: polynomials and MMR in turn, luma and chroma clamped, one chroma component without MMR."""
    return plan_of([
        ((64, 128), [(0, ONE), (ONE // 2, 0)]),
        ((30, 60, 60), [numbers(2, 3, 1), (0, ONE, ONE // 4), numbers(0, 4, 2, -1, 0, 3, 0, 2, 0, 1, 0, 0, -2, 0, 1)]),
        ((0, 128), [(ONE // 8, ONE // 2), (ONE, -ONE // 4)]),
    ])


def mmr_blocks():
    """Blocks with MMR pieces, and for each of their fields one that is refused at it."""
    plan, second = mmr_shown_plan(), mmr_two_plan()
    base = Base(0, block.write(plan), plan)
    longest = longest_mmr_plan(10, 32, Generator(207), 2)

    def beyond(field, value):
        return bytes(base.changed(base.put_all([(field, value)])))

    integer, fraction = limits.MMR_INTS[-1] + 1, limits.fractions(13).stop
    return [
        Shown("mmr", base.data, 0),
        Shown("mmr_two", block.write(second, 2), 0),
        Shown("mmr_longest", block.write(longest, 2), 0),
        Shown("mmr_method", beyond("s1_p1_idc", limits.MMR + 1), 5),
        Shown("mmr_order", beyond("s1_p1_mmr_order", limits.MMR_ORDERS[-1] + 1), 5),
        Shown("mmr_order_255", beyond("s2_p0_mmr_order", 255), 5),
        Shown("mmr_constant", beyond("s1_p0_mmr0_int", integer), 5),
        Shown("mmr_constant_below", beyond("s2_p0_mmr0_int", -integer - 1), 5),
        Shown("mmr_constant_least", beyond("s1_p1_mmr0_int", -1 << 31), 5),
        Shown("mmr_constant_fraction", beyond("s1_p1_mmr0_fraction", fraction), 5),
        Shown("mmr_coefficient", beyond("s1_p1_mmr1_int", integer), 5),
        Shown("mmr_coefficient_below", beyond("s2_p0_mmr11_int", -integer - 1), 5),
        Shown("mmr_coefficient_last", beyond("s2_p0_mmr21_int", (1 << 31) - 1), 5),
        Shown("mmr_coefficient_fraction", beyond("s2_p0_mmr21_fraction", (1 << 32) - 1), 5),
        Shown("mmr_offset", beyond("s1_offset", 256), 5),
        Shown("mmr_cut", one_bad_length(base, 1, lambda section: section[:-20]), 3),
        Shown("mmr_cut_coefficient", one_bad_length(base, 2, lambda section: section[:100]), 3),
        Shown("mmr_left_over", one_bad_length(base, 2, lambda section: section + bytes(8)), 3),
    ]


def all_blocks(good):
    """Each block under its name; `good` is a block that is read."""
    t = len(good) - limits.TRAILER_BYTES
    a, d0, d1, d2 = struct.unpack_from(">4H", good, t)
    header, y, cb = t - a, t - d0, t - d1
    idc, chroma_idc = first_piece(good, y), first_piece(good, cb)
    depth = 8 + good[header + 4]
    nlq = t - 17                            # nlq_offset and three numbers of five bytes end the last section

    def put(place, value, size=1):
        return good[:place] + (value % 256 ** size).to_bytes(size, "big") + good[place + size:]

    def beyond(place, allowed, size=1):
        """One more than the field at this place may hold."""
        return put(place, allowed[-1] + 1, size)

    left_over = (good[:cb] + b"\0" + good[cb:t]
                 + struct.pack(">4H", a + 1, d0 + 1, d1, d2) + good[t + 8:])

    def cut(end, size):
        """Without the last bytes of the section that ends there: section 0, or section 2."""
        last = size if end == t else 0
        return (good[:end - size] + good[end:t]
                + struct.pack(">4H", a - size, d0 - size, d1 - last, d2 - last) + good[t + 8:])

    shown = [
        Shown("block", good, 0),
        Shown("cut_off", good[1 - limits.TRAILER_BYTES:], 1),
        Shown("points_too_far", good[-40:], 1),
        Shown("no_trailer", beyond(t + 8, limits.VERSIONS, 2), 2),
        Shown("left_over", left_over, 3),
        Shown("cut_section", cut(cb, 1), 3),
        Shown("cut_before_a_field", cut(cb, 5), 3),
        Shown("cut_last_section", cut(t, 4), 3),
        Shown("profile_two", put(header, 2), 4),
        Shown("denominator_33", beyond(header + 2, limits.denominators(depth)), 4),
        Shown("depths_differ", put(header + 4, 0), 4),
        Shown("too_wide", beyond(header + 8, limits.HALF_WIDTHS, 2), 4),
        Shown("too_high", beyond(header + 10, limits.HALF_HEIGHTS, 2), 4),
        Shown("luminances", put(header + 12, 0, 2), 4),
        Shown("sixteen_pieces", beyond(y, limits.N), 5),
        Shown("pivot", put(cb + 3, 1 << depth >> 8), 5),
        Shown("mapping_two", put(idc, 2), 5),
        Shown("order_two", beyond(idc + 1, limits.ORDERS), 5),
        Shown("coefficient_64", beyond(idc + 2, limits.COEF_INTS), 5),
        Shown("coefficient_minus_65", put(idc + 2, limits.COEF_INTS[0] - 1), 5),
        Shown("fraction", put(idc + 3, 255), 5),
        Shown("method", put(chroma_idc, limits.MMR + 1), 5),
        Shown("mmr_for_luma", put(idc, limits.MMR), 5),
        Shown("offset", put(nlq, 1 << depth >> 8), 5),
        Shown("maximum", beyond(nlq + 2, limits.NLQ_INTS), 5),
        Shown("slope", beyond(nlq + 7, limits.NLQ_INTS), 5),
        Shown("slope_fraction", put(nlq + 8, 255), 5),
        Shown("threshold", beyond(nlq + 12, limits.NLQ_INTS), 5),
        Shown("empty", b"", 1),
        Shown("clamped", clamped(), 0),
        # more bytes than a trailer can point back over
        Shown("behind_zeros", bytes(70000) + good, 0),
        Shown("refused_behind_zeros", bytes(70000) + cut(cb, 5), 3),
        *second_blocks(good),
        *mmr_blocks(),
    ]
    for one in shown:
        assert block.read(one.data)[0] == one.number, one.name
    return shown


def arguments(blocks):
    """The words: every block, then all that else a word can be."""
    return [shown.name for shown in blocks] + [
        "--rules", "--plot", "block", "--plot", "clamped", "--plot", "version_two", "--plot", "mmr",
        "--plot", "mmr_two", "--plot", "mmr_longest", "--plot", "method", "--plot", "missing", "missing", "block/", ".",
        "--plot"]


def reader(blocks):
    """Reads as in a folder that has the blocks and nothing else."""
    contents = {shown.name: shown.data for shown in blocks}

    def read(name):
        if name in contents:
            return contents[name]
        number = errno.EISDIR if name == "." else errno.ENOTDIR if name.rstrip("/") in contents else errno.ENOENT
        raise OSError(number, os.strerror(number), name)

    return read
