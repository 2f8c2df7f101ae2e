"""Checks the second program against the house rules' examples and hand work."""

import copy
import functools
import os
import struct
import tempfile
import zlib

import answers
import author
import author_cases
import block
import block_cases
import composer
import inspect_block
import inspect_cases
import jobs
import large
import limits
import make_vectors
import mmr_cases
import night_cases
import nights
import picture
import places
import plan_cases
import plan_text
import sample_cases
import search_cases
import table_cases
import tables
import words
import write_cases
import writer
import wrong_mappers
import wrong_nights
import wrong_readers
import wrong_tables
import wrong_writers
from composer import (Plan, assign_pivot_values, compose_row_pairs, derive_pivot_idx,
                      inverse_quantization, map_place, map_sample, reconstruct)
from generator import Generator


# What several tests look at is made once; no test changes it.
all_nights = functools.lru_cache(maxsize=None)(night_cases.all_nights)
plan_groups = functools.lru_cache(maxsize=None)(plan_cases.all_groups)
block_bases_and_cases = functools.lru_cache(maxsize=None)(block_cases.all_cases)
all_samples = functools.lru_cache(maxsize=None)(make_vectors.all_samples)
all_tables = functools.lru_cache(maxsize=None)(table_cases.all_cases)


@functools.lru_cache(maxsize=None)
def read_blocks():
    """{block, with the bytes before its header: plan}, of all that block_vectors has read."""
    bases, cases = block_bases_and_cases()
    found = {}
    for case in cases:
        data = block_cases.data_of(bases, case)
        if data not in found:
            number, plan = block.read(data)
            if number == 0:
                found[data] = plan
    return found


def block_of(data):
    """A block without the bytes before its header: its last A + 12 bytes."""
    A = struct.unpack(">H", data[-12:-10])[0]
    return data[-(A + 12):]


def set_section(plan, cmp, pivots, pieces):
    """Pivots are running sums; a piece is its list of numbers, and the last of n + 1 pieces stands twice.

    Of a polynomial they are 2 or 3, of MMR 8, 15 or 22.
    """
    plan.num_pivots_minus2[cmp] = len(pivots) - 2
    for i, pivot in enumerate(pivots):
        plan.pred_pivot_value[cmp][i] = pivot - (pivots[i - 1] if i else 0)
    for piece, coef in enumerate([*pieces, pieces[-1]][:len(pivots)]):
        plan.mapping_idc[cmp][piece] = 1 if len(coef) > 3 else 0
        plan.order_minus1[cmp][piece] = len(coef) // 7 - 1 if len(coef) > 3 else len(coef) - 2
        plan.fp_coef[cmp][piece] = [*coef] + [0] * (22 - len(coef))


def small_plan(depth=10, d=15, pivots=(0, 1023), pieces=((0, 1 << 15),)):
    """A valid plan for a 2 x 2 picture, the same in all three sections."""
    plan = Plan(ccm_profile=1, coefficient_log2_denom=d,
                BL_bit_depth_minus8=depth - 8, EL_bit_depth_minus8=depth - 8,
                hdr_bit_depth_minus8=4, half_width=1, half_height=1,
                max_display_mastering_luminance=1000)
    for cmp in range(3):
        set_section(plan, cmp, pivots, pieces)
    return plan


def mapped(s, **choices):
    plan = small_plan(**choices)
    pivot_value = assign_pivot_values(plan.pred_pivot_value, plan.num_pivots_minus2)
    values = [map_sample(plan, pivot_value, cmp, [s] * 3) for cmp in range(3)]
    assert values[0] == values[1] == values[2]
    return values[0]


def test_examples():
    """E1 to E14 of the house rules; one is 1.0 at d = 15."""
    one = 1 << 15
    assert mapped(0) == 0                                               # E1
    assert mapped(1) == 64                                              # E2
    assert mapped(1023) == 65472                                        # E3
    for s in range(1024):
        assert mapped(s, pieces=[(63 * one, 0)]) == 65535               # E4
        assert mapped(s, pieces=[(-64 * one, 0)]) == 0                  # E5
    assert mapped(1023, pieces=[(0, -one)]) == 0                        # E6
    assert mapped(512, pieces=[(0, 0, one)]) == 16384                   # E7
    assert mapped(1, pieces=[(0, 0, one)]) == 0                         # E8
    assert mapped(1, pieces=[(-one + 32767, one)]) == 62                # E9
    assert mapped(50, pivots=(100, 200)) == 6400                        # E10
    assert mapped(900, pivots=(100, 200)) == 12800                      # E11
    two = dict(pivots=(0, 512, 1023), pieces=[(0, 0), (one // 2, 0)])
    assert mapped(511, **two) == 0                                      # E12
    assert mapped(512, **two) == 32768                                  # E13
    assert mapped(255, depth=8, d=13, pivots=(0, 255),
                  pieces=[(0, 1 << 13)]) == 65280                       # E14


def test_piece_choice():
    # Pivots 100, 100, 200: s = 50 is below pivot 1, so piece 0, although the
    # clamped sample, 100, would have piece 1.
    equal = dict(pivots=(100, 100, 200), pieces=[(1 << 14, 0), (0, 0)])
    assert mapped(50, **equal) == 32768
    assert mapped(100, **equal) == 0
    # Clause 5.4.2.2 gives n + 1 at and above the last pivot.
    assert derive_pivot_idx(200, 0, [0], [[100, 200]]) == 1
    assert derive_pivot_idx(199, 0, [0], [[100, 200]]) == 0


def test_last_piece():
    """Version 2 by hand, at d = 15: v of (0, one) is 64 s, of (one / 2, 0) 32,768, of (0, 0, one) s x s / 16."""
    one = 1 << 15
    half = (one // 2, 0)
    above = dict(pivots=(100, 200), pieces=[(0, one), half])
    assert [mapped(s, **above) for s in (50, 199, 200, 201, 1023)] == [6400, 12736, 32768, 32768, 32768]
    # As version 1 has it piece 0 stands twice: E11 at the last pivot and above it.
    assert [mapped(s, pivots=(100, 200)) for s in (199, 200, 201, 1023)] == [12736, 12800, 12800, 12800]
    # Piece n + 1 is taken at the clamped sample, 200: 2 x 64 x 200, and 200 x 200 / 16.
    steep = dict(pivots=(100, 200), pieces=[(0, one), (0, 2 * one)])
    assert [mapped(s, **steep) for s in (199, 200, 900)] == [12736, 25600, 25600]
    assert mapped(900, pivots=(100, 200), pieces=[(0, one), (0, 0, one)]) == 2500
    # Equal last pivots: the piece between them, (one / 4, 0), is met by no sample.
    equal = dict(pivots=(0, 100, 100), pieces=[(0, one), (one // 4, 0), half])
    assert [mapped(s, **equal) for s in (50, 99, 100, 101)] == [3200, 6336, 32768, 32768]
    equal = dict(pivots=(0, 60, 100, 100, 100), pieces=[(0, one), (0, 0), (one // 4, 0), (one, 0), half])
    assert [mapped(s, **equal) for s in (59, 60, 99, 100)] == [3776, 0, 0, 32768]
    # The only two are equal: below them piece 0, at them piece 1.
    equal = dict(pivots=(100, 100), pieces=[(one // 4, 0), half])
    assert [mapped(s, **equal) for s in (0, 99, 100, 1023)] == [16384, 16384, 32768, 32768]
    # A last pivot of 0 leaves nothing to piece 0; one above the largest sample leaves nothing to piece 1.
    assert mapped(0, pivots=(0, 0), pieces=[(0, one), half]) == 32768
    assert mapped(1023, pivots=(1, 1024), pieces=[(0, one), half]) == 65472
    assert mapped(1023, pivots=(0, 1023), pieces=[(0, one), half]) == 32768
    # Depth 8, d = 13: v of (0, one) is 256 s.
    low = dict(depth=8, d=13, pivots=(0, 128), pieces=[(0, 1 << 13), (1 << 11, 0)])
    assert [mapped(s, **low) for s in (127, 128, 255)] == [32512, 16384, 16384]
    # n = 15: 17 pieces, the last for 960 and above.
    many = dict(pivots=[60 * i for i in range(17)], pieces=[(0, one)] * 16 + [half])
    assert [mapped(s, **many) for s in (959, 960, 1023)] == [61376, 32768, 32768]


def mmr_plan(coef, depth=10, d=15, pivots=((0, 1023),) * 3):
    """The small plan, with these numbers in Cb and in Cr; those of each component's pivots."""
    plan = small_plan(depth, d)
    set_section(plan, 0, pivots[0], [(0, 1 << d)])
    for cmp in (1, 2):
        set_section(plan, cmp, pivots[cmp], [coef])
    return plan


def mmr_mapped(coef, s0, s1, s2, depth=10, d=15, **choices):
    """Of Cb and Cr of a place with these samples; small numbers are meant as they are, `one` is 1.0."""
    plan = mmr_plan(coef, depth, d, **choices)
    pivot_value = assign_pivot_values(plan.pred_pivot_value, plan.num_pivots_minus2)
    values = [map_sample(plan, pivot_value, cmp, (s0, s1, s2)) for cmp in (1, 2)]
    assert values[0] == values[1]
    return values[0]


def numbers(order, **given):
    """Of an MMR piece of this order: zeros, but for these, c0 being the constant and c1 to c21 the coefficients."""
    coef = [0] * (1 + 7 * order)
    for name, z in given.items():
        coef[int(name[1:])] = z
    return coef


def test_mmr_examples():
    """By hand, at depth 10 and d = 15: tt of a sample s is s << 10, of a product of two their product, and of three
    samples their product >> 10; v is the sum of number x tt, over 2^19."""
    one = 1 << 15
    assert mmr_mapped(numbers(1, c0=one // 2), 1, 2, 3) == 32768                        # 2^14 x 2^20 >> 19
    assert mmr_mapped(numbers(1, c1=one), 512, 2, 3) == 32768                           # 2^15 x 2^19 >> 19
    # 20,000 << 4, x 2^13, >> 17, at depth 8 and d = 13
    assert mmr_mapped(numbers(1, c4=1 << 13), 200, 100, 3, 8, 13, pivots=((0, 255),) * 3) == 20000
    # 33 x 35 x 37 = 42,735; 42,735 >> 10 = 41; 16 x 41 x 2^15 >> 19 = 41
    assert mmr_mapped(numbers(1, c7=16 * one), 33, 35, 37) == 41
    assert mmr_mapped(numbers(2, c9=one), 3, 512, 3) == 16384                           # 2^18 x 2^15 >> 19
    # 10^9 >> 10 = 976,562; its square >> 20 = 909,493; 909,493 - 13 x 2^16 = 57,525, each 16 x 2^15 >> 19
    assert mmr_mapped(numbers(2, c0=-13 * one, c14=16 * one), 1000, 1000, 1000) == 57525
    assert mmr_mapped(numbers(3, c17=one), 3, 3, 512) == 8192                           # 2^17 x 2^15 >> 19
    # 976,562 x 909,493 >> 20 = 847,030; 847,030 - 12 x 2^16 = 60,598
    assert mmr_mapped(numbers(3, c0=-12 * one, c21=16 * one), 1000, 1000, 1000) == 60598
    # All terms of an order, with 512, 256 and 64: tt[1] to tt[7] are 2^19, 2^18, 2^16, 2^17, 2^15, 2^14, 2^13, and
    # 1 x 2^19 + 2 x 2^18 + 3 x 2^16 + 4 x 2^17 + 5 x 2^15 + 6 x 2^14 + 7 x 2^13 = 2,088,960; >> 9 is 4,080.
    row = [k << 15 for k in range(1, 8)]
    assert mmr_mapped([0] + [z // 32 for z in row], 512, 256, 64) == 4080
    # Squares are 2^18, 2^16, 2^12, 2^14, 2^10, 2^8, 2^6: 262,144 + 131,072 + 12,288 + 65,536 + 5,120 + 1,536 + 448 is
    # 478,144; >> 4 is 29,884. Third powers are 2^17, 2^14, 2^8, 2^11, 2^5, 2^2, 2^-1, which is cut to 0: 131,072 +
    # 32,768 + 768 + 8,192 + 160 + 24 + 0 is 172,984; >> 4 is 10,811.
    assert mmr_mapped([0] * 8 + row, 512, 256, 64) == 29884
    assert mmr_mapped([0] * 15 + row, 512, 256, 64) == 10811
    assert mmr_mapped(numbers(1, c0=one - 1), 9, 9, 9) == 65534                         # 32,767 x 2^20 >> 19
    assert mmr_mapped(numbers(1, c0=one), 9, 9, 9) == 65535                             # 65,536, cut
    assert mmr_mapped(numbers(1, c0=-1), 9, 9, 9) == 0
    # Both ends: 2^14 x 2^20 less 2^19 is 17,179,344,896; >> 19 is 32,767.
    ends = numbers(1, c0=one // 2, c1=-65536 * one, c2=65536 * one - 1)
    assert mmr_mapped(ends, 512, 512, 3) == 32767
    # At d = 32 the two terms are beyond 2^66: 2^31 x 2^20 less 2^19, >> 36 is 32,767 too.
    ends = numbers(1, c0=1 << 31, c1=-65536 << 32, c2=(65536 << 32) - 1)
    assert mmr_mapped(ends, 512, 512, 3, d=32) == 32767
    for z, cut in (((65536 << 32) - 1, 65535), (-65536 << 32, 0)):
        assert mmr_mapped([z] * 22, 1023, 1023, 1023, d=32) == cut


def test_mmr_in_halves():
    """Numbers over the whole range: integer parts and fractions summed apart, each sum below 2^63, give the same."""
    generator = Generator(7)
    for depth, d in ((8, 13), (10, 15), (10, 24), (8, 32), (10, 32)):
        for at in range(60):
            coef = [generator.among(limits.coefficients(d, limits.MMR)) for _ in range(1 + 7 * (1 + at % 3))]
            tt = composer.mmr_terms(*(generator.below(1 << depth) for _ in range(3)), 3, depth)
            rest = sum(z * t for z, t in zip(coef[1:], tt[1:]))
            coef[0] = max(min(at - rest // tt[0], (65536 << d) - 1), -65536 << d)       # sums near 0 where it can
            rows = [None] + [coef[1 + 7 * i:8 + 7 * i] for i in range(3)]
            whole = composer.mmr_sum(tt, 1 + at % 3, coef[0], rows)
            integers, fractions = (sum(part * t for part, t in zip(parts, tt)) for parts in (
                [z >> d for z in coef], [z % (1 << d) for z in coef]))
            assert abs(integers) < 1 << 63 and 0 <= fractions < 1 << 63
            assert whole >> d == integers + (fractions >> d)


def test_mmr_clamps():
    """Each of the three samples is clamped with its own component's pivots: 1.0 of s0, s1 or s2 is 64 of each code."""
    one = 1 << 15
    pivots = ((100, 200), (300, 400), (500, 600))
    for i, (low, high) in enumerate(pivots, 1):
        def of(s):
            samples = [150, 350, 550]
            samples[i - 1] = s
            return mmr_mapped(numbers(1, **{"c%d" % i: one}), *samples, pivots=pivots)
        assert [of(s) for s in (0, low - 1, low, low + 1, high, high + 1, 1023)] == [
            64 * s for s in (low, low, low, low + 1, high, high, high)]
    # The piece goes by the sample of the component before it is clamped, and by no other one.
    plan = mmr_plan(numbers(1, c0=one // 4), pivots=((0, 1023), (100, 100, 200), (0, 1023)))
    set_section(plan, 1, (100, 100, 200), [numbers(1, c0=one // 4), (one // 2, 0), numbers(3, c2=one)])
    pivot_value = assign_pivot_values(plan.pred_pivot_value, plan.num_pivots_minus2)
    assert [map_sample(plan, pivot_value, 1, (s0, s, 700)) for s in (50, 100, 199, 200, 900) for s0 in (0, 900)] == [
        16384, 16384, 32768, 32768, 32768, 32768, 12800, 12800, 12800, 12800]


def test_down_sampling():
    """By hand: of rows 10 20 30 40 and 11 21 31 41 column 0 is (10 + 20 + 20 + 2 >> 2) + (11 + 22 + 21 + 2 >> 2) + 1 >>
    1 = 13 + 14 + 1 >> 1 = 14, column 1 is (20 + 60 + 40 + 2 >> 2) + (21 + 62 + 41 + 2 >> 2) + 1 >> 1 = 30 + 31 + 1 >>
    1 = 31."""
    def below(rows):
        width = len(rows[0])
        return [composer.down_sampled_luma(lambda x, y: rows[y][x], width, len(rows), i, j)
                for j in range(len(rows) // 2) for i in range(width // 2)]
    assert below([[10, 20, 30, 40], [11, 21, 31, 41]]) == [14, 31]
    # Both roundings go up: one alone, all samples and 4, >> 3, would give 0 both times.
    assert below([[0, 2], [0, 0]]) == [1] and below([[1, 0], [0, 0]]) == [1]
    assert below([[1023] * 4] * 4) == [1023] * 4 and below([[0] * 2] * 6) == [0] * 3
    # Left of the picture stands column 0; right of it nothing is read. Row pairs are apart.
    assert below([[8, 0, 0, 0], [8, 0, 0, 0], [0, 8, 0, 0], [0, 8, 0, 0]]) == [6, 0, 2, 2]
    assert below([[0, 0, 0, 8], [0, 0, 0, 8]]) == [0, 2]


def test_mmr_picture():
    """By hand: 1.0 of s0 in Cb and of s1 in Cr, 12 bit, so that Cb is 4 times the down-sampled luma, Cr 4 times Cb."""
    one = 1 << 15
    plan = mmr_plan(numbers(1, c1=one))
    set_section(plan, 2, (0, 1023), [numbers(1, c2=one)])
    plan.half_width, plan.half_height = 2, 2
    luma = [10, 20, 30, 40, 11, 21, 31, 41, 0, 0, 8, 0, 0, 0, 8, 0]
    base = luma + [500, 600, 700, 800] + [1, 2, 3, 4]
    number, composed = jobs.job(plan, 0, 2, base, [], [0] * 24)
    assert number == 0 and composed == [4 * s for s in luma + [14, 31, 0, 4] + [500, 600, 700, 800]]
    # A job of row pair 1 does not read the luma of row pair 0.
    number, half = jobs.job(plan, 1, 1, [65535] * 8 + base[8:], [], [7] * 24)
    assert number == 0 and half == [7] * 8 + composed[8:16] + [7] * 2 + composed[18:20] + [7] * 2 + composed[22:]
    assert jobs.job(plan, 0, 2, [1024] + base[1:], [], [7] * 24)[0] == 11


def residual(e, offset, R, S, T, EL_bit_depth, d):
    return inverse_quantization(e, offset, R, S, T, EL_bit_depth, d)


def test_residual_10():
    """Clause 5.4.3.2 by hand at EL_bit_depth 10: TT = +-2T, RR = 2R, shift d-15."""
    one = 1 << 15
    # At the offset: r = 0, and the threshold is not added.
    assert residual(512, 512, one, 100, 7, 10, 15) == 0
    # One above: rr = 1, 2, 2 - 1 = 1; dq = 100; TT = 14; 114 <= 65,536; r = 114.
    assert residual(513, 512, one, 100, 7, 10, 15) == 114
    # One below: rr = -1, -2, -2 + 1 = -1; dq = -100; TT = -14; r = -114.
    assert residual(511, 512, one, 100, 7, 10, 15) == -114
    # Three above: rr = 3, 6, 5; dq = 500 + 14; r = 514.
    assert residual(515, 512, one, 100, 7, 10, 15) == 514
    # Upper limit: rr = 511, 1022, 1021; dq = 102,100 + 14 > 65,536; r = 65,536.
    assert residual(1023, 512, one, 100, 7, 10, 15) == 65536
    # Lower limit: rr = -512, -1024, -1023; dq = -102,314 < -65,536; r = -65,536.
    assert residual(0, 512, one, 100, 7, 10, 15) == -65536
    # Shift 1 (d = 16), one below: dq = -13; -13 / 2 = -6.5, down to -7.
    assert residual(299, 300, 1 << 16, 13, 0, 10, 16) == -7
    # The same one above: 13 / 2 = 6.5, down to 6.
    assert residual(301, 300, 1 << 16, 13, 0, 10, 16) == 6
    # Shift 3 (d = 18), two below: rr = -2, -4, -3; dq = -15; TT = -2; -17;
    # -17 / 8 = -2.125, down to -3.
    assert residual(8, 10, 1 << 18, 5, 1, 10, 18) == -3
    # The limit is shifted too: d = 17, shift 2, R = 3, RR = 6: dq = 1,000 and
    # -1,000 become 6 and -6; 6 / 4 down to 1, -6 / 4 = -1.5 down to -2.
    assert residual(401, 400, 3, 1000, 0, 10, 17) == 1
    assert residual(399, 400, 3, 1000, 0, 10, 17) == -2
    # dq equal to RR stays: R = 57, RR = 114 = dq; and R = 56 cuts to 112.
    assert residual(513, 512, 57, 100, 7, 10, 15) == 114
    assert residual(513, 512, 56, 100, 7, 10, 15) == 112
    # R = 0: every residual is 0.
    assert residual(1023, 0, 0, 65535, 65535, 10, 15) == 0
    # Largest R = 65,535: RR = 131,070 passes 17 bits and is not cut:
    # rr = 1023, 2046, 2045; dq = 2,045 * 65,535 > RR; r = 131,070.
    assert residual(1023, 0, 65535, 65535, 0, 10, 15) == 131070


def test_residual_8():
    """The same at EL_bit_depth 8: rr * 4, TT = +-8T, RR = 8R, shift d-13."""
    # One above: rr = 1, 2, 1, 4; dq = 12; TT = 16; 28 <= 800; r = 28.
    assert residual(129, 128, 100, 3, 2, 8, 13) == 28
    # One below: rr = -1, -2, -1, -4; dq = -12; TT = -16; r = -28.
    assert residual(127, 128, 100, 3, 2, 8, 13) == -28
    # At the offset.
    assert residual(128, 128, 100, 3, 2, 8, 13) == 0
    # Upper limit: rr = 127, 254, 253, 1012; dq = 1,012 * 8,191 > 800; r = 800.
    assert residual(255, 128, 100, 8191, 0, 8, 13) == 800
    # Lower limit: rr = -128, ..., -255 * 4 = -1,020; r = -800.
    assert residual(0, 128, 100, 8191, 0, 8, 13) == -800
    # Shift 3 (d = 16), one below: dq = -4 * 3 = -12; -12 / 8 = -1.5, down to -2.
    assert residual(127, 128, 1 << 16, 3, 0, 8, 16) == -2
    # One above: 12 / 8 = 1.5, down to 1.
    assert residual(129, 128, 1 << 16, 3, 0, 8, 16) == 1


def test_reconstruction():
    """Clause 5.4.3.3 by hand: 12 bits add 8 and drop 4, 10 bits add 32 and drop 6."""
    assert reconstruct(65535, 0, 1, 12) == 4095    # 65,543 >> 4 is 4,096, cut
    assert reconstruct(65535, 0, 1, 10) == 1023    # 65,567 >> 6 is 1,024, cut
    assert reconstruct(7, 0, 0, 12) == 0           # 15 >> 4
    assert reconstruct(8, 0, 0, 12) == 1           # 16 >> 4
    assert reconstruct(31, 0, 0, 10) == 0          # 63 >> 6
    assert reconstruct(32, 0, 0, 10) == 1          # 64 >> 6
    assert reconstruct(0, -9, 0, 12) == 0          # -1 >> 4 is -1, raised to 0
    assert reconstruct(100, -9, 1, 12) == 6        # flag 1: r ignored, 108 >> 4
    assert reconstruct(100, -9, 0, 12) == 6        # 99 >> 4
    assert reconstruct(100, -13, 0, 12) == 5       # 95 >> 4


def largest_plan(last=(1, 2, 3)):
    """All pieces, of polynomials."""
    plan = small_plan()
    for cmp in range(3):
        set_section(plan, cmp, [60 * i for i in range(limits.PIVOT_PLACES)],
                    [[1, 2, 3]] * limits.carried(limits.N[-1], 1) + [last])
    return plan


def largest_mmr_plan():
    """The same with MMR of the highest order in chroma."""
    plan = largest_plan()
    for cmp in (1, 2):
        set_section(plan, cmp, [60 * i for i in range(limits.PIVOT_PLACES)], [range(-11, 11)] * limits.PIECE_PLACES)
    return plan


def test_block_sizes():
    """The house rules' lengths, against those that the limits come to; a plan reads back from both versions."""
    shortest, middle, longest = small_plan(), largest_plan(), largest_mmr_plan()
    for version, section, size, trailer in ((1, 34, 138, (126, 102, 68, 34, 1, 0)),
                                            (2, 46, 174, (162, 138, 92, 46, 2, 0))):
        assert len(block.section_bytes(shortest, 0, version)) == limits.SHORTEST_SECTION[version] == section
        data = block.write(shortest, version)
        assert len(data) == limits.SHORTEST_BLOCK[version] == size
        assert struct.unpack(">6H", data[-12:]) == trailer
        assert block.read(data) == (0, shortest)
    for version, size in ((1, 1008), (2, 1059)):                # of polynomials alone
        assert len(block.write(middle, version)) == size
        assert block.read(block.write(middle, version)) == (0, middle)
    # A piece of MMR is 2 + 22 x 8 = 178 bytes: 1 + 34 + 16 x 178 + 17, and 178 more; 24 + luma + 2 x chroma + 12.
    for version, sections, size in ((1, [324, 2900, 2900], 6160), (2, [341, 3078, 3078], 6533)):
        assert limits.LONGEST_SECTIONS[version] == sections
        assert [len(block.section_bytes(longest, cmp, version)) for cmp in range(3)] == sections
        data = block.write(longest, version)
        assert len(data) == limits.LONGEST_BLOCK[version] == size
        assert block.read(data) == (0, longest)
        assert block.read(b"\xff" * 70000 + data) == (0, longest)
    assert len(places.PLACES) == 11 + 3 * 430
    unlike = largest_plan([4, -5])
    assert block.read(block.write(unlike, 2)) == (0, unlike)


def test_mmr_by_hand():
    """An MMR piece's bytes at d = 15, read to places: 441 + 18 is piece 0 of Cb, its numbers are from 461 on."""
    header, *sections = split(block.write(small_plan()))
    begin, nlq = bytes.fromhex("00" "000003ff"), bytes(17)
    words = ["0000000000000005", "ffffffff00007fff", "ffff000000000000", "0000ffff00007fff", "0000000200000003",
             "0000000000000000", "0000000000000001", "8000000000000000"]
    last = words.index("8000000000000000")

    def made(numbers, order=0, idc=1):
        piece = bytes([idc, order]) + b"".join(bytes.fromhex(word) for word in numbers)
        return block.assemble(header, [sections[0], begin + piece + nlq, sections[2]])
    assert number_of(made(words)) == 5                          # the last one is far below -65,536
    words[last] = "0000000000007fff"
    number, plan = block.read(made(words))
    numbers = [5, -1, -65536 << 15, (65536 << 15) - 1, 65539, 0, 1, 32767]
    assert number == 0 and places.values(plan)[459:485] == [1, 0] + numbers + [0] * 14 + [1, 0]
    assert places.values(plan)[485:493] == numbers              # piece 1 is piece 0 again
    assert block.write(plan) == made(words) and len(made(words)) == 138 + 54
    for word, number in (("ffff000000000000", 0), ("fffeffff00000000", 5), ("0000ffff00000000", 0),
                         ("0001000000000000", 5), ("0000000000007fff", 0), ("0000000000008000", 5),
                         ("7fffffff00000000", 5), ("0100000000000000", 5), ("00000000ffffffff", 5)):
        for at in range(8):
            assert number_of(made(words[:at] + [word] + words[at + 1:])) == number
    # 8, 15 and 22 numbers; another order finds too few or too many. A polynomial is no MMR.
    for order, count in ((0, 8), (1, 15), (2, 22)):
        for given in (7, 8, 9, 14, 15, 16, 21, 22, 23):
            assert number_of(made(["0000000000000000"] * given, order)) == (0 if given == count else 3)
    assert [number_of(made(words, order)) for order in (3, 4, 128, 255)] == [5] * 4
    assert [number_of(made(words, 0, idc)) for idc in (2, 3, 129, 255)] == [5] * 4
    # Luma has none, and a bad integer part comes before its fraction that is missing.
    cb = made(words)[58:58 + 88]
    assert number_of(block.assemble(header, [cb, cb, cb])) == 5
    for size, cut in ((11, cb[:11]), (10, cb[:10])):
        assert number_of(block.assemble(header, [sections[0], cut, sections[2]])) == 3
        bad = edited(cut, 7, 1)
        assert number_of(block.assemble(header, [sections[0], bad, sections[2]])) == (5 if size == 11 else 3)
    assert number_of(block.assemble(header, [sections[0], cb[:6], sections[2]])) == 3
    assert number_of(block.assemble(header, [sections[0], begin + b"\2", sections[2]])) == 5


def test_versions_by_hand():
    """The shortest block's section in both versions, read to places: 29 is piece 0, 53 piece 1 of component 0."""
    y = bytes.fromhex("00" "000003ff" "0000" "0000000005" "0100000000")
    nlq = bytes.fromhex("0200" "0000000000" "0000000000" "0000000000")
    header = block.write(small_plan())[:24]
    number, plan = block.read(block.assemble(header, [y + nlq] * 3, 1))
    assert number == 0 and places.values(plan)[29:79] == 2 * ([0, 0, 5, 32768] + [0] * 20) + [0, 0]
    last = bytes.fromhex("0001" "ff00007fff" "0000000006" "0000000007")
    number, plan = block.read(block.assemble(header, [y + last + nlq] * 3, 2))
    assert number == 0 and places.values(plan)[29:60] == [0, 0, 5, 32768] + [0] * 20 + [0, 1, -1, 6, 7, 0, 0]
    # The other version, one piece too many: nlq_offset's 2 is no mapping_idc, and no integer part is 255.
    for version, section in ((2, y + nlq), (1, y + last + nlq), (2, y + last + last + nlq)):
        assert number_of(block.assemble(header, [section] * 3, version)) == 5
    for version in (0, 3, 257, 258, 513, 65535):
        assert number_of(block.assemble(header, [y + last + nlq] * 3, version)) == 2
    # Sections of zeros: 34 bytes are one of version 1, 46 of version 2; else piece 1 runs past, or 12 bytes are left.
    for version, sizes, number in (
            (1, (34, 34, 34), 0), (2, (46, 46, 46), 0), (2, (34, 34, 34), 3), (1, (46, 46, 46), 3),
            (2, (46, 46, 34), 3), (1, (34, 46, 34), 3), (2, (58, 46, 46), 3), (2, (46, 45, 46), 3)):
        assert number_of(block.assemble(header, [bytes(size) for size in sizes], version)) == number
    # mapping_idc of piece 1 is at 17 of a section; MMR has more numbers than there are bytes
    for cmp, number in ((0, 5), (1, 3), (2, 3)):
        sections = [bytes(46)] * 3
        sections[cmp] = edited(bytes(46), 17, 1)
        assert number_of(block.assemble(header, sections, 2)) == number
        sections[cmp] = edited(bytes(46), 17, 2)
        assert number_of(block.assemble(header, sections, 2)) == 5


def test_largest_size():
    """W and H at the limit are read, and one more of W/2 or of H/2 is refused 4."""
    for offset, allowed in ((8, limits.HALF_WIDTHS), (10, limits.HALF_HEIGHTS)):
        data, most = block.write(small_plan()), allowed[-1]
        number, plan = block.read(edited(data, offset, *divmod(most, 256)))
        assert number == 0 and most in (plan.half_width, plan.half_height)
        assert block.read(edited(data, offset, *divmod(most + 1, 256))) == (4, None)


def edited(data, offset, *new):
    """A copy of data with these bytes at offset."""
    out = bytearray(data)
    out[offset:offset + len(new)] = bytes(new)
    return bytes(out)


def number_of(data):
    return block.read(data)[0]


def test_block_refusals():
    data = block.write(small_plan())
    n = limits.N[-1] + 1
    low, high = limits.COEF_INTS[0], limits.COEF_INTS[-1]
    assert number_of(bytes(12)) == 2
    assert number_of(bytes(11)) == 1
    assert number_of(edited(data, 126, 0, 10, 0xff, 0xf2)) == 2   # A 10, D0 65,522
    assert number_of(data[1:]) == 1
    assert number_of(edited(data, 135, 3)[1:]) == 2            # 2 before the rest of 1
    assert number_of(edited(data, 135, 2)[1:]) == 1            # version 2 is one
    assert number_of(edited(data, 24, n)) == 5
    assert number_of(edited(data, 24, 1)) == 3                 # n = 1: section too short
    assert number_of(edited(data, 29, 1)) == 5                 # mapping_idc, section 0
    # Sections 1 and 2 as MMR: the first fraction is 00 01 00 00, which is 65,536; without that 1 the bytes end early.
    for section in (24 + 34, 24 + 68):
        assert number_of(edited(data, section + 5, 1)) == 5
        assert number_of(edited(edited(data, section + 5, 1), section + 12, 0)) == 3
        assert number_of(edited(data, section + 5, 2)) == number_of(edited(data, section + 5, 255)) == 5
    assert number_of(edited(data, 31, high)) == 0
    assert number_of(edited(data, 31, high + 1)) == 5
    assert number_of(edited(data, 31, low % 256)) == 0
    assert number_of(edited(data, 31, (low - 1) % 256)) == 5
    assert number_of(edited(data, 32, 0, 0, 0x7f, 0xff)) == 0  # 2^15 - 1
    assert number_of(edited(data, 32, 0, 0, 0x80, 0)) == 5     # 2^15


def test_left_over_before_next_section():
    header, *sections = split(block.write(small_plan()))
    sections[0] += b"\0"
    sections[1] = edited(sections[1], 0, limits.N[-1] + 1)
    assert number_of(block.assemble(header, sections)) == 3
    sections[0] = sections[0][:-1]
    assert number_of(block.assemble(header, sections)) == 5


def split(data):
    """Header and sections of a shortest block."""
    y, size = limits.HEADER_BYTES, limits.SHORTEST_SECTION[1]
    return [data[:y]] + [data[y + cmp * size:y + (cmp + 1) * size] for cmp in range(3)]


def test_round_trip():
    """Writing the plan of an accepted slice, as the version that it was, gives its last A + 12 bytes again.

    What was read of version 1 can be written as version 2, which is longer, and reads back to the same plan.
    """
    both = alike = 0
    for data, plan in read_blocks().items():
        whole, version = block_of(data), block.version_of(data)
        assert writer.write_into(plan, version, bytes(len(whole))) == (0, len(whole), whole)
        assert not jobs.breaks_rule_7(plan)
        other = writer.length(plan, 3 - version)
        assert version == 2 or other >= len(whole) + 36
        if other > 0:
            number, length, after = writer.write_into(plan, 3 - version, bytes(other))
            assert (number, length) == (0, other) and block.read(after) == (0, plan)
            both, alike = both + 1, alike + (version == 2)
    assert len(read_blocks()) > 600 and 500 < both < len(read_blocks()) and alike > 1


def test_rule_7():
    good = largest_plan()
    assert not jobs.breaks_rule_7(good)
    assert jobs.breaks_rule_7(Plan())

    def broken(change):
        plan = copy.deepcopy(small_plan())
        change(plan)
        return jobs.breaks_rule_7(plan)

    assert not broken(lambda plan: None)
    assert broken(lambda plan: plan.pred_pivot_value[1].__setitem__(2, 1))
    assert broken(lambda plan: plan.fp_coef[2][0].__setitem__(2, 1))
    assert broken(lambda plan: plan.order_minus1[0].__setitem__(2, 1))
    assert not broken(lambda plan: plan.order_minus1[0].__setitem__(1, 1))        # piece n + 1, its third is 0
    assert not broken(lambda plan: plan.fp_coef[0][1].__setitem__(0, 9))
    assert broken(lambda plan: plan.fp_coef[0][1].__setitem__(2, 1))
    assert broken(lambda plan: plan.fp_coef[0][2].__setitem__(0, 1))
    assert broken(lambda plan: plan.mapping_idc[0].__setitem__(1, 1))
    assert jobs.breaks_rule_7(places.changed(good, [(("order_minus1", 2, 16), 0)]))      # n = 15: place 16 is used
    assert not jobs.breaks_rule_7(places.changed(good, [(("fp_coef", 2, 16, 2), 0)]))
    coefficients, numbers = limits.coefficients(15), limits.nlq_numbers(15)
    assert broken(lambda plan: plan.fp_coef[0][0].__setitem__(0, coefficients[-1] + 1))
    assert not broken(lambda plan: plan.fp_coef[0][0].__setitem__(0, coefficients[0]))
    assert broken(lambda plan: plan.mapping_idc[0].__setitem__(0, 1))
    assert not broken(lambda plan: plan.mapping_idc[1].__setitem__(0, 1))       # its two numbers are two of MMR
    assert broken(lambda plan: plan.mapping_idc[1].__setitem__(0, 2))
    assert broken(lambda plan: plan.mapping_idc[1].__setitem__(2, 1))           # a piece that there is none of
    assert broken(lambda plan: plan.nlq_offset.__setitem__(2, 1024))
    assert broken(lambda plan: plan.fp_hdr_in_max.__setitem__(2, numbers[-1] + 1))


def test_rule_7_of_mmr():
    """By hand, at d = 15: 8, 15 or 22 numbers from -65,536 x 2^15 up to 65,536 x 2^15; a polynomial's are -64 to 64."""
    low, high = -65536 << 15, (65536 << 15) - 1
    for order, used in ((0, 8), (1, 15), (2, 22)):
        plan = mmr_plan([low, high] * 4 + [high] * (used - 8))
        assert not jobs.breaks_rule_7(plan)
        for cmp in (1, 2):
            for piece in (0, 1):
                for i in range(22):
                    for z, broken in ((high + 1, True), (low - 1, True), (1, i >= used), (-1, i >= used)):
                        assert jobs.breaks_rule_7(places.changed(plan, [(("fp_coef", cmp, piece, i), z)])) == broken
                for other in (0, 1, 2, 3, 255):
                    edits = [(("order_minus1", cmp, piece), other)]
                    assert jobs.breaks_rule_7(places.changed(plan, edits)) == (other < order or other > 2)
                assert jobs.breaks_rule_7(places.changed(plan, [(("mapping_idc", cmp, piece), 0)]))
                assert jobs.breaks_rule_7(places.changed(plan, [(("mapping_idc", cmp, piece), 2)]))
        assert jobs.breaks_rule_7(places.changed(plan, [(("mapping_idc", 0, 0), 1)]))
        assert jobs.breaks_rule_7(places.changed(plan, [(("fp_coef", 1, 2, 21), 1)]))
    # A polynomial between: its numbers keep their range, and its third one is used from order 1 on.
    plan = mmr_plan([0] * 22)
    set_section(plan, 2, (0, 1023), [(-64 << 15, (64 << 15) - 1)])
    assert not jobs.breaks_rule_7(plan)
    for i, z in ((0, (-64 << 15) - 1), (1, 64 << 15), (2, 1), (3, 1), (21, -1)):
        assert jobs.breaks_rule_7(places.changed(plan, [(("fp_coef", 2, 0, i), z)]))


def test_plan_cases():
    """Each place was tried where it is used and where it is not, at its ends and beyond; a number by each method."""
    shown = set()
    for group in plan_groups():
        assert block.read(block.write(group.plan, group.version)) == (0, group.plan)
        for case in group.cases:
            plan = places.changed(group.plan, case.edits)
            broken = jobs.breaks_rule_7(plan)
            for place, _ in case.edits[-1:] if broken else case.edits:
                if len(place) > 1:
                    shown.add((place, method_of(plan, place), plan_cases.is_used(plan, place), broken))
    polynomials, mmr, smallest = largest_plan(), largest_mmr_plan(), small_plan()
    for place in places.PLACES[len(places.HEADER):]:
        for plan in (polynomials, mmr) if place[0] == "fp_coef" and place[1] > 0 else (polynomials,):
            idc = method_of(plan, place)
            used = plan_cases.is_used(plan, place)
            assert ((place, idc, True, True) in shown) == used, place
            assert (place, idc, True, False) in shown or not used or place[0] == "mapping_idc"
        can_be_free = not plan_cases.is_used(smallest, place)
        assert any((place, idc, False, True) in shown for idc in (None, 0, 1)) == can_be_free
    for cmp in (1, 2):                                          # beyond the order of an MMR piece
        for i in range(8, 22):
            assert any((("fp_coef", cmp, piece, i), 1, False, True) in shown for piece in range(17))


def method_of(plan, place):
    """Of the piece whose number stands there; None elsewhere."""
    return plan.mapping_idc[place[1]][place[2]] if place[0] == "fp_coef" else None


def test_writer():
    """By hand, at d = 15: -1.5 is -2 and a half, -2^-15 is -1 and 32,767 / 2^15; places as in test_what_is_said."""
    plan = small_plan(pieces=((-3 << 14, -1),))
    plan.fp_linear_deadzone_slope[2], plan.fp_linear_deadzone_threshold[2] = (1 << 15) + 2, 3
    number, length, after = writer.write_into(plan, 1, b"\xaa" * 141)
    assert (number, length, after[138:]) == (0, 138, b"\xaa" * 3)
    assert after[:24] == bytes.fromhex("01000f0202040000" "0001000103e80000" "0000000000000000")
    y = bytes.fromhex("00" "000003ff" "0000" "fe00004000" "ff00007fff" "0000" "0000000000")
    assert after[24:126] == 2 * (y + bytes(10)) + y + bytes.fromhex("0100000002" "0000000003")
    assert after[126:138] == bytes.fromhex("007e0066004400220001" "0000")
    assert writer.write_into(plan, 1, b"\xaa" * 138) == (0, 138, after[:138])
    for size in (0, 12, 137):
        assert writer.write_into(plan, 1, b"\xaa" * size) == (12, 0, b"\xaa" * size)
    for version in (0, 3, 257, 258, 65535):
        assert writer.length(plan, version) == 0
        for size in (0, 137, 138, 200):
            assert writer.write_into(plan, version, b"\xaa" * size) == (7, 0, b"\xaa" * size)
    assert writer.write_into(Plan(), 1, b"\xaa") == writer.write_into(Plan(), 2, b"\xaa") == (7, 0, b"\xaa")
    assert [writer.length(plan, 1) for plan in (Plan(), plan, largest_plan())] == [0, 138, 1008]
    assert [writer.length(plan, 2) for plan in (Plan(), plan, largest_plan())] == [0, 174, 1059]


def test_writer_of_version_2():
    """By hand: piece 1 is 12 bytes after piece 0, or 17; as version 1 it is written where it is piece 0 again."""
    plan = small_plan()
    number, length, after = writer.write_into(plan, 2, b"\xaa" * 175)
    piece, nlq = bytes.fromhex("0000" "0000000000" "0100000000"), bytes(17)
    assert (number, length, after[174:]) == (0, 174, b"\xaa")
    assert after[24:162] == 3 * (bytes.fromhex("00" "000003ff") + 2 * piece + nlq)
    assert after[162:174] == bytes.fromhex("00a2008a005c002e0002" "0000")
    assert writer.write_into(plan, 2, b"\xaa" * 173) == (12, 0, b"\xaa" * 173)
    for cmp in range(3):
        for edits, size in (([(("fp_coef", cmp, 1, 0), 1)], 174), ([(("fp_coef", cmp, 0, 1), -1)], 174),
                            ([(("order_minus1", cmp, 1), 1)], 179),
                            ([(("order_minus1", cmp, 0), 1), (("fp_coef", cmp, 0, 2), 8)], 179)):
            other = places.changed(plan, edits)
            assert (writer.length(other, 1), writer.length(other, 2)) == (0, size)
            for room in (0, 137, 138, 200):                     # 7 before 12
                assert writer.write_into(other, 1, b"\xaa" * room) == (7, 0, b"\xaa" * room)
            number, length, after = writer.write_into(other, 2, bytes(size))
            assert (number, length) == (0, size) and block.read(after) == (0, other)
    # Alike in both pieces, a method that there is none of is no less a fault.
    both = places.changed(plan, [(("mapping_idc", 1, piece), 2) for piece in (0, 1)])
    assert writer.length(both, 1) == writer.length(both, 2) == 0


def test_writer_of_mmr():
    """By hand, at d = 15: 4 bytes of integer part, 4 of fraction, rounding down; 54 bytes more than a polynomial."""
    plan = small_plan()
    set_section(plan, 2, (0, 1023), [[-1, -65536 << 15, (65536 << 15) - 1, 3 << 14, -3 << 14, 0, 1, -1 << 15]])
    piece = bytes.fromhex("0100" "ffffffff00007fff" "ffff000000000000" "0000ffff00007fff" "0000000100004000"
                          "fffffffe00004000" "0000000000000000" "0000000000000001" "ffffffff00000000")
    number, length, after = writer.write_into(plan, 1, b"\xaa" * 200)
    assert (number, length, after[192:]) == (0, 192, b"\xaa" * 8)
    assert after[92:180] == bytes.fromhex("00" "000003ff") + piece + bytes(17)
    assert after[180:192] == bytes.fromhex("00b4009c007a00580001" "0000")
    assert writer.write_into(plan, 1, b"\xaa" * 191) == (12, 0, b"\xaa" * 191)
    number, length, after = writer.write_into(plan, 2, bytes(400))
    assert (number, length) == (0, 174 + 108) and after[24 + 92:24 + 92 + 5 + 132] == after[116:121] + 2 * piece
    assert [writer.length(plan, version) for version in (0, 1, 2, 3)] == [0, 192, 282, 0]
    for edits in ([(("fp_coef", 2, 1, 7), 0)], [(("order_minus1", 2, 1), 1)], [(("order_minus1", 2, 0), 2)]):
        other = places.changed(plan, edits)
        assert writer.length(other, 1) == 0 and writer.length(other, 2) >= 282
    # The method alone makes two pieces differ.
    plan = places.changed(small_plan(), [(("mapping_idc", 1, 1), 1)])
    assert [writer.length(plan, version) for version in (1, 2)] == [0, 174 + 54]
    assert [writer.length(largest_mmr_plan(), version) for version in (1, 2)] == [6160, 6533]


def test_read_cases():
    """Each kind of case tells the wrong readers that it is said to show, and each wrong reader is shown."""
    bases, cases = block_bases_and_cases()

    def tells(case, read):
        data = block_cases.data_of(bases, case)
        return answers.block_line(data) != answers.block_line(data, read)
    assert_shown(block_cases.SHOWS, by_kind(cases), wrong_readers.WRONG, tells)
    assert shown_names(block_cases.SHOWS) == set(wrong_readers.WRONG)


def test_sample_cases():
    """The same by what is composed: for some of the wrong readers, and for every wrong mapping."""
    readers = {name: {"read": read} for name, read in wrong_readers.WRONG.items()}
    mappers = {name: {"mapping": mapping} for name, mapping in wrong_mappers.WRONG.items()}
    shows = {**sample_cases.SHOWS, **mmr_cases.SHOWS, **search_cases.SHOWS}
    assert_shown(shows, by_kind(all_samples()), {**readers, **mappers},
                 lambda case, wrong: composed_line(case) != composed_line(case, **wrong))
    assert shown_names(shows) - set(readers) == set(mappers)


def search_samples():
    """{kind: its cases}, of those of search_cases.py."""
    kinds = by_kind(all_samples())
    return {kind: kinds[kind] for kind in search_cases.SHOWS}


def test_search_cases():
    """Each of their kinds shows what it is said to at both depths, and one with MMR in the chroma planes."""
    for kind, names in search_cases.SHOWS.items():
        for depth in limits.DEPTHS:
            cases = [case for case in search_samples()[kind] if case.plan.BL_bit_depth == depth]
            for name in names:
                assert any(told(case, wrong_mappers.WRONG[name], "MMR" in kind) for case in cases), (kind, depth, name)


def told(case, mapping, in_chroma):
    """Whether the composed samples, or those of Cb and Cr, are others with this mapping."""
    right, wrong = (composed_line(case, mapping=one).split() for one in (map_place, mapping))
    first = case.plan.width * case.plan.height if in_chroma else 0
    return right[first:] != wrong[first:]


def test_one_mistake():
    """Without their mistakes the halving search and the differences are right, so that each has no other one.

    By hand, at depth 10: a third coefficient of 1 makes the sum s x s. At 3 it is 9, grows by 7, and this by 2: four
    codes on it is 9 + 4 x 7 + 6 x 2 = 49, three before 9 - 3 x 7 + 6 x 2 = 0. Half as bent it is 9 + 28 + 6 = 43. Less
    2^20 it is below 0 at 512, and cut there it is 0 + 1,025 + 1,027 two codes on. 2^20 more are too many at 3, where d
    is 0: cut each time it is 2^20 - 1 + 9 two codes on.
    """
    assert wrong_mappers.differences([0, 0, 1], 3, 10) == (9, 7, 2)
    assert [wrong_mappers.going_on([0, 0, 1], 3, steps, 10, 0) for steps in (0, 4, -3)] == [9, 49, 0]
    assert wrong_mappers.half_as_bent([0, 0, 1], 3, 4, 10, 0) == 43
    assert wrong_mappers.cut_on_the_way([0, 0, 1], 3, 4, 10, 0) == 49
    assert wrong_mappers.cut_on_the_way([-1, 0, 1], 512, 2, 10, 0) == 1025 + 1027
    assert wrong_mappers.cut_on_the_way([1, 0, 1], 3, 2, 10, 0) == (1 << 20) + 8
    assert [wrong_mappers.halving(2, 5, [0, 5, 5, 9], left) for left in (0, 1)] == [(2, 2), (2, 3)]
    halving = wrong_mappers.choosing(lambda piece, n, s, pivots: wrong_mappers.halving(n, s, pivots)[0])
    for cases in search_samples().values():
        for case in cases:
            assert composed_line(case) == composed_line(case, mapping=halving)
            assert composed_line(case) == composed_line(case, mapping=wrong_mappers.by_differences())


def test_equal_pivots():
    """Every way of equal pivots, for polynomials and for MMR, both depths; its pieces are apart at every sample."""
    assert search_cases.runs_of(2) == [[2]] and search_cases.runs_of(3) == [[1, 2], [2, 1], [3]]
    assert search_cases.runs_of(4) == [[1, 1, 2], [1, 2, 1], [1, 3], [2, 1, 1], [2, 2], [3, 1], [4]]
    assert search_cases.runs_of(17) == [
        [17], [9] + [1] * 8, [1] * 8 + [9], [1] * 4 + [9] + [1] * 4, [5] + [1] * 7 + [5], [2] * 8 + [1], [3] * 5 + [2]]
    ways, stands = set(), set()
    for kind, cases in search_samples().items():
        for case in cases if "equal" in kind else []:
            pivot_value = assign_pivot_values(case.plan.pred_pivot_value, case.plan.num_pivots_minus2)
            for cmp, pivots in enumerate(pivot_value):
                which = composer.has_mmr(case.plan, cmp), case.plan.BL_bit_depth
                values = sorted(set(pivots))
                ways.add((*which, tuple(map(pivots.count, values))))
                stands |= {(*which, len(pivots) > 4, stand_of(pivot, which[1]))
                           for pivot in values if pivots.count(pivot) > 1}
                assert_apart(case, cmp, pivot_value)
    both = [(by_mmr, depth) for by_mmr in (False, True) for depth in limits.DEPTHS]
    assert ways == {(*which, tuple(runs)) for which in both for number in (2, 3, 4, 15, 16, 17)
                    for runs in search_cases.runs_of(number)}
    assert stands == {(*which, many, stand) for which in both for many in (False, True)
                      for stand in ("0", "between", "top", "above")}


def stand_of(pivot, depth):
    top = (1 << depth) - 1
    return "0" if pivot == 0 else "top" if pivot == top else "above" if pivot > top else "between"


def assert_apart(case, cmp, pivot_value):
    """A plane of a case has all samples about its pivots, and at each of them its pieces come to numbers far apart."""
    plan, pivots = case.plan, pivot_value[cmp]
    sixth = len(case.base) // 6
    places = range(4 * sixth) if cmp == 0 else range((3 + cmp) * sixth, (4 + cmp) * sixth)
    assert set(search_cases.samples_about(pivots, plan.BL_bit_depth)) <= {case.base[at] for at in places}
    for at in places:
        sX = composer.samples_of(plan, case.base, cmp, at)
        mapped = sorted(composer.map_by_piece(plan, pivot_value, cmp, sX, piece)
                        for piece in range(limits.carried(len(pivots) - 2, case.version)))
        assert all(after - before >= 64 for before, after in zip([0] + mapped, mapped + [65535]))


def test_every_code():
    """Their luma has every code once, each of their chroma planes every fourth, and sums are cut on both sides."""
    for kind in ("every code", "every code, version 2"):
        for case in search_samples()[kind]:
            codes = 1 << case.plan.BL_bit_depth
            chroma = codes + codes // 4
            assert sorted(case.base[:codes]) == list(range(codes))
            for plane in (case.base[codes:chroma], case.base[chroma:]):
                assert sorted(plane) == list(range(min(plane), codes, 4))
            for cmp in range(3):
                mapped = sample_cases.mapped_plane(case.plan, cmp, case.base)
                assert {0, 65535} < set(mapped) and case.plan.num_pivots_minus2[cmp] == 15


def composed_line(case, read=block.read, mapping=map_place):
    """What is said of a case of sample_vectors by this reader and by this mapping."""
    number, plan = read(block.write(case.plan, case.version))
    if number != 0:
        return "block refused %d" % number
    return answers.sample_line(plan, case.first, case.count, case.base, case.enhancement, mapping)


def by_kind(cases):
    kinds = {}
    for case in cases:
        kinds.setdefault(case.kind, []).append(case)
    return kinds


def shown_names(shows):
    return {name for names in shows.values() for name in names}


def assert_shown(shows, kinds, wrong, tells):
    """Each kind has a case that tells each wrong program that it is said to show."""
    for kind, names in shows.items():
        for name in names:
            assert any(tells(case, wrong[name]) for case in kinds[kind]), (kind, name)


def test_check_sum():
    """What its authors give for FNV-1a of 32 bits."""
    assert [answers.fnv_1a(data) for data in (b"", b"a", b"foobar")] == [0x811c9dc5, 0xe40c292c, 0xbf9cf968]


def test_write_cases():
    """Each kind of case tells the wrong writers that it is said to show, and each wrong writer is shown."""
    kinds = {}
    for group in write_cases.all_groups():
        assert len(group.data) <= write_cases.LARGEST_BLOCK
        plan = write_cases.plan_of(group.data)
        for case in group.cases:
            assert case.size <= write_cases.LARGEST_SLICE
            kinds.setdefault(case.kind, []).append(Written(plan, case))
    assert set(kinds) == set(write_cases.SHOWS)
    assert_shown(write_cases.SHOWS, kinds, wrong_writers.WRONG, Written.tells)
    assert shown_names(write_cases.SHOWS) == set(wrong_writers.WRONG)


class Written:
    """A case of write_vectors, its plan changed as it says."""

    def __init__(self, plan, case):
        self.given = places.changed(plan, case.edits), case.version, case.size, case.first

    @functools.cached_property
    def line(self):
        return answers.write_line(*self.given)

    def tells(self, wrong):
        """Whether the line would be another with this writer."""
        return self.line != answers.write_line(*self.given, by=wrong)


def test_write_line():
    """The example of docs/TEXT.md: its block has 138 bytes, and its text is the page's, byte by byte."""
    text = author_cases.joined(author_cases.LINES)
    plan = block.read(plan_text.read_text(text).data)[1]
    line = answers.write_line(plan, 1, 138, 0).split()
    assert line[:3] == ["written", "138", "138"] and line[4] == "0" and line[5:9] == line[:4]
    assert line[9:] == [str(len(text)), str(answers.fnv_1a(text)), "same", "same"]
    assert answers.write_line(plan, 1, 137, 0).split()[:3] == ["refused", "12", "138"]
    # as version 2 it has piece 0's five lines once more in each component
    line = answers.write_line(plan, 2, 174, 0).split()
    assert line[:3] == ["written", "174", "174"] and line[4] == "0" and line[5:9] == line[:4]
    assert line[9] == str(len(text) + 3 * len(author_cases.joined(author_cases.LINES[15:20])))
    assert line[11:] == ["same", "same"]


def test_jobs():
    plan = small_plan()
    plan.half_height = 2                                       # 2 x 4: 12 samples
    base, output = [1023] * 12, answers.untouched_output(12)
    assert jobs.job(Plan(), 0, 0, [], [], [])[0] == 7
    assert jobs.job(plan, 0, 0, base[1:], [], output)[0] == 9
    assert jobs.job(plan, 0, 0, [1024] * 12, [], output)[0] == 10
    assert jobs.job(plan, 65535, 1, base, [], output)[0] == 10
    assert jobs.job(plan, 2, 1, base, [], output)[0] == 10
    assert jobs.job(plan, 0, 1, [1024] * 12, [], output)[0] == 11
    number, composed = jobs.job(plan, 1, 1, base, [], output)
    # 65,472 + 8 >> 4 = 4,092; row pair 1 is luma 4..7, Cb 9, Cr 11.
    assert number == 0
    assert composed == [60000, 60001, 60002, 60003, 4092, 4092, 4092, 4092,
                        60008, 4092, 60010, 4092]
    plan.disable_residual_flag = 1
    assert jobs.job(plan, 1, 1, base, [65535], output) == (0, composed)
    assert compose_row_pairs(plan, 0, 0, base, [], output) == output


def tall_plan(row_pairs, flag=0):
    """2 samples wide, linear; one above the offset, 512, the residual is 114."""
    plan = small_plan()
    plan.half_height = row_pairs
    plan.disable_residual_flag = flag
    for cmp in range(3):
        plan.nlq_offset[cmp] = 512
        plan.fp_hdr_in_max[cmp] = 1 << 15
        plan.fp_linear_deadzone_slope[cmp] = 100
        plan.fp_linear_deadzone_threshold[cmp] = 7
    return plan


def test_opening():
    plan = tall_plan(3)
    marks = bytearray([0, 1, 200])
    assert nights.open_picture(Plan(), 5, marks) == (7, None)
    assert nights.open_picture(Plan(), 5, bytearray()) == (7, None)
    assert list(marks) == [0, 1, 200]
    assert nights.open_picture(plan, 0xffffffff, marks) == (0, 0xffffffff)
    assert list(marks) == [0, 0, 0]
    assert nights.open_picture(plan, 0, marks) == (0, 0)
    for wrong in ([], [1, 2], [1, 2, 3, 4]):
        marks = bytearray(wrong)
        assert nights.open_picture(plan, 5, marks) == (9, None)
        assert nights.open_picture(Plan(), 5, marks) == (7, None)      # 7 before 9
        assert list(marks) == wrong


class Room:
    """A memory, an open ticket and good runs; every job says what it changes."""

    def __init__(self, plan, marks):
        self.plan = plan
        self.marks = bytearray(marks)
        self.output = answers.untouched_output(plan.picture_samples)
        self.base = [1023] * plan.picture_samples

    def job(self, first, count, plan=None, own=77, base=None, enhancement=()):
        return nights.row_job(plan or self.plan, 77, own, first, count,
                              self.base if base is None else base,
                              list(enhancement), self.output, self.marks)


def test_worked_night():
    """H = 4: (0,1), (0,1), (1,1) leave 1, 1, 0; (2,1) is refused 10.  With the flag at 1 all are full."""
    room = Room(tall_plan(2, flag=1), [3, 0])
    assert nights.open_picture(room.plan, 77, room.marks) == (0, 77)
    assert room.job(0, 1) == (0, (1, 0))
    assert list(room.marks) == [1, 0]
    # Row pair 0 is luma 0..3, Cb 8, Cr 10; 65,472 + 8 >> 4 = 4,092.
    after_one = [4092, 4092, 4092, 4092, 60004, 60005, 60006, 60007,
                 4092, 60009, 4092, 60011]
    assert room.output == after_one
    assert room.job(0, 1) == (0, (1, 0))
    assert room.output == after_one and list(room.marks) == [1, 0]
    assert room.job(1, 1) == (0, (0, 0))
    assert room.job(2, 1) == (10, None)
    assert room.output == [4092] * 12 and list(room.marks) == [1, 1]
    assert room.job(0, 2) == (0, (0, 0))           # replayed after the end
    # With the flag at 0 and no enhancement the same row pairs are base only.
    room = Room(tall_plan(2), [0, 0])
    assert room.job(0, 1) == room.job(0, 1) == (0, (1, 1))
    assert room.output == after_one and list(room.marks) == [2, 0]
    assert room.job(1, 1) == (0, (0, 2)) and room.job(2, 1) == (10, None)
    assert room.output == [4092] * 12 and list(room.marks) == [2, 2]


def test_rows_left():
    """Five row pairs: marks are counted, no count is subtracted."""
    for flag, mark in ((1, 1), (0, 2)):
        room = Room(tall_plan(5, flag), [0] * 5)
        for first, count, left in ((1, 2, 3), (1, 2, 3), (2, 2, 2), (1, 1, 2), (0, 4, 1),
                                   (3, 2, 0), (0, 1, 0)):
            assert room.job(first, count) == (0, (left, 0 if flag else 5 - left))
        assert list(room.marks) == [mark] * 5


def test_late():
    """By hand, the enhancement late: code 1 comes to 4, and to 11 with what is one above the offset.

    Three row pairs of 2 x 6: row pair k is luma 4k to 4k + 3, Cb 12 + k, Cr 15 + k.
    """
    def picture_of(*values):
        return [value for value in values for _ in range(4)] + list(values) * 2

    room = Room(tall_plan(3), [0] * 3)
    low, above = [1] * 18, [513] * 18
    assert room.job(0, 2, base=low) == (0, (1, 2)) and list(room.marks) == [2, 2, 0]
    assert room.output[:8] == [4] * 8 and room.output[8:12] == [60008, 60009, 60010, 60011]
    assert room.job(1, 1, base=low, enhancement=above) == (0, (1, 1)) and list(room.marks) == [2, 1, 0]
    assert room.output[:12] == [4] * 4 + [11] * 4 + [60008, 60009, 60010, 60011]
    # Row pair 1 stays as it is, with another base too; the two beside it are composed.
    assert room.job(0, 3) == (0, (0, 2)) and list(room.marks) == [2, 1, 2]
    assert room.output == picture_of(4092, 11, 4092)
    assert room.job(1, 1) == (0, (0, 2)) and room.output == picture_of(4092, 11, 4092)
    # A bad sample in the row pair that would stay is refused all the same; beside the job it is not looked at.
    bad = low[:5] + [1024] + low[6:]
    assert room.job(1, 1, base=bad) == room.job(0, 3, base=bad) == (11, None)
    assert room.job(0, 1, base=bad) == (0, (0, 2)) and room.output == picture_of(4, 11, 4092)
    assert room.job(0, 3, base=low, enhancement=above) == (0, (0, 0)) and list(room.marks) == [1, 1, 1]
    assert room.job(0, 3) == (0, (0, 0)) and room.output == picture_of(11, 11, 11)
    # A full job composes what is full again, and an opening has all wait again.
    assert room.job(2, 1, enhancement=[512] * 18) == (0, (0, 0)) and room.output == picture_of(11, 11, 4092)
    assert nights.open_picture(room.plan, 5, room.marks) == (0, 5)
    assert room.job(2, 1, base=low) == (0, (2, 1)) and room.output == picture_of(11, 11, 4)


def test_spoiled_marks():
    """Without an opening: a full job writes 1 to any mark, one without enhancement keeps all but 0 and 2."""
    spoilt = [0, 1, 2, 3, 77, 255]
    untouched = answers.untouched_output(36)
    for flag, enhancement in ((0, [512] * 36), (1, []), (1, [65535])):
        room = Room(tall_plan(6, flag), spoilt)
        assert room.job(4, 1, enhancement=enhancement) == (0, (1, 1)) and list(room.marks) == [0, 1, 2, 3, 1, 255]
        assert room.job(0, 1, own=78) == (8, None)
        assert room.job(2, 2, enhancement=enhancement) == (0, (1, 0)) and list(room.marks) == [0, 1, 1, 1, 1, 255]
        assert room.output[8:20] == [4092] * 12 and room.output[:8] + room.output[20:24] == (
            untouched[:8] + untouched[20:24])
        assert room.job(0, 6, enhancement=enhancement) == (0, (0, 0)) and list(room.marks) == [1] * 6
        assert room.output == [4092] * 36
    room = Room(tall_plan(6), spoilt)
    assert room.job(3, 3) == (0, (1, 1)) and list(room.marks) == spoilt and room.output == untouched
    assert room.job(0, 6) == (0, (0, 2)) and list(room.marks) == [2, 1, 2, 3, 77, 255]
    assert room.output[:12] == [4092] * 4 + untouched[4:8] + [4092] * 4 and room.output[12:24] == untouched[12:24]
    # Cb and Cr of row pairs 0 and 2 stand at 24, 26, 30 and 32.
    assert [at for at in range(24, 36) if room.output[at] != untouched[at]] == [24, 26, 30, 32]


def test_order_of_refusals():
    """7, 8, 9, 10, 11: the faults are mended one by one, nothing is written."""
    room = Room(tall_plan(2), [9, 0])
    wild = [1024] * 12
    assert room.job(0, 3, plan=Plan(), own=78, base=wild[1:]) == (7, None)
    assert room.job(0, 3, own=78, base=wild[1:]) == (8, None)
    assert room.job(0, 3, base=wild[1:]) == (9, None)
    assert room.job(0, 3, base=wild) == (10, None)
    assert room.job(0, 2, base=wild) == (11, None)
    assert room.job(0, 0, base=wild, enhancement=wild[1:]) == (9, None)
    assert room.job(0, 0, base=wild, enhancement=wild) == (10, None)
    assert room.job(0, 1, enhancement=wild) == (11, None)
    assert room.job(65535, 1) == room.job(1, 65535) == room.job(2, 0) == (10, None)
    assert room.job(0, 1, own=77 + (1 << 16)) == (8, None)
    # Row pair 1 is good and row pair 0 is not: its last sample is Cr 10.
    half = [1023] * 10 + [1024, 1023]
    assert room.job(0, 2, base=half) == room.job(0, 1, base=half) == (11, None)
    assert room.output == answers.untouched_output(12) and list(room.marks) == [9, 0]
    assert room.job(1, 1, base=half) == (0, (0, 1))
    # A memory of the wrong size: 9, after 7 and 8 and before 10 and 11.
    for output, marks in ((12, 1), (12, 3), (12, 0), (11, 2), (13, 2), (0, 2)):
        room.output = answers.untouched_output(output)
        room.marks = bytearray([5] * marks)
        assert room.job(0, 1, plan=Plan()) == (7, None)
        assert room.job(0, 1, own=78) == (8, None)
        assert room.job(0, 1) == room.job(0, 3) == room.job(0, 1, base=wild) == (9, None)
        assert room.output == answers.untouched_output(output)
        assert list(room.marks) == [5] * marks


def test_later_samples_stand():
    """Not within demand 3's premises: each job composes what it was lent, but for what it leaves."""
    room = Room(tall_plan(2), [0, 0])
    low, above = [1] * 12, [513] * 12
    # s = 1 maps to 64; 64 + 8 >> 4 = 4; with the residual 64 + 114 + 8 >> 4 = 11.
    assert room.job(0, 1, base=low, enhancement=above) == (0, (1, 0))
    assert room.job(0, 2, base=low) == (0, (0, 1))
    assert room.output == [11] * 4 + [4] * 4 + [11, 4, 11, 4]
    assert room.job(1, 1) == (0, (0, 1))
    assert room.output == [11] * 4 + [4092] * 4 + [11, 4092, 11, 4092]
    assert room.job(0, 2, enhancement=above) == (0, (0, 0))     # 65,472 + 114 + 8 >> 4 is above 4,095
    assert room.job(0, 1, base=low, enhancement=[512] * 12) == (0, (0, 0))
    assert room.output == [4] * 4 + [4095] * 4 + [4, 4095, 4, 4095]
    # Flag 1: the enhancement is ignored, whatever its length and samples.
    room = Room(tall_plan(2, flag=1), [0, 0])
    for ignored in ([], above, [65535], [65535] * 12, [0] * 13):
        assert room.job(1, 1, base=low, enhancement=ignored) == (0, (1, 0))
        assert room.output[4:8] == [4] * 4


def played(night):
    """(opening, [(job, answer)], output run, marks) through the stream's bytes."""
    lines = answers.night_answers(make_vectors.night_stream([night]))
    assert len(lines) == len(night.jobs) + 3
    output, marks = ([int(word) for word in line.split()] for line in lines[-2:])
    return lines[0], list(zip(night.jobs, lines[1:-2])), output, marks


def place_of(plan, at):
    """(cmp, row pair) of the sample at this place of a picture."""
    W, H = plan.width, plan.height
    if at < W * H:
        return 0, at // W // 2
    at -= W * H
    if at < W * H // 4:
        return 1, at // (W // 2)
    return 2, (at - W * H // 4) // (W // 2)


def composed_sample(plan, at, base, enhancement):
    """Demand 2 for one sample."""
    cmp, _ = place_of(plan, at)
    pivot_value = assign_pivot_values(plan.pred_pivot_value, plan.num_pivots_minus2)
    v = map_place(plan, pivot_value, base, cmp, at)
    if plan.disable_residual_flag == 1 or enhancement == []:
        return reconstruct(v, 0, 1, plan.hdr_bit_depth)
    return reconstruct(v, composer.residual(plan, cmp, enhancement[at]), 0,
                       plan.hdr_bit_depth)


def lent_runs(night, job):
    none = job.enhancement == answers.NO_RUN
    return night.runs[job.base], [] if none else night.runs[job.enhancement]


class Demand:
    """What demand 3 says of one picture: built from the accepted jobs alone, as they come; no mark is looked at."""

    def __init__(self, plan):
        self.plan, self.base, self.enhancement = plan, None, []
        self.named, self.with_it = set(), set()     # row pairs; those named by a job that brought the enhancement

    def accept(self, job, base, enhancement):
        """One more accepted job; its samples have to be within the premises."""
        own = set(range(job.first, job.first + job.count))
        assert self.base in (None, base)
        self.base = base
        self.named |= own
        if self.plan.disable_residual_flag == 0 and enhancement != []:
            assert self.enhancement in ([], enhancement)
            self.enhancement = enhancement
            self.with_it |= own

    def full(self):
        return self.named if self.plan.disable_residual_flag else self.with_it

    def line(self):
        """What the last accepted job is to say."""
        return job_line(self.plan.half_height - len(self.named), len(self.named) - len(self.full()))

    def marks(self):
        return [1 if k in self.full() else 2 if k in self.named else 0 for k in range(self.plan.half_height)]

    def output(self):
        run = answers.untouched_output(self.plan.picture_samples)
        for at in range(len(run)):
            k = place_of(self.plan, at)[1]
            if k in self.named:
                run[at] = composed_sample(self.plan, at, self.base, self.enhancement if k in self.full() else [])
        return run


def job_line(left, base_only):
    """The line of an accepted job, in the words of README.md."""
    return ("complete" if left == 0 else "left %d" % left) + ", base only %d" % base_only


PREMISED = ("random", "random, version 2", "random, MMR", "random, MMR, version 2", "late, then there",
            "late, in part", "late, after a standby", "late, MMR")


def test_demand_3():
    """Demand 3's sentence over the random nights and the late ones; marks play no part in it."""
    chosen = [night for night in all_nights() if night.kind in PREMISED]
    accepted = refused = complete = late = mixed = 0
    for night in chosen:
        opening, jobs_done, output, marks = played(night)
        assert opening == "open %d" % night.ticket
        demand = Demand(night.plan)
        for job, answer in jobs_done:
            assert job.open_ticket == night.ticket
            if answer.startswith("refused"):
                refused += 1
                continue
            accepted += 1
            assert job.plan == night_cases.BLOCK_PLAN
            demand.accept(job, *lent_runs(night, job))
            assert answer == demand.line()
        assert output == demand.output() and marks == demand.marks()
        complete += 0 not in marks
        late += 2 in marks
        mixed += {1, 2} <= set(marks)
    assert len(chosen) >= 120 and accepted > 1000 and refused > 300 and late > 40 and mixed > 20
    assert 60 <= complete < len(chosen)
    shapes = {(night.plan.half_height, night.plan.BL_bit_depth) for night in chosen}
    assert len(shapes) == 16                        # H/2 from 1 to 8, both depths


def test_any_order():
    """Within the premises the jobs of a night end alike in any order: what came without enhancement first, or last."""
    orders = (lambda job: job.enhancement == answers.NO_RUN, lambda job: job.enhancement != answers.NO_RUN)
    moved = 0
    for night in all_nights():
        if night.kind in PREMISED:
            ends = [played(night)[2:]]
            for order in orders:
                ends.append(played(night._replace(jobs=sorted(night.jobs, key=order)))[2:])
            ends.append(played(night._replace(jobs=night.jobs[::-1]))[2:])
            assert all(end == ends[0] for end in ends), night.kind
            moved += len({order(job) for order in orders for job in night.jobs}) == 2
    assert moved > 100


def last_word(before, naming):
    """(the mark after it, the job whose samples stand or None) of a row pair with this mark before.

    `naming` are the accepted jobs that named it, in order: (whether it is full, anything about it).  Of full ones the
    last decides; where there is none and the row pair was not full before, the last one of all.
    """
    full = [about for is_full, about in naming if is_full]
    if full:
        return 1, full[-1]
    if before not in (0, 2) or not naming:
        return before, None
    return 2, naming[-1][1]


def brings_all(plan, enhancement):
    return plan.disable_residual_flag == 1 or enhancement != []


def test_last_word():
    """By hand."""
    late, there = (False, "late"), (True, "there")
    assert last_word(0, []) == (0, None) and last_word(77, []) == (77, None) and last_word(2, []) == (2, None)
    for before in (0, 2):
        assert last_word(before, [late]) == (2, "late") and last_word(before, [late, (False, "again")]) == (2, "again")
        assert last_word(before, [late, there]) == last_word(before, [there, late]) == (1, "there")
    for before in (1, 3, 77, 255):
        assert last_word(before, [late, late]) == (before, None) and last_word(before, [late, there]) == (1, "there")


def test_any_night():
    """Every night, whatever its marks were: of the accepted jobs that named a row pair one decides its samples."""
    for night in all_nights():
        opening, jobs_done, output, marks = played(night)
        opened = opening == "open %d" % night.ticket
        assert opened or opening in ("refused 7", "refused 9")
        before = [0] * len(night.marks) if opened else night.marks
        naming = [[] for _ in before]
        for job, answer in jobs_done:
            if not answer.startswith("refused"):
                lent = lent_runs(night, job)
                for k in range(job.first, job.first + job.count):
                    naming[k].append((brings_all(night.plan, lent[1]), lent))
                after = [last_word(*one)[0] for one in zip(before, naming)]
                assert answer == job_line(after.count(0), after.count(2))
        words_said = [last_word(*one) for one in zip(before, naming)]
        assert marks == [mark for mark, _ in words_said]
        for at, sample in enumerate(answers.untouched_output(night.output_size)):
            k = place_of(night.plan, at)[1]
            if k < len(words_said) and words_said[k][1] is not None:
                sample = composed_sample(night.plan, at, *words_said[k][1])
            assert output[at] == sample


@functools.lru_cache(maxsize=None)
def night_lines():
    """[(night, its bytes, what is said of it)]."""
    made = [(night, make_vectors.night_stream([night])) for night in all_nights()]
    return [(night, data, answers.night_answers(data)) for night, data in made]


def test_night_cases():
    """Each late kind of night tells the wrong programs that it is said to show, and each wrong program is shown."""
    kinds = {}
    for night, data, lines in night_lines():
        kinds.setdefault(night.kind, []).append((data, lines))
    assert set(night_cases.SHOWS) <= set(kinds)
    assert {kind for kind in kinds if kind.startswith("late,")} <= set(night_cases.SHOWS)
    assert_shown(night_cases.SHOWS, kinds, wrong_nights.WRONG,
                 lambda one, wrong: answers.night_answers(one[0], wrong) != one[1])
    assert shown_names(night_cases.SHOWS) == set(wrong_nights.WRONG)
    # the parts that they are made of make the right program where none of them is wrong
    right = wrong_nights.Nights(functools.partial(nights.row_job, done=wrong_nights.doing()))
    assert all(answers.night_answers(data, right) == lines for _, data, lines in night_lines())


def test_late_nights():
    """What the late nights are to hold: both depths and methods, counts that differ, every mark kept and written."""
    found, counts = set(), set()
    for night, _, lines in night_lines():
        if not night.kind.startswith("late,"):
            continue
        by_mmr = any(composer.has_mmr(night.plan, cmp) for cmp in (1, 2))
        found.add((night.plan.BL_bit_depth, by_mmr, night.plan.disable_residual_flag))
        for line in lines[1:-2]:
            if not line.startswith("refused"):
                counts.add(line)
    assert {(8, False, 0), (10, False, 0), (8, True, 0), (10, True, 0), (8, False, 1), (10, False, 1),
            (10, True, 1)} <= found
    assert {job_line(left, base_only) for left, base_only in ((0, 0), (0, 8), (7, 1), (6, 2), (2, 6), (0, 4), (4, 0),
                                                              (1, 3), (5, 3), (2, 2))} <= counts
    assert {0, 1, 2, 3, 77, 128, 255} <= {mark for marks in night_cases.LATE_MARKS for mark in marks}


def broken_rules(night, job):
    """The rules that a job breaks, each looked at by itself."""
    size, top = night.plan.picture_samples, (1 << night.plan.BL_bit_depth) - 1
    base, enhancement = lent_runs(night, job)
    used = [base]
    if night.plan.disable_residual_flag == 0 and enhancement:
        used.append(enhancement)
    rules = []
    if job.plan == night_cases.ZERO_PLAN:
        rules.append(7)
    if job.ticket != job.open_ticket:
        rules.append(8)
    if any(len(run) != size for run in used):
        rules.append(9)
    if job.count == 0 or job.first + job.count > night.plan.half_height:
        rules.append(10)
    if any(max(run, default=0) > top for run in used):
        rules.append(11)
    return tuple(rules)


def test_order_nights():
    """All 31 choices of rules 7 to 11 are there, and the lowest is the answer."""
    found = set()
    for night in all_nights():
        if night.kind.endswith("alone") or night.kind.endswith("before later rules"):
            _, jobs_done, _, _ = played(night)
            for job, answer in jobs_done:
                rules = broken_rules(night, job)
                found.add(rules)
                assert answer == ("refused %d" % rules[0] if rules else answer)
                assert answer.startswith("refused") == (rules != ())
    assert len(found) == 32


def test_night_limits():
    """What README.md says of the sizes in night_vectors."""
    for night in all_nights():
        sizes = [night.plan.picture_samples, night.output_size, *map(len, night.runs)]
        assert max(sizes) <= night_cases.LARGEST_RUN
        assert len(night.marks) <= night_cases.LARGEST_MARKS
        assert len(night.runs) < answers.NO_RUN
        assert not jobs.breaks_rule_7(night.plan)


# Tables that are lent -------------------------------------------------------

def three_plan(depth=10, d=15):
    """2 x 4, at d = 15: luma comes to 64 s, Cb to 1/2 whatever it is, Cr to s x s / 16; version 1."""
    plan = tall_plan(2)
    one = 1 << d
    for cmp, coef in enumerate([(0, one), (one // 2, 0), (0, 0, one)]):
        set_section(plan, cmp, (0, (1 << depth) - 1), [coef])
    return plan


def thirteen_plan():
    """The same with an MMR piece that no sample meets: Cr's piece 1, between equal pivots."""
    plan = three_plan()
    set_section(plan, 2, (0, 512, 512, 1023), [(0, 0, 1 << 15), numbers(1, c0=5), (0, 0, 1 << 15)])
    return plan


def test_filling():
    """By hand: 3 x 1,024 values, 64 s, 32,768 and s x s / 16 rounded down; at depth 8 three times 256 values."""
    table = [9] * 3072
    assert tables.fill_table(three_plan(), table) == 0 and len(table) == 3072
    assert [table[at] for at in (0, 1, 2, 1023)] == [0, 64, 128, 65472]
    assert table[1024:2048] == [32768] * 1024
    assert [table[2048 + s] for s in (0, 3, 4, 5, 512, 1023)] == [0, 0, 1, 1, 16384, 65408]
    # E10 and E11: codes below the first pivot and above the last one; E14: 65,280 at code 255 of depth 8
    assert tables.fill_table(small_plan(pivots=(100, 200)), table) == 0
    assert [table[1024 * cmp + s] for cmp in range(3) for s in (0, 50, 150, 900)] == [6400, 6400, 9600, 12800] * 3
    low, table = small_plan(8, 13, (0, 255), [(0, 1 << 13)]), [9] * 768
    assert tables.fill_table(low, table) == 0 and table == [256 * s for s in range(256)] * 3
    # E4 and E6: cut at 65,535, and raised to 0
    table = [9] * 3072
    for coef, value in (((63 << 15, 0), 65535), ((0, -1 << 15), 0)):
        assert tables.fill_table(small_plan(pieces=[coef]), table) == 0 and table == [value] * 3072


def test_filling_refusals():
    """7, 9, 13 in this order, the faults mended one by one, and nothing is written."""
    mmr = thirteen_plan()
    broken = places.changed(mmr, [(("ccm_profile",), 2)])
    for size in (0, 1, 767, 768, 769, 3071, 3073):
        table = [9] * size
        assert tables.fill_table(broken, table) == 7 and tables.fill_table(mmr, table) == 9
        assert tables.fill_table(three_plan(), table) == 9 and table == [9] * size
    table = [9] * 3072
    assert tables.fill_table(broken, table) == 7 and tables.fill_table(Plan(), table) == 7
    assert tables.fill_table(mmr, table) == 13 and table == [9] * 3072
    assert tables.fill_table(Plan(), [9] * 768) == 7
    low = small_plan(8, 13, (0, 255), [(0, 1 << 13)])
    assert [tables.fill_table(low, [9] * size) for size in (768, 3072)] == [0, 9]
    # Rule 13 asks for each piece in use: 0 to n + 1 of Cb and of Cr.
    for cmp in (1, 2):
        for piece in range(4):
            pieces = [(0, 1 << 15)] * 4
            pieces[piece] = numbers(2)
            plan = three_plan()
            set_section(plan, cmp, (0, 512, 512, 1023), pieces)
            assert tables.breaks_rule_13(plan) and tables.fill_table(plan, table) == 13
    assert not tables.breaks_rule_13(three_plan()) and table == [9] * 3072


def table_room():
    """A room of 2 x 4, its base code 4, and a table filled from its plan."""
    room = Room(three_plan(), [0, 0])
    room.base, room.table = [4] * 12, [9] * 3072
    assert tables.fill_table(room.plan, room.table) == 0
    return room


def table_job(room, first, count, plan=None, own=77, base=None, enhancement=()):
    return tables.table_job(plan or room.plan, room.table, 77, own, first, count, room.base if base is None else base,
                            list(enhancement), room.output, room.marks)


def test_table_job():
    """By hand, 12 bits, so that v comes to (v + 8) / 16: code 4 of luma is 256, of Cb 32,768, of Cr 1."""
    room = table_room()
    assert table_job(room, 0, 1) == (0, (1, 1)) and list(room.marks) == [2, 0]
    # Row pair 0 is luma 0..3, Cb 8, Cr 10.
    after_one = [16, 16, 16, 16, 60004, 60005, 60006, 60007, 2048, 60009, 0, 60011]
    assert room.output == after_one
    assert table_job(room, 0, 1) == (0, (1, 1)) and room.output == after_one
    # Whatever the table holds: 100 comes to 6, 65,535 is cut to 4,095, and one above 512 the residual is 114.
    room.table[4], room.table[1024 + 4], room.table[2048 + 4] = 100, 65535, 7
    assert table_job(room, 0, 2) == (0, (0, 2))
    assert room.output == [6] * 8 + [4095] * 2 + [0] * 2                # 7 + 8 >> 4 is 0
    assert table_job(room, 1, 1, enhancement=[513] * 12) == (0, (0, 1))     # 214 + 8 >> 4 is 13, 121 + 8 >> 4 is 8
    assert room.output == [6] * 4 + [13] * 4 + [4095] * 2 + [0, 8] and list(room.marks) == [2, 1]
    before = list(room.table)
    room.table[:] = [0] * 3072
    # Row pair 1 is full and stays: row pair 0 alone has what the table holds now.
    assert table_job(room, 0, 2) == (0, (0, 1)) and list(room.marks) == [2, 1]
    assert room.output == [0] * 4 + [13] * 4 + [0, 4095, 0, 8]
    assert table_job(room, 0, 2, enhancement=[511] * 12) == (0, (0, 0)) and room.output == [0] * 12     # -114 is raised
    # The sample is not clamped to pivots: with those at 100 and 200 code 4 is looked up at 4.
    narrow = places.changed(room.plan, [(("pred_pivot_value", 0, 0), 100), (("pred_pivot_value", 0, 1), 100)])
    room.table[:], room.marks = before, bytearray(2)
    assert table_job(room, 0, 1, plan=narrow) == (0, (1, 1)) and room.output[:4] == [6] * 4
    assert room.table == before                                         # a job only reads it


def test_table_job_refusals():
    """7, 8, 9, 13, 10, 11: the faults are mended one by one, nothing is written."""
    room, wild = table_room(), [1024] * 12
    room.marks = bytearray([9, 0])
    right, mmr = list(room.table), thirteen_plan()
    broken = places.changed(mmr, [(("ccm_profile",), 2)])
    for size in (0, 768, 3071, 3073):
        room.table = [9] * size
        assert table_job(room, 0, 3, plan=broken, own=78, base=wild) == (7, None)
        assert table_job(room, 0, 3, plan=mmr, own=78, base=wild) == (8, None)
        assert table_job(room, 0, 3, plan=mmr, base=wild) == (9, None)
        assert table_job(room, 0, 3, base=wild) == table_job(room, 0, 1, base=wild) == (9, None)
        assert table_job(room, 0, 1) == (9, None) and room.table == [9] * size
    room.table = list(right)
    assert table_job(room, 0, 3, plan=mmr, base=wild[1:]) == (9, None)
    assert table_job(room, 0, 3, plan=mmr, base=wild) == (13, None)
    assert table_job(room, 0, 1, plan=mmr, base=wild) == (13, None)
    assert table_job(room, 0, 0, plan=mmr) == table_job(room, 0, 1, plan=mmr) == (13, None)
    assert table_job(room, 0, 3, base=wild) == (10, None)
    assert table_job(room, 0, 2, base=wild) == (11, None)
    assert table_job(room, 0, 1, enhancement=wild) == (11, None)
    assert room.table == right and room.output == answers.untouched_output(12) and list(room.marks) == [9, 0]
    # The plain call composes with the MMR piece, which no sample meets.
    assert room.job(1, 1, plan=mmr) == (0, (0, 1)) and room.output[4:8] == [16] * 4
    assert list(room.marks) == [9, 2]


class TableNight:
    """A case of table_vectors, what is said of it, and before each step the plan and the table as they stand."""

    def __init__(self, case):
        self.case = case
        self.lines = self.said()
        self.outputs, self.marks = ([[int(word) for word in line.split()] for line in self.lines[at::2]]
                                    for at in (len(case.steps), len(case.steps) + 1))

    def said(self, steps=None, by=tables):
        case = self.case if steps is None else self.case._replace(steps=steps)
        return answers.table_answers(make_vectors.table_stream([case]), by)

    def walk(self):
        """(step, line, plan 0, table, the plan that it was filled from or None where something else touched it)."""
        plan, table, source = self.case.plan, answers.untouched_table(self.case.table), None
        for step, line in zip(self.case.steps, self.lines):
            yield step, line, plan, table, source
            if line == "filled":
                table, source = tables.mapped_values(plan), plan
            elif step.kind == answers.DAMAGE:
                begin, end, value = step.fields
                table, source = table[:begin] + [value] * (end - begin) + table[end:], None
            elif step.kind == answers.ANOTHER_BLOCK:
                plan = step.fields[0]

    def lent(self, job):
        return lent_runs(self.case, job)


@functools.lru_cache(maxsize=None)
def table_nights():
    return [TableNight(case) for case in all_tables()]


JOBS = (answers.PLAIN_JOB, answers.TABLE_JOB)


def job_of(step):
    """(picture, job)."""
    return step.fields[0], night_cases.Job(*step.fields[1:])


def test_table_cases():
    """Each kind of case tells the wrong programs that it is said to show, and each wrong program is shown."""
    kinds = {}
    for night in table_nights():
        kinds.setdefault(night.case.kind, []).append(night)
    assert set(kinds) == set(table_cases.SHOWS)
    assert_shown(table_cases.SHOWS, kinds, wrong_tables.WRONG, lambda night, wrong: night.said(by=wrong) != night.lines)
    assert shown_names(table_cases.SHOWS) == set(wrong_tables.WRONG)


def test_both_calls_alike():
    """Where the table was filled from the plan and not touched since, the other call says and leaves the same."""
    exchanged = 0
    for night in table_nights():
        steps = []
        for step, _, plan, _, source in night.walk():
            alike = step.kind in JOBS and source == plan
            exchanged += alike
            steps.append(step._replace(kind=sum(JOBS) - step.kind) if alike else step)
        assert night.said(steps) == night.lines, night.case.kind
    assert exchanged > 1200


def test_demand_3_of_tables():
    """Demand 3's sentence with both calls, for each of two pictures by itself."""
    accepted, refused, complete, both, late = {}, 0, 0, 0, 0
    chosen = [night for night in table_nights() if night.case.kind in ("mixed night", "two pictures", "late")]
    for night in chosen:
        plan = night.case.plan
        for picture in range(2 - (night.case.kind == "mixed night")):
            opened, demand, calls = None, Demand(plan), set()
            for step, line, _, _, source in night.walk():
                if step.kind == answers.OPEN and step.fields[0] == picture:
                    opened = step.fields[2]
                    assert line == "open %d" % opened
                if step.kind not in JOBS or step.fields[0] != picture:
                    continue
                job = job_of(step)[1]
                assert job.open_ticket == opened
                if line.startswith("refused"):
                    refused += 1
                    continue
                assert job.plan == night_cases.BLOCK_PLAN and source == plan        # the premises
                calls.add(step.kind)
                accepted[step.kind] = accepted.get(step.kind, 0) + 1
                demand.accept(job, *night.lent(job))
                assert line == demand.line()
            assert night.outputs[picture] == demand.output() and night.marks[picture] == demand.marks()
            complete += 0 not in demand.marks()
            late += 2 in demand.marks()
            both += len(calls) == 2
    assert min(accepted.values()) > 250 and refused > 250 and complete > 40 and both > 40 and late > 30
    assert {(night.case.plan.half_height, night.case.plan.BL_bit_depth) for night in chosen} == {
        (rows, depth) for rows in range(1, 9) for depth in limits.DEPTHS}


def looked_up(plan, table, at, base, enhancement):
    """Demand 2 for one sample of the second call."""
    cmp, _ = place_of(plan, at)
    v, used = table[cmp * (1 << plan.BL_bit_depth) + base[at]], plan.disable_residual_flag == 0 and enhancement != []
    r = composer.residual(plan, cmp, enhancement[at]) if used else 0
    return reconstruct(v, r, 0, plan.hdr_bit_depth)


class Naming:
    """Of one picture of a case its marks at the last opening, and the accepted jobs since and before."""

    def __init__(self, one):
        self.before = list(one.marks)
        self.jobs = [[] for _ in one.marks]
        self.older = [None] * len(one.marks)        # whose samples stand where nothing came since the opening

    def open(self):
        self.older = [last_word(*given)[1] or older for given, older in zip(zip(self.before, self.jobs), self.older)]
        self.before = [0] * len(self.before)
        self.jobs = [[] for _ in self.before]

    def accept(self, job, is_full, about):
        for k in range(job.first, job.first + job.count):
            self.jobs[k].append((is_full, about))

    def marks(self):
        return [last_word(*given)[0] for given in zip(self.before, self.jobs)]

    def deciding(self, k):
        return last_word(self.before[k], self.jobs[k])[1] or self.older[k] if k < len(self.jobs) else None


def test_any_table():
    """Every case: of the accepted jobs that named a row pair one decides its samples, by the table as it was then."""
    for night in table_nights():
        naming = [Naming(one) for one in night.case.pictures]
        for step, line, plan, table, _ in night.walk():
            if step.kind == answers.SHOW:
                assert line == answers.decimal(table[step.fields[0]:step.fields[1]])
            if step.kind == answers.OPEN and line.startswith("open"):
                naming[step.fields[0]].open()
            if step.kind in JOBS and not line.startswith("refused"):
                picture, job = job_of(step)
                lent, by = night.lent(job), table if step.kind == answers.TABLE_JOB else None
                naming[picture].accept(job, brings_all(plan, lent[1]), (plan, by, lent))
                after = naming[picture].marks()
                assert line == job_line(after.count(0), after.count(2))
        for picture, one in enumerate(night.case.pictures):
            assert night.marks[picture] == naming[picture].marks()
            for at, sample in enumerate(answers.untouched_output(one.output_size)):
                deciding = naming[picture].deciding(place_of(night.case.plan, at)[1])
                if deciding is not None:
                    plan, table, lent = deciding
                    sample = composed_sample(plan, at, *lent) if table is None else looked_up(plan, table, at, *lent)
                assert night.outputs[picture][at] == sample


def test_order_of_tables():
    """Every choice of rules that a table job can break is there, at both depths, and the order's first is shown."""
    found = set()
    for night in table_nights():
        if night.case.kind != "order of the rules":
            continue
        for step, line, plan, table, _ in night.walk():
            if step.kind == answers.TABLE_JOB:
                rules = set(broken_rules(night.case, job_of(step)[1]))
                if len(table) != 3 << plan.BL_bit_depth:
                    rules.add(9)
                if 7 not in rules and any(composer.has_mmr(plan, cmp) for cmp in (1, 2)):
                    rules.add(13)
                found.add((plan.BL_bit_depth, *sorted(rules)))
                first = [rule for rule in (7, 8, 9, 13, 10, 11) if rule in rules][:1]
                assert line.startswith("refused") == (rules != set())
                assert line == "refused %d" % first[0] if first else True
    # 32 choices without 13, of the others 16: the plan of zeros has no MMR piece
    assert len(found) == 2 * (32 + 16)


def test_table_limits():
    """What README.md says of the sizes in table_vectors; every value of a table of each depth is shown."""
    lengths, whole = set(), set()
    for night in table_nights():
        case = night.case
        assert len(case.runs) <= table_cases.LARGEST_RUNS and case.table <= table_cases.LARGEST_TABLE
        assert max([case.plan.picture_samples, *map(len, case.runs)]) <= night_cases.LARGEST_RUN
        for one in case.pictures:
            assert len(one.marks) <= night_cases.LARGEST_MARKS and one.output_size <= night_cases.LARGEST_RUN
        for step, line, plan, _, source in night.walk():
            assert not jobs.breaks_rule_7(plan)
            if step.kind in (answers.SHOW, answers.DAMAGE):
                assert step.fields[0] <= step.fields[1] <= case.table
            if step.kind == answers.SHOW and source == plan and line.count(" ") == 3 * (1 << plan.BL_bit_depth) - 1:
                whole.add((plan.BL_bit_depth, case.kind))
            if step.kind == answers.FILL:
                lengths.add((plan.BL_bit_depth, case.table, line))
    kinds = {kind for kind in table_cases.SHOWS if kind.startswith("filled") and "another" not in kind}
    assert len(kinds) == 5 and {(depth, kind) for depth in limits.DEPTHS for kind in kinds} <= whole
    for depth, right in ((8, 768), (10, 3072)):
        assert (depth, right, "filled") in lengths
        for size in {0, 1, 767, 768, 769, 3071, 3072, 3073, 3080} - {right}:
            assert (depth, size, "refused 9") in lengths and (depth, size, "filled") not in lengths


def test_stream_limits():
    """What README.md says of the sizes in the other streams, and that the longest of all is there."""
    bases, cases = block_bases_and_cases()
    blocks = [block.write(some.plan, some.version)
              for some in [*all_samples(), *all_nights(), *plan_groups(), *all_tables()]]
    for data in [*bases, *blocks]:
        assert len(data) <= write_cases.LARGEST_BLOCK
    for longest in limits.LONGEST_BLOCK.values():
        assert longest in map(len, bases) and longest in map(len, blocks)
    assert len(bases) < 256 and max(len(case.edits) for case in cases) < 256
    assert max(len(answers.block_line(data)) for data in bases) < 20480
    sizes = sorted({len(run) for case in all_samples() for run in (case.base, case.enhancement)})
    assert [size for size in sizes if size > 180] == [384, 1536, 3 * 2 * limits.HALF_WIDTHS[-1]]
    text = plan_text.text_of(author_cases.longest_plan(), 2)
    assert len(text) == 24733 < limits.TEXT_BYTES == 32768 and len(plan_text.read_text(text).data) == 6533


def test_what_is_said():
    """By hand: the shortest block of depth 10 has its header at byte 0, its sections at
    24, 58 and 92, its trailer at 126.

    In a section: 0 the number of pivots, 1 and 3 the pivots, 5 mapping_idc, 6 the order,
    7 and 12 the coefficients (an integer byte and a fraction of four), 17 nlq_offset, 19,
    24 and 29 the numbers after it.
    """
    good = block.write(small_plan())
    assert len(good) == 138 and inspect_block.inspect("x", good)[-1] == "shown"

    def said(place, value, before=b""):
        data = bytearray(good)
        data[place] = value
        line, last = inspect_block.inspect("x", before + data)
        assert last == "not shown"
        return line

    n, order, integer = limits.N[-1], limits.ORDERS[-1], limits.NLQ_INTS[-1]
    low, high = limits.COEF_INTS[0], limits.COEF_INTS[-1]
    expected = [
        ((24, n + 1), "5 at byte 24", "num_pivots_minus2[0] is %d, allowed 0 to %d" % (n + 1, n)),
        ((61, 4), "5 at byte 61", "pred_pivot_value[1][1] is 1279, allowed less than 1024"),
        ((29, 1), "5 at byte 29", "mapping_idc[0][0] is 1, allowed 0"),
        ((63, 2), "5 at byte 63", "mapping_idc[1][0] is 2, allowed 0 or 1"),
        ((97, 255), "5 at byte 97", "mapping_idc[2][0] is 255, allowed 0 or 1"),
        ((64, order + 1), "5 at byte 64",
         "poly_order_minus1[1][0] is %d, allowed 0 to %d" % (order + 1, order)),
        ((99, high + 1), "5 at byte 99",
         "poly_coef_int[2][0][0] is %d, allowed %d to %d" % (high + 1, low, high)),
        ((36, (low - 1) % 256), "5 at byte 36",
         "poly_coef_int[0][0][1] is %d, allowed %d to %d" % (low - 1, low, high)),
        ((39, 0x80), "5 at byte 37", "poly_coef[0][0][1] is 32768, allowed less than 32768"),
        ((109, 4), "5 at byte 109", "nlq_offset[2] is 1024, allowed less than 1024"),
        ((48, integer + 1), "5 at byte 48",
         "linear_deadzone_slope_int[0] is %d, allowed 0 to %d" % (integer + 1, integer)),
        ((122, 1), "5 at byte 122", "linear_deadzone_threshold[2] is 16777216, allowed less than 32768"),
        ((0, 2), "4 at byte 0", "ccm_profile is 2, allowed 1, 3 or 4"),
        ((137, 1), "2 at byte 126", "A is 126, D0 is 102, D1 is 68, D2 is 34, version is 1, zero is 1, "
                                    "allowed A = D0 + 24, D0 > D1 > D2 > 0, version 1 or 2, zero 0"),
    ]
    for edit, refusal, found in expected:
        number, place = refusal.split(" ", 1)
        whole = "x: refused %s (%s) %s: %s; %s" % (
            number, words.NAMES[int(number)], place, found, words.ADVICE[int(number)])
        assert said(*edit) == whole, said(*edit)
    # A third coefficient is five bytes more, so that linear_deadzone_threshold_int would begin where the section ends.
    # Bytes before the block move its places.
    assert said(30, 1, bytes(70000)) == (
        "x: refused 3 (length) at byte 70058: section 0 is bytes 70024 up to 70058; "
        "the block was cut or joined wrongly: ask the sender")
    short = "; hand over the whole block, up to its last byte"
    assert inspect_block.inspect("x", good[-11:])[0] == "x: refused 1 (short): 11 bytes, allowed 12 or more" + short
    assert inspect_block.inspect("x", good[1:])[0] == "x: refused 1 (short): A is 126, allowed at most 125" + short


def test_what_is_said_of_mmr():
    """By hand: section 1 at 58 has mapping_idc at 63, the order at 64, the constant at 65 and 69, coefficient [1][0] at
    73 and 77, [1][6] at 121 and 125, nlq_offset at 129; section 2 of three orders begins at 146, has [2][3] at 241."""
    plan = small_plan()
    set_section(plan, 1, (0, 1023), [numbers(1)])
    set_section(plan, 2, (0, 1023), [numbers(3)])
    good = block.write(plan)
    assert len(good) == 24 + 34 + 88 + 200 + 12

    def said(place, *new):
        line, last = inspect_block.inspect("x", edited(good, place, *new))
        assert last == "not shown"
        return line
    wide = "allowed -65536 to 65535"
    for edit, place, found in (
            ((64, 3), 64, "mmr_order_minus1[1][0] is 3, allowed 0 to 2"),
            ((65, 0, 1), 65, "mmr_constant_int[1][0] is 65536, " + wide),
            ((65, 255, 254, 255, 255), 65, "mmr_constant_int[1][0] is -65537, " + wide),
            ((71, 128), 69, "mmr_constant[1][0] is 32768, allowed less than 32768"),
            ((73, 128), 73, "mmr_coef_int[1][0][1][0] is -2147483648, " + wide),
            ((125, 255, 255, 255, 255), 125, "mmr_coef[1][0][1][6] is 4294967295, allowed less than 32768"),
            ((129, 4), 129, "nlq_offset[1] is 1024, allowed less than 1024"),
            ((152, 255), 152, "mmr_order_minus1[2][0] is 255, allowed 0 to 2"),
            ((241, 0, 2), 241, "mmr_coef_int[2][0][2][3] is 131072, " + wide),
            ((247, 128), 245, "mmr_coef[2][0][2][3] is 32768, allowed less than 32768"),
            ((321, 1), 321, "mmr_coef_int[2][0][3][6] is 16777216, " + wide)):
        assert said(*edit) == words.refused("x", 5, found, place), said(*edit)
    # Order 2 wants seven numbers more: the first that does not end in time begins at 129 + 16, the section at 146.
    assert said(64, 1) == words.refused("x", 3, "section 1 is bytes 58 up to 146", 145)


def test_what_is_shown_of_mmr():
    """By hand: -1 / 2^15 is -1 and 32,767 parts, and is rounded down to -0.000031."""
    plan = small_plan()
    set_section(plan, 1, (0, 1023), [numbers(1, c0=-1 << 14, c1=-1, c7=(65536 << 15) - 1)])
    set_section(plan, 2, (0, 1023), [numbers(2, c8=5, c14=-65536 << 15)])
    lines = inspect_block.inspect("x", block.write(plan))
    at = lines.index("section 1, Cb, at byte 58")
    assert lines[at + 4:at + 17] == [
        "  piece 0", "    mapping_idc 1", "    mmr_order_minus1 0",
        "    mmr_constant_int -1 + mmr_constant 16384/2^15, about -0.500000",
        "    mmr_coef_int[1][0] -1 + mmr_coef[1][0] 32767/2^15, about -0.000031",
        *("    mmr_coef_int[1][%d] 0 + mmr_coef[1][%d] 0/2^15, about 0.000000" % (j, j) for j in range(1, 6)),
        "    mmr_coef_int[1][6] 65535 + mmr_coef[1][6] 32767/2^15, about 65535.999969",
        "  nlq_offset 0", "  hdr_in_max_int 0 + hdr_in_max 0/2^15, about 0.000000"]
    at = lines.index("section 2, Cr, at byte 146")
    assert lines[at + 4:at + 8] == ["  piece 0", "    mapping_idc 1", "    mmr_order_minus1 1",
                                    "    mmr_constant_int 0 + mmr_constant 0/2^15, about 0.000000"]
    assert lines[at + 14:at + 16] == ["    mmr_coef_int[1][6] 0 + mmr_coef[1][6] 0/2^15, about 0.000000",
                                      "    mmr_coef_int[2][0] 0 + mmr_coef[2][0] 5/2^15, about 0.000152"]
    assert lines[at + 21] == "    mmr_coef_int[2][6] -65536 + mmr_coef[2][6] 0/2^15, about -65536.000000"
    assert lines[at + 22] == "  nlq_offset 0"


def test_what_is_drawn_of_mmr():
    """By hand: Cb is 1.0 of s1 and 1/4 of s0, which is at 512, clamped to 256, so that v is 64 s + 4,096; Cr is 1.0 of
    the product of s0 and s2: 16 s."""
    one = 1 << 15
    plan = mmr_plan(numbers(1, c2=one, c1=one // 4), pivots=((0, 256), (0, 1023), (0, 1023)))
    set_section(plan, 2, (0, 1023), [numbers(2, c5=one)])
    lines = inspect_block.inspect("x", block.write(plan), plotted=True)
    assert lines[1].endswith('>Y: pieces 1, codes 0 to 1023, mapped samples 0 to 16384</text><text y="-9">pivots 0 256')
    assert lines[3].endswith('>Cb: pieces 1, codes 0 to 1023, mapped samples 4096 to 65535, luma and Cr at 512</text>'
                             '<text y="-9">pivots 0 1023')
    assert 'd="M 0 61439 256 61375 512 61311 ' in lines[4]
    assert lines[5].endswith('>Cr: pieces 1, codes 0 to 1023, mapped samples 0 to 16368, luma and Cb at 512</text>'
                             '<text y="-9">pivots 0 1023')
    assert 'd="M 0 65535 256 65519 512 65503 ' in lines[6]
    # Of depth 8 the middle code is 128. A component of polynomials has no such words, whatever the other one has.
    plan = mmr_plan(numbers(1, c2=1 << 13), 8, 13, ((0, 255),) * 3)
    set_section(plan, 2, (0, 255), [(0, 1 << 13)])
    lines = inspect_block.inspect("x", block.write(plan, 2), plotted=True)
    assert ">Cb: pieces 2, codes 0 to 255, mapped samples 0 to 65280, luma and Cr at 128</text>" in lines[3]
    assert ">Cr: pieces 2, codes 0 to 255, mapped samples 0 to 65280</text>" in lines[5]


def test_what_is_shown():
    """By hand: the same block with two pieces of luma, 12 bytes and a pivot more, so that section 1 begins at 72."""
    plan = small_plan(pivots=(0, 1023))
    set_section(plan, 0, (16, 516, 516), [(-1, 1 << 15), (-(64 << 15), 3)])
    plan.nlq_offset[0], plan.fp_linear_deadzone_slope[0] = 512, (1 << 15) + 1
    lines = inspect_block.inspect("x", bytes(5) + block.write(plan))
    assert lines[:13] == [
        "x, 157 bytes", "header at byte 5", "  ccm_profile 1", "  ccm_level 0", "  coefficient_log2_denom 15",
        "  BL_bit_depth_minus8 2", "  EL_bit_depth_minus8 2", "  hdr_bit_depth_minus8 4", "  disable_residual_flag 0",
        "  W/2 1", "  H/2 1", "  max_display_mastering_luminance 1000 cd/m2",
        "  min_display_mastering_luminance 0 x 0.0001 cd/m2"]
    # 1 / 2^15 is 0.000030517...; -1 / 2^15 is rounded down to -0.000031.
    assert lines[13:32] == [
        "section 0, Y, at byte 29", "  num_pivots_minus2 1", "  pred_pivot_value 16 500 0", "  pivot_value 16 516 516",
        "  piece 0", "    mapping_idc 0", "    poly_order_minus1 0",
        "    poly_coef_int[0] -1 + poly_coef[0] 32767/2^15, about -0.000031",
        "    poly_coef_int[1] 1 + poly_coef[1] 0/2^15, about 1.000000",
        "  piece 1", "    mapping_idc 0", "    poly_order_minus1 0",
        "    poly_coef_int[0] -64 + poly_coef[0] 0/2^15, about -64.000000",
        "    poly_coef_int[1] 0 + poly_coef[1] 3/2^15, about 0.000091",
        "  nlq_offset 512", "  hdr_in_max_int 0 + hdr_in_max 0/2^15, about 0.000000",
        "  linear_deadzone_slope_int 1 + linear_deadzone_slope 1/2^15, about 1.000030",
        "  linear_deadzone_threshold_int 0 + linear_deadzone_threshold 0/2^15, about 0.000000",
        "section 1, Cb, at byte 77"]
    assert lines[-7:] == ["trailer at byte 145", "  A 140", "  D0 116", "  D1 68", "  D2 34", "  version 1", "shown"]
    # As version 2: 12 bytes more in each section, and piece 2 is piece 1 again; of chroma piece 1 is piece 0.
    second = inspect_block.inspect("x", bytes(5) + block.write(plan, 2))
    assert second[0] == "x, 193 bytes" and second[13:27] == lines[13:27]
    assert second[27:33] == ["  piece 2"] + lines[23:27] + ["  nlq_offset 512"]
    assert second[36] == "section 1, Cb, at byte 89" and second[45] == "  piece 1"
    assert second[-7:] == ["trailer at byte 181", "  A 176", "  D0 152", "  D1 92", "  D2 46", "  version 2", "shown"]


def test_what_is_drawn():
    """By hand: E10 and E11 in section 0, pivots 100 and 200, so that codes below 100 come to 6,400 and those from 200
    to 12,800; E4 in section 1, everything cut at the top. A code is 256 units wide."""
    plan = small_plan()
    set_section(plan, 0, (100, 200), [(0, 1 << 15)])
    set_section(plan, 1, (0, 1023), [(63 << 15, 0)])
    lines = inspect_block.inspect("x", block.write(plan), plotted=True)
    assert len(lines) == 9 and lines[0].startswith("<svg ") and lines[-2].endswith("</svg>") and lines[-1] == "shown"
    assert lines[1].endswith('>Y: pieces 1, codes 0 to 1023, mapped samples 6400 to 12800</text>'
                             '<text y="-9">pivots 100 200')
    assert ('<path class="a" d="M25600 0h25600v65536h-25600"/><path class="p" d="M25600 0v65536"/>'
            '<path class="p" d="M51200 0v65536"/>') in lines[2]
    assert 'd="M 0 59135 256 59135 ' in lines[2] and " 51200 52735 " in lines[2] and '261888 52735"/>' in lines[2]
    assert '<path class="x" d=""/>' in lines[2]
    assert '<path class="x" d="M0 0h256M256 0h256M512 0h256' in lines[4] and lines[4].count("h256M") == 1023
    # Version 2: piece 1 goes on from 51,200 by 210,944 to the panel's end, 262,144, and its line stands twice. In
    # section 1 the last pivot is 1,023, of which 256 units are left; 1,024 in section 2 leaves none.
    set_section(plan, 0, (100, 200), [(0, 1 << 15), (1 << 14, 0)])
    set_section(plan, 2, (1, 1024), [(0, 1 << 15), (1 << 14, 0)])
    lines = inspect_block.inspect("x", block.write(plan, 2), plotted=True)
    assert lines[1].endswith('>Y: pieces 2, codes 0 to 1023, mapped samples 6400 to 32768</text>'
                             '<text y="-9">pivots 100 200')
    assert ('<path class="a" d="M25600 0h25600v65536h-25600"/><path class="p" d="M25600 0v65536"/>'
            '<path class="b" d="M51200 0h210944v65536h-210944"/><path class="p" d="M51200 0v65536"/>'
            '<path class="p" d="M51200 0v65536"/><path class="g"') in lines[2]
    assert " 50944 52799 51200 32767 " in lines[2] and '261888 32767"/>' in lines[2]
    assert '<path class="b" d="M261888 0h256v65536h-256"/><path class="p" d="M261888 0v65536"/>' in lines[4]
    assert '<path class="b" d="M262144 0h0v65536h-0"/><path class="p" d="M262144 0v65536"/>' in lines[6]


def test_what_inspect_answers():
    """Words in any order; the rest of the words is answered after a fault."""
    good = block.write(small_plan())
    read = inspect_cases.reader([inspect_cases.Shown("x", good, 0)])
    shown = inspect_block.inspect("x", good)
    use = ["use: inspect [--rules] [--plot] BLOCK...", "not shown"]
    assert inspect_block.answer([], read) == inspect_block.answer(["--plot"], read) == use
    assert inspect_block.answer(["y", "x"], read) == ["y: cannot be read: no such file or folder", "not shown"] + shown
    assert inspect_block.answer(["--plot", ".", "x", "--plot"], read) == (
        [".: cannot be read: it is a folder", "not shown"] + shown + use)
    rules = inspect_block.answer(["--rules"], read)
    assert rules[0] == "1 short: hand over the whole block, up to its last byte"
    assert rules[10:] == ["11 sample: the decoder handed over a broken picture",
                          "12 room: lend a slice of the block's length or more",
                          "13 method: compose this plan without a table", "shown"]


def test_text_by_hand():
    """The block of test_what_is_shown as text; -1 / 2^15 is -1 and 32,767 parts, -64 has no fraction."""
    plan = small_plan()
    set_section(plan, 0, (16, 516, 516), [(-1, 1 << 15), (-(64 << 15), 3)])
    plan.nlq_offset[0], plan.fp_linear_deadzone_slope[0] = 512, (1 << 15) + 1
    lines = plan_text.text_of(plan).decode().split("\n")
    assert lines[:31] == [
        "version 1", "ccm_profile 1", "ccm_level 0", "coefficient_log2_denom 15", "BL_bit_depth_minus8 2",
        "EL_bit_depth_minus8 2", "hdr_bit_depth_minus8 4", "disable_residual_flag 0", "W/2 1", "H/2 1",
        "max_display_mastering_luminance 1000", "min_display_mastering_luminance 0",
        "component 0", "num_pivots_minus2 1", "pred_pivot_value 16 500 0",
        "piece 0", "mapping_idc 0", "poly_order_minus1 0", "poly_coef -1 32767", "poly_coef 1 0",
        "piece 1", "mapping_idc 0", "poly_order_minus1 0", "poly_coef -64 0", "poly_coef 0 3",
        "nlq_offset 512", "hdr_in_max 0 0", "linear_deadzone_slope 1 1", "linear_deadzone_threshold 0 0",
        "component 1", "num_pivots_minus2 0"]
    assert len(lines) == 12 + 17 + 12 + 12 + 1 and lines[-1] == ""
    # 12 bytes and a pivot more than the shortest block
    made = plan_text.read_text("\n".join(lines).encode())
    assert len(made.data) == 138 + 14 and made.data == block.write(plan)
    assert made.header_lines["H/2"] == 10
    # the first section: n at 24, pivots from 25, the piece's own bytes at 31 and 32, its coefficients from 33
    assert [made.lines[place] for place in (24, 25, 29, 31, 32, 33, 34, 38, 43, 72)] == [
        14, 15, 15, 17, 18, 19, 19, 20, 22, 31]
    # As version 2 it has the last piece of each component again, five lines and 12 bytes.
    second = plan_text.text_of(plan, 2).decode().split("\n")
    assert second[0] == "version 2" and second[1:25] == lines[1:25] and len(second) == len(lines) + 15
    assert second[25:31] == ["piece 2"] + lines[21:25] + ["nlq_offset 512"]
    made = plan_text.read_text("\n".join(second).encode())
    assert len(made.data) == 138 + 14 + 36 and made.data == block.write(plan, 2)
    # its own bytes from 55 on: mapping_idc, order, coefficients; then nlq_offset
    assert [made.lines[place] for place in (55, 56, 57, 58, 62, 67)] == [27, 28, 29, 29, 30, 31]


def test_text_page():
    """The example of docs/TEXT.md is the shortest block: numbers of it by hand."""
    data = plan_text.read_text(author_cases.joined(author_cases.LINES)).data
    assert len(data) == 138 == limits.SHORTEST_BLOCK[1] and block.read(data)[0] == 0
    assert data[:24] == bytes([1, 0, 23, 2, 2, 4, 0, 0, 3, 192, 2, 28, 3, 232, 0, 0, 0, 0, 0, 50, 0, 0, 0, 0])
    section = bytes([0, 0, 0, 3, 255, 0, 0] + [0] * 5 + [1, 0, 0, 0, 0] + [2, 0] + [0, 0, 64, 0, 0]
                    + [0, 0, 32, 0, 0] + [0] * 5)
    assert data[24:126] == 3 * section
    assert data[126:] == bytes([0, 126, 0, 102, 0, 68, 0, 34, 0, 1, 0, 0])


def is_whole_circle(data):
    """Block to text to block gives the same bytes, and text to block to text the same text."""
    text, made, again = plan_text.circle(data)
    return made == data and again == text


def test_text_identities():
    """Over every block of the vectors that is read, and every third plan of them that passes rule 7."""
    blocks = {block_of(data) for data in read_blocks()}
    plans = [places.changed(group.plan, case.edits) for group in plan_groups() for case in group.cases[::3]]
    written = {block.write(plan, write_cases.least_version(plan)) for plan in plans if not jobs.breaks_rule_7(plan)}
    assert {block.version_of(data) for data in written} == {1, 2}
    assert len(blocks) > 500 and len(written) > 500
    for data in blocks | written:
        assert is_whole_circle(data), data


def test_texts_near_by():
    """Every text that one byte changed, put in or left out makes of a good one: an accepted one is its block's text."""
    first, second, mmr = (author_cases.joined(lines) for lines in (
        author_cases.LINES, author_cases.SECOND_LINES, author_cases.MMR_LINES))
    texts = {good[:at] + byte + good[at + gone:] for good, step in ((first, 1), (second, 5), (mmr, 3))
             for at in range(0, len(good) + 1, step) for gone in (0, 1)
             for byte in (b"", b"0", b"7", b"-", b" ", b"\n")}
    refused = accepted = 0
    for text in texts - {first, second, mmr}:
        try:
            data = author.made_of("x", text)
        except picture.NotWritten:
            refused += 1
            continue
        assert plan_text.text_of_block(data) == text, text
        accepted += 1
    assert accepted > 100 and refused > 5000


def test_what_author_answers():
    """By hand, with the example's lines: line 14 has the number of pivots of luma, line 29 mapping_idc of Cb."""
    lines = author_cases.LINES

    def said(*edits):
        try:
            return author.made_of("x", author_cases.changed(lines, *edits))
        except picture.NotWritten as why:
            return str(why)
    expected = [
        ((3, "ccm_level 300"), "line 3: 300 does not fit ccm_level, which holds 0 to 255"),
        ((12, "poly_coef 0 0"), "line 12: min_display_mastering_luminance is expected"),
        ((14, "num_pivots_minus2 16"), "line 14: refused 5 (field): num_pivots_minus2[0] is 16, allowed 0 to 15"),
        ((19, "poly_coef -65 0"), "line 19: refused 5 (field): poly_coef_int[0][0][0] is -65, allowed -64 to 63"),
        ((20, "poly_coef 1 8388608"), "line 20: refused 5 (field): poly_coef[0][0][1] is 8388608, "
                                      "allowed less than 8388608"),
        ((29, "mapping_idc 1"), "line 30: mmr_order_minus1 is expected"),
        ((29, "mapping_idc 2"), "line 29: refused 5 (field): mapping_idc[1][0] is 2, allowed 0 or 1"),
        ((17, "mapping_idc 1"), "line 17: refused 5 (field): mapping_idc[0][0] is 1, allowed 0"),
        ((48, "linear_deadzone_threshold 2 0"), "line 48: refused 5 (field): linear_deadzone_threshold_int[2] is 2, "
                                                "allowed 0 to 1"),
        ((6, "EL_bit_depth_minus8 0"), "line 6: refused 4 (header): EL_bit_depth_minus8 is 0, "
                                       "allowed 2, as BL_bit_depth_minus8 is"),
        ((1, "version 3"), "line 1: refused 2 (trailer): A is 27, D0 is 3, D1 is 2, D2 is 1, version is 3, "
                           "zero is 0, allowed A = D0 + 24, D0 > D1 > D2 > 0, version 1 or 2, zero 0"),
        ((1, "version 2"), "line 21: piece is expected"),
        ((1, "version 65536"), "line 1: 65536 does not fit version, which holds 0 to 65535"),
    ]
    for edit, found in expected:
        assert said(edit) == "x: " + found, said(edit)
    # a version that there is none of: nothing after it is read, and the block is 24 bytes, three of one, the trailer
    for text in (b"version 3", b"version 3\n", b"version 3x", b"version 3\nccm_profile 900\n"):
        made = plan_text.read_text(text)
        assert len(made.data) == 39 and made.data[27:] == bytes([0, 27, 0, 3, 0, 2, 0, 1, 0, 3, 0, 0])
        assert author.refusal("x", made).startswith("x: line 1: refused 2 (trailer): A is 27, ")
    # the last section ends at its n, one byte long, and the trailer is right
    made = plan_text.read_text(author_cases.changed(lines[:38], (38, "num_pivots_minus2 99")))
    assert made.data[92:] == bytes([99]) + bytes([0, 93, 0, 69, 0, 35, 0, 1, 0, 1, 0, 0])
    # the first one does: two sections of one byte 0 follow
    made = plan_text.read_text(author_cases.changed(lines[:14], (14, "num_pivots_minus2 99")))
    assert made.data[24:] == bytes([99, 0, 0]) + bytes([0, 27, 0, 3, 0, 2, 0, 1, 0, 1, 0, 0])
    # a method that a component does not have: the section ends at it, six bytes long, and nothing after it is read
    for text in (b"mapping_idc 7", b"mapping_idc 7\n", b"mapping_idc 7 and more"):
        made = plan_text.read_text(author_cases.joined(lines[:28]) + text)
        assert made.data[58:] == bytes([0, 0, 0, 3, 255, 7, 0]) + bytes([0, 65, 0, 41, 0, 7, 0, 1, 0, 1, 0, 0])
        assert author.refusal("x", made) == "x: line 29: refused 5 (field): mapping_idc[1][0] is 7, allowed 0 or 1"
    made = plan_text.read_text(author_cases.changed(lines[:17], (17, "mapping_idc 1")))
    assert made.data[24:32] == bytes([0, 0, 0, 3, 255, 1, 0, 0]) and made.lines[29] == 17


def test_what_author_answers_of_mmr():
    """By hand: line 28 is piece 0 of Cb, 29 mapping_idc, 30 the order, 31 the constant, 32 to 38 the coefficients."""
    lines = author_cases.MMR_LINES
    assert lines[27:33] == ["piece 0", "mapping_idc 1", "mmr_order_minus1 0", "mmr_constant 0 4194304",
                            "mmr_coef -2 0", "mmr_coef -1 1000"] and lines[38] == "nlq_offset 512"
    made = plan_text.read_text(author_cases.joined(lines))
    assert len(made.data) == 138 + 54 + 110 and block.read(made.data)[0] == 0
    # Cb begins at 58: mapping_idc at 63, the order at 64, the constant at 65 and 69, coefficients from 73 on
    assert made.data[63:89] == bytes.fromhex("0100" "0000000000400000" "fffffffe00000000" "ffffffff000003e8")
    assert [made.lines[place] for place in (63, 64, 65, 69, 73, 77, 81, 121, 125, 129)] == [
        29, 30, 31, 31, 32, 32, 33, 38, 38, 39]

    def said(*edits):
        try:
            return author.made_of("x", author_cases.changed(lines, *edits))
        except picture.NotWritten as why:
            return str(why)
    expected = [
        ((30, "mmr_order_minus1 3"), "refused 5 (field): mmr_order_minus1[1][0] is 3, allowed 0 to 2"),
        ((31, "mmr_constant 65536 0"), "refused 5 (field): mmr_constant_int[1][0] is 65536, allowed -65536 to 65535"),
        ((31, "mmr_constant -65537 0"), "refused 5 (field): mmr_constant_int[1][0] is -65537, "
                                        "allowed -65536 to 65535"),
        ((31, "mmr_constant 1 8388608"), "refused 5 (field): mmr_constant[1][0] is 8388608, allowed less than 8388608"),
        ((35, "mmr_coef 2147483647 0"), "refused 5 (field): mmr_coef_int[1][0][1][3] is 2147483647, "
                                        "allowed -65536 to 65535"),
        ((38, "mmr_coef 0 4294967295"), "refused 5 (field): mmr_coef[1][0][1][6] is 4294967295, "
                                        "allowed less than 8388608"),
        ((38, "mmr_coef 2147483648 0"), "2147483648 does not fit mmr_coef, which holds -2147483648 to 2147483647"),
        ((38, "nlq_offset 512"), "mmr_coef is expected"),
        ((39, "mmr_coef 0 0"), "nlq_offset is expected"),
        ((30, "mmr_order_minus1 1"), None),
    ]
    for edit, found in expected[:-1]:
        assert said(edit) == "x: line %d: %s" % (edit[0], found), said(edit)
    assert said(expected[-1][0]) == "x: line 39: mmr_coef is expected"
    for edit in ((31, "mmr_constant -65536 8388607"), (38, "mmr_coef 65535 8388607"), (33, "mmr_coef -1 0")):
        assert isinstance(said(edit), bytes)


def test_author():
    """Several groups of words in one run; a refused text leaves no file."""
    good = author_cases.joined(author_cases.LINES)
    with Folder() as folder:
        folder.put("text", good)
        folder.put("bad", good[:-1])
        given = ["text", "out", "--text", "out", "bad", "new", "--text", "text", "left"]
        lines = [line.replace(folder.path(""), "") for line in author.answer(
            [word if word == author.SHOW else folder.path(word) for word in given])]
        adler = zlib.adler32(plan_text.read_text(good).data)
        assert lines[:2] == ["out: 138 bytes, Adler-32 %d" % adler, "written"]
        assert lines[2:51] == good.decode().splitlines() + ["shown"]
        assert lines[51:53] == ["bad: line 48: the end of the line is expected", "not written"]
        assert lines[53].startswith("text: refused 2 (trailer) at byte ") and lines[54] == "not shown"
        assert lines[55:] == ["use: author TEXT BLOCK ... | author --text BLOCK ...", "not written"]
        assert folder.left() == ["bad", "out", "text"]
    assert list(author.answer([])) == author.USE


class Folder:
    """A folder of its own for files by name, and what compose_file says in it."""

    def __enter__(self):
        self.room = tempfile.TemporaryDirectory()
        return self

    def __exit__(self, *_):
        self.room.cleanup()

    def path(self, name):
        return os.path.join(self.room.name, name)

    def put(self, name, data):
        with open(self.path(name), "wb") as file:
            file.write(data)

    def said(self, *names, standby=False):
        """The lines, with the names as they were put."""
        given = [name if name in (picture.NONE, picture.LATE) else self.path(name) for name in names]
        lines = picture.answer(["--standby"] * standby + given)
        return [line.replace(self.path(""), "") for line in lines]

    def left(self):
        return sorted(os.listdir(self.room.name))


def raw(*samples):
    return struct.pack("<%dH" % len(samples), *samples)


def test_compose_file():
    """By hand: 2 x 10 has five row pairs, 30 samples, 60 bytes; 10 bit code s comes to 4s."""
    base = list(range(100, 130))
    with Folder() as folder:
        folder.put("block", block.write(tall_plan(5)))
        folder.put("base", raw(*base))
        first = "1 picture of 2 x 10, 10 bit to 12 bit, base only"
        adler = "Adler-32 %d" % zlib.adler32(raw(*(4 * s for s in base)))
        assert folder.said("block", "base", "none", "out") == [first, "out: 1 picture, " + adler, "written"]
        assert picture.contents(folder.path("out")) == raw(*(4 * s for s in base))
        assert folder.said("block", "base", "none", "out", standby=True) == [
            first, "picture 0, row pairs 0 to 4", "job, 2 row pairs from 0: 3 row pairs left, 2 base only",
            "standby; the jobs in flight are sent again", "job, 2 row pairs from 0: 3 row pairs left, 2 base only",
            "job, 3 row pairs from 2: complete, 5 base only", "out: 1 picture, " + adler, "written"]
        assert folder.left() == ["base", "block", "out"]
        # Luma has 20 samples, Cb and Cr five each: 27 is Cr of row 2.
        folder.put("large", raw(*base, *base[:27], 1024, 9999, 1))
        assert folder.said("block", "large", "none", "out") == [
            first.replace("1 picture", "2 pictures"),
            "large: refused 11 (sample): picture 1, Cr row 2 column 0 is 1024, allowed less than 1024; "
            "the decoder handed over a broken picture", "not written"]
        assert folder.said("block", "base", "large", "out") == [
            "large: refused 9 (run): 120 bytes, allowed 60, as the base has; hand over whole pictures of this size",
            "not written"]
        assert folder.left() == ["base", "block", "large", "out"]
        folder.put("out.part", b"")
        assert folder.said("block", "base", "none", "out")[1:] == [
            "out: cannot be written: out.part is in the way: another compose writes it, or one was stopped; remove it",
            "not written"]
        assert folder.said("block", "base", "none", "out", "block")[-2:] == [picture.USE, "not written"]
        assert folder.left() == ["base", "block", "large", "out", "out.part"]


def test_compose_late():
    """By hand: 10 bit code s comes to 4s, and one above the offset 114 / 16 more, rounded: 4s + 7."""
    base = list(range(100, 130))
    early, full = raw(*(4 * s for s in base)), raw(*(4 * s + 7 for s in base))
    late = ["picture 0, row pairs 0 to 4", "the enhancement is late",
            "job without enhancement, 5 row pairs from 0: complete, 5 base only", "the enhancement has come",
            "job, 2 row pairs from 0: complete, 3 base only", "standby; the jobs in flight are sent again",
            "job without enhancement, 2 row pairs from 0: complete, 3 base only", "job, 3 row pairs from 2: complete"]
    none = [line.replace("3 base", "5 base") for line in late[:-1]] + ["job, 3 row pairs from 2: complete, 5 base only"]
    flagged = [line.split(", 5 base")[0].split(", 3 base")[0] for line in late]
    with Folder() as folder:
        folder.put("block", block.write(tall_plan(5)))
        folder.put("flag", block.write(tall_plan(5, 1)))
        folder.put("base", raw(*base))
        folder.put("above", raw(*[513] * 30))
        for block_name, enhancement, lines, shown, words_of in (
                ("block", "above", late, early + full, "with enhancement"),
                ("block", "none", none, early + early, "base only"),
                ("flag", "above", flagged, early + early, "base only, as disable_residual_flag is 1")):
            for standby in (False, True):
                assert folder.said("--late", block_name, "base", enhancement, "out", standby=standby) == [
                    "1 picture of 2 x 10, 10 bit to 12 bit, " + words_of, *lines,
                    "out: 2 pictures, Adler-32 %d" % zlib.adler32(shown), "written"]
                assert picture.contents(folder.path("out")) == shown
        # Two pictures: each stands there twice, one after the other.
        folder.put("bases", raw(*base, *base[::-1]))
        folder.put("aboves", raw(*[513] * 60))
        said = folder.said("--late", "block", "bases", "aboves", "out")
        assert said[0].startswith("2 pictures of 2 x 10") and said[1:9] == late
        assert said[9:-2] == ["picture 1" + late[0][9:]] + late[1:] and said[-2].startswith("out: 4 pictures, ")
        turned = raw(*(4 * s for s in base[::-1])), raw(*(4 * s + 7 for s in base[::-1]))
        assert picture.contents(folder.path("out")) == early + full + turned[0] + turned[1]
        # A bad sample of the enhancement is found by the job that brings it: Cb 21 is of row pair 1, Cr 29 of 4.
        for at, place, sent in ((21, "Cb row 1", 4), (29, "Cr row 4", 7)):
            folder.put("large", raw(*[513] * at, 1024, *[513] * (29 - at)))
            said = folder.said("--late", "block", "base", "large", "out")
            assert said[1:-2] == late[:sent] and said[-1] == "not written"
            assert said[-2].startswith("large: refused 11 (sample): picture 0, %s column 0 is 1024" % place)
        assert folder.said("--late", "block", "large", "large", "out")[1:-2] == late[:2]
        assert folder.left() == ["above", "aboves", "base", "bases", "block", "flag", "large", "out"]
        assert len(picture.contents(folder.path("out"))) == 240


def test_groups():
    """--late stands before a group and is none of its words; what is no whole group is left over."""
    four, other = ["a", "b", "c", "d"], ["e", "f", "g", "h"]
    assert picture.groups([]) == ([], [])
    assert picture.groups(four + other) == ([(False, four), (False, other)], [])
    assert picture.groups(["--late"] + four + other) == ([(True, four), (False, other)], [])
    assert picture.groups(four + ["--late"] + other) == ([(False, four), (True, other)], [])
    assert picture.groups(["--late", "--late"] + four) == ([(True, ["--late", "a", "b", "c"])], ["d"])
    assert picture.groups(["--late"] + four[:3]) == ([], ["--late"] + four[:3])
    assert picture.groups(four + ["--late"]) == ([(False, four)], ["--late"])
    assert picture.groups(["a", "--late", "c", "d"]) == ([(False, ["a", "--late", "c", "d"])], [])
    for given in (["--late"], ["--standby"], ["--standby", "--late"], ["--late", "a", "b", "c"]):
        assert list(picture.answer(given)) == [
            "use: compose_file [--standby] [--late] BLOCK BASE ENHANCEMENT OUTPUT ...", "not written"]


def test_compose_version_2():
    """By hand: pivots 0 and 110, so that code s below 110 comes to 4s, and 110 and more to 2,048, which is 1/2."""
    plan = tall_plan(5)
    for cmp in range(3):
        set_section(plan, cmp, (0, 110), [(0, 1 << 15), (1 << 14, 0)])
    composed = raw(*(4 * s if s < 110 else 2048 for s in range(100, 130)))
    with Folder() as folder:
        folder.put("block", block.write(plan, 2))
        folder.put("base", raw(*range(100, 130)))
        assert folder.said("block", "base", "none", "out")[-1] == "written"
        assert picture.contents(folder.path("out")) == composed
        assert large.compose_file(folder.path("block"), folder.path("base"), "none") == composed


def test_compose_mmr():
    """By hand: Cb is 1.0 of s0, the down-sampled luma, and Cr is 1/2 of s1; code s comes to 4s, half of it to 2s."""
    one = 1 << 15
    plan = mmr_plan(numbers(1, c1=one))
    set_section(plan, 2, (0, 1023), [numbers(3, c2=one // 2)])
    plan.half_width, plan.half_height = 2, 1
    luma = [10, 20, 30, 40, 11, 21, 31, 41]
    composed = raw(*(4 * s for s in luma), 4 * 14, 4 * 31, 2 * 600, 2 * 700)
    with Folder() as folder:
        folder.put("block", block.write(plan))
        folder.put("base", raw(*luma, 600, 700, 800, 900))
        assert folder.said("block", "base", "none", "out")[-1] == "written"
        assert picture.contents(folder.path("out")) == composed
        assert large.compose_file(folder.path("block"), folder.path("base"), "none") == composed


def test_bands():
    """98,304 samples: 8 row pairs of 4096, and 16,384 row pairs of 2, of which no picture has so many."""
    plan = tall_plan(1152)
    assert picture.bands(plan) == [(0, 1152)]
    plan.half_width = 2048
    assert picture.bands(plan) == [(8 * i, 8) for i in range(144)]
    plan.half_width, plan.half_height = 960, 540                # 98,304 / 5,760 is 17.07
    assert picture.bands(plan)[-2:] == [(17 * 30, 17), (17 * 31, 13)]
    plan.half_width, plan.half_height = 2048, 9
    assert picture.bands(plan) == [(0, 8), (8, 1)]


def composes_whole(case):
    """Whether a case of sample_vectors composes every row pair of its picture."""
    number, _ = jobs.job(case.plan, case.first, case.count, case.base, case.enhancement, list(case.base))
    return number == 0 and case.count == case.plan.half_height


def test_large():
    """large.py composes what picture.py composes: several pictures, both depths, with and without an enhancement."""
    chosen = [case for case in all_samples()[::20] + by_kind(all_samples())["MMR flag 0"] if composes_whole(case)]
    assert len(chosen) >= 20
    assert {(case.plan.BL_bit_depth, case.version) for case in chosen} == {(8, 1), (8, 2), (10, 1), (10, 2)}
    mmr = [{cmp for cmp in (1, 2) if composer.has_mmr(case.plan, cmp)} for case in chosen]
    assert all(some in mmr for some in (set(), {1}, {2}, {1, 2}))
    for case in chosen:
        enhancement = case.enhancement if case.plan.disable_residual_flag == 0 else []
        _, composed = jobs.job(case.plan, case.first, case.count, case.base, case.enhancement, list(case.base))
        assert large.compose(case.plan, case.base, enhancement) == raw(*composed), case.kind
    with Folder() as folder:
        for flag in (0, 1):
            folder.put("block", block.write(tall_plan(3, flag)))
            folder.put("base", raw(*range(36)))
            folder.put("enhancement", raw(*range(500, 536)))
            for enhancement in ("enhancement", "none"):
                assert folder.said("block", "base", enhancement, "out")[-1] == "written"
                names = [folder.path(name) for name in ("block", "base")]
                names.append(enhancement if enhancement == "none" else folder.path(enhancement))
                assert large.compose_file(*names) == picture.contents(folder.path("out"))


def code_blocks(page):
    """The indented parts of a page, each as its lines without the indentation."""
    parts, last = [], False
    for line in page.splitlines():
        code = line.startswith("    ")
        if code and not last:
            parts.append([])
        if code:
            parts[-1].append(line[4:])
        last = code
    return parts


def test_readme():
    """What README quotes of the programs is what they say, and its ten lines are ten_lines'."""
    root = os.path.join(os.path.dirname(os.path.abspath(__file__)), "..")
    page, shown, said, source = (picture.contents(os.path.join(root, *path)).decode() for path in (
        ["README.md"], ["crates", "inspect", "stdout"], ["crates", "compose_file", "stdout"],
        ["crates", "ten_lines", "src", "main.rt"]))
    parts = code_blocks(page)
    refusal, = [part for part in parts if "refused" in part[0]]
    assert " ".join(line.strip() for line in refusal) in shown
    section, = [part for part in parts if part[0].startswith("section 0")]
    assert "\n".join(section) in shown
    lines, = [part for part in parts if "block::read" in "".join(part)]
    assert len(lines) == 10 and "\n".join("    " + line for line in lines) in source
    night, = [part for part in parts if part[0].startswith("1 picture of")]
    for line in night[:-1]:
        assert line == "..." or line.replace("target/example/", "") + "\n" in said, line


def main():
    tests = [(name, test) for name, test in sorted(globals().items())
             if name.startswith("test_")]
    for name, test in tests:
        test()
        print("ok", name)
    print(len(tests), "passed")


if __name__ == "__main__":
    main()
