"""The gate's run of compose_file: its word list in groups of four, and the files that the words name.

The first word is --standby, so every group says its jobs, and its pictures are small.  Before some groups stands
--late.  What a group is to show stands with it; `checked` stops where it shows another.
"""

import struct
from collections import namedtuple

import block
import limits
from sample_cases import meets_last_piece, set_piece, tells_last_piece

# `shows` stands in the line that says why nothing is written; it is None where the group is written.
Group = namedtuple("Group", "block base enhancement output shows late", defaults=[False])

SOURCES = ["block", "base.yuv", "enhancement.yuv"]      # the example, which example/make.py made
LEFT_OVER = ["--late", "words", "left", "over"]         # the last words, which are one too few for a group
WIDTH, HEIGHT = 16, 36                                  # of the small pictures: 18 row pairs
CHROMA = WIDTH * HEIGHT // 4
OUT = "out.yuv"


def sized(good, width, height, **changes):
    """The block of a picture of another size, with these fields of its plan changed."""
    number, plan = block.read(good)
    assert number == 0
    plan.half_width, plan.half_height = width // 2, height // 2
    for name, value in changes.items():
        setattr(plan, name, value)
    return block.write(plan)


def second_version(good):
    """A block of version 2: its last pivots are below the largest sample, and what no pivot exceeds comes to 3/4."""
    plan = block.read(good)[1]
    for cmp, n in enumerate(plan.num_pivots_minus2):
        plan.pred_pivot_value[cmp][n + 1] -= 100 + cmp
        set_piece(plan, cmp, n + 1, [3 << (plan.coefficient_log2_denom - 2), cmp])
        assert tells_last_piece(plan, cmp, meets_last_piece(plan, cmp, limits.samples(plan.BL_bit_depth)))
    return block.write(plan, 2)


# Of MMR pieces in 64ths, by order: Cb and Cr mostly stay what they are, and luma moves them.
MMR_PIECES = {1: [4, 6, 50, 3, -5, 2, -3, 4], 2: [7, -3, 4, 44, 5, -6, 3, 2, 4, -2, 5, -3, 2, -4, 3],
              3: [6, 9, 40, -4, 3, 5, -2, 6, -7, 4, 2, 3, -5, 2, -3, 4, -6, 3, 5, -2, 4, -3]}


def with_mmr(data, cb, cr):
    """The block with MMR of these orders in the first pieces of Cb and Cr; None leaves a component its polynomials."""
    plan, version = block.read(data)[1], block.version_of(data)
    for cmp, order in ((1, cb), (2, cr)):
        if order is not None:
            unit = 1 << (plan.coefficient_log2_denom - 6)
            set_piece(plan, cmp, 0, [unit * z + cmp for z in MMR_PIECES[order]])
            if version == 1 and plan.num_pivots_minus2[cmp] == 0:
                block.repeat_last_piece(plan, cmp)
    return block.write(plan, version)


def mmr_blocks(blocks):
    """Blocks with MMR pieces, made of others."""
    return {
        "mmr.block": with_mmr(blocks["small.block"], 3, 2),
        "mmr_cb.block": with_mmr(blocks["small.block"], 1, None),
        "mmr_eight_bit.block": with_mmr(blocks["eight_bit.block"], None, 3),
        "mmr_wide.block": with_mmr(blocks["wide.block"], 2, 3),
        "mmr_tiny.block": with_mmr(blocks["tiny.block"], 1, 2),
        "mmr_two.block": with_mmr(blocks["version_two.block"], 2, 1),
    }


def good_blocks(good):
    small = sized(good, WIDTH, HEIGHT)
    pivots = [[value // 4 for value in values] for values in block.read(good)[1].pred_pivot_value]
    return {
        "small.block": small,
        "flag.block": sized(good, WIDTH, HEIGHT, disable_residual_flag=1),
        "eight_bit.block": sized(good, WIDTH, HEIGHT, BL_bit_depth_minus8=0, EL_bit_depth_minus8=0,
                                 hdr_bit_depth_minus8=2, pred_pivot_value=pivots, nlq_offset=[128] * 3),
        "quarter.block": sized(good, 96, 54),
        "wide.block": sized(good, 4096, 22),                    # bands of 8 and 3 row pairs
        "tiny.block": sized(good, 2, 2),
        "behind_zeros.block": bytes(70000) + small,
        "version_two.block": second_version(small),
        "alike_two.block": block.write(block.read(small)[1], 2),        # small.block, its last pieces twice
    }


def refused_blocks(good):
    """{name: (block, its number)}."""
    t = len(good) - limits.TRAILER_BYTES
    a, d0, d1, d2 = struct.unpack_from(">4H", good, t)
    header, y, cb = t - a, t - d0, t - d1

    def put(place, value):
        return good[:place] + bytes([value]) + good[place + 1:]

    def first_piece(section):
        return section + 1 + 2 * limits.pivots(good[section])

    left_over = good[:cb] + b"\0" + good[cb:t] + struct.pack(">4H", a + 1, d0 + 1, d1, d2) + good[t + 8:]
    profile = put(header, 2)
    # zeros, and a trailer that points back as far as one can: 65,547 bytes hold all that it points to
    far = bytes(1 + 0xffff) + struct.pack(">6H", 0xffff, 0xffff - limits.HEADER_BYTES, 2, 1, limits.VERSIONS[0], 0)
    return {
        "eleven.block": (good[1 - limits.TRAILER_BYTES:], 1),
        "cut.block": (good[header + 1:], 1),
        "version.block": (put(t + 9, limits.VERSIONS[-1] + 1), 2),
        "one_as_two.block": (put(t + 9, 2), 5),
        "left_over.block": (left_over, 3),
        "profile.block": (profile, 4),
        "profile_behind_zeros.block": (bytes(70000) + profile, 4),
        "far.block": (far, 4),
        "too_far.block": (far[2:], 1),
        "coefficient.block": (put(first_piece(y) + 2, limits.COEF_INTS[-1] + 1), 5),
        "method.block": (put(first_piece(cb), limits.MMR + 1), 5),
        "luma_mmr.block": (put(first_piece(y), limits.MMR), 5),
    }


def place(cmp, row, column):
    """The index of a sample in a small picture."""
    if cmp == "Y":
        return row * WIDTH + column
    return WIDTH * HEIGHT + ("Cb", "Cr").index(cmp) * CHROMA + row * (WIDTH // 2) + column


def raw(run):
    return struct.pack("<%dH" % len(run), *run)


def broken(run, *faults):
    """The run with samples that are too large: (component, row, column, value)."""
    run = list(run)
    for cmp, row, column, value in faults:
        run[place(cmp, row, column)] = value
    return raw(run)


def picture_files():
    size = 6 * CHROMA
    small = [37 * i % 1024 for i in range(size)]
    other = [(51 * i + 400) % 1024 for i in range(size)]
    # every row another one: a band that is read or written at another's place shows
    wide = [(x // 4 + 40 * row) % 1024 for row in range(22) for x in range(4096)]
    wide += [(x // 2 + 90 * row) % 1024 for row in range(22) for x in range(2048)]
    return {
        "small.yuv": raw(small),
        "small_enhancement.yuv": raw(other),
        "eight_bit.yuv": raw([s // 4 for s in small]),
        "in_place.yuv": raw(other),
        "mmr_place.yuv": raw(other),
        "late_place.yuv": raw(other),
        "two.yuv": raw(small + other),
        "wide.yuv": raw(wide),
        "tiny.yuv": raw(small[:6]),
        "folder/small.yuv": raw(small),
        "short.yuv": raw(small)[:-1],
        "long.yuv": raw(small) + b"\0",
        "empty": b"",
        "large_y.yuv": broken(small, ("Y", 0, 0, 1024)),
        "large_cb.yuv": broken(small, ("Cb", 17, 7, 65535)),
        "large_cr.yuv": broken(small, ("Cr", 8, 3, 4096)),
        # Y in a later job than the others, and Cb before Cr although its row comes after
        "large_all.yuv": broken(small, ("Y", 30, 1, 1025), ("Cb", 3, 0, 1026), ("Cr", 2, 1, 1027)),
        "large_later.yuv": raw(small) + broken(other, ("Y", 35, 15, 2048)),
        "taken.yuv.part": b"another compose writes this\n",
    }


def written_groups():
    return [
        Group("small.block", "small.yuv", "small_enhancement.yuv", OUT, None),
        Group("small.block", "small.yuv", "none", OUT, None),            # takes the place of the one before
        Group("flag.block", "small.yuv", "short.yuv", "flag.yuv", None),
        Group("flag.block", "small.yuv", "missing.yuv", "flag.yuv", None),
        Group("flag.block", "small.yuv", "none", "flag.yuv", None),
        Group("eight_bit.block", "eight_bit.yuv", "eight_bit.yuv", "eight_bit.hdr.yuv", None),
        Group("quarter.block", "base.yuv", "enhancement.yuv", "quarters.yuv", None),
        Group("wide.block", "wide.yuv", "none", "wide.hdr.yuv", None),
        Group("tiny.block", "tiny.yuv", "tiny.yuv", "tiny.hdr.yuv", None),
        Group("behind_zeros.block", "two.yuv", "none", "folder/a name with spaces.yuv", None),
        Group("version_two.block", "small.yuv", "small_enhancement.yuv", "version_two.yuv", None),
        Group("version_two.block", "two.yuv", "none", "version_two.yuv", None),
        Group("alike_two.block", "small.yuv", "none", "alike_two.yuv", None),
        Group("mmr.block", "small.yuv", "small_enhancement.yuv", "mmr.yuv", None),
        Group("mmr.block", "two.yuv", "none", "mmr.yuv", None),
        Group("mmr_cb.block", "small.yuv", "small_enhancement.yuv", "mmr_cb.yuv", None),
        Group("mmr_eight_bit.block", "eight_bit.yuv", "eight_bit.yuv", "mmr_eight_bit.yuv", None),
        Group("mmr_wide.block", "wide.yuv", "none", "mmr_wide.yuv", None),      # bands, and the widest rows' ends
        Group("mmr_tiny.block", "tiny.yuv", "none", "mmr_tiny.yuv", None),
        Group("mmr_two.block", "small.yuv", "small_enhancement.yuv", "mmr_two.yuv", None),
        Group("mmr.block", "mmr_place.yuv", "none", "mmr_place.yuv", None),
        Group("small.block", "in_place.yuv", "none", "in_place.yuv", None),
        Group("small.block", "in_place.yuv", "none", OUT, "refused 11 (sample): picture 0, Y row 0"),
    ]


def late_groups():
    """The enhancement comes late; the base of each picture is composed before."""
    def late(*names, shows=None):
        return Group(*names, shows, True)
    return [
        late(*SOURCES, "late.yuv"),
        late("small.block", "small.yuv", "small_enhancement.yuv", "late_small.yuv"),
        late("small.block", "small.yuv", "none", "late_small.yuv"),     # takes the place of the one before
        late("small.block", "two.yuv", "two.yuv", "late_two.yuv"),
        late("flag.block", "small.yuv", "missing.yuv", "late_flag.yuv"),
        late("flag.block", "two.yuv", "none", "late_flag.yuv"),
        late("eight_bit.block", "eight_bit.yuv", "eight_bit.yuv", "late_eight_bit.yuv"),
        late("version_two.block", "two.yuv", "two.yuv", "late_version_two.yuv"),
        late("mmr.block", "small.yuv", "small_enhancement.yuv", "late_mmr.yuv"),
        late("mmr_two.block", "two.yuv", "none", "late_mmr_two.yuv"),
        late("wide.block", "wide.yuv", "wide.yuv", "late_wide.yuv"),    # two bands, each in both pictures
        late("tiny.block", "tiny.yuv", "tiny.yuv", "late_tiny.yuv"),
        late("small.block", "late_place.yuv", "small.yuv", "late_place.yuv"),
        # what the base has is found before the enhancement comes, and what that has by the job that brings it
        late("small.block", "large_cr.yuv", "large_y.yuv", OUT,
             shows="large_cr.yuv: refused 11 (sample): picture 0, Cr row 8 column 3"),
        late("small.block", "large_all.yuv", "none", OUT, shows="large_all.yuv: refused 11 (sample): picture 0, Cb"),
        late("small.block", "small.yuv", "large_y.yuv", OUT, shows="large_y.yuv: refused 11 (sample): picture 0, Y"),
        late("small.block", "small.yuv", "large_cr.yuv", OUT, shows="picture 0, Cr row 8 column 3 is 4096"),
        late("small.block", "small.yuv", "large_cb.yuv", OUT, shows="picture 0, Cb row 17 column 7 is 65535"),
        late("small.block", "two.yuv", "large_later.yuv", OUT, shows="picture 1, Y row 35 column 15 is 2048"),
        late("small.block", "short.yuv", "none", OUT, shows="short.yuv: refused 9 (run): 1727 bytes"),
        late("--late", "small.yuv", "none", OUT, shows="--late: cannot be read: no such file or folder"),
        late("profile.block", "small.yuv", "none", OUT, shows="refused 4 ("),
        late("small.block", "small.yuv", "none", "taken.yuv", shows="taken.yuv.part is in the way"),
        Group("small.block", "small.yuv", "none", OUT, None),           # it holds for its own group only
    ]


def unread_groups():
    long = "long" * 75
    return [
        Group("missing.block", "small.yuv", "none", OUT, "missing.block: cannot be read: no such file or folder"),
        Group(".", "small.yuv", "none", OUT, ".: cannot be read: it is a folder"),
        Group("block/block", "small.yuv", "none", OUT, "cannot be read: a folder of its path is a file"),
        Group("small.block", "missing.yuv", "none", OUT, "missing.yuv: cannot be read: no such file or folder"),
        Group("small.block", ".", "none", OUT, ".: cannot be read: it is a folder"),
        Group("small.block", "", "none", OUT, ": cannot be read: no such file or folder"),
        Group("small.block", long, "none", OUT, long + ": cannot be read: error 36"),
        Group("small.block", "none", "none", OUT, "none: cannot be read: no such file or folder"),
        Group("small.block", "small.yuv", "missing.yuv", OUT,
              "missing.yuv: cannot be read: no such file or folder"),
        Group("small.block", "small.yuv", ".", OUT, ".: cannot be read: it is a folder"),
        # the first fault is said: the base is opened before the enhancement
        Group("small.block", "short.yuv", "missing.yuv", OUT, "short.yuv: refused 9 (run): 1727 bytes"),
    ]


def length_groups():
    size = 12 * CHROMA
    return [
        Group("small.block", "short.yuv", "none", OUT, "%d bytes, allowed %d for each picture" % (size - 1, size)),
        Group("small.block", "long.yuv", "none", OUT, "%d bytes, allowed %d for each picture" % (size + 1, size)),
        Group("small.block", "empty", "none", OUT, "empty: refused 9 (run): 0 bytes, allowed %d for each" % size),
        Group("small.block", "small.yuv", "two.yuv", OUT, "two.yuv: refused 9 (run): %d bytes" % (2 * size)),
        Group("small.block", "two.yuv", "small.yuv", OUT, "%d bytes, allowed %d, as the base has" % (size, 2 * size)),
        Group("small.block", "small.yuv", "empty", OUT, "0 bytes, allowed %d, as the base has" % size),
    ]


def sample_groups():
    def large(base, enhancement, found):
        return Group("small.block", base, enhancement, OUT, found)
    return [
        large("large_y.yuv", "none", "large_y.yuv: refused 11 (sample): picture 0, Y row 0 column 0 is 1024"),
        large("large_cb.yuv", "none", "Cb row 17 column 7 is 65535, allowed less than 1024"),
        large("large_cr.yuv", "none", "Cr row 8 column 3 is 4096, allowed less than 1024"),
        large("large_all.yuv", "none", "picture 0, Cb row 3 column 0 is 1026"),
        large("small.yuv", "large_cr.yuv", "large_cr.yuv: refused 11 (sample): picture 0, Cr row 8 column 3"),
        large("large_cr.yuv", "large_y.yuv", "large_y.yuv: refused 11 (sample): picture 0, Y row 0 column 0"),
        large("large_all.yuv", "large_y.yuv", "large_all.yuv: refused 11 (sample): picture 0, Cb row 3"),
        large("large_later.yuv", "none", "picture 1, Y row 35 column 15 is 2048"),
        Group("eight_bit.block", "small.yuv", "none", OUT, "Y row 0 column 7 is 259, allowed less than 256"),
        large("small.yuv", "none", None),                       # and nothing is left in the way
    ]


def unwritten_groups():
    return [
        Group("small.block", "small.yuv", "none", "missing/out.yuv", "cannot be written: no such file or folder"),
        Group("small.block", "small.yuv", "none", "block/out.yuv", "cannot be written: a folder of its path is a file"),
        Group("small.block", "small.yuv", "none", "taken.yuv", "taken.yuv.part is in the way"),
        Group("small.block", "small.yuv", "none", "folder", "folder: cannot be written: it is a folder"),
        Group("small.block", "small.yuv", "none", ".", ".: cannot be written: error 16"),
        Group("small.block", "small.yuv", "none", "", ": cannot be written: no such file or folder"),
    ]


def all_cases(sources):
    """({name: bytes} of the files beside the sources, the groups)."""
    good = sources["block"]
    refused = refused_blocks(good)
    for name, (data, number) in refused.items():
        assert block.read(data)[0] == number, name
    blocks = good_blocks(good)
    files = {**blocks, **mmr_blocks(blocks), **{name: data for name, (data, _) in refused.items()}, **picture_files()}
    groups = [Group(*SOURCES, "hdr.yuv", None)] + written_groups()
    groups += [Group(name, "base.yuv", "none", OUT, "refused %d (" % number)
               for name, (_, number) in refused.items()]
    groups += [Group("empty", "base.yuv", "none", OUT, "empty: refused 1 (short): 0 bytes")]
    groups += unread_groups() + length_groups() + sample_groups() + unwritten_groups() + late_groups()
    return files, groups


def word_list(groups):
    """The gate's word list."""
    given = [word for group in groups for word in ["--late"] * group.late + list(group[:4])]
    return ["--standby"] + given + LEFT_OVER


def answers(lines):
    """The lines of each group, up to its last one."""
    found = [[]]
    for line in lines:
        found[-1].append(line)
        if line in ("written", "not written"):
            found.append([])
    assert found.pop() == []
    return found


def checked(groups, lines):
    """Stops where a group does not show what it was made for; the last answer is about the words left over."""
    found = answers(lines)
    assert len(found) == len(groups) + 1
    assert found.pop() == ["use: compose_file [--standby] [--late] BLOCK BASE ENHANCEMENT OUTPUT ...", "not written"]
    for group, answer in zip(groups, found):
        assert group.late or "the enhancement is late" not in answer, group
        if group.shows is None:
            assert answer[-1] == "written", (group, answer)
        else:
            assert answer[-1] == "not written" and group.shows in answer[-2], (group, answer)


def outputs(groups):
    """The files that are written."""
    return {group.output for group in groups if group.shows is None}
