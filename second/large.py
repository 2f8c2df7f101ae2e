"""Composes large pictures, as picture.py does and in far less time.

    python3 large.py BLOCK BASE ENHANCEMENT OUTPUT        (ENHANCEMENT may be none)

A component's samples have few values: what each base code is mapped to, what each
enhancement code adds and what a sum of both comes to is worked out once, by composer's
own functions, and then looked up.  4096 x 2304 with an enhancement picture takes some
seconds; with MMR pieces it takes minutes, as there each three samples of a place are
mapped for themselves.  It says nothing: files that compose_file refuses stop it.
selftest.py holds it equal to picture.py.
"""

import array
import functools
import sys

import block
import composer
import limits
import picture

REMEMBERED = 1 << 18        # of the mapped samples that go by three samples


def samples(data):
    """A run of samples; two bytes each, the low byte first."""
    run = array.array("H", data)
    assert run.itemsize == 2
    if sys.byteorder == "big":
        run.byteswap()
    return run


class Finished(dict):
    """What a mapped sample and its residual together come to at an output depth, worked out when it is first asked."""

    def __init__(self, depth):
        self.depth = depth

    def __missing__(self, h):
        self[h] = composer.reconstruct(h, 0, 0, self.depth)
        return self[h]


def down_sampled(plan, base):
    """The luma of every chroma sample's place."""
    W, H = plan.width, plan.height
    return [composer.down_sampled_luma(lambda x, y: base[y * W + x], W, H, i, j)
            for j in range(H // 2) for i in range(W // 2)]


def mapped_plane(plan, cmp, planes):
    """Every mapped sample of a component; without MMR pieces by a table of codes."""
    pivot_value = composer.assign_pivot_values(plan.pred_pivot_value, plan.num_pivots_minus2)

    def mapped(*sX):
        return composer.map_sample(plan, pivot_value, cmp, sX)
    if composer.has_mmr(plan, cmp):
        return list(map(functools.lru_cache(REMEMBERED)(mapped), *planes))
    table = [mapped(s, s, s) for s in limits.samples(plan.BL_bit_depth)]
    return [table[s] for s in planes[cmp]]


def compose(plan, base, enhancement):
    """One picture; `enhancement` is empty where none is used."""
    output, finished = array.array("H"), Finished(plan.hdr_bit_depth)
    luma = plan.width * plan.height
    parts = [slice(0, luma), slice(luma, luma * 5 // 4), slice(luma * 5 // 4, luma * 3 // 2)]
    chroma = [base[part] for part in parts[1:]]
    below = down_sampled(plan, base) if any(composer.has_mmr(plan, cmp) for cmp in (1, 2)) else []
    for cmp, part in enumerate(parts):
        mapped = mapped_plane(plan, cmp, [below if cmp else base[part]] + chroma)
        if enhancement:
            added = [composer.residual(plan, cmp, e) for e in limits.samples(plan.EL_bit_depth)]
            output.extend([finished[v + added[e]] for v, e in zip(mapped, enhancement[part])])
        else:
            output.extend([finished[v] for v in mapped])
    if sys.byteorder == "big":
        output.byteswap()
    return output.tobytes()


def compose_file(block_name, base_name, enhancement_name):
    """The bytes of all pictures."""
    number, plan = block.read(picture.contents(block_name))
    assert number == 0
    base, enhancement = samples(picture.contents(base_name)), array.array("H")
    size = plan.picture_samples
    assert len(base) > 0 and len(base) % size == 0
    if plan.disable_residual_flag == 0 and enhancement_name != picture.NONE:
        enhancement = samples(picture.contents(enhancement_name))
        assert len(enhancement) == len(base)
    return b"".join(compose(plan, base[at:at + size], enhancement[at:at + size])
                    for at in range(0, len(base), size))


def main():
    if len(sys.argv) != 5:
        sys.exit("usage: large.py BLOCK BASE ENHANCEMENT OUTPUT")
    data = compose_file(*sys.argv[1:4])
    with open(sys.argv[4], "wb") as file:
        file.write(data)


if __name__ == "__main__":
    main()
