"""The picture that `inspect --plot` draws of a plan's mappings: an SVG, one panel a component.

A panel is 262,144 by 65,536 units, so that every number in it is whole: a code is 256 units wide, or 1,024 where there
are 256 codes, and a mapped sample v stands v units above the panel's lower edge. Where a component has an MMR piece,
its panel is a slice: luma and the other chroma sample are both at the middle code.
"""

import composer
import limits

PANEL = 262144
HIGHEST = 65535
NAMES = ("Y", "Cb", "Cr")

START = (
    '<svg xmlns="http://www.w3.org/2000/svg" viewBox="0 0 960 970">'
    "<style>.a{fill:#cfe0f4}.b{fill:#ecf3fb}.o{fill:#d9d9d9}.p{stroke:#6d8bad;stroke-width:300;stroke-dasharray:1500}"
    ".g{stroke:#fff;stroke-width:300}.v{fill:none;stroke:#14499c;stroke-width:700}.x{stroke:#e01b1b;stroke-width:3000}"
    "text{font:13px sans-serif;fill:#444}.t{font-size:16px}.r{text-anchor:end}</style>"
    '<path fill="#fff" d="M0 0h960v970H0"/>')

# What the shades and lines mean.
END = (
    '<g transform="translate(70 932)"><svg width="860" height="14" viewBox="0 0 262144 4267">'
    '<path class="a" d="M0 0h6000v5000H0"/><path class="b" d="M6000 0h6000v5000h-6000"/>'
    '<path class="p" d="M6000 0v5000"/><path class="o" d="M71000 0h12000v5000h-12000"/>'
    '<path class="v" d="M148000 2100h12000"/><path class="x" d="M201000 2100h12000"/></svg>'
    '<text x="48" y="12">pieces, from pivot to pivot</text><text x="281" y="12">outside the pivots, clamped</text>'
    '<text x="533" y="12">mapped sample</text><text x="707" y="12">cut: mapped to 0 or 65535</text></g></svg>')

GRID = '<path class="g" d="M0 16384h262144M0 32768h262144M0 49152h262144"/>'


def pieces(pivots, step, carried):
    """Each piece that the block carries as a field from pivot to pivot, and a dashed line at each pivot.

    That of version 2 above the last pivot goes on to the panel's end.
    """
    places = [pivot * step for pivot in pivots]
    ends = places[1:] + [max(places[-1], PANEL)]
    out = ""
    for piece in range(carried):
        x, width = places[piece], ends[piece] - places[piece]
        out += ('<path class="%s" d="M%d 0h%dv65536h-%d"/><path class="p" d="M%d 0v65536"/>'
                % ("ab"[piece % 2], x, width, width, x))
    return out + '<path class="p" d="M%d 0v65536"/>' % places[-1]


def curves(mapped, step):
    """The mapped samples, and in red those that are at an end."""
    places = [(code * step, HIGHEST - value) for code, value in enumerate(mapped)]
    curve = "".join(" %d %d" % place for place in places)
    ends = "".join("M%d %dh%d" % (x, y, step) for x, y in places if y in (0, HIGHEST))
    return '<path class="v" d="M%s"/><path class="x" d="%s"/>' % (curve, ends)


def mapped_samples(plan, pivot_value, cmp, codes):
    """Of each code of the component, with luma and the other chroma sample at the middle code."""
    sX = [codes[len(codes) // 2]] * 3
    return [composer.map_sample(plan, pivot_value, cmp, sX[:cmp] + [code] + sX[cmp + 1:]) for code in codes]


def slice_words(plan, cmp, codes):
    """Where the panel cuts through what an MMR piece maps."""
    return ", luma and %s at %d" % (NAMES[3 - cmp], codes[len(codes) // 2]) if composer.has_mmr(plan, cmp) else ""


def panel(plan, cmp, version):
    pivot_value = composer.assign_pivot_values(plan.pred_pivot_value, plan.num_pivots_minus2)
    codes = limits.samples(plan.BL_bit_depth)
    mapped = mapped_samples(plan, pivot_value, cmp, codes)
    step = PANEL // len(codes)
    pivots, carried = pivot_value[cmp], limits.carried(plan.num_pivots_minus2[cmp], version)
    yield ('<g transform="translate(70 %d)"><text class="t" y="-28">%s: pieces %d, codes 0 to %d, '
           'mapped samples %d to %d%s</text><text y="-9">pivots %s'
           % (58 + 298 * cmp, NAMES[cmp], carried, codes[-1], min(mapped), max(mapped), slice_words(plan, cmp, codes),
              " ".join("%d" % pivot for pivot in pivots)))
    yield ('</text><svg width="860" height="215" viewBox="0 0 262144 65536"><path class="o" d="M0 0h262144v65536H0"/>'
           + pieces(pivots, step, carried) + GRID + curves(mapped, step)
           + '</svg><text class="r" x="-8" y="10">65535</text><text class="r" x="-8" y="215">0</text>'
           '<text y="231">0</text><text class="r" x="860" y="231">%d</text></g>' % codes[-1])


def lines(plan, version):
    yield START
    for cmp in range(3):
        yield from panel(plan, cmp, version)
    yield END
