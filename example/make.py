"""Makes the example: a block, a base picture and an enhancement picture, 192 x 108.

    python3 make.py OUTDIR

A town at night: a dark street, lit windows, a lamp and the moon.  The base
picture is what a 10 bit SDR decoder would hand over; the block's curve lifts its
bright end far above SDR white, and the enhancement picture gives the lamp and
the moon back the brightness that the base picture has clipped.
"""

import os
import struct
import sys

W, H = 192, 108
D = 20                       # coefficient_log2_denom
PIECES = 8
OFFSET = 512                 # nlq_offset
CHROMA_OFFSET = 512


def scene(x, y):
    """Light at a place, 1.0 being SDR white, and its colour (blue-yellow, green-red)."""
    sky = 0.02 + 0.06 * y / H
    light, cb, cr = sky, 0.10, -0.03
    moon = ((x - 150) ** 2 + (y - 22) ** 2) ** 0.5
    if moon < 11:
        return 3.2 - 0.05 * ((x * 7 + y * 13) % 5), -0.02, 0.01
    if moon < 40:
        light += 0.25 * (1 - (moon - 11) / 29) ** 2
    roof = 48 + (x // 24 * 37) % 29
    if y > roof:
        light, cb, cr = 0.015, 0.02, 0.0
        if x % 8 < 4 and y % 10 < 5 and (x // 8 * 5 + y // 10 * 3) % 4 != 0:
            light, cb, cr = 0.55 + 0.1 * ((x // 8 + y // 10) % 3), -0.18, 0.08
    if y > 92:
        light, cb, cr = 0.05 + 0.002 * (y - 92), 0.0, 0.0
    lamp = ((x - 40) ** 2 + (y - 60) ** 2) ** 0.5
    if lamp < 4:
        return 4.0, -0.10, 0.05
    if lamp < 30:
        light += 0.5 * (1 - (lamp - 4) / 26) ** 2
    return light, cb, cr


def sdr(light):
    """10 bit SDR luma: a display gamma, clipped at white."""
    return min(1023, round(64 + 876 * min(light, 1.0) ** (1 / 2.4)))


def pq(light):
    """SMPTE ST 2084 of light, with SDR white at 200 cd/m2, as a fraction."""
    y = (min(light, 50.0) * 200 / 10000) ** 0.1593017578125
    return ((0.8359375 + 18.8515625 * y) / (1 + 18.6875 * y)) ** 78.84375


def wanted(s):
    """The mapped luma that a base code should have, as a fraction of 65,536."""
    light = max(0.0, (s - 64) / 876) ** 2.4
    return 0.0625 + 0.855 * pq(light)


def quadratic(a, b):
    """The parabola through `wanted` at both ends and in the middle, in x = s / 1024."""
    xs = [a / 1024, (a + b) / 2048, b / 1024]
    ys = [wanted(1024 * x) for x in xs]
    c2 = ((ys[2] - ys[0]) / (xs[2] - xs[0]) - (ys[1] - ys[0]) / (xs[1] - xs[0])) / (xs[2] - xs[1])
    c1 = (ys[1] - ys[0]) / (xs[1] - xs[0]) - c2 * (xs[0] + xs[1])
    c0 = ys[0] - c1 * xs[0] - c2 * xs[0] ** 2
    return c0, c1, c2


def fixed(value):
    """A coefficient's bytes: floor and fraction."""
    whole = round(value * (1 << D))
    return struct.pack(">bI", whole >> D, whole & ((1 << D) - 1))


def nlq(offset, maximum, slope, threshold):
    out = struct.pack(">H", offset)
    for value in (maximum, slope, threshold):
        out += struct.pack(">BI", value >> D, value & ((1 << D) - 1))
    return out


def luma_section():
    pivots = [1023 * i // PIECES for i in range(PIECES + 1)]
    out = struct.pack(">B", PIECES - 1)
    for i, pivot in enumerate(pivots):
        out += struct.pack(">H", pivot - (pivots[i - 1] if i else 0))
    for i in range(PIECES):
        out += struct.pack(">BB", 0, 1)
        for c in quadratic(pivots[i], pivots[i + 1]):
            out += fixed(c)
    # r is (2 rr - sign) x slope >> 5 here, so this slope makes one code of the enhancement 64 steps of 65,536
    return out + nlq(OFFSET, (1 << D) - 1, 1 << (D - 10), 0)


def chroma_section():
    out = struct.pack(">BHH", 0, 0, 1023)
    out += struct.pack(">BB", 0, 0) + fixed(0.0) + fixed(1.0)
    return out + nlq(CHROMA_OFFSET, 0, 0, 0)


def block():
    header = struct.pack(">8B4HII", 1, 0, D, 2, 2, 4, 0, 0, W // 2, H // 2, 1000, 0, 50, 0)
    sections = [luma_section(), chroma_section(), chroma_section()]
    body = header + b"".join(sections)
    back = [len(body)]
    at = len(header)
    for section in sections:
        back.append(len(body) - at)
        at += len(section)
    return body + struct.pack(">6H", *back, 1, 0)


def pictures():
    luma, cbs, crs, extra = [], [], [], []
    for y in range(H):
        for x in range(W):
            light, cb, cr = scene(x, y)
            s = sdr(light)
            luma.append(s)
            missing = 0.0625 + 0.855 * pq(light) - wanted(s)
            extra.append(max(0, min(1023, OFFSET + round(missing * 1024))))
            if x % 2 == 0 and y % 2 == 0:
                cbs.append(max(0, min(1023, round(512 + 896 * cb * min(1, light + 0.2)))))
                crs.append(max(0, min(1023, round(512 + 896 * cr * min(1, light + 0.2)))))
    neutral = [CHROMA_OFFSET] * (len(cbs) + len(crs))
    return luma + cbs + crs, extra + neutral


def main():
    if len(sys.argv) != 2:
        sys.exit("usage: make.py OUTDIR")
    base, enhancement = pictures()
    os.makedirs(sys.argv[1], exist_ok=True)
    for name, data in (("block", block()),
                       ("base.yuv", struct.pack("<%dH" % len(base), *base)),
                       ("enhancement.yuv", struct.pack("<%dH" % len(enhancement), *enhancement))):
        with open(os.path.join(sys.argv[1], name), "wb") as file:
            file.write(data)


if __name__ == "__main__":
    main()
