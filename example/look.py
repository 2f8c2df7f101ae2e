"""Shows a picture: raw planar 4:2:0 (two bytes a sample, low byte first) to PNG.

    python3 look.py sdr|hdr WIDTH HEIGHT BITS FILE.yuv OUT.png [SCALE]

`sdr` shows a base picture as it is; `hdr` takes SMPTE ST 2084 samples and rolls
the light off for a screen, so that what lies above SDR white can be told apart.
"""

import struct
import sys
import zlib


def samples(path, count):
    with open(path, "rb") as file:
        data = file.read()
    if len(data) != 2 * count:
        sys.exit("look: %s does not have %d samples" % (path, count))
    return struct.unpack("<%dH" % count, data)


def rgb(y, cb, cr):
    """BT.2020, non-constant luminance."""
    r = y + 1.4746 * cr
    b = y + 1.8814 * cb
    g = (y - 0.2627 * r - 0.0593 * b) / 0.6780
    return r, g, b


def light(v):
    """SMPTE ST 2084: cd/m2 of a fraction."""
    p = max(0.0, min(1.0, v)) ** (1 / 78.84375)
    return 10000 * (max(0.0, p - 0.8359375) / (18.8515625 - 18.6875 * p)) ** (1 / 0.1593017578125)


def shown(v, hdr):
    """A code of the screen, 0 to 255."""
    if hdr:
        v = light(v) / 200
        v = (v * (1 + v / 16) / (1 + v)) ** (1 / 2.2)
    return max(0, min(255, round(255 * v)))


def pixels(run, width, height, bits, hdr):
    size = width * height
    top = 1 << bits
    low, span = 64 * top // 1024, 876 * top // 1024
    rows = []
    for y in range(height):
        row = bytearray()
        for x in range(width):
            c = y // 2 * (width // 2) + x // 2
            luma = (run[y * width + x] - low) / span
            cb = (run[size + c] / top - 0.5) * 1024 / 896
            cr = (run[size + size // 4 + c] / top - 0.5) * 1024 / 896
            row += bytes(shown(v, hdr) for v in rgb(luma, cb, cr))
        rows.append(bytes(row))
    return rows


def png(rows, width, scale):
    def chunk(name, data):
        body = name + data
        return struct.pack(">I", len(data)) + body + struct.pack(">I", zlib.crc32(body))
    wide = []
    for row in rows:
        line = b"\0" + b"".join(row[i:i + 3] * scale for i in range(0, len(row), 3))
        wide += [line] * scale
    header = struct.pack(">IIBBBBB", width * scale, len(rows) * scale, 8, 2, 0, 0, 0)
    return b"\x89PNG\r\n\x1a\n" + chunk(b"IHDR", header) + chunk(b"IDAT", zlib.compress(b"".join(wide), 9)) + chunk(b"IEND", b"")


def main():
    if len(sys.argv) not in (7, 8) or sys.argv[1] not in ("sdr", "hdr"):
        sys.exit("usage: look.py sdr|hdr WIDTH HEIGHT BITS FILE.yuv OUT.png [SCALE]")
    width, height, bits = (int(word) for word in sys.argv[2:5])
    scale = int(sys.argv[7]) if len(sys.argv) == 8 else 1
    run = samples(sys.argv[5], width * height * 3 // 2)
    with open(sys.argv[6], "wb") as file:
        file.write(png(pixels(run, width, height, bits, sys.argv[1] == "hdr"), width, scale))


if __name__ == "__main__":
    main()
