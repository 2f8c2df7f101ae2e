"""A plan as text, from docs/TEXT.md: the text of a plan, and a text made to a block or refused with its line."""

import re
from collections import namedtuple

import block
import limits

# (name, bytes, zero bytes after it) of the header's fields.
HEADER = (
    ("ccm_profile", 1, 0), ("ccm_level", 1, 0), ("coefficient_log2_denom", 1, 0),
    ("BL_bit_depth_minus8", 1, 0), ("EL_bit_depth_minus8", 1, 0), ("hdr_bit_depth_minus8", 1, 0),
    ("disable_residual_flag", 1, 1), ("W/2", 2, 0), ("H/2", 2, 0),
    ("max_display_mastering_luminance", 2, 2), ("min_display_mastering_luminance", 4, 4))
NLQ_NUMBERS = ("hdr_in_max", "linear_deadzone_slope", "linear_deadzone_threshold")
ORDER_NAMES = {limits.POLYNOMIAL: "poly_order_minus1", limits.MMR: "mmr_order_minus1"}

WORD, SIGNED_WORD = re.compile(rb" ([0-9]+)"), re.compile(rb" (-?[0-9]+)")
NUMBER = re.compile("0|-?[1-9][0-9]*")

# A block's bytes, and the line of the text for each field: {name of the header: line}, {first byte: line}.
Made = namedtuple("Made", "data header_lines lines")


class Fault(Exception):
    """Why a text is refused, and on which line."""

    def __init__(self, line, words):
        super().__init__(words)
        self.line = line


def coef_names(order, mapping_idc):
    """The names of a piece's lines with coefficients."""
    count = limits.coefs(order, mapping_idc)
    if mapping_idc == limits.MMR:
        return ["mmr_constant"] + ["mmr_coef"] * (count - 1)
    return ["poly_coef"] * count


# The text of a plan ---------------------------------------------------------

def fixed_point(name, number, d):
    return "%s %d %d" % (name, number >> d, number % (1 << d))


def piece_lines(plan, cmp, piece):
    d, coef = plan.coefficient_log2_denom, plan.fp_coef[cmp][piece]
    idc, order = plan.mapping_idc[cmp][piece], plan.order_minus1[cmp][piece]
    yield "piece %d" % piece
    yield "mapping_idc %d" % idc
    yield "%s %d" % (ORDER_NAMES[idc], order)
    for name, number in zip(coef_names(order, idc), coef):
        yield fixed_point(name, number, d)


def section_lines(plan, cmp, version):
    d, n = plan.coefficient_log2_denom, plan.num_pivots_minus2[cmp]
    yield "component %d" % cmp
    yield "num_pivots_minus2 %d" % n
    yield "pred_pivot_value " + " ".join(str(value) for value in plan.pred_pivot_value[cmp][:limits.pivots(n)])
    for piece in range(limits.carried(n, version)):
        yield from piece_lines(plan, cmp, piece)
    yield "nlq_offset %d" % plan.nlq_offset[cmp]
    for name in NLQ_NUMBERS:
        yield fixed_point(name, getattr(plan, "fp_" + name)[cmp], d)


def plan_lines(plan, version=limits.VERSIONS[0]):
    yield "version %d" % version
    for name, _, _ in HEADER:
        yield "%s %d" % (name, getattr(plan, {"W/2": "half_width", "H/2": "half_height"}.get(name, name)))
    for cmp in range(3):
        yield from section_lines(plan, cmp, version)


def text_of(plan, version=limits.VERSIONS[0]):
    return "".join(line + "\n" for line in plan_lines(plan, version)).encode("ascii")


# A text to a block ----------------------------------------------------------

class Stopped(Exception):
    """Nobody can say which lines follow."""


class Reader:
    """A text, read from its first byte on."""

    def __init__(self, text):
        self.text, self.at, self.line, self.name = text, 0, 0, None
        self.data, self.lines = bytearray(), {}

    def refuse(self, words, *given):
        raise Fault(self.line, words % given)

    def begin(self, name):
        self.line += 1
        if not self.text.startswith(name.encode("ascii"), self.at):
            self.refuse("%s is expected", name)
        self.at += len(name)
        self.name = name

    def word(self, signed=False):
        found = (SIGNED_WORD if signed else WORD).match(self.text, self.at)
        if found is None:
            self.refuse("one space and a number of %s are expected", self.name)
        self.at = found.end()
        word = found[1].decode("ascii")
        if not NUMBER.fullmatch(word):
            self.refuse("a number of %s begins with 0", self.name)
        return word

    def number(self, size, signed=False):
        word = self.word(signed)
        value = int(word[:20])                          # as large as that fits nowhere
        all = 256 ** size
        low, high = (-all // 2, all // 2 - 1) if signed else (0, all - 1)
        if not low <= value <= high:
            self.refuse("%s does not fit %s, which holds %d to %d", word, self.name, low, high)
        return value

    def field(self, size, signed=False):
        """A number that goes into the block."""
        value = self.number(size, signed)
        self.lines[len(self.data)] = self.line
        self.data += value.to_bytes(size, "big", signed=signed)
        return value

    def end_line(self):
        if self.text[self.at:self.at + 1] != b"\n":
            self.refuse("the end of the line is expected")
        self.at += 1

    def end(self):
        self.line += 1
        if self.at != len(self.text):
            self.refuse("the end of the text is expected")

    def counted(self, name, k):
        """A line with the number of a component or of a piece."""
        self.begin(name)
        if self.word() != str(k):
            self.refuse("%s %d is expected", name, k)
        self.end_line()

    def only(self, name, size):
        """A line with one number."""
        self.begin(name)
        value = self.field(size)
        self.end_line()
        return value

    def count(self, name, allowed):
        """A line with a number that says which others follow."""
        self.begin(name)
        value = self.field(1)
        if value not in allowed:
            raise Stopped
        self.end_line()
        return value

    def fixed_point(self, name, size=1, signed=False):
        """A line with an integer part of this many bytes, and a fraction."""
        self.begin(name)
        self.field(size, signed)
        self.field(4)
        self.end_line()


def read_piece(reader, cmp, piece):
    reader.counted("piece", piece)
    idc = reader.count("mapping_idc", limits.methods(cmp))
    order = reader.count(ORDER_NAMES[idc], limits.orders(idc))
    for name in coef_names(order, idc):
        reader.fixed_point(name, limits.integer_bytes(idc), signed=True)


def read_section(reader, cmp, version):
    n = reader.count("num_pivots_minus2", limits.N)
    reader.begin("pred_pivot_value")
    for _ in range(limits.pivots(n)):
        reader.field(2)
    reader.end_line()
    for piece in range(limits.carried(n, version)):
        read_piece(reader, cmp, piece)
    reader.only("nlq_offset", 2)
    for name in NLQ_NUMBERS:
        reader.fixed_point(name)


def read_text(text):
    """The text's block, whatever its ranges; Fault where its form is wrong."""
    reader = Reader(text)
    reader.begin("version")
    version = reader.number(2)
    header_lines, begins = {}, []
    try:
        if version not in limits.VERSIONS:
            raise Stopped
        reader.end_line()
        for name, size, zeros in HEADER:
            reader.only(name, size)
            reader.data += bytes(zeros)
            header_lines[name] = reader.line
        for cmp in range(3):
            reader.counted("component", cmp)
            begins.append(len(reader.data))
            read_section(reader, cmp, version)
        reader.end()
    except Stopped:
        if not begins:
            reader.data += bytes(limits.HEADER_BYTES)
        while len(begins) < 3:
            begins.append(len(reader.data))
            reader.data.append(0)
    data = bytes(reader.data)
    sections = [data[begins[0]:begins[1]], data[begins[1]:begins[2]], data[begins[2]:]]
    return Made(block.assemble(data[:begins[0]], sections, version), header_lines, reader.lines)


def circle(data):
    """(the text of a block that is read, the block made of it, the text of that)."""
    text = text_of_block(data)
    made = read_text(text).data
    return text, made, text_of_block(made)


def text_of_block(data):
    number, plan = block.read(data)
    assert number == 0, number
    return text_of(plan, block.version_of(data))
