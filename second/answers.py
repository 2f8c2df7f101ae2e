"""Answers the six vector streams; README.md gives their formats.

    python3 answers.py sample_vectors < stdin > stdout
    python3 answers.py block_vectors < stdin > stdout
    python3 answers.py night_vectors < stdin > stdout
    python3 answers.py table_vectors < stdin > stdout
    python3 answers.py plan_vectors < stdin > stdout
    python3 answers.py write_vectors < stdin > stdout
"""

import functools
import struct
import sys

import block
import jobs
import nights
import places
import plan_text
import tables
import writer
from composer import Plan, map_place

NO_RUN = 255        # the place of an enhancement run that is not present
GUARD = 16          # bytes on each side of the slice that is lent to the writer


class Stream:
    """Takes big-endian numbers and byte strings from the front."""

    def __init__(self, data):
        self.data = data
        self.at = 0

    def more(self):
        return self.at < len(self.data)

    def bytes(self, size):
        if self.at + size > len(self.data):
            raise ValueError("the stream ends inside a case")
        part = self.data[self.at:self.at + size]
        self.at += size
        return part

    def u8(self):
        return self.bytes(1)[0]

    def u16(self):
        return struct.unpack(">H", self.bytes(2))[0]

    def u32(self):
        return struct.unpack(">I", self.bytes(4))[0]

    def u64(self):
        return struct.unpack(">Q", self.bytes(8))[0]

    def s64(self):
        return struct.unpack(">q", self.bytes(8))[0]

    def samples(self):
        size = self.u16()
        return list(struct.unpack(">%dH" % size, self.bytes(2 * size)))


def untouched_output(size):
    """The output run before a call: it shows rows that nobody wrote."""
    return [60000 + at % 1000 for at in range(size)]


def sample_answers(data):
    """One line a case: the whole output run, or the refusal."""
    stream = Stream(data)
    lines = []
    while stream.more():
        lines.append(_sample_answer(stream))
    return lines


def _valid_plan(stream):
    number, plan = block.read(stream.bytes(stream.u16()))
    if number != 0:
        raise ValueError("a composing case has to bring a valid block")
    return plan


def _sample_answer(stream):
    plan = _valid_plan(stream)
    return sample_line(plan, stream.u16(), stream.u16(), stream.samples(), stream.samples())


def sample_line(plan, first, count, base, enhancement, mapping=map_place):
    output = untouched_output(plan.picture_samples)
    number, composed = jobs.job(plan, first, count, base, enhancement, output, mapping)
    if number != 0:
        return "refused %d" % number
    return decimal(composed)


def decimal(values):
    return " ".join(str(value) for value in values)


def block_answers(data):
    """One line a case: the plan's places that are not zero, or the refusal."""
    stream = Stream(data)
    bases = [stream.bytes(stream.u16()) for _ in range(stream.u8())]
    lines = []
    while stream.more():
        lines.append(_block_answer(stream, bases))
    return lines


def _block_answer(stream, bases):
    edited = bytearray(bases[stream.u8()])
    start, stop = stream.u16(), stream.u16()
    for _ in range(stream.u8()):
        offset = stream.u16()
        edited[offset] = stream.u8()
    return block_line(edited[start:stop])


def block_line(data, read=block.read):
    number, plan = read(data)
    if number != 0:
        return "refused %d" % number
    shown = ["%d:%d" % place for place in enumerate(places.values(plan)) if place[1] != 0]
    return " ".join(["plan"] + shown)


def plan_answers(data):
    """One line a case: 7 where the changed plan breaks rule 7, else 0."""
    stream = Stream(data)
    lines = []
    while stream.more():
        plan = _valid_plan(stream)
        lines += [_plan_answer(stream, plan) for _ in range(stream.u16())]
    return lines


def _plan_answer(stream, plan):
    return "7" if jobs.breaks_rule_7(_changed_plan(stream, plan)) else "0"


def _changed_plan(stream, plan):
    edits = []
    for _ in range(stream.u8()):
        place = places.PLACES[stream.u16()]
        edits.append((place, stream.s64() if places.is_signed(place) else stream.u64()))
    return places.changed(plan, edits)


def write_answers(data):
    """One line a case: what is written, what is written of what is then read, and the block as text."""
    stream = Stream(data)
    lines = []
    while stream.more():
        number, plan = block.read(stream.bytes(stream.u16()))
        plan = plan if number == 0 else Plan()
        lines += [write_line(_changed_plan(stream, plan), stream.u16(), stream.u16(), stream.u8())
                  for _ in range(stream.u16())]
    return lines


def write_line(plan, version, size, first, by=writer):
    """`by` is the writer: its two calls, write_into and length."""
    said, written = _written(plan, version, size, first, by)
    if not written:
        return said
    number, again = block.read(written)
    if number != 0:
        return "%s %d %s" % (said, number, _written(Plan(), version, size, first, by)[0])
    return "%s 0 %s %s" % (said, _written(again, version, size, first, by)[0], _as_text(written))


@functools.lru_cache(maxsize=None)
def _as_text(data):
    """Of a block as text: length, check sum, whether the block and then the text come back the same."""
    text, made, again = plan_text.circle(data)
    return "%d %d %s %s" % (len(text), fnv_1a(text), _same(made, data), _same(again, text))


def _same(found, expected):
    return "same" if found == expected else "other"


def _written(plan, version, size, first, by):
    """(the answer, the length call's and the check sum of slice and guards, the block that is answered)."""
    room = bytes((first + at) % 256 for at in range(size + 2 * GUARD))
    number, length, after = by.write_into(plan, version, room[GUARD:-GUARD])
    said = "refused %d" % number if number != 0 else "written %d" % length
    return ("%s %d %d" % (said, by.length(plan, version), fnv_1a(room[:GUARD] + after + room[-GUARD:])),
            after[:length])


def fnv_1a(data):
    """The check sum of Fowler, Noll and Vo, in 32 bits: no change of one byte keeps it."""
    total = 2166136261
    for byte in data:
        total = (total ^ byte) * 16777619 & 0xffffffff
    return total


def night_answers(data, by=nights):
    """The lines of all nights: opening, jobs, output run, marks; `by` has the job's call, row_job."""
    stream = Stream(data)
    lines = []
    while stream.more():
        lines += _night_answer(stream, by)
    return lines


def _night_answer(stream, by):
    plans = [_valid_plan(stream), Plan()]
    runs = [stream.samples() for _ in range(stream.u8())]
    marks = bytearray(stream.bytes(stream.u16()))
    output = untouched_output(stream.u16())
    ticket = stream.u32()
    number, opened = nights.open_picture(plans[stream.u8()], ticket, marks)
    lines = ["refused %d" % number if number != 0 else "open %d" % opened]
    for _ in range(stream.u16()):
        plan = plans[stream.u8()]
        open_ticket, ticket = stream.u32(), stream.u32()
        first, count = stream.u16(), stream.u16()
        base, enhancement = runs[stream.u8()], _enhancement(runs, stream.u8())
        lines.append(job_line(*by.row_job(plan, open_ticket, ticket, first, count, base,
                                          enhancement, output, marks)))
    return lines + [decimal(output), decimal(marks)]


# Table vectors: the kinds of a step.
OPEN, PLAIN_JOB, TABLE_JOB, FILL, DAMAGE, SHOW, ANOTHER_BLOCK = range(7)


def untouched_table(size):
    """The table before the first step: no filling gives this."""
    return [50000 + at % 1000 for at in range(size)]


def table_answers(data, by=tables):
    """The lines of all cases; `by` has the two calls that know a table, fill_table and table_job."""
    stream = Stream(data)
    lines = []
    while stream.more():
        lines += TableCase(stream, by).lines(stream)
    return lines


class TableCase:
    """The memory of one case: two plans, runs, one table, and two pictures of marks and output."""

    def __init__(self, stream, by):
        self.by = by
        self.plans = [_valid_plan(stream), Plan()]
        self.runs = [stream.samples() for _ in range(stream.u8())]
        self.table = untouched_table(stream.u16())
        self.marks, self.outputs = [], []
        for _ in range(2):
            self.marks.append(bytearray(stream.bytes(stream.u16())))
            self.outputs.append(untouched_output(stream.u16()))

    def lines(self, stream):
        """One line a step, then what the two pictures hold."""
        lines = [self.step(stream) for _ in range(stream.u16())]
        for output, marks in zip(self.outputs, self.marks):
            lines += [decimal(output), decimal(marks)]
        return lines

    def step(self, stream):
        steps = {OPEN: self.open, PLAIN_JOB: self.plain_job, TABLE_JOB: self.table_job, FILL: self.fill,
                 DAMAGE: self.damage, SHOW: self.show, ANOTHER_BLOCK: self.another_block}
        return steps[stream.u8()](stream)

    def open(self, stream):
        picture, plan, ticket = stream.u8(), self.plans[stream.u8()], stream.u32()
        number, opened = nights.open_picture(plan, ticket, self.marks[picture])
        return "refused %d" % number if number != 0 else "open %d" % opened

    def plain_job(self, stream):
        plan, *lent = self.job(stream)
        return job_line(*nights.row_job(plan, *lent))

    def table_job(self, stream):
        plan, *lent = self.job(stream)
        return job_line(*self.by.table_job(plan, self.table, *lent))

    def job(self, stream):
        """What both calls are given: the plan, the tickets, the row pairs, the runs and the marks."""
        picture, plan = stream.u8(), self.plans[stream.u8()]
        open_ticket, ticket, first, count = stream.u32(), stream.u32(), stream.u16(), stream.u16()
        base, enhancement = self.runs[stream.u8()], _enhancement(self.runs, stream.u8())
        return plan, open_ticket, ticket, first, count, base, enhancement, self.outputs[picture], self.marks[picture]

    def fill(self, stream):
        number = self.by.fill_table(self.plans[stream.u8()], self.table)
        return "refused %d" % number if number != 0 else "filled"

    def damage(self, stream):
        begin, end, value = stream.u16(), stream.u16(), stream.u16()
        if end > len(self.table):
            raise ValueError("only what the table has is damaged")
        self.table[begin:end] = [value] * max(end - begin, 0)
        return "damaged"

    def show(self, stream):
        begin, end = stream.u16(), stream.u16()
        return decimal(self.table[begin:end])

    def another_block(self, stream):
        self.plans[0] = _valid_plan(stream)
        return "read"


def _enhancement(runs, place):
    return [] if place == NO_RUN else runs[place]


def job_line(number, counted):
    if number != 0:
        return "refused %d" % number
    return "%s, base only %d" % ("complete" if counted.complete else "left %d" % counted.left, counted.base_only)


def main():
    answers = {"sample_vectors": sample_answers, "block_vectors": block_answers,
               "night_vectors": night_answers, "plan_vectors": plan_answers,
               "write_vectors": write_answers, "table_vectors": table_answers}
    if len(sys.argv) != 2 or sys.argv[1] not in answers:
        sys.exit("usage: answers.py %s < stdin" % "|".join(answers))
    for line in answers[sys.argv[1]](sys.stdin.buffer.read()):
        print(line)


if __name__ == "__main__":
    main()
