"""compose_file in the second program.

    python3 picture.py [--standby] { [--late] BLOCK BASE ENHANCEMENT OUTPUT } ...      (ENHANCEMENT may be none)

Composes pictures from files, a group of four words after the other, by the same
jobs, says what compose_file has to say, and writes the pictures.  In a late group
the enhancement comes late, and each picture is written twice, as a screen shows
it: composed without the enhancement, and after that came.
"""

import errno
import os
import struct
import sys
import zlib

import block
import composer
import inspect_block
import limits
import nights
import words

BATCH = 8               # row pairs that a job names
IN_FLIGHT = 16          # row pairs sent again after the standby
BAND_SAMPLES = 98304    # the row pairs of a band have no more
TICKET = 1
GROUP = 4               # words: BLOCK BASE ENHANCEMENT OUTPUT
STANDBY, LATE = "--standby", "--late"
NONE = "none"
USE = "use: compose_file [--standby] [--late] BLOCK BASE ENHANCEMENT OUTPUT ..."


class NotWritten(Exception):
    """Carries the one line that says why."""


# Files ----------------------------------------------------------------------

def contents(name):
    """The bytes of a file; OSError where it cannot be read, or is a pipe.

    A file ends where seeking to its end leads: a device such as /dev/zero is empty.
    """
    with open(name, "rb") as file:
        return file.read(length(file))


def length(file):
    """OSError (ESPIPE) where the file cannot be sought in."""
    size = os.lseek(file.fileno(), 0, os.SEEK_END)
    os.lseek(file.fileno(), 0, os.SEEK_SET)
    return size


class PictureFile:
    """A file of pictures that is read, under the name that is said of it."""

    def __init__(self, name):
        self.name = name
        try:
            self.file = open(name, "rb")
            self.length = length(self.file)
        except OSError as error:
            raise NotWritten(words.unread(name, error.errno))

    def picture(self, k, size):
        """The samples of picture k, which has this many bytes."""
        try:
            self.file.seek(k * size)
            data = self.file.read(size)
        except OSError as error:
            raise NotWritten(words.unread(self.name, error.errno))
        if len(data) != size:
            raise NotWritten("%s: cannot be read: it ended early" % self.name)
        return list(struct.unpack("<%dH" % (size // 2), data))


class Output:
    """OUTPUT.part, which becomes OUTPUT or is removed."""

    def __init__(self, name, program="compose"):
        self.name = name
        self.program = program
        self.part = name + ".part"
        if name == "":
            raise NotWritten(words.unwritten(name, errno.ENOENT))       # `.part` alone stands beside nothing
        self.file = self.tried(open, self.part, "xb", buffering=0)

    def tried(self, call, *given, **named):
        try:
            return call(*given, **named)
        except OSError as error:
            raise NotWritten(words.unwritten(self.name, error.errno, self.program))

    def write(self, run):
        self.write_bytes(struct.pack("<%dH" % len(run), *run))

    def write_bytes(self, data):
        while data:
            data = data[self.tried(self.file.write, data):]

    def move(self):
        """Gives the Adler-32 of what stands in the file."""
        self.tried(self.file.close)
        adler = zlib.adler32(self.tried(contents, self.part))
        self.tried(self.replace)
        return adler

    def replace(self):
        """A device would be gone for good: only a regular file is replaced."""
        if os.path.exists(self.name) and not os.path.isfile(self.name) and not os.path.isdir(self.name):
            raise OSError(errno.EINVAL, "no regular file")
        os.rename(self.part, self.name)

    def remove(self):
        self.file.close()
        os.remove(self.part)


# The jobs of a picture ------------------------------------------------------

def batches(start, stop, size):
    """(first, count) of the jobs or bands that the row pairs from start to stop - 1 make."""
    return [(first, min(size, stop - first)) for first in range(start, stop, size)]


def bands(plan):
    return batches(0, plan.half_height, BAND_SAMPLES // (3 * plan.width))


def job_line(job, first, count, counted):
    return "%s, %d row pairs from %d: %s%s" % (
        job, count, first, "complete" if counted.complete else "%d row pairs left" % counted.left,
        ", %d base only" % counted.base_only if counted.base_only else "")


class Night:
    """One picture of a group: its runs, and the jobs that compose it."""

    def __init__(self, plan, k, names, base, enhancement):
        self.plan, self.k, self.names = plan, k, names
        self.base, self.enhancement = base, enhancement
        self.output, self.marks = [0] * len(base), [0] * plan.half_height
        assert nights.open_picture(plan, TICKET, self.marks) == (0, TICKET)

    def send(self, first, count, enhancement):
        number, _ = nights.row_job(self.plan, TICKET, TICKET, first, count, self.base,
                                   enhancement, self.output, self.marks)
        if number != 0:
            assert number == 11
            raise NotWritten(self.large_sample(first, count, enhancement))

    def compose(self):
        for first, count in bands(self.plan):
            self.send(first, count, self.enhancement)

    def compose_with_standbys(self):
        """Gives the lines that are said."""
        for band in bands(self.plan):
            first, middle, stop = self.parts(band)
            yield self.band_line(band)
            yield from self.said(first, middle, band)
            yield "standby; the jobs in flight are sent again"
            yield from self.said(max(first, middle - IN_FLIGHT), middle, band)
            yield from self.said(middle, stop, band)

    def compose_late(self, early):
        """The same where the enhancement comes late; `early` becomes the picture that is shown before it comes.

        After the standby the base is there first: what is sent again does not bring the enhancement.
        """
        for band in bands(self.plan):
            first, middle, stop = self.parts(band)
            yield self.band_line(band)
            yield "the enhancement is late"
            yield from self.said_without(first, stop, band)
            self.show(band, early)
            yield "the enhancement has come"
            yield from self.said(first, middle, band)
            yield "standby; the jobs in flight are sent again"
            yield from self.said_without(max(first, middle - IN_FLIGHT), middle, band)
            yield from self.said(middle, stop, band)

    def parts(self, band):
        """Where a band begins, where its standby is, and where it ends."""
        first, count = band
        return first, first + count // 2, first + count

    def band_line(self, band):
        first, count = band
        return "picture %d, row pairs %d to %d" % (self.k, first, first + count - 1)

    def said(self, start, stop, band):
        """Sends the row pairs from start to stop - 1 with what enhancement there is; says the counts of their band."""
        return self.jobs("job", start, stop, band, self.enhancement)

    def said_without(self, start, stop, band):
        return self.jobs("job without enhancement", start, stop, band, [])

    def jobs(self, name, start, stop, band, enhancement):
        for first, count in batches(start, stop, BATCH):
            self.send(first, count, enhancement)
            yield job_line(name, first, count, nights.counted(self.marks[band[0]:sum(band)]))

    def show(self, band, shown):
        """The band as it stands now, in a run of the whole picture."""
        for k in range(band[0], sum(band)):
            for _, at in composer.row_pair_samples(self.plan, k):
                shown[at] = self.output[at]

    def large_sample(self, first, count, enhancement):
        """The line about the first sample that rule 11 refuses: the base's before the enhancement's."""
        depths = (self.plan.BL_bit_depth, self.plan.EL_bit_depth)
        for name, run, depth in zip(self.names, (self.base, enhancement), depths):
            for cmp, row, column, at in plane_samples(self.plan, first, count) if run else ():
                if run[at] not in limits.samples(depth):
                    return words.refused(
                        name, 11, "picture %d, %s row %d column %d is %d, allowed less than %d"
                        % (self.k, ("Y", "Cb", "Cr")[cmp], row, column, run[at], 1 << depth))


def plane_samples(plan, first, count):
    """(component, row, column, index) of the job's samples: Y, Cb, Cr, each by rows."""
    begin = 0
    for cmp in range(3):
        width, rows = (plan.width, 2) if cmp == 0 else (plan.half_width, 1)
        for row in range(rows * first, rows * (first + count)):
            for column in range(width):
                yield cmp, row, column, begin + row * width + column
        begin += width * rows * plan.half_height


# A group --------------------------------------------------------------------

def read_block(name):
    try:
        data = contents(name)
    except OSError as error:
        raise NotWritten(words.unread(name, error.errno))
    number, plan = block.read(data)
    if number != 0:
        raise NotWritten(inspect_block.inspect(name, data)[-2])      # inspect says the same line
    return plan


def pictures(count):
    return "1 picture" if count == 1 else "%d pictures" % count


def enhancement_words(plan, enhancement):
    if plan.disable_residual_flag == 1:
        return "base only, as disable_residual_flag is 1"
    return "with enhancement" if enhancement else "base only"


def open_inputs(plan, base_name, enhancement_name):
    """(base, enhancement or None), whole pictures of the plan's size and as many of both."""
    size = 2 * plan.picture_samples
    base = PictureFile(base_name)
    if base.length == 0 or base.length % size != 0:
        raise NotWritten(words.refused(
            base_name, 9, "%d bytes, allowed %d for each picture" % (base.length, size)))
    if plan.disable_residual_flag == 1 or enhancement_name == NONE:
        return base, None
    enhancement = PictureFile(enhancement_name)
    if enhancement.length != base.length:
        raise NotWritten(words.refused(
            enhancement_name, 9, "%d bytes, allowed %d, as the base has"
            % (enhancement.length, base.length)))
    return base, enhancement


def compose_all(plan, count, base, enhancement, output, standby, late):
    """Writes the pictures; gives the lines that are said."""
    size = 2 * plan.picture_samples
    for k in range(count):
        names = [base.name, enhancement.name if enhancement else NONE]
        night = Night(plan, k, names, base.picture(k, size),
                      enhancement.picture(k, size) if enhancement else [])
        if late:
            early = [0] * plan.picture_samples
            yield from night.compose_late(early)
            output.write(early)
        elif standby:
            yield from night.compose_with_standbys()
        else:
            night.compose()
        output.write(night.output)


def group(standby, late, block_name, base_name, enhancement_name, output_name):
    """The lines of a group whose pictures are written; else NotWritten after some of them."""
    plan = read_block(block_name)
    base, enhancement = open_inputs(plan, base_name, enhancement_name)
    count = base.length // (2 * plan.picture_samples)
    yield "%s of %d x %d, %d bit to %d bit, %s" % (
        pictures(count), plan.width, plan.height, plan.BL_bit_depth, plan.hdr_bit_depth,
        enhancement_words(plan, enhancement))
    output = Output(output_name)
    try:
        yield from compose_all(plan, count, base, enhancement, output, standby, late)
        adler = output.move()
    except NotWritten:
        output.remove()
        raise
    yield "%s: %s, Adler-32 %d" % (output_name, pictures(2 * count if late else count), adler)


def groups(names):
    """((late, its four words) of each group, the words that are left over)."""
    found = []
    while names:
        late = names[0] == LATE
        words_of = names[late:late + GROUP]
        if len(words_of) < GROUP:
            break
        found.append((late, words_of))
        names = names[late + GROUP:]
    return found, names


def answer(given):
    """The lines for a word list, while its files are read and written."""
    standby = given[:1] == [STANDBY]
    found, left_over = groups(given[1:] if standby else given)
    for late, names in found:
        try:
            yield from group(standby, late, *names)
            yield "written"
        except NotWritten as why:
            yield str(why)
            yield "not written"
    if not found or left_over:
        yield USE
        yield "not written"


def main():
    for line in answer(sys.argv[1:]):
        sys.stdout.buffer.write(os.fsencode(line + "\n"))
        sys.stdout.buffer.flush()


if __name__ == "__main__":
    main()
