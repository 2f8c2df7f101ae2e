"""author in the second program.

    python3 author.py TEXT BLOCK ...          makes blocks of texts
    python3 author.py --text BLOCK ...        shows the texts of blocks

Two words after the other, in any order of the two kinds; says what author has to say, and writes the blocks.
"""

import os
import sys

import block
import inspect_block
import limits
import picture
import plan_text
import words

USE = ["use: author TEXT BLOCK ... | author --text BLOCK ...", "not written"]
SHOW = "--text"


def line_of(made, number, place, found):
    """The line of the field that reading refuses."""
    if number == 2:
        return 1                                        # of a made block only the version can be wrong there
    if number == 4:
        return made.header_lines[found.split(" is ")[0]]
    return made.lines[place]


def refusal(name, made):
    """The line about a block that reading refuses; None where it does not."""
    inspect_block.Noted.sections.clear()
    number, _ = block.read(made.data)
    if number == 0:
        return None
    place, found = inspect_block.fault(number, made.data)
    return "%s: line %d: refused %d (%s): %s" % (
        name, line_of(made, number, place, found), number, words.NAMES[number], found)


def made_of(name, text):
    """The block of a text; picture.NotWritten, with the line that says why, where it is refused."""
    if len(text) > limits.TEXT_BYTES:
        raise picture.NotWritten("%s: %d bytes, allowed at most %d" % (name, len(text), limits.TEXT_BYTES))
    try:
        made = plan_text.read_text(text)
    except plan_text.Fault as fault:
        raise picture.NotWritten("%s: line %d: %s" % (name, fault.line, fault))
    line = refusal(name, made)
    if line is not None:
        raise picture.NotWritten(line)
    return made.data


def contents(name):
    try:
        return picture.contents(name)
    except OSError as error:
        raise picture.NotWritten(words.unread(name, error.errno))


def write(text_name, block_name):
    """The line about the block that is written."""
    data = made_of(text_name, contents(text_name))
    output = picture.Output(block_name, "author")
    try:
        output.write_bytes(data)
        adler = output.move()
    except picture.NotWritten:
        output.remove()
        raise
    return "%s: %d bytes, Adler-32 %d" % (block_name, len(data), adler)


def shown(name):
    """The lines of a block's text."""
    data = contents(name)
    number, plan = block.read(data)
    if number != 0:
        raise picture.NotWritten(inspect_block.inspect(name, data)[-2])         # inspect says the same line
    return plan_text.plan_lines(plan, block.version_of(data))


def answer(given):
    """The lines for a word list, while its files are read and written."""
    for first, second in zip(given[::2], given[1::2]):
        done = "shown" if first == SHOW else "written"
        try:
            yield from shown(second) if first == SHOW else [write(first, second)]
            yield done
        except picture.NotWritten as why:
            yield str(why)
            yield "not " + done
    if not given or len(given) % 2:
        yield from USE


def main():
    for line in answer(sys.argv[1:]):
        sys.stdout.buffer.write(os.fsencode(line + "\n"))
        sys.stdout.buffer.flush()


if __name__ == "__main__":
    main()
