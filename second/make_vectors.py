"""Makes the vectors, or checks the stored ones.

    python3 make_vectors.py OUTDIR            writes the files
    python3 make_vectors.py --check OUTDIR    exit 1 if one differs or is missing

OUTDIR/compose_file/data has the example picture, from which what compose_file and
inspect have to say is worked out; author's texts are made from docs/TEXT.md and plans.
"""

import os
import struct
import subprocess
import sys
import tempfile
from collections import Counter

import answers
import author_cases
import block
import block_cases
import compose_cases
import composer
import inspect_block
import inspect_cases
import mmr_cases
import night_cases
import nights
import picture
import places
import plan_cases
import sample_cases
import search_cases
import table_cases
import write_cases


def u16_run(values):
    return struct.pack(">H%dH" % len(values), len(values), *values)


def sample_stream(cases):
    """stdin of sample_vectors."""
    out = bytearray()
    for case in cases:
        data = block.write(case.plan, case.version)
        out += struct.pack(">H", len(data)) + data
        out += struct.pack(">HH", case.first, case.count)
        out += u16_run(case.base) + u16_run(case.enhancement)
    return bytes(out)


def block_stream(bases, cases):
    """stdin of block_vectors."""
    out = bytearray([len(bases)])
    for base in bases:
        out += struct.pack(">H", len(base)) + base
    for case in cases:
        out += struct.pack(">BHHB", case.base, case.start, case.stop, len(case.edits))
        for offset, byte in case.edits:
            out += struct.pack(">HB", offset, byte)
    return bytes(out)


def night_stream(nights):
    """stdin of night_vectors."""
    out = bytearray()
    for night in nights:
        data = block.write(night.plan, night.version)
        out += struct.pack(">H", len(data)) + data
        out += bytes([len(night.runs)])
        for run in night.runs:
            out += u16_run(run)
        out += struct.pack(">H", len(night.marks)) + bytes(night.marks)
        out += struct.pack(">HIBH", night.output_size, night.ticket, night.opening,
                           len(night.jobs))
        for job in night.jobs:
            out += struct.pack(">BIIHHBB", *job)
    return bytes(out)


# The fields of a step of table_vectors after its kind, but for a block's.
STEP_FIELDS = {answers.OPEN: ">BBI", answers.PLAIN_JOB: ">BBIIHHBB", answers.TABLE_JOB: ">BBIIHHBB",
               answers.FILL: ">B", answers.DAMAGE: ">HHH", answers.SHOW: ">HH"}


def table_stream(cases):
    """stdin of table_vectors."""
    out = bytearray()
    for case in cases:
        out += sized_block(case.plan, case.version) + bytes([len(case.runs)])
        for run in case.runs:
            out += u16_run(run)
        out += struct.pack(">H", case.table)
        for one in case.pictures:
            out += struct.pack(">H", len(one.marks)) + bytes(one.marks) + struct.pack(">H", one.output_size)
        out += struct.pack(">H", len(case.steps))
        for step in case.steps:
            out += bytes([step.kind]) + step_bytes(step)
    return bytes(out)


def step_bytes(step):
    if step.kind == answers.ANOTHER_BLOCK:
        return sized_block(*step.fields)
    return struct.pack(STEP_FIELDS[step.kind], *step.fields)


def sized_block(plan, version):
    data = block.write(plan, version)
    return struct.pack(">H", len(data)) + data


def plan_stream(groups):
    """stdin of plan_vectors."""
    out = bytearray()
    for plan, cases, version in groups:
        data = block.write(plan, version)
        out += struct.pack(">H", len(data)) + data + struct.pack(">H", len(cases))
        for case in cases:
            out += plan_edits(case.edits)
    return bytes(out)


def plan_edits(edits):
    """The changes of one case to a plan, with their number."""
    out = bytearray([len(edits)])
    for place, value in edits:
        out += struct.pack(">Hq" if places.is_signed(place) else ">HQ", places.NUMBERS[place], value)
    return bytes(out)


def write_stream(groups):
    """stdin of write_vectors."""
    out = bytearray()
    for data, cases in groups:
        out += struct.pack(">H", len(data)) + data + struct.pack(">H", len(cases))
        for case in cases:
            out += plan_edits(case.edits) + struct.pack(">HHB", case.version, case.size, case.first)
    return bytes(out)


def text(lines):
    return "".join(line + "\n" for line in lines).encode("ascii")


def example_files(outdir):
    """The files that compose_file is run on, its words, and what it has to say of them."""
    data = os.path.join(outdir, "compose_file", "data")
    sources = {name: picture.contents(os.path.join(data, name)) for name in compose_cases.SOURCES}
    made, groups = compose_cases.all_cases(sources)
    words = compose_cases.word_list(groups)
    said, left = ran("picture.py", {**sources, **made}, words)
    compose_cases.checked(groups, said.decode("ascii").splitlines())
    assert left == set(sources) | set(made) | compose_cases.outputs(groups), left
    return {os.path.join("compose_file", "args"): text(words),
            os.path.join("compose_file", "stdout"): said,
            **{os.path.join("compose_file", "data", name): made[name] for name in made}}


def ran(name, files, words):
    """(what the program says to the words, the files that stand there afterwards), in a folder of its own."""
    program = os.path.join(os.path.dirname(os.path.abspath(__file__)), name)
    with tempfile.TemporaryDirectory() as folder:
        for name, data in files.items():
            put(os.path.join(folder, name), data)
        said = subprocess.run([sys.executable, "-B", program, *words], cwd=folder, check=True,
                              stdout=subprocess.PIPE).stdout
        left = {os.path.relpath(os.path.join(at, name), folder)
                for at, _, names in os.walk(folder) for name in names}
    return said, left


def put(path, data):
    os.makedirs(os.path.dirname(path), exist_ok=True)
    with open(path, "wb") as file:
        file.write(data)


def inspect_files(outdir):
    """The blocks that inspect is shown, and what it has to say of them."""
    good = picture.contents(os.path.join(outdir, "compose_file", "data", "block"))
    blocks = inspect_cases.all_blocks(good)
    words = inspect_cases.arguments(blocks)
    files = {os.path.join("inspect", "data", shown.name): shown.data for shown in blocks}
    files[os.path.join("inspect", "args")] = text(words)
    files[os.path.join("inspect", "stdout")] = text(inspect_block.answer(words, inspect_cases.reader(blocks)))
    return files


def author_files():
    """The files that author is run on, its words, and what it has to say of them."""
    made, groups = author_cases.all_cases()
    words = author_cases.word_list(groups)
    said, left = ran("author.py", made, words)
    author_cases.checked(groups, said.decode("ascii").splitlines())
    assert left == set(made) | author_cases.outputs(groups), left
    return {os.path.join("author", "args"): text(words),
            os.path.join("author", "stdout"): said,
            **{os.path.join("author", "data", name): made[name] for name in made}}


def ten_lines_files(outdir):
    """A block of a 4 x 4 picture, and what ten_lines has to say after its jobs."""
    good = picture.contents(os.path.join(outdir, "compose_file", "data", "block"))
    data = compose_cases.sized(good, 4, 4)
    plan, ticket = block.read(data)[1], 7
    base, output, marks = [512] * 24, [0] * 24, [9] * 2
    nights.open_picture(plan, ticket, marks)
    for first in (0, 0, 1):
        _, counted = nights.row_job(plan, ticket, ticket, first, 1, base, [], output, marks)
    return {os.path.join("ten_lines", "stdin"): data,
            os.path.join("ten_lines", "stdout"): b"complete\n" if counted.complete else b""}


def all_samples():
    """The cases of sample_vectors."""
    return sample_cases.all_cases() + mmr_cases.all_cases() + search_cases.all_cases()


def make(outdir):
    """({path: bytes}, summary lines).  The answers are worked out from stdin."""
    samples = all_samples()
    sample_stdin = sample_stream(samples)
    sample_lines = answers.sample_answers(sample_stdin)
    bases, reads = block_cases.all_cases()
    block_stdin = block_stream(bases, reads)
    block_lines = answers.block_answers(block_stdin)
    nights = night_cases.all_nights()
    night_stdin = night_stream(nights)
    night_lines = answers.night_answers(night_stdin)
    groups = plan_cases.all_groups()
    plan_stdin = plan_stream(groups)
    plan_lines = answers.plan_answers(plan_stdin)
    written = write_cases.all_groups()
    write_stdin = write_stream(written)
    write_lines = answers.write_answers(write_stdin)
    tabled = table_cases.all_cases()
    table_stdin = table_stream(tabled)
    table_lines = answers.table_answers(table_stdin)
    table_cases.checked(tabled, table_lines)
    files = {
        os.path.join("sample_vectors", "stdin"): sample_stdin,
        os.path.join("sample_vectors", "stdout"): text(sample_lines),
        os.path.join("block_vectors", "stdin"): block_stdin,
        os.path.join("block_vectors", "stdout"): text(block_lines),
        os.path.join("night_vectors", "stdin"): night_stdin,
        os.path.join("night_vectors", "stdout"): text(night_lines),
        os.path.join("plan_vectors", "stdin"): plan_stdin,
        os.path.join("plan_vectors", "stdout"): text(plan_lines),
        os.path.join("write_vectors", "stdin"): write_stdin,
        os.path.join("write_vectors", "stdout"): text(write_lines),
        os.path.join("table_vectors", "stdin"): table_stdin,
        os.path.join("table_vectors", "stdout"): text(table_lines),
        **example_files(outdir), **inspect_files(outdir), **author_files(), **ten_lines_files(outdir)}
    summary = (sample_summary(samples, sample_lines)
               + table("block_vectors", reads, block_lines)
               + night_summary(nights, night_lines)
               + table("plan_vectors", cases_of(groups), plan_lines)
               + table("write_vectors", cases_of(written), write_lines)
               + table_summary(tabled, table_lines)
               + compose_summary(files[os.path.join("compose_file", "stdout")])
               + author_summary(files[os.path.join("author", "stdout")]))
    return files, summary


def cases_of(groups):
    return [case for group in groups for case in group.cases]


def sample_summary(cases, lines):
    composed = Counter()
    for case, line in zip(cases, lines):
        if not line.startswith("refused"):
            row_pair = sum(1 for _ in composer.row_pair_samples(case.plan, 0))
            group = "random plans" if "random plan" in case.kind else "edge cases"
            composed[group] += case.count * row_pair
    return table("sample_vectors", cases, lines) + [
        "  composed samples: %d from random plans, %d from edge cases"
        % (composed["random plans"], composed["edge cases"])]


def night_summary(nights, lines):
    """Counts of openings and jobs by answer, then by kind of night."""
    openings, jobs, kinds = [], [], {}
    at = 0
    for night in nights:
        given = [night_answer_of(line) for line in lines[at:at + 1 + len(night.jobs)]]
        at += len(given) + 2
        openings.append(given[0])
        jobs += given[1:]
        kinds.setdefault(night.kind, []).append(given)
    out = ["night_vectors: %d nights, %d jobs" % (len(nights), len(jobs)),
           "  openings: " + counts(openings), "  jobs: " + counts(jobs)]
    for kind, found in kinds.items():
        out.append("  %5d %s (%s; %s)" % (
            len(found), kind, counts(given[0] for given in found),
            counts(answer for given in found for answer in given[1:])))
    return out


STEP_NAMES = {answers.OPEN: "openings", answers.PLAIN_JOB: "plain jobs", answers.TABLE_JOB: "table jobs",
              answers.FILL: "fillings"}


def table_summary(cases, lines):
    """Counts of openings, jobs and fillings by answer, then cases by kind."""
    given = {kind: [] for kind in STEP_NAMES}
    for case, shown in zip(cases, table_cases.lines_of(cases, lines)):
        for step, line in zip(case.steps, shown):
            if step.kind in given:
                given[step.kind].append(night_answer_of(line))
    out = ["table_vectors: %d cases, %d steps" % (len(cases), sum(len(case.steps) for case in cases))]
    out += ["  %s: %s" % (STEP_NAMES[kind], counts(found)) for kind, found in given.items()]
    return out + ["  %5d %s" % (number, kind) for kind, number in Counter(case.kind for case in cases).items()]


def compose_summary(said):
    found = [answer[-1] for answer in compose_cases.answers(said.decode("ascii").splitlines())]
    return ["compose_file: %d groups" % len(found), "  " + counts(found)]


def author_summary(said):
    found = [answer[-1] for answer in author_cases.answers(said.decode("ascii").splitlines())]
    return ["author: %d groups" % len(found), "  " + counts(found)]


def night_answer_of(line):
    """The line without its numbers, but for a refusal's; of a job also whether some row pairs are base only."""
    if line.startswith("refused"):
        return line
    first, *rest = line.split(", base only ")
    return first.split()[0] + (" with base only" if rest not in ([], ["0"]) else "")


def answer_of(line):
    if line == "7":
        return "refused 7"
    return " ".join(line.split()[:2]) if line.startswith("refused") else "accepted"


def table(title, cases, lines):
    """Counts by answer, then by kind of case."""
    out = ["%s: %d cases" % (title, len(cases))]
    out.append("  " + counts(answer_of(line) for line in lines))
    kinds = {}
    for case, line in zip(cases, lines):
        kinds.setdefault(case.kind, []).append(answer_of(line))
    for kind, given in kinds.items():
        out.append("  %5d %s (%s)" % (len(given), kind, counts(given)))
    return out


def counts(given):
    found = Counter(given)
    order = sorted(found, key=lambda name: (len(name), name))
    return ", ".join("%s: %d" % (name, found[name]) for name in order)


def write(outdir):
    files, summary = make(outdir)
    for path, data in files.items():
        put(os.path.join(outdir, path), data)
    print("\n".join(summary))


def check(outdir):
    """A message for the first stored file that is not as made, else None."""
    files, _ = make(outdir)
    for path, data in files.items():
        path = os.path.join(outdir, path)
        if not os.path.isfile(path):
            return "%s is missing" % path
        with open(path, "rb") as file:
            if file.read() != data:
                return "%s differs from what the second program gives" % path
    for path in data_files(outdir):
        if path not in files and os.path.basename(path) not in compose_cases.SOURCES:
            return "%s is none of the second program's files" % os.path.join(outdir, path)
    return None


def data_files(outdir):
    """What the programs are run on: a stray file there could be one that a case wants missing."""
    for crate in ("compose_file", "inspect", "author"):
        for at, _, names in os.walk(os.path.join(outdir, crate, "data")):
            for name in names:
                yield os.path.relpath(os.path.join(at, name), outdir)


def main():
    arguments = sys.argv[1:]
    if len(arguments) == 2 and arguments[0] == "--check":
        fault = check(arguments[1])
        if fault is not None:
            print("make_vectors: " + fault)
            sys.exit(1)
        print("make_vectors: the stored files are as the second program gives them")
    elif len(arguments) == 1 and not arguments[0].startswith("-"):
        write(arguments[0])
    else:
        sys.exit("usage: make_vectors.py [--check] OUTDIR")


if __name__ == "__main__":
    main()
