"""The command lines that commands.py tries: for each its files, and what is to come of it.

What is said of files is built by words.py, inspect_block.py and author.py; what the commands say of themselves stands
here.
"""

import os
import signal
import struct
import zlib

import author
import author_cases
import block
import compose_cases
import inspect_block
import picture
import plan_text
import words

DATA = os.path.join(os.path.dirname(os.path.abspath(__file__)), "..", "crates", "compose_file", "data")

SOURCES = {name: picture.contents(os.path.join(DATA, name)) for name in compose_cases.SOURCES}
FILES = compose_cases.all_cases(SOURCES)[0]                 # the gate's files, by their names
BLOCK, BASE, ENHANCEMENT = FILES["small.block"], FILES["small.yuv"], FILES["small_enhancement.yuv"]
ROOM = {"block": BLOCK, "base.yuv": BASE, "enhancement.yuv": ENHANCEMENT}       # in every folder

USE_COMPOSE = "use: compose [--standby | --late] BLOCK BASE ENHANCEMENT OUTPUT   (compose --help says more)"
USE_INSPECT = ("use: inspect BLOCK... | inspect --plot OUT.svg BLOCK | inspect --rules"
               "   (inspect --help says more)")
USE_AUTHOR = "use: author TEXT BLOCK | author --text BLOCK   (author --help says more)"
PIPE = "%s: cannot be read: it is a pipe, and a file is needed"
LONG = "n" * 5000


class Case:
    """A command line, and what is to come of it."""

    def __init__(self, command, status=0, line=None, add=None, left=None, said=None, setup=None, before=(),
                 programs=None, nobody=False, kill=None, exact=False):
        self.command = command
        self.status = status
        self.lines = [line] if isinstance(line, str) else line or []
        self.add = add or {}                # files beside those of ROOM: {name: bytes}
        self.left = left or {}              # files that are there afterwards, new or with other bytes
        self.said = said                    # the end of standard output, where it is held to something
        self.exact = exact                  # whether there is nothing else on it
        self.setup = setup                  # makes what is no file, given the folder
        self.before = list(before)          # words before the command
        self.programs = programs            # a program's script in the place of the programs
        self.nobody = nobody                # not as root, who may read and write all
        self.kill = kill                    # a signal, once the program has made the file `started`


def samples(data):
    return list(struct.unpack("<%dH" % (len(data) // 2), data))


def composed(block_data, base, enhancement=None):
    """The bytes of all pictures, by the second program."""
    _, plan = block.read(block_data)
    size, out = 2 * plan.picture_samples, b""
    for at in range(0, len(base), size):
        runs = [samples(data[at:at + size]) for data in (base, enhancement or b"")]
        night = picture.Night(plan, 0, ["", ""], *runs)
        night.compose()
        out += compose_cases.raw(night.output)
    return out


def composed_late(block_data, base, enhancement=None):
    """Each picture twice: without the enhancement, and with it."""
    size = 2 * block.read(block_data)[1].picture_samples
    runs = composed(block_data, base), composed(block_data, base, enhancement)
    return b"".join(run[at:at + size] for at in range(0, len(base), size) for run in runs)


def compose(*names, **wanted):
    return Case(["compose", *names], **wanted)


def inspect(*names, **wanted):
    return Case(["inspect", *names], **wanted)


def write_text(*names, **wanted):
    return Case(["author", *names], **wanted)


def good(names, output, data, count=1, **wanted):
    """compose writes these bytes and says their Adler-32 last."""
    return compose(*names, left={output: data}, **wanted, said="%s: %s, Adler-32 %d\n" % (
        names[-1], picture.pictures(count), zlib.adler32(data)))


def bad(names, line, **wanted):
    return compose(*names, status=1, line=line, **wanted)


def on_output(output, why, **wanted):
    return bad(["block", "base.yuv", "none", output], "%s: cannot be written: %s" % (output, why), **wanted)


def make(*calls):
    """A setup: calls of os by name, with paths in the folder: ("mkfifo", "pipe")."""
    def setup(folder):
        for name, *given in calls:
            getattr(os, name)(*(os.path.join(folder, word) if isinstance(word, str) else word for word in given))
    return setup


# compose --------------------------------------------------------------------

def use_cases():
    wrong = [[], ["--standby"], ["block"], ["block", "base.yuv", "out.yuv"], ["--standby", "block", "base.yuv", "none"],
             ["block", "base.yuv", "none", "out.yuv", "more"], ["block", "base.yuv", "none", "out.yuv", "--standby"],
             ["--fast", "block", "base.yuv", "none", "out.yuv"], ["-s", "block", "base.yuv", "none", "out.yuv"],
             ["--standby", "--standby", "block", "base.yuv", "none", "out.yuv"], ["--"],
             ["--", "block", "base.yuv", "out.yuv"], ["-block", "base.yuv", "none", "out.yuv"],
             ["--late"], ["--late", "block", "base.yuv", "none"], ["--late", "--"],
             ["--late", "block", "base.yuv", "none", "out.yuv", "more"],
             ["block", "base.yuv", "none", "out.yuv", "--late"],
             ["--standby", "--late", "block", "base.yuv", "none", "out.yuv"],
             ["--late", "--standby", "block", "base.yuv", "none", "out.yuv"],
             ["--late", "--late", "block", "base.yuv", "none", "out.yuv"],
             ["--standby", "--late", "base.yuv", "none", "out.yuv"],
             ["--later", "block", "base.yuv", "none", "out.yuv"]]
    return [compose(*names, status=2, line=USE_COMPOSE) for names in wrong] + [
        compose("--help", said="./compose --standby crates/compose_file/data/block "
                               "crates/compose_file/data/base.yuv none hdr.yuv\n")]


def good_cases():
    plain, enhanced = composed(BLOCK, BASE), composed(BLOCK, BASE, ENHANCEMENT)
    eight = composed(FILES["eight_bit.block"], FILES["eight_bit.yuv"])
    second, mmr = {"two": FILES["version_two.block"]}, {"mmr": FILES["mmr.block"]}
    latin = os.fsdecode(b"\xe9t\xe9.yuv")
    return [
        good(["block", "base.yuv", "none", "out.yuv"], "out.yuv", plain),
        good(["block", "base.yuv", "enhancement.yuv", "out.yuv"], "out.yuv", enhanced),
        good(["--standby", "block", "base.yuv", "enhancement.yuv", "out.yuv"], "out.yuv", enhanced),
        good(["--standby", "--", "block", "base.yuv", "none", "out.yuv"], "out.yuv", plain),
        good(["block", "two.yuv", "two.yuv", "out.yuv"], "out.yuv",
             composed(BLOCK, FILES["two.yuv"], FILES["two.yuv"]), 2, add={"two.yuv": FILES["two.yuv"]}),
        good(["eight", "base8.yuv", "none", "out.yuv"], "out.yuv", eight,
             add={"eight": FILES["eight_bit.block"], "base8.yuv": FILES["eight_bit.yuv"]}),
        good(["zeros", "base.yuv", "none", "out.yuv"], "out.yuv", plain, add={"zeros": FILES["behind_zeros.block"]}),
        good(["two", "base.yuv", "none", "out.yuv"], "out.yuv", composed(second["two"], BASE), add=second),
        good(["--standby", "two", "base.yuv", "enhancement.yuv", "out.yuv"], "out.yuv",
             composed(second["two"], BASE, ENHANCEMENT), add=second),
        good(["alike", "base.yuv", "none", "out.yuv"], "out.yuv", plain, add={"alike": FILES["alike_two.block"]}),
        good(["mmr", "base.yuv", "none", "out.yuv"], "out.yuv", composed(mmr["mmr"], BASE), add=mmr),
        good(["--standby", "mmr", "base.yuv", "enhancement.yuv", "out.yuv"], "out.yuv",
             composed(mmr["mmr"], BASE, ENHANCEMENT), add=mmr),
        good(["mmr", "base.yuv", "none", "base.yuv"], "base.yuv", composed(mmr["mmr"], BASE), add=mmr),
        good(["flag", "base.yuv", "missing.yuv", "out.yuv"], "out.yuv", plain, add={"flag": FILES["flag.block"]}),
        good(["block", "base.yuv", "none", "base.yuv"], "base.yuv", plain),
        good(["block", "base.yuv", "base.yuv", "base.yuv"], "base.yuv", composed(BLOCK, BASE, BASE)),
        good(["block", "base.yuv", "none", "old.yuv"], "old.yuv", plain, add={"old.yuv": b"an older picture"}),
        good(["a block", "my base.yuv", "none", "my out.yuv"], "my out.yuv", plain,
             add={"a block": BLOCK, "my base.yuv": BASE}),
        good(["--", "-block", "-base", "none", "-out"], "-out", plain, add={"-block": BLOCK, "-base": BASE}),
        good(["block", "--help", "none", "--standby"], "--standby", plain, add={"--help": BASE}),
        good(["--", "--standby", "base.yuv", "none", "out.yuv"], "out.yuv", plain, add={"--standby": BLOCK}),
        good(["block", "line\nend.yuv", "none", "out\n.yuv"], "out\n.yuv", plain, add={"line\nend.yuv": BASE}),
        good(["block", latin, "none", latin + ".hdr"], latin + ".hdr", plain, add={latin: BASE}),
        good(["block", "none", "none", "out.yuv"], "out.yuv", plain, add={"none": BASE}),
        good(["./block", "folder/../base.yuv", "none", "folder/out.yuv"], "folder/out.yuv", plain,
             add={"folder/x": b""}),
        good(["/dev/stdin", "base.yuv", "none", "out.yuv"], "out.yuv", plain,
             before=["sh", "-c", 'exec "$@" <block', "sh"]),
    ]


def late_cases():
    """--late: twice as many pictures, and every job is said; a file may have that name."""
    late, plain = composed_late(BLOCK, BASE, ENHANCEMENT), composed(BLOCK, BASE)
    flag, mmr, two = ({name: FILES[name + ".block"]} for name in ("flag", "mmr", "version_two"))
    pair = {"two.yuv": FILES["two.yuv"]}
    bad_one = {"large_cr.yuv": FILES["large_cr.yuv"]}
    return [
        good(["--late", "block", "base.yuv", "enhancement.yuv", "out.yuv"], "out.yuv", late, 2),
        good(["--late", "--", "block", "base.yuv", "enhancement.yuv", "out.yuv"], "out.yuv", late, 2),
        good(["--late", "block", "base.yuv", "none", "out.yuv"], "out.yuv", plain + plain, 2),
        good(["--late", "flag", "base.yuv", "missing.yuv", "out.yuv"], "out.yuv", plain + plain, 2, add=flag),
        good(["--late", "block", "two.yuv", "two.yuv", "out.yuv"], "out.yuv",
             composed_late(BLOCK, pair["two.yuv"], pair["two.yuv"]), 4, add=pair),
        good(["--late", "mmr", "base.yuv", "enhancement.yuv", "out.yuv"], "out.yuv",
             composed_late(mmr["mmr"], BASE, ENHANCEMENT), 2, add=mmr),
        good(["--late", "version_two", "base.yuv", "enhancement.yuv", "out.yuv"], "out.yuv",
             composed_late(two["version_two"], BASE, ENHANCEMENT), 2, add=two),
        good(["--late", "block", "base.yuv", "enhancement.yuv", "base.yuv"], "base.yuv", late, 2),
        good(["--late", "block", "base.yuv", "none", "--late"], "--late", plain + plain, 2),
        good(["--", "--late", "base.yuv", "none", "out.yuv"], "out.yuv", plain, add={"--late": BLOCK}),
        good(["--late", "--", "--late", "base.yuv", "enhancement.yuv", "out.yuv"], "out.yuv", late, 2,
             add={"--late": BLOCK}),
        good(["--late", "--", "--standby", "base.yuv", "none", "out.yuv"], "out.yuv", plain + plain, 2,
             add={"--standby": BLOCK}),
        good(["--standby", "--", "--late", "base.yuv", "none", "out.yuv"], "out.yuv", plain, add={"--late": BLOCK}),
        bad(["--", "--late", "base.yuv", "none", "out.yuv"], "./--late: cannot be read: no such file or folder"),
        bad(["--late", "block", "base.yuv", "large_cr.yuv", "out.yuv"],
            words.refused("large_cr.yuv", 11, "picture 0, Cr row 8 column 3 is 4096, allowed less than 1024"),
            add=bad_one),
        bad(["--late", "block", "large_cr.yuv", "enhancement.yuv", "out.yuv"],
            words.refused("large_cr.yuv", 11, "picture 0, Cr row 8 column 3 is 4096, allowed less than 1024"),
            add=bad_one),
        bad(["--late", "block", "missing", "none", "out.yuv"], "missing: cannot be read: no such file or folder"),
        bad(["--late", "block", "base.yuv", "none", "out.yuv"], words.unwritten("out.yuv", 17),
            add={"out.yuv.part": b"half a picture"}),
        # 1,024 bytes or 2,048, by the shell: two pictures have 3,456
        bad(["--late", "block", "base.yuv", "none", "out.yuv"], "out.yuv: cannot be written: error 27",
            before=["sh", "-c", 'ulimit -f 2; exec "$@"', "sh"]),
    ]


def link_cases():
    """The link stays, and what it leads to is written; the program says the file's whole name."""
    plain = composed(BLOCK, BASE)
    words_in = ["block", "base.yuv", "none", "link"]
    return [
        compose(*words_in, left={"folder/old.yuv": plain}, add={"folder/old.yuv": b"old"},
                setup=make(("symlink", "folder/old.yuv", "link"))),
        compose(*words_in, left={"new.yuv": plain}, setup=make(("symlink", "new.yuv", "link"))),
        on_output("link", "it is a link that leads nowhere", setup=make(("symlink", "missing/new.yuv", "link"))),
        on_output("link", "it is a link that leads nowhere", setup=make(("symlink", "link", "link"))),
        on_output("link", "it is no regular file", setup=make(("mkdir", "folder"), ("symlink", "folder", "link"))),
    ]


def output_cases():
    def in_the_way(name):
        return words.unwritten(name, 17).split(": cannot be written: ")[1]
    return [
        # never as root, for whom a compose with a fault would put its picture in the device's place
        on_output("/dev/null", "it is no regular file", nobody=True),
        on_output("/dev/full", "it is no regular file", nobody=True),
        on_output(".", "it is no regular file"),
        on_output("folder", "it is no regular file", setup=make(("mkdir", "folder"))),
        on_output("folder/", "it is no regular file", setup=make(("mkdir", "folder"))),
        on_output("pipe", "it is no regular file", setup=make(("mkfifo", "pipe"))),
        on_output("missing/out.yuv", "no such file or folder"),
        on_output("block/out.yuv", "a folder of its path is a file"),
        on_output("block/", "a folder of its path is a file"),
        on_output("", "no such file or folder"),
        on_output("n" * 251, "error 36"),                   # the name would do, and with .part it does not
        on_output(LONG, "error 36"),
        on_output("out.yuv", in_the_way("out.yuv"), add={"out.yuv.part": b"half a picture"}),
        on_output("out.yuv", in_the_way("out.yuv"), setup=make(("mkdir", "out.yuv.part"))),
        on_output("out.yuv", in_the_way("out.yuv"), setup=make(("symlink", "missing", "out.yuv.part"))),
        bad(["block", "out.yuv.part", "none", "out.yuv"], words.unwritten("out.yuv", 17), add={"out.yuv.part": BASE}),
        bad(["block", "two.yuv", "none", "out.yuv"], "out.yuv: cannot be written: error 27",
            add={"two.yuv": FILES["two.yuv"]}, before=["sh", "-c", 'ulimit -f 2; exec "$@"', "sh"]),
        on_output("folder/out.yuv", "no permission", nobody=True, add={"folder/x": b""},
                  setup=make(("chmod", "folder", 0o555))),
    ]


def refused_block_cases():
    out = [bad(["bad", "base.yuv", "none", "out.yuv"], inspect_block.inspect("bad", FILES[name])[-2],
               add={"bad": FILES[name]})
           for name in ("eleven.block", "cut.block", "version.block", "one_as_two.block", "left_over.block",
                        "profile.block", "profile_behind_zeros.block", "far.block", "too_far.block",
                        "coefficient.block", "method.block", "luma_mmr.block")]
    short = words.refused("bad", 1, "0 bytes, allowed 12 or more")
    out.append(bad(["bad", "base.yuv", "none", "out.yuv"], short, add={"bad": b""}))
    out.append(bad(["/dev/null", "base.yuv", "none", "out.yuv"], short.replace("bad", "/dev/null", 1)))
    # a picture in the block's place, and the other way round
    out.append(bad(["base.yuv", "block", "none", "out.yuv"], inspect_block.inspect("base.yuv", BASE)[-2]))
    out.append(bad(["block", "block", "none", "out.yuv"],
                   words.refused("block", 9, "%d bytes, allowed 1728 for each picture" % len(BLOCK))))
    return out


def refused_picture_cases():
    def run(base, size, **wanted):
        return bad(["block", base, "none", "out.yuv"],
                   words.refused(base, 9, "%d bytes, allowed 1728 for each picture" % size), **wanted)

    def sample(base, enhancement, name, found):
        return bad(["block", base, enhancement, "out.yuv"], words.refused(name, 11, found + ", allowed less than 1024"),
                   add={given: FILES[given] for given in (base, enhancement) if given in FILES})

    cases = [run("cut.yuv", size, add={"cut.yuv": BASE[:size]}) for size in (0, 1, 864, 1727)]
    cases += [run("long.yuv", 1729, add={"long.yuv": BASE + b"\0"}), run("/dev/null", 0), run("/dev/zero", 0)]
    cases += [bad(["block", "base.yuv", "other.yuv", "out.yuv"],
                  words.refused("other.yuv", 9, "%d bytes, allowed 1728, as the base has" % size),
                  add={"other.yuv": bytes(size)}) for size in (0, 1726, 3456)]
    return cases + [
        sample("large_y.yuv", "none", "large_y.yuv", "picture 0, Y row 0 column 0 is 1024"),
        sample("large_cb.yuv", "none", "large_cb.yuv", "picture 0, Cb row 17 column 7 is 65535"),
        sample("large_cr.yuv", "none", "large_cr.yuv", "picture 0, Cr row 8 column 3 is 4096"),
        # without --standby the whole band is one job: Y comes first
        sample("large_all.yuv", "none", "large_all.yuv", "picture 0, Y row 30 column 1 is 1025"),
        sample("base.yuv", "large_cb.yuv", "large_cb.yuv", "picture 0, Cb row 17 column 7 is 65535"),
        sample("large_cr.yuv", "large_y.yuv", "large_cr.yuv", "picture 0, Cr row 8 column 3 is 4096"),
        sample("large_later.yuv", "none", "large_later.yuv", "picture 1, Y row 35 column 15 is 2048"),
        bad(["--standby", "block", "large\nname.yuv", "none", "out.yuv"],
            words.refused("name.yuv", 11, "picture 0, Cb row 3 column 0 is 1026, allowed less than 1024"),
            add={"large\nname.yuv": FILES["large_all.yuv"]}),
    ]


def unread_cases():
    """Each of the three files missing, a folder, a pipe, unreadable, under a name that is too long."""
    cases = []
    for place in range(3):
        def named(name):
            given = ["block", "base.yuv", "enhancement.yuv", "out.yuv"]
            given[place] = name
            return given
        cases += [
            bad(named("missing"), "missing: cannot be read: no such file or folder"),
            bad(named("block/x"), "block/x: cannot be read: a folder of its path is a file"),
            bad(named(""), ": cannot be read: no such file or folder"),
            bad(named("."), ".: cannot be read: it is a folder"),
            bad(named(LONG), LONG + ": cannot be read: error 36"),
            bad(named("pipe"), PIPE % "pipe", setup=make(("mkfifo", "pipe"))),
            bad(named("closed"), "closed: cannot be read: no permission", nobody=True, add={"closed": BASE},
                setup=make(("chmod", "closed", 0))),
        ]
    latin = os.fsdecode(b"\xff\xfe")
    return cases + [
        bad(["block", latin, "none", "out.yuv"], latin + ": cannot be read: no such file or folder"),
        bad(["block", "a\nname", "none", "out.yuv"], "name: cannot be read: no such file or folder"),
        bad(["block", "%s\\n$(x)", "none", "out.yuv"], "%s\\n$(x): cannot be read: no such file or folder"),
        bad(["block", "/dev/stdin", "none", "out.yuv"], PIPE % "/dev/stdin",
            before=["sh", "-c", 'cat base.yuv | "$@"', "sh"]),
    ]


def stopped_cases():
    """Programs that are ended from outside: OUTPUT.part goes where compose's own start made it."""
    given = ["block", "base.yuv", "none", "out.yuv"]
    ended = 'echo "1 picture of 16 x 36"; : >"$4.part"; kill -%d $$'
    slow = ': >>"$4.part"; : >started; exec sleep 60'
    cases = [bad(given, "compose: the program was ended before it was done (status %d)" % (128 + number),
                 programs=ended % number, said="1 picture of 16 x 36\n") for number in (9, 15)]
    for number in (signal.SIGHUP, signal.SIGINT, signal.SIGTERM):
        cases.append(compose(*given, status=128 + number, kill=number, programs=slow, left={"started": b""}))
    cases.append(compose(*given, status=143, kill=signal.SIGTERM, programs=slow, left={"started": b""},
                         add={"out.yuv.part": b"of another"}))
    return cases


# inspect --------------------------------------------------------------------

def shown(*given):
    """What inspect says where all is shown."""
    files = {**ROOM, **FILES, "./--rules": BLOCK}
    return "".join(line + "\n" for name in given for line in inspect_block.answer([name], files.__getitem__)[:-1])


def inspect_cases():
    wrong = [[], ["--"], ["--plot"], ["--plot", "out.svg"], ["--plot", "out.svg", "block", "block"],
             ["--rules", "block"], ["--fast", "block"], ["-b"], ["--plot", "--", "out.svg"]]
    return [inspect(*given, status=2, line=USE_INSPECT) for given in wrong] + [
        inspect("--help", said="./inspect --plot mappings.svg crates/compose_file/data/block\n"),
        inspect("--rules", said=shown("--rules")),
        inspect("block", said=shown("block")),
        inspect("version_two.block", said=shown("version_two.block"), exact=True,
                add={"version_two.block": FILES["version_two.block"]}),
        inspect("mmr.block", said=shown("mmr.block"), exact=True, add={"mmr.block": FILES["mmr.block"]}),
        inspect("block", "small.block", said=shown("block", "small.block"), add={"small.block": BLOCK}),
        inspect("--", "block", "--rules", said=shown("block", "./--rules"), add={"--rules": BLOCK}),
        inspect("block", "missing", "eleven.block", "block", "pipe", "block", status=1, said=shown("block") * 3,
                line=["missing: cannot be read: no such file or folder",
                      inspect_block.inspect("eleven.block", FILES["eleven.block"])[-2], PIPE % "pipe"],
                add={"eleven.block": FILES["eleven.block"]}, setup=make(("mkfifo", "pipe"))),
    ] + [inspect(name, status=1, line=inspect_block.inspect(name, FILES[name])[-2], add={name: FILES[name]})
         for name in ("eleven.block", "cut.block", "version.block", "one_as_two.block", "left_over.block",
                      "profile_behind_zeros.block", "far.block", "too_far.block", "coefficient.block", "method.block",
                      "luma_mmr.block", "empty")] + [
        inspect(".", status=1, line=".: cannot be read: it is a folder"),
        inspect("", status=1, line=": cannot be read: no such file or folder"),
        inspect("block/x", status=1, line="block/x: cannot be read: a folder of its path is a file"),
        inspect(LONG, status=1, line=LONG + ": cannot be read: error 36"),
        inspect("closed", status=1, line="closed: cannot be read: no permission", nobody=True, add={"closed": BLOCK},
                setup=make(("chmod", "closed", 0))),
        inspect("block", status=1, line="inspect: the program was ended before it was done (status 137)",
                programs="kill -9 $$"),
    ]


def plot_cases():
    def drawn(data):
        return "".join(line + "\n" for line in inspect_block.inspect("", data, plotted=True)[:-1]).encode()

    svg, second = drawn(BLOCK), FILES["version_two.block"]

    def refused(output, why, **wanted):
        return inspect("--plot", output, "block", status=1, line="%s: cannot be written: %s" % (output, why), **wanted)
    return [
        inspect("--plot", "out.svg", "block", left={"out.svg": svg}, said="out.svg: written\n"),
        inspect("--plot", "old.svg", "block", left={"old.svg": svg}, add={"old.svg": b"older"}),
        inspect("--plot", "out.svg", "two", left={"out.svg": drawn(second)}, add={"two": second}),
        inspect("--plot", "--", "-out.svg", "block", left={"-out.svg": svg}),
        inspect("--plot", "a b.svg", "--plot", left={"a b.svg": svg}, add={"--plot": BLOCK}),
        inspect("--plot", "link", "block", left={"new.svg": svg}, setup=make(("symlink", "new.svg", "link"))),
        inspect("--plot", "out.svg", "mmr", left={"out.svg": drawn(FILES["mmr.block"])},
                add={"mmr": FILES["mmr.block"]}),
        inspect("--plot", "out.svg", "bad", status=1, line=inspect_block.inspect("bad", FILES["method.block"])[-2],
                add={"bad": FILES["method.block"]}),
        inspect("--plot", "out.svg", "missing", status=1, line="missing: cannot be read: no such file or folder"),
        inspect("--plot", "out.svg", "pipe", status=1, line=PIPE % "pipe", setup=make(("mkfifo", "pipe"))),
        refused("/dev/null", "it is no regular file", nobody=True),
        refused(".", "it is no regular file"),
        refused("missing/out.svg", "no such file or folder"),
        refused("block/out.svg", "a folder of its path is a file"),
        refused("out.svg", "out.svg.part is in the way: remove it", add={"out.svg.part": b"x"}),
        refused("folder/out.svg", "no permission", nobody=True, add={"folder/x": b""},
                setup=make(("chmod", "folder", 0o555))),
    ]


# author ---------------------------------------------------------------------

TEXT = author_cases.joined(author_cases.LINES)
SECOND_TEXT = author_cases.joined(author_cases.SECOND_LINES)
MMR_TEXT = author_cases.joined(author_cases.MMR_LINES)
TEXT_BLOCK, SECOND_TEXT_BLOCK, MMR_TEXT_BLOCK = (
    plan_text.read_text(text).data for text in (TEXT, SECOND_TEXT, MMR_TEXT))
TEXTS = {"text": TEXT}


def authored(names, output, data=TEXT_BLOCK, **wanted):
    """author writes the block of the text `text` and says its Adler-32 last."""
    said = "%s: %d bytes, Adler-32 %d\n" % (names[-1], len(data), zlib.adler32(data))
    return write_text(*names, left={output: data}, said=said, exact=True, **{"add": TEXTS, **wanted})


def author_use_cases():
    wrong = [[], ["text"], ["text", "out", "more"], ["--text"], ["--text", "block", "out"], ["--"], ["--", "text"],
             ["-t", "block"], ["--show", "block"], ["--text", "--"]]
    return [write_text(*given, status=2, line=USE_AUTHOR) for given in wrong] + [
        write_text("--help", said="./author plan.txt block\n")]


def author_good_cases():
    shown = "".join(line + "\n" for line in plan_text.plan_lines(block.read(BLOCK)[1]))
    return [
        authored(["text", "out"], "out"),
        authored(["--", "text", "out"], "out"),
        authored(["text", "old"], "old", add={**TEXTS, "old": b"an older block"}),
        authored(["text", "text"], "text"),
        authored(["two", "out"], "out", SECOND_TEXT_BLOCK, add={"two": SECOND_TEXT}),
        authored(["mmr", "out"], "out", MMR_TEXT_BLOCK, add={"mmr": MMR_TEXT}),
        authored(["a text", "a block"], "a block", add={"a text": TEXT}),
        authored(["--", "--text", "--text"], "--text", add={"--text": TEXT}),
        authored(["text", "line\nend"], "line\nend"),
        write_text("text", "link", add=TEXTS, left={"new": TEXT_BLOCK}, setup=make(("symlink", "new", "link"))),
        authored(["/dev/stdin", "out"], "out", before=["sh", "-c", 'exec "$@" <text', "sh"]),
        write_text("--text", "block", said=shown, exact=True),
        write_text("--text", "--", "--text", said=shown, exact=True, add={"--text": BLOCK}),
        write_text("--text", "behind", said=shown, exact=True, add={"behind": FILES["behind_zeros.block"]}),
        write_text("--text", "two", said=SECOND_TEXT.decode(), exact=True, add={"two": SECOND_TEXT_BLOCK}),
        write_text("--text", "mmr", said=MMR_TEXT.decode(), exact=True, add={"mmr": MMR_TEXT_BLOCK}),
    ]


def author_bad_cases():
    """Refused texts and blocks, and files that cannot be read or written; no file is left behind."""
    def unmade(text_name, output, line, **wanted):
        return write_text(text_name, output, status=1, line=line, **{"add": TEXTS, **wanted})

    def unwritten(output, why, **wanted):
        return unmade("text", output, "%s: cannot be written: %s" % (output, why), **wanted)

    def unshown(name, line, **wanted):
        return write_text("--text", name, status=1, line=line, said="", exact=True, **wanted)

    chosen = ("line_missing", "two_spaces", "minus_zero", "digits", "component", "empty", "too_long", "profile",
              "method", "version", "version_0", "piece_missing", "piece_more", "method_above", "mmr_coef_missing",
              "mmr_large_constant", "mmr_order", "mmr_constant", "mmr_coef_part", "luma_mmr", "mmr_digits")
    bad = {name: author_cases.bad_texts()[name][0] for name in chosen}
    taken = words.unwritten("out", 17, "author").split(": cannot be written: ")[1]
    return [unmade(name + ".txt", "out", refusal_of(name + ".txt", text), add={name + ".txt": text})
            for name, text in bad.items()] + [
        unmade("bad.txt", "old", refusal_of("bad.txt", b"version\n"), add={"bad.txt": b"version\n", "old": b"old"}),
        unmade("missing", "out", "missing: cannot be read: no such file or folder"),
        unmade(".", "out", ".: cannot be read: it is a folder"),
        unmade("pipe", "out", PIPE % "pipe", setup=make(("mkfifo", "pipe"))),
        unmade("closed", "out", "closed: cannot be read: no permission", nobody=True, add={"closed": TEXT},
               setup=make(("chmod", "closed", 0))),
        unmade("/dev/zero", "out", refusal_of("/dev/zero", b"")),
        unwritten("/dev/null", "it is no regular file", nobody=True),
        unwritten("folder", "it is no regular file", setup=make(("mkdir", "folder"))),
        unwritten("missing/out", "no such file or folder"),
        unwritten("", "no such file or folder"),
        unwritten("out", taken, add={**TEXTS, "out.part": b"half a block"}),
        unwritten("link", "it is a link that leads nowhere", setup=make(("symlink", "missing/new", "link"))),
        unwritten("folder/out", "no permission", nobody=True, add={**TEXTS, "folder/x": b""},
                  setup=make(("chmod", "folder", 0o555))),
        unshown("missing", "missing: cannot be read: no such file or folder"),
        unshown("pipe", PIPE % "pipe", setup=make(("mkfifo", "pipe"))),
        unshown("bad", inspect_block.inspect("bad", FILES["method.block"])[-2], add={"bad": FILES["method.block"]}),
    ]


def refusal_of(name, text):
    """The line about a text that is refused."""
    try:
        author.made_of(name, text)
    except picture.NotWritten as why:
        return str(why)


def author_stopped_cases():
    """BLOCK.part goes where author's own start made it."""
    ended, slow = ': >"$2.part"; kill -9 $$', ': >>"$2.part"; : >started; exec sleep 60'
    return [
        write_text("text", "out", status=1, line="author: the program was ended before it was done (status 137)",
                   programs=ended, add=TEXTS),
        write_text("text", "out", status=143, kill=signal.SIGTERM, programs=slow, left={"started": b""}, add=TEXTS),
        write_text("text", "out", status=130, kill=signal.SIGINT, programs=slow, left={"started": b""},
                   add={**TEXTS, "out.part": b"of another"}),
        write_text("--text", "block", status=1, said="", exact=True,
                   line="author: the program was ended before it was done (status 137)", programs="kill -9 $$"),
    ]


def all_cases():
    return (use_cases() + good_cases() + late_cases() + link_cases() + output_cases() + refused_block_cases()
            + refused_picture_cases() + unread_cases() + stopped_cases() + inspect_cases() + plot_cases()
            + author_use_cases() + author_good_cases() + author_bad_cases() + author_stopped_cases())
