"""Damaged command lines and files through ./compose, ./inspect and ./author, and good ones between.

    python3 commands.py             over the proved programs, which are built where they are missing
    python3 commands.py second      over the second program, by way of second/bin

Of each command line of command_cases.py its exit status, all that it says on standard
error and every file in its folder afterwards is held to what is to come of it.
"""

import os
import shutil
import signal
import subprocess
import sys
import tempfile
import time
from concurrent.futures import ThreadPoolExecutor

import command_cases
import picture

HERE = os.path.dirname(os.path.abspath(__file__))
ROOT = os.path.dirname(HERE)
NOBODY = 65534
MOST_SECONDS = 60       # that a command line may take


def snapshot(folder):
    """{name: bytes of a file, or what else stands there}."""
    found = {}
    for at, folders, names in os.walk(folder):
        for name in folders + names:
            path = os.path.join(at, name)
            if os.path.islink(path):
                what = "link to " + os.readlink(path)
            elif os.path.isfile(path):
                what = picture.contents(path) if os.access(path, os.R_OK) else "closed"
            else:
                what = "folder" if os.path.isdir(path) else "pipe"
            found[os.path.relpath(path, folder)] = what
    return found


def give_away(folder):
    os.chown(folder, NOBODY, NOBODY)
    for at, folders, names in os.walk(folder):
        for name in folders + names:
            os.lchown(os.path.join(at, name), NOBODY, NOBODY)


def can_be_nobody():
    """Whether root can start the commands as nobody, who has to reach them; who is not root need not."""
    if os.getuid() != 0:
        return True
    if shutil.which("setpriv") is None:
        return False
    reached = as_nobody() + ["test", "-r", os.path.join(ROOT, "programs.sh")]
    return subprocess.run(reached, stderr=subprocess.DEVNULL).returncode == 0


def as_nobody():
    if os.getuid() != 0:
        return []
    return ["setpriv", "--reuid=%d" % NOBODY, "--regid=%d" % NOBODY, "--clear-groups"]


def fake_programs(folder, script):
    """A folder of programs that do what this script does."""
    os.mkdir(folder)
    for name in ("compose_file", "inspect", "author"):
        path = os.path.join(folder, name)
        with open(path, "w") as file:
            file.write("#!/bin/sh\n%s\n" % script)
        os.chmod(path, 0o755)
    return folder


def started(case, folder, environment):
    """Signals as they are by default: who runs this may ignore some, and a shell cannot trap those."""
    command = (as_nobody() if case.nobody else []) + case.before
    command += [os.path.join(ROOT, case.command[0])] + case.command[1:]
    prelude = [sys.executable, "-B", "-c", "import os, signal, sys\n"
               "for number in (1, 2, 13, 15, 25): signal.signal(number, signal.SIG_DFL)\n"
               "os.execvp(sys.argv[1], sys.argv[1:])"]
    return subprocess.Popen((prelude if case.kill else []) + command, cwd=folder, env=environment,
                            stdin=subprocess.DEVNULL, stdout=subprocess.PIPE, stderr=subprocess.PIPE,
                            start_new_session=True)


def run(case, room, programs):
    """What is wrong with this case, as text; None where nothing is."""
    folder = os.path.join(room, "folder")
    for name, data in {**command_cases.ROOM, **case.add}.items():
        path = os.path.join(folder, name)
        os.makedirs(os.path.dirname(path), exist_ok=True)
        with open(path, "wb") as file:
            file.write(data)
    if case.setup:
        case.setup(folder)
    if case.nobody and os.getuid() == 0:
        give_away(folder)
    before = snapshot(folder)
    environment = {name: value for name, value in os.environ.items() if name != "SINGKHAROP_PROGRAMS"}
    if case.programs is not None:
        programs = fake_programs(os.path.join(room, "programs"), case.programs)
    if programs is not None:
        environment["SINGKHAROP_PROGRAMS"] = programs
    process = started(case, folder, environment)
    try:
        if case.kill:
            wait_for(os.path.join(folder, "started"))
            process.send_signal(case.kill)
        said, errors = process.communicate(timeout=MOST_SECONDS)
    except subprocess.TimeoutExpired:
        os.killpg(process.pid, signal.SIGKILL)          # the command, and the program that it waits for
        process.communicate()
        return "hung"
    return fault(case, process.returncode, said, errors, before, snapshot(folder))


def wait_for(path):
    for _ in range(600):
        if os.path.exists(path):
            return
        time.sleep(0.05)


def fault(case, status, said, errors, before, after):
    wanted = {**before, **case.left}
    lines = b"".join(os.fsencode(line) + b"\n" for line in case.lines)
    if status != case.status:
        return "status %d, not %d; standard error: %r" % (status, case.status, errors)
    if errors != lines:
        return "standard error is %r, not %r" % (errors, lines)
    if set(after) != set(wanted):
        return "the files are %s, not %s" % (sorted(after), sorted(wanted))
    for name in wanted:
        if after[name] != wanted[name]:
            return "%r is not as it should be" % name
    if case.said is not None and not said.endswith(os.fsencode(case.said)):
        return "standard output is %r, not %r at its end" % (said, case.said)
    if case.exact and said != os.fsencode(case.said):
        return "standard output is %r, not %r alone" % (said, case.said)
    return None


def in_a_room(case, programs):
    room = tempfile.mkdtemp()
    os.chmod(room, 0o755)
    try:
        return run(case, room, programs)
    finally:
        subprocess.run(["chmod", "-R", "u+rwX", room], stderr=subprocess.DEVNULL)
        shutil.rmtree(room)


def build():
    """The proved programs are built before, as what is said of that is no answer to a command line."""
    with tempfile.TemporaryDirectory() as folder:
        names = [os.path.join(command_cases.DATA, name) for name in ("tiny.block", "tiny.yuv")]
        subprocess.run([os.path.join(ROOT, "compose"), *names, "none", os.path.join(folder, "out")],
                       stdout=subprocess.DEVNULL)
        subprocess.run([os.path.join(ROOT, "inspect"), "--rules"], stdout=subprocess.DEVNULL)
        subprocess.run([os.path.join(ROOT, "author"), "--text", names[0]], stdout=subprocess.DEVNULL)


def main():
    if sys.argv[1:] not in ([], ["second"]):
        sys.exit("usage: commands.py [second]")
    programs = os.path.join(HERE, "bin") if sys.argv[1:] else None
    cases = [case for case in command_cases.all_cases() if not case.nobody or can_be_nobody()]
    if programs is None:
        build()
    with ThreadPoolExecutor(max_workers=2) as pool:
        faults = list(pool.map(lambda case: in_a_room(case, programs), cases))
    for case, found in zip(cases, faults):
        if found is not None:
            print("commands: %r: %s" % ([word[:80] for word in case.command], found))
    if any(faults):
        sys.exit(1)
    print("commands: %d command lines, each with its status, its line and its files" % len(cases))


if __name__ == "__main__":
    main()
