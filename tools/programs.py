#!/usr/bin/env python3
"""programs.py NAME..: proves and builds these programs, where a source of theirs has changed, as target/bin/NAME.

rt builds a program only of a proved crate, as crates/NAME/out/NAME, and runs it once on no input. It is copied from there, so that a later
run of rt in that folder changes nothing of what is in use. tools/rimeheath.py calls this too.

programs.py --over-ci: takes all programs that `rt ci` has just proved, built and run, so that they are not proved once more. It is for
.ci/run, right behind an `rt ci` that passed; a program of which a source has changed since it was built is left to be built anew."""
import collections
import fcntl
import hashlib
import os
import re
import shutil
import signal
import subprocess
import sys
import time

ROOT = os.path.dirname(os.path.dirname(os.path.realpath(__file__)))
# The words without which a program says on no input what is wrong with them.
WORDS = {"converting": ["--to", "1.3.b"]}
# How rt begins to prove a crate that it has not proved yet.
BEGINS = re.compile(r"rt: chose --jobs \d+ for (\w+)\n")


class NotBuilt(Exception):
    """A program that cannot be made, and why."""


def tell(text):
    try:
        os.write(2, text.encode(errors="backslashreplace"))
    except OSError:
        pass


# The crates of this repository that the program is made of, in the order of crates.txt.
def crates_of(program):
    needs = {}
    with open(f"{ROOT}/crates.txt") as f:
        for line in f:
            name, colon, rest = line.split("#")[0].partition(":")
            if colon and name.split():
                needs[name.split()[0]] = rest.split()
    reached, todo = set(), [program]
    while todo:
        name = todo.pop()
        if name in needs and name not in reached:
            reached.add(name)
            todo += needs[name]
    return [name for name in needs if name in reached]


# The files that are proved and compiled for these crates.
def sources_of(crates):
    files = [f"{ROOT}/crates.txt"]
    for crate in crates:
        for part in ("src", "specs", "proofs"):
            for folder, _, names in os.walk(f"{ROOT}/crates/{crate}/{part}"):
                files += [f"{folder}/{n}" for n in names if n.endswith((".rt", ".antt"))]
    return sorted(f for f in files if os.path.isfile(f))


def sum_of_file(path):
    with open(path, "rb") as f:
        return hashlib.sha256(f.read()).hexdigest()


# A sum over all that is proved and compiled: contents, so that a file put back with an old time counts too.
def sum_of_sources(crates):
    lines = [f"{sum_of_file(f)} {os.path.relpath(f, ROOT)}" for f in sources_of(crates)]
    return hashlib.sha256("\n".join(lines).encode(errors="surrogateescape")).hexdigest()


# What stands in target/rimeheath/PROGRAM after a build: the sources from before it, and the program that came of it.
def record_of(program, sources):
    return f"{sources} {sum_of_file(f'{ROOT}/target/bin/{program}')}\n"


def is_built(program, sources):
    try:
        with open(f"{ROOT}/target/rimeheath/{program}") as f:
            return f.read() == record_of(program, sources)
    except OSError:
        return False


# A file's name gets what is whole, or nothing.
def put(path, write):
    os.makedirs(os.path.dirname(path), exist_ok=True)
    write(path + ".new")
    os.replace(path + ".new", path)


def make_ready(program):
    crates = crates_of(program)
    if is_built(program, sum_of_sources(crates)):
        return
    if not shutil.which("rt"):
        raise NotBuilt("no rt on the path, which proves and builds the program")
    os.makedirs(f"{ROOT}/target/rimeheath", exist_ok=True)
    with open(f"{ROOT}/target/rimeheath/lock", "w") as lock:
        try:
            fcntl.flock(lock, fcntl.LOCK_EX | fcntl.LOCK_NB)
        except BlockingIOError:
            tell("rimeheath: waiting for another rimeheath, which is building\n")
            fcntl.flock(lock, fcntl.LOCK_EX)
        sources = sum_of_sources(crates)
        if not is_built(program, sources):
            take(program, build(program, crates), sources)


# What is made of these sources becomes the program that is in use.
def take(program, made, sources):
    put(f"{ROOT}/target/bin/{program}", lambda path: shutil.copy(made, path))
    record = record_of(program, sources)

    def write(path):
        with open(path, "w") as f:
            f.write(record)

    put(f"{ROOT}/target/rimeheath/{program}", write)


# Has rt prove and build the program, and tells each crate that is being proved, in the order in which rt comes to them, and how long the one
# before it took. What rt has proved before it does not tell.
def build(program, crates):
    began = time.monotonic()
    last = None  # the crate that is being proved, and since when
    said = collections.deque(maxlen=20)

    def took():
        return f"; {last[0]} took {time.monotonic() - last[1]:.0f} s" if last else ""

    folder = f"{ROOT}/crates/{program}"
    words = ["rt", "run", *(["--", *WORDS[program]] if program in WORDS else [])]
    rt = subprocess.Popen(words, cwd=folder, stdin=subprocess.DEVNULL, stdout=subprocess.PIPE, stderr=subprocess.STDOUT,
                          start_new_session=True, text=True, errors="replace")
    try:
        for line in rt.stdout:
            said.append(line)
            begins = BEGINS.fullmatch(line)
            if begins and begins[1] in crates and (not last or last[0] != begins[1]):
                if not last:
                    tell(f"rimeheath: the program {program} has to be proved and built first; this takes some minutes\n")
                number = crates.index(begins[1]) + 1
                tell(f"rimeheath: proving {begins[1]} ({number} of {len(crates)}), {time.monotonic() - began:.0f} s so far{took()}\n")
                last = begins[1], time.monotonic()
        rt.wait()
    finally:
        if rt.poll() is None:
            os.killpg(rt.pid, signal.SIGTERM)  # its provers end with it
    made = f"{folder}/out/{program}"
    if rt.returncode != 0 or not os.access(made, os.X_OK):
        tell("".join(said))
        raise NotBuilt(f"the program {program} could not be built")
    if last:
        tell(f"rimeheath: proved and built, {time.monotonic() - began:.0f} s{took()}\n")
    return made


def over_ci():
    for program in sorted(os.listdir(f"{ROOT}/crates")):
        crates, made = crates_of(program), f"{ROOT}/crates/{program}/out/{program}"
        if program not in crates or not os.path.isfile(f"{ROOT}/crates/{program}/src/main.rt") or not os.access(made, os.X_OK):
            continue
        sources = sum_of_sources(crates)
        if any(os.stat(it).st_mtime_ns >= os.stat(made).st_mtime_ns for it in sources_of(crates)):
            tell(f"programs: a source of {program} has changed since rt ci built it\n")
            continue
        take(program, made, sources)
    return 0


def main(names):
    if names == ["--over-ci"]:
        return over_ci()
    if not names:
        tell("usage: python3 tools/programs.py NAME..|--over-ci\n")
        return 2
    for name in names:
        if not os.path.isfile(f"{ROOT}/crates/{name}/src/main.rt"):
            tell(f"programs: no program {name}\n")
            return 2
        try:
            make_ready(name)
        except NotBuilt as why:
            tell(f"programs: {why}\n")
            return 1
    return 0


# Ended from outside, it ends what it started.
def end_with_signals():
    for number in (signal.SIGTERM, signal.SIGHUP):
        if signal.getsignal(number) == signal.SIG_DFL:
            signal.signal(number, lambda n, _: sys.exit(128 + n))


if __name__ == "__main__":
    end_with_signals()
    try:
        sys.exit(main(sys.argv[1:]))
    except KeyboardInterrupt:
        sys.exit(130)
