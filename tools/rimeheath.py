# The command ./rimeheath: reads the words, sees that the proved program behind them is built (programs.py), and feeds it a recording.
# What is printed of a recording is the proved program's output, byte for byte, and none of it before the recording was read to its end.
import fcntl
import os
import re
import signal
import stat
import subprocess
import sys
import tempfile
import threading
import time

sys.dont_write_bytecode = True
from programs import NotBuilt, end_with_signals, make_ready, tell  # noqa: E402

ROOT = os.path.dirname(os.path.dirname(os.path.realpath(__file__)))
# The program `sheet` says the same of itself; tools/try-command holds them to each other.
VERSION = "rimeheath 1.0, for DoM 1.3, 1.3.a and 1.3.b\n"
EDITIONS = ("1.3", "1.3.a", "1.3.b")
MOST_ID = 4294967295
MOST_NAMES = 1000
BLOCK = 65536
IN_MEMORY = 1 << 26  # longer outputs wait on disk

USAGE = """\
usage: ./rimeheath sheet   [--edition 1.3|1.3.a|1.3.b] [--progress] [RECORDING]
       ./rimeheath answers [--edition 1.3|1.3.a|1.3.b] [--progress] [RECORDING]
       ./rimeheath read    [--edition 1.3|1.3.a|1.3.b] [--progress] [RECORDING]
       ./rimeheath convert --to 1.3|1.3.a|1.3.b [--type E|F|NAME=E|NAME=F ..]
                           [--edition 1.3|1.3.a|1.3.b] [--progress] [RECORDING]
       ./rimeheath --help | --version

sheet    prints the order book that a recording leaves, as an answer sheet
answers  prints the receiver's answer to each packet, then the tables and views
read     prints what each packet holds, record by record
convert  makes of a recording of one edition a recording of the other
"""

COMMON = """
A recording is packets, each behind its length in two bytes, low byte first. It
is read from the file RECORDING, or from standard input. Nothing is printed
before it has been read to its end.

  --edition   names the edition of the recording: 1.3, where byte 20 of a Symbol
              Update is the security type, 'E' or 'F'; or 1.3.a or 1.3.b, where
              that byte is reserved, as where no edition is named; but convert
              takes a recording to be of the other one than --to then
  --progress  tells on standard error how many MB have been read, and how many
              percent where the size is known; a terminal is told unasked, where
              the reading takes longer than a second
  --help      prints this
  --version   prints the version

The program behind each command is proved and built on first use, which takes
some minutes, and again where its sources have changed.

The status is 0 where all was printed, 1 where it was not and standard error
says why, and 2 where the words are wrong.
"""

SHEET = """\
usage: ./rimeheath sheet [--edition 1.3|1.3.a|1.3.b] [--progress] [RECORDING]

Prints the order book that a recording leaves, as an answer sheet: whether the
recording is whole or cut, bad packets, next, stop, second, and each symbol with
its ladders, in 1.3 with its security type too. A packet that the recording cuts
off is not taken.
"""

ANSWERS = """\
usage: ./rimeheath answers [--edition 1.3|1.3.a|1.3.b] [--progress] [RECORDING]

Prints the receiver's answer to each packet: records taken, old, too far,
repeated, differing; next, applied, highest on the shelf, stop; or 'refused' and
the number and, but for 1, 'at' and the offset of the first byte at fault, from
0 in the packet. Then the second, the rows, the entries, and each symbol's
levels and spread. A packet that the recording cuts off is left out.
"""

READ = """\
usage: ./rimeheath read [--edition 1.3|1.3.a|1.3.b] [--progress] [RECORDING]

Prints what each packet holds: 'records' and how many, and for each record a
line with its sequence number, its type byte and its fields in the order of
their places, in 1.3 the security type too; or 'refused' and the number and, but
for 1, 'at' and the offset of the first byte at fault, from 0 in the packet,
then which record that is, from 1, and what is wrong there. A packet that the
recording cuts off is left out.
"""

CONVERT = """\
usage: ./rimeheath convert --to 1.3 --type E|F [--type NAME=E|F ..]
                           [--edition 1.3|1.3.a|1.3.b] [--progress] [RECORDING]
       ./rimeheath convert --to 1.3.a|1.3.b
                           [--edition 1.3|1.3.a|1.3.b] [--progress] [RECORDING]

Prints a recording of one edition as one of the other: byte 20 of each Symbol
Update becomes its security type, or 0 where it is reserved. Packets that neither
the recording's edition nor the one wanted takes are passed on unread. From 1.3
to 1.3.b a packet that only 1.3 refuses is barred: a test indicator becomes 0, so
that 1.3.b refuses it too. All else stays as it is: each length, and what is cut
off at the end. Standard error tells how many
Symbol Updates were rewritten, and how many packets passed on unread or barred.

  --to        names the edition that is wanted
  --type      is for 1.3: with E or F the type of all symbols, which is wanted
              once; with a name, = and E or F, that of one symbol, at most 1,000
              times. A name has 1 to 11 bytes from 33 to 126: one of digits alone
              is a symbol ID, up to 4294967295, and any other a ticker

A recording is not written over itself, and a shell's > empties a file before
anything is read: let the output be another file. Where it cannot be written
whole, or the command is ended by a signal but SIGKILL and SIGQUIT, the file is
cut back to where the writing began.
"""

# How much a program prints: something of every recording, perhaps nothing, or as many bytes as the recording has.
SOMETHING, ANYTHING, AS_MUCH = range(3)

# What each command runs and says of itself, and how much its program prints.
COMMANDS = {
    "sheet": ("sheet", SHEET, SOMETHING),
    "answers": ("receiving", ANSWERS, SOMETHING),
    "read": ("reading", READ, ANYTHING),
    "convert": ("converting", CONVERT, AS_MUCH),
}


def fail(text, status=1):
    tell(f"rimeheath: {text}\n")
    sys.exit(status)


def wrong(text):
    fail(text, 2)


def write_all(fd, data):
    view = memoryview(data)
    while view:
        view = view[os.write(fd, view):]


# Where a regular file stands, and where it ends once what is written now is cut off; nothing of a pipe or a terminal.
def place_of(fd):
    found = os.fstat(fd)
    if not stat.S_ISREG(found.st_mode):
        return None
    at = os.lseek(fd, 0, os.SEEK_CUR)
    return at, found.st_size if fcntl.fcntl(fd, fcntl.F_GETFL) & os.O_APPEND else at


# Half of what was to be written could be taken for all of it. A signal more must not leave it there.
def cut_back(fd, place):
    for number in (signal.SIGINT, signal.SIGTERM, signal.SIGHUP):
        signal.signal(number, signal.SIG_IGN)
    if place is None or os.lseek(fd, 0, os.SEEK_CUR) == place[0]:
        return
    try:
        os.ftruncate(fd, place[1])
        os.lseek(fd, place[0], os.SEEK_SET)
    except OSError as e:
        tell(f"rimeheath: standard output has a part, which cannot be cut off: {e.strerror}\n")


# A reader such as head may leave before the end, and then this ends without a word, as other commands do. A file gets all or nothing.
def put(blocks):
    signal.signal(signal.SIGPIPE, signal.SIG_DFL)
    place = place_of(1)
    try:
        for block in blocks:
            write_all(1, block)
    except BaseException as e:
        cut_back(1, place)
        if isinstance(e, OSError):
            fail(f"standard output: {e.strerror}")
        raise


# ---- feeding it


class Progress:
    def __init__(self, asked, size):
        self.asked, self.size, self.read = asked, size, 0
        self.terminal, self.shown, self.last = os.isatty(2), False, time.monotonic()

    def add(self, n):
        self.read += n
        if (self.asked or self.terminal) and time.monotonic() - self.last >= 1:
            self.show()

    def show(self):
        text = f"rimeheath: {self.read / 1e6:.1f} MB read"
        if self.size:
            text += f", {min(100, self.read * 100 // self.size)} percent"
        tell(f"\r{text}" if self.terminal else f"{text}\n")
        self.shown, self.last = True, time.monotonic()

    def end(self):
        if self.asked or self.shown:
            self.show()
        if self.shown and self.terminal:
            tell("\n")


# The recording's descriptor, what it is called, and its size where that is known.
def open_recording(path, closed):
    if path is None:
        if 0 in closed:
            fail("standard input is closed, or a folder")
        fd, name = 0, "standard input"
    else:
        name = path
        try:
            fd = os.open(path, os.O_RDONLY)
        except FileNotFoundError:
            fail(f"{name}: no such recording")
        except OSError as e:
            fail(f"{name}: {e.strerror}")
    found = os.fstat(fd)
    if stat.S_ISDIR(found.st_mode):
        fail(f"{name}: a folder, and no recording")
    size = found.st_size - os.lseek(fd, 0, os.SEEK_CUR) if stat.S_ISREG(found.st_mode) else None
    return fd, name, size


# Whether standard output is the recording itself: what is written there would be read again, or is gone.
def is_output(fd):
    found = os.fstat(fd)
    return stat.S_ISREG(found.st_mode) and os.path.samestat(found, os.fstat(1))


# Passes the recording on to its end; what went wrong, or nothing.
def feed(fd, name, pipe, progress):
    while True:
        try:
            block = os.read(fd, BLOCK)
        except OSError as e:
            return f"{name}: {e.strerror}"
        if not block:
            return None
        try:
            write_all(pipe.fileno(), block)
        except BrokenPipeError:
            return "the program ended before the recording did"
        progress.add(len(block))


# Runs the program with these words and holds what it prints. Where the recording cannot be read to its end, the program is ended before its
# input is, so that it never takes an error for the end.
def run(program, words, fd, name, progress, held):
    child = subprocess.Popen([f"{ROOT}/tools/run-program", program, *words], stdin=subprocess.PIPE, stdout=subprocess.PIPE, bufsize=0)
    trouble = []

    def hold():
        try:
            while True:
                block = child.stdout.read(BLOCK)
                if not block:
                    return
                held.write(block)
        except OSError as e:
            trouble.append(f"what the program prints cannot be held: {e.strerror}")
            child.kill()

    keeper = threading.Thread(target=hold, daemon=True)
    keeper.start()
    fault = "interrupted"
    try:
        fault = feed(fd, name, child.stdin, progress)
    finally:
        if fault:
            child.kill()
            child.wait()
    progress.end()
    child.stdin.close()
    keeper.join()
    status = child.wait()
    if trouble or fault:
        fail(trouble[0] if trouble else fault)
    if status != 0:
        fail(f"the program was ended by signal {-status}" if status < 0 else f"the program ended with status {status}")


# ---- the words


# The edition behind a word that may stand once.
def take_edition(word, command, left, named):
    if word in named:
        wrong(f"a second edition: {command} reads one recording" if word == "--edition" else f"a second {word}: {command} makes one recording")
    edition = next(left, None)
    if edition is None:
        wrong(f"no edition is named; try ./rimeheath {command} --help")
    if edition not in EDITIONS:
        wrong(f"unknown edition '{edition}': there are {', '.join(EDITIONS)}")
    named[word] = edition
    return edition


# The type behind --type, of all symbols or of one: `typed` has the names that were given one, and None for all symbols.
def take_type(left, typed):
    asked = next(left, None)
    if asked is None:
        wrong("no type is named; try ./rimeheath convert --help")
    name, equals, letter = os.fsencode(asked).rpartition(b"=")
    if letter not in (b"E", b"F"):
        wrong(f"unknown type '{asked}': there are E and F, and NAME=E and NAME=F")
    if not equals:
        key = None
    elif not re.fullmatch(rb"[!-~]{1,11}", name) or (name.isdigit() and int(name) > MOST_ID):
        wrong(f"unknown name in '{asked}': a symbol ID is digits, at most {MOST_ID}, and a ticker 1 to 11 bytes from 33 to 126")
    else:
        key = int(name) if name.isdigit() else name
    if key in typed:
        wrong("a second type for all symbols" if key is None else f"a second type for one symbol: '{asked}'")
    typed.add(key)
    if len(typed - {None}) > MOST_NAMES:
        wrong(f"more than {MOST_NAMES:,} symbols with a type of their own")
    return asked


# What convert has to be told, once all of its words are there.
def judge_conversion(to, typed):
    if to is None:
        wrong("no --to: which edition is wanted? try ./rimeheath convert --help")
    if to != "1.3" and typed:
        wrong(f"a type, and {to} has none: types are for --to 1.3")
    if to == "1.3" and None not in typed:
        wrong("no type for all symbols: --to 1.3 takes one, --type E or --type F")


# The recording, whether progress is asked for, and the words that the program gets.
def take_words(command, words, answers):
    path, asked, passed, named, typed = None, False, [], {}, set()
    left = iter(words)
    for word in left:
        if word in answers:
            if len(words) > 1:
                wrong(f"{word} stands alone")
        elif word == "--progress":
            asked = True
        elif word == "--edition" or (word == "--to" and command == "convert"):
            passed += [word, take_edition(word, command, left, named)]
        elif word == "--type" and command == "convert":
            passed += [word, take_type(left, typed)]
        elif word.startswith("-") or word == "":
            wrong(f"unknown word '{word}'; try ./rimeheath {command} --help")
        elif path is not None:
            wrong(f"a second file, '{word}': {command} reads one recording")
        else:
            path = word
    if command == "convert" and not (words and words[0] in answers):
        judge_conversion(named.get("--to"), typed)
    return path, asked, passed


def main(words):
    # A standard descriptor that is closed is made a safe one, before something else gets its number.
    closed = set()
    for fd in range(3):
        try:
            os.fstat(fd)
        except OSError:
            closed.add(fd)
            os.open(os.devnull, os.O_RDWR)
    if not words:
        tell(USAGE)
        sys.exit(2)
    first, rest = words[0], words[1:]
    answers = {"--help": USAGE + COMMON, "-h": USAGE + COMMON, "--version": VERSION}
    if first in COMMANDS:
        program, text, prints = COMMANDS[first]
        answers.update({"--help": text + COMMON, "-h": text + COMMON})
    elif first in answers:
        rest = words
    else:
        wrong(f"unknown word '{first}'; try ./rimeheath --help")

    path, asked, passed = take_words(first, rest, answers)
    if 1 in closed:
        fail("standard output is closed")
    if rest and rest[0] in answers:
        put([answers[rest[0]].encode()])
        return

    fd, name, size = open_recording(path, closed)
    if prints == AS_MUCH and is_output(fd):
        fail("the output is the recording itself")
    try:
        make_ready(program)
    except NotBuilt as why:
        fail(why)
    progress = Progress(asked, size)
    with tempfile.SpooledTemporaryFile(IN_MEMORY) as held:
        run(program, passed, fd, name, progress, held)
        if prints == SOMETHING and held.tell() == 0:
            sys.exit(1)  # the program has said why
        if prints == AS_MUCH and held.tell() != progress.read:
            fail(f"of {progress.read} bytes the program gave {held.tell()}")
        held.seek(0)
        put(iter(lambda: held.read(BLOCK), b""))


end_with_signals()
try:
    main(sys.argv[1:])
except KeyboardInterrupt:
    sys.exit(130)
except OSError as e:
    fail(f"{e.filename}: {e.strerror}" if e.filename else str(e))
