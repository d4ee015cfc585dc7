#!/usr/bin/env python3
"""The formula program where reading or writing fails: failures.py [--no-status] FORMULA_TEXT PROGRAM.

A failure must be told on standard error, nothing may be missing before it, and the status says what happened: 0 for a
formula printed whole, 1 for a refusal, 2 for a failure. A program of the language itself has no status of its own; with
--no-status it must end with 0 for a formula and for a refusal, and with 1 and the error that its `main` returns for a
failure. What should be printed comes from FORMULA_TEXT, the independent program.
"""

import errno
import fcntl
import os
import resource
import signal
import subprocess
import sys
import tempfile
import termios
import time

# Seconds after which a test counts as hanging.
LIMIT = 60

FORMULA, REFUSED, FAILED = 0, 1, 2
READ = "formula_program: the input cannot be read: "
WRITE = "formula_program: the output cannot be written: "


def largest():
    """64 vertices, all 2016 edges, 16 agents, horizon 32."""
    edges = [(low, high) for low in range(64) for high in range(low + 1, 64)]
    lows, highs = zip(*edges)
    sizes = [64, 16, len(edges) & 255, len(edges) >> 8]
    return bytes([32, *sizes, *lows, *highs, *range(16), *range(63, 47, -1)])


PAIR = bytes([1, 2, 1, 1, 0, 0, 1, 0, 1])
REFUSAL = bytes([33]) + PAIR[1:]
LARGEST = largest()


class Wrong(Exception):
    """What a test found."""


def require(holds, what):
    if not holds:
        raise Wrong(what)


class Run:
    """The program, started with these files. What is not named is a temporary file; bytes stand in one as input."""

    # Those that a test has started.
    started = []

    def __init__(self, stdin=b"", stdout=None, signals=True, before=None, closed=()):
        self.errors = tempfile.TemporaryFile()
        self.out = tempfile.TemporaryFile() if stdout is None else None
        given = stdin
        if isinstance(stdin, bytes):
            given = tempfile.TemporaryFile()
            given.write(stdin)
            given.seek(0)

        def prepare():
            if before:
                before()
            for descriptor in closed:
                os.close(descriptor)

        self.child = subprocess.Popen(
            [PROGRAM],
            stdin=given,
            stdout=self.out if stdout is None else stdout,
            stderr=self.errors,
            # True: SIGPIPE and SIGXFSZ act as in a shell. False: they are ignored, as in Python.
            restore_signals=signals,
            preexec_fn=prepare,
        )
        Run.started.append(self.child)

    def end(self):
        """Waits; gives the status, what was printed (unless it went elsewhere) and the errors."""
        status = self.child.wait()
        printed = None
        if self.out:
            self.out.seek(0)
            printed = self.out.read()
        self.errors.seek(0)
        return status, printed, self.errors.read().decode(errors="replace")


def require_status(status, expected):
    if not STATUS:
        expected = 1 if expected == FAILED else 0
    require(status == expected, f"status {status}, not {expected}")


def require_told(errors, words, number):
    """One line: the words, then the reason as the system calls it; or what `main` returned, with the reason of a read."""
    if not STATUS:
        reason = os.strerror(number) if words == READ else "the output cannot be written"
        told = errors.startswith("Error: ") and reason in errors and errors.count("\n") == 1
        require(told, f"standard error has {errors!r}, not an error with {reason!r}")
        return
    line = f"{words}{os.strerror(number)}\n"
    require(errors == line, f"standard error has {errors!r}, not {line!r}")


def require_prefix(printed, text):
    """Nothing but the beginning of the text."""
    if not text.startswith(printed):
        at = next(i for i, byte in enumerate(printed) if text[i : i + 1] != bytes([byte]))
        raise Wrong(f"{len(printed)} bytes arrived, which differ from the text at byte {at}")


def require_whole(printed, text):
    require_prefix(printed, text)
    require(len(printed) == len(text), f"{len(printed)} of {len(text)} bytes arrived")


def require_all_well(run, expected=FORMULA):
    status, _, errors = run.end()
    require(errors == "", f"standard error has {errors!r}")
    require_status(status, expected)


def require_failure(run, words, number):
    """Status 2 and the words; gives what was printed."""
    status, printed, errors = run.end()
    require_told(errors, words, number)
    require_status(status, FAILED)
    return printed


def drain(descriptor):
    """All that stands in a pipe whose other end is closed."""
    pieces = []
    while piece := os.read(descriptor, 1 << 20):
        pieces.append(piece)
    return b"".join(pieces)


# Writing


def whole(given, expected):
    run = Run(given)
    status, printed, errors = run.end()
    require(errors == "", f"standard error has {errors!r}")
    require_whole(printed, text_of(given))
    require_status(status, expected)


def full_device(given):
    with open("/dev/full", "wb") as full:
        require_failure(Run(given, full), WRITE, errno.ENOSPC)


def output_closed(given):
    require_failure(Run(given, closed=[1]), WRITE, errno.EBADF)


def output_for_reading(given):
    with open("/dev/null", "rb") as readable:
        require_failure(Run(given, readable), WRITE, errno.EBADF)


def nobody_empties():
    reader, writer = os.pipe()
    os.set_blocking(writer, False)
    # One byte takes a page of the pipe, so that writes of 64 KiB do not come out even.
    os.write(writer, b"?")
    run = Run(LARGEST, writer)
    os.close(writer)
    require_failure(run, WRITE, errno.EAGAIN)
    printed = drain(reader)[1:]
    os.close(reader)
    require(len(printed) > 0, "nothing arrived in an empty pipe")
    require_prefix(printed, text_of(LARGEST))


def emptied_now_and_then():
    """A non-blocking pipe with a slow reader: sooner or later a write finds no room, and later ones would find some."""
    reader, writer = os.pipe()
    os.set_blocking(writer, False)
    run = Run(LARGEST, writer)
    os.close(writer)
    pieces = []
    while piece := os.read(reader, 12_289):
        pieces.append(piece)
        time.sleep(0.001)
    os.close(reader)
    printed = b"".join(pieces)
    require_failure(run, WRITE, errno.EAGAIN)
    require(len(printed) > 0, "nothing arrived in an empty pipe")
    require_prefix(printed, text_of(LARGEST))


def slow_reader():
    reader, writer = os.pipe()
    run = Run(LARGEST, writer)
    os.close(writer)
    pieces = []
    lengths = [1, 7, 4_097, 65_535, 3, 1_000_003, 8_191]
    while piece := os.read(reader, lengths[len(pieces) % len(lengths)]):
        pieces.append(piece)
        if len(pieces) % 5 == 0:
            time.sleep(0.002)
    os.close(reader)
    require_all_well(run)
    require_whole(b"".join(pieces), text_of(LARGEST))


def waiting_for_room(run, reader):
    """Is there something in the pipe, and does the program sleep?"""
    held = int.from_bytes(fcntl.ioctl(reader, termios.FIONREAD, bytes(4)), sys.byteorder)
    with open(f"/proc/{run.child.pid}/stat") as stat:
        state = stat.read().rsplit(")", 1)[1].split()[0]
    return held > 0 and state == "S"


def short_writes():
    """A program stopped while its write waits for room has that write cut short when it goes on.

    With a pipe of one page, a write of more than a page then answers fewer bytes than it was given.
    """
    reader, writer = os.pipe()
    fcntl.fcntl(writer, fcntl.F_SETPIPE_SZ, 4096)
    run = Run(LARGEST, writer)
    os.close(writer)
    pieces = []
    for _ in range(100):
        while not waiting_for_room(run, reader):
            require(run.child.poll() is None, "ended before the reader had all")
            time.sleep(0.0005)
        os.kill(run.child.pid, signal.SIGSTOP)
        _, state = os.waitpid(run.child.pid, os.WUNTRACED)
        require(os.WIFSTOPPED(state), "ended before the reader had all")
        os.kill(run.child.pid, signal.SIGCONT)
        pieces.append(os.read(reader, 4095))
        pieces.append(os.read(reader, 3333))
    pieces.append(drain(reader))
    os.close(reader)
    require_all_well(run)
    require_whole(b"".join(pieces), text_of(LARGEST))


def file_limit():
    """The file may have so many bytes and no more: the last write is cut short, the one after it fails."""
    most = 1_000_003
    run = Run(LARGEST, signals=False, before=lambda: resource.setrlimit(resource.RLIMIT_FSIZE, (most, most)))
    printed = require_failure(run, WRITE, errno.EFBIG)
    require(len(printed) == most, f"{len(printed)} bytes arrived, not {most}")
    require_prefix(printed, text_of(LARGEST))


def reader_leaves(ignored, length):
    """The reader takes so many bytes of the largest formula and goes."""
    reader, writer = os.pipe()
    if length == 0:
        os.close(reader)
    run = Run(LARGEST, writer, signals=not ignored)
    os.close(writer)
    printed = b""
    if length > 0:
        while len(printed) < length:
            piece = os.read(reader, length - len(printed))
            require(piece, f"ended after {len(printed)} bytes")
            printed += piece
        os.close(reader)
    require_prefix(printed, text_of(LARGEST))
    status, _, errors = run.end()
    # Where the signal is not ignored it may end the program, as it ends others.
    if ignored or status != -signal.SIGPIPE:
        require_told(errors, WRITE, errno.EPIPE)
        require_status(status, FAILED)


# Reading


def require_unread(run, number):
    printed = require_failure(run, READ, number)
    require(printed == b"", f"printed {printed[:60]!r} though it could not read")


def folder():
    descriptor = os.open("/", os.O_RDONLY)
    require_unread(Run(descriptor), errno.EISDIR)
    os.close(descriptor)


def input_closed():
    require_unread(Run(closed=[0]), errno.EBADF)


def input_for_writing():
    with open("/dev/null", "wb") as writable:
        require_unread(Run(writable), errno.EBADF)


def input_not_ready(given):
    """A non-blocking pipe whose writer has given so much and keeps it open."""
    reader, writer = os.pipe()
    os.set_blocking(reader, False)
    os.write(writer, given)
    require_unread(Run(reader), errno.EAGAIN)
    os.close(reader)
    os.close(writer)


def fed(given, lengths, pause):
    """The input in pieces; what is printed is read meanwhile."""
    reader, writer = os.pipe()
    run = Run(reader)
    os.close(reader)
    at = count = 0
    while at < len(given):
        length = lengths[count % len(lengths)]
        os.write(writer, given[at : at + length])
        at += length
        count += 1
        time.sleep(pause)
    os.close(writer)
    status, printed, errors = run.end()
    require(errors == "", f"standard error has {errors!r}")
    require_whole(printed, text_of(given))
    require_status(status, FORMULA)


def held_open():
    """4,070 bytes are all that is read: the program must not wait for more."""
    reader, writer = os.pipe()
    given = LARGEST + b"\0"
    require(len(given) == 4070, "the largest input has another length")
    run = Run(reader)
    os.close(reader)
    os.write(writer, given)
    status, printed, errors = run.end()
    os.close(writer)
    require(errors == "", f"standard error has {errors!r}")
    require_whole(printed, b"c refused 5 4069\n")
    require_status(status, REFUSED)


# No place for the words


def no_words(given, closed):
    """The output cannot be written, and nothing can be said: the status alone tells."""
    with open("/dev/full", "wb") as full:
        status, _, _ = Run(given, full, closed=closed).end()
    require_status(status, FAILED)


def words_to_full(given):
    with open("/dev/full", "wb") as full:
        status, _, _ = Run(given, full, before=lambda: os.dup2(full.fileno(), 2)).end()
    require_status(status, FAILED)


def unread_without_words():
    status, printed, _ = Run(closed=[0, 2]).end()
    require(printed == b"", f"printed {printed[:60]!r} though it could not read")
    require_status(status, FAILED)


def all_closed():
    status, _, _ = Run(closed=[0, 1, 2]).end()
    require_status(status, FAILED)


INPUTS = [
    ("a small formula", PAIR, FORMULA),
    ("the largest formula", LARGEST, FORMULA),
    ("a refusal", REFUSAL, REFUSED),
]

TESTS = (
    [(f"{name}, nothing fails", whole, given, status) for name, given, status in INPUTS]
    + [(f"{name}, no space left (/dev/full)", full_device, given) for name, given, _ in INPUTS]
    + [(f"{name}, standard output closed", output_closed, given) for name, given, _ in INPUTS]
    + [(f"{name}, standard output open for reading only", output_for_reading, given) for name, given, _ in INPUTS]
    + [
        ("non-blocking pipe that nobody empties", nobody_empties),
        ("non-blocking pipe emptied now and then", emptied_now_and_then),
        ("slow reader that takes odd pieces", slow_reader),
        ("short writes", short_writes),
        ("limit on the file's length", file_limit),
        ("reader leaves at once", reader_leaves, False, 0),
        ("reader leaves in the middle", reader_leaves, False, 100_001),
        ("reader leaves at once, SIGPIPE ignored", reader_leaves, True, 0),
        ("reader leaves in the middle, SIGPIPE ignored", reader_leaves, True, 100_001),
        ("folder as standard input", folder),
        ("standard input closed", input_closed),
        ("standard input open for writing only", input_for_writing),
        ("non-blocking standard input, nothing there yet", input_not_ready, b""),
        ("non-blocking standard input, half of it there", input_not_ready, PAIR[:5]),
        ("small input, byte by byte", fed, PAIR, [1], 0.03),
        ("largest input, in odd pieces", fed, LARGEST, [1, 1, 2, 3, 997], 0.01),
        ("input held open after 4,070 bytes", held_open),
        ("standard error closed, no space left", no_words, LARGEST, [2]),
        ("standard error full, no space left", words_to_full, LARGEST),
        ("standard input and error closed", unread_without_words),
        ("all three closed", all_closed),
    ]
)

texts = {}


def text_of(given):
    """What the independent program prints."""
    if given not in texts:
        texts[given] = subprocess.run([FORMULA_TEXT], input=given, stdout=subprocess.PIPE, check=True).stdout
    return texts[given]


def too_long(*_):
    raise Wrong(f"does not end in {LIMIT} seconds")


def fault(test, words):
    """Runs the test: None, or what is wrong. Leaves no program running."""
    signal.alarm(LIMIT)
    try:
        test(*words)
        return None
    except (Wrong, OSError) as found:
        return found
    finally:
        signal.alarm(0)
        for child in Run.started:
            child.kill()
            child.wait()
        Run.started.clear()


def main():
    # Known from document 01, so that the expected texts are not taken on trust alone.
    require(text_of(PAIR).startswith(b"p cnf 4 8\n1 0\n4 0\n"), "the independent program prints another formula")
    require(text_of(REFUSAL) == b"c refused 10 0\n", "the independent program does not refuse")
    require(text_of(LARGEST).count(b"\n") == 1 + 1_842_736, "the independent program's largest formula is cut")
    signal.signal(signal.SIGALRM, too_long)
    failed = 0
    for name, test, *words in TESTS:
        found = fault(test, words)
        failed += found is not None
        print(f"ok      {name}" if found is None else f"FAILED  {name}: {found}", flush=True)
    print(f"{len(TESTS)} tests of {os.path.relpath(PROGRAM)}, {failed} failed")
    return 1 if failed else 0


if __name__ == "__main__":
    arguments = sys.argv[1:]
    STATUS = arguments[:1] != ["--no-status"]
    if not STATUS:
        del arguments[0]
    if len(arguments) != 2:
        sys.exit("usage: failures.py [--no-status] FORMULA_TEXT PROGRAM")
    FORMULA_TEXT, PROGRAM = map(os.path.abspath, arguments)
    sys.exit(main())
