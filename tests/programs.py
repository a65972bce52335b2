#!/usr/bin/env python3
"""What the programs do with their descriptors, on data folders of tests/ and on standard input.

    programs.py BIN    BIN is the folder of monitor_main, replay, response_day, response_ledger, bench_monitor and trials

- A write that fails ends the run, with one line on standard error that names the program and standard output.
- An interval, a call of a list, and a day, is answered in one write.
- Nothing is held back by monitor_main, replay and response_ledger: an answer can be read before the next interval or call is sent.
- A case of the trials is answered by its label, whatever bytes that is.
"""

import contextlib
import itertools
import os
import pathlib
import re
import select
import shutil
import socket
import struct
import subprocess
import sys
import tempfile

TESTS = pathlib.Path(__file__).resolve().parent
CRATES = TESTS.parent / "crates"
SECONDS = 10  # the longest that a run, or an answer, may take


class Failure(Exception):
    pass


def ensure(holds, text):
    if not holds:
        raise Failure(text)


# ---- what is sent, and what answers it


def intervals(folder):
    units = (folder / "register.bin").read_bytes()[0]
    sent = (folder / "intervals.bin").read_bytes()
    size = 8 + 40 * units
    return [sent[at:at + size] for at in range(0, len(sent), size)]


def calls(file):
    sent = file.read_bytes()
    at, found = 0, []
    while at < len(sent):
        _, length = struct.unpack_from("<II", sent, at)  # tag and length of the payload
        found.append(sent[at:at + 8 + length])
        at += 8 + length
    return found


def interval_answers(folder):
    """The lines of each interval, which begin with its number."""
    lines = (folder / "expected").read_bytes().splitlines(keepends=True)
    return [b"".join(group) for _, group in itertools.groupby(lines, lambda line: line.split()[0])]


def call_answers(folder):
    """Each answer begins with a line of words; the lines of an accepted interval follow it, and nothing any other."""
    return re.findall(rb"[a-z].*\n(?:[0-9].*\n)*", (folder / "expected").read_bytes())


def day_answers(folder):
    """A day's one line."""
    return [(folder / "expected").read_bytes()]


# ---- runs


@contextlib.contextmanager
def copied(folder):
    with tempfile.TemporaryDirectory() as work:
        yield pathlib.Path(shutil.copytree(folder, work, dirs_exist_ok=True))


@contextlib.contextmanager
def started(program, work, output):
    process = subprocess.Popen([program], cwd=work, stdin=subprocess.DEVNULL, stdout=output)
    try:
        yield process
        process.wait(SECONDS)
    finally:
        process.kill()
        process.wait()


# ---- the checks


def told_of_a_failed_write(program, work, given):
    with open("/dev/full", "wb") as full:
        ended = subprocess.run([program], cwd=work, input=given, stdout=full, stderr=subprocess.PIPE, timeout=SECONDS)
    said = ended.stderr
    ensure(said.count(b"\n") == 1 and said.endswith(b"\n"), f"{said.count(10)} lines on standard error, not one")
    ensure(said.startswith(program.name.encode() + b": standard output"), f"standard error begins {said[:40]!r}")
    ensure(ended.returncode == 0, f"the exit status is {ended.returncode}, not 0")
    return "a write that fails ends the run, with one line on standard error"


def failed_write(program, folder):
    with copied(folder) as work:
        return told_of_a_failed_write(program, work, b"")


def failed_write_of_input(program, folder):
    return told_of_a_failed_write(program, folder, (folder / "stdin").read_bytes())


def any_label(program, folder):
    """Registers of no bytes, which are refused 1, in a block of trial 4: labels of one byte, and each register's length in two bytes."""
    given = b"\4" + b"\1\xff\0\0" + b"\1a\0\0"
    ended = subprocess.run([program], cwd=folder, input=given, stdout=subprocess.PIPE, timeout=SECONDS)
    ensure(ended.stdout == b"\xff: refused 1\na: refused 1\n", f"what is printed begins {ended.stdout[:40]!r}")
    return "a label that is no text is printed as it is, and the cases behind it are run"


def one_write_each(program, folder, answers):
    ours, theirs = socket.socketpair(socket.AF_UNIX, socket.SOCK_SEQPACKET)
    with ours, theirs, copied(folder) as work:
        ours.settimeout(SECONDS)
        theirs.setsockopt(socket.SOL_SOCKET, socket.SO_SNDBUF, 1 << 20)
        with started(program, work, theirs):
            theirs.close()
            writes = list(iter(lambda: ours.recv(1 << 16), b""))  # a packet is one write
    ensure(b"".join(writes) == b"".join(answers), "what is printed is not what is expected")
    ensure(writes == answers, f"{len(writes)} writes, not one for each of {len(answers)} answers")
    return f"{len(answers)} answers, each in one write"


def nothing_held_back(program, folder, file, sent, answers):
    ensure(len(sent) == len(answers) >= 3, f"{len(sent)} sent, {len(answers)} answers")
    with copied(folder) as work:
        (work / file).unlink()
        os.mkfifo(work / file)
        # The file is open for reading too, so that neither side waits for the other to open it.
        with (open(work / file, "r+b", buffering=0) as fifo, started(program, work, subprocess.PIPE) as process,
              process.stdout as output):
            for number, (piece, answer) in enumerate(zip(sent, answers), 1):
                fifo.write(piece)
                printed = b""
                while len(printed) < len(answer):
                    ready, _, _ = select.select([output], [], [], SECONDS)
                    ensure(ready, f"answer {number} is held back")
                    more = os.read(output.fileno(), 1 << 16)
                    ensure(more, f"the run ended before answer {number}")
                    printed += more
                ensure(printed == answer, f"answer {number} is not what is expected")
            fifo.close()
            ensure(output.read() == b"", "more is printed than is expected")
    return f"{len(answers)} answers, each read before more was sent"


def checks(programs):
    """Program and data folder of each check, and the check."""
    monitor_main, replay = programs / "monitor_main", programs / "replay"
    response_day, response_ledger = programs / "response_day", programs / "response_ledger"
    for program, folder in (
        (monitor_main, TESTS / "program" / "largest"),
        (replay, TESTS / "calls" / "every_status"),
        (response_day, TESTS / "days" / "three_events"),
        (response_day, TESTS / "days" / "missing"),
        (response_ledger, TESTS / "ledgers" / "each_answer"),
    ):
        yield program, folder, failed_write, ()
    for name in "bench_monitor", "trials":
        yield programs / name, CRATES / name, failed_write_of_input, ()
    yield programs / "trials", CRATES / "trials", any_label, ()
    for name in "largest", "chain", "refused_21":
        folder = TESTS / "program" / name
        yield monitor_main, folder, one_write_each, (interval_answers(folder),)
    for name in "every_status", "full_plant", "refusals_with_register", "script_late":
        folder = TESTS / "calls" / name
        yield replay, folder, one_write_each, (call_answers(folder),)
    for name in "three_events", "largest_negative", "missing", "past_first_target_2000001":
        folder = TESTS / "days" / name
        yield response_day, folder, one_write_each, (day_answers(folder),)
    for name in "each_answer", "year_2024":
        folder = TESTS / "ledgers" / name
        yield response_ledger, folder, one_write_each, (call_answers(folder),)
    folder = TESTS / "program" / "chain"
    yield monitor_main, folder, nothing_held_back, ("intervals.bin", intervals(folder), interval_answers(folder))
    folder = TESTS / "calls" / "every_status"
    yield replay, folder, nothing_held_back, ("calls.bin", calls(folder / "calls.bin"), call_answers(folder))
    folder = TESTS / "ledgers" / "each_answer"
    yield response_ledger, folder, nothing_held_back, ("ledger.bin", calls(folder / "ledger.bin"), call_answers(folder))


def main(arguments):
    if len(arguments) != 1:
        sys.exit(__doc__)
    failures = 0
    for program, folder, check, given in checks(pathlib.Path(arguments[0]).resolve()):
        try:
            found = check(program, folder, *given)
        except (Failure, OSError, subprocess.TimeoutExpired) as failure:
            found = f"FAILED: {failure}"
            failures += 1
        print(f"{program.name} on {folder.name}: {found}")
    return 1 if failures else 0


if __name__ == "__main__":
    sys.exit(main(sys.argv[1:]))
