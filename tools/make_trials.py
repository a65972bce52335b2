#!/usr/bin/env python3
"""Writes what crates/trials is run on (stdin) and what it must print (stdout).

  tools/make_trials.py             write both files
  tools/make_trials.py --check     write nothing; exit 1 where a file differs from what would be written
  tools/make_trials.py --blocks N  standard input, blocks of trial N's cases, as the program reads them

The program reads blocks of 65,537 bytes: the number of a trial, and cases of it, as `in_blocks` lays them out. The cases
are those of `trial_telemetry`, `trial_marks`, `trial_passes` and `trial_register`, and what is printed of texts is in
trial_text.txt; none of it is a copy of what the program printed.
"""
import pathlib
import sys

import trial_marks
import trial_passes
import trial_register
import trial_telemetry
from lines import BLOCK

TOOLS = pathlib.Path(__file__).resolve().parent
CRATE = TOOLS.parent / "crates" / "trials"
TRIALS = {1: trial_telemetry.trial, 2: trial_marks.trial, 3: trial_passes.trial, 4: trial_register.trial}
TEXTS = 5  # all that it prints is one case, a byte that is not 0


def numbered(trial, given):
    """The blocks with the number of their trial before each. A zero ends the cases of one that is not full."""
    parts = [given[at : at + BLOCK] for at in range(0, len(given), BLOCK)]
    return b"".join(bytes([trial]) + part.ljust(BLOCK, b"\0") for part in parts)


def files():
    """The content of each of the two files."""
    made = {trial: cases() for trial, cases in TRIALS.items()}
    made[TEXTS] = b"\1", (TOOLS / "trial_text.txt").read_bytes()
    given = b"".join(numbered(trial, blocks) for trial, (blocks, _) in made.items())
    return {CRATE / "stdin": given, CRATE / "stdout": b"".join(lines for _, lines in made.values())}


def main(arguments):
    if len(arguments) == 2 and arguments[0] == "--blocks":
        sys.stdout.buffer.write(numbered(int(arguments[1]), sys.stdin.buffer.read()))
    elif arguments == ["--check"]:
        differing = [path for path, content in files().items() if not path.is_file() or path.read_bytes() != content]
        for path in differing:
            print(f"{path.name} of crates/trials differs from what tools/make_trials.py makes")
        sys.exit(1 if differing else 0)
    elif not arguments:
        for path, content in files().items():
            path.write_bytes(content)
    else:
        sys.exit(__doc__)


if __name__ == "__main__":
    main(sys.argv[1:])
