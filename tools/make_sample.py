#!/usr/bin/env python3
"""The sample: sample/register.bin, sample/intervals.bin, sample/README.md, and sample/expected, what the program prints on it.

    make_sample.py           writes the files
    make_sample.py --check   compares the files with what this script makes

A small plant that goes through every status and every mark:

    point 1  hydro unit, generating unit   \\
    point 2  battery, bidirectional unit    } chain 1 -> 2 -> 3 in region 0, aggregate of point 6
    point 3  pumped load, load             /
    point 4  gas turbine, generating unit in no chain, region 1
    point 5  solar farm, semi-scheduled generating unit in no chain, region 1
    point 6  the aggregate

Run lengths 2 3 4 for the small run and 2 3 4 for the large run. What each byte is stands in plant_bytes.py.
"""

import pathlib
import sys

from plant_bytes import (BAD, BIDIRECTIONAL, GENERATING, GOOD, LOAD, SEMI_SCHEDULED, SUBSTITUTED, interval, line, regions,
                         register)

FOLDER = pathlib.Path(__file__).resolve().parent.parent / "sample"

# Header: n 5, m 1, run lengths, eight zeros. Units: kind, next, region, zero. Head: unit 1, three zeros.
REGISTER = register(
    (2, 3, 4, 2, 3, 4),
    [(GENERATING, 2, 0), (BIDIRECTIONAL, 3, 0), (LOAD, 0, 0), (GENERATING, 0, 1), (SEMI_SCHEDULED, 0, 1)], [1])
BOTH = regions(0, 1)  # both regions are automatic

# MWO 200,000 and rates of 9 MW per minute: small trigger 600,000 (an error over 6,000 kW), large 1,000,000 (over 10,000).
# The aggregate: MWO max(400,000, 200,000), so small 1,200,000 (over 12,000 kW) and large 2,000,000 (over 20,000).
COMMON = {"mwo": 200_000, "bid": (9_000, 9_000), "scada": (9.0, 9.0)}


def hydro(mw, mode=2, quality=GOOD):
    return line(mw, mwb=80_000, mode=mode, quality=quality, **COMMON)


def battery(mw, mode=2, quality=GOOD):
    return line(mw, mwb=-30_000, mode=mode, quality=quality, **COMMON)


def pump(mw, mode=2, quality=GOOD):
    return line(mw, mwb=40_000, mode=mode, quality=quality, **COMMON)


def turbine(mw, quality=GOOD):
    # FCR 1,000 and FCL 500: on target from 119.5 to 121 MW.
    return line(mw, mwb=120_000, fcr=1_000, fcl=500, quality=quality, **COMMON)


def solar(mw, cap, quality=GOOD):
    # The cap flag of this line decides at the next interval: 0 lets the farm run as it can, 1 caps it at its target.
    return line(mw, mwb=60_000, cap=cap, quality=quality, **COMMON)


NAN = float("nan")

# number, mask, lines of units 1 to 5; then what is printed of points 1 to 6, worked out by hand from the paper: status, mark
# (0 OFF, 1 BLANK, 2 CLEAR, 3 DOUBT, 4 SMALL, 5 LARGE), small run, large run, error, small trigger, level.
INTERVALS = [
    # Nothing kept yet.
    (1, BOTH, hydro(80.0), battery(-30.0), pump(40.0), turbine(120.0), solar(60.0, 0),
     "0 1 0 0 0 0 0 | 0 1 0 0 0 0 0 | 0 1 0 0 0 0 0 | 0 1 0 0 0 0 0 | "
     "0 1 0 0 0 0 0 | 0 1 0 0 0 0 0"),
    # All on target, but solar 15 MW high: its kept flag is 0.
    (2, BOTH, hydro(80.0), battery(-30.0), pump(40.0), turbine(121.0), solar(75.0, 0),
     "0 2 0 0 0 600000 0 | 0 2 0 0 0 600000 0 | 0 2 0 0 0 600000 0 | 0 2 0 0 0 600000 0 | "
     "0 0 0 0 0 0 0 | 0 2 0 0 0 1200000 0"),
    # The whole aggregate off; turbine 129 - 121 = 8 MW high; solar's flag is 1 now, but the kept one is 0.
    (3, BOTH, hydro(80.0, 0), battery(-30.0, 0), pump(40.0, 0), turbine(129.0), solar(75.0, 1),
     "0 0 0 0 0 0 0 | 0 0 0 0 0 0 0 | 0 0 0 0 0 0 0 | 1 4 1 0 8000 600000 0 | "
     "0 0 0 0 0 0 0 | 0 0 0 0 0 0 0"),
    # Hydro 8 MW high, within the aggregate's trigger; turbine 12 MW high; solar 20 MW low, which does not count.
    (4, BOTH, hydro(88.0), battery(-30.0), pump(40.0), turbine(133.0), solar(40.0, 1),
     "1 4 1 0 8000 600000 0 | 0 2 0 0 0 600000 0 | 0 2 0 0 0 600000 0 | 2 5 2 1 12000 600000 0 | "
     "0 2 0 0 -20000 600000 0 | 0 2 0 0 8000 1200000 0"),
    # Hydro sends no number; turbine's telemetry is substituted; solar 8 MW high.
    (5, BOTH, hydro(NAN), battery(-30.0), pump(40.0), turbine(133.0, SUBSTITUTED), solar(68.0, 1),
     "1 1 1 0 0 0 0 | 0 2 0 0 0 600000 0 | 0 2 0 0 0 600000 0 | 2 3 2 1 12000 600000 0 | "
     "1 4 1 0 8000 600000 0 | 0 1 0 0 0 0 0"),
    # Nothing kept for hydro; turbine 12 MW low, small run 3; solar 12 MW high, small run 2, and its flag is 0.
    (6, BOTH, hydro(80.0), battery(-30.0), pump(40.0), turbine(107.5), solar(72.0, 0),
     "1 1 1 0 0 0 0 | 0 2 0 0 0 600000 0 | 0 2 0 0 0 600000 0 | 3 5 3 2 -12000 600000 0 | "
     "2 5 2 1 12000 600000 0 | 0 1 0 0 0 0 0"),
    # Battery 7 MW high and pump 7 MW low: the aggregate is 14 MW high; turbine's telemetry is bad; solar's kept flag of 0
    # clears its runs.
    (7, BOTH, hydro(80.0), battery(-23.0), pump(33.0), turbine(107.5, BAD), solar(72.0, 1),
     "0 2 0 0 0 600000 0 | 1 4 1 0 7000 600000 0 | 1 4 1 0 -7000 600000 0 | 3 1 3 2 0 0 0 | "
     "0 0 0 0 0 0 0 | 1 4 1 0 14000 1200000 0"),
    # Turbine 8 MW low: small run 4, declared at 111,500; solar 8 MW high.
    (8, BOTH, hydro(80.0), battery(-23.0), pump(33.0), turbine(111.5), solar(68.0, 1),
     "0 2 0 0 0 600000 0 | 2 4 2 0 7000 600000 0 | 2 4 2 0 -7000 600000 0 | 4 4 0 0 -8000 600000 111500 | "
     "1 4 1 0 8000 600000 0 | 2 4 2 0 14000 1200000 0"),
    # Battery substituted: DOUBT for it and for the aggregate; hydro off alone; solar 12 MW high.
    (9, BOTH, hydro(80.0, 1), battery(-23.0, 2, SUBSTITUTED), pump(33.0), turbine(120.0), solar(72.0, 1),
     "0 0 0 0 0 0 0 | 2 3 2 0 7000 600000 0 | 3 4 3 0 -7000 600000 0 | 4 2 0 0 0 600000 111500 | "
     "2 5 2 1 12000 600000 0 | 2 3 2 0 14000 1200000 0"),
    # Region 0 is manual, which shows 2 instead of 3 and declares nothing; the aggregate is 5 + 11 + 11 = 27 MW high. Region 1 is
    # automatic: solar's small run is 3.
    (10, regions(1), hydro(85.0), battery(-19.0), pump(29.0), turbine(120.0), solar(72.0, 1),
     "0 2 0 0 5000 600000 0 | 2 5 3 1 11000 600000 0 | 2 5 4 1 -11000 600000 0 | 4 2 0 0 0 600000 111500 | "
     "3 5 3 2 12000 600000 0 | 2 5 3 1 27000 1200000 0"),
    # Battery's small run comes to 4: declared at -23,000; pump substituted, so pump and aggregate wait at 3. Solar is substituted
    # too, and region 1 is manual: 2.
    (11, regions(0), hydro(80.0), battery(-23.0), pump(33.0, 2, SUBSTITUTED), turbine(120.0), solar(72.0, 1, SUBSTITUTED),
     "0 2 0 0 0 600000 0 | 4 4 0 0 7000 600000 -23000 | 3 3 4 1 -7000 600000 0 | 4 2 0 0 0 600000 111500 | "
     "2 3 3 2 12000 600000 0 | 3 3 3 1 14000 1200000 0"),
    # Pump declared at 33,000, the aggregate at 80,000 - 23,000 - 33,000 = 24,000; solar 11 MW high, small run 4: at 71,000.
    (12, BOTH, hydro(80.0), battery(-23.0), pump(33.0), turbine(120.0), solar(71.0, 1),
     "0 2 0 0 0 600000 0 | 4 4 0 0 7000 600000 -23000 | 4 4 0 0 -7000 600000 33000 | 4 2 0 0 0 600000 111500 | "
     "4 5 0 0 11000 600000 71000 | 4 4 0 0 14000 1200000 24000"),
    # All on target, but solar 15 MW low and substituted: CLEAR all the same. Levels stand.
    (13, BOTH, hydro(80.0), battery(-30.0), pump(40.0), turbine(120.0), solar(45.0, 1, SUBSTITUTED),
     "0 2 0 0 0 600000 0 | 4 2 0 0 0 600000 -23000 | 4 2 0 0 0 600000 33000 | 4 2 0 0 0 600000 111500 | "
     "4 2 0 0 -15000 600000 71000 | 4 2 0 0 0 1200000 24000"),
    # A jump in number: kept lines are stale.
    (20, BOTH, hydro(80.0), battery(-30.0), pump(40.0), turbine(120.0), solar(60.0, 0),
     "0 1 0 0 0 0 0 | 4 1 0 0 0 0 -23000 | 4 1 0 0 0 0 33000 | 4 1 0 0 0 0 111500 | "
     "4 1 0 0 0 0 71000 | 4 1 0 0 0 0 24000"),
]

README = """# Sample

`register.bin` and `intervals.bin` for the program, written by `tools/make_sample.py`: five units and an aggregate, run
lengths 2 3 4 and 2 3 4, fourteen intervals. Points 1, 2, 3 and 6 are in region 0, points 4 and 5 in region 1.
`expected` is what the program prints on them, worked out by hand in that script. There are no operator calls in the
program, so points stay declared to the end.

- Point 1, a hydro unit in the chain: off with the aggregate at 3, Off-Target at 4, unreadable (no number) at 5 and so
  without a kept line at 6, off alone at 9; else Normal.
- Point 2, a battery in the chain, charging: SMALL from 7, DOUBT at 9, LARGE in manual mode at 10 (status 2 instead of
  3), declared at 11 at -23,000.
- Point 3, a pumped load in the chain: too low from 7, NC-Pending at 9, 2 in manual mode at 10, DOUBT at 11, declared at
  12 at its own MW, 33,000.
- Point 4, a gas turbine in no chain with regulation: one status after the other from 3, DOUBT at 5, bad telemetry at 7,
  declared at 8 at 111,500; back on target from 9, and its level stands.
- Point 5, a solar farm in no chain, semi-scheduled: OFF at 2 and 3, where the cap flag of the interval before is 0;
  20 MW under its target at 4, which is reported and CLEAR; SMALL at 5, LARGE at 6; OFF at 7 for the flag of 6, which
  clears its runs; one status after the other from 8, NC-Pending at 10, DOUBT in manual mode at 11 (status 2 instead of
  3), declared at 12 at 71,000; under its target at 13, and its level stands.
- Point 6, the aggregate of 1, 2 and 3, loads subtracted: OFF at 3, within its trigger at 4 when point 1 is not, BLANK
  at 5 and 6 for point 1's line, SMALL from 7, LARGE at 10, declared at 12 at 80,000 - 23,000 - 33,000 = 24,000.

Status and mark of points 1 to 6 at each interval, by hand (marks 0 OFF, 1 BLANK, 2 CLEAR, 3 DOUBT, 4 SMALL, 5 LARGE).
The mask is 3 where both regions are automatic, 2 where region 1 alone is, and 1 where region 0 alone is.

| interval | mask | 1 | 2 | 3 | 4 | 5 | 6 |
|---|---|---|---|---|---|---|---|
"""


def files():
    """name -> bytes."""
    table = ""
    expected = ""
    for number, mask, *_, printed in INTERVALS:
        points = printed.split(" | ")
        marked = " | ".join(" ".join(point.split()[:2]) for point in points)
        table += f"| {number} | {mask} | {marked} |\n"
        expected += "".join(f"{number} {point} {text}\n" for point, text in enumerate(points, 1))
    return {
        "register.bin": REGISTER,
        "intervals.bin": b"".join(interval(*parts[:-1]) for parts in INTERVALS),
        "README.md": (README + table).encode(),
        "expected": expected.encode(),
    }


def main(arguments):
    if not arguments:
        FOLDER.mkdir(exist_ok=True)
        for name, contents in files().items():
            (FOLDER / name).write_bytes(contents)
        return 0
    if arguments == ["--check"]:
        found = {path.name: path.read_bytes() for path in FOLDER.iterdir()} if FOLDER.is_dir() else {}
        wanted = files()
        wrong = sorted(name for name in found.keys() | wanted.keys() if found.get(name) != wanted.get(name))
        for name in wrong:
            print(f"sample/{name}: differs")
        print(f"sample: {len(wanted)} files, {len(wrong)} wrong")
        return 1 if wrong else 0
    print(__doc__)
    return 2


if __name__ == "__main__":
    sys.exit(main(sys.argv[1:]))
