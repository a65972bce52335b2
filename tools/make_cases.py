#!/usr/bin/env python3
"""Data folders for the program: tests/program/NAME/{register.bin,intervals.bin,expected}.

    make_cases.py                  writes the folders
    make_cases.py --check          compares the folders with what this script makes
    make_cases.py --check PROGRAM  and runs `PROGRAM FOLDER` on each, comparing its output with `expected`

Every expected line is worked out by hand from the papers, 01 and of 02 the changes 2026-01 (kind 4), 2026-02 (levels)
and 2026-09 (regions); nothing here computes a mark or a level. A printed line is interval, point, status, mark (0 OFF,
1 BLANK, 2 CLEAR, 3 DOUBT, 4 SMALL, 5 LARGE), small run, large run, error, small trigger, level.
"""

import pathlib
import subprocess
import sys

import folders
from plant_bytes import (AUTOMATIC, BAD, BIDIRECTIONAL, GENERATING, LOAD, MANUAL, SEMI_SCHEDULED, SUBSTITUTED, interval, line,
                         regions, register)

ROOT = pathlib.Path(__file__).resolve().parent.parent / "tests" / "program"
LENGTHS = (2, 3, 4, 2, 3, 4)


def plain(mw, **changes):
    """The worked example's line: MWB and MWO 100,000, no regulation, all rates 3 MW per minute.

    Triggers: small max(600,000, min(300,000, 600,000)) = 600,000; large max(600,000, min(500,000, 1,200,000)) = 600,000.
    """
    return line(mw, **({"mwb": 100_000, "mwo": 100_000} | changes))


def wide(mw, **changes):
    """MWO 200,000 and all rates 9 MW per minute: small trigger 600,000 (6,000 kW), large 1,000,000 (10,000 kW).

    min(600,000, 1,800,000) = 600,000; min(1,000,000, 3,600,000) = 1,000,000.
    """
    return line(mw, **({"mwb": 100_000, "mwo": 200_000, "bid": (9000, 9000), "scada": (9.0, 9.0)} | changes))


ONE_UNIT = register(LENGTHS, [(GENERATING, 0)])
EXAMPLE = [(10, 100.0), (11, 107.0), (12, 93.0)]
EXAMPLE_BUFFERS = [interval(number, AUTOMATIC, plain(mw)) for number, mw in EXAMPLE]
EXAMPLE_LINES = ["10 1 0 1 0 0 0 0 0", "11 1 1 5 1 1 7000 600000 0", "12 1 2 5 2 2 -7000 600000 0"]


def worked_example():
    """Word for word from the paper."""
    return ONE_UNIT, EXAMPLE_BUFFERS, EXAMPLE_LINES


def load():
    """A load in no chain, kept FCR 5,000 and FCL 0: up = FCL = 0, down = FCR = 5,000."""
    def sent(mw):
        return plain(mw, fcr=5_000)

    powers = [100.0, 89.0, 88.999, 106.0, 106.001, 95.0]
    return (
        register(LENGTHS, [(LOAD, 0)]),
        [interval(number, AUTOMATIC, sent(mw)) for number, mw in enumerate(powers, 1)],
        [
            "1 1 0 1 0 0 0 0 0",  # nothing kept
            "2 1 0 2 0 0 -6000 600000 0",  # 95,000 - 89,000 = 6,000: 600,000 is not greater than 600,000
            "3 1 1 5 1 1 -6001 600000 0",  # 600,100 is greater than both triggers
            "4 1 0 2 0 0 6000 600000 0",  # 106,000 - (100,000 + 0): CLEAR, runs 0
            "5 1 1 5 1 1 6001 600000 0",
            "6 1 0 2 0 0 0 600000 0",  # 95,000 is just within the margin
        ],
    )


def chain():
    """Chain 3 -> 1 -> 2 (battery, generating unit, load) as point 5; unit 4 in no chain."""
    def one(mw, **changes):  # generating
        return line(mw, **({"mwb": 100_000, "mwo": 300_000, "fcr": 2_000, "fcl": 1_000,
                            "bid": (4_000, 5_000), "scada": (4.5, 4.5), "mode": 2} | changes))

    def two(mw, **changes):  # load: up = FCL = 1,500, down = FCR = 500
        return line(mw, **({"mwb": 50_000, "mwo": 100_000, "fcr": 500, "fcl": 1_500,
                            "bid": (3_000, 2_000), "scada": (6.0, 2.5), "mode": 2} | changes))

    def three(mw, **changes):  # battery, charging
        return line(mw, **({"mwb": -20_000, "mwo": 80_000,
                            "bid": (10_000, 10_000), "scada": (8.0, 8.0), "mode": 2} | changes))

    buffers = [
        interval(100, AUTOMATIC, one(100.0), two(50.0), three(-20.0), plain(100.0)),
        interval(101, AUTOMATIC, one(103.0), two(41.0), three(-15.0), plain(106.0)),
        interval(102, AUTOMATIC, one(121.0, mode=0), two(41.0, mode=1), three(-12.0, quality=SUBSTITUTED), plain(106.001)),
        interval(103, AUTOMATIC, one(100.0), two(50.0, mwb=-1), three(-20.0), plain(100.0, quality=BAD)),
        interval(104, AUTOMATIC, one(100.0), two(50.0), three(-20.0), plain(94.0)),
        interval(105, AUTOMATIC, one(100.0), two(50.0), three(-20.0), plain(100.0, mode=2)),
    ]
    expected = [
        # 100: nothing kept anywhere.
        "100 1 0 1 0 0 0 0 0",
        "100 2 0 1 0 0 0 0 0",
        "100 3 0 1 0 0 0 0 0",
        "100 4 0 1 0 0 0 0 0",
        "100 5 0 1 0 0 0 0 0",
        # 101, unit 1: 103,000 - (100,000 + 2,000) = 1,000. Target below: ramp downs, min(4,500, 5,000) = 4,500;
        # small min(900,000, 900,000) = 900,000.
        "101 1 0 2 0 0 1000 900000 0",
        # Unit 2: 49,500 - 41,000 = 8,500 too little. Target above: a load's own ramp ups, min(6,000, 3,000) = 3,000;
        # min(300,000, 600,000) and min(500,000, 1,200,000) are both under 600,000. LARGE.
        "101 2 1 5 1 1 -8500 600000 0",
        # Unit 3: -15,000 - (-20,000) = 5,000; 3 x 80,000 is under 600,000; 500,000 is not greater.
        "101 3 0 2 0 0 5000 600000 0",
        # Unit 4: 6,000, exactly the trigger.
        "101 4 0 2 0 0 6000 600000 0",
        # Aggregate: kept MWB 100,000 - 50,000 - 20,000 = 30,000; MW 103,000 - 41,000 - 15,000 = 47,000; up 2,000 + 500 =
        # 2,500 (FCR of the load too). Error 47,000 - 32,500 = 14,500. Sums 30,000 below 47,000: kinds 1 and 3 down,
        # 4,500 + 8,000 = 12,500; the load up, 3,000. MWO max(380,000, 100,000). Small min(1,140,000, 2,500,000), large
        # min(1,900,000, 5,000,000): 1,450,000 is SMALL.
        "101 5 1 4 1 0 14500 1140000 0",
        # 102: modes 0 and 1 are OFF for a member; unit 3 is 8,000 off and substituted: DOUBT.
        "102 1 0 0 0 0 0 0 0",
        "102 2 0 0 0 0 0 0 0",
        "102 3 0 3 0 0 8000 600000 0",
        "102 4 1 5 1 1 6001 600000 0",
        # Not all modes are 0, so it goes on: 121,000 - 41,000 - 12,000 = 68,000; 68,000 - 32,500 = 35,500; a member is
        # substituted: DOUBT, the run stands. Directions and MWO as before.
        "102 5 1 3 1 0 35500 1140000 0",
        # 103: unit 1 at its target: least of four, 4,000; small min(900,000, 800,000).
        "103 1 0 2 0 0 0 800000 0",
        # A load's target of -1 is unreadable: BLANK for it and for its aggregate alone.
        "103 2 0 1 0 0 0 0 0",
        "103 3 0 2 0 0 0 600000 0",
        # Quality 2: BLANK, the run stands.
        "103 4 1 1 1 1 0 0 0",
        "103 5 1 1 1 0 0 0 0",
        # 104: nothing is kept for unit 2, so BLANK once more. Unit 4's line of quality 2 was kept.
        "104 1 0 2 0 0 0 800000 0",
        "104 2 0 1 0 0 0 0 0",
        "104 3 0 2 0 0 0 600000 0",
        "104 4 0 2 0 0 -6000 600000 0",
        "104 5 1 1 1 0 0 0 0",
        # 105: unit 4 in no chain with conformance mode 2 is unreadable. Aggregate at its target: least of four each,
        # 4,000 + 8,000 = 12,000; 3 x 380,000 is less than 200 x 12,000.
        "105 1 0 2 0 0 0 800000 0",
        "105 2 0 2 0 0 0 600000 0",
        "105 3 0 2 0 0 0 600000 0",
        "105 4 0 1 0 0 0 0 0",
        "105 5 0 2 0 0 0 1140000 0",
    ]
    return register(LENGTHS, [(GENERATING, 2), (LOAD, 0), (BIDIRECTIONAL, 1), (GENERATING, 0)], [3]), buffers, expected


def aggregate_rates():
    """Generating unit 1 and load 2 in a chain, MWO so wide that the trigger shows 200 x ROC."""
    def one(mw):  # up min(7,250, 7,000) = 7,000; down min(8,500, 9,000) = 8,500
        return line(mw, mwb=500_000, mwo=2_000_000, bid=(7_000, 9_000), scada=(7.25, 8.5), mode=2)

    def two(mw):  # up min(12,000, 20,000) = 12,000; down min(6,062.5 -> 6,063, 6,500) = 6,063
        return line(mw, mwb=300_000, mwo=1_500_000, bid=(20_000, 6_500), scada=(12.0, 6.0625), mode=2)

    powers = [(500.0, 300.0), (490.0, 300.0), (510.0, 299.0), (501.0, 301.0), (515.0, 290.0)]
    return (
        register(LENGTHS, [(GENERATING, 2), (LOAD, 0)], [1]),
        [interval(number, AUTOMATIC, one(first), two(second)) for number, (first, second) in enumerate(powers, 1)],
        [
            "1 1 0 1 0 0 0 0 0",
            "1 2 0 1 0 0 0 0 0",
            "1 3 0 1 0 0 0 0 0",
            # 2: 200,000 above 190,000: unit 1 up 7,000, load down 6,063; the greater is 7,000. The load itself is at its
            # target: least of four, 6,063.
            "2 1 0 2 0 0 -10000 1400000 0",
            "2 2 0 2 0 0 0 1212600 0",
            "2 3 0 2 0 0 -10000 1400000 0",
            # 3: 200,000 below 211,000: unit 1 down 8,500, load up 12,000. The load's own target is above: up.
            "3 1 0 2 0 0 10000 1700000 0",
            "3 2 0 2 0 0 -1000 2400000 0",
            "3 3 0 2 0 0 11000 2400000 0",
            # 4: equal sums: least of four each, 7,000 and 6,063, whatever the members' own directions.
            "4 1 0 2 0 0 1000 1700000 0",
            "4 2 0 2 0 0 1000 1212600 0",
            "4 3 0 2 0 0 0 1400000 0",
            # 5: 225,000 - 200,000 = 25,000; 2,500,000 is above 2,400,000 and not above 400 x 12,000: SMALL. Neither
            # member is beyond its own trigger: 15,000 against 17,000, 10,000 against 24,000.
            "5 1 0 2 0 0 15000 1700000 0",
            "5 2 0 2 0 0 -10000 2400000 0",
            "5 3 1 4 1 0 25000 2400000 0",
        ],
    )


def declaration():
    """Lengths 2 3 4 and 2 3 5: a backlog of manual mode, then a declaration by the small run."""
    sent = [
        (1, MANUAL, wide(100.0)),
        (2, MANUAL, wide(108.0)),
        (3, MANUAL, wide(112.0)),
        (4, MANUAL, wide(112.0)),
        (5, AUTOMATIC, wide(112.0, quality=SUBSTITUTED)),
        (6, AUTOMATIC, wide(91.5)),
        (7, AUTOMATIC, wide(100.0)),
        (8, MANUAL, wide(120.0)),
    ]
    return (
        register((2, 3, 4, 2, 3, 5), [(GENERATING, 0)]),
        [interval(*parts) for parts in sent],
        [
            "1 1 0 1 0 0 0 0 0",  # nothing kept
            "2 1 1 4 1 0 8000 600000 0",  # 800,000: SMALL
            "3 1 2 5 2 1 12000 600000 0",  # 1,200,000: LARGE; small run 2: Not-Responding
            "4 1 2 5 3 2 12000 600000 0",  # small run 3 is NC-Pending, which manual mode shows as 2
            "5 1 3 3 3 2 12000 600000 0",  # DOUBT: runs stand; automatic mode shows 3
            "6 1 4 4 0 0 -8500 600000 91500",  # small run 4: declared at its MW; runs 0
            "7 1 4 2 0 0 0 600000 91500",  # CLEAR, but the level stands
            "8 1 4 5 0 0 20000 600000 91500",  # not declared again
        ],
    )


def runs():
    """Lengths 5 6 7 and 2 3 4: SMALL clears the large run; the large run declares."""
    powers = [100.0, 112.0, 112.0, 108.0, 112.0, 112.0, 100.0, 88.0, 112.0, 88.0, 112.0]
    return (
        register((5, 6, 7, 2, 3, 4), [(BIDIRECTIONAL, 0)]),
        [interval(number, AUTOMATIC, wide(mw)) for number, mw in enumerate(powers, 1)],
        [
            "1 1 0 1 0 0 0 0 0",
            "2 1 1 5 1 1 12000 600000 0",
            "3 1 2 5 2 2 12000 600000 0",  # large run 2
            "4 1 1 4 3 0 8000 600000 0",  # SMALL: large run 0, small run below 5
            "5 1 1 5 4 1 12000 600000 0",
            "6 1 2 5 5 2 12000 600000 0",  # both lengths to Not-Responding
            "7 1 0 2 0 0 0 600000 0",  # CLEAR
            "8 1 1 5 1 1 -12000 600000 0",
            "9 1 2 5 2 2 12000 600000 0",  # the error's side does not matter
            "10 1 3 5 3 3 -12000 600000 0",  # large run 3
            "11 1 4 5 0 0 12000 600000 112000",  # large run 4: declared
        ],
    )


def jump():
    """A jump makes the kept line stale; the run stands. Numbers do not wrap."""
    sent = [(4294967290, 100.0), (4294967291, 107.0), (4294967294, 107.0), (4294967295, 107.0), (0, 107.0), (1, 107.0)]
    return (
        ONE_UNIT,
        [interval(number, AUTOMATIC, plain(mw)) for number, mw in sent],
        [
            "4294967290 1 0 1 0 0 0 0 0",
            "4294967291 1 1 5 1 1 7000 600000 0",
            "4294967294 1 1 1 1 1 0 0 0",
            "4294967295 1 2 5 2 2 7000 600000 0",
            "refused 21",
        ],
    )


def floats():
    """Readable to the bound and not beyond it; halves away from zero."""
    def bits(word, at=28):
        sent = bytearray(wide(100.0, mwb=0))
        sent[at:at + 4] = word.to_bytes(4, "little")
        return bytes(sent)

    sent = [
        bits(0x80000000),  # 1: minus zero
        bits(0x3D800000),  # 2: 0.0625 MW, 62.5 kW
        bits(0xBD800000),  # 3: -0.0625 MW
        bits(0x44FA0000),  # 4: 2000 MW
        bits(0x44FA0001),  # 5: just beyond
        bits(0x00000001),  # 6: the least float
        bits(0x7FC00000),  # 7: not a number
        bits(0x00000000),  # 8
        bits(0x80000001, 32),  # 9: a rate below zero
        bits(0x80000000, 36),  # 10: a rate of minus zero, MW 100
        bits(0x44FA0001, 36),  # 11: a rate beyond 2000
    ]
    return (
        register((2, 3, 255, 2, 3, 255), [(GENERATING, 0)]),
        [interval(number, AUTOMATIC, buffer) for number, buffer in enumerate(sent, 1)],
        [
            "1 1 0 1 0 0 0 0 0",  # nothing kept
            "2 1 0 2 0 0 63 600000 0",
            "3 1 0 2 0 0 -63 600000 0",
            "4 1 1 5 1 1 2000000 600000 0",  # 200,000,000 is LARGE
            "5 1 1 1 1 1 0 0 0",  # unreadable
            "6 1 1 1 1 1 0 0 0",  # nothing kept; MW is 0
            "7 1 1 1 1 1 0 0 0",  # unreadable
            "8 1 1 1 1 1 0 0 0",  # nothing kept
            "9 1 1 1 1 1 0 0 0",  # unreadable
            "10 1 1 1 1 1 0 0 0",  # nothing kept
            "11 1 1 1 1 1 0 0 0",  # unreadable
        ],
    )


def solar():
    """Semi-scheduled unit 2 in no chain, beside the chain 1 -> 3 (generating unit, load), point 5, and generating unit 4.

    All own triggers are as `wide` says. Unit 2 is on target from 100,000 - 500 to 100,000 + 1,000. The aggregate: target
    100,000 - 40,000 = 60,000, MWO max(200,000, 200,000), ROC max(9,000, 9,000), so its triggers are 600,000 and 1,000,000 too.
    """
    def sun(mw, cap, **changes):
        return wide(mw, fcr=1_000, fcl=500, cap=cap, **changes)

    # What is printed of a point without runs: nothing kept; and on target.
    none, on = "0 1 0 0 0 0 0", "0 2 0 0 0 600000 0"
    # number, mode, MW of unit 1, lines of units 2 and 4 (unit 3 draws its 40 MW throughout); what is printed of points 1 to 5.
    steps = [
        # Nothing kept.
        (1, AUTOMATIC, 100.0, sun(120.0, 0), wide(100.0), none, none, none, none, none),
        # 19,000 too high, but the kept flag is 0: OFF. Unit 4 is 7,000 too high: SMALL.
        (2, AUTOMATIC, 100.0, sun(120.0, 0), wide(107.0), on, "0 0 0 0 0 0 0", on, "1 4 1 0 7000 600000 0", on),
        # This line's flag is only kept: OFF. It clears nothing of unit 4, which is BLANK for its quality.
        (3, AUTOMATIC, 100.0, sun(120.0, 1), wide(0.0, quality=BAD), on, "0 0 0 0 0 0 0", on, "1 1 1 0 0 0 0", on),
        # The kept flag is 1: 108,000 - 101,000 = 7,000, SMALL. Unit 4's bad line was kept: 7,000, small run 2.
        (4, AUTOMATIC, 100.0, sun(108.0, 1), wide(107.0), on, "1 4 1 0 7000 600000 0", on, "2 4 2 0 7000 600000 0", on),
        # 11,000: LARGE, small run 2, large run 1. Unit 1 is 8,000 too high and with it the aggregate, 68,000 against 60,000.
        (5, AUTOMATIC, 108.0, sun(112.0, 0), wide(100.0), "1 4 1 0 8000 600000 0", "2 5 2 1 11000 600000 0", on, on,
         "1 4 1 0 8000 600000 0"),
        # The kept flag is 0: OFF clears both runs of unit 2 and of no other point.
        (6, AUTOMATIC, 108.0, sun(112.0, 1), wide(100.0), "2 4 2 0 8000 600000 0", "0 0 0 0 0 0 0", on, on,
         "2 4 2 0 8000 600000 0"),
        # 107,000 - 101,000 = 6,000: 600,000 is not greater than 600,000; then one more.
        (7, AUTOMATIC, 100.0, sun(107.0, 1), wide(100.0), on, "0 2 0 0 6000 600000 0", on, on, on),
        (8, AUTOMATIC, 100.0, sun(107.001, 1), wide(100.0), on, "1 4 1 0 6001 600000 0", on, on, on),
        # 99,500 - 93,500 = 6,000 too low, then 6,001: either is CLEAR, and the first clears the run.
        (9, AUTOMATIC, 100.0, sun(93.5, 1), wide(100.0), on, "0 2 0 0 -6000 600000 0", on, on, on),
        (10, AUTOMATIC, 100.0, sun(93.499, 1), wide(100.0), on, "0 2 0 0 -6001 600000 0", on, on, on),
        # LARGE; then 99,500 - 20,000 = 79,500 too low, far past the large trigger: CLEAR, both runs 0. Unit 4 is as low: LARGE.
        (11, AUTOMATIC, 100.0, sun(112.0, 1), wide(100.0), on, "1 5 1 1 11000 600000 0", on, on, on),
        (12, AUTOMATIC, 100.0, sun(20.0, 1), wide(20.5), on, "0 2 0 0 -79500 600000 0", on, "1 5 1 1 -79500 600000 0", on),
        # LARGE; DOUBT when substituted, and the runs stand; too low and substituted: CLEAR all the same.
        (13, AUTOMATIC, 100.0, sun(112.0, 1), wide(100.0), on, "1 5 1 1 11000 600000 0", on, on, on),
        (14, AUTOMATIC, 100.0, sun(112.0, 1, quality=SUBSTITUTED), wide(100.0), on, "1 3 1 1 11000 600000 0", on, on, on),
        (15, AUTOMATIC, 100.0, sun(20.0, 1, quality=SUBSTITUTED), wide(100.0), on, "0 2 0 0 -79500 600000 0", on, on, on),
        # LARGE; a flag of 2 is unreadable; then nothing is kept; then bad quality. The runs stand, and the bad line is kept.
        (16, AUTOMATIC, 100.0, sun(112.0, 1), wide(100.0), on, "1 5 1 1 11000 600000 0", on, on, on),
        (17, AUTOMATIC, 100.0, sun(112.0, 2), wide(100.0), on, "1 1 1 1 0 0 0", on, on, on),
        (18, AUTOMATIC, 100.0, sun(112.0, 1), wide(100.0), on, "1 1 1 1 0 0 0", on, on, on),
        (19, AUTOMATIC, 100.0, sun(112.0, 1, quality=BAD), wide(100.0), on, "1 1 1 1 0 0 0", on, on, on),
        (20, AUTOMATIC, 100.0, sun(112.0, 0), wide(100.0), on, "2 5 2 2 11000 600000 0", on, on, on),
        # A jump: the kept flag of 0 is stale like its target, so BLANK and not OFF; the runs stand.
        (23, AUTOMATIC, 100.0, sun(112.0, 1), wide(100.0), none, "2 1 2 2 0 0 0", none, none, none),
        # 7,000: SMALL, small run 3: NC-Pending. At 4 nothing is declared in manual mode, which shows 2.
        (24, AUTOMATIC, 100.0, sun(108.0, 1), wide(100.0), on, "3 4 3 0 7000 600000 0", on, on, on),
        (25, MANUAL, 100.0, sun(108.0, 1), wide(100.0), on, "2 4 4 0 7000 600000 0", on, on, on),
        # 107,500 - 101,000 = 6,500: SMALL in automatic mode, small run 5: declared at its MW.
        (26, AUTOMATIC, 100.0, sun(107.5, 0), wide(100.0), on, "4 4 0 0 6500 600000 107500", on, on, on),
        # OFF, CLEAR and LARGE while declared: the level stands.
        (27, AUTOMATIC, 100.0, sun(107.5, 1), wide(100.0), on, "4 0 0 0 0 0 107500", on, on, on),
        (28, AUTOMATIC, 100.0, sun(20.0, 1), wide(100.0), on, "4 2 0 0 -79500 600000 107500", on, on, on),
        (29, AUTOMATIC, 100.0, sun(112.0, 1), wide(100.0), on, "4 5 0 0 11000 600000 107500", on, on, on),
    ]
    load = wide(40.0, mwb=40_000, mode=2)
    return (
        register(LENGTHS, [(GENERATING, 3), (SEMI_SCHEDULED, 0), (LOAD, 0), (GENERATING, 0)], [1]),
        [interval(number, mode, wide(one, mode=2), two, load, four) for number, mode, one, two, four, *_ in steps],
        [f"{number} {point} {text}" for number, _, _, _, _, *printed in steps for point, text in enumerate(printed, 1)],
    )


def solar_alone():
    """The worked example with a semi-scheduled unit and a cap flag of 1: 7,000 too low is CLEAR. Then a flag of 255."""
    flags = [(10, 100.0, 1), (11, 107.0, 1), (12, 93.0, 1), (13, 107.0, 255), (14, 107.0, 1), (15, 107.0, 1)]
    return (
        register(LENGTHS, [(SEMI_SCHEDULED, 0)]),
        [interval(number, AUTOMATIC, plain(mw, cap=cap)) for number, mw, cap in flags],
        [
            "10 1 0 1 0 0 0 0 0",
            "11 1 1 5 1 1 7000 600000 0",
            "12 1 0 2 0 0 -7000 600000 0",
            "13 1 0 1 0 0 0 0 0",  # unreadable
            "14 1 0 1 0 0 0 0 0",  # nothing kept
            "15 1 1 5 1 1 7000 600000 0",
        ],
    )


def tripped():
    """A gas unit trips with its auxiliaries running and is declared at 0, not at -300 (02, 2026-02).

    Point 1 is the gas unit and 2 a battery, both in no chain; chain 3 -> 4 (pumped load, hydro unit) is point 6; 5 is a solar
    farm in no chain, under its cap throughout. All own triggers are as `wide` says. The aggregate: target -40,000 + 30,000 =
    -10,000, MWO max(200,000, 200,000), ROC max(9,000, 9,000), so its triggers are 600,000 and 1,000,000 too.
    """
    none, on = "0 1 0 0 0 0 0", "0 2 0 0 0 600000 0"
    # MW of units 1 to 5; what is printed of points 1 to 6.
    steps = [
        # Nothing kept; then all on target.
        (100.0, -50.0, 40.0, 30.0, 60.0, none, none, none, none, none, none),
        (100.0, -50.0, 40.0, 30.0, 60.0, on, on, on, on, on, on),
        # The gas unit runs down: -(100,000 - 12,000). The solar farm draws 100: -(60,000 - (-100)), too low and so CLEAR.
        (12.0, -50.0, 40.0, 30.0, -0.1, "1 5 1 1 -88000 600000 0", on, on, on, "0 2 0 0 -60100 600000 0", on),
        # The gas unit draws 300: -(100,000 - (-300)). The battery: -43,000 - (-50,000), SMALL. The pump reads -200, -(40,000 -
        # (-200)), and the hydro unit draws 500, -(30,000 - (-500)): both LARGE. The aggregate: 200 - 500 = -300, and -300 -
        # (-10,000) is SMALL.
        (-0.3, -43.0, -0.2, -0.5, 60.0, "2 5 2 2 -100300 600000 0", "1 4 1 0 7000 600000 0", "1 5 1 1 -40200 600000 0",
         "1 5 1 1 -30500 600000 0", on, "1 4 1 0 9700 600000 0"),
        # The battery: -43,500 - (-50,000). The solar farm: 70,000 - 60,000 = 10,000, at the large trigger: SMALL.
        (-0.3, -43.5, -0.2, -0.5, 70.0, "3 5 3 3 -100300 600000 0", "2 4 2 0 6500 600000 0", "2 5 2 2 -40200 600000 0",
         "2 5 2 2 -30500 600000 0", "1 4 1 0 10000 600000 0", "2 4 2 0 9700 600000 0"),
        # The gas unit's run is 4: declared, at 0. The battery: -42,000 - (-50,000). The solar farm: 72,000 - 60,000, LARGE.
        (-0.3, -42.0, -0.2, -0.5, 72.0, "4 5 0 0 -100300 600000 0", "3 4 3 0 8000 600000 0", "3 5 3 3 -40200 600000 0",
         "3 5 3 3 -30500 600000 0", "2 5 2 1 12000 600000 0", "3 4 3 0 9700 600000 0"),
        # Points 2, 3, 4 and 6 are declared: the battery at -42,500, pump and hydro unit at 0, their aggregate at 200 - 500 =
        # -300; floors on its members would give 0.
        (-0.25, -42.5, -0.2, -0.5, 72.0, "4 5 0 0 -100250 600000 0", "4 4 0 0 7500 600000 -42500", "4 5 0 0 -40200 600000 0",
         "4 5 0 0 -30500 600000 0", "3 5 3 2 12000 600000 0", "4 4 0 0 9700 600000 -300"),
        # All on target but the solar farm, whose small run is 4: declared at 70,000. The levels stand.
        (100.0, -50.0, 40.0, 30.0, 70.0, "4 2 0 0 0 600000 0", "4 2 0 0 0 600000 -42500", "4 2 0 0 0 600000 0",
         "4 2 0 0 0 600000 0", "4 4 0 0 10000 600000 70000", "4 2 0 0 0 600000 -300"),
        # Other MW: -(100,000 - 50,000); -300 - (-50,000); 50,000 - 40,000; on target; -(60,000 - (-100)). The aggregate:
        # -50,000 + 30,000 = -20,000, so -((-10,000) - (-20,000)). The levels stand.
        (50.0, -0.3, 50.0, 30.0, -0.1, "4 5 0 0 -50000 600000 0", "4 5 0 0 49700 600000 -42500", "4 4 0 0 10000 600000 0",
         "4 2 0 0 0 600000 0", "4 2 0 0 -60100 600000 70000", "4 4 0 0 -10000 600000 -300"),
    ]

    def lines(gas, battery, pump, hydro, sun):
        return (wide(gas), wide(battery, mwb=-50_000), wide(pump, mwb=40_000, mode=2), wide(hydro, mwb=30_000, mode=2),
                wide(sun, mwb=60_000, cap=1))

    return (
        register(LENGTHS, [(GENERATING, 0), (BIDIRECTIONAL, 0), (LOAD, 4), (GENERATING, 0), (SEMI_SCHEDULED, 0)], [3]),
        [interval(number, AUTOMATIC, *lines(*step[:5])) for number, step in enumerate(steps, 1)],
        [f"{number} {point} {text}" for number, step in enumerate(steps, 1) for point, text in enumerate(step[5:], 1)],
    )


def levels():
    """MW about zero and at its least, against 100,000 each; chain 9 -> 10 (generating units) is point 11.

    Triggers are as `plain` says. The aggregate: -300 + 500 = 200 against 200,000, with MWO 200,000 and ROC 6,000, so 600,000
    and 1,000,000. All are LARGE.
    """
    # kind, MW, error and level of units 1 to 8 in no chain and of 9 and 10 in the chain
    units = [
        (GENERATING, -0.0006, -100_001, 0),  # -0.6 kW is -1
        (LOAD, -0.0625, -100_063, 0),  # -62.5 kW is -63
        (BIDIRECTIONAL, -0.0625, -100_063, -63),
        (BIDIRECTIONAL, -0.0004, -100_000, 0),  # -0.4 kW is 0
        (GENERATING, 0.001, -99_999, 1),
        (LOAD, 0.0, -100_000, 0),
        (GENERATING, -2000.0, -2_100_000, 0),
        (BIDIRECTIONAL, -2000.0, -2_100_000, -2_000_000),
        (GENERATING, -0.3, -100_300, 0),
        (GENERATING, 0.5, -99_500, 500),
    ]
    ends = [(error, level) for _, _, error, level in units] + [(-199_800, 200)]
    lines = [plain(mw, mode=2 if unit > 8 else 0) for unit, (_, mw, _, _) in enumerate(units, 1)]
    heads = {2: "1 5 1 1", 3: "2 5 2 2", 4: "3 5 3 3", 5: "4 5 0 0", 6: "4 5 0 0"}
    printed = [f"1 {point} 0 1 0 0 0 0 0" for point in range(1, 12)]  # nothing kept
    for number, head in heads.items():  # run 4 at interval 5: declared; and the levels stand
        printed += [f"{number} {point} {head} {error} 600000 {level if number >= 5 else 0}"
                    for point, (error, level) in enumerate(ends, 1)]
    return (
        register(LENGTHS, [(kind, 10 if unit == 9 else 0) for unit, (kind, *_) in enumerate(units, 1)], [9]),
        [interval(number, AUTOMATIC, *lines) for number in range(1, 7)],
        printed,
    )


def two_regions():
    """Chain 1 -> 2 (generating unit, load) with its aggregate, point 4, in region 3; generating unit 3 in region 1.

    All triggers are as `wide` says, for the aggregate too: MWO max(200,000, 200,000), ROC max(9,000, 9,000). The load draws its
    40 MW throughout. With unit 1 at 111,000 the aggregate has 71,000 against 60,000: both are 11,000 over, LARGE.
    """
    none, on = "0 1 0 0 0 0 0", "0 2 0 0 0 600000 0"
    # Mask, MW of units 1 and 3; what is printed of points 1 to 4.
    steps = [
        (regions(1), 100.0, 100.0, none, none, none, none),
        (regions(1), 111.0, 107.0, "1 5 1 1 11000 600000 0", on, "1 4 1 0 7000 600000 0", "1 5 1 1 11000 600000 0"),
        (regions(1), 111.0, 107.0, "2 5 2 2 11000 600000 0", on, "2 4 2 0 7000 600000 0", "2 5 2 2 11000 600000 0"),
        # Runs of 3: region 3 is manual and shows 2, region 1 automatic and shows 3.
        (regions(1), 111.0, 107.0, "2 5 3 3 11000 600000 0", on, "3 4 3 0 7000 600000 0", "2 5 3 3 11000 600000 0"),
        # Runs of 4: region 3 is automatic and declares, region 1 manual.
        (regions(3), 111.0, 107.0, "4 5 0 0 11000 600000 111000", on, "2 4 4 0 7000 600000 0", "4 5 0 0 11000 600000 71000"),
        (regions(3), 100.0, 111.0, "4 2 0 0 0 600000 111000", on, "2 5 5 1 11000 600000 0", "4 2 0 0 0 600000 71000"),
        # Bits 0, 2 and 4 are those of regions without units.
        (regions(0, 2, 3, 4), 100.0, 107.0, "4 2 0 0 0 600000 111000", on, "2 4 6 0 7000 600000 0", "4 2 0 0 0 600000 71000"),
        # Region 1 is automatic: small run 7. Points 1 and 4 stay declared in manual mode.
        (regions(1), 111.0, 107.5, "4 5 0 0 11000 600000 111000", on, "4 4 0 0 7500 600000 107500", "4 5 0 0 11000 600000 71000"),
        (regions(*range(5)), 100.0, 100.0, "4 2 0 0 0 600000 111000", on, "4 2 0 0 0 600000 107500", "4 2 0 0 0 600000 71000"),
    ]
    load = wide(40.0, mwb=40_000, mode=2)
    return (
        register(LENGTHS, [(GENERATING, 2, 3), (LOAD, 0, 3), (GENERATING, 0, 1)], [1]),
        [interval(number, mode, wide(one, mode=2), load, wide(three)) for number, (mode, one, three, *_) in enumerate(steps, 1)],
        [f"{number} {point} {text}" for number, step in enumerate(steps, 1) for point, text in enumerate(step[3:], 1)],
    )


def refused_8_short_last():
    """The last buffer is 47 bytes."""
    return ONE_UNIT, EXAMPLE_BUFFERS[:2] + [EXAMPLE_BUFFERS[2][:47]], EXAMPLE_LINES[:2] + ["refused 8"]


def refused_8_at_once():
    """One byte of intervals."""
    return ONE_UNIT, [b"\x01"], ["refused 8"]


def refused_9():
    """Mask 32 in the second header, and its number not above the first: 9 goes before 21."""
    return ONE_UNIT, [EXAMPLE_BUFFERS[0], interval(10, 32, plain(100.0)), EXAMPLE_BUFFERS[2]], EXAMPLE_LINES[:1] + ["refused 9"]


def refused_21():
    """Interval 11 twice; what follows is not read."""
    buffers = [EXAMPLE_BUFFERS[0], EXAMPLE_BUFFERS[1], EXAMPLE_BUFFERS[1], EXAMPLE_BUFFERS[2]]
    return ONE_UNIT, buffers, EXAMPLE_LINES[:2] + ["refused 21"]


def no_intervals():
    """An empty intervals.bin prints nothing."""
    return ONE_UNIT, [], []


def missing_intervals():
    """No intervals.bin counts as empty."""
    return ONE_UNIT, None, []


def missing_register():
    """No register.bin counts as empty: under 16 bytes."""
    return None, EXAMPLE_BUFFERS, ["refused 1"]


def register_refusal(number, contents):
    return lambda: (contents, EXAMPLE_BUFFERS, [f"refused {number}"])


def changed(contents, *places):
    """Bytes with some of them replaced."""
    out = bytearray(contents)
    for at, value in places:
        out[at] = value
    return bytes(out)


# Units 1 -> 2 in a chain, 3 in none: header 0-15, units at 16, 20, 24, head at 28. A unit's region is its third byte.
CHAIN_REGISTER = register(LENGTHS, [(GENERATING, 2), (LOAD, 0), (BIDIRECTIONAL, 0)], [1])

# Chains 1 -> 2 -> 3 -> 4, 5 -> 6 -> 7 -> 8, ..: the longest register, 336 bytes.
LARGEST_REGISTER = register(
    LENGTHS, [(GENERATING, 0 if unit % 4 == 0 else unit + 1) for unit in range(1, 65)], range(1, 65, 4))


def largest():
    """64 units and 16 aggregates, all on target. An aggregate: MWO 400,000, ROC 12,000, small trigger 1,200,000."""
    buffers = [interval(number, AUTOMATIC, *[plain(100.0, mode=2)] * 64) for number in (1, 2)]
    return (
        LARGEST_REGISTER,
        buffers,
        [f"1 {point} 0 1 0 0 0 0 0" for point in range(1, 81)]  # nothing kept
        + [f"2 {unit} 0 2 0 0 0 600000 0" for unit in range(1, 65)]
        + [f"2 {aggregate} 0 2 0 0 0 1200000 0" for aggregate in range(65, 81)],
    )


CASES = {
    "worked_example": worked_example,
    "load": load,
    "chain": chain,
    "largest": largest,
    "aggregate_rates": aggregate_rates,
    "declaration": declaration,
    "runs": runs,
    "jump": jump,
    "floats": floats,
    "solar": solar,
    "solar_alone": solar_alone,
    "tripped": tripped,
    "levels": levels,
    "two_regions": two_regions,
    "refused_8_short_last": refused_8_short_last,
    "refused_8_at_once": refused_8_at_once,
    "refused_9": refused_9,
    "refused_21": refused_21,
    "no_intervals": no_intervals,
    "missing_intervals": missing_intervals,
    "missing_register": missing_register,
    "register_1_short": register_refusal(1, CHAIN_REGISTER[:15]),
    "register_1_length": register_refusal(1, CHAIN_REGISTER + b"\0"),
    "register_1_past_the_longest": register_refusal(1, LARGEST_REGISTER + bytes(4)),
    "register_1_before_3": register_refusal(1, changed(CHAIN_REGISTER[:-1], (2, 0))),
    "register_2_units": register_refusal(2, changed(CHAIN_REGISTER, (0, 65))),
    "register_2_before_length": register_refusal(2, changed(CHAIN_REGISTER[:20], (1, 17))),
    "register_3": register_refusal(3, changed(CHAIN_REGISTER, (3, 4), (16, 0))),  # Ps = Ds; and an unknown kind
    "register_4_kind": register_refusal(4, changed(CHAIN_REGISTER, (24, 5))),
    "register_4_region": register_refusal(4, changed(CHAIN_REGISTER, (26, 5))),  # unit 3, in no chain
    "register_4_unit_spare": register_refusal(4, changed(CHAIN_REGISTER, (26, 4), (27, 4))),  # unit 3, in region 4
    "register_4_before_37": register_refusal(4, changed(CHAIN_REGISTER, (22, 5))),  # unit 2, at the end of the chain
    "register_4_last_spare": register_refusal(4, changed(CHAIN_REGISTER, (31, 1), (17, 9))),  # goes before the index
    "register_5_next": register_refusal(5, changed(CHAIN_REGISTER, (25, 4), (21, 1))),  # unit 3, met by no chain
    "register_5_head": register_refusal(5, changed(CHAIN_REGISTER, (28, 0))),
    "register_6_loop": register_refusal(6, changed(CHAIN_REGISTER, (21, 1), (25, 3))),  # 2 -> 1; and unit 3's next
    "register_7": register_refusal(7, changed(CHAIN_REGISTER, (25, 3))),
    "register_7_before_30": register_refusal(7, changed(CHAIN_REGISTER, (20, 4), (25, 3))),  # unit 2 of kind 4; unit 3's next
    "register_7_before_37": register_refusal(7, changed(CHAIN_REGISTER, (22, 1), (25, 3))),  # unit 2's region; unit 3's next
    "register_30": register_refusal(30, changed(CHAIN_REGISTER, (20, 4))),  # unit 2, at the end of the chain
    "register_30_head": register_refusal(30, changed(CHAIN_REGISTER, (16, 4), (24, 4))),  # unit 1; unit 3 may be of kind 4
    "register_30_before_37": register_refusal(30, changed(CHAIN_REGISTER, (20, 4), (22, 1))),  # unit 2, of kind 4 in region 1
    "register_37": register_refusal(37, changed(CHAIN_REGISTER, (22, 1))),  # unit 2, at the end of the chain
    "register_37_head": register_refusal(37, changed(CHAIN_REGISTER, (18, 4), (26, 3))),  # unit 1; unit 3 may be in any region
}


def files(case):
    """name -> bytes of a case's folder; an absent file is left out."""
    contents, buffers, expected = case()
    out = {"expected": "".join(text + "\n" for text in expected).encode()}
    if contents is not None:
        out["register.bin"] = contents
    if buffers is not None:
        out["intervals.bin"] = b"".join(buffers)
    return out


def check(made, program):
    wrong = folders.wrong(ROOT, made)
    for name, wanted in made.items() if program else ():
        out = subprocess.run([program, str(ROOT / name)], stdout=subprocess.PIPE, check=False).stdout
        if out != wanted["expected"]:
            wrong += 1
            print(f"{name}: prints\n{out.decode()}instead of\n{wanted['expected'].decode()}", end="")
    print(f"{len(made)} cases, {wrong} wrong")
    return 1 if wrong else 0


def main(arguments):
    made = {name: files(case) for name, case in CASES.items()}
    if not arguments:
        folders.write(ROOT, made)
        return 0
    if arguments[0] == "--check" and len(arguments) <= 2:
        return check(made, arguments[1] if len(arguments) == 2 else None)
    print(__doc__)
    return 2


if __name__ == "__main__":
    sys.exit(main(sys.argv[1:]))
