#!/usr/bin/env python3
"""Lists of calls for `replay`: tests/calls/NAME/{calls.bin,expected}, and data and stdout of crates/replay.

    make_calls.py           writes the files
    make_calls.py --check   writes nothing; exit 1 where a file differs from what would be written, or where the lines of the
                            group that two lists share, `alike_1` and `alike_2` among them, are not equal

Every expected line is worked out by hand from 01, for kind 4 from 02, 2026-01, for levels from 02, 2026-02, for reasons from
02, 2026-06, for targets from 02, 2026-07, and for regions from 02, 2026-09; 02, 2026-08 changes none of them. Nothing here
computes a mark, a level, a reason or a sum over members, and no monitor is run. A step of a list is a call's bytes and the lines
that it prints. A point's line is interval, point, status (0 Normal, 1 Off-Target, 2 Not-Responding, 3 NC-Pending, 4
Non-Conforming), mark (0 OFF, 1 BLANK, 2 CLEAR, 3 DOUBT, 4 SMALL, 5 LARGE), small run, large run, error, small trigger, level. A
reason is small, large or operator, then the numbers of the first mark counted in that run and of the declaring mark. A target is
the sum of MWB, loads subtracted, then those of FCR and of FCL, over the members that have a kept line, and then 1 where every
member has one, 0 otherwise.

tests/calls/alike_*/group has the numbers of the output's lines that belong to the group, one a line. Two lists that are alike
have one name but for its end, _1 and _2.
"""

import pathlib
import struct
import sys

from plant_bytes import (AUTOMATIC, BAD, BIDIRECTIONAL, GENERATING, LOAD, MANUAL, SEMI_SCHEDULED, SUBSTITUTED, interval, line,
                         regions, register)

ROOT = pathlib.Path(__file__).resolve().parent.parent
LENGTHS = (2, 3, 4, 2, 3, 4)  # Ns, Ps, Ds, Nl, Pl, Dl


# ---- the bytes of a call


def call(tag, payload):
    return (
        struct.pack("<I", tag)  # 0 tag
        + struct.pack("<I", len(payload))  # 4 payload length
        + payload
    )


def load(registered):
    return call(1, registered)  # the register's bytes


def given(buffer, report):
    """An interval call with a report buffer of that many bytes."""
    return call(2, struct.pack("<I", report) + buffer)  # 0 report length; 4 interval buffer


def declare(point, level):
    return call(3, struct.pack("<I", point) + struct.pack("<i", level))  # 0 point; 4 level


def reinstate(point):
    return call(4, struct.pack("<I", point))  # 0 point


def look(point):
    return call(5, struct.pack("<I", point))  # 0 point


def reason(point):
    return call(6, struct.pack("<I", point))  # 0 point


def target(point):
    return call(7, struct.pack("<I", point))  # 0 point


# ---- steps: a call's bytes, then its lines


def accepted(buffer, *lines):
    """An accepted interval: 16 bytes of report and one line a point."""
    return given(buffer, 16 * len(lines)), "interval accepted", *lines


def refused(name, number, *calls):
    """Calls of one name that are all refused with one number."""
    return b"".join(calls), *[f"{name} refused {number}"] * len(calls)


def looks(*answers):
    """A look at each point from 1 on."""
    return [(look(point), f"look accepted {answer}") for point, answer in enumerate(answers, 1)]


def reinstated(*points):
    return [(reinstate(point), "reinstate accepted") for point in points]


def numbered(number, texts):
    """What is printed of the points from 1 on at an interval."""
    return [f"{number} {point} {text}" for point, text in enumerate(texts, 1)]


# ---- lines of a unit


def plain(mw, **changes):
    """MWB and MWO 100,000, no regulation, all rates 3 MW per minute.

    Triggers: small max(600,000, min(300,000, 600,000)) = 600,000; large max(600,000, min(500,000, 1,200,000)) = 600,000. An
    error of more than 6,000 is LARGE, and none is SMALL.
    """
    return line(mw, **({"mwb": 100_000, "mwo": 100_000} | changes))


def wide(mw, **changes):
    """MWB 100,000, MWO 200,000, no regulation, all rates 9 MW per minute.

    Triggers: small max(600,000, min(600,000, 1,800,000)) = 600,000; large max(600,000, min(1,000,000, 3,600,000)) = 1,000,000.
    An error of more than 6,000 is SMALL, of more than 10,000 LARGE.
    """
    return line(mw, **({"mwb": 100_000, "mwo": 200_000, "bid": (9000, 9000), "scada": (9.0, 9.0)} | changes))


ONE_UNIT = register(LENGTHS, [(GENERATING, 0)])
TWO_UNITS = register(LENGTHS, [(GENERATING, 0), (GENERATING, 0)])


# ---- the lists


def every_status():
    """One generating unit in automatic mode through every status. Small run 2, 4, 6; large run 2, 3, 4."""
    def at(number, mw, **changes):
        return interval(number, AUTOMATIC, wide(mw, **changes))

    return [
        # One unit in no chain: no visits.
        (load(register((2, 4, 6, 2, 3, 4), [(GENERATING, 0)])), "load accepted 0"),
        (look(1), "look accepted 0 0 0 0"),
        # Nothing is kept before the first interval: BLANK.
        accepted(at(1, 100.0), "1 1 0 1 0 0 0 0 0"),
        # 107,000 - 100,000 = 7,000: SMALL. Small run 1: Off-Target.
        accepted(at(2, 107.0), "2 1 1 4 1 0 7000 600000 0"),
        # -7,000: SMALL. The other side goes on with the run, 2 = Ns: Not-Responding.
        accepted(at(3, 93.0), "3 1 2 4 2 0 -7000 600000 0"),
        # 11,000: LARGE adds to both runs.
        accepted(at(4, 111.0), "4 1 2 5 3 1 11000 600000 0"),
        (look(1), "look accepted 2 3 1 0"),
        # Substituted and beyond the small trigger: DOUBT leaves the runs.
        accepted(at(5, 107.0, quality=SUBSTITUTED), "5 1 2 3 3 1 7000 600000 0"),
        # Quality 2: BLANK leaves them too, and has no error and no trigger.
        accepted(at(6, 0.0, quality=BAD), "6 1 2 1 3 1 0 0 0"),
        # The bad line was readable, so its target is kept. Small run 4 = Ps: NC-Pending.
        accepted(at(7, 111.0), "7 1 3 5 4 2 11000 600000 0"),
        (look(1), "look accepted 3 4 2 0"),
        # SMALL sets the large run to 0; small run 5 is still at Ps or more.
        accepted(at(8, 107.0), "8 1 3 4 5 0 7000 600000 0"),
        # Small run 6 = Ds in automatic mode: declared at its MW, runs 0.
        accepted(at(9, 106.001), "9 1 4 4 0 0 6001 600000 106001"),
        (look(1), "look accepted 4 0 0 106001"),
        # Marks go on while declared; CLEAR does not end it.
        accepted(at(10, 100.0), "10 1 4 2 0 0 0 600000 106001"),
        accepted(at(11, 111.0), "11 1 4 5 0 0 11000 600000 106001"),
        (reinstate(1), "reinstate accepted"),
        (look(1), "look accepted 0 0 0 0"),
        # -10,001: 1,000,100 exceeds the large trigger. Runs start at 0 after the reinstatement.
        accepted(at(12, 89.999), "12 1 1 5 1 1 -10001 600000 0"),
        # -10,000: 1,000,000 does not exceed 1,000,000: SMALL, large run 0. Small run 2.
        accepted(at(13, 90.0), "13 1 2 4 2 0 -10000 600000 0"),
        # 6,000: 600,000 does not exceed 600,000: CLEAR, runs 0.
        accepted(at(14, 106.0), "14 1 0 2 0 0 6000 600000 0"),
        # Four LARGE marks: large run 2 = Nl, 3 = Pl, 4 = Dl, ahead of the small run's lengths 4 and 6.
        accepted(at(15, 111.0), "15 1 1 5 1 1 11000 600000 0"),
        accepted(at(16, 111.0), "16 1 2 5 2 2 11000 600000 0"),
        accepted(at(17, 111.0), "17 1 3 5 3 3 11000 600000 0"),
        accepted(at(18, 111.0), "18 1 4 5 0 0 11000 600000 111000"),
        (look(1), "look accepted 4 0 0 111000"),
    ]


def operator_declaration():
    """An operator declares a unit, a member and its aggregate. Unit 1 in no chain; chain 2 -> 3 (load, battery) is point 4."""
    registered = register(LENGTHS, [(GENERATING, 0), (LOAD, 3), (BIDIRECTIONAL, 0)], [2])

    def at(number, mode, unit, battery):
        # The load stays at its target. The battery's target is -50,000. All own triggers are as `plain` says. The aggregate's
        # kept target is -100,000 - 50,000 = -150,000; MWO max(100,000, 100,000); 3 x and 5 x that are under 600,000, so both
        # of its triggers are 600,000 as well.
        return interval(number, mode, plain(unit), plain(100.0, mode=2), plain(battery, mwb=-50_000, mode=2))

    return [
        (load(registered), "load accepted 2"),
        accepted(
            at(20, MANUAL, 100.0, -50.0),
            "20 1 0 1 0 0 0 0 0",  # nothing kept
            "20 2 0 1 0 0 0 0 0",
            "20 3 0 1 0 0 0 0 0",
            "20 4 0 1 0 0 0 0 0",
        ),
        accepted(
            at(21, MANUAL, 107.0, -60.0),
            "21 1 1 5 1 1 7000 600000 0",
            "21 2 0 2 0 0 0 600000 0",
            "21 3 1 5 1 1 -10000 600000 0",  # -((-50,000) - (-60,000))
            "21 4 1 5 1 1 -10000 600000 0",  # MW -100,000 - 60,000 = -160,000 against -150,000
        ),
        # Status 1 and status 0 cannot be declared. A generating unit and a load have no level below 0: 11 goes before 22.
        refused("declare", 22, declare(1, 107_000), declare(2, 0)),
        refused("declare", 11, declare(1, -1), declare(2, -1)),
        accepted(
            at(22, MANUAL, 107.0, -60.0),
            "22 1 2 5 2 2 7000 600000 0",
            "22 2 0 2 0 0 0 600000 0",
            "22 3 2 5 2 2 -10000 600000 0",
            "22 4 2 5 2 2 -10000 600000 0",
        ),
        # The battery at status 2; its aggregate is a point of its own and stays as it was.
        (declare(3, -60_000), "declare accepted"),
        (look(3), "look accepted 4 0 0 -60000"),
        (look(4), "look accepted 2 2 2 0"),
        # The lowest level.
        (declare(4, -128_000_000), "declare accepted"),
        (look(4), "look accepted 4 0 0 -128000000"),
        # A declared point is not declared again; its level stands.
        refused("declare", 22, declare(4, 0)),
        (look(4), "look accepted 4 0 0 -128000000"),
        accepted(
            at(23, MANUAL, 107.0, -60.0),
            "23 1 2 5 3 3 7000 600000 0",  # runs 3 = Ps: manual mode shows 2 instead of 3
            "23 2 0 2 0 0 0 600000 0",
            "23 3 4 5 0 0 -10000 600000 -60000",  # declared: the mark and the error go on, runs 0
            "23 4 4 5 0 0 -10000 600000 -128000000",
        ),
        (look(1), "look accepted 2 3 3 0"),
        refused("declare", 11, declare(1, 128_000_001), declare(1, -107_000)),
        # The highest level.
        (declare(1, 128_000_000), "declare accepted"),
        (look(1), "look accepted 4 0 0 128000000"),
        accepted(
            at(24, AUTOMATIC, 100.0, -50.0),
            "24 1 4 2 0 0 0 600000 128000000",  # CLEAR ends no declaration
            "24 2 0 2 0 0 0 600000 0",
            "24 3 4 2 0 0 0 600000 -60000",
            "24 4 4 2 0 0 0 600000 -128000000",
        ),
        refused("reinstate", 23, reinstate(2)),
        (reinstate(1), "reinstate accepted"),
        (reinstate(3), "reinstate accepted"),
        (look(3), "look accepted 0 0 0 0"),
        # Reinstating the member leaves its aggregate declared.
        (look(4), "look accepted 4 0 0 -128000000"),
        (reinstate(4), "reinstate accepted"),
        (look(4), "look accepted 0 0 0 0"),
        # Not declared any more.
        refused("reinstate", 23, reinstate(4)),
        accepted(
            at(25, AUTOMATIC, 107.0, -50.0),
            "25 1 1 5 1 1 7000 600000 0",  # runs from 0 on
            "25 2 0 2 0 0 0 600000 0",
            "25 3 0 2 0 0 0 600000 0",
            "25 4 0 2 0 0 0 600000 0",
        ),
        accepted(
            at(26, AUTOMATIC, 107.0, -50.0),
            "26 1 2 5 2 2 7000 600000 0",
            "26 2 0 2 0 0 0 600000 0",
            "26 3 0 2 0 0 0 600000 0",
            "26 4 0 2 0 0 0 600000 0",
        ),
        accepted(
            at(27, AUTOMATIC, 107.0, -50.0),
            "27 1 3 5 3 3 7000 600000 0",  # automatic mode shows 3
            "27 2 0 2 0 0 0 600000 0",
            "27 3 0 2 0 0 0 600000 0",
            "27 4 0 2 0 0 0 600000 0",
        ),
        # Status 3 can be declared too, here at level 0.
        (declare(1, 0), "declare accepted"),
        (look(1), "look accepted 4 0 0 0"),
        accepted(
            at(28, AUTOMATIC, 107.0, -50.0),
            "28 1 4 5 0 0 7000 600000 0",  # declared already: not declared again at 107,000
            "28 2 0 2 0 0 0 600000 0",
            "28 3 0 2 0 0 0 600000 0",
            "28 4 0 2 0 0 0 600000 0",
        ),
    ]


def refusals_without_register():
    """20 goes before all else; refusals 1 to 7 and 30 of a load, which leave no register."""
    one, two, sun = (GENERATING, 0), [(GENERATING, 0), (GENERATING, 0)], (SEMI_SCHEDULED, 0)

    def changed(registered, **bytes_at):
        out = bytearray(registered)
        for place, value in bytes_at.items():
            out[int(place[1:])] = value
        return bytes(out)

    chained = register(LENGTHS, [(GENERATING, 2), one], [1])  # 16 header, 16-19 unit 1, 20-23 unit 2, 24-27 head
    return [
        refused("interval", 20, given(interval(1, AUTOMATIC, plain(100.0)), 16), given(b"", 0), given(bytes(48), 7)),
        refused("declare", 20, declare(1, 0), declare(1, -1), declare(0, -1), declare(0, -(2**31))),
        refused("reinstate", 20, reinstate(1), reinstate(0)),
        refused("look", 20, look(1), look(2**32 - 1)),
        # 1: under 16 bytes, whatever they are.
        refused("load", 1, load(b""), load(bytes(15)), load(b"\xff" * 15)),
        # 2: no unit, 65 units, 17 aggregates; ahead of the length, of run lengths and of spares.
        refused("load", 2, load(changed(ONE_UNIT, _0=0)), load(changed(ONE_UNIT, _0=65)), load(changed(ONE_UNIT, _1=17)),
                load(b"\xff" * 16)),
        # 1: not 16 + 4n + 4m; ahead of run lengths and of spares.
        refused("load", 1, load(ONE_UNIT + b"\0"), load(ONE_UNIT[:-1]), load(changed(ONE_UNIT, _1=1)),
                load(register((0,) * 6, [one]) + b"\1")),
        # 3: Ns under 2, Ns = Ps, Ps = Ds, and the same for the large run; ahead of an unknown kind.
        refused("load", 3, load(register((1, 3, 4, 2, 3, 4), [one])), load(register((3, 3, 4, 2, 3, 4), [one])),
                load(register((2, 4, 4, 2, 3, 4), [one])), load(register((2, 3, 4, 1, 3, 4), [one])),
                load(register((2, 3, 4, 3, 3, 4), [one])), load(register((2, 3, 4, 2, 4, 4), [one])),
                load(register((2, 3, 4, 2, 3, 2), [(0, 9)]))),
        # 4: kind 0, 5 and 255; region 5; spares of the header, of a unit and of a head.
        refused("load", 4, load(register(LENGTHS, [(0, 0)])), load(register(LENGTHS, [one, (5, 0)])),
                load(register(LENGTHS, [sun, (255, 0)])), load(changed(ONE_UNIT, _8=1)), load(changed(ONE_UNIT, _15=128)),
                load(changed(ONE_UNIT, _18=5)), load(changed(ONE_UNIT, _19=1)),
                load(changed(chained, _25=1)), load(changed(chained, _26=1)), load(changed(chained, _27=1))),
        # 4 over the whole register goes before 5: a spare in the last head, a next above n in the first unit.
        refused("load", 4, load(changed(chained, _27=1, _17=3))),
        # 5: a next above n (in a unit that a chain meets, and in one that none meets), a head above n, head 0.
        refused("load", 5, load(changed(chained, _17=3)), load(register(LENGTHS, [(GENERATING, 2)])),
                load(register(LENGTHS, two, [3])), load(register(LENGTHS, two, [0]))),
        # 5 over the whole register goes before 6: two equal heads, and a third one that is 0.
        refused("load", 5, load(register(LENGTHS, two, [1, 1, 0]))),
        # 6: two equal heads, a unit that is its own next, a chain that runs into another.
        refused("load", 6, load(register(LENGTHS, two, [1, 1])), load(register(LENGTHS, [(GENERATING, 1)], [1])),
                load(register(LENGTHS, [(GENERATING, 3), (GENERATING, 3), one], [1, 2]))),
        # 6 goes before 7: two equal heads, and unit 2 met by none with a next.
        refused("load", 6, load(register(LENGTHS, [one, (GENERATING, 1)], [1, 1]))),
        # 7: a next in a unit that no chain met; a loop among such units.
        refused("load", 7, load(register(LENGTHS, [one, (GENERATING, 1)], [1])),
                load(register(LENGTHS, [one, (GENERATING, 3), (GENERATING, 2)], [1]))),
        # 7: a next in a unit of kind 4 that no chain met.
        refused("load", 7, load(register(LENGTHS, [one, (SEMI_SCHEDULED, 1)], [1])),
                load(register(LENGTHS, [(SEMI_SCHEDULED, 1)]))),
        # 4 to 7 go before 30: kind 4 in a chain, and a spare, an index, a unit met twice, a next that no chain met behind it and
        # before it.
        refused("load", 4, load(register(LENGTHS, [sun, (5, 0)], [1])), load(register(LENGTHS, [sun], [1])[:-1] + b"\1")),
        refused("load", 5, load(register(LENGTHS, [sun, (GENERATING, 3)], [1])), load(register(LENGTHS, [sun], [1, 0]))),
        refused("load", 6, load(register(LENGTHS, [(SEMI_SCHEDULED, 1)], [1])), load(register(LENGTHS, [sun], [1, 1]))),
        refused("load", 7, load(register(LENGTHS, [sun, (GENERATING, 1)], [1])),
                load(register(LENGTHS, [(GENERATING, 2), sun], [2])), load(register(LENGTHS, [(SEMI_SCHEDULED, 2), sun], [2]))),
        # 30: kind 4 alone in a chain, as head, in the middle and at the end; in the last chain; beside one in no chain.
        refused("load", 30, load(register(LENGTHS, [sun], [1])), load(register(LENGTHS, [(SEMI_SCHEDULED, 2), one], [1])),
                load(register(LENGTHS, [(GENERATING, 2), (SEMI_SCHEDULED, 3), one], [1])),
                load(register(LENGTHS, [(GENERATING, 2), sun], [1])), load(register(LENGTHS, [*two, sun], [1, 2, 3])),
                load(register(LENGTHS, [sun, sun], [2])), load(register(LENGTHS, [sun, sun], [1]))),
        # None of them left a register.
        refused("look", 20, look(1)),
    ]


def refusals_with_register():
    """8 to 11 and 21 to 23, their order, and that each leaves the state as it was. Chain 1, unit 2 in no chain: points 1 to 3."""
    registered = register(LENGTHS, [(GENERATING, 0), (GENERATING, 0)], [1])

    def at(number, mode, mw):
        return interval(number, mode, plain(mw, mode=2), plain(mw))

    def headed(number, *mode_and_spares):
        return struct.pack("<I", number) + bytes(mode_and_spares) + at(number, AUTOMATIC, 107.0)[8:]

    good = at(7, AUTOMATIC, 100.0)  # 88 bytes; the report has 48
    beyond = [0, 4, 257, 65_537, 2**31 + 1, 2**32 - 1]  # points: 0, n+m+1, and some whose low bytes are 1
    return [
        (load(registered), "load accepted 1"),
        # 8: either length, one byte off; an empty buffer and an empty report.
        refused("interval", 8, given(good[:-1], 48), given(good + b"\0", 48), given(good, 47), given(good, 49),
                given(b"", 48), given(good, 0), given(b"", 0), given(good[:48], 48), given(good, 4_096)),
        # 8 goes before 9: the report one byte short, and mask 32.
        refused("interval", 8, given(headed(7, 32, 0, 0, 0), 47)),
        # 9: mask 32 and 255; each spare.
        refused("interval", 9, *[given(headed(7, *head), 48) for head in
                                 [(32, 0, 0, 0), (255, 0, 0, 0), (1, 1, 0, 0), (0, 0, 1, 0), (1, 0, 0, 128)]]),
        # None of them was accepted, so the first interval may still have any number, 7 too.
        accepted(good, "7 1 0 1 0 0 0 0 0", "7 2 0 1 0 0 0 0 0", "7 3 0 1 0 0 0 0 0"),
        # 21: the same number, and lower ones.
        refused("interval", 21, given(at(7, AUTOMATIC, 107.0), 48), given(at(6, MANUAL, 107.0), 48),
                given(at(0, MANUAL, 107.0), 48)),
        # 8 and 9 go before 21.
        refused("interval", 8, given(at(7, AUTOMATIC, 107.0), 64)),
        refused("interval", 9, given(headed(7, 1, 0, 0, 1), 48)),
        # 10; it goes before 11, 22 and 23.
        refused("declare", 10, *[declare(point, 0) for point in beyond], *[declare(point, -1) for point in beyond],
                declare(4, 128_000_001)),
        refused("reinstate", 10, *[reinstate(point) for point in beyond]),
        refused("look", 10, *[look(point) for point in beyond]),
        # 11, either sign; it goes before 22: the point is Normal. A generating unit has no level below 0, member or not.
        refused("declare", 11, declare(1, 128_000_001), declare(1, -128_000_001), declare(3, 2**31 - 1), declare(3, -(2**31)),
                declare(1, -1), declare(2, -128_000_000)),
        # 22 at status 0, 23 at status 0.
        refused("declare", 22, declare(1, 0), declare(2, 128_000_000), declare(3, -128_000_000)),
        refused("reinstate", 23, reinstate(1), reinstate(2), reinstate(3)),
        # Everything stands as it was: kept lines of interval 7, runs 0. The aggregate has its one member's sums.
        accepted(
            at(8, AUTOMATIC, 107.0),
            "8 1 1 5 1 1 7000 600000 0",
            "8 2 1 5 1 1 7000 600000 0",
            "8 3 1 5 1 1 7000 600000 0",
        ),
        # 22 and 23 at status 1.
        refused("declare", 22, declare(1, 0)),
        refused("reinstate", 23, reinstate(1)),
        accepted(
            at(9, AUTOMATIC, 107.0),
            "9 1 2 5 2 2 7000 600000 0",
            "9 2 2 5 2 2 7000 600000 0",
            "9 3 2 5 2 2 7000 600000 0",
        ),
        # 11 at a status that could be declared; 23 at status 2.
        refused("declare", 11, declare(2, 128_000_001)),
        refused("reinstate", 23, reinstate(2)),
        # The declaration leaves points 1 and 3.
        (declare(2, 5), "declare accepted"),
        # 11 goes before 22, and 22 at status 4.
        refused("declare", 11, declare(2, -128_000_001)),
        refused("declare", 22, declare(2, 6)),
        accepted(
            at(10, AUTOMATIC, 107.0),
            "10 1 3 5 3 3 7000 600000 0",
            "10 2 4 5 0 0 7000 600000 5",
            "10 3 3 5 3 3 7000 600000 0",
        ),
        # 23 at status 3.
        refused("reinstate", 23, reinstate(1)),
        (look(1), "look accepted 3 3 3 0"),
        (look(2), "look accepted 4 0 0 5"),
        (look(3), "look accepted 3 3 3 0"),
        (reinstate(2), "reinstate accepted"),
    ]


def backlog():
    """Runs past 255 in manual mode, then automatic mode. Both declaration lengths 255; unit 1 marks SMALL, unit 2 LARGE."""
    def at(number, mode, one, two, **changes):
        return interval(number, mode, wide(one, **changes), wide(two, **changes))

    steps = [
        (load(register((2, 3, 255, 2, 3, 255), [(GENERATING, 0), (GENERATING, 0)])), "load accepted 0"),
        accepted(at(0, MANUAL, 100.0, 100.0), "0 1 0 1 0 0 0 0 0", "0 2 0 1 0 0 0 0 0"),
        # Errors 7,000 and 11,000: run 1.
        accepted(at(1, MANUAL, 107.0, 111.0), "1 1 1 4 1 0 7000 600000 0", "1 2 1 5 1 1 11000 600000 0"),
    ]
    # From 2 = Ns on Not-Responding; from 3 = Ps on still 2, manual mode; at 255 = Ds no declaration, manual mode.
    for number in range(2, 256):
        steps.append(accepted(at(number, MANUAL, 107.0, 111.0),
                              f"{number} 1 2 4 {number} 0 7000 600000 0",
                              f"{number} 2 2 5 {number} {number} 11000 600000 0"))
    # Stored runs stop at 255.
    for number in range(256, 261):
        steps.append(accepted(at(number, MANUAL, 107.0, 111.0),
                              f"{number} 1 2 4 255 0 7000 600000 0",
                              f"{number} 2 2 5 255 255 11000 600000 0"))
    return steps + [
        (look(1), "look accepted 2 255 0 0"),
        (look(2), "look accepted 2 255 255 0"),
        # Automatic mode: BLANK and DOUBT leave the runs, declare nothing and show 3.
        accepted(at(261, AUTOMATIC, 0.0, 0.0, quality=BAD), "261 1 3 1 255 0 0 0 0", "261 2 3 1 255 255 0 0 0"),
        (look(1), "look accepted 3 255 0 0"),
        accepted(
            at(262, AUTOMATIC, 107.0, 111.0, quality=SUBSTITUTED),
            "262 1 3 3 255 0 7000 600000 0",
            "262 2 3 3 255 255 11000 600000 0",
        ),
        # Manual mode again: 2 for 3.
        accepted(at(263, MANUAL, 0.0, 0.0, quality=BAD), "263 1 2 1 255 0 0 0 0", "263 2 2 1 255 255 0 0 0"),
        # A jump makes the kept lines stale: BLANK, 3 again in automatic mode.
        accepted(at(270, AUTOMATIC, 107.0, 111.0), "270 1 3 1 255 0 0 0 0", "270 2 3 1 255 255 0 0 0"),
        # The next SMALL or LARGE in automatic mode declares. Unit 1 by LARGE: small run 255 = Ds, large run 1. Unit 2 by
        # SMALL, which sets its large run to 0: the small run, 255, is at Ds.
        accepted(
            at(271, AUTOMATIC, 111.0, 107.0),
            "271 1 4 5 0 0 11000 600000 111000",
            "271 2 4 4 0 0 7000 600000 107000",
        ),
        (look(1), "look accepted 4 0 0 111000"),
        (look(2), "look accepted 4 0 0 107000"),
        # Reinstated, the runs start at 0: no backlog is left.
        (reinstate(1), "reinstate accepted"),
        accepted(
            at(272, AUTOMATIC, 107.0, 107.0),
            "272 1 1 4 1 0 7000 600000 0",
            "272 2 4 4 0 0 7000 600000 107000",
        ),
    ]


def load_again():
    """A refused load after a good one leaves the whole state; an accepted one starts afresh."""
    def at(number, mw):
        return interval(number, AUTOMATIC, plain(mw))

    return [
        (load(ONE_UNIT), "load accepted 0"),
        accepted(at(10, 100.0), "10 1 0 1 0 0 0 0 0"),
        accepted(at(11, 107.0), "11 1 1 5 1 1 7000 600000 0"),
        # Refused: empty, too short for its two units, a spare, a unit met twice, a next that no chain meets, kind 4 in a chain.
        refused("load", 1, load(b""), load(TWO_UNITS[:-4])),
        refused("load", 4, load(TWO_UNITS[:-1] + b"\1")),
        refused("load", 6, load(register(LENGTHS, [(GENERATING, 0)] * 2, [2, 2]))),
        refused("load", 7, load(register(LENGTHS, [(GENERATING, 2), (GENERATING, 0)]))),
        refused("load", 30, load(register(LENGTHS, [(GENERATING, 2), (SEMI_SCHEDULED, 0)], [1]))),
        # Still one unit, its status and runs, and the last number.
        (look(1), "look accepted 1 1 1 0"),
        refused("look", 10, look(2)),
        refused("interval", 8, given(interval(12, AUTOMATIC, plain(100.0), plain(100.0)), 32)),
        refused("interval", 21, given(at(11, 107.0), 16)),
        # The line of interval 11 is still kept: -7,000, run 2.
        accepted(at(12, 93.0), "12 1 2 5 2 2 -7000 600000 0"),
        (declare(1, 93_000), "declare accepted"),
        refused("load", 2, load(bytes(16))),
        (look(1), "look accepted 4 0 0 93000"),
        # The same bytes once more: afresh, nothing kept, any number.
        (load(ONE_UNIT), "load accepted 0"),
        (look(1), "look accepted 0 0 0 0"),
        accepted(at(12, 107.0), "12 1 0 1 0 0 0 0 0"),
        # Another plant: two units in one chain, 2 -> 1, and an aggregate, point 3.
        (load(register(LENGTHS, [(GENERATING, 0), (GENERATING, 1)], [2])), "load accepted 2"),
        (look(3), "look accepted 0 0 0 0"),
        # Nothing is kept although 13 follows 12.
        accepted(
            interval(13, AUTOMATIC, plain(107.0, mode=2), plain(107.0, mode=2)),
            "13 1 0 1 0 0 0 0 0",
            "13 2 0 1 0 0 0 0 0",
            "13 3 0 1 0 0 0 0 0",
        ),
    ]


def jump():
    """A jump in numbers makes all kept lines stale. Unit 1 is a chain of its own, point 3; unit 2 is in no chain."""
    def at(number, mw, conformance=2):
        return interval(number, AUTOMATIC, plain(mw, mode=conformance), plain(mw))

    return [
        (load(register(LENGTHS, [(GENERATING, 0), (GENERATING, 0)], [1])), "load accepted 1"),
        accepted(at(10, 100.0), "10 1 0 1 0 0 0 0 0", "10 2 0 1 0 0 0 0 0", "10 3 0 1 0 0 0 0 0"),
        # The aggregate has the sums of one member: the same error and triggers.
        accepted(
            at(11, 107.0),
            "11 1 1 5 1 1 7000 600000 0",
            "11 2 1 5 1 1 7000 600000 0",
            "11 3 1 5 1 1 7000 600000 0",
        ),
        # From 11 to 13: nothing kept, so BLANK, and the run stands; but conformance mode 0 is OFF before that, and clears.
        accepted(at(13, 107.0, conformance=0), "13 1 0 0 0 0 0 0 0", "13 2 1 1 1 1 0 0 0", "13 3 0 0 0 0 0 0 0"),
        # The lines of 13 were kept, OFF included.
        accepted(
            at(14, 107.0),
            "14 1 1 5 1 1 7000 600000 0",
            "14 2 2 5 2 2 7000 600000 0",
            "14 3 1 5 1 1 7000 600000 0",
        ),
        accepted(
            at(4_000_000_000, 107.0),
            "4000000000 1 1 1 1 1 0 0 0",
            "4000000000 2 2 1 2 2 0 0 0",
            "4000000000 3 1 1 1 1 0 0 0",
        ),
        accepted(
            at(4_000_000_001, 107.0),
            "4000000001 1 2 5 2 2 7000 600000 0",
            "4000000001 2 3 5 3 3 7000 600000 0",
            "4000000001 3 2 5 2 2 7000 600000 0",
        ),
        # Back is no jump.
        refused("interval", 21, given(at(4_000_000_001, 107.0), 48), given(at(4_000_000_000, 107.0), 48), given(at(15, 107.0), 48)),
        # A refused interval keeps nothing and makes nothing stale.
        accepted(
            at(4_000_000_002, 93.0),
            "4000000002 1 3 5 3 3 -7000 600000 0",
            "4000000002 2 4 5 0 0 -7000 600000 93000",  # run 4 = Ds: declared at 93,000
            "4000000002 3 3 5 3 3 -7000 600000 0",
        ),
    ]


def last_number():
    """Numbers do not wrap: after 4294967295 every interval is 21 until a load."""
    def at(number, mw):
        return interval(number, AUTOMATIC, plain(mw))

    return [
        (load(ONE_UNIT), "load accepted 0"),
        accepted(at(4_294_967_294, 100.0), "4294967294 1 0 1 0 0 0 0 0"),
        accepted(at(4_294_967_295, 107.0), "4294967295 1 1 5 1 1 7000 600000 0"),
        refused("interval", 21, *[given(at(number, 107.0), 16) for number in (0, 1, 4_294_967_294, 4_294_967_295)]),
        (look(1), "look accepted 1 1 1 0"),
        (load(ONE_UNIT), "load accepted 0"),
        # After a load any number is a first one, 0 too, and 1 follows it.
        accepted(at(0, 107.0), "0 1 0 1 0 0 0 0 0"),
        refused("interval", 21, given(at(0, 107.0), 16)),
        accepted(at(1, 93.0), "1 1 1 5 1 1 -7000 600000 0"),
        # 4294967295 as the first number.
        (load(ONE_UNIT), "load accepted 0"),
        accepted(at(4_294_967_295, 107.0), "4294967295 1 0 1 0 0 0 0 0"),
        refused("interval", 21, given(at(0, 107.0), 16)),
    ]


def full_plant():
    """64 units and 16 aggregates of four, 1 -> 2 -> 3 -> 4 and so on: points 65 to 80."""
    units = [(GENERATING, unit + 1 if unit % 4 else 0) for unit in range(1, 65)]

    def at(number, last):
        # All at their target but unit 64.
        return interval(number, AUTOMATIC, *[plain(100.0, mode=2)] * 63, plain(last, mode=2))

    # An aggregate at its target: MWO 400,000; least of four 3,000 each, 12,000; small trigger min(1,200,000, 2,400,000).
    return [
        (load(register(LENGTHS, units, range(1, 65, 4))), "load accepted 64"),
        accepted(at(1, 100.0), *[f"1 {point} 0 1 0 0 0 0 0" for point in range(1, 81)]),
        accepted(
            at(2, 100.0),
            *[f"2 {point} 0 2 0 0 0 600000 0" for point in range(1, 65)],
            *[f"2 {point} 0 2 0 0 0 1200000 0" for point in range(65, 81)],
        ),
        # Unit 64 is 13,000 over. So is its aggregate, whose large trigger is min(2,000,000, 4,800,000): SMALL.
        accepted(
            at(3, 113.0),
            *[f"3 {point} 0 2 0 0 0 600000 0" for point in range(1, 64)],
            "3 64 1 5 1 1 13000 600000 0",
            *[f"3 {point} 0 2 0 0 0 1200000 0" for point in range(65, 80)],
            "3 80 1 4 1 0 13000 1200000 0",
        ),
        (look(80), "look accepted 1 1 0 0"),
        refused("look", 10, look(81)),
    ]


def limits():
    """The longest payload, 8,192 bytes, and the longest report, 4,096, are no script errors."""
    return [
        # 8,192 zeros as a register: n = 0.
        refused("load", 2, load(bytes(8_192))),
        refused("interval", 20, given(bytes(8_188), 4_096)),
        (load(ONE_UNIT), "load accepted 0"),
        refused("interval", 8, given(bytes(8_188), 4_096), given(bytes(8_188), 16), given(b"", 0)),
        accepted(interval(0, MANUAL, plain(100.0)), "0 1 0 1 0 0 0 0 0"),
    ]


def solar():
    """Semi-scheduled unit 1 and generating unit 2, both in no chain. Unit 1 is on target from 99,000 to 102,000."""
    registered = register(LENGTHS, [(SEMI_SCHEDULED, 0), (GENERATING, 0)])

    def sun(mw, cap, **changes):
        return wide(mw, fcr=2_000, fcl=1_000, cap=cap, **changes)

    def at(number, first, text, second=100.0, other="0 2 0 0 0 600000 0", mode=AUTOMATIC):
        """Unit 2 is on target, CLEAR, unless something else is said."""
        return accepted(interval(number, mode, first, wide(second)), f"{number} 1 {text}", f"{number} 2 {other}")

    return [
        (load(registered), "load accepted 0"),
        (look(1), "look accepted 0 0 0 0"),
        # Nothing kept: BLANK, whatever the flag.
        at(1, sun(120.0, 0), "0 1 0 0 0 0 0", other="0 1 0 0 0 0 0"),
        # The kept flag is 0: OFF, and this line's is only kept. Unit 2: 7,000, SMALL.
        at(2, sun(120.0, 1), "0 0 0 0 0 0 0", 107.0, "1 4 1 0 7000 600000 0"),
        (look(1), "look accepted 0 0 0 0"),
        refused("declare", 22, declare(1, 0)),
        # The kept flag is 1. 108,000 - 102,000 = 6,000: 600,000 does not exceed 600,000. Unit 2 goes on: small run 2.
        at(3, sun(108.0, 1), "0 2 0 0 6000 600000 0", 107.0, "2 4 2 0 7000 600000 0"),
        # 6,001 is SMALL; so is 10,000, as 1,000,000 does not exceed the large trigger; 10,001 is LARGE.
        at(4, sun(108.001, 1), "1 4 1 0 6001 600000 0"),
        at(5, sun(112.0, 1), "2 4 2 0 10000 600000 0"),
        at(6, sun(112.001, 0), "3 5 3 1 10001 600000 0", 107.0, "1 4 1 0 7000 600000 0"),
        (look(1), "look accepted 3 3 1 0"),
        refused("reinstate", 23, reinstate(1)),
        # The kept flag is 0: OFF clears both runs of unit 1. Unit 2's goes on.
        at(7, sun(112.001, 1), "0 0 0 0 0 0 0", 107.0, "2 4 2 0 7000 600000 0"),
        (look(1), "look accepted 0 0 0 0"),
        (look(2), "look accepted 2 2 0 0"),
        refused("declare", 22, declare(1, 112_001)),
        # SMALL; then 99,000 - 93,000 = 6,000 too low: CLEAR, and the run is 0.
        at(8, sun(108.001, 1), "1 4 1 0 6001 600000 0"),
        at(9, sun(93.0, 1), "0 2 0 0 -6000 600000 0"),
        # LARGE; then 6,001 too low, past the small trigger: CLEAR, and both runs are 0.
        at(10, sun(112.001, 1), "1 5 1 1 10001 600000 0"),
        at(11, sun(92.999, 1), "0 2 0 0 -6001 600000 0"),
        # LARGE; then 99,000 - 50,000 = 49,000 too low and substituted: CLEAR all the same.
        at(12, sun(112.001, 1), "1 5 1 1 10001 600000 0"),
        at(13, sun(50.0, 1, quality=SUBSTITUTED), "0 2 0 0 -49000 600000 0"),
        # Too high and substituted: at the trigger CLEAR, past it DOUBT, which leaves the run.
        at(14, sun(108.0, 1, quality=SUBSTITUTED), "0 2 0 0 6000 600000 0"),
        at(15, sun(108.001, 1), "1 4 1 0 6001 600000 0"),
        at(16, sun(112.001, 0, quality=SUBSTITUTED), "1 3 1 0 10001 600000 0"),
        # A flag of 2 is unreadable, although the kept one is 0: BLANK, and the run stands. Nothing is kept for the next.
        at(17, sun(112.001, 2), "1 1 1 0 0 0 0"),
        at(18, sun(112.001, 1), "1 1 1 0 0 0 0"),
        # A flag of 255 is unreadable too, here with a kept flag of 1.
        at(19, sun(112.001, 255), "1 1 1 0 0 0 0"),
        at(20, sun(112.001, 0), "1 1 1 0 0 0 0"),
        # Quality 2 goes before a kept flag of 0: BLANK. The flag of a bad line is kept, here 0 and then 1.
        at(21, sun(0.0, 0, quality=BAD), "1 1 1 0 0 0 0"),
        at(22, sun(0.0, 1, quality=BAD), "1 1 1 0 0 0 0"),
        at(23, sun(112.001, 1), "2 5 2 1 10001 600000 0"),
        # The operator declares it.
        (declare(1, 70_000), "declare accepted"),
        (look(1), "look accepted 4 0 0 70000"),
        (look(2), "look accepted 0 0 0 0"),
        # LARGE and OFF while declared: its level stands.
        at(24, sun(112.001, 0), "4 5 0 0 10001 600000 70000"),
        at(25, sun(112.001, 1), "4 0 0 0 0 0 70000"),
        refused("declare", 22, declare(1, 0)),
        (reinstate(1), "reinstate accepted"),
        (look(1), "look accepted 0 0 0 0"),
        refused("reinstate", 23, reinstate(1)),
        # 111,000 - 102,000 = 9,000: SMALL. At small run 3 manual mode shows 2.
        at(26, sun(111.0, 1), "1 4 1 0 9000 600000 0"),
        at(27, sun(111.0, 1), "2 4 2 0 9000 600000 0"),
        at(28, sun(111.0, 1), "2 4 3 0 9000 600000 0", mode=MANUAL),
        # 11,000: LARGE in automatic mode. Small run 4 = Ds: declared at its MW.
        at(29, sun(113.0, 1), "4 5 0 0 11000 600000 113000"),
        (look(1), "look accepted 4 0 0 113000"),
        at(30, sun(50.0, 1), "4 2 0 0 -49000 600000 113000"),
        (reinstate(1), "reinstate accepted"),
        # Four LARGE marks: small and large run come to their lengths together. The last one is 112,500 - 102,000 = 10,500.
        at(31, sun(113.0, 1), "1 5 1 1 11000 600000 0"),
        at(32, sun(113.0, 1), "2 5 2 2 11000 600000 0"),
        at(33, sun(113.0, 1), "3 5 3 3 11000 600000 0"),
        at(34, sun(112.5, 0), "4 5 0 0 10500 600000 112500"),
        (reinstate(1), "reinstate accepted"),
        # A jump: the kept flag of 0 is stale with its target, so BLANK.
        at(40, sun(113.0, 1), "0 1 0 0 0 0 0", other="0 1 0 0 0 0 0"),
        at(41, sun(113.0, 0), "1 5 1 1 11000 600000 0"),
        at(50, sun(113.0, 1), "1 1 1 1 0 0 0", other="0 1 0 0 0 0 0"),
        # A refused interval keeps no flag: the one of 50 stands. Nor does a refused load change anything.
        refused("interval", 21, given(interval(50, AUTOMATIC, sun(113.0, 0), wide(100.0)), 32)),
        refused("interval", 8, given(interval(51, AUTOMATIC, sun(113.0, 0), wide(100.0)), 31)),
        refused("load", 30, load(register(LENGTHS, [(SEMI_SCHEDULED, 0), (GENERATING, 0)], [1]))),
        at(51, sun(113.0, 0), "2 5 2 2 11000 600000 0"),
        (look(1), "look accepted 2 2 2 0"),
        # An accepted load starts afresh: nothing kept, and so no flag of 0, though 52 follows 51.
        (load(registered), "load accepted 0"),
        (look(1), "look accepted 0 0 0 0"),
        at(52, sun(113.0, 1), "0 1 0 0 0 0 0", other="0 1 0 0 0 0 0"),
        at(53, sun(113.0, 1), "1 5 1 1 11000 600000 0"),
        # The flag of a substituted line is kept, here 0, and OFF goes before DOUBT; the flag of a bad line is kept too.
        at(54, sun(113.0, 0, quality=SUBSTITUTED), "1 3 1 1 11000 600000 0"),
        at(55, sun(113.0, 0, quality=SUBSTITUTED), "0 0 0 0 0 0 0"),
        at(56, sun(0.0, 0, quality=BAD), "0 1 0 0 0 0 0"),
        at(57, sun(113.0, 1), "0 0 0 0 0 0 0"),
        at(58, sun(113.0, 1), "1 5 1 1 11000 600000 0"),
    ]


def solar_plant():
    """64 semi-scheduled units in no chain. A flag of 0 is kept for the odd ones and 1 for the even ones; then the other way."""
    def at(number, odd, even):
        return interval(number, AUTOMATIC, *[plain(107.0, cap=odd), plain(107.0, cap=even)] * 32)

    off, run_1 = "0 0 0 0 0 0 0", "1 5 1 1 7000 600000 0"
    return [
        (load(register(LENGTHS, [(SEMI_SCHEDULED, 0)] * 64)), "load accepted 0"),
        accepted(at(1, 0, 1), *[f"1 {unit} 0 1 0 0 0 0 0" for unit in range(1, 65)]),
        accepted(at(2, 1, 0), *[f"2 {unit} {off if unit % 2 else run_1}" for unit in range(1, 65)]),
        accepted(at(3, 1, 0), *[f"3 {unit} {run_1 if unit % 2 else off}" for unit in range(1, 65)]),
        (look(63), "look accepted 1 1 1 0"),
        (look(64), "look accepted 0 0 0 0"),
        refused("look", 10, look(65)),
    ]


# ---- levels (02, 2026-02)


def rows(head, errors, levels=None, trigger=600_000):
    """Points of one status, mark and runs, given as `head`; without levels, none is declared."""
    levels = levels or [0] * len(errors)
    return [f"{head} {error} {trigger} {level}" for error, level in zip(errors, levels, strict=True)]


def standing(*levels):
    """A look at each point from 1 on, all declared at these levels."""
    return looks(*[f"4 0 0 {level}" for level in levels])


def levels():
    """Automatic declarations of units in no chain: 1 to 3 generating units, 4 to 6 loads, 7 to 9 bidirectional units, 10 a
    semi-scheduled unit. Of each three one has MW of -300 kW, one 0 and one 1, and these go round.

    The level is the greater of MW and 0 for kinds 1, 2 and 4, and MW for kind 3.
    """
    kinds = [GENERATING] * 3 + [LOAD] * 3 + [BIDIRECTIONAL] * 3 + [SEMI_SCHEDULED]

    def at(number, sent, powers, sun, texts, mode=AUTOMATIC, target=100_000, **changes):
        """Lines of one form, `plain` or `wide`. Unit 10 has a target of 0 throughout, and its cap flag is 1."""
        lines = [sent(mw, mwb=target, **changes) for mw in powers * 3]
        lines.append(sent(sun, mwb=0, cap=1, **changes))
        return accepted(interval(number, mode, *lines), *numbered(number, texts))

    # Target 100,000 and `plain`: -(100,000 - (-300)), -(100,000 - 0) and -(100,000 - 1) are LARGE. Unit 10: 6,001 - 0 is LARGE.
    first_powers = [-0.3, 0.0, 0.001]
    first_errors = [-100_300, -100_000, -99_999] * 3 + [6_001]
    first = [0, 0, 1, 0, 0, 1, -300, 0, 1, 6_001]
    # Target 8,000 and `wide`: -(8,000 - 1), -(8,000 - (-300)) and -(8,000 - 0) are SMALL. So is unit 10's 8,000 - 0.
    second_powers = [0.001, -0.3, 0.0]
    second_errors = [-7_999, -8_300, -8_000] * 3 + [8_000]
    second = [1, 0, 0, 1, 0, 0, 1, -300, 0, 8_000]
    # Target 100,000 and `plain` again.
    third_powers = [0.0, 0.001, -0.3]
    third_errors = [-100_000, -99_999, -100_300] * 3 + [6_002]
    third = [0, 1, 0, 0, 1, 0, 0, 1, -300, 6_002]
    return [
        (load(register(LENGTHS, [(kind, 0) for kind in kinds])), "load accepted 0"),
        # Nothing kept.
        at(1, plain, first_powers, 6.001, ["0 1 0 0 0 0 0"] * 10),
        at(2, plain, first_powers, 6.001, rows("1 5 1 1", first_errors)),
        at(3, plain, first_powers, 6.001, rows("2 5 2 2", first_errors)),
        at(4, plain, first_powers, 6.001, rows("3 5 3 3", first_errors)),
        *looks(*["3 3 3 0"] * 10),
        # Run 4: declared.
        at(5, plain, first_powers, 6.001, rows("4 5 0 0", first_errors, first)),
        *standing(*first),
        # On target: the levels stand.
        at(6, plain, [100.0] * 3, 0.0, rows("4 2 0 0", [0] * 10, first)),
        # -(100,000 - (-500)) is LARGE, and by `wide` unit 10's 7,500 - 0 SMALL: the levels stand.
        at(7, wide, [-0.5] * 3, 7.5, rows("4 5 0 0", [-100_500] * 9, first[:9]) + ["4 4 0 0 7500 600000 6001"], target=8_000),
        *standing(*first),
        *reinstated(*range(1, 11)),
        *looks(*["0 0 0 0"] * 10),
        # Declared again, by the small run.
        at(8, wide, second_powers, 8.0, rows("1 4 1 0", second_errors), target=8_000),
        at(9, wide, second_powers, 8.0, rows("2 4 2 0", second_errors), target=8_000),
        at(10, wide, second_powers, 8.0, rows("3 4 3 0", second_errors), target=8_000),
        at(11, wide, second_powers, 8.0, rows("4 4 0 0", second_errors, second), target=8_000),
        *standing(*second),
        *reinstated(*range(1, 11)),
        # A backlog in manual mode at other MW: at 12 50,000 - 8,000, then -(100,000 - 50,000); unit 10: 50,000 - 0.
        at(12, plain, [50.0] * 3, 50.0, rows("1 5 1 1", [42_000] * 9 + [50_000]), mode=MANUAL),
        at(13, plain, [50.0] * 3, 50.0, rows("2 5 2 2", [-50_000] * 9 + [50_000]), mode=MANUAL),
        at(14, plain, [50.0] * 3, 50.0, rows("2 5 3 3", [-50_000] * 9 + [50_000]), mode=MANUAL),
        # Declared by the MW of the mark that declares.
        at(15, plain, third_powers, 6.002, rows("4 5 0 0", third_errors, third)),
        *standing(*third),
        # Bad, then after a jump nothing kept: BLANK, without a trigger, and the levels stand.
        at(16, plain, [-0.3] * 3, 0.0, rows("4 1 0 0", [0] * 10, third, trigger=0), quality=BAD),
        at(20, plain, [-0.3] * 3, 0.0, rows("4 1 0 0", [0] * 10, third, trigger=0)),
        *standing(*third),
    ]


def levels_in_chains():
    """Automatic declarations of members and aggregates: chains 1 -> 2 -> 3, 4 -> 5 -> 6 and 7 -> 8 -> 9 (generating unit, load,
    bidirectional unit) are points 10 to 12. Of the aggregates one has a sum of -300 kW, one of 0 and one of 1, and so have each
    three of a kind as MW; these go round.

    An aggregate's level is the sum of its members' MW as sent, loads subtracted, and may be below 0.
    """
    three = GENERATING, LOAD, BIDIRECTIONAL
    units = [(kind, 0 if kind == BIDIRECTIONAL else unit + 1) for unit, kind in enumerate(three * 3, 1)]

    def at(number, sent, targets, powers, texts, mode=2):
        """Lines of one form, `plain` or `wide`; targets of the three kinds, and MW of the members of each chain."""
        lines = [sent(mw, mwb=target, mode=mode) for chain in powers for mw, target in zip(chain, targets, strict=True)]
        return accepted(interval(number, AUTOMATIC, *lines), *numbered(number, texts))

    # The sums are -300 - 1 + 1 = -300, 0 + 300 - 300 = 0 and 1 - 0 + 0 = 1. A floor on each member would give 0, -300 and 1.
    a, b, c = (-0.3, 0.001, 0.001), (0.0, -0.3, -0.3), (0.001, 0.0, 0.0)

    # `plain`: -(100,000 - MW) for a generating unit and for a load, MW + 100,000 for a bidirectional unit. The aggregates' target
    # is 100,000 - 100,000 - 100,000, so their error is their sum + 100,000; MWO max(200,000, 100,000), ROC max(6,000, 3,000): small
    # trigger max(600,000, min(600,000, 1,200,000)), large max(600,000, min(1,000,000, 2,400,000)). All are LARGE.
    far = 100_000, 100_000, -100_000
    far_errors = [-100_300, -99_999, 100_001,  -100_000, -100_300, 99_700,  -99_999, -100_000, 100_000,  99_700, 100_000, 100_001]
    first = [0, 1, 1,  0, 0, -300,  1, 0, 0,  -300, 0, 1]

    # `wide`, in the order b, c, a: -(8,000 - MW) is SMALL, the load's -(15,000 - MW) LARGE, MW + 8,000 SMALL. The aggregates'
    # target is 8,000 - 15,000 - 8,000, so their error is their sum + 15,000; MWO max(400,000, 200,000), ROC max(18,000, 9,000):
    # small trigger max(600,000, min(1,200,000, 3,600,000)), large max(600,000, min(2,000,000, 7,200,000)). They are SMALL.
    near = 8_000, 15_000, -8_000
    second = [0, 0, -300,  1, 0, 0,  0, 1, 1,  0, 1, -300]

    def near_texts(status, run, levels=(0,) * 12):
        small, large = f"{status} 4 {run} 0", f"{status} 5 {run} {run}"
        texts = [f"{small} -8000 600000", f"{large} -15300 600000", f"{small} 7700 600000",
                 f"{small} -7999 600000", f"{large} -15000 600000", f"{small} 8000 600000",
                 f"{small} -8300 600000", f"{large} -14999 600000", f"{small} 8001 600000",
                 f"{small} 15000 1200000", f"{small} 15001 1200000", f"{small} 14700 1200000"]
        return [f"{text} {level}" for text, level in zip(texts, levels, strict=True)]

    return [
        (load(register(LENGTHS, units, [1, 4, 7])), "load accepted 9"),
        # Nothing kept.
        at(1, plain, far, (a, b, c), ["0 1 0 0 0 0 0"] * 12),
        at(2, plain, far, (a, b, c), rows("1 5 1 1", far_errors)),
        at(3, plain, far, (a, b, c), rows("2 5 2 2", far_errors)),
        at(4, plain, far, (a, b, c), rows("3 5 3 3", far_errors)),
        at(5, plain, far, (a, b, c), rows("4 5 0 0", far_errors, first)),
        *standing(*first),
        # On the kept targets, CLEAR: the levels stand. This line's MWO and rates give the aggregates 1,200,000.
        at(6, wide, near, [(100.0, 100.0, -100.0)] * 3,
           rows("4 2 0 0", [0] * 9, first[:9]) + rows("4 2 0 0", [0] * 3, first[9:], trigger=1_200_000)),
        *reinstated(*range(1, 13)),
        *looks(*["0 0 0 0"] * 12),
        # Declared again.
        at(7, wide, near, (b, c, a), near_texts(1, 1)),
        at(8, wide, near, (b, c, a), near_texts(2, 2)),
        at(9, wide, near, (b, c, a), near_texts(3, 3)),
        at(10, wide, near, (b, c, a), near_texts(4, 0, second)),
        *standing(*second),
        # MW -5,000 each: -(8,000 + 5,000) and -(15,000 + 5,000) are LARGE, -5,000 + 8,000 CLEAR. The aggregates' sum is -5,000 +
        # 5,000 - 5,000 = -5,000, and -5,000 + 15,000 CLEAR. The levels stand.
        at(11, wide, near, [(-5.0, -5.0, -5.0)] * 3, [
            "4 5 0 0 -13000 600000 0", "4 5 0 0 -20000 600000 0", "4 2 0 0 3000 600000 -300",
            "4 5 0 0 -13000 600000 1", "4 5 0 0 -20000 600000 0", "4 2 0 0 3000 600000 0",
            "4 5 0 0 -13000 600000 0", "4 5 0 0 -20000 600000 1", "4 2 0 0 3000 600000 1",
            "4 2 0 0 10000 1200000 0", "4 2 0 0 10000 1200000 1", "4 2 0 0 10000 1200000 -300"]),
        # All modes 0: OFF, and the levels stand.
        at(12, wide, near, (a, b, c), rows("4 0 0 0", [0] * 12, second, trigger=0), mode=0),
        *standing(*second),
    ]


def levels_of_one():
    """Chains of one unit: 1 generating unit, 2 load, 3 bidirectional unit, 4 load. Points 5 to 8 are their aggregates.

    A member's level is its own, its aggregate's the signed MW. Targets are 100,000, and -100,000 for unit 3. An aggregate of one
    has its member's MWO and rates, so `plain`'s triggers: all are LARGE.
    """
    registered = register(LENGTHS, [(GENERATING, 0), (LOAD, 0), (BIDIRECTIONAL, 0), (LOAD, 0)], [1, 2, 3, 4])

    def at(number, powers, texts):
        one, two, three, four = powers
        lines = plain(one, mode=2), plain(two, mode=2), plain(three, mwb=-100_000, mode=2), plain(four, mode=2)
        return accepted(interval(number, AUTOMATIC, *lines), *numbered(number, texts))

    # Unit 1 at -300: -(100,000 - (-300)), and so its aggregate. Load 2 at -300: the same; its aggregate is 300 - (-100,000).
    # Unit 3 at -300: -300 - (-100,000), and so its aggregate. Load 4 at 300: -(100,000 - 300); its aggregate -300 - (-100,000).
    powers = -0.3, -0.3, -0.3, 0.3
    members, aggregates = [-100_300, -100_300, 99_700, -99_700], [-100_300, 100_300, 99_700, 99_700]
    # 1, 0, -500 and 301: -(100,000 - 1); -100,000 and 0 - (-100,000); -500 - (-100,000); -(100,000 - 301) and -301 - (-100,000).
    powers_2 = 0.001, 0.0, -0.5, 0.301
    members_2, aggregates_2 = [-99_999, -100_000, 99_500, -99_699], [-99_999, 100_000, 99_500, 99_699]
    # -0.6, -0.6, -0.4 and 0.6 kW become -1, -1, 0 and 1.
    powers_3 = -0.0006, -0.0006, -0.0004, 0.0006
    members_3, aggregates_3 = [-100_001, -100_001, 100_000, -99_999], [-100_001, 100_001, 100_000, 99_999]
    return [
        (load(registered), "load accepted 4"),
        # Nothing kept.
        at(1, powers, ["0 1 0 0 0 0 0"] * 8),
        at(2, powers, rows("1 5 1 1", members + aggregates)),
        at(3, powers, rows("2 5 2 2", members + aggregates)),
        at(4, powers, rows("3 5 3 3", members + aggregates)),
        at(5, powers, rows("4 5 0 0", members + aggregates, [0, 0, -300, 300, -300, 300, -300, -300])),
        *standing(0, 0, -300, 300, -300, 300, -300, -300),
        # The aggregates alone are reinstated and declared again; their members' levels stand.
        *reinstated(5, 6, 7, 8),
        at(6, powers_2, rows("4 5 0 0", members_2, [0, 0, -300, 300]) + rows("1 5 1 1", aggregates_2)),
        at(7, powers_2, rows("4 5 0 0", members_2, [0, 0, -300, 300]) + rows("2 5 2 2", aggregates_2)),
        at(8, powers_2, rows("4 5 0 0", members_2, [0, 0, -300, 300]) + rows("3 5 3 3", aggregates_2)),
        at(9, powers_2, rows("4 5 0 0", members_2 + aggregates_2, [0, 0, -300, 300, 1, 0, -500, -301])),
        *standing(0, 0, -300, 300, 1, 0, -500, -301),
        # The members alone.
        *reinstated(1, 2, 3, 4),
        at(10, powers_3, rows("1 5 1 1", members_3) + rows("4 5 0 0", aggregates_3, [1, 0, -500, -301])),
        at(11, powers_3, rows("2 5 2 2", members_3) + rows("4 5 0 0", aggregates_3, [1, 0, -500, -301])),
        at(12, powers_3, rows("3 5 3 3", members_3) + rows("4 5 0 0", aggregates_3, [1, 0, -500, -301])),
        at(13, powers_3, rows("4 5 0 0", members_3 + aggregates_3, [0, 0, 0, 1, 1, 0, -500, -301])),
        # And the aggregates once more.
        *reinstated(5, 6, 7, 8),
        at(14, powers_3, rows("4 5 0 0", members_3, [0, 0, 0, 1]) + rows("1 5 1 1", aggregates_3)),
        at(15, powers_3, rows("4 5 0 0", members_3, [0, 0, 0, 1]) + rows("2 5 2 2", aggregates_3)),
        at(16, powers_3, rows("4 5 0 0", members_3, [0, 0, 0, 1]) + rows("3 5 3 3", aggregates_3)),
        at(17, powers_3, rows("4 5 0 0", members_3 + aggregates_3, [0, 0, 0, 1, -1, 1, 0, -1])),
        *standing(0, 0, 0, 1, -1, 1, 0, -1),
    ]


def operator_levels():
    """The operator's levels for each kind and for aggregates. Chain 1 -> 2 -> 3 (generating unit, load, bidirectional unit) is
    point 9, chain 8 (load) point 10; 4 to 7 are units of kinds 1 to 4 in no chain.

    All are 107,000 against 100,000, `plain`: LARGE. The aggregates: 107,000 - 107,000 + 107,000 against 100,000, with MWO
    max(200,000, 100,000) and ROC max(6,000, 3,000), so 600,000 and 1,000,000: SMALL; and -107,000 against -100,000, LARGE.
    """
    units = [(GENERATING, 2), (LOAD, 3), (BIDIRECTIONAL, 0), (GENERATING, 0), (LOAD, 0), (BIDIRECTIONAL, 0), (SEMI_SCHEDULED, 0),
             (LOAD, 0)]
    floored = 1, 2, 4, 5, 7, 8  # kinds 1, 2 and 4: no level below 0
    signed = 3, 6, 9, 10  # kind 3 and aggregates
    most, least = 2**31 - 1, -(2**31)
    outside = 128_000_001, -128_000_001, most, least  # 11 for every point
    below = -1, -300, -127_999_999, -128_000_000  # 11 for the floored ones
    inside = 0, 1, 128_000_000
    beyond = 0, 11, 257, 65_537, 2**31 + 1, 2**32 - 1  # points: 0, n+m+1, and some whose low bytes are 1

    def at(number, mode, texts):
        """What is printed of points 1 to 10."""
        chained, alone, sun = plain(107.0, mode=2), plain(107.0), plain(107.0, cap=1)
        return accepted(interval(number, mode, *[chained] * 3, *[alone] * 3, sun, chained), *numbered(number, texts))

    def undeclared(status, run):
        """All at that status, after so many marks."""
        return [
            *[f"{status} 5 {run} {run} 7000 600000 0"] * 8,
            f"{status} 4 {run} 0 7000 600000 0",
            f"{status} 5 {run} {run} -7000 600000 0",
        ]

    def declared(*levels):
        marks = ["5 0 0 7000 600000"] * 8 + ["4 0 0 7000 600000", "5 0 0 -7000 600000"]
        return [f"4 {mark} {level}" for mark, level in zip(marks, levels, strict=True)]

    def refused_as_sent():
        """20 does not apply, and no status is looked at: 10, then 11."""
        yield refused("declare", 10, *[declare(point, level) for point in beyond for level in (*outside, *below, *inside)])
        yield refused("declare", 11, *[declare(point, level) for point in (*floored, *signed) for level in outside])
        yield refused("declare", 11, *[declare(point, level) for point in floored for level in below])

    def refused_for_status():
        """The same, then 22: 0 is not below 0."""
        yield from refused_as_sent()
        yield refused("declare", 22, *[declare(point, level) for point in floored for level in inside])
        yield refused("declare", 22, *[declare(point, level) for point in signed for level in (*inside, *below)])

    def looked(status, run):
        return looks(*[f"{status} {run} {run} 0"] * 8, f"{status} {run} 0 0", f"{status} {run} {run} 0")

    def declarations(of_floored, of_signed):
        points = [(point, of_floored) for point in floored] + [(point, of_signed) for point in signed]
        return [(declare(point, level), "declare accepted") for point, level in points]

    return [
        # 20 goes before all.
        refused("declare", 20, *[declare(point, level) for point in (1, 3, 9, *beyond) for level in (*outside, *below, *inside)]),
        (load(register(LENGTHS, units, [1, 8])), "load accepted 4"),
        # Status 0 before any interval, at status 0 after a BLANK, and at status 1. Nothing changes.
        *refused_for_status(),
        at(1, AUTOMATIC, ["0 1 0 0 0 0 0"] * 10),
        *refused_for_status(),
        *looked(0, 0),
        at(2, AUTOMATIC, undeclared(1, 1)),
        *refused_for_status(),
        *looked(1, 1),
        at(3, AUTOMATIC, undeclared(2, 2)),
        # Status 2: what is not refused with 11 is accepted, here 0 and -1.
        *refused_as_sent(),
        *looked(2, 2),
        *declarations(0, -1),
        *standing(0, 0, -1, 0, 0, -1, 0, 0, -1, -1),
        # Status 4.
        *refused_for_status(),
        *standing(0, 0, -1, 0, 0, -1, 0, 0, -1, -1),
        at(4, AUTOMATIC, declared(0, 0, -1, 0, 0, -1, 0, 0, -1, -1)),
        *standing(0, 0, -1, 0, 0, -1, 0, 0, -1, -1),
        *reinstated(*range(1, 11)),
        # Status 0 after a reinstatement.
        *refused_for_status(),
        *looked(0, 0),
        at(5, AUTOMATIC, undeclared(1, 1)),
        at(6, AUTOMATIC, undeclared(2, 2)),
        at(7, AUTOMATIC, undeclared(3, 3)),
        # Status 3: the highest level.
        *refused_as_sent(),
        *looked(3, 3),
        *declarations(128_000_000, 128_000_000),
        *standing(*[128_000_000] * 10),
        *refused_for_status(),
        at(8, AUTOMATIC, declared(*[128_000_000] * 10)),
        *reinstated(*range(1, 11)),
        # Manual mode. The lowest level; 1.
        at(9, MANUAL, undeclared(1, 1)),
        at(10, MANUAL, undeclared(2, 2)),
        *refused_as_sent(),
        *declarations(1, -128_000_000),
        *standing(1, 1, -128_000_000, 1, 1, -128_000_000, 1, 1, -128_000_000, -128_000_000),
        at(11, MANUAL, declared(1, 1, -128_000_000, 1, 1, -128_000_000, 1, 1, -128_000_000, -128_000_000)),
        *refused_for_status(),
        *reinstated(*range(1, 11)),
        # 0 for bidirectional units and aggregates. The others are refused and their runs go on: at 4 they are declared at their MW.
        at(12, AUTOMATIC, undeclared(1, 1)),
        at(13, AUTOMATIC, undeclared(2, 2)),
        *[(declare(point, 0), "declare accepted") for point in signed],
        refused("declare", 11, *[declare(point, -1) for point in floored]),
        *looks("2 2 2 0", "2 2 2 0", "4 0 0 0", "2 2 2 0", "2 2 2 0", "4 0 0 0", "2 2 2 0", "2 2 2 0", "4 0 0 0", "4 0 0 0"),
        at(14, AUTOMATIC, [
            "3 5 3 3 7000 600000 0", "3 5 3 3 7000 600000 0", "4 5 0 0 7000 600000 0", "3 5 3 3 7000 600000 0",
            "3 5 3 3 7000 600000 0", "4 5 0 0 7000 600000 0", "3 5 3 3 7000 600000 0", "3 5 3 3 7000 600000 0",
            "4 4 0 0 7000 600000 0", "4 5 0 0 -7000 600000 0"]),
        refused("declare", 11, *[declare(point, -128_000_000) for point in floored]),
        at(15, AUTOMATIC, declared(107_000, 107_000, 0, 107_000, 107_000, 0, 107_000, 107_000, 0, 0)),
        *standing(107_000, 107_000, 0, 107_000, 107_000, 0, 107_000, 107_000, 0, 0),
    ]


def levels_load_again():
    """What a point is goes by the register loaded last: point 1 is of each kind in turn, and point 2 an aggregate or a unit."""
    def status_2(lines, errors):
        """Nothing kept, then two LARGE marks. A load starts afresh, so the numbers may be the same each time."""
        return [
            accepted(interval(1, AUTOMATIC, *lines), *numbered(1, rows("0 1 0 0", [0] * len(errors), trigger=0))),
            accepted(interval(2, AUTOMATIC, *lines), *numbered(2, rows("1 5 1 1", errors))),
            accepted(interval(3, AUTOMATIC, *lines), *numbered(3, rows("2 5 2 2", errors))),
        ]

    def declared(sent, error, level):
        """Two more."""
        return [
            accepted(interval(4, AUTOMATIC, sent), f"4 1 3 5 3 3 {error} 600000 0"),
            accepted(interval(5, AUTOMATIC, sent), f"5 1 4 5 0 0 {error} 600000 {level}"),
            (look(1), f"look accepted 4 0 0 {level}"),
        ]

    battery = register(LENGTHS, [(BIDIRECTIONAL, 0)])
    charging = plain(-0.3, mwb=-100_000)
    return [
        # A generating unit: -(100,000 - (-300)).
        (load(ONE_UNIT), "load accepted 0"),
        *status_2([plain(-0.3)], [-100_300]),
        refused("declare", 11, declare(1, -1)),
        # A refused load, here a bidirectional unit with a spare, changes no kind.
        refused("load", 4, load(battery[:-1] + b"\1")),
        refused("declare", 11, declare(1, -1)),
        (look(1), "look accepted 2 2 2 0"),
        *declared(plain(-0.3), -100_300, 0),
        # A bidirectional unit: -300 - (-100,000).
        (load(battery), "load accepted 0"),
        *status_2([charging], [99_700]),
        *declared(charging, 99_700, -300),
        (load(battery), "load accepted 0"),
        *status_2([charging], [99_700]),
        (declare(1, -1), "declare accepted"),
        (look(1), "look accepted 4 0 0 -1"),
        # A load: -(100,000 - (-300)).
        (load(register(LENGTHS, [(LOAD, 0)])), "load accepted 0"),
        *status_2([plain(-0.3)], [-100_300]),
        refused("declare", 11, declare(1, -1)),
        *declared(plain(-0.3), -100_300, 0),
        # A semi-scheduled unit: 107,000 - 100,000.
        (load(register(LENGTHS, [(SEMI_SCHEDULED, 0)])), "load accepted 0"),
        *status_2([plain(107.0, cap=1)], [7_000]),
        refused("declare", 11, declare(1, -1)),
        *declared(plain(107.0, cap=1), 7_000, 107_000),
        # Point 2 is an aggregate, of a generating unit.
        (load(register(LENGTHS, [(GENERATING, 0)], [1])), "load accepted 1"),
        *status_2([plain(-0.3, mode=2)], [-100_300, -100_300]),
        refused("declare", 11, declare(1, -1)),
        (declare(2, -1), "declare accepted"),
        (look(2), "look accepted 4 0 0 -1"),
        # Point 2 is a generating unit.
        (load(TWO_UNITS), "load accepted 0"),
        *status_2([plain(-0.3), plain(-0.3)], [-100_300, -100_300]),
        refused("declare", 11, declare(1, -1), declare(2, -1)),
        (declare(2, 0), "declare accepted"),
        (look(2), "look accepted 4 0 0 0"),
        # Point 1 is a load, point 2 a bidirectional unit.
        (load(register(LENGTHS, [(LOAD, 0), (BIDIRECTIONAL, 0)])), "load accepted 0"),
        *status_2([plain(-0.3), charging], [-100_300, 99_700]),
        refused("declare", 11, declare(1, -1)),
        (declare(2, -1), "declare accepted"),
        (look(1), "look accepted 2 2 2 0"),
        (look(2), "look accepted 4 0 0 -1"),
    ]


def levels_plant():
    """64 units and 16 aggregates. Units 1 to 45 in chains of three, with a generating unit, a load and a bidirectional unit as head
    in turn: points 65 to 79. Generating unit 46 is point 80. 47 to 64 are units of kinds 1 to 4 in turn, in no chain.

    MW is -300 kW, but 107,000 for kind 4. Targets are 100,000, and -100,000 for kind 3. Errors: -(100,000 - (-300)) for kinds 1 and
    2, -300 - (-100,000) for kind 3, 107,000 - 100,000 for kind 4. A chain of three: -300 + 300 - 300 = -300 against 100,000 -
    100,000 - 100,000, with the triggers of `levels_in_chains`; unit 46's: -300 against 100,000. All are LARGE.
    """
    three, four = (GENERATING, LOAD, BIDIRECTIONAL), (GENERATING, LOAD, BIDIRECTIONAL, SEMI_SCHEDULED)
    kinds = [three[unit % 3] for unit in range(46)] + [four[unit % 4] for unit in range(18)]
    following, heads = [0] * 64, []
    for chain in range(15):
        first, second, last = (3 * chain + 1 + (chain + place) % 3 for place in range(3))
        following[first - 1], following[second - 1] = second, last
        heads.append(first)
    heads.append(46)

    def sent(unit, kind):
        mode = 2 if unit <= 46 else 0
        if kind == SEMI_SCHEDULED:
            return plain(107.0, cap=1)
        return plain(-0.3, mwb=-100_000 if kind == BIDIRECTIONAL else 100_000, mode=mode)

    lines = [sent(unit, kind) for unit, kind in enumerate(kinds, 1)]

    def at(number, texts):
        return accepted(interval(number, AUTOMATIC, *lines), *numbered(number, texts))

    error_of = {GENERATING: -100_300, LOAD: -100_300, BIDIRECTIONAL: 99_700, SEMI_SCHEDULED: 7_000}
    level_of = {GENERATING: 0, LOAD: 0, BIDIRECTIONAL: -300, SEMI_SCHEDULED: 107_000}
    errors = [error_of[kind] for kind in kinds] + [99_700] * 15 + [-100_300]
    reached = [level_of[kind] for kind in kinds] + [-300] * 16
    signed = [kind == BIDIRECTIONAL for kind in kinds] + [True] * 16
    return [
        (load(register(LENGTHS, list(zip(kinds, following)), heads)), "load accepted 46"),
        at(1, ["0 1 0 0 0 0 0"] * 80),
        at(2, rows("1 5 1 1", errors)),
        at(3, rows("2 5 2 2", errors)),
        at(4, rows("3 5 3 3", errors)),
        at(5, rows("4 5 0 0", errors, reached)),
        *standing(*reached),
        *reinstated(*range(1, 81)),
        at(6, rows("1 5 1 1", errors)),
        at(7, rows("2 5 2 2", errors)),
        # -1 for every point, and for the one past the last.
        *[(declare(point, -1), "declare accepted" if may else "declare refused 11") for point, may in enumerate(signed, 1)],
        refused("declare", 10, declare(81, -1)),
        *looks(*["4 0 0 -1" if may else "2 2 2 0" for may in signed]),
        at(8, [f"4 5 0 0 {error} 600000 -1" if may else f"3 5 3 3 {error} 600000 0" for error, may in zip(errors, signed)]),
    ]


# ---- reasons (02, 2026-06)

# What a unit sends by `wide`: on target; 7,000 over, SMALL; 11,000 over, LARGE; the same substituted, DOUBT; bad, BLANK; and a line
# that cannot be read, BLANK, after which nothing is kept, so that the next mark is BLANK too.
ON, OVER, FAR = wide(100.0), wide(107.0), wide(111.0)
UNSURE, BAD_LINE, UNREADABLE = wide(111.0, quality=SUBSTITUTED), wide(0.0, quality=BAD), wide(111.0, quality=3)


def taken(number, mode, *units, more=()):
    """An accepted interval: of each unit its line and what is printed of it; then what is printed of the aggregates."""
    lines, texts = zip(*units)
    return accepted(interval(number, mode, *lines), *numbered(number, [*texts, *more]))


def reasons(*answers):
    """The reason of each point from 1 on; None where the point is not declared: 36."""
    return [(reason(point), f"reason accepted {answer}" if answer else "reason refused 36")
            for point, answer in enumerate(answers, 1)]


def each_reason():
    """Units 1 to 3 in no chain, declared by the small run, by the large run and by the operator. Small run 2, 4, 6; large run 2,
    3, 4. 36 at every other status."""
    def at(number, *units):
        return taken(number, AUTOMATIC, *units)

    return [
        (load(register((2, 4, 6, 2, 3, 4), [(GENERATING, 0)] * 3)), "load accepted 0"),
        # Status 0: before any interval, then after a BLANK.
        *reasons(None, None, None),
        at(1000, (ON, "0 1 0 0 0 0 0"), (ON, "0 1 0 0 0 0 0"), (ON, "0 1 0 0 0 0 0")),
        *reasons(None, None, None),
        # Unit 1: the first SMALL of its run. Status 1, and 0 after a CLEAR.
        at(1001, (OVER, "1 4 1 0 7000 600000 0"), (ON, "0 2 0 0 0 600000 0"), (ON, "0 2 0 0 0 600000 0")),
        *reasons(None, None, None),
        # Unit 2: the first LARGE of its run.
        at(1002, (OVER, "2 4 2 0 7000 600000 0"), (FAR, "1 5 1 1 11000 600000 0"), (ON, "0 2 0 0 0 600000 0")),
        at(1003, (OVER, "2 4 3 0 7000 600000 0"), (FAR, "2 5 2 2 11000 600000 0"), (OVER, "1 4 1 0 7000 600000 0")),
        at(1004, (OVER, "3 4 4 0 7000 600000 0"), (FAR, "3 5 3 3 11000 600000 0"), (OVER, "2 4 2 0 7000 600000 0")),
        # Status 3, by the small run and by the large run, and status 2.
        *reasons(None, None, None),
        (declare(3, 50_000), "declare accepted"),
        *reasons(None, None, "operator 0 0"),
        # Unit 2: large run 4 = Dl. Its small run, 4, is below Ds.
        at(1005, (OVER, "3 4 5 0 7000 600000 0"), (FAR, "4 5 0 0 11000 600000 111000"), (OVER, "4 4 0 0 7000 600000 50000")),
        *reasons(None, "large 1002 1005", "operator 0 0"),
        # Unit 1: small run 6 = Ds.
        at(1006, (OVER, "4 4 0 0 7000 600000 107000"), (ON, "4 2 0 0 0 600000 111000"), (ON, "4 2 0 0 0 600000 50000")),
        *reasons("small 1001 1006", "large 1002 1005", "operator 0 0"),
    ]


def every_status_asked():
    """The calls of `every_status`, and after each of them the reason twice. Asking changes nothing, so the rest is what it was."""
    steps = every_status()
    answers = [
        *["refused 36"] * 12,  # to interval 8
        # At 9 by the small run: SMALL or LARGE at 2, 3, 4, 7, 8 and 9, with DOUBT and BLANK among them.
        *["accepted small 2 9"] * 4,  # to interval 11
        *["refused 36"] * 8,  # from the reinstatement to interval 17
        # At 18 by the large run, LARGE since the CLEAR at 14; its small run, 4, is below 6.
        *["accepted large 15 18"] * 2,
    ]
    asked = [(reason(1) * 2, *[f"reason {answer}"] * 2) for answer in answers]
    return [step for pair in zip(steps, asked, strict=True) for step in pair]


def reason_both_runs():
    """Marks that bring one run to its length, and marks that bring both: large then, with the large run's first mark."""
    def at(number, *units):
        return taken(number, AUTOMATIC, *units)

    none = ON, "0 1 0 0 0 0 0"
    on_111, on_107 = (ON, "4 2 0 0 0 600000 111000"), (ON, "4 2 0 0 0 600000 107000")
    return [
        # Ds 5, Dl 4. Unit 1: SMALL, LARGE x 4. Unit 2: LARGE, SMALL, LARGE x 3. Unit 3: LARGE x 4. Unit 4: SMALL x 4, LARGE.
        (load(register((2, 3, 5, 2, 3, 4), [(GENERATING, 0)] * 4)), "load accepted 0"),
        at(10, none, none, none, none),
        at(11, (OVER, "1 4 1 0 7000 600000 0"), (FAR, "1 5 1 1 11000 600000 0"),
           (FAR, "1 5 1 1 11000 600000 0"), (OVER, "1 4 1 0 7000 600000 0")),
        at(12, (FAR, "2 5 2 1 11000 600000 0"), (OVER, "2 4 2 0 7000 600000 0"),
           (FAR, "2 5 2 2 11000 600000 0"), (OVER, "2 4 2 0 7000 600000 0")),
        at(13, (FAR, "3 5 3 2 11000 600000 0"), (FAR, "3 5 3 1 11000 600000 0"),
           (FAR, "3 5 3 3 11000 600000 0"), (OVER, "3 4 3 0 7000 600000 0")),
        # Unit 3: large run 4, small run 4.
        at(14, (FAR, "3 5 4 3 11000 600000 0"), (FAR, "3 5 4 2 11000 600000 0"),
           (FAR, "4 5 0 0 11000 600000 111000"), (OVER, "3 4 4 0 7000 600000 0")),
        *reasons(None, None, "large 11 14", None),
        # Small run 5 for the others; large run 4, 3 and 1.
        at(15, (FAR, "4 5 0 0 11000 600000 111000"), (FAR, "4 5 0 0 11000 600000 111000"), on_111,
           (FAR, "4 5 0 0 11000 600000 111000")),
        *reasons("large 12 15", "small 11 15", "large 11 14", "small 11 15"),
        # Ds 4, Dl 4. Unit 1: LARGE x 4. Unit 2: SMALL, LARGE x 3. Unit 3: LARGE, SMALL x 3. Unit 4: CLEAR, SMALL, LARGE x 3.
        (load(register(LENGTHS, [(GENERATING, 0)] * 4)), "load accepted 0"),
        at(20, none, none, none, none),
        at(21, (FAR, "1 5 1 1 11000 600000 0"), (OVER, "1 4 1 0 7000 600000 0"),
           (FAR, "1 5 1 1 11000 600000 0"), (ON, "0 2 0 0 0 600000 0")),
        at(22, (FAR, "2 5 2 2 11000 600000 0"), (FAR, "2 5 2 1 11000 600000 0"),
           (OVER, "2 4 2 0 7000 600000 0"), (OVER, "1 4 1 0 7000 600000 0")),
        at(23, (FAR, "3 5 3 3 11000 600000 0"), (FAR, "3 5 3 2 11000 600000 0"),
           (OVER, "3 4 3 0 7000 600000 0"), (FAR, "2 5 2 1 11000 600000 0")),
        # Both runs of unit 1 are at 4 and have one first mark: large. Large run 3 for unit 2, 0 for unit 3: small.
        at(24, (FAR, "4 5 0 0 11000 600000 111000"), (FAR, "4 5 0 0 11000 600000 111000"),
           (OVER, "4 4 0 0 7000 600000 107000"), (FAR, "3 5 3 2 11000 600000 0")),
        *reasons("large 21 24", "small 21 24", "small 21 24", None),
        at(25, on_111, on_111, on_107, (FAR, "4 5 0 0 11000 600000 111000")),
        *reasons("large 21 24", "small 21 24", "small 21 24", "small 22 25"),
    ]


def reason_manual_runs():
    """Manual mode brings runs to their lengths and beyond; the first SMALL or LARGE in automatic mode declares, and the runs after
    that mark decide."""
    none, on = (ON, "0 1 0 0 0 0 0"), (ON, "0 2 0 0 0 600000 0")
    on_111, on_107 = (ON, "4 2 0 0 0 600000 111000"), (ON, "4 2 0 0 0 600000 107000")
    small_1, small_2 = (OVER, "1 4 1 0 7000 600000 0"), (OVER, "2 4 2 0 7000 600000 0")
    by_small, by_large = (OVER, "4 4 0 0 7000 600000 107000"), (FAR, "4 5 0 0 11000 600000 111000")

    def large(status, small, run):
        return FAR, f"{status} 5 {small} {run} 11000 600000 0"

    return [
        # Ds 4, Dl 6. Unit 1: SMALL x 2, LARGE x 5. Unit 2: SMALL x 3, LARGE x 4. Units 3 and 4: LARGE x 7.
        (load(register((2, 3, 4, 2, 3, 6), [(GENERATING, 0)] * 4)), "load accepted 0"),
        taken(500, MANUAL, none, none, none, none),
        taken(501, MANUAL, small_1, small_1, large(1, 1, 1), large(1, 1, 1)),
        taken(502, MANUAL, small_2, small_2, large(2, 2, 2), large(2, 2, 2)),
        taken(503, MANUAL, large(2, 3, 1), (OVER, "2 4 3 0 7000 600000 0"), large(2, 3, 3), large(2, 3, 3)),
        taken(504, MANUAL, large(2, 4, 2), large(2, 4, 1), large(2, 4, 4), large(2, 4, 4)),
        taken(505, MANUAL, large(2, 5, 3), large(2, 5, 2), large(2, 5, 5), large(2, 5, 5)),
        taken(506, MANUAL, large(2, 6, 4), large(2, 6, 3), large(2, 6, 6), large(2, 6, 6)),
        taken(507, MANUAL, large(2, 7, 5), large(2, 7, 4), large(2, 7, 7), large(2, 7, 7)),
        # Beyond both lengths, and not declared.
        *reasons(None, None, None, None),
        # Runs 8 and 6: both. 8 and 5: small. 8 and 8: both. SMALL sets unit 4's large run to 0, 8 and 0: small.
        taken(508, AUTOMATIC, by_large, by_large, by_large, by_small),
        *reasons("large 503 508", "small 501 508", "large 501 508", "small 501 508"),
        # Ds 7, Dl 4. Units 1 and 3: SMALL, LARGE x 5. Units 2 and 4: CLEAR, LARGE x 5.
        (load(register((2, 3, 7, 2, 3, 4), [(GENERATING, 0)] * 4)), "load accepted 0"),
        taken(600, MANUAL, none, none, none, none),
        taken(601, MANUAL, small_1, on, small_1, on),
        taken(602, MANUAL, large(2, 2, 1), large(1, 1, 1), large(2, 2, 1), large(1, 1, 1)),
        taken(603, MANUAL, large(2, 3, 2), large(2, 2, 2), large(2, 3, 2), large(2, 2, 2)),
        taken(604, MANUAL, large(2, 4, 3), large(2, 3, 3), large(2, 4, 3), large(2, 3, 3)),
        taken(605, MANUAL, large(2, 5, 4), large(2, 4, 4), large(2, 5, 4), large(2, 4, 4)),
        taken(606, MANUAL, large(2, 6, 5), large(2, 5, 5), large(2, 6, 5), large(2, 5, 5)),
        *reasons(None, None, None, None),
        # Runs 7 and 6: both. 6 and 6: large alone. 7 and 0: small. 6 and 0: neither is at its length, status 3.
        taken(607, AUTOMATIC, by_large, by_large, by_small, (OVER, "3 4 6 0 7000 600000 0")),
        *reasons("large 602 607", "large 602 607", "small 601 607", None),
        # Unit 4: runs 7 and 1. Its first mark is LARGE at 602.
        taken(608, AUTOMATIC, on_111, on_111, on_107, by_large),
        *reasons("large 602 607", "large 602 607", "small 601 607", "small 602 608"),
    ]


def reason_small_in_midst():
    """SMALL ends a large run and not the small one. Units 1 to 3 in no chain. Small run 2, 5, 9; large run 2, 3, 4."""
    def at(number, *units):
        return taken(number, AUTOMATIC, *units)

    none = ON, "0 1 0 0 0 0 0"
    return [
        (load(register((2, 5, 9, 2, 3, 4), [(GENERATING, 0)] * 3)), "load accepted 0"),
        at(70_000, none, none, none),
        at(70_001, (FAR, "1 5 1 1 11000 600000 0"), (FAR, "1 5 1 1 11000 600000 0"), (ON, "0 2 0 0 0 600000 0")),
        at(70_002, (FAR, "2 5 2 2 11000 600000 0"), (FAR, "2 5 2 2 11000 600000 0"), (OVER, "1 4 1 0 7000 600000 0")),
        # Unit 2: SMALL, and its large run is 0. Status 3 goes to 2.
        at(70_003, (FAR, "3 5 3 3 11000 600000 0"), (OVER, "2 4 3 0 7000 600000 0"), (FAR, "2 5 2 1 11000 600000 0")),
        # Unit 1 likewise, one short of Dl.
        at(70_004, (OVER, "2 4 4 0 7000 600000 0"), (FAR, "2 5 4 1 11000 600000 0"), (OVER, "2 4 3 0 7000 600000 0")),
        # Unit 1: the first mark of a new large run. Small run 5 = Ps.
        at(70_005, (FAR, "3 5 5 1 11000 600000 0"), (FAR, "3 5 5 2 11000 600000 0"), (FAR, "2 5 4 1 11000 600000 0")),
        at(70_006, (FAR, "3 5 6 2 11000 600000 0"), (OVER, "3 4 6 0 7000 600000 0"), (OVER, "3 4 5 0 7000 600000 0")),
        at(70_007, (FAR, "3 5 7 3 11000 600000 0"), (FAR, "3 5 7 1 11000 600000 0"), (FAR, "3 5 6 1 11000 600000 0")),
        # Unit 1: large run 4, small run 8.
        at(70_008, (FAR, "4 5 0 0 11000 600000 111000"), (FAR, "3 5 8 2 11000 600000 0"), (OVER, "3 4 7 0 7000 600000 0")),
        *reasons("large 70005 70008", None, None),
        # Unit 2: small run 9 with LARGE first and last in it, large run 3.
        at(70_009, (OVER, "4 4 0 0 7000 600000 111000"), (FAR, "4 5 0 0 11000 600000 111000"), (FAR, "3 5 8 1 11000 600000 0")),
        *reasons("large 70005 70008", "small 70001 70009", None),
        # Unit 3: SMALL and LARGE in turn, small run 9.
        at(70_010, (FAR, "4 5 0 0 11000 600000 111000"), (ON, "4 2 0 0 0 600000 111000"), (OVER, "4 4 0 0 7000 600000 107000")),
        *reasons("large 70005 70008", "small 70001 70009", "small 70002 70010"),
    ]


def reason_blank_and_doubt():
    """BLANK and DOUBT between the marks neither clear a run nor move its first mark. Small run 2, 3, 5; large run 2, 3, 4."""
    def at(number, *units):
        return taken(number, AUTOMATIC, *units)

    return [
        (load(register((2, 3, 5, 2, 3, 4), [(GENERATING, 0)] * 2)), "load accepted 0"),
        at(300, (ON, "0 1 0 0 0 0 0"), (ON, "0 1 0 0 0 0 0")),
        at(301, (OVER, "1 4 1 0 7000 600000 0"), (OVER, "1 4 1 0 7000 600000 0")),
        # Quality 2: BLANK; its target is kept. Then DOUBT.
        at(302, (BAD_LINE, "1 1 1 0 0 0 0"), (BAD_LINE, "1 1 1 0 0 0 0")),
        at(303, (UNSURE, "1 3 1 0 11000 600000 0"), (UNSURE, "1 3 1 0 11000 600000 0")),
        # Unit 2: the first mark of its large run.
        at(304, (OVER, "2 4 2 0 7000 600000 0"), (FAR, "2 5 2 1 11000 600000 0")),
        # Unreadable: BLANK. Then nothing is kept: BLANK.
        at(305, (UNREADABLE, "2 1 2 0 0 0 0"), (UNREADABLE, "2 1 2 1 0 0 0")),
        at(306, (OVER, "2 1 2 0 0 0 0"), (FAR, "2 1 2 1 0 0 0")),
        at(307, (FAR, "3 5 3 1 11000 600000 0"), (FAR, "3 5 3 2 11000 600000 0")),
        at(308, (UNSURE, "3 3 3 1 11000 600000 0"), (UNSURE, "3 3 3 2 11000 600000 0")),
        at(309, (OVER, "3 4 4 0 7000 600000 0"), (FAR, "3 5 4 3 11000 600000 0")),
        at(310, (BAD_LINE, "3 1 4 0 0 0 0"), (BAD_LINE, "3 1 4 3 0 0 0")),
        *reasons(None, None),
        # Unit 1: small run 5 by 301, 304, 307, 309 and 311. Unit 2: the same, and large run 4 by 304, 307, 309 and 311.
        at(311, (OVER, "4 4 0 0 7000 600000 107000"), (FAR, "4 5 0 0 11000 600000 111000")),
        *reasons("small 301 311", "large 304 311"),
        at(312, (UNSURE, "4 3 0 0 11000 600000 107000"), (BAD_LINE, "4 1 0 0 0 0 111000")),
        at(313, (UNREADABLE, "4 1 0 0 0 0 107000"), (UNSURE, "4 3 0 0 11000 600000 111000")),
        *reasons("small 301 311", "large 304 311"),
        # Reinstated. BLANK, DOUBT and BLANK begin no run: the first mark is the first that is counted.
        *reinstated(1, 2),
        *reasons(None, None),
        at(314, (FAR, "0 1 0 0 0 0 0"), (BAD_LINE, "0 1 0 0 0 0 0")),
        at(315, (UNSURE, "0 3 0 0 11000 600000 0"), (UNSURE, "0 3 0 0 11000 600000 0")),
        at(316, (BAD_LINE, "0 1 0 0 0 0 0"), (FAR, "1 5 1 1 11000 600000 0")),
        at(317, (FAR, "1 5 1 1 11000 600000 0"), (UNSURE, "1 3 1 1 11000 600000 0")),
        at(318, (FAR, "2 5 2 2 11000 600000 0"), (FAR, "2 5 2 2 11000 600000 0")),
        at(319, (FAR, "3 5 3 3 11000 600000 0"), (FAR, "3 5 3 3 11000 600000 0")),
        # Large run 4 for both, by 317 to 320, and by 316, 318, 319 and 320.
        at(320, (FAR, "4 5 0 0 11000 600000 111000"), (FAR, "4 5 0 0 11000 600000 111000")),
        *reasons("large 317 320", "large 316 320"),
    ]


def reason_off_and_clear():
    """OFF and CLEAR between the marks clear the runs: the first mark is one after them. Unit 1 (generating) in no chain, unit 2
    (generating) a chain of its own, point 4, unit 3 (semi-scheduled) in no chain.

    The aggregate has the sums of one member: the same error and triggers.
    """
    def at(number, one, two, three, four):
        return taken(number, AUTOMATIC, one, two, three, more=[four])

    def sun(mw, cap=1):
        return wide(mw, cap=cap)

    def large(status, small, run):
        return f"{status} 5 {small} {run} 11000 600000 0"

    over, far = wide(107.0, mode=2), wide(111.0, mode=2)
    none, off, on = "0 1 0 0 0 0 0", "0 0 0 0 0 0 0", "0 2 0 0 0 600000 0"
    small_1, small_2, small_3 = "1 4 1 0 7000 600000 0", "2 4 2 0 7000 600000 0", "3 4 3 0 7000 600000 0"
    declared, on_111 = "4 5 0 0 11000 600000 111000", (ON, "4 2 0 0 0 600000 111000")
    return [
        (load(register(LENGTHS, [(GENERATING, 0), (GENERATING, 0), (SEMI_SCHEDULED, 0)], [2])), "load accepted 1"),
        at(40, (ON, none), (wide(100.0, mode=2), none), (sun(100.0), none), none),
        at(41, (FAR, large(1, 1, 1)), (far, large(1, 1, 1)), (sun(111.0), large(1, 1, 1)), large(1, 1, 1)),
        at(42, (FAR, large(2, 2, 2)), (far, large(2, 2, 2)), (sun(111.0, cap=0), large(2, 2, 2)), large(2, 2, 2)),
        # CLEAR; OFF by conformance mode 1, which is not OFF for the aggregate; OFF by the kept flag of 0.
        at(43, (ON, on), (wide(111.0, mode=1), off), (sun(111.0), off), large(3, 3, 3)),
        # Runs from 44 on. The aggregate's are 4 and 4.
        at(44, (FAR, large(1, 1, 1)), (far, large(1, 1, 1)), (sun(111.0), large(1, 1, 1)), declared),
        *reasons(None, None, None, "large 41 44"),
        at(45, (OVER, small_2), (over, small_2), (sun(107.0), small_2), "4 4 0 0 7000 600000 111000"),
        # Substituted and on target: CLEAR. Conformance mode 0: OFF for the aggregate too. Too low with a kept flag of 1: CLEAR.
        at(46, (wide(100.0, quality=SUBSTITUTED), on), (wide(111.0, mode=0), off), (sun(50.0), "0 2 0 0 -50000 600000 0"),
           "4 0 0 0 0 0 111000"),
        # Runs of units 1 and 3 from 47 on; unit 2 is OFF once more.
        at(47, (OVER, small_1), (wide(111.0, mode=1), off), (sun(107.0), small_1), declared),
        at(48, (OVER, small_2), (far, large(1, 1, 1)), (sun(107.0, cap=0), small_2), declared),
        *reasons(None, None, None, "large 41 44"),
        *reinstated(4),
        # Unit 3 is OFF by the kept flag.
        at(49, (FAR, large(3, 3, 1)), (far, large(2, 2, 2)), (sun(111.0), off), large(1, 1, 1)),
        # Unit 1: small run 4 by 47 to 50, large run 2.
        at(50, (FAR, declared), (over, small_3), (sun(107.0), small_1), small_2),
        *reasons("small 47 50", None, None, None),
        # Unit 2: small run 4 by 48 to 51, large run 1.
        at(51, on_111, (far, declared), (sun(111.0), large(2, 2, 1)), large(3, 3, 1)),
        *reasons("small 47 50", "small 48 51", None, None),
        # OFF ends the aggregate's runs; unit 2's declaration stands.
        at(52, on_111, (wide(111.0, mode=0), "4 0 0 0 0 0 111000"), (sun(111.0), large(3, 3, 2)), off),
        # Unit 3: small run 4 by 50 to 53, large run 3.
        at(53, on_111, (far, declared), (sun(111.0), declared), large(1, 1, 1)),
        *reasons("small 47 50", "small 48 51", "small 50 53", None),
    ]


def reason_jump():
    """Numbers far apart. The mark of an interval after a jump is BLANK, or OFF where that fits first, and none is counted there.
    Unit 1 in no chain; unit 2 a chain of its own, point 3."""
    def at(number, first, second, three):
        return taken(number, AUTOMATIC, first, second, more=[three])

    over, far = wide(107.0, mode=2), wide(111.0, mode=2)
    on_107, declared = (ON, "4 2 0 0 0 600000 107000"), "4 5 0 0 11000 600000 111000"
    last = 4_000_000_000
    return [
        (load(register(LENGTHS, [(GENERATING, 0), (GENERATING, 0)], [2])), "load accepted 1"),
        at(7, (ON, "0 1 0 0 0 0 0"), (wide(100.0, mode=2), "0 1 0 0 0 0 0"), "0 1 0 0 0 0 0"),
        at(8, (OVER, "1 4 1 0 7000 600000 0"), (far, "1 5 1 1 11000 600000 0"), "1 5 1 1 11000 600000 0"),
        # From 8 to 1,000: nothing kept, BLANK, and the runs stand.
        at(1_000, (OVER, "1 1 1 0 0 0 0"), (far, "1 1 1 1 0 0 0"), "1 1 1 1 0 0 0"),
        at(1_001, (OVER, "2 4 2 0 7000 600000 0"), (far, "2 5 2 2 11000 600000 0"), "2 5 2 2 11000 600000 0"),
        # One number is left out. Conformance mode 1: OFF for unit 2, ahead of nothing kept; BLANK for its aggregate.
        at(1_003, (OVER, "2 1 2 0 0 0 0"), (wide(111.0, mode=1), "0 0 0 0 0 0 0"), "2 1 2 2 0 0 0"),
        at(1_000_000, (OVER, "2 1 2 0 0 0 0"), (far, "0 1 0 0 0 0 0"), "2 1 2 2 0 0 0"),
        # Unit 2: the first mark since the OFF.
        at(1_000_001, (OVER, "3 4 3 0 7000 600000 0"), (far, "1 5 1 1 11000 600000 0"), "3 5 3 3 11000 600000 0"),
        at(3_000_000_000, (OVER, "3 1 3 0 0 0 0"), (far, "1 1 1 1 0 0 0"), "3 1 3 3 0 0 0"),
        *reasons(None, None, None),
        # Run 4 by 8, 1,001, 1,000,001 and this one.
        at(3_000_000_001, (OVER, "4 4 0 0 7000 600000 107000"), (far, "2 5 2 2 11000 600000 0"), declared),
        *reasons("small 8 3000000001", None, "large 8 3000000001"),
        at(3_000_000_002, on_107, (over, "3 4 3 0 7000 600000 0"), "4 4 0 0 7000 600000 111000"),
        # Unit 2: small run 4, large run 1.
        at(3_000_000_003, on_107, (far, declared), declared),
        *reasons("small 8 3000000001", "small 1000001 3000000003", "large 8 3000000001"),
        # A jump while declared, and conformance mode 0.
        at(last, (ON, "4 1 0 0 0 0 107000"), (wide(111.0, mode=0), "4 0 0 0 0 0 111000"), "4 0 0 0 0 0 111000"),
        *reasons("small 8 3000000001", "small 1000001 3000000003", "large 8 3000000001"),
        *reinstated(3),
        at(last + 1, on_107, (far, declared), "1 5 1 1 11000 600000 0"),
        # All modes 0: the jump gives OFF, which clears the aggregate's runs.
        at(last + 100, (ON, "4 1 0 0 0 0 107000"), (wide(111.0, mode=0), "4 0 0 0 0 0 111000"), "0 0 0 0 0 0 0"),
        at(last + 101, on_107, (far, declared), "1 5 1 1 11000 600000 0"),
        at(last + 102, on_107, (far, declared), "2 5 2 2 11000 600000 0"),
        at(last + 103, on_107, (far, declared), "3 5 3 3 11000 600000 0"),
        at(last + 104, on_107, (far, declared), declared),
        *reasons("small 8 3000000001", "small 1000001 3000000003", "large 4000000101 4000000104"),
    ]


def reason_backlog():
    """Eight intervals in manual mode, then automatic mode. Six units in no chain; small run 2, 3, 6, large run 2, 3, 4.

    In manual mode unit 1: CLEAR, SMALL x 7; 2 and 3: SMALL, LARGE x 7; 4 and 6: LARGE x 8; 5: LARGE, SMALL x 7.
    """
    def small(status, run):
        return OVER, f"{status} 4 {run} 0 7000 600000 0"

    def large(status, run, of_large):
        return FAR, f"{status} 5 {run} {of_large} 11000 600000 0"

    steps = [
        (load(register((2, 3, 6, 2, 3, 4), [(GENERATING, 0)] * 6)), "load accepted 0"),
        taken(100, MANUAL, *[(ON, "0 1 0 0 0 0 0")] * 6),
        taken(101, MANUAL, (ON, "0 2 0 0 0 600000 0"), small(1, 1), small(1, 1), large(1, 1, 1), large(1, 1, 1), large(1, 1, 1)),
        taken(102, MANUAL, small(1, 1), large(2, 2, 1), large(2, 2, 1), large(2, 2, 2), small(2, 2), large(2, 2, 2)),
    ]
    # Past Ps and Pl, Ds and Dl: manual mode shows 2.
    for number in range(103, 109):
        run = number - 100
        steps.append(taken(number, MANUAL, small(2, run - 1), large(2, run, run - 1), large(2, run, run - 1), large(2, run, run),
                          small(2, run), large(2, run, run)))
    on_111, on_107 = (ON, "4 2 0 0 0 600000 111000"), (ON, "4 2 0 0 0 600000 107000")
    declared = "4 5 0 0 11000 600000 111000"
    return steps + [
        *reasons(*[None] * 6),
        # Unit 1: SMALL, runs 8 and 0. 2: LARGE, runs 9 and 8. 3: SMALL, which sets its large run to 0, runs 9 and 0. 4: BLANK in
        # automatic mode declares nothing. 5: LARGE, runs 9 and 1. 6: CLEAR, and nothing is left of its backlog.
        taken(109, AUTOMATIC, (OVER, "4 4 0 0 7000 600000 107000"), (FAR, declared), (OVER, "4 4 0 0 7000 600000 107000"),
             (BAD_LINE, "3 1 8 8 0 0 0"), (FAR, declared), (ON, "0 2 0 0 0 600000 0")),
        *reasons("small 102 109", "large 102 109", "small 101 109", None, "small 101 109", None),
        # Unit 4: nor does DOUBT.
        taken(110, AUTOMATIC, on_107, on_111, on_107, (UNSURE, "3 3 8 8 11000 600000 0"), on_111, large(1, 1, 1)),
        # Nor does LARGE in manual mode.
        taken(111, MANUAL, on_107, on_111, on_107, large(2, 9, 9), on_111, large(2, 2, 2)),
        *reasons("small 102 109", "large 102 109", "small 101 109", None, "small 101 109", None),
        # LARGE in automatic mode: runs 10 and 10.
        taken(112, AUTOMATIC, on_107, on_111, on_107, (FAR, declared), on_111, large(3, 3, 3)),
        # Unit 6: runs 4 and 4, the first mark in automatic mode, the second in manual mode.
        taken(113, AUTOMATIC, on_107, on_111, on_107, on_111, on_111, (FAR, declared)),
        *reasons("small 102 109", "large 102 109", "small 101 109", "large 101 112", "small 101 109", "large 110 113"),
    ]


def reason_past_255():
    """Runs past 255 in manual mode: the stored run stops and its first mark is the true one. Both declaration lengths 255.

    Six units in no chain. In manual mode, at 5001 to 5260, unit 1: SMALL; 2 and 3: SMALL three times, then LARGE; 4: CLEAR six
    times, then LARGE; 5: CLEAR seven times, then LARGE; 6: LARGE, but SMALL at 5257.
    """
    def stored(run):
        return min(run, 255)

    def status(run):
        return min(run, 2)  # 0, 1, then manual mode's 2

    def small(run):
        return OVER, f"{status(run)} 4 {stored(run)} 0 7000 600000 0"

    def large(run, of_large):
        return FAR, f"{status(run)} 5 {stored(run)} {stored(of_large)} 11000 600000 0"

    on = ON, "0 2 0 0 0 600000 0"
    steps = [
        (load(register((2, 3, 255, 2, 3, 255), [(GENERATING, 0)] * 6)), "load accepted 0"),
        taken(5000, MANUAL, *[(ON, "0 1 0 0 0 0 0")] * 6),
    ]
    for place in range(1, 261):
        second = small(place) if place <= 3 else large(place, place - 3)
        fourth = on if place <= 6 else large(place - 6, place - 6)
        fifth = on if place <= 7 else large(place - 7, place - 7)
        sixth = large(place, place) if place <= 256 else small(place) if place == 257 else large(place, place - 257)
        steps.append(taken(5000 + place, MANUAL, small(place), second, second, fourth, fifth, sixth))
    on_111, on_107 = (ON, "4 2 0 0 0 600000 111000"), (ON, "4 2 0 0 0 600000 107000")
    declared = FAR, "4 5 0 0 11000 600000 111000"
    return steps + [
        *looks("2 255 0 0", "2 255 255 0", "2 255 255 0", "2 254 254 0", "2 253 253 0", "2 255 3 0"),
        *reasons(*[None] * 6),
        # Runs, had they not stopped: 261 and 0; 261 and 258; by SMALL 261 and 0; 255 and 255; 254 and 254, status 3; 261 and 4.
        taken(5261, AUTOMATIC, (OVER, "4 4 0 0 7000 600000 107000"), declared, (OVER, "4 4 0 0 7000 600000 107000"), declared,
             (FAR, "3 5 254 254 11000 600000 0"), declared),
        *reasons("small 5001 5261", "large 5004 5261", "small 5001 5261", "large 5007 5261", None, "small 5001 5261"),
        # Unit 5: 255 and 255.
        taken(5262, AUTOMATIC, on_107, on_111, on_107, on_111, declared, on_111),
        *reasons("small 5001 5261", "large 5004 5261", "small 5001 5261", "large 5007 5261", "large 5008 5262", "small 5001 5261"),
    ]


def reason_stays():
    """Marks after the declaration, manual mode, jumps, looks and refused calls leave the reason. Unit 1 a chain of its own, point
    3; unit 2 in no chain. Small run 2, 3, 5; large run 2, 3, 4."""
    registered = register((2, 3, 5, 2, 3, 4), [(GENERATING, 0), (GENERATING, 0)], [1])
    on, over, far = wide(100.0, mode=2), wide(107.0, mode=2), wide(111.0, mode=2)

    def at(number, first, second, three, mode=AUTOMATIC):
        return taken(number, mode, first, second, more=[three])

    def small(status, run):
        return f"{status} 4 {run} 0 7000 600000 0"

    told = reasons("small 202 206", "large 201 204", "small 201 205")
    looked = standing(107_000, 111_000, 107_000)
    blank_107, clear_107 = "4 1 0 0 0 0 107000", "4 2 0 0 0 600000 107000"
    small_107, large_107 = "4 4 0 0 7000 600000 107000", "4 5 0 0 11000 600000 107000"
    on_111, far_111 = (ON, "4 2 0 0 0 600000 111000"), (FAR, "4 5 0 0 11000 600000 111000")
    return [
        (load(registered), "load accepted 1"),
        at(200, (on, "0 1 0 0 0 0 0"), (ON, "0 1 0 0 0 0 0"), "0 1 0 0 0 0 0"),
        # Conformance mode 1: unit 1 is OFF and its aggregate is not.
        at(201, (wide(107.0, mode=1), "0 0 0 0 0 0 0"), (FAR, "1 5 1 1 11000 600000 0"), small(1, 1)),
        at(202, (over, small(1, 1)), (FAR, "2 5 2 2 11000 600000 0"), small(2, 2)),
        at(203, (over, small(2, 2)), (FAR, "3 5 3 3 11000 600000 0"), small(3, 3)),
        # Unit 2: large run 4, small run 4.
        at(204, (over, small(3, 3)), far_111, small(3, 4)),
        *reasons(None, "large 201 204", None),
        # The aggregate, then unit 1: small run 5.
        at(205, (over, small(3, 4)), on_111, small_107),
        *reasons(None, "large 201 204", "small 201 205"),
        at(206, (over, small_107), on_111, small_107),
        # Asked again and again, with looks between.
        *told,
        *told,
        *looked,
        *told,
        *[step for pair in zip(told, looked, strict=True) for step in pair],
        *looked,
        # Five LARGE for unit 1, five SMALL for unit 2: as many as would declare by the other run. The event is still the first.
        *[step for number in range(207, 212)
          for step in (at(number, (far, large_107), (OVER, "4 4 0 0 7000 600000 111000"), large_107), *told, *looked)],
        # OFF, and BLANK by quality 2.
        at(212, (wide(111.0, mode=0), "4 0 0 0 0 0 107000"), (BAD_LINE, "4 1 0 0 0 0 111000"), "4 0 0 0 0 0 107000"),
        *told,
        # BLANK by a line that cannot be read, and DOUBT.
        at(213, (wide(111.0, mode=2, quality=3), blank_107), (UNSURE, "4 3 0 0 11000 600000 111000"), blank_107),
        *told,
        # Nothing kept for unit 1; LARGE.
        at(214, (on, blank_107), far_111, blank_107),
        *told,
        # CLEAR.
        at(215, (on, clear_107), on_111, clear_107),
        *told,
        # A jump; manual mode; then LARGE in automatic mode, four times.
        at(300, (far, blank_107), (FAR, "4 1 0 0 0 0 111000"), blank_107),
        *told,
        at(301, (far, large_107), far_111, large_107, mode=MANUAL),
        *told,
        *[at(number, (far, large_107), far_111, large_107) for number in range(302, 306)],
        *told,
        # Refused calls.
        refused("declare", 22, declare(1, 0), declare(2, 0), declare(3, -1)),
        refused("declare", 11, declare(1, -1), declare(3, 128_000_001)),
        refused("interval", 21, given(interval(305, AUTOMATIC, far, FAR), 48)),
        refused("interval", 8, given(interval(306, AUTOMATIC, far, FAR), 47)),
        refused("interval", 9, given(interval(306, 32, far, FAR), 48)),
        refused("reason", 10, reason(0), reason(4)),
        *told,
        *looked,
        # A reinstatement ends the reason of its own point alone.
        *reinstated(2),
        *reasons("small 202 206", None, "small 201 205"),
        *reinstated(3),
        *reasons("small 202 206", None, None),
        *reinstated(1),
        *reasons(None, None, None),
    ]


def reason_reinstated():
    """Declared, reinstated and declared again, by a run and by the operator in turn. Three units in no chain; small run 2, 3, 5,
    large run 2, 3, 4."""
    def small(status, run):
        return OVER, f"{status} 4 {run} 0 7000 600000 0"

    def large(status, run, of_large):
        return FAR, f"{status} 5 {run} {of_large} 11000 600000 0"

    def far(level):
        return FAR, f"4 5 0 0 11000 600000 {level}"

    def on(level):
        return ON, f"4 2 0 0 0 600000 {level}"

    def at(number, *units, mode=AUTOMATIC):
        return taken(number, mode, *units)

    return [
        (load(register((2, 3, 5, 2, 3, 4), [(GENERATING, 0)] * 3)), "load accepted 0"),
        at(900, *[(ON, "0 1 0 0 0 0 0")] * 3, mode=MANUAL),
        at(901, large(1, 1, 1), large(1, 1, 1), small(1, 1), mode=MANUAL),
        at(902, large(2, 2, 2), large(2, 2, 2), small(2, 2), mode=MANUAL),
        at(903, large(2, 3, 3), large(2, 3, 3), small(2, 3), mode=MANUAL),
        at(904, large(2, 4, 4), large(2, 4, 4), small(2, 4), mode=MANUAL),
        at(905, large(2, 5, 5), large(2, 5, 5), small(2, 5), mode=MANUAL),
        # Beyond both lengths in manual mode the status is 2, and the operator declares unit 2: no run did.
        *reasons(None, None, None),
        (declare(2, 60_000), "declare accepted"),
        *reasons(None, "operator 0 0", None),
        at(906, large(2, 6, 6), far(60_000), small(2, 6), mode=MANUAL),
        *reasons(None, "operator 0 0", None),
        # Unit 1: runs 7 and 7. Unit 3: 7 and 1. A LARGE that would have declared unit 2 leaves the operator.
        at(907, far(111_000), far(60_000), far(111_000)),
        *reasons("large 901 907", "operator 0 0", "small 901 907"),
        at(908, far(111_000), far(60_000), far(111_000)),
        at(909, far(111_000), far(60_000), far(111_000)),
        at(910, far(111_000), far(60_000), far(111_000)),
        *reasons("large 901 907", "operator 0 0", "small 901 907"),
        refused("declare", 22, declare(1, 0), declare(2, 0), declare(3, 0)),
        *reasons("large 901 907", "operator 0 0", "small 901 907"),
        *reinstated(1),
        *reasons(None, "operator 0 0", "small 901 907"),
        *reinstated(2, 3),
        *reasons(None, None, None),
        refused("reinstate", 23, reinstate(1), reinstate(2), reinstate(3)),
        *looks("0 0 0 0", "0 0 0 0", "0 0 0 0"),
        # New runs: nothing is left of 901 or of the marks while declared.
        at(911, large(1, 1, 1), large(1, 1, 1), large(1, 1, 1)),
        *reasons(None, None, None),
        at(912, large(2, 2, 2), large(2, 2, 2), large(2, 2, 2)),
        # Unit 1, first declared by a run, now by the operator, at status 2.
        (declare(1, 0), "declare accepted"),
        *reasons("operator 0 0", None, None),
        at(913, far(0), large(3, 3, 3), small(3, 3)),
        # Unit 2, first declared by the operator, now by a run, 4 and 4.
        at(914, far(0), far(111_000), large(3, 4, 1)),
        *reasons("operator 0 0", "large 911 914", None),
        # Unit 3 by the operator, at status 3. At 915 its small run would have been 5.
        (declare(3, 7), "declare accepted"),
        *reasons("operator 0 0", "large 911 914", "operator 0 0"),
        at(915, far(0), on(111_000), far(7)),
        *reasons("operator 0 0", "large 911 914", "operator 0 0"),
        *reinstated(1, 2, 3),
        *reasons(None, None, None),
        # A third time, all by a run.
        at(916, small(1, 1), small(1, 1), (ON, "0 2 0 0 0 600000 0")),
        at(917, small(2, 2), large(2, 2, 1), (ON, "0 2 0 0 0 600000 0")),
        at(918, small(3, 3), large(3, 3, 2), large(1, 1, 1)),
        # A refused reinstatement or declaration moves no first mark.
        refused("reinstate", 23, reinstate(1), reinstate(2), reinstate(3)),
        refused("declare", 11, declare(1, -1), declare(2, 128_000_001)),
        refused("declare", 22, declare(3, 0)),
        at(919, small(3, 4), large(3, 4, 3), large(2, 2, 2)),
        *reasons(None, None, None),
        # Unit 1: runs 5 and 0. Unit 2: 5 and 4, both.
        at(920, (OVER, "4 4 0 0 7000 600000 107000"), far(111_000), large(3, 3, 3)),
        *reasons("small 916 920", "large 917 920", None),
        at(921, on(107_000), on(111_000), far(111_000)),
        *reasons("small 916 920", "large 917 920", "large 918 921"),
    ]


def reason_refused_calls():
    """Refused calls before, between and after the marks are no part of a run, whatever number and lines an interval has."""
    def at(number, text, sent_line=OVER):
        return taken(number, AUTOMATIC, (sent_line, text))

    def none_counted(last):
        """Intervals that would be LARGE or on target, and other calls; `last` is the number of the last accepted."""
        return [
            refused("interval", 8, *[given(interval(number, AUTOMATIC, sent_line), 15) for number in (last + 1, last + 20)
                                     for sent_line in (FAR, ON)]),
            refused("interval", 8, given(interval(last + 1, AUTOMATIC, FAR, FAR), 16), given(b"", 16)),
            refused("interval", 9, *[given(interval(number, 32, sent_line), 16) for number in (last + 1, last + 30)
                                     for sent_line in (FAR, ON)]),
            refused("interval", 21, *[given(interval(number, AUTOMATIC, sent_line), 16) for number in (last, last - 1, 0)
                                      for sent_line in (FAR, ON)]),
            refused("load", 1, load(b"")),
            refused("load", 7, load(register(LENGTHS, [(GENERATING, 1)]))),
            refused("declare", 10, declare(0, 0)),
            refused("declare", 11, declare(1, -1)),
            refused("reinstate", 10, reinstate(2)),
            refused("look", 10, look(2)),
            refused("reason", 10, reason(2)),
        ]

    return [
        (load(ONE_UNIT), "load accepted 0"),
        at(50, "0 1 0 0 0 0 0", ON),
        *none_counted(50),
        refused("reason", 36, reason(1)),
        at(51, "1 4 1 0 7000 600000 0"),
        *none_counted(51),
        refused("declare", 22, declare(1, 0)),
        refused("reinstate", 23, reinstate(1)),
        refused("reason", 36, reason(1)),
        at(52, "2 4 2 0 7000 600000 0"),
        *none_counted(52),
        refused("reinstate", 23, reinstate(1)),
        refused("reason", 36, reason(1)),
        at(53, "3 4 3 0 7000 600000 0"),
        *none_counted(53),
        refused("reinstate", 23, reinstate(1)),
        refused("reason", 36, reason(1)),
        # Small run 4 by 51 to 54.
        at(54, "4 4 0 0 7000 600000 107000"),
        (reason(1), "reason accepted small 51 54"),
        *none_counted(54),
        refused("declare", 22, declare(1, 0)),
        (reason(1), "reason accepted small 51 54"),
        (look(1), "look accepted 4 0 0 107000"),
    ]


def reason_refusals():
    """20, then 10, then 36; loads. Chain 1 (its aggregate is point 3), unit 2 in no chain."""
    registered = register(LENGTHS, [(GENERATING, 0), (GENERATING, 0)], [1])
    beyond = [0, 4, 257, 258, 65_537, 2**31 + 1, 2**32 - 1]  # points: 0, n+m+1, and some whose low bytes are 1 or 2
    ten = refused("reason", 10, *[reason(point) for point in beyond])
    twenty = refused("reason", 20, *[reason(point) for point in (1, 2, 3, *beyond)])
    small, large = wide(107.0, mode=2), FAR  # unit 1 is SMALL, unit 2 LARGE

    def at(number, one, two, three):
        return taken(number, AUTOMATIC, (small, one), (large, two), more=[three])

    def run(number, status):
        """Three marks bring the status to 1, 2 and 3."""
        return at(number, f"{status} 4 {status} 0 7000 600000 0", f"{status} 5 {status} {status} 11000 600000 0",
                  f"{status} 4 {status} 0 7000 600000 0")

    none = "0 1 0 0 0 0 0"
    told = reasons("small 31 34", "large 31 34", "operator 0 0")
    return [
        # 20 goes before 10 and 36; a refused load leaves no register.
        twenty,
        refused("load", 1, load(b""), load(registered[:-1])),
        refused("load", 3, load(register((2, 3, 3, 2, 3, 4), [(GENERATING, 0)]))),
        twenty,
        (load(registered), "load accepted 1"),
        # 10 goes before 36, and 36 at status 0.
        ten,
        *reasons(None, None, None),
        at(30, none, none, none),
        *reasons(None, None, None),
        # Status 1, 2 and 3.
        run(31, 1),
        *reasons(None, None, None),
        run(32, 2),
        *reasons(None, None, None),
        run(33, 3),
        *reasons(None, None, None),
        ten,
        *looks("3 3 0 0", "3 3 3 0", "3 3 0 0"),
        (declare(3, -5), "declare accepted"),
        # Run 4 for units 1 and 2.
        at(34, "4 4 0 0 7000 600000 107000", "4 5 0 0 11000 600000 111000", "4 4 0 0 7000 600000 -5"),
        *told,
        # 10 whatever is declared.
        ten,
        *told,
        # A refused load keeps everything.
        refused("load", 1, load(b""), load(registered[:-1])),
        *told,
        refused("load", 2, load(bytes(16))),
        refused("load", 3, load(register((2, 3, 3, 2, 3, 4), [(GENERATING, 0)]))),
        refused("load", 4, load(registered[:-1] + b"\1")),
        refused("load", 5, load(register(LENGTHS, [(GENERATING, 0)], [2]))),
        refused("load", 6, load(register(LENGTHS, [(GENERATING, 1)], [1]))),
        refused("load", 7, load(register(LENGTHS, [(GENERATING, 1)]))),
        refused("load", 30, load(register(LENGTHS, [(SEMI_SCHEDULED, 0)], [1]))),
        *told,
        *standing(107_000, 111_000, -5),
        ten,
        # An accepted load, the same bytes: nothing is declared.
        (load(registered), "load accepted 1"),
        *reasons(None, None, None),
        *looks("0 0 0 0", "0 0 0 0", "0 0 0 0"),
        ten,
        # Nothing is kept, though 35 follows 34. Then new numbers.
        at(35, none, none, none),
        run(36, 1),
        run(37, 2),
        run(38, 3),
        *reasons(None, None, None),
        at(39, "4 4 0 0 7000 600000 107000", "4 5 0 0 11000 600000 111000", "4 4 0 0 7000 600000 107000"),
        *reasons("small 36 39", "large 36 39", "small 36 39"),
        # One unit: points 2 and 3 are beyond.
        (load(ONE_UNIT), "load accepted 0"),
        *reasons(None),
        refused("reason", 10, reason(2), reason(3)),
        # A load in the midst of a run: its marks count no more. The numbers begin below those of before.
        taken(1, AUTOMATIC, (ON, none)),
        taken(2, AUTOMATIC, (FAR, "1 5 1 1 11000 600000 0")),
        taken(3, AUTOMATIC, (FAR, "2 5 2 2 11000 600000 0")),
        taken(4, AUTOMATIC, (FAR, "3 5 3 3 11000 600000 0")),
        (load(ONE_UNIT), "load accepted 0"),
        *reasons(None),
        taken(5, AUTOMATIC, (FAR, none)),
        taken(6, AUTOMATIC, (OVER, "1 4 1 0 7000 600000 0")),
        taken(7, AUTOMATIC, (FAR, "2 5 2 1 11000 600000 0")),
        taken(8, AUTOMATIC, (FAR, "3 5 3 2 11000 600000 0")),
        taken(9, AUTOMATIC, (FAR, "4 5 0 0 11000 600000 111000")),
        *reasons("small 6 9"),
        # A unit declared, then a plant in which that number is an aggregate's.
        (load(register(LENGTHS, [(GENERATING, 0)], [1])), "load accepted 1"),
        *reasons(None, None),
        refused("reason", 10, reason(3)),
    ]


def reason_of_aggregate():
    """An aggregate's reason is that of its own marks. Chain 1 -> 2 (generating unit, load) is point 3.

    Targets are 100,000 and 40,000, the aggregate's 60,000, and its error is unit 1's less unit 2's. MWO max(200,000, 200,000), ROC
    max(9,000, 9,000): triggers as `wide` says for all three.
    """
    def at(number, first, second, *texts, **changes):
        lines = wide(first, mode=2), wide(second, mwb=40_000, mode=2, **changes)
        return accepted(interval(number, AUTOMATIC, *lines), *numbered(number, texts))

    return [
        (load(register(LENGTHS, [(GENERATING, 2), (LOAD, 0)], [1])), "load accepted 2"),
        at(60, 100.0, 40.0, "0 1 0 0 0 0 0", "0 1 0 0 0 0 0", "0 1 0 0 0 0 0"),
        # 5,000 and -6,000 are CLEAR, 11,000 is LARGE.
        at(61, 105.0, 34.0, "0 2 0 0 5000 600000 0", "0 2 0 0 -6000 600000 0", "1 5 1 1 11000 600000 0"),
        at(62, 107.0, 34.0, "1 4 1 0 7000 600000 0", "0 2 0 0 -6000 600000 0", "2 5 2 2 13000 600000 0"),
        at(63, 107.0, 33.0, "2 4 2 0 7000 600000 0", "1 4 1 0 -7000 600000 0", "3 5 3 3 14000 600000 0"),
        # The aggregate: runs 4 and 4, at 107,000 - 33,000.
        at(64, 107.0, 33.0, "3 4 3 0 7000 600000 0", "2 4 2 0 -7000 600000 0", "4 5 0 0 14000 600000 74000"),
        *reasons(None, None, "large 61 64"),
        # 11,000 each: the aggregate is on target. Unit 1: runs 4 and 1.
        at(65, 111.0, 51.0, "4 5 0 0 11000 600000 111000", "3 5 3 1 11000 600000 0", "4 2 0 0 0 600000 74000"),
        *reasons("small 62 65", None, "large 61 64"),
        # Unit 2: runs 4 and 0.
        at(66, 100.0, 33.0, "4 2 0 0 0 600000 111000", "4 4 0 0 -7000 600000 33000", "4 4 0 0 7000 600000 74000"),
        *reasons("small 62 65", "small 63 66", "large 61 64"),
        *reinstated(3),
        *reasons("small 62 65", "small 63 66", None),
        # 5,000 and -5,000 are CLEAR; 10,000 is SMALL, as 1,000,000 does not exceed the large trigger.
        at(67, 105.0, 35.0, "4 2 0 0 5000 600000 111000", "4 2 0 0 -5000 600000 33000", "1 4 1 0 10000 600000 0"),
        *reinstated(1),
        *reasons(None, "small 63 66", None),
        # Unit 2 cannot be read, then has nothing kept: BLANK for it and for the aggregate. Unit 1 counts on.
        at(68, 107.0, 35.0, "1 4 1 0 7000 600000 0", "4 1 0 0 0 0 33000", "1 1 1 0 0 0 0", quality=3),
        at(69, 107.0, 35.0, "2 4 2 0 7000 600000 0", "4 1 0 0 0 0 33000", "1 1 1 0 0 0 0"),
        # 12,000: LARGE.
        at(70, 107.0, 35.0, "3 4 3 0 7000 600000 0", "4 2 0 0 -5000 600000 33000", "2 5 2 1 12000 600000 0"),
        # The operator declares unit 1, and the aggregate goes on.
        (declare(1, 5), "declare accepted"),
        *reasons("operator 0 0", "small 63 66", None),
        at(71, 105.0, 35.0, "4 2 0 0 5000 600000 5", "4 2 0 0 -5000 600000 33000", "3 4 3 0 10000 600000 0"),
        # Runs 4 and 0 by 67, 70, 71 and 72, at 105,000 - 35,000.
        at(72, 105.0, 35.0, "4 2 0 0 5000 600000 5", "4 2 0 0 -5000 600000 33000", "4 4 0 0 10000 600000 70000"),
        *reasons("operator 0 0", "small 63 66", "small 67 72"),
        # Reinstated, and declared by the operator.
        *reinstated(3),
        at(73, 105.0, 35.0, "4 2 0 0 5000 600000 5", "4 2 0 0 -5000 600000 33000", "1 4 1 0 10000 600000 0"),
        at(74, 105.0, 35.0, "4 2 0 0 5000 600000 5", "4 2 0 0 -5000 600000 33000", "2 4 2 0 10000 600000 0"),
        *reasons("operator 0 0", "small 63 66", None),
        (declare(3, -70_000), "declare accepted"),
        *reasons("operator 0 0", "small 63 66", "operator 0 0"),
        # Reinstating the members leaves the aggregate's reason.
        *reinstated(1, 2),
        *reasons(None, None, "operator 0 0"),
    ]


def reason_numbers():
    """Numbers at the ends and across 2^31. Interval 0 is a first one, with nothing kept, so no run has it as its first mark: the
    least is 1. Unit 1 is SMALL, unit 2 LARGE."""
    def at(number, one, two):
        return taken(number, AUTOMATIC, (OVER, one), (FAR, two))

    def run(number, status):
        return at(number, f"{status} 4 {status} 0 7000 600000 0", f"{status} 5 {status} {status} 11000 600000 0")

    def declared(number):
        return at(number, "4 4 0 0 7000 600000 107000", "4 5 0 0 11000 600000 111000")

    def blank(number, status):
        return at(number, f"{status} 1 {status} 0 0 0 0", f"{status} 1 {status} {status} 0 0 0")

    def after_the_last():
        return refused("interval", 21, *[given(interval(number, AUTOMATIC, ON, ON), 32) for number in (0, 1, 2**32 - 1)])

    none = "0 1 0 0 0 0 0"
    return [
        (load(TWO_UNITS), "load accepted 0"),
        at(0, none, none),
        run(1, 1),
        run(2, 2),
        run(3, 3),
        declared(4),
        *reasons("small 1 4", "large 1 4"),
        # The least first mark and the greatest last one: 1 and then, after a jump, 4294967292, 4294967293 and 4294967295.
        (load(TWO_UNITS), "load accepted 0"),
        at(0, none, none),
        run(1, 1),
        blank(4_294_967_291, 1),
        run(4_294_967_292, 2),
        run(4_294_967_293, 3),
        taken(4_294_967_294, AUTOMATIC, (BAD_LINE, "3 1 3 0 0 0 0"), (UNSURE, "3 3 3 3 11000 600000 0")),
        *reasons(None, None),
        declared(4_294_967_295),
        *reasons("small 1 4294967295", "large 1 4294967295"),
        after_the_last(),
        *reasons("small 1 4294967295", "large 1 4294967295"),
        *reinstated(1),
        *reasons(None, "large 1 4294967295"),
        # The greatest first mark.
        (load(TWO_UNITS), "load accepted 0"),
        at(4_294_967_291, none, none),
        run(4_294_967_292, 1),
        run(4_294_967_293, 2),
        run(4_294_967_294, 3),
        declared(4_294_967_295),
        *reasons("small 4294967292 4294967295", "large 4294967292 4294967295"),
        after_the_last(),
        *reasons("small 4294967292 4294967295", "large 4294967292 4294967295"),
        # Across 2,147,483,648.
        (load(TWO_UNITS), "load accepted 0"),
        at(2_147_483_645, none, none),
        run(2_147_483_646, 1),
        run(2_147_483_647, 2),
        run(2_147_483_648, 3),
        declared(2_147_483_649),
        *reasons("small 2147483646 2147483649", "large 2147483646 2147483649"),
    ]


def reason_plant():
    """64 units and 16 aggregates: units 49 to 64 are each a chain of its own, 64 as point 65 down to 49 as point 80.

    A unit's first mark is at 11, and later by as much as its number leaves when divided by 5. It is LARGE where 3 divides its
    number, SMALL otherwise, and so is its aggregate. Run 4 is three intervals later.
    """
    unit_of = [*range(1, 65), *range(64, 48, -1)]  # the unit that a point is or has

    def first(unit):
        return 11 + unit % 5

    def sent_by(unit, number):
        mw = 100.0 if number < first(unit) else 111.0 if unit % 3 == 0 else 107.0
        return wide(mw, mode=2 if unit > 48 else 0)

    def text(unit, number):
        run = number - first(unit) + 1
        if number == 10:
            return "0 1 0 0 0 0 0"  # nothing kept
        if run < 1:
            return "0 2 0 0 0 600000 0"
        if unit % 3 == 0:
            return f"{run} 5 {run} {run} 11000 600000 0" if run < 4 else "4 5 0 0 11000 600000 111000"
        return f"{run} 4 {run} 0 7000 600000 0" if run < 4 else "4 4 0 0 7000 600000 107000"

    def at(number):
        return accepted(interval(number, AUTOMATIC, *[sent_by(unit, number) for unit in range(1, 65)]),
                        *numbered(number, [text(unit, number) for unit in unit_of]))

    def told(unit):
        return f"{'small' if unit % 3 else 'large'} {first(unit)} {first(unit) + 3}"

    units = [(GENERATING, 0)] * 64
    return [
        (load(register(LENGTHS, units, range(64, 48, -1))), "load accepted 16"),
        *[at(number) for number in range(10, 17)],
        # Those whose first mark was at 11, 12 or 13.
        *reasons(*[told(unit) if unit % 5 <= 2 else None for unit in unit_of]),
        at(17),
        at(18),
        *reasons(*[told(unit) for unit in unit_of]),
        refused("reason", 10, reason(0), reason(81), reason(257), reason(2**32 - 1)),
        # Every second point is reinstated; the reasons of the others stand.
        *reinstated(*range(2, 81, 2)),
        *reasons(*[told(unit) if point % 2 else None for point, unit in enumerate(unit_of, 1)]),
    ]


# ---- targets (02, 2026-07)


def aimed(mw, mwb, fcr, fcl, **changes):
    """`plain` with another target and regulation; its triggers are the same."""
    return plain(mw, mwb=mwb, fcr=fcr, fcl=fcl, **changes)


def targets(first, *answers):
    """The target of each aggregate from point `first` on."""
    return [(target(point), f"target accepted {answer}") for point, answer in enumerate(answers, first)]


def target_mixed():
    """Kinds 1 to 3 in chains and kinds 1 to 4 in none. Chain 4 -> 1 -> 5 -> 3 (bidirectional unit, generating unit, load, load) is
    point 12, chain 7 -> 6 (generating unit, bidirectional unit) point 13, chain 11 (load) point 14.

    From the second interval on MW is the kept target, unless something else is said: no error. MWO is max(200,000, 200,000) for
    point 12, max(200,000, 0) for 13 and max(0, 100,000) for 14, and ROC max(6,000, 6,000), max(6,000, 0) and max(0, 3,000): their
    small triggers are 600,000, and the large one of 12 is max(600,000, min(1,000,000, 2,400,000)).
    """
    units = [(GENERATING, 5), (GENERATING, 0), (LOAD, 0), (BIDIRECTIONAL, 1), (LOAD, 3), (BIDIRECTIONAL, 0), (GENERATING, 6),
             (LOAD, 0), (BIDIRECTIONAL, 0), (SEMI_SCHEDULED, 0), (LOAD, 0)]
    none, off, on = "0 1 0 0 0 0 0", "0 0 0 0 0 0 0", "0 2 0 0 0 600000 0"

    def member(mw, mwb, fcr, fcl, **changes):
        return aimed(mw, mwb, fcr, fcl, **({"mode": 2} | changes))

    def at(number, a, b, c, alone=on):
        """Of each chain the lines of its members in its order, each with what is printed; then what is printed of the aggregate.
        The units in no chain stay at their targets; these and their regulation are in no sum."""
        four, one, five, three, twelve = a
        seven, six, thirteen = b
        eleven, fourteen = c
        high = aimed(1000.0, 1_000_000, 500_000, 600_000), alone
        low = aimed(-1000.0, -1_000_000, 500_000, 600_000), alone
        sun = aimed(1000.0, 1_000_000, 500_000, 600_000, cap=1), alone
        return taken(number, AUTOMATIC, one, high, three, four, five, six, seven, high, low, sun, eleven,
                     more=[twelve, thirteen, fourteen])

    # The long chain at intervals 1 and 8: conformance mode 0, OFF.
    early = [(aimed(0.0, -50_000, 100, 7), off), (aimed(0.0, 100_000, 1_000, 200), off), (aimed(0.0, 30_000, 20, 3_000), off),
             (aimed(0.0, 40_000, 3, 40), off), off]
    return [
        (load(register(LENGTHS, units, [4, 7, 11])), "load accepted 7"),
        # After a load nothing is kept.
        *targets(12, "0 0 0 0", "0 0 0 0", "0 0 0 0"),
        # All modes 0: OFF. Mode 2 and nothing kept: BLANK. Mode 1: OFF, and the aggregate is BLANK. The lines are kept.
        at(1,
           early,
           [(member(0.0, 60_000, 5, 0), none), (member(0.0, -60_000, 0, 9), none), none],
           [(member(0.0, 80_000, 11, 12, mode=1), off), none], alone=none),
        # 12: -50,000 + 100,000 - 30,000 - 40,000; 100 + 1,000 + 20 + 3; 7 + 200 + 3,000 + 40. 13: 60,000 - 60,000 is 0, and all are
        # kept. 14: a load.
        *targets(12, "-20000 1123 3247 1", "0 5 9 1", "-80000 11 12 1"),
        at(2,
           [(member(-50.0, 70_000, 0, 0), on), (member(100.0, 5_000, 0, 1), on), (member(30.0, 90_000, 2_000, 0), on),
            (member(40.0, 0, 0, 0), on), on],
           [(member(60.0, 0, 0, 0), on), (member(-60.0, 0, 0, 0), on), on],
           [(member(80.0, 0, 7, 0), on), on]),
        # 70,000 + 5,000 - 90,000 - 0. The targets of 13 are 0 and kept.
        *targets(12, "-15000 2000 1 1", "0 0 0 1", "0 7 0 1"),
        # Unit 5 is bad: BLANK, and so is 12; unit 1 has mode 0: OFF. Unit 7 is substituted: CLEAR. Units 6 and 11 are bad and have
        # mode 0: OFF; 13 is BLANK for a bad member, and 14 OFF, as all its modes are 0. All can be read, so all are kept.
        at(3,
           [(member(70.0, -2_000_000, 2_000_000, 0), on), (member(5.0, 2_000_000, 0, 2_000_000, mode=0), off),
            (member(float("nan"), 12_345, 67, 89, quality=BAD), none), (member(0.0, 2_000_000, 5, 6), on), none],
           [(member(0.0, 1, 1, 0, quality=SUBSTITUTED), on), (member(0.0, -2, 0, 1, quality=BAD, mode=0), off), none],
           [(member(float("nan"), 1, 0, 0, quality=BAD, mode=0), off), off]),
        # -2,000,000 + 2,000,000 - 12,345 - 2,000,000; 2,000,000 + 0 + 67 + 5; 0 + 2,000,000 + 89 + 6.
        *targets(12, "-2012345 2000072 2000095 1", "-1 1 1 1", "-1 0 0 1"),
        at(4,
           [(member(-2000.0, 40_000, 1, 2), on), (member(2000.0, 30_000, 3, 4), on), (member(12.345, 20_000, 5, 6), on),
            (member(2000.0, 10_000, 7, 8), on), on],
           [(member(0.001, 25_000, 0, 500), on), (member(-0.002, -75_000, 600, 0), on), on],
           [(member(0.001, 2_000_000, 2_000_000, 2_000_000), on), on]),
        # 40,000 + 30,000 - 20,000 - 10,000; 1 + 3 + 5 + 7; 2 + 4 + 6 + 8. 25,000 - 75,000.
        *targets(12, "40000 16 20 1", "-50000 600 500 1", "-2000000 2000000 2000000 1"),
        # Unit 1: 130,000 - 30,003, LARGE. Point 12: 40,000 + 130,000 - 20,000 - 10,000 - 40,016, LARGE.
        at(5,
           [(member(40.0, -10_000, 0, 0), on), (member(130.0, 60_000, 0, 0), "1 5 1 1 99997 600000 0"),
            (member(20.0, 20_000, 0, 0), on), (member(10.0, 30_000, 0, 0), on), "1 5 1 1 99984 600000 0"],
           [(member(25.0, 99_999, 12, 34), on), (member(-75.0, 1, 56, 78), on), on],
           [(member(2000.0, 33, 44, 55), on), on]),
        # -10,000 + 60,000 - 20,000 - 30,000 is 0. 99,999 + 1; 12 + 56; 34 + 78.
        *targets(12, "0 0 0 1", "100000 68 112 1", "-33 44 55 1"),
        # Units 3 and 11 cannot be read, 3 for its quality, 11 for its target: BLANK with their aggregates. Point 12's run stands.
        at(6,
           [(member(-10.0, -20_000, 0, 0), on), (member(60.0, 20_000, 0, 0), on), (member(20.0, 0, 0, 0), on),
            (member(30.0, 1_000, 2, 3, quality=3), none), "1 1 1 1 0 0 0"],
           [(member(99.999, 44_000, 1, 1), on), (member(0.001, -4_000, 1, 1), on), on],
           [(member(0.033, -1, 9, 9), none), none]),
        # -20,000 + 20,000 - 0: the same sums as before, but not of every member. Nothing is left of 11.
        *targets(12, "0 0 0 0", "40000 2 2 1", "0 0 0 0"),
        # Nothing is kept for 3 and 11: BLANK.
        at(7,
           [(member(-20.0, -1, 10, 20), on), (member(20.0, 2, 30, 40), on), (member(0.0, 4, 50, 60), on),
            (member(0.0, 8, 70, 80), none), "1 1 1 1 0 0 0"],
           [(member(44.0, 7, 0, 0), on), (member(-4.0, 6, 0, 0), on), on],
           [(member(0.0, 1_999_999, 1, 2), none), none]),
        # -1 + 2 - 4 - 8; 10 + 30 + 50 + 70; 20 + 40 + 60 + 80. 7 + 6.
        *targets(12, "-11 160 200 1", "13 0 0 1", "-1999999 1 2 1"),
        # The targets of interval 1 once more: nothing adds up over intervals.
        at(8,
           early,
           [(member(0.007, 60_000, 5, 0), on), (member(0.006, -60_000, 0, 9), on), on],
           [(member(1999.999, 80_000, 11, 12), on), on]),
        *targets(12, "-20000 1123 3247 1", "0 5 9 1", "-80000 11 12 1"),
    ]


def target_unreadable():
    """Members that cannot be read, at each place of chain 4 -> 1 -> 5 -> 2 -> 3 (generating unit, load, bidirectional unit,
    generating unit, load), point 9; those beyond count all the same. Beside it chain 7 -> 6 (generating unit, load), point 10, and
    unit 8 in no chain.

    Conformance mode is 0 in the long chain: OFF, and BLANK for a line that cannot be read; its aggregate is OFF, and BLANK with
    such a member. The others stay at their targets. Point 10 has MWO max(100,000, 100,000): a small trigger of 600,000.
    """
    units = [(LOAD, 5), (GENERATING, 3), (LOAD, 0), (GENERATING, 1), (BIDIRECTIONAL, 2), (LOAD, 0), (GENERATING, 6),
             (GENERATING, 0)]
    none, off, on = "0 1 0 0 0 0 0", "0 0 0 0 0 0 0", "0 2 0 0 0 600000 0"
    above_2000 = 2000.0001220703125  # the float next to 2000.0

    # All five: 100,000 - 20,000 - 3,000 + 400 - 50 = 77,350; 1 + 20 + 300 + 4,000 + 50,000 = 54,321; 10,000 + 2,000 + 300 + 40 + 5
    # = 12,345.
    def unit_4(mw=0.0, mwb=100_000, fcr=1, fcl=10_000, **changes):
        return aimed(mw, mwb, fcr, fcl, **changes)

    def unit_1(mw=0.0, mwb=20_000, fcr=20, fcl=2_000, **changes):
        return aimed(mw, mwb, fcr, fcl, **changes)

    def unit_5(mw=0.0, mwb=-3_000, fcr=300, fcl=300, **changes):
        return aimed(mw, mwb, fcr, fcl, **changes)

    def unit_2(mw=0.0, mwb=400, fcr=4_000, fcl=40, **changes):
        return aimed(mw, mwb, fcr, fcl, **changes)

    def unit_3(mw=0.0, mwb=50, fcr=50_000, fcl=5, **changes):
        return aimed(mw, mwb, fcr, fcl, **changes)

    six, seven = aimed(80.0, 80_000, 8, 9, mode=2), aimed(50.0, 50_000, 6, 7, mode=2)
    eight = aimed(70.0, 70_000, 900, 900)

    def at(number, four, one, five, two, three, nine, seven_six_ten=((seven, on), (six, on), on), alone=(eight, on)):
        """The lines of the long chain in its order, each with what is printed, and what is printed of its aggregate; the same of
        the other chain; unit 8."""
        of_seven, of_six, ten = seven_six_ten
        return taken(number, AUTOMATIC, one, two, three, four, five, of_six, of_seven, alone, more=[nine, ten])

    # Lines that can be read.
    four, one, five, two, three = (unit_4(), off), (unit_1(), off), (unit_5(), off), (unit_2(), off), (unit_3(), off)
    beside = "-30000 14 16 1"  # 50,000 - 80,000; 6 + 8; 7 + 9
    broken = [(unit_4(quality=3), none), (unit_1(mode=3), none), (unit_5(cap=1), none), (unit_2(quality=4), none),
              (unit_3(cap=2), none)]  # in the order of the chain, for quality, mode or byte 2
    return [
        (load(register(LENGTHS, units, [4, 7])), "load accepted 7"),
        *targets(9, "0 0 0 0", "0 0 0 0"),
        at(1, four, one, five, two, three, off, ((seven, none), (six, none), none), (eight, none)),
        *targets(9, "77350 54321 12345 1", beside),
        # The first in the chain, for its quality: less 100,000, 1 and 10,000.
        at(2, (unit_4(quality=3), none), one, five, two, three, none),
        *targets(9, "-22650 54320 2345 0", beside),
        # The middle one, for its conformance mode: less -3,000, 300 and 300.
        at(3, four, one, (unit_5(mode=3), none), two, three, none),
        *targets(9, "80350 54021 12045 0", beside),
        # The last, a load with a target below 0: less -50, 50,000 and 5.
        at(4, four, one, five, two, (unit_3(mwb=-1), none), none),
        *targets(9, "77400 4321 12340 0", beside),
        # The second, for FCR: less -20,000, 20 and 2,000. Unit 8 cannot be read either: conformance mode 1 in no chain.
        at(5, four, (unit_1(fcr=2_000_001), none), five, two, three, none, alone=(aimed(70.0, 70_000, 900, 900, mode=1), none)),
        *targets(9, "97350 54301 10345 0", beside),
        # The last but one, for FCL: less 400, 4,000 and 40. Nothing is kept for unit 8.
        at(6, four, one, five, (unit_2(fcl=2_000_001), none), three, none, alone=(eight, none)),
        *targets(9, "76950 50321 12305 0", beside),
        # All can be read.
        at(7, four, one, five, two, three, off),
        *targets(9, "77350 54321 12345 1", beside),
        # The first, MW no number, and the last, byte 2: -20,000 - 3,000 + 400; 20 + 300 + 4,000; 2,000 + 300 + 40.
        at(8, (unit_4(float("nan")), none), one, five, two, (unit_3(cap=1), none), none),
        *targets(9, "-22600 4320 2340 0", beside),
        # The second, MWO, and the last but one, MW: 100,000 - 3,000 - 50; 1 + 300 + 50,000; 10,000 + 300 + 5.
        at(9, four, (unit_1(mwo=2_000_001), none), five, (unit_2(above_2000), none), three, none),
        *targets(9, "96950 50301 10305 0", beside),
        # The first, a SCADA rate below 0, and the second, a target beyond its bound in a bad line: -3,000 + 400 - 50; 300 + 4,000 +
        # 50,000; 300 + 40 + 5.
        at(10, (unit_4(scada=(-1.0, 3.0)), none), (unit_1(mwb=2_000_001, quality=BAD), none), five, two, three, none),
        *targets(9, "-2650 54300 345 0", beside),
        # All but the last, which is a load. A generating unit's target is below 0.
        at(11, (unit_4(quality=255), none), (unit_1(mode=255), none), (unit_5(mwb=-2_000_001), none), (unit_2(mwb=-1), none),
           three, none),
        *targets(9, "-50 50000 5 0", beside),
        # All but the first. Of unit 3 byte 3 is not zero.
        at(12, four, (unit_1(bid=(2_000_001, 3000)), none), (unit_5(bid=(3000, 2_000_001)), none),
           (unit_2(scada=(3.0, above_2000)), none), (unit_3()[:3] + b"\1" + unit_3()[4:], none), none),
        *targets(9, "100000 1 10000 0", beside),
        # All but the middle one.
        at(13, broken[0], broken[1], five, broken[3], broken[4], none),
        *targets(9, "-3000 300 300 0", beside),
        # All five, twice.
        at(14, *broken, none),
        *targets(9, "0 0 0 0", beside),
        at(15, *broken, none),
        *targets(9, "0 0 0 0", beside),
        # All can be read again, with other values: 1,000 - 2,000 + 3,000 + 4,000 - 5,000; 2 + 0 + 4 + 0 + 6; 0 + 3 + 0 + 5 + 0.
        at(16, (unit_4(mwb=1_000, fcr=2, fcl=0), off), (unit_1(mwb=2_000, fcr=0, fcl=3), off),
           (unit_5(mwb=3_000, fcr=4, fcl=0), off), (unit_2(mwb=4_000, fcr=0, fcl=5), off),
           (unit_3(mwb=5_000, fcr=6, fcl=0), off), off),
        *targets(9, "1000 12 8 1", beside),
        # The middle one cannot be read: nothing is left of its 3,000 and 4, and the others are those of this interval.
        at(17, four, one, broken[2], two, three, none),
        *targets(9, "80350 54021 12045 0", beside),
        # Bad, with floats that are no numbers: not read, so the line can be.
        at(18, four, one, (unit_5(float("nan"), scada=(float("nan"), -1.0), quality=BAD), off), two, three, off),
        *targets(9, "77350 54321 12345 1", beside),
        # The other chain: its last, then its first. After that nothing is kept for 6, and then for 7.
        at(19, four, one, five, two, three, off, ((seven, on), (aimed(80.0, 80_000, 8, 9, mode=2, quality=3), none), none)),
        *targets(9, "77350 54321 12345 1", "50000 6 7 0"),
        at(20, four, one, five, two, three, off, ((aimed(50.0, 50_000, 6, 7, mode=2, quality=3), none), (six, none), none)),
        *targets(9, "77350 54321 12345 1", "-80000 8 9 0"),
        at(21, four, one, five, two, three, off, ((seven, none), (six, on), none)),
        *targets(9, "77350 54321 12345 1", beside),
        at(22, *broken, none),
        *targets(9, "0 0 0 0", beside),
    ]


def target_between():
    """What comes between two intervals leaves the sums, accepted or refused; an accepted load alone sets them to 0. Chain 1 -> 2
    (generating unit, load) is point 4, unit 3 is in no chain.

    Triggers as `wide` says, for point 4 too: MWO max(200,000, 200,000), ROC max(9,000, 9,000).
    """
    registered = register(LENGTHS, [(GENERATING, 2), (LOAD, 0), (GENERATING, 0)], [1])
    one, two = wide(112.0, fcr=1_000, fcl=2_000, mode=2), wide(40.0, mwb=40_000, fcr=500, mode=2)
    none, on = "0 1 0 0 0 0 0", "0 2 0 0 0 600000 0"

    def at(number, first, second, *texts):
        return accepted(interval(number, AUTOMATIC, first, second, wide(100.0)), *numbered(number, texts))

    def asked(answer, *steps):
        """The target of point 4, then each of these and after it the target again."""
        return [*targets(4, answer), *[both for step in steps for both in (step, *targets(4, answer))]]

    def one_by_one(name, number, *calls):
        """Calls of one name that are all refused with one number, a step each."""
        return [refused(name, number, sent) for sent in calls]

    # Lines of refused intervals: other targets, and none that can be read.
    other = wide(100.0, mwb=1, fcr=2, fcl=3, mode=2), wide(40.0, mwb=4, fcr=5, fcl=6, mode=2), wide(100.0)
    unread = wide(100.0, mode=3), wide(40.0, mode=3), wide(100.0, mode=3)

    def refused_as_sent(number):
        """Refused whatever has gone before."""
        good = interval(number, AUTOMATIC, *other)
        return [
            *one_by_one("interval", 8, given(good, 63), given(good, 65), given(good[:-1], 64), given(good + b"\0", 64),
                        given(b"", 64), given(interval(number, AUTOMATIC, *unread), 48)),
            *one_by_one("interval", 9, given(interval(number, 32, *other), 64), given(interval(number, 255, *unread), 64),
                        given(good[:7] + b"\1" + good[8:], 64)),
            *one_by_one("load", 1, load(b""), load(registered[:-1])),
            *one_by_one("load", 2, load(bytes(16))),
            *one_by_one("load", 3, load(register((2, 3, 3, 2, 3, 4), [(GENERATING, 0)]))),
            *one_by_one("load", 4, load(registered[:-1] + b"\1")),
            *one_by_one("load", 5, load(register(LENGTHS, [(GENERATING, 0)], [2]))),
            *one_by_one("load", 6, load(register(LENGTHS, [(GENERATING, 1)], [1]))),
            *one_by_one("load", 7, load(register(LENGTHS, [(GENERATING, 1)]))),
            *one_by_one("load", 30, load(register(LENGTHS, [(SEMI_SCHEDULED, 0)], [1]))),
            *one_by_one("declare", 10, declare(0, 0), declare(5, 0)),
            *one_by_one("declare", 11, declare(1, -1), declare(4, 128_000_001)),
            *one_by_one("reinstate", 10, reinstate(0), reinstate(5)),
            *one_by_one("look", 10, look(0), look(5)),
            *one_by_one("reason", 10, reason(0), reason(5)),
            *one_by_one("target", 10, target(0), target(1), target(2), target(3), target(5)),
        ]

    def not_above(last):
        """Refused for the number of the last accepted interval."""
        return one_by_one("interval", 21, *[given(interval(number, AUTOMATIC, *lines), 64) for number in (last, last - 1, 0)
                                            for lines in (other, unread)])

    def at_status_0():
        return [
            *looks("0 0 0 0", "0 0 0 0", "0 0 0 0", "0 0 0 0"),
            *one_by_one("declare", 22, declare(1, 0), declare(2, 0), declare(3, 0), declare(4, 0)),
            *one_by_one("reinstate", 23, reinstate(1), reinstate(4)),
            *one_by_one("reason", 36, reason(1), reason(4)),
        ]

    return [
        (load(registered), "load accepted 2"),
        *asked("0 0 0 0", *refused_as_sent(1), *at_status_0()),
        at(10, one, two, none, none, none, none),
        # 100,000 - 40,000; 1,000 + 500; 2,000 + 0.
        *asked("60000 1500 2000 1", *refused_as_sent(11), *not_above(10), *at_status_0()),
        # Unit 1: 112,000 - 101,000. Point 4: 112,000 - 40,000 - 61,500. LARGE.
        at(11, wide(112.0, mwb=90_000, fcr=3, fcl=4, mode=2), wide(40.0, mwb=50_000, fcl=5, mode=2),
           "1 5 1 1 11000 600000 0", on, on, "1 5 1 1 10500 600000 0"),
        # 90,000 - 50,000; 3 + 0; 4 + 5.
        *asked(
            "40000 3 9 1",
            *looks("1 1 1 0", "0 0 0 0", "0 0 0 0", "1 1 1 0"),
            *one_by_one("declare", 22, declare(1, 0), declare(4, 0)),
            *one_by_one("reinstate", 23, reinstate(1), reinstate(4)),
            *one_by_one("reason", 36, reason(1), reason(4)),
            *refused_as_sent(12),
            *not_above(11),
        ),
        # 112,000 - 90,003, and 112,000 - 50,000 - 40,003. LARGE.
        at(12, one, wide(50.0, mwb=40_000, fcr=500, mode=2), "2 5 2 2 21997 600000 0", on, on, "2 5 2 2 21997 600000 0"),
        *asked(
            "60000 1500 2000 1",
            *refused_as_sent(13),
            *looks("2 2 2 0", "0 0 0 0", "0 0 0 0", "2 2 2 0"),
            # A member is declared, then the aggregate, and they are reinstated.
            (declare(1, 90_000), "declare accepted"),
            (declare(4, -5), "declare accepted"),
            *looks("4 0 0 90000", "0 0 0 0", "0 0 0 0", "4 0 0 -5"),
            (reason(1), "reason accepted operator 0 0"),
            (reason(4), "reason accepted operator 0 0"),
            *one_by_one("declare", 22, declare(1, 0), declare(4, 0)),
            *refused_as_sent(13),
            *not_above(12),
            *reinstated(4),
            *one_by_one("reinstate", 23, reinstate(4)),
            *one_by_one("reason", 36, reason(4)),
            *reinstated(1),
            *at_status_0(),
        ),
        # Unit 2 cannot be read. Unit 1 as at 11; its runs start at 0.
        at(13, one, wide(40.0, mwb=40_000, fcr=500, mode=2, quality=3), "1 5 1 1 11000 600000 0", none, on, none),
        # A refused interval brings no member back.
        *asked("100000 1000 2000 0", *refused_as_sent(14), *not_above(13), (look(4), "look accepted 0 0 0 0")),
        # Nothing is kept for unit 2: BLANK.
        at(14, one, two, "2 5 2 2 11000 600000 0", none, on, none),
        *asked("60000 1500 2000 1", *refused_as_sent(15), *not_above(14)),
        # The same register once more.
        (load(registered), "load accepted 2"),
        *asked("0 0 0 0", *refused_as_sent(15), *at_status_0()),
        at(3, one, two, none, none, none, none),
        *asked("60000 1500 2000 1", *refused_as_sent(4), *not_above(3)),
        # Two aggregates: chain 3 is point 4, chain 2 -> 1 point 5.
        (load(register(LENGTHS, [(GENERATING, 0), (LOAD, 1), (GENERATING, 0)], [3, 2])), "load accepted 3"),
        *targets(4, "0 0 0 0", "0 0 0 0"),
        refused("target", 10, target(3), target(6)),
        accepted(interval(4, AUTOMATIC, one, two, wide(100.0, mwb=7_000, fcr=70, fcl=7, mode=2)), *numbered(4, [none] * 5)),
        *targets(4, "7000 70 7 1", "60000 1500 2000 1"),
        # Without aggregates; a refused load before it.
        refused("load", 1, load(b"")),
        *targets(4, "7000 70 7 1", "60000 1500 2000 1"),
        (load(ONE_UNIT), "load accepted 0"),
        refused("target", 10, target(1), target(2), target(4), target(5)),
        # One unit in a chain, point 2. Conformance mode 0: OFF.
        (load(register(LENGTHS, [(GENERATING, 0)], [1])), "load accepted 1"),
        *targets(2, "0 0 0 0"),
        refused("target", 10, target(1), target(3), target(4), target(5)),
        accepted(interval(4, AUTOMATIC, aimed(0.0, 100_000, 1, 2)), *numbered(4, ["0 0 0 0 0 0 0"] * 2)),
        *targets(2, "100000 1 2 1"),
        # Two aggregates again: nothing is left of what points 4 and 5 had. Unit 3 cannot be read.
        (load(register(LENGTHS, [(GENERATING, 0), (LOAD, 1), (GENERATING, 0)], [3, 2])), "load accepted 3"),
        *targets(4, "0 0 0 0", "0 0 0 0"),
        accepted(interval(5, AUTOMATIC, one, two, wide(100.0, mwb=7_000, fcr=70, fcl=7, mode=3)), *numbered(5, [none] * 5)),
        *targets(4, "0 0 0 0", "60000 1500 2000 1"),
        # And three, one a unit.
        (load(register(LENGTHS, [(GENERATING, 0), (LOAD, 0), (GENERATING, 0)], [1, 2, 3])), "load accepted 3"),
        *targets(4, "0 0 0 0", "0 0 0 0", "0 0 0 0"),
        accepted(interval(6, AUTOMATIC, one, two, wide(100.0, mwb=7_000, fcr=70, fcl=7, mode=2)), *numbered(6, [none] * 6)),
        *targets(4, "100000 1000 2000 1", "-40000 500 0 1", "7000 70 7 1"),
    ]


def target_jump():
    """A jump in numbers makes lines stale for the marks of that interval, and then its own lines are kept: the sums are theirs.
    Chain 2 -> 1 (load, generating unit) is point 3.

    Conformance mode is 2 and MW the kept target, unless something else is said. Point 3 has MWO max(100,000, 100,000) and ROC
    max(3,000, 3,000): triggers as `plain` says. Its target is unit 1's less unit 2's; FCR and FCL add up.
    """
    registered = register(LENGTHS, [(GENERATING, 0), (LOAD, 1)], [2])
    none, off, on = "0 1 0 0 0 0 0", "0 0 0 0 0 0 0", "0 2 0 0 0 600000 0"

    def both(one, two, mode=2):
        """MW, MWB, FCR and FCL of each."""
        return aimed(*one, mode=mode), aimed(*two, mode=mode)

    def at(number, lines, *texts):
        return accepted(interval(number, AUTOMATIC, *lines), *numbered(number, texts))

    def not_above(*numbers):
        lines = both((0.0, 1, 2, 3), (0.0, 4, 5, 6))
        return refused("interval", 21, *[given(interval(number, AUTOMATIC, *lines), 48) for number in numbers])

    return [
        (load(registered), "load accepted 2"),
        *targets(3, "0 0 0 0"),
        # The first interval: any number, and nothing was kept.
        at(500, both((0.0, 10_000, 1, 2), (0.0, 4_000, 3, 4)), none, none, none),
        *targets(3, "6000 4 6 1"),  # 10,000 - 4,000; 1 + 3; 2 + 4
        at(501, both((10.0, 20_000, 10, 20), (4.0, 1_000, 30, 40)), on, on, on),
        *targets(3, "19000 40 60 1"),
        # One number is left out: BLANK. Asked several times, it is the same.
        at(503, both((20.0, 30_000, 5, 6), (1.0, 50_000, 7, 8)), none, none, none),
        *targets(3, "-20000 12 14 1") * 3,
        at(504, both((30.0, 1_000, 0, 0), (50.0, 2_000, 0, 0)), on, on, on),
        *targets(3, "-1000 0 0 1"),
        # A jump, and unit 2, the first in the chain, cannot be read. Nothing is left of the lines of 504.
        at(1_000, (aimed(1.0, 9_000, 100, 200, mode=2), aimed(2.0, 3_000, 300, 400, mode=2, quality=3)), none, none, none),
        *targets(3, "9000 100 200 0"),
        # Unit 1 has a kept line, unit 2 has not.
        at(1_001, both((9.0, 8_000, 1, 1), (3.0, 7_000, 2, 2)), on, none, none),
        *targets(3, "1000 3 3 1"),
        # A jump, and unit 1, the last in the chain, cannot be read.
        at(1_003, (aimed(8.0, 5_000, 1, 2, mode=3), aimed(7.0, 6_000, 3, 4, mode=2)), none, none, none),
        *targets(3, "-6000 3 4 0"),
        # A jump with nothing that can be read, and a jump after it.
        at(2_000, both((8.0, 8_000, 1, 1), (7.0, 7_000, 2, 2), mode=3), none, none, none),
        *targets(3, "0 0 0 0"),
        at(3_000, both((8.0, 6_000, 11, 12), (7.0, 16_000, 13, 14)), none, none, none),
        *targets(3, "-10000 24 26 1"),
        # Conformance mode 0 goes before nothing kept: OFF.
        at(4_000, both((6.0, 6_001, 0, 1), (16.0, 1, 1, 0), mode=0), off, off, off),
        *targets(3, "6000 1 1 1"),
        # To the highest number but one, and to the highest.
        at(4_294_967_294, both((6.001, 21_000, 2, 3), (0.001, 1_000, 4, 5)), none, none, none),
        *targets(3, "20000 6 8 1"),
        at(4_294_967_295, both((21.0, 500, 50, 60), (1.0, 1_500, 70, 80)), on, on, on),
        *targets(3, "-1000 120 140 1"),
        not_above(0, 1, 4_294_967_294, 4_294_967_295),
        *targets(3, "-1000 120 140 1") * 2,
        # The highest number as the first.
        (load(registered), "load accepted 2"),
        *targets(3, "0 0 0 0"),
        at(4_294_967_295, both((0.0, 7, 8, 9), (0.0, 1, 2, 3)), none, none, none),
        *targets(3, "6 10 12 1"),
        not_above(0, 4_294_967_295),
        *targets(3, "6 10 12 1"),
        # 0 as the first, 1, then a jump to the highest.
        (load(registered), "load accepted 2"),
        *targets(3, "0 0 0 0"),
        at(0, both((0.0, 70, 80, 90), (0.0, 10, 20, 30)), none, none, none),
        *targets(3, "60 100 120 1"),
        not_above(0),
        *targets(3, "60 100 120 1"),
        at(1, both((0.07, 71, 81, 91), (0.01, 11, 22, 33)), on, on, on),
        *targets(3, "60 103 124 1"),
        at(4_294_967_295, both((0.071, 5, 5, 5), (0.011, 6, 6, 6)), none, none, none),
        *targets(3, "-1 11 11 1"),
    ]


def target_refusals():
    """20, then 10: the point of a unit too. Chain 2 -> 4 (load, bidirectional unit) is point 5, chain 1 (generating unit) point 6;
    unit 3 (semi-scheduled) is in no chain."""
    units = [(GENERATING, 0), (LOAD, 4), (SEMI_SCHEDULED, 0), (BIDIRECTIONAL, 0)]
    registered = register(LENGTHS, units, [2, 1])
    # Point 0, the units, n+m+1 and on, and some whose low bytes are 5 or 6.
    beyond = [0, 1, 2, 3, 4, 7, 8, 64, 65, 80, 81, 255, 256, 261, 262, 65_541, 2**24 + 5, 2**31 + 5, 2**31 + 6, 2**32 - 1]
    ten = refused("target", 10, *[target(point) for point in beyond])
    twenty = refused("target", 20, *[target(point) for point in (5, 6, *beyond)])
    none, on = "0 1 0 0 0 0 0", "0 2 0 0 0 600000 0"
    # 5: -40,000 - 50,000; 1 + 3; 2 + 4.
    kept = targets(5, "-90000 4 6 1", "100000 0 0 1")

    def at(number, one, five, six):
        """Units 1 and 3 are 11,000 over, LARGE, and so is point 6, which has one member's sums. Units 2 and 4 stay at their
        targets, and point 5 with them: MWO max(200,000, 200,000), ROC max(9,000, 9,000)."""
        two, four = wide(40.0, mwb=40_000, fcr=1, fcl=2, mode=2), wide(-50.0, mwb=-50_000, fcr=3, fcl=4, mode=2)
        return taken(number, AUTOMATIC, (wide(111.0, mode=2), one), (two, five), (wide(111.0, cap=1), one), (four, five),
                     more=[five, six])

    def run(number, status):
        """Three marks bring the status to 1, 2 and 3."""
        large = f"{status} 5 {status} {status} 11000 600000 0"
        return at(number, large, on, large)

    return [
        # 20 goes before 10; a refused load leaves no register.
        twenty,
        refused("load", 1, load(b""), load(registered[:-1])),
        twenty,
        refused("load", 3, load(register((2, 3, 3, 2, 3, 4), units, [2, 1]))),
        refused("load", 4, load(registered[:-1] + b"\1")),
        refused("load", 30, load(register(LENGTHS, units, [2, 1, 3]))),
        twenty,
        (load(registered), "load accepted 3"),
        ten,
        *targets(5, "0 0 0 0", "0 0 0 0"),
        # Status 0 to 4 of a unit and of an aggregate: the same refusals, and no other.
        at(1, none, none, none),
        ten,
        *kept,
        run(2, 1),
        ten,
        *kept,
        run(3, 2),
        ten,
        *kept,
        run(4, 3),
        ten,
        *kept,
        # Run 4: declared at 111,000.
        at(5, "4 5 0 0 11000 600000 111000", on, "4 5 0 0 11000 600000 111000"),
        ten,
        *kept,
        *reinstated(1, 6),
        ten,
        *kept,
        # A refused load changes nothing.
        refused("load", 2, load(bytes(16))),
        refused("load", 5, load(register(LENGTHS, units, [2, 5]))),
        ten,
        *kept,
        # No aggregates: every point.
        (load(TWO_UNITS), "load accepted 0"),
        refused("target", 10, *[target(point) for point in (1, 2, 3, 5, 6, *beyond)]),
        taken(6, AUTOMATIC, (ON, none), (ON, none)),
        refused("target", 10, *[target(point) for point in (1, 2, 3, 5, 6, *beyond)]),
        (load(register(LENGTHS, [(GENERATING, 0)] * 64)), "load accepted 0"),
        refused("target", 10, *[target(point) for point in range(82)], target(2**32 - 1)),
        # One unit in a chain: point 2 alone is an aggregate's.
        (load(register(LENGTHS, [(LOAD, 0)], [1])), "load accepted 1"),
        refused("target", 10, target(0), target(1), target(3), target(257), target(258)),
        *targets(2, "0 0 0 0"),
        # One chain of two: point 3.
        (load(register(LENGTHS, [(LOAD, 0), (LOAD, 1)], [2])), "load accepted 2"),
        refused("target", 10, target(0), target(1), target(2), target(4), target(259)),
        *targets(3, "0 0 0 0"),
    ]


def target_plant():
    """64 units in 16 chains of four, k -> k + 16 -> k + 32 -> k + 48 (generating unit, load, bidirectional unit, load), points 65
    to 80; then 64 units in one chain, 64 -> 63 and so on to 1, point 65. Targets and regulation up to their bounds."""
    kinds = [GENERATING] * 16 + [LOAD] * 16 + [BIDIRECTIONAL] * 16 + [LOAD] * 16
    units = [(kind, unit + 16 if unit <= 48 else 0) for unit, kind in enumerate(kinds, 1)]
    none, off, on = "0 1 0 0 0 0 0", "0 0 0 0 0 0 0", "0 2 0 0 0 600000 0"

    # Of unit u: MWB 1,000 u, and -1,000 u for a bidirectional unit; FCR u, FCL 10 u. Of chain k: 1,000 times k - (k + 16) -
    # (k + 32) - (k + 48), that is -2 k - 96; k + (k + 16) + (k + 32) + (k + 48), that is 4 k + 96; ten times that.
    def rising(unit, kind, **changes):
        return aimed(0.0, -1_000 * unit if kind == BIDIRECTIONAL else 1_000 * unit, unit, 10 * unit, **changes)

    of_rising = [
        "-98000 100 1000 1", "-100000 104 1040 1", "-102000 108 1080 1", "-104000 112 1120 1",
        "-106000 116 1160 1", "-108000 120 1200 1", "-110000 124 1240 1", "-112000 128 1280 1",
        "-114000 132 1320 1", "-116000 136 1360 1", "-118000 140 1400 1", "-120000 144 1440 1",
        "-122000 148 1480 1", "-124000 152 1520 1", "-126000 156 1560 1", "-128000 160 1600 1"]
    # Chain 1 lacks its first member, 2 its second, 3 its third and 4 its last; chain 16 lacks all four.
    unread = 1, 18, 35, 52, 16, 32, 48, 64
    of_read = [
        "-99000 99 990 0",  # -17,000 - 33,000 - 49,000; 17 + 33 + 49
        "-82000 86 860 0",  # 2,000 - 34,000 - 50,000; 2 + 34 + 50
        "-67000 73 730 0",  # 3,000 - 19,000 - 51,000; 3 + 19 + 51
        "-52000 60 600 0",  # 4,000 - 20,000 - 36,000; 4 + 20 + 36
        *of_rising[4:15], "0 0 0 0"]
    blank = *unread, 65, 66, 67, 68, 80  # points: those units and the aggregates that have one of them

    def at(number, lines, texts=(off,) * 80):
        """Conformance mode 0: OFF, and BLANK for what cannot be read."""
        return accepted(interval(number, AUTOMATIC, *lines), *numbered(number, texts))

    all_rising = [rising(unit, kind) for unit, kind in enumerate(kinds, 1)]
    low_of = {GENERATING: aimed(0.0, 0, 0, 2_000_000), LOAD: aimed(0.0, 2_000_000, 0, 2_000_000),
              BIDIRECTIONAL: aimed(0.0, -2_000_000, 0, 2_000_000)}
    high_of = {GENERATING: aimed(0.0, 2_000_000, 2_000_000, 0), LOAD: aimed(0.0, 0, 2_000_000, 0),
               BIDIRECTIONAL: aimed(0.0, 2_000_000, 2_000_000, 0)}

    def one_chain(*two_kinds):
        """The two kinds are those of units with an odd and with an even number."""
        return load(register(LENGTHS, [(kind, unit - 1) for unit, kind in enumerate(two_kinds * 32, 1)], [64]))

    def most(mwb, **changes):
        return aimed(2000.0, mwb, 2_000_000, 2_000_000, **changes)

    def without(*broken):
        """64 generating units at 2,000,000, mode 2; these cannot be read."""
        return [most(2_000_000, mode=2, quality=3 if unit in broken else 0) for unit in range(1, 65)]

    return [
        (load(register(LENGTHS, units, range(1, 17))), "load accepted 64"),
        *targets(65, *["0 0 0 0"] * 16),
        refused("target", 10, target(64), target(81), target(0)),
        at(1, all_rising),
        *targets(65, *of_rising),
        refused("target", 10, *[target(point) for point in range(65)], target(81), target(321)),
        # The lowest: 0 - 2,000,000 - 2,000,000 - 2,000,000, and 4 x 2,000,000. The highest: 2,000,000 - 0 + 2,000,000 - 0.
        at(2, [low_of[kind] for kind in kinds]),
        *targets(65, *["-6000000 0 8000000 1"] * 16),
        at(3, [high_of[kind] for kind in kinds]),
        *targets(65, *["4000000 8000000 0 1"] * 16),
        at(4, [rising(unit, kind, quality=3 if unit in unread else 0) for unit, kind in enumerate(kinds, 1)],
           [none if point in blank else off for point in range(1, 81)]),
        *targets(65, *of_read),
        at(5, all_rising),
        *targets(65, *of_rising),
        # One chain of 64 generating units, each at its target of 2,000,000: 64 x 2,000,000 for all three sums.
        (one_chain(GENERATING, GENERATING), "load accepted 64"),
        *targets(65, "0 0 0 0"),
        refused("target", 10, target(64), target(66), target(80)),
        at(1, without(), [none] * 65),
        *targets(65, "128000000 128000000 128000000 1"),
        # The aggregate: MWO 6,400,000, ROC 192,000: small trigger min(19,200,000, 38,400,000).
        at(2, without(), [*[on] * 64, "0 2 0 0 0 19200000 0"]),
        *targets(65, "128000000 128000000 128000000 1"),
        # The first in the chain, then the last, then the 33rd, each with nothing kept at the next: 63 x 2,000,000.
        at(3, without(64), [*[on] * 63, none, none]),
        *targets(65, "126000000 126000000 126000000 0"),
        at(4, without(1), [none, *[on] * 62, none, none]),
        *targets(65, "126000000 126000000 126000000 0"),
        at(5, without(32), [none, *[on] * 30, none, *[on] * 32, none]),
        *targets(65, "126000000 126000000 126000000 0"),
        # The first 63 of the chain: unit 1 is left.
        at(6, without(*range(2, 65)), [on, *[none] * 64]),
        *targets(65, "2000000 2000000 2000000 0"),
        at(7, without(*range(1, 65)), [none] * 65),
        *targets(65, "0 0 0 0"),
        at(8, without(), [none] * 65),
        *targets(65, "128000000 128000000 128000000 1"),
        # 64 loads. Conformance mode 0 from here on.
        (one_chain(LOAD, LOAD), "load accepted 64"),
        *targets(65, "0 0 0 0"),
        at(1, [most(2_000_000)] * 64, [off] * 65),
        *targets(65, "-128000000 128000000 128000000 1"),
        # 64 bidirectional units: the lowest, the highest, and 32 of either.
        (one_chain(BIDIRECTIONAL, BIDIRECTIONAL), "load accepted 64"),
        *targets(65, "0 0 0 0"),
        at(1, [most(-2_000_000)] * 64, [off] * 65),
        *targets(65, "-128000000 128000000 128000000 1"),
        at(2, [most(2_000_000)] * 64, [off] * 65),
        *targets(65, "128000000 128000000 128000000 1"),
        at(3, [most(2_000_000), most(-2_000_000)] * 32, [off] * 65),
        *targets(65, "0 128000000 128000000 1"),
        # 32 loads and 32 bidirectional units; 32 generating units and 32 loads, together and either alone.
        (one_chain(LOAD, BIDIRECTIONAL), "load accepted 64"),
        at(1, [most(2_000_000), most(-2_000_000)] * 32, [off] * 65),
        *targets(65, "-128000000 128000000 128000000 1"),
        (one_chain(GENERATING, LOAD), "load accepted 64"),
        at(1, [most(2_000_000)] * 64, [off] * 65),
        *targets(65, "0 128000000 128000000 1"),
        at(2, [most(2_000_000), most(2_000_000, quality=3)] * 32, [*[off, none] * 32, none]),
        *targets(65, "64000000 64000000 64000000 0"),
        at(3, [most(2_000_000, quality=3), most(2_000_000)] * 32, [*[none, off] * 32, none]),
        *targets(65, "-64000000 64000000 64000000 0"),
        # A target or a regulation of 2,000,001 cannot be read.
        at(4, [aimed(0.0, 2_000_001, 0, 0), aimed(0.0, 0, 2_000_001, 0)] * 32, [none] * 65),
        *targets(65, "0 0 0 0"),
    ]


def target_declared():
    """Aggregates that are declared and reinstated have their sums all the same. Chain 1 -> 2 (generating unit, load) is point 5,
    chain 3 -> 4 (bidirectional unit, load) point 6.

    Triggers as `wide` says, for the aggregates too: MWO max(200,000, 200,000), ROC max(9,000, 9,000). To interval 5 unit 1 is
    11,000 over its kept target and unit 3 12,000 under; units 2 and 4 are at theirs. Point 5 is 11,000 over, less 500 of
    regulation, point 6 12,000 under, less 600: all four are LARGE.
    """
    on = "0 2 0 0 0 600000 0"

    def at(number, one, two, three, four, texts, **changes):
        """MW, MWB, FCR and FCL of each."""
        lines = [wide(mw, **({"mwb": mwb, "fcr": fcr, "fcl": fcl, "mode": 2} | changes)) for mw, mwb, fcr, fcl in
                 (one, two, three, four)]
        return accepted(interval(number, AUTOMATIC, *lines), *numbered(number, texts))

    def run(status):
        return [f"{status} 5 {status} {status} 11000 600000 0", on, f"{status} 5 {status} {status} -12000 600000 0", on,
                f"{status} 5 {status} {status} 10500 600000 0", f"{status} 5 {status} {status} -11400 600000 0"]

    return [
        (load(register(LENGTHS, [(GENERATING, 2), (LOAD, 0), (BIDIRECTIONAL, 4), (LOAD, 0)], [1, 3])), "load accepted 4"),
        *targets(5, "0 0 0 0", "0 0 0 0"),
        at(1, (100.0, 100_000, 0, 10), (40.0, 40_000, 500, 7), (-50.0, -50_000, 20, 0), (30.0, 30_000, 0, 600),
           ["0 1 0 0 0 0 0"] * 6),
        # 100,000 - 40,000; 0 + 500; 10 + 7. -50,000 - 30,000; 20 + 0; 0 + 600.
        *targets(5, "60000 500 17 1", "-80000 20 600 1"),
        # To interval 5 unit 1's target rises by 10,000 and its FCL by 10, the targets of 2 and 4 rise by 1,000 and 3's falls by
        # 1,000: point 5 has 9,000 more, and 10 more to lower, point 6 2,000 less.
        at(2, (111.0, 110_000, 0, 20), (40.0, 41_000, 500, 7), (-62.0, -51_000, 20, 0), (30.0, 31_000, 0, 600), run(1)),
        *targets(5, "69000 500 27 1", "-82000 20 600 1"),
        at(3, (121.0, 120_000, 0, 30), (41.0, 42_000, 500, 7), (-63.0, -52_000, 20, 0), (31.0, 32_000, 0, 600), run(2)),
        *targets(5, "78000 500 37 1", "-84000 20 600 1"),
        # The operator declares point 6.
        (declare(6, -84_001), "declare accepted"),
        *targets(5, "78000 500 37 1", "-84000 20 600 1"),
        at(4, (131.0, 130_000, 0, 40), (42.0, 43_000, 500, 7), (-64.0, -53_000, 20, 0), (32.0, 33_000, 0, 600),
           [*run(3)[:5], "4 5 0 0 -11400 600000 -84001"]),
        *targets(5, "87000 500 47 1", "-86000 20 600 1"),
        # Run 4: declared, point 5 at 141,000 - 43,000.
        at(5, (141.0, 140_000, 0, 50), (43.0, 44_000, 500, 7), (-65.0, -54_000, 20, 0), (33.0, 34_000, 0, 600), [
            "4 5 0 0 11000 600000 141000", on, "4 5 0 0 -12000 600000 -65000", on, "4 5 0 0 10500 600000 98000",
            "4 5 0 0 -11400 600000 -84001"]),
        *targets(5, "96000 500 57 1", "-88000 20 600 1"),
        (look(5), "look accepted 4 0 0 98000"),
        (look(6), "look accepted 4 0 0 -84001"),
        (reason(5), "reason accepted large 2 5"),
        (reason(6), "reason accepted operator 0 0"),
        refused("declare", 22, declare(5, 0), declare(6, 0)),
        *targets(5, "96000 500 57 1", "-88000 20 600 1"),
        # On the kept targets while declared: CLEAR. The levels stand and the sums do not.
        at(6, (140.0, 1_000, 1, 2), (44.0, 3_000, 4, 5), (-54.0, 6_000, 7, 8), (34.0, 2_000, 10, 11), [
            "4 2 0 0 0 600000 141000", on, "4 2 0 0 0 600000 -65000", on, "4 2 0 0 0 600000 98000", "4 2 0 0 0 600000 -84001"]),
        # 1,000 - 3,000; 1 + 4; 2 + 5. 6,000 - 2,000; 7 + 10; 8 + 11.
        *targets(5, "-2000 5 7 1", "4000 17 19 1"),
        # Unit 2 cannot be read, a target below 0: BLANK with point 5.
        at(7, (1.0, 2_000, 3, 4), (3.0, -1, 5, 6), (6.0, -7_000, 1, 2), (2.0, 9_000, 3, 4), [
            "4 2 0 0 0 600000 141000", "0 1 0 0 0 0 0", "4 2 0 0 0 600000 -65000", on, "4 1 0 0 0 0 98000",
            "4 2 0 0 0 600000 -84001"]),
        *targets(5, "2000 3 4 0", "-16000 4 6 1"),
        # Point 5 is reinstated, and its sums stand.
        *reinstated(5),
        *targets(5, "2000 3 4 0", "-16000 4 6 1"),
        (look(5), "look accepted 0 0 0 0"),
        refused("reason", 36, reason(5)),
        # Nothing is kept for unit 2: BLANK with point 5.
        at(8, (2.0, 100_000, 0, 0), (3.0, 40_000, 0, 0), (-7.0, -50_000, 0, 0), (9.0, 30_000, 0, 0), [
            "4 2 0 0 0 600000 141000", "0 1 0 0 0 0 0", "4 2 0 0 0 600000 -65000", on, "0 1 0 0 0 0 0", "4 2 0 0 0 600000 -84001"]),
        *targets(5, "60000 0 0 1", "-80000 0 0 1"),
        # All modes 0: OFF.
        at(9, (0.0, 200_000, 1, 2), (0.0, 50_000, 3, 4), (0.0, -60_000, 5, 6), (0.0, 10_000, 7, 8), [
            "4 0 0 0 0 0 141000", "0 0 0 0 0 0 0", "4 0 0 0 0 0 -65000", "0 0 0 0 0 0 0", "0 0 0 0 0 0 0", "4 0 0 0 0 0 -84001"],
           mode=0),
        *targets(5, "150000 4 6 1", "-70000 12 14 1"),
        # The members are reinstated, then point 6.
        *reinstated(1, 3),
        *targets(5, "150000 4 6 1", "-70000 12 14 1"),
        *reinstated(6),
        *targets(5, "150000 4 6 1", "-70000 12 14 1"),
        # All bad: BLANK, and kept.
        at(10, (0.0, 1, 0, 0), (0.0, 2, 0, 0), (0.0, 3, 0, 0), (0.0, 4, 0, 0), ["0 1 0 0 0 0 0"] * 6, quality=BAD),
        *targets(5, "-1 0 0 1", "-1 0 0 1"),
    ]


def target_asked():
    """The calls of `operator_declaration`, and after each of them the target twice. Asking changes nothing, so the rest is what it
    was."""
    steps = operator_declaration()
    # The load's target is 100,000 and the battery's -50,000 throughout, with no regulation.
    answers = ["0 0 0 0", *["-150000 0 0 1"] * (len(steps) - 1)]
    return [each for step, answer in zip(steps, answers) for each in (step, *targets(4, answer) * 2)]


def target_asked_in_chains():
    """The same with the calls of `levels_in_chains`, which has three aggregates."""
    steps = levels_in_chains()
    answers = [
        "0 0 0 0",  # after the load
        *["-100000 0 0 1"] * 17,  # `far`, 100,000 - 100,000 - 100,000: five intervals and twelve looks
        *["-15000 0 0 1"] * 55,  # `near` from interval 6 on, 8,000 - 15,000 - 8,000
    ]
    return [each for step, answer in zip(steps, answers, strict=True) for each in (step, *targets(10, answer, answer, answer))]


# ---- members side by side


def chained(kinds, *chains):
    """The register of units of these kinds, with these chains of unit numbers."""
    following = {unit: after for chain in chains for unit, after in zip(chain, chain[1:])}
    units = [(kind, following.get(unit, 0)) for unit, kind in enumerate(kinds, 1)]
    return register(LENGTHS, units, [chain[0] for chain in chains])


def each_point(number, lines, usual, others):
    """An accepted interval, automatic. What is printed of each point: `usual`, unless `others` has another text of that point."""
    texts = [others.get(point, text) for point, text in enumerate(usual, 1)]
    return accepted(interval(number, AUTOMATIC, *lines), *numbered(number, texts))


def side_by_side_orders():
    """The same plant three times, but for the order of its chain: up, down, and any. Units 1 and 6 generate, 2 and 5 are loads, 3
    is bidirectional; generating unit 4 in no chain. The aggregate is point 7.

    Own triggers of units 1 to 5: 3 x and 5 x MWO are at most 600,000, so both are 600,000. Unit 6: small max(600,000,
    min(1,200,000, 400,000)), large max(600,000, min(2,000,000, 800,000)) = 800,000.

    The aggregate: MWO max(100,000 + 120,000 + 400,000, 50,000 + 90,000) = 620,000, so 1,860,000 and 3,100,000. ROC with the
    target above: max(3,000 + 5,000 + 2,000, 2,000 + 6,000) = 10,000, below: max(4,000 + 3,000 + 2,000, 2,000 + 1,000) = 9,000,
    equal: max(3,000 + 3,000 + 2,000, 2,000 + 1,000) = 8,000. Small trigger 1,860,000 above, 1,800,000 below, 1,600,000 equal;
    large 3,100,000 in all three.
    """
    kinds = GENERATING, LOAD, BIDIRECTIONAL, GENERATING, LOAD, GENERATING
    limits_of = {1: (100_000, 3, 4), 2: (50_000, 2, 2), 3: (120_000, 5, 3), 5: (90_000, 1, 6), 6: (400_000, 2, 2)}
    none, on = "0 1 0 0 0 0 0", "0 2 0 0 0 600000 0"

    def at(number, others, **members):
        """Of a member its MW, MWB, FCR and FCL, and a quality if it is not good."""
        lines = []
        for unit in range(1, 7):
            if unit == 4:
                lines.append(plain(100.0))
                continue
            mw, mwb, fcr, fcl, *quality = members[f"_{unit}"]
            mwo, up, down = limits_of[unit]
            lines.append(line(mw, mwb=mwb, mwo=mwo, fcr=fcr, fcl=fcl, bid=(1_000 * up, 1_000 * down), scada=(up, down), mode=2,
                              quality=quality[0] if quality else 0))
        return each_point(number, lines, [on] * 7, others)

    same = [
        *targets(7, "0 0 0 0"),
        at(1, {point: none for point in range(1, 8)},
           _1=(0.0, 100_000, 1_000, 200), _2=(0.0, 40_000, 20, 3_000), _3=(0.0, -30_000, 100, 7), _5=(0.0, 20_000, 3, 40),
           _6=(0.0, 200_000, 500, 600)),
        # 100,000 - 40,000 - 30,000 - 20,000 + 200,000; 1,000 + 20 + 100 + 3 + 500; 200 + 3,000 + 7 + 40 + 600.
        *targets(7, "210000 1623 3847 1"),
        # Unit 6: 230,000 - 200,500, LARGE. Point 7: 100,000 - 40,000 - 30,000 - 20,000 + 230,000 = 240,000 against 211,623; the
        # target, 205,000, is below: 2,837,700 is SMALL.
        at(2, {6: "1 5 1 1 29500 600000 0", 7: "1 4 1 0 28377 1800000 0"},
           _1=(100.0, 90_000, 0, 0), _2=(40.0, 10_000, 5, 6), _3=(-30.0, 50_000, 7, 8), _5=(20.0, 70_000, 9, 10),
           _6=(230.0, 145_000, 11, 12)),
        # 90,000 - 10,000 + 50,000 - 70,000 + 145,000; 0 + 5 + 7 + 9 + 11; 0 + 6 + 8 + 10 + 12.
        *targets(7, "205000 32 36 1"),
        # Unit 3: -(49,992 - 30,000), LARGE. Point 7: 90,000 - 10,000 + 30,000 - 70,000 + 145,000 = 185,000 against 204,964; the
        # target, 375,000, is above: 1,996,400 is SMALL.
        at(3, {3: "1 5 1 1 -19992 600000 0", 7: "2 4 2 0 -19964 1860000 0"},
           _1=(90.0, 120_000, 1, 2), _2=(10.0, 30_000, 3, 4), _3=(30.0, -10_000, 5, 6), _5=(70.0, 5_000, 7, 8),
           _6=(145.0, 300_000, 9, 10)),
        # 120,000 - 30,000 - 10,000 - 5,000 + 300,000; 1 + 3 + 5 + 7 + 9; 2 + 4 + 6 + 8 + 10.
        *targets(7, "375000 25 30 1"),
        # Unit 2, a load: 47,000 - 30,004, LARGE. Point 7: 120,000 - 47,000 - 10,000 - 5,000 + 300,000 = 358,000 against 374,970;
        # the target is 358,000 too: 1,697,000 is SMALL, which it is with this trigger alone.
        at(4, {2: "1 5 1 1 16996 600000 0", 7: "3 4 3 0 -16970 1600000 0"},
           _1=(120.0, 100_000, 10, 20), _2=(47.0, 40_000, 30, 40), _3=(-10.0, -2_000, 50, 60), _5=(5.0, 50_000, 70, 80),
           _6=(300.0, 350_000, 90, 100)),
        # 100,000 - 40,000 - 2,000 - 50,000 + 350,000; 10 + 30 + 50 + 70 + 90; 20 + 40 + 60 + 80 + 100.
        *targets(7, "358000 250 300 1"),
        # Unit 3 cannot be read, third in the chain up and down and first in the other order. The run stands.
        at(5, {3: none, 7: "3 1 3 0 0 0 0"},
           _1=(100.0, 60_000, 1_000, 2_000), _2=(40.0, 25_000, 3, 4), _3=(0.0, 999, 99, 9, 3), _5=(50.0, 15_000, 5, 6),
           _6=(350.0, 70_000, 7, 8)),
        # 60,000 - 25,000 - 15,000 + 70,000; 1,000 + 3 + 5 + 7; 2,000 + 4 + 6 + 8.
        *targets(7, "90000 1015 2018 0"),
        # Units 1 and 6 cannot be read, the first and the last up and down; nothing is kept for 3.
        at(6, {1: none, 3: none, 6: none, 7: "3 1 3 0 0 0 0"},
           _1=(60.0, 999, 99, 9, 3), _2=(25.0, 11_000, 1, 2), _3=(0.0, 4_000, 3, 4), _5=(15.0, 5_000, 5, 6),
           _6=(70.0, 999, 99, 9, 3)),
        # -11,000 + 4,000 - 5,000; 1 + 3 + 5; 2 + 4 + 6.
        *targets(7, "-12000 9 12 0"),
        at(7, {1: none, 6: none, 7: "3 1 3 0 0 0 0"},
           _1=(0.0, 100_000, 0, 0), _2=(11.0, 40_000, 0, 0), _3=(4.0, 10_000, 0, 0), _5=(5.0, 20_000, 0, 0),
           _6=(0.0, 100_000, 0, 0)),
        # 100,000 - 40,000 + 10,000 - 20,000 + 100,000.
        *targets(7, "150000 0 0 1"),
        (look(7), "look accepted 3 3 0 0"),
        # Unit 1: 140,000 - 100,000, LARGE. Point 7: 140,000 - 40,000 + 10,000 - 20,000 + 100,000 = 190,000 against 150,000, LARGE;
        # small run 4, declared.
        at(8, {1: "1 5 1 1 40000 600000 0", 7: "4 5 0 0 40000 1800000 190000"},
           _1=(140.0, 100_000, 0, 0), _2=(40.0, 40_000, 0, 0), _3=(10.0, 10_000, 0, 0), _5=(20.0, 20_000, 0, 0),
           _6=(100.0, 100_000, 0, 0)),
        *targets(7, "150000 0 0 1"),
        (look(7), "look accepted 4 0 0 190000"),
        (reason(7), "reason accepted small 2 8"),
    ]
    orders = (1, 2, 3, 5, 6), (6, 5, 3, 2, 1), (3, 6, 1, 5, 2)
    return [step for order in orders for step in [(load(chained(kinds, order)), "load accepted 5"), *same]]


# Nine units; FCR and FCL of each, and its MWB, twice those of the one before, so that no two sets of units have the same sums.
# Chain 5 -> 1 -> 3 (bidirectional unit, generating unit, load) is point 10, chain 2 -> 6 -> 4 (generating units, load) point 11,
# chain 9 -> 8 (generating unit, load) point 12; generating unit 7 in no chain. Their flat list: 5 1 3, 2 6 4, 9 8.
INTERLEAVED = chained((GENERATING, GENERATING, LOAD, LOAD, BIDIRECTIONAL, GENERATING, GENERATING, LOAD, GENERATING),
                      (5, 1, 3), (2, 6, 4), (9, 8))
DOUBLED = {1: (1_000, 1, 10), 2: (2_000, 2, 20), 3: (4_000, 4, 40), 4: (8_000, 8, 80), 5: (16_000, 16, 160), 6: (32_000, 32, 320),
           7: (64_000, 64, 640), 8: (128_000, 128, 1_280), 9: (256_000, 256, 2_560)}
# 16,000 + 1,000 - 4,000; 16 + 1 + 4; 160 + 10 + 40. 2,000 + 32,000 - 8,000; 2 + 32 + 8; 20 + 320 + 80. 256,000 - 128,000;
# 256 + 128; 2,560 + 1,280.
OF_INTERLEAVED = "13000 21 210 1", "26000 42 420 1", "128000 384 3840 1"


def doubled(unit, over=0.0, **changes):
    """A line of DOUBLED, so many MW over its target; triggers as `plain` says. In a chain, unless a mode is given."""
    mwb, fcr, fcl = DOUBLED[unit]
    return aimed(mwb / 1_000 + over, mwb, fcr, fcl, **({"mode": 2} | changes))


def side_by_side_interleaved():
    """INTERLEAVED: each unit in turn is the only one beyond its target, then each in turn the only one that cannot be read.

    Points 10 and 11: MWO max(200,000, 100,000), ROC max(6,000, 3,000): small trigger 600,000, large 1,000,000. Point 12: MWO and
    ROC of one unit on either side, 600,000 and 600,000. All rates are the same, so the direction does not matter.
    """
    none, on = "0 1 0 0 0 0 0", "0 2 0 0 0 600000 0"

    def at(number, others, unit=0, **changes):
        """changes: what the line of this unit has other than `doubled`."""
        lines = [doubled(each, **({"mode": 0 if each == 7 else 2} | (changes if each == unit else {}))) for each in range(1, 10)]
        return each_point(number, lines, [on] * 12, others)

    def large(error):
        return f"1 5 1 1 {error} 600000 0"

    # 20,000 over. A unit: less FCR, a load: less FCL. Its aggregate: less the sum of FCR, or, for a load, -(20,000 less that of
    # FCL).
    beyond = [
        (2, 5, {5: large(19_984), 10: large(19_979)}),
        (3, 2, {2: large(19_998), 11: large(19_958)}),
        (4, 1, {1: large(19_999), 10: large(19_979)}),
        (5, 6, {6: large(19_968), 11: large(19_958)}),
        (6, 3, {3: large(19_960), 10: large(-19_790)}),
        (7, 4, {4: large(19_920), 11: large(-19_580)}),
        (8, 9, {9: large(19_744), 12: large(19_616)}),
        (9, 7, {7: large(19_936)}),
        (10, 8, {8: large(18_720), 12: large(-16_160)}),
    ]
    a, b, c = OF_INTERLEAVED
    # The unit that cannot be read; points that are BLANK, for it or for the one before it, for which nothing is kept; the targets.
    unread = [
        (11, 5, (5, 10), ("-3000 5 50 0", b, c)),  # 1,000 - 4,000; 1 + 4
        (12, 2, (5, 10, 2, 11), (a, "24000 40 400 0", c)),  # 32,000 - 8,000; 32 + 8
        (13, 1, (2, 11, 1, 10), ("12000 20 200 0", b, c)),  # 16,000 - 4,000; 16 + 4
        (14, 6, (1, 10, 6, 11), (a, "-6000 10 100 0", c)),  # 2,000 - 8,000; 2 + 8
        (15, 3, (6, 11, 3, 10), ("17000 17 170 0", b, c)),  # 16,000 + 1,000; 16 + 1
        (16, 4, (3, 10, 4, 11), (a, "34000 34 340 0", c)),  # 2,000 + 32,000; 2 + 32
        (17, 9, (4, 11, 9, 12), (a, b, "-128000 128 1280 0")),
        (18, 8, (9, 12, 8), (a, b, "256000 256 2560 0")),
        (19, 7, (8, 12, 7), (a, b, c)),
    ]
    steps = [
        (load(INTERLEAVED), "load accepted 8"),
        *targets(10, *["0 0 0 0"] * 3),
        at(1, {point: none for point in range(1, 13)}),
        *targets(10, a, b, c),
    ]
    for number, unit, others in beyond:
        steps += [at(number, others, unit, over=20.0), *targets(10, a, b, c)]
    for number, unit, blank, answers in unread:
        steps += [at(number, {point: none for point in blank}, unit, quality=3), *targets(10, *answers)]
    return [
        *steps,
        at(20, {7: none}),
        *targets(10, a, b, c),
        *looks(*["0 0 0 0"] * 12),
        refused("target", 10, target(7), target(13)),
    ]


def side_by_side_ends():
    """INTERLEAVED: the first or the last of a stretch is the only one with conformance mode 2, substituted or bad. Triggers as
    `side_by_side_interleaved` says."""
    none, off, on = "0 1 0 0 0 0 0", "0 0 0 0 0 0 0", "0 2 0 0 0 600000 0"
    members = 1, 2, 3, 4, 5, 6, 8, 9

    def at(number, others, changes=None):
        """changes: by unit, what its line has other than `doubled`."""
        lines = [doubled(unit, **({"mode": 0 if unit == 7 else 2} | (changes or {}).get(unit, {}))) for unit in range(1, 10)]
        return each_point(number, lines, [on] * 12, others)

    def modes(number, *units, all_off=()):
        """These units alone have mode 2, the other members mode 0."""
        others = [unit for unit in members if unit not in units]
        return at(number, {point: off for point in (*others, *all_off)}, {unit: {"mode": 0} for unit in others})

    over = {"over": 20.0}
    unsure, bad = {"quality": SUBSTITUTED}, {"quality": BAD}
    return [
        (load(INTERLEAVED), "load accepted 8"),
        at(1, {point: none for point in range(1, 13)}),
        # Not all modes are 0: CLEAR. Where they are: OFF. The heads alone, the last ones alone, and of one chain alone.
        modes(2, 5, 2, 9),
        modes(3, 3, 4, 8),
        modes(4, 5, 8, all_off=(11,)),
        modes(5, 3, 9, all_off=(11,)),
        modes(6, 2, all_off=(10, 12)),
        modes(7, 4, all_off=(10, 12)),
        modes(8, all_off=(10, 11, 12)),
        # Units 1, 6 and 9 are 20,000 over: LARGE. The first of each stretch is substituted: of 10 and 11 at its target, CLEAR, and
        # its aggregate DOUBT; of 12 itself DOUBT.
        at(9, {1: "1 5 1 1 19999 600000 0", 6: "1 5 1 1 19968 600000 0", 9: "0 3 0 0 19744 600000 0",
               10: "0 3 0 0 19979 600000 0", 11: "0 3 0 0 19958 600000 0", 12: "0 3 0 0 19616 600000 0"},
           {1: over, 6: over, 9: over | unsure, 5: unsure, 2: unsure}),
        # The last of each stretch.
        at(10, {1: "2 5 2 2 19999 600000 0", 6: "2 5 2 2 19968 600000 0", 9: "1 5 1 1 19744 600000 0",
                10: "0 3 0 0 19979 600000 0", 11: "0 3 0 0 19958 600000 0", 12: "0 3 0 0 19616 600000 0"},
           {1: over, 6: over, 9: over, 3: unsure, 4: unsure, 8: unsure}),
        # That of 10 alone, then of 11 alone: the neighbour is LARGE.
        at(11, {1: "3 5 3 3 19999 600000 0", 6: "3 5 3 3 19968 600000 0",
                10: "0 3 0 0 19979 600000 0", 11: "1 5 1 1 19958 600000 0"}, {1: over, 6: over, 3: unsure}),
        at(12, {1: "4 5 0 0 19999 600000 21000", 6: "4 5 0 0 19968 600000 52000",
                10: "1 5 1 1 19979 600000 0", 11: "1 3 1 1 19958 600000 0"}, {1: over, 6: over, 4: unsure}),
        # The first of 11 alone, then the first of 12 alone, which is 8's neighbour.
        at(13, {1: "4 5 0 0 19999 600000 21000", 6: "4 5 0 0 19968 600000 52000",
                10: "2 5 2 2 19979 600000 0", 11: "1 3 1 1 19958 600000 0"}, {1: over, 6: over, 2: unsure}),
        at(14, {1: "4 5 0 0 19999 600000 21000", 6: "4 5 0 0 19968 600000 52000",
                10: "3 5 3 3 19979 600000 0", 11: "2 5 2 2 19958 600000 0"}, {1: over, 6: over, 9: unsure}),
        # Bad, with the lines kept: BLANK, with its aggregate. The first ones, the last ones, one alone.
        at(15, {1: "4 2 0 0 0 600000 21000", 6: "4 2 0 0 0 600000 52000", 5: none, 2: none, 9: none,
                10: "3 1 3 3 0 0 0", 11: "2 1 2 2 0 0 0", 12: none}, {5: bad, 2: bad, 9: bad}),
        *targets(10, *OF_INTERLEAVED),
        at(16, {1: "4 2 0 0 0 600000 21000", 6: "4 2 0 0 0 600000 52000", 3: none, 4: none, 8: none,
                10: "3 1 3 3 0 0 0", 11: "2 1 2 2 0 0 0", 12: none}, {3: bad, 4: bad, 8: bad}),
        *targets(10, *OF_INTERLEAVED),
        at(17, {1: "4 2 0 0 0 600000 21000", 6: "4 2 0 0 0 600000 52000", 2: none, 11: "2 1 2 2 0 0 0"}, {2: bad}),
        # 10 was cleared at 17. Unit 1 over once more: its aggregate has a run of 1.
        at(18, {1: "4 5 0 0 19999 600000 21000", 6: "4 2 0 0 0 600000 52000", 4: none, 10: "1 5 1 1 19979 600000 0",
                11: "2 1 2 2 0 0 0"}, {1: over, 4: bad}),
        *targets(10, *OF_INTERLEAVED),
        *looks("4 0 0 21000", *["0 0 0 0"] * 4, "4 0 0 52000", *["0 0 0 0"] * 3, "1 1 1 0", "2 2 2 0", "0 0 0 0"),
    ]


def side_by_side_single():
    """17 units; 16 chains of one unit each, heads from 17 down to 1 without 9, which stands in no chain: points 18 to 33.

    Kinds 1, 2 and 3 by turns. An aggregate of one generating or bidirectional unit has that unit's error, trigger and level; of one
    load its error and its level with the other sign, as its sums are subtracted and FCR is up there, and the same trigger. Its
    mark is the unit's, but for conformance mode 1. Triggers as `wide` says.
    """
    kinds = [GENERATING, LOAD, BIDIRECTIONAL] * 5 + [GENERATING, LOAD]
    kinds[8] = GENERATING  # unit 9
    heads = 17, 16, 15, 14, 13, 12, 11, 10, 8, 7, 6, 5, 4, 3, 2, 1  # of points 18 to 33
    none, off, on = ("0 1 0 0 0 0 0",) * 4, ("0 0 0 0 0 0 0",) * 4, ("0 2 0 0 0 600000 0",) * 4

    # What is printed at each of four intervals with the same lines.
    def small(error, level):
        return (f"1 4 1 0 {error} 600000 0", f"2 4 2 0 {error} 600000 0", f"3 4 3 0 {error} 600000 0",
                f"4 4 0 0 {error} 600000 {level}")

    def large(error, level):
        return (f"1 5 1 1 {error} 600000 0", f"2 5 2 2 {error} 600000 0", f"3 5 3 3 {error} 600000 0",
                f"4 5 0 0 {error} 600000 {level}")

    def always(text):
        return (text,) * 4

    # MW, MWB, FCR, FCL, what else the line has; of the unit and of its aggregate.
    table = [
        (18.0, 10_000, 1_000, 2_000, {}, small(7_000, 18_000), small(7_000, 18_000)),  # 18,000 - 11,000
        (29.0, 20_000, 1_000, 2_000, {}, small(7_000, 29_000), small(-7_000, -29_000)),  # 29,000 - 22,000
        (-39.0, -30_000, 1_000, 2_000, {}, small(-7_000, -39_000), small(-7_000, -39_000)),  # -(-32,000 + 39,000)
        (51.0, 40_000, 0, 0, {}, large(11_000, 51_000), large(11_000, 51_000)),
        (39.0, 50_000, 500, 0, {}, large(-10_500, 39_000), large(10_500, -39_000)),  # -(49,500 - 39,000)
        (60.0, 60_000, 7, 70, {}, on, on),
        (81.0, 70_000, 0, 5, {"quality": SUBSTITUTED}, always("0 3 0 0 11000 600000 0"), always("0 3 0 0 11000 600000 0")),
        (80.0, 80_000, 9, 0, {"mode": 1}, off, on),  # mode 1: OFF; not all modes are 0
        (101.0, 90_000, 0, 0, {"mode": 0}, large(11_000, 101_000), None),  # in no chain
        (150.0, 100_000, 3, 4, {"mode": 0}, off, off),
        (0.0, 110_000, 5, 6, {"quality": BAD}, none, none),
        (-111.0, -120_000, 0, 0, {}, small(9_000, -111_000), small(9_000, -111_000)),
        (130.0, 130_000, 8, 9, {"quality": 3}, none, none),  # unreadable
        (154.0, 140_000, 3_000, 4_000, {}, small(10_000, 154_000), small(-10_000, -154_000)),  # 1,000,000 is not greater
        (6.0, 0, 0, 0, {}, always("0 2 0 0 6000 600000 0"), always("0 2 0 0 6000 600000 0")),  # 600,000 is not greater
        (180.0, 160_000, 0, 0, {"mode": 1}, off, large(20_000, 180_000)),
        (150.0, 170_000, 0, 0, {}, large(-20_000, 150_000), large(20_000, -150_000)),
    ]

    def told(thirteen):
        return targets(18, "-170000 0 0 1", "160000 0 0 1", "0 0 0 1", "-140000 3000 4000 1", thirteen, "-120000 0 0 1",
                       "-110000 5 6 1", "100000 3 4 1", "-80000 9 0 1", "70000 0 5 1", "60000 7 70 1", "-50000 500 0 1",
                       "40000 0 0 1", "-30000 1000 2000 1", "-20000 1000 2000 1", "10000 1000 2000 1")

    first = [wide(0.0, mwb=mwb, fcr=fcr, fcl=fcl, mode=0 if unit == 9 else 2)
             for unit, (_, mwb, fcr, fcl, *_) in enumerate(table, 1)]
    later = [wide(mw, **({"mwb": mwb, "fcr": fcr, "fcl": fcl, "mode": 2} | changes)) for mw, mwb, fcr, fcl, changes, *_ in table]
    steps = [
        (load(chained(kinds, *[(head,) for head in heads])), "load accepted 16"),
        *targets(18, *["0 0 0 0"] * 16),
        accepted(interval(1, AUTOMATIC, *first), *numbered(1, [none[0]] * 33)),
        *told("130000 8 9 1"),
    ]
    for place in range(4):
        texts = [of_unit[place] for *_, of_unit, _ in table] + [table[head - 1][-1][place] for head in heads]
        steps += [accepted(interval(2 + place, AUTOMATIC, *later), *numbered(2 + place, texts)), *told("0 0 0 0")]
    declared = {1: 18_000, 2: 29_000, 3: -39_000, 4: 51_000, 5: 39_000, 9: 101_000, 12: -111_000, 14: 154_000, 17: 150_000,
                18: -150_000, 19: 180_000, 21: -154_000, 23: -111_000, 29: -39_000, 30: 51_000, 31: -39_000, 32: -29_000,
                33: 18_000}
    return [
        *steps,
        *looks(*[f"4 0 0 {declared[point]}" if point in declared else "0 0 0 0" for point in range(1, 34)]),
        # The first chain's run, the last chain's, and one between that has no run.
        (reason(18), "reason accepted large 2 5"),
        (reason(33), "reason accepted small 2 5"),
        refused("reason", 36, reason(28)),
        refused("target", 10, target(17), target(34)),
    ]


def side_by_side_regrouped():
    """Seven units, in one register after another in other chains; refused loads between. Nothing of an earlier list shows.

    Kinds 1 to 7: generating unit, load, bidirectional unit, generating unit, load, bidirectional unit, generating unit. Lines of
    DOUBLED: a set of units has its own sums. A unit that is 20,000 over has that less FCR as its error, a load less FCL.
    """
    kinds = [GENERATING, LOAD, BIDIRECTIONAL, GENERATING, LOAD, BIDIRECTIONAL, GENERATING]
    none, off, on = "0 1 0 0 0 0 0", "0 0 0 0 0 0 0", "0 2 0 0 0 600000 0"

    def at(number, alone, usual, others, changes=None):
        """alone: units in no chain, mode 0; usual: of the aggregates; changes: by unit."""
        lines = [doubled(unit, **({"mode": 0 if unit in alone else 2} | (changes or {}).get(unit, {}))) for unit in range(1, 8)]
        return each_point(number, lines, [*[on] * 7, *usual], others)

    def nothing(number, alone, aggregates):
        """Nothing kept: all BLANK."""
        return at(number, alone, [none] * aggregates, {point: none for point in range(1, 8)})

    def large(run, error, trigger=600_000):
        return f"{run} 5 {run} {run} {error} {trigger} 0"

    over, unreadable = {"over": 20.0}, {"quality": 3}
    earlier = (1, 2, 3), (4, 5), (6,)

    def broken(changed=None, *, kind=None):
        """The chains of the first register, with another next or another kind of one unit."""
        out = bytearray(chained(kinds, *earlier))
        for unit, following in (changed or {}).items():
            out[16 + 4 * (unit - 1) + 1] = following
        for unit, other in (kind or {}).items():
            out[16 + 4 * (unit - 1)] = other
        return load(bytes(out))

    refusals = [
        refused("load", 6, broken({3: 1}), broken({6: 4})),  # a loop; a chain into another
        refused("load", 7, broken({7: 7})),  # no chain met unit 7
        refused("load", 30, broken(kind={6: SEMI_SCHEDULED}), broken(kind={1: SEMI_SCHEDULED})),
        refused("load", 5, broken({7: 8})),
        refused("load", 1, load(chained(kinds, *earlier)[:-1])),
    ]
    three = [on] * 3
    steps = [
        # 1 2 3, 4 5 and 6: points 8, 9 and 10; 7 in no chain. 8: 1,000 - 2,000 + 4,000; 9: 8,000 - 16,000. Triggers: 600,000, as
        # no side has more than two units, 3 x 200,000; the large one of 8 is 1,000,000.
        (load(chained(kinds, *earlier)), "load accepted 6"),
        nothing(10, (7,), 3),
        *targets(8, "3000 7 70 1", "-8000 24 240 1", "32000 32 320 1"),
        at(11, (7,), three, {3: large(1, 19_996), 8: large(1, 19_993)}, {3: over}),
        at(12, (7,), three, {3: large(2, 19_996), 8: large(2, 19_993)}, {3: over}),
        *targets(8, "3000 7 70 1", "-8000 24 240 1", "32000 32 320 1"),
        *looks("0 0 0 0", "0 0 0 0", "2 2 2 0", *["0 0 0 0"] * 4, "2 2 2 0", "0 0 0 0", "0 0 0 0"),
        # 6 4, 5 1 2 and 3 7: as many points, other stretches. 8: 32,000 + 8,000; 9: -16,000 + 1,000 - 2,000; 10: 4,000 + 64,000.
        # Triggers as before; the large one is 1,000,000 for all three.
        (load(chained(kinds, (6, 4), (5, 1, 2), (3, 7))), "load accepted 7"),
        *targets(8, *["0 0 0 0"] * 3),
        *looks(*["0 0 0 0"] * 10),
        nothing(5, (), 3),
        *targets(8, "40000 40 400 1", "-17000 19 190 1", "68000 68 680 1"),
        # Unit 3 is 10's now: 20,000 - 68.
        at(6, (), three, {3: large(1, 19_996), 10: large(1, 19_932)}, {3: over}),
        # Unit 6 cannot be read: 8 is BLANK, and has 4 alone.
        at(7, (), three, {6: none, 8: none}, {6: unreadable}),
        *targets(8, "8000 8 80 0", "-17000 19 190 1", "68000 68 680 1"),
    ]
    for refusal in refusals:
        steps += [refusal, *targets(8, "8000 8 80 0", "-17000 19 190 1", "68000 68 680 1")]
    steps += [
        # All goes on: nothing is kept for 6.
        at(8, (), three, {3: large(1, 19_996), 10: large(1, 19_932), 6: none, 8: none}, {3: over}),
        *targets(8, "40000 40 400 1", "-17000 19 190 1", "68000 68 680 1"),
        refusals[0],
        # Unit 5, a load, is the head of 9: -(20,000 - 190).
        at(9, (), three, {5: large(1, 19_840), 9: large(1, -19_810)}, {5: over}),
        refusals[2],
        # Unit 2, a load, is its last: 20,000 - 20.
        at(10, (), three, {2: large(1, 19_980), 9: large(2, -19_810)}, {2: over}),
        # 7 5 3 1: point 8; 2, 4 and 6 in no chain. 64,000 - 16,000 + 4,000 + 1,000. MWO 300,000, ROC 9,000: small trigger 900,000,
        # large 1,500,000.
        (load(chained(kinds, (7, 5, 3, 1))), "load accepted 4"),
        *targets(8, "0 0 0 0"),
        refused("target", 10, target(9), target(10)),
        refused("look", 10, look(9), look(10)),
        nothing(1, (2, 4, 6), 1),
        *targets(8, "53000 85 850 1"),
        at(2, (2, 4, 6), ["0 2 0 0 0 900000 0"], {6: large(1, 19_968)}, {6: over}),
        # Unit 1, its last: 20,000 - 85.
        at(3, (2, 4, 6), [large(1, 19_915, 900_000)], {1: large(1, 19_999)}, {1: over}),
        # Unit 2 stands in no chain: with mode 2 it cannot be read. Unit 7 stands in one: with mode 1 it is OFF.
        at(4, (2, 4, 6), ["0 2 0 0 0 900000 0"], {2: none, 7: off}, {2: {"mode": 2}, 7: {"mode": 1}}),
        *targets(8, "53000 85 850 1"),
        *refusals,
        # Unit 5 cannot be read, the second of the chain; units 3 and 1 beyond it are kept. 64,000 + 4,000 + 1,000.
        at(5, (2, 4, 6), [none], {2: none, 5: none}, {5: unreadable}),
        *targets(8, "69000 69 690 0"),
        # No chain: no aggregate.
        (load(chained(kinds)), "load accepted 0"),
        refused("target", 10, target(8), target(7), target(1)),
        nothing(1, range(1, 8), 0),
        at(2, range(1, 8), [], {5: large(1, 19_840)}, {5: over}),
        refusals[0],
        refused("target", 10, target(8)),
        # Mode 2 in no chain cannot be read, of whatever chain it was.
        at(3, range(1, 8), [], {1: none, 3: none, 6: none, 5: large(2, 19_840)},
           {1: {"mode": 2}, 3: {"mode": 2}, 6: {"mode": 2}, 5: over}),
        # 7 6 5 4 3 2 and 1: points 8 and 9. 64,000 + 32,000 - 16,000 + 8,000 + 4,000 - 2,000. MWO of 8 400,000, ROC 12,000: small
        # trigger 1,200,000, large 2,000,000.
        (load(chained(kinds, (7, 6, 5, 4, 3, 2), (1,))), "load accepted 7"),
        *targets(8, "0 0 0 0", "0 0 0 0"),
        nothing(1, (), 2),
        *targets(8, "90000 126 1260 1", "1000 1 10 1"),
        at(2, (), ["0 2 0 0 0 1200000 0", large(1, 19_999)], {1: large(1, 19_999)}, {1: over}),
        *refusals,
        # Unit 2, the last of 8: -(20,000 - 1,260), SMALL.
        at(3, (), ["1 4 1 0 -18740 1200000 0", on], {2: large(1, 19_980)}, {2: over}),
        *targets(8, "90000 126 1260 1", "1000 1 10 1"),
        # The same bytes once more: afresh.
        (load(chained(kinds, (7, 6, 5, 4, 3, 2), (1,))), "load accepted 7"),
        *targets(8, "0 0 0 0", "0 0 0 0"),
        nothing(3, (), 2),
        *targets(8, "90000 126 1260 1", "1000 1 10 1"),
        # The two chains of the other aggregate each: 8 has unit 1 now.
        (load(chained(kinds, (1,), (7, 6, 5, 4, 3, 2))), "load accepted 7"),
        nothing(4, (), 2),
        *targets(8, "1000 1 10 1", "90000 126 1260 1"),
        at(5, (), [on, "1 4 1 0 -18740 1200000 0"], {2: large(1, 19_980)}, {2: over}),
        *targets(8, "1000 1 10 1", "90000 126 1260 1"),
    ]
    return steps


# ---- regions (02, 2026-09)


def over_7(status, run):
    """A unit in no chain that is 7,000 over, SMALL, and what is printed of it while it is not declared."""
    return OVER, f"{status} 4 {run} 0 7000 600000 0"


def over_11(status, small, large):
    """The same of one that is 11,000 over, LARGE."""
    return FAR, f"{status} 5 {small} {large} 11000 600000 0"


def regions_modes():
    """Unit 1 in region 0 and unit 2 in region 4, in no chain. Each mask up to 31 is accepted, and each above it gives 9."""
    registered = register(LENGTHS, [(GENERATING, 0, 0), (GENERATING, 0, 4)])
    none, without_units = (ON, "0 1 0 0 0 0 0"), regions(1, 2, 3)

    def nine(number):
        """33, 48 and 63 have the bit of region 0, that of region 4 and both. Then each spare beside 31. Both units are LARGE."""
        good = interval(number, 31, FAR, FAR)
        masks = 32, 33, 48, 63, 64, 128, 159, 255
        return refused("interval", 9, *[given(interval(number, mask, FAR, FAR), 32) for mask in masks],
                       *[given(good[:place] + b"\1" + good[place + 1:], 32) for place in (5, 6, 7)])

    steps = [
        # 20 goes before 9.
        refused("interval", 20, *[given(interval(7, mask, FAR, FAR), 32) for mask in (31, 32, 255)]),
        (load(registered), "load accepted 0"),
        nine(7),
        # 8 goes before 9: the report one byte short; one line too few.
        refused("interval", 8, given(interval(7, 32, ON, ON), 31), given(interval(7, 255, ON), 32)),
        # None of them was accepted: the first interval may have any number.
        taken(7, 31, none, none),
        # 9 goes before 21.
        refused("interval", 9, given(interval(7, 32, FAR, FAR), 32), given(interval(0, 255, FAR, FAR), 32)),
        refused("interval", 21, given(interval(7, 31, FAR, FAR), 32), given(interval(6, 14, FAR, FAR), 32)),
        # The bits of regions without units: both units are in manual mode.
        taken(8, without_units, over_7(1, 1), over_7(1, 1)),
        taken(9, without_units, over_7(2, 2), over_7(2, 2)),
        taken(10, without_units, over_7(2, 3), over_7(2, 3)),
        nine(11),
        *looks("2 3 0 0", "2 3 0 0"),
    ]
    # BLANK leaves the runs, and the status shows the mode. Bit 0 is set in the odd masks, bit 4 in those from 16 on.
    for mask in range(32):
        one, two = 3 if mask % 2 else 2, 3 if mask >= 16 else 2
        steps.append(taken(11 + mask, mask, (BAD_LINE, f"{one} 1 3 0 0 0 0"), (BAD_LINE, f"{two} 1 3 0 0 0 0")))
    declared, on = (OVER, "4 4 0 0 7000 600000 107000"), (ON, "4 2 0 0 0 600000 107000")
    return steps + [
        nine(43),
        *looks("3 3 0 0", "3 3 0 0"),
        # Small run 4 = Ds in manual mode; then refused intervals, which declare nothing either.
        taken(43, without_units, over_7(2, 4), over_7(2, 4)),
        nine(44),
        *looks("2 4 0 0", "2 4 0 0"),
        *reasons(None, None),
        # No number was taken by them: 44 follows 43.
        taken(44, 31, declared, declared),
        *reasons("small 8 44", "small 8 44"),
        nine(45),
        *standing(107_000, 107_000),
        taken(45, 0, on, on),
    ]


def regions_opposite():
    """Unit 1 in region 1 and unit 2 in region 3, in no chain, with the same lines and opposite modes throughout."""
    first, second = regions(1), regions(3)  # the region that is automatic is that of unit 1, or that of unit 2
    none = ON, "0 1 0 0 0 0 0"
    small_107, large_107 = (OVER, "4 4 0 0 7000 600000 107000"), (FAR, "4 5 0 0 11000 600000 107000")
    return [
        (load(register(LENGTHS, [(GENERATING, 0, 1), (GENERATING, 0, 3)])), "load accepted 0"),
        taken(1, first, none, none),
        taken(2, first, over_7(1, 1), over_7(1, 1)),
        taken(3, first, over_7(2, 2), over_7(2, 2)),
        # Small run 3 = Ps: manual mode shows 2.
        taken(4, first, over_7(3, 3), over_7(2, 3)),
        *looks("3 3 0 0", "2 3 0 0"),
        # DOUBT, with the modes the other way round.
        taken(5, second, (UNSURE, "2 3 3 0 11000 600000 0"), (UNSURE, "3 3 3 0 11000 600000 0")),
        *looks("2 3 0 0", "3 3 0 0"),
        # Small run 4 = Ds: the mark that declares unit 1 does not declare unit 2, nor does a LARGE after it.
        taken(6, first, small_107, over_7(2, 4)),
        taken(7, first, large_107, over_11(2, 5, 1)),
        *looks("4 0 0 107000", "2 5 1 0"),
        *reasons("small 2 6", None),
        # BLANK in automatic mode declares nothing.
        taken(8, second, (BAD_LINE, "4 1 0 0 0 0 107000"), (BAD_LINE, "3 1 5 1 0 0 0")),
        *reasons("small 2 6", None),
        # Small run 6. Unit 1 stays declared in manual mode.
        taken(9, second, small_107, small_107),
        *reasons("small 2 6", "small 2 9"),
        *reinstated(1, 2),
        # Unit 2 alone in automatic mode. Large run 3 = Pl, then 4 = Dl.
        taken(10, second, over_11(1, 1, 1), over_11(1, 1, 1)),
        taken(11, second, over_11(2, 2, 2), over_11(2, 2, 2)),
        taken(12, second, over_11(2, 3, 3), over_11(3, 3, 3)),
        refused("reinstate", 23, reinstate(1), reinstate(2)),
        taken(13, second, over_11(2, 4, 4), (FAR, "4 5 0 0 11000 600000 111000")),
        *reasons(None, "large 10 13"),
        # The operator declares unit 1 at the 2 that manual mode shows.
        (declare(1, 90_000), "declare accepted"),
        *reasons("operator 0 0", "large 10 13"),
        taken(14, first, (FAR, "4 5 0 0 11000 600000 90000"), (FAR, "4 5 0 0 11000 600000 111000")),
        *reinstated(1, 2),
        taken(15, first, over_11(1, 1, 1), over_11(1, 1, 1)),
        taken(16, first, over_11(2, 2, 2), over_11(2, 2, 2)),
        taken(17, first, over_11(3, 3, 3), over_11(2, 3, 3)),
        # And at 3 in automatic mode, beside unit 2 at 2.
        (declare(1, 1), "declare accepted"),
        (declare(2, 2), "declare accepted"),
        *standing(1, 2),
        *reasons("operator 0 0", "operator 0 0"),
    ]


def regions_flipped():
    """Units 1 and 2 in region 2, unit 3 in region 0, in no chain. Bits change between two intervals."""
    none, clear_107, clear_111 = (ON, "0 1 0 0 0 0 0"), (ON, "4 2 0 0 0 600000 107000"), (ON, "4 2 0 0 0 600000 111000")
    small_107, large_111 = (OVER, "4 4 0 0 7000 600000 107000"), (FAR, "4 5 0 0 11000 600000 111000")
    return [
        (load(register(LENGTHS, [(GENERATING, 0, 2), (GENERATING, 0, 2), (GENERATING, 0, 0)])), "load accepted 0"),
        # Region 0 alone is automatic: unit 3 is declared at small run 4, and a backlog comes about in region 2.
        taken(100, regions(0), none, none, none),
        taken(101, regions(0), over_7(1, 1), over_11(1, 1, 1), over_7(1, 1)),
        taken(102, regions(0), over_7(2, 2), over_11(2, 2, 2), over_7(2, 2)),
        taken(103, regions(0), over_7(2, 3), over_11(2, 3, 3), over_7(3, 3)),
        taken(104, regions(0), over_7(2, 4), over_11(2, 4, 4), small_107),
        # All are manual: unit 3 stays declared.
        taken(105, regions(), over_7(2, 5), over_11(2, 5, 5), clear_107),
        *reasons(None, None, "small 101 104"),
        # Bit 2 is set: BLANK and DOUBT show 3 and declare nothing. Bit 2 alone is cleared: 2 once more.
        taken(106, regions(2), (BAD_LINE, "3 1 5 0 0 0 0"), (UNSURE, "3 3 5 5 11000 600000 0"), clear_107),
        *looks("3 5 0 0", "3 5 5 0", "4 0 0 107000"),
        taken(107, regions(0, 1, 3, 4), (BAD_LINE, "2 1 5 0 0 0 0"), (UNSURE, "2 3 5 5 11000 600000 0"), clear_107),
        *reasons(None, None, "small 101 104"),
        # Bit 2 is set: the next LARGE and the next SMALL declare. Unit 1: runs 6 and 1. Unit 2: SMALL, runs 6 and 0.
        taken(108, regions(2), large_111, small_107, clear_107),
        *reasons("small 101 108", "small 101 108", "small 101 104"),
        *reinstated(1, 2, 3),
        # All three LARGE. Region 2 is manual, automatic, manual and automatic; region 0 is automatic at the two in the midst.
        taken(109, regions(1, 3), over_11(1, 1, 1), over_11(1, 1, 1), over_11(1, 1, 1)),
        taken(110, regions(0, 2), over_11(2, 2, 2), over_11(2, 2, 2), over_11(2, 2, 2)),
        taken(111, regions(0), over_11(2, 3, 3), over_11(2, 3, 3), over_11(3, 3, 3)),
        taken(112, regions(2), large_111, large_111, over_11(2, 4, 4)),
        *reasons("large 109 112", "large 109 112", None),
        # CLEAR in automatic mode: nothing is left of unit 3's backlog.
        taken(113, regions(0), clear_111, clear_111, (ON, "0 2 0 0 0 600000 0")),
        taken(114, regions(0), clear_111, clear_111, over_11(1, 1, 1)),
        *looks("4 0 0 111000", "4 0 0 111000", "1 1 1 0"),
    ]


def regions_each():
    """Units 1 to 5, in no chain, in regions 3, 0, 4, 1 and 2. The unit in region 0 is unit 2, that in 1 is 4, in 2 it is 5, in 3 it
    is 1, and in 4 it is 3."""
    units = [(GENERATING, 0, region) for region in (3, 0, 4, 1, 2)]
    unit_of = 2, 4, 5, 1, 3
    declared, declared_107 = (FAR, "4 5 0 0 11000 600000 111000"), (OVER, "4 4 0 0 7000 600000 107000")
    every = regions(0, 1, 2, 3, 4)

    def but(region):
        return regions(*{0, 1, 2, 3, 4} - {region})

    def all_but(usual, units_with):
        """The same of each unit, unless `units_with` has another."""
        return [units_with.get(unit, usual) for unit in range(1, 6)]

    steps = [
        (load(register(LENGTHS, units)), "load accepted 0"),
        taken(1, regions(), *[(ON, "0 1 0 0 0 0 0")] * 5),
        taken(2, regions(), *[over_11(1, 1, 1)] * 5),
        taken(3, regions(), *[over_11(2, 2, 2)] * 5),
        taken(4, regions(), *[over_11(2, 3, 3)] * 5),
        taken(5, regions(), *[over_11(2, 4, 4)] * 5),
        # One bit alone each time declares one unit alone: region 0, 1, and so on.
        taken(6, regions(0), over_11(2, 5, 5), declared, over_11(2, 5, 5), over_11(2, 5, 5), over_11(2, 5, 5)),
        taken(7, regions(1), over_11(2, 6, 6), declared, over_11(2, 6, 6), declared, over_11(2, 6, 6)),
        taken(8, regions(2), over_11(2, 7, 7), declared, over_11(2, 7, 7), declared, declared),
        taken(9, regions(3), declared, declared, over_11(2, 8, 8), declared, declared),
        *reasons("large 2 9", "large 2 6", None, "large 2 7", "large 2 8"),
        taken(10, regions(4), *[declared] * 5),
        *reasons("large 2 9", "large 2 6", "large 2 10", "large 2 7", "large 2 8"),
        *reinstated(1, 2, 3, 4, 5),
        # All are automatic: 3 at small run 3.
        taken(11, every, *[over_7(1, 1)] * 5),
        taken(12, every, *[over_7(2, 2)] * 5),
        taken(13, every, *[over_7(3, 3)] * 5),
    ]
    # BLANK: one bit alone shows 3 of one unit alone, and all bits but one show 2 of one unit alone.
    manual, automatic = (BAD_LINE, "2 1 3 0 0 0 0"), (BAD_LINE, "3 1 3 0 0 0 0")
    for region, unit in enumerate(unit_of):
        steps.append(taken(14 + region, regions(region), *all_but(manual, {unit: automatic})))
    for region, unit in enumerate(unit_of):
        steps.append(taken(19 + region, but(region), *all_but(automatic, {unit: manual})))
    return steps + [
        # Small run 4, then 5: region 2 is manual, then it is not.
        taken(24, but(2), *all_but(declared_107, {5: over_7(2, 4)})),
        *reasons("small 11 24", "small 11 24", "small 11 24", "small 11 24", None),
        taken(25, but(0), *[declared_107] * 5),
        *reasons("small 11 24", "small 11 24", "small 11 24", "small 11 24", "small 11 25"),
    ]


def regions_of_aggregates():
    """An aggregate is in its members' region. Chain 5 -> 2 (generating unit, load) in region 3 is point 6, chain 3 -> 4 (the same)
    in region 1 point 7; generating unit 1 in no chain, in region 0.

    Targets are 100,000 and 40,000 and the aggregates' 60,000, so their triggers are as `wide` says: MWO max(200,000, 200,000),
    ROC max(9,000, 9,000). Both chains have the same MW.
    """
    units = [(GENERATING, 0, 0), (LOAD, 0, 3), (GENERATING, 4, 1), (LOAD, 0, 1), (GENERATING, 2, 3)]
    none, on, low = "0 1 0 0 0 0 0", "0 2 0 0 0 600000 0", "0 2 0 0 -5000 600000 0"
    large_111, large_71, small_70 = "4 5 0 0 11000 600000 111000", "4 5 0 0 11000 600000 71000", "4 4 0 0 10000 600000 70000"
    clear_111 = "4 2 0 0 5000 600000 111000"

    def at(number, mode, first, generating, drawn, texts, **changes):
        """MW of unit 1, of the generating members and of the loads; what is printed of points 1 to 7."""
        load_line, member = wide(drawn, mwb=40_000, mode=2, **changes), wide(generating, mode=2)
        return accepted(interval(number, mode, wide(first), load_line, member, load_line, member), *numbered(number, texts))

    def large(status, run):
        return f"{status} 5 {run} {run} 11000 600000 0"

    def small(status, run):
        return f"{status} 4 {run} 0 10000 600000 0"

    return [
        (load(register(LENGTHS, units, [5, 3])), "load accepted 4"),
        at(1, regions(3), 100.0, 100.0, 40.0, [none] * 7),
        # 111,000 - 100,000, and 111,000 - 40,000 - 60,000: LARGE.
        at(2, regions(3), 111.0, 111.0, 40.0, [large(1, 1), on, large(1, 1), on, large(1, 1), large(1, 1), large(1, 1)]),
        at(3, regions(3), 111.0, 111.0, 40.0, [large(2, 2), on, large(2, 2), on, large(2, 2), large(2, 2), large(2, 2)]),
        # Run 3: region 3 alone shows 3. Run 4: it alone declares, unit 5 and its aggregate.
        at(4, regions(3), 111.0, 111.0, 40.0, [large(2, 3), on, large(2, 3), on, large(3, 3), large(3, 3), large(2, 3)]),
        at(5, regions(3), 111.0, 111.0, 40.0, [large(2, 4), on, large(2, 4), on, large_111, large_71, large(2, 4)]),
        *looks("2 4 4 0", "0 0 0 0", "2 4 4 0", "0 0 0 0", "4 0 0 111000", "4 0 0 71000", "2 4 4 0"),
        *reasons(None, None, None, None, "large 2 5", "large 2 5", None),
        # Region 1 alone: unit 3 and its aggregate.
        at(6, regions(1), 111.0, 111.0, 40.0, [large(2, 5), on, large_111, on, large_111, large_71, large_71]),
        *reasons(None, None, "large 2 6", None, "large 2 5", "large 2 5", "large 2 6"),
        *targets(6, "60000 0 0 1", "60000 0 0 1"),
        # The aggregates alone: 5,000 and -5,000 are CLEAR, 105,000 - 35,000 - 60,000 = 10,000 is SMALL.
        *reinstated(6, 7),
        at(7, regions(1), 100.0, 105.0, 35.0, [on, low, clear_111, low, clear_111, small(1, 1), small(1, 1)]),
        at(8, regions(1), 100.0, 105.0, 35.0, [on, low, clear_111, low, clear_111, small(2, 2), small(2, 2)]),
        at(9, regions(1), 100.0, 105.0, 35.0, [on, low, clear_111, low, clear_111, small(2, 3), small(3, 3)]),
        # The loads are bad: BLANK, and the modes are the other way round.
        at(10, regions(3), 100.0, 105.0, 0.0, [on, none, clear_111, none, clear_111, "3 1 3 0 0 0 0", "2 1 3 0 0 0 0"],
           quality=BAD),
        # All but region 3: point 7 at 105,000 - 35,000. Then region 3 alone: point 6.
        at(11, regions(0, 1, 2, 4), 100.0, 105.0, 35.0, [on, low, clear_111, low, clear_111, small(2, 4), small_70]),
        *looks("0 0 0 0", "0 0 0 0", "4 0 0 111000", "0 0 0 0", "4 0 0 111000", "2 4 0 0", "4 0 0 70000"),
        at(12, regions(3), 100.0, 105.0, 35.0, [on, low, clear_111, low, clear_111, small_70, small_70]),
        *reasons(None, None, "large 2 6", None, "large 2 5", "small 7 12", "small 7 11"),
    ]


def regions_reasons():
    """Unit 1 in region 1 and unit 2 in region 2, in no chain. Which run is told, and which mark, goes by the bit of the point's own
    region. Small run 2, 3, 4; large run 2, 3, 4."""
    none, large_111 = (ON, "0 1 0 0 0 0 0"), (FAR, "4 5 0 0 11000 600000 111000")
    clear_111, small_111 = (ON, "4 2 0 0 0 600000 111000"), (OVER, "4 4 0 0 7000 600000 111000")
    told = reasons("small 201 204", "large 202 205")
    return [
        (load(register(LENGTHS, [(GENERATING, 0, 1), (GENERATING, 0, 2)])), "load accepted 0"),
        taken(200, regions(1), none, none),
        taken(201, regions(1), over_7(1, 1), over_7(1, 1)),
        taken(202, regions(1), over_11(2, 2, 1), over_11(2, 2, 1)),
        taken(203, regions(1), over_11(3, 3, 2), over_11(2, 3, 2)),
        # Unit 1: runs 4 and 3.
        taken(204, regions(1), large_111, over_11(2, 4, 3)),
        *reasons("small 201 204", None),
        # Unit 2: runs 5 and 4, both.
        taken(205, regions(1, 2), large_111, large_111),
        *told,
        # The reasons stand whatever the modes are.
        taken(206, regions(), clear_111, clear_111),
        *told,
        taken(207, regions(2), small_111, large_111),
        *told,
        taken(208, regions(0, 3, 4), large_111, small_111),
        *told,
        *reinstated(1, 2),
        *reasons(None, None),
        taken(209, regions(1), over_11(1, 1, 1), over_11(1, 1, 1)),
        taken(210, regions(1), over_11(2, 2, 2), over_11(2, 2, 2)),
        # The operator declares unit 2; region 2's bit, set later, leaves that.
        (declare(2, 5), "declare accepted"),
        *reasons(None, "operator 0 0"),
        taken(211, regions(2), over_11(2, 3, 3), (FAR, "4 5 0 0 11000 600000 5")),
        taken(212, regions(2), over_11(2, 4, 4), (FAR, "4 5 0 0 11000 600000 5")),
        taken(213, regions(2), over_11(2, 5, 5), (FAR, "4 5 0 0 11000 600000 5")),
        *reasons(None, "operator 0 0"),
        # Unit 1: runs 6 and 6.
        taken(214, regions(1), large_111, (FAR, "4 5 0 0 11000 600000 5")),
        *reasons("large 209 214", "operator 0 0"),
    ]


def regions_loads():
    """4 for a region above 4 and for byte 3 of a unit, 37 for a chain across regions, and what goes before them."""
    sun = SEMI_SCHEDULED

    def sent(*units, heads=()):
        """Units of kind 1, or as given: next, region and kind."""
        records = [(kind[0] if kind else GENERATING, following, region) for following, region, *kind in units]
        return load(register(LENGTHS, records, heads))

    def with_byte(place, value, *units, heads=()):
        out = bytearray(register(LENGTHS, [(GENERATING, *unit) for unit in units], heads))
        out[place] = value
        return load(bytes(out))

    return [
        # 4: regions above 4 in the one unit; in the first and in the last of three; in all of a chain; of each kind.
        refused("load", 4, *[sent((0, region)) for region in (5, 6, 7, 8, 16, 31, 32, 128, 255)]),
        refused("load", 4, sent((0, 5), (0, 0), (0, 0)), sent((0, 0), (0, 0), (0, 255)), sent((2, 5), (0, 5), heads=[1]),
                sent((0, 5, LOAD)), sent((0, 5, BIDIRECTIONAL)), sent((0, 5, sun))),
        # 4: byte 3 of a unit, at 19 and 23, alone and beside a region.
        refused("load", 4, with_byte(19, 1, (0, 0)), with_byte(19, 255, (0, 4)), with_byte(23, 1, (2, 3), (0, 3), heads=[1]),
                with_byte(23, 3, (0, 3), (0, 3))),
        # 1 to 3 go before 4, and 4 over the whole register before 5, 6, 7, 30 and 37.
        refused("load", 1, load(register(LENGTHS, [(GENERATING, 0, 5)]) + b"\0")),
        refused("load", 2, load(register(LENGTHS, [(GENERATING, 0, 5)] * 65))),
        refused("load", 3, load(register((2, 3, 3, 2, 3, 4), [(GENERATING, 0, 5)]))),
        refused("load", 4, sent((3, 0), (0, 5)), sent((0, 0), (0, 5), heads=[1, 1]), sent((0, 0), (1, 0), (0, 5), heads=[1]),
                sent((0, 0, sun), (0, 5), heads=[1]), sent((2, 0), (0, 1), (0, 5), heads=[1]), sent((2, 0), (0, 5), heads=[1]),
                sent((0, 5), (3, 0), (0, 1), heads=[2])),
        # 5, 6, 7 and 30 go before 37: a chain across regions, and a next above n, a head 0; two equal heads, a loop of that chain;
        # a next behind it and before it that no chain met; kind 4 in it, and in another chain behind it and before it.
        refused("load", 5, sent((2, 0), (0, 1), (4, 0), heads=[1]), sent((2, 0), (0, 1), heads=[1, 0])),
        refused("load", 6, sent((2, 0), (0, 1), heads=[1, 1]), sent((2, 0), (1, 1), heads=[1])),
        refused("load", 7, sent((2, 0), (0, 1), (1, 0), heads=[1]), sent((3, 0), (3, 0), (0, 1), heads=[2])),
        refused("load", 30, sent((2, 0, sun), (0, 1), heads=[1]), sent((2, 0), (0, 1, sun), heads=[1]),
                sent((2, 0), (0, 1), (0, 0, sun), heads=[1, 3]), sent((0, 0, sun), (3, 0), (0, 1), heads=[1, 2])),
        # 37: a chain of two either way and in any two regions, up and down.
        refused("load", 37, sent((2, 0), (0, 1), heads=[1]), sent((2, 1), (0, 0), heads=[1]), sent((2, 3), (0, 4), heads=[1]),
                sent((2, 4), (0, 2), heads=[1]), sent((0, 0), (1, 1), heads=[2])),
        # Of three the first, the middle and the last; each of them in a region of its own; past a unit in its head's region.
        refused("load", 37, sent((2, 1), (3, 0), (0, 0), heads=[1]), sent((2, 0), (3, 1), (0, 0), heads=[1]),
                sent((2, 0), (3, 0), (0, 1), heads=[1]), sent((2, 4), (3, 3), (0, 2), heads=[1]),
                sent((3, 2), (0, 2), (0, 1), heads=[1])),
        # The first of three chains, and the last by its last member alone; a load and a bidirectional unit; kind 4 in no chain.
        refused("load", 37, sent((2, 1), (0, 2), (4, 2), (0, 2), (6, 2), (0, 2), heads=[1, 3, 5]),
                sent((2, 2), (0, 2), (4, 3), (0, 3), (6, 4), (0, 3), heads=[1, 3, 5]),
                sent((2, 0, LOAD), (0, 1, BIDIRECTIONAL), heads=[1]), sent((2, 0), (0, 1), (0, 1, sun), heads=[1])),
        # None of them left a register.
        refused("look", 20, look(1)),
        # Units in no chain may be in any regions; so may whole chains, and what a chain passes over.
        (sent((0, 0), (0, 1, LOAD), (0, 2, BIDIRECTIONAL), (0, 3, sun), (0, 4)), "load accepted 0"),
        *looks(*["0 0 0 0"] * 5),
        (sent((2, 4), (0, 4, LOAD), (4, 1), (0, 1, BIDIRECTIONAL), (0, 2, sun), heads=[1, 3]), "load accepted 4"),
        (sent((3, 1), (0, 2), (0, 1), heads=[1]), "load accepted 2"),
        (sent((0, 3), (1, 3), heads=[2]), "load accepted 2"),
        (sent((0, 4), heads=[1]), "load accepted 1"),
        refused("load", 37, sent((2, 4), (0, 3), (0, 3), heads=[1])),
        refused("look", 10, look(3)),
    ]


def regions_load_again():
    """Units in no chain, or one chain. A point's region goes by the register loaded last; a refused one changes none."""
    def to_run_3(one, two):
        """Region 1 alone is automatic; statuses of units 1 and 2 at small run 3. A load starts afresh, and so do the numbers."""
        return [
            taken(1, regions(1), (ON, "0 1 0 0 0 0 0"), (ON, "0 1 0 0 0 0 0")),
            taken(2, regions(1), over_7(1, 1), over_7(1, 1)),
            taken(3, regions(1), over_7(2, 2), over_7(2, 2)),
            taken(4, regions(1), over_7(one, 3), over_7(two, 3)),
        ]

    declared = OVER, "4 4 0 0 7000 600000 107000"
    swapped = [(GENERATING, 0, 2), (GENERATING, 0, 1)]
    refusals = [
        # The regions the other way round, but for a byte too many, byte 3 of the last unit, a region of 5.
        refused("load", 1, load(register(LENGTHS, swapped) + b"\0")),
        refused("load", 4, load(register(LENGTHS, swapped)[:-1] + b"\1"), load(register(LENGTHS, [*swapped, (GENERATING, 0, 5)]))),
        # In a chain.
        refused("load", 37, load(register(LENGTHS, [(GENERATING, 2, 2), (GENERATING, 0, 1)], [1]))),
    ]
    member = wide(107.0, mode=2)

    def chained_at(number, mode, unit, aggregate):
        """Chain 2 -> 1, both 7,000 over: SMALL. The aggregate: 214,000 - 200,000 = 14,000, with MWO 400,000 and ROC 18,000, so a
        small trigger of min(1,200,000, 3,600,000) and a large one of min(2,000,000, 7,200,000): SMALL."""
        return accepted(interval(number, mode, member, member), *numbered(number, [unit, unit, aggregate]))

    return [
        (load(register(LENGTHS, [(GENERATING, 0, 1), (GENERATING, 0, 2)])), "load accepted 0"),
        *to_run_3(3, 2),
        *refusals,
        *looks("3 3 0 0", "2 3 0 0"),
        # Unit 1 is still in region 1, and unit 2 in region 2.
        taken(5, regions(1), declared, over_7(2, 4)),
        *refusals,
        *reasons("small 2 5", None),
        taken(6, regions(2), declared, declared),
        *reasons("small 2 5", "small 2 6"),
        # The other way round.
        (load(register(LENGTHS, swapped)), "load accepted 0"),
        *to_run_3(2, 3),
        taken(5, regions(1), over_7(2, 4), declared),
        *reasons(None, "small 2 5"),
        # Both in region 0.
        (load(TWO_UNITS), "load accepted 0"),
        *to_run_3(2, 2),
        taken(5, regions(1, 2, 3, 4), over_7(2, 4), over_7(2, 4)),
        taken(6, regions(0), declared, declared),
        *reasons("small 2 6", "small 2 6"),
        # Both in region 1.
        (load(register(LENGTHS, [(GENERATING, 0, 1)] * 2)), "load accepted 0"),
        *to_run_3(3, 3),
        taken(5, regions(1), declared, declared),
        # Point 3 is an aggregate, in region 4.
        (load(register(LENGTHS, [(GENERATING, 0, 4), (GENERATING, 1, 4)], [2])), "load accepted 2"),
        chained_at(1, regions(1), "0 1 0 0 0 0 0", "0 1 0 0 0 0 0"),
        chained_at(2, regions(1), "1 4 1 0 7000 600000 0", "1 4 1 0 14000 1200000 0"),
        chained_at(3, regions(1), "2 4 2 0 7000 600000 0", "2 4 2 0 14000 1200000 0"),
        chained_at(4, regions(1), "2 4 3 0 7000 600000 0", "2 4 3 0 14000 1200000 0"),
        # Refused, with the aggregate's head in region 1, and then the other member.
        refused("load", 37, load(register(LENGTHS, [(GENERATING, 0, 4), (GENERATING, 1, 1)], [2])),
                load(register(LENGTHS, [(GENERATING, 0, 1), (GENERATING, 1, 4)], [2]))),
        chained_at(5, regions(1), "2 4 4 0 7000 600000 0", "2 4 4 0 14000 1200000 0"),
        chained_at(6, regions(4), "4 4 0 0 7000 600000 107000", "4 4 0 0 14000 1200000 214000"),
        # Point 3 is a unit in region 1, and units 1 and 2 are in regions 4 and 0.
        (load(register(LENGTHS, [(GENERATING, 0, 4), (GENERATING, 0, 0), (GENERATING, 0, 1)])), "load accepted 0"),
        taken(1, regions(1), *[(ON, "0 1 0 0 0 0 0")] * 3),
        taken(2, regions(1), *[over_7(1, 1)] * 3),
        taken(3, regions(1), *[over_7(2, 2)] * 3),
        taken(4, regions(1), over_7(2, 3), over_7(2, 3), over_7(3, 3)),
        taken(5, regions(0), over_7(2, 4), declared, over_7(2, 4)),
        taken(6, regions(4), declared, declared, over_7(2, 5)),
        taken(7, regions(1), declared, declared, declared),
        *reasons("small 2 6", "small 2 5", "small 2 7"),
    ]


def regions_plant():
    """64 units and 16 aggregates. Chain k, k -> k + 16 -> k + 32, is point 64 + k, in region 0 to 4 by turns; units 49 to 64 in no
    chain, in region 4 and then 0 to 4 by turns. All are generating units.

    All are 11,000 over: LARGE. The aggregates are 33,000 over, at 333,000: MWO 600,000, ROC 27,000, so their small trigger is
    min(1,800,000, 5,400,000) and their large one min(3,000,000, 10,800,000): LARGE. All are manual up to large run 4; then one
    region alone is automatic each time, 3, 0, 4, 1 and 2.
    """
    regions_of_chains = [(chain - 1) % 5 for chain in range(1, 17)]
    regions_of_units = regions_of_chains * 3 + [unit % 5 for unit in range(49, 65)]
    units = [(GENERATING, unit + 16 if unit <= 32 else 0, region) for unit, region in enumerate(regions_of_units, 1)]
    declared_at = {3: 6, 0: 7, 4: 8, 1: 9, 2: 10}  # by region
    points = [("11000 600000", 111_000, region) for region in regions_of_units]
    points += [("33000 1800000", 333_000, region) for region in regions_of_chains]

    def at(number, mode, texts):
        lines = [wide(111.0, mode=2 if unit <= 48 else 0) for unit in range(1, 65)]
        return accepted(interval(number, mode, *lines), *numbered(number, texts))

    steps = [
        (load(register(LENGTHS, units, range(1, 17))), "load accepted 48"),
        at(1, regions(), ["0 1 0 0 0 0 0"] * 80),
        at(2, regions(), [f"1 5 1 1 {error} 0" for error, _, _ in points]),
        *[at(number, regions(), [f"2 5 {number - 1} {number - 1} {error} 0" for error, _, _ in points]) for number in (3, 4, 5)],
        *reasons(*[None] * 80),
    ]
    for region, number in declared_at.items():
        run = number - 1
        steps.append(at(number, regions(region), [
            f"4 5 0 0 {error} {level}" if declared_at[own] <= number else f"2 5 {run} {run} {error} 0"
            for error, level, own in points]))
    return steps + [
        *standing(*[level for _, level, _ in points]),
        *reasons(*[f"large 2 {declared_at[own]}" for _, _, own in points]),
    ]


def in_region(region, steps):
    """The same calls with all units in this region. Its bit alone is set for automatic mode, and all others for manual mode."""
    masks = {AUTOMATIC: regions(region), MANUAL: regions(*{0, 1, 2, 3, 4} - {region})}

    def moved(sent):
        out, at = bytearray(sent), 0
        while at < len(out):
            tag, length = struct.unpack_from("<II", out, at)
            if tag == 1:  # at 8 the register, whose first byte is the unit count; units from 24 on
                for unit in range(out[at + 8]):
                    out[at + 26 + 4 * unit] = region
            elif tag == 2:  # at 8 the report's length, at 12 the interval's number, at 16 its mask
                out[at + 16] = masks[out[at + 16]]
            at += 8 + length
        return bytes(out)

    return [(moved(sent), *texts) for sent, *texts in steps]


def regions_every_status():
    """The calls of `every_status` in region 4. The answers are what they were."""
    return in_region(4, every_status())


def regions_operator_declaration():
    """The calls of `operator_declaration`, likewise."""
    return in_region(3, operator_declaration())


def regions_manual_runs():
    """The calls of `reason_manual_runs`, likewise."""
    return in_region(1, reason_manual_runs())


def regions_levels_in_chains():
    """The calls of `levels_in_chains`, likewise."""
    return in_region(2, levels_in_chains())


# ---- two lists that are alike for one group


def alike(others, suns, between):
    """Chain 1 -> 2 (generating unit, load) with its aggregate, point 5, is the group; units 3 (generating) and 4 (semi-scheduled)
    in no chain are outside of it.

    others, suns: the five lines of unit 3 and of unit 4, and what they print; between: operator calls outside the group, after
    each interval. Gives the steps, each with whether it is the group's: the answer to an interval and the lines of points 1, 2
    and 5 are.
    """
    registered = register(LENGTHS, [(GENERATING, 2), (LOAD, 0), (GENERATING, 0), (SEMI_SCHEDULED, 0)], [1])

    def one(mw):  # up FCR 1,000, down FCL 2,000; own triggers as `wide` says
        return wide(mw, fcr=1_000, fcl=2_000, mode=2)

    def two(mw, **changes):  # a load: up FCL 0, down FCR 500; own triggers 600,000: 5 x 100,000 is under that
        return wide(mw, **({"mwb": 40_000, "mwo": 100_000, "fcr": 500, "mode": 2} | changes))

    # The aggregate: kept MWB 100,000 - 40,000 = 60,000, up 1,000 + 500, down 2,000 + 0; MWO max(200,000, 100,000), ROC
    # max(9,000, 9,000): small trigger 600,000, large 1,000,000.
    steps = [(True, load(registered), "load accepted 2")]

    def at(number, first, second, *texts):
        buffer = interval(number, AUTOMATIC, first, second, others[0][number - 1], suns[0][number - 1])
        steps.append((True, given(buffer, 80), "interval accepted", *texts[:2]))
        steps.append((False, b"", others[1][number - 1], suns[1][number - 1]))
        steps.append((True, b"", texts[2]))
        steps.extend((False, *step) for step in between[number - 1])

    def named(sent, text):
        steps.append((True, sent, text))

    # Nothing kept.
    at(1, one(100.0), two(40.0), "1 1 0 1 0 0 0 0 0", "1 2 0 1 0 0 0 0 0", "1 5 0 1 0 0 0 0 0")
    at(
        2, one(109.0), two(33.0),
        "2 1 1 4 1 0 8000 600000 0",  # 109,000 - 101,000: SMALL
        "2 2 1 5 1 1 -6500 600000 0",  # -(39,500 - 33,000): LARGE
        "2 5 1 5 1 1 14500 600000 0",  # 109,000 - 33,000 = 76,000; 76,000 - 61,500: LARGE
    )
    at(
        3, one(108.0), two(40.0, mode=1),
        "3 1 2 4 2 0 7000 600000 0",
        "3 2 0 0 0 0 0 0 0",  # conformance mode 1: OFF
        "3 5 2 4 2 0 6500 600000 0",  # not all modes 0: 68,000 - 61,500, SMALL
    )
    named(declare(1, -90_000), "declare refused 11")
    named(declare(1, 90_000), "declare accepted")
    named(look(1), "look accepted 4 0 0 90000")
    named(look(5), "look accepted 2 2 0 0")
    named(declare(2, -1), "declare refused 11")
    named(declare(2, 0), "declare refused 22")
    # Refused in both lists: the number of the last accepted, then a report one record short.
    for number, report, refusal in ((3, 80, 21), (4, 64, 8)):
        buffer = interval(number, AUTOMATIC, one(50.0), two(90.0), others[0][number], suns[0][number])
        steps.append((True, given(buffer, report), f"interval refused {refusal}"))
    at(
        4, one(99.0), two(40.0),
        "4 1 4 2 0 0 0 600000 90000",  # 98,000 to 101,000: no error; declared
        "4 2 0 2 0 0 0 600000 0",  # the OFF line was kept
        "4 5 0 2 0 0 0 600000 0",  # 59,000 within 58,000 to 61,500: CLEAR
    )
    named(reinstate(1), "reinstate accepted")
    named(reinstate(5), "reinstate refused 23")
    at(
        5, one(50.0), two(40.0, mwb=-1),
        "5 1 1 5 1 1 -48000 600000 0",  # -(98,000 - 50,000)
        "5 2 0 1 0 0 0 0 0",  # a load's target below 0 is unreadable: BLANK
        "5 5 0 1 0 0 0 0 0",  # so is its aggregate
    )
    named(look(1), "look accepted 1 1 1 0")
    named(look(5), "look accepted 0 0 0 0")
    return steps


def alike_1():
    """Units 3 and 4 go off target, are declared and reinstated."""
    return alike(
        (
            [plain(100.0), plain(107.0), plain(93.0), plain(107.0), plain(107.0)],
            [
                "1 3 0 1 0 0 0 0 0",
                "2 3 1 5 1 1 7000 600000 0",
                "3 3 2 5 2 2 -7000 600000 0",
                "4 3 1 5 1 1 7000 600000 0",  # run 1 after the reinstatement
                "5 3 2 5 2 2 7000 600000 0",
            ],
        ),
        (
            [plain(100.0, cap=1), plain(107.0, cap=1), plain(107.0, cap=1), plain(107.0, cap=0, mwb=200_000),
             plain(107.0, cap=1)],
            [
                "1 4 0 1 0 0 0 0 0",
                "2 4 1 5 1 1 7000 600000 0",
                "3 4 2 5 2 2 7000 600000 0",
                "4 4 4 5 0 0 7000 600000 50000",  # declared after 3
                "5 4 4 0 0 0 0 0 50000",  # the kept flag is 0
            ],
        ),
        [
            [(look(3), "look accepted 0 0 0 0"), (look(0), "look refused 10")],
            [(declare(3, 0), "declare refused 22"), (declare(6, 0), "declare refused 10")],
            [
                (declare(3, -5), "declare refused 11"),
                (declare(3, 5), "declare accepted"),
                (look(3), "look accepted 4 0 0 5"),
                (reinstate(3), "reinstate accepted"),
                (declare(4, 50_000), "declare accepted"),
            ],
            [(look(4), "look accepted 4 0 0 50000")],
            [(declare(3, 107_000), "declare accepted"), (reinstate(4), "reinstate accepted")],
        ],
    )


def alike_2():
    """Units 3 and 4 send lines that cannot be read, are bad or are substituted, 4 with other flags; other operator calls."""
    return alike(
        (
            [plain(100.0, mode=1), plain(107.0), plain(100.0), plain(0.0, quality=BAD), plain(107.0, quality=SUBSTITUTED)],
            [
                "1 3 0 1 0 0 0 0 0",  # conformance mode 1 in no chain: unreadable
                "2 3 0 1 0 0 0 0 0",  # so nothing is kept
                "3 3 0 2 0 0 0 600000 0",
                "4 3 0 1 0 0 0 0 0",  # quality 2
                "5 3 0 3 0 0 7000 600000 0",  # DOUBT
            ],
        ),
        (
            [plain(50.0, cap=0, mwb=30_000), plain(120.0, cap=0), plain(120.0, cap=255), plain(20.0, cap=1, mwb=500_000),
             plain(60.0, cap=1, quality=SUBSTITUTED)],
            [
                "1 4 0 1 0 0 0 0 0",
                "2 4 0 0 0 0 0 0 0",  # the kept flag is 0
                "3 4 0 1 0 0 0 0 0",  # unreadable
                "4 4 0 1 0 0 0 0 0",  # so nothing is kept
                "5 4 0 2 0 0 -440000 600000 0",  # -(500,000 - 60,000), with a kept flag of 1: CLEAR
            ],
        ),
        [
            [],
            [(reinstate(3), "reinstate refused 23"), (declare(4, 1), "declare refused 22"), (declare(4, -1), "declare refused 11")],
            [(reinstate(2**32 - 1), "reinstate refused 10"), (declare(3, 128_000_001), "declare refused 11")],
            [(look(3), "look accepted 0 0 0 0"), (look(4), "look accepted 0 0 0 0")],
            [(reinstate(4), "reinstate refused 23")],
        ],
    )


def alike_solar(others, between):
    """Semi-scheduled unit 2 in no chain is the group. Outside of it: chain 1 -> 3 (generating unit, load) with its aggregate,
    point 5, and generating unit 4.

    others: for each interval the lines of units 1, 3 and 4, and what is printed of points 1, 3, 4 and 5; between: operator calls
    outside the group after the interval of that number. Gives the steps as `alike` does.
    """
    registered = register(LENGTHS, [(GENERATING, 3), (SEMI_SCHEDULED, 0), (LOAD, 0), (GENERATING, 0)], [1])

    def sun(mw, cap):  # on target from 98,000 to 101,000; triggers as `wide` says
        return wide(mw, fcr=1_000, fcl=2_000, cap=cap)

    steps = [(True, load(registered), "load accepted 2")]

    def buffer_of(number, second, lines):
        return interval(number, AUTOMATIC, lines[0], second, *lines[1:])

    def at(number, second, text):
        lines, printed = others[number - 1]
        one, three, four, five = (f"{number} {point} {words}" for point, words in zip((1, 3, 4, 5), printed))
        steps.append((True, given(buffer_of(number, second, lines), 80), "interval accepted"))
        steps.append((False, b"", one))
        steps.append((True, b"", f"{number} 2 {text}"))
        steps.append((False, b"", three, four, five))
        steps.extend((False, *step) for step in between.get(number, []))

    def named(sent, text):
        steps.append((True, sent, text))

    at(1, sun(100.0, 1), "0 1 0 0 0 0 0")  # nothing kept
    at(2, sun(109.0, 1), "1 4 1 0 8000 600000 0")  # 109,000 - 101,000: SMALL
    at(3, sun(112.0, 0), "2 5 2 1 11000 600000 0")  # LARGE
    named(look(2), "look accepted 2 2 1 0")
    named(declare(2, -90_000), "declare refused 11")
    named(declare(2, 90_000), "declare accepted")
    named(look(2), "look accepted 4 0 0 90000")
    named(declare(2, 0), "declare refused 22")
    # Refused in both lists: the number of the last accepted, then a report one record short. The flag of 3 stays kept.
    for number, report, refusal in ((3, 80, 21), (4, 64, 8)):
        buffer = buffer_of(number, sun(50.0, 1), others[number][0])
        steps.append((True, given(buffer, report), f"interval refused {refusal}"))
    at(4, sun(112.0, 1), "4 0 0 0 0 0 90000")  # the kept flag is 0: OFF; declared
    named(reinstate(2), "reinstate accepted")
    named(reinstate(2), "reinstate refused 23")
    at(5, sun(109.0, 1), "1 4 1 0 8000 600000 0")
    at(6, sun(50.0, 1), "0 2 0 0 -48000 600000 0")  # -(98,000 - 50,000), too low with a kept flag of 1: CLEAR
    at(7, sun(112.0, 2), "0 1 0 0 0 0 0")  # unreadable
    at(8, sun(112.0, 1), "0 1 0 0 0 0 0")  # nothing kept
    at(9, sun(112.0, 1), "1 5 1 1 11000 600000 0")
    at(10, sun(112.0, 1), "2 5 2 2 11000 600000 0")
    at(11, sun(112.0, 1), "3 5 3 3 11000 600000 0")
    at(12, sun(112.0, 1), "4 5 0 0 11000 600000 112000")  # run 4: declared at its MW
    named(look(2), "look accepted 4 0 0 112000")
    return steps


def alike_solar_1():
    """Unit 1 goes off target and its aggregate with it; either is declared and reinstated."""
    def lines(mw):
        return wide(mw, mode=2), wide(40.0, mwb=40_000, mode=2), wide(100.0)

    # The aggregate: kept 100,000 - 40,000 = 60,000; MWO max(200,000, 200,000), ROC max(9,000, 9,000): triggers as `wide` says.
    # 108,000 is 8,000 over for unit 1, and 108,000 - 40,000 = 68,000 for the aggregate: SMALL.
    none, on = "0 1 0 0 0 0 0", "0 2 0 0 0 600000 0"
    return alike_solar(
        [
            (lines(108.0), (none, none, none, none)),
            (lines(108.0), ("1 4 1 0 8000 600000 0", on, on, "1 4 1 0 8000 600000 0")),
            (lines(108.0), ("2 4 2 0 8000 600000 0", on, on, "2 4 2 0 8000 600000 0")),
            (lines(108.0), ("4 4 0 0 8000 600000 5000", on, on, "3 4 3 0 8000 600000 0")),  # unit 1 was declared after 3
            (lines(108.0), ("1 4 1 0 8000 600000 0", on, on, "4 4 0 0 8000 600000 68000")),  # the aggregate's run 4: declared
            (lines(108.0), ("2 4 2 0 8000 600000 0", on, on, "1 4 1 0 8000 600000 0")),
            *[(lines(100.0), (on, on, on, on))] * 6,
        ],
        {
            1: [(declare(1, 0), "declare refused 22"), (look(0), "look refused 10")],
            3: [(declare(1, 5_000), "declare accepted"), (look(5), "look accepted 2 2 0 0")],
            4: [(reinstate(1), "reinstate accepted")],
            5: [(reinstate(5), "reinstate accepted"), (look(5), "look accepted 0 0 0 0")],
            7: [(look(6), "look refused 10"), (declare(4, 128_000_001), "declare refused 11")],
            12: [(look(1), "look accepted 0 0 0 0")],
        },
    )


def alike_solar_2():
    """Unit 1 cannot be read, unit 3 is off, and unit 4 is declared for being too low; other operator calls."""
    # Quality 3 is unreadable: BLANK for unit 1 and for its aggregate. Conformance mode 1 is OFF, ahead of nothing kept. Unit 4 is
    # 100,000 - 93,000 = 7,000 too low: SMALL.
    lines = wide(108.0, mode=2, quality=3), wide(33.0, mwb=40_000, mode=1), wide(93.0)
    none, off = "0 1 0 0 0 0 0", "0 0 0 0 0 0 0"
    texts = [
        none,
        "1 4 1 0 -7000 600000 0",
        "2 4 2 0 -7000 600000 0",
        "3 4 3 0 -7000 600000 0",
        *["4 4 0 0 -7000 600000 93000"] * 5,  # run 4 at interval 5: declared; reinstated after 9
        "1 4 1 0 -7000 600000 0",
        "2 4 2 0 -7000 600000 0",
        "3 4 3 0 -7000 600000 0",
    ]
    return alike_solar(
        [(lines, (none, off, text, none)) for text in texts],
        {
            2: [(reinstate(4), "reinstate refused 23")],
            5: [(look(4), "look accepted 4 0 0 93000"), (declare(4, 0), "declare refused 22")],
            9: [(reinstate(4), "reinstate accepted"), (reinstate(5), "reinstate refused 23")],
            12: [(declare(4, -1), "declare refused 11"), (declare(4, 0), "declare accepted"), (look(4), "look accepted 4 0 0 0")],
        },
    )


def alike_levels(others, between):
    """Chain 1 -> 3 -> 5 (generating unit, load, bidirectional unit) with its aggregate, point 7, is the group. Outside of it:
    generating unit 2 in no chain, and chain 4 -> 6 (load, bidirectional unit) with its aggregate, point 8.

    others: for each interval the lines of units 2, 4 and 6, and what is printed of points 2, 4, 6 and 8; between: operator calls
    outside the group after the interval of that number. Gives the steps as `alike` does.
    """
    units = [(GENERATING, 3), (GENERATING, 0), (LOAD, 5), (LOAD, 6), (BIDIRECTIONAL, 0), (BIDIRECTIONAL, 0)]
    steps = [(True, load(register(LENGTHS, units, [1, 4])), "load accepted 5")]

    # -300 kW each. Units 1 and 3: -(100,000 - (-300)); unit 5: -300 - (-100,000). The aggregate: -300 + 300 - 300 = -300 against
    # 100,000 - 100,000 - 100,000, with the triggers of `levels_in_chains`. All are LARGE.
    one = three = plain(-0.3, mode=2)
    five = plain(-0.3, mwb=-100_000, mode=2)

    def at(number, *ours):
        (two, four, six), theirs = others[number - 1]
        steps.append((True, given(interval(number, AUTOMATIC, one, two, three, four, five, six), 128), "interval accepted"))
        texts = [text for pair in zip(ours, theirs, strict=True) for text in pair]
        steps.extend((point % 2 == 1, b"", f"{number} {point} {text}") for point, text in enumerate(texts, 1))
        steps.extend((False, *step) for step in between.get(number, []))

    def named(sent, text):
        steps.append((True, sent, text))

    low, high = "-100300 600000", "99700 600000"
    at(1, *["0 1 0 0 0 0 0"] * 4)  # nothing kept
    named(declare(1, -300), "declare refused 11")
    named(declare(5, -300), "declare refused 22")
    at(2, f"1 5 1 1 {low} 0", f"1 5 1 1 {low} 0", f"1 5 1 1 {high} 0", f"1 5 1 1 {high} 0")
    at(3, f"2 5 2 2 {low} 0", f"2 5 2 2 {low} 0", f"2 5 2 2 {high} 0", f"2 5 2 2 {high} 0")
    named(declare(1, -300), "declare refused 11")
    named(declare(3, -1), "declare refused 11")
    named(declare(5, -2), "declare accepted")
    named(look(1), "look accepted 2 2 2 0")
    named(look(5), "look accepted 4 0 0 -2")
    named(look(7), "look accepted 2 2 2 0")
    at(4, f"3 5 3 3 {low} 0", f"3 5 3 3 {low} 0", f"4 5 0 0 {high} -2", f"3 5 3 3 {high} 0")
    # Run 4: declared, the members at 0 and the aggregate at -300.
    at(5, f"4 5 0 0 {low} 0", f"4 5 0 0 {low} 0", f"4 5 0 0 {high} -2", f"4 5 0 0 {high} -300")
    named(look(1), "look accepted 4 0 0 0")
    named(look(7), "look accepted 4 0 0 -300")
    named(reinstate(1), "reinstate accepted")
    named(reinstate(7), "reinstate accepted")
    at(6, f"1 5 1 1 {low} 0", f"4 5 0 0 {low} 0", f"4 5 0 0 {high} -2", f"1 5 1 1 {high} 0")
    at(7, f"2 5 2 2 {low} 0", f"4 5 0 0 {low} 0", f"4 5 0 0 {high} -2", f"2 5 2 2 {high} 0")
    named(declare(7, -1), "declare accepted")
    named(declare(1, -1), "declare refused 11")
    named(declare(1, 0), "declare accepted")
    named(look(7), "look accepted 4 0 0 -1")
    at(8, f"4 5 0 0 {low} 0", f"4 5 0 0 {low} 0", f"4 5 0 0 {high} -2", f"4 5 0 0 {high} -1")
    return steps


def alike_levels_1():
    """The others trip too, and are declared at 0 and below, by their marks and by the operator."""
    # Unit 2: -(100,000 - (-300)). Load 4: -(40,000 - (-250)). Unit 6: -750 - (-60,000). Their aggregate: 250 - 750 = -500 against
    # -40,000 - 60,000, with MWO 100,000 and ROC 3,000 on either side: `plain`'s triggers. All are LARGE.
    lines = plain(-0.3), plain(-0.25, mwb=40_000, mode=2), plain(-0.75, mwb=-60_000, mode=2)
    two, four, six, eight = "-100300 600000", "-40250 600000", "59250 600000", "99500 600000"
    printed = [
        ["0 1 0 0 0 0 0"] * 4,
        [f"1 5 1 1 {two} 0", f"1 5 1 1 {four} 0", f"1 5 1 1 {six} 0", f"1 5 1 1 {eight} 0"],
        [f"2 5 2 2 {two} 0", f"2 5 2 2 {four} 0", f"2 5 2 2 {six} 0", f"2 5 2 2 {eight} 0"],
        [f"3 5 3 3 {two} 0", f"4 5 0 0 {four} 0", f"3 5 3 3 {six} 0", f"4 5 0 0 {eight} -128000000"],  # 4 and 8 declared after 3
        [f"4 5 0 0 {two} 0", f"4 5 0 0 {four} 0", f"4 5 0 0 {six} -750", f"4 5 0 0 {eight} -128000000"],  # run 4
        [f"4 5 0 0 {two} 0", f"4 5 0 0 {four} 0", f"4 5 0 0 {six} -750", f"4 5 0 0 {eight} -128000000"],
        [f"1 5 1 1 {two} 0", f"4 5 0 0 {four} 0", f"4 5 0 0 {six} -750", f"1 5 1 1 {eight} 0"],  # 2 and 8 reinstated after 6
        [f"2 5 2 2 {two} 0", f"4 5 0 0 {four} 0", f"4 5 0 0 {six} -750", f"2 5 2 2 {eight} 0"],
    ]
    return alike_levels(
        [(lines, texts) for texts in printed],
        {
            2: [(declare(2, -300), "declare refused 11"), (declare(8, -500), "declare refused 22")],
            3: [
                (declare(2, -300), "declare refused 11"),
                (declare(4, -1), "declare refused 11"),
                (declare(4, 0), "declare accepted"),
                (declare(8, -128_000_000), "declare accepted"),
                (look(8), "look accepted 4 0 0 -128000000"),
            ],
            5: [(look(2), "look accepted 4 0 0 0"), (declare(2, -1), "declare refused 11"), (look(6), "look accepted 4 0 0 -750")],
            6: [(reinstate(2), "reinstate accepted"), (reinstate(8), "reinstate accepted")],
            8: [(declare(2, 0), "declare accepted"), (declare(8, -1), "declare accepted"), (look(8), "look accepted 4 0 0 -1")],
        },
    )


def alike_levels_2():
    """Unit 2 is substituted and far below 0, unit 4 cannot be read, unit 6 is on target; other operator calls."""
    # Unit 2: -(100,000 - (-2,000,000)), DOUBT. Quality 3 is unreadable: BLANK for unit 4 and for its aggregate.
    lines = plain(-2000.0, quality=SUBSTITUTED), plain(-0.3, mode=2, quality=3), plain(30.0, mwb=30_000, mode=2)
    none, later = "0 1 0 0 0 0 0", ("0 3 0 0 -2100000 600000 0", "0 1 0 0 0 0 0", "0 2 0 0 0 600000 0", "0 1 0 0 0 0 0")
    return alike_levels(
        [(lines, (none, none, none, none)), *[(lines, later)] * 7],
        {
            1: [(declare(2, -1), "declare refused 11"), (declare(2, 0), "declare refused 22")],
            3: [
                (declare(6, -1), "declare refused 22"),
                (declare(8, -1), "declare refused 22"),
                (declare(0, -1), "declare refused 10"),
            ],
            4: [(declare(8, -128_000_001), "declare refused 11"), (declare(9, -1), "declare refused 10")],
            6: [(look(2), "look accepted 0 0 0 0"), (look(8), "look accepted 0 0 0 0")],
        },
    )


def alike_reasons(others, between):
    """Chain 1 -> 3 (generating unit, load) with its aggregate, point 5, is the group. Outside of it: generating unit 2 and
    semi-scheduled unit 4, in no chain. Small run 2, 3, 5; large run 2, 3, 4.

    others: for the interval of each number the lines of units 2 and 4, and what is printed of them; between: operator calls outside
    the group after the interval of that number. Gives the steps as `alike` does.
    """
    registered = register((2, 3, 5, 2, 3, 4), [(GENERATING, 3), (GENERATING, 0), (LOAD, 0), (SEMI_SCHEDULED, 0)], [1])
    steps = [(True, load(registered), "load accepted 2")]

    # Targets, errors and triggers of the group are those of `reason_of_aggregate`.
    def buffer_of(number, mode, one, three, lines):
        two, four = lines
        return interval(number, mode, wide(one, mode=2), two, wide(three, mwb=40_000, mode=2), four)

    def at(number, mode, one, three, *ours):
        lines, theirs = others[number]
        texts = ours[0], theirs[0], ours[1], theirs[1], ours[2]
        steps.append((True, given(buffer_of(number, mode, one, three, lines), 80), "interval accepted"))
        steps.extend((point % 2 == 1, b"", f"{number} {point} {text}") for point, text in enumerate(texts, 1))
        steps.extend((False, *step) for step in between.get(number, []))

    def named(sent, text):
        steps.append((True, sent, text))

    def told(*answers):
        """The reasons of points 1, 3 and 5."""
        for point, answer in zip((1, 3, 5), answers, strict=True):
            named(reason(point), f"reason {answer}")

    at(1, MANUAL, 100.0, 40.0, "0 1 0 0 0 0 0", "0 1 0 0 0 0 0", "0 1 0 0 0 0 0")  # nothing kept
    told("refused 36", "refused 36", "refused 36")
    at(2, MANUAL, 107.0, 40.0, "1 4 1 0 7000 600000 0", "0 2 0 0 0 600000 0", "1 4 1 0 7000 600000 0")
    at(3, MANUAL, 107.0, 33.0, "2 4 2 0 7000 600000 0", "1 4 1 0 -7000 600000 0", "2 5 2 1 14000 600000 0")
    told("refused 36", "refused 36", "refused 36")
    at(4, MANUAL, 111.0, 33.0, "2 5 3 1 11000 600000 0", "2 4 2 0 -7000 600000 0", "2 5 3 2 18000 600000 0")
    named(declare(3, 33_000), "declare accepted")
    told("refused 36", "accepted operator 0 0", "refused 36")
    at(5, MANUAL, 111.0, 33.0, "2 5 4 2 11000 600000 0", "4 4 0 0 -7000 600000 33000", "2 5 4 3 18000 600000 0")
    # Point 1: runs 5 and 3. Point 5: 5 and 4, both, at 111,000 - 33,000.
    at(6, AUTOMATIC, 111.0, 33.0, "4 5 0 0 11000 600000 111000", "4 4 0 0 -7000 600000 33000", "4 5 0 0 18000 600000 78000")
    told("accepted small 2 6", "accepted operator 0 0", "accepted large 3 6")
    # Refused in both lists: the number of the last accepted, then a report one record short.
    for number, report, refusal in ((6, 80, 21), (7, 64, 8)):
        buffer = buffer_of(number, AUTOMATIC, 100.0, 40.0, others[6][0])
        steps.append((True, given(buffer, report), f"interval refused {refusal}"))
    told("accepted small 2 6", "accepted operator 0 0", "accepted large 3 6")
    named(reinstate(1), "reinstate accepted")
    named(reinstate(3), "reinstate accepted")
    told("refused 36", "refused 36", "accepted large 3 6")
    # A jump: BLANK.
    at(10, AUTOMATIC, 111.0, 29.0, "0 1 0 0 0 0 0", "0 1 0 0 0 0 0", "4 1 0 0 0 0 78000")
    # 11,000, -11,000 and 22,000: LARGE.
    at(11, AUTOMATIC, 111.0, 29.0, "1 5 1 1 11000 600000 0", "1 5 1 1 -11000 600000 0", "4 5 0 0 22000 600000 78000")
    named(reinstate(5), "reinstate accepted")
    told("refused 36", "refused 36", "refused 36")
    at(12, AUTOMATIC, 111.0, 29.0, "2 5 2 2 11000 600000 0", "2 5 2 2 -11000 600000 0", "1 5 1 1 22000 600000 0")
    at(13, AUTOMATIC, 111.0, 29.0, "3 5 3 3 11000 600000 0", "3 5 3 3 -11000 600000 0", "2 5 2 2 22000 600000 0")
    # Points 1 and 3: runs 4 and 4.
    at(14, AUTOMATIC, 111.0, 29.0, "4 5 0 0 11000 600000 111000", "4 5 0 0 -11000 600000 29000", "3 5 3 3 22000 600000 0")
    told("accepted large 11 14", "accepted large 11 14", "refused 36")
    # Point 5: the same, at 111,000 - 29,000.
    at(15, AUTOMATIC, 111.0, 29.0, "4 5 0 0 11000 600000 111000", "4 5 0 0 -11000 600000 29000", "4 5 0 0 22000 600000 82000")
    told("accepted large 11 14", "accepted large 11 14", "accepted large 12 15")
    return steps


def alike_reasons_1():
    """Units 2 and 4 are declared by runs and by the operator, reinstated and declared again; their reasons are asked."""
    # Unit 2 is LARGE. Unit 4 is SMALL with a kept flag of 1.
    far, over = FAR, wide(107.0, cap=1)

    def large(status, run):
        return f"{status} 5 {run} {run} 11000 600000 0"

    def small(status, run):
        return f"{status} 4 {run} 0 7000 600000 0"

    printed = {
        1: ("0 1 0 0 0 0 0", "0 1 0 0 0 0 0"),
        2: (large(1, 1), small(1, 1)),
        3: (large(2, 2), small(2, 2)),
        4: (large(2, 3), "4 4 0 0 7000 600000 9"),  # unit 4 was declared after 3
        5: (large(2, 4), "4 4 0 0 7000 600000 9"),
        6: ("4 5 0 0 11000 600000 111000", "4 4 0 0 7000 600000 9"),  # unit 2: runs 5 and 5 in automatic mode
        10: ("4 1 0 0 0 0 111000", "0 1 0 0 0 0 0"),  # unit 4 was reinstated after 6
        11: ("4 5 0 0 11000 600000 111000", small(1, 1)),
        12: (large(1, 1), small(2, 2)),  # unit 2 was reinstated after 11
        13: (large(2, 2), small(3, 3)),
        14: (large(3, 3), small(3, 4)),
        15: ("4 5 0 0 11000 600000 111000", "4 4 0 0 7000 600000 107000"),  # runs 4 and 4; runs 5 and 0
    }
    return alike_reasons(
        {number: ((far, over), texts) for number, texts in printed.items()},
        {
            1: [refused("reason", 36, reason(2), reason(4)), refused("reason", 10, reason(0), reason(6))],
            3: [
                refused("reason", 36, reason(2), reason(4)),
                (declare(4, 9), "declare accepted"),
                (reason(4), "reason accepted operator 0 0"),
            ],
            5: [refused("reason", 36, reason(2)), (reason(4), "reason accepted operator 0 0")],
            6: [
                (reason(2), "reason accepted large 2 6"),
                (reason(4), "reason accepted operator 0 0"),
                (reinstate(4), "reinstate accepted"),
                refused("reason", 36, reason(4)),
            ],
            10: [(reason(2), "reason accepted large 2 6"), (reason(2), "reason accepted large 2 6")],
            11: [
                (reason(2), "reason accepted large 2 6"),
                (reinstate(2), "reinstate accepted"),
                refused("reason", 36, reason(2), reason(4)),
            ],
            15: [(reason(2), "reason accepted large 12 15"), (reason(4), "reason accepted small 11 15")],
        },
    )


def alike_reasons_2():
    """Unit 2 cannot be read and unit 4 is off; their reasons are asked at other places, and those of no point."""
    # BLANK always. OFF by the kept flag of 0, but BLANK where nothing is kept: at the first interval and after the jump.
    lines = UNREADABLE, wide(111.0, cap=0)
    none, off = "0 1 0 0 0 0 0", "0 0 0 0 0 0 0"
    return alike_reasons(
        {number: (lines, (none, none if number in (1, 10) else off)) for number in (1, 2, 3, 4, 5, 6, 10, 11, 12, 13, 14, 15)},
        {
            2: [refused("reason", 36, reason(4), reason(2), reason(4))],
            3: [refused("reason", 36, reason(4)), refused("declare", 22, declare(4, 9))],
            4: [refused("reason", 10, reason(2**32 - 1), reason(257))],
            6: [refused("reason", 36, reason(2)), refused("reinstate", 23, reinstate(4))],
            12: [refused("reason", 10, reason(0)), (look(2), "look accepted 0 0 0 0")],
            14: [refused("reason", 36, reason(2), reason(4)), refused("reason", 10, reason(6))],
        },
    )


def alike_targets(others, between):
    """Chain 1 -> 3 (generating unit, load) with its aggregate, point 6, is the group. Outside of it: generating unit 2 in no chain,
    and chain 5 -> 4 (bidirectional unit, load) with its aggregate, point 7.

    others: for the interval of each number the lines of units 2, 4 and 5, and what is printed of points 2, 4, 5 and 7; between:
    operator calls outside the group after the interval of that number. Gives the steps as `alike` does.
    """
    units = [(GENERATING, 3), (GENERATING, 0), (LOAD, 0), (LOAD, 0), (BIDIRECTIONAL, 4)]
    steps = [(True, load(register(LENGTHS, units, [1, 5])), "load accepted 4")]
    none, on = "0 1 0 0 0 0 0", "0 2 0 0 0 600000 0"

    # Triggers as `wide` says, for the aggregate too: MWO max(200,000, 200,000), ROC max(9,000, 9,000).
    def buffer_of(number, one, three, lines):
        """MW, MWB, FCR and FCL of units 1 and 3, and then a quality if it is not good."""
        sent = [wide(mw, mwb=mwb, fcr=fcr, fcl=fcl, mode=2, quality=quality[0] if quality else 0)
                for mw, mwb, fcr, fcl, *quality in (one, three)]
        return interval(number, AUTOMATIC, sent[0], lines[0], sent[1], *lines[1:])

    def at(number, one, three, *ours):
        lines, theirs = others[number]
        texts = ours[0], theirs[0], ours[1], theirs[1], theirs[2], ours[2], theirs[3]
        steps.append((True, given(buffer_of(number, one, three, lines), 112), "interval accepted"))
        steps.extend((point in (1, 3, 6), b"", f"{number} {point} {text}") for point, text in enumerate(texts, 1))
        steps.extend((False, *step) for step in between.get(number, []))

    def named(sent, text):
        steps.append((True, sent, text))

    def told(answer):
        """The target of point 6; its members' points are refused."""
        named(target(6), f"target accepted {answer}")
        named(target(1), "target refused 10")
        named(target(3), "target refused 10")
        named(target(6), f"target accepted {answer}")

    told("0 0 0 0")
    at(1, (100.0, 100_000, 1_000, 2_000), (40.0, 40_000, 500, 0), none, none, none)  # nothing kept
    told("60000 1500 2000 1")
    at(2, (100.0, 110_000, 1, 2), (40.0, 30_000, 3, 4), on, on, on)
    told("80000 4 6 1")
    # 121,000 - 110,001, and 121,000 - 30,000 - 80,004: LARGE.
    at(3, (121.0, 100_000, 1_000, 2_000), (30.0, 40_000, 500, 0), "1 5 1 1 10999 600000 0", on, "1 5 1 1 10996 600000 0")
    told("60000 1500 2000 1")
    # Refused in both lists: the number of the last accepted, then a report one record short.
    for number, report, refusal in ((3, 112, 21), (4, 96, 8)):
        buffer = buffer_of(number, (0.0, 1, 2, 3), (0.0, 4, 5, 6), others[number][0])
        steps.append((True, given(buffer, report), f"interval refused {refusal}"))
        told("60000 1500 2000 1")
    # Unit 1 cannot be read, the first in the chain. Then unit 3, while nothing is kept for 1. Then neither.
    at(4, (100.0, 90_000, 1, 2, 3), (40.0, 41_000, 5, 6), "1 1 1 1 0 0 0", on, "1 1 1 1 0 0 0")
    told("-41000 5 6 0")
    at(5, (90.0, 90_000, 7, 8), (41.0, 40_000, 9, 9, 3), "1 1 1 1 0 0 0", none, "1 1 1 1 0 0 0")
    told("90000 7 8 0")
    at(6, (90.0, 90_000, 7, 8, 3), (41.0, 40_000, 9, 9, 3), "1 1 1 1 0 0 0", none, "1 1 1 1 0 0 0")
    told("0 0 0 0")
    # A jump: nothing kept for the marks, and the sums are those of its lines.
    at(9, (100.0, 50_000, 5, 6), (40.0, 60_000, 7, 8), "1 1 1 1 0 0 0", none, "1 1 1 1 0 0 0")
    told("-10000 12 14 1")
    # 70,000 - 50,005, and 70,000 - 60,000 - (-10,000 + 12): LARGE.
    at(10, (70.0, 52_000, 5, 6), (60.0, 61_000, 7, 9), "2 5 2 2 19995 600000 0", on, "2 5 2 2 19988 600000 0")
    told("-9000 12 15 1")
    named(declare(6, -7), "declare accepted")
    told("-9000 12 15 1")
    named(look(6), "look accepted 4 0 0 -7")
    named(reason(6), "reason accepted operator 0 0")
    named(reinstate(6), "reinstate accepted")
    told("-9000 12 15 1")
    at(11, (52.0, 33_000, 0, 0), (61.0, 33_000, 0, 0), on, on, on)
    told("0 0 0 1")
    return steps


def alike_targets_1():
    """Unit 2 is declared and reinstated. The other chain can be read, and its target changes and is asked."""
    # Unit 2 is 11,000 over: LARGE. Units 4 and 5 stay at their kept targets, and point 7 with them.
    none, on = "0 1 0 0 0 0 0", "0 2 0 0 0 600000 0"

    def lines(four=20.0, target_of_four=20_000):
        return FAR, wide(four, mwb=target_of_four, fcr=3, fcl=4, mode=2), wide(-50.0, mwb=-50_000, fcr=1, fcl=2, mode=2)

    return alike_targets(
        {
            1: (lines(), (none, none, none, none)),
            2: (lines(), ("1 5 1 1 11000 600000 0", on, on, on)),
            3: (lines(), ("2 5 2 2 11000 600000 0", on, on, on)),
            4: (lines(20.0, 25_000), ("4 5 0 0 11000 600000 5", on, on, on)),  # unit 2 was declared after 3
            5: (lines(25.0, 20_000), ("4 5 0 0 11000 600000 5", on, on, on)),
            6: (lines(), ("1 5 1 1 11000 600000 0", on, on, on)),  # and reinstated after 5
            9: (lines(), ("1 1 1 1 0 0 0", none, none, none)),
            10: (lines(), ("2 5 2 2 11000 600000 0", on, on, on)),
            11: (lines(), ("3 5 3 3 11000 600000 0", on, on, on)),
        },
        {
            # -50,000 - 20,000; 1 + 3; 2 + 4.
            1: [*targets(7, "-70000 4 6 1") * 2, refused("target", 10, target(0), target(2), target(4), target(5), target(8))],
            3: [(declare(2, 5), "declare accepted"), *targets(7, "-70000 4 6 1"), (look(7), "look accepted 0 0 0 0")],
            4: targets(7, "-75000 4 6 1"),
            5: [*targets(7, "-70000 4 6 1"), (reinstate(2), "reinstate accepted"), *targets(7, "-70000 4 6 1")],
            9: targets(7, "-70000 4 6 1"),
            10: [refused("declare", 22, declare(7, 0)), refused("reinstate", 23, reinstate(7)), *targets(7, "-70000 4 6 1")],
            11: [*targets(7, "-70000 4 6 1"), refused("target", 10, target(2))],
        },
    )


def alike_targets_2():
    """Unit 2 cannot be read, nor can unit 5 from the second interval to the last but one; other calls for other targets."""
    # Unit 2 has conformance mode 1 in no chain: BLANK. Units 4 and 5 have mode 0: OFF, and point 7 with them, but BLANK where unit
    # 5 cannot be read.
    none, off = "0 1 0 0 0 0 0", "0 0 0 0 0 0 0"

    def lines(quality):
        return wide(100.0, mode=1), wide(5.0, mwb=5_000, fcr=9), wide(0.0, mwb=9_000, fcl=30, quality=quality)

    whole, part = (lines(0), (none, off, off, off)), (lines(3), (none, off, none, none))
    return alike_targets(
        {1: whole, 2: part, 3: part, 4: part, 5: part, 6: part, 9: part, 10: part, 11: whole},
        {
            # Unit 4, a load, alone.
            2: targets(7, "-5000 9 0 0") * 3,
            3: [refused("target", 10, target(2), target(262), target(2**32 - 1)), refused("declare", 22, declare(7, 0))],
            6: [refused("reason", 36, reason(7)), *targets(7, "-5000 9 0 0"), (look(2), "look accepted 0 0 0 0")],
            10: [refused("target", 10, target(5)), refused("reinstate", 10, reinstate(8))],
            # 9,000 - 5,000; 0 + 9; 30 + 0.
            11: [*targets(7, "4000 9 30 1"), refused("target", 10, target(4), target(0))],
        },
    )


def alike_regions(bits, others, above, between):
    """Chain 1 -> 3 (generating unit, load) with its aggregate, point 7, in region 2, is the group. Outside of it: generating unit 2
    in no chain, in region 0; chain 5 -> 4 (bidirectional unit, load) with its aggregate, point 8, in region 4; semi-scheduled unit
    6 in no chain, in region 2 as the group is. Small run 2, 3, 5; large run 2, 3, 4.

    bits: for the interval of each number the regions other than 2 that are automatic; others: the lines of units 2, 4, 5 and 6,
    and what is printed of points 2, 4, 5, 6 and 8; above: two masks above 31, without bit 2 and with it; between: operator calls
    outside the group after the interval of that number. Gives the steps as `alike` does.
    """
    units = [(GENERATING, 3, 2), (GENERATING, 0, 0), (LOAD, 0, 2), (LOAD, 0, 4), (BIDIRECTIONAL, 4, 4), (SEMI_SCHEDULED, 0, 2)]
    steps = [(True, load(register((2, 3, 5, 2, 3, 4), units, [1, 5])), "load accepted 4")]

    # Targets and triggers of the group are those of `reason_of_aggregate`.
    def buffer_of(number, mode, one, three, lines, **changes):
        two, *four_to_six = lines
        return interval(number, mode, wide(one, **({"mode": 2} | changes)), two, wide(three, mwb=40_000, mode=2), *four_to_six)

    def at(number, own, one, three, *ours, **changes):
        """own: region 2, or no region."""
        lines, (two, four, five, six, eight) = others[number]
        texts = ours[0], two, ours[1], four, five, six, ours[2], eight
        buffer = buffer_of(number, regions(*own, *bits[number]), one, three, lines, **changes)
        steps.append((True, given(buffer, 128), "interval accepted"))
        steps.extend((point in (1, 3, 7), b"", f"{number} {point} {text}") for point, text in enumerate(texts, 1))
        steps.extend((False, *step) for step in between.get(number, []))

    def named(sent, text):
        steps.append((True, sent, text))

    def told(*answers):
        """The reasons of points 1, 3 and 7."""
        for point, answer in zip((1, 3, 7), answers, strict=True):
            named(reason(point), f"reason {answer}")

    def refused_in_both(number, last):
        """Lines that would be LARGE, and other regions' bits as in interval 7 or a mask above 31."""
        def sent(sent_number, mode):
            return buffer_of(sent_number, mode, 150.0, 10.0, others[7][0])

        allowed = regions(*bits[7]), regions(2, *bits[7])
        # The report one record short; a mask above 31, and a spare; the number of the last accepted.
        for refusal, report, buffers in (
            (8, 112, [sent(number, mode) for mode in (*allowed, *above)]),
            (9, 128, [sent(each, mode) for mode in above for each in (number, last, number + 5)]),
            (9, 128, [sent(number, mode)[:7] + b"\1" + sent(number, mode)[8:] for mode in allowed]),
            (21, 128, [sent(last, mode) for mode in allowed]),
        ):
            steps.extend((True, given(buffer, report), f"interval refused {refusal}") for buffer in buffers)

    manual, automatic = (), (2,)
    none, on = "0 1 0 0 0 0 0", "0 2 0 0 0 600000 0"
    at(1, manual, 100.0, 40.0, none, none, none)  # nothing kept
    at(2, manual, 107.0, 40.0, "1 4 1 0 7000 600000 0", on, "1 4 1 0 7000 600000 0")
    at(3, manual, 107.0, 33.0, "2 4 2 0 7000 600000 0", "1 4 1 0 -7000 600000 0", "2 5 2 1 14000 600000 0")
    # Small run 3: manual mode shows 2.
    at(4, manual, 111.0, 33.0, "2 5 3 1 11000 600000 0", "2 4 2 0 -7000 600000 0", "2 5 3 2 18000 600000 0")
    # Unit 1 is substituted: DOUBT for it and for the aggregate. Automatic mode shows 3.
    at(5, automatic, 111.0, 33.0, "3 3 3 1 11000 600000 0", "3 4 3 0 -7000 600000 0", "3 3 3 2 18000 600000 0",
       quality=SUBSTITUTED)
    at(6, manual, 111.0, 33.0, "2 5 4 2 11000 600000 0", "2 4 4 0 -7000 600000 0", "2 5 4 3 18000 600000 0")
    named(look(1), "look accepted 2 4 2 0")
    named(look(7), "look accepted 2 4 3 0")
    told("refused 36", "refused 36", "refused 36")
    refused_in_both(7, 6)
    named(look(3), "look accepted 2 4 0 0")
    told("refused 36", "refused 36", "refused 36")
    # Runs 5 and 3, 5 and 0, 5 and 4: declared, the aggregate at 111,000 - 33,000.
    at(7, automatic, 111.0, 33.0, "4 5 0 0 11000 600000 111000", "4 4 0 0 -7000 600000 33000", "4 5 0 0 18000 600000 78000")
    told("accepted small 2 7", "accepted small 3 7", "accepted large 3 7")
    at(8, manual, 100.0, 40.0, "4 2 0 0 0 600000 111000", "4 2 0 0 0 600000 33000", "4 2 0 0 0 600000 78000")
    told("accepted small 2 7", "accepted small 3 7", "accepted large 3 7")
    for point in (1, 3, 7):
        named(reinstate(point), "reinstate accepted")
    # 11,000, -11,000 and 22,000: LARGE.
    at(9, manual, 111.0, 29.0, "1 5 1 1 11000 600000 0", "1 5 1 1 -11000 600000 0", "1 5 1 1 22000 600000 0")
    at(10, automatic, 111.0, 29.0, "2 5 2 2 11000 600000 0", "2 5 2 2 -11000 600000 0", "2 5 2 2 22000 600000 0")
    named(declare(3, 29_000), "declare accepted")
    at(11, automatic, 111.0, 29.0, "3 5 3 3 11000 600000 0", "4 5 0 0 -11000 600000 29000", "3 5 3 3 22000 600000 0")
    # Large run 4 in manual mode.
    at(12, manual, 111.0, 29.0, "2 5 4 4 11000 600000 0", "4 5 0 0 -11000 600000 29000", "2 5 4 4 22000 600000 0")
    told("refused 36", "accepted operator 0 0", "refused 36")
    # Runs 5 and 5, the aggregate at 111,000 - 29,000.
    at(13, automatic, 111.0, 29.0, "4 5 0 0 11000 600000 111000", "4 5 0 0 -11000 600000 29000", "4 5 0 0 22000 600000 82000")
    told("accepted large 9 13", "accepted operator 0 0", "accepted large 9 13")
    named(target(7), "target accepted 60000 0 0 1")
    return steps


def alike_regions_1():
    """Units 2 and 5 are LARGE and unit 6 is SMALL; they and point 8 are declared by their own bits. Two are reinstated."""
    # Unit 5: -39,000 - (-50,000). Unit 4 stays at its target. Point 8: -39,000 - 30,000 against -50,000 - 30,000. Both are 11,000
    # over, with triggers as `wide` says: MWO max(200,000, 200,000), ROC max(9,000, 9,000). Unit 6 has a kept flag of 1.
    lines = FAR, wide(30.0, mwb=30_000, mode=2), wide(-39.0, mwb=-50_000, mode=2), wide(107.0, cap=1)
    none, on = "0 1 0 0 0 0 0", "0 2 0 0 0 600000 0"
    two, five, eight = "4 5 0 0 11000 600000 111000", "4 5 0 0 11000 600000 -39000", "4 5 0 0 11000 600000 -69000"
    six = "4 4 0 0 7000 600000 107000"

    def large(status, run):
        return f"{status} 5 {run} {run} 11000 600000 0"

    def small(status, run):
        return f"{status} 4 {run} 0 7000 600000 0"

    # By number: the other regions that are automatic; what is printed of points 2, 4, 5, 6 and 8.
    given_of = {
        1: ((), (none, none, none, none, none)),
        2: ((0,), (large(1, 1), on, large(1, 1), small(1, 1), large(1, 1))),
        3: ((0,), (large(2, 2), on, large(2, 2), small(2, 2), large(2, 2))),
        4: ((0,), (large(3, 3), on, large(2, 3), small(2, 3), large(2, 3))),  # region 0 alone is automatic
        5: ((0,), (two, on, large(2, 4), small(3, 4), large(2, 4))),  # regions 0 and 2
        6: ((4,), (two, on, five, small(2, 5), eight)),  # region 4 alone
        7: ((), (two, on, five, six, eight)),  # region 2 alone
        8: ((0, 1, 3, 4), (two, on, five, six, eight)),
        9: ((3,), (large(1, 1), on, five, six, large(1, 1))),  # 2 and 8 were reinstated after 8
        10: ((0, 1, 3, 4), (large(2, 2), on, five, six, large(2, 2))),
        11: ((), (large(2, 3), on, five, six, large(2, 3))),  # run 3 in manual mode
        12: ((0, 1, 3, 4), (two, on, five, six, eight)),  # run 4 in automatic mode
        13: ((1,), (two, on, five, six, eight)),
    }
    return alike_regions(
        {number: automatic for number, (automatic, _) in given_of.items()},
        {number: (lines, texts) for number, (_, texts) in given_of.items()},
        (32, 36),
        {
            3: [refused("declare", 22, declare(4, 0)), *[(look(point), "look accepted 2 2 2 0") for point in (2, 5, 8)]],
            5: [(reason(2), "reason accepted large 2 5"), refused("reason", 36, reason(5), reason(6), reason(8))],
            6: [
                (reason(5), "reason accepted large 2 6"),
                (reason(8), "reason accepted large 2 6"),
                refused("reason", 36, reason(6)),
            ],
            7: [(reason(6), "reason accepted small 2 7"), (look(8), "look accepted 4 0 0 -69000")],
            8: [(reinstate(2), "reinstate accepted"), (reinstate(8), "reinstate accepted"), refused("reason", 36, reason(2))],
            12: [(reason(2), "reason accepted large 9 12"), (reason(8), "reason accepted large 9 12")],
            13: [refused("look", 10, look(9)), (reason(6), "reason accepted small 2 7")],
        },
    )


def alike_regions_2():
    """The other bits the other way round at most intervals. Unit 2 is too low, unit 5 cannot be read, units 4 and 6 are off."""
    # Unit 2: -(100,000 - 93,000), SMALL. Unit 4 has conformance mode 1: OFF. Quality 3 is unreadable: BLANK for unit 5 and for
    # point 8. A kept flag of 0: OFF for unit 6, but BLANK at the first interval.
    lines = wide(93.0), wide(30.0, mwb=30_000, mode=1), wide(-39.0, mwb=-50_000, mode=2, quality=3), wide(107.0, cap=0)
    none, off, two = "0 1 0 0 0 0 0", "0 0 0 0 0 0 0", "4 4 0 0 -7000 600000 93000"

    def small(status, run):
        return f"{status} 4 {run} 0 -7000 600000 0"

    # By number: the other regions that are automatic; what is printed of point 2.
    given_of = {
        1: ((0, 1, 3, 4), none),
        2: ((0, 1, 3, 4), small(1, 1)),
        3: ((), small(2, 2)),
        4: ((1, 3, 4), small(2, 3)),  # region 0 is manual
        5: ((3,), small(2, 4)),
        6: ((0, 1, 3, 4), two),  # region 0 is automatic: small run 5
        7: ((0, 1, 3, 4), two),
        8: ((), two),
        9: ((0, 1, 3, 4), small(1, 1)),  # reinstated after 8
        10: ((), small(2, 2)),
        11: ((0, 1, 3, 4), small(3, 3)),
        12: ((), small(2, 4)),
        13: ((0, 3, 4), two),
    }
    return alike_regions(
        {number: automatic for number, (automatic, _) in given_of.items()},
        {number: (lines, (text, off, none, none if number == 1 else off, none)) for number, (_, text) in given_of.items()},
        (251, 255),  # all bits but bit 2, and all bits
        {
            1: [refused("reinstate", 23, reinstate(2), reinstate(8)), (target(8), "target accepted -30000 0 0 0")],
            6: [(reason(2), "reason accepted small 2 6"), refused("reason", 36, reason(8))],
            8: [(reinstate(2), "reinstate accepted")],
            11: [(look(2), "look accepted 3 3 0 0"), refused("declare", 11, declare(2, -1)), refused("declare", 22, declare(6, 0))],
            13: [(reason(2), "reason accepted small 9 13")],
        },
    )


# ---- script errors


def script_error(broken):
    """A load, at bytes 0 to 27, then a call that cannot be read, whose tag is at byte 28, then a look that is not answered."""
    before = load(ONE_UNIT)  # 8 + 20 bytes
    return [
        (before, "load accepted 0"),
        (broken + look(1), "script error at byte 28"),
    ]


def cut_short(broken):
    """The same, where the list ends within the call."""
    return [
        (load(ONE_UNIT), "load accepted 0"),
        (broken, "script error at byte 28"),
    ]


SCRIPT_ERRORS = {
    # The list ends within the tag, within the length, before the payload and within it.
    "script_short_tag": cut_short(look(1)[:3]),
    "script_short_length": cut_short(look(1)[:7]),
    "script_no_payload": cut_short(look(1)[:8]),
    "script_short_payload": cut_short(look(1)[:11]),
    "script_short_reason": cut_short(reason(1)[:11]),
    "script_short_target": cut_short(target(1)[:11]),
    "script_short_interval": cut_short(given(interval(1, AUTOMATIC, plain(100.0)), 16)[:-1]),
    # Tags that no call has; the last three have the low byte of a look, of a reason and of a target.
    "script_tag_0": script_error(call(0, bytes(4))),
    "script_tag_8": script_error(call(8, bytes(4))),
    "script_tag_261": script_error(call(261, bytes([1, 0, 0, 0]))),
    "script_tag_262": script_error(call(262, bytes([1, 0, 0, 0]))),
    "script_tag_263": script_error(call(263, bytes([1, 0, 0, 0]))),
    # Payloads of another size.
    "script_declare_4": script_error(call(3, bytes([1, 0, 0, 0]))),
    "script_declare_9": script_error(call(3, bytes(9))),
    "script_reinstate_3": script_error(call(4, bytes(3))),
    "script_reinstate_8": script_error(call(4, bytes(8))),
    "script_look_0": script_error(call(5, b"")),
    "script_look_5": script_error(call(5, bytes([1, 0, 0, 0, 0]))),
    "script_reason_0": script_error(call(6, b"")),
    "script_reason_3": script_error(call(6, bytes([1, 0, 0]))),
    "script_reason_5": script_error(call(6, bytes([1, 0, 0, 0, 0]))),
    "script_reason_8": script_error(call(6, bytes([1, 0, 0, 0, 0, 0, 0, 0]))),
    "script_target_0": script_error(call(7, b"")),
    "script_target_3": script_error(call(7, bytes([1, 0, 0]))),
    "script_target_5": script_error(call(7, bytes([1, 0, 0, 0, 0]))),
    "script_target_8": script_error(call(7, bytes([1, 0, 0, 0, 0, 0, 0, 0]))),
    # A payload over 8,192 bytes, all there; and a length that no file has.
    "script_load_8193": script_error(call(1, bytes(8_193))),
    "script_interval_8193": script_error(call(2, bytes(8_193))),
    "script_length_4294967295": script_error(struct.pack("<II", 1, 2**32 - 1)),
    # A report over 4,096 bytes, at an interval that would be refused for its size else.
    "script_report_4097": script_error(given(interval(1, AUTOMATIC, plain(100.0)), 4_097)),
    # A payload with no room for the report's length.
    "script_interval_3": script_error(call(2, bytes(3))),
    "script_interval_0": script_error(call(2, b"")),
    # The first call of the list.
    "script_first": [(b"\5", "script error at byte 0")],
    # Past many calls: 28 + 40 looks of 12 bytes.
    "script_late": [
        (load(ONE_UNIT), "load accepted 0"),
        *[(look(1), "look accepted 0 0 0 0")] * 40,
        (call(9, b""), "script error at byte 508"),
    ],
}

LISTS = [every_status, operator_declaration, refusals_without_register, refusals_with_register, backlog, load_again, jump,
         last_number, full_plant, limits, solar, solar_plant, levels, levels_in_chains, levels_of_one, operator_levels,
         levels_load_again, levels_plant, each_reason, every_status_asked, reason_both_runs, reason_manual_runs,
         reason_small_in_midst, reason_blank_and_doubt, reason_off_and_clear, reason_jump, reason_backlog, reason_past_255,
         reason_stays, reason_reinstated, reason_refused_calls, reason_refusals, reason_of_aggregate, reason_numbers, reason_plant,
         target_mixed, target_unreadable, target_between, target_jump, target_refusals, target_plant, target_declared, target_asked,
         target_asked_in_chains, side_by_side_orders, side_by_side_interleaved, side_by_side_ends, side_by_side_single,
         side_by_side_regrouped, regions_modes, regions_opposite, regions_flipped, regions_each, regions_of_aggregates,
         regions_reasons, regions_loads, regions_load_again, regions_plant, regions_every_status, regions_operator_declaration,
         regions_manual_runs, regions_levels_in_chains]
ALIKE = [(alike_1, alike_2), (alike_solar_1, alike_solar_2), (alike_levels_1, alike_levels_2), (alike_reasons_1, alike_reasons_2),
         (alike_targets_1, alike_targets_2), (alike_regions_1, alike_regions_2)]
# What `rt ci` runs the program on.
CRATE_LIST = "every_status"


# ---- the files


def files_of(steps):
    return {
        "calls.bin": b"".join(sent for sent, *_ in steps),
        "expected": "".join(f"{text}\n" for _, *texts in steps for text in texts).encode("ascii"),
    }


def group_of(steps):
    """The group's lines, and their numbers in the output."""
    texts = [(ours, text) for ours, _, *rest in steps for text in rest]
    return [text for ours, text in texts if ours], [number for number, (ours, _) in enumerate(texts, 1) if ours]


def made():
    folders = {make.__name__: files_of(make()) for make in LISTS}
    folders |= {name: files_of(steps) for name, steps in SCRIPT_ERRORS.items()}
    for make in sum(ALIKE, ()):
        steps = make()
        _, numbers = group_of(steps)
        folders[make.__name__] = files_of([step[1:] for step in steps]) | {
            "group": "".join(f"{number}\n" for number in numbers).encode("ascii")}
    # No list at all, and a list of no calls: nothing is printed.
    folders["missing"] = {"expected": b""}
    folders["empty"] = {"calls.bin": b"", "expected": b""}
    out = {ROOT / "tests" / "calls" / name / file: content for name, files in folders.items() for file, content in files.items()}
    out[ROOT / "crates" / "replay" / "data" / "calls.bin"] = folders[CRATE_LIST]["calls.bin"]
    out[ROOT / "crates" / "replay" / "stdout"] = folders[CRATE_LIST]["expected"]
    return out


def main(arguments):
    if arguments not in ([], ["--check"]):
        sys.exit(__doc__)
    for pair in ALIKE:
        first, second = (make() for make in pair)
        assert group_of(first)[0] == group_of(second)[0], "the group's lines differ between the two lists"
        assert files_of([s[1:] for s in first])["expected"] != files_of([s[1:] for s in second])["expected"]
    files = made()
    if not arguments:
        for path, content in files.items():
            path.parent.mkdir(parents=True, exist_ok=True)
            path.write_bytes(content)
        print(f"{len(LISTS) + len(SCRIPT_ERRORS) + 2 * len(ALIKE) + 2} lists of calls")
        return 0
    differing = [path for path, content in files.items() if not path.is_file() or path.read_bytes() != content]
    differing += [path for path in (ROOT / "tests" / "calls").glob("*/*") if path not in files]
    for path in differing:
        print(f"{path.relative_to(ROOT)} is not what tools/make_calls.py writes")
    return 1 if differing else 0


if __name__ == "__main__":
    sys.exit(main(sys.argv[1:]))
