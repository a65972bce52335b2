"""The cases of marks for crates/trials, and what it prints of each; `tools/make_trials.py` writes them.

Each case is a unit or an aggregate at one interval. Its answer (mark, error, small trigger, level) is stated
here by hand from 01, "Triggers and errors" and "Marks and runs", for kind 4 from 02, 2026-01, and for levels from
02, 2026-02, with the arithmetic beside it; only a level that is a sum of what was put in may be written as that sum.
The monitor's code is never run. Powers, levels and rates are in kW, triggers in hundredths of a kW.

The level is the one at which the point would be declared by this mark: for kinds 1, 2 and 4 the greater of MW and
0, for kind 3 MW, for an aggregate the sum of its members' MW as sent, loads subtracted. It is 0 for OFF and BLANK.

The cases stand in blocks of 65,536 bytes, at most BLOCKS of them. No case straddles two: where
the next case does not fit into a block, zeros fill that block, and the case begins the next one.
"""
import struct

from lines import READINGS, made, nearest_kw, packed

BLOCKS = 4
GENERATING, LOAD, BIDIRECTIONAL = KINDS = (1, 2, 3)
SEMI_SCHEDULED = 4  # stands in no chain
WORDS = {1: "generating unit", 2: "load", 3: "bidirectional unit", 4: "semi-scheduled unit"}

# On target, with both triggers at 600,000: 3 x 100,000, 5 x 100,000 are below that, so the floor holds.
PLAIN = {
    "quality": 0,
    "mode": 0,
    "byte 2": 0,
    "byte 3": 0,
    "target": 100000,
    "availability": 100000,
    "raise": 0,
    "lower": 0,
    "bid up": 3000,
    "bid down": 3000,
    "MW": 100000,
    "ramp up": 3000,
    "ramp down": 3000,
}
UNREADABLE = {"byte 2": 1}  # of kinds 1 to 3; byte 2 of kind 4 is its cap flag
FREE, CAPPED = {"byte 2": 0}, {"byte 2": 1}
BAD, SUBSTITUTED = {"quality": 2}, {"quality": 1}
UNASSESSED = ("OFF", "BLANK")
NOTHING = None  # in a kept line's place

cases = []  # label, what the program reads, the answer


def rates(up, down):
    """SCADA and bid rates alike."""
    return {"ramp up": up, "bid up": up, "ramp down": down, "bid down": down}


# Triggers that differ: small min(3 x 500,000, 200 x 5,000) = 1,000,000, large min(5 x 500,000, 400 x 5,000) = 2,000,000.
APART = {"availability": 500000, **rates(5000, 5000)}


def bits_of(kw):
    """The float nearest to so many kW, in MW; or the bits themselves, given as a string of hexadecimal digits."""
    if isinstance(kw, str):
        return int(kw, 16)
    bits = struct.unpack("<I", struct.pack("<f", kw / 1000))[0]
    assert nearest_kw(bits) == kw, kw
    return bits


def line(changed):
    f = {**PLAIN, **changed}
    return packed({**f, **{name: bits_of(f[name]) for name in READINGS}})


def sight(kind, now, kept):
    have = kept is not NOTHING
    return bytes([kind, have]) + line(now) + (line(kept) if have else bytes(40))


def put(label, form, count, units, answer):
    if answer in UNASSESSED:
        answer += " 0 0 0"
    cases.append((label, bytes([form, count, len(units)]) + b"".join(units), answer))


def unit(label, answer, now, kept, kind=GENERATING, chained=False):
    put(label, 1 if chained else 0, 1, [sight(kind, now, kept)], answer)


def solar(label, answer, now, kept):
    unit(label, answer, now, kept, SEMI_SCHEDULED)


def member(kind, now, kept):
    """A member of an aggregate, with conformance mode 1 in both lines unless they say otherwise."""
    return sight(kind, {"mode": 1, **now}, kept if kept is NOTHING else {"mode": 1, **kept})


def aggregate(label, answer, *members, count=None):
    """Where there are more members than are given, these come round again."""
    put(label, 2, count or len(members), members, answer)


def table():
    """01's "Proved table" and the run under "The program"."""
    kept = {"target": 100000, "raise": 5000}
    # 111,000 - (100,000 + 5,000) = 6,000, and 600,000 is not above 600,000; one more is
    unit("table: at the trigger", "CLEAR 6000 600000 111000", {"MW": 111000}, kept)
    unit("table: past the trigger", "LARGE 6001 600000 111001", {"MW": 111001}, kept)
    # a load's down side is FCR: (100,000 - 5,000) - 89,000 = 6,000
    unit("table: a load at the trigger", "CLEAR -6000 600000 89000", {"MW": 89000}, kept, LOAD)
    unit("table: a load past the trigger", "LARGE -6001 600000 88999", {"MW": 88999}, kept, LOAD)
    # MWO 500,000, ROC 5,000: 1,000,000 and 2,000,000
    for mw, mark in ((110000, "CLEAR 10000"), (110001, "SMALL 10001"), (120000, "SMALL 20000"), (120001, "LARGE 20001")):
        unit(f"table: MWO 500,000, ROC 5,000, MW {mw}", f"{mark} 1000000 {mw}", {"MW": mw, **APART}, {})
    # MWO 400,000, ROC 10,000: 1,200,000 and 2,000,000
    by_availability = {"availability": 400000, **rates(10000, 10000)}
    for mw, mark in ((112000, "CLEAR 12000"), (112001, "SMALL 12001"), (120000, "SMALL 20000"), (120001, "LARGE 20001")):
        unit(f"table: MWO 400,000, ROC 10,000, MW {mw}", f"{mark} 1200000 {mw}", {"MW": mw, **by_availability}, {})
    unit("the run: interval 10", "BLANK", {}, NOTHING)
    unit("the run: interval 11", "LARGE 7000 600000 107000", {"MW": 107000}, {})
    unit("the run: interval 12", "LARGE -7000 600000 93000", {"MW": 93000}, {"MW": 107000})


def worked_examples():
    """The worked examples of 000, A.5.

    Left out, since a semi-scheduled unit stands in no chain for now, so that A.5's semi-scheduled members are generating units
    here and all members count: a Cap Aggregate below its target, and the Net Scheduled thresholds of a Mixed Aggregate. Left
    out, since 01 leaves them out: a bidirectional unit's second availability and composite rates (a line has one MWO, and its
    rates come composed); opting in to aggregated conformance by an individual non-conformance (an aggregate is assessed unless
    all modes are 0); the counters, which are no part of a mark, and their reset to one where the error changes side.
    """
    # Individual unit: availability 200 MW, ramp rate 2 MW/min, target above MW. Large: 5% is 10, 4 x 2 is 8; min 8; max(6, 8) = 8.
    # Small: 3% is 6, 2 x 2 is 4; min 4; max(6, 4) = 6. Rates down are far off, so that ramp up shows.
    now = {"availability": 200000, **rates(2000, 50000)}
    for kind in (GENERATING, LOAD):
        for mw, mark in ((94000, "CLEAR -6000"), (93999, "SMALL -6001"), (92000, "SMALL -8000"), (91999, "LARGE -8001")):
            unit(f"A.5 individual {WORDS[kind]}, MW {mw}", f"{mark} 600000 {mw}", {"MW": mw, **now}, {}, kind)

    # Cap Aggregate, as generating units and above the target: 5% of 100 + 200 is 15, 4 x (1 + 2) ramp down is 12; large 12 MW.
    # Small: 3% of 300 is 9, 2 x 3 is 6; 6 MW. MW of B is on its target of 100 MW.
    for mw, mark in ((56000, "CLEAR 6000"), (56001, "SMALL 6001"), (62000, "SMALL 12000"), (62001, "LARGE 12001")):
        aggregate(
            f"A.5 cap aggregate, MW of A {mw}",
            f"{mark} 600000 {100000 + mw}",
            member(GENERATING, {"target": 50000, "MW": mw, "availability": 100000, **rates(2000, 1000)}, {"target": 50000}),
            member(GENERATING, {"availability": 200000, **rates(3000, 2000)}, {}),
        )

    # Mixed Aggregate, target above MW: 5% of 100 + 200 is 15, 4 x (1 + 3) ramp up is 16; large 15 MW. Small: 9 and 8; 8 MW.
    # The bidirectional unit draws 20 MW as told: the sums are 50 - 20 = 30 and MW of A - 20.
    for mw, mark in ((42000, "CLEAR -8000"), (41999, "SMALL -8001"), (35000, "SMALL -15000"), (34999, "LARGE -15001")):
        aggregate(
            f"A.5 mixed aggregate, MW of A {mw}",
            f"{mark} 800000 {mw - 20000}",
            member(GENERATING, {"target": 50000, "MW": mw, "availability": 100000, **rates(1000, 2000)}, {"target": 50000}),
            member(BIDIRECTIONAL, {"target": -20000, "MW": -20000, "availability": 200000, **rates(3000, 2000)}, {"target": -20000}),
        )
    # Unit A of it alone, mode 2, target below MW: 5% is 5, 4 x 2 ramp down is 8; min 5. A.5 stops at 5 MW; the formulas of A.2 and
    # of 01 go on to max(6, 5) = 6. Small: max(6, min(3, 4)) = 6.
    for mw, mark in ((55000, "CLEAR 5000"), (55001, "CLEAR 5001"), (56000, "CLEAR 6000"), (56001, "LARGE 6001")):
        now = {"mode": 2, "target": 50000, "MW": mw, "availability": 100000, **rates(1000, 2000)}
        unit(f"A.5 unit A of the mixed aggregate, MW {mw}", f"{mark} 600000 {mw}", now, {"target": 50000}, chained=True)
        # and as what it is, a semi-scheduled unit with its cap flag set, in no chain
        solar(f"A.5 solar unit A, MW {mw}", f"{mark} 600000 {mw}", {**now, "mode": 0}, {"target": 50000, **CAPPED})

    # Target Aggregate, target above MW: 5% of 200 is 10, 4 x max(2 ramp up of A, 4 ramp down of B) is 16; large 10 MW.
    # Small: 3% of 200 is 6, 2 x 4 is 8; 6 MW. Kept 150 - 100 = 50, FCL 10 of A: 10 MW over the target, 20 MW under it.
    # This interval's targets are 200 - 100 = 100, above MW of A - 100.
    for mw, mark in (
        (156000, "CLEAR 6000"),
        (156001, "SMALL 6001"),
        (160000, "SMALL 10000"),
        (160001, "LARGE 10001"),
        (150000, "CLEAR 0"),
        (140000, "CLEAR 0"),  # 10 MW under, all of it FCL
        (134000, "CLEAR -6000"),
        (133999, "SMALL -6001"),
        (130000, "SMALL -10000"),  # 20 MW under
        (129999, "LARGE -10001"),
    ):
        aggregate(
            f"A.5 target aggregate, MW of A {mw}",
            f"{mark} 600000 {mw - 100000}",
            member(
                GENERATING,
                {"target": 200000, "MW": mw, "availability": 200000, **rates(2000, 3000)},
                {"target": 150000, "lower": 10000},
            ),
            member(LOAD, {"availability": 200000, **rates(2000, 4000)}, {}),
        )


# MW and what it gives, with 1,000,000 and 2,000,000 as triggers, kept MWB 300,000, FCR 3,000 and FCL 1,000.
# Up FCR and down FCL: nothing from 299,000 to 303,000; 313,000 - 303,000 = 10,000; 299,000 - 289,000 = 10,000.
RAISE_UP = (
    (303000, "CLEAR 0"),
    (303001, "CLEAR 1"),
    (313000, "CLEAR 10000"),
    (313001, "SMALL 10001"),
    (323000, "SMALL 20000"),
    (323001, "LARGE 20001"),
    (299000, "CLEAR 0"),
    (298999, "CLEAR -1"),
    (289000, "CLEAR -10000"),
    (288999, "SMALL -10001"),
    (279000, "SMALL -20000"),
    (278999, "LARGE -20001"),
)
# Up FCL and down FCR: nothing from 297,000 to 301,000.
LOWER_UP = (
    (301000, "CLEAR 0"),
    (301001, "CLEAR 1"),
    (311000, "CLEAR 10000"),
    (311001, "SMALL 10001"),
    (321000, "SMALL 20000"),
    (321001, "LARGE 20001"),
    (297000, "CLEAR 0"),
    (296999, "CLEAR -1"),
    (287000, "CLEAR -10000"),
    (286999, "SMALL -10001"),
    (277000, "SMALL -20000"),
    (276999, "LARGE -20001"),
)
# Kept MWB -300,000, up FCR and down FCL: nothing from -301,000 to -297,000.
BELOW_ZERO = (
    (-297000, "CLEAR 0"),
    (-296999, "CLEAR 1"),
    (-287000, "CLEAR 10000"),
    (-286999, "SMALL 10001"),
    (-277000, "SMALL 20000"),
    (-276999, "LARGE 20001"),
    (-301000, "CLEAR 0"),
    (-301001, "CLEAR -1"),
    (-311000, "CLEAR -10000"),
    (-311001, "SMALL -10001"),
    (-321000, "SMALL -20000"),
    (-321001, "LARGE -20001"),
)


def edges():
    """An error at each trigger and one past it, on both sides."""
    kept = {"target": 300000, "raise": 3000, "lower": 1000}
    for kind, rows in ((GENERATING, RAISE_UP), (BIDIRECTIONAL, RAISE_UP), (LOAD, LOWER_UP)):
        for mw, mark in rows:
            unit(f"{WORDS[kind]}, MW {mw}", f"{mark} 1000000 {mw}", {"MW": mw, **APART}, kept, kind)
    for mw, mark in BELOW_ZERO:
        now = {"target": -300000, "MW": mw, **APART}
        unit(f"bidirectional unit below zero, MW {mw}", f"{mark} 1000000 {mw}", now, {**kept, "target": -300000}, BIDIRECTIONAL)
    # (5,000 - 1,000) - (-12,000) = 16,000, and -12,000 - (-28,000 + 3,000) = 13,000
    below = {"target": 0, "MW": -12000, **APART}
    unit("bidirectional unit down through zero", "SMALL -16000 1000000 -12000", below, {**kept, "target": 5000}, BIDIRECTIONAL)
    unit("bidirectional unit up to zero", "SMALL 13000 1000000 -12000", below, {**kept, "target": -28000}, BIDIRECTIONAL)
    # a station's own use: (0 - 0) - (-6,001) = 6,001; the level is 0
    for kind in (GENERATING, LOAD):
        own_use = {"target": 0, "MW": -6001}
        unit(f"{WORDS[kind]} with MW below zero", "LARGE -6001 600000 0", own_use, {"target": 0}, kind)


# As RAISE_UP, but with a kept cap flag of 1, so that an error below the target is CLEAR.
CAPPED_UP = RAISE_UP[:6] + (
    (299000, "CLEAR 0"),
    (298999, "CLEAR -1"),
    (289000, "CLEAR -10000"),
    (288999, "CLEAR -10001"),
    (279000, "CLEAR -20000"),
    (278999, "CLEAR -20001"),
    (0, "CLEAR -299000"),  # -((300,000 - 1,000) - 0)
)
# The same, substituted.
CAPPED_DOUBT = (
    (303000, "CLEAR 0"),
    (313000, "CLEAR 10000"),
    (313001, "DOUBT 10001"),
    (323001, "DOUBT 20001"),
    (289000, "CLEAR -10000"),
    (288999, "CLEAR -10001"),
    (278999, "CLEAR -20001"),
)


def cap_flags():
    """A semi-scheduled unit. `cap` in a label is the kept flag, `now` this line's, where that is another one.

    The kept flag decides: with 0 it is OFF, with 1 an error above the target counts and one below is CLEAR. Before that comes
    all that makes it BLANK.
    """
    target = {"target": 300000, "raise": 3000, "lower": 1000}
    kept_1, kept_0 = {**target, **CAPPED}, {**target, **FREE}

    def now(mw, flag, **changes):
        return {"MW": mw, **APART, "byte 2": flag, **changes}

    # a kept flag of 1, with the triggers and edges of `edges`
    for mw, mark in CAPPED_UP:
        solar(f"cap 1: MW {mw}", f"{mark} 1000000 {mw}", now(mw, 1), kept_1)
    for mw, mark in CAPPED_DOUBT:
        solar(f"cap 1: MW {mw} substituted", f"{mark} 1000000 {mw}", now(mw, 1, **SUBSTITUTED), kept_1)
    for mw, mark in ((313001, "SMALL 10001"), (323001, "LARGE 20001"), (278999, "CLEAR -20001")):
        solar(f"cap 1, now 0: MW {mw}", f"{mark} 1000000 {mw}", now(mw, 0), kept_1)
    # a kept flag of 0: on target, and past the large trigger on both sides
    for mw in (300000, 323001, 278999):
        solar(f"cap 0: MW {mw}", "OFF", now(mw, 0), kept_0)
    for mw in (323001, 278999):
        solar(f"cap 0: MW {mw} substituted", "OFF", now(mw, 0, **SUBSTITUTED), kept_0)
    solar("cap 0, now 1: MW 323001", "OFF", now(323001, 1), kept_0)
    # bad quality, whatever the flags
    for mw in (323001, 278999):
        solar(f"cap 1: MW {mw} bad", "BLANK", now(mw, 1, **BAD), kept_1)
    solar("cap 0: bad", "BLANK", now(323001, 0, **BAD), kept_0)
    solar("cap 0, now 1: bad", "BLANK", now(323001, 1, **BAD), kept_0)
    # nothing kept, whatever this line's flag; a flag of 2 or 255 is unreadable, in this line or in the one before
    for flag in (0, 1):
        solar(f"nothing kept, now {flag}", "BLANK", now(323001, flag), NOTHING)
    for flag in (2, 255):
        solar(f"cap 0, now {flag}", "BLANK", now(323001, flag), kept_0)
        solar(f"cap 1, now {flag}", "BLANK", now(323001, flag), kept_1)
        solar(f"cap {flag}, now 1", "BLANK", now(323001, 1), {**target, "byte 2": flag})
    # what else is unreadable
    solar("cap 0: MW not a number", "BLANK", now("7FC00000", 0), kept_0)
    solar("cap 1: MW not a number", "BLANK", now("7FC00000", 1), kept_1)
    solar("cap 0: mode 1", "BLANK", now(323001, 0, mode=1), kept_0)
    solar("cap 0: byte 3 is 1", "BLANK", now(323001, 0, **{"byte 3": 1}), kept_0)
    solar("cap 0: target -1", "BLANK", now(323001, 0, target=-1), kept_0)
    solar("cap 1: byte 3 was 1", "BLANK", now(323001, 1), {**kept_1, "byte 3": 1})
    solar("cap 0: byte 3 was 1", "BLANK", now(323001, 0), {**kept_0, "byte 3": 1})
    solar("cap 1: target was -1", "BLANK", now(323001, 1), {**kept_1, "target": -1})
    # a line of whatever quality is kept, and its flag with it
    for quality in (BAD, SUBSTITUTED):
        was = f"quality was {quality['quality']}"
        solar(f"cap 0: {was}", "OFF", now(323001, 0), {**kept_0, **quality})
        solar(f"cap 1: {was}", "LARGE 20001 1000000 323001", now(323001, 1), {**kept_1, **quality})
    # (0 - 0) - (-6,001) = 6,001; (2,000,000 - 0) - (-2,000,000); 2,000,000 - (0 + 0), as a kept target is not below zero.
    # The level is 0 where MW is below zero.
    fast = {"availability": 2000000, **rates(2000000, 2000000)}
    solar("cap 1: own use", "CLEAR -6001 600000 0", {"MW": -6001}, {"target": 0, **CAPPED})
    solar("cap 1: the least error", "CLEAR -4000000 6000000 0", {"MW": -2000000, **fast}, {"target": 2000000, **CAPPED})
    solar("cap 1: the greatest error", "LARGE 2000000 6000000 2000000", {"MW": 2000000, **fast}, {"target": 0, **CAPPED})


def kept_or_present():
    """The error goes by the kept line, the triggers by this one."""
    # 107,000 - 100,000 = 7,000, although this line's target is met and its regulation would cover it
    unit("this target is not compared with", "LARGE 7000 600000 107000", {"MW": 107000, "target": 107000}, {})
    unit("the kept target is", "CLEAR 0 600000 107000", {"MW": 107000}, {"target": 107000})
    now = {"MW": 107000, "raise": 50000, "lower": 50000}
    unit("this regulation raise is not taken", "LARGE 7000 600000 107000", now, {})
    unit("this regulation lower is not taken", "LARGE -7000 600000 93000", {**now, "MW": 93000}, {})
    # kept MWO and rates would give 6,000,000
    generous = {"availability": 2000000, **rates(2000000, 2000000)}
    unit("the kept MWO and rates are not taken", "LARGE 7000 600000 107000", {"MW": 107000}, generous)
    unit("the kept MW is not taken", "CLEAR 0 600000 100000", {}, {"MW": 1000000})


def triggers():
    """Floor, shares and rates."""
    fast, large = rates(2000000, 2000000), {"availability": 2000000}
    # 3 x 200,000 = 600,000; 3 x 200,001 = 600,003; 3 x 200,034 = 600,102; 5 x as much is 1,000,005 and 1,000,170
    unit("3 x MWO at the floor", "CLEAR 6000 600000 106000", {"availability": 200000, "MW": 106000, **fast}, {})
    unit("3 x MWO over the floor", "SMALL 6001 600003 106001", {"availability": 200001, "MW": 106001, **fast}, {})
    hundredths = {"availability": 200034, **fast}
    unit("6,001 against 600,102", "CLEAR 6001 600102 106001", {"MW": 106001, **hundredths}, {})
    unit("6,002 against 600,102", "SMALL 6002 600102 106002", {"MW": 106002, **hundredths}, {})
    unit("10,001 against 1,000,170", "SMALL 10001 600102 110001", {"MW": 110001, **hundredths}, {})
    unit("10,002 against 1,000,170", "LARGE 10002 600102 110002", {"MW": 110002, **hundredths}, {})
    # 200 x 3,000 = 600,000; 200 x 3,001 = 600,200; 400 x 1,500 = 600,000; 400 x 1,501 = 600,400
    unit("200 x ROC at the floor", "SMALL 6001 600000 106001", {"MW": 106001, **large, **rates(3000, 3000)}, {})
    unit("200 x ROC over the floor", "CLEAR 6002 600200 106002", {"MW": 106002, **large, **rates(3001, 3001)}, {})
    unit("400 x ROC at the floor", "LARGE 6001 600000 106001", {"MW": 106001, **large, **rates(1500, 1500)}, {})
    unit("400 x ROC over the floor", "SMALL 6004 600000 106004", {"MW": 106004, **large, **rates(1501, 1501)}, {})
    unit("400 x ROC over the floor, past it", "LARGE 6005 600000 106005", {"MW": 106005, **large, **rates(1501, 1501)}, {})
    unit("MWO 0", "LARGE 6001 600000 106001", {"MW": 106001, "availability": 0, **fast}, {})
    unit("ROC 0", "LARGE 6001 600000 106001", {"MW": 106001, **large, **rates(0, 0)}, {})
    # 3 x 2,000,000 = 6,000,000 and 5 x 2,000,000 = 10,000,000
    for mw, mark in ((160000, "CLEAR 60000"), (160001, "SMALL 60001"), (200000, "SMALL 100000"), (200001, "LARGE 100001")):
        unit(f"the greatest triggers, MW {mw}", f"{mark} 6000000 {mw}", {"MW": mw, **large, **fast}, {})
    # -((2,000,000 - 0) - (-2,000,000)), at a level of 0, and 2,000,000 - (-2,000,000 + 0)
    unit("the least error", "LARGE -4000000 6000000 0", {"MW": -2000000, **large, **fast}, {"target": 2000000})
    lowest = {"target": -2000000}
    unit("the greatest error", "LARGE 4000000 6000000 2000000", {"MW": 2000000, **large, **fast}, lowest, BIDIRECTIONAL)


# SCADA and bid rates, all different; 3 x 2,000,000 = 6,000,000 is above 200 x each.
DOWN_SLOWER = {"availability": 2000000, "ramp up": 20000, "bid up": 10000, "ramp down": 6000, "bid down": 8000}
UP_SLOWER = {"availability": 2000000, "ramp up": 7000, "bid up": 9000, "ramp down": 12000, "bid down": 11000}


def rates_of_change():
    """This line's target against MW decides between the rates; a load's own is not turned round."""
    for kind in (*KINDS, SEMI_SCHEDULED):
        kept = CAPPED if kind == SEMI_SCHEDULED else {}
        for chained, head in ((False, {}), (True, {"mode": 2})):
            if chained and kind == SEMI_SCHEDULED:
                continue
            where = WORDS[kind] + (" in a chain" if chained else "")
            # up: min(20,000, 10,000) -> 200 x 10,000; down: min(6,000, 8,000) -> 200 x 6,000; equal: 6,000
            for words, target, trigger in (("above", 100001, 2000000), ("below", 99999, 1200000), ("equal", 100000, 1200000)):
                now = {"target": target, **DOWN_SLOWER, **head}
                unit(f"{where}, {words}, down slower", f"CLEAR 0 {trigger} 100000", now, kept, kind, chained)
            # up: min(7,000, 9,000) -> 200 x 7,000; down: min(12,000, 11,000) -> 200 x 11,000; equal: 7,000
            for words, target, trigger in (("above", 100001, 1400000), ("below", 99999, 2200000), ("equal", 100000, 1400000)):
                now = {"target": target, **UP_SLOWER, **head}
                unit(f"{where}, {words}, up slower", f"CLEAR 0 {trigger} 100000", now, kept, kind, chained)
    for words, target, trigger in (("above", -99999, 1400000), ("below", -100001, 2200000), ("equal", -100000, 1400000)):
        now = {"target": target, "MW": -100000, **UP_SLOWER}
        unit(f"below zero, {words}", f"CLEAR 0 {trigger} -100000", now, {"target": -100000}, BIDIRECTIONAL)
    # the kept target would say the opposite: -200,000 against large 400 x 6,000, and 100,000 against 400 x 10,000
    unit("this target decides, below", "LARGE -200000 1200000 100000", {"target": 99999, **DOWN_SLOWER}, {"target": 300000})
    unit("this target decides, above", "LARGE 100000 2000000 100000", {"target": 100001, **DOWN_SLOWER}, {"target": 0})
    kept = {"target": 300000, **CAPPED}
    solar("cap 1: this target decides, below", "CLEAR -200000 1200000 100000", {"target": 99999, **DOWN_SLOWER}, kept)
    others = {"ramp up": 5000, "bid up": 6000, "ramp down": 7000, "bid down": 8000}
    for name in others:  # 200 x 4,000
        now = {"availability": 2000000, **others, name: 4000}
        unit(f"equal, {name} is the least of four", "CLEAR 0 800000 100000", now, {})
    # 100.0003 MW is 100,000 kW: equal to the target in whole kW, 200 x 7,000
    unit("equal in whole kW", "CLEAR 0 1400000 100000", {"MW": "42C80027", **UP_SLOWER}, {})
    # 20.0625 MW per minute is 20,063 kW per minute: 200 x 20,063
    half = {"availability": 2000000, **rates(30000, 30000), "ramp up": "41A08000", "target": 100001}
    unit("a SCADA rate of 20.0625", "CLEAR 0 4012600 100000", half, {})


def unit_marks():
    """The order of the rules for a unit."""
    far, near = {"MW": 107000}, {"MW": 106000}
    large, clear = "LARGE 7000 600000 107000", "CLEAR 6000 600000 106000"
    # in no chain
    unit("no chain: unreadable", "BLANK", {**far, **UNREADABLE}, {})
    unit("no chain: unreadable and bad", "BLANK", {**far, **UNREADABLE, **BAD}, {})
    unit("no chain: MW not a number", "BLANK", {"MW": "7FC00000"}, {})
    unit("no chain: mode 0 is never OFF", large, far, {})
    unit("no chain: mode 1 is unreadable", "BLANK", {**far, "mode": 1}, {})
    unit("no chain: mode 2 is unreadable", "BLANK", {**far, "mode": 2}, {})
    unit("no chain: bad quality past the triggers", "BLANK", {**far, **BAD}, {})
    unit("no chain: bad quality on target", "BLANK", BAD, {})
    unit("no chain: nothing kept past the triggers", "BLANK", far, NOTHING)
    unit("no chain: nothing kept on target", "BLANK", {}, NOTHING)
    unit("no chain: nothing kept, substituted", "BLANK", {**far, **SUBSTITUTED}, NOTHING)
    unit("no chain: nothing kept, power and target 0", "BLANK", {"MW": 0, "target": 0}, NOTHING)
    unit("no chain: the line before is unreadable", "BLANK", far, UNREADABLE)
    unit("no chain: the line before has mode 1", "BLANK", far, {"mode": 1})
    unit("no chain: the line before is bad and kept", large, far, BAD)
    unit("no chain: the line before is bad, no numbers, kept", large, far, {**BAD, "MW": "7FC00000"})
    unit("no chain: the line before is substituted", large, far, SUBSTITUTED)
    unit("no chain: substituted on target", "CLEAR 0 600000 100000", SUBSTITUTED, {})
    unit("no chain: substituted at the trigger", clear, {**near, **SUBSTITUTED}, {})
    unit("no chain: substituted past both triggers", "DOUBT 7000 600000 107000", {**far, **SUBSTITUTED}, {})
    unit("no chain: substituted under target", "DOUBT -7000 600000 93000", {"MW": 93000, **SUBSTITUTED}, {})
    # 10,001 is past 1,000,000 and 20,001 past 2,000,000
    between, past = {"MW": 110001, **APART}, {"MW": 120001, **APART}
    unit("no chain: substituted at the small trigger", "CLEAR 10000 1000000 110000", {**between, "MW": 110000, **SUBSTITUTED}, {})
    unit("no chain: substituted past the small trigger", "DOUBT 10001 1000000 110001", {**between, **SUBSTITUTED}, {})
    unit("no chain: substituted past the large trigger", "DOUBT 20001 1000000 120001", {**past, **SUBSTITUTED}, {})
    # members
    for mode in (0, 1):
        head = {**far, "mode": mode}
        unit(f"member: mode {mode} past the triggers", "OFF", head, {}, chained=True)
        unit(f"member: mode {mode} on target", "OFF", {"mode": mode}, {}, chained=True)
        unit(f"member: mode {mode}, bad quality", "OFF", {**head, **BAD}, {}, chained=True)
        unit(f"member: mode {mode}, nothing kept", "OFF", head, NOTHING, chained=True)
        unit(f"member: mode {mode}, substituted", "OFF", {**head, **SUBSTITUTED}, {}, chained=True)
        unit(f"member: mode {mode}, unreadable", "BLANK", {**head, **UNREADABLE}, {}, chained=True)
    unit("member: mode 3 is unreadable", "BLANK", {**far, "mode": 3}, {}, chained=True)
    head = {**far, "mode": 2}
    unit("member: mode 2 past the triggers", large, head, {}, chained=True)
    unit("member: mode 2 at the trigger", clear, {**near, "mode": 2}, {}, chained=True)
    unit("member: mode 2, unreadable", "BLANK", {**head, **UNREADABLE}, {}, chained=True)
    unit("member: mode 2, bad quality", "BLANK", {**head, **BAD}, {}, chained=True)
    unit("member: mode 2, nothing kept", "BLANK", head, NOTHING, chained=True)
    unit("member: mode 2, substituted", "DOUBT 7000 600000 107000", {**head, **SUBSTITUTED}, {}, chained=True)
    unit("member: mode 2, substituted at the trigger", clear, {**near, "mode": 2, **SUBSTITUTED}, {}, chained=True)
    unit("member: mode 2, the line before has mode 1", large, head, {"mode": 1}, chained=True)
    unit("member: mode 2, the line before is bad", large, head, {"mode": 1, **BAD}, chained=True)
    unit("member: mode 2, the line before is unreadable", "BLANK", head, {"mode": 3}, chained=True)


def aggregate_edges():
    """Two members of one kind, whose sums are those of `edges`: MWO 250,000 twice, rates 2,500 twice."""
    half = {"availability": 250000, **rates(2500, 2500)}
    first = {"target": 200000, "raise": 1000, "lower": 400}
    second = {"target": 100000, "raise": 2000, "lower": 600}
    for kind in (GENERATING, BIDIRECTIONAL):
        for mw, mark in RAISE_UP:
            aggregate(
                f"two of kind {kind}, MW {mw}",
                f"{mark} 1000000 {mw}",
                member(kind, {"MW": mw - 100000, **half}, first),
                member(kind, half, second),
            )
    # Loads are subtracted and FCR is still up: -300,000 with 3,000 up and 1,000 down, as a bidirectional unit below zero.
    for power, mark in BELOW_ZERO:
        aggregate(
            f"two loads, MW {-power}",
            f"{mark} 1000000 {power}",
            member(LOAD, {"MW": -power - 100000, **half}, first),
            member(LOAD, half, second),
        )


def sums():
    """Signed sums, and regulation of all members."""
    # a chain of one load: -89,000 - (-100,000 + 5,000) = 6,000; alone its error is -6,000 (table)
    for mw, answer in ((89000, "CLEAR 6000 600000 -89000"), (88999, "LARGE 6001 600000 -88999")):
        aggregate(f"one load, FCR is up, MW {mw}", answer, member(LOAD, {"MW": mw}, {"raise": 5000}))
    # (-100,000 - 5,000) - (-111,000) = 6,000
    for mw, answer in ((111000, "CLEAR -6000 600000 -111000"), (111001, "LARGE -6001 600000 -111001")):
        aggregate(f"one load, FCL is down, MW {mw}", answer, member(LOAD, {"MW": mw}, {"lower": 5000}))

    def mixed(generated):
        return (
            member(GENERATING, {"MW": generated, **APART}, {"target": 300000, "raise": 1000, "lower": 100}),
            member(LOAD, {"MW": 90000, **APART}, {"target": 100000, "raise": 2000, "lower": 200}),
            member(BIDIRECTIONAL, {"MW": -40000, **APART}, {"target": -50000, "raise": 3000, "lower": 300}),
        )

    # Kept 300,000 - 100,000 - 50,000 = 150,000, up 6,000, down 600; MW is generated - 90,000 - 40,000. MWO 1,000,000 against
    # 500,000, ROC 10,000 against 5,000: small min(3,000,000, 2,000,000), large min(5,000,000, 4,000,000).
    for generated, power, mark in (
        (306000, 176000, "CLEAR 20000"),  # 176,000 - 156,000
        (306001, 176001, "SMALL 20001"),
        (326000, 196000, "SMALL 40000"),
        (326001, 196001, "LARGE 40001"),
        (286000, 156000, "CLEAR 0"),
        (279400, 149400, "CLEAR 0"),
        (259400, 129400, "CLEAR -20000"),  # 149,400 - 129,400
        (259399, 129399, "SMALL -20001"),
        (239400, 109400, "SMALL -40000"),
        (239399, 109399, "LARGE -40001"),
    ):
        aggregate(f"three kinds, MW {generated} generated", f"{mark} 2000000 {power}", *mixed(generated))

    # Kept 200,000, MW 214,000, this line's targets 214,000 with FCR 50,000; 3 x 200,000 and 5 x 200,000 against 14,000
    follower = {"target": 107000, "MW": 107000, "raise": 50000}
    kept = {}
    members = (member(GENERATING, follower, kept), member(GENERATING, follower, kept))
    aggregate("this target and regulation are not compared with", "LARGE 14000 600000 214000", *members)
    # a member of mode 0 counts: 107,000 + 100,000 - 200,000 = 7,000, above 600,000 and not above 1,000,000
    members = (member(GENERATING, {"MW": 107000, "mode": 0}, {}), member(GENERATING, {}, {}))
    aggregate("a member of mode 0 counts", "SMALL 7000 600000 207000", *members)
    # errors of members cancel: 120,000 + 80,000, and 120,000 - 120,000
    members = (member(GENERATING, {"MW": 120000}, {}), member(GENERATING, {"MW": 80000}, {}))
    aggregate("errors of two generating units cancel", "CLEAR 0 600000 200000", *members)
    members = (member(GENERATING, {"MW": 120000}, {}), member(LOAD, {"MW": 120000}, {}))
    aggregate("errors of a generating unit and a load cancel", "CLEAR 0 600000 0", *members)


def directions():
    """The sums decide the direction, loads take the opposite one, and equality takes each member's least."""
    big = {"availability": 2000000}
    generating = {**big, "MW": 300000, **rates(10000, 20000)}
    load = {**big, "MW": 100000, **rates(21000, 50000)}
    bidirectional = {**big, "MW": -50000, **rates(4000, 3000)}

    def three(label, answer, targets, kept=300000):
        aggregate(
            f"sums {label}",
            answer,
            member(GENERATING, {**generating, "target": targets[0]}, {"target": kept}),
            member(LOAD, {**load, "target": targets[1]}, {"target": 100000}),
            member(BIDIRECTIONAL, {**bidirectional, "target": targets[2]}, {"target": -50000}),
        )

    # MW 300,000 - 100,000 - 50,000 = 150,000 and kept the same. MWO 4,000,000: 12,000,000 never decides.
    # above: 10,000 + 4,000 against 50,000 (loads down); below: 20,000 + 3,000 against 21,000 (loads up);
    # equal: 10,000 + 3,000 against 21,000
    above, below, equal = "CLEAR 0 10000000 150000", "CLEAR 0 4600000 150000", "CLEAR 0 4200000 150000"
    three("above", above, (300001, 100000, -50000))
    three("below", below, (299999, 100000, -50000))
    three("equal", equal, (300000, 100000, -50000))
    three("below by a load's higher target", below, (300000, 100001, -50000))
    three("above by a load's lower target", above, (300000, 99999, -50000))
    three("above by the bidirectional unit", above, (300000, 100000, -49999))
    # 310,000 - 120,000 - 50,000 = 140,000, though generating unit and load are each to go up
    three("below, members above", below, (310000, 120000, -50000))
    # 290,000 - 80,000 - 50,000 = 160,000, though generating unit and load are each to go down
    three("above, members below", above, (290000, 80000, -50000))
    # 310,000 - 90,000 - 70,000 = 150,000
    three("equal, no member equal", equal, (310000, 90000, -70000))
    # kept 400,000 - 100,000 - 50,000 = 250,000 does not decide; large is 400 x 21,000 = 8,400,000 against 10,000,000
    three("equal, kept above", "LARGE -100000 4200000 150000", (300000, 100000, -50000), kept=400000)
    # equal: 10,000 + 3,000, which is less than 10,000 + 4,000 and 20,000 + 3,000; two loads alike
    supply = (member(GENERATING, {**generating, "target": 300000}, {"target": 300000}),)
    supply += (member(BIDIRECTIONAL, {**bidirectional, "target": -50000}, {"target": -50000}),)
    aggregate("supply equal", "CLEAR 0 2600000 250000", *supply)
    # -100,000 - target against -200,000: loads take the downs 20,000 + 3,000 above and the ups 10,000 + 4,000 below
    for words, target, trigger in (("above", 99999, 4600000), ("below", 100001, 2800000), ("equal", 100000, 2600000)):
        aggregate(
            f"two loads {words}",
            f"CLEAR 0 {trigger} -200000",
            member(LOAD, {**big, **rates(10000, 20000), "target": target}, {}),
            member(LOAD, {**big, **rates(4000, 3000)}, {}),
        )
    # each member's lesser: 10,000 + 10,000, where the sums of bid and of SCADA rates are 22,000
    aggregate(
        "the lesser of SCADA and bid for each member",
        "CLEAR 0 4000000 200000",
        member(GENERATING, {**big, "ramp up": 10000, "bid up": 12000, "target": 100001}, {}),
        member(GENERATING, {**big, "ramp up": 12000, "bid up": 10000}, {}),
    )
    # at equality four rates a member: 4,000 (ramp down) + 5,000 (bid up) = 9,000
    aggregate(
        "the least of four for each member",
        "CLEAR 0 1800000 200000",
        member(GENERATING, {**big, "ramp up": 7000, "bid up": 6000, "ramp down": 4000, "bid down": 8000}, {}),
        member(GENERATING, {**big, "ramp up": 7000, "bid up": 5000, "ramp down": 6000, "bid down": 8000}, {}),
    )


def sides():
    """MWO and ROC are each the greater of two sums, and may come from different sides."""

    def two_sides(label, trigger, supply, loads):
        """Each side: MWO and rates of its members, which are on their targets of 100,000."""
        members = [member(GENERATING, {"availability": mwo, **rates(roc, roc)}, {}) for mwo, roc in supply]
        members += [member(LOAD, {"availability": mwo, **rates(roc, roc)}, {}) for mwo, roc in loads]
        aggregate(label, f"CLEAR 0 {trigger} {100000 * (len(supply) - len(loads))}", *members)

    # 3 x 1,000,000 against 200 x 14,000; 3 x 1,000,000 against 200 x 20,000; and the sides exchanged
    two_sides("MWO of supply, ROC of loads, by rate", 2800000, [(1000000, 5000)], [(400000, 14000)])
    two_sides("MWO of supply, ROC of loads, by MWO", 3000000, [(1000000, 5000)], [(400000, 20000)])
    two_sides("MWO of loads, ROC of supply, by rate", 2800000, [(400000, 14000)], [(1000000, 5000)])
    two_sides("MWO of loads, ROC of supply, by MWO", 3000000, [(400000, 20000)], [(1000000, 5000)])
    # supply 600,000 and 9,000, loads 700,000 and 8,000: 200 x 9,000 = 1,800,000 against 3 x 700,000 = 2,100,000
    supply, loads = [(300000, 4000), (300000, 5000)], [(350000, 4000), (350000, 4000)]
    two_sides("sums of two on each side", 1800000, supply, loads)
    # supply 600,000 and 15,000: 3,000,000 against 3 x 700,000 = 2,100,000
    two_sides("sums of two on each side, by MWO", 2100000, [(300000, 7000), (300000, 8000)], loads)


def aggregate_marks():
    """The order of the rules for an aggregate: two generating units on a kept 100,000, so small 600,000 and large 1,000,000."""

    def two(label, answer, first, second, kept_first=None, kept_second=None):
        """Two members, kept on target unless said otherwise."""
        kept = [{} if k is None else k for k in (kept_first, kept_second)]
        kept = [NOTHING if k == "nothing" else k for k in kept]
        aggregate(f"two: {label}", answer, member(GENERATING, first, kept[0]), member(GENERATING, second, kept[1]))

    off, on, alone = {"mode": 0}, {"mode": 1}, {"mode": 2}
    far = {"MW": 120000}  # 20,000: 2,000,000 is above 1,000,000
    mid = {"MW": 107000}  # 7,000: 700,000 is above 600,000 alone
    near = {"MW": 106000}  # 6,000: at the small trigger
    large, small, clear = "LARGE 20000 600000 220000", "SMALL 7000 600000 207000", "CLEAR 6000 600000 206000"
    two("past the large trigger", large, on, {**on, **far})
    two("past the small trigger", small, on, {**on, **mid})
    two("at the small trigger", clear, on, {**on, **near})
    # unreadable first
    two("the first unreadable, all modes 0", "BLANK", {**off, **UNREADABLE}, {**off, **far})
    two("the last unreadable, all modes 0", "BLANK", off, {**off, **UNREADABLE})
    two("the first unreadable", "BLANK", {**on, **UNREADABLE}, {**on, **far})
    two("the last unreadable", "BLANK", {**on, **far}, {**on, **UNREADABLE})
    two("one unreadable, the other substituted", "BLANK", {**on, **UNREADABLE}, {**on, **far, **SUBSTITUTED})
    two("mode 3 is unreadable", "BLANK", off, {**off, "mode": 3})
    two("both unreadable", "BLANK", UNREADABLE, UNREADABLE)
    # then modes
    two("all modes 0", "OFF", off, off)
    two("all modes 0, past the large trigger", "OFF", off, {**off, **far})
    two("all modes 0, one bad", "OFF", off, {**off, **BAD})
    two("all modes 0, one substituted", "OFF", off, {**off, **far, **SUBSTITUTED})
    two("all modes 0, nothing kept", "OFF", off, {**off, **far}, kept_first="nothing")
    two("the first has mode 1", large, on, {**off, **far})
    two("the last has mode 1", large, off, {**on, **far})
    two("the first has mode 2", large, alone, {**off, **far})
    two("the last has mode 2", large, off, {**alone, **far})
    two("all modes 2", large, alone, {**alone, **far})
    # then bad quality and nothing kept
    two("one bad", "BLANK", on, {**on, **far, **BAD})
    two("one bad, mode 0, on target", "BLANK", {**off, **BAD}, on)
    two("one bad, the other substituted", "BLANK", {**on, **BAD}, {**on, **far, **SUBSTITUTED})
    two("nothing kept of the first", "BLANK", on, {**on, **far}, kept_first="nothing")
    two("nothing kept of the last", "BLANK", on, on, kept_second="nothing")
    two("nothing kept of one of mode 0", "BLANK", off, {**on, **far}, kept_first="nothing")
    two("a line before is unreadable", "BLANK", on, {**on, **far}, kept_first=UNREADABLE)
    two("a line before is bad and kept", large, on, {**on, **far}, kept_first=BAD)
    two("a line before is substituted", large, on, {**on, **far}, kept_second=SUBSTITUTED)
    two("the lines before have mode 0", large, on, {**on, **far}, kept_first=off, kept_second=off)
    # then clear, doubt, large, small
    two("substituted at the small trigger", clear, on, {**on, **near, **SUBSTITUTED})
    two("substituted on target, the other at the small trigger", clear, {**on, **SUBSTITUTED}, {**on, **near})
    two("substituted past the small trigger", "DOUBT 7000 600000 207000", on, {**on, **mid, **SUBSTITUTED})
    two("substituted past the large trigger", "DOUBT 20000 600000 220000", on, {**on, **far, **SUBSTITUTED})
    two("substituted on target, the other past", "DOUBT 20000 600000 220000", {**on, **SUBSTITUTED}, {**on, **far})
    two("substituted of mode 0", "DOUBT 20000 600000 220000", {**off, **SUBSTITUTED}, {**on, **far})
    two("substituted of mode 2", "DOUBT 20000 600000 220000", {**on, **far}, {**alone, **SUBSTITUTED})
    two("both substituted", "DOUBT 20000 600000 220000", {**on, **SUBSTITUTED}, {**on, **far, **SUBSTITUTED})
    # a chain of one unit is an aggregate: mode 1 is enough for it
    aggregate("one: mode 1", "LARGE 20000 600000 120000", member(GENERATING, {**on, **far}, {}))
    aggregate("one: mode 0", "OFF", member(GENERATING, {**off, **far}, {}))


def largest():
    """64 members at the bounds. MWO 64 x 2,000,000 = 128,000,000: small 384,000,000, which 200 x ROC never undercuts."""

    def all_64(label, answer, *members):
        aggregate(f"64: {label}", answer, *members, count=64)

    bound = {"availability": 2000000, **rates(2000000, 2000000)}
    full, empty = {"target": 2000000}, {"target": -2000000}
    least, most = {**bound, "MW": -2000000}, {**bound, "MW": 2000000}
    # -((128,000,000 - 0) - (-128,000,000)), and with loads 128,000,000 - (-128,000,000 + 0)
    all_64("the least error", "LARGE -256000000 384000000 -128000000", member(GENERATING, least, full))
    all_64("the greatest error, loads", "LARGE 256000000 384000000 128000000", member(LOAD, least, full))
    all_64("the least error, bidirectional", "LARGE -256000000 384000000 -128000000", member(BIDIRECTIONAL, least, full))
    all_64("the greatest error, bidirectional", "LARGE 256000000 384000000 128000000", member(BIDIRECTIONAL, most, empty))
    # -((128,000,000 - 128,000,000) - (-128,000,000)), and 128,000,000 - (-128,000,000 + 128,000,000)
    held = {"raise": 2000000, "lower": 2000000}
    answer = "LARGE -128000000 384000000 -128000000"
    all_64("the greatest lower", answer, member(GENERATING, least, {**full, **held}))
    answer = "LARGE 128000000 384000000 128000000"
    all_64("the greatest raise", answer, member(BIDIRECTIONAL, most, {**empty, **held}))
    # 64 x 60,000 = 3,840,000 and 64 x 100,000 = 6,400,000 are at 384,000,000 and 640,000,000; 64 more are past them
    for mw, mark, power in (
        (60000, "CLEAR", 3840000),
        (60001, "SMALL", 3840064),
        (100000, "SMALL", 6400000),
        (100001, "LARGE", 6400064),
    ):
        unit_of_64 = member(GENERATING, {**bound, "MW": mw}, {"target": 0})
        all_64(f"MW {mw}", f"{mark} {power} 384000000 {power}", unit_of_64)
    # 32 on each side: 3 x 64,000,000 = 192,000,000, and 32 x 60,000 = 1,920,000 is at it
    for mw, mark, power in ((60000, "CLEAR", 1920000), (60001, "SMALL", 1920032)):
        pair = member(GENERATING, {**bound, "MW": mw}, {"target": 0}), member(LOAD, {**bound, "MW": 0}, {"target": 0})
        all_64(f"32 of them loads, MW {mw}", f"{mark} {power} 192000000 {power}", *pair)
    # the last of 64 decides
    members = [member(GENERATING, bound, {})] * 63
    aggregate("64: the last bad", "BLANK", *members, member(GENERATING, {**bound, **BAD}, {}))


# MW around zero, with APART's triggers of 1,000,000 and 2,000,000 and no regulation: its error with a kept MWB of 15,000, which is
# SMALL, and with one of 25,000, which is LARGE; its level for kinds 1 and 2, and as it was sent.
AROUND_ZERO = (
    (-300, -15300, -25300, 0, -300),  # -(15,000 - (-300)) and -(25,000 - (-300))
    (-1, -15001, -25001, 0, -1),
    (0, -15000, -25000, 0, 0),
    (1, -14999, -24999, 1, 1),
)
# Bits of MW, what they are in MW, its error with a kept MWB of 15,000, and the levels as above. A float becomes whole kW first.
NEAR_ZERO = (
    ("80000000", "-0.0", -15000, 0, 0),
    ("80000001", "-0.0 and a little", -15000, 0, 0),  # the float next to zero
    ("B9D1B717", "-0.0004", -15000, 0, 0),  # -0.4 kW
    ("BA03126E", "just above -0.0005", -15000, 0, 0),  # a float on either side of -0.5 kW
    ("BA03126F", "just below -0.0005", -15001, 0, -1),
    ("BA1D4952", "-0.0006", -15001, 0, -1),
    ("BD800000", "-0.0625", -15063, 0, -63),  # -62.5 kW: halves away from zero
    ("39D1B717", "0.0004", -15000, 0, 0),
    ("3A03126F", "just above 0.0005", -14999, 1, 1),
    ("3D800000", "0.0625", -14937, 63, 63),
)


def levels():
    """The level of a unit of kind 1 or 2 is never below zero; that of kind 3 is its MW."""
    small, large = {"target": 15000}, {"target": 25000}
    for kind in KINDS:
        signed = kind == BIDIRECTIONAL
        for chained, head in ((False, {}), (True, {"mode": 2})):
            where = f"level: {WORDS[kind]}" + (" in a chain" if chained else "")

            def level(words, answer, now, kept):
                unit(f"{where}, {words}", answer, {**APART, **head, **now}, kept, kind, chained)

            for mw, of_15, of_25, floored, sent in AROUND_ZERO:
                at = sent if signed else floored
                level(f"MW {mw}, SMALL", f"SMALL {of_15} 1000000 {at}", {"MW": mw}, small)
                level(f"MW {mw}, LARGE", f"LARGE {of_25} 1000000 {at}", {"MW": mw}, large)
            for bits, words, of_15, floored, sent in NEAR_ZERO:
                level(f"{words} MW", f"SMALL {of_15} 1000000 {sent if signed else floored}", {"MW": bits}, small)
            # -(15,000 - (-2,000,000)), and with one more; 2,000,000 - 15,000
            lowest, next_to_it = (-2000000, -1999999) if signed else (0, 0)
            level("the least MW", f"LARGE -2015000 1000000 {lowest}", {"MW": -2000000}, small)
            level("next to the least MW", f"LARGE -2014999 1000000 {next_to_it}", {"MW": -1999999}, small)
            level("the greatest MW", "LARGE 1985000 1000000 2000000", {"MW": 2000000}, small)
            level("past the least MW", "BLANK", {"MW": "C4FA0001"}, small)
            # the other marks: kept 0, and then -300 against 15,000
            at = -300 if signed else 0
            level("MW -300, CLEAR", f"CLEAR -300 1000000 {at}", {"MW": -300}, {"target": 0})
            level("MW -300, DOUBT", f"DOUBT -15300 1000000 {at}", {"MW": -300, **SUBSTITUTED}, small)
            level("MW -300, bad", "BLANK", {"MW": -300, **BAD}, small)
            level("MW -300, nothing kept", "BLANK", {"MW": -300}, NOTHING)
            if chained:
                level("MW -300, mode 1", "OFF", {"MW": -300, "mode": 1}, small)
    # a gas unit trips with its auxiliaries running: -(100,000 - (-300))
    unit("level: tripped at -300", "LARGE -100300 600000 0", {"MW": -300}, {})
    # a bidirectional unit too high below zero: -300 - (-15,000) = 14,700, -300 - (-25,000) = 24,700
    for chained, head in ((False, {}), (True, {"mode": 2})):
        where = "in a chain" if chained else "in no chain"
        for mw, of_15, of_25 in ((-300, 14700, 24700), (-1, 14999, 24999), (0, 15000, 25000), (1, 15001, 25001)):
            now = {"MW": mw, "target": -15000, **APART, **head}
            for kept, mark in ((-15000, f"SMALL {of_15}"), (-25000, f"LARGE {of_25}")):
                label = f"level: too high from {kept}, {where}, MW {mw}"
                unit(label, f"{mark} 1000000 {mw}", now, {"target": kept}, BIDIRECTIONAL, chained)


def solar_levels():
    """A semi-scheduled unit is declared by a positive error alone, so at its MW; where MW is below zero its level is 0."""

    def level(words, answer, mw, kept, **changes):
        solar(f"level: solar, {words}", answer, {"MW": mw, **APART, **CAPPED, **changes}, {"target": kept, **CAPPED})

    # 10,001 - 0, 20,001 - 0; 25,001 - 15,000, 35,001 - 15,000; 2,000,000 - 15,000
    level("SMALL from 0", "SMALL 10001 1000000 10001", 10001, 0)
    level("LARGE from 0", "LARGE 20001 1000000 20001", 20001, 0)
    level("SMALL from 15000", "SMALL 10001 1000000 25001", 25001, 15000)
    level("LARGE from 15000", "LARGE 20001 1000000 35001", 35001, 15000)
    level("DOUBT from 15000", "DOUBT 10001 1000000 25001", 25001, 15000, **SUBSTITUTED)
    level("the greatest MW", "LARGE 1985000 1000000 2000000", 2000000, 15000)
    # no trigger is under 600,000 and no kept target under 0, so that 6,001 is the least MW at which it can be declared
    solar("level: solar, the least at a declaration", "LARGE 6001 600000 6001", {"MW": 6001, **CAPPED}, {"target": 0, **CAPPED})
    # too low: CLEAR, by the errors of AROUND_ZERO and NEAR_ZERO
    for mw, of_15, of_25, floored, _ in AROUND_ZERO:
        level(f"MW {mw} under 15000", f"CLEAR {of_15} 1000000 {floored}", mw, 15000)
        level(f"MW {mw} under 25000", f"CLEAR {of_25} 1000000 {floored}", mw, 25000)
        level(f"MW {mw} substituted", f"CLEAR {of_15} 1000000 {floored}", mw, 15000, **SUBSTITUTED)
    for bits, words, of_15, floored, _ in NEAR_ZERO:
        level(f"{words} MW", f"CLEAR {of_15} 1000000 {floored}", bits, 15000)
    level("MW -300 under 0", "CLEAR -300 1000000 0", -300, 0)
    level("MW 1 over 0", "CLEAR 1 1000000 1", 1, 0)
    # -(15,000 - (-2,000,000))
    level("the least MW", "CLEAR -2015000 1000000 0", -2000000, 15000)
    level("MW -300, bad", "BLANK", -300, 15000, **BAD)
    solar("level: solar, MW -300, cap 0", "OFF", {"MW": -300, **APART}, {"target": 15000, **FREE})


def aggregate_levels():
    """The level of an aggregate is the sum of its members' MW as sent, loads subtracted, whatever their own levels are."""
    # Of one: as in `levels`, but signed for a generating unit too. Its own level as a member at -300 is 0, see there.
    for kind in (GENERATING, BIDIRECTIONAL):
        for mw, of_15, of_25, _, sent in AROUND_ZERO:
            now, where = {"MW": mw, **APART}, f"level: one {WORDS[kind]}, MW {mw}"
            aggregate(f"{where}, SMALL", f"SMALL {of_15} 1000000 {sent}", member(kind, now, {"target": 15000}))
            aggregate(f"{where}, LARGE", f"LARGE {of_25} 1000000 {sent}", member(kind, now, {"target": 25000}))
        for bits, words, of_15, _, sent in NEAR_ZERO:
            now = {"MW": bits, **APART}
            label = f"level: one {WORDS[kind]}, {words} MW"
            aggregate(label, f"SMALL {of_15} 1000000 {sent}", member(kind, now, {"target": 15000}))
        answer = "LARGE -2015000 1000000 -2000000"
        aggregate(f"level: one {WORDS[kind]}, the least MW", answer, member(kind, {"MW": -2000000, **APART}, {"target": 15000}))
    # Of one load: the sums are -MW, and -15,000 or -25,000. 300 - (-15,000) = 15,300; -1 - (-15,000) = 14,999.
    for mw, of_15, of_25, level in (
        (-300, 15300, 25300, 300),
        (-1, 15001, 25001, 1),
        (0, 15000, 25000, 0),
        (1, 14999, 24999, -1),
        (300, 14700, 24700, -300),
    ):
        now, where = {"MW": mw, **APART}, f"level: one load, MW {mw}"
        aggregate(f"{where}, SMALL", f"SMALL {of_15} 1000000 {level}", member(LOAD, now, {"target": 15000}))
        aggregate(f"{where}, LARGE", f"LARGE {of_25} 1000000 {level}", member(LOAD, now, {"target": 25000}))
    # 2,000,000 - (-15,000)
    answer = "LARGE 2015000 1000000 2000000"
    aggregate("level: one load, the least MW", answer, member(LOAD, {"MW": -2000000, **APART}, {"target": 15000}))

    # Two on one side, MWO 250,000 twice and rates of 2,500 twice: 1,000,000 and 2,000,000 once more. Kept 10,000 + 5,000 = 15,000.
    half = {"availability": 250000, **rates(2500, 2500)}

    def two_of(kind, powers, answer):
        first, second = (member(kind, {"MW": mw, **half}, {"target": kept}) for mw, kept in zip(powers, (10000, 5000)))
        aggregate(f"level: two of kind {kind}, MW {powers[0]} and {powers[1]}", answer, first, second)

    two_of(GENERATING, (-300, 0), "SMALL -15300 1000000 -300")
    # 500 - 300 = 200 and -(15,000 - 200); floors on members would give 500, and 300, 301 and 0 below
    two_of(GENERATING, (-300, 500), "SMALL -14800 1000000 200")
    two_of(GENERATING, (300, -300), "SMALL -15000 1000000 0")
    two_of(GENERATING, (-300, 301), "SMALL -14999 1000000 1")
    two_of(GENERATING, (-300, -300), "SMALL -15600 1000000 -600")
    # each becomes whole kW before they are added: 0 + 0, not -0.8; and -63 - 63, not -125
    two_of(GENERATING, ("B9D1B717", "B9D1B717"), "SMALL -15000 1000000 0")
    two_of(GENERATING, ("BD800000", "BD800000"), "SMALL -15126 1000000 -126")
    two_of(BIDIRECTIONAL, (-1000, 700), "SMALL -15300 1000000 -300")
    two_of(BIDIRECTIONAL, (-700, 700), "SMALL -15000 1000000 0")
    two_of(BIDIRECTIONAL, (-700, 701), "SMALL -14999 1000000 1")
    # -200 - 100 = -300 and -300 - (-15,000) = 14,700; 300 - 300 = 0; 300 - 299 = 1; floors on members would give -300 and -299
    two_of(LOAD, (200, 100), "SMALL 14700 1000000 -300")
    two_of(LOAD, (-300, 300), "SMALL 15000 1000000 0")
    two_of(LOAD, (-300, 299), "SMALL 15001 1000000 1")
    two_of(LOAD, (-300, -300), "SMALL 15600 1000000 600")

    def supply_and_load(generated, drawn, answer, kept=20000, **changes):
        """MWO 500,000 and rates of 5,000 on either side, so APART's triggers; kept MWB less 5,000."""
        aggregate(
            f"level: {generated} generated, {drawn} drawn, {answer.split()[0]}",
            answer,
            member(GENERATING, {"MW": generated, **APART, **changes}, {"target": kept}),
            member(LOAD, {"MW": drawn, **APART}, {"target": 5000 if kept else 0}),
        )

    # kept 20,000 - 5,000 = 15,000; 700 - 1,000 = -300 and -(15,000 - (-300))
    supply_and_load(700, 1000, "SMALL -15300 1000000 -300")
    supply_and_load(700, 700, "SMALL -15000 1000000 0")
    supply_and_load(701, 700, "SMALL -14999 1000000 1")
    supply_and_load(0, 300, "SMALL -15300 1000000 -300")
    supply_and_load(-300, 0, "SMALL -15300 1000000 -300")
    supply_and_load(-300, 300, "SMALL -15600 1000000 -600")
    supply_and_load(0, -300, "SMALL -14700 1000000 300")
    supply_and_load(-300, -300, "SMALL -15000 1000000 0")
    supply_and_load(-300, -301, "SMALL -14999 1000000 1")
    supply_and_load(-700, -400, "SMALL -15300 1000000 -300")
    # kept 30,000 - 5,000 = 25,000; kept 0 - 0
    supply_and_load(700, 1000, "LARGE -25300 1000000 -300", 30000)
    supply_and_load(-700, -400, "LARGE -25300 1000000 -300", 30000)
    supply_and_load(700, 1000, "CLEAR -300 1000000 -300", 0)
    supply_and_load(-300, 0, "CLEAR -300 1000000 -300", 0)
    supply_and_load(700, 1000, "DOUBT -15300 1000000 -300", **SUBSTITUTED)
    supply_and_load(-300, 0, "DOUBT -15300 1000000 -300", **SUBSTITUTED)
    supply_and_load(-300, 0, "BLANK", **BAD)
    # -2,000,000 - 2,000,000 and -(15,000 - (-4,000,000))
    supply_and_load(-2000000, 2000000, "LARGE -4015000 1000000 -4000000")

    def three(generated, drawn, battery, answer):
        """MWO 250,000 + 250,000 and rates of 2,500 + 2,500 against a load with as much; kept 25,000 - 5,000 - 5,000 = 15,000."""
        aggregate(
            f"level: {generated}, {drawn} and {battery} of three kinds",
            answer,
            member(GENERATING, {"MW": generated, **half}, {"target": 25000}),
            member(LOAD, {"MW": drawn, **APART}, {"target": 5000}),
            member(BIDIRECTIONAL, {"MW": battery, **half}, {"target": -5000}),
        )

    # -300 - 100 - 500 = -900; -300 + 200 - 200 = -300; 0 + 300 - 300 = 0; -300 + 1 + 300 = 1
    three(-300, 100, -500, "SMALL -15900 1000000 -900")
    three(-300, -200, -200, "SMALL -15300 1000000 -300")
    three(0, -300, -300, "SMALL -15000 1000000 0")
    three(-300, -1, 300, "SMALL -14999 1000000 1")
    # 64 x -300 = -19,200. MWO 64 x 100,000, rates 64 x 3,000: small 3 x 6,400,000 against 200 x 192,000, large 5 x 6,400,000;
    # -(6,400,000 - (-19,200)) is past it
    answer = "LARGE -6419200 19200000 -19200"
    aggregate("level: 64 generating units, MW -300", answer, member(GENERATING, {"MW": -300}, {}), count=64)
    # 32 x (-300 + 300) = 0 and 32 x (-300 - 300) = -19,200. MWO 3,200,000 on either side: 9,600,000. Kept 32 x (100,000 - 50,000) =
    # 1,600,000, and 5 x 3,200,000 = 16,000,000 against 160,000,000 and more.
    for drawn, answer in ((-300, "LARGE -1600000 9600000 0"), (300, "LARGE -1619200 9600000 -19200")):
        pair = member(GENERATING, {"MW": -300}, {}), member(LOAD, {"MW": drawn}, {"target": 50000})
        aggregate(f"level: 32 generating units, MW -300, and 32 loads, MW {drawn}", answer, *pair, count=64)


def trial():
    """The blocks of cases, and what is printed of them."""
    for section in (table, worked_examples, edges, cap_flags, kept_or_present, triggers, rates_of_change, unit_marks):
        section()
    for section in (aggregate_edges, sums, directions, sides, aggregate_marks, largest, levels, solar_levels, aggregate_levels):
        section()
    return made(cases, BLOCKS)
