"""The cases of passes for crates/trials, and what it prints of each; `tools/make_trials.py` writes them.

Each case is a register with one interval's lines and the lines before them. For each aggregate its answer states mark, error,
small trigger, level and how many members the pass looked at, by hand from 01, "Triggers and errors" and "Marks and runs", and
02, 2026-03: the place in the chain, from 1, of the first member whose line is unreadable, or the chain's length if there is
none. The arithmetic stands beside it. The monitor's code is never run. Powers, levels and rates are in kW, triggers in
hundredths of a kW. A refused register answers its refusal; one without aggregates prints nothing. The cases have a mark as its
word; `numbered` puts the report's number for it (01) in its place, which is what the program prints.

A case is read as: label with its length; the register with its length in two bytes; samples with their number in a byte; picks
with theirs. A sample is a byte, 1 where a line is kept, this interval's line and the line before. Unit u has sample
picks[(u - 1) % number of picks] % number of samples, counted from 0.

The cases stand in blocks of 65,536 bytes, at most BLOCKS of them, as `in_blocks` lays them out.
"""

from lines import READINGS, UNSIGNED, made
from plant_bytes import register
from trial_marks import APART, BAD, BIDIRECTIONAL, GENERATING, LOAD, NOTHING, SEMI_SCHEDULED, SUBSTITUTED, line, member, rates

BLOCKS = 4
LENGTHS = (2, 3, 4, 2, 3, 4)  # run lengths, which play no part here
MARKS = {"OFF": 0, "BLANK": 1, "CLEAR": 2, "DOUBT": 3, "SMALL": 4, "LARGE": 5}  # 01, the report

cases = []  # label, what the program reads, a line for each aggregate


def sample(now, kept):
    """This interval's line and the line before, with conformance mode 1 in both unless they say otherwise."""
    return member(GENERATING, now, kept)[1:]  # without the kind, which is in the register


# A line is as `PLAIN` of trial_marks: target, availability and MW 100,000, all rates 3,000, no regulation; so on target.
ON_TARGET = sample({}, {})
FAR = sample({"MW": 500000}, {})  # 400,000 above its target, past every trigger below even as the one member that is off
UNLISTED = {"quality": 3}
UNREADABLE = sample(UNLISTED, {})
UNREADABLE_TWICE = sample(UNLISTED, UNLISTED)
UNREADABLE_BEFORE = sample({}, UNLISTED)
UNKEPT = sample({}, NOTHING)
BAD_LINE = sample(BAD, {})
SUBSTITUTED_LINE = sample(SUBSTITUTED, {})
MODE_0 = sample({"mode": 0}, {})
MODE_0_UNREADABLE = sample({"mode": 0, **UNLISTED}, {})
MODE_0_BAD = sample({"mode": 0, **BAD}, {})
MODE_0_UNKEPT = sample({"mode": 0}, NOTHING)
MODE_2 = sample({"mode": 2}, {})
STRANGER = sample({"mode": 0}, {"mode": 0})  # of a unit in no chain
STRANGER_UNREADABLE = sample({"mode": 0, **UNLISTED}, {"mode": 0})

# All on target, by the length of the chain. Small is the lesser of 3 x MWO and 200 x ROC, and 600,000 at least:
# 1: 300,000 and 600,000; 4: MWO 400,000, ROC 12,000, so 1,200,000 and 2,400,000; 16: MWO 1,600,000, ROC 48,000, so 4,800,000 and
# 9,600,000; 60: MWO 6,000,000, ROC 180,000, so 18,000,000 and 36,000,000; 64: MWO 6,400,000, ROC 192,000, so 19,200,000 and
# 38,400,000.
CLEAR_1 = "CLEAR 0 600000 100000 1"
CLEAR_4 = "CLEAR 0 1200000 400000 4"
CLEAR_16 = "CLEAR 0 4800000 1600000 16"
CLEAR_60 = "CLEAR 0 18000000 6000000 60"
CLEAR_64 = "CLEAR 0 19200000 6400000 64"


def blank(looked):
    return f"BLANK 0 0 0 {looked}"


def off(looked):
    return f"OFF 0 0 0 {looked}"


def rising(length):
    return [*range(1, length + 1)]


def falling(length):
    return [*range(length, 0, -1)]


def turning(length):
    """The even units up, then the odd ones down, of an even number of units: 2 4 3 1, or 2 4 .. 60 59 57 .. 3 1."""
    return [*range(2, length + 1, 2), *range(length - 1, 0, -2)]


ORDERS = {"rising": rising, "falling": falling, "turning": turning}


def put(label, registered, answers, samples, picks):
    assert len(label) < 60, label
    content = len(registered).to_bytes(2, "little") + registered
    content += bytes([len(samples)]) + b"".join(samples)
    content += bytes([len(picks)]) + bytes(picks)
    cases.append((label, content, answers))


def units_of(chains, count=None, kinds=None):
    """A register of so many units, or as many as the highest in a chain. Kinds of some units; the others are generating units."""
    count, kinds = count or max(map(max, chains)), kinds or {}
    after = {unit: following for chain in chains for unit, following in zip(chain, [*chain[1:], 0])}
    units = [(kinds.get(unit, GENERATING), after.get(unit, 0)) for unit in range(1, count + 1)]
    return register(LENGTHS, units, [chain[0] for chain in chains])


def numbered(answers):
    """The lines of aggregates from their answers, with the aggregate's number, and the mark's in place of its word."""
    parted = [answer.split(" ", 1) for answer in answers]
    return [f"{number} {MARKS[mark]} {rest}" for number, (mark, rest) in enumerate(parted, 1)]


def passes(label, chains, answers, others, sent=None, count=None, kinds=None):
    """Aggregates from their chains. `sent`: samples of some units; the others have the one given before it."""
    assert len(chains) == len(answers), label
    registered, sent = units_of(chains, count, kinds), sent or {}
    by_unit = [sent.get(unit, others) for unit in range(1, registered[0] + 1)]
    samples = [*dict.fromkeys(by_unit)]
    put(label, registered, numbered(answers), samples, [samples.index(one) for one in by_unit])


def one_pass(label, chain, answer, others, sent=None, count=None, kinds=None):
    passes(label, [chain], [answer], others, sent, count, kinds)


# Length of the chain, order, and the member that is unreadable: its place and its unit.
# Falling, a place is length + 1 - unit. Turning, an even unit's place is its half, an odd one's length/2 + (length + 1 - unit)/2.
PLACES = (
    (4, "rising", ((1, 1), (2, 2), (3, 3), (4, 4))),
    (4, "falling", ((1, 4), (2, 3), (3, 2), (4, 1))),
    (4, "turning", ((1, 2), (2, 4), (3, 3), (4, 1))),
    (60, "rising", ((1, 1), (2, 2), (30, 30), (31, 31), (59, 59), (60, 60))),
    (60, "falling", ((1, 60), (2, 59), (30, 31), (31, 30), (59, 2), (60, 1))),
    (60, "turning", ((1, 2), (2, 4), (30, 60), (31, 59), (59, 3), (60, 1))),
    (64, "rising", ((1, 1), (2, 2), (32, 32), (33, 33), (63, 63), (64, 64))),
    (64, "falling", ((1, 64), (2, 63), (32, 33), (33, 32), (63, 2), (64, 1))),
    (64, "turning", ((1, 2), (2, 4), (32, 64), (33, 63), (63, 3), (64, 1))),
)


def one_unreadable():
    """The pass ends there, whatever the others are: so far off that their sums would give LARGE, or on target."""
    one_pass("1: unreadable", [1], blank(1), ON_TARGET, {1: UNREADABLE})
    one_pass("1: readable", [1], CLEAR_1, ON_TARGET)
    one_pass("1: unit 2 of 3, unreadable", [2], blank(1), STRANGER, {2: UNREADABLE}, count=3)
    one_pass("1: unit 2 of 3, those beside it unreadable", [2], CLEAR_1, STRANGER_UNREADABLE, {2: ON_TARGET}, count=3)
    one_pass("1: unit 64 of 64, unreadable", [64], blank(1), STRANGER, {64: UNREADABLE})
    one_pass("1: unit 64 of 64, all others unreadable", [64], CLEAR_1, STRANGER_UNREADABLE, {64: ON_TARGET})
    for length, order, members in PLACES:
        chain = ORDERS[order](length)
        for place, unit in members:
            assert chain[place - 1] == unit, (length, order, place)
            one_pass(f"{length} {order}: place {place} unreadable", chain, blank(place), FAR, {unit: UNREADABLE})
            if length == 4:
                label = f"4 {order}: place {place} unreadable, others on target"
                one_pass(label, chain, blank(place), ON_TARGET, {unit: UNREADABLE})


# Length, order, the two units that are unreadable, and the place of the one that comes first in the chain.
TWO = (
    # first and last
    (4, "rising", (1, 4), 1),
    (4, "falling", (1, 4), 1),
    (4, "turning", (2, 1), 1),
    (60, "rising", (1, 60), 1),
    (60, "falling", (1, 60), 1),
    (60, "turning", (2, 1), 1),
    (64, "rising", (1, 64), 1),
    (64, "falling", (1, 64), 1),
    (64, "turning", (2, 1), 1),
    # two in the middle; falling, 40 and 50 come first, at 61 - 40 and 65 - 50
    (60, "rising", (20, 40), 20),
    (60, "falling", (20, 40), 21),
    (60, "turning", (20, 40), 10),
    (60, "turning", (19, 39), 41),  # 30 + (61 - 39)/2, before 30 + (61 - 19)/2 = 51
    (60, "turning", (19, 20), 10),
    (60, "turning", (19, 58), 29),
    (64, "rising", (20, 50), 20),
    (64, "falling", (20, 50), 15),
    (64, "turning", (20, 50), 10),
    (64, "turning", (21, 51), 39),  # 32 + (65 - 51)/2, before 32 + (65 - 21)/2 = 54
    (64, "turning", (3, 62), 31),
    # neighbours, in the middle and at the ends
    (4, "rising", (1, 2), 1),
    (4, "rising", (2, 3), 2),
    (4, "rising", (3, 4), 3),
    (4, "falling", (3, 4), 1),
    (4, "falling", (2, 3), 2),
    (4, "falling", (1, 2), 3),
    (4, "turning", (2, 4), 1),
    (4, "turning", (3, 4), 2),
    (4, "turning", (1, 3), 3),
    (60, "rising", (30, 31), 30),
    (60, "falling", (1, 2), 59),
    (60, "turning", (59, 60), 30),
    (60, "turning", (57, 59), 31),
    (60, "turning", (1, 3), 59),
    (64, "rising", (63, 64), 63),
    (64, "falling", (32, 33), 32),
    (64, "turning", (2, 4), 1),
    (64, "turning", (63, 64), 32),
    (64, "turning", (1, 3), 63),
    # one in between
    (4, "rising", (2, 4), 2),
    (4, "falling", (1, 3), 2),
    (4, "turning", (1, 4), 2),
    # the last one, which is unit 1, and the one that ends the way up
    (60, "turning", (1, 60), 30),
    (64, "turning", (1, 64), 32),
)


def more_unreadable():
    """The first of them in the chain's order ends the pass, which need not be the one of the lowest number."""
    for length, order, units, place in TWO:
        chain = ORDERS[order](length)
        assert chain[place - 1] in units, (length, order, units)
        label = f"{length} {order}: units {units[0]} and {units[1]} unreadable"
        one_pass(label, chain, blank(place), FAR, {unit: UNREADABLE for unit in units})
    # all, or all but one
    for length in (1, 4, 60, 64):
        one_pass(f"{length}: all unreadable", rising(length), blank(1), UNREADABLE)
        one_pass(f"{length}: all unreadable, and before", rising(length), blank(1), UNREADABLE_TWICE)
    for length in (4, 60, 64):
        one_pass(f"{length} turning: all unreadable", turning(length), blank(1), UNREADABLE)
        one_pass(f"{length} turning: all but the first unreadable", turning(length), blank(2), UNREADABLE, {2: FAR})
        one_pass(f"{length} turning: all but the last unreadable", turning(length), blank(1), UNREADABLE, {1: FAR})
    # the second half: units 33 to 64 rising, and 59, 57 .. 1 turning
    one_pass("64 rising: the second half unreadable", rising(64), blank(33), FAR, {unit: UNREADABLE for unit in range(33, 65)})
    one_pass("60 turning: all odd units unreadable", turning(60), blank(31), FAR, {unit: UNREADABLE for unit in range(1, 60, 2)})
    one_pass("60 turning: all even units unreadable", turning(60), blank(1), FAR, {unit: UNREADABLE for unit in range(2, 61, 2)})
    # units 17, 33 and 49, at 32 + 24, 32 + 16 and 32 + 8
    one_pass("64 turning: three unreadable", turning(64), blank(40), FAR, {unit: UNREADABLE for unit in (17, 33, 49)})


# Length, what every line has besides, and MW of the one member that is off its target of 100,000, with what that gives.
#  1: MWO 500,000, ROC 5,000: small min(1,500,000, 1,000,000), large min(2,500,000, 2,000,000).
#  4: MWO 400,000, ROC 12,000: small min(1,200,000, 2,400,000), large min(2,000,000, 4,800,000).
# 60: MWO 6,000,000, ROC 180,000: small min(18,000,000, 36,000,000), large min(30,000,000, 72,000,000).
# 64: MWO 6,400,000, ROC 192,000: small min(19,200,000, 38,400,000), large min(32,000,000, 76,800,000).
# So an error of 10,000, 12,000, 180,000 and 192,000 is at the small one, of 20,000, 20,000, 300,000 and 320,000 at the large one.
# The level is the sum of targets and that error.
ALL_READABLE = (
    (
        1,
        APART,
        (
            (110000, "CLEAR 10000 1000000 110000 1"),
            (110001, "SMALL 10001 1000000 110001 1"),
            (120000, "SMALL 20000 1000000 120000 1"),
            (120001, "LARGE 20001 1000000 120001 1"),
            (79999, "LARGE -20001 1000000 79999 1"),
        ),
        (110001, "DOUBT 10001 1000000 110001 1"),
    ),
    (
        4,
        {},
        (
            (112000, "CLEAR 12000 1200000 412000 4"),
            (112001, "SMALL 12001 1200000 412001 4"),
            (120000, "SMALL 20000 1200000 420000 4"),
            (120001, "LARGE 20001 1200000 420001 4"),
            (79999, "LARGE -20001 1200000 379999 4"),
        ),
        (112001, "DOUBT 12001 1200000 412001 4"),
    ),
    (
        60,
        {},
        (
            (280000, "CLEAR 180000 18000000 6180000 60"),
            (280001, "SMALL 180001 18000000 6180001 60"),
            (400000, "SMALL 300000 18000000 6300000 60"),
            (400001, "LARGE 300001 18000000 6300001 60"),
            (-200001, "LARGE -300001 18000000 5699999 60"),
        ),
        (280001, "DOUBT 180001 18000000 6180001 60"),
    ),
    (
        64,
        {},
        (
            (292000, "CLEAR 192000 19200000 6592000 64"),
            (292001, "SMALL 192001 19200000 6592001 64"),
            (420000, "SMALL 320000 19200000 6720000 64"),
            (420001, "LARGE 320001 19200000 6720001 64"),
            (-220001, "LARGE -320001 19200000 6079999 64"),
        ),
        (292001, "DOUBT 192001 19200000 6592001 64"),
    ),
)


def none_unreadable():
    """The pass looks at the whole chain, and its sums take in every member, the first and the last too."""
    for length, answer in ((4, CLEAR_4), (60, CLEAR_60), (64, CLEAR_64)):
        for order, ordered in ORDERS.items():
            one_pass(f"{length} {order}: all on target", ordered(length), answer, ON_TARGET)
    # The member that is off its target: turning, units 2, length - 1 and 1 are the first, one in the middle and the last. In a
    # chain of 4 each is in turn; in the longer ones another with each row.
    for length, besides, rows, doubt in ALL_READABLE:
        chain = [1] if length == 1 else turning(length)
        units = (1,) if length == 1 else (2, length - 1, 1)
        on_target = sample(besides, {})
        for row, (mw, answer) in enumerate(rows):
            for unit in units if length == 4 else [units[row % len(units)]]:
                one_pass(f"{length}: unit {unit} at {mw}", chain, answer, on_target, {unit: sample({"MW": mw, **besides}, {})})
        mw, answer = doubt
        substituted = sample({"MW": mw, **besides, **SUBSTITUTED}, {})
        one_pass(f"{length}: unit 1 at {mw}, substituted", chain, answer, on_target, {1: substituted})
        one_pass(f"{length}: all modes 0", chain, off(length), sample({"mode": 0, **besides}, {}))
    # another member is substituted, before or behind the one that is off
    for words, off_target, substituted in (("before", 1, 2), ("behind", 2, 1)):
        sent = {off_target: sample({"MW": 280001}, {}), substituted: SUBSTITUTED_LINE}
        label = f"60 turning: substituted {words} the one that is off"
        one_pass(label, turning(60), "DOUBT 180001 18000000 6180001 60", ON_TARGET, sent)

    # Kinds are the units' own, whatever their places: 1, 2, 3, 1 for units 1 to 4. 100,000 - 100,000 + 100,000 + 100,000; MWO
    # 300,000 against 100,000 and ROC 9,000 against 3,000: small min(900,000, 1,800,000), large min(1,500,000, 3,600,000).
    # The load at 90,000: 210,000 - 200,000 = 10,000. At 84,999: 215,001 - 200,000.
    kinds = {2: LOAD, 3: BIDIRECTIONAL}
    for order, ordered in ORDERS.items():
        chain = ordered(4)
        one_pass(f"4 {order}: three kinds on target", chain, "CLEAR 0 900000 200000 4", ON_TARGET, kinds=kinds)
        for mw, answer in ((90000, "SMALL 10000 900000 210000 4"), (84999, "LARGE 15001 900000 215001 4")):
            one_pass(f"4 {order}: the load at {mw}", chain, answer, ON_TARGET, {2: sample({"MW": mw}, {})}, kinds=kinds)
    # the load is unit 2: at places 2, 3 and 1
    one_pass("4 rising: the load unreadable", rising(4), blank(2), FAR, {2: UNREADABLE}, kinds=kinds)
    one_pass("4 falling: the load unreadable", falling(4), blank(3), FAR, {2: UNREADABLE}, kinds=kinds)
    one_pass("4 turning: the load unreadable", turning(4), blank(1), FAR, {2: UNREADABLE}, kinds=kinds)

    # A pumped-storage site: 60 bidirectional units that draw 50,000 as told, 60 x -50,000 = -3,000,000. Triggers are those of 60.
    # One of them draws 350,001: -3,000,000 - 300,001.
    pumps = {unit: BIDIRECTIONAL for unit in range(1, 61)}
    pumping, kept = {"target": -50000, "MW": -50000}, {"target": -50000}
    on_target, deep = sample(pumping, kept), sample({**pumping, "MW": -350001}, kept)
    answer = "LARGE -300001 18000000 -3300001 60"
    one_pass("60 pumps: on target", falling(60), "CLEAR 0 18000000 -3000000 60", on_target, kinds=pumps)
    one_pass("60 pumps: one draws more", falling(60), answer, on_target, {1: deep}, kinds=pumps)
    # falling, units 60, 24 and 1 are at 1, 61 - 24 and 60
    for unit, place in ((60, 1), (24, 37), (1, 60)):
        lost = sample({**pumping, **UNLISTED}, kept)
        one_pass(f"60 pumps: unit {unit} unreadable", falling(60), blank(place), on_target, {unit: lost}, kinds=pumps)

    # 64 at the bounds: MWO 64 x 2,000,000 = 128,000,000, small 384,000,000 against 200 x 128,000,000;
    # -((128,000,000 - 0) - (-128,000,000)). Then one of them is unreadable.
    bound = {"availability": 2000000, **rates(2000000, 2000000), "MW": -2000000}
    full = {"target": 2000000}
    least, lost = sample(bound, full), sample({**bound, **UNLISTED}, full)
    one_pass("64 at the bounds", falling(64), "LARGE -256000000 384000000 -128000000 64", least)
    for unit, place in ((64, 1), (1, 64)):
        one_pass(f"64 at the bounds, place {place} unreadable", falling(64), blank(place), least, {unit: lost})


def strangers():
    """A chain of 60 among 64 units; the other four, of kinds 1 to 4, are in no chain, and their lines do not matter to it."""
    four = (GENERATING, LOAD, BIDIRECTIONAL, SEMI_SCHEDULED)

    def sixty(label, chain, numbers, answer, others=ON_TARGET, sent=None):
        """`numbers`: of the four units, by kind. Their lines are readable unless `sent` says otherwise."""
        assert len(chain) == 60 and not set(chain) & set(numbers), label
        lines = {**{number: STRANGER for number in numbers}, **(sent or {})}
        one_pass(label, chain, answer, others, lines, count=64, kinds=dict(zip(numbers, four)))

    # Units 1 to 4 in no chain: rising, a place is unit - 4. Units 61 to 64: falling, it is 61 - unit. Units 10, 20, 30 and 40:
    # rising, unit 11 is at 11 - 1, unit 41 at 41 - 4, unit 64 at 64 - 4; falling, unit 41 is at 65 - 41, unit 39 at 65 - 39 - 1,
    # unit 1 at 65 - 1 - 4.
    between = [unit for unit in range(1, 65) if unit not in (10, 20, 30, 40)]
    for words, chain, numbers, places in (
        ("1 to 4 out, rising", [*range(5, 65)], (1, 2, 3, 4), ((5, 1), (34, 30), (35, 31), (64, 60))),
        ("61 to 64 out, falling", [*range(60, 0, -1)], (61, 62, 63, 64), ((60, 1), (31, 30), (30, 31), (1, 60))),
        ("four between out, rising", between, (10, 20, 30, 40), ((1, 1), (9, 9), (11, 10), (41, 37), (64, 60))),
        ("four between out, falling", between[::-1], (10, 20, 30, 40), ((64, 1), (41, 24), (39, 25), (1, 60))),
    ):
        for unit, place in places:
            assert chain[place - 1] == unit, (words, unit)
            sixty(f"{words}: member {unit} unreadable", chain, numbers, blank(place), FAR, {unit: UNREADABLE})
        all_four = {number: STRANGER_UNREADABLE for number in numbers}
        sixty(f"{words}: all four unreadable", chain, numbers, CLEAR_60, sent=all_four)
        last = chain[59]
        sixty(f"{words}: all four and {last} unreadable", chain, numbers, blank(60), FAR, {last: UNREADABLE, **all_four})
    for words, chain, numbers in (
        ("1 to 4 out", [*range(5, 65)], (1, 2, 3, 4)),
        ("61 to 64 out", [*range(1, 61)], (61, 62, 63, 64)),
    ):
        sixty(f"{words}: on target", chain, numbers, CLEAR_60)
        for kind, number in zip(four, numbers):
            label = f"{words}: unit {number} of kind {kind} unreadable"
            sixty(label, chain, numbers, CLEAR_60, sent={number: STRANGER_UNREADABLE})
        # conformance mode 1 is unreadable in no chain, and their power is no part of the sums
        sixty(f"{words}: all four in mode 1, far off", chain, numbers, CLEAR_60, sent={number: FAR for number in numbers})


def goes_on():
    """What does not end a pass: bad quality, nothing kept, a line before that is unreadable, quality 1, conformance mode 0."""
    # Turning: units 2, 4 and 1 are at 1, 2 and the last place; of 4 unit 3 is at 3, of 60 units 60 and 59 at 30 and 31, of 64
    # units 64 and 63 at 32 and 33.
    for length, middle, later, later_place, clear in (
        (4, 4, 3, 3, CLEAR_4),
        (60, 60, 59, 31, CLEAR_60),
        (64, 64, 63, 33, CLEAR_64),
    ):
        chain, first, last, whole = turning(length), 2, 1, blank(length)
        assert chain[later_place - 1] == later and chain.index(middle) == later_place - 2, length

        def turn(words, answer, sent, others=ON_TARGET):
            one_pass(f"{length}: {words}", chain, answer, others, sent)

        three = (("first", first), ("middle", middle), ("last", last))
        for words, sent in (("bad", BAD_LINE), ("nothing kept", UNKEPT), ("unreadable before", UNREADABLE_BEFORE)):
            for where, unit in three:
                turn(f"{words} at the {where} place", whole, {unit: sent})
            turn(f"{words} first, later unreadable", blank(later_place), {first: sent, later: UNREADABLE})
            turn(f"{words} everywhere, last unreadable", whole, {last: UNREADABLE}, sent)
        turn("bad, nothing kept, then later unreadable", blank(later_place), {2: BAD_LINE, 4: UNKEPT, later: UNREADABLE})
        # quality 1: on target CLEAR, see `none_unreadable` for DOUBT
        turn("substituted at the first place", clear, {first: SUBSTITUTED_LINE})
        turn("substituted everywhere", clear, {}, SUBSTITUTED_LINE)
        turn("substituted everywhere, last unreadable", whole, {last: UNREADABLE}, SUBSTITUTED_LINE)
        # Conformance modes. OFF goes before bad quality and nothing kept, but not before an unreadable line.
        turn("mode 0 at the first place", clear, {first: MODE_0})
        turn("mode 1 at the last place, others 0", clear, {last: ON_TARGET}, MODE_0)
        turn("all modes 0, bad at the first place", off(length), {first: MODE_0_BAD}, MODE_0)
        turn("all modes 0, the first unreadable", blank(1), {first: MODE_0_UNREADABLE}, MODE_0)
        turn("all modes 0, a later one unreadable", blank(later_place), {later: MODE_0_UNREADABLE}, MODE_0)
        turn("all modes 0, the last unreadable", whole, {last: MODE_0_UNREADABLE}, MODE_0)
        turn("modes 0, the last of mode 1 unreadable", whole, {last: UNREADABLE}, MODE_0)
        if length != 4:
            continue
        for words, sent in (("bad", BAD_LINE), ("nothing kept", UNKEPT), ("unreadable before", UNREADABLE_BEFORE)):
            turn(f"{words} everywhere", whole, {}, sent)
            turn(f"{words} first, last unreadable", whole, {first: sent, last: UNREADABLE})
            turn(f"{words} last, first unreadable", blank(1), {first: UNREADABLE, last: sent})
            turn(f"{words} last, later unreadable", blank(later_place), {later: UNREADABLE, last: sent})
            turn(f"{words} everywhere, later unreadable", blank(later_place), {later: UNREADABLE}, sent)
        turn("unreadable now and before, later", blank(later_place), {later: UNREADABLE_TWICE})
        turn("bad now, unreadable before, first", whole, {first: sample(BAD, UNLISTED)})
        turn("substituted first, later unreadable", blank(later_place), {first: SUBSTITUTED_LINE, later: UNREADABLE})
        turn("mode 0 first, later unreadable", blank(later_place), {first: MODE_0, later: UNREADABLE})
        for where, unit in three[1:]:
            turn(f"substituted at the {where} place", clear, {unit: SUBSTITUTED_LINE})
            turn(f"mode 0 at the {where} place", clear, {unit: MODE_0})
            turn(f"all modes 0, bad at the {where} place", off(4), {unit: MODE_0_BAD}, MODE_0)
        for where, unit in three:
            turn(f"mode 2 at the {where} place, others 0", clear, {unit: MODE_2}, MODE_0)
            turn(f"all modes 0, nothing kept at the {where} place", off(4), {unit: MODE_0_UNKEPT}, MODE_0)
        turn("mode 1 at the first place, others 0", clear, {first: ON_TARGET}, MODE_0)
        turn("all modes 2", clear, {}, MODE_2)
        turn("all modes 0, all bad", off(4), {}, MODE_0_BAD)
        turn("all modes 0, nothing kept", off(4), {}, MODE_0_UNKEPT)
        turn("all modes 0, all unreadable", blank(1), {}, MODE_0_UNREADABLE)
        turn("all modes 0, bad first, the last unreadable", whole, {first: MODE_0_BAD, last: MODE_0_UNREADABLE}, MODE_0)
    # a chain of one
    for words, sent, answer in (
        ("bad", BAD_LINE, blank(1)),
        ("nothing kept", UNKEPT, blank(1)),
        ("unreadable before", UNREADABLE_BEFORE, blank(1)),
        ("substituted", SUBSTITUTED_LINE, CLEAR_1),
        ("mode 0", MODE_0, off(1)),
        ("mode 0, bad", MODE_0_BAD, off(1)),
        ("mode 0, nothing kept", MODE_0_UNKEPT, off(1)),
        ("mode 0, unreadable", MODE_0_UNREADABLE, blank(1)),
        ("mode 2", MODE_2, CLEAR_1),
    ):
        one_pass(f"1: {words}", [1], answer, sent)


# What makes a line unreadable whatever its quality is, and of which kinds.
WAYS = (
    ("mode 3", {"mode": 3}, (GENERATING,)),
    ("mode 255", {"mode": 255}, (GENERATING,)),
    ("byte 2 is 1", {"byte 2": 1}, (GENERATING, LOAD, BIDIRECTIONAL)),
    ("byte 2 is 128", {"byte 2": 128}, (GENERATING,)),
    ("byte 3 is 1", {"byte 3": 1}, (GENERATING, LOAD, BIDIRECTIONAL)),
    ("byte 3 is 255", {"byte 3": 255}, (GENERATING,)),
    ("target 2000001", {"target": 2000001}, (GENERATING, LOAD, BIDIRECTIONAL)),
    ("target -2000001", {"target": -2000001}, (GENERATING, LOAD, BIDIRECTIONAL)),
    ("the largest i32 as target", {"target": 2147483647}, (BIDIRECTIONAL,)),
    ("the smallest i32 as target", {"target": -2147483648}, (BIDIRECTIONAL,)),
    ("target -1", {"target": -1}, (GENERATING, LOAD)),
    ("target -2000000", {"target": -2000000}, (GENERATING, LOAD)),
    *((f"{name} {value}", {name: value}, (GENERATING,)) for name in UNSIGNED for value in (2000001, 4294967295)),
)
# Bits of a float that make a line unreadable, in the place of which reading; with quality 2 they are not read.
NUMBERLESS = (("NaN", "7FC00000"), ("negative NaN", "FFC00000"), ("infinity", "7F800000"), ("minus infinity", "FF800000"))
BITS = (
    *((words, bits, READINGS) for words, bits in NUMBERLESS),
    ("the float above 2000.0", "44FA0001", READINGS),
    ("the float below -2000.0", "C4FA0001", READINGS),
    ("the float below zero", "80000001", ("ramp up", "ramp down")),
    ("-1.0", "BF800000", ("ramp up", "ramp down")),
    ("-2000.0", "C4FA0000", ("ramp up", "ramp down")),
)

# What is readable at its bound, of which kind, and what the chain of 4 gives with it. MWB of this line only decides a direction.
# 3 x 2,300,000 = 6,900,000 against 200 x 12,000 = 2,400,000; 2,000,000 + 300,000 - 400,000; -(400,000 - (300,000 - 2,000,000));
# rates of 0 make ROC 9,000, and 200 x 9,000 = 1,800,000 is above 1,200,000. At a bound a rate is not the least of its four. A
# bidirectional unit stands on the side of generating units. A load: 300,000 - 100,000, MWO 300,000 against 100,000 and ROC 9,000,
# so 900,000 against 1,800,000.
AT_BOUND = (
    ("mode 2", {"mode": 2}, GENERATING, CLEAR_4),
    ("target 0", {"target": 0}, GENERATING, CLEAR_4),
    ("target 2000000", {"target": 2000000}, GENERATING, CLEAR_4),
    ("target -1", {"target": -1}, BIDIRECTIONAL, CLEAR_4),
    ("target -2000000", {"target": -2000000}, BIDIRECTIONAL, CLEAR_4),
    ("target 0", {"target": 0}, LOAD, "CLEAR 0 900000 200000 4"),
    ("target 2000000", {"target": 2000000}, LOAD, "CLEAR 0 900000 200000 4"),
    ("availability 2000000", {"availability": 2000000}, GENERATING, "CLEAR 0 2400000 400000 4"),
    ("raise 2000000", {"raise": 2000000}, GENERATING, CLEAR_4),
    ("lower 2000000", {"lower": 2000000}, GENERATING, CLEAR_4),
    ("bid up 2000000", {"bid up": 2000000}, GENERATING, CLEAR_4),
    ("bid down 2000000", {"bid down": 2000000}, GENERATING, CLEAR_4),
    ("MW 2000.0", {"MW": "44FA0000"}, GENERATING, "LARGE 1900000 1200000 2300000 4"),
    ("MW -2000.0", {"MW": "C4FA0000"}, GENERATING, "LARGE -2100000 1200000 -1700000 4"),
    ("ramp up 2000.0", {"ramp up": "44FA0000"}, GENERATING, CLEAR_4),
    ("ramp down 2000.0", {"ramp down": "44FA0000"}, GENERATING, CLEAR_4),
    ("ramp up minus zero", {"ramp up": "80000000"}, GENERATING, CLEAR_4),
    ("ramp down minus zero", {"ramp down": "80000000"}, GENERATING, CLEAR_4),
)


def ways():
    """Each way for a line to be unreadable, in unit 4 at the second place of 2 4 3 1."""

    def second(label, answer, now, kept, kind=GENERATING):
        one_pass(label, turning(4), answer, ON_TARGET, {4: sample(now, kept)}, kinds={4: kind})

    for quality in (3, 4, 128, 255):
        second(f"way: quality {quality}", blank(2), {"quality": quality}, {})
    for words, changed, kinds in WAYS:
        for kind in kinds:
            second(f"way: {words}, kind {kind}", blank(2), changed, {}, kind)
        second(f"way: {words}, bad", blank(2), {**changed, **BAD}, {}, kinds[0])
        # in the line before: nothing kept
        second(f"way before: {words}", blank(4), {}, changed, kinds[0])
    for words, bits, names in BITS:
        for name in names:
            second(f"way: {name} {words}", blank(2), {name: bits}, {})
            second(f"not read: {name} {words}, bad", blank(4), {name: bits, **BAD}, {})
        last = names[-1]
        second(f"way: {last} {words}, substituted", blank(2), {last: bits, **SUBSTITUTED}, {})
        second(f"way before: {last} {words}", blank(4), {}, {last: bits})
        # a line of bad quality is kept, floats and all: the four are on target
        second(f"not read before: {last} {words}, bad", CLEAR_4, {}, {last: bits, **BAD})
    second("way: MW NaN, substituted", blank(2), {"MW": "7FC00000", **SUBSTITUTED}, {})
    second("way before: MW NaN", blank(4), {}, {"MW": "7FC00000"})
    everywhere = {name: "7FC00000" for name in READINGS}
    second("way: three NaNs", blank(2), everywhere, {})
    second("not read: three NaNs, bad", blank(4), {**everywhere, **BAD}, {})
    for words, changed, kind, answer in AT_BOUND:
        second(f"at its bound: {words}, kind {kind}", answer, changed, {}, kind)
    # kept: 300,000 - 1 = 299,999 and 400,000 - 299,999 = 100,001; 300,000 - 2,000,000 and 400,000 + 1,700,000
    second("kept target -1, kind 3", "LARGE 100001 1200000 400000 4", {}, {"target": -1}, BIDIRECTIONAL)
    second("kept target -2000000, kind 3", "LARGE 2100000 1200000 400000 4", {}, {"target": -2000000}, BIDIRECTIONAL)
    second("the line before has mode 0", CLEAR_4, {}, {"mode": 0})
    second("the line before is substituted", CLEAR_4, {}, SUBSTITUTED)

    # the same unreadable lines elsewhere: unit 2 first, unit 1 last
    for unit, place in ((2, 1), (1, 4)):
        for words, changed in (
            ("mode 3", {"mode": 3}),
            ("byte 3 is 1", {"byte 3": 1}),
            ("target -1", {"target": -1}),
            ("lower 2000001", {"lower": 2000001}),
            ("MW NaN", {"MW": "7FC00000"}),
            ("ramp down -1.0", {"ramp down": "BF800000"}),
        ):
            one_pass(f"way at place {place}: {words}", turning(4), blank(place), ON_TARGET, {unit: sample(changed, {})})
    # Two ways in one chain: the first ends it. What is unreadable for kind 1 at its second place is readable for kind 3, so that
    # the pass goes on to the third.
    sent = {4: sample({"target": -1}, {}), 3: sample({"byte 2": 1}, {})}
    one_pass("target -1 of kind 1, then byte 2", turning(4), blank(2), ON_TARGET, sent)
    one_pass("target -1 of kind 3, then byte 2", turning(4), blank(3), ON_TARGET, sent, kinds={4: BIDIRECTIONAL})
    sent = {4: sample({"MW": "7FC00000", **BAD}, {}), 3: sample({"MW": "7FC00000"}, {})}
    one_pass("NaN of bad quality, then of good", turning(4), blank(3), ON_TARGET, sent)


def unused_sums():
    """An aggregate with an unreadable member is BLANK with 0 0 0, whatever the sums of all or some of its members would give."""
    high, low = sample({"MW": 2000000}, {}), sample({"MW": -2000000}, {})
    for length in (4, 60, 64):
        for words, others in (("high", high), ("low", low)):
            label = f"{length}: the first unreadable, others {words}"
            one_pass(label, turning(length), blank(1), others, {2: UNREADABLE})
            label = f"{length}: the last unreadable, others {words}"
            one_pass(label, turning(length), blank(length), others, {1: UNREADABLE})
    # all that is unreadable is the line's byte 2; its power would make it LARGE, or cancel what the others are off by
    alone = sample({"MW": 2000000, "byte 2": 1}, {})
    one_pass("4: the unreadable one alone is off", turning(4), blank(3), ON_TARGET, {3: alone})
    cancelling = sample({"MW": 0, "byte 2": 1}, {})
    one_pass("4: the unreadable one would cancel", turning(4), blank(3), ON_TARGET, {2: sample({"MW": 200000}, {}), 3: cancelling})
    # nothing at all in the unreadable one: the other three are on target without it
    empty = {"target": 0, "availability": 0, "MW": 0}
    for unit, place in ((2, 1), (3, 3), (1, 4)):
        one_pass(f"4: an empty line at {place}", turning(4), blank(place), ON_TARGET, {unit: sample({**empty, "byte 2": 1}, empty)})
    # 300,000 and 300,000 once that line is readable: small max(600,000, min(900,000, 200 x 12,000))
    answer = "CLEAR 0 900000 300000 4"
    one_pass("4: an empty line, readable", turning(4), answer, ON_TARGET, {3: sample(empty, empty)})
    # off before the unreadable one, off behind it
    one_pass("4: off before the unreadable one", turning(4), blank(3), ON_TARGET, {4: FAR, 3: UNREADABLE})
    one_pass("4: off behind the unreadable one", turning(4), blank(3), ON_TARGET, {1: FAR, 3: UNREADABLE})


def several():
    """Each aggregate has its own pass; a member of one that is unreadable does not end another's."""
    # two chains of 4
    for words, chains, rows in (
        (
            "side by side",
            [[1, 2, 3, 4], [5, 6, 7, 8]],
            (
                ((), (CLEAR_4, CLEAR_4)),
                ((1,), (blank(1), CLEAR_4)),
                ((4,), (blank(4), CLEAR_4)),
                ((5,), (CLEAR_4, blank(1))),
                ((8,), (CLEAR_4, blank(4))),
                ((4, 5), (blank(4), blank(1))),
                ((2, 7), (blank(2), blank(3))),
            ),
        ),
        (
            "the later units first",
            [[8, 7, 6, 5], [4, 3, 2, 1]],
            (
                ((), (CLEAR_4, CLEAR_4)),
                ((1,), (CLEAR_4, blank(4))),
                ((4,), (CLEAR_4, blank(1))),
                ((5,), (blank(4), CLEAR_4)),
                ((8,), (blank(1), CLEAR_4)),
                ((2, 7), (blank(2), blank(3))),
            ),
        ),
        (
            "odd up, even down",
            [[1, 3, 5, 7], [8, 6, 4, 2]],
            (
                ((), (CLEAR_4, CLEAR_4)),
                ((1,), (blank(1), CLEAR_4)),
                ((2,), (CLEAR_4, blank(4))),
                ((1, 2), (blank(1), blank(4))),
                ((3, 4), (blank(2), blank(3))),
                ((5, 6), (blank(3), blank(2))),
                ((7, 8), (blank(4), blank(1))),
                ((2, 4, 6, 8), (CLEAR_4, blank(1))),
                ((1, 3, 5, 7), (blank(1), CLEAR_4)),
            ),
        ),
    ):
        for units, answers in rows:
            which = "none" if not units else " ".join(map(str, units))
            passes(f"two, {words}: {which} unreadable", chains, answers, ON_TARGET, {unit: UNREADABLE for unit in units})
    # the neighbour's marks are its own: LARGE by one member at 120,001 as in `none_unreadable`, OFF, DOUBT by one at 112,001
    two = [[1, 3, 5, 7], [8, 6, 4, 2]]
    sent = {3: UNREADABLE, 2: sample({"MW": 120001}, {})}
    passes("two: BLANK beside LARGE", two, [blank(2), "LARGE 20001 1200000 420001 4"], ON_TARGET, sent)
    sent = {1: sample({"MW": 120001}, {}), 2: UNREADABLE}
    passes("two: LARGE beside BLANK", two, ["LARGE 20001 1200000 420001 4", blank(4)], ON_TARGET, sent)
    sent = {7: UNREADABLE, **{unit: MODE_0 for unit in two[1]}}
    passes("two: BLANK beside OFF", two, [blank(4), off(4)], ON_TARGET, sent)
    sent = {8: UNREADABLE, 1: sample({"MW": 112001, **SUBSTITUTED}, {})}
    passes("two: DOUBT beside BLANK", two, ["DOUBT 12001 1200000 412001 4", blank(1)], ON_TARGET, sent)
    passes("two: bad in one, unreadable in the other", two, [blank(4), blank(2)], ON_TARGET, {1: BAD_LINE, 6: UNREADABLE})
    passes("two: nothing kept in one, unreadable in the other", two, [blank(2), blank(4)], ON_TARGET, {3: UNREADABLE, 8: UNKEPT})

    # Four chains of 16: 1 to 16 rising; 32 to 17 falling, 27 at 33 - 27; 34, 36 .. 48, 47, 45 .. 33, where 33 is the last;
    # 49 to 64 rising, 50 the second.
    four = [[*range(1, 17)], [*range(32, 16, -1)], [*range(34, 49, 2), *range(47, 32, -2)], [*range(49, 65)]]
    passes("four of 16: none unreadable", four, [CLEAR_16] * 4, ON_TARGET)
    sent = {unit: UNREADABLE for unit in (1, 27, 33)}
    passes("four of 16: 1, 27 and 33 unreadable", four, [blank(1), blank(6), blank(16), CLEAR_16], ON_TARGET, sent)
    sent = {unit: UNREADABLE for unit in (16, 17, 48, 50)}
    passes("four of 16: 16, 17, 48 and 50 unreadable", four, [blank(16), blank(16), blank(8), blank(2)], FAR, sent)
    # Unit u in chain 1 + (u - 1) % 4: 30 is the 8th of 2, 6 .. 62, 63 the last of 3, 7 .. 63.
    four = [[*range(first, 65, 4)] for first in (1, 2, 3, 4)]
    sent = {unit: UNREADABLE for unit in (1, 30, 63)}
    passes("four across: 1, 30 and 63 unreadable", four, [blank(1), blank(8), blank(16), CLEAR_16], ON_TARGET, sent)
    sent = {unit: UNREADABLE for unit in range(2, 65, 4)}
    passes("four across: all of the second unreadable", four, [CLEAR_16, blank(1), CLEAR_16, CLEAR_16], ON_TARGET, sent)

    # Sixteen chains of 4, 4j - 3 to 4j. Units 1, 6, 11 and 16 are the 1st, 2nd, 3rd and 4th of theirs, 21, 26, 31 and 36 too, and
    # so on; none in 5, 10 and 15. Falling, they are the 4th, 3rd, 2nd and 1st.
    units = (1, 6, 11, 16, 21, 26, 31, 36, 41, 46, 51, 56, 61)
    sent = {unit: UNREADABLE for unit in units}
    answers = [blank(1), blank(2), blank(3), blank(4), CLEAR_4] * 3 + [blank(1)]
    sixteen = [[*range(last - 3, last + 1)] for last in range(4, 65, 4)]
    passes("sixteen of 4: none unreadable", sixteen, [CLEAR_4] * 16, ON_TARGET)
    passes("sixteen of 4: each at its own place", sixteen, answers, ON_TARGET, sent)
    answers = [blank(4), blank(3), blank(2), blank(1), CLEAR_4] * 3 + [blank(4)]
    passes("sixteen of 4 falling: each at its own place", [chain[::-1] for chain in sixteen], answers, ON_TARGET, sent)
    # the aggregates in the opposite order: the 16th comes first
    answers = [blank(1)] + [CLEAR_4, blank(4), blank(3), blank(2), blank(1)] * 3
    passes("sixteen of 4: the last units first", sixteen[::-1], answers, ON_TARGET, sent)
    passes("sixteen of 4: unit 1 unreadable", sixteen, [blank(1)] + [CLEAR_4] * 15, ON_TARGET, {1: UNREADABLE})
    passes("sixteen of 4: unit 64 unreadable", sixteen, [CLEAR_4] * 15 + [blank(4)], ON_TARGET, {64: UNREADABLE})
    # j, j + 16, j + 32, j + 48: 1 is the 1st of 1, 18 the 2nd of 2, 35 the 3rd of 3, 52 the 4th of 4, 64 the 4th of 16
    across = [[first, first + 16, first + 32, first + 48] for first in range(1, 17)]
    sent = {unit: UNREADABLE for unit in (1, 18, 35, 52, 64)}
    answers = [blank(1), blank(2), blank(3), blank(4)] + [CLEAR_4] * 11 + [blank(4)]
    passes("sixteen across: 1, 18, 35, 52 and 64 unreadable", across, answers, ON_TARGET, sent)

    # sixteen chains of 1
    singles = [[unit] for unit in range(1, 17)]
    answers = [CLEAR_1] * 16
    passes("sixteen of 1: none unreadable", singles, answers, ON_TARGET)
    passes("sixteen of 1: all unreadable", singles, [blank(1)] * 16, UNREADABLE)
    answers = [CLEAR_1, blank(1)] + [CLEAR_1] * 6 + [blank(1)] + [CLEAR_1] * 6 + [blank(1)]
    passes("sixteen of 1: 2, 9 and 16 unreadable", singles, answers, ON_TARGET, {unit: UNREADABLE for unit in (2, 9, 16)})

    # Chains of 1 to 10, of 1 three times and of 2 three times, 55 + 3 + 6 = 64 units, one behind the other. Each unit adds 300,000
    # to 3 x MWO, 600,000 to 200 x ROC and 100,000 to the level; 600,000 is the least trigger.
    firsts = (1, 2, 4, 7, 11, 16, 22, 29, 37, 46, 56, 57, 58, 59, 61, 63)
    lasts = (1, 3, 6, 10, 15, 21, 28, 36, 45, 55, 56, 57, 58, 60, 62, 64)
    chains = [[*range(first, last + 1)] for first, last in zip(firsts, lasts)]
    clear_2 = "CLEAR 0 600000 200000 2"
    answers = [CLEAR_1, clear_2, "CLEAR 0 900000 300000 3", CLEAR_4, "CLEAR 0 1500000 500000 5", "CLEAR 0 1800000 600000 6"]
    answers += ["CLEAR 0 2100000 700000 7", "CLEAR 0 2400000 800000 8", "CLEAR 0 2700000 900000 9", "CLEAR 0 3000000 1000000 10"]
    answers += [CLEAR_1] * 3 + [clear_2] * 3
    passes("of 1 to 10: none unreadable", chains, answers, ON_TARGET)
    passes("of 1 to 10: all firsts unreadable", chains, [blank(1)] * 16, FAR, {unit: UNREADABLE for unit in firsts})
    answers = [blank(length) for length in (1, 2, 3, 4, 5, 6, 7, 8, 9, 10, 1, 1, 1, 2, 2, 2)]
    passes("of 1 to 10: all lasts unreadable", chains, answers, FAR, {unit: UNREADABLE for unit in lasts})
    # backwards the firsts are the last ones
    sent = {unit: UNREADABLE for unit in firsts}
    passes("of 1 to 10, backwards: all firsts unreadable", [chain[::-1] for chain in chains], answers, FAR, sent)

    # a chain of 60 beside one of 4
    for words, chains, rows in (
        (
            "60 and 4",
            [[*range(1, 61)], [61, 62, 63, 64]],
            (
                ((), (CLEAR_60, CLEAR_4)),
                ((1,), (blank(1), CLEAR_4)),
                ((60,), (blank(60), CLEAR_4)),
                ((61,), (CLEAR_60, blank(1))),
                ((64,), (CLEAR_60, blank(4))),
                ((60, 61), (blank(60), blank(1))),
                ((31, 63), (blank(31), blank(3))),
            ),
        ),
        (
            "4 and 60",
            [[64, 63, 62, 61], [*range(60, 0, -1)]],  # 65 - unit, and 61 - unit
            (
                ((), (CLEAR_4, CLEAR_60)),
                ((1,), (CLEAR_4, blank(60))),
                ((60,), (CLEAR_4, blank(1))),
                ((61,), (blank(4), CLEAR_60)),
                ((62, 24), (blank(3), blank(37))),
            ),
        ),
        (
            # falling around the four: 61 is the 4th, 59 the 5th, 46 at 65 - 46 - 1, 44 at 65 - 44 - 2, 1 at 65 - 1 - 4
            "4 within 60",
            [[15, 30, 45, 60], [unit for unit in range(64, 0, -1) if unit not in (15, 30, 45, 60)]],
            (
                ((), (CLEAR_4, CLEAR_60)),
                ((60,), (blank(4), CLEAR_60)),
                ((15, 61), (blank(1), blank(4))),
                ((30, 59), (blank(2), blank(5))),
                ((45, 46), (blank(3), blank(18))),
                ((45, 44), (blank(3), blank(19))),
                ((1,), (CLEAR_4, blank(60))),
            ),
        ),
    ):
        for units, answers in rows:
            which = "none" if not units else " ".join(map(str, units))
            passes(f"{words}: {which} unreadable", chains, answers, ON_TARGET, {unit: UNREADABLE for unit in units})
    # 60 x 400,000 = 24,000,000 off: level 30,000,000, 2,400,000,000 against 30,000,000
    sent = {unit: ON_TARGET for unit in (61, 62, 64)} | {63: UNREADABLE}
    answers = ["LARGE 24000000 18000000 30000000 60", blank(3)]
    passes("60 far off beside a BLANK of 4", [[*range(1, 61)], [61, 62, 63, 64]], answers, FAR, sent)

    # 63 and 1; 32 and 32. 63: 3 x 6,300,000 against 200 x 189,000. 32: 3 x 3,200,000 against 200 x 96,000.
    clear_63, clear_32 = "CLEAR 0 18900000 6300000 63", "CLEAR 0 9600000 3200000 32"
    chains = [[*range(64, 1, -1)], [1]]
    passes("63 and 1: none unreadable", chains, [clear_63, CLEAR_1], ON_TARGET)
    passes("63 and 1: unit 1 unreadable", chains, [clear_63, blank(1)], ON_TARGET, {1: UNREADABLE})
    passes("63 and 1: unit 2 unreadable", chains, [blank(63), CLEAR_1], ON_TARGET, {2: UNREADABLE})
    passes("63 and 1: unit 64 unreadable", chains, [blank(1), CLEAR_1], ON_TARGET, {64: UNREADABLE})
    chains = [[*range(1, 64, 2)], [*range(64, 0, -2)]]  # odd up, even down: 33 is the 17th, 32 the 17th, 2 the last
    passes("32 and 32: none unreadable", chains, [clear_32, clear_32], ON_TARGET)
    passes("32 and 32: 33 and 32 unreadable", chains, [blank(17), blank(17)], ON_TARGET, {33: UNREADABLE, 32: UNREADABLE})
    passes("32 and 32: 2 unreadable", chains, [clear_32, blank(32)], ON_TARGET, {2: UNREADABLE})


def registers():
    """A refused register prints its refusal alone, one without aggregates nothing; the case behind it is read all the same."""

    def refused(label, registered, number):
        put(f"refused: {label}", registered, [f"refused {number}"], [ON_TARGET, UNREADABLE], [0, 1])

    def silent(label, registered, samples):
        put(f"no aggregate: {label}", registered, [], samples, [0])

    good = units_of([rising(4)])
    refused("empty", b"", 1)
    refused("15 bytes", good[:15], 1)
    refused("a byte too short", good[:-1], 1)
    refused("a byte too long", good + b"\0", 1)
    refused("65 units", register(LENGTHS, [(GENERATING, 0)] * 65, [1]), 2)
    refused("17 aggregates", units_of([[unit] for unit in range(1, 18)]), 2)
    refused("run lengths", register((2, 2, 4, 2, 3, 4), [(GENERATING, 0)], [1]), 3)
    refused("kind 5", units_of([rising(4)], kinds={3: 5}), 4)
    refused("next above n", register(LENGTHS, [(GENERATING, 3), (GENERATING, 0)], [1]), 5)
    refused("head 0", register(LENGTHS, [(GENERATING, 0)], [0]), 5)
    refused("a loop of 64", register(LENGTHS, [(GENERATING, unit % 64 + 1) for unit in range(1, 65)], [1]), 6)
    refused("a unit in two chains", units_of([[1, 3], [2, 3]]), 6)
    refused("next in no chain", register(LENGTHS, [(GENERATING, 0), (GENERATING, 1)], [1]), 7)
    refused("kind 4 at the end of a chain of 60", units_of([rising(60)], kinds={60: SEMI_SCHEDULED}), 30)
    refused("region 5", register(LENGTHS, [(GENERATING, 0, 5)], [1]), 4)
    refused("a chain across regions", register(LENGTHS, [(GENERATING, 2, 3), (GENERATING, 0, 4)], [1]), 37)
    silent("one unit", register(LENGTHS, [(GENERATING, 0)]), [STRANGER])
    silent("one unit, unreadable", register(LENGTHS, [(GENERATING, 0)]), [STRANGER_UNREADABLE])
    silent("64 units", register(LENGTHS, [(1 + unit % 4, 0) for unit in range(64)]), [STRANGER])
    silent("64 units, all unreadable", register(LENGTHS, [(1 + unit % 4, 0) for unit in range(64)]), [STRANGER_UNREADABLE])
    # Regions change no pass: 1 -> 2 in region 4, 3 in region 1.
    two_regions = register(LENGTHS, [(GENERATING, 2, 4), (GENERATING, 0, 4), (GENERATING, 0, 1)], [1, 3])
    put("two regions", two_regions, numbered([blank(2), CLEAR_1]), [ON_TARGET, UNREADABLE], [0, 1, 0])
    one_pass("behind a register without aggregates", rising(4), blank(2), ON_TARGET, {2: UNREADABLE})


def samples_and_picks():
    """How a case is read: which sample is a unit's, and what is kept."""

    def picked(label, chain, answer, samples, picks):
        put(f"picks: {label}", units_of([chain]), numbered([answer]), samples, picks)

    two = [ON_TARGET, UNREADABLE]
    picked("one for 64 units", rising(64), CLEAR_64, two, [0])
    picked("one for 64 units, unreadable", rising(64), blank(1), two, [1])
    # every fourth unit: 4, 8 .. 64. Falling, 64 comes first; with the third instead, 63 is the second.
    picked("the fourth of four, rising", rising(64), blank(4), two, [0, 0, 0, 1])
    picked("the fourth of four, falling", falling(64), blank(1), two, [0, 0, 0, 1])
    picked("the third of four, falling", falling(64), blank(2), two, [0, 0, 1, 0])
    # 63 picks: unit 64 has the first again
    picked("63 for 64 units, the last", rising(64), blank(63), two, [0] * 62 + [1])
    picked("63 for 64 units, the first", falling(64), blank(1), two, [1] + [0] * 62)
    # more picks than units: the 5th to the 255th are no unit's
    picked("255 for 4 units", rising(4), CLEAR_4, two, [0] * 4 + [1] * 251)
    picked("255 for 4 units, the 3rd", rising(4), blank(3), two, [0, 0, 1, 0] + [1] * 251)
    # 2, 254 and 255 of two samples are 0, 0 and 1; 3 and 255 of three are 0
    picked("beyond two samples, even", rising(4), CLEAR_4, two, [0, 2, 4, 254])
    picked("beyond two samples, odd", rising(4), blank(4), two, [0, 2, 254, 255])
    picked("beyond three samples", rising(4), CLEAR_4, [ON_TARGET, UNREADABLE, UNREADABLE], [0, 3, 6, 255])
    picked("beyond one sample", rising(4), CLEAR_4, [ON_TARGET], [0, 1, 128, 255])
    # A sample for each unit: unit u at 100,000 + u, so 1 + 2 + .. + 64 = 64 x 65/2 = 2,080 above the target.
    own = [sample({"MW": 100000 + unit}, {}) for unit in range(1, 65)]
    picked("64 samples for 64 units", turning(64), "CLEAR 2080 19200000 6402080 64", own, range(64))

    # A line is kept where the first byte is 1, and nothing otherwise, though a good line stands there.
    good = line({"mode": 1}) * 2
    for first, answer in ((0, blank(4)), (1, CLEAR_4), (2, blank(4)), (128, blank(4)), (255, blank(4))):
        for words, chain, unit in (("first", rising(4), 1), ("last", falling(4), 1)):
            sent = {unit: bytes([first]) + good}
            one_pass(f"first byte {first} at the {words} place", chain, answer, ON_TARGET, sent)
    # nothing kept, by a byte of 255, and unreadable further on
    sent = {1: bytes([255]) + good, 3: UNREADABLE}
    one_pass("first byte 255, then unreadable", rising(4), blank(3), ON_TARGET, sent)


def trial():
    """The blocks of cases, and what is printed of them."""
    for section in (one_unreadable, more_unreadable, none_unreadable, strangers, goes_on, ways, unused_sums):
        section()
    for section in (several, registers, samples_and_picks):
        section()
    return made(cases, BLOCKS)
