"""The cases of telemetry for crates/trials, and what it prints of each; `tools/make_trials.py` writes them.

Each case is one line of a unit. Its answer is stated here by hand from 01, "The interval buffer", and for kind 4 from 02,
2026-01: `unreadable`, or the numbers that were put in, with the readings in whole kW. The monitor's code is never run.
A reading's kW is checked against exact fractions besides.
"""

from lines import READINGS, UNSIGNED, made, nearest_kw, packed


# The fields of a plain good line: all different, so that none can stand for another.
PLAIN = {
    "quality": 0,
    "mode": 0,
    "byte 2": 0,
    "byte 3": 0,
    "target": 66051,
    "availability": 131844,
    "raise": 1286,
    "lower": 1800,
    "bid up": 2571,
    "bid down": 3342,
    "MW": 0x42C80000,  # 100.0
    "ramp up": 0x40400000,  # 3.0
    "ramp down": 0x40900000,  # 4.5
}
# Byte 2 of a readable line is the cap flag of a unit of kind 4, and zero for the others.
PRINTED = ["mode", "byte 2", "target", "availability", "raise", "lower", "bid up", "bid down"]
RATES = ["ramp up", "ramp down"]
PLAIN_KW = {"MW": 100000, "ramp up": 3000, "ramp down": 4500}
WORDS = {0: "good", 1: "substituted", 2: "missing"}
PLACES = {False: "in no chain", True: "in a chain"}
UNREADABLE = "unreadable"

cases = []  # label, what the program reads, the answer


def put(label, kind, chained, line, answer):
    cases.append((label, bytes([kind, chained, len(line)]) + line, answer))


def unreadable(label, changed, kind=1, chained=False):
    put(label, kind, chained, packed({**PLAIN, **changed}), UNREADABLE)


def readable(label, changed, kw=None, kind=1, chained=False):
    """`kw`: the whole kW of the readings that differ from the plain line's."""
    f = {**PLAIN, **changed}
    if f["quality"] == 2:
        assert kw is None
        readings = [0, 0, 0]
    else:
        stated = {**PLAIN_KW, **(kw or {})}
        readings = [stated[name] for name in READINGS]
        for name, whole in zip(READINGS, readings):
            assert nearest_kw(f[name]) == whole, (label, name, whole)
    numbers = [f[name] for name in PRINTED] + readings
    put(label, kind, chained, packed(f), " ".join([WORDS[f["quality"]], *map(str, numbers)]))


def plain_lines():
    readable("a plain good line", {})
    readable("a plain substituted line", {"quality": 1})
    readable("a plain bad line", {"quality": 2})
    for kind in (1, 2, 3, 4):
        for chained in (False, True):
            readable(f"a good line of kind {kind} {PLACES[chained]}", {}, kind=kind, chained=chained)
    for kind in (0, 5, 255):
        unreadable(f"kind {kind}", {}, kind=kind)
        unreadable(f"kind {kind} with target 0", {"target": 0}, kind=kind)
        unreadable(f"kind {kind} in a chain, quality 2", {"quality": 2}, kind=kind, chained=True)
        unreadable(f"kind {kind}, byte 2 is 1", {"byte 2": 1}, kind=kind)


def heads():
    for quality in (3, 4, 128, 255):
        unreadable(f"quality {quality}", {"quality": quality})
    for mode in (0, 1, 2):
        readable(f"mode {mode} in a chain", {"mode": mode}, chained=True)
        readable(f"mode {mode} in a chain, quality 2", {"mode": mode, "quality": 2}, chained=True)
    for mode in (3, 255):
        unreadable(f"mode {mode} in a chain", {"mode": mode}, chained=True)
        unreadable(f"mode {mode} in a chain, quality 2", {"mode": mode, "quality": 2}, chained=True)
    for mode in (1, 2, 3):
        unreadable(f"mode {mode} in no chain", {"mode": mode})
        unreadable(f"mode {mode} in no chain, quality 2", {"mode": mode, "quality": 2})
    for name in ("byte 2", "byte 3"):
        for value in (1, 128, 255):
            unreadable(f"{name} is {value}", {name: value})
        unreadable(f"{name} is 1, quality 2", {name: 1, "quality": 2})
        for kind in (2, 3):
            for value in (1, 255):
                unreadable(f"{name} is {value}, kind {kind}", {name: value}, kind=kind)
            unreadable(f"{name} is 1, kind {kind}, quality 2", {name: 1, "quality": 2}, kind=kind)
        for kind in (1, 2, 3):
            unreadable(f"{name} is 1, kind {kind} in a chain", {name: 1}, kind=kind, chained=True)


def cap_flags():
    """Byte 2 of a line of kind 4 is its cap flag, 0 or 1, whatever the quality. All else in its head is as for kind 1."""
    for chained, place in PLACES.items():
        for quality in WORDS:
            for flag in (0, 1):
                label = f"cap flag {flag}, quality {quality}, {place}"
                readable(label, {"byte 2": flag, "quality": quality}, kind=4, chained=chained)
            for flag in (2, 3, 128, 254, 255):
                label = f"cap flag {flag}, quality {quality}, {place}"
                unreadable(label, {"byte 2": flag, "quality": quality}, kind=4, chained=chained)
    for flag in (0, 1):
        for value in (1, 128, 255):
            unreadable(f"cap flag {flag}, byte 3 is {value}", {"byte 2": flag, "byte 3": value}, kind=4)
        changed = {"byte 2": flag, "byte 3": 1}
        unreadable(f"cap flag {flag}, byte 3 is 1, quality 2", {**changed, "quality": 2}, kind=4)
        unreadable(f"cap flag {flag}, byte 3 is 1, in a chain", changed, kind=4, chained=True)
        for quality in (3, 255):
            unreadable(f"cap flag {flag}, quality {quality}", {"byte 2": flag, "quality": quality}, kind=4)
        for mode in (1, 2):
            changed = {"byte 2": flag, "mode": mode}
            readable(f"cap flag {flag}, mode {mode} in a chain", changed, kind=4, chained=True)
            readable(f"cap flag {flag}, mode {mode} in a chain, quality 2", {**changed, "quality": 2}, kind=4, chained=True)
            unreadable(f"cap flag {flag}, mode {mode} in no chain", changed, kind=4)
            unreadable(f"cap flag {flag}, mode {mode} in no chain, quality 2", {**changed, "quality": 2}, kind=4)
        for mode in (3, 255):
            unreadable(f"cap flag {flag}, mode {mode} in a chain", {"byte 2": flag, "mode": mode}, kind=4, chained=True)
    # flag and mode do not stand for each other
    unreadable("cap flag 2, mode 1 in a chain", {"byte 2": 2, "mode": 1}, kind=4, chained=True)
    unreadable("cap flag 2, mode 2 in a chain", {"byte 2": 2, "mode": 2}, kind=4, chained=True)


def targets():
    for kind in (1, 2, 3, 4):
        readable(f"target 0, kind {kind}", {"target": 0}, kind=kind)
        readable(f"target at the upper bound, kind {kind}", {"target": 2000000}, kind=kind)
        unreadable(f"target one past the upper bound, kind {kind}", {"target": 2000001}, kind=kind)
        unreadable(f"target one past the lower bound, kind {kind}", {"target": -2000001}, kind=kind)
        unreadable(f"the largest i32 as target, kind {kind}", {"target": 2147483647}, kind=kind)
        unreadable(f"the smallest i32 as target, kind {kind}", {"target": -2147483648}, kind=kind)
    for kind in (1, 2, 4):
        unreadable(f"target -1, kind {kind}", {"target": -1}, kind=kind)
        unreadable(f"target -2000000, kind {kind}", {"target": -2000000}, kind=kind)
        unreadable(f"target -1, kind {kind}, quality 2", {"target": -1, "quality": 2}, kind=kind)
    capped = {"byte 2": 1}
    for target in (0, 1, 2000000):
        readable(f"target {target}, cap flag 1", {**capped, "target": target}, kind=4)
    readable("target 2000000, cap flag 1, quality 2", {**capped, "target": 2000000, "quality": 2}, kind=4)
    for target in (-1, -2000000, -2000001, 2000001, 2147483647, -2147483648):
        unreadable(f"target {target}, cap flag 1", {**capped, "target": target}, kind=4)
    for target in (-1, 2000001):
        unreadable(f"target {target}, cap flag 1, quality 2", {**capped, "target": target, "quality": 2}, kind=4)
    unreadable("target -1, kind 4 in a chain", {"target": -1}, kind=4, chained=True)
    readable("target -1, kind 3", {"target": -1}, kind=3)
    readable("target at the lower bound, kind 3", {"target": -2000000}, kind=3)
    readable("target at the lower bound, kind 3, quality 2", {"target": -2000000, "quality": 2}, kind=3)


def unsigned_fields():
    for name in UNSIGNED:
        readable(f"{name} 0", {name: 0})
        readable(f"{name} 2000000", {name: 2000000})
        unreadable(f"{name} 2000001", {name: 2000001})
        unreadable(f"{name} 2147483648", {name: 2147483648})
        unreadable(f"{name} 4294967295", {name: 4294967295})
        unreadable(f"{name} 2000001, quality 2", {name: 2000001, "quality": 2})
        readable(f"{name} 2000000, cap flag 1", {"byte 2": 1, name: 2000000}, kind=4)
        unreadable(f"{name} 2000001, cap flag 1", {"byte 2": 1, name: 2000001}, kind=4)


def slices():
    line = packed(PLAIN)
    for length in (0, 1, 39):
        put(f"a slice of {length} bytes", 1, False, line[:length], UNREADABLE)
    put("a slice of 41 bytes", 1, False, line + b"\0", UNREADABLE)
    put("a slice of 80 bytes", 1, False, line + line, UNREADABLE)
    line = packed({**PLAIN, "byte 2": 1})
    for length in (0, 1, 3, 39):
        put(f"a slice of {length} bytes, kind 4", 4, False, line[:length], UNREADABLE)
    put("a slice of 41 bytes, kind 4", 4, False, line + b"\0", UNREADABLE)


def float_bounds():
    readable("MW 2000.0", {"MW": 0x44FA0000}, {"MW": 2000000})
    readable("MW -2000.0", {"MW": 0xC4FA0000}, {"MW": -2000000})
    readable("MW the float below 2000.0", {"MW": 0x44F9FFFF}, {"MW": 2000000})
    readable("MW the float above -2000.0", {"MW": 0xC4F9FFFF}, {"MW": -2000000})
    unreadable("MW the float above 2000.0", {"MW": 0x44FA0001})
    unreadable("MW the float below -2000.0", {"MW": 0xC4FA0001})
    unreadable("MW the largest float", {"MW": 0x7F7FFFFF})
    unreadable("MW the smallest float", {"MW": 0xFF7FFFFF})
    for kind in (1, 2, 3, 4):
        readable(f"MW -1.0, kind {kind}", {"MW": 0xBF800000}, {"MW": -1000}, kind=kind)
    capped = {"byte 2": 1}
    readable("MW 2000.0, cap flag 1", {**capped, "MW": 0x44FA0000}, {"MW": 2000000}, kind=4)
    readable("MW -2000.0, cap flag 1", {**capped, "MW": 0xC4FA0000}, {"MW": -2000000}, kind=4)
    unreadable("MW the float above 2000.0, cap flag 1", {**capped, "MW": 0x44FA0001}, kind=4)
    unreadable("MW the float below -2000.0, cap flag 1", {**capped, "MW": 0xC4FA0001}, kind=4)
    for name in RATES:
        readable(f"{name} 0.0", {name: 0x00000000}, {name: 0})
        readable(f"{name} minus zero", {name: 0x80000000}, {name: 0})
        readable(f"{name} 2000.0", {name: 0x44FA0000}, {name: 2000000})
        readable(f"{name} the float below 2000.0", {name: 0x44F9FFFF}, {name: 2000000})
        unreadable(f"{name} the float above 2000.0", {name: 0x44FA0001})
        unreadable(f"{name} the float below zero", {name: 0x80000001})
        unreadable(f"{name} -1.0", {name: 0xBF800000})
        unreadable(f"{name} -2000.0", {name: 0xC4FA0000})
        unreadable(f"{name} the largest float", {name: 0x7F7FFFFF})
        readable(f"{name} minus zero, cap flag 1", {**capped, name: 0x80000000}, {name: 0}, kind=4)
        unreadable(f"{name} the float above 2000.0, cap flag 1", {**capped, name: 0x44FA0001}, kind=4)
        unreadable(f"{name} the float below zero, cap flag 1", {**capped, name: 0x80000001}, kind=4)


# What stands in a float's place; whether that is readable as MW, and as a rate, unless quality is 2. As kW each is 0.
PATTERNS = [
    ("a quiet NaN", 0x7FC00000, False, False),
    ("a signalling NaN", 0x7F800001, False, False),
    ("a NaN of ones", 0x7FFFFFFF, False, False),
    ("a negative quiet NaN", 0xFFC00000, False, False),
    ("a negative signalling NaN", 0xFF800001, False, False),
    ("infinity", 0x7F800000, False, False),
    ("minus infinity", 0xFF800000, False, False),
    ("the least subnormal", 0x00000001, True, True),
    ("the greatest subnormal", 0x007FFFFF, True, True),
    ("the least negative subnormal", 0x80000001, True, False),
    ("the most negative subnormal", 0x807FFFFF, True, False),
]


def patterns():
    for name in READINGS:
        for words, bits, as_power, as_rate in PATTERNS:
            for quality in (0, 1):
                label = f"{name} {words}, quality {quality}"
                changed = {name: bits, "quality": quality}
                if as_power if name == "MW" else as_rate:
                    readable(label, changed, {name: 0})
                else:
                    unreadable(label, changed)
            readable(f"{name} {words}, quality 2", {name: bits, "quality": 2})
    everywhere = {name: 0x7FC00000 for name in READINGS}
    readable("three NaNs, quality 2", {**everywhere, "quality": 2})
    readable("three floats past the bound, quality 2", {**{name: 0x44FA0001 for name in READINGS}, "quality": 2})
    for flag in (0, 1):
        for name in READINGS:
            for quality in (0, 1):
                changed = {"byte 2": flag, name: 0x7FC00000, "quality": quality}
                unreadable(f"{name} a quiet NaN, cap flag {flag}, quality {quality}", changed, kind=4)
        readable(f"three NaNs, cap flag {flag}, quality 2", {"byte 2": flag, **everywhere, "quality": 2}, kind=4)
    unreadable("three NaNs, cap flag 2, quality 2", {"byte 2": 2, **everywhere, "quality": 2}, kind=4)


# Bits of a positive float, its value in words, and its size in whole kW.
ROUNDED = [
    (0x3D7FFFFF, "the float below 0.0625", 62),
    (0x3D800000, "0.0625", 63),
    (0x3D800001, "the float above 0.0625", 63),
    (0x3E3FFFFF, "the float below 0.1875", 187),
    (0x3E400000, "0.1875", 188),
    (0x3E400001, "the float above 0.1875", 188),
    (0x3E9FFFFF, "the float below 0.3125", 312),
    (0x3EA00000, "0.3125", 313),
    (0x3EA00001, "the float above 0.3125", 313),
    (0x3F87FFFF, "the float below 1.0625", 1062),
    (0x3F880000, "1.0625", 1063),
    (0x3F880001, "the float above 1.0625", 1063),
    (0x4479FBFF, "the float below 999.9375", 999937),
    (0x4479FC00, "999.9375", 999938),
    (0x4479FC01, "the float above 999.9375", 999938),
    (0x44F9FDFF, "the float below 1999.9375", 1999937),
    (0x44F9FE00, "1999.9375", 1999938),
    (0x44F9FE01, "the float above 1999.9375", 1999938),
    (0x3A03126E, "the float below 0.0005", 0),
    (0x3A03126F, "the float above 0.0005", 1),
    (0x3AC49BA5, "the float below 0.0015", 1),
    (0x3AC49BA6, "the float above 0.0015", 2),
    (0x00800000, "the least normal float", 0),
    (0x36FFFFFF, "the float below 2 to the power -17", 0),
    (0x37000000, "2 to the power -17", 0),
    (0x3A000000, "2 to the power -11", 0),
    (0x3A800000, "2 to the power -10", 1),
    (0x3B7FFFFF, "the float below 2 to the power -8", 4),
    (0x3B800000, "2 to the power -8", 4),
    (0x3DCCCCCD, "the float nearest to 0.1", 100),
    (0x3F7FFFFF, "the float below 1.0", 1000),
    (0x42F6E979, "the float nearest to 123.456", 123456),
]


def rounding():
    for bits, words, kw in ROUNDED:
        readable(f"MW {words}", {"MW": bits}, {"MW": kw})
        readable(f"MW minus {words}", {"MW": bits | 0x80000000}, {"MW": -kw})
        readable(f"ramp up {words}", {"ramp up": bits}, {"ramp up": kw})
        readable(f"ramp down {words}, substituted", {"ramp down": bits, "quality": 1}, {"ramp down": kw})


def table():
    """The rows on bits of 01's "Proved table"."""
    readable("table: bits 3D800000", {"MW": 0x3D800000}, {"MW": 63})
    readable("table: bits BD800000", {"MW": 0xBD800000}, {"MW": -63})
    readable("table: bits 80000000", {"MW": 0x80000000}, {"MW": 0})
    readable("table: bits 44FA0000", {"MW": 0x44FA0000}, {"MW": 2000000})
    unreadable("table: bits 44FA0001 as MW", {"MW": 0x44FA0001})
    unreadable("table: bits 7FC00000 as MW", {"MW": 0x7FC00000})


def trial():
    """The blocks of cases, and what is printed of them."""
    for section in (plain_lines, heads, cap_flags, targets, unsigned_fields, slices, float_bounds, patterns, rounding, table):
        section()
    return made(cases)
