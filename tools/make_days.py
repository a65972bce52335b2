#!/usr/bin/env python3
"""Data folders for the program response_day: tests/days/NAME/{day.bin,expected}, and the data of its crate.

    make_days.py           writes the folders
    make_days.py --check   compares the folders with what this script makes

Every expected line is worked out by hand from 02, 2026-04, and source document 002, section 3; nothing here computes a sum, a
flag or a count. A printed line is D (Wh), T (kW), the day's flag, the count of under intervals, the count of over intervals.

In the comments, d is BSQ - ME of a record in Wh, and its error is 1000 x target - 12 x d in W: under at 6,000,000 or more, over at
-6,000,000 or less, if it is counted. The day is under at 24 x D <= 1000 x T, over at 24 x D >= 3000 x T. "Left out" is: out of the
counts. Records are numbered from 1 to 288, and those that a case does not name have target, BSQ and ME 0.

Document 002 has no worked example with numbers. (Its figures are not in the text at hand; all four are of section 4.) Its rules
that the cases cover:

- 1.2.1, dispatch event, and 3.1 (b)(i): the first interval of an event is left out: rule_first_of_event, left_out_*, zero_*,
  single_*. An event that goes on over midnight has its first interval in the day before: earlier_*.
- 3 (a)(i), 3.1 (a), (c) and (d), Table 1: rule_6_mw_*, error_*.
- 3.1 (b)(ii), and that 3.2 (a) leaves such intervals out of the ratio: rule_0_mw, zero_*, no_dispatch*.
- 3.2 (a), (a) (its second) and (b), Table 2: rule_50_percent, rule_150_percent, ratio_*.
- 3 (a)(ii): a day of one dispatched interval is assessed, single_*, and one of none is not, no_dispatch*.

Its rules that they do not cover:

- 3 (a)(ii), "to any extent that AEMO considers this to be relevant", and "may declare" in 3: a judgement. The day's flag is given
  always.
- 3 (b), inputs aggregated at the DUID level, in MW and MWh: the input is aggregated already, in kW and Wh.
- 2.3 (b) to (d), sufficient metering data: a record cannot say that its energy is not known.
- 1.2.1, settlement day from 00:00 to 24:00, and 1.2.2 (d): a record has no time.
- 4.1: instances of non-conformance are counted over months, and one day has no state. Both kinds of 4.1 (b) are there as days:
  a flag of the day and none of an interval (rule_50_percent), flags of intervals and none of the day (rule_6_mw_under). What is
  printed does not say "instance".
- 4.1.1 to 4.6, and 5: what AEMO and a provider then do.

002 does not say what comes before the first interval of a day, nor what the ratio is of a day without dispatch. 2026-04 does.
"""

import pathlib
import struct
import sys

import folders

ROOT = pathlib.Path(__file__).resolve().parent.parent
RECORDS = range(1, 289)


# ---- the bytes of a day


def record(target, bsq=0, me=0):
    return (
        struct.pack("<I", target)  # 0 MWB, kW
        + struct.pack("<i", bsq)  # 4 BSQ, Wh
        + struct.pack("<i", me)  # 8 ME, Wh
    )


def day(earlier, placed=None, rest=record(0)):
    """The earlier target, then 288 records: those placed by number, and `rest` at all other numbers."""
    placed = placed or {}
    return struct.pack("<I", earlier) + b"".join(placed.get(number, rest) for number in RECORDS)


# A target of 24,000 asks for 24,000,000 / 12 = 2,000,000 Wh. Half of that is 1,000,000, one and a half 3,000,000.
IDLE = record(24_000, 5_000_000, 5_000_000)  # d 0: error 24,000,000, under
LESS = record(24_000, 5_000_000, 3_500_000)  # d 1,500,000: error 24,000,000 - 18,000,000 = 6,000,000, under
FULL = record(24_000, 5_000_000, 3_000_000)  # d 2,000,000: error 0
MORE = record(24_000, 5_000_000, 2_500_000)  # d 2,500,000: error 24,000,000 - 30,000,000 = -6,000,000, over
DOUBLE = record(24_000, 5_000_000, 1_000_000)  # d 4,000,000: error 24,000,000 - 48,000,000 = -24,000,000, over
# No target, and d 9,000,000: an error of -108,000,000, if there were one.
UNASKED = record(0, 9_000_000)


# ---- the cases: day.bin, or None, and what is printed

# The rules of 002, one by one.
RULES = {
    # 24 MW asked, 18 MW given in record 2. D 2,000,000 + 1,500,000, T 48,000: 24 x D = 84,000,000 is above 48,000,000 and below
    # 144,000,000.
    "rule_6_mw_under": (day(0, {1: FULL, 2: LESS}), "3500000 48000 none 1 0"),
    # 24 MW asked, 30 MW given in record 2. D 2,000,000 + 2,500,000: 24 x D = 108,000,000.
    "rule_6_mw_over": (day(0, {1: FULL, 2: MORE}), "4500000 48000 none 0 1"),
    # Two events, 10 to 12 and 20 to 22, in whose first intervals nothing is given: they would be under. D 4 x 2,000,000,
    # T 6 x 24,000 = 144,000: 24 x D = 192,000,000 is above 144,000,000 and below 432,000,000.
    "rule_first_of_event": (day(0, {10: IDLE, 11: FULL, 12: FULL, 20: IDLE, 21: FULL, 22: FULL}), "8000000 144000 none 0 0"),
    # Records 3 and 4 have no target: d -5,000,000 and 6,000,000 would be errors of 60,000,000 and -72,000,000, and with them D
    # would be 5,000,000. D 2 x 2,000,000, T 48,000: 24 x D = 96,000,000.
    "rule_0_mw": (
        day(0, {1: FULL, 2: FULL, 3: record(0, 0, 5_000_000), 4: record(0, 6_000_000, 0)}), "4000000 48000 none 0 0"),
    # 6 MW asked and 3 MW given twice, d 250,000: error 6,000,000 - 3,000,000 = 3,000,000, no flag. D 500,000, T 12,000:
    # 24 x D = 12,000,000 = 1000 x T.
    "rule_50_percent": (
        day(0, {1: record(6_000, 400_000, 150_000), 2: record(6_000, 400_000, 150_000)}), "500000 12000 under 0 0"),
    # 6 MW asked and 9 MW given twice, d 750,000: error 6,000,000 - 9,000,000 = -3,000,000, no flag. D 1,500,000, T 12,000:
    # 24 x D = 36,000,000 = 3000 x T.
    "rule_150_percent": (
        day(0, {1: record(6_000, 900_000, 150_000), 2: record(6_000, 900_000, 150_000)}), "1500000 12000 over 0 0"),
    # An event goes on from the day before in 1 (under) and 2. Another is 100 to 103: 100 is left out, 102 is over. After one
    # interval of 0, 105 and 106: 105 is left out, 106 is under. D 0 + 2,000,000, + 0 + 2,000,000 + 2,500,000 + 2,000,000,
    # + 4,000,000 + 1,500,000 = 14,000,000; T 8 x 24,000 = 192,000: 24 x D = 336,000,000 is above 192,000,000 and below
    # 576,000,000.
    "three_events": (
        day(24_000, {1: IDLE, 2: FULL, 100: IDLE, 101: FULL, 102: MORE, 103: FULL, 105: DOUBLE, 106: LESS}),
        "14000000 192000 none 2 1"),
}


# The day's ratio. One dispatched interval, record 5, which is left out.
def ratio(me):
    return day(0, {5: record(24_000, 5_000_000, me)})


# 288 targets of 2,000,000: T 576,000,000, 1000 x T = 576,000,000,000, 3000 x T = 1,728,000,000,000. Record 1 is left out.
def half(first):
    """d of record 1 as given, 0 up to 96, 125,000,000 in the 192 others: these are 24,000,000,000.

    The errors are 2,000,000,000 and 2,000,000,000 - 1,500,000,000 = 500,000,000: 287 are under.
    """
    placed = {number: record(2_000_000) for number in range(2, 97)}
    return day(0, placed | {1: record(2_000_000, first)}, rest=record(2_000_000, 125_000_000))


def more_by_half(first):
    """d 250,000,000 in 287 records, 150,000,000 - ME in record 1; with ME -100,000,000, D 288 x 250,000,000 = 72,000,000,000.

    The errors are 2,000,000,000 - 3,000,000,000 = -1,000,000,000: 287 are over.
    """
    return day(0, {1: record(2_000_000, 150_000_000, first)}, rest=record(2_000_000, 150_000_000, -100_000_000))


RATIOS = {
    # T 24,000: 1000 x T = 24,000,000, 3000 x T = 72,000,000.
    "ratio_50_less": (ratio(4_000_001), "999999 24000 under 0 0"),  # 24 x D = 23,999,976
    "ratio_50": (ratio(4_000_000), "1000000 24000 under 0 0"),  # 24,000,000
    "ratio_50_more": (ratio(3_999_999), "1000001 24000 none 0 0"),  # 24,000,024
    "ratio_150_less": (ratio(2_000_001), "2999999 24000 none 0 0"),  # 71,999,976
    "ratio_150": (ratio(2_000_000), "3000000 24000 over 0 0"),  # 72,000,000
    "ratio_150_more": (ratio(1_999_999), "3000001 24000 over 0 0"),  # 72,000,024
    "ratio_50_less_large": (half(-1), "23999999999 576000000 under 287 0"),  # 575,999,999,976
    "ratio_50_large": (half(0), "24000000000 576000000 under 287 0"),  # 576,000,000,000
    "ratio_50_more_large": (half(1), "24000000001 576000000 none 287 0"),  # 576,000,000,024
    "ratio_150_less_large": (more_by_half(-99_999_999), "71999999999 576000000 none 0 287"),  # 1,727,999,999,976
    "ratio_150_large": (more_by_half(-100_000_000), "72000000000 576000000 over 0 287"),  # 1,728,000,000,000
    "ratio_150_more_large": (more_by_half(-100_000_001), "72000000001 576000000 over 0 287"),  # 1,728,000,000,024
    # A target of 1 in record 1, left out: 1000 x T = 1,000, 3000 x T = 3,000.
    "one_kw_minus_1": (day(0, {1: record(1, 0, 1)}), "-1 1 under 0 0"),  # -24
    "one_kw_0": (day(0, {1: record(1)}), "0 1 under 0 0"),  # 0
    "one_kw_41": (day(0, {1: record(1, 41)}), "41 1 under 0 0"),  # 984
    "one_kw_42": (day(0, {1: record(1, 42)}), "42 1 none 0 0"),  # 1,008
    "one_kw_124": (day(0, {1: record(1, 124)}), "124 1 none 0 0"),  # 2,976
    "one_kw_125": (day(0, {1: record(1, 125)}), "125 1 over 0 0"),  # 3,000
}


# An interval's error. Record 1 is FULL, d 2,000,000, and left out; record 2 is counted.
def second(target, bsq):
    return day(0, {1: FULL, 2: record(target, bsq)})


ERRORS = {
    # 24,002,000 - 12 x 1,500,167 = 24,002,000 - 18,002,004. 24 x D = 84,004,008: above 48,002,000, below 144,006,000.
    "error_5999996": (second(24_002, 1_500_167), "3500167 48002 none 0 0"),
    # 24,000,000 - 12 x 1,500,000.
    "error_6000000": (second(24_000, 1_500_000), "3500000 48000 none 1 0"),
    # 24,001,000 - 12 x 1,500,083 = 24,001,000 - 18,000,996. 24 x D = 84,001,992: above 48,001,000, below 144,003,000.
    "error_6000004": (second(24_001, 1_500_083), "3500083 48001 none 1 0"),
    # 24,001,000 - 12 x 2,500,083 = 24,001,000 - 30,000,996. 24 x D = 108,001,992: below 144,003,000.
    "error_minus_5999996": (second(24_001, 2_500_083), "4500083 48001 none 0 0"),
    # 24,000,000 - 12 x 2,500,000.
    "error_minus_6000000": (second(24_000, 2_500_000), "4500000 48000 none 0 1"),
    # 24,002,000 - 12 x 2,500,167 = 24,002,000 - 30,002,004. 24 x D = 108,004,008: below 144,006,000.
    "error_minus_6000004": (second(24_002, 2_500_167), "4500167 48002 none 0 1"),
    # One Wh is 12 W. Errors 6,000,012 and 6,000,000 (under), 5,999,988, -5,999,988, -6,000,000 and -6,000,012 (over), 0,
    # -12,000,000 (over). D 4,500,000 + 7,500,000 + 2,000,000 + 3,000,000, T 8 x 24,000: 24 x D = 408,000,000 is above
    # 192,000,000 and below 576,000,000.
    "error_by_one_wh": (
        day(24_000, {
            1: record(24_000, 1_499_999), 2: record(24_000, 1_500_000), 3: record(24_000, 1_500_001),
            4: record(24_000, 2_499_999), 5: record(24_000, 2_500_000), 6: record(24_000, 2_500_001),
            7: record(24_000, 2_000_000), 8: record(24_000, 3_000_000)}),
        "17000000 192000 none 2 3"),
    # Record 1: 6,000 asked and given, d 500,000. Nothing given in record 2: 5,999,000, no flag; 6,000,000, under. 24 x D =
    # 12,000,000: above 1000 x 11,999; equal to 1000 x 12,000.
    "error_5999_kw": (day(0, {1: record(6_000, 500_000), 2: record(5_999)}), "500000 11999 none 0 0"),
    "error_6000_kw": (day(0, {1: record(6_000, 500_000), 2: record(6_000)}), "500000 12000 under 1 0"),
    # A target of 1 in record 1, and an earlier target of 1: 1,000 + 12 x 499,916 = 5,999,992; 1,000 + 12 x 499,917 = 6,000,004;
    # 1,000 - 12 x 500,083 = -5,999,996; 1,000 - 12 x 500,084 = -6,000,008. D below 0 is under; 24 x D of the others is far
    # above 3,000.
    "error_one_kw_5999992": (day(1, {1: record(1, -499_916)}), "-499916 1 under 0 0"),
    "error_one_kw_6000004": (day(1, {1: record(1, 0, 499_917)}), "-499917 1 under 1 0"),
    "error_one_kw_minus_5999996": (day(1, {1: record(1, 500_083)}), "500083 1 over 0 0"),
    "error_one_kw_minus_6000008": (day(1, {1: record(1, 0, -500_084)}), "500084 1 over 0 1"),
    # d 200,000,000 + 157,913,941 = 357,913,941, 12 x d = 4,294,967,292: error 1,000 - 4,294,967,292 = -4,294,966,292, which is
    # 1,004 - 2^32.
    "error_past_32_bits_over": (day(1, {1: record(1, 200_000_000, -157_913_941)}), "357913941 1 over 0 1"),
    # 2,000,000,000 + 12 x 191,247,275 = 2,000,000,000 + 2,294,967,300 = 4,294,967,300, which is 2^32 + 4.
    "error_past_32_bits_under": (day(1, {1: record(2_000_000, -191_247_275)}), "-191247275 2000000 under 1 0"),
}

# Targets of 0 next to others, and days with one dispatched interval or none.
ZEROS = {
    # 2 is left out, 3 is under. D 4,000,000 + 1,500,000, T 48,000: 24 x D = 132,000,000 is below 144,000,000.
    "zero_first": (day(24_000, {1: UNASKED, 2: DOUBLE, 3: LESS}), "5500000 48000 none 1 0"),
    # 286 is left out, 287 is under. D 0 + 1,500,000: 24 x D = 36,000,000 is below 48,000,000.
    "zero_last": (day(0, {286: IDLE, 287: LESS, 288: UNASKED}), "1500000 48000 under 1 0"),
    # 10 and 12 are firsts, left out. D 1,500,000 + 2,500,000: 24 x D = 96,000,000.
    "zero_alone": (day(0, {10: LESS, 11: UNASKED, 12: MORE}), "4000000 48000 none 0 0"),
    # 9 and 12 are left out, 10 is under, 13 is over. D 2,000,000 + 1,500,000 + 4,000,000 + 2,500,000, T 96,000: 24 x D =
    # 240,000,000 is above 96,000,000 and below 288,000,000.
    "zero_alone_in_the_midst": (day(0, {9: FULL, 10: LESS, 11: UNASKED, 12: DOUBLE, 13: MORE}), "10000000 96000 none 1 1"),
    # 9 and 13 are left out, 10 and 14 are under. D 2,000,000 + 1,500,000 + 4,000,000 + 0, T 96,000: 24 x D = 180,000,000.
    "zero_twice": (
        day(0, {9: FULL, 10: LESS, 11: UNASKED, 12: UNASKED, 13: DOUBLE, 14: IDLE}), "7500000 96000 none 2 0"),
    # Targets of 0 in 1, 100, 200, 201 and 288: 283 are dispatched, T 283 x 24,000 = 6,792,000. Of these 2, 101 and 202 are left
    # out.
    "zero_in_full_day": (
        day(24_000, dict.fromkeys((1, 100, 200, 201, 288), UNASKED), rest=IDLE), "0 6792000 under 280 0"),
    # Every other record from 1 on: 144 x 24,000 = 3,456,000; only 1 has a target before it. Then every other from 2 on: none has.
    "zero_alternating_1": (day(24_000, dict.fromkeys(range(1, 289, 2), IDLE), rest=UNASKED), "0 3456000 under 1 0"),
    "zero_alternating_2": (day(24_000, dict.fromkeys(range(2, 289, 2), IDLE), rest=UNASKED), "0 3456000 under 0 0"),
    # No target at all, whatever BSQ - ME is.
    "no_dispatch": (day(0), "0 0 none 0 0"),
    "no_dispatch_earlier": (day(24_000), "0 0 none 0 0"),
    "no_dispatch_one_large": (day(24_000, {144: record(0, 200_000_000, -200_000_000)}), "0 0 none 0 0"),
    "no_dispatch_large": (day(24_000, rest=record(0, 200_000_000, -200_000_000)), "0 0 none 0 0"),
    "no_dispatch_large_negative": (day(24_000, rest=record(0, -200_000_000, 200_000_000)), "0 0 none 0 0"),
    # One interval, left out; it would be flagged. 24 x D is 0, 36,000,000 (above 24,000,000, below 72,000,000), 96,000,000.
    "single_first": (day(0, {1: IDLE}), "0 24000 under 0 0"),
    "single_middle": (day(0, {144: LESS}), "1500000 24000 none 0 0"),
    "single_last": (day(0, {288: DOUBLE}), "4000000 24000 over 0 0"),
    # The same last one, after an earlier target that is not next to it.
    "single_last_earlier": (day(24_000, {288: DOUBLE}), "4000000 24000 over 0 0"),
}

# The earlier target. D and T are as in rule_6_mw_under and rule_6_mw_over; record 1 is the one that is flagged if counted.
UNDER_FIRST = {1: LESS, 2: FULL}
OVER_FIRST = {1: MORE, 2: FULL}
EARLIER = {
    "earlier_0_under": (day(0, UNDER_FIRST), "3500000 48000 none 0 0"),
    "earlier_0_over": (day(0, OVER_FIRST), "4500000 48000 none 0 0"),
    "earlier_24000_under": (day(24_000, UNDER_FIRST), "3500000 48000 none 1 0"),
    "earlier_24000_over": (day(24_000, OVER_FIRST), "4500000 48000 none 0 1"),
    # 0x00000001, 0x00000100, 0x00010000: each byte matters.
    "earlier_1": (day(1, UNDER_FIRST), "3500000 48000 none 1 0"),
    "earlier_256": (day(256, UNDER_FIRST), "3500000 48000 none 1 0"),
    "earlier_65536": (day(65_536, UNDER_FIRST), "3500000 48000 none 1 0"),
    # The bound and past it; 2,147,483,648 would be below 0 as an i32.
    "earlier_2000000": (day(2_000_000, UNDER_FIRST), "3500000 48000 none 1 0"),
    "earlier_2000001": (day(2_000_001, UNDER_FIRST), "refused 32"),
    "earlier_2147483648": (day(2_147_483_648, UNDER_FIRST), "refused 32"),
    "earlier_4294967295": (day(4_294_967_295, UNDER_FIRST), "refused 32"),
    # It is looked at in a day without dispatch too.
    "earlier_2000000_no_dispatch": (day(2_000_000), "0 0 none 0 0"),
    "earlier_2000001_no_dispatch": (day(2_000_001), "refused 32"),
}

# Record 1 is left out of the counts and is in the sums. T 48,000: 48,000,000 and 144,000,000.
LEFT_OUT = {
    # D 0 + 2,000,000: 24 x D = 48,000,000. Record 2 alone would be at 100 %.
    "left_out_makes_under": (day(0, {1: IDLE, 2: FULL}), "2000000 48000 under 0 0"),
    # D 4,000,000 + 2,000,000: 24 x D = 144,000,000. Record 2 alone would be at 100 %.
    "left_out_makes_over": (day(0, {1: DOUBLE, 2: FULL}), "6000000 48000 over 0 0"),
    # D 4,000,000 + 0: 24 x D = 96,000,000. Record 2, under, would alone be at 0 %.
    "left_out_makes_none_of_under": (day(0, {1: DOUBLE, 2: IDLE}), "4000000 48000 none 1 0"),
    # D 0 + 4,000,000: 24 x D = 96,000,000. Record 2, over, would alone be at 200 %.
    "left_out_makes_none_of_over": (day(0, {1: IDLE, 2: DOUBLE}), "4000000 48000 none 0 1"),
    # The day's flag against an interval's. Record 1 of 2,000,000 gives nothing, record 2 is over: D 2,500,000, T 2,024,000: 24 x D
    # = 60,000,000 is below 2,024,000,000. Then record 1 gives 100,000,000, record 2 nothing: 24 x D = 2,400,000,000.
    "left_out_under_and_over_counted": (day(0, {1: record(2_000_000), 2: MORE}), "2500000 2024000 under 0 1"),
    "left_out_over_and_under_counted": (day(0, {1: record(24_000, 100_000_000), 2: IDLE}), "100000000 48000 over 1 0"),
}

# Sums. GIVEN is d 400,000,000 with a target of 24,000: error 24,000,000 - 4,800,000,000, over; TAKEN is its opposite, under.
GIVEN = record(24_000, 200_000_000, -200_000_000)
TAKEN = record(24_000, -200_000_000, 200_000_000)
SUMS = {
    # 288 x 400,000,000 = 115,200,000,000; 288 x 2,000,000 = 576,000,000: 24 x D = 2,764,800,000,000 is above 3000 x T =
    # 1,728,000,000,000. Errors 2,000,000,000 - 4,800,000,000 = -2,800,000,000.
    "largest": (day(2_000_000, rest=record(2_000_000, 200_000_000, -200_000_000)), "115200000000 576000000 over 0 288"),
    "largest_earlier_0": (day(0, rest=record(2_000_000, 200_000_000, -200_000_000)), "115200000000 576000000 over 0 287"),
    # Errors 2,000,000,000 + 4,800,000,000 = 6,800,000,000.
    "largest_negative": (
        day(2_000_000, rest=record(2_000_000, -200_000_000, 200_000_000)), "-115200000000 576000000 under 288 0"),
    # The least T: each record has a target of at least 1. Errors 1,000 - 4,800,000,000 and 1,000 + 4,800,000,000.
    "largest_least_t": (day(1, rest=record(1, 200_000_000, -200_000_000)), "115200000000 288 over 0 288"),
    "largest_negative_least_t": (day(1, rest=record(1, -200_000_000, 200_000_000)), "-115200000000 288 under 288 0"),
    # The largest T and D 0: errors 2,000,000,000.
    "largest_t": (day(2_000_000, rest=record(2_000_000)), "0 576000000 under 288 0"),
    # 144 times up, 144 times down: D 0, T 288 x 24,000 = 6,912,000.
    "sum_there_and_back": (
        day(24_000, dict.fromkeys(range(1, 145), GIVEN), rest=TAKEN), "0 6912000 under 144 144"),
    # 1,000,000 - 1,000,000. Record 2: 24,000,000 + 12,000,000, under.
    "sum_0": (day(0, {1: record(24_000, 1_000_000), 2: record(24_000, 0, 1_000_000)}), "0 48000 under 1 0"),
    # Errors 24,000,012 and 24,000,000 + 60,000,000.
    "sum_minus_1": (day(24_000, {1: record(24_000, 0, 1)}), "-1 24000 under 1 0"),
    "sum_negative": (day(24_000, {1: record(24_000, -3_000_000, 2_000_000)}), "-5000000 24000 under 1 0"),
    # Both below 0: -1,000,000 + 3,000,000 = 2,000,000, error 0; 24 x D = 48,000,000 is above 24,000,000 and below 72,000,000.
    "sum_of_negatives": (day(24_000, {1: record(24_000, -1_000_000, -3_000_000)}), "2000000 24000 none 0 0"),
    # Past 32 bits. 5 x 400,000,000 + 147,483,648 = 2^31, and one past -2^31; T 6 x 24,000. 1 is left out; the error of 6 is
    # 24,000,000 - 1,769,803,776, over, and 24,000,000 + 1,769,803,788, under. 3000 x T = 432,000,000.
    "sum_2147483648": (
        day(0, dict.fromkeys(range(1, 6), GIVEN) | {6: record(24_000, 147_483_648)}), "2147483648 144000 over 0 5"),
    "sum_minus_2147483649": (
        day(0, dict.fromkeys(range(1, 6), TAKEN) | {6: record(24_000, -147_483_649)}), "-2147483649 144000 under 5 0"),
    # 10 x 400,000,000 + 294,967,296 = 2^32, T 11 x 24,000. 1 is left out; the error of 11 is 24,000,000 - 3,539,607,552, over, and
    # 24,000,000 + 3,539,607,552, under. 3000 x T = 792,000,000.
    "sum_4294967296": (
        day(0, dict.fromkeys(range(1, 11), GIVEN) | {11: record(24_000, 200_000_000, -94_967_296)}),
        "4294967296 264000 over 0 10"),
    "sum_minus_4294967296": (
        day(0, dict.fromkeys(range(1, 11), TAKEN) | {11: record(24_000, -200_000_000, 94_967_296)}),
        "-4294967296 264000 under 10 0"),
    # 24 x 178,956,971 = 4,294,967,304, which is 2^32 + 8; 3000 x T = 3,000. Record 1 is left out.
    "sum_24_d_past_32_bits": (day(0, {1: record(1, 178_956_971)}), "178956971 1 over 0 0"),
    # T 3 x 1,431,656 = 4,294,968: 1000 x T = 4,294,968,000, which is 2^32 + 704, is above 24 x D = 2,400,000,000. Records 2 and 3:
    # 1,431,656,000, under.
    "sum_1000_t_past_32_bits": (
        day(0, {1: record(1_431_656, 100_000_000), 2: record(1_431_656), 3: record(1_431_656)}), "100000000 4294968 under 2 0"),
}

# Counts. With all 288 records of a target of 24,000, T 6,912,000: 1000 x T = 6,912,000,000, 3000 x T = 20,736,000,000.
ODD_LESS = dict.fromkeys(range(1, 289, 2), LESS)
COUNTS = {
    # D 288 x 1,500,000 = 432,000,000: 24 x D = 10,368,000,000.
    "count_under_288": (day(24_000, rest=LESS), "432000000 6912000 none 288 0"),
    "count_under_287": (day(0, rest=LESS), "432000000 6912000 none 287 0"),
    # D 288 x 2,500,000 = 720,000,000: 24 x D = 17,280,000,000.
    "count_over_288": (day(24_000, rest=MORE), "720000000 6912000 none 0 288"),
    "count_over_287": (day(0, rest=MORE), "720000000 6912000 none 0 287"),
    # The same with a flag of the day: D 0; D 288 x 4,000,000 = 1,152,000,000, 24 x D = 27,648,000,000.
    "count_under_288_day_under": (day(24_000, rest=IDLE), "0 6912000 under 288 0"),
    "count_over_287_day_over": (day(0, rest=DOUBLE), "1152000000 6912000 over 0 287"),
    # D 288 x 2,000,000 = 576,000,000: 24 x D = 13,824,000,000.
    "count_0": (day(24_000, rest=FULL), "576000000 6912000 none 0 0"),
    # Records 1 to 257, of which 1 is left out. T 257 x 24,000 = 6,168,000: 6,168,000,000 and 18,504,000,000. D 257 x 1,500,000 =
    # 385,500,000: 9,252,000,000. D 257 x 2,500,000 = 642,500,000: 15,420,000,000.
    "count_under_256": (day(0, dict.fromkeys(range(1, 258), LESS)), "385500000 6168000 none 256 0"),
    "count_over_256": (day(0, dict.fromkeys(range(1, 258), MORE)), "642500000 6168000 none 0 256"),
    # Under and over by turns: D 144 x 1,500,000 + 144 x 2,500,000 = 576,000,000. Record 1 is an under one.
    "count_both_144": (day(24_000, ODD_LESS, rest=MORE), "576000000 6912000 none 144 144"),
    "count_both_143_144": (day(0, ODD_LESS, rest=MORE), "576000000 6912000 none 143 144"),
    # 3 under and 2 over after a first. D 2,000,000 + 4,500,000 + 5,000,000, T 6 x 24,000: 24 x D = 276,000,000 is above 144,000,000
    # and below 432,000,000.
    "count_3_and_2": (day(0, {50: FULL, 51: LESS, 52: MORE, 53: LESS, 54: LESS, 55: MORE}), "11500000 144000 none 3 2"),
}

# The four bytes of a value all differ.
BYTES = {
    # 0x00010203 = 65,536 + 512 + 3; 0x04050607 = 67,108,864 + 327,680 + 1,536 + 7 = 67,438,087; -0x07F6F5F5 = -(117,440,512 +
    # 16,121,856 + 62,720 + 245) = -133,625,333, whose bytes are 0xF8090A0B. d 201,063,420, 12 x d = 2,412,761,040: error
    # 66,051,000 - 2,412,761,040, over. 24 x D is above 3000 x T = 198,153,000. The earlier target is 0x00000C0D.
    "bytes_me_negative": (day(3_085, {1: record(66_051, 67_438_087, -133_625_333)}), "201063420 66051 over 0 1"),
    # BSQ and ME the other way round: error 66,051,000 + 2,412,761,040, under.
    "bytes_bsq_negative": (day(3_085, {1: record(66_051, -133_625_333, 67_438_087)}), "-201063420 66051 under 1 0"),
    # Values that are within their bounds in either order of bytes: the earlier target and the target 0x00010200 = 66,048, which
    # would be 131,328; BSQ 0x01020304 = 16,909,060 and ME 0x05060708 = 84,281,096. d -67,372,036: error 66,048,000 + 808,464,432,
    # under.
    "bytes_either_order": (day(66_048, {1: record(66_048, 16_909_060, 84_281_096)}), "-67372036 66048 under 1 0"),
    # The same in the last record, which is left out.
    "bytes_either_order_last": (day(66_048, {288: record(66_048, 16_909_060, 84_281_096)}), "-67372036 66048 under 0 0"),
}


# Bounds, in the first record and in the last. The earlier target is 0, so the record is left out.
def bounds(place, number):
    def alone(*fields):
        return day(0, {number: record(*fields)})

    made = {
        # The bounds themselves: 1000 x T = 2,000,000,000; T 24,000 and 24 x D = 4,800,000,000, its opposite, or 9,600,000,000.
        f"bound_{place}_target": (alone(2_000_000), "0 2000000 under 0 0"),
        f"bound_{place}_bsq": (alone(24_000, 200_000_000, 0), "200000000 24000 over 0 0"),
        f"bound_{place}_bsq_least": (alone(24_000, -200_000_000, 0), "-200000000 24000 under 0 0"),
        f"bound_{place}_me": (alone(24_000, 0, 200_000_000), "-200000000 24000 under 0 0"),
        f"bound_{place}_me_least": (alone(24_000, 0, -200_000_000), "200000000 24000 over 0 0"),
        f"bound_{place}_both": (alone(24_000, 200_000_000, -200_000_000), "400000000 24000 over 0 0"),
        f"bound_{place}_both_negative": (alone(24_000, -200_000_000, 200_000_000), "-400000000 24000 under 0 0"),
    }
    # One past, the largest of 31 bits and one past it, the largest of 32 bits.
    for target in 2_000_001, 2_147_483_647, 2_147_483_648, 4_294_967_295:
        made[f"past_{place}_target_{target}"] = alone(target), "refused 32"
    # One past, and the least and the largest of an i32; with a target, and one past without.
    for size, energy in {
        "200000001": 200_000_001,
        "minus_200000001": -200_000_001,
        "2147483647": 2_147_483_647,
        "minus_2147483648": -2_147_483_648,
    }.items():
        made[f"past_{place}_bsq_{size}"] = alone(24_000, energy, 0), "refused 32"
        made[f"past_{place}_me_{size}"] = alone(24_000, 0, energy), "refused 32"
        made[f"past_{place}_bsq_{size}_no_target"] = alone(0, energy, 0), "refused 32"
        made[f"past_{place}_me_{size}_no_target"] = alone(0, 0, energy), "refused 32"
    return made


BOUNDS = bounds("first", 1) | bounds("last", 288) | {
    # In the midst, next to records that are dispatched.
    "past_midst_target": (day(0, {143: FULL, 144: record(2_000_001), 145: FULL}), "refused 32"),
    "past_midst_no_target": (day(0, {143: FULL, 144: record(0, 0, -200_000_001), 145: FULL}), "refused 32"),
    # BSQ - ME is 0.
    "past_both_alike": (day(0, {144: record(24_000, 200_000_001, 200_000_001)}), "refused 32"),
    # Every bit of the file is 1: all targets are past their bound, and BSQ and ME are -1.
    "past_all_targets": (b"\xff" * 3_460, "refused 32"),
}

# Lengths. WHOLE is three_events, a day that is not refused; longer files go on with zeros. 287 records are 4 + 3,444 = 3,448 bytes,
# 288 are 4 + 3,456 = 3,460, 289 are 4 + 3,468 = 3,472.
WHOLE = RULES["three_events"][0]
LENGTHS = {
    "missing": (None, "refused 31"),
    "length_0": (b"", "refused 31"),
    "length_1": (WHOLE[:1], "refused 31"),
    "length_3": (WHOLE[:3], "refused 31"),
    "length_4": (WHOLE[:4], "refused 31"),
    "length_287_records": (WHOLE[:3_448], "refused 31"),
    "length_3456": (WHOLE[4:], "refused 31"),  # 288 records, and no earlier target
    "length_3459": (WHOLE[:3_459], "refused 31"),
    "length_3461": (WHOLE + bytes(1), "refused 31"),
    "length_289_records": (WHOLE + bytes(12), "refused 31"),
    "length_5000": (WHOLE + bytes(1_540), "refused 31"),
    "length_68996": (WHOLE + bytes(65_536), "refused 31"),  # 3,460 in 16 bits
    "length_100000": (WHOLE + bytes(96_540), "refused 31"),
    # 31 goes before 32: a value past its bound too.
    "length_and_earlier_alone": (b"\xff" * 4, "refused 31"),  # an earlier target of 4,294,967,295 and no record
    "length_and_earlier": (day(2_000_001, UNDER_FIRST)[:3_459], "refused 31"),
    "length_and_first_target": (day(0, {1: record(2_000_001)})[:3_448], "refused 31"),
    "length_and_last_bsq": (day(0, {288: record(24_000, 200_000_001)}) + bytes(1), "refused 31"),
    "length_and_289th_me": (WHOLE + record(0, 0, -200_000_001), "refused 31"),  # the record past the 288 is past the bound
    "length_and_all_targets": (b"\xff" * 5_000, "refused 31"),
}

GROUPS = RULES, RATIOS, ERRORS, ZEROS, EARLIER, LEFT_OUT, SUMS, COUNTS, BYTES, BOUNDS, LENGTHS
CASES = {name: case for group in GROUPS for name, case in group.items()}


# What `rt ci` runs the program on.
CRATE_DAY = "three_events"
CRATE_FILES = {
    ROOT / "crates" / "response_day" / "data" / "day.bin": "day.bin",
    ROOT / "crates" / "response_day" / "stdout": "expected",
}


# ---- the files


def files(case):
    """name -> bytes of a case's folder; an absent file is left out."""
    contents, expected = case
    out = {"expected": f"{expected}\n".encode("ascii")}
    if contents is not None:
        out["day.bin"] = contents
    return out


def check(made):
    wrong = folders.wrong(ROOT / "tests" / "days", made)
    for path, contents in CRATE_FILES.items():
        if not path.is_file() or path.read_bytes() != made[CRATE_DAY][contents]:
            wrong += 1
            print(f"{path.relative_to(ROOT)}: differs")
    print(f"{len(made)} days, {wrong} wrong")
    return 1 if wrong else 0


def main(arguments):
    assert len(CASES) == sum(map(len, GROUPS)), "two cases have one name"
    made = {name: files(case) for name, case in CASES.items()}
    if not arguments:
        folders.write(ROOT / "tests" / "days", made)
        for path, contents in CRATE_FILES.items():
            path.parent.mkdir(parents=True, exist_ok=True)
            path.write_bytes(made[CRATE_DAY][contents])
        return 0
    if arguments == ["--check"]:
        return check(made)
    print(__doc__)
    return 2


if __name__ == "__main__":
    sys.exit(main(sys.argv[1:]))
