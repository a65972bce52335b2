#!/usr/bin/env python3
"""Data folders for the program response_ledger: tests/ledgers/NAME/{ledger.bin,expected}, and the data of its crate.

    make_ledgers.py           writes the folders
    make_ledgers.py --check   compares the folders with what this script makes

Every expected line is worked out by hand from 02, 2026-05, and source document 002, section 4.1; nothing here computes a date, a
flag, a refusal, the place of an error or whether a unit is declared. The line of an accepted day is the one of its day.bin, D (Wh),
T (kW), the day's flag, the counts of under and of over intervals, as make_days.py has it, then 1 if the unit is declared after the
call and 0 if not.

In the comments, "15 March: 15 June" is a date and the last day that is no later than three calendar months after it. A third
instance is in time up to that day, and late from the next one on. "Between" is between the first and the third of the latest three
instances. A date is written as 2001-02-28, also where there is no such date.

Document 002 has no worked example, and its figures are not in the text at hand. Its rules that the cases cover:

- 4.1 (a)(i), three instances within three months: three_months_*, year_2099_*, between_*; "or more": more_*, declared_*.
- 4.1 (a)(ii), over more than three months with no conformant dispatch: between_*, apart_*, more_*.
- 4.1 (b)(i) and (ii), what a single instance is: kinds_*.
- 4.1.1 (a), flags that are too few to declare: the unit goes on as conforming. In nearly every case.
- 4.5 (b)(ii) and (c), reinstated, and declared again by 4.1: declared_*, reinstate_*.

Its rules that they do not cover:

- 4.1, "may declare", and 4.5 (a), when AEMO reinstates: judgements. The unit is declared always; a call reinstates it.
- 4.1.2 to 4.4, 4.5 (b)(i) and (iii), 4.6 and 5: what AEMO and a provider then do.

002 does not say how months are counted, nor where the period of (a)(ii) ends. 2026-05 does.
"""

import pathlib
import struct
import sys

import folders
from make_days import CASES as DAYS
from make_days import day, record

ROOT = pathlib.Path(__file__).resolve().parent.parent


# ---- days: the bytes of day.bin, and the part of the line that is theirs

# Instances. The day's own flag and none of an interval; flags of intervals and none of the day; both, of one kind (TWICE) or of
# two; many flags of intervals.
UNDER = DAYS["rule_50_percent"]  # 500000 12000 under 0 0
OVER = DAYS["rule_150_percent"]  # 1500000 12000 over 0 0
UNDER_INTERVAL = DAYS["rule_6_mw_under"]  # 3500000 48000 none 1 0
OVER_INTERVAL = DAYS["rule_6_mw_over"]  # 4500000 48000 none 0 1
INTERVALS = DAYS["three_events"]  # 14000000 192000 none 2 1
UNDER_TWICE = DAYS["error_6000_kw"]  # 500000 12000 under 1 0
OVER_TWICE = DAYS["error_one_kw_minus_6000008"]  # 500084 1 over 0 1
UNDER_AND_OVER = DAYS["left_out_under_and_over_counted"]  # 2500000 2024000 under 0 1
OVER_AND_UNDER = DAYS["left_out_over_and_under_counted"]  # 100000000 48000 over 1 0
NEGATIVE = DAYS["largest_negative"]  # -115200000000 576000000 under 288 0
UNDER_256 = DAYS["count_under_256"]  # 385500000 6168000 none 256 0
OVER_256 = DAYS["count_over_256"]  # 642500000 6168000 none 0 256

# Conformant days.
FULL = DAYS["rule_0_mw"]  # 4000000 48000 none 0 0
FIRSTS = DAYS["rule_first_of_event"]  # 8000000 144000 none 0 0
SINGLE = DAYS["single_middle"]  # 1500000 24000 none 0 0
ABOVE_50 = DAYS["ratio_50_more"]  # 1000001 24000 none 0 0
BELOW_150 = DAYS["ratio_150_less"]  # 2999999 24000 none 0 0
ONE_KW = DAYS["one_kw_42"]  # 42 1 none 0 0

# Days without dispatch: with energy in every record, with energy below 0, with none and an earlier target, with nothing at all.
ENERGY = DAYS["no_dispatch_large"]  # 0 0 none 0 0
ENERGY_NEGATIVE = DAYS["no_dispatch_large_negative"]  # 0 0 none 0 0
EARLIER = DAYS["no_dispatch_earlier"]  # 0 0 none 0 0
NOTHING = DAYS["no_dispatch"]  # 0 0 none 0 0

# Days that are refused, with 31 and with 32, and would be instances else, or conformant. Of 287 records, 3,448 bytes; with a value
# past its bound, a target or the earlier one; and both, which is 31.
SHORT = UNDER_INTERVAL[0][:3_448]
SHORT_FULL = FULL[0][:3_448]
PAST = day(0, {1: record(2_000_001)})
PAST_FULL = struct.pack("<I", 2_000_001) + FULL[0][4:]
BOTH = PAST[:3_448]


# ---- the bytes of a call


def call(tag, payload):
    return (
        struct.pack("<I", tag)  # 0 tag
        + struct.pack("<I", len(payload))  # 4 payload length
        + payload
    )


def dated(date, contents):
    """A day's call. With the 3,460 bytes of a day that is read, it has 8 + 12 + 3,460 = 3,480 bytes."""
    return call(1, struct.pack("<III", *map(int, date.split("-"))) + contents)  # 0 year; 4 month; 8 day; 12 day.bin


REINSTATE = call(2, b"")  # 8 bytes


# ---- steps: a call's bytes, then its line


def accepted(date, result, declared):
    contents, line = result
    return dated(date, contents), f"day accepted {line} {declared}"


def instance(date, declared, result=UNDER_INTERVAL):
    return accepted(date, result, declared)


def conformant(date, declared, result=FULL):
    return accepted(date, result, declared)


def undispatched(date, declared, result=ENERGY):
    return accepted(date, result, declared)


def refused(date, number, result=UNDER_INTERVAL):
    """A day of above, whose own line is not printed then; or the bytes of another one."""
    contents = result if isinstance(result, bytes) else result[0]
    return dated(date, contents), f"day refused {number}"


REINSTATED = REINSTATE, "reinstate accepted"
NOT_DECLARED = REINSTATE, "reinstate refused 35"


# ---- three calendar months


def in_time(first, between, second, third):
    """A conformant day between the first and the second instance, so that the months alone decide; the third is in time."""
    return [
        instance(first, 0, UNDER), conformant(between, 0), instance(second, 0, OVER_INTERVAL), instance(third, 1, UNDER_INTERVAL)]


def late(first, second, between, third):
    """A conformant day between the second and the third instance, which is late."""
    return [
        instance(first, 0, OVER), instance(second, 0, UNDER_INTERVAL), conformant(between, 0), instance(third, 0, OVER_INTERVAL)]


def both(last_day, day_after):
    """On the last day in time: declared. Reinstated. On the day after it, in a later year: not declared."""
    return [*in_time(*last_day), REINSTATED, *late(*day_after)]


THREE_MONTHS = {
    # January: April has 30 days. 29: 29 April, which is not its last day; 30: 30 April; 31: 30 April.
    "three_months_january_29": both(
        ("2001-01-29", "2001-02-10", "2001-03-01", "2001-04-29"), ("2002-01-29", "2002-03-01", "2002-04-10", "2002-04-30")),
    "three_months_january_30": both(
        ("2001-01-30", "2001-02-28", "2001-03-30", "2001-04-30"), ("2002-01-30", "2002-02-28", "2002-04-30", "2002-05-01")),
    "three_months_january_31": both(
        ("2001-01-31", "2001-02-28", "2001-03-31", "2001-04-30"), ("2002-01-31", "2002-02-28", "2002-03-31", "2002-05-01")),
    "three_months_january_31_leap": both(
        ("2004-01-31", "2004-02-29", "2004-03-31", "2004-04-30"), ("2008-01-31", "2008-02-29", "2008-03-31", "2008-05-01")),
    # February. 1 in a common year: 1 May, 28 + 31 + 30 = 89 days later, and 2 May, which is late, is 90 days later.
    "three_months_february_1": both(
        ("2001-02-01", "2001-02-28", "2001-04-30", "2001-05-01"), ("2002-02-01", "2002-03-01", "2002-05-01", "2002-05-02")),
    # 28 is the last day of February in a common year, and the day is 28 May all the same, not 31 May.
    "three_months_february_28": both(
        ("2001-02-28", "2001-03-01", "2001-03-31", "2001-05-28"), ("2002-02-28", "2002-03-31", "2002-05-28", "2002-05-29")),
    # In a leap year: 28 May, as in a common one. 29: 29 May, and not 31 May.
    "three_months_february_28_leap": both(
        ("2004-02-28", "2004-02-29", "2004-03-01", "2004-05-28"), ("2008-02-28", "2008-02-29", "2008-03-01", "2008-05-29")),
    "three_months_february_29": both(
        ("2004-02-29", "2004-03-01", "2004-04-30", "2004-05-29"), ("2008-02-29", "2008-03-31", "2008-05-29", "2008-05-30")),
    # 2000 is a leap year, as 400 divides it, and 2096 is the last one.
    "three_months_february_29_2000_2096": both(
        ("2000-02-29", "2000-03-01", "2000-04-30", "2000-05-29"), ("2096-02-29", "2096-03-31", "2096-05-29", "2096-05-30")),
    # March: June has 30 days. 30 and 31: 30 June.
    "three_months_march_30": both(
        ("2001-03-30", "2001-04-01", "2001-05-31", "2001-06-30"), ("2002-03-30", "2002-04-30", "2002-06-30", "2002-07-01")),
    "three_months_march_31": both(
        ("2001-03-31", "2001-04-01", "2001-05-31", "2001-06-30"), ("2002-03-31", "2002-04-30", "2002-06-30", "2002-07-01")),
    # April has 30 days, July 31. 30: 30 July, and not 31 July.
    "three_months_april_30": both(
        ("2001-04-30", "2001-05-01", "2001-07-29", "2001-07-30"), ("2002-04-30", "2002-05-31", "2002-07-30", "2002-07-31")),
    # May and August have 31 days. 30: 30 August; 31: 31 August.
    "three_months_may_30": both(
        ("2001-05-30", "2001-05-31", "2001-06-30", "2001-08-30"), ("2002-05-30", "2002-05-31", "2002-08-30", "2002-08-31")),
    "three_months_may_31": both(
        ("2001-05-31", "2001-06-30", "2001-07-31", "2001-08-31"), ("2002-05-31", "2002-06-01", "2002-08-31", "2002-09-01")),
    # June and September have 30 days. 30: 30 September.
    "three_months_june_30": both(
        ("2001-06-30", "2001-07-31", "2001-08-31", "2001-09-30"), ("2002-06-30", "2002-07-01", "2002-09-30", "2002-10-01")),
    # July. 1: 1 October, 31 + 31 + 30 = 92 days later.
    "three_months_july_1": both(
        ("2001-07-01", "2001-07-02", "2001-09-30", "2001-10-01"), ("2002-07-01", "2002-08-01", "2002-10-01", "2002-10-02")),
    # August has 31 days, November 30. 30 and 31: 30 November.
    "three_months_august_30": both(
        ("2001-08-30", "2001-08-31", "2001-09-30", "2001-11-30"), ("2002-08-30", "2002-10-31", "2002-11-30", "2002-12-01")),
    "three_months_august_31": both(
        ("2001-08-31", "2001-09-01", "2001-09-30", "2001-11-30"), ("2002-08-31", "2002-10-31", "2002-11-30", "2002-12-01")),
    # September has 30 days, December 31. 30: 30 December, and not 31 December, of the last year too.
    "three_months_september_30": both(
        ("2001-09-30", "2001-10-01", "2001-12-29", "2001-12-30"), ("2099-09-30", "2099-10-31", "2099-12-30", "2099-12-31")),
    # From October on the day is in the next year. 1: 1 January; 31: 31 January.
    "three_months_october_1": both(
        ("2000-10-01", "2000-11-01", "2000-12-31", "2001-01-01"), ("2001-10-01", "2001-12-31", "2002-01-01", "2002-01-02")),
    "three_months_october_31": both(
        ("2000-10-31", "2000-11-01", "2000-12-31", "2001-01-31"), ("2001-10-31", "2001-12-31", "2002-01-31", "2002-02-01")),
    # November. 1: 1 February.
    "three_months_november_1": both(
        ("2000-11-01", "2000-12-01", "2001-01-01", "2001-02-01"), ("2001-11-01", "2002-01-01", "2002-02-01", "2002-02-02")),
    # Up to a February of 28 days. 29 and 30: 28 February.
    "three_months_november_29": both(
        ("2000-11-29", "2000-12-31", "2001-01-31", "2001-02-28"), ("2001-11-29", "2002-01-31", "2002-02-28", "2002-03-01")),
    "three_months_november_30": both(
        ("2000-11-30", "2000-12-31", "2001-01-31", "2001-02-28"), ("2001-11-30", "2002-01-31", "2002-02-28", "2002-03-01")),
    # Up to a February of 29 days. 28: 28 February, which is not its last day; 29 and 30: 29 February.
    "three_months_november_28_leap": both(
        ("2003-11-28", "2003-12-31", "2004-01-31", "2004-02-28"), ("2007-11-28", "2008-01-31", "2008-02-28", "2008-02-29")),
    "three_months_november_29_leap": both(
        ("2003-11-29", "2003-12-31", "2004-01-31", "2004-02-29"), ("2007-11-29", "2008-01-31", "2008-02-29", "2008-03-01")),
    "three_months_november_30_leap": both(
        ("2003-11-30", "2003-12-31", "2004-01-31", "2004-02-29"), ("2007-11-30", "2008-01-31", "2008-02-29", "2008-03-01")),
    # 2095: 29 February 2096, on the day, and 1 March, late. The year of the first instance is a common one, that of the third a
    # leap year. 2096: 28 February 2097.
    "three_months_november_30_2095": both(
        ("2095-11-30", "2095-12-31", "2096-01-31", "2096-02-29"), ("2096-11-30", "2097-01-31", "2097-02-28", "2097-03-01")),
    "three_months_november_30_2095_late": both(
        ("2091-11-30", "2091-12-31", "2092-01-31", "2092-02-29"), ("2095-11-30", "2096-01-31", "2096-02-29", "2096-03-01")),
    # December. 1: 1 March; 30: 30 March, which is not its last day; 31: 31 March.
    "three_months_december_1": both(
        ("2000-12-01", "2000-12-31", "2001-02-28", "2001-03-01"), ("2001-12-01", "2002-02-28", "2002-03-01", "2002-03-02")),
    "three_months_december_30": both(
        ("2000-12-30", "2000-12-31", "2001-02-28", "2001-03-30"), ("2001-12-30", "2002-02-28", "2002-03-30", "2002-03-31")),
    "three_months_december_31": both(
        ("2000-12-31", "2001-01-01", "2001-02-28", "2001-03-31"), ("2001-12-31", "2002-02-28", "2002-03-31", "2002-04-01")),
    # The first day of all. 1 January 2000: 1 April 2000, past 29 February.
    "three_months_january_1_2000": both(
        ("2000-01-01", "2000-02-29", "2000-03-31", "2000-04-01"), ("2004-01-01", "2004-02-29", "2004-04-01", "2004-04-02")),
    # Less than three months, and more, by far. 10 January: 10 April. A year later, to the day: late.
    "three_months_days_and_a_year": both(
        ("2001-01-10", "2001-01-11", "2001-01-12", "2001-01-13"), ("2002-01-10", "2002-01-11", "2002-01-12", "2003-01-10")),
}

# Three months that end in 2100. 1 October 2099: 1 January 2100; 30 November: 28 February, as 2100 is no leap year; 28 December: 28
# March. The last date of all is in time for each.
LAST_YEAR = {
    "year_2099_october_1": in_time("2099-10-01", "2099-10-31", "2099-12-30", "2099-12-31"),
    "year_2099_november_30": in_time("2099-11-30", "2099-12-01", "2099-12-30", "2099-12-31"),
    "year_2099_december_28": in_time("2099-12-28", "2099-12-29", "2099-12-30", "2099-12-31"),
}


# ---- conformant days between

BETWEEN = {
    # 15 March: 15 June. In time: declared wherever the conformant days are. A day late: declared where none is between.
    "between_none": [
        instance("2001-03-15", 0), instance("2001-05-01", 0), instance("2001-06-15", 1),
        REINSTATED,
        instance("2002-03-15", 0), instance("2002-05-01", 0), instance("2002-06-16", 1),
    ],
    "between_first_and_second": [
        instance("2001-03-15", 0), conformant("2001-04-30", 0), instance("2001-05-01", 0), instance("2001-06-15", 1),
        REINSTATED,
        # The day after the first.
        instance("2002-03-15", 0), conformant("2002-03-16", 0), instance("2002-05-01", 0), instance("2002-06-16", 0),
    ],
    "between_second_and_third": [
        instance("2001-03-15", 0), instance("2001-05-01", 0), conformant("2001-05-02", 0), instance("2001-06-15", 1),
        REINSTATED,
        # The day before the third.
        instance("2002-03-15", 0), instance("2002-05-01", 0), conformant("2002-06-15", 0), instance("2002-06-16", 0),
    ],
    "between_on_both_sides": [
        instance("2001-03-15", 0), conformant("2001-04-01", 0), instance("2001-05-01", 0), conformant("2001-06-01", 0),
        instance("2001-06-15", 1),
        REINSTATED,
        instance("2002-03-15", 0), conformant("2002-04-30", 0), instance("2002-05-01", 0), conformant("2002-05-02", 0),
        instance("2002-06-16", 0),
    ],
    # Conformant on the day before the first, and long before: none is between. A day late: declared.
    "between_none_but_before": [
        conformant("2001-01-01", 0), conformant("2001-03-14", 0),
        instance("2001-03-15", 0), instance("2001-05-01", 0), instance("2001-06-16", 1),
    ],
    # Conformant after the third alone: declared at the third, a day late, and so it stays.
    "between_none_but_after": [
        instance("2001-03-15", 0), instance("2001-05-01", 0), instance("2001-06-16", 1), conformant("2001-06-17", 1),
    ],
    # Days without dispatch alone, also next to the first and the third, are not conformant. A day late: declared.
    "between_days_without_dispatch": [
        instance("2001-03-15", 0), undispatched("2001-03-16", 0), undispatched("2001-04-01", 0, EARLIER), instance("2001-05-01", 0),
        undispatched("2001-05-02", 0, NOTHING), undispatched("2001-06-15", 0, ENERGY_NEGATIVE), instance("2001-06-16", 1),
    ],
    # One conformant day among them, between the first and the second. 15 March: 15 June; 1 May: 1 August. At the fourth, on 2
    # August, the first is 1 May: late, and none is between.
    "between_one_among_days_without_dispatch": [
        instance("2001-03-15", 0), undispatched("2001-03-16", 0), conformant("2001-03-17", 0), undispatched("2001-03-18", 0),
        instance("2001-05-01", 0), undispatched("2001-05-02", 0), instance("2001-06-16", 0), undispatched("2001-06-17", 0),
        instance("2001-08-02", 1),
    ],
    # Years apart. No conformant day: declared. One, somewhere: not declared.
    "apart_none": [
        instance("2000-01-01", 0), undispatched("2020-02-29", 0), instance("2050-06-15", 0), undispatched("2099-12-30", 0),
        instance("2099-12-31", 1),
    ],
    "apart_one_before_second": [
        instance("2000-01-01", 0), conformant("2000-01-02", 0), instance("2050-06-15", 0), instance("2099-12-31", 0)],
    "apart_one_after_second": [
        instance("2000-01-01", 0), instance("2050-06-15", 0), conformant("2099-12-30", 0), instance("2099-12-31", 0)],
    # Two instances are not enough, however near, nor is one; nor are conformant days after them.
    "apart_two_alone": [
        instance("2001-05-01", 0), instance("2001-05-02", 0), undispatched("2001-05-03", 0), conformant("2001-05-04", 0),
        undispatched("2001-05-05", 0), conformant("2002-05-06", 0),
    ],
}


# ---- more than three instances: the latest three

MORE = {
    # 10 January: 10 April. At the third, on 21 April, it is late, although the second is the day before it. At the fourth the
    # first is 20 April: in time.
    "more_fourth_in_time_of_second": [
        instance("2001-01-10", 0), conformant("2001-02-01", 0), instance("2001-04-20", 0), instance("2001-04-21", 0),
        instance("2001-04-22", 1),
    ],
    # 10 January: 10 April; 10 February: 10 May. The fourth is on the last day in time of the second.
    "more_fourth_on_last_day": [
        instance("2001-01-10", 0), conformant("2001-01-20", 0), instance("2001-02-10", 0), conformant("2001-03-01", 0),
        instance("2001-04-11", 0), conformant("2001-05-01", 0), instance("2001-05-10", 1),
    ],
    # The same, and the fourth a day late. It is in time of the third, by months, and that is of no account. At the fifth the first
    # is 11 April: 11 July.
    "more_fourth_late": [
        instance("2001-01-10", 0), conformant("2001-01-20", 0), instance("2001-02-10", 0), conformant("2001-03-01", 0),
        instance("2001-04-11", 0), conformant("2001-05-01", 0), instance("2001-05-11", 0), conformant("2001-06-01", 0),
        instance("2001-07-11", 1),
    ],
    # The conformant day is between the first and the second. At the fourth, late too, it is before the first of the latest three:
    # none is between, declared.
    "more_conformant_before_second": [
        instance("2001-01-10", 0), conformant("2001-01-20", 0), instance("2001-02-10", 0), instance("2001-04-11", 0),
        instance("2001-05-11", 1),
    ],
    # Between the second and the third: it is between at the fourth still. 11 April: 11 July. At the fifth, a day late, none is
    # between.
    "more_conformant_after_second": [
        instance("2001-01-10", 0), instance("2001-02-10", 0), conformant("2001-02-20", 0), instance("2001-04-11", 0),
        instance("2001-05-11", 0), instance("2001-07-12", 1),
    ],
    # And again one between the third and the fourth: at the fifth it is between still. 11 May: 11 August. At the sixth none is.
    "more_conformant_after_third": [
        instance("2001-01-10", 0), conformant("2001-01-20", 0), instance("2001-02-10", 0), instance("2001-04-11", 0),
        conformant("2001-04-20", 0), instance("2001-05-11", 0), instance("2001-07-12", 0), instance("2001-08-12", 1),
    ],
    # The third to the fifth alone are in time. 10 January: 10 April; 10 March: 10 June; 10 May: 10 August.
    "more_fifth": [
        instance("2001-01-10", 0), conformant("2001-01-11", 0), instance("2001-03-10", 0), instance("2001-05-10", 0),
        conformant("2001-06-01", 0), instance("2001-07-10", 0), instance("2001-08-10", 1),
    ],
    # Every second month, and a conformant day each time: four months from a first to a third. 1 September: 1 December.
    "more_every_second_month": [
        instance("2001-01-01", 0), conformant("2001-02-01", 0), instance("2001-03-01", 0), conformant("2001-04-01", 0),
        instance("2001-05-01", 0), conformant("2001-06-01", 0), instance("2001-07-01", 0), conformant("2001-08-01", 0),
        instance("2001-09-01", 0), conformant("2001-10-01", 0), instance("2001-11-01", 0), conformant("2001-11-02", 0),
        instance("2001-12-01", 1),
    ],
    # Late by a day each time. 1 January: 1 April; 15 February: 15 May; 2 April: 2 July; 16 May: 16 August. 3 July: 3 October, and
    # the seventh is on it.
    "more_late_by_a_day": [
        instance("2001-01-01", 0), conformant("2001-01-15", 0), instance("2001-02-15", 0), conformant("2001-03-01", 0),
        instance("2001-04-02", 0), conformant("2001-05-01", 0), instance("2001-05-16", 0), conformant("2001-06-01", 0),
        instance("2001-07-03", 0), conformant("2001-08-01", 0), instance("2001-08-17", 0), conformant("2001-09-01", 0),
        instance("2001-10-03", 1),
    ],
}


# ---- declared, reinstated, declared again

DECLARED = {
    # It stays through conformant days, days without dispatch and refused calls, and where the latest three would not declare: 3
    # January 2001, 1 January 2003, 1 January 2004, with conformant days between.
    "declared_stays": [
        instance("2001-01-01", 0), instance("2001-01-02", 0), instance("2001-01-03", 1), conformant("2001-01-04", 1),
        undispatched("2001-01-05", 1), refused("2001-01-05", 34), refused("2001-02-29", 33), conformant("2001-06-01", 1),
        conformant("2002-01-01", 1), instance("2003-01-01", 1), conformant("2003-01-02", 1), instance("2004-01-01", 1),
        conformant("2099-12-31", 1),
        REINSTATED, NOT_DECLARED,
    ],
    # Five instances, all cleared: two after the reinstatement are not enough, although all seven are in a row. The third is.
    "declared_all_cleared": [
        instance("2001-01-01", 0), instance("2001-01-02", 0), instance("2001-01-03", 1), instance("2001-01-04", 1),
        instance("2001-01-05", 1),
        REINSTATED,
        instance("2001-01-06", 0), instance("2001-01-07", 0), instance("2001-01-08", 1),
    ],
    # Four instances, reinstated, and one, then two: not enough.
    "declared_two_after": [
        instance("2001-01-01", 0), instance("2001-01-02", 0), instance("2001-01-03", 1), instance("2001-01-04", 1),
        REINSTATED,
        instance("2001-01-05", 0), NOT_DECLARED, instance("2001-01-06", 0), NOT_DECLARED, conformant("2001-01-07", 0),
    ],
    # Declared by months, with a conformant day between; then without one, years apart; then by months.
    "declared_three_times": [
        instance("2001-01-01", 0), conformant("2001-01-02", 0), instance("2001-03-01", 0), instance("2001-04-01", 1),
        REINSTATED, NOT_DECLARED,
        instance("2002-01-01", 0), instance("2005-01-01", 0), undispatched("2009-01-01", 0), instance("2010-01-01", 1),
        REINSTATED,
        conformant("2010-01-02", 0), instance("2010-11-30", 0), conformant("2010-12-01", 0), instance("2011-02-27", 0),
        conformant("2011-02-28", 0), NOT_DECLARED, refused("2011-02-28", 34), instance("2011-03-01", 0),
        # 30 November: 28 February, late. 27 February: 27 May.
        instance("2011-05-27", 1),
        REINSTATED,
    ],
    # Conformant days before the reinstatement, and after it before the first instance, are not between. 1 February: 1 May.
    "declared_conformant_before_next": [
        instance("2001-01-01", 0), conformant("2001-01-02", 0), instance("2001-01-03", 0), conformant("2001-01-04", 0),
        instance("2001-01-05", 1), conformant("2001-01-06", 1),
        REINSTATED,
        conformant("2001-01-07", 0), instance("2001-02-01", 0), instance("2001-03-01", 0), instance("2001-05-02", 1),
    ],
    # The same with one between the first and the second after the reinstatement: not declared. 1 March: 1 June.
    "declared_conformant_after_next": [
        instance("2001-01-01", 0), instance("2001-01-02", 0), instance("2001-01-03", 1),
        REINSTATED,
        instance("2001-02-01", 0), conformant("2001-02-02", 0), instance("2001-03-01", 0), instance("2001-05-02", 0),
        conformant("2001-05-03", 0), instance("2001-06-01", 1),
    ],
}

REINSTATEMENTS = {
    "reinstate_at_start": [
        NOT_DECLARED, NOT_DECLARED, instance("2001-01-01", 0), instance("2001-01-02", 0), instance("2001-01-03", 1)],
    # After each call. A refused one clears no instance.
    "reinstate_after_each": [
        undispatched("2001-01-01", 0), NOT_DECLARED, conformant("2001-01-02", 0), NOT_DECLARED,
        instance("2001-01-03", 0), NOT_DECLARED, instance("2001-01-04", 0), NOT_DECLARED, instance("2001-01-05", 1),
        REINSTATED, NOT_DECLARED, NOT_DECLARED,
    ],
    # A refused one clears no conformant day and no date either. 15 March: 15 June. At the fourth the first is 1 May.
    "reinstate_refused_keeps_all": [
        instance("2001-03-15", 0), conformant("2001-04-01", 0), NOT_DECLARED, instance("2001-05-01", 0), NOT_DECLARED,
        instance("2001-06-16", 0), NOT_DECLARED, refused("2001-06-16", 34), instance("2001-06-17", 1),
        REINSTATED,
    ],
    # The latest date is kept.
    "reinstate_keeps_date": [
        instance("2001-01-01", 0), instance("2001-01-02", 0), instance("2001-01-03", 1),
        REINSTATED,
        refused("2001-01-03", 34), refused("2001-01-03", 34, ENERGY), refused("2001-01-03", 34, FULL), refused("2001-01-02", 34),
        refused("2000-12-31", 34), undispatched("2001-01-04", 0), refused("2001-01-04", 34),
        # None of the refused ones is an instance.
        instance("2001-01-05", 0), instance("2001-01-06", 0), instance("2001-01-07", 1),
    ],
    # Also where it is the date of a day without dispatch.
    "reinstate_keeps_date_without_dispatch": [
        instance("2001-01-01", 0), instance("2001-01-02", 0), instance("2001-01-03", 1), undispatched("2001-02-01", 1),
        REINSTATED,
        refused("2001-02-01", 34), refused("2001-01-31", 34), refused("2001-01-03", 34, ENERGY), instance("2001-02-02", 0),
    ],
}


# ---- kinds of days

KINDS = {
    # The day's own flag alone.
    "kinds_day_flag": [
        instance("2001-01-01", 0, UNDER), instance("2001-01-02", 0, UNDER), instance("2001-01-03", 1, UNDER),
        REINSTATED,
        instance("2001-01-04", 0, OVER), instance("2001-01-05", 0, OVER), instance("2001-01-06", 1, OVER),
    ],
    # Under intervals alone, over intervals alone, both.
    "kinds_interval_flag": [
        instance("2001-01-01", 0, UNDER_INTERVAL), instance("2001-01-02", 0, UNDER_INTERVAL),
        instance("2001-01-03", 1, UNDER_INTERVAL),
        REINSTATED,
        instance("2001-01-04", 0, OVER_INTERVAL), instance("2001-01-05", 0, OVER_INTERVAL),
        instance("2001-01-06", 1, OVER_INTERVAL),
        REINSTATED,
        instance("2001-01-07", 0, INTERVALS), instance("2001-01-08", 0, INTERVALS), instance("2001-01-09", 1, INTERVALS),
    ],
    # 256 intervals: the low byte of the count is 0.
    "kinds_256_intervals": [
        instance("2001-01-01", 0, UNDER_256), instance("2001-01-02", 0, UNDER_256), instance("2001-01-03", 1, UNDER_256),
        REINSTATED,
        instance("2001-01-04", 0, OVER_256), instance("2001-01-05", 0, OVER_256), instance("2001-01-06", 1, OVER_256),
    ],
    # The day's flag and an interval's, of one kind and of both: a day is one instance, not two.
    "kinds_both_flags": [
        instance("2001-01-01", 0, UNDER_TWICE), instance("2001-01-02", 0, OVER_TWICE), instance("2001-01-03", 1, NEGATIVE),
        REINSTATED,
        instance("2001-01-04", 0, UNDER_AND_OVER), instance("2001-01-05", 0, OVER_AND_UNDER),
        instance("2001-01-06", 1, UNDER_AND_OVER),
    ],
    # One of each.
    "kinds_mixed": [
        instance("2001-01-01", 0, OVER), instance("2001-01-02", 0, UNDER_INTERVAL), instance("2001-01-03", 1, UNDER_AND_OVER),
        instance("2001-01-04", 1, UNDER),
        REINSTATED,
        instance("2001-01-05", 0, OVER_INTERVAL), instance("2001-01-06", 0, UNDER), instance("2001-01-07", 1, OVER_TWICE),
    ],
    # Days that are no instances, alone.
    "kinds_conformant_alone": [
        conformant("2001-01-01", 0, FULL), conformant("2001-01-02", 0, FIRSTS), conformant("2001-01-03", 0, SINGLE),
        conformant("2001-01-04", 0, ABOVE_50), conformant("2001-01-05", 0, BELOW_150), conformant("2001-01-06", 0, ONE_KW),
        NOT_DECLARED,
    ],
    "kinds_without_dispatch_alone": [
        undispatched("2001-01-01", 0, ENERGY), undispatched("2001-01-02", 0, ENERGY_NEGATIVE),
        undispatched("2001-01-03", 0, EARLIER), undispatched("2001-01-04", 0, NOTHING), NOT_DECLARED,
    ],
    # Every kind of conformant day, and never two of them between. An instance every second month: four months from a first to a
    # third, and each third is late. None is between 1 July and 1 November 2002: declared.
    "kinds_conformant_between": [
        instance("2001-01-01", 0), conformant("2001-02-01", 0, FIRSTS), instance("2001-03-01", 0), instance("2001-05-01", 0),
        conformant("2001-06-01", 0, SINGLE), instance("2001-07-01", 0), instance("2001-09-01", 0),
        conformant("2001-10-01", 0, ABOVE_50), instance("2001-11-01", 0), instance("2002-01-01", 0),
        conformant("2002-02-01", 0, BELOW_150), instance("2002-03-01", 0), instance("2002-05-01", 0),
        conformant("2002-06-01", 0, ONE_KW), instance("2002-07-01", 0), instance("2002-09-01", 0), instance("2002-11-01", 1),
    ],
}


# ---- dates

DATES = {
    # The first date may be any.
    "date_first": [undispatched("2000-01-01", 0), refused("2000-01-01", 34), undispatched("2000-01-02", 0)],
    # After the last date of all, no other is accepted.
    "date_last": [
        instance("2099-12-31", 0), refused("2099-12-31", 34), refused("2099-12-30", 34), refused("2000-01-01", 34),
        refused("2099-12-32", 33), refused("2100-01-01", 33), NOT_DECLARED,
    ],
    # The last day of every month of a common year, and the day number after it.
    "date_months": [
        undispatched("2001-01-31", 0), refused("2001-01-32", 33), undispatched("2001-02-28", 0), refused("2001-02-29", 33),
        undispatched("2001-03-31", 0), refused("2001-03-32", 33), undispatched("2001-04-30", 0), refused("2001-04-31", 33),
        undispatched("2001-05-31", 0), refused("2001-05-32", 33), undispatched("2001-06-30", 0), refused("2001-06-31", 33),
        undispatched("2001-07-31", 0), refused("2001-07-32", 33), undispatched("2001-08-31", 0), refused("2001-08-32", 33),
        undispatched("2001-09-30", 0), refused("2001-09-31", 33), undispatched("2001-10-31", 0), refused("2001-10-32", 33),
        undispatched("2001-11-30", 0), refused("2001-11-31", 33), undispatched("2001-12-31", 0), refused("2001-12-32", 33),
    ],
    # Every leap year from 2000 to 2096.
    "date_leap_days": [
        undispatched(date, 0) for date in (
            "2000-02-29", "2004-02-29", "2008-02-29", "2012-02-29", "2016-02-29", "2020-02-29", "2024-02-29", "2028-02-29",
            "2032-02-29", "2036-02-29", "2040-02-29", "2044-02-29", "2048-02-29", "2052-02-29", "2056-02-29", "2060-02-29",
            "2064-02-29", "2068-02-29", "2072-02-29", "2076-02-29", "2080-02-29", "2084-02-29", "2088-02-29", "2092-02-29",
            "2096-02-29")
    ],
    # 29 February of common years, and of years that are out; 30 and 31 February of any.
    "date_no_leap_days": [
        refused(date, 33) for date in (
            "2001-02-29", "2002-02-29", "2003-02-29", "2005-02-29", "2010-02-29", "2014-02-29", "2050-02-29", "2094-02-29",
            "2095-02-29", "2097-02-29", "2098-02-29", "2099-02-29", "1996-02-29", "2100-02-29", "2104-02-29", "2000-02-30",
            "2001-02-30", "2004-02-30", "2096-02-30", "2096-02-31", "2099-02-30")
    ],
    # Months that are none: 257, 65,537 and 2^31 + 1 are 1 in fewer bits, 16,777,216 is 1 in the other order of bytes.
    "date_no_month": [
        refused("2001-0-1", 33), refused("2001-13-1", 33), refused("2001-14-1", 33), refused("2001-255-1", 33),
        refused("2001-256-1", 33), refused("2001-257-1", 33), refused("2001-65537-1", 33), refused("2001-16777216-1", 33),
        refused("2001-2147483649-1", 33), refused("2001-4294967295-1", 33), undispatched("2000-01-01", 0),
    ],
    # Days that are none, in the same way.
    "date_no_day": [
        refused("2001-1-0", 33), refused("2001-2-0", 33), refused("2001-3-0", 33), refused("2001-1-32", 33),
        refused("2001-1-33", 33), refused("2001-12-32", 33), refused("2001-1-257", 33), refused("2001-1-65537", 33),
        refused("2001-1-16777216", 33), refused("2001-1-2147483649", 33), refused("2001-1-4294967295", 33),
        undispatched("2000-01-01", 0),
    ],
    # Years that are none of 2000 to 2099: 67,537 is 65,536 + 2,001, 2,147,485,649 is 2^31 + 2,001, 4,294,965,295 is 2^32 - 2,001.
    # Then dates in which nothing is right.
    "date_no_year": [
        refused("1999-12-31", 33), refused("1999-1-1", 33), refused("2100-1-1", 33), refused("2100-12-31", 33),
        refused("0-1-1", 33), refused("1-1-1", 33), refused("99-12-31", 33), refused("67537-1-1", 33),
        refused("2147485649-1-1", 33), refused("4294965295-1-1", 33), refused("4294967295-1-1", 33), refused("0-0-0", 33),
        refused("1999-13-32", 33), refused("2100-0-0", 33), refused("2147483648-2147483648-2147483648", 33),
        refused("4294967295-4294967295-4294967295", 33), undispatched("2000-01-01", 0),
    ],
    # 33 goes before 34: no such date, and it would be before the latest one.
    "date_33_before_34": [
        undispatched("2050-06-30", 0), refused("2050-06-31", 33), refused("2049-02-29", 33), refused("2050-04-31", 33),
        refused("1999-12-31", 33), refused("2050-0-15", 33), refused("2050-6-0", 33), refused("2000-13-1", 33),
        refused("2000-02-30", 33), refused("0-0-0", 33), refused("2000-02-29", 34), refused("2050-06-30", 34),
    ],
    # The year goes before the month, and the month before the day.
    "date_34": [
        undispatched("2050-06-15", 0), refused("2050-06-15", 34), refused("2050-06-14", 34), refused("2050-06-01", 34),
        refused("2050-05-31", 34), refused("2050-05-16", 34), refused("2050-01-31", 34), refused("2049-06-16", 34),
        refused("2049-07-16", 34), refused("2049-12-31", 34), refused("2000-12-31", 34), undispatched("2050-06-16", 0),
        undispatched("2050-07-01", 0), undispatched("2051-01-01", 0), refused("2050-12-31", 34), undispatched("2099-01-01", 0),
    ],
    # Neighbours at the turn of a month, before and after 29 February, and at the turn of a year.
    "date_34_turns_of_months": [
        undispatched("2004-01-31", 0), undispatched("2004-02-01", 0), refused("2004-01-31", 34), undispatched("2004-02-29", 0),
        refused("2004-02-28", 34), undispatched("2004-03-01", 0), refused("2004-02-29", 34), undispatched("2004-12-31", 0),
        refused("2004-12-30", 34), undispatched("2005-01-01", 0), refused("2004-12-31", 34), refused("2004-03-01", 34),
    ],
    # 34 against the date of a day without dispatch, of a conformant day and of an instance; 33 and 34 of each kind of day.
    "date_after_each_kind": [
        undispatched("2001-05-10", 0), refused("2001-05-10", 34), refused("2001-05-09", 34, FULL),
        refused("2001-05-32", 33, FULL), conformant("2001-05-11", 0), refused("2001-05-11", 34), refused("2001-05-10", 34, ENERGY),
        refused("2001-06-31", 33, ENERGY), instance("2001-05-12", 0), refused("2001-05-12", 34), refused("2001-05-12", 34, ENERGY),
        refused("2001-05-11", 34, FULL), undispatched("2001-05-13", 0),
    ],
}


# ---- a refused day leaves the ledger as it was

UNCHANGED = {
    # No date is kept of it.
    "unchanged_date": [
        refused("2001-02-29", 33), refused("2099-12-31", 31, SHORT), refused("2099-12-31", 32, PAST),
        undispatched("2001-02-27", 0), refused("2001-02-29", 33), refused("2001-12-32", 33), refused("2100-01-01", 33),
        refused("2001-01-01", 34), refused("2099-12-31", 31, SHORT), refused("2099-12-31", 32, PAST), instance("2001-02-28", 0),
    ],
    # It is no instance: three are accepted before the unit is declared.
    "unchanged_instances": [
        instance("2001-01-10", 0), refused("2001-01-10", 34), refused("2001-01-09", 34), refused("2001-01-32", 33),
        refused("2001-01-11", 31, SHORT), refused("2001-01-11", 32, PAST), NOT_DECLARED, instance("2001-01-11", 0),
        refused("2001-01-11", 34), refused("2001-02-29", 33), NOT_DECLARED, instance("2001-01-12", 1),
    ],
    # No conformant day: the third, a day late, has none between. 15 March: 15 June.
    "unchanged_conformant": [
        instance("2001-03-15", 0), refused("2001-03-15", 34, FULL), refused("2001-03-14", 34, FULL),
        refused("2001-04-31", 33, FULL), instance("2001-05-01", 0), refused("2001-05-01", 34, FULL),
        refused("2001-05-02", 31, SHORT_FULL), refused("2001-05-02", 32, PAST_FULL), refused("2001-06-31", 33, FULL),
        instance("2001-06-16", 1),
    ],
    # Nor is it one of the latest three. 15 March: 15 June; the day refused with 31 would be in time, and 16 June is late. 1 May: 1
    # August, and 2 August is late; if 16 June were two instances, it would be the first, and in time.
    "unchanged_latest_three": [
        instance("2001-03-15", 0), conformant("2001-03-16", 0), instance("2001-05-01", 0), refused("2001-06-31", 33),
        refused("2001-04-30", 34), refused("2001-06-15", 31, SHORT), instance("2001-06-16", 0), refused("2001-06-16", 34),
        conformant("2001-07-01", 0), instance("2001-08-02", 0),
    ],
    # The unit is declared before and after.
    "unchanged_declared": [
        instance("2001-01-01", 0), instance("2001-01-02", 0), instance("2001-01-03", 1), refused("2001-01-03", 34, FULL),
        refused("2001-13-01", 33, ENERGY), refused("2001-01-04", 31, SHORT), refused("2001-01-04", 32, PAST),
        undispatched("2001-01-04", 1),
        REINSTATED,
    ],
    # 31 and 32 go before 33 and 34, and 31 before 32.
    "unchanged_order": [
        refused("2001-02-29", 31, SHORT), refused("2001-02-29", 32, PAST), refused("2001-02-29", 31, BOTH),
        refused("0-0-0", 31, b""), refused("4294967295-4294967295-4294967295", 32, PAST), instance("2001-05-10", 0),
        refused("2001-05-10", 31, SHORT), refused("2001-05-10", 32, PAST), refused("2001-05-09", 31, BOTH),
        refused("2001-02-29", 31, SHORT), refused("2001-02-29", 32, PAST), refused("2001-02-29", 33), refused("2001-05-10", 34),
        instance("2001-05-11", 0),
    ],
}

# The day's bytes after the date: 31 if they are not 3,460. The call's payload has 12 more.
WHOLE = INTERVALS[0]
LENGTHS = {
    # Payloads of 12, 13, 15, 16, 17 and 28 bytes: no earlier target, a part of it, it alone, and more.
    "length_small": [
        refused("2001-01-01", 31, b""), refused("2001-01-01", 31, WHOLE[:1]), refused("2001-01-01", 31, WHOLE[:3]),
        refused("2001-01-01", 31, WHOLE[:4]), refused("2001-01-01", 31, WHOLE[:5]), refused("2001-01-01", 31, WHOLE[:16]),
        instance("2001-01-01", 0, INTERVALS),
    ],
    # 287 records, a byte less and a byte more than 288, 288 without an earlier target, 289.
    "length_near": [
        refused("2001-01-01", 31, WHOLE[:3_448]), refused("2001-01-01", 31, WHOLE[:3_459]), refused("2001-01-01", 31, WHOLE[4:]),
        refused("2001-01-01", 31, WHOLE + bytes(1)), refused("2001-01-01", 31, WHOLE + bytes(12)),
        instance("2001-01-01", 0, INTERVALS),
    ],
    # Payloads of 12 + 8,179 = 8,191 and 12 + 8,180 = 8,192 bytes, and a call after them.
    "length_8192": [
        refused("2001-01-01", 31, WHOLE + bytes(4_719)), refused("2001-01-01", 31, WHOLE + bytes(4_720)),
        refused("2001-02-29", 31, b"\xff" * 8_180), instance("2001-01-01", 0, INTERVALS), NOT_DECLARED,
    ],
}


# ---- calls that cannot be read

NEXT = instance("2001-01-01", 0)  # 3,480 bytes
SCRIPT_ERRORS = {
    # The file ends within the tag, within the length, before the payload, and within it.
    "script_tag_cut": [(REINSTATE[:1], "script error at byte 0")],
    "script_head_cut": [(REINSTATE[:7], "script error at byte 0")],
    "script_head_alone": [(NEXT[0][:8], "script error at byte 0")],
    "script_payload_cut": [(NEXT[0][:3_479], "script error at byte 0")],
    # After a reinstatement and a day: 8 + 3,480 = 3,488. After two days: 6,960.
    "script_head_cut_later": [NOT_DECLARED, NEXT, (REINSTATE[:7], "script error at byte 3488")],
    "script_payload_cut_later": [
        NEXT, instance("2001-01-02", 0), (instance("2001-01-03", 1)[0][:3_479], "script error at byte 6960")],
    # Tags that no call has; 257 and 258 have the low byte of one. What comes after is not answered.
    "script_tag_0": [(call(0, b"") + REINSTATE, "script error at byte 0")],
    "script_tag_3": [(call(3, b"") + REINSTATE, "script error at byte 0")],
    "script_tag_257": [(call(257, NEXT[0][8:]) + NEXT[0], "script error at byte 0")],
    "script_tag_258_later": [NOT_DECLARED, NOT_DECLARED, (call(258, b"") + REINSTATE, "script error at byte 16")],
    "script_tag_4294967295_later": [NOT_DECLARED, NEXT, (call(4_294_967_295, b"") + NEXT[0], "script error at byte 3488")],
    # Seven zeros are no head, eight are a tag of 0.
    "script_zeros_7_later": [NEXT, (bytes(7), "script error at byte 3480")],
    "script_zeros_8_later": [NEXT, (bytes(8), "script error at byte 3480")],
    # Payloads over 8,192 bytes, all there, and a length that no file has.
    "script_8193": [(dated("2001-01-01", WHOLE + bytes(4_721)) + REINSTATE, "script error at byte 0")],
    # After a day of 8 + 8,192 bytes.
    "script_8193_later": [
        refused("2001-01-01", 31, WHOLE + bytes(4_720)),
        (dated("2001-01-01", WHOLE + bytes(4_721)) + NEXT[0], "script error at byte 8200"),
    ],
    "script_8193_reinstate": [(call(2, bytes(8_193)) + REINSTATE, "script error at byte 0")],
    "script_length_4294967295": [(struct.pack("<II", 1, 4_294_967_295) + NEXT[0][8:], "script error at byte 0")],
    # A reinstatement with a payload. After three days, 10,440, where the unit is declared.
    "script_reinstate_1": [(call(2, bytes(1)) + REINSTATE, "script error at byte 0")],
    "script_reinstate_4_later": [
        NEXT, instance("2001-01-02", 0), instance("2001-01-03", 1), (call(2, bytes(4)) + REINSTATE, "script error at byte 10440")],
    # A day with no room for its date.
    "script_day_0": [(call(1, b"") + NEXT[0], "script error at byte 0")],
    "script_day_11": [(call(1, NEXT[0][8:19]) + NEXT[0], "script error at byte 0")],
    "script_day_11_later": [NOT_DECLARED, (call(1, NEXT[0][8:19]) + NEXT[0], "script error at byte 8")],
    # Refused calls go on, and their lines stand. 3,480; a payload of 12 bytes, 20, 3,500; 6,980; 10,460; 13,940; 13,948.
    "script_after_refusals": [
        NEXT, refused("2001-01-02", 31, b""), refused("2001-01-02", 32, PAST), refused("2001-02-29", 33),
        refused("2001-01-01", 34), NOT_DECLARED, (call(3, b"") + NEXT[0], "script error at byte 13948"),
    ],
    # No call at all.
    "empty": [],
    "missing": None,
}


# ---- longer lists

LISTS = {
    # What `rt ci` runs the program on: every answer but a script error.
    "each_answer": [
        NOT_DECLARED,
        undispatched("2020-11-29", 0),
        instance("2020-11-30", 0, UNDER),
        conformant("2020-12-15", 0),
        instance("2021-01-20", 0, OVER_INTERVAL),
        refused("2021-02-29", 33),
        refused("2021-01-20", 34),
        refused("2021-02-28", 31, b""),
        refused("2021-02-28", 32, PAST),
        # 30 November: 28 February.
        instance("2021-02-28", 1, UNDER_INTERVAL),
        conformant("2021-03-05", 1, FIRSTS),
        instance("2021-03-06", 1, OVER),
        REINSTATED,
        refused("2021-03-06", 34),
        instance("2021-03-31", 0, INTERVALS),
        conformant("2021-04-02", 0),
        instance("2021-06-30", 0, UNDER_AND_OVER),
        # 31 March: 30 June. A day late, with a conformant day between.
        instance("2021-07-01", 0, UNDER),
        # 30 June: 30 September. Late, with none between.
        instance("2022-01-01", 1, OVER_INTERVAL),
        REINSTATED,
        NOT_DECLARED,
    ],
    # A leap year with all kinds.
    "year_2024": [
        NOT_DECLARED,
        undispatched("2024-01-01", 0, NOTHING),
        instance("2024-01-02", 0, UNDER),
        conformant("2024-01-03", 0),
        conformant("2024-01-15", 0, SINGLE),
        refused("2024-01-32", 33),
        instance("2024-02-29", 0, OVER_INTERVAL),
        refused("2024-02-29", 34, FULL),
        refused("2024-02-30", 33),
        conformant("2024-03-10", 0, FIRSTS),
        undispatched("2024-03-11", 0),
        # 2 January: 2 April. A day late, with conformant days between.
        instance("2024-04-03", 0, INTERVALS),
        NOT_DECLARED,
        refused("2024-04-04", 31, SHORT),
        conformant("2024-04-04", 0, BELOW_150),
        # 29 February: 29 May.
        instance("2024-05-29", 1, OVER),
        conformant("2024-05-30", 1),
        refused("2024-05-29", 34),
        instance("2024-06-01", 1, UNDER_TWICE),
        REINSTATED,
        NOT_DECLARED,
        instance("2024-06-02", 0, OVER_TWICE),
        refused("2024-06-03", 32, PAST),
        instance("2024-06-03", 0, UNDER_AND_OVER),
        undispatched("2024-06-04", 0, EARLIER),
        undispatched("2024-08-31", 0, ENERGY_NEGATIVE),
        # 2 June: 2 September. A day late, with none between.
        instance("2024-09-03", 1, OVER_AND_UNDER),
        refused("2024-09-03", 34, ENERGY),
        REINSTATED,
        instance("2024-09-30", 0, UNDER),
        instance("2024-10-31", 0, UNDER_INTERVAL),
        refused("2024-11-31", 33, FULL),
        conformant("2024-12-30", 0, ABOVE_50),
        # 30 September: 30 December. A day late, with a conformant day between.
        instance("2024-12-31", 0, OVER),
        refused("2024-12-32", 33),
        NOT_DECLARED,
        # 31 October: 31 January.
        instance("2025-01-01", 1, NEGATIVE),
        REINSTATED,
        refused("2025-01-01", 34),
    ],
}

GROUPS = (
    THREE_MONTHS, LAST_YEAR, BETWEEN, MORE, DECLARED, REINSTATEMENTS, KINDS, DATES, UNCHANGED, LENGTHS, SCRIPT_ERRORS, LISTS)
CASES = {name: case for group in GROUPS for name, case in group.items()}


# What `rt ci` runs the program on.
CRATE_LEDGER = "each_answer"
CRATE_FILES = {
    ROOT / "crates" / "response_ledger" / "data" / "ledger.bin": "ledger.bin",
    ROOT / "crates" / "response_ledger" / "stdout": "expected",
}


# ---- the files


def files(case):
    """name -> bytes of a case's folder; an absent file is left out."""
    if case is None:
        return {"expected": b""}
    return {
        "ledger.bin": b"".join(sent for sent, _ in case),
        "expected": "".join(f"{line}\n" for _, line in case).encode("ascii"),
    }


def check(made):
    wrong = folders.wrong(ROOT / "tests" / "ledgers", made)
    for path, contents in CRATE_FILES.items():
        if not path.is_file() or path.read_bytes() != made[CRATE_LEDGER][contents]:
            wrong += 1
            print(f"{path.relative_to(ROOT)}: differs")
    print(f"{len(made)} ledgers, {wrong} wrong")
    return 1 if wrong else 0


def main(arguments):
    assert len(CASES) == sum(map(len, GROUPS)), "two cases have one name"
    made = {name: files(case) for name, case in CASES.items()}
    if not arguments:
        folders.write(ROOT / "tests" / "ledgers", made)
        for path, contents in CRATE_FILES.items():
            path.parent.mkdir(parents=True, exist_ok=True)
            path.write_bytes(made[CRATE_LEDGER][contents])
        return 0
    if arguments == ["--check"]:
        return check(made)
    print(__doc__)
    return 2


if __name__ == "__main__":
    sys.exit(main(sys.argv[1:]))
