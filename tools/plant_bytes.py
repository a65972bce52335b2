"""Bytes of registers and interval buffers, all fields little-endian."""

import struct

# Kinds.
GENERATING, LOAD, BIDIRECTIONAL, SEMI_SCHEDULED = 1, 2, 3, 4
# Quality of a line's telemetry.
GOOD, SUBSTITUTED, BAD = 0, 1, 2
# Mask of an interval: bit r is set where region r is automatic. These two are for a plant in region 0.
MANUAL, AUTOMATIC = 0, 1


def regions(*automatic):
    """The mask of an interval in which these regions are automatic and the others manual."""
    return sum(1 << region for region in {*automatic})


def register(lengths, units, heads=()):
    """lengths: Ns, Ps, Ds, Nl, Pl, Dl; heads: first member of each aggregate.

    units: (kind, next) each in region 0, or (kind, next, region).
    """
    out = bytes([len(units), len(heads)])  # 0 unit count n; 1 aggregate count m
    out += bytes(lengths)  # 2-7 run lengths
    out += bytes(8)  # 8-15 zeros
    for kind, following, *region in units:
        out += bytes([kind, following, *(region or [0]), 0])  # kind, next, region, zero
    for head in heads:
        out += bytes([head, 0, 0, 0])  # first member, three zeros
    return out


def line(mw, *, mwb, mwo, fcr=0, fcl=0, bid=(3000, 3000), scada=(3.0, 3.0), quality=GOOD, mode=0, cap=0):
    """One unit's line, 40 bytes. mw and scada in MW, all else in kW; bid and scada are (up, down)."""
    return (
        bytes([quality, mode, cap, 0])  # 0 quality; 1 conformance mode; 2 cap flag of kind 4, zero for the others; 3 zero
        + struct.pack("<i", mwb)  # 4 MWB, target
        + struct.pack("<I", mwo)  # 8 MWO, availability
        + struct.pack("<I", fcr)  # 12 FCR, regulation raise
        + struct.pack("<I", fcl)  # 16 FCL, regulation lower
        + struct.pack("<I", bid[0])  # 20 bid ramp up
        + struct.pack("<I", bid[1])  # 24 bid ramp down
        + struct.pack("<f", mw)  # 28 MW, actual
        + struct.pack("<f", scada[0])  # 32 SCADA ramp up
        + struct.pack("<f", scada[1])  # 36 SCADA ramp down
    )


def interval(number, mask, *lines):
    """An interval buffer, 8 + 40n bytes."""
    return (
        struct.pack("<I", number)  # 0 interval number
        + bytes([mask, 0, 0, 0])  # 4 mask, a bit for each region; 5-7 zeros
        + b"".join(lines)
    )
