"""The 40 bytes of a unit's line (01, "The interval buffer"), and the cases of a trial."""
import struct
import sys
from fractions import Fraction

BLOCK = 65536  # the bytes of cases that crates/trials reads at once
UNSIGNED = ["availability", "raise", "lower", "bid up", "bid down"]
READINGS = ["MW", "ramp up", "ramp down"]


def nearest_kw(bits):
    """The nearest whole number to 1000 times the float's exact value, halves away from zero."""
    exponent, fraction = bits >> 23 & 255, bits & 0x7FFFFF
    assert exponent < 255, "no number"
    if exponent:
        fraction += 1 << 23
    size = 1000 * fraction * Fraction(2) ** (max(exponent, 1) - 150)
    whole = int(size + Fraction(1, 2))
    return -whole if bits >> 31 else whole


def packed(f):
    """A line from its fields, with the readings given as bits. Byte 2 is the cap flag of kind 4, and a spare of the others."""
    head = bytes([f["quality"], f["mode"], f["byte 2"], f["byte 3"]])
    numbers = struct.pack("<i5I", f["target"], *(f[name] for name in UNSIGNED))
    return head + numbers + struct.pack("<3I", *(f[name] for name in READINGS))


def labelled(label):
    return bytes([len(label)]) + label.encode("ascii")


def in_blocks(pieces, most):
    """The pieces one after the other, in blocks of which there are at most so many.

    No piece straddles two blocks: where the next one does not fit into what is left of a block, zeros fill that up. A piece
    begins with the length of its label, which is never 0, so a zero there, or the end of the block, ends a block's pieces.
    """
    out = bytearray()
    for piece in pieces:
        if len(piece) > BLOCK:
            sys.exit(f"a case has {len(piece)} bytes; a block has {BLOCK}")
        left = -len(out) % BLOCK  # 0 at the start of a block
        if len(piece) > left:
            out += bytes(left)
        out += piece
    if len(out) > most * BLOCK:
        sys.exit(f"{len(out)} bytes of cases; there is room for {most} x {BLOCK}")
    return bytes(out)


def printed(label, answer):
    """What a case prints. Its answer is one line, or a list of lines, which may be empty."""
    return "".join(f"{label}: {words}\n" for words in ([answer] if isinstance(answer, str) else answer))


def made(cases, blocks=1):
    """What the cases of a trial are for the program, in blocks, of which there are at most so many, and what it prints.

    A case: label, what the program reads, answer.
    """
    labels = [label for label, _, _ in cases]
    assert all(labels), "a label is empty"
    assert len(labels) == len(set(labels)), "a label stands twice"
    given = in_blocks((labelled(label) + content for label, content, _ in cases), blocks)
    return given, "".join(printed(label, answer) for label, _, answer in cases).encode("ascii")
