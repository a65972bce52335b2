"""The cases of registers for crates/trials, and what it prints of each; `tools/make_trials.py` writes them.

They are worked out by hand from document 01, for kind 4 from 02, 2026-01, and for regions from 02, 2026-09. Each case states
its answer: the visits of an accepted register, or the number of its refusal. A case is read as: label with its length; the
register with its length in two bytes.
"""
from lines import made


class Register:
    """A good register of units 1 -> 2 in one chain, 3 in another and 4 in none, for a case to change."""

    def __init__(self, nexts=(2, 0, 0, 0), heads=(1, 3)):
        self.small = [2, 3, 4]
        self.large = [2, 3, 4]
        self.spare = [0] * 8
        self.units = [[1 + i % 3, next, 0, 0] for i, next in enumerate(nexts)]
        self.heads = [[head, 0, 0, 0] for head in heads]
        self.n = None
        self.m = None
        self.cut = 0
        self.tail = b''

    def bytes(self):
        n = len(self.units) if self.n is None else self.n
        m = len(self.heads) if self.m is None else self.m
        out = bytes([n, m] + self.small + self.large + self.spare)
        for record in self.units + self.heads:
            out += bytes(record)
        return out[:len(out) - self.cut] + self.tail


CASES = []


def accepted(label, register, visits):
    CASES.append((label, register, f'accepted {visits}'))


def refused(label, register, number):
    CASES.append((label, register, f'refused {number}'))


def changed(**fields):
    r = Register()
    for name, value in fields.items():
        setattr(r, name, value)
    return r


def unit(index, place, value):
    r = Register()
    r.units[index][place] = value
    return r


def head(index, place, value):
    r = Register()
    r.heads[index][place] = value
    return r


def spare(place):
    r = Register()
    r.spare[place] = 1
    return r


def solar(numbers, nexts=(2, 0, 0, 0), heads=(1, 3)):
    """A register with the units of these numbers, counted from 1, of kind 4."""
    r = Register(nexts, heads)
    for number in numbers:
        r.units[number - 1][0] = 4
    return r


def placed(regions, nexts=(2, 0, 0, 0), heads=(1, 3), kinds=None):
    """A register with the units in these regions, first to last, or in region 0 beyond them. Other kinds by number, from 1."""
    r = Register(nexts, heads)
    for unit, region in zip(r.units, regions):
        unit[2] = region
    for number, kind in (kinds or {}).items():
        r.units[number - 1][0] = kind
    return r


def apart(number, nexts, heads, region=1):
    """A register with all units in region 0 but the one of this number, counted from 1."""
    r = Register(nexts, heads)
    r.units[number - 1][2] = region
    return r


# Nexts and heads of all 64 units: one chain 1 -> 2 -> .. -> 64; one from 64 down; 16 chains of 4, 1 -> 2 -> 3 -> 4 and so on.
RISING = [*range(2, 65), 0], (1,)
FALLING = range(0, 64), (64,)
FOURS = [0 if i % 4 == 3 else i + 2 for i in range(64)], range(1, 62, 4)

# ---- accepted registers, and n and m at their ends
accepted('good', Register(), 3)
refused('n 0, m 0', Register((), ()), 2)
accepted('n 1, m 0', Register((0,), ()), 0)
accepted('n 1, m 1', Register((0,), (1,)), 1)
accepted('n 64, m 0', Register((0,) * 64, ()), 0)
refused('n 65, m 0', Register((0,) * 65, ()), 2)
refused('n 255, m 0, header alone', changed(units=[], heads=[], n=255, m=0), 2)
accepted('n 16, m 16', Register((0,) * 16, range(1, 17)), 16)
refused('n 17, m 17', Register((0,) * 17, range(1, 18)), 2)
refused('n 64, m 255, header alone', changed(units=[], heads=[], n=64, m=255), 2)
accepted('chain of 1', Register((0, 0), (2,)), 1)
accepted('chain of 64, rising', Register(*RISING), 64)
accepted('chain of 64, falling', Register(*FALLING), 64)
accepted('16 chains of 4', Register(*FOURS), 64)
accepted('last unit as next', Register((4, 0, 0, 0), (1, 2)), 3)
accepted('last unit as head', Register((0, 0, 0, 0), (4,)), 1)

# ---- kind 4 in no chain: it is no step of a chain, so no visit
accepted('kind 4 in the last unit, in no chain', solar([4]), 3)
accepted('kind 4 in the first unit, in no chain', solar([1], (0, 3, 0, 0), (2,)), 2)
accepted('kind 4 in the first unit, in no chain, n 17, m 16', solar([1], (0,) * 17, range(2, 18)), 16)
accepted('kind 4 between two chains', solar([3], (2, 0, 0, 5, 0), (1, 4)), 4)
accepted('kind 4 that a chain passes over', solar([2], (3, 0, 4, 0), (1,)), 3)
accepted('kind 4 before and behind a chain', solar([1, 4], (0, 3, 0, 0), (2,)), 2)
accepted('n 1, m 0, kind 4', solar([1], (0,), ()), 0)
accepted('n 64, m 0, all of kind 4', solar(range(1, 65), (0,) * 64, ()), 0)
accepted('n 64, m 0, the last of kind 4', solar([64], (0,) * 64, ()), 0)
accepted('kind 4 in unit 64, a chain of the other 63', solar([64], [*range(2, 64), 0, 0], (1,)), 63)
accepted('kind 4 in unit 1, a chain of the other 63', solar([1], [0, *range(3, 65), 0], (2,)), 63)
accepted('kind 4 in 63 units, a chain of one', solar(range(2, 65), (0,) * 64, (1,)), 1)

# ---- regions 0 to 4: all of a chain in one, whatever those of other chains and of units in no chain are
accepted('all in region 1', placed((1, 1, 1, 1)), 3)
accepted('all in region 4', placed((4, 4, 4, 4)), 3)
accepted('region 1 in the last unit, in no chain', placed((0, 0, 0, 1)), 3)
accepted('region 4 in the last unit, in no chain', placed((0, 0, 0, 4)), 3)
accepted('region 0 in the last unit, in no chain, 4 in the others', placed((4, 4, 4, 0)), 3)
accepted('two chains in two regions', placed((2, 2, 3, 0)), 3)
accepted('each region in a unit in no chain, no chain', placed((0, 1, 2, 3, 4), (0,) * 5, ()), 0)
accepted('each region in a unit in no chain, falling, no chain', placed((4, 3, 2, 1, 0), (0,) * 5, ()), 0)
accepted('each region in a chain of one', placed((3, 1, 4, 0, 2), (0,) * 5, (1, 2, 3, 4, 5)), 5)
accepted('region 4, n 1, m 0', placed((4,), (0,), ()), 0)
accepted('region 4, n 1, m 1', placed((4,), (0,), (1,)), 1)
accepted('a chain that passes over a unit in another region', placed((3, 1, 3, 3), (3, 0, 4, 0), (1,)), 3)
accepted('units in other regions before and behind a chain', placed((1, 2, 2, 3), (0, 3, 0, 0), (2,)), 2)
accepted('the region of a unit in no chain of kind 4', placed((0, 1), (0, 0), (1,), {2: 4}), 1)
accepted('region 4 in a unit of kind 4 beside chains in region 3', placed((3, 3, 3, 4), kinds={4: 4}), 3)
accepted('a chain of 64 in region 2', placed((2,) * 64, *RISING), 64)
accepted('a falling chain of 64 in region 4', placed((4,) * 64, *FALLING), 64)
accepted('16 chains of 4 in regions by turns', placed([i // 4 % 5 for i in range(64)], *FOURS), 64)
accepted('64 units in no chain in regions by turns', placed([i % 5 for i in range(64)], (0,) * 64, ()), 0)
accepted('unit 64 in region 1, a chain of the other 63', apart(64, [*range(2, 64), 0, 0], (1,)), 63)
accepted('unit 1 in region 1, a chain of the other 63', apart(1, [0, *range(3, 65), 0], (2,)), 63)

# ---- 1
refused('empty', changed(cut=40), 1)
refused('1 byte', changed(cut=39), 1)
refused('15 bytes', changed(cut=25), 1)
refused('16 bytes', changed(cut=24), 1)
refused('one byte too short', changed(cut=1), 1)
refused('one byte too long', changed(tail=b'\0'), 1)
refused('one record too long', changed(tail=b'\0\0\0\0'), 1)
refused('n one more than the records', changed(n=5), 1)
refused('m one less than the records', changed(m=1), 1)
accepted('a head read as a unit', changed(units=[[1, 0, 0, 0]], heads=[[1, 0, 0, 0]], n=2, m=0), 0)

# ---- 3
refused('small N 1', changed(small=[1, 3, 4]), 3)
refused('small N 0', changed(small=[0, 3, 4]), 3)
refused('small N equal to P', changed(small=[3, 3, 4]), 3)
refused('small P equal to D', changed(small=[2, 4, 4]), 3)
refused('small N above P', changed(small=[4, 3, 5]), 3)
refused('small P above D', changed(small=[2, 5, 4]), 3)
refused('large N 1', changed(large=[1, 3, 4]), 3)
refused('large N equal to P', changed(large=[3, 3, 4]), 3)
refused('large P equal to D', changed(large=[2, 4, 4]), 3)
accepted('run lengths to 255', changed(small=[253, 254, 255], large=[2, 3, 255]), 3)

# ---- 4
refused('kind 0 in the first unit', unit(0, 0, 0), 4)
refused('kind 0 in the last unit, in no chain', unit(3, 0, 0), 4)
refused('kind 5 in the first unit', unit(0, 0, 5), 4)
refused('kind 5 in the last unit, in no chain', unit(3, 0, 5), 4)
refused('kind 5, n 1, m 0', changed(units=[[5, 0, 0, 0]], heads=[]), 4)
refused('kind 255', unit(1, 0, 255), 4)
refused('kind 255 in the last unit, in no chain', unit(3, 0, 255), 4)
refused('byte 2 of a unit of kind 4 in no chain', changed(units=[[1, 0, 0, 0], [4, 0, 5, 0]], heads=[[1, 0, 0, 0]]), 4)
refused('byte 3 of a unit of kind 4 in no chain', changed(units=[[1, 0, 0, 0], [4, 0, 0, 1]], heads=[[1, 0, 0, 0]]), 4)
for place in range(8):
    refused(f'header byte {8 + place}', spare(place), 4)
refused('byte 2 of the first unit', unit(0, 2, 5), 4)
refused('byte 3 of the first unit', unit(0, 3, 1), 4)
refused('byte 2 of the last unit', unit(3, 2, 255), 4)
refused('byte 3 of the last unit', unit(3, 3, 128), 4)
refused('region 5 in a member', unit(1, 2, 5), 4)
refused('region 5 in the last unit, in no chain', unit(3, 2, 5), 4)
refused('region 6 in the last unit, in no chain', unit(3, 2, 6), 4)
refused('region 8 in the last unit, in no chain', unit(3, 2, 8), 4)
refused('region 16 in the last unit, in no chain', unit(3, 2, 16), 4)
refused('region 128 in the last unit, in no chain', unit(3, 2, 128), 4)
refused('region 255 in the first unit', unit(0, 2, 255), 4)
refused('region 5 in all units', placed((5, 5, 5, 5)), 4)
refused('region 5, n 1, m 0', placed((5,), (0,), ()), 4)
refused('region 5, n 1, m 1', placed((5,), (0,), (1,)), 4)
refused('region 5 in unit 64, in no chain', apart(64, (0,) * 64, (), 5), 4)
refused('region 5 in the 64th of a chain of 64', apart(64, *RISING, 5), 4)
refused('byte 3 of a unit in region 4, in no chain', changed(units=[[1, 0, 4, 1]], heads=[]), 4)
refused('byte 3 of a unit in region 4, in a chain', changed(units=[[1, 0, 4, 4]], heads=[[1, 0, 0, 0]]), 4)
refused('byte 1 of the first head', head(0, 1, 1), 4)
refused('byte 1 of the last head', head(1, 1, 1), 4)
refused('byte 2 of the last head', head(1, 2, 1), 4)
refused('byte 3 of the last head', head(1, 3, 255), 4)

# ---- 5
refused('next above n in the first unit', unit(0, 1, 5), 5)
refused('next above n in the last unit', unit(3, 1, 5), 5)
refused('next 255 in a unit in no chain', unit(3, 1, 255), 5)
refused('first head 0', head(0, 0, 0), 5)
refused('last head 0', head(1, 0, 0), 5)
refused('last head above n', head(1, 0, 5), 5)
refused('head 255', head(0, 0, 255), 5)

# ---- 6
refused('loop of one', Register((1, 0), (1,)), 6)
refused('loop of three', Register((2, 3, 1, 0), (1,)), 6)
refused('loop of 64', Register([*range(2, 65), 1], (1,)), 6)
refused('a chain that ends in a loop', Register((2, 3, 4, 3), (1,)), 6)
refused('two chains that join', Register((3, 3, 0, 0), (1, 2)), 6)
refused('a chain into the head of a later one', Register((2, 3, 4, 0), (1, 3)), 6)
refused('a chain into the head of an earlier one', Register((2, 3, 4, 0), (3, 1)), 6)
refused('two equal heads', Register((0, 0), (1, 1)), 6)
refused('equal heads, first and last of 16', Register((0,) * 16, [*range(1, 16), 1]), 6)

# ---- 7
refused('next set in a unit in no chain', Register((2, 0, 0, 3), (1, 3)), 7)
refused('next set in the first unit, in no chain', Register((2, 0, 0, 0), (2, 3)), 7)
refused('a loop among units in no chain', Register((2, 0, 4, 3), (1,)), 7)
refused('a loop of one in no chain', Register((0, 2), (1,)), 7)
refused('next set, and no chain at all', Register((2, 0), ()), 7)
refused('next set in a unit of kind 4 in no chain', solar([4], (2, 0, 0, 3), (1, 3)), 7)
refused('a unit of kind 4 in no chain that is its own next', solar([1], (1, 0), (2,)), 7)
refused('next set to a unit of kind 4, both in no chain', solar([4], (2, 0, 4, 0), (1,)), 7)
refused('a loop among units of kind 4 in no chain', solar([3, 4], (2, 0, 4, 3), (1,)), 7)
refused('next set in units of kind 4, and no chain at all', solar([1, 2], (2, 0), ()), 7)

# ---- 30: kind 4 in a chain, wherever it stands in whichever chain
refused('kind 4 as head of the first chain', solar([1]), 30)
refused('kind 4 at the end of the first chain', solar([2]), 30)
refused('kind 4 as the only unit of the last chain', solar([3]), 30)
refused('kind 4 as the only unit of the only chain', solar([1], (0,), (1,)), 30)
refused('kind 4 as the only unit of a chain, others in no chain', solar([2], (0, 0, 0), (2,)), 30)
refused('kind 4 in the middle of the only chain', solar([2], (2, 3, 0, 0), (1,)), 30)
refused('kind 4 at the end of the only chain', solar([3], (2, 3, 0, 0), (1,)), 30)
refused('kind 4 as head of the last chain', solar([4], (2, 3, 0, 5, 6, 0), (1, 4)), 30)
refused('kind 4 in the middle of the last chain', solar([5], (2, 3, 0, 5, 6, 0), (1, 4)), 30)
refused('kind 4 at the end of the last chain', solar([6], (2, 3, 0, 5, 6, 0), (1, 4)), 30)
refused('kind 4 in the last chain, whose head has the lower number', solar([1], (2, 0, 0, 0), (3, 1)), 30)
refused('kind 4 as the 1st of a chain of 64', solar([1], *RISING), 30)
refused('kind 4 as the 64th of a chain of 64', solar([64], *RISING), 30)
refused('kind 4 as the 64th of a falling chain of 64', solar([1], *FALLING), 30)
refused('kind 4 as the 33rd of a chain of 64', solar([33], *RISING), 30)
refused('kind 4 in the 16th of 16 chains of 1', solar([16], (0,) * 16, range(1, 17)), 30)
refused('kind 4 as head of the 16th of 16 chains', solar([61], *FOURS), 30)
refused('kind 4 at the end of the 16th of 16 chains', solar([64], *FOURS), 30)
refused('kind 4 in the middle of the 8th of 16 chains', solar([30], *FOURS), 30)
refused('kind 4 in all of a chain of 64', solar(range(1, 65), *RISING), 30)
refused('kind 4 in a chain and, of a higher number, in none', solar([1, 4]), 30)
refused('kind 4 in a chain and, of a lower number, in none', solar([1, 3], (0, 3, 0, 0), (2,)), 30)
refused('kind 4 in both chains', solar([2, 3]), 30)

# ---- 37: a chain across regions, wherever it parts in whichever chain
refused('the head of the first chain in region 1', placed((1, 0, 0, 0)), 37)
refused('the last of the first chain in region 4', placed((0, 4, 0, 0)), 37)
refused('a chain in regions 3 and 4', placed((3, 4, 0, 0)), 37)
refused('a chain in regions 2 and 1', placed((2, 1, 2, 2)), 37)
refused('a chain in regions 4 and 0, others in 4', placed((4, 0, 4, 4)), 37)
refused('the head of the only chain of three in region 1', placed((1, 0, 0), (2, 3, 0), (1,)), 37)
refused('the middle of the only chain of three in region 1', placed((0, 1, 0), (2, 3, 0), (1,)), 37)
refused('the last of the only chain of three in region 1', placed((0, 0, 1), (2, 3, 0), (1,)), 37)
refused('the middle of the only chain of three in region 0', placed((2, 0, 2), (2, 3, 0), (1,)), 37)
refused('a chain of three in three regions', placed((1, 2, 3), (2, 3, 0), (1,)), 37)
refused('a chain of five in five regions', placed((0, 1, 2, 3, 4), (2, 3, 4, 5, 0), (1,)), 37)
refused('the head of the last chain in region 1', apart(4, (2, 3, 0, 5, 6, 0), (1, 4)), 37)
refused('the middle of the last chain in region 1', apart(5, (2, 3, 0, 5, 6, 0), (1, 4)), 37)
refused('the last of the last chain in region 1', apart(6, (2, 3, 0, 5, 6, 0), (1, 4)), 37)
refused('the last of the last chain in the region of the first', placed((2, 2, 2, 3, 3, 2), (2, 3, 0, 5, 6, 0), (1, 4)), 37)
refused('the last of the first chain in the region of the last', placed((2, 2, 3, 3, 3, 3), (2, 3, 0, 5, 6, 0), (1, 4)), 37)
refused('both chains across the same two regions', placed((2, 2, 3, 2, 2, 3), (2, 3, 0, 5, 6, 0), (1, 4)), 37)
refused('the last chain across regions, its head has the lower number', placed((1, 2, 0, 0), (2, 0, 0, 0), (3, 1)), 37)
refused('a chain that passes over a unit in the region of its head', placed((3, 3, 1), (3, 0, 0), (1,)), 37)
refused('the 1st of a chain of 64 in region 1', apart(1, *RISING), 37)
refused('the 33rd of a chain of 64 in region 1', apart(33, *RISING), 37)
refused('the 64th of a chain of 64 in region 4', apart(64, *RISING, 4), 37)
refused('the 1st of a falling chain of 64 in region 1', apart(64, *FALLING), 37)
refused('the 64th of a falling chain of 64 in region 1', apart(1, *FALLING), 37)
refused('a chain of 64 in regions by turns', placed([i % 5 for i in range(64)], *RISING), 37)
refused('the head of the 16th of 16 chains in region 1', apart(61, *FOURS), 37)
refused('the last of the 16th of 16 chains in region 1', apart(64, *FOURS), 37)
refused('the middle of the 8th of 16 chains in region 1', apart(30, *FOURS), 37)
refused('16 chains of 4, all across regions', placed([i % 2 for i in range(64)], *FOURS), 37)

# ---- 7 goes before 30, and 6 before both
refused('next in no chain behind kind 4 in a chain', solar([1], (2, 0, 0, 4), (1, 3)), 7)
refused('next in no chain before kind 4 in a chain', solar([4], (1, 3, 4, 0), (2,)), 7)
refused('next in no chain of kind 4, behind kind 4 in a chain', solar([2, 4], (2, 0, 0, 3), (1, 3)), 7)
refused('next in no chain of kind 4, before kind 4 in a chain', solar([1, 2], (3, 3, 0, 0), (2,)), 7)
refused('next in no chain in unit 64, kind 4 as head', solar([1], (0,) * 63 + (1,), (1,)), 7)
refused('a loop of kind 4 in no chain, kind 4 in a chain', solar([1, 3, 4], (2, 0, 4, 3), (1,)), 7)
refused('a loop of one of kind 4 in a chain', solar([1], (1, 0), (1,)), 6)
refused('a loop of three with kind 4 as head', solar([1], (2, 3, 1, 0), (1,)), 6)
refused('kind 4 in the first chain, the last one runs into it', solar([1], (2, 0, 2, 0), (1, 3)), 6)

# ---- 7 and 30 go before 37, and 6 before all three
refused('next in no chain behind a chain across regions', placed((0, 1, 0, 0), (2, 0, 0, 4)), 7)
refused('next in no chain before a chain across regions', placed((0, 0, 1, 0), (1, 3, 0, 0), (2,)), 7)
refused('next in no chain, into another region', placed((0, 0, 0, 1), (2, 0, 0, 3)), 7)
refused('a loop in no chain, a chain across regions', placed((0, 1, 0, 0), (2, 0, 4, 3), (1,)), 7)
refused('a loop of three across regions', placed((0, 1, 2, 0), (2, 3, 1, 0), (1,)), 6)
refused('the first chain across regions, the last one runs into it', placed((0, 1, 0, 0), (2, 0, 2, 0)), 6)
refused('equal heads of a chain across regions', placed((0, 1), (2, 0), (1, 1)), 6)
refused('kind 4 as the head of a chain across regions', placed((1, 0, 0, 0), kinds={1: 4}), 30)
refused('kind 4 at the end of a chain across regions', placed((0, 1, 0, 0), kinds={2: 4}), 30)
refused('kind 4 in the first chain, the last one across regions', placed((0, 0, 0, 1), (2, 0, 4, 0), kinds={1: 4}), 30)
refused('the first chain across regions, kind 4 in the last one', placed((0, 1, 0, 0), kinds={3: 4}), 30)
refused('a chain of 64 across regions at its head, kind 4 as the 64th', placed((1,), *RISING, {64: 4}), 30)
refused('a chain across regions, kind 4 in none', placed((0, 1, 0, 0), kinds={4: 4}), 37)

# ---- 4 and 5 look at the whole register before 37 does
refused('a chain across regions, region 5 in no chain', placed((0, 1, 0, 5)), 4)
refused('region 5 in no chain, a chain across regions', placed((5, 0, 1), (0, 3, 0), (2,)), 4)
refused('a chain in regions 0 and 5', placed((0, 5, 0, 0)), 4)
refused('a chain across regions, kind 5 in none', placed((0, 1, 0, 0), kinds={4: 5}), 4)
refused('a chain across regions, next above n in no chain', placed((0, 1, 0, 0), (2, 0, 0, 5)), 5)
refused('region 5 in the last unit, next above n in the first', placed((0, 0, 0, 5), (5, 0, 0, 0)), 4)

# ---- 4 and 5 look at the whole register before 30 does
refused('kind 4 in a chain, kind 5 in none', changed(units=[[4, 0, 0, 0], [5, 0, 0, 0]], heads=[[1, 0, 0, 0]]), 4)
refused('kind 5 in a chain, kind 4 too', changed(units=[[4, 2, 0, 0], [5, 0, 0, 0]], heads=[[1, 0, 0, 0]]), 4)
refused('kind 4 in a chain, next above n in no chain', changed(units=[[4, 0, 0, 0], [1, 3, 0, 0]], heads=[[1, 0, 0, 0]]), 5)

# ---- two refusals in one register: the first in 01's order is given, then 30, and 37 comes last
FLAWS = {
    'n 65': lambda r: setattr(r, 'units', r.units + [[1, 0, 0, 0]] * 61),
    'length': lambda r: setattr(r, 'tail', b'\0'),
    'run lengths': lambda r: setattr(r, 'large', [2, 2, 3]),
    'spare in the last head': lambda r: r.heads[1].__setitem__(3, 1),
    'next above n in the first unit': lambda r: r.units[0].__setitem__(1, 255),
    'equal heads': lambda r: r.heads[1].__setitem__(0, 1),
    'next in a unit in no chain': lambda r: r.units[3].__setitem__(1, 4),
    'kind 4 as a head': lambda r: r.units[0].__setitem__(0, 4),
    'region 5 in unit 4': lambda r: r.units[3].__setitem__(2, 5),
    'a chain across regions': lambda r: r.units[1].__setitem__(2, 3),
}


def two(first, second, number):
    r = Register()
    FLAWS[first](r)
    FLAWS[second](r)
    refused(f'{first}; {second}', r, number)


two('n 65', 'length', 2)
two('n 65', 'run lengths', 2)
two('n 65', 'spare in the last head', 2)
two('n 65', 'next above n in the first unit', 2)
two('n 65', 'equal heads', 2)
two('n 65', 'next in a unit in no chain', 2)
two('n 65', 'kind 4 as a head', 2)
two('n 65', 'region 5 in unit 4', 2)
two('n 65', 'a chain across regions', 2)
two('length', 'run lengths', 1)
two('length', 'spare in the last head', 1)
two('length', 'next above n in the first unit', 1)
two('length', 'equal heads', 1)
two('length', 'next in a unit in no chain', 1)
two('length', 'kind 4 as a head', 1)
two('length', 'region 5 in unit 4', 1)
two('length', 'a chain across regions', 1)
two('run lengths', 'spare in the last head', 3)
two('run lengths', 'next above n in the first unit', 3)
two('run lengths', 'equal heads', 3)
two('run lengths', 'next in a unit in no chain', 3)
two('run lengths', 'kind 4 as a head', 3)
two('run lengths', 'region 5 in unit 4', 3)
two('run lengths', 'a chain across regions', 3)
two('spare in the last head', 'next above n in the first unit', 4)
two('spare in the last head', 'equal heads', 4)
two('spare in the last head', 'next in a unit in no chain', 4)
two('spare in the last head', 'kind 4 as a head', 4)
two('spare in the last head', 'a chain across regions', 4)
two('region 5 in unit 4', 'next above n in the first unit', 4)
two('region 5 in unit 4', 'equal heads', 4)
two('region 5 in unit 4', 'next in a unit in no chain', 4)
two('region 5 in unit 4', 'kind 4 as a head', 4)
two('region 5 in unit 4', 'a chain across regions', 4)
two('next above n in the first unit', 'equal heads', 5)
two('next above n in the first unit', 'next in a unit in no chain', 5)
two('next above n in the first unit', 'kind 4 as a head', 5)
two('next above n in the first unit', 'a chain across regions', 5)
two('equal heads', 'next in a unit in no chain', 6)
two('equal heads', 'kind 4 as a head', 6)
two('equal heads', 'a chain across regions', 6)
two('next in a unit in no chain', 'kind 4 as a head', 7)
two('next in a unit in no chain', 'a chain across regions', 7)
two('kind 4 as a head', 'a chain across regions', 30)
refused('15 bytes; n 0', changed(n=0, cut=25), 1)
refused('15 bytes; run lengths', changed(small=[2, 2, 3], cut=25), 1)
refused('15 bytes; spare in the header', changed(spare=[1] + [0] * 7, cut=25), 1)


def trial():
    """The block of cases, and what is printed of them."""
    cases = []
    for label, register, answer in CASES:
        data = register.bytes()
        cases.append((label, len(data).to_bytes(2, 'little') + data, answer))
    return made(cases)
