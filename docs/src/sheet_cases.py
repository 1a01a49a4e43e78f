"""The inputs of the test program `sheets`: both sides of each limit, doubles of every make in every place, and random sheets."""
import itertools
import math
import random
from collections import namedtuple
from fractions import Fraction

from plans import flipped, geometric_plan
from records import SPARE, SheetCalls
from rules import LARGEST, MONTHS, OPENING, SIZES, Head, S, all_months, byte_length, largest_level, refusal, row_length
from sheets import LEVEL_KIND, RAMP_KIND, SHEET_BYTES, SIGN, SPECIAL, STORED, WIDTHS, Sheet, chances, head_of, parts, pattern, plus, power
from sheets import read_sheet, rounded, rule_of, sheet_checks, write_sheet

# ---- Doubles, as their bits


def decimal(text):
    return pattern(Fraction(text))


def around(x):
    """The double of a fraction, and its neighbours."""
    return [pattern(x) + step for step in (-1, 0, 1)]


HALF, ONE = pattern(Fraction(1, 2)), pattern(Fraction(1))
LEAST_NORMAL, QUIET, INFINITE = 2**STORED, 2 ** (STORED - 1), SPECIAL << STORED
SUBNORMALS = [1, 2, LEAST_NORMAL - 1]
NANS = [INFINITE + payload for payload in (1, QUIET - 1, QUIET, QUIET + 12345, LEAST_NORMAL - 1)]  # two signalling ones, three quiet ones
POWERS = [bits for exponent in (-54, -53, -31, -30, -1, 0) for bits in around(power(exponent))]
POSITIVE = [0, *SUBNORMALS, LEAST_NORMAL, *POWERS, pattern(Fraction(2)), INFINITE - 1, INFINITE, *NANS]
DOUBLES = [sign + bits for bits in POSITIVE for sign in (0, SIGN)]

# ---- Sheets to change

LEVEL = Sheet(LEVEL_KIND, 3, 2, 4, decimal("0.3"), 0, decimal("0.7"))  # m + 1 = u + n, so that over is just allowed
RAMP = LEVEL._replace(kind=RAMP_KIND, first=decimal("0.1"), step=decimal("0.2"))
LONE = Sheet(LEVEL_KIND, 1, 0, 3, HALF, 0, HALF)  # over is allowed whatever the sizes
NO_TAIL = RAMP._replace(opening=30, alpha=0)  # over is not allowed, and there is none
EXAMPLE_SHEET = Sheet(RAMP_KIND, 12, 5, 20, decimal("0.01"), decimal("0.01"), decimal("0.9"))  # source document 003: case 1 of Table 1, (3.2)
QUOTED_SHEET = EXAMPLE_SHEET._replace(opening=60, sizes=71)  # the same with a larger opening allowed, and the sizes that over then needs

# Sheets worked by hand: the bytes, the head and the row.
WORKED_SHEETS = [
    ("01 02 01 0002 3fe0000000000000 0000000000000000 3fe0000000000000", Head(2, 1, 2), [S // 2, S // 2, S // 2, S // 4, S // 4]),
    ("02 03 00 0001 3fd0000000000000 3fc0000000000000 0000000000000000", Head(3, 0, 1), [S // 4, 3 * S // 8, S // 2, S, 0]),
    ("02 02 09 0002 3ff0000000000000 bff0000000000000 8000000000000000", Head(2, 9, 2), [S, 0, S, 0, 0]),
    ("01 01 05 0003 8000000000000000 8000000000000000 8000000000000000", Head(1, 5, 3), [0, S, 0, 0, 0]),
    ("02 00 03 0002 c08f400000000000 7fefffffffffffff 3fe8000000000000", Head(0, 3, 2), [S // 4, 3 * S // 16, 9 * S // 16]),
]

Entry = namedtuple("Entry", "sheet length more", defaults=[SHEET_BYTES, 0])  # cut to a length; lent so many more than are needed


def accepted(sheet):
    return not refusal(sheet_checks(write_sheet(sheet), row_length, math.inf))


# ---- Heads and lengths


def length_edges(sheet):
    for length in (*range(SHEET_BYTES + 3), 2 * SHEET_BYTES):
        yield Entry(sheet, length)


def head_edges(sheet):
    for kind in (0, 1, 2, 3, 127, 128, 129, 130, 254, 255):
        yield Entry(sheet._replace(kind=kind, step=0))
    for n in (0, 1, MONTHS - 1, MONTHS, MONTHS + 1, 128, 255):
        yield Entry(sheet._replace(months=n, step=0))
    for u in (0, 1, OPENING - 1, OPENING, OPENING + 1, 255):
        yield Entry(sheet._replace(opening=u))
    swapped = int.from_bytes(SIZES.to_bytes(2, "little"), "big")
    for m in (0, 1, 2, 5, 255, 256, 257, 256 + 5, SIZES - 1, SIZES, SIZES + 1, 511, 512, 512 + 5, 2**15 + 5, swapped, 65535):
        yield Entry(sheet._replace(sizes=m))


def tail_edges():
    """Over above 0 and none, at m + 1 = u + n and one below."""
    for n, u, m in ((1, 3, 3), (0, 4, 3), (5, 0, 4), (3, 0, 2), (MONTHS, OPENING, MONTHS + OPENING - 1)):
        for alpha in (decimal("0.99"), HALF, pattern(power(-31)), 1, SIGN, 0):
            yield Entry(RAMP._replace(months=n, opening=u, sizes=m, step=0, alpha=alpha))
            yield Entry(RAMP._replace(months=n, opening=u, sizes=m - 1, step=0, alpha=alpha))


# ---- Doubles


def with_double(bits):
    """In each place; months from none to three; as alpha also where over is not allowed."""
    yield Entry(LEVEL._replace(months=1, first=bits))
    yield Entry(LEVEL._replace(step=bits))
    yield Entry(RAMP._replace(months=0, first=bits, step=bits))
    yield Entry(RAMP._replace(months=1, step=bits))
    yield Entry(RAMP._replace(months=2, first=bits, step=0))
    yield Entry(RAMP._replace(months=2, first=HALF, step=bits))
    yield Entry(RAMP._replace(alpha=bits))
    yield Entry(NO_TAIL._replace(alpha=bits))


def part_edges():
    """Whole numbers of parts, and their neighbours: a chance, the second chance of a ramp, and the first weight."""
    for k in (1, 2, 3, 1000, S // 3, S // 2 + 1, S - 1):
        for bits in around(Fraction(k, S)):
            yield Entry(LONE._replace(first=bits))
            yield Entry(LONE._replace(kind=RAMP_KIND, months=2, first=0, step=bits))
        for bits in around(1 - Fraction(k, S)):
            yield Entry(LONE._replace(alpha=bits))
        yield Entry(LONE._replace(first=pattern(Fraction(k, S) - Fraction(1, 10**40))))  # a decimal one part lower than its double


def alpha_edges():
    """Those near 1/2 have a second weight that only its rounding makes S/4, at a distance of 2^-28 by a tie; next to it each weight is close to
    a power of 2."""
    for e in range(25, 33):
        yield from (Entry(LONE._replace(alpha=pattern(Fraction(1, 2) + sign * power(-e)))) for sign in (-1, 1))
    for alpha in (*around(Fraction(1, 2)), *around(1 - power(-15))):
        yield Entry(LONE._replace(sizes=40, alpha=alpha))
    for alpha in ("1/3", "2/3", "0.1", "0.2", "0.9", "0.99", "0.999999", "1e-3", "1e-9", "1e-160", "1e-300"):
        yield Entry(LONE._replace(sizes=12, alpha=decimal(alpha)))


ULP = power(-53)  # what the doubles just below 1 are apart; those above are apart twice that
ENDING = [  # first, step, and the month in which the ramp comes to 0 or 1, exactly or by rounding, or just past it
    (Fraction(1, 4), Fraction(1, 4), 4),
    (Fraction(3, 4), Fraction(-1, 4), 4),
    *((Fraction(1, 2), Fraction(1, 2) + k * ULP, 2) for k in (-1, 0, 1, 2)),
    *((Fraction(1, 2), Fraction(-1, 2) - k * ULP, 2) for k in (-1, 0, 1)),
    *((Fraction(1), k * ULP / 2, 2) for k in (1, 2, 3)),
    (1 - ULP, ULP, 3),
    (2 * power(-1074), -power(-1074), 3),
    (Fraction(0), -power(-1074), 2),
    (-power(-1074), power(-1074), 2),  # these begin outside
    (1 + 2 * ULP, -2 * ULP, 2),
    (Fraction(-1, 2), Fraction(1, 2), 2),
    (Fraction(3, 2), Fraction(-1, 2), 2),
]


def ramp_edges():
    """Ramps that end in that month, one earlier or one later; and steps that come to 1 or 0 in many months."""
    for first, step, month in ENDING:
        for n in (month - 1, month, month + 1):
            yield Entry(LONE._replace(kind=RAMP_KIND, months=n, first=pattern(first), step=pattern(step)))
    for n in (3, 4, 8, 50, MONTHS):
        for step in around(Fraction(1, n - 1)):
            yield Entry(NO_TAIL._replace(months=n, sizes=1, first=0, step=step))
            yield Entry(NO_TAIL._replace(months=n, sizes=1, first=ONE, step=SIGN + step))


def wild_ramps():
    """Doubles that are seen only from the first or the second month on; in the third the largest step's product is infinite."""
    for first, step in itertools.product((INFINITE - 1, SIGN + INFINITE - 1, HALF, SIGN + 1), repeat=2):
        for n in (0, 1, 3):
            yield Entry(NO_TAIL._replace(months=n, first=first, step=step))


# ---- Ramps on which another rule gives other parts

TRIES = 1000  # random sheets at most, until enough are as they should be


def added(sheet):
    """The step added month by month."""
    first, step, _ = rule_of(sheet)
    return itertools.accumulate(itertools.repeat(step, sheet.months - 1), plus, initial=first)


def rounded_once(sheet):
    first, step, _ = rule_of(sheet)
    return (rounded(first + (i - 1) * step) for i in all_months(head_of(sheet)))


def not_rounded(sheet):
    first, step, _ = rule_of(sheet)
    return (first + (i - 1) * step for i in all_months(head_of(sheet)))


def other_parts(sheet, others):
    """Whether these chances give other parts than the sheet's."""
    return [*map(parts, chances(sheet))] != [*map(parts, others)]


def near_parts(rng):
    """A ramp that comes close to a whole number of parts in its last month."""
    n = rng.randrange(3, 9)
    step = rounded(Fraction(rng.randrange(-(2**53), 2**53), n * 2**53))
    first = Fraction(rng.randrange(S), S) - (n - 1) * step
    return LONE._replace(kind=RAMP_KIND, months=n, sizes=n, first=pattern(first), step=pattern(step))


def telling_ramps(rng):
    """Six for each other rule."""
    for other in (added, rounded_once, not_rounded):
        ramps = (near_parts(rng) for _ in range(TRIES))
        yield from map(Entry, itertools.islice((ramp for ramp in ramps if accepted(ramp) and other_parts(ramp, other(ramp))), 6))


def decimal_ramps():
    """Ramps of hundredths that end, as decimals, on a quarter: those on which the decimals would give other parts, or that pass 0 or 1 as doubles."""
    for first, step, n in itertools.product(range(101), range(-33, 34), range(3, 13)):
        if first + (n - 1) * step in range(0, 101, 25):
            decimals = [Fraction(first + i * step, 100) for i in range(n)]
            ramp = LONE._replace(kind=RAMP_KIND, months=n, sizes=n, first=pattern(decimals[0]), step=pattern(Fraction(step, 100)))
            if not accepted(ramp) or other_parts(ramp, decimals):
                yield Entry(ramp)


# ---- Entries wrong in two ways


def changing(**fields):
    return lambda entry: entry._replace(sheet=entry.sheet._replace(**fields))


# What turns an entry of `fault_pairs` away, in the order of the checks: 5, 12, 2, 3, 4, 13, 9, 11.
FAULTS = [
    *(lambda entry, length=length: entry._replace(length=length) for length in (SHEET_BYTES - 1, SHEET_BYTES + 1)),
    changing(kind=3),
    changing(months=MONTHS + 1),
    changing(opening=OPENING + 1),
    changing(sizes=SIZES + 1),
    *(changing(first=bits) for bits in (NANS[0], ONE + 1)),
    changing(step=ONE),
    changing(alpha=ONE),
    changing(alpha=HALF),
    lambda entry: entry._replace(more=-1),
]


def fault_pairs(sheet):
    """Entries that two checks fit: the earlier one counts. The sheet has no over where none is allowed."""
    for one, other in itertools.combinations_with_replacement(FAULTS, 2):
        yield one(other(Entry(sheet)))


# ---- Random sheets


def some_share(rng):
    """From 0 to 1: an end, a decimal, a whole number of parts, any double."""
    any_double = Fraction(rng.randrange(2**53 + 1), 2**53)
    shares = [Fraction(rng.randrange(101), 100), Fraction(rng.randrange(S + 1), S), any_double, any_double * power(-rng.randrange(1100))]
    return rng.choice([Fraction(0), Fraction(1), *shares, *shares])


def near(rng, x):
    """The double of a fraction or, at times, a neighbour."""
    return rng.choice([pattern(x)] * 4 + around(x)) % 2**64


def drawn_sheet(rng, head):
    """Over is none where the tail rule allows none."""
    first, last, alpha = (some_share(rng) for _ in range(3))
    if head.sizes + 1 < largest_level(head):
        alpha = rng.choice([Fraction(0), power(-54), power(-1074)])
    if rng.randrange(2):
        return Sheet(LEVEL_KIND, *head[:3], near(rng, first), rng.choice([0, SIGN]), near(rng, alpha))
    return Sheet(RAMP_KIND, *head[:3], near(rng, first), near(rng, (last - first) / max(head.months - 1, 1)), near(rng, alpha))


def some_sheet(rng, head):
    """An accepted one."""
    return next(sheet for sheet in (drawn_sheet(rng, head) for _ in range(TRIES)) if accepted(sheet))


def bytes_changed(rng, data):
    """One to three of them."""
    after = bytearray(data)
    for at in rng.sample(range(len(data)), rng.randint(1, 3)):
        after[at] = rng.randrange(256)
    return bytes(after)


def bit_flipped(rng, data):
    return flipped(data, rng.randrange(8 * len(data)))


def double_replaced(rng, data):
    """By one of DOUBLES, or by one that is a few doubles away."""
    sheet, place = read_sheet(data), rng.choice(("first", "step", "alpha"))
    moved = (getattr(sheet, place) + rng.randint(-3, 3)) % 2**64
    return write_sheet(sheet._replace(**{place: rng.choice([moved, rng.choice(DOUBLES)])}))


def field_replaced(rng, data):
    """By a number at a limit or past it."""
    most = Sheet(RAMP_KIND, MONTHS, OPENING, SIZES, 0, 0, 0)
    field = rng.choice(("kind", "months", "opening", "sizes"))
    edges = 0, 1, getattr(most, field), getattr(most, field) + 1, 255
    return write_sheet(read_sheet(data)._replace(**{field: rng.choice(edges)}))


def resized(rng, data):
    return (data + rng.randbytes(SHEET_BYTES))[: rng.choice([SHEET_BYTES - 1, SHEET_BYTES + 1, rng.randrange(2 * SHEET_BYTES + 1)])]


def random_doubles(rng, data):
    doubles = sum(WIDTHS[-3:])
    return data[:-doubles] + rng.randbytes(doubles)


DAMAGES = [bytes_changed, bit_flipped, double_replaced, field_replaced, resized, random_doubles]


def damaged_sheet(rng, head):
    """Its bytes, though it may still be accepted."""
    return rng.choice(DAMAGES)(rng, write_sheet(some_sheet(rng, head)))


def brief_head(rng):
    """Few months and sizes: as few sizes as the tail rule allows with over, more, or any."""
    n, u = rng.randrange(9), rng.randrange(9)
    return Head(n, u, rng.choice([max(n + u - 1, 1), rng.randint(n + u + 1, n + u + 9), rng.randint(1, 9)]))


# ---- All records of `sheets`, in their order

FEW, LITTLE = 3, 40


def lent(data, needed):
    """What the sheet's plan needs; where the sheet is refused and that is not known or not little, a few."""
    head = head_of(read_sheet(data))
    refused = refusal(sheet_checks(data, needed, math.inf))
    return FEW if refused and (len(data) != SHEET_BYTES or needed(head) > LITTLE) else needed(head)


def add_read(calls, data, more=0):
    calls.read(data, lent(data, row_length) + more)


def add_write(calls, data, more=0):
    calls.write(data, lent(data, byte_length) + more)


def add_entries(calls, entries, *adds):
    for sheet, length, more in entries:
        for add in adds:
            add(calls, (write_sheet(sheet) * 2)[:length], more)


def add_flips(calls, sheet):
    data = write_sheet(sheet)
    for bit in range(8 * len(data)):
        add_read(calls, flipped(data, bit))


def add_rooms(calls, sheet):
    """None, and around what is needed."""
    data = write_sheet(sheet)
    for call, needed in ((calls.read, row_length(head_of(sheet))), (calls.write, byte_length(head_of(sheet)))):
        for room in (0, 1, needed - 1, needed, needed + 1, needed + SPARE):
            call(data, room)


def add_random(calls, rng):
    for more in (-1, 0, 0, 1) * 10:
        data = write_sheet(some_sheet(rng, brief_head(rng)))
        add_read(calls, data, more)
        add_write(calls, data, more)
        add_read(calls, damaged_sheet(rng, brief_head(rng)))
        add_write(calls, damaged_sheet(rng, brief_head(rng)))


def add_reports(calls):
    """Source document 003's cases at the openings of its Table 2, from exact fractions; then a level chance, no months, and refused sheets."""
    for k, u in itertools.product(range(1, 5), (4, 8)):
        head, share = Head(12, u, 20), pattern(Fraction(k, 100))
        plan = geometric_plan(head, Fraction(9, 10), lambda i: Fraction(k * i, 100))
        calls.report(write_sheet(Sheet(RAMP_KIND, *head[:3], share, share, decimal("0.9"))), plan)
    for head in (Head(6, 3, 8), Head(0, 3, 8), Head(5, 7, 35)):
        plan = geometric_plan(head, Fraction(1, 2), lambda i: Fraction(1, 4))
        calls.report(write_sheet(Sheet(LEVEL_KIND, *head[:3], decimal("0.25"), 0, HALF)), plan)
    for sheet, length, _ in (fault(Entry(NO_TAIL)) for fault in FAULTS[:-1]):
        calls.refused_report((write_sheet(sheet) * 2)[:length])


def all_sheet_calls():
    calls, rng = SheetCalls(), random.Random(8)
    for data, *_ in WORKED_SHEETS:
        add_entries(calls, [Entry(read_sheet(bytes.fromhex(data)))], add_read, add_write)
    add_entries(calls, length_edges(LEVEL), add_read)
    add_entries(calls, length_edges(RAMP), add_write)
    add_entries(calls, itertools.chain(head_edges(LONE), head_edges(NO_TAIL)), add_read)
    add_entries(calls, head_edges(NO_TAIL), add_write)
    add_entries(calls, fault_pairs(NO_TAIL._replace(kind=LEVEL_KIND, step=0)), add_read)
    add_entries(calls, fault_pairs(NO_TAIL), add_write)
    add_entries(calls, tail_edges(), add_read)
    add_entries(calls, itertools.chain.from_iterable(map(with_double, DOUBLES)), add_read)
    add_entries(calls, itertools.chain(part_edges(), alpha_edges(), ramp_edges(), wild_ramps(), telling_ramps(rng)), add_read)
    add_entries(calls, itertools.islice(decimal_ramps(), 0, None, 2), add_read)
    for sheet in (LEVEL, RAMP):
        add_flips(calls, sheet)
    for head in (Head(0, 0, 1), head_of(RAMP), LARGEST):
        add_rooms(calls, Sheet(RAMP_KIND, *head[:3], RAMP.first, decimal("0.005"), decimal("0.98")))
    add_entries(calls, [Entry(Sheet(LEVEL_KIND, *LARGEST[:3], LEVEL.first, 0, decimal("0.995")))], add_read, add_write)
    add_random(calls, rng)
    add_reports(calls)
    return calls
