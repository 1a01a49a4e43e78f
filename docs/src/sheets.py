"""Document 02's rule sheets: their bytes and doubles, the plan that a sheet makes, what is turned away.

Written from documents 01 and 02, source document 003 and IEEE 754 alone, not from the engine or its definitions. The doubles are its own: exact
fractions, rounded to 53 binary digits in whole numbers. Both zeros are the fraction 0: "Minus zero counts as zero".
"""
import math
from collections import namedtuple
from fractions import Fraction
from itertools import accumulate, pairwise, repeat

from rules import Head, S, all_months, head_checks, tail_checks, write_bytes

# ---- Doubles: a finite one is a fraction, and math.inf, -math.inf and math.nan stand for the others

STORED = 52  # binary digits in a double's bits; a first one, which is 1, is left out but for subnormal doubles
LEAST = -1074  # the least double above 0 is 2 to this power
TOP = 1024  # all finite doubles are below 2 to this power
SPECIAL = 2047  # the exponent field of a double that is not finite
SIGN = 2**63


def power(exponent):
    return Fraction(2) ** exponent


def finite(x):
    return isinstance(x, Fraction)


def value(bits):
    """The double of these 64 bits: a sign, 11 bits of exponent, 52 of digits."""
    exponent, digits = divmod(bits % SIGN, 2**STORED)
    if exponent == SPECIAL:
        size = math.nan if digits else math.inf
    elif exponent == 0:
        size = digits * power(LEAST)
    else:
        size = (2**STORED + digits) * power(LEAST + exponent - 1)
    return -size if bits >= SIGN else size


def last_place(x):
    """The exponent of the last digit that doubles of this size have."""
    if x == 0:
        return LEAST
    first = x.numerator.bit_length() - x.denominator.bit_length()  # the exponent of the first digit, or one more
    return max((first if power(first) <= abs(x) else first - 1) - STORED, LEAST)


def rounded(x):
    """The double nearest to a fraction, of two as near the one whose last digit is even; infinite where that would have one digit too many."""
    unit = power(last_place(x))
    nearest = round(x / unit) * unit  # of two whole numbers as near to a fraction, `round` takes the even one
    if abs(nearest) >= power(TOP):
        return math.inf if x > 0 else -math.inf
    return nearest


def pattern(x):
    """The 64 bits of the double nearest to a fraction, where that is finite."""
    double = rounded(x)
    place = last_place(double)
    digits = int(abs(double) / power(place))
    return SIGN * (double < 0) + (place - LEAST) * 2**STORED + digits  # the digit that is left out counts one in the exponent field


def times(x, y):
    """The product of finite doubles, rounded once."""
    return rounded(x * y)


def plus(x, y):
    """The sum, rounded once, of a finite double and one that may be infinite."""
    return rounded(x + y) if finite(y) else y


# ---- Sheets

Sheet = namedtuple("Sheet", "kind months opening sizes first step alpha")  # the last three as the bits of doubles
WIDTHS = Sheet(1, 1, 1, 2, 8, 8, 8)  # in bytes
SHEET_BYTES = sum(WIDTHS)
LEVEL_KIND, RAMP_KIND = 1, 2  # "Kind 1 is level, 2 is ramp"


def read_sheet(data):
    """The fields, "most significant byte first"."""
    return Sheet(*(int.from_bytes(data[start:end], "big") for start, end in pairwise(accumulate(WIDTHS, initial=0))))


def write_sheet(sheet):
    return b"".join(x.to_bytes(width, "big") for x, width in zip(sheet, WIDTHS))


def head_of(sheet):
    """"Sheets make plans with c = 1"."""
    return Head(sheet.months, sheet.opening, sheet.sizes, income=1)


def rule_of(sheet):
    """first, step and alpha."""
    return value(sheet.first), value(sheet.step), value(sheet.alpha)


def chances(sheet):
    """A level has first in every month, a ramp in month i "first + (i − 1) × step, each operation rounded once"."""
    first, step, _ = rule_of(sheet)
    if sheet.kind == LEVEL_KIND:
        return [first] * sheet.months
    return [plus(first, times(i - 1, step)) for i in all_months(head_of(sheet))]


def claim_weights(alpha, m):
    """From "1 − alpha for size 1" on, "multiplied by alpha for each next size, one rounding each": source document 003, (3.2)."""
    return list(accumulate(repeat(alpha, m - 1), times, initial=rounded(1 - alpha)))


def parts(x):
    """Parts of S: "an exact product with 2^30, then rounding down"."""
    return math.floor(x * S)


def plan_row(sheet):
    """Chances, weights, and over, which "is what is missing to S": below 0 where the weights pass S."""
    *_, alpha = rule_of(sheet)
    weights = [parts(weight) for weight in claim_weights(alpha, sheet.sizes)]
    return [parts(chance) for chance in chances(sheet)] + weights + [S - sum(weights)]


def made_plan(data):
    """The head and the row that an accepted sheet's bytes make."""
    sheet = read_sheet(data)
    return head_of(sheet), plan_row(sheet)


def made_bytes(data):
    """That plan's bytes."""
    return write_bytes(*made_plan(data))


# ---- Turned away


def rule_checks(sheet):
    first, step, alpha = rule_of(sheet)
    yield 13, not all(map(finite, (first, step, alpha)))
    yield 13, not 0 <= alpha < 1
    yield 13, sheet.kind == LEVEL_KIND and step != 0
    yield 13, not all(0 <= chance <= 1 for chance in chances(sheet))


def sheet_checks(data, needed, room):
    """What a head needs of the lent room is a row's length or that of plan bytes."""
    yield 5, len(data) != SHEET_BYTES
    sheet = read_sheet(data)
    head = head_of(sheet)
    yield 12, sheet.kind not in (LEVEL_KIND, RAMP_KIND)
    yield from head_checks(head)
    yield from rule_checks(sheet)
    row = plan_row(sheet)
    yield 8, row[-1] < 0
    yield from tail_checks(head, row)
    yield 11, room < needed(head)
