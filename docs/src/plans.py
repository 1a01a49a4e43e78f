"""Plans to try: document 01's own, plain ones, random ones from small to the largest, and three to time. A plan is a pair of a head and a row."""
import random
from fractions import Fraction

from rules import CLAIMS, LARGEST, MONTHS, OPENING, SIZES, SMALL_MONTHS, SMALL_OPENING, SURVIVE, Head, Question, S, all_months, largest_level

# ---- Document 01's plans

ONE_SIZE = [S, 0]  # F_1 = S and no over
EXAMPLE = Head(2, 1, 2), [S // 2] * 4 + [0]  # the report's plan
EXAMPLE_BYTES = bytes.fromhex("04 02 02 14 00 00 00 08 00 00 00 10 00 00 00 20" + 7 * " 00")
EXAMPLE_TEXT = """months 2 opening 1 sizes 2 income 1
survive 738197504 738197504
claims 0 268435456 268435456
claims 1 536870912 536870912
claims 2 268435456 268435456
both 0 268435456 268435456
both 1 402653184 402653184
both 2 67108864 67108864
high 1 67108864 67108864
high 2 469762048 469762048
high 3 738197504 738197504
low 1 738197504 738197504
low 2 402653184 402653184
fails 1 268435456 268435456
fails 2 67108864 67108864
fails all 335544320 335544320
"""

WORKED = [  # "Funds worked by hand": head, row, question, refusal, lower, upper (None: the paper only says accepted or answered)
    (Head(0, 0, 1), ONE_SIZE, SURVIVE, 0, S, S),
    (Head(1, 0, 1), [S // 2] + ONE_SIZE, SURVIVE, 0, S // 2, S // 2),
    (Head(1, 1, 1), [S // 2] + ONE_SIZE, SURVIVE, 0, S, S),
    (Head(1, 0, 1), [S] + ONE_SIZE, SURVIVE, 0, 0, 0),
    (Head(1, 1, 2), [1, 1, S - 1, 0], SURVIVE, 0, 1073741823, 1073741824),
    (Head(2, 1, 2), [1, 1, 1, S - 1, 0], SURVIVE, 0, 1073741823, 1073741824),
    (Head(1, 5, 1), [0] + ONE_SIZE, Question("high", 5), 0, 0, 0),
    (Head(1, 5, 1), [0] + ONE_SIZE, Question("high", 6), 0, S, S),
    (Head(1, 5, 2), [S // 2, 0, S, 0], Question("high", 4), 0, 0, 0),  # as document 02 has it
    (*EXAMPLE, SURVIVE, 0, 738197504, 738197504),
    (*EXAMPLE, Question("both", 1), 0, 402653184, 402653184),
    (*EXAMPLE, Question("low", 2), 0, 402653184, 402653184),
    (Head(1, 2, 2), [S // 2, S - 1, 0, 1], SURVIVE, 0, None, None),
    (Head(1, 3, 2), [S // 2, S - 1, 0, 1], SURVIVE, 9, 0, 0),
    (Head(MONTHS, 0, 1), [S // 2] * MONTHS + ONE_SIZE, SURVIVE, 0, None, None),
    (Head(MONTHS + 1, 0, 1), [S // 2] * (MONTHS + 1) + ONE_SIZE, SURVIVE, 2, 0, 0),
    (*EXAMPLE, Question("both", CLAIMS), 0, None, None),
    (*EXAMPLE, Question("both", CLAIMS + 1), 10, 0, 0),
    (Head(1, 0, 1, 2), [S] + ONE_SIZE, SURVIVE, 0, S, S),  # the rest are document 02's: two units a month, of which a claim leaves one or none
    (Head(1, 0, 2, 2), [S, 0, S, 0], SURVIVE, 0, 0, 0),
    (Head(40, 0, 1, 8), [S // 2] * 40 + ONE_SIZE, SURVIVE, 0, S, S),  # the largest span
    (Head(40, 1, 1, 8), [S // 2] * 40 + ONE_SIZE, SURVIVE, 17, 0, 0),
]


def questions(head):
    """Every question on a small plan, one past the largest level or number of claims that it can reach included."""
    yield SURVIVE
    for k in range(head.months + 2):
        yield Question("both", k)
    for level in range(largest_level(head) + 2):
        yield Question("high", level)
        yield Question("low", level)


# ---- Plain plans, and changes to them


def flat(n, u, m, c=1, tail=0):
    """A plan with every chance S/2 and all weight on the largest size, less the tail."""
    return Head(n, u, m, c), [S // 2] * n + [0] * (m - 1) + [S - tail, tail]


def changed(row, at, x):
    after = list(row)
    after[at] = x
    return after


def flipped(data, at):
    """Plan bytes with one bit turned over."""
    return (int.from_bytes(data, "big") ^ 1 << (8 * len(data) - 1 - at)).to_bytes(len(data), "big")


# ---- Random plans


def some_chance(rng):
    return rng.choice([0, 1, S // 2, S - 1, S, rng.randrange(S + 1), rng.randrange(S + 1), rng.randrange(S + 1)])


def split(rng, parts, empty):
    """parts numbers that add to S; each is 0 with a chance of empty in 8, where one at least is left."""
    cuts = [rng.randrange(1, 2**16) if rng.randrange(8) >= empty else 0 for _ in range(parts)]
    if not any(cuts):
        cuts[rng.randrange(parts)] = 1
    shares = [cut * S // sum(cuts) for cut in cuts]
    shares[next(i for i, cut in enumerate(cuts) if cut)] += S - sum(shares)
    return shares


def gapped(rng, parts):
    """parts numbers that add to S, of which those in one gap are 0: "empty between small repairs and full replacements"."""
    shares = split(rng, rng.randint(1, parts), 0)
    small = rng.randint(0, len(shares))
    return shares[:small] + [0] * (parts - len(shares)) + shares[small:]


def some_plan(rng, n, u, m, c=1):
    """An accepted head and row."""
    head, chances = Head(n, u, m, c), [some_chance(rng) for _ in range(n)]
    if m + 1 >= largest_level(head) and rng.randrange(2):
        return head, chances + split(rng, m + 1, 2)
    return head, chances + split(rng, m, rng.choice([0, 2, 7])) + [0]


def lasting_plan(rng, n, u, m, c=1):
    """No size empty, and claims so rare that more comes in than is paid."""
    return Head(n, u, m, c), [rng.randrange(S * c // max(m, c)) for _ in range(n)] + split(rng, m, 0) + [0]


def geometric(m, alpha=Fraction(3, 4)):
    """The weights of source documents 000, (4.2), and 003, (3.2), for an exact alpha: rounded down, and over is what is missing."""
    weights = [int((1 - alpha) * alpha ** (x - 1) * S) for x in range(1, m + 1)]
    return weights + [S - sum(weights)]


def geometric_plan(head, alpha, chance):
    """A plan with these weights, from the exact chances of the months, rounded down."""
    return head, [int(chance(i) * S) for i in all_months(head)] + geometric(head.sizes, alpha)


def long_plans(rng):
    """Plans up to the largest: rare large claims, many small ones, and some of every kind."""
    yield LARGEST, [rng.randrange(S // 25) for _ in range(MONTHS)] + split(rng, SIZES, 0) + [0]
    yield LARGEST, [rng.randrange(S) for _ in range(MONTHS)] + geometric(SIZES)
    yield LARGEST._replace(opening=0), [rng.randrange(S // 25) for _ in range(MONTHS)] + geometric(SIZES)
    for n, u, m in ((MONTHS, OPENING, 1), (0, OPENING, SIZES), (MONTHS - 1, 37, 100), (17, 150, 166)):
        yield some_plan(rng, n, u, m)


# ---- Plans to time

TEN_SIZES = 1, 2, 3, 5, 8, 12, 150, 200, 260, SIZES  # small repairs and full replacements


def timed_plans():
    """Three of the largest head, by name, always the same."""
    rng = random.Random(1)
    _, row = next(long_plans(rng))
    chances, table = row[:MONTHS], row[MONTHS:]
    shares = dict(zip(TEN_SIZES, split(rng, len(TEN_SIZES), 0)))
    return {
        "none-empty": (LARGEST, row),
        "ten-filled": (LARGEST, chances + [shares.get(x, 0) for x in range(1, SIZES + 1)] + [0]),
        "no-chance": (LARGEST, [0] * MONTHS + table),
    }


def timed_small_plan():
    """The largest head that has a tree, with the first months and the table of the first of these."""
    head, row = timed_plans()["none-empty"]
    return head._replace(months=SMALL_MONTHS, opening=SMALL_OPENING), row[:SMALL_MONTHS] + row[MONTHS:]
