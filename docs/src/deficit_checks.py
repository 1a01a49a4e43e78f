"""How deep the hole is: a part of the self-test. The bounds are held to the listed histories, to failing in the month and to funds worked by hand,
what is printed to both, and source document 004's Theorem 2 to its own sentences, to its Table 1 and to the eight plans that have its chances."""
import itertools
import math
from fractions import Fraction

from deficit_cases import EXAMPLE_MONTH, EXAMPLE_PLAN, TABLE_SIZES, places_of
from exact import carried_deficits, deficit_weights, encloses, failure_weight, keeps_gap, known_deficits, outcomes, tail_weight
from exchangeable import ALPHA, PRINTED, PRINTED_OPENING, PRINTED_PLACES, beta_moment, counted_level, decimal, exchangeable_deficit
from exchangeable import exchangeable_survival, joint_level, model_mix, size_chance
from moves import later_changed
from plans import EXAMPLE, EXAMPLE_BYTES, ONE_SIZE, flat, geometric, split
from rules import INCOME, LEVEL, MONTHS, OPENING, S, SIZES, Head, Plan, all_months, deficit_answer, deficit_bounds, deficit_rule, deficits_text, down
from rules import failure_bounds, largest_level, levels_before, month_of, plan_of, totals, unrounded, write_bytes

# ---- Random plans with every history listed

FAR = {(LEVEL, 0), (0, LEVEL), (1, LEVEL), (LEVEL, LEVEL)}  # levels and deficits at their limits


def can_be(head, t, i):
    """Whether the fund may have this level before month t, whatever chances and weights it has."""
    return i == head.opening if t == 1 else 0 < i <= head.opening + head.income * (t - 1)


def check_place(tally, plan, t, i, j, weight):
    """One deficit's bounds; its weight is that of the histories."""
    about, pair = (plan, t, i, j), deficit_bounds(plan, t, i, j)
    tally.check("deficits: enclosure", encloses(plan, weight, *pair), about)
    tally.check("deficits: gap", keeps_gap(plan, t, *pair), about)
    tally.check("deficits: the upper bound is 0 where the weight is, and nowhere else", (pair[1] == 0) == (weight == 0), about)
    if not can_be(plan.head, t, i):
        tally.check("deficits: levels that cannot be", weight == 0 and pair == (0, 0), about)
    return pair


def check_listed_place(tally, plan, t, i, j, weight):
    exact = deficit_rule(plan, t, i, j, unrounded) * S ** (2 * plan.head.months)
    tally.check("unrounded deficit rule is W", exact == weight * S, (plan, t, i, j))
    pair = check_place(tally, plan, t, i, j, weight)
    tally.check("deficits: later months have no part", deficit_bounds(later_changed(plan, t), t, i, j) == pair, (plan, t, i, j))
    return pair


def check_with_failures(tally, name, plan, t, pairs):
    """The sums of the bounds of all levels and deficits, next to those of failing in the month."""
    (lower, upper), (fails_lower, fails_upper) = totals(pairs), failure_bounds(plan, t)
    tally.check(f"{name}: the lower bounds are at most what fails t may be", lower <= fails_upper, (plan, t))
    if plan.tail == 0:
        tally.check(f"{name}: without over, the upper bounds are at least what fails t must be", fails_lower <= upper, (plan, t))


def check_deficits_text(tally, plan, t, pairs):
    """The lines, from the bounds by level and deficit."""
    text = deficits_text(write_bytes(plan.head, [*plan.chances, *plan.weights, plan.tail]), t)
    printed = {place: pair for place, pair in pairs.items() if pair[1] > 0}
    lines = [f"deficit {i} {j} {lower} {upper}" for (i, j), (lower, upper) in sorted(printed.items())]
    for deficit in range(SIZES):
        of_deficit = [pair for (_, j), pair in printed.items() if j == deficit]
        if of_deficit:
            lines.append(f"total {deficit} {sum(lower for lower, _ in of_deficit)} {sum(upper for _, upper in of_deficit)}")
    tally.check("deficits: text", text.splitlines() == lines and text == "".join(line + "\n" for line in lines), (plan, t, text))


def check_month_weights(tally, plan, listed, weights, t):
    """Those of the listed histories, without any rule."""
    together, others = carried_deficits(plan, t), carried_deficits(later_changed(plan, t), t)
    known, by_tail = known_deficits(weights, t), tail_weight(weights, t)
    tally.check("histories carried together weigh W", known_deficits(together, t) == known and tail_weight(together, t) == by_tail, (plan, t))
    tally.check("deficits: later months have no part in W", others == together, (plan, t))
    whole = sum(known.values()) + by_tail
    tally.check("deficits: with over they weigh what failing in the month does", whole == failure_weight(listed, t), (plan, t))
    possible = {i for (i, _), weight in known.items() if weight > 0}
    tally.check("deficits: levels that can be", possible <= set(levels_before(plan, t)), (plan, t))


def check_month(tally, plan, listed, weights, t):
    """All levels and deficits of a month."""
    check_month_weights(tally, plan, listed, weights, t)
    known, places = known_deficits(weights, t), {(i, j) for month, i, j in places_of(plan.head) if month == t} | FAR
    tally.check("deficits: no weight but at the places tried", known.keys() <= places, (plan, t))
    pairs = {place: check_listed_place(tally, plan, t, *place, known[place]) for place in places}
    check_with_failures(tally, "deficits", plan, t, pairs.values())
    check_deficits_text(tally, plan, t, pairs)


def check_deficits(tally, plan, listed):
    weights = deficit_weights(listed)
    for t in all_months(plan.head):
        check_month(tally, plan, listed, weights, t)


def deficit_plans(rng):
    """Of every income, with claims that can ruin from most levels, with over in about half of them; openings of 0 among them."""
    for c, _ in itertools.product(range(1, INCOME + 1), range(12)):
        n = rng.randint(1, 3) if c < 3 else rng.randint(1, 2)
        head = Head(n, rng.randrange(4), rng.randint(2 * c, 2 * c + 8 - n), c)
        parts = head.sizes + (head.sizes + 1 >= largest_level(head) and rng.randrange(4) > 0)
        yield head, [rng.choice([1, S - 1, S, rng.randrange(1, S)]) for _ in range(n)] + (split(rng, parts, 1) + [0])[: head.sizes + 1]


def check_deficit_plans(tally, rng):
    for head, row in deficit_plans(rng):
        check_deficits(tally, plan_of(head, row), outcomes(plan_of(head, row)))
    for head in (Head(30, 3, 40), Head(12, 2, 60, 4)):  # with over
        check_long_deficits(tally, plan_of(head, [rng.randrange(S // 3) for _ in range(head.months)] + geometric(head.sizes)))


# ---- Long plans, by the histories carried together

FEW = 50  # deficits of a month of a long plan; where there are more, some of them are tried, at most so many


def check_long_deficits(tally, plan):
    n = plan.head.months
    for t in (1, 2, n // 2, n - 1, n):
        known = known_deficits(carried_deficits(plan, t), t)
        places = list(known)[:: len(known) // FEW + 1]
        pairs = [check_place(tally, plan, t, *place, known[place]) for place in places]
        if len(places) == len(known):
            check_with_failures(tally, "long plans, deficits", plan, t, pairs)


# ---- By hand

FROM_NOTHING = Head(1, 0, 3), [S // 2, S // 4, S // 4, S // 2, 0]
TWO_UNITS = Head(2, 0, 5, 2), [S, S // 2, S // 2, 0, 0, S // 2, 0, 0]  # 2 less 1 or 4, then 3 less 1 or 4
ONE_WAY = Head(2, 1, 3), [S // 2, S // 4, 0, 0, S, 0]  # every claim is of 3
EIGHT_UNITS = Head(2, 0, 17, 8), [S // 2, S // 4, *[0] * 8, S // 2, *[0] * 7, S // 4, S // 4]  # half of the claims are of 9, a quarter is over

DEFICITS_BY_HAND = [  # a plan, month, level and deficit; lower and upper
    (EXAMPLE, 1, 1, 0, S // 4, S // 4),
    (EXAMPLE, 2, 1, 0, S // 16, S // 16),
    *((EXAMPLE, t, i, j, 0, 0) for t, i, j in ((1, 1, 1), (1, 0, 0), (1, 0, 1), (1, 2, 0), (2, 0, 0), (2, 0, 1), (2, 1, 1), (2, 2, 0), (2, 3, 0))),
    (FROM_NOTHING, 1, 0, 0, S // 8, S // 8),
    (FROM_NOTHING, 1, 0, 1, S // 8, S // 8),
    (FROM_NOTHING, 1, 0, 2, S // 4, S // 4),
    *((FROM_NOTHING, 1, i, j, 0, 0) for i, j in ((0, 3), (1, 0), (1, 1), (0, LEVEL), (LEVEL, 0), (LEVEL, LEVEL))),
    (TWO_UNITS, 1, 0, 2, S // 2, S // 2),
    (TWO_UNITS, 2, 1, 1, S // 8, S // 8),
    *((TWO_UNITS, t, i, j, 0, 0) for t, i, j in ((1, 0, 0), (1, 0, 1), (1, 0, 3), (1, 2, 0), (2, 1, 0), (2, 1, 2), (2, 2, 0), (2, 3, 0))),
    (ONE_WAY, 1, 1, 1, S // 2, S // 2),
    (ONE_WAY, 2, 2, 0, S // 8, S // 8),
    *((ONE_WAY, t, i, j, 0, 0) for t, i, j in ((1, 1, 0), (1, 1, 2), (1, 2, 0), (2, 1, 1), (2, 0, 2), (2, 2, 1), (2, 3, 0))),
    (EIGHT_UNITS, 1, 0, 1, S // 4, S // 4),
    (EIGHT_UNITS, 1, 0, 9, S // 8, S // 8),
    (EIGHT_UNITS, 2, 8, 1, S // 32, S // 32),  # no claim, then one of 17
    *((EIGHT_UNITS, t, i, j, 0, 0) for t, i, j in ((1, 0, 10), (1, 0, 0), (2, 8, 2), (2, 8, 0), (2, 1, 0), (2, 1, 8), (2, 16, 0))),
    ((Head(1, 0, 1), [S // 2, S // 2, S // 2]), 1, 0, 0, S // 4, S // 4),
    ((Head(1, 0, 1), [S // 2, S // 2, S // 2]), 1, 0, 1, 0, 0),  # over is no size
    ((Head(1, 1, 1), [S, 0, S]), 1, 1, 0, 0, 0),
    ((Head(1, 0, 1), [S, *ONE_SIZE]), 1, 0, 0, S, S),
    ((Head(1, 1, 2), [1, 1, S - 1, 0]), 1, 1, 0, 0, 1),
    ((Head(1, 1, 2), [S - 1, 1, S - 1, 0]), 1, 1, 0, S - 2, S - 1),
    ((Head(2, 1, 2), [1, 1, 1, S - 1, 0]), 2, 1, 0, 0, 1),
    ((Head(2, 1, 2), [0, S, 1, S - 1, 0]), 2, 2, 0, 0, 0),
    ((Head(2, 1, 3), [1, S - 1, 0, 1, S - 1, 0]), 2, 2, 0, S - 3, S - 1),  # S − 2 or S − 1 before month 2, and month 1 leaves all but 1/S of that
]

NUMBERS_BY_HAND = [  # of the example: month, level, deficit, room, the refusal's number
    *((t, 1, 0, room, 10) for t in (0, 3, 4, 2**8 + 1, 2**32 + 1, 2**64 - 1) for room in (0, 7, 8)),
    *((t, i, j, 8, 0) for t in (1, 2) for i, j in ((0, 0), (1, 0), (0, 320), (320, 0), (320, 320))),
    *((t, i, j, 9, 0) for t in (1, 2) for i, j in ((0, 0), (320, 320))),
    *((t, i, j, room, 10) for t in (1, 2) for i in (321, 2**32, 2**32 + 1, 2**64 - 1) for j in (0, 320, 321) for room in (0, 8)),
    *((t, i, j, room, 10) for t in (1, 2) for j in (321, 2**32, 2**32 + 1, 2**64 - 1) for i in (0, 320, 321) for room in (0, 8)),
    *((t, i, j, room, 11) for t in (1, 2) for i, j in ((0, 0), (1, 0), (320, 320)) for room in (0, 1, 7)),
]

EXAMPLE_DEFICITS = """deficit 1 1 3145728 3145728
deficit 1 3 3145728 3145728
deficit 2 0 1048576 1048576
deficit 2 2 1048576 1048576
deficit 3 1 12582912 12582912
deficit 4 0 37748736 37748736
total 0 38797312 38797312
total 1 15728640 15728640
total 2 1048576 1048576
total 3 3145728 3145728
"""

TEXTS_BY_HAND = [
    (write_bytes(*EXAMPLE_PLAN), EXAMPLE_MONTH, EXAMPLE_DEFICITS),  # 3, 3, 1, 1, 12 and 36 of 1024
    (EXAMPLE_BYTES, 1, "deficit 1 0 268435456 268435456\ntotal 0 268435456 268435456\n"),
    (EXAMPLE_BYTES, 2, "deficit 1 0 67108864 67108864\ntotal 0 67108864 67108864\n"),
    (write_bytes(Head(1, 1, 2), [1, 1, S - 1, 0]), 1, "deficit 1 0 0 1\ntotal 0 0 1\n"),
    (write_bytes(Head(1, 5, 2), [S, 1, S - 1, 0]), 1, ""),
    (write_bytes(Head(1, 1, 2), [0, 1, S - 1, 0]), 1, ""),
    (write_bytes(Head(1, 0, 1), [S, 0, S]), 1, ""),
    *((EXAMPLE_BYTES, t, "refused 10\n") for t in (0, 3, 121, 2**8 + 1, 2**32 + 1, 2**64 + 1)),
    *((write_bytes(*flat(0, 3, 2)), t, "refused 10\n") for t in (0, 1)),
    (write_bytes(*flat(MONTHS, 3, 2)), MONTHS + 1, "refused 10\n"),
    *((data, t, f"refused {number}\n") for t in (0, 1, 9) for data, number in (
        (b"", 1),
        (EXAMPLE_BYTES[:3], 1),
        (write_bytes(*flat(MONTHS + 1, 0, 1)), 2),
        (write_bytes(*flat(0, OPENING + 1, 1)), 3),
        (write_bytes(*flat(0, 0, SIZES + 1)), 4),
        (write_bytes(*flat(MONTHS, OPENING, 1, INCOME + 1)), 16),
        (write_bytes(*flat(40, 1, 1, INCOME))[:4], 17),
        (EXAMPLE_BYTES[:4], 5),
        (EXAMPLE_BYTES[:-1], 5),
        (EXAMPLE_BYTES[:-1] + b"\1", 6),
        (write_bytes(Head(1, 1, 1), [S + 1, S, 0]), 7),
        (write_bytes(Head(1, 1, 1), [S, S, 1]), 8),
        (write_bytes(*flat(1, 3, 2, tail=1)), 9),
    )),
]

MONTH_WORDS = [
    *(("0" * zeros + str(t), t) for zeros in (0, 1, 50, 5000) for t in (0, 1, 12, 120, 121)),
    *((word, None) for word in ("", " ", "+1", "-1", "1 ", "1.0", "1e3", "0x1", "1_0", "\u0661", "\u00b2", "one")),
]
PAST_MONTHS = ["121", "999", "1000", str(2**32), str(2**32 + 1), str(2**64 + 1), "1200", "12" + "0" * 5000, "0" * 5000 + "1201"]


def check_deficit_numbers(tally, refused):
    """`refused` has numbers, heads and rows of plans."""
    for (head, row), t, i, j, *pair in DEFICITS_BY_HAND:
        got = deficit_answer(head, row, t, i, j, math.inf)
        tally.check("deficits by hand", got == (0, *pair), (head, row, t, i, j, got))
    for t, i, j, room, number in NUMBERS_BY_HAND:
        got = deficit_answer(*EXAMPLE, t, i, j, room)
        tally.check("deficits of the example: refusals", got[0] == number and (number == 0 or got == (number, 0, 0)), (t, i, j, room, got))
    places = (0, 0, 0), (1, 1, 0), (MONTHS + 1, 0, 0), (1, LEVEL + 1, 0), (1, 0, LEVEL + 1)
    for (number, head, row), place, room in itertools.product(refused, places, (0, math.inf)):
        got = deficit_answer(head, row, *place, room)
        tally.check("deficits: plans refused", got == (number, 0, 0), (head, row, place, room, got))
    for data, t, text in TEXTS_BY_HAND:
        tally.check("deficits: texts by hand", deficits_text(data, t) == text, (data.hex(), t, deficits_text(data, t)))
    for word, t in MONTH_WORDS:
        tally.check("deficits: words of a month", month_of(word) == t, word)
    for word in PAST_MONTHS:
        tally.check("deficits: words past the months", month_of(word) > MONTHS, word)


# ---- Source document 004's Theorem 2


def level_chance_plan(p, u, n):
    """Of the source's fund with independent claims, its chances and weights in fractions of parts."""
    weights = [S * size_chance(x) for x in range(1, TABLE_SIZES + 1)]
    return Plan(Head(n, u, TABLE_SIZES), [S * p] * n, weights, S - sum(weights))


def corollary(p, u, n, i, j):
    """Corollary 1 as printed."""
    gamma = joint_level(p)
    claims = ((k, m) for k in range(n) for m in range(n - k))
    terms = ((-1) ** m * gamma(u, n - 1, i, k) / (1 - p) ** (n - k - 1) * math.comb(n - k - 1, m) * p ** (m + 1) for k, m in claims)
    return size_chance(i + j + 1) * sum(terms)


def check_theorem(tally):
    """D is independent of p; with lambda_s = p^s it is Corollary 1, and the month rule without rounding; the case n = 1 as printed; and with all
    levels and deficits it is what Theorem 1 says of ruin in the month, since each deficit is 4/5 as likely as the one before."""
    one, other = counted_level(Fraction(1, 2)), counted_level(Fraction(1, 10))
    for u, n in itertools.product((1, 2, 4), range(1, 6)):
        for i, k in itertools.product(range(1, u + n + 1), range(n)):
            tally.check("Theorem 2: D is independent of p", one(u, n, i, k) == other(u, n, i, k), (u, n, i, k))
        for p, i, j in itertools.product((Fraction(1, 10), Fraction(2, 7)), range(1, u + n + 1), (0, 3)):
            classical = exchangeable_deficit(u, n, i, j, lambda s: p**s)
            tally.check("Theorem 2: Corollary 1", classical == corollary(p, u, n, i, j), (u, n, i, j, p))
            by_months = deficit_rule(level_chance_plan(p, u, n), n, i, j, unrounded)
            tally.check("Theorem 2: the month rule", classical == by_months / S, (u, n, i, j, p))
    for u, i, j in itertools.product((1, 2, 4), range(1, 6), (0, 2)):
        first = beta_moment(1) * size_chance(i + j + 1) * (u == i)
        tally.check("Theorem 2: the first month", exchangeable_deficit(u, 1, i, j) == first, (u, i, j))
    for u, n in itertools.product((1, 3), range(1, 16)):
        all_levels = sum(exchangeable_deficit(u, n, i, 0) for i in range(1, u + n)) / (1 - ALPHA)
        ruin = exchangeable_survival(u, n - 1) - exchangeable_survival(u, n)
        tally.check("Theorem 2: over all levels and deficits, Theorem 1", all_levels == ruin, (u, n))


NEAR = Fraction(1, 10**8)  # of both weighted sums to the theorem's chance


def weighted_sums(weights, plans, t, i, j):
    """Over the plans, of weight × lower / S and of weight × upper / S, each rounded down."""
    pairs = [deficit_bounds(plan_of(*plan), t, i, j) for plan in plans]
    return [sum(down(weight * bound, S) for weight, bound in zip(weights, bounds)) for bounds in zip(*pairs)]


def check_printed(tally):
    """Table 1: the theorem's chance, and the eight plans' sums, have its five places."""
    tally.check("Table 1: sixteen values", len(PRINTED) == 16, len(PRINTED))
    for (n, i, j), printed in PRINTED.items():
        chance = exchangeable_deficit(PRINTED_OPENING, n, i, j)
        tally.check("Table 1: by Theorem 2", decimal(chance, PRINTED_PLACES) == printed, (n, i, j, chance))
        sums = weighted_sums(*model_mix(PRINTED_OPENING, n, TABLE_SIZES), n, i, j)
        both = {decimal(Fraction(total, S), PRINTED_PLACES) for total in sums}
        tally.check("Table 1: by the eight plans", both == {printed}, (n, i, j, sums))


def check_nodes(tally):
    """The eight plans up to 15 months, next to the theorem's chance."""
    for u, n in itertools.product((1, 3), (1, 2, 3, 5, 8, 10, 13, 15)):
        weights, plans = model_mix(u, n, TABLE_SIZES)
        for i, j in itertools.product(sorted({1, 2, u, u + n // 2, u + n - 1}), (0, 4)):
            chance = exchangeable_deficit(u, n, i, j)
            apart = max(abs(Fraction(total, S) - chance) for total in weighted_sums(weights, plans, n, i, j))
            tally.check("Theorem 2: the eight plans are near to it", apart <= NEAR, (u, n, i, j, float(apart)))


def check_published_deficits(tally):
    check_theorem(tally)
    check_printed(tally)
    check_nodes(tally)
