"""The inputs of the test program over deficits: both sides of each limit, every pair of refusals that meet, every level and deficit of small plans,
plans as large as can be, the texts of plan bytes, and source document 004's Table 1."""
import itertools
import random
from collections import namedtuple

from cases import BRIEF, FULL, PLAN_FAULTS, RICH, SPANS, WIDE, failing_plans, head_edges, refused_bytes, rounding_plans, row_edges, short_room
from cases import tail_edges, wide_fault_pairs
from exchangeable import PRINTED, PRINTED_OPENING, model_mix
from plans import EXAMPLE, EXAMPLE_BYTES, TEN_SIZES, changed, flat, geometric, lasting_plan, some_plan, split, timed_plans
from records import DEFICIT_WORKSPACE, FULL_NUMBER, DeficitCalls
from rules import INCOME, LARGEST, LEVEL, MONTHS, OPENING, S, SIZES, SPAN, SURVIVE, Head, all_months, levels_after, workspace_needed, write_bytes

DeficitAsk = namedtuple("DeficitAsk", "head row month level deficit room", defaults=[None])  # with no room given, what is needed


def asking(plan, places, room=None):
    """Each of these months, levels and deficits on one plan."""
    return (DeficitAsk(*plan, *place, room) for place in places)


def deficit_left(head, i, size):
    """What a claim of this size leaves below 0 of the level i, which may be above."""
    return size - i - head.income


# ---- Months, levels and deficits around their limits

NUMBERS = 0, 1, LEVEL - 1, LEVEL, LEVEL + 1, 2**8 + 1, 2**16 + 1, 2**32, 2**32 + 1, 2**63, FULL  # some are small where only their last bits count


def two_sizes(n, u, c):
    """Half of the claims take a month's income, the others four units more."""
    return Head(n, u, c + 4, c), [S // 3] * n + [0] * (c - 1) + [S // 2, 0, 0, 0, S // 2, 0]


def month_edges():
    """Months around 1 and n, and numbers that are a month where only their last bits are looked at, from levels of up to 4."""
    of_one = itertools.product((0, 1, 3, MONTHS), (0, 4), [1])
    for n, u, c in (*of_one, (0, 4, 8), (3, 4, 2), (3, 0, 8), (40, 0, 8)):
        months = sorted({0, 1, n, n + 1, 2**8 + 1, 2**32, 2**32 + 1, FULL})
        yield from asking(two_sizes(n, u, c), ((t, i, 4 - i) for t, i in itertools.product(months, (0, 3, 4))))


def number_edges():
    """Levels and deficits, each with each; then around the largest size, in tables of all sizes."""
    yield from asking(BRIEF, ((1, *pair) for pair in itertools.product(NUMBERS, repeat=2)))
    for number in NUMBERS:
        yield from asking(RICH, ((2, number, 1), (2, 1, number)))
    for u, c in itertools.product((0, 1, OPENING), (1, 2, INCOME)):
        plan = head, _ = Head(1, u, SIZES, c), [S // 3] + geometric(SIZES)
        last = deficit_left(head, u, SIZES)
        yield from asking(plan, ((1, u, j) for j in (0, last - 1, last, last + 1, last + 2, LEVEL)))


def high_levels():
    """The highest that there can be before a month, from which the largest size leaves nothing; one higher, and the limit, which none comes to."""
    for n, u, c in ((MONTHS, OPENING, 1), (MONTHS, 80, 2), (40, 0, INCOME)):
        plan = Head(n, u, SIZES, c), [0] * (n - 1) + [S] + [0] * (SIZES - 2) + [1, S - 1, 0]
        top = u + c * (n - 1)
        yield from asking(plan, ((n, top, 0), (n, top, 1), (n, top - 1, 0), (n, top + 1, 0), (n, LEVEL, 0), (n, LEVEL, LEVEL), (n - 1, top, 0)))


# ---- What is turned away


def whole_ask(plan, *place):
    return DeficitAsk(*plan, *place, workspace_needed(plan[0], SURVIVE))


def month_fault(t):
    return lambda ask: ask._replace(month=t)


def level_fault(ask):
    return ask._replace(level=LEVEL + 1)


def deficit_fault(ask):
    return ask._replace(deficit=LEVEL + 1)


def own_faults(head):
    """In the order of the checks."""
    return [month_fault(0), month_fault(head.months + 1), level_fault, deficit_fault, short_room]


def fault_pairs():
    """Calls that two numbers of the table fit, or 10 twice: the earlier one counts. The deficit is one that can be, so is one that cannot."""
    for place in ((2, 4, 0), (2, 9, 1)):
        whole = whole_ask(BRIEF, *place)
        for one, other in itertools.combinations_with_replacement([*PLAN_FAULTS.values(), *own_faults(BRIEF[0])], 2):
            yield one(other(whole))
    yield from wide_fault_pairs(whole_ask(WIDE, 1, 0, 0), *own_faults(WIDE[0]))


def plan_edges():
    """Every edge of heads, rows and tails; the place is one that the head has, if it has a month."""
    for head, row in itertools.chain(head_edges(), row_edges(), tail_edges()):
        yield DeficitAsk(head, row, 1, min(head.opening, LEVEL), min(max(deficit_left(head, head.opening, head.sizes), 0), LEVEL))


# ---- Workspaces

E = S // 16
HOLED = Head(3, 2, 10, 2), [S // 3, 0, S // 5, 4 * E, 0, 4 * E, 0, 2 * E, 2 * E, 0, 0, 2 * E, E, E]  # no claim in month 2, and empty sizes
FILLED_PLACES = [(3, 3, 0), (3, 6, 1), (3, 5, 3), (1, 2, 1)]  # of HOLED, with bounds above 0
EMPTY_PLACES = [
    (2, 4, 0),  # no chance
    (1, 2, 0),  # an empty size
    (3, 3, 6),  # sizes above m: where over stands in the row, and past it
    (3, 3, 7),
    (3, 0, 3),  # levels that cannot be: 0 after a month, one that is not the opening, between others, above the highest
    (1, 1, 2),
    (3, 4, 0),
    (3, 7, 0),
    (3, LEVEL, 0),
    (3, 3, LEVEL),
    (1, LEVEL, LEVEL),
]


def room_edges():
    """None, and around what is needed, whether the bounds are above 0 or known to be 0 at once."""
    needed = workspace_needed(HOLED[0], SURVIVE)
    for room in (0, 1, needed - 1, needed, needed + 1, needed + 40):
        yield from asking(HOLED, FILLED_PLACES + EMPTY_PLACES, room)
    for n, u, c in ((0, 0, 1), (0, 7, 1), (7, 0, 1), (MONTHS, OPENING, 1), *SPANS):
        plan = two_sizes(n, u, c)
        needed = workspace_needed(plan[0], SURVIVE)
        for room in sorted({needed - 1, needed, needed + 1, 2 * (u + n + 1)}):  # the last is what an income of 1 needs
            yield from asking(plan, ((max(n, 1), 4, 0), (1, min(u, 4), 4 - min(u, 4))), room)


def dirty_rooms():
    """Each with what the numbers hold before."""
    needed = workspace_needed(HOLED[0], SURVIVE)
    places = FILLED_PLACES[0], EMPTY_PLACES[0], EMPTY_PLACES[3], EMPTY_PLACES[7], (4, 3, 0)
    for fill, place, more in itertools.product((0, 1, S, 2**31, FULL_NUMBER), places, (-1, 0, 3)):
        yield DeficitAsk(*HOLED, *place, needed + more), fill


# ---- Every level and deficit


def places_of(head):
    """Every month, level and deficit, up to one above the highest level and one size above the table's."""
    for t in all_months(head):
        for i in range(len(levels_after(head, t - 1)) + 1):
            yield from ((t, i, j) for j in range(max(deficit_left(head, i, head.sizes), 0) + 2))


def small_plans(rng):
    """Of incomes 1 to 3 and of larger ones, with over and without, from openings of 0 on; the sizes go past the levels in most."""
    yield EXAMPLE
    for head in ((2, 0, 3), (3, 1, 2), (3, 2, 4), (1, 0, 4, 2), (2, 1, 6, 2), (2, 0, 7, 3), (1, 3, 9, 3), (2, 0, 9, 5), (1, 0, 12, INCOME)):
        yield Head(*head), [rng.randrange(1, S) for _ in range(head[0])] + split(rng, head[2], 2) + [0]
    for n, u, c in ((3, 0, 1), (2, 2, 1), (2, 0, 2), (1, 2, 3), (1, 1, 7)):
        m = u + c * n - 1
        yield Head(n, u, m, c), [rng.randrange(1, S) for _ in range(n)] + split(rng, m + 1, 0)  # over is just allowed


def every_place(rng):
    for plan in small_plans(rng):
        yield from asking(plan, places_of(plan[0]))


def sure_months():
    """A chance of 0 or of S in a month: asked for that month, and for the one after it."""
    for u, at, chance in itertools.product((0, 2), range(4), (0, S)):
        plan = Head(4, u, 8), changed([S // 2] * 4 + geometric(8), at, chance)
        for t in {at + 1, min(at + 2, 4)}:
            yield from asking(plan, ((t, i, i % 2) for i in range(u + t + 1)))


def one_size_plans():
    """All weight on one size, or on over: the deficit that it leaves, one less and one more, before the first month and the second."""
    for head, row in failing_plans():
        sizes = [x for x, weight in enumerate(row[head.months :], 1) if weight == S]
        for x, (t, i) in itertools.product(sizes, ((1, head.opening), (2, head.opening + head.income))):
            left = max(deficit_left(head, i, x), 0)
            if t <= head.months:
                yield from asking((head, row), ((t, i, j) for j in {max(left - 1, 0), left, left + 1} if j == left or x % 2))


def roundings():
    """Numbers that rounding otherwise would change; on some the bounds are as far apart as the gap rule allows."""
    for head, row in rounding_plans():
        last = deficit_left(head, 1, head.sizes)
        yield from asking((head, row), {(head.months, 1, last), (head.months, head.opening, 0), (1, head.opening, max(last - 1, 0))})


# ---- Random plans, and plans as large as can be


def some_place(rng, head):
    """With a size of the table, where one ruins from the level; before month 1 the level is mostly the opening."""
    t = rng.choice([rng.randint(1, head.months), head.months])
    i = head.opening if t == 1 and rng.randrange(4) else rng.choice(levels_after(head, t - 1))
    return t, i, rng.randint(0, max(deficit_left(head, i, head.sizes), 1))


def random_asks(rng):
    """Small plans of every income, with over and without, then middle ones."""
    for c in (*range(1, INCOME + 1), 1, 2, 3, 1, 2, 3):
        for n in range(1, 5):
            head, row = some_plan(rng, n, rng.randrange(4), rng.randint(2 * c, 3 * c + 9), c)
            yield from asking((head, row), (some_place(rng, head) for _ in range(6)))
    for _ in range(30):
        c = rng.randint(1, 4)
        head, row = lasting_plan(rng, rng.randrange(8, 16), rng.randrange(1, 12), rng.randrange(20, 60), c)
        yield from asking((head, row), (some_place(rng, head) for _ in range(6)))


def largest_asks(rng):
    """No size empty, in the last month from high and low levels; ten filled; with over; the largest income, and two units a month."""
    timed = timed_plans()
    yield from asking(timed["none-empty"], ((MONTHS, 319, 0), (MONTHS, 200, 119), (MONTHS, 1, 318), (61, 137, 100)))
    yield from asking(timed["ten-filled"], ((MONTHS, 59, 200), (MONTHS, 190, 9)))
    yield DeficitAsk(LARGEST, [rng.randrange(1, S // 25) for _ in range(MONTHS)] + split(rng, SIZES + 1, 0), MONTHS, 150, 169)  # with over
    yield DeficitAsk(*lasting_plan(rng, SPAN // INCOME, 0, SIZES, INCOME), SPAN // INCOME, 100, 50)
    yield DeficitAsk(*lasting_plan(rng, MONTHS, SPAN - 2 * MONTHS, 40, 2), MONTHS, 20, 10)


# ---- Texts


def texts_of(plan, *months):
    return ((write_bytes(*plan), t) for t in months)


def refused_texts():
    """The plan's own number comes before the month's; then months that plans do not have."""
    for t, data in zip(itertools.cycle((0, 1, MONTHS + 1)), refused_bytes()):
        yield data, t
    yield from ((EXAMPLE_BYTES, t) for t in (0, 3, 2**8 + 1, 2**32, 2**32 + 1, FULL))
    yield from texts_of(flat(0, 3, 2), 0, 1)
    yield from texts_of(flat(MONTHS, 3, 2), 0, MONTHS + 1)


def small_texts(rng):
    """Every month of some; every income; an opening of 0; months without a line, for no claim can come in them, or none can ruin."""
    yield from ((EXAMPLE_BYTES, t) for t in (1, 2))
    for plan in (EXAMPLE_PLAN, RICH, HOLED, (Head(3, 0, 6), [S // 2, S - 1, S // 3] + geometric(6))):
        yield from texts_of(plan, *all_months(plan[0]))
    for c in range(1, INCOME + 1):
        m = 2 * c + 5
        yield from texts_of((Head(3, c % 3, m, c), [rng.randrange(1, S) for _ in range(3)] + split(rng, m, 2) + [0]), 1 + c % 3, 3)
    yield from texts_of(flat(3, 4, 3), 1)
    yield from texts_of((Head(3, 1, 2), [1, S - 1, S, 1, S - 1, 0]), 1, 2, 3)
    yield from texts_of((Head(2, 1, 2), [S // 2, S // 3, 0, 0, S]), 1, 2)  # all claims are over


def large_texts(rng):
    """Middle plans; one month and two of wide tables; the highest level alone, in the last month of the largest plan."""
    yield from texts_of((Head(12, 6, 25), [S // 9] * 12 + geometric(25)), 6, 12)
    yield from texts_of(lasting_plan(rng, 8, 4, 30, 3), 8)
    shares = dict(zip(TEN_SIZES, split(rng, len(TEN_SIZES), 0)))
    ten_filled = [shares.get(x, 0) for x in range(1, SIZES + 1)] + [0]
    yield from texts_of((Head(4, 20, SIZES), [S // 5] * 4 + ten_filled), 4)
    yield from texts_of((Head(1, OPENING, SIZES), [S - 1] + split(rng, SIZES + 1, 0)), 1)
    yield from texts_of((Head(2, 50, 110), [S // 3, S // 7] + split(rng, 111, 0)), 2)
    yield from texts_of((LARGEST, [0] * (MONTHS - 1) + [S] + geometric(SIZES - 1) + [0]), MONTHS)


# A fund that opens with 2 units: a quarter of the months bring a claim, half of the claims are of 1 unit, a quarter each of 3 and of 5.
EXAMPLE_PLAN = Head(3, 2, 5), [S // 4] * 3 + [S // 2, 0, S // 4, 0, S // 4, 0]
EXAMPLE_MONTH = 3

# ---- Source document 004's Table 1

TABLE_SIZES = 40  # so that the sizes asked have their weight


def printed_table():
    for (n, i, j), printed in PRINTED.items():
        yield *model_mix(PRINTED_OPENING, n, TABLE_SIZES), n, i, j, printed


# ---- All records, in their order


def all_deficit_calls():
    calls, rng = DeficitCalls(), random.Random(63)
    edges = month_edges(), number_edges(), high_levels(), fault_pairs(), plan_edges(), room_edges(), every_place(rng), sure_months(), one_size_plans()
    for ask in itertools.chain(*edges, roundings()):
        calls.call(*ask)
    for ask, fill in dirty_rooms():
        calls.call(*ask, fill)
    for head, row, *place, _ in itertools.chain(random_asks(rng), largest_asks(rng)):
        calls.call(head, row, *place, min(workspace_needed(head, SURVIVE) + rng.randrange(3), DEFICIT_WORKSPACE), rng.getrandbits(32))
    for data, t in itertools.chain(refused_texts(), small_texts(rng), large_texts(rng)):
        calls.text(data, t)
    for one in printed_table():
        calls.table(*one)
    return calls
