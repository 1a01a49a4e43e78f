"""The inputs of the test programs `vectors`, `reports` and `trees`: both sides of each limit, worked out from the limits of rules.py, and random
plans."""
import itertools
import random
from collections import namedtuple

from old_plans import write_old
from plans import EXAMPLE, EXAMPLE_BYTES, ONE_SIZE, TEN_SIZES, WORKED, changed, flat, flipped, gapped, geometric, lasting_plan, long_plans
from plans import questions, some_chance, some_plan, split, timed_plans
from records import BOUNDS, FULL_NUMBER, Calls
from rules import CLAIMS, HEAD_BYTES, INCOME, LARGEST, LEVEL, MONTHS, MOST_ASKED, NO_HEAD, NUMBER_BITS, OPENING, SIZES, SMALL_INCOME, SMALL_MONTHS
from rules import SMALL_OPENING, SPAN, SURVIVE, WIDTHS, Head, Question, S, all_months, all_openings, bit_length, byte_length, down, month_rule
from rules import opened, places_needed, plan_checks, plan_of, refusal, row_length, workspace_needed, write_bytes

FULL = 2**64 - 1  # the largest number of a head or a question
WIDEST = Head(*(2**width - 1 for width in WIDTHS))  # what a head's fields can say
TAIL_SIZES = OPENING + MONTHS - 1  # the least sizes with which the longest plan of the largest opening may have over
BRIEF = flat(3, 4, 5)  # a plan to damage: three chances, five weights, over
RICH = Head(2, 1, 4, 2), [S // 3, S // 5] + geometric(4)  # two units a month; over is just allowed, and would not be with a larger income
WIDE = flat(20, SPAN - 20 * INCOME, 5, INCOME)  # of the largest span
SEVERAL = range(2, INCOME + 1)  # the incomes above 1

# ---- Calls with a plan in memory


def head_edges():
    """The row is the one that the head asks for, as far as a row can be that long."""
    for n in (0, 1, MONTHS, MONTHS + 1, FULL):
        yield Head(n, 3, 2), flat(min(n, MONTHS + 1), 3, 2)[1]
    for u in (0, 1, OPENING, OPENING + 1, FULL):
        yield Head(2, u, 2), flat(2, u, 2)[1]
    for m in (1, 2, SIZES, SIZES + 1, FULL):
        yield Head(2, 3, m), flat(2, 3, min(m, SIZES + 1))[1]
    yield Head(2, 3, 0), [0, 0, S]
    yield Head(0, 0, 0), [S]
    for c in (0, *SEVERAL, INCOME + 1, 15, 16, 17, 2**32 + 1, FULL):
        yield Head(2, 3, 2, c), flat(2, 3, 2)[1]
    yield NO_HEAD, [S]
    for n, u, c in span_edges():
        yield flat(n, u, c + 1, c)
    for head in WRAPPING:
        yield head, flat(2, 3, 2)[1]


def span_edges():
    """Months, openings and incomes: the span at its limit, one past it, and a month past it; with the largest opening, too."""
    for c in SEVERAL:
        n = min(MONTHS, SPAN // c)
        u = SPAN - c * n
        yield from ((n, u, c), (n, u + 1, c))
        if n < MONTHS:
            yield n + 1, u, c
    for c in (2, INCOME):
        n = (SPAN - OPENING) // c
        yield from ((n, OPENING, c), (n + 1, OPENING, c))


WRAPPING = [  # u + c × n is small, in most of these, where only its last 64 bits are looked at
    Head(2**61, 0, 2, 8),
    Head(2**63, 3, 2, 2),
    Head(FULL, 3, 2, 2),
    Head(2, FULL, 2, 8),
    Head(2, FULL - 8, 2, 8),
    Head(2, 3, 2, 2**63),
    Head(2, 3, 2, 2**62),
    Head(MONTHS, OPENING, 2, 2**64 // MONTHS + 1),
    Head(MONTHS, OPENING, FULL, FULL),
    Head(0, 3, 2, FULL),
    *(Head(*[0] * zeros, *[FULL] * (4 - zeros)) for zeros in range(3)),
    Head(FULL, FULL, 2, 1),
]


def row_edges():
    head, row = BRIEF
    n, length = head.months, len(row)
    for cut in (0, 1, length - 1, length, length + 1):
        yield head, (row + [0])[:cut]
    for at in (0, n - 1, n, length - 2, length - 1):  # the first and last chance, the first and last weight, over
        for x in (S, S + 1, 2**NUMBER_BITS - 1, 2**NUMBER_BITS, FULL_NUMBER):
            yield head, changed(row, at, x)
    for last in (S - 1, S, 1, 0):
        yield head, changed(row, -2, last)
        yield head, row[:n] + [1] * 4 + [last - 4 if last > 4 else 0, 0]
    yield Head(1, 1, 5), [0] + [S] * 5 + [0]  # the weights add to S once 2^32 is taken off
    yield Head(1, 1, 6), [0] + [S - 1] * 4 + [S, 4] + [0]
    yield Head(1, 1, 1), [S, 0, S]


def tail_edges():
    """Over above 0 and none, at m + 1 = u + c × n and around it."""
    small = (1, 2, 2), (1, 3, 2), (1, 4, 2), (0, 3, 2), (0, 4, 2)
    large = (MONTHS, OPENING, TAIL_SIZES), (MONTHS, OPENING, TAIL_SIZES - 1), (MONTHS, OPENING + 1, TAIL_SIZES + 1)
    several = (edge for n, u, c in SPANS for edge in ((n, u, u + c * n - 1, c), (n, u, u + c * n - 2, c)))
    for head in (*small, *large, (5, 0, 4), (6, 0, 4), *several):
        yield flat(*head, tail=1)
        yield flat(*head)


SPANS = (2, 1, 2), (3, 2, 3), (1, 0, 8), (2, 1, 5), (0, 3, 8), (40, 0, 8), (MONTHS, 80, 2)  # months, openings and incomes; the last are the widest


# ---- Asks, for one of the four questions, for failing in a month or for the least opening

Ask = namedtuple("Ask", "head row question room", defaults=[None])  # with no room given, what is needed
ENOUGH = 3000  # numbers of workspace, where the question needs more than can be lent and is refused for its number


def fails(t):
    """Failing in month t, which an ask can have in place of a question."""
    return Question("fails", t)


def least(target):
    """The least opening for a target, in the same way."""
    return Question("least", target)


def number_edges():
    numbers = 0, 1, CLAIMS, CLAIMS + 1, CLAIMS + 2, LEVEL - 1, LEVEL, LEVEL + 1, 2**32, FULL
    for word, number in itertools.product(("both", "high", "low"), numbers):
        question = Question(word, number)
        yield Ask(*BRIEF, question, min(workspace_needed(BRIEF[0], question), ENOUGH))


def room_edges():
    for question in (SURVIVE, Question("both", 0), Question("both", CLAIMS), Question("high", 6), Question("low", 2), fails(1), fails(3)):
        needed = workspace_needed(BRIEF[0], question)
        for room in (0, 1, needed - 1, needed, needed + 1, needed + 40):
            yield Ask(*BRIEF, question, room)
    levels = Question("high", 6), Question("low", 2), Question("low", 0), Question("high", 0)
    asked = SURVIVE, Question("both", 2), *levels, fails(1), fails(7)
    for n, u in ((0, 0), (0, 7), (7, 0), (MONTHS, OPENING)):
        plan = flat(n, u, 3)
        for question in asked:
            needed = workspace_needed(plan[0], question)
            for room in (needed - 1, needed, needed + 1):
                yield Ask(*plan, question, room)
    for n, u, c in SPANS:
        plan = flat(n, u, c + 3, c)
        for question in (SURVIVE, Question("both", 2), MOST_ASKED, *levels, fails(1), fails(n)):
            needed = workspace_needed(plan[0], question)
            for room in (needed - 1, needed, needed + 1, 2 * (u + n + 1)):  # the last is what an income of 1 needs
                yield Ask(*plan, question, room)


def opening_edges():
    """Levels around the opening: high is 0, 0 below it, with no months too, and low does not look at it. With several units a month, levels also
    around those that the first month and the last one end at without a claim."""
    for n, u in itertools.product((0, 1, 3, MONTHS), (0, 1, 5, OPENING)):
        levels = sorted({0, 1, u - 1, u, u + 1, u + n - 1, u + n, LEVEL} - {-1})
        for word, level in itertools.product(("high", "low"), levels):
            yield Ask(*flat(n, u, 2), Question(word, level))
    for n, u, c in ((0, 5, 8), (1, 0, 2), (1, 5, 8), (3, 0, 8), (3, 5, 3), (40, 0, 8), (MONTHS, 80, 2)):
        ends = (x + step for x in (u, u + 1, u + c, u + n, u + c * n) for step in (-1, 0, 1))
        levels = sorted(level for level in {0, 1, *ends, LEVEL} if 0 <= level <= LEVEL)
        for word, level in itertools.product(("high", "low"), levels):
            yield Ask(*flat(n, u, c + 1, c), Question(word, level))
    for n in (0, 3):  # a level below the opening, with workspaces around what is needed
        plan, question = flat(n, 4, 5), Question("high", 3)
        needed = workspace_needed(plan[0], question)
        for room in (0, 1, needed - 1, needed, needed + 1, needed + 40):
            yield Ask(*plan, question, room)
    yield from fault_pairs(Question("high", 3), Question("high", LEVEL + 1))


# What turns a row of BRIEF, or of WIDE, away, by number.
ROW_FAULTS = {
    7: lambda row: changed(row, 0, S + 1),
    8: lambda row: changed(row, -6, 7),
    9: lambda row: changed(changed(row, -1, 1), -2, S - 1),
}

# What turns an ask's plan away, by number, in the order of the checks: each takes an ask to one that the number fits.
PLAN_FAULTS = {
    2: lambda ask: ask._replace(head=ask.head._replace(months=MONTHS + 1)),
    3: lambda ask: ask._replace(head=ask.head._replace(opening=OPENING + 1)),
    4: lambda ask: ask._replace(head=ask.head._replace(sizes=SIZES + 1)),
    16: lambda ask: ask._replace(head=ask.head._replace(income=INCOME + 1)),
    17: lambda ask: ask._replace(head=ask.head._replace(months=MONTHS, income=INCOME)),
    5: lambda ask: ask._replace(row=ask.row + [0]),
    7: lambda ask: ask._replace(row=ROW_FAULTS[7](ask.row)),
    8: lambda ask: ask._replace(row=ROW_FAULTS[8](ask.row)),
    9: lambda ask: ask._replace(row=ROW_FAULTS[9](ask.row)),
}


# Of WIDE alone: past the span with a row that is as long as the head asks.
WIDE_FAULTS = PLAN_FAULTS | {17: lambda ask: ask._replace(head=ask.head._replace(opening=WIDE[0].opening + 1))}


def asking(question):
    return lambda ask: ask._replace(question=question)


def short_room(ask):
    return ask._replace(room=0)


def ask_faults(*refused):
    """What turns an ask away, in the order of the checks: its plan, each of these questions, a workspace too short."""
    return [*PLAN_FAULTS.values(), *map(asking, refused), short_room]


def fault_pairs(question, *refused):
    """Asks that two numbers of the table fit: the earlier one counts. The question is answered, and 10, or 14 in its place, fits each of those
    refused."""
    whole = Ask(*BRIEF, question, workspace_needed(BRIEF[0], question))
    for one, other in itertools.combinations_with_replacement(ask_faults(*refused), 2):
        yield one(other(whole))


def all_fault_pairs():
    yield from fault_pairs(SURVIVE, Question("low", LEVEL + 1))
    yield from fault_pairs(fails(2), fails(0), fails(BRIEF[0].months + 1))


def wide_fault_pairs(whole, *others):
    """Calls on WIDE that 16 or 17 fits, and each of these alone or another number of the plan, or one of these other faults."""
    several = WIDE_FAULTS[16], WIDE_FAULTS[17]
    for one, other in itertools.combinations_with_replacement([*WIDE_FAULTS.values(), *others], 2):
        if one in several or other in several:
            yield one(other(whole))


def month_edges():
    """Months around 1 and n, and numbers that are a month where only their last bits are looked at."""
    of_one = itertools.product((0, 1, 3, MONTHS), (0, 4), [1])
    for n, u, c in (*of_one, (0, 4, 8), (3, 4, 2), (3, 0, 8), (40, 0, 8)):
        for t in sorted({0, 1, n, n + 1, 2**8 + 1, 2**32, 2**32 + 1, FULL}):
            yield Ask(*flat(n, u, c + 4, c), fails(t))


def failing_plans():
    """A chance of 0 or S in one month; all weight on one size or on over, with the least sizes that the tail rule takes. With several units a month
    also all weight around the sizes that leave the first month's fund one unit, none, and less."""
    for u, at, chance in itertools.product((0, 2), range(4), (0, S)):
        yield Head(4, u, 8), changed([S // 2] * 4 + geometric(8), at, chance)
    for n, u, c in ((3, 0, 1), (3, 2, 1), *SPANS[:5]):
        sizes = u + c * n - 1
        for at in range(sizes + 1):
            yield Head(n, u, sizes, c), [S // 3] * n + changed([0] * (sizes + 1), at, S)
    for at, chance in itertools.product(range(3), (0, S)):
        yield Head(3, 2, 10, 3), changed([S // 2] * 3 + geometric(10), at, chance)
    yield from ruin_edges()


def ruin_edges():
    for c, u in itertools.product(SEVERAL, (0, 1, 3)):
        for x in (u + c - 1, u + c, u + c + 1):
            yield Head(2, u, x, c), [S, S // 2] + [0] * (x - 1) + [S, 0]


def every_month():
    for head, row in failing_plans():
        for t in all_months(head):
            yield Ask(head, row, fails(t))


def claim_plans(rng):
    """Every choice of empty sizes among 1 to 4, over taking what none takes; long tables with none, some and nearly all empty, a gap, or ten filled."""
    for m in range(1, 5):
        for empty in itertools.product((False, True), repeat=m):
            shares = iter(split(rng, m - sum(empty), 0) if sum(empty) < m else [])
            weights = [0 if none else next(shares) for none in empty]
            yield Head(m + 1, 0, m), [some_chance(rng) for _ in range(m + 1)] + weights + [S - sum(weights)]
    _, timed = timed_plans()["ten-filled"]
    for table in (*(split(rng, SIZES, empty) for empty in (0, 2, 7)), *(gapped(rng, SIZES) for _ in range(3)), timed[MONTHS : MONTHS + SIZES]):
        yield LARGEST, [some_chance(rng) for _ in range(MONTHS)] + table + [0]


def rounding_plans():
    """Chances and tables whose claim sums leave next to nothing, nearly S, or something between over when they are divided by S."""
    tables = [1, S - 1], [S - 1, 1], [S // 3, S // 3, S - 2 * (S // 3)]
    for n, u, chance, weights in itertools.product((1, 3, MONTHS), (1, 2), (1, S // 3, S // 2, S - 1, S), tables):
        yield Head(n, u, len(weights)), [chance] * n + weights + [0]


# ---- The least opening


def targets_at_bounds(head, row, openings):
    """The lower bounds of these openings, which each of them still reaches, and one more, which takes a larger one, or none does."""
    lowers = {month_rule(opened(plan_of(head, row), v), SURVIVE, down) for v in openings}
    return sorted(target for target in {*lowers, *(lower + 1 for lower in lowers)} if 1 <= target <= S)


def target_edges():
    """From no months and an opening of 0 on; on document 01's example and on BRIEF no opening reaches S."""
    for plan in (EXAMPLE, BRIEF, flat(0, 0, 1), flat(0, 7, 3), flat(3, 0, 2)):
        for target in (0, 1, S, S + 1, FULL_NUMBER):
            yield Ask(*plan, least(target))


def bound_edges():
    """At the bounds of every opening: over above 0 at m + 1 = u + c × n, an opening of 0, and one month with all openings."""
    tailed, lone = (Head(3, 2, 4), [S // 3] * 3 + geometric(4)), (Head(2, 0, 3), [S // 5, S // 7] + geometric(3))
    several = ((Head(3, 3, 3 * c + 2, c), [S // 2, S // 3, S - 1] + geometric(3 * c + 2)) for c in SEVERAL)
    for head, row in (EXAMPLE, BRIEF, tailed, lone, *several):
        for target in targets_at_bounds(head, row, all_openings(head)):
            yield Ask(head, row, least(target))
    head, row = Head(1, OPENING, OPENING), [S] + geometric(OPENING)
    for target in targets_at_bounds(head, row, (0, 9, OPENING - 1, OPENING)):
        yield Ask(head, row, least(target))


def given_up(c):
    """A month in which no level keeps a value, or all keep one part, the first one worked and the last among them."""
    sizes = 3 + 4 * c - 1
    for at, chance, target in itertools.product(range(4), (S, S - 1), (1, 2)):
        yield Ask(Head(4, 3, sizes, c), changed([0] * 4, at, chance) + [0] * sizes + [S], least(target))


def not_given_up(c):
    """Where of the months worked first only levels above the largest opening are good, at times the highest alone, and where none is."""
    for n, more in ((3, -1), (6, -1), (6, 0), (6, 2)):  # one claim, of c × n and so much more, in month n: the fund has to open above that
        x = c * n + more
        for u in range(max(more, 0), more + 4):
            yield Ask(Head(n, u, x, c), [0] * (n - 1) + [S] + [0] * (x - 1) + [S, 0], least(S))
    for n, u in ((4, 4), (4, 5), (4, 6), (5, 2)):  # a unit less in each month: the fund has to open at n + 1
        yield Ask(Head(n, u, c + 1, c), [S] * n + [0] * c + [S, 0], least(S))


def target_rooms():
    """Answered, none and refused with 14, in workspaces around what is needed."""
    needed = workspace_needed(BRIEF[0], SURVIVE)
    for target, room in itertools.product((1, S, 0), (0, 1, needed - 1, needed, needed + 1, needed + 40)):
        yield Ask(*BRIEF, least(target), room)
    for n, u, c in ((0, 0, 1), (0, 7, 1), (7, 0, 1), (MONTHS, OPENING, 1), *SPANS):
        plan = flat(n, u, c, c)
        needed = workspace_needed(plan[0], SURVIVE)
        for room in (needed - 1, needed, needed + 1):
            yield Ask(*plan, least(S), room)


def target_faults():
    for head, row in head_edges():
        yield Ask(head, row, least(1), min(workspace_needed(head, SURVIVE), ENOUGH))
    yield from fault_pairs(least(1), least(0), least(S + 1))
    for fault in ask_faults(least(0)):  # "none" comes after all of them
        yield fault(Ask(*BRIEF, least(S), workspace_needed(BRIEF[0], SURVIVE)))
    several = (2, 1, 4, 2), (2, 1, 3, 2), (1, 0, 7, 8), (1, 0, 6, 8)
    for head in ((1, 2, 2), (1, 3, 2), (0, 3, 2), (0, 4, 2), (5, 0, 4), (6, 0, 4), *several):  # over, at m + 1 = u + c × n and one below
        yield Ask(*flat(*head, tail=1), least(S // 2))


def long_targets(rng):
    """The most months and the largest opening: every opening of a narrow table, of which even the highest falls short of S, or it alone reaches
    S; few openings of wide tables."""
    for target in (1, S // 2, S - S // 100, S):
        yield Ask(*flat(MONTHS, OPENING, 3), least(target))
    yield Ask(Head(MONTHS, OPENING, 3), [0] + [S] * 100 + [0] * (MONTHS - 101) + [0, 0, S, 0], least(S))  # a unit more, 100 times two less
    yield Ask(LARGEST, [0] * MONTHS + geometric(SIZES), least(S))
    for n, u, c in ((40, 0, 8), (15, OPENING, 8), (MONTHS, 80, 2)):
        yield Ask(*flat(n, u, c + 3, c), least(S - S // 100))
    head, row = LARGEST, [rng.randrange(1, S // 25) for _ in range(MONTHS)] + geometric(SIZES)
    for target in targets_at_bounds(head, row, (0, 1)):
        yield Ask(head, row, least(target))


def some_plans(rng):
    """Small and middle ones."""
    for _ in range(12):
        yield some_plan(rng, rng.randrange(1, 5), rng.randrange(5), rng.randrange(1, 8))
    for _ in range(8):
        yield lasting_plan(rng, rng.randrange(1, 6), rng.randrange(1, 8), rng.randrange(2, 9))
    for _ in range(6):
        yield lasting_plan(rng, rng.randrange(8, 20), rng.randrange(8, 20), rng.randrange(5, 20))


def random_targets(rng):
    """At and past the bounds of an opening, and anywhere."""
    for head, row in some_plans(rng):
        for target in (*targets_at_bounds(head, row, [rng.randint(0, head.opening)]), rng.randint(1, S)):
            yield Ask(head, row, least(target))


# ---- All openings

Openings = namedtuple("Openings", "head row room places fill", defaults=[FULL_NUMBER])  # the lengths lent, of the workspace and of the row


def lent(plan, more=0, longer=0, fill=FULL_NUMBER):
    """A call with so many numbers of workspace more than are needed, and so many of the lent row; never more than can be lent."""
    head, row = plan
    room, places = workspace_needed(head, SURVIVE) + more, places_needed(head) + longer
    return Openings(head, row, min(room, ENOUGH), min(places, BOUNDS), fill)


def openings_edges():
    """The funds worked by hand and every edge of heads, rows and tails, in memory that is just long enough."""
    worked = (plan for plan, _ in itertools.groupby((head, row) for head, row, *_ in WORKED))
    return map(lent, itertools.chain(worked, head_edges(), row_edges(), tail_edges()))


def telling_openings():
    """Much over, at m + 1 = u + c × n and one below; survival that starts at one opening, 1 or n + 1; bounds that are far apart."""
    for n, u, m in ((3, 2, 4), (3, 2, 3), (5, 40, 44), (5, 40, 43), (0, 5, 4), (0, 6, 4)):
        yield lent((Head(n, u, m), [S // 3] * n + geometric(m)))
    for c, less in itertools.product(SEVERAL, (1, 2)):
        m = 5 + 3 * c - less
        yield lent((Head(3, 5, m, c), [S // 3] * 3 + geometric(m)))
    yield lent((Head(6, 4, 1), [S] * 6 + ONE_SIZE))
    yield lent((Head(4, 6, 2), [S] * 4 + [0, S, 0]))
    for c in SEVERAL:
        yield lent((Head(4, 6, c + 1, c), [S] * 4 + [0] * c + [S, 0]))
    for head, row in rounding_plans():
        if head.months == MONTHS and head.opening == 2:
            yield lent((head, row))


def lent_edges():
    """Both lent parts around what is needed, none and far longer ones included; no months, an opening of 0, the most months with the largest
    opening; dirty ones."""
    needed, places = workspace_needed(BRIEF[0], SURVIVE), places_needed(BRIEF[0])
    for more, longer in itertools.product((-needed, -1, 0, 1, 40), (-places, -1, 0, 1, 40)):
        yield lent(BRIEF, more, longer)
    for n, u, c in ((0, 0, 1), (0, 7, 1), (7, 0, 1), (MONTHS, OPENING, 1), *SPANS):
        for more, longer in itertools.product((-1, 0, 1), repeat=2):
            yield lent(flat(n, u, c + 2, c), more, longer)
    for fill, lengths in itertools.product((0, 1, S, 2**31, FULL_NUMBER), ((0, 0), (3, 3), (-1, 3), (3, -1))):
        yield lent(EXAMPLE, *lengths, fill)


def no_places(call):
    return call._replace(places=0)


def openings_faults():
    """Calls that two numbers of the table fit, or 11 twice: the earlier one counts. Then each number of a plan with both lent parts too short."""
    whole = Openings(*BRIEF, ENOUGH, BOUNDS)  # long enough, too, for heads past the limits
    for one, other in itertools.combinations_with_replacement([*PLAN_FAULTS.values(), short_room, no_places], 2):
        yield one(other(whole))
    for fault in PLAN_FAULTS.values():
        yield fault(lent(BRIEF, -1, -1))
    yield from wide_fault_pairs(Openings(*WIDE, ENOUGH, BOUNDS), short_room, no_places)


def long_openings(rng):
    """The most months with few openings, the largest opening with few months, many of both, and the largest plans."""
    for n, u, m in ((MONTHS, 0, SIZES), (MONTHS, 1, SIZES), (0, OPENING, SIZES), (1, OPENING, SIZES), (MONTHS - 1, 37, 100), (17, 150, 166)):
        yield some_plan(rng, n, u, m)
    yield LARGEST, [rng.randrange(1, S // 25) for _ in range(MONTHS)] + geometric(SIZES)
    yield from timed_plans().values()


# ---- The engine without rows, on small plans

LARGEST_SMALL = Head(SMALL_MONTHS, SMALL_OPENING, SIZES)


def small_tables(m, with_tail):
    """Weights and over: all on the first size, all on the last, thirds, next to nothing on the first; where over may be above 0, something or all
    on it."""
    yield [S] + [0] * m
    if m > 1:
        yield [0] * (m - 1) + [S, 0]
        yield [S // 3] * (m - 1) + [S - (m - 1) * (S // 3), 0]
        yield [1] + [0] * (m - 2) + [S - 1, 0]
    if with_tail:
        yield geometric(m)
        yield [0] * m + [S]


def small_family():
    """Every head of few months, openings and sizes, each with two tables; these and the chances are taken in turn."""
    chances = itertools.cycle((S // 2, 0, S // 3, S, 1, S - 1, S // 5))
    for n, u, m in itertools.product(range(4), range(4), range(1, 4)):
        tables = itertools.cycle(small_tables(m, m + 1 >= u + n))
        for table in itertools.islice(tables, 2 * (n + u), 2 * (n + u) + 2):
            yield Head(n, u, m), [*itertools.islice(chances, n), *table]


def small_limits():
    """At each limit of a small plan and past it, and with the most sizes."""
    n, u = SMALL_MONTHS, SMALL_OPENING
    for head in ((n, u, 3), (n + 1, u, 3), (n, u + 1, 3), (n + 1, u + 1, 3), (0, u, 3), (0, u + 1, 3), (n, 0, 3), (n + 1, 0, 3)):
        yield flat(*head)
    yield from (flat(n, u, 3, c) for c in (0, *SEVERAL, INCOME + 1))
    yield from (flat(n, u, m) for m in (1, SIZES, SIZES + 1))
    yield from (flat(n, u, u + n - 1, tail=1), flat(n, u, u + n - 2, tail=1), flat(n + 1, u, u + n, tail=1))
    yield from (flat(0, 0, 1, 2), flat(MONTHS, 0, 3), flat(0, OPENING, 3), flat(MONTHS, OPENING, 3))


def small_numbers():
    """Numbers around the limits of a question, and some that are within them where only their last bits are looked at."""
    numbers = 0, CLAIMS, CLAIMS + 1, 2**8, LEVEL, LEVEL + 1, 2**32, 2**32 + 1, FULL
    for plan, word, number in itertools.product((BRIEF, flat(0, 0, 1)), ("both", "high", "low"), numbers):
        yield Ask(*plan, Question(word, number))


def one_month_more(ask):
    """Than a small plan may have, with a row as long as the head asks."""
    n = ask.head.months
    more = [S // 2] * (SMALL_MONTHS + 1 - n)
    return ask._replace(head=ask.head._replace(months=SMALL_MONTHS + 1), row=ask.row[:n] + more + ask.row[n:])


# What is only too large for the engine without rows, which leaves the plan accepted.
TOO_LARGE = [
    one_month_more,
    lambda ask: ask._replace(head=ask.head._replace(opening=SMALL_OPENING + 1)),
    lambda ask: ask._replace(head=ask.head._replace(income=SMALL_INCOME + 1)),
]


def small_faults():
    """10 of every kind, for the question and for the plan, alone, in pairs and with each number of the plan, of which the earlier one counts; these
    in pairs too."""
    asked = Question("both", CLAIMS + 1), Question("high", LEVEL + 1), Question("low", LEVEL + 1)
    for question in (SURVIVE, Question("both", 1), Question("high", 3), Question("low", 2)):
        whole = Ask(*BRIEF, question)
        for large, fault in itertools.product(TOO_LARGE, PLAN_FAULTS.values()):
            yield fault(large(whole))
        yield from (one(other(whole)) for one, other in itertools.combinations_with_replacement(TOO_LARGE, 2))
    whole = Ask(*BRIEF, SURVIVE)
    for question in map(asking, asked):
        yield from (question(fault(whole)) for fault in (*TOO_LARGE, *PLAN_FAULTS.values()))
    yield from (one(other(whole)) for one, other in itertools.combinations_with_replacement(PLAN_FAULTS.values(), 2))
    yield from wide_fault_pairs(Ask(*WIDE, SURVIVE), asking(asked[0]))


def plain_edges():
    """Heads, rows and questions: the funds worked by hand, every edge, and plans whose bounds rounding twice a month would change."""
    yield from (one[:3] for one in WORKED)
    yield from ((*plan, question) for plan in small_family() for question in questions(plan[0]))
    yield from ((*plan, Question("both", 1)) for plan in itertools.chain(head_edges(), row_edges(), tail_edges()))
    asked = SURVIVE, Question("both", 1), Question("high", 8), Question("low", 2)
    yield from ((*plan, question) for plan, question in itertools.product(small_limits(), asked))
    yield from (ask[:3] for ask in itertools.chain(small_numbers(), small_faults()))
    yield from ((*plan, SURVIVE) for plan in rounding_plans() if plan[0].months <= SMALL_MONTHS)


def largest_small_plans(rng):
    """As many months, as high an opening and as many sizes as there can be, with no size empty and with ten filled; over above 0 in the first."""
    shares = dict(zip(TEN_SIZES, split(rng, len(TEN_SIZES), 0)))
    ten_filled = [shares.get(x, 0) for x in range(1, SIZES + 1)] + [0]
    mixed = [S // 3, S - 1, 0, rng.randrange(S), 1, S]
    for chances, table in itertools.product(([0] * 6, [S] * 6, mixed), (split(rng, SIZES + 1, 0), ten_filled)):
        yield LARGEST_SMALL, chances + table


# ---- Plan bytes


def last_bit_flipped(data):
    return flipped(data, 8 * len(data) - 1)


def damaged(data):
    """Every length, and every bit turned over."""
    for length in range(len(data) + 2):
        yield (data + b"\0")[:length]
    for bit in range(8 * len(data)):
        yield flipped(data, bit)


def head_byte_edges():
    """Heads at the limits and one past them, each at its length, one byte longer and one shorter."""
    past = (LARGEST._replace(**{name: most + 1}) for name, most in LARGEST._asdict().items())
    incomes = Head(40, 0, SIZES, INCOME), Head(40, 1, SIZES, INCOME), Head(40, 0, SIZES, INCOME + 1), LARGEST._replace(income=0)
    for head in (LARGEST, *past, WIDEST, LARGEST._replace(sizes=0), Head(0, 0, 1), Head(0, 0, 0), *incomes, NO_HEAD):
        plain = write_bytes(head, ([0] * head.months + [S] + [0] * head.sizes)[: row_length(head)])
        yield from (plain, plain + b"\0", plain[:-1])
    yield b"\xff" * (byte_length(LARGEST) + 1)


def row_byte_edges():
    longest = (MONTHS, OPENING, TAIL_SIZES), (MONTHS, OPENING, TAIL_SIZES - 1)
    several = (2, 1, 4, 2), (2, 1, 3, 2), (1, 0, 7, 8), (1, 0, 6, 8), (40, 0, 319, 8), (40, 0, 318, 8)
    for head in ((1, 2, 2), (1, 3, 2), (0, 3, 2), (0, 4, 2), *longest, *several):  # over, at m + 1 = u + c × n and one below
        yield write_bytes(*flat(*head, tail=1))
    head, row = BRIEF
    for one, other in itertools.combinations(ROW_FAULTS, 2):
        data = write_bytes(head, ROW_FAULTS[one](ROW_FAULTS[other](row)))
        yield from (data, last_bit_flipped(data))  # the second has a fill bit as well


def income_byte_edges():
    """Every income that the bits of a head can say; the span at its limit and past it; 3 and 4 bytes of heads that are refused; pairs of numbers; and
    plans as they were written before they had an income, which are bytes like any others."""
    for head, row in (BRIEF, RICH):
        yield from (write_bytes(head._replace(income=c), row) for c in range(2 ** WIDTHS.income))
    yield from (write_bytes(*flat(n, u, 1, c)) for n, u, c in span_edges())
    for number in (2, 3, 4, 16, 17):
        data = write_bytes(*PLAN_FAULTS[number](Ask(*BRIEF, SURVIVE))[:2])
        yield from (data[: HEAD_BYTES - 1], data[:HEAD_BYTES])
    yield from (b"\xff" * length for length in range(1, HEAD_BYTES + 1))
    for head, row, *_ in wide_fault_pairs(Ask(*WIDE, SURVIVE)):
        data = write_bytes(head, row)
        yield from (data, last_bit_flipped(data), data[:-1])  # the last two have a fill bit as well, or are too short
    for plan in (EXAMPLE, BRIEF, flat(0, 0, 1), flat(3, 4, 6, tail=1), flat(MONTHS, OPENING, 3), (Head(4, 3, 8), [S // 3] * 4 + geometric(8))):
        yield write_old(*plan)


# ---- All calls of `vectors`, in their order


def add_edges(calls):
    for head, row, question, *_ in WORKED:
        calls.ask(head, row, question)
    for head, row in itertools.chain(head_edges(), row_edges(), tail_edges()):
        for question in (Question("both", 1), fails(1)):
            calls.ask(head, row, question, room=min(workspace_needed(head, question), ENOUGH))
        calls.count(head, row)
        calls.write(head, row, room=4 if refusal(plan_checks(head, row)) else byte_length(head))
    for ask in itertools.chain(number_edges(), room_edges(), all_fault_pairs(), month_edges(), every_month()):
        calls.ask(*ask)
    for data in itertools.chain(damaged(EXAMPLE_BYTES), head_byte_edges(), row_byte_edges()):
        calls.read(data)


def add_lent_memory(calls, plan):
    """What a lent part held before, and its length around what is needed, on a plan of two months."""
    head, data = plan[0], write_bytes(*plan)
    for fill in (0, 1, S, 2**31, FULL_NUMBER):
        for question in (SURVIVE, Question("both", 2), Question("high", 2), Question("low", 2), fails(1), fails(2)):
            calls.ask(*plan, question, workspace_needed(head, question) + 3, fill)
        calls.read(data, row_length(head), fill)
        for more in (-row_length(head), -1, 1, 4):
            calls.read(data, row_length(head) + more, fill)
            calls.write(*plan, byte_length(head) + more, fill % 256)


def add_random_asks(calls, rng, head, row, asked):
    for question in asked:
        calls.ask(head, row, question, workspace_needed(head, question) + rng.randrange(3), rng.getrandbits(32))


def add_small_plan(calls, rng, own, head, row):
    """All questions and months. Failing has random numbers of its own, on which no plan and no question hangs."""
    add_random_asks(calls, rng, head, row, questions(head))
    add_random_asks(calls, own, head, row, map(fails, all_months(head)))


def add_bytes(calls, head, row):
    calls.write(head, row, byte_length(head) + 1)
    calls.read(write_bytes(head, row), row_length(head) + 1)


def add_long_plan(calls, rng, own, head, row, most=CLAIMS):
    """Some questions and months, both up to this many claims."""
    calls.count(head, row)
    add_bytes(calls, head, row)
    levels = Question("high", head.opening + head.income * head.months // 2), Question("low", head.opening // 2)
    add_random_asks(calls, rng, head, row, (SURVIVE, *levels, Question("both", 3), Question("both", most)))
    n = head.months
    add_random_asks(calls, own, head, row, (fails(t) for t in (1, 2, n // 2, n - 1, n) if t in all_months(head)))


def add_random_plans(calls, rng, own):
    for _ in range(40):
        add_small_plan(calls, rng, own, *some_plan(rng, rng.randrange(5), rng.randrange(5), rng.randrange(1, 8)))
    for head, row in long_plans(rng):
        add_long_plan(calls, rng, own, head, row)


def add_openings(calls):
    for ask in opening_edges():
        calls.ask(*ask)
    for fill in (0, 1, S, 2**31, FULL_NUMBER):
        calls.ask(*BRIEF, Question("high", 3), workspace_needed(BRIEF[0], SURVIVE) + 3, fill)


def add_claim_sums(calls, rng):
    """Ranges from none to all values, and one past them."""
    for head, row in claim_plans(rng):
        n = head.months
        for count in sorted({*range(6), n // 2, n - 1, n, n + 1, FULL}):
            calls.claims(head, row, count)
    head, row = BRIEF
    for fault in ROW_FAULTS.values():
        calls.claims(head, fault(row), 2)
    calls.claims(head._replace(months=MONTHS + 1), row, 2)
    calls.claims(head, row[:-1], 2)
    for c in (0, *SEVERAL, INCOME + 1):  # the sum is the same whatever the income
        calls.claims(head._replace(income=c), row, 5)
    calls.claims(head._replace(months=MONTHS, income=INCOME), row, 2)


def add_roundings(calls):
    for head, row in rounding_plans():
        for question in (SURVIVE, Question("both", 1), fails(head.months)):
            calls.ask(head, row, question)


def add_least_openings(calls, rng):
    late = (edges(c) for edges in (given_up, not_given_up) for c in (1, 2, 5))
    edges = target_edges(), bound_edges(), *late, target_rooms(), target_faults()
    for ask in itertools.chain(*edges, long_targets(rng)):
        calls.ask(*ask)
    for fill, target in itertools.product((0, 1, S, 2**31, FULL_NUMBER), (1, S, 0)):
        calls.ask(*EXAMPLE, least(target), workspace_needed(EXAMPLE[0], SURVIVE) + 3, fill)
    for head, row, question, _ in random_targets(rng):
        add_random_asks(calls, rng, head, row, [question])


def add_random_openings(calls, rng, plan):
    calls.openings(*lent(plan, rng.randrange(3), rng.randrange(3), rng.getrandbits(32)))


def add_all_openings(calls, rng):
    """The last plans that have few openings are asked for each as well, so that the lines stand side by side."""
    for call in itertools.chain(openings_edges(), telling_openings(), lent_edges(), openings_faults()):
        calls.openings(*call)
    for plan in itertools.chain(long_openings(rng), some_plans(rng)):
        add_random_openings(calls, rng, plan)
    for head, row in some_plans(rng):
        add_random_openings(calls, rng, (head, row))
        for opening in all_openings(head) if head.opening < 6 else ():
            add_random_asks(calls, rng, head._replace(opening=opening), row, [SURVIVE])


def small_income_plans(rng, c):
    """With claims that can ruin."""
    for n in range(4):
        u = rng.randrange(4)
        yield some_plan(rng, n, u, rng.randint(c, u + c * n + c), c)


def long_income_plans(rng, c):
    """A middle one, and one of the most months with this income and then the largest opening, no size empty and over above 0."""
    yield lasting_plan(rng, rng.randrange(8, 20), rng.randrange(1, 8), rng.randrange(c, 5 * c), c)
    n = min(MONTHS, SPAN // c)
    yield Head(n, SPAN - c * n, SIZES, c), [rng.randrange(S * c // SIZES) for _ in range(n)] + split(rng, SIZES + 1, 0)


def add_income(calls, rng, c):
    """Every kind of call with this income."""
    for head, row in small_income_plans(rng, c):
        calls.count(head, row)
        add_bytes(calls, head, row)
        calls.claims(head, row, head.months)
        add_small_plan(calls, rng, rng, head, row)
        add_random_asks(calls, rng, head, row, map(least, targets_at_bounds(head, row, all_openings(head))))
        add_random_openings(calls, rng, (head, row))
    for head, row in long_income_plans(rng, c):
        add_long_plan(calls, rng, rng, head, row, CLAIMS if c in (3, INCOME) else 5)
        add_random_asks(calls, rng, head, row, map(least, targets_at_bounds(head, row, [0])))
        add_random_openings(calls, rng, (head, row))


def add_incomes(calls, rng):
    """Of several units a month; the edges above have more of them."""
    for head, row in ruin_edges():
        calls.ask(head, row, SURVIVE)
    for question, refused in ((SURVIVE, Question("both", CLAIMS + 1)), (fails(1), fails(0)), (least(1), least(0))):
        whole = Ask(*WIDE, question, workspace_needed(WIDE[0], question))
        for ask in (whole, *wide_fault_pairs(whole, asking(refused), short_room)):
            calls.ask(*ask)
    for head, row, *_ in wide_fault_pairs(Ask(*WIDE, SURVIVE)):
        calls.count(head, row)
        calls.write(head, row, 4)
    for data in itertools.chain(damaged(write_bytes(*RICH)), income_byte_edges()):
        calls.read(data)
    for fault in (WIDE_FAULTS[16], WIDE_FAULTS[17]):
        calls.read(write_bytes(*fault(Ask(*WIDE, SURVIVE))[:2]), 0)
    add_lent_memory(calls, RICH)
    for fill, target in itertools.product((0, 1, S, 2**31, FULL_NUMBER), (1, S, 0)):
        calls.ask(*RICH, least(target), workspace_needed(RICH[0], SURVIVE) + 3, fill)
    for fill, lengths in itertools.product((0, 1, S, 2**31, FULL_NUMBER), ((0, 0), (3, 3), (-1, 3), (3, -1))):
        calls.openings(*lent(RICH, *lengths, fill))
    for c in range(1, INCOME + 1):
        add_income(calls, rng, c)


def add_plain(calls, rng):
    """The engine without rows; beside it the main engine, on the largest plans that both take and on random ones."""
    for edge in plain_edges():
        calls.plain(*edge)
    random_ones = (some_plan(rng, rng.randint(4, 6), rng.randrange(7), rng.randrange(1, 20)) for _ in range(4))
    for head, row in itertools.chain(largest_small_plans(rng), random_ones):
        for question in questions(head):
            calls.plain(head, row, question)
            if question.number % 3 == 0:
                calls.ask(head, row, question)


def all_calls():
    calls = Calls()
    add_edges(calls)
    add_lent_memory(calls, EXAMPLE)
    add_random_plans(calls, random.Random(1), random.Random(5))
    add_claim_sums(calls, random.Random(7))
    add_openings(calls)
    add_roundings(calls)
    add_least_openings(calls, random.Random(11))
    add_all_openings(calls, random.Random(13))
    add_incomes(calls, random.Random(17))
    add_plain(calls, random.Random(23))
    return calls


def repeated_calls(question, times, plan):
    """One question on a plan, or all openings, over and over, to time it."""
    head, row = plan
    number = places_needed(head) if question.word == "openings" else question.number
    calls = Calls()
    calls.use(row)
    for _ in range(times):
        calls.record(question.word, head, number, workspace_needed(head, question))
    return calls


# ---- Plans whose whole report is held to these rules


def refused_bytes():
    """Plan bytes that the numbers 1 to 9, 16 and 17 turn away, in the order of the checks."""
    head, row = BRIEF
    good, longest = write_bytes(head, row), write_bytes(*flat(*LARGEST))
    yield from (b"", good[: HEAD_BYTES - 1])
    yield write_bytes(*flat(MONTHS + 1, 4, 5))
    yield write_bytes(*flat(3, OPENING + 1, 5))
    yield write_bytes(*flat(3, 4, SIZES + 1))
    yield write_bytes(Head(3, 4, 0), row[:3] + [S])
    yield from (write_bytes(*flat(3, 4, 5, c)) for c in (0, INCOME + 1, 15))
    yield write_bytes(*flat(MONTHS, OPENING, 5, INCOME + 1))
    yield from (write_bytes(*flat(*head)) for head in ((40, 1, 5, INCOME), (41, 0, 5, INCOME), (MONTHS, 81, 5, 2), (MONTHS, OPENING, SIZES, 2)))
    yield write_bytes(*flat(40, 1, 5, INCOME))[:HEAD_BYTES]
    yield from (good[:HEAD_BYTES], good[:-1], good + b"\0", longest[:-1], longest + b"\0", longest * 2)
    yield last_bit_flipped(good)
    yield flipped(EXAMPLE_BYTES, bit_length(EXAMPLE[0]))  # the first of the fill bits
    for at in (0, 3, 8):  # a chance, a weight, over
        yield write_bytes(head, changed(row, at, S + 1))
    yield from (write_bytes(head, changed(row, 7, S - 1)), write_bytes(head, changed(row, 8, 1)))
    yield write_bytes(*flat(3, 4, 5, tail=1))
    yield write_bytes(*flat(2, 1, 3, 2, tail=1))


def reported_plans(rng):
    """Accepted plans of one unit a month, from the smallest to the largest."""
    yield from (EXAMPLE, (Head(0, 0, 1), ONE_SIZE), flat(0, 7, 3), flat(0, 7, 6, tail=S // 3), flat(1, 0, 1), flat(3, 4, 6, tail=1))
    for u, chance in itertools.product((0, 9), (0, S)):
        yield Head(12, u, 6), [chance] * 12 + split(rng, 6, 0) + [0]
    around_claims = (CLAIMS - 1, 12, 5), (CLAIMS, 0, 30), (CLAIMS + 1, 10, CLAIMS + 10)  # where the lines of both end at n and at CLAIMS
    for n, u, m in ((1, OPENING, SIZES), (MONTHS, 0, 1), *around_claims, (36, 20, 12)):
        yield some_plan(rng, n, u, m)
    yield Head(30, 15, 50), [rng.randrange(S // 4) for _ in range(30)] + geometric(50)
    yield LARGEST, [rng.randrange(1, S // 25) for _ in range(MONTHS)] + split(rng, SIZES + 1, 0)


def reported_incomes(rng):
    """Accepted plans of several units a month, the last ones of the largest span."""
    yield from (RICH, flat(0, 3, 2, INCOME), flat(1, 0, 1, 2), flat(1, 0, 2, 2), flat(2, 1, 16, INCOME, tail=S // 3))
    for c in SEVERAL:
        yield some_plan(rng, rng.randint(2, 6), rng.randrange(6), rng.randint(c, 4 * c), c)
    yield lasting_plan(rng, CLAIMS + 6, 20, 12, 3)
    yield some_plan(rng, 15, OPENING, 10, INCOME)
    yield Head(40, 0, SIZES, INCOME), [rng.randrange(1, S // 5) for _ in range(40)] + split(rng, SIZES + 1, 0)


def reported_bytes():
    yield from refused_bytes()
    for head, row in itertools.chain(reported_plans(random.Random(3)), reported_incomes(random.Random(19))):
        yield write_bytes(head, row)


# ---- Plans whose whole tree is held to these rules


def numbered(word, *numbers):
    return [Question(word, number) for number in numbers]


FILLED = Head(SMALL_MONTHS, SMALL_OPENING, 13), [S // 3] * SMALL_MONTHS + geometric(13)  # no size empty, more sizes than levels
BETWEEN = Head(4, 3, 6), [S // 2, S // 5, 1, S - 1] + [0, S // 2, 0, 0, S // 2, 0, 0]  # most sizes empty


def edge_trees():
    """No months, an opening of 0, months in which no claim or a claim is sure to come, over, empty sizes, and numbers that rounding twice a month
    would change."""
    asked = (SURVIVE, *numbered("both", 0, 1), *numbered("high", 2, 3), *numbered("low", 5))
    yield from ((question, flat(0, 3, 2)) for question in asked)
    yield SURVIVE, (Head(0, 0, 1), ONE_SIZE)
    for question in (SURVIVE, *numbered("both", 1), *numbered("high", 0), *numbered("low", 2)):
        yield question, (Head(3, 0, 2), [S // 2, S // 3, S - 1, 1, S - 1, 0])
    for chances in ([0] * 3, [S] * 3, [S, 0, S // 3], [0, 1, S]):
        for question in (SURVIVE, *numbered("both", 1)):
            yield question, (Head(3, 2, 3), chances + [S // 4, S // 2, S // 4, 0])
    yield SURVIVE, (Head(2, 1, 2), [S // 2, S // 3] + geometric(2))
    yield SURVIVE, (Head(2, 1, 2), [S // 2, S // 3, 0, 0, S])
    for question in (SURVIVE, *numbered("both", 2), *numbered("high", 4), *numbered("low", 3)):
        yield question, BETWEEN
    for weights in ([1, S - 1], [S // 3, S // 3, S - 2 * (S // 3)]):
        yield SURVIVE, (Head(3, 2, len(weights)), [S - 1] * 3 + weights + [0])


def large_trees(rng):
    """As large as can be; levels that are forbidden in the middle, and high below the opening."""
    for question in (SURVIVE, *numbered("both", 0, 6, CLAIMS), *numbered("high", 5, 6, 8), *numbered("low", 4, 7, LEVEL)):
        yield question, FILLED
    *_, wide, ten_filled = largest_small_plans(rng)
    yield from ((question, wide) for question in (SURVIVE, *numbered("both", 3), *numbered("high", LEVEL)))
    yield from ((question, ten_filled) for question in numbered("low", 3))


def small_bytes():
    """A question and plan bytes: document 01's example first, last what is refused; 10 for the question comes after each number of reading."""
    for question in (SURVIVE, *numbered("both", 0, 1, 2, 3), *numbered("high", 0, 1, 2, 3, 4), *numbered("low", 0, 1, 2, 3)):
        yield question, EXAMPLE_BYTES
    for question, plan in itertools.chain(edge_trees(), large_trees(random.Random(29))):
        yield question, write_bytes(*plan)
    for data in refused_bytes():
        if len(data) <= byte_length(LARGEST_SMALL):
            yield Question("both", CLAIMS + 1), data
    for large in TOO_LARGE:
        yield SURVIVE, write_bytes(*large(Ask(*BRIEF, SURVIVE))[:2])
    for question in (*numbered("both", CLAIMS + 1), *numbered("high", LEVEL + 1), *numbered("low", LEVEL + 1, FULL_NUMBER)):
        yield question, EXAMPLE_BYTES
