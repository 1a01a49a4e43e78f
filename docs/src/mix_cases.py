"""The inputs of the test program `mixtures`: both sides of each limit, every pair of refusals that meet, random mixes, the reports of mix bytes, and
source document 004's model."""
import itertools
import random
from collections import namedtuple

from cases import BRIEF, ENOUGH, FULL, PLAN_FAULTS, RICH, SPANS, Ask, last_bit_flipped
from exchangeable import MODEL_MONTHS, exchangeable_survival, model_mix
from mixes import PLANS, MixAsk, mix_bytes, weights_end, write_mix
from plans import EXAMPLE, ONE_SIZE, changed, flat, flipped, geometric, lasting_plan, questions, some_chance, some_plan, split, timed_plans
from records import FULL_NUMBER, MIX_BYTES, MIX_ROW, WORKSPACE, MixCalls
from rules import CLAIMS, HEAD_BYTES, INCOME, LARGEST, LEVEL, MONTHS, MOST_ASKED, NO_HEAD, OPENING, SIZES, SURVIVE, Head, Question, S, byte_length
from rules import largest_level, row_length, workspace_needed, write_bytes
from sheet_cases import decimal
from sheets import LEVEL_KIND, Sheet, made_plan, write_sheet

COUNTS = range(1, PLANS + 1)
TAILED = Head(2, 1, 4), [S // 3, S // 5] + geometric(4)  # over above 0, and still allowed with a month, a unit to open with or a unit of income more

# ---- What a call is given

RUBBISH_HEADS = [Head(FULL, FULL, FULL, FULL), NO_HEAD, BRIEF[0], Head(MONTHS + 1, 0, 1), Head(0, 0, 1), LARGEST, Head(0, 0, SIZES + 1), BRIEF[0]]
RUBBISH_WEIGHTS = [FULL_NUMBER, 1, S, 2**31, S - 1, 7, FULL_NUMBER, 3]


def filled_up(some, rubbish):
    """To eight, "those past the count not looked at"."""
    return [*some, *rubbish[len(some) :]]


def mix_ask(weights, plans, question=SURVIVE, more=0):
    """Plans are heads and rows; the workspace has so many numbers more than are needed, but never more than can be lent."""
    heads, rows = zip(*plans)
    room = min(max(workspace_needed(heads[0], question) + more, 0), ENOUGH if question.number > CLAIMS else WORKSPACE)
    return MixAsk(len(heads), filled_up(heads, RUBBISH_HEADS), filled_up(weights, RUBBISH_WEIGHTS), list(itertools.chain(*rows)), question, room)


def with_chances(plan, chances):
    head, row = plan
    return head, list(chances) + row[head.months :]


def varied(plan, count=PLANS):
    """Alike but for their chances: S/2, S/3, .. in the first month, and one part more in each later one."""
    return [with_chances(plan, [S // (i + 2) + t for t in range(plan[0].months)]) for i in range(count)]


def moved(row, one, other):
    """A part of one number is the other's."""
    return changed(changed(row, one, row[one] - 1), other, row[other] + 1)


def even(count):
    """Weights that add to S, as even as can be."""
    return [S // count] * (count - 1) + [S - S // count * (count - 1)]


def halved(count):
    """S/2, S/4, .. and the last one twice."""
    return [S >> i for i in range(1, count)] + [S >> (count - 1)]


# ---- Counts and weights


def count_edges():
    """Every count, with rubbish past it and with heads as good as the others, and with the row of all eight plans; then counts that there are not,
    with good plans, with refused ones, and with a refused question or workspace."""
    eight = varied(BRIEF)
    for count in COUNTS:
        yield mix_ask(even(count), varied(BRIEF, count))
        yield mix_ask(even(count), varied(BRIEF, count))._replace(heads=[BRIEF[0]] * PLANS, weights=even(count) + [S] * (PLANS - count))
        yield mix_ask(even(PLANS), eight)._replace(count=count, weights=filled_up(even(count), RUBBISH_WEIGHTS))  # the row is that of all eight
        yield mix_ask(even(PLANS), eight)._replace(count=count)
    for count in (0, PLANS + 1, 10, 15, 16, 17, 255, 2**8, 2**8 + 1, 2**32, 2**32 + 1, 2**63 + 2, FULL):
        whole = mix_ask(even(PLANS), eight)._replace(count=count)
        yield from (whole, whole._replace(row=[]), whole._replace(heads=RUBBISH_HEADS), whole._replace(weights=RUBBISH_WEIGHTS))
        yield from (whole._replace(question=Question("both", CLAIMS + 1)), whole._replace(room=0))


def weight_edges():
    """All on one plan; none; one part more and less than S; above S; sums that are S only in their last 32 bits, or with weights past the count."""
    for count in COUNTS:
        plans = varied(RICH, count)
        for at in range(count):
            yield mix_ask(changed([0] * count, at, S), plans)
        for at, wrong in itertools.product(sorted({0, count - 1}), (S - 1, S + 1, FULL_NUMBER)):
            yield mix_ask(changed([0] * count, at, wrong), plans)
        yield mix_ask([0] * count, plans)
        yield mix_ask([FULL_NUMBER] * count, plans)
        for step in (-1, 1):
            yield mix_ask(changed(even(count), count - 1, even(count)[-1] + step), plans)
        yield mix_ask(even(count), plans)._replace(weights=even(PLANS))
    several = [2**31, 2**31, S], [S, 2**31, 2**31], [S] * 5, [2**31] * 6 + [S], [2**31] * 7 + [3 * S], [FULL_NUMBER] * 7 + [S + 7]
    for wrapped in ([FULL_NUMBER, S + 1], [S + 1, FULL_NUMBER], *several):
        yield mix_ask(wrapped, varied(RICH, len(wrapped)))
    yield mix_ask([S - 7] + [1] * 7, varied(RICH))
    yield mix_ask([1] * 7 + [S - 7], varied(RICH))
    for part in (S // 2, S // 2 + 1):  # with what stands past the count they make up S
        yield mix_ask([part], varied(RICH, 1))._replace(weights=[part, S - part, *[0] * 6])


# ---- Rows


def row_edges():
    """Cut at each plan's end, one before it and one after; one number taken out of a plan's part, or one more put in; far too long."""
    for count in (1, 2, 3, PLANS):
        whole = mix_ask(even(count), varied(BRIEF, count))
        one = row_length(BRIEF[0])
        row = whole.row + [0] * (one + 1)
        for ends, step in itertools.product(range(count + 1), (-1, 0, 1)):
            yield whole._replace(row=row[: max(one * ends + step, 0)])
        yield from (whole._replace(row=row), whole._replace(row=row[: one * (count + 1)]))
        for at in sorted({0, count // 2, count - 1}):
            yield whole._replace(row=whole.row[: one * at] + whole.row[one * at + 1 :])
            yield whole._replace(row=whole.row[: one * at] + [0] + whole.row[one * at :])
    yield mix_ask([S], [BRIEF])._replace(row=BRIEF[1] + [0] * (MIX_ROW - len(BRIEF[1])))
    yield mix_ask(even(PLANS), varied(flat(*LARGEST)))._replace(row=[0] * MIX_ROW)


def longer_heads():
    """A head that asks for one number more or one less than its part of the row has, in each place."""
    head, row = TAILED
    for at, (field, step) in itertools.product(range(3), itertools.product(("months", "sizes"), (-1, 1))):
        heads = changed([head] * 3, at, head._replace(**{field: getattr(head, field) + step}))
        yield mix_ask(even(3), zip(heads, [row] * 3))


# ---- Plans unlike elsewhere than in their chances


def unlike_plans():
    """TAILED, another in one field or in two, with a row as its head asks: each is accepted by itself."""
    head, row = TAILED
    chances, table = row[:2], row[2:]
    yield head._replace(months=3), [*chances, S // 7] + table
    yield head._replace(months=1), chances[:1] + table
    for opening in (0, 2):
        yield head._replace(opening=opening), row
    yield head._replace(income=2), row
    yield head._replace(sizes=5), chances + [*table[:-1], 0, table[-1]]
    yield head._replace(sizes=3), chances + [*table[:3], table[3] + table[4]]
    yield head._replace(months=3, sizes=3), [*chances, 0] + [*table[:3], table[3] + table[4]]  # rows as long as before
    yield head._replace(months=1, sizes=5), chances[:1] + [*table[:-1], 0, table[-1]]
    for one, step in itertools.product(range(5), (1, 2)):  # a part of one weight, or of over, is another's
        yield head, chances + moved(table, one, (one + step) % 5)
    yield head, chances + table[::-1]


def unlike_edges():
    """In each place of a mix of two, three and eight; a weight of 0 does not help. Then alike again: equal plans, and chances that differ."""
    for count in (2, 3, PLANS):
        plans = varied(TAILED, count)
        for at, other in itertools.product(sorted({0, count // 2, count - 1}), unlike_plans()):
            yield mix_ask(even(count), changed(plans, at, other))
        for other in unlike_plans():
            yield mix_ask(changed([0] * count, 0, S), changed(plans, count - 1, other))
    for other in unlike_plans():
        yield mix_ask([S], [other])
        yield mix_ask(even(2), [other, other])
        yield mix_ask(even(4), [TAILED, TAILED, other, other])


# ---- Every pair of refusals that meet

ALIKE = Head(3, 4, 5), [S // 2] * 3 + [S // 2, 0, 0, 0, S // 2, 0]  # over is not allowed
Parts = namedtuple("Parts", "count weights plans question room cut")  # before the rows are put end to end: `cut` has the plans not held whole


def whole_parts(count):
    return Parts(count, even(count), varied(ALIKE, count), SURVIVE, workspace_needed(ALIKE[0], SURVIVE), [])


def cut_row(rows, cut):
    """End to end, or up to one number before the end of the first that is not held whole."""
    whole = rows[: min(cut)] if cut else rows
    part = rows[min(cut)][: row_length(ALIKE[0]) - 1] if cut else []
    return [*itertools.chain(*whole), *part]


def assembled(parts):
    _, rows = zip(*parts.plans)
    return mix_ask(parts.weights, parts.plans, parts.question)._replace(count=parts.count, row=cut_row(rows, parts.cut), room=parts.room)


# What turns a plan away, by number, in the order of the checks: the head and the row after it. 5 is not here, for it takes the rows together.
ALIKE_FAULTS = {
    2: lambda head, row: (head._replace(months=MONTHS + 1), row),
    3: lambda head, row: (head._replace(opening=OPENING + 1), row),
    4: lambda head, row: (head._replace(sizes=SIZES + 1), row),
    16: lambda head, row: (head._replace(income=INCOME + 1), row),
    17: lambda head, row: (head._replace(months=MONTHS, income=INCOME), row),
    7: lambda head, row: (head, changed(row, 0, S + 1)),
    8: lambda head, row: (head, changed(row, 4, row[4] + 7)),
    9: lambda head, row: (head, moved(row, 7, 8)),
}


def at_plan(at, change):
    """A change to one plan's head and row."""
    return lambda parts: parts._replace(plans=changed(parts.plans, at, change(*parts.plans[at])))


def plan_faults(at, is_last):
    """The numbers of one plan, each with what it takes; the row can be too long for the last alone."""
    for number in (2, 3, 4, 16, 17):
        yield number, at_plan(at, ALIKE_FAULTS[number])
    yield 5, lambda parts: parts._replace(cut=[*parts.cut, at])
    if is_last:
        yield 5, at_plan(at, lambda head, row: (head, row + [0]))
    for number in (7, 8, 9):
        yield number, at_plan(at, ALIKE_FAULTS[number])


def mix_faults(count, places):
    """In the order of the checks: the count, the plans in these places, what the plans are together, the question, the workspace."""
    for wrong in (0, PLANS + 1):
        yield 18, lambda parts, wrong=wrong: parts._replace(count=wrong)
    for at in places:
        yield from plan_faults(at, at == count - 1)
    yield 18, at_plan(count - 1, lambda head, row: (head._replace(opening=head.opening + 1), row))
    yield 18, at_plan(count - 1, lambda head, row: (head, moved(row, 3, 5)))
    yield 18, lambda parts: parts._replace(weights=changed(parts.weights, 0, parts.weights[0] - 1))
    for asked in (Question("both", CLAIMS + 1), Question("low", LEVEL + 1)):
        yield 10, lambda parts, asked=asked: parts._replace(question=asked)
    yield 11, lambda parts: parts._replace(room=workspace_needed(ALIKE[0], SURVIVE) - 1)


def paired_faults(count, places):
    """The number of the one that comes first, and the call."""
    for (number, one), (_, other) in itertools.combinations_with_replacement(mix_faults(count, places), 2):
        yield number, assembled(one(other(whole_parts(count))))


def fault_pairs():
    """All of a mix of two plans; of one of three, all with the plan in the middle; of one of eight, each number in each place."""
    yield from (ask for _, ask in itertools.chain(paired_faults(2, (0, 1)), paired_faults(3, (1,))))
    for at in range(PLANS):
        for _, fault in plan_faults(at, at == PLANS - 1):
            yield assembled(fault(whole_parts(PLANS)))


HUGE = [  # heads whose rows no machine word may count, u + c × n neither
    Head(FULL, 3, 2, 1),
    Head(2, 3, FULL, 1),
    Head(FULL, 3, FULL, 1),
    Head(2, FULL, 2, 8),
    Head(2, 3, 2, FULL),
    Head(FULL, FULL, FULL, FULL),
    Head(2**61, 0, 2, 8),
    Head(2**32 + 3, 2**32 + 4, 2**32 + 5, 2**32 + 1),
]


def huge_heads():
    for head, at in itertools.product(HUGE, range(3)):
        whole = mix_ask(even(3), varied(BRIEF, 3))
        yield whole._replace(heads=changed(whole.heads, at, head))


# ---- Questions and workspaces

ASKED = SURVIVE, Question("both", 0), Question("both", 2), Question("both", CLAIMS), Question("high", 6), Question("low", 2)


def room_edges():
    for question in ASKED:
        needed = workspace_needed(BRIEF[0], question)
        for more in (-needed, 1 - needed, -1, 0, 1, 40):
            yield mix_ask(even(3), varied(BRIEF, 3), question, more)
    for n, u, c in ((0, 0, 1), (0, 7, 1), (7, 0, 1), (MONTHS, OPENING, 1), *SPANS):
        for question, more in itertools.product((SURVIVE, Question("both", 2), Question("high", 6), Question("low", 2)), (-1, 0, 1)):
            yield mix_ask(even(2), varied(flat(n, u, c + 3, c), 2), question, more)


def number_edges():
    numbers = 0, 1, CLAIMS, CLAIMS + 1, LEVEL, LEVEL + 1, 2**32, 2**32 + 1, FULL
    for count, word, number in itertools.product((1, 3), ("both", "high", "low"), numbers):
        yield mix_ask(even(count), varied(BRIEF, count), Question(word, number))


def question_edges():
    """No months, an opening of 0, every income; levels below the opening, at it and above."""
    for c, (n, u) in itertools.product(range(1, INCOME + 1), ((0, 0), (0, 3), (2, 0), (3, 2))):
        plan = Head(n, u, u + c * n + 1, c), [S // 2] * n + geometric(u + c * n + 1)
        asked = [question for question in questions(plan[0]) if question.number % 6 == c % 6 or question.number in (u, u + 1)]
        for question in (SURVIVE, *asked):
            yield mix_ask(halved(2 + c % 4), varied(plan, 2 + c % 4), question)


def equal_mixes():
    """Whose bounds are those of the plan, whatever the weights are."""
    rng, thirds = random.Random(61), [S // 3, S // 3, S - 2 * (S // 3)]
    for count, plan in itertools.product(COUNTS, (EXAMPLE, TAILED, RICH, (Head(3, 2, 3), [S - 1, 1, S // 3, *thirds, 0]))):
        for question in (SURVIVE, Question("both", 1), Question("low", 2)):
            yield mix_ask(split(rng, count, 1), [plan] * count, question)


# ---- Rounding


def certain(x):
    """A plan of one month that survives with this chance, in parts, and both bounds."""
    return Head(1, 0, 1), [S - x, *ONE_SIZE]


def rounding_edges():
    """Chances that are bounds at once: sums that divide by S exactly, that leave one part of a part, or all but one; then plans whose own bounds are
    apart, the mix's by one part more."""
    chances = 0, 1, 2, S // 2, S // 2 + 1, S - 1, S
    for weights in ([S // 2, S // 2], [1, S - 1], [S - 1, 1], [S // 4, 3 * (S // 4)]):
        for pair in itertools.product(chances, repeat=2):
            yield mix_ask(weights, map(certain, pair))
    for count in COUNTS:
        yield mix_ask(even(count), [certain(S - i) for i in range(count)])
        yield mix_ask(halved(count), [certain(i) for i in range(count)])
    table = [1, S - 1, 0]
    for n, first, second in itertools.product((1, 12), (1, 3, S // 2, S - 1), (0, 2, S // 3, S)):
        for weights in ([S // 2, S // 2], [1, S - 1], [S // 3, S - S // 3]):
            yield mix_ask(weights, [(Head(n, 1, 2), [chance] * n + table) for chance in (first, second)])


# ---- Mixes as large as can be, and random ones


def turned(plan, count=PLANS):
    """Mixed with itself in another order of months: the chances go round, by 15 months for each plan."""
    head, row = plan
    chances = row[: head.months]
    return [with_chances(plan, chances[15 * i :] + chances[: 15 * i]) for i in range(count)]


def largest_mixes(rng):
    """Eight plans each: with no size empty, with ten filled, with over; with two sizes, asked what takes the largest workspace, one short and exactly
    long enough; with the largest income."""
    timed = timed_plans()
    yield mix_ask(even(PLANS), turned(timed["none-empty"]))
    yield mix_ask(split(rng, PLANS, 0), turned(timed["ten-filled"]), Question("high", 300), 3)
    yield mix_ask(split(rng, PLANS, 0), turned(timed["none-empty"]), Question("both", 2))
    yield mix_ask(halved(PLANS), turned((LARGEST, [rng.randrange(1, S // 25) for _ in range(MONTHS)] + split(rng, SIZES + 1, 0))))  # with over
    narrow = lasting_plan(rng, MONTHS, OPENING, 2)
    for more in (-1, 0):
        yield mix_ask(split(rng, PLANS, 0), turned(narrow), MOST_ASKED, more)
    yield mix_ask(split(rng, PLANS, 0), turned(lasting_plan(rng, 40, 0, SIZES, INCOME)), Question("low", 3), 6)


def some_mix(rng, plan, count):
    """Alike but for their chances, which are any."""
    return [with_chances(plan, [some_chance(rng) for _ in range(plan[0].months)]) for _ in range(count)]


def random_mixes(rng):
    """Small ones with every income, asked some questions each; middle ones."""
    for c, count in zip(itertools.cycle(range(1, INCOME + 1)), [*COUNTS] * 5):
        plan = some_plan(rng, rng.randrange(4), rng.randrange(4), rng.randint(1, 2 * c + 3), c)
        plans, weights = some_mix(rng, plan, count), split(rng, count, rng.randrange(3))
        asked = [question for question in questions(plan[0]) if rng.randrange(4) == 0]
        for question in (SURVIVE, *asked):
            yield mix_ask(weights, plans, question, rng.randrange(3))
    for count in (*COUNTS, *COUNTS):
        c = rng.randint(1, 4)
        plan = lasting_plan(rng, rng.randrange(8, 20), rng.randrange(1, 20), rng.randrange(5, 30), c)
        plans = [with_chances(plan, [rng.randrange(S // rng.randint(1, 20)) for _ in range(plan[0].months)]) for _ in range(count)]
        levels = Question("high", largest_level(plan[0]) * 2 // 3), Question("low", plan[0].opening)
        for question in (SURVIVE, Question("both", rng.randrange(5)), *levels):
            yield mix_ask(split(rng, count, rng.randrange(3)), plans, question, rng.randrange(3))


# ---- The reports of mix bytes

QUIET = with_chances(EXAMPLE, [0, 0])
SMALL_MIX = write_mix([S // 2 - 1, S // 2 + 1], [EXAMPLE, QUIET])


def damaged_mixes():
    """A small mix at every length, with a byte more, and with every single bit turned over."""
    for length in range(len(SMALL_MIX) + 3):
        yield (SMALL_MIX + b"\0\1")[:length]
    for bit in range(8 * len(SMALL_MIX)):
        yield flipped(SMALL_MIX, bit)


def count_byte_edges():
    """Counts that there are not, alone and with all that follows; weights that end early; no byte of a plan, or fewer than a head has."""
    for count in (0, PLANS + 1, 10, 16, 127, 128, 255):
        yield from (bytes([count]), bytes([count]) + SMALL_MIX[1:], bytes([count]) + bytes(weights_end(PLANS)))
    for count in COUNTS:
        whole = write_mix(even(count), varied(EXAMPLE, count))
        ends = weights_end(count)
        yield from (whole, whole + b"\0", whole[:-1])
        yield from (whole[:length] for length in (1, ends - 1, ends, ends + HEAD_BYTES - 1, ends + HEAD_BYTES))
        yield bytes([count % PLANS + 1]) + whole[1:]


def refused_plan_bytes(at, count, damage):
    """A mix's bytes with one plan's damaged."""
    plans = [write_bytes(*plan) for plan in varied(BRIEF, count)]
    return mix_bytes(even(count), changed(plans, at, damage(plans[at])))


def faulty_bytes(number):
    """Those of a plan that this number of a head or a row turns away."""
    return write_bytes(*PLAN_FAULTS[number](Ask(*BRIEF, SURVIVE))[:2])


BYTE_FAULTS = [
    lambda data: data[: HEAD_BYTES - 1],
    *(lambda data, number=number: faulty_bytes(number) for number in PLAN_FAULTS if number != 5),
    lambda data: data[:HEAD_BYTES],
    lambda data: data[:-1],
    lambda data: data + b"\0",
    last_bit_flipped,
]


def number_byte_edges():
    """Every number in each place of a mix, the bytes after it being good ones; then two of them, in two places."""
    for count, at in ((1, 0), (2, 0), (2, 1), (3, 1), (PLANS, 0), (PLANS, 3), (PLANS, PLANS - 1)):
        for damage in BYTE_FAULTS:
            yield refused_plan_bytes(at, count, damage)
    plan = write_bytes(*BRIEF)
    for one, other in itertools.product(BYTE_FAULTS, repeat=2):
        yield mix_bytes(even(2), [one(plan), other(plan)])
    for other in unlike_plans():
        yield write_mix(even(3), [TAILED, TAILED, other])
        yield write_mix(changed(even(2), 0, 0), [other, TAILED])
        yield write_mix([S], [other])
    for weights in ([S], [S - 1], [S + 1], [0], [FULL_NUMBER]):
        yield write_mix(weights, [EXAMPLE])
    for weights in ([FULL_NUMBER, S + 1], [2**31, S + 2**31], [S, S], [0, 0], [0, S], [S, 0], [1, S - 1], [S + 1, 0], [0x01020304, S - 0x01020304]):
        yield write_mix(weights, [EXAMPLE, QUIET])


def large_refused():
    """The longest mix, refused by its last plan, by what the plans are together, or for a byte too many."""
    plans = turned(timed_plans()["none-empty"])
    whole = write_mix(even(PLANS), plans)
    yield from (whole[:-1], whole + b"\0", whole + bytes(MIX_BYTES - len(whole)))
    head, row = plans[-1]
    yield write_mix(even(PLANS), [*plans[:-1], (head, changed(row, -1, S + 1))])
    yield write_mix(even(PLANS), [*plans[:-1], (head, moved(row, -2, -3))])
    yield write_mix(changed(even(PLANS), 7, 0), plans)
    yield whole[: weights_end(PLANS) + 4 * byte_length(head) + 1000]


def reported_mixes(rng):
    """1 to 8 plans with incomes 1 to 8; no months, an opening of 0; more months than both has lines; the largest span."""
    for count in COUNTS:
        c = (3 * count) % INCOME + 1
        plan = some_plan(rng, rng.randint(1, 4), rng.randrange(5), rng.randint(c, 2 * c + 4), c)
        yield split(rng, count, 1), some_mix(rng, plan, count)
    for c in range(1, INCOME + 1):
        yield even(2), some_mix(rng, some_plan(rng, 3, 1, 3 * c, c), 2)
    for plan in (flat(0, 0, 1), flat(0, 7, 3), flat(0, 3, 2, INCOME), flat(1, 0, 1), TAILED, RICH, BRIEF):
        yield halved(4), varied(plan, 4)
    yield split(rng, 3, 0), some_mix(rng, lasting_plan(rng, CLAIMS + 1, 10, 12, 1), 3)
    yield even(2), varied((Head(30, 15, 50), [S // 9] * 30 + geometric(50)), 2)
    wide = lasting_plan(rng, 40, 0, 9, INCOME)
    yield split(rng, 3, 0), [with_chances(wide, [rng.randrange(S // 2) for _ in range(40)]) for _ in range(3)]


def all_mix_bytes():
    yield from damaged_mixes()
    yield from count_byte_edges()
    yield from number_byte_edges()
    yield from large_refused()
    for mix in (*reported_mixes(random.Random(71)), EXAMPLE_MIX):
        yield write_mix(*mix)


# ---- Document 02's batch of pumps, and source document 004's model


def level_plan(chance):
    """As a rule sheet makes it: 12 months, 10 to open with, geometric sizes."""
    return made_plan(write_sheet(Sheet(LEVEL_KIND, 12, 10, 40, decimal(chance), 0, decimal("0.8"))))


GOOD, BAD = 858993459, 214748365  # parts of S: 0.8 and 0.2
EXAMPLE_MIX = [GOOD, BAD], [level_plan("0.02"), level_plan("0.3")]

MODEL_OPENINGS = 1, 2, 3, 4, 5, 8, 10, 15, 20, 40


def model_asks():
    for u, n in itertools.product(MODEL_OPENINGS, range(1, MODEL_MONTHS + 1)):
        yield mix_ask(*model_mix(u, n)), exchangeable_survival(u, n)


# ---- All records, in their order


def all_mix_calls():
    calls = MixCalls()
    edges = count_edges(), weight_edges(), row_edges(), longer_heads(), unlike_edges(), fault_pairs(), huge_heads(), room_edges(), number_edges()
    for ask in itertools.chain(*edges, question_edges(), equal_mixes(), rounding_edges()):
        calls.call(ask)
    for fill, question, more in itertools.product((0, 1, S, 2**31, FULL_NUMBER), ASKED, (-1, 0, 3)):
        calls.call(mix_ask(even(2), varied(RICH, 2), question, more), fill)
    rng = random.Random(59)
    for ask in itertools.chain(random_mixes(rng), largest_mixes(rng)):
        calls.call(ask, rng.getrandbits(32))
    for data in all_mix_bytes():
        calls.report(data)
    for ask, chance in model_asks():
        calls.model(ask, chance)
    return calls


def repeated_mix(times, plan):
    """Survive on a mix of eight, over and over, to time it."""
    calls = MixCalls()
    for _ in range(times):
        calls.asked("call", mix_ask(even(PLANS), turned(plan)), 0)
    return calls
