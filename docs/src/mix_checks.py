"""Mixes: a part of the self-test. The bounds are held to the listed histories and to asking, refusals, mix bytes and reports to examples worked by
hand, and source document 004's Theorem 1 to its own sentences and to the mix of eight plans that has its chances."""
import itertools
import math
from fractions import Fraction

from exact import first_claim_survival, outcomes, question_weight
from exchangeable import BETA, DIGITS, MODEL_MONTHS, beta_moment, counted_survival, exchangeable_survival, gauss_rule, model_mix, size_chance
from mix_cases import MODEL_OPENINGS, certain, even, mix_ask, paired_faults, some_mix
from mixes import Mix, MixAsk, mix_answer, mix_bounds, mix_bytes, mix_read_checks, mix_report, read_mix, write_mix
from plans import EXAMPLE, EXAMPLE_BYTES, ONE_SIZE, changed, flat, flipped, questions, some_plan, split
from rules import CLAIMS, HEAD_BITS, INCOME, LEVEL, MONTHS, OPENING, S, SIZES, SURVIVE, Head, Question, ask_checks, bounds, month_rule, plan_of
from rules import read_bytes, refusal, report, unrounded, workspace_needed, write_bytes

# ---- Random mixes with every history listed


def small_mixes(rng):
    """Of 1 to 8 plans, with every income; weights of 0 and of S among them."""
    for count, c in itertools.product(range(1, 9), range(1, INCOME + 1)):
        n = rng.randint(1, 3) if c < 4 else rng.randint(1, 2)
        plan = some_plan(rng, n, rng.randrange(4), rng.randint(1, 4) if c < 4 else rng.randint(c, 2 * c), c)
        yield split(rng, count, rng.choice([0, 2, 7])), some_mix(rng, plan, count)
    for count in range(1, 9):
        yield split(rng, count, 2), some_mix(rng, some_plan(rng, 0, rng.randrange(4), 2), count)


def asked_bounds(head, row, question, room):
    """What asking one plan answers."""
    number = refusal(ask_checks(head, row, question, room))
    return number, *((0, 0) if number else bounds(plan_of(head, row), question))


def check_mix_question(tally, mix, listed, question):
    """`listed` has the outcomes of each plan's histories."""
    about, whole = (mix, question), S ** (2 * mix.plans[0].head.months)
    lower, upper = mix_bounds(mix, question)
    weight = sum(share * question_weight(one, question) for share, one in zip(mix.weights, listed))
    exact = sum(share * month_rule(plan, question, unrounded) for share, plan in zip(mix.weights, mix.plans))
    widest = max(high - low for low, high in (bounds(plan, question) for plan in mix.plans))
    tally.check("mixes: enclosure", lower * whole <= weight <= upper * whole, about)
    tally.check("mixes: gap", lower <= upper <= lower + widest + 1, about)
    tally.check("mixes: unrounded month rules make up the exact answer", exact * whole == weight * S, about)
    return upper - lower - widest


def check_small_mix(tally, weights, plans):
    """All questions; how much wider the bounds are than the widest plan's, at most."""
    mix = Mix(weights, [plan_of(*plan) for plan in plans])
    listed = [outcomes(plan) for plan in mix.plans]
    for question in questions(plans[0][0]):
        ask = mix_ask(weights, plans, question)
        tally.check("mixes: the call answers the bounds", mix_answer(ask) == (0, *mix_bounds(mix, question)), (mix, question))
        check_same_plans(tally, plans[0], weights, question)
    tally.check("mixes: bytes there and back", read_mix(write_mix(weights, plans)) == mix, (weights, plans))
    return max(check_mix_question(tally, mix, listed, question) for question in questions(plans[0][0]))


def check_same_plans(tally, plan, weights, question):
    """One plan, or equal ones: what asking answers."""
    head, row = plan
    pair = asked_bounds(head, row, question, workspace_needed(head, question))
    tally.check("mixes: one plan answers what asking does", mix_answer(mix_ask([S], [plan], question)) == pair, (plan, question))
    tally.check("mixes: equal plans answer what asking does", mix_answer(mix_ask(weights, [plan] * len(weights), question)) == pair, (plan, question))


def check_small_mixes(tally, rng):
    wider = {check_small_mix(tally, *one) for one in small_mixes(rng)}
    tally.check("mixes: the gap's one part is needed", max(wider) == 1, wider)


# ---- Bounds by hand

HALVES = [S // 2, S // 2]
QUIET = EXAMPLE[0], [0, 0] + EXAMPLE[1][2:]  # the example's fund without a claim
ROUNDED = Head(1, 1, 2), [1, 1, S - 1, 0]  # answers S − 1 and S

BOUNDS_BY_HAND = [  # weights, plans, question, lower, upper
    (HALVES, [EXAMPLE, QUIET], SURVIVE, 905969664, 905969664),  # 11/16 and 1: 27/32
    ([S // 4, 3 * S // 4], [EXAMPLE, QUIET], SURVIVE, 989855744, 989855744),  # 59/64
    ([S, 0], [EXAMPLE, QUIET], SURVIVE, 738197504, 738197504),
    ([0, S], [EXAMPLE, QUIET], SURVIVE, S, S),
    ([0, 0, S, 0], [QUIET, QUIET, EXAMPLE, QUIET], SURVIVE, 738197504, 738197504),
    (HALVES, [EXAMPLE, QUIET], Question("both", 1), 201326592, 201326592),  # 3/8 and 0
    (HALVES, [EXAMPLE, QUIET], Question("high", 0), 0, 0),
    (HALVES, [EXAMPLE, QUIET], Question("low", 2), 738197504, 738197504),  # 3/8 and 1
    ([1, S - 1], [certain(S), certain(0)], SURVIVE, 1, 1),
    ([1, S - 1], [certain(1), certain(0)], SURVIVE, 0, 1),
    ([1, S - 1], [certain(0), certain(1)], SURVIVE, 0, 1),
    ([1, S - 1], [certain(1), certain(1)], SURVIVE, 1, 1),
    ([1, S - 1], [certain(0), certain(S)], SURVIVE, S - 1, S - 1),
    ([1, S - 1], [certain(S), certain(S - 1)], SURVIVE, S - 1, S),
    (HALVES, [certain(0), certain(1)], SURVIVE, 0, 1),
    (HALVES, [certain(1), certain(2)], SURVIVE, 1, 2),
    (HALVES, [certain(1), certain(3)], SURVIVE, 2, 2),
    ([S // 4] * 4, [certain(x) for x in (0, 0, 0, 1)], SURVIVE, 0, 1),
    ([S // 4] * 4, [certain(x) for x in (1, 2, 3, 2)], SURVIVE, 2, 2),
    ([S // 8] * 8, [certain(x) for x in range(8)], SURVIVE, 3, 4),  # 28/8
    ([S // 8] * 8, [certain(S - x) for x in range(8)], SURVIVE, S - 4, S - 3),
    ([S], [ROUNDED], SURVIVE, S - 1, S),
    (HALVES, [ROUNDED, ROUNDED], SURVIVE, S - 1, S),
    (HALVES, [ROUNDED, (Head(1, 1, 2), [0, 1, S - 1, 0])], SURVIVE, S - 1, S),
    ([S // 2, S // 4, S // 4], [flat(0, 3, 2)] * 3, SURVIVE, S, S),
    ([S // 2, S // 4, S // 4], [flat(0, 3, 2)] * 3, Question("high", 2), 0, 0),
    ([S // 2, S // 4, S // 4], [flat(0, 3, 2)] * 3, Question("low", 9), S, S),
    (HALVES, [(Head(1, 0, 1, 2), [S, *ONE_SIZE]), (Head(1, 0, 1, 2), [0, *ONE_SIZE])], Question("high", 1), S // 2, S // 2),  # 2 less 1, or 2
]

# ---- Refusals by hand: heads, weights and rows as the call is given them

FUND, TABLE = Head(1, 1, 2), [S // 2, S // 2, 0]
FUNDS = [S // 3, *TABLE, S // 7, *TABLE]  # two rows
FULL = 2**64 - 1
WILD = [Head(FULL, FULL, FULL, FULL)] * 8


def given(count, heads, weights, row, question=SURVIVE, room=6):
    """Filled up with heads and weights that no plan has."""
    return MixAsk(count, [*heads, *WILD][:8], [*weights, *[FULL % 2**32] * 8][:8], row, question, room)


REFUSED_BY_HAND = [
    *((0, given(2, [FUND] * 2, weights, FUNDS)) for weights in (HALVES, [0, S], [S, 0], [1, S - 1])),
    (0, given(1, [FUND], [S], FUNDS[:4])),
    (0, given(2, [FUND] * 2, HALVES, FUNDS, Question("both", 24), 150)),
    (0, given(8, [FUND] * 8, [S // 8] * 8, FUNDS * 4)),
    *((18, given(count, [FUND] * 2, HALVES, FUNDS)) for count in (0, 9, 10, 255, 256, 258, 2**32 + 2, FULL)),
    *((18, given(count, WILD, [0] * 8, [], Question("both", 25), 0)) for count in (0, 9, FULL)),
    *((18, given(2, [FUND] * 2, weights, FUNDS)) for weights in ([0, 0], [S, S], [S // 2, S // 2 - 1], [S // 2, S // 2 + 1], [S + 1, 0], [0, S + 1])),
    *((18, given(2, [FUND] * 2, weights, FUNDS)) for weights in ([2**32 - 1, S + 1], [S + 1, 2**32 - 1], [2**31, 2**31 + S])),
    (18, given(1, [FUND], [S - 1, 1], FUNDS[:4])),
    (18, given(1, [FUND], [S // 2, S // 2], FUNDS[:4])),
    (5, given(1, [FUND] * 2, [S], FUNDS)),  # the row is of two plans
    *((5, given(2, [FUND] * 2, HALVES, FUNDS[:length])) for length in range(8)),
    *((5, given(2, [FUND] * 2, HALVES, FUNDS + [0] * more)) for more in (1, 2, 4, 100)),
    *((5, given(3, [FUND] * 3, [S, 0, 0], FUNDS + FUNDS[:length])) for length in (0, 1, 3, 5, 8)),
    (0, given(3, [FUND] * 3, [S, 0, 0], FUNDS + FUNDS[:4])),
    (2, given(2, [FUND._replace(months=MONTHS + 1), FUND._replace(opening=OPENING + 1)], HALVES, [])),
    (3, given(2, [FUND._replace(opening=OPENING + 1), FUND._replace(months=MONTHS + 1)], HALVES, [])),
    (4, given(2, [FUND._replace(sizes=0), WILD[0]], HALVES, [])),
    (4, given(2, [FUND._replace(sizes=SIZES + 1), WILD[0]], HALVES, [])),
    (16, given(2, [FUND._replace(income=0), WILD[0]], HALVES, [])),
    (17, given(2, [FUND._replace(months=40, income=8), WILD[0]], HALVES, [])),
    (5, given(2, [FUND, WILD[0]], HALVES, FUNDS[:3])),
    (2, given(2, [FUND, WILD[0]], HALVES, FUNDS[:4])),
    (2, given(2, [FUND, WILD[0]], HALVES, FUNDS)),
    (7, given(2, [FUND, WILD[0]], HALVES, [S + 1, *FUNDS[1:]])),
    (8, given(2, [FUND, WILD[0]], HALVES, changed(FUNDS, 1, 0))),
    (9, given(2, [Head(1, 3, 2), WILD[0]], HALVES, [0, S - 1, 0, 1])),
    (7, given(2, [FUND] * 2, HALVES, changed(changed(FUNDS, 0, S + 1), 5, 0))),  # 7 of the first plan, 8 of the second
    (8, given(2, [FUND] * 2, HALVES, changed(changed(FUNDS, 4, S + 1), 1, 0))),  # 8 of the first, 7 of the second
    (7, given(2, [FUND] * 2, [0, 0], changed(FUNDS, 4, S + 1), Question("both", 25), 0)),
    (5, given(2, [FUND] * 2, [0, 0], FUNDS[:7], Question("both", 25), 0)),
    (18, given(2, [FUND, FUND._replace(opening=0)], HALVES, FUNDS)),
    (18, given(2, [FUND, FUND._replace(opening=2)], HALVES, FUNDS)),
    (18, given(2, [FUND._replace(opening=2), FUND], HALVES, FUNDS)),
    (18, given(2, [FUND, FUND._replace(income=2)], HALVES, FUNDS)),
    (18, given(2, [FUND, FUND._replace(months=2)], HALVES, FUNDS[:4] + [S // 7, S // 7, *TABLE])),
    (18, given(2, [FUND, FUND._replace(months=0)], HALVES, FUNDS[:4] + TABLE)),
    (18, given(3, [FUND, FUND._replace(months=2), FUND], [S, 0, 0], [0, *TABLE, 0, 0, *TABLE, 0, *TABLE])),  # each part as long as its own head asks
    (18, given(2, [FUND, FUND._replace(sizes=3)], HALVES, [*FUNDS, 0])),
    (18, given(2, [FUND, FUND._replace(months=2, sizes=1)], HALVES, FUNDS[:4] + [0, 0, S, 0])),
    (18, given(2, [FUND] * 2, HALVES, changed(changed(FUNDS, 5, S // 2 - 1), 6, S // 2 + 1))),
    (18, given(2, [FUND] * 2, HALVES, changed(changed(FUNDS, 5, S // 2 - 1), 7, 1))),  # over
    (18, given(2, [FUND] * 2, HALVES, changed(changed(FUNDS, 1, S // 2 - 1), 3, 1))),
    (18, given(2, [FUND] * 2, HALVES, changed(changed(FUNDS, 6, S // 2 - 1), 7, 1))),
    *((18, given(3, changed([FUND] * 3, at, FUND._replace(opening=0)), [S, 0, 0], FUNDS + FUNDS[:4])) for at in range(3)),
    *((18, given(8, changed([FUND] * 8, at, FUND._replace(income=3)), [S // 8] * 8, FUNDS * 4)) for at in range(8)),
    (18, given(4, [FUND, FUND._replace(opening=0)] * 2, [S // 4] * 4, FUNDS * 2)),
    (18, given(8, [*[FUND] * 7, FUND._replace(opening=0)], [S, *[0] * 7], FUNDS * 4)),
    (18, given(8, [FUND] * 8, [S // 8] * 7 + [S // 8 + 1], FUNDS * 4)),
    (18, given(2, [FUND, FUND._replace(opening=0)], HALVES, FUNDS, Question("both", 25), 0)),
    (18, given(2, [FUND] * 2, [S, 1], FUNDS, Question("high", LEVEL + 1), 0)),
    (10, given(2, [FUND] * 2, HALVES, FUNDS, Question("both", CLAIMS + 1), 0)),
    (10, given(2, [FUND] * 2, HALVES, FUNDS, Question("high", FULL), 0)),
    (10, given(2, [FUND] * 2, HALVES, FUNDS, Question("low", LEVEL + 1), 0)),
    *((11, given(2, [FUND] * 2, HALVES, FUNDS, SURVIVE, room)) for room in (0, 1, 5)),
    *((11, given(2, [FUND] * 2, HALVES, FUNDS, Question("both", 1), room)) for room in (0, 6, 11)),
    (0, given(2, [FUND] * 2, HALVES, FUNDS, Question("both", 1), 12)),
    (0, given(2, [FUND] * 2, HALVES, FUNDS, Question("low", 320), 7)),
]

# ---- Mix bytes and reports by hand

QUIET_BYTES = bytes.fromhex("04 02 02 10 00 00 00 00 00 00 00 10 00 00 00 20" + 7 * " 00")
HALF_AND_HALF = bytes.fromhex("02 20 00 00 00 20 00 00 00") + EXAMPLE_BYTES + QUIET_BYTES
HALF_TEXT = """months 2 opening 1 sizes 2 income 1
survive 905969664 905969664
both 0 671088640 671088640
both 1 201326592 201326592
both 2 33554432 33554432
high 1 33554432 33554432
high 2 234881024 234881024
high 3 905969664 905969664
low 1 905969664 905969664
low 2 738197504 738197504
"""
WHOLE = bytes.fromhex("01 40 00 00 00")  # a mix of one plan, with all the weight
EIGHTHS = b"\x08" + bytes.fromhex("08 00 00 00") * 8

TEXTS_BY_HAND = [
    (HALF_AND_HALF, HALF_TEXT),
    (bytes.fromhex("04" + 4 * "10 00 00 00") + EXAMPLE_BYTES + QUIET_BYTES + EXAMPLE_BYTES + QUIET_BYTES, HALF_TEXT),
    (bytes.fromhex("03 20 00 00 00 00 00 00 01 1f ff ff ff") + EXAMPLE_BYTES + QUIET_BYTES * 2, HALF_TEXT),
    (bytes.fromhex("03 20 00 00 00 20 00 00 00 00 00 00 00") + QUIET_BYTES + EXAMPLE_BYTES + EXAMPLE_BYTES, HALF_TEXT),
    (WHOLE + write_bytes(*flat(0, 0, 1)), f"months 0 opening 0 sizes 1 income 1\nsurvive {S} {S}\nboth 0 {S} {S}\nlow 1 {S} {S}\n"),
    (b"", "refused 1\n"),
    *((bytes([count]) + rest, "refused 18\n") for count in (0, 9, 16, 255) for rest in (b"", bytes(3), HALF_AND_HALF[1:], b"\xff" * 60)),
    *((HALF_AND_HALF[:length], "refused 1\n") for length in range(1, 13)),  # the weights, then fewer than 4 bytes of the first plan
    *((HALF_AND_HALF[:length], "refused 5\n") for length in range(13, 32)),
    *((HALF_AND_HALF[:length], "refused 1\n") for length in range(32, 36)),
    *((HALF_AND_HALF[:length], "refused 5\n") for length in range(36, 55)),
    *((HALF_AND_HALF + bytes(more), "refused 5\n") for more in (1, 4, 23, 5000)),
    (EIGHTHS[:-1], "refused 1\n"),
    (EIGHTHS, "refused 1\n"),
    (EIGHTHS + EXAMPLE_BYTES * 7, "refused 1\n"),
    (EIGHTHS + EXAMPLE_BYTES * 7 + EXAMPLE_BYTES[:4], "refused 5\n"),
    (EIGHTHS + EXAMPLE_BYTES * 7 + EXAMPLE_BYTES[:-1], "refused 5\n"),
    (EIGHTHS + EXAMPLE_BYTES * 7 + EXAMPLE_BYTES[:-1] + b"\1", "refused 6\n"),
    (EIGHTHS + EXAMPLE_BYTES * 9, "refused 5\n"),
    (WHOLE + EXAMPLE_BYTES * 2, "refused 5\n"),
    (HALF_AND_HALF[:9] + EXAMPLE_BYTES[:-1] + b"\1" + QUIET_BYTES, "refused 6\n"),
    (HALF_AND_HALF[:9] + EXAMPLE_BYTES[:-1] + b"\1", "refused 6\n"),  # before the second plan's 1
    (HALF_AND_HALF[:9] + EXAMPLE_BYTES[:-1] + b"\1" + b"\xff" * 30, "refused 6\n"),
    (HALF_AND_HALF[:9] + write_bytes(*flat(MONTHS + 1, 0, 1)), "refused 2\n"),
    (HALF_AND_HALF[:9] + write_bytes(*flat(0, OPENING + 1, 1))[:4], "refused 3\n"),
    (HALF_AND_HALF[:9] + write_bytes(*flat(0, 0, SIZES + 1))[:4], "refused 4\n"),
    (HALF_AND_HALF[:9] + write_bytes(*flat(0, 0, 1, 9))[:4], "refused 16\n"),
    (HALF_AND_HALF[:9] + write_bytes(*flat(40, 1, 1, 8))[:4], "refused 17\n"),
    (HALF_AND_HALF[:9] + write_bytes(Head(1, 1, 1), [S + 1, S, 0]) + b"\xff" * 4, "refused 7\n"),
    (HALF_AND_HALF[:9] + write_bytes(Head(1, 1, 1), [S, S, 1]) + b"\xff" * 4, "refused 8\n"),
    (HALF_AND_HALF[:9] + write_bytes(*flat(1, 3, 2, tail=1)) + b"\xff" * 4, "refused 9\n"),
    (HALF_AND_HALF[:32] + b"\xff" * 4, "refused 2\n"),
    (flipped(HALF_AND_HALF, 8 + 31), "refused 18\n"),  # the first weight's last bit
    (bytes.fromhex("02 ff ff ff ff 40 00 00 01") + EXAMPLE_BYTES * 2, "refused 18\n"),
    (bytes.fromhex("02 00 00 00 20 20 00 00 00") + EXAMPLE_BYTES * 2, "refused 18\n"),  # its bytes the other way round
    (bytes.fromhex("01 3f ff ff ff") + EXAMPLE_BYTES, "refused 18\n"),
    (bytes.fromhex("01 3f ff ff ff") + EXAMPLE_BYTES[:-1], "refused 5\n"),
    (HALF_AND_HALF[:32] + write_bytes(Head(2, 2, 2), EXAMPLE[1]), "refused 18\n"),
    (HALF_AND_HALF[:32] + write_bytes(Head(2, 1, 2, 2), EXAMPLE[1]), "refused 18\n"),
    (HALF_AND_HALF[:32] + write_bytes(Head(2, 1, 2), [S // 2, S // 2, S // 2 - 1, S // 2 + 1, 0]), "refused 18\n"),
    (HALF_AND_HALF[:32] + write_bytes(*flat(1, 1, 2)), "refused 18\n"),
    (HALF_AND_HALF[:32] + write_bytes(*flat(2, 1, 1)), "refused 18\n"),
]


def report_of_one(data):
    """The reserve report's lines, but for those of claims and of fails."""
    return "".join(line for line in report(data).splitlines(keepends=True) if not line.startswith(("claims", "fails")))


def check_mix_numbers(tally):
    for weights, plans, question, *pair in BOUNDS_BY_HAND:
        got = mix_answer(mix_ask(weights, plans, question))
        tally.check("mixes: bounds by hand", got == (0, *pair), (weights, plans, question, got))
    for number, ask in REFUSED_BY_HAND:
        got = mix_answer(ask)
        tally.check("mixes: refusals by hand", got == (number, 0, 0) if number else got[0] == 0, (number, ask, got))
    for count, places in ((2, (0, 1)), (3, (0, 1, 2)), (8, (0, 4, 7))):
        for number, ask in paired_faults(count, places):
            tally.check("mixes: two refusals, the first counts", mix_answer(ask) == (number, 0, 0), (number, ask))
    tally.check("mixes: bytes by hand", write_mix(HALVES, [EXAMPLE, QUIET]) == HALF_AND_HALF, write_mix(HALVES, [EXAMPLE, QUIET]).hex())
    for data, text in TEXTS_BY_HAND:
        tally.check("mixes: texts by hand", mix_report(data) == text, (data.hex(), mix_report(data)))


def check_mix_texts(tally, rng):
    """A mix of one plan, and of equal ones, has the plan's own lines; bytes of a plan that are refused give the plan's number."""
    for c in range(1, INCOME + 1):
        plan = some_plan(rng, rng.randrange(4), rng.randrange(4), rng.randint(1, 3 * c), c)
        count, data = rng.randint(2, 8), write_bytes(*plan)
        equal = write_mix(split(rng, count, 1), [plan] * count)
        tally.check("mixes: the report of one plan", mix_report(WHOLE + data) == report_of_one(data), plan)
        tally.check("mixes: the report of equal plans", mix_report(equal) == report_of_one(data), plan)
        for wrong in (data[:3], data[:4], data[:-1], data + b"\0", *(flipped(data, rng.randrange(8 * len(data))) for _ in range(20))):
            tally.check("mixes: bytes of one plan are refused as the plan's", mix_report(WHOLE + wrong) == report_of_one(wrong), wrong.hex())
        for at in range(count):
            wrong = flipped(data, rng.randrange(HEAD_BITS, 8 * len(data)))
            number = refusal(mix_read_checks(mix_bytes(even(count), changed([data] * count, at, wrong))))
            tally.check("mixes: bytes of a plan among others are refused as the plan's", number == wrong_number(wrong, data), (wrong.hex(), number))


def wrong_number(wrong, data):
    """Of a mix in which one plan is the wrong one and the others are all the same: its own number, or 18 where it is unlike them."""
    text = report(wrong)
    if text.startswith("refused"):
        return int(text.split()[1])
    return 0 if without_chances(wrong) == without_chances(data) else 18


def without_chances(data):
    head, row, _ = read_bytes(data)
    return head, row[head.months :]


# ---- Source document 004's Theorem 1


def check_theorem(tally):
    """Its sentences: C "is independent of p"; with lambda_s = p^s it is the classical model; Remark 1's C(u; 2, 1); survival "is larger under the
    assumption of exchangeable and dependent claim occurrences", by Figures 1 and 2 from the second month on, the mean chance being the same."""
    one, other = counted_survival(Fraction(1, 2)), counted_survival(Fraction(1, 10))
    for u, n in itertools.product((1, 2, 3, 6), range(6)):
        for k in range(n + 1):
            tally.check("Theorem 1: C is independent of p", one(u, n, k) == other(u, n, k), (u, n, k))
        for p in (Fraction(1, 10), Fraction(2, 7), Fraction(1)):
            classical = first_claim_survival([p] * n, size_chance, u)
            tally.check("Theorem 1: the classical model", exchangeable_survival(u, n, lambda s: p**s) == classical, (u, n, p))
    for u in range(1, 9):
        sizes_up_to = [sum(map(size_chance, range(1, level + 1))) for level in (u, u + 1)]
        tally.check("Theorem 1: Remark 1", one(u, 2, 1) == sum(sizes_up_to), u)
    a, b = BETA
    for s in range(20):
        by_factorials = Fraction(math.factorial(9) * math.factorial(s), math.factorial(s + 9))
        tally.check("Theorem 1: lambda_s of beta(1, 9)", beta_moment(s) == by_factorials, s)
    for u, n in itertools.product((1, 3), range(1, 16)):
        classical = exchangeable_survival(u, n, lambda s: Fraction(a, a + b) ** s)
        survival = exchangeable_survival(u, n)
        tally.check("Theorem 1: larger than with independent claims", survival == classical if n == 1 else survival > classical, (u, n))


def check_gauss_rule(tally):
    """Eight nodes between 0 and 1; lambda_s for s = 0 to 15 to the digits used, and not for s = 16."""
    rule = gauss_rule()
    tally.check("Gauss rule: eight nodes", len(rule.nodes) == 8 and 0 < min(rule.nodes) and max(rule.nodes) < 1, rule)
    tally.check("Gauss rule: weights above 0", min(rule.weights) > 0 and sum(rule.weights) == 1, rule)
    for s in range(17):
        apart = abs(sum(weight * node**s for node, weight in zip(rule.nodes, rule.weights)) - beta_moment(s))
        tally.check("Gauss rule: lambda_s", apart < Fraction(1, 2 ** (DIGITS - 8)) if s < 16 else apart > Fraction(1, 10**13), (s, apart))


NEAR = Fraction(1, 10**8)  # of both bounds to the theorem's chance


def check_model(tally):
    """Both bounds of the mix, next to the theorem's chance."""
    for u, n in itertools.product(MODEL_OPENINGS, range(1, MODEL_MONTHS + 1)):
        weights, plans = model_mix(u, n)
        chance, (number, *pair) = exchangeable_survival(u, n), mix_answer(mix_ask(weights, plans))
        apart = max(abs(Fraction(bound, S) - chance) for bound in pair)
        tally.check("the published model: the mix is near to Theorem 1", number == 0 and apart <= NEAR, (u, n, pair, chance))


def check_refused_plans(tally, refused):
    """Numbers, heads and rows: alone in a mix, after an accepted plan, and before a refused one, whatever the weights are."""
    for number, head, row in refused:
        asked = itertools.product(([S], [S - 1]), (SURVIVE, Question("both", 25)))
        for weights, question in asked:
            got = mix_answer(mix_ask(weights, [(head, row)], question))
            tally.check("mixes: one plan is refused as asking refuses it", got == (number, 0, 0), (head, row, question, got))
        last = mix_answer(mix_ask([0, 0], [EXAMPLE, (head, row)]))
        tally.check("mixes: the last plan's number", last == (number, 0, 0), (head, row, last))
        first = mix_answer(mix_ask([0, 0], [(head, row), (Head(FULL, 0, 0, 0), [])]))
        tally.check("mixes: the first plan's number before the last one's", first == (number, 0, 0), (head, row, first))


def check_mixes(tally, rng, refused):
    check_refused_plans(tally, refused)
    check_mix_numbers(tally)
    check_mix_texts(tally, rng)
    check_theorem(tally)
    check_gauss_rule(tally)
    check_model(tally)
    check_small_mixes(tally, rng)
