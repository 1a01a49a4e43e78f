"""The rules held against the exact chances, the funds worked by hand and the paper's report; those of rule sheets against Python's floats."""
import itertools
import math
import operator
import random
import struct
from fractions import Fraction
from functools import cache

from deficit_checks import check_deficit_numbers, check_deficit_plans, check_deficits, check_long_deficits, check_published_deficits
from exact import carried_counts, carried_failures, carried_weight, claim_chance, count_weight, encloses, failure_weight, first_claim_both
from exact import first_claim_survival, keeps_gap, level_kept, outcomes, question_weight
from mix_checks import check_mixes
from moves import chances_apart, difference, later_changed, more_months
from old_plans import renewed, write_old
from plans import EXAMPLE, EXAMPLE_BYTES, EXAMPLE_TEXT, ONE_SIZE, WORKED, changed, flat, gapped, geometric_plan, lasting_plan, questions, some_chance
from plans import some_plan, split, timed_plans
from rules import CLAIMS, INCOME, LARGEST, MONTHS, MOST_ASKED, OPENING, PLACES, S, SIZES, SPAN, SURVIVE, Head, Question, all_months, all_openings
from rules import ask_checks, bounds, byte_length, claim_sum, count_row, down, failure_bounds, failure_checks, failure_rule, largest_level, last_rows
from rules import least_answer, least_line, month_back, month_rule, opened, opening_pairs, openings_answer, openings_text, plan_checks, plan_of
from rules import read_bytes, read_checks, refusal, report, row_length, target_of, totals, unrounded, up, walked_pairs, workspace_needed, write_bytes
from sheet_cases import DOUBLES, EXAMPLE_SHEET, HALF, INFINITE, LEVEL, LONE, NANS, NO_TAIL, ONE, RAMP, WORKED_SHEETS, accepted, brief_head
from sheet_cases import decimal_ramps, some_share, some_sheet, telling_ramps, with_double
from sheets import LEVEL_KIND, SHEET_BYTES, SIGN, claim_weights, finite, head_of, last_place, made_plan, parts, pattern, plan_row, plus, power
from sheets import read_sheet, rounded, sheet_checks, times, value, write_sheet
from tree_checks import check_small_numbers, check_trees, tree_plans
from trees import plain_answer, tree_text


class Tally:
    def __init__(self):
        self.passed, self.failed = {}, []

    def check(self, name, holds, about):
        self.passed[name] = self.passed.get(name, 0) + bool(holds)
        if not holds:
            self.failed.append(f"{name}: {about}")

    def print(self):
        for name, passed in self.passed.items():
            print(f"{name}: {passed} passed")
        for failure in self.failed:
            print("FAILED", failure)
        print("failed" if self.failed else "ok")


def rising_claim_sum(weights, after, s, c):
    """Document 01's, with document 02's income: the sum over x from 1 to "the lesser of s + c − 1 and m" of F_x × V_t(s + c − x)."""
    return sum(weights[x - 1] * after[s + c - x] for x in range(1, min(s + c - 1, len(weights)) + 1))


def check_claim_sums(tally, rng, weights):
    """Every range of sizes, from none to past the table's end, on a row of random values. A product may be 0 though its size is not empty."""
    after = [some_chance(rng) for _ in range(len(weights) + 3)]
    for level in range(1, len(after) + 1):
        total, products = claim_sum(weights, after, level)
        about = weights, after, level
        sums = {rising_claim_sum(weights, after, level - c, c) for c in range(1, min(level, INCOME) + 1)}
        tally.check("claim sum is document 01's, whatever the income", sums == {total}, about)
        filled = sum(weight > 0 for weight in weights[: level - 1])
        tally.check("claim sum: products are the sizes with a weight above 0", products == filled, about)


def claim_tables(rng):
    """Every choice of empty sizes among 1 to 6, and long tables with none, some and nearly all empty, a gap, or ten filled."""
    for m in range(1, 7):
        for empty in itertools.product((False, True), repeat=m):
            yield [0 if none else rng.randint(1, S) for none in empty]
    yield from (split(rng, SIZES, empty) for empty in (0, 2, 7))
    yield from (gapped(rng, SIZES) for _ in range(5))
    yield plan_of(*timed_plans()["ten-filled"]).weights


def check_small_divisions(tally, rng):
    """The quotient by S × S from the claim sum's quotient by S and what is left over, dividing by S alone; no sum passes 2^62, rounded up or not."""
    ends = [0, 1, S // 2, S - 1, S]
    claims = [0, 1, S - 1, S, S + 1, S * S - S, S * S - 1, S * S]
    cases = itertools.product(ends, ends, claims)
    some = ((some_chance(rng), some_chance(rng), rng.randint(0, S * S)) for _ in range(2000))
    for (chance, quiet, total), divide in itertools.product((*cases, *some), (down, up)):
        claimed, left = divmod(total, S)
        parts_of_s = (S - chance) * quiet + chance * claimed + divide(chance * left, S)
        once = divide((S - chance) * S * quiet + chance * total, S * S)
        tally.check("one rounding, dividing by S alone", divide(parts_of_s, S) == once, (chance, quiet, total))
        tally.check("no sum passes 2^62", max(total, chance * left + S - 1, parts_of_s + S - 1) <= 2**62, (chance, quiet, total))


def check_bounds(tally, name, plan, months, weight, pair, about):
    """The gap rule counts the first so many months."""
    tally.check(f"{name}: enclosure", encloses(plan, weight, *pair), about)
    tally.check(f"{name}: gap", keeps_gap(plan, months, *pair), about)


def check_question(tally, plan, listed, question):
    about, opening = (plan, question), plan.head.opening
    weight, whole = question_weight(listed, question), S ** (2 * len(plan.chances))
    p, f = [Fraction(chance, S) for chance in plan.chances], claim_chance(plan)
    check_bounds(tally, "questions", plan, plan.head.months, weight, bounds(plan, question), about)
    tally.check("histories carried together weigh W", carried_weight(plan, question) == weight, about)
    tally.check("unrounded month rule is W", month_rule(plan, question, unrounded) * whole == weight * S, about)
    if plan.head.income != 1:  # the published recursions are for an income of 1 alone
        return
    if question.word == "survive":
        tally.check("Theorem 2.1 is W", first_claim_survival(p, f, opening) * whole == weight, about)
    if question.word == "both":
        tally.check("Theorem 3.2 is W", first_claim_both(p, f, opening, question.number) * whole == weight, about)


def check_opening(tally, plan, listed, level):
    """The opening in high, and in low, where it has no part."""
    high, low, opening = Question("high", level), Question("low", level), plan.head.opening
    highs, lows = (sum(one.weight for one in listed if all(level_kept(question, u) for u in one.path)) for question in (high, low))
    if opening <= level:
        tally.check("high: at least the opening, it has no part", question_weight(listed, high) == highs, (plan, level))
    else:
        tally.check("high: below the opening, nothing", question_weight(listed, high) == 0 and bounds(plan, high) == (0, 0), (plan, level))
    tally.check("low: the opening has no part", question_weight(listed, low) == lows, (plan, level))
    if plan.head.months == 0:
        tally.check("no months: high", bounds(plan, high) == ((S, S) if opening <= level else (0, 0)), (plan, level))
        tally.check("no months: low", bounds(plan, low) == (S, S), (plan, level))


def check_count_row(tally, plan, listed):
    whole = S ** (2 * len(plan.chances))
    rows = [count_row(plan, divide) for divide in (down, up, unrounded)]
    counts = carried_counts(plan)
    for k, (lower, upper, value) in enumerate(zip(*rows)):
        weight = count_weight(listed, k)
        tally.check("histories carried together weigh W", counts[k] == weight, (plan, k))
        check_bounds(tally, "count row", plan, plan.head.months, weight, (lower, upper), (plan, k))
        tally.check("unrounded count row is W", value * whole == weight * S, (plan, k))


def check_failures(tally, name, plan, weights, surviving):
    """Every month's bounds, and their totals, from the weights of first ruin by month and that of survival."""
    pairs = {t: failure_bounds(plan, t) for t in all_months(plan.head)}
    for t, pair in pairs.items():
        check_bounds(tally, name, plan, t, weights[t], pair, (plan, t))
    lower, upper = totals([*pairs.values(), bounds(plan, SURVIVE)])
    tally.check(f"{name}: with survival they weigh S^(2n)", sum(weights.values()) + surviving == S ** (2 * plan.head.months), plan)
    tally.check(f"{name}: S lies between the totals with survival", lower <= S <= upper, plan)


def check_listed_failures(tally, plan, listed):
    months, whole = all_months(plan.head), S ** (2 * plan.head.months)
    weights, together = {t: failure_weight(listed, t) for t in months}, carried_failures(plan)
    check_failures(tally, "failures", plan, weights, question_weight(listed, SURVIVE))
    for t in months:
        tally.check("histories carried together weigh W", together[t] == weights[t], (plan, t))
        tally.check("unrounded failure rule is W", failure_rule(plan, t, unrounded) * whole == weights[t] * S, (plan, t))
        other = later_changed(plan, t)
        tally.check("failures: later months have no part", failure_bounds(other, t) == failure_bounds(plan, t), (plan, t))
        tally.check("failures: later months have no part in W", carried_failures(other)[t] == weights[t], (plan, t))


# ---- The least opening


def plain_values(plan, divide):
    """The survival bound of each opening from 0 to the plan's, in one rounding, without rows: a level's value in a month from those that it needs
    in the next."""

    @cache
    def value(t, s):
        if t == plan.head.months:
            return S
        chance, level = plan.chances[t], s + plan.head.income
        claims = sum(weight * value(t + 1, level - x) for x, weight in enumerate(plan.weights[: level - 1], 1))
        return divide((S - chance) * S * value(t + 1, level) + chance * claims, S**2)

    return [value(0, opening) for opening in all_openings(plan.head)]


def walked_lowers(plan, target):
    """The lower ones, by one walk for all openings; none of them where the work is given up, "in the month when no level reaches the target any
    more"."""
    rows = last_rows(plan, SURVIVE)
    for t in reversed(all_months(plan.head)):
        rows = month_back(plan, SURVIVE, t, rows, down)
        if max(rows[0]) < target:
            return []
    return rows[0]


def first_reaching(lowers, target):
    """The refusal's number and the opening."""
    good = [opening for opening, lower in enumerate(lowers) if lower >= target]
    return (0, min(good)) if good else (15, 0)


def first_pair(pairs, target):
    """The refusal's number, the opening and its bounds, of the bounds of all openings."""
    number, opening = first_reaching([lower for lower, _ in pairs], target)
    return number, opening, *((0, 0) if number else pairs[opening])


def targets_to_try(rng, lowers):
    """The bounds themselves, which are reached, one more, the ends and any."""
    targets = {1, S, rng.randint(1, S), *lowers, *(lower + 1 for lower in lowers)}
    return sorted(target for target in targets if 1 <= target <= S)


def check_found(tally, plan, target, opening, pair):
    """The opening that is answered, and its bounds."""
    found, about = opened(plan, opening), (plan, target, opening)
    weight = carried_weight(found, SURVIVE)
    check_bounds(tally, "least opening", found, plan.head.months, weight, pair, about)
    tally.check("least opening: bounds of survive", pair == bounds(found, SURVIVE), about)
    tally.check("least opening: the exact chance reaches the target", weight * S >= target * S ** (2 * plan.head.months), about)


def check_smaller(tally, plan, target, opening, lower):
    """One that will not do: its lower bound is at most the target less one part, and its exact chance at most the gap above that."""
    about, gap = (plan, target, opening), sum(chance > 0 for chance in plan.chances)
    weight = carried_weight(opened(plan, opening), SURVIVE)
    tally.check("least opening: no smaller one would do", lower < target, about)
    tally.check("least opening: no smaller one would do, exactly", weight * S <= (target - 1 + gap) * S ** (2 * plan.head.months), about)


def check_least_openings(tally, rng, plan):
    lowers, row, pairs = plain_values(plan, down), [*plan.chances, *plan.weights, plan.tail], opening_pairs(plan)
    for target in targets_to_try(rng, lowers):
        number, opening, *pair = least_answer(plan.head, row, target, workspace_needed(plan.head, SURVIVE))
        about = plan, target, number, opening
        tally.check("least opening: by its definition", (number, opening) == first_reaching(lowers, target), about)
        tally.check("least opening: by one walk", (number, opening) == first_reaching(walked_lowers(plan, target), target), about)
        tally.check("least opening: the first of all openings", (number, opening, *pair) == first_pair(pairs, target), about)
        if number == 0:
            check_found(tally, plan, target, opening, tuple(pair))
        else:
            tally.check("least opening: none", (number, opening, *pair) == (15, 0, 0, 0), about)
        for smaller, lower in enumerate(lowers if number else lowers[:opening]):
            check_smaller(tally, plan, target, smaller, lower)
        if plan.head.months == 0:
            tally.check("least opening: no months", (number, opening, *pair) == (0, 0, S, S), about)


LEAST_OF_EXAMPLE = [  # by hand: opening at 0 the example's fund lasts with chance 3/8, at 1 with 11/16; target, room, the answer
    (1, 8, (0, 0, 402653184, 402653184)),
    (402653184, 8, (0, 0, 402653184, 402653184)),
    (402653185, 8, (0, 1, 738197504, 738197504)),
    (738197504, 9, (0, 1, 738197504, 738197504)),
    (738197505, 8, (15, 0, 0, 0)),
    (S, 8, (15, 0, 0, 0)),
    *((target, room, (14, 0, 0, 0)) for target in (0, S + 1, 2**32 - 1, 2**32 + 1) for room in (0, 7, 8)),
    *((target, room, (11, 0, 0, 0)) for target in (1, 738197504, 738197505, S) for room in (0, 7)),
]

REFUSED_PLANS = [  # each is also wrong in what comes after its number
    (2, Head(MONTHS + 1, OPENING + 1, 0), []),
    (3, Head(2, OPENING + 1, 0), []),
    (4, Head(2, 3, 0), []),
    (4, Head(2, 3, SIZES + 1), []),
    (4, Head(2, 3, 0, 0), []),
    (4, Head(MONTHS, 3, SIZES + 1, 3), []),
    *((16, Head(MONTHS, OPENING, 2, c), []) for c in (0, 9, 15, 16, 17, 2**32 + 1, 2**64 - 1)),
    (16, Head(2, 3, 2, 0), [S + 1, 0, 0, 1]),
    (17, Head(MONTHS, OPENING, 2, 2), []),
    (17, Head(40, 1, 2, 8), []),
    (17, Head(41, 0, 2, 8), [S] * 44),
    (17, Head(MONTHS, 81, 2, 2), [S + 1] * MONTHS + [0, 0, 1]),
    (5, Head(40, 0, 2, 8), []),
    (5, Head(MONTHS, 80, 2, 2), []),
    (5, Head(2, 3, 2), [S + 1, 0, 0, 1]),
    (7, Head(2, 3, 2), [S + 1, 0, 0, 0, 1]),
    (8, Head(2, 3, 2), [S, 0, 0, 0, 1]),
    (9, Head(2, 3, 2), [S, 0, S - 1, 0, 1]),
    (9, Head(2, 1, 3, 2), [S, 0, S - 1, 0, 0, 1]),
]

TARGET_WORDS = [
    *(("0" * zeros + str(target), target) for zeros in (0, 1, 50, 5000) for target in (0, 1, 402653185, S, S + 1)),
    *((word, None) for word in ("", " ", "+1", "-1", "1 ", "1.0", "1e3", "0x1", "1_0", "\u0661", "\u00b2")),
]
PAST_S = [str(2**32), str(2**32 + 1), str(2**64 + 1), f"{S}0", f"{0:05000}{S}0", "1" + "0" * 5000]

LEAST_LINES = [
    (EXAMPLE_BYTES, 402653185, "opening 1 738197504 738197504\n"),
    (EXAMPLE_BYTES, S, "refused 15\n"),
    (EXAMPLE_BYTES, 0, "refused 14\n"),
    (EXAMPLE_BYTES[:3], 0, "refused 1\n"),
    (EXAMPLE_BYTES[:4], 0, "refused 5\n"),
    (EXAMPLE_BYTES[:-1], 0, "refused 5\n"),
    (EXAMPLE_BYTES[:-1] + b"\1", 0, "refused 6\n"),
]


def check_least_numbers(tally):
    for target, room, answer in LEAST_OF_EXAMPLE:
        got = least_answer(*EXAMPLE, target, room)
        tally.check("least opening of the example", got == answer, (target, room, got))
    for (number, head, row), target, room in itertools.product(REFUSED_PLANS, (0, 1, S, S + 1), (0, math.inf)):
        got = least_answer(head, row, target, room)
        tally.check("least opening: plans refused", got == (number, 0, 0, 0), (head, row, target, room, got))
    for word, target in TARGET_WORDS:
        tally.check("least opening: words of a target", target_of(word) == target, word)
    for word in PAST_S:
        tally.check("least opening: words past S", target_of(word) > S, word)
    for data, target, line in LEAST_LINES:
        tally.check("least opening: lines", least_line(data, target) == line, (data.hex(), target))


# ---- All openings


def check_all_openings(tally, plan):
    """Other ways to the same bounds, and each opening's exact weight."""
    pairs, head = opening_pairs(plan), plan.head
    tally.check("all openings: without rows", pairs == list(zip(plain_values(plan, down), plain_values(plan, up))), plan)
    tally.check("all openings: by one walk", pairs == walked_pairs(plan), plan)
    for opening, pair in zip(all_openings(head), pairs):
        one = opened(plan, opening)
        check_bounds(tally, "all openings", one, head.months, carried_weight(one, SURVIVE), pair, (plan, opening))
    if head.months == 0:
        tally.check("all openings: no months", pairs == [(S, S)] * (head.opening + 1), plan)


def check_wide_walks(tally, rng):
    """One walk against asking on plans of many openings and wide tables."""
    of_one = (0, OPENING, SIZES, 1), (1, OPENING, SIZES, 1), (3, OPENING, 9, 1), (5, 60, SIZES, 1), (40, 30, 50, 1)
    for head in (*of_one, (3, 60, SIZES, 8), (20, 30, 50, 3), (15, 40, 100, 8)):
        for plan in (plan_of(*some_plan(rng, *head)), plan_of(*lasting_plan(rng, *head))):
            tally.check("all openings: by one walk, wide tables", opening_pairs(plan) == walked_pairs(plan), plan)


ROWS_BY_HAND = [  # each plan's bounds in the lent row, worked by hand
    (*EXAMPLE, [402653184, 402653184, 738197504, 738197504]),  # 3/8 and 11/16
    (*flat(0, 0, 1), [S, S]),
    (*flat(0, 3, 2), [S] * 8),
    (Head(1, 0, 1), [S // 2] + ONE_SIZE, [S // 2, S // 2]),
    (Head(1, 1, 1), [S // 2] + ONE_SIZE, [S // 2, S // 2, S, S]),
    (Head(1, 2, 1), [S // 2] + ONE_SIZE, [S // 2, S // 2, S, S, S, S]),
    (Head(1, 1, 2), [1, 1, S - 1, 0], [S - 1, S - 1, S - 1, S]),  # a claim ruins at 0, and at 1 with all but one part of its weight
    (Head(2, 3, 2), [S, S, 0, S, 0], [0, 0, 0, 0, 0, 0, S, S]),  # a unit less in each month
    (Head(2, 3, 4, 3), [S, S, 0, 0, 0, S, 0], [0, 0, 0, 0, 0, 0, S, S]),  # likewise
    (Head(1, 2, 4, 2), [S // 2, 0, 0, S, 0, 0], [S // 2, S // 2, S // 2, S // 2, S, S]),  # a claim of 3 leaves one unit of 2 + 2
    (Head(1, 1, 8, 8), [S // 2] + [0] * 7 + [S, 0], [S // 2, S // 2, S, S]),
]


def check_lent_row(tally, head, row, by_hand):
    """Lengths around what is needed, of the workspace and of the row: 11 for either, and what lies past the bounds stays."""
    needed, places = 2 * (head.opening + head.income * head.months + 1), len(by_hand)
    rooms, lengths = (0, needed - 1, needed, needed + 1), (0, places - 1, places, places + 1, places + 9)
    for room, length, held in itertools.product(rooms, lengths, (0, 7, 2**32 - 1)):
        before, enough = [held] * length, room >= needed and length >= places
        got = openings_answer(head, row, room, before)
        tally.check("all openings: the lent row", got == ((0, by_hand + before[places:]) if enough else (11, before)), (head, row, room, before, got))


OPENINGS_TEXTS = [
    (EXAMPLE_BYTES, "opening 0 402653184 402653184\nopening 1 738197504 738197504\n"),
    (write_bytes(*flat(0, 0, 1)), f"opening 0 {S} {S}\n"),
    (write_bytes(Head(1, 1, 2), [1, 1, S - 1, 0]), "opening 0 1073741823 1073741823\nopening 1 1073741823 1073741824\n"),
    (b"", "refused 1\n"),
    (EXAMPLE_BYTES[:3], "refused 1\n"),
    (EXAMPLE_BYTES[:4], "refused 5\n"),
    (write_bytes(Head(1, 1, 1, 2), [S] + ONE_SIZE), f"opening 0 {S} {S}\nopening 1 {S} {S}\n"),
    (EXAMPLE_BYTES[:-1], "refused 5\n"),
    (EXAMPLE_BYTES[:-1] + b"\1", "refused 6\n"),
    (write_bytes(*flat(MONTHS + 1, 0, 1)), "refused 2\n"),
    (write_bytes(*flat(0, OPENING + 1, 1)), "refused 3\n"),
    (write_bytes(*flat(0, 0, SIZES + 1)), "refused 4\n"),
    *((write_bytes(*flat(MONTHS, OPENING, 1, c)), "refused 16\n") for c in (0, 9, 15)),
    (write_bytes(*flat(40, 1, 1, 8))[:4], "refused 17\n"),
    (write_bytes(Head(1, 1, 1), [S + 1, S, 0]), "refused 7\n"),
    (write_bytes(Head(1, 1, 1), [S, S, 1]), "refused 8\n"),
    (write_bytes(*flat(1, 3, 2, tail=1)), "refused 9\n"),
]


def check_openings_numbers(tally):
    for head, row, by_hand in ROWS_BY_HAND:
        check_lent_row(tally, head, row, by_hand)
    for (number, head, row), room, length in itertools.product(REFUSED_PLANS, (0, 5, math.inf), (0, 3, 500)):
        got = openings_answer(head, row, room, [9] * length)
        tally.check("all openings: plans refused", got == (number, [9] * length), (head, row, room, length, got))
    for data, text in OPENINGS_TEXTS:
        tally.check("all openings: texts", openings_text(data) == text, (data.hex(), openings_text(data)))


# ---- The engine without rows


def check_plain_refusals(tally):
    """The numbers of a plan come before that of a question or of a plan that is too large."""
    for (number, head, row), question in itertools.product(REFUSED_PLANS, (SURVIVE, Question("both", 25), Question("high", 321))):
        got = plain_answer(head, row, question)
        tally.check("plain engine: plans refused", got == (number, 0, 0), (head, row, question, got))
    refused = (one for one in OPENINGS_TEXTS if one[1].startswith("refused"))
    for (data, text), question in itertools.product(refused, (SURVIVE, Question("both", 25))):
        tally.check("trees: bytes refused", tree_text(data, question) == text, (data.hex(), question))


# ---- Two plans


def moved_chance(rng, chance):
    """One part more or less, another close by, or any."""
    near = rng.randrange(2 ** rng.randrange(1, 30))
    return min(S, max(0, rng.choice([chance, chance + 1, chance - 1, chance + near, chance - near, some_chance(rng)])))


def with_chances(plan, chances):
    return plan._replace(chances=chances)


def other_plans(rng, plan):
    """Every chance another; one month's alone, if there is one."""
    yield with_chances(plan, [moved_chance(rng, chance) for chance in plan.chances])
    if plan.chances:
        at = rng.randrange(len(plan.chances))
        yield with_chances(plan, changed(plan.chances, at, moved_chance(rng, plan.chances[at])))


def check_moved(tally, name, plans, months, weights, pairs, about):
    """Of the same question on both plans: its weights and its bounds. The first so many months count."""
    apart, whole = chances_apart(*plans, months), S ** (2 * plans[0].head.months)
    lower, upper = (difference(*bound) for bound in zip(*pairs))
    tally.check(f"{name} move: exact answers by the sum", difference(*weights) * S <= apart * whole, about)
    tally.check(f"{name} move: lower bounds by the sum and the months", lower <= apart + more_months(*plans, months), about)
    tally.check(f"{name} move: both bounds by the sum alone", max(lower, upper) <= apart, about)


def check_moves(tally, plans, asked):
    """Of these questions, of the whole count row and of every month's failure."""
    months = plans[0].head.months
    for question in asked:
        weights, pairs = zip(*((carried_weight(plan, question), bounds(plan, question)) for plan in plans))
        check_moved(tally, "questions", plans, months, weights, pairs, (plans, question))
    counts, failures = [carried_counts(plan) for plan in plans], [carried_failures(plan) for plan in plans]
    rows = (zip(count_row(plan, down), count_row(plan, up)) for plan in plans)
    for k, pairs in enumerate(zip(*rows)):
        check_moved(tally, "count row", plans, months, [count[k] for count in counts], pairs, (plans, k))
    for t in all_months(plans[0].head):
        pairs = [failure_bounds(plan, t) for plan in plans]
        check_moved(tally, "failures", plans, t, [failure[t] for failure in failures], pairs, (plans, t))


def check_sum_met(tally):
    """A fund that every claim ruins, with a claim in no month but one: every part of that month's chance moves the exact answers and the bounds."""
    cases = itertools.product((1, 3, 8), range(1, 5), itertools.permutations((0, 1, S // 3, S), 2))
    for c, t, chances in cases:
        head = Head(4, 0, 4 * c, c)
        plans = [plan_of(head, changed([0] * 4, t - 1, chance) + [0] * (4 * c - 1) + [S, 0]) for chance in chances]
        apart, whole = difference(*chances), S ** (2 * head.months)
        weights = [(carried_weight(plan, SURVIVE), carried_counts(plan)[1], carried_failures(plan)[t]) for plan in plans]
        for pair in zip(*weights):
            tally.check("the sum is met exactly", difference(*pair) * S == apart * whole, (c, t, chances, pair))
        for divide in (down, up):
            values = [(month_rule(plan, SURVIVE, divide), count_row(plan, divide)[1], failure_rule(plan, t, divide)) for plan in plans]
            tally.check("the sum is met by both bounds", all(difference(*pair) == apart for pair in zip(*values)), (c, t, chances, values))


def check_rising(tally, plan):
    """Neither survival bound falls when the opening grows, nor does the exact chance."""
    weights = (carried_weight(opened(plan, opening), SURVIVE) for opening in all_openings(plan.head))
    values = [(weight, *pair) for weight, pair in zip(weights, opening_pairs(plan))]
    for smaller, larger in itertools.combinations(range(len(values)), 2):
        falls = [name for name, a, b in zip(("exact", "lower", "upper"), values[smaller], values[larger]) if a > b]
        tally.check("survival does not fall when the opening grows", not falls, (plan, smaller, larger, falls))


def check_plan(tally, plan):
    listed, head = outcomes(plan), plan.head
    tally.check("all histories weigh S^(2n)", sum(one.weight for one in listed) == S ** (2 * head.months), plan)
    tally.check("an over claim of the least size ruins", plan.tail == 0 or largest_level(head) - (head.sizes + 1) <= 0, plan)
    for question in questions(head):
        check_question(tally, plan, listed, question)
    for level in range(largest_level(head) + 2):
        check_opening(tally, plan, listed, level)
    check_count_row(tally, plan, listed)
    check_listed_failures(tally, plan, listed)
    check_deficits(tally, plan, listed)


def check_long_plan(tally, plan):
    """A plan of as many months as there can be with its income, or of many."""
    top, months = largest_level(plan.head), plan.head.months
    levels = (Question(word, level) for word in ("high", "low") for level in (1, 2, plan.head.opening, top // 2, top - 1))
    for question in (SURVIVE, Question("both", 1), Question("both", CLAIMS), *levels):
        check_bounds(tally, "long plans", plan, months, carried_weight(plan, question), bounds(plan, question), (plan, question))
    counts = carried_counts(plan)
    for k, pair in enumerate(zip(count_row(plan, down), count_row(plan, up))):
        check_bounds(tally, "long plans, count row", plan, months, counts[k], pair, (plan, k))
    check_failures(tally, "long plans, failures", plan, carried_failures(plan), carried_weight(plan, SURVIVE))
    check_long_deficits(tally, plan)


SEVERAL_UNITS = Head(1, 0, 2, 2), [S // 2] * 3 + [0]  # two units a month, of which a claim of 1 leaves one and a claim of 2 none
SEVERAL_TEXT = """months 1 opening 0 sizes 2 income 2
survive 805306368 805306368
claims 0 536870912 536870912
claims 1 536870912 536870912
both 0 536870912 536870912
both 1 268435456 268435456
high 1 268435456 268435456
high 2 805306368 805306368
low 1 805306368 805306368
low 2 536870912 536870912
fails 1 268435456 268435456
fails all 268435456 268435456
"""

FAILURES_BY_HAND = [  # a plan, and the chance of failing in each of its months, in parts
    (Head(1, 0, 1, 2), [S // 2, S, 0], [0]),
    (Head(1, 0, 2, 2), [S // 2, 0, S, 0], [S // 2]),
    (Head(1, 1, 2, 2), [S // 2, 0, S, 0], [0]),
    (Head(2, 0, 3, 2), [S, S, S // 2, 0, S // 2, 0], [S // 2, S // 4]),  # 2 less 1 or 3, then 3 less 1 or 3
    (Head(2, 0, 15, 8), [S // 2, S, *[0] * 7, S // 2, *[0] * 7, S // 2], [S // 2, S // 4]),  # half of the claims are over, the others of 8
]


def check_several_units(tally):
    text = report(write_bytes(*SEVERAL_UNITS))
    tally.check("report with several units: text", text == SEVERAL_TEXT, text)
    for head, row, parts_by_month in FAILURES_BY_HAND:
        got = [failure_bounds(plan_of(head, row), t) for t in all_months(head)]
        tally.check("failures with several units, by hand", got == [(part, part) for part in parts_by_month], (head, row, got))
    for c in range(1, INCOME + 1):
        n = min(MONTHS, SPAN // c)
        u = SPAN - c * n
        got = [refusal(plan_checks(*flat(*head, c))) for head in ((n, u, 1), (n, u + 1, 1))]
        tally.check("spans", got == ([0, 3] if c == 1 else [0, 17]), (n, u, c, got))


# ---- Old plan files

OLD_EXAMPLE = bytes.fromhex("04 02 02 40 00 00 00 80 00 00 01 00 00 00 02" + 8 * " 00")  # document 01's own

REFUSED_OLD = [
    (1, b""),
    (1, OLD_EXAMPLE[:2]),
    (2, write_old(*flat(MONTHS + 1, OPENING + 1, 1))),
    (3, write_old(*flat(2, OPENING + 1, SIZES + 1))),
    (4, write_old(*flat(2, 3, SIZES + 1))[:3]),
    (4, write_old(Head(2, 3, 0), [S, S, S])),
    (5, OLD_EXAMPLE[:3]),
    (5, OLD_EXAMPLE[:-1]),
    (5, OLD_EXAMPLE + b"\0"),
    (6, OLD_EXAMPLE[:-1] + b"\1"),
    (7, write_old(Head(1, 1, 1), [S + 1, S, 1])),
    (8, write_old(Head(1, 3, 1), [S, S, 1])),
    (9, write_old(*flat(1, 3, 2, tail=1))),
]


def check_old_plan(tally, plan):
    """No old plan is taken for a new one: moved up by 4 bits, its weights never add to S."""
    tally.check("old plans, renewed", renewed(write_old(*plan)) == (0, write_bytes(*plan)), plan)
    tally.check("old plans, read as new ones", refusal(read_checks(write_old(*plan), math.inf)) != 0, plan)


def check_old_plans(tally):
    """The small plans of income 1 are renewed as well."""
    tally.check("old plans: the example", write_old(*EXAMPLE) == OLD_EXAMPLE and renewed(OLD_EXAMPLE) == (0, EXAMPLE_BYTES), OLD_EXAMPLE.hex())
    for plan in (flat(0, 0, 1), flat(1, 2, 2, tail=1), flat(MONTHS, OPENING, 1), flat(0, OPENING, SIZES), *timed_plans().values()):
        check_old_plan(tally, plan)
    for number, data in REFUSED_OLD:
        tally.check("old plans: refusals", renewed(data) == (number, b""), (number, data.hex()))


def check_paper(tally):
    """What documents 01 and 02 give in figures."""
    for head, row, question, number, lower, upper in WORKED:
        got = refusal(ask_checks(head, row, question, workspace_needed(head, question)))
        answer = (0, 0) if got else bounds(plan_of(head, row), question)
        tally.check("funds worked by hand", got == number and (lower is None or answer == (lower, upper)), (head, row, question))
    tally.check("report example: bytes", write_bytes(*EXAMPLE) == EXAMPLE_BYTES, EXAMPLE_BYTES.hex())
    tally.check("report example: text", report(EXAMPLE_BYTES) == EXAMPLE_TEXT, report(EXAMPLE_BYTES))
    no_months = report(write_bytes(*flat(0, 7, 3)))
    tally.check("report with no months: text", no_months.endswith(f"low 8 {S} {S}\nfails all 0 0\n"), no_months)
    for t, room, number in ((0, 8, 10), (1, 8, 0), (2, 8, 0), (3, 8, 10), (0, 0, 10), (1, 7, 11), (2, 7, 11), (3, 0, 10)):
        tally.check("failures of the example: refusals", refusal(failure_checks(*EXAMPLE, t, room)) == number, (t, room))
    tally.check("count row", PLACES == 121, f"{PLACES} places")
    tally.check("longest plan", byte_length(LARGEST) == 1713, f"{byte_length(LARGEST)} bytes")
    tally.check("stub", [refusal(read_checks(bytes(length), 0)) for length in range(5)] == [1, 1, 1, 1, 4], "fewer than 4 bytes")
    largest = 4 * workspace_needed(LARGEST, MOST_ASKED)
    tally.check("largest workspace", largest == 64200, f"{largest} bytes")


# ---- Rule sheets


def float_of(bits):
    return struct.unpack(">d", bits.to_bytes(8, "big"))[0]


def same_double(x, other):
    """A double of sheets.py and one of Python's."""
    return x == Fraction(other) if math.isfinite(other) else x == other or math.isnan(x) and math.isnan(other)


def some_double(rng):
    return rng.choice([0, SIGN]) + rng.randrange(INFINITE)


def some_odd(rng, exponent):
    return pattern((2 * rng.getrandbits(26) + 1) * power(exponent))


def double_pairs(rng):
    """Any two; two that are close; a double and half of its last digit; odd numbers of 27 digits, whose product may be halfway between two doubles,
    from the least to past the largest."""
    yield from itertools.product(DOUBLES, repeat=2)
    for _ in range(2000):
        bits, sign = some_double(rng), rng.choice([0, SIGN])
        yield bits, some_double(rng)
        yield bits, sign + bits % SIGN ^ rng.getrandbits(rng.randrange(53))
        yield bits, sign + pattern(rng.choice([1, 3, 5]) * power(last_place(value(bits)) - 1))
        for exponent in (-550, -540, -20, 485):
            yield some_odd(rng, exponent + rng.randrange(9)), sign + some_odd(rng, exponent - rng.randrange(9))


def check_doubles(tally, rng):
    for bits, other in double_pairs(rng):
        x, y, about = value(bits), value(other), (hex(bits), hex(other))
        p, q = float_of(bits), float_of(other)
        tally.check("doubles: value of the bits", same_double(x, p), about)
        if finite(x):
            tally.check("doubles: bits there and back", pattern(x) == bits or bits == SIGN, about)
            tally.check("doubles: parts", parts(x) == math.floor(Fraction(p) * 2**30), about)
        if finite(x) and finite(y):
            tally.check("doubles: sum", same_double(plus(x, y), p + q), about)
            tally.check("doubles: difference", same_double(plus(x, -y), p - q), about)
            tally.check("doubles: product", same_double(times(x, y), p * q), about)


def float_row(sheet):
    """The row of an accepted sheet in Python's floats, whose product with 2^30 is exact."""
    first, step, alpha = map(float_of, sheet[-3:])
    chances = [first if sheet.kind == LEVEL_KIND else first + (i - 1) * step for i in all_months(head_of(sheet))]
    weights = itertools.accumulate(itertools.repeat(alpha, sheet.sizes - 1), operator.mul, initial=1 - alpha)
    row = [math.floor(x * 2.0**30) for x in (*chances, *weights)]
    return row + [S - sum(row[sheet.months :])]


def check_sheet(tally, sheet):
    """One that may be refused."""
    data = write_sheet(sheet)
    tally.check("sheets: bytes there and back", read_sheet(data) == sheet == struct.unpack(">BBBHQQQ", data), sheet)
    if accepted(sheet):
        tally.check("sheets: the row in floats", plan_row(sheet) == float_row(sheet), sheet)
        tally.check("sheets: an accepted one makes an accepted plan", refusal(plan_checks(*made_plan(data))) == 0, sheet)


def check_sheet_plan(tally, name, data, plan):
    number = refusal(sheet_checks(data, row_length, math.inf))
    tally.check(name, number == 0 and made_plan(data) == plan, (data.hex(), number, plan))


SHEET_NUMBERS = [  # by document 02, 0 where the sheet is accepted
    (LEVEL, 0),
    (RAMP, 0),
    (RAMP._replace(kind=0), 12),
    (RAMP._replace(kind=3), 12),
    (RAMP._replace(kind=0, months=MONTHS + 1), 12),
    (NO_TAIL._replace(months=MONTHS, step=0), 0),
    (NO_TAIL._replace(months=MONTHS + 1, step=0), 2),
    (RAMP._replace(months=MONTHS + 1, opening=OPENING + 1), 2),
    (NO_TAIL._replace(opening=OPENING), 0),
    (NO_TAIL._replace(opening=OPENING + 1), 3),
    (RAMP._replace(opening=OPENING + 1, sizes=0), 3),
    (RAMP._replace(sizes=SIZES), 0),
    (RAMP._replace(sizes=SIZES + 1), 4),
    (RAMP._replace(sizes=0, alpha=ONE), 4),
    *((RAMP._replace(**{place: bits}), 13) for place in ("first", "step", "alpha") for bits in (INFINITE, SIGN + INFINITE, *NANS)),
    *((RAMP._replace(months=0, first=bits, step=bits), 0) for bits in (INFINITE - 1, SIGN + INFINITE - 1)),
    (RAMP._replace(months=0, first=INFINITE), 13),
    (LEVEL._replace(months=0, step=INFINITE), 13),
    *((LEVEL._replace(alpha=bits), number) for bits, number in ((0, 0), (SIGN, 0), (SIGN + 1, 13), (ONE - 1, 0), (ONE, 13), (ONE + 1, 13))),
    *((LEVEL._replace(step=bits), number) for bits, number in ((0, 0), (SIGN, 0), (1, 13), (SIGN + 1, 13), (ONE, 13))),
    *((LEVEL._replace(first=bits), number) for bits, number in ((0, 0), (SIGN, 0), (SIGN + 1, 13), (ONE, 0), (ONE + 1, 13))),
    *((RAMP._replace(months=n, first=HALF, step=HALF), number) for n, number in ((0, 0), (1, 0), (2, 0), (3, 13))),
    *((RAMP._replace(months=n, first=HALF, step=SIGN + HALF), number) for n, number in ((1, 0), (2, 0), (3, 13))),
    (RAMP._replace(months=2, first=SIGN + HALF, step=HALF), 13),
    (RAMP._replace(months=2, first=ONE + 1, step=SIGN + HALF), 13),
    (RAMP._replace(opening=RAMP.opening + 1), 9),
    (RAMP._replace(opening=RAMP.opening + 1, alpha=ONE), 13),
    (RAMP._replace(opening=RAMP.opening + 1, alpha=0), 0),
]


def check_sheet_numbers(tally):
    for sheet, number in SHEET_NUMBERS:
        for needed in (row_length, byte_length):
            got = [refusal(sheet_checks(write_sheet(sheet), needed, room)) for room in (math.inf, 0)]
            tally.check("sheets: refusals", got == [number, number or 11], (sheet, got, number))
    for length in (*range(SHEET_BYTES), SHEET_BYTES + 1, 2 * SHEET_BYTES):
        tally.check("sheets: lengths", refusal(sheet_checks(bytes(length), row_length, 0)) == 5, length)
    for sheet, needed in itertools.product((LEVEL, RAMP, LONE), (row_length, byte_length)):
        enough = needed(head_of(sheet))
        got = [refusal(sheet_checks(write_sheet(sheet), needed, room)) for room in (0, enough - 1, enough, enough + 1)]
        tally.check("sheets: rooms", got == [11, 11, 0, 0], (sheet, got))


def check_many_sheets(tally, rng):
    entries = itertools.chain(telling_ramps(rng), decimal_ramps(), *map(with_double, DOUBLES))
    sheets = (some_sheet(rng, brief_head(rng)) for _ in range(300))
    for sheet in (*(entry.sheet for entry in entries), *sheets, *(some_sheet(rng, LARGEST) for _ in range(10))):
        check_sheet(tally, sheet)
    alphas = *map(value, DOUBLES), *(rounded(some_share(rng)) for _ in range(1000))
    for alpha in alphas:
        if finite(alpha) and 0 <= alpha < 1:
            tally.check("sheets: weights do not pass S", sum(map(parts, claim_weights(alpha, SIZES))) <= S, alpha)


def check_sheets(tally, rng):
    check_doubles(tally, rng)
    for text, head, row in WORKED_SHEETS:
        check_sheet_plan(tally, "sheets worked by hand", bytes.fromhex(text), (head, row))
    case = geometric_plan(Head(12, 5, 20), Fraction(9, 10), lambda i: Fraction(i, 100))
    check_sheet_plan(tally, "sheet of source document 003's case 1", write_sheet(EXAMPLE_SHEET), case)
    check_sheet_numbers(tally)
    if not tally.failed:  # a wrong rule may accept too few sheets to find some, or too many to make their plans
        check_many_sheets(tally, rng)


def small_plans(rng):
    """Of one unit a month."""
    for _ in range(300):
        yield some_plan(rng, rng.randrange(5), rng.randrange(6), rng.randrange(1, 5))


def small_income_plans(rng):
    """Of two or three units a month, then of up to the most, with claims that can ruin."""
    for _ in range(200):
        yield some_plan(rng, rng.randrange(4), rng.randrange(4), rng.randrange(1, 9), rng.randint(2, 3))
    for c in range(4, INCOME + 1):
        for _ in range(8):
            yield some_plan(rng, rng.randint(1, 2), rng.randrange(3), rng.randint(c, 2 * c + 2), c)


def selftest():
    """Whether a check failed."""
    tally, rng, own = Tally(), random.Random(2), random.Random(6)  # the claim sums have random numbers of their own
    check_paper(tally)
    check_several_units(tally)
    check_old_plans(tally)
    check_sheets(tally, random.Random(9))
    for weights in claim_tables(own):
        check_claim_sums(tally, own, weights)
    check_small_divisions(tally, random.Random(15))
    check_least_numbers(tally)
    check_openings_numbers(tally)
    check_plain_refusals(tally)
    check_small_numbers(tally)
    check_mixes(tally, random.Random(57), REFUSED_PLANS)
    check_deficit_numbers(tally, REFUSED_PLANS)
    check_published_deficits(tally)
    check_deficit_plans(tally, random.Random(65))
    check_wide_walks(tally, random.Random(39))
    targets, others = random.Random(21), random.Random(33)
    for head, row in itertools.chain(small_plans(rng), small_income_plans(random.Random(45))):
        tally.check("accepted", refusal(ask_checks(head, row, SURVIVE, math.inf)) == 0, (head, row))
        tally.check("bytes there and back", read_bytes(write_bytes(head, row))[:2] == (head, row), (head, row))
        if head.income == 1:
            check_old_plan(tally, (head, row))
            check_trees(tally, plan_of(head, row))
        check_claim_sums(tally, own, plan_of(head, row).weights)
        check_plan(tally, plan_of(head, row))
        check_least_openings(tally, targets, plan_of(head, row))
        check_all_openings(tally, plan_of(head, row))
        check_rising(tally, plan_of(head, row))
        for other in other_plans(others, plan_of(head, row)):
            check_moves(tally, (plan_of(head, row), other), questions(head))
    check_sum_met(tally)
    for head, row in tree_plans(random.Random(51)):
        check_trees(tally, plan_of(head, row))
    for n, u, m, c in ((MONTHS, 0, 2, 1), (MONTHS, 3, 5, 1), (MONTHS, 7, 1, 1), (MONTHS, 3, 6, 2), (SPAN // INCOME, 0, 24, INCOME)):
        plan = plan_of(*lasting_plan(rng, n, u, m, c))
        check_long_plan(tally, plan)
        check_least_openings(tally, targets, plan)
        check_all_openings(tally, plan)
        check_rising(tally, plan)
        for other in other_plans(others, plan):
            check_moves(tally, (plan, other), [SURVIVE, Question("both", 1), Question("high", u + 9 * c), Question("low", 2)])
    tally.print()
    return bool(tally.failed)
