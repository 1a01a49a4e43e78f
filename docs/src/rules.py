"""The rules of documents 01 and 02: plans and plan bytes, what is turned away, the month rule, the count row, failing in a month and how deep the
hole is, the least opening, all openings, the report.

Written from these documents and their sources alone, not from the engine or its definitions.
"""
import math
from collections import namedtuple
from fractions import Fraction
from itertools import accumulate, chain, pairwise

S = 2**30
MONTHS, OPENING, SIZES, INCOME, SPAN = 120, 200, 320, 8, 320  # the limits of n, u, m, c and of u + c × n
CLAIMS, LEVEL = 24, 320  # those of k in both, of L in high and low and of i and j of a deficit
SMALL_MONTHS, SMALL_OPENING, SMALL_INCOME = 6, 6, 1  # of a plan that the engine without rows takes: the most, and the one income
PLACES = MONTHS + 1  # of the count row

Head = namedtuple("Head", "months opening sizes income", defaults=[1])  # where none is said, the income is 1
Plan = namedtuple("Plan", "head chances weights tail")  # the tail is the paper's "over"
Question = namedtuple("Question", "word number")

NO_HEAD = Head(0, 0, 0, 0)  # what a refused reading answers
LARGEST = Head(MONTHS, OPENING, SIZES)  # with one unit a month it comes to the largest span
MOST_ASKED = Question("both", CLAIMS)  # what needs the largest workspace
SURVIVE = Question("survive", 0)
MOST = {"survive": math.inf, "both": CLAIMS, "high": LEVEL, "low": LEVEL}  # the largest number of a question


def plan_of(head, row):
    """A plan from its head and its row: chances, weights, over."""
    n, m = head.months, head.sizes
    return Plan(head, row[:n], row[n : n + m], row[n + m])


def levels_after(head, t):
    """Those that the end of month t can come to, from 0 on."""
    return range(head.opening + head.income * t + 1)


def largest_level(head):
    return head.opening + head.income * head.months


def all_months(head):
    return range(1, head.months + 1)


def all_openings(head):
    """From 0 to the plan's."""
    return range(head.opening + 1)


# ---- Plan bytes

WIDTHS = Head(7, 8, 9, 4)  # "n in 7 bits, u in 8, m in 9", the income in "4 bits after the sizes"
NUMBER_BITS = 31  # "then the row at 31 bits a number"
HEAD_BITS = sum(WIDTHS)
HEAD_BYTES = -(-HEAD_BITS // 8)  # fewer are a stub


def row_length(head):
    return head.months + head.sizes + 1


def bit_length(head):
    """Without the fill bits."""
    return HEAD_BITS + NUMBER_BITS * row_length(head)


def byte_length(head):
    return -(-bit_length(head) // 8)


def fields(bits, widths):
    """The numbers of these widths, from the first bit on."""
    return [int(bits[start:end], 2) for start, end in pairwise(accumulate(widths, initial=0))]


def write_bytes(head, row):
    bits = "".join(f"{x:0{width}b}" for x, width in zip(head, WIDTHS))
    bits += "".join(f"{x:0{NUMBER_BITS}b}" for x in row)
    bits += "0" * (-len(bits) % 8)
    return bytes(int(bits[i : i + 8], 2) for i in range(0, len(bits), 8))


def read_bytes(data):
    """The head, the row and the fill bits. Only the head is there where the length is not the head's."""
    bits = "".join(f"{byte:08b}" for byte in data)
    head = Head(*fields(bits, WIDTHS))
    if len(data) != byte_length(head):
        return head, None, None
    return head, fields(bits[HEAD_BITS:], [NUMBER_BITS] * row_length(head)), bits[bit_length(head) :]


# ---- Turned away: an entry's checks go in the order of the table's numbers, and 16 and 17 come "after 4 in that order"


def refusal(checks):
    """The number of the first check that fits; 0 is none."""
    return next((number for number, fits in checks if fits), 0)


def head_checks(head):
    yield 2, head.months > MONTHS
    yield 3, head.opening > OPENING
    yield 4, head.sizes == 0 or head.sizes > SIZES
    yield 16, head.income == 0 or head.income > INCOME
    yield 17, largest_level(head) > SPAN


def tail_checks(head, row):
    yield 9, row[-1] > 0 and head.sizes + 1 < largest_level(head)


def row_checks(head, row):
    yield 7, any(x > S for x in row)
    yield 8, sum(row[head.months :]) != S
    yield from tail_checks(head, row)


def plan_checks(head, row):
    yield from head_checks(head)
    yield 5, len(row) != row_length(head)
    yield from row_checks(head, row)


def question_checks(head, question, room):
    yield 10, question.number > MOST[question.word]
    yield 11, room < workspace_needed(head, question)


def ask_checks(head, row, question, room):
    yield from plan_checks(head, row)
    yield from question_checks(head, question, room)


def small_checks(head, question):
    """Of an accepted plan, for the engine without rows: the question's limits, and "a plan of more than 6 months, of an opening above 6, or of an
    income other than 1"."""
    yield 10, question.number > MOST[question.word]
    yield 10, head.months > SMALL_MONTHS or head.opening > SMALL_OPENING or head.income != SMALL_INCOME


def plain_checks(head, row, question):
    yield from plan_checks(head, row)
    yield from small_checks(head, question)


def month_checks(head, t):
    """Of an accepted plan: "It refuses with 10 a month of 0 or above n"."""
    yield 10, t == 0 or t > head.months


def failure_checks(head, row, t, room):
    yield from plan_checks(head, row)
    yield from month_checks(head, t)
    yield 11, room < workspace_needed(head, SURVIVE)  # "Its desk is that of survive"


def deficit_checks(head, row, t, i, j, room):
    """"It refuses t of 0 or above n, or i or j above 320, with 10"."""
    yield from plan_checks(head, row)
    yield from month_checks(head, t)
    yield 10, i > LEVEL or j > LEVEL
    yield 11, room < workspace_needed(head, SURVIVE)  # "the desk is that of survive"


def target_checks(head, row, target, room):
    """Those before "none", which takes the answer to tell."""
    yield from plan_checks(head, row)
    yield 14, target == 0 or target > S  # "in the place of 10"
    yield 11, room < workspace_needed(head, SURVIVE)  # "Its desk is that of survive"


def openings_checks(head, row, room, places):
    yield from plan_checks(head, row)
    yield 11, room < workspace_needed(head, SURVIVE)  # "with a desk as for survive"
    yield 11, places < places_needed(head)  # "a short row with 11, like a short desk"


def write_checks(head, row, room):
    yield from plan_checks(head, row)
    yield 11, room < byte_length(head)


def read_checks(data, room):
    yield 1, len(data) < HEAD_BYTES
    head, row, fill = read_bytes(data)
    yield from head_checks(head)
    yield 5, row is None
    yield 6, "1" in fill
    yield from row_checks(head, row)
    yield 11, room < row_length(head)


def workspace_needed(head, question):
    """The paper's desk: a row over the levels for each rounding, for a month's failure, a deficit, the least opening and all openings too, and for
    both k that times k + 1."""
    rows = question.number + 1 if question.word == "both" else 1
    return 2 * (largest_level(head) + 1) * rows


def places_needed(head):
    """Of the lent row for all openings: "2 × (u + 1) numbers"."""
    return 2 * (head.opening + 1)


# ---- The month rule and the count row, with the division as a parameter


def down(x, by):
    return x // by


def up(x, by):
    return -(-x // by)


def unrounded(x, by):
    return Fraction(x) / by


def allowed(question, level):
    if question.word == "high":
        return level <= question.number
    if question.word == "low":
        return level >= question.number
    return True


def claim_sum(weights, after, level):
    """The sum of F_x × after(level − x) over the sizes x = min(level − 1, m) .. 1 that are not empty, and "how many products it added". The level is
    s + c, the one before the claim."""
    largest = min(level - 1, len(weights))
    pairs = zip(reversed(weights[:largest]), after[level - largest :])  # from the largest size in range down
    products = [weight * value for weight, value in pairs if weight != 0]
    return sum(products), len(products)


def month(divide, weights, chance, quiet, claimed, level):
    """The value before a month whose income brings the fund to this level, from the rows read without and with a claim: "the exact quotient by S ×
    S, rounded once down or up"."""
    claims, _ = claim_sum(weights, claimed, level)
    return divide((S - chance) * S * quiet[level] + chance * claims, S * S)


def last_rows(plan, question):
    """V_n over the levels 0, 1, ..: a row for each number of claims left to place, none left first."""
    levels = largest_level(plan.head) + 1
    unplaced = question.number if question.word == "both" else 0
    return [[S] * levels] + [[0] * levels for _ in range(unplaced)]


def month_back(plan, question, t, rows, divide):
    """The rows V_{t-1} from the rows V_t, over the levels that month t can begin at."""
    kept = [[v if allowed(question, s) else 0 for s, v in enumerate(row)] for row in rows]
    claimed = kept
    if question.word == "both":  # "a claim lowers it by one, and a claim with none left adds 0"
        claimed = [[0] * len(kept[0]), *kept[:-1]]
    chance, income, levels = plan.chances[t - 1], plan.head.income, levels_after(plan.head, t - 1)
    return [[month(divide, plan.weights, chance, *pair, s + income) for s in levels] for pair in zip(kept, claimed)]


def walked_back(plan, question, months, rows, divide):
    """The rows before month 1, over the levels from 0 to the opening, from those at the end of this many months."""
    for t in range(months, 0, -1):
        rows = month_back(plan, question, t, rows, divide)
    return rows


def carried_back(plan, question, months, rows, divide):
    """The value at the opening."""
    return walked_back(plan, question, months, rows, divide)[-1][plan.head.opening]


def month_rule(plan, question, divide):
    """V_0(u); for high it "is then also taken as 0 where u is above L"."""
    if question.word == "high" and plan.head.opening > question.number:
        return 0
    return carried_back(plan, question, plan.head.months, last_rows(plan, question), divide)


def ruin_rule(plan, t, counted, divide):
    """The value at the opening of a first ruin in month t by a claim that counts: before the month, at each level s that it can begin at, P_t × (the
    weight of the claims that count there, which `counted` gives) divided by S; "the month rule carries it back"."""
    chance, levels = plan.chances[t - 1], levels_after(plan.head, t - 1)
    return carried_back(plan, SURVIVE, t - 1, [[divide(chance * counted(s), S) for s in levels]], divide)


def failure_rule(plan, t, divide):
    """Of failing first in month t: all sizes of s + c or more count, and over."""
    income = plan.head.income
    return ruin_rule(plan, t, lambda s: sum(plan.weights[s + income - 1 :]) + plan.tail, divide)


def deficit_size_weight(plan, i, j):
    """F of the size i + j + c, which leaves minus j of the level i; "a size above m gives 0"."""
    size = i + j + plan.head.income
    return plan.weights[size - 1] if size <= plan.head.sizes else 0


def deficit_rule(plan, t, i, j, divide):
    """Of failing first in month t, from level i, at a level of minus j: at level i that size alone counts, "and 0 at all others"."""
    weight = deficit_size_weight(plan, i, j)
    return ruin_rule(plan, t, lambda s: weight if s == i else 0, divide)


def count_month(row, chance, divide):
    return [divide(chance * fewer + (S - chance) * same, S) for fewer, same in zip([0, *row], row)]


def count_row(plan, divide):
    row = [S] + [0] * (PLACES - 1)
    for chance in plan.chances:
        row = count_month(row, chance, divide)
    return row


def bounds(plan, question):
    return month_rule(plan, question, down), month_rule(plan, question, up)


def failure_bounds(plan, t):
    return failure_rule(plan, t, down), failure_rule(plan, t, up)


def deficit_bounds(plan, t, i, j):
    return deficit_rule(plan, t, i, j, down), deficit_rule(plan, t, i, j, up)


def totals(pairs):
    """The sum of the lower bounds and that of the upper ones."""
    return tuple(map(sum, zip((0, 0), *pairs)))


def no_checks(head):
    return ()


def text_checks(data, more_checks):
    """Those of reading, then those of an accepted plan's head."""
    yield from read_checks(data, math.inf)
    head, _, _ = read_bytes(data)
    yield from more_checks(head)


def plan_text(data, lines, more_checks=no_checks):
    """What a program prints of plan bytes: the plan's lines, or the refusal."""
    number = refusal(text_checks(data, more_checks))
    if number:
        return f"refused {number}\n"
    head, row, _ = read_bytes(data)
    return "".join(line + "\n" for line in lines(plan_of(head, row)))


# ---- The least opening that is good enough

NONE = 15  # "exactly if no opening from 0 to the largest reaches the target"
OPENING_LINE = "opening %d %d %d"  # an opening and its bounds, as programs print them


def opened(plan, opening):
    """The same plan, its income too, with another opening."""
    return plan._replace(head=plan.head._replace(opening=opening))


def least_opening(plan, target):
    """Up to the plan's, which is "the largest allowed", "the smallest opening whose lower survival bound reaches the target": the refusal's
    number, the opening and its bounds. Each opening is asked by itself."""
    for opening in all_openings(plan.head):
        asked = opened(plan, opening)
        lower = month_rule(asked, SURVIVE, down)
        if lower >= target:
            return 0, opening, lower, month_rule(asked, SURVIVE, up)
    return NONE, 0, 0, 0


def least_answer(head, row, target, room):
    """The refusal's number, the opening and its bounds, or zeros; "none" comes "after 11"."""
    number = refusal(target_checks(head, row, target, room))
    return (number, 0, 0, 0) if number else least_opening(plan_of(head, row), target)


def number_of(word, most):
    """The number that a word of digits gives; one past the most may be cut, as long as it stays past it. None of any other word."""
    if not (word.isascii() and word.isdigit()):
        return None
    return int(word.lstrip("0")[: len(str(most)) + 1] or "0")


def target_of(word):
    return number_of(word, S)


def least_line(data, target):
    """What the program prints of plan bytes, which may be refused before the target is looked at."""
    number, answer = refusal(read_checks(data, math.inf)), ()
    if not number:
        head, row, _ = read_bytes(data)
        number, *answer = least_answer(head, row, target, math.inf)
    return f"refused {number}\n" if number else f"{OPENING_LINE}\n" % tuple(answer)


# ---- All openings


def opening_pairs(plan):
    """Lower and upper of each, "opening 0 first", "equal to asking one by one": each opening is asked by itself."""
    return [bounds(opened(plan, opening), SURVIVE) for opening in all_openings(plan.head)]


def walked_pairs(plan):
    """The same by one walk for all openings, for large plans, on which asking takes too long; the self-test holds it to asking."""
    (lowers,), (uppers,) = (walked_back(plan, SURVIVE, plan.head.months, last_rows(plan, SURVIVE), divide) for divide in (down, up))
    return list(zip(lowers, uppers))


def openings_answer(head, row, room, lent, pairs=opening_pairs):
    """The refusal's number and the lent row after the call, which a refusal does not change, nor an answer "past 2 × (u + 1) numbers"."""
    number = refusal(openings_checks(head, row, room, len(lent)))
    filled = [] if number else [*chain(*pairs(plan_of(head, row)))]
    return number, filled + lent[len(filled) :]


def opening_lines(plan):
    for opening, pair in zip(all_openings(plan.head), opening_pairs(plan)):
        yield OPENING_LINE % (opening, *pair)


def openings_text(data):
    return plan_text(data, opening_lines)


# ---- How deep the hole is


def deficit_answer(head, row, t, i, j, room):
    """The refusal's number and the bounds, or zeros."""
    number = refusal(deficit_checks(head, row, t, i, j, room))
    return number, *((0, 0) if number else deficit_bounds(plan_of(head, row), t, i, j))


def following_levels(plan, t, level):
    """Where month t can leave the fund above 0 from this level, by a chance above 0."""
    chance, before_claim = plan.chances[t - 1], level + plan.head.income
    if chance < S:
        yield before_claim
    if chance > 0:
        yield from (before_claim - x for x, weight in enumerate(plan.weights[: before_claim - 1], 1) if weight > 0)


def levels_before(plan, t):
    """Those that the fund can have before month t, not ruined till then, rising: the opening itself before month 1."""
    levels = {plan.head.opening}
    for earlier in range(1, t):
        levels = {after for level in levels for after in following_levels(plan, earlier, level)}
    return sorted(levels)


def deficit_pairs(plan, t):
    """The bounds by level i and deficit j, i rising and then j, for every pair "whose upper bound is above 0". Pairs of no weight, and levels that
    cannot be, are passed over: theirs are 0."""
    if plan.chances[t - 1] == 0:
        return {}
    sized = ((i, j) for i in levels_before(plan, t) for j in range(LEVEL + 1) if deficit_size_weight(plan, i, j) > 0)
    pairs = {(i, j): deficit_bounds(plan, t, i, j) for i, j in sized}
    return {place: pair for place, pair in pairs.items() if pair[1] > 0}


def deficit_lines(plan, t):
    """Then, for every deficit that has a line, the sums of the bounds of its lines: what must be borrowed in that month."""
    pairs = deficit_pairs(plan, t)
    for place, pair in pairs.items():
        yield "deficit %d %d %d %d" % (*place, *pair)
    for deficit in sorted({j for _, j in pairs}):
        yield "total %d %d %d" % (deficit, *totals(pair for (_, j), pair in pairs.items() if j == deficit))


def month_of(word):
    return number_of(word, MONTHS)


def deficits_text(data, t):
    """What the program prints of plan bytes, which may be refused before the month is looked at."""
    return plan_text(data, lambda plan: deficit_lines(plan, t), lambda head: month_checks(head, t))


# ---- The reserve report


def line_numbers(head):
    """The numbers of each question's lines, in the report's order."""
    yield "both", range(min(head.months, CLAIMS) + 1)
    yield "high", range(1, largest_level(head) + 1)
    yield "low", range(1, head.opening + head.income + 1)


def failure_lines(plan):
    pairs = [failure_bounds(plan, t) for t in all_months(plan.head)]
    for t, pair in zip(all_months(plan.head), pairs):
        yield "fails %d %d %d" % (t, *pair)
    yield "fails all %d %d" % totals(pairs)


def head_line(head):
    return "months %d opening %d sizes %d income %d" % head


def survive_line(pair):
    return "survive %d %d" % pair


def question_lines(head, bounds_of):
    """Those of both, high and low; `bounds_of` gives a question's bounds."""
    for word, numbers in line_numbers(head):
        for number in numbers:
            yield "%s %d %d %d" % (word, number, *bounds_of(Question(word, number)))


def report_lines(plan):
    yield head_line(plan.head)
    yield survive_line(bounds(plan, SURVIVE))
    for k, pair in zip(range(plan.head.months + 1), zip(count_row(plan, down), count_row(plan, up))):
        yield "claims %d %d %d" % (k, *pair)
    yield from question_lines(plan.head, lambda question: bounds(plan, question))
    yield from failure_lines(plan)


def report(data):
    return plan_text(data, report_lines)
