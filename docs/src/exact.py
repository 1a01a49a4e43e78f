"""Exact chances, in three ways that use nothing of the month rule: every history listed, and the published recursions, on small plans; on long
ones the histories carried forward together that have come to the same level.

Written from documents 01 and 02 and source document 000 alone.
"""
import itertools
import math
from collections import Counter, namedtuple
from fractions import Fraction

from rules import S

# ---- Document 01: "A history gives each month no claim, one size, or over"

NO_CLAIM, TAIL = 0, math.inf  # a month's event is one of these (TAIL is an over claim) or a claim's size

Outcome = namedtuple("Outcome", "weight opening path claims")  # of a history; the path is U_1 to U_n


def events(plan):
    return [NO_CLAIM, *range(1, len(plan.weights) + 1), TAIL]


def histories(plan):
    return itertools.product(events(plan), repeat=len(plan.chances))


def month_weight(plan, chance, event):
    if event == NO_CLAIM:
        return (S - chance) * S
    return chance * (plan.tail if event == TAIL else plan.weights[event - 1])


def path(plan, history):
    """U_1 to U_n; an over claim, whatever its size, leaves no level above 0 (the level is minus infinity here)."""
    opening, income = plan.head.opening, plan.head.income
    return list(itertools.accumulate(history, lambda level, event: level + income - event, initial=opening))[1:]


def outcome(plan, history):
    weight = math.prod(month_weight(plan, chance, event) for chance, event in zip(plan.chances, history))
    return Outcome(weight, plan.head.opening, path(plan, history), sum(event != NO_CLAIM for event in history))


def outcomes(plan):
    return [outcome(plan, history) for history in histories(plan)]


def level_kept(question, level):
    """Whether a month may end at this level."""
    if question.word == "high":
        return 0 < level <= question.number
    if question.word == "low":
        return 0 < level and level >= question.number
    return 0 < level


def opening_kept(question, opening):
    """Whether the fund may open so: "high L holds only if u is at most L as well"; U_0 does not count in low."""
    return question.word != "high" or opening <= question.number


def keeps(question, one):
    """Whether the outcome keeps the question's condition."""
    placed = question.word != "both" or one.claims == question.number
    return placed and opening_kept(question, one.opening) and all(level_kept(question, level) for level in one.path)


def question_weight(listed, question):
    """W of the enclosure rule."""
    return sum(one.weight for one in listed if keeps(question, one))


def count_weight(listed, k):
    """Exactly k claims, ruin or not."""
    return sum(one.weight for one in listed if one.claims == k)


def first_ruin(one):
    """The month of it; None where the fund survives."""
    return next((t for t, level in enumerate(one.path, 1) if level <= 0), None)


def failure_weight(listed, t):
    """First ruin in month t."""
    return sum(one.weight for one in listed if first_ruin(one) == t)


def level_before(one, t):
    """U_{t-1}; "U_0 = u"."""
    return one.path[t - 2] if t > 1 else one.opening


def deficit_weights(listed):
    """First ruin in month t, from level i, at a level of minus j, by t, i and j. Of an over claim j is TAIL, for it "has no known deficit"."""
    weights = Counter()
    for one in listed:
        t = first_ruin(one)
        if t is not None:
            weights[t, level_before(one, t), -one.path[t - 1]] += one.weight
    return weights


def known_deficits(weights, t):
    """Those of month t that are no over claim's, by i and j."""
    return Counter({(i, j): weight for (month, i, j), weight in weights.items() if month == t and j != TAIL})


def tail_weight(weights, t):
    """First ruin in month t by an over claim, from any level."""
    return sum(weight for (month, _, j), weight in weights.items() if month == t and j == TAIL)


# ---- The same weights on plans whose histories are too many to list


def carried(plan, first, following):
    """The weights of the histories by the state that they come to; `following` gives the state after an event, None where a history is dropped."""
    weights = Counter({first: 1})
    for chance in plan.chances:
        after = Counter()
        for state, weight in weights.items():
            for event in events(plan):
                after[following(state, event)] += weight * month_weight(plan, chance, event)
        del after[None]
        weights = after
    return weights


def carried_weight(plan, question):
    """W, from the levels and, for both, the claims that can still be the number asked."""
    tallied = question.word == "both"

    def following(state, event):
        level, claims = state[0] + plan.head.income - event, state[1] + (tallied and event != NO_CLAIM)
        return (level, claims) if level_kept(question, level) and claims <= question.number else None

    if not opening_kept(question, plan.head.opening):
        return 0
    weights = carried(plan, (plan.head.opening, 0), following)
    return sum(weight for (_, claims), weight in weights.items() if not tallied or claims == question.number)


def carried_counts(plan):
    """The weights of exactly k claims, by k."""
    return carried(plan, 0, lambda claims, event: claims + (event != NO_CLAIM))


def carried_failures(plan):
    """The weights of first ruin in month t, by t: a state is the months up to the present or the ruin, and the level, None after a ruin."""

    def following(state, event):
        t, level = state
        if level is None:
            return state
        after = level + plan.head.income - event
        return t + 1, after if after > 0 else None

    weights = carried(plan, (0, plan.head.opening), following)
    return Counter({t: weight for (t, level), weight in weights.items() if level is None})


def carried_levels(plan, months):
    """The weights of the histories of the first so many months that do not ruin, by the level that they come to."""

    def following(level, event):
        after = level + plan.head.income - event
        return after if after > 0 else None

    return carried(plan._replace(chances=plan.chances[:months]), plan.head.opening, following)


def carried_deficits(plan, t):
    """The weights of first ruin in month t, by t, i and j as above: every later month multiplies them by the weight of all that it may bring."""
    income, chance, later = plan.head.income, plan.chances[t - 1], S ** (2 * (len(plan.chances) - t))
    weights = Counter()
    for level, weight in carried_levels(plan, t - 1).items():
        for event in events(plan):
            if level + income - event <= 0:
                weights[t, level, event - level - income] += weight * month_weight(plan, chance, event) * later
    return weights


# ---- Enclosure and gap rule

GAP = 1  # parts of S that a month with a chance above 0 may cost: "Z instead of 2 × Z"


def encloses(plan, weight, lower, upper):
    whole = S ** (2 * len(plan.chances))
    return lower * whole <= weight * S <= upper * whole


def keeps_gap(plan, months, lower, upper):
    """Counting the first so many months."""
    return lower <= upper <= lower + GAP * sum(chance > 0 for chance in plan.chances[:months])


# ---- The published recursions in fractions (source document 000, Theorems 2.1 and 3.2), for an income of 1 alone
#
# p has the chances that are left: they go on from month t + 1, as document 01's traps say. f(x) is the chance of size x.


def claim_chance(plan):
    return lambda x: Fraction(plan.weights[x - 1], S) if x <= len(plan.weights) else Fraction(0)


def first_claim_survival(p, f, u):
    """P_u(T > n): by the month t of the first claim and its size x."""
    if not p:
        return Fraction(1)
    total, waiting, first_claims = Fraction(0), Fraction(1), Fraction(0)
    for t in range(1, len(p) + 1):
        first_claim = p[t - 1] * waiting
        later = (f(x) * first_claim_survival(p[t:], f, u + t - x) for x in range(1, u + t))
        total += first_claim * sum(later)
        first_claims += first_claim
        waiting *= 1 - p[t - 1]
    return total + (1 - first_claims)


def first_claim_both(p, f, u, k):
    """P_u(N_n = k, T > n)."""
    if k == 0:
        return math.prod((1 - chance for chance in p), start=Fraction(1))
    total, waiting = Fraction(0), Fraction(1)
    for t in range(1, len(p) + 1):
        later = (f(x) * first_claim_both(p[t:], f, u + t - x, k - 1) for x in range(1, u + t))
        total += p[t - 1] * waiting * sum(later)
        waiting *= 1 - p[t - 1]
    return total
