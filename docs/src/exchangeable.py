"""Source document 004: where claims are exchangeable, survival by its Theorem 1 and the deficit by its Theorem 2, and a mix of eight plans that has
the same chances.

The claims of the theorems come with a chance that is drawn once, for all months, here from the beta(a, b) distribution of the source's (12).
Survival up to month n, or a deficit in month n, is a polynomial of degree n in that chance, and a Gauss rule of eight nodes takes the mean of every
polynomial of degree 15 or less: so up to 15 months a mix of eight plans, each with a level chance at a node, is the source's model but for the
rounding to parts of S.

Written from the source and document 02 alone. Fractions throughout; the nodes alone are cut, to 2^-DIGITS.
"""
import math
from collections import namedtuple
from fractions import Fraction
from functools import cache
from itertools import accumulate, pairwise

from mixes import PLANS
from rules import Head, S

BETA = 1, 9  # a and b of the source's Figures 1 and 2
ALPHA = Fraction(4, 5)  # of its geometric sizes, "in all cases"
MODEL_MONTHS = 2 * PLANS - 1  # the degree up to which the rule is exact
DIGITS = 256  # binary digits of a node

Rule = namedtuple("Rule", "nodes weights")

# ---- Theorem 1


def beta_moment(s, beta=BETA):
    """lambda_s = B(a + s, b) / B(a, b), the chance that s claims come in s months."""
    a, b = beta
    return math.prod((Fraction(a + i, a + b + i) for i in range(s)), start=Fraction(1))


def size_chance(x):
    """f(x) = (1 − alpha) alpha^(x−1)."""
    return (1 - ALPHA) * ALPHA ** (x - 1)


def joint_survival(p):
    """beta(u; n, k) = P_u(T > n, N_n = k) of a fund with the chance p in every month, by the source's recursion on the first claim; u + t is the
    level before a claim in month t."""

    @cache
    def after_claim(level, n, k):
        return sum(size_chance(x) * joint(level - x, n, k) for x in range(1, level))

    @cache
    def joint(u, n, k):
        if k > n:
            return Fraction(0)
        if k == 0:
            return (1 - p) ** n
        return sum(p * (1 - p) ** (t - 1) * after_claim(u + t, n - t, k - 1) for t in range(1, n + 1))

    return joint


def counted_survival(p):
    """C(u; n, k), which "is independent of p" (Remark 1)."""
    joint = joint_survival(p)
    return lambda u, n, k: joint(u, n, k) / (p**k * (1 - p) ** (n - k))


COUNTED = counted_survival(Fraction(1, 2))


def exchangeable_survival(u, n, moment=beta_moment, counted=COUNTED):
    """P_u(T > n) of Theorem 1."""
    terms = ((-1) ** i * counted(u, n, k) * math.comb(n - k, i) * moment(k + i) for k in range(n + 1) for i in range(n - k + 1))
    return sum(terms)


# ---- Theorem 2

PRINTED = {  # Table 1, of an opening of 1: n, i and j, and P(n, i, j) as printed
    (5, 1, 0): "0.00020",
    (5, 2, 0): "0.00035",
    (5, 3, 0): "0.00046",
    (5, 1, 2): "0.00013",
    (5, 2, 2): "0.00022",
    (5, 3, 2): "0.00029",
    (10, 1, 0): "0.00007",
    (10, 2, 0): "0.00012",
    (10, 3, 0): "0.00015",
    (10, 5, 0): "0.00017",
    (10, 10, 0): "0.00057",
    (10, 1, 5): "0.00002",
    (10, 2, 5): "0.00004",
    (10, 5, 5): "0.00006",
    (10, 8, 5): "0.00005",
    (10, 10, 5): "0.00019",
}
PRINTED_OPENING, PRINTED_PLACES = 1, 5


def joint_level(p):
    """gamma(u; n, j, k) = P_u(T > n, U_n = j, N_n = k) of a fund with the chance p in every month, by Lemma 1."""

    @cache
    def after_claim(level, n, j, k):
        return sum(size_chance(x) * joint(level - x, n, j, k) for x in range(1, level))

    @cache
    def joint(u, n, j, k):
        if k == 0 and j == u + n:
            return (1 - p) ** n
        if k > 0 and j < u + n:
            return sum(p * (1 - p) ** (t - 1) * after_claim(u + t, n - t, j, k - 1) for t in range(1, n + 1))
        return Fraction(0)

    return joint


def counted_level(p):
    """D(u; n, i, k), which is independent of p as C is."""
    joint = joint_level(p)
    return lambda u, n, i, k: joint(u, n - 1, i, k) / (p**k * (1 - p) ** (n - k - 1))


COUNTED_LEVEL = counted_level(Fraction(1, 2))


def exchangeable_deficit(u, n, i, j, moment=beta_moment, counted=COUNTED_LEVEL):
    """P(n, i, j) of Theorem 2: ruin first comes in month n, from level i, at a level of minus j."""
    terms = ((-1) ** m * counted(u, n, i, k) * math.comb(n - k - 1, m) * moment(k + m + 1) for k in range(n) for m in range(n - k))
    return size_chance(i + j + 1) * sum(terms)


# ---- The Gauss rule of the beta distribution. A polynomial is the list of its coefficients, that of 1 first.


def plus(p, q):
    longer, shorter = sorted((p, q), key=len, reverse=True)
    return [x + y for x, y in zip(longer, [*shorter, *[0] * (len(longer) - len(shorter))])]


def scaled(by, p):
    return [by * x for x in p]


def times(p, q):
    return [sum(p[i] * q[k - i] for i in range(len(p)) if 0 <= k - i < len(q)) for k in range(len(p) + len(q) - 1)]


def value_at(p, x):
    return sum(coefficient * x**power for power, coefficient in enumerate(p))


def mean(p):
    """Of the polynomial at a chance that is drawn from the beta distribution."""
    return sum(coefficient * beta_moment(power) for power, coefficient in enumerate(p))


def orthogonal(degree):
    """The polynomials of degree 0, 1, .. whose products by one another have the mean 0, each with a first coefficient of 1."""
    found = []
    for power in range(degree + 1):
        p = [0] * power + [Fraction(1)]
        for q in found:
            p = plus(p, scaled(-mean(times([0] * power + [1], q)) / mean(times(q, q)), q))
        found.append(p)
    return found


GRID = 512  # steps from 0 to 1, so many that no two nodes lie in one


def root_between(p, low, high):
    """Halved again and again; p has one sign at low and the other at high."""
    while high - low > Fraction(1, 2**DIGITS):
        middle = (low + high) / 2
        low, high = (middle, high) if (value_at(p, middle) > 0) == (value_at(p, low) > 0) else (low, middle)
    return low


def roots(p):
    steps = pairwise(Fraction(i, GRID) for i in range(GRID + 1))
    return [root_between(p, low, high) for low, high in steps if (value_at(p, low) > 0) != (value_at(p, high) > 0)]


def node_weight(nodes, at):
    """The mean of the polynomial that is 1 at this node and 0 at the others."""
    p = [Fraction(1)]
    for other in nodes:
        if other != nodes[at]:
            p = scaled(1 / (nodes[at] - other), times(p, [-other, 1]))
    return mean(p)


@cache
def gauss_rule(count=PLANS):
    nodes = roots(orthogonal(count)[-1])
    return Rule(nodes, [node_weight(nodes, at) for at in range(len(nodes))])


# ---- The eight plans


def nearest(x):
    """Of parts of S."""
    return math.floor(x * S + Fraction(1, 2))


def parts_of(shares):
    """Parts of these shares, the first few of which are together as near as can be: those of shares that make up 1 add to S."""
    return [after - before for before, after in pairwise(map(nearest, accumulate(shares, initial=0)))]


def model_mix(u, n, sizes=None):
    """Weights, and plans of an income of 1; with no sizes given, those above the highest level, which ruin in any month, are over."""
    head, rule = Head(n, u, u + n if sizes is None else sizes, income=1), gauss_rule()
    weights = parts_of(map(size_chance, range(1, head.sizes + 1)))
    plans = [(head, [nearest(node)] * n + weights + [S - sum(weights)]) for node in rule.nodes]
    return parts_of(rule.weights), plans


PLACES = 7  # decimal places that the test program prints


def decimal(x, places=PLACES):
    """Rounded to the nearest."""
    whole, part = divmod(math.floor(x * 10**places + Fraction(1, 2)), 10**places)
    return f"{whole}.{part:0{places}}"


def from_edge(x, places=PLACES):
    """How far x is from where this rounding goes from one number to the next."""
    part = x * 10**places - math.floor(x * 10**places)
    return abs(part - Fraction(1, 2)) / 10**places
