#!/usr/bin/env python3
"""Holds two programs for the reserve report against each other, or two that turn rule sheets into plan bytes, or two that find the least opening, or
two that print the bounds of all openings, or two that print the tree of a small plan, or two that print the report of a mix, or two that print the
deficits of a month, or how far the lines of one's reports move between two plans against another program and the sum that bounds them.

  compare.py PROGRAM REFERENCE [COUNT]
  compare.py --sheets PROGRAM REFERENCE [COUNT]
  compare.py --least PROGRAM REFERENCE [COUNT]
  compare.py --openings PROGRAM REFERENCE [COUNT]
  compare.py --trees PROGRAM REFERENCE [COUNT]
  compare.py --mixes PROGRAM REFERENCE [COUNT]
  compare.py --deficits PROGRAM REFERENCE [COUNT]
  compare.py --moves PROGRAM REFERENCE [COUNT]

Makes COUNT (100) random accepted plans of all sizes and incomes, or sheets or mixes, and as many damaged ones, always the same, hands each to both
programs on standard input, and compares what they write on standard output and standard error, byte for byte. For the least opening it does so
with several targets, each a program's last argument; for trees with several questions, the last arguments, on plans of which most are small, some
just too large and some of any size; for deficits with two months, each the last argument, on plans of which most are of few months. For moves it
makes pairs of accepted plans alike but for their chances: PROGRAM prints the report of each, and
REFERENCE how far each line moves between them; a line that moves by more than the sum of the chances' differences counts as a difference. A program
may be a command of several words, given as one. The last line is the number of differences.
"""
import random
import shlex
import subprocess
import sys
import time
from collections import Counter, namedtuple

from mixes import PLANS, WEIGHT_BYTES, mix_bytes, write_mix
from moves import moves_text, too_far
from plans import changed, flipped, gapped, geometric, some_chance, split
from rules import CLAIMS, HEAD_BITS, HEAD_BYTES, INCOME, LARGEST, LEVEL, MONTHS, OPENING, SIZES, SMALL_INCOME, SMALL_MONTHS, SMALL_OPENING, SPAN
from rules import WIDTHS, Head, S, bit_length, byte_length, largest_level, write_bytes
from sheet_cases import damaged_sheet, some_sheet
from sheets import write_sheet

BEYOND = -(-byte_length(LARGEST) // 100) * 100  # a round number of bytes, a little past the longest plan

# ---- Accepted plans


def some_number(rng, least, most, *edges):
    inside = (edge for edge in edges if least <= edge <= most)
    return rng.choice([least, most, *inside, *(rng.randint(least, most) for _ in range(8))])


def sized_head(rng, n, u, c):
    """With some sizes."""
    tail_rule = u + c * n - 2, u + c * n - 1  # the last that it refuses and the first that it allows
    return Head(n, u, some_number(rng, 1, SIZES, 2, *tail_rule), c)


def sheet_head(rng):
    """Of income 1, as sheets have."""
    return sized_head(rng, some_number(rng, 0, MONTHS, 1, CLAIMS, CLAIMS + 1), some_number(rng, 0, OPENING, 1), 1)


def some_head(rng):
    """Of any income, often of the largest span that the other numbers allow."""
    c = rng.randint(1, INCOME)
    n = some_number(rng, 0, min(MONTHS, SPAN // c), 1, CLAIMS, CLAIMS + 1)
    return sized_head(rng, n, some_number(rng, 0, min(OPENING, SPAN - c * n), 1), c)


def small_head(rng):
    """Of a plan that has a tree; one in twelve is just too large, one of any size."""
    n, u = some_number(rng, 0, SMALL_MONTHS, 1), some_number(rng, 0, SMALL_OPENING, 1)
    small = Head(n, u, rng.choice([rng.randint(1, 4), rng.randint(1, u + n + 2), some_number(rng, 1, SIZES, u + n)]), SMALL_INCOME)
    large = [small._replace(months=SMALL_MONTHS + 1), small._replace(opening=SMALL_OPENING + 1), small._replace(income=rng.randint(2, INCOME))]
    return rng.choice([small] * 10 + [rng.choice(large), some_head(rng)])


def some_chances(rng, n):
    most = rng.choice([1, S // 100, S // 10, S // 3, S])
    return rng.choice([
        [0] * n,
        [S] * n,
        [rng.randint(0, most)] * n,
        [rng.randint(0, most) for _ in range(n)],
        [most * t // n for t in range(n)],
        [some_chance(rng) for _ in range(n)],
    ])


def filled(rng, parts, places):
    """parts numbers that add to S, none of them above 0 but at this many places or fewer."""
    numbers = [0] * parts
    for share in split(rng, places, 0):
        numbers[rng.randrange(parts)] += share
    return numbers


def some_weights(rng, parts):
    ones = [1] * parts
    ones[rng.randrange(parts)] = S - parts + 1
    return rng.choice([
        *(split(rng, parts, empty) for empty in (0, 2, 7)),
        *(filled(rng, parts, places) for places in (1, 2, 10)),
        gapped(rng, parts),
        geometric(parts - 1),
        ones,
    ])


def some_row(rng, head):
    """Over may be above 0 in half of the rows where the tail rule allows it."""
    m = head.sizes
    parts = m + 1 if m + 1 >= largest_level(head) and rng.randrange(2) else m
    return some_chances(rng, head.months) + some_weights(rng, parts) + [0] * (m + 1 - parts)


def accepted(rng, make_head=some_head):
    head = make_head(rng)
    return write_bytes(head, some_row(rng, head))


def accepted_small(rng):
    return accepted(rng, small_head)


# ---- Damaged ones, though a flipped bit may leave an accepted plan


def in_head(rng, head, row):
    return flipped(write_bytes(head, row), rng.randrange(HEAD_BITS))


def in_row(rng, head, row):
    return flipped(write_bytes(head, row), rng.randrange(HEAD_BITS, bit_length(head)))


def in_padding(rng, head, row):
    """A bit of the padding, or the row's last where there is none."""
    data = write_bytes(head, row)
    padding = bit_length(head)
    return flipped(data, min(rng.randrange(padding, padding + 8), 8 * len(data) - 1))


def one_more(rng, head, row):
    """A number of the row is one more or one less."""
    at = rng.randrange(len(row))
    step = 1 if row[at] == 0 or rng.randrange(2) else -1
    return write_bytes(head, changed(row, at, row[at] + step))


def with_tail(rng, head, row):
    """A part of one weight goes to over."""
    at = rng.choice([i for i in range(head.months, len(row)) if row[i] > 0])
    part = rng.randint(1, row[at])
    after = list(row)
    after[at] -= part
    after[-1] += part
    return write_bytes(head, after)


def shortened(rng, head, row):
    data = write_bytes(head, row)
    return data[: rng.choice([rng.randrange(len(data)), rng.randrange(HEAD_BYTES + 1), len(data) - 1])]


def lengthened(rng, head, row):
    """The longest of these are more than the report program reads."""
    return write_bytes(head, row) + rng.choice([bytes, rng.randbytes])(rng.choice([1, 2, rng.randrange(1, BEYOND), 5000]))


def random_row(rng, head, row):
    data = write_bytes(head, row)
    return data[:HEAD_BYTES] + rng.randbytes(len(data) - HEAD_BYTES)


def random_bytes(rng, head, row):
    return rng.randbytes(rng.choice([rng.randrange(HEAD_BYTES + 2), rng.randrange(BEYOND), byte_length(head)]))


def past_span(rng, head, row):
    """Another head and row: just past the span, or with an income that there is not, and a row that is as long as it should be."""
    c = rng.randint(2, INCOME)
    n = rng.randint(-(-(SPAN + 1 - OPENING) // c), min(MONTHS, SPAN // c))
    past = sized_head(rng, n, SPAN + 1 - c * n, rng.choice([c, c, 0, *range(INCOME + 1, 2**WIDTHS.income)]))
    return write_bytes(past, some_row(rng, past))


DAMAGES = [in_head, in_row, in_padding, one_more, with_tail, shortened, lengthened, random_row, random_bytes, past_span]


def damaged(rng, make_head=some_head):
    head = make_head(rng)
    return rng.choice(DAMAGES)(rng, head, some_row(rng, head))


def damaged_small(rng):
    return damaged(rng, small_head)


# ---- Sheets, of heads as these plans of income 1 have


def accepted_sheet(rng):
    return write_sheet(some_sheet(rng, sheet_head(rng)))


def some_damaged_sheet(rng):
    return damaged_sheet(rng, sheet_head(rng))


# ---- Pairs of plans that differ only in their chances, one after the other


def some_moves(rng, chances):
    """Each chance a little higher; one of them another, if there is one; each one part up or down; each another."""
    near, n = rng.randrange(1, 2 ** rng.randrange(1, 30)), len(chances)
    return rng.choice([
        [min(S, chance + near) for chance in chances],
        changed(chances, rng.randrange(n), some_chance(rng)) if n else [],
        [min(S, max(0, chance + rng.choice([-1, 1]))) for chance in chances],
        some_chances(rng, n),
    ])


def pair(rng):
    head = some_head(rng)
    row = some_row(rng, head)
    other = some_moves(rng, row[: head.months]) + row[head.months :]
    return write_bytes(head, row) + write_bytes(head, other)


# ---- Mixes


def mix_head(rng):
    """One in ten of any size; the others of few months, since the report of a mix takes as long as those of its plans."""
    if rng.randrange(10) == 0:
        return some_head(rng)
    return sized_head(rng, some_number(rng, 0, 12, 1), some_number(rng, 0, 20, 1), rng.randint(1, INCOME))


def some_mix(rng):
    """Weights, a head, and rows that differ only in their chances; some do not differ."""
    head, count = mix_head(rng), rng.randint(1, PLANS)
    row = some_row(rng, head)
    chances, table = row[: head.months], row[head.months :]
    return some_weights(rng, count), head, [some_moves(rng, chances) + table for _ in range(count)]


def whole_mix(weights, head, rows):
    return write_mix(weights, [(head, row) for row in rows])


def accepted_mix(rng):
    return whole_mix(*some_mix(rng))


def wrong_plan(rng, weights, head, rows):
    """One plan's bytes are damaged as those of a plan by itself."""
    plans, at = [write_bytes(head, row) for row in rows], rng.randrange(len(rows))
    return mix_bytes(weights, changed(plans, at, rng.choice(DAMAGES)(rng, head, rows[at])))


def past_limit(rng, weights, head, rows):
    """One plan's head is past the limit of one of its fields, or has no size or no income; its row is as it was."""
    past = {"months": MONTHS + 1, "opening": OPENING + 1, "sizes": SIZES + 1, "income": INCOME + 1}
    field = rng.choice(Head._fields)
    wrong = rng.randint(past[field], 2 ** getattr(WIDTHS, field) - 1)
    if field in ("sizes", "income") and rng.randrange(2):
        wrong = 0
    plans, at = [(head, row) for row in rows], rng.randrange(len(rows))
    return write_mix(weights, changed(plans, at, (head._replace(**{field: wrong}), rows[at])))


def unlike_plan(rng, weights, head, rows):
    """One plan has another table, or one part of it elsewhere, or is another in a field of its head."""
    field = rng.choice(Head._fields)
    before = getattr(head, field)
    other = head._replace(**{field: before + 1 if before < 2 or rng.randrange(2) else before - 1})
    plans, at, row = [(head, row) for row in rows], rng.randrange(len(rows)), rows[0]
    one, another = rng.choices(range(head.months, len(row)), k=2)
    moved = changed(row, one, row[one] - 1) if row[one] > 0 else row
    another_plan = [(head, some_row(rng, head)), (head, changed(moved, another, moved[another] + 1)), (other, some_row(rng, other))]
    return write_mix(weights, changed(plans, at, rng.choice(another_plan)))


def wrong_weights(rng, weights, head, rows):
    """One part more or less; any; or S only in the last 32 bits of the sum."""
    at, other = rng.randrange(len(rows)), rng.randrange(len(rows))
    moved = changed(weights, at, min(weights[at] + 2**31, 2**32 - 1))
    wrong = rng.choice([
        changed(weights, at, weights[at] + 1 if weights[at] == 0 or rng.randrange(2) else weights[at] - 1),
        changed(weights, at, rng.getrandbits(8 * WEIGHT_BYTES)),
        changed(moved, other, min(moved[other] + 2**31, 2**32 - 1)),
    ])
    return whole_mix(wrong, head, rows)


def wrong_count(rng, weights, head, rows):
    return bytes([rng.choice([0, rng.randint(1, PLANS), PLANS + 1, rng.randrange(256)])]) + whole_mix(weights, head, rows)[1:]


def bit_of_mix(rng, weights, head, rows):
    data = whole_mix(weights, head, rows)
    before_plans = 1 + WEIGHT_BYTES * len(rows)
    return flipped(data, rng.randrange(8 * rng.choice([before_plans, before_plans + HEAD_BYTES, len(data)])))


def shortened_mix(rng, weights, head, rows):
    data = whole_mix(weights, head, rows)
    return data[: rng.choice([rng.randrange(len(data)), rng.randrange(1 + WEIGHT_BYTES * len(rows) + HEAD_BYTES), len(data) - 1])]


def lengthened_mix(rng, weights, head, rows):
    return whole_mix(weights, head, rows) + rng.choice([bytes, rng.randbytes])(rng.choice([1, byte_length(head), rng.randrange(1, 20000)]))


MIX_DAMAGES = [wrong_plan, wrong_plan, past_limit, unlike_plan, wrong_weights, wrong_count, bit_of_mix, shortened_mix, lengthened_mix]


def damaged_mix(rng):
    return rng.choice(MIX_DAMAGES)(rng, *some_mix(rng))


# ---- Arguments: none, a target for the least opening, or a question for a tree

TARGETS = 0, 1, S, S + 1, 2**32, 2**32 + 1, 2**64 + 1, 10**40  # the last ones are past S, whatever their last bits are


def no_arguments(rng, reference, data):
    return [()]


def some_target(rng):
    """Any, or one close to 0 or to S, where most bounds are."""
    near = rng.randrange(2 ** rng.randrange(30))
    return rng.choice([rng.randint(1, S), 1 + near, S - near])


def some_targets(rng, reference, data):
    """A random one, the bounds that the reference then gives, if any, and one more than these; some with leading zeros."""
    target = some_target(rng)
    answer, _ = reference.answer(data, str(target))
    found = [int(word) for word in answer.split()[2:]]
    for number in sorted({target, *found, *(bound + 1 for bound in found), rng.choice(TARGETS)}):
        yield [str(number).zfill(rng.choice([0, 0, 20]))]


QUESTIONS = 3  # that a tree is asked for, of each plan


def some_question(rng):
    """Its words, of which the number is mostly one that a small plan can come to."""
    word = rng.choice(["survive", "both", "both", "high", "high", "low", "low"])
    if word == "survive":
        return rng.choice([[], [word]])
    reached = SMALL_MONTHS if word == "both" else SMALL_OPENING + SMALL_MONTHS
    edge = rng.choice([CLAIMS, CLAIMS + 1, LEVEL, LEVEL + 1, 2**32 - 1, 2**32, 2**32 + 1, 2**64 + 1, 10**40])
    number = edge if rng.randrange(8) == 0 else rng.randint(0, reached + 1)
    return [word, str(number).zfill(rng.choice([0, 0, 20]))]


def some_questions(rng, reference, data):
    return [some_question(rng) for _ in range(QUESTIONS)]


# ---- The comparison

Matter = namedtuple("Matter", "given made makers arguments")  # what programs are given and make of it; how it is made, accepted and damaged
REPORTS = Matter("plans", "reports", {"accepted": accepted, "damaged": damaged}, no_arguments)
OPTIONS = {
    "--sheets": Matter("sheets", "plans", {"accepted": accepted_sheet, "damaged": some_damaged_sheet}, no_arguments),
    "--least": Matter("plans", "openings", {"accepted": accepted, "damaged": damaged}, some_targets),
    "--openings": Matter("plans", "lists of openings", {"accepted": accepted, "damaged": damaged}, no_arguments),
    "--trees": Matter("plans", "trees", {"accepted": accepted_small, "damaged": damaged_small}, some_questions),
    "--mixes": Matter("mixes", "reports", {"accepted": accepted_mix, "damaged": damaged_mix}, no_arguments),
    "--moves": Matter("pairs of plans", "within the sum", {"accepted": pair}, no_arguments),
}


class Program:
    def __init__(self, command):
        self.command, self.seconds = command, 0.0

    def answer(self, data, *arguments):
        """What it writes on standard output and on standard error."""
        start = time.perf_counter()
        ran = subprocess.run([*shlex.split(self.command), *arguments], input=data, capture_output=True, check=True)
        self.seconds += time.perf_counter() - start
        return ran.stdout, ran.stderr


class Reports(Program):
    """How far the lines of a report program's two reports move."""

    def answer(self, data):
        text = moves_text(data, lambda plan: super(Reports, self).answer(plan)[0].decode())
        return text.encode(), "".join(f"too far: {words}\n" for words in too_far(text)).encode()


def outcome(answer, made):
    """A refused plan is said on standard output, a refused sheet on standard error."""
    text = b"".join(answer)
    return text.decode().strip() if text.startswith(b"refused ") else made


def calls(rng, reference, inputs, arguments):
    for data in inputs:
        for words in arguments(rng, reference, data):
            yield data, *words


def compare(programs, called, made):
    """How often each outcome came, and the number of calls on which the programs differ."""
    outcomes, differences = Counter(), 0
    for data, *words in called:
        one, other = (program.answer(data, *words) for program in programs)
        outcomes[outcome(other, made)] += 1
        if one != other:
            differences += 1
            print("differs on", data.hex(), *words)
    return outcomes, differences


def main(words):
    matter = REPORTS
    if words and words[0] in OPTIONS:
        matter, words = OPTIONS[words[0]], words[1:]
    if len(words) not in (2, 3):
        sys.exit(__doc__)
    programs = [Reports(words[0]) if matter is OPTIONS["--moves"] else Program(words[0]), Program(words[1])]
    count = int(words[2]) if len(words) == 3 else 100
    rng, own, total = random.Random(4), random.Random(8), 0  # the arguments have random numbers of their own
    for name, make in matter.makers.items():
        inputs = (make(rng) for _ in range(count))
        outcomes, differences = compare(programs, calls(own, programs[1], inputs, matter.arguments), matter.made)
        total += differences
        print(f"{count} {name} {matter.given}: " + ", ".join(f"{number} {word}" for word, number in sorted(outcomes.items())))
    for program in programs:
        print(f"{program.command}: {program.seconds:.1f} s")
    print(f"{total} differences")
    return bool(total)


if __name__ == "__main__":
    sys.exit(main(sys.argv[1:]))
