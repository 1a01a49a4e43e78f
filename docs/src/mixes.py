"""Document 02's mixes: "1 to 8 plans alike but for their chances, each with a weight, the weights adding to S". What is turned away, the bounds, the
mix bytes and the report of a mix.

Written from document 02 alone, not from the engine or its definitions.
"""
import math
from collections import namedtuple

from rules import HEAD_BYTES, SURVIVE, S, bounds, byte_length, down, head_line, plan_checks, plan_of, question_checks, question_lines, read_bytes
from rules import read_checks, refusal, row_length, survive_line, up, write_bytes

PLANS = 8  # the most that a mix has
WEIGHT_BYTES = 4  # of a plan's weight in the mix bytes

Mix = namedtuple("Mix", "weights plans")  # as many of the one as of the other
MixAsk = namedtuple("MixAsk", "count heads weights row question room")  # what the call is given: eight heads and eight weights, and one lent row


def weighted_sum(weights, numbers):
    return sum(weight * number for weight, number in zip(weights, numbers))


def mix_bounds(mix, question):
    """"the weighted sum of the plans' lower bounds divided by S, rounded down, and the upper likewise up"."""
    lowers, uppers = zip(*(bounds(plan, question) for plan in mix.plans))
    return down(weighted_sum(mix.weights, lowers), S), up(weighted_sum(mix.weights, uppers), S)


# ---- Turned away


def count_checks(count):
    yield 18, count == 0 or count > PLANS


def alike(one, other):
    """Everywhere but in their chances."""
    return one._replace(chances=()) == other._replace(chances=())


def mix_checks(mix):
    """Of accepted plans: "plans unlike elsewhere or mix weights that do not add to S"."""
    yield 18, not all(alike(plan, mix.plans[0]) for plan in mix.plans)
    yield 18, sum(mix.weights) != S


def plan_rows(heads, row):
    """The plans' parts of the lent row, "end to end": each takes as many numbers as its head asks, or those that are left; the last takes all that
    are left. So "a row too short refuses the first plan it does not hold whole with 5, one too long the last plan"."""
    for head in heads[:-1]:
        yield row[: row_length(head)]
        row = row[row_length(head) :]
    yield row


def asked_plans(ask):
    """The heads and rows of as many plans as are counted; "those past the count not looked at"."""
    heads = ask.heads[: ask.count]
    return zip(heads, plan_rows(heads, ask.row))


def asked_mix(ask):
    """Of accepted plans."""
    return Mix(ask.weights[: ask.count], [plan_of(head, row) for head, row in asked_plans(ask)])


def mix_ask_checks(ask):
    """18 for the count "before any plan is read"; "the earliest refused plan gives its own number before these two"; "the desk is the question's on
    one plan"."""
    yield from count_checks(ask.count)
    for head, row in asked_plans(ask):
        yield from plan_checks(head, row)
    yield from mix_checks(asked_mix(ask))
    yield from question_checks(ask.heads[0], ask.question, ask.room)


def mix_answer(ask):
    """The refusal's number and the bounds, or zeros."""
    number = refusal(mix_ask_checks(ask))
    return number, *((0, 0) if number else mix_bounds(asked_mix(ask), ask.question))


# ---- Mix bytes: the count, the weights, most significant byte first, and the plans' bytes end to end


def mix_bytes(weights, plans):
    """From the plans' bytes."""
    return bytes([len(plans)]) + b"".join(x.to_bytes(WEIGHT_BYTES, "big") for x in weights) + b"".join(plans)


def write_mix(weights, plans):
    """From their heads and rows."""
    return mix_bytes(weights, [write_bytes(*plan) for plan in plans])


def weights_end(count):
    """How many bytes come before the plans' bytes."""
    return 1 + WEIGHT_BYTES * count


def plan_parts(count, data):
    """The plans' bytes: each takes as many as its head asks, or those that are left; the last takes all that are left."""
    for _ in range(count - 1):
        taken = byte_length(read_bytes(data[:HEAD_BYTES])[0]) if len(data) >= HEAD_BYTES else len(data)
        yield data[:taken]
        data = data[taken:]
    yield data


def read_mix(data):
    """Of bytes whose plans are accepted."""
    count = data[0]
    weights = [int.from_bytes(data[weights_end(i) : weights_end(i + 1)], "big") for i in range(count)]
    return Mix(weights, [plan_of(*read_bytes(part)[:2]) for part in plan_parts(count, data[weights_end(count) :])])


def mix_read_checks(data):
    yield 1, not data
    count = data[0]
    yield from count_checks(count)
    yield 1, len(data) < weights_end(count)
    for part in plan_parts(count, data[weights_end(count) :]):
        yield from read_checks(part, math.inf)
    yield from mix_checks(read_mix(data))


# ---- The report


def mix_lines(mix):
    """The reserve report's, without the lines of claims and of fails."""
    head = mix.plans[0].head
    yield head_line(head)
    yield survive_line(mix_bounds(mix, SURVIVE))
    yield from question_lines(head, lambda question: mix_bounds(mix, question))


def mix_report(data):
    """What the program prints of mix bytes: the mix's lines, or the refusal."""
    number = refusal(mix_read_checks(data))
    return f"refused {number}\n" if number else "".join(line + "\n" for line in mix_lines(read_mix(data)))
