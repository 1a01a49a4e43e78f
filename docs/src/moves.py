"""Document 02 on two plans that differ only in their chances: how far these can move the result.

Written from the document alone, not from the engine or its definitions.
"""
from rules import HEAD_BYTES, S, byte_length, plan_of, read_bytes


def difference(a, b):
    return max(a, b) - min(a, b)


def chances_apart(plan, other, months):
    """The sum of the differences of the chances over the first so many months."""
    return sum(difference(*pair) for pair in zip(plan.chances[:months], other.chances[:months]))


def later_changed(plan, t):
    """The same plan, but for every chance after month t."""
    return plan._replace(chances=plan.chances[:t] + [0 if chance else S for chance in plan.chances[t:]])


def more_months(plan, other, months):
    """The larger of the two numbers of months with a chance not zero, of the first so many."""
    return max(sum(chance != 0 for chance in one.chances[:months]) for one in (plan, other))


# ---- Two reports, line by line


def counted_months(plan, words):
    """Of the report's line with these words: "fails t" counts months 1 to t."""
    return int(words[1]) if words[0] == "fails" else plan.head.months


def report_moves(plan, other, report, other_report):
    """Each line's words, the differences of its two bounds and the sum that bounds them, but for the first line and the last, which adds others up."""
    for line, moved in list(zip(report.splitlines(), other_report.splitlines()))[1:-1]:
        *words, lower, upper = line.split()
        *_, other_lower, other_upper = moved.split()
        apart = chances_apart(plan, other, counted_months(plan, words))
        yield *words, difference(int(lower), int(other_lower)), difference(int(upper), int(other_upper)), apart


def split_plans(data):
    """Two plans' bytes, one after the other."""
    head, _, _ = read_bytes(data[:HEAD_BYTES])
    return data[: byte_length(head)], data[byte_length(head) :]


def moves_text(data, report):
    """The lines of two plans' reports, compared; `report` gives a plan's report."""
    both = split_plans(data)
    plans = (plan_of(head, row) for head, row, _ in map(read_bytes, both))
    return "".join("%s\n" % " ".join(map(str, move)) for move in report_moves(*plans, *map(report, both)))


def too_far(text):
    """The lines of that text that move by more than the sum."""
    moves = (line.split() for line in text.splitlines())
    return [words for words in moves if max(int(words[-3]), int(words[-2])) > int(words[-1])]
