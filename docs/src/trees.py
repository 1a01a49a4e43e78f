"""Document 02's engine without rows, and the tree that it walks: "the value at a level in a month asks for the values it needs in the next month".

Written from documents 01 and 02 alone, not from the engine or its definitions.
"""
import math
from collections import namedtuple
from functools import cache

from rules import LEVEL, SURVIVE, Question, S, allowed, down, number_of, plain_checks, plan_of, read_bytes, read_checks, refusal, small_checks, up

Node = namedtuple("Node", "month level left")  # months ended, the level then, the claims left to place, which only both looks at
Branch = namedtuple("Branch", "words weight node")  # an event of the month after a node; no node where no claim is left to place


def opening_node(plan, question):
    return Node(0, plan.head.opening, question.number if question.word == "both" else 0)


def forbidden(question, node):
    """In month 0 by high alone: "its sentences on U_0 and on n = 0 speak of low alone"."""
    return not allowed(question, node.level) and (node.month > 0 or question.word == "high")


def chance_after(plan, node):
    """That of a claim in the month that the node comes before."""
    return plan.chances[node.month]


def quiet_branch(plan, node):
    weight = (S - chance_after(plan, node)) * S
    return Branch("no claim", weight, node._replace(month=node.month + 1, level=node.level + 1))


def claim_branches(plan, question, node):
    """Of the sizes that are not empty and do not ruin, rising."""
    month, level, left = node
    after = left - (question.word == "both")
    for x, share in enumerate(plan.weights[:level], 1):
        if share > 0:
            led_to = Node(month + 1, level + 1 - x, after) if after >= 0 else None
            yield Branch(f"claim {x} weight {share}", chance_after(plan, node) * share, led_to)


def branches(plan, question, node):
    return [quiet_branch(plan, node), *claim_branches(plan, question, node)]


def values(plan, question, divide):
    """The value of a node in one rounding, each worked once."""

    @cache
    def value(node):
        if node is None or forbidden(question, node):
            return 0
        if node.month == plan.head.months:
            return 0 if node.left else S
        return divide(sum(branch.weight * value(branch.node) for branch in branches(plan, question, node)), S * S)

    return value


def plain_bounds(plan, question):
    return tuple(values(plan, question, divide)(opening_node(plan, question)) for divide in (down, up))


def plain_answer(head, row, question):
    """The refusal's number and the bounds, or zeros."""
    number = refusal(plain_checks(head, row, question))
    return number, *((0, 0) if number else plain_bounds(plan_of(head, row), question))


# ---- The tree as text


def followed(plan, question, node):
    return node.month < plan.head.months and not forbidden(question, node)


def next_nodes(plan, question, nodes):
    """Those that a branch of a weight above 0 leads to."""
    led_from = (node for node in nodes if followed(plan, question, node))
    return {branch.node for node in led_from for branch in branches(plan, question, node) if branch.weight > 0} - {None}


def highest_first(nodes):
    return sorted(nodes, key=lambda node: (-node.level, -node.left))


def place(question, node):
    if node is None:
        return "none left"
    if forbidden(question, node):
        return f"level {node.level} forbidden"
    return f"level {node.level} left {node.left}" if question.word == "both" else f"level {node.level}"


def node_lines(plan, question, lower, upper, node):
    """The node's own line and, where it is followed, what the next month brings."""

    def place_and_bounds(node):
        return f"{place(question, node)} {lower(node)} {upper(node)}"

    yield f"month {node.month} {place_and_bounds(node)}"
    if followed(plan, question, node):
        yield f"  chance {chance_after(plan, node)}"
        for branch in branches(plan, question, node):
            yield f"  {branch.words} {place_and_bounds(branch.node)}"
        yield f"  ruin weight {sum(plan.weights[node.level :]) + plan.tail}"


def tree_lines(plan, question):
    """Month by month, in each from the highest level down, at each level from the most claims left down."""
    lower, upper = (values(plan, question, divide) for divide in (down, up))
    nodes = {opening_node(plan, question)}
    for _ in range(plan.head.months + 1):
        for node in highest_first(nodes):
            yield from node_lines(plan, question, lower, upper, node)
        nodes = next_nodes(plan, question, nodes)


def tree_text(data, question):
    """What the program prints of plan bytes, or the refusal: reading's number, then 10."""
    number, lines = refusal(read_checks(data, math.inf)), ()
    if not number:
        head, row, _ = read_bytes(data)
        number = refusal(small_checks(head, question))
        lines = () if number else tree_lines(plan_of(head, row), question)
    return f"refused {number}\n" if number else "".join(line + "\n" for line in lines)


NUMBERED = "both", "high", "low"  # the words of a question that are followed by its number


def question_of(words):
    """The question of the program's arguments; None where they are none."""
    match words:
        case [] | ["survive"]:
            return SURVIVE
        case [word, number] if word in NUMBERED and number_of(number, LEVEL) is not None:
            return Question(word, number_of(number, LEVEL))
    return None
