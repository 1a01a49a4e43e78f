"""The engine without rows and the trees it prints: a part of the self-test. What is printed is read back and held to the month rule over rows, to
the histories of exact.py and to trees worked by hand."""
import itertools
import re
from collections import namedtuple
from functools import cache

from exact import NO_CLAIM, carried, events, histories, level_kept, opening_kept, outcome
from plans import EXAMPLE, EXAMPLE_BYTES, ONE_SIZE, WORKED, flat, lasting_plan, questions, some_plan
from rules import INCOME, MONTHS, OPENING, S, SIZES, SURVIVE, Head, Question, bounds, down, up, write_bytes
from trees import plain_answer, question_of, tree_text

# ---- The text read back

# A place is the words that say where a node is, or where a branch leads.
PLACE = r"(level \d+|level \d+ left \d+|level \d+ forbidden|none left)"
NODE_LINE = re.compile(rf"month (\d+) {PLACE} (\d+) (\d+)")
CHANCE_LINE = re.compile(r"  chance (\d+)")
QUIET_LINE = re.compile(rf"  no claim {PLACE} (\d+) (\d+)")
CLAIM_LINE = re.compile(rf"  claim (\d+) weight (\d+) {PLACE} (\d+) (\d+)")
RUIN_LINE = re.compile(r"  ruin weight (\d+)")

Printed = namedtuple("Printed", "month place pair chance branches ruin", defaults=[None, [], None])  # a node, the last three from the lines below it
Led = namedtuple("Led", "claim place pair")  # a branch: the size and weight of its claim, or nothing, and where it leads


def read_line(form, line):
    """The numbers of a line, and its place, if it has one."""
    return [int(word) if word.isdigit() else word for word in form.fullmatch(line).groups()]


def read_branch(form, line):
    *claim, place, lower, upper = read_line(form, line)
    return Led(claim, place, (lower, upper))


def read_node(first, *below):
    month, place, *pair = read_line(NODE_LINE, first)
    if not below:
        return Printed(month, place, tuple(pair))
    chance, quiet, *claims, ruin = below
    branches = [read_branch(QUIET_LINE, quiet), *(read_branch(CLAIM_LINE, claim) for claim in claims)]
    return Printed(month, place, tuple(pair), *read_line(CHANCE_LINE, chance), branches, *read_line(RUIN_LINE, ruin))


def read_tree(text):
    return [read_node(*lines.splitlines()) for lines in re.split(r"(?m)^(?=month)", text)[1:]]


def level_and_left(place):
    """The numbers of a place that are there."""
    return [int(word) for word in place.split() if word.isdigit()]


# ---- Nodes, by the histories: months ended, the level then and for both the claims left to place


def first_node(plan, question):
    return 0, plan.head.opening, question.number if question.word == "both" else 0


def kept(question, node):
    t, level, _ = node
    return level_kept(question, level) if t else opening_kept(question, level)


def after_event(question, node, event):
    """The node that an event leads to; None at ruin, from a level that the question forbids, and where no claim is left to place."""
    t, level, left = node
    level_after, left_after = level + 1 - event, left - (question.word == "both" and event != NO_CLAIM)
    return (t + 1, level_after, left_after) if kept(question, node) and level_after > 0 and left_after >= 0 else None


def listed_nodes(plan, question, possible):
    """Those that these histories come through."""
    nodes = set()
    for history in possible:
        steps = itertools.accumulate(history, lambda node, event: node and after_event(question, node, event), initial=first_node(plan, question))
        nodes.update(steps)
    return nodes - {None}


def carried_nodes(plan, question):
    """The same from the histories carried together: the states that those of each number of months come to with a weight above 0."""
    starts = (plan._replace(chances=plan.chances[:t]) for t in range(plan.head.months + 1))
    states = (carried(start, first_node(plan, question), lambda node, event: after_event(question, node, event)) for start in starts)
    return {node for weights in states for node, weight in weights.items() if weight > 0}


def place_of(question, node):
    """As the text says it."""
    if node is None:
        return "none left"
    _, level, left = node
    if not kept(question, node):
        return f"level {level} forbidden"
    return f"level {level} left {left}" if question.word == "both" else f"level {level}"


def in_order(question, nodes):
    """The months and places of these nodes, as they have to be printed."""
    return [(node[0], place_of(question, node)) for node in sorted(nodes, key=lambda node: (node[0], -node[1], -node[2]))]


# ---- Trees of all questions


def rest_bounds(plan, question, month, place):
    """By the month rule over rows: those of the months that are left, opened at this place."""
    if place == "none left" or place.endswith("forbidden"):
        return 0, 0
    level, *left = level_and_left(place)
    rest = plan._replace(head=plan.head._replace(months=plan.head.months - month, opening=level), chances=plan.chances[month:])
    return bounds(rest, Question("both", *left) if left else question)


def check_lines(tally, plan, question, one, about):
    """What is printed below a node, and the node's numbers by it."""
    level, left = (*level_and_left(one.place), 0)[:2]
    filled = [[x, weight] for x, weight in enumerate(plan.weights, 1) if x <= level and weight > 0]
    quiet, *claims = one.branches
    tally.check("trees: chances", one.chance == plan.chances[one.month], about)
    tally.check("trees: sizes that do not ruin and are not empty", [branch.claim for branch in claims] == filled, about)
    tally.check("trees: the weights make up S", sum(branch.claim[1] for branch in claims) + one.ruin == S, about)
    led_to = [after_event(question, (one.month, level, left), event) for event in (NO_CLAIM, *(x for x, _ in filled))]
    tally.check("trees: where branches lead", [branch.place for branch in one.branches] == [place_of(question, node) for node in led_to], about)
    for bound, divide in enumerate((down, up)):
        claimed = sum(branch.claim[1] * branch.pair[bound] for branch in claims)
        whole = (S - one.chance) * S * quiet.pair[bound] + one.chance * claimed
        tally.check("trees: a node's numbers are those of its lines", one.pair[bound] == divide(whole, S * S), about)


def check_tree(tally, plan, question, possible):
    """All that is printed. The histories of a weight above 0 may be too many to list."""
    row, pair, about = [*plan.chances, *plan.weights, plan.tail], bounds(plan, question), (plan, question)
    tree = read_tree(tree_text(write_bytes(plan.head, row), question))
    tally.check("plain engine: bounds of the month rule over rows", plain_answer(plan.head, row, question) == (0, *pair), about)
    tally.check("trees: the first node has the answer", tree[0].pair == pair, about)
    printed = [(one.month, one.place) for one in tree]
    tally.check("trees: nodes, by the histories carried together", printed == in_order(question, carried_nodes(plan, question)), about)
    if possible is not None:
        tally.check("trees: nodes, by the histories listed", printed == in_order(question, listed_nodes(plan, question, possible)), about)
    rest = cache(lambda month, place: rest_bounds(plan, question, month, place))
    for one in tree:
        followed = one.month < plan.head.months and not one.place.endswith("forbidden")
        tally.check("trees: lines below a node that is followed, and no other", bool(one.branches) == followed, (about, one))
        tally.check("trees: a node's numbers by the month rule over rows", one.pair == rest(one.month, one.place), (about, one))
        for branch in one.branches:
            tally.check("trees: a branch's numbers by the month rule over rows", branch.pair == rest(one.month + 1, branch.place), (about, one))
        if one.branches:
            check_lines(tally, plan, question, one, (about, one))


LISTED = 5000  # histories at most, of a plan whose trees are held to all of them


def check_trees(tally, plan):
    """Of every question."""
    few = len(events(plan)) ** plan.head.months <= LISTED
    possible = [history for history in histories(plan) if outcome(plan, history).weight > 0] if few else None
    for question in questions(plan.head):
        check_tree(tally, plan, question, possible)


def tree_plans(rng):
    """Of many months and few sizes, whose histories can be listed; of up to the most months, openings and sizes."""
    for _ in range(60):
        yield some_plan(rng, rng.randint(4, 6), rng.randrange(7), rng.randint(1, 2))
    for _ in range(60):
        yield some_plan(rng, rng.randrange(7), rng.randrange(7), rng.randint(3, 20))
    for head in ((6, 6, SIZES), (6, 6, 11), (6, 0, SIZES), (0, 6, SIZES), (5, 6, 40)):
        yield some_plan(rng, *head)
        yield lasting_plan(rng, *head)


# ---- By hand

EXAMPLE_TREE = """month 0 level 1 738197504 738197504
  chance 536870912
  no claim level 2 1073741824 1073741824
  claim 1 weight 536870912 level 1 805306368 805306368
  ruin weight 536870912
month 1 level 2 1073741824 1073741824
  chance 536870912
  no claim level 3 1073741824 1073741824
  claim 1 weight 536870912 level 2 1073741824 1073741824
  claim 2 weight 536870912 level 1 1073741824 1073741824
  ruin weight 0
month 1 level 1 805306368 805306368
  chance 536870912
  no claim level 2 1073741824 1073741824
  claim 1 weight 536870912 level 1 1073741824 1073741824
  ruin weight 536870912
month 2 level 3 1073741824 1073741824
month 2 level 2 1073741824 1073741824
month 2 level 1 1073741824 1073741824
"""
ONE_CLAIM_TREE = """month 0 level 1 left 1 402653184 402653184
  chance 536870912
  no claim level 2 left 1 536870912 536870912
  claim 1 weight 536870912 level 1 left 0 536870912 536870912
  ruin weight 536870912
month 1 level 2 left 1 536870912 536870912
  chance 536870912
  no claim level 3 left 1 0 0
  claim 1 weight 536870912 level 2 left 0 1073741824 1073741824
  claim 2 weight 536870912 level 1 left 0 1073741824 1073741824
  ruin weight 0
month 1 level 1 left 0 536870912 536870912
  chance 536870912
  no claim level 2 left 0 1073741824 1073741824
  claim 1 weight 536870912 none left 0 0
  ruin weight 536870912
month 2 level 3 left 1 0 0
month 2 level 2 left 0 1073741824 1073741824
month 2 level 1 left 0 1073741824 1073741824
"""
LOW_TREE = """month 0 level 1 402653184 402653184
  chance 536870912
  no claim level 2 805306368 805306368
  claim 1 weight 536870912 level 1 forbidden 0 0
  ruin weight 536870912
month 1 level 2 805306368 805306368
  chance 536870912
  no claim level 3 1073741824 1073741824
  claim 1 weight 536870912 level 2 1073741824 1073741824
  claim 2 weight 536870912 level 1 forbidden 0 0
  ruin weight 0
month 1 level 1 forbidden 0 0
month 2 level 3 1073741824 1073741824
month 2 level 2 1073741824 1073741824
month 2 level 1 forbidden 0 0
"""
SURE_CLAIM = Head(2, 2, 3), [S, 0, 0, S // 2, S // 4, S // 4]  # a claim in month 1, none in month 2; size 1 is empty, a quarter is over
SURE_CLAIM_TREE = """month 0 level 2 536870912 536870912
  chance 1073741824
  no claim level 3 1073741824 1073741824
  claim 2 weight 536870912 level 1 1073741824 1073741824
  ruin weight 536870912
month 1 level 1 1073741824 1073741824
  chance 0
  no claim level 2 1073741824 1073741824
  ruin weight 1073741824
month 2 level 2 1073741824 1073741824
"""
ROUNDED_TREE = """month 0 level 1 1073741823 1073741824
  chance 1
  no claim level 2 1073741824 1073741824
  claim 1 weight 1 level 1 1073741824 1073741824
  ruin weight 1073741823
month 1 level 2 1073741824 1073741824
month 1 level 1 1073741824 1073741824
"""
LAST_PLACES_TREE = """month 0 level 0 left 1 0 0
  chance 536870912
  no claim level 1 left 1 0 0
  ruin weight 1073741824
month 1 level 1 left 1 0 0
"""

TREES_BY_HAND = [
    (EXAMPLE_BYTES, SURVIVE, EXAMPLE_TREE),
    (EXAMPLE_BYTES, Question("both", 1), ONE_CLAIM_TREE),
    (EXAMPLE_BYTES, Question("high", 0), "month 0 level 1 forbidden 0 0\n"),
    (EXAMPLE_BYTES, Question("high", 3), EXAMPLE_TREE),
    (EXAMPLE_BYTES, Question("low", 1), EXAMPLE_TREE),
    (EXAMPLE_BYTES, Question("low", 2), LOW_TREE),
    (write_bytes(*SURE_CLAIM), SURVIVE, SURE_CLAIM_TREE),
    (write_bytes(Head(1, 1, 2), [1, 1, S - 1, 0]), SURVIVE, ROUNDED_TREE),
    (write_bytes(Head(1, 0, 1), [S // 2] + ONE_SIZE), Question("both", 1), LAST_PLACES_TREE),
    (write_bytes(*flat(0, 3, 2)), SURVIVE, f"month 0 level 3 {S} {S}\n"),
    (write_bytes(*flat(0, 3, 2)), Question("both", 0), f"month 0 level 3 left 0 {S} {S}\n"),
    (write_bytes(*flat(0, 3, 2)), Question("both", 1), "month 0 level 3 left 1 0 0\n"),
    (write_bytes(*flat(0, 3, 2)), Question("high", 2), "month 0 level 3 forbidden 0 0\n"),
    (write_bytes(*flat(0, 3, 2)), Question("high", 3), f"month 0 level 3 {S} {S}\n"),
    (write_bytes(*flat(0, 3, 2)), Question("low", 4), f"month 0 level 3 {S} {S}\n"),
]

SMALL_NUMBERS = [  # plans that are accepted: whether the engine without rows takes them
    *((flat(*head), SURVIVE, 0) for head in ((0, 0, 1), (6, 6, 3), (6, 6, SIZES), (6, 0, 3), (0, 6, 3), (6, 6, 3, 1))),
    *((flat(*head), SURVIVE, 10) for head in ((7, 6, 3), (6, 7, 3), (7, 0, 3), (0, 7, 3), (MONTHS, OPENING, 3), (0, OPENING, SIZES))),
    *((flat(2, 1, 3, c), SURVIVE, 0 if c == 1 else 10) for c in range(1, INCOME + 1)),
    *((EXAMPLE, Question("both", k), number) for k, number in ((24, 0), (25, 10), (2**32 - 1, 10), (2**32, 10), (2**64 - 1, 10))),
    *((EXAMPLE, Question(word, level), number) for word in ("high", "low") for level, number in ((320, 0), (321, 10), (2**32, 10), (2**64 - 1, 10))),
    (flat(7, 7, 3, 2), Question("both", 25), 10),
]

QUESTION_WORDS = [
    ([], SURVIVE),
    (["survive"], SURVIVE),
    *((["both", "0" * zeros + str(number)], Question("both", number)) for zeros in (0, 3, 5000) for number in (0, 7, 24)),
    *(([word, "0" * zeros + str(number)], Question(word, number)) for word in ("high", "low") for zeros in (0, 5000) for number in (0, 7, 320)),
    *((words, None) for words in (["both"], ["high"], ["low"], [""], ["1"], ["fails", "1"], ["least", "1"], ["Both", "1"], ["survive", "1"])),
    *((["both", word], None) for word in ("", " ", "+1", "-1", "1 ", " 1", "1.0", "1e1", "0x1", "1_0", "\u0661", "\u00b2", "one")),
    *(([*words, "1"], None) for words in (["both", "1"], ["high", "1"], ["low", "1"])),
]
PAST_LEVELS = ["321", str(2**32 - 1), str(2**32), str(2**32 + 1), str(2**64), str(2**64 + 1), "3200", "3" + "0" * 5000, "0" * 5000 + "321"]


def check_worked(tally, head, row, question, number, *answer):
    """A fund of document 01 or 02, which may be too large."""
    large = head.months > 6 or head.opening > 6 or head.income != 1
    expected = (10, 0, 0) if large and number == 0 else (number, *answer)
    got = plain_answer(head, row, question)
    tally.check("plain engine: funds worked by hand", got == expected or None in expected and got[0] == number, (head, row, question, got))


def check_small_numbers(tally):
    for one in WORKED:
        check_worked(tally, *one)
    for data, question, text in TREES_BY_HAND:
        tally.check("trees worked by hand", tree_text(data, question) == text, (data.hex(), question, tree_text(data, question)))
    for (head, row), question, number in SMALL_NUMBERS:
        got, text = plain_answer(head, row, question), tree_text(write_bytes(head, row), question)
        tally.check("plain engine: 10", got == (10, 0, 0) if number else got[0] == 0, (head, row, question, got))
        tally.check("trees: 10", text == "refused 10\n" if number else text.startswith("month 0 level "), (head, row, question, text))
    for words, question in QUESTION_WORDS:
        tally.check("trees: words of a question", question_of(words) == question, words)
    for word, number in itertools.product(("both", "high", "low"), PAST_LEVELS):
        question = question_of([word, number])
        tally.check("trees: words past the levels", question.word == word and 320 < question.number < 2**32, (word, number))
