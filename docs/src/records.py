"""What the test programs read, and the lines that `vectors` has to print.

The input of `vectors` is a list of records: nine words of 8 bytes, most significant byte first (kind, months, opening, sizes, income, number,
room, fill, length), then what the kind asks. `row` sets the row that later records use: length numbers of 4 bytes. The four questions ask with that
row, `number` as k or L and a workspace of `room` numbers that each hold `fill`; `fails` asks in the same way, `number` as the month, and `least`,
`number` as the target, for the least opening and its bounds. `count` asks for the count row. `claims` takes the claim sum over the row's
weights, with the first `number` of its chances as the values that claims of size 1, 2, … lead to, and answers its quotient by S, what is left
over and the number of products. `openings` lends a row of `number` numbers, which takes the bounds of all openings, and a workspace of `room`, each
number holding `fill`. `write` lends `room` bytes and `read` a row of `room` numbers, each holding `fill`; `read` is followed by the plan's
`length` bytes. The four that begin with `plain-` ask the engine without rows, `number` as k or L, and lend nothing.
Its output has a line for each record but `row`: the refusal's number, the numbers answered, of `read` months, opening, sizes and income, and the lent
memory after the call where there is any, which is the bytes of `write` in hexadecimal and otherwise a checksum; of `openings` a checksum of the whole
lent row and then one of the whole workspace.

`reports` and `tables` read plans one after another: two bytes with a plan's length, most significant first, and its bytes.

`trees` reads records one after another, each with its length as those plans have theirs: the question (one byte), its number (four bytes, most
significant first) and the plan's bytes. It prints the tree of each.

`sheets` reads records of a kind (one byte), a room (two bytes, most significant first) and a sheet with its length, as those plans have theirs.
`read` reads the sheet into a row of `room` numbers that each hold FULL_NUMBER; its line has the refusal's number, the head, as above, and the whole
row after the call. `write` turns the sheet into plan bytes, in `room` bytes that each hold FULL_BYTE; its line has the refusal's number, the length
and all lent bytes. `report` prints the reserve report of these plan bytes.

`mixtures` reads records that begin with 47 words of 8 bytes, most significant byte first: kind, count, eight heads (months, opening, sizes, income),
eight weights, question, number, room, fill, length. `call` asks the mix, with the `length` numbers of 4 bytes that follow as the lent row and a
workspace of `room` numbers that each hold `fill`; its line has the refusal's number, the two bounds and a checksum of the whole workspace after the
call. `model` asks in the same way, and its line has the two bounds as decimal numbers, rounded to the nearest with 7 places. `report` prints the
report of the `length` mix bytes that follow; the other words of its record are 0.

`deficits` reads records that begin with eleven words of 8 bytes, most significant byte first: kind, months, opening, sizes, income, month, level,
deficit, room, fill, length. `call` asks for the deficit in that month from that level, with the `length` numbers of 4 bytes that follow as the lent
row and a workspace of `room` numbers that each hold `fill`; its line has the refusal's number, the two bounds and a checksum of the whole workspace
after the call. `text` prints what the program for crews prints of the `length` plan bytes that follow, for the month; the other words of its record
are 0. `table` asks eight plans of one head the same: after its words come eight weights, in parts of S, and then the plans' rows, `length` numbers of
4 bytes in all. Its line has the sum over the plans of weight × lower / S, each quotient rounded down, and that of the upper bounds, both as decimal
numbers, rounded to the nearest with 5 places.
"""
import itertools
import math
from fractions import Fraction
from functools import cache

from exchangeable import decimal, from_edge
from mixes import PLANS, mix_answer, mix_report
from rules import HEAD_BYTES, LARGEST, MOST_ASKED, NO_HEAD, NONE, PLACES, S, SURVIVE, ask_checks, bounds, byte_length, claim_sum, count_row
from rules import deficit_answer, deficits_text, down, failure_bounds, failure_checks, least_answer, opening_pairs, openings_answer, places_needed
from rules import plain_checks, plan_checks, plan_of, read_bytes, read_checks, refusal, report, row_length, up, walked_pairs, workspace_needed
from rules import write_bytes, write_checks
from sheets import made_bytes, made_plan, sheet_checks

WORDS = ["survive", "both", "high", "low"]  # of the four questions
KINDS = ["row", *WORDS, "count", "write", "read", "fails", "claims", "least", "openings", *(f"plain-{word}" for word in WORDS)]
FULL_NUMBER = 2**32 - 1  # the largest number that a row or a workspace can hold

# The room that the program lends, as in crates/test_vectors/src/rooms.rt. It passes over a record that needs more.
SPARE = 6  # numbers more than any call needs
ROW = row_length(LARGEST) + SPARE
WORKSPACE = workspace_needed(LARGEST, MOST_ASKED) + SPARE
BOUNDS = places_needed(LARGEST) + SPARE
BYTES = 2560

SHEET_KINDS = ["read", "write", "report"]
FULL_BYTE = 255
PLAN_BYTES = 1800  # the most that `sheets` lends; it has ROW numbers as well

MIX_KINDS = ["call", "report", "model"]
MIX_ROW = PLANS * row_length(LARGEST) + SPARE  # of `mixtures`, which has WORKSPACE numbers as well
MIX_BYTES = 16384
MIX_WORDS = 47
EDGE = Fraction(2, 10**8)  # the least distance of a chance from where its decimal number changes

DEFICIT_KINDS = ["call", "text", "table"]
DEFICIT_WORKSPACE = workspace_needed(LARGEST, SURVIVE) + SPARE  # of `deficits`, which has ROW numbers as well
TEXT_BYTES = 8192
TABLE_NUMBERS = 4096


def plan_list(plans):
    return b"".join(len(data).to_bytes(2, "big") + data for data in plans)


def words_of(numbers):
    return b"".join(x.to_bytes(8, "big") for x in numbers)


def row_bytes(row):
    return b"".join(x.to_bytes(4, "big") for x in row)


def tree_record(question, data):
    return bytes([WORDS.index(question.word)]) + question.number.to_bytes(4, "big") + data


def checksum(memory):
    total = 0
    for x in memory:
        total = (total * 31 + x) % 1000000007
    return total


def rules_of(question):
    """The checks and the answer of the call, and what both take: one of the four questions, or for `fails` the month."""
    return (failure_checks, failure_bounds, question.number) if question.word == "fails" else (ask_checks, bounds, question)


def answer_of(head, row, question, room):
    """The refusal's number and the numbers answered: two bounds, and for `least` the opening before them."""
    if question.word == "least":
        return least_answer(head, row, question.number, room)
    checks, answer, asked = rules_of(question)
    number = refusal(checks(head, row, asked, room))
    return number, *((0, 0) if number else answer(plan_of(head, row), asked))


def cleared(number):
    """Whether the needed workspace is zero afterwards: "after an answer and after "none", the only refusal that writes"."""
    return number in (0, NONE)


def workspace_after(head, question, number, room, fill):
    """What a workspace of this room holds after the call."""
    needed = workspace_needed(head, question) if cleared(number) else 0
    return [0] * needed + [fill] * (room - needed)


LARGE = 10**6  # months × opening × sizes × income from which one walk for all openings takes the place of asking each


@cache
def pairs_of(plan):
    """The bounds of all openings, worked once a plan, since many calls differ in their lent memory alone. The plan is one of tuples."""
    return (walked_pairs if math.prod(plan.head) > LARGE else opening_pairs)(plan)


def fitting(needed, capacity):
    if needed > capacity:
        raise ValueError(f"the program has room for {capacity}, the record needs {needed}")
    return needed


class Calls:
    """The records of the calls, the line that each has to give, and in words what was called."""

    def __init__(self):
        self.records, self.lines, self.labels, self.row = [], [], [], None

    def record(self, kind, head=NO_HEAD, number=0, room=0, fill=0, payload=b"", length=0):
        self.records.append(words_of((KINDS.index(kind), *head, number, room, fill, length)) + payload)

    def answers(self, label, *numbers):
        self.labels.append(label)
        self.lines.append(" ".join(map(str, numbers)))

    def use(self, row):
        if row != self.row:
            self.record("row", payload=row_bytes(row), length=fitting(len(row), ROW))
            self.row = row

    def ask(self, head, row, question, room=None, fill=FULL_NUMBER):
        room = workspace_needed(head, question) if room is None else room
        self.use(row)
        self.record(question.word, head, question.number, fitting(room, WORKSPACE), fill)
        number, *answer = answer_of(head, row, question, room)
        label = f"{question.word} {question.number} of {tuple(head)}, row of {len(row)}, workspace of {room} holding {fill}"
        self.answers(label, number, *answer, checksum(workspace_after(head, question, number, room, fill)))

    def plain(self, head, row, question):
        """Without rows; the bounds expected are those of the month rule over rows."""
        self.use(row)
        self.record(f"plain-{question.word}", head, question.number)
        number = refusal(plain_checks(head, row, question))
        answer = (0, 0) if number else bounds(plan_of(head, row), question)
        self.answers(f"plain {question.word} {question.number} of {tuple(head)}, row of {len(row)}", number, *answer)

    def openings(self, head, row, room=None, places=None, fill=FULL_NUMBER):
        room = workspace_needed(head, SURVIVE) if room is None else room
        places = places_needed(head) if places is None else places
        self.use(row)
        self.record("openings", head, fitting(places, BOUNDS), fitting(room, WORKSPACE), fill)
        number, lent = openings_answer(head, tuple(row), room, [fill] * places, pairs_of)
        label = f"openings of {tuple(head)}, row of {len(row)}, lent row of {places} and workspace of {room} holding {fill}"
        self.answers(label, number, checksum(lent), checksum(workspace_after(head, SURVIVE, number, room, fill)))

    def count(self, head, row):
        self.use(row)
        self.record("count", head)
        number = refusal(plan_checks(head, row))
        plan = None if number else plan_of(head, row)
        rows = [[0] * PLACES, [0] * PLACES] if number else [count_row(plan, down), count_row(plan, up)]
        self.answers(f"count row of {tuple(head)}, row of {len(row)}", number, *itertools.chain(*zip(*rows)))

    def claims(self, head, row, count):
        self.use(row)
        self.record("claims", head, count)
        number = refusal(plan_checks(head, row))
        values = [] if number else plan_of(head, row).chances[:count]
        after = [0, *reversed(values)]  # the row of levels 0 to as many as there are values: a claim of size 1 leads to the highest
        total, products = (0, 0) if number else claim_sum(plan_of(head, row).weights, after, len(after))
        self.answers(f"claims over the first {count} chances of {tuple(head)}, row of {len(row)}", number, *divmod(total, S), products)

    def write(self, head, row, room, fill=255):
        self.use(row)
        self.record("write", head, room=fitting(room, BYTES), fill=fill)
        number = refusal(write_checks(head, row, room))
        data = b"" if number else write_bytes(head, row)
        label = f"write {tuple(head)}, row of {len(row)}, into {room} bytes holding {fill}"
        self.answers(label, number, len(data), *(f"{byte:02x}" for byte in data + bytes([fill] * (room - len(data)))))

    def read(self, data, room=None, fill=FULL_NUMBER):
        """With no room given, as many numbers as the head asks, or all that the program has."""
        head, row, _ = read_bytes(data) if len(data) >= HEAD_BYTES else (NO_HEAD, None, None)
        room = min(row_length(head), ROW) if room is None else room
        self.record("read", room=fitting(room, ROW), fill=fill, payload=data, length=fitting(len(data), BYTES))
        number = refusal(read_checks(data, room))
        head, row = (NO_HEAD, []) if number else (head, row)
        label = f"read {len(data)} bytes {data[:HEAD_BYTES].hex()}.. into a row of {room} holding {fill}"
        self.answers(label, number, *head, checksum(row + [fill] * (room - len(row))))


class SheetCalls:
    """The records of `sheets` and the text that each has to give."""

    def __init__(self):
        self.records, self.texts = [], []

    def record(self, kind, data, room=0):
        self.records.append(bytes([SHEET_KINDS.index(kind)]) + room.to_bytes(2, "big") + plan_list([data]))

    def answers(self, *numbers):
        self.texts.append(" ".join(map(str, numbers)) + "\n")

    def read(self, data, room):
        self.record("read", data, fitting(room, ROW))
        number = refusal(sheet_checks(data, row_length, room))
        head, row = (NO_HEAD, []) if number else made_plan(data)
        self.answers(number, *head, *row, *[FULL_NUMBER] * (room - len(row)))

    def write(self, data, room):
        self.record("write", data, fitting(room, PLAN_BYTES))
        number = refusal(sheet_checks(data, byte_length, room))
        plan = b"" if number else made_bytes(data)
        self.answers(number, len(plan), *plan, *[FULL_BYTE] * (room - len(plan)))

    def report(self, data, plan):
        """Of a plan that was made without the sheet."""
        self.record("report", data)
        number = refusal(sheet_checks(data, byte_length, math.inf))
        assert number == 0 and made_plan(data) == plan, (number, data.hex(), plan)
        self.texts.append(report(write_bytes(*plan)))

    def refused_report(self, data):
        self.record("report", data)
        self.texts.append(f"refused {refusal(sheet_checks(data, byte_length, math.inf))}\n")


class MixCalls:
    """The records of `mixtures` and the text that each has to give."""

    def __init__(self):
        self.records, self.texts = [], []

    def record(self, kind, words, payload, length):
        self.records.append(words_of((MIX_KINDS.index(kind), *words, length)) + payload)

    def asked(self, kind, ask, fill):
        """Eight heads and eight weights, whatever the count is."""
        heads, weights, question = itertools.chain(*ask.heads), ask.weights, ask.question
        words = ask.count, *heads, *weights, WORDS.index(question.word), question.number, fitting(ask.room, WORKSPACE), fill
        self.record(kind, words, row_bytes(ask.row), fitting(len(ask.row), MIX_ROW))

    def call(self, ask, fill=FULL_NUMBER):
        self.asked("call", ask, fill)
        number, *pair = mix_answer(ask)
        after = workspace_after(ask.heads[0], ask.question, number, ask.room, fill)
        self.texts.append("%d %d %d %d\n" % (number, *pair, checksum(after)))

    def model(self, ask, chance):
        """The chance is the theorem's; one too near to where its decimal number changes, for bounds around it, is passed over."""
        if from_edge(chance) >= EDGE:
            self.asked("model", ask, FULL_NUMBER)
            self.texts.append(f"{decimal(chance)} {decimal(chance)}\n")

    def report(self, data):
        self.record("report", [0] * (MIX_WORDS - 2), data, fitting(len(data), MIX_BYTES))
        self.texts.append(mix_report(data))


class DeficitCalls:
    """The records of `deficits` and the text that each has to give."""

    def __init__(self):
        self.records, self.texts = [], []

    def record(self, kind, payload, length, head=NO_HEAD, t=0, i=0, j=0, room=0, fill=0):
        self.records.append(words_of((DEFICIT_KINDS.index(kind), *head, t, i, j, room, fill, length)) + payload)

    def call(self, head, row, t, i, j, room=None, fill=FULL_NUMBER):
        """With no room given, as many numbers as are needed, or all that the program has."""
        room = min(workspace_needed(head, SURVIVE), DEFICIT_WORKSPACE) if room is None else room
        self.record("call", row_bytes(row), fitting(len(row), ROW), head, t, i, j, fitting(room, DEFICIT_WORKSPACE), fill)
        number, *pair = deficit_answer(head, row, t, i, j, room)
        self.texts.append("%d %d %d %d\n" % (number, *pair, checksum(workspace_after(head, SURVIVE, number, room, fill))))

    def text(self, data, t):
        self.record("text", data, fitting(len(data), TEXT_BYTES), t=t)
        self.texts.append(deficits_text(data, t))

    def table(self, weights, plans, t, i, j, printed):
        """Of a line as printed, whatever the rules say."""
        heads, rows = zip(*plans)
        numbers = [*weights, *itertools.chain(*rows)]
        room = fitting(workspace_needed(heads[0], SURVIVE), DEFICIT_WORKSPACE)
        self.record("table", row_bytes(numbers), fitting(len(numbers), TABLE_NUMBERS), heads[0], t, i, j, room)
        self.texts.append(f"{printed} {printed}\n")
