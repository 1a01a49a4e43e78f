#!/usr/bin/env python3
"""Documents 01 and 02 as a plain program: the expected values of the tests come from here.

Written from these documents and their sources alone, not from the engine or its definitions.

  reference.py selftest           hold the rules against exact arithmetic on small plans and the funds worked by hand
  reference.py report             plan bytes on standard input, the reserve report on standard output
  reference.py plan N U M C ROW.. the plan bytes of a head and a row (chances, weights, over) on standard output
  reference.py renew              plan bytes from before a plan had an income on standard input, those of the same plan with income 1 on
                                  standard output; nothing, and the refusal on standard error, where they are not an accepted plan's
  reference.py vectors DIR        DIR/stdin and DIR/stdout of the test program over the calls
  reference.py cases              one line for each line of that stdout: what was called
  reference.py repeat WORD K N    N times one question, failing in month K, the least opening for the target K or, whatever K, all openings, on the
                                  largest plan, as that program's input, to time it; a last word may name another of the plans below
  reference.py plans DIR          three plans as large as can be, to time: DIR/none-empty (that plan), DIR/ten-filled, DIR/no-chance; and
                                  DIR/small, the largest that has a tree
  reference.py example DIR        DIR/stdin and DIR/stdout of the reserve report: document 01's example
  reference.py reports DIR        DIR/stdin and DIR/stdout of many reserve reports, the largest included: takes minutes
  reference.py sheet KIND N U M FIRST STEP ALPHA
                                  the bytes of a rule sheet on standard output, its doubles from decimal numbers, inf or nan
  reference.py plan-of-sheet      a rule sheet on standard input, its plan bytes on standard output or its refusal on standard error
  reference.py sheets DIR         DIR/stdin and DIR/stdout of the test program over rule sheets
  reference.py sheet-example DIR  DIR/stdin and DIR/stdout of the program that turns a rule sheet into plan bytes
  reference.py least TARGET       plan bytes on standard input, the least opening that reaches the target and its bounds on standard output
  reference.py least-example DIR  DIR/stdin, DIR/args and DIR/stdout of the program that finds the least opening
  reference.py openings           plan bytes on standard input, the bounds of survival at each opening up to the plan's on standard output
  reference.py openings-example DIR
                                  DIR/stdin and DIR/stdout of the program that prints these
  reference.py tree [WORD [N]]    bytes of a small plan on standard input, its tree on standard output, of the question with this word and number or,
                                  without a word, of survive
  reference.py trees DIR          DIR/stdin and DIR/stdout of the test program over trees
  reference.py tree-example DIR   DIR/stdin, DIR/args and DIR/stdout of the program that prints a tree: document 01's example
  reference.py mix W PLAN [W PLAN ..]
                                  the mix bytes of weights, in parts of S, and files of plan bytes on standard output
  reference.py mix-report         mix bytes on standard input, the report of the mix on standard output
  reference.py mixes DIR          DIR/stdin and DIR/stdout of the test program over mixes: takes two minutes
  reference.py mix-example DIR    DIR/stdin and DIR/stdout of the program that prints the report of a mix: a batch of pumps, good or bad
  reference.py mix-repeat N [NAME]
                                  N times survive on a mix of eight of the largest plan, or of another of the plans above, whose chances go round, as
                                  that test program's input, to time it
  reference.py deficits T         plan bytes on standard input, how deep the hole may be that month T brings on standard output
  reference.py deficit-calls DIR  DIR/stdin and DIR/stdout of the test program over deficits
  reference.py deficits-example DIR
                                  DIR/stdin, DIR/args and DIR/stdout of the program that prints the deficits of a month: a fund of three months
"""
import math
import struct
import sys
from pathlib import Path

from cases import all_calls, repeated_calls, reported_bytes, small_bytes
from deficit_cases import EXAMPLE_MONTH, EXAMPLE_PLAN, all_deficit_calls
from mix_cases import EXAMPLE_MIX, all_mix_calls, repeated_mix
from mixes import mix_bytes, mix_report, write_mix
from old_plans import renewed
from plans import EXAMPLE_BYTES, EXAMPLE_TEXT, timed_plans, timed_small_plan
from records import plan_list, tree_record
from rules import Head, Question, byte_length, deficits_text, least_line, month_of, openings_text, refusal, report, target_of, write_bytes
from rules import write_checks
from selftest import selftest
from sheet_cases import EXAMPLE_SHEET, QUOTED_SHEET, all_sheet_calls
from sheets import made_bytes, sheet_checks, write_sheet
from trees import question_of, tree_text


def write_test(folder, stdin, stdout):
    """What the program has to print is text or bytes."""
    Path(folder, "stdin").write_bytes(stdin)
    Path(folder, "stdout").write_bytes(stdout if isinstance(stdout, bytes) else stdout.encode())


def write_vectors(folder):
    calls = all_calls()
    write_test(folder, b"".join(calls.records), "".join(line + "\n" for line in calls.lines))


def write_example(folder):
    write_test(folder, EXAMPLE_BYTES, EXAMPLE_TEXT)


def write_reports(folder):
    plans = list(reported_bytes())
    write_test(folder, plan_list(plans), "".join(map(report, plans)))


def write_sheets(folder):
    calls = all_sheet_calls()
    write_test(folder, b"".join(calls.records), "".join(calls.texts))


def print_cases():
    calls = all_calls()
    for label, line in zip(calls.labels, calls.lines):
        print(f"{label}: {line}")


def plans_to_time():
    return {**timed_plans(), "small": timed_small_plan()}


def write_plans(folder):
    for name, plan in plans_to_time().items():
        Path(folder, name).write_bytes(write_bytes(*plan))


def print_repeat(word, number, times, plan="none-empty"):
    calls = repeated_calls(Question(word, int(number)), int(times), plans_to_time()[plan])
    sys.stdout.buffer.write(b"".join(calls.records))


def whole(word):
    if not (word.isascii() and word.isdecimal()):
        sys.exit(f"not a whole number: {word}")
    return int(word)


def print_plan(n, u, m, c, *row):
    head = Head(n, u, m, c)
    number = refusal(write_checks(head, row, math.inf))
    if number:
        sys.exit(f"refused {number}")
    sys.stdout.buffer.write(write_bytes(head, row))


def print_renewed(data):
    number, plan = renewed(data)
    if number:
        sys.exit(f"refused {number}")
    sys.stdout.buffer.write(plan)


def print_plan_of_sheet(data):
    """A refused sheet is an answer, too: compare.py takes an exit status other than 0 for a program that failed."""
    number = refusal(sheet_checks(data, byte_length, math.inf))
    if number:
        print(f"refused {number}", file=sys.stderr)
    else:
        sys.stdout.buffer.write(made_bytes(data))


def print_sheet(kind, n, u, m, *doubles):
    try:
        data = struct.pack(">BBBH3d", *map(whole, (kind, n, u, m)), *map(float, doubles))
    except (ValueError, struct.error) as wrong:
        sys.exit(f"no sheet: {wrong}")
    sys.stdout.buffer.write(data)


def write_sheet_example(folder):
    data = write_sheet(EXAMPLE_SHEET)
    write_test(folder, data, made_bytes(data))


GOOD_ENOUGH = 1063004406  # parts of S: 0.99, rounded up, as a promise is


def write_least_example(folder):
    data = made_bytes(write_sheet(QUOTED_SHEET))
    Path(folder, "args").write_text(f"{GOOD_ENOUGH}\n")
    write_test(folder, data, least_line(data, GOOD_ENOUGH))


def write_openings_example(folder):
    """On the same plan: one of the lines is the least opening's."""
    data = made_bytes(write_sheet(QUOTED_SHEET))
    write_test(folder, data, openings_text(data))


def write_trees(folder):
    asked = list(small_bytes())
    write_test(folder, plan_list(tree_record(*one) for one in asked), "".join(tree_text(data, question) for question, data in asked))


TREE_WORDS = "both", "1"


def write_tree_example(folder):
    Path(folder, "args").write_text("".join(f"{word}\n" for word in TREE_WORDS))
    write_test(folder, EXAMPLE_BYTES, tree_text(EXAMPLE_BYTES, question_of(TREE_WORDS)))


def print_tree(words, data):
    question = question_of(words)
    if question is None:
        sys.exit("a question is survive, both, high or low, the last three with a whole number")
    sys.stdout.write(tree_text(data, question))


def write_mixes(folder):
    calls = all_mix_calls()
    write_test(folder, b"".join(calls.records), "".join(calls.texts))


def write_mix_example(folder):
    data = write_mix(*EXAMPLE_MIX)
    write_test(folder, data, mix_report(data))


def print_mix(weights, files):
    """Whatever plans and weights they are: the report says what turns a mix away."""
    try:
        data = mix_bytes(map(whole, weights), [Path(file).read_bytes() for file in files])
    except (ValueError, OverflowError, OSError) as wrong:
        sys.exit(f"no mix: {wrong}")
    sys.stdout.buffer.write(data)


def print_repeated_mix(times, plan="none-empty"):
    sys.stdout.buffer.write(b"".join(repeated_mix(whole(times), plans_to_time()[plan]).records))


def write_deficit_calls(folder):
    calls = all_deficit_calls()
    write_test(folder, b"".join(calls.records), "".join(calls.texts))


def write_deficits_example(folder):
    data = write_bytes(*EXAMPLE_PLAN)
    Path(folder, "args").write_text(f"{EXAMPLE_MONTH}\n")
    write_test(folder, data, deficits_text(data, EXAMPLE_MONTH))


def print_deficits(word, data):
    t = month_of(word)
    if t is None:
        sys.exit("a month is a whole number")
    sys.stdout.write(deficits_text(data, t))


def print_least(word, data):
    target = target_of(word)
    if target is None:
        sys.exit("a target is a whole number")
    sys.stdout.write(least_line(data, target))


WRITTEN = {  # the commands that write files into a folder
    "vectors": write_vectors,
    "plans": write_plans,
    "example": write_example,
    "reports": write_reports,
    "sheets": write_sheets,
    "sheet-example": write_sheet_example,
    "least-example": write_least_example,
    "openings-example": write_openings_example,
    "trees": write_trees,
    "tree-example": write_tree_example,
    "mixes": write_mixes,
    "mix-example": write_mix_example,
    "deficit-calls": write_deficit_calls,
    "deficits-example": write_deficits_example,
}


def main(words):
    match words:
        case ["selftest"]:
            return selftest()
        case ["report"]:
            sys.stdout.write(report(sys.stdin.buffer.read()))
        case ["plan", n, u, m, c, *row] if row:
            print_plan(*map(whole, words[1:]))
        case ["renew"]:
            print_renewed(sys.stdin.buffer.read())
        case ["cases"]:
            print_cases()
        case ["repeat", word, number, times, *plan] if len(plan) <= 1:
            print_repeat(word, number, times, *plan)
        case ["sheet", kind, n, u, m, first, step, alpha]:
            print_sheet(*words[1:])
        case ["plan-of-sheet"]:
            print_plan_of_sheet(sys.stdin.buffer.read())
        case ["least", target]:
            print_least(target, sys.stdin.buffer.read())
        case ["deficits", month]:
            print_deficits(month, sys.stdin.buffer.read())
        case ["openings"]:
            sys.stdout.write(openings_text(sys.stdin.buffer.read()))
        case ["tree", *question]:
            print_tree(question, sys.stdin.buffer.read())
        case ["mix", *given] if given and len(given) % 2 == 0:
            print_mix(given[::2], given[1::2])
        case ["mix-report"]:
            sys.stdout.write(mix_report(sys.stdin.buffer.read()))
        case ["mix-repeat", times, *plan] if len(plan) <= 1:
            print_repeated_mix(times, *plan)
        case [word, folder] if word in WRITTEN:
            WRITTEN[word](folder)
        case _:
            sys.exit(__doc__)
    return 0


if __name__ == "__main__":
    sys.exit(main(sys.argv[1:]))
