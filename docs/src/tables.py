#!/usr/bin/env python3
"""Source document 000, tables 2 and 3: survival with geometric claims, as printed.

  tables.py DIR     DIR/stdin, the plans of the tables, and DIR/stdout, the printed figures

The figures are transcribed; no rule of the engine is used. A plan's chances and weights are the table's, rounded down to parts of 2^30, with
as many sizes as opening and months together, over for the rest, and an income of 1. A line of stdout has a plan's figure in ten-thousandths
twice, since both bounds round to it.
Left out: case C3 at u = 8, alpha = 4/5, which the source misprints in every row. Its first figure would be 0.9 + 0.1 x (1 - 0.8^8) = 0.9832 and
is printed as 0.9966.
"""
import sys
from fractions import Fraction
from pathlib import Path

from plans import geometric_plan
from records import plan_list
from rules import Head, write_bytes

# Table 1: the chance of a claim in month i
CASES = {
    "C1": lambda i: Fraction(i, 100),
    "C2": lambda i: Fraction(12 - i + 1, 100),
    "C3": lambda i: Fraction(1 if i <= 6 else 2, 10),
    "C4": lambda i: Fraction(2 if i <= 6 else 1, 10),
}

# (opening, alpha, case): the figures of the months 1 to 12, in ten-thousandths
FIGURES = {
    (2, Fraction(1, 5), "C1"): [9996, 9994, 9994, 9993, 9993, 9993, 9993, 9993, 9993, 9993, 9993, 9993],
    (2, Fraction(1, 5), "C2"): [9952, 9936, 9930, 9928, 9928, 9928, 9928, 9928, 9928, 9928, 9928, 9928],
    (2, Fraction(1, 5), "C3"): [9960, 9946, 9941, 9940, 9939, 9938, 9938, 9938, 9938, 9938, 9938, 9938],
    (2, Fraction(1, 5), "C4"): [9920, 9882, 9863, 9854, 9849, 9847, 9846, 9846, 9846, 9846, 9846, 9846],
    (2, Fraction(2, 5), "C1"): [9984, 9971, 9963, 9957, 9954, 9952, 9951, 9950, 9950, 9949, 9949, 9949],
    (2, Fraction(2, 5), "C2"): [9808, 9721, 9679, 9659, 9649, 9644, 9642, 9641, 9640, 9640, 9640, 9640],
    (2, Fraction(2, 5), "C3"): [9840, 9763, 9723, 9702, 9689, 9682, 9674, 9666, 9661, 9657, 9653, 9651],
    (2, Fraction(2, 5), "C4"): [9680, 9501, 9393, 9324, 9279, 9248, 9237, 9231, 9227, 9225, 9224, 9223],
    (4, Fraction(3, 5), "C1"): [9987, 9971, 9956, 9943, 9932, 9923, 9915, 9908, 9902, 9897, 9891, 9887],
    (4, Fraction(3, 5), "C2"): [9844, 9742, 9674, 9630, 9601, 9583, 9572, 9565, 9562, 9560, 9559, 9559],
    (4, Fraction(3, 5), "C3"): [9870, 9780, 9715, 9667, 9632, 9605, 9564, 9525, 9490, 9457, 9429, 9403],
    (4, Fraction(3, 5), "C4"): [9741, 9533, 9368, 9234, 9124, 9033, 8995, 8968, 8948, 8932, 8920, 8911],
    (8, Fraction(4, 5), "C1"): [9983, 9956, 9923, 9886, 9846, 9805, 9763, 9719, 9674, 9627, 9579, 9529],
    (8, Fraction(4, 5), "C2"): [9799, 9633, 9500, 9393, 9310, 9247, 9199, 9165, 9141, 9126, 9118, 9114],
    (8, Fraction(4, 5), "C4"): [9664, 9342, 9040, 8758, 8496, 8254, 8141, 8044, 7959, 7884, 7818, 7758],
}


def main(folder):
    plans, lines = [], ""
    for (u, alpha, case), figures in FIGURES.items():
        for n, figure in enumerate(figures, 1):
            plans.append(write_bytes(*geometric_plan(Head(n, u, u + n, income=1), alpha, CASES[case])))
            lines += f"{figure} {figure}\n"
    (folder / "stdin").write_bytes(plan_list(plans))
    (folder / "stdout").write_text(lines)


main(Path(sys.argv[1]))
