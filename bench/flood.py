#!/usr/bin/env python3
"""Prints a schedule in which liars flood validator 63 of 64 with prevotes of later rounds.

usage: flood.py KIND COUNT

KIND is apart: 63 liars, each prevote of a round of its own.
KIND is together: 21 liars, all of whom prevote in each round, where 22 would be a weak quorum.
KIND is refused: as apart, but of another height, so that each is read and its tag checked, and none is kept.
COUNT is how many prevotes come, 500 of a liar at most.
"""

import sys

VALIDATORS = 64
CORRECT = VALIDATORS - 1
MOST = 500
TOGETHER = 21


def senders_and_rounds(kind):
    """Who prevotes in which round, in order of arrival."""
    if kind != "together":
        return ((sender, 1 + turn * CORRECT + sender) for turn in range(MOST) for sender in range(CORRECT))
    return ((sender, 1 + turn) for turn in range(MOST) for sender in range(TOGETHER))


def main():
    kind, count = sys.argv[1], int(sys.argv[2])
    height = 1 if kind == "refused" else 0
    print("powers", *[1] * VALIDATORS)
    print("clients 1")
    print("liars", *range(CORRECT))
    for event, (sender, round_number) in enumerate(senders_and_rounds(kind)):
        if event == count:
            break
        print(f"vote {sender} {CORRECT} prevote {height} {round_number} nil")


main()
