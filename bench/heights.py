#!/usr/bin/env python3
"""Prints a schedule of many heights, each of which validator 63 of 64 decides on others' votes.

usage: heights.py [HEIGHTS] [VOTES]

Each height has one proposal and VOTES votes: prevotes and precommits for it, by the liars in turn.
Where validator 63 proposes, its own value is the empty one.
"""

import sys

VALIDATORS = 64
CORRECT = VALIDATORS - 1


def letters(number):
    """A name of letters for each number."""
    name = ""
    for _ in range(4):
        name = chr(ord("A") + number % 26) + name
        number //= 26
    return name


def main():
    heights = int(sys.argv[1]) if len(sys.argv) > 1 else 200
    votes = int(sys.argv[2]) if len(sys.argv) > 2 else 100
    print("powers", *[1] * VALIDATORS)
    print("clients 8")
    print("liars", *range(CORRECT))
    print("value E")
    number = 1
    names = []
    for height in range(heights):
        if height % VALIDATORS == CORRECT:
            names.append("E")
        else:
            names.append(letters(height))
            print(f"value {names[-1]} 7:{number}:{height:04x}")
            number += 1
    for height, name in enumerate(names):
        proposer = height % VALIDATORS
        if proposer != CORRECT:
            print(f"propose {proposer} {CORRECT} {height} 0 -1 {name}")
        for vote in range(votes):
            kind = "prevote" if vote < votes // 2 else "precommit"
            sender = vote % (votes // 2)
            print(f"vote {sender} {CORRECT} {kind} {height} 0 {name}")


main()
