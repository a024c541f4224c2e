#!/usr/bin/env python3
"""Writes a long script for a plot: python3 film/rounds.py > SCRIPT

A stack of objects grows for some rounds and shrinks for as many, twice, among objects that are garbage at once. After
each round the heap is marked, and pages that are at most half live are emptied; the model of the tests finds them.
"""

import os
import sys

sys.path.insert(0, os.path.join(os.path.dirname(os.path.abspath(__file__)), "..", "tests"))
from writing import Writing

ROUNDS = 12
WORDS = 64
NODE, WASTE = 0, 1


def room(writing):
    """A fresh buffer, where the thread's is short of words."""
    buffer = writing.heap.threads[0].buffer
    if buffer is not None and buffer[2] - buffer[1] >= 10:
        return
    if buffer is not None:
        writing.say(0, "give")
    writing.say(0, "take", WORDS)


def push(writing):
    """A node becomes the head of the stack, and an object is born that nobody keeps."""
    room(writing)
    writing.say(0, "new", 1, NODE)
    writing.say(0, "store", 1, 0, 0)
    writing.say(0, "mov", 0, 1)
    writing.say(0, "new", 2, WASTE)


def pop(writing):
    """The node behind the head becomes the head."""
    if writing.heap.threads[0].registers[0] is not None:
        writing.say(0, "get", 0, 0, 0)


def sparse(heap):
    """The closed pages of which at most half is live, those with the fewest live words first, as many as there is
    room for."""
    live = {number: sum(thing.size() for thing in page.live) for number, page in heap.pages.used.items()
            if page.state == "closed"}
    found = sorted((words, number) for number, words in live.items() if words <= WORDS // 2)
    chosen, total = [], 0
    for words, number in found:
        if total + words > len(heap.pages.free) * (WORDS - 10):
            break
        chosen.append(number)
        total += words
    return chosen


def mark(writing):
    writing.say(0, "mark")
    writing.say(0, "cross")
    writing.say(1, "cross")
    writing.say(0, "drain")
    writing.say(0, "endmark")


def empty(writing):
    """Sparse pages are emptied: thread 1 reads the stack meanwhile."""
    pages = sparse(writing.heap)
    if not pages:
        return
    writing.say(0, "protect", *pages)
    writing.say(0, "cross")
    writing.say(1, "cross")
    writing.say(1, "getg", 0, 0)
    writing.say(1, "get", 0, 0, 0)
    writing.say(1, "clear", 0)
    for page in pages:
        writing.say(0, "copyall", page)
        writing.say(0, "release", page)


def one_round(writing, pushes, pops):
    writing.say(0, "getg", 0, 0)
    for number in range(max(pushes, pops)):
        if number < pushes:
            push(writing)
        if number < pops:
            pop(writing)
    writing.say(0, "storeg", 0, 0)
    for register in range(3):
        writing.say(0, "clear", register)
    mark(writing)
    empty(writing)


def main():
    writing = Writing(WORDS, 16, 32, 2, 1, 3, 1, [(1, 1), (0, 6)], 2 ** 32, 1_000_000)
    for pushes, pops in [(14, 4), (4, 14)] * 2:
        for _ in range(ROUNDS):
            one_round(writing, pushes, pops)
    print("\n".join(writing.script))


if __name__ == "__main__":
    main()
