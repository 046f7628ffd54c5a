#!/usr/bin/env python3
"""records.py COUNT FILE: records for measuring one split's answer.

Each line is a partition, an offset in it and a JSON record: a datetime one second behind the one before, a text of 2 to 20
words of a vocabulary of 50,000, frequent ones first, a raw text of four values and a number below 10,000. The same COUNT
gives the same records.
"""
import bisect
import random
import sys

WORDS = 50_000
LETTERS = "abcdefghijklmnopqrstuvwxyz"
LEVELS = ["debug", "info", "warn", "error"]
FIRST_SECOND = 1_700_000_000


def vocabulary(chance):
    words = []
    seen = set()
    while len(words) < WORDS:
        word = "".join(chance.choice(LETTERS) for _ in range(chance.randint(3, 9)))
        if word not in seen:
            seen.add(word)
            words.append(word)
    return words


def main():
    count = int(sys.argv[1])
    chance = random.Random(7)
    words = vocabulary(chance)
    weights = []
    total = 0.0
    for rank in range(WORDS):
        total += 1.0 / (rank + 3)
        weights.append(total)
    with open(sys.argv[2], "w") as out:
        for number in range(count):
            length = chance.randint(2, 20)
            body = " ".join(words[bisect.bisect_left(weights, chance.random() * total)] for _ in range(length))
            level = LEVELS[min(3, int(chance.expovariate(1.2)))]
            size = chance.randrange(10_000)
            record = '{"ts":%d,"level":"%s","body":"%s","n":%d}' % (FIRST_SECOND + number, level, body, size)
            out.write("p%d %d %s\n" % (number % 4, number // 4, record))


main()
