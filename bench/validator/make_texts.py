#!/usr/bin/env python3
"""Writes pairs of an answer and an output, each of about SIZE bytes, into a folder.

numbers: whole numbers, one space apart in the answer and one a line in the output
floats:  numbers with nine places, and the same with twelve places and a small difference
words:   words, every eighth of them in upper case in the output, and some wider white space
"""
import random
import sys

folder, size = sys.argv[1], int(sys.argv[2])
random.seed(5)


def write(name, pairs, answer_gap, output_gap):
    answer, output = [], []
    for a, o in pairs:
        answer.append(a)
        output.append(o)
    with open(f"{folder}/{name}.ans", "w") as file:
        file.write(answer_gap.join(answer) + "\n")
    with open(f"{folder}/{name}.out", "w") as file:
        file.write(output_gap.join(output) + "\n")


def numbers():
    left = size
    while left > 0:
        number = str(random.randrange(10 ** random.randrange(1, 10)))
        left -= len(number) + 1
        yield number, number


def floats():
    left = size
    while left > 0:
        number = random.uniform(-1000, 1000)
        answer = f"{number:.9f}"
        left -= len(answer) + 1
        yield answer, f"{number * (1 + random.uniform(-1e-9, 1e-9)):.12f}"


def words():
    left, count = size, 0
    while left > 0:
        word = "".join(random.choices("abcdefghijklmnopqrstuvwxyz", k=random.randrange(2, 12)))
        left -= len(word) + 1
        count += 1
        yield word, word.upper() if count % 8 == 0 else word


write("numbers", numbers(), " ", "\n")
write("floats", floats(), " ", "\n")
write("words", words(), " ", "  ")
