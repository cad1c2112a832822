#!/usr/bin/env python3
"""Prints what an example shows, computed without its guests: expected.py statistics|primes|talk."""
import os
import statistics
import sys

HERE = os.path.dirname(os.path.realpath(__file__))


def statistics_text():
    with open(f"{HERE}/statistics/numbers.txt") as file:
        numbers = [int(word) for word in file.read().split()]
    yield f"count {len(numbers)}"
    yield f"smallest {min(numbers)}"
    yield f"largest {max(numbers)}"
    yield f"mean {statistics.mean(numbers):.3f}"
    yield f"median {statistics.median(numbers):.1f}"


def is_prime(number):
    return number > 1 and all(number % divisor for divisor in range(2, int(number**0.5) + 1))


def primes_text():
    for below in range(1000, 7001, 1000):
        yield f"below {below}: {sum(map(is_prime, range(below)))} primes"


def factors_of(number):
    """Its prime factors, the smallest first."""
    factor = next((it for it in range(2, int(number**0.5) + 1) if number % it == 0), number)
    return [factor] + (factors_of(number // factor) if factor < number else [])


def talk_text():
    with open(f"{HERE}/talk/numbers.txt") as file:
        for number in map(int, file.read().split()):
            yield f"{number} = {' x '.join(map(str, factors_of(number)))}"


def lines_of(text, ending):
    """The lines of a run whose guest 0 shows a text, each line by a call of its own, and whose guests then end with code 0 in this order."""
    shown = [line + "\n" for line in text]
    ends = [f"end {guest} {0 if guest else len(shown)} 0\n" for guest in ending]
    return [f"out 0 {k} {line.encode().hex()}\n" for k, line in enumerate(shown)] + ends


# What guest 0 of each example shows, and the order in which the guests end.
EXAMPLES = {"statistics": (statistics_text, [0]), "primes": (primes_text, [0]), "talk": (talk_text, [0, 1])}

text, ending = EXAMPLES[sys.argv[1]]
sys.stdout.writelines(lines_of(text(), ending))
