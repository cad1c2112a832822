"""Schedules: what a seed draws, and what is a turn of them."""
from functools import lru_cache

WORD = 2**64 - 1


def drawn(seed, turns):
    """The two draws of each entry that a seed gives, as docs/USING.md has them."""
    state = seed
    for _ in range(turns):
        first = state * 6364136223846793005 + 1442695040888963407 & WORD
        state = first * 6364136223846793005 + 1442695040888963407 & WORD
        yield first >> 32, state >> 32


@lru_cache
def stops_drawn(seed, turns, count):
    """How often a seed stops each of so many guests."""
    stops, all_of_them = [0] * count, 0
    for first, second in drawn(seed, turns):
        if first % 1000 == 999:
            stops[second % count] += 1
        elif first % 1000 == 998:
            all_of_them += 1
    return tuple(it + all_of_them for it in stops)


def stops_listed(lines, count):
    """How often the lines of a schedule stop each of so many guests."""
    stops = [0] * count
    for line in lines:
        word, *of = line.split()
        if word == "stop":
            stops[int(of[0])] += 1
        elif word == "power":
            stops = [it + 1 for it in stops]
    return stops


def turns_drawn(seed, turns, count):
    """The lines of a seed's schedule with a turn in place of each stop."""
    for at, (first, second) in enumerate(drawn(seed, turns)):
        yield f"{first % count} {second} {10 * at}\n"


def turns_listed(lines):
    """The lines of a schedule that are turns."""
    return (line for line in lines if line[:1].isdigit())
