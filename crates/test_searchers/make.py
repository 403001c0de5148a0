#!/usr/bin/env python3
"""Writes the lines of the file stdout that tell of drawn books, by a plain model: the generator of `src/numbers.rt`, and
where a pattern stands. Run it in the folder of the crate."""
import re

ALL = b'ABCDEFGHIJKLMNOPQRSTUVWXYZ'
SHAPES = [
    (0, [1], b'AB'), (3, [1, 2, 3], b'AB'), (12, [2, 3, 4, 5, 6, 7], b'ABC'), (200, [3, 4, 5, 6], ALL),
    (1024, [4, 5, 6, 7, 8, 9, 10, 11], b'ABCD'), (8, [63, 64, 65, 66], b'AB'), (8, [64, 65, 66, 67], b'AB'),
    (8, [65, 66, 67, 68], b'AB'), (8, list(range(300, 320)), ALL),
]
state = 1


def below(n):
    global state
    state = (state * 6364136223846793005 + 1442695040888963407) % (1 << 64)
    return (state >> 33) % n if n else 0


def word(letters, length):
    return bytes(letters[below(len(letters))] for _ in range(length))


def text_of(patterns, letters):
    """Letters, with patterns among them, each by its number in the order in which they are read."""
    text = b''
    for _ in range(60):
        text += word(letters, below(6))
        number = below(len(patterns))
        text += b''.join(patterns[number:number + 1])
    return text


def hits_of(count, lens, letters):
    """At how many places of some texts a search finds a hit: at those up to the last one at which a pattern begins."""
    hits = 0
    for _ in range(5):
        for first_entered in (True, False):
            patterns = [word(letters, lens[below(len(lens))]) for _ in range(count)]
            if not first_entered:
                patterns.sort(key=len, reverse=True)  # equal lengths stay as they were entered
            text = text_of(patterns, letters)
            hits += max((text.rfind(pattern) for pattern in patterns), default=-1) + 1
    return hits


lines = iter([f'{count} patterns from {lens[0]} bytes on: {hits_of(count, lens, letters)} hits, the same'
              for count, lens, letters in SHAPES])
printed = open('stdout').read()
open('stdout', 'w').write(re.sub(r'(?m)^\d+ patterns from .*', lambda _: next(lines), printed))
