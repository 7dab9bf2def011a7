"""Fronts of the accepted block: each lacks the line after its last."""
from blocks import LINES, answered


def cases():
    for count in range(len(LINES)):
        yield f"{count} lines", answered("".join(LINES[:count]), count + 1)
