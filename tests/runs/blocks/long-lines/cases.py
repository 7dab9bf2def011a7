"""Each line with blanks behind it: a line has at most 65,536 bytes."""
from blocks import LINES, answered, block_with


def cases():
    for line, text in enumerate(LINES, 1):
        for length, verdict in ((1_025, "accepted"), (65_536, "accepted"), (65_537, line)):
            block = block_with(line, 1, text.rstrip("\n").ljust(length) + "\n")
            yield f"line {line} of {length} bytes", answered(block, verdict)
