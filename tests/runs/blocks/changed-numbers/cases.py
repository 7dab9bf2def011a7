"""The accepted block with a number in it one more or one less: it is accepted only where it is still true."""
from blocks import LINES, answered, block_with

# The numbers that may change, each by its line and its word, and by how much. No two entries of one type touch, so that
# attributes say nothing here; runtime pages may be of the other runtime type, or one fewer; the request may be for
# another type that no entry beside free pages has, and end a page before or past all.
FREE = {(3, 3, 1), (3, 3, -1), (4, 3, 1), (4, 3, -1), (5, 0, -1), (5, 2, -1), (5, 3, 1), (5, 3, -1)}
FREE |= {(6, 3, 1), (6, 3, -1), (7, 1, 1), (7, 1, -1), (7, 3, 1), (7, 3, -1)}
# Where a count of lines is wrong, the first line that is another than it says.
COUNTS = {(2, 1): 7, (2, -1): 6, (8, 1): 12, (8, -1): 11}


def number_of(word):
    """The number of a word, or none."""
    try:
        return int(word, 0)
    except ValueError:
        return None


def cases():
    for line, text in enumerate(LINES, 1):
        words = text.split()
        for place, word in enumerate(words):
            for change in (1, -1):
                number = number_of(word)
                if number is None or number + change < 0:
                    continue
                other = " ".join([*words[:place], str(number + change), *words[place + 1 :]])
                verdict = "accepted" if (line, place, change) in FREE else "refused"
                if text.startswith(("map", "bounds")):
                    verdict = COUNTS[line, change]
                yield f"line {line}: {other}", answered(block_with(line, 1, other + "\n"), verdict)
