"""The accepted block, changed, and what a check of a block answers."""
import os

with open(os.path.join(os.path.dirname(__file__), "accepted", "stdin"), encoding="ascii") as accepted:
    LINES = accepted.read().splitlines(keepends=True)


def block_with(first, count, lines):
    """The accepted block with other lines instead of some: the first of these is line 1 or a later one."""
    return "".join([*LINES[: first - 1], lines, *LINES[first - 1 + count :]])


def answered(block, verdict):
    """A check of the block: its verdict is accepted, refused, or the number of the line that is wrong."""
    if verdict == "accepted":
        return {"stdin": block, "stdout": "accepted\n"}
    if verdict == "refused":
        return {"stdin": block, "stdout": "refused\n", "status": "3"}
    return {"stdin": block, "stderr": f"bootcore: block: line {verdict}\n", "status": "1"}
