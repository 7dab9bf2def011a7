"""A machine file of the most bytes, and one of a byte more."""

MAX = 67_108_864
MACHINE = '{"memory":[]}'


def cases():
    longest = " " * (MAX - len(MACHINE)) + MACHINE
    yield "the longest", {"machine.json": longest, "trace.txt": "list\n", "stdout": "1 list descriptors=0\n"}
    too_long = {"machine.json": longest + " ", "trace.txt": "list\n"}
    yield "a byte more", {**too_long, "stderr": "bootcore: machine: too long\n", "status": "1"}
