"""A block of the most lines, 5,000,000, and one of a line more. Its entries are no map, so it is refused at best."""
from blocks import answered


def block_of(entries):
    return f"certificate\nmap {entries}\n" + "7 0 1 0\n" * entries + "request 4 1 1\nbounds 0\nanswer 0\nend\n"


def cases():
    yield "the most lines", answered(block_of(4_999_994), "refused")
    yield "a line more", answered(block_of(4_999_995), 5_000_001)
