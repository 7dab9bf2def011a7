"""Lines that are calls: the largest and the longest numbers, and blanks of each kind."""

# Each with its reply.
LINES = [
    ("pages 3 4 18446744073709551615 0", "INVALID_PARAMETER"),
    ("pages 4294967295 4294967295 1 0", "INVALID_PARAMETER"),
    ("pages 3 0xFfFfFfFf 1 0xffffffffffffffff", "INVALID_PARAMETER"),
    ("pages 2 4 1 00000000000000004097", "NOT_FOUND"),
    ("pages 0x2 4 1 0x0000000000001001", "NOT_FOUND"),
    ("\tpages  2\t\t4 1 0x1001 \t", "NOT_FOUND"),
    ("pages 2 4 1 0x1001\r", "NOT_FOUND"),
    ("pages 2 4 1 0x1001 \r", "NOT_FOUND"),
]


def cases():
    for line, status in LINES:
        yield repr(line), {"trace.txt": line, "stdout": f"1 pages {status}\n"}
