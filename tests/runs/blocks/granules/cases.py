"""Blocks of a machine with a granule of 16 pages: the request says so by a word more."""
from blocks import answered

# Each the request, and what is answered. A granule is for whole granules of types 0, 5, 6 and 10.
REQUESTS = [
    ("request 5 16 4503599627370496 16", "accepted"),
    ("request 5 16 4503599627370496 \t16 \r", "accepted"),
    ("request 5 16 4503599627370496 17", 4),
    ("request 5 16 4503599627370496 1", 4),
    ("request 5 16 4503599627370496 0x10", 4),
    ("request 5 16 4503599627370496 016", 4),
    ("request 5 16 4503599627370496 16 16", 4),
    # with the granule 1 the bound is another
    ("request 5 16 4503599627370496", "refused"),
    # a type that has no granule, and pages that fill none
    ("request 4 16 4503599627370496 16", "refused"),
    ("request 5 15 4503599627370496 16", "refused"),
]


def cases():
    for request, verdict in REQUESTS:
        block = f"certificate\nmap 1\n7 3 37 0xf\n{request}\nbounds 1\n3 37 3 16\nanswer 16\nend\n"
        yield request, answered(block, verdict)
