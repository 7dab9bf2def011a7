"""Command lines that are commands."""

RUN = "run --machine=examples/machine-a.json --trace examples/one-allocation.txt"
REPLY = "1 pages SUCCESS address=0x7f6000\n"
BLOCK = """certificate
map 4
7 0 160 0xf
7 256 768 0xf
6 1024 16 0x800000000000000f
7 1040 1008 0xf
request 4 10 4503599627370496
bounds 3
0 160 5 150
256 768 5 1014
1040 1008 5 2038
answer 2038
end
"""
VERSION = "bootcore 0.1.0\n"
# Each with what is printed.
COMMANDS = [
    (RUN, REPLY),
    (RUN + " --certify", REPLY + BLOCK),
    ("run --certify --trace=examples/one-allocation.txt --machine examples/machine-a.json", REPLY + BLOCK),
    ("check", "accepted\n"),
    ("--version", VERSION),
    ("-V", VERSION),
]


def cases():
    for words, out in COMMANDS:
        yield words, {"args": words.replace(" ", "\n"), "stdin": BLOCK, "stdout": out}
