"""A second line of the most bytes, 65,536, which is skipped, and one of a byte more, which is not read."""

LISTED = """1 list descriptors=4
  7 0x0 160 0xf
  7 0x100000 768 0xf
  6 0x400000 16 0x800000000000000f
  7 0x410000 1008 0xf
"""


def cases():
    comment = "#" * 65_536
    for end in ("", "\n"):
        yield f"the longest, then {end!r}", {"trace.txt": f"list\n{comment}{end}", "stdout": LISTED}
    for more in ("\r", "#\n"):
        too_long = {"trace.txt": f"list\n{comment}{more}", "stdout": LISTED}
        yield f"a byte more, {more!r}", {**too_long, "stderr": "bootcore: trace line 2: long\n", "status": "1"}
    last = {"trace.txt": "#\n" * 999_999 + comment + "#\n"}
    yield "the last line of all", {**last, "stderr": "bootcore: trace line 1000000: long\n", "status": "1"}
