"""Traces of the most lines, 1,000,000, and of one more: lines that are skipped count."""


def cases():
    for line in ("#\n", "\n"):
        yield f"the most lines {line!r}", {"trace.txt": line * 1_000_000}
        too_many = {"trace.txt": line * 1_000_001}
        yield f"a line {line!r} more", {**too_many, "stderr": "bootcore: trace: too many lines\n", "status": "1"}
