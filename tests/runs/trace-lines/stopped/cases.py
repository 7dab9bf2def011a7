"""Traces that a fault stops behind lines that are skipped or made."""

# Each the trace, what is printed before, and the fault.
TRACES = [
    ("# first\r\n\t pages 2\t4 0x2 0X9E000\n", "", "line 2: number"),
    (
        "# first\r\n\t pages 2\t4 0x2 0x9E000\r\n\r\npages 4294967296 4 1 0\nlist",
        "2 pages SUCCESS address=0x9e000\n",
        "line 4: number",
    ),
    ("map 191\nmap 16777217\n", "1 map BUFFER_TOO_SMALL size=192\n", "line 2: number"),
]


def cases():
    for trace, out, fault in TRACES:
        yield repr(trace), {"trace.txt": trace, "stdout": out, "stderr": f"bootcore: trace {fault}\n", "status": "1"}
