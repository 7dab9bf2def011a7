"""Each front of a machine file: none is JSON."""
import os

with open(os.path.join(os.path.dirname(__file__), "..", "..", "machine.json"), encoding="ascii") as machine:
    MACHINE = machine.read().strip()


def cases():
    for count in range(len(MACHINE)):
        files = {"machine.json": MACHINE[:count], "trace.txt": "list\n"}
        yield f"{count} bytes", {**files, "stderr": "bootcore: machine: not JSON\n", "status": "1"}
