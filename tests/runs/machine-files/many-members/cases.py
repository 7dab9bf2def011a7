"""The most descriptors that a machine file can have, each a page apart, and one more."""

MAX = 65_536


def machine_of(count, last=',"attributes":"0xf"'):
    """A machine of the given number of descriptors. The last one may lack its attributes."""
    starts = [f'{{"type":7,"start":"0x{number:x}2000","pages":1' for number in range(1, count + 1)]
    return '{"memory":[' + ',"attributes":"0xf"},'.join(starts) + last + "}]}"


def cases():
    listed = "".join(f"  7 0x{number:x}2000 1 0xf\n" for number in range(1, MAX + 1))
    out = f"1 list descriptors={MAX}\n{listed}"
    yield "the most", {"machine.json": machine_of(MAX), "trace.txt": "list\n", "stdout": out}
    for name, machine, fault in (
        ("one more", machine_of(MAX + 1), "too many descriptors"),
        ("a fault in the last", machine_of(MAX, ""), "descriptor 65535: attributes"),
    ):
        stderr = f"bootcore: machine: {fault}\n"
        yield name, {"machine.json": machine, "trace.txt": "list\n", "stderr": stderr, "status": "1"}
