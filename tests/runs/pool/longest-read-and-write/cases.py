"""A block of the most bytes that a line reads, 65,536, with as many written as a line holds."""


def cases():
    digits, rest = "5a" * 32_760, "00" * 32_776
    trace = f"pool 4 65536\nwrite 0x7ef008 {digits}\nread 0x7ef008 65536\n"
    out = f"1 pool SUCCESS address=0x7ef008\n2 write SUCCESS\n3 read SUCCESS bytes={digits}{rest}\n"
    yield "written and read", {"trace.txt": trace, "stdout": out}
