"""The most handles, 4,096; then one more is refused, and an interface more on one of them is not."""

MAX = 4_096


def cases():
    trace = "install 0 11111111-1111-1111-1111-111111111111 0 0\n" * (MAX + 1)
    trace += "install 7 22222222-2222-2222-2222-222222222222 0 0\n"
    out = "".join(f"{number} install SUCCESS handle={number} events=-\n" for number in range(1, MAX + 1))
    out += f"{MAX + 1} install OUT_OF_RESOURCES\n{MAX + 2} install SUCCESS handle=7 events=-\n"
    yield "handles", {"trace.txt": trace, "stdout": out}
