"""A machine of 65,536 descriptors, each a page, with a page between it and the next: no call makes one more."""

MAX = 65_536
LAST = 2 * (MAX - 1) * 4096


def listed(number, last):
    """The list of all, with the type of the last."""
    lines = [f"  7 0x{2 * page * 4096:x} 1 0xf" for page in range(MAX - 1)]
    return [f"{number} list descriptors={MAX}", *lines, f"  {last} 0x{LAST:x} 1 0xf"]


def cases():
    page = '{"type":7,"start":"0x%x","pages":1,"attributes":"0xf"}'
    machine = '{"memory":[' + ",".join(page % (2 * number * 4096) for number in range(MAX)) + "]}"
    trace = f"pages 0 4 2 0\nlist\npages 0 4 1 0\nlist\nfree-pages 0x{LAST:x} 1\nlist\n"
    out = ["1 pages OUT_OF_RESOURCES", *listed(2, 7), f"3 pages SUCCESS address=0x{LAST:x}", *listed(4, 4)]
    out += ["5 free-pages SUCCESS", *listed(6, 7), ""]
    yield "pages are taken and freed", {"machine.json": machine, "trace.txt": trace, "stdout": "\n".join(out)}
