"""Each odd page of a free block is taken at its address, which makes 771 descriptors, and freed again."""

PAGES = range(256, 1024)
BEFORE, BEHIND = ["  7 0x0 160 0xf"], ["  6 0x400000 16 0x800000000000000f", "  7 0x410000 1008 0xf"]


def cases():
    odd = [page * 4096 for page in PAGES if page % 2]
    trace = [*(f"pages 2 4 1 0x{at:x}" for at in odd), "list", *(f"free-pages 0x{at:x} 1" for at in odd), "list", ""]
    taken, freed = len(odd) + 1, 2 * len(odd) + 2
    out = [f"{number} pages SUCCESS address=0x{at:x}" for number, at in enumerate(odd, 1)]
    out += [f"{taken} list descriptors=771", *BEFORE]
    out += [f"  {4 if page % 2 else 7} 0x{page * 4096:x} 1 0xf" for page in PAGES] + BEHIND
    out += [f"{number} free-pages SUCCESS" for number in range(taken + 1, freed)]
    out += [f"{freed} list descriptors=4", *BEFORE, "  7 0x100000 768 0xf", *BEHIND, ""]
    yield "taken and freed", {"trace.txt": "\n".join(trace), "stdout": "\n".join(out)}
