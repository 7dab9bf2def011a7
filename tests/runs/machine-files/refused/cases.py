"""Machine files that are refused as a whole."""

PAGE = b'{"type":7,"start":"0x0","pages":1,"attributes":"0x0"}'
TWO_PAGES = b'{"type":7,"start":"0x2000","pages":2,"attributes":"0x0"}'
SECOND = b'{"type":7,"start":"0x3000","pages":1,"attributes":"0x0"}'
# Each with the text that is printed; the words in capitals are the descriptors above.
MACHINES = [
    (b'', "not JSON"),
    (b'{"memory":[]}x', "not JSON"),
    (b'{"memory":[],"x":"\xff"}', "not JSON"),
    (b'\xef\xbb\xbf{"memory":[]}', "not JSON"),
    (b'[]', "no memory list"),
    (b'{}', "no memory list"),
    (b'{"memory":null}', "no memory list"),
    (b'{"memory":[],"memory":{}}', "no memory list"),
    (b'{"memory":[{"type":7,"start":"0x1","pages":160,"attributes":"0xf"}]}', "descriptor 0: start"),
    (b'{"memory":[TWO_PAGES,PAGE,SECOND]}', "descriptors overlap"),
    (b'{"drivers":null,"memory":[]}', "no driver list"),
    (b'{"drivers":{},"memory":[]}', "no driver list"),
    (b'{"drivers":[],"memory":[],"drivers":7}', "no driver list"),
    (b'{"drivers":7}', "no memory list"),
    (b'{"drivers":7,"memory":[7]}', "descriptor 0: type"),
    (b'{"drivers":[7],"memory":[{"type":7,"start":"0x0","pages":1}]}', "descriptor 0: attributes"),
    (b'{"drivers":7,"memory":[PAGE,PAGE]}', "no driver list"),
    (b'{"drivers":[7],"memory":[PAGE,PAGE]}', "driver 0: version"),
    (b'{"drivers":[],"memory":[PAGE,PAGE]}', "descriptors overlap"),
    (b'{"granule":2,"memory":[PAGE,PAGE]}', "descriptors overlap"),
    (b'{"memory":[],"granule":2}', "granule"),
    (b'{"memory":[],"granule":16,"granule":8}', "granule"),
    (b'{"memory":[],"granule":0}', "granule"),
    (b'{"memory":[],"granule":"16"}', "granule"),
    (b'{"memory":[],"granule":16.0}', "granule"),
    (b'{"memory":[],"granule":null}', "granule"),
]


def whole(machine):
    return machine.replace(b"TWO_PAGES", TWO_PAGES).replace(b"SECOND", SECOND).replace(b"PAGE", PAGE)


def cases():
    for machine, fault in MACHINES:
        files = {"machine.json": whole(machine), "trace.txt": "list\n"}
        yield repr(machine), {**files, "stderr": f"bootcore: machine: {fault}\n", "status": "1"}
