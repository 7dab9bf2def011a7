"""Runs past numbers at which a table might end: 65,536 opens, handle numbers and map keys, 1,024 registrations, and others.

No call of them is refused but where docs/RULES.md says so: a core has room for 4,096 handles, and for as many interfaces,
open items, registrations and blocks as its machine and host have memory. What they print is worked out here by rules of
a few lines each: numbers count up, and a new extent lies below the one before it.
"""
PAGE = 4096
FIRST, PAGES = 256, 131_072  # the one range of the machine, all of it free
BINDING = "18a031ab-b443-4d1a-a5c0-0c09261e9f71"
OPENS = NUMBERS = 70_000
MACHINE = '{"memory":[{"type":7,"start":"0x100000","pages":131072,"attributes":"0xf"}],"drivers":[%s]}'


def guid(number):
    return f"{number:08x}-1111-1111-1111-111111111111"


def address_below(pages):
    """Where the block of an extent begins whose pages, of the given number, are the highest of the machine."""
    return (FIRST + PAGES - pages) * PAGE + 8


def pages_for(size):
    return -(-(size + 8) // PAGE)


def spelled(numbers):
    return ",".join(map(str, numbers)) or "-"


class Trace:
    """The lines of a trace, and the lines that they print."""

    def __init__(self, *drivers):
        self.machine = MACHINE % ",".join(drivers)
        self.lines, self.printed = [], []
        self.number = 0  # the last handle's

    def call(self, line, reply="SUCCESS"):
        self.lines.append(line)
        self.printed.append(f"{len(self.lines)} {line.split()[0]} {reply}")

    def install(self, of, value, events=()):
        """Installs an interface on a new handle."""
        self.number += 1
        self.call(f"install 0 {of} 0 {value}", f"SUCCESS handle={self.number} events={spelled(events)}")
        return self.number

    def locate(self, words, handles):
        """Finds handles by LocateHandle, with just the room, and by LocateHandleBuffer, whose block is read and freed."""
        size = 8 * len(handles)
        address = address_below(pages_for(size))
        self.call(f"locate {words} {size - 1}", f"BUFFER_TOO_SMALL size={size}")
        self.call(f"locate {words} {size}", f"SUCCESS size={size} handles={spelled(handles)}")
        self.call(f"locate-buffer {words}", f"SUCCESS count={len(handles)} address={address:#x}")
        self.read(address, b"".join(it.to_bytes(8, "little") for it in handles))
        self.call(f"free-pool {address:#x}")

    def read(self, address, wanted):
        """Reads bytes, at most 65,536 by one call."""
        for at in range(0, len(wanted), 65_536):
            part = wanted[at : at + 65_536]
            self.call(f"read {address + at:#x} {len(part)}", f"SUCCESS bytes={part.hex()}")

    def files(self):
        return {name: "\n".join(lines) + "\n" for name, lines in self.named()}

    def named(self):
        return ("machine.json", [self.machine]), ("trace.txt", self.lines), ("stdout", self.printed)


def driver(opened, children):
    """A driver for the controllers that carry a GUID, with children of one interface each."""
    made = ",".join(f'[["{it}","0x0"]]' for it in children)
    return f'{{"version":1,"needs":["{opened}"],"opens":["{opened}"],"children":[{made}],"stops":true}}'


def opens():
    """An item is made and taken away over and over, then one is counted as often."""
    trace = Trace()
    trace.install(guid(1), 7)
    trace.install(guid(2), 0)
    for _ in range(OPENS):
        trace.call(f"open 1 {guid(1)} 2 0 2", "SUCCESS interface=0x7")
        trace.call(f"close 1 {guid(1)} 2 0")
    for _ in range(OPENS):
        trace.call(f"open 1 {guid(1)} 2 1 2", "SUCCESS interface=0x7")
    items(trace, [(2, 1, OPENS)])
    return trace


def items(trace, found):
    """Lists the items on handle 1, each with agent, controller and count, in a block that is freed."""
    entries = [it.to_bytes(8, "little") + other.to_bytes(8, "little") + bytes([2, 0, 0, 0]) + count.to_bytes(4, "little") for it, other, count in found]
    address = address_below(pages_for(24 * len(found)))
    trace.call(f"information 1 {guid(1)}", f"SUCCESS count={len(found)} address={address:#x}")
    trace.read(address, b"".join(entries))
    trace.call(f"free-pool {address:#x}")


def handle_numbers():
    """A handle comes and goes over and over; each has a new number, and each interface a new stamp."""
    trace = Trace()
    trace.call(f"notify {guid(1)} 9", "SUCCESS registration=1")
    for _ in range(NUMBERS):
        number = trace.install(guid(1), 5, [9])
        trace.call(f"uninstall {number} {guid(1)} 5")
    number = trace.install(guid(1), 5, [9])
    trace.call(f"locate 1 {guid(1)} 1 8", f"SUCCESS size=8 handles={number}")
    trace.call(f"locate 1 {guid(1)} 1 8", "NOT_FOUND")
    return trace


def stamps():
    """An interface is reinstalled over and over, and each time its registration meets it again."""
    trace = Trace()
    trace.install(guid(1), 0)
    trace.call(f"notify {guid(1)} 9", "SUCCESS registration=1")
    for value in range(NUMBERS):
        trace.call(f"reinstall 1 {guid(1)} {value} {value + 1}", "SUCCESS events=9")
    trace.call(f"locate-protocol {guid(1)} 1", f"SUCCESS interface={NUMBERS:#x}")
    trace.call(f"locate-protocol {guid(1)} 1", "NOT_FOUND")
    return trace


def registrations():
    """2,000 keys of four GUIDs; each is served once for each handle with its GUID, the oldest first."""
    trace = Trace()
    keys = range(1, 2_001)
    for key in keys:
        trace.call(f"notify {guid(key % 4)} {key + 10_000}", f"SUCCESS registration={key}")
    rounds = [[trace.install(guid(n), 16 * n + turn, [key + 10_000 for key in keys if key % 4 == n]) for n in range(4)] for turn in range(2)]
    for key in keys:
        trace.call(f"locate 1 {guid(0)} {key} 8", f"SUCCESS size=8 handles={rounds[0][key % 4]}")
    for key in keys:
        trace.call(f"locate-protocol {guid(key % 4)} {key}", f"SUCCESS interface={16 * (key % 4) + 1:#x}")
        trace.call(f"locate 1 {guid(0)} {key} 8", "NOT_FOUND")
    trace.call(f"locate 1 {guid(0)} 2001 8", "INVALID_PARAMETER")
    events = [key + 10_000 for n in range(4) for key in keys if key % 4 == n]
    pairs = " ".join(f"{guid(n)} 0" for n in range(4))
    trace.call(f"install-many 0 {pairs}", f"SUCCESS handle=9 events={spelled(events)}")
    return trace


def handles():
    """All 4,096 handles, found by each way, and one that would be too many."""
    trace = Trace()
    live = [trace.install(guid(1 + n % 2), n) for n in range(4_096)]
    trace.call(f"install 0 {guid(1)} 0 0", "OUT_OF_RESOURCES")
    trace.locate(f"0 {guid(9)} 0", live)
    trace.locate(f"2 {guid(1)} 0", live[::2])
    for n, number in enumerate(live[1::2]):
        trace.call(f"install {number} {guid(1)} 0 {n}", f"SUCCESS handle={number} events=-")
    trace.locate(f"2 {guid(1)} 0", live)
    trace.call(f"uninstall 1 {guid(1)} 0")
    trace.install(guid(1), 3)
    trace.locate(f"2 {guid(1)} 0", live[1:] + [trace.number])
    return trace


def interfaces():
    """2,000 interfaces on one handle, to which a driver is connected."""
    trace = Trace(driver(guid(1_999), [guid(2_000)]))
    trace.install(guid(0), 0)
    for n in range(1, 2_000):
        trace.call(f"install 1 {guid(n)} 0 {n}", "SUCCESS handle=1 events=-")
    trace.call("protocols 1", f"SUCCESS guids={spelled(guid(n) for n in range(2_000))}")
    for n in range(2_000):
        trace.call(f"handle-protocol 1 {guid(n)}", f"SUCCESS interface={n:#x}")
    trace.install(BINDING, 0)
    trace.call("connect 1 1", "SUCCESS events=-")
    trace.call(f"locate 2 {guid(2_000)} 0 8", "SUCCESS size=8 handles=3")
    return trace


def open_items():
    """4,225 items on one interface: 65 agents with 65 controllers each."""
    trace = Trace()
    live = [trace.install(guid(1), 7) for _ in range(65)]
    pairs = [(agent, controller) for agent in live for controller in live]
    for agent, controller in pairs:
        trace.call(f"open 1 {guid(1)} {agent} {controller} 2", "SUCCESS interface=0x7")
    items(trace, [(*it, 1) for it in pairs])
    for agent, controller in pairs[::2]:
        trace.call(f"close 1 {guid(1)} {agent} {controller}")
    items(trace, [(*it, 1) for it in pairs[1::2]])
    return trace


def connect_events():
    """1,000 registrations for a GUID that each of eight children of a start carries."""
    trace = Trace(driver(guid(1), [guid(2)] * 8))
    trace.install(guid(1), 0)
    trace.install(BINDING, 0)
    events = range(1, 1_001)
    for event in events:
        trace.call(f"notify {guid(2)} {event}", f"SUCCESS registration={event}")
    for connected in ("connect 1 0", "connect 1 1", f"reinstall 1 {guid(1)} 0 0"):
        trace.call(connected, f"SUCCESS events={spelled([*events] * 8)}")
        trace.number += 8
        made = [trace.number - 7 + n for n in range(8)]
        trace.call(f"locate 2 {guid(2)} 0 64", f"SUCCESS size=64 handles={spelled(made)}")
        if connected != "connect 1 1":
            trace.call("disconnect 1 0")
    return trace


def stops():
    """A driver on handle 1 with eight children, eight below each of them, and so on: 585 pairs, which stop together."""
    trace = Trace(*(driver(guid(level), [guid(level + 1)] * 8 if level < 4 else []) for level in range(1, 5)))
    trace.install(guid(1), 7)
    for n in range(4):
        trace.install(BINDING, n)
    agent = trace.install(guid(9), 0)
    ways = [("disconnect 1 0", "SUCCESS"), (f"open 1 {guid(1)} {agent} 0 32", "SUCCESS interface=0x7"), (f"uninstall 1 {guid(1)} 7", "SUCCESS")]
    for line, reply in ways:
        made = {2: [], 3: [], 4: []}
        trace.call("connect 1 1", "SUCCESS events=-")
        make_below(trace, 2, made)
        for level, found in made.items():
            trace.locate(f"2 {guid(level)} 0", found)
        trace.call(line, reply)
        for level in made:
            trace.call(f"locate 2 {guid(level)} 0 8", "NOT_FOUND")
        if line.startswith("open"):
            trace.call("connect 1 1", "NOT_FOUND")
            trace.call(f"close 1 {guid(1)} {agent} 0")
    trace.call(f"locate 0 {guid(9)} 0 40", "SUCCESS size=40 handles=2,3,4,5,6")
    return trace


def make_below(trace, level, made):
    """Numbers the children of a start: all eight, and then what is below each."""
    numbers = range(trace.number + 1, trace.number + 9)
    trace.number += 8
    made[level] += numbers
    for _ in numbers if level < 4 else ():
        make_below(trace, level + 1, made)
    made[level].sort()


def managers():
    """1,000 drivers that each have one interface of handle 1 open, and 3,000 more that may be tried on it."""
    trace = Trace(driver(guid(0), [guid(2_000)]))
    trace.install(guid(0), 0)
    agents = [trace.install(BINDING, 0) for _ in range(4_000)]
    trace.call("connect 1 0", "SUCCESS events=-")
    trace.number += 1
    for n in range(1, 1_000):
        trace.call(f"install 1 {guid(n)} 0 0", "SUCCESS handle=1 events=-")
        trace.call(f"open 1 {guid(n)} {agents[n]} 1 16", "SUCCESS interface=0x0")
    trace.call(f"disconnect 1 {agents[500]}")
    trace.call(f"locate 2 {guid(2_000)} 0 8", f"SUCCESS size=8 handles={trace.number}")
    trace.call("disconnect 1 0")
    trace.call(f"locate 2 {guid(2_000)} 0 8", "NOT_FOUND")
    trace.call(f"information 1 {guid(999)}", "SUCCESS count=0 address=0x0")
    return trace


def chain():
    """A driver on a handle makes one on which it is started too, and so on: 1,000 pairs in a row, which stop together."""
    trace = Trace(driver(guid(1), [guid(1)]))
    trace.install(guid(1), 0)
    trace.install(BINDING, 0)
    for n in range(125):
        trace.call(f"connect {trace.number if n else 1} 1", "SUCCESS events=-")
        trace.number += 8
    trace.locate(f"2 {guid(1)} 0", [1, *range(3, trace.number + 1)])
    trace.call("disconnect 1 0")
    trace.locate(f"2 {guid(1)} 0", [1])
    return trace


def words():
    """Lines of nearly as many words and bytes as a line may have."""
    trace = Trace()
    trace.install(guid(1), 0)
    trace.call("connect 1 0" + 32_000 * " 1", "INVALID_PARAMETER")
    trace.call("install-many 0" + f" {guid(1)} 0" * 1_600, "INVALID_PARAMETER")
    trace.call("pool 4 32000", f"SUCCESS address={address_below(8):#x}")
    written = bytes(n % 251 for n in range(32_000))
    trace.call(f"write {address_below(8):#x} {written.hex()}")
    trace.read(address_below(8), written)
    return trace


def map_entries():
    """Every second page is placed, so that the map has more than 65,536 entries; a hole is the best place for one more."""
    trace = Trace()
    count = 40_000
    taken = [FIRST + 1 + 2 * n for n in range(count)]
    for page in taken:
        trace.call(f"pages 2 4 1 {page * PAGE:#x}", f"SUCCESS address={page * PAGE:#x}")
    entries = [(kind, 1, page) for page in taken for kind, page in ((7, page - 1), (4, page))]
    entries.append((7, FIRST + PAGES - taken[-1] - 1, taken[-1] + 1))
    shown = "".join(f"\n  {kind} {page * PAGE:#x} {pages} 0xf" for kind, pages, page in entries)
    size = 48 * len(entries)
    trace.call("list", f"descriptors={len(entries)}{shown}")
    trace.call(f"map {size}", f"SUCCESS size={size} key={count + 1} descriptor-size=48 version=1{shown}")
    trace.call(f"map {size - 1}", f"BUFFER_TOO_SMALL size={size}")
    for page in taken[:-101:-1]:
        trace.call("pages 0 4 1 0", f"SUCCESS address={(page - 1) * PAGE:#x}")
        trace.call(f"free-pages {(page - 1) * PAGE:#x} 2")
    for page in taken[:-100]:
        trace.call(f"free-pages {page * PAGE:#x} 1")
    trace.call("list", f"descriptors=1\n  7 {FIRST * PAGE:#x} {PAGES} 0xf")
    return trace


def map_keys():
    """A page is placed and freed over and over, which raises the key of the map each time."""
    trace = Trace()
    top = (FIRST + PAGES - 1) * PAGE
    for _ in range(40_000):
        trace.call("pages 0 4 1 0", f"SUCCESS address={top:#x}")
        trace.call(f"free-pages {top:#x} 1")
    trace.call("map 47", "BUFFER_TOO_SMALL size=48")
    trace.call("exit 80000", "INVALID_PARAMETER")
    trace.call("exit 80001")
    return trace


def blocks():
    """70,000 blocks at a time, 128 in each page; then 5,000 of a page each."""
    trace = Trace()
    for size, count, on_page in ((24, 70_000, 128), (4_088, 5_000, 1)):
        addresses = [address_below(1 + n // on_page) + 32 * (n % on_page) for n in range(count)]
        for address in addresses:
            trace.call(f"pool 4 {size}", f"SUCCESS address={address:#x}")
        for address in addresses:
            trace.call(f"free-pool {address:#x}")
    return trace


def cases():
    made = (opens, handle_numbers, stamps, registrations, handles, interfaces, open_items)
    more = (connect_events, stops, managers, chain, words, map_entries, map_keys, blocks)
    for run in made + more:
        yield run.__name__.replace("_", " "), run().files()
