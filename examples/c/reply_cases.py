"""Machines and traces for check-replies: single lines, machine files, and drawn traces."""
import os
import random
import runpy

DISK = "964e5b21-6459-11d2-8e39-00a0c969723b"
FILES = "964e5b22-6459-11d2-8e39-00a0c969723b"
DEVICE_PATH = "09576e91-6d3f-11d2-8e39-00a0c969723b"
DRIVER_BINDING = "18a031ab-b443-4d1a-a5c0-0c09261e9f71"
DIGITS = DISK.replace("-", "")

NUMBERS = [
    "0", "00", "1", "0x1", "0X1", "18446744073709551615", "18446744073709551616", "00000000000000000001",
    "000000000000000000001", "0x0000000000000001", "0x00000000000000001", "0x", "x1", "+1", "-1", "1.0", "1e0",
    "0xFfFfFfFfFfFfFfFf", "4294967295", "4294967296", "0x6fffffff", "0x70000000", "16777216", "16777217", "65536", "65537",
]

GUIDS = [
    DISK, DISK.upper(), DIGITS, DIGITS.upper(), "{" + DISK + "}", "{" + DIGITS + "}", "urn:uuid:" + DISK, "URN:UUID:" + DISK,
    "Urn:uUid:" + DISK.upper(), "urn:uuid:" + DIGITS, "urn-uuid:" + DISK, "{" + DISK, DISK + "}", "(" + DISK + ")",
    DISK[:-1], DISK + "0", DISK.replace("-", "_"), DIGITS[:-1], DIGITS + "0", "-" * 36, "0" * 32, "g" * 32, "\xe9" * 16, "-",
]

HEX = ["-", "--", "0", "00", "0g", "g0", "aBcD", "ABCDE", "0x00", "ab" * 30000]

ODD_LINES = [
    "", "#", "#list", " # list", "\t#", "x # y", "  list  ", "\tlist\t", "list\r", "list \r", "list\r\r", "\r", " \r",
    "lis\rt", "list\f", "list\0", "list\xc3\xa9", "\xff", "list\xa0", "List", "lists", "free_pages 0 1", "list 1",
]

# The letter of a word: i a number of 32 bits, n of 64, g a GUID, x bytes.
LETTERS = {"KIND": "i", "TYPE": "i", "SEARCH": "i", "ATTRIBUTES": "i", "GUID": "g", "HEX": "x"}


def letters_of(words):
    """The letters of a verb's words, of those that may be repeated once if they are needed."""
    always, _, more = words.partition(" (")
    return "".join(LETTERS.get(it, "n") for it in [*always.split(), *(more[:-2].split() if more.endswith("+") else [])])


# Each verb with the letters of its words.
EXPLAIN = runpy.run_path(os.path.join(os.path.dirname(os.path.abspath(__file__)), "..", "..", "tools", "explain"))
VERBS = {verb: letters_of(words) for verb, words in EXPLAIN["VERBS"].items() if verb != "list"}
PLAIN = {"i": "1", "n": "1", "g": DISK, "x": "00"}


def joined(verb, words):
    return " ".join([verb] + words)


def service_lines():
    """Each verb with too few and too many words, and with each number, GUID and bytes in each place."""
    for verb, letters in VERBS.items():
        plain = [PLAIN[letter] for letter in letters]
        for count in range(len(plain) + 3):
            yield joined(verb, (plain + ["1", "x", "2"])[:count])
        for place, letter in enumerate(letters):
            for word in GUIDS if letter == "g" else HEX if letter == "x" else NUMBERS:
                yield joined(verb, plain[:place] + [word] + plain[place + 1:])
            yield joined(verb, plain[:place] + ["!"] * (len(plain) - place))


def long_lines():
    """Lines of as many bytes as a line may have and of one more, and services with many words."""
    for length in (65536, 65537):
        yield "#" * length
        yield "list" + " " * (length - 4)
        yield "list" + " " * (length - 5) + "\r"
    for count in (16, 17, 400):
        yield "connect 1 0 " + " ".join(map(str, range(count)))
        yield "install-many 0 " + " ".join("%032x %d" % (number, number) for number in range(count))


def lines():
    """Lines, each for a trace of its own, as bytes."""
    for make in (lambda: ODD_LINES, service_lines, long_lines):
        for line in make():
            yield line.encode("latin-1")


FREE = '{"type":7,"start":"0x1000","pages":160,"attributes":"0xf"}'
DRIVER = ('{"version":3,"needs":["%s"],"opens":["%s"],"children":[[["%s","0x500"]]],"stops":true}' % (DISK, DISK, FILES))
PAIR = '["%s","0x500"]' % FILES

# What replaces each field of a descriptor.
FIELDS = {
    '"type":7': ["0", "6", "14", "15", "16", "1879048191", "1879048192", "4294967295", "4294967296", "7.0", "7e0", "-7", "-0",
                 "07", '"7"', "true", "null", "[7]", "0x7"],
    '"start":"0x1000"': ['"0x0"', '"0x1001"', '"0x001000"', '"0xfffffffffffff000"', '"0xfffffffffff60000"', '"1000"',
                         '"0x10000000000000000"', '"0X1000"', '" 0x1000"', '"0x1000 "', '"0x"', '""', '"0x\\u0031000"',
                         '"\\u0030x1000"', '"0xg"', "4096", "null"],
    '"pages":160': ["0", "1", "4503599627370495", "4503599627370496", "18446744073709551615", "18446744073709551616", "1.5",
                    '"1"', "-1", "1E2"],
    '"attributes":"0xf"': ['"0x0"', '"0x8000000000000000"', '"0x7fffffffffffffff"', '"0x4000f"', "15", '"15"'],
}

# What replaces parts of a driver.
DRIVER_PARTS = [
    ('"version":3', ['"version":4294967295', '"version":4294967296', '"version":-1', '"v":3']),
    ('"stops":true', ['"stops":false', '"stops":1', '"stops":null']),
    ('"needs":["%s"]' % DISK, ['"needs":[]', '"needs":["{%s}","urn:uuid:%s","%s"]' % (DISK.upper(), DISK, DIGITS),
                               '"needs":["x"]', '"needs":[%s]' % ",".join(['"%s"' % DISK] * 8),
                               '"needs":[%s]' % ",".join(['"%s"' % DISK] * 9)]),
    ('"opens":["%s"]' % DISK, ['"opens":"%s"' % DISK, '"opens":[7]', '"opens":[%s]' % ",".join(['"%s"' % DISK] * 9)]),
    ('[[%s]]' % PAIR, ["[]", "[[],[]]", "[7]", "[[7]]", "[[[]]]", "null", '[["%s","0x500"]]' % FILES,
                       "[[%s]]" % ",".join(PAIR.replace("964e5b22", "964e5b%02x" % n) for n in range(4)),
                       "[[%s]]" % ",".join(PAIR.replace("964e5b22", "964e5b%02x" % n) for n in range(5)),
                       "[%s]" % ",".join(["[" + PAIR + "]"] * 8), "[%s]" % ",".join(["[" + PAIR + "]"] * 9)]),
    ('"0x500"', ['"0x500","0x1"', "500", '"0xffffffffffffffff"', '"0x"']),
]

# Values for a name that means nothing, some of them not JSON.
VALUES = [
    "01", "1.", ".5", "1e", "1e+", "+1", "-", "--1", "1e400", "-1e400", "1e-400", "1" + "0" * 308, "1" + "0" * 309, "0x10",
    "NaN", "Infinity", "tru", "True", "nul", "truefalse", "'a'", '"a', '"\\x"', '"\\u12"', '"\\u123g"', '"\\ud800"',
    '"\\ud800x"', '"\\ud800\\u0041"', '"\\udc00"', '"\\udc00\\ud800"', '"\\uD83D\\uDE00"', '"\\u0000"', '"\1"', '"\x7f"',
    '"\\b\\f\\n\\r\\t\\/\\\\\\""', '"\xc3\xa9"', '"\xc3"', '"\xc0\xaf"', '"\xe0\x80\xaf"', '"\xed\xa0\x80"',
    '"\xf4\x90\x80\x80"', '"\xf0\x9f\x98\x80"', '"\xf5\x80\x80\x80"', '"\xff"', "[1,]", "[,1]", "[1 2]", "[1:2]",
    '{"a":1,}', '{"a" 1}', '{"a"}', "{1:2}", '{"a":}', '{"a"::1}', "(1)", "/* */1", "1 // x", "-0", "-1.5e-3", "1E+2", "[[],[{}]]",
    "[" * 126 + "]" * 126, "[" * 127 + "]" * 127, '{"a":' * 126 + "1" + "}" * 126, '{"a":' * 127 + "1" + "}" * 127,
]

ROOTS = [
    "", "null", "[]", "7", '"memory"', "{}", '{"memory":7}', '{"memory":null}', '{"memory":{}}', '{"Memory":[]}', '{"memory":[]}',
    '{"memory":[7]}', '{"memory":[[]]}', '{"memory":[{}]}', '{"memory":7,"memory":[FREE]}', '{"memory":[FREE],"memory":[]}',
    '{"\\u006demory":[FREE]}', '{"mem\\u006fry":[FREE],"other":{"memory":[]}}', '{"memor":1,"memoryy":2,"memory":[FREE]}',
    '{"memory":[{"pages":160,"attributes":"0xf","type":6,"start":"0x1000","type":7,"x":{"pages":[0]},"y":"\\"}]"}]}',
    ' \t\r\n{ "memory" : [ FREE ] , "granule" : 16 } \t\r\n', '{"memory":[FREE]}x', '{"memory":[FREE]},', '{"memory":[FREE]}}',
    '{"memory":[FREE]} 1', '{"memory":[FREE]}\0', '\xef\xbb\xbf{"memory":[FREE]}', '\f{"memory":[FREE]}', '{"memory":[FREE,]}',
    '{"memory":[FREE,FREE]}', '{"memory":[FREE,FREE],"granule":3}', '{"memory":[FREE],"drivers":{}}',
    '{"memory":[FREE],"drivers":null}', '{"memory":[FREE],"drivers":[7]}', '{"memory":[FREE],"drivers":[]}',
]

GRANULES = ["1", "16", "0", "2", "17", '"16"', "16.0", "1.6e1", "true", "null", "[16]", "-16"]


def driver_lists():
    yield DRIVER
    yield ",".join([DRIVER] * 64)
    yield ",".join([DRIVER] * 65)
    yield DRIVER + ',{"version":3}'
    yield DRIVER + "," + DRIVER.replace('"version":3', '"version":9')
    for part, others in DRIVER_PARTS:
        for other in others:
            yield DRIVER.replace(part, other)


def machines():
    """Machine files as bytes, right and wrong ones."""
    texts = [root.replace("FREE", FREE) for root in ROOTS]
    for field, values in FIELDS.items():
        name = field.split(":")[0]
        texts += ['{"memory":[%s]}' % FREE.replace(field, name + ":" + value) for value in values]
        texts.append('{"memory":[%s]}' % FREE.replace(name, '"other"'))
        texts.append('{"memory":[%s]}' % FREE.replace('"type":7', '"type":6').replace(field, name + ':"0xffffffffffffffff"'))
    for start in ("0x0", "0xa0000", "0xa1000", "0xa2000"):
        texts.append('{"memory":[%s,%s]}' % (FREE, FREE.replace("0x1000", start)))
        texts.append('{"memory":[%s,%s]}' % (FREE.replace("0x1000", start), FREE))
    texts += ['{"x":%s,"memory":[%s]}' % (value, FREE) for value in VALUES]
    texts += ['{"memory":[%s],"granule":%s}' % (FREE, granule) for granule in GRANULES]
    texts += ['{"memory":[%s],"drivers":[%s]}' % (FREE, drivers) for drivers in driver_lists()]
    return [text.encode("latin-1") for text in texts]


# A trace that shows what a machine and its drivers are.
SHOWING = ("list\nmap 65536\npages 0 6 1 0\npool 4 100\ninstall 0 %s 0 0\ninstall 0 %s 0 1\ninstall 0 %s 0 0x300\nconnect 3 1\n"
           "locate 0 %s 0 4096\ninformation 3 %s\nprotocols 4\nhandle-protocol 4 %s\ndisconnect 3 0\nlist\n"
           % (DRIVER_BINDING, DRIVER_BINDING, DISK, DISK, DISK, FILES)).encode()


class Drawn:
    """A trace that is drawn in rounds: what the program answered to one can be named in the next."""

    KINDS = [DISK, FILES, DEVICE_PATH, DRIVER_BINDING, "2f707ebb-4a1a-11d4-9a38-0090273fc14d"]
    # A path of two nodes and one of the first of them, a path without nodes, and bytes that are no path.
    PATHS = ["02010c00d041030a0000000001010600031f7fff0400", "02010c00d041030a000000007fff0400", "7fff0400", "7f010400", "00"]

    def __init__(self, seed):
        self.random = random.Random(seed)
        self.lines = []
        self.learn(b"")

    def pick(self, members):
        return self.random.choice(members)

    def handle(self):
        return self.pick(self.handles) if self.random.random() < 0.9 else self.random.randint(0, 12)

    def value(self):
        return self.pick([0, 0, 1, 2, 0x300, self.pick(self.blocks)])

    def attributes(self):
        return self.pick([1, 2, 4, 8, 0x10, 0x10, 0x10, 0x20, 0x30, 3, 0])

    def memory_line(self):
        kind, count = self.pick([0, 0, 1, 2, 3]), self.pick([1, 1, 2, 5, 16, 40])
        limit = self.pick([0xffff, 0xfffff, 0x3fffff, 0x7fffff, 0x41000, 0x100000, 0x110000])
        block, (pages, allotted) = self.pick(self.blocks), self.pick(self.pages)
        return self.pick([
            "pages %d %d %d 0x%x" % (kind, self.pick([1, 2, 3, 4, 5, 6, 9, 10, 0, 7]), count, limit),
            "free-pages 0x%x %d" % (pages, allotted), "free-pages 0x%x 1" % (pages + 4096),
            "pool %d %d" % (self.pick([2, 4, 6]), self.pick([0, 1, 24, 25, 100, 4088, 9000])), "free-pool 0x%x" % block,
            "write 0x%x %s" % (block + self.random.randint(0, 40), self.pick(["-", "00", "ff" * 30])),
            "read 0x%x %d" % (block + self.random.randint(0, 40), self.pick([0, 1, 16, 24, 100])),
            "map %d" % self.pick([0, 48 * 7, 48 * 100]), "list", "exit %d" % (self.pick(self.keys) + 1000)])

    def path_line(self):
        """A device path: written, installed or asked for."""
        block, guid = self.pick(self.blocks), self.pick(self.KINDS)
        return self.pick([
            "write 0x%x %s" % (block, self.pick(self.PATHS)), "install %d %s 0 0x%x" % (self.handle(), DEVICE_PATH, block),
            "install-many 0 %s 0x%x %s 1" % (DEVICE_PATH, block, self.pick([DISK, FILES])),
            "path %s 0x%x" % (guid, block), "path %s 0x%x" % (DEVICE_PATH, block), "path %s 0x%x" % (guid, block + 12)])

    def install_line(self):
        guid, other, handle = self.pick(self.KINDS), self.pick(self.KINDS), self.handle()
        installed = self.pick(self.installed)
        return self.pick([
            "install %d %s 0 0x%x" % (self.pick([0, 0, handle]), guid, self.value()),
            "install-many %d %s 0x%x %s 0x%x" % (self.pick([0, handle]), guid, self.value(), other, self.value()),
            "uninstall %s %s %s" % installed, "uninstall %d %s 0x%x" % (handle, guid, self.value()),
            "reinstall %s %s %s %d" % (*installed, self.value()), "protocols %d" % handle,
            "notify %s %d" % (guid, self.random.randint(0, 9)), "handle-protocol %d %s" % (handle, guid),
            "locate %d %s %d %d" % (self.pick([0, 1, 2, 3]), guid, self.random.randint(0, 3), self.pick([0, 8, 64, 4096])),
            "locate-buffer %d %s %d" % (self.pick([0, 1, 2]), guid, self.random.randint(0, 3)),
            "locate-protocol %s %d" % (guid, self.random.randint(0, 3))])

    def open_line(self):
        guid, handle, agent, controller = self.pick(self.KINDS), self.handle(), self.handle(), self.handle()
        installed = self.pick(self.installed)
        return self.pick([
            "open %s %s %d %d 0x%x" % (*installed[:2], agent, controller, self.attributes()),
            "open %s %s %d %s 0x%x" % (*installed[:2], agent, installed[0], self.pick([0x10, 0x20, 0x30])),
            "open %d %s %d %d 0x%x" % (handle, guid, agent, controller, self.attributes()),
            "close %s %s %s %s" % self.pick(self.opened), "close %d %s %d %d" % (handle, guid, agent, controller),
            "information %s %s" % installed[:2], "handle-protocol %s %s" % installed[:2],
            "connect %d %d" % (handle, self.pick([0, 1])), "connect %d 1 %d %d" % (handle, agent, controller),
            "disconnect %d %d" % (handle, self.pick([0, agent]))])

    def draw(self, count):
        """Adds lines."""
        kinds = [self.memory_line, self.path_line, self.install_line, self.install_line, self.open_line, self.open_line]
        self.lines += [self.pick(kinds)() for _ in range(count)]

    def end(self):
        """Adds an exit, with a key that is most likely stale and then the right one if no line before it changed a page."""
        self.lines += ["map 4800", "exit %d" % self.keys[-1], "exit %d" % (self.keys[-1] + 1), "list", "map 4800", "pool 4 1"]

    def learn(self, output):
        """Takes addresses, handles and keys from what the program answered to the lines so far."""
        self.pages, self.blocks, self.keys = [(0x1000, 1)], [0], [0]
        self.handles, self.installed, self.opened = [0, 1, 2, 3], [("1", DISK, "0")], [("1", DISK, "1", "1")]
        for reply in output.decode().splitlines():
            words = reply.split()
            if len(words) < 3 or words[2] != "SUCCESS" or not words[0].isdigit():
                continue
            self.learn_reply(words[1], self.lines[int(words[0]) - 1].split(), dict(word.split("=", 1) for word in words[3:]))

    def learn_reply(self, verb, line, fields):
        if verb == "pages":
            self.pages.append((int(fields["address"], 16), int(line[3])))
        elif verb in ("pool", "locate-buffer", "information"):
            self.blocks.append(int(fields["address"], 16))
        elif verb == "map":
            self.keys.append(int(fields["key"]))
        elif verb == "open":
            self.opened.append(tuple(line[1:5]))
        elif verb == "install":
            self.handles.append(int(fields["handle"]))
            self.installed.append((fields["handle"], line[2], line[4]))
        elif verb == "install-many":
            self.handles.append(int(fields["handle"]))
            self.installed += [(fields["handle"], line[2], line[3]), (fields["handle"], line[4], line[5])]

    def text(self):
        return "".join(line + "\n" for line in self.lines).encode()
