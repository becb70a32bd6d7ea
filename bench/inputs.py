"""Inputs for the scripts beside this one: TNEF streams (MS-OXTNEF), envelopes (RFC 2045) and compound files (MS-CFB, MS-OXMSG)."""

import base64
import itertools
import random
import struct

SET = bytes(range(16))
SIGNATURE = bytes.fromhex("789f3e220100")
STORAGE = bytes.fromhex("0b00000000000000c000000000000046")
FREE, END, FAT, DIFAT, NONE = 0xFFFFFFFF, 0xFFFFFFFE, 0xFFFFFFFD, 0xFFFFFFFC, 0xFFFFFFFF


def noise(size):
    """Bytes that do not repeat soon, made fast."""
    block = random.Random(1).randbytes(1 << 20)
    return (block * (size // len(block) + 1))[:size]


# ---- TNEF

def attribute(level, number, value):
    return struct.pack("<BII", level, number, len(value)) + value + struct.pack("<H", sum(value) % 65536)


def tnef(*attributes):
    return SIGNATURE + b"".join(attributes)


def listed(properties):
    return struct.pack("<I", len(properties)) + b"".join(properties)


def integer(number, value):
    return struct.pack("<HHI", 3, number, value)


def named(number, value, name_set=SET):
    return struct.pack("<HH16sIII", 3, 0x8000, name_set, 0, number, value)


def text(number, value):
    size = len(value) + 1
    return struct.pack("<HHII", 0x001E, number, 1, size) + value + bytes(1 + -size % 4)


def binary(number, value):
    return struct.pack("<HHII", 0x0102, number, 1, len(value)) + value + bytes(-len(value) % 4)


def tnef_integers(count):
    """Properties without names, as many as one list of unnamed properties can have in one kind."""
    return tnef(attribute(1, 0x00069003, listed([integer(k + 1, k) for k in range(count)])))


SINGLE = {0x0002: 4, 0x0003: 4, 0x0004: 4, 0x0005: 8, 0x0006: 8, 0x0007: 8, 0x000A: 4, 0x0014: 8, 0x0040: 8}
SEVERAL = {0x1002: 4, 0x1003: 4, 0x1004: 4, 0x1005: 8, 0x1006: 8, 0x1007: 8, 0x1014: 8, 0x1040: 8}


def tnef_unnamed(count, order):
    """One list of properties without names, of all kinds of numbers, in rising or random order."""
    kinds = sorted(list(SINGLE) + list(SEVERAL))
    found = []
    for k in range(count):
        number, kind = 1 + k // len(kinds), kinds[k % len(kinds)]
        if kind in SINGLE:
            found.append(struct.pack("<HH", kind, number) + (k % 2).to_bytes(SINGLE[kind], "little"))
        else:
            found.append(struct.pack("<HHI", kind, number, 1) + (k % 2).to_bytes(SEVERAL[kind], "little"))
    if order == "random":
        random.Random(5).shuffle(found)
    return tnef(attribute(1, 0x00069003, listed(found)))


def tnef_few_each(rows):
    """Recipients with four unnamed properties each."""
    row = listed([integer(0x0C15, 1), text(0x3001, b"A. Recipient"), text(0x3002, b"SMTP"), text(0x3003, b"a@example.org")])
    table = struct.pack("<I", rows) + row * rows
    return tnef(attribute(1, 0x00069004, table), attribute(1, 0x00069003, listed([integer(0x0017, 1)])))


def tnef_stored(file):
    """An attachment that holds an OLE store, as this compound file."""
    rendering = struct.pack("<HIHHI", 1, 0xFFFFFFFF, 0, 0, 0)
    value = STORAGE + file
    held = struct.pack("<HHII", 0x000D, 0x3701, 1, len(value)) + value + bytes(-len(value) % 4)
    return tnef(
        attribute(1, 0x00069003, listed([integer(0x0017, 1)])),
        attribute(2, 0x00069002, rendering),
        attribute(2, 0x00069005, listed([held])),
    )


def store_stream(size, shuffled=False):
    """A compound file with one stream of so many bytes."""
    return compound(Entry("Root Entry", children=[Entry("contents", noise(size))]), shuffled)


def store_entries(count, row):
    """A compound file with so many streams, all empty, each linked to the right of the one before, or as a tree."""
    return compound(Entry("Root Entry", children=[Entry(f"x{k:06}", b"") for k in range(count)], row=row))


def tnef_attachment(size):
    """One attachment with a value of so many bytes."""
    rendering = struct.pack("<HIHHI", 1, 0xFFFFFFFF, 0, 0, 0)
    return tnef(
        attribute(1, 0x00069003, listed([integer(0x0017, 1)])),
        attribute(2, 0x00069002, rendering),
        attribute(2, 0x00069005, listed([binary(0x3701, noise(size))])),
    )


def tnef_named(count, order):
    """One list of named properties, in rising, falling or random order of their names."""
    numbers = list(range(count))
    if order == "falling":
        numbers.reverse()
    if order == "random":
        random.Random(2).shuffle(numbers)
    return tnef(attribute(1, 0x00069003, listed([named(n, k) for k, n in enumerate(numbers)])))


def tnef_recipients(rows, each):
    """Recipients with names of their own, in random order over all of them."""
    numbers = list(range(rows * each))
    random.Random(3).shuffle(numbers)
    parts = [struct.pack("<I", rows)]
    for row in range(rows):
        parts.append(listed([named(n, n) for n in numbers[row * each:(row + 1) * each]]))
    return tnef(attribute(1, 0x00069004, b"".join(parts)), attribute(1, 0x00069003, listed([integer(0x0017, 1)])))


# ---- envelopes

def envelope(stream):
    head = (
        b"MIME-Version: 1.0\r\nContent-Type: application/ms-tnef; name=\"winmail.dat\"\r\n"
        b"Content-Transfer-Encoding: base64\r\nContent-Disposition: attachment; filename=\"winmail.dat\"\r\n\r\n"
    )
    lines = (base64.b64encode(stream[at:at + 57]) for at in range(0, len(stream), 57))
    return head + b"".join(line + b"\r\n" for line in lines)


# ---- compound files

class Entry:
    """A storage (children is a list) or a stream (data is bytes)."""

    def __init__(self, name, data=None, children=None, row=False):
        self.name, self.data, self.children, self.row = name, data, children, row
        self.left = self.right = self.child = NONE
        self.start, self.size = END, 0


def in_order(entries):
    return sorted(entries, key=lambda e: (len(e.name), e.name.upper()))


def link(entries, numbers, row):
    """Links siblings: one behind the other, to the right or to the left, or as a balanced tree. Answers the number of the
    first."""
    if row:
        side = "left" if row == "left" else "right"
        entries = entries if side == "right" else entries[::-1]
        for one, other in itertools.pairwise(entries):
            setattr(one, side, numbers[id(other)])
        return numbers[id(entries[0])] if entries else NONE
    spans, top = [(0, len(entries), None, "")], NONE
    while spans:
        low, high, above, side = spans.pop()
        if low == high:
            continue
        middle = (low + high) // 2
        number = numbers[id(entries[middle])]
        if above is None:
            top = number
        else:
            setattr(above, side, number)
        spans.append((low, middle, entries[middle], "left"))
        spans.append((middle + 1, high, entries[middle], "right"))
    return top


def flattened(root):
    found, waiting = [], [root]
    while waiting:
        entry = waiting.pop()
        found.append(entry)
        waiting += reversed(in_order(entry.children or []))
    return found


def entry_bytes(entry, kind):
    name = entry.name.encode("utf-16-le") + b"\0\0"
    return struct.pack(
        "<64sHBBIII16sIQQIQ", name, len(name), kind, 1, entry.left, entry.right, entry.child, bytes(16), 0, 0, 0,
        entry.start, entry.size,
    )


class Sectors:
    """Sectors of so many bytes and the table that links them, in file order, falling or shuffled."""

    def __init__(self, size):
        self.chains, self.size = [], size

    def add(self, data):
        self.chains.append(data)
        return len(self.chains) - 1

    def lay_out(self, shuffled):
        counts = [-(-len(data) // self.size) for data in self.chains]
        total, fats, difats = sum(counts), 0, 0
        while True:
            need = -(-(total + fats + difats) // (self.size // 4))
            more = max(0, -(-(need - 109) // (self.size // 4 - 1)))
            if (need, more) == (fats, difats):
                break
            fats, difats = need, more
        places = list(range(fats + difats, total + fats + difats))
        if shuffled == "falling":
            places.reverse()
        elif shuffled:
            random.Random(4).shuffle(places)
        return counts, places, fats, difats


def compound(root, shuffled=False, size=512):
    """The bytes of a compound file with sectors of so many bytes: 512 in version 3, 4,096 in version 4."""
    entries = flattened(root)
    numbers = {id(entry): k for k, entry in enumerate(entries)}
    for entry in entries:
        if entry.children:
            entry.child = link(in_order(entry.children), numbers, entry.row)
    sectors, mini, minifat, large = Sectors(size), bytearray(), [], []
    for entry in entries:
        if entry.data is None:
            continue
        entry.size = len(entry.data)
        if entry.size >= 4096:
            large.append((entry, sectors.add(entry.data)))
        elif entry.size:
            count = -(-entry.size // 64)
            entry.start = len(minifat)
            minifat += [entry.start + k + 1 for k in range(count - 1)] + [END]
            mini += entry.data + bytes(-entry.size % 64)
    root.size = len(mini)
    rows = -(-len(entries) // (size // 128)) * (size // 128)
    directory = sectors.add(bytes(128 * rows))
    small = sectors.add(bytes(mini)) if mini else None
    minis = sectors.add(struct.pack(f"<{len(minifat)}I", *minifat) + b"\xff" * (-4 * len(minifat) % size)) if mini else None
    counts, places, fats, difats = sectors.lay_out(shuffled)
    table = [FAT] * fats + [DIFAT] * difats + [FREE] * len(places)
    starts, at = [], 0
    for count in counts:
        chain = places[at:at + count]
        at += count
        starts.append(chain[0] if chain else END)
        for one, other in itertools.pairwise(chain):
            table[one] = other
        if chain:
            table[chain[-1]] = END
    for entry, chain in large:
        entry.start = starts[chain]
    if mini:
        root.start = starts[small]
    kinds = [5] + [1 if entry.children is not None else 2 for entry in entries[1:]]
    text = b"".join(map(entry_bytes, entries, kinds))
    blank = struct.pack("<64sHBBIII16sIQQIQ", b"", 0, 0, 0, NONE, NONE, NONE, bytes(16), 0, 0, 0, 0, 0)
    sectors.chains[directory] = text + blank * (rows - len(entries))
    return assembled(sectors, counts, places, table, fats, difats, starts, directory, minis)


def assembled(sectors, counts, places, table, fats, difats, starts, directory, minis):
    size, words_each = sectors.size, sectors.size // 4
    table += [FREE] * (fats * words_each - len(table))
    file = bytearray(size * (1 + fats + difats + len(places)))
    list_of_fats = list(range(fats))
    first = list_of_fats[:109] + [FREE] * (109 - min(109, fats))
    mini = (END, 0) if minis is None else (starts[minis], counts[minis])
    file[:512] = header(size, fats, difats, first, starts[directory], *mini)
    file[size:size * (1 + fats)] = struct.pack(f"<{len(table)}I", *table)
    for k in range(difats):
        words = list_of_fats[109 + (words_each - 1) * k:109 + (words_each - 1) * (k + 1)]
        words += [FREE] * (words_each - 1 - len(words)) + [fats + k + 1 if k + 1 < difats else END]
        at = size * (1 + fats + k)
        file[at:at + size] = struct.pack(f"<{words_each}I", *words)
    at = 0
    for data, count in zip(sectors.chains, counts):
        for k in range(count):
            place = size * (1 + places[at + k])
            piece = data[size * k:size * (k + 1)]
            file[place:place + len(piece)] = piece
        at += count
    return bytes(file)


def header(size, fats, difats, first, directory, minifat, minifats):
    version, shift = (3, 9) if size == 512 else (4, 12)
    return (
        bytes.fromhex("d0cf11e0a1b11ae1") + bytes(16) + struct.pack("<HHHHH", 0x3E, version, 0xFFFE, shift, 6) + bytes(6)
        + struct.pack("<IIIIIIIII", 0, fats, directory, 0, 4096, minifat, minifats, fats if difats else END, difats)
        + struct.pack("<109I", *first)
    )


def msg_properties(tags):
    """The stream of a top message's entries, each with its value's size."""
    return bytes(32) + b"".join(struct.pack("<IIII", tag, 6, size, 0) for tag, size in tags)


def msg_stream(size, shuffled, sector=512):
    """A message with one value of so many bytes."""
    return compound(Entry("Root Entry", children=[
        Entry("__properties_version1.0", msg_properties([(0x10130102, size)])),
        Entry("__substg1.0_10130102", noise(size)),
    ]), shuffled, sector)


def msg_entries(count, row, sector=512):
    """A message with so many other streams, all empty, beside its properties in a row of left or of right links, or in a
    storage."""
    strange = [Entry(f"x{k:06}", b"") for k in range(count)]
    properties = Entry("__properties_version1.0", msg_properties([(0x00170003, 1)]))
    if row:
        return compound(Entry("Root Entry", children=[properties] + strange, row=row), size=sector)
    return compound(Entry("Root Entry", children=[properties, Entry("strange", children=strange)]), size=sector)


def msg_texts(count, sector=512):
    """A message with so many texts of a few bytes, each in the mini stream."""
    values = [(0x0100 + k, b"value %d" % k) for k in range(count)]
    return compound(Entry("Root Entry", children=[
        Entry("__properties_version1.0", msg_properties([(number << 16 | 0x1E, len(x) + 1) for number, x in values])),
    ] + [Entry(f"__substg1.0_{number:04X}001E", x) for number, x in values]), size=sector)


def msg_recipients(messages, each, sector=512):
    """So many messages, each but the first in an attachment of the one before, with so many recipients of one number."""
    inner = None
    for level in reversed(range(messages)):
        people = [
            Entry(f"__recip_version1.0_#{k:08X}", children=[
                Entry("__properties_version1.0", bytes(8) + struct.pack("<IIII", 0x0C150003, 6, 1, 0)),
            ]) for k in range(each)
        ]
        held = []
        if inner is not None:
            held = [Entry("__attach_version1.0_#00000000", children=[
                Entry("__properties_version1.0", bytes(8) + struct.pack("<IIII", 0x3701000D, 6, 0xFFFFFFFF, 1)),
                Entry("__substg1.0_3701000D", children=inner),
            ])]
        head = bytes(32 if level == 0 else 24)
        inner = [Entry("__properties_version1.0", head)] + people + held
    return compound(Entry("Root Entry", children=inner), size=sector)


def msg_names(count, order, ids=1, sector=512):
    """A message with so many names that are numbers, in the map in this order, and as many ids for each."""
    numbers = list(range(count))
    if order == "falling":
        numbers.reverse()
    elif order == "random":
        random.Random(5).shuffle(numbers)
    pairs = [(number, id_) for id_, number in enumerate(n for n in numbers for _ in range(ids))]
    entries = b"".join(struct.pack("<II", number, id_ << 16 | 3 << 1) for number, id_ in pairs)
    used = [0x80000003 | id_ << 16 for _, id_ in pairs[::ids]]
    return compound(Entry("Root Entry", children=[
        Entry("__nameid_version1.0", children=[
            Entry("__substg1.0_00020102", SET), Entry("__substg1.0_00030102", entries), Entry("__substg1.0_00040102", b""),
        ]),
        Entry("__properties_version1.0", msg_properties([(tag, 1) for tag in used])),
    ]), size=sector)
