"""The worst shapes of each carrier, each as a function of a count: twice the count is twice the bytes, but for the long list
that is edited, which stays while its edits double, and for values without streams, of which there are at most 32,000."""

import functools
import itertools
import random
import struct
import typing

import inputs
from inputs import END, NONE, Entry, attribute, compound, integer, listed, msg_properties, named, noise, tnef

MESSAGE = bytes.fromhex("0703020000000000c000000000000046")
CHANGE = ["edit", "set", ".", "0037", "String", "changed"]
READERS = (["show"], ["check"], ["to-msg"], ["to-msg4"], ["to-tnef"], ["to-unicode"], ["to-json"], CHANGE)
STREAM_READERS = (*READERS, ["wrap"])
MSG_WRITERS = ("to-msg", "to-msg4", "to-unicode", "edit")
WRITERS = (*MSG_WRITERS, "to-tnef")
UNWRAP = (["unwrap"],)
FROM_JSON = (["from-json"],)
ORDERS = ("rising", "falling", "random")


class Shape(typing.NamedTuple):
    """A shape at a count and at its double. `ends` has the exit codes that are not 0, by command; `line` is how a
    refusal's line begins; `tiny` says that the input is made of parts of a few bytes."""

    name: str
    maker: typing.Callable[[int], bytes]
    count: int
    commands: tuple
    ends: dict
    line: str = ""
    tiny: bool = True


def ordered(count, order, seed=1):
    """The numbers below a count in an order."""
    numbers = list(range(count))
    if order == "falling":
        numbers.reverse()
    if order == "random":
        random.Random(seed).shuffle(numbers)
    return numbers


def unfit(commands):
    return dict.fromkeys(commands, 3)


def refused(commands):
    return dict.fromkeys((words[0] for words in commands), 1)


# ---- TNEF streams

def message_list(properties):
    return tnef(attribute(1, 0x00069003, listed(properties)))


def name_list(order, count):
    return message_list([named(number, number) for number in ordered(count, order)])


def one_bucket(count):
    """Names of which all have one hash."""
    return message_list([named(31 * number, number) for number in ordered(count, "random")])


def set_list(order, count):
    """Names, each in a set of its own."""
    sets = [number.to_bytes(16, "big") for number in ordered(count, order)]
    return message_list([named(1, 1, name_set) for name_set in sets])


def long_name(number):
    units = ("n" * 249 + f"{number:06}").encode("utf-16-le")
    head = struct.pack("<HH16sII", 3, 0x8000, inputs.SET, 1, len(units))
    return head + units + bytes(-len(units) % 4) + struct.pack("<I", number)


def long_names(order, count):
    """Names of 255 units that differ in the last six."""
    return message_list([long_name(number) for number in ordered(count, order)])


def numbers_list(order, count):
    """Properties without names, of all kinds of numbers."""
    return message_list(number_properties(ordered(count, order)))


def number_properties(numbers):
    kinds = sorted(list(inputs.SINGLE) + list(inputs.SEVERAL))
    return [number_property(kinds[k % len(kinds)], 1 + k // len(kinds), k % 2) for k in numbers]


def number_property(kind, number, value):
    if kind in inputs.SINGLE:
        return struct.pack("<HH", kind, number) + value.to_bytes(inputs.SINGLE[kind], "little")
    return struct.pack("<HHI", kind, number, 1) + value.to_bytes(inputs.SEVERAL[kind], "little")


def double_at_end(order, count):
    found = number_properties(ordered(count, order))
    return message_list(found + found[:1])


def double_name_at_end(count):
    numbers = ordered(count, "random")
    return message_list([named(number, number) for number in numbers + numbers[:1]])


def recipients(count):
    """Recipients without properties."""
    return tnef(attribute(1, 0x00069004, struct.pack("<I", count) + bytes(4 * count)))


def recipients_of_one(count):
    """Recipients of one property each."""
    one = struct.pack("<I", 1) + integer(0x0C15, 1)
    return tnef(attribute(1, 0x00069004, struct.pack("<I", count) + one * count))


def attachments(count):
    """Attachments of one attribute each."""
    return tnef(attribute(2, 0x00069002, struct.pack("<HIHHI", 1, 0xFFFFFFFF, 0, 0, 0)) * count)


def held(value):
    """An attachment that holds an object."""
    item = struct.pack("<HHII", 0x000D, 0x3701, 1, len(value)) + value + bytes(-len(value) % 4)
    return attribute(2, 0x00069002, struct.pack("<HIHHI", 1, 0xFFFFFFFF, 0, 0, 0)) + attribute(2, 0x00069005, listed([item]))


def nested_messages(levels, count):
    """Messages in messages, and so many bytes in the innermost."""
    stream = message_list([inputs.binary(0x1013, noise(count))])
    for _ in range(levels):
        stream = tnef(held(MESSAGE + stream))
    return stream


def messages_beside(count):
    """Attachments that each hold a message."""
    return tnef(held(MESSAGE + message_list([])) * count)


def store_behind(levels, count):
    """Messages in messages, so many attachments in the innermost, and a store in the last of them."""
    file = compound(Entry("Root Entry", children=[Entry("contents", b"few")]))
    stream = tnef(attribute(2, 0x00069002, b"") * count, held(inputs.STORAGE + file))
    for _ in range(levels):
        stream = tnef(held(MESSAGE + stream))
    return stream


def store_levels(levels, count):
    """A stream of so many bytes below so many storages."""
    inner = Entry("contents", noise(count))
    for _ in range(levels):
        inner = Entry("storage", children=[inner])
    return inputs.tnef_stored(compound(Entry("Root Entry", children=[inner])))


def stores_beside(count):
    """Attachments that each hold a store of its own."""
    file = compound(Entry("Root Entry", children=[Entry("contents", b"few")]))
    return tnef(held(inputs.STORAGE + file) * count)


def store_row(row, count):
    return inputs.tnef_stored(inputs.store_entries(count, row))


def passed_attributes(count):
    return tnef(attribute(1, 0x00011234, b"") * count)


def passed_objects(count):
    return message_list([struct.pack("<HHII", 0x000D, 0x1234, 1, 0)] * count)


def elements(kind, count):
    """One property with so many elements of four bytes: numbers, or texts without characters."""
    return message_list([struct.pack("<HHI", kind, 0x1013, count) + bytes(4 * count)])


def empty_lists(count):
    """Properties of several texts or Binaries each, of which there are none."""
    kinds = (0x101E, 0x101F, 0x1102)
    return message_list([struct.pack("<HHI", kinds[k % 3], 1 + k // 3, 0) for k in range(count)])


def claimed_recipients(count):
    """A table that says it has 2^31 recipients and has so many."""
    return tnef(attribute(1, 0x00069004, struct.pack("<I", 1 << 31) + bytes(4 * count)))


def claimed_properties(count):
    found = number_properties(ordered(count, "rising"))
    return tnef(attribute(1, 0x00069003, struct.pack("<I", 1 << 31) + b"".join(found)))


def claimed_elements(count):
    return message_list([struct.pack("<HHI", 0x1102, 0x1013, 1 << 31) + bytes(4 * count)])


def text8(piece, page, ending, count):
    """A text of 8-bit characters in a page: a piece again and again, and an ending."""
    value = (piece * (count // len(piece) + 1))[:count - count % len(piece)] + ending
    return message_list([integer(0x3FFD, page), inputs.text(0x1000, value)])


def text16(piece, count):
    """A text of 16-bit units: a piece again and again."""
    value = piece * (count // len(piece)) + b"\0\0"
    return message_list([struct.pack("<HHII", 0x1F, 0x1000, 1, len(value)) + value + bytes(-len(value) % 4)])


def one_value(count):
    return message_list([inputs.binary(0x1013, noise(count))])


def value_and_text(count):
    """A value, and a short text of 8-bit characters."""
    return message_list([inputs.text(0x0037, b"caf\xe9"), inputs.binary(0x1013, noise(count))])


NAME_LIMITS = unfit(WRITERS)
ROW_LIMITS = unfit(MSG_WRITERS)
JSON_TOO = {**ROW_LIMITS, "to-json": 3}


def stream_shapes():
    every = STREAM_READERS
    telling = (["check"], ["to-msg"], ["wrap"])
    for order in ORDERS:
        yield Shape(f"tnef names {order}", functools.partial(name_list, order), 150_000, every, NAME_LIMITS, "unfit Names")
        yield Shape(f"tnef properties {order}", functools.partial(numbers_list, order), 250_000, every, {})
        yield Shape(f"tnef sets {order}", functools.partial(set_list, order), 16_000, every, {})
        yield Shape(f"tnef double at the end {order}", functools.partial(double_at_end, order), 250_000, telling,
                    refused(telling), "refused 76 DuplicateListProperty")
    yield Shape("tnef double name at the end", double_name_at_end, 250_000, telling, refused(telling), "refused 76")
    yield Shape("tnef names over recipients", lambda n: inputs.tnef_recipients(n // 100, 100), 150_000, every, NAME_LIMITS,
                "unfit Names")
    yield Shape("tnef names of one hash", one_bucket, 16_000, every, {})
    yield Shape("tnef long names random", functools.partial(long_names, "random"), 15_000, every, {}, tiny=False)
    yield Shape("tnef recipients", recipients, 1_000_000, every, ROW_LIMITS, "unfit Recipients")
    yield Shape("tnef recipients, one property each", recipients_of_one, 350_000, every, ROW_LIMITS, "unfit Recipients")
    yield Shape("tnef attachments", attachments, 200_000, every, ROW_LIMITS, "unfit Attachments")
    yield Shape("tnef messages beside", messages_beside, 40_000, every, ROW_LIMITS, "unfit Attachments")
    yield Shape("tnef messages 32 deep", functools.partial(nested_messages, 32), 4 << 20, every, {}, tiny=False)
    yield Shape("tnef messages 33 deep", functools.partial(nested_messages, 33), 4 << 20, telling, refused(telling),
                "refused 4 TooDeep", tiny=False)
    yield Shape("tnef 32 messages, a store behind attachments", functools.partial(store_behind, 32), 100_000, every,
                ROW_LIMITS, "unfit Attachments")
    yield Shape("tnef storages 32 deep", functools.partial(store_levels, 32), 4 << 20, every, {}, tiny=False)
    yield Shape("tnef storages 33 deep", functools.partial(store_levels, 33), 8 << 20, telling, refused(telling),
                "refused 55 StoreTooDeep", tiny=False)
    yield Shape("tnef stores beside", stores_beside, 4_000, every, ROW_LIMITS, "unfit Attachments")
    for row in ("left", "right", False):
        yield Shape(f"tnef store, entries {row or 'as a tree'}", functools.partial(store_row, row), 50_000, every, {})
    for order in ("falling", "random"):
        yield Shape(f"tnef store, siblings {order}", functools.partial(store_siblings, order), 50_000, every, {})
    yield Shape("tnef passed-over attributes", passed_attributes, 500_000, every, {})
    yield Shape("tnef passed-over objects", passed_objects, 500_000, every, {})
    yield Shape("tnef elements, numbers", functools.partial(elements, 0x1003), 1_000_000, every, {})
    yield Shape("tnef elements, texts", functools.partial(elements, 0x101F), 500_000, every, {})
    yield Shape("tnef elements, texts of 8-bit characters", functools.partial(elements, 0x101E), 400_000, every, {})
    yield Shape("tnef lists without elements", empty_lists, 45_000, every, {})
    yield Shape("tnef 2^31 recipients said", claimed_recipients, 1_000_000, telling, refused(telling), "refused 70")
    yield Shape("tnef 2^31 properties said", claimed_properties, 250_000, telling, refused(telling), "refused 7")
    yield Shape("tnef 2^31 elements said", claimed_elements, 1_000_000, telling, refused(telling), "refused 70")
    yield from text_shapes()


def text_shapes():
    some = (["show"], ["to-unicode"], ["to-json"], ["to-msg"], ["to-tnef"])
    last = {"to-unicode": 7}
    for name, piece, page, ending, ends in (
        ("1252", b"\x80caf\xe9 ", 1252, b"", {}),
        ("1252, the last byte unmapped", b"\x80caf\xe9 ", 1252, b"\x81", last),
        ("UTF-8, four bytes each", "😀".encode(), 65001, b"", {}),
        ("UTF-8, the last one cut", "😀".encode(), 65001, b"\xf0\x9f\x98", last),
    ):
        yield Shape(f"tnef text in {name}", functools.partial(text8, piece, page, ending), 6 << 20, some, ends,
                    "unmapped Byte" if ends else "", False)
    for name, piece in (("control characters", b"\1\0"), ("lone surrogates", b"\0\xd8"), ("quotes", b'"\0')):
        yield Shape(f"tnef text of {name}", functools.partial(text16, piece), 5 << 20, some, {}, tiny=False)
    yield Shape("tnef one value", one_value, 7 << 20, STREAM_READERS, {}, tiny=False)
    yield Shape("tnef one value and a text in 1252", value_and_text, 7 << 20, STREAM_READERS, {}, tiny=False)


# ---- compound files

def word(file, at):
    return struct.unpack_from("<I", file, at)[0]


def entry_at(file, name):
    """Where the entry of a name stands."""
    return file.index(name.encode("utf-16-le") + b"\0\0")


def table_at(sector):
    """Where the table's word of a sector stands, in files of version 3 whose table comes first."""
    return 512 + 4 * sector


def patched(file, words):
    changed = bytearray(file)
    for at, value in words:
        struct.pack_into("<I", changed, at, value)
    return bytes(changed)


def last_sector(file, start):
    while word(file, table_at(start)) != END:
        start = word(file, table_at(start))
    return start


def chain_order(order, count):
    return inputs.msg_stream(count, order)


def chain_past_need(count):
    """A stream of 4,096 bytes whose chain goes through the sectors of so many bytes."""
    file = inputs.msg_stream(count, True)
    return patched(file, [(entry_at(file, "__substg1.0_10130102") + 120, 4096)])


def chain_cycle(count):
    """A stream whose chain goes back to its start from its last sector."""
    file = inputs.msg_stream(count, True)
    start = word(file, entry_at(file, "__substg1.0_10130102") + 116)
    return patched(file, [(table_at(last_sector(file, start)), start)])


def directory_start(file):
    return 512 * (1 + word(file, 48))


def directory_rows(file, count):
    at = directory_start(file)
    return [bytearray(file[at + 128 * k:at + 128 * (k + 1)]) for k in range(count)]


def with_rows(file, rows):
    at = directory_start(file)
    return file[:at] + b"".join(rows) + file[at + 128 * len(rows):]


def zigzag(count):
    """Siblings one below the other, on the left and on the right in turn."""
    file = inputs.msg_entries(count, "right")
    rows = directory_rows(file, count + 2)
    for row in rows[1:-1:2]:
        left, right = struct.unpack_from("<II", row, 68)
        struct.pack_into("<II", row, 68, right, left)
    return with_rows(file, rows)


def directory_cycle(count):
    """Siblings of which the last is linked to the first."""
    file = inputs.msg_entries(count, "right")
    return patched(file, [(directory_start(file) + 128 * (count + 1) + 72, 1)])


def renumbered(file, count):
    """A file whose entries stand in random order."""
    order = [0] + [1 + number for number in ordered(count - 1, "random", 7)]
    places = {old: new for new, old in enumerate(order)} | {NONE: NONE}
    rows = directory_rows(file, count)
    for row in rows:
        struct.pack_into("<III", row, 68, *(places[link] for link in struct.unpack_from("<III", row, 68)))
    return with_rows(file, [rows[old] for old in order])


def random_numbers(row, count):
    return renumbered(inputs.msg_entries(count, row), count + 2 if row else count + 3)


def renamed(file, first, count, order):
    """A file whose entries from one on have their names in another order along their links."""
    rows = directory_rows(file, first + count)
    names = [bytes(row[:66]) for row in rows[first:]]
    for row, number in zip(rows[first:], ordered(count, order, 9)):
        row[:66] = names[number]
    return with_rows(file, rows)


def siblings(order, count):
    """Siblings in a row, with long names in an order."""
    properties = Entry("__properties_version1.0", msg_properties([]))
    entries = [Entry(f"{'n' * 24}{k:06}", b"") for k in range(count)]
    return renamed(compound(Entry("Root Entry", children=[properties] + entries, row="right")), 2, count, order)


def store_siblings(order, count):
    return inputs.tnef_stored(renamed(inputs.store_entries(count, "right"), 1, count, order))


def double_sibling(count):
    """Siblings with long names of which the last two are one but for the case of a letter."""
    names = [f"{'n' * 24}{k:06}" for k in range(count)] + [f"N{'n' * 23}{count - 1:06}"]
    properties = Entry("__properties_version1.0", msg_properties([]))
    return compound(Entry("Root Entry", children=[properties] + [Entry(name, b"") for name in names]))


def storages_below(deepest, count):
    """Columns of 100 storages, one in the other, side by side, and a last one of so many."""
    columns = []
    for column in range(count // 100):
        inner = Entry("x", b"")
        for _ in range(99 if column < count // 100 - 1 else deepest - 1):
            inner = Entry("s", children=[inner])
        columns.append(Entry(f"c{column:06}", children=[inner]))
    properties = Entry("__properties_version1.0", msg_properties([]))
    return compound(Entry("Root Entry", children=[properties] + columns))


def small_streams(count):
    """A message of so many values of 4,000 bytes."""
    tags = [((0x0100 + k) << 16 | 0x0102, 4000) for k in range(count)]
    values = [Entry(f"__substg1.0_{tag:08X}", noise(4000)) for tag, _ in tags]
    return compound(Entry("Root Entry", children=[Entry("__properties_version1.0", msg_properties(tags))] + values))


def mini_table_at(file):
    return 512 * (1 + word(file, 60))


def mini_reversed(count):
    """The mini chains of the values go from the end of the mini stream to its front, each through all of it."""
    file = small_streams(count)
    first = entry_at(file, "__substg1.0_01000102")
    low = word(file, first + 116)
    total = 63 * count
    table = mini_table_at(file)
    words = []
    for k in range(count):
        places = [low + place for place in range(k, total, count)][::-1]
        words.append((entry_at_number(file, k) + 116, places[0]))
        words += [(table + 4 * one, other) for one, other in itertools.pairwise(places + [END])]
    return patched(file, words)


def entry_at_number(file, number):
    """Where the entry of a value of `small_streams` stands: they come in order, behind the root."""
    first = entry_at(file, "__substg1.0_01000102")
    return first + 128 * number


def mini_cycle(count):
    """The last mini chain goes back to its start from its last mini sector."""
    file = small_streams(count)
    start = word(file, entry_at_number(file, count - 1) + 116)
    return patched(file, [(mini_table_at(file) + 4 * (start + 62), start)])


def people(prefix, order, count):
    """Storages of recipients or attachments, with numbers in an order, and entries in random order."""
    found = [
        Entry(f"{prefix}{number:08X}", children=[Entry("__properties_version1.0", bytes(8))])
        for number in ordered(count, order)
    ]
    file = compound(Entry("Root Entry", children=[Entry("__properties_version1.0", bytes(32))] + found))
    return renumbered(file, 2 + 2 * count) if order == "random" else file


def msg_levels(levels, count):
    """Messages in messages, and so many bytes in the innermost."""
    inner = [Entry("__properties_version1.0", bytes(24) + struct.pack("<IIII", 0x10130102, 6, count, 0)),
             Entry("__substg1.0_10130102", noise(count))]
    for level in reversed(range(levels)):
        below = [Entry("__properties_version1.0", bytes(8) + struct.pack("<IIII", 0x3701000D, 6, 0xFFFFFFFF, 1)),
                 Entry("__substg1.0_3701000D", children=inner)]
        head = bytes(32 if level == 0 else 24)
        inner = [Entry("__properties_version1.0", head), Entry("__attach_version1.0_#00000000", children=below)]
    return compound(Entry("Root Entry", children=inner))


def msg_value_and_text(count):
    """A value, and a short text of 8-bit characters."""
    return compound(Entry("Root Entry", children=[
        Entry("__properties_version1.0", msg_properties([(0x0037001E, 5), (0x10130102, count)])),
        Entry("__substg1.0_0037001E", b"caf\xe9"),
        Entry("__substg1.0_10130102", noise(count)),
    ]))


def msg_with(stream, *more):
    return compound(Entry("Root Entry", children=[Entry("__properties_version1.0", bytes(32) + stream), *more]))


WIDTHS = (0x0002, 0x0003, 0x0004, 0x0005, 0x0006, 0x0007, 0x000A, 0x000B, 0x0014, 0x0040)


def msg_numbers(numbers):
    tags = ((1 + k // len(WIDTHS)) << 16 | WIDTHS[k % len(WIDTHS)] for k in numbers)
    return b"".join(struct.pack("<IIQ", tag, 6, 1) for tag in tags)


def msg_list(order, count):
    return msg_with(msg_numbers(ordered(count, order)))


def msg_double(order, count):
    numbers = ordered(count, order)
    return msg_with(msg_numbers(numbers + numbers[:1]))


def msg_passed(count):
    return msg_with(struct.pack("<IIQ", 0x12340001, 6, 1) * count)


def absent_values(count):
    """Texts of no bytes whose streams are absent, and as many other streams beside them."""
    tags = b"".join(struct.pack("<IIII", (1 + k) << 16 | 0x1F, 6, 2, 0) for k in ordered(min(count, 32_000), "random"))
    return msg_with(tags, *(Entry(f"__substg1.0_FFFF{k:06X}", b"") for k in range(count)))


def absent_elements(count):
    """A list of texts of no bytes whose streams are absent."""
    lengths = struct.pack("<I", 2) * count
    return msg_with(struct.pack("<IIII", 0x1013101F, 6, len(lengths), 0), Entry("__substg1.0_1013101F", lengths))


def present_elements(order, count):
    """A list of texts of a few bytes, their streams in an order."""
    lengths = struct.pack("<I", 4) * count
    texts = [Entry(f"__substg1.0_1013101F-{k:08X}", b"a\0\0\0") for k in range(count)]
    file = msg_with(struct.pack("<IIII", 0x1013101F, 6, len(lengths), 0), Entry("__substg1.0_1013101F", lengths), *texts)
    return renumbered(file, count + 3) if order == "random" else file


def name_storage(sets, entries, texts):
    return Entry("__nameid_version1.0", children=[
        Entry("__substg1.0_00020102", sets), Entry("__substg1.0_00030102", entries), Entry("__substg1.0_00040102", texts)])


def shared_text(count):
    """Names of one text of 255 units, each in a set of its own."""
    sets = b"".join(number.to_bytes(16, "big") for number in ordered(count, "random"))
    entries = b"".join(struct.pack("<II", 0, k << 16 | (k + 3) << 1 | 1) for k in range(count))
    text = struct.pack("<I", 510) + "n".encode("utf-16-le") * 255
    used = b"".join(struct.pack("<IIQ", 0x80000003 | k << 16, 6, 1) for k in range(count))
    return msg_with(used, name_storage(sets, entries, text))


def map_texts(order, count):
    """Names of 255 units, each with a text of its own, used by one property each."""
    texts = b"".join(struct.pack("<I", 510) + ("n" * 249 + f"{k:06}").encode("utf-16-le") + b"\0\0" for k in range(count))
    entries = b"".join(struct.pack("<II", 516 * text, k << 16 | 3 << 1 | 1) for k, text in enumerate(ordered(count, order)))
    used = b"".join(struct.pack("<IIQ", 0x80000003 | k << 16, 6, 1) for k in range(count))
    return msg_with(used, name_storage(inputs.SET, entries, texts))


def names_in_many_lists(unit, count):
    """Recipients with a thousand properties each, of the same hundred names of 255 units."""
    texts = b"".join(struct.pack("<I", 510) + (unit * 249 + f"{k:06}").encode("utf-16-le") + b"\0\0" for k in range(100))
    entries = b"".join(struct.pack("<II", 516 * k, k << 16 | 3 << 1 | 1) for k in range(100))
    used = b"".join(struct.pack("<IIQ", 0x80000000 | k << 16 | kind, 6, 1) for k in range(100) for kind in WIDTHS)
    head = bytes(8) + struct.pack("<IIII", count, 0, count, 0) + bytes(8)
    lists = [Entry(f"__recip_version1.0_#{k:08X}", children=[Entry("__properties_version1.0", bytes(8) + used)])
             for k in range(count)]
    top = [Entry("__properties_version1.0", head), name_storage(inputs.SET, entries, texts)]
    return compound(Entry("Root Entry", children=top + lists))


def file_shapes():
    every = READERS
    telling = (["check"], ["to-msg"])
    for row in ("left", "right"):
        yield Shape(f"msg entries, {row} links", functools.partial(lambda row, n: inputs.msg_entries(n, row), row),
                    60_000, every, {})
        yield Shape(f"msg entries, {row} links, random numbers", functools.partial(random_numbers, row), 60_000, every, {})
    for order in ORDERS:
        yield Shape(f"msg siblings {order}", functools.partial(siblings, order), 60_000, every, {})
    yield Shape("msg entries, a tree, random numbers", functools.partial(random_numbers, False), 60_000, every, {})
    yield Shape("msg entries, links in zigzag", zigzag, 60_000, every, {})
    yield Shape("msg entries, a cycle of links", directory_cycle, 60_000, telling, refused(telling), "refused 27 EntryShared")
    yield Shape("msg a double name at the end", double_sibling, 60_000, telling, refused(telling), "refused 29 DoubleName")
    yield Shape("msg storages 100 deep", functools.partial(storages_below, 100), 60_000, every, {})
    yield Shape("msg storages 101 deep", functools.partial(storages_below, 101), 60_000, telling, refused(telling),
                "refused 30 StorageTooDeep")
    for order in (False, True, "falling"):
        name = {False: "in order", True: "random"}.get(order, order)
        yield Shape(f"msg a chain through all, {name}", functools.partial(chain_order, order), 7 << 20, every, {}, tiny=False)
    yield Shape("msg version 4, a chain through all, random", lambda n: inputs.msg_stream(n, True, 4096), 7 << 20, every, {},
                tiny=False)
    yield Shape("msg a chain past its need", chain_past_need, 16 << 20, every, {}, tiny=False)
    yield Shape("msg a cycle of sectors", chain_cycle, 16 << 20, telling, refused(telling), "refused 15 Cycle", False)
    yield Shape("msg mini chains in reverse", mini_reversed, 1_500, every, {}, tiny=False)
    yield Shape("msg a cycle of mini sectors", mini_cycle, 3_000, telling, refused(telling), "refused 15 Cycle", False)
    for order in ORDERS:
        yield Shape(f"msg recipients {order}", functools.partial(people, "__recip_version1.0_#", order), 20_000, every,
                    ROW_LIMITS, "unfit Recipients")
        yield Shape(f"msg properties {order}", functools.partial(msg_list, order), 150_000, every, {})
        yield Shape(f"msg names with texts {order}", functools.partial(map_texts, order), 15_000, every, {}, tiny=False)
        yield Shape(f"msg double at the end {order}", functools.partial(msg_double, order), 150_000, telling,
                    refused(telling), "refused 48 DuplicateProperty")
    yield Shape("msg attachments random", functools.partial(people, "__attach_version1.0_#", "random"), 20_000, every,
                ROW_LIMITS, "unfit Attachments")
    yield Shape("msg messages 32 deep", functools.partial(msg_levels, 32), 6 << 20, every, {}, tiny=False)
    yield Shape("msg messages 33 deep", functools.partial(msg_levels, 33), 16 << 20, telling, refused(telling),
                "refused 4 TooDeep", False)
    yield Shape("msg 32 messages, recipients in each", lambda n: inputs.msg_recipients(32, n), 900, every, {})
    yield Shape("msg passed-over properties", msg_passed, 500_000, every, {})
    yield Shape("msg values without streams", absent_values, 32_000, every, {})
    yield Shape("msg elements without streams", absent_elements, 500_000, every, {})
    yield Shape("msg elements in order", functools.partial(present_elements, "rising"), 40_000, every, {})
    yield Shape("msg elements in random order", functools.partial(present_elements, "random"), 40_000, every, {})
    yield Shape("msg names of one text", shared_text, 16_000, every, {})
    yield Shape("msg names in many lists", functools.partial(names_in_many_lists, "n"), 40, every, {})
    yield Shape("msg names of control characters in many lists", functools.partial(names_in_many_lists, "\x01"), 80, every,
                {"to-json": 3}, "unfit Size")
    yield Shape("msg values, small", inputs.msg_texts, 15_000, every, {})
    yield Shape("msg one value and a text in 1252", msg_value_and_text, 7 << 20, every, {}, tiny=False)


# ---- mails

def mail(kind, body, *more):
    return b"Content-Type: " + kind + b"\r\n" + b"".join(more) + b"\r\n" + body


def boundary(name, parts):
    return b"".join(b"--" + name + b"\r\n" + part + b"\r\n" for part in parts) + b"--" + name + b"--\r\n"


def carried():
    return inputs.envelope(inputs.tnef_integers(1))


def beside(lines):
    """A multipart of one part of these lines, and of the stream."""
    return mail(b"multipart/mixed; boundary=b", boundary(b"b", [mail(b"text/plain", lines), carried()]))


def multiparts(levels, closed, count):
    """Multiparts in multiparts, and so many bytes of lines in the innermost."""
    parts = [mail(b"text/plain", b"--some line of a text\r\n" * (count // 23)), carried()]
    for level in reversed(range(levels)):
        name = b"b%d" % level
        body = boundary(name, parts)
        parts = [mail(b"multipart/mixed; boundary=" + name, body if closed or level else body[:-4 - len(name)])]
    return parts[0]


def deep_lines(line, count):
    """Multiparts 16 deep, and so many short lines in the innermost."""
    parts = [mail(b"text/plain", line * count), carried()]
    for level in reversed(range(16)):
        parts = [mail(b"multipart/mixed; boundary=b%d" % level, boundary(b"b%d" % level, parts))]
    return parts[0]


def many_parts(count):
    return mail(b"multipart/mixed; boundary=b", boundary(b"b", [b"\r\n"] * count + [carried()]))


def many_headers(count):
    return b"a:\r\n" * count + carried()


def folded_header(count):
    return b"a:\r\n" + b" x\r\n" * count + carried()


def folded_type(count):
    return mail(b"application/ms-tnef;\r\n" + b" a=b;\r\n" * count + b" c=d", carried().split(b"\r\n\r\n", 1)[1],
                b"Content-Transfer-Encoding: base64\r\n")


def parameters(count):
    return mail(b"multipart/mixed" + b";a=b" * count + b";boundary=b", boundary(b"b", [carried()]))


def semicolons(count):
    """Parameters without a name or a value."""
    return mail(b"multipart/mixed" + b";" * count + b";boundary=b", boundary(b"b", [carried()]))


def quoted_parameter(count):
    return mail(b'multipart/mixed;a="' + b"\\\"" * count + b'";boundary=b', boundary(b"b", [carried()]))


def near_boundaries(count):
    """Lines that are a boundary of 70 characters but for the last one."""
    name = b"-" * 69 + b"b"
    lines = (b"--" + b"-" * 69 + b"x\r\n") * count
    return mail(b"multipart/mixed; boundary=\"" + name + b'"', boundary(name, [mail(b"text/plain", lines), carried()]))


def blanks(count):
    """A text of base64 with a blank between every two characters."""
    head, _, text = inputs.envelope(inputs.tnef_attachment(3 * count)).partition(b"\r\n\r\n")
    text = text.replace(b"\r\n", b"")
    spaced = bytearray(b" " * (2 * len(text)))
    spaced[::2] = text
    return head + b"\r\n\r\n" + bytes(spaced)


def mail_shapes():
    def shape(name, maker, count, line="", tiny=True):
        return Shape(f"mail {name}", maker, count, UNWRAP, {"unwrap": 1} if line else {}, line, tiny)

    yield shape("multiparts 16 deep", functools.partial(multiparts, 16, True), 8 << 20, tiny=False)
    yield shape("multiparts 17 deep", functools.partial(multiparts, 17, True), 8 << 20, "refused 91 PartTooDeep", False)
    yield shape("multiparts 16 deep, not closed", functools.partial(multiparts, 16, False), 8 << 20, "refused 92", False)
    yield shape("multiparts 16 deep, empty lines", functools.partial(deep_lines, b"\n"), 2 << 20)
    yield shape("multiparts 16 deep, short header lines", functools.partial(deep_lines, b":\n"), 1 << 20)
    yield shape("parts", many_parts, 1_000_000)
    yield shape("header lines", many_headers, 2_000_000)
    yield shape("a folded header", folded_header, 2_000_000)
    yield shape("a folded type", folded_type, 1_000_000)
    yield shape("parameters", parameters, 2_000_000)
    yield shape("semicolons", semicolons, 8_000_000)
    yield shape("a quoted parameter", quoted_parameter, 4_000_000)
    yield shape("lines near a boundary", near_boundaries, 100_000, tiny=False)
    yield shape("empty lines", lambda n: beside(b"\n" * n), 8 << 20)
    yield shape("lines of one carriage return", lambda n: beside(b"\r" * n), 8 << 20)
    yield shape("one long line", lambda n: beside(b"x" * n), 16 << 20, tiny=False)
    yield shape("dashes", lambda n: beside(b"--\r\n" * n), 2_000_000)
    yield shape("base64 with blanks", blanks, 1_500_000, tiny=False)
    yield shape("one value", lambda n: inputs.envelope(inputs.tnef_attachment(n)), 8 << 20, tiny=False)
    yield shape("no stream", lambda n: mail(b"text/plain", b"x\r\n" * n), 4_000_000, "refused 85 NoTnefPart")


# ---- JSON

def json_message(properties="", people="", attached=""):
    return f'{{"attachments":[{attached}],"properties":[{properties}],"recipients":[{people}]}}'.encode()


def json_numbers(order, count):
    """Properties of numbers; they have to rise."""
    found = ['{"key":"%04X","kind":"%s","value":1}' % (1 + k // 2, ("Integer16", "Integer32")[k % 2])
             for k in ordered(count, order)]
    return json_message(",".join(found))


def json_double(count):
    found = ['{"key":"%04X","kind":"%s","value":1}' % (1 + k // 2, ("Integer16", "Integer32")[k % 2])
             for k in list(range(count)) + [count - 1]]
    return json_message(",".join(found))


def json_members(order, count):
    return b"{" + b",".join(b'"%d":0' % number for number in ordered(count, order)) + b"}"


def json_list(kind, item, count):
    """A property with so many elements."""
    return json_message('{"key":"1013","kind":"%s","value":[%s]}' % (kind, ",".join([item] * count)))


def json_value(kind, piece, count):
    """A property with a value of so many pieces."""
    return json_message('{"key":"1013","kind":"%s","value":"%s"}' % (kind, piece * count))


def json_stream(piece, count):
    return b"[" + b",".join([piece] * count) + b"]"


def json_levels(levels, count):
    """Messages in messages, and a text of so many characters in the innermost."""
    text = json_value("String", "x", count).decode()
    for _ in range(levels):
        text = json_message(attached='{"message":%s,"properties":[]}' % text).decode()
    return text.encode()


def json_store(members):
    held = '{"properties":[],"store":{"class":"%s","members":[%s]}}' % ("00" * 16, ",".join(members))
    return json_message(attached=held)


def json_streams(order, count):
    return json_store('{"data":"","path":["m%06d"]}' % k for k in ordered(count, order))


def json_paths(levels, count):
    """So many streams below storages one in the other."""
    above = [f'"{k}"' for k in range(levels)]
    members = ['{"class":"%s","path":[%s]}' % ("00" * 16, ",".join(above[:k + 1])) for k in range(levels)]
    members += ['{"data":"","path":[%s,"m%06d"]}' % (",".join(above), k) for k in range(count)]
    return json_store(members)


def json_shapes():
    def shape(name, maker, count, line="", tiny=True):
        return Shape(f"json {name}", maker, count, FROM_JSON, {"from-json": 8 if line.startswith("json") else 3} if line
                     else {}, line, tiny)

    yield shape("properties rising", functools.partial(json_numbers, "rising"), 32_000)
    for order in ("falling", "random"):
        yield shape(f"properties {order}", functools.partial(json_numbers, order), 32_000, "json Order")
    yield shape("double at the end", json_double, 32_000, "json Order")
    for order in ORDERS:
        yield shape(f"strange members {order}", functools.partial(json_members, order), 300_000, "json Form at /")
    yield shape("elements, numbers", functools.partial(json_list, "MultipleInteger32", "0"), 2_000_000)
    yield shape("elements, texts", functools.partial(json_list, "MultipleString", '""'), 500_000)
    for name, piece in (("zeros", b"0"), ("lists", b"[]"), ("objects", b"{}"), ("texts", b'""')):
        yield shape(f"of {name}", functools.partial(json_stream, piece), 1_000_000, "json Form at /")
    yield shape("of lists of one list", functools.partial(json_stream, b"[" * 10 + b"0" + b"]" * 10), 200_000, "json Form at /")
    yield shape("opened lists", lambda n: b"[" * n, 4_000_000, "json NotJson")
    yield shape("blanks", lambda n: b" " * n + json_message(), 8 << 20, tiny=False)
    yield shape("one number", lambda n: b"1" * n, 8 << 20, "json", tiny=False)
    yield shape("a long text", functools.partial(json_value, "String", "x"), 8 << 20, tiny=False)
    yield shape("escapes", functools.partial(json_value, "String", "\\u0001"), 1_500_000)
    yield shape("escaped pairs", functools.partial(json_value, "String", "\\ud83d\\ude00"), 800_000)
    yield shape("hexadecimal", functools.partial(json_value, "Binary", "ab"), 4 << 20, tiny=False)
    yield shape("recipients", lambda n: json_message(people=",".join(["[]"] * n)), 1_000_000, "unfit Recipients")
    yield shape("attachments", lambda n: json_message(attached=",".join(['{"properties":[]}'] * n)), 300_000, "unfit Att")
    yield shape("messages 32 deep", functools.partial(json_levels, 32), 8 << 20, tiny=False)
    yield shape("messages 33 deep", functools.partial(json_levels, 33), 8 << 20, "json Deep", tiny=False)
    yield shape("a store's streams rising", functools.partial(json_streams, "rising"), 100_000)
    yield shape("a store's streams random", functools.partial(json_streams, "random"), 100_000, "json Order")
    yield shape("a store 32 deep", functools.partial(json_paths, 32), 40_000)
    yield shape("a store 33 deep", functools.partial(json_paths, 33), 40_000, "json Deep")


# ---- edits

class Edited(typing.NamedTuple):
    """Edits of a shape at a count, and the input that they change."""

    name: str
    words: typing.Callable[[int], list]
    maker: typing.Callable[[int], bytes]
    count: int
    code: int = 0
    line: str = ""


EDIT_KINDS = ("Integer16", "Integer32", "Integer64", "Currency")


def set_edit(number, value="7"):
    return ["set", ".", f"{1 + number // len(EDIT_KINDS):04X}", EDIT_KINDS[number % len(EDIT_KINDS)], value]


def joined(edits):
    return ["edit", *itertools.chain.from_iterable(edits)]


def set_words(order, count):
    return joined(set_edit(number) for number in ordered(count, order))


def remove_words(order, count):
    edits = (set_edit(number)[1:4] for number in ordered(count, order))
    return joined(["remove", *edit] for edit in edits)


def edited_list(count):
    """A list of the properties that `set_words` sets."""
    codes = {"Integer16": 2, "Integer32": 3, "Integer64": 0x14, "Currency": 6}
    numbers = range(count)
    return message_list([
        number_property(codes[EDIT_KINDS[k % len(EDIT_KINDS)]], 1 + k // len(EDIT_KINDS), 7) for k in numbers])


def small(_):
    return inputs.tnef_integers(1)


def in_turns(*edits):
    """Edits in turns, one pair for each 25 that the lists have."""
    return lambda count: joined(edits * (count // 25))


def two_lists(count):
    """A list of numbers of the message, and the same of its one recipient."""
    properties = listed([integer(1 + number, 7) for number in range(count)])
    return tnef(attribute(1, 0x00069003, properties), attribute(1, 0x00069004, struct.pack("<I", 1) + properties))


def two_rows(count):
    """So many recipients, and as many attachments."""
    people = attribute(1, 0x00069004, struct.pack("<I", count) + bytes(4 * count))
    return tnef(people, attribute(2, 0x00069002, b"") * count)


def edit_shapes():
    for order in ORDERS:
        yield Edited(f"edit set {order}", functools.partial(set_words, order), small, 40_000)
        yield Edited(f"edit remove {order}", functools.partial(remove_words, order), edited_list, 40_000)
    yield Edited("edit set again", lambda n: joined([set_edit(1)] * n), small, 40_000)
    yield Edited("edit set, a long list", functools.partial(set_words, "random"), lambda n: numbers_list("rising", 500_000),
                 2_000)
    yield Edited("edit add-recipient", lambda n: joined([["add-recipient", "."]] * n), small, 50_000, 3, "unfit Recipients")
    yield Edited("edit drop-recipient, the first", lambda n: joined([["drop-recipient", ".", "0"]] * n), recipients, 50_000)
    yield Edited("edit drop-attachment, the first", lambda n: joined([["drop-attachment", ".", "0"]] * n), attachments, 50_000)
    yield Edited("edit set in turns, two places",
                 in_turns(["set", ".", "0001", "Time", "7"], ["set", "./r0", "0001", "Time", "7"]), two_lists, 15_000)
    yield Edited("edit drop in turns, two rows", in_turns(["drop-recipient", ".", "0"], ["drop-attachment", ".", "0"]),
                 two_rows, 50_000, 3, "unfit")
    yield Edited("edit 32 messages deep", deep_words, lambda n: nested_messages(32, 8), 15_000)
    yield Edited("edit the last without a place", lambda n: [*set_words("random", n), "add-recipient", "./m0"], small,
                 40_000, 9, "edit")
    yield Edited("edit the last no edit", lambda n: [*set_words("random", n), "set", "."], small, 40_000, 2, "usage")


def deep_words(count):
    place = "." + "/m0" * 32
    return joined(["set", place, *set_edit(number)[2:]] for number in ordered(count, "random"))


# ---- short files that say they are long

def short_files():
    """Name, command, bytes and the front of the line of files of less than 8 KiB."""
    big = 1 << 31
    file = inputs.compound(Entry("Root Entry", children=[Entry("__properties_version1.0", msg_properties([]))]))
    stream = inputs.msg_stream(5000, False)
    entry = entry_at(stream, "__substg1.0_10130102")
    root = directory_start(file)
    for name, changed, line in (
        ("FAT sectors", patched(file, [(44, big)]), "refused 13 BadFatCount"),
        ("DIFAT sectors", patched(file, [(72, big)]), ""),
        ("mini FAT sectors", patched(file, [(64, big)]), ""),
        ("mini stream bytes", patched(file, [(root + 120, big)]), "refused 17 ShortChain"),
        ("stream bytes", patched(stream, [(entry + 120, big)]), "refused 17 ShortChain"),
        ("directory link", patched(file, [(root + 76, big)]), "refused 28 EntryOutOfRange"),
        ("first sector", patched(file, [(48, big)]), "refused 14 SectorOutOfRange"),
    ):
        yield f"msg 2^31, {name}", ["to-msg"], changed, line
    for name, changed, line in (
        ("attribute bytes", inputs.SIGNATURE + struct.pack("<BII", 1, 0x00069003, big), "refused 62 Truncated"),
        ("recipients", tnef(attribute(1, 0x00069004, struct.pack("<I", big))), "refused 70 ListTruncated"),
        ("properties", tnef(attribute(1, 0x00069003, struct.pack("<I", big))), "refused 70 ListTruncated"),
        ("elements", message_list([struct.pack("<HHI", 0x1102, 0x1013, big)]), "refused 70 ListTruncated"),
        ("element bytes", message_list([struct.pack("<HHII", 0x0102, 0x1013, 1, big)]), "refused 70 ListTruncated"),
        ("name bytes", message_list([struct.pack("<HH16sII", 3, 0x8000, inputs.SET, 1, big)]), "refused 73 BadNameSize"),
    ):
        yield f"tnef 2^31, {name}", ["to-msg"], changed, line


def shapes():
    yield from stream_shapes()
    yield from file_shapes()
    yield from mail_shapes()
    yield from json_shapes()
