#!/usr/bin/env python3
"""Writes a binary log of version 4 (rows events of version 2, or 1 in one shape, server 5.6.51) to measure with.

    make_log.py [--sums] SHAPE MB FILE
    make_log.py [--sums] SHAPE COUNT FILE

With --sums each event ends in its CRC-32, and MB doesn't count these. Without, the log has no checksums.

The file has at least MB megabytes (10^6 bytes) and ends behind a whole transaction. A shape that is named after what
it has many of takes their number instead, a multiple of 1,000. The same words give the same bytes. Some transactions
are built once, from random values of a fixed seed, and are repeated; from one copy to the next only the log positions
change. On success one line is printed: the file's bytes, its events and its rows.
"""

import random
import struct
import sys
import zlib
from functools import partial

ROTATING = 8 << 20  # bytes of the part that is repeated, at most; a cache of the processor holds less
EVENT_SIZE = 8192   # a server begins a new rows event at about this size
END = 1             # the flag of a statement's last rows event
TABLE_MAP, WRITE, UPDATE, DELETE, QUERY, XID, FORMAT, ROWS_QUERY = 19, 30, 31, 32, 2, 16, 15, 29
TOGETHER = 1000     # transactions or statements in the part that is repeated, where they are counted

# flags, SQL mode, catalog and character sets, as a 5.6 server writes them in front of a Query's text
STATUS = bytes.fromhex("00 00000000 01 0000004000000000 06 03 737464 04 2100 2100 0800")
POST_HEADER = bytes.fromhex("380D0008001200040404041200005C00041A08000000080808020000000A0A0A191900")


def packed(number):
    if number <= 250:
        return bytes([number])
    return b"\xfc" + struct.pack("<H", number)


class Events:
    """Events one after the other, and the places of their log positions."""

    version_one = False  # of rows events: without an extra length, and of types 7 below those of version 2

    def __init__(self):
        self.bytes = bytearray()
        self.ends = []  # (place of the field, end of the event), both from the part's start
        self.rows = 0
        self.time = 1700000000

    def put(self, kind, body, flags=0):
        start, size = len(self.bytes), 19 + len(body)
        self.bytes += struct.pack("<IBIIIH", self.time, kind, 1, size, 0, flags)
        self.bytes += body
        self.ends.append((start + 13, start + size))

    def query(self, schema, text):
        fixed = struct.pack("<IIBHH", 7, 0, len(schema), 0, len(STATUS))
        self.put(QUERY, fixed + STATUS + schema + b"\0" + text, flags=8 if text == b"BEGIN" else 0)

    def xid(self, number):
        self.put(XID, struct.pack("<Q", number))

    def map(self, table):
        self.put(TABLE_MAP, table.map_body)

    def rows_event(self, table, kind, images, last):
        """images: one for each row, two for an update."""
        bits = b"\xff" * ((table.count + 7) // 8)
        body = table.id + struct.pack("<H", END if last else 0) + (b"" if self.version_one else b"\2\0")
        body += packed(table.count) + bits * (2 if kind == UPDATE else 1)
        self.put(kind - 7 if self.version_one else kind, body + b"".join(images))
        self.rows += len(images) // (2 if kind == UPDATE else 1)


class Table:
    """columns: (type, metadata, function of the random source that makes a value, can be NULL)."""

    def __init__(self, number, schema, name, columns):
        self.id = number.to_bytes(6, "little")
        self.columns = columns
        self.count = n = len(columns)
        metadata = b"".join(column[1] for column in columns)
        nullable = sum(1 << i for i, column in enumerate(columns) if column[3])
        self.map_body = b"".join([
            self.id, struct.pack("<H", 1), bytes([len(schema)]), schema, b"\0", bytes([len(name)]), name, b"\0",
            packed(n), bytes(column[0] for column in columns), packed(len(metadata)), metadata,
            nullable.to_bytes((n + 7) // 8, "little")])

    def image(self, source, nulls=0.2):
        bits, values = (1 << (self.count + 7) // 8 * 8) - (1 << self.count), []
        for i, (_, _, value, can_be_null) in enumerate(self.columns):
            if can_be_null and source.random() < nulls:
                bits |= 1 << i
            else:
                values.append(value(source))
        return bits.to_bytes((self.count + 7) // 8, "little") + b"".join(values)


def fixed(width):
    return lambda source: source.randbytes(width)


def counted(prefix, least, most):
    def value(source):
        length = source.randint(least, most)
        return length.to_bytes(prefix, "little") + source.randbytes(length)
    return value


def decimal_5(source):
    """Nine digits before the point and two after it: five bytes, the highest bit set where it is not negative."""
    return struct.pack(">IB", 0x80000000 | source.randrange(10**9), source.randrange(100))


LONG = (3, b"", fixed(4), False)
LONGLONG = (8, b"", fixed(8), False)
SHORT = (2, b"", fixed(2), True)
TINY = (1, b"", fixed(1), True)
DOUBLE = (5, b"\x08", fixed(8), True)
DATETIME2 = (18, b"\x00", fixed(5), True)
TIMESTAMP2 = (17, b"\x03", fixed(6), True)
DECIMAL = (246, bytes([11, 2]), decimal_5, True)
NAME = (15, struct.pack("<H", 60), counted(1, 4, 30), True)       # VARCHAR(20), three bytes a character
TITLE = (15, struct.pack("<H", 765), counted(2, 10, 60), True)    # VARCHAR(255)
CODE = (254, b"\xfe\x24", counted(1, 3, 12), True)                # CHAR(12), three bytes a character
STATE = (254, b"\xf7\x01", fixed(1), True)                        # ENUM
TEXT = (252, b"\x02", counted(2, 20, 200), True)                  # BLOB
NULL_LONG = LONG[:3] + (True,)

# ten columns without NULLs, whose image has 85 bytes on the average
TEN = [LONG, LONGLONG, (15, struct.pack("<H", 60), counted(1, 8, 16), False),
       (15, struct.pack("<H", 90), counted(1, 10, 18), False), DATETIME2[:3] + (False,), DECIMAL[:3] + (False,),
       TINY[:3] + (False,), (252, b"\x02", counted(2, 10, 20), False), (254, b"\xfe\x24", counted(1, 4, 12), False),
       TIMESTAMP2[:3] + (False,)]


def mixed_tables():
    shop = b"shop"
    return [
        Table(70, shop, b"orders", [LONGLONG, LONG, LONG, DATETIME2, DECIMAL, STATE, NAME]),
        Table(71, shop, b"order_lines", [LONGLONG, LONG, SHORT, LONG, DECIMAL, DECIMAL]),
        Table(72, shop, b"customers", [LONG, NAME, NAME, TITLE, TITLE, CODE, DATETIME2, TINY, TEXT]),
        Table(73, shop, b"articles", [LONG, CODE, TITLE, TEXT, DECIMAL, NULL_LONG, TIMESTAMP2, TINY, STATE]),
        Table(74, shop, b"stock", [LONG, LONG, NULL_LONG, TIMESTAMP2]),
        Table(75, b"log", b"visits", [LONGLONG, TIMESTAMP2, NULL_LONG, TITLE, NAME, TINY, DOUBLE]),
        Table(76, b"log", b"messages", [LONGLONG, DATETIME2, TEXT]),
        Table(77, b"log", b"counters", [LONG, LONGLONG, LONGLONG, DOUBLE]),
    ]


def put_statement(part, source, table, kind, size):
    """A map and rows events that hold at least size bytes of images together, each about as long as a server's."""
    part.map(table)
    events, images, held = [], [], 0
    while size > 0 or not (images or events):
        image = table.image(source)
        if kind == UPDATE:
            images.append(image)
            size, held = size - len(image), held + len(image)
            image = table.image(source)
        images.append(image)
        size, held = size - len(image), held + len(image)
        if held >= EVENT_SIZE - 100:
            events.append(images)
            images, held = [], 0
    if images:
        events.append(images)
    for i, images in enumerate(events):
        part.rows_event(table, kind, images, last=i + 1 == len(events))


def mixed(source, part, size):
    """Transactions of one to four inserts, updates and deletes, mostly of one rows event of 8 KB, in eight tables."""
    tables, number = mixed_tables(), 0
    while len(part.bytes) < size:
        number += 1
        part.query(b"shop", b"BEGIN")
        for _ in range(source.randint(1, 4)):
            of_rows = source.choice([2000, 8000, 8000, 8000, 24000])
            put_statement(part, source, source.choice(tables), source.choice([WRITE, UPDATE, DELETE]), of_rows)
        part.xid(number)


def version_one(source, part, size):
    """The same transactions as in mixed, with rows events of version 1."""
    part.version_one = True
    mixed(source, part, size)


def one_row(source, part, size, count=0):
    """Transactions of one statement that inserts one row."""
    table, number = Table(70, b"shop", b"stock", [LONG, LONG, NULL_LONG, DATETIME2]), 0
    while len(part.bytes) < size or number < count:
        number += 1
        part.query(b"shop", b"BEGIN")
        part.map(table)
        part.rows_event(table, WRITE, [table.image(source)], last=True)
        part.xid(number)


def wide(source, part, size):
    """Tables of 200 and of 4,096 columns by turns: inserts, updates and deletes of some rows."""
    kinds = [LONG, NULL_LONG, NAME, DATETIME2, TINY, DECIMAL, LONGLONG, SHORT]
    tables = [Table(70, b"wide", b"columns_200", [kinds[i % 8] for i in range(200)]),
              Table(71, b"wide", b"columns_4096", [kinds[i * 5 % 8] for i in range(4096)])]
    number = 0
    while len(part.bytes) < size:
        number += 1
        part.query(b"wide", b"BEGIN")
        for table in tables:
            put_statement(part, source, table, [WRITE, UPDATE, DELETE][number % 3], 100_000)
        part.xid(number)


def many_statements(source, part, size, count=0):
    """Statements of one row each, by turns in eight tables; the whole log is one transaction of them."""
    tables, number = mixed_tables(), 0
    while len(part.bytes) < size or number < count:
        number += 1
        put_statement(part, source, tables[number % 8], [WRITE, UPDATE, DELETE][number % 3], 1)


TWO = [LONG, NULL_LONG]


def small_tables(count, columns):
    return [Table(1000 + i, b"many", b"table_%06d" % i, columns) for i in range(count)]


def colliding_tables(count, columns):
    """Tables whose names have the same hash by the seed 0: with these eight bytes a factor of a product is all ones, so that it
    folds to the same whatever the other factor is."""
    all_ones = bytes.fromhex("1c4bef3d6b27b154")
    return [Table(1000 + i, b"many", b"%08d" % i + all_ones + b"t", columns) for i in range(count)]


def rows_for(size, count, source, columns):
    """Images for each of count rows events, which are to have size bytes together, but none more than a server's."""
    images, table = [], Table(0, b"", b"", columns)
    held = min(size // count - 31, EVENT_SIZE)
    while held > 0 or not images:
        images.append(table.image(source))
        held -= len(images[-1])
    return images


def many_maps(source, part, size, count=40_000, columns=TWO, shuffled=True):
    """One statement of 40,000 table maps, and then rows events that use them all, shuffled or in the order of the maps."""
    tables = small_tables(count, columns)
    part.query(b"many", b"BEGIN")
    for table in tables:
        part.map(table)
    left = max(size - len(part.bytes), 1)
    images = rows_for(left, count, source, columns)
    while left > 0:
        if shuffled:
            source.shuffle(tables)
        before = len(part.bytes)
        for table in tables:
            part.rows_event(table, WRITE, images, last=False)
        left -= len(part.bytes) - before
    part.rows_event(tables[0], WRITE, images, last=True)
    part.xid(1)


def many_tables(source, part, size, count=100_000, columns=TWO, made=small_tables):
    """Transactions of one statement, each of the next of 100,000 tables."""
    tables = made(count, columns)
    images = rows_for(size - count * 147, count, source, columns)
    while len(part.bytes) < max(size, 1):
        for number, table in enumerate(tables):
            part.query(b"many", b"BEGIN")
            part.map(table)
            part.rows_event(table, WRITE, images, last=True)
            part.xid(number)


def whole_transaction(part, table, fill):
    """One transaction of what is filled in behind the map of its table, and a last rows event of one row."""
    part.query(b"shop", b"BEGIN")
    part.map(table)
    fill()
    part.rows_event(table, WRITE, [table.image(random.Random(1))], last=True)
    part.xid(1)


def null_rows(source, part, size):
    """Transactions that insert rows of 4,096 columns, all of them NULL."""
    table = Table(70, b"wide", b"nulls", [NULL_LONG] * 4096)
    while len(part.bytes) < size:
        part.query(b"wide", b"BEGIN")
        part.map(table)
        for last in [False] * 99 + [True]:
            part.rows_event(table, WRITE, [b"\xff" * 512] * 15, last)
        part.xid(len(part.ends))


def half_null(source, part, size):
    """Transactions that insert rows of 4,096 columns, of which any half are NULL."""
    kinds = [NULL_LONG, NAME, DATETIME2, TINY, DECIMAL, SHORT, DOUBLE, TITLE]
    table = Table(70, b"wide", b"halves", [kinds[i * 5 % 8] for i in range(4096)])
    while len(part.bytes) < size:
        part.query(b"wide", b"BEGIN")
        part.map(table)
        for last in [False] * 9 + [True]:
            part.rows_event(table, WRITE, [table.image(source, nulls=0.5)], last)
        part.xid(len(part.ends))


def many_events(source, part, size):
    """One statement of rows events of one row."""
    table = Table(70, b"shop", b"stock", [LONG, LONG, NULL_LONG, DATETIME2])
    images = [table.image(source) for _ in range(1000)]

    def fill():
        while len(part.bytes) < size:
            for image in images:
                part.rows_event(table, WRITE, [image], last=False)
    whole_transaction(part, table, fill)


def tiny_rows(source, part, size):
    """One rows event of rows of one byte: its null bits, and a NULL."""
    table = Table(70, b"shop", b"flags", [TINY])
    whole_transaction(part, table, lambda: part.rows_event(table, WRITE, [b"\xff"] * size, last=False))


def repeated_map(source, part, size):
    """One statement with the same table map again and again, and a rows event behind them."""
    table = Table(70, b"shop", b"stock", [LONG, LONG, NULL_LONG, DATETIME2])

    def fill():
        while len(part.bytes) < size:
            part.map(table)
    whole_transaction(part, table, fill)


def events_of(event_size):
    """Events of this many bytes: texts beside rows, as a server writes them. They are in no transaction."""
    def events(source, part, size):
        while len(part.bytes) < size:
            text = source.randbytes(event_size - 20)
            part.put(ROWS_QUERY, bytes([min(len(text), 255)]) + text)
    return events


def columns_of(count):
    """Transactions that insert rows of this many columns."""
    def columns(source, part, size):
        table, number = Table(70, b"shop", b"columns", [TEN[i % 10] for i in range(count)]), 0
        while len(part.bytes) < size:
            number += 1
            part.query(b"shop", b"BEGIN")
            put_statement(part, source, table, WRITE, 1_000_000)
            part.xid(number)
    return columns


REPEATED = {"mixed": mixed, "version_one": version_one, "one_row": one_row, "wide": wide, "many_statements": many_statements,
            "null_rows": null_rows, "half_null": half_null,
            "small_events": events_of(36), "large_events": events_of(8192),
            "columns_10": columns_of(10), "columns_512": columns_of(512), "columns_4096": columns_of(4096)}
WHOLE = {"many_maps": many_maps, "many_tables": many_tables,
         "many_events": many_events, "tiny_rows": tiny_rows, "repeated_map": repeated_map}
# these take a number of maps, tables, transactions or statements
COUNTED_REPEATED = {"transactions": one_row, "statements": many_statements}
COUNTED_WHOLE = {"maps": partial(many_maps, columns=TEN, shuffled=False), "shuffled_maps": partial(many_maps, columns=TEN),
                 "tables": partial(many_tables, columns=TEN),
                 "small_maps": partial(many_maps, shuffled=False), "small_tables": many_tables,
                 "colliding_tables": partial(many_tables, made=colliding_tables)}
SHAPES = REPEATED | WHOLE | COUNTED_REPEATED | COUNTED_WHOLE
ONE_TRANSACTION = ("many_statements", "statements")  # of all copies


class File:
    """Parts written one after the other, with positions from the file's start."""

    def __init__(self, out, sums):
        self.out, self.sums, self.length, self.events, self.rows = out, sums, 0, 0, 0
        self.out.write(b"\xfebin")
        self.length = 4

    def put(self, part):
        size = len(part.bytes) + (4 * len(part.ends) if self.sums else 0)
        if self.length + size > 0xFFFFFFFF:
            sys.exit("make_log.py: a binary log has no more than 4,294,967,295 bytes")
        if self.sums:
            self.out.write(self.summed(part))
        else:
            pack_into, base = struct.Struct("<I").pack_into, self.length
            for place, end in part.ends:
                pack_into(part.bytes, place, base + end)
            self.out.write(part.bytes)
        self.length += size
        self.events += len(part.ends)
        self.rows += part.rows


    def summed(self, part):
        """The part's events, each longer by its sum."""
        out, start, length = bytearray(), 0, self.length
        for _, end in part.ends:
            event = part.bytes[start:end]
            length += len(event) + 4
            struct.pack_into("<II", event, 9, len(event) + 4, length)
            out += event
            out += struct.pack("<I", zlib.crc32(event))
            start = end
        return out


def format_description(sums):
    """Its algorithm is 1 with sums, which put its own behind it, and else 0 with four bytes of zeros there."""
    part = Events()
    version = b"5.6.51".ljust(50, b"\0")
    body = struct.pack("<H", 4) + version + struct.pack("<IB", part.time, 19) + POST_HEADER
    body += b"\1" if sums else b"\0" + bytes(4)
    part.put(FORMAT, body)
    return part


def put_all(file, shape, size):
    """Writes what stands behind the format description."""
    part, source = Events(), random.Random(shape)
    if shape in WHOLE or shape in COUNTED_WHOLE:
        if shape in WHOLE:
            WHOLE[shape](source, part, size * 10**6)
        else:
            COUNTED_WHOLE[shape](source, part, 0, size)
        file.put(part)
    elif shape in REPEATED:
        copies = max(-(-size * 10**6 // ROTATING), 1)
        REPEATED[shape](source, part, size * 10**6 // copies + 1)
        for _ in range(copies):
            file.put(part)
    else:
        COUNTED_REPEATED[shape](source, part, 0, TOGETHER)
        for _ in range(size // TOGETHER):
            file.put(part)


def main(words):
    sums = words[:1] == ["--sums"]
    words = words[1:] if sums else words
    if len(words) != 3 or words[0] not in SHAPES or not words[1].isdigit():
        sys.exit("make_log.py [--sums] SHAPE MB FILE, the shape one of " + ", ".join(REPEATED | WHOLE)
                 + "; or with a number in the place of MB " + ", ".join(COUNTED_REPEATED | COUNTED_WHOLE))
    with open(words[2], "wb", buffering=0) as out:
        file, begin, end = File(out, sums), Events(), Events()
        file.put(format_description(sums))
        if words[0] in ONE_TRANSACTION:
            begin.query(b"shop", b"BEGIN")
            end.xid(1)
        file.put(begin)
        put_all(file, words[0], int(words[1]))
        file.put(end)
    print(file.length, file.events, file.rows)


if __name__ == "__main__":
    main(sys.argv[1:])
