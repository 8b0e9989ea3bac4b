#!/usr/bin/env python3
"""Whether a log that undoes has the table maps and rows events that mariadb-binlog --flashback printed.

    same_as_mariadb.py UNDO TEXT

Compared are type, flags and body of each such event, in order. Headers differ (mariadb-binlog keeps the old positions),
and the ends of transactions aren't base64 in its text, so neither is compared. A table map that it prints again in a
statement is passed over: the log that undoes has each map of a statement once.
"""

import base64
import itertools
import mmap
import struct
import sys

TABLE_MAP, KINDS = 19, (19, 30, 31, 32)


def written(path):
    """The table maps and rows events of a log."""
    with open(path, "rb") as file, mmap.mmap(file.fileno(), 0, access=mmap.ACCESS_READ) as log:
        at = 4
        while at < len(log):
            size, = struct.unpack_from("<I", log, at + 9)
            if log[at + 4] in KINDS:
                yield log[at + 4], log[at + 17:at + 19], log[at + 19:at + size]
            at += size


def printed(path):
    """The table maps and rows events of a text, each from its lines of base64; an event begins on a new line."""
    with open(path, "rb") as text:
        for line in text:
            if line != b"BINLOG '\n":
                continue
            for line in text:
                if line.startswith(b"'"):
                    break
                size, = struct.unpack_from("<I", base64.b64decode(line[:20]), 9)
                left, lines = (size + 2) // 3 * 4 - len(line) + 1, [line]
                while left > 0:
                    lines.append(text.readline())
                    left -= len(lines[-1]) - 1
                event = base64.b64decode(b"".join(lines))
                if event[4] in KINDS:
                    yield event[4], event[17:19], event[19:]


def without_repeated_maps(events):
    """The events without the maps that stand in their statement before."""
    maps = set()
    for kind, flags, body in events:
        if kind == TABLE_MAP:
            if body in maps:
                continue
            maps.add(body)
        elif body[6] & 1:  # the statement ends
            maps.clear()
        yield kind, flags, body


def main(undo, text):
    count = 0
    for ours, theirs in itertools.zip_longest(written(undo), without_repeated_maps(printed(text))):
        if ours != theirs:
            print(f"table map or rows event {count + 1} isn't that of mariadb-binlog", file=sys.stderr)
            return 1
        count += 1
    print(f"{count:,} table maps and rows events are those of mariadb-binlog", file=sys.stderr)
    return 0


if __name__ == "__main__":
    sys.exit(main(*sys.argv[1:]))
