"""Trial 6, binlog show --json prints each value as the server's own SELECT gives it."""

import json
import random
import struct
from decimal import Decimal

from columns import FAMILIES, OF_MYSQL_ALONE
from programs import hold
from server import MARIADB

SCHEMA = "try_shown"
ROWS = 1000
ROWS_AT_ONCE = 100
NUMBERS = ("integers", "positive")
TEXTS = ("chars", "chars_latin1", "varchars", "varchars_latin1", "texts")
BYTES = ("binaries", "blobs", "shapes")
MEMBERS = ("enums", "sets")


class Known:
    """What a server writes to its log of columns, beside their types."""

    def __init__(self, server):
        of_maria = server.kind is MARIADB
        self.members = "--binlog-row-metadata=FULL" in server.settings
        self.names = self.members
        # MySQL writes signs and character sets by default, MariaDB doesn't
        self.signs = self.sets = not of_maria


def expression(family, definition, column, known):
    """What is selected of a column."""
    if family in TEXTS:
        return f"CONCAT(HEX(CONVERT({column} USING utf8mb4)), '/', HEX({column}))"
    if family == "documents":
        return f"HEX(CAST({column} AS CHAR CHARACTER SET utf8mb4))"
    if family in BYTES:
        return f"HEX({column})"
    if family == "bits":
        return f"LPAD(BIN({column} + 0), {definition[4:-1]}, '0')"
    if family in MEMBERS and not known.members:
        return f"CAST({column} AS UNSIGNED)"
    if definition == "FLOAT":
        return f"{column} + 0e0"
    return column


def width(definition):
    return {"TINYINT": 8, "SMALLINT": 16, "MEDIUMINT": 24, "INT": 32, "BIGINT": 64}[definition.split()[0]]


def are_texts_same(shown, selected, known):
    text, stored = (bytes.fromhex(digits) for digits in selected.split("/"))
    return shown == text.decode() or not known.sets and is_shown_unknown(shown, stored)


def is_shown_unknown(shown, stored):
    """Bytes of an unknown character set: text if they are UTF-8, else digits."""
    try:
        return shown == stored.decode()
    except UnicodeDecodeError:
        return shown == "0x" + stored.hex()


def are_bytes_same(shown, selected, definition, known):
    stored = bytes.fromhex(selected)
    if definition.startswith("BINARY"):
        # the zeros at the end aren't in the log
        stored = stored.rstrip(b"\0")
    return shown == "0x" + stored.hex() or not known.sets and is_shown_unknown(shown, stored)


def exact(text):
    return json.loads(text, parse_float=Decimal, parse_int=Decimal)


def are_same(family, definition, shown, selected, known):
    """Whether a value of JSON is what a client printed."""
    if family == "documents" and selected == b"null".hex().upper():
        return shown is None
    if selected == "NULL" or shown is None:
        return selected == "NULL" and shown is None
    if family in TEXTS:
        return are_texts_same(shown, selected, known)
    if family in BYTES:
        return are_bytes_same(shown, selected, definition, known)
    if family == "documents":
        return shown == exact(bytes.fromhex(selected).decode())
    if family == "positive" and not known.signs:
        return (int(shown) - int(selected)) % (1 << width(definition)) == 0
    if family in MEMBERS and not known.members:
        # no member is the empty text, which needs no names
        return int(shown or 0) == int(selected)
    if family in NUMBERS or definition in ("YEAR", "BOOLEAN"):
        return int(shown) == int(selected)
    if definition == "FLOAT":
        return struct.pack("<f", float(shown)) == struct.pack("<f", float(selected))
    if definition == "DOUBLE":
        return float(shown) == float(selected)
    return shown == selected


def filled(server, family, columns):
    """Makes a table, fills it, and returns the log with its rows."""
    r = random.Random(family)
    names = [f"c{number}" for number in range(len(columns))]
    parts = ", ".join(f"{name} {definition}" for name, (definition, _) in zip(names, columns))
    server.query(f"CREATE TABLE {SCHEMA}.{family} (id INT PRIMARY KEY, {parts})")
    server.next_log()
    for first in range(0, ROWS, ROWS_AT_ONCE):
        rows = ", ".join(
            f"({number}, " + ", ".join("NULL" if r.random() < 0.1 else make(r) for _, make in columns) + ")"
            for number in range(first, first + ROWS_AT_ONCE))
        server.query(f"SET sql_mode = '', time_zone = '+00:00'; INSERT INTO {SCHEMA}.{family} VALUES {rows}")
    return server.next_log()


def selected(server, family, columns, known):
    parts = ", ".join(expression(family, definition, f"c{number}", known) for number, (definition, _) in enumerate(columns))
    lines = server.query(f"SET time_zone = '+00:00'; SELECT id, {parts} FROM {SCHEMA}.{family}")
    return {int(line.split("\t")[0]): line.split("\t")[1:] for line in lines}


def compare(server, programs, family, columns, known):
    """How many values were compared."""
    log = filled(server, family, columns)
    wanted = selected(server, family, columns, known)
    count = 0
    for line in programs.command("show", log, "--utc", "--json", "-T", f"{SCHEMA}.{family}").decode().splitlines():
        row = exact(line)["after"]
        values = list(row.values())
        hold(list(row) == (["id"] + [f"c{n}" for n in range(len(columns))] if known.names else [f"@{n}" for n in range(1, len(columns) + 2)]),
             f"the columns are {list(row)}")
        for (definition, _), shown, value in zip(columns, values[1:], wanted.pop(int(values[0])), strict=True):
            hold(are_same(family, definition, shown, value, known), f"a value of {definition} is {shown!r}, and SELECT prints {value!r}")
            count += 1
    hold(not wanted, f"{len(wanted)} rows aren't shown")
    return count


def try_shown(server, programs, report, kept):
    known = Known(server)
    with report.trial("6: values are shown as SELECT prints them") as notes:
        server.query(f"CREATE DATABASE {SCHEMA}")
        count = 0
        for family, columns in FAMILIES.items():
            if family not in OF_MYSQL_ALONE or server.kind is not MARIADB:
                count += compare(server, programs, family, columns, known)
        notes.append(f"{count:,} values")
