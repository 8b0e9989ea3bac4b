"""Columns of every type that a table map can have, each with a maker of random values as SQL."""

import json

LETTERS = {
    "ascii": "abcXYZ 019'\"\\%_;\n\t\0",
    "latin1": "abcXYZ 019'\"\\äßéÿ",
    "utf8mb4": "abcXYZ 019'\"\\\näß€あ𝄞😀",
}
UTF8 = "CHARACTER SET utf8mb4 COLLATE utf8mb4_general_ci"
LATIN1 = "CHARACTER SET latin1"


def quoted(text):
    """The text as a string of SQL."""
    escapes = {"\\": "\\\\", "'": "\\'", "\0": "\\0"}
    return "'" + "".join(escapes.get(letter, letter) for letter in text) + "'"


def integer(bits, signed):
    low, high = (-(1 << bits - 1), (1 << bits - 1) - 1) if signed else (0, (1 << bits) - 1)
    return lambda r: str(r.choice((low, high, 0, 1, high // 2, r.randint(low, high))))


def decimal(precision, scale):
    def make(r):
        digits = "".join(r.choice("0123456789") for _ in range(r.choice((precision, r.randint(1, precision)))))
        digits = digits.rjust(precision, "0")
        whole, part = digits[:precision - scale] or "0", digits[precision - scale:]
        return r.choice(("-", "")) + whole + ("." + part if part else "")
    return make


def real(exponent):
    return lambda r: repr(r.choice((0.0, 1.5, r.uniform(-1, 1) * 10 ** r.randint(-exponent, exponent))))


def bits(count):
    return lambda r: f"b'{r.choice((0, 1, (1 << count) - 1, r.getrandbits(count))):b}'"


def string(longest, letters):
    def make(r):
        count = r.choice((0, longest, r.randint(0, longest)))
        return quoted("".join(r.choices(LETTERS[letters], k=count)))
    return make


def binary(longest):
    def make(r):
        count = r.choice((0, longest, r.randint(0, longest)))
        return f"x'{r.randbytes(count).hex()}'"
    return make


def fraction(r, digits):
    return f".{r.randint(0, 10 ** digits - 1):0{digits}d}" if digits else ""


def date(r):
    return f"{r.choice((1000, 1969, 2024, 9999, r.randint(1000, 9999)))}-{r.randint(1, 12):02d}-{r.randint(1, 28):02d}"


def clock(r):
    return f"{r.randint(0, 23):02d}:{r.randint(0, 59):02d}:{r.randint(0, 59):02d}"


def time(digits):
    def make(r):
        hours = r.choice((0, 838, r.randint(0, 838)))
        return f"'{r.choice(('-', ''))}{hours}:{r.randint(0, 59):02d}:{r.randint(0, 58):02d}{fraction(r, digits)}'"
    return make


def datetime(digits):
    return lambda r: f"'{date(r)} {clock(r)}{fraction(r, digits)}'"


def timestamp(digits):
    return lambda r: f"'{r.randint(1971, 2037)}-{r.randint(1, 12):02d}-{r.randint(1, 28):02d} {clock(r)}{fraction(r, digits)}'"


def one_of(count):
    return lambda r: f"'e{r.randrange(count)}'"


def some_of(count):
    return lambda r: "'" + ",".join(f"s{number}" for number in range(count) if r.random() < 0.3) + "'"


def members(letter, count):
    return ", ".join(f"'{letter}{number}'" for number in range(count))


def document(r):
    def value(depth):
        plain = (None, True, False, 0, -1, 2 ** 63, 1.25, "", "ä'\\\"€", "x" * r.randint(0, 300))
        if depth == 0 or r.random() < 0.4:
            return r.choice(plain)
        if r.random() < 0.5:
            return [value(depth - 1) for _ in range(r.randint(0, 4))]
        return {f"k{number}": value(depth - 1) for number in range(r.randint(0, 5))}
    return quoted(json.dumps(value(3)))


def point(r):
    return f"{r.randint(-180, 180)} {r.uniform(-90, 90):.6f}"


def shape(name):
    def make(r):
        first = point(r)
        texts = {
            "POINT": first,
            "LINESTRING": ", ".join(point(r) for _ in range(r.randint(2, 20))),
            "POLYGON": f"({first}, {point(r)}, {point(r)}, {first})",
        }
        kind = name if name in texts else r.choice(sorted(texts))
        return f"ST_GeomFromText('{kind}({texts[kind]})')"
    return make


def integers(signed):
    names = {8: "TINYINT", 16: "SMALLINT", 24: "MEDIUMINT", 32: "INT", 64: "BIGINT"}
    return [(name + ("" if signed else " UNSIGNED"), integer(width, signed)) for width, name in names.items()]


DIGITS = range(7)
# each family becomes a table with a primary key, and one without
FAMILIES = {
    "integers": integers(True),
    "positive": integers(False),
    "decimals": [(f"DECIMAL({p},{s})", decimal(p, s))
                 for p, s in ((1, 0), (5, 2), (9, 9), (10, 0), (18, 9), (30, 5), (38, 10), (65, 0), (65, 30))],
    "reals": [("FLOAT", real(30)), ("DOUBLE", real(300))],
    "bits": [(f"BIT({count})", bits(count)) for count in (1, 2, 7, 8, 9, 16, 17, 31, 33, 63, 64)],
    "dates": [("DATE", lambda r: f"'{date(r)}'"), ("YEAR", lambda r: str(r.randint(1901, 2155))), ("BOOLEAN", integer(1, False))],
    "times": [(f"TIME({digits})", time(digits)) for digits in DIGITS],
    "datetimes": [(f"DATETIME({digits})", datetime(digits)) for digits in DIGITS],
    "timestamps": [(f"TIMESTAMP({digits}) NULL", timestamp(digits)) for digits in DIGITS],
    "chars": [(f"CHAR({n}) {UTF8}", string(n, "utf8mb4")) for n in (1, 63, 64, 255)],
    "chars_latin1": [(f"CHAR({n}) {LATIN1}", string(n, "latin1")) for n in (1, 255)],
    "varchars": [(f"VARCHAR({n}) {UTF8}", string(n, "utf8mb4")) for n in (1, 63, 64, 255, 2000)],
    "varchars_latin1": [(f"VARCHAR({n}) {LATIN1}", string(n, "latin1")) for n in (1, 255, 256, 4000)],
    "binaries": [(f"BINARY({n})", binary(n)) for n in (1, 16, 255)]
                + [(f"VARBINARY({n})", binary(n)) for n in (1, 255, 256, 3000)],
    "texts": [(f"{name} {UTF8}", string(n, "utf8mb4")) for name, n in (("TINYTEXT", 60), ("TEXT", 900), ("MEDIUMTEXT", 900), ("LONGTEXT", 900))],
    "blobs": [(name, binary(n)) for name, n in (("TINYBLOB", 255), ("BLOB", 900), ("MEDIUMBLOB", 900), ("LONGBLOB", 900))],
    "enums": [(f"ENUM({members('e', count)})", one_of(count)) for count in (1, 3, 255, 256, 1000)],
    "sets": [(f"SET({members('s', count)})", some_of(count)) for count in (1, 8, 9, 17, 25, 33, 64)],
    "shapes": [(name, shape(name)) for name in ("GEOMETRY", "POINT", "LINESTRING", "POLYGON")],
    "documents": [("JSON", document), ("JSON", document)],
}
# MariaDB's JSON is a text
OF_MYSQL_ALONE = {"documents"}
