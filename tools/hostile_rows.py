"""Which bytes spell a row, by the tables of docs/definitions/rows.md: parts, forms, keys and rows.

It is no script itself. A reader takes bytes and a place, and returns a value and the place behind it, or raises Unspelled.
"""


class Unspelled(Exception):
    """The bytes spell no row."""


def number(size):
    def read(data, at):
        if at + size > len(data):
            raise Unspelled
        return int.from_bytes(data[at:at + size], "big"), at + size
    return read


def fixed(size):
    def read(data, at):
        if at + size > len(data):
            raise Unspelled
        return data[at:at + size], at + size
    return read


def text(data, at):
    size, at = number(4)(data, at)
    raw, at = fixed(size)(data, at)
    try:
        return raw.decode(), at
    except UnicodeDecodeError:
        raise Unspelled from None


def among(*names):
    """One byte, which numbers one of these names."""
    def read(data, at):
        value, at = number(1)(data, at)
        if value >= len(names):
            raise Unspelled
        return names[value], at
    return read


truth = among(False, True)
flags = among(*range(8))


def perhaps(part):
    def read(data, at):
        there, at = truth(data, at)
        return part(data, at) if there else (None, at)
    return read


def listed(part):
    def read(data, at):
        count, at = number(4)(data, at)
        values = []
        for _ in range(count):
            value, at = part(data, at)
            values.append(value)
        return values, at
    return read


def parts(*readers):
    def read(data, at):
        values = []
        for reader in readers:
            value, at = reader(data, at)
            values.append(value)
        return values, at
    return read


def cases(*readers):
    """One byte, which numbers one of these, and what it says."""
    def read(data, at):
        case, at = number(1)(data, at)
        if case >= len(readers):
            raise Unspelled
        value, at = readers[case](data, at)
        return (case, value), at
    return read


ID_DIGITS = frozenset(b"0123456789ABCDEFGHIJKLMNOPQRSTUVWXYZabcdefghijklmnopqrstuvwxyz")


def an_id(data, at):
    raw, at = fixed(15)(data, at)
    if not ID_DIGITS.issuperset(raw):
        raise Unspelled
    return raw.decode(), at


def level(data, at):
    value, at = number(1)(data, at)
    if value not in (1, 2):
        raise Unspelled
    return value, at


principal = parts(among("user", "role", "subordinates", "group"), an_id)
access = among(*range(7))
kind = cases(
    number(1), parts(number(1), number(1)), parts(), parts(), parts(), listed(text), parts(number(2), truth), number(2),
)
slots = parts(*[perhaps(text)] * 48)
# Of each table the row, or of one with forms the rows by the key's mark.
ROWS = {
    0: parts(number(4), number(4)),
    1: parts(text, number(8), number(2), number(4), number(2), number(2), number(2), number(2), number(4)),
    2: parts(text, access, number(4), number(1), number(1)),
    3: parts(text, kind, flags, number(1), perhaps(text)),
    4: parts(number(2), number(1), kind, number(1), among("copy", "clear", "done"), among("open", "switched", "failed", "cancelled"),
             perhaps(an_id), perhaps(an_id)),
    5: {0: parts(text, fixed(32), perhaps(an_id), truth), 1: parts(text, perhaps(an_id)), 2: parts(text, listed(principal))},
    6: {0: parts(text, text, text),
        1: parts(text, number(2), number(4), cases(principal, text), principal, level, among("whole", "building", "leaving"), perhaps(an_id))},
    7: parts(perhaps(text), perhaps(an_id), number(8), number(8), slots),
    8: parts(),
    9: an_id,
    10: parts(),
    11: parts(),
    12: {0: level, 1: level},
}


def row_of(table, key, row):
    """What a row of a table spells, under a key that spells one. The mark is behind the organisation's number."""
    form = ROWS[table]
    reader = form[bytes.fromhex(key)[4]] if isinstance(form, dict) else form
    data = bytes.fromhex(row)
    value, at = reader(data, 0)
    if at != len(data):
        raise Unspelled
    return value


def spells(table, key, row):
    try:
        row_of(table, key, row)
    except Unspelled:
        return False
    return True
