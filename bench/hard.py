"""Sound archives that are hard to judge, spelled byte by byte as docs/FORMAT.md says."""
import struct
from functools import lru_cache


def u32(number):
    return struct.pack(">I", number)


def u64(number):
    return struct.pack(">Q", number)


def text(string):
    return u32(len(string)) + string.encode()


def record(kind, body):
    return bytes([kind]) + u64(len(body)) + body


def stored(pairs):
    return b"\1" + u32(len(pairs)) + b"".join(u32(a) + u32(b) for a, b in pairs)


def content(string):
    return b"\1" + u32(0) + u32(1) + b"\0" + text(string)


def header(rules, versions):
    return b"XARC1\n" + text(rules) + u32(versions)


def element(name):
    """The label of an element without key values."""
    return b"\1" + text(name) + u32(0)


def directory(children, versions):
    """The directory over children that all versions have: the length of each, and that of the body of its END."""
    starts, at = [], 0
    for length, closed in children:
        starts.append(u64(at) + u64(length) + u64(closed))
        at += length
    return u32(len(children)) + b"".join(starts) + equal_sets(len(children), versions)


@lru_cache(None)
def equal_sets(count, versions):
    """The timestamp tree over so many sets of all versions."""
    node = u32(1) + u32(1) + u32(versions)
    if count == 1:
        return node + u64(0)
    left, right = equal_sets((count + 1) // 2, versions), equal_sets(count // 2, versions)
    return node + u64(len(left)) + left + right


def closed(rules, versions, body, children):
    """The archive of these children of the virtual root."""
    end = directory(children, versions)
    return header(rules, versions) + body + record(4, end) + u64(len(end))


def leaf_of_alternatives(versions):
    """An element `db` that has one content in every odd version, and a new one in every even version."""
    body = record(2, element("db") + b"\0")
    body += record(3, stored([(i, i) for i in range(1, versions + 1, 2)]) + content("A"))
    body += b"".join(record(3, stored([(i, i)]) + content(str(i))) for i in range(2, versions + 1, 2))
    body += record(5, b"")
    return closed("(/, (db, {}))\n", versions, body, [(len(body), 0)])


def deep(levels):
    """Elements that nest so deep, each the only child of the one above; the deepest is a leaf."""
    rules = "".join(f"({'/' + '/'.join(['a'] * level)}, (a, {{}}))\n" for level in range(levels))
    body, end = record(2, element("a") + b"\0") + record(3, b"\0" + content("x")) + record(5, b""), 0
    for _ in range(levels - 1):
        below = directory([(len(body), end)], 1)
        body, end = record(1, element("a") + b"\0") + body + record(4, below), len(below)
    return closed(rules, 1, body, [(len(body), end)])


def wide(attributes):
    """An element `db` of so many attributes, each null."""
    value = record(3, b"\0\0\0") + record(5, b"")
    rows = [record(2, b"\0" + text(f"n{number:08}") + u32(0) + b"\0") + value for number in range(attributes)]
    below = directory([(len(row), 0) for row in rows], 1)
    body = record(1, element("db") + b"\0") + b"".join(rows) + record(4, below)
    return closed("(/, (db, {}))\n(/db, (row, {}))\n", 1, body, [(len(body), len(below))])
