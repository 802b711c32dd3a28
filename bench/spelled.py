"""Archive files, spelled byte by byte as docs/FORMAT.md says, for the scripts beside this file.

A node is made by `inner` or `leaf`. A set is a list of pairs, or None where it is inherited. An alternative is a set and the bytes of a value.
`archive` works out the sets that are inherited, the timestamp trees and the directories, so that what it gives is a sound file.
"""
import struct
from itertools import chain


def u32(number):
    return struct.pack(">I", number)


def u64(number):
    return struct.pack(">Q", number)


def text(string):
    data = string.encode() if isinstance(string, str) else string
    return u32(len(data)) + data


def record(kind, body):
    return bytes([kind]) + u64(len(body)) + body


def number(value):
    """The scalar that is this number, as a key value."""
    return b"\0\3" + u64(value)


def content(*items, **attributes):
    """The content of these texts and of these attributes, which are numbers or texts."""
    rows = [text(name) + (b"\3" + u64(value) if isinstance(value, int) else b"\5" + text(value)) for name, value in sorted(attributes.items())]
    return b"\1" + u32(len(rows)) + b"".join(rows) + u32(len(items)) + b"".join(b"\0" + text(item) for item in items)


def stamp(pairs):
    return b"\0" if pairs is None else b"\1" + spelled_set(pairs)


def spelled_set(pairs):
    return u32(len(pairs)) + b"".join(struct.pack(">II", *pair) for pair in pairs)


def label(name, keys=()):
    return b"\1" + text(name) + u32(len(keys)) + b"".join(keys)


def inner(name, kids, keys=(), pairs=None):
    return 1, label(name, keys), kids, pairs


def leaf(name, alternatives, keys=(), pairs=None):
    return 2, label(name, keys), alternatives, pairs


def united(sets):
    """The union of some sets."""
    out = []
    for low, high in sorted(chain.from_iterable(sets)):
        if out and low <= out[-1][1] + 1:
            out[-1] = (out[-1][0], max(high, out[-1][1]))
        else:
            out.append((low, high))
    return out


def tree(sets):
    """The timestamp tree over the sets, and their union."""
    if len(sets) == 1:
        return spelled_set(sets[0]) + u64(0), sets[0]
    half = (len(sets) + 1) // 2
    (left, one), (right, two) = tree(sets[:half]), tree(sets[half:])
    both = one if one == two else united([one, two])
    return spelled_set(both) + u64(len(left)) + left + right, both


def row(kids, own):
    """The records of a row of nodes below a node that has these versions, and the directory behind them."""
    parts, rows, sets, at = [], [], [], 0
    for kid in kids:
        spelled, closed, effective = node(kid, own)
        parts.append(spelled)
        rows.append(u64(at) + u64(len(spelled)) + u64(closed))
        sets.append(effective)
        at += len(spelled)
    return b"".join(parts), u32(len(rows)) + b"".join(rows) + (tree(sets)[0] if rows else b"")


def node(it, parent):
    """The records of a node, the length of its directory, and its versions."""
    kind, named, inside, pairs = it
    own = parent if pairs is None else pairs
    head = record(kind, named + stamp(pairs))
    if kind == 2:
        return head + b"".join(record(3, stamp(own_set) + value) for own_set, value in inside) + record(5, b""), 0, own
    parts, end = row(inside, own)
    return head + parts + record(4, end), len(end), own


def header(rules, versions):
    return b"XARC1\n" + text(rules) + u32(versions)


def archive(rules, versions, kids):
    parts, end = row(kids, [(1, versions)] if versions else [])
    return header(rules, versions) + parts + record(4, end) + u64(len(end))


def with_notes(core, notes):
    """An archive with a note for each of its versions."""
    part = b"".join(text(note) for note in notes)
    return core + part + u64(len(part)) + b"\xff" * 8
