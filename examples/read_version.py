"""Prints a version of an archive without xarch, by docs/FORMAT.md: python3 read_version.py FILE.xar NUMBER"""
import json, sys

INNER, LEAF, ALT, END, LEAFEND = 1, 2, 3, 4, 5
file, version = open(sys.argv[1], "rb"), int(sys.argv[2])

def number(size):
    return int.from_bytes(file.read(size), "big")

def text():
    return file.read(number(4)).decode("utf-8")

def scalar():
    kind = number(1)
    return [None, False, True][kind] if kind < 3 else number(8) if kind == 3 else -1 - number(8) if kind == 4 else text()

def content():
    """The attributes, if there are any, and the items."""
    attributes = {text(): scalar() for _ in range(number(4))}
    items = [text() if number(1) == 0 else [text(), *content()] for _ in range(number(4))]
    return [attributes, *items] if attributes else items

def value():
    return scalar() if number(1) == 0 else content()

def has_version(parent):
    """Reads a timestamp. Without one, a node has the versions of its parent."""
    if number(1) == 0:
        return parent
    intervals = [(number(4), number(4)) for _ in range(number(4))]
    return any(first <= version <= last for first, last in intervals)

def alternatives(parent):
    """Reads a leaf to its end, and gives the content that it has in the version."""
    found = None
    while (number(1), number(8))[0] == ALT:
        is_it, read = has_version(parent), value()
        found = read if is_it else found
    return found

def children(parent):
    """Reads an inner node to its end, and gives its attributes and items in the version."""
    attributes, items = {}, []
    while True:
        kind, size = number(1), number(8)
        if kind == END:
            file.seek(size, 1)
            return [attributes, *items] if attributes else items
        is_element, name, _ = number(1), text(), [value() for _ in range(number(4))]
        is_there = has_version(parent)
        inside = children(is_there) if kind == INNER else alternatives(is_there)
        if is_there and is_element:
            items.append([name, *inside])
        elif is_there:
            attributes[name] = inside

if file.read(6) != b"XARC1\n":
    sys.exit("no archive")
text()
if not 1 <= version <= number(4):
    sys.exit("no such version")
print(json.dumps(children(True)[0], ensure_ascii=False, separators=(",", ":")))
