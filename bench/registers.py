"""Two registers of the Unicode characters, as they stood at each of the 25 ages of the standard up to 15.0.

They are made of Debian's package unicode-data: in one a character's fields are attributes, in the other elements, and
the document is indented.
"""
import json
from bisect import bisect_right
from pathlib import Path

UNICODE = Path("/usr/share/unicode")
AGES = 25

FIELDS = ["code", "name", "category", "combining", "bidi", "decomposition", "decimal", "digit", "numeric", "mirrored", "old_name",
          "comment", "upper", "lower", "title"]

ATTRIBUTES = "(/, (ucd, {}))\n(/ucd, (char, {@code}))\n(/ucd/char, (cell, {}))\n"
ELEMENTS = "(/, (ucd, {}))\n(/ucd, (char, {code}))\n(/ucd/char, (name, {}))\n(/ucd/char, (props, {}))\n"


def lines_of(name):
    """The fields of a file's lines, without comments."""
    lines = (line.split("#")[0] for line in (UNICODE / name).read_text(encoding="utf-8").splitlines())
    return [[field.strip() for field in line.split(";")] for line in lines if line.strip()]


def characters():
    """Each character's age and fields, where it has an age."""
    spans = []
    for span, age in lines_of("DerivedAge.txt"):
        first, _, last = span.partition("..")
        spans.append((int(first, 16), int(last or first, 16), tuple(int(part) for part in age.split("."))))
    spans.sort()
    for fields in lines_of("UnicodeData.txt"):
        code = int(fields[0], 16)
        first, last, age = spans[bisect_right(spans, code, key=lambda span: span[0]) - 1]
        if first <= code <= last:
            yield age, fields


def with_attributes(fields):
    return ["char", {name: field for name, field in zip(FIELDS, fields) if field}]


def with_elements(fields):
    properties = [[name, field] for name, field in zip(FIELDS[2:], fields[2:]) if field]
    return ["char", ["code", fields[0]], ["name", fields[1]], ["props", *properties]]


def versions(character, ages, **form):
    """The register's text at each of the first ages, one after the other."""
    held = list(characters())
    for now in sorted({age for age, _ in held})[:ages]:
        register = ["ucd", *[character(fields) for age, fields in held if age <= now]]
        yield json.dumps(register, **form) + "\n"


def registers(ages=AGES):
    """What each register is called, its keys, and its versions, or the first of them."""
    yield "characters with attributes", ATTRIBUTES, versions(with_attributes, ages, separators=(",", ":"))
    yield "characters with elements", ELEMENTS, versions(with_elements, ages, indent=1)
