"""The catalogue that the scripts beside this file keep in archives: records that come, go and change."""
import json
import random

SPEC = """(/, (catalogue, {}))
(/catalogue, (record, {@id}))
(/catalogue/record, (title, {}))
(/catalogue/record, (maker, {}))
(/catalogue/record, (year, {}))
(/catalogue/record, (place, {}))
(/catalogue/record, (note, {.}))
"""


def record(rng, number):
    """A record of the catalogue, with one to three notes."""
    notes = [["note", f"remark {rng.randrange(10**6)} on record {number}"] for _ in range(rng.randrange(1, 4))]
    return ["record", {"id": number}, ["title", f"Title {rng.randrange(10**6)} of {number}"], ["maker", f"Maker {rng.randrange(400)}"],
            ["year", str(rng.randrange(1800, 2000))], ["place", f"Room {rng.randrange(90)}"], *notes]


def catalogue(records, versions):
    """The documents of the versions, one after the other."""
    rng = random.Random(3)
    held = {number: record(rng, number) for number in range(records)}
    for version in range(versions):
        yield ["catalogue", *held.values()]
        for _ in range(records // 100):
            held.pop(rng.choice(list(held)))
            number = records * (version + 2) + len(held)
            held[number] = record(rng, number)
        for number in rng.sample(list(held), records // 20):
            held[number][4] = ["year", str(rng.randrange(1800, 2000))]


def table(rows):
    """A catalogue of one version. At 42,000 rows it has 8 MB, and its archive 46.7 MB."""
    return next(catalogue(rows, 1))


def short_record(number, turn):
    """A record of a hundred bytes. At another turn it has the same number and note, and other texts."""
    year, place = 1800 + (number + 3 * turn) % 199, (number + 7 * turn) % 89
    texts = f'["title","T{number}.{turn}"],["maker","M{(number + turn) % 397}"],["year","{year}"],["place","R{place}"]'
    return f'["record",{{"id":{number}}},{texts},["note","N{number % 7}"]]'


def short_table(records, turn, every):
    """The text of a catalogue of short records. From turn to turn one of so many changes, and a tenth of these are replaced."""
    rows = []
    for number in range(records):
        changes = turn if number % every == 0 else 0
        replaced = changes if number % (10 * every) == 0 else 0
        rows.append(short_record(number + records * replaced, changes))
    return f'["catalogue",{",".join(rows)}]\n'


def write(path, document):
    path.write_text(json.dumps(document, separators=(",", ":")) + "\n")
