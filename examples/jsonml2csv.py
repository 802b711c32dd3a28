"""Prints a document that `xarch table` made as CSV: python3 jsonml2csv.py FILE.json ['COLUMN,COLUMN..'] > FILE.csv"""
import csv, json, sys

if len(sys.argv) not in (2, 3):
    sys.exit("jsonml2csv.py: usage: FILE.json ['COLUMN,COLUMN..'], the columns in quotes if a name has a blank")
rows = [row[1] if len(row) > 1 else {} for row in json.load(open(sys.argv[1], encoding="utf-8"))[1:]]
there = sorted({name for row in rows for name in row})
columns = next(csv.reader([sys.argv[2]])) if len(sys.argv) > 2 else there
left_out = [name for name in there if name not in columns]
if left_out:
    sys.exit(f"jsonml2csv.py: name these columns of {sys.argv[1]} too: {', '.join(left_out)}")
writer = csv.DictWriter(sys.stdout, columns, lineterminator="\n")
writer.writeheader()
writer.writerows(rows)
