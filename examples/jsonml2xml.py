"""Prints a JsonML document as XML: python3 jsonml2xml.py FILE.json > FILE.xml"""
import json, sys
from xml.sax.saxutils import escape, quoteattr

def xml(item):
    if isinstance(item, str):
        return escape(item, {"\r": "&#13;"})
    tag, *items = item
    attributes = items.pop(0) if items and isinstance(items[0], dict) else {}
    words = "".join(f" {name}={quoteattr(value if isinstance(value, str) else json.dumps(value))}" for name, value in attributes.items())
    return f"<{tag}{words}>{''.join(map(xml, items))}</{tag}>"

print(xml(json.load(open(sys.argv[1], encoding="utf-8"))))
