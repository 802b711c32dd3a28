"""Prints an XML file as JsonML: python3 xml2jsonml.py FILE.xml > FILE.json"""
import json, sys
from xml.etree import ElementTree

def jsonml(element):
    local = lambda name: name.rpartition("}")[2]
    attributes = {}
    for name, value in element.items():
        if local(name) in attributes:
            sys.exit(f"xml2jsonml.py: without its namespace, an attribute of {local(element.tag)} is {local(name)} too")
        attributes[local(name)] = value
    items = [local(element.tag), attributes] if attributes else [local(element.tag)]
    items += [element.text] if element.text else []
    for child in element:
        items += [jsonml(child), child.tail] if child.tail else [jsonml(child)]
    return items

print(json.dumps(jsonml(ElementTree.parse(sys.argv[1]).getroot()), ensure_ascii=False))
