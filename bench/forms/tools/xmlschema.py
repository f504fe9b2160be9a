"""XML Schema's own readings, by libxml2: XML_DOUBLE, DECIMAL. It says what is valid; the value is
that of Python's float."""
import os
import struct
import sys

from lxml import etree

KIND = "double" if os.environ["FORM"] == "XML_DOUBLE" else "decimal"
schema = etree.XMLSchema(etree.XML(
    '<xs:schema xmlns:xs="http://www.w3.org/2001/XMLSchema">'
    f'<xs:element name="a" type="xs:{KIND}"/></xs:schema>'))
element = etree.Element("a")


def answer(text):
    element.text = text
    if not schema.validate(element):
        return "-"
    try:
        return "f" + struct.pack(">d", float(text.lower() if "N" in text else text)).hex()
    except ValueError:
        return "f?"


for line in sys.stdin:
    print(answer(line.rstrip("\n")))
