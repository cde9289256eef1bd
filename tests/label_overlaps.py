#!/usr/bin/env python3
"""Fails if two labels of a time line overlap or one leaves the picture: label_overlaps.py SVG.

Every character is taken to be as wide as a digit of DejaVu Sans."""

import sys
import xml.etree.ElementTree as tree

# The width of a digit in pixels at size 12; most letters are narrower.
CHARACTER = {"normal": 7.64, "bold": 8.35}


def boxes(root):
    for element in root.iter("{http://www.w3.org/2000/svg}text"):
        size = float(element.get("font-size"))
        width = len(element.text) * CHARACTER[element.get("font-weight")] * size / 12
        x, y = float(element.get("x")), float(element.get("y"))
        left = {"start": x, "middle": x - width / 2, "end": x - width}[element.get("text-anchor")]
        yield left, left + width, y - size * 0.75, y + size * 0.2, element.text


def main():
    root = tree.parse(sys.argv[1]).getroot()
    found = list(boxes(root))
    faults = []
    for index, (left, right, top, bottom, text) in enumerate(found):
        if left < 0 or right > float(root.get("width")) or bottom > float(root.get("height")):
            faults.append(f"'{text}' leaves the picture")
        for other in found[:index]:
            if left < other[1] and other[0] < right and top < other[3] and other[2] < bottom:
                faults.append(f"'{text}' overlaps '{other[4]}'")
    print(f"{len(found)} labels")
    if faults or not found:
        sys.exit("\n".join(faults) or "no labels")


if __name__ == "__main__":
    main()
