#!/usr/bin/env python3
"""Writes registries for bench/closure.sh into a folder: closure_files.py FOLDER"""
import sys

folder = sys.argv[1]


def write(name, count, base_of, required):
    with open(f"{folder}/{name}.xml", "w") as file:
        file.write("<registry>\n<types>\n")
        for number in range(count):
            base = base_of(number)
            member = f"<member>const <type>VkStruct{base}</type>* <name>m</name></member>" if base is not None else ""
            file.write(f"<type category='struct' name='VkStruct{number}'>{member}</type>\n")
        file.write("</types>\n<feature api='vulkan' name='VK_V' number='1.0'><require>\n")
        for number in required:
            file.write(f"<type name='VkStruct{number}'/>\n")
        file.write("</require></feature>\n</registry>\n")


for count in (100_000, 200_000):
    # each struct points to the next, and the first is required
    write(f"chain_{count}", count, lambda n: n + 1 if n + 1 < count else None, [0])
    # all others point to the first, and are required
    write(f"star_{count}", count, lambda n: 0 if n else None, range(1, count))
