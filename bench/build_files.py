# Writes texts for bench/build.sh.
#   build_files.py BLOCKS >TEXT             that many blocks of lines, each under conditions on two of 12 options
#   build_files.py pages REGISTRY >TEXT     an include of the declaration and of the valid usage of each struct and command
import sys
from xml.etree import ElementTree

BLOCK = 330


def block(number):
    joint = ",+"[number % 2]
    names = f"VK_{number % 12}{joint}VK_{(number * 5 + 1) % 12}"
    yield from (f"ifdef::{names}[]", f"[[a-{number}]] where they are set", f"ifndef::VK_{number % 7}[]", "// a line within two conditions", "endif::[]", f"endif::{names}[]")
    yield from (f"ifndef::{names}[]", f"[[a-{number}]] where they aren't", "endif::[]", f"ifdef::VK_{number % 5}[See <<a-{number},the anchor>>.]")
    for line in range(BLOCK - 10):
        yield f"Line {line} of block {number}: a line of text that stands whatever is chosen, as most do."


def pages(registry):
    root = ElementTree.parse(registry).getroot()
    structs = [it.get("name") for it in root.findall("types/type") if it.get("category") == "struct"]
    commands = [it.get("name") or it.findtext("proto/name") for it in root.findall("commands/command")]
    for name in structs + commands:
        yield from (f"[[page-{name}]]", f"include::{{generated}}/api/structs/{name}.adoc[]", f"include::{{generated}}/validity/structs/{name}.adoc[]")


if sys.argv[1] == "pages":
    lines = pages(sys.argv[2])
else:
    lines = (line for number in range(int(sys.argv[1])) for line in block(number))
print("\n".join(lines))
