#!/usr/bin/env python3
"""Writes registries for bench/rows.sh into a folder: rows_files.py FOLDER"""
import sys

folder = sys.argv[1]
FEATURE = "<feature api='vulkan' name='VK_V' number='1.0'/>\n"


def write(name, lines):
    with open(f"{folder}/{name}.xml", "w") as file:
        file.write("<registry>\n")
        file.writelines(lines)
        file.write(FEATURE + "</registry>\n")


def struct(name, types):
    yield f"<type category='struct' name='{name}'>\n"
    for place, base in enumerate(types):
        yield f"  <member>const <type>{base}</type>* <name>m{place}</name></member>\n"
    yield "</type>\n"


def structs(count, types_of):
    yield "<types>\n<type name='int'/>\n"
    for number in range(count):
        yield from struct(f"VkStruct{number}", types_of(number))
    yield "</types>\n"


def aliases(count):
    yield "<types><type category='enum' name='E'/></types>\n<enums name='E'>\n"
    for number in range(count):
        yield f"<enum name='A{number}' alias='A{number + 1}'/>\n"
    yield f"<enum name='A{count}' value='1'/>\n</enums>\n"


def types(count):
    yield "<types>\n"
    yield from (f"<type name='T{number}'/>\n" for number in range(count))
    yield "</types>\n"


def values(count):
    yield "<types><type category='enum' name='E'/></types>\n<enums name='E'>\n"
    yield from (f"<enum name='A{number:x}' value='1'/>\n" for number in range(count))
    yield "</enums>\n"


def options(count):
    """The feature, 256 extensions, and as bits the members of a struct under its many names."""
    yield "<types>\n<type name='int'/>\n"
    yield from struct("S", ["int"] * 1024)
    yield from (f"<type category='struct' name='S{number}' alias='S'/>\n" for number in range(1024))
    yield "</types>\n<extensions>\n"
    bits = [f"S{place // 1024}::m{place % 1024}" for place in range(count - 1 - 256)]
    for number in range(256):
        depends = "+".join(bits[number * 4096 : (number + 1) * 4096])
        yield f"<extension name='VK_{number}' number='{number}' supported='vulkan' depends='{depends}'/>\n"
    yield "</extensions>\n"


# 32 MB, more than half a million lines
write("large", structs(82_000, lambda n: ["int"] + [f"VkStruct{max(0, n - step)}" for step in (1, 7, 100, 1000)] if n else ["int"]))
write("aliases_100000", aliases(100_000))
write("aliases_200000", aliases(200_000))
write("circle_100000", structs(100_000, lambda n: [f"VkStruct{(n + 1) % 100_000}"]))
write("circle_200000", structs(200_000, lambda n: [f"VkStruct{(n + 1) % 200_000}"]))
write("members_100000", structs(1, lambda n: ["int"] * 100_000))
write("members_200000", structs(1, lambda n: ["int"] * 200_000))
# as many as a table of names holds, and one more
for count in (1_048_576, 1_048_577):
    write(f"names_{count}", types(count))
    write(f"enumerants_{count}", values(count))
    write(f"options_{count}", options(count))
