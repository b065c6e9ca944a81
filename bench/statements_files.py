"""Makes registries whose structs have many members, or that extend one another.

Run: statements_files.py FOLDER
"""
import sys

HEAD = "<registry><types><type name='int'/><type category='handle'><name>VkH</name></type>\n"
TAIL = "</types><feature api='vulkan' name='VK_V' number='1.0'/></registry>\n"


def members(count):
    """One struct, in which every other member is the length of the next."""
    lines = [HEAD, "<type category='struct' name='VkA'>\n"]
    for i in range(0, count, 2):
        lines.append(f"<member><type>int</type> <name>n{i}</name></member>\n")
        lines.append(f"<member len='n{i}'><type>VkH</type>* <name>p{i}</name></member>\n")
    return "".join(lines + ["</type>\n", TAIL])


def structs(count):
    """Structs with a chain, each of which extends the one before it."""
    lines = [HEAD]
    for i in range(count):
        extends = f" structextends='Vk{i - 1}'" if i else ""
        lines.append(f"<type category='struct' name='Vk{i}'{extends}><member><type>int</type>* <name>pNext</name></member></type>\n")
    return "".join(lines + [TAIL])


def main():
    for count in (100_000, 200_000):
        with open(f"{sys.argv[1]}/members-{count}.xml", "w") as out:
            out.write(members(count))
    for count in (3_000, 6_000):
        with open(f"{sys.argv[1]}/structs-{count}.xml", "w") as out:
            out.write(structs(count))


main()
