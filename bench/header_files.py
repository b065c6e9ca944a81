"""Makes registries on which a header that takes too long would show, in the folder that is named."""
import os
import sys

folder = sys.argv[1]


def put(name, types="", enums="", commands="", extensions=""):
    with open(os.path.join(folder, name + ".xml"), "w") as file:
        file.write("<registry><types>%s</types>%s<commands>%s</commands>" % (types, enums, commands))
        file.write("<feature api='vulkan' name='VK_V' number='1.0'><require><type name='VkLast'/><command name='vkLast'/></require></feature>")
        file.write("<extensions>%s</extensions></registry>" % extensions)


FIRST = "<command><proto><type>VkLast</type> <name>vkFirst</name></proto><param><type>VkLast</type> <name>a</name></param></command>"


def aliases(count):
    names = ["vkFirst"] + ["vk%d" % n for n in range(count)] + ["vkLast"]
    return FIRST + "".join("<command name='%s' alias='%s'/>" % (name, of) for of, name in zip(names, names[1:]))


def values(count):
    own = "".join("<enum name='E%d' value='%d'/>" % (n, n) for n in range(count))
    return "<enums name='VkLast' type='enum'>%s%s</enums>" % (
        own, "".join("<enum name='F%d' alias='E%d'/>" % (n, n) for n in range(count)))


for count in (100000, 200000):
    put("aliases-%d" % count, "<type name='VkLast'/>", "", aliases(count))
    put("values-%d" % count, "<type category='enum' name='VkLast'/>", values(count), aliases(0))
    put("members-%d" % count, "<type name='int'/><type category='struct' name='VkLast'>%s</type>" % "".join(
        "<member><type>int</type> <name>m%d</name></member>" % n for n in range(count)), "", aliases(0))
    put("structs-%d" % count, "<type name='VkLast'/>" + "".join("<type category='struct' name='VkS%d'/>" % n for n in range(count)), "", aliases(0),
        "<extension name='VK_X' number='1' supported='vulkan'><require>%s</require></extension>" % "".join(
            "<type name='VkS%d'/>" % n for n in range(count)))
