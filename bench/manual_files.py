"""Writes a document for bench/manual.sh that is laid out as the sources of the Vulkan specification are, from a registry alone.

Run: manual_files.py REGISTRY [whole]

In the current folder are then manual.adoc and a file below chapters/ for each feature and extension, with a page for each type and command that it
requires first. A page sets `refpage`, includes the declaration and the valid usage of its name, links to all that the name names, and has a statement
with a link to it. Each file stands under its `ifdef`: so where another option brings a name in too, as the extension from which a feature took it, the
page is missing, and links to it break. In a whole document each page stands under all options that bring its name in, and each link holds.
"""
import os
import sys
from xml.etree import ElementTree

API = "vulkan"

# For each category of types that have a page: where their pages stand, the macro that links to them, and what a text calls them.
KINDS = {
    "struct": ("structs", "slink", "structure"),
    "union": ("structs", "slink", "union"),
    "handle": ("handles", "slink", "handle"),
    "enum": ("enums", "elink", "enumeration"),
    "bitmask": ("flags", "tlink", "bitmask"),
    "funcpointer": ("funcpointers", "tlink", "function pointer"),
    "basetype": ("basetypes", "reflink", "type"),
    "command": ("protos", "flink", "command"),
}


class Name:
    """A type or command: its name, its kind, and the names that it names, each once."""

    def __init__(self, name, kind, element):
        self.name = name
        self.kind = kind
        # The options that bring it in, in their order.
        self.options = []
        mentioned = [element.get(key) for key in ("alias", "requires", "bitvalues")]
        mentioned += [it.text for it in element.iter("type") if it is not element]
        self.names = list(dict.fromkeys(it for it in mentioned if it not in (None, name)))


def read_names(root):
    for element in root.findall("types/type"):
        name = element.get("name") or element.findtext("name")
        yield Name(name, element.get("category"), element)
    for element in root.findall("commands/command"):
        yield Name(element.get("name") or element.findtext("proto/name"), "command", element)


def read_options(root):
    """The name of each option with the names that it requires, in order."""
    features = [it for it in root.findall("feature") if API in it.get("api").split(",")]
    extensions = [it for it in root.findall("extensions/extension") if API in it.get("supported").split(",")]
    for option in features + extensions:
        yield option.get("name"), [it.get("name") for block in option.findall("require") for it in block if it.tag in ("type", "command")]


def bring_in(declared, option, required):
    """Notes with all names to which those that an option requires lead that it brings them in."""
    waiting = list(required)
    while waiting:
        name = declared.get(waiting.pop())
        if name and option not in name.options:
            name.options.append(option)
            waiting += name.names


def page(name, declared, paged):
    place, _, word = KINDS[name.kind]
    yield from (f":refpage: {name.name}", f"=== {name.name}", "", f"The {word} {name.name} is declared so:")
    yield from (f"include::{{generated}}/api/{place}/{name.name}.adoc[]", "")
    for other in name.names:
        if other in paged:
            yield f"  * It names {KINDS[declared[other].kind][1]}:{other}, of which its own page tells."
    yield from (".Valid Usage", "****", "  * [[VUID-{refpage}-None-00001]]", f"    The {word} must: be used as the lines above say", "****")
    yield from (f"include::{{generated}}/validity/{place}/{name.name}.adoc[]", "See also <<VUID-{refpage}-None-00001>>.", "")


def within(options, lines):
    names = ",".join(options)
    yield f"ifdef::{names}[]"
    yield from lines
    yield f"endif::{names}[]"


def write(file, lines):
    with open(file, "w") as out:
        out.writelines(line + "\n" for line in lines)


def main():
    root = ElementTree.parse(sys.argv[1]).getroot()
    whole = sys.argv[2:] == ["whole"]
    declared = {name.name: name for name in read_names(root)}
    options = list(read_options(root))
    pages = {option: [] for option, _ in options}
    paged = set()
    for option, required in options:
        bring_in(declared, option, required)
        for name in required:
            if name not in paged and declared[name].kind in KINDS:
                paged.add(name)
                pages[option].append(declared[name])
    os.makedirs("chapters", exist_ok=True)
    lowest = options[0][0]
    for option, names in pages.items():
        lines = [f"== {option}", ""]
        for name in names:
            own = page(name, declared, paged)
            # The lowest version is always chosen, and what it brings in is always declared.
            lines += within([lowest] if lowest in name.options else name.options, own) if whole else own
        write(f"chapters/{option}.adoc", lines)
    includes = {option: [f"include::{{chapters}}/{option}.adoc[]"] for option in pages}
    root_lines = [line for option, own in includes.items() for line in (own if whole else within([option], own))]
    write("manual.adoc", ["= A manual", "", *root_lines])
    print(f"{len(options)} options, {len(paged)} pages")


main()
