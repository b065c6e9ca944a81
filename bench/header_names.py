"""Lists options of a registry, one a line: header_names.py REGISTRY [extensions]: its versions, and its extensions that need no platform's own types."""
import sys
import xml.etree.ElementTree as etree

root = etree.parse(sys.argv[1]).getroot()
names = [one.get("name") for one in root.findall("feature") if "vulkan" in one.get("api").split(",")]
if sys.argv[2:] == ["extensions"]:
    names += [one.get("name") for one in root.findall("extensions/extension") if "vulkan" in one.get("supported").split(",") and not one.get("platform")]
print("\n".join(names))
